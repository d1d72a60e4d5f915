#!/bin/sh
# Kills `cnc run` on so many workers at random moments, COUNT times, and runs on each time: a third of the times while the items and tags are put, then while the
# steps run. Each line that was answered `ok` must be found by the next run, and the last report must be the right one. Eight chains of N steps each add the
# numbers from 1 to N. It says how the steps were committed too: a record has at most 64.
#
# usage: killed.sh CNC [COUNT [N [WORKERS [FOLDER [SIGNAL]]]]]
#     COUNT    how often it is killed (300); 30 take some 10 seconds
#     N        the steps of a chain (4000)
#     WORKERS  the workers (8)
#     FOLDER   a folder of the file system that is used; a new one in it holds the store, and is removed (the directory for temporary files)
#     SIGNAL   how it is stopped (KILL); INT is what Ctrl-C sends, TERM what `kill` does
set -eu
cnc=${1:?the program}
count=${2:-300}
number=${3:-4000}
workers=${4:-8}
signal=${6:-KILL}
room=$(mktemp -d "${5:-${TMPDIR:-/tmp}}/killed.XXXXXX")
trap 'rm -rf "$room"' EXIT
mkdir "$room/store"

cat >"$room/graph" <<'GRAPH'
[sum: chain, i];
<n: chain, i>;
<n> :: (add);
[sum] -> (add);
(add) -> [sum];
env -> [sum];
env -> <n>;
[sum] -> env;
step add(chain, i) {
  var before;
  read { get before = [sum: chain, i - 1]; }
  write { put [sum: chain, i] = before + i; }
}
GRAPH
{
    seq 1 8 | sed 's/.*/put [sum: &, 0] = 0/'
    for i in $(seq 1 "$number"); do
        seq 1 8 | sed "s/.*/tag <n: &, $i>/"
    done
} >"$room/puts"
{
    cat "$room/puts"
    echo run
} >"$room/script"
echo run >"$room/run"
lines=$((8 * number + 8))

# Walks the records of the first file, which no turnover has left: each has an open gate, its length and a payload, whose first byte is its kind, 3 for the end of
# one step and 5 for a group, with the number of its events behind it. Prints how many steps are in how many records, and the most in one.
records() {
    od -An -v -tu1 -w1 "$room/store/A" | awk '
        function word(at) { return byte[at] + 256 * (byte[at + 1] + 256 * (byte[at + 2] + 256 * byte[at + 3])) }
        { byte[NR - 1] = $1 + 0 }
        END {
            at = 10
            at += 4 + word(at)
            at += 4 + word(at)
            while (byte[at] == 1) {
                # A record of one step; or a group of steps, but not of lines that were put.
                steps = byte[at + 5] == 3 ? 1 : byte[at + 5] == 5 && byte[at + 8] == 3 ? byte[at + 6] + 256 * byte[at + 7] : 0
                if (steps > 0) { done += steps; count++ }
                if (steps > most) most = steps
                at += 5 + word(at + 1)
            }
            printf "%d steps in %d records, at most %d in one\n", done, count, most
        }'
}

"$cnc" create "$room/graph" "$room/store" >"$room/created"

# How many of the first lines were answered, so that they are in the store.
answered=0
killed=0
round=0
while [ "$round" -lt "$count" ]; do
    round=$((round + 1))
    script=$room/script
    if [ "$round" -gt $((count / 3)) ]; then script=$room/run; fi
    if [ "$round" -eq $((count / 3 + 1)) ]; then
        "$cnc" run "$room/store" "$room/puts" >"$room/out" || true
        if head -n "$answered" "$room/out" | grep -q '^ok$'; then
            echo "a line that was answered is lost" >&2
            exit 1
        fi
    fi
    # A shell lets a process in the background ignore SIGINT: here it is as in the foreground.
    env --default-signal=INT "$cnc" run "$room/store" "$script" --workers "$workers" >"$room/out" 2>"$room/err" &
    process=$!
    sleep "0.$(awk -v seed="$round$$" 'BEGIN { srand(seed); printf "%03d", rand() * 250 }')"
    kill -s "$signal" "$process" 2>/dev/null || true
    status=0
    wait "$process" 2>/dev/null || status=$?
    if [ "$status" -gt 128 ]; then killed=$((killed + 1)); fi
    if [ -s "$room/err" ]; then
        echo "round $round: $(cat "$room/err")" >&2
        exit 1
    fi
    if [ "$script" = "$room/run" ]; then continue; fi
    # A line that was answered before must be refused now: it is there.
    if head -n "$answered" "$room/out" | grep -q '^ok$'; then
        echo "round $round: a line that was answered is lost" >&2
        exit 1
    fi
    now=$(head -n "$lines" "$room/out" | grep -c '^ok$\|^refused [46]: .*' || true)
    if [ "$now" -gt "$answered" ]; then answered=$now; fi
done

"$cnc" report "$room/store" >"$room/out" || true
before=$(tail -n 1 "$room/out" | sed 's/.* tags, \([0-9]*\) of.*/\1/')
"$cnc" run "$room/store" "$room/script" --workers "$workers" >"$room/out"
tail -n 1 "$room/out" | grep -qx "$lines items, $((8 * number)) tags, $((8 * number)) of $((8 * number)) steps done"
for chain in 1 2 3 4 5 6 7 8; do
    grep -qx "\[sum: $chain, $number\] = $((number * (number + 1) / 2))" "$room/out"
done
together=$(records)
case $together in
"$((8 * number)) steps in "*) ;;
*)
    echo "the records have $together" >&2
    exit 1
    ;;
esac
echo "$count runs on $workers workers, $killed of them stopped by $signal, $answered lines answered: all found; $before steps done before the last run, and its report is right; $together"
