#!/bin/sh
# Fills a store up to the limit of 1 GiB, and looks at what is refused from then on: a run, on one worker and on four, puts and tags of the environment, and a
# turnover. It takes some 11 GiB of memory, 1 GiB in the directory for temporary files (a file system in memory is fastest), and some five minutes.
#
# usage: full.sh CNC
set -eu
cnc=$1
room=$(mktemp -d)
trap 'rm -rf "$room"' EXIT
mkdir "$room/store"

# Each step puts 4,000 items, whose record has some 172,000 bytes.
cat >"$room/graph" <<'GRAPH'
[out: a, b, c, i];
<go: b>;
<note: k>;
<go> :: (fill);
(fill) -> [out];
env -> <go>;
env -> <note>;
env -> [out];
[out] -> env;
step fill(b) {
  var k;
  read { }
  write { for k in 0 .. 4000 { put [out: 0, 0, b, k] = k; } }
}
GRAPH
{
    seq 0 6999 | sed 's/.*/tag <go: &>/'
    echo run
} >"$room/fill"
{
    seq 0 9999 | sed 's/.*/put [out: 1, 1, 1, &] = 1/'
    seq 0 9999 | sed 's/.*/tag <note: &>/'
    echo 'put [out: 0, 0, 0, 0] = 1'
    echo 'get [out: 0, 0, 0, 3999]'
    echo run
} >"$room/more"

# Runs a script, and keeps the replies to its lines, without the report.
replies() {
    "$cnc" run "$room/store" "$room/$1" --workers "$2" | head -n "$(wc -l <"$room/$1")" >"$room/$1.out"
}

# Each line is `ok` up to some line, from which on each is refused as full.
then_full() {
    awk '/^ok$/ && !full { next } /^refused 7: full$/ { full = 1; next } { wrong = 1 } END { exit (wrong || !full) }'
}

# The checksum and the number of bytes of both files.
files() {
    cksum "$room/store/A" "$room/store/B" | cut -d ' ' -f 1,2 | tr '\n' ' '
}

# The number of bytes of the first file.
size() {
    stat -c %s "$room/store/A"
}

"$cnc" create "$room/graph" "$room/store" >"$room/created"
replies fill 1
test "$(tail -n 1 "$room/fill.out")" = 'refused 7: full'
test "$(head -n 7000 "$room/fill.out" | sort -u)" = 'ok'
after_fill=$(size)
full=$(files)

# A run on four workers is refused too, with status 4, and writes nothing.
echo run >"$room/again"
status=0
"$cnc" run "$room/store" "$room/again" --workers 4 >"$room/again.out" || status=$?
test "$status" = 4
test "$(head -n 1 "$room/again.out")" = 'refused 7: full'
test "$(files)" = "$full"

# Small puts fit until they don't; from then on each is refused, and so are the tags after some more.
replies more 1
head -n 10000 "$room/more.out" | then_full
sed -n '10001,20000p' "$room/more.out" | then_full
puts=$(head -n 10000 "$room/more.out" | grep -c '^ok$' || true)
tags=$(sed -n '10001,20000p' "$room/more.out" | grep -c '^ok$' || true)
test "$(sed -n 20001p "$room/more.out")" = 'refused 4: already put as 0'
test "$(sed -n 20002p "$room/more.out")" = '[out: 0, 0, 0, 3999] = 3999'
test "$(sed -n 20003p "$room/more.out")" = 'refused 7: full'
after_more=$(size)
full=$(files)

# An image of all this is too long.
status=0
"$cnc" turn "$room/store" >"$room/turned" 2>"$room/err" || status=$?
test "$status" = 4
test "$(files)" = "$full"

"$cnc" report "$room/store" | tail -n 1 >"$room/last"
echo "$after_fill bytes when the run was full, and $after_more after $puts puts and $tags tags; turnover: status $status, $(cat "$room/err"); $(cat "$room/last")"
