#!/bin/sh
# Runs the program with little memory and with few threads: first with so little memory that it does not start, then with some more each time, until four times in a row
# nothing is refused; and then as a user who may have one thread, two, and so on. Each time it writes what is right; or right lines up to `refused 10: no memory`, and as
# the reply to `run` also `refused 8: halted` or `refused: no thread`; or `no memory`, with status 5. After that the store opens and the script runs on, and each line that
# was answered is there. Some minutes, and some 20 MB in FOLDER.
#
# usage: refused.sh CNC [STEP [N [FOLDER]]]
#     STEP     by how many KiB the memory grows each time (128)
#     N        the steps of a chain (600)
#     FOLDER   where a new folder holds the stores, and is removed (the directory for temporary files); a file system in memory is fastest
# The part on threads needs the superuser, who becomes a user without a name for it; else it is left out.
set -eu
cnc=$(realpath "${1:?the program}")
step=${2:-128}
number=${3:-600}
here=$(realpath "$(dirname "$0")")
room=$(mktemp -d "${4:-${TMPDIR:-/tmp}}/refused.XXXXXX")
trap 'rm -rf "$room"' EXIT
cd "$room"
cp "$cnc" program
cnc=$room/program
. "$here/chains.sh"
mkdir empty done
"$cnc" create graph empty >created
cp -R empty/. done
"$cnc" run done script >out
cmp -s out right

# limited LIMIT WORD..: the program with these words, in so many KiB
limited() {
    limit=$1
    shift
    status=0
    (
        ulimit -v "$limit"
        exec "$cnc" "$@"
    ) >out 2>err || status=$?
}

# A store as it was.
renew() {
    rm -rf store
    mkdir store
    cp "$1"/A "$1"/B store
}

# Counts what a run came to.
count() {
    echo "$1" >>kinds
}

# What `turn`, `report` and `create` must have written: what is right, in `wanted`, or that there is no memory.
is_whole_or_none() {
    if [ "$status" = 0 ] && cmp -s out wanted && [ ! -s err ]; then return 0; fi
    all=no
    test "$status" = 5 || wrong "$1 in $limit KiB"
    test "$(cat err)" = 'no memory' || wrong "$1 in $limit KiB"
}

# Tries each command in so many KiB. Sets `all` to whether nothing was refused.
try() {
    all=yes
    renew empty
    limited "$1" run store script --workers 4
    come_to 'refused 10: no memory' 'refused 8: halted' 'refused: no thread' || wrong "run in $1 KiB"
    case $kind in
    whole) ;;
    'no memory' | refused*) all=no ;;
    *) wrong "run in $1 KiB" ;;
    esac
    count "$kind"
    goes_on "run in $1 KiB"

    renew 'done'
    limited "$1" report store
    cp report wanted
    is_whole_or_none report
    test -s out && test "$status" != 0 && wrong "report in $1 KiB"
    limited "$1" turn store
    echo 'turned, generation 2' >wanted
    is_whole_or_none turn
    "$cnc" report store | cmp -s - report || wrong "the report after turn in $1 KiB"
    "$cnc" turn store >turned || wrong "turn again after $1 KiB"

    rm -rf store
    limited "$1" create graph store
    echo created >wanted
    is_whole_or_none create
    if [ "$status" = 0 ]; then "$cnc" report store | grep -qx '0 items, 0 tags, 0 of 0 steps done' || wrong "the report after create in $1 KiB"; fi
}

# The least memory in which the program starts: it says its version, or that there is no memory.
limit=$step
limited "$limit" --version
while [ "$status" != 0 ] && [ "$status" != 5 ]; do
    limit=$((limit + step))
    limited "$limit" --version
done
least=$limit

tries=0
whole=0
: >kinds
while [ "$whole" -lt 4 ]; do
    try "$limit"
    tries=$((tries + 1))
    if [ "$all" = yes ]; then whole=$((whole + 1)); else whole=0; fi
    limit=$((limit + step))
done
echo "it starts in $least KiB, and nothing is refused from some $((limit - 4 * step)) KiB on; $tries tries, whose runs came to:"
sort kinds | uniq -c
for kind in whole 'no memory' 'refused 10: no memory'; do
    grep -qx "$kind" kinds || {
        echo "no run came to: $kind" >&2
        exit 1
    }
done

# The part on threads: eight workers, as a user who may have so many threads.
if [ "$(id -u)" != 0 ]; then
    echo 'the part on threads is left out: it needs the superuser'
    exit 0
fi
chmod 755 "$room" program
: >kinds
for threads in 1 2 3 4 5 6 7 8 9 10; do
    renew empty
    chown -R 64999:64999 store
    status=0
    setpriv --reuid=64999 --regid=64999 --clear-groups prlimit --nproc="$threads" "$cnc" run store script --workers 8 >out 2>err || status=$?
    come_to 'none' 'refused: no thread' 'none' || wrong "run with $threads threads"
    count "$kind"
    goes_on "run with $threads threads"
done
echo 'with 1 to 10 threads the runs came to:'
sort kinds | uniq -c
grep -qx whole kinds
grep -qx 'refused: no thread' kinds
