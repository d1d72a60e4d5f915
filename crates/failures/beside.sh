#!/bin/sh
# Looks at a store while a run has it open. Another program reads both files all the time, which does no harm; `report`, `turn` and `run` of a second `cnc` say `device failed`
# with status 5, and change nothing. The run then ends as it must, and so do a turnover and a report.
#
# usage: beside.sh CNC [N [FOLDER]]
#     N        the steps of a chain (4000)
#     FOLDER   where a new folder holds the store, and is removed (the directory for temporary files); not a file system in memory, on which the run ends too soon
set -eu
cnc=$(realpath "${1:?the program}")
number=${2:-4000}
here=$(realpath "$(dirname "$0")")
room=$(mktemp -d "${3:-${TMPDIR:-/tmp}}/beside.XXXXXX")
trap 'rm -rf "$room"' EXIT
cd "$room"
. "$here/chains.sh"
status=0
"$cnc" create graph store >created
"$cnc" run store script --workers 4 >out 2>err &
process=$!

# The run has the store open from its first answer on until it answers `complete`, and a little longer.
while [ ! -s out ]; do :; done
looks=0
refused=0
while ! grep -q '^complete$' out; do
    cat store/A store/B | cksum >sums
    looks=$((looks + 1))
    for command in 'report store' 'turn store' 'run store script'; do
        second=0
        # The words are to be split.
        "$cnc" $command >second.out 2>second.err || second=$?
        if grep -q '^complete$' out; then break; fi
        test "$second" = 5 && test ! -s second.out && test "$(cat second.err)" = 'device failed' || {
            echo "beside a run: $command: status $second" >&2
            exit 1
        }
        refused=$((refused + 1))
    done
done
wait "$process" || status=$?
come_to none none none || wrong 'the run'
test "$kind" = whole || wrong 'the run'
"$cnc" turn store >turned
grep -qx 'turned, generation [23]' turned
"$cnc" report store | cmp -s - report
if [ "$refused" = 0 ]; then
    echo 'the run ended before another program had looked: take more steps, or a slower disk' >&2
    exit 1
fi
echo "$looks looks at both files, and $refused commands of a second program, all refused; the run, a turnover and the report are right"
