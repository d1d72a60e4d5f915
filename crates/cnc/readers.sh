#!/bin/sh
# Commands that only read a store: beside each other, beside one that writes, and by a user who may not write.
#
# usage: readers.sh CNC
# It needs `flock`, which stands for another program that has the store open. The part on another user needs the superuser; else it is left out.
set -eu
cnc=$(realpath "${1:?the program}")
here=$(realpath "$(dirname "$0")/../..")
room=$(mktemp -d)
trap 'chmod -R u+w "$room"; rm -rf "$room"' EXIT
cd "$room"
cp "$cnc" program
cnc=$room/program
"$cnc" create "$here/examples/fibonacci/graph" store >/dev/null
"$cnc" run store "$here/examples/fibonacci/script" >right
"$cnc" report store >report
"$cnc" draw --store store >drawn
cp store/A a
cp store/B b

# reads WORD..: report, verify and draw --store by a command before them come to what they came to alone, and leave both files as they are
reads() {
    "$@" "$cnc" report store | cmp -s - report || { echo "report: $*" >&2; exit 1; }
    test "$("$@" "$cnc" verify store)" = verified || { echo "verify: $*" >&2; exit 1; }
    "$@" "$cnc" draw --store store | cmp -s - drawn || { echo "draw: $*" >&2; exit 1; }
    cmp -s store/A a && cmp -s store/B b || { echo "the files have changed: $*" >&2; exit 1; }
}

# refused WORD..: this command says that the device failed, and leaves both files as they are
refused() {
    status=0
    "$@" >out 2>err || status=$?
    test "$status" = 5 && test "$(cat err)" = 'device failed' && test ! -s out || { echo "not refused: $*" >&2; exit 1; }
    cmp -s store/A a && cmp -s store/B b || { echo "the files have changed: $*" >&2; exit 1; }
}

reads flock -s store/A
for word in report verify turn; do
    refused flock -x store/A "$cnc" "$word" store
done
refused flock -s store/A "$cnc" turn store
refused flock -s store/A "$cnc" run store "$here/examples/fibonacci/script"
other=left
if [ "$(id -u)" = 0 ] && command -v setpriv >/dev/null; then
    chmod 755 . program
    chmod 555 store
    chmod 444 store/A store/B
    reads setpriv --reuid=65534 --regid=65534 --clear-groups
    refused setpriv --reuid=65534 --regid=65534 --clear-groups "$cnc" turn store
    other=tried
fi
echo "readers stand beside readers and no writer; a user who may not write: $other"
