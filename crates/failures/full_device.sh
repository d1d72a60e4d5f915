#!/bin/sh
# Runs the program where no space is left: first with a limit on the size of a file, then on a small file system that other bytes fill. Each time there is some more room,
# until nothing is refused. A run writes right lines up to `refused 9: device`, or `refused 8: halted` as the reply to `run`, with status 5; `create` and `turn` say
# `device failed`. After room was made the store opens and the script runs on, each line that was answered is there, and a store that was not turned over has all.
#
# usage: full_device.sh CNC [N]
#     N   the steps of a chain (60)
# The small file system is one of 2 MiB in a file of the directory for temporary files, which the superuser may mount; else that part is left out.
set -eu
cnc=$(realpath "${1:?the program}")
number=${2:-60}
here=$(realpath "$(dirname "$0")")
room=$(mktemp -d)
mounted=
trap 'cd /; test -z "$mounted" || umount "$room/small"; rm -rf "$room"' EXIT
cd "$room"
. "$here/chains.sh"
mkdir empty done
"$cnc" create graph empty >created
cp -R empty/. done
"$cnc" run done script >out
cmp -s out right

# A store as it was.
renew() {
    rm -rf store/* 2>/dev/null || true
    mkdir -p store
    cp "$1"/A "$1"/B store
}

# What a run came to, and that it goes on once there is room; $1 says where.
check_run() {
    come_to 'refused 9: device' 'refused 8: halted' 'refused 8: halted' || wrong "run $1"
    # A put is refused as `refused 9`, a run as `refused 8`.
    if [ "$lines" = "$run_line" ] && [ "$kind" = 'refused 9: device' ]; then wrong "run $1"; fi
    case $kind in
    whole | refused*) ;;
    *) wrong "run $1" ;;
    esac
    echo "$kind" >>kinds
}

# What `create` or `turn` came to: $1 is what it writes if there is room, $2 says where.
check_command() {
    if [ "$status" = 0 ] && [ "$(cat out)" = "$1" ] && [ ! -s err ]; then return 0; fi
    test "$status" = 5 && test ! -s out && test "$(cat err)" = 'device failed' || wrong "$2"
}

# That all three kinds came.
check_kinds() {
    sort kinds | uniq -c
    for kind in whole 'refused 9: device' 'refused 8: halted'; do
        grep -qx "$kind" kinds || {
            echo "no run came to: $kind" >&2
            exit 1
        }
    done
}

# limited BLOCKS WORD..: the program with these words, where a file may have so many blocks of 512 bytes. A write beyond returns an error, since the signal for it is ignored.
# What it writes goes through pipes, which have no size.
limited() {
    blocks=$1
    shift
    {
        {
            status=0
            (
                trap '' XFSZ
                ulimit -f "$blocks"
                exec "$cnc" "$@"
            ) 2>&1 1>&3 3>&- || status=$?
            echo "$status" >status
        } | cat >err
    } 3>&1 | cat >out
    status=$(cat status)
}

: >kinds
lines=0
blocks=1
kind=
while [ "$kind" != whole ]; do
    renew empty
    lines=0
    limited "$blocks" run store script --workers 4
    check_run "in $blocks blocks"
    found=$kind
    goes_on "run in $blocks blocks"
    kind=$found
    blocks=$((blocks + 1))
done
for blocks in 1 2 4 8 16 32 64; do
    renew 'done'
    limited "$blocks" turn store
    check_command 'turned, generation 2' "turn in $blocks blocks"
    "$cnc" report store | cmp -s - report || wrong "the report after turn in $blocks blocks"
    "$cnc" turn store >turned || wrong "turn again after $blocks blocks"
done
rm -rf store
mkdir store
limited 0 create graph store
check_command created 'create in no block'
test "$status" = 5 || wrong 'create in no block'
echo 'with a limit on the size of a file the runs came to:'
check_kinds

if [ "$(id -u)" != 0 ]; then
    echo 'the part on a full file system is left out: it needs the superuser'
    exit 0
fi
dd if=/dev/zero of=image bs=1024 count=2048 2>/dev/null
mkfs.ext4 -q -F -m 0 -O ^has_journal image
mkdir small
mount -o loop image small
mounted=yes
rm -rf store
mkdir small/store
ln -s small/store store

# Leaves so many KiB of the file system, the store's files being there.
fill() {
    rm -f small/filler
    dd if=/dev/zero of=small/filler bs=1024 2>/dev/null || true
    size=$(stat -c %s small/filler)
    truncate -s $((size - 1024 * $1)) small/filler
    sync -f small
}

: >kinds
space=0
kind=
while [ "$kind" != whole ]; do
    renew empty
    fill "$space"
    status=0
    lines=0
    "$cnc" run store script --workers 4 >out 2>err || status=$?
    check_run "with $space KiB left"
    found=$kind
    rm -f small/filler
    goes_on "run with $space KiB left"
    kind=$found
    space=$((space + 1))
done
for space in 0 4 8 16; do
    renew 'done'
    fill "$space"
    status=0
    "$cnc" turn store >out 2>err || status=$?
    check_command 'turned, generation 2' "turn with $space KiB left"
    rm -f small/filler
    "$cnc" report store | cmp -s - report || wrong "the report after turn with $space KiB left"
    "$cnc" turn store >turned || wrong "turn again after $space KiB"
done
rm -f store/A store/B
fill 0
status=0
"$cnc" create graph store >out 2>err || status=$?
check_command created 'create with no space left'
test "$status" = 5 || wrong 'create with no space left'
echo 'on a full file system the runs came to:'
check_kinds
