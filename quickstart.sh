#!/bin/sh
# Builds the program, makes a store of an example in a directory of its own, runs a script on it, prints the report, turns the store over, and runs again.
# Every crate of the program is proved before. With --unproved none is: the program is compiled alone, and left as out/cnc-unproved. Then it runs the example, or the
# graph and the script that are given.
set -eu
case "$#:${1:-}" in
0: | 1:--unproved) ;;
3:--unproved)
    for file in "$2" "$3"; do
        if [ ! -r "$file" ]; then
            echo "quickstart: cannot read $file" >&2
            exit 2
        fi
    done
    graph=$(realpath "$2")
    script=$(realpath "$3")
    ;;
*)
    echo "usage: ./quickstart.sh [--unproved [GRAPH SCRIPT]]" >&2
    exit 2
    ;;
esac
cd "$(dirname "$0")"
example=$PWD/examples/fibonacci
if ! command -v rt >/dev/null; then
    echo "quickstart: the toolchain's command rt is not on the path; README.md says which toolchain it is" >&2
    exit 1
fi

log=$(mktemp)
directory=$(mktemp -d)
trap 'rm -rf "$directory"' EXIT
trap 'exit 130' INT TERM

# step STATUS WORD..: runs cnc with these words, and stops unless it ends with that status
step() {
    wanted=$1
    shift
    echo "> $(basename "$cnc") $*"
    found=0
    "$cnc" "$@" || found=$?
    if [ "$found" != "$wanted" ]; then
        echo "quickstart: status $found in place of $wanted" >&2
        exit 1
    fi
}

# The file of the program that was started with the words `draw PATH`, if it runs now.
running() {
    for process in $(grep -lsF "$1" /proc/[0-9]*/cmdline); do
        file=$(cat "$process" 2>/dev/null | tr '\000' '\n' | awk -v path="$1" '
            { word[NR] = $0 } END { if (NR > 2 && word[NR] == path && word[NR - 1] == "draw") print word[NR - 2] }')
        if [ -f "$file" ] && [ -x "$file" ]; then
            echo "$file"
            return
        fi
    done
}

if [ "${1:-}" = --unproved ]; then
    echo "Nothing is proved here: the program is compiled alone, which takes one to three minutes."
    cnc=$PWD/out/cnc-unproved
    mkdir -p out
    rm -f "$cnc"
    # `rt try` keeps no program. So the one that it starts waits for a graph from a pipe until its file is copied. If this script ends before, the pipe is gone.
    mkfifo "$directory/pipe"
    exec 3<>"$directory/pipe"
    (cd crates/cnc && exec rt try -- draw "$directory/pipe") >"$log" 2>&1 3>&- &
    trial=$!
    while kill -0 "$trial" 2>/dev/null && [ ! -e "$cnc" ]; do
        sleep 1
        file=$(running "$directory/pipe")
        if [ -n "$file" ]; then cp "$file" "$cnc"; fi
    done
    cat "$example/graph" >&3
    exec 3>&-
    wait "$trial" || true
    if ! "$cnc" --help >>"$log" 2>&1; then
        rm -f "$cnc"
        echo "quickstart: the program was not compiled, or its file could not be copied; see $log" >&2
        exit 1
    fi
    rm "$log"
    echo "Compiled, not proved: $cnc"
    mkdir "$directory/store"
    step 0 create "${graph:-$example/graph}" "$directory/store"
    echo "> cnc-unproved run $directory/store ${script:-$example/script}"
    status=0
    "$cnc" run "$directory/store" "${script:-$example/script}" || status=$?
    if [ "$status" != 0 ]; then echo "quickstart: the run ended with status $status; docs/troubles.md says what it means" >&2; fi
    exit "$status"
fi

# The crates that stand above `cnc` in crates.txt, lowest first, are those that it is made of, and a program that it is not stands below.
crates=$(sed -n '/^cnc[ :]/q; s/^\([a-z_]*\)[ :].*/\1/p' crates.txt)
count=$(echo "$crates" | wc -l)
number=0
echo "What the prover says goes to $log."
for crate in $crates; do
    number=$((number + 1))
    if (cd "crates/$crate" && rt lib) >>"$log" 2>&1; then
        echo "proved: $crate (crates left: $((count - number)))"
    else
        echo "quickstart: $crate was not proved; see $log" >&2
        exit 1
    fi
done
(cd crates/cnc && rt run -- --help) >>"$log" 2>&1
echo "proved: cnc, the program"
cnc=$PWD/crates/cnc/out/cnc

# As many workers as there are processors, of which a crew has 64 at most.
workers=$(getconf _NPROCESSORS_ONLN)
if [ "$workers" -gt 64 ]; then workers=64; fi

step 0 create "$example/graph" "$directory"
step 0 run "$directory" "$example/script" --workers "$workers"
step 0 report "$directory"
step 0 turn "$directory"
echo run | step 0 run "$directory" - --workers "$workers"
echo "Done: each command was a process of its own, and what one put on the disk was there for the next."
