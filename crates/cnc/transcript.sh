#!/bin/sh
# Prints the transcript of README.md: the wavefront of docs/wavefront is run on four workers, killed by `kill -9` in the middle, and goes on. The counts of the
# report after the kill differ from time to time; all else is the same. The answer is compared with one that awk computes.
#
# usage: transcript.sh CNC FOLDER [SIZE]
#     FOLDER   a folder of the file system that is used; a new one in it holds the store, and is removed
#     SIZE     the letters of a strand (as docs/wavefront/script says). More are for a program that ends before it can be killed
set -eu
cnc=$(realpath "${1:?the program}")
example=$(realpath "$(dirname "$0")/../../docs/wavefront")
room=$(mktemp -d "${2:?a folder}/transcript.XXXXXX")
trap 'rm -rf "$room"' EXIT
cp "$example/graph" "$example/script" "$room"
cd "$room"
if [ $# -gt 2 ]; then sed -i "s/^put \[size\] = .*/put [size] = $3/" script; fi
size=$(sed -n 's/^put \[size\] = //p' script)
cells=$(((size + 1) * (size + 1)))

# The longest common subsequence of the two strands that `spell` of the graph makes.
length=$(awk -v n="$size" 'BEGIN {
    for (s = 1; s <= 2; s++) {
        r = s
        for (i = 1; i <= n; i++) { r = (r * 75 + 74) % 65537; letter[s, i] = int(r / 7) % 4 }
    }
    for (i = 1; i <= n; i++) for (j = 1; j <= n; j++) {
        b = best[i - 1, j] < best[i, j - 1] ? best[i, j - 1] : best[i - 1, j]
        best[i, j] = letter[1, i] == letter[2, j] ? best[i - 1, j - 1] + 1 : b
    }
    print best[n, n]
}')

# A cell takes some 90 to 160 bytes of the file A. The run is killed when that has 60 for each.
tries=0
while :; do
    tries=$((tries + 1))
    rm -rf store
    "$cnc" create graph store >created
    "$cnc" run store script --workers 4 >run 2>err &
    process=$!
    while kill -0 "$process" 2>err && [ "$(stat -c %s store/A)" -lt $((60 * cells)) ]; do :; done
    kill -9 "$process" 2>err || true
    wait "$process" 2>err || true
    status=0
    "$cnc" report store >report || status=$?
    # Status 1: not all steps are done.
    if [ "$status" = 1 ]; then break; fi
    if [ "$tries" = 20 ]; then
        echo "transcript: the run ended before it was killed, each of 20 times" >&2
        exit 1
    fi
done
echo run | "$cnc" run store - --workers 4 >again
printf 'complete\n[length] = %s\n%s items, %s tags, %s of %s steps done\n' "$length" \
    $((2 * size + cells + 2)) $((cells + 2)) $((cells + 2)) $((cells + 2)) | diff - again >&2

echo '$ cnc create graph store'
cat created
echo '$ cnc run store script --workers 4 &'
cat run
echo '$ kill -9 $!'
echo '$ cnc report store'
cat report
echo '$ echo run | cnc run store - --workers 4'
cat again
