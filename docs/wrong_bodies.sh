#!/bin/sh
# Tries the wrong bodies that the gate leaves out, which stand in crates/CRATE/wrong-bodies: the prover must refuse each.
# Usage: docs/wrong_bodies.sh [CRATE..]    without a name, those of every crate; the last line says how many passed
set -e
top=$(cd "$(dirname "$0")/.." && pwd)
room=$(mktemp -d)
trap 'rm -rf "$room"' EXIT
mkdir "$room/.git"
tar -C "$top" --exclude="crates/*/out" -cf - crates crates.txt HANDLES | tar -C "$room" -xf -
cd "$room"
rm -rf crates/*/must-fail crates/*/out
if [ $# -eq 0 ]; then
    set -- $(for it in crates/*/wrong-bodies; do basename "$(dirname "$it")"; done)
fi
for crate; do
    mv "crates/$crate/wrong-bodies" "crates/$crate/must-fail"
done
rt ci "$@"
