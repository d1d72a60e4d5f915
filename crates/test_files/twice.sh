#!/bin/sh
# Starts the program twice in a directory of its own. The second start finds what the first one left on the files.
# Word: the program, as `rt run` built it.
set -eu
program=$(realpath "${1:?the program}")
expected=$(realpath "$(dirname "$0")/stdout")
directory=$(mktemp -d)
trap 'rm -rf "$directory"' EXIT
cd "$directory"

"$program" >first
diff "$expected" first
"$program" >second
# What the first start told of the store, once it was made and turned over.
sed -n '/^opened, generation/,$p' "$expected" | diff - second
echo "Found again: generation 2, four items, two tags, two instances."
