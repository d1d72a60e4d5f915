#!/bin/bash
# The loop of `bench evaluate` and the same loop in Lua 5.4, one after the other, and the ratio of their processor times.
# Words: the program as `rt run` built it, the number of statements, and how often.
set -eu
program=${1:?the program}
statements=${2:-100000000}
rounds=${3:-5}
loop=$(mktemp)
trap 'rm -f "$loop"' EXIT
cat > "$loop" <<'LUA'
-- A turn and its assignment are two statements there, so Lua makes half as many turns.
local turns = 499999
local runs = math.ceil(tonumber(arg[1]) / (2 * turns + 2))
local put
for run = 1, runs do
  local a = 0
  for b = 0, turns - 1 do
    a = a + b
  end
  put = a
end
LUA
TIMEFORMAT=%U
for ((round = 0; round < rounds; round++)); do
  ours=$( { time "$program" evaluate "$statements" > /dev/null; } 2>&1 )
  theirs=$( { time lua5.4 "$loop" "$statements"; } 2>&1 )
  echo "$ours $theirs" | awk '{ printf "evaluator %.3f s, Lua 5.4 %.3f s, ratio %.2f\n", $1, $2, $1 / $2 }'
done
