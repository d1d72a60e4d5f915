#!/bin/bash
# Bodies of steps as people write them, and the same in Lua 5.4: processor seconds of `cnc run` on one worker and of Lua, in alternating rounds, and their ratio.
#
# usage: kernels.sh CNC [STEPS [ROUNDS]]
#     CNC     the program, as `rt run` built it
#     STEPS   how many instances run each kernel (100); each makes up to 1,000,000 statements and turns of loops
#     ROUNDS  how often each is measured (3); the least counts
#
# It needs Lua: apt-get install lua5.4
#
# The kernels: the inner loops of a product of matrices whose elements are computed; a cell of a longest common subsequence, with its conditions, again and again; trial
# division, which counts divisors; and the lengths of Collatz sequences. Each step puts one number, and Lua has to come to the same.
set -eu
cnc=$(realpath "${1:?the program}")
steps=${2:-100}
rounds=${3:-3}
room=$(mktemp -d)
trap 'rm -rf "$room"' EXIT
cd "$room"
export LC_ALL=C
TIMEFORMAT=%U

# kernel NAME VARIABLES STATEMENTS LUA: a graph whose step runs these statements, which leave their number in r, and the same in Lua
kernel() {
    cat >"$1.graph" <<GRAPH
[out: k];
<t: k>;
<t> :: (one);
(one) -> [out];
env -> <t>;
[out] -> env;
step one(k) {
  var $2;
  read { }
  write {
    r = 0;
    $3
    put [out: k] = r;
  }
}
GRAPH
    cat >"$1.lua" <<LUA
for k = 1, tonumber(arg[1]) do
  local r = 0
  $4
  print("[out: " .. k .. "] = " .. r)
end
LUA
    printf '%s\n' "$1" >>kernels
}

kernel product 'r, i, j, l, a, b' \
    'for i in 0 .. 60 { for j in 0 .. 60 { for l in 0 .. 60 { a = i * l + k; b = l * j + 1; r = (r + a * b) % 1000003; } } }' \
    'for i = 0, 59 do for j = 0, 59 do for l = 0, 59 do local a = i * l + k; local b = l * j + 1; r = (r + a * b) % 1000003 end end end'
kernel cell 'r, n, above, left, corner' \
    'for n in 0 .. 110000 { above = r; left = n % 97; corner = (n + k) % 89; if (above < left) { r = left; } else { r = above; } if (n % 4 == k % 4) { r = corner + 1; } }' \
    'for n = 0, 109999 do local above = r; local left = n % 97; local corner = (n + k) % 89; if above < left then r = left else r = above end; if n % 4 == k % 4 then r = corner + 1 end end'
kernel divisors 'r, n, d' \
    'for n in 2 .. 600 { for d in 2 .. n { if (n % d == 0) { r = r + 1; } } }' \
    'for n = 2, 599 do for d = 2, n - 1 do if n % d == 0 then r = r + 1 end end end'
kernel collatz 'r, s, n, t' \
    'for s in 1 .. 1500 { n = s; for t in 0 .. 120 { if (n % 2 == 0) { n = n / 2; } else { n = 3 * n + 1; } r = r + 1; } }' \
    'for s = 1, 1499 do local n = s; for t = 0, 119 do if n % 2 == 0 then n = n // 2 else n = 3 * n + 1 end; r = r + 1 end end'

seq 1 "$steps" | sed 's/.*/tag <t: &>/' >script
echo run >>script
while read -r name; do
    for ((round = 0; round < rounds; round++)); do
        rm -rf store
        "$cnc" create "$name.graph" store >/dev/null
        { time "$cnc" run store script >out; } 2>>"$name.ours"
        { time lua5.4 "$name.lua" "$steps" >right; } 2>>"$name.theirs"
        if ! grep '^\[' out | cmp -s - right; then
            echo "kernels: $name gives another answer than Lua" >&2
            exit 1
        fi
    done
    ours=$(sort -n "$name.ours" | head -n 1)
    theirs=$(sort -n "$name.theirs" | head -n 1)
    echo "$name $ours $theirs" | awk '{ printf "%-10s cnc %.2f s, Lua 5.4 %.2f s, ratio %.2f\n", $1, $2, $3, $2 / $3 }'
done <kernels
