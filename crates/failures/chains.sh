# For the scripts beside it: eight chains of steps, each of which adds its number to what the step before put. Sourced with the working directory in a new folder,
# it writes there `graph`, `script`, and in `right` what a run of the script on a new store writes. `number` is how many steps a chain has.

cat >graph <<'GRAPH'
[sum: chain, i];
<n: chain, i>;
<n> :: (add);
[sum] -> (add);
(add) -> [sum];
env -> [sum];
env -> <n>;
[sum] -> env;
step add(chain, i) {
  var before;
  read { get before = [sum: chain, i - 1]; }
  write { put [sum: chain, i] = before + i; }
}
GRAPH
awk -v number="$number" 'BEGIN {
    for (chain = 1; chain <= 8; chain++) printf "put [sum: %d, 0] = 0\n", chain
    for (i = 1; i <= number; i++)
        for (chain = 1; chain <= 8; chain++) printf "tag <n: %d, %d>\n", chain, i
    print "run"
}' >script

# The sum of the numbers up to i is i * (i + 1) / 2.
awk -v number="$number" 'BEGIN {
    for (line = 0; line < 8 * number + 8; line++) print "ok"
    print "complete"
    for (chain = 1; chain <= 8; chain++)
        for (i = 0; i <= number; i++) printf "[sum: %d, %d] = %d\n", chain, i, i * (i + 1) / 2
    printf "%d items, %d tags, %d of %d steps done\n", 8 * number + 8, 8 * number, 8 * number, 8 * number
}' >right

# The line of the script that is `run`, and the report alone.
run_line=$((8 * number + 9))
tail -n +$((run_line + 1)) right >report

# Says what is wrong, with what was written, and ends.
wrong() {
    echo "$1: status $status" >&2
    tail -n 3 out >&2
    cat err >&2
    exit 1
}

# Sets `kind` to what a run came to, by `out`, `err` and `status`: `whole`; or the refusal that ends the right lines, or the error. It fails if they are none of these.
# A refusal of one of the lines that put may be $1, one of the line `run` $1 or $2 or $3.
come_to() {
    kind=
    if [ "$status" = 0 ]; then
        cmp -s out right || return 1
        test ! -s err || return 1
        kind=whole
        return 0
    fi
    test "$status" = 5 || return 1
    if [ -s err ]; then
        kind=$(cat err)
        head -n "$(wc -l <out)" right | cmp -s - out
        return
    fi
    kind=$(tail -n 1 out)
    lines=$(wc -l <out)
    head -n $((lines - 1)) right >front
    head -n $((lines - 1)) out | cmp -s - front || return 1
    if [ "$lines" -lt "$run_line" ]; then
        test "$kind" = "$1"
    else
        test "$lines" = "$run_line" || return 1
        case $kind in
        "$1" | "$2" | "$3") ;;
        *) return 1 ;;
        esac
    fi
}

# Runs the script once more on `store`, without any limit: each line that was answered `ok` in `out` is there, and the report is the right one.
goes_on() {
    grep -c '^ok$' out >answered || true
    status=0
    "$cnc" run store script --workers 4 >again 2>err || status=$?
    test "$status" = 0 || wrong "$1, run again"
    if head -n "$(cat answered)" again | grep -q '^ok$'; then wrong "$1: a line that was answered is lost"; fi
    tail -n +"$run_line" right >end
    tail -n +"$run_line" again | cmp -s - end || wrong "$1: the report after it"
}
