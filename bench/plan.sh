#!/bin/sh
# How the times of the passes that lay a netlist out, and of its drawing, grow with it: four shapes of netlists, at half
# and at whole size. Prints for each pass what it gave and its time in milliseconds, the time at half the size, the
# ratio of the two, and the ratio of what it gave, as of cells or of elements. A refusal has its line too, with the
# reason below; no pass comes after it. The passes run in crates/bench_plans, which the kit's rt proves and builds.
set -u
here=$(cd -P "$(dirname "$0")/.." && pwd)
program=$here/crates/bench_plans/out/bench_plans
work=$(mktemp -d)
trap 'rm -rf "$work"' EXIT

# Definitions that are each another name of the next, and the last of the input.
chain() {
    printf '.inputs a\n.outputs x1000000\n'
    awk -v n="$1" 'BEGIN { last = 1000000 + n;
        for (i = 1000000; i < last; i++) printf ".names x%d x%d\n1 1\n", i + 1, i; printf ".names a x%d\n1 1\n", last }'
}

# Inputs of which the last alone is shown: its wire goes from one end of the row to the other.
last_input() {
    awk -v n="$1" 'BEGIN { printf ".inputs"; for (i = 1; i <= n; i++) printf " i%d", i; printf "\n.outputs i%d\n", n }'
}

# The sum of two numbers of so many bits, by half adders and full adders.
adder() {
    awk -v n="$1" '
        function xor(a, b, y) { printf ".names %s %s %s\n10 1\n01 1\n", a, b, y }
        function both(a, b, y) { printf ".names %s %s %s\n11 1\n", a, b, y }
        function either(a, b, y) { printf ".names %s %s %s\n1- 1\n-1 1\n", a, b, y }
        BEGIN {
            printf ".inputs"; for (i = 0; i < n; i++) printf " a%d b%d", i, i
            printf "\n.outputs"; for (i = 0; i <= n; i++) printf " s%d", i
            printf "\n"
            xor("a0", "b0", "s0"); both("a0", "b0", "c1")
            for (i = 1; i < n; i++) {
                xor("a" i, "b" i, "p" i); xor("p" i, "c" i, "s" i)
                both("a" i, "b" i, "g" i); both("p" i, "c" i, "h" i); either("g" i, "h" i, "c" (i + 1))
            }
            printf ".names c%d s%d\n1 1\n", n, n
        }'
}

# Many rows of one cover.
rows() {
    printf '.inputs a b c d e f g h\n.outputs y\n.names a b c d e f g h y\n'
    awk -v n="$1" 'BEGIN { for (i = 0; i < n; i++) print "1-0-1-0- 1" }'
}

# Library A; for the last input with four tracks to a channel, so that a wire moves one slot and the rows stay low.
library() {
    case $1 in
        last_input) sed 's/^capacity = .*/capacity = 4/' "$here/libraries/a.toml" ;;
        *) cat "$here/libraries/a.toml" ;;
    esac
}

# The lines of a shape at a size.
measure() {
    $1 "$2" >"$work/net.blif"
    library "$1" >"$work/lib.toml"
    "$program" "$work/net.blif" "$work/lib.toml" 2>"$work/err"
}

echo "bench_plans: building the program, which proves what it stands on first" >&2
if ! (cd "$here/crates/bench_plans" && rt run >build.log 2>&1); then
    echo "bench_plans: the build failed; its messages are in $here/crates/bench_plans/build.log" >&2
    exit 70
fi
rm -f "$here/crates/bench_plans/build.log"

while read -r shape half whole; do
    measure "$shape" "$half" >"$work/half"
    measure "$shape" "$whole" >"$work/whole"
    awk -v shape="$shape" -v half="$half" -v whole="$whole" '
        NR == FNR { time[$1] = $NF; count[$1] = $(NF - 2) + 0; next }
        {
            grown = count[$1] > 0 && $(NF - 2) + 0 > 0 ? sprintf("%.2f", $(NF - 2) / count[$1]) : "-"
            slower = time[$1] > 0 ? sprintf("%.2f", $NF / time[$1]) : "-"
            printf "%s %s: %s, at %s %s, ratio %s", shape, whole, $0, half, time[$1], slower
            printf ", of what it gave %s\n", grown
        }' "$work/half" "$work/whole"
    sed 's/^/    /' "$work/err"
done <<SIZES
chain 500000 1000000
last_input 50000 100000
adder 32 64
adder 128 256
rows 200 400
rows 17500 35000
SIZES
