#!/bin/sh
# How the time and the memory of `aqfp build` grow with the chip: adders, multipliers, a chain and a wide netlist, each
# at half and at whole size. Prints for each the counts line, the stored megabytes, milliseconds, megabytes of memory at
# most, memory over stored bytes, and the ratios of whole size to half. Needs GNU time. AQFP names the program.
set -u
here=$(cd -P "$(dirname "$0")/.." && pwd)
work=$(mktemp -d)
trap 'rm -rf "$work"' EXIT

# The sum of two numbers of so many bits, by half adders and full adders.
adder() {
    awk -v n="$1" '
        function xor(a, b, y) { printf ".names %s %s %s\n10 1\n01 1\n", a, b, y }
        function both(a, b, y) { printf ".names %s %s %s\n11 1\n", a, b, y }
        function either(a, b, y) { printf ".names %s %s %s\n1- 1\n-1 1\n", a, b, y }
        BEGIN {
            printf ".inputs"; for (i = 0; i < n; i++) printf " a%d b%d", i, i
            printf "\n.outputs"; for (i = 0; i <= n; i++) printf " s%d", i
            printf "\n"
            xor("a0", "b0", "s0"); both("a0", "b0", "c1")
            for (i = 1; i < n; i++) {
                xor("a" i, "b" i, "p" i); xor("p" i, "c" i, "s" i)
                both("a" i, "b" i, "g" i); both("p" i, "c" i, "h" i); either("g" i, "h" i, "c" (i + 1))
            }
            printf ".names c%d s%d\n1 1\n", n, n
        }'
}

# The product of two numbers of so many bits, by rows of full adders.
multiplier() {
    awk -v n="$1" '
        function xor(a, b, y) { printf ".names %s %s %s\n10 1\n01 1\n", a, b, y }
        function both(a, b, y) { printf ".names %s %s %s\n11 1\n", a, b, y }
        function majority(a, b, c, y) { printf ".names %s %s %s %s\n11- 1\n1-1 1\n-11 1\n", a, b, c, y }
        BEGIN {
            printf ".inputs"; for (i = 0; i < n; i++) printf " a%d", i; for (i = 0; i < n; i++) printf " b%d", i
            printf "\n.outputs"; for (i = 0; i < 2 * n; i++) printf " p%d", i
            printf "\n.names zero\n"
            for (i = 0; i < n; i++) { both("a" i, "b0", "m0_" i); sum[i] = "m0_" i }
            sum[n] = "zero"
            printf ".names %s p0\n1 1\n", sum[0]
            for (j = 1; j < n; j++) {
                carry = "zero"
                for (i = 0; i < n; i++) {
                    both("a" i, "b" j, "m" j "_" i)
                    xor(sum[i + 1], "m" j "_" i, "x" j "_" i); xor("x" j "_" i, carry, "s" j "_" i)
                    majority(sum[i + 1], "m" j "_" i, carry, "c" j "_" i)
                    carry = "c" j "_" i
                }
                for (i = 0; i < n; i++) sum[i] = "s" j "_" i
                sum[n] = carry
                printf ".names %s p%d\n1 1\n", sum[0], j
            }
            for (i = 1; i <= n; i++) printf ".names %s p%d\n1 1\n", sum[i], n + i - 1
        }'
}

# A chain of inverters.
chain() {
    awk -v n="$1" 'BEGIN {
        printf ".inputs a\n.outputs x%d\n.names a x1\n0 1\n", n
        for (i = 2; i <= n; i++) printf ".names x%d x%d\n0 1\n", i - 1, i }'
}

# Inputs that are all shown.
wide() {
    awk -v n="$1" 'BEGIN {
        printf ".inputs"; for (i = 0; i < n; i++) printf " i%d", i
        printf "\n.outputs"; for (i = 0; i < n; i++) printf " i%d", i
        printf "\n" }'
}

# The counts, stored bytes, milliseconds and kilobytes of memory of a shape at a size.
measure() {
    $1 "$2" >"$work/net.blif"
    rm -f "$work/out.gds"
    began=$(date +%s%N)
    /usr/bin/time -q -f 'memory %M' -o "$work/memory" \
        "$program" build "$work/net.blif" "$here/libraries/a.toml" "$work/out.gds" >"$work/counts" 2>"$work/err"
    took=$((($(date +%s%N) - began) / 1000))
    stored=0
    [ -f "$work/out.gds" ] && stored=$(wc -c <"$work/out.gds")
    echo "$stored $took $(sed -n 's/^memory //p' "$work/memory") $(cat "$work/counts" "$work/err" | head -1)"
}

if ! [ -x /usr/bin/time ]; then
    echo "build: GNU time is not there" >&2
    exit 70
fi
program=${AQFP:-$("$here/.ci/program")} || exit

while read -r shape half whole; do
    measure "$shape" "$half" >"$work/half"
    measure "$shape" "$whole" >"$work/whole"
    awk -v shape="$shape" -v half="$half" -v whole="$whole" '
        function over(a, b) { return b > 0 ? sprintf("%.2f", a / b) : "-" }
        NR == FNR { bytes = $1; time = $2; memory = $3; next }
        {
            line = $0; sub(/^[^ ]* [^ ]* [^ ]* /, "", line)
            printf "%s %s: %s: %.1f MB stored, %.1f ms, %.1f MB of memory, %s times the stored bytes", shape, whole, \
                line, $1 / 1e6, $2 / 1e3, $3 / 1e3, over($3 * 1024, $1)
            printf "; over size %s: bytes %s, time %s, memory %s\n", half, over($1, bytes), over($2, time), \
                over($3, memory)
        }' "$work/half" "$work/whole"
done <<SIZES
adder 32 64
adder 75 150
multiplier 6 12
chain 15000 30000
wide 50000 100000
SIZES
