#!/bin/sh
# How the time and the memory of reading a netlist grow with its text: netlists and designs of 2, 4, 8 and 16 MB, of
# eleven shapes, each read whole before the library, which is empty, is refused; and five shapes with library A, so that
# gates are made and cells are counted. docs/measuring.md says what the shapes are.
#
#   bench/read_netlists.sh
#
# Prints the seconds of processor time, their ratios, twice the text against once, and the memory at most in times of
# the text, which is counted too. Nothing is judged here. Needs GNU time. AQFP names the program.
set -u
here=$(cd -P "$(dirname "$0")/.." && pwd)
command -v /usr/bin/time >/dev/null || { echo "read_netlists: /usr/bin/time is not there" >&2; exit 70; }
program=${AQFP:-$("$here/.ci/program")} || exit
work=$(mktemp -d)
trap 'rm -rf "$work"' EXIT
: >"$work/none.toml"

# So many lines of one text.
lines() { awk -v n="$1" -v line="$2" 'BEGIN { for (i = 0; i < n; i++) print line }'; }

rows() {
    printf '.inputs a b c d e f g h\n.outputs y\n.names a b c d e f g h y\n'
    lines $(($1 / 11 - 10)) '1-0-1-0- 1'
}

ones() {
    printf '.inputs a\n.outputs y\n.names y\n'
    lines $(($1 / 2 - 20)) 1
}

buffers() {
    printf '.inputs a\n.outputs y\n.names a y\n'
    lines $(($1 / 4 - 10)) '1 1'
}

chain() {
    printf '.inputs a\n.outputs x1000000\n'
    awk -v bytes="$1" 'BEGIN { n = int(bytes / 28) - 4; last = 1000000 + n;
        for (i = 1000000; i < last; i++) printf ".names x%d x%d\n1 1\n", i + 1, i; printf ".names a x%d\n1 1\n", last }'
}

inputs() {
    printf '.outputs i1000000\n.inputs'
    awk -v bytes="$1" 'BEGIN {
        n = int(bytes / 9) - 10
        for (i = 1000000; i < 1000000 + n; i++) printf " i%d", i
        print "" }'
}

# Names of 62 signs, as short as so many can be, each between these bytes.
names() {
    awk -v bytes="$1" -v before="$2" -v behind="${3:-}" 'BEGIN { left = bytes - 30
        signs = "0123456789abcdefghijklmnopqrstuvwxyzABCDEFGHIJKLMNOPQRSTUVWXYZ"
        for (i = 62 * 62; left > 0; i++) {
            name = ""
            for (n = i; n > 0; n = int(n / 62)) name = substr(signs, n % 62 + 1, 1) name
            printf "%s%s%s", before, name, behind
            left -= length(name) + length(before) + length(behind)
        }
        print "" }'
}

short() {
    printf '.outputs ~\n.inputs ~'
    names "$1" ' '
}

definitions() {
    printf '.inputs ~\n.outputs ~'
    names "$1" '\n.names '
}

constants() {
    printf '.inputs ~\n.outputs ~'
    names "$1" '\n.names ' '\n1'
}

feeds() {
    printf '.inputs ~\n.outputs ~'
    names "$1" '\n.names ~ '
}

# Rows of so many inputs, each with a digit for every one.
cover() {
    awk -v bytes="$1" -v wide="$2" 'BEGIN { names = ""
        for (i = 0; i < wide; i++) names = names " i" i
        printf ".inputs%s\n.outputs y\n.names%s y\n", names, names
        for (left = bytes - 14 * wide - 40; left > 0; left -= wide + 3) {
            row = ""
            for (i = 0; i < wide; i++) row = row (rand() < 0.5)
            print row " 1" } }'
}

eight() { cover "$1" 8; }

thousand() { cover "$1" 1000; }

# The same rows of 1,000 signals that stand above a chain of 300 gates: so each gate's level takes more than a byte.
deep() {
    awk 'BEGIN { printf ".inputs a"; for (i = 0; i < 1000; i++) printf " i%d", i; print "\n.outputs y"; last = "a"
        for (i = 0; i < 300; i++) { printf ".names %s i%d z%d\n11 1\n", last, i, i; last = "z" i }
        for (i = 0; i < 1000; i++) printf ".names %s i%d j%d\n10 1\n01 1\n", last, i, i
        printf ".names"; for (i = 0; i < 1000; i++) printf " j%d", i; print " y" }'
    awk -v bytes="$1" 'BEGIN { for (left = bytes - 50000; left > 0; left -= 1003) {
            row = ""
            for (i = 0; i < 1000; i++) row = row (rand() < 0.5)
            print row " 1" } }'
}

uncalled() {
    printf '.model top\n.inputs a\n.outputs a'
    names "$1" '\n.model m' '\n.inputs a\n.outputs y\n.names a y\n1 1'
}

# A quarter of the bytes are calls, and the models that are called have the others.
called() {
    printf '.model top\n.inputs a\n.outputs a'
    names $(($1 / 64 * 16)) '\n.subckt m' ' a=a'
    names $(($1 / 64 * 48)) '\n.model m' '\n.inputs a\n.outputs y\n.names a y\n1 1'
}

# Builds a netlist of this shape, of 2, 4, 8 and 16 MB, with this library.
measure() {
    before=
    for megabytes in 2 4 8 16; do
        "$1" $((megabytes * 1000000)) >"$work/net.blif"
        /usr/bin/time -q -f '%U %S %M' -o "$work/time" \
            "$program" build "$work/net.blif" "$2" "$work/out.gds" >/dev/null 2>"$work/err"
        took=$(awk 'END { print $1 + $2 }' "$work/time")
        awk -v name="$1$3 $megabytes MB" -v took="$took" -v before="$before" -v bytes="$(wc -c <"$work/net.blif")" '
            END {
                ratio = (before + 0 > 0) ? sprintf("%.2f", took / before) : "-"
                printf "%s: %.2f s, ratio %s, memory %.1f times the text\n", name, took, ratio, $3 * 1024 / bytes
            }' "$work/time"
        before=$took
    done
}

for shape in rows ones buffers chain inputs short definitions constants feeds uncalled called; do
    measure $shape "$work/none.toml" ""
done
for shape in rows eight thousand deep chain; do
    measure $shape "$here/libraries/a.toml" ", with library A"
done
