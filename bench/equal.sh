#!/bin/sh
# What the comparison of `aqfp equal` takes, beside ABC's `cec`: chips of arithmetic by `build` and by `compact`, each
# against another form of its netlist. Prints the seconds of each, and whether the comparison takes at most twice ABC's
# time and 0.1 seconds more. docs/measuring.md says what the circuits and their forms are.
#
#   bench/equal.sh
#   CASES="KIND BITS FORM COMMAND.." RUNS=1 bench/equal.sh    these cases alone, with one run of each in place of three
#
# The status is 1 where a time is above, an answer is not `equal`, or a refusal that is due does not come. SECONDS_EACH,
# by default 600, is when a run is cut off. Needs GNU time and python3, and ABC to judge times. AQFP names the program.
set -u
here=$(cd -P "$(dirname "$0")/.." && pwd)
seconds=${SECONDS_EACH:-600}
work=$(mktemp -d)
trap 'rm -rf "$work"' EXIT
for tool in /usr/bin/time python3; do
    command -v "$tool" >/dev/null || { echo "equal: $tool is not there" >&2; exit 70; }
done
abc=
for tool in berkeley-abc yosys-abc abc; do
    command -v $tool >/dev/null && { abc=$tool; break; }
done
[ -n "$abc" ] || echo "equal: ABC is not there; circuits are compared with themselves, and no time is judged" >&2
program=${AQFP:-$("$here/.ci/program")} || exit
sed 's/^capacity = .*/capacity = 200/; s/^limit = .*/limit = 20000000/' "$here/libraries/a.toml" >"$work/far.toml"
: >"$work/none"
failed=0

# KIND BITS: the netlist of a circuit.
cat >"$work/circuit.py" <<'END'
import sys

kind, bits = sys.argv[1], int(sys.argv[2])
lines = []


def gate(rows, *inputs):
    """A new signal that is true in the rows."""
    name = f"g{len(lines)}"
    lines.append(f".names {' '.join([*inputs, name])}\n" + "\n".join(row + " 1" for row in rows.split()))
    return name


def no(a): return gate("0", a)
def both(a, b): return gate("11", a, b)
def either(a, b): return gate("1- -1", a, b)
def xor(a, b): return gate("10 01", a, b)
def majority(a, b, c): return gate("11- 1-1 -11", a, b, c)
def choose(c, a, b): return gate("11- 0-1", c, a, b)
def full(a, b, c): return xor(xor(a, b), c), majority(a, b, c)


def add(a, b, carry):
    """The bits of a sum, and its carry."""
    total = []
    for x, y in zip(a, b):
        one, carry = full(x, y, carry)
        total.append(one)
    return total, carry


def subtract(a, b):
    """The bits of a difference, and whether there is no borrow."""
    return add(a, [no(x) for x in b], gate("-", a[0]))


def adder(a, b):
    total, carry = add(a, b, gate(""))
    return total + [carry]


def trees(a, b):
    """Each carry by a tree of its own, of whether ranges of bits make a carry, and whether they hand one on."""
    half = [xor(x, y) for x, y in zip(a, b)]
    made, handed, step = [both(x, y) for x, y in zip(a, b)], half, 1
    while step < len(a):
        made, handed = (made[:step] + [either(m, both(h, low)) for m, h, low in zip(made[step:], handed[step:], made)],
                        handed[:step] + [both(h, low) for h, low in zip(handed[step:], handed)])
        step *= 2
    return [half[0]] + [xor(h, carry) for h, carry in zip(half[1:], made)] + [made[-1]]


def multiplier(a, b):
    """By rows of full adders."""
    zero = gate("")
    product, rest = [], [zero] * len(a)
    for y in b:
        low, carry = add(rest, [both(x, y) for x in a], zero)
        product.append(low[0])
        rest = low[1:] + [carry]
    return product + rest


def divider(a, b):
    """Quotient and remainder: what is too small for the divisor is restored."""
    zero = gate("")
    quotient, rest = [], [zero] * len(b)
    for x in reversed(a):
        shifted = [x] + rest
        less, fits = subtract(shifted, b + [zero])
        rest = [choose(fits, new, old) for new, old in zip(less, shifted)][:-1]
        quotient.insert(0, fits)
    return quotient + rest


def count(a):
    """How many inputs are true: three of one weight become one of it and one of twice as much."""
    total = []
    while a:
        above = []
        while len(a) > 1:
            one, carry = full(a.pop(0), a.pop(0), a.pop(0) if a else gate(""))
            a.append(one)
            above.append(carry)
        total.append(a[0])
        a = above
    return total


def unit(a, b, code):
    """By three bits, lowest first: sum, difference, and, or, xor, a up and down by one place, whether a is less."""
    zero = gate("")
    total, carry = add(a, [xor(y, code[0]) for y in b], code[0])
    results = [total, total, [both(*it) for it in zip(a, b)], [either(*it) for it in zip(a, b)],
               [xor(*it) for it in zip(a, b)], [zero] + a[:-1], a[1:] + [zero], [no(carry)] + [zero] * (len(a) - 1)]
    for c in code:
        results = [[choose(c, *it) for it in zip(odd, even)] for even, odd in zip(results[::2], results[1::2])]
    return results[0]


a, b, code = ([f"{letter}{i}" for i in range(size)] for letter, size in (("a", bits), ("b", bits), ("c", 3)))
inputs = {"count": a, "unit": a + b + code}.get(kind, a + b)
outputs = {"adder": lambda: adder(a, b), "trees": lambda: trees(a, b), "multiplier": lambda: multiplier(a, b),
           "exchanged": lambda: multiplier(b, a), "divider": lambda: divider(a, b), "count": lambda: count(list(a)),
           "unit": lambda: unit(a, b, code)}[kind]()
print(".model", kind)
print(".inputs", *inputs)
print(".outputs", *(f"y{i}" for i in range(len(outputs))))
print(*lines, *(f".names {name} y{i}\n1 1" for i, name in enumerate(outputs)), ".end", sep="\n")
END

# The least seconds of processor time of so many runs of a command. The last one's status and output are kept.
least() {
    left=$1
    shift
    while [ "$left" -gt 0 ]; do
        /usr/bin/time -q -f '%U %S' -o "$work/time" timeout "$seconds" "$@" >"$work/printed" 2>"$work/err"
        echo $? >"$work/status"
        awk '{ printf "%.2f\n", $1 + $2 }' "$work/time"
        left=$((left - 1))
    done | sort -n | head -n 1
}

# What the last command printed, or its status where it printed nothing.
said() { cat "$work/printed" "$work/err" | grep . || echo "status $(cat "$work/status")"; }

# Makes a circuit as one.blif, its FORM as other.blif, and the chip of the one by COMMAND.
prepare() {
    rm -f "$work/other.blif"
    python3 "$work/circuit.py" "$1" "$2" >"$work/one.blif" || return 1
    case $3 in
        tables) form="if -K 4" ;;
        choices) form="dch; if -K 6; mfs" ;;
        rewritten) form="dc2" ;;
        resyn2)
            form="balance; rewrite; refactor; balance; rewrite; rewrite -z; balance; refactor -z; rewrite -z; balance"
            ;;
        *) form= ;;
    esac
    if [ "$3" = itself ] || { [ -n "$form" ] && [ -z "$abc" ]; }; then
        cp "$work/one.blif" "$work/other.blif"
    elif [ -n "$form" ]; then
        "$abc" -q "read_blif $work/one.blif; strash; $form; write_blif $work/other.blif" >"$work/err" 2>&1
        [ -e "$work/other.blif" ] || return 1
    else
        python3 "$work/circuit.py" "$3" "$2" >"$work/other.blif" || return 1
    fi
    "$program" "$4" "$work/one.blif" "$work/far.toml" "$work/chip.gds" >"$work/counts" 2>"$work/err"
}

cat >"$work/known" <<'END'
multiplier 8 tables build
multiplier 8 tables compact
multiplier 12 tables build
multiplier 12 choices build
multiplier 12 rewritten build
multiplier 12 resyn2 build
multiplier 16 tables build
multiplier 16 tables compact
multiplier 16 rewritten build
multiplier 16 resyn2 build
multiplier 16 itself compact
multiplier 32 tables compact
divider 8 tables build
divider 12 tables build
divider 12 tables compact
divider 12 choices build
count 32 tables build
count 32 tables compact
unit 16 tables build
unit 32 tables build
unit 32 tables compact
unit 32 choices build
adder 8 itself build
adder 16 itself build
adder 32 itself build
adder 64 itself build
adder 64 tables build
adder 64 trees build
adder 64 trees compact
trees 64 adder build
END
if [ -n "${CASES:-}" ]; then
    echo "$CASES" | tr -s ' ' '\n\n' | paste -d ' ' - - - - >"$work/cases"
else
    cp "$work/known" "$work/cases"
fi
while read -r kind bits form command; do
    name="$kind $bits, $form, $command"
    prepare "$kind" "$bits" "$form" "$command" || { echo "$name: $(head -n 1 "$work/err")"; failed=1; continue; }
    verify=$(least "${RUNS:-3}" "$program" verify "$work/chip.gds" "$work/far.toml" "$work/none")
    equal=$(least "${RUNS:-3}" "$program" equal "$work/chip.gds" "$work/far.toml" "$work/other.blif")
    answer=$(said)
    beside=-
    if [ -n "$abc" ]; then
        beside=$(least "${RUNS:-3}" "$abc" -q "cec $work/one.blif $work/other.blif")
        grep -q 'are equivalent' "$work/printed" || { echo "$name: ABC: $(said)"; failed=1; }
    fi
    [ "$answer" = equal ] || failed=1
    awk -v name="$name" -v answer="$answer" -v equal="$equal" -v verify="$verify" -v beside="$beside" \
        -v counts="$(cat "$work/counts")" 'BEGIN {
        takes = equal - verify
        within = beside == "-" || takes <= 2 * beside + 0.1 + 1e-9
        judged = answer != "equal" ? "NO ANSWER" : beside == "-" ? "not judged" : within ? "within" : "ABOVE"
        printf "%s: %s: %s: equal %s s, verify %s s, comparison %.2f s, cec %s s: %s\n", name, counts, answer, equal,
            verify, takes, beside, judged
        exit !within }' || failed=1
done <"$work/cases"

# What is known to be undecided, and to take longer.
[ -n "${CASES:-}" ] || while read -r form due; do
    [ "$form" = exchanged ] || [ -n "$abc" ] || continue
    name="multiplier 16, $form, build"
    prepare multiplier 16 $form build || { echo "$name: $(head -n 1 "$work/err")"; failed=1; continue; }
    took=$(least 1 "$program" equal "$work/chip.gds" "$work/far.toml" "$work/other.blif")
    answer="$(said), status $(cat "$work/status")"
    echo "$name: $(cat "$work/counts"): $answer: $took s"
    [ "$answer" = "$due" ] || failed=1
done <<END
exchanged aqfp: too large: 1000001 functions, status 10
choices equal, status 0
END
exit $failed
