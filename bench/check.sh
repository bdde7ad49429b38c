#!/bin/sh
# How the time and the memory of `aqfp verify` grow with the chip, and what layouts cost that are drawn against it:
# adders with eight words and with 64,000, beside KLayout's time for the rules of geometry where KLayout is installed;
# then the layouts of bench/hostile.py, beside an ordinary chip of as many shapes. docs/measuring.md says what each of
# them is, and which ratio is wanted; nothing is judged here.
#
#   bench/check.sh
#   BITS=64 KINDS="NAME COUNT.." bench/check.sh    one adder, and these layouts alone
#
# SECONDS_EACH, by default 60, is when a check is cut off. Needs GNU time and python3. AQFP names the program.
set -u
here=$(cd -P "$(dirname "$0")/.." && pwd)
library=$here/libraries/a.toml
seconds=${SECONDS_EACH:-60}
work=$(mktemp -d)
trap 'rm -rf "$work"' EXIT
for tool in /usr/bin/time python3; do
    command -v "$tool" >/dev/null || { echo "check: $tool is not there" >&2; exit 70; }
done
program=${AQFP:-$("$here/.ci/program")} || exit

# The sum of two numbers of so many bits.
adder() {
    python3 - "$1" "$2" <<'END'
import sys
n, name = int(sys.argv[1]), sys.argv[2]
def gate(a, b, y, rows): return [f".names {a} {b} {y}", *rows]
XOR, AND, OR = ["10 1", "01 1"], ["11 1"], ["1- 1", "-1 1"]
lines = [".inputs " + " ".join(f"a{i} b{i}" for i in range(n)), ".outputs " + " ".join(f"s{i}" for i in range(n + 1))]
lines += gate("a0", "b0", "s0", XOR) + gate("a0", "b0", "c1", AND)
for i in range(1, n):
    lines += gate(f"a{i}", f"b{i}", f"p{i}", XOR) + gate(f"p{i}", f"c{i}", f"s{i}", XOR)
    lines += gate(f"a{i}", f"b{i}", f"g{i}", AND) + gate(f"p{i}", f"c{i}", f"h{i}", AND)
    lines += gate(f"g{i}", f"h{i}", f"c{i + 1}", OR)
lines += [f".names c{n} s{n}", "1 1"]
open(name + ".blif", "w").write("\n".join(lines) + "\n")
words = ["".join("01"[(k + 1) * (i + 3) % 11 < 5] for i in range(2 * n)) for k in range(8)]
open(name + ".words", "w").write("\n".join(words) + "\n")
END
}

# The milliseconds of the processor and the kilobytes of memory of a check, and the first line that it prints.
measure() {
    /usr/bin/time -q -f '%U %S %M' -o "$work/spent" timeout "$seconds" \
        "$program" verify "$1" "$library" "$2" >"$work/printed" 2>"$work/err"
    awk '{ printf "%d %d ", ($1 + $2) * 1000 + 0.5, $3 }' "$work/spent"
    cat "$work/printed" "$work/err" | head -n 1
}

half_time=0
half_bytes=0
for bits in ${BITS:-16 32 64}; do
    adder "$bits" "$work/adder"
    "$program" build "$work/adder.blif" "$library" "$work/adder.gds" >/dev/null || exit 1
    bytes=$(wc -c <"$work/adder.gds")
    measure "$work/adder.gds" "$work/adder.words" >"$work/result"
    read -r time memory line <"$work/result"
    beside=
    if command -v klayout >/dev/null; then
        began=$(date +%s%N)
        QT_QPA_PLATFORM=offscreen klayout -b -r "$here/share/aqfp.drc" -rd gds="$work/adder.gds" \
            -rd library="$library" >/dev/null 2>&1
        beside=", KLayout $((($(date +%s%N) - began) / 1000000)) ms"
    fi
    awk -v bits="$bits" -v bytes="$bytes" -v time="$time" -v memory="$memory" -v ht="$half_time" -v hb="$half_bytes" \
        -v beside="$beside" -v line="$line" 'BEGIN {
        printf "adder %d: %s: %.1f MB, %d ms, %.1f MB of memory, %.1f times the bytes%s", bits, line, bytes / 1e6, time,
            memory / 1e3, memory * 1024 / bytes, beside
        if (ht > 0) printf "; over half the bits: bytes %.2f, time %.2f", bytes / hb, time / ht
        printf "\n" }'
    half_time=$time
    half_bytes=$bytes
done
# The last adder again, with words of random numbers, whose sums are compared.
count=64000
python3 - "$bits" "$count" "$work" <<'END'
import random, sys
bits, count, work = int(sys.argv[1]), int(sys.argv[2]), sys.argv[3]
def digits(number, places): return format(number, f"0{places}b")[::-1]
with open(work + "/many.words", "w") as words, open(work + "/sums", "w") as sums:
    for _ in range(count):
        a, b = random.getrandbits(bits), random.getrandbits(bits)
        words.write("".join(x + y for x, y in zip(digits(a, bits), digits(b, bits))) + "\n")
        sums.write(digits(a + b, bits + 1) + "\n")
END
measure "$work/adder.gds" "$work/many.words" >"$work/result"
read -r time memory line <"$work/result"
said=$(tail -n +2 "$work/printed" | cmp -s - "$work/sums" && echo right || echo WRONG)
echo "$line" | awk -v bits="$bits" -v count="$count" -v time="$time" -v few="$half_time" -v said="$said" '{
    more = time > few ? time - few : 1
    printf "adder %d with %d words: %s, %d ms more than with eight, %.1f billion cells a second", bits, count, said,
        more, count * $4 / more / 1e6
    printf ", %.2f times the whole\n", time / few }'
# An ordinary chip's shape takes this many nanoseconds.
each=$(awk -v time="$half_time" 'BEGIN { printf "%.0f", time * 1e6 / 387666 }')

"$program" build "$here/examples/wire.blif" "$library" "$work/wire.gds" >/dev/null || exit 1
echo "${KINDS:-other 200000 equal 200000 mixed 200000 vias 200000 plates 20000 plates 40000 shells 30000 corner 50000
corner 200000 bars 100000 high 100000 sizes 200000 row 200000 chain 200000 frames 200000 pins 200000 covers 100000
lines 100000 tracks 100000 labels 200000 tags 100000 cross 10000 nested 1000 nested 2000}" | tr -s ' \n' '\n\n' |
while read -r kind && read -r count; do
    python3 "$here/bench/hostile.py" "$kind" "$count" "$work/wire.gds" "$work/hostile.gds" "$work/hostile.words"
    measure "$work/hostile.gds" "$work/hostile.words" >"$work/result"
    read -r time memory line <"$work/result"
    awk -v kind="$kind" -v count="$count" -v time="$time" -v memory="$memory" -v each="$each" -v line="$line" \
        -v most="$((seconds * 1000))" 'BEGIN {
        printf "%s %d: %s: %d ms%s, %.1f MB of memory, %.1f times an ordinary chip of as many shapes\n", kind, count,
            (line == "" ? "no answer" : substr(line, 1, 60)), time, (time >= most ? " and cut off" : ""), memory / 1e3,
            time * 1e6 / (each * count) }'
done
