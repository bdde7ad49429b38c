#!/bin/sh
# What inputs cost that are made to be slow, beside ordinary ones of the same size: netlists, streams, libraries, names,
# and chips that are compared. docs/measuring.md says what each input is, and what it stands beside.
#
#   bench/hostile.sh
#
# Prints for each the seconds of processor time and the megabytes of memory at most, the same of the ordinary input, the
# two ratios, and whether they are within what is wanted, which mostly is three times. The status is 1 where one is
# above, or a comparison is answered otherwise. Needs GNU time, cc and python3. SECONDS_EACH, by default 300, is when a
# run is cut off. AQFP names the program.
set -u
here=$(cd -P "$(dirname "$0")/.." && pwd)
seconds=${SECONDS_EACH:-300}
work=$(mktemp -d)
trap 'rm -rf "$work"' EXIT
for tool in /usr/bin/time cc python3; do
    command -v "$tool" >/dev/null || { echo "hostile: $tool is not there" >&2; exit 70; }
done
program=${AQFP:-$("$here/.ci/program")} || exit
: >"$work/none"
printf '0\n1\n' >"$work/words"
"$program" build "$here/examples/wire.blif" "$here/libraries/a.toml" "$work/wire.gds" >/dev/null || exit 1
failed=0

cat >"$work/make.py" <<'END'
import random, struct, sys
kind, size, target = sys.argv[1], int(sys.argv[2]), sys.argv[3]
FAR = 500_000_000


def adder(bits):
    """The sum of two numbers."""
    def gate(a, b, y, *rows): return [f".names {a} {b} {y}", *rows]
    xor, both, either = ("10 1", "01 1"), ("11 1",), ("1- 1", "-1 1")
    yield ".inputs " + " ".join(f"a{i} b{i}" for i in range(bits))
    yield ".outputs " + " ".join(f"s{i}" for i in range(bits + 1))
    yield from gate("a0", "b0", "s0", *xor) + gate("a0", "b0", "c1", *both)
    for i in range(1, bits):
        yield from gate(f"a{i}", f"b{i}", f"p{i}", *xor) + gate(f"p{i}", f"c{i}", f"s{i}", *xor)
        yield from gate(f"a{i}", f"b{i}", f"g{i}", *both) + gate(f"p{i}", f"c{i}", f"h{i}", *both)
        yield from gate(f"g{i}", f"h{i}", f"c{i + 1}", *either)
    yield from (f".names c{bits} s{bits}", "1 1")


def chain(links, last):
    """Definitions of seven digits, each of the next; the last is of a signal that is named."""
    yield ".inputs a\n.outputs 1000000"
    for i in range(1_000_000, 1_000_000 + links):
        yield f".names {i + 1} {i}\n1 1"
    yield f".names {last} {1_000_000 + links}\n1 1"


def deep(models):
    """A wire through so many models, each of which calls the next."""
    for k in range(1_000_000, 1_000_000 + models):
        last = k == 1_000_000 + models - 1
        yield f".model m{k}\n.inputs i\n.outputs o\n" + (".names i o\n1 1" if last else f".subckt m{k + 1} i=i o=o")


def broad(models):
    """A wire, and calls of so many models for nothing."""
    yield ".model top\n.inputs i\n.outputs i"
    for k in range(1_000_000, 1_000_000 + models): yield f".subckt m{k} i=i"
    for k in range(1_000_000, 1_000_000 + models): yield f".model m{k}\n.inputs i\n.outputs o\n.names i o\n1 1"


def named(length):
    """A model with an output of a long name, called 100,000 times for nothing."""
    yield ".model top\n.inputs a\n.outputs a"
    yield from (".subckt b" for k in range(100_000))
    yield f".model b\n.outputs {'x' * length}\n.names {'x' * length}\n1"


def doubled(times):
    """Models that each call the next twice; the last is a constant."""
    for k in range(times):
        yield f".model m{k}\n.outputs o\n.subckt m{k + 1} o=o\n.subckt m{k + 1}"
    yield f".model m{times}\n.outputs o\n.names o\n1"


def cycle(links):
    """The shortest definitions that make one cycle."""
    digits = "0123456789abcdefghijklmnopqrstuvwxyzABCDEFGHIJKLMNOPQRSTUVWXYZ"
    def name(i): return digits[i // 238328] + digits[i // 3844 % 62] + digits[i // 62 % 62] + digits[i % 62]
    yield ".outputs 0000"
    for i in range(links):
        yield f".names {name((i + 1) % links)} {name(i)}"


def record(code, data=b""): return struct.pack(">HH", 4 + len(data), code) + data
def words(*numbers): return struct.pack(f">{len(numbers)}H", *numbers)
def points(*numbers): return struct.pack(f">{len(numbers)}i", *numbers)
def structure(name, body):
    dates = words(*[1970, 1, 1, 0, 0, 0] * 2)
    return record(0x0502, dates) + record(0x0606, name) + body + record(0x0700)
def square(x, y):
    head = record(0x0800) + record(0x0D02, words(10)) + record(0x0E02, words(0))
    return head + record(0x1003, points(x, y, x + 1000, y, x + 1000, y + 1000, x, y + 1000, x, y)) + record(0x1100)
def ring(corners):
    head = record(0x0800) + record(0x0D02, words(50)) + record(0x0E02, words(0))
    return head + record(0x1003, points(*(z for corner in corners for z in corner))) + record(0x1100)
def comb(teeth):
    """A comb whose teeth are of different heights: one boundary, cut at as many heights."""
    corners = [(0, 0), (400 * teeth, 0)]
    for k in reversed(range(teeth)):
        corners += [(400 * k + 200, 1000), (400 * k + 200, 2000 + k), (400 * k, 2000 + k), (400 * k, 1000)]
    return [corners[0], (400 * teeth - 200, 0), *corners[2:], corners[0]]
def stairs(steps):
    """A triangle with steps."""
    corners = [(0, 0), (10 * steps, 0)]
    for k in range(steps): corners += [(10 * (steps - k), 10 * (k + 1)), (10 * (steps - k - 1), 10 * (k + 1))]
    return [*corners, (0, 0)]
def spiral(rounds):
    """A line wound inwards."""
    side, outer, inner = 8 * rounds + 8, [(0, 0)], [(0, 2)]
    for d in range(0, 4 * rounds, 4):
        far = side - d
        outer += [(far, d), (far, far), (d, far), (d, d + 4)]
        inner += [(far - 2, d + 2), (far - 2, far - 2), (d + 2, far - 2), (d + 2, d + 6)]
    inner[-1] = (inner[-1][0], outer[-1][1])
    return [*outer, *reversed(inner), (0, 0)]
def castle(steps):
    """Steps at both sides, of the same heights, and as many slots between them that go down past all steps."""
    width, top = 40 * steps + 100, 10 * steps + 100
    corners = [(0, 0), (width, 0)]
    for k in range(steps): corners += [(width - k, 10 * k + 10), (width - k - 1, 10 * k + 10)]
    corners += [(width - steps, top)]
    for x in reversed(range(steps + 30, 31 * steps + 30, 30)):
        corners += [(x + 10, top), (x + 10, 5), (x, 5), (x, top)]
    corners += [(steps, top)]
    for k in reversed(range(steps)): corners += [(k + 1, 10 * k + 10), (k, 10 * k + 10)]
    return [*corners, (0, 0)]
def board(lines):
    """A line that goes up and down so often, and then across itself as often: squares as on a board."""
    high, corners = 10 * lines + 10, [(10, -10)]
    for k in range(lines): corners += [(10 * k + 10, -10 if k % 2 else high), (10 * k + 20, -10 if k % 2 else high)]
    x = 10 * lines + 20
    corners[-1] = (x, corners[-1][1])
    corners += [(x, 5)]
    for k in range(lines): corners += [(x if k % 2 else 0, 10 * k + 5), (x if k % 2 else 0, 10 * k + 15)]
    corners[-1] = (corners[-1][0], -20)
    return [*corners, (10, -20), (10, -10)]
def ell():
    """A corner."""
    return [(0, 0), (4000, 0), (4000, 2000), (2000, 2000), (2000, 6000), (0, 6000), (0, 0)]
# Rings of at most 8,191 points, which is as many as a record holds.
RINGS = {"rings_comb": lambda: comb(2_040), "rings_stairs": lambda: stairs(4_080),
         "rings_spiral": lambda: spiral(1_019), "rings_castle": lambda: castle(1_019), "rings_ell": ell,
         "ring_crossed": lambda: board(2_000)}
def rings(corners, count):
    """So many of a ring, beside one another."""
    pitch = max(max(corner) for corner in corners) + 1000
    places = [(FAR + k % 300 * pitch, k // 300 * pitch) for k in range(count)]
    return b"".join(ring([(x + dx, y + dy) for x, y in corners]) for dx, dy in places)
def box(layer, x0, y0, x1, y1, datatype=0):
    head = record(0x0800) + record(0x0D02, words(layer)) + record(0x0E02, words(datatype))
    return head + record(0x1003, points(x0, y0, x1, y0, x1, y1, x0, y1, x0, y0)) + record(0x1100)
def array(name, columns, rows, x, y, step_x, step_y):
    """So many references in columns and rows."""
    head = record(0x0B00) + record(0x1206, name) + record(0x1302, words(columns, rows))
    return head + record(0x1003, points(x, y, x + columns * step_x, y, x, y + rows * step_y)) + record(0x1100)
def label(layer, text, x, y):
    head = record(0x0C00) + record(0x0D02, words(layer)) + record(0x1602, words(0))
    return head + record(0x1003, points(x, y)) + record(0x1906, text) + record(0x1100)
def layers(size, form):
    """Rows of 64 gates, each of two of the row below, chosen by a fixed seed; exclusive ors are of two forms."""
    chosen = random.Random(1)
    xor = {"one": ["10 1", "01 1"], "two": None}[form]
    yield ".inputs " + " ".join(f"r0_{k}" for k in range(64))
    yield ".outputs " + " ".join(f"r{size}_{k}" for k in range(64))
    for row in range(1, size + 1):
        for k in range(64):
            a, b = (f"r{row - 1}_{(k + step) % 64}" for step in chosen.sample(range(-3, 4), 2))
            y, what = f"r{row}_{k}", chosen.choice(("xor", "xor", "and", "or"))
            if what == "xor" and xor is None:
                yield f".names {a} {b} e{y}\n1- 1\n-1 1\n.names {a} {b} b{y}\n11 1\n.names e{y} b{y} {y}\n10 1"
            else:
                yield "\n".join([f".names {a} {b} {y}", *{"xor": xor, "and": ["11 1"], "or": ["1- 1", "-1 1"]}[what]])


def scarce(size, form):
    """Outputs that are true where 16 inputs of 48 have chosen values, so that random words show all of them false."""
    chosen = random.Random(1)
    yield ".inputs " + " ".join(f"i{k}" for k in range(48))
    yield ".outputs " + " ".join(f"y{k}" for k in range(size))
    for k in range(size):
        taken = [(f"i{n}", chosen.choice("01")) for n in chosen.sample(range(48), 16)]
        if form == "two":
            taken.reverse()
        last, value = taken[0]
        for step, (name, bit) in enumerate(taken[1:], 1):
            y = f"y{k}" if step == 15 else f"t{k}_{step}"
            yield f".names {last} {name} {y}\n{value}{bit} 1"
            last, value = y, "1"


def reference(name, x, y):
    return record(0x0A00) + record(0x1206, name) + record(0x1003, points(x, y)) + record(0x1100)


def with_more(structures, elements):
    """The chip of a wire with structures before its top, and elements at the end of the top."""
    read, at, data = [], 0, open(sys.argv[4], "rb").read()
    while at < len(data):
        length = struct.unpack(">H", data[at:at + 2])[0]
        read.append(data[at:at + length])
        at += length
    top = [n for n, it in enumerate(read) if it[2:4] == b"\x05\x02"][-1]
    end = [n for n, it in enumerate(read) if it[2:4] == b"\x07\x00"][-1]
    return b"".join(read[:top]) + structures + b"".join(read[top:end]) + elements + b"".join(read[end:])


def spread(count):
    """So many references, each at a place of its own."""
    columns, pitch = (45, 1_000_000) if count <= 20_000 else (999, 2_000)
    return b"".join(reference(b"HP", FAR + k % columns * pitch, k // columns * pitch) for k in range(count))


def crossed(size, upright, level, step):
    """So many upright boxes side by side, and as many level ones across all of them."""
    both = structure(b"UP", upright) + structure(b"LE", level)
    return both, array(b"UP", size, 1, -FAR, FAR, step, 0) + array(b"LE", 1, size, -FAR, FAR, 0, step)


def across(size):
    """A row of cells, each a constant, and as many lines of M1 that lie over all of them and don't touch."""
    high = size * 3000 + 10_000
    cell = box(20, 0, 0, 8000, high, 3) + box(22, 3500, high - 1000, 4500, high)
    both = structure(b"CE", cell) + structure(b"LI", box(10, 0, 0, size * 8000, 1000))
    return both, array(b"CE", size, 1, -FAR, FAR, 8000, 0) + array(b"LI", 1, size, -FAR, FAR, 0, 3000)


def netlist(lines):
    with open(target, "w") as out:
        for line in lines:
            out.write(line + "\n")


if kind == "adder": netlist(adder(size))
elif kind == "adder_words":
    netlist("".join("01"[(k + 1) * (i + 3) % 11 < 5] for i in range(2 * size)) for k in range(8))
elif kind == "short": netlist([".outputs y", ".names y", *[" 1"] * size])
elif kind == "chain": netlist(chain(size, "a"))
elif kind == "cycle": netlist(cycle(size))
elif kind == "deep": netlist(deep(size))
elif kind == "broad": netlist(broad(size))
elif kind == "named": netlist(named(size))
elif kind == "doubled": netlist(doubled(size))
elif kind == "layers": netlist(layers(size, sys.argv[5]))
elif kind == "scarce": netlist(scarce(size, sys.argv[5]))
elif kind == "keys": netlist(f"k{i} = 1" for i in range(size))
elif kind == "name_keys": netlist(["[name]", *(f"k{i} = 1" for i in range(size))])
else:
    side = 64
    before = b""
    if kind == "comb": body = ring(comb(2_001))
    elif kind == "bare": body = square(0, 0)
    elif kind == "empties":
        before = structure(b"EM", b"")
        body = square(0, 0) + b"".join(reference(b"EM", 0, 0) for k in range(20_000))
    elif kind == "squares": body = b"".join(square(k % side * 2000, k // side * 2000) for k in range(3_999))
    elif kind == "heap": body = b"".join(square(0, 0) for k in range(3_999))
    elif kind == "text": body = label(50, b"t" * 32_000, 0, 0)
    elif kind == "letter": body = label(50, b"t" * 2, 0, 0)
    if kind == "loop":
        names = [b"L%07d" % k for k in range(size)]
        loop = (structure(name, reference(names[(k + 1) % size], 0, 0)) for k, name in enumerate(names))
        made = with_more(b"".join(loop), reference(names[0], FAR, 0))
    elif kind == "rounds":
        below = [b"C%03d" % k for k in range(64)] + [b"HP"]
        links = (structure(name, reference(low, 0, 0)) for name, low in zip(below, below[1:]))
        many = structure(b"MA", reference(b"HP", 0, 0) * size + reference(b"MA", 0, 0))
        made = with_more(structure(b"HP", square(0, 0)) + b"".join(links) + many,
                         reference(b"MA", FAR, 0) + reference(below[0], FAR, 0))
    elif kind == "flat":
        names = [b"L%07d" % k for k in range(size)]
        places = ((name, FAR + k % 999 * 2000, k // 999 * 2000) for k, name in enumerate(names))
        made = with_more(b"".join(structure(name, square(0, 0)) for name in names),
                         b"".join(reference(*place) for place in places))
    elif kind in RINGS: made = with_more(b"", rings(RINGS[kind](), size))
    elif kind in ("long_labels", "short_labels"):
        text = b"I" + b"1" * (64_999 if kind == "long_labels" else 1)
        made = with_more(structure(b"HP", label(30, text, 3000, 500)), array(b"HP", 1000, size, 0, 0, 0, 0))
    elif kind == "across": made = with_more(*across(size))
    elif kind == "mesh":
        long = size * 2000
        made = with_more(*crossed(size, box(10, 0, 0, 1000, long), box(10, 0, 0, long, 1000), 2000))
    elif kind == "long_vias":
        long = size * 2000
        made = with_more(*crossed(size, box(11, 0, 0, 1000, long), box(12, 0, 0, long, 1000), 2000))
    elif kind == "close":
        made = with_more(structure(b"SQ", box(10, 0, 0, 16_000, 16_000)), array(b"SQ", size, 1, -FAR, FAR, 1, 0))
    elif kind == "around":
        made = with_more(b"", b"".join(box(10, FAR - k, FAR - k, FAR + 1000 + k, FAR + 1000 + k) for k in range(size)))
    elif kind == "labels": made = with_more(b"", b"".join(label(30, b"I0", 3000, 500) for k in range(size)))
    else: made = with_more(before + structure(b"HP", body), spread(size))
    open(target, "wb").write(made)
END

make() { python3 "$work/make.py" "$1" "$2" "$3" "$work/wire.gds" "${4:-}"; }

# The seconds of processor time, the megabytes and the first words that a command prints.
measure() {
    /usr/bin/time -q -f '%U %S %M' -o "$work/time" timeout "$seconds" "$@" >"$work/printed" 2>"$work/err"
    awk 'END { printf "%.3f %.1f ", $1 + $2, $3 / 1e3 }' "$work/time"
    cat "$work/printed" "$work/err" | head -n 1 | cut -c 1-60
}

# Compares a hostile input with an ordinary one: both as measured, how often the one is in the other, and the mark.
compare() {
    awk -v name="$1" -v hostile="$2" -v plain="$3" -v times="$4" -v most="$5" 'BEGIN {
        split(hostile, h, " "); split(plain, p, " ")
        said = hostile; sub(/^[^ ]* [^ ]* /, "", said)
        p[1] *= times; p[2] *= times
        time = h[1] / (p[1] > 0.005 ? p[1] : 0.005); memory = h[2] / p[2]
        told = most !~ /^[0-9.]+$/
        within = told || (time <= most && memory <= most)
        printf "%s: %.2f s, %.1f MB (%s); ordinary %.2f s, %.1f MB; ratios %.1f and %.1f, %s %s\n", name, h[1], h[2],
            said == "" ? "no answer" : said, p[1], p[2], time, memory,
            told ? "by the" : within ? "within" : "ABOVE", most
        exit !within }' || failed=1
}

# Netlists of 16 MB.
read_netlist() { measure "$program" build "$1" "$work/none" "$work/out.gds"; }
make adder 83000 "$work/plain"
plain=$(read_netlist "$work/plain")
echo "an ordinary netlist of $(wc -c <"$work/plain") bytes: $plain"
while read -r kind size; do
    make "$kind" "$size" "$work/net"
    bytes=$(wc -c <"$work/net")
    times=$(awk -v a="$bytes" -v b="$(wc -c <"$work/plain")" 'BEGIN { print a / b }')
    compare "netlist $kind, $bytes bytes" "$(read_netlist "$work/net")" "$plain" "$times" 3
done <<CASES
short 5592395
chain 620000
cycle 980000
named 7500000
CASES
make broad 225000 "$work/net"
broad=$(read_netlist "$work/net")
bytes=$(wc -c <"$work/net")
make deep 270000 "$work/net"
times=$(awk -v a="$(wc -c <"$work/net")" -v b="$bytes" 'BEGIN { print a / b }')
compare "netlist deep, beside one whose first model calls all others" "$(read_netlist "$work/net")" "$broad" "$times" 3
make doubled 20 "$work/net"
# The ordinary one has 39 for each bit.
times=$(awk 'BEGIN { print 12582902 / (39 * 83000) }')
compare "netlist doubled, beside one of its size, 12582902" "$(read_netlist "$work/net")" "$plain" "$times" 3
rm -f "$work/net" "$work/plain"

# Streams.
make adder 164 "$work/adder.blif"
make adder_words 164 "$work/adder.words"
"$program" build "$work/adder.blif" "$here/libraries/a.toml" "$work/adder.gds" >"$work/counts" || exit 1
shapes=$(python3 - "$work/adder.gds" <<'END'
import struct, sys
data, at, sizes, name, labels = open(sys.argv[1], "rb").read(), 0, {}, b"", 0
while at < len(data):
    length, code = struct.unpack(">HH", data[at:at + 4])
    text = data[at + 4:at + length].rstrip(b"\0")
    if code == 0x0606: name = text; sizes[name] = 0
    elif code == 0x0800: sizes[name] += 1
    elif code == 0x1206: sizes[name] += sizes[text]
    elif code == 0x0C00: labels += 1
    at += length
print(sizes[name] + labels)
END
)
check() { measure "$program" verify "$1" "$here/libraries/a.toml" "$2"; }
plain=$(check "$work/adder.gds" "$work/adder.words")
echo "an ordinary chip of $shapes shapes and labels, $(wc -c <"$work/adder.gds") bytes: $plain"
while read -r kind size count most; do
    make "$kind" "$size" "$work/hostile.gds"
    times=$(awk -v a="$count" -v b="$shapes" 'BEGIN { print a / b }')
    compare "stream $kind, $count shapes and labels, $(wc -c <"$work/hostile.gds") bytes" \
        "$(check "$work/hostile.gds" "$work/words")" "$plain" "$times" "$most"
done <<CASES
squares 2000 7998017 3
heap 2000 7998017 3
comb 3900 7807817 3
ring_crossed 1 2002018 3
labels 200000 200017 5
across 16000 48017 3
mesh 4000 8017 pairs
long_vias 4000 8017 pairs
around 2000 2017 pairs
close 4000 4017 pairs
CASES
while read -r kind count; do
    make "$kind" "$count" "$work/hostile.gds"
    bytes=$(wc -c <"$work/hostile.gds")
    times=$(awk -v a="$bytes" -v b="$(wc -c <"$work/adder.gds")" 'BEGIN { print a / b }')
    compare "stream $kind, $count rings, $bytes bytes" \
        "$(check "$work/hostile.gds" "$work/words")" "$plain" "$times" 3
done <<CASES
rings_comb 100
rings_stairs 100
rings_spiral 100
rings_castle 100
rings_ell 80000
CASES
make short_labels 1000 "$work/letter.gds"
make long_labels 1000 "$work/hostile.gds"
compare "stream long_labels, 1000000 labels, $(wc -c <"$work/hostile.gds") bytes" \
    "$(check "$work/hostile.gds" "$work/words")" "$(check "$work/letter.gds" "$work/words")" 1 3
make letter 20000 "$work/letter.gds"
make text 20000 "$work/hostile.gds"
compare "stream text, 20000 labels, $(wc -c <"$work/hostile.gds") bytes" \
    "$(check "$work/hostile.gds" "$work/words")" "$(check "$work/letter.gds" "$work/words")" 1 3
make bare 100000 "$work/letter.gds"
make empties 100000 "$work/hostile.gds"
compare "stream empties, 100000 shapes, $(wc -c <"$work/hostile.gds") bytes" \
    "$(check "$work/hostile.gds" "$work/words")" "$(check "$work/letter.gds" "$work/words")" 1 3
make flat 300000 "$work/letter.gds"
make loop 300000 "$work/hostile.gds"
compare "stream loop, 300000 structures, $(wc -c <"$work/hostile.gds") bytes" \
    "$(check "$work/hostile.gds" "$work/words")" "$(check "$work/letter.gds" "$work/words")" 1 3
make bare 2400000 "$work/letter.gds"
make rounds 2400000 "$work/hostile.gds"
compare "stream rounds, 2400000 references, $(wc -c <"$work/hostile.gds") bytes" \
    "$(check "$work/hostile.gds" "$work/words")" "$(check "$work/letter.gds" "$work/words")" 1 3
rm -f "$work/hostile.gds" "$work/adder.gds"

# Libraries, each read twenty times, since once is too short for the clock.
read_library() {
    measure sh -c 'for i in 1 2 3 4 5 6 7 8 9 10 11 12 13 14 15 16 17 18 19 20; do "$@"; done' read \
        "$program" build "$here/examples/wire.blif" "$1" "$work/out.gds"
}
for kind in keys name_keys; do
    make $kind 45000 "$work/half.toml"
    make $kind 90000 "$work/whole.toml"
    half=$(read_library "$work/half.toml")
    compare "library $kind, 90000, twenty times" "$(read_library "$work/whole.toml")" "$half" 1 2.5
done

# Comparisons, each of a chip with another form of its netlist, beside `verify` without words, and what is answered.
sed 's/^capacity = .*/capacity = 200/; s/^limit = .*/limit = 20000000/' "$here/libraries/a.toml" >"$work/far.toml"
while read -r kind size command answer most; do
    make "$kind" "$size" "$work/net" one
    make "$kind" "$size" "$work/other" two
    "$program" "$command" "$work/net" "$work/far.toml" "$work/chip.gds" >"$work/counts" || exit 1
    took=$(measure "$program" equal "$work/chip.gds" "$work/far.toml" "$work/other")
    case $took in *"$answer"*) ;; *) failed=1 ;; esac
    compare "comparison $kind, $command, $(cut -d ' ' -f 3-4 "$work/counts")" "$took" \
        "$(measure "$program" verify "$work/chip.gds" "$work/far.toml" "$work/none")" 1 "$most"
done <<CASES
layers 120 build equal 3
layers 480 build equal 3
scarce 100 compact equal 3
scarce 400 compact equal 3
layers 200 compact equal 10
CASES

# Names.
AQFP=$program "$here/bench/names.sh" >"$work/names" || failed=1
awk '
    { said = $0; sub(/.*ratio /, "", said); within = said + 0 <= 3; print $0 ": " (within ? "within" : "ABOVE") " 3" }
    !within { above = 1 }
    END { exit above }' "$work/names" || failed=1
exit $failed
