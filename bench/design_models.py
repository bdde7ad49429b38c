"""What the designs of `bench/designs/` are to answer, by models that have nothing of their Verilog: the inputs and the
outputs are numbers by the names of the ports. Words are chosen by chance, and so that rare cases come often."""
import math
import random
import struct

WORD = (1 << 32) - 1


def turned(value, by, bits=32):
    """A number turned to the right."""
    by %= bits
    return (value >> by | value << (bits - by)) & ((1 << bits) - 1)


def times(a, b):
    """The product in the field of AES."""
    total = 0
    for k in range(8):
        if b >> k & 1:
            total ^= a
        a = a << 1 ^ (0x11B if a & 0x80 else 0)
    return total


def substituted(byte):
    """The S-box of AES, by its definition: the inverse, found by trying, and the affine map."""
    inverse = next((other for other in range(256) if times(byte, other) == 1), 0)
    left = [inverse] + [turned(inverse, 8 - k, 8) for k in range(1, 5)]
    return left[0] ^ left[1] ^ left[2] ^ left[3] ^ left[4] ^ 0x63


SBOX = [substituted(byte) for byte in range(256)]
MIX = ((2, 3, 1, 1), (1, 2, 3, 1), (1, 1, 2, 3), (3, 1, 1, 2))


def aes_round(state, key):
    old = [[SBOX[byte] for byte in state.to_bytes(16, "big")[4 * c:4 * c + 4]] for c in range(4)]
    moved = [[old[(c + r) % 4][r] for r in range(4)] for c in range(4)]
    mixed = []
    for column in moved:
        for row in MIX:
            byte = 0
            for factor, value in zip(row, column):
                byte ^= times(factor, value)
            mixed.append(byte)
    return {"next": int.from_bytes(bytes(mixed), "big") ^ key}


def sha256_round(a, b, c, d, e, f, g, h, w):
    high = turned(a, 2) ^ turned(a, 13) ^ turned(a, 22)
    low = turned(e, 6) ^ turned(e, 11) ^ turned(e, 25)
    first = h + low + ((e & f) ^ (~e & g)) + w
    second = high + ((a & b) ^ (a & c) ^ (b & c))
    new = (first + second) & WORD, a, b, c, (d + first) & WORD, e, f, g
    return dict(zip(("na", "nb", "nc", "nd", "ne", "nf", "ng", "nh"), new))


# How far each lane is turned, row by row, as the standard prints them.
TURNS = ((0, 1, 62, 28, 27), (36, 44, 6, 55, 20), (3, 10, 43, 25, 39), (41, 45, 15, 21, 8), (18, 2, 61, 56, 14))


def keccak_round(state, iota):
    lanes = {(x, y): state >> 64 * (5 * y + x) & ((1 << 64) - 1) for x in range(5) for y in range(5)}
    sums = [lanes[x, 0] ^ lanes[x, 1] ^ lanes[x, 2] ^ lanes[x, 3] ^ lanes[x, 4] for x in range(5)]
    walked = {(y, (2 * x + 3 * y) % 5): turned(lane ^ sums[x - 1] ^ turned(sums[(x + 1) % 5], 63, 64),
                                               64 - TURNS[y][x], 64) for (x, y), lane in lanes.items()}
    new = {(x, y): lane ^ (~walked[(x + 1) % 5, y] & walked[(x + 2) % 5, y]) for (x, y), lane in walked.items()}
    new[0, 0] ^= iota
    return {"next": sum((lane & ((1 << 64) - 1)) << 64 * (5 * y + x) for (x, y), lane in new.items())}


def single(bits):
    return struct.unpack("f", struct.pack("I", bits))[0]


def fadd32(a, b):
    """Both are doubles, whose sum is rounded once more without harm: it has twice the digits and two more."""
    total = single(a) + single(b)
    if math.isnan(total):
        return {"s": 0x7FC00000}
    try:
        return {"s": struct.unpack("I", struct.pack("f", total))[0]}
    except OverflowError:
        return {"s": 0xFF800000 if total < 0 else 0x7F800000}


def signed(value, bits=32):
    return value - (1 << bits) if value >> (bits - 1) else value


def alu32(a, b, f):
    low = b & 31
    made = (a + b, a - b, a & b, a | b, a ^ b, a << low, a >> low, signed(a) >> low, signed(a) < signed(b), a < b,
            a * b, a * b >> 32, 0, 0, 0, 0)[f] & WORD
    return {"y": made, "zero": made == 0}


def multiplier(a, b):
    return {"p": a * b}


def computed(f, one, two, is_other):
    """What a register or immediate operation of RV32I makes; the other one subtracts, or shifts the sign in."""
    shift = two & 31
    right = signed(one) >> shift if is_other else one >> shift
    return (one - two if is_other and f == 0 else one + two, one << shift, signed(one) < signed(two), one < two,
            one ^ two, right, one | two, one & two)[f] & WORD


def loaded(f, read, place):
    """What a load takes of a word of memory."""
    part = read >> 8 * place
    if f in (2, 3, 6, 7):
        return read
    wide = 16 if f & 1 else 8
    part &= (1 << wide) - 1
    return part if f & 4 else signed(part, wide) & WORD


def rv32i(pc, code, one, other, read):
    kind, f, rd = code & 127, code >> 12 & 7, code >> 7 & 31
    of_i = signed(code >> 20, 12)
    of_s = signed(code >> 25 << 5 | rd, 12)
    of_b = signed((code >> 31) << 12 | (rd & 1) << 11 | (code >> 25 & 63) << 5 | (rd & 30), 13)
    of_j = signed((code >> 31) << 20 | (code >> 12 & 255) << 12 | (code >> 20 & 1) << 11 | (code >> 21 & 1023) << 1, 21)
    of_u = code & 0xFFFFF000
    address = (one + (of_s if kind == 0x23 else of_i)) & WORD
    branches = (one == other, one != other, None, None, signed(one) < signed(other), signed(one) >= signed(other),
                one < other, one >= other)
    jump = {0x6F: pc + of_j, 0x67: address & ~1, 0x63: pc + of_b if branches[f] else pc + 4}.get(kind, pc + 4)
    two = other if kind == 0x33 else of_i & WORD
    is_other = code >> 30 & 1 and (kind == 0x33 or f == 5)
    results = {0x37: of_u, 0x17: pc + of_u, 0x6F: pc + 4, 0x67: pc + 4, 0x03: loaded(f, read, address & 3),
               0x33: computed(f, one, two, is_other), 0x13: computed(f, one, two, is_other)}
    size = {0: 1, 1: 3}.get(f & 3, 15)
    made = {"next": jump & WORD, "address": address, "stored": other << 8 * (address & 3) & WORD,
            "mask": size << (address & 3) & 15 if kind == 0x23 and size < 15 else 15 if kind == 0x23 else 0,
            "taken": kind in results and rd != 0}
    if kind in results:  # else the result is not taken
        made["result"] = results[kind] & WORD
    return made


def any_number(draw, bits):
    """A number by chance: any one, or one with few ones, or near to an end."""
    return draw.choice((draw.getrandbits(bits), 1 << draw.randrange(bits), draw.randrange(4) % (1 << bits),
                        (1 << bits) - 1 - draw.randrange(2)))


def near_floats(draw):
    """Two floating-point numbers whose exponents are mostly near to one another."""
    a = draw.getrandbits(1) << 31 | draw.choice((0, 1, 254, 255, draw.randrange(256))) << 23 | any_number(draw, 23)
    scale = min(max((a >> 23 & 255) + draw.randrange(-30, 31), 0), 255)
    b = draw.getrandbits(1) << 31 | scale << 23 | any_number(draw, 23)
    return draw.choice(((a, b), (b, a), (a, a ^ 1 << 31), (a, a ^ 1 << 31 ^ 1)))


def instruction(draw):
    """An instruction of RV32I of any kind, with any other bits; branches are those that there are."""
    kind = draw.choice((0x37, 0x17, 0x6F, 0x67, 0x63, 0x03, 0x23, 0x33, 0x13))
    f = draw.choice((0, 1, 4, 5, 6, 7)) if kind == 0x63 else draw.randrange(8)
    code = draw.getrandbits(32) & ~0x707F | f << 12 | kind
    if kind == 0x33:
        code = code & ~(0x7F << 25) | draw.choice((0, 32 if f in (0, 5) else 0)) << 25
    if kind == 0x13 and f in (1, 5):
        code = code & ~(0x7F << 25) | draw.choice((0, 32 if f == 5 else 0)) << 25
    return code


def chosen(name, widths, draw):
    """A word for a design: a number for each input."""
    word = {port: any_number(draw, wide) for port, wide in widths.items()}
    if name == "fadd32":
        word["a"], word["b"] = near_floats(draw)
    if name == "rv32i":
        word["code"] = instruction(draw)
        word["pc"] &= ~3
        word["other"] = draw.choice((word["other"], word["one"]))
    return word


MODELS = {"aes_round": aes_round, "sha256_round": sha256_round, "keccak_round": keccak_round, "fadd32": fadd32,
          "alu32": alu32, "rv32i": rv32i, "multiplier": multiplier}
