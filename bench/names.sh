#!/bin/sh
# What names cost that were chosen against the program: 120,000 of eight letters and digits as the inputs of a netlist,
# and 60,000 as names of structures of a stream, once in the order of a counter and once such that the hash that the
# kit's `indexmap` has by default brings all of them to one group of its table. Each file is read whole, and then the
# library, which is empty, or the stream's missing chip is refused. Prints times and ratios. Needs cc, python3 and GNU
# time.
set -u
here=$(cd -P "$(dirname "$0")/.." && pwd)
work=$(mktemp -d)
trap 'rm -rf "$work"' EXIT
for tool in cc python3 /usr/bin/time; do
    command -v "$tool" >/dev/null || { echo "names: $tool is not there" >&2; exit 70; }
done
program=${AQFP:-$("$here/.ci/program")} || exit
: >"$work/none"

# The default hash takes a name's length and then its bytes, one by one: each is a product of 64 bits by 64, folded.
cat >"$work/names.c" <<'END'
#include <stdint.h>
#include <stdio.h>
#include <stdlib.h>
static uint64_t fold(uint64_t a, uint64_t b) {
    __uint128_t product = (__uint128_t)a * b;
    return (uint64_t)product ^ (uint64_t)(product >> 64);
}
int main(int argc, char **argv) {
    const uint64_t odd = 0x9e3779b97f4a7c15, groups = 1 << 14;
    const char *digits = "0123456789abcdefghijklmnopqrstuvwxyzABCDEFGHIJKLMNOPQRSTUVWXYZ";
    long left = atol(argv[1]);
    int chosen = argv[2][0] == 'c';
    for (uint64_t n = 1; left > 0; n++) {
        char name[9] = {0};
        uint64_t rest = n * odd, state = fold(0x243f6a8885a308d3 ^ 8, odd ^ 16);
        for (int i = 0; i < 8; i++, rest /= 62) {
            name[i] = digits[rest % 62];
            state = fold(state ^ (uint64_t)name[i] * 0x010101, odd ^ 2);
        }
        if (chosen && ((state ^ (state >> 32)) & (groups - 1)) != 7) continue;
        puts(name);
        left--;
    }
    return 0;
}
END
cc -O2 -o "$work/names" "$work/names.c" || exit 70

netlist() { awk 'BEGIN { printf ".inputs" } { printf " %s", $1 } END { printf "\n.outputs %s\n", $1 }' "$1"; }

stream() {
    python3 - "$1" <<'END'
import struct, sys
def record(code, data=b""): return struct.pack(">HH", 4 + len(data), code) + data
def text(name): return name + b"\0" * (len(name) % 2)
dates = struct.pack(">12H", *[1970, 1, 1, 0, 0, 0] * 2)
out = [record(0x0002, struct.pack(">H", 600)), record(0x0102, dates), record(0x0206, b"CHIP"),
       record(0x0305, bytes.fromhex("3e4189374bc6a7f03944b82fa09b5a54"))]
for name in open(sys.argv[1], "rb").read().split():
    out += [record(0x0502, dates), record(0x0606, text(name)), record(0x0700)]
out.append(record(0x0400))
sys.stdout.buffer.write(b"".join(out))
END
}

# The milliseconds of processor time that a command takes.
took() {
    /usr/bin/time -f '%U %S' -o "$work/time" "$@" >/dev/null 2>"$work/err"
    awk 'END { printf "%d", ($1 + $2) * 1000 }' "$work/time"
}

for kind in netlist stream; do
    count=120000
    [ $kind = stream ] && count=60000
    plain=
    for names in ordinary chosen; do
        "$work/names" $count $names >"$work/list"
        $kind "$work/list" >"$work/file"
        if [ $kind = netlist ]; then
            time=$(took "$program" build "$work/file" "$work/none" "$work/out.gds")
        else
            time=$(took "$program" verify "$work/file" "$work/none" "$work/none")
        fi
        [ -z "$plain" ] && plain=$time
        echo "$kind of $count $names names: $time ms, ratio $(awk -v a="$time" -v b="$plain" \
            'BEGIN { printf "%.1f", a / (b ? b : 1) }') ($(head -n 1 "$work/err"))"
    done
done
