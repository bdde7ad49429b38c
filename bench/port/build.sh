#!/bin/sh
# Builds the search of `compact` as a plain Rust program, before anything of it is proved: for measuring, never for use.
# The sources are translated (strip.py), and shim/ stands for what is not searched.
#
#   bench/port/build.sh OUT [FOLDER]    the sources of FOLDER, a clone of this repository; by default of this one
#
# PORT_CHECKS=1 builds it with tests of overflows and indices. With PORT_PASSES=LETTERS the program makes the graph of
# its netlist smaller by these passes alone (shim/main.rs). The status is 70 where there is no cargo.
set -eu
here=$(cd -P "$(dirname "$0")" && pwd)
out=$1
clone=$(cd -P "${2:-$here/../..}" && pwd)
made=${TMPDIR:-/tmp}/aqfp_port/$(echo "$clone" | tr / _)${PORT_CHECKS:+_checks}
command -v cargo >/dev/null || { echo "port: cargo is not there" >&2; exit 70; }
mkdir -p "$made"
python3 "$here/strip.py" "$clone" "$made"
(cd "$made" && cargo build --release --offline -j 1 2>log) || { grep -A 8 '^error' "$made/log"; exit 1; }
cp "$made/target/release/aqport" "$out"
