#!/bin/sh
# From Verilog and BLIF to stored chips, their answers and pictures: everything that docs/guide.md does by hand.
#
#   examples/flow.sh FOLDER
#
# It runs in the repository, and where share/install or a package put it; all that it makes is put into FOLDER.
# Each netlist NAME.blif of this folder is built with library A as FOLDER/NAME.gds, is verified with NAME.words, and
# what is printed is compared with NAME.answers; `equal` compares the chip with NAME.blif for all words, and where ABC
# is installed, it compares the netlist of the chip's circuit with NAME.blif. The same is done with library B, as
# NAME_b, with the chip of `compact`, as NAME_compact, of netlists of cells with that of `draw`, as NAME_draw, and with
# netlists that other tools make of it: NAME_yosys, which Yosys makes of NAME.v, with gates of two inputs and choices,
# NAME_and, with and, or and not alone, NAME_lut, with tables of three inputs; and NAME_abc, which ABC makes of
# NAME.blif. Where KLayout is installed, it checks each chip by share/aqfp.drc and makes a picture of it. Last come the
# layouts under layouts/, a trace, and a netlist that is refused. A layout NETLIST_CHANGE.gds is verified with its
# words, and where there is a file NETLIST_CHANGE.compared, that is what `equal` says of it and of NETLIST.blif. Then
# KLayout and Magic draw the full adder anew by the scripts beside the layouts. A tool that is not installed is named,
# and its part is left out. Prints a line for each chip. The status is 1 where something failed. AQFP names another
# program than the launcher, ./aqfp, which runs bin/aqfp as it is, or the installed one.
set -u
here=$(cd -P "$(dirname "$0")" && pwd)
top=$(dirname "$here")
if [ -d "$top/libraries" ]; then
    aqfp=${AQFP:-$top/aqfp}
    libraries=$top/libraries
    share=$top/share
else
    case $here in
        */share/doc/aqfp/examples) prefix=${here%/share/doc/aqfp/examples} ;;
        *) prefix=$(dirname "$(dirname "$(command -v aqfp)")") ;; # a copy of the installed folder
    esac
    aqfp=${AQFP:-$prefix/bin/aqfp}
    share=$prefix/share/aqfp
    libraries=$share
fi
library=$libraries/a.toml
command=build
if [ $# -ne 1 ]; then
    echo "usage: examples/flow.sh FOLDER" >&2
    exit 2
fi
folder=$1
mkdir -p "$folder" || exit 2
"$aqfp" --version >/dev/null || exit 1 # where bin/aqfp does not run, the launcher builds the program first
failed=0

# Says that something is not as it should be.
fail() {
    echo "$*"
    failed=1
}

# Whether a tool is there.
have() { command -v "$1" >/dev/null; }

# The gates of a Verilog module, by Yosys, with what its pass `abc` is told of gates.
synthesise() {
    yosys -q -p "read_verilog $1; synth -flatten -auto-top; abc $3; opt_clean -purge; write_blif $2"
}

# Whether KLayout finds nothing against the rules of geometry; a picture beside it.
look_at() {
    export QT_QPA_PLATFORM=offscreen
    klayout -z -b -r "$share/picture.py" -rd gds="$1.gds" -rd png="$1.png" >/dev/null || return 1
    klayout -z -b -r "$share/aqfp.drc" -rd gds="$1.gds" -rd library="$library" | grep -q '^sum 0$'
}

# Makes the chip of a netlist by the command, as FOLDER/CHIP.gds, and compares its answers with those of an example.
make_chip() {
    chip=$1
    netlist=$2
    example=$3
    if ! counts=$("$aqfp" "$command" "$netlist" "$library" "$folder/$chip.gds" 2>&1); then
        fail "$chip: $counts"
        return
    fi
    "$aqfp" verify "$folder/$chip.gds" "$library" "$here/$example.words" >"$folder/$chip.printed" 2>&1
    if { echo "$counts"; cat "$here/$example.answers"; } | cmp -s - "$folder/$chip.printed"; then
        echo "$chip: $counts, answers as they should be"
    else
        fail "$chip: $counts, OTHER ANSWERS, in $folder/$chip.printed"
    fi
    verdict=$("$aqfp" equal "$folder/$chip.gds" "$library" "$here/$example.blif" 2>&1)
    [ "$verdict" = equal ] || fail "$chip: $verdict, AND NOT EQUAL to $example.blif"
    "$aqfp" netlist "$folder/$chip.gds" "$library" "$folder/$chip.extracted.blif" >/dev/null 2>&1 ||
        fail "$chip: NO NETLIST OF ITS CIRCUIT"
    if have berkeley-abc && grep -q '^\.names' "$here/$example.blif"; then
        berkeley-abc -q "cec -n $folder/$chip.extracted.blif $here/$example.blif" | grep -q "are equivalent" ||
            fail "$chip: ABC FINDS ITS CIRCUIT'S NETLIST NOT EQUIVALENT"
    fi
    if have klayout && ! look_at "$folder/$chip"; then
        fail "$chip: KLAYOUT FINDS A BROKEN RULE, or failed"
    fi
}

# A chip of the netlist that Yosys makes of an example's Verilog, by one choice of gates.
make_synthesised() {
    if synthesise "$here/$1.v" "$folder/$1_$2.blif" "$3"; then
        make_chip "$1_$2" "$folder/$1_$2.blif" "$1"
    else
        fail "$1_$2: Yosys failed"
    fi
}

# A chip of the netlist that ABC makes of an example's.
make_by_abc() {
    if berkeley-abc -q "read_blif $here/$1.blif; strash; write_blif $folder/$1_abc.blif" >/dev/null; then
        make_chip "$1_abc" "$folder/$1_abc.blif" "$1"
    else
        fail "$1_abc: ABC failed"
    fi
}

# Compares what a command of the program prints, a refusal's line too, with what a file says.
compare() {
    name=$1
    expected=$2
    shift 2
    "$aqfp" "$@" >"$folder/$name.printed" 2>&1
    if cmp -s "$expected" "$folder/$name.printed"; then
        echo "$name: $(head -n 1 "$folder/$name.printed"), as it should be"
    else
        fail "$name: PRINTS OTHERWISE, in $folder/$name.printed"
    fi
}

have yosys || echo "flow: yosys is not installed: no netlists are made of Verilog" >&2
have berkeley-abc || echo "flow: berkeley-abc is not installed: no netlists are made by ABC" >&2
have klayout || echo "flow: klayout is not installed: no pictures are made, and its rules are not tried" >&2
have magic || echo "flow: magic is not installed: no chip is written anew by it" >&2
for netlist in "$here"/*.blif; do
    name=$(basename "$netlist" .blif)
    [ "$name" = cycle ] && continue
    make_chip "$name" "$netlist" "$name"
    library=$libraries/b.toml
    make_chip "${name}_b" "$netlist" "$name"
    library=$libraries/a.toml
    command=compact
    make_chip "${name}_compact" "$netlist" "$name"
    command=draw
    case $name in *_cells) make_chip "${name}_draw" "$netlist" "$name" ;; esac
    command=build
    if [ -f "$here/$name.v" ] && have yosys; then
        make_synthesised "$name" yosys "-g AND,OR,XOR,ANDNOT,ORNOT,MUX"
        make_synthesised "$name" and "-g AND,OR"
        make_synthesised "$name" lut "-lut 3"
    fi
    # ABC 1.01 ends by an assertion on a netlist without a definition.
    if have berkeley-abc && grep -q '^\.names' "$netlist"; then make_by_abc "$name"; fi
done
for layout in "$here"/layouts/*.gds; do
    name=$(basename "$layout" .gds)
    compare "$name" "$here/layouts/$name.printed" verify "$layout" "$library" "$here/layouts/$name.words"
    verdict=$here/layouts/$name.compared
    if [ -f "$verdict" ]; then
        compare "${name}_compared" "$verdict" equal "$layout" "$library" "$here/${name%_*}.blif"
    fi
done
if have klayout; then
    QT_QPA_PLATFORM=offscreen klayout -z -b -r "$here/layouts/redraw.py" \
        -rd gds="$folder/full_adder.gds" -rd out="$folder/redrawn.gds" >"$folder/redrawn.log" 2>&1
    compare redrawn "$here/layouts/full_adder_redrawn.compared" \
        equal "$folder/redrawn.gds" "$library" "$here/full_adder.blif"
fi
if have magic; then
    GDS="$folder/full_adder.gds" OUT="$folder/magic.gds" magic -dnull -noconsole -rcfile /dev/null \
        -T "$share/aqfp.tech" "$here/layouts/through_magic.tcl" </dev/null >"$folder/magic.log" 2>&1
    compare magic "$here/layouts/full_adder_magic.compared" \
        equal "$folder/magic.gds" "$library" "$here/full_adder.blif"
fi
compare trace "$here/wire.trace" trace "$folder/wire.gds" "$library" "$here/one.words"
compare cycle "$here/cycle.printed" build "$here/cycle.blif" "$library" "$folder/cycle.gds"
exit $failed
