#!/usr/bin/env bash
# Prints how large the chips of `build`, of `compact` and of `draw` are for netlists of cells, side by side, with
# seconds, `equal` of each chip and its netlist, and geometric means (compact.py says more). Only `draw` keeps the cells
# that a netlist has; the other two make it anew, which is what its cells are to be compared with.
#
#   bench/draw.sh [NETLIST | FOLDER ..]
#
# A folder stands for its files NAME.blif. By default the netlists are those that `netlist` stores of the chips by
# `build` and by `compact` of the repository's examples, as NAME_by_build and NAME_by_compact, and the examples that are
# netlists of cells themselves. LIBRARY names another library than A, AQFP another program.
set -u
here=$(cd "$(dirname "$0")/.." && pwd) || exit 1
program=${AQFP:-$("$here/.ci/program")} || exit
library=${LIBRARY:-$here/libraries/a.toml}
nets=()
if [ $# -eq 0 ]; then
    work=$(mktemp -d)
    trap 'rm -rf "$work"' EXIT
    for net in "$here"/examples/*.blif; do
        name=$(basename "$net" .blif)
        case $name in
            cycle) continue ;;
            *_cells) nets+=("$net") && continue ;;
        esac
        for command in build compact; do
            "$program" "$command" "$net" "$library" "$work/chip.gds" >/dev/null &&
                "$program" netlist "$work/chip.gds" "$library" "$work/${name}_by_$command.blif" >/dev/null &&
                nets+=("$work/${name}_by_$command.blif")
        done
    done
fi
for net in "$@"; do
    if [ -d "$net" ]; then nets+=("$net"/*.blif); else nets+=("$net"); fi
done
python3 "$here/bench/compact.py" "$program" "$library" build,compact,draw "${nets[@]}"
