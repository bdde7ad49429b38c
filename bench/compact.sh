#!/usr/bin/env bash
# Prints how large the chips of `build` and of `compact` are, side by side, with seconds, `equal` of each chip and its
# netlist, and the geometric mean (compact.py says more).
#
#   bench/compact.sh [NETLIST|FOLDER ..]    the repository's examples by default
#
# LIBRARY is another library than A, and COMMANDS others than build,compact: compact=OTHER,compact puts the chips of
# another program beside those of this one, and free,compact those with wires of any length. AQFP names the program.
set -u
here=$(cd "$(dirname "$0")/.." && pwd) || exit 1
program=${AQFP:-$("$here/.ci/program")} || exit
if [ $# -eq 0 ]; then
    for net in "$here"/examples/*.blif; do
        case $net in */cycle.blif) ;; *) set -- "$@" "$net" ;; esac
    done
fi
exec python3 "$here/bench/compact.py" "$program" "${LIBRARY:-$here/libraries/a.toml}" "${COMMANDS:-build,compact}" "$@"
