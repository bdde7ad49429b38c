#!/bin/sh
# The ten commands under valgrind: each over the first chip, each with files that are absent, empty or of another kind,
# and those that store with an OUT that can't be made and with a full disk. No run may touch memory that is not its own
# or was not given a value, and all memory is given back.
#
#   bench/memcheck.sh            all of it
#   bench/memcheck.sh --short    some runs
#
# Prints what valgrind says, and how many runs there were; the status is 1 where it says something. Where valgrind is
# not there, it says so and tries nothing. AQFP names the program.
set -u
here=$(cd -P "$(dirname "$0")/.." && pwd)
command -v valgrind >/dev/null || { echo "memcheck: valgrind is not there: left out"; exit 0; }
program=${AQFP:-$("$here/.ci/program")} || exit
work=$(mktemp -d)
trap 'rm -rf "$work"' EXIT
cp "$here/libraries/a.toml" "$here/examples/wire.words" "$work/"
cp "$here/examples/wire.blif" "$work/net.blif"
cd "$work" || exit 1
"$program" build net.blif a.toml chip.gds >/dev/null && "$program" netlist chip.gds a.toml cells.blif >/dev/null ||
    exit 1
: >empty
printf '"a\\nb" = 1\n' >odd.toml
head -c 500 chip.gds >cut.gds
printf '.inputs a\n.outputs y\n.names a b y\n11 1\n.names y b\n1 1\n' >cycle.blif
tried=0 otherwise=0

check() {
    tried=$((tried + 1))
    valgrind -q --error-exitcode=99 --leak-check=full --show-leak-kinds=all --errors-for-leak-kinds=all \
        --log-file=said "$program" "$@" >/dev/null 2>err
    status=$?
    if [ $status = 99 ] || [ $status -gt 127 ] || [ -s said ]; then
        otherwise=$((otherwise + 1))
        echo "memcheck: aqfp $*: status $status"
        sed 's/^/    /' said
    fi
}

check build net.blif a.toml out
check verify chip.gds a.toml wire.words
check build net.blif a.toml /dev/full
check build cycle.blif a.toml out
check netlist cut.gds a.toml out
if [ "${1:-}" != --short ]; then
    for verb in compact draw; do
        check $verb net.blif a.toml out
        check $verb cells.blif a.toml out
    done
    check netlist chip.gds a.toml out
    for verb in trace verify; do
        check $verb chip.gds a.toml empty
        check $verb chip.gds a.toml wire.words
    done
    for net in net.blif cells.blif cycle.blif empty; do check equal chip.gds a.toml $net; done
    check report chip.gds a.toml
    check shapes chip.gds 0 1
    check shapes chip.gds 0 999
    check sample 1
    check --help
    check --version
    check nothing
    for words in "build X a.toml out" "build net.blif X out" "compact X a.toml out" "draw X a.toml out" \
        "verify X a.toml wire.words" "report chip.gds X" "equal chip.gds a.toml X"; do
        for file in none empty odd.toml cut.gds .; do check $(echo "$words" | sed "s/X/$file/"); done
    done
    for verb in compact draw netlist; do
        from=cells.blif
        if [ $verb = netlist ]; then from=chip.gds; fi
        check $verb $from a.toml /dev/full
        check $verb $from a.toml none/out
    done
fi
echo "memcheck: $tried runs, $otherwise otherwise"
[ $otherwise = 0 ]
