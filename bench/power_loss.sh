#!/bin/sh
# What a loss of power leaves under OUT: a small disk is copied at the moment at which the program ends or is killed at
# a call of the system, and again once the system has written what it held. The copies are mounted as after a crash.
#
#   bench/power_loss.sh            each call that has to do with files, of the four commands that store
#   bench/power_loss.sh --short    some moments of one command
#
# Prints what was otherwise than docs/measuring.md says, and how many copies there were; the status is 1 where something
# was. Where it is not run by root, or there are no loop devices, it says so and tries nothing. AQFP names the program.
set -u
here=$(cd -P "$(dirname "$0")/.." && pwd)
work=$(mktemp -d)
mounted=
trap 'for at in $mounted; do umount "$at" 2>/dev/null; done; rm -rf "$work"' EXIT

leave_out() {
    echo "power_loss: $1: left out"
    exit 0
}

[ "$(id -u)" = 0 ] || leave_out "only root can mount a disk"
for tool in mkfs.ext4 mount umount strace; do
    command -v "$tool" >/dev/null || leave_out "$tool is not there"
done
program=${AQFP:-$("$here/.ci/program")} || exit
short=${1:-}
tried=0 otherwise=0 old_left=0 new_left=0

# Mounts a disk at a place.
put() {
    mkdir -p "$2"
    mount -o loop,commit=300,noauto_da_alloc "$1" "$2" 2>"$work/why" || return 1
    mounted="$mounted $2"
}

take_off() {
    umount "$1" && mounted=$(echo "$mounted" | sed "s| $1\$||")
}

mkdir "$work/given"
cp "$here/libraries/a.toml" "$here/examples/adder4.blif" "$here/examples/wire.blif" "$work/given/"
(cd "$work/given" && "$program" build adder4.blif a.toml chip.gds && "$program" netlist chip.gds a.toml cells.blif &&
    "$program" build wire.blif a.toml old) >/dev/null || exit 1

# Disks on which a chip stands under `out`, or nothing does.
for kind in there absent; do
    truncate -s 16M "$work/$kind.disk"
    mkfs.ext4 -q -F "$work/$kind.disk" || leave_out "no disk can be made"
    put "$work/$kind.disk" "$work/at" || leave_out "$(cat "$work/why")"
    cp "$work"/given/* "$work/at/"
    rm "$work/at/old"
    if [ $kind = there ]; then cp "$work/given/old" "$work/at/out"; fi
    take_off "$work/at" || exit 1
done

# The calls from the one on by which a file is opened for writing, each with its number among those of its name.
moments() {
    (cd "$work/given" && strace -qq -o "$work/told" "$program" $1 >/dev/null; rm -f out)
    awk -F '(' '
        { count[$1]++ }
        $1 == "openat" && /O_WRONLY/ { writes = 1 }
        writes && $1 ~ /^(openat|write|fsync|fchmod|rename|statx|close)$/ { print $1 ":" count[$1] }' "$work/told"
    echo end
}

# What the copy of the disk has under `out`, in a word.
found() {
    put "$work/copy.disk" "$work/then" || { echo "no disk: $(cat "$work/why")"; return; }
    if [ ! -e "$work/then/out" ]; then echo nothing
    elif cmp -s "$work/then/out" "$work/given/whole"; then echo new
    elif cmp -s "$work/then/out" "$work/given/old"; then echo old
    else echo "neither: $(wc -c <"$work/then/out") bytes"
    fi
    umount "$work/then"
}

try_moment() {
    cp "$work/$2.disk" "$work/now.disk"
    put "$work/now.disk" "$work/at" || exit 1
    if [ "$3" = end ]; then
        (cd "$work/at" && "$program" $1 >/dev/null 2>&1)
    else
        call=${3%:*}
        (cd "$work/at" && strace -qq -o /dev/null -e trace="$call" -e inject="$call:signal=KILL:when=${3#*:}" \
            "$program" $1 >/dev/null 2>&1; :) 2>/dev/null
    fi
    cp "$work/now.disk" "$work/copy.disk"
    sync -f "$work/at"
    cp "$work/now.disk" "$work/later.disk"
    take_off "$work/at" || exit 1
    judge "$@" "at once"
    mv "$work/later.disk" "$work/copy.disk"
    judge "$@" "once all was written"
}

# What a copy has under `out`, and whether it may.
judge() {
    left=$(found)
    tried=$((tried + 1))
    case $3,$2,$left in
        *,new) new_left=$((new_left + 1)) ;;
        end,*) otherwise=$((otherwise + 1)); echo "power_loss: $1, OUT being $2, at the end, $4: $left" ;;
        *,there,old | *,absent,nothing) old_left=$((old_left + 1)) ;;
        *) otherwise=$((otherwise + 1)); echo "power_loss: $1, OUT being $2, killed at $3, $4: $left" ;;
    esac
}

try_command() {
    (cd "$work/given" && "$program" $1 >/dev/null && mv out whole) || exit 1
    for moment in $(moments "$1"); do
        for kind in there absent; do
            case $short,$moment,$kind in
                --short,fsync*,there | --short,rename*,there | --short,end,* | --short,write:2,there | ,*) ;;
                *) continue ;;
            esac
            try_moment "$1" $kind "$moment"
        done
    done
}

try_command "build adder4.blif a.toml out"
if [ -z "$short" ]; then
    try_command "compact adder4.blif a.toml out"
    try_command "draw cells.blif a.toml out"
    try_command "netlist chip.gds a.toml out"
fi
echo "power_loss: $tried copies of a disk: $old_left left what stood there, $new_left the new file," \
    "$otherwise otherwise"
[ $otherwise = 0 ] && [ $tried -gt 0 ]
