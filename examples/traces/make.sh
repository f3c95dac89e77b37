#!/bin/sh
# Makes the traces that the page beside this script shows, and draws its pictures anew:
#
#     examples/traces/make.sh [FOLDER] [PROGRAM]
#
# The traces go into FOLDER, by default a new one that is removed; PROGRAM is by default ./chip.
set -eu
top=$(cd "$(dirname "$0")/../.." && pwd)
chip=${2:-$top/chip}
if [ $# -gt 0 ]; then
    folder=$1
    mkdir -p "$folder"
else
    folder=$(mktemp -d)
    trap 'rm -rf "$folder"' EXIT
fi

# make NAME STATUS OPTION ..: a trace, which `judge` then judges, and its picture.
make() {
    name=$1 wanted=$2 status=0
    shift 2
    echo "$name"
    "$chip" trace "$folder/far.elf" "$@" >"$folder/$name.trace" || status=$?
    [ "$status" = "$wanted" ] || { echo "status $status in place of $wanted" >&2; exit 1; }
    "$chip" judge "$folder/far.elf" "$folder/$name.trace" || echo "status $?"
    "$top/bench/trace.py" "$folder/$name.trace" --axis 45 --plot "$top/examples/traces/$name.svg"
}

"$chip" asm "$top/examples/store_far_apart.s" >"$folder/far.elf"
make honest 0
make replayed 5 --script "$top/examples/attacks/replay_branch.script"
make repeated 7 --script "$top/examples/attacks/repeat_a_pad.script" --tags xor
