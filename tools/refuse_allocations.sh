#!/usr/bin/env bash
# Refuses each allocation of a run of the program in turn, one number a run, and looks how the run ends: out of memory (status 10) with
# nothing printed, or just as the ample run. Takes some seconds a number; it is no part of the gate.
# usage: tools/refuse_allocations.sh [SCRIPT]
set -u
here=$(cd "$(dirname "$0")/.." && pwd)
script=$(readlink -f "${1:-$here/examples/first.gs}")
work=$(mktemp -d)
log=$work/log
trap 'rm -rf "$work"' EXIT
ample=$(cd "$work" && "$here/graphone" drive "$script") || exit 1
cd "$here/crates/graphone" || exit 1

# How a run ends whose allocation of this number is refused.
outcome() {
    local printed status
    printed=$(rt try --fail-alloc "$1" --data script="$script" -- drive script 2> "$log")
    status=$?
    case $status in
        0) [ "$printed" = "$ample" ] && echo ample && return ;;
        10) [ -z "$printed" ] && echo refused && return ;;
    esac
    echo "status $status, printed: $printed"
}

tried=0 refused=0 in_a_row=0
while [ "$in_a_row" -lt 3 ]; do
    tried=$((tried + 1))
    ended=$(outcome "$tried")
    case $ended in
        refused) refused=$((refused + 1)) in_a_row=0 ;;
        ample) in_a_row=$((in_a_row + 1)) ;;
        *) echo "allocation $tried: $ended"; tail -n 5 "$log"; exit 1 ;;
    esac
done
echo "$tried numbers tried: $refused ended out of memory, $((tried - refused)) as the ample run"
