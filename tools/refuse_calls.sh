#!/usr/bin/env bash
# Refuses each allocation of a call beside a ring in turn, one number a run: of a turn of the archiver, a compaction of all shards, an update of a
# stream, and of taking a view. A number is the call's own where the test that goes on after a refusal passes, and its twin, which hands the refusal
# on, ends with it. Where no allocation of a call is refused it fails. It takes some tens of seconds a number, and is no part of the gate.
# usage: tools/refuse_calls.sh [CRATE...]
set -u
top=$(cd "$(dirname "$0")/.." && pwd)
log=$(mktemp)
trap 'rm -f "$log"' EXIT

# The calls of a crate: the test that goes on after a refusal, and its twin.
calls_of() {
    case $1 in
        go_workers)
            echo a_refused_turn_of_the_archiver_changes_nothing a_turn_of_the_archiver_is_taken_where_there_is_memory
            echo a_refused_compaction_of_all_shards_changes_nothing all_shards_are_compacted_where_there_is_memory ;;
        go_views) echo a_refused_view_leaves_the_pins_of_the_others the_view_is_taken_where_there_is_memory ;;
        go_stream) echo a_refused_update_changes_nothing an_update_is_given_where_there_is_memory ;;
    esac
}

# How a test ended: ok, or by which error.
ended() {
    grep -A1 "^test [a-z_]*::$1 \.\.\. " "$log" | awk 'NR == 1 && $NF == "ok" { print "ok"; exit } NR == 2 { print }'
}

# What the number was to a call: before it, where both tests end by the same error, in what they begin with; its own; or behind it.
place_of() {
    local going twin
    going=$(ended "$1")
    twin=$(ended "$2")
    if [ "$going" = ok ] && [ "$twin" = ok ]; then echo behind
    elif [ "$going" = ok ] && [ "$twin" = "    error: AllocError" ]; then echo own
    elif [ -n "$going" ] && [ "$going" = "$twin" ]; then echo before
    else echo "no place: $going, $twin"; fi
}

# Refuses the allocations of one crate's calls.
refuse() {
    local crate=$1 number=0 behind=0 going twin place
    declare -A own=()
    cd "$top/crates/$crate" || exit 1
    while [ "$behind" -lt 3 ]; do
        number=$((number + 1))
        behind=$((behind + 1))
        rt try --test --fail-alloc "$number" > "$log" 2>&1
        while read -r going twin; do
            place=$(place_of "$going" "$twin")
            case $place in
                own) own[$going]+=" $number" behind=0 ;;
                before) behind=0 ;;
                behind) ;;
                *) echo "allocation $number, $going: $place"; tail -n 20 "$log"; exit 1 ;;
            esac
        done < <(calls_of "$crate")
    done
    while read -r going twin; do
        [ -n "${own[$going]:-}" ] || { echo "$crate: no allocation was refused to $going"; exit 1; }
        echo "$crate, $going: allocations${own[$going]}"
    done < <(calls_of "$crate")
}

[ $# -gt 0 ] || set -- go_workers go_views go_stream
for crate in "$@"; do (refuse "$crate") || exit 1; done
