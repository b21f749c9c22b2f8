#!/usr/bin/env bash
# Refuses each allocation of a shard's batch in turn, one number a run, and looks that the shard answers as before: for a batch that
# is taken vertex by vertex, and for one that is taken entry by entry. A number is the batch's own where the test that goes on after
# a refusal passes, and its twin, which hands the refusal on, ends with it. Where no allocation of a batch is refused it fails.
# usage: tools/refuse_batch.sh
set -u
cd "$(dirname "$0")/../crates/go_shard" || exit 1
log=$(mktemp)
trap 'rm -f "$log"' EXIT

# How a test ended: ok, refused (by want of memory alone) or failed.
ended() {
    grep -A1 "^test tests::$1 \.\.\. " "$log" | awk 'NR == 1 { ok = $NF == "ok" } NR == 2 { refused = $0 == "    error: AllocError" }
        END { print ok ? "ok" : refused ? "refused" : "failed" }'
}

# What the number was to a batch: before it (in what the test begins with), its own, or behind it.
place_of() {
    case "$(ended "$1") $(ended "$2")" in
        "refused refused") echo before ;;
        "ok refused") echo own ;;
        "ok ok") echo behind ;;
        *) echo "no place: $(ended "$1"), $(ended "$2")" ;;
    esac
}

declare -A own=([groups]="" [entries]="") place=()
number=0 behind=0
while [ "$behind" -lt 3 ]; do
    number=$((number + 1))
    rt try --test --fail-alloc "$number" > "$log" 2>&1
    place[groups]=$(place_of a_refused_batch_changes_nothing the_batch_is_taken_where_there_is_memory)
    place[entries]=$(place_of a_refused_small_batch_changes_nothing the_small_batch_is_taken_where_there_is_memory)
    behind=$((behind + 1))
    for way in groups entries; do
        case ${place[$way]} in
            own) own[$way]+=" $number" behind=0 ;;
            before) behind=0 ;;
            behind) ;;
            *) echo "allocation $number, $way: ${place[$way]}"; tail -n 20 "$log"; exit 1 ;;
        esac
    done
done
for way in groups entries; do
    [ -n "${own[$way]}" ] || { echo "no allocation of a batch by $way was refused"; exit 1; }
    echo "a batch by $way: allocations${own[$way]} refused, and the shard answered as before"
done
