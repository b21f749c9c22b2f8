#!/usr/bin/env bash
# Starts eight programs at once in one folder, round after round, and looks that no edge is lost and none made up: those that end with
# status 0 have all of their edges in the log file, the others end with 8 and have printed and left nothing, and in each round one at
# least ends with 0.
# usage: tools/programs_at_once.sh [ROUNDS]
set -u
here=$(cd "$(dirname "$0")/.." && pwd)
rounds=${1:-100} programs=8 edges=40
work=$(mktemp -d)
trap 'rm -rf "$work"' EXIT

# Program i puts the edges from vertex i to 0, 1 and so on; a last run asks for all of them.
for ((i = 0; i < programs; i++)); do
    for ((j = 0; j < edges; j++)); do echo "add $i $j"; done > "$work/$i.gs"
done
{ echo "view 0"; for ((i = 0; i < programs; i++)); do echo "neigh 0 $i"; done; } > "$work/all.gs"
all=$(seq -s ' ' 0 $((edges - 1)))

# What is wrong with a round, if something is.
round() {
    local folder=$1 statuses=() started=() kept=0 i
    mkdir "$folder" && cd "$folder" || return
    for ((i = 0; i < programs; i++)); do
        "$here/graphone" drive "$work/$i.gs" > "$i.out" 2> "$i.err" &
        started+=($!)
    done
    for ((i = 0; i < programs; i++)); do
        wait "${started[i]}"
        statuses+=($?)
    done
    "$here/graphone" drive "$work/all.gs" > all.out 2> all.err || { echo "the last run ended with $?: $(cat all.err)"; return; }
    for ((i = 0; i < programs; i++)); do
        local found
        found=$(sed -n "s/^neigh $i://p" all.out)
        case ${statuses[i]} in
            0) kept=$((kept + 1)); [ "$found" = " $all" ] || echo "program $i ended with 0, and its edges are:$found" ;;
            8) [ -z "$found" ] && ! [ -s "$i.out" ] || echo "program $i ended with 8, and left edges or replies" ;;
            *) echo "program $i ended with ${statuses[i]}: $(cat "$i.err")" ;;
        esac
    done
    [ "$kept" -gt 0 ] || echo "none ended with 0"
    total=$((total + kept))
}

total=0
"$here/graphone" > /dev/null 2>&1
for ((n = 1; n <= rounds; n++)); do
    round "$work/$n" > "$work/wrong"
    if [ -s "$work/wrong" ]; then
        echo "round $n:"
        cat "$work/wrong"
        exit 1
    fi
    rm -rf "${work:?}/$n"
done
echo "programs at once: $rounds rounds of $programs, $total of $((rounds * programs)) kept all of their edges, the others left nothing"
