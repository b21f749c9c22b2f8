#!/usr/bin/env bash
# Scripts of 10,000, 100,000 and 1,000,000 additions that end in a view and a list of neighbours, one that asks as often as it adds, one
# that does so at one vertex and an old view, and a second run over the log of 1,000,000 entries that asks 1,000 times: time, peak memory
# and time a line, each on a real file, beside the plain Rust program of baseline/store.rs with the same file and syncs in the same run.
# The files are compared byte by byte.
set -eu
source "$(dirname "$0")/program.sh" store

# Additions, each followed by a question where the second word is 1.
make_script() {
    if [ "$2" = 1 ]; then
        printf 'add 0 0\nview 0\n'
        additions "$1" | awk '{ print; print "neigh 0 " $2 }'
    else
        additions "$1"
        printf 'view 0\nneigh 0 1\n'
    fi
}

# Questions over a view, and no additions.
make_questions() {
    awk -v lines="$1" 'BEGIN { x = 1; print "view 0"; for (i = 0; i < lines; i++) { x = (x * 16807) % 2147483647; print "neigh 0 " x % 65536 } }'
}

# Additions that leave one vertex, each followed by a question to a view of the first one.
make_hub() {
    awk -v lines="$1" 'BEGIN { print "add 7 0\nview 0"; for (i = 0; i < lines; i++) print "add 7 " i "\nneigh 0 7" }'
}

printf '%-10s %9s %9s %9s %11s %11s %7s %7s\n' lines seconds ns/line growth plain\ s peak\ KiB time× memory×
first=
row() {
    local name=$1 lines=$2 ours=$3 plain=$4
    [ -n "$first" ] || first=$(awk -v n="$lines" '{ print $1 / n }' <<< "$ours")
    awk -v n="$lines" -v first="$first" -v ours="$ours" -v plain="$plain" -v name="$name" 'BEGIN {
        split(ours, o); split(plain, p)
        printf "%-10s %9.3f %9.0f %9.2f %11.3f %11d %7.2f %7.2f\n", name, o[1], o[1] / n * 1e9, o[1] / n / first, p[1], o[2], o[1] / p[1], o[2] / p[2]
    }'
}

anew() {
    rm -rf "$work"/*.files
    compare drive "$1"
    row "$3" "$2" "$(measure_anew 5 "$graphone" drive "$1")" "$(measure_anew 5 "$plain" drive "$1")"
}

for lines in 10000 100000 1000000; do
    make_script "$lines" 0 > "$work/$lines.gs"
    anew "$work/$lines.gs" "$lines" "$lines"
done
make_questions 1000 > "$work/questions.gs"
compare drive "$work/questions.gs"
cd "$work/graphone.files"
row again 1000 "$(measure 5 "$graphone" drive "$work/questions.gs")" "$(measure 5 "$plain" drive "$work/questions.gs")"
cd "$work"
make_script 500000 1 > "$work/ask.gs"
anew "$work/ask.gs" 1000000 asking
make_hub 50000 > "$work/hub.gs"
anew "$work/hub.gs" 100000 hub
