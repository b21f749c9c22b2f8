#!/usr/bin/env bash
# Questions to a whole graph, over logs of 1,000,000 entries and 65,536 vertices and of 10,000,000 and 1,000,000, an eighth of them deletions:
# rank, bfs and 1,000 lists of neighbours in one script, 1,000 levels (20 over the larger log) in another, and a script that only takes a view.
# Each run opens the log.
# Beside the plain Rust program of baseline/kernels.rs over adjacency vectors in the same run; replies are compared.
set -eu
source "$(dirname "$0")/program.sh" kernels

questions() {
    awk -v vertices="$1" 'BEGIN {
        x = 1
        print "view 0\nrank 0 5\nbfs 0 0"
        for (i = 0; i < 1000; i++) { x = (x * 16807) % 2147483647; print "neigh 0 " x % vertices }
    }'
}

searches() {
    awk -v vertices="$1" -v count="$2" 'BEGIN {
        x = 1
        print "view 0"
        for (i = 0; i < count; i++) { x = (x * 16807) % 2147483647; print "level 0 " i " " x % vertices }
    }'
}

printf '%-10s %-10s %9s %9s %11s %7s %7s\n' entries script seconds plain\ s peak\ KiB time× memory×
over() {
    local entries=$1 vertices=$2 files=$3 levels=$4 folder=$work/$1 script ours theirs
    mkdir "$folder" && cd "$folder"
    : > fill.gs
    for file in $(seq "$files"); do
        "$plain" make $((entries / files)) "$vertices" "$file" "$file.bin"
        echo "load $file.bin" >> fill.gs
    done
    "$graphone" drive --vertices "$vertices" fill.gs > /dev/null
    rm -- *.bin
    echo "view 0" > open.gs
    questions "$vertices" > questions.gs
    searches "$vertices" "$levels" > searches.gs
    for script in open questions searches; do
        cmp <("$graphone" drive --vertices "$vertices" "$script.gs") <("$plain" drive "$script.gs")
        ours=$(measure 3 "$graphone" drive --vertices "$vertices" "$script.gs")
        theirs=$(measure 3 "$plain" drive "$script.gs")
        awk -v entries="$entries" -v script="$script" -v ours="$ours" -v plain="$theirs" 'BEGIN {
            split(ours, o); split(plain, p)
            printf "%-10s %-10s %9.3f %9.3f %11d %7.2f %7.2f\n", entries, script, o[1], p[1], o[2], o[1] / p[1], o[2] / p[2]
        }'
    done
}

over 1000000 65536 1 1000
over 10000000 1000000 2 20
