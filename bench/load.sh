#!/usr/bin/env bash
# A script that loads two text edge files of 5,000,000 lines (one of 10,000,000 is over the limit of 67,108,864 bytes) and ends in a view
# and a list of neighbours; the same of the binary files of the same edges; 10,000 edge files of one edge each, each of which is loaded
# twice; and `gen` over 1,000,000 edges: time, time an entry and peak memory, each over a new log file, beside the plain Rust program of
# baseline/load.rs with the same file and syncs in the same run. Replies and log files are compared byte by byte.
set -eu
source "$(dirname "$0")/program.sh" load
lines=${1:-5000000}
edges=${2:-1000000}
names=${3:-10000}

printf '%-10s %10s %9s %9s %9s %11s %7s %7s\n' job entries seconds ns/entry plain\ s peak\ KiB time× memory×
row() {
    local name=$1 entries=$2 ours plain_took
    shift 2
    rm -rf "$work"/*.files
    compare "$@"
    rm -rf "$work"/*.files
    ours=$(measure_anew 5 "$graphone" "$@")
    plain_took=$(measure_anew 5 "$plain" "$@")
    awk -v name="$name" -v n="$entries" -v ours="$ours" -v plain="$plain_took" 'BEGIN {
        split(ours, o); split(plain, p)
        printf "%-10s %10d %9.3f %9.0f %9.3f %11d %7.2f %7.2f\n", name, n, o[1], o[1] / n * 1e9, p[1], o[2], o[1] / p[1], o[2] / p[2]
    }'
}

# Each run is in a folder below this one, which has the edge files.
for file in 0 1; do "$plain" make $((file * lines)) "$lines" "$work/$file"; done
for form in txt bin; do
    printf 'load ../0.%s\nload ../1.%s\nview 0\nneigh 0 1\n' $form $form > "$work/$form.gs"
done
row text $((2 * lines)) drive "$work/txt.gs"
row binary $((2 * lines)) drive "$work/bin.gs"
mkdir names
for name in $(seq "$names"); do echo "$name $((name * 7 % 65536))" > "names/$name"; done
{ for _ in 1 2; do seq "$names" | sed 's#^#load ../names/#'; done; printf 'view 0\nneigh 0 1\n'; } > names.gs
row names $((2 * names)) drive "$work/names.gs"
row gen "$edges" gen --edges "$edges" --seed 7
