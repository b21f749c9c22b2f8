#!/usr/bin/env bash
# A log file of 10,000,000 entries in full blocks, written and read, beside the plain Rust program of baseline/blocks.rs in the same
# run: seconds without the file's own reading and writing, peak memory, and ratios. The two files are compared byte by byte.
set -eu
source "$(dirname "$0")/prepare.sh" blocks
entries=${1:-10000000}

for program in "$ours" "$plain"; do
    "$program" write-blocks "$entries" "$work/$(basename "$program").log" > /dev/null 2>&1
done
cmp "$work/go_bench.log" "$work/plain.log"

printf '%-14s %9s %9s %7s %11s %9s\n' job seconds plain\ s time× peak\ KiB memory×
for job in write-blocks read-blocks; do
    a=$(least 1 "$ours" $job "$entries" "$work/go_bench.log")
    b=$(least 1 "$plain" $job "$entries" "$work/plain.log")
    m=$(python3 "$here/measure.py" 1 "$ours" $job "$entries" "$work/go_bench.log" 2> /dev/null)
    n=$(python3 "$here/measure.py" 1 "$plain" $job "$entries" "$work/plain.log" 2> /dev/null)
    awk -v job=$job -v a="$a" -v b="$b" -v m="${m#* }" -v n="${n#* }" 'BEGIN {
        printf "%-14s %9.3f %9.3f %7.2f %11d %9.2f\n", job, a / 1e6, b / 1e6, a / b, m, m / n }'
done
