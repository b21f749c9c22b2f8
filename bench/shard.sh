#!/usr/bin/env bash
# A shard of 65,536 vertices that takes 1,000,000 entries in batches of 65,536 and then gives all neighbours; and one vertex with
# 1,000,000 entries of which half are deletions. Beside the plain Rust program of baseline/shard.rs, a `Vec<Vec<u64>>`, in the same run:
# seconds of appending and of reading, peak memory, and ratios.
set -eu
source "$(dirname "$0")/prepare.sh" shard
entries=${1:-1000000}

printf '%-8s %9s %9s %7s %9s %9s %7s %11s %9s\n' job append\ s plain\ s append× read\ s plain\ s read× peak\ KiB memory×
for job in shard hub; do
    cmp <("$ours" $job "$entries" 2> /dev/null) <("$plain" $job "$entries" 2> /dev/null)
    a=$(least 1 "$ours" $job "$entries")
    b=$(least 1 "$plain" $job "$entries")
    c=$(least 2 "$ours" $job "$entries")
    d=$(least 2 "$plain" $job "$entries")
    m=$(python3 "$here/measure.py" 1 "$ours" $job "$entries" 2> /dev/null)
    n=$(python3 "$here/measure.py" 1 "$plain" $job "$entries" 2> /dev/null)
    awk -v job=$job -v a="$a" -v b="$b" -v c="$c" -v d="$d" -v m="${m#* }" -v n="${n#* }" 'BEGIN {
        printf "%-8s %9.3f %9.3f %7.2f %9.3f %9.3f %7.2f %11d %9.2f\n", job, a / 1e6, b / 1e6, a / b, c / 1e6, d / 1e6, c / d, m, m / n }'
done
