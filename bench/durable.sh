#!/usr/bin/env bash
# 16,777,216 entries appended to the log in a real file, in blocks of 65,536, each stable before the next one, beside the plain Rust
# program of baseline/durable.rs, which writes the same bytes with the same syncs, and `dd` of the same size, a sync for each block:
# seconds and ratios of nine rounds in each of which all three run, and the median of the ratios. The two files are compared byte by byte.
set -eu
source "$(dirname "$0")/prepare.sh" durable
entries=${1:-16777216}

# Microseconds of a job over a new file. What earlier jobs left to the disk is written first.
timed() {
    rm -f "$work/$1.log"
    sync "$work"
    "$2" append-log "$entries" "$work/$1.log" 2>&1 > /dev/null
}

# Microseconds of dd, which tells its seconds at the end.
timed_dd() {
    rm -f "$work/dd.log"
    sync "$work"
    LC_ALL=C dd if=/dev/zero of="$work/dd.log" bs=524288 count=$((entries / 65536)) oflag=dsync 2>&1 |
        sed -nE 's/.*copied, ([0-9.e-]+) s.*/\1/p' | awk '{ printf "%d\n", $1 * 1e6 }'
}

printf '%-7s %9s %9s %9s %8s %5s\n' round seconds plain\ s dd\ s plain× dd×
for round in 1 2 3 4 5 6 7 8 9; do
    a=$(timed ours "$ours")
    b=$(timed plain "$plain")
    d=$(timed_dd)
    awk -v round=$round -v a="$a" -v b="$b" -v d="$d" 'BEGIN {
        printf "%-7d %9.3f %9.3f %9.3f %8.2f %5.2f\n", round, a / 1e6, b / 1e6, d / 1e6, a / b, a / d }'
done | tee "$work/rounds"
median() { awk -v field="$1" '{ print $field }' "$work/rounds" | sort -n | sed -n 5p; }
printf '%-37s %8s %5s\n' median "$(median 5)" "$(median 6)"
cmp "$work/ours.log" "$work/plain.log"
