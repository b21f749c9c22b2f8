#!/usr/bin/env bash
# Eight scripts of 125,000 additions beside one script of the same 1,000,000: time, peak memory, and both as ratios to the one script's.
# Then a stream over 10,000,000 entries that were loaded behind its begin, in updates of 65,536: time and peak memory of the script with
# its updates and without them, beside a plain Rust program that opens the log file and writes the lines of its entries
# (baseline/load.rs), and reading the file's bytes alone. The lines are compared byte by byte.
set -eu
source "$(dirname "$0")/program.sh" load
lines=${1:-1000000}
entries=${2:-10000000}

additions "$lines" > one.gs
split -n r/8 -a 1 --numeric-suffixes=1 --additional-suffix=.gs one.gs part
for script in one.gs part*.gs; do printf 'view 0\nneigh 0 1\n' >> "$script"; done
scripts=("$work"/part*.gs)

# Two folders whose logs have the same entries, in what order ever: questions whose answers no order changes are answered alike.
mkdir one eight
printf 'view 0\nrank 0 1000\nbfs 0 0\nbfs 0 1\nhop 0 1\n' > same.gs
(cd one && "$graphone" drive "$work/one.gs" > /dev/null && "$graphone" drive "$work/same.gs" > replies)
(cd eight && "$graphone" drive "${scripts[@]}" > /dev/null && "$graphone" drive "$work/same.gs" > replies)
cmp one/replies eight/replies
rm -r one eight

one=$(measure_anew 5 "$graphone" drive "$work/one.gs")
eight=$(measure_anew 5 "$graphone" drive "${scripts[@]}")
printf '%-8s %9s %9s %11s %7s %7s\n' scripts seconds ns/line peak\ KiB time× memory×
for took in "1 $one" "8 $eight"; do
    awk -v took="$took" -v one="$one" -v n="$lines" 'BEGIN {
        split(took, t); split(one, o)
        printf "%-8d %9.3f %9.0f %11d %7.2f %7.2f\n", t[1], t[2], t[2] / n * 1e9, t[3], t[2] / o[1], t[3] / o[2]
    }'
done

for file in 0 1; do "$plain" make $((file * entries / 2)) $((entries / 2)) "$work/$file"; done
printf 'stream 0\nload ../0.bin\nload ../1.bin\n' > loads.gs
{
    cat loads.gs
    for _ in $(seq $(((entries + 65535) / 65536))); do echo "update 0 65536"; done
} > updates.gs
mkdir stream && cd stream
"$graphone" drive ../updates.gs | grep '^[+-]' > lines
"$plain" entries | cmp lines
rm lines
cd "$work"

printf '\n%-8s %9s %11s\n' job seconds peak\ KiB
tell() { awk -v job="$1" -v took="$2" 'BEGIN { split(took, t); printf "%-8s %9.3f %11d\n", job, t[1], t[2] }'; }
loads=$(measure_anew 3 "$graphone" drive "$work/loads.gs")
tell loads "$loads"
updates=$(measure_anew 3 "$graphone" drive "$work/updates.gs")
tell updates "$updates"
cd stream
written=$(measure 3 "$plain" entries)
tell plain "$written"
bytes=$(measure 3 cat graph.log)
tell bytes "$bytes"
awk -v loads="$loads" -v updates="$updates" -v lines="$written" -v bytes="$bytes" -v n="$entries" 'BEGIN {
    split(loads, l); split(updates, u); split(lines, p); split(bytes, b)
    own = u[1] - l[1]
    printf "updates alone: %.3f s, %.2f times plain, %.2f times bytes, ", own, own / p[1], own / b[1]
    printf "%.1f bytes of memory an entry\n", (u[2] - l[2]) * 1024 / n
}'
