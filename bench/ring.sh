#!/usr/bin/env bash
# 1, 2, 4 and 8 threads put 10,000,000 edges between them, in claims of 1 and of 64, into a ring of 65,536 slots, while one thread takes
# each twice, for the shard and for the file, and moves both fronts: by go_bench, and by the two plain Rust programs of baseline/ring.rs in
# the same run, over the same words as plain atomics, and over a vector under a mutex. Prints seconds, the least of five runs, nanoseconds
# an entry, and both ratios. What was taken is compared by its sums.
set -eu
source "$(dirname "$0")/prepare.sh" ring
entries=${1:-10000000}

printf '%-8s %6s %9s %9s %10s %9s %9s %8s\n' threads claim seconds ns/entry atomics\ s mutex\ s atomics× mutex×
for claim in 1 64; do
    for threads in 1 2 4 8; do
        job="$entries $threads $claim"
        for kind in atomics mutex; do
            cmp <("$ours" ring $job 2> /dev/null) <("$plain" $kind $job 2> /dev/null)
        done
        a=$(least 1 "$ours" ring $job)
        b=$(least 1 "$plain" atomics $job)
        c=$(least 1 "$plain" mutex $job)
        awk -v threads=$threads -v claim=$claim -v entries="$entries" -v a="$a" -v b="$b" -v c="$c" 'BEGIN {
            printf "%-8d %6d %9.3f %9.1f %10.3f %9.3f %9.2f %8.2f\n", threads, claim, a / 1e6, a * 1000 / entries, b / 1e6, c / 1e6, a / b, a / c }'
    done
done

# One thread takes a part that is at home and gives it back, which asks the system to wake whoever sleeps on the turn; beside a swap and a store
# round the same moves of a part, and a lock, of baseline/turns.rs, which ask it for nothing.
turns=1000000
rustc -O --edition 2024 -o "$work/turns" "$here/baseline/turns.rs"
for kind in atomics mutex; do
    cmp <("$ours" turns $turns 2> /dev/null) <("$work/turns" $kind $turns 2> /dev/null)
done
a=$(least 1 "$ours" turns $turns)
b=$(least 1 "$work/turns" atomics $turns)
c=$(least 1 "$work/turns" mutex $turns)
awk -v turns=$turns -v a="$a" -v b="$b" -v c="$c" 'BEGIN {
    printf "\nturns: %.1f ns each; plain atomics %.1f, mutex %.1f: %.2f and %.2f times\n", a * 1000 / turns, b * 1000 / turns, c * 1000 / turns, a / b, a / c }'
