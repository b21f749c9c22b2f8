#!/usr/bin/env bash
# The machine that keeps the rule of the ring: replays 1,000,000 events of eight parties, with a window of 65,536 slots. There is no
# plain program beside it. Prints seconds, the least of five runs, nanoseconds an event and peak memory.
set -eu
source "$(dirname "$0")/prepare.sh" ''
entries=${1:-1000000}

n=$(least 1 "$ours" events "$entries")
m=$(python3 "$here/measure.py" 1 "$ours" events "$entries" 2> /dev/null)
awk -v entries="$entries" -v n="$n" -v m="${m#* }" 'BEGIN { printf "%9s %9s %11s\n%9.3f %9d %11d\n", "seconds", "ns/event", "peak KiB", n / 1e6, n * 1000 / entries, m }'
