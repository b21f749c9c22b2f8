#!/usr/bin/env bash
# Compaction, over logs of binary edge files, by scripts each of which opens the log; a job's own time is what its script takes more than
# one that only opens. A hub of 1,600,000 alternating additions and deletions, of which eight edges are left: 1,000 lists of its
# neighbours, `compact`, and 1,000 lists after it; and the peak memory of loading it four times with `compact` after each load, and
# without. 1,000 `compact` in a row over 1,000,000 entries and as many vertices. 65,536 lists over 1,000,000 entries and 65,536 vertices.
# The lists are compared with those of the plain Rust program of baseline/kernels.rs, which is measured beside the last job.
set -eu
source "$(dirname "$0")/program.sh" kernels
hub=${1:-1600000}
entries=${2:-1000000}

times() { awk -v times="$1" -v line="$2" 'BEGIN { for (i = 0; i < times; i++) print line }'; }

printf '%-16s %9s %9s %11s %11s\n' job seconds own\ s own\ us\ each peak\ KiB
row() {
    awk -v job="$1" -v times="$2" -v took="$3" -v open="$4" 'BEGIN {
        split(took, t); split(open, o); own = t[1] - o[1]
        printf "%-16s %9.3f %9.3f %11.1f %11d\n", job, t[1], own, own / times * 1e6, t[2]
    }'
}

mkdir hub && cd hub
"$plain" hub "$hub" hub.bin
echo "load hub.bin" > fill.gs
echo "view 0" > open.gs
{ echo "view 0"; times 1000 "neigh 0 7"; } > before.gs
{ echo "compact"; echo "view 0"; } > compact.gs
{ cat compact.gs; times 1000 "neigh 0 7"; } > after.gs
"$graphone" drive fill.gs > /dev/null
"$graphone" drive before.gs > before
cmp before <("$plain" drive before.gs)
cmp before <("$graphone" drive after.gs | grep -v '^compact$')
open=$(measure 5 "$graphone" drive open.gs)
row hub:open 1 "$open" "0 0"
row hub:before 1000 "$(measure 1 "$graphone" drive before.gs)" "$open"
compact=$(measure 5 "$graphone" drive compact.gs)
row hub:compact 1 "$compact" "$open"
row hub:after 1000 "$(measure 5 "$graphone" drive after.gs)" "$compact"
times 4 "load ../hub.bin" > loads.gs
awk '{ print; print "compact" }' loads.gs > compacted.gs
row hub:loads 4 "$(measure_anew 3 "$graphone" drive "$work/hub/loads.gs")" "0 0"
row hub:compacted 4 "$(measure_anew 3 "$graphone" drive "$work/hub/compacted.gs")" "0 0"

mkdir "$work/many" && cd "$work/many"
"$plain" make "$entries" 1000000 1 edges.bin
echo "load edges.bin" > fill.gs
echo "compact" > once.gs
times 1001 "compact" > often.gs
"$graphone" drive --vertices 1000000 fill.gs > /dev/null
once=$(measure 5 "$graphone" drive --vertices 1000000 once.gs)
row many:once 1 "$once" "0 0"
row many:1000\ more 1000 "$(measure 5 "$graphone" drive --vertices 1000000 often.gs)" "$once"

mkdir "$work/lists" && cd "$work/lists"
"$plain" make "$entries" 65536 1 edges.bin
echo "load edges.bin" > fill.gs
echo "view 0" > open.gs
awk 'BEGIN { print "view 0"; for (i = 0; i < 65536; i++) print "neigh 0 " i * 40503 % 65536 }' > questions.gs
"$graphone" drive fill.gs > /dev/null
cmp <("$graphone" drive questions.gs) <("$plain" drive questions.gs)
for program in "$graphone" "$plain"; do
    name=$(basename "$program")
    open=$(measure 5 "$program" drive open.gs)
    row "$name:open" 1 "$open" "0 0"
    row "$name:lists" 65536 "$(measure 5 "$program" drive questions.gs)" "$open"
done
