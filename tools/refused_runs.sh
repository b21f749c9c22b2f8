#!/usr/bin/env bash
# Runs that the program refuses for what lies in real files and folders: each with its exit status and its line on standard error, with
# nothing on standard output, and with the log file as it was before.
# usage: tools/refused_runs.sh
set -u
here=$(cd "$(dirname "$0")/.." && pwd)
work=$(mktemp -d)
trap 'rm -rf "$work"' EXIT
cd "$work" || exit 1

# A log with one edge, and files that no script or edge file may be.
echo "add 1 2" > one.gs
"$here/graphone" drive one.gs > replies || { echo "the first run failed"; exit 1; }
cp graph.log before.log
mkdir folder
truncate -s 67108865 large
printf 'load \xff\n' > name.gs
for name in missing.txt folder large bad.txt; do
    echo "load $name" > "load.$name.gs"
done
{ echo "load one.txt"; echo "load missing.txt"; } > second.gs
echo "1 2" > one.txt

runs=0 failed=0
# A run of these words ends with this status and this line.
refuse() {
    local wanted=$1 line=$2
    shift 2
    "$here/graphone" "$@" > replies 2> errors
    local status=$?
    runs=$((runs + 1))
    if [ "$status" -ne "$wanted" ] || [ -s replies ] || [ "$(cat errors)" != "graphone: $line" ] || ! cmp -s graph.log before.log; then
        echo "graphone $*: status $status, wanted $wanted: $(cat errors)"
        failed=1
    fi
}

# An edge file with this text, over this many vertices, has this fault; a log of its own isn't made.
fault() {
    printf -- "$1" > bad.txt
    refuse 2 "bad.txt: line $2" drive --vertices 8 --log none.log load.bad.txt.gs
    [ ! -e none.log ] || { echo "a log was made for an edge file with the fault $2"; failed=1; }
}

refuse 3 "missing.gs: not there" drive missing.gs
refuse 5 "folder: read fault" drive folder
refuse 4 "too much: 67108865 of 67108864" drive large
refuse 2 "name.gs: line 1: name" drive name.gs
refuse 3 "missing.gs: not there" drive one.gs missing.gs
refuse 3 "missing.txt: not there" drive load.missing.txt.gs
refuse 3 "missing.txt: not there" drive second.gs
refuse 5 "folder: read fault" drive load.folder.gs
refuse 4 "too much: 67108865 of 67108864" drive load.large.gs
fault '1 2 3\n' '1: count'
fault '1 2\n# 1\n1 x\n' '3: number'
fault '1 2\n- 1 9\n' '2: vertex'
fault '1 8' '1: vertex'
fault 'GRONEBIN1234567' '1: short'
refuse 7 "log has 65536 vertices, asked 8" drive --vertices 8 one.gs
refuse 8 "disk fault" drive --log missing/graph.log one.gs
refuse 8 "disk fault" drive --log folder one.gs
for words in "" "drive" "fly one.gs" "drive --ring 100 one.gs" "drive --ring 128 --ring 128 one.gs" "drive -- one.gs" "drive --log= one.gs" \
    "drive --log -one.gs" "drive 1 2 3 4 5 6 7 8 9" "gen --edges 10" "gen --edges 10 --seed 18446744073709551616" "gen --edges 0 --seed 7" \
    "gen --edges 1000001 --seed 7" "--help"; do
    # Each word by itself.
    # shellcheck disable=SC2086
    refuse 1 "bad arguments" $words
done
[ "$failed" -eq 0 ] && echo "refused runs: $runs, each with its status and its line, and the log as it was"
exit "$failed"
