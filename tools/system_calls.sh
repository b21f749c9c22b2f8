#!/usr/bin/env bash
# Compares the calls by which a run reaches its log file with the wanted ones in their order: opened, locked, its folder synced, and then
# a sync after each write. Then lets each sync fail in turn, and looks that the run ends with status 8 and neither writes to the file
# nor syncs it again. strace must be there; it is no part of the gate.
# usage: tools/system_calls.sh
set -u
command -v strace > /dev/null || { echo "strace isn't there"; exit 1; }
here=$(cd "$(dirname "$0")/.." && pwd)
program=$here/crates/graphone/out/graphone
work=$(mktemp -d)
trap 'rm -rf "$work"' EXIT
"$here/graphone" > /dev/null 2>&1
printf 'add 3 5\nadd 3 6\nview 0\nneigh 0 3\n' > "$work/puts.gs"

# The calls of a run in the folder where we are, a line each; further words are strace's.
calls() {
    strace -f -y -s 0 -e trace=openat,flock,fsync,pwrite64,write -o "$work/trace" "$@" "$program" drive "$work/puts.gs" > "$work/out" 2> "$work/err"
    status=$?
    sed -nE -e 's/^[0-9]+ +//' \
        -e 's/^openat\(.*"*graph\.log.*O_RDWR\|O_CREAT.*/open/p' -e 's/^openat\(AT_FDCWD.*, ""\.\.\., O_RDWR\|O_CREAT.*= [0-9]+<.*graph\.log>$/open/p' \
        -e 's/^flock\(.*graph\.log>, LOCK_EX\|LOCK_NB\) += 0$/lock/p' \
        -e 's/^fsync\([0-9]+<.*graph\.log>\) += 0$/sync/p' -e 's/^fsync\([0-9]+<.*graph\.log>\) += -1.*/sync fails/p' \
        -e 's/^fsync\([0-9]+<.*>\) += 0$/sync the folder/p' -e 's/^fsync\([0-9]+<.*>\) += -1.*/sync the folder fails/p' \
        -e 's/^pwrite64\([0-9]+<.*graph\.log>, .*, ([0-9]+), ([0-9]+)\) += [0-9]+$/write \1 at \2/p' \
        -e 's/^write\(1<.*>, .*, ([0-9]+)\) += [0-9]+$/print \1/p' "$work/trace"
}

failed=0
compare() {
    diff -u "$work/wanted" <(calls) || { echo "$1: other calls"; failed=1; }
}

mkdir "$work/run" && cd "$work/run" || exit 1
cat > "$work/wanted" << 'END'
open
lock
sync the folder
sync
write 1 at 0
sync
write 15 at 1
sync
write 1 at 0
sync
write 21 at 16
sync
write 1 at 15
sync
print 47
END
compare "a run that makes the file"
cat > "$work/wanted" << 'END'
open
lock
sync the folder
sync
write 21 at 37
sync
write 1 at 36
sync
print 51
END
compare "a run that goes on"

number=0
while :; do
    number=$((number + 1))
    mkdir "$work/$number" && cd "$work/$number" || exit 1
    calls -e "inject=fsync:error=EIO:when=$number" > "$work/calls"
    grep -q 'fails$' "$work/calls" || break
    [ "$status" -eq 8 ] || { echo "sync $number failed, and the run ended with status $status"; failed=1; }
    if sed '1,/fails$/d' "$work/calls" | grep -vE '^print '; then
        echo "sync $number failed, and the run went on with its log file"
        failed=1
    fi
done
[ "$number" -gt 1 ] || { echo "no sync was made to fail"; failed=1; }
[ "$failed" -eq 0 ] && echo "system calls: each in its place; after each of $((number - 1)) failed syncs the log file was left alone"
exit "$failed"
