#!/usr/bin/env bash
# Runs the program with each choice of the descriptors 0, 1 and 2 closed, and looks that the log file has the edges of the run and
# nothing else, that the replies come where they can and a write fault is told where they can't.
# usage: tools/closed_descriptors.sh
set -u
here=$(cd "$(dirname "$0")/.." && pwd)
script=$here/examples/first.gs
work=$(mktemp -d)
trap 'rm -rf "$work"' EXIT

# Runs the program in a new folder, with these descriptors closed.
run() {
    mkdir "$work/$1" && cd "$work/$1" && (
        [[ $1 == *0* ]] && exec 0<&-
        [[ $1 == *1* ]] && exec 1>&-
        [[ $1 == *2* ]] && exec 2>&-
        exec "$here/graphone" drive "$script"
    ) < /dev/null > replies 2> errors
}

# Looks at one thing, and tells where it is another.
failed=0
look() {
    if ! cmp -s "$work/$2" "$3"; then
        echo "closed $1: ${2#*/} isn't what was to be expected:"
        head -n 5 "$work/$2"
        failed=1
    fi
}

run ample || { echo "the ample run failed"; exit 1; }
echo "graphone: write fault" > "$work/fault"
: > "$work/nothing"
for closed in 0 1 2 01 02 12 012; do
    run "$closed"
    ended=$?
    wanted=0 replies=$work/ample/replies errors=$work/nothing
    case $closed in *1*) wanted=9 replies=$work/nothing errors=$work/fault ;; esac
    case $closed in *2*) errors=$work/nothing ;; esac
    [ "$ended" -eq "$wanted" ] || { echo "closed $closed: status $ended, wanted $wanted"; failed=1; }
    look "$closed" "$closed/graph.log" "$work/ample/graph.log"
    look "$closed" "$closed/replies" "$replies"
    look "$closed" "$closed/errors" "$errors"
done
[ "$failed" -eq 0 ] && echo "closed descriptors: seven choices, each edge in the log file, and no reply"
exit "$failed"
