# For the scripts that measure graphone: builds it, and the plain program of baseline/$1.rs, and sets
#   here      this folder
#   work      a folder that is removed at the end, and the current one
#   plain     the plain program
#   graphone  the program
here=$(cd "$(dirname "${BASH_SOURCE[0]}")" && pwd)
work=$(mktemp -d)
trap 'rm -rf "$work"' EXIT
plain=$work/plain

rustc -O --edition 2024 -o "$plain" "$here/baseline/$1.rs"
mkdir "$work/built" && cd "$work/built"
"$here/../graphone" drive "$here/../examples/first.gs" > /dev/null
graphone=$here/../crates/graphone/out/graphone
cd "$work"

# Both programs once with these words, in folders of their own: their replies and their files are the same.
compare() {
    local program
    for program in "$graphone" "$plain"; do
        mkdir -p "$work/$(basename "$program").files"
        (cd "$work/$(basename "$program").files" && "$program" "$@" > replies)
    done
    cmp "$work/graphone.files/replies" "$work/plain.files/replies"
    cmp "$work/graphone.files/graph.log" "$work/plain.files/graph.log"
}

# The least seconds and the greatest peak memory of so many runs of a command, here or each in a new folder.
measure() { python3 "$here/measure.py" "$@"; }
measure_anew() { python3 "$here/measure.py" --new-folder "$@"; }

# Additions between vertices that a fixed sequence gives.
additions() {
    awk -v lines="$1" 'BEGIN {
        x = 1
        for (i = 0; i < lines; i++) {
            x = (x * 16807) % 2147483647; s = x % 65536
            x = (x * 16807) % 2147483647; print "add " s " " x % 65536
        }
    }'
}
