# For the scripts that measure go_bench: builds it, and the plain program of baseline/$1.rs where $1 is not empty, and sets
#   here   this folder
#   work   a folder that is removed at the end
#   plain  the plain program
#   ours   go_bench
here=$(cd "$(dirname "${BASH_SOURCE[0]}")" && pwd)
work=$(mktemp -d)
trap 'rm -rf "$work"' EXIT
plain=$work/plain
ours=$here/../crates/go_bench/out/go_bench

if [ -n "$1" ]; then rustc -O --edition 2024 -o "$plain" "$here/baseline/$1.rs"; fi
# The command runs what it has built, here without words, which ends with its usage and another status than 0.
(cd "$here/../crates/go_bench" && rt run < /dev/null > "$work/build.log" 2>&1) || true
if ! grep -q '^rt: running out/go_bench' "$work/build.log"; then
    tail -n 20 "$work/build.log" >&2
    exit 1
fi

# The least of five runs' microseconds, which a job tells on standard error, some in a line: those in this place of it.
least() {
    local place=$1
    shift
    for _ in 1 2 3 4 5; do "$@" 2>&1 > /dev/null; done | cut -d ' ' -f "$place" | sort -n | head -n 1
}
