#!/bin/sh
# Counts the instructions of one call, of gix-date and of ours, for each row of the bench, by valgrind's callgrind.
# Run `run.sh bench` first: this uses what it built.
#
# Usage: instructions.sh [WORD...]
#   WORD   count only the rows that have this word in their name
#
# A row's count is that of 40 passes over its 64 inputs less that of 20, so start and end of the program drop out.
set -eu

here=$(cd "$(dirname "$0")" && pwd)
bench=$(cd "$here/.." && pwd)/target/differential/cargo/release/bench
command -v valgrind >/dev/null || { echo 'instructions: needs valgrind, which is not here' >&2; exit 2; }
[ -x "$bench" ] || { echo 'instructions: there is no bench; run.sh bench builds it' >&2; exit 2; }

# the instructions of $2 passes of $1 over the row $3
count() {
    valgrind --tool=callgrind --callgrind-out-file=/dev/null "$bench" --run "$1" "$2" "$3" 2>&1 |
        sed -n 's/^==[0-9]*== Collected : //p'
}

chosen() {
    [ $# -gt 1 ] || return 0
    name=$1
    shift
    for word in "$@"; do
        case $name in *"$word"*) return 0 ;; esac
    done
    return 1
}

echo '| what | gix-date, instructions | ours, instructions |'
echo '|---|---:|---:|'
"$bench" --names | while IFS= read -r row; do
    chosen "$row" "$@" || continue
    line="| $row |"
    for side in gix-date ours; do
        once=$(count "$side" 20 "$row")
        twice=$(count "$side" 40 "$row")
        line="$line $(((twice - once) / (20 * 64))) |"
    done
    echo "$line"
done
