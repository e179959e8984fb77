#!/bin/sh
# Measures two builds of the library in one run: that of another state of the repository, and this one's.
#
# Usage: run.sh OLD.a [NEW.a] [ROUNDS]    each an archive that `tools/build.sh chowderbell` wrote; NEW is target/staticlib/libchowderbell.a
set -eu
here=$(cd "$(dirname "$0")" && pwd)
top=$(cd "$here/../.." && pwd)
[ $# -gt 0 ] || { sed -n '2,5s/^# \{0,1\}//p' "$0"; exit 2; }
work=$top/target/before
mkdir -p "$work"
${CC:-cc} -shared -o "$work/first.so" -Wl,--whole-archive "$1" -Wl,--no-whole-archive
${CC:-cc} -shared -o "$work/second.so" -Wl,--whole-archive "${2:-$top/target/staticlib/libchowderbell.a}" -Wl,--no-whole-archive
${CC:-cc} -O2 -Wall -o "$work/bench" "$here/bench.c" -ldl
exec "$work/bench" "$work/first.so" "$work/second.so" ${3:-60}
