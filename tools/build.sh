#!/bin/sh
# Proves and builds what others use: target/staticlib/libchowderbell.a, the library for C and Rust, and target/bin/PROGRAM.
#
# Usage: tools/build.sh [NAME...]     NAME is chowderbell or a program; with none, all of them
set -eu
cd "$(dirname "$0")/.."
[ $# -gt 0 ] || set -- chowderbell whenread stamplist stampcompact stampmerge stampsalvage monthstrip
for name; do
    if [ "$name" = chowderbell ]; then
        (cd crates/chowderbell && rt lib)
        mkdir -p target/staticlib
        cp crates/chowderbell/out/libchowderbell.a target/staticlib/
    elif [ -f "crates/$name/src/main.rt" ]; then
        # it is run once, since rt links a program to run it
        (cd "crates/$name" && rt run -- --version)
        mkdir -p target/bin
        cp "crates/$name/out/$name" target/bin/
    else
        echo "build.sh: there is no program $name; see crates.txt" >&2
        exit 2
    fi
done
