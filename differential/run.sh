#!/bin/sh
# Builds gix-date and the proved library, then compares them, measures them, or writes the sample.
#
# Usage: run.sh [compare|bench|sample] [WORDS...]
#   compare  compare every answer; the default, some three minutes. WORDS: --times N, --seed N, --list, --planted, SUITE...
#   bench    measure both sides. WORDS: --rounds N, or words of the rows to be measured
#   sample   write a sample of gix-date's answers to the folder that WORDS names
#
# The library is proved and built by `tools/build.sh chowderbell`, or taken from the folder that CHOWDERBELL_LIB_DIR names.
# Exit status: that of the program (compare: 1 if anything differs), or that of oracle.sh or rt where these fail.
set -eu

here=$(cd "$(dirname "$0")" && pwd)
top=$(cd "$here/.." && pwd)
work=$top/target/differential

program=compare
case ${1-} in
    compare | bench | sample) program=$1; shift ;;
    --help) sed -n '2,/^set/{/^set/d; s/^# \{0,1\}//; p;}' "$0"; exit 0 ;;
esac

"$here/oracle.sh"
features=
if [ "$program" = sample ]; then
    features=--no-default-features
elif [ -z "${CHOWDERBELL_LIB_DIR-}" ]; then
    (cd "$top" && tools/build.sh chowderbell)
fi
CARGO_TARGET_DIR=$work/cargo cargo build --quiet --release --offline --config "$work/config.toml" \
    --manifest-path "$here/Cargo.toml" $features --bin "$program"
exec "$work/cargo/release/$program" "$@"
