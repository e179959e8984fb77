#!/bin/sh
# Builds the proved library and compares its answers about books of stamps with those of book.py, or measures it.
#
# Usage: run.sh [compare|bench|selftest] [WORDS...]
#   compare   compare every answer; the default, a minute or two. WORDS: --seed N, --books N, --list, --planted, SUITE...
#   bench     measure. WORDS: `list` or `compact` for one of the two tables, or words of the rows to be measured
#   selftest  test book.py alone, by its own cases, by the laws of compacting and by vectors/. Asks for no library
#
# The library is proved and built by `tools/build.sh chowderbell`, or taken from the folder that CHOWDERBELL_LIB_DIR names.
# Exit status: that of the program (compare: 1 if anything differs), or that of rt or cc where these fail.
set -eu

. "$(dirname "$0")/../shared/build.sh"

case ${1-} in
    selftest) exec python3 "$here/book.py" selftest "$top/vectors" ;;
    bench) shift; build bench; exec "$work/bench" "$@" ;;
    compare) shift ;;
esac
build compare
exec python3 "$here/compare.py" --program "$work/compare" --save "$work/differs.book" "$@"
