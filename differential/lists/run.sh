#!/bin/sh
# Builds the proved library and compares its answers about the lists of two build machines with those of lists.py, or measures it.
#
# Usage: run.sh [compare|bench|selftest] [WORDS...]
#   compare   compare every answer; the default, under a minute. WORDS: --seed N, --pairs N, --list, --planted, SUITE...
#   bench     measure, some ten seconds. WORDS: words of the rows to be measured
#   selftest  test lists.py alone, by its own cases, by the laws of merging and by ../book/book.py. Asks for no library
#
# The library is proved and built by `tools/build.sh chowderbell`, or taken from the folder that CHOWDERBELL_LIB_DIR names.
# Exit status: that of the program (compare: 1 if anything differs), or that of rt or cc where these fail.
set -eu

. "$(dirname "$0")/../shared/build.sh"

case ${1-} in
    selftest) exec python3 "$here/lists.py" selftest ;;
    bench) shift; build bench; exec "$work/bench" "$@" ;;
    compare) shift ;;
esac
build compare
exec python3 "$here/compare.py" --program "$work/compare" --save "$work/differs" "$@"
