#!/bin/sh
# Builds the proved library and compares its strips of months with those of Python, GNU date and ncal, or measures it.
#
# Usage: run.sh [compare|bench|selftest] [WORDS...]
#   compare   compare every byte of every strip; the default, under a minute. WORDS: --seed N, --list, --planted, SUITE...
#   bench     measure, about ten seconds. WORDS: words of the rows to be measured
#   selftest  test the sources alone, by strips worked out by hand. Asks for no library
#
# The library is proved and built by `tools/build.sh chowderbell`, or taken from the folder that CHOWDERBELL_LIB_DIR names.
# A source that is not installed is skipped, with a line that says so.
# Exit status: that of the program (compare: 1 if anything differs), or that of rt or cc where these fail.
set -eu

. "$(dirname "$0")/../shared/build.sh"

case ${1-} in
    selftest) exec python3 "$here/strip.py" selftest ;;
    bench) shift; build bench; exec "$work/bench" "$@" ;;
    compare) shift ;;
esac
build compare
exec python3 "$here/compare.py" --program "$work/compare" "$@"
