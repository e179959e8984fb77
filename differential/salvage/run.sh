#!/bin/sh
# Builds the proved library and compares what it salvages from damaged books with what salvage.py does, or measures it.
#
# Usage: run.sh [compare|bench|selftest] [WORDS...]
#   compare   compare every answer; the default, a minute or two. WORDS: --seed N, --books N, --list, --planted, SUITE...
#   bench     measure, a few seconds. WORDS: words of the rows to be measured
#   selftest  test salvage.py alone, by its own cases and by the laws of salvaging. Asks for no library
#
# The library is proved and built by `tools/build.sh chowderbell`, or taken from the folder that CHOWDERBELL_LIB_DIR names.
# Exit status: that of the program (compare: 1 if anything differs), or that of rt or cc where these fail.
set -eu

. "$(dirname "$0")/../shared/build.sh"

case ${1-} in
    selftest) exec python3 "$here/salvage.py" selftest ;;
    bench) shift; build bench; exec "$work/bench" "$@" ;;
    compare) shift ;;
esac
build compare
exec python3 "$here/compare.py" --program "$work/compare" --save "$work/differs.book" "$@"
