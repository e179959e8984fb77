#!/bin/sh
# Asks the installed git for every offset word from +0000 to +9999 and from -0000 to -9999, and compares its answers, by class,
# with those of the proved library by rule 2, and both with the tables of docs/DIFFERENCES.md.
#
# Usage: run.sh [compare|rules] [--planted]
#   compare    our answers are the library's; the default, some five minutes
#   rules      our answers are those of rules.py. Asks for no library
#   --planted  would it notice? Mistakes are planted, and each must be found
#
# The library is proved and built by `tools/build.sh chowderbell`, or taken from the folder that CHOWDERBELL_LIB_DIR names.
# Exit status: 0 if all is as the page says, 1 if anything differs, or that of rt or cc where these fail.
set -eu

. "$(dirname "$0")/../shared/build.sh"

case ${1-} in
    rules) shift; exec python3 "$here/compare.py" "$@" ;;
    compare) shift ;;
esac
build compare
exec python3 "$here/compare.py" --program "$work/compare" "$@"
