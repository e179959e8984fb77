# For the run.sh of book/, strip/, lists/, salvage/ and git/, which source it.
#
# It sets `here` to the folder of that run.sh, `top` to the repository, and `work` to the folder for what is built. If the first
# word is --help, it prints the comment that the run.sh opens with, and ends.

here=$(cd "$(dirname "$0")" && pwd)
top=$(cd "$here/../.." && pwd)
work=$top/target/differential/$(basename "$here")

if [ "${1-}" = --help ]; then
    sed -n '2,/^set/{/^set/d; s/^# \{0,1\}//; p;}' "$0"
    exit 0
fi

# Python must not write compiled files beside the sources.
export PYTHONDONTWRITEBYTECODE=1

# `build NAME` builds NAME.c with the library, as $work/NAME. It has the library proved and built first, unless CHOWDERBELL_LIB_DIR
# names the folder to take it from.
build() {
    library=${CHOWDERBELL_LIB_DIR:-$top/target/staticlib}
    if [ -z "${CHOWDERBELL_LIB_DIR-}" ]; then
        (cd "$top" && tools/build.sh chowderbell)
    fi
    mkdir -p "$work"
    cc -O2 -Wall -Wextra -I"$top/include" "$here/$1.c" "$library/libchowderbell.a" -o "$work/$1"
}
