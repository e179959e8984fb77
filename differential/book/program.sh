#!/bin/sh
# Runs the program stamplist on books and arguments for which the manual page says what it writes, and compares standard output and
# standard error with those words. The gate runs it on one good book; this is for the messages.
#
# Usage: program.sh [STAMPLIST]
#   STAMPLIST  the program, target/bin/stamplist by default
# Exit status: 0 all as stated; 1 something differs, each with what was wanted and got; 2 there is no such program.
set -eu

here=$(cd "$(dirname "$0")" && pwd)
program=${1-$here/../../target/bin/stamplist}
[ -x "$program" ] || { echo "program.sh: there is no program $program; tools/build.sh stamplist builds it" >&2; exit 2; }
program=$(cd "$(dirname "$program")" && pwd)/$(basename "$program")

work=$(mktemp -d)
trap 'rm -rf "$work"' EXIT
cd "$work"
cases=0 differ=0

# Runs stamplist with the words behind the first three: a name for the case, the output and the messages wanted, as for printf.
# Standard input is the file `input`.
expect() {
    name=$1
    printf "$2" > wanted.out
    printf "$3" > wanted.err
    shift 3
    "$program" "$@" < input > got.out 2> got.err || echo "exit status $?" >> got.err
    cases=$((cases + 1))
    for kind in out err; do
        if ! cmp -s wanted.$kind got.$kind; then
            differ=$((differ + 1))
            printf '%s, standard %s: wanted\n' "$name" "$kind"
            cat wanted.$kind
            echo 'got'
            cat got.$kind
        fi
    done
}

hull='hull\toak.hull\t0123456789abcdef\t5 +0000\n'
marked='hull\toak.hull\t0123456789abcdef\t5 -0000\n'
printf "$hull" > good
printf "$hull" > input
: > empty
printf "$hull${hull}hull\toak.hull\t0123456789abcde\t5 +0000\n" > bad
printf "$hull" | tr -d '\n' > open
printf "$hull" | sed 's/$/\r/' > returns
printf "$hull\n" > blank
printf "$hull$marked" > marked
printf "${marked}hull\toak.hull\t0123456789abcdef\t5 -000000\n" > seconds
head -c 65537 /dev/zero | tr '\0' '\n' > long
printf "$hull" > ./-odd
mkdir folder

expect 'a good book' "$hull" '' good
expect 'standard input' "$hull" ''
expect 'standard input by its name' "$hull" '' -
expect 'an empty book' '' '' empty
expect 'a bad third line' '' 'bad:3: bad line\n' bad
expect 'a last line without its newline' '' 'open:1: bad line\n' open
expect 'a carriage return' '' 'returns:1: bad line\n' returns
expect 'an empty line' '' 'blank:2: bad line\n' blank
expect 'a time that ends in -0000' "$hull$marked" '' marked
expect 'a time that ends in -000000' '' 'seconds:2: bad line\n' seconds
expect 'too long' '' 'long: too long: more than 65,536 bytes\n' long
expect 'a name that begins with -' "$hull" '' ./-odd
expect 'a missing file' '' 'stamplist: nowhere: No such file or directory\n' nowhere
expect 'a folder' '' 'stamplist: folder: Is a directory\n' folder
expect 'an unknown option' '' "stamplist: unknown option '-x'; try --help\n" -x
expect 'two books' '' 'stamplist: more than one book; try --help\n' good bad
expect 'the version' 'stamplist 0.1.0\n' '' --version
cp bad input
expect 'a bad book on standard input' '' 'standard input:3: bad line\n'
cp long input
expect 'too long on standard input' '' 'standard input: too long: more than 65,536 bytes\n'

echo "program: $cases runs, $differ differ"
[ "$differ" -eq 0 ]
