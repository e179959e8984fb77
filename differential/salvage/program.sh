#!/bin/sh
# Runs the program stampsalvage on books and arguments for which the manual page says what it writes, and compares standard output,
# standard error and the files with those words, which are written out here by hand. Then it runs it on random books that are put
# together from good lines and from damaged ones, so that the answer is known before the run. The gate runs the program on one book; this
# is for all else.
#
# Usage: program.sh [STAMPSALVAGE [BOOKS [SEED]]]
#   STAMPSALVAGE  the program, target/bin/stampsalvage by default
#   BOOKS         how many random books, 300 by default
#   SEED          a number, 1 by default: the same seed gives the same books
# It needs Python 3, and strace to make calls fail and to kill at a call. What cannot be tried is named on a line that begins with "skipped".
# Exit status: 0 all as stated; 1 something differs, each with what was wanted and got; 2 there is no such program.
set -eu

. "$(dirname "$0")/../shared/program.sh"

begin stampsalvage "$@"
books=${2-300}
seed=${3-1}

# Salvages a book that is given as for printf, to standard output: a name for the case, the book, the good lines and the messages wanted.
salvages() {
    printf "$2" > one
    expect "$1" "$3" "$4" one -
}

# Four good lines, and a damaged book. Its third line is half a line, its fifth is empty, and its last one has no newline.
oak='hull\toak\t00000000000000a1\t-5 +0130\n'
elm='hull\telm\t00000000000000a2\t5 +0000\n'
ash='hull\tash\t00000000000000a3\t5 -0000\n'
week='since\t1 week ago\t1745582210\t7200\n'
good="$oak$week$elm"
damaged="$oak${week}hull\tash\t0000\n$elm\nhull\tyew\t00000000000000a4\t7 +0000"
dropped='book:3: 13 bytes dropped\nbook:5: 0 bytes dropped\nbook:6: 33 bytes dropped\n'
of_input='standard input:3: 13 bytes dropped\nstandard input:5: 0 bytes dropped\nstandard input:6: 33 bytes dropped\n'

fresh() {
    rm -rf book out
    printf "$damaged" > book
    chmod 640 book
}

: > input
: > empty
fresh
mkdir folder

# Arguments.
help='; try --help\n'
long=$(head -c 4097 /dev/zero | tr '\0' a)
expect 'no argument' '' "stampsalvage: BOOK and OUT are missing$help"
expect 'one argument' '' "stampsalvage: OUT is missing$help" book
expect 'standard input alone' '' "stampsalvage: OUT is missing$help" -
expect 'three arguments' '' "stampsalvage: more than BOOK and OUT$help" book out more
expect 'an unknown option' '' "stampsalvage: unknown option '-x'$help" -x out
expect 'an unknown long option' '' "stampsalvage: unknown option '--helps'$help" --helps
expect 'an option as OUT' '' "stampsalvage: option behind BOOK '--help'$help" book --help
expect 'an option as OUT, with one letter' '' "stampsalvage: option behind BOOK '-o'$help" book -o
for words in "$long out" "book $long"; do
    expect 'a long argument' '' "stampsalvage: argument of more than 4,096 bytes$help" $words
done
expect 'the version' 'stampsalvage 0.1.0\n' '' --version
"$program" --help > got.help
"$program" -h | cmp -s got.help - || wrong '-h differs from --help'
[ "$(head -n 1 got.help)" = 'Usage: stampsalvage BOOK OUT' ] || wrong 'the help text does not begin with the usage'
[ ! -e out ] || wrong 'a refused argument made OUT'

# Books to standard output.
expect 'a damaged book' "$good" "$dropped" book -
expect 'an empty book' '' '' empty -
salvages 'a good book' "$good$ash" "$good$ash" ''
salvages 'one good line' "$oak" "$oak" ''
salvages 'one newline' '\n' '' 'one:1: 0 bytes dropped\n'
salvages 'two newlines' '\n\n' '' 'one:1: 0 bytes dropped\none:2: 0 bytes dropped\n'
salvages 'one byte' 'x' '' 'one:1: 1 byte dropped\n'
salvages 'one byte and a newline' 'x\n' '' 'one:1: 1 byte dropped\n'
salvages 'two bytes' 'xy\n' '' 'one:1: 2 bytes dropped\n'
salvages 'ten bytes' '0123456789\n' '' 'one:1: 10 bytes dropped\n'
salvages 'eleven bytes' '0123456789a\n' '' 'one:1: 11 bytes dropped\n'
salvages 'a good line without its newline' "${oak}hull\telm\t00000000000000a2\t5 +0000" "$oak" 'one:2: 33 bytes dropped\n'
salvages 'two lines run together' "${oak}hull\tash\t0000$elm$ash" "$oak$ash" 'one:2: 46 bytes dropped\n'
salvages 'a carriage return' "${oak}hull\telm\t00000000000000a2\t5 +0000\r\n" "$oak" 'one:2: 34 bytes dropped\n'
salvages 'zeros' "\\0\\0\\0\n$oak" "$oak" 'one:1: 3 bytes dropped\n'
salvages 'a since line that is no date' "since\tsoon\t1745582210\t7200\n$elm" "$elm" 'one:1: 26 bytes dropped\n'
salvages 'a key in capitals' "hull\telm\t00000000000000A2\t5 +0000\n$elm" "$elm" 'one:1: 33 bytes dropped\n'
salvages 'bad lines alone' 'a\nbc\n\nd' '' 'one:1: 1 byte dropped\none:2: 2 bytes dropped\none:3: 0 bytes dropped\none:4: 1 byte dropped\n'
salvages 'the tenth line' "$oak$oak$oak$oak$oak$oak$oak$oak${oak}x\n$elm" "$oak$oak$oak$oak$oak$oak$oak$oak$oak$elm" 'one:10: 1 byte dropped\n'
printf "$damaged" > input
expect 'standard input' "$good" "$of_input" - -
expect 'standard input to a file' '' "$of_input" - out
holds out "$good" 644
rm out
: > input
expect 'an empty standard input' '' '' - -

# OUT as a file.
expect 'a new OUT' '' "$dropped" book out
holds out "$good" 644
holds book "$damaged" 640
printf 'old' > out
chmod 604 out
expect 'an OUT that is there' '' "$dropped" book out
holds out "$good" 604
expect 'an OUT that is salvaged again' "$good" '' out -
expect 'an empty book to a file' '' '' empty out
holds out '' 604
cp book ./-odd
expect 'names that begin with -' '' './-odd:3: 13 bytes dropped\n./-odd:5: 0 bytes dropped\n./-odd:6: 33 bytes dropped\n' ./-odd ./-out
holds ./-out "$good" 644
holds book "$damaged" 640
clean
rm -f out ./-odd ./-out

# OUT is BOOK: the book is as it was.
same='stampsalvage: OUT is BOOK; name another file\n'
ln book hard
ln -s book soft
ln -s hard softer
ln -s nowhere lost
expect 'OUT is BOOK' '' "$same" book book
expect 'OUT is BOOK in another spelling' '' "$same" book ./book
expect 'BOOK in another spelling' '' "$same" "$work/book" book
expect 'OUT is a hard link to BOOK' '' "$same" book hard
expect 'OUT is a symbolic link to BOOK' '' "$same" book soft
expect 'BOOK is a symbolic link to OUT' '' "$same" soft book
expect 'both are links to one file' '' "$same" soft softer
expect 'OUT is BOOK, and neither is there' '' "$same" nowhere nowhere
expect 'OUT is a folder on the way to BOOK' '' "$same" book folder/../book
name='OUT is the file that standard input reads'
cases=$((cases + 1))
"$program" - book < book > got.out 2> got.err || echo "exit status $?" >> got.err
printf "$same" > wanted.err
compare err
holds book "$damaged" 640
[ -L soft ] && [ -L softer ] || wrong 'a link was replaced'
expect 'BOOK is a symbolic link' "$good" 'soft:3: 13 bytes dropped\nsoft:5: 0 bytes dropped\nsoft:6: 33 bytes dropped\n' soft -
expect 'a link to nothing as OUT' '' 'stampsalvage: lost: a symbolic link; name the file itself\n' book lost
[ -L lost ] && [ ! -e nowhere ] || wrong 'a link to nothing was replaced or followed'
cp book other
expect 'OUT has the same bytes and is another file' '' "$dropped" book other
holds other "$good" 640
ln -s other link
expect 'a link as OUT' '' 'stampsalvage: link: a symbolic link; name the file itself\n' book link
[ -L link ] || wrong 'a link was replaced'
holds other "$good" 640
holds book "$damaged" 640
clean
rm -f hard soft softer lost other link

# Files that cannot be read or written: OUT is as it was, and is not made. There is no report.
printf 'old' > kept
chmod 604 kept
yes "$(printf 'hull\ta\t00000000000000a1\t0 +0000')" | head -n 2048 > full
{ cat full; echo; } > long
[ "$(wc -c < full)" -eq 65536 ] || wrong 'the book of 65,536 bytes has another length'
for way in kept out -; do
    expect "a missing book, to $way" '' 'stampsalvage: nowhere: No such file or directory\n' nowhere $way
    expect "a folder as BOOK, to $way" '' 'stampsalvage: folder: Is a directory\n' folder $way
    expect "a book that is too long, to $way" '' 'long: too long: more than 65,536 bytes\n' long $way
done
cp long input
expect 'standard input that is too long' '' 'standard input: too long: more than 65,536 bytes\n' - kept
: > input
expect 'a folder as OUT' '' 'stampsalvage: folder: Is a directory\n' book folder
expect 'OUT in a missing folder' '' 'stampsalvage: nowhere/out.tmp.NEW: No such file or directory\n' book nowhere/out
expect 'a full device as OUT' '' 'stampsalvage: /dev/full: No space left on device\n' book /dev/full
name='a full device as standard output'
cases=$((cases + 1))
"$program" book - > /dev/full 2> got.err || echo "exit status $?" >> got.err
printf 'stampsalvage: standard output: No space left on device\n' > wanted.err
compare err
holds kept 'old' 604
[ ! -e out ] || wrong 'a failed run made OUT'
long_path=$(head -c 4096 /dev/zero | tr '\0' a)
expect 'a path that is too long' '' "stampsalvage: $long_path: File name too long\n" "$long_path" out
clean

# A folder that may not be written, and a file that may not be written. Root may write both, so root runs this as nobody.
if [ "$(id -u)" -ne 0 ]; then by=env; elif setpriv --reuid=65534 --regid=65534 --clear-groups true 2> /dev/null; then
    by='setpriv --reuid=65534 --regid=65534 --clear-groups'
fi
if [ -n "$by" ]; then
    mkdir locked open
    printf 'old' > locked/out
    printf 'old' > open/out
    chmod 444 open/out
    chmod 644 book locked/out
    chmod 755 . locked
    [ "$(id -u)" -ne 0 ] || chown 65534:65534 locked open locked/out open/out
    chmod 555 locked
    cp "$program" tried
    chmod 755 tried
    usual=$program
    program=./tried
    expect 'a new file in a folder that may not be written' '' 'stampsalvage: locked/new.tmp.NEW: Permission denied\n' book locked/new
    expect 'an old file in a folder that may not be written' '' 'stampsalvage: locked/out.tmp.NEW: Permission denied\n' book locked/out
    expect 'a file that may not be written' '' 'stampsalvage: open/out: Permission denied\n' book open/out
    program=$usual
    by=
    holds locked/out 'old' 644
    holds open/out 'old' 444
    [ ! -e locked/new ] || wrong 'a file was made in a folder that may not be written'
    chmod 755 locked
    chmod 640 book
    clean
    rm -rf locked open tried
else
    skip 'a folder that may not be written: this runs as root, and setpriv is missing'
fi

# The longest book, with good lines alone and with bad ones alone.
name='a book of 65,536 bytes'
cases=$((cases + 1))
"$program" full out > got.out 2> got.err || echo "exit status $?" >> got.err
: > wanted.err
compare err
cmp -s full out || wrong "$name: another book"
rm out
name='65,536 newlines'
cases=$((cases + 1))
yes '' | head -c 65536 > blank
seq 65536 | sed 's/.*/blank:&: 0 bytes dropped/' > wanted.err
begun=$(date +%s%N)
"$program" blank out > got.out 2> got.err || echo "exit status $?" >> got.err
took=$((($(date +%s%N) - begun) / 1000000))
cmp -s wanted.err got.err || wrong "$name: other messages"
[ -e out ] && [ ! -s out ] || wrong "$name: OUT is not an empty file"
echo "65,536 newlines: $took milliseconds"
[ "$took" -lt 1000 ] || wrong "$name: more than a second"
rm out
name='one line of 65,536 bytes'
head -c 65536 /dev/zero | tr '\0' x > wide
expect "$name" '' 'wide:1: 65536 bytes dropped\n' wide -

# The longest name that can be opened, of 4,095 bytes, is whole in each of many messages.
name='a long name'
deep=$(printf '%04094d' 0 | sed 's,00,./,g')
deep=${deep#??}one
printf '\n%.0s' 1 2 3 4 5 6 7 8 9 10 11 12 13 14 15 16 17 18 19 20 > one
[ "${#deep}" -eq 4095 ] || wrong "$name: it has ${#deep} bytes"
cases=$((cases + 1))
"$program" "$deep" - > got.out 2> got.err || echo "exit status $?" >> got.err
for n in 1 2 3 4 5 6 7 8 9 10 11 12 13 14 15 16 17 18 19 20; do printf '%s:%s: 0 bytes dropped\n' "$deep" $n; done > wanted.err
compare err

# Pipes.
mkfifo pipe
cat pipe > piped &
expect 'a pipe as OUT' '' "$dropped" book pipe
wait
printf "$good" > wanted.piped
mv piped got.piped
compare piped
[ -p pipe ] || wrong 'a pipe was replaced'
cat book > pipe &
expect 'a pipe as BOOK' "$good" 'pipe:3: 13 bytes dropped\npipe:5: 0 bytes dropped\npipe:6: 33 bytes dropped\n' pipe -
wait
rm pipe

# Standard error closed: the report must not land in a file. Standard error full: OUT is written all the same.
name='standard error closed'
cases=$((cases + 2))
"$program" book out 2>&-
holds out "$good" 644
holds book "$damaged" 640
rm out
name='standard error full'
"$program" book out 2> /dev/full
holds out "$good" 644
rm out

# The manual page's test whether the book was salvaged.
name='the test of the manual page'
salvaged() {
    if "$program" "$@" 2>&1 | grep -vq ' dropped$'; then echo 'not salvaged'; else echo 'salvaged'; fi
}
cases=$((cases + 4))
[ "$(salvaged book out)" = 'salvaged' ] || wrong "$name: a damaged book"
[ "$(salvaged out saved)" = 'salvaged' ] || wrong "$name: a good book"
[ "$(salvaged long out)" = 'not salvaged' ] || wrong "$name: a book that is too long"
[ "$(salvaged book book)" = 'not salvaged' ] || wrong "$name: OUT is BOOK"
rm -f out saved

# Calls that fail, and kills, by strace.
if can_trace; then
    fault() {
        printf 'old' > out
        chmod 640 out
        injected "$2" "$1" '' "$3" book out
        holds out 'old' 640
        holds book "$damaged" 640
        clean
    }
    printf 'old' > out
    chmod 640 out
    trace book out
    write=$(before_rename write)
    fault 'the sync fails' fsync:error=EIO 'stampsalvage: out.tmp.NEW: Input/output error\n'
    fault 'the write fails' "write:error=ENOSPC:when=$write" 'stampsalvage: out.tmp.NEW: No space left on device\n'
    fault 'the rename fails' /^rename:error=EIO 'stampsalvage: out: Input/output error\n'
    # The write behind that of the good lines is the report's: all messages at once.
    for error in EINTR EAGAIN; do
        printf 'old' > out
        injected "write:error=$error:when=$((write + 1))" "the report's write ends in $error" '' "$dropped" book out
        holds out "$good" 640
    done
    # Kills at each call of the system, one run for each.
    name='a kill'
    cases=$((cases + 1))
    printf 'old' > old.book
    printf "$good" > new.book
    cp book damaged.book
    hurt=0
    before_kill() {
        printf 'old' > out
    }
    after_kill() {
        cmp -s book damaged.book || hurt=$((hurt + 1))
    }
    kills out book out
    echo "kills: $runs runs, OUT was the old file in $olds, the good lines in $news, torn in $torn; BOOK was changed in $hurt; a new file was left in $left"
    if [ "$torn" -ne 0 ] || [ "$hurt" -ne 0 ] || [ "$olds" -eq 0 ] || [ "$news" -eq 0 ] || [ "$left" -eq 0 ]; then
        wrong 'a kill: wanted the old file and the good lines, a new file left, and nothing torn'
    fi
    rm -f out
else
    skip 'calls that fail, and kills at each call: strace is missing or refused here'
fi

# Random books: good lines, and lines that are damaged in a way that is sure to make them bad.
if command -v python3 > /dev/null 2>&1; then
    cases=$((cases + books))
    status=0
    python3 - "$program" "$books" "$seed" > random <<'END' || status=$?
import random
import subprocess
import sys

program, books, seed = sys.argv[1], int(sys.argv[2]), int(sys.argv[3])
rng = random.Random(seed)
LONGEST = 65536


def hull():
    path = bytes(rng.choice(range(32, 127)) for _ in range(rng.choice((1, 1, 8, 40, 255))))
    key = b'%016x' % rng.randrange(16**16)
    seconds = rng.choice((0, 1, -1, 1745582210, rng.randrange(-2**63, 2**63), 2**63 - 1, -2**63))
    offset = b'%s%02d%02d' % (rng.choice((b'+', b'-')), rng.randrange(100), rng.randrange(60))
    return b'hull\t%s\t%s\t%d %s' % (path, key, seconds, offset)


def since():
    text = rng.choice((b'1 week ago', b'2 days ago', b'3 hours ago', b'yesterday', b'1 month ago'))
    return b'since\t%s\t%d\t%d' % (text, rng.randrange(0, 2 * 10**9), rng.choice((0, 3600, -7200)))


def good():
    return hull() if rng.random() < 0.8 else since()


# Each has a field that is not of its form, or too few or too many fields. No line that is made here has a newline.
def bad():
    line = hull()
    kind = rng.randrange(8)
    if kind == 0:
        return line[:rng.randrange(len(line))]
    if kind == 1:
        return line[:rng.randrange(1, len(line))] + good()
    if kind == 2:
        return line[rng.randrange(1, len(line)):]
    if kind == 3:
        return rng.choice((b' ', b'\t', b'\r', b'\0', b'\xff')) + line
    if kind == 4:
        return line + rng.choice((b' ', b'\t', b'\r', b'\0', b'\xff', b'0'))
    if kind == 5:
        return line.replace(b'\t', b' ', 1)
    if kind == 6:
        return bytes(rng.choice([b for b in range(256) if b != 10]) for _ in range(rng.choice((0, 1, 2, 9, 10, 99, 100, 101))))
    fields = since().split(b'\t')
    fields[1] = rng.choice((b'', b'soon', b'7', b'ago'))  # no count with a unit
    return b'\t'.join(fields)


differ = rows = kept_lines = pieces = 0
for n in range(books):
    wanted, book, kept = [], b'', b''
    share = rng.choice((0, 0.05, 0.5, 1))
    for number in range(1, rng.choice((2, 5, 30, 3000))):
        line, is_bad = (bad(), True) if rng.random() < share else (good(), False)
        if len(book) + len(line) + 1 > LONGEST:
            break
        book += line + b'\n'
        if is_bad:
            wanted.append((number, len(line)))
        else:
            kept += line + b'\n'
            kept_lines += 1
    if n % 3 == 1 and len(book) < LONGEST - 400:
        piece = rng.choice((good(), bad() or b'x'))
        wanted.append((book.count(b'\n') + 1, len(piece)))
        book += piece
        pieces += 1
    report = ''.join(f'book:{number}: {size} byte{"" if size == 1 else "s"} dropped\n' for number, size in wanted).encode()
    rows += len(wanted)
    with open('book', 'wb') as file:
        file.write(book)
    asked = subprocess.run([program, 'book', '-'], capture_output=True)
    got = asked.returncode, asked.stdout, asked.stderr
    if got != (0, kept, report):
        differ += 1
        print(f'random book {n} of seed {seed}: the book is')
        sys.stdout.flush()
        sys.stdout.buffer.write(book[:2000] + b'\nwanted\n' + kept[:2000] + report[:2000] + b'got %d\n' % got[0] + got[1][:2000] + got[2][:2000])
        sys.stdout.buffer.flush()
print(f'random: {books} books, {differ} differ; {kept_lines} lines kept, {rows} dropped, {pieces} of them without a newline')
sys.exit(1 if differ else 0)
END
    cat random
    [ "$status" -eq 0 ] || differ=$((differ + 1))
else
    skip 'random books: python3 is missing'
fi

finish
