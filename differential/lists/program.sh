#!/bin/sh
# Runs the program stampmerge on lists and arguments for which the manual page says what it writes, and compares standard output,
# standard error and the files with those words. Then it runs it on random lists, whose merged book and report a few lines of Python
# at the end work out in another way: all lines sorted by their seconds. The gate runs the program on one pair of lists; this is for all
# else.
#
# Usage: program.sh [STAMPMERGE [PAIRS [SEED]]]
#   STAMPMERGE  the program, target/bin/stampmerge by default
#   PAIRS       how many random pairs of lists, 300 by default
#   SEED        a number, 1 by default: the same seed gives the same lists
# It needs Python 3, and strace to make calls fail and to kill at a call. What cannot be tried is named on a line that begins with "skipped".
# Exit status: 0 all as stated; 1 something differs, each with what was wanted and got; 2 there is no such program.
set -eu

. "$(dirname "$0")/../shared/program.sh"

begin stampmerge "$@"
pairs=${2-300}
seed=${3-1}

# Two lists, in parts, and what they are merged to. Elm has other keys, but not in the last lines that have it. Oak's keys differ,
# and so do yew's: oak is first in the merged book. Ash is in one list.
a1='hull\toak\t00000000000000a1\t-5 +0130\n'
a2='hull\telm\t00000000000000a2\t5 +0000\n'
a3='hull\tash\t00000000000000a3\t5 -0000\n'
a4='hull\tyew\t00000000000000a4\t7 +0000\n'
b1='hull\telm\t00000000000000b1\t-6 +0000\n'
b2='hull\tyew\t00000000000000b2\t5 +9959\n'
b3='hull\telm\t00000000000000a2\t6 +0000\n'
b4='hull\toak\t00000000000000b4\t8 -0800\n'
first="$a1$a2$a3$a4"
second="$b1$b2$b3$b4"
book="$b1$a1$a2$a3$b2$b3$a4$b4"
report='oak\t00000000000000a1\t00000000000000b4\nyew\t00000000000000a4\t00000000000000b2\n'
turned='oak\t00000000000000b4\t00000000000000a1\nyew\t00000000000000b2\t00000000000000a4\n'

fresh() {
    rm -rf first second out
    printf "$first" > first
    printf "$second" > second
    chmod 640 first second
}

: > input
: > empty
fresh
mkdir folder

# Arguments.
help='; try --help\n'
long=$(head -c 4097 /dev/zero | tr '\0' a)
expect 'no argument' '' "stampmerge: FIRST, SECOND and OUT are missing$help"
expect 'one argument' '' "stampmerge: SECOND and OUT are missing$help" first
expect 'two arguments' '' "stampmerge: OUT is missing$help" first second
expect 'four arguments' '' "stampmerge: more than FIRST, SECOND and OUT$help" first second out more
expect 'an unknown option' '' "stampmerge: unknown option '-x'$help" -x second out
expect 'an option as SECOND' '' "stampmerge: option behind FIRST '--help'$help" first --help out
expect 'an option as OUT' '' "stampmerge: option behind FIRST '-o'$help" first second -o
expect 'standard input twice' '' "stampmerge: FIRST and SECOND cannot both be standard input$help" - - out
for words in "$long second out" "first $long out" "first second $long"; do
    expect 'a long argument' '' "stampmerge: argument of more than 4,096 bytes$help" $words
done
expect 'the version' 'stampmerge 0.1.0\n' '' --version
"$program" --help > got.help
"$program" -h | cmp -s got.help - || wrong '-h differs from --help'
[ "$(head -n 1 got.help)" = 'Usage: stampmerge FIRST SECOND OUT' ] || wrong 'the help text does not begin with the usage'
[ ! -e out ] || wrong 'a refused argument made OUT'

# Good lists.
expect 'to standard output' "$book" "$report" first second -
expect 'the lists turned round' "$b1$a1$b2$a2$a3$b3$a4$b4" "$turned" second first -
expect 'two empty lists' '' '' empty empty -
expect 'an empty FIRST' "$second" '' empty second -
expect 'an empty SECOND' "$first" '' first empty -
expect 'a list with itself' "$a1$a1$a2$a3$a2$a3$a4$a4" '' first first -
printf "$a1$b4" > same
printf "${a1}hull\toak\t00000000000000c1\t8 +0000\n${b4}" > other
expect 'only the last keys count' "$a1$a1${b4}hull\toak\t00000000000000c1\t8 +0000\n${b4}" '' same other -
printf "$first" > input
expect 'standard input as FIRST' "$book" "$report" - second -
printf "$second" > input
expect 'standard input as SECOND' "$book" "$report" first - -
: > input

# OUT.
expect 'a new OUT' '' "$report" first second out
holds out "$book" 644
holds first "$first" 640
holds second "$second" 640
printf 'old' > out
chmod 604 out
expect 'an OUT that is there' '' "$report" first second out
holds out "$book" 604
expect 'an empty book' '' '' empty empty out
holds out '' 604
expect 'OUT is FIRST' '' "$report" first second first
holds first "$book" 640
holds second "$second" 640
fresh
expect 'OUT is SECOND' '' "$report" first second second
holds first "$first" 640
holds second "$book" 640
fresh
cp first ./-odd
expect 'names that begin with -' '' "$report" ./-odd second ./-out
holds ./-out "$book" 644
clean

# Lists that are not good, and files that cannot be read or written: OUT is as it was, and is not made.
printf 'old' > kept
chmod 604 kept
printf "$a1" > input
printf "${a1}hull\toak\t0123456789abcde\t6 +0000\n" > bad
printf "${a1}since\t1 week ago\t1745582210\t7200\n" > since
printf "$a2$a3$a1" > back
printf "$a2$a1" | head -c -1 > open
printf "$a1\n" > blank
yes "$(printf 'hull\ta\t00000000000000a1\t0 +0000')" | head -n 1024 > full
{ cat full; echo; } > long
[ "$(wc -c < full)" -eq 32768 ] || wrong 'the list of 32,768 bytes has another length'
for way in kept out -; do
    expect "a bad line of FIRST, to $way" '' 'bad:2: bad line\n' bad second $way
    expect "a bad line of SECOND, to $way" '' 'bad:2: bad line\n' first bad $way
    expect "a since line, to $way" '' 'since:2: bad line\n' since second $way
    expect "a step back in FIRST, to $way" '' 'back:3: earlier than the line above\n' back second $way
    expect "a step back in SECOND, to $way" '' 'back:3: earlier than the line above\n' first back $way
    expect "a step back without its newline, to $way" '' 'open:2: bad line\n' first open $way
    expect "an empty line, to $way" '' 'blank:2: bad line\n' blank second $way
    expect "FIRST too long, to $way" '' 'long: too long: more than 32,768 bytes\n' long second $way
    expect "SECOND too long, to $way" '' 'long: too long: more than 32,768 bytes\n' first long $way
    expect "SECOND too long and FIRST bad, to $way" '' 'long: too long: more than 32,768 bytes\n' bad long $way
    expect "both bad, to $way" '' 'back:3: earlier than the line above\n' back bad $way
    expect "a missing FIRST, to $way" '' 'stampmerge: nowhere: No such file or directory\n' nowhere second $way
    expect "a missing SECOND, to $way" '' 'stampmerge: nowhere: No such file or directory\n' first nowhere $way
    expect "a folder as FIRST, to $way" '' 'stampmerge: folder: Is a directory\n' folder second $way
done
printf "$a2$a1" > input
expect 'a step back on standard input' '' 'standard input:2: earlier than the line above\n' first - kept
expect 'a step back on standard input as FIRST' '' 'standard input:2: earlier than the line above\n' - second kept
expect 'bad FIRST that is OUT' '' 'back:3: earlier than the line above\n' back second back
: > input
expect 'a folder as OUT' '' 'stampmerge: folder: Is a directory\n' first second folder
expect 'OUT in a missing folder' '' 'stampmerge: nowhere/out.tmp.NEW: No such file or directory\n' first second nowhere/out
expect 'a full device as OUT' '' 'stampmerge: /dev/full: No space left on device\n' first second /dev/full
name='a full device as standard output'
cases=$((cases + 1))
"$program" first second - > /dev/full 2> got.err || echo "exit status $?" >> got.err
printf 'stampmerge: standard output: No space left on device\n' > wanted.err
compare err
holds kept 'old' 604
[ ! -e out ] || wrong 'a list that is not good made OUT'
clean
long_path=$(head -c 4096 /dev/zero | tr '\0' a)
expect 'a path that is too long' '' "stampmerge: $long_path: File name too long\n" "$long_path" second out

# The longest name that can be opened, of 4,095 bytes, is whole in a message.
name='a long name'
deep=$(printf '%04092d' 0 | sed 's,00,./,g')bad
cases=$((cases + 1))
"$program" "$deep" second out > got.out 2> got.err || echo "exit status $?" >> got.err
printf '%s:2: bad line\n' "$deep" > wanted.err
compare err

# The longest lists.
name='two lists of 32,768 bytes'
cases=$((cases + 1))
"$program" full full out > got.out 2> got.err || echo "exit status $?" >> got.err
: > wanted.err
compare err
cat full full | cmp -s - out || wrong "$name: another book"
rm out

# Links and pipes.
ln -s first link
expect 'a link as FIRST' "$book" "$report" link second -
expect 'a link as OUT' '' 'stampmerge: link: a symbolic link; name the file itself\n' first second link
[ -L link ] || wrong 'a link was replaced'
holds first "$first" 640
mkfifo pipe
cat pipe > piped &
expect 'a pipe as OUT' '' "$report" first second pipe
wait
printf "$book" > wanted.piped
mv piped got.piped
compare piped
[ -p pipe ] || wrong 'a pipe was replaced'
cat first > pipe &
expect 'a pipe as FIRST' "$book" "$report" pipe second -
wait
rm link pipe

# Standard error closed: the report must not land in a file.
name='standard error closed'
cases=$((cases + 1))
"$program" first second out 2>&-
holds out "$book" 644
holds first "$first" 640
holds second "$second" 640
rm out

# The manual page's examples, and its test whether the lists were merged.
name='the test of the manual page'
tab=$(printf '\t')
merged() {
    if "$program" "$@" 2>&1 | grep -Evq "${tab}[0-9a-f]{16}${tab}[0-9a-f]{16}$"; then echo 'not merged'; else echo 'merged'; fi
}
cases=$((cases + 4))
[ "$(merged first second out)" = 'merged' ] || wrong "$name: lists with other keys"
[ "$(merged first empty out)" = 'merged' ] || wrong "$name: lists with no other keys"
[ "$(merged first bad out)" = 'not merged' ] || wrong "$name: a bad list"
[ "$(merged first second folder)" = 'not merged' ] || wrong "$name: a folder as OUT"
rm out

# Calls that fail, and kills, by strace.
if can_trace; then
    fault() {
        printf 'old' > out
        chmod 640 out
        injected "$2" "$1" '' "$3" first second out
        holds out 'old' 640
        clean
    }
    printf 'old' > out
    chmod 640 out
    trace first second out
    write=$(before_rename write)
    fault 'the sync fails' fsync:error=EIO 'stampmerge: out.tmp.NEW: Input/output error\n'
    fault 'the write fails' "write:error=EIO:when=$write" 'stampmerge: out.tmp.NEW: Input/output error\n'
    fault 'the rename fails' /^rename:error=EIO 'stampmerge: out: Input/output error\n'
    # The write behind that of the book is the report's.
    for error in EINTR EAGAIN; do
        printf 'old' > out
        injected "write:error=$error:when=$((write + 1))" "the report's write ends in $error" '' "$report" first second out
        holds out "$book" 640
    done
    # Kills at each call of the system, one run for each.
    name='a kill'
    cases=$((cases + 1))
    printf 'old' > old.book
    printf "$book" > new.book
    before_kill() {
        printf 'old' > out
    }
    after_kill() {
        :
    }
    kills out first second out
    echo "kills: $runs runs, OUT was the old file in $olds, the merged book in $news, torn in $torn; a new file was left in $left"
    if [ "$torn" -ne 0 ] || [ "$olds" -eq 0 ] || [ "$news" -eq 0 ] || [ "$left" -eq 0 ]; then
        wrong 'a kill: wanted the old file and the merged book, a new file left, and nothing torn'
    fi
    rm -f out
else
    skip 'calls that fail, and kills at each call: strace is missing or refused here'
fi
holds first "$first" 640
holds second "$second" 640

# Random lists. A list is made from its values, so nothing here reads a line.
if command -v python3 > /dev/null; then
    status=0
    python3 - "$program" "$pairs" "$seed" > random << 'END' || status=$?
import random
import subprocess
import sys

program, pairs, seed = sys.argv[1], int(sys.argv[2]), int(sys.argv[3])
rng = random.Random(seed)
LONGEST = 32768


def line(hull):
    path, key, seconds, offset = hull
    return b'hull\t%s\t%s\t%d %s\n' % (path, key, seconds, offset)


def random_path():
    if rng.random() < 0.02:
        return bytes(rng.randrange(32, 127) for _ in range(255))
    return bytes(rng.choice(b'aB/. ~') for _ in range(rng.choice((1, 1, 2, 3, 40))))


# A list of so many lines, or of as many as fit, whose seconds never fall. Few keys and few seconds make ties and equal keys.
def random_list(lines):
    keys = [b'%016x' % rng.getrandbits(64) for _ in range(rng.choice((1, 2, 50)))]
    step = rng.choice((0, 1, 3, 10**6))
    seconds = rng.choice((0, -5, 1745582210, -2**63, 2**62))
    made, length = [], 0
    for _ in range(lines):
        seconds += rng.randint(0, step)
        hull = (random_path(), rng.choice(keys), seconds, rng.choice((b'+0000', b'-0000', b'+0130', b'-9959')))
        length += len(line(hull))
        if length > LONGEST:
            break
        made.append(hull)
    return made


# As many different paths as fit, so that the report is as long as it gets.
def most_paths(key):
    made, length = [], 0
    bytes_of_paths = range(32, 127)
    for path in [bytes([x]) for x in bytes_of_paths] + [bytes([x, y]) for x in bytes_of_paths for y in bytes_of_paths]:
        hull = (path, key, 0, b'+0000')
        length += len(line(hull))
        if length > LONGEST:
            break
        made.append(hull)
    return made


def joined(hulls):
    return b''.join(line(hull) for hull in hulls)


# Sorting keeps the order of equal seconds, and the first list is in front.
def merged(first, second):
    return sorted(first + second, key=lambda hull: hull[2])


def report(first, second):
    last_first = {hull[0]: hull[1] for hull in first}
    last_second = {hull[0]: hull[1] for hull in second}
    paths = dict.fromkeys(hull[0] for hull in merged(first, second))
    both = [path for path in paths if path in last_first and path in last_second]
    return b''.join(b'%s\t%s\t%s\n' % (path, last_first[path], last_second[path]) for path in both if last_first[path] != last_second[path])


# Makes one list bad at a line, and returns the message that says so.
def spoilt(hulls, name):
    at = rng.randrange(len(hulls))
    lines = [line(hull) for hull in hulls]
    if at > 0 and rng.random() < 0.5:
        path, key, seconds, offset = hulls[at]
        lines[at] = line((path, key, hulls[at - 1][2] - 1, offset))
        return b''.join(lines), b'%s:%d: earlier than the line above\n' % (name, at + 1)
    lines[at] = rng.choice((lines[at][:-1] + b'0\n', b'\n', b'since\tyesterday\t0\t0\n', lines[at].upper()))
    return b''.join(lines), b'%s:%d: bad line\n' % (name, at + 1)


def ask(first, second):
    for name, text in (('first', first), ('second', second)):
        with open('random.' + name, 'wb') as file:
            file.write(text)
    asked = subprocess.run([program, 'random.first', 'random.second', '-'], capture_output=True)
    return asked.returncode, asked.stdout, asked.stderr


differ = rows = refused = longest = 0
for n in range(pairs):
    if n == 0:
        first, second = most_paths(b'0' * 16), most_paths(b'1' * 16)
    else:
        first, second = random_list(rng.choice((0, 1, 5, 30, 2000))), random_list(rng.choice((0, 1, 5, 30, 2000)))
    texts, wanted = [joined(first), joined(second)], (0, joined(merged(first, second)), report(first, second))
    which = rng.randrange(2)
    hulls = (first, second)[which]
    # The least seconds have none below them.
    if n % 4 == 1 and hulls and hulls[0][2] > -2**63:
        texts[which], message = spoilt(hulls, (b'random.first', b'random.second')[which])
        wanted = (0, b'', message)
        # A line that was made longer may make the list too long, which is another message.
        if len(texts[which]) > LONGEST:
            continue
        refused += 1
    else:
        rows += wanted[2].count(b'\n')
        longest = max(longest, len(wanted[2]))
    got = ask(*texts)
    if got != wanted:
        differ += 1
        print(f'random pair {n} of seed {seed}: the lists are')
        sys.stdout.flush()
        sys.stdout.buffer.write(texts[0][:2000] + b'and\n' + texts[1][:2000])
        sys.stdout.buffer.write(b'wanted %d\n%s%sgot %d\n%s%s' % (wanted[0], wanted[1][:2000], wanted[2][:2000], got[0], got[1][:2000], got[2][:2000]))
        sys.stdout.buffer.flush()
print(f'random: {pairs} pairs, {differ} differ; {rows} rows of reports, the longest report has {longest} bytes; {refused} pairs had a fault')
sys.exit(1 if differ or longest > 36864 else 0)
END
    cat random
    [ "$status" -eq 0 ] || differ=$((differ + 1))
else
    skip 'random lists: python3 is missing'
fi

finish
