#!/bin/sh
# Runs the program stampcompact on books and arguments for which the manual page says what it writes, and compares standard output,
# standard error and the files with those words. Then it makes calls fail and kills the program at every call of the system: the
# book must be the old one or the compacted one each time. The gate runs the program on one good book; this is for all else.
#
# Usage: compact_program.sh [STAMPCOMPACT]
#   STAMPCOMPACT  the program, target/bin/stampcompact by default. Other users than root must be able to run it too.
# As root it also tries a full and a read-only file system, and owners. It needs strace to make calls fail and to kill at a call. What cannot
# be tried is named on a line that begins with "skipped".
# Exit status: 0 all as stated; 1 something differs, each with what was wanted and got; 2 there is no such program.
set -eu

. "$(dirname "$0")/../shared/program.sh"

begin stampcompact "$@"
mounted=
trap 'cd /; [ -z "$mounted" ] || umount "$mounted"; rm -rf "$work"' EXIT
chmod 755 "$work"

# The book of each case, and what it is compacted to.
old='hull\toak.hull\t0123456789abcdef\t5 +0000\n'
since='since\t1 week ago\t1745582210\t7200\n'
new='hull\toak.hull\tfedcba9876543210\t6 -0000\n'
book="$old$since$new"
compacted="$since$new"
report='3 lines, 111 bytes before; 2 lines, 72 bytes after\n'
said="stampcompact: book: $report"

fresh() {
    rm -rf book
    printf "$book" > book
    chmod 640 book
}

: > input
fresh
printf "${old}hull\toak.hull\t0123456789abcde\t5 +0000\n" > bad
printf "$book" | head -c -1 > open
head -c 65537 /dev/zero | tr '\0' '\n' > long
: > empty
mkdir folder

# Arguments.
help='; try --help\n'
expect 'no argument' '' "stampcompact: no book$help"
expect 'an unknown option' '' "stampcompact: unknown option '-x'$help" -x
expect 'an option behind BOOK' '' "stampcompact: option behind BOOK '--help'$help" book --help
expect 'three arguments' '' "stampcompact: more than BOOK and OUT$help" book out more
expect 'standard input in place' '' "stampcompact: OUT is missing: standard input cannot be replaced$help" -
expect 'a long argument' '' "stampcompact: argument of more than 4,096 bytes$help" "$(head -c 4097 /dev/zero | tr '\0' a)"
expect 'a long OUT' '' "stampcompact: argument of more than 4,096 bytes$help" book "$(head -c 4097 /dev/zero | tr '\0' a)"
expect 'a path that is too long' '' "stampcompact: $(head -c 4096 /dev/zero | tr '\0' a): File name too long\n" book "$(head -c 4096 /dev/zero | tr '\0' a)"
expect 'the version' 'stampcompact 0.1.0\n' '' --version
holds book "$book" 640

# In place.
expect 'in place' '' "$said" book
holds book "$compacted" 640
clean .
inode=$(stat -c %i book)
expect 'compact already' '' 'stampcompact: book: 2 lines, 72 bytes before; 2 lines, 72 bytes after\n' book
[ "$inode" = "$(stat -c %i book)" ] || { differ=$((differ + 1)); echo 'compact already: the file was replaced'; }
expect 'an empty book' '' 'stampcompact: empty: 0 lines, 0 bytes before; 0 lines, 0 bytes after\n' empty
fresh
mv book ./-odd
expect 'a name that begins with -' '' "stampcompact: ./-odd: $report" ./-odd
holds ./-odd "$compacted" 640
fresh
ln book other
expect 'a hard link' '' "$said" book
holds book "$compacted" 640
holds other "$book" 640
rm other

# Bad books change nothing and make nothing.
for way in '' out -; do
    expect "a bad line, to '$way'" '' 'bad:2: bad line\n' bad $way
    expect "no last newline, to '$way'" '' 'open:3: bad line\n' open $way
    expect "too long, to '$way'" '' 'long: too long: more than 65,536 bytes\n' long $way
    expect "a missing book, to '$way'" '' 'stampcompact: nowhere: No such file or directory\n' nowhere $way
done
expect 'a folder in place' '' 'stampcompact: folder: not a regular file\n' folder
expect 'a folder as BOOK' '' 'stampcompact: folder: Is a directory\n' folder out
[ ! -e out ] || { differ=$((differ + 1)); echo 'a bad book made OUT'; }
clean .

# OUT.
fresh
expect 'a new OUT' '' "$said" book out
holds out "$compacted" 644
holds book "$book" 640
printf 'old' > out
chmod 604 out
expect 'an OUT that is there' '' "$said" book out
holds out "$compacted" 604
expect 'standard output' "$compacted" "$said" book -
expect 'OUT is BOOK' '' "$said" book book
holds book "$compacted" 640
fresh
printf "$book" > input
expect 'standard input' '' "stampcompact: standard input: $report" - out
holds out "$compacted" 604
expect 'standard input to standard output' "$compacted" "stampcompact: standard input: $report" - -
: > input
expect 'a folder as OUT' '' 'stampcompact: folder: Is a directory\n' book folder
expect 'OUT in a missing folder' '' 'stampcompact: nowhere/out.tmp.NEW: No such file or directory\n' book nowhere/out
expect 'a name that is too long' '' "stampcompact: $(head -c 256 /dev/zero | tr '\0' a): File name too long\n" book "$(head -c 256 /dev/zero | tr '\0' a)"
clean .
mkfifo pipe
cat pipe > piped &
expect 'a pipe as OUT' '' "$said" book pipe
wait
printf "$compacted" > wanted.piped
mv piped got.piped
compare piped
[ -p pipe ] || { differ=$((differ + 1)); echo 'a pipe was replaced'; }
cat book > pipe &
expect 'a pipe in place' '' 'stampcompact: pipe: not a regular file\n' pipe
wait $! || :
holds book "$book" 640

# Symbolic links.
ln -s book link
ln -s nowhere loose
expect 'a link in place' '' 'stampcompact: link: a symbolic link; name the file itself\n' link
expect 'a link as OUT' '' 'stampcompact: link: a symbolic link; name the file itself\n' book link
expect 'a loose link as OUT' '' 'stampcompact: loose: a symbolic link; name the file itself\n' book loose
[ -L link ] && [ -L loose ] && [ ! -e nowhere ] || { differ=$((differ + 1)); echo 'a link was replaced or followed'; }
holds book "$book" 640
rm link loose
ln -s pipe link
cat pipe > piped &
expect 'a link to a pipe as OUT' '' "$said" book link
wait
mv piped got.piped
compare piped
rm link pipe

# Standard error closed: a message must not land in a file.
name='standard error closed'
cases=$((cases + 1))
"$program" book 2>&-
holds book "$compacted" 640
fresh
"$program" book out 2>&-
holds book "$book" 640
holds out "$compacted" 604
rm out
fresh

# A limit on the size of files. The signal ends the program, or, where it is ignored, the write fails.
printf "$since%.0s" $(seq 100) > large
printf "$old$new" >> large
cp large large.old
cases=$((cases + 1))
name='a limit, and the signal ends the program'
status=0
sh -c 'ulimit -f 1; "$1" large; exit $?' sh "$program" > got.out 2> got.err || status=$?
echo 'killed, a new file left' > wanted.end
if [ "$status" -gt 128 ] && [ -e large.tmp.* ]; then echo 'killed, a new file left' > got.end; else echo "exit status $status" > got.end; fi
compare end
cmp large large.old || differ=$((differ + 1))
rm -f large.tmp.*
name='a limit, and the signal is ignored'
cases=$((cases + 1))
(trap '' XFSZ; ulimit -f 1; exec "$program" large) > got.out 2> got.raw
printf 'stampcompact: large.tmp.NEW: File too large\n' > wanted.err
named
compare err
cmp large large.old || differ=$((differ + 1))
clean .

# Another user: folders and files that may not be written. Root is bound by neither, so root runs the program as nobody.
other='setpriv --reuid=65534 --regid=65534 --clear-groups --no-new-privs'
if [ "$(id -u)" != 0 ]; then
    other=env
fi
if $other "$program" --version > /dev/null 2>&1; then
    mkdir shut mine
    printf "$book" > shut/book
    printf "$book" > mine/book
    if [ "$(id -u)" = 0 ]; then
        chown 65534:65534 shut shut/book mine mine/book
    fi
    chmod 555 shut
    chmod 444 mine/book
    by=$other
    expect 'a folder that may not be written' '' 'stampcompact: shut/book.tmp.NEW: Permission denied\n' shut/book
    expect 'OUT in a folder that may not be written' '' 'stampcompact: shut/out.tmp.NEW: Permission denied\n' shut/book shut/out
    expect 'a book that may not be written' '' 'stampcompact: mine/book: Permission denied\n' mine/book
    expect 'a full device as OUT' '' 'stampcompact: /dev/full: No space left on device\n' shut/book /dev/full
    by=
    holds shut/book "$book" 644
    holds mine/book "$book" 444
    clean .
    chmod 755 shut
else
    skip 'folders and files that may not be written: nobody cannot run the program here'
fi

# Root: owners are kept, and file systems that are full or read-only.
if [ "$(id -u)" = 0 ]; then
    fresh
    chown 65534:65533 book
    expect 'the owner is kept' '' "$said" book
    stat -c %u:%g book > got.owner
    echo 65534:65533 > wanted.owner
    compare owner
    mkdir disk
    if mount -t tmpfs -o size=64k none disk 2> /dev/null; then
        mounted=$work/disk
        # The book has 11 blocks, and the compacted one as many, of 16.
        printf "$since%.0s" $(seq 1300) > disk/book
        printf "$old$new" >> disk/book
        cp disk/book full.old
        expect 'a full file system' '' 'stampcompact: disk/book.tmp.NEW: No space left on device\n' disk/book
        expect 'a full file system, to OUT' '' 'stampcompact: disk/out.tmp.NEW: No space left on device\n' disk/book disk/out
        cmp disk/book full.old || differ=$((differ + 1))
        clean disk
        mount -o remount,ro disk
        expect 'a read-only file system' '' 'stampcompact: disk/book: Read-only file system\n' disk/book
        expect 'a read-only file system, to OUT' '' 'stampcompact: disk/out.tmp.NEW: Read-only file system\n' disk/book disk/out
        cmp disk/book full.old || differ=$((differ + 1))
        umount disk
        mounted=
    else
        skip 'a full and a read-only file system: mount is refused here'
    fi
else
    skip 'owners, a full and a read-only file system: only root can try them'
fi

# Calls that fail, and kills, by strace.
if can_trace; then
    fault() {
        fresh
        injected "$2" "$1" '' "$3" book
        holds book "$book" 640
        clean .
    }
    # Which write and which close are those of the new file: the last ones before the rename.
    fresh
    trace book
    write=$(before_rename write)
    close=$(before_rename close)
    fault 'the permissions cannot be set' fchmod:error=EPERM 'stampcompact: book.tmp.NEW: Operation not permitted\n'
    fault 'the sync fails' fsync:error=EIO 'stampcompact: book.tmp.NEW: Input/output error\n'
    fault 'the write fails' "write:error=EIO:when=$write" 'stampcompact: book.tmp.NEW: Input/output error\n'
    fault 'the rename fails' /^rename:error=EIO 'stampcompact: book: Input/output error\n'
    # Nothing says how a close went; the bytes are on the device by then.
    fresh
    injected "close:error=EIO:when=$close" 'a close that fails' '' "$said" book
    holds book "$compacted" 640
    clean .
    for error in EINTR EAGAIN; do
        fresh
        injected "write:error=$error:when=$write" "a write that ends in $error" '' "$said" book
        holds book "$compacted" 640
        clean .
    done
    # Kills at each call of the system, one run for each.
    name='a kill'
    cases=$((cases + 1))
    printf "$book" > old.book
    printf "$compacted" > new.book
    before_kill() {
        fresh
    }
    after_kill() {
        :
    }
    kills book book
    echo "kills: $runs runs, the book was the old one in $olds, the compacted one in $news, torn in $torn; a new file was left in $left"
    if [ "$torn" -ne 0 ] || [ "$olds" -eq 0 ] || [ "$news" -eq 0 ] || [ "$left" -eq 0 ]; then
        differ=$((differ + 1))
        echo 'a kill: wanted the old book and the compacted one, a new file left, and nothing torn'
    fi
else
    skip 'calls that fail, and kills at each call: strace is missing or refused here'
fi

finish
