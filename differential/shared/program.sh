# For a program.sh, which sources it: runs a program that writes a new file in the place of an old one, and compares what it writes.
#
# The script calls `begin` first and `finish` last. In between, `program` is the program and `work` the folder that the script is in. A
# case has its name in `name`; `cases`, `differ` and `skipped` count. `by` has words that come before the program's name: those that run
# it under strace or as another user. A text wanted is given as for printf.

here=$(cd "$(dirname "$0")" && pwd)
cases=0 differ=0 skipped=0
by=

# `begin NAME [FILE]` finds the program NAME, which is FILE or what tools/build.sh has built, and goes to a new folder, removed at the end.
begin() {
    program=${2-$here/../../target/bin/$1}
    [ -x "$program" ] || { echo "${0##*/}: there is no program $program; tools/build.sh $1 builds it" >&2; exit 2; }
    program=$(cd "$(dirname "$program")" && pwd)/$(basename "$program")
    work=$(mktemp -d)
    trap 'cd /; rm -rf "$work"' EXIT
    cd "$work"
    umask 022
}

# `finish` prints how many cases differ, and fails if any does.
finish() {
    echo "program: $cases cases, $differ differ, $skipped skipped"
    [ "$differ" -eq 0 ]
}

# `skip WHY` says what cannot be tried here.
skip() {
    skipped=$((skipped + 1))
    echo "skipped: $1"
}

# `wrong WHAT` says what differs.
wrong() {
    differ=$((differ + 1))
    echo "$1"
}

# `compare KIND` compares the file got.KIND with the file wanted.KIND, for the case $name.
compare() {
    if ! cmp -s "wanted.$1" "got.$1"; then
        differ=$((differ + 1))
        printf '%s, %s: wanted\n' "$name" "$1"
        cat "wanted.$1"
        echo 'got'
        cat "got.$1"
    fi
}

# `named` makes got.err from got.raw. The end of a new file's name differs from run to run, so NEW is put in its place.
named() {
    sed 's/\.tmp\.[A-Za-z0-9]*:/.tmp.NEW:/' got.raw > got.err
}

# `expect NAME OUTPUT MESSAGES WORDS...` runs the program with WORDS, and compares with the output and messages wanted, as for printf.
# Standard input is the file `input`.
expect() {
    name=$1
    printf "$2" > wanted.out
    printf "$3" > wanted.err
    shift 3
    $by "$program" "$@" < input > got.out 2> got.raw || echo "exit status $?" >> got.raw
    named
    cases=$((cases + 1))
    compare out
    compare err
}

# `holds FILE TEXT MODE` compares a file with the bytes wanted, as for printf, and its mode with that wanted.
holds() {
    printf "$2" > wanted.file
    cat "$1" > got.file 2> /dev/null || echo "no file $1" > got.file
    compare file
    echo "$3" > wanted.mode
    stat -c %a "$1" > got.mode 2> /dev/null || echo "no file $1" > got.mode
    compare mode
}

# `clean [FOLDER]` sees to it that no new file is left behind, in the work folder by default.
clean() {
    : > wanted.left
    find "${1-.}" -name '*.tmp.*' > got.left
    compare left
}

# `can_trace` tests whether strace runs the program here.
can_trace() {
    strace -o trace "$program" --version > /dev/null 2>&1
}

# `trace WORDS...` runs the program with WORDS, and writes its calls of the system to the file `calls`.
trace() {
    strace -o calls "$program" "$@" > /dev/null 2>&1
}

# `before_rename CALL` prints how many such calls `calls` has in front of the rename. The last of them is that of the new file.
before_rename() {
    sed '/^rename/,$d' calls | grep -c "^$1("
}

# `injected FAULT NAME OUTPUT MESSAGES WORDS...` is as `expect`, with a call that fails, in the words of strace.
injected() {
    by="strace -o trace -e inject=$1"
    shift
    expect "$@"
    by=
}

# `kills FILE WORDS...` runs the program with WORDS and kills it: at the first, second and further one of each call in `calls`, until a
# run is not killed. It calls `before_kill` and `after_kill`, which the script has, around each run. It counts the runs, and in how many
# of them FILE was old.book, new.book or neither, and a new file was left: runs, olds, news, torn, left.
kills() {
    file=$1
    shift
    runs=0 olds=0 news=0 left=0 torn=0
    for call in $(sed -n 's/^\([a-z0-9_]*\)(.*/\1/p' calls | sort -u); do
        at=0 status=137
        while [ "$status" -ne 0 ]; do
            at=$((at + 1))
            runs=$((runs + 1))
            before_kill
            status=0
            killed "$call:signal=KILL:when=$at" "$@" || status=$?
            count_kill
            after_kill
        done
    done
}

# `killed SIGNAL WORDS...` is one run, with a signal at a call, in the words of strace. The shell that waits for the program says that
# it was killed, so it is a shell of its own.
killed() {
    signal=$1
    shift
    sh -c 'signal=$1; shift; strace -o trace -e inject="$signal" "$@"; exit $?' sh "$signal" "$program" "$@" > /dev/null 2>&1
}

# `count_kill` counts what one run left, and removes the new file.
count_kill() {
    if cmp -s "$file" old.book; then
        olds=$((olds + 1))
    elif cmp -s "$file" new.book; then
        news=$((news + 1))
    else
        torn=$((torn + 1))
    fi
    for behind in "$file".tmp.*; do
        [ ! -e "$behind" ] || { left=$((left + 1)); rm "$behind"; }
    done
}
