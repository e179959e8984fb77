#!/bin/sh
# Builds the oracle: gix-date 0.18.1 with its private readers made visible.
#
# gix-date leans on four packages of Debian's suite sid. They are downloaded into a temporary folder and
# unpacked; nothing is installed and the machine's own package lists stay as they are. The files under
# gix-date/ stay as they are too: they are copied to target/differential/gix-date, and there
#   - a module `visible` is added at the end of parse/mod.rs and of parse/relative.rs;
#   - `parse_cut` is added at the end of parse/function.rs: the text of `parse` less its six calls into
#     jiff's text readers;
#   - `parse_raw_2` is added at the end of parse/raw.rs: the text of `parse_raw` with the limits of rule 2
#     on hours and minutes; and `parse_cut_2`, the text of `parse_cut` with `parse_raw_2` for `parse_raw`.
#
# Usage: oracle.sh [--debs DIR] [--sources FILE] [--any-version]
#   --debs DIR      take the four .deb files from DIR and ask no network
#   --sources FILE  an apt source list that names sid, in place of the machine's own Debian entry
#   --any-version   take the versions that sid has today, whatever they are
#
# Exit status: 0 the oracle is built; 1 cargo could not build it; 2 bad usage, or a tool is missing;
# 3 the packages cannot be had; 4 the files under gix-date/ are not those that these edits are written for.
set -eu

here=$(cd "$(dirname "$0")" && pwd)
top=$(cd "$here/.." && pwd)
work=$top/target/differential
packages='jiff=0.2.37 jiff-core=0.1.1 gix-error=0.5.0 itoa=1.0.18'

say() { printf 'oracle: %s\n' "$*" >&2; }
stop() {
    status=$1
    shift
    say "$@"
    exit "$status"
}
usage() { sed -n 's/^# \{0,1\}//; /^Usage/,/^$/p' "$0"; }

debs='' sources='' any_version=''
while [ $# -gt 0 ]; do
    case $1 in
        --debs | --sources)
            [ $# -ge 2 ] || stop 2 "$1 needs a path"
            [ -e "$2" ] || stop 2 "$1 $2: there is no such path"
            path=$(cd "$(dirname "$2")" && pwd)/$(basename "$2")
            if [ "$1" = --debs ]; then debs=$path; else sources=$path; fi
            shift 2
            ;;
        --any-version) any_version=yes; shift ;;
        --help) usage; exit 0 ;;
        *) usage >&2; exit 2 ;;
    esac
done
for tool in awk cargo dpkg-deb sha256sum; do
    command -v "$tool" >/dev/null || stop 2 "needs $tool, which is not here"
done

scratch=$(mktemp -d)
trap 'rm -rf "$scratch"' EXIT
trap 'exit 130' INT TERM

# A one-line source entry for sid, made from each entry of the machine's own for Debian itself (not for
# its security archive), in either of apt's two layouts.
debian_entries() {
    eval "$(apt-config shell list Dir::Etc::sourcelist/f parts Dir::Etc::sourceparts/d)"
    for file in "$list" "$parts"/*.list; do
        [ -f "$file" ] || continue
        awk '
            function is_debian(uri) { return uri ~ /[\/.]debian(\.list)?\/?$/ }
            $1 == "deb" {
                options = ""
                uri = 2
                if ($2 ~ /^\[/) {
                    while ($uri !~ /\]$/ && uri < NF) { options = options $uri " "; uri++ }
                    options = options $uri " "
                    uri++
                }
                if (is_debian($uri)) print "deb " options $uri " sid main"
            }' "$file"
    done
    for file in "$parts"/*.sources; do
        [ -f "$file" ] || continue
        sed '/^#/d' "$file" | awk '
            function is_debian(uri) { return uri ~ /[\/.]debian(\.list)?\/?$/ }
            BEGIN { RS = ""; FS = "\n" }
            {
                types = uris = signed = enabled = ""
                for (i = 1; i <= NF; i++) {
                    name = tolower($i)
                    sub(/:.*/, "", name)
                    value = $i
                    sub(/^[^:]*:[ \t]*/, "", value)
                    if (name == "types") types = value
                    if (name == "uris") uris = value
                    if (name == "signed-by" && value ~ /^\//) signed = value
                    if (name == "enabled") enabled = value
                }
                if (types !~ /(^| )deb( |$)/ || enabled == "no") next
                count = split(uris, uri, " ")
                for (i = 1; i <= count; i++)
                    if (is_debian(uri[i]))
                        print "deb " (signed == "" ? "" : "[signed-by=" signed "] ") uri[i] " sid main"
            }'
    done
}

# Downloads the four packages to $1, by an apt configuration of our own in the temporary folder.
download() {
    for tool in apt-config apt-get apt-cache; do
        command -v "$tool" >/dev/null ||
            stop 3 "needs $tool, which is not here; where the four packages lie ready, give their folder: --debs DIR"
    done
    mkdir -p "$scratch/lists/partial" "$scratch/cache/archives/partial" "$1"
    if [ -n "$sources" ]; then cp "$sources" "$scratch/sid.list"; else debian_entries | sort -u >"$scratch/sid.list"; fi
    [ -s "$scratch/sid.list" ] ||
        stop 3 "no entry for Debian among this machine's apt sources; give one that names sid: --sources FILE"
    set -- "$1" -q \
        -o Dir::Etc::sourcelist="$scratch/sid.list" -o Dir::Etc::sourceparts=/dev/null \
        -o Dir::Etc::preferences=/dev/null -o Dir::Etc::preferencesparts=/dev/null \
        -o Dir::State::lists="$scratch/lists" -o Dir::Cache="$scratch/cache" \
        -o Acquire::Languages=none -o Acquire::Retries=3 -o APT::Sandbox::User=root
    folder=$1
    shift
    say 'reading the package list of sid'
    # apt-get update ends well also where nothing could be fetched
    apt-get "$@" update >"$scratch/log" 2>&1 && ! grep -qE '^(Err|E):|Failed to fetch' "$scratch/log" || {
        cat "$scratch/log" >&2
        stop 3 'the package list of sid cannot be had (see above); without a network give the four packages: --debs DIR'
    }
    for package in $packages; do
        name=librust-${package%=*}-dev
        wanted=${package#*=}
        found=$(apt-cache "$@" show "$name" 2>/dev/null | sed -n 's/^Version: //p' | sort -V)
        [ -n "$found" ] || stop 3 "sid has no package $name"
        version=$(printf '%s\n' "$found" | sed -n "/^${wanted}[-+]/p" | tail -n 1)
        if [ -z "$version" ]; then
            version=$(printf '%s\n' "$found" | tail -n 1)
            [ -n "$any_version" ] ||
                stop 3 "sid has $name $version and no longer $wanted; take what it has by --any-version, or give the packages: --debs DIR"
            say "taking $name $version in place of $wanted"
        fi
        (cd "$folder" && apt-get "$@" download "$name=$version") >"$scratch/log" 2>&1 || {
            cat "$scratch/log" >&2
            stop 3 "$name cannot be had (see above)"
        }
    done
}

# Unpacks the sources of the four packages to $work/vendor, and makes the two edits to their manifests
# without which cargo asks for crates that it never builds: the weak features (`log?/std`), and jiff's
# entry for jiff-static under `cfg(any())`. No .rs file is edited.
vendor() {
    if [ -z "$debs" ]; then
        debs=$scratch/debs
        download "$debs"
    fi
    for package in $packages; do
        name=librust-${package%=*}-dev
        deb=$(ls "$debs/${name}"_*.deb 2>/dev/null | sort -V | tail -n 1)
        [ -n "$deb" ] || stop 3 "$debs holds no package $name"
        dpkg-deb -x "$deb" "$scratch/unpacked" || stop 3 "$deb cannot be unpacked"
    done
    registry=$scratch/unpacked/usr/share/cargo/registry
    for manifest in "$registry"/*/Cargo.toml; do
        awk '
            /^\[/ { in_any = ($0 ~ /^\[target\."cfg\(any\(\)\)"/) }
            in_any { next }
            { gsub(/"[A-Za-z0-9_-]+\?\/[A-Za-z0-9_-]+",? ?/, ""); print }
        ' "$manifest" >"$scratch/manifest"
        cp "$scratch/manifest" "$manifest"
    done
    rm -rf "$work/vendor"
    mkdir -p "$work"
    cp -R "$registry" "$work/vendor"
}

# `parse` less its six calls, from the text of parse/function.rs: the first branch to be kept takes the
# `let` of the first that goes. Status 1 if the lines are not those that this is written for.
cut_parse() {
    awk '
        /^pub fn parse\(/ { on = 1; sub(/parse\(/, "parse_cut("); print "\n/// `parse` less its six calls into jiff'\''s text readers." }
        !on { next }
        /^    let time = if let Ok\(val\) = Date::strptime\(SHORT\.0, input\) \{$/ { cutting = 1 }
        /^    \} else if let Ok\(val\) = SecondsSinceUnixEpoch::from_str\(input\)$/ {
            if (cutting) sub(/\} else if/, "let time = if")
            cutting = 0
        }
        cutting { lines++; if (/(strptime|rfc2822)[a-z_]*\(/) calls++; next }
        { print }
        /^}$/ { exit }
        END { exit !(lines == 15 && calls == 6) }
    ' "$1"
}

# `parse_raw` with the limits of rule 2, from the text of parse/raw.rs: one line differs. Status 1 if that
# line is not the one that this is written for.
raw_by_rule_2() {
    awk '
        /^pub fn parse_raw\(/ { on = 1; sub(/parse_raw\(/, "parse_raw_2("); print "\n/// `parse_raw` with hours below 24 and minutes below 60." }
        !on { next }
        $0 == "    if hours > 14 || (minutes != 0 && minutes != 15 && minutes != 30 && minutes != 45) || offset_seconds != 0 {" {
            $0 = "    if hours >= 24 || minutes >= 60 || offset_seconds != 0 {"
            changed++
        }
        { print }
        /^}$/ { exit }
        END { exit !(changed == 1) }
    ' "$1"
}

# `parse_cut` by rule 2, from its text: its two calls of `parse_raw` differ. Status 1 if there are not two.
cut_by_rule_2() {
    awk '
        { sub(/`parse` less/, "`parse` by rule 2, less"); sub(/parse_cut\(/, "parse_cut_2(") }
        { calls += gsub(/parse_raw\(/, "crate::parse::raw::parse_raw_2("); print }
        END { exit !(calls == 2) }
    ' "$1"
}

# Copies gix-date to the build folder and makes its private readers visible there. A copy that is up to
# date is left alone, so that cargo builds it once.
make_visible() {
    sum=$(cd "$here" && cat oracle.sh oracle/* $(find gix-date -name '*.rs' | sort) | sha256sum)
    [ "$(cat "$work/gix-date/made-from" 2>/dev/null)" != "$sum" ] || return 0
    rm -rf "$work/gix-date"
    cp -R "$here/gix-date" "$work/gix-date"
    cp "$here/oracle/Cargo.toml" "$work/gix-date/Cargo.toml"
    cat "$here/oracle/parse-mod.rs" >>"$work/gix-date/src/parse/mod.rs"
    cat "$here/oracle/parse-relative.rs" >>"$work/gix-date/src/parse/relative.rs"
    cut_parse "$here/gix-date/src/parse/function.rs" >"$scratch/cut" ||
        stop 4 'parse in gix-date/src/parse/function.rs is not the text that the cut is written for'
    raw_by_rule_2 "$here/gix-date/src/parse/raw.rs" >"$scratch/raw-2" ||
        stop 4 'parse_raw in gix-date/src/parse/raw.rs is not the text that the change of its limits is written for'
    cut_by_rule_2 "$scratch/cut" >"$scratch/cut-2" ||
        stop 4 'parse in gix-date/src/parse/function.rs does not call parse_raw twice'
    cat "$scratch/cut" "$scratch/cut-2" >>"$work/gix-date/src/parse/function.rs"
    cat "$scratch/raw-2" >>"$work/gix-date/src/parse/raw.rs"
    printf '%s\n' "$sum" >"$work/gix-date/made-from"
}

# what an earlier run unpacked is used again, whatever its versions
have_vendor=yes
for package in $packages; do
    ls -d "$work/vendor/${package%=*}"-[0-9]* >/dev/null 2>&1 || have_vendor=
done
[ -n "$have_vendor" ] && [ -z "$debs$sources$any_version" ] || vendor
make_visible
cat >"$work/config.toml" <<END
[source.crates-io]
replace-with = "unpacked"
[source.unpacked]
directory = "$work/vendor"
END
CARGO_TARGET_DIR=$work/cargo cargo build --quiet --release --offline --config "$work/config.toml" \
    --manifest-path "$work/gix-date/Cargo.toml" || stop 1 'cargo could not build gix-date (see above)'
say "gix-date 0.18.1 with $(cd "$work/vendor" && echo *) is built"
