#!/usr/bin/env bash
# Copies the library's ten crates into a repository of your own, adds their lines to its crates.txt,
# and writes the version and a checksum of each file to crates/hound.version. A crate of yours then
# names the library by a line of its own there, `mine: hound`. With --check it lists the files of
# the copy that were changed, added or removed since, and ends with status 1 if there are any.
#
# usage: scripts/vendor.sh [--check] DIR
set -eu -o pipefail
top=$(cd "$(dirname "$0")/.." && pwd)
check=
if [ "${1:-}" = --check ]; then
    check=yes
    shift
fi
if [ $# -ne 1 ] || [ ! -d "$1" ]; then
    echo "usage: scripts/vendor.sh [--check] DIR, where DIR is a folder that exists" >&2
    exit 2
fi
dir=$(cd "$1" && pwd)
if [ "$dir" = "$top" ]; then
    echo "vendor: $dir is this repository" >&2
    exit 2
fi
crates="$(sed -n 's/^hound: *//p' "$top/crates.txt") hound"
version=$dir/crates/hound.version

# The checksum and the name of each file of the copy.
checksums() {
    for crate in $crates; do
        [ ! -d "$dir/crates/$crate" ] || (cd "$dir/crates" && find "$crate" -name out -prune -o -type f -print0)
    done | LC_ALL=C sort -z | (cd "$dir/crates" && xargs -0 -r sha256sum)
}

# The commit of this clone, and whether the crates have changes that it lacks.
commit() {
    if [ ! -e "$top/.git" ]; then
        echo unknown
    elif [ -n "$(git -C "$top" status --porcelain -- crates crates.txt)" ]; then
        echo "$(git -C "$top" rev-parse HEAD), with changes that are not committed"
    else
        git -C "$top" rev-parse HEAD
    fi
}

if [ -n "$check" ]; then
    if [ ! -f "$version" ]; then
        echo "vendor: $version is not there: scripts/vendor.sh did not write this copy" >&2
        exit 2
    fi
    # Of the lines that only one of the two lists has, the names.
    changed=$({ grep -v '^#' "$version"; checksums; } | LC_ALL=C sort | uniq -u | sed 's/^[^ ]*  //' | LC_ALL=C sort -u)
    grep -E '^# (commit|kit) ' "$version" | sed 's/^# /vendor: /'
    if [ -n "$changed" ]; then
        printf '%s\n' "$changed" | sed 's/^/vendor: changed since: /' >&2
        exit 1
    fi
    echo "vendor: no file was changed since"
    exit
fi

mkdir -p "$dir/crates"
touch "$dir/crates.txt"
for crate in $crates; do
    if [ -e "$dir/crates/$crate" ]; then
        echo "vendor: $dir/crates/$crate exists; remove it first to replace it" >&2
        exit 1
    fi
done
for crate in $crates; do
    mkdir "$dir/crates/$crate"
    for part in src specs proofs; do
        if [ -d "$top/crates/$crate/$part" ]; then
            cp -r "$top/crates/$crate/$part" "$dir/crates/$crate/$part"
        fi
    done
done
cp "$top/LICENSE" "$dir/crates/hound/LICENSE"
# The library's lines come first, since a crate comes after those that it uses.
lines="^(${crates// /|}):"
{ grep -E "$lines" "$top/crates.txt"; grep -vE "$lines" "$dir/crates.txt" || true; } > "$dir/crates.txt.new"
mv "$dir/crates.txt.new" "$dir/crates.txt"
[ -e "$dir/HANDLES" ] || cp "$top/HANDLES" "$dir/HANDLES"
. "$top/scripts/kit.sh"
{
    echo "# Written by scripts/vendor.sh of hound, proved; scripts/vendor.sh --check compares the files with it."
    echo "# commit $(commit)"
    echo "# kit $PROVED_WITH"
    checksums
} > "$version"
echo "vendor: ten crates are in $dir/crates, and their lines in crates.txt; a line 'NAME: hound' makes a crate of yours use them"
