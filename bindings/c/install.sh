#!/usr/bin/env bash
# Installs the headers, the static and the shared library of this processor, the file for pkg-config and the package for
# CMake, in PREFIX/include, PREFIX/lib, PREFIX/lib/pkgconfig and PREFIX/lib/cmake/hound. The folder PREFIX may be moved
# afterwards.
#   install.sh PREFIX               (in DESTDIR/PREFIX, where DESTDIR is in the environment)
#   install.sh --uninstall PREFIX   (removes what that installed)
#   install.sh --help
# With HOUND_C_LIB in the environment it takes the library of that folder. Where bindings/lib has none that this
# processor runs, or with HOUND_C_SOURCE, it compiles hound_c.c. CC has the words of the compiler, AR the archiver.
[ -n "${BASH_VERSION:-}" ] || { echo "install: this script needs bash: bash $0 PREFIX" >&2; exit 2; }
set -eu
here=$(cd "$(dirname "$0")" && pwd)
usage() { sed -n '/^# /s/^# *//p' "$0"; }
is_removed=
case ${1:-} in
--help) usage; exit 0 ;;
--uninstall) is_removed=yes; shift ;;
esac
if [[ $# -ne 1 || -z $1 || $1 == -* ]]; then
    usage >&2
    exit 2
fi
root=${DESTDIR:-}$1
shared=libhound_c.so
major=$(sed -n 's/^#define HOUND_VERSION_MAJOR //p' "$here/hound.h")
if [ -n "$is_removed" ]; then
    rm -f "$root"/include/hound{,_file,_follow}.h "$root"/lib/libhound_c.a "$root/lib/$shared" \
        "$root/lib/$shared.$major" "$root/lib/pkgconfig/hound.pc"
    rm -f "$root"/lib/cmake/hound/hound-config{,-version}.cmake
    echo "removed from: $root"
    exit 0
fi

# Whether this processor runs the library that bindings/lib has for it: that for x86-64 needs x86-64-v2.
runs_here() {
    local flags flag
    [ "$(uname -m)" = x86_64 ] && flags=$(grep -m 1 '^flags' /proc/cpuinfo) || return 0
    for flag in cx16 lahf_lm popcnt sse4_1 sse4_2 ssse3; do grep -qw "$flag" <<< "$flags" || return 1; done
}

read -ra cc <<< "${CC:-cc}"
work=$(mktemp -d)
trap 'rm -rf "$work"' EXIT
from=${HOUND_C_LIB:-$here/../lib/$(uname -m)-$(uname -s | tr '[:upper:]' '[:lower:]')}
if [ -z "${HOUND_C_LIB:-}" ] && { [ -n "${HOUND_C_SOURCE:-}" ] || [ ! -e "$from/libhound_c.a" ] || ! runs_here; }; then
    "${cc[@]}" -std=c99 -O3 -fPIC -c "$here/hound_c.c" -o "$work/hound_c.o"
    from=$work
    ${AR:-ar} crs "$from/libhound_c.a" "$work/hound_c.o"
elif [ ! -e "$from/libhound_c.a" ]; then
    echo "install: $from/libhound_c.a isn't there: HOUND_C_LIB has to name the folder that holds it" >&2
    exit 1
fi
if [ -e "$from/$shared" ]; then
    cp "$from/$shared" "$work/shared"
elif [ "$(uname -s)" != Darwin ] && command -v "${cc[0]}" > /dev/null; then # macOS has shared libraries of another kind
    "${cc[@]}" -shared "-Wl,-soname,$shared.$major" -Wl,--whole-archive "$from/libhound_c.a" -Wl,--no-whole-archive -o \
        "$work/shared"
fi
version=$(sed -n 's/^#define HOUND_VERSION "\(.*\)"$/\1/p' "$here/hound.h")
for file in hound.pc hound-config-version.cmake; do sed "s/@VERSION@/$version/" "$here/$file.in" > "$work/$file"; done

mkdir -p "$root/include" "$root/lib/pkgconfig" "$root/lib/cmake/hound"
install -m 644 "$here"/hound{,_file,_follow}.h "$root/include"
install -m 644 "$from/libhound_c.a" "$root/lib"
install -m 644 "$work/hound.pc" "$root/lib/pkgconfig"
install -m 644 "$here/hound-config.cmake" "$work/hound-config-version.cmake" "$root/lib/cmake/hound"
if [ -e "$work/shared" ]; then
    install -m 755 "$work/shared" "$root/lib/$shared.$major"
    ln -sf "$shared.$major" "$root/lib/$shared"
fi
echo "installed: $root"
