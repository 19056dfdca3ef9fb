#!/usr/bin/env bash
# Makes bindings/lib, for those without the kit: hound_c, proved and built for each target. PROVED has the kit that made
# them, the sha256 of each file, its length, and the line with which it was proved. Binaryen makes the module for a
# memory of 32 bits from the one for 64, scripts/portable bindings/c/hound_c.c, and the kit's linker the shared
# libraries: so these are trusted with them.
#   scripts/carry.sh [LOG]              writes the files and the page
#   scripts/carry.sh --check [LOG]      writes none, and fails where one isn't, byte for byte, what the proofs give
# Another kit than that may compile to other bytes: then only the sums are compared, and it says so. LOG is what an `rt
# ci` that is running says: once the libraries below hound_c are proved, they are taken as they are, and hound_c alone
# is proved again. Else `rt lib` proves what isn't proved yet.
set -eu -o pipefail
cd "$(dirname "$0")/.."
. scripts/kit.sh
check=
if [ "${1:-}" = --check ]; then
    check=yes
    shift
fi
log=${1:-}
if [ $# -gt 1 ] || [ -n "$log" ] && [ ! -f "$log" ]; then
    sed -n '/^#   scripts/p' "$0" >&2
    exit 2
fi
look_at_kit scripts/carry.sh
kit=$(dirname "$(dirname "$(readlink -f "$(command -v rt)")")")
below=$(sed -n 's/^hound_c staticlib: //p' crates.txt)
work=$(mktemp -d)
trap 'rm -rf "$work"' EXIT

# Waits until the log of `rt ci` says that it proved each library below hound_c, or took it over.
is_proved() {
    [ -n "$log" ] || return 1
    for crate in $below; do
        until grep -qE "^rt: $crate (proved$|is kept: )" "$log"; do
            ! grep -qE '^rt: [a-z_]+ NOT PROVED|^rt: FAILED|^[0-9]+ passed, ' "$log" || return 1
            sleep 1
        done
    done
}

# Builds out/libhound_c.a of hound_c over these libraries; what the first target checks, the next one takes over.
build_over() {
    local crate words=()
    for crate in $below; do words+=(--extern "$crate=../$crate/out/rlib/$crate.rlib"); done
    for crate in ../*/out/rlib; do words+=(-L "dependency=$crate"); done
    mkdir -p out
    "$kit/bin/rattle" build --crate-name hound_c src/lib.rt --crate-type staticlib --target "$1" --links hound_c= \
        --extern "std=$kit/rlibs/std.rlib" -L "dependency=$kit/rlibs" "${words[@]}" --antt-project \
            "$kit/rattle/logic/antt-project.json" \
        --logic-built "$kit/logic_built" --incremental "$work/incremental" --jobs "$jobs" --toolchain "$kit/toolchain" \
            -o out/libhound_c.a
}
jobs=1 # two take a quarter more of the processors' time
how=(rt lib --target)
! is_proved || how=(build_over)

# The file that is carried: the archive itself, or the module of it.
linked() { # TARGET ARCHIVE FILE
    case $3 in
    *.wasm) "$kit/bin/rattle-link" --target "$1" --toolchain "$kit/toolchain" -o "$3" "$2" ;;
    *) cp "$2" "$3" ;;
    esac
}

# Proves and builds hound_c for a target, and writes a file of bindings/lib and its lines of PROVED.
carry() { # TARGET FILE
    echo "carry: building hound_c for $1" >&2
    mkdir -p "$work/lib/$(dirname "$2")"
    if ! { (cd crates/hound_c && "${how[@]}" "$1") \
        && linked "$1" crates/hound_c/out/libhound_c.a "$work/lib/$2"; } 2>&1 \
        | tee "$work/log" | sed -un 's/^rt: chose .* for \(.*\)/carry: proving \1/p' >&2; then
        tail -n 20 "$work/log" >&2
        exit 1
    fi
    echo "# $(wc -c < "$work/lib/$2") bytes, $(grep '^logic=proved ' "$work/log" | tail -n 1)" >> "$work/lib/PROVED"
    (cd "$work/lib" && sha256sum "$2") >> "$work/lib/PROVED"
}

# Lets the memory of a module begin with 17 pages more, in which hound.js has what it passes to calls. It can't grow the
# memory instead: where one of a program grows, V8 from then on makes a check at each access to any typed array.
widen() { # FILE
    python3 - "$1" << 'PYTHON'
import sys
with open(sys.argv[1], "r+b") as file:
    module, memory = file.read(), bytes([5, 3, 1, 0, 17])  # The section of memories: one, of 17 pages at least.
    if module.count(memory) != 1:
        sys.exit("carry: the module's memory doesn't begin with 17 pages")
    file.seek(module.index(memory) + 4)
    file.write(bytes([17 + 17]))
PYTHON
}

# Makes the module for a memory of 32 bits from the one for 64, and writes its lines of PROVED. A check without that
# version of Binaryen takes the module over if it was made from the same one.
lower() { # FROM TO
    local from
    from=$(sha256sum < "$work/lib/$1")
    if [ "$(wasm-opt --version 2> /dev/null | cut -d ' ' -f 1-3)" = "wasm-opt version $binaryen" ]; then
        wasm-opt --enable-memory64 --enable-bulk-memory --memory64-lowering "$work/lib/$1" -o "$work/lib/$2"
        widen "$work/lib/$2"
    elif [ -n "$check" ]; then
        echo "carry: passed over, since wasm-opt $binaryen (Debian: binaryen) isn't here: that it makes $2 from $1" >&2
        cp "bindings/lib/$2" "$work/lib/$2"
    else
        echo "carry: wasm-opt $binaryen (Debian: binaryen) isn't here, which makes $2 from $1" >&2
        exit 1
    fi
    made "$2" "wasm-opt $binaryen (trusted) --memory64-lowering, and 17 pages of memory more, from $1, ${from:0:16}"
}
binaryen=108

# Makes the file for computers that there is no library for from the module for 64 bits.
translate() { # FROM TO
    local from
    from=$(sha256sum < "$work/lib/$1")
    python3 scripts/portable/convert.py "$work/lib/$1" bindings/c/hound.h > "$work/lib/$2"
    made "$2" "scripts/portable (trusted) from $1, ${from:0:16}"
}

# Makes the shared library of an archive. It names no other library, so it is for each C library.
share() { # FOLDER
    local from major
    from=$(sha256sum < "$work/lib/$1/libhound_c.a")
    major=$(sed -n 's/^#define HOUND_VERSION_MAJOR //p' bindings/c/hound.h)
    "$kit/toolchain/bin/ld.lld" -shared -soname "libhound_c.so.$major" --build-id=none --strip-all \
        --whole-archive "$work/lib/$1/libhound_c.a" -o "$work/lib/$1/libhound_c.so"
    chmod 644 "$work/lib/$1/libhound_c.so"
    made "$1/libhound_c.so" "the kit's ld.lld (trusted) from $1/libhound_c.a, ${from:0:16}"
}

# The lines of PROVED of a file that is made of another.
made() { # FILE HOW
    (cd "$work/lib" && echo "# $(wc -c < "$1") bytes, made by $2" && sha256sum "$1") >> "$work/lib/PROVED"
}

if [ -n "$check" ] && ! (cd bindings/lib && sha256sum --check --strict --quiet PROVED); then
    echo "carry: bindings/lib and hound_c.c aren't what PROVED says; scripts/carry.sh makes them" >&2
    exit 1
fi
mkdir "$work/lib" "$work/c"
echo "# What the proofs give, by scripts/carry.sh; before the sha256 of each file are its length and the line with which it was proved, or how it was made of another." > "$work/lib/PROVED"
echo "# Made with $(rt version)" >> "$work/lib/PROVED"
carry wasm64-unknown-unknown hound_c.wasm
lower hound_c.wasm hound_c32.wasm
translate hound_c.wasm ../c/hound_c.c
carry aarch64-unknown-linux-gnu aarch64-linux/libhound_c.a
share aarch64-linux
# The archive of this target stays in crates/hound_c/out.
carry x86_64-unknown-linux-gnu x86_64-linux/libhound_c.a
share x86_64-linux
made_with=$(sed -n 's/^# Made with //p' bindings/lib/PROVED 2> /dev/null || true)
if [ -n "$check" ]; then
    if diff -r "$work/lib" bindings/lib && cmp "$work/c/hound_c.c" bindings/c/hound_c.c; then
        echo "carry: bindings/lib and hound_c.c are, byte for byte, what the proofs give"
    elif [ "$made_with" != "$(rt version)" ]; then
        echo "carry: passed over, since this kit isn't $made_with, which made bindings/lib: its bytes"
    else
        echo "carry: bindings/lib or hound_c.c isn't what the proofs give; scripts/carry.sh makes them" >&2
        exit 1
    fi
else
    mkdir -p bindings/lib
    cp -r "$work/lib/." bindings/lib
    cp "$work/c/hound_c.c" bindings/c
    bindings/js/page/make.py
    echo "carry: bindings/lib has $(cat "$work"/lib/*/*.{a,so} "$work"/lib/*.wasm | wc -c) bytes"
fi
