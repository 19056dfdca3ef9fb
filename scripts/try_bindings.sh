#!/usr/bin/env bash
# Tries hound_c from C, Python, Cargo and JavaScript as someone without the Rattle kit does: from a fresh clone, with
# the libraries of bindings/lib, no `rt` on the path and no network. It looks at their symbols, runs the users of
# bindings/tests, the tests of the packages, and the rows of hound_rows compared with their model; on ARM in an
# emulator, and in WebAssembly. What needs a tool that isn't here is named and passed over. It writes a line for each
# check, and last 'N of N checks of the bindings'. The programs of the pages are run by scripts/run_docs.py.
#   scripts/try_bindings.sh     (that bindings/lib is what the proofs give is looked at by scripts/carry.sh --check)
set -u
cd "$(dirname "$0")/.."
work=$(mktemp -d)
trap 'rm -rf "$work"' EXIT
. scripts/bindings.sh

has_libc_of_arm() {
    [ -e /usr/aarch64-linux-gnu/include/stdio.h ] \
        || { echo "bindings: passed over, since its C library isn't here: ARM (Debian: libc6-dev-arm64-cross)";
            return 1; }
}

# A clone, and a path without the kit.
clone() {
    local folder IFS=:
    clone_to "$work/clone" && mkdir "$work/path" && cd "$work/clone" || return 1
    for folder in $PATH; do
        if [ -e "$folder/rt" ]; then
            ln -s "$folder"/* "$work/path"
            rm "$work/path/rt"
            folder=$work/path
        fi
        path=${path:+$path:}$folder
    done
    PATH=$path
    ! command -v rt
}
path=
if ! clone > "$work/log" 2>&1; then
    tail -n 20 "$work/log"
    echo "0 of 1 checks of the bindings"
    exit 1
fi
top=$PWD
cc=${CC:-cc}
library=$top/bindings/lib/$(uname -m)-linux/libhound_c.a
run=
strict="-O1 -Wall -Wextra -Werror -pedantic -I$top/bindings/c"

# Runs a check with the library, the compiler and the emulator for ARM.
on_arm() {
    cc=aarch64-linux-gnu-gcc
    library=$top/bindings/lib/aarch64-linux/libhound_c.a
    run="qemu-aarch64 -L /usr/aarch64-linux-gnu"
    export CC=$cc HOUND_C_LIB=$top/bindings/lib/aarch64-linux
    "$@"
}

proved() {
    cd bindings/lib && sha256sum --check --strict PROVED && [ "$(find . ../c/hound_c.c -type f ! -name PROVED \
        | wc -l)" = "$(grep -vc '^#' PROVED)" ]
}
symbols() { # NM
    local words wanted
    wanted=$(sed -nE 's/^(int32_t|int64_t|void) (hound_[a-z0-9_]+)\(.*/\2/p' bindings/c/hound.h | sort | xargs)
    for words in "$library" "-D ${library%a}so"; do
        ! "$1" -u $words | awk '$1 == "U" { print $2 }' | grep -vxE 'memcpy|memmove|memset' \
            && [ "$("$1" -g --defined-only $words | awk '$2 == "T" { print $3 }' | sort | xargs)" = "$wanted" ] \
                || return 1
    done
    ! readelf -d "${library%a}so" | grep NEEDED
}
user() { # NAME ARGUMENT.. -- FLAG..
    local name=$1 words=()
    shift
    while [ "$1" != -- ]; do words+=("$1"); shift; done
    shift
    "$cc" $strict "$@" "bindings/tests/$name.c" "$library" -o "$work/$name" \
        && $run "$work/$name" ${words[@]+"${words[@]}"}
}
# Each name in a call of has() in disk.c is a wrong version, and status 1 says that it is found.
wrong_disks() {
    local fault status
    "$cc" $strict bindings/tests/disk.c "$library" -o "$work/disk" \
        && grep -oE 'has\([^;{]*"\)' bindings/tests/disk.c | grep -oE '"[^"]+"' | tr -d '"' \
        | sort -u > "$work/faults" || return 1
    [ "$(wc -l < "$work/faults")" -ge 8 ] || return 1
    while IFS= read -r fault; do
        FAULT=$fault "$work/disk" 1000000
        status=$?
        [ $status -eq 1 ] || { echo "disk.c doesn't find this fault, but ends with $status: $fault"; return 1; }
    done < "$work/faults"
}
wrong_libraries() {
    local call wrap=()
    for call in info version kind beginning walk_next find_damage repair repair_to_end size header sizes \
        recorder_{resume,write,next} repairer_next follower_next {to,from,dither}_f{32,64} f{32_to_f64,64_to_f32} \
        {value,container}_{8,16,24,32} {write,append,encode}_{i16,i32,f32}; do wrap+=("-Wl,--wrap=hound_$call"); done
    "$cc" $strict "${wrap[@]}" bindings/tests/calls.c bindings/tests/wrong.c "$library" -o "$work/wrong" \
        && "$work/wrong" || return 1
    grep -oE 'has\("[^"]+' bindings/tests/wrong.c | cut -d '"' -f 2 | sort -u > "$work/faults"
    while IFS= read -r fault; do
        ! FAULT=$fault "$work/wrong" || { echo "calls.c doesn't find this fault: $fault"; return 1; }
    done < "$work/faults"
}
null_warned() { # COMPILER
    printf '#include "hound.h"\nint main(void) { hound_info_t info; return hound_info(NULL, 0, &info) != HOUND_ENDED; }\n' > "$work/null.c"
    "$1" $strict -c "$work/null.c" -o "$work/null.o" 2>&1 | grep nonnull
}
null_reported() {
    printf '#include "hound.h"\nint main(void) { hound_info_t info; const uint8_t *volatile none = NULL; return hound_info(none, 0, &info) != HOUND_ENDED; }\n' > "$work/null.c"
    "$cc" $strict -fsanitize=undefined "$work/null.c" "$library" -o "$work/null" && "$work/null" 2>&1 \
        | grep 'declared to never be null'
}
uninitialized() {
    "$cc" $strict -g bindings/tests/uninitialized.c "$library" -o "$work/uninitialized" \
        && valgrind -q --error-exitcode=9 "$work/uninitialized" > "$work/file" || return 1
    valgrind -q --error-exitcode=9 "$work/uninitialized" too > "$work/file" 2>&1 \
        # the control: what is read isn't initialized either
    [ $? -eq 9 ]
}
header() {
    local words
    echo '#include "hound.h"' > "$work/header.c"
    "$cc" $strict -std=c99 -fsyntax-only "$work/header.c" bindings/c/repair.c bindings/c/follow.c \
        && "$cc" $strict -std=c11 -fsyntax-only "$work/header.c" || return 1
    printf '#include <stdio.h>\n#include "hound_file.h"\n' > "$work/late.c" \
        # after a header of the system that has chosen what to declare
    for words in -D_XOPEN_SOURCE=700 -D_DEFAULT_SOURCE -D_GNU_SOURCE -std=gnu99;
        do "$cc" $strict -std=c99 $words -fsyntax-only "$work/late.c" || return 1; done
    for words in "" -D_POSIX_C_SOURCE=200809L; do
        ! "$cc" $strict -std=c99 $words -fsyntax-only "$work/late.c" 2> "$work/said" \
            && grep -q '#error.*compile with -D_XOPEN_SOURCE=700' "$work/said" || return 1
    done
}
is_i386() {
    echo '#include <stdint.h>' > "$work/i386.c"
    "$cc" -m32 -fsyntax-only "$work/i386.c" 2> "$work/said" \
        || { echo "bindings: passed over, since libc6-dev-i386 isn't here: the header on i386"; return 1; }
}
on_i386() { "$cc" -m32 $strict -std=c99 -fsyntax-only "$work/header.c" \
    && "$cc" -m32 $strict -std=c11 -fsyntax-only "$work/header.c"; }
header_of_cpp() {
    printf '#include "hound_follow.h"\nint main() { return hound_error_text(0) == 0; }\n' > "$work/header.cpp"
    c++ $strict -std=c++98 -Wno-long-long -fsyntax-only "$work/header.cpp" \
        && c++ $strict -std=c++17 "$work/header.cpp" -o "$work/header"
}
source_of_cpp() {
    local standard
    for standard in c++11 c++20; do
        c++ -O1 -Wall -Wextra -Werror "-std=$standard" -x c++ -c bindings/c/hound_c.c -o "$work/cpp.o" \
            && "$cc" $strict bindings/tests/calls.c "$work/cpp.o" -o "$work/cpp" && "$work/cpp" || return 1
    done
}
installed() { # PREFIX
    local words="-I$1/include -L$1/lib -lhound_c"
    DESTDIR=$1.stage bindings/c/install.sh /usr && mv "$1.stage/usr" "$1" || return 1
    ! command -v pkg-config || words=$(PKG_CONFIG_PATH=$1/lib/pkgconfig pkg-config --cflags --libs "hound >= 0.2") \
        || return 1
    "$cc" $strict bindings/tests/calls.c $words -o "$1.calls" && rm "$1/lib/libhound_c.so" \
        && LD_LIBRARY_PATH=$1/lib $run "$1.calls" \
        && ln -s libhound_c.so.0 "$1/lib/libhound_c.so" && cp -a "$1" "$1.copy" && touch "$1.copy/lib/other" || return 1
    ! command -v dash > /dev/null \
        || { ! dash bindings/c/install.sh "$1" 2> "$1.said" && grep -q "needs bash" "$1.said"; } || return 1
    cmp bindings/c/hound_file.h "$1/include/hound_file.h" && cmp bindings/c/hound_follow.h "$1/include/hound_follow.h" \
        && bindings/c/install.sh --help | grep -q uninstall \
        && bindings/c/install.sh --uninstall "$1.copy" && [ "$(cd "$1.copy" && find . ! -type d)" = ./lib/other ]
}
no_library() {
    export HOUND_C_LIB=$work/none
    one_line() { [ "$(grep -c "none/libhound_c.a isn't there" "$work/said")" = 1 ]; }
    ! bindings/c/install.sh "$work/nowhere" 2> "$work/said" && one_line || return 1
    ! python3 -c "import sys; sys.path.insert(0, 'bindings/python'); import backend; backend.shared_library('$work')" \
        2> "$work/said" && one_line
}
by_source() { HOUND_C_SOURCE=1 installed "$work/source" && page c > "$work/page.c" \
    && "$cc" $strict "$work/page.c" bindings/c/hound_c.c -o "$work/page" && cd "$work" && ./page; }
# Runs a command where /proc/cpuinfo lacks a flag of the processor.
lacking() { # FLAG COMMAND..
    sed "s/\\b$1\\b//" /proc/cpuinfo > "$work/cpuinfo" \
        && unshare -rm sh -c 'mount --bind "$0" /proc/cpuinfo && exec "$@"' "$work/cpuinfo" "${@:2}"
}
has_flags() { grep -q '^flags.*popcnt' /proc/cpuinfo && lacking none true 2> /dev/null \
    || { echo \
        "bindings: passed over, since here is no x86-64, or unshare isn't allowed: a processor before x86-64-v2";
        return 1; }; }
# A compiler for checks of how hound_c.c is built: it takes a sixth of the time of -O3, which by_source tests.
quick_compiler() { printf '#!/bin/sh\nexec %s "$@" -O0\n' "$cc" > "$work/quick" && chmod +x "$work/quick"; }
# Without a compiler only the library that is carried can be installed. An emulated processor runs the other one alone.
old_processor() {
    local flag
    CC=none lacking none bindings/c/install.sh "$work/lacking" || return 1
    for flag in cx16 lahf_lm popcnt sse4_1 sse4_2 ssse3; do
        ! CC=none lacking $flag bindings/c/install.sh "$work/lacking" || return 1
    done
    quick_compiler && CC=$work/quick lacking ssse3 bindings/c/install.sh "$work/lacking" \
        && "$cc" $strict bindings/tests/calls.c "$work/lacking/lib/libhound_c.a" -o "$work/lacking/calls" || return 1
    ! command -v qemu-x86_64 > /dev/null || qemu-x86_64 -cpu core2duo "$work/lacking/calls"
}
takes_version() { # PREFIX VERSION
    rm -rf "$work/cmake.version" && mkdir "$work/cmake.version" \
        && printf 'cmake_minimum_required(VERSION 3.13)\nproject(user C)\nfind_package(hound %s REQUIRED)\n' "$2" > \
            "$work/cmake.version/CMakeLists.txt" \
        && cmake -S "$work/cmake.version" -B "$work/cmake.version/out" -DCMAKE_PREFIX_PATH="$1"
}
by_cmake() {
    local how prefix # from where; without one, from the clone
    quick_compiler && export CC=$work/quick || return 1
    cmake -S bindings/c -B "$work/cmake" -DBUILD_SHARED_LIBS=ON -DCMAKE_INSTALL_PREFIX="$work/cmake.installed" \
        && cmake --build "$work/cmake" --target install \
        && [ -e "$work/cmake.installed/lib/libhound_c.so.0" ] \
            && cmp bindings/c/hound_file.h "$work/cmake.installed/include/hound_file.h" || return 1
    ! takes_version "$work/prefix" 0.1 && ! takes_version "$work/prefix" 0.3 \
        && ! takes_version "$work/prefix" 0.2.99 || return 1
    for prefix in "$work/cmake.installed" "$work/prefix" ""; do
        how='find_package(hound 0.2 REQUIRED)'
        [ -n "$prefix" ] \
            || how=$(printf \
                "include(FetchContent)\nFetchContent_Declare(hound SOURCE_DIR $top SOURCE_SUBDIR bindings/c)\nFetchContent_MakeAvailable(hound)")
        rm -rf "$work/cmake.user" && mkdir "$work/cmake.user" && page c > "$work/cmake.user/tone.c"
        printf 'cmake_minimum_required(VERSION 3.18)\nproject(user C)\n%s\nadd_executable(tone tone.c)\ntarget_link_libraries(tone hound::hound_c)\n' "$how" > "$work/cmake.user/CMakeLists.txt"
        cmake -S "$work/cmake.user" -B "$work/cmake.user/out" -DCMAKE_PREFIX_PATH="$prefix" \
            && cmake --build "$work/cmake.user/out" && (cd "$work" && cmake.user/out/tone) || return 1
    done
}
python_by_source() { HOUND_C_LIBRARY=$work/source/lib/libhound_c.so python_tests files floats; }
# The modules of the Cargo package hound are the proved text, and a copy with another word isn't.
erased() {
    scripts/erase.py --check && scripts/check_erased.py && cp -r bindings/hound/src/proved "$work/proved" \
        && sed -i '0,/may_have_moved = true/s//may_have_moved = false/' "$work/proved/writer/output.rs" \
        && ! scripts/check_erased.py "$work/proved"
}
cargo_packaged() { # and documented, without a warning
    local words="--offline --manifest-path bindings/hound/Cargo.toml --target-dir $work/target.packaged"
    cargo package -q $words && RUSTDOCFLAGS=-Dwarnings cargo doc -q --no-deps $words
}
page_of_c() {
    page c > "$work/page.c" && "$cc" $strict "$work/page.c" "$library" -o "$work/page" \
        && (cd "$work" && $run ./page) || return 1
    page c README.md > "$work/readme.c" && "$cc" $strict "$work/readme.c" "$library" -o "$work/readme" \
        && rm -f "$work/take.wav" && (cd "$work" && $run ./readme) && cmp "$work/take.wav" "$work/four.wav"
}
# What README's programs leave, by another program's words: the header of 48 kHz stereo of 16 bits, and four samples.
four_samples() { printf \
    'RIFF\54\0\0\0WAVEfmt \20\0\0\0\1\0\2\0\200\273\0\0\0\356\2\0\4\0\20\0data\10\0\0\0\2\0\375\377\5\0\371\377' > \
    "$work/four.wav"; }
four_samples
python_installed() {
    [ ! -e "${library%a}so" ] || export CC=none # and no compiler
    "$(python_with_numpy)" -m venv --system-site-packages "$work/venv" \
        && $offline "$python" -m pip install -q --no-index --disable-pip-version-check \
            "git+file://$top#subdirectory=bindings/python"
}
python_tests() { local name; for name in "$@";
    do "$python" "bindings/python/tests/test_$name.py" -v || return 1; done; }
command_installed() { [ -s "$work/venv/share/man/man1/hound-wav.1" ] \
    && [ "$("$work/venv/bin/hound-wav" --version)" = \
        "hound-wav $("$python" -c 'import hound_bindings as hound; print(hound.__version__)')" ]; }
python_types() { cd bindings/python \
    && MYPYPATH=. mypy --strict --cache-dir "$work/mypy" hound_bindings tests/types_of_users.py; }
python_systems() { "$python" bindings/python/tests/test_windows.py && "$python" bindings/python/tests/test_backend.py; }
python_faults() { "$python" bindings/tests/python_faults.py 20 short; }
parts() { "$python" bindings/tests/parts.py 3 short; }
followed() { "$python" bindings/tests/follow.py 26 1000; }
examples() {
    local name
    for name in cat follow read record repair; do
        "$cc" $strict "bindings/c/$name.c" "$library" -o "$work/$name" || return 1
    done
}
rows() { "$python" bindings/tests/rows.py "$work/cat" "$work/record"; }
cargo_tests() { cargo test -q --offline --manifest-path bindings/hound/Cargo.toml --target-dir "$work/target"; }
# The first cargo that builds for a target.
cargo_of() { # TARGET WHAT
    local cargo
    for cargo in $(type -ap cargo); do
        [ ! -d "$("${cargo%cargo}rustc" --print target-libdir --target "$1" 2> /dev/null)" ] \
            || { echo "$cargo"; return; }
    done
    echo "bindings: passed over, since a cargo that builds for $1 isn't here: $2" >&2
    return 1
}
# Where usize has 32 bits the machines and slices of the Cargo package hound do what their tests say, and a program over
# its readers and writers answers the same as here.
cargo_in_32_bits() { # CARGO
    export RUSTC=${1%cargo}rustc CARGO_TARGET_WASM32_WASI_RUNNER="node --no-warnings $work/wasi.mjs"
    cat > "$work/wasi.mjs" << 'END'
import { readFile } from "node:fs/promises";
import { WASI } from "node:wasi";
const wasi = new WASI({ version: "preview1", returnOnExit: true });
const imports = { wasi_snapshot_preview1: wasi.wasiImport };
const { instance } = await WebAssembly.instantiate(await readFile(process.argv[2]), imports);
process.exitCode = wasi.start(instance);
END
    "$1" test -q --offline --target wasm32-wasi --test machines --test slices --target-dir "$work/target.wasi" \
        --manifest-path bindings/hound/Cargo.toml \
        && "$1" new -q --vcs none "$work/narrow" && cp bindings/tests/narrow.rs "$work/narrow/src/main.rs" \
        && printf 'hound = { path = "%s/bindings/hound" }\n' "$top" >> "$work/narrow/Cargo.toml" \
        && cd "$work/narrow" && "$1" run -q --offline > native \
        && "$1" run -q --offline --target wasm32-wasi > narrow && cmp native narrow
}
cargo_for() { # CARGO TARGET
    local words="--offline --target $2 --manifest-path bindings/hound/Cargo.toml --target-dir $work/target.reach"
    export RUSTC=${1%cargo}rustc
    "$1" build -q $words && "$1" build -q --no-default-features $words
}
# A program over the machines and slices alone, which has no std.
program_without_std() {
    mkdir -p "$work/nostd/src" && cp bindings/tests/nostd.rs "$work/nostd/src/lib.rs" && cd "$work/nostd" || return 1
    cat > Cargo.toml << END
[package]
name = "nostd"
version = "0.1.0"
edition = "2021"
rust-version = "1.63"
[lib]
crate-type = ["staticlib", "cdylib"]
[dependencies]
hound = { path = "$top/bindings/hound", default-features = false }
[profile.release]
panic = "abort"
lto = true
overflow-checks = true
debug-assertions = true
END
    printf '#include <stdint.h>\n#include <stdio.h>\nuint64_t hound_answer(void);\nint main(void) { return printf("%%016llx\\n", (unsigned long long)hound_answer()) != 17; }\n' > main.c
    cargo build -q --offline --release --target-dir target && "$cc" main.c target/release/libnostd.a -o main \
        && timeout 60 ./main > here
}
cargo_without_std() {
    cargo test -q --offline --no-default-features --target-dir "$work/target" \
        --manifest-path bindings/hound/Cargo.toml && program_without_std
}
# The same answer in WebAssembly.
wasm_without_std() { # CARGO
    cd "$work/nostd" && RUSTC=${1%cargo}rustc "$1" build -q --offline --release --target wasm32-unknown-unknown \
        --target-dir target && timeout 60 node --input-type=module -e \
            'import { readFile } from "node:fs/promises"; const { instance } = await WebAssembly.instantiate(await readFile(process.argv[1])); console.log(BigInt.asUintN(64, instance.exports.hound_answer()).toString(16).padStart(16, "0"));' \
            target/wasm32-unknown-unknown/release/nostd.wasm > there && cmp here there
}
# Wine ends programs that trace a panic, as Rust does of one within another.
cargo_on_windows() { # CARGO
    export RUSTC=${1%cargo}rustc RUST_BACKTRACE=0 WINEDEBUG=-all WINEPREFIX=$work/wine
    export CARGO_TARGET_X86_64_PC_WINDOWS_GNU_LINKER=x86_64-w64-mingw32-gcc \
        CARGO_TARGET_X86_64_PC_WINDOWS_GNU_RUNNER=wine
    "$1" test -q --offline --target x86_64-pc-windows-gnu --tests --manifest-path bindings/hound/Cargo.toml \
        --target-dir "$work/target.windows" -- --skip a_medium_that_panics_always_ends_no_program
}
user_of_hound() { # a program written for hound
    export CARGO_HOME=$work/cargo
    cargo new -q --vcs none "$work/tick" && cp bindings/tests/dropin/programs/metronome.rs "$work/tick/src/main.rs" \
        && cd "$work/tick" \
        && $offline cargo add -q --git "file://$top" hound && $offline cargo run -q tick.wav 120 4 \
            && [ "$(wc -c < tick.wav)" = $((44 + 4 * 22050 * 4)) ] || return 1
    mkdir -p src/bin && (cd "$top" && page rust README.md) > src/bin/readme.rs \
        && [ "$($offline cargo run -q --bin readme)" = "[2, -3, 5, -7]" ] && cmp take.wav "$work/four.wav"
}
vendored() { # the same program, with the sources of the crate alone
    export CARGO_HOME=$work/cargo
    cd "$work/tick" && rm tick.wav && mkdir .cargo && cargo vendor vendor > .cargo/config.toml \
        && $offline cargo run -q --target-dir "$work/target.vendored" --bin tick tick.wav 120 4 \
        && [ "$(wc -c < tick.wav)" = $((44 + 4 * 22050 * 4)) ]
}
with_package() { HOUND_C_LIBRARY=$work/prefix/lib/libhound_c.so PYTHONPATH=bindings/python python3 "$@";
    } # as it is here
quick_rows() { with_package bindings/tests/rows.py "$work/cat" "$work/record"; }
is_node_20() { node -e 'process.exit(parseInt(process.versions.node) >= 20 ? 0 : 1)'; }
js_tests() { node --test bindings/js/tests/*.test.js; }
js_types() {
    local words="--strict --noEmit --target es2022 --module nodenext --moduleResolution nodenext"
    cd bindings/js/tests && tsc $words types.mts && tsc $words --lib es2022 plain.mts
}
js_packed() {
    mkdir "$work/js" && (cd bindings/js && npm pack --silent --pack-destination "$work") && git diff --exit-code \
        && [ -z "$(git status --short)" ] && cd "$work/js" \
        && $offline npm install --silent --offline --no-audit --no-fund "$work"/hound_bindings-*.tgz \
        && cmp "$top/bindings/js/page/record.html" node_modules/hound_bindings/page/record.html && js_required
}
js_required() { # by programs without modules, by its command, and by the declarations that each resolution finds
    node -e 'require("hound_bindings").write(Int16Array.of(1), { sampleRate: 8000 }).then((file) => fs.writeFileSync("one.wav", file))' \
        && [ "$(npx --offline hound_bindings info one.wav)" = \
            "one.wav: whole, 1 frame (0.000 s), 8000 Hz, 1 channel, integers of 16 bits" ] || return 1
    ! command -v tsc > /dev/null || { cp "$top/bindings/js/tests/required.cts" . \
        && tsc --strict --noEmit --target es2022 --module nodenext --moduleResolution nodenext required.cts \
        && tsc --strict --noEmit --target es2022 --module commonjs --moduleResolution node required.cts; }
}
js_linked() { # what a server needs is next to hound.js, and nothing that git sees
    mkdir "$work/linked" \
        && (cd "$work/linked" && $offline npm install --silent --offline --no-audit --no-fund "$top/bindings/js") \
        && cmp bindings/lib/hound_c32.wasm "$work/linked/node_modules/hound_bindings/hound_c32.wasm" \
            && [ -z "$(git status --short)" ]
}
js_bundled() { # for browsers: with nothing of Node, and with hound_c32.wasm next to the bundle, be that a module or not
    local folder format
    for folder in js linked; do for format in esm iife; do
        cd "$work/$folder" && printf 'import * as hound from "hound_bindings";\nglobalThis.hound = hound;\n' > all.mjs \
            && esbuild --log-level=error --bundle --format=$format all.mjs --outfile=bundle/$format.mjs \
                && ! grep -q node: bundle/$format.mjs && cp node_modules/hound_bindings/hound_c32.wasm bundle \
            && node --input-type=module -e \
                'import { readFile } from "node:fs/promises"; globalThis.fetch = async (url) => new Response(await readFile(url)); globalThis.document = { currentScript: { src: "file://" + process.argv[1] } }; await import(process.argv[1]); const file = await hound.write(Int16Array.of(7), { sampleRate: 8000 }); process.exitCode = (await hound.read(file))[0] === 7 ? 0 : 1' \
                "$PWD/bundle/$format.mjs" || return 1
    done; done
}
# The answers of this processor's library, which rows.py compares with the model; and whether another's are the same.
answers() {
    python3 bindings/tests/requests.py > "$work/requests" && user answer -- < "$work/requests" > "$work/answers" \
        && [ "$(grep -v '^memory' "$work/requests" | paste -d ' ' - "$work/answers" | sed '/^value/d' \
            | awk '{ print $(NF - 1) }' | grep -e - | sort -u | wc -l)" = 31 ]
}
node_package() { node bindings/tests/package.mjs < "$work/requests"; }
same_answers() { "$@" < "$work/requests" | cmp - "$work/answers"; }
# The whole library of the proved text without its contracts, built by cargo with overflow checks, does what the other
# one does, and its wrong versions don't.
erased_library() {
    local wrong
    bindings/tests/erased.py "$work/erased" && library=$work/erased/libhound_c.a || return 1
    user calls -- && user hostile 20000 -- && user disk 30000 -- && same_answers user answer -- && examples \
        && HOUND_C_LIBRARY=$work/erased/libhound_c.so PYTHONPATH=bindings/python python3 bindings/tests/rows.py \
            "$work/cat" "$work/record" || return 1
    bindings/tests/erased.py --wrong > "$work/faults" && [ "$(wc -l < "$work/faults")" -ge 5 ] || return 1
    while IFS= read -r wrong; do
        rm -rf "$work/erased.wrong" && bindings/tests/erased.py "$work/erased.wrong" "$wrong" || return 1
        library=$work/erased.wrong/libhound_c.a
        ! same_answers user answer -- || { echo "no answer is another one with: $wrong"; return 1; }
    done < "$work/faults"
}
takes_wasm64() { node "$@" -e \
    'process.exit(WebAssembly.validate(new Uint8Array([0, 97, 115, 109, 1, 0, 0, 0, 5, 3, 1, 4, 1])) ? 0 : 1)' > \
    /dev/null 2>&1; }

python=$work/venv/bin/python
check "bindings/lib is what its PROVED says" proved
has nm "the library's symbols" \
    && check "exactly the functions of the header are exported, and none but memcpy, memmove and memset undefined" \
        symbols nm
if has "$cc" "the users in C"; then
    check "the headers are C99, and hound.h C11" header
    is_i386 && check "the header has its layout on i386" on_i386
    check "each call from C" user calls --
    check "hostile files" user hostile 300000 --
    check "hound_file.h over a file that was opened to append, unknown effects, without descriptors, and as floats" user \
        descriptors "$work/descriptors.wav" --
    check "calls.c finds each wrong library of wrong.c" wrong_libraries
    check "300,000 recordings over a simulated disk, with killed processes, faults and power failures" user disk 300000 --
    check "disk.c finds each of its wrong versions" wrong_disks
    check "$cc warns of a NULL" null_warned "$cc"
    has clang "its warning of a NULL" && check "clang warns of a NULL" null_warned clang
    has valgrind "memory that is only written" \
        && check "memory that is only written needn't be initialized, by valgrind" uninitialized
    if echo 'int main(void) { return 0; }' > "$work/empty.c" \
        && "$cc" -fsanitize=address,undefined "$work/empty.c" -o "$work/empty" 2> /dev/null && "$work/empty"; then
        check "each call from C, with sanitizers" user calls -- -fsanitize=address,undefined -fno-sanitize-recover=all
        check "hostile files, with sanitizers" user hostile 30000 -- -fsanitize=address,undefined \
            -fno-sanitize-recover=all
        check "recordings over a simulated disk, with sanitizers" user disk 30000 -- -fsanitize=address,undefined \
            -fno-sanitize-recover=all
        check "sanitizers report a NULL" null_reported
    else
        echo "bindings: passed over, since $cc has no sanitizers here: the users in C with them"
    fi
    check "the installed library and its shared form, moved and removed" installed "$work/prefix"
    check "the library that is installed from hound_c.c, and the C program with that file" by_source
    has_flags && check "on x86-64 before v2 the library is compiled from hound_c.c" old_processor
    has cmake "the library in CMake" \
        && check "CMake finds the libraries that it and bindings/c/install.sh installed, and builds the one of a clone" by_cmake
    check "the examples cat.c, follow.c, read.c, record.c and repair.c" examples
fi
if has c++ "the headers and hound_c.c in C++"; then
    check "the headers are C++98 and C++17" header_of_cpp
    check "hound_c.c is C++11 and C++20, and each call from C works with it" source_of_cpp
fi
has python3 "what the packages have of hound.h" \
    && check "the packages have the errors, structs, constants and the version of hound.h" scripts/make_interface.py \
        --check
if has python3 "the Python package" && has "$cc" "the Python package"; then
    has mypy "the types of the Python package (Debian: mypy)" \
        && check "the types of the Python package, by mypy" python_types
    check "where HOUND_C_LIB has no library, a line says so" no_library
    if python3 -c 'import ensurepip, venv' 2> /dev/null; then
        check "pip installs the Python package from a clone, here without a C compiler" python_installed
        check "the tests of the Python package" python_tests files streams resuming following floats command serving
        check "pip installs the command hound-wav, and its page for man" command_installed
        check "those of files and floats over the library that is compiled from hound_c.c" python_by_source
        has sox "guesses of lost headers" && is_node_20 \
            && check "both packages guess the same of files whose header is lost" "$python" bindings/tests/guesses.py
        check "the tests with what Python has on Windows, and what pip builds on other systems" python_systems
        has strace "killed Python programs, and failing calls of theirs" \
            && check "killed Python programs, and failing calls of theirs" python_faults
        check "killed split recordings, by hound-wav, Python, C, Node and Cargo" parts
        check "killed recordings that are followed meanwhile, by C, Python, hound-wav, Node and Cargo, and wrong followers" followed
        check "files of hound_rows, cut files and each code, compared with the model, through cat.c and by record.c" rows
    else
        echo "bindings: passed over, since this Python has no ensurepip: pip"
        check "files of hound_rows, cut files and each code, compared with the model, through cat.c and by record.c" quick_rows
    fi
    check "each row of the tables of PROVING has a case, and the library does what the row says" \
        with_package bindings/tests/tables.py
    has strace "record.c at the edges of a recording" \
        && check "record.c at the edges of a recording, and its wrong versions" python3 bindings/tests/recorder.py
    check "killed recorders that start again with the same file, by record.c and Node" python3 bindings/tests/starts.py 20
    has strace "repair.c" \
        && check "files cut at each byte by repair.c, which is killed, fails and loses its power, and its wrong versions" with_package bindings/tests/repairs.py short
    has strace "repair_file" && has cargo "repair_file" \
        && check "the same by repair_file of the Cargo package hound" with_package bindings/tests/repairs.py cargo short
fi
if has cargo "the Cargo package hound"; then
    check "the tests of the Cargo package hound" cargo_tests
    check "Cargo packages and documents it" cargo_packaged
    has rustfmt "the modules of the Cargo package hound" \
        && check "the modules of the Cargo package hound are the proved text without its contracts" erased
    if has wine "hound on Windows" && has x86_64-w64-mingw32-gcc "hound on Windows" \
        && cargo=$(cargo_of x86_64-pc-windows-gnu "hound on Windows (Debian: libstd-rust-dev-windows)"); then
        check "the tests of the Cargo package hound on Windows" cargo_on_windows "$cargo"
    fi
    if has node "hound in 32 bits" \
        && cargo=$(cargo_of wasm32-wasi "hound in 32 bits (Debian: libstd-rust-dev-wasm32)"); then
        check "a program over the Cargo package hound, and its machines and slices, where usize has 32 bits" \
            cargo_in_32_bits "$cargo"
    fi
    for target in wasm32-unknown-unknown wasm32-wasi x86_64-pc-windows-gnu; do
        ! cargo=$(cargo_of $target "hound for it (Debian: libstd-rust-dev-wasm32, libstd-rust-dev-windows)") \
            || check "the Cargo package hound is built for $target, with std and without" cargo_for "$cargo" $target
    done
    if has "$cc" "hound without std"; then
        check "the machines and slices of the Cargo package hound without std" cargo_without_std
        has node "hound without std in WebAssembly" \
            && cargo=$(cargo_of wasm32-unknown-unknown "hound without std in WebAssembly") \
            && check "they answer the same in WebAssembly, where usize has 32 bits" wasm_without_std "$cargo"
    fi
    check "a program written for hound, which adds that package from a clone" user_of_hound
    check "the same after cargo vendor" vendored
fi
has python3 "that the pages are made" \
    && check "the pages are what their script makes of the package and the module" bindings/js/page/make.py --check
if ! has node "the JavaScript package"; then :
elif ! is_node_20; then
    echo "bindings: passed over, since this node is older than 20: the JavaScript package"
else
    check "the tests of the JavaScript package" js_tests
    has tsc "its declarations (Debian: node-typescript)" \
        && check "the declarations of the JavaScript package, by tsc" js_types
    if has npm "npm pack"; then
        check "npm installs the packed JavaScript package, with its command, for import and require" js_packed
        check "npm links a folder, which has all that a server needs" js_linked
        has esbuild "the JavaScript package in a bundle" \
            && check "esbuild bundles the packed package and the linked folder for browsers" js_bundled
    fi
    browsers=
    for browser in chromium firefox-esr; do has "$browser" "the pages in it" && browsers="$browsers $browser"; done
    [ -z "$browsers" ] || check "hound.html in$browsers" scripts/try_browser.mjs
    [ -z "$browsers" ] || check "record.html in$browsers, which are killed while it records" scripts/try_recording.mjs
fi
if has python3 "the libraries of other processors" && has "$cc" "the libraries of other processors"; then
    check "each code among the answers to requests.py" answers
    has cargo "the library of the proved text" && has rustfmt "the library of the proved text" \
        && check "the whole proved text without its contracts, by cargo, does what the library does, and answers the same" \
            erased_library
    if has aarch64-linux-gnu-gcc "ARM (Debian: gcc-aarch64-linux-gnu)" && has qemu-aarch64 "ARM (Debian: qemu-user)" \
        && has_libc_of_arm; then
        check "the symbols of the library for ARM" on_arm symbols aarch64-linux-gnu-nm
        check "each call from C on ARM" on_arm user calls --
        check "hostile files on ARM" on_arm user hostile 30000 --
        check "30,000 recordings over a simulated disk on ARM" on_arm user disk 30000 --
        check "the installed library and its shared form on ARM" on_arm installed "$work/arm"
        check "the C program of docs/BINDINGS.md on ARM" on_arm page_of_c
        check "the answers on ARM are the same" same_answers on_arm user answer --
    fi
    if has node "WebAssembly"; then
        is_node_20 && check "the JavaScript package, by parts, gives what the exports give over whole files" \
            node_package
        check "the answers in WebAssembly with a memory of 32 bits are the same" same_answers node \
            bindings/tests/answer.js bindings/lib/hound_c32.wasm
        flag=
        takes_wasm64 || flag=--experimental-wasm-memory64
        if takes_wasm64 $flag; then
            check "the answers in WebAssembly with a memory of 64 bits are the same" same_answers node $flag \
                bindings/tests/answer.js bindings/lib/hound_c.wasm
        else
            echo "bindings: passed over, since this node has no memory of 64 bits: the WebAssembly module for it"
        fi
    fi
fi
echo "$passed of $tried checks of the bindings"
[ "$passed" -eq "$tried" ]
