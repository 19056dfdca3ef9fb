#!/usr/bin/env bash
# Makes what is downloaded, in a new folder, of what is committed: the Python wheel of this processor and the sdist, the
# npm package, the crate, an archive for C, both pages, and the sums of all. It makes each twice, and the sums have
# to be the same. Then it installs each in a fresh place without network, and runs the programs of docs/BINDINGS.md. The
# folder is there only if all of that works; else the status is 1, and the last line names what failed.
#   scripts/release.sh FOLDER    (needs a C compiler, CMake, pkg-config, Python with venv, a recent cargo, npm; no kit)
set -u -o pipefail
[ $# -eq 1 ] || { sed -n 6p "$0" >&2; exit 2; }
folder=$(realpath -m -- "$1")
cd "$(dirname "$0")/.."
if [ -n "$(git status --porcelain)" ]; then
    echo "release: there are changes that aren't committed" >&2
    exit 1
fi
. scripts/bindings.sh
export LC_ALL=C
umask 022
version=$(sed -n 's/^#define HOUND_VERSION "\(.*\)"$/\1/p' bindings/c/hound.h)
epoch=$(git log -1 --format=%ct)
cc=${CC:-cc}
mkdir "$folder" || exit 1
work=$(mktemp -d)
trap 'rm -rf "$work"; rmdir "$folder" 2> /dev/null' EXIT
out=$work/1/out

# Runs a command in a shell that ends at the first failure; then the release ends, too. In the condition of an `if`
# the shell would ignore failures.
step() { # WHAT COMMAND..
    (set -e; "${@:2}") > "$work/log" 2>&1
    if [ $? -ne 0 ]; then
        tail -n 20 "$work/log" >&2
        echo "release: FAILED: $1" >&2
        exit 1
    fi
    echo "release: $1"
}

# Writes the archive of a folder.
pack() { # FOLDER OUT
    tar --create --sort=name --format=ustar --mtime="@$epoch" --owner=0 --group=0 --numeric-owner \
        --mode=u=rwX,go=rX --directory "$(dirname "$1")" "$(basename "$1")" | gzip -9n > "$2/$(basename "$1").tar.gz"
}

make_python() { # OUT
    PYTHONPATH=bindings/python python3 -c \
        'import backend, sys; backend.build_wheel(sys.argv[1]); backend.build_sdist(sys.argv[1])' "$1"
}
make_npm() { # OUT
    cd bindings/js
    npm pack --silent --pack-destination "$1"
}
make_crate() { # OUT
    cp LICENSE bindings/hound
    cargo package -q --offline --no-verify --exclude-lockfile --target-dir target \
        --manifest-path bindings/hound/Cargo.toml
    cp target/package/*.crate "$1"
}
make_c() { # OUT
    local folder=hound-c-$version
    mkdir -p "$folder/bindings"
    cp LICENSE "$folder"
    cp -r bindings/c bindings/lib "$folder/bindings"
    rm "$folder"/bindings/lib/*.wasm
    pack "$folder" "$1"
}
make_page() { # OUT
    bindings/js/page/make.py --check
    cp bindings/js/page/{hound,record}.html "$1"
}

# Makes all in FOLDER/out, each from a copy of its own of what is committed.
make_all() { # FOLDER
    local part
    mkdir -p "$1/out"
    for part in python npm crate c page; do
        mkdir "$1/$part"
        git archive HEAD | tar --extract --directory "$1/$part"
        (cd "$1/$part"; "make_$part" "$1/out")
    done
    cd "$1/out"
    sha256sum -- * > "$1/sums"
    mv "$1/sums" SHA256SUMS
}
same_sums() { cmp "$out/SHA256SUMS" "$work/2/out/SHA256SUMS"; }
has_sums() { # FOLDER SUMS
    cd "$1"
    sha256sum --check --strict "$2"
}

# Begins a fresh place in a new folder of that name.
fresh() { # NAME
    mkdir "$work/$1"
    cd "$work/$1"
}
python_package() { # NAME ARCHIVE
    fresh "$1"
    python3 -m venv venv
    $offline venv/bin/python -m pip install -q --no-index --no-cache-dir --disable-pip-version-check "$2"
    venv/bin/python "$work/page.python"
}
javascript_package() {
    fresh javascript_package
    $offline npm install --silent --offline --no-audit --no-fund "$out/hound_bindings-$version.tgz"
    cp "$work/page.js" page.mjs
    node page.mjs
}
# The crate, unpacked, instead of that of crates.io; the page's program, and one that was written for hound.
rust_crate() {
    fresh rust_crate
    tar -xzf "$out"/*.crate
    export CARGO_HOME=$PWD/home
    cargo new -q --vcs none user
    cat >> user/Cargo.toml << END
hound = "3.5.1"
[patch.crates-io]
hound = { path = "../$(echo hound-3*)" }
END
    mkdir user/src/bin
    cp "$work/page.rust" user/src/bin/page.rs
    cp "$work/metronome.rs" user/src/bin
    cd user
    $offline cargo run -q --offline --bin page
    $offline cargo run -q --offline --bin metronome tick.wav 120 4
    [ "$(wc -c < tick.wav)" = $((44 + 4 * 22050 * 4)) ]
}
unpacked() { # NAME
    fresh "$1"
    tar -xzf "$out/hound-c-$version.tar.gz"
    cd "hound-c-$version"
    cp "$work/page.c" tone.c
}
c_installed() { # NAME
    unpacked "$1"
    bindings/c/install.sh "$work/$1/prefix"
    "$cc" tone.c $(PKG_CONFIG_PATH=$work/$1/prefix/lib/pkgconfig pkg-config --cflags --libs hound) -o tone
    LD_LIBRARY_PATH=$work/$1/prefix/lib ./tone
}
# The lines of the page and of the programs' comments.
c_by_a_line() {
    local program
    unpacked c_by_a_line
    "$cc" -Ibindings/c tone.c "bindings/lib/$(uname -m)-linux/libhound_c.a" -o tone
    ./tone
    "$cc" -O3 -c bindings/c/hound_c.c
    "$cc" -Ibindings/c tone.c hound_c.o -o tone
    ./tone
    for program in cat follow read record repair; do
        "$cc" -Ibindings/c "bindings/c/$program.c" "bindings/lib/$(uname -m)-linux/libhound_c.a" -o "$program"
    done
    head -c 4000 /dev/zero | ./record take.wav 48000 2 16 500
    ./repair take.wav
    ./cat < take.wav | cmp - <(head -c 4000 /dev/zero)
    ./follow take.wav | cmp - <(head -c 4000 /dev/zero)
}
c_by_cmake() { # NAME HOW
    unpacked "$1"
    cmake -S bindings/c -B out -DCMAKE_INSTALL_PREFIX="$PWD/prefix"
    cmake --build out --target install
    mkdir user
    mv tone.c user
    cat > user/CMakeLists.txt << END
cmake_minimum_required(VERSION 3.18)
project(user C)
$2
add_executable(tone tone.c)
target_link_libraries(tone hound::hound_c)
END
    cmake -S user -B user/out -DCMAKE_PREFIX_PATH="$PWD/prefix"
    cmake --build user/out
    user/out/tone
}

step "bindings/lib is what its PROVED says" has_sums bindings/lib PROVED
step "all packages, the archive for C and the pages are made" make_all "$work/1"
step "they are made again" make_all "$work/2"
step "both times they have the same sums" same_sums
for language in c python rust js; do page "$language" > "$work/page.$language"; done
cp bindings/tests/dropin/programs/metronome.rs "$work"
sdist=$out/hound_bindings-$version.tar.gz
step "pip installs the wheel, and the Python program runs" python_package wheel "$out"/*.whl
step "the same of the sdist" python_package sdist "$sdist"
HOUND_C_SOURCE=1 step "the same of the sdist, over hound_c.c" python_package sdist_by_source "$sdist"
step "npm installs its package, and the JavaScript program runs" javascript_package
step "cargo builds the crate, and the Rust program and one that was written for hound run" rust_crate
step "the archive for C is installed, and the C program runs" c_installed c_installed
HOUND_C_SOURCE=1 step "the same of the archive for C, over hound_c.c" c_installed c_by_source
step "one line builds each program in C" c_by_a_line
step "CMake finds what it has installed" c_by_cmake c_by_find_package "find_package(hound $version REQUIRED)"
step "CMake fetches the archive for C" c_by_cmake c_by_fetch_content "include(FetchContent)
FetchContent_Declare(hound URL $out/hound-c-$version.tar.gz SOURCE_SUBDIR bindings/c)
FetchContent_MakeAvailable(hound)"
step "the sums are those of the files" has_sums "$out" SHA256SUMS
mv -T "$out" "$folder" || exit 1
echo "release: $version is in $folder: $(git rev-parse HEAD)"
