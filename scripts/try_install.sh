#!/usr/bin/env bash
# Follows each install line of README.md and docs/BINDINGS.md as a reader does: in an empty folder next to a fresh
# clone, by that page's words, and without network where unshare is allowed. Then the page's program has to run there,
# and git has to find the clone as it was. What a line needs and isn't here is named and passed over. It writes a line
# for each install, and last 'N of N installs work'. What the packages do after that is tried by
# scripts/try_bindings.sh, and the other programs and commands of the pages are run by scripts/run_docs.py.
#   scripts/try_install.sh
set -u
cd "$(dirname "$0")/.."
work=$(mktemp -d)
trap 'rm -rf "$work"' EXIT
. scripts/bindings.sh
clone=$work/hound
if ! clone_to "$clone" > "$work/log" 2>&1; then
    tail -n 20 "$work/log"
    echo "0 of 1 installs work"
    exit 1
fi
readme=$clone/README.md
manual=$clone/docs/BINDINGS.md
export CARGO_HOME=$work/cargo PIPX_HOME=$work/pipx PIPX_BIN_DIR=$work/bin

# Runs a check in an empty folder; it may not change the clone.
install() { # WHAT COMMAND..
    check "$1" in_empty_folder "${@:2}"
}
in_empty_folder() {
    cd "$(mktemp -d -p "$work")" && "$@" && [ -z "$(git -C "$clone" status --short)" ]
}

# Runs words that a page has, where CLONE is the clone.
as_written() { # PAGE WORDS
    grep -qF -- "$2" "$1" || { echo "${1#"$clone/"} doesn't have: $2"; return 1; }
    $offline bash -c "${2//CLONE/$clone}"
}

by_pip() {
    as_written "$readme" "python3 -m venv env" && PATH=$PWD/env/bin:$PATH \
        && as_written "$readme" "pip install CLONE/bindings/python" \
        && page python "$readme" > take.py && [ "$(python take.py)" = "array('h', [2, -3, 5, -7])" ]
}
by_pip_of_env() {
    as_written "$manual" "python3 -m venv env && env/bin/pip install CLONE/bindings/python" \
        && page python "$manual" > tone.py && env/bin/python tone.py
}
by_pipx() { as_written "$readme" "pipx install CLONE/bindings/python" && "$work/bin/hound-wav" --version; }
by_cargo_add() {
    cargo init -q --vcs none --name user \
        && as_written "$manual" "cargo add --git file://CLONE hound" \
        && page rust "$manual" > src/main.rs && $offline cargo run -q
}
# The published hound is neither here nor reached, so the clone has to be in its place. Cargo fetched that for the check
# before. With --offline it doesn't ask crates.io whether a newer one is there.
by_patch() {
    local line='hound = { git = "file://CLONE" }'
    cargo init -q --vcs none --name user && grep -qF "$line" "$readme" && grep -qF "$line" "$manual" || return 1
    printf 'hound = "3.5"\n\n[patch.crates-io]\n%s\n' "${line/CLONE/$clone}" >> Cargo.toml
    page rust "$readme" > src/main.rs && has_samples || return 1
    cat > Cargo.lock << END
version = 4
[[package]]
name = "user"
version = "0.1.0"
dependencies = ["hound"]
[[package]]
name = "hound"
version = "3.5.1"
source = "registry+https://github.com/rust-lang/crates.io-index"
checksum = "$(printf 0 | sha256sum | cut -d ' ' -f 1)"
END
    ! has_samples && CARGO_NET_OFFLINE=true as_written "$readme" "cargo update -p hound" && has_samples
}
has_samples() { [ "$($offline cargo run -q --offline)" = "[2, -3, 5, -7]" ]; }
by_cc() {
    local library=CLONE/bindings/lib/x86_64-linux/libhound_c.a
    page c "$readme" > mine.c && as_written "$readme" "cc -ICLONE/bindings/c mine.c $library" && ./a.out || return 1
    page c "$manual" > tone.c && as_written "$manual" "cc -ICLONE/bindings/c tone.c $library -o tone && ./tone"
}
by_source() {
    as_written "$manual" "cc -O3 -c CLONE/bindings/c/hound_c.c" \
        && page c "$manual" > tone.c && cc "-I$clone/bindings/c" tone.c hound_c.o -o tone && ./tone
}
# A program that CMake builds with hound::hound_c, which these lines find.
cmake_user() { # LINES WORD..
    page c "$manual" > tone.c
    printf '%s\n' "cmake_minimum_required(VERSION 3.18)" "project(user C)" "$1" \
        "add_executable(tone tone.c)" "target_link_libraries(tone hound::hound_c)" > CMakeLists.txt
    $offline cmake -S . -B out "${@:2}" && cmake --build out && out/tone
}
by_install() {
    "$clone/bindings/c/install.sh" "$PWD/prefix" \
        && cmake_user "find_package(hound REQUIRED)" "-DCMAKE_PREFIX_PATH=$PWD/prefix"
}
by_pkg_config() {
    export PKG_CONFIG_PATH=prefix/lib/pkgconfig LD_LIBRARY_PATH=prefix/lib
    "$clone/bindings/c/install.sh" "$PWD/prefix" && page c "$manual" > tone.c \
        && cc tone.c $(pkg-config --cflags --libs hound) -o tone && ./tone
}
by_cmake_install() {
    cmake -S "$clone/bindings/c" -B library && cmake --build library \
        && cmake --install library --prefix "$PWD/prefix" \
        && cmake_user "find_package(hound REQUIRED)" "-DCMAKE_PREFIX_PATH=$PWD/prefix"
}
by_fetch_content() {
    cmake_user "include(FetchContent)
FetchContent_Declare(hound GIT_REPOSITORY file://$clone GIT_TAG HEAD SOURCE_SUBDIR bindings/c)
FetchContent_MakeAvailable(hound)"
}
by_npm() {
    as_written "$readme" "npm install CLONE/bindings/js" && page js "$manual" > tone.mjs && node tone.mjs \
        && npx --offline hound_bindings info take.wav
}

if has python3 "pip and pipx"; then
    if python3 -c 'import ensurepip, venv' 2> /dev/null; then
        install "pip installs the Python package, by README.md" by_pip
        install "pip installs it, by docs/BINDINGS.md" by_pip_of_env
    else
        echo "install: passed over, since this Python has no ensurepip: pip (Debian: python3-venv)"
    fi
    has pipx "hound-wav by pipx" && install "pipx installs hound-wav" by_pipx
fi
if has cargo "the Rust crate"; then
    install "cargo add takes hound from the clone" by_cargo_add
    install "a patch replaces the published hound, also where Cargo.lock names it" by_patch
fi
if has cc "the library in C"; then
    if [ "$(uname -sm)" = "Linux x86_64" ]; then
        install "cc links the library" by_cc
    else
        echo "install: passed over, since this is no Linux on x86-64: cc links the library"
    fi
    install "cc compiles hound_c.c" by_source
    has pkg-config "the file for it" && install "pkg-config finds what bindings/c/install.sh installed" by_pkg_config
    if has cmake "the library in CMake"; then
        install "find_package finds what bindings/c/install.sh installed" by_install
        install "find_package finds what cmake --install installed" by_cmake_install
        install "FetchContent takes the clone" by_fetch_content
    fi
fi
if has node "the JavaScript package" && has npm "the JavaScript package"; then
    install "npm installs the JavaScript package" by_npm
fi
echo "$passed of $tried installs work"
[ "$passed" -eq "$tried" ]
