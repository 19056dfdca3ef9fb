#!/usr/bin/env bash
# Compares the Cargo package bindings/hound with the published crate hound 3.5.1, whose folder it takes, since that
# crate isn't in this repository: the published tests over the package, with no change but `try!` and two private
# fields; the programs of bindings/tests/dropin, which fail at a difference that isn't listed; and programs written for
# hound, before and after the one change in Cargo.toml.
#   scripts/try_dropin.sh FOLDER [COUNT]     (COUNT files are read, and as many written: 300000)
#   scripts/try_dropin.sh --wrong FOLDER     (the wrong versions of bindings/tests/dropin/wrong.tsv, each to be found)
#   scripts/try_dropin.sh --speed FOLDER [WORD]   (the times of both in the cases whose names have this word, or in all;
#                                             slower.tsv there has what takes longer, and why. It needs valgrind)
set -eu -o pipefail
cd "$(dirname "$0")/.."
parts=(published beside users)
case ${1:-} in --wrong | --speed) parts=("${1#--}") && shift ;; esac
[ $# -ge 1 ] && [ -f "$1/src/write.rs" ] || { sed -n '/^#   scripts/p' "$0" >&2; exit 2; }
original=$(cd "$1" && pwd)
count=${2:-300000} word=${2:-}
work=$(mktemp -d)
trap 'rm -rf "$work"' EXIT
export work CARGO_TARGET_DIR=${CARGO_TARGET_DIR:-$work/target}

# The package with the published tests at the end of its files.
published() {
    cp -r bindings/hound "$work/published" && rm -rf "$work/published/target" "$work/published/tests"
    cd "$work/published"
    sed -i '/deny(unsafe_code)/d' src/lib.rs # a test has an unsafe block
    ln -s "$original/testsamples" testsamples
    local file
    for file in lib read write; do
        sed -n '/^#\[\(cfg(test)\|test\)\]/,$p' "$original/src/$file.rs" > "src/$file.tests"
        sed -i -e 's/try!(/r#try!(/' -e 's/reader\.samples_read/reader.proved.samples_read/' \
            -e 's/reader\.spec\./reader.spec()./' "src/$file.tests"
    done
    cat >> src/lib.rs <<'RUST'
#[cfg(test)]
use std::io;
#[cfg(test)]
mod published {
    // The private functions that the tests call, by what is public.
    use super::*;
    pub fn signed_from_u8(x: u8) -> i8 {
        Sample::read(&mut &[x][..], SampleFormat::Int, 1, 8).unwrap()
    }
    pub fn u8_from_signed(x: i8) -> u8 {
        let mut container = Vec::new();
        x.write(&mut container, 8).unwrap();
        container[0]
    }
    pub fn narrow_to_i8(x: i32) -> Result<()> {
        x.write(&mut io::sink(), 8)
    }
    pub fn narrow_to_i16(x: i32) -> Result<()> {
        x.write(&mut io::sink(), 16)
    }
    pub fn narrow_to_i24(x: i32) -> Result<()> {
        x.write(&mut io::sink(), 24)
    }
    pub fn channel_mask(channels: u16) -> u32 {
        let sample_format = SampleFormat::Int;
        let spec = WavSpec { channels: channels, sample_rate: 1, bits_per_sample: 24, sample_format: sample_format };
        if channels == 0 {
            return 0; // It has no header.
        }
        let header = spec.into_header_for_infinite_file();
        header[40..44].iter().rev().fold(0, |mask, byte| mask << 8 | u32::from(*byte))
    }
}
#[cfg(test)]
use published::*;
include!("lib.tests");
RUST
    echo '#[cfg(test)] use super::*; include!("read.tests");' >> src/reader.rs
    echo '#[cfg(test)] use super::*; include!("write.tests");' >> src/writer.rs
    cargo test -q --offline --lib 2>&1 | tee "$work/log" | grep -E '^(error|test .*FAILED|thread|test result)' \
        || cat "$work/log"
    cd "$OLDPWD"
    grep -q "^test result: ok. $(cat "$original"/src/*.rs | grep -c '^ *#\[test\]') passed" "$work/log"
}

# The programs over both crates.
beside() {
    programs "$PWD/bindings/hound" exact histories faults && exact $((count / 4)) && histories "$count" && faults
}
programs() { # PACKAGE NAME..
    rm -rf "$work/beside" && cp -r bindings/tests/dropin "$work/beside"
    sed -i -e "s|ORIGINAL|$original|" -e "s|PACKAGE|$1|" "$work/beside/Cargo.toml" && shift
    (cd "$work/beside" && cargo build -q --offline --release "${@/#/--bin=}" 2> "$work/log") \
        || { cat "$work/log"; return 1; }
}
exact() { "$CARGO_TARGET_DIR/release/exact" "$1"; }
histories() { "$CARGO_TARGET_DIR/release/histories" "$1"; }
faults() { "$CARGO_TARGET_DIR/release/faults"; }
speed() { programs "$PWD/bindings/hound" speed && "$CARGO_TARGET_DIR/release/speed" 15 --instructions "$word"; }

# The programs, and the own tests of the package, over the package as it is, which all pass, and over wrong versions.
wrong() {
    local what file old new found missed=0
    while IFS=$'\t' read -r what file old new; do
        rm -rf "$work/wrong" && cp -r bindings/hound "$work/wrong" && rm -rf "$work/wrong/target"
        [ -z "$file" ] || python3 - "$work/wrong/src/$file" "$old" "$new" <<'PYTHON' || return 1
import re, sys
path, old, new = sys.argv[1:]
text, count = re.subn(r"\s+".join(map(re.escape, old.split())), lambda _: new, open(path).read())
open(path, "w").write(text)
sys.exit(count != 1 and f"wrong: {path} has {count} times: {old}")
PYTHON
        (cd "$work/wrong" && cargo build -q --offline 2> "$work/log") || { cat "$work/log"; return 1; }
        found=$(first_failure)
        echo "wrong: $what: found by ${found:-nothing}"
        [ "${file:+wrong}" = "${found:+wrong}" ] || missed=1
    done < <(echo "as it is" && grep -v '^#' bindings/tests/dropin/wrong.tsv)
    return $missed
}
first_failure() {
    local part
    for part in own_tests faults "histories 30000" "exact 9000"; do
        { [ "$part" = own_tests ] || programs "$work/wrong" "${part% *}"; } \
            && timeout 300 bash -c "$(declare -f exact histories faults own_tests) && $part" > "$work/log" 2>&1 \
                || { echo "${part% *}" && return; }
    done
}
own_tests() { (cd "$work/wrong" && cargo test -q --offline --tests); }

# Programs written for hound in a package of their own, which depends on the published crate by a registry, here a
# folder; the one change is the patch. Then they do the same, and write the same files but for the pad byte.
users() {
    local side user=$work/user program
    mkdir -p "$user/.cargo" "$work/registry/hound"
    cp -r "$original/src" "$work/registry/hound" && printf '{"files":{}}' > "$work/registry/hound/.cargo-checksum.json"
    printf '[package]\nname = "hound"\nversion = "3.5.1"\nedition = "2015"\n' > "$work/registry/hound/Cargo.toml"
    printf '[source.crates-io]\nreplace-with = "registry"\n[source.registry]\ndirectory = "%s"\n' "$work/registry" > \
        "$user/.cargo/config.toml"
    printf '[package]\nname = "user"\nversion = "0.1.0"\nedition = "2021"\n[dependencies]\nhound = "3.5"\n' > \
        "$user/Cargo.toml"
    mkdir "$user/src" && cp -r bindings/tests/dropin/programs "$user/src/bin"
    for side in original package; do
        if [ $side = package ]; then
            printf '[patch.crates-io]\nhound = { path = "%s" }\n' "$PWD/bindings/hound" >> "$user/Cargo.toml"
            (cd "$user" && cargo update -q --offline -p hound 2> "$work/log") || { cat "$work/log"; return 1; }
        fi
        (cd "$user" && cargo build -q --offline --target-dir "$CARGO_TARGET_DIR/user" 2> "$work/log") \
            || { cat "$work/log"; return 1; }
        (cd "$user" && cargo tree --offline) | grep -q "hound v3.5.1$([ $side = original ] || echo +rattle)" || return 1
        mkdir "$work/$side"
        (cd "$work/$side" && use "$CARGO_TARGET_DIR/user/debug") > "$work/$side.said" 2>&1 \
            || { cat "$work/$side.said"; return 1; }
    done
    cmp "$work/original.said" "$work/package.said"
    for program in "$work"/original/*; do
        python3 - "$program" "$work/package/${program##*/}" <<'PYTHON' || return 1
import struct, sys
one, other = (open(path, "rb").read() for path in sys.argv[1:])
if len(other) == len(one) + 1 and len(one) % 2 == 1:  # The pad byte, which the RIFF size counts.
    one = one[:4] + struct.pack("<I", struct.unpack("<I", one[4:8])[0] + 1) + one[8:] + b"\0"
sys.exit(one != other and f"users: {sys.argv[2]} differs")
PYTHON
    done
    echo "users: $(ls "$work/original" | wc -l) files and what $(ls bindings/tests/dropin/programs \
        | wc -l) programs said are the same"
}
use() { # FOLDER
    local bits
    "$1/metronome" metronome.wav 120 9
    for bits in 8 16 24 32 float; do
        printf 'a recorder %0301d' 7 | "$1/recorder" $bits.wav $bits
        "$1/to_raw" $bits.wav $bits.raw
        printf 'that appends' | "$1/recorder" $bits.wav $bits
        "$1/to_raw" $bits.wav $bits.longer.raw 100
    done
    head -c 100 16.wav > cut.wav
    "$1/to_raw" cut.wav cut.raw || true
    "$1/to_raw" none.wav none.raw || true
}

failed=0
for part in "${parts[@]}"; do
    $part || { failed=1; echo "dropin: FAILED: $part"; }
done
exit $failed
