#!/usr/bin/env python3
"""Makes libhound_c of the proved text without its contracts, by cargo: what scripts/erase.py makes of all crates up to
hound_c, with the calls of hound.h around its functions, overflow checks and debug assertions. So what runs over the
library that the kit's compiler made runs over that text, too, which is the Cargo package hound's. A panic aborts.

usage: erased.py FOLDER [WRONG]     (writes libhound_c.a and libhound_c.so to a new folder; with the name of a wrong
                                     version of the text, that one: `erased.py --wrong` lists these)
"""
import re
import shutil
import subprocess
import sys
from pathlib import Path

TOP = Path(__file__).resolve().parent.parent.parent
# Wrong versions: a file, a part of it, and what is in its place.
WRONG = {
    "no pad byte": ("writer/effects.rs", "data_length % 2 == 1) {", "data_length % 2 == 2) {"),
    "a sync that failed is forgotten": (
        "writer/machine.rs",
        "Effect::Sync => Health::Dead,",
        "Effect::Sync => Health::Suspect,",
    ),
    "24 bits without a sign": ("number/mod.rs", "[middle, high]) as i32", "[middle, high]) as u16 as i32"),
    "a length that overflows": (
        "walk/chunks.rs",
        "chunk_len as u64 + chunk_len as u64 % 2",
        "(chunk_len + chunk_len % 2) as u64",
    ),
    "a torn frame is counted": ("repair/look.rs", "let right = frames * frame;", "let right = data;"),
}
MANIFEST = """[package]
name = "hound_c"
version = "0.0.0"
edition = "2021"
[lib]
crate-type = ["staticlib", "cdylib"]
[features]
std = []
[profile.release]
panic = "abort"
lto = true
overflow-checks = true
debug-assertions = true
"""
ROOT = """#![no_std]
#![allow(dead_code, unused)]
extern crate self as std;
use core::{fmt, marker, mem, result};
mod io;
mod proved;
mod rattle;
use proved::{c, sample::{FloatBits, UnitDouble, UnitFloat}, slices::*};

extern "C" {
    fn abort() -> !;
}

#[panic_handler]
fn panic(_: &core::panic::PanicInfo) -> ! {
    unsafe { abort() }
}

// No memory of C's is a slice where it has no elements: then its pointer may be NULL.
unsafe fn slice<'a, T>(first: *const T, count: usize) -> &'a [T] {
    if count == 0 { &[] } else { core::slice::from_raw_parts(first, count) }
}
unsafe fn slice_mut<'a, T>(first: *mut T, count: usize) -> &'a mut [T] {
    if count == 0 { &mut [] } else { core::slice::from_raw_parts_mut(first, count) }
}
"""


def export(name, parameters, result):
    """The call of hound.h for a function of hound_c."""
    taken, passed = [], []
    for parameter in filter(None, (part.strip() for part in parameters.split(","))):
        own, kind = parameter.split(": ")
        if found := re.fullmatch(r"&(mut )?\[(\w+)\]", kind):
            taken += [f"{own}: *{found[1] or 'const '}{found[2]}", f"{own}_count: usize"]
            passed.append(f"slice{'_mut' * bool(found[1])}({own}, {own}_count)")
        elif found := re.fullmatch(r"&(mut )?(\w+)", kind):
            taken.append(f"{own}: *{found[1] or 'const '}{found[2]}")
            passed.append(f"&{found[1] or ''}*{own}")
        else:
            taken.append(parameter)
            passed.append(own)
    head = f'#[no_mangle]\npub unsafe extern "C" fn {name}({", ".join(taken)}){result}'
    return f"{head} {{\n    c::{name}({', '.join(passed)})\n}}\n"


def main():
    if sys.argv[1:] == ["--wrong"]:
        return print("\n".join(WRONG))
    if len(sys.argv) not in (2, 3):
        sys.exit(__doc__)
    folder, source = Path(sys.argv[1]), Path(sys.argv[1]) / "src"
    source.mkdir(parents=True)
    subprocess.run([TOP / "scripts/erase.py", "--whole", source / "proved"], check=True)
    if len(sys.argv) == 3:
        file, old, new = WRONG[sys.argv[2]]
        text = (source / "proved" / file).read_text()
        if text.count(old) != 1:
            sys.exit(f"erased: {file} has {text.count(old)} times: {old}")
        (source / "proved" / file).write_text(text.replace(old, new))
    for name in "io.rs", "rattle.rs":
        shutil.copy(TOP / "bindings/hound/src" / name, source)
    library, header = (source / "proved/c/mod.rs").read_text(), (TOP / "bindings/c/hound.h").read_text()
    functions = re.findall(r"^pub fn (\w+)\(([^)]*)\)( -> \w+)? \{", library, flags=re.M)
    declared = re.findall(r"^(?:int32_t|int64_t|void) (hound_\w+)\(", header, flags=re.M)
    if sorted(name for name, _, _ in functions) != sorted(declared):
        sys.exit("erased: hound_c has other functions than hound.h")
    (source / "lib.rs").write_text(ROOT + "\n".join(export(*function) for function in functions))
    (folder / "Cargo.toml").write_text(MANIFEST)
    words = ["cargo", "build", "-q", "--offline", "--release", "--target-dir", folder / "target"]
    subprocess.run(words, cwd=folder, check=True)
    for name in "libhound_c.a", "libhound_c.so":
        shutil.copy(folder / "target/release" / name, folder)


if __name__ == "__main__":
    main()
