#!/usr/bin/env python3
"""Compiles each mutant and each twin, without proving any: one that can't be compiled counts for nothing, and otherwise
only `./mutants` of its crate would show that.

As many as can be made at once are, in a copy of all crates, for `rt try` to compile. It is to stop before it makes a
program of them, which takes longer than to look at all of them, so the program above them has one error. Where there
is another one, the edits of its line are compiled by themselves, or each half. What an edit does isn't looked at, nor
whether the names are still there that contracts and proofs cite.

usage: scripts/compile_mutants.py [CRATE..]     (every crate that has mutants where none is named)

It says why an edit can't be compiled, and last 'compile: N of N mutants and twins compile'."""
import os
import re
import shutil
import subprocess
import sys
import tempfile

from edits import TOP, can_be_made_with, crates, edits_of, texts_with

PROGRAM = "use std::rt::HostRuntime;\n\nfn main(_rt: HostRuntime) {\n    not_there();\n}\n"
WANTED = r"src/main\.rt:4:5: error\[unknown-name\]: cannot find value `not_there` in this scope\n"
END = "run=none proved=no\n"


def rounds(edits):
    """Lists of edits that can be made at once, in either order."""
    found = []
    for one in edits:
        for at_once in found:
            if can_be_made_with(one, at_once):
                break
        else:
            at_once = []
            found.append(at_once)
        at_once.append(one)
    return found


def says(edits, copy):
    """What the compiler says of these edits, made at once in the copy; nothing where it has no objection."""
    texts = texts_with(edits)
    if texts is None:
        return "its text isn't in the file exactly once\n"
    for (crate, path), text in texts.items():
        with open(os.path.join(copy, "crates", crate, path), "w") as file:
            file.write(text)
    with open(os.path.join(TOP, "crates.txt")) as file:
        lines = file.read().replace(" staticlib:", ":")
    with open(os.path.join(copy, "crates.txt"), "w") as file:
        file.write(lines + f"nothing: {' '.join(dict.fromkeys(edit.crate for edit in edits))}\n")
    run = subprocess.run(
        ["rt", "try"],
        cwd=os.path.join(copy, "crates", "nothing"),
        stdin=subprocess.DEVNULL,
        stdout=subprocess.PIPE,
        stderr=subprocess.STDOUT,
        text=True,
    )
    for crate, path in texts:
        shutil.copy(os.path.join(TOP, "crates", crate, path), os.path.join(copy, "crates", crate, path))
    other, wanted = re.subn(WANTED, "", run.stdout)
    return other.replace(f"{copy}/", "") if wanted != 1 or other != END else ""


def broken(edits, copy):
    """Those of these edits that can't be compiled, and why."""
    why = says(edits, copy)
    if not why or len(edits) == 1:
        return [(edit, why) for edit in edits if why]
    texts, found = texts_with(edits), set()
    for crate, path, number in re.findall(r"^crates/(\w+)/(\S+?):(\d+):", why, flags=re.M):
        line = texts[crate, path].split("\n")[int(number) - 1] if (crate, path) in texts else ""
        found |= {one for one in edits if one.crate == crate and any(new in line for _, new in one.pairs)}
    parts = [[one] for one in edits if one in found] + [[one for one in edits if one not in found]]
    if not 0 < len(found) < len(edits):
        parts = [edits[: len(edits) // 2], edits[len(edits) // 2 :]]
    return [one for part in parts for one in broken(part, copy)]


def main():
    named = sys.argv[1:] or crates()
    if unknown := [crate for crate in named if crate not in crates()]:
        sys.exit(f"compile: there is no crate {' '.join(unknown)}")
    edits = [edit for crate in named for edit in edits_of(crate)]
    if not edits:
        sys.exit("compile: there are no mutants")
    with tempfile.TemporaryDirectory(prefix="hound_compile_") as copy:
        left_out = shutil.ignore_patterns("out", "proofs", "data")
        shutil.copytree(os.path.join(TOP, "crates"), os.path.join(copy, "crates"), ignore=left_out)
        os.makedirs(os.path.join(copy, "crates", "nothing", "src"))
        with open(os.path.join(copy, "crates", "nothing", "src", "main.rt"), "w") as file:
            file.write(PROGRAM)
        found = [one for at_once in rounds(edits) for one in broken(at_once, copy)]
    for edit, why in found:
        print(f"compile: {edit.crate}: {edit.kind} {edit.name}: CAN'T BE COMPILED: {why}", end="")
    print(f"compile: {len(edits) - len(found)} of {len(edits)} mutants and twins compile")
    sys.exit(len(found) > 0)


if __name__ == "__main__":
    main()
