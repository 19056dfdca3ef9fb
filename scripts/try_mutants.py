#!/usr/bin/env python3
"""Tries mutants: each is a deliberate bug, and the prover has to reject the function that has it. Of a mutant with a
twin, a harmless edit of the same place, the prover has to accept that: so the mutant is rejected for what it does, and
not for any change there. The edits of a crate are in its file mutants.edits, which edits.py reads.

Only the functions with an edit are checked, and what they call in their crate, over the libraries below: those that
`rt ci` leaves, or else what `rt lib` makes. Edits of different functions are tried at once, since the prover goes by
the contracts of what a function calls. But where a function that it calls isn't proved, the prover doesn't judge it,
so it is tried again without those edits that have been judged.

usage: scripts/try_mutants.py [--twins] [--short] [--beside LOG] [--jobs N] [CRATE..]

It tries every mutant of these crates, or of all; with --twins only those that have a twin, and their twins. With
--short it leaves out the twins with a line `long:`, and their mutants. LOG is what an `rt ci` that is running says:
each crate waits until those below it are proved. N checks run at once, or one.

It writes a line for each mutant, and last 'mutants: N of N mutants rejected', with --twins also 'N of N twins
accepted'."""
import argparse
import concurrent.futures
import glob
import os
import re
import shutil
import subprocess
import sys
import tempfile
import time

from edits import TOP, can_be_made_with, crates, edits_of

KIT = os.path.dirname(
    os.path.dirname(os.path.realpath(shutil.which("rt") or sys.exit("mutants: the Rattle kit isn't here")))
)
NOT_JUDGED = "not judged, since a function that it calls isn't proved"
# What the prover says of a function, and what that means.
VERDICTS = {
    "proved": "proved",
    "not proved": "not proved",
    "no proof: it calls": NOT_JUDGED,
    "no proof": "not proved",
}


def is_ready(log, library):
    """Whether the log of an `rt ci`, if there is one, says that it proved a library, or took it over."""
    if not log:
        return False
    while True:
        with open(log) as file:
            said = file.read()
        if re.search(rf"^rt: {library} (proved$|is kept: )", said, flags=re.M):
            return True
        if re.search(rf"^rt: {library} NOT PROVED|^rt: FAILED|^\d+ passed, ", said, flags=re.M):
            return False
        time.sleep(1)


def words(name, static, libraries, log):
    """How rattle is called for a crate."""
    found = [
        "--crate-name",
        name,
        "src/lib.rt",
        "--links",
        f"{name}=",
        "--extern",
        f"std={KIT}/rlibs/std.rlib",
        "-L",
        f"dependency={KIT}/rlibs",
    ]
    for library in libraries:
        folder = os.path.join(TOP, "crates", library)
        if not os.path.isdir(folder):
            found += ["--extern", f"{library}={KIT}/rlibs/{library}.rlib"]
            continue
        if not is_ready(log, library):
            subprocess.run(["rt", "lib"], cwd=folder, check=True, stdout=subprocess.DEVNULL)
        found += ["--extern", f"{library}={folder}/out/rlib/{library}.rlib"]
    for folder in glob.glob(os.path.join(TOP, "crates", "*", "out", "rlib")):
        found += ["-L", f"dependency={folder}"]
    return found + ["--crate-type", "staticlib"] * static


def says(called, functions, folder, kept):
    """What the prover says of each of these functions; where it has no verdict on one, the end of all that it says."""
    logic = [
        "--antt-project",
        f"{KIT}/rattle/logic/antt-project.json",
        "--logic-built",
        f"{KIT}/logic_built",
        "--incremental",
        kept,
    ]
    only = [word for function in sorted(functions) for word in ("--only", function)]
    run = subprocess.run(
        [f"{KIT}/bin/rattle", "check", *called, *logic, "--jobs", "1", *only],
        cwd=folder,
        stdout=subprocess.PIPE,
        stderr=subprocess.STDOUT,
        text=True,
    )
    verdicts = {}
    for function in functions:
        said = rf"^fn (?:[\w:+]*:)?{re.escape(function)}: ({'|'.join(VERDICTS)})"
        found = set(re.findall(said, run.stdout, flags=re.M))
        verdicts[function] = VERDICTS[found.pop()] if len(found) == 1 else None
    if None in verdicts.values() or not re.search(r"^only=\d+ proved=\d+$", run.stdout, flags=re.M):
        return dict.fromkeys(functions, f"status {run.returncode}\n{run.stdout[-2000:]}")
    return verdicts


def tried(edits, called, kept):
    """What the prover says of the function of each of these edits, once all of them are made in a copy of the crate."""
    with tempfile.TemporaryDirectory(prefix="hound_mutants_") as folder:
        shutil.copytree(
            os.path.join(TOP, "crates", edits[0].crate),
            folder,
            ignore=shutil.ignore_patterns("out"),
            dirs_exist_ok=True,
        )
        for edit in edits:
            edit.apply(folder)
        verdicts = says(called, {edit.function for edit in edits}, folder, kept)
    return {edit: verdicts[edit.function] for edit in edits}


def made_at_once(edits):
    """Some of these edits, each of another function, which can be made at once."""
    found = []
    for edit in edits:
        is_alone = all(edit.function != other.function for other in found)
        if is_alone and can_be_made_with(edit, found):
            found.append(edit)
    return found


def judged(edits, called, work, jobs):
    """What the prover says of the function of each of these edits, as many of which are made at once as it can judge:
    pairs, as it says them."""
    left = list(edits)
    with concurrent.futures.ThreadPoolExecutor(jobs) as pool:
        while left:
            at_once = made_at_once(left)
            parts = [part for part in (at_once[start::jobs] for start in range(jobs)) if part]
            kept = [os.path.join(work, str(number)) for number in range(len(parts))]
            for part, found in zip(parts, pool.map(lambda part, kept: tried(part, called, kept), parts, kept)):
                verdicts = {edit: verdict for edit, verdict in found.items() if verdict != NOT_JUDGED}
                for edit, verdict in (verdicts or tried(part[:1], called, kept[0])).items():
                    left.remove(edit)
                    yield edit, verdict


def main():
    parser = argparse.ArgumentParser()
    parser.add_argument("--twins", action="store_true")
    parser.add_argument("--short", action="store_true")
    parser.add_argument("--beside", metavar="LOG")
    parser.add_argument("--jobs", metavar="N", type=int, default=1)
    parser.add_argument("crates", metavar="CRATE", nargs="*")
    given = parser.parse_args()
    kind = "twin" if given.twins else "mutant"
    for name in given.crates:
        if not edits_of(name, kind):
            parser.error(f"no crate {name} has {kind}s")
    count = {"mutant": 0, "twin": 0}
    right = {"mutant": 0, "twin": 0}
    for name, (static, libraries) in crates().items():
        if given.crates and name not in given.crates:
            continue
        edits = edits_of(name)
        if given.twins:
            twins = {edit.name for edit in edits if edit.kind == "twin" and not (given.short and edit.is_long)}
            edits = [edit for edit in edits if edit.name in twins]
        else:
            edits = [edit for edit in edits if edit.kind == "mutant"]
        if not edits:
            continue
        called = words(name, static, libraries, given.beside)
        with tempfile.TemporaryDirectory(prefix="hound_kept_") as work:
            for kind, wanted in (("twin", "proved"), ("mutant", "not proved")):
                of_kind = [edit for edit in edits if edit.kind == kind]
                count[kind] += len(of_kind)
                for edit, verdict in judged(of_kind, called, work, given.jobs):
                    right[kind] += verdict == wanted
                    if verdict != wanted:
                        wrong = "NOT ACCEPTED as a twin" if kind == "twin" else "NOT REJECTED"
                        print(f"mutants: {name}: {edit.name}: {wrong}: {verdict}", flush=True)
                    elif kind == "mutant":
                        print(f"mutants: {name}: rejected {edit.name}", flush=True)
    line = f"mutants: {right['mutant']} of {count['mutant']} mutants rejected"
    print(line + f", {right['twin']} of {count['twin']} twins accepted" * given.twins)
    sys.exit(not count["mutant"] or right != count)


if __name__ == "__main__":
    main()
