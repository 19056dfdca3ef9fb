#!/usr/bin/env python3
"""Prints what the words of the contracts mean: each definition of specs/ with the comment above it.

usage: scripts/definitions.py WORD...     the words of these names, whole; also fields, constructors, functions, types
                                           and clauses
       scripts/definitions.py CRATE...    the words of these crates' specs/, a line each, in their order
       scripts/definitions.py --check     names each definition that has no comment"""
import os
import re
import sys

TOP = os.path.dirname(os.path.dirname(os.path.abspath(__file__)))
with open(os.path.join(TOP, "crates.txt")) as crates:
    CRATES = re.findall(r"^(\w+)[^:#\n]*:", crates.read(), flags=re.M)
# What a clause or a method is of.
OWNER = re.compile(r"^ *(?:pub )?(?:(?:const |extern .C. )?fn (\w+)|((?:impl|trait)\b[^{]*[^{ ]))")
# A definition, at the margin or in a module of parameters; a line that begins with `pub` there is a field.
HEAD = re.compile(r"^( *)(?:(?:abbrev |unfoldable )pub |(?<! )pub |pub (?=record |data ))(?:record |data )?([^\s:({]+)")


def definitions(crate):
    """Each definition of its specs/: name, place, comment, text. One comment may stand over several."""
    folder = os.path.join(TOP, "crates", crate, "specs")
    for name in sorted(os.listdir(folder)) if os.path.isdir(folder) else []:
        if not name.endswith(".antt") or name in ("Lib.antt", "Rows.antt"):
            continue
        with open(os.path.join(folder, name)) as file:
            lines, comment = file.read().split("\n"), ""
        for number, line in enumerate(lines):
            found = HEAD.match(line)
            if not found or found.group(2) in ("use", "mod"):
                continue
            margin, word = found.groups()
            first = number
            while first and lines[first - 1].startswith(margin + "--"):
                first -= 1
            last = number + 1
            while last < len(lines) and lines[last].startswith((margin + "  ", margin + word)):
                last += 1
            comment = " ".join(part.lstrip("- ") for part in lines[first:number]) or comment
            yield word, f"crates/{crate}/specs/{name}:{number + 1}", comment, "\n".join(lines[number:last]).rstrip()


def elsewhere(word):
    """Where a word is a field, a constructor, or an item or a clause of the code: place, comment, text."""
    field = re.compile(rf"^ +(?:pub )?{re.escape(word)} : |^pub use .*\{{{re.escape(word)}\}}")
    item = re.compile(
        rf"^ *(?:pub(?:\(crate\))? )?(?:(?:(?:const |extern .C. )?fn|struct|enum|trait|const|type|ensures) {re.escape(word)}\b|ghost {re.escape(word)}: )"
    )
    for crate in CRATES:
        for folder, kind, mark in (("specs", field, "--"), ("src", item, "///")):
            top = os.path.join(TOP, "crates", crate, folder)
            for name in sorted(os.listdir(top)) if os.path.isdir(top) else []:
                if not name.endswith((".antt", ".rt")) or name in ("Lib.antt", "Rows.antt"):
                    continue
                with open(os.path.join(top, name)) as file:
                    lines = file.read().split("\n")
                for number, line in enumerate(lines):
                    if not kind.match(line):
                        continue
                    first, last = number, number + 1
                    while lines[first - 1].lstrip().startswith((mark, "#[")):
                        first -= 1
                    margin = len(line) - len(line.lstrip())
                    while (
                        last < len(lines)
                        and lines[last].strip()
                        and (
                            len(lines[last]) - len(lines[last].lstrip()) > margin
                            or lines[last].strip().startswith(") ")
                        )
                    ):
                        last += 1
                    owners = (
                        (HEAD if kind is field else OWNER).match(one)
                        for one in lines[number - 1 :: -1]
                        if len(one) - len(one.lstrip()) < margin
                    )
                    above = next((owner.group(owner.lastindex) for owner in owners if owner), "")
                    comment = (
                        " ".join(part.strip().lstrip("-/ ") for part in lines[first:number] if "#[" not in part)
                        or f"of {above}"
                    )
                    yield f"crates/{crate}/{folder}/{name}:{number + 1}", comment, "\n".join(lines[number:last])


def main():
    words = sys.argv[1:]
    every = {crate: list(definitions(crate)) for crate in CRATES}
    if words == ["--check"]:
        missing = [
            f"{place}: {name} has no comment"
            for crate in CRATES
            for name, place, comment, _ in every[crate]
            if not comment
        ]
        for line in missing:
            print(line, file=sys.stderr)
        sys.exit(bool(missing))
    if not words:
        sys.exit(__doc__)
    unknown = []
    for word in words:
        if word in every:
            for name, place, comment, _ in every[word]:
                print(f"{name}: {comment}\n    {place}")
            continue
        found = [one for crate in CRATES for one in every[crate] if one[0] == word]
        for place, comment, text in [one[1:] for one in found] or elsewhere(word):
            print(f"{place}\n-- {comment}\n{text}\n")
            found = True
        if not found:
            unknown.append(word)
    if unknown:
        sys.exit(f"definitions: there is no {', '.join(unknown)}")


main()
