#!/usr/bin/env python3
"""Looks that README, docs/, the packages and the comments of the crates below say things in plain words: it lists each
use of a word from the left column of the glossary, and ends with status 1 if there is one. The second glossary is for
pages and packages alone.

usage: scripts/check_words.py [CRATE...]    (with crates: the comments of these alone)

Quoted code, names between backticks and block quotes are left out. The words of the specification
(`tells`, `keeps`, `go`, `shift`, `get`, `put`, `most`, `fail`, `taken`, `accepted`, `counts`,
`moment`) are names: between backticks they are no finding. Further exceptions are named below."""
import glob
import os
import re
import sys

TOP = os.path.dirname(os.path.dirname(os.path.abspath(__file__)))

# What isn't written, and what is written for it.
GLOSSARY = [
    (r"wrong bod(y|ies)", "mutant"),
    (r"(doesn't |don't |that )tells?( its bytes)?\b", "its bytes are modelled; isn't modelled"),
    (r"keeps? (its|their) past", "records every byte written"),
    (r"behind", "after, past the end"),
    (r"stands?(?! for\b)|stood", "is at, is in, is stored, stays"),
    (r"puts? (it |them |all |this |that )?out|is out|are out|was put|is put|are put", "writes, writes out"),
    (r"go(es)? on with|gone on with|goes on\b", "appends to, continues"),
    (r"told|tells", "reported, returns, says"),
    (r"answers (a|an|the|`Ok|`Err|Ok|Err|by|with|that|one|its|just|exactly)\b|it answers", "returns"),
    (r"refus(es?|ed|als?)", "rejects, returns an error, an error"),
    (
        r"(at|of|between) (each|every|some|that|a|later|one) moments?|moments? (when|of)",
        "each intermediate state, after every byte",
    ),
    (r"is asked for|was asked for|were asked for|are asked for|wants", "requested, needs"),
    (r"l(ie|ies|ay) in wait|waits|that wait|waiting|waited", "buffered"),
    (r"lots", "batches"),
    (r"kept aside|keeps? .{0,20}aside", "saved"),
    (r"gate", "CI, the full check"),
    (r"greatest", "largest, maximum"),
    (r"want of memory", "out of memory"),
    (r"foreign", "another program's"),
]
TERMS = [
    (r"in the place of", "instead of"),
    (r"(floats|integers|doubles) of (8|16|24|32|64) bits", "32-bit floats, .."),
    (r"loss(es)? of power", "power failure"),
    (r"(a|the|each|after) kill|kills,", "the process is killed, a killed process"),
    (r"(no|no more|is|has|have|this|a) room|room (for|of)", "space, buffer; fits"),
    (r"(the|your|its|older|counts as) sound", "audio"),
    (r"beside", "compared with, next to, besides, while"),
    (r"recordings? in parts", "split recording"),
    (r", as (Microsoft|one of)", ", such as"),
]


def pattern_of(glossary):
    groups = [f"(?P<w{i}>{pattern})" for i, (pattern, _) in enumerate(glossary)]
    return re.compile(r"\b(" + "|".join(groups) + r")\b", re.I)

# What may be said: in which file (a part of its path), and what the line has there.
EXCEPTIONS = [
    ("docs/PROVING.md", "Where the medium tells"),  # the name `tells`, explained there
    ("docs/PROVING.md", "keeps its past"),  # the name `keeps`, explained there
    ("docs/DEFINITIONS.md", "tells"),  # explained there
    ("docs/DEFINITIONS.md", "keeps its past"),
    ("docs/DEFINITIONS.md", "moment"),
    ("docs/", "waits for it"),  # of a call that waits for a disk
    ("docs/", "waits for the disk"),
    ("docs/USING.md", "is what `main`"),
    ("", "floats of 64 bits"),  # what a file is called in errors, of all packages alike
    ("", "integers of 64 bits"),
]

# The crates whose comments are looked at.
with open(os.path.join(TOP, "crates.txt")) as crates:
    CRATES = re.findall(r"^(\w+)[^:#\n]*:", crates.read(), flags=re.M)


# What is read for the terms alone: the packages' pages, and files of which most lines are comments or texts. The pages
# in bindings/js/page are for people who say sound.
PACKAGES = [
    "CHANGELOG.md", "scripts/README.md", "bindings/*/*.md", "bindings/c/[!_]*.h", "bindings/c/[bcfr]*.c",
    "bindings/python/hound_bindings/*.py", "bindings/js/*.js", "bindings/js/hound.d.cts", "bindings/hound/src/*.rs",
    "bindings/hound/examples/*.rs",
]  # fmt: skip


def files_of(*forms):
    return sorted(path for form in forms for path in glob.glob(form, root_dir=TOP))


def without_made(text):
    """A text without the tables that scripts/make_words.py makes of the crates' comments."""
    made = r"(?s)<!-- made by scripts/make_words.py.*?<!-- the end of what it makes -->"
    return re.sub(made, lambda found: "\n" * found[0].count("\n"), text)


def prose_of_page(text):
    """Its lines, without code and quotes."""
    inside = False
    for line in text.split("\n"):
        if line.startswith("```"):
            inside = not inside
            yield ""
        elif inside or line.startswith(">"):
            yield ""
        else:
            yield re.sub(r"`[^`]*`", "`", line)


def comments(text, mark):
    """Its lines, where one has a comment that, and else nothing."""
    for line in text.split("\n"):
        found = re.search(r"(^|\s)(" + mark + r").*", line)
        yield re.sub(r"`[^`]*`", "`", found.group(0)) if found else ""


def findings(path, lines, glossary):
    pattern = pattern_of(glossary)
    for number, line in enumerate(lines, 1):
        for found in pattern.finditer(line):
            if any(part in path and said in line for part, said in EXCEPTIONS):
                continue
            index = next(i for i in range(len(glossary)) if found.group(f"w{i}") is not None)
            yield f"{path}:{number}: '{found.group(0)}': {glossary[index][1]}\n    {line.strip()}"


def main():
    crates = sys.argv[1:] or CRATES
    listed = []
    if not sys.argv[1:]:
        for page in files_of("README.md", "docs/*.md"):
            with open(os.path.join(TOP, page)) as file:
                listed += findings(page, prose_of_page(without_made(file.read())), GLOSSARY + TERMS)
        for path in files_of(*PACKAGES):
            with open(os.path.join(TOP, path)) as file:
                listed += findings(path, file.read().split("\n"), TERMS)
    for crate in crates:
        for folder, folders, files in os.walk(os.path.join(TOP, "crates", crate)):
            folders[:] = sorted(name for name in folders if name not in ("out", "target"))
            for name in sorted(files):
                if name.endswith((".rt", ".antt")):
                    path = os.path.join(folder, name)
                    with open(path) as file:
                        mark = "//[/!]?" if name.endswith(".rt") else "--"
                        listed += findings(os.path.relpath(path, TOP), comments(file.read(), mark), GLOSSARY)
    for one in listed:
        print(one, file=sys.stderr)
    if listed:
        sys.exit(f"words: {len(listed)} uses of words that the glossary replaces")
    print(f"words: README, docs/, the packages and the comments of {len(CRATES)} crates are in plain words")


main()
