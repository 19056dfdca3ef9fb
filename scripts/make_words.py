#!/usr/bin/env python3
"""Makes the files that follow from the crates' definitions and clauses: specs/Lib.antt of each crate
that another stands on, which exports all words of the crate by name, that of `hound` the words of
every layer; and a file of tests that imports each word of a clause over `hound` alone
(crates/hound_tests/src/words.rt, to be laid out by `rt fmt`); and in docs/PROVING.md the tables of the recorder and the
repairer, whose rows are comments above their definitions.

usage: scripts/make_words.py [--check]     (with --check: says which of them is old, and writes nothing)"""
import glob
import os
import re
import sys

TOP = os.path.dirname(os.path.dirname(os.path.abspath(__file__)))
LAYERS = ["number", "spec", "sample", "medium", "durable", "walk", "reader", "writer", "repair", "follow"]
LAYER_CRATES = [f"hound_{layer}" for layer in LAYERS]
CRATES = LAYER_CRATES + ["hound_slices", "hound_text"]
# The types of the code that clauses name; those of lower crates are exported by the root.
TYPES = {
    "hound_number": ["input.ReadError"],
    "hound_spec": ["error.Error", "spec.SampleFormat", "spec.WavSpec", "spec.WavSpecEx"],
    "hound_sample": ["item.SampleError"],
    "hound_walk": ["cause.Cause", "cause.HeadError", "cause.Reason", "chunks.FileHead"],
    "hound_writer": [
        "effects.Action",
        "effects.BeginningEffect",
        "effects.Effect",
        "effects.Report",
        "recorder.Health",
        "recorder.Phase",
        "recorder.Recorder",
        "recorder.RecorderError",
        "resuming.RepairState",
        "resuming.FoundFile",
    ],
    "hound_repair": [
        "look.Damage",
        "look.Repair",
        "look.SeenHead",
        "machine.FailedAction",
        "machine.RepairError",
        "machine.RepairStep",
        "machine.Repairing",
        "stages.Stage",
        "stages.Task",
        "stages.Unrepairable",
    ],
    "hound_follow": [
        "follower.FollowError",
        "follower.FollowStep",
        "follower.Follower",
        "follower.Look",
        "follower.Recording",
    ],
    "hound": ["session.Begin", "session.End", "session.Step"],
}
# The definitions whose comments are tables, by the crate that is between the two lines where these stand.
TABLES = {
    "hound_writer": ["Recorder", "Resuming"],
    "hound_repair": ["Steps"],
    "hound_slices": ["Walks"],
    "hound_follow": ["Following"],
}
PROVING = "docs/PROVING.md"
TABLES_BEGIN, TABLES_END = "<!-- made by scripts/make_words.py of {} -->", "<!-- the end of what it makes -->"
# What is made of a contract and `SampleError` are private.
PRIVATE = re.compile(r"contracts|declared\.item")
# A definition, at the margin or in a module of parameters, or a constructor of a `data`.
WORD = re.compile(
    r"^(?: {2})?(?:(?:abbrev |unfoldable )pub |(?<! )pub |pub (?=record |data ))(?:record |data )?([^\s:({◌]+)|^  (\w+) : ",
    flags=re.M,
)
LIB_HEAD = "-- The words of this crate, for those above it. The file is made by `scripts/make_words.py`.\n"
ROOT_HEAD = """\
-- The words of every layer, and the types of the layers below that clauses name, for a crate over this
-- one. Its own types, and the variants of those that it exports, are in `Rattle.hound.specs.declared`.
-- The file is made by `scripts/make_words.py`.
"""
WORDS = """\
// Each word that a clause of the library imports can be imported over `hound` alone. The file is
// made by `scripts/make_words.py`. The checker reads the imports because the clause uses one.
ghost use Rattle.std.specs.Prelude.{{◌≡◌}};
{imports}
// Reads them.
pub fn words() -> bool
    ensures {{ result ≡ result }}
{{
    true
}}
"""


def read(path):
    with open(os.path.join(TOP, path)) as file:
        return file.read()


def modules_of(crate):
    """The modules of a crate's definitions, in the order of its specs/Lib.antt; `Rows` serves tests alone."""
    return [
        name
        for name in re.findall(r"^pub mod (\w+)", read(f"crates/{crate}/specs/Lib.antt"), flags=re.M)
        if name != "Rows"
    ]


def words_of(crate, module):
    """The words that a module defines, or has from a trait of the code."""
    text = read(f"crates/{crate}/specs/{module}.antt")
    found = re.findall(r"^pub use .*declared.*\{(\w+)\}$", text, flags=re.M)
    text = re.sub(r"^pub (use|mod) .*", "", text, flags=re.M)
    data = re.compile(r"^pub data .*\n(?:  .*\n)*", flags=re.M)
    found += [name for name, _ in WORD.findall(text) if name]
    for one in data.findall(text):
        found += [name for _, name in WORD.findall(one) if name]
    return sorted(set(found))


def variants_of(crate, kind):
    """The variants of an enum of the code."""
    module, name = kind.split(".")
    found = re.search(
        rf"^(?:pub )?enum {name}(?:<.*?>)? {{\n(.*?)^}}", read(f"crates/{crate}/src/{module}.rt"), flags=re.M | re.S
    )
    return re.findall(r"^    (\w+)", found.group(1), flags=re.M) if found else []


def export(crate, names, module=""):
    """The lines that export these words: those that a proof elsewhere may unfold are marked so."""
    marked = re.findall(
        r"^unfoldable pub (\S+)",
        "".join(read(f"crates/{crate}/specs/{one}.antt") for one in modules_of(crate)),
        flags=re.M,
    )
    for mark, part in (
        ("", [name for name in names if name not in marked]),
        ("unfoldable ", [name for name in names if name in marked]),
    ):
        if part:
            yield f"{mark}pub use Rattle.{crate}.specs{module}.{{{', '.join(part)}}}"


def library(crate):
    """The text of a crate's specs/Lib.antt."""
    lines, head = [], LIB_HEAD
    if crate == "hound":
        head = ROOT_HEAD
        for layer in LAYER_CRATES:
            lines += export(layer, [word for module in modules_of(layer) for word in words_of(layer, module)])
            lines += [
                f"pub use Rattle.{layer}.specs.declared.{kind}.{{{kind.split('.')[1]}}}"
                for kind in TYPES.get(layer, [])
            ]
    for module in modules_of(crate):
        lines += export(crate, words_of(crate, module), "." + module)
    return (
        head + "\n".join(lines + re.findall(r"^pub mod \w+", read(f"crates/{crate}/specs/Lib.antt"), flags=re.M)) + "\n"
    )


def words():
    """The text of crates/hound_tests/src/words.rt."""
    root = set(re.findall(r"\w+", " ".join(re.findall(r"pub use ([^;]*);", read("crates/hound/src/lib.rt")))))
    crates = LAYER_CRATES + ["hound"]
    paths = sorted(path for crate in crates for path in glob.glob(os.path.join(TOP, "crates", crate, "src", "*.rt")))
    sources = "".join(read(path) for path in paths)
    words, types = set(), []
    for crate in crates:
        uses = re.findall(rf"^ *ghost use Rattle\.{crate}\.specs(?:\.([\w.]+))?\.\{{([^}}]*)\}};", sources, flags=re.M)
        used = {name.strip() for module, names in uses if not PRIVATE.match(module) for name in names.split(",")}
        words |= used & {word for module in modules_of(crate) for word in words_of(crate, module)}
        for kind in TYPES.get(crate, []):
            name = kind.split(".")[1]
            if crate != "hound":
                words |= used & {name}
            elif name in used:
                types.append(f"Rattle.hound.specs.declared.{name}.{{{name}}}")
            found = [f"{one} as {name}{one}" for one in variants_of(crate, kind) if one in used]
            if found and name in root:
                types.append(f"Rattle.hound.specs.declared.{name}.TheVariants.{{{', '.join(found)}}}")
    imports = [f"Rattle.hound.specs.{{{', '.join(sorted(words))}}}"] + types
    return WORDS.format(imports="".join(f"ghost use {one};\n" for one in imports))


def tables(crate):
    """The tables of a machine: each row is a comment above the definition that says the same."""
    for module in TABLES[crate]:
        rows, head = [], None
        for line in read(f"crates/{crate}/specs/{module}.antt").split("\n") + ["-- Table: no more (none)."]:
            title = re.match(r"^-- Table: (.*?)(?:, by .*)? \((.*)\)\.$", line)
            defined = re.match(r"^(?:abbrev pub|pub record) (\w+)\b", line)
            if line.startswith("-- | "):
                rows.append([line[3:], ""])
            elif defined:
                rows = [[row, name or defined.group(1)] for row, name in rows]
            elif title:
                if head:
                    yield "\n".join([head] + [f"{row} `{name}` |" for row, name in rows])
                columns = [column[0].upper() + column[1:] for column in title.group(2).split(", ") if column]
                head = f"| {' | '.join(columns + ['Definition'])} |\n|{'---|' * (len(columns) + 1)}"
                rows = []


def proving():
    """The text of docs/PROVING.md."""
    text = read(PROVING)
    for crate in TABLES:
        before, begin, rest = text.partition(TABLES_BEGIN.format(crate))
        _, end, after = rest.partition(TABLES_END)
        if not end:
            sys.exit(f"words: {PROVING} has no place for the tables of {crate}")
        text = before + begin + "\n\n" + "\n\n".join(tables(crate)) + "\n\n" + end + after
    return text


def main():
    made = {f"crates/{crate}/specs/Lib.antt": library(crate) for crate in CRATES + ["hound"]}
    made["crates/hound_tests/src/words.rt"] = words()
    made[PROVING] = proving()
    old = [path for path, text in made.items() if read(path).split() != text.split()]
    if sys.argv[1:] == ["--check"]:
        if old:
            sys.exit(f"words: {' and '.join(old)}: made of older definitions; run scripts/make_words.py")
        print("words: the files that follow from the definitions are as they would be made")
        return
    for path in old:
        with open(os.path.join(TOP, path), "w") as file:
            file.write(made[path])
        print(path)


main()
