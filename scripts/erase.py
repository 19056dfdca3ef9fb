#!/usr/bin/env python3
"""Makes Rust of the proved crates: bindings/hound/src/proved is what is left of crates/hound_*/src when contracts are
deleted. It is trusted, so it is short, and knows no more of Rust than tokens and brackets: it deletes ghost text, does
the replacements of erase_table.py, writes the paths of other crates as those of modules, and calls rustfmt.
check_erased.py, which shares nothing with it but that table, shows that nothing else has changed.

usage: scripts/erase.py [--check]           (it writes the modules; with --check it compares them, and writes nothing)
       scripts/erase.py --whole FOLDER      (for tests: those of the whole library, as C has it, in a new folder)
"""
import re
import shutil
import subprocess
import sys
from pathlib import Path

from erase_table import CRATES, LEFT_OUT, REPLACEMENTS, WHOLE_CRATES, WHOLE_LEFT_OUT, WHOLE_REPLACEMENTS

TOP = Path(__file__).resolve().parent.parent
MADE = TOP / "bindings/hound/src/proved"
FIRST_LINE = "// Made from crates/hound_{} by scripts/erase.py: change that, and not this.\n"
RUSTFMT = ["rustfmt", "--edition=2021", "--config-path", TOP / "bindings",
           "--config", "reorder_imports=false,reorder_modules=false"]

TOKEN = re.compile(r"""(?P<space>\s+|//[^\n]*|/\*.*?\*/) | b?"(?:\\.|[^"\\])*" | b?'(?:\\.[^']*|[^'\\])' | '?\w+ | .""",
                   re.X | re.S)
CLOSING = {"(": ")", "[": "]", "{": "}"}
# What begins a ghost clause, item, member or field, up to its first block. Of ghost text only braces are looked at.
GHOST = re.compile(r"(?:pub\s+)?(?:ghost\s+use\s[^;]*;|"
                   r"(?:(?:requires|ensures)\*?(?:\s+\w+)?|ghost\s+\w+\s*[:=])\s*(?=\{))")
MORE_GHOST = re.compile(r"\s*(?:=|by)\s*(?=\{)")

# The beginning of a path, if it isn't in a comment.
PATH = re.compile(r"//[^\n]*|(?P<path>\b(?:crate::(?!rattle\b)|hound_(%s)::))" % "|".join(CRATES))


def after_block(text: str, at: int) -> int:
    """Where the block ends whose brace is here."""
    depth = 0
    for brace in re.compile("[{}]").finditer(text, at):
        depth += 1 if brace.group() == "{" else -1
        if depth == 0:
            return brace.end()
    raise SystemExit(f"erase: a block has no end: {text[at:at + 60]}")


def after_ghost(text: str, at: int) -> int:
    """Where the ghost text ends that begins here, or this place if none does."""
    begun = GHOST.match(text, at)
    if not begun or begun.group().endswith(";"):
        return begun.end() if begun else at
    end = after_block(text, begun.end())
    is_clause = "ghost" not in begun.group()
    while not is_clause and (more := MORE_GHOST.match(text, end)):
        end = after_block(text, more.end())
    return end if is_clause else re.compile(r"\s*[;,]?").match(text, end).end()


def without_ghosts(text: str) -> str:
    """The text without its ghost text, and without the pages of members that are deleted."""
    kept, at = "", 0
    while at < len(text):
        end = after_ghost(text, at) if text[at] in "pgre" and not re.match(r"\w", kept[-1:]) else at
        if end > at:
            kept = re.sub(r"(?:\n *///[^\n]*)+\s*$" if text[end - 1] in ";," else r"\s*$", "\n", kept)
            at = end
        else:
            token = TOKEN.match(text, at)
            kept += token.group()
            at = token.end()
    return kept


def after_group(tokens: list, at: int) -> int:
    """The number of the token after the brackets that open here."""
    open_ones = []
    for number in range(at, len(tokens)):
        if tokens[number] in CLOSING:
            open_ones.append(CLOSING[tokens[number]])
        elif open_ones and tokens[number] == open_ones[-1]:
            open_ones.pop()
            if not open_ones:
                return number + 1
    return at


def after_pattern(tokens: list, at: int, pattern: list) -> int:
    """The number of the token after what this pattern matches here, or 0. What `…` matches is in erase_table.py."""
    if not pattern:
        return at
    if at == len(tokens):
        return 0
    if pattern[1:2] == ["…"] and pattern[0] in CLOSING:
        end = after_group(tokens, at) if tokens[at] == pattern[0] else at
        return after_pattern(tokens, end, pattern[3:]) if end > at else 0
    if pattern[0] == "…":
        if end := after_pattern(tokens, at, pattern[1:]):
            return end
        return 0 if tokens[at] in "{};" else after_pattern(tokens, at + 1, pattern)
    return after_pattern(tokens, at + 1, pattern[1:]) if tokens[at] == pattern[0] else 0


def replaced(text: str, old: str, new: str) -> tuple:
    """The text with one piece of it replaced wherever it is, and how often it is."""
    pattern = [token.group() for token in TOKEN.finditer(old) if not token["space"]]
    found = [token for token in TOKEN.finditer(text) if not token["space"]]
    tokens = [token.group() for token in found]
    parts, end, at, count = [], 0, 0, 0
    while at < len(tokens):
        after = after_pattern(tokens, at, pattern) if tokens[at] == pattern[0] else 0
        if after:
            before = text[end:found[at].start()]
            parts += [before, new] if new else [before.rstrip()]
            end, at, count = found[after - 1].end(), after, count + 1
        else:
            at += 1
    return "".join(parts) + text[end:], count


def erased(crate: str, path: Path, left_out: list, replacements: list, counts: list) -> str:
    """The module of a file."""
    text = without_ghosts(path.read_text())
    for number, entry in enumerate(replacements):
        if entry.file in (f"{crate}/{path.name}", "*"):
            text, count = replaced(text, entry.old, entry.new)
            counts[number] += count
    for other, name in (name[:-3].split("/") for name in left_out):
        if other == crate and path.name == "lib.rt":
            for line in (f"mod {name};", f"pub use {name}::…;", f"pub use {name}::{{…}};"):
                text = replaced(text, line, "")[0]
    text = PATH.sub(lambda path: f"crate::proved::{path[2] or crate}::" if path["path"] else path[0], text)
    text = text.replace("](crate::", "](super::")  # Links in pages, of which those of a lib.rt name no crate.
    # Examples in pages are programs in Rattle.
    text = re.sub(r"^( *//[/!]) ```$(?=\n *//[/!] .)", r"\1 ```text", text, flags=re.M)
    return FIRST_LINE.format(crate) + text


def modules(folder: Path, crates: list, left_out: list, replacements: list) -> dict:
    """The modules of a folder by their paths."""
    made, counts = {}, [0] * len(replacements)
    for crate in crates:
        for path in sorted((TOP / f"crates/hound_{crate}/src").glob("*.rt")):
            if f"{crate}/{path.name}" not in left_out:
                name = "mod.rs" if path.name == "lib.rt" else path.stem + ".rs"
                made[folder / crate / name] = erased(crate, path, left_out, replacements, counts)
    made[folder / "mod.rs"] = "//! The proved code, without its contracts: scripts/erase.py makes it.\n" + "".join(
        f"pub mod {crate};\n" for crate in crates)
    wrong = [f"{count} times instead of {entry.times}: {entry.file}: {entry.old}"
             for entry, count in zip(replacements, counts)
             if count != entry.times and (entry.file != "*" or crates == CRATES)]
    if wrong:
        raise SystemExit("erase: " + "\nerase: ".join(wrong))
    return {path: formatted(text) for path, text in made.items()}


def formatted(text: str) -> str:
    if not shutil.which("rustfmt"):
        raise SystemExit("erase: it needs rustfmt")
    return subprocess.run(RUSTFMT, input=text, capture_output=True, text=True, check=True).stdout


def main() -> None:
    if len(sys.argv) == 3 and sys.argv[1] == "--whole":
        made, there = modules(Path(sys.argv[2]), WHOLE_CRATES, WHOLE_LEFT_OUT, WHOLE_REPLACEMENTS), {}
    else:
        made = modules(MADE, CRATES, LEFT_OUT, REPLACEMENTS)
        there = {path: path.read_text() for path in MADE.rglob("*.rs")}
    differ = sorted(path for path in made.keys() | there.keys() if made.get(path) != there.get(path))
    if sys.argv[1:] == ["--check"]:
        for path in differ:
            print(f"erase: {path.relative_to(TOP)} isn't what scripts/erase.py makes")
        sys.exit(1 if differ else 0)
    if sys.argv[1:] and sys.argv[1] != "--whole":
        raise SystemExit(__doc__)
    for path in differ:
        if path in made:
            path.parent.mkdir(parents=True, exist_ok=True)
            path.write_text(made[path])
        else:
            path.unlink()
    print(f"erase: {len(made)} modules, {len(differ)} of them changed")


if __name__ == "__main__":
    main()
