#!/usr/bin/env python3
"""Shows that bindings/hound/src/proved is the proved text of crates/hound_*/src: word by word, each module is its .rt
file without runs of ghost text, whose brackets are balanced, and but for the replacements of erase_table.py, as often
as that says. Comments, spaces, commas before a closing bracket, and braces around all of a match arm or of a closure
don't count, since rustfmt changes these. It shares nothing with erase.py but that table, and isn't told what it did.

usage: scripts/check_erased.py [FOLDER]     (of the modules, instead of bindings/hound/src/proved)
"""
import re
import sys
from pathlib import Path

from erase_table import CRATES, LEFT_OUT, REPLACEMENTS

TOP = Path(__file__).resolve().parent.parent
WORD = re.compile(r"""//[^\n]*|b?"(?:\\.|[^"\\])*"|b?'(?:\\.[^']*|[^'\\])'|\w+|\S""")
PAIRS = {")": "(", "]": "[", "}": "{"}


class Differs(Exception):
    pass


def words_of(text: str) -> list:
    words = [word for word in WORD.findall(text) if not word.startswith("//")]
    return [word for word, next_one in zip(words, words[1:] + [""]) if word != "," or next_one not in PAIRS]


def closing(words: list, at: int) -> int:
    """The number of the word that closes the bracket here; those within are balanced."""
    stack = []
    for number in range(at, len(words)):
        if words[number] in PAIRS.values():
            stack.append(words[number])
        elif words[number] in PAIRS:
            if not stack or stack.pop() != PAIRS[words[number]]:
                break
            if not stack:
                return number
    raise Differs("brackets that aren't balanced")


def after_ghosts(words: list, at: int) -> int:
    """Where the ghost run ends that begins here; the same place where none does."""
    first = at + (words[at:at + 2] == ["pub", "ghost"])
    if first == len(words) or words[first] not in ("ghost", "requires", "ensures"):
        return at
    if words[first + 1] == "use":
        return words.index(";", first) + 1
    while words[first] != "{":  # A name, and what says that a block follows.
        if not re.fullmatch(r"[\w:=*]+", words[first]):
            raise Differs("ghost text without a block")
        first += 1
    end = closing(words, first) + 1
    if "ghost" not in words[at:at + 2]:
        return end
    while words[end:end + 2] in (["=", "{"], ["by", "{"]):
        end = closing(words, end + 1) + 1
    return end + (words[end] in ";,")


def after_pattern(words: list, at: int, pattern: list) -> int:
    """Where the words end that a pattern of the table has here; -1 where they aren't here."""
    for number, word in enumerate(pattern):
        if word == "…":
            if pattern[number - 1] in PAIRS.values():
                at = closing(words, at - 1)
            else:
                while at < len(words) and after_pattern(words, at, pattern[number + 1:]) < 0:
                    if words[at] in ("{", "}", ";"):
                        return -1
                    at += 1
        elif words[at:at + 1] == [word]:
            at += 1
        else:
            return -1
    return at


def after_left_out(words: list, at: int, names: list) -> int:
    """Where a line ends that names a module which is left out, and begins here."""
    for name in names:
        if words[at:at + 3] == ["mod", name, ";"] or words[at:at + 3] == ["pub", "use", name]:
            return words.index(";", at) + 1
    return at


def end_of_arm(words: list, at: int) -> int:
    """The number of the brace that closes the one here, around a match arm or a closure; 0 if there is none here."""
    follows = words[max(at - 2, 0):at] == ["=", ">"] or words[max(at - 1, 0):at] == ["|"]
    return closing(words, at) if words[at:at + 1] == ["{"] and follows else 0


def compare(proved: list, erased: list, file: str, counts: list) -> int:
    """Walks along both texts, and returns how many ghost runs the first has more."""
    left_out = [name.split("/")[1][:-3] for name in LEFT_OUT if name.split("/")[0] == file.split("/")[0]]
    entries = [(number, words_of(entry.old), words_of(entry.new))
               for number, entry in enumerate(REPLACEMENTS) if entry.file in (file, "*")]
    if closing(["{", *erased, "}"], 0) != len(erased) + 1:
        raise Differs("brackets that aren't balanced")
    at = there = runs = 0
    loose = (set(), set())  # The numbers of closing braces that only one of both has, around a match arm or a closure.
    while at < len(proved) or there < len(erased):
        if (end := after_ghosts(proved, at)) > at:
            at, runs = end, runs + 1
        elif file.endswith("/lib.rt") and (end := after_left_out(proved, at, left_out)) > at:
            at = end
        elif change := next(((number, end, there + len(new)) for number, old, new in entries
                             if proved[at:at + 1] == old[:1] and erased[there:there + len(new)] == new
                             and (end := after_pattern(proved, at, old)) > at), None):
            number, at, there = change
            counts[number] += 1
        elif proved[at:at + 1] == erased[there:there + 1]:
            at, there = at + 1, there + 1
        elif proved[at:at + 1] == [","] and erased[there:there + 1] and erased[there] in PAIRS:
            at += 1
        elif end := end_of_arm(proved, at):
            loose[0].add(end)
            at += 1
        elif end := end_of_arm(erased, there):
            loose[1].add(end)
            there += 1
        elif at in loose[0]:
            at, there = at + 1, there + (erased[there:there + 1] == [","])
        elif there in loose[1]:
            at, there = at + (proved[at:at + 1] == [","]), there + 1
        else:
            texts = " ".join(proved[at:at + 12]), " ".join(erased[there:there + 12])
            raise Differs("proved: %s\n    erased: %s" % texts)
    return runs


def undone(text: str, crate: str) -> str:
    """The text with the paths of a crate of its own."""
    return re.sub(r"\bcrate::proved::(\w+)::", r"hound_\1::", text).replace(f"hound_{crate}::", "crate::")


def main() -> None:
    made = Path(sys.argv[1]) if sys.argv[1:] else TOP / "bindings/hound/src/proved"
    wrong, counts, files, total, runs = [], [0] * len(REPLACEMENTS), set(), 0, 0
    for crate in CRATES:
        for path in sorted((TOP / f"crates/hound_{crate}/src").glob("*.rt")):
            file = f"{crate}/{path.name}"
            module = made / crate / ("mod.rs" if path.name == "lib.rt" else path.stem + ".rs")
            if file in LEFT_OUT:
                continue
            files.add(module)
            try:
                erased = words_of(undone(module.read_text(), crate))
                runs += compare(words_of(path.read_text()), erased, file, counts)
                total += len(erased)
            except (Differs, OSError) as error:
                wrong.append(f"{module.relative_to(made)}: {error}")
    if words_of((made / "mod.rs").read_text()) != words_of("".join(f"pub mod {crate};" for crate in CRATES)):
        wrong.append("mod.rs: other modules")
    wrong += [f"{path.relative_to(made)}: of no .rt file" for path in made.rglob("*") if path.is_file()
              and path not in files | {made / "mod.rs"}]
    wrong += [f"{count} times instead of {entry.times}: {entry.file}: {entry.old}"
              for entry, count in zip(REPLACEMENTS, counts) if count != entry.times and not wrong]
    for line in wrong:
        print("check_erased: " + line)
    if wrong:
        sys.exit(1)
    print(f"check_erased: {total} words of {len(files)} modules are the proved ones, less {runs} ghost runs, "
          f"and but for {sum(counts)} replacements by {len(REPLACEMENTS)} entries")


if __name__ == "__main__":
    main()
