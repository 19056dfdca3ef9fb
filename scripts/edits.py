"""The edits of each crate, which are in its file `mutants.edits`: a mutant is a deliberate bug, which the prover has to
reject, and a twin is a harmless edit of the same place, which it has to accept. Each edit is a paragraph:

    mutant: NAME        (or `twin: NAME`, after the mutant of that name)
    long: WHY           (of a twin that the short run leaves out, with its mutant)
    file: PATH          (in the crate)
    function: NAME      (the one that the prover rejects, where the edit is in none, as in a table that it reads)
    old: TEXT           (a line that is in the file exactly once)
    new: TEXT           (what is there instead; such pairs of lines may follow one another)

The name begins with the function or the constant that the edit changes."""
import dataclasses
import os
import re

TOP = os.path.dirname(os.path.dirname(os.path.abspath(__file__)))
FUNCTION = re.compile(r"^( *)(?:pub(?:\([a-z]+\))? )?(?:const |extern \"C\" )?fn (\w+)", flags=re.M)
BLOCK = re.compile(r"^(?:pub )?(impl|trait)\b(.*?)(?: where.*)?\{?$", flags=re.M)
TOKENS = {"&mut": "ref_mut", "&": "ref", "[": "slice"}


def crates():
    """The libraries of each crate, lowest first, and whether it is a static library."""
    with open(os.path.join(TOP, "crates.txt")) as file:
        lines = re.findall(r"^(\w+)( staticlib)?:(.*)$", file.read(), flags=re.M)
    return {name: (bool(static), libraries.split()) for name, static, libraries in lines}


@dataclasses.dataclass(frozen=True)
class Edit:
    """An edit of a crate: its file, what is in there, and the texts that change."""

    crate: str
    kind: str
    name: str
    file: str
    text: str
    pairs: tuple
    function: str  # As the prover names it.
    is_long: bool

    def apply(self, folder):
        """Makes the edit in a copy of its crate."""
        path = os.path.join(folder, self.file)
        with open(path) as file:
            text = file.read()
        for old, new in self.pairs:
            if text.count(old) != 1:
                raise ValueError(f"{self.crate}: {self.name}: its text isn't in the file exactly once")
            text = text.replace(old, new)
        with open(path, "w") as file:
            file.write(text)


def function_at(text, offset, file):
    """The function that is at an offset of a text, as the prover names it; none where none is there."""
    functions = [function for function in FUNCTION.finditer(text) if function.start() < offset]
    if not functions:
        return None
    margin, name = functions[-1].groups()
    end = re.compile(rf"^{margin}}}", flags=re.M).search(text, functions[-1].end())
    if not end or end.end() < offset:
        return None
    if not margin:
        module = os.path.basename(file)[: -len(".rt")]
        return name if module == "lib" else f"{module}::{name}"
    return f"{block_named(*BLOCK.findall(text[: functions[-1].start()])[-1])}::{name}"


def block_named(kind, header):
    """The name that the prover gives a block by its header, such as `DurableMedium` for `<M> Medium for Durable<M>`."""
    if kind == "trait":
        return re.search(r"\w+", header)[0]
    generics = re.match(r"<((?:[^<>]|<[^<>]*>)*)>", header)
    of_trait, _, of_type = header[generics.end() if generics else 0 :].rpartition(" for ")
    unnamed = re.findall(r"'?\b\w+(?=\s*[:,]|$)", generics[1]) if generics else []
    if of_trait.strip() in ("", "Drop"):
        return "+".join(words_of(of_type, unnamed))
    named, _, arguments = of_trait.partition("<")
    words = [*(words_of(of_type, unnamed) or ["any"]), named.rpartition("::")[2].strip(), *words_of(arguments, unnamed)]
    return "".join(part[0].upper() + part[1:] for word in words for part in word.split("_"))


def words_of(text, unnamed):
    """The words of a type, as the prover's names have them, without the parameters of its block."""
    tokens = re.findall(r"&mut\b|&|\[|'?\w+", text)
    return [TOKENS.get(token, token) for token in tokens if token not in unnamed and token[0] != "'"]


def path_of(crate):
    return os.path.join(TOP, "crates", crate, "mutants.edits")


def edits_of(crate, kind=None):
    """The edits of a crate, or those of one kind, in the order of its file; none where it has no such file."""
    if not os.path.exists(path_of(crate)):
        return []
    with open(path_of(crate)) as file:
        paragraphs = file.read().strip().split("\n\n")
    found = [edit_of(crate, [line.partition(": ")[::2] for line in text.split("\n")]) for text in paragraphs]
    return [edit for edit in found if kind in (None, edit.kind)]


def edit_of(crate, lines):
    """The edit that the lines of a paragraph describe, each as a word and what follows it."""
    words = dict(lines)
    with open(os.path.join(TOP, "crates", crate, words["file"])) as file:
        text = file.read()
    texts = {word: [text for other, text in lines if other == word] for word in ("old", "new")}
    kind = lines[0][0]
    pairs = tuple(zip(texts["old"], texts["new"], strict=True))
    last = pairs[-1][0]
    function = words.get("function") or function_at(text, text.find(last) + len(last), words["file"])
    return Edit(crate, kind, words[kind], words["file"], text, pairs, function, "long" in words)


def texts_with(edits):
    """The texts of the files once all of these edits are made; none where one of them can't be made after the others."""
    texts = {}
    for edit in edits:
        text = texts.get((edit.crate, edit.file), edit.text)
        for old, new in edit.pairs:
            if text.count(old) != 1:
                return None
            text = text.replace(old, new)
        texts[edit.crate, edit.file] = text
    return texts


def can_be_made_with(edit, others):
    """Whether an edit can be made with these, before and after them."""
    others = [other for other in others if (other.crate, other.file) == (edit.crate, edit.file)]
    return bool(texts_with([*others, edit]) and texts_with([edit, *others]))
