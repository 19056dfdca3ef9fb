#!/usr/bin/env python3
"""Checks that README and docs/ name only what is there, and that what they show is what is tested.

usage: scripts/check_docs.py

It looks at links, their headings included, and at what is between backticks and is one name or path: a name has to be
in the crates' sources or in a script, a path has to be a file of the repository or of a crate. Names of others are
listed below. It also looks that
- each word of specs/ that a contract of a public function uses has a comment where it is defined;
- each contract that docs/PROVING.md quotes is in the code;
- the first example of docs/USING.md's "Record and read", the lines that it says pass, and each example of a
  documentation comment are in functions that a test runs or that are proved;
- docs/TESTING.md has the numbers of rows and of mutants;
- the text of each mutant, and of each twin, is in its file once, and in a function, and the name of a mutant begins
  with the function, or the constant, that it changes (without the hound_ of an export); no two mutants of a crate are
  the same edit;
- no line of the code has more than 120 columns."""
import glob
import os
import re
import subprocess
import sys

from edits import crates, edits_of

TOP = os.path.dirname(os.path.dirname(os.path.abspath(__file__)))
PAGES = ["README.md"] + sorted("docs/" + name for name in os.listdir(os.path.join(TOP, "docs")) if name.endswith(".md"))
LIBRARY = r"crates/hound(_number|_spec|_sample|_medium|_durable|_walk|_reader|_writer|_repair|_slices|_c)?"
# Names of Rust, of the kit, of other programs, of the original crate (its private functions), and of hound_bindings of
# Cargo, which is gone.
FOREIGN = set(
    "ReadExt WriteExt x86-64 MutRef MutRefTo crates/mine crates/mine/src/main.rt _cut iter_next iter_size_hint "
    "update_header read_append write_headers write_u16_le_unchecked ChunkHeader ChunkKind FmtKind read_4_bytes "
    "read_chunk_header read_le_i16 write_le_i16 Mode decode_scaled encode_scaled header_to drwav".split()
)


def sources():
    """Every file of the crates that was written by hand, the scripts, the bindings, and the names of cases."""
    yield os.path.join(TOP, "docs", "speed.tsv")
    for place in ("scripts/*", "scripts/*/*", "doubt/*", "doubt/*/*", "bindings/*", "bindings/*/*", "bindings/*/*/*"):
        for path in glob.glob(os.path.join(TOP, place)):
            if os.path.isfile(path) and not path.endswith((".o", ".a", ".so", ".wasm", ".pyc", ".html")):
                yield path
    for folder, folders, files in os.walk(os.path.join(TOP, "crates")):
        folders[:] = [name for name in folders if name not in ("out", "target")]
        for name in files:
            if name.endswith((".rt", ".antt", ".edits", ".sh", ".py")) or name == "stdin":
                yield os.path.join(folder, name)


def read(path):
    with open(os.path.join(TOP, path)) as file:
        return file.read()


def public_functions(text, public):
    """The text of each function that the library's root gives."""
    text = re.sub(r"//.*", "", text)
    for item in re.split(r"^(?=pub |impl|fn |struct |enum |mod |use |trait |pub\(crate\))", text, flags=re.M):
        function = re.match(r"pub fn (\w+)", item)
        trait = re.match(r"pub trait (\w+)", item)
        block = re.match(r"impl(?:<[^{]*?>)? (?:(\w[\w:]*)(?:<[^{]*?>)? for )?(&?[\w:]+)", item)
        if function or trait:
            if (function or trait).group(1) in public:
                yield item
        elif block and block.group(2).split("::")[-1] in public | {"BufWriter"}:
            if block.group(1) is None:
                for part in re.split(r"(?=^    (?:#\[|pub|fn))", item, flags=re.M):
                    if part.lstrip().startswith("pub fn"):
                        yield part
            elif block.group(1) != "Model":
                yield item


def public_words(paths):
    """The words of the library's specs/ that the contracts of its public functions use."""
    public = set(re.findall(r"\w+", " ".join(re.findall(r"pub use ([^;]*);", read("crates/hound/src/lib.rt")))))
    words, used = set(), set()
    for path in paths:
        if re.match(LIBRARY + r"/specs/.*(?<!/Lib)\.antt$", path):
            form = r"^(?:abbrev |unfoldable )?pub (?:record |data )?([^\s:({]+)"
            words.update(re.findall(form, read(path), flags=re.M))
    for path in paths:
        if not re.match(LIBRARY + r"/src/.*\.rt$", path) or path.startswith("crates/hound_number/"):
            continue
        for function in public_functions(read(path), public):
            for clause in re.finditer(r"(?:requires|ensures)\s*(?:\w+\s*)?\{", function):
                depth, end = 1, clause.end()
                while depth and end < len(function):
                    depth += (function[end] == "{") - (function[end] == "}")
                    end += 1
                used.update(re.findall(r"[^\s(){}.,;]+", function[clause.end() : end - 1]))
    return words & used


def unquoted(paths):
    """Parts of docs/PROVING.md that are shown as code and are not in the sources, word for word; a
    blank line or '..' parts them."""
    code = [" ".join(re.sub(r"//.*", "", read(path)).split()) for path in paths if path.endswith((".rt", ".antt"))]
    for block in re.findall(r"```rust\n(.*?)```", read("docs/PROVING.md"), flags=re.S):
        for part in re.split(r"\n\n|^\.\.$", block, flags=re.M):
            part = " ".join(part.split())
            if part and not any(part in one for one in code):
                yield part


def without_comment():
    """Words of public contracts whose definition has no comment."""
    words = [os.path.join(TOP, "scripts", "definitions.py"), "--check"]
    lines = subprocess.run(words, capture_output=True, text=True).stderr.split("\n")
    return {re.search(r": (\S+) has no comment", line).group(1) for line in lines if line}


def wrong_links(pages):
    """Links of pages to a file, or to a heading, that isn't there."""
    for page in pages:
        for path, heading in re.findall(r"\]\(([^)#:]*)#?([^):]*)\)", re.sub(r"```.*?```", "", read(page), flags=re.S)):
            target = os.path.normpath(os.path.join(os.path.dirname(page), path)) if path else page
            if not os.path.exists(os.path.join(TOP, target)):
                yield page, path
            elif heading and heading not in map(anchor, re.findall(r"^#+ (.*)$", read(target), flags=re.M)):
                yield page, f"{path}#{heading}"


def anchor(heading):
    """What a link to a heading has after the #."""
    return re.sub(r"[^\w -]", "", heading.lower()).replace(" ", "-")


def squeezed(text):
    """A text without comments, spaces and the commas before a closing bracket."""
    return re.sub(r",(?=[})\]])", "", re.sub(r"\s+", "", re.sub(r"//.*", "", text)))


def untested(paths):
    """Code that the pages and the documentation of public items show and that no test or caller has."""
    tested = [squeezed(read(path)) for path in paths if re.match(r"crates/hound_(tests|callers)/src/.*\.rt$", path)]

    def is_tested(code):
        return any(squeezed(code) in text for text in tested)

    using = read("docs/USING.md")
    example = re.search(r"## Record and read\n.*?```rust\n(.*?)```", using, flags=re.S)
    if not example or not is_tested(example.group(1)):
        yield "docs/USING.md", "the example of 'Record and read'"
    passing = using[using.index("## Code that passes the check") : using.index("## How conditions are met")]
    for block in re.findall(r"```rust\n(.*?)```", passing, flags=re.S):
        for group in block.strip().split("\n\n"):
            # What the check prints, the line that it rejects, and what passes.
            for line in group.split("\n")[2:]:
                code = re.sub(r"\{ \.\..*\}$", "{", re.sub(r"//.*", "", line).strip()).rstrip(",")
                if not is_tested(code):
                    yield "docs/USING.md", line
    for path in paths:
        if not re.match(LIBRARY + r"/src/.*\.rt$", path):
            continue
        for block in re.findall(r"^ *//[/!] ```\n(.*?)^ *//[/!] ```", read(path), flags=re.M | re.S):
            if not is_tested(re.sub(r"^use .*;$", "", re.sub(r"^ *//[/!] ?", "", block, flags=re.M), flags=re.M)):
                yield path, block.strip().split("\n")[0]


def miscounted():
    """What the pages count in another way than the repository has it."""
    with open(os.path.join(TOP, "crates", "hound_rows", "stdin")) as file:
        rows = sum(1 for line in file if line.strip() and not line.startswith("#"))
    every = len(all_edits("mutant"))
    twins = all_edits("twin")
    tried = sum(twin.crate == "hound_writer" and not twin.is_long for twin in twins)
    for said in (f"{rows:,} lines", f"| {every}; {len(twins)}; {tried} |"):
        if said not in read("docs/TESTING.md"):
            yield "docs/TESTING.md", said


def all_edits(kind=None):
    """The mutants and twins of all crates, or those of one kind."""
    return [edit for crate in crates() for edit in edits_of(crate, kind)]


def misfits():
    """The edits of mutants and twins whose text isn't in their file exactly once, or that are in no function."""
    for edit in all_edits():
        for old, _ in edit.pairs:
            if edit.text.count(old) != 1:
                yield f"{edit.crate}: {edit.name}", old
        if not edit.function:
            yield f"{edit.crate}: {edit.name}", "it is in no function, and names none"


def repeated():
    """The mutants of a crate that are the edit of another one."""
    seen = {}
    for edit in all_edits("mutant"):
        other = seen.setdefault((edit.crate, edit.file, edit.pairs), edit)
        if other is not edit:
            yield f"{edit.crate}: {edit.name}", other.name


def misnamed():
    """The mutants whose name doesn't begin with the function, or the constant, that they change; some add a type."""
    for edit in all_edits("mutant"):
        old = edit.pairs[-1][0]
        before = edit.text[: edit.text.find(old) + len(old)]
        items = re.findall(r"\bfn (\w+)|^(?:const|static) (\w+)", before, flags=re.M)
        changed = "".join(items[-1]).lower() if items else ""
        wanted = changed.removeprefix("hound_") if edit.crate == "hound_c" else changed
        if not edit.name.startswith(wanted + "_") and not old.startswith("impl "):
            yield f"{edit.crate}: {edit.name}", wanted


def too_long():
    """Lines of more than 120 columns in bindings/, scripts/, doubt/, the commands at the top, and the crates' src/,
    specs/ and proofs/. A long string counts nothing, so that it stays whole and a search for what is printed finds it.
    Left out are hound_c.c, which is made, and in the crates lists of names and data."""
    others = r"\s*((ghost |pub |unfoldable pub )?use |#\[tactic\(|\*b\"|\(0x13 |ghost counts: )"
    string = r"\"[^\"]{70,}\"|'[^']{70,}'"
    code = r"(bindings|scripts|doubt)/.*\.([cm]?[jt]s|c|h|py|rs|sh)|crates/\w+/(src|specs|proofs)/.*\.(rt|antt)"
    code += "|example|hound|mutants|test"
    for path in glob.glob("**", root_dir=TOP, recursive=True):
        is_code = re.fullmatch(code, path) and os.path.isfile(os.path.join(TOP, path))
        if not is_code or re.search(r"/(target|node_modules)/|/hound_c\.c$", path):
            continue
        for number, line in enumerate(read(path).split("\n"), 1):
            if not path.startswith("crates/"):
                line = re.sub(string + "|`[^`]{70,}`" * path.endswith("js"), "", line)
            if len(line) > 120 and not (path.startswith("crates/") and re.match(others, line)):
                yield f"{path}:{number}", f"{len(line)} columns"


def main():
    names, paths = set(), set()
    for path in sources():
        paths.add(os.path.relpath(path, TOP))
        with open(path, errors="replace") as file:
            text = file.read()
        names.update(re.findall(r"[A-Za-z_][\w-]*", text))
        names.update(re.findall(r"[A-Za-z_]\w*", text))
        names.add(os.path.splitext(os.path.basename(path))[0])
    names.update(os.listdir(os.path.join(TOP, "crates")))
    missing = []
    for page in PAGES:
        with open(os.path.join(TOP, page)) as file:
            text = re.sub(r"```.*?```", "", file.read(), flags=re.S)
        for quoted in re.findall(r"`([^`\n]+)`", text):
            if quoted in FOREIGN or re.fullmatch(r"\.\w+|.*/out", quoted) or os.path.exists(os.path.join(TOP, quoted)):
                continue
            if re.fullmatch(r"(\./)?[\w./-]*(/[\w.-]+|\.(md|rt|antt|txt|edit|sh))", quoted):
                path = quoted.removeprefix("./").rstrip("/")
                here = [os.path.join(TOP, path), os.path.join(TOP, "docs", path), os.path.join(TOP, "crates", path)]
                is_known = any(known.endswith("/" + path) for known in paths)
                if not is_known and not any(os.path.exists(one) for one in here):
                    missing.append((page, quoted))
            elif re.fullmatch(r"[A-Za-z_][\w-]*(::[A-Za-z_]\w*)*!?", quoted):
                for name in re.split("::", quoted.rstrip("!")):
                    if name not in names and name not in FOREIGN:
                        missing.append((page, quoted))
                        break
    missing += [("specs/, with a comment", word) for word in sorted(public_words(paths) & without_comment())]
    missing += [("docs/PROVING.md, in the code", part) for part in unquoted(paths)]
    missing += [(f"{page}, in a test", part) for page, part in untested(paths)]
    missing += wrong_links([*PAGES, *sorted(glob.glob("bindings/*/*.md", root_dir=TOP)), "scripts/README.md"])
    missing += misfits()
    missing += misnamed()
    missing += repeated()
    missing += miscounted()
    missing += too_long()
    for page, name in missing:
        print(f"{page}: not there, or not so: `{name}`", file=sys.stderr)
    if missing:
        sys.exit(1)
    print(f"docs: each name, file and example in {len(PAGES)} pages is there")


main()
