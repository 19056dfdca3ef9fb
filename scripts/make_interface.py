#!/usr/bin/env python3
"""Writes what the packages have of hound.h: errors with their codes and sentences, the names of kinds of files,
structs, constants, and the version; and in hound.h itself the layout of its structs. It is between two lines of a file,
of which the first one names this script; the version is wherever VERSIONS says. It compares the tables of pairs of bits
and bytes, too, and looks whether each package uses each name of the enums.

usage: scripts/make_interface.py           writes the files
       scripts/make_interface.py --check   writes none, and fails where one would change"""
import os
import re
import sys

TOP = os.path.dirname(os.path.dirname(os.path.abspath(__file__)))
HEADER = "bindings/c/hound.h"
BEGIN, END = "made from hound.h by scripts/make_interface.py", "The end of what is made from hound.h"
BITS = {"uint8_t": 8, "uint16_t": 16, "uint32_t": 32, "uint64_t": 64}


def read(path):
    with open(os.path.join(TOP, path)) as file:
        return file.read()


HOUND_H = read(HEADER)


def fail(words):
    sys.exit(f"interface: {words}")


def bodies_of_enums():
    return re.findall(r"^enum \{(.*?)\};", re.sub(r"/\*.*?\*/", "", HOUND_H, flags=re.S), flags=re.S | re.M)


def constants():
    """The number of each constant, by its name without HOUND_."""
    numbers = {}
    for body in bodies_of_enums():
        number = -1
        for name, given in re.findall(r"HOUND_(\w+)(?:\s*=\s*(-?\d+))?", body):
            number = int(given) if given else number + 1
            numbers[name] = number
    return numbers


def names_from(first):
    """The names of the enum that begins with this one."""
    enums = [re.findall(r"HOUND_(\w+)", body) for body in bodies_of_enums()]
    return next(names for names in enums if names[0] == first)


def errors():
    """Name, code without its sign, and sentence, in the order of the codes."""
    sentences = re.findall(r'^    case HOUND_(\w+):\s+return ((?:"[^"]*"\s*)+);', HOUND_H, flags=re.M)
    coded = sorted(
        (-NUMBERS[name], name, "".join(re.findall(r'"([^"]*)"', parts)))
        for name, parts in sentences
        if NUMBERS[name] < 0
    )
    if [code for code, _, _ in coded] != list(range(1, -min(NUMBERS.values()) + 1)):
        fail(f"{HEADER} has an error without a code or a sentence of its own")
    return [(name, code, sentence) for code, name, sentence in coded]


def structs():
    """The fields of each struct by its name without hound_ and _t: their names, types, how many, and where; and its
    size."""
    found = {}
    for body, name in re.findall(r"^typedef struct \{\n(.*?)^\} hound_(\w+?)(?:_t)?;", HOUND_H, flags=re.S | re.M):
        fields, place = [], 0
        for kind, names in re.findall(r"(\w+) (\w[\w, \[\]]*);", re.sub(r"/\*.*?\*/", "", body, flags=re.S)):
            for field in names.split(", "):
                field, count = re.fullmatch(r"(\w+)(?:\[HOUND_(\w+)\])?", field).groups()
                size = BITS[kind] // 8 if kind in BITS else found[kind.removeprefix("hound_")][1]
                align = size if kind in BITS else 4 if kind == "hound_spec" else 8
                if place % align:
                    fail(f"{name}.{field} isn't where it would be by itself")
                fields.append((field, kind, count, place))
                place += size * (NUMBERS[count] if count else 1)
        found[name] = fields, place
    return found


def version_of_header():
    return ".".join(re.findall(r"^#define HOUND_VERSION_(?:MAJOR|MINOR|PATCH) (\d+)$", HOUND_H, flags=re.M))


def version_number(version):
    """The number of a version, as HOUND_VERSION_NUMBER has it."""
    major, minor, patch = map(int, version.split("."))
    return major << 16 | minor << 8 | patch


def kinds_of_files():
    """The number and the name of each kind of file that hound_kind_text names."""
    cases = re.findall(r'^    case (HOUND_\w+|\d+): return "([^"]*)";', HOUND_H, flags=re.M)
    named = [(NUMBERS[case[6:]] if case.startswith("HOUND_") else int(case), name) for case, name in cases]
    return [(number, name) for number, name in named if number >= 0]


NUMBERS = constants()
# The enums of which no package may lack a name: the kinds of effects, without that of no effect; the formats of
# samples; how a file was found; what a repairer does, and what a recorder may do.
EFFECTS, FORMATS = names_from("NOTHING")[1:], names_from("INT")
STATES, MODES, ALLOWED = names_from("WHOLE"), names_from("FIND_DAMAGE"), names_from("MEND")
ERRORS = errors()
STRUCTS = structs()
FILES = kinds_of_files()


def camel(name):
    return "".join(word.capitalize() for word in name.split("_"))


def wrapped(items, indent, separator, width=118):
    """Lines of these items, with a separator between them."""
    lines, line = [], ""
    for item in items:
        if line and len(line + separator + item) > width:
            lines.append(line)
            line = ""
        line = line + separator + item if line else indent + item
    return [*lines, line]


def lines_of_errors(form, long_form, indent):
    """A line for each error in this form; one that would have more than 120 columns is in the long form, in which the
    sentence has two parts, the second of them being what is in parentheses at its end."""
    lines = []
    for name, code, sentence in ERRORS:
        line = form.format(name=name, code=code, sentence=sentence)
        if indent + len(line) > 120:
            first, _, second = sentence.partition("(")
            line = long_form.format(name=name, code=code, first=first, second="(" + second)
        lines += line.split("\n")
    return lines


# hound.h


def layout_c():
    lines = []
    for name, (fields, size) in STRUCTS.items():
        struct = f"hound_{name}" + "_t" * (f"}} hound_{name}_t;" in HOUND_H)
        places = [f"offsetof({struct}, {field}) == {place}" for field, _, _, place in fields[1:]]
        facts = [f"sizeof({struct}) == {size}", *places]
        asserted = wrapped(facts, "", " && ", 100)
        lines += [f"HOUND_ASSERT({asserted[0]}", *(f"             && {line}" for line in asserted[1:])]
        lines[-1] += ");"
    return lines


# Rust


def files_rust():
    return wrapped([f'({number}, "{name}"),' for number, name in FILES], "", " ", 116)


# Python


def files_python():
    return [f'{number}: "{name}",' for number, name in FILES]


def errors_python():
    long_form = '{name} = (\n    {code},\n    "{first}"\n    "{second}",\n)'
    return lines_of_errors('{name} = {code}, "{sentence}"', long_form, 4)


def type_python(kind, count):
    kind = f"ctypes.c_uint{BITS[kind]}" if kind in BITS else f"C{camel(kind[6:])}"
    return f"{kind} * {NUMBERS[count]}" if count else kind


def structs_python():
    lines = [f"{', '.join(names)} = {', '.join(str(NUMBERS[name]) for name in names)}" for names in (MODES, ALLOWED)]
    lines += [f"{name} = {NUMBERS[name]}" for name in ("HEADER_BYTES", "NOTHING_NEW", "KIND_RIFX", "KIND_FLOAT64")]
    for name, (fields, _) in STRUCTS.items():
        lines += ["", "", f"class C{camel(name)}(ctypes.Structure):", "    _fields_ = ["]
        lines += [f'        ("{field}", {type_python(kind, count)}),' for field, kind, count, _ in fields] + ["    ]"]
    return lines


def kinds_python():
    return [
        f"{', '.join(names)} = {', '.join(str(NUMBERS[name]) for name in names)}"
        for names in (EFFECTS, ("DONE", "FAILED"))
    ]


# JavaScript


def errors_js():
    long_form = '{name}: [\n  {code},\n  "{first}" +\n    "{second}",\n],'
    return lines_of_errors('{name}: [{code}, "{sentence}"],', long_form, 2)


def constants_js():
    lines = [f"const VERSION = {version_number(version_of_header())};"]
    for names in (
        ["INT", "FLOAT", "EFFECT_BYTES", "DONE", "FAILED"],
        EFFECTS,
        [*MODES, *ALLOWED],
        ["NOTHING_NEW", "KIND_UNKNOWN", "KIND_RIFX", "KIND_FLOAT64"],
    ):
        lines.append(f"const [{', '.join(names)}] = [{', '.join(str(NUMBERS[name]) for name in names)}];")
    lines.append(f"const STATES = [{', '.join(states_js())}];")
    lines.append("const LAYOUT = {")
    for name, (fields, size) in STRUCTS.items():
        places = [f"{re.sub(r'_(.)', lambda at: at[1].upper(), field)}: {place}" for field, _, _, place in fields]
        one = wrapped([*places, f"size: {size}"], "", ", ", 111 - len(name))
        lines += [f"  {name}: {{ {one[0]}" + ("," if len(one) > 1 else " },"), *(f"    {line}," for line in one[1:-1])]
        lines += [f"    {one[-1]} }},"] if len(one) > 1 else []
    return [*lines, "};"]


def states_js():
    return [f'"{camel(name)[0].lower()}{camel(name)[1:]}"' for name in STATES]


def files_js():
    return [f'[{number}, "{name}"],' for number, name in FILES]


def codes_ts():
    names = wrapped([f'"{name}"' for name, _, _ in ERRORS], "  | ", " | ")
    return [f"export type State = {' | '.join(states_js())};", "export type Code =", *names]


# Each part that is made, by the words of the line before it.
PARTS = [
    (HEADER, "The layout of the structs", layout_c),
    ("bindings/hound/src/slices.rs", "The names of kinds of files", files_rust),
    ("bindings/python/hound_bindings/_library.py", "The errors", errors_python),
    ("bindings/python/hound_bindings/_library.py", "The constants and structs", structs_python),
    ("bindings/python/hound_bindings/_library.py", "The names of what files are", files_python),
    ("bindings/python/hound_bindings/_library.py", "The kinds of effects, and how one ended", kinds_python),
    ("bindings/js/hound.js", "The errors", errors_js),
    ("bindings/js/hound.js", "The constants, and where fields are", constants_js),
    ("bindings/js/hound.js", "The names of kinds of files", files_js),
    ("bindings/js/hound.d.cts", "The names of states and errors", codes_ts),
]
# The names that each of these files and folders has to use outside of such parts, and how it writes them: a name that
# is new in hound.h is one that no code of a package knows yet.
USES = [
    ("bindings/c/hound_file.h", r"\bHOUND_{}\b", EFFECTS),
    ("bindings/c/board.c", r"\bHOUND_{}\b", EFFECTS),
    ("bindings/python/hound_bindings", r"\b_?{}\b", [*EFFECTS, *STATES, *MODES]),
    ("bindings/js", r"\b{}\b", [*EFFECTS, *FORMATS, *MODES, *ALLOWED]),
    ("bindings/js", r"\b{}: ", [name.strip('"') for name in states_js()]),
]
# Where the version is, and the text that has it there.
VERSIONS = [
    ("bindings/hound/Cargo.toml", '\nversion = "3.5.1+rattle.{}"\n'),
    ("bindings/hound/README.md", "names version 3.5.1+rattle.{}.\n"),
    ("bindings/python/pyproject.toml", '\nversion = "{}"\n'),
    ("bindings/python/hound_bindings/_library.py", '\n__version__ = "{}"\n'),
    ("bindings/js/package.json", '"version": "{}",\n'),
    ("CHANGELOG.md", "# Changes\n\n## {} "),
]


# The number of the version, which the library returns.
VERSION_NUMBER = (
    "crates/hound_c/src/lib.rt",
    "fn hound_version() -> i32\n    ensures {{ result ≡ pos {0} }}\n{{\n    {0}\n}}",
)

# Tables of the pairs of bits and bytes that are read and written, which have to be that of the specification.
PAIRS = "crates/hound_spec/specs/Header.antt", r"^pairs \w+ = (.*)$"
TABLES = [
    ("bindings/python/hound_bindings/_library.py", r"^(?:INTEGERS|FLOATS) = (.*)$"),
    ("bindings/js/page/page.js", r"^const FORMS = (.*)$"),
    ("bindings/tests/repairs.py", r"^    pairs = (.*)$"),
    ("crates/hound_rows/expected.py", r"^PAIRS = (.*)$"),
    ("crates/hound_sample/src/lib.rt", r"^ +\((\d+, \d+)\) => \$call"),
]
# What names their bits alone: a sentence, and what is guessed or chosen from.
CHOICES = [
    (HEADER, r"not read or written \((.*)\)"),
    ("bindings/js/guess.js", r"^const SAMPLE_FORMS = (.*)$"),
    ("bindings/js/page/page.js", r"^const READS = .* integers of (.*) bits, and"),
    ("README.md", r"^\| Samples \| (.*) \|$"),
]


def pairs_of(path, form):
    """The pairs of bits and bytes in the lines of this form."""
    return set(re.findall(r"\b(\d+), (\d)\b", " ".join(re.findall(form, read(path), flags=re.M))))


def unused():
    """The names that a file or folder has to use, and doesn't."""
    made = re.compile(rf"{BEGIN}.*?{END}", flags=re.S)
    for place, form, names in USES:
        paths = [place]
        if os.path.isdir(os.path.join(TOP, place)):
            names_there = os.listdir(os.path.join(TOP, place))
            paths = [os.path.join(place, name) for name in names_there if "." in name and not name.endswith(".wasm")]
        code = "".join(made.sub("", read(path)) for path in paths)
        yield from (f"{name} ({place})" for name in names if not re.search(form.format(name), code))


def with_part(path, text, words, lines):
    """The text of a file with these lines in a part of it, indented as its first line."""
    made = re.compile(rf"^([ \t]*)(\S+ {re.escape(words)}, {BEGIN}[^\n]*\n).*?^(?=[ \t]*\S+ {END})", flags=re.S | re.M)
    at = made.search(text)
    if not at:
        fail(f"{path} has no part '{words}'")
    body = "".join(f"{at[1]}{line}".rstrip() + "\n" for line in lines)
    return text[: at.start()] + at[1] + at[2] + body + text[at.end() :]


def with_version(path, text, form, version):
    """The text of a file with the version in it, where the form has braces."""
    before, after = form.split("{}")
    if path == "CHANGELOG.md":  # What changed isn't made.
        return text if form.replace("{}", version) in text else fail(f"{path}: its first version isn't {version}")
    found = re.subn(re.escape(before) + r"\d+\.\d+\.\d+" + re.escape(after), lambda _: before + version + after, text)
    return found[0] if found[1] == 1 else fail(f"{path} has no version as in {form!r}")


def main():
    if sys.argv[1:] not in ([], ["--check"]):
        fail(__doc__.split("\n\n")[1])
    version = version_of_header()
    if f'#define HOUND_VERSION "{version}"\n' not in HOUND_H:
        fail(f"{HEADER}: the version isn't {version}, as its numbers are")
    files = {path: read(path) for path, *_ in PARTS + VERSIONS}
    before = dict(files)
    for path, words, make in PARTS:
        files[path] = with_part(path, files[path], words, make())
    for path, form in VERSIONS:
        files[path] = with_version(path, files[path], form, version)
    path, form = VERSION_NUMBER
    if form.format(version_number(version)) not in read(path):
        fail(f"{path}: hound_version doesn't return the number of {version}")
    for path, form in TABLES:
        if pairs_of(path, form) != pairs_of(*PAIRS):
            fail(f"{path} has other pairs of bits and bytes than {PAIRS[0]}")
    for path, form in CHOICES:
        named = re.findall(r"\d+", " ".join(re.findall(form, read(path), flags=re.M)))
        if set(named) != {bits for bits, _ in pairs_of(*PAIRS)}:
            fail(f"{path} names other bits than {PAIRS[0]}")
    if list(unused()):
        fail(f"no code uses {', '.join(unused())}")
    changed = [path for path in files if files[path] != before[path]]
    if sys.argv[1:] and changed:
        fail(f"scripts/make_interface.py changes {', '.join(changed)}")
    for path in [] if sys.argv[1:] else changed:
        with open(os.path.join(TOP, path), "w") as file:
            file.write(files[path])
    made = f"{len(ERRORS)} errors, {len(STRUCTS)} structs and the version"
    print(f"interface: {made} are those of hound.h in {len(files)} files")


if __name__ == "__main__":
    main()
