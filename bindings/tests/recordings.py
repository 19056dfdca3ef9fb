"""What the tests of programs of bindings/c share: how these are compiled, also with a part changed, and what they leave
of a recording."""
import os
import subprocess
import sys

TOP = os.path.dirname(os.path.dirname(os.path.dirname(os.path.abspath(__file__))))
C = os.path.join(TOP, "bindings", "c")


class Wrong(Exception):
    """A program, or what it leaves, isn't as it has to be."""


def expect(what, holds):
    if not holds:
        raise Wrong(what)


def contents_of(path):
    with open(path, "rb") as file:
        return file.read()


def text_of(name):
    """A program of bindings/c, with the header in it that performs what it requests."""
    program, performing = (contents_of(os.path.join(C, file)).decode() for file in (name + ".c", "hound_file.h"))
    return program.replace('#include "hound_file.h"\n', performing)


def changed(text, part, other):
    """The same text with another part, which is in it once."""
    if text.count(part) != 1:
        sys.exit(f"{os.path.basename(sys.argv[0])}: a program has {text.count(part)} times: {part}")
    return text.replace(part, other)


def compiled(folder, name, text):
    """The program of this text, with the library that the packages take."""
    program = os.path.join(folder, name)
    with open(program + ".c", "w") as file:
        file.write(text)
    library = os.environ.get("HOUND_C_LIB") or os.path.join(TOP, "bindings", "lib", os.uname().machine + "-linux")
    words = [os.environ.get("CC", "cc"), "-O1", "-w", "-I" + C, program + ".c", os.path.join(library, "libhound_c.a")]
    subprocess.run([*words, "-o", program], check=True)
    return program


def part_name(path, number):
    return path if number == 1 else f"{path[:-4]}-{number:03}.wav"


def parts_at(path):
    """The files of a recording in their order; no other one is there."""
    count = len(os.listdir(os.path.dirname(path)))
    names = [part_name(path, number) for number in range(1, count + 1)]
    expect("a file is missing, or another one is there", all(map(os.path.exists, names)))
    return names


def accepted_by(out, given, width):
    """The samples that record.c says to have recorded, of so many bytes each, but for those that it says to have
    lost."""
    for line in out.splitlines():
        words = line.split()
        if words[0] == b"lost":
            count, place = width * int(words[1]), width * int(words[4])
            given = given[:place] + given[place + count :]
        elif words[0] == b"recorded":
            given = given[: width * int(words[1])]
    return given
