#!/usr/bin/env python3
"""Reads hostile files by the many: each by the library and by the model of the format that the rows
of hound_rows are made with (crates/hound_rows/expected.py), which have to agree.

usage: doubt/hostile.py [INPUTS]     (a million where no number is given)

An input is made from its number alone: fields at their edges, chunks that lie about their length,
cut and spliced. Each is read as integers and as floats, whole, one byte a read, and by blocks with
seven bytes a read. It needs python3, and proves and builds hound_rows first where it isn't built."""
import importlib.util
import multiprocessing
import os
import random
import struct
import subprocess
import sys
from collections import Counter

TOP = os.path.dirname(os.path.dirname(os.path.abspath(__file__)))
CRATE = os.path.join(TOP, "crates", "hound_rows")
PROGRAM = os.path.join(CRATE, "out", "hound_rows")
INPUTS_A_RUN = 500
# Each of these has to come at least ten times in so many inputs or more.
ENOUGH = 20_000
REJECTIONS = """IoError(Other)|Unsupported|no RIFF tag found|no WAVE tag found|missing data chunk
missing fmt chunk|invalid fmt chunk size|file contains zero channels
sample bits exceeds size of sample|inconsistent fmt chunk|bits per sample is not a multiple of 8
bits per sample is 0|unexpected fmt chunk size|bits per sample is not 8 or 16
unexpected WAVEFORMATEX size|bits per sample is not 32|unexpected WAVEFORMATEXTENSIBLE size
data chunk length is not a multiple of sample size|invalid data chunk length"""
ITEM_REJECTIONS = ["IoError(Other)", "Unsupported", "TooWide", "InvalidSampleFormat"]

# The most bytes after the WAVE tag that may be taken before the data.
LIMIT = 4294967295
SHORT_EDGES = [0, 1, 2, 3, 4, 7, 8, 9, 12, 15, 16, 17, 24, 31, 32, 33, 40, 64, 255, 256, 8192, 65528, 65534, 65535]
LENGTH_EDGES = [0, 1, 14, 15, 16, 17, 18, 19, 22, 39, 40, 41, 42, 44, 0x7FFFFFFF, 0xFFFFFFFF]
RATES = [44100, 44100, 8000, 48000, 96000, 1, 0, 0x10000, 0x80000000, 0xFFFFFFFF]
# Bits and bytes of a sample.
PAIRS = [(8, 1), (8, 1), (16, 2), (16, 2), (16, 2), (24, 3), (24, 3), (24, 4), (24, 4), (32, 4), (32, 4), (32, 4)]
PAIRS += [(16, 3), (40, 5), (8, 8191), (8, 8192)]
# Tags and lengths of fmt chunks.
KINDS = [(1, 16), (1, 16), (1, 18), (1, 40), (3, 16), (3, 18)]
KINDS += [(0xFFFE, 40), (0xFFFE, 40), (0xFFFE, 42), (0xFFFE, 43)]


class Format:
    """The fields of a fmt chunk: without a fault, but for its width and its rate."""

    def __init__(self, dice):
        self.tag, self.length = dice.choice(KINDS)
        self.bits, self.width = (32, 4) if self.tag == 3 else dice.choice(PAIRS)
        self.channels = dice.choice([1, 1, 1, 2, 2, 3, 5])
        self.rate = dice.choice(RATES)
        self.align = self.channels * self.width
        self.per_second = self.align * self.rate
        self.size = 22 if self.tag == 0xFFFE else 0
        self.valid = dice.choice([0, self.bits, self.bits, 8, 24, 0xFFFF])
        self.subformat, self.last = dice.choice([1, 1, 3]), 0x71

    def spoil(self, dice):
        """Puts one field at an edge."""
        field = dice.choice("tag channels rate per_second align bits bits length size subformat last".split())
        edges = {"tag": [0, 1, 2, 3, 0xFFFE, 0xFFFF], "rate": RATES, "length": LENGTH_EDGES, "last": range(256)}
        value = dice.choice(edges.get(field, SHORT_EDGES))
        if field == "per_second":
            value = self.per_second + dice.choice([1, 256, 0xFFFFFFFF])
        setattr(self, field, value)

    def chunk(self, dice):
        """The chunk, with at most 64 bytes of content."""
        fields = [self.tag, self.channels, self.rate, self.per_second & 0xFFFFFFFF, self.align & 0xFFFF, self.bits]
        content = struct.pack("<HHIIHH", *fields)
        content += struct.pack("<HHIH", self.size, self.valid, dice.randrange(8), self.subformat)
        content += bytes([0, 0, 0, 0, 16, 0, 128, 0, 0, 170, 0, 56, 155, self.last]) + any_bytes(24, dice)
        return b"fmt " + struct.pack("<I", self.length) + content[: min(self.length + self.length % 2, 64)]

    def data(self, dice):
        """A data chunk of this format."""
        frame = self.channels * self.width
        whole = dice.randrange(5) * frame
        length = whole
        if dice.randrange(10) < 3:
            length = dice.choice([whole + 1, whole + self.width, 1, 2, 0xFFFFFFF8, 0xFFFFFFFE, 0xFFFFFFFF])
        return chunk(b"data", length, length, dice)


def any_bytes(count, dice):
    return bytes(dice.choices([0, 1, 0x7F, 0x80, 0xFF, 0x64], k=count))


def chunk(tag, length, content, dice):
    """A chunk of so many bytes, which lack one or have one too many now and then."""
    count = content + dice.choice([-1, 1] + [0] * 10)
    return tag + struct.pack("<I", length & 0xFFFFFFFF) + any_bytes(max(0, min(count, 600)), dice)


def other_chunk(before, dice):
    """A chunk that says nothing of the samples, or a fact chunk."""
    most = LIMIT - (before - 12) - 8
    length = dice.choice([0, 1, 2, 4, 4, 7, 511, 512, 513])
    if dice.randrange(10) < 4:
        length = dice.choice([most - 1, most, most + 1, dice.choice(LENGTH_EDGES)])
    tag = dice.choice([b"LIST", b"FMT ", b"fact", b"fact", b"junk", b"junk"])
    return chunk(tag, length, length + length % 2, dice)


def changed(data, dice):
    """These bytes with another one at one place."""
    at = dice.randrange(len(data) + 1)
    return (data[:at] + bytes([dice.randrange(256)]) + data[at + 1 :])[: len(data)]


def file_of(dice):
    """A file with few faults."""
    data = b"RIFF" + dice.randbytes(4) + b"WAVE"
    if not dice.randrange(24):
        data = changed(data, dice)
    form = Format(dice)
    for _ in range(dice.choice([0, 0, 0, 1, 2])):
        form.spoil(dice)
    if not dice.randrange(4):
        data += other_chunk(len(data), dice)
    if not dice.randrange(8):
        data += Format(dice).chunk(dice)
    if dice.randrange(16):
        data += form.chunk(dice)
    if not dice.randrange(4):
        data += other_chunk(len(data), dice)
    if dice.randrange(24):
        data += form.data(dice)
    if not dice.randrange(4):
        data += other_chunk(len(data), dice)
    return data


def input_of(number):
    """The input with this number."""
    dice = random.Random(number)
    data = file_of(dice)
    if not dice.randrange(8):
        # The end of another file follows the beginning of this one.
        other = file_of(dice)
        data = data[: dice.randrange(len(data) + 1)] + other[dice.randrange(len(other) + 1) :]
    if not dice.randrange(6):
        data = changed(data, dice)
    if not dice.randrange(6):
        data = data[: dice.randrange(len(data) + 1)]
    return data


def rows_of(number):
    """What is asked of an input."""
    data = input_of(number).hex() or "-"
    for kind in ["i32", "f"]:
        yield f"read {data} : {kind}*8"
        yield f"read {data} cut=1 : {kind}*8"
        yield f"read {data} cut=7 : block:{kind}=3 block:{kind}=5*2"


def model():
    """The model of the rows."""
    spec = importlib.util.spec_from_file_location("expected", os.path.join(CRATE, "expected.py"))
    made = importlib.util.module_from_spec(spec)
    spec.loader.exec_module(made)
    return made


def compare(numbers):
    """Compares the answers on these inputs: how often each rejection came, and the first row that differs."""
    expected = model()
    rows = [row for number in numbers for row in rows_of(number)]
    ran = subprocess.run([PROGRAM], input="\n".join(rows) + "\n", stdout=subprocess.PIPE, text=True)
    answers = ran.stdout.split("\n")[:-1]
    if ran.returncode or len(answers) != len(rows):
        return Counter(), f"hound_rows ends with status {ran.returncode} after {len(answers)} of {len(rows)} answers"
    seen = Counter()
    for row, answer in zip(rows, answers):
        wanted = expected.answer(row)
        if answer != wanted:
            return seen, f"{row}\n  is answered: {answer}\n  by the model: {wanted}"
        head, _, rest = answer.partition(" : ")
        seen[head if rest.startswith("took") else "read"] += 1
        seen.update("item " + word for word in rest.split(" ") if word in ITEM_REJECTIONS)
    return seen, ""


def seldom(seen, inputs):
    """The rejections that came less than ten times in so many inputs that each should."""
    files = [words for line in REJECTIONS.split("\n") for words in line.split("|")]
    names = ["read"] + [words if words in ITEM_REJECTIONS else f"FormatError({words})" for words in files]
    names += ["item " + words for words in ITEM_REJECTIONS]
    return [name for name in names if seen[name] < 10] if inputs >= ENOUGH else []


def main():
    inputs = int(sys.argv[1]) if len(sys.argv) > 1 else 1_000_000
    if not os.path.exists(PROGRAM):
        print("hostile: proving and building hound_rows first", flush=True)
        subprocess.run(
            ["rt", "run"], cwd=CRATE, stdin=subprocess.DEVNULL, stdout=subprocess.DEVNULL, stderr=subprocess.DEVNULL
        )
    if not os.path.exists(PROGRAM):
        sys.exit("hostile: hound_rows doesn't build: see `rt run` in crates/hound_rows")
    seen, done, shown = Counter(), 0, 0
    runs = [range(first, min(first + INPUTS_A_RUN, inputs)) for first in range(0, inputs, INPUTS_A_RUN)]
    with multiprocessing.Pool() as pool:
        for numbers, (more, fault) in zip(runs, pool.imap(compare, runs)):
            if fault:
                sys.exit(f"hostile: inputs {numbers[0]} to {numbers[-1]}: {fault}")
            seen, done = seen + more, done + len(numbers)
            if 10 * done // inputs > shown:
                shown = 10 * done // inputs
                print(f"hostile: {done} of {inputs} inputs", flush=True)
    rare = seldom(seen, inputs)
    if rare:
        sys.exit(f"hostile: came less than ten times: {', '.join(rare)}")
    rejected = sum(count for name, count in seen.items() if name != "read" and not name.startswith("item "))
    print(f"hostile: {inputs} inputs were read six times each as the model says; {rejected} readings were rejected")


if __name__ == "__main__":
    main()
