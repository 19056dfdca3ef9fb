#!/usr/bin/env python3
"""Compares the guesses of the Python and the JavaScript package, over files whose header is zeros: signals that sox
makes, of each form, one and two channels, and 8,000 to 96,000 Hz; and such files that are cut off at the front, or too
short. The packages have to give one answer for each file. How many are right is the table in docs/TESTING.md.

usage: guesses.py            fails where two answers differ, or the table isn't the one of docs/TESTING.md
       guesses.py --write    writes the table
       guesses.py FILE..     of these WAV files, with zeros in the place of their headers: how many answers are right

HOUND_C_LIBRARY, or an installed package, is the library of the Python package."""
import collections
import itertools
import json
import os
import subprocess
import sys
import tempfile

import hound_bindings as hound

TOP = os.path.dirname(os.path.dirname(os.path.dirname(os.path.abspath(__file__))))
PAGE = os.path.join(TOP, "docs", "TESTING.md")
MARKS = "<!-- The hits of guesses.py: -->\n", "<!-- The end of what it writes. -->\n"
FORMS = [("8", "unsigned-integer"), ("16", "signed-integer"), ("24", "signed-integer"), ("32", "signed-integer"),
         ("32", "floating-point")]  # fmt: skip
RATES = 8000, 22050, 44100, 48000, 96000
# What sox makes of each channel; TOP is four tenths of the rate.
SIGNALS = {
    "a sine": ["sine 440 gain -3", "sine 550 gain -9"],
    "a sweep": ["sine 50:TOP", "sine TOP:60"],
    "white noise": ["whitenoise gain -9", "whitenoise gain -9"],
    "pink noise": ["pinknoise gain -3", "pinknoise gain -3"],
    "brown noise": ["brownnoise gain -6", "brownnoise gain -6"],
    "quiet noise": ["pinknoise gain -30", "pinknoise gain -36"],
    "one noise in all channels": ["pinknoise lowpass 3000 gain -6"],
    "plucked strings": ["pluck 220 tremolo 3 gain -12", "pluck 330 gain -6"],
    "speech-like": ["sawtooth 110 lowpass 1500 tremolo 3 95 fade 0.1 4 0.5 pad 0.5 0.7 gain -6",
                    "brownnoise lowpass 1500 tremolo 4 95 pad 0.3 0.9 gain -9"],
    "a square wave": ["square 300 gain -3", "square 200 gain -6"],
}  # fmt: skip
# Where no guess can be right: of white noise nothing says whether two channels are one.
IMPOSSIBLE = {("white noise", 2)}


def sox(*words):
    subprocess.run(["sox", "-V1", "-R", *map(str, words)], check=True)


def made(folder, signal, form, channels, rate):
    """The bytes of such a file, and where its samples begin."""
    monos = []
    for number, words in enumerate(SIGNALS[signal][:channels]):
        mono = os.path.join(folder, f"{number}.wav")
        # Another seed for each, and another sound.
        words = words.replace("TOP", str(rate * 2 // 5)).split()
        sox("-n", "-r", rate, "-b", 32, mono, "synth", 4 + number / 8, *words, *(["reverse"] if number else []))
        monos.append(mono)
    monos *= channels // len(monos)
    path = os.path.join(folder, "all.wav")
    sox(*(["-M"] if channels > 1 else []), *monos, "-b", form[0], "-e", form[1], path)
    with open(path, "rb") as file:
        content = file.read()
    return content, content.index(b"data", 12) + 8


def files(folder):
    """Files without a header, what they are, and how they are counted in the table."""
    number = 0
    for signal, form, channels in itertools.product(SIGNALS, FORMS, (1, 2)):
        rate = RATES[number % len(RATES)]
        number += 1
        content, start = made(folder, signal, form, channels, rate)
        truth = int(form[0]), form[1] == "floating-point", channels
        yield signal, truth, start, bytes(start) + content[start:]
        if number % 10 == 1:
            yield None, truth, None, content[start + 6 :]  # Its front is cut off, within a frame.
            yield None, truth, None, content[: start + 900]
            yield None, truth, None, content[:12] + bytes(24) + content[36:]  # The fmt chunk is zeros.


def guess_of_python(path):
    try:
        found = hound.guess(path, rate=48000)
    except ValueError:
        return None
    return [found.bits_per_sample, found.is_float, found.channels, found.data_start]


JAVASCRIPT = """
import { openAsBlob } from "node:fs";
const { guess } = await import(process.argv[1]);
for (const path of process.argv.slice(2)) {
  const found = await guess(await openAsBlob(path)), { bitsPerSample, isFloat, channels } = found?.like ?? {};
  console.log(JSON.stringify(found && [bitsPerSample, isFloat, channels, found.skip]));
}
"""


def guesses_of_javascript(paths):
    module = "file://" + os.path.join(TOP, "bindings", "js", "hound.js")
    words = ["node", "--no-warnings", "--input-type=module", "-e", JAVASCRIPT, "--", module, *paths]
    ran = subprocess.run(words, check=True, stdout=subprocess.PIPE, text=True)
    return list(map(json.loads, ran.stdout.splitlines()))


def table_of(hits):
    """The table of hits, in the order of the signals."""
    lines = ["| Signal | Files | Form and channels | and where a frame begins |\n", "|---|---|---|---|\n"]
    for signal, found in hits.items():
        forms, starts = (sum(column) for column in zip(*found))
        note = ", of which 5 can't be found" if any(signal == one for one, _ in IMPOSSIBLE) else ""
        lines.append(f"| {signal} | {len(found)}{note} | {forms} | {starts} |\n")
    count = sum(map(len, hits.values()))
    forms, starts = (sum(column) for column in zip(*(one for found in hits.values() for one in found)))
    return "".join([*lines, f"| all | {count} | {forms} | {starts} |\n"])


def without_headers(paths):
    """These files that are long enough to guess by, with zeros in the place of their headers."""
    for path in paths:
        with open(path, "rb") as file:
            content = file.read()
        try:
            info = hound.info(content)
        except hound.HoundError:
            continue
        start, truth = info.data_start, (info.bits_per_sample, info.is_float, info.channels)
        if len(content) - start >= 1024:
            yield path, truth, start, bytes(start) + content[start:]


def main():
    is_written, paths = sys.argv[1:] == ["--write"], sys.argv[1:]
    if not is_written and any(path.startswith("-") for path in paths):
        sys.exit(__doc__.split("\n\n")[1])
    is_of_files = bool(paths) and not is_written
    hits = collections.defaultdict(list)
    with tempfile.TemporaryDirectory() as folder:
        given = []
        some = without_headers(paths) if is_of_files else files(folder)
        for number, (signal, truth, start, content) in enumerate(some):
            path = os.path.join(folder, f"{number}.lost")
            with open(path, "wb") as file:
                file.write(content)
            given.append((path, signal, truth, start))
        paths = [path for path, *_ in given]
        ours, others = list(map(guess_of_python, paths)), guesses_of_javascript(paths)
    for one, other, (_, signal, truth, start) in zip(ours, others, given, strict=True):
        if one != other:
            sys.exit(f"guesses: {signal}, {truth}: Python's is {one}, and JavaScript's {other}")
        if signal is not None:
            bits, _, channels = truth
            is_form = one is not None and tuple(one[:3]) == truth
            hits[signal].append((is_form, is_form and (one[3] - start) % (channels * bits // 8) == 0))
    if is_of_files:
        forms, starts = (sum(column) for column in zip(*(one for found in hits.values() for one in found)))
        print(f"guesses: {len(given)} files, of which both packages guess the same: of {forms} the form and channels")
        print(f"guesses: are right, and of {starts} also where a frame begins")
        return
    table = table_of(hits)
    with open(PAGE, encoding="utf-8") as file:
        text = file.read()
    before, after = text.split(MARKS[0])[0], text.split(MARKS[1])[-1]
    if is_written:
        with open(PAGE, "w", encoding="utf-8") as file:
            file.write(before + MARKS[0] + table + MARKS[1] + after)
    elif before + MARKS[0] + table + MARKS[1] + after != text:
        sys.exit(f"guesses: docs/TESTING.md has another table than this one:\n{table}")
    print(f"guesses: {len(given)} files, of which both packages guess the same")


main()
