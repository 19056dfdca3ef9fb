#!/usr/bin/env python3
"""Measures the cases of `bench` (crates/hound_examples/src/bench) beside hound 3.5.1 and libsndfile, and the packages
for Python and JavaScript beside soundfile and a plain loop. It writes the figures to docs/speed.tsv, of which
scripts/speed_picture.py makes docs/speed.svg.

usage: scripts/speed/measure.py ORIGINAL [--rounds N] [--samples N] [--no-instructions] [--write] [CASE...]

ORIGINAL is the folder of the published crate. `crates/hound_examples` and `crates/hound_tool` have to be
built (`rt run` there, or ./test).
The original is built twice by cargo: as a release, and linked whole (lto = "fat", one codegen unit).
All programs run in turn, N rounds (31), and the best time of each counts. The sums over what was
read have to agree, and where the original writes the same bytes, those over what was written. Instructions are
counted by valgrind between the two looks at the clock, over 100,000 samples. What isn't installed
(libsndfile, valgrind) leaves its column empty; without numpy and soundfile in this Python, or without Node, its
cases keep their old figures. Those run in turn with what is beside them, with the library of bindings/lib. The last
column of the file, the instructions before the code was made smaller, is kept. Where cases are named, their figures are
printed alone; with --write their rows are replaced."""
import os
import re
import shutil
import subprocess
import sys
import tempfile
import time
import zlib

HERE = os.path.dirname(os.path.abspath(__file__))
TOP = os.path.dirname(os.path.dirname(HERE))
SINGLE = """write_i8_mem write_i16_mem write_i24_mem write_i32_mem write_f32_mem write_i16_mem_grow write_i16_file
write_i16_stereo_file write_i24_file batch_i16_mem batch_i16_file flush_i16_mem flush_i16_file read_i8_mem read_i16_mem
read_i24_mem read_i32_mem read_f32_mem read_i16_file read_i16_stereo_file read_i24_file seek_f32_mem seek_f32_file
open_mem""".split()
KINDS = ["i8", "i16", "i24", "i32", "f32"]
BLOCKS = [f"{call}_block_{kind}_{place}" for call in ("write", "read") for place in ("mem", "file") for kind in KINDS]
PROGRAMS = [f"{call}_{bits}_bits" for call in ("pack", "show") for bits in (16, 24, 32)]
BLOCKS += [
    f"{call}_block_{length}_i16_{place}"
    for call in ("write", "read")
    for place in ("mem", "file")
    for length in (64, 2)
]
# The packages, which have four million samples, as a file that a program reads whole, and what is beside them.
PYTHON = [
    f"python_{call}_{form}"
    for form in ("int16", "float32", "float64", "blocks_512", "blocks_4096")
    for call in ("read", "write")
]
PYTHON += ["python_read_array"]
NODE = [
    f"node_{case}"
    for case in ("write_int16", "write_float32", "read_int16", "read_planar_float32", "record_blocks_4096")
]
BESIDE = {**dict.fromkeys(PYTHON, "soundfile"), **dict.fromkeys(NODE, "plain loop")}
PACKAGED = 4_000_000
COLUMNS = [
    "case",
    "samples",
    "hound",
    "original",
    "linked whole",
    "libsndfile",
    "hound instructions",
    "original instructions",
    "libsndfile instructions",
    "instructions before",
    "soundfile",
    "plain loop",
]


def build_original(folder, original):
    """The paths of the two programs over the published crate."""
    crate = os.path.join(folder, "hound")
    shutil.copytree(os.path.join(original, "src"), os.path.join(crate, "src"))
    with open(os.path.join(crate, "Cargo.toml"), "w") as file:
        file.write('[package]\nname = "hound"\nversion = "3.5.1"\n')
    program = os.path.join(folder, "program")
    os.makedirs(os.path.join(program, "src", "bin"))
    for name in ("original.rs", "text.rs"):
        shutil.copy(os.path.join(HERE, name), os.path.join(program, "src", "bin"))
    with open(os.path.join(program, "Cargo.toml"), "w") as file:
        file.write(
            '[package]\nname = "original"\nversion = "0.0.0"\nedition = "2021"\n[dependencies]\nhound = { path = "../hound" }\n'
            '[profile.whole]\ninherits = "release"\nlto = "fat"\ncodegen-units = 1\n'
        )
    for profile in ("release", "whole"):
        subprocess.run(
            ["cargo", "build", "-q", "--offline", "--profile", profile],
            cwd=program,
            check=True,
            stderr=subprocess.DEVNULL,
        )
    return [os.path.join(program, "target", profile) for profile in ("release", "whole")]


def build_sndfile(folder):
    """The path of the program over libsndfile, or None."""
    program = os.path.join(folder, "sndfile")
    built = subprocess.run(
        ["gcc", "-O3", "-march=x86-64-v2", os.path.join(HERE, "sndfile.c"), "-o", program, "-lsndfile"],
        capture_output=True,
    )
    return program if built.returncode == 0 else None


def run(program, case, count, path):
    """Its nanoseconds and its sum."""
    line = subprocess.run([program, case, str(count), path], check=True, capture_output=True, text=True).stdout.split()
    return int(line[3]), int(line[4])


def instructions(folder, program, case, path):
    """How many instructions a sample takes between the two looks at the clock."""
    if not shutil.which("valgrind"):
        return None
    count = 1000 if case.startswith("open") else 100_000
    out = os.path.join(folder, "callgrind.out")
    for old in os.listdir(folder):
        if old.startswith("callgrind.out"):
            os.remove(os.path.join(folder, old))
    subprocess.run(
        [
            "valgrind",
            "--tool=callgrind",
            f"--callgrind-out-file={out}",
            "--dump-before=clock_gettime*",
            program,
            case,
            str(count),
            path,
        ],
        check=True,
        capture_output=True,
    )
    totals = []
    for name in sorted(
        (name for name in os.listdir(folder) if re.fullmatch(r"callgrind\.out\.\d+", name)),
        key=lambda name: int(name.split(".")[-1]),
    ):
        with open(os.path.join(folder, name)) as file:
            totals.append(int(re.search(r"^(?:summary|totals): (\d+)", file.read(), flags=re.M).group(1)))
    # The program over libsndfile writes the file that it reads in an interval of its own.
    interval = 3 if os.path.basename(program) == "sndfile" and case.startswith("read") else 1
    return totals[interval] / count if len(totals) > interval else None


def run_text(program, case, folder, count):
    """Runs `pack` or `show` once: its nanoseconds and its output."""
    call, bits = case.split("_")[:2]
    given = os.path.join(folder, f"{case}_{count}.given")
    if not os.path.exists(given):
        half = 1 << int(bits) - 1
        numbers = [(index * 2654435761 >> 32 - int(bits)) % (2 * half) - half for index in range(count)]
        text = "".join(f"{number}\n" for number in numbers).encode()
        if call == "show":
            text = subprocess.run(
                [program, "pack", "1", "44100", bits], input=text, capture_output=True, check=True
            ).stdout
        with open(given, "wb") as file:
            file.write(text)
    with open(given, "rb") as file:
        start = time.monotonic_ns()
        ran = subprocess.run(
            [program, *(["show"] if call == "show" else ["pack", "1", "44100", bits])],
            stdin=file,
            capture_output=True,
            check=True,
        )
        return time.monotonic_ns() - start, zlib.crc32(ran.stdout)


def run_package(case, folder):
    """The nanoseconds a sample of a package and of what is beside it, or None."""
    library = os.path.join(TOP, "bindings", "lib", f"{os.uname().machine}-linux", "libhound_c.so")
    paths = {"PYTHONPATH": os.path.join(TOP, "bindings", "python"), "HOUND_C_LIBRARY": library}
    program = (
        [sys.executable, os.path.join(HERE, "package.py")]
        if case in PYTHON
        else ["node", os.path.join(HERE, "package.mjs")]
    )
    if not shutil.which(program[0]):
        return None
    ran = subprocess.run(
        [*program, case, str(PACKAGED), folder], env={**os.environ, **paths}, capture_output=True, text=True
    )
    if ran.returncode and "No module named" not in ran.stderr:
        sys.exit(f"measure: {case}: {ran.stderr}")
    return None if ran.returncode else [float(word) for word in ran.stdout.split()]


def row_of_package(case, folder, rounds, before):
    """The row of a case of a package: its best figures of some rounds, or the row of before."""
    best = None
    for _ in range(max(rounds // 8, 1)):
        took = run_package(case, folder)
        if took is None:
            print(f"measure: {case}: what it needs isn't here, so its figures stay as they are", file=sys.stderr)
            return before.get(case)
        best = took if best is None else list(map(min, best, took))
    row = dict.fromkeys(COLUMNS, "")
    row.update({"case": case, "samples": str(PACKAGED), "hound": f"{best[0]:.2f}", BESIDE[case]: f"{best[1]:.2f}"})
    return [row[name] for name in COLUMNS]


def main():
    words = sys.argv[1:]
    rounds, samples, counts = 31, 1_000_000, True
    for name in ("--rounds", "--samples"):
        if name in words:
            at = words.index(name)
            value = int(words[at + 1])
            del words[at : at + 2]
            rounds, samples = (value, samples) if name == "--rounds" else (rounds, value)
    if "--no-instructions" in words:
        words.remove("--no-instructions")
        counts = False
    is_written = "--write" in words
    if is_written:
        words.remove("--write")
    if not words:
        sys.exit(__doc__)
    examples = os.path.join(TOP, "crates", "hound_examples", "out", "hound_examples")
    cases = words[1:] or SINGLE + BLOCKS + PROGRAMS + PYTHON + NODE
    if not os.path.exists(examples) and not set(cases) <= set(BESIDE):
        sys.exit("measure: build crates/hound_examples first: `rt run` there")
    tool = os.path.join(TOP, "crates", "hound_tool", "out", "hound_tool")
    with tempfile.TemporaryDirectory(prefix="hound_speed_") as folder:
        if not set(cases) <= set(BESIDE):
            release, whole = build_original(folder, words[0])
            sndfile = build_sndfile(folder)
        ours = os.path.join(folder, "bench")  # The name says which example runs.
        os.symlink(examples, ours)
        path = os.path.join(folder, "samples.wav")
        figures = os.path.join(TOP, "docs", "speed.tsv")
        with open(figures) as file:
            before = {line.split("\t")[0]: line.rstrip("\n").split("\t") for line in file}
        rows = []
        for case in cases:
            if case in BESIDE:
                row = row_of_package(case, folder, rounds, before)
                if row:
                    rows.append(row)
                    print("\t".join(row), flush=True)
                continue
            count = 200_000 if case == "seek_f32_file" else samples
            programs = {
                "hound": ours,
                "original": os.path.join(release, "original"),
                "linked whole": os.path.join(whole, "original"),
            }
            if case in PROGRAMS:
                programs = {
                    "hound": tool,
                    "original": os.path.join(release, "text"),
                    "linked whole": os.path.join(whole, "text"),
                }
            if sndfile and "_block_" in case:
                programs["libsndfile"] = sndfile
            best, sums = {}, {}
            for _ in range(rounds):
                for name, program in programs.items():
                    took, sums[name] = (
                        run_text(program, case, folder, count) if case in PROGRAMS else run(program, case, count, path)
                    )
                    best[name] = min(best.get(name, took), took)
            if sums["hound"] != sums["original"]:
                print(f"{case}: the sums differ: {sums}", file=sys.stderr)
            row = [case, str(count)] + [f"{best[name] / count:.2f}" if name in best else "" for name in COLUMNS[2:6]]
            for name in ("hound", "original", "libsndfile"):
                value = (
                    instructions(folder, programs[name], case, path)
                    if counts and name in programs and case not in PROGRAMS
                    else None
                )
                row.append("" if value is None else f"{value:.2f}" if value < 10 else f"{value:.1f}")
            row.append(before.get(case, [""] * 10)[9])
            rows.append(row + [""] * 2)
            print("\t".join(row), flush=True)
        if words[1:]:
            rows = list({**before, **{row[0]: row for row in rows}}.values())[1:]  # without the line of the columns
        if is_written or not words[1:]:
            with open(figures, "w") as file:
                file.write("\n".join("\t".join(row) for row in [COLUMNS] + rows) + "\n")


main()
