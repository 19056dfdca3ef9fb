#!/usr/bin/env python3
"""Measures what hound_c.c needs on boards, by Debian's cross compilers: the code of a program with a recorder, a
repairer or a reader alone, with what it takes of the C library and of libgcc; the deepest stack of its calls, without
that of libgcc; and the structs.

usage: measure_board            (prints the table of bindings/c/BOARD.md)
       measure_board --check    (compares it with the one there)"""
import os
import re
import shutil
import subprocess
import sys
import tempfile

TOP = os.path.dirname(os.path.dirname(os.path.abspath(__file__)))
C = os.path.join(TOP, "bindings", "c")
PAGE = os.path.join(C, "BOARD.md")
FLAGS = ["-std=c99", "-Os", "-ffunction-sections", "-fdata-sections", "-I" + C]
PROCESSORS = {
    "Cortex-M0+": ["arm-none-eabi-gcc", "-mcpu=cortex-m0plus", "-mthumb"],
    "Cortex-M4": ["arm-none-eabi-gcc", "-mcpu=cortex-m4", "-mthumb"],
    "RISC-V 32": ["riscv64-unknown-elf-gcc", "-march=rv32imac", "-mabi=ilp32", "--specs=picolibc.specs"],
}
# The calls of each program, its structs, and their arguments.
PROGRAMS = {
    "Recorder": (
        ["hound_recorder"],
        "hound_beginning(spec, 0, &a->effect) + hound_recorder_begin(spec, a) + hound_recorder_write(a, 8)"
        " + (hound_recorder_checkpoint(a), hound_recorder_next(a)) + hound_encode_i32(spec, samples, 8, bytes, 32)",
    ),
    "Repairer": (
        ["hound_repairer", "hound_repair_t"],
        "(hound_repairer_begin(100, HOUND_REPAIR, a), hound_repairer_next(a, b))",
    ),
    "Reader": (
        ["hound_walk", "hound_info_t"],
        "hound_walk_next(a, b) + hound_decode_i32(spec, bytes, 32, samples, 8)",
    ),
}


def ran(*words):
    return subprocess.run(words, check=True, stdout=subprocess.PIPE, text=True).stdout


def program_of(structs, calls):
    """A program that makes these calls."""
    parameters = ", ".join(f"{name} *{letter}" for name, letter in zip(structs, "ab"))
    arguments = f"{parameters}, const hound_spec *spec, uint8_t *bytes, int32_t *samples"
    return f'#include "hound.h"\nlong start({arguments});\nlong start({arguments}) {{ return (long)({calls}); }}\n'


def deepest(graph, calls):
    """How many bytes of stack the deepest of these calls needs, by a graph of GCC, which has no loop."""
    frames, edges = {}, {}
    for name, size in re.findall(r'node: \{ title: "([^"]+)" label: "[^"]*\\n(\d+) bytes \(static\)', graph):
        frames[name] = int(size)
    for name, other in re.findall(r'edge: \{ sourcename: "([^"]+)" targetname: "([^"]+)"', graph):
        edges.setdefault(name, set()).add(other)

    def depth(name):
        return frames.get(name, 0) + max(map(depth, edges.get(name, ())), default=0)

    return max(map(depth, calls))


def measured(folder, words):
    """For each program its code and stack in bytes, and the sizes of its structs."""
    library, graph = os.path.join(folder, "hound_c.o"), os.path.join(folder, "hound_c.ci")
    ran(*words, *FLAGS, "-fcallgraph-info=su", "-c", os.path.join(C, "hound_c.c"), "-o", library)
    with open(graph) as file:
        calls_of = file.read()
    if "dynamic" in calls_of or "__indirect_call" in calls_of:
        sys.exit("measure_board: hound_c.c has frames of no known size, or calls of no known function")
    for structs, calls in PROGRAMS.values():
        source, program = os.path.join(folder, "program.c"), os.path.join(folder, "program")
        with open(source, "w") as file:
            file.write(program_of(structs, calls))
            file.writelines(f"const char size_of_{name}[sizeof({name})];\n" for name in structs)
        ran(*words, *FLAGS, source, library, "-nostartfiles", "-Wl,--gc-sections", "-Wl,-e,start", "-o", program)
        ran(*words, *FLAGS, "-c", source, "-o", source + ".o")
        tools = words[0].removesuffix("gcc")
        code = int(ran(tools + "size", program).split("\n")[1].split()[0])
        sizes = re.findall(r"^\w+ (\w+) . size_of_", ran(tools + "nm", "-S", source + ".o"), flags=re.M)
        yield code, deepest(calls_of, re.findall(r"hound_\w+(?=\()", calls)), sum(int(size, 16) for size in sizes)


def main():
    compilers = {words[0] for words in PROCESSORS.values()}
    for name in compilers:
        if not shutil.which(name):
            print(f"board: passed over, since {name} isn't here: the table of BOARD.md (Debian: gcc-arm-none-eabi, "
                  "libnewlib-arm-none-eabi, gcc-riscv64-unknown-elf, picolibc-riscv64-unknown-elf)")  # fmt: skip
            return
    with tempfile.TemporaryDirectory() as folder:
        columns = [list(measured(folder, words)) for words in PROCESSORS.values()]
    table = [["Bytes", *(f"{name}: code; stack" for name in PROCESSORS), "structs"]]
    for name, row in zip(PROGRAMS, zip(*columns)):
        if len({size for _, _, size in row}) != 1:
            sys.exit("measure_board: structs of several sizes")
        table.append([name, *(f"{code:,}; {stack:,}" for code, stack, _ in row), str(row[0][2])])
    lines = ["| " + " | ".join(row) + " |" for row in table]
    lines.insert(1, "|---" * len(table[0]) + "|")
    if sys.argv[1:] != ["--check"]:
        print("\n".join(lines))
        return
    with open(PAGE) as file:
        there = [line for line in file.read().split("\n") if line.startswith("|")]
    if any(line not in there for line in lines):
        sys.exit("measure_board: BOARD.md has another table than:\n" + "\n".join(lines))
    print("board: the table of BOARD.md is what these compilers make")


main()
