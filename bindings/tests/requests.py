#!/usr/bin/env python3
"""Writes requests for answer.c and answer.js: each call over the files of hound_rows, over files that are cut at each
byte, and over random ones. The answers of each processor have to be the same; those of this one are compared with the
model by rows.py.

usage: requests.py > REQUESTS"""
import math
import os
import random
import struct
import sys

TOP = os.path.dirname(os.path.dirname(os.path.dirname(os.path.abspath(__file__))))
sys.path[:0] = os.path.join(TOP, "crates", "hound_rows"), os.path.join(TOP, "bindings", "python", "tests")
import expected as model  # noqa: E402
import wav  # noqa: E402

# Where things are in memory: a spec, what is found (before that a recorder or a repairer, and what one is begun by),
# samples, what is decoded or written, and the file with room after it.
SPEC, FOUND, INFO, SAMPLES, OUT, FILE = 0, 16, 136, 192, 320, 960
COUNT, ROOM, MORE = 32, FILE - OUT, 160
# Bits and bytes that are written, and some that aren't.
PAIRS = [(8, 0, 0), (16, 0, 0), (24, 3, 0), (24, 4, 0), (32, 0, 0), (32, 0, 1), (12, 0, 0), (16, 4, 0), (64, 0, 1)]


def of_rows():
    """The files of the rows that are read."""
    with open(os.path.join(TOP, "crates", "hound_rows", "stdin")) as rows:
        for line in rows:
            words = line.rstrip("\n").split(" ")
            if words[0] == "let":
                model.answer(line.rstrip("\n"))
            elif words[0] in ("read", "riff") and len(words) > 1:
                yield bytes(model.bytes_of(words[1]))


def files(some):
    """All files, each once."""
    found = {file: None for file in of_rows() if len(file) < 4096}
    for bits, width, is_float in ((8, 1, 0), (16, 2, 0), (24, 3, 0), (24, 4, 0), (32, 4, 0), (32, 4, 1)):
        for channels in (1, 2):
            form = {"channels": channels, "width": width, "bits": bits, "tag": 3 if is_float else 1, "rate": 44100}
            data = some.randbytes(5 * channels * width)
            file = wav.by_hand(data, after=bytes(len(data) % 2), **form)
            found.update({file[:length]: None for length in range(len(file) + 1)})
    good = [file for file in found if len(file) > 44]
    for _ in range(1500):
        file = bytearray(some.choice(good))
        for _ in range(some.randrange(1, 5)):
            file[some.randrange(min(len(file), 72))] = some.choice((0, 1, 2, 255, some.randrange(256)))
        found[bytes(file[: some.choice((len(file), some.randrange(len(file))))])] = None
    return found


def recorder(some):
    """A recorder as C has it, also one that no call makes."""
    start = some.choice((44, 44, 44, 68, 20, 19, 2**32 + 7, 2**33, 2**64 - 1))
    length = some.choice((0, 1, 6, 300, 2**31, 2**32 - 37, 2**32 - 1))
    number, samples = some.choice((0, 0, 0, *range(1, 8), 2**32 - 1)), some.choice((0, 1, 6, 2**31, 2**32 - 1))
    shape = [some.choice(values) for values in (range(5), range(3), (0, 0, 0, 1, 2, 3), range(6), (0, 0, 1, 2))]
    return effect(some) + struct.pack("<QIII6H", start, length, number, samples, *shape, 0)


def effect(some):
    """An effect, and how it ended."""
    place, length = some.choice((0, 12, 44)), some.choice((0, 4, 8, 12, 40, 99))
    return struct.pack("<QIHH40s", place, length, some.randrange(7), some.randrange(4), some.randbytes(40))


def repairer(some):
    """A repairer as C has it, also one that no call makes."""
    places = [some.choice((0, 44, 60, 200, 2**33, 2**64 - 1)) for _ in range(3)]
    channels, bits = some.randrange(3), some.choice((8, 16, 24, 12))
    width, is_float = some.randrange(4), some.randrange(2)
    spec = struct.pack("<IHHHH", 44100, channels, bits, width, is_float)
    numbers = [
        some.choice((0, 1, 7, 16, 100, 2**32 - 1)),
        some.choice((0, 12, 24)),
        some.randrange(12),
        some.choice((16, 18, 40)),
        some.randrange(9),
        some.choice((0, 1, 2, 3, 4, 2**16 + 1)),
        0,
    ]
    return effect(some) + struct.pack("<QQQ", *places) + spec + struct.pack("<7I", *numbers)


def recorded(some, spec):
    """What is found of a file of this spec that has samples."""
    start, counted = some.choice((44, 44, 68, 20, 19, 2**33)), some.choice((0, 1, 6, 12, 2**31, 2**32 - 1))
    length = start + counted + some.choice((-1, 0, 0, 1, 2, 40))
    frames, left_over, state = counted // 2 + some.randrange(3), some.randrange(3), some.randrange(5)
    return spec + struct.pack("<IIIQQII", frames, left_over, state, start, length, counted, counted // 2)


def requests(file, some):
    """The calls over a file, with samples that mostly fit in the bits of a spec."""
    bits, width, is_float = some.choice(PAIRS)
    channels = some.randrange(1, 4)
    rate = some.choice((0, 8000, 44100, 2**32 - 1)) if some.random() < 0.2 else 44100
    spec = struct.pack("<IHHHH", rate, channels, bits, width, is_float)
    kept = max(0, min(32, bits if some.random() < 0.8 else 32) - 1)
    size, used = len(file) + FILE + MORE, len(file)
    few = some.randrange(COUNT // channels) * channels + (some.random() < 0.1)
    for suffix, code, most in (("i8", "b", 7), ("i16", "h", 15), ("i32", "i", 31), ("f32", "I", 32)):
        low = 0 if suffix == "f32" else -(2 ** min(kept, most))
        high = 2**32 if suffix == "f32" else 2 ** min(kept, most)
        samples = struct.pack(f"<{COUNT}{code}", *(some.randrange(low, high) for _ in range(COUNT)))
        machine = recorder(some).ljust(INFO - FOUND, b"\x5a") if some.random() < 0.7 else repairer(some)
        memory = spec.ljust(FOUND, b"\x5a") + machine + recorded(some, spec).ljust(SAMPLES - INFO, b"\x5a") + samples
        yield f"memory {size} {(memory.ljust(FILE, bytes([0x5A])) + file).hex()}"
        if suffix == "i16":
            yield f"info @{FILE} {used} @{FOUND}"
            yield f"walk_next @{FILE} {used} @{FOUND}"
            yield f"walk_to_end @{FILE} {used} @{FOUND}"
            yield f"whole_frames @{SPEC} {some.choice((used, used, 2**63 - 1, 2**63))}"
            yield f"guess_data @{FILE} {used}"
            yield f"kind @{FILE} {used}"
            yield "version"
            yield f"find_damage @{FILE} {used} @{FOUND}"
            yield f"size @{SPEC} {some.choice((few, used, 2**31, 2**64 - 1))}"
            yield f"header @{SPEC} {some.choice((few, used, 2**31))} @{OUT} {some.choice((68, 67, 44, 43))}"
            start, samples = some.choice((44, 68, 20, 19, used, 2**33)), some.choice((few, used, 2**31))
            yield f"sizes @{SPEC} {start} {samples} @{OUT} {some.choice((8, 8, 7))}"
            for width in (8, 16, 24, 32):
                half = 2 ** (width - 1)
                yield f"value_{width} #{some.choice((0, half, some.randrange(2**32)))}"
                edges = -half, half - 1, max(-half - 1, -(2**31)), min(half, 2**31 - 1)
                yield f"container_{width} #{some.choice((*edges, some.randrange(-half, half)))}"
            yield f"beginning @{SPEC} #{some.randrange(7)} @{FOUND}"
            yield f"recorder_begin @{SPEC} @{FOUND}"
            yield f"recorder_resume @{INFO} #{some.randrange(5)} @{FOUND}"
            yield f"recorder_write @{FOUND} {some.choice((few, few, 2**31, 2**64 - 1))}"
            yield f"recorder_frames_left @{FOUND}"
            yield f"recorder_checkpoint @{FOUND}"
            yield f"recorder_next @{FOUND}"
            yield f"repairer_next @{FOUND} @{OUT}"
            for mode in range(5):
                yield f"repairer @{FILE} {used} #{mode} @{FOUND}"
            for room in (used, used + 1, used - (used > 0)):
                yield f"repair @{FILE} {room} {used} @{FOUND}"
                yield f"repair_to_end @{FILE} {room} {used} @{FOUND}"
        yield f"decode_{suffix} @{SPEC} @{FILE} {used} @{OUT} {ROOM // 4}"
        capacities = (ROOM, some.randrange(ROOM))
        for capacity in capacities:
            yield f"encode_{suffix} @{SPEC} @{SAMPLES} {few} @{OUT} {capacity}"
        if suffix == "i8":
            continue
        if suffix == "i32":
            yield f"to_f32 @{SPEC} @{FILE} {used} @{OUT} {some.choice((ROOM // 4, few, 0))}"
            yield f"to_f64 @{SPEC} @{FILE} {used} @{OUT} {some.choice((ROOM // 8, few, 0))}"
        if suffix == "f32":
            yield f"from_f32 @{SPEC} @{SAMPLES} {few} @{OUT} {capacities[1]} @{FOUND}"
        for first, count in ((0, ROOM // 4), (some.randrange(9), some.randrange(9)), (2**33, 4)):
            yield f"read_{suffix} @{FILE} {used} {first} @{OUT} {count}"
        for capacity in capacities:
            yield f"write_{suffix} @{SPEC} @{SAMPLES} {few} @{OUT} {capacity}"
        for capacity in (used + MORE, used + some.randrange(MORE)):
            yield f"append_{suffix} @{FILE} {capacity} {used} @{SAMPLES} {few}"


def numbers(some):
    """A float that isn't a NaN, whose bits would be those that a processor has for it: also one between two steps, one
    that no bits hold, and one that is infinite in 32 bits."""
    step, wide = some.randrange(-40000, 40000) / 65536, some.uniform(-4e38, 4e38)
    return some.choice((step, step + 2**-40, some.uniform(-1.1, 1.1), wide, 1e-46, -0.0, 1e300, -math.inf))


def conversions(some):
    """The calls over floats, of 64 bits and of 32."""
    half = COUNT // 2
    doubles = [numbers(some) for _ in range(half)]
    floats = struct.pack(f"<{half}f", *(number if abs(number) < 3e38 else math.inf for number in doubles))
    for samples in (struct.pack(f"<{half}d", *doubles), floats):
        bits, width, is_float = some.choice((*PAIRS, (8, 1, 0), (16, 2, 0), (24, 3, 0), (32, 4, 0)))
        spec = struct.pack("<IHHHH", 44100, 1, bits, width, is_float)
        yield f"memory {FILE} {(spec.ljust(SAMPLES, bytes(1)) + samples).hex()}"
        room, capacity = some.choice((half, half - 1)), some.choice((4 * half, half))
        if samples is floats:
            yield f"f32_to_f64 @{SAMPLES} {half} @{OUT} {room}"
            yield f"dither_f32 @{SPEC} @{SAMPLES} {half} @{FOUND + 8} @{OUT} {capacity} @{FOUND}"
        else:
            yield f"from_f64 @{SPEC} @{SAMPLES} {half} @{OUT} {capacity} @{FOUND}"
            yield f"dither_f64 @{SPEC} @{SAMPLES} {half} @{FOUND + 8} @{OUT} {capacity} @{FOUND}"
            yield f"f64_to_f32 @{SAMPLES} {half} @{OUT} {room} @{FOUND}"


def main():
    some = random.Random(7)
    for file in files(some):
        for line in requests(file, some):
            print(line)
    for _ in range(1000):
        for line in conversions(some):
            print(line)


if __name__ == "__main__":
    main()
