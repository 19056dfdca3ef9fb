"""Runs a case of the Python package beside soundfile, for scripts/speed/measure.py.

usage: package.py CASE COUNT FOLDER     prints the best nanoseconds a sample of both, of seven runs in turn, as the
time that the thread has had, since the machine may be busy

Samples have 16 bits, two channels, and values that no processor guesses. Each run makes, and reads or writes, a whole
file; of `blocks` in pieces of so many frames. Whole files are read as arrays of numpy, which soundfile returns, too; of
`array` as an `array.array`. Both read the same file, since the system keeps what was written in few
calls in larger pieces."""
import os
import sys
import time

import hound_bindings as hound
import numpy
import soundfile


def main():
    case, count, folder = sys.argv[1], int(sys.argv[2]), sys.argv[3]
    _, call, form = case.split("_", 2)
    path, other = os.path.join(folder, "ours.wav"), os.path.join(folder, "other.wav")
    samples = numpy.random.default_rng(1).integers(-32768, 32768, (count // 2, 2), "int16")
    dtype = "int16" if "blocks" in form or "array" in form else form
    wanted = dtype if "array" in form else numpy.dtype(dtype)
    if dtype != "int16":
        samples = (samples / 32768).astype(dtype)
    step = int(form.split("_")[1]) if "blocks" in form else len(samples)
    blocks = [samples[first : first + step] for first in range(0, len(samples), step)]

    def write():
        if "blocks" not in form:
            return hound.write(path, samples, 48000, bits=16)
        with hound.create(path, 48000, 2, 16) as writer:
            for block in blocks:
                writer.write(block)

    def write_other():
        if "blocks" not in form:
            return soundfile.write(other, samples, 48000, "PCM_16")
        with soundfile.SoundFile(other, "w", 48000, 2, "PCM_16") as writer:
            for block in blocks:
                writer.write(block)

    def read():
        if "blocks" not in form:
            return hound.read(path, dtype=wanted)
        with hound.open(path) as reader:
            while len(reader.read(step)):
                pass

    def read_other():
        if "blocks" not in form:
            return soundfile.read(path, dtype=dtype)
        with soundfile.SoundFile(path) as reader:
            while len(reader.read(step, "int16")):
                pass

    calls = {"write": (write, write_other), "read": (read, read_other)}[call]
    write(), write_other()
    best = [float("inf")] * 2
    for _ in range(7):
        for i, one in enumerate(calls):
            start = time.thread_time_ns()
            one()
            best[i] = min(best[i], time.thread_time_ns() - start)
    if hound.read(path) != hound.read(other):
        sys.exit(f"{case}: the samples differ")
    print(*(f"{took / count:.3f}" for took in best))


main()
