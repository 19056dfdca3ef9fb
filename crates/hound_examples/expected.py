#!/usr/bin/env python3
"""Prints what scripts/try_programs.py expects of the examples: what the original crate, sox, ffmpeg and python make of it.

usage: ./expected.py SINE

SINE is the file that the first example in the original crate's README writes. It needs sox, ffmpeg, and a
python that has wave, as 3.11."""
import array
import math
import os
import subprocess
import sys
import tempfile
import wave
import zlib


def sox(*words):
    """Runs sox without dither, and says how many samples it clipped."""
    ran = subprocess.run(["sox", "-D", *words], check=True, stderr=subprocess.PIPE)
    print("  sox:", ran.stderr.decode().strip() or "nothing clipped")


def say(name):
    with open(name, "rb") as file:
        data = file.read()
    print(f"{name}: {len(data)} bytes, sum {zlib.adler32(data)}")


def show(name):
    with open(name, "rb") as file:
        print(f"{name}: {file.read()}")


def samples_of(name):
    with wave.open(name) as file:
        return array.array("h", file.readframes(file.getnframes()))


def record(name, numbers):
    with wave.open(name, "w") as file:
        file.setparams((1, 2, 44100, 0, "NONE", None))
        file.writeframes(array.array("h", numbers).tobytes())


def levels(name):
    numbers = samples_of(name)
    for start in range(0, len(numbers), 4410):
        tenth = numbers[start : start + 4410]
        peak = max(abs(number) for number in tenth) / 32768
        mean_square = sum((number / 32768) ** 2 for number in tenth) / len(tenth)
        seconds, rms = start / 44100, 10 * math.log10(mean_square)
        print(f"{seconds:.1f} s  channel 1  RMS {rms:.2f} dBFS, peak {20 * math.log10(peak):.2f} dBFS")


sine = os.path.abspath(sys.argv[1])
with tempfile.TemporaryDirectory() as folder:
    os.chdir(folder)
    say(sine)
    record("recorded.wav", [11, 13, 17, 19, 23] * 3)
    say("recorded.wav")
    sox(sine, "-b", "8", "eight.wav")
    say("eight.wav")
    with open("wide.s24", "wb") as file:
        for at in range(5000):
            file.write((at * 9973 % 2**24 - 2**23).to_bytes(3, "little", signed=True))
    raw = "-t raw -e signed -b 24 -c 1 -r 44100"
    sox(*raw.split(), "wide.s24", "-b", "16", "sixteen.wav")
    say("sixteen.wav")
    record("ramp.wav", range(0, 30000, 3))
    levels("ramp.wav")
    with open("five.s16", "wb") as file:
        array.array("h", [2, -3, 5, -7, 11, -13, 17, -19, 23, -29]).tofile(file)
    sox(*"-t raw -e signed -b 16 -c 2 -r 44100 five.s16 five.wav".split())
    show("five.wav")
    with open("halves.f32", "wb") as file:
        array.array("f", [at / 65536 for at in range(-9, 10)] + [1, -1, 1.5, -1.5]).tofile(file)
    words = "-v error -f f32le -ar 44100 -ac 1 -i halves.f32 -f s16le -".split()
    halves = subprocess.run(["ffmpeg", *words], check=True, capture_output=True).stdout
    print("halves by ffmpeg:", array.array("h", halves).tolist())
    with open("three.s24", "wb") as file:
        for number in [-8388608, 300, -70000]:
            file.write(number.to_bytes(3, "little", signed=True))
    sox(*"-t raw -e signed -b 24 -c 1 -r 44100 three.s24 three.wav".split())
    show("three.wav")
