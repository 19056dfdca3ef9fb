#!/usr/bin/env python3
"""Runs the programs as a user does, over real files, pipes and faults of the system, and compares
what they return, print and leave. What `hound_tool` does with words and input is asked by rows
(crates/hound_rows); here is what only a process has.

usage: scripts/try_programs.py [NAME]     (each check, or those whose name begins with NAME)

A program is taken where `rt ci` or `rt run` built it, with the second one that `rt ci` builds. What
is expected comes from the public format, from hound 3.5.1, and from other programs
(crates/hound_examples/expected.py). It ends with a line that counts the checks, and with status 1
where one failed."""
import fcntl
import math
import os
import resource
import shutil
import signal
import struct
import subprocess
import sys
import tempfile
import time
import wave
import zlib
from fractions import Fraction

TOP = os.path.dirname(os.path.dirname(os.path.abspath(__file__)))
FOLDER = tempfile.TemporaryDirectory(prefix="hound_programs_")
FAILED = b"input or output failed\n"
BAD = b"bad number\n"
TOO_WIDE = b"The sample has more bits than the destination type.\n"
USAGE = b"usage: hound_tool pack CHANNELS RATE BITS | show | append FILE\n"
PACK = ["pack", "1", "44100", "16"]

# Mono, 44100 Hz, 16 bits: 2, -3, 5, -7.
FOUR = bytes.fromhex(
    "52494646 2c000000 57415645 666d7420 10000000 0100 0100 44ac0000 88580100 0200 1000"
    "64617461 08000000 0200 fdff 0500 f9ff"
)


class Program:
    """A program that was built."""

    def __init__(self, name, ending=""):
        self.name = name
        self.file = os.path.join(TOP, "crates", name, "out", name + ending)

    def arguments(self, words):
        """The words that the program gets; the first is its name, which says which example runs."""
        return words if self.name == "hound_examples" else [self.file, *words]

    def run_over(self, reading, words, **how):
        """Its status, output and errors, where it reads this file; `how` may send them elsewhere."""
        how = {"stdin": reading, "stdout": subprocess.PIPE, "stderr": subprocess.PIPE, "timeout": 60, **how}
        ran = subprocess.run(self.arguments(words), executable=self.file, **how)
        return ran.returncode, ran.stdout, ran.stderr

    def run(self, words, given=b"", **how):
        """The same where it is given these bytes as a file."""
        path = os.path.join(FOLDER.name, "given")
        with open(path, "wb") as file:
            file.write(given)
        with open(path, "rb") as file:
            return self.run_over(file, words, **how)

    def run_broken(self, words, given):
        """The same where its input gives these bytes and then fails."""
        reading, writing = os.pipe()
        fcntl.fcntl(writing, fcntl.F_SETPIPE_SZ, 1 << 20)
        os.set_blocking(reading, False)
        os.write(writing, given)
        answer = self.run_over(reading, words)
        os.close(reading)
        os.close(writing)
        return answer


CHECKS = []


def check(name):
    """Marks a check of the program of this name."""

    def mark(function):
        CHECKS.append((name, function))
        return function

    return mark


def same(found, wanted, what=""):
    if found != wanted:
        raise AssertionError(f"{what}: {str(found)[:300]} where {str(wanted)[:300]} is wanted")


def lines_of(numbers):
    return "".join(f"{number}\n" for number in numbers).encode()


def path_of(name):
    return os.path.join(FOLDER.name, name + ".wav")


# The numbers from -5000 to 5000.
MANY = range(-5000, 5001)
MANY_LINES = lines_of(MANY)
MANY_SPEC = b"channels 1 rate 44100 bits 16 format int samples 10001\n"
MANY_DATA = b"".join(number.to_bytes(2, "little", signed=True) for number in MANY)
MANY_FILE = b"RIFF\x46\x4e\0\0" + FOUR[8:40] + b"\x22\x4e\0\0" + MANY_DATA


@check("hound_tool")
def pack_writes_a_file(tool):
    same(tool.run(PACK, b"2 -3 5 -7"), (0, FOUR, b""))


@check("hound_tool")
def other_words_print_the_usage(tool):
    # The last word isn't UTF-8.
    for words in [[], ["append"], [b"\xff"]]:
        same(tool.run(words, b"1"), (2, b"", USAGE), words)


@check("hound_tool")
def faults_of_input_and_output_are_reported(tool):
    same(tool.run_broken(PACK, b"1 "), (1, b"", FAILED))
    # All of these bytes fit into a buffer, which can't be handed on at the end.
    with open("/dev/full", "wb") as full:
        same(tool.run(PACK, b"2 -3 5 -7", stdout=full), (1, None, FAILED), "pack")
        same(tool.run(["show"], FOUR, stdout=full), (1, None, FAILED), "show")
        # A fault while the line is written isn't reported.
        same(tool.run(PACK, b"x", stdout=full, stderr=full), (1, None, None), "no errors either")


@check("hound_tool")
def a_line_of_errors_is_one_write(tool):
    for words, line in [(["show"], b"Ill-formed WAVE file: no RIFF tag found\n"), ([], USAGE)]:
        # Each read of such a pipe gives what one write put.
        reading, writing = os.pipe2(os.O_DIRECT)
        tool.run(words, b"RIFX", stderr=writing)
        os.close(writing)
        found = [os.read(reading, 4096), os.read(reading, 4096)]
        os.close(reading)
        same(found, [line, b""], words)


def append(tool, file, numbers):
    """The status and the errors of a run of `append`, and the file after it."""
    path = path_of("append")
    with open(path, "wb") as made:
        made.write(file)
    status, output, errors = tool.run(["append", path], numbers)
    with open(path, "rb") as left:
        after = left.read()
    os.remove(path)
    same(output, b"", "append")
    return status, after, errors


@check("hound_tool")
def append_continues_a_file(tool):
    _, begun, _ = tool.run(PACK, b"11 13 17")
    status, after, errors = append(tool, begun, b"19 23")
    same((status, len(after), errors), (0, 54, b""))
    lines = b"channels 1 rate 44100 bits 16 format int samples 5\n11\n13\n17\n19\n23\n"
    same(tool.run(["show"], after), (0, lines, b""))


@check("hound_tool")
def append_leaves_a_file_of_the_same_samples(tool):
    begun = FOUR[:4] + bytes(4) + FOUR[8:]
    # Of no numbers none is written, but the file is opened and its sizes are written.
    same(append(tool, begun, b" \n"), (0, FOUR, b""))
    # Numbers are tested before the file is opened.
    same(append(tool, begun, b"19 x"), (1, begun, BAD))


@check("hound_tool")
def append_keeps_what_came_before_a_rejection(tool):
    status, after, errors = append(tool, FOUR, b"11 32768 13")
    same((status, errors), (1, TOO_WIDE))
    lines = b"channels 1 rate 44100 bits 16 format int samples 5\n2\n-3\n5\n-7\n11\n"
    same(tool.run(["show"], after), (0, lines, b""))


@check("hound_tool")
def append_makes_no_file(tool):
    path = path_of("missing")
    for numbers in [b"19 23", b""]:
        same(tool.run(["append", path], numbers), (1, b"", FAILED))
        same(os.path.exists(path), False)


@check("hound_tool")
def a_long_file_goes_through(tool):
    same(tool.run(PACK, MANY_LINES), (0, MANY_FILE, b""))
    same(tool.run(["show"], MANY_FILE), (0, MANY_SPEC + MANY_LINES, b""))


# Every line before the fault is shown.
@check("hound_tool")
def a_broken_input_is_shown_as_far_as_it_goes(tool):
    for length in [0, 44, 16384, 20045]:
        lines = MANY_SPEC + lines_of(MANY[: (length - 44) // 2]) if length >= 44 else b""
        same(tool.run_broken(["show"], MANY_FILE[:length]), (1, lines, FAILED), length)


# Outputs that fail early and late: they have space for so many bytes.
@check("hound_tool")
def a_full_output_is_reported(tool):
    for words, given, wanted in [
        (PACK, MANY_LINES, MANY_FILE),
        (["show"], MANY_FILE, MANY_SPEC + MANY_LINES),
    ]:
        for room in [0, 43, 20000]:

            def limit():
                signal.signal(signal.SIGXFSZ, signal.SIG_IGN)
                resource.setrlimit(resource.RLIMIT_FSIZE, (room, room))

            with tempfile.TemporaryFile() as output:
                same(tool.run(words, given, stdout=output, preexec_fn=limit), (1, None, FAILED), room)
                output.seek(0)
                same(output.read(), wanted[:room], room)


# strace interrupts each second write, as a signal does that a program handles.
@check("hound_tool")
def interrupted_writes_are_tried_again(tool):
    if shutil.which("strace") is None:
        print("interrupted_writes_are_tried_again: not run, since there is no strace", file=sys.stderr)
        return
    interrupted = ["strace", "-qq", "-o", os.devnull, "-e", "trace=write", "-e", "inject=write:error=EINTR:when=1+2"]
    for words, given, wanted in [(PACK, MANY_LINES, MANY_FILE), (["show"], MANY_FILE, MANY_SPEC + MANY_LINES)]:
        ran = subprocess.run(
            [*interrupted, tool.file, *words], input=given, stdout=subprocess.PIPE, stderr=subprocess.PIPE
        )
        same((ran.returncode, ran.stdout, ran.stderr), (0, wanted, b""), words)


@check("hound_tool")
def memory_that_is_gone_is_reported(tool):
    def limit():
        resource.setrlimit(resource.RLIMIT_AS, (1 << 26, 1 << 26))

    same(tool.run(PACK, b"2 -3 5 -7", preexec_fn=limit), (0, FOUR, b""))
    same(tool.run(PACK, b" 1" * (1 << 24), preexec_fn=limit), (1, b"", b"There is not enough memory.\n"))
    # The numbers come first: a file that isn't there isn't missed.
    absent = ["append", path_of("absent")]
    same(tool.run(absent, b" 1" * (1 << 24), preexec_fn=limit), (1, b"", b"There is not enough memory.\n"))
    same(tool.run(absent, b"1", preexec_fn=limit), (1, b"", FAILED))


def printed(example, words, given=b""):
    """What a run prints, where its status is 0 and it says nothing on standard error."""
    status, output, errors = example.run(words, given)
    same((status, errors), (0, b""), words)
    return output


def taken_away(path):
    """The length and the sum of a file, which is removed."""
    with open(path, "rb") as file:
        data = file.read()
    os.remove(path)
    return len(data), zlib.adler32(data)


def raw(numbers):
    """Samples of sixteen bits, as a recorder gets them."""
    return struct.pack(f"<{len(numbers)}h", *numbers)


# Every third number from 0 to 29997.
RAMP = raw(range(0, 30000, 3))


@check("hound_examples")
def sine_is_that_of_the_original(example):
    path = path_of("sine")
    printed(example, ["sine", path])
    same(taken_away(path), (88244, 3402997953))


def has_samples(path, count):
    """Whether the file comes to count so many samples of 16 bits within some seconds."""
    for _ in range(1000):
        if os.path.exists(path):
            with open(path, "rb") as file:
                length = file.read(44)[40:]
            if int.from_bytes(length, "little") == 2 * count:
                return True
        time.sleep(0.01)
    return False


# Samples in three pieces of five, and a checkpoint after each four: they are in the file when they are
# due. Half a sample at the end is left out.
@check("hound_examples")
def record_has_each_checkpoint_in_the_file(example):
    path = path_of("record")
    for words in [[], ["durable"]]:
        arguments = example.arguments(["record", path, "4", *words])
        recorder = subprocess.Popen(arguments, executable=example.file, stdin=subprocess.PIPE, stdout=subprocess.PIPE)
        found = [has_samples(path, 0)]
        for count in [4, 8, 12]:
            recorder.stdin.write(raw([11, 13, 17, 19, 23]))
            recorder.stdin.flush()
            found.append(has_samples(path, count))
        same(recorder.communicate(b"\1", timeout=60)[0], b"4\n8\n12\nrecorded 15 samples\n")
        same((recorder.returncode, found), (0, [True] * 4))
        same(taken_away(path), (74, 3004762282))


def file_of(channels, rate, bits, data):
    """A file of integers, as the public format has it: an extensible fmt chunk for more than two channels or 16 bits."""
    frame = channels * bits // 8
    tag, rest = (
        (1, b"") if channels <= 2 and bits <= 16 else (0xFFFE, struct.pack("<HHI", 22, bits, (1 << channels) - 1))
    )
    rest += bytes.fromhex("0100000000001000800000aa00389b71") if rest else b""
    fmt = struct.pack("<HHIIHH", tag, channels, rate, rate * frame, frame, bits) + rest
    parts = b"".join(
        name + struct.pack("<I", len(part)) + part + b"\0" * (len(part) % 2)
        for name, part in [(b"fmt ", fmt), (b"data", data)]
    )
    return b"RIFF" + struct.pack("<I", 4 + len(parts)) + b"WAVE" + parts


def bytes_of(path):
    with open(path, "rb") as file:
        return file.read()


# Nine frames and a part of one, in checkpoints of four: raw samples are the data of the file.
@check("hound_examples")
def record_takes_raw_samples_of_each_width(example):
    path = path_of("raw")
    for channels, rate, bits in [
        (1, 8000, 8),
        (2, 44100, 16),
        (3, 48000, 16),
        (1, 96000, 24),
        (2, 48000, 24),
        (5, 44100, 32),
    ]:
        frame = channels * bits // 8
        data = bytes(at * 37 % 251 for at in range(9 * frame))
        words = [f"channels={channels}", f"rate={rate}", f"bits={bits}"]
        lines = lines_of([4 * channels, 8 * channels]) + b"recorded %d samples\n" % (9 * channels)
        same(printed(example, ["record", path, "4", *words], data + bytes(frame - 1)), lines, words)
        same(bytes_of(path), file_of(channels, rate, bits, data), words)
        for more, start in [(["append"], 9), (["durable", "append"], 13)]:
            lines = lines_of([(start + 4) * channels]) + b"recorded %d samples\n" % ((start + 4) * channels)
            same(printed(example, ["record", path, "4", *more], data[: 4 * frame]), lines, more)
        same(bytes_of(path), file_of(channels, rate, bits, data + data[: 4 * frame] * 2), words)


# A file may have 9000 bytes: what comes then is lost, and said so. The last line counts what was accepted.
@check("hound_examples")
def record_continues_after_errors(example):
    def limited():
        signal.signal(signal.SIGXFSZ, signal.SIG_IGN)
        resource.setrlimit(resource.RLIMIT_FSIZE, (9000, 9000))

    path = path_of("limited")
    for words in [[], ["durable"]]:
        with open(path_of("given"), "w+b") as given:
            given.write(raw(range(30000)))
            given.seek(0)
            status, output, errors = example.run_over(given, ["record", path, "1000", *words], preexec_fn=limited)
        lines = output.decode().split("\n")
        same((status, errors, lines[:4], lines[-1]), (1, b"", ["1000", "2000", "3000", "4000"], ""), words)
        same(
            int(lines[-2].split()[1]) + sum(int(line.split()[1]) for line in lines if line.startswith("lost")),
            30000,
            lines,
        )
        found = bytes_of(path)
        same(found[44:8044], raw(range(4000)), words)
        same(len(found) <= 9000 and int.from_bytes(found[40:44], "little") in (8000, 8956), True, words)


@check("hound_examples")
def record_rejects_other_words(example):
    usage = b"usage: record FILE COUNT [channels=N] [rate=N] [bits=N] [durable] [append]\n"
    for words in [
        [],
        ["a.wav"],
        ["a.wav", "0"],
        ["a.wav", "one"],
        ["a.wav", "1", "bits=12"],
        ["a.wav", "1", "channels=0"],
        ["a.wav", "1", "channels=65536"],
        ["a.wav", "1", "rate=x"],
        ["a.wav", "1", "durable=0"],
        ["a.wav", "1", "bits"],
        ["a.wav", "1", "fast"],
    ]:
        same(example.run(["record", *words]), (2, b"", usage), words)
    same(example.run(["record", path_of("none"), "1", "append"])[:2], (1, b""))


@check("hound_examples")
def convert_rounds_and_clips_as_sox(example):
    source, to = path_of("from"), path_of("to")
    printed(example, ["sine", source])
    same(printed(example, ["convert", source, to, "8"]), b"1240 samples clipped\n")
    same(taken_away(to), (44144, 2512923621))
    numbers = lines_of(at * 9973 % 2**24 - 2**23 for at in range(5000))
    status, file, _ = Program("hound_tool").run(["pack", "1", "44100", "24"], numbers)
    same(status, 0)
    with open(source, "wb") as made:
        made.write(file)
    same(printed(example, ["convert", source, to, "16"]), b"0 samples clipped\n")
    same(taken_away(to), (10044, 2992401080))


def write_floats(path, numbers):
    data = struct.pack(f"<{len(numbers)}f", *numbers)
    with open(path, "wb") as file:
        file.write(
            b"RIFF"
            + struct.pack("<I", 36 + len(data))
            + b"WAVEfmt "
            + struct.pack("<IHHIIHH", 16, 3, 1, 44100, 176400, 4, 32)
        )
        file.write(b"data" + struct.pack("<I", len(data)) + data)


# Python's `round` of a fraction takes a half to the even number, and ffmpeg does the same.
@check("hound_examples")
def convert_scales_floats(example):
    source, to = path_of("from"), path_of("to")
    write_floats(source, [at / 65536 for at in range(-9, 10)] + [1, -1, 1.5, -1.5])
    same(printed(example, ["convert", source, to, "16"]), b"3 samples clipped\n")
    by_ffmpeg = [-4, -4, -4, -3, -2, -2, -2, -1, 0, 0, 0, 1, 2, 2, 2, 3, 4, 4, 4, 32767, -32768, 32767, -32768]
    same(data_of(to, 44), raw(by_ffmpeg))
    numbers = [at / 1024 - 1.25 for at in range(2560)] + [math.nan, math.inf, -math.inf]
    write_floats(source, numbers)
    for bits in [8, 16, 24, 32]:
        half = 2 ** (bits - 1)
        exact = [0 if math.isnan(one) else round(Fraction(max(-4, min(4, one))) * half) for one in numbers]
        wanted = [max(-half, min(half - 1, one)) for one in exact]
        clipped = sum(one != other for one, other in zip(exact, wanted))
        same(printed(example, ["convert", source, to, str(bits)]), b"%d samples clipped\n" % clipped)
        stored = [(one + 128 if bits == 8 else one % 2**bits).to_bytes(bits // 8, "little") for one in wanted]
        same(bytes_of(to), file_of(1, 44100, bits, b"".join(stored)), bits)


@check("hound_examples")
def levels_are_those_of_python(example):
    path = path_of("levels")
    printed(example, ["record", path, "1000"], RAMP)
    lines = b"""\
0.0 s  channel 1  RMS -12.65 dBFS, peak -7.88 dBFS
0.1 s  channel 1  RMS -4.20 dBFS, peak -1.86 dBFS
0.2 s  channel 1  RMS -1.29 dBFS, peak -0.77 dBFS
"""
    same(printed(example, ["levels", path]), lines)


# Five frames of two channels, sixteen bits, by sox: the data begin at byte 44.
FIVE = bytes.fromhex(
    "52494646 38000000 57415645 666d7420 10000000 0100 0200 44ac0000 10b10200 0400 1000"
    "64617461 14000000 0200 fdff 0500 f9ff 0b00 f3ff 1100 edff 1700 e3ff"
)
# Three samples of 24 bits, by sox, and a pad byte: the data begin at byte 80.
THREE = bytes.fromhex(
    "52494646 52000000 57415645 666d7420 28000000 feff 0100 44ac0000 cc040200 0300 1800 1600 1800"
    "04000000 0100 0000 00001000 800000aa 00389b71 66616374 04000000 03000000 64617461 09000000"
    "000080 2c0100 90eefe 00"
)


# A file with these two sizes, and these bytes after it, is mended to what sox wrote and the same
# bytes after it, with a pad byte where it was missing, but not before `--yes` is said.
@check("hound_examples")
def mend_puts_the_sizes_of_sox(example):
    path = path_of("mend")
    for whole, data, sizes, after, left, pad in [
        (FIVE, 44, (0x3B, 0x17), b"\1\2\3", 3, b""),
        (FIVE, 44, (0x24, 0), b"", 0, b""),
        (FIVE, 44, (0x38, 8), b"", 0, b""),
        (FIVE, 44, (0x38, 0x1414), b"\1", 1, b""),
        (THREE, 80, (0xFFFFFFFF, 0xFFFFFFFF), b"\1", 2, b""),
        (THREE[:89], 80, (0x24, 0), b"", 0, b"\0"),
        (THREE[:89], 80, (0x38, 0x1414), b"", 0, b"\0"),
    ]:
        riff, length = (struct.pack("<I", size) for size in sizes)
        torn = whole[:4] + riff + whole[8 : data - 4] + length + whole[data:] + after
        with open(path, "wb") as file:
            file.write(torn)
        frames = 5 if whole is FIVE else 3
        for words, wanted, what in [
            ([], torn, "the recording was cut off"),
            (["--yes"], whole + after + pad, f"the recording was cut off\nread {frames} frames"),
            (["--yes"], whole + after + pad, f"the file is whole\nread {frames} frames"),
        ]:
            said = printed(example, ["mend", path, *words])
            same(said, b"%d frames, %d bytes left over\n%s\n" % (frames, left, what.encode()), f"{sizes} {words}")
            with open(path, "rb") as file:
                same(file.read(), wanted, f"{sizes} {words}")
    # All samples of these are counted, and only the RIFF size is wrong: they stay as they are, unless all to the end
    # is taken for samples.
    counted = "all samples are counted, and only the RIFF size or the pad byte differs"
    for torn in THREE[:4] + bytes(4) + THREE[8:], THREE[:4] + bytes(4) + THREE[8:89]:
        with open(path, "wb") as file:
            file.write(torn)
        for words, wanted, what in [
            ([], torn, counted),
            (["--yes"], torn, counted),
            (["--to-end"], THREE, counted),
            ([], THREE, "the file is whole"),
        ]:
            said = printed(example, ["mend", path, *words])
            same(said, b"3 frames, 0 bytes left over\n%s\nread 3 frames\n" % what.encode(), f"{len(torn)} {words}")
            with open(path, "rb") as file:
                same(file.read(), wanted, f"{len(torn)} {words}")


# Mono, 44100 Hz, 24 bits in four bytes, as the original writes them.
WIDE = bytes.fromhex(
    "52494646 4c000000 57415645 666d7420 28000000 feff 0100 44ac0000 10b10200 0400 2000 1600 1800"
    "01000000 0100000000001000800000aa00389b71 64617461 10000000"
)


@check("hound_examples")
def containers_keep_their_width(example):
    """24 bits in four bytes stay so where a file is converted to itself."""
    wide, other = path_of("wide"), path_of("other")
    # The original writes the highest byte as 0.
    samples = [struct.pack("<I", number & 0xFFFFFF) for number in [2, -3, 5, -7]]
    with open(wide, "wb") as file:
        file.write(WIDE + b"".join(samples))
    printed(example, ["convert", wide, other, "24"])
    same(bytes_of(other), WIDE + b"".join(samples))


def data_of(path, start):
    """The data of a file, from this place to its end, which its length has to count."""
    with open(path, "rb") as file:
        data = file.read()
    same(int.from_bytes(data[start - 4 : start], "little"), len(data) - start, path)
    return data[start:]


def level(channel, numbers):
    """The line of `levels` for these samples of a channel."""
    rms = 10 * math.log10(sum((number / 32768) ** 2 for number in numbers) / len(numbers))
    peak = 20 * math.log10(max(abs(number) for number in numbers) / 32768)
    return b"0.0 s  channel %d  RMS %.2f dBFS, peak %.2f dBFS\n" % (channel, rms, peak)


# Of a file that ends early the frames before that are written, nothing of a torn one, and then the
# error is reported. Three frames are there, and a part of the fourth.
@check("hound_examples")
def frames_before_an_early_end_are_kept(example):
    cut, to = path_of("cut"), path_of("to")
    numbers = struct.unpack("<6h", FIVE[44:56])

    def run(words, output=b""):
        status, said, errors = example.run(words)
        same((status, said, errors[:15]), (1, output, b"Error: IoError("), words)

    for length in range(56, 60):
        with open(cut, "wb") as file:
            file.write(FIVE[:length])
        run(["convert", cut, to, "24"], b"0 samples clipped\n")
        same(data_of(to, 68), b"".join(b"\0" + struct.pack("<h", number) for number in numbers), "convert")
        lines = [level(1, numbers[::2] if length < 58 else [*numbers[::2], 17]), level(2, numbers[1::2])]
        run(["levels", cut], b"".join(lines))


# A stream that says the largest length, and one that is cut within a sample.
@check("hound_examples")
def stream_reads_from_a_pipe(example):
    endless = FIVE[:40] + bytes.fromhex("fcffffff") + FIVE[44:]
    same(printed(example, ["stream"], FIVE), b"10 samples, peak 29\n")
    same(printed(example, ["stream"], endless), b"10 samples, peak 29\n")
    same(printed(example, ["stream"], endless[:61]), b"8 samples, peak 19\n")


# The four samples and three more, by hand: only the sizes and the end differ.
@check("hound_examples")
def append_reads_back_what_it_appended(example):
    path = path_of("append")
    with open(path, "wb") as file:
        file.write(FOUR)
    same(printed(example, ["append", path, "7", "-32768", "32767"]), b"7\n-32768\n32767\n")
    with open(path, "rb") as file:
        same(file.read(), FOUR[:4] + b"\x32" + FOUR[5:40] + b"\x0e" + FOUR[41:] + raw([7, -32768, 32767]))
    same(example.run(["append", path, "1", "32768"])[:2], (1, b""))
    same(taken_away(path)[0], 58)


@check("hound_examples")
def faulty_finds_no_wrong_run(example):
    same(printed(example, ["faulty"]), b"64 runs, 0 wrong\n")


# The sums are those that hound 3.5.1 gives, and one more where the RIFF size counts a pad byte,
# which is a byte more too. The time comes before the sum.
@check("hound_examples")
def the_bench_gives_the_sums_of_its_cases(example):
    in_memory = """write_i8_mem 5 50 2609
write_i16_mem 5 54 3036
write_i24_mem 5 84 4986
write_i32_mem 5 88 5487
write_f32_mem 5 88 5361
write_i16_mem_grow 5 54 3036
batch_i16_mem 1025 2094 262975
read_i8_mem 5 50 44
read_i16_mem 5 54 11816
read_i24_mem 5 84 3025599
read_i32_mem 5 88 774553834
read_f32_mem 5 88 7217004778
seek_f32_mem 1002 4008 1610296371528
flush_i16_mem 4801 9646 1225975
open_mem 3 228 48"""
    on_disk = """write_i16_file 5 54 3036
write_i16_stereo_file 6 56 3057
write_i24_file 5 84 4986
batch_i16_file 1025 2094 262975
read_i16_file 5 54 11816
read_i16_stereo_file 6 56 17725
read_i24_file 5 84 3025599
seek_f32_file 1002 4008 1610296371528"""
    for cases, path in [(in_memory, "-"), (on_disk, path_of("bench"))]:
        for line in cases.split("\n"):
            name, count, *_ = line.split()
            status, output, errors = example.run(["bench", name, count, path])
            same((status, errors), (0, b""), line)
            parts = output.decode().split(" ")
            same((len(parts), parts[3].isdecimal()), (5, True), line)
            same(" ".join(parts[:3] + parts[4:]), line + "\n")


@check("hound_examples")
def other_words_of_the_bench_are_rejected(example):
    for words in [
        [],
        ["open_mem", "1"],
        ["open_mem", "1", "-", "more"],
        ["write_i12_mem", "1", "-"],
        ["open_mem", "-1", "-"],
        ["read_i16_file", "1", "-"],
    ]:
        same(example.run(["bench", *words]), (2, b"", b"usage: bench CASE N FILE\n"), words)
    # A file in no folder.
    status, output, errors = example.run(["bench", "write_i16_file", "1", os.path.join(path_of("none"), "a.wav")])
    same((status, output, errors[-1:]), (1, b"", b"\n"))


def main():
    asked = sys.argv[1] if len(sys.argv) == 2 else ""
    failed, done = [], 0
    for name, function in CHECKS:
        if not function.__name__.startswith(asked):
            continue
        programs = [Program(name, ending) for ending in ["", ".by-rattle"]]
        for program in programs:
            if program is not programs[0] and not os.path.exists(program.file):
                continue
            done += 1
            try:
                function(program)
            except (AssertionError, OSError, ValueError, IndexError, subprocess.SubprocessError) as error:
                failed.append(function.__name__)
                print(f"{os.path.basename(program.file)}: {function.__name__}: {error}", file=sys.stderr)
        print(f"programs: {name}: {function.__name__}", flush=True)
    print(f"programs: {done - len(failed)} of {done} checks of what they return, print and leave hold")
    sys.exit(1 if failed or not done else 0)


main()
