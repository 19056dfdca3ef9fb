"""The program that python_faults.py kills, and whose calls it lets fail; the files that it works on; and wrong versions
of the package. It imports little, since it is started many times.

usage: python_program.py VERSION WORK FILE CASE FIRST COUNT TIMES"""
import array
import contextlib
import ctypes
import os
import random
import struct
import sys
import time
from typing import NamedTuple

import hound_bindings as hound
from hound_bindings import _calls, _library, _recorder, streams

sys.path.insert(0, os.path.join(os.path.dirname(os.path.dirname(os.path.abspath(__file__))), "python", "tests"))
import wav  # noqa: E402

# What every file holds, from its first sample on: bytes from 129 on, so that no zero, pad byte or tag is
# among them, and each sample is negative (but those of 8 bits, which are positive).
NO_ZEROS = bytes(129 + byte % 127 for byte in range(256))
STREAM = random.Random(1).getrandbits(8 << 21).to_bytes(1 << 21, "little").translate(NO_ZEROS)
LIST = b"LIST" + struct.pack("<I", 26) + b"INFOISFT" + struct.pack("<I", 14) + b"Lavf59.27.100\0"


class Case(NamedTuple):
    """A kind of files: the width of a sample in bytes, and the chunks before the data."""

    name: str
    channels: int
    width: int
    chunks: bytes = b""

    @property
    def frame(self):
        return self.channels * self.width


CASES = [
    Case("16 bits, mono", 1, 2),
    Case("8 bits, mono", 1, 1),
    Case("24 bits, mono", 1, 3),
    Case("16 bits, stereo", 2, 2),
    Case("16 bits, mono, a chunk before the data", 1, 2, LIST),
    Case("8 bits, mono, a head of 6 pages", 1, 1, b"JUNK" + struct.pack("<I", 20001) + bytes(20002)),
    Case("8 bits, 3 channels", 3, 1),
    Case("24 bits, stereo", 2, 3),
    Case("24 bits, 5 channels", 5, 3),
    Case("8 bits, 6 channels", 6, 1),
]


def head(case, length, after=b""):
    """The bytes before data of this length, after which there is a pad byte or none, and other bytes."""
    start = wav.head(length, between=case.chunks, channels=case.channels, width=case.width, rate=44100)
    return wav.with_riff(start, len(start) - 8 + length + length % 2 + len(after))


def file_of(case, frames, after=b""):
    length = frames * case.frame
    return head(case, length, after) + STREAM[:length] + bytes(length % 2) + after


def samples_of(case, first, count):
    """The samples of so many frames."""
    content = STREAM[first * case.frame : (first + count) * case.frame]
    if case.width == 1:
        return array.array("b", bytes(byte - 128 for byte in content))
    if case.width == 2:
        return array.array("h", content)
    wide = bytearray(b"\xff" * (len(content) // 3 * 4))
    for place in range(3):
        wide[place::4] = content[place::3]
    return array.array("i", bytes(wide))


# Wrong versions of the package.


def performed(change):
    """One that performs effects in another way."""
    perform = hound.disk.perform
    hound.disk.perform = lambda effect, *words: change(perform, effect, *words)


def reported(perform, effect, *words):
    """It reports each effect as done, also one that failed."""
    with contextlib.suppress(OSError):
        perform(effect, *words)
    effect.report = hound.disk.DONE


def without(kind):
    """It reports the effects of a kind as done, and doesn't perform them."""

    def change(perform, effect, *words):
        if effect.kind != kind:
            perform(effect, *words)
        effect.report = hound.disk.DONE

    return change


LATER = []


def late(perform, effect, *words):
    """It writes a block after the sizes that count it, and reports it before that."""
    if effect.kind == hound.disk.WRITE_BLOCK:
        pieces = list(map(bytes, words[2]))
        LATER.append((perform, type(effect).from_buffer_copy(effect), *words[:2], pieces))
        effect.report = hound.disk.DONE
        return
    perform(effect, *words)
    while effect.place == 40 and LATER:
        call, *arguments = LATER.pop()
        call(*arguments)


def counted_early():
    """A recorder that counts a block before it writes it."""
    write = hound.Writer.write

    def count(self, block):
        length = len(block) * self._state.recorder.bytes_per_sample
        self._state.recorder.data_length += length
        self.flush()
        self._state.recorder.data_length -= length
        write(self, block)

    hound.Writer.write = count


def effects_forgotten():
    """A recorder that reports each effect as done, or a sync as failed, where a signal handler raised."""

    def perform_all(self, block=b""):
        recorder, fault = self._state.recorder, None
        while (code := _recorder._recorder_next(ctypes.byref(recorder))) == 1:
            effect = recorder.effect
            try:
                hound.disk.perform(effect, self._file, self._durable, block)
            except BaseException as error:
                fault, effect.report = error, hound.disk.FAILED if effect.kind == hound.disk.SYNC else hound.disk.DONE
        if fault is not None:
            raise fault
        _library.checked(code)
        return recorder

    hound.Writer._perform_all = perform_all


def blocks_forgotten():
    """A recorder that reports a block as done before its call returns."""

    def written(self, block):
        hound.disk.perform(self._state.recorder.effect, self._file, self._durable, block)
        return self._state.recorder

    hound.Writer._written = written


def kept_after_a_failure():
    """An append that leaves its block where a size can't be written."""
    hound.Writer._give_up = lambda self, before: self._file.close()


def nobody_waits():
    """Recorders and readers that threads use at once."""
    begin = _calls.OneAtATime.__init__

    def unlocked(self):
        begin(self)
        self._lock = contextlib.nullcontext()

    _calls.OneAtATime.__init__ = unlocked


def at_one_place(perform, effect, *words):
    """It writes each piece of a block where the block begins."""
    if effect.kind != hound.disk.WRITE_BLOCK:
        return perform(effect, *words)
    for piece in words[2]:
        perform(effect, *words[:2], [piece])


def all_held_is_returned():
    """A reader of 16 bits that returns whatever it holds, and forgets the rest."""

    def read(self, frames):
        frame, size = self._state.frame, self._spec.bytes_per_sample * self._spec.channels
        frames = min(frames, self.info.frames - frame)
        content = self._fill(frames * size, 0)
        count = len(content) // size
        self._state = streams._Next(frame + count, [])
        return array.array("h", content[: count * size])

    hound.Reader.read = read


RANDOM = b"part"
PART = f".hound-{RANDOM.hex()}"  # The name of a file that is renamed.

VERSIONS = {
    "right": lambda: None,
    "a report before the effect": lambda: performed(late),
    "each report is that it is done": lambda: performed(reported),
    "a block isn't cut off": lambda: performed(without(hound.disk.SHORTEN)),
    "no block is written": lambda: performed(without(hound.disk.WRITE_BLOCK)),
    "counted early": counted_early,
    "effects forgotten": effects_forgotten,
    "blocks forgotten": blocks_forgotten,
    "kept after a failure": kept_after_a_failure,
    "pieces at one place": lambda: performed(at_one_place),
    "nobody waits": nobody_waits,
    "all held is returned": all_held_is_returned,
}


def record(work, path, case, first, count, times):
    """Records so many blocks, and prints how many frames each checkpoint has."""
    durable = "durable" in work
    if "create" in work:
        writer = hound.create(path, 44100, case.channels, 8 * case.width, durable=durable)
    else:
        writer = hound.append_to(path, durable=durable)
    with writer:
        for end in range(first + count, first + count * times + 1, count):
            writer.write(samples_of(case, end - count, count))
            writer.flush()
            print(end, flush=True)


def perform(work, path, case, first, end):
    """Does a task once to a file: these frames come newly, or the file has them."""
    if work == "repair":
        hound.repair(path, durable=True)
    elif work == "write":
        hound.write(path, samples_of(case, 0, end), 44100, case.channels)
    else:
        samples = samples_of(case, first, end - first)
        hound.append(path, samples, overwrite="overwrite" in work, durable="durable" in work)


def program(version, work, path, number, first, count, times):
    """Does a task to a file so many times, and prints after each how many frames it then has."""
    VERSIONS[version]()
    case, end = CASES[int(number)], int(first)
    os.urandom = lambda count: RANDOM
    try:
        if "record" in work:
            record(work, path, case, end, int(count), int(times))
        for turn in range(0 if "record" in work else int(times)):
            first, end = end, end + int(count)
            perform(work, path, case, first, end)
            print(end, flush=True)
    except (OSError, hound.HoundError):
        sys.exit(3)
    if int(times) > 1:
        time.sleep(10)  # It is killed here at the latest.


if __name__ == "__main__":
    program(*sys.argv[1:])
