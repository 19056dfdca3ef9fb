"""What the command hound-wav says, and shows on a terminal."""
import array
import contextlib
import math
import os
import select
import shutil
import sys
import time
from typing import Any, List, TypeVar

import hound_bindings as hound

from ._library import Advice, named

__all__ = ["Bar", "Line", "Peaks", "Wrong", "clock", "complain", "note", "say", "sentence_of"]

# What would end a line, or be more than text for a terminal, is written as Python does in a string.
_ESCAPES = {code: repr(chr(code))[1:-1] for code in (*range(32), *range(127, 160), 0x2028, 0x2029)}
# What can be done about a cause, by the names of this command.
_ADVICE: Advice = {
    hound.Cause.OTHER_FORMAT: "--type float32, or float64",
    hound.Cause.TOO_WIDE: "--type int32 reads it",
    hound.Cause.TRUNCATED: "hound-wav repair, or --to-end",
    hound.Cause.DATA_LENGTH: "hound-wav repair, or --to-end",
    hound.Cause.FRAME_LENGTH: "hound-wav repair, or --to-end",
    hound.Cause.NEEDS_MEND: "hound-wav repair",
    hound.Cause.TOO_LONG: "a WAV file has less than 4 GiB, so the rest needs another one",
}

_Shown = TypeVar("_Shown", bound="Line")


class Wrong(Exception):
    """What can't be done, in a sentence."""


def say(line: str) -> None:
    """Prints what may have the name of a file in one line."""
    with named(sys.stdout):
        print(line.translate(_ESCAPES))


def note(line: str) -> None:
    """Prints a line to standard error. Where that takes none, such as a closed terminal, nobody can be told so."""
    with contextlib.suppress(OSError):
        print(line.translate(_ESCAPES), file=sys.stderr, flush=True)


def complain(sentence: str) -> None:
    note(f"hound-wav: {sentence}")


def sentence_of(error: Exception) -> str:
    if isinstance(error, FileExistsError):
        return f"{error.filename}: {error.strerror}: rename or remove it first"
    if isinstance(error, OSError) and error.strerror:
        return f"{error.filename}: {error.strerror}" if error.filename else error.strerror
    if isinstance(error, hound.HoundError):
        return error._said(_ADVICE)
    return str(error)


def clock(seconds: float) -> str:
    return f"{int(seconds) // 3600}:{int(seconds) // 60 % 60:02}:{int(seconds) % 60:02}"


class Peaks:
    """How loud each channel of samples of a file is."""

    def __init__(self, info: hound.Info) -> None:
        self._full, self._peaks = 1.0 if info.is_float else 2.0 ** (info.bits_per_sample - 1), [0.0] * info.channels

    def hear(self, samples: "array.array[Any]") -> None:
        channels = len(self._peaks)
        if samples:
            parts = (samples[channel::channels] for channel in range(channels))
            loudest = (max(max(part), -min(part)) / self._full for part in parts)
            self._peaks = [max(pair) for pair in zip(self._peaks, loudest)]

    def taken(self) -> List[str]:
        """The peaks since this was called before, in decibels."""
        peaks, self._peaks = self._peaks, [0.0] * len(self._peaks)
        return [f"{20 * math.log10(peak):.1f}" if peak > 0 else "-inf" for peak in peaks]


class Line:
    """A line that is written again and again, on a terminal alone, from so many seconds on. What it is about never
    waits for it: it is left out where the terminal takes nothing, as after Ctrl-S, or is closed."""

    def __init__(self, seconds: float) -> None:
        self.is_shown, self._is_there, self._next = sys.stderr.isatty(), False, time.monotonic() + seconds

    def __enter__(self: _Shown) -> _Shown:
        return self

    def __exit__(self, *_: Any) -> None:
        if self._is_there:
            self._print("")

    def is_due(self) -> bool:
        return self.is_shown and time.monotonic() >= self._next

    def write(self, text: str) -> None:
        self._next, self._is_there = time.monotonic() + 0.2, True
        room = max(shutil.get_terminal_size().columns - 1, 1)
        self._print(text.translate(_ESCAPES)[:room])

    @staticmethod
    def _print(text: str) -> None:
        with contextlib.suppress(OSError):
            if os.name == "nt" or select.select([], [sys.stderr], [], 0)[1]:
                print(f"\r\33[K{text}", end="", file=sys.stderr, flush=True)


class Bar(Line):
    """How much is done, once it takes a second."""

    def __init__(self, name: str, total: float) -> None:
        super().__init__(1)
        self._name, self._total = name, total

    def show(self, done: float) -> None:
        if self._total > 0 and self.is_due():
            part = min(done / self._total, 1)
            self.write(f"[{'#' * int(40 * part):40}] {part:4.0%} {self._name}")
