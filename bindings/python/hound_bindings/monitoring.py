"""`hound-wav cat --follow` and `info --follow`: a recording while another program makes it."""
import argparse
import json
import sys
import time
from typing import Any, Iterator, Optional

import hound_bindings as hound

from ._following import Follower, followers, looks_at, pace_of
from ._library import described, named
from .terminal import Peaks, Wrong, clock, complain, say

__all__ = ["add_options", "check_options", "show", "write"]

# How many frames are read at once, how many seconds are between two looks, and between two lines of `info`.
_BLOCK, _POLL, _EVERY = 1 << 16, 0.05, 1.0


def add_options(add: Any) -> None:
    flag = {"action": "store_true"}
    add("--follow", help="follow a file that another program records, until its recorder has ended", **flag)
    add("--parts", help="with --follow: continue in NAME-002.wav, NAME-003.wav and so on", **flag)
    words = "with --follow: wait so long for more of a recorder that locks nothing, such as a program in Node"
    add("--idle", type=_seconds, metavar="SECONDS", help=words)
    words = "with --follow: wait so long for a file that isn't there yet, or for more: then it is an error"
    add("--timeout", type=_seconds, metavar="SECONDS", help=words)


def _seconds(text: str) -> float:
    try:
        if 0 <= float(text) < 1e6:
            return float(text)
    except ValueError:
        pass
    raise argparse.ArgumentTypeError(f"{text} is no time")


def check_options(options: argparse.Namespace) -> None:
    if not options.follow and (options.parts or options.idle is not None or options.timeout is not None):
        raise Wrong("--parts, --idle and --timeout are those of --follow")
    if options.follow and ("-" in options.files or getattr(options, "to_end", False)):
        raise Wrong("--follow is for a file at a path, whose header counts more and more")


class _Recording:
    """A recording that is followed. `follower` is at its last file so far, before which there were so many frames, and
    `is_whole` says whether the recorders of all files ended well."""

    def __init__(self, name: str, options: argparse.Namespace) -> None:
        self._name, self._options = name, options
        self.follower: Optional[Follower] = None
        self.frames_before, self.is_whole = 0, True

    def looks(self, dtype: Optional[Any]) -> Iterator[Any]:
        """What each look gives, also nothing."""
        options = self._options
        pace = pace_of(self._name, options.timeout, _POLL, options.idle or 0)
        for follower, after in followers(self._name, pace, options.timeout, options.parts):
            self.follower = follower
            yield from looks_at(follower, _BLOCK, dtype, False, pace, after)
            self._say_how_it_was_left(follower)
            self.frames_before += follower.tell()
            self.follower = None

    def _say_how_it_was_left(self, follower: Follower) -> None:
        try:
            found = follower.find_damage()
        except hound.HoundError as error:
            if error.cause != hound.Cause.ENDED:
                raise
            complain(f"{follower.path}: it has no header, and nobody records it")
            self.is_whole = False
            return
        if found.state == hound.State.CUT_OFF and found.added:
            complain(f"{follower.path}: the recorder was killed: hound-wav repair adds {found.added} frames")
            self.is_whole = False


def write(name: str, options: argparse.Namespace) -> bool:
    """Writes the samples of a recording to standard output as soon as they are counted; whether it ended well."""
    recording = _Recording(name, options)
    for block in recording.looks(options.type):
        if len(block):
            with named(sys.stdout):
                sys.stdout.buffer.write(block)
                sys.stdout.buffer.flush()
    return recording.is_whole


def show(name: str, options: argparse.Namespace) -> bool:
    """Prints each second how long a recording is, and how loud each channel was since the line before; whether it ended
    well."""
    recording, meter = _Recording(name, options), _Meter(name, options.json)
    for block in recording.looks(None):
        if recording.follower is not None and recording.follower.info is not None:
            meter.hear(block, recording.follower.info, recording.frames_before + recording.follower.tell())
    meter.end()
    return recording.is_whole


class _Meter:
    """What is printed of a recording."""

    def __init__(self, name: str, is_json: bool) -> None:
        self._name, self._is_json = name, is_json
        self._peaks: Optional[Peaks] = None
        self._next, self._frames, self._said = time.monotonic() + _EVERY, 0, -1

    def hear(self, block: Any, info: hound.Info, frames: int) -> None:
        """Takes the next samples of a file, after which there are so many frames."""
        if self._peaks is None:
            self._rate, self._peaks = info.sample_rate, Peaks(info)
            if not self._is_json:
                self._print(f"{self._name}: {described(info)}")
        self._peaks.hear(block)
        self._frames = frames
        if time.monotonic() >= self._next:
            self._next = time.monotonic() + _EVERY
            self._show()

    def end(self) -> None:
        """Prints what came since the last line."""
        if self._peaks is not None and self._frames != self._said:
            self._show()

    def _show(self) -> None:
        peaks = self._peaks.taken() if self._peaks else []
        seconds, self._said = self._frames / self._rate if self._rate else 0.0, self._frames
        if self._is_json:
            said = {"file": self._name, "seconds": seconds, "frames": self._frames}
            self._print(json.dumps({**said, "peaks": [None if peak == "-inf" else float(peak) for peak in peaks]}))
        else:
            self._print(f"{clock(seconds)}  {self._frames} frames  {' '.join(peaks)} dB")

    @staticmethod
    def _print(line: str) -> None:
        say(line)
        with named(sys.stdout):
            sys.stdout.flush()
