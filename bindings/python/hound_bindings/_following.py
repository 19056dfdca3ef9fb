"""Recordings that are read while another program makes them."""
import ctypes
import errno
import math
import os
import sys
import time
from typing import Any, Iterator, NamedTuple, Optional, Set, Tuple

from . import conversion, disk
from ._calls import OneAtATime, one_at_a_time
from ._library import (
    FIND_DAMAGE, FRONT_BYTES, NOTHING_NEW, POINTER, Cause, CFollower, CSpec, Dtype, HoundError, Info, Path, Repair,
    check_header, function, info_from, integer,
)  # fmt: skip
from ._recorder import repaired
from .parts import part_name
from .repairs import report_of

__all__ = ["Follower", "follow", "followers", "looks_at", "pace_of"]

_follower_next = function("follower_next", POINTER, result=ctypes.c_int32)
# How many of the last bytes that were given are compared with the file.
_TAIL = 256
# What has no samples yet, and so no form.
_NO_WAYS = conversion.Ways(CSpec(0, 1, 16, 2, 0))
# A recorder's lock is asked for at most so often, in seconds, and not before a file without a header is so old.
_ASKED = 1.0


def _look(file: disk.Descriptor, follower: CFollower) -> int:
    """What a look returns. One that is cut off, or whose read fails, goes on with the same read."""
    while (code := _follower_next(ctypes.byref(follower))) == 1:
        disk.perform(follower.effect, file, False)
    return int(code)


class _Given(NamedTuple):
    """How many bytes of samples were given, and the last ones of these."""

    length: int
    tail: bytes


class Follower(OneAtATime):
    """The frames of a recording at a path, from the first one on, while another program makes it.

    `read` returns the next ones that the header counts, and none where nothing new is counted: it never waits. Each of
    them was accepted by the recorder, and a crash of that takes none back. `info` is None until the whole header is
    there; its `frames` are those that were counted when the last look was taken.

    A file that was emptied, cut off below what was given, or replaced is an OSError (ESTALE). That is known by the last
    bytes that were given, and so isn't noticed where another recording in the same file begins with as much of the
    same, such as silence. Threads may share it: each call waits for the end of another one. It belongs to the process
    that made it.
    """

    def __init__(self, path: Path) -> None:
        super().__init__()
        self._name, self._process = path, os.getpid()
        self._state = _Given(0, b"")
        self._begin(disk.opened(path))

    def _begin(self, file: disk.Descriptor) -> None:
        """Begins with a file, or anew, before anything was given."""
        self._ways: Optional[conversion.Ways] = None
        self._checked: Set[conversion.Way] = set()  # Those by which the file can be read.
        self._file, self._follower = file, CFollower()

    def __enter__(self) -> "Follower":
        return self

    def __exit__(self, *_: Any) -> None:
        self.close()

    def close(self) -> None:
        self._file.close()

    @property
    def path(self) -> Path:
        path: Path = self._name
        return path

    @property
    def info(self) -> Optional[Info]:
        """What the header says, once all of it is there."""
        follower = self._follower
        if not follower.data_start:
            return None
        return info_from(follower.spec, follower.counted // self._frame(), follower.data_start)

    def _frame(self) -> int:
        return int(self._follower.spec.bytes_per_sample * self._follower.spec.channels)

    def tell(self) -> int:
        """The number of the next frame."""
        return int(self._state.length // self._frame()) if self._follower.data_start else 0

    @one_at_a_time
    def read(self, frames: int = -1, dtype: Optional[Dtype] = None, *, always_2d: bool = False) -> Any:
        """The next frames, at most so many (for -1 all that are counted), in the form that a Reader gives them; none
        where nothing new is counted, or no whole header is there."""
        frames = integer("frames", frames, -1, sys.maxsize)
        while self._follower.counted == self._state.length and not self._has_nothing_new():
            pass
        if self._ways is None and self._follower.data_start:
            self._ways = conversion.Ways(self._follower.spec)
        room = conversion.Room().bound(self._ways or _NO_WAYS, dtype)
        if self._ways and room.way not in self._checked:  # Whether the type reads the file.
            conversion.check_readable(room.way, self._front)
            self._checked.add(room.way)
        content = self._next_bytes(frames)
        count = len(content) // room.way.size
        with room.place(count) as (start, _):
            if content:
                room.decode(content, count, start)
        result = room.result(count, always_2d)
        if content:
            self._finish(_Given(self._state.length + len(content), content[-_TAIL:]))
        return result

    def _has_nothing_new(self) -> bool:
        """Whether a look finds nothing new; the one that finds the header counts nothing yet."""
        code = _look(self._file, self._follower)
        if code == NOTHING_NEW:
            return True
        if code == -Cause.TRUNCATED:
            self._replaced()
            return True
        check_header(code, self._front)
        return False

    def _front(self) -> bytes:
        return self._file.read_at(FRONT_BYTES, 0)

    def _next_bytes(self, frames: int) -> bytes:
        """The next frames as the file stores them, at most so many, and none where it isn't the recording that it
        was."""
        given: _Given = self._state
        left = self._follower.counted - given.length
        if not left:
            return b""
        length = left if frames < 0 else min(frames * self._frame(), left)
        content = self._file.read_at(length, self._follower.data_start + given.length)
        if len(content) == length and self._is_same():
            return content
        self._replaced()
        return b""

    def _is_same(self) -> bool:
        """Whether the last bytes that were given are where they were. Where none were its header is the same."""
        given: _Given = self._state
        if given.length:
            place = self._follower.data_start + given.length - len(given.tail)
            return self._file.read_at(len(given.tail), place) == given.tail
        again = CFollower()
        is_there = _look(self._file, again) == 0 and again.data_start == self._follower.data_start
        return is_there and bytes(again.spec) == bytes(self._follower.spec)

    def _replaced(self) -> None:
        """Another recording was found in the file: an error, unless nothing was given of the one before."""
        if self._state.length:
            what = "the file was replaced, emptied or cut off meanwhile"
            raise OSError(errno.ESTALE, what, os.fspath(self._name))
        self._begin(self._file)

    @one_at_a_time
    def is_recorded(self) -> bool:
        """Whether a program that locks the file records, appends to or repairs it. So a recording has ended where
        nothing new was counted, then this is False, and then a last `read` finds nothing new either.

        Where another file is at the path, and nothing was given of this one, that one is followed from now on, because
        a recorder that fails removes its file. For a moment the file is locked for readers. So ask only where nothing
        new is counted, at most once a second, and not in the first second while `info` is None, because a recorder
        makes its file before it locks it. A program that locks nothing, such as Node, never seems to record.
        """
        is_other = not disk.is_at(self._file.descriptor, self._name) and os.path.exists(self._name)
        if is_other and self._state.length == 0:
            older, newer = self._file, disk.opened(self._name)
            self._begin(newer)
            older.close()
            return True
        is_locked = disk.is_locked(self._file.descriptor)
        if (is_other and not is_locked) or (self._state.length and not self._is_same()):
            self._replaced()
        return is_locked

    @one_at_a_time
    def find_damage(self) -> Repair:
        """What `find_damage` finds of the file: State.CUT_OFF where the recorder was killed, and then a repair adds
        `added` frames, none of which was given."""
        return report_of(repaired(self._file, FIND_DAMAGE, False))


class _Pace:
    """When the next look is taken, and when a lock is asked for."""

    def __init__(self, path: Path, timeout: Optional[float], poll: float, idle: float) -> None:
        self._path, self._timeout, self._poll, self.idle = path, timeout, poll, idle
        self.begin()

    def begin(self) -> None:
        """A file is opened."""
        self._news, self._asked = time.monotonic(), -math.inf

    def note_news(self) -> None:
        self._news = time.monotonic()

    def may_ask(self, has_header: bool) -> bool:
        """Whether it is time to ask for the lock, which then counts as asked."""
        now, least = time.monotonic(), self.idle if has_header else max(self.idle, _ASKED)
        if now - self._news < least or now - self._asked < _ASKED:
            return False
        self._asked = now
        return True

    def wait(self) -> None:
        """Waits until the next look; a TimeoutError where nothing new came for too long."""
        if self._timeout is not None and time.monotonic() - self._news > self._timeout:
            raise TimeoutError(errno.ETIMEDOUT, "nothing new is counted", os.fspath(self._path))
        time.sleep(self._poll)


def _opened(path: Path, pace: _Pace, is_awaited: bool) -> Follower:
    """A follower of the file at a path, which may be awaited."""
    while True:
        try:
            return Follower(path)
        except FileNotFoundError:
            if not is_awaited:
                raise
        pace.wait()


def followers(
    path: Path, pace: _Pace, timeout: Optional[float], parts: bool
) -> Iterator[Tuple[Follower, Optional[Path]]]:
    """A follower of each file of a recording, one after the other, with the path of the file after it. A recorder
    makes and locks the next file before it unlocks one. So where there is none once one has ended, the recording has
    ended."""
    number = 1
    while True:
        pace.begin()
        try:
            name = path if number == 1 else part_name(path, number)
            follower = _opened(name, pace, number == 1 and timeout is not None)
        except FileNotFoundError:
            if number == 1:
                raise
            return
        with follower:
            yield follower, part_name(path, number + 1) if parts else None
        if not parts:
            return
        number += 1


def _counts_frames(path: Path) -> bool:
    """Whether the file at a path counts frames by now."""
    try:
        with Follower(path) as follower:
            follower.read(0)
            return follower.info is not None and follower.info.frames > 0
    except (OSError, HoundError):
        return False  # Whoever follows it gets the error.


def looks_at(
    follower: Follower, frames: int, dtype: Optional[Dtype], always_2d: bool, pace: _Pace, after: Optional[Path] = None
) -> Iterator[Any]:
    """What a follower reads at each look until its recording has ended, also nothing. A recorder that locks nothing has
    ended its file, too, once that `after` it counts frames."""
    is_over = False
    while True:
        block = follower.read(frames, dtype, always_2d=always_2d)
        if len(block):
            is_over = False
            yield block
            pace.note_news()
        elif is_over:
            return
        elif pace.may_ask(follower.info is not None):
            is_over = not follower.is_recorded()
        elif after is not None and pace.idle > 0 and _counts_frames(after):
            is_over = True
        else:
            yield block
            pace.wait()


def _seconds(name: str, value: float, least: float) -> float:
    """An argument that is a time."""
    if not least <= value < math.inf:
        raise ValueError(f"{name} is {value!r}, and not a number of seconds from {least} on")
    return value


def pace_of(path: Path, timeout: Optional[float], poll: float, idle: float) -> _Pace:
    timeout = None if timeout is None else _seconds("timeout", timeout, 0)
    return _Pace(path, timeout, _seconds("poll", poll, 0.001), _seconds("idle", idle, 0))


def follow(
    path: Path,
    frames: int = 4096,
    dtype: Optional[Dtype] = None,
    *,
    always_2d: bool = False,
    timeout: Optional[float] = None,
    poll: float = 0.05,
    idle: float = 0,
    parts: bool = False,
) -> Iterator[Any]:
    """The frames of a recording in blocks of at most so many, while another program makes it: those that its header
    counts by then. The iteration ends once the recorder has ended, also where it was killed: what was left uncounted,
    and a repair brings back, `find_damage` says then.

    It looks for more every `poll` seconds. With `timeout` it waits so long for a file that isn't there yet, and for new
    frames: then that is a TimeoutError. A recorder has ended when it has unlocked the file. For one that locks nothing,
    such as a program in Node, `idle` says how many seconds to wait for more. With `parts` it goes on in take-002.wav,
    take-003.wav and so on, where a recorder with `split` continues. `Follower` is for a program that waits by itself.
    """
    frames = integer("frames", frames, 1, sys.maxsize)
    pace = pace_of(path, timeout, poll, idle)

    def blocks() -> Iterator[Any]:
        for follower, after in followers(path, pace, timeout, parts):
            for block in looks_at(follower, frames, dtype, always_2d, pace, after):
                if len(block):
                    yield block

    return blocks()
