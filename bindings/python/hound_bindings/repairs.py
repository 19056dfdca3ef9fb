"""Repairs of files whose recording was cut off, in place or in a copy."""
import contextlib
import ctypes
import errno
import os
import sys
from typing import IO, Any, Iterator, Optional, Tuple, Union

from . import conversion, disk, lost
from ._library import (
    FIND_DAMAGE, MAKE_CANONICAL, POINTER, REPAIR, REPAIR_TO_END, SIZE, U64, CRepair, HoundError, Info, Path, Repair,
    State, checked, function, info_from, integer, name_error, named,
)  # fmt: skip
from ._recorder import frames_left, repaired, resumed
from .files import info, replaced
from .streams import Reader

__all__ = [
    "copied", "copy_name", "find_damage", "first_part", "found_at", "header_of", "mends", "mode_of", "repair",
    "report_of",
]  # fmt: skip

_sizes = function("sizes", POINTER, U64, U64, POINTER, SIZE)


@contextlib.contextmanager
def found_at(path: Path, mode: int, durable: bool = False) -> Iterator[Tuple[disk.Descriptor, CRepair]]:
    """The file at a path, open, and what a repairer of this mode has found of it. It is locked before that, unless it
    is only looked at."""
    with named(path):
        file, denied = (disk.opened(path), None) if mode == FIND_DAMAGE else _opened_for_repair(path)
        with file:
            yield file, repaired(file, mode, durable, denied)


def _opened_for_repair(path: Path) -> Tuple[disk.File, Optional[OSError]]:
    """A file to be repaired, and why it may only be read."""
    try:
        return disk.File(path, os.O_RDWR), None
    except OSError as error:
        if error.errno not in (errno.EACCES, errno.EPERM, errno.EROFS):
            raise
        return disk.File(path, os.O_RDONLY), error


def _repaired(file: Union[Path, IO[bytes]], mode: int, durable: bool) -> Repair:
    """What a repairer of this mode finds of a file; an object stays where it is."""
    if isinstance(file, (str, os.PathLike)):
        with found_at(file, mode, durable) as (_, found):
            return report_of(found)
    with named(file):
        stream = disk.Stream(file)
        report = report_of(repaired(stream, mode, False, stream.fault))
        stream.rewind()
        return report


def report_of(found: CRepair) -> Repair:
    info = info_from(found.spec, found.frames, found.data_start)
    return Repair(State(found.state), found.frames, found.left_over, found.counted, info)


def header_of(found: CRepair) -> Info:
    """What the header said. It has no frames where it counted a part of one, as that of a stream may."""
    is_whole = found.data_length == found.counted * found.spec.channels * found.spec.bytes_per_sample
    return info_from(found.spec, found.counted if is_whole else 0, found.data_start)


def find_damage(path: Union[Path, IO[bytes]]) -> Repair:
    """Returns what `repair` would, and writes nothing."""
    return _repaired(path, FIND_DAMAGE, False)


def copy_name(path: Path) -> str:
    """The name of a repaired copy of a file, which must not be there."""
    copy = os.path.splitext(os.fsdecode(path))[0] + ".repaired.wav"
    _check_new(copy)
    return copy


def _check_new(path: Path) -> None:
    if os.path.exists(path):
        raise FileExistsError(errno.EEXIST, os.strerror(errno.EEXIST), os.fspath(path))


def repair(
    path: Union[Path, IO[bytes]],
    *,
    durable: bool = False,
    to_end: bool = False,
    canonical: bool = False,
    copy: Optional[Path] = None,
    like: Optional[Info] = None,
    skip: Optional[int] = None,
) -> Repair:
    """Repairs a file whose recording was cut off, in place, and returns how it was found. Copy it first if it
    is the only one: some recorders leave older audio at the end, which then counts.

    It writes the RIFF size, the data length, and then a missing pad byte; with `durable` it syncs before and after each
    of them. A file that is whole, or that chunks follow, is only read; with `to_end` all that follows the header of the
    data is taken for samples, also what looks like chunks. So is one whose frames are all counted, since no sample is
    concerned: with `canonical` its RIFF size and pad byte are written. At an error, or if a signal handler raises, the
    header counts only what is there, and the file can be repaired again.

    With `copy` the file stays as it is, and a copy of this name, which must not be there, is repaired. What is mended
    so ends after the last whole frame and its pad byte, since GStreamer 1.22 plays nothing of a file with 1 to 7 bytes
    after the data (so it plays none with a pad byte either); in place nothing is cut off. With `like` the header is
    taken for lost: a copy, by default NAME.repaired.wav, gets the header of such a file, and all whole frames from byte
    `skip` on. Without `skip` they begin after what looks like the header of the data near the beginning, or else at
    byte `like.data_start`. `guess` makes such an Info.
    """
    if skip is not None and like is None:
        raise ValueError("skip is for a header that is lost: give `like`, too, which says what the samples are")
    if like is not None or copy is not None:
        return _repaired_copy(path, durable, to_end, canonical, copy, like, skip)
    return _repaired(path, mode_of(to_end, canonical), durable)


def first_part(path: Path) -> Tuple[int, int]:
    """Where the samples begin in a file that is longer than its header can count, and where as many whole frames end as
    a file may have."""
    with Reader(path, to_end=True) as reader:
        spec, start = reader._spec, reader.info.data_start
        found = CRepair(spec, state=State.WHOLE, data_start=start, length=start)
        return start, start + frames_left(resumed(found, 0)) * reader._size


def mode_of(to_end: bool, canonical: bool) -> int:
    return REPAIR_TO_END if to_end else MAKE_CANONICAL if canonical else REPAIR


def mends(state: State, to_end: bool, canonical: bool) -> bool:
    """Whether a repair writes to a file of this state."""
    return state == State.CUT_OFF or (to_end and state != State.WHOLE) or (canonical and state == State.ALL_COUNTED)


def _repaired_part(part: str, durable: bool, to_end: bool, canonical: bool) -> Repair:
    """Repairs a copy, which ends after its last whole frame and the pad byte where it was mended."""
    with disk.File(part, os.O_RDWR) as file:
        found = repaired(file, mode_of(to_end, canonical), durable)
        report, sizes = report_of(found), ctypes.create_string_buffer(8)
        if mends(report.state, to_end, canonical):
            samples = found.frames * found.spec.channels
            after = found.data_start + samples * found.spec.bytes_per_sample
            end = checked(_sizes(ctypes.byref(found.spec), found.data_start, samples, sizes, len(sizes)))
            file.put(bytes(end - after), after)  # The pad byte, where a byte of a torn frame may be.
            file.cut(end)
            file.sync(durable)
        return report


def copied(file: disk.Descriptor, copy: Path, durable: bool, to_end: bool, canonical: bool) -> Repair:
    """Repairs a copy of a file, which gets this name once it is whole."""
    with replaced(copy, durable) as part:
        lost.copy(file, part)
        try:
            return _repaired_part(part, durable, to_end, canonical)
        except HoundError as error:  # It is that of what the file holds.
            name_error(error, file.name)
            raise


def _repaired_copy(
    path: Any,
    durable: bool,
    to_end: bool,
    canonical: bool,
    copy: Optional[Path],
    like: Optional[Info],
    skip: Optional[int],
) -> Repair:
    if not isinstance(path, (str, os.PathLike)):
        raise TypeError("a copy is made of a file at a path")
    conversion.check_like(like)
    copy = copy_name(path) if copy is None else copy
    _check_new(copy)
    with named(path):
        if like is None:
            with disk.opened(path) as file:
                return copied(file, copy, durable, to_end, canonical)
        with replaced(copy, durable) as part:
            if skip is None:
                start = lost.start_of(path, like.data_start)
            else:
                start = integer("skip", skip, 0, sys.maxsize)
            found = lost.Progress(start, 0, 0)
            for found in lost.recovered(path, part, like, start, durable):
                pass
            return Repair(State.CUT_OFF, found.frames, found.left_over, info=info(part))
