"""Recordings that are continued, whatever a killed process or a power failure left of them."""
import contextlib
import errno
import os
import sys
from typing import List, Optional, Tuple

from . import conversion, disk
from ._library import (
    FIND_DAMAGE, REPAIR, CRepair, CSpec, Info, Path, State, described, info_from, integer, named,
)  # fmt: skip
from ._recorder import begin, beginning_of, begun, repaired, resumed
from .chunks import Chunks, header_with
from .parts import check_next, check_no_part, part_name, parts_at
from .streams import Writer, with_header

__all__ = ["resume"]


def resume(
    path: Path,
    rate: Optional[int] = None,
    channels: Optional[int] = None,
    bits: Optional[int] = None,
    *,
    durable: bool = False,
    is_float: Optional[bool] = None,
    bytes_per_sample: int = 0,
    like: Optional[Info] = None,
    dither: int = False,
    split: Optional[int] = None,
    chunks: Optional[Chunks] = None,
) -> Writer:
    """Continues the recording at a path, whatever a killed process or a power failure left of it, or begins one: for a
    recorder that starts by itself.

    What was cut off is repaired first, as `repair` does. A file with no more than a part of the header with which such
    a recording begins has no sample, so it is begun anew. A file of another form is a ValueError and stays as it is,
    and so does one that chunks or a tag follow (`HoundError`), or that isn't such a recording. Without `rate`,
    `channels`, `bits` and `like` the file says what they are, and it has to be there with its header.

    A split recording continues in the last part; one that is missing before it is a FileNotFoundError. `paths` and
    `tell` of the Writer count all parts. `split` is that of `create`, for this part and the next ones, and so are the
    `chunks`, for a file that is begun; those of one that is continued stay as they are.
    """
    is_given = any(value is not None for value in (rate, channels, bits, like))
    spec = conversion.spec_of(rate, channels, bits, bytes_per_sample, is_float, like) if is_given else None
    if not isinstance(path, (str, os.PathLike)):
        raise TypeError("a recording is resumed at a path")
    most = None if split is None else integer("split", split, 1, sys.maxsize)
    if spec is None and chunks is not None:
        raise ValueError("chunks are for a file that may be begun: give its rate, channels and bits, too")
    with named(path):
        header = None if spec is None else header_with(spec, chunks)
    names = _parts_of(os.path.abspath(path))
    if most is not None:
        check_next(names[0], len(names) + 1)
    if spec is None and len(names) > 1:
        spec = _found_at(names[0]).spec
    writer = _resumed(names[-1], spec, durable, dither, header)
    try:
        writer._header = header
        if len(names) > 1:
            check_no_part(part_name(names[0], len(names) + 1))  # Another recorder may have made it before the lock.
            frames = [_frames_of_part(name, writer._spec, durable) for name in names[:-1]]
            writer._follow(names[:-1], sum(frames))
        if most is not None:
            writer._split(most)
    except BaseException:
        writer.close()
        raise
    return writer


def _parts_of(path: str) -> List[str]:
    """The files of the recording at a path, from the first one on, which may be missing."""
    found = parts_at(path)
    for number in range(1, max(found, default=1)):
        if number not in found:
            raise FileNotFoundError(errno.ENOENT, os.strerror(errno.ENOENT), part_name(path, number))
    return list(found.values()) or [path]


def _resumed(path: str, spec: Optional[CSpec], durable: bool, dither: int, header: Optional[bytes]) -> Writer:
    """A Writer that continues a file, or begins it if it has no sample yet and its spec is known."""
    conversion.noise_of(dither)
    if spec is not None:
        with named(path):
            begun(spec)  # An error where no such file is written, before one is made.
    with disk.folder_of(path) if durable else contextlib.nullcontext() as folder:
        file = disk.File(path, os.O_RDWR | (os.O_CREAT if spec is not None else 0))
        try:
            file.folder = folder
            with named(path):
                if spec is not None and _is_begun_anew(file, header or beginning_of(spec)):
                    begin(file, spec, durable, header)
                    return with_header(Writer(file, spec, begun(spec, header), durable, dither))
                file.sync(durable)
                file.sync_folder(durable)
                found = _mended(file, path, spec, durable)
            return Writer(file, found.spec, resumed(found, 0), durable, dither)
        except BaseException:
            file.close()
            raise


def _is_begun_anew(file: disk.File, whole: bytes) -> bool:
    """Whether a file has no more than a part of these bytes, with which a new one begins, and so no sample."""
    held = file.size()
    return held < len(whole) and file.read_at(held, 0) == whole[:held]


def _mended(file: disk.Descriptor, path: str, spec: Optional[CSpec], durable: bool) -> CRepair:
    """What is found in a file of this spec once it is repaired."""
    found = repaired(file, FIND_DAMAGE, False)
    if spec is not None:
        _check_form(path, found.spec, spec)
    if found.state == State.CUT_OFF:
        repaired(file, REPAIR, durable)
        found = repaired(file, FIND_DAMAGE, False)
    return found


def _found_at(path: str) -> CRepair:
    """What is found in a file that is only read."""
    with named(path), disk.opened(path) as file:
        return repaired(file, FIND_DAMAGE, False)


def _frames_of_part(path: str, spec: CSpec, durable: bool) -> int:
    """How many frames an earlier file of a recording has, once it is repaired where it was cut off."""
    found = _found_at(path)
    _check_form(path, found.spec, spec)
    if found.state == State.CUT_OFF:
        with named(path), disk.File(path, os.O_RDWR) as file:
            found = _mended(file, path, spec, durable)
    return int(found.counted)


def _check_form(name: str, held: CSpec, wanted: CSpec) -> None:
    """An error where a file has another spec than the recording that it is to be a part of."""

    def said(spec: CSpec) -> Tuple[int, ...]:
        width = spec.bytes_per_sample if wanted.bytes_per_sample else 0
        return spec.sample_rate, spec.channels, spec.bits_per_sample, spec.sample_format, width

    if said(held) != said(wanted):
        other, form = (described(info_from(spec, 0, 0)) for spec in (held, wanted))
        raise ValueError(f"{name} has another form, {other}, than {form}")
