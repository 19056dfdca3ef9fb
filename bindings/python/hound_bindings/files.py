"""Whole files: what they are, read, written and appended to."""
import contextlib
import ctypes
import io
import mmap
import os
import shutil
import stat
import sys
import tempfile
from typing import IO, Any, Callable, ContextManager, Iterator, Optional, Tuple, Union

from . import conversion, disk, streams
from ._library import (
    HEADER_BYTES, POINTER, SIZE, SPARE, U64, CSpec, Dtype, File, HoundError, Info, Path, checked, function, integer,
    name_error, named,
)  # fmt: skip

__all__ = ["append", "info", "read", "read_into", "read_with_info", "replaced", "to_bytes", "write"]

_size = function("size", POINTER, U64)
_header = function("header", POINTER, U64, POINTER, SIZE)


def _opened(file: File) -> ContextManager[streams.Reader]:
    """What reads a file: at a path, of an object, or in memory."""
    if isinstance(file, (str, os.PathLike)) or (hasattr(file, "read") and not isinstance(file, mmap.mmap)):
        return streams.Reader(file)  # type: ignore[arg-type]
    return _opened_in_memory(file)


@contextlib.contextmanager
def _opened_in_memory(content: Any) -> Iterator[streams.Reader]:
    source: Any = disk.Memory(content)
    with source, streams.Reader(source) as reader:
        yield reader


def info(file: File) -> Info:
    """What the header of a file says. The data may be missing. An object that can seek stays where it is."""
    with named(file), _opened(file) as source:
        source._rewind()
        return source.info


def read_into(file: File, buffer: Any, start: int = 0) -> int:
    """Reads frames from number `start` on into a buffer, and returns how many there were.

    The buffer is filled as far as whole frames fit and the file holds them. Its type is
    that of the samples; it has to be writable and contiguous. After an error a part of it may be overwritten.
    """
    start = integer("start", start, 0, sys.maxsize)
    with conversion.Room(buffer, "buffer") as room, _opened(file) as source:
        channels: int = source.info.channels
        with source._read_from(start, -1, None, False, room) as block:
            return int(block.nbytes // block.itemsize // channels)


def read(
    file: File,
    start: int = 0,
    frames: int = -1,
    dtype: Optional[Dtype] = None,
    *,
    always_2d: bool = False,
    out: Any = None,
) -> Any:
    """Reads frames from number `start` on, at most so many (all where it is -1), and returns their samples.
    Integers keep their values with each type, where soundfile shifts them to the left: of a file of 24 bits 1 is 1 as
    int32, and not 256.

    They are an `array.array` of interleaved samples; with `always_2d` a memoryview of frames by channels. `dtype` is
    "int8", "int16", "int32", "float32" or "float64"; without it, it is the narrowest from 16 bits on that reads the
    file. With a type or dtype of numpy, as `numpy.float32`, they are an array of numpy: frames by channels, or of one
    dimension where there is one channel, unless `always_2d` is set. Integers of up to 24 bits are exact as float32, all
    of them as float64. Of a file that holds fewer frames than its header counts these are read, and a read that
    starts after them is an error.

    With `out` they are stored in that buffer, as a numpy array, as far as whole frames fit, and the result
    is a memoryview of this part of it. Its type and its dimensions are those of the samples; it has to be writable and
    contiguous. After an error a part of it may be overwritten.
    """
    return read_with_info(file, start, frames, dtype, always_2d=always_2d, out=out)[0]


def read_with_info(
    file: File,
    start: int = 0,
    frames: int = -1,
    dtype: Optional[Dtype] = None,
    *,
    always_2d: bool = False,
    out: Any = None,
) -> Tuple[Any, Info]:
    """What `read` returns, and what the header says: `write(.., like=info)` makes such a file of these samples."""
    start = integer("start", start, 0, sys.maxsize)
    frames = integer("frames", frames, -1, sys.maxsize)
    with _opened(file) as source:
        return source._read_from(start, frames, dtype, always_2d, conversion.room_of(out)), source.info


def _spec_for(
    samples: conversion.Given,
    rate: Optional[int],
    channels: Optional[int],
    bits: Optional[int],
    width: int,
    like: Optional[Info],
) -> CSpec:
    """The spec of a file of these samples."""
    conversion.check_like(like)
    if channels is None:
        channels = samples.columns if like is None else like.channels
    bits = samples.form.bits if bits is None and like is None else bits
    is_float = None if bits is None else samples.form.kind == "f32" and bits == 32
    spec = conversion.spec_of(rate, 1 if channels is None else channels, bits, width, is_float, like)
    conversion.check_columns("samples", samples.columns, spec.channels)
    return spec


def to_bytes(
    samples: Any,
    rate: Optional[int] = None,
    channels: Optional[int] = None,
    bits: Optional[int] = None,
    *,
    bytes_per_sample: int = 0,
    like: Optional[Info] = None,
    dither: int = False,
) -> bytearray:
    """Returns the bytes of a file of these samples. What isn't given is taken from `like`.

    Without `bits` and `like` integers are stored with their own width, or with 16 bits from a list or an array of
    int64. Floats are stored as float32 if the file has 32 bits and `like` isn't of integers; else they are scaled to
    integers. What doesn't fit is an error.
    """
    with conversion.Given(samples) as given:
        whole = _Whole(given, _spec_for(given, rate, channels, bits, bytes_per_sample, like), dither)
        file = bytearray(whole.length)

        def put(content: Any, place: int) -> None:
            file[place : place + len(content)] = content

        whole.put(put)
    return file


class _Whole:
    """A file of some samples, which has so many bytes."""

    def __init__(self, given: conversion.Given, spec: CSpec, dither: int) -> None:
        self.length = checked(_size(ctypes.byref(spec), given.count))
        self._given, self._spec = given, spec
        way, noise = conversion.Way(given.dtype, spec), conversion.noise_of(dither)
        given.check(way, noise)
        self._encoder = conversion.Encoder(way, noise)
        if given.count == 0 and given.has_type:
            self._encoder.piece(SPARE, 0)  # An error where the type isn't written.

    def put(self, put: Callable[[Any, int], None]) -> None:
        """Lets a call put each piece of the file at its place."""
        given, encoder, header = self._given, self._encoder, ctypes.create_string_buffer(HEADER_BYTES)
        place = checked(_header(ctypes.byref(self._spec), given.count, header, HEADER_BYTES))
        put(memoryview(header)[:place], 0)
        with contextlib.closing(encoder.pieces(given, place)) as pieces:
            for piece in pieces:
                put(piece, place)
                place += len(piece)
        if place < self.length:
            put(bytes(self.length - place), place)  # the pad byte
        encoder.warn(given.count)


def _locked_if_there(path: Path) -> ContextManager[Any]:
    """The file at a path, locked, if there is one; an OSError where it may not be written."""
    try:
        return disk.File(path, os.O_WRONLY)
    except FileNotFoundError:
        return contextlib.nullcontext()


@contextlib.contextmanager
def _part_of(path: Path, folder: str) -> Iterator[str]:
    """The name of a new file in a folder. At an error it is removed, and the error names the path instead of it."""
    part = os.path.join(folder, f".hound-{os.urandom(8).hex()}")
    try:
        yield part
    except BaseException as error:
        with contextlib.suppress(OSError):
            os.unlink(part)
        if isinstance(error, (HoundError, OSError)) and error.filename == part:
            error.filename = None
        name_error(error, path)
        raise


@contextlib.contextmanager
def _written_into(path: Path, durable: bool) -> Iterator[str]:
    """The name of a new file, whose bytes are written into a device or a pipe when the context ends."""
    with named(path), io.open(path, "wb") as device, tempfile.TemporaryDirectory() as folder:
        with _part_of(path, folder) as part:
            yield part
            with io.open(part, "rb") as file:
                shutil.copyfileobj(file, device)
        device.flush()
        if durable:
            disk.sync(device.fileno())


@contextlib.contextmanager
def _renamed(path: Path, durable: bool) -> Iterator[str]:
    """The name of a new file, which gets this path when the context ends."""
    name = os.path.realpath(os.fsdecode(path))
    with _locked_if_there(path):
        pass  # What may not be replaced is an error before anything is written.
    with disk.folder_of(name) if durable else contextlib.nullcontext() as folder:
        with _part_of(path, os.path.dirname(name)) as part:
            yield part
            with _locked_if_there(path) as older:
                if older:
                    os.chmod(part, stat.S_IMODE(os.fstat(older.descriptor).st_mode))
                disk.replace(part, name, older)
        if durable:
            disk.sync(folder)


def replaced(path: Path, durable: bool) -> ContextManager[str]:
    """The name of a new file, which takes the place of one at this path when the context ends, unless that is a device
    or a pipe: then it is written into that."""
    return _written_into(path, durable) if _is_device(path) else _renamed(path, durable)


def _is_device(path: Path) -> bool:
    """Whether what is at a path isn't a file."""
    try:
        return not stat.S_ISREG(os.stat(path).st_mode)
    except (OSError, ValueError):
        return False  # Whoever opens it gets the error.


def _write_to(file: Any, content: bytearray, durable: bool) -> int:
    """Writes all of this to an object, and returns its length."""
    disk.put_here(file, content)
    if durable:
        disk.sync(file.fileno())
    return len(content)


def write(
    path: Union[Path, IO[bytes]],
    samples: Any,
    rate: Optional[int] = None,
    channels: Optional[int] = None,
    bits: Optional[int] = None,
    *,
    bytes_per_sample: int = 0,
    durable: bool = False,
    like: Optional[Info] = None,
    dither: int = False,
) -> int:
    """Writes a file of these samples, as `to_bytes` makes it, and returns its length.

    It is written under another name in the same folder, and renamed when it is whole: until then, at an error too, a
    file that was there stays as it was, and the new file gets its mode. A file that is locked isn't replaced. With
    `durable` the file is synced before it is renamed, and its folder after that: if only the last sync fails, the new
    file is there, and may be lost with the power. An object is written to where it is, and need not seek. A device or a
    pipe at a path isn't replaced: the file is written into it.
    """
    with named(path):
        if not isinstance(path, (str, os.PathLike)):
            form = rate, channels, bits
            content = to_bytes(samples, *form, bytes_per_sample=bytes_per_sample, like=like, dither=dither)
            return _write_to(path, content, durable)
        with conversion.Given(samples) as given:
            whole = _Whole(given, _spec_for(given, rate, channels, bits, bytes_per_sample, like), dither)
            with replaced(path, durable) as part, disk.made(part) as file:
                whole.put(file.put)
                file.sync(durable)
        return whole.length


def append(
    path: Union[Path, IO[bytes]], samples: Any, *, overwrite: bool = False, durable: bool = False, dither: int = False
) -> int:
    """Appends whole frames to a file, and returns its length.

    It is an `append_to`, one `write` and a `close`. So the samples are written first, then the sizes: whenever the
    program is killed, the header counts only what is there, and `repair` finds the samples that were written (and maybe
    a zero after them, where frames have one byte). After an error the header counts what it did before, and the file is
    cut off after that, so it can be done again; where the system can't cut it off, the error says so. Chunks that were
    to be overwritten are lost then. If a signal handler raises, or a size was written though the system says that it
    failed, the same holds, or all samples are appended. With `durable` the samples survive a power failure once this
    has returned; without it, once the system has written them. After a sync that failed it is unknown what is stored,
    and nothing more is written: the samples may be there, counted or not. A recording that was cut off is an error, and
    so are chunks or a tag after the data, unless they may be overwritten.
    """
    with conversion.Given(samples) as given, streams._append_to(path, durable, overwrite, dither) as writer:
        writer._append(given)
    return writer._length
