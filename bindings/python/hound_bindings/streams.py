"""Files that are read or written block by block: those that are read may come from a pipe."""
import atexit
import contextlib
import ctypes
import io
import os
import sys
import threading
import types
import warnings
import weakref
from typing import (
    IO, Any, Callable, Iterator, List, NamedTuple, NoReturn, Optional, Set, Tuple, Union,
)  # fmt: skip

from . import conversion, disk
from ._calls import OneAtATime, one_at_a_time
from ._library import (
    FIND_DAMAGE, FRONT_BYTES, HEADER_BYTES, OVERWRITE, POINTER, U64, Cause, CInfo, CRecorder, CSpec, Dtype,
    HoundError, Info, Path, checked, function, info_from, integer, name_error, named,
)  # fmt: skip
from ._recorder import Recorder, Recording, add_to, begin, begun, found_in, repaired, resumed, walk_over, warn_of_rest
from .chunks import Chunks, header_with
from .parts import check_next, check_no_part, part_name

__all__ = ["Reader", "Writer", "append_to", "create", "open", "with_header"]

_whole_frames = function("whole_frames", POINTER, U64)


class _Next(NamedTuple):
    """The number of the next frame, and what was read from there on."""

    frame: int
    held: List[Any]


# How many bytes are read at once, and how many frames a stream has at most.
_PIECE, _MOST_FRAMES = 1 << 20, 1 << 46


class Reader(OneAtATime):
    """The frames of a file, from the first one on; `info` is what its header says.

    Only the bytes of the requested frames are read, so a pipe can be read on after the data. If a read fails, or a
    signal handler raises in it, the next call continues at the same frame, with the bytes that came. If that happens
    before the data, there is no Reader, and a pipe has lost the bytes of its header: let a pipe that doesn't block
    hold them before it is opened. It is a context manager, and iterates over blocks of 4096 frames. Threads may share
    it: each call waits for the end of another one. So may forked processes a file at a path, which each of them reads
    by itself; of a pipe, or an object with a descriptor, a read in another process is a RuntimeError, since they would
    take each other's bytes.

    With `to_end` it is a stream whose header may not know its length, as when sox or ffmpeg write to a pipe: its
    frames are all whole ones to its end, and `info.frames` is 0.
    """

    def __init__(self, file: Union[Path, IO[bytes]], *, to_end: bool = False) -> None:
        super().__init__()
        _READERS.add(self)
        self._name, self._to_end, self._front = file, to_end, b""
        self._checked: Set[conversion.Way] = set()  # Those by which the file can be read.
        self._is_own = isinstance(file, (str, os.PathLike))
        source: Any = file
        is_memory = isinstance(source, disk.Memory)
        if not self._is_own and not is_memory:
            disk.check_object(file, "read")
        self._source: Any = io.open(source, "rb", buffering=0) if self._is_own else source
        self._state = _Next(0, [])
        try:
            self._start = 0 if is_memory else disk.start_of(self._source) if self._is_own else disk.place_of(source)
            # What is read at any place, so that a read can be done again, also by a forked process.
            self._placed: Union[disk.Descriptor, disk.Memory, None] = source if is_memory else None
            if self._is_own and self._start is not None and hasattr(os, "pread"):
                self._placed = disk.Descriptor(self._source)
            if self._placed is None and disk.descriptor_of(self._source) is not None:
                self._process = os.getpid()
            self._find_data()
        except BaseException as error:
            self.close()
            name_error(error, file)
            raise

    def __enter__(self) -> "Reader":
        return self

    def __exit__(self, *_: Any) -> None:
        self.close()

    def __iter__(self) -> Iterator[Any]:
        return self.blocks(4096)

    def close(self) -> None:
        """Closes the file, if it was opened here."""
        if self._is_own and self._is_elsewhere():
            self._source.close()
        elif self._is_own:
            self._close()

    @one_at_a_time
    def _close(self) -> None:
        self._source.close()

    def _rewind(self) -> None:
        if self._start is not None and self._placed is None:
            self._source.seek(self._start)

    def _fill(self, count: int, place: int) -> bytes:
        """What is held, which begins at a place of the file, once it has so many bytes or the file ends."""
        frame, held = self._state.frame, [b"".join(filter(None, self._state.held))]
        self._state = _Next(frame, held)
        size = len(held[0])
        if self._start is not None and self._placed is None:
            self._source.seek(self._start + place + size)
        while size < count:
            wanted = min(count - size, _PIECE)
            # Of an object each is one call of C: no signal handler runs before what was read is in the list. The first
            # one reads a buffered pipe at most once, so that it has no bytes to lose; if it gives none, the other one
            # says why.
            if self._placed is not None:
                held.append(self._placed.read_at(wanted, place + size))
            else:
                held.extend(map(getattr(self._source, "read1", self._source.read), (wanted,)))
                if not held[-1]:
                    held.extend(map(self._source.read, (wanted,)))
            if not disk.piece_of(held[-1], wanted):
                break
            size += len(held[-1])
        content = b"".join(filter(None, held))
        self._state = _Next(frame, [content])
        return content

    def _find_data(self) -> None:
        found = self._found()
        self._spec, self._ways = found.spec, conversion.Ways(found.spec)
        self._size = int(found.spec.bytes_per_sample * found.spec.channels)  # of a frame
        self.info = info_from(found.spec, found.samples // found.spec.channels, found.data_start)
        self._most = _MOST_FRAMES if self._to_end else self.info.frames

    def _found(self) -> CInfo:
        """What the header says: that of most files is in the front, so that one read is enough."""
        if self._placed is None:
            read = self._reading_on()
        else:
            self._front = self._placed.read_at(FRONT_BYTES, 0)
            found = None if self._to_end else found_in(self._front)
            if found:
                return found
            read = self._reading_at(self._placed)
        return walk_over(types.SimpleNamespace(read_at=read), self._to_end)

    def _reading_at(self, source: Union[disk.Descriptor, disk.Memory]) -> Callable[[int, int], bytes]:
        """What reads a part of a file, also of its front."""
        front = self._front

        def read(count: int, place: int) -> bytes:
            is_there = place + count <= len(front) or len(front) < FRONT_BYTES
            return front[place : place + count] if is_there else source.read_at(count, place)

        return read

    def _reading_on(self) -> Callable[[int, int], bytes]:
        """The same of an object, which is read no further than to the data."""
        taken = 0

        def take(count: int, place: int) -> bytes:
            nonlocal taken
            part = self._fill(count, place)
            self._state = _Next(0, [])
            taken = place + len(part)
            self._front += part[: max(FRONT_BYTES - len(self._front), 0)]
            return part

        def read(count: int, place: int) -> bytes:
            if self._start is None and place < taken:
                return self._front[place:]  # A pipe can't be read again.
            while self._start is None and taken < place and take(min(place - taken, _PIECE), taken):
                pass  # What can't be sought in is read up to there.
            return take(count, place)

        return read

    def _stored(self, frames: int, room: conversion.Room) -> Tuple[int, bytes]:
        """How many of the next frames were stored, at most so many, and the bytes that came after them. Nothing is lost
        if a read fails."""
        size, channels = self._size, room.way.channels
        length, place = frames * size, self.info.data_start + self._state.frame * size
        is_small = length <= conversion.CACHED
        if self._placed is not None and (is_small or self._placed.size() >= place + length):
            count = self._stored_at(self._placed, place, frames, room)
            if count == frames or not is_small:  # Else the file became shorter, or holds fewer frames than it says.
                return count, b""
        content = self._fill(length, place)
        count = min(checked(_whole_frames(ctypes.byref(self._spec), len(content))) // size, frames)
        with room.place(count * channels) as (start, _):
            room.decode(content, count * channels, start)
        return count, content[count * size :]

    def _stored_at(
        self, source: Union[disk.Descriptor, disk.Memory], place: int, frames: int, room: conversion.Room
    ) -> int:
        """How many of so many frames at a place were stored."""
        size, way, count = self._size, room.way, 0
        if way.are_containers:
            return room.fill(frames * way.channels, lambda content: source.read_into(content, place)) // size
        with room.place(frames * way.channels) as (start, _):
            for piece in source.pieces(place, frames * size, max(conversion.CACHED // size, 1) * size):
                whole = len(piece) // size
                room.decode(piece, whole * way.channels, start + count * way.channels * way.width)
                count += whole
        return count

    @one_at_a_time
    def read(
        self, frames: int = -1, dtype: Optional[Dtype] = None, *, always_2d: bool = False, out: Any = None
    ) -> Any:
        """The next frames, at most so many (all for -1); none after the last one.

        They have the form that `hound_bindings.read` gives them, also with `out`. Where the file ends before the frames
        that its header counts, those that it holds are returned, and the next call is an error.
        """
        frames = integer("frames", frames, -1, sys.maxsize)
        room = conversion.room_of(out).bound(self._ways, dtype)
        if room.way not in self._checked:  # Whether the type reads the file is known before a byte is taken.
            conversion.check_readable(room.way, lambda: self._front)
            self._checked.add(room.way)
        frame = self._state.frame
        left = min(self._most - frame, room.most)
        frames = left if frames < 0 else min(frames, left)
        count, rest = self._stored(frames, room)
        if count == 0 and frames > 0 and not self._to_end:
            raise HoundError(Cause.TRUNCATED)
        result = room.result(count * room.way.channels, always_2d)
        self._finish(_Next(frame + count, [rest]))
        return result

    def _read_from(self, start: int, frames: int, dtype: Optional[Dtype], always_2d: bool, out: Any) -> Any:
        if start > 0:
            self.seek(min(start, self._most))
        return self.read(frames, dtype, always_2d=always_2d, out=out)

    def blocks(self, frames: int, dtype: Optional[Dtype] = None, *, always_2d: bool = False) -> Iterator[Any]:
        """The frames from the next one on, in blocks of so many; the last one may be shorter."""
        frames = integer("frames", frames, 1, sys.maxsize)
        while len(block := self.read(frames, dtype, always_2d=always_2d)) > 0:
            yield block

    def tell(self) -> int:
        """The number of the next frame."""
        return int(self._state.frame)

    @property
    def left_over(self) -> int:
        """How many bytes were read after the frames: once a stream has ended, those of a torn frame."""
        return sum(map(len, filter(None, self._state.held)))

    @one_at_a_time
    def seek(self, frame: int) -> None:
        """Makes this frame the next one, in a file that can be sought in."""
        frame = integer("frame", frame, 0, self._most)
        if self._start is None:
            raise io.UnsupportedOperation("the file can't be sought in")
        self._finish(_Next(frame, []))


_READERS: "weakref.WeakSet[Reader]" = weakref.WeakSet()


def _unlock_readers() -> None:
    """In a forked process: the thread that has a lock isn't there."""
    for reader in list(_READERS):
        reader._lock, reader._running = threading.RLock(), None


if hasattr(os, "register_at_fork"):
    os.register_at_fork(after_in_child=_unlock_readers)


class _Attempt(NamedTuple):
    """An attempt to make a next file: its name, and as what it was opened."""

    path: str
    opened: List[disk.File]


class Writer(Recorder):
    """A file that is written block by block. It is a context manager, which closes it.

    A block is with the system once `write` has returned, and the header counts it after the next `flush` or `close`:
    if the program is killed before, `repair` finds it, but where frames have one byte maybe a zero after it. A file
    that is durable has all blocks of a `flush` after a power failure, too. Only whole frames are ever counted.

    After an error of `write` the block isn't in the file, and the next call continues; it first makes the header count
    all blocks before that one, also if it is a `write`. If the system can't cut the file off either, a part of the
    block follows what is counted, which a repair takes for samples: the error says so, and `close` warns of it. After
    an OSError of a sync it is unknown what is stored, and each later call is an error. A signal handler may raise in
    any call, as Ctrl-C does: a block is in the file only if its `write` has returned, and the next call cuts it off;
    after a `close` that is another `close`.

    Threads may share it: each call waits for the end of another one. A signal handler that calls it during another call
    of the same thread gets a RuntimeError. One that isn't closed is closed when it is collected or the program ends,
    with a ResourceWarning. The file is locked until then.

    With `split` it continues in a next file where a block doesn't fit, so a block is in one file, in whole frames. The
    next file is made, begun and locked before this one is ended. Where that fails, as at a name that is there, `write`
    is the error, and the Writer is as before: all blocks are in their files, and it can be used or closed, which
    removes a next file that has no samples yet. A block that is larger than a file may be is written as several: after
    an error those before the failed one are there, which `tell` counts, and an OSError says how many frames they have.

    It belongs to the process that made it, since two would overwrite each other's blocks. In a forked process `write`
    and `flush` are a RuntimeError, and nothing is written or unlocked by `close`, the end of a `with` or of the
    program, or where it is collected. No copy of it can be made.
    """

    _most: Optional[int] = None  # How many frames a file has at most, where the recording continues in a next one.
    _attempt: Optional[_Attempt] = None  # The last one to make a next file.
    _header: Optional[bytes] = None  # With which each next file begins, where it has chunks.

    def __init__(
        self, file: Union[disk.File, disk.Stream], spec: CSpec, recorder: CRecorder, durable: bool, dither: int
    ) -> None:
        super().__init__(file, spec, recorder, durable, dither)
        self._ways = conversion.Ways(spec)
        _WRITERS[self] = file
        self._process = os.getpid()

    def __enter__(self) -> "Writer":
        return self

    def __exit__(self, *_: Any) -> None:
        self.close()

    def __del__(self) -> None:
        self._abandon()

    def __reduce__(self) -> NoReturn:
        raise TypeError("a Writer can't be copied or pickled: two would overwrite each other's blocks")

    def _abandon(self) -> None:
        """Closes the file of a Writer that nobody has closed."""
        if not self._process or self._file.is_closed:
            return
        try:
            if not self._is_elsewhere():
                warnings.warn(f"a Writer wasn't closed: {self._file.path!r}", ResourceWarning, source=self)
        finally:
            self.close()

    def _check_open(self) -> None:
        if self._state.file.is_closed:
            raise ValueError("the Writer is closed")

    @property
    def clipped(self) -> int:
        """How many floats were clipped of those that became integers."""
        return int(self._state.clipped)

    @property
    def info(self) -> Info:
        """What the header says after the next checkpoint: with `split`, that of the file that is written."""
        recorder = self._state.recorder
        info = info_from(self._spec, self._frames(), recorder.data_start)
        return info._replace(bytes_per_sample=recorder.bytes_per_sample)

    def tell(self) -> int:
        """The number of the next frame; with `split`, of all files."""
        return int(self._state.frames_before) + self._frames()

    @property
    def paths(self) -> List[Any]:
        """The files of the recording: with `split` there may be several, the last of which is written."""
        return [*self._state.ended, self._file.path]

    @property
    def frames_left(self) -> int:
        """How many frames fit after those that are written, so that a program can continue in another file; with
        `split`, how many this file still takes."""
        left = self._frames_with_room()
        return left if self._most is None else min(left, max(self._most - self._frames(), 0))

    @one_at_a_time
    def write(self, block: Any) -> None:
        """Writes whole frames, as `hound_bindings.write` takes them. After a write that failed it makes a checkpoint
        first, as `flush` does."""
        self._check_open()
        given = block if isinstance(block, conversion.Given) else conversion.Given(block, "block")
        try:
            if self._most is None:
                self._write(given)
            else:
                self._write_in_files(given, self._most)
        finally:
            given.view.release()

    def _write_in_files(self, given: conversion.Given, most: int) -> None:
        """Writes a block; or of one that is larger than a file may be what fits in each file."""
        channels, first = self._spec.channels, 0
        if given.count <= most * channels or given.count % channels:
            self._write(given)
            return
        self._check_samples(given)
        while first * channels < given.count:
            self._running[1].clear()  # What is written of it stays.
            room = self.frames_left or most
            try:
                with given.frames(first, room, channels) as part:
                    self._write(part)
            except OSError as error:
                if first > 0:
                    add_to(error, f"and only the first {first} frames of {given.count // channels} are recorded")
                raise
            first += room

    def _check_samples(self, given: conversion.Given) -> None:
        """An error where a sample of a block can't be encoded, before any of it is written."""
        way = self._ways.of_given(given.dtype)
        given.check(way, self._state.noise)
        if not way.fits:
            for _ in conversion.Encoder(way, self._state.noise).pieces(given, 0):
                pass

    def _write(self, given: conversion.Given) -> None:
        state: Recording = self._state
        way = self._ways.of_given(given.dtype)
        given.check(way, state.noise)
        containers = given.containers(way)
        if containers is not None:
            with containers:
                self._begin_block(given.count)
                self._finish_block(self._perform_all(conversion.in_pieces(containers, self._end)), 0, None)
            return
        encoder = conversion.Encoder(way, state.noise)
        if given.count > conversion.BLOCK and way.fits:
            self._begin_block(given.count)
            with contextlib.closing(encoder.pieces(given, self._end())) as pieces:
                recorder = self._perform_all(pieces)
        else:
            # Where a sample may be an error all are encoded before any is written.
            encoded = encoder.at_once(given)
            self._begin_block(given.count)
            recorder = self._perform_all(encoded)
        if encoder.clipped:
            encoder.warn(given.count)
        self._finish_block(recorder, encoder.clipped, encoder.noise)

    def _begin_block(self, count: int) -> None:
        """Requests the write of so many samples, in a next file where they don't fit in this one."""
        if self._most is not None:
            frames, torn = divmod(count, self._spec.channels)
            if not torn and frames > self.frames_left:
                self._continue()
        self._request_block(count)

    def _follow(self, paths: List[str], frames: int) -> None:
        """Makes the file a further one of a recording that has these files with so many frames before it."""
        self._state = self._state._replace(ended=tuple(paths), frames_before=frames)

    def _split(self, frames: int) -> None:
        """Lets the recording continue in a next file after so many frames, or as many as fit."""
        self._most = min(frames, self._frames() + self._frames_with_room())

    def _continue(self) -> None:
        """Continues in a next file, which is made, begun and locked before this one is ended."""
        following = self._next_file()
        try:
            self._checkpoint()
        except BaseException:
            self._undo_attempt()
            raise
        before = self._state
        _WRITERS[self] = following._file
        self._state = before._replace(
            file=following._file,
            recorder=following._state.recorder,
            synced=[],
            ended=(*before.ended, before.file.path),
            frames_before=self.tell(),
        )
        self._name, had_rest, self._has_rest = following._name, self._has_rest, False
        before.file.close()
        if had_rest:
            warn_of_rest(before.file.path)

    def _next_file(self) -> "Writer":
        """The next file, with its header. A name that is there is an error, unless a call of this Writer that was cut
        off has left a file without samples there."""
        path = part_name((*self._state.ended, self._file.path)[0], len(self._state.ended) + 2)
        _WRITERS[self] = self._file  # and no other one that a call had begun
        self._undo_attempt()
        check_no_part(path)
        attempt = self._attempt = _Attempt(path, [])
        try:
            following = _create(path, self._spec, self._durable, True, False, attempt.opened, self._header)
        except (FileExistsError, BlockingIOError):
            self._attempt = None  # It is another program's.
            raise
        except (OSError, HoundError):
            self._undo_attempt()
            raise
        following._process = None  # From now on its file is that of this Writer.
        return following

    def _undo_attempt(self) -> None:
        """Removes a next file that isn't written to, since the call that made it was cut off. It is closed first, as a
        traceback may hold it, and Windows removes no open file."""
        attempt = self._attempt
        if attempt is None or attempt.path == self._file.path:
            return
        for file in attempt.opened:
            file.close()
        with contextlib.suppress(OSError):
            if _is_bare(attempt.path, self._header):
                os.unlink(attempt.path)
        self._attempt = None

    @one_at_a_time
    def flush(self) -> None:
        """Makes the header count all frames, and if the file is durable, stores them."""
        self._check_open()
        self._checkpoint()

    def close(self) -> None:
        """Flushes and closes the file. It is closed after an error, too, but not if a signal handler raised."""
        if self._is_elsewhere():
            self._file.close(is_unlocked=False)
            return
        was_closed = self._file.is_closed
        try:
            self._close()
        finally:
            if self._file.is_closed:
                self._undo_attempt()
        if not was_closed:
            self._warn_of_rest()

    def _append(self, block: Any) -> None:
        """Writes a block and closes the file. Where that fails the block is cut off again."""
        before = self._state
        try:
            self.write(block)
            self.flush()
        except OSError as error:
            self._give_up(before)
            self._add_rest(error)
            raise
        with contextlib.suppress(OSError):  # The end of the context does it again.
            self._length = self._file.size()
        if self._length:
            self._file.close()
            self._warn_of_rest()

def _is_bare(path: Path, header: Optional[bytes]) -> bool:
    """Whether a file has no more than a header: this one, or that of its spec."""
    length = HEADER_BYTES if header is None else len(header)
    with contextlib.suppress(OSError), io.open(path, "rb", buffering=0) as file:
        front = file.read(length + 1)
        return len(front) <= length and (header or b"RIFF").startswith(front if header else front[:4])
    return False


# The Writers, and their files: so a collected cycle of both closes the Writer before its file.
_WRITERS: "weakref.WeakKeyDictionary[Writer, Any]" = weakref.WeakKeyDictionary()


@atexit.register
def _abandon_all() -> None:
    with contextlib.ExitStack() as writers:
        for writer in list(_WRITERS):
            writers.callback(writer._abandon)


def create(
    path: Union[Path, IO[bytes]],
    rate: Optional[int] = None,
    channels: Optional[int] = None,
    bits: Optional[int] = None,
    *,
    durable: bool = False,
    is_float: Optional[bool] = None,
    bytes_per_sample: int = 0,
    exclusive: bool = False,
    like: Optional[Info] = None,
    dither: int = False,
    split: Optional[int] = None,
    chunks: Optional[Chunks] = None,
) -> Writer:
    """Creates a file over an existing one: it has a header, and no frames yet. `like` has what isn't given.

    With `exclusive` an existing file is a FileExistsError. It stays as it is then, and also if an argument is wrong,
    the file is locked, or its folder can't be synced though it is to be durable. An object is cut off where it is; it
    can't be durable or locked.

    With `split` a file has at most so many frames, and never more than fit. The recording of `take.wav` continues
    in `take-002.wav`, `take-003.wav` and so on, each of which mustn't be there: of the second one that is looked at
    first, of each before the file before it is ended. Names that would be too long, and a folder in which nothing can
    be made, are errors before anything is recorded. All files are in the folder where a relative path is at this call,
    and `paths` has their absolute names.

    Each file has the `chunks` before its samples, which are names of four bytes with their content, as [(b"bext", ..)].
    """
    spec = conversion.spec_of(rate, channels, bits, bytes_per_sample, is_float, like)
    with named(path):
        header = header_with(spec, chunks)
    if split is None:
        return _create(path, spec, durable, exclusive, dither, header=header)
    frames = integer("split", split, 1, sys.maxsize)
    if not isinstance(path, (str, os.PathLike)):
        raise ValueError("split is for files at a path")
    path = os.path.abspath(path)
    check_next(path)
    writer = _create(path, spec, durable, exclusive, dither, header=header)
    writer._split(frames)
    return writer


def _create(
    path: Union[Path, IO[bytes]],
    spec: CSpec,
    durable: bool,
    exclusive: bool,
    dither: int,
    opened: Optional[List[disk.File]] = None,
    header: Optional[bytes] = None,
) -> Writer:
    """A Writer of a new file, whose header is stored. Where that fails it is closed, and writes nothing more."""
    return with_header(_begun(path, spec, durable, exclusive, dither, opened, header))


def with_header(writer: Writer) -> Writer:
    """A Writer of a file that was begun, once its header is stored. Where that fails it is closed."""
    try:
        writer._perform_all()
    except BaseException as error:
        writer._file.close()
        name_error(error, writer._name)
        raise
    return writer


def _begun(
    path: Union[Path, IO[bytes]],
    spec: CSpec,
    durable: bool,
    exclusive: bool,
    dither: int,
    opened: Optional[List[disk.File]] = None,
    header: Optional[bytes] = None,
) -> Writer:
    """A Writer of a new file, with the checkpoint requested that stores the header: another request takes its place."""
    with named(path):
        recorder = begun(spec, header)
    conversion.noise_of(dither)
    if not isinstance(path, (str, os.PathLike)):
        stream = _stream_of(path, durable, "write")
        begin(stream, spec, durable, header)
        return Writer(stream, spec, recorder, durable, dither)
    with disk.folder_of(path) if durable else contextlib.nullcontext() as folder:
        file = disk.File(path, os.O_WRONLY | os.O_CREAT | (os.O_EXCL if exclusive else 0), opened)
        try:
            file.folder = folder
            begin(file, spec, durable, header)
            writer = Writer(file, spec, recorder, durable, dither)
            writer._header = header
            return writer
        except BaseException as error:
            file.close()
            name_error(error, path)
            raise


def _stream_of(file: IO[bytes], durable: bool, method: str) -> disk.Stream:
    if durable:
        raise ValueError("durable is for files at a path")
    stream = disk.Stream(file, method)
    if stream.fault:
        raise stream.fault
    return stream


def append_to(path: Union[Path, IO[bytes]], *, durable: bool = False, dither: int = False) -> Writer:
    """A file that is there, after whose frames more are written. A recording that was cut off is an error (`resume`
    continues one), and so are chunks or a tag after its data."""
    return _append_to(path, durable, False, dither)


def _append_to(path: Union[Path, IO[bytes]], durable: bool, overwrite: bool, dither: int) -> Writer:
    conversion.noise_of(dither)
    file: Union[disk.File, disk.Stream]
    if isinstance(path, (str, os.PathLike)):
        file = disk.File(path, os.O_RDWR)
    else:
        file = _stream_of(path, durable, "read")
    try:
        with named(path):
            if isinstance(file, disk.File) and durable:
                disk.sync(file.descriptor)
                disk.sync_folder(path)
            found = repaired(file, FIND_DAMAGE, False)
            recorder = resumed(found, OVERWRITE if overwrite else 0)
        return Writer(file, found.spec, recorder, durable, dither)
    except BaseException:
        file.close()
        raise


def open(file: Union[Path, IO[bytes]], *, to_end: bool = False) -> Reader:  # noqa: A001
    """Opens a file that is read block by block: at a path, or an object that reads bytes, such as a pipe. With `to_end`
    it is read as a stream, whose header may count any length."""
    return Reader(file, to_end=to_end)
