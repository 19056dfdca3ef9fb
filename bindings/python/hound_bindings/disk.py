"""Files on disk: how they are opened, locked, read, written and synced. What fails there is an OSError.

Windows has no `os.pread`, `os.pwrite` and `fcntl`, opens no folders, and replaces no open file.
"""
import contextlib
import ctypes
import errno
import io
import os
import stat
import time
from typing import Any, Iterable, Iterator, List, Optional, Union

try:
    import fcntl
except ImportError:  # It is Windows, or is like it.
    fcntl = None  # type: ignore[assignment]
try:
    import msvcrt
except ImportError:
    msvcrt = None  # type: ignore[assignment]

from ._library import DONE, FAILED, READ, SHORTEN, SYNC, SYNC_FOLDER, WRITE, WRITE_BLOCK

__all__ = [
    "DONE", "Descriptor", "FAILED", "File", "Medium", "Memory", "READ", "SHORTEN", "SYNC", "Stream", "WRITE",
    "WRITE_BLOCK", "check_object", "descriptor_of", "folder_of", "is_at", "is_locked", "made", "opened", "perform",
    "piece_of", "place_of", "put_here", "read_at", "read_into", "replace", "sync", "sync_folder", "sync_once",
]  # fmt: skip

# How often a lock is tried, and how many seconds are between.
_ATTEMPTS, _PAUSE = 10, 0.002
_IS_LOCKED = "another program records to, appends to or repairs this file"
# Without it Windows changes the bytes of lines' ends.
_BINARY = getattr(os, "O_BINARY", 0)
# How many bytes are read at once, so that a file which is shorter than its header says needs no memory for the rest.
_PIECE = 1 << 20
# How many are read at once to where they belong, which needs no memory: in few calls, since each costs something.
_PLACED = 1 << 24


class _Overlapped(ctypes.Structure):
    """Where LockFileEx of Windows locks."""

    _fields_ = [("unused", ctypes.c_size_t * 2), ("place", ctypes.c_uint64), ("event", ctypes.c_void_p)]


def _on_windows(call: str, descriptor: int, *words: Any) -> bool:
    """Locks or unlocks the byte of hound_file.h, which no file has, since others can't read what is locked: whether
    that was done, or can't be."""
    libraries: Any = ctypes  # Only on Windows it has WinDLL.
    function = getattr(libraries.WinDLL("kernel32", use_last_error=True), call)
    function.argtypes = [ctypes.c_void_p, *[ctypes.c_uint32] * (3 + len(words)), ctypes.c_void_p]
    is_locked, handle, place = 33, getattr(msvcrt, "get_osfhandle")(descriptor), _Overlapped(place=1 << 62)
    return bool(function(handle, *words, 0, 1, 0, ctypes.byref(place))) or libraries.get_last_error() != is_locked


def lock(descriptor: int, is_shared: bool = False) -> bool:
    """Locks a file at once, for this program alone, or for those that look whether it is recorded: whether no other
    one has locked it. Where the system has no locks for it, it isn't locked, and no other one has."""
    try:
        if fcntl:
            fcntl.flock(descriptor, (fcntl.LOCK_SH if is_shared else fcntl.LOCK_EX) | fcntl.LOCK_NB)
        elif msvcrt:
            exclusive, at_once = 2, 1
            return _on_windows("LockFileEx", descriptor, at_once if is_shared else exclusive | at_once)
    except OSError as error:
        return error.errno != errno.EWOULDBLOCK
    return True


def unlock(descriptor: int) -> None:
    with contextlib.suppress(OSError):  # There was no lock.
        if fcntl:
            fcntl.flock(descriptor, fcntl.LOCK_UN)
        elif msvcrt:
            _on_windows("UnlockFileEx", descriptor)


def is_locked(descriptor: int) -> bool:
    """Whether another program has locked a file, or another `File` of this one: it is locked for a moment to see it."""
    if not lock(descriptor, is_shared=True):
        return True
    unlock(descriptor)
    return False


def _pread(descriptor: int, count: int, place: int) -> bytes:
    os.lseek(descriptor, place, os.SEEK_SET)
    return os.read(descriptor, count)


def _pwrite(descriptor: int, content: Any, place: int) -> int:
    os.lseek(descriptor, place, os.SEEK_SET)
    return os.write(descriptor, content)


def read_at(descriptor: int, count: int, place: int) -> bytes:
    """So many bytes from a place on, and fewer only at the end of the file."""
    pieces, left, read = [], count, getattr(os, "pread", _pread)
    while left and (piece := read(descriptor, min(left, _PIECE), place + count - left)):
        pieces.append(piece)
        left -= len(piece)
    return b"".join(pieces)


def _read_piece(descriptor: int, room: Any, place: int) -> int:
    if hasattr(os, "preadv"):
        return os.preadv(descriptor, (room,), place)
    content = getattr(os, "pread", _pread)(descriptor, len(room), place)
    room[: len(content)] = content
    return len(content)


def read_into(descriptor: int, room: memoryview, place: int) -> int:
    """Fills the bytes of a buffer from a place on, and returns how many came: fewer only at the end of the file."""
    done, length = 0, len(room)
    while done < length and (count := _read_piece(descriptor, room[done : done + _PLACED], place + done)):
        done += count
    return done


def _put_rest(write: Any, descriptor: int, content: Any, place: int, done: int) -> None:
    """Writes what is left once so many bytes are written."""
    with memoryview(content) as left:
        while done < len(left):
            count = write(descriptor, left[done:], place + done)
            if count == 0:
                raise OSError(errno.EIO, "the system wrote none of the bytes that it was given")
            done += count


def sync_once(descriptor: int) -> Iterator[Any]:
    """Syncs a file or a folder when its one item is taken, in one call of C. On macOS a disk stores what was written
    only by F_FULLFSYNC."""
    full_sync = getattr(fcntl, "F_FULLFSYNC", None)
    return map(os.fsync, (descriptor,)) if full_sync is None else map(fcntl.fcntl, (descriptor,), (full_sync,))


def sync(descriptor: Optional[int]) -> None:
    """Stores what a file has, or the names in a folder, if the system opens folders."""
    if descriptor is not None:
        next(sync_once(descriptor))


def cut(descriptor: int, place: int) -> None:
    """Cuts a file off, where it is longer than that."""
    if os.fstat(descriptor).st_size > place:
        os.ftruncate(descriptor, place)


def perform(effect: Any, file: "Medium", durable: bool, block: Iterable[Any] = ()) -> None:
    """Performs an effect of hound.h on a file, and reports it as done; an OSError says why it failed. A block comes in
    pieces. A sync of a file that isn't durable only passes on to the system what was written. What a read gives is
    shorter only at the end of the file."""
    kind, place = effect.kind, effect.place
    if kind == WRITE_BLOCK:
        for piece in block:
            file.put(piece, place)
            place += len(piece)
    elif kind == WRITE:
        file.put(bytes(effect.bytes)[: effect.length], place)
    elif kind == READ:
        room = effect.bytes
        content = file.read_at(effect.length, place)[: len(room)]
        ctypes.memmove(room, content, len(content))
        effect.length = len(content)
    elif kind == SHORTEN:
        file.cut(place)
    elif kind == SYNC:
        file.sync(durable)
    elif kind == SYNC_FOLDER:
        file.sync_folder(durable)
    else:
        raise NotImplementedError(f"the library requests an effect of kind {kind}: this package is older, so update it")
    effect.report = DONE


def is_at(descriptor: int, path: Any) -> bool:
    """Whether a file that is open is the one at a path. On Windows nobody renames it."""
    if not fcntl:
        return True
    with contextlib.suppress(FileNotFoundError):
        return os.path.samestat(os.fstat(descriptor), os.stat(path))
    return False


@contextlib.contextmanager
def folder_of(path: Any) -> Iterator[Optional[int]]:
    """The descriptor of the folder that has a file's name, also where the path is a link; None where the system opens
    no folders."""
    if not fcntl:
        yield None
        return
    folder = os.open(os.path.dirname(os.path.realpath(path)), os.O_RDONLY)
    try:
        yield folder
    finally:
        os.close(folder)


def sync_folder(path: Any) -> None:
    """Stores the name of a file, if the system opens folders."""
    with folder_of(path) as folder:
        sync(folder)


def _check_no_pipe(path: Any) -> None:
    """An error where a path is that of a pipe: to open it would wait for another program."""
    try:
        is_pipe = stat.S_ISFIFO(os.stat(path).st_mode)
    except OSError:
        return  # Whoever opens it gets the error.
    if is_pipe:
        raise OSError(errno.ESPIPE, "a pipe can't be sought in", os.fspath(path))


class Descriptor:
    """A file of the system that is open."""

    def __init__(self, file: Any) -> None:
        self._file = file

    def __enter__(self) -> "Descriptor":
        return self

    def __exit__(self, *_: Any) -> None:
        self.close()

    def close(self) -> None:
        self._file.close()

    @property
    def name(self) -> Any:
        """That of the file, as errors have it."""
        return self._file.name

    @property
    def descriptor(self) -> int:
        """The descriptor; a ValueError where the file is closed."""
        return int(self._file.fileno())

    def size(self) -> int:
        return int(os.fstat(self.descriptor).st_size)

    def read_at(self, count: int, place: int) -> bytes:
        return read_at(self._file.fileno(), count, place)

    def read_into(self, room: memoryview, place: int) -> int:
        return read_into(self._file.fileno(), room, place)

    def pieces(self, place: int, length: int, most: int) -> Iterator[Any]:
        """So many bytes from a place on, in pieces of this length, each of them until the next one."""
        if length <= most:
            yield self.read_at(length, place)
            return
        piece = memoryview(bytearray(most))
        for done in range(0, length, most):
            wanted = min(most, length - done)
            came = self.read_into(piece[:wanted], place + done)
            yield piece[:came]
            if came < wanted:
                return

    def put(self, content: Any, place: int) -> None:
        descriptor, write = self._file.fileno(), getattr(os, "pwrite", _pwrite)
        done = write(descriptor, content, place)
        if done < len(content):
            _put_rest(write, descriptor, content, place, done)

    def cut(self, place: int) -> None:
        cut(self.descriptor, place)

    def sync(self, durable: bool) -> None:
        if durable:
            sync(self.descriptor)

    def sync_folder(self, durable: bool) -> None:
        """Nothing, where its name isn't known."""


def opened(path: Any) -> Descriptor:
    """A file at a path, which is only read."""
    _check_no_pipe(path)
    return Descriptor(io.open(path, "rb", buffering=0))


def made(path: Any) -> Descriptor:
    """A new file at a path, which is only written."""
    return Descriptor(io.open(path, "xb", buffering=0))


class Memory:
    """A file whose bytes are in memory."""

    def __init__(self, content: Any) -> None:
        self._view = memoryview(content)
        whole = self._view if self._view.c_contiguous else memoryview(self._view.tobytes())
        self._bytes = whole.cast("B") if whole.nbytes else memoryview(b"")

    def __enter__(self) -> "Memory":
        return self

    def __exit__(self, *_: Any) -> None:
        self._bytes.release()
        self._view.release()

    def size(self) -> int:
        return len(self._bytes)

    def read_at(self, count: int, place: int) -> bytes:
        return bytes(self._bytes[place : place + count])

    def read_into(self, room: memoryview, place: int) -> int:
        content = self._bytes[place : place + len(room)]
        room[: len(content)] = content
        return len(content)

    def pieces(self, place: int, length: int, most: int) -> Iterator[Any]:
        """So many bytes from a place on, in pieces of this length, as far as they are there."""
        for done in range(0, length, most):
            yield self._bytes[place + done : place + min(done + most, length)]


def check_object(file: Any, method: str) -> None:
    """A TypeError where it isn't an object of bytes that has this method."""
    if isinstance(file, io.TextIOBase):
        raise TypeError("the file is opened as text, and it has to read or write bytes")
    if not hasattr(file, method):
        what = f"neither a path nor an object of bytes with the method {method}"
        raise TypeError(f"the file is of type {type(file).__name__}, and {what}")


def descriptor_of(file: Any) -> Optional[int]:
    """The descriptor of an object that is a file of the system."""
    try:
        return int(file.fileno())
    except (AttributeError, OSError):
        return None


def place_of(file: Any) -> Optional[int]:
    """Where an object is, or None where it can't be sought in. That may be so though it says otherwise, as Python on
    Windows does of pipes and terminals."""
    descriptor = descriptor_of(file)
    mode = 0 if descriptor is None else os.fstat(descriptor).st_mode
    if stat.S_ISFIFO(mode) or stat.S_ISCHR(mode) or not getattr(file, "seekable", lambda: hasattr(file, "seek"))():
        return None
    try:
        return int(file.tell())
    except (AttributeError, OSError):
        return None


def start_of(file: Any) -> Optional[int]:
    """Where a file is that was opened just now, or None where it can't be sought in."""
    return 0 if stat.S_ISREG(os.fstat(file.fileno()).st_mode) else place_of(file)


def _appends(file: Any) -> bool:
    """Whether an object writes at its end, wherever it is sought to."""
    descriptor, mode = descriptor_of(file), getattr(file, "mode", None)
    if fcntl and descriptor is not None:
        return bool(fcntl.fcntl(descriptor, fcntl.F_GETFL) & os.O_APPEND)
    return isinstance(mode, str) and "a" in mode


def _fault_of_append() -> OSError:
    return io.UnsupportedOperation('the file is opened to append, so all is written at its end: open it with "r+b"')


def piece_of(content: Any, most: int) -> Any:
    """What a read of an object gave, which was asked for so many bytes at most."""
    if content is None:
        raise BlockingIOError(errno.EAGAIN, "the file has no bytes yet")
    if len(content) > most:
        raise OSError(errno.EIO, f"the file gave {len(content)} bytes where at most {most} were asked for")
    return content


class Stream:
    """An object that reads, writes and seeks as a file does, from the place on where it is: as an io.BytesIO. Its
    `fault` is why it can't be written."""

    is_closed = False

    def __init__(self, file: Any, method: str = "read") -> None:
        check_object(file, method)
        start = place_of(file)
        if start is None:
            raise io.UnsupportedOperation("the file can't be sought in")
        self._object, self._start, self.path = file, start, getattr(file, "name", None)
        self.fault: Optional[Exception] = _fault_of_append() if _appends(file) else None
        try:
            check_object(file, "write")
            check_object(file, "truncate")  # A mapped file hasn't got it, since its length is fixed.
        except TypeError as error:
            self.fault = error

    @property
    def _file(self) -> Any:
        if getattr(self._object, "closed", False):
            raise io.UnsupportedOperation("the file was closed by another call")
        return self._object

    def rewind(self) -> None:
        self._file.seek(self._start)

    def size(self) -> int:
        self._file.seek(0, os.SEEK_END)
        return max(int(self._file.tell()) - self._start, 0)

    def read_at(self, count: int, place: int) -> bytes:
        self._file.seek(self._start + place)
        content = bytearray()
        while (left := count - len(content)) and (piece := piece_of(self._file.read(left), left)):
            content += piece
        return bytes(content)

    def put(self, content: Any, place: int) -> None:
        self._file.seek(self._start + place)
        _put_next(self._file, content, self._start + place)

    def cut(self, place: int) -> None:
        if self.size() > place:
            self._file.truncate(self._start + place)

    def sync(self, durable: bool) -> None:
        _flush(self._file)

    def sync_folder(self, durable: bool) -> None:
        """Nothing: an object that is durable is an error."""

    def close(self, is_unlocked: bool = True) -> None:
        """Ends its use: the object stays open, and is at its end, unless it is that of another process."""
        self.is_closed = True
        with contextlib.suppress(OSError, ValueError):
            if is_unlocked:
                self._file.seek(0, os.SEEK_END)


def put_here(file: Any, content: Any) -> None:
    """Writes all of this to an object where it is; an error where that would be elsewhere."""
    check_object(file, "write")
    place = place_of(file)
    if place is not None and _appends(file):
        file.seek(0, os.SEEK_END)
        if file.tell() != place:
            file.seek(place)
            raise _fault_of_append()
    _put_next(file, content, place)


def _put_next(file: Any, content: Any, place: Optional[int]) -> None:
    """Writes all of this to an object, which may write a part of it at a time, and is at this place. What it would hold
    back is passed on, since a forked process would write it again."""
    with memoryview(content) as left:
        done = 0
        while done < len(left):
            count = file.write(left[done:])
            if not isinstance(count, int) or not 0 < count <= len(left) - done:
                wanted = f"how many of {len(left) - done} bytes it wrote"
                raise OSError(errno.EIO, f"the method write of the file returned {count!r}, and not {wanted}")
            done += count
    _flush(file)
    if place is not None and file.tell() != place + done:
        raise OSError(errno.EIO, "the file wrote elsewhere than at the place where it was")


def _flush(file: Any) -> None:
    if hasattr(file, "flush"):
        file.flush()


class File(Descriptor):
    """The file at a path, open and locked: no other program that uses this package records to it, appends to it
    or repairs it, and no other `File` of this program is at it. Where the system has no locks for it, it isn't
    locked."""

    folder: Optional[int] = None  # The descriptor of the folder that has its name, if that is open.
    _file: Any = None

    def __init__(
        self, path: Union[str, "os.PathLike[str]"], flags: int, opened: Optional[List["File"]] = None
    ) -> None:
        """Opens the file. Before that it is added to `opened`: so who has that list can close it, whatever cuts this
        call or the caller off."""
        if opened is not None:
            opened.append(self)
        self.path = path
        _check_no_pipe(path)
        # Where another file was renamed to the path before the lock, that one is opened. Some systems number a file
        # anew each time, so that none seems to be at its path: there is a last attempt.
        for is_last in (False,) * 9 + (True,):
            self.is_closed = False
            self._file = io.open(path, "rb", buffering=0, opener=lambda path, _: os.open(path, flags | _BINARY, 0o666))
            try:
                self._lock()
                if is_last or is_at(self.descriptor, path):
                    return
            except BaseException:
                self.close()
                raise
            self.close()

    def _lock(self) -> None:
        # A program that follows a recording locks it for a moment, to see whether it is still recorded.
        for _ in range(_ATTEMPTS - 1):
            if lock(self.descriptor):
                return
            time.sleep(_PAUSE)
        if not lock(self.descriptor):
            raise BlockingIOError(errno.EWOULDBLOCK, _IS_LOCKED, os.fspath(self.path))

    def sync_folder(self, durable: bool) -> None:
        if durable:
            sync(self.folder)

    def close(self, is_unlocked: bool = True) -> None:
        """Closes it, and unlocks it, since a forked process may have the descriptor, too. What was interrupted in it is
        closed by another call."""
        self.is_closed = True
        with contextlib.suppress(OSError):  # There was no lock.
            if fcntl and is_unlocked and self._file and not self._file.closed:
                fcntl.flock(self.descriptor, fcntl.LOCK_UN)
        if self._file:
            self._file.close()


def replace(part: str, name: str, older: Optional[File]) -> None:
    """Renames a file to the name of an older one, which is locked; or which is closed first, where it is Windows."""
    if older and not fcntl:
        older.close()
    os.replace(part, name)


Medium = Union[Descriptor, Stream]
