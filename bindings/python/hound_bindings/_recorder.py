"""What performs over a file what a walk, a repairer and a recorder of hound.h request, one effect after the other."""
import contextlib
import ctypes
import errno
import io
import itertools
from typing import Any, Iterable, List, NamedTuple, Optional, Tuple, Union

from . import conversion, disk
from ._calls import OneAtATime, one_at_a_time
from ._library import (
    FRONT_BYTES, POINTER, SIZE, U64, CEffect, CInfo, CRecorder, CRepair, CRepairer, CSpec, CWalk, HoundError,
    check_header, checked, function,
)  # fmt: skip

__all__ = [
    "Recorder", "Recording", "add_to", "begin", "beginning_of", "begun", "found_in", "frames_left", "repaired",
    "resumed", "walk_over", "warn_of_rest",
]  # fmt: skip

_INT = ctypes.c_int32
_info = function("info", POINTER, SIZE, POINTER, result=_INT)
_walk_next = function("walk_next", POINTER, POINTER, result=_INT)
_walk_to_end = function("walk_to_end", POINTER, POINTER, result=_INT)
_repairer_begin = function("repairer_begin", U64, ctypes.c_uint32, POINTER, result=None)
_repairer_next = function("repairer_next", POINTER, POINTER, result=_INT)
_beginning = function("beginning", POINTER, ctypes.c_uint32, POINTER, result=_INT)
_recorder_begin = function("recorder_begin", POINTER, POINTER, result=_INT)
_recorder_resume = function("recorder_resume", POINTER, ctypes.c_uint32, POINTER, result=_INT)
_recorder_write = function("recorder_write", POINTER, U64, result=_INT)
_recorder_checkpoint = function("recorder_checkpoint", POINTER, result=None)
_recorder_frames_left = function("recorder_frames_left", POINTER)
_recorder_next = function("recorder_next", POINTER, result=_INT)


def found_in(front: bytes) -> Optional[CInfo]:
    """What a walk over a file finds, in one call, where these bytes of its front have the whole header."""
    found = CInfo()
    return found if _info(front, len(front), ctypes.byref(found)) == 0 else None


def walk_over(file: Any, to_end: bool = False) -> CInfo:
    """What a walk finds of the header of a file, whose `read_at` returns so many bytes from a place on."""
    walk, found, take = CWalk(), CInfo(), _walk_to_end if to_end else _walk_next
    while (code := take(ctypes.byref(walk), ctypes.byref(found))) == 1:
        disk.perform(walk.effect, file, False)
    check_header(code, lambda: bytes(file.read_at(FRONT_BYTES, 0)))
    return found


def repaired(file: disk.Medium, mode: int, durable: bool, denied: Optional[Exception] = None) -> CRepair:
    """What a repairer of this mode finds in a file. `denied` is why the file may only be read: it is the error where a
    part of the file has to be written."""
    repairer, found, faults = CRepairer(), CRepair(), []
    _repairer_begin(file.size(), mode, ctypes.byref(repairer))
    while (code := _repairer_next(ctypes.byref(repairer), ctypes.byref(found))) == 1:
        if denied and repairer.effect.kind != disk.READ:
            raise denied
        try:
            disk.perform(repairer.effect, file, durable)
        except OSError as error:
            faults.append(error)
            repairer.effect.report = disk.FAILED
    if faults:
        raise faults[0]
    check_header(code, lambda: bytes(file.read_at(FRONT_BYTES, 0)))
    return found


def begin(file: disk.Medium, spec: CSpec, durable: bool, header: Optional[bytes] = None) -> None:
    """Performs the effects with which a file begins, with this header or that of the spec. Its parts are written at
    once, so that no kill comes between them."""
    effect, given, parts = CEffect(), ctypes.byref(spec), b""
    for number in itertools.count():
        is_over = checked(_beginning(given, number, ctypes.byref(effect))) == 0
        if not is_over and effect.kind == disk.WRITE and effect.place == len(parts):
            parts += bytes(effect.bytes)[: effect.length]
            continue
        if parts:
            file.put(header or parts, 0)
            parts = b""
        if is_over:
            return
        disk.perform(effect, file, durable)


def beginning_of(spec: CSpec) -> bytes:
    """The bytes with which a new file begins."""
    memory = io.BytesIO()
    begin(disk.Stream(memory), spec, False)
    return memory.getvalue()


def begun(spec: CSpec, header: Optional[bytes] = None) -> CRecorder:
    """A recorder of a file that `begin` makes, with the checkpoint requested that stores the header."""
    if header is None:
        recorder = CRecorder()
        checked(_recorder_begin(ctypes.byref(spec), ctypes.byref(recorder)))
        return recorder
    found = CInfo()
    checked(_info(header, len(header), ctypes.byref(found)))
    recorder = resumed(CRepair(spec=found.spec, data_start=len(header), length=len(header)), 0)
    _recorder_checkpoint(ctypes.byref(recorder))
    return recorder


def resumed(found: CRepair, allowed: int) -> CRecorder:
    """A recorder of a file that a repairer has found so; what it may do is a sum of those of hound.h."""
    recorder = CRecorder()
    checked(_recorder_resume(ctypes.byref(found), allowed, ctypes.byref(recorder)))
    return recorder


def frames_left(recorder: CRecorder) -> int:
    """How many frames fit after those of a recorder."""
    return int(_recorder_frames_left(ctypes.byref(recorder)))


_REST = "so a repair may take for samples what its header doesn't count"


class Recording(NamedTuple):
    """What is recorded, and in which file. `synced` has one item since a sync that is the recorder's effect began, and
    two since it succeeded. `clipped` samples were. Of a recording in several files `ended` are those before this one,
    which have so many frames. `noise` is the state of the noise of the next samples."""

    file: Union[disk.File, disk.Stream]
    recorder: CRecorder
    synced: List[Any]
    clipped: int
    ended: Tuple[Any, ...]
    frames_before: int
    noise: Optional[int]


class Recorder(OneAtATime):
    """A recorder of hound.h at work on a file. What it requests is performed, unless the call is cut off: the next one
    continues then."""

    _length = 0  # of the file when it was closed
    _has_rest = False  # A part of a block couldn't be cut off.

    def __init__(
        self, file: Union[disk.File, disk.Stream], spec: CSpec, recorder: CRecorder, durable: bool, dither: int
    ) -> None:
        super().__init__()
        self._spec, self._durable, self._name = spec, durable, file.path
        self._state = Recording(file, recorder, [], 0, (), 0, conversion.noise_of(dither))

    @property
    def _file(self) -> Union[disk.File, disk.Stream]:
        return self._state.file  # type: ignore[no-any-return]

    def _frames(self) -> int:
        """How many frames the file has that is written."""
        recorder = self._state.recorder
        return int(recorder.data_length // (recorder.bytes_per_sample * recorder.channels))

    def _end(self) -> int:
        """Where the frames end in the file that is written, and the next ones begin."""
        recorder = self._state.recorder
        return int(recorder.data_start + recorder.data_length)

    def _frames_with_room(self) -> int:
        """How many frames fit after those in the file that is written."""
        return frames_left(self._state.recorder)

    def _request_block(self, count: int) -> None:
        """Requests the write of so many samples."""
        checked(_recorder_write(ctypes.byref(self._settled()), count))

    def _finish_block(self, recorder: CRecorder, clipped: int, noise: Optional[int]) -> None:
        """Takes the recorder after a block, of whose samples so many were clipped, for the one from now on."""
        now: Recording = self._state
        clipped += now.clipped
        self._finish(Recording(now.file, recorder, [], clipped, now.ended, now.frames_before, noise))

    def _give_up(self, before: Recording) -> None:
        """Closes the file, and cuts it off by the recorder from before a block, if the header counts what it did then.
        After a sync that failed nothing more is written."""
        trial = CRecorder.from_buffer_copy(self._settled())
        _recorder_checkpoint(ctypes.byref(trial))
        with contextlib.suppress(OSError, HoundError):
            if _recorder_next(ctypes.byref(trial)) == 1:
                counted = walk_over(self._file).samples * before.recorder.bytes_per_sample
                self._state = before if counted == before.recorder.data_length else self._state
                self._close()
        self._file.close()

    def _checkpoint(self) -> None:
        _recorder_checkpoint(ctypes.byref(self._settled()))
        self._perform_all()

    def _settled(self) -> CRecorder:
        """The recorder, with a report of its sync if one was begun. One that was cut off has failed: what it was to
        store may be lost though the next one succeeds."""
        state: Recording = self._state
        if state.synced:
            state.recorder.effect.report = disk.DONE if len(state.synced) > 1 else disk.FAILED
            state.synced.clear()
        return state.recorder

    def _perform_all(self, block: Iterable[Any] = ()) -> CRecorder:
        """Performs all that is requested, and returns the recorder after it. The state has no report of a block that is
        done: so it is given up unless its call returns."""
        fault: Optional[OSError] = None
        recorder: CRecorder = self._state.recorder
        while (code := _recorder_next(ctypes.byref(recorder))) == 1:
            effect = recorder.effect
            kind = effect.kind
            try:
                if kind == disk.WRITE_BLOCK:
                    recorder = self._written(block)
                elif kind == disk.SYNC and self._durable:
                    self._sync()
                else:
                    disk.perform(effect, self._state.file, self._durable)
            except OSError as error:
                if kind == disk.SYNC and effect.report != disk.FAILED:
                    raise  # A signal handler raised it.
                fault, effect.report = fault or error, disk.FAILED
            if kind == disk.SHORTEN:
                self._has_rest = effect.report == disk.FAILED
        if code < 0:
            if fault:
                self._add_rest(fault)
                raise fault
            checked(code)
        return recorder

    def _written(self, block: Iterable[Any]) -> CRecorder:
        """The recorder once the block is written."""
        state: Recording = self._state
        recorder = CRecorder.from_buffer_copy(state.recorder)
        disk.perform(recorder.effect, state.file, self._durable, block)
        return recorder

    def _sync(self) -> None:
        try:
            # In one call of C: no signal handler runs before the sync's end is in the list.
            descriptor = self._file.descriptor  # type: ignore[union-attr]  # What is durable has one.
            self._state.synced.extend(itertools.chain((None,), disk.sync_once(descriptor)))
        finally:
            self._settled()

    @one_at_a_time
    def _close(self) -> None:
        try:
            if not self._file.is_closed:
                self._checkpoint()
                self._length = self._file.size()
        except (OSError, HoundError):
            self._file.close()
            raise
        self._file.close()

    def _add_rest(self, error: OSError) -> None:
        """Adds to an error that the file couldn't be cut off either."""
        if self._has_rest and _REST not in str(error):
            add_to(error, f"and the file couldn't be cut off, {_REST}")

    def _warn_of_rest(self) -> None:
        if self._has_rest:
            warn_of_rest(self._file.path)


def add_to(error: OSError, words: str) -> None:
    """Adds words to the text of an error."""
    error.errno, error.strerror = error.errno or errno.EIO, f"{error.strerror or error}, {words}"


def warn_of_rest(path: Any) -> None:
    conversion.warn_caller(f"{path}: the file couldn't be cut off, {_REST}")
