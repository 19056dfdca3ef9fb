"""What the package has of hound.h: the library and its calls, the structs, the errors, and what files are."""
import contextlib
import ctypes
import enum
import io
import mmap
import operator
import os
import shlex
from typing import (
    IO, Any, Callable, Dict, Iterator, Literal, NamedTuple, Optional, Protocol, Tuple, Type, Union,
)  # fmt: skip

from . import processor

__version__ = "0.2.0"

Path = Union[str, "os.PathLike[str]"]
File = Union[Path, IO[bytes], bytes, bytearray, memoryview, mmap.mmap]
# A type of samples: its name, or a type or dtype of numpy.
Dtype = Union[
    Literal["int8", "int16", "int32", "float32", "float64", "i1", "i2", "i4", "f4", "f8", "float"],
    Type[Any],
    "_OfNumpy",
]


class _OfNumpy(Protocol):
    @property
    def str(self) -> str: ...


class Cause(enum.IntEnum):
    """Why a call failed, with its sentence: the codes of hound.h without their sign."""

    sentence: str

    def __new__(cls, code: int, sentence: str) -> "Cause":
        cause = int.__new__(cls, code)
        cause._value_, cause.sentence = code, sentence
        return cause

    # The errors, made from hound.h by scripts/make_interface.py.
    ENDED = 1, "the bytes end before the data begin"
    UNSUPPORTED = 2, "the format is neither PCM nor IEEE float"
    OTHER_FORMAT = 3, "the samples are floats and the type is an integer, or vice versa"
    TOO_WIDE = 4, "the samples are wider than the type, or a value than its bits"
    NOT_WRITABLE = 5, "samples of this spec are not read or written (integers have 8, 16, 24 or 32 bits, floats 32)"
    TRUNCATED = (
        6,
        "the header counts a sample that the file does not hold "
        "(a recording that was cut off can be repaired, a stream of unknown length can be read to its end)",
    )
    TOO_LONG = 7, "the sizes of the file would not fit in 32 bits"
    UNFINISHED_FRAME = 8, "the samples are no whole frames"
    NO_ROOM = 9, "more bytes are needed than the capacity"
    NO_RIFF_TAG = 10, "no RIFF tag found"
    NO_WAVE_TAG = 11, "no WAVE tag found"
    NO_DATA_CHUNK = 12, "missing data chunk"
    NO_FMT_CHUNK = 13, "missing fmt chunk"
    FMT_SIZE = 14, "invalid fmt chunk size"
    UNEXPECTED_FMT_SIZE = 15, "unexpected fmt chunk size"
    ZERO_CHANNELS = 16, "file contains zero channels"
    BITS_EXCEED_WIDTH = 17, "sample bits exceeds size of sample"
    INCONSISTENT = 18, "inconsistent fmt chunk"
    BITS_NOT_WHOLE_BYTES = 19, "bits per sample is not a multiple of 8"
    ZERO_BITS = 20, "bits per sample is 0"
    BITS_NOT_8_OR_16 = 21, "bits per sample is not 8, 16 or 24 in a PCM fmt chunk of 18 or 40 bytes"
    EX_SIZE = 22, "unexpected WAVEFORMATEX size"
    BITS_NOT_32 = 23, "bits per sample is not 32"
    EXTENSIBLE_SIZE = 24, "unexpected WAVEFORMATEXTENSIBLE size"
    DATA_LENGTH = (
        25,
        "data chunk length is not a multiple of sample size "
        "(a recording that was cut off can be repaired, a stream of unknown length can be read to its end)",
    )
    FRAME_LENGTH = (
        26,
        "invalid data chunk length "
        "(a recording that was cut off can be repaired, a stream of unknown length can be read to its end)",
    )
    NEEDS_CHECKPOINT = 27, "a write failed or a checkpoint is not done, and no samples are written before one is"
    SYNC_FAILED = 28, "a sync failed, and it is unknown what is stored"
    NEEDS_MEND = 29, "the recording was cut off, and has to be repaired first"
    NEEDS_OVERWRITE = 30, "chunks or a tag follow the data, and would be overwritten"
    NOT_PERFORMED = 31, "the file could not be read or written"
    # The end of what is made from hound.h.


class State(enum.IntEnum):
    """How `repair` found a file."""

    WHOLE = 0
    CUT_OFF = 1
    HAS_CHUNKS_AFTER_DATA = 2
    # All frames are counted: only the RIFF size isn't the canonical one, as where a program writes no pad byte.
    ALL_COUNTED = 3

_KINDS: Dict[int, str] = {
    # The names of what files are, made from hound.h by scripts/make_interface.py.
    2: "Microsoft ADPCM",
    6: "A-law",
    7: "mu-law",
    17: "IMA ADPCM",
    34: "TrueSpeech",
    49: "GSM 6.10",
    64: "G.721 ADPCM",
    80: "MPEG",
    85: "MP3",
    8192: "AC-3",
    65537: "RIFX, whose numbers have their highest byte first",
    65538: "RF64, which is for more than 4 GiB",
    65539: "BW64, which is for more than 4 GiB",
    65540: "Wave64",
    65541: "AIFF",
    65542: "FLAC",
    65543: "Ogg",
    65544: "MP3, or another MPEG audio",
    65545: "floats of 64 bits",
    # The end of what is made from hound.h.
}



# What a cause is advised on by: the cause, or where samples that are given have it, that with this word.
Advice = Dict[Union[Cause, Tuple[Cause, str]], str]
GIVEN = "given"
# What can be done about a cause, by the names of this package.
_ADVICE: Advice = {
    Cause.OTHER_FORMAT: 'dtype="float32" reads all that float32 holds, and "float64" everything',
    (Cause.OTHER_FORMAT, GIVEN): 'give floats, such as array.array("f", ..)',
    Cause.TOO_WIDE: 'dtype="int32" reads it',
    (Cause.TOO_WIDE, GIVEN): "bits={bits} holds more",
    Cause.TRUNCATED: "repair(path); open(file, to_end=True)",
    Cause.DATA_LENGTH: "repair(path); open(file, to_end=True)",
    Cause.FRAME_LENGTH: "repair(path); open(file, to_end=True)",
    Cause.NEEDS_MEND: "repair(path)",
    Cause.NEEDS_OVERWRITE: "append(.., overwrite=True)",
}


# The number that the fmt chunk has of integers, and by what it is rejected though FFmpeg reads many such files.
_PCM = 1
_ODD_HEADERS = (
    Cause.UNEXPECTED_FMT_SIZE, Cause.EXTENSIBLE_SIZE, Cause.INCONSISTENT, Cause.BITS_NOT_WHOLE_BYTES,
    Cause.BITS_NOT_8_OR_16,
)  # fmt: skip


# The samples that no type reads, and FFmpeg does.
_CONVERTED = "integers of 64 bits"


class HoundError(ValueError):
    """A call failed, for this cause; `filename` is the name of the file, if it has one. Where its header was rejected,
    `kind` is the number of what it is, as `hound_kind` of hound.h has it, and the text names it."""

    _role = ""  # GIVEN where the cause is in samples that are given,
    _bits = 0  # for a file of so many bits.
    _held: Optional[str] = None  # What the samples of a file are that no type reads.

    def __init__(self, cause: Cause) -> None:
        super().__init__(cause)
        self.cause = cause
        self.filename: Optional[str] = None
        self.kind: Optional[int] = None

    @property
    def held(self) -> Optional[str]:
        """The name of what the file holds, where it is known and isn't read."""
        return self._held or (None if self.kind is None else _KINDS.get(self.kind))

    def _of_given(self, bits: int) -> "HoundError":
        """The same error, of samples that are given for a file of so many bits."""
        self._role, self._bits = GIVEN, bits
        return self

    def _of_file(self, held: str) -> "HoundError":
        """The same error, of a file that has such samples, which no type reads."""
        self._held = held
        return self

    def __str__(self) -> str:
        return self._said(_ADVICE)

    def _said(self, advice: Advice) -> str:
        """The text, with what can be done about some causes."""
        if self.held is None:
            what = ": ".join(filter(None, (self._sentence(), self._advised(advice))))
            return what if self.filename is None else f"{self.filename}: {what}"
        holds = f"{self.filename or 'the file'} holds {self.held}, so it isn't read"
        if self._held not in (None, _CONVERTED):
            return f"{holds} ({self.cause.sentence})"  # No program is known that converts it.
        return f"{holds}: convert it by {self._converting()} ({self.cause.sentence})"

    def _sentence(self) -> str:
        is_value = self._role == GIVEN and self.cause == Cause.TOO_WIDE
        return f"a value doesn't fit in {self._bits} bits" if is_value else self.cause.sentence

    def _advised(self, advice: Advice) -> Optional[str]:
        """What can be done about the cause."""
        if self.kind == _PCM and self.cause in _ODD_HEADERS:
            return f"FFmpeg reads many such files ({self._converting()})"
        if not self._role:
            return advice.get(self.cause)
        more = next((bits for bits, _ in INTEGERS if bits > self._bits), None)
        if self.cause == Cause.TOO_WIDE and more is None:
            return None  # No file holds it.
        return advice.get((self.cause, self._role), "").format(bits=more)

    def _converting(self) -> str:
        """The command that converts a file, and keeps what it holds: what a number of a format names has at most 16
        bits, but for PCM. FFmpeg 5.1 makes noise of RIFX, since it takes its bytes in the other order."""
        name = self.filename or "FILE"
        name = "FILE" if name.startswith("<") else name  # It is that of a stream.
        source, target = shlex.quote(name), shlex.quote(os.path.splitext(name)[0] + ".pcm.wav")
        if self.kind == KIND_RIFX:
            return f"sox {source} -L {target}"
        is_narrow = self.kind is not None and _PCM < self.kind < 1 << 16
        codec = "pcm_f32le" if self.kind == KIND_FLOAT64 else "pcm_s16le" if is_narrow else "pcm_s32le"
        return f"ffmpeg -i {source} -c:a {codec} {target}"



def name_error(error: BaseException, file: Any) -> None:
    """Gives an error without a name that of its file: the path, or the name that an object has."""
    name = file if isinstance(file, (str, os.PathLike)) else getattr(file, "name", None)
    if isinstance(error, OSError) and error.errno is None:
        return  # Its text has no place for a name.
    if isinstance(error, (HoundError, OSError)) and error.filename is None and isinstance(name, (str, os.PathLike)):
        error.filename = os.fsdecode(name)


@contextlib.contextmanager
def named(file: Any) -> Iterator[None]:
    """The errors of the context have the name of a file."""
    try:
        yield
    except (HoundError, OSError) as error:
        name_error(error, file)
        raise


# The bits and the bytes of the samples that files have.
INTEGERS = (8, 1), (16, 2), (24, 3), (24, 4), (32, 4)
FLOATS = ((32, 4),)
# Their bits, and whether they are floats.
FORMS = *dict.fromkeys((bits, False) for bits, _ in INTEGERS), *((bits, True) for bits, _ in FLOATS)


class Info(NamedTuple):
    """What the header of a file says. For a file to be written the first three fields are enough; a `bytes_per_sample`
    of 0 stands for as many as the bits need."""

    sample_rate: int
    channels: int
    bits_per_sample: int
    is_float: bool = False
    frames: int = 0
    data_start: int = 0
    bytes_per_sample: int = 0

    @property
    def duration(self) -> float:
        """The seconds of all frames; 0 where there is no rate."""
        return self.frames / self.sample_rate if self.sample_rate else 0.0


def described(info: Info) -> str:
    """What the samples of a file are, in words."""
    bits = f"{info.bits_per_sample} bits" + (" (float)" if info.is_float else "")
    return f"{info.sample_rate} Hz, {info.channels} channel{'s' * (info.channels != 1)}, {bits}"


class _Held(NamedTuple):
    state: State
    frames: int
    left_over: int


class Repair(_Held):
    """What a file holds, and how it was found. It is the tuple of these three, and equal to one. `counted` is how many
    frames the header counted before, and `info` what it says after a repair."""

    counted: int
    info: Info

    def __new__(
        cls, state: State, frames: int, left_over: int, counted: int = 0, info: Info = Info(0, 0, 0)
    ) -> "Repair":
        self = super().__new__(cls, state, frames, left_over)
        self.counted, self.info = counted, info
        return self

    @property
    def added(self) -> int:
        """How many frames a repair adds to those that the header counted."""
        return max(self.frames - self.counted, 0)


# The constants and structs, made from hound.h by scripts/make_interface.py.
FIND_DAMAGE, REPAIR, REPAIR_TO_END, MAKE_CANONICAL = 0, 1, 2, 3
MEND, OVERWRITE = 1, 2
HEADER_BYTES = 68
NOTHING_NEW = 2
KIND_RIFX = 65537
KIND_FLOAT64 = 65545


class CSpec(ctypes.Structure):
    _fields_ = [
        ("sample_rate", ctypes.c_uint32),
        ("channels", ctypes.c_uint16),
        ("bits_per_sample", ctypes.c_uint16),
        ("bytes_per_sample", ctypes.c_uint16),
        ("sample_format", ctypes.c_uint16),
    ]


class CInfo(ctypes.Structure):
    _fields_ = [
        ("spec", CSpec),
        ("samples", ctypes.c_uint32),
        ("data_start", ctypes.c_uint64),
    ]


class CRepair(ctypes.Structure):
    _fields_ = [
        ("spec", CSpec),
        ("frames", ctypes.c_uint32),
        ("left_over", ctypes.c_uint32),
        ("state", ctypes.c_uint32),
        ("data_start", ctypes.c_uint64),
        ("length", ctypes.c_uint64),
        ("data_length", ctypes.c_uint32),
        ("counted", ctypes.c_uint32),
    ]


class CEffect(ctypes.Structure):
    _fields_ = [
        ("place", ctypes.c_uint64),
        ("length", ctypes.c_uint32),
        ("kind", ctypes.c_uint16),
        ("report", ctypes.c_uint16),
        ("bytes", ctypes.c_uint8 * 40),
    ]


class CWalk(ctypes.Structure):
    _fields_ = [
        ("effect", CEffect),
        ("spec", CSpec),
        ("taken", ctypes.c_uint32),
        ("part", ctypes.c_uint32),
        ("fmt_length", ctypes.c_uint32),
    ]


class CFollower(ctypes.Structure):
    _fields_ = [
        ("effect", CEffect),
        ("data_start", ctypes.c_uint64),
        ("spec", CSpec),
        ("counted", ctypes.c_uint32),
        ("last", ctypes.c_uint32),
        ("above", ctypes.c_uint32),
        ("taken", ctypes.c_uint32),
        ("part", ctypes.c_uint32),
        ("fmt_length", ctypes.c_uint32),
        ("unused", ctypes.c_uint32),
    ]


class CRepairer(ctypes.Structure):
    _fields_ = [
        ("effect", CEffect),
        ("length", ctypes.c_uint64),
        ("place", ctypes.c_uint64),
        ("data_start", ctypes.c_uint64),
        ("spec", CSpec),
        ("data_length", ctypes.c_uint32),
        ("taken", ctypes.c_uint32),
        ("part", ctypes.c_uint32),
        ("fmt_length", ctypes.c_uint32),
        ("number", ctypes.c_uint32),
        ("mode", ctypes.c_uint32),
        ("unused", ctypes.c_uint32),
    ]


class CRecorder(ctypes.Structure):
    _fields_ = [
        ("effect", CEffect),
        ("data_start", ctypes.c_uint64),
        ("data_length", ctypes.c_uint32),
        ("number", ctypes.c_uint32),
        ("block", ctypes.c_uint32),
        ("bytes_per_sample", ctypes.c_uint16),
        ("channels", ctypes.c_uint16),
        ("health", ctypes.c_uint16),
        ("phase", ctypes.c_uint16),
        ("has_rest", ctypes.c_uint16),
        ("unused", ctypes.c_uint16),
    ]
# The end of what is made from hound.h.

# The kinds of effects, and how one ended, made from hound.h by scripts/make_interface.py.
READ, WRITE, WRITE_BLOCK, SYNC, SHORTEN, SYNC_FOLDER = 1, 2, 3, 4, 5, 6
DONE, FAILED = 1, 2
# The end of what is made from hound.h.

_NAME = "hound_c.dll" if os.name == "nt" else "libhound_c.so"


def _loaded(path: str) -> Any:
    """The library at a path. A file next to it may name what it needs of the processor: without that its first call
    would end the program."""
    with contextlib.suppress(OSError), io.open(path + ".needs") as needs:
        lacking = processor.lacking(needs.read().split())
        if lacking:
            raise ImportError(
                f"{path} was built for another processor: this one lacks {', '.join(lacking)}. Install the package "
                "from its source here, which needs a C compiler"
            )
    return ctypes.CDLL(path)


_LIBRARY = _loaded(os.environ.get("HOUND_C_LIBRARY") or os.path.join(os.path.dirname(__file__), _NAME))
POINTER: Any = ctypes.c_void_p
SIZE: Any = ctypes.c_size_t
U64: Any = ctypes.c_uint64
_I64: Any = ctypes.c_int64
SPARE = ctypes.create_string_buffer(16)


def function(name: str, *arguments: Any, result: Any = _I64) -> Any:
    function = getattr(_LIBRARY, "hound_" + name, None)
    if function is None:
        raise _other_library(f"it lacks hound_{name}")
    function.argtypes, function.restype = arguments, result
    return function


def _other_library(why: str) -> ImportError:
    return ImportError(
        f"{_LIBRARY._name} isn't the library of hound_bindings {__version__}: {why}. Install the package again, "
        "without HOUND_C_LIB or with the folder of a library of that version"
    )


def _check_version() -> None:
    """An ImportError where the library has another version, whose structs may be others."""
    number = function("version", result=ctypes.c_int32)()
    version = f"{number >> 16}.{number >> 8 & 255}.{number & 255}"
    if version != __version__:
        raise _other_library(f"it is that of version {version}")


_check_version()
_kind = function("kind", POINTER, SIZE, result=ctypes.c_int32)


def checked(code: Any) -> int:
    if code < 0:
        raise HoundError(Cause(-code))  # type: ignore[call-arg]
    return int(code)


class address:  # noqa: N801
    """The address and the number of bytes of a buffer, or of a copy where the buffer is read-only, not
    contiguous or not aligned. They live as long as the context."""

    def __init__(self, buffer: Any, align: int = 1) -> None:
        self._buffer, self._align = buffer, align

    def __enter__(self) -> Tuple[Any, int]:
        self._kept: Any = None
        view = self._view = memoryview(self._buffer)
        if view.nbytes == 0:
            return ctypes.addressof(SPARE), 0
        if view.c_contiguous and not view.readonly:
            start = ctypes.c_char.from_buffer(view)
            if ctypes.addressof(start) % self._align == 0:
                self._kept = start
                return ctypes.addressof(start), view.nbytes
            del start
        self._kept = self._buffer if isinstance(self._buffer, bytes) else view.tobytes()
        return ctypes.cast(ctypes.c_char_p(self._kept), POINTER).value, len(self._kept)

    def __exit__(self, *_: Any) -> None:
        self._kept = None
        self._view.release()


# How many bytes of a file's front say what it is.
FRONT_BYTES = 4096


def check_header(code: int, front: Callable[[], bytes]) -> int:
    """A code, or the error of a header, which says what the file is by its front."""
    try:
        return checked(code)
    except HoundError as error:
        with contextlib.suppress(OSError, ValueError), address(front()) as place:
            error.kind = _kind(*place)
        raise


def integer(name: str, value: Any, low: int, high: int) -> int:
    """An argument that is an integer in a range."""
    try:
        number = operator.index(value)
    except TypeError:
        raise TypeError(f"{name} is {value!r}, and not an integer") from None
    if not low <= number <= high:
        raise ValueError(f"{name} is {number}, and not from {low} to {high}")
    return number


def info_from(spec: CSpec, frames: int, data_start: int) -> Info:
    said = (spec.sample_rate, spec.channels, spec.bits_per_sample, spec.sample_format != 0)
    return Info(*said, frames, data_start, spec.bytes_per_sample)


def info_of_header(found: CInfo) -> Info:
    return info_from(found.spec, found.samples // found.spec.channels, found.data_start)
