"""Samples as callers give and take them: their types, and floats whose full scale is 1."""
import array
import contextlib
import copy
import ctypes
import os
import sys
import warnings
from typing import (
    Any, Callable, ContextManager, Dict, Generator, Iterable, Iterator, List, NamedTuple, Optional, Tuple,
)  # fmt: skip

from ._library import (
    INTEGERS, POINTER, SIZE, SPARE, Cause, CSpec, HoundError, Info, address, check_header, checked, function,
    integer,
)  # fmt: skip

__all__ = [
    "BLOCK", "CACHED", "Encoder", "Given", "READ_TYPES", "Room", "TYPES", "Way", "Ways", "check_columns", "check_like",
    "check_readable", "decoded", "exact_in", "form_of", "in_pieces", "noise_of", "room_of", "spec_like", "spec_of",
    "type_of", "warn_caller", "width_of",
]  # fmt: skip


class Type(NamedTuple):
    """A type of samples: the code of its arrays, the calls that read and write it, the bits of its files, and of the
    widest integers that all are exact in it."""

    code: str
    kind: str
    bits: int
    exact: int


TYPES = {
    "int8": Type("b", "i16", 8, 8),
    "int16": Type("h", "i16", 16, 16),
    "int32": Type("i", "i32", 32, 32),
    "int64": Type("q", "i32", 16, 64),  # It has the values of narrower ones.
    "float32": Type("f", "f32", 32, 24),
    "float64": Type("d", "f32", 32, 53),
}
READ_TYPES = [name for name in TYPES if name != "int64"]
CODES = {"i8": "b", "i16": "h", "i32": "i", "f32": "f"}
_LIBRARYS = ("int16", "int32", "float32")
_FORMATS = {("l", 4): "int32", ("l", 8): "int64"}
_FORMATS.update(((form.code, array.array(form.code).itemsize), name) for name, form in TYPES.items())
_SPELLINGS = {"i1": "int8", "i2": "int16", "i4": "int32", "f4": "float32", "f8": "float64", "float": "float64"}
READ = "int8, int16, int32, float32 and float64 are read"
GIVEN = "int8, int16, int32, int64, float32, float64 and lists are written"
# How many samples are converted at once, and how many bytes of a file are decoded or encoded: so they stay in the
# processor's cache. How many bytes are written at once where they need no memory: a system keeps what is written in few
# calls in larger pieces, so that it is written and read in less time.
BLOCK, CACHED, WRITTEN = 1 << 16, 1 << 18, 1 << 24
# The calls that decode and encode samples, by their kind, or by the type of floats whose full scale is 1.
_DECODERS = {"i8": "decode_i8", "i16": "decode_i16", "i32": "decode_i32", "f32": "decode_f32"}
_DECODERS.update({"float32": "to_f32", "float64": "to_f64"})
_decode = {kind: function(call, POINTER, POINTER, SIZE, POINTER, SIZE) for kind, call in _DECODERS.items()}
_encode = {t: function("encode_" + t, POINTER, POINTER, SIZE, POINTER, SIZE) for t in ("i16", "i32", "f32")}
_FROM_SCALED = {
    name: function(call, POINTER, POINTER, SIZE, POINTER, SIZE, POINTER)
    for name, call in (("float32", "from_f32"), ("float64", "from_f64"))
}
_DITHER = {
    name: function(call, POINTER, POINTER, SIZE, POINTER, POINTER, SIZE, POINTER)
    for name, call in (("float32", "dither_f32"), ("float64", "dither_f64"))
}
_f32_to_f64 = function("f32_to_f64", POINTER, SIZE, POINTER, SIZE)
_f64_to_f32 = function("f64_to_f32", POINTER, SIZE, POINTER, SIZE, POINTER)


def _start(samples: "array.array[Any]") -> int:
    """The address of an array of this package, which nobody else resizes."""
    return samples.buffer_info()[0] if samples else ctypes.addressof(SPARE)


def form_of(view: memoryview, name: str, taken: str) -> Tuple[str, Optional[int]]:
    """The type of samples, and how many columns they have if they have two dimensions."""
    dtype = _FORMATS.get((view.format, view.itemsize)) or _FORMATS.get((view.format.lstrip("@=<"), view.itemsize))
    if dtype is None:
        raise TypeError(f"{name} has the format '{view.format}': {taken}, in this machine's byte order")
    if view.ndim == 1:
        return dtype, None
    if view.ndim != 2:
        raise ValueError(f"{name} has {view.ndim} dimensions, and not one or two")
    shape: Any = view.shape
    return dtype, shape[1]


def check_columns(name: str, columns: Optional[int], channels: int) -> None:
    if columns not in (None, channels):
        raise ValueError(f"{name} has {columns} columns, and there are {channels} channels")


def _name_of(dtype: Any) -> Any:
    """The name of a type, also of one of numpy's: `numpy.float32`, or `numpy.dtype("<f4")`."""
    name = dtype.__name__ if isinstance(dtype, type) else getattr(dtype, "str", dtype)
    if not isinstance(name, str):
        return None
    return _SPELLINGS.get(name.lstrip("<=|"), name)


def _is_of_numpy(dtype: Any) -> bool:
    """Whether a type is one of numpy's, so that an array of numpy is wanted; not whether it is a name of one."""
    return (dtype if isinstance(dtype, type) else type(dtype)).__module__.partition(".")[0] == "numpy"


def exact_in(types: Tuple[str, ...], bits: int) -> str:
    """The first of these types in which all integers of so many bits are exact, or the last one."""
    return next((name for name in types if bits <= TYPES[name].exact), types[-1])


def type_of(dtype: Any, spec: CSpec) -> str:
    """The name of a type that is requested, or of the narrowest from 16 bits on that reads a file."""
    if dtype is None:
        return "float32" if spec.sample_format else exact_in(("int16", "int32"), spec.bits_per_sample)
    name = _name_of(dtype)
    if name not in READ_TYPES:
        raise TypeError(f"dtype is {dtype!r}: {READ}")
    return str(name)


_ZEROS = {form.code: array.array(form.code, bytes(array.array(form.code).itemsize)) for form in TYPES.values()}
_WIDTHS = {name: _ZEROS[form.code].itemsize for name, form in TYPES.items()}
_WIDTHS.update((kind, _ZEROS[code].itemsize) for kind, code in CODES.items())


def _zeros(code: str, count: int) -> "array.array[Any]":
    return _ZEROS[code] * count


def width_of(dtype: str) -> int:
    """How many bytes a sample of a type, or of the calls of a kind, has in an array."""
    return _WIDTHS[dtype]


class Way:
    """How samples of a type are read from a file, or written to it: what follows from the type and the spec alone, so
    that it is found once for all blocks."""

    def __init__(self, dtype: str, spec: CSpec) -> None:
        form, width = TYPES[dtype], width_of(dtype)
        self.dtype, self.code, self.width, self.spec = dtype, form.code, width, ctypes.byref(spec)
        self.channels, self.bits = spec.channels, spec.bits_per_sample
        self.is_float = is_float = bool(spec.sample_format)
        # How many bytes a sample has in the file.
        self.size = spec.bytes_per_sample or (self.bits + 7) // 8
        # Whether integers are floats, or become floats, whose full scale is 1.
        self.is_scaled = form.kind == "f32" and not is_float
        # The calls that decode the samples of the file, and whether what they give is converted to the type.
        self.decodes = dtype if self.is_scaled else "i8" if dtype == "int8" else form.kind
        self.is_converted = width_of(self.decodes) != width
        # The calls that encode the samples, and whether they take the type as it is.
        self.encodes = dtype if self.is_scaled else form.kind
        self.is_taken = self.is_scaled or dtype in _LIBRARYS
        # Whether the samples are the containers of the file as they are, so that what decodes and encodes them copies
        # them only: those of 8 bits aren't, since they have no sign in a file.
        is_number = self.bits == 8 * width and self.size == width and width > 1 and sys.byteorder == "little"
        self.are_containers = is_number and dtype in _LIBRARYS and (dtype == "float32") == is_float
        # Whether the file has a container for each value of the type, so that no sample is an error.
        is_narrow = dtype not in ("int64", "float64") and form.bits <= self.bits
        self.fits = self.is_scaled or (is_narrow and (form.kind == "f32") == is_float)


class Ways:
    """The ways of a file, by the type that is requested; and whether an array of numpy is."""

    def __init__(self, spec: CSpec) -> None:
        self._spec = spec
        self._known: Dict[Any, Tuple[Way, bool]] = {}

    def of(self, dtype: Any) -> Tuple[Way, bool]:
        key = dtype, type(dtype)  # A type of numpy is equal to its name.
        try:
            known = self._known.get(key)
        except TypeError:  # It has no hash.
            return self._found(dtype)
        if known is None:
            known = self._known[key] = self._found(dtype)
        return known

    def _found(self, dtype: Any) -> Tuple[Way, bool]:
        return Way(type_of(dtype, self._spec), self._spec), _is_of_numpy(dtype)

    def of_given(self, dtype: str) -> Way:
        """The way of samples that are given, also of a type that isn't read."""
        known = self._known.get(dtype)
        if known is None:
            known = self._known[dtype] = Way(dtype, self._spec), False
        return known[0]


def _empty_of_numpy(count: int, dtype: str) -> Any:
    """An array of numpy whose samples have no values yet."""
    numpy: Any = sys.modules["numpy"]  # It is there, since the type is one of its own.
    return numpy.empty(count, dtype)


def _address_of_numpy(samples: Any) -> int:
    return int(samples.__array_interface__["data"][0])


def _as_numpy(flat: Any, channels: int, always_2d: bool) -> Any:
    """The same array of numpy: frames by channels, or of one dimension where there is one channel."""
    return flat if channels == 1 and not always_2d else flat.reshape(-1, channels)


def _shaped(samples: "array.array[Any]", channels: int, always_2d: bool) -> Any:
    """Samples as they are, or as frames by channels."""
    if not always_2d:
        return samples
    frames = len(samples) // channels
    # A view has no shape with 0 frames: one more is cut off again.
    samples.frombytes(bytes(channels * samples.itemsize))
    return memoryview(samples).cast("B").cast(samples.typecode, [frames + 1, channels])[:frames]


class Room:
    """Where samples that are read are stored: a buffer of the caller, or a new array. It is `bound` to what a file is:
    then `way` is how they are read, and `most` how many frames fit."""

    way: Way
    most = sys.maxsize
    _view: Optional[memoryview] = None
    _array: Any = None
    _part: Optional["array.array[Any]"] = None  # What is decoded, and then converted.

    def __init__(self, buffer: Any = None, name: str = "out") -> None:
        if buffer is None:
            return
        self._view, self._name = memoryview(buffer), name
        self._own_dtype, self._columns = form_of(self._view, name, READ)
        if self._view.readonly or not self._view.c_contiguous:
            raise TypeError(f"{name} isn't writable and contiguous")
        with address(self._view) as (start, _):
            if start % self._view.itemsize:
                raise TypeError(f"{name} isn't aligned")

    def __enter__(self) -> "Room":
        return self

    def __exit__(self, *_: Any) -> None:
        if self._view is not None:
            self._view.release()

    def bound(self, ways: Ways, dtype: Any) -> "Room":
        wanted = self._own_dtype if dtype is None and self._view is not None else dtype
        self.way, self._is_of_numpy = ways.of(wanted)
        if self._view is not None:
            if self.way.dtype != self._own_dtype:
                raise TypeError(f"{self._name} has samples of the type {self._own_dtype}, and dtype is {dtype!r}")
            check_columns(self._name, self._columns, self.way.channels)
            self.most = self._view.nbytes // self._view.itemsize // self.way.channels
        return self

    def place(self, count: int) -> ContextManager[Tuple[Any, int]]:
        """The address of the space for so many samples, while they are stored, and its bytes."""
        if self._view is not None:
            return address(self._view)
        self._allocate(count)
        start = _address_of_numpy(self._array) if self._is_of_numpy else _start(self._array)
        return contextlib.nullcontext((start, count * self.way.width))

    def _allocate(self, count: int) -> None:
        """Makes the array. One of Python has to be filled first, and one of numpy has no values yet."""
        self._array = _empty_of_numpy(count, self.way.dtype) if self._is_of_numpy else _zeros(self.way.code, count)

    def fill(self, count: int, read: Callable[[memoryview], int]) -> int:
        """Lets a call store the bytes of at most so many samples, and returns how many bytes came."""
        if self._view is None:
            self._allocate(count)
        if count == 0:
            return 0
        with memoryview(self._array if self._view is None else self._view) as view, view.cast("B") as content:
            return read(content[: count * self.way.width])

    def decode(self, content: Any, count: int, out: int) -> None:
        """Stores the samples of the first containers in some bytes at an address in the space."""
        way = self.way
        with address(content) as (start, _):
            if not way.is_converted:
                checked(_decode[way.decodes](way.spec, start, count * way.size, out, count))
                return
            part = self._part
            if part is None or len(part) < min(BLOCK, count):
                part = self._part = _zeros(CODES[way.decodes], min(BLOCK, count))
            place = _start(part)
            for first in range(0, count, BLOCK):
                some = min(BLOCK, count - first)
                checked(_decode[way.decodes](way.spec, start + first * way.size, some * way.size, place, some))
                checked(_f32_to_f64(place, some, out + first * way.width, some))

    def result(self, count: int, always_2d: bool) -> Any:
        """The samples, of which there are so many."""
        if self._view is not None:
            return self._view[: count // self.way.channels if self._columns else count]
        if self._is_of_numpy:
            return _as_numpy(self._array[:count], self.way.channels, always_2d)
        del self._array[count:]
        return _shaped(self._array, self.way.channels, always_2d)


def _readable(kind: str, way: Way) -> int:
    """A code: whether the samples of a file are read by the call of this kind."""
    return int(_decode[kind](way.spec, SPARE, 0, SPARE, 0))


def check_readable(way: Way, front: Callable[[], bytes]) -> None:
    """An error where the samples of a file, which begins with these bytes, aren't read so."""
    try:
        check_header(_readable(way.decodes, way), front)
    except HoundError as error:
        if error.cause == Cause.TOO_WIDE and error.held is None and _readable("i32", way) < 0:
            held = f"{'floats' if way.is_float else 'integers'} of {way.bits} bits"
            raise error._of_file(held if way.size * 8 == way.bits else f"{held} in {way.size} bytes") from None
        raise


_MOST_BITS = max(bits for bits, _ in INTEGERS)


def decoded(content: bytes, count: int, spec: CSpec) -> "array.array[Any]":
    """The first samples of these bytes."""
    room = Room().bound(Ways(spec), None)
    with room.place(count) as (start, _):
        room.decode(content, count, start)
    samples: "array.array[Any]" = room.result(count, False)
    return samples


def room_of(out: Any) -> Room:
    return out if isinstance(out, Room) else Room(out)


def spec_like(info: Info) -> CSpec:
    """The spec of a file, with the bytes of its containers."""
    width = info.bytes_per_sample or (info.bits_per_sample + 7) // 8
    return CSpec(info.sample_rate, info.channels, info.bits_per_sample, width, info.is_float)


def check_like(like: Any) -> None:
    if not (like is None or isinstance(like, Info)):
        raise TypeError(f"like is {like!r}, and not an Info")


def spec_of(
    rate: Optional[int],
    channels: Optional[int],
    bits: Optional[int],
    width: int,
    is_float: Optional[bool],
    like: Optional[Info],
) -> CSpec:
    """A spec of these numbers, and of those of `like` that aren't given."""
    check_like(like)
    if like is not None:
        rate = like.sample_rate if rate is None else rate
        channels = like.channels if channels is None else channels
        if bits in (None, like.bits_per_sample):
            bits, width = like.bits_per_sample, width or like.bytes_per_sample
            is_float = like.is_float if is_float is None else is_float
    return CSpec(
        integer("rate", rate, 1, 0xFFFFFFFF),
        integer("channels", channels, 1, 0xFFFF),
        integer("bits", bits, 1, 0xFFFF),
        integer("bytes_per_sample", width, 0, 0xFFFF),
        bool(is_float),
    )


def noise_of(dither: Any) -> Optional[int]:
    """The state of the noise of a seed, if it isn't 0."""
    return integer("dither", dither, 0, sys.maxsize) or None


def warn_caller(sentence: str) -> None:
    """Warns the caller of the package."""
    frame, level, folder = sys._getframe(), 1, os.path.dirname(__file__)
    while frame.f_back and frame.f_code.co_filename.startswith(folder):
        frame, level = frame.f_back, level + 1
    warnings.warn(sentence, RuntimeWarning, level)


def _encoded(code: Any, way: Way) -> int:
    """A code of a call that encodes, whose error is one of the samples that are given."""
    if code < 0:
        raise HoundError(Cause(-code))._of_given(way.bits)  # type: ignore[call-arg]
    return int(code)


class Encoder:
    """What encodes samples for a file. Of floats whose full scale is 1 `clipped` counts those that the integers of the
    file don't hold. With the state of some noise, which becomes that for the next ones, each gets noise of a triangular
    distribution, of at most one step."""

    clipped = 0

    def __init__(self, way: Way, noise: Optional[int] = None) -> None:
        self._way = way
        self._noise = None if noise is None else ctypes.c_uint64(noise)
        self._out = ctypes.create_string_buffer(0)

    @property
    def noise(self) -> Optional[int]:
        """The state of the noise after all floats."""
        return None if self._noise is None else self._noise.value

    def _encode(self, start: Any, count: int) -> int:
        """Stores the bytes of so many samples at an address, and returns how many there are."""
        way, stored = self._way, (self._out, len(self._out))
        if not way.is_scaled:
            return _encoded(_encode[way.encodes](way.spec, start, count, *stored), way)
        clipped = ctypes.c_uint64()
        if self._noise is None:
            used = _encoded(_FROM_SCALED[way.dtype](way.spec, start, count, *stored, ctypes.byref(clipped)), way)
        else:
            noise = ctypes.byref(self._noise)
            used = _encoded(_DITHER[way.dtype](way.spec, start, count, noise, *stored, ctypes.byref(clipped)), way)
        self.clipped += clipped.value
        return used

    def piece(self, start: Any, count: int) -> memoryview:
        """The bytes of so many samples at an address, until the next call."""
        if count * self._way.size > len(self._out):
            self._out = ctypes.create_string_buffer(count * self._way.size)
        used = self._encode(start, count)
        return memoryview(self._out)[:used]

    def pieces(self, given: "Given", place: int) -> Generator[memoryview, None, None]:
        """The bytes of all given samples, which begin at this place of a file: in pieces that stay in the processor's
        cache, each of them until the next one. A system stores them in less time because they end at multiples of their
        size."""
        way = self._way
        containers = given.containers(way)
        if containers is not None:
            with containers:
                yield from in_pieces(containers, lambda: place)
            return
        width = width_of(way.encodes)
        for samples in given.parts(way):
            with address(samples, width) as (start, length):
                end = start + length
                while start < end:
                    count = min(-(-(CACHED - place % CACHED) // way.size), (end - start) // width)
                    yield self.piece(start, count)
                    start, place = start + count * width, place + count * way.size

    def at_once(self, given: "Given") -> List[Any]:
        """The same, of which each stays; a short block is one piece, until the next call."""
        if not 0 < given.count <= BLOCK:
            return list(map(bytes, self.pieces(given, 0)))
        with address(given.part(given.view, self._way), width_of(self._way.encodes)) as (start, _):
            return [self.piece(start, given.count)]

    def warn(self, count: int) -> None:
        """Warns where samples were clipped."""
        if self.clipped:
            warn_caller(f"{self.clipped} of {count} samples were clipped")


def _too_wide() -> HoundError:
    """The error of a sample that is given, and that no file holds."""
    return HoundError(Cause.TOO_WIDE)._of_given(_MOST_BITS)


def _rounded(start: Any, count: int) -> "array.array[float]":
    """The float32 that are nearest to float64 at an address; an error where one would be infinite and the sample
    isn't."""
    floats, infinite = _zeros("f", count), ctypes.c_uint64()
    checked(_f64_to_f32(start, count, _start(floats), count, ctypes.byref(infinite)))
    if infinite.value:
        raise _too_wide()
    return floats


def _array_of(samples: Any) -> Any:
    """The numbers of a list, which are integers unless one is a float."""
    try:
        return array.array("q", samples)
    except TypeError:
        return array.array("d", samples)
    except OverflowError:
        raise _too_wide() from None


def _buffer_of(samples: Any) -> Any:
    """The samples of a list or a tuple, or of one of frames; and what isn't one."""
    if not isinstance(samples, (list, tuple)):
        return samples
    if not samples or not isinstance(samples[0], (list, tuple)):
        return _array_of(samples)
    columns = len(samples[0])
    if columns == 0 or any(len(frame) != columns for frame in samples):
        raise ValueError("samples has frames of different lengths, or of none")
    flat = _array_of([sample for frame in samples for sample in frame])
    return memoryview(flat).cast("B").cast(flat.typecode, [len(samples), columns])


def in_pieces(content: memoryview, place: Callable[[], int]) -> Iterable[memoryview]:
    """These bytes, which begin at that place of a file, in pieces that end at multiples of their size."""
    if len(content) <= WRITTEN:
        return (content,)
    ends = range(WRITTEN - place() % WRITTEN, len(content) + WRITTEN, WRITTEN)
    return (content[max(end - WRITTEN, 0) : end] for end in ends)


class Given:
    """Samples that a caller gives to be written."""

    def __init__(self, samples: Any, name: str = "samples") -> None:
        self._name, self.view = name, memoryview(_buffer_of(samples))
        self.has_type = not isinstance(samples, (list, tuple)) or len(samples) > 0
        view = self.view
        self.dtype, self.columns = form_of(view, name, GIVEN)
        self.count = view.nbytes // view.itemsize

    @property
    def form(self) -> Type:
        return TYPES[self.dtype]

    def __enter__(self) -> "Given":
        return self

    def __exit__(self, *_: Any) -> None:
        self.view.release()

    def frames(self, first: int, count: int, channels: int) -> "Given":
        """So many frames at most, from one on, of samples that are whole frames."""
        part, step = copy.copy(self), 1 if self.columns else channels
        part.view = self.view[first * step : (first + count) * step]
        part.count = part.view.nbytes // part.view.itemsize
        return part

    def check(self, way: Way, noise: Optional[int]) -> None:
        """An error where the file has other channels, or noise can't be added to the samples."""
        if self.columns is not None:
            check_columns(self._name, self.columns, way.channels)
        if noise is not None and not way.is_scaled:
            raise ValueError("dither is for floats that become integers")

    def containers(self, way: Way) -> Optional[memoryview]:
        """The bytes of the samples, where they are the containers of a file."""
        if way.are_containers and self.count and self.view.c_contiguous:
            return self.view.cast("B")
        return None

    def part(self, view: memoryview, way: Way) -> Any:
        """A buffer of some of the samples, as the library takes them."""
        return view if way.is_taken else self._converted(view)

    def parts(self, way: Way) -> Iterator[Any]:
        """All samples so: they are one part, or where they are copied or converted, parts of whole frames."""
        if way.is_taken and self.view.c_contiguous:
            yield self.view
            return
        rows = max(BLOCK // way.channels, 1) * (1 if self.columns else way.channels)
        for first in range(0, len(self.view), rows):
            yield self.part(self.view[first : first + rows], way)

    def _converted(self, view: memoryview) -> Any:
        """Samples in a type of the library, until the next ones."""
        if self.form.kind == "f32":
            with address(view, view.itemsize) as (start, length):
                return _rounded(start, length // view.itemsize)
        samples: "array.array[int]" = array.array(self.form.code, view.tobytes())
        try:
            return array.array("h" if self.dtype == "int8" else "i", samples)
        except OverflowError:
            raise _too_wide() from None
