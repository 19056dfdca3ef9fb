"""Files whose header is lost: their samples in a copy that has one, and a guess of their form."""
import array
import collections
import io
import math
import operator
import os
from typing import Any, Iterator, List, NamedTuple, Optional, Sequence, Tuple

from . import conversion, disk, streams
from ._library import FORMS, FRONT_BYTES, POINTER, SIZE, Info, Path, address, function, integer, named

__all__ = ["chunks_at_end", "copy", "guess", "recovered", "start_of"]

_guess_data = function("guess_data", POINTER, SIZE)

_MOST = (1 << 63) - 1
# The guess is that of bindings/js/guess.js, by the same arithmetic, in the same order but for sums of integers, which
# are exact, so both have one answer for a file; docs/BINDINGS.md says how it is made ("A header that is lost"). These
# are its constants.
_BLOCKS, _BLOCK_LENGTH, _COMMON, _LEAST, _FEWEST = 16, 3072, 96, 1024, 16
USUAL_START, _LONGER_STARTS = 44, (80, 68, 58)
_HEAD = 12  # How many bytes come before what may look like the header of the data.
# Of forms that are as predictable the one with the lower rank is taken, since it is more usual.
_RANKS = {(16, False): 0, (24, False): 1, (32, True): 2, (8, False): 3, (32, False): 4}
_TRIED = sorted(FORMS, key=_RANKS.__getitem__)
_CHANNELS, _DOUBT = {1: 0.0, 2: 0.25, 4: 2.0, 6: 2.0, 8: 2.0}, 1.0
_HIGHEST, SPARE = 16, 1.9175
_TURNS, _LITTLE, _SOME = 1 / 3, 0.06, 0.1
_HELP, _LITTLE_BYTE = 0.1, 4.0
_USUAL, _SMALLEST, _LARGEST, _CLIP = 0.95, 1e-8, 2, 1 << 17


class Progress(NamedTuple):
    """How many bytes are read of a file, and what its copy has."""

    place: int
    frames: int
    left_over: int


def _read(file: disk.Descriptor, count: int, place: int) -> bytes:
    """Bytes of a file, whose name an error has, and not that of its copy."""
    with named(file):
        return file.read_at(count, place)


def copy(file: disk.Descriptor, part: Path) -> None:
    """Copies a file to a new one."""
    with disk.Descriptor(io.open(part, "xb", buffering=0)) as new:
        place = 0
        while content := _read(file, 1 << 20, place):
            new.put(content, place)
            place += len(content)


def recovered(path: Path, part: Path, like: Info, skip: int, durable: bool) -> Iterator[Progress]:
    """Writes a new file of the samples that a file has from a byte on, in steps."""
    with disk.opened(path) as file, streams.create(part, like=like, durable=durable, exclusive=True) as writer:
        channels, spec = like.channels, conversion.spec_like(writer.info)
        size, place, left = channels * spec.bytes_per_sample, skip, 0
        while content := _read(file, max((1 << 20) // size, 1) * size, place):
            place, left = place + len(content), len(content) % size
            writer.write(conversion.decoded(content, len(content) // size * channels, spec))
            yield Progress(place, writer.tell(), left)


def _blocks_of(path: Path, start: int) -> List[bytes]:
    """Blocks from all over a file, whose samples begin at a byte."""
    with disk.opened(path) as file:
        length = file.size() - start
        numbers = range(_BLOCKS) if length >= _LEAST else range(0)
        steps = [length * (2 * number + 1) // (2 * _BLOCKS * _COMMON) for number in numbers]
        return [_read(file, _BLOCK_LENGTH, start + _COMMON * step) for step in steps]


def _bits_of(square: float) -> float:
    """How many bits numbers of this mean square need, in steps that don't depend on how a logarithm is rounded."""
    return math.floor(math.log2(1 + square) * 512 + 0.5) / 1024


class _Prediction(NamedTuple):
    """How the samples of a channel are predicted best by the two before each: by which weights, what is left, and how
    many bits that needs, also without its lowest byte. `own` are the products of the samples before (1) and second
    before them (2)."""

    own: Tuple[float, float, float]
    one: float
    two: float
    left: float
    bits: float
    upper: float
    is_alone: bool
    is_constant: bool


def _product(some: Sequence[int], others: Sequence[int]) -> int:
    return sum(map(operator.mul, some, others))


def _weights_of(first: float, second: float, own: Tuple[float, float, float]) -> Tuple[float, float]:
    """The weights of the sample before one and of that before it by which they predict best what has these products
    with them, by their own products."""
    p11, p12, p22 = own
    determinant = p11 * p22 - p12 * p12
    if determinant > p11 * p22 * 1e-9:
        return (first * p22 - second * p12) / determinant, (second * p11 - first * p12) / determinant
    return (first / p11 if p11 > 0 else 0.0), 0.0


def _predicted(samples: List[int]) -> _Prediction:
    now, before, second = samples[2:], samples[1:-1], samples[:-2]
    # The others are products of the same numbers, but for those at an end.
    p00, p01, p02 = _product(now, now), _product(now, before), _product(now, second)
    p11 = p00 + samples[1] ** 2 - samples[-1] ** 2
    p22 = p11 + samples[0] ** 2 - samples[-2] ** 2
    p12 = p01 + samples[0] * samples[1] - samples[-2] * samples[-1]
    return _prediction(float(p00), float(p01), float(p02), (float(p11), float(p12), float(p22)), len(now))


def _prediction(p00: float, p01: float, p02: float, own: Tuple[float, float, float], count: int) -> _Prediction:
    """By the products of samples (0) with those before (1) and second before them (2), of which there are so many."""
    one, two = _weights_of(p01, p02, own)
    p22, left = own[2], max(p00 - one * p01 - two * p02, 0.0)
    bits = _bits_of(left / count)
    of_second = _bits_of(max(p00 - p02 * p02 / p22, 0) / count) if p22 > 0 else bits
    is_alone = p02 > 0 and of_second - bits < _LITTLE and _bits_of(p00 / count) - of_second > _SOME
    return _Prediction(own, one, two, left, bits, _bits_of(left / count / 65536), is_alone, p00 == 0)


def _help_of(samples: List[int], others: List[int], found: _Prediction) -> float:
    """How many bits fewer the samples of a channel need from number 2 on, if as many of another one are known, too."""
    first, second = float(_product(samples[1:-1], others)), float(_product(samples[:-2], others))
    all_of_it = float(_product(others, others))
    one, two = _weights_of(first, second, found.own)
    rest = all_of_it - one * first - two * second
    common = float(_product(samples[2:], others)) - found.one * first - found.two * second
    if not rest > all_of_it * 1e-9:
        return 0.0
    return found.bits - _bits_of(max(found.left - common * common / rest, 0) / (len(samples) - 2))


def _turns_of(samples: List[int], found: _Prediction) -> Tuple[int, int]:
    """How many pairs of samples are predicted worse in the first, less those that are in the second; of how many."""
    triples = zip(samples[2:], samples[1:], samples)
    errors = [abs(later - found.one * before - found.two * second) for later, before, second in triples]
    pairs = list(zip(errors[::2], errors[1::2]))
    return sum(first > later for first, later in pairs) - sum(first < later for first, later in pairs), len(pairs)


def _channel_of(samples: List[int], channel: int, channels: int) -> List[int]:
    """The samples of a channel, around their mean."""
    some = samples[channel::channels]
    middle = sum(some) // len(some)
    return [sample - middle for sample in some]


def _lowest_bits(blocks: List[bytes], shift: int, width: int) -> float:
    """How many bits the lowest byte of samples needs that begin after so many bytes: where that is a few, they had
    fewer bits before they were stored."""

    def logarithm(number: int) -> float:
        return math.floor(math.log2(number) * 512 + 0.5) / 512

    counts: "collections.Counter[int]" = collections.Counter()
    for block in blocks:
        end = shift + (len(block) - shift) // width * width
        counts.update(block[shift:end:width])
    count = sum(counts.values())
    if count == 0:
        return 8.0
    alike = sum(times * logarithm(times) for times in counts.values())
    bits = math.floor((logarithm(count) - alike / count) * 1024 + 0.5) / 1024
    return 8.0 if bits > _LITTLE_BYTE else bits


class _Look(NamedTuple):
    """How odd blocks are in a form, how many bits a byte needs then, and the channels of each block that sounds, with
    how they are predicted. A form that is odd is a last resort: its samples are never negative, or a channel is
    silent."""

    oddness: int
    bits: float
    blocks: List[List[Tuple[List[int], _Prediction]]]

    def has_turns(self) -> bool:
        """Whether most samples of one half are predicted worse than those next to them, as where two channels are
        taken for one."""
        turns = [_turns_of(*channel) for block in self.blocks for channel in block]
        return abs(sum(more for more, _ in turns)) > _TURNS * sum(pairs for _, pairs in turns)

    def is_one_channel(self) -> bool:
        """Whether each channel is predicted better if the sample before, of another one, is known, too, as where one
        channel is taken for several. Of real ones the first of a frame has none before it of the same time."""
        channels = len(self.blocks[0])
        helps = [0.0] * channels
        for block in self.blocks if channels > 1 else []:
            for number, (samples, found) in enumerate(block):
                before = block[number - 1][0]
                others = before[2:] if number > 0 else before[1:]
                helps[number] += _help_of(samples, others[: len(samples) - 2], found)
        return channels > 1 and min(helps) > _HELP * len(self.blocks)

    def doubted(self, width: int) -> "_Look":
        """The same with more bits, where there are signs of another number of channels."""
        is_doubtful = self.has_turns() or self.is_one_channel()
        return self._replace(bits=self.bits + _DOUBT / width) if is_doubtful else self


def _looked(blocks: List[List[int]], bits: int, is_float: bool, channels: int, lowest: float) -> Optional[_Look]:
    """How blocks look in this form, whose lowest byte needs so many bits; nothing if they aren't of it."""
    highest = min(bits, _HIGHEST)
    rest: float = 8 if is_float else bits - highest - 8 + lowest if bits > _HIGHEST else 0
    varies, needed, count = [False] * channels, 0.0, 0
    noisy = alone = 0
    is_signed = False
    heard: List[List[Tuple[List[int], _Prediction]]] = []
    for block in blocks:
        if len(block) < _FEWEST * channels:
            continue
        parts = [_channel_of(block, channel, channels) for channel in range(channels)]
        found = [_predicted(part) for part in parts]
        if all(one.is_constant for one in found):
            continue
        heard.append(list(zip(parts, found)))
        for channel, (part, one) in enumerate(zip(parts, found)):
            alone += one.is_alone
            varies[channel] = varies[channel] or not one.is_constant
            needed += (min(one.bits, one.upper + lowest) if bits == _HIGHEST else one.bits + rest) * len(part)
        needed, count = needed + len(block), count + len(block)
        noisy += not is_float and any(one.bits > highest - SPARE for one in found)
        is_signed = is_signed or min(block) < 0
    if not heard or noisy * 8 > len(heard) or alone * 2 > len(heard) * channels:
        return None
    width = bits // 8
    oddness = (width > 1 and not is_signed) + (False in varies)
    return _Look(oddness, needed / (count * width) + _CHANNELS[channels] / width, heard)


def _decoded(block: bytes, form: Info) -> "array.array[Any]":
    spec = conversion.spec_like(form)
    return conversion.decoded(block, len(block) // spec.bytes_per_sample, spec)


def _are_usual(blocks: List["array.array[Any]"]) -> bool:
    """Whether nearly all floats that aren't 0 have a magnitude such as audio has."""
    sizes = [abs(sample) for block in blocks for sample in block if sample != 0]
    usual = len([size for size in sizes if _SMALLEST < size <= _LARGEST])
    return usual > 0 and usual >= _USUAL * len(sizes)


def _highest_of(samples: "array.array[Any]", bits: int, is_float: bool) -> List[int]:
    """The highest bits of samples."""
    if not is_float:
        return [sample >> bits - _HIGHEST for sample in samples] if bits > _HIGHEST else list(samples)
    loud = [max(-_CLIP, min(_CLIP - 1, sample * (1 << _HIGHEST - 1))) if sample == sample else 0 for sample in samples]
    return [math.floor(sample) for sample in loud]


def _start_of_form(form: Info, zeros: int) -> int:
    """Where samples of this form begin, if one begins so many bytes after a header of the usual length: after the
    longest header that such files have, and that fits into the zeros at the front."""
    place, width = USUAL_START + form.data_start, form.bits_per_sample // 8
    longer = (start for start in _LONGER_STARTS if start <= zeros and (start - place) % width == 0)
    return next(longer, place) if width > 2 or form.channels > 2 else place


def _form_of(blocks: List[bytes], start: int, zeros: Optional[int]) -> Optional[Info]:
    """The form of blocks from a byte on, and where its samples begin; nothing if none is predictable. If `zeros` is
    None they begin at this byte, or else within a sample of it, and the file begins with so many zeros."""
    best = None
    for bits, is_float in _TRIED:
        width = bits // 8
        # Chunks begin at even places: so where all of a header is zeros, samples of an even width do, too.
        step = 2 if zeros is not None and zeros >= USUAL_START and width % 2 == 0 else 1
        for shift in range(0, 1 if zeros is None else width, step):
            lowest = _lowest_bits(blocks, shift, width)
            decoded = [_decoded(block[shift:], Info(1, 1, bits, is_float)) for block in blocks]
            if is_float and not _are_usual(decoded):
                continue
            samples = [_highest_of(block, bits, is_float) for block in decoded]
            for channels in _CHANNELS:
                found = _looked(samples, bits, is_float, channels, lowest)
                if not found or (best is not None and found[:2] >= best[0]):
                    continue
                found = found.doubted(width)
                if best is None or found[:2] < best[0]:
                    best = found[:2], Info(0, channels, bits, is_float, 0, shift)
    if best is None:
        return None
    form = best[1]
    return form._replace(data_start=start if zeros is None else _start_of_form(form, zeros))


def _front_of(path: Path) -> bytes:
    with disk.opened(path) as file:
        return _read(file, FRONT_BYTES, 0)


def _cues_in(front: bytes) -> List[range]:
    """The places of cue chunks, whose points name the data."""
    cues, place = [], -1
    while (place := front.find(b"cue ", place + 1, len(front) - _HEAD + 4)) >= 0:
        length, points = (int.from_bytes(front[at : at + 4], "little") for at in (place + 4, place + 8))
        if length == 4 + 24 * points:
            cues.append(range(place + 1, place + 8 + length + 1))
    return cues


def _start_in(front: bytes) -> int:
    """Where the samples begin: after the first of what looks like the header of the data that counts some; else after
    the last one, because a recorder that was killed counts none. 0 where nothing looks like one."""
    cues, start, place = _cues_in(front), 0, _HEAD
    while True:
        with address(front[place - _HEAD :]) as given:
            found = int(_guess_data(*given))
        if found <= 0:
            return start
        place += found - _HEAD
        if not any(place in cue for cue in cues):
            start = place
            if any(front[place - 4 : place]):
                return start


def start_of(path: Path, otherwise: int) -> int:
    """Where the samples of a file may begin whose header is damaged: after what looks like the header of its data, near
    its beginning, or otherwise there."""
    return _start_in(_front_of(path)) or otherwise


def guess(path: Path, *, rate: int, skip: Optional[int] = None) -> Info:
    """Guesses what the samples of a file are whose header is lost: 8, 16, 24 or 32 bits, or floats, of one to eight
    channels, by which form makes them most predictable; and where they begin, as its `data_start`. It may be wrong, so
    listen to what `repair(path, like=guess(path, rate=48000))` makes of it. The rate can't be guessed: with a wrong one
    the audio is too fast or too slow. The samples begin at byte `skip`; without it after what looks like the header of
    the data, or else near the end of a header of the usual length. What isn't predictable, as silence and noise, is a
    ValueError."""
    front = _front_of(path)
    known = _start_in(front) or None if skip is None else integer("skip", skip, 0, _MOST)
    zeros = len(front) - len(front.lstrip(b"\0")) if known is None else None
    start = USUAL_START if known is None else known
    form = _form_of(_blocks_of(path, start), start, zeros)
    if form is None:
        words = "there is nothing to guess by, since nothing in it is predictable, as silence and noise: say by like"
        raise ValueError(f"{os.fsdecode(path)}: {words} what its samples are")
    return form._replace(sample_rate=rate)


# The names of chunks that programs write after the audio, and in how many bytes at the end of a file they are looked
# for: enough for a large iXML or axml chunk, and few enough to be read in an instant.
_NAMES = [
    name.encode().ljust(4)
    for name in "LIST id3 ID3 bext iXML aXML axml chna ubxt cue smpl inst plst PEAK fact JUNK FLLR PAD filr _PMX acid "
    "strc cart levl umid minf elm1 regn ovwf DISP SNDM LGWV afsp r64m link".split()
]
_SEARCHED_BYTES = 1 << 22


class Chunks(NamedTuple):
    """The name of the first of some chunks, and how many bytes all have."""

    name: str
    length: int


def _places(content: bytes, name: bytes) -> Iterator[int]:
    place = content.find(name)
    while place >= 0:
        yield place
        place = content.find(name, place + 1)


def chunks_at_end(file: disk.Descriptor, data_start: int, length: int) -> Optional[Chunks]:
    """The chunks after this byte whose last one ends exactly where a file of this length does; nothing where there are
    none. A repair of a header that counts no samples takes them for samples."""
    start = max(length - _SEARCHED_BYTES, data_start)
    end = _read(file, max(length - start, 0), start)
    first, ends = None, {len(end)}  # Where what ends there is at the end of the file, or chunks follow up to it.
    for place in sorted((place for name in _NAMES for place in _places(end, name)), reverse=True):
        if place + 8 > len(end):
            continue
        count = int.from_bytes(end[place + 4 : place + 8], "little")
        after = place + 8 + count
        if after == len(end) or after + count % 2 in ends:
            first = place
            ends.add(place)
    return None if first is None else Chunks(end[first : first + 4].decode("ascii").strip(), len(end) - first)
