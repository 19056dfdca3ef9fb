#!/usr/bin/env python3
"""What hound_rows answers: a model that is made from the public format and from what the crate
promises, and not from its code. It stops at a row that it can't read.

usage: python3 expected.py < stdin > stdout

Each thing that a row speaks of has a class: a reader of bytes (Fed), the media (Tape, Journal), a
file that is read (Reader) and one that is written (Writer). An error of the library is raised as
`Rejected`, with the words that a row has for it."""
import math
import re
import struct
import sys
import zlib
from fractions import Fraction
from collections import namedtuple

# The greatest number of 32 bits: what a size field can say, and how many bytes may follow the WAVE
# tag before the data.
GREATEST = 4294967295
PCM = bytes.fromhex("0100000000001000800000aa00389b71")
FLOAT = bytes.fromhex("0300000000001000800000aa00389b71")
ENDED = "IoError(Other)"
LENGTH_IS_TORN = "FormatError(data chunk length is not a multiple of sample size)"
FRAME_IS_TORN = "FormatError(invalid data chunk length)"
TEXTS = {
    "FormatError": "Ill-formed WAVE file: no RIFF tag found",
    "TooWide": "The sample has more bits than the destination type.",
    "UnfinishedSample": "The number of samples written is not a multiple of the number of channels.",
    "Unsupported": "The wave format of the file is not supported.",
    "InvalidSampleFormat": "The sample format differs from the destination format.",
    "TooLong": "The file would be longer than its size fields can say.",
    "OutOfMemory": "There is not enough memory.",
}
# The tags of RIFF and of its update, of broadcasts, of XMP and ID3v2, and of programs.
KNOWN_TAGS = [
    *[b"LIST", b"INFO", b"fact", b"cue ", b"plst", b"JUNK", b"PAD ", b"DISP", b"inst", b"smpl"],
    *[b"bext", b"levl", b"cart", b"axml", b"chna", b"iXML", b"_PMX", b"id3 ", b"ID3 "],
    *[b"acid", b"strc", b"afsp", b"PEAK", b"FLLR"],
]
USAGE = b"usage: hound_tool pack CHANNELS RATE BITS | show | append FILE\n"


class Rejected(Exception):
    """An error of the library, in the words of a row."""


def ill_formed(reason):
    return Rejected(f"FormatError({reason})")


# Words of rows.


def number(word):
    return 2**64 - 1 if word == "max" else int(word)


NAMED = {}
TERM = re.compile(r"-|'(?P<text>[^']*)'|\$(?P<name>\w+)|(?P<hex>[0-9a-f]+)")
CHANGE = re.compile(
    r"\[(?P<first>[0-9]*)\.\.(?P<end>[0-9]*)\]|\*(?P<times>[0-9]+)|@(?P<at>[0-9]+)=(?P<new>[0-9a-f]+)"
)


def term_of(match):
    if match["text"] is not None:
        text = match["text"].replace("_", " ").replace("\\n", "\n")
        return text.replace("\\t", "\t").replace("\\r", "\r").encode()
    return NAMED[match["name"]] if match["name"] else bytes.fromhex(match["hex"] or "")


def changed(data, match):
    if match["times"]:
        return data * int(match["times"])
    if match["at"]:
        at, new = int(match["at"]), bytes.fromhex(match["new"])
        return (data[:at] + new + data[at + len(new) :])[: len(data)]
    return data[int(match["first"] or 0) : int(match["end"] or len(data))]


def bytes_of(word):
    """The bytes that a word of terms says."""
    found, at = b"", 0
    while at < len(word):
        match = TERM.match(word, at)
        data = term_of(match)
        while (change := CHANGE.match(word, match.end())) is not None:
            data, match = changed(data, change), change
        # There is a plus between terms.
        found, at = found + data, match.end() + 1
    return found


def options_of(words):
    """What comes after `=` in each word, by what comes before it."""
    return {word.partition("=")[0]: word.partition("=")[2] for word in words}


def parts_of(words):
    """The words between colons."""
    parts = [[]]
    for word in words:
        if word == ":":
            parts.append([])
        else:
            parts[-1].append(word)
    return parts


def contents(data):
    if len(data) > 160:
        return f"{len(data)}:{data[:80].hex()}:{zlib.crc32(data):08x}"
    return data.hex() or "-"


def text_of(data):
    if len(data) <= 400 and all(byte == 10 or 32 <= byte < 127 for byte in data):
        return "'" + data.decode().replace("\n", "\\n") + "'"
    return contents(data)


def answer_of(call):
    """What a call gives, "ok" where that is nothing, or its error."""
    try:
        found = call()
        return "ok" if found is None else str(found)
    except Rejected as error:
        return str(error)


# Samples and specs.

BITS_OF = {"i8": 8, "i16": 16, "i32": 32, "own": 16}
# What each place of a block holds before it is read.
FILLER = 85
PAIRS = ((8, 1), (16, 2), (24, 3), (24, 4), (32, 4))


def value_of(kind, word):
    return int(word, 16) if kind == "f" else number(word)


def shown(kind, value):
    return f"{value:08x}" if kind == "f" else str(value)


def signed(value, bits):
    """The lowest bits of a number, as a signed one."""
    half = 1 << (bits - 1)
    return (value + half) % (2 * half) - half


def clipped(number, bits):
    """A number as the nearest one of so many bits, and the word `clipped` where that is another one."""
    half = 1 << (bits - 1)
    nearest = max(-half, min(half - 1, number))
    return [str(nearest)] + (["clipped"] if nearest != number else [])


def row_to_float(value, bits):
    # The quotient is exact in the 64 bits that Python has.
    return [struct.pack(">f", int(value) / 2 ** (int(bits) - 1)).hex()]


def row_to_int(pattern, bits):
    (number,) = struct.unpack(">f", bytes.fromhex(pattern))
    if number != number:
        return ["0"]
    if abs(number) == float("inf"):
        number = 2**99 if number > 0 else -(2**99)
    # `round` of a fraction takes a half to the even number.
    return clipped(round(Fraction(number) * 2 ** (int(bits) - 1)), int(bits))


def row_change(value, old, new):
    scaled = Fraction(int(value) * 2 ** int(new), 2 ** int(old))
    return clipped(math.floor(scaled + Fraction(1, 2)), int(new))


def container(kind, value, bits, width):
    """The bytes of a sample."""
    pairs = {"f": PAIRS[4:], "own": PAIRS[1:2]}.get(kind, PAIRS)
    if (bits, width) not in pairs:
        raise Rejected("Unsupported")
    if kind == "f":
        return value.to_bytes(4, "little")
    half = 1 << ((12 if kind == "own" else bits) - 1)
    if not -half <= value < half:
        raise Rejected("TooWide")
    if bits == 8:
        return bytes([value + 128])
    return value.to_bytes(bits // 8, "little", signed=True) + bytes(width - bits // 8)


# For each type the pairs of bytes and bits that it reads.
READS = {
    "i8": ((1, 8),),
    "i16": ((1, 8), (2, 16)),
    "i32": ((1, 8), (2, 16), (3, 24), (4, 24), (4, 32)),
    "f": ((4, 32),),
    "own": ((2, 16),),
}


def look_at_type(kind, spec):
    """Rejects a type that can't have the samples of a spec."""
    if spec.is_float != (kind == "f"):
        raise Rejected("InvalidSampleFormat")
    if spec.width > READS[kind][-1][0]:
        raise Rejected("TooWide")
    if (spec.width, spec.bits) not in READS[kind]:
        raise Rejected("Unsupported")


def meaning(kind, data, bits):
    if kind == "f":
        return int.from_bytes(data, "little")
    if bits == 8:
        return data[0] - 128
    value = int.from_bytes(data[: bits // 8], "little")
    return signed(value, 12 if kind == "own" else bits)


class Spec(namedtuple("Spec", "channels rate bits width is_float")):
    """Channels, frames a second, bits and bytes of a sample, and whether it is a float."""

    def with_default_width(self):
        return self._replace(width=(self.bits + 7) // 8)

    def format(self):
        return "float" if self.is_float else "int"

    def words(self):
        return [str(self.channels), str(self.rate), str(self.bits), self.format()]

    def is_pair(self):
        return (self.bits, self.width) in (PAIRS[4:] if self.is_float else PAIRS)

    def is_writable(self):
        frame = self.channels * self.width
        is_sound = self.is_pair() and self.channels >= 1 and self.rate >= 1
        return is_sound and frame <= 65535 and frame * self.rate <= GREATEST

    def header(self, size, length):
        is_short = self.channels <= 2 and self.bits <= 16
        frame = self.channels * self.width
        fmt = struct.pack("<HIIH", self.channels, self.rate, frame * self.rate, frame)
        if is_short:
            fmt = struct.pack("<IH", 16, 1) + fmt + struct.pack("<H", self.bits)
        else:
            mask = (1 << min(self.channels, 18)) - 1
            fmt = struct.pack("<IH", 40, 0xFFFE) + fmt
            fmt += struct.pack("<HHHI", 8 * self.width, 22, self.bits, mask)
            fmt += FLOAT if self.is_float else PCM
        size, length = struct.pack("<I", size), struct.pack("<I", length)
        return b"RIFF" + size + b"WAVEfmt " + fmt + b"data" + length


def spec_of(word):
    match = re.fullmatch("([0-9]+),([0-9]+),(f?)([0-9]+)/([0-9]+)", word)
    return Spec(int(match[1]), int(match[2]), int(match[4]), int(match[5]), match[3] == "f")


# Readers of bytes. `take` gives so many bytes or fails, `took` counts those that came.


class Fed:
    """A reader of bytes, then of zeros, then of further bytes, and then as it is asked."""

    def __init__(self, data, options={}):
        # How the bytes are cut (`cut`) changes no answer.
        self.data, self.took, self.stumble = data, 0, None
        self.front = len(data) + number(options.get("zeros", "0"))
        self.more = bytes_of(options.get("more", ""))
        self.then, _, detail = options.get("then", "ends").partition(":")
        self.fault = f"IoError({detail})" if self.then == "fails" else ENDED
        self.byte = int(detail, 16) if self.then == "gives" else 0
        is_endless = self.then not in ("ends", "fails")
        self.length = None if is_endless else self.front + len(self.more)
        if "stumble" in options:
            at, _, kind = options["stumble"].partition(":")
            self.stumble = number(at), ENDED if kind == "none" else f"IoError({kind})"

    def skip(self, count):
        """Passes so many bytes, or those before an end or a fault."""
        end, stop, fault = self.took + count, self.length, self.fault
        if self.stumble and self.took <= self.stumble[0] < end:
            if stop is None or self.stumble[0] <= stop:
                stop, fault = self.stumble
                self.stumble = None
        if stop is not None and end > stop:
            self.took = max(self.took, stop)
            raise Rejected(fault)
        self.took = end

    def take(self, count):
        start = self.took
        self.skip(count)
        if self.took <= len(self.data):
            return self.data[start : self.took]
        return bytes(self.at(place) for place in range(start, self.took))

    def at(self, place):
        if place < len(self.data):
            return self.data[place]
        if place < self.front:
            return 0
        place -= self.front
        if self.then == "repeats":
            return self.more[place % len(self.more)]
        return self.more[place] if place < len(self.more) else self.byte

    def turn(self):
        """Where it is in what it gives again and again, if it is there."""
        if self.length is not None or self.took < self.front:
            return None
        if self.then == "repeats":
            return (self.took - self.front) % len(self.more)
        return 0 if self.took >= self.front + len(self.more) else None


class Tape:
    """Bytes in memory, and a place among them."""

    def __init__(self, data):
        self.bytes, self.place = bytearray(data), 0

    def go(self, to):
        self.place = to

    def shift(self, by):
        if not 0 <= self.place + by < 2**64:
            raise Rejected("IoError(InvalidInput)")
        self.place += by

    def get(self, count):
        found = bytes(self.bytes[self.place : self.place + count])
        self.place += len(found)
        return found

    def put(self, data):
        if self.place + len(data) >= 2**64:
            raise Rejected("IoError(OutOfMemory)")
        end = self.place + len(data)
        if len(self.bytes) < end:
            self.bytes.extend(bytes(end - len(self.bytes)))
        self.bytes[self.place : end] = data
        self.place = end
        return len(data)

    def flush(self):
        pass

    def ask(self, options):
        """A tape takes all bytes of a call and never fails."""

    def words(self):
        return ["tape", contents(self.bytes)]


class Journal(Tape):
    """A tape that keeps each byte that was put, numbers its calls, and fails at some of them."""

    def __init__(self, data, options={}):
        super().__init__(data)
        self.begun, self.past, self.flushed = bytes(data), [], 0
        self.calls, self.number, self.fails, self.most = [], 0, (1, 0), 2**64
        self.ask(options)

    def ask(self, options):
        self.most = number(options.get("most", str(self.most)))
        if "fail" in options:
            first, _, last = options["fail"].partition("..")
            self.fails = number(first), number(last)

    def call(self, name=None):
        if name:
            self.calls.append(name)
        self.number += 1
        if self.fails[0] <= self.number <= self.fails[1]:
            raise Rejected("IoError(Other)")

    def go(self, to):
        self.call(f"go{to}")
        super().go(to)

    def shift(self, by):
        self.call()
        super().shift(by)

    def get(self, count):
        self.call()
        return super().get(min(count, self.most))

    def put(self, data):
        self.call(f"put{len(data)}")
        data = data[: self.most]
        place = self.place
        super().put(data)
        self.past += [(place + at, byte) for at, byte in enumerate(data)]
        return len(data)

    def flush(self):
        self.call("flush")
        self.flushed = len(self.past)

    def after(self, count):
        """The bytes after the first so many that were put."""
        tape = Tape(self.begun)
        for place, byte in self.past[:count]:
            tape.place = place
            tape.put(bytes([byte]))
        return tape.bytes

    def counts(self):
        return ["taken", str(len(self.past)), "flushed", str(self.flushed)]

    def words(self):
        calls = self.calls if len(self.calls) <= 40 else []
        return ["calls", str(len(self.calls)), *calls, *self.counts(), contents(self.bytes)]


def put_all(medium, data):
    while data:
        data = data[medium.put(data) :]


class Source:
    """A medium as a reader of bytes."""

    def __init__(self, medium):
        self.medium, self.took = medium, 0

    def take(self, count):
        found = b""
        while len(found) < count:
            got = self.medium.get(count - len(found))
            if not got:
                raise Rejected(ENDED)
            found += got
            self.took += len(got)
        return found

    skip = take

    def turn(self):
        return None


# Files.


def front_of(source):
    """What the first twelve bytes say: the size, and the eight bytes before what it counts."""
    if source.take(4) != b"RIFF":
        raise ill_formed("no RIFF tag found")
    size = int.from_bytes(source.take(4), "little")
    if source.take(4) != b"WAVE":
        raise ill_formed("no WAVE tag found")
    return size + 8


def fmt_of(source, length):
    """The spec that a fmt chunk says."""
    if length < 16:
        raise ill_formed("invalid fmt chunk size")
    tag, channels, rate, speed, frame, bits = struct.unpack("<HHIIHH", source.take(16))
    if channels == 0:
        raise ill_formed("file contains zero channels")
    width = frame // channels
    if bits > 8 * width or 8 * width > 65535:
        raise ill_formed("sample bits exceeds size of sample")
    if speed != frame * rate:
        raise ill_formed("inconsistent fmt chunk")
    if bits % 8 != 0:
        raise ill_formed("bits per sample is not a multiple of 8")
    if bits == 0:
        raise ill_formed("bits per sample is 0")
    if tag not in (1, 3, 0xFFFE):
        raise Rejected("Unsupported")
    if not {1: length in (16, 18, 40), 3: length in (16, 18), 0xFFFE: length >= 40}[tag]:
        raise ill_formed("unexpected fmt chunk size")
    size = source.take(2) if length > 16 else b"\0\0"
    if tag == 1:
        if length > 16 and bits not in (8, 16, 24):
            raise ill_formed("bits per sample is not 8 or 16")
        source.skip(max(length - 18, 0))
        return Spec(channels, rate, bits, width, False)
    if tag == 3:
        if size != b"\0\0":
            raise ill_formed("unexpected WAVEFORMATEX size")
        if bits != 32:
            raise ill_formed("bits per sample is not 32")
        return Spec(channels, rate, bits, width, True)
    if size != b"\x16\0":
        raise ill_formed("unexpected WAVEFORMATEXTENSIBLE size")
    valid, _, subformat = struct.unpack("<HI16s", source.take(22))
    if subformat not in (PCM, FLOAT):
        raise Rejected("Unsupported")
    source.skip(length - 40 + length % 2)
    return Spec(channels, rate, valid or bits, width, subformat == FLOAT)


def head_of(source):
    """The spec and the data length; the source is then at the data."""
    front_of(source)
    start, spec, seen = source.took, None, {}
    while True:
        taken, turn = source.took - start, (source.turn(), spec)
        if turn[0] is not None and turn in seen:
            # The same bytes again and again: as many turns are passed as there is room for.
            source.skip((GREATEST - taken) // (taken - seen[turn]) * (taken - seen[turn]))
            taken = source.took - start
        seen[turn] = taken
        if taken + 8 > GREATEST:
            raise ill_formed("missing data chunk")
        tag, length = struct.unpack("<4sI", source.take(8))
        if tag == b"data":
            if spec is None:
                raise ill_formed("missing fmt chunk")
            return spec, length
        padded = length + length % 2
        if taken + 8 + padded > GREATEST:
            raise ill_formed("missing data chunk")
        if tag == b"fmt ":
            spec = fmt_of(source, length)
        else:
            source.skip(padded)


class Reader:
    """A file that is read."""

    def __init__(self, source):
        self.source = source
        self.spec, length = head_of(source)
        if length % self.spec.width != 0:
            raise Rejected(LENGTH_IS_TORN)
        self.len = length // self.spec.width
        if self.len % self.spec.channels != 0:
            raise Rejected(FRAME_IS_TORN)
        # The samples that were counted, and the bytes that they took.
        self.count, self.moved = 0, 0

    def left(self):
        return max(self.len - self.count, 0)

    def next(self, kind):
        """The next sample, or None after the last."""
        if not self.left():
            return None
        self.count += 1
        look_at_type(kind, self.spec)
        start = self.source.took
        try:
            return meaning(kind, self.source.take(self.spec.width), self.spec.bits)
        finally:
            self.moved += self.source.took - start

    def shown(self, kind):
        value = self.next(kind)
        return "None" if value is None else shown(kind, value)

    def sum(self, kind):
        """How many samples come up to the end or an error, their sum, and that error."""
        count, total = 0, 0
        try:
            while (value := self.next(kind)) is not None:
                count += 1
                total += count * value
        except Rejected as error:
            return count, signed(total, 64), [str(error)]
        return count, signed(total, 64), []

    def block(self, kind, samples):
        """Puts samples into the front of a list, up to its end, the last one or an error: how many, and
        that error."""
        for at in range(len(samples)):
            try:
                value = self.next(kind)
            except Rejected as error:
                return at, [str(error)]
            if value is None:
                return at, []
            samples[at] = value
        return len(samples), []

    def sum_by_blocks(self, kind, length):
        """As `sum`, by blocks of so many."""
        count, total = 0, 0
        while True:
            samples = [FILLER] * length
            came, error = self.block(kind, samples)
            total += sum((count + place) * value for place, value in enumerate(samples[:came], 1))
            count += came
            if error or came == 0:
                return count, signed(total, 64), error

    def seek(self, time):
        frames = time * self.spec.channels
        self.source.medium.shift(frames * self.spec.width - self.moved)
        self.count, self.moved = frames, frames * self.spec.width

    def words(self):
        frames = self.len // self.spec.channels
        return [*self.spec.words(), "len", str(self.len), "duration", str(frames)]


class Writer:
    """A file that is written. Up to 4096 bytes of accepted samples wait in a block."""

    def __init__(self, medium, spec, start, out):
        self.medium, self.spec, self.start, self.out = medium, spec, start, out
        self.block, self.is_elsewhere = b"", False
        # All that it accepted itself.
        self.accepted = b""

    @staticmethod
    def begin(medium, spec):
        if not spec.is_writable():
            raise Rejected("Unsupported")
        header = spec.header(0, 0)
        put_all(medium, header)
        return Writer(medium, spec, len(header), 0)

    @staticmethod
    def append(medium):
        source = Source(medium)
        spec, length = head_of(source)
        if length % spec.width != 0:
            raise Rejected(LENGTH_IS_TORN)
        if not spec.is_pair():
            raise Rejected("Unsupported")
        if length // spec.width % spec.channels != 0:
            raise Rejected(FRAME_IS_TORN)
        writer = Writer(medium, spec, source.took, length)
        writer.look_at_room(0)
        medium.go(source.took + length)
        return writer

    def length(self):
        return self.out + len(self.block)

    def len(self):
        return self.length() // self.spec.width

    def size(self, length):
        """The RIFF size with so many bytes of data; it counts their pad byte."""
        return self.start - 8 + length + length % 2

    def look_at_room(self, more):
        if self.size(self.length() + more) > GREATEST:
            raise Rejected("TooLong")

    def is_sixteen(self):
        return self.spec.bits == 16 and not self.spec.is_float

    def put(self, *pieces):
        """Puts bytes at the end of the accepted ones that are out."""
        if self.is_elsewhere:
            self.medium.go(self.start + self.out)
        self.is_elsewhere = True
        for piece in pieces:
            put_all(self.medium, piece)
        self.is_elsewhere = False

    def put_block(self):
        if self.block:
            self.put(self.block)
            self.out, self.block = self.length(), b""

    def write(self, kind, value):
        data = container(kind, value, self.spec.bits, self.spec.width)
        self.look_at_room(len(data))
        if len(self.block) + len(data) > 4096:
            self.put_block()
        self.block += data
        self.accepted += data

    def accept(self, data):
        """Accepts samples, or none where they are too many or don't go out. Those that a block has no
        room for go out in pieces, each as many samples as a block holds."""
        self.look_at_room(len(data))
        if len(self.block) + len(data) > 4096:
            self.put_block()
        if len(data) <= 4096:
            self.block += data
        else:
            piece = 4096 // self.spec.width * self.spec.width
            self.put(*(data[at : at + piece] for at in range(0, len(data), piece)))
            self.out += len(data)
        self.accepted += data

    def batch(self, values):
        # Of a batch that is too long no bytes are made.
        self.look_at_room(2 * len(values))
        data = b"".join(struct.pack("<H", value % 65536) for value in values)
        self.accept(data)

    def write_many(self, kind, values):
        bits, width = self.spec.bits, self.spec.width
        data = b"".join(container(kind, value, bits, width) for value in values)
        self.accept(data)

    def publish(self):
        self.put_block()
        if self.out % 2 == 1:
            self.put(b"\0")
        self.is_elsewhere = True
        for place, size in ((4, self.size(self.out)), (self.start - 4, self.out)):
            self.medium.go(place)
            put_all(self.medium, struct.pack("<I", size))
        self.medium.flush()

    def look_at_frames(self):
        if self.len() % self.spec.channels != 0:
            raise Rejected("UnfinishedSample")

    def flush(self):
        self.publish()
        self.medium.go(self.start + self.out)
        self.is_elsewhere = False
        self.look_at_frames()

    def finalize(self):
        self.publish()
        self.look_at_frames()

    def drop(self):
        answer_of(self.publish)


# Rows, in the order of the language: each is answered by a list of words.


def row_let(name, word):
    NAMED[name] = bytes_of(word)
    return [f"{len(NAMED[name])} bytes"]


def le_of(value, bits):
    return (value % (1 << bits)).to_bytes(bits // 8, "little").hex()


def number_at(data, at, count):
    return int.from_bytes(data[at : at + count], "little")


def row_fill(word, *options):
    fed = Fed(bytes_of(word), options_of(options))
    try:
        answer = ["ok", fed.take(4).hex()]
    except Rejected:
        answer = ["failed" if fed.then == "fails" else "ended"]
    return [*answer, "left", str(len(fed.data) - fed.took)]


class Sink:
    """What bytes are written to: it takes some a call, up to so many."""

    def __init__(self, options):
        options = options_of(options)
        self.takes, self.room = number(options.get("takes", "max")), number(options.get("room", "max"))
        self.fault, self.bytes = f"IoError({options.get('fault', 'WriteZero')})", b""

    def put(self, data):
        if len(self.bytes) >= self.room:
            raise Rejected(self.fault)
        self.bytes += data[: self.takes]
        return min(self.takes, len(data))


def row_write_bytes(word, *options):
    sink = Sink(options)
    return [answer_of(lambda: put_all(sink, bytes_of(word))), contents(sink.bytes)]


def sample_of(kind, word, bits, width):
    return container(kind, value_of(kind, word), int(bits), int(width))


def row_write_padded(*words):
    sink = Sink(words[4:])
    return [answer_of(lambda: put_all(sink, sample_of(*words[:4]))), contents(sink.bytes)]


def row_decode(kind, form, width, bits, word):
    spec, fed = Spec(1, 1, int(bits), int(width), form == "float"), Fed(bytes_of(word))

    def decoded():
        look_at_type(kind, spec)
        return shown(kind, meaning(kind, fed.take(spec.width), spec.bits))

    return [answer_of(decoded), "left", str(len(fed.data) - fed.took)]


def header(spec, size, length):
    return spec.header(int(size), int(length)).hex() if spec.is_writable() else None


def infinite(spec):
    return header(spec, GREATEST, GREATEST) or "Unsupported"


def asked(reader, ask):
    """The words of what a reader is asked."""
    if ask.startswith("block:"):
        return blocks_asked(reader, *ask[6:].split("="))
    if ask.startswith("hint="):
        return ["{0}..{0}/{0}".format(reader.left())]
    if ask.startswith("seek="):
        return [answer_of(lambda: reader.seek(int(ask[5:])))]
    if ask.endswith("#"):
        count, total, error = reader.sum(ask[:-1])
        return [":".join([f"#{count}", str(total), *error])]
    kind, star, count = ask.removeprefix("into:").partition("*")
    count = int(count) if count else reader.left() + 1 if star else 1
    return [answer_of(lambda: reader.shown(kind)) for _ in range(count)]


def weighted(values):
    """A sum in which each value counts by its place."""
    return signed(sum(place * value for place, value in enumerate(values, 1)), 64)


def blocks_asked(reader, kind, extent):
    """The words of blocks that a reader is asked for."""
    if extent.endswith("#"):
        count, total, error = reader.sum_by_blocks(kind, int(extent[:-1]))
        return [":".join([f"#{count}", str(total), *error])]
    length, _, times = extent.partition("*")
    words = []
    for _ in range(int(times or 1)):
        samples = [FILLER] * int(length)
        count, error = reader.block(kind, samples)
        listed = ",".join(shown(kind, sample) for sample in samples) or "-"
        held = listed if len(samples) <= 8 else f"#{weighted(samples)}"
        words.append(":".join([str(count), *error, held, str(reader.left())]))
    return words


def row_read(*words):
    (word, *options), asks = parts_of(words)
    options, data = options_of(options), bytes_of(word)
    if "calls" not in options:
        return read(data, options, asks)

    def run(faults):
        words = read(data, faults, asks)
        return words, len(words) > 1

    return swept(options, run)


def swept(options, run):
    """What a row comes to while each range of so many calls fails in turn."""
    calls, runs, begun, crc = int(options["calls"]), 0, 0, 0
    for first in range(1, calls + 1):
        for last in range(first, calls + 1):
            words, has_begun = run({"moments": "", **options, "fail": f"{first}..{last}"})
            runs += 1
            begun += has_begun
            crc = zlib.crc32(" ".join(words).encode() + b"\n", crc)
    return ["runs", str(runs), "begun", str(begun), "crc", f"{crc:08x}"]


def read(data, options, asks):
    """The words of a reader of these bytes and of what is requested of it, or of its error alone."""
    is_medium = "over" in options
    medium = Journal(data, options) if options.get("over") == "journal" else Tape(data)
    source = Source(medium) if is_medium else Fed(data, options)
    try:
        reader = Reader(source)
    except Rejected as error:
        return [str(error)] if is_medium else [str(error), ":", "took", str(source.took)]
    items = [item for ask in asks for item in asked(reader, ask)]
    medium.ask({"fail": "1..0", "most": "max"})
    end = ["left", str(len(medium.get(len(data))))] if is_medium else ["took", str(source.took)]
    return [*reader.words(), ":", *items, ":", *end]


def row_riff(word, *options):
    fed = Fed(bytes_of(word), options_of(options))
    return [answer_of(lambda: front_of(fed)), "took", str(fed.took)]


def called(medium, word):
    """What a call of a medium answers; no word for what isn't one."""
    name, _, value = word.partition("=")
    if name == "put":
        return f"put:{medium.put(bytes_of(value))}"
    if name in ("get", "read"):
        return f"got:{medium.get(number(value)).hex() or '-'}"
    if name == "after":
        return contents(medium.after(int(value))) if int(value) <= len(medium.past) else "past"
    if name == "counts":
        return f"{len(medium.past)}/{medium.flushed}"
    if name in ("fail", "most", "lent"):
        return medium.ask({name: value}) or ""
    return getattr(medium, name)(*[number(value)] if value else [])


def row_medium(medium, *calls):
    answers = [answer_of(lambda: called(medium, call)) for call in calls]
    counts = medium.counts() if isinstance(medium, Journal) else []
    return [*filter(None, answers), ":", contents(medium.bytes), *counts]


def values_of(kind, word):
    """The values of `VALUE`, `VALUE*N`, `VALUE+N` or `VALUE,VALUE`, of which a long run isn't made."""
    match = re.fullmatch(r"(.+)([*+])([0-9]+)", word)
    if not match:
        return [value_of(kind, each) for each in word.split(",")]
    first, count = value_of(kind, match[1]), int(match[3])
    # Those past the greatest one begin again at the least one, where they are written.
    return [first] * count if match[2] == "*" else range(first, first + count)


def medium_of(options):
    data = bytes_of(options.get("over", ""))
    return Tape(data) if "tape" in options else Journal(data, options)


def wrapped(kind, word):
    """The values of a word, those past the greatest of the type from its least one on."""
    for value in values_of(kind, word):
        yield value if kind == "f" else signed(value, BITS_OF[kind])


def act(writer, word):
    """Does what a word asks of a writer."""
    kind, _, value = word.partition("=")
    if kind in ("batch", "dropped", "begin"):
        if not writer.is_sixteen():
            raise Rejected("Unsupported")
        if kind == "batch":
            writer.batch(values_of("i16", value))
        else:
            writer.look_at_room(2 * int(value.rpartition("/")[2]))
    elif word == "flush":
        writer.flush()
    elif kind.startswith("block:"):
        kind, words = kind[6:], value.split(",") if value != "-" else []
        writer.write_many(kind, [sample for word in words for sample in wrapped(kind, word)])
    else:
        for sample in wrapped(kind, value):
            writer.write(kind, sample)


def row_write(how, word, *words):
    if how in READS:
        bits, *options = words
        return row_write_padded(how, word, bits, int(bits) // 8, *options)
    options, acts, (end,) = parts_of(words)
    options = options_of(options)
    first = 0 if "append" in how else first_moment(spec_of(word))
    if "calls" not in options:
        return write(how, word, options, acts, end, first)[0]

    def run(faults):
        words, medium, accepted = write(how, word, {**faults, "lent": ""}, acts, end, first)
        if "append" not in how:
            is_canonical = accepted is not None and end == "finalize" and "ok" in words
            look_at_promises(medium, spec_of(word), accepted or b"", is_canonical)
        return words, len(medium.past) >= first

    return swept(options, run)


def first_moment(spec):
    """After how many bytes a new file has its whole header."""
    return len(spec.header(0, 0)) if spec.is_writable() else 44


def write(how, word, options, acts, end, first):
    """The words of a writer, its medium, and what was accepted, if there was a writer."""
    medium = medium_of(options)
    moments = lambda: [":", *moments_of(medium, first, options["moments"])] if "moments" in options else []
    try:
        if "append" in how:
            writer = Writer.append(medium)
        else:
            spec = spec_of(word)
            writer = Writer.begin(medium, spec.with_default_width() if how == "new" else spec)
    except Rejected as error:
        is_in_reach = "try" in how or "lent" in options
        seen = [":", *medium.words(), *moments()] if is_in_reach else []
        return [str(error), *seen], medium, None
    answers = [f"{answer_of(lambda: act(writer, word))}:{writer.len()}" for word in acts]
    spec = [*writer.spec.words(), "duration", str(writer.len() // writer.spec.channels)]
    ended = answer_of(writer.finalize) if end == "finalize" else writer.drop() or "dropped"
    words = [*answers, ":", *spec, ":", ended, ":", *medium.words(), *moments()]
    return words, medium, writer.accepted


def steps_of(words):
    """The steps of a session, each as the word of an act."""
    for word in words:
        if re.match("-?[0-9]", word):
            yield from (f"i32={signed(value, 32)}" for value in values_of("i32", word))
        else:
            yield word


def run_session(medium, word, steps, end):
    """The marks of the steps, and what the session answers."""
    marks = [False] * len(steps)
    try:
        writer = Writer.append(medium) if word == "append" else Writer.begin(medium, spec_of(word))
    except Rejected as error:
        return marks, str(error)
    for at, step in enumerate(steps):
        marks[at] = answer_of(lambda: act(writer, step)) in ("ok", "UnfinishedSample")
    return marks, answer_of(writer.finalize) if end == ["finalize"] else writer.drop() or "ok"


READINGS = {}


def reading_of(data):
    """What a file in memory gives, and how many of its bytes that depends on."""
    if data not in READINGS:
        fed = Fed(data)
        try:
            reader, field = Reader(fed), data[fed.took - 4 : fed.took]
            count, total, error = reader.sum("f" if reader.spec.is_float else "i32")
            words = [str(count), str(total), *error]
        except Rejected as error:
            words, field = [str(error)], data[fed.took - 4 : fed.took]
        if len(words) > 1 or words[0] in (LENGTH_IS_TORN, FRAME_IS_TORN):
            words.insert(0, str(int.from_bytes(field, "little")))
        # Where it ends early, each byte that is put later may be read.
        READINGS[data] = "/".join(words), 2**64 if ENDED in words else fed.took
    return READINGS[data]


def moments_of(journal, first, how):
    """What the file is after each byte that was put, as it is or once it is repaired, where it isn't
    what it was before."""
    tape, answers, before = Tape(journal.begun), [], (None, 0)
    for count in range(len(journal.past) + 1):
        if count > 0:
            tape.place, byte = journal.past[count - 1]
            is_read = tape.place < before[1]
            tape.put(bytes([byte]))
        if count < first or (before[0] and not is_read):
            continue
        if how == "repaired":
            now = reading_of(repaired(bytes(tape.bytes)))[0], 2**64
        else:
            now = reading_of(bytes(tape.bytes))
        if now[0] != before[0]:
            answers.append(f"{count}={now[0]}")
        before = now
    return answers


def session(word, options, steps, end):
    """The words of a session, and its medium."""
    medium = medium_of(options)
    marks, answer = run_session(medium, word, steps, end)
    unmarked = [str(at) for at, mark in enumerate(marks) if not mark]
    listed = ["not", *unmarked[:20], *([".."] if len(unmarked) > 20 else [])] if unmarked else []
    words = ["marks", str(len(marks)), *listed, ":", answer, ":", *medium.words()]
    if "moments" in options:
        first = 0 if word == "append" else len(spec_of(word).header(0, 0))
        words += [":", *moments_of(medium, first, options["moments"])]
    return words, medium, marks, answer


def row_session(word, *words):
    options, steps, end = parts_of(words)
    return session(word, options_of(options), list(steps_of(steps)), end)[0]


def accepted_by(spec, steps, marks):
    """The containers of the steps that are marked, one after the other."""
    found = b""
    for step, mark in zip(steps, marks):
        kind, _, values = step.partition("=")
        if mark and kind != "flush":
            kind = "i16" if kind == "batch" else kind
            found += b"".join(container(kind, value, spec.bits, spec.width) for value in values_of(kind, values))
    return found


def look_at_promises(journal, spec, data, is_canonical):
    """Stops where a run over an empty journal, of fewer than 256 bytes of samples, breaks a promise:
    from the header's end on the length counts accepted bytes that are there, after each byte that
    is put, and no fewer than before; an Ok of `finalize` leaves the canonical file."""
    start, before = len(spec.header(0, 0)), 0
    tape = Tape(b"")
    for count, (tape.place, byte) in enumerate(journal.past, 1):
        tape.put(bytes([byte]))
        if count >= start:
            length = int.from_bytes(tape.bytes[start - 4 : start], "little")
            assert before <= length <= len(data) < 256
            assert tape.bytes[start : start + length] == data[:length]
            before = length
    if is_canonical:
        pad = bytes(len(data) % 2)
        size = start - 8 + len(data) + len(pad)
        assert tape.bytes == spec.header(size, len(data)) + data + pad


def row_sweep(word, *words):
    options, steps, end = parts_of(words)
    spec, steps = spec_of(word), list(steps_of(steps))

    def run(faults):
        words, medium, marks, answer = session(word, faults, steps, end)
        is_canonical = answer == "ok" and end == ["finalize"]
        look_at_promises(medium, spec, accepted_by(spec, steps, marks), is_canonical)
        return words, len(medium.past) >= len(spec.header(0, 0))

    return swept(options_of(options), run)


class Damage:
    """What a repair finds of a file: the frames that it holds, whatever its sizes say."""

    def __init__(self, data, looks):
        source = Source(Tape(data))
        self.spec, length = head_of(source)
        if not self.spec.is_pair():
            raise Rejected("Unsupported")
        self.start, frame = source.took, self.spec.channels * self.spec.width
        self.held = len(data) - self.start
        # Whole frames of an odd length, as the length says, have a pad byte, which is 0.
        has_pad = length % 2 == 1 and length % frame == 0 and self.held == length + 1 and data[-1] == 0
        self.frames, self.left = divmod(length if has_pad else self.held, frame)
        self.length = self.frames * frame
        self.size = self.start - 8 + self.length + self.length % 2
        if self.size > GREATEST:
            raise Rejected("TooLong")
        lacks_pad = self.held == self.length and self.length % 2 == 1
        if looks and is_followed(data[self.start :], length):
            self.was = "followed"
            self.frames, self.left = divmod(length, frame)
        elif (length, int.from_bytes(data[4:8], "little")) == (self.length, self.size) and not lacks_pad:
            self.was = "whole"
        else:
            self.was = "all_counted" if length == self.length else "cut_off"
        self.is_mended = self.was == "cut_off" or self.was == "all_counted" and not looks

    def words(self):
        spec = [*self.spec.words(), str(self.spec.width)]
        return [self.was, "frames", str(self.frames), "left", str(self.left), ":", *spec]

    def mend(self, data):
        if not self.is_mended:
            return data
        size, length = struct.pack("<I", self.size), struct.pack("<I", self.length)
        pad = bytes(self.length % 2 if self.held == self.length else 0)
        return data[:4] + size + data[8 : self.start - 4] + length + data[self.start :] + pad


def is_followed(data, length):
    """Whether a chunk begins after the data, with or without a pad byte, or an ID3v1 tag is at the
    end."""
    if len(data) - length >= 128 and data[-128:-125] == b"TAG":
        return True
    return begins_chunk(data[length:]) or begins_chunk(data[length + length % 2 :])


def begins_chunk(data):
    """Whether chunks with printable tags, and at least one, reach to the end or to a known tag."""
    is_first = True
    while data:
        if data[:4] in KNOWN_TAGS:
            return True
        length = int.from_bytes(data[4:8], "little")
        if len(data) < 8 + length or not all(32 <= byte < 127 for byte in data[:4]):
            return False
        data = data[8 + length + length % 2 :]
        is_first = False
    return not is_first


def repaired(data):
    try:
        return Damage(data, False).mend(data)
    except Rejected:
        return data


def row_repair(how, word, *options):
    def run(data):
        try:
            found = Damage(data, how != "to_end")
        except Rejected as error:
            return [str(error), ":", contents(data)], False
        return [*found.words(), ":", contents(data if how == "look" else found.mend(data))], True

    data, begun, crc = bytes_of(word), 0, 0
    if "cuts" not in options:
        return run(data)[0]
    for length in range(len(data) + 1):
        words, is_found = run(data[:length])
        begun += is_found
        crc = zlib.crc32(" ".join(words).encode() + b"\n", crc)
    return ["runs", str(len(data) + 1), "begun", str(begun), "crc", f"{crc:08x}"]


def run_sessions(medium, spec, sessions):
    for at, steps in enumerate(sessions):
        if at > 0:
            medium.go(0)
        writer = Writer.append(medium) if at > 0 else Writer.begin(medium, spec)
        try:
            for step in steps:
                act(writer, step)
        except Rejected:
            writer.drop()
            raise
        writer.finalize()


def row_sessions(word, *words):
    options, said = parts_of(words)
    medium, sessions = medium_of(options_of(options)), [[]] if said else []
    for step in said:
        if step == "|":
            sessions.append([])
        else:
            sessions[-1] += steps_of([step])
    answer = answer_of(lambda: run_sessions(medium, spec_of(word), sessions))
    return [answer, ":", *medium.words()]


# The program.


def numbers_of(fed):
    """The numbers of a text; a fault comes where its bytes end."""
    is_cut = fed.then != "ends"
    # Of a text without an end so much is looked at that a fault of its numbers is seen.
    text = fed.take(fed.front + 64 if fed.length is None else fed.length).decode("latin-1")
    *words, last = re.split("[ \t\r\n]+", text)
    for word in words if is_cut and re.fullmatch("-?0*[0-9]{0,9}", last) else [*words, last]:
        if word and not (re.fullmatch("-?[0-9]+", word) and -(2**31) <= int(word) < 2**31):
            raise Rejected("bad number")
    if is_cut:
        raise Rejected("IoError(Other)")
    return [int(word) for word in [*words, last] if word]


def pack(fields, fed):
    medium = Tape(b"")
    steps = [f"i32={value}" for value in numbers_of(fed)]
    run_sessions(medium, Spec(*fields, 0, False).with_default_width(), [steps])
    yield bytes(medium.bytes)


def show(fed):
    """The lines, up to the first error."""
    reader = Reader(fed)
    channels, rate, bits, form = reader.spec.words()
    yield f"channels {channels} rate {rate} bits {bits} format {form} samples {reader.len}\n".encode()
    kind = "f" if reader.spec.is_float else "i32"
    while (value := reader.next(kind)) is not None:
        yield shown(kind, value).encode() + b"\n"


def line_of(error):
    """The line that the program has for an error."""
    if error.startswith("FormatError"):
        return "Ill-formed WAVE file: " + error[12:-1]
    return "input or output failed" if error.startswith("IoError") else TEXTS.get(error, error)


def row_tool(*words):
    words, (word, *options) = parts_of(words)
    options = options_of(options)
    fed, room = Fed(bytes_of(word), options), number(options.get("room", "max"))
    name, fields = (words + [""])[0], [word for word in words[1:] if re.fullmatch("[0-9]+", word)]
    fields = [int(word) for word, most in zip(fields, (65535, GREATEST, 65535)) if int(word) <= most]
    if words != ["show"] and not (name == "pack" and len(words) == 4 and len(fields) == 3):
        return ["2", ":", "''", ":", text_of(USAGE)]
    output, line = b"", b""
    try:
        for piece in pack(fields, fed) if name == "pack" else show(fed):
            output += piece
            if len(output) > room:
                raise Rejected("IoError(Other)")
    except Rejected as error:
        line = line_of(str(error)).encode() + b"\n"
    return [str(int(line != b"")), ":", text_of(output[:room]), ":", text_of(line)]


ROWS = {
    "let": row_let,
    "le": lambda kind, word: [le_of(number(word), int(kind[1:]))],
    "from": lambda kind, word: [str(int.from_bytes(bytes_of(word), "little", signed=True))],
    "at": lambda kind, word, at: [str(number_at(bytes_of(word), int(at), int(kind[1:]) // 8))],
    "signed": lambda word: [str(int(word) - 128)],
    "unsigned": lambda word: [str(int(word) + 128)],
    "fill": row_fill,
    "write_bytes": row_write_bytes,
    "encode": lambda *words: [sample_of(*words).ljust(4, b"\0").hex()],
    "write": row_write,
    "write_padded": row_write_padded,
    "decode": row_decode,
    "short": lambda kind, word: ["0" if kind == "f" else str(signed(int(word), 16))],
    "to_float": row_to_float,
    "to_int": row_to_int,
    "change": row_change,
    "writable": lambda word: ["yes" if spec_of(word).is_writable() else "no"],
    "header": lambda word, *sizes: [header(spec_of(word), *sizes) or "no"],
    "infinite": lambda word: [infinite(spec_of(word).with_default_width())],
    "width": lambda word: [str((int(word) + 7) // 8)],
    "text": lambda name: [TEXTS[name]],
    "read": row_read,
    "riff": row_riff,
    "tape": lambda word, *calls: row_medium(Tape(bytes_of(word)), *calls),
    "journal": lambda word, *calls: row_medium(Journal(bytes_of(word)), *calls),
    "session": row_session,
    "sweep": row_sweep,
    "sessions": row_sessions,
    "repair": row_repair,
    "tool": row_tool,
}


def answer(line):
    if not line or line.startswith("#"):
        return line
    name, *words = line.split(" ")
    try:
        return " ".join(ROWS[name](*words))
    except Rejected as error:
        return str(error)


def main():
    for line in sys.stdin:
        print(answer(line.rstrip("\n")))


if __name__ == "__main__":
    main()
