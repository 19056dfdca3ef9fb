"""The bytes of WAV files that tests read, or compare with: by hand, as the format says, or by the module `wave` of
Python."""
import io
import struct
import wave

CHUNK = b"LIST" + struct.pack("<I", 4) + b"INFO"


def fmt(channels=1, width=2, *, bits=None, tag=1, rate=8000, extra=b""):
    """A fmt chunk, which goes on after the 16 bytes that PCM needs with those of another tag."""
    frame = channels * width
    bits = 8 * width if bits is None else bits
    return struct.pack("<4sIHHIIHH", b"fmt ", 16 + len(extra), tag, channels, rate, rate * frame, frame, bits) + extra


def with_riff(content, size):
    """The same bytes with this RIFF size."""
    return content[:4] + struct.pack("<I", size) + content[8:]


def _start(counted, before=b"", between=b"", **form):
    """The bytes before data that are counted so, with a RIFF size of 0. Before and after the fmt chunk there may be
    others; `form` is that of `fmt`."""
    return b"RIFF\0\0\0\0WAVE" + before + fmt(**form) + between + b"data" + struct.pack("<I", counted)


def head(length, **more):
    """The bytes before data of this length, with which the file ends; `more` is for `_start`."""
    start = _start(length, **more)
    return with_riff(start, len(start) - 8 + length)


def by_hand(data, counted=None, after=b"", riff=None, channels=1, width=2, **more):
    """The bytes of a file with these data, whose header may count others; `more` is for `_start`."""
    counted = len(data) if counted is None else counted
    content = _start(counted, channels=channels, width=width, **more) + data + after
    return with_riff(content, len(content) - 8 if riff is None else riff)


def with_chunk(content, chunk):
    """A file with a chunk before its fmt chunk."""
    return with_riff(content[:12] + chunk + content[12:], len(content) + len(chunk) - 8)


def _by_wave(data, channels, width):
    file = io.BytesIO()
    with wave.open(file, "wb") as other:
        other.setparams((channels, width, 8000, 0, "NONE", ""))
        other.writeframes(data)
    return file.getvalue()


def made_by_wave(samples, channels=2):
    """The bytes of a file of an array of 16 bits, by `wave`."""
    return _by_wave(samples.tobytes(), channels, 2)


def wave_of(bits, values, channels=1):
    """The bytes of a file of these integers, by `wave`."""
    width = bits // 8
    stored = [value + 128 if width == 1 else value % (1 << bits) for value in values]
    return _by_wave(b"".join(value.to_bytes(width, "little") for value in stored), channels, width)
