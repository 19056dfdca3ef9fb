"""`hound-wav record`: standard input, as raw samples or as a WAV stream, becomes a recording."""
import argparse
import array
import math
import os
import select
import signal
import sys
import time
import types
from typing import Any, Callable, List, Optional

import hound_bindings as hound

from . import conversion, lost, parts, repairs
from ._library import FIND_DAMAGE, described
from .terminal import Line, Peaks, Wrong, clock, complain, note, sentence_of

__all__ = ["EXAMPLES", "record"]

# What pipes a microphone into the command.
_MICROPHONE = (
    "arecord -t raw -f S16_LE -r 48000 -c 2 | hound-wav record take.wav --rate 48000 --channels 2 --bits 16"
)
EXAMPLES = f"""To record a microphone by ALSA, FFmpeg or SoX:
  {_MICROPHONE}
  ffmpeg -v error -f alsa -i default -f wav - | hound-wav record take.wav
  rec -q -t wav - | hound-wav record take.wav"""
# How many bytes are read at once.
_BLOCK = 1 << 16


class _Stop:
    """Whether SIGINT, SIGTERM or SIGHUP came, which ends a recording well. After the first one they end the program
    again. SIGHUP stays ignored where nohup lets it be."""

    def __init__(self) -> None:
        self.came = False
        numbers = [signal.SIGINT, signal.SIGTERM]
        if hasattr(signal, "SIGHUP") and signal.getsignal(signal.SIGHUP) != signal.SIG_IGN:
            numbers.append(signal.SIGHUP)
        self._before = {number: signal.signal(number, self._note) for number in numbers}

    def _note(self, *_: Any) -> None:
        self.came = True
        self.restore()

    def restore(self) -> None:
        for number, handler in self._before.items():
            signal.signal(number, handler)


# What a WAV stream begins with. Only the first of these is read: of the others the error says what they are.
_STREAMS = b"RIFF", b"RIFX", b"RF64", b"BW64"


def _may_be_wav(front: bytes) -> bool:
    return any((tag + front[4:8].ljust(4) + b"WAVE").startswith(front[:12]) for tag in _STREAMS)


class _Input:
    """Standard input, which is looked at before it is recorded. It ends where a signal comes, too."""

    name = "<stdin>"
    is_longer = False  # More came than the header of a stream counts.

    def __init__(self, stop: _Stop) -> None:
        self._stop, self._held, self._left, self._is_odd = stop, b"", math.inf, False

    def next(self, count: int, seconds: float) -> Optional[bytes]:
        """The next bytes, at most so many; none at the end, and None where no more came within this time."""
        if self._left == 0 and self._ends():
            return b""
        if not self._held:
            if not self._has_more(seconds):
                return b"" if self._stop.came else None
            self._held = os.read(sys.stdin.fileno(), _BLOCK)
        count = int(min(count, self._left))
        piece, self._held = self._held[:count], self._held[count:]
        self._left -= len(piece)
        return piece

    def read(self, count: int) -> bytes:
        """The same, as soon as there are some."""
        while (piece := self.next(count, 1)) is None:
            pass
        return piece

    def _has_more(self, seconds: float) -> bool:
        """Whether there are bytes, or none will come, within this time, or half a second: so often a signal is looked
        for. Windows can't say so of a pipe."""
        if self._stop.came:
            return False
        return os.name == "nt" or bool(select.select([sys.stdin.buffer], [], [], min(max(seconds, 0), 0.5))[0])

    def front(self, is_enough: Callable[[bytes], bool]) -> bytes:
        """The next bytes, as many as are enough, or all: they stay to be read."""
        front = b""
        while not is_enough(front) and (piece := self.read(_BLOCK)):
            front += piece
        self._held = front + self._held
        return front

    def wav_form(self) -> Optional[hound.Info]:
        """What the header of a WAV stream says, after which its samples are read; None where it isn't one."""
        front = self.front(lambda front: len(front) >= 12 or not _may_be_wav(front))
        if len(front) < 12 or not _may_be_wav(front):
            return None
        try:
            return self._form_after(False)
        except hound.HoundError as error:
            if error.cause not in (hound.Cause.DATA_LENGTH, hound.Cause.FRAME_LENGTH):
                raise
        return self._form_after(True)

    def _form_after(self, to_end: bool) -> hound.Info:
        """What the header says, with which the input begins. At an error it begins with it again."""
        taken: List[bytes] = []

        def take(count: int) -> bytes:
            taken.append(self.read(count))
            return taken[-1]

        source: Any = types.SimpleNamespace(read=take, name=self.name)
        try:
            info = hound.open(source, to_end=to_end).info
        except hound.HoundError:
            self._held = b"".join(taken) + self._held
            raise
        size = info.channels * info.bytes_per_sample
        self._left, self._is_odd = info.frames * size or math.inf, bool(info.frames * size % 2)
        return info

    def _ends(self) -> bool:
        """Whether the input ends after the samples that its header counts, or chunks follow. A program that doesn't
        know how much it will write may count less than all: then the rest is sound, too."""
        self._left = math.inf
        tag = self.front(lambda front: len(front) >= 4 + self._is_odd)[self._is_odd :][:4]
        if tag and tag not in lost._NAMES:
            self.is_longer = True
            return False
        while self.read(_BLOCK):
            pass
        self._left = 0
        return True


class _Meter(Line):
    """How long a recording is, how loud each channel was since it was shown last, and what its header counts."""

    def __init__(self, writer: hound.Writer) -> None:
        super().__init__(0)
        self._writer, self._counted, self._peaks = writer, writer.tell(), Peaks(writer.info)

    def hear(self, samples: "array.array[Any]") -> None:
        if self.is_shown:
            self._peaks.hear(samples)

    def count(self) -> None:
        """Notes a checkpoint."""
        self._counted = self._writer.tell()

    def show(self) -> None:
        if self.is_due():
            rate, name = self._writer.info.sample_rate, os.path.basename(os.fspath(self._writer.paths[-1]))
            peaks = " ".join(self._peaks.taken())
            times = [clock(frames / rate) for frames in (self._writer.tell(), self._counted)]
            size = self._writer._end() / (1 << 20)
            self.write(f"{times[0]}  {peaks} dB  checkpoint at {times[1]}  {name}: {size:.1f} MiB")


def _recorded(writer: hound.Writer, source: _Input, form: hound.Info, every: float) -> int:
    """Records an input to its end, with a checkpoint in each interval: how many bytes of a frame were left."""
    held, last, counted = b"", time.monotonic(), writer.tell()
    channels, spec = form.channels, conversion.spec_like(form)
    size = channels * spec.bytes_per_sample
    with _Meter(writer) as meter:
        while True:
            if time.monotonic() - last >= every:
                if counted != writer.tell():
                    writer.flush()
                    meter.count()
                last, counted = time.monotonic(), writer.tell()
            meter.show()
            # With --split a file has exactly so many frames, however the samples come.
            room = (writer.frames_left or _BLOCK) * size - len(held)
            piece = source.next(min(_BLOCK, room), last + every - time.monotonic())
            if piece is None:
                continue
            if not piece:
                return len(held)
            held += piece
            count = len(held) // size
            samples = conversion.decoded(held, count * channels, spec)
            writer.write(samples)
            meter.hear(samples)
            held = held[count * size :]


def _exists(name: str) -> ValueError:
    return ValueError(f"{name} exists: --append continues it, --overwrite empties it")


def _check_options_of_record(options: argparse.Namespace) -> bool:
    """Whether the options say what the samples are; an error where they contradict one another."""
    given = options.rate, options.channels, options.bits
    if options.append and options.overwrite:
        raise Wrong("a file is continued, or emptied: --append, or --overwrite")
    if (any(given) or options.float) and not all(given) and (options.append or options.raw):
        raise Wrong("--rate, --channels and --bits are given together, or none of them")
    if sys.stdin.isatty() and not all(given) and not options.append:
        raise Wrong(f"no input is piped in. To record a microphone: {_MICROPHONE}")
    return all(given)


def _check_target(options: argparse.Namespace) -> None:
    """An error where nothing can be recorded to the target, before anything is waited for."""
    if not os.path.lexists(options.target):
        parts.check_folder(options.target)
    elif not options.append and not options.overwrite:
        raise _exists(options.target)
    if options.split and not options.append:
        parts.check_next(options.target)


def _form_to_record(options: argparse.Namespace, source: _Input) -> hound.Info:
    """What the samples of the input are: by the header of a WAV stream, by the options, or by the file that is
    continued."""
    is_given = _check_options_of_record(options)
    _check_target(options)
    if sys.stdin.isatty():
        complain(f"samples are read from this terminal. To record a microphone: {_MICROPHONE}")
    form = None if options.raw else source.wav_form()
    if form is not None:
        _check_stream(form, options)
        return form
    if is_given:
        return hound.Info(options.rate, options.channels, options.bits, options.float)
    if not options.append:
        raise Wrong("--rate, --channels and --bits are needed, or --append, or a WAV stream")
    try:
        with repairs.found_at(options.target, FIND_DAMAGE) as (_, found):
            return repairs.header_of(found)
    except FileNotFoundError:
        raise ValueError(f"{options.target} isn't there: --rate, --channels and --bits begin it") from None
    except hound.HoundError as error:
        if error.cause == hound.Cause.ENDED:
            raise ValueError(f"{options.target} has no header: --rate, --channels and --bits begin it anew") from None
        raise


def _check_stream(form: hound.Info, options: argparse.Namespace) -> None:
    """An error where the options say something else than the header of a stream."""
    said = {"rate": form.sample_rate, "channels": form.channels, "bits": form.bits_per_sample, "float": form.is_float}
    for name, value in said.items():
        given = getattr(options, name)
        if given and given != value:
            what = f"the input is a WAV stream of {described(form)}, and not of --{name}"
            raise Wrong(f"{what}{'' if given is True else f' {given}'}: --raw records its bytes as they are")


def _opened_to_record(options: argparse.Namespace, form: hound.Info) -> hound.Writer:
    # Its bytes a sample are those of the file: samples of 24 bits may have three or four.
    more = {"like": form._replace(bytes_per_sample=0), "durable": options.durable}
    more["split"] = options.split(form) if options.split else None
    more["chunks"] = options.chunk
    if options.append:
        writer = hound.resume(options.target, **more)
    else:
        writer = hound.create(options.target, **more, exclusive=not options.overwrite)
    if not options.split:
        writer._split(sys.maxsize)  # The second file is looked for where the first one is full.
    return writer


def record(options: argparse.Namespace) -> int:
    """Records standard input as the arguments say, and returns the status."""
    stop = _Stop()
    try:
        source = _Input(stop)
        form = _form_to_record(options, source)
        return _record_as(options, source, form)
    finally:
        stop.restore()


def _record_as(options: argparse.Namespace, source: _Input, form: hound.Info) -> int:
    folder = os.path.dirname(options.target)

    def as_given(path: Any) -> str:
        """The name of a file next to the target, as that is given."""
        name: str = os.path.join(folder, os.path.basename(path))
        return name if os.path.abspath(name) == os.path.abspath(path) else str(path)

    try:
        writer = _opened_to_record(options, form)
        before = len(writer.paths) - 1  # those of a split recording that is continued
        try:
            with writer:
                left = _recorded(writer, source, form, options.checkpoint)
        finally:
            # Also where a write failed, whose error is said, too.
            is_read = all([_say_what_is_kept(as_given(path)) for path in writer.paths[before:]])
    except (OSError, hound.HoundError) as error:
        if error.filename is not None:
            error.filename = as_given(error.filename)
        if isinstance(error, FileExistsError) and error.filename == options.target:
            raise _exists(options.target) from None
        raise
    if source.is_longer:
        complain("more came than the header of the stream counts, and is recorded, too")
    if left:
        complain(f"the last {left} bytes are no whole frame")
    return 1 if left or not is_read else 0


def _say_what_is_kept(name: str) -> bool:
    """Says what the header of a recording counts, and whether it can be read."""
    try:
        info = hound.info(name)
    except (OSError, ValueError) as error:
        complain(f"what is recorded can't be read: {sentence_of(error)}")
        return False
    note(f"{name}: {described(info)}, {info.frames} frames, {info.duration:.3f} s")
    return True
