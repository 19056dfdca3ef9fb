"""The command hound-wav, which is also `python -m hound_bindings`: what WAV files are, repairs, raw samples, other
forms, recordings from standard input, and a page that records in a browser."""
import argparse
import array
import contextlib
import io
import json
import math
import os
import re
import shlex
import signal
import sys
import textwrap
import warnings
from typing import Any, Callable, Dict, Iterator, List, NamedTuple, Optional, Tuple

import hound_bindings as hound

from . import conversion, disk, files, lost, monitoring, parts, recording, repairs, serving
from ._library import FIND_DAMAGE, FLOATS, HEADER_BYTES, INTEGERS, CRepair, described, named
from .terminal import Bar, Wrong, complain, say, sentence_of

__all__ = ["main"]

_STATUS = "The status is 0; 1 if a file is damaged or something failed; 2 if the arguments are wrong."
_STATES = {
    hound.State.WHOLE: "whole",
    hound.State.CUT_OFF: "cut off",
    hound.State.HAS_CHUNKS_AFTER_DATA: "chunks after data",
    hound.State.ALL_COUNTED: "all counted",
}
_NOT_CANONICAL = "the RIFF size or the pad byte isn't as the format asks"
_BLOCK = 1 << 16
_FLOAT_BITS = max(bits for bits, _ in FLOATS)
_AS_GIVEN = "--as-given joins the files that are given, in their order"
# The rate of a guess that isn't given.
_USUAL_RATE = 48000
_USUAL_HINT = "where a header is lost or damaged, hound-wav repair --guess or --like makes a copy with a new one"


def _flush() -> None:
    """Writes what is printed; an error names standard output."""
    with named(sys.stdout):
        sys.stdout.flush()


def _each(names: List[str], call: Callable[[str], bool], failed: Callable[[str, str], None]) -> int:
    """The status after a call for each file: whether all are fine."""
    status = 0
    for name in names:
        try:
            status |= not call(name)
        except BrokenPipeError:
            raise
        except (OSError, ValueError) as error:
            failed(name, sentence_of(error))
            status = 1
        _flush()
    return status


class _Found(NamedTuple):
    """Files, and why folders couldn't be read in which there may be more."""

    files: List[str]
    faults: List[OSError]


def _files_of(names: List[str]) -> _Found:
    """These files, and for each folder those in it and in its folders that are named as WAV files, but for pipes and
    devices: to read one may wait for ever."""
    found = _Found([], [])
    for name in names:
        if os.path.isdir(name):
            walk = os.walk(name, onerror=found.faults.append)
            files = [os.path.join(folder, file) for folder, _, files in walk for file in files]
            named = (file for file in files if file.lower().endswith((".wav", ".wave")))
            found.files.extend(sorted(file for file in named if os.path.isfile(file) or not os.path.exists(file)))
        else:
            found.files.append(name)
    if not any(found):
        raise Wrong("no file here is named .wav or .wave")
    return found


def _each_of(found: _Found, call: Callable[[str], bool], failed: Callable[[str, str], None]) -> int:
    """The same, of what is found in folders: each that couldn't be read has failed."""
    status = _each(found.files, call, failed)
    for fault in found.faults:
        failed(fault.filename, sentence_of(fault))
    return status | bool(found.faults)


def _print_json(**facts: Any) -> None:
    with named(sys.stdout):
        print(json.dumps(facts))


class _Watched(disk.Descriptor):
    """A file whose reads show on a bar how much of it is done."""

    def __init__(self, file: disk.Descriptor, bar: Bar) -> None:
        super().__init__(file._file)
        self._bar = bar

    def read_at(self, count: int, place: int) -> bytes:
        self._bar.show(place)
        return super().read_at(count, place)


def _source(name: str) -> Any:
    return sys.stdin.buffer if name == "-" else name


# info


class _Seen(NamedTuple):
    """What the header of a file says; and unless it is a pipe or a device, which can be read only once, what is found
    of it, and the chunks at its end that count as audio."""

    info: hound.Info
    found: Optional[hound.Repair] = None
    chunks: Optional[lost.Chunks] = None


def _look_at(name: str) -> _Seen:
    if name == "-" or not os.path.isfile(name):
        with hound.open(_source(name)) as reader:
            return _Seen(reader.info)
    with repairs.found_at(name, FIND_DAMAGE) as (file, found):
        return _Seen(repairs.header_of(found), repairs.report_of(found), _chunks_counted(file, found))


def _said_of(info: hound.Info, found: Optional[hound.Repair]) -> str:
    """How long a file is, and how it was found."""
    frames = f"{info.frames} frames, {info.duration:.3f} s, "
    if found is None:
        return frames + "as its header says"
    if found.state == hound.State.ALL_COUNTED:
        return frames + f"whole ({_NOT_CANONICAL})"
    if found.state != hound.State.CUT_OFF:
        return frames + _STATES[found.state]
    joined = "of which" if found.counted <= found.frames else "where"
    held = f"{found.frames} frames, {joined} the header counted {found.counted}"
    return f"{found.info.duration:.3f} s, cut off: {held}"


def _chunks_counted(file: disk.Descriptor, found: CRepair) -> Optional[lost.Chunks]:
    """The chunks that seem to end a file, and that a repair takes for audio since the header counts none or too few."""
    if found.state != hound.State.CUT_OFF:
        return None
    return lost.chunks_at_end(file, found.data_start, found.length)


def _say_what_is_counted(name: str, chunks: Optional[lost.Chunks]) -> None:
    if chunks:
        sentence = f"its last {chunks.length} bytes look like a chunk named {chunks.name} (a title, markers)"
        part = shlex.quote(os.path.splitext(name)[0] + ".part.wav")
        leave_out = f"head -c -{chunks.length} {shlex.quote(name)} > {part}"
        complain(f"{name}: {sentence}, and count as audio: {leave_out} leaves them out")


def _info(options: argparse.Namespace) -> int:
    monitoring.check_options(options)
    if options.follow:
        return _each(options.files, lambda name: monitoring.show(name, options), _failure(options))
    shown: List[hound.Info] = []

    def show(name: str) -> bool:
        info, found, chunks = _look_at(name)
        shown.append(info if found is None else found.info)
        if options.json:
            more = {} if found is None else {"state": _STATES[found.state], "frames_held": found.frames}
            if found is not None:
                more.update(frames_counted=found.counted, bytes_left_over=found.left_over)
                more.update(chunk_at_end=chunks and chunks.name)
            _print_json(file=name, **info._asdict(), seconds=info.duration, **more)
        else:
            say(f"{name}: {described(info)}, {_said_of(info, found)}")
            _say_what_is_counted(name, chunks)
        return found is None or found.state != hound.State.CUT_OFF

    status = _each_with_hints(_files_of(options.files), show, options)
    if len(shown) > 1 and not options.json:
        frames, seconds = sum(info.frames for info in shown), sum(info.duration for info in shown)
        say(f"{len(shown)} files: {frames} frames, {seconds:.3f} s")
    return status


def _each_with_hints(found: _Found, call: Callable[[str], bool], options: argparse.Namespace) -> int:
    """The status after a call for each file. At the end it is said what can be done about headers that were rejected."""
    hints: Dict[str, None] = {}

    def noting(name: str) -> bool:
        try:
            return call(name)
        except hound.HoundError as error:
            # One with no more than a part of a header has lost nothing.
            if error.held is None and os.path.isfile(name) and os.path.getsize(name) >= lost.USUAL_START:
                hints[_hint_of_length(name) if error.cause == hound.Cause.TOO_LONG else _USUAL_HINT] = None
            raise

    status = _each_of(found, noting, _failure(options))
    for hint in [] if options.json else hints:
        complain(hint)
    return status


def _hint_of_length(name: str) -> str:
    """How a file that is longer than a header can count becomes two that can be repaired."""
    start, end = repairs.first_part(name)
    one, two = (shlex.quote(f"{os.path.splitext(name)[0]}.{part}.wav") for part in ("part1", "part2"))
    name = shlex.quote(name)
    rest = f"(head -c {start} {name}; tail -c +{end + 1} {name}) > {two}"
    return f"head -c {end} {name} > {one} makes its first part, and {rest} the rest: repair both"


def _failure(options: argparse.Namespace) -> Callable[[str, str], None]:
    """What says that a file failed."""
    if options.json:
        return lambda name, sentence: _print_json(file=name, error=sentence)
    return lambda _, sentence: complain(sentence)


# repair


def _has_header(name: str, is_of_folder: bool) -> bool:
    """Whether the header of a file is there. In a folder one that holds something else is an error."""
    try:
        return hound.info(name).data_start > 0
    except hound.HoundError as error:
        if is_of_folder and error.held:
            raise
        return False


def _recover(options: argparse.Namespace) -> int:
    """Makes copies of files whose header is lost: in a folder, of those alone."""

    assumed: List[str] = []
    passed_over: List[str] = []
    found_files, given = _files_of(options.files), set(options.files)

    def recover(name: str) -> bool:
        disk.opened(name).close()  # A pipe is an error.
        is_of_folder = name not in given
        if (options.guess or is_of_folder) and _has_header(name, is_of_folder):
            if is_of_folder:
                passed_over.append(name)
                return True
            raise ValueError(f"{name}: its header isn't lost, so nothing is guessed")
        guessed = hound.guess(name, skip=options.skip, rate=options.rate or _USUAL_RATE) if options.guess else None
        form, copy = guessed or options.like, repairs.copy_name(name)
        skip = lost.start_of(name, form.data_start) if options.skip is None else options.skip
        found = None
        if not options.dry_run:
            with files.replaced(copy, options.durable) as part, Bar(name, os.path.getsize(name)) as bar:
                for found in lost.recovered(name, part, form, skip, options.durable):
                    bar.show(found.place)
        frames, is_rate_assumed = found.frames if found else 0, bool(guessed) and not options.rate
        if options.json:
            said = {"sample_rate": form.sample_rate, "channels": form.channels, "bits_per_sample": form.bits_per_sample}
            _print_json(file=name, **said, is_float=form.is_float, skip=skip, is_guess=bool(guessed),
                        is_rate_assumed=is_rate_assumed, frames=frames,
                        copy=None if options.dry_run else copy)  # fmt: skip
        else:
            done = "" if options.dry_run else f": {frames} frames in {copy}"
            say(f"{name}: {'a guess: ' if guessed else ''}{described(form)}, from byte {skip} on{done}")
        if is_rate_assumed:
            assumed.append(name)
        return True

    status = _each_of(found_files, recover, _failure(options))
    if passed_over == found_files.files:
        complain("no header here is lost, so no copy is made")
    if assumed:
        complain(f"{_USUAL_RATE} Hz is assumed, since no guess finds a rate: --rate HZ is that of your recorder")
    return status


def _repair(options: argparse.Namespace) -> int:
    if options.rate and not options.guess:
        raise Wrong("--rate is that of --guess")
    if options.skip is not None and not (options.like or options.guess):
        raise Wrong("--skip is that of --like and --guess")
    if options.like or options.guess:
        return _recover(options)
    found_files = _files_of(options.files)

    def repaired(name: str) -> Tuple[hound.Repair, Optional[lost.Chunks], Optional[str]]:
        """What is found of a file, which is opened once; and the name of its copy."""
        how = {"to_end": options.to_end, "canonical": options.canonical}
        mode = FIND_DAMAGE if options.dry_run or options.copy else repairs.mode_of(**how)
        with repairs.found_at(name, mode, options.durable) as (file, seen):
            found, chunks = repairs.report_of(seen), None if options.to_end else _chunks_counted(file, seen)
            if not options.copy or not repairs.mends(found.state, **how):
                return found, chunks, None
            copy = repairs.copy_name(name)
            if not options.dry_run:
                with Bar(name, file.size()) as bar:
                    found = repairs.copied(_Watched(file, bar), copy, options.durable, **how)
            return found, chunks, copy

    def repair(name: str) -> bool:
        found, chunks, copy = repaired(name)
        if not options.json:
            _say_what_is_counted(name, chunks)
        is_mended = repairs.mends(found.state, options.to_end, options.canonical)
        is_done, seconds = is_mended and not options.dry_run, found.info.duration
        if options.json:
            _print_json(file=name, state=_STATES[found.state], frames=found.frames, frames_counted=found.counted,
                        seconds=seconds, bytes_left_over=found.left_over, chunk_at_end=chunks and chunks.name,
                        repaired=is_done, copy=copy)  # fmt: skip
        else:
            is_whole = found.state == hound.State.ALL_COUNTED
            state, note = ("whole", _NOT_CANONICAL) if is_whole else (_STATES[found.state], "")
            done = f"repaired{f': {copy}' if copy else ''}" if is_done else note
            numbers = f"{found.frames:>11}{found.counted:>11}{seconds:>12.3f}"
            say(f"{state:18}{numbers}  {name}{'  ' if done else ''}{done}")
        return is_done or not is_mended

    if not options.json:
        say(f"{'found':18}{'frames':>11}{'counted':>11}{'seconds':>12}  file")
    return _each_with_hints(found_files, repair, options)


# cat and convert


def _blocks(name: str, reader: hound.Reader, dtype: Optional[Any]) -> Iterator[Any]:
    """The blocks of a file, with a bar."""
    with Bar(name, reader.info.frames) as bar:
        for block in reader.blocks(_BLOCK, dtype):
            yield block
            bar.show(reader.tell())


def _is_whole(name: str, reader: hound.Reader) -> bool:
    """Whether the samples that were read to their end are whole frames; complains if not."""
    if reader.left_over:
        complain(f"{name}: the last {reader.left_over} bytes are no whole frame")
    return not reader.left_over


def _cat(options: argparse.Namespace) -> int:
    monitoring.check_options(options)

    def write(name: str) -> bool:
        if options.follow:
            return monitoring.write(name, options)
        with hound.open(_source(name), to_end=options.to_end) as reader:
            for block in _blocks(name, reader, options.type):
                with named(sys.stdout):
                    sys.stdout.buffer.write(block)
        return _is_whole(name, reader)

    return _each(options.files, write, lambda _, sentence: complain(sentence))


def _mixed(block: "array.array[Any]", channels: int, wanted: int) -> "array.array[Any]":
    """Samples of so many channels: the mean of all, or the only one in each."""
    if channels == wanted:
        return block
    parts = [block[channel::channels] for channel in range(channels)]
    mean = parts[0] if channels == 1 else array.array("d", (sum(frame) / channels for frame in zip(*parts)))
    mixed = array.array(mean.typecode, bytes(len(mean) * wanted * mean.itemsize))
    for channel in range(wanted):
        mixed[channel::wanted] = mean
    return mixed


def _form_wanted(info: hound.Info, options: argparse.Namespace) -> hound.Info:
    channels = options.channels or info.channels
    if 1 not in (channels, info.channels) and channels != info.channels:
        raise Wrong(f"{info.channels} channels aren't made {channels}: only one of all, or all of one")
    if options.float and options.bits not in (None, _FLOAT_BITS):
        raise Wrong(f"floats have {_FLOAT_BITS} bits")
    if options.float:
        return hound.Info(info.sample_rate, channels, _FLOAT_BITS, True)
    if options.bits:
        return hound.Info(info.sample_rate, channels, options.bits)
    return info._replace(channels=channels)


def _type_between(info: hound.Info, wanted: hound.Info, dither: int) -> Optional[Any]:
    """A type that has all samples of a file exactly, as floats; None where they are written as they are."""
    if info[1:4] == wanted[1:4] and not dither:
        return None
    return "float32" if info.is_float else conversion.exact_in(("float32", "float64"), info.bits_per_sample)


def _convert(options: argparse.Namespace) -> int:
    if options.rate:
        raise Wrong("the rate isn't changed here: sox and ffmpeg resample")
    if options.seed and not options.dither:
        raise Wrong("--seed is that of --dither")
    if os.path.exists(options.target) and not options.overwrite:
        raise Wrong(f"{options.target} exists: --overwrite replaces it")
    source, target = _source(options.source), options.target
    with hound.open(source, to_end=options.to_end) as reader, files.replaced(target, options.durable) as part:
        info = reader.info
        wanted = _form_wanted(info, options)
        dither = (options.seed or 1) if options.dither else 0
        dtype = _type_between(info, wanted, dither)
        with hound.create(part, like=wanted, exclusive=True, durable=options.durable, dither=dither) as writer:
            for block in _blocks(options.source, reader, dtype):
                writer.write(_mixed(block, info.channels, wanted.channels))
        is_whole = _is_whole(options.source, reader)
        if os.path.exists(target) and not is_whole:
            raise ValueError(f"{target} stays as it was, since not all of {options.source} was read")
    if writer.clipped:
        complain(f"clipped samples: {writer.clipped}")
    return 0 if is_whole else 1


# join


def _whole(name: str) -> hound.Info:
    """What the header of a file says; an error where it doesn't count all that the file holds."""
    with repairs.found_at(name, FIND_DAMAGE) as (_, found):
        if found.state == hound.State.CUT_OFF:
            raise ValueError(f"{name}: the recording was cut off: hound-wav repair")
        return repairs.header_of(found)


def _form_of_all(names: List[str]) -> hound.Info:
    """What the samples of all these files are, and how many frames they have; an error where they aren't alike."""
    infos = [_whole(name) for name in names]
    for name, info in zip(names, infos):
        if info[:4] != infos[0][:4]:
            raise ValueError(f"{name} has another form, {described(info)}, than {names[0]}, {described(infos[0])}")
    return infos[0]._replace(frames=sum(info.frames for info in infos))


def _numbered(names: List[str]) -> Dict[int, str]:
    """The files of a recording by their numbers; an error where one is of another recording, or is given twice."""
    numbered: Dict[int, str] = {}
    recording = parts.first_of(names[0])[0]
    for name in names:
        first, number = parts.first_of(name)
        if os.path.abspath(first) != os.path.abspath(recording):
            raise Wrong(f"{name} is no part of {recording}: {_AS_GIVEN}")
        if number in numbered:
            raise Wrong(f"{name} is given twice: {_AS_GIVEN}")
        numbered[number] = name
    return numbered


def _all_parts(names: List[str]) -> List[str]:
    """All files of the recording that these are of, by their numbers; or where one is given, all that it has. An error
    where one is missing."""
    numbered, recording = _numbered(names), parts.first_of(names[0])[0]
    found = parts.parts_at(recording)
    for number in range(1, max({*found, *numbered}) + 1):
        name = parts.part_name(recording, number)
        if number not in found:
            raise ValueError(f"{name} is missing: {_AS_GIVEN}")
        if number not in numbered and len(names) > 1:
            raise Wrong(f"{name} is there and isn't given: {_AS_GIVEN}, and {names[0]} alone all parts")
    return list(found.values())


def _join(options: argparse.Namespace) -> int:
    names, target = (options.files, options.output) if options.output else (options.files[:-1], options.files[-1])
    if not names:
        raise Wrong("the new file is missing: join IN -o OUT")
    if os.path.exists(target) and not options.overwrite:
        raise Wrong(f"{target} exists: --overwrite replaces it")
    names = names if options.as_given else _all_parts(names)
    form = _form_of_all(names)
    with files.replaced(target, options.durable) as part:
        with hound.create(part, like=form, exclusive=True, durable=options.durable) as writer:
            if form.frames > writer.frames_left:
                raise hound.HoundError(hound.Cause.TOO_LONG)
            for name in names:
                with hound.open(name) as reader:
                    for block in _blocks(name, reader, None):
                        writer.write(block)
    say(f"{target}: {len(names)} file{'s' * (len(names) != 1)}, {form.frames} frames, {form.duration:.3f} s")
    return 0


# The arguments


def _from(least: int) -> Callable[[str], int]:
    """What takes an integer from this one on, as far as a file may be long."""

    def parse(text: str) -> int:
        if not text.isdecimal() or not least <= int(text) <= sys.maxsize:
            raise argparse.ArgumentTypeError(f"{text} isn't an integer from {least} to {sys.maxsize}")
        return int(text)

    return parse


_positive = _from(1)


def _rate(text: str) -> int:
    """Frames a second, or thousands of them, as 44.1k."""
    parts = re.fullmatch(r"([0-9]{1,7})(?:\.([0-9]{1,3}))?k", text)
    return _positive(parts[1] + (parts[2] or "").ljust(3, "0") if parts else text)


def _file(text: str) -> str:
    if text == "-":
        raise argparse.ArgumentTypeError("it has to be a file, since its sizes are written at the end")
    return text


def _form_of(text: str) -> hound.Info:
    """What RATE,CHANNELS,BITS[f] says."""
    parts, is_float = text[: len(text) - text.endswith("f")].split(","), text.endswith("f")
    if len(parts) != 3:
        raise argparse.ArgumentTypeError(f"{text} isn't RATE,CHANNELS,BITS or RATE,CHANNELS,BITSf")
    rate, channels, bits = _rate(parts[0]), _positive(parts[1]), _positive(parts[2])
    return hound.Info(rate, channels, bits, is_float, data_start=lost.USUAL_START)


def _seconds(text: str) -> float:
    with contextlib.suppress(ValueError):
        if 0 < float(text) < 1e6:
            return float(text)
    raise argparse.ArgumentTypeError(f"{text} is no time")


# What a number of --split counts, as how many frames of a form: bytes of a file with its header, or times.
_UNITS: Dict[str, Callable[[int, hound.Info], int]] = {
    "": lambda count, form: count,
    "MiB": lambda count, form: _frames_in(count << 20, form),
    "GiB": lambda count, form: _frames_in(count << 30, form),
    "s": lambda count, form: count * form.sample_rate,
    "min": lambda count, form: count * 60 * form.sample_rate,
    "h": lambda count, form: count * 3600 * form.sample_rate,
}


def _frames_in(length: int, form: hound.Info) -> int:
    """How many frames a file of so many bytes has at most."""
    spec = conversion.spec_like(form)
    return (length - HEADER_BYTES) // int(form.channels * spec.bytes_per_sample)


def _split(text: str) -> Callable[[hound.Info], int]:
    """How many frames each file has at most, by the form of the recording."""
    parts = re.fullmatch("([0-9]{1,15})([A-Za-z]*)", text)
    if not parts or parts[2] not in _UNITS or int(parts[1]) == 0:
        raise argparse.ArgumentTypeError(f"{text} is neither a number of frames, nor one of MiB, GiB, s, min or h")
    count, unit = int(parts[1]), parts[2]
    return lambda form: _UNITS[unit](count, form)


def _parser() -> argparse.ArgumentParser:
    words = "Reads, repairs, converts and records WAV files."
    parser = argparse.ArgumentParser("hound-wav", description=words, epilog=_STATUS)
    parser.add_argument("--version", action="version", version=f"hound-wav {hound.__version__}")
    commands = parser.add_subparsers(dest="command", required=True, metavar="COMMAND")

    def command(name: str, run: Callable[[argparse.Namespace], int], words: str, more: str = "") -> Callable[..., Any]:
        one = commands.add_parser(name, help=words, description=words[0].upper() + words[1:] + ".", epilog=_STATUS)
        if more:
            one.formatter_class = argparse.RawDescriptionHelpFormatter
            one.description, one.epilog = (textwrap.fill(text, 74) for text in (one.description or "", _STATUS))
            one.epilog = f"{more}\n\n{one.epilog}"
        one.set_defaults(run=run)
        return one.add_argument

    flag: Dict[str, Any] = {"action": "store_true"}
    add = command("info", _info, "say what files are, and whether they are damaged")
    add("files", nargs="+", metavar="FILE", help="a file, a folder (all its .wav files), or - for standard input")
    words = "print a JSON object in a line for each file, or with --follow for each second"
    add("--json", help=words, **flag)
    monitoring.add_options(add)

    words = "repair files whose recording was cut off, in place: copy what can't be replaced, or use --copy"
    add = command("repair", _repair, words)
    words = "a file, or a folder: all its .wav files, with --guess and --like those that have no header"
    add("files", nargs="+", metavar="FILE", type=_file, help=words)
    add("--dry-run", help="repair nothing, and say what would be repaired; the status is 1 if a file would be", **flag)
    add("--to-end", help="take chunks after the data for samples, too", **flag)
    words = "also write the RIFF size and the pad byte of a file in which only these aren't as the format asks"
    add("--canonical", help=words, **flag)
    add("--copy", help="leave each damaged file as it is, and repair a copy NAME.repaired.wav", **flag)
    add("--durable", help="sync what is written", **flag)
    add("--json", help="print a JSON object in a line for each file", **flag)
    words = "for a lost header: copy the samples, which have this form (f: floats), to NAME.repaired.wav"
    add("--like", type=_form_of, metavar="RATE,CHANNELS,BITS[f]", help=words)
    add("--guess", help="for a lost header: guess the channels and bits in which the samples are predictable", **flag)
    add("--rate", type=_rate, metavar="HZ", help=f"the sample rate, which --guess can't find (default: {_USUAL_RATE})")
    words = (
        "with --like and --guess: how many bytes come before the samples (default: all up to the end of what looks like "
        "their header, or else as many as a usual header has)"
    )
    add("--skip", type=_from(0), metavar="BYTES", help=words)

    words = (
        "write raw samples to standard output: integers as int16, or as int32 where they have more bits, and floats as "
        "float32. No sample is shifted: 24 bits go from -8388608 to 8388607"
    )
    add = command("cat", _cat, words)
    add("files", nargs="+", metavar="FILE", help="a file, or - for standard input")
    add("--type", choices=conversion.READ_TYPES, help="the type of the samples; floats have the full scale 1")
    stream = {"help": "read all that follows the header: for a stream whose header doesn't know its length", **flag}
    add("--to-end", **stream)
    monitoring.add_options(add)

    add = command("convert", _convert, "write the samples of a file to a new one, in another form")
    add("source", metavar="IN", help="a file, or - for standard input")
    add("target", metavar="OUT", type=_file, help="the new file, which gets its name when it is whole")
    form = {"choices": sorted({bits for bits, _ in INTEGERS}), "type": int}
    add("--to-end", **stream)
    add("--bits", help="write integers with so many bits, rounded; clipped samples are counted", **form)
    add("--float", help=f"write {_FLOAT_BITS}-bit floats", **flag)
    add("--channels", type=_positive, help="1: the mean of all channels; more: the one channel in each")
    add("--dither", help="add triangular noise before rounding", **flag)
    add("--seed", type=_positive, help="the seed of that noise (default: 1)")
    add("--rate", type=_rate, help="an error: the rate isn't changed")
    add("--overwrite", help="replace OUT if it is there", **flag)
    add("--durable", help="sync what is written", **flag)

    add = command("join", _join, "write the samples of a split recording to one new file")
    words = (
        "the first part, next to which the others are found, or all of them, in any order: whole files of the same rate, "
        "channels and bits; without -o the last name is OUT"
    )
    add("files", nargs="+", metavar="IN", type=_file, help=words)
    add("-o", "--output", metavar="OUT", type=_file, help="the new file, which gets its name when it is whole")
    words = "join the files that are given, in their order, also if they are of several recordings or a part is missing"
    add("--as-given", help=words, **flag)
    add("--overwrite", help="replace OUT if it is there", **flag)
    add("--durable", help="sync what is written", **flag)

    words = (
        "record standard input: a WAV stream, or raw samples, as the file stores them (little-endian, those of 8 bits "
        "unsigned)"
    )
    add = command("record", recording.record, words, recording.EXAMPLES)
    words = "the new file, which has all samples up to the last checkpoint if the program is killed; Ctrl-C ends it well"
    add("target", metavar="OUT", type=_file, help=words)
    words = "frames a second, such as 48000 or 44.1k: needed for raw samples, as --channels and --bits are"
    add("--rate", type=_rate, help=words)
    add("--channels", type=_positive)
    add("--bits", **form)
    add("--float", help=f"{_FLOAT_BITS}-bit floats", **flag)
    add("--raw", help="take the input for raw samples even if it begins like a WAV stream", **flag)
    words = (
        "continue the recording in OUT, or in its last part, repaired first if it was cut off; a raw one needs no --rate "
        "then, and with --rate, --channels and --bits it begins where there is none"
    )
    add("--append", help=words, **flag)
    add("--overwrite", help="empty OUT if it is there", **flag)
    add("--durable", help="sync each checkpoint", **flag)
    add("--checkpoint", type=_seconds, default=1.0, metavar="SECONDS", help="the time between checkpoints (default: 1)")
    words = (
        "continue in NAME-002.wav, NAME-003.wav and so on, which mustn't exist, after so many frames, or after 2GiB, "
        "600MiB, 1h, 10min or 30s; without it a new recording continues there when a file is full (4 GiB)"
    )
    add("--split", type=_split, metavar="LENGTH", help=words)
    words = "give each file a chunk NAME before its samples, such as bext, with what FILE holds; may be repeated"
    add("--chunk", type=_chunk, action="append", metavar="NAME=FILE", help=words)

    add = command("serve", serving.serve, "serve a page that records in your browser, to this computer alone")
    words = f"of the address ({serving.USUAL_PORT}): a browser keeps recordings by it, so choose the same one each time"
    add("--port", type=_port, default=serving.USUAL_PORT, help=words)
    return parser


def _port(text: str) -> int:
    if not re.fullmatch("[1-9][0-9]{0,4}", text) or int(text) > 65535:
        raise argparse.ArgumentTypeError(f"{text} isn't a port from 1 to 65535")
    return int(text)


def _chunk(text: str) -> Tuple[bytes, bytes]:
    """The name of a chunk, and what its file holds."""
    name, sign, path = text[:4], text[4:5], text[5:]
    if sign != "=" or not path or not name.isascii() or name in ("data", "fmt "):
        raise argparse.ArgumentTypeError(f"{text!r} isn't NAME=FILE, where NAME has four characters, and isn't data or fmt")
    try:
        with open(path, "rb") as file:
            return name.encode(), file.read()
    except OSError as error:
        raise argparse.ArgumentTypeError(f"{path}: {error.strerror}")


def _end_by(number: Optional[int]) -> int:
    """Ends the program by a signal, as if it weren't handled."""
    if number is not None and os.name != "nt":
        signal.signal(number, signal.SIG_DFL)
        os.kill(os.getpid(), number)
    return _drop_output()


def _drop_output() -> int:
    """Drops what Python would still write to standard output, which failed: the status."""
    with contextlib.suppress(OSError):
        os.dup2(os.open(os.devnull, os.O_WRONLY), sys.stdout.fileno())
    return 1


def main(arguments: Optional[List[str]] = None) -> int:
    """Does what the arguments say, and returns the status."""
    # What is closed is like an empty file, and names that are no text of this system are written as they are.
    # In this order each gets its own descriptor, which no other file may have.
    sys.stdin, sys.stdout = sys.stdin or io.open(os.devnull), sys.stdout or io.open(os.devnull, "w")
    sys.stderr = sys.stderr or io.open(os.devnull, "w")
    sys.stdout.reconfigure(errors="surrogateescape")  # type: ignore[attr-defined]
    options = _parser().parse_args(arguments)
    try:
        with warnings.catch_warnings():
            warnings.simplefilter("ignore", RuntimeWarning)
            status: int = options.run(options)
        _flush()
        return status
    except Wrong as error:
        complain(str(error))
        return 2
    except BrokenPipeError:
        return _end_by(getattr(signal, "SIGPIPE", None))
    except KeyboardInterrupt:
        return _end_by(signal.SIGINT)
    except (OSError, ValueError) as error:
        complain(sentence_of(error))
        return _drop_output() if getattr(error, "filename", None) == sys.stdout.name else 1
