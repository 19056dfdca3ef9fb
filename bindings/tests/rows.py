#!/usr/bin/env python3
"""Files of hound_rows and further ones, read and repaired by the C interface, beside the model of these rows: the
spec, each sample as 32 bits or the cause, also where a file is cut at each byte; and what a repair finds and
leaves. Each code is met.

usage: rows.py [CAT RECORD]     (with the package hound_bindings on the path; CAT and RECORD are bindings/c/cat.c and
record.c, compiled: then these files are piped through the one, too, and the other records beside the model)"""
import array
import ctypes
import itertools
import os
import random
import struct
import subprocess
import sys
import tempfile

TOP = os.path.dirname(os.path.dirname(os.path.dirname(os.path.abspath(__file__))))
sys.path[:0] = os.path.join(TOP, "crates", "hound_rows"), os.path.join(TOP, "bindings", "python", "tests")
import expected as model  # noqa: E402
import wav  # noqa: E402

import hound_bindings as hound  # noqa: E402
from hound_bindings import Cause, HoundError, _library, _recorder, disk  # noqa: E402

# The causes of a head, by the model's words.
REASONS = {
    "no RIFF tag found": Cause.NO_RIFF_TAG,
    "no WAVE tag found": Cause.NO_WAVE_TAG,
    "missing data chunk": Cause.NO_DATA_CHUNK,
    "missing fmt chunk": Cause.NO_FMT_CHUNK,
    "invalid fmt chunk size": Cause.FMT_SIZE,
    "unexpected fmt chunk size": Cause.UNEXPECTED_FMT_SIZE,
    "file contains zero channels": Cause.ZERO_CHANNELS,
    "sample bits exceeds size of sample": Cause.BITS_EXCEED_WIDTH,
    "inconsistent fmt chunk": Cause.INCONSISTENT,
    "bits per sample is not a multiple of 8": Cause.BITS_NOT_WHOLE_BYTES,
    "bits per sample is 0": Cause.ZERO_BITS,
    "bits per sample is not 8 or 16": Cause.BITS_NOT_8_OR_16,
    "unexpected WAVEFORMATEX size": Cause.EX_SIZE,
    "bits per sample is not 32": Cause.BITS_NOT_32,
    "unexpected WAVEFORMATEXTENSIBLE size": Cause.EXTENSIBLE_SIZE,
    "data chunk length is not a multiple of sample size": Cause.DATA_LENGTH,
    "invalid data chunk length": Cause.FRAME_LENGTH,
}
WORDS = {f"FormatError({text})": cause for text, cause in REASONS.items()}
HEAD = {**WORDS, model.ENDED: Cause.ENDED, "Unsupported": Cause.UNSUPPORTED}
ITEM = {
    "InvalidSampleFormat": Cause.OTHER_FORMAT,
    "TooWide": Cause.TOO_WIDE,
    "Unsupported": Cause.NOT_WRITABLE,
    model.ENDED: Cause.TRUNCATED,
}
CODES = list(Cause)
SIZE, POINTER = ctypes.c_size_t, ctypes.c_void_p
INFO = _library.function("info", POINTER, SIZE, POINTER, result=ctypes.c_int32)
SIZE_OF = _library.function("size", POINTER, ctypes.c_uint64)
READ_I32 = _library.function("read_i32", POINTER, SIZE, ctypes.c_uint64, POINTER, SIZE)
met = set()


def modelled(data):
    """The spec, where the data begin, the samples up to an error, and the code of the error; or only that."""
    source = model.Fed(data)
    try:
        reader = model.Reader(source)
    except model.Rejected as error:
        return None, HEAD[str(error)]
    start, samples = source.took, []
    try:
        while (value := reader.next("i32")) is not None:
            samples.append(value)
    except model.Rejected as error:
        return (reader.spec, start, reader.len, samples), ITEM[str(error)]
    return (reader.spec, start, reader.len, samples), None


def info_by_c(data):
    """What hound_info finds in a whole file."""
    told = _library.CInfo()
    with _library.address(data) as (address, length):
        _library.checked(INFO(address, length, ctypes.byref(told)))
    return _library.info_from(told.spec, told.samples // told.spec.channels, told.data_start)


def found(data):
    """The same by the C interface, in blocks of seven."""
    try:
        info = hound.info(data)
        if info_by_c(data) != info:
            sys.exit(f"rows: hound_info finds something else than {info} in {data[:80].hex()} ..")
    except HoundError as error:
        met.add(error.cause)
        return None, error.cause
    spec = model.Spec(info.channels, info.sample_rate, info.bits_per_sample, info.bytes_per_sample, info.is_float)
    samples, block = [], array.array("i", bytes(28))
    with _library.address(data) as (address, length), _library.address(block) as (out, _):
        while True:
            n = READ_I32(address, length, len(samples), out, len(block))
            if n <= 0:
                break
            samples.extend(block[:n])
    if n < 0:
        met.add(Cause(-n))
    return (spec, info.data_start, info.frames * info.channels, samples), Cause(-n) if n else None


def rows():
    """The words of each row, whose names are known then."""
    with open(os.path.join(TOP, "crates", "hound_rows", "stdin")) as lines:
        for line in lines:
            words = line.rstrip("\n").split(" ")
            if words[0] == "let":
                model.answer(line.rstrip("\n"))
            else:
                yield words


def files():
    """The bytes of each row that reads, and four files that are cut at each byte."""
    seen = set()
    for words in rows():
        if words[0] in ("read", "riff") and len(words) > 1:
            data = model.bytes_of(words[1])
            if data not in seen:
                seen.add(data)
                yield data
    for bits, width in ((8, 0), (16, 0), (24, 4), (32, 0)):
        data = bytes(hound.to_bytes(array.array("i", [1, -2, 100, -128]), 44100, 2, bits, bytes_per_sample=width))
        for length in range(len(data) + 1):
            yield data[:length]


def catted_by_model(data, as_floats):
    """The status and the output of cat.c."""
    out = b""
    try:
        reader = model.Reader(model.Fed(data))
        bits = reader.spec.bits
        kind = "f" if reader.spec.is_float else "i16" if bits <= 16 and not as_floats else "i32"
        while (value := reader.next(kind)) is not None:
            if as_floats and kind != "f":
                out += struct.pack("<f", value / (1 << (bits - 1)))
            else:
                out += value.to_bytes(2 if kind == "i16" else 4, "little", signed=kind != "f")
    except model.Rejected:
        return 1, out
    return 0, out


def streamed_by_model(data):
    """A stream of unknown length with this head, and the same whose header counts its whole frames; or what has no
    head."""
    wanted, cause = modelled(data)
    if wanted is None:
        return [] if cause in (Cause.DATA_LENGTH, Cause.FRAME_LENGTH) else [(data, data)]
    spec, start = wanted[:2]
    if not spec.is_pair():
        return []  # It is an error also where there is no sample.
    frames = (len(data) - start) // (spec.channels * spec.width) * spec.channels * spec.width
    lengths = (2**32 - 1, None), (frames, start + frames)
    head = data[: start - 4]
    return [tuple(head + struct.pack("<I", count) + data[start:end] for count, end in lengths)]


def check_cat(program, data):
    streams_of = [(["--to-end"], stream, counted) for stream, counted in streamed_by_model(data)]
    for options, given, like in ([], data, data), (["--float"], data, data), *streams_of:
        is_torn = len(given) > len(like)
        run = subprocess.run([program, *options], input=given, stdout=subprocess.PIPE, stderr=subprocess.PIPE)
        status, out = catted_by_model(like, options == ["--float"])
        if (run.returncode, run.stdout) != (status or is_torn, out) or (run.returncode == 1) != (run.stderr != b""):
            sys.exit(f"rows: {program} makes something else of {given[:80].hex()} .. ({len(given)} bytes): {run}"[:600])


def check_kinds(program):
    """What cat.c says of what it doesn't read, also after a chunk."""
    for data, name in [
        (wav.by_hand(b"", tag=2), b"Microsoft ADPCM"),
        (wav.by_hand(b"", tag=2, before=b"LIST\xa0\x0f\0\0" + bytes(4000)), b"Microsoft ADPCM"),
        (b"fLaC" + bytes(60), b"FLAC"),
        (b"OggS", b"Ogg"),
        (b"just text, and more of it", None),
        (b"", None),
    ]:
        said = subprocess.run([program], input=data, capture_output=True).stderr
        if (b"the file holds %s, and isn't read: convert it" % name not in said) if name else b"holds" in said:
            sys.exit(f"rows: of {data[:40]} {program} says {said}")


def file_by_model(spec, data):
    """The file of this data."""
    size = len(spec.header(0, 0)) - 8 + len(data) + len(data) % 2
    return spec.header(size, len(data)) + data + bytes(len(data) % 2)


def check_record(program):
    """Records PCM with checkpoints, and continues it after its header was set back, as by a kill: each file, and what
    is printed. A torn frame at the end of the input isn't recorded, and is an error."""
    some, count = random.Random(3), 0
    for bits, channels, every in itertools.product((8, 16, 24, 32), (1, 2, 3), (1, 7, 30000)):
        spec = model.Spec(channels, 44100, bits, bits // 8, False)
        frame, frames = channels * bits // 8, [some.randrange(3 * min(every, 20000) + 2) for _ in range(2)]
        data = some.randbytes(sum(frames) * frame)
        pieces = [data[: frames[0] * frame], data[frames[0] * frame :]]
        with tempfile.TemporaryDirectory() as folder:
            path, held = os.path.join(folder, "a.wav"), 0
            for piece, words in zip(pieces, ([], ["--append", "--durable"])):
                words = [program, path, "44100", str(channels), str(bits), str(every), *words]
                run = subprocess.run(words, input=piece + bytes(frame - 1), capture_output=True)
                said = [held + n for n in range(every, len(piece) // frame + 1, every)]
                held += len(piece) // frame
                lines = [b"%d" % (n * channels) for n in said] + [b"recorded %d samples" % (held * channels), b""]
                with open(path, "r+b") as file:
                    wanted = file_by_model(spec, data[: held * frame]), frame > 1, lines
                    if (file.read(), run.returncode, run.stdout.split(b"\n")) != wanted:
                        recorded = f"{held} frames: {spec}, a checkpoint each {every}, {run}"
                        sys.exit(f"rows: {program} records another file of {recorded}"[:600])
                    file.truncate(len(spec.header(0, 0)) + held * frame)  # no pad byte is there
                    file.seek(0)
                    file.write(spec.header(0, 0))
                count += 1
    return count


STATES = ["whole", "cut_off", "followed", "all_counted"]


def repaired_by_model(how, data):
    """What a repair finds and leaves, or the codes that its error may have; then all stays."""
    try:
        damage = model.Damage(data, how != "to_end")
        damage.is_mended = damage.is_mended or how == "canonical" and damage.was == "all_counted"
    except model.Rejected as error:
        text = str(error)
        codes = {"Unsupported": {Cause.UNSUPPORTED, Cause.NOT_WRITABLE}, "TooLong": {Cause.TOO_LONG}}
        return codes.get(text) or {HEAD[text]}, data
    return damage.words(), damage.mend(data)


# The calls of the C interface for the repairs of the rows.
REPAIRS = {
    "mend": _library.function("repair", POINTER, SIZE, SIZE, POINTER),
    "to_end": _library.function("repair_to_end", POINTER, SIZE, SIZE, POINTER),
}
APPEND = _library.function("append_i16", POINTER, SIZE, SIZE, POINTER, SIZE)


def repaired(how, data):
    """The same by the C interface, with room for a pad byte."""
    memory, report = bytearray(data + b"U"), _library.CRepair()
    with _library.address(memory) as (address, capacity):
        n = REPAIRS[how](address, capacity, len(data), ctypes.byref(report))
    if n < 0:
        assert memory[len(data) :] == b"U"
        return {Cause(-n)}, bytes(memory[: len(data)])
    spec = report.spec
    words = [STATES[report.state], "frames", str(report.frames), "left", str(report.left_over), ":"]
    words += [str(spec.channels), str(spec.sample_rate), str(spec.bits_per_sample)]
    return [*words, "float" if spec.sample_format else "int", str(spec.bytes_per_sample)], bytes(memory[:n])


def repairs():
    """The files of the rows that repair, and each beginning where a row requests them, for both repairs."""
    for words in rows():
        if words[0] == "repair" and words[1] in REPAIRS:
            data = model.bytes_of(words[2])
            for length in range(len(data) + 1) if "cuts" in words else [len(data)]:
                for how in REPAIRS:
                    yield how, data[:length]


def check_repairs():
    """Repairs these files."""
    count = 0
    for count, (how, data) in enumerate(repairs(), 1):
        (wanted, left), (got, memory) = repaired_by_model(how, data), repaired(how, data)
        same = got <= wanted if isinstance(wanted, set) and isinstance(got, set) else got == wanted
        if not same or memory != left:
            sys.exit(f"rows: the repair {how} of {data.hex()} gives {got} and not {wanted}")
    return count


def other_codes():
    """The codes that no reading returns."""
    for cause, call in (
        (Cause.TOO_LONG, lambda: _library.checked(SIZE_OF(ctypes.byref(_library.CSpec(1, 1, 16, 0, 0)), 2**31))),
        (Cause.UNFINISHED_FRAME, lambda: hound.to_bytes(array.array("h", [1]), 1, 2)),
        (Cause.NOT_WRITABLE, lambda: hound.to_bytes(array.array("h", [1]), 1, 1, 12)),
        (Cause.TOO_WIDE, lambda: hound.to_bytes(array.array("i", [128]), 1, 1, 8)),
        (Cause.OTHER_FORMAT, lambda: hound.read(hound.to_bytes(array.array("f", [1]), 1), dtype="int32")),
    ):
        try:
            call()
        except HoundError as error:
            assert error.cause == cause, error
            met.add(cause)
    file = hound.to_bytes(array.array("h", [1]), 1)
    samples = array.array("h", [1])
    with _library.address(file) as (address, capacity), _library.address(samples) as (one, _):
        assert APPEND(address, capacity, capacity, one, 1) == -Cause.NO_ROOM
        met.add(Cause.NO_ROOM)
    check_reports()


def check_reports():
    """The codes of a recorder and a repairer, by what is reported of their effects."""
    spec, recorder, found = _library.CSpec(44100, 1, 16, 2, 0), _library.CRecorder(), _library.CRepair()
    _recorder._recorder_begin(ctypes.byref(spec), ctypes.byref(recorder))

    def next_after(report):
        recorder.effect.report = report
        return _recorder._recorder_next(ctypes.byref(recorder)), recorder.effect.kind, recorder.effect.place

    assert _recorder._recorder_write(ctypes.byref(recorder), 3) == 0
    assert next_after(0) == next_after(0) == (1, disk.WRITE_BLOCK, 44) and recorder.effect.length == 6
    assert next_after(disk.FAILED) == (1, disk.SHORTEN, 44)
    assert next_after(disk.DONE)[0] == -Cause.NEEDS_CHECKPOINT
    assert _recorder._recorder_write(ctypes.byref(recorder), 3) == 0 and next_after(0) == (1, disk.SYNC, 0)
    assert next_after(disk.FAILED)[0] == _recorder._recorder_write(ctypes.byref(recorder), 3) == -Cause.SYNC_FAILED
    assert next_after(0)[0] == next_after(0)[0] == -Cause.SYNC_FAILED
    file = hound.to_bytes(array.array("h", [1, 2]), 44100)
    for length, state, results in (
        (48, 0, [0, 0, 0, 0]),
        (46, 1, [-Cause.TRUNCATED] * 4),
        (50, 1, [-Cause.NEEDS_MEND, 0, -Cause.NEEDS_MEND, 0]),
        (56, 2, [-Cause.NEEDS_OVERWRITE, -Cause.NEEDS_OVERWRITE, 0, 0]),
    ):
        found = _library.CRepair(spec, (length - 44) // 2, 0, state, 44, length, 4)
        begun = ctypes.byref(found), ctypes.byref(recorder)
        resumed = [_recorder._recorder_resume(begun[0], allowed, begun[1]) for allowed in range(4)]
        assert resumed == results, (length, state, resumed)
    repairer = _library.CRepairer()
    _recorder._repairer_begin(len(file), _library.REPAIR, ctypes.byref(repairer))
    assert _recorder._repairer_next(ctypes.byref(repairer), ctypes.byref(found)) == 1 and repairer.effect.length == 12
    repairer.effect.report = disk.FAILED
    for _ in range(2):
        assert _recorder._repairer_next(ctypes.byref(repairer), ctypes.byref(found)) == -Cause.NOT_PERFORMED
    met.update((Cause.NEEDS_CHECKPOINT, Cause.SYNC_FAILED, Cause.NEEDS_MEND, Cause.NEEDS_OVERWRITE))
    met.add(Cause.NOT_PERFORMED)


def main():
    count = 0
    for data in files():
        wanted, got = modelled(data), found(data)
        if got != wanted:
            other = f"there is {str(got)[:300]} and not {str(wanted)[:300]}"
            sys.exit(f"rows: of {data[:80].hex()} .. ({len(data)} bytes) {other}")
        if len(sys.argv) > 1:
            check_cat(sys.argv[1], data)
        count += 1
    if len(sys.argv) > 1:
        check_kinds(sys.argv[1])
    recorded = check_record(sys.argv[2]) if len(sys.argv) > 2 else 0
    repairs = check_repairs()
    other_codes()
    missing = [cause.name for cause in CODES if cause not in met]
    if missing:
        sys.exit(f"rows: these codes weren't met: {' '.join(missing)}")
    done = f"{count} files read, {repairs} repaired and {recorded} recorded as the model says"
    print(f"rows: {done}, and each of {len(CODES)} codes met")


if __name__ == "__main__":
    main()
