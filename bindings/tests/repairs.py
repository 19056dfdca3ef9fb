#!/usr/bin/env python3
"""Repairs files by bindings/c/repair.c, or by the example `repair` of bindings/hound, beside the model of hound_rows
and the Python package, which has to write and sync the same: those of the rows, and files that are cut off at each
byte. Then each of its calls of the system is killed or fails, and from these calls the states are built that a loss of
power may leave; each is repaired again. Wrong versions have to be found.

usage: repairs.py [cargo] [short]     (with the package hound_bindings on the path, strace, and cc or cargo)
With `short` it tries a fifth of the files, and all else as without."""
import errno
import fcntl
import itertools
import os
import re
import shutil
import signal
import struct
import subprocess
import sys
import tempfile

import hound_bindings as hound
import recordings
from python_faults import Wrong, leave
from python_program import CASES, LIST, STREAM, file_of, head
from recordings import contents_of
from rows import TOP, model, repaired_by_model, repairs
from wav import with_riff

HEADER = 44
IN_CARGO, IS_SHORT = (word in sys.argv[1:] for word in ("cargo", "short"))
SOURCES = ["hound/src/medium.rs", "hound/src/repair.rs"] if IN_CARGO else ["c/repair.c"]
# A file of 8 bits and one channel that was cut off, with no pad byte after its 1,099 samples, of which 100 are counted.
CUT_OFF = head(CASES[1], 100) + STREAM[:1099]
WHOLE, FOLLOWED = file_of(CASES[1], 1099), file_of(CASES[1], 1099, LIST)
# As a program leaves one that writes no pad byte.
ALL_COUNTED = with_riff(WHOLE[:-1], HEADER - 8 + 1099)
WAYS = {"mend": [], "to_end": ["to_end"]} if IN_CARGO else {
    "mend": [],
    "to_end": ["--to-end"],
    "canonical": ["--canonical"],
}
STATES = {
    "whole": "Whole" if IN_CARGO else "whole",
    "cut_off": "CutOff" if IN_CARGO else "cut off",
    "followed": "HasChunksAfterData" if IN_CARGO else "with chunks after the data",
    "all_counted": "AllCounted" if IN_CARGO else "whole, but not canonical (see --canonical)",
}
WRITES = ("write", "pwrite64")
TAG = b"TAG" + bytes(125)
# One that may not write what the user who tests has made.
OTHER_USER = {"user": 65534} if os.getuid() == 0 else {}
# Wrong versions of it: a part, and what is in its place.
SYNC = "is_done = !file->is_durable || hound_file_sync(file->descriptor) == 0;"
REPORT = "effect->report = is_done ? HOUND_DONE : HOUND_FAILED;"
MODE, BEGIN = "return HOUND_REPAIR;", "hound_repairer_begin(length, mode, &repairer);"
# A version that is right: of three reports two are lost, so that each effect is performed three times.
LOST = (
    REPORT,
    "static int number; effect->report = !is_done ? HOUND_FAILED : ++number % 3 ? HOUND_PENDING : HOUND_DONE;",
)
WRONG = {
    "no sync": (SYNC, "is_done = 1;"),
    "a sync that fails is ignored": (SYNC, "is_done = (hound_file_sync(file->descriptor), 1);"),
    "a write that fails is ignored": (REPORT, "effect->report = HOUND_DONE;"),
    "a write that is left out": (
        "is_done = hound_file_write_at(file->descriptor, effect->bytes, effect->length, effect->place) == 0;",
        "is_done = 1;",
    ),
    "a write at the end": (
        "pwrite(descriptor, bytes, count, (off_t)place)",
        "((void)place, lseek(descriptor, 0, SEEK_END), write(descriptor, bytes, count))",
    ),
    "a file is only looked at": (MODE, "return HOUND_FIND_DAMAGE;"),
    "--to-end without an effect": ("return HOUND_REPAIR_TO_END;", "return HOUND_REPAIR;"),
    "--canonical without an effect": ("return HOUND_MAKE_CANONICAL;", "return HOUND_REPAIR;"),
    "a file with chunks after the data is written": (MODE, "return HOUND_REPAIR_TO_END;"),
    "a file whose frames are all counted is written": (MODE, "return HOUND_MAKE_CANONICAL;"),
    "the frames that are held are said to be counted": ("(unsigned long)found.counted", "(unsigned long)found.frames"),
    "a length that isn't the file's": (BEGIN, BEGIN.replace("length", "length + 1")),
    "a short write isn't continued": (
        "if (more > 0) done += (size_t)more;\n        else if (more == 0) return errno = EIO, -1;",
        "if (more > 0) break;\n        else if (more == 0) return errno = EIO, -1;",
    ),
    "a read that fails is ignored": (
        "else if (more == 0) return (int64_t)done;\n        else if (errno != EINTR) return -1;",
        "else if (more == 0 || errno != EINTR) return (int64_t)done;",
    ),
    "a file that needs no repair is opened to be written": (
        "hound_file_repair_by(file, path, O_RDONLY, mode, found)",
        "hound_file_repair_by(file, path, O_RDWR, mode, found)",
    ),
    "a pipe is waited for": ("flags & O_RDWR ? 0 : O_NONBLOCK", "0"),
    "an error ends with status 0": ('why), 1)); }', 'why), 0)); }'),
    "what isn't read isn't named": ("if (code < 0) hound_file_look(file);", ""),
    "no lock": ("flock(descriptor, (is_shared ? LOCK_SH : LOCK_EX) | LOCK_NB)", "0"),
}
if IN_CARGO:
    SYNC, WRITTEN, READ = "sync(disk)", "Ok(count) => return Ok(count.min(bytes.len())),", "self.0.read(bytes)"
    FAILED = "Err(error) => return Err(error),"
    INTERRUPTED = "Err(error) if error.kind() == ErrorKind::Interrupted => {}\n" + " " * 16 + FAILED
    MEND, TO_END = "repair_by(Task::Repair, filename", "repair_by(Task::RepairToEnd, filename"
    WRONG = {
        "no sync": (SYNC, "Ok(())"),
        "a sync that fails is ignored": (SYNC, SYNC + ".or(Ok(()))"),
        "a write that fails is ignored": (FAILED, "Err(_) => return Ok(bytes.len()),"),
        "a write that is left out": ("match inner.write(bytes) {", "match inner.write(&bytes[..0]).map(|_| 9) {"),
        "a write at another place": ("inner.seek(SeekFrom::Start(to))", "inner.seek(SeekFrom::Start(to + 1))"),
        "a file is only looked at": (MEND, MEND.replace("Repair", "FindDamage")),
        "repair_file_to_end without an effect": (TO_END, MEND),
        "a file with chunks after the data is written": (MEND, TO_END),
        "a short write isn't continued": (WRITTEN, "Ok(_) => return Ok(bytes.len()),"),
        "an interrupted write isn't continued": (INTERRUPTED, FAILED),
        "a read that fails is ignored": (READ, READ + ".or(Ok(0))"),
    }


def compiled(folder, text):
    """The program of this text, which is that of all sources; in C with the library that the packages take."""
    if IN_CARGO:
        copy, ignored = os.path.join(folder, "bindings"), shutil.ignore_patterns("target")
        shutil.copytree(
            os.path.join(TOP, "bindings", "hound"), os.path.join(copy, "hound"), ignore=ignored, dirs_exist_ok=True
        )
        for source, part in zip(SOURCES, text.split("\0")):
            with open(os.path.join(copy, source), "w") as file:
                file.write(part)
        words = ["cargo", "build", "-q", "--offline", "--example", "repair", "--target-dir", copy]
        subprocess.run(words, cwd=os.path.join(copy, "hound"), check=True)
        return os.path.join(copy, "debug", "examples", "repair")
    return recordings.compiled(folder, "repair", text)


def ended(words, **options):
    """How a program has ended."""
    try:
        return subprocess.run(words, stdout=subprocess.PIPE, stderr=subprocess.PIPE, timeout=10, **options)
    except subprocess.TimeoutExpired:
        raise Wrong(f"{words} doesn't end") from None


def run(program, path, how="mend", **options):
    return ended([program, path, *WAYS[how]], **options)


def is_error(ran):
    """Whether a run ended with the status of an error, and with a message alone."""
    return (ran.returncode, ran.stdout) == (1, b"") and re.fullmatch(rb"(repair|Error): .+\n", ran.stderr)


def line_of(words, data):
    """What is printed of what the model finds of a file."""
    counted = ""
    if words[0] == "cut_off" and not IN_CARGO:
        start, channels, width = model.Damage(data, False).start, int(words[6]), int(words[10])
        number = int.from_bytes(data[start - 4 : start], "little") // (channels * width)
        counted = f", {'and' if number > int(words[2]) else 'of which'} the header counted {number}"
    return f"found {STATES[words[0]]}: {words[2]} frames{counted}, {words[4]} bytes left over\n"


def check(program, path, how, data):
    """Repairs a file, which has to be what the model says then, and what the Python package makes of it."""
    leave(path, data)
    os.utime(path, ns=(1, 1))
    ran, time = run(program, path, how), os.stat(path).st_mtime_ns
    words, wanted = repaired_by_model(how, data)
    what = f"the repair {how} of {data[:80].hex()} .. ({len(data)} bytes)"
    if isinstance(words, set):
        is_right = is_error(ran)
    else:
        is_right = (ran.returncode, ran.stdout.decode(), ran.stderr) == (0, line_of(words, data), b"")
    if not is_right:
        raise Wrong(f"{what} ends with {ran}, and not {words}")
    if contents_of(path) != wanted or (time == 1) != (wanted == data):
        raise Wrong(f"{what} leaves another file, or writes without need")
    if how == "canonical":
        return
    leave(path, data)
    try:
        hound.repair(path, to_end=how == "to_end")
    except hound.HoundError as error:
        if error.cause not in words:
            raise
    if contents_of(path) != wanted:
        raise Wrong(f"{what}: the Python package leaves another file")


def cut_files():
    """Files that are cut off at each byte, whose header counts two frames, none, all, or a byte less; and with bytes
    after them."""
    pairs = [(8, 1, False), (16, 2, False), (24, 3, False), (24, 4, False), (32, 4, False), (32, 4, True)]
    for (bits, width, is_float), channels in itertools.product(pairs, (1, 2, 3)):
        spec = model.Spec(channels, 44100, bits, width, is_float)
        data, start = STREAM[: 5 * channels * width], len(spec.header(0, 0))
        for counted in 2 * channels * width, 0, len(data), len(data) - 1:
            file = spec.header(start - 8 + counted + counted % 2, counted) + data
            for length in range(len(file) + 1):
                yield file[:length]
            for after in bytes(1), LIST, bytes(1) + LIST, TAG, LIST + TAG, b"\0\0\0", LIST[:-1]:
                yield file + after


def check_files(program, path, files):
    count = 0
    for count, (how, data) in enumerate(files, 1):
        check(program, path, how, data)
    return count


def check_long(program, path):
    """A file of 3 GB, of which only a part is in memory, and one that is too long."""
    length = 3 * 10**9 + 1
    leave(path, head(CASES[1], 0))
    os.truncate(path, HEADER + length)
    with open(os.devnull, "wb") as output:
        process = subprocess.Popen([program, path], stdout=output)
        _, status, usage = os.wait4(process.pid, 0)
    with open(path, "rb") as file:
        is_right = file.read(HEADER) == head(CASES[1], length) and os.path.getsize(path) == HEADER + length + 1
    if status or not is_right or usage.ru_maxrss > 100_000:
        raise Wrong(f"a file of 3 GB: {status}, {usage}")
    os.truncate(path, 2**32 + 8)
    if not is_error(run(program, path)):
        raise Wrong("a file of more than 4 GiB is no error")
    os.remove(path)


def check_errors(program, path):
    """What has no file that can be repaired. Each is an error with a message, and nothing is written."""
    folder = os.path.dirname(path)
    leave(path, CUT_OFF)
    os.chmod(path, 0o444)
    os.chmod(folder, 0o755)
    if not os.path.exists(path + ".pipe"):
        os.mkfifo(path + ".pipe")
    for what, words, options in [
        ("no file", [path + ".none"], {}),
        ("a folder", [folder], {}),
        ("a file that may not be written", [path], OTHER_USER),
        ("a pipe", [path + ".pipe"], {}),
        ("no words", [], {}),
        ("another word", [path, "--end"], {}),
        ("two files", [path, path], {}),
    ]:
        if not is_error(ended([program, *words], **options)):
            raise Wrong(f"{what}: no error")
    if contents_of(path) != CUT_OFF:
        raise Wrong("a file that may not be written is another")
    os.chmod(path, 0o644)
    with open("/dev/full", "w") as full:
        if subprocess.run([program, path], stdout=full, stderr=subprocess.PIPE).returncode != 1:
            raise Wrong("an output that is full is no error")
    return 8


def check_kinds(program, path):
    """A file that isn't read is named, and by what it becomes one that is. The numbers are those of mmreg.h."""
    rifx = "RIFX, whose numbers have their highest byte first"
    for place, other, name, command in [
        (20, b"\2\0", "Microsoft ADPCM", "ffmpeg -i FILE -c:a pcm_s16le NEW.wav"),
        (20, b"\x55\0", "MP3", "ffmpeg -i FILE -c:a pcm_s16le NEW.wav"),
        (0, b"riff", "Wave64", "ffmpeg -i FILE -c:a pcm_s32le NEW.wav"),
        (0, b"RIFX", rifx, "sox FILE -L NEW.wav"),
    ]:
        leave(path, WHOLE[:place] + other + WHOLE[place + len(other) :])
        ran, says = run(program, path), f"the file holds {name}, and isn't read: convert it by {command}"
        if not is_error(ran) or ran.stderr.decode() != f"repair: {path}: {says}\n":
            raise Wrong(f"{name} isn't named: {ran}")


def check_read_only(program, path):
    """A file of which nothing is to be written needs no permission to write it."""
    for how, data in ("mend", WHOLE), ("to_end", WHOLE), ("mend", FOLLOWED), ("mend", ALL_COUNTED):
        leave(path, data)
        os.chmod(path, 0o444)
        ran = run(program, path, how, **OTHER_USER)
        if (ran.returncode, ran.stdout.decode()) != (0, line_of(repaired_by_model(how, data)[0], data)):
            raise Wrong(f"a read-only file that needs no repair: {ran}")
        os.chmod(path, 0o644)


# What is killed, or whose calls fail: such a file, others with half frames or a pad byte that is missing, one with a
# head of 6 pages, and one that ends as if with a chunk.
CALLED = [
    ("mend", CUT_OFF),
    ("mend", head(CASES[2], 300) + STREAM[: 3 * 1099]),
    ("mend", head(CASES[2], 300) + STREAM[: 3 * 1099 + 2]),
    ("mend", head(CASES[3], 0) + STREAM[: 4 * 1099 + 3]),
    ("mend", head(CASES[5], 100) + STREAM[:1099]),
    ("to_end", head(CASES[1], 100) + STREAM[:101] + LIST),
    *([] if IN_CARGO else [("canonical", ALL_COUNTED)]),
]


def traced(program, path, before, how, *options):
    """Repairs a file under strace: how that ended, its calls on the file, each with the place and the bytes that it
    writes, and all that strace says."""
    leave(path, before)
    log = path + ".log"
    # Rust takes no notice of these where they fail: the sizes, the flags and the end of a file. A lock that can't be
    # had since there are none is no error, either.
    options = ["-e", "trace=!statx,fcntl,close,flock", *options]
    words = program if isinstance(program, list) else [program]
    words = ["strace", "-qq", "-xx", "-o", log, "-P", path, *options, *words, path, *WAYS[how]]
    ran = ended(words)
    said = contents_of(log).decode()
    calls, at = [], 0
    pattern = r'^(\w+)\((?:\d+, "([^"]*)", \d+(?:, (\d+))?\))?.* = (-?\d+)'
    for name, data, place, result in re.findall(pattern, said, flags=re.M):
        at = int(place or (result if name == "lseek" else at))
        calls.append((name, at, bytes.fromhex(data.replace("\\x", ""))))
        at += int(result) if name == "write" else 0
    return ran, calls, said


def written(contents, calls):
    """These contents after the writes among these calls."""
    contents = bytearray(contents)
    for name, place, data in calls:
        if name in WRITES:
            contents.extend(bytes(max(place - len(contents), 0)))
            contents[place : place + len(data)] = data
    return bytes(contents)


def are_wanted(contents, how, before):
    """Whether these are what a repair has to leave. Where one ended before the pad byte, which is written last, all
    samples are counted, and a repair leaves such a file as it is."""
    wanted = repaired_by_model(how, before)[1]
    start = before.index(b"data") + 8
    has_pad = wanted[start - 4] % 2 == 1 and len(wanted) > len(before)
    return contents == wanted or has_pad and contents == wanted[:-1]


def check_state(contents, how, before, what):
    """Looks whether a file counts only samples that it holds, and becomes the wanted one when it is repaired again."""
    start = before.index(b"data") + 8
    (length,) = struct.unpack("<I", contents[start - 4 : start])
    if len(contents) < start + length or contents[start : start + length] != before[start : start + length]:
        raise Wrong(f"{what}: samples are counted that aren't there")
    if len(contents) >= len(before) and not are_wanted(repaired_by_model(how, contents)[1], how, before):
        raise Wrong(f"{what}: what is left doesn't become the wanted file")


def check_calls(program, path, how, before):
    """Lets each call be killed or fail, once and from there on, and repairs again what is left."""
    done, runs = repaired_by_model(how, before)[1], 0
    ran, calls, _ = traced(program, path, before, how)
    if ran.returncode or contents_of(path) != done:
        raise Wrong(f"{how} of {len(before)} bytes leaves another file: {ran}")
    for at, (name, place, data) in enumerate(calls):
        number = sum(call[0] == name for call in calls[: at + 1])
        faults = ["signal=KILL:when={}", "error=EIO:when={}", "error=ENOSPC:when={}+"]
        faults += ["error=EINTR:when={}", "retval=1:when={}"] * (name in WRITES)
        for fault in (fault.format(number) for fault in faults):
            what = f"{name} {fault} of a file of {len(before)} bytes"
            ran, met, said = traced(program, path, before, how, "-e", f"inject={name}:{fault}")
            left = contents_of(path)
            runs += 1
            if not re.search("INJECTED|SIGKILL", said):
                raise Wrong(f"{what}: it isn't met")
            if "retval" in fault:  # It says that one byte was written: the others have to follow.
                is_right = ran.returncode == 0 and (len(data) == 1 or (name, place + 1, data[1:]) in met)
            elif "EINTR" in fault:
                is_right = ran.returncode == 0 and left == done
            else:
                is_right = ran.returncode == -signal.SIGKILL if "KILL" in fault else is_error(ran)
                is_right = is_right and left == written(before, calls[:at])
                is_right = is_right and ("EIO" not in fault or os.strerror(errno.EIO) in ran.stderr.decode())
            if not is_right:
                raise Wrong(f"{what}: {ran}")
            if "retval" in fault:
                continue
            check_state(left, how, before, what)
            if run(program, path, how).returncode or not are_wanted(contents_of(path), how, before):
                raise Wrong(f"{what}: what is left isn't repaired")
    return runs


def check_losses(program, path, how, before):
    """Builds from the calls what a loss of power may leave: any of the writes since the last sync. Of the file as it
    was found only what its header counts was synced."""
    _, calls, _ = traced(program, path, before, how)
    start = before.index(b"data") + 8
    end = start + struct.unpack("<I", before[start - 4 : start])[0]
    synced, waiting, states = before[:end], [("pwrite64", end, before[end:])], 0
    for call in calls:
        if call[0] == "fsync":
            synced, waiting = written(synced, waiting), []
        elif call[0] in WRITES:
            waiting.append(call)
        for some in itertools.product((False, True), repeat=len(waiting)):
            check_state(written(synced, itertools.compress(waiting, some)), how, before, "a loss of power")
            states += 1
    if waiting:
        raise Wrong("the last write isn't synced")
    return states


def check_same(program, path):
    """The Python package writes and syncs the same."""
    repair = "import hound_bindings, sys; hound_bindings.repair(sys.argv[1], durable=True, to_end=len(sys.argv) > 2)"
    for how, before in CALLED:
        made = []
        for one in program, [sys.executable, "-S", "-c", repair]:
            _, calls, _ = traced(one, path, before, how)
            changes = [call for call in calls if call[0] in (*WRITES, "fsync", "ftruncate")]
            made.append([("write", *call[1:]) if call[0] in WRITES else call[0] for call in changes])
        if made[0] != made[1] or not made[0]:
            raise Wrong(f"the Python package makes other changes: {made}")


def check_lock(program, path):
    """A file that a recorder has locked is rejected, and stays as it is."""
    for data in CUT_OFF, WHOLE:
        leave(path, data)
        with open(path, "rb") as file:
            fcntl.flock(file, fcntl.LOCK_EX)
            if not is_error(run(program, path)) or contents_of(path) != data:
                raise Wrong("a locked file is repaired")


def quick_checks(program, path, step):
    """How many files, errors, calls and losses of power were tried. The quickest checks come first, because a wrong
    version is tried until one of them finds it. Of each `step` files that are cut off one is repaired."""
    errors = check_errors(program, path)
    check_read_only(program, path)
    if not IN_CARGO:
        check_kinds(program, path)
    check_lock(program, path)
    some = itertools.islice(cut_files(), 0, None, step)
    files = check_files(program, path, ((how, data) for data in some for how in WAYS))
    calls = losses = 0
    for how, before in CALLED:
        calls += check_calls(program, path, how, before)
        losses += check_losses(program, path, how, before)
    return files, errors, calls, losses


def all_checks(program, path):
    """All that is tried of a right version."""
    step = 17 if IS_SHORT else 3
    files, errors, calls, losses = quick_checks(program, path, step)
    check_same(program, path)
    check_long(program, path)
    others = [data for number, data in enumerate(cut_files()) if number % step]
    files += check_files(program, path, (("mend", data) for data in others[:: 5 if IS_SHORT else 1]))
    files += check_files(program, path, itertools.islice(repairs(), 0, None, 5 if IS_SHORT else 1))
    print(f"repairs: {files} files, {errors} errors, {calls} killed or failing calls, {losses} states of a loss of power")


def main():
    text = "\0".join(contents_of(os.path.join(TOP, "bindings", source)).decode() for source in SOURCES)
    performing = contents_of(os.path.join(TOP, "bindings", "c", "hound_file.h")).decode()
    text = text.replace('#include "hound_file.h"\n', performing)
    # A sync costs nothing there.
    with tempfile.TemporaryDirectory(dir="/dev/shm" if os.path.isdir("/dev/shm") else None) as folder:
        folder = os.path.realpath(folder)
        path = os.path.join(folder, "a.wav")
        all_checks(compiled(folder, text), path)
        if not IN_CARGO:
            quick_checks(compiled(folder, text.replace(*LOST)), path, 60)
            print("repairs: the same with reports that are lost", flush=True)
        for what, (part, other) in WRONG.items():
            if text.count(part) != 1:
                sys.exit(f"repairs: {SOURCES} have another part than {part}")
            program = compiled(folder, text.replace(part, other))
            try:
                quick_checks(program, path, 60)
            except Wrong as error:
                print(f"repairs: wrong: {what}: found by {str(error)[:100]}", flush=True)
            else:
                sys.exit(f"repairs: this wrong version isn't found: {what}")


if __name__ == "__main__":
    try:
        main()
    except Wrong as error:
        sys.exit(f"repairs: {error}")
