#!/usr/bin/env python3
"""Kills a recorder at random moments, lets its calls of the system fail, and builds from them what a
loss of power may leave, and looks at the file after each: no sample that was published is missing,
and none is counted that wasn't accepted. The recorders are the example `record`, bindings/c/record.c
and the example of bindings/hound, which also records frames of other shapes, and wrong versions of the
last two have to be found. On a disk that is full for a while each has to continue once there is room,
with all samples that it accepted. Then
bindings/tests/python_faults.py does so with programs that use the Python package, and bindings/tests/parts.py
with recorders that continue in a next file.

usage: doubt/faults.py [KILLS]     (1000 kills where no number is given)
       doubt/faults.py power ..    (losses of power in a virtual machine: see doubt/power/power.py)

It needs python3, strace, cc and cargo, and for a disk that fills up the right to mount a tmpfs; what it can't
do it says. The files are read here by hand, and not by the library."""
import collections
import contextlib
import fcntl
import itertools
import os
import random
import re
import resource
import shutil
import signal
import struct
import subprocess
import sys
import tempfile
import termios
import time

HERE = os.path.dirname(os.path.dirname(os.path.abspath(__file__)))
EXAMPLES = os.path.join(HERE, "crates", "hound_examples")

# How many channels the frames of a file have, and its samples bits.
Shape = collections.namedtuple("Shape", "channels bits")
MONO = Shape(1, 16)

# The recorders: the example `record`, with these last words, record.c, and the example of bindings/hound, which appends
# without syncs, too, and which repairs a file that was cut off before it appends.
PLAIN, DURABLE, APPENDING, UNSYNCED, REPAIRING = (
    "plain",
    "durable",
    "appending",
    "unsynced-appending Cargo",
    "repairing Cargo",
)
IN_C = {kind: f"{kind} C" for kind in (PLAIN, DURABLE, APPENDING)}
IN_CARGO = {kind: f"{kind} Cargo" for kind in IN_C}
WORDS = {PLAIN: [], DURABLE: ["durable"], APPENDING: ["durable", "append"]}
WORDS.update(
    {IN_C[kind]: ["--" + word for word in WORDS[kind]] + ["--overwrite"] * (kind != APPENDING) for kind in IN_C}
)
WORDS.update({IN_CARGO[kind]: WORDS[kind] for kind in IN_CARGO}, **{UNSYNCED: ["append"], REPAIRING: WORDS[APPENDING]})
# Those of bindings/hound record samples of other shapes, too.
SHAPES = {
    f"{kind} Cargo, {channels} channels of {bits} bits": Shape(channels, bits)
    for kind, channels, bits in [
        (DURABLE, 1, 8),
        (APPENDING, 2, 24),
        (DURABLE, 3, 8),
        (APPENDING, 5, 16),
        (DURABLE, 6, 24),
    ]
}
WORDS.update({kind: WORDS[kind.split()[0]] for kind in SHAPES})
# Wrong versions of the durable record.c, and of bindings/hound: what is in the place of a line of it.
SYNC_IN_C, WRITE_IN_C = (
    "case HOUND_SYNC: is_done = !file->is_durable",
    "    int32_t code = hound_recorder_write(&file->recorder, samples);",
)
SYNC_BUT_IN_C = SYNC_IN_C.replace("file->is_durable", "(file->is_durable && file->recorder.number != {})")
WRONG_IN_C = {
    "wrong C (sizes before the samples are synced)": (SYNC_IN_C, SYNC_BUT_IN_C.format(0)),
    "wrong C (sizes before the samples)": (
        WRITE_IN_C,
        "    file->recorder.data_length += 2 * samples, hound_file_checkpoint(file), file->recorder.data_length -= 2 * samples;\n"
        + WRITE_IN_C,
    ),
    "wrong C (sizes that aren't synced)": (SYNC_IN_C, SYNC_BUT_IN_C.format(3)),
}
SYNC = "|(disk, sync)| sync(disk)"
# Of a checkpoint's two syncs, that after the samples is the first.
SYNC_ONE = (
    "|(disk, sync)| { static SYNCS: std::sync::atomic::AtomicUsize = std::sync::atomic::AtomicUsize::new(0); "
    "if SYNCS.fetch_add(1, std::sync::atomic::Ordering::Relaxed) % 2 == WHICH { sync(disk) } else { Ok(()) } }"
)
# The sizes count a block that is written after that.
PUT_BLOCK = "        self.put_block()?;\n        self.put_pad()?;"
BEFORE_IT = (
    "let more = self.block.len() as u32; self.data_bytes_written += more; self.publish(true)?; "
    "self.data_bytes_written -= more; self.may_have_moved = true;\n" + PUT_BLOCK
)
BUFFERED = ("io::BufWriter::with_capacity(0, file)", "io::BufWriter::with_capacity(1 << 16, file)")
FLUSH = "self.call(|inner| inner.flush())?;"
WRONG_IN_CARGO = {
    "wrong Cargo (no sync)": ("fs::File::sync_data as SyncBy", "(|_| Ok(())) as SyncBy"),
    "wrong Cargo (a header that isn't synced)": ("        writer.flush()?;\n        Ok(writer)", "        Ok(writer)"),
    "wrong Cargo (buffered bytes that aren't synced)": (*BUFFERED, FLUSH, ""),
    "wrong Cargo (sizes before the samples are synced)": (SYNC, SYNC_ONE.replace("WHICH", "1")),
    "wrong Cargo (sizes before the samples)": (PUT_BLOCK, BEFORE_IT),
    "wrong Cargo (sizes that aren't synced)": (SYNC, SYNC_ONE.replace("WHICH", "0")),
    "wrong Cargo (appends to a file that isn't synced)": ("        file.sync_all()?;\n", ""),
}
WRONG = {**WRONG_IN_C, **WRONG_IN_CARGO}
# A wrong version that a full disk ends for good: what is buffered is written out by a sync, and fails as one.
ENDED = "wrong Cargo (a write that fails as a sync)"
WRONG_ON_FULL_DISKS = {
    ENDED: (*BUFFERED, FLUSH, "self.sync_has_failed = self.sync_has_failed || self.call(|inner| inner.flush()).is_err();"),
}
WORDS.update({what: ["--durable", "--overwrite"] for what in WRONG_IN_C})
WORDS.update({what: ["durable"] + ["append"] * ("appends" in what) for what in (*WRONG_IN_CARGO, ENDED)})
SYNCS = ("fsync", "fdatasync")
WRITES = ("write", "pwrite64")


def fail(words):
    sys.exit("faults: " + words)


def shape_of(kind):
    """The shape of what such a recorder records."""
    return SHAPES.get(kind, MONO)


def width_of(shape):
    """How many bytes a sample has."""
    return shape.bits // 8


def header_of(shape):
    """How many bytes are before the samples."""
    return 68 if shape.channels > 2 or shape.bits > 16 else 44


def sample(index, shape=MONO):
    """The number that is in the container of this sample: they count up, and begin anew at 32768, or from 255 at 128."""
    return index & 0x7F | 0x80 if shape.bits == 8 else index & 0x7FFF


def samples(count, first=0, shape=MONO):
    """So many samples, as they come from a device."""
    numbers = [sample(index, shape) for index in range(first, first + count)]
    if shape.bits == 24:
        return b"".join(number.to_bytes(3, "little") for number in numbers)
    return struct.pack(f"<{count}{'B' if shape.bits == 8 else 'H'}", *numbers)


def file_of(count, shape):
    """The bytes of a file of so many samples, and none where there are none."""
    if not count:
        return b""
    data, start, frame = samples(count, 0, shape), header_of(shape), shape.channels * width_of(shape)
    front = struct.pack("<HIIHH", shape.channels, 44100, 44100 * frame, frame, shape.bits)
    if start == 44:
        fmt = struct.pack("<IH", 16, 1) + front
    else:
        guid = bytes.fromhex("0100000000001000800000aa00389b71")
        fmt = (
            struct.pack("<IH", 40, 0xFFFE)
            + front
            + struct.pack("<HHI", 22, shape.bits, (1 << shape.channels) - 1)
            + guid
        )
    sizes = [struct.pack("<I", size) for size in (start - 8 + len(data) + len(data) % 2, len(data))]
    return b"RIFF" + sizes[0] + b"WAVEfmt " + fmt + b"data" + sizes[1] + data + bytes(len(data) % 2)


# How many samples the file has before such a recorder begins; of none there is no file.
BEFORE = {kind: 480 if "append" in "".join(words) else 0 for kind, words in WORDS.items()}
# How many of them its header counts. The file that is repaired was cut off in the sample after them.
COUNTED = {**BEFORE, REPAIRING: 390}


def found_by(kind):
    """The bytes that such a recorder finds when it begins."""
    data = samples(BEFORE[kind], 0, shape_of(kind))[width_of(shape_of(kind)) * COUNTED[kind] :]
    return file_of(COUNTED[kind], shape_of(kind)) + data + data[:1]


def begin(path, kind):
    """Leaves what is at the path before such a recorder begins, and says how many samples it has."""
    if os.path.exists(path):
        os.remove(path)
    if BEFORE[kind]:
        with open(path, "wb") as file:
            file.write(found_by(kind))
    return BEFORE[kind]


def command(folder, path, length, kind):
    """The recorder's words: its name says which example runs."""
    language = kind.split()[1].rstrip(",") if " " in kind else ""
    program = os.path.join(folder, named(kind) if kind.startswith("wrong") else "record" + language)
    shape = [] if language == "" else ["44100", *map(str, shape_of(kind))]
    return [program, path, *shape, str(length), *WORDS[kind]]


def named(what):
    """The name of a wrong version's program."""
    return re.sub(r"\W+", "_", what)


def given(folder, count, first=0, shape=MONO):
    """A file with what a recorder is given: so many samples."""
    path = os.path.join(folder, "given")
    with open(path, "wb") as file:
        file.write(samples(count, first, shape))
    return open(path, "rb")


def samples_in(data, shape):
    """The numbers in these containers."""
    if shape.bits == 24:
        return [low | middle << 8 | high << 16 for low, middle, high in zip(data[0::3], data[1::3], data[2::3])]
    return list(struct.unpack(f"<{len(data) // width_of(shape)}{'B' if shape.bits == 8 else 'H'}", data))


def samples_of(path, shape):
    """The samples that the file counts; it has them all, in whole frames, after hound's header."""
    with open(path, "rb") as file:
        data = file.read()
    start = header_of(shape)
    if data[:4] != b"RIFF" or data[8:16] != b"WAVEfmt " or data[start - 8 : start - 4] != b"data":
        fail(f"{path} has no header")
    (length,) = struct.unpack("<I", data[start - 4 : start])
    if length % (shape.channels * width_of(shape)) or len(data) < start + length:
        fail(f"{path} counts {length} bytes and has {len(data) - start}")
    return samples_in(data[start : start + length], shape)


def published_in(output):
    """The numbers of samples that a recorder said were published."""
    return [int(line) for line in output.decode().split("\n")[:-1] if line.isdigit()]


def accepted_in(output, count, shape):
    """The first so many samples that a recorder accepted: those that it said were lost are left out."""
    lost = collections.Counter()
    for more, after in re.findall(rb"^lost (\d+) samples after (\d+)\n", output, re.M):
        lost[int(after)] += int(more)
    passed = itertools.accumulate(lost[index] for index in range(count))
    return [sample(index + lost, shape) for index, lost in enumerate(passed)]


def recorded_in(output, shape=MONO):
    """How many samples a recorder said that it accepted, in whole frames, if it came to its end."""
    accepted = re.findall(rb"^recorded (\d+) samples\n", output, re.M)
    return int(accepted[-1]) // shape.channels * shape.channels if accepted else None


def look(path, output, before, most, what, shape=MONO):
    """Compares a file with what its recorder said, and returns how many samples it has."""
    accepted = recorded_in(output, shape)
    least = ([before] + published_in(output))[-1]
    most = most if accepted is None else accepted
    if not os.path.exists(path) or os.path.getsize(path) < header_of(shape):
        if least:
            fail(f"{what}: published {least}, and there is no file")
        return 0
    found = samples_of(path, shape)
    if len(found) < least:
        fail(f"{what}: published {least}, and the file has {len(found)}")
    if most is not None and len(found) > most:
        fail(f"{what}: accepted {most}, and the file has {len(found)}")
    if found != accepted_in(output, len(found), shape):
        fail(f"{what}: another sample")
    return len(found)


def kill(folder, count, kind):
    """Kills so many recorders, each at a random moment after its first checkpoint, and counts them. A
    file that is synced is then appended to."""
    path, shape = os.path.join(folder, "killed.wav"), shape_of(kind)
    least, most, between = None, 0, 0
    endless = os.path.join(folder, "endless")
    with open(endless, "wb") as file:
        period = samples(32768, 0, shape)
        for _ in range(1000):
            file.write(period)
    for turn in range(count):
        length = random.choice([1, 7, 50, 3000])
        with open(endless, "rb") as file:
            recorder = subprocess.Popen(command(folder, path, length, kind), stdin=file, stdout=subprocess.PIPE)
        first = recorder.stdout.readline()
        time.sleep(random.random() * 0.02)
        recorder.send_signal(signal.SIGKILL)
        rest, _ = recorder.communicate()
        whole = (first + rest).rsplit(b"\n", 1)[0] + b"\n"
        found = look(path, whole, 0, None, f"kill {turn} of lots of {length}", shape)
        between += found > int(whole.split()[-1])
        if kind in (DURABLE, IN_C[DURABLE], IN_CARGO[DURABLE]):
            if kind != DURABLE:  # It continues after all that the file holds.
                found = (os.path.getsize(path) - header_of(shape)) // width_of(shape)
            with given(folder, length, found) as file:
                ran = subprocess.run(
                    command(folder, path, length, kind.replace(DURABLE, APPENDING)), stdin=file, stdout=subprocess.PIPE
                )
            if ran.stdout != b"%d\nrecorded %d samples\n" % (found + length, found + length):
                fail(f"kill {turn}: what continues its {found} samples says {ran.stdout}")
            look(path, ran.stdout, found, found + length, f"kill {turn}, continued")
        least = found if least is None else min(least, found)
        most = max(most, found)
        if (turn + 1) % 100 == 0:
            print(f"faults: {turn + 1} of {count} recorders killed", flush=True)
    os.remove(endless)
    print(
        f"killed {count} {kind} recorders: {least} to {most} samples in the file, more than were said in {between}",
        flush=True,
    )
    return count


# A call of the system: its name, whether it is on the file, its folder or the output, the place of the
# file that it begins at, or cuts it off at, the bytes that it was given, and its result.
Call = collections.namedtuple("Call", "name on place given result")


def traced(path, lots, length, kind, inject=()):
    """Runs a recorder, whose calls on the file and its folder fail as these words of strace say; returns its
    status, its output and these calls. The calls on the output are shown where none fails."""
    folder, before = os.path.dirname(path), begin(path, kind)
    words = command(folder, path, length, kind)
    link, path = path, os.path.realpath(path)
    parts = {link: "file", path: "file", os.path.dirname(path): "folder"}
    log, output = path + ".log", path + ".out"
    if not inject:
        parts[output] = "output"
    tracing = ["strace", "-qq", "-y", "-xx", "-s", "1000000", "-o", log]
    tracing += [word for part in parts for word in ("-P", part)]
    tracing += ["-e", "trace=openat,read,write,pwrite64,lseek,ftruncate,fsync,fdatasync", *inject]
    with open(output, "wb") as file, given(folder, lots * length, before, shape_of(kind)) as reading:
        ran = subprocess.run([*tracing, *words], stdin=reading, stdout=file, stderr=subprocess.DEVNULL)
    calls, place = [], 0
    with open(log) as file:
        for line in file:
            name, rest = line.split("(", 1)
            strings = [bytes.fromhex(one.replace("\\x", "")) for one in re.findall(r'[<"]((?:\\x\w\w)*)[>"]', rest)]
            named = strings[1] if name == "openat" else strings[0]
            written = strings[1] if name in WRITES else b""
            result = int(re.match(r"-?\d+", rest.rsplit("= ", 1)[1])[0])
            on = parts[named.decode()]
            at = int(re.search(r", (\d+)\) += ", rest)[1]) if name in ("pwrite64", "ftruncate") else place
            calls.append(Call(name, on, at, written, result))
            if on == "file":
                place = result if name == "lseek" else place + result if name in ("read", "write") else place
    with open(output, "rb") as file:
        return ran.returncode, file.read(), calls


def traced_alone(path, lots, length, kind):
    """The calls of a recorder none of whose calls fails."""
    status, output, calls = traced(path, lots, length, kind)
    before, total = BEFORE[kind], BEFORE[kind] + lots * length
    if status != 0 or look(path, output, before, total, f"the {kind} recorder by itself", shape_of(kind)) != total:
        fail(f"the {kind} recorder fails by itself")
    return calls


def said_before(calls, name, which):
    """The checkpoints that were said before so many calls of this name."""
    for at, call in enumerate(calls):
        which -= call.name == name and call.on != "output"
        if which == 0:
            return said_by(calls[:at])


def said_by(calls):
    """The checkpoints that these calls say on the output."""
    return published_in(b"".join(call.given for call in calls if call.on == "output"))


def inject(folder, kind, names):
    """Lets each of these calls on the file and its folder fail in turn, once and from there on, and
    counts the runs. Each is met: the recorder's status says that a call failed. After a sync that failed
    no checkpoint is said; after a write or a seek that failed once the file has all accepted samples."""
    path = os.path.join(folder, "failing.wav")
    calls = traced_alone(path, 6, 40, kind)
    counts = collections.Counter(call.name for call in calls if call.on != "output")
    runs, met = 0, 0
    for name in names:
        for error in ["EIO", "ENOSPC"]:
            for which in range(1, counts[name] + 1):
                for when in [f"{which}", f"{which}+"]:
                    what = f"{kind}, {name} {when} {error}"
                    status, output, _ = traced(path, 6, 40, kind, ["-e", f"inject={name}:error={error}:when={when}"])
                    found = look(path, output, COUNTED[kind], BEFORE[kind] + 240, what, shape_of(kind))
                    recorded = recorded_in(output, shape_of(kind))
                    if name in WRITES + ("lseek",) and not when.endswith("+") and recorded not in (None, found):
                        fail(f"{what}: accepted {recorded}, and the file has {found}")
                    if name in SYNCS and published_in(output) != said_before(calls, name, which):
                        fail(f"{what}: a checkpoint is said after a sync that failed")
                    runs += 1
                    met += status == 1
    shown = ", ".join(f"{counts[name]} {name}" for name in names)
    print(f"the {kind} recorder whose calls failed in turn ({shown}): {runs} runs, {met} met the fault", flush=True)
    if met != runs:
        fail(f"{runs - met} runs hide the fault of a call")
    return runs


def order(folder):
    """The calls of durable recorders: the file is opened, it and its folder are synced, and then comes
    the first checkpoint: samples, a sync, the two sizes, a sync. One writes to a link into another folder,
    and one repairs the file first: a sync, the RIFF size, a sync, the data length, a sync."""
    path, link = os.path.join(folder, "ordered.wav"), os.path.join(folder, "link.wav")
    other = os.path.join(folder, "other")
    os.mkdir(other)
    os.symlink(os.path.join("other", "linked.wav"), link)
    recorders = [("a durable", DURABLE, path), ("an appending", APPENDING, path), ("a linked", DURABLE, link)]
    recorders += [
        (f"{what} {kinds[kind].split()[1]}", kinds[kind], to)
        for kinds in (IN_C, IN_CARGO)
        for what, kind, to in recorders
    ]
    recorders.append(("a repairing Cargo", REPAIRING, path))
    start = header_of(MONO)
    for what, kind, to in recorders:
        calls = [call for call in traced_alone(to, 1, 40, kind) if call.on != "output"]
        names = [(call.name, call.on) for call in calls]
        shown = " ".join(f"{name}({on})" for name, on in names)
        if kind == REPAIRING:
            last = max(at for at, name in enumerate(names) if name == ("openat", "file"))
            steps = [
                call.place if call.name in WRITES else "sync" for call in calls[:last] if call.name in WRITES + SYNCS
            ]
            if steps != ["sync", 4, "sync", 40, "sync"]:
                fail(f"{what} recorder repairs in another order than sync, RIFF size, sync, data length, sync: {shown}")
            calls, names = calls[last:], names[last:]
        opened = names.index(("openat", "file")) if ("openat", "file") in names else None
        written = next((at for at, (name, on) in enumerate(names) if name in WRITES and on == "file"), None)
        if opened is None or written is None:
            fail(f"{what} recorder opens no file, or writes nothing: {shown}")
        for on in ["file", "folder"]:
            if ("fsync", on) not in names[opened:written]:
                fail(f"{what} recorder writes before the {on} is synced: {shown}")
        if ("ftruncate", "file") in names[: names.index(("fsync", "folder"))]:
            fail(f"{what} recorder empties the file before the folder is synced: {shown}")
        recorded = [at for at, call in enumerate(calls) if call.name in WRITES and call.place + len(call.given) > start]
        syncs = [at for at in range(recorded[0] if recorded else 0, len(calls)) if names[at][0] in SYNCS]
        if len(recorded) < 1 or len(syncs) < 2:
            fail(f"{what} recorder has no sync before and after the sizes: {shown}")
        begin, end = syncs[:2]
        written = [
            call.given[max(start - call.place, 0) :] for call in calls[recorded[0] : begin] if call.name in WRITES
        ]
        sizes = [call.place for call in calls[begin:end] if call.name in WRITES]
        if b"".join(written) != samples(40, BEFORE[kind]) or sizes != [4, 40]:
            fail(f"{what} recorder's checkpoint has another order than samples, sync, two sizes, sync: {shown}")
    print(
        "durable, appending and linked recorders: the file and its folder synced; samples, sync, two sizes, sync",
        flush=True,
    )
    return len(recorders)


def is_wrong(contents, least, right, shape):
    """Whether a file counts fewer samples than these, one that it doesn't hold, a torn frame, or others than the right ones."""
    start, width = header_of(shape), width_of(shape)
    (length,) = struct.unpack("<I", contents[start - 4 : start])
    held = contents[start : start + length]
    return (
        length // width < least
        or length % (width * shape.channels) != 0
        or len(held) < length
        or held != right[:length]
    )


def lose(folder, kind):
    """Builds from a recorder's calls what a loss of power may leave: at each call from its first write
    or sync on, each sector of 512 bytes, and the length, is that of any state since the last sync; of
    a file that is appended to the disk may have had the header alone. Counts the wrong files."""
    calls, shape = traced_alone(os.path.join(folder, "lost.wav"), 8, 1500, kind), shape_of(kind)
    contents, losses, wrong = bytearray(found_by(kind)), 0, 0
    right, start = samples(BEFORE[kind] + 8 * 1500, 0, shape), header_of(shape)
    states = [bytes(contents[:start]), bytes(contents)]
    chance = random.Random(1)
    has_begun = is_created = False
    for at, call in enumerate(calls):
        if call.on != "file" or call.name == "openat":
            continue
        has_begun = has_begun or call.name not in ("read", "lseek")
        if call.name in WRITES:
            contents[call.place : call.place + call.result] = call.given[: call.result]
            states.append(bytes(contents))
        elif call.name == "ftruncate":
            del contents[call.place :]
            states.append(bytes(contents))
        elif call.name in SYNCS:
            states = [bytes(contents)]
        # What create_durable of bindings/hound returns has a header on the disk.
        is_created = is_created or "Cargo" in kind and call.name in WRITES and call.place >= start
        if not has_begun or len(contents) < start:
            continue
        least = ([0] + said_by(calls[:at]))[-1]
        for _ in range(100):
            size = max(len(chance.choice(states)), start)
            file = bytearray(size)
            for at in range(0, size, 512):
                part = chance.choice(states)[at : at + 512]
                file[at : at + len(part)] = part
            del file[size:]
            has_header = bytes(file[:4]) == b"RIFF"
            if has_header or least or is_created:
                losses += 1
                wrong += not has_header or is_wrong(bytes(file), least, right, shape)
    if wrong and kind.split()[0] not in (PLAIN, "wrong"):
        fail(f"{wrong} of {losses} losses of power leave a wrong file of the {kind} recorder")
    if kind in WRONG and not wrong:
        fail(f"{kind} isn't found")
    print(f"the {kind} recorder that loses its power: {losses} files built from its calls, {wrong} wrong", flush=True)
    return losses


@contextlib.contextmanager
def small_disk(folder):
    """A disk of 64 KiB, or none where no tmpfs can be mounted."""
    disk = os.path.join(folder, "disk")
    os.makedirs(disk, exist_ok=True)
    if subprocess.run(["mount", "-t", "tmpfs", "-o", "size=64k", "none", disk], stderr=subprocess.DEVNULL).returncode:
        print("a disk that fills up: not run, since no tmpfs can be mounted here")
        yield None
        return
    try:
        yield disk
    finally:
        subprocess.run(["umount", disk])


def fill(folder, kind):
    """Records on a disk that fills up, and beyond the largest length of a file; counts the runs."""

    def limited():
        signal.signal(signal.SIGXFSZ, signal.SIG_IGN)
        resource.setrlimit(resource.RLIMIT_FSIZE, (limit, limit))

    runs = 0
    path, shape = os.path.join(folder, "long.wav"), shape_of(kind)
    length = 100 if kind.split()[0] == PLAIN else 1000  # A sync takes its time.
    # In the last run the last half of the last lot, a block of more than is buffered, has no room.
    large = 10000
    last = header_of(shape) + width_of(shape) * (3 * large - large // 4)
    limits = [(limit, 90000, length) for limit in [10, 44, 45, 1000, 4096, 65536 + 44, 100001]]
    for limit, count, lot in [*limits, (last, 3 * large, large)]:
        with given(folder, count, 0, shape) as file:
            ran = subprocess.run(
                command(folder, path, lot, kind),
                stdin=file,
                stdout=subprocess.PIPE,
                stderr=subprocess.DEVNULL,
                preexec_fn=limited,
            )
        look(path, ran.stdout, 0, count, f"limit {limit}", shape)
        if ran.returncode != 1:
            fail(f"limit {limit}: no fault")
        os.remove(path)
        runs += 1
    print(f"the {kind} recorder, files longer than they may be: {runs} runs", flush=True)
    with small_disk(folder) as disk:
        for length in [1, 10, 1000] if disk else []:
            path = os.path.join(disk, "full.wav")
            with given(folder, 90000, 0, shape) as file:
                ran = subprocess.run(
                    command(folder, path, length, kind), stdin=file, stdout=subprocess.PIPE, stderr=subprocess.DEVNULL
                )
            look(path, ran.stdout, 0, 90000, f"full disk, lots of {length}", shape)
            if ran.returncode != 1:
                fail("the disk was not full")
            os.remove(path)
            runs += 1
    print(f"the {kind} recorder, a disk that fills up: {runs - 8} runs", flush=True)
    return runs


def give(recorder, data):
    """Gives a recorder these bytes, and waits until it has read them and reads on."""
    recorder.stdin.write(data)
    recorder.stdin.flush()
    is_done = False
    while not is_done:
        if recorder.poll() is not None:
            fail(f"{recorder.args} ends before its input does")
        time.sleep(0.005)
        (unread,) = struct.unpack("i", fcntl.ioctl(recorder.stdin, termios.FIONREAD, bytes(4)))
        with open(f"/proc/{recorder.pid}/stat") as file:
            is_done = unread == 0 and file.read().rsplit(")", 1)[1].split()[0] == "S"


def recover(folder, kind):
    """Records on a disk that is full until another file is removed, and then on; counts the runs. The last checkpoint
    is said, and with it the file has all samples that were accepted."""
    runs, shape = 0, shape_of(kind)
    with small_disk(folder) as disk:
        for length in [1, 10, 1000] if disk else []:
            what = f"a disk that is full for a while, {kind}, batches of {length}"
            path, other, output = (
                os.path.join(disk if name != "output" else folder, name) for name in ("a.wav", "other", "output")
            )
            before = begin(path, kind)
            with open(other, "wb") as file:
                file.write(bytes(32768))
            with open(output, "wb") as file:
                recorder = subprocess.Popen(
                    command(folder, path, length, kind), stdin=subprocess.PIPE, stdout=file, stderr=subprocess.DEVNULL
                )
                give(recorder, samples(21000, before, shape))
                with open(output, "rb") as reading:
                    at_full = published_in(reading.read())[-1]
                os.remove(other)
                give(recorder, samples(3000, before + 21000, shape))
                recorder.stdin.close()
                status = recorder.wait()
            with open(output, "rb") as file:
                said = file.read()
            found = look(path, said, before, before + 24000, what, shape)
            if status != 1 or at_full >= before + 21000:
                fail(f"{what}: it wasn't full")
            is_right = found == published_in(said)[-1] == recorded_in(said, shape) >= at_full + 3000
            if is_right == (kind == ENDED):
                fail(
                    f"{what}: {at_full} samples in the full file, {found} at the end, {recorded_in(said, shape)} accepted"
                )
            os.remove(path)
            runs += 1
    how = "ends" if kind == ENDED else "continues, with all samples that it accepted"
    print(f"the {kind} recorder, a disk that is full for a while: {runs} runs, it {how}", flush=True)
    return runs


def repaired(folder):
    """The calls of `mend` on a file that was cut off: a sync, the RIFF size, the data length and a missing pad byte,
    each of which comes right after a seek, and a sync after each; none where a chunk follows the data."""
    program = os.path.join(folder, "mend")
    os.symlink(build(), program)
    path = os.path.join(folder, "cut.wav")
    tracing = ["strace", "-qq", "-o", path + ".log", "-P", path, "-e", "trace=read,write,lseek,fsync,fdatasync"]
    front = b"RIFF" + bytes(4) + b"WAVEfmt " + struct.pack("<IHHIIHH", 16, 1, 1, 8000, 8000, 1, 8) + b"data"
    step = ["lseek", "write", "fsync"]
    list_chunk = b"LIST" + struct.pack("<I", 4) + b"INFO"
    for length, held, wanted in [
        (0, b"abcd", ["fsync"] + 2 * step),
        (0, b"abc", ["fsync"] + 3 * step),
        (3, b"abc" + list_chunk, []),
    ]:
        with open(path, "wb") as file:
            file.write(front + struct.pack("<I", length) + held)
        if subprocess.run(tracing + [program, path, "--yes"], stdout=subprocess.DEVNULL).returncode:
            fail("`mend` fails by itself")
        with open(path + ".log") as log:
            calls = [line.split("(")[0] for line in log]
        first = calls.index("fsync") if "fsync" in calls else len(calls)
        # The file is read after that.
        if calls[first : first + len(wanted)] != wanted or {"write", "fsync"} & set(calls[first + len(wanted) :]):
            fail(f"`mend` of {len(held)} bytes makes the calls {calls[first:]}, and not {wanted}")
    print(
        "a repair of a file: RIFF size, data length, a missing pad byte, with syncs between; none where a chunk follows",
        flush=True,
    )
    return 3


def in_python(count, folder):
    """Kills so many programs that append by the Python package, and recorders that continue in a next file, and lets
    calls of others fail."""
    subprocess.run([os.path.join(HERE, "bindings", "c", "install.sh"), folder], stdout=subprocess.DEVNULL, check=True)
    package = {
        "HOUND_C_LIBRARY": os.path.join(folder, "lib", "libhound_c.so"),
        "PYTHONPATH": os.path.join(HERE, "bindings", "python"),
    }
    for program, most in ("python_faults.py", count), ("parts.py", 200):
        words = [sys.executable, os.path.join(HERE, "bindings", "tests", program), str(min(count, most))]
        if subprocess.run(words, env={**os.environ, **package}).returncode:
            fail(f"{program} has found what isn't kept")


def versions(paths, program, wrong):
    """The texts of files, and of their wrong versions, each with its program's name."""
    texts = {}
    for path in paths:
        with open(os.path.join(HERE, path)) as file:
            texts[path] = file.read()
    yield program, texts
    for what, parts in wrong.items():
        changed = dict(texts)
        for line, other in zip(parts[::2], parts[1::2]):
            found = [path for path in paths if line in texts[path]]
            if len(found) != 1 or texts[found[0]].count(line) != 1:
                fail(f"{paths} have another line than {line}")
            changed[found[0]] = changed[found[0]].replace(line, other)
        yield named(what), changed


def compile_in_c(folder):
    """Compiles record.c and its wrong versions, with the library that the packages take."""
    library = os.environ.get("HOUND_C_LIB") or os.path.join(HERE, "bindings", "lib", os.uname().machine + "-linux")
    shutil.copy(os.path.join(HERE, "bindings", "c", "hound.h"), folder)
    paths = ["bindings/c/record.c", "bindings/c/hound_file.h"]
    for name, texts in versions(paths, "recordC", WRONG_IN_C):
        program = os.path.join(folder, name)
        for path in paths:
            with open(os.path.join(folder, os.path.basename(path)), "w") as file:
                file.write(texts[path])
        words = [os.environ.get("CC", "cc"), "-O1", os.path.join(folder, "record.c")]
        subprocess.run([*words, os.path.join(library, "libhound_c.a"), "-o", program], check=True)


def compile_in_rust(folder):
    """Compiles the example of bindings/hound, and the same over wrong versions of its writer."""
    copy = os.path.join(folder, "bindings")
    hound = os.path.join(HERE, "bindings", "hound")
    shutil.copytree(hound, os.path.join(copy, "hound"), ignore=shutil.ignore_patterns("target"))
    paths = [f"bindings/hound/src/{name}.rs" for name in ("writer", "medium", "proved/writer/output")]
    for name, texts in versions(paths, "recordCargo", {**WRONG_IN_CARGO, **WRONG_ON_FULL_DISKS}):
        for path, text in texts.items():
            with open(os.path.join(folder, path), "w") as file:
                file.write(text)
        subprocess.run(
            ["cargo", "build", "-q", "--offline", "--example", "record", "--target-dir", copy],
            cwd=os.path.join(copy, "hound"),
            check=True,
        )
        os.rename(os.path.join(copy, "debug", "examples", "record"), os.path.join(folder, name))


def build():
    """The program of the examples, which is proved and built where it isn't there."""
    program = os.path.join(EXAMPLES, "out", "hound_examples")
    if not os.path.exists(program):
        print("faults: proving and building the examples first", flush=True)
        subprocess.run(
            ["rt", "run"], cwd=EXAMPLES, stdin=subprocess.DEVNULL, stdout=subprocess.DEVNULL, stderr=subprocess.DEVNULL
        )
    if not os.path.exists(program):
        fail("the examples don't build: see `rt run` in crates/hound_examples")
    return program


def main():
    if sys.argv[1:2] == ["power"]:
        build()
        power = os.path.join(HERE, "doubt", "power", "power.py")
        os.execv(sys.executable, [sys.executable, power, *sys.argv[2:]])
    count = int(sys.argv[1]) if len(sys.argv) > 1 else 1000
    program = build()
    with tempfile.TemporaryDirectory() as folder:
        folder = os.path.realpath(folder)
        os.symlink(program, os.path.join(folder, "record"))
        compile_in_c(folder)
        compile_in_rust(folder)
        runs = order(folder)
        for kind in PLAIN, IN_C[PLAIN], IN_CARGO[PLAIN]:
            runs += kill(folder, count, kind) + kill(folder, count // 10, kind.replace(PLAIN, DURABLE))
        for kind in IN_C.values():
            runs += inject(folder, kind, ["openat", "pwrite64", "fsync"])
        shaped = list(SHAPES)
        for kind in shaped:
            runs += kill(folder, count // 10, kind) if DURABLE in kind else 0
        for kind in *IN_CARGO.values(), UNSYNCED, REPAIRING, *shaped:
            is_durable, appends = "durable" in WORDS[kind], "append" in WORDS[kind]
            names = ["openat", "write", "pwrite64"] + ["lseek", "read"] * appends + ["fsync", "fdatasync"] * is_durable
            runs += inject(folder, kind, names + ["ftruncate"] * (is_durable and not appends))
        runs += inject(folder, PLAIN, ["openat", "write", "lseek"])
        runs += inject(folder, DURABLE, ["openat", "write", "lseek", "fsync", "fdatasync"])
        runs += inject(folder, APPENDING, ["openat", "read", "write", "lseek", "fsync", "fdatasync"])
        for kinds in {kind: kind for kind in IN_C}, IN_C, IN_CARGO:
            runs += fill(folder, kinds[PLAIN]) + fill(folder, kinds[DURABLE])
            runs += sum(recover(folder, kind) for kind in kinds.values())
        wide = shaped[-1]
        runs += fill(folder, wide) + recover(folder, wide)
        recover(folder, ENDED)
        runs += repaired(folder)
        for kind in (
            DURABLE,
            APPENDING,
            IN_C[DURABLE],
            IN_C[APPENDING],
            IN_CARGO[DURABLE],
            IN_CARGO[APPENDING],
            REPAIRING,
            *shaped,
        ):
            runs += lose(folder, kind)
        for kind in PLAIN, IN_C[PLAIN], IN_CARGO[PLAIN], *WRONG:
            lose(folder, kind)  # These show that such files can be wrong.
        in_python(count // 5, os.path.join(folder, "python"))
    print(f"faults: {runs} runs, no published sample missing and none too many")


main()
