#!/usr/bin/env python3
"""Kills recorders that continue in a next file, and looks at all their files: after a repair of the last two every
sample that was flushed, or whose write had returned, is there, in order, once. The recorders are `hound-wav record`, a
program with the Python package, one with the JavaScript package, one with the Cargo package hound, which buffers what
isn't flushed, and record.c. Of the last one each call of the system fails, too, and each one kills it; and what a loss
of power may leave is built from the calls of durable recorders. One that starts by itself again after each kill,
`hound-wav record --append`, is rejected by nothing. The files are read here by hand.

usage: parts.py [KILLS [short]]     (of each recorder, 200 where no number is given; short: without failing calls and
losses of power. It needs cc, and node, cargo and strace, or says so)"""
import itertools
import os
import random
import re
import shutil
import struct
import subprocess
import sys
import tempfile
import time

from recordings import TOP, Wrong, accepted_by, changed, compiled, contents_of, expect, part_name, parts_at, text_of

CHANNELS, BITS, FRAME, HEADER = 6, 24, 18, 68
FRAMES, PART = 100_000, 1000
# No frame is like another one.
DATA = b"".join(struct.pack("<I14x", number) for number in range(FRAMES))
SHAPE = ["48000", str(CHANNELS), str(BITS)]
# What a program of the two packages does: it writes blocks of so many frames in turn, says how many are written, and
# flushes after each third block.
SIZES = [300, 700, 2500, 1, 999]
IN_PYTHON = f"""
import array, sys
import hound_bindings as hound
path, data = sys.argv[1], memoryview(sys.stdin.buffer.read())
sizes, turn = {SIZES}, 0
durable = len(sys.argv) > 2
frames = len(data) // {FRAME}
with hound.create(path, 48000, {CHANNELS}, {BITS}, split={PART}, durable=durable) as writer:
    done = writer.tell()
    while done < frames:
        count = min(sizes[turn % len(sizes)], frames - done)
        piece = data[{FRAME} * done : {FRAME} * (done + count)]
        samples = [piece[i] | piece[i + 1] << 8 | piece[i + 2] << 16 for i in range(0, len(piece), 3)]
        writer.write(array.array("i", samples))
        done += count
        if turn % 3 == 0:
            writer.flush()
        if turn % 3 == 0 or not durable:
            print("written", done, flush=True)
        turn += 1
"""
CONTINUED = IN_PYTHON.replace("hound.create(", "hound.resume(")
IN_NODE = f"""
import fs from "node:fs";
import {{ record }} from "{TOP}/bindings/js/hound.js";
const [path] = process.argv.slice(2), data = fs.readFileSync(0), sizes = {SIZES};
const format = {{ sampleRate: 48000, channels: {CHANNELS}, bitsPerSample: {BITS} }};
const recorder = await record(path, format, {{ split: {PART} }});
for (let done = 0, turn = 0; done < {FRAMES}; turn++) {{
  const count = Math.min(sizes[turn % sizes.length], {FRAMES} - done), samples = new Int32Array({CHANNELS} * count);
  for (let i = 0; i < samples.length; i++) samples[i] = data.readUIntLE({FRAME} * done + 3 * i, 3);
  await recorder.write(samples);
  done += count;
  fs.writeSync(1, `written ${{done}}\\n`);
  if (turn % 3 === 0) await recorder.flush();
}}
await recorder.close();
"""
IN_RUST = f"""
use hound::parts::PartsWriter;
use std::io::Read;
fn main() -> hound::Result<()> {{
    let (mut words, mut data, sizes) = (std::env::args().skip(1), Vec::new(), {SIZES});
    let (path, is_durable) = (words.next().unwrap(), words.next().is_some());
    std::io::stdin().read_to_end(&mut data)?;
    let sample_format = hound::SampleFormat::Int;
    let spec = hound::WavSpec {{ channels: {CHANNELS}, sample_rate: 48000, bits_per_sample: {BITS}, sample_format }};
    let create = if is_durable {{ PartsWriter::create_durable }} else {{ PartsWriter::create }};
    let (mut writer, mut done) = (create(path, spec, {PART})?, 0);
    for turn in 0.. {{
        let count = sizes[turn % sizes.len()].min(data.len() / {FRAME} - done);
        if count == 0 {{
            break;
        }}
        let containers = data[{FRAME} * done..][..{FRAME} * count].chunks(3);
        let samples = containers.map(|bytes| i32::from_le_bytes([0, bytes[0], bytes[1], bytes[2]]) >> 8);
        writer.write_samples(&samples.collect::<Vec<_>>())?;
        done += count;
        if turn % 3 == 0 {{
            writer.flush()?;
            println!("written {{done}}");
        }}
    }}
    writer.finalize()
}}
"""
# With what the file of a recorder begins, by the specification, and what it may have left.
HEAD = b"RIFF\0\0\0\0WAVEfmt " + struct.pack(
    "<IHHIIHHHHI", 40, 0xFFFE, CHANNELS, 48000, 48000 * FRAME, FRAME, BITS, 22, BITS, (1 << CHANNELS) - 1
)
HEAD += b"\1\0\0\0\0\0\x10\0\x80\0\0\xaa\0\x38\x9b\x71data" + bytes(4)
FOUND = {
    "a kill within the header": HEAD[:40],
    "a kill before a checkpoint": HEAD + DATA[: 700 * FRAME + 5],
    "a kill at a seam": HEAD + DATA[: 1000 * FRAME],
}
# Wrong versions of record.c: a part, and what is in its place.
AT_THE_SEAM = "        if (code == 0) code = said(hound_file_write(&file, block, (uint64_t)count * spec.channels));\n"
WRONG = {
    "the block at a seam is dropped": (AT_THE_SEAM, AT_THE_SEAM.replace("if (code == 0)", "if (has_room != 0)")),
    "the block at a seam is written twice": (
        AT_THE_SEAM,
        AT_THE_SEAM + "        if (has_room == 0) hound_file_write(&file, block, (uint64_t)count * spec.channels);\n",
    ),
}
# Wrong versions of the durable one.
NEXT = "hound_file_create(&next, path, spec, file->is_durable, 0)"
WRONG_DURABLE = {
    "a next file that isn't durable": (NEXT, NEXT.replace("file->is_durable", "0")),
    "a file that is ended without a sync": (
        "    code = hound_file_checkpoint(file);\n    if (code < 0) return hound_file_give_up(&next",
        "    file->is_durable = 0;\n    code = hound_file_checkpoint(file);\n"
        "    if (code < 0) return hound_file_give_up(&next",
    ),
    "files whose names aren't synced": (
        "if (file->is_durable && hound_file_sync_folder(path) < 0) file->fault = errno;", ""
    ),
}


def counted_in(path):
    """The bytes of the samples that a file counts, all of which it holds; none where it has no whole header."""
    contents = contents_of(path)
    if len(contents) < HEADER:
        return b""
    (length,) = struct.unpack("<I", contents[HEADER - 4 : HEADER])
    expect("a file counts what it doesn't hold", contents[:4] == b"RIFF" and len(contents) >= HEADER + length)
    return contents[HEADER : HEADER + length]


def repaired(path, repair):
    """The samples of all files of a recording that was cut off, once its last files are repaired."""
    names = parts_at(path)
    before = [counted_in(name) for name in names]
    for name in names[-2:]:
        if os.path.getsize(name) >= HEADER:
            subprocess.run([*repair, name], check=True, stdout=subprocess.DEVNULL)
    parts = [counted_in(name) for name in names]
    for part, counted in zip(parts, before):
        expect("a sample that was counted is lost", part.startswith(counted) and len(part) % FRAME == 0)
    for part in parts[:-2]:
        expect("a file before the last two was cut off", len(part) <= FRAME * PART)
    expect("a sample is missing, there twice, or at another place", DATA.startswith(b"".join(parts)))
    return b"".join(parts)


class Recorders:
    def __init__(self, folder):
        self.folder = folder
        self.repair = [self.compiled("repair")]
        self.record = self.compiled("record")
        self.kinds = {
            "hound-wav record": self.by_command,
            "record.c": self.by(self.record),
            "the Python package": self.by_program(sys.executable, "program.py", IN_PYTHON),
        }
        if shutil.which("node"):
            self.kinds["the JavaScript package"] = self.by_program("node", "program.mjs", IN_NODE)
        else:
            print("parts: passed over, since node isn't here: the JavaScript package")
        if shutil.which("cargo"):
            self.kinds["the Cargo package"] = self.by_cargo()
        else:
            print("parts: passed over, since cargo isn't here: the Cargo package")

    def compiled(self, name, *change):
        """A program of bindings/c, in which a part is changed."""
        text = changed(text_of(name), *change) if change else text_of(name)
        return compiled(self.folder, name + str(len(os.listdir(self.folder))), text)

    def by_command(self, path):
        words = ["record", path, "--rate", SHAPE[0], "--channels", SHAPE[1], "--bits", SHAPE[2]]
        return [sys.executable, "-m", "hound_bindings", *words, "--split", str(PART), "--checkpoint", "0.01"]

    def by_cargo(self):
        crate = os.path.join(self.folder, "recorder")
        os.makedirs(os.path.join(crate, "src"))
        with open(os.path.join(crate, "src", "main.rs"), "w") as file:
            file.write(IN_RUST)
        with open(os.path.join(crate, "Cargo.toml"), "w") as file:
            file.write('[package]\nname = "recorder"\nversion = "0.1.0"\nedition = "2021"\n')
            file.write(f'[dependencies]\nhound = {{ path = "{TOP}/bindings/hound" }}\n')
        words = ["cargo", "build", "-q", "--offline", "--target-dir", os.path.join(crate, "target")]
        subprocess.run(words, cwd=crate, check=True)
        return lambda path: [os.path.join(crate, "target", "debug", "recorder"), path]

    @staticmethod
    def by(record):
        return lambda path: [record, path, *SHAPE, "700", "--split", str(PART)]

    def by_program(self, language, name, text):
        program = os.path.join(self.folder, name)
        with open(program, "w") as file:
            file.write(text)
        return lambda path: [language, program, path]


def frames_said(out):
    """How many frames a recorder says to have: those of a write that has returned, or of a checkpoint."""
    numbers = [line.split()[-1] for line in out.decode().splitlines() if line[-1:].isdigit()]
    is_of_frames = out.startswith(b"written")
    return int(numbers[-1]) // (1 if is_of_frames else CHANNELS) if numbers else 0


def killed(words, path, repair, share, delay):
    """Kills a recorder once it was given this share of all, or where it is, a while later, and looks at its files."""
    reads_all = words[-1] == path and "record" not in words  # A program of a package begins when all is read.
    sent = FRAMES if reads_all else int(share * FRAMES)
    pipes = {"stdin": subprocess.PIPE, "stdout": subprocess.PIPE, "stderr": subprocess.DEVNULL}
    with subprocess.Popen(words, **pipes) as running:
        out = b""
        try:
            running.stdin.write(DATA[: FRAME * sent])
            running.stdin.flush()
            if reads_all:
                running.stdin.close()
                while frames_said(out) < share * FRAMES and (line := running.stdout.readline()):
                    out += line
            time.sleep(delay)
        finally:
            running.kill()
        out += running.stdout.read()
        running.wait()
    if not os.path.exists(path):
        return 0
    frames = len(repaired(path, repair)) // FRAME
    # A pipe holds 65,536 bytes, and the recorder had read one piece more that it hadn't written yet.
    least = frames_said(out) if out else sent - (65536 + 18 * 3641) // FRAME - 1
    expect(f"only {frames} frames are there of {least}", frames >= least)
    return frames


def kill(recorders, words_for, some):
    """Kills a recorder in a new folder, and says how many frames it leaves."""
    with tempfile.TemporaryDirectory(dir=recorders.folder) as folder:
        path = os.path.join(folder, "take.wav")
        return killed(words_for(path), path, recorders.repair, some.random(), some.random() * 0.01)


def kills(recorders, kind, words_for, count):
    some, found = random.Random(kind), []
    for turn in range(count):
        try:
            found.append(kill(recorders, words_for, some))
        except Wrong as error:
            sys.exit(f"parts: {kind}, killed for the {turn + 1}. time: {error}")
    print(f"parts: {kind}: {count} kills, after {min(found)} to {max(found)} frames: nothing is lost", flush=True)


def frames_at(path):
    """How many whole frames the files of a recording hold, whatever their headers count."""
    names = itertools.takewhile(os.path.exists, (part_name(path, number) for number in itertools.count(1)))
    return sum(max(os.path.getsize(name) - HEADER, 0) // FRAME for name in names)


def started_again(recorders, count):
    """Starts `hound-wav record --append` again and again, and kills it each time: it is rejected by nothing that it
    left, and goes on after all frames that are there."""
    some, pipes = random.Random("started again"), {"stdin": subprocess.PIPE, "stderr": subprocess.PIPE}
    starts, frames, files = 0, 0, 0
    while starts < count:
        with tempfile.TemporaryDirectory(dir=recorders.folder) as folder:
            path = os.path.join(folder, "take.wav")
            words = [*recorders.by_command(path), "--append"]
            while starts < count and (held := frames_at(path)) < FRAMES - 65536 // FRAME:
                with subprocess.Popen(words, **pipes) as running:
                    # As many as a pipe holds, at most.
                    more = some.choice([0, 1, 100, 1500, 3600])
                    running.stdin.write(DATA[FRAME * held : FRAME * (held + more)])
                    running.stdin.flush()
                    time.sleep(some.uniform(0.05, 0.3))
                    running.kill()
                    said = running.stderr.read().decode()
                starts += 1
                expect(f"start {starts} is rejected: {said}", running.returncode == -9)
            frames += len(repaired(path, recorders.repair)) // FRAME
            files += len(parts_at(path))
    print(f"parts: hound-wav record --append: {starts} starts and kills, {frames} frames in {files} files: none is lost")


CALLS = ["pwrite64", "openat", "ftruncate", "fsync", "flock", "fcntl", "close", "newfstatat"]


def faults(recorders):
    """Each call of record.c on its files fails, once or from there on, and each one kills it."""
    if not shutil.which("strace"):
        return print("parts: passed over, since strace isn't here: failing calls of record.c")
    given, runs, failed = DATA[: FRAME * 2500], 0, 0
    for how, durable in itertools.product(("error=EIO", "error=EIO+", "signal=KILL"), ([], ["--durable"])):
        for call in CALLS:
            for number in itertools.count(1):
                with tempfile.TemporaryDirectory(dir=recorders.folder) as folder:
                    path, log = os.path.join(folder, "take.wav"), os.path.join(recorders.folder, "log")
                    when = f"{number}{'+' if how.endswith('+') else ''}"
                    traced = [word for part in (1, 2, 3) for word in ("-P", part_name(path, part))]
                    words = ["strace", "-qq", "-o", log, *traced, "-e", f"inject={call}:{how.rstrip('+')}:when={when}"]
                    record = [recorders.record, path, *SHAPE, "700", "--split", str(PART), *durable]
                    ran = subprocess.run([*words, *record], input=given, capture_output=True)
                    text = contents_of(log)
                    if b"(INJECTED)" not in text and b"SIGKILL" not in text and b"killed" not in text:
                        break
                    runs += 1
                    failed += ran.returncode != 0
                    what = f"record.c, with {call}:{how} at its {number}. call{' and --durable' * bool(durable)}"
                    try:
                        if not os.path.exists(path):
                            expect("nothing was recorded, and it isn't said", ran.returncode != 0)
                            continue
                        look(path, recorders.repair, accepted_by(ran.stdout, given, 3), ran)
                    except Wrong as error:
                        sys.exit(f"parts: {what}: {error}\n{ran.stdout.decode()}{ran.stderr.decode()}")
    said = f"in {runs} runs a call fails or kills it, {failed} of which end with an error"
    print(f"parts: record.c: {said}: nothing that was accepted is lost")


def look(path, repair, accepted, ran):
    """Whether the files have what was accepted: all of it; or, where it was killed, as much as it has said."""
    names = parts_at(path)
    counted = b"".join(counted_in(name) for name in names)
    for name in names:
        if os.path.getsize(name) >= HEADER:
            subprocess.run([*repair, name], check=True, stdout=subprocess.DEVNULL)
    held = b"".join(counted_in(name) for name in names)
    expect("what is counted wasn't accepted", accepted.startswith(counted) and held.startswith(counted))
    if ran.returncode < 0:
        expect("what is there wasn't accepted", accepted.startswith(held))
        expect("a checkpoint is lost", len(counted) >= FRAME * frames_said(ran.stdout))
    else:
        expect("not all that was accepted is there", held.startswith(accepted))
        expect("not all is counted, and it isn't said", ran.returncode != 0 or counted == accepted)


class Disk:
    """What a loss of power may leave of files, by the calls on them. A sector is that of any state since the last sync
    of its file, and a file whose folder wasn't synced since it was made may be missing."""

    def __init__(self):
        self.states, self.named = {}, set()

    def make(self, path):
        self.states.setdefault(path, [b""])

    def hold(self, path, contents):
        """A file that is stored."""
        self.states[path] = [contents]
        self.named.add(path)

    def cut(self, path, place):
        self.states[path].append(self.states[path][-1][:place])

    def change(self, path, place, written):
        contents = bytearray(self.states[path][-1])
        contents[place : place + len(written)] = written
        self.states[path].append(bytes(contents))

    def sync(self, path):
        if path in self.states:
            self.states[path] = self.states[path][-1:]
        else:  # the folder
            self.named.update(self.states)

    def left(self, chance):
        """The contents of all files that are there, in the order in which they were made."""
        for path, states in self.states.items():
            if path in self.named or chance.random() < 0.5:
                size = len(chance.choice(states))
                sectors = [chance.choice(states)[at : at + 512].ljust(512, b"\0") for at in range(0, size, 512)]
                yield b"".join(sectors)[:size]


def calls_of(words, path, given, log):
    """The calls of a recorder on its files, on their folder, and on its output."""
    output, traced = log + ".out", [part_name(path, number) for number in (1, 2, 3)]
    tracing = ["strace", "-f", "-qq", "-y", "-xx", "-s", "1000000", "-o", log]
    tracing += [word for name in [*traced, os.path.dirname(path), output] for word in ("-P", name)]
    with open(output, "wb") as file:
        tracing += ["-e", "trace=openat,lseek,write,pwrite64,ftruncate,fsync,fdatasync"]
        subprocess.run([*tracing, *words], input=given, stdout=file, check=True)
    places = {}  # where a `write` comes to
    with open(log) as file:
        for line in file:
            line = line.split(" ", 1)[1].strip()  # after the process
            if " = -1 " in line:
                continue  # as where it looks whether the second file is there
            strings = [bytes.fromhex(one.replace("\\x", "")) for one in re.findall(r'[<"]((?:\\x\w\w)*)[>"]', line)]
            name, place = line.split("(")[0], re.search(r", (\d+)\) += ", line)
            on, result = strings[-1 if name == "openat" else 0].decode(), int(re.search(r" = (\d+)", line)[1])
            if name == "openat":
                places[on] = 0
                yield name, on, 0, b""
            elif name == "lseek":
                places[on] = result
            elif name == "write" and on != output:
                places[on] += result
                yield "pwrite64", on, places[on] - result, strings[1][:result]
            else:
                yield name.replace("data", ""), on, int(place[1]) if place else 0, b"".join(strings[1:2])


def lost(recorders, words_for, what, is_wrong, before=None):
    """Builds what a loss of power may leave after each call of a durable recorder, and looks whether it counts what was
    accepted, in order, once, and at least what a checkpoint has said. Before that there may be a file."""
    given, chance, disk, out, built, wrong = DATA[: FRAME * 2500], random.Random(1), Disk(), b"", 0, 0
    with tempfile.TemporaryDirectory(dir=recorders.folder) as folder:
        path = os.path.join(folder, "take.wav")
        if before is not None:
            with open(path, "wb") as file:
                file.write(before)
            disk.hold(path, before)
        for name, on, place, written in calls_of(words_for(path), path, given, os.path.join(recorders.folder, "log")):
            if on.endswith(".out"):
                out += written
            elif name == "openat" and on != folder:
                disk.make(on)
            elif name == "pwrite64":
                disk.change(on, place, written)
            elif name == "ftruncate":
                disk.cut(on, place)
            elif name == "fsync":
                disk.sync(on)
            least = FRAME * frames_said(out)
            for _ in range(50):
                counted, built = b"", built + 1
                for contents in disk.left(chance):
                    (length,) = struct.unpack("<I", contents[HEADER - 4 : HEADER].rjust(4, b"\0"))
                    counted += contents[HEADER : HEADER + length].ljust(length, b"?")
                wrong += not given.startswith(counted) or len(counted) < least
    if not out or wrong > 0 and not is_wrong:
        sys.exit(f"parts: {what}: {wrong} of {built} losses of power leave wrong files")
    if wrong == 0 and is_wrong:
        sys.exit(f"parts: this wrong version isn't found: {what}")
    print(f"parts: {what}: {built} losses of power, {wrong} of which leave wrong files", flush=True)


def losses(recorders):
    if not shutil.which("strace"):
        return print("parts: passed over, since strace isn't here: losses of power")
    for what, words_for in recorders.kinds.items():
        if what in ("record.c", "the Python package", "the Cargo package"):
            durable = "--durable" if what == "record.c" else "durable"
            lost(recorders, lambda path: [*words_for(path), durable], what, False)
    words_for = recorders.by_program(sys.executable, "continued.py", CONTINUED)
    for found, before in FOUND.items():
        lost(recorders, lambda path: [*words_for(path), "durable"], f"resume of Python after {found}", False, before)
        lost(recorders, words_for, f"resume that syncs nothing after {found}", True, before)
    for what in ("record.c", "the Cargo package"):
        if what in recorders.kinds:
            lost(recorders, recorders.kinds[what], f"{what} that syncs nothing", True)
    for what, change in WRONG_DURABLE.items():
        words_for = recorders.by(recorders.compiled("record", *change))
        lost(recorders, lambda path: [*words_for(path), "--durable"], what, True)


def main():
    count = int(sys.argv[1]) if len(sys.argv) > 1 else 200
    with tempfile.TemporaryDirectory() as folder:
        recorders = Recorders(folder)
        for kind, words_for in recorders.kinds.items():
            kills(recorders, kind, words_for, count)
        try:
            started_again(recorders, 2 * count)
        except Wrong as error:
            sys.exit(f"parts: hound-wav record --append: {error}")
        for what, change in WRONG.items():
            wrong = recorders.compiled("record", *change)
            try:
                for turn in range(5):
                    kill(recorders, recorders.by(wrong), random.Random(turn))
            except Wrong:
                continue
            sys.exit(f"parts: this wrong version isn't found: {what}")
        print(f"parts: {len(WRONG)} wrong versions of record.c are found")
        if "short" not in sys.argv:
            losses(recorders)
            faults(recorders)


if __name__ == "__main__":
    main()
