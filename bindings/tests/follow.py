#!/usr/bin/env python3
"""Follows recordings that are killed. Recorders of C, Python, the command, Node and Cargo record what they are given,
in one file or in parts, durable or not, and are killed at random moments; some are then continued by another one, which
repairs the file first. A follower of another language reads the files meanwhile, until it ends by itself: each sample
that it gives has to be the accepted one, each that the headers count has to be given, and its status says whether a
repair brings more back. What becomes another file is an error. Before that followers.c does the same within one
program, many times, beside wrong followers. Files are read here by hand.

usage: follow.py [RUNS [FOLLOWERS_RUNS]]     (200 of programs and 10,000 of followers.c where none is given. It needs
the package hound_bindings on the path, cc, and node and cargo, or says so)"""
import collections
import concurrent.futures
import fcntl
import os
import random
import shutil
import struct
import subprocess
import sys
import tempfile
import threading
import time

from recordings import TOP, C, Wrong, changed, compiled, contents_of, expect, part_name

FRAME, HEADER, PART = 4, 44, 700
SHAPE = ["48000", "2", "16"]
# No frame is like another one.
DATA = b"".join(struct.pack("<I", number) for number in range(100_000))
IN_PYTHON = f"""
import array, os, sys
import hound_bindings as hound
path, *how = sys.argv[1:]
call = hound.resume if "append" in how else hound.create
with call(path, 48000, 2, 16, durable="durable" in how, split={PART} if "parts" in how else None) as writer:
    held = b""
    while piece := os.read(0, 4000):
        held += piece
        whole = len(held) // {FRAME} * {FRAME}
        writer.write(array.array("h", held[:whole]))
        held = held[whole:]
        if piece[0] < 128:
            writer.flush()
"""
IN_NODE = f"""
import fs from "node:fs";
import {{ continueFile, record }} from "{TOP}/bindings/js/hound.js";
const [path, ...how] = process.argv.slice(2), block = Buffer.alloc(4000);
const format = {{ sampleRate: 48000, channels: 2, bitsPerSample: 16 }};
const options = how.includes("parts") ? {{ split: {PART} }} : {{}};
const recorder = await (how.includes("append") ? continueFile(path, format) : record(path, format, options));
let held = Buffer.alloc(0);
for (let count; (count = fs.readSync(0, block)) > 0;) {{
  held = Buffer.concat([held, block.subarray(0, count)]);
  const whole = Math.floor(held.length / {FRAME}) * {FRAME};
  await recorder.write(new Int16Array(new Uint8Array(held.subarray(0, whole)).buffer));
  held = held.subarray(whole);
  if (block[0] < 128) await recorder.flush();
}}
await recorder.close();
"""
FOLLOWS_IN_PYTHON = """
import sys
import hound_bindings as hound
path, idle, *parts = sys.argv[1:]
for block in hound.follow(path, 333, timeout=60, poll=0.003, idle=float(idle), parts=bool(parts)):
    sys.stdout.buffer.write(block)
    sys.stdout.buffer.flush()
"""
FOLLOWS_IN_NODE = f"""
import fs from "node:fs";
import {{ follow }} from "{TOP}/bindings/js/hound.js";
const [path, idle, ...parts] = process.argv.slice(2);
while (!fs.existsSync(path)) await new Promise((resolve) => setTimeout(resolve, 3));
for await (const block of follow(path, {{ frames: 333, poll: 3, idle: 1000 * idle, parts: parts.length > 0 }})) {{
  const bytes = new Uint8Array(block.buffer);
  for (let given = 0; given < bytes.length;) given += fs.writeSync(1, bytes, given);
}}
"""
# A recorder has its file locked so many seconds after that is there.
STARTED = 0.5
# A wrong version of hound_follow.h: what takes the place of a part.
TRUSTS_THE_SIZE = (
    "    count = follower->counted - follow->given;\n",
    "    { uint64_t size; int is_regular; if (follower->data_start > 0"
    " && hound_file_find(follow->file.descriptor, &size, &is_regular) == 0) follower->counted ="
    " (uint32_t)hound_whole_frames(&follower->spec, size - follower->data_start); }\n"
    "    count = follower->counted - follow->given;\n",
)


def program(folder, name, text):
    path = os.path.join(folder, name)
    with open(path, "w") as file:
        file.write(text)
    return path


def follower_in_c(folder, name, *change):
    """follow.c, over hound_follow.h with a part changed."""
    text, header = (contents_of(os.path.join(C, file)).decode() for file in ("follow.c", "hound_follow.h"))
    header = changed(header, *change) if change else header
    return compiled(folder, name, changed(text, '#include "hound_follow.h"\n', header))


def example_in_rust(folder, name):
    """An example of the Cargo package hound."""
    target = os.path.join(folder, "target")
    words = ["cargo", "build", "-q", "--offline", "--example", name, "--target-dir", target]
    subprocess.run([*words, "--manifest-path", f"{TOP}/bindings/hound/Cargo.toml"], check=True)
    return os.path.join(target, "debug", "examples", name)


class Recorder:
    """What starts a recorder: by the path, and what it is to do beside recording. `can` is what it can."""

    def __init__(self, words_for, can, is_locked=lambda how: True):
        self.words_for, self.can, self.is_locked = words_for, can, is_locked


def recorders_in(folder):
    record = compiled(folder, "record", contents_of(os.path.join(C, "record.c")).decode())
    options = {"durable": ["--durable"], "append": ["--append"], "parts": ["--split", str(PART)]}

    def by_options(words):
        return lambda path, how: [*words(path), *(word for name in how for word in options[name])]

    shape = ["--rate", SHAPE[0], "--channels", SHAPE[1], "--bits", SHAPE[2], "--checkpoint", "0.005"]
    command = [sys.executable, "-m", "hound_bindings", "record"]
    in_python = program(folder, "record.py", IN_PYTHON)
    kinds = {
        "record.c": Recorder(by_options(lambda path: [record, path, *SHAPE, "50"]), {"durable", "append", "parts"}),
        "Python": Recorder(lambda path, how: [sys.executable, in_python, path, *how], {"durable", "append", "parts"}),
        "hound-wav": Recorder(by_options(lambda path: [*command, path, *shape]), {"durable", "append", "parts"}),
    }
    if shutil.which("node"):
        in_node = program(folder, "record.mjs", IN_NODE)
        words_for = lambda path, how: ["node", in_node, path, *how]  # noqa: E731
        kinds["Node"] = Recorder(words_for, {"append", "parts"}, lambda how: False)
    else:
        print("follow: passed over, since node isn't here: its recorder")
    if shutil.which("cargo"):
        in_rust = example_in_rust(folder, "record")
        # Without `durable` it locks nothing.
        words_for = lambda path, how: [in_rust, path, *SHAPE, "100", *how]  # noqa: E731
        kinds["Cargo"] = Recorder(words_for, {"durable", "append"}, lambda how: "durable" in how)
    else:
        print("follow: passed over, since cargo isn't here: its recorder")
    return kinds


class Follower:
    """What starts a follower: by the path, how long it waits for more of a recorder that locks nothing, and whether it
    goes on in parts. `can` is what it can: see that another file has the path, and tell by its status whether a repair
    brings more back. `says` is what it says of a file that becomes another one."""

    def __init__(self, words_for, can, says="the file was replaced, emptied or cut off meanwhile"):
        self.words_for, self.can, self.says = words_for, can, says


def followers_in(folder):
    in_c, in_python = follower_in_c(folder, "follow"), program(folder, "follow_it.py", FOLLOWS_IN_PYTHON)
    command = [sys.executable, "-m", "hound_bindings", "cat", "--follow", "--timeout", "60"]

    def by_options(words):
        return lambda path, idle, parts: [*words, path, "--idle", str(idle), *["--parts"] * parts]

    kinds = {
        "follow.c": Follower(
            lambda *how: by_options([in_c])(*how) + ["--timeout", "60", "--poll", "3"], {"parts", "path", "status"}
        ),
        "Python": Follower(
            lambda path, idle, parts: [sys.executable, in_python, path, str(idle), *["parts"] * parts],
            {"parts", "path"},
        ),
        "hound-wav": Follower(by_options(command), {"parts", "path", "status"}),
    }
    if shutil.which("node"):
        in_node = program(folder, "follow.mjs", FOLLOWS_IN_NODE)
        words = lambda path, idle, parts: ["node", in_node, path, str(idle + STARTED), *["parts"] * parts]  # noqa: E731
        kinds["Node"] = Follower(words, {"parts", "path"}, "TRUNCATED")
    else:
        print("follow: passed over, since node isn't here: its follower")
    if shutil.which("cargo"):
        in_rust = example_in_rust(folder, "follow")
        waits = f'while ! [ -e "$1" ]; do sleep 0.003; done; exec {in_rust} "$1" "$2"'
        words = lambda path, idle, _: ["sh", "-c", waits, "sh", path, f"{1000 * (idle + STARTED):.0f}"]  # noqa: E731
        kinds["Cargo"] = Follower(words, set(), "the file lacks samples that its header counts")
    else:
        print("follow: passed over, since cargo isn't here: its follower")
    return kinds


def held_in(path):
    """Of a recording in parts: the bytes of the samples that are counted, all whole frames that it holds, and whether a
    file has no whole header."""
    counted, held, number = b"", b"", 1
    while os.path.exists(part_name(path, number)):
        contents = contents_of(part_name(path, number))
        if len(contents) < HEADER:
            return counted, held, True
        (length,) = struct.unpack("<I", contents[HEADER - 4 : HEADER])
        expect("a header counts more than the file holds", length <= len(contents) - HEADER)
        counted += contents[HEADER : HEADER + length]
        held += contents[HEADER : HEADER + (len(contents) - HEADER) // FRAME * FRAME]
        number += 1
    return counted, held, number == 1


class Run:
    """A recording that is killed, and its follower."""

    def __init__(self, folder, some, recorder, how, follow):
        self.path = os.path.join(folder, "take.wav")
        self.some, self.recorder, self.how, self.sent = some, recorder, how, 0
        idle = 0 if recorder.is_locked(how) else 3
        words = follow.words_for(self.path, idle, "parts" in how)
        self.follower = subprocess.Popen(words, stdout=subprocess.PIPE, stderr=subprocess.PIPE)
        self.given = []
        self.reading = threading.Thread(target=lambda: self.given.append(self.follower.stdout.read()))
        self.reading.start()

    def record(self, how, is_killed):
        """Starts a recorder, gives it samples for a while after its file is there, and ends it."""
        words = self.recorder.words_for(self.path, how)
        pipes = {"stdin": subprocess.PIPE, "stdout": subprocess.DEVNULL, "stderr": subprocess.DEVNULL}
        with subprocess.Popen(words, **pipes) as running:
            os.set_blocking(running.stdin.fileno(), False)
            seconds, end = self.some.choice([0.002, 0.05, 0.2]) * self.some.random(), time.monotonic() + 20
            is_there, place = False, self.sent
            while time.monotonic() < end and running.poll() is None:
                if not is_there and os.path.exists(self.path):
                    is_there, end = True, time.monotonic() + seconds
                try:
                    more = self.some.randrange(1, 3000) if is_there or self.sent < 20000 else 0
                    self.sent += os.write(running.stdin.fileno(), DATA[self.sent : self.sent + more])
                except (BlockingIOError, BrokenPipeError):
                    pass
                time.sleep(0.001)
            if is_killed:
                running.kill()
            else:
                running.stdin.write(DATA[self.sent : -(-self.sent // FRAME) * FRAME])
                self.sent = -(-self.sent // FRAME) * FRAME
            running.stdin.close()
            running.wait()
        expect("its file isn't there", is_there and place <= self.sent)

    def look(self):
        """What the follower has given at its end, beside what the files count and hold."""
        self.reading.join()
        said = self.follower.stderr.read().decode()
        status = self.follower.wait()
        self.follower.stdout.close(), self.follower.stderr.close()
        return self.given[0], status, said


def run_once(recorder, how, follow, some, folder):
    """One run: what it counts for."""
    is_killed, is_continued = some.random() < 0.85, "append" in how
    run = Run(folder, some, recorder, how, follow)
    try:
        run.record([word for word in how if word != "append"], is_killed or is_continued)
        least = held_in(run.path)[0]
        if is_continued:
            _, held, has_none = held_in(run.path)
            if not has_none or recorder.can >= {"append", "parts"}:
                run.sent = len(held)
                run.record(how, is_killed)
    except Wrong:
        run.follower.kill()
        run.look()
        raise
    out, status, said = run.look()
    counted, held, has_none = held_in(run.path)
    expect(f"other samples are given ({len(out)} bytes): {said}", DATA[: run.sent].startswith(out))
    if is_continued:
        expect(f"{len(out)} of {len(least)} bytes are given: {said}", len(least) <= len(out) <= len(counted))
    else:
        expect(f"{len(out)} bytes are given, and {len(counted)} counted: {said}", out == counted)
        is_whole = not has_none and held == counted
        is_told = "status" not in follow.can or (status == 0) == is_whole
        expect(f"status {status}, and {len(held)} of {len(counted)}: {said}", is_told)
        expect("not all is recorded", is_killed or out == DATA[: run.sent])
    return {
        "killed": is_killed or is_continued, "with samples": len(out) > 0, "bytes": len(out),
        "checked for what a repair adds": len(held) > len(counted), "followed past a kill": len(out) > len(least),
    }  # fmt: skip


def runs(kinds, follows, count, seed, folder):
    """So many runs, three at a time."""
    totals, pairs = collections.Counter(), [(kind, name) for kind in kinds for name in follows if kind != name]

    def one(number):
        some = random.Random(f"{seed} {number}")
        kind, name = pairs[number % len(pairs)]
        recorder = kinds[kind]
        can = recorder.can & (follows[name].can | {"durable", "append"})
        how = [word for word in ("durable", "parts") if word in can and some.random() < 0.4]
        if "append" in recorder.can and "parts" not in how and some.random() < 0.3:
            how.append("append")
        with tempfile.TemporaryDirectory(dir=folder) as own:
            try:
                return run_once(recorder, how, follows[name], some, own)
            except Wrong as error:
                return f"run {number}, {kind} {' '.join(how)}, followed by {name}: {error}"

    with concurrent.futures.ThreadPoolExecutor(3) as pool:
        for result in pool.map(one, range(count)):
            if isinstance(result, str):
                return result
            totals.update(result)
    print(f"follow: {count} runs of {len(pairs)} pairs of programs: {dict(totals)}: none is wrong", flush=True)
    return None


def check_other_files(follows, folder):
    """What becomes another file while it is followed is an error, and nothing of that is given."""
    form = struct.pack("<IHHIIHH", 16, 1, 2, 48000, 192000, 4, 16)
    whole = b"RIFF" + struct.pack("<I", 36 + 4000) + b"WAVEfmt " + form
    whole += b"data" + struct.pack("<I", 4000) + DATA[:4000]
    for name, follow in follows.items():
        for what in "emptied", "cut off", "recorded anew", *["replaced"] * ("path" in follow.can):
            path = os.path.join(folder, "other.wav")
            with open(path, "wb", buffering=0) as file:
                fcntl.flock(file, fcntl.LOCK_EX)
                file.write(whole)
                pipes = {"stdout": subprocess.PIPE, "stderr": subprocess.PIPE}
                with subprocess.Popen(follow.words_for(path, 0, False), **pipes) as running:
                    given = running.stdout.read(4000)
                    if what == "replaced":
                        with open(path + "2", "wb") as other:
                            other.write(whole[::-1])
                        os.replace(path + "2", path)
                    else:
                        os.ftruncate(file.fileno(), 1000 if what == "cut off" else 0)
                    if what == "recorded anew":
                        os.pwrite(file.fileno(), whole[:44] + bytes(8000), 0)
                        os.pwrite(file.fileno(), struct.pack("<I", 8000), 40)
                    if what != "recorded anew":
                        fcntl.flock(file, fcntl.LOCK_UN)
                    try:
                        out, said = running.communicate(timeout=20)
                    finally:
                        running.kill()
                expect(f"{name} gives other samples", given == DATA[:4000])
                expect(f"{name}: a file that is {what} gives more: {len(out)}", not out)
                is_said = running.returncode == 1 and follow.says in said.decode()
                expect(f"{name}: a file that is {what} is no error: {said.decode()}", is_said)
    print("follow: a file that is emptied, cut off, recorded anew or replaced is an error of its follower", flush=True)


def main():
    count, many = (int(word) for word in (sys.argv[1:] + ["200", "10000"][len(sys.argv) - 1 :])[:2])
    with tempfile.TemporaryDirectory(dir="/dev/shm" if os.path.isdir("/dev/shm") else None) as folder:
        text = contents_of(os.path.join(TOP, "bindings/tests/followers.c")).decode()
        in_one = compiled(folder, "followers", text)
        if subprocess.run([in_one, folder, str(many)]).returncode:
            sys.exit("follow: followers.c is wrong")
        kinds, follows = recorders_in(folder), followers_in(folder)
        try:
            check_other_files(follows, folder)
        except Wrong as error:
            sys.exit(f"follow: {error}")
        wrong = follower_in_c(folder, "wrong", *TRUSTS_THE_SIZE)
        words_for = lambda path, idle, parts: [wrong, path, "--timeout", "60", "--poll", "1"]  # noqa: E731
        only = {"Python": Recorder(kinds["Python"].words_for, {"durable"})}
        if not runs(only, {"one that trusts the size": Follower(words_for, {"status"})}, 15, "wrong", folder):
            sys.exit("follow: one that trusts the size isn't found")
        failure = runs(kinds, follows, count, "right", folder)
        if failure:
            sys.exit(f"follow: {failure}")


if __name__ == "__main__":
    main()
