#!/usr/bin/env python3
"""Kills recorders that start again each time, and go on with the same file: `record --append` of record.c, and
`continueFile` of the JavaScript package. Each kill comes at a random moment, and after some of them the file also loses
its end, as a loss of power may take what wasn't synced, or has only a part of a new header. Then the recorder starts
again, and must record: no start may be rejected. What the file counted or had said to hold is there, in order, and
nothing else. The files are read here by hand.

usage: starts.py [STARTS]     (of each recorder, 1,000 where no number is given. It needs cc, and node, or says so)"""
import os
import random
import shutil
import struct
import subprocess
import sys
import tempfile
import time

from recordings import TOP, Wrong, changed, compiled, contents_of, expect, text_of

# What a new file of two channels with 16 bits at 48,000 Hz begins with, before its first checkpoint.
HEADER = b"RIFF\0\0\0\0WAVEfmt " + struct.pack("<IHHIIHH", 16, 1, 2, 48000, 192000, 4, 16) + b"data\0\0\0\0"
FRAME, GIVEN = 4, 3000
IN_NODE = f"""
import fs from "node:fs";
import {{ continueFile }} from "{TOP}/bindings/js/hound.js";
const recorder = await continueFile(process.argv[2], {{ sampleRate: 48000, channels: 2, bitsPerSample: 16 }});
const block = Buffer.alloc({100 * FRAME});
for (let count; (count = fs.readSync(0, block)) > 0;) {{
  await recorder.write(new Int16Array(block.buffer, block.byteOffset, count / 2));
  await recorder.flush();
  fs.writeSync(1, "written\\n");
}}
await recorder.close();
"""
# Wrong versions of record.c: a part, and what is in its place.
WRONG = {
    "a part of a header is no new file": ("&& held < effect.length", "&& held == 0"),
    "a header that counts too much isn't repaired": ("if (code == HOUND_TRUNCATED || ", "if ("),
}


def recorders(folder):
    """The words that start each recorder, and how long one takes to begin."""
    words = ["48000", "2", "16", "100", "--append"]
    record = compiled(folder, "record", text_of("record"))
    kinds = {"record.c": (lambda path: [record, path, *words], 0.002)}
    for number, (what, change) in enumerate(WRONG.items()):
        wrong = compiled(folder, f"wrong{number}", changed(text_of("record"), *change))
        kinds[what] = (lambda path, wrong=wrong: [wrong, path, *words], 0.002)
    if shutil.which("node"):
        program = os.path.join(folder, "program.mjs")
        with open(program, "w") as file:
            file.write(IN_NODE)
        kinds["the JavaScript package"] = (lambda path: ["node", program, path], 0.06)
    else:
        print("starts: passed over, since node isn't here: the JavaScript package")
    return kinds


def held_in(path):
    """The bytes of the samples that a file counts, and of all whole frames that it holds."""
    contents = contents_of(path) if os.path.exists(path) else b""
    if len(contents) < len(HEADER):
        expect("a part of a header isn't that of a new file", HEADER.startswith(contents))
        return b"", b""
    (counted,) = struct.unpack("<I", contents[len(HEADER) - 4 : len(HEADER)])
    data = contents[len(HEADER) :]
    expect("the header counts more than the file holds", counted <= len(data))
    return data[:counted], data[: len(data) // FRAME * FRAME]


class Recording:
    """A file, and the frames that its recorders were given, each of which is a number."""

    def __init__(self, path, chance):
        self.path, self.chance, self.number, self.data = path, chance, 0, b""

    def given(self):
        self.number += GIVEN
        return b"".join(struct.pack("<I", number) for number in range(self.number - GIVEN, self.number))

    def killed(self, words, delay):
        """Starts a recorder, and kills it after a while."""
        given, pipes = self.given(), {"stdin": subprocess.PIPE, "stdout": subprocess.PIPE, "stderr": subprocess.PIPE}
        with subprocess.Popen(words, **pipes) as running:
            end = time.monotonic() + delay
            try:
                running.stdin.write(given)
                running.stdin.flush()
            except BrokenPipeError:
                pass
            time.sleep(max(end - time.monotonic(), 0))
            is_over = running.poll() is not None
            running.kill()
            out, error = running.communicate()
        expect(f"it ends before its input does: {error.decode()}", not is_over)
        counted, held = held_in(self.path)
        expect("older samples are lost", held.startswith(self.data))
        expect("other samples are there", (self.data + given).startswith(held))
        said = len(out.splitlines()) * 100 * FRAME  # A line follows each checkpoint, after 100 frames more.
        expect("a checkpoint is lost", not said or len(counted) >= len(self.data) + said)
        self.data = held

    def damaged(self):
        """Takes the end of the file, or leaves a part of a header."""
        size = os.path.getsize(self.path) if os.path.exists(self.path) else 0
        if self.chance.random() < 0.3:
            with open(self.path, "wb") as file:
                file.write(HEADER[: self.chance.randrange(len(HEADER))])
            self.data = b""
        elif size >= len(HEADER) and self.chance.random() < 0.5:
            os.truncate(self.path, self.chance.randrange(len(HEADER), size + 1))
            self.data = self.data[: (os.path.getsize(self.path) - len(HEADER)) // FRAME * FRAME]
        elif self.chance.random() < 0.2 and size:
            os.remove(self.path)
            self.data = b""

    def started(self, words):
        """Starts a recorder that ends by itself."""
        given = self.given()
        ran = subprocess.run(words, input=given, capture_output=True, timeout=60)
        expect(f"a start is rejected: {ran.stderr.decode()}", ran.returncode == 0)
        self.data += given
        expect("it isn't recorded", held_in(self.path) == (self.data, self.data))


def started(words_for, delay, count, seed):
    """Why a recorder is wrong, if it is, within so many starts."""
    chance = random.Random(seed)
    with tempfile.TemporaryDirectory() as folder:
        path = os.path.join(folder, "take.wav")
        recording = Recording(path, chance)
        try:
            for _ in range(count // 2):
                recording.killed(words_for(path), chance.random() * 2 * delay)
                recording.damaged()
                recording.started(words_for(path))
                if len(recording.data) > 1 << 20:
                    os.remove(path)
                    recording.data = b""
        except Wrong as error:
            return str(error)
    return None


def main():
    count = int(sys.argv[1]) if len(sys.argv) > 1 else 1000
    with tempfile.TemporaryDirectory() as folder:
        for kind, (words_for, delay) in recorders(folder).items():
            failure = started(words_for, delay, max(count, 40) if kind in WRONG else count, kind)
            if (failure is not None) != (kind in WRONG):
                sys.exit(f"starts: {kind}: {failure or 'this wrong version is not found'}")
            if kind not in WRONG:
                print(f"starts: {kind}: {count} starts, half of them killed: each records, and nothing is lost")
    print(f"starts: {len(WRONG)} wrong versions found")


if __name__ == "__main__":
    main()
