"""The command hound-wav, as it is called, and files whose header is lost."""
import array
import contextlib
import fractions
import io
import itertools
import json
import math
import os
import pty
import random
import re
import resource
import signal
import stat
import struct
import subprocess
import sys
import tempfile
import termios
import time
import unittest
import unittest.mock

import hound_bindings as hound
from hound_bindings import Info, State, command, disk, lost
from test_floats import WIDE, Folder, as_float32, nearest, silently
from test_streams import SAMPLES, content_of, forked
from wav import CHUNK, by_hand, made_by_wave, wave_of

# What a new file begins with.
PLAIN = by_hand(b"", channels=2, riff=0)
FORMS = [
    (bits, is_float, channels)
    for bits, is_float in ((8, False), (16, False), (24, False), (32, False), (32, True))
    for channels in (1, 2)
]


def tones(channels, frames, some):
    """Some sines in each channel, with a little noise, and a channel that is much like the other one."""
    partials = [(some.uniform(0.005, 0.08), some.uniform(0, 6)) for _ in range(4)]
    for frame in range(frames):
        both = sum(math.sin(frame * step + phase) for step, phase in partials) / 5
        for channel in range(channels):
            yield 0.8 * both + 0.2 * math.sin(frame * 0.03 + channel) + some.gauss(0, 0.001)


def stored(sample, bits, is_float):
    if is_float:
        return struct.pack("<f", sample)
    value = max(-(1 << bits - 1), min((1 << bits - 1) - 1, round(sample * (1 << bits - 1))))
    return bytes([value + 128]) if bits == 8 else (value % (1 << bits)).to_bytes(bits // 8, "little")


class Lost(Folder):
    def chunks_after(self, start):
        with disk.opened(self.path) as file:
            return lost.chunks_at_end(file, start, file.size())

    def test_a_guess(self):
        for turn, (bits, is_float, channels) in enumerate([*FORMS, *FORMS[1:], *FORMS]):
            some = random.Random(turn)
            level = (0.9, 0.2, 0.05 if bits > 8 else 0.5)[turn // 10]
            data = b"".join(stored(level * sample, bits, is_float) for sample in tones(channels, 9000, some))
            head = turn % 2 * 44  # Where nothing is said it is taken for one of 44 bytes.
            self.leave(bytes(head) + data)
            found = hound.guess(self.path, rate=8000) if head else hound.guess(self.path, skip=0, rate=8000)
            self.assertEqual(found, (8000, channels, bits, is_float, 0, head, 0), turn)
        for content in bytes(44), bytes(60000), b"":
            self.leave(content)
            nothing = "a.wav: there is nothing to guess by"
            self.assertRaisesRegex(ValueError, nothing, lambda: hound.guess(self.path, rate=8000))
        self.assertRaises(TypeError, lambda: hound.guess(self.path))

    def test_a_guess_of_what_looks_like_another_form(self):
        """Sound that was stored in more bits, or at twice its rate, or that has noise of a high pitch."""
        some = random.Random(1)
        noise = [some.uniform(-1, 1) for _ in range(20001)]

        def filtered(weight):
            level = 0.0
            for one in noise:
                yield (level := weight * level + one)

        slow = [3000 * level for level in filtered(0.9)]
        between = [(one + later) / 2 for one, later in zip(slow, slow[1:])]
        tone = [3000 * math.sin(place / 20) for place in range(20000)]
        for samples in (
            [256 * round(25 * level) for level in filtered(0.8)],
            [256 * round(20 * level) + some.choice((0, 0, 0, 1, -1)) for level in filtered(0.8)],
            [sample for pair in zip(slow, between) for sample in pair][:20000],
            [one + 20 * level for one, level in zip(tone, filtered(-0.6))],
        ):
            data = b"".join(struct.pack("<h", round(sample)) for sample in samples)
            for content, start in (bytes(44) + data, 44), (data[7:], 45):
                self.leave(content)
                self.assertEqual(hound.guess(self.path, rate=8000), (8000, 1, 16, False, 0, start, 0))
        # Where the lowest byte has little of the sound, samples that begin a byte later are quieter; but the header's
        # place is even.
        rough = [256 * round(20 * level) + round(10 * one) for level, one in zip(filtered(0.8), noise[::-1])]
        self.leave(bytes(44) + b"".join(struct.pack("<h", sample) for sample in rough))
        self.assertEqual(hound.guess(self.path, rate=8000), (8000, 1, 16, False, 0, 44, 0))

    def test_a_cue_point_is_no_header_of_the_data(self):
        for bits, channels in (16, 1), (24, 2):
            data = b"".join(stored(sample / 2, bits, False) for sample in tones(channels, 9000, random.Random(2)))
            for tag, chunk, counted in (
                (b"cue ", 0, 1), (b"cue ", 7, 1), (b"cue ", 0, 0), (bytes(4), 0, 1), (bytes(4), 0, 0),
            ):  # fmt: skip
                points = b"".join(struct.pack("<II4sIII", number, 0, b"data", chunk, 0, 0) for number in (1, 2))
                front = bytes(36) + tag + struct.pack("<II", 52, 2) + points + b"data"
                some = data[:300] + b"data" * counted + data[300 + 4 * counted :]  # also in the sound
                self.leave(front + struct.pack("<I", len(data) * counted) + some)
                found = hound.guess(self.path, rate=8000)
                self.assertEqual(found, (8000, channels, bits, False, 0, len(front) + 4, 0), (tag, chunk, counted))
                self.assertEqual(lost.start_of(self.path, 44), len(front) + 4)

    def test_where_a_guess_finds_the_first_frame(self):
        for bits, is_float, head, front, start in (
            (16, False, 44, b"", 44), (24, False, 80, b"", 80), (32, True, 58, b"", 58), (32, True, 68, b"", 68),
            (32, False, 44, b"", 44), (32, False, 504, b"", 80), (32, True, 0, b"\1" * 23, 47),
            (16, False, 0, b"\1RIFF" * 20 + b"data\x20\x4e\0\0", 108),
        ):  # fmt: skip
            data = b"".join(stored(0.5 * sample, bits, is_float) for sample in tones(2, 9000, random.Random(7)))
            self.leave(bytes(head) + front + data)
            found = hound.guess(self.path, rate=8000)
            self.assertEqual(found, (8000, 2, bits, is_float, 0, start, 0), (bits, head, front))
            copy = self.path[:-4] + ".repaired.wav"
            hound.repair(self.path, like=found)
            self.assertTrue(content_of(copy).endswith(data[64 * 8 :]), (bits, head, front))
            os.unlink(copy)

    def test_chunks_at_the_end(self):
        whole = made_by_wave(SAMPLES)
        for chunks, found in (
            (b"LIST\4\0\0\0INFO", ("LIST", 12)), (b"id3 \3\0\0\0abc\0", ("id3", 12)), (b"id3 \3\0\0\0abc", ("id3", 11)),
            (b"cue \0\0\0\0LIST\1\0\0\0a\0", ("cue", 18)), (b"abcdLIST\0\0\0\0", ("LIST", 8)), (b"", None),
            (b"LIST\5\0\0\0INFO", None), (b"LIST\3\0\0\0INFO1", None), (b"abcd\4\0\0\0INFO", None), (b"LIST", None),
            (b"LIST\1\0\0\0a\0cue ", None),
        ):  # fmt: skip
            self.leave(whole + chunks)
            self.assertEqual(self.chunks_after(44), found, chunks)
            self.assertIsNone(self.chunks_after(44 + len(whole) + len(chunks)))
        large, many = b"iXML" + struct.pack("<I", 1 << 20) + b" " * (1 << 20), b"FLLR\0\0\0\0" * 3000
        for name, chunks in ("iXML", large), ("FLLR", many), ("iXML", large + many):
            self.leave(whole + chunks)
            self.assertEqual(self.chunks_after(44), (name, len(chunks)))

    def test_a_header_that_is_lost(self):
        for bits, values in WIDE.items():
            good = wave_of(bits, values * 60000)
            data = good[44 : 44 + 300000 * bits // 8]
            for head, skip, more in (bytes(44), 44, b""), (b"", 0, b""), (bytes(7), 7, b"\1" * (bits > 8)):
                self.leave(head + data + more)
                found = hound.repair(self.path, like=Info(8000, 1, bits), skip=skip)
                self.assertEqual(found, (State.CUT_OFF, 300000, len(more)))
                copy = self.path[:-4] + ".repaired.wav"
                samples = array.array("h" if bits <= 16 else "i", values * 60000)
                self.assertEqual(hound.read_with_info(copy), (samples, hound.info(copy)))
                self.assertEqual(hound.info(copy)[:5], (8000, 1, bits, False, 300000))
                self.assertEqual(content_of(self.path), head + data + more)
                self.assertRaises(FileExistsError, lambda: hound.repair(self.path, like=Info(8000, 1, bits)))
                os.unlink(copy)
        self.leave(bytes(44) + SAMPLES.tobytes())
        damaged = bytearray(made_by_wave(SAMPLES))
        damaged[16:36] = bytes(20)  # A fmt chunk of zeros, and another chunk, whose data's header still is there.
        for more in b"", CHUNK:
            self.leave(damaged[:36] + more + damaged[36:])
            self.assertEqual(hound.repair(self.path, like=Info(8000, 2, 16)).frames, 5)
            copy = self.path[:-4] + ".repaired.wav"
            self.assertEqual(content_of(copy), made_by_wave(SAMPLES))
            os.unlink(copy)
        like = hound.info(made_by_wave(SAMPLES))  # It says where the samples begin.
        hound.repair(self.path, like=like, copy=self.path + "2")
        self.assertEqual(content_of(self.path + "2"), made_by_wave(SAMPLES))

    def test_an_error_leaves_no_copy(self):
        self.leave(bytes(100))
        self.fails(hound.Cause.NOT_WRITABLE, lambda: hound.repair(self.path, like=Info(8000, 1, 12)))
        self.assertRaises(TypeError, lambda: hound.repair(self.path, like="b.wav"))
        self.assertRaises(TypeError, lambda: hound.repair(io.BytesIO(), like=Info(8000, 1, 16)))
        like = Info(8000, 1, 16)
        self.assertRaisesRegex(ValueError, "^skip is -1", lambda: hound.repair(self.path, like=like, skip=-1))
        with unittest.mock.patch("os.pread", side_effect=lambda *_: os.close(-1)):
            for more in dict(skip=0), {}:
                with self.assertRaises(OSError) as caught:
                    hound.repair(self.path, like=Info(8000, 1, 16), **more)
                self.assertEqual(caught.exception.filename, self.path)
        with self.assertRaises(hound.HoundError) as caught:
            hound.repair(self.path, copy=self.path + "2")
        # The file that is there is named.
        self.assertEqual((caught.exception.cause, caught.exception.filename), (hound.Cause.NO_RIFF_TAG, self.path))
        self.assertEqual(os.listdir(os.path.dirname(self.path)), ["a.wav"])


class Command(Folder):
    def setUp(self):
        super().setUp()
        self.folder = os.path.dirname(self.path)

    def begun(self, *words, **more):
        package = os.path.dirname(os.path.dirname(hound.__file__))
        env = {**os.environ, "PYTHONPATH": package, "PYTHONIOENCODING": "utf-8:strict"}
        words = [sys.executable, "-m", "hound_bindings", *words]
        pipes = dict.fromkeys(("stdin", "stdout", "stderr"), subprocess.PIPE)
        return subprocess.Popen(words, cwd=self.folder, env=env, **pipes, **more)

    def run_command(self, *words, given=b"", status=0, **more):
        """What the command prints, with this status."""
        running = self.begun(*words, **more)
        out, self.said = running.communicate(given, timeout=60)
        self.assertEqual(running.returncode, status, self.said)
        self.assertNotIn(b"Traceback", self.said)
        return out

    def leave_as(self, name, content):
        os.makedirs(os.path.dirname(os.path.join(self.folder, name)), exist_ok=True)
        with open(os.path.join(self.folder, name), "wb") as file:
            file.write(content)

    def content(self, name):
        return content_of(os.path.join(self.folder, name))

    def test_info(self):
        whole, cut_off = made_by_wave(SAMPLES), by_hand(bytes(8), 4)
        self.leave_as("a.wav", whole)
        self.leave_as("b.wav", cut_off)
        form = b"8000 Hz, 2 channels, 16 bits, 5 frames, 0.001 s"
        self.assertEqual(self.run_command("info", "a.wav"), b"a.wav: " + form + b", whole\n")
        said = self.run_command("info", "b.wav", status=1)
        said_of_it = b"1 channel, 16 bits, 0.001 s, cut off: 4 frames, of which the header counted 2\n"
        self.assertIn(said_of_it, said)
        said = self.run_command("info", ".", status=1).splitlines()
        self.assertEqual((len(said), said[2]), (3, b"2 files: 9 frames, 0.001 s"))  # 5 and 4 at 8000 Hz
        self.leave_as("c.wav", by_hand(bytes(3), width=1))  # It lacks the pad byte.
        said = self.run_command("info", "c.wav")
        note = b"the RIFF size or the pad byte isn't as the format asks"
        self.assertEqual(said, b"c.wav: 8000 Hz, 1 channel, 8 bits, 3 frames, 0.000 s, whole (" + note + b")\n")
        os.unlink(os.path.join(self.folder, "c.wav"))
        said = self.run_command("info", "-", given=whole)
        self.assertIn(b"-: " + form + b", as its header says\n", said)
        names = ("a.wav", "none.wav", "b.wav", "-")
        rows = self.run_command("info", "--json", *names, given=whole[:50], status=1).splitlines()
        first, second, third, last = map(json.loads, rows)
        self.assertEqual((first["frames"], first["seconds"], first["state"]), (5, 5 / 8000, "whole"))
        self.assertEqual((third["frames"], third["frames_counted"], third["frames_held"]), (2, 2, 4))
        self.assertEqual(second, {"file": "none.wav", "error": "none.wav: No such file or directory"})
        self.assertEqual((last["frames"], "state" in last), (5, False))

    def test_a_name_that_is_no_text_and_what_is_closed(self):
        name = os.path.join(os.fsencode(self.folder), b"\xff.wav")
        with open(name, "wb") as file:
            file.write(by_hand(bytes(8), 4))
        self.assertIn(b"\xff.wav", self.run_command("repair", "."))
        self.assertEqual(content_of(name), by_hand(bytes(8)))
        form = ("--rate", "8000", "--channels", "1", "--bits", "8")
        self.run_command("record", "b.wav", *form, preexec_fn=lambda: os.close(0))
        self.assertEqual(hound.info(os.path.join(self.folder, "b.wav")).frames, 0)
        self.run_command("info", "b.wav", preexec_fn=lambda: os.close(1))

    def test_names_forge_no_line(self):
        names = "a\nb.wav: whole.wav", "c\r\33[2Kd\x85e\u2028f.wav"
        shown = [b"a\\nb.wav: whole.wav", rb"c\r\x1b[2Kd\x85e\u2028f.wav"]
        for name in names:
            self.leave_as(name, by_hand(bytes(8)))
        said = self.run_command("info", *names).splitlines()
        self.assertEqual([line.split(b": 8000")[0] for line in said[:-1]], shown)
        lines = self.run_command("repair", ".").splitlines()[1:]
        self.assertEqual([line.split(b"./")[1] for line in lines], shown)
        for name, other in zip(names, shown):
            self.run_command("info", name + "2", status=1)
            self.assertEqual(self.said, b"hound-wav: " + other + b"2: No such file or directory\n")
        self.run_command("record", names[0], "--append", given=b"12")
        self.assertRegex(self.said, rb"^a\\nb.wav: whole.wav: .*\n$")
        out = self.run_command("repair", "--like", "8000,1,16", names[1])
        self.assertEqual(out.count(b"\n"), 1)
        rows = self.run_command("info", "--json", names[0]).splitlines()
        self.assertEqual([json.loads(row)["file"] for row in rows], [names[0]])

    def test_standard_error_is_closed(self):
        """No file has its descriptor, and no error goes elsewhere."""
        content, closed = made_by_wave(SAMPLES), {"preexec_fn": lambda: os.close(2)}
        self.leave_as("a.wav", content)
        self.assertEqual(self.run_command("cat", "a.wav", **closed), SAMPLES.tobytes())
        self.assertEqual(self.run_command("convert", "a.wav", "b.wav", **closed), b"")
        self.assertEqual(self.content("b.wav"), content)
        self.run_command("repair", "--like", "8000,2,16", "--skip", "44", "a.wav", **closed)
        self.assertEqual(self.content("a.repaired.wav"), content)
        form = ("--rate", "8000", "--channels", "2", "--bits", "16")
        self.run_command("record", "c.wav", *form, given=content[44:], **closed)
        self.assertEqual(self.content("c.wav"), content)
        for words, status in ((["info", "none.wav"], 1), (["convert", "a.wav", "b.wav"], 2), (["convert"], 2)):
            self.assertEqual(self.run_command(*words, status=status, **closed), b"")
        self.run_command("cat", "a.wav", preexec_fn=lambda: os.closerange(0, 3))

    def test_pipes(self):
        """They are read once, and none is waited for that is in a folder or can't be repaired."""
        self.leave_as("x/a.wav", made_by_wave(SAMPLES))
        os.mkfifo(os.path.join(self.folder, "x/b.wav"))
        form = b": 8000 Hz, 2 channels, 16 bits, 5 frames, 0.001 s, "
        inner, outer = os.pipe()
        os.write(outer, self.content("x/a.wav"))
        os.close(outer)
        out = self.run_command("info", f"/dev/fd/{inner}", pass_fds=[inner])
        os.close(inner)
        self.assertEqual(out, f"/dev/fd/{inner}".encode() + form + b"as its header says\n")
        self.assertEqual(self.run_command("info", "x"), b"x/a.wav" + form + b"whole\n")
        self.assertEqual(self.run_command("repair", "x").count(b"\n"), 2)
        os.symlink("none", os.path.join(self.folder, "x/c.wav"))
        self.run_command("info", "x", status=1)
        self.assertEqual(self.said, b"hound-wav: x/c.wav: No such file or directory\n")
        for words in [], ["--guess"], ["--like", "8000,1,16"], ["--copy"], ["--dry-run"]:
            self.run_command("repair", *words, "x/b.wav", status=1)
            self.assertEqual(self.said, b"hound-wav: x/b.wav: a pipe can't be sought in\n")
        for _ in range(2):
            feed = subprocess.Popen(["sh", "-c", "cat x/a.wav > x/b.wav"], cwd=self.folder)
            self.assertEqual(self.run_command("info", "x/b.wav"), b"x/b.wav" + form + b"as its header says\n")
            feed.wait()

    def test_convert_writes_into_a_device_or_a_pipe(self):
        """These are its own: a wrong version replaces them."""
        self.leave_as("a.wav", made_by_wave(SAMPLES))
        null, full, pipe = (os.path.join(self.folder, name) for name in ("null", "full", "pipe"))
        os.mkfifo(pipe)
        read = subprocess.Popen(["cat", pipe], stdout=subprocess.PIPE)
        self.run_command("convert", "a.wav", "pipe", "--overwrite")
        self.assertEqual(read.communicate()[0], made_by_wave(SAMPLES))
        self.assertTrue(stat.S_ISFIFO(os.stat(pipe).st_mode))
        self.run_command("convert", "a.wav", "pipe", status=2)
        try:
            for path, minor in (null, 3), (full, 7):
                os.mknod(path, 0o666 | stat.S_IFCHR, os.makedev(1, minor))
                open(path, "wb").close()
        except PermissionError:
            self.skipTest("no device can be made here")
        for _ in range(2):
            self.run_command("convert", "a.wav", "null", "--overwrite")
            hound.write(null, SAMPLES, 8000)
            self.run_command("convert", "a.wav", "full", "--overwrite", status=1)
            self.assertEqual(self.said, b"hound-wav: full: No space left on device\n")
            self.assertTrue(all(stat.S_ISCHR(os.stat(path).st_mode) for path in (null, full)))
        self.assertEqual(sorted(os.listdir(self.folder)), ["a.wav", "full", "null", "pipe"])

    def test_a_torn_file_replaces_none(self):
        torn = by_hand(bytes(9), 8)
        for source, target in ("a.wav", "a.wav"), ("a.wav", "b.wav"), ("-", "b.wav"):
            self.leave_as("a.wav", torn)
            self.leave_as("b.wav", b"older")
            before = self.content(target)
            self.run_command("convert", "--to-end", "--overwrite", source, target, given=torn, status=1)
            last = f"hound-wav: {target} stays as it was, since not all of {source} was read\n"
            said = f"hound-wav: {source}: the last 1 bytes are no whole frame\n{last}"
            self.assertEqual((self.said.decode(), self.content(target)), (said, before))
        self.run_command("convert", "--to-end", "a.wav", "c.wav", status=1)
        self.assertEqual(self.content("c.wav"), by_hand(bytes(8)))
        self.assertEqual(sorted(os.listdir(self.folder)), ["a.wav", "b.wav", "c.wav"])

    def test_a_file_that_is_too_long(self):
        """No header can count it: its first part can be repaired, as the hint says."""
        name = "a 1.wav"
        for form, more in (
            ({"channels": 2}, {}), ({"channels": 6, "width": 3}, {}), ({"channels": 3, "width": 1}, {"before": CHUNK}),
            ({"channels": 7, "width": 3}, {"between": CHUNK}),
        ):  # fmt: skip
            head, size = by_hand(b"", 0, **form, **more), form["channels"] * form.get("width", 2)
            most = ((1 << 32) - 1 - (len(head) - 8)) // size  # by the RIFF size
            most -= (len(head) - 8 + most * size + most * size % 2) > (1 << 32) - 1  # which counts a pad byte, too
            frame = bytes(range(1, size + 1))
            self.leave_as(name, head)
            with open(os.path.join(self.folder, name), "r+b") as file:
                file.truncate(len(head) + (most - 9) * size)
                file.seek(0, os.SEEK_END)
                file.write(frame * 20)
            self.run_command("repair", name, status=1)
            self.assertIn(b" 32 bits: a WAV file has less than 4 GiB, so the rest needs another one\n", self.said)
            self.assertNotIn(b"--guess", self.said)
            end = len(head) + most * size
            self.assertIn(f"head -c {end} 'a 1.wav' > 'a 1.part1.wav' makes its first part".encode(), self.said)
            rest = re.search(rb"and (\(.*) the rest: repair both\n", self.said)[1]
            subprocess.run(rest, shell=True, check=True, cwd=self.folder)
            self.run_command("repair", "a 1.part2.wav")
            self.assertEqual(self.content("a 1.part2.wav")[len(head) :][: 11 * size], frame * 11)
            self.assertEqual(hound.info(os.path.join(self.folder, "a 1.part2.wav")).frames, 11)
            os.truncate(os.path.join(self.folder, name), end)  # as head does
            self.run_command("repair", name)
            self.assertEqual(hound.info(os.path.join(self.folder, name)).frames, most)

    def test_a_number_that_is_too_large(self):
        self.leave_as("a.wav", bytes(100))
        for number in "9" * 19, "9" * 5000:
            self.run_command("repair", "--like", "8000,1,16", "--skip", number, "a.wav", status=2)
            self.run_command("repair", "--like", f"{number},1,16", "a.wav", status=2)
        self.run_command("repair", "--like", "8000,1,16", "--skip", str(sys.maxsize), "a.wav", status=1)
        self.run_command("repair", "--skip", "44", "a.wav", status=2)

    def test_a_whole_file_that_may_only_be_read(self):
        self.leave_as("a.wav", made_by_wave(SAMPLES))
        os.chmod(self.path, 0o444)
        os.chmod(self.folder, 0o755)
        inner, outer = os.pipe()

        def repair():
            sys.stdout = open(outer, "w")
            os.seteuid(os.geteuid() or 65534)
            return all(command.main(["repair", *words, self.path]) == 0 for words in ([], ["--durable"], ["--to-end"]))

        self.assertEqual(os.waitpid(forked(repair), 0)[1], 0)
        os.close(outer)
        with open(inner, "rb") as said:
            self.assertEqual(said.read().count(b"\nwhole  "), 3)
        self.assertEqual(self.content("a.wav"), made_by_wave(SAMPLES))

    def test_repair_of_a_folder(self):
        cut_off, followed = by_hand(bytes(8), 4), by_hand(b"\1\2", after=CHUNK)
        before = {
            "x/a.wav": cut_off,
            "x/y/b.WAV": by_hand(bytes(2)),
            "x/c.wav": followed,
            "x/d.txt": b"text",
            "x/e.wav": b"RIFY" + bytes(60),
        }
        for name, content in before.items():
            self.leave_as(name, content)
        for words in ("--dry-run",), ("--dry-run", "--to-end"):
            out = self.run_command("repair", *words, "x", status=1).decode().splitlines()
            self.assertEqual([line.split()[-1] for line in out], ["file", "x/a.wav", "x/c.wav", "x/y/b.WAV"])
            self.assertIn(b"hound-wav: x/e.wav: no RIFF tag found\nhound-wav: where a header is lost", self.said)
            self.assertEqual({name: self.content(name) for name in before}, before)
        out = self.run_command("repair", "--copy", "x", status=1)
        self.assertIn(b"x/a.wav  repaired: x/a.repaired.wav\n", out)
        self.assertEqual({name: self.content(name) for name in before}, before)
        self.assertEqual(self.content("x/a.repaired.wav"), by_hand(bytes(8)))
        os.unlink(os.path.join(self.folder, "x/e.wav"))
        rows = list(map(json.loads, self.run_command("repair", "--json", "x").splitlines()))
        repaired = [("x/a.repaired.wav", False), ("x/a.wav", True), ("x/c.wav", False), ("x/y/b.WAV", False)]
        self.assertEqual([(row["file"], row["repaired"]) for row in rows], repaired)
        self.assertEqual((self.content("x/a.wav"), self.content("x/c.wav")), (by_hand(bytes(8)), followed))
        self.run_command("repair", "--to-end", "x/c.wav")
        self.assertEqual(self.content("x/c.wav"), by_hand(b"\1\2" + CHUNK))
        self.leave_as("z/d.txt", b"")
        self.run_command("repair", "z", status=2)

    def test_a_folder_that_can_t_be_read(self):
        """It is named, and what can be read is done. Root may read all, so this is somebody else."""
        for name in "x/a.wav", "y/b.wav", "z/z/c.wav":
            self.leave_as(name, by_hand(bytes(8), 4))
        os.chmod(self.folder, 0o755)
        os.chmod(os.path.join(self.folder, "y"), 0)
        os.chmod(os.path.join(self.folder, "z"), 0o644)
        os.chmod(os.path.join(self.folder, "x/a.wav"), 0o666)
        for words in ["info"], ["repair", "--dry-run"], ["repair"]:
            out, said = self.fails_for_another(*words, ".")
            self.assertIn(b"x/a.wav", out)
            denied = [b"hound-wav: ./y: Permission denied", b"hound-wav: ./z/z: Permission denied"]
            self.assertEqual(sorted(said.splitlines()), denied)
        self.assertEqual(self.fails_for_another("repair", "y")[1], b"hound-wav: y: Permission denied\n")
        out = self.fails_for_another("info", "--json", "y")[0]
        self.assertEqual(json.loads(out), {"file": "y", "error": "y: Permission denied"})
        self.assertEqual(self.content("x/a.wav"), by_hand(bytes(8)))
        os.chmod(os.path.join(self.folder, "y"), 0o755)
        os.chmod(os.path.join(self.folder, "z"), 0o755)

    def fails_for_another(self, *words):
        """What a command prints for a user who isn't root, with status 1."""
        with tempfile.TemporaryFile() as out, tempfile.TemporaryFile() as said:

            def run():
                os.chdir(self.folder)
                os.dup2(out.fileno(), 1)
                os.dup2(said.fileno(), 2)
                sys.stdout, sys.stderr = io.open(1, "w", closefd=False), io.open(2, "w", closefd=False)
                if os.geteuid() == 0:
                    os.setresuid(65534, 65534, 65534)
                return command.main(list(words)) == 1

            self.assertEqual(os.waitpid(forked(run), 0)[1], 0)
            return [file.seek(0) or file.read() for file in (out, said)]

    def test_repair_of_what_is_all_counted(self):
        content, canonical = by_hand(b"\x81\x82\x83", width=1), by_hand(b"\x81\x82\x83", width=1, after=b"\0")
        self.leave_as("a.wav", content)
        line = rb"whole +3 +3 +0.000  a.wav  the RIFF size or the pad byte isn't as the format asks"
        for words in [], ["--dry-run"], ["--copy"], ["--durable"]:
            self.assertRegex(self.run_command("repair", *words, "a.wav").splitlines()[1], b"^" + line + b"$")
        self.run_command("repair", "--canonical", "--dry-run", "a.wav", status=1)
        self.assertEqual(os.listdir(self.folder), ["a.wav"])
        self.assertIn(b"  repaired: a.repaired.wav\n", self.run_command("repair", "--copy", "--canonical", "a.wav"))
        self.assertEqual((self.content("a.wav"), self.content("a.repaired.wav")), (content, canonical))
        said = json.loads(self.run_command("repair", "--json", "a.wav"))
        self.assertEqual((said["state"], said["repaired"], said["frames_counted"]), ("all counted", False, 3))
        for words in "--canonical", "--to-end":
            self.leave_as("a.wav", content)
            self.assertRegex(self.run_command("repair", words, "a.wav"), rb"\nwhole +3 +3 +0.000  a.wav  repaired\n")
            self.assertEqual(self.content("a.wav"), canonical)

    def test_repair_says_how_many_were_counted(self):
        self.leave_as("a.wav", by_hand(bytes(24), 8))
        out = self.run_command("repair", "--dry-run", "a.wav", status=1).decode().splitlines()
        self.assertEqual([line.split() for line in out], [
            ["found", "frames", "counted", "seconds", "file"], ["cut", "off", "12", "4", "0.002", "a.wav"],
        ])  # fmt: skip
        said = json.loads(self.run_command("repair", "--json", "a.wav"))
        self.assertEqual((said["frames"], said["frames_counted"], said["repaired"]), (12, 4, True))

    def test_repair_of_a_copy_within_a_frame(self):
        self.leave_as("a.wav", by_hand(bytes(27), 0, channels=3))
        self.assertIn(b"a.wav  repaired: a.repaired.wav\n", self.run_command("repair", "--copy", "a.wav"))
        self.assertEqual(self.content("a.repaired.wav"), by_hand(bytes(24), channels=3))
        self.assertEqual(self.content("a.wav"), by_hand(bytes(27), 0, channels=3))
        for frames, torn in itertools.product(range(1, 5), range(1, 3)):  # The pad byte is none of the torn frame.
            content = by_hand(b"\x7f" * (3 * frames + torn), 0, width=3)
            self.leave_as("b.wav", content)
            self.run_command("repair", "--copy", "b.wav")
            whole = by_hand(b"\x7f" * 3 * frames, width=3, after=b"\0" * (frames % 2))
            self.assertEqual((self.content("b.repaired.wav"), self.content("b.wav")), (whole, content))
            os.unlink(os.path.join(self.folder, "b.repaired.wav"))

    def test_what_isn_t_read_is_named(self):
        self.leave_as("x/a.wav", b"fLaC" + bytes(60))
        held = b"x/a.wav holds FLAC, so it isn't read: convert it by ffmpeg -i x/a.wav -c:a pcm_s32le x/a.pcm.wav"
        for words in ["info"], ["repair"], ["repair", "--copy"], ["cat"], ["record", "--append"], ["convert", "b.wav"]:
            self.run_command(words[0], "x/a.wav", *words[1:], status=1)
            self.assertEqual(self.said, b"hound-wav: " + held + b" (no RIFF tag found)\n")
        self.run_command("info", "-", given=b"fLaC" + bytes(60), status=1)
        self.assertIn(b" holds FLAC, so it isn't read: convert it by ffmpeg -i FILE -c:a pcm_s32le FILE.pcm", self.said)

    def test_a_length_that_no_frames_have(self):
        """Recorders that were cut off, and programs that write into a pipe, leave such a length."""
        cut_off = by_hand(bytes(8), 0xFFFFFFFF)
        self.leave_as("a.wav", cut_off)
        said = b" 0.001 s, cut off: 4 frames, where the header counted 2147483647\n"
        self.assertIn(said, self.run_command("info", "a.wav", status=1))
        for words in ("--dry-run",), ("--copy",), ():
            out = self.run_command("repair", *words, "a.wav", status=1 if words == ("--dry-run",) else 0)
            self.assertRegex(out.splitlines()[1], rb"^cut off +4 +2147483647 +0.001  a.wav")
            self.assertEqual((self.said, self.content("a.wav")), (b"", cut_off if words else by_hand(bytes(8))))
        self.assertEqual(self.content("a.repaired.wav"), by_hand(bytes(8)))

    def test_a_chunk_that_counts_as_sound(self):
        content = bytearray(made_by_wave(SAMPLES)) + b"LIST\4\0\0\0INFO"
        content[40:44] = bytes(4)
        said = b"hound-wav: a.wav: its last 12 bytes look like a chunk named LIST (a title, markers), and count as audio: "
        said += b"head -c -12 a.wav > a.part.wav leaves them out\n"
        self.leave_as("a.wav", content)
        for words in ["info"], ["repair", "--dry-run"], ["repair", "--copy"], ["repair"]:
            self.run_command(*words, "a.wav", status=0 if words[-1] in ("--copy", "repair") else 1)
            self.assertEqual(self.said, said, words)
        self.leave_as("a.wav", content)
        for words in ["info"], ["repair", "--dry-run"]:
            found = json.loads(self.run_command(*words, "--json", "a.wav", status=1))
            self.assertEqual(found["chunk_at_end"], "LIST")
        self.run_command("repair", "--to-end", "a.wav")
        self.assertEqual(self.said, b"")
        self.run_command("info", "a.wav")
        self.assertEqual(self.said, b"")

    def test_what_helps_where_a_header_is_lost(self):
        self.leave_as("x/a.wav", bytes(100))
        hint = b"hound-wav: where a header is lost or damaged, hound-wav repair --guess or --like makes a copy with a new "
        for words in ["info"], ["repair"]:
            self.run_command(*words, "x", "x/a.wav", status=1)
            self.assertEqual(self.said, 2 * b"hound-wav: x/a.wav: no RIFF tag found\n" + hint + b"one\n")
            self.run_command(*words, "--json", "x", status=1)
            self.assertEqual(self.said, b"")
        for content in made_by_wave(SAMPLES), by_hand(bytes(8), 4), b"fLaC" + bytes(60), PLAIN[:40], b"":
            self.leave_as("x/a.wav", content)
            for words in ["info"], ["repair"]:
                self.begun(*words, "x").communicate(timeout=60)
                self.assertNotIn(b"where a header is lost", self.begun(*words, "x").communicate(timeout=60)[1])

    def test_guesses_of_a_folder(self):
        """Those without a header: what has one is passed over."""
        data = b"".join(stored(sample, 16, False) for sample in tones(2, 5000, random.Random(1)))
        lost_one, whole = bytes(44) + data, made_by_wave(array.array("h", data))
        for name, content in ("x/a.wav", lost_one), ("x/b.wav", whole), ("x/y/c.wav", lost_one), ("x/d.txt", lost_one):
            self.leave_as(name, content)
        out = self.run_command("repair", "--guess", "--rate", "8000", "--dry-run", "x").splitlines()
        self.assertEqual([line.split(b":")[0] for line in out], [b"x/a.wav", b"x/y/c.wav"])
        for words in ["--guess", "--rate", "8000"], ["--like", "8k,2,16", "--skip", "44"]:
            self.run_command("repair", *words, "x")
            for name in "x/a.repaired.wav", "x/y/c.repaired.wav":
                self.assertEqual(self.content(name), whole)
                os.unlink(os.path.join(self.folder, name))
        self.assertEqual(len(os.listdir(os.path.join(self.folder, "x"))), 4)
        self.leave_as("x/e.wav", b"fLaC" + bytes(60000))
        self.run_command("repair", "--guess", "x", status=1)
        self.assertIn(b"x/e.wav holds FLAC, so it isn't read", self.said)
        self.run_command("repair", "--guess", "x/b.wav", status=1)
        self.assertIn(b"its header isn't lost", self.said)
        for name in "x/a.wav", "x/e.wav", "x/y/c.wav":
            os.unlink(os.path.join(self.folder, name))
        self.assertEqual(self.run_command("repair", "--guess", "x"), b"")
        self.assertEqual(self.said, b"hound-wav: no header here is lost, so no copy is made\n")

    def test_repair_of_a_lost_header(self):
        data = b"".join(stored(sample, 16, False) for sample in tones(2, 5000, random.Random(1)))
        self.leave_as("a.wav", bytes(44) + data)
        self.run_command("repair", "a.wav", status=1)
        out = self.run_command("repair", "--guess", "--rate", "8000", "--dry-run", "a.wav")
        self.assertEqual(out, b"a.wav: a guess: 8000 Hz, 2 channels, 16 bits, from byte 44 on\n")
        self.run_command("repair", "--guess", "--rate", "8000", "a.wav")
        self.assertEqual(self.content("a.repaired.wav"), made_by_wave(array.array("h", data)))
        self.assertEqual(self.content("a.wav"), bytes(44) + data)
        self.run_command("repair", "--guess", "a.wav", status=1)
        self.assertIn(b"a.repaired.wav", self.said)
        self.run_command("repair", "--guess", "--dry-run", "a.wav", status=1)
        os.unlink(os.path.join(self.folder, "a.repaired.wav"))
        out = self.run_command("repair", "--guess", "--dry-run", "a.wav")
        self.assertEqual(out, b"a.wav: a guess: 48000 Hz, 2 channels, 16 bits, from byte 44 on\n")
        assumed = b"48000 Hz is assumed, since no guess finds a rate: --rate HZ is that of your recorder\n"
        self.assertEqual(self.said, b"hound-wav: " + assumed)
        said = json.loads(self.run_command("repair", "--guess", "--json", "a.wav"))
        self.assertEqual((said["sample_rate"], said["is_rate_assumed"]), (48000, True))
        os.unlink(os.path.join(self.folder, "a.repaired.wav"))
        said = json.loads(self.run_command("repair", "--like", "8000,1,32f", "--skip", "0", "--json", "a.wav"))
        self.assertEqual((said["copy"], said["frames"]), ("a.repaired.wav", (44 + len(data)) // 4))
        self.assertEqual((said["is_float"], said["is_guess"]), (True, False))
        self.assertEqual(self.content("a.repaired.wav")[-100:], data[-100:])
        self.run_command("repair", "--guess", "a.repaired.wav", status=1)
        self.assertIn(b"its header isn't lost", self.said)
        self.run_command("repair", "--rate", "8000", "a.wav", status=2)
        no_forms = ("--like", "8000,2"), ("--like", "a,b,c"), ("--like", "8000,0,16")
        for words in (*no_forms, ("--guess", "--skip", "-1"), ("--guess", "--rate", "x")):
            self.run_command("repair", *words, "a.wav", status=2)
            self.assertIn(b" isn't ", self.said)

    def test_cat(self):
        for bits, values in WIDE.items():
            self.leave_as("a.wav", wave_of(bits, values))
            samples = array.array("h" if bits <= 16 else "i", values)
            self.assertEqual(self.run_command("cat", "a.wav"), samples.tobytes())
            exact = array.array("d", [value / 2 ** (bits - 1) for value in values])
            written = self.run_command("cat", "--type", "float64", "-", given=self.content("a.wav"))
            self.assertEqual(written, exact.tobytes())
        stream = made_by_wave(SAMPLES)
        stream = stream[:40] + b"\xff" * 4 + stream[44:]
        self.assertEqual(self.run_command("cat", "--to-end", "-", given=stream), SAMPLES.tobytes())
        self.assertEqual(self.run_command("cat", "--to-end", "-", given=stream[:-3], status=1), SAMPLES[:8].tobytes())
        self.assertEqual(self.said, b"hound-wav: -: the last 1 bytes are no whole frame\n")
        self.assertEqual(self.run_command("cat", "-", given=stream, status=1), b"")
        self.assertIn(b"a stream of unknown length can be read to its end", self.said)
        self.run_command("convert", "--to-end", "-", "s.wav", given=stream)
        self.assertEqual(self.content("s.wav"), made_by_wave(SAMPLES))
        self.leave_as("b.wav", made_by_wave(SAMPLES)[:-3])
        self.assertEqual(self.run_command("cat", "b.wav", status=1), SAMPLES[:8].tobytes())
        self.assertIn(b"b.wav: the header counts a sample that the file does not hold", self.said)

    def test_a_pipe_that_is_closed_and_ctrl_c(self):
        # A shell lets what it starts in the background ignore Ctrl-C, and a program inherits that.
        self.addCleanup(signal.signal, signal.SIGINT, signal.signal(signal.SIGINT, signal.default_int_handler))
        self.leave_as("a.wav", wave_of(16, [1] * 1000000))
        running = self.begun("cat", "a.wav")
        running.stdout.read(10)
        running.stdout.close()
        self.assertEqual((running.stderr.read(), running.wait(60)), (b"", -signal.SIGPIPE))
        running.stderr.close()
        running.stdin.close()
        running = self.begun("convert", "-", "b.wav", "--bits", "8")
        running.stdin.write(self.content("a.wav")[:100000])
        running.stdin.flush()
        deadline = time.monotonic() + 30
        while not any(name.startswith(".hound-") for name in os.listdir(self.folder)) and time.monotonic() < deadline:
            time.sleep(0.01)
        running.send_signal(signal.SIGINT)
        self.assertEqual((running.communicate()[1], running.returncode), (b"", -signal.SIGINT))
        self.assertEqual(os.listdir(self.folder), ["a.wav"])

    def test_convert(self):
        self.leave_as("a.wav", wave_of(24, [-(2**23), 2**22, 3 << 15, 1 << 15, 0, 5 << 20], 2))
        for words, wanted in (
            (["--bits", "16"], ([-32768, 16384, 384, 128, 0, 5 << 12], 2, 2)),
            (["--bits", "32"], ([-(2**31), 2**30, 3 << 23, 1 << 23, 0, 5 << 28], 2, 4)),
            (["--channels", "1"], ([-(1 << 21), 1 << 16, 5 << 19], 1, 3)),
            (["--bits", "16", "--channels", "1"], ([-8192, 256, 5 << 11], 1, 2)),
        ):
            self.run_command("convert", "a.wav", "b.wav", "--overwrite", *words)
            info = hound.info(os.path.join(self.folder, "b.wav"))
            found = list(hound.read(os.path.join(self.folder, "b.wav")))
            self.assertEqual((found, info.channels, info.bytes_per_sample, info.sample_rate), (*wanted, 8000))
        self.run_command("convert", "a.wav", "f.wav", "--float")
        self.assertEqual(hound.read(os.path.join(self.folder, "f.wav"))[:3], array.array("f", [-1, 0.5, 3 / 256]))
        self.run_command("convert", "b.wav", "c.wav", "--channels", "2")
        content = self.content("c.wav")
        self.assertEqual(list(hound.read(content)), [-8192, -8192, 256, 256, 5 << 11, 5 << 11])
        some = random.Random(5)
        for bits in 24, 32:  # Each sample is rounded once: float32 would round those of 32 bits before.
            values = [some.randrange(-(2**31), 2**31 - 2**16) >> 32 - bits for _ in range(500)]
            values += [(3 << 15) + 1, (2001 << 15) + 1 >> 32 - bits]
            self.leave_as("w.wav", wave_of(bits, values))
            self.run_command("convert", "w.wav", "n.wav", "--float", "--overwrite")
            exact = [fractions.Fraction(value, 1 << bits - 1) for value in values]
            self.assertEqual(list(hound.read(self.content("n.wav"))), as_float32(map(float, exact)))
            self.run_command("convert", "w.wav", "n.wav", "--bits", "16", "--overwrite")
            self.assertEqual(list(hound.read(self.content("n.wav"))), [nearest(value, 16) for value in exact])
        self.leave_as("one.wav", hound.to_bytes(array.array("f", [1.5, 0.5]), 8000))
        self.run_command("convert", "one.wav", "two.wav", "--bits", "16", "--dither", "--seed", "3")
        self.assertEqual(self.said, b"hound-wav: clipped samples: 1\n")
        noisy = silently(lambda: hound.to_bytes([1.5, 0.5], 8000, bits=16, dither=3))[0]
        self.assertEqual(self.content("two.wav"), noisy)
        before = sorted(os.listdir(self.folder))
        self.leave_as("torn.wav", made_by_wave(SAMPLES)[:-3])
        for words in (
            ["--rate", "48000"],
            ["--overwrite", "--seed", "3"],
            [],
            ["--channels", "3", "--overwrite"],
            ["--bits", "12"],
            ["--overwrite", "--float", "--bits", "16"],
        ):
            content = self.content("b.wav")
            self.run_command("convert", "a.wav", "b.wav", *words, status=2)
            self.assertEqual(self.content("b.wav"), content)
        self.run_command("convert", "torn.wav", "d.wav", "--overwrite", status=1)
        self.run_command("convert", "a.wav", "-", status=2)
        self.assertEqual(sorted(os.listdir(self.folder)), sorted(before + ["torn.wav"]))

    def test_record(self):
        for bits, values in WIDE.items():
            good = wave_of(bits, values * 20)
            data = good[44 : 44 + 100 * bits // 8]
            form = ["--rate", "8000", "--channels", "1", "--bits", str(bits), "--overwrite"]
            self.run_command("record", "a.wav", *form, given=data[: 40 * bits // 8])
            self.run_command("record", "a.wav", "--append", given=data[40 * bits // 8 :])
            self.assertEqual(list(hound.read(self.path)), values * 20)
            self.assertEqual(self.content("a.wav")[-len(data) :], data)
        self.run_command("record", "a.wav", "--append", given=bytes(7), status=1)
        self.assertEqual((hound.info(self.path).frames, b"last 3 bytes" in self.said), (101, True))
        self.run_command("record", "a.wav", *form[:-1], status=1)
        for words in ("--rate", "8000"), ("--overwrite",):
            self.run_command("record", "a.wav", "--append", *words, status=2)
        self.run_command("record", "b.wav", "--rate", "8000", status=2)
        self.run_command("record", "a.wav", "--append", "--checkpoint", "0", status=2)
        self.assertEqual(os.listdir(self.folder), ["a.wav"])

    def test_record_continues_what_a_kill_left(self):
        """A recorder that starts by itself is rejected by nothing that a recorder leaves."""
        form, data = ["--rate", "8000", "--channels", "2", "--bits", "16"], SAMPLES.tobytes()
        for left, held in (
            (None, 0), (b"", 0), (PLAIN[:40], 0), (PLAIN[:20], 0), (PLAIN, 0), (by_hand(data, 4, channels=2), 5),
            (by_hand(data, channels=2)[:-7], 3), (by_hand(data[:8], 0xFFFFFFFF, channels=2), 2),
        ):  # fmt: skip
            for words in form, []:
                if os.path.exists(self.path):
                    os.unlink(self.path)
                if left is not None:
                    self.leave_as("a.wav", left)
                if words or held or left == PLAIN:
                    self.run_command("record", "a.wav", "--append", *words, given=data)
                    self.assertEqual(self.content("a.wav"), made_by_wave(SAMPLES[: 2 * held] + SAMPLES))
                else:
                    self.run_command("record", "a.wav", "--append", given=data, status=1)
                    self.assertIn(b"--rate, --channels and --bits begin it", self.said)
                    self.assertEqual(left and self.content("a.wav"), left)
        self.leave_as("a.wav", PLAIN[:40])
        self.run_command("record", "a.wav", "--append", given=data, status=1)
        said = b"hound-wav: a.wav has no header: --rate, --channels and --bits begin it anew\n"
        self.assertEqual(self.said, said)
        for content in by_hand(data), by_hand(data, channels=2, after=CHUNK), b"fLaC" + bytes(60), PLAIN[1:40]:
            self.leave_as("a.wav", content)
            self.run_command("record", "a.wav", "--append", *form, given=data, status=1)
            self.assertEqual(self.content("a.wav"), content)
        for words in form[:2], form[:4], ["--float"]:
            self.run_command("record", "a.wav", "--append", *words, status=2)

    def test_record_continues_in_parts(self):
        form, data = ["--rate", "8000", "--channels", "1", "--bits", "16"], bytes(range(250))
        for words in form, []:
            self.run_command("record", "a.wav", *form, "--split", "20", given=data[:100])
            self.run_command("record", "a.wav", "--append", *words, "--split", "20", given=data[100:])
            self.assertIn(b"a-003.wav: 8000 Hz, 1 channel, 16 bits, 20 frames", self.said)
            self.assertNotIn(b"a-002.wav", self.said)  # It was ended before.
            parts = [data[place : place + 40] for place in range(0, 250, 40)]
            names = ["a.wav", *(f"a-00{number}.wav" for number in range(2, 8))]
            self.assertEqual([self.content(name) for name in names], list(map(by_hand, parts)))
            self.run_command("record", "a.wav", "--append", *words, given=data)
            self.assertEqual(self.content("a-007.wav"), by_hand(parts[-1] + data))
            for name in names:
                os.unlink(os.path.join(self.folder, name))

    def test_record_has_chunks_before_the_samples(self):
        form = ["--rate", "8000", "--channels", "1", "--bits", "16", "--chunk", "bext=b", "--chunk", "iXML=x"]
        self.leave_as("b", b"odd")
        self.leave_as("x", b"")
        between = b"bext\3\0\0\0odd\0iXML\0\0\0\0"
        self.run_command("record", "a.wav", *form, "--split", "20", given=bytes(range(100)))
        self.run_command("record", "a.wav", *form, "--append", given=bytes(2))
        wanted = [bytes(range(40)), bytes(range(40, 80)), bytes(range(80, 100)) + bytes(2)]
        found = [self.content(name) for name in ("a.wav", "a-002.wav", "a-003.wav")]
        self.assertEqual(found, [by_hand(data, between=between) for data in wanted])
        for wrong in "data=b", "fmt =b", "bex=b", "bext", "bext=", "bext=none", "b\u20acxt=b":
            self.run_command("record", "c.wav", *form[:6], "--chunk", wrong, status=2)
        self.assertNotIn("c.wav", os.listdir(self.folder))

    def test_record_takes_a_wav_stream(self):
        """It is read by its header, whose length may be that of a program that doesn't know it, or right."""
        data, form = SAMPLES.tobytes(), ["--rate", "8000", "--channels", "2", "--bits", "16"]
        whole = made_by_wave(SAMPLES)
        for counted in 0, 20, 0x7FFFF000, 0x80000000, 0xFFFFFFFF:
            for words in form, form[2:], []:
                self.run_command("record", "a.wav", *words, "--overwrite", given=by_hand(data, counted, channels=2))
                self.assertEqual(self.content("a.wav"), whole)
                self.assertNotIn(b"hound-wav: ", self.said)
        self.run_command("record", "a.wav", "--append", given=whole)
        self.assertEqual(self.content("a.wav"), made_by_wave(SAMPLES + SAMPLES))
        chunks = by_hand(data, channels=2, before=CHUNK, between=CHUNK, after=CHUNK)
        self.run_command("record", "b.wav", given=chunks)
        self.assertEqual(self.content("b.wav"), whole)
        odd = by_hand(b"\x81\x82\x83", width=1, after=b"\0" + CHUNK)
        for stream in odd, odd[:-12], odd[:-13]:
            self.run_command("record", "b.wav", "--overwrite", given=stream)
            self.assertEqual(self.content("b.wav"), by_hand(b"\x81\x82\x83", width=1, after=b"\0"))
        self.run_command("record", "b.wav", "--overwrite", given=by_hand(data, 8, channels=2))
        self.assertEqual(self.content("b.wav"), whole)
        self.assertIn(b"more came than the header of the stream counts, and is recorded, too", self.said)
        floats = by_hand(struct.pack("<2f", 0.5, -0.25), 0, width=4, tag=3)
        self.run_command("record", "b.wav", "--overwrite", given=floats)
        self.assertEqual(list(hound.read(self.content("b.wav"))), [0.5, -0.25])
        self.run_command("record", "b.wav", "--overwrite", "--split", "2", given=whole)
        self.assertEqual(self.content("b-003.wav"), made_by_wave(SAMPLES[8:]))

    def test_a_wav_stream_that_contradicts(self):
        whole, form = made_by_wave(SAMPLES), ["--rate", "8000", "--channels", "2", "--bits", "16"]
        self.leave_as("a.wav", b"mine")
        for option, other in ("--rate", "8001"), ("--channels", "1"), ("--bits", "24"), ("--float", None):
            words = [option] if other is None else [option, other]
            self.run_command("record", "a.wav", "--overwrite", *words, given=whole, status=2)
            self.assertIn(b"WAV stream of 8000 Hz, 2 channels, 16 bits, and not of " + option.encode(), self.said)
        for stream in whole[:12], whole[:43], b"RIFX" + whole[4:], b"RF64" + whole[4:], whole.replace(b"fmt ", b"fmtx"):
            self.run_command("record", "a.wav", "--overwrite", given=stream, status=1)
        self.assertEqual(self.content("a.wav"), b"mine")
        for stream in whole, b"RIFF", b"RIFF1234WAV", b"RIFF1234WAVX", b"RIFX1234", b"R", b"":
            self.run_command("record", "a.wav", *form, "--raw", "--overwrite", given=stream + bytes(-len(stream) % 4))
            self.assertEqual(self.content("a.wav")[44:], stream + bytes(-len(stream) % 4))
            if stream != whole:
                self.run_command("record", "a.wav", *form, "--overwrite", given=stream + bytes(-len(stream) % 4))
                self.assertEqual(self.content("a.wav")[44:], stream + bytes(-len(stream) % 4))

    def test_record_names_what_helps(self):
        self.leave_as("a.wav", b"mine")
        form = ["--channels", "1", "--bits", "16", "--rate"]
        for words in [], ["--split", "9"]:
            self.run_command("record", "a.wav", *form, "8000", *words, given=bytes(8), status=1)
            said = b"hound-wav: a.wav exists: --append continues it, --overwrite empties it\n"
            self.assertEqual((self.said, self.content("a.wav")), (said, b"mine"))
        for rate, number in ("48k", 48000), ("44.1k", 44100), ("11.025k", 11025), ("8000", 8000):
            self.run_command("record", "a.wav", *form, rate, "--overwrite", given=bytes(8))
            self.assertEqual(hound.info(self.path).sample_rate, number)
        for rate in "44.1", "k", "1.2345k", "44,1k", "-8k", "0k", "48K", "48kHz":
            self.run_command("record", "a.wav", *form, rate, "--overwrite", given=bytes(8), status=2)

    def test_nohup_keeps_a_recording(self):
        form = ["--rate", "8000", "--channels", "2", "--bits", "16", "--checkpoint", "0.05"]
        running = self.begun("record", "a.wav", *form, preexec_fn=lambda: signal.signal(signal.SIGHUP, signal.SIG_IGN))
        running.stdin.write(SAMPLES.tobytes()[:8])
        running.stdin.flush()
        self.wait_for(2)
        running.send_signal(signal.SIGHUP)
        time.sleep(1)
        running.communicate(SAMPLES.tobytes()[8:], timeout=30)
        self.assertEqual((running.returncode, self.content("a.wav")), (0, made_by_wave(SAMPLES)))

    def on_a_terminal(self, *words, stdin=None, given=b""):
        """What a command says on a terminal, as its standard error, and its status."""
        outer, inner = pty.openpty()
        running = self.hurried(*words, stdin=inner if stdin is None else stdin, stderr=inner)
        os.close(inner)
        if stdin == subprocess.PIPE:
            running.stdin.write(given)
            running.stdin.close()
        else:
            os.write(outer, given)
        said = b""
        with contextlib.suppress(OSError):  # The terminal has no other end any more.
            while piece := os.read(outer, 1000):
                said += piece
        os.close(outer)
        running.stdout.close()
        return said, running.wait(60)

    def test_record_on_a_terminal(self):
        """A line shows what comes; without a pipe it says what it waits for."""
        loud = array.array("h", [16384, -32768] * 4000)
        form = ["--rate", "8000", "--channels", "2", "--bits", "16"]
        said, status = self.on_a_terminal("record", "a.wav", *form, stdin=subprocess.PIPE, given=loud.tobytes())
        self.assertEqual(status, 0)
        self.assertRegex(said, rb"\r\x1b\[K0:00:00  -6\.0 0\.0 dB  checkpoint at 0:00:00  a\.wav: 0\.0 MiB")
        self.assertRegex(said, rb"\r\x1b\[Ka\.wav: 8000 Hz, 2 channels, 16 bits, 4000 frames, 0\.500 s\r\n$")
        self.run_command("record", "b.wav", *form, given=loud.tobytes())
        self.assertEqual(self.said, b"b.wav: 8000 Hz, 2 channels, 16 bits, 4000 frames, 0.500 s\n")
        said, status = self.on_a_terminal("record", "c.wav", *form, given=b"abc\n\4")
        self.assertIn(b"samples are read from this terminal. To record a microphone: arecord ", said)
        self.assertEqual((status, self.content("c.wav")[44:]), (0, b"abc\n"))
        os.unlink(os.path.join(self.folder, "c.wav"))
        said, status = self.on_a_terminal("record", "c.wav")
        self.assertIn(b"no input is piped in. To record a microphone: arecord ", said)
        self.assertEqual((status, os.path.exists(os.path.join(self.folder, "c.wav"))), (2, False))

    def test_a_terminal_holds_no_recording_up(self):
        """One that takes nothing after Ctrl-S, and one that is closed: all is recorded."""
        data, form = bytes(8) * 4000, ["--rate", "8000", "--channels", "2", "--bits", "16", "--checkpoint", "0.01"]
        for is_closed in False, True:
            outer, inner = pty.openpty()
            if not is_closed:
                termios.tcflow(inner, termios.TCOOFF)
            running = self.hurried("record", "a.wav", *form, "--overwrite", stdin=subprocess.PIPE, stderr=inner)
            for place in range(0, len(data), 4000):
                running.stdin.write(data[place : place + 4000])
                running.stdin.flush()
                self.wait_for((place + 4000) // 4)
                if is_closed and place == 0:
                    os.close(outer)
            if not is_closed:
                termios.tcflow(inner, termios.TCOON)
            running.stdin.close()
            running.stdout.close()
            self.assertEqual((running.wait(30), self.content("a.wav")), (0, by_hand(data, channels=2)))
            os.close(inner)
            if not is_closed:
                os.close(outer)

    def hurried(self, *words, **more):
        """A command whose clock is fast."""
        env = {**os.environ, "PYTHONPATH": os.path.dirname(os.path.dirname(hound.__file__)), "COLUMNS": "100"}
        hurried = (
            "t = time.monotonic; n = iter(range(10**9)); time.monotonic = lambda: t() + 5 * next(n); "
            "import sys; sys.exit(c.main(sys.argv[1:]))"
        )
        command = [sys.executable, "-c", f"import time, hound_bindings.command as c; {hurried}", *words]
        return subprocess.Popen(command, cwd=self.folder, env=env, stdout=subprocess.PIPE, **more)

    @unittest.skipUnless(hasattr(signal, "SIGXFSZ"), "no limit of a file's size")
    def test_record_says_what_is_kept_where_a_write_fails(self):
        limited = (
            "import resource, sys; resource.setrlimit(resource.RLIMIT_FSIZE, (65580, 65580)); "
            "from hound_bindings import command; sys.exit(command.main(sys.argv[1:]))"
        )
        words = ["record", self.path, "--rate", "8000", "--channels", "1", "--bits", "16"]
        env = {**os.environ, "PYTHONPATH": os.path.dirname(os.path.dirname(hound.__file__))}
        command = [sys.executable, "-c", limited, *words]
        ended = subprocess.run(command, input=bytes(200_000), capture_output=True, env=env)
        kept = hound.info(self.path).frames
        self.assertEqual((ended.returncode, hound.find_damage(self.path).state), (1, State.WHOLE), ended.stderr)
        self.assertIn(f" {kept} frames".encode(), ended.stderr)
        self.assertGreater(kept, 0)

    def test_a_file_is_looked_at_once(self):
        """What is written is decided by what was found under the lock: it is opened, locked and walked over once."""
        counting = (
            "import fcntl, io, os, sys; from hound_bindings import command; noted = []; "
            "note = lambda call: lambda *words, **more: (noted.append((call, *words)), call(*words, **more))[1]; "
            "before = io.open, os.pread, fcntl.flock; io.open, os.pread, fcntl.flock = map(note, before); "
            "command.main(sys.argv[1:]); "
            "opened = sum(call is before[0] and words[0] == 'a.wav' for call, *words in noted); "
            "heads = sum(call is before[1] and words[2] == 0 for call, *words in noted); "
            "locks = sum(call is before[2] and words[1] & fcntl.LOCK_EX == 2 for call, *words in noted); "
            "print(opened, heads, locks)"
        )
        env = {**os.environ, "PYTHONPATH": os.path.dirname(os.path.dirname(hound.__file__))}
        # A copy has a name of its own, and its front is copied before it is walked over.
        for words, counts in (["info"], "1 1 0"), (["repair", "--dry-run"], "1 1 0"), (["repair"], "1 1 1"):
            self.leave_as("a.wav", by_hand(bytes(20) + b"LIST\4\0\0\0INFO", 4))
            command = [sys.executable, "-c", counting, *words, "a.wav"]
            ended = subprocess.run(command, capture_output=True, env=env, cwd=self.folder)
            self.assertIn(b"last 12 bytes look like a chunk named LIST", ended.stderr)
            self.assertEqual(ended.stdout.split(b"\n")[-2].decode(), counts, words)

    def test_a_file_that_is_recorded_to_isn_t_repaired(self):
        """Also where it is whole just now: what was found before the lock would be out of date."""
        with hound.create(self.path, 8000, 2, 16) as writer:
            writer.write(SAMPLES)
            writer.flush()
            self.assertIn(b"whole", self.run_command("repair", "--dry-run", "a.wav"))
            self.run_command("repair", "a.wav", status=1)
            self.assertIn(b"another program records to", self.said)
        self.assertIn(b"whole", self.run_command("repair", "a.wav"))

    def limited(self, *words):
        """A command that may write no more than 65580 bytes to a file."""
        limit = lambda: resource.setrlimit(resource.RLIMIT_FSIZE, (65580, 65580))
        return self.begun(*words, preexec_fn=limit)

    def test_record_says_both_errors(self):
        """That of a write, and that of the file, which can't be read either."""
        form = ("--rate", "8000", "--channels", "1", "--bits", "16", "--checkpoint", "0.05")
        running = self.limited("record", "a.wav", *form)
        running.stdin.write(bytes(200))
        running.stdin.flush()
        self.wait_for(100)
        os.truncate(self.path, 0)
        said = running.communicate(bytes(200_000), timeout=60)[1].decode().splitlines()
        self.assertEqual(running.returncode, 1)
        self.assertEqual(said, [
            "hound-wav: what is recorded can't be read: a.wav: no RIFF tag found",
            "hound-wav: a.wav: File too large",
        ])  # fmt: skip

    def test_record_says_what_it_can_t_cut_off(self):
        hindered = (
            "import os, sys; from hound_bindings import command; os.ftruncate = lambda *_: os.close(-1); "
            "sys.exit(command.main(sys.argv[1:]))"
        )
        limit = lambda: resource.setrlimit(resource.RLIMIT_FSIZE, (65600, 65600))
        words = ["record", self.path, "--rate", "8000", "--channels", "1", "--bits", "16"]
        env = {**os.environ, "PYTHONPATH": os.path.dirname(os.path.dirname(hound.__file__))}
        command = [sys.executable, "-c", hindered, *words]
        ended = subprocess.run(command, input=bytes(200_000), capture_output=True, env=env, preexec_fn=limit)
        last = ended.stderr.decode().splitlines()[-1]
        said = f"hound-wav: {self.path}: File too large, and the file couldn't be cut off, so a repair may take"
        self.assertEqual((ended.returncode, last[: len(said)]), (1, said))

    def test_the_file_that_has_no_room_is_named(self):
        self.leave_as("a.wav", by_hand(bytes(100_000), 0))
        self.leave_as("b.wav", hound.to_bytes([0] * 100_000, 8000))
        for words, name in (
            (["repair", "--copy", "a.wav"], "a.repaired.wav"),
            (["repair", "--like", "8000,1,16", "a.wav"], "a.repaired.wav"),
            (["convert", "b.wav", "c.wav"], "c.wav"),
        ):
            running = self.limited(*words)
            said = running.communicate(timeout=60)[1].decode()
            self.assertEqual((running.returncode, said), (1, f"hound-wav: {name}: File too large\n"))
        self.assertEqual(sorted(os.listdir(self.folder)), ["a.wav", "b.wav"])
        for words in ["cat", "b.wav"], ["info", "b.wav"], ["info", "--json", "b.wav"], ["repair", "b.wav"]:
            with open("/dev/full", "wb") as full:
                running = self.begun(*words, preexec_fn=lambda: os.dup2(full.fileno(), 1))
            said = running.communicate(timeout=60)[1]
            self.assertEqual((running.returncode, said), (1, b"hound-wav: <stdout>: No space left on device\n"))

    def test_a_signal_while_no_input_comes(self):
        form = ("--rate", "8000", "--channels", "2", "--bits", "16", "--checkpoint", "100000")
        # As at a terminal, also where nohup runs the tests.
        self.addCleanup(signal.signal, signal.SIGHUP, signal.signal(signal.SIGHUP, signal.SIG_DFL))
        for number in signal.SIGINT, signal.SIGTERM, signal.SIGHUP:
            self.leave_as("a.wav", b"")
            running = self.begun("record", "a.wav", *form, "--overwrite")
            running.stdin.write(SAMPLES.tobytes())
            running.stdin.flush()
            self.wait_for(0)
            time.sleep(0.3)
            start = time.monotonic()
            running.send_signal(number)
            self.assertEqual(running.wait(30), 0)
            self.assertLess(time.monotonic() - start, 1)
            running.communicate()
            self.assertEqual(content_of(self.path), made_by_wave(SAMPLES))

    def test_checkpoints_and_the_end_by_a_signal(self):
        for number in signal.SIGINT, signal.SIGTERM, signal.SIGKILL:
            form = ("--rate", "8000", "--channels", "2", "--bits", "16")
            running = self.begun("record", "a.wav", *form, "--overwrite", "--checkpoint", "0.05")
            for first, end, frames in (0, 9, 2), (9, 20, 5):
                running.stdin.write(SAMPLES.tobytes()[first:end])
                running.stdin.flush()
                self.wait_for(frames)  # No more bytes come.
            running.send_signal(number)
            said = running.communicate(timeout=30)[1]
            self.assertEqual(running.returncode, -number if number == signal.SIGKILL else 0, said)
            self.assertEqual(content_of(self.path), made_by_wave(SAMPLES))

    def wait_for(self, frames):
        deadline, found = time.monotonic() + 30, None
        while found != frames and time.monotonic() < deadline:
            time.sleep(0.01)
            try:
                found = hound.info(self.path).frames
            except (OSError, ValueError):
                pass
        self.assertEqual(found, frames)

    def test_a_bar_on_a_terminal(self):
        self.leave_as("a.wav", wave_of(16, [1] * 3000))
        self.leave_as("b.wav", by_hand(bytes(6000), 0))
        for words in ["cat", "a.wav"], ["convert", "a.wav", "c.wav"], ["join", "a.wav", "d.wav"]:
            said, status = self.on_a_terminal(*words)
            self.assertEqual((status, b"100% a.wav" in said), (0, True), said)
        said, status = self.on_a_terminal("repair", "--copy", "b.wav")
        self.assertEqual((status, b"b.wav" in said), (0, True), said)
        for words in ["cat", "a.wav"], ["repair", "b.wav"]:
            self.run_command(*words)
            self.assertEqual(self.said, b"")

    def test_a_recording_in_parts(self):
        """Whatever the pieces are in which the samples come, and with a checkpoint in them."""
        data, form = bytes(range(251)) * 72, ["--rate", "1000", "--channels", "2", "--bits", "16"]  # 4,518 frames
        names = ["a.wav", *(f"a-00{number}.wav" for number in range(2, 6))]
        for how, frames in (["1000"], 1000), (["1s", "--durable"], 1000), (["1MiB"], 4518):
            running = self.begun("record", "a.wav", *form, "--split", *how)
            for place in range(0, len(data), 7001):
                running.stdin.write(data[place : place + 7001])
                running.stdin.flush()
            said = running.communicate(timeout=60)[1]
            self.assertEqual(running.returncode, 0, said)
            count = -(-4518 // frames)
            self.assertEqual(sorted(os.listdir(self.folder)), sorted(names[:count]))
            for number, name in enumerate(names[:count]):
                part = data[4 * frames * number : 4 * frames * (number + 1)]
                self.assertEqual(self.content(name)[44:], part)
                self.assertIn(f"{name}: 1000 Hz, 2 channels, 16 bits, {len(part) // 4} frames".encode(), said)
            said = self.run_command("info", *names[:count]).splitlines()
            if count > 1:
                self.assertEqual(said[-1], f"{count} files: 4518 frames, 4.518 s".encode())
                self.run_command("join", *names[:count], "all.wav")
                self.assertEqual(self.content("all.wav")[44:], data)
            for name in os.listdir(self.folder):
                os.unlink(os.path.join(self.folder, name))

    def test_a_part_that_is_there(self):
        form = ["--rate", "1000", "--channels", "1", "--bits", "16"]
        self.leave_as("a-002.wav", b"mine")
        self.run_command("record", "a.wav", *form, "--split", "9", given=bytes(10), status=1)
        self.assertEqual(self.said, b"hound-wav: a-002.wav: File exists: rename or remove it first\n")
        self.assertEqual(os.listdir(self.folder), ["a-002.wav"])
        self.run_command("record", "a.wav", *form, given=bytes(10))
        os.unlink(os.path.join(self.folder, "a-002.wav"))
        self.leave_as("a-003.wav", b"mine")
        self.run_command("record", "a.wav", *form, "--split", "9", "--overwrite", given=bytes(100), status=1)
        self.assertIn(b"hound-wav: a-003.wav: File exists", self.said)
        self.assertEqual((self.content("a.wav")[44:], self.content("a-002.wav")[44:]), (bytes(18), bytes(18)))
        self.assertEqual(self.content("a-003.wav"), b"mine")
        os.unlink(os.path.join(self.folder, "a.wav"))
        for words, said in (  # What can't be recorded is said before any input comes.
            (["a.wav", "--split", "9"], b"a-002.wav: File exists: rename or remove it first"),
            (["none/a.wav"], b"none: No such file or directory"),
            (["a-002.wav"], b"a-002.wav exists: --append continues it, --overwrite empties it"),
        ):
            with self.begun("record", *words, *form) as running:
                self.assertEqual((running.stderr.read(), running.wait(30)), (b"hound-wav: " + said + b"\n", 1))
        for words in ["--split", "0"], ["--split", "2G"], ["--split", "-1"], ["--split", ""]:
            self.run_command("record", "b.wav", *form, *words, status=2)
        for name in os.listdir(self.folder):
            os.unlink(os.path.join(self.folder, name))

    def test_join(self):
        self.leave_as("a.wav", made_by_wave(SAMPLES))
        self.leave_as("a-002.wav", made_by_wave(SAMPLES[:4]))
        self.leave_as("mono.wav", made_by_wave(SAMPLES, channels=1))
        self.leave_as("cut.wav", made_by_wave(SAMPLES)[:-4])
        self.run_command("join", "a.wav", "a-002.wav", "a-002.wav", "b.wav", "--as-given")
        self.assertEqual(self.content("b.wav"), made_by_wave(SAMPLES + SAMPLES[:4] + SAMPLES[:4]))
        self.run_command("join", "a-002.wav", "a.wav", "--as-given", "--output", "b.wav", "--overwrite")
        self.assertEqual(self.content("b.wav"), made_by_wave(SAMPLES[:4] + SAMPLES))
        before = self.content("b.wav")
        for words, status, said in (
            (["a.wav", "b.wav"], 2, b"b.wav exists: --overwrite"),
            (["--as-given", "a.wav", "mono.wav", "c.wav"], 1, b"mono.wav has another form"),
            (["--as-given", "a.wav", "cut.wav", "c.wav"], 1, b"cut.wav: "),
            (["cut.wav", "-o", "c.wav"], 1, b"cut.wav: "),
            (["--as-given", "a.wav", "none.wav", "c.wav"], 1, b"none.wav: No such file"),
            (["none.wav", "-o", "c.wav"], 1, b"none.wav is missing"),
            (["a.wav", "mono.wav", "c.wav"], 2, b"mono.wav is no part of a.wav: --as-given joins"),
            (["a.wav", "a-002.wav", "./a-002.wav", "c.wav"], 2, b"./a-002.wav is given twice: --as-given"),
            (["a.wav", "a-002.wav", "a-003.wav", "c.wav"], 1, b"a-003.wav is missing"),
            (["c.wav"], 2, b"the new file is missing: join IN -o OUT"),
        ):
            self.run_command("join", *words, status=status)
            self.assertIn(said, self.said)
        self.assertEqual(self.content("b.wav"), before)
        self.run_command("join", "b.wav", "a.wav", "b.wav", "--as-given", "--overwrite")
        self.assertEqual(hound.info(os.path.join(self.folder, "b.wav")).frames, 12)
        self.assertEqual(len(os.listdir(self.folder)), 5)

    def test_join_takes_parts_by_their_numbers(self):
        """Also after the 999th one, in whatever order they are given, as by the shell's take*.wav."""
        for number in range(1, 1006):
            self.leave_as("a.wav" if number == 1 else f"a-{number:03}.wav", by_hand(struct.pack("<h", number)))
        others = ["a-0007.wav", "a-7.wav", "b-002.wav", "a-002.repaired.wav"]
        for name in others:
            self.leave_as(name, b"")
        parts = sorted(set(os.listdir(self.folder)) - set(others))
        self.assertEqual(parts[:3] + parts[-1:], ["a-002.wav", "a-003.wav", "a-004.wav", "a.wav"])
        whole = by_hand(struct.pack("<1005h", *range(1, 1006)))
        for words in ["a.wav"], ["./a.wav"], ["a-007.wav"], parts, parts[::-1]:
            out = self.run_command("join", *words, "-o", "all.wav", "--overwrite")
            self.assertEqual((out, self.content("all.wav")), (b"all.wav: 1005 files, 1005 frames, 0.126 s\n", whole))
        self.run_command("join", *parts, "all.wav", "--overwrite")
        self.assertEqual(self.content("all.wav"), whole)
        self.run_command("join", *parts[:-4], *parts[-3:], "-o", "b.wav", status=2)
        self.assertIn(parts[-4].encode() + b" is there and isn't given", self.said)
        os.unlink(os.path.join(self.folder, "a-1000.wav"))
        for words in ["a.wav"], sorted(set(parts) - {"a-1000.wav"}):
            self.run_command("join", *words, "-o", "b.wav", status=1)
            self.assertIn(b"a-1000.wav is missing: --as-given joins the files that are given, in their order", self.said)
        os.unlink(os.path.join(self.folder, "a.wav"))
        self.run_command("join", "a-002.wav", "-o", "b.wav", status=1)
        self.assertIn(b"a.wav is missing", self.said)
        self.assertFalse(os.path.exists(os.path.join(self.folder, "b.wav")))

    def test_a_join_that_is_too_long(self):
        """It is an error before anything is written. The files are sparse."""
        length = 1 << 31
        with open(os.path.join(self.folder, "a.wav"), "wb") as file:
            file.write(by_hand(b"", 0, width=2)[:4] + struct.pack("<I", length + 36))
            file.write(by_hand(b"", 0, width=2)[8:40] + struct.pack("<I", length))
            file.truncate(length + 44)
        self.run_command("join", "a.wav", "a.wav", "b.wav", "--as-given", status=1)
        self.assertIn(b"would not fit in 32 bits", self.said)
        self.assertEqual(os.listdir(self.folder), ["a.wav"])

    def recorded(self, **form):
        """A process that records ten blocks of five frames, each counted, and one more, and is then killed."""
        child = os.fork()
        if child == 0:
            try:
                writer = hound.create(self.path, 8000, 2, 16, **form)
                for _ in range(10):
                    writer.write(SAMPLES)
                    writer.flush()
                    time.sleep(0.02)
                writer.write(SAMPLES[:4])
                os.kill(os.getpid(), signal.SIGKILL)
            finally:
                os._exit(1)
        self.addCleanup(os.waitpid, child, 0)

    def test_a_recording_is_followed(self):
        """Samples are written as soon as they are counted."""
        floats = array.array("f", (sample / 32768 for sample in SAMPLES)).tobytes()
        with hound.create(self.path, 8000, 2, 16) as writer:
            running = self.begun("cat", "--follow", "--type", "float32", "a.wav")
            for _ in range(3):
                writer.write(SAMPLES)
                writer.flush()
                self.assertEqual(running.stdout.read(len(floats)), floats)
            writer.write(SAMPLES)
        out, said = running.communicate(timeout=60)
        self.assertEqual((out, said, running.returncode), (floats, b"", 0))

    def test_a_killed_recording_is_followed(self):
        for form, words, name in (({}, [], b"a.wav"), ({"split": 20}, ["--parts"], b"a-003.wav")):
            self.recorded(**form)
            said = self.run_command("cat", "--follow", "--timeout", "9", *words, "a.wav", status=1)
            self.assertEqual(said, SAMPLES.tobytes() * 10)
            self.assertEqual(self.said, b"hound-wav: %s: the recorder was killed: hound-wav repair adds 2 frames\n" % name)
            self.run_command("repair", ".")
            for name in os.listdir(self.folder):
                os.unlink(os.path.join(self.folder, name))
        self.leave_as("a.wav", b"RIFF")
        self.assertEqual(self.run_command("cat", "--follow", "a.wav", status=1), b"")
        self.assertEqual(self.said, b"hound-wav: a.wav: it has no header, and nobody records it\n")

    def test_a_recording_is_shown(self):
        """A line a second, with the peaks since the one before, and one at the end."""
        loud, quiet = array.array("h", [16384, -32768] * 4000), array.array("h", [0, 3277] * 4000)
        def until(running, frames):
            while f"  {frames} frames  " not in (line := running.stdout.readline().decode()):
                self.assertNotEqual(line, "")
            return line

        with hound.create(self.path, 8000, 2, 16, split=6000) as writer:
            running = self.begun("info", "--follow", "--parts", "a.wav")
            self.assertEqual(running.stdout.readline(), b"a.wav: 8000 Hz, 2 channels, 16 bits\n")
            for block, seconds, frames, peaks in ((loud, 0, 4000, "-6.0 0.0"), (quiet, 1, 8000, "-inf -20.0")):
                writer.write(block)
                writer.flush()
                self.assertEqual(until(running, frames), f"0:00:0{seconds}  {frames} frames  {peaks} dB\n")
            writer.write(quiet)
        self.assertEqual(until(running, 12000), "0:00:01  12000 frames  -inf -20.0 dB\n")
        self.assertEqual((running.communicate(timeout=60)[1], running.returncode), (b"", 0))
        rows = self.run_command("info", "--json", "--follow", "--parts", "a.wav").splitlines()
        self.assertEqual(json.loads(rows[-1]), {"file": "a.wav", "seconds": 1.5, "frames": 12000, "peaks": [-6.0, 0.0]})

    def test_arguments_of_following(self):
        self.leave_as("a.wav", made_by_wave(SAMPLES))
        for words in (
            ["cat", "--follow", "-"], ["cat", "--follow", "--to-end", "a.wav"], ["info", "--follow", "-"],
            ["cat", "--parts", "a.wav"], ["info", "--idle", "1", "a.wav"], ["cat", "--timeout", "1", "a.wav"],
            ["cat", "--follow", "--idle", "-1", "a.wav"], ["info", "--follow", "--timeout", "x", "a.wav"],
        ):  # fmt: skip
            self.run_command(*words, status=2)
        self.assertEqual(self.run_command("cat", "--follow", "--idle", "0.3", "a.wav"), SAMPLES.tobytes())
        self.assertIn(b"a.wav: 8000 Hz", self.run_command("info", "--follow", "a.wav"))
        self.run_command("cat", "--follow", "none.wav", status=1)
        self.assertEqual(self.said, b"hound-wav: none.wav: No such file or directory\n")
        self.run_command("info", "--follow", "--timeout", "0.2", "none.wav", status=1)
        self.assertEqual(self.said, b"hound-wav: none.wav: nothing new is counted\n")

    def test_help(self):
        self.assertIn(b"The status is 0", self.run_command("--help"))
        for name in "info", "repair", "cat", "convert", "join", "record":
            self.assertIn(b"usage: hound-wav " + name.encode(), self.run_command(name, "--help"))
        said = b" ".join(self.run_command("cat", "--help").split())
        self.assertIn(b"No sample is shifted: 24 bits go from -8388608 to 8388607.", said)
        said = b" ".join(self.run_command("record", "--help").split())
        self.assertIn(b"arecord -t raw -f S16_LE -r 48000 -c 2 | hound-wav record take.wav --rate 48000", said)
        self.assertEqual(self.run_command("--version"), f"hound-wav {hound.__version__}\n".encode())
        self.run_command(status=2)
        self.run_command("info", status=2)


if __name__ == "__main__":
    unittest.main()
