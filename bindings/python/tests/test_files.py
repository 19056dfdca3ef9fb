"""Files written, read, appended to and repaired, beside the module `wave` of Python and files made by hand."""
import array
import contextlib
import copy
import ctypes
import errno
import io
import itertools
import os
import pickle
import random
import re
import shutil
import signal
import stat
import struct
import subprocess
import sys
import tempfile
import threading
import unittest
import wave
from unittest import mock

import hound_bindings as hound
from hound_bindings import Cause, HoundError, State, _library
from interruptions import Interrupted, Interruption
from wav import CHUNK, by_hand, with_chunk, with_riff


GUID = b"\1\0\0\0\0\0\x10\0\x80\0\0\xaa\0\x38\x9b\x71"  # of PCM


class Pipe:
    """What can't seek."""

    def __init__(self, content):
        self.read = io.BytesIO(content).read


def two_d(samples, columns):
    """A view of samples that is frames by channels."""
    return memoryview(samples).cast("B").cast(samples.typecode, [len(samples) // columns, columns])


class Files(unittest.TestCase):
    def setUp(self):
        self.folder = tempfile.TemporaryDirectory()
        self.addCleanup(self.folder.cleanup)
        self.path = os.path.join(self.folder.name, "a.wav")

    def fails(self, cause, call):
        with self.assertRaises(HoundError) as caught:
            call()
        self.assertEqual(caught.exception.cause, cause)

    def leave(self, contents):
        with open(self.path, "wb") as file:
            file.write(contents)

    def assert_file(self, contents):
        with open(self.path, "rb") as file:
            self.assertEqual(file.read(), contents)

    def test_wave_reads_what_is_written(self):
        samples = array.array("h", [2, -3, 5, -7, 32767, -32768])
        self.assertEqual(hound.write(self.path, samples, 44100, channels=2), 56)
        with wave.open(self.path) as other:
            self.assertEqual(other.getparams()[:4], (2, 2, 44100, 3))
            self.assertEqual(other.readframes(3), samples.tobytes())

    def test_what_wave_writes_is_read(self):
        for width, values in (
            (1, [0, 127, -128]),
            (2, [-32768, 5, 32767]),
            (3, [-8388608, 1, 8388607]),
            (4, [-(2**31), 7, 2**31 - 1]),
        ):
            top = 1 << (8 * width - 1)
            stored = b"".join((v + 128 if width == 1 else v % (2 * top)).to_bytes(width, "little") for v in values)
            with wave.open(self.path, "wb") as other:
                other.setparams((1, width, 8000, 0, "NONE", ""))
                other.writeframes(stored)
            self.assertEqual(list(hound.read(self.path, dtype="int32")), values)
            self.assertEqual(list(hound.read(self.path, 1, 1)), values[1:2])
            self.assertEqual(hound.info(self.path)[:5], (8000, 1, 8 * width, False, 3))

    def test_bytes_are_files(self):
        file = hound.to_bytes(array.array("i", [1, -1]), 48000, bits=24)
        self.assertEqual((len(file), bytes(file[68:])), (74, bytes.fromhex("010000ffffff")))
        for form in (file, bytes(file), memoryview(file), memoryview(bytes(file))):
            self.assertEqual(list(hound.read(form)), [1, -1])
        floats = hound.to_bytes(array.array("f", [0.5, -0.0]), 48000)
        self.assertEqual(list(hound.read(floats)), [0.5, 0.0])
        self.assertTrue(hound.info(floats).is_float)
        four = hound.to_bytes(array.array("i", [1]), 48000, bits=24, bytes_per_sample=4)
        self.assertEqual(bytes(four[68:]), bytes.fromhex("01000000"))

    def test_a_buffer_is_filled(self):
        hound.write(self.path, array.array("h", range(10)), 44100, channels=2)
        buffer = array.array("h", [9] * 7)
        self.assertEqual(hound.read_into(self.path, buffer, 3), 2)
        self.assertEqual(list(buffer), [6, 7, 8, 9, 9, 9, 9])
        self.assertEqual(hound.read_into(self.path, buffer, 5), 0)

    def test_frames_are_appended(self):
        hound.write(self.path, array.array("h"), 44100, channels=2)
        for i in range(50):
            self.assertEqual(hound.append(self.path, array.array("h", [i, -i] * 20)), 44 + 80 * (i + 1))
        self.assertEqual(list(hound.read(self.path)), [x for i in range(50) for x in [i, -i] * 20])
        self.fails(Cause.UNFINISHED_FRAME, lambda: hound.append(self.path, array.array("h", [1])))
        self.assertEqual(os.path.getsize(self.path), 44 + 80 * 50)

    def test_a_pad_byte_is_written(self):
        hound.write(self.path, array.array("h", [1]), 44100, bits=8)
        self.assertEqual(os.path.getsize(self.path), 46)
        self.assertEqual(hound.append(self.path, array.array("h", [2])), 46)
        self.assertEqual(hound.append(self.path, array.array("h", [3])), 48)
        self.assertEqual(list(hound.read(self.path)), [1, 2, 3])

    def test_a_cut_file_is_repaired(self):
        file = hound.to_bytes(array.array("h", range(100)), 44100, channels=2)
        with open(self.path, "wb") as disk:
            disk.write(file[:101])
        self.fails(Cause.TRUNCATED, lambda: hound.read_into(self.path, array.array("h", [0, 0]), 40))
        self.assertEqual(hound.find_damage(self.path), (State.CUT_OFF, 14, 1))
        self.assert_file(file[:101])
        self.assertEqual(hound.repair(self.path), (State.CUT_OFF, 14, 1))
        self.assertEqual(list(hound.read(self.path)), list(range(28)))
        self.assertEqual(hound.repair(self.path)[:2], (State.WHOLE, 14))

    def test_errors_have_their_cause(self):
        self.fails(Cause.ENDED, lambda: hound.info(b""))
        self.fails(Cause.NO_RIFF_TAG, lambda: hound.info(b"RIFX" + bytes(60)))
        self.fails(Cause.TOO_WIDE, lambda: hound.to_bytes(array.array("i", [128]), 8000, bits=8))
        self.fails(Cause.NOT_WRITABLE, lambda: hound.to_bytes(array.array("h", [1]), 8000, bits=12))
        error = pickle.loads(pickle.dumps(HoundError(Cause.NO_RIFF_TAG)))
        self.assertEqual((error.cause, str(error)), (Cause.NO_RIFF_TAG, "no RIFF tag found"))
        with self.assertRaises(FileNotFoundError):
            hound.info(os.path.join(self.folder.name, "none.wav"))

    def test_errors_say_what_to_do(self):
        """The call that an error names is the right one."""
        wide = hound.to_bytes(array.array("i", [1 << 20]), 8000, bits=24)
        with self.assertRaisesRegex(HoundError, ': dtype="int32" reads it$'):
            hound.read(wide, dtype="int16")
        self.assertEqual(hound.read(wide, dtype="int32"), array.array("i", [1 << 20]))
        floats = hound.to_bytes([0.5], 8000, bits=32)
        with self.assertRaisesRegex(HoundError, 'vice versa: dtype="float32" reads all that float32 holds, '):
            hound.read(floats, dtype="int16")
        self.assertEqual(hound.read(floats, dtype="float32"), array.array("f", [0.5]))
        stream = by_hand(b"\1\0\2\0", 0xFFFFFFFF)
        with self.assertRaisesRegex(HoundError, r"to its end\): repair\(path\); open\(file, to_end=True\)$"):
            hound.info(stream)
        self.assertEqual(hound.open(io.BytesIO(stream), to_end=True).read(), array.array("h", [1, 2]))
        self.leave(by_hand(b"\1\0", after=CHUNK))
        with self.assertRaisesRegex(HoundError, r"would be overwritten: append\(\.\., overwrite=True\)$"):
            hound.append(self.path, [3])

    def test_what_an_append_would_overwrite(self):
        one, followed = array.array("h", [7]), by_hand(b"\1\2\3\4", after=CHUNK)
        for samples in one, array.array("h"):
            self.leave(followed)
            self.fails(Cause.NEEDS_OVERWRITE, lambda: hound.append(self.path, samples))
            self.assert_file(followed)
        self.assertEqual(hound.append(self.path, one, overwrite=True), 50)
        self.assert_file(by_hand(b"\1\2\3\4\7\0"))
        self.leave(by_hand(b"\1\2", after=b"TAG" + bytes(125)))
        self.fails(Cause.NEEDS_OVERWRITE, lambda: hound.append(self.path, one))

    def test_an_append_to_what_was_cut_off(self):
        held = array.array("h", range(-24000, 24000)).tobytes()
        for cut_off, frames, cause in (
            (by_hand(held, 0, riff=36), 48000, Cause.NEEDS_MEND),  # as a recorder leaves it that was killed
            (by_hand(held, 4), 48000, Cause.NEEDS_MEND),
            (by_hand(held)[:-2], 47999, Cause.TRUNCATED),
            (by_hand(held, 0xFFFFFFFE), 48000, Cause.TRUNCATED),
            (by_hand(held, 95999), 48000, Cause.NEEDS_MEND),  # no whole frames
        ):
            for samples in array.array("h", [7]), array.array("h"):
                for overwrite in False, True:
                    self.leave(cut_off)
                    self.fails(cause, lambda: hound.append(self.path, samples, overwrite=overwrite))
                    self.assert_file(cut_off)
            self.assertEqual(hound.repair(self.path)[:2], (State.CUT_OFF, frames))
            self.assertEqual(hound.append(self.path, array.array("h", [7])), 44 + 2 * frames + 2)
            self.assert_file(by_hand(held[: 2 * frames] + b"\7\0"))
        self.assertIn("repair", str(HoundError(Cause.NEEDS_MEND)))
        self.leave(by_hand(b"\x81\x82\x83", 0, width=1))  # A repair adds a pad byte.
        self.fails(Cause.NEEDS_MEND, lambda: hound.append(self.path, array.array("b", [4])))

    def test_an_append_to_what_is_no_file_of_frames(self):
        torn = by_hand(b"\1\2\3", after=b"\0" + CHUNK)
        for contents, overwrite, cause in (
            (b"RIFX" + bytes(60), False, Cause.NO_RIFF_TAG),
            (b"RIFX" + bytes(60), True, Cause.NO_RIFF_TAG),
            (torn, False, Cause.NEEDS_OVERWRITE),
            (torn, True, Cause.UNFINISHED_FRAME),
        ):
            self.leave(contents)
            self.fails(cause, lambda: hound.append(self.path, array.array("h"), overwrite=overwrite))
            self.assert_file(contents)

    def test_what_an_append_makes_right(self):
        for before in (
            by_hand(b"\x81\x82\x83", width=1),  # the pad byte is missing, and the RIFF size may count it or not
            by_hand(b"\x81\x82\x83", width=1, riff=40),
            by_hand(b"\x81\x82\x83", width=1, after=b"\0", riff=36),
        ):
            self.leave(before)
            self.assertEqual(hound.append(self.path, array.array("b", [4, 5])), 50)
            self.assert_file(by_hand(b"\x81\x82\x83\x84\x85", width=1, after=b"\0"))
        self.leave(by_hand(b"\1\0\2\0\3", 4, riff=40))  # a torn frame, which a repair leaves
        self.assertEqual(hound.repair(self.path), (State.WHOLE, 2, 1))
        hound.append(self.path, array.array("h", [9]))
        self.assert_file(by_hand(b"\1\0\2\0\x09\0"))

    def test_a_repair_writes_only_what_is_wrong(self):
        for contents, state in (
            (by_hand(b"\1\2"), State.WHOLE),
            (by_hand(b"\1\2", after=CHUNK), State.HAS_CHUNKS_AFTER_DATA),
        ):
            self.leave(contents)
            os.utime(self.path, (1, 1))
            with mock.patch("os.pwrite", side_effect=AssertionError):
                self.assertEqual(hound.repair(self.path), (state, 1, 0))
            self.assertEqual(os.stat(self.path).st_mtime, 1)
        self.leave(by_hand(b"\x81\x82\x83", 0, width=1))
        self.assertEqual(hound.repair(self.path, durable=True), (State.CUT_OFF, 3, 0))
        self.assert_file(by_hand(b"\x81\x82\x83", width=1, after=b"\0"))

    def test_a_repair_to_the_end_takes_chunks_for_samples(self):
        self.leave(by_hand(b"\1\2", after=CHUNK))
        self.assertEqual(hound.repair(self.path, to_end=True), (State.CUT_OFF, 1 + len(CHUNK) // 2, 0))
        self.assert_file(by_hand(b"\1\2" + CHUNK))
        self.assertEqual(hound.repair(self.path, to_end=True)[0], State.WHOLE)
        self.leave(by_hand(b"\1", after=CHUNK, width=1))  # No pad byte is there.
        self.assertEqual(hound.repair(self.path, to_end=True), (State.CUT_OFF, 1 + len(CHUNK), 0))
        self.assert_file(by_hand(b"\1" + CHUNK, width=1, after=bytes(1)))

    def test_files_whose_frames_are_all_counted(self):
        """Programs write no pad byte, or another RIFF size: no sample is concerned, and no file is called cut off."""
        for width, channels, frames in itertools.product((1, 2, 3), range(1, 8), (4, 5)):
            length = width * channels * frames
            data = bytes(range(1, length + 1))
            pad = bytes(length % 2)
            for before, after in (b"", b""), (CHUNK, b""), (b"", CHUNK), (CHUNK, CHUNK + b"LIST" + bytes(4)):
                whole = with_chunk(by_hand(data, after=pad + after, channels=channels, width=width), before)
                right = len(whole) - 8
                no_pad = whole[: len(whole) - len(pad)] if not after else whole
                for content, riff in (
                    *((whole, riff) for riff in (right, right - 1, right + 1, 0, 2**32 - 1)),
                    *((no_pad, riff) for riff in (right, right - 1, 36)),
                ):
                    self.leave(with_riff(content, riff))
                    state = State.WHOLE if (content, riff) == (whole, right) else State.ALL_COUNTED
                    state = State.HAS_CHUNKS_AFTER_DATA if after else state
                    for call in hound.find_damage, hound.repair:
                        found = call(self.path)
                        self.assertEqual((found, found.counted, found.added), ((state, frames, 0), frames, 0))
                    self.assert_file(with_riff(content, riff))
                    self.assertEqual(hound.repair(self.path, canonical=True), (state, frames, 0))
                    is_mended = state == State.ALL_COUNTED
                    self.assert_file(with_riff(whole, right) if is_mended else with_riff(content, riff))
        with open(self.path, "wb") as file:  # What hound 3.5.1 writes of three frames of 8 bits: no pad byte.
            file.write(by_hand(b"\x81\x82\x83", width=1))
        self.assertEqual(hound.repair(self.path, copy=self.path + "2"), (State.ALL_COUNTED, 3, 0))
        self.assertEqual(os.path.getsize(self.path + "2"), 47)
        os.unlink(self.path + "2")
        for more in {"canonical": True}, {"to_end": True}:
            self.assertEqual(hound.repair(self.path, copy=self.path + "2", **more), (State.ALL_COUNTED, 3, 0))
            os.replace(self.path + "2", self.path + "3")
            self.assert_file(by_hand(b"\x81\x82\x83", width=1))
        self.path += "3"
        self.assert_file(by_hand(b"\x81\x82\x83", width=1, after=b"\0"))

    def test_a_repaired_copy_ends_after_its_frames(self):
        """GStreamer plays nothing of a file that has some bytes after them. In place nothing is cut off."""
        copy = self.path + ".copy"
        for width, channels, counted, durable in (
            (2, 1, 0, False), (3, 2, 2, True), (3, 6, 0, False), (1, 3, 1, True), (1, 1, 0, False), (3, 1, 9, False),
        ):  # fmt: skip
            size = width * channels
            for left in range(size):
                data = bytes(range(1, 5 * size + left + 1))
                torn = by_hand(data, counted * size, channels=channels, width=width)
                self.leave(torn)
                found = hound.repair(self.path, copy=copy, durable=durable)
                self.assertEqual(found, (State.CUT_OFF, 5, left))
                self.assertEqual((found.counted, found.added), (counted, max(5 - counted, 0)))
                self.assertEqual(found.info, (8000, channels, 8 * width, False, 5, 44, width))
                self.assert_file(torn)
                pad = bytes(5 * size % 2)  # and no byte of the torn frame
                right = by_hand(data[: 5 * size], after=pad, channels=channels, width=width)
                with open(copy, "rb") as file:
                    self.assertEqual(file.read(), right)
                os.unlink(copy)
                self.assertEqual(hound.repair(self.path), (State.CUT_OFF, 5, left))
                self.assertEqual(os.path.getsize(self.path), max(len(torn), len(right)))
        whole = by_hand(b"\1\0\2\0\3", 4, riff=40)
        for content in (whole, by_hand(b"\1\2", after=CHUNK), by_hand(b"\1\2", after=b"TAG" + bytes(125))):
            self.leave(content)
            self.assertNotEqual(hound.repair(self.path, copy=copy)[0], State.CUT_OFF)
            os.replace(copy, self.path)
            self.assert_file(content)
        self.assertEqual(hound.repair(self.path, copy=copy, to_end=True), (State.CUT_OFF, 65, 0))
        self.assertEqual(os.path.getsize(copy), 44 + 130)

    def test_what_is_synced_of_a_repaired_copy(self):
        sync, sizes = os.fsync, []

        def noted(descriptor):
            sizes.append(os.fstat(descriptor).st_size)
            sync(descriptor)

        self.leave(by_hand(b"\1\0\2\0\3", 0))
        with mock.patch("os.fsync", noted):
            hound.repair(self.path, copy=self.path + "2", durable=True)
        self.assertEqual(sizes[-2], 48)  # The last one is that of the folder.

    def test_what_a_repair_says(self):
        self.leave(by_hand(bytes(24), 8))
        for found in hound.find_damage(self.path), hound.repair(self.path):
            state, frames, left_over = found
            self.assertEqual((state, frames, left_over), (State.CUT_OFF, 12, 0))
            for same in pickle.loads(pickle.dumps(found)), copy.copy(found):
                self.assertEqual((same, same.counted, same.added), (found, 4, 8))
                self.assertEqual(same.info, (8000, 1, 16, False, 12, 44, 2))
        self.assertEqual(hound.repair(self.path).info, hound.info(self.path))
        self.leave(by_hand(bytes(4), 24))  # More are counted than there are.
        self.assertEqual((hound.repair(self.path).counted, hound.repair(self.path).added), (12, 0))

    def test_what_converts_a_file_is_named(self):
        """FFmpeg reads PCM with headers that the format doesn't have, and integers of 64 bits."""
        path, new = (os.path.join(self.folder.name, name) for name in ("a b.wav", "a b.pcm.wav"))
        values = [1, -2, 3, -4]
        data = struct.pack("<4h", *values)
        for content, shift in (
            (by_hand(data, extra=bytes(4)), 16),
            (by_hand(data, extra=bytes(34)), 16),
            (by_hand(data)[:28] + bytes(4) + by_hand(data)[32:], 16),
            (by_hand(data, bits=12), 16),
            (by_hand(data, tag=0xFFFE, extra=struct.pack("<HHI", 26, 16, 4) + GUID + bytes(4)), 16),
            (by_hand(struct.pack("<4i", *values), width=4, extra=bytes(2)), 0),
            (by_hand(struct.pack("<4q", *(value << 32 for value in values)), width=8), 0),
        ):
            with open(path, "wb") as file:
                file.write(content)
            with self.assertRaises(HoundError) as caught:
                hound.read(path)
            words = f"ffmpeg -i '{path}' -c:a pcm_s32le '{new}'"
            self.assertIn(words, str(caught.exception))
            if shutil.which("ffmpeg"):
                subprocess.run(words.replace("ffmpeg", "ffmpeg -v error -y"), shell=True, check=True)
                self.assertEqual([value >> shift for value in hound.read(new)], values)
        extensible = {"tag": 0xFFFE, "extra": struct.pack("<HHI", 22, 32, 4) + b"\3" + GUID[1:]}
        for form, held in (
            ({"width": 5}, "integers of 40 bits"), ({"width": 6}, "integers of 48 bits"),
            ({"width": 7}, "integers of 56 bits"),
            ({"width": 5, "bits": 32, **extensible}, "floats of 32 bits in 5 bytes"),
        ):  # fmt: skip
            for dtype in None, "int32", "float64":
                with self.assertRaises(HoundError) as caught:
                    hound.read(by_hand(bytes(40), **form), dtype=dtype)
                if caught.exception.cause == Cause.TOO_WIDE:  # or of another format
                    said = f"the file holds {held}, so it isn't read ({Cause.TOO_WIDE.sentence})"
                    self.assertEqual(str(caught.exception), said)

    def test_what_helps_where_samples_are_given(self):
        for samples, bits, words in (
            ([40000], 16, "16 bits: bits=24 holds more"), (array.array("h", [200]), 8, "8 bits: bits=16 holds more"),
            ([1 << 23], 24, "24 bits: bits=32 holds more"), ([1 << 31], 32, "32 bits"), ([1 << 70], 16, "32 bits"),
            ([1e300], None, "32 bits"),
        ):  # fmt: skip
            form = {"bits": bits} if bits else {"like": hound.Info(8000, 1, 32, True)}

            def record():
                with hound.create(self.path, 8000, 1, **form) as writer:
                    writer.write(samples)

            for call in (
                lambda: hound.to_bytes(samples, 8000, **form),
                lambda: hound.write(self.path, samples, 8000, **form),
                record,
            ):
                with self.assertRaises(HoundError) as caught:
                    call()
                said = str(pickle.loads(pickle.dumps(caught.exception))).replace(self.path + ": ", "")
                self.assertEqual(said, "a value doesn't fit in " + words)
        with self.assertRaisesRegex(HoundError, r'vice versa: give floats, such as array.array\("f", ..\)$'):
            hound.to_bytes(array.array("h", [1]), like=hound.Info(8000, 1, 32, True))

    def test_no_samples(self):
        """An empty list has no type, so it is one of any file; an array has one."""
        floats, integers = hound.Info(8000, 1, 32, True), hound.Info(8000, 1, 24)
        for like, kind in (floats, b"\3"), (integers, b"\1"):
            for empty in [], (), array.array("f"):
                content = hound.to_bytes(empty, like=like)
                self.assertEqual((len(content), bytes(content[44:45]), hound.info(content).frames), (68, kind, 0))
                hound.write(self.path, empty, like=like)
                self.assert_file(content)
        self.fails(Cause.OTHER_FORMAT, lambda: hound.to_bytes(array.array("h"), like=floats))

    def test_what_is_in_a_file_that_is_rejected(self):
        def tagged(tag, bits, extra=b""):
            return by_hand(bytes(4), width=1, tag=tag, bits=bits, extra=extra)

        def converting(codec):
            source, target = f"'{self.folder.name}/a b.wav'", f"'{self.folder.name}/a b.pcm.wav'"
            return f"ffmpeg -i {source} -c:a {codec} {target}" if codec else f"sox {source} -L {target}"

        path = os.path.join(self.folder.name, "a b.wav")
        for content, held, codec in (
            (tagged(2, 4, extra=b"\2\0\0\2"), "Microsoft ADPCM", "pcm_s16le"),
            (tagged(17, 4, extra=b"\2\0\xf9\1"), "IMA ADPCM", "pcm_s16le"),
            (tagged(6, 8, extra=b"\0\0"), "A-law", "pcm_s16le"),
            (tagged(7, 8), "mu-law", "pcm_s16le"),
            (tagged(49, 0, extra=b"\2\0\x40\1"), "GSM 6.10", "pcm_s16le"),
            (tagged(85, 0, extra=bytes(14)), "MP3", "pcm_s16le"),
            (tagged(3, 64), "floats of 64 bits", "pcm_f32le"),
            (b"RIFX" + bytes(60), "RIFX, whose numbers have their highest byte first", None),
            (b"RF64" + bytes(60), "RF64, which is for more than 4 GiB", "pcm_s32le"),
            (b"FORM" + bytes(4) + b"AIFF" + bytes(60), "AIFF", "pcm_s32le"),
            (b"fLaC" + bytes(60), "FLAC", "pcm_s32le"),
            (b"OggS" + bytes(60), "Ogg", "pcm_s32le"),
        ):
            with open(path, "wb") as file:
                file.write(content)
            for call in hound.read, hound.find_damage, hound.repair, hound.append_to:
                with self.assertRaises(HoundError) as caught:
                    call(path)
                words = f"{path} holds {held}, so it isn't read: convert it by {converting(codec)}"
                error = pickle.loads(pickle.dumps(caught.exception))
                self.assertEqual((str(error), error.held), (f"{words} ({error.cause.sentence})", held))
            for given in content, io.BytesIO(content), Pipe(content):
                with self.assertRaisesRegex(HoundError, f"^the file holds {held}, so .* FILE .* FILE.pcm.wav"):
                    hound.read(given)
        noise = random.Random(3).getrandbits(8000).to_bytes(1000, "big")
        for content in b"", b"text", b"R", noise, tagged(3, 12), tagged(1, 0), bytes(99):
            with self.assertRaises(HoundError) as caught:
                hound.read(content)
            self.assertEqual((str(caught.exception), caught.exception.held), (caught.exception.cause.sentence, None))
        with self.assertRaises(HoundError) as caught:
            hound.read(by_hand(b"\1\2"), dtype="int8")  # It is another error than one of the header.
        self.assertTrue(str(caught.exception).startswith(Cause.TOO_WIDE.sentence))

    def test_what_other_programs_write_is_named(self):
        if not shutil.which("sox") or not shutil.which("ffmpeg"):
            self.skipTest("sox or ffmpeg isn't here")
        samples = array.array("h", range(-3000, 3000, 7))
        hound.write(self.path, samples, 8000)
        for name, held, words in (
            ("b.wav", "IMA ADPCM", "sox a.wav -e ima-adpcm b.wav"),
            ("b.wav", "Microsoft ADPCM", "ffmpeg -v error -y -i a.wav -c:a adpcm_ms b.wav"),
            ("b.wav", "RIFX", "sox a.wav -B b.wav"),
            ("b.wav", "floats of 64 bits", "sox a.wav -e floating-point -b 64 b.wav"),
            ("b.wav", "RF64", "ffmpeg -v error -y -i a.wav -rf64 always b.wav"),
            ("b.w64", "Wave64", "sox a.wav b.w64"),
            ("b.flac", "FLAC", "sox a.wav b.flac"),
            ("b.aiff", "AIFF", "sox a.wav b.aiff"),
        ):
            run = lambda words: subprocess.run(words, cwd=self.folder.name, shell=True, check=True)
            run(words)
            path = os.path.join(self.folder.name, name)
            with self.assertRaises(HoundError) as caught:
                hound.read(path)
            self.assertIn(f" holds {held}", str(caught.exception))
            command = re.findall(r"(?:ffmpeg|sox) .*\.pcm\.wav", str(caught.exception))[0]
            run(command.replace("ffmpeg", "ffmpeg -v error -y"))
            found = hound.read(os.path.join(self.folder.name, "b.pcm.wav"), dtype="float64")
            if "ADPCM" not in held:
                self.assertEqual(list(found), [sample / 32768 for sample in samples])

    def test_short_writes_continue(self):
        pwrite = os.pwrite
        with mock.patch("os.pwrite", lambda file, content, place: pwrite(file, content[:3], place)):
            hound.write(self.path, array.array("h", range(100)), 8000)
            hound.append(self.path, array.array("h", range(100, 200)), durable=True)
        self.assert_file(by_hand(array.array("h", range(200)).tobytes()))

    def test_an_interrupted_append_is_done_or_not(self):
        before, pwrite = by_hand(b"\x81\x82", width=1), os.pwrite
        done = by_hand(b"\x81\x82\x83", width=1, after=bytes(1))
        for last, left in (1, before), (2, done), (3, done), (4, done):
            self.leave(before)
            places = []

            def interrupted(file, content, place):
                places.append(place)
                count = pwrite(file, content, place)
                if len(places) == last:
                    raise KeyboardInterrupt
                return count

            with mock.patch("os.pwrite", interrupted), self.assertRaises(KeyboardInterrupt):
                hound.append(self.path, array.array("b", [3]))
            self.assertEqual(places[:4], [46, 47, 4, 40][:last] + places[last:4])
            self.assert_file(left)

    def test_what_is_synced(self):
        """The file, and its folder: before anything is appended, and after a new file has its name."""
        sync, made = os.fsync, []

        def noted(descriptor):
            about = os.fstat(descriptor)
            made.append("folder" if stat.S_ISDIR(about.st_mode) else about.st_size)
            sync(descriptor)

        with mock.patch("os.fsync", noted):
            hound.write(self.path, array.array("h", [1]), 8000)
            self.assertEqual(made, [])
            hound.write(self.path, array.array("h", [1]), 8000, durable=True)
            self.assertEqual(made, [46, "folder"])
            made.clear()
            hound.append(self.path, array.array("h", [2]), durable=True)
            self.assertEqual(made, [46, "folder", 48, 48])
        with mock.patch("os.fsync", side_effect=OSError):
            for call in (hound.append, lambda *words, **more: hound.write(*words, 8000, **more)):
                self.assertRaises(OSError, lambda: call(self.path, array.array("h", [3]), durable=True))
        self.assert_file(by_hand(b"\1\0\2\0"))
        self.assertEqual(os.listdir(self.folder.name), ["a.wav"])

    def calls(self):
        """The calls that read a file at a path."""
        yield lambda: hound.info(self.path)
        yield lambda: hound.read(self.path)
        yield lambda: hound.read_into(self.path, array.array("h", bytes(200)))
        yield lambda: hound.find_damage(self.path)
        yield lambda: hound.repair(self.path)
        yield lambda: hound.append(self.path, array.array("h", [1]))
        yield lambda: hound.append_to(self.path)
        yield lambda: hound.open(self.path).read()

    def test_a_disk_that_can_t_be_read(self):
        """No file is mapped, since Python would end by SIGBUS: each read that fails is an OSError."""
        content, fault = by_hand(bytes(10000), 4000), OSError(errno.EIO, "a fault")
        self.leave(content)
        with mock.patch("mmap.mmap", side_effect=AssertionError):
            for call in self.calls():
                with contextlib.suppress(HoundError):
                    call()
        self.leave(content)

        class Faulty(io.FileIO):
            def read(self, count=-1):
                raise fault

        opened = lambda path, mode, buffering=0, **more: Faulty(path, mode, **more)
        with mock.patch("os.pread", side_effect=fault), mock.patch("os.preadv", side_effect=fault, create=True), (
            mock.patch("io.open", opened)
        ):
            for call in self.calls():
                with self.assertRaises(OSError) as caught:
                    call()
                self.assertEqual(caught.exception.errno, errno.EIO)
        self.assert_file(content)

    def test_a_loop_device_that_is_cut(self):
        """Part of a file is on a disk that ends before it."""
        image, disk = os.path.join(self.folder.name, "image"), os.path.join(self.folder.name, "disk")
        run = lambda *words: subprocess.run(words, check=True, stdout=subprocess.DEVNULL, stderr=subprocess.DEVNULL)
        with open(image, "wb") as file:
            file.truncate(40 << 20)
        os.mkdir(disk)
        try:
            run("mkfs.ext4", "-q", image)
            run("mount", "-o", "loop", image, disk)
        except (OSError, subprocess.CalledProcessError):
            self.skipTest("no loop device can be mounted here")
        self.addCleanup(run, "umount", disk)
        self.path = os.path.join(disk, "a.wav")
        self.leave(by_hand(bytes(8 << 20), 4 << 20))
        with open(self.path, "rb") as file:
            os.fsync(file.fileno())
            os.posix_fadvise(file.fileno(), 0, 0, os.POSIX_FADV_DONTNEED)
        os.truncate(image, 2 << 20)
        for call in self.calls():
            with contextlib.suppress(OSError, HoundError):
                call()
        self.assertRaises(OSError, lambda: hound.read(self.path))

    def test_a_file_that_becomes_shorter(self):
        content, pread = by_hand(bytes(10000), 4000), os.pread

        def late(descriptor, count, place):
            os.truncate(self.path, 20)
            return pread(descriptor, count, place)

        for call in (lambda: hound.find_damage(self.path), lambda: hound.repair(self.path)):
            self.leave(content)
            with mock.patch("os.pread", late), self.assertRaises(HoundError):
                call()
            self.assert_file(content[:20])
        self.leave(by_hand(bytes(10)))
        with mock.patch("os.pread", late), self.assertRaises(HoundError):
            hound.append(self.path, array.array("h"))

    def test_repairs_look_at_few_parts(self):
        """What is found over them is what is found over the whole file."""
        some, pread, counts = random.Random(5), os.pread, []
        given = [ctypes.c_void_p, ctypes.c_size_t] * 2
        calls = [_library.function(name, *given) for name in ("repair", "repair_to_end")]
        for call in calls:
            call.argtypes = ctypes.c_void_p, ctypes.c_size_t, ctypes.c_size_t, ctypes.c_void_p

        def noted(descriptor, count, place):
            counts.append(count)
            return pread(descriptor, count, place)

        chunks = [CHUNK, b"TAG" + bytes(125), b"data" + bytes(4), b"junk\3\0\0\0abc\0", b"odds\1\0\0\0a"]
        chunks += [b"\0", b"a", b"\x80bcd" + bytes(4)]
        with mock.patch("os.pread", noted):
            for _ in range(3000):
                width, channels, length = some.randrange(1, 4), some.randrange(1, 3), some.randrange(70)
                after = b"".join(some.choices(chunks, k=some.randrange(4)))
                counted = some.choice((length, length, 0, length + some.randrange(9), 2**32 - 2))
                riff = some.choice((None, None, 36))
                content = by_hand(bytes(some.choices(range(256), k=length)), counted, after, riff, channels, width)
                content = content[: some.choice((len(content), len(content), some.randrange(len(content) + 1)))]
                for to_end in False, True:
                    self.leave(content)
                    found = _library.CRepair()
                    memory = bytearray(content + b"U")
                    with hound.conversion.address(memory) as (start, room):
                        size = calls[to_end](start, room, len(content), ctypes.byref(found))
                    if size < 0:
                        self.fails(Cause(-size), lambda: hound.repair(self.path, to_end=to_end))
                        self.assert_file(content)
                        counts.clear()  # What a rejected file is, is looked for in its front.
                        continue
                    wanted = (State(found.state), found.frames, found.left_over)
                    if not to_end:
                        self.assertEqual(hound.find_damage(self.path), wanted)
                    self.assertEqual(hound.repair(self.path, to_end=to_end), wanted)
                    self.assert_file(memory[:size])
        self.assertLessEqual(max(counts), 40)

    @unittest.skipUnless(os.path.exists("/proc/self/status"), "the system doesn't say there how much memory was used")
    def test_a_long_file_is_repaired_in_little_memory(self):
        length = 3 * 10**9 + 1
        self.leave(by_hand(b"", width=1))
        os.truncate(self.path, 44 + length)
        program = f"import hound_bindings as h; path = {self.path!r}"
        program += "; print(h.find_damage(path).frames, h.repair(path).frames)"
        program += "; print(*(line.split()[1] for line in open('/proc/self/status') if line.startswith('VmHWM')))"
        env = {**os.environ, "PYTHONPATH": os.path.dirname(os.path.dirname(hound.__file__))}
        said = subprocess.run([sys.executable, "-c", program], env=env, stdout=subprocess.PIPE, check=True).stdout
        self.assertEqual(said.split()[:2], [b"%d" % length] * 2)
        self.assertLess(int(said.split()[2]), 60_000)
        self.assertEqual((hound.info(self.path).frames, os.path.getsize(self.path)), (length, 44 + length + 1))

    def test_how_many_frames_have_room(self):
        # The RIFF size counts all but 8 of 4,294,967,303 bytes, of which the header has 44, and a pad byte an odd one.
        for channels, bits, most in ((2, 16, 4294967259 // 4), (1, 8, 4294967258)):
            with hound.create(self.path, 8000, channels, bits) as writer:
                self.assertEqual(writer.frames_left, most)
                writer.write([0] * 3 * channels)
                self.assertEqual(writer.frames_left, most - 3)

    def test_a_failed_write_leaves_the_older_file(self):
        self.leave(b"older")
        os.chmod(self.path, 0o640)
        for name in "os.pwrite", "os.replace", "os.chmod":
            with mock.patch(name, side_effect=OSError), self.assertRaises(OSError):
                hound.write(self.path, array.array("h", [1]), 8000)
            self.assert_file(b"older")
        self.fails(Cause.TOO_WIDE, lambda: hound.write(self.path, array.array("h", [128]), 8000, bits=8))
        link = os.path.join(self.folder.name, "link.wav")
        os.symlink("a.wav", link)
        hound.write(link, array.array("h", [1]), 8000)
        self.assert_file(by_hand(b"\1\0"))
        self.assertTrue(os.path.islink(link))
        self.assertEqual(stat.S_IMODE(os.stat(self.path).st_mode), 0o640)
        self.assertEqual(sorted(os.listdir(self.folder.name)), ["a.wav", "link.wav"])

    def test_a_file_that_may_only_be_read(self):
        older, user = by_hand(b"\1\2"), os.geteuid()
        self.leave(older)
        os.chmod(self.path, 0o444)
        os.chmod(self.folder.name, 0o777)
        if user == 0:
            os.seteuid(65534)
        try:
            self.assertEqual(hound.repair(self.path), (State.WHOLE, 1, 0))
            samples = array.array("h", [3])
            for call in (lambda: hound.write(self.path, samples, 8000), lambda: hound.append(self.path, samples)):
                self.assertRaises(PermissionError, call)
        finally:
            os.seteuid(user)
        self.assert_file(older)

    def test_a_pipe_is_written_to(self):
        os.mkfifo(self.path)
        found = []

        def read():
            with open(self.path, "rb") as pipe:
                found.append(pipe.read())

        reader = threading.Thread(target=read)
        reader.start()
        hound.write(self.path, array.array("h", [1]), 8000)
        reader.join()
        self.assertEqual(found, [by_hand(b"\1\0")])

    def test_arguments_out_of_range(self):
        one, four = array.array("h", [1]), hound.to_bytes(array.array("h", range(8)), 8000, 4)
        self.assertEqual(list(hound.read(four, start=1 << 62)), [])  # No number wraps.
        self.assertEqual(hound.read_into(four, array.array("h", bytes(16)), 1 << 62), 0)
        for name, values, call in (
            ("rate", (-1, 0, 1 << 32, (1 << 32) + 8000), lambda value: hound.to_bytes(one, value)),
            ("channels", (-1, 0, 65536, 65537), lambda value: hound.to_bytes(one, 8000, value)),
            ("bits", (-8, 0, 65536 + 16), lambda value: hound.write(self.path, one, 8000, bits=value)),
            ("bytes_per_sample", (-1, 65538), lambda value: hound.to_bytes(one, 8000, bytes_per_sample=value)),
            ("start", (-1, 1 << 63), lambda value: hound.read(four, value)),
            ("start", (-1, 1 << 63), lambda value: hound.read_into(four, one, value)),
            ("frames", (-2, 1 << 63), lambda value: hound.read(four, 0, value)),
        ):
            for value in values:
                with self.assertRaisesRegex(ValueError, f"^{name} is {value}, "):
                    call(value)
            for value in 1.0, "1", one:
                with self.assertRaisesRegex(TypeError, f"^{name} is .* integer"):
                    call(value)
        self.assertFalse(os.path.exists(self.path))

    def test_options_are_given_by_name(self):
        one = array.array("h", [1])
        for call in (
            lambda: hound.create(self.path, 8000, 2, 24, 4),
            lambda: hound.write(self.path, one, 8000, 2, 24, 4),
            lambda: hound.to_bytes(one, 8000, 2, 24, 4),
            lambda: hound.append(self.path, one, True),
            lambda: hound.append_to(self.path, True),
            lambda: hound.repair(self.path, True),
            lambda: hound.guess(self.path, 44, rate=8000),
            lambda: hound.read(self.path, 0, -1, "int16", True),
            lambda: hound.read(self.path, 0, -1, "int16", array.array("h", [1])),
            lambda: hound.read_with_info(self.path, 0, -1, "int16", True),
        ):
            self.assertRaisesRegex(TypeError, "positional argument", call)
        self.leave(by_hand(b"\1\2"))
        for more in {}, {"copy": self.path + "2"}:
            with self.assertRaisesRegex(ValueError, "^skip is for .*: give `like`"):
                hound.repair(self.path, skip=3, **more)
        self.assertEqual(os.listdir(self.folder.name), ["a.wav"])

    def test_a_pipe_that_nobody_opens(self):
        """A call doesn't wait for another program where a pipe is no file for it."""
        os.mkfifo(self.path)
        calls = (hound.find_damage, hound.repair, hound.append_to, lambda path: hound.append(path, [1]),
                 lambda path: hound.guess(path, rate=8000), lambda path: hound.create(path, 8000, 1, 16))  # fmt: skip
        signal.signal(signal.SIGALRM, signal.SIG_DFL)
        signal.alarm(60)
        self.addCleanup(signal.alarm, 0)
        for call in calls:
            with self.assertRaisesRegex(OSError, f"a pipe can't be sought in: '{self.path}'$"):
                call(self.path)

    def test_a_library_of_another_version(self):
        """What it lacks is named where the package is imported."""
        library, compiler = os.path.join(self.folder.name, "other.so"), shutil.which("cc")
        if not compiler:
            self.skipTest("no C compiler is here")
        words = [compiler, "-shared", "-x", "c", "-", "-o", library]
        env = {**os.environ, "HOUND_C_LIBRARY": library, "PYTHONPATH": os.path.dirname(os.path.dirname(hound.__file__))}
        major, minor, patch = map(int, hound.__version__.split("."))
        version = "int hound_version(void) { return %d; }"
        for source, why in (
            ("", "it lacks hound_version"),
            (version % (major << 16 | minor << 8 | patch), "it lacks hound_kind"),
            (version % (major << 16 | minor << 8 | patch + 1), f"it is that of version {major}.{minor}.{patch + 1}"),
            (version % (1 << 16 | 2 << 8 | 34), "it is that of version 1.2.34"),
        ):
            subprocess.run(words, input=source.encode(), check=True)
            ran = subprocess.run([sys.executable, "-c", "import hound_bindings"], env=env, stderr=subprocess.PIPE)
            said = f"{library} isn't the library of hound_bindings {hound.__version__}: {why}. Install"
            self.assertIn(f"ImportError: {said}", ran.stderr.decode())

    def test_types_of_samples(self):
        eight = hound.to_bytes(array.array("b", [-128, -1, 127]), 8000)
        self.assertEqual(eight, by_hand(b"\0\x7f\xff", width=1, after=b"\0"))
        self.assertEqual(hound.read(eight, dtype="int8"), array.array("b", [-128, -1, 127]))
        self.assertEqual(hound.read(eight), array.array("h", [-128, -1, 127]))
        block = array.array("b", [9] * 3)
        self.assertEqual((hound.read_into(eight, block, 1), list(block)), (2, [-1, 127, 9]))
        sixteen = hound.to_bytes(array.array("b", [-128, 5]), 8000, bits=16)
        self.assertEqual(list(hound.read(sixteen)), [-128, 5])
        self.fails(Cause.TOO_WIDE, lambda: hound.read(sixteen, dtype="int8"))
        self.fails(Cause.TOO_WIDE, lambda: hound.read_into(sixteen, block))
        floats = hound.to_bytes(array.array("f", [0.1, -2.5]), 8000)
        self.assertEqual(hound.read(floats, dtype="float64"), array.array("d", struct.unpack("<2f", floats[-8:])))
        wide = array.array("d", [9, 9])
        self.assertEqual((hound.read_into(floats, wide, 1), list(wide)), (1, [-2.5, 9]))
        self.fails(Cause.OTHER_FORMAT, lambda: hound.read(floats, dtype="int32"))
        self.assertEqual(hound.to_bytes((ctypes.c_int16 * 2)(-128, 5), 8000), sixteen)
        big = (ctypes.c_int16.__ctype_be__ * 2)()
        for other in array.array("B", [1]), array.array("H", [1]), array.array("Q", [1]), big, b"12":
            for call in (
                lambda: hound.to_bytes(other, 8000),
                lambda: hound.append(self.path, other),
                lambda: hound.read_into(eight, other),
            ):
                with self.assertRaisesRegex(TypeError, "int8, int16, int32, (int64, )?float32"):
                    call()
        for name in "uint8", "h", 16, int:
            with self.assertRaisesRegex(TypeError, "dtype is .* int8, int16, int32, float32 and float64 are read"):
                hound.read(eight, dtype=name)

    def test_two_dimensions_are_frames_by_channels(self):
        samples = array.array("h", range(6))
        frames = two_d(samples, 2)
        hound.write(self.path, frames, 8000)
        self.assert_file(by_hand(samples.tobytes(), channels=2))
        hound.append(self.path, frames)
        back = hound.read(self.path, always_2d=True)
        self.assertEqual((back.shape, back.format), ((6, 2), "h"))
        self.assertEqual(back.tolist(), [[0, 1], [2, 3], [4, 5]] * 2)
        self.assertEqual(hound.read(self.path, 6, always_2d=True).shape, (0, 2))
        content = hound.to_bytes(array.array("b", [1]), 8000)
        self.assertEqual(hound.read(content, dtype="int8", always_2d=True).tolist(), [[1]])
        self.assertEqual(hound.read_into(self.path, two_d(array.array("h", bytes(8)), 2)), 2)
        three = memoryview(bytearray(12)).cast("h", [1, 3, 2])
        others = (two_d(samples, 3), "3 columns"), (two_d(samples, 1), "1 columns"), (three, "3 dimensions")
        for other, words in others:
            for name, call in (
                ("samples", lambda: hound.to_bytes(other, 8000, channels=2)),
                ("samples", lambda: hound.append(self.path, other)),
                ("buffer", lambda: hound.read_into(self.path, other)),
            ):
                with self.assertRaisesRegex(ValueError, f"^{name} has {words}"):
                    call()

    def test_memory_of_any_form(self):
        column = memoryview(array.array("h", range(10)))[1::3]
        self.assertEqual(hound.to_bytes(column, 8000), by_hand(struct.pack("<3h", 1, 4, 7)))
        odd = memoryview(bytearray(b"\0\1\0\2\0"))[1:].cast("h")
        self.assertEqual(hound.to_bytes(odd, 8000), by_hand(b"\1\0\2\0"))
        with hound.conversion.address(odd, 2) as (start, _):
            self.assertEqual(start % 2, 0)
        file = hound.to_bytes(array.array("h", range(4)), 8000)
        for other, words in ((column, "contiguous"), (memoryview(bytes(4)).cast("h"), "writable"), (odd, "aligned")):
            with self.assertRaisesRegex(TypeError, f"^buffer isn't .*{words}"):
                hound.read_into(file, other)

    def large(self, width, channels, frames):
        """Data of so many frames, which are more than are read, encoded or decoded at once."""
        length = width * channels * frames
        data = random.Random(width).getrandbits(8 * length).to_bytes(length, "big")
        if width == 3:
            wide = bytearray(len(data) // 3 * 4)
            for place in range(3):
                wide[place + 1 :: 4] = data[place::3]
            samples = array.array("i", [sample >> 8 for sample in array.array("i", bytes(wide))])
        elif width == 1:
            samples = array.array("b", bytes(byte ^ 128 for byte in data))
        else:
            samples = array.array("h" if width == 2 else "i", data)
        return data, samples

    def test_large_files(self):
        """They are read and written in pieces, as other files."""
        for width, channels, frames in (1, 1, 700001), (2, 2, 200003), (3, 5, 70001), (4, 3, 90001), (1, 65535, 7):
            data, samples = self.large(width, channels, frames)
            pad = bytes(len(data) % 2)
            for write in (
                lambda: hound.write(self.path, samples, 8000, channels=channels, bits=8 * width),
                lambda: self.record(samples, channels, 8 * width),
            ):
                write()
                with open(self.path, "rb") as file:
                    content = file.read()
                start = 44 if width < 3 and channels < 3 else 68
                self.assertEqual(content[start:], data + pad)
                self.assertEqual(content[4:8], struct.pack("<I", len(content) - 8))
                self.assertEqual(content[start - 4 : start], struct.pack("<I", len(data)))
                self.assertEqual(content, hound.to_bytes(samples, 8000, channels=channels, bits=8 * width))
            dtype = "int8" if width == 1 else None
            for source in self.path, content, io.BytesIO(content), Pipe(content):
                self.assertEqual(hound.read(source, dtype=dtype), samples)
            first = frames // 3
            self.assertEqual(hound.read(self.path, first, dtype=dtype), samples[first * channels :])
            self.assertEqual(hound.read(self.path, first, 3, dtype), samples[first * channels : (first + 3) * channels])
            with hound.open(self.path) as reader:
                blocks = list(reader.blocks(frames // 2 + 1, dtype))
            self.assertEqual((blocks[0] + blocks[1], len(blocks)), (samples, 2))
            scale = 2.0 ** (1 - 8 * width)
            doubles = array.array("d", [sample * scale for sample in samples])
            self.assertEqual(hound.read(self.path, dtype="float64"), doubles)
            floats = hound.read(self.path, dtype="float32")
            self.assertEqual(floats, array.array("f", doubles))
            if width < 3:
                hound.write(self.path, floats, 8000, channels, 8 * width)
                self.assertEqual(hound.read(self.path, dtype=dtype), samples)

    def record(self, samples, channels, bits):
        with hound.create(self.path, 8000, channels, bits) as writer:
            writer.write(samples)

    def test_samples_are_read_into_what_is_given(self):
        data, samples = self.large(2, 2, 200003)
        content = by_hand(data, channels=2)
        self.leave(content)
        for source in (lambda: self.path), (lambda: content), (lambda: io.BytesIO(content)), (lambda: Pipe(content)):
            out = array.array("h", bytes(4 * 200005))
            part = hound.read(source(), out=out)
            self.assertEqual((type(part), len(part), part.tolist()), (memoryview, 400006, list(samples)))
            self.assertEqual(out, samples + array.array("h", bytes(8)))
            part.release()
            if isinstance(source(), Pipe):
                continue  # It can't seek.
            out = array.array("f", bytes(4 * 7))
            part, info = hound.read_with_info(source(), 5, out=out)
            self.assertEqual((len(part), info.frames), (6, 200003))
            self.assertEqual(list(out), [sample / 32768 for sample in samples[10:16]] + [0])
            frames = two_d(array.array("i", bytes(4 * 2 * 10)), 2)
            self.assertEqual(hound.read(source(), 3, 4, out=frames).tolist(), two_d(samples[6:14], 2).tolist())
            self.assertEqual(frames.tolist()[4:], [[0, 0]] * 6)
            self.assertEqual(len(hound.read(source(), 200003, out=frames)), 0)
        with hound.open(self.path) as reader:
            out = array.array("h", bytes(4 * 100001))
            for first in 0, 100001:
                part = reader.read(out=out)
                self.assertEqual(part, memoryview(samples[2 * first : 2 * (first + 100001)]))
            self.assertEqual((reader.tell(), len(reader.read(out=out))), (200002, 2))
        good = array.array("h", bytes(400))
        for out, more, words in (
            (memoryview(bytes(4)).cast("h"), {}, "^out isn't writable and contiguous"),
            (memoryview(good)[::2], {}, "^out isn't writable and contiguous"),
            (memoryview(bytearray(5))[1:].cast("h"), {}, "^out isn't aligned"),
            (array.array("H", [1]), {}, "^out has the format"),
            (good, {"dtype": "float32"}, "^out has samples of the type int16, and dtype is 'float32'"),
        ):
            for source in self.path, content:
                self.assertRaisesRegex(TypeError, words, lambda: hound.read(source, out=out, **more))
        self.assertRaisesRegex(ValueError, "^out has 4 columns", lambda: hound.read(self.path, out=two_d(good, 4)))
        self.assertEqual(hound.read(self.path, out=good, dtype="int16"), memoryview(samples[:200]))
        good.append(1)  # Nothing holds it.

    def test_a_header_that_is_longer_than_what_is_read_at_once(self):
        """Each of its parts may be across the end of the first 4096 bytes, or after it."""
        for length in range(4096 - 60, 4096 + 20):
            content = by_hand(b"\1\0\2\0", before=b"JUNK" + struct.pack("<I", length) + bytes(length + length % 2))
            self.leave(content)
            for file in self.path, content, io.BytesIO(content):
                samples, info = hound.read_with_info(file)
                self.assertEqual((list(samples), info.data_start), ([1, 2], len(content) - 4))

    def test_a_large_file_that_is_shorter_than_its_header_says(self):
        """It needs no memory for what isn't there, and the whole frames that are there are read."""
        data, samples = self.large(2, 2, 200003)
        self.leave(by_hand(data, 0xFFFFFFF0, channels=2)[:-1])
        self.assertEqual(hound.read(self.path), samples[:-2])
        with hound.open(self.path) as reader:
            self.assertEqual(reader.read(150000), samples[:300000])
            self.assertEqual(reader.read(), samples[300000:-2])
            self.fails(Cause.TRUNCATED, reader.read)
        read_piece = hound.disk._read_piece
        for dtype in "int16", "int32":  # One has the containers of the file, and the other one is decoded.
            left = [2]

            def shortened(descriptor, room, place):
                left[0] -= place > 44
                if not left[0]:
                    os.truncate(self.path, place + 101)  # The system has said that it holds all.
                return read_piece(descriptor, room, place)

            self.leave(by_hand(data, channels=2))
            pieces = mock.patch.object(hound.disk, "_PLACED", 1 << 18)
            with mock.patch("hound_bindings.disk._read_piece", shortened), pieces, hound.open(self.path) as reader:
                frames = 2 * (1 << 16) + 25  # Two pieces, and those of the third one that are there.
                self.assertEqual(reader.read(dtype=dtype).tolist(), samples[: 2 * frames].tolist())
                self.assertEqual(reader.tell(), frames)

    def test_all_types_of_a_file_and_of_an_object(self):
        """A file at a path is read to where its samples belong, and an object by pieces that are decoded."""
        some = random.Random(11)
        for tag, width in ((1, 1), (1, 2), (1, 3), (1, 4), (3, 4)):
            for count in 0, 1, 5, 4099, 150001:
                data = bytes(some.choices(range(256), k=width * count * 2))
                content = by_hand(data, channels=2, width=width, tag=tag)
                self.leave(content)
                for dtype in None, "int8", "int16", "int32", "float32", "float64":
                    with contextlib.suppress(HoundError):
                        found = hound.read(io.BytesIO(content), dtype=dtype)
                        self.assertEqual(hound.read(self.path, dtype=dtype).tobytes(), found.tobytes())
                        self.assertEqual(len(found), 2 * count)
                        out = array.array(found.typecode, bytes(found.itemsize * (2 * count + 3)))
                        self.assertEqual(hound.read(self.path, dtype=dtype, out=out).tobytes(), found.tobytes())
                        self.assertEqual(out[2 * count :].tobytes(), bytes(found.itemsize * 3))

    def test_a_system_that_reads_no_buffer_at_a_place(self):
        data, samples = self.large(2, 2, 200003)
        self.leave(by_hand(data, channels=2))
        with mock.patch.object(os, "preadv", create=True):
            del os.preadv
            self.assertEqual(hound.read(self.path), samples)
            self.assertEqual(hound.read(self.path, 7, 5), samples[14:24])

    def test_a_read_in_pieces_that_is_interrupted(self):
        """The next read begins at the same frame."""
        self.leave(by_hand(bytes(range(40)), channels=2))
        samples = array.array("h", bytes(range(40)))
        with mock.patch.object(hound.conversion, "CACHED", 8):
            for at in itertools.count(1, 3):
                with hound.open(self.path) as reader:
                    found = array.array("h")
                    with Interruption(at) as interruption, contextlib.suppress(Interrupted):
                        found += reader.read(5)
                    if interruption.is_at_the_end():
                        found = samples[:10]
                    while len(block := reader.read(3)):
                        found += block
                self.assertEqual(found, samples, interruption.place)
                if interruption.place is None:
                    break

    def test_a_large_block_that_fails(self):
        """It is in the file wholly or not at all, though it is written in pieces."""
        data, samples = self.large(2, 2, 200003)
        small, pwrite = array.array("h", [1, 2]), os.pwrite
        for last in range(1, 9):
            left = [last]

            def failing(descriptor, content, place):
                left[0] -= len(content) > 99
                if not left[0]:
                    raise OSError(errno.ENOSPC, "full")
                return pwrite(descriptor, content, place)

            with hound.create(self.path, 8000, 2, 16) as writer:
                writer.write(small)
                pieces = mock.patch.object(hound.conversion, "WRITTEN", 1 << 17)
                with pieces, mock.patch("os.pwrite", failing), contextlib.suppress(OSError):
                    writer.write(samples)
                    self.assertGreater(left[0], 0)
                    continue
                self.assertEqual(writer.tell(), 1)
                writer.write(samples)
            self.assert_file(by_hand(small.tobytes() + data, channels=2))
        self.assertEqual(left[0], 1)  # It has seven pieces.
        wide = array.array("i", samples)
        wide[-1] = 1 << 15
        before = by_hand(b"\1\0\2\0", channels=2)
        self.leave(before)
        self.fails(Cause.TOO_WIDE, lambda: hound.append(self.path, wide))
        self.fails(Cause.TOO_WIDE, lambda: hound.write(self.path, wide, 8000, channels=2, bits=16))
        with hound.append_to(self.path) as writer, mock.patch("os.pwrite", side_effect=AssertionError):
            self.fails(Cause.TOO_WIDE, lambda: writer.write(wide))
        self.assert_file(before)
        self.assertEqual(os.listdir(self.folder.name), ["a.wav"])

    def test_pieces_end_at_multiples_of_their_size(self):
        data, samples = self.large(2, 2, 200003)
        places, pwrite = [], os.pwrite

        def noted(descriptor, content, place):
            places.append(place)
            return pwrite(descriptor, content, place)

        with hound.create(self.path, 8000, 2, 16) as writer:
            with mock.patch.object(hound.conversion, "WRITTEN", 1 << 17), mock.patch("os.pwrite", noted):
                writer.write(samples)
        self.assertEqual(places, [44, *range(1 << 17, len(data), 1 << 17)])
        self.assert_file(by_hand(data, channels=2))

    def test_half_a_frame_is_no_end(self):
        cut_off = by_hand(bytes(range(6)), 12, channels=2)
        self.assertEqual(list(hound.read(cut_off)), [0x100, 0x302])
        for start in 1, 2:
            self.fails(Cause.TRUNCATED, lambda: hound.read(cut_off, start))
            self.fails(Cause.TRUNCATED, lambda: hound.read_into(cut_off, array.array("h", [0] * 4), start))

    def test_numpy(self):
        try:
            import numpy
        except ImportError:
            self.skipTest("numpy isn't here")
        frames = numpy.arange(12, dtype="int16").reshape(6, 2)
        hound.write(self.path, frames, 44100)
        self.assertEqual(hound.info(self.path).channels, 2)
        back = numpy.empty((6, 2), "float32")
        hound.read(self.path, out=back)
        self.assertTrue((back == frames / 32768).all())
        back = numpy.empty((6, 2), "int32")
        self.assertEqual(hound.read_into(self.path, back), 6)
        self.assertTrue((back == frames).all())
        self.assertTrue((numpy.asarray(hound.read(self.path, always_2d=True)) == frames).all())
        self.assertEqual(numpy.asarray(hound.read(self.path, 6, always_2d=True)).shape, (0, 2))
        self.assertEqual(list(hound.read(hound.to_bytes(frames[:, 1], 8000))), list(range(1, 12, 2)))
        hound.append(self.path, frames[::2])
        self.assertEqual(hound.info(self.path).frames, 9)
        with self.assertRaises(TypeError):
            hound.to_bytes(frames.astype(">i2"), 8000)


if __name__ == "__main__":
    unittest.main()
