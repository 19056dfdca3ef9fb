"""Files that are read or written block by block, beside the module `wave` of Python and files made by hand."""
import array
import copy
import errno
import fcntl
import functools
import gc
import io
import itertools
import os
import random
import re
import signal
import stat
import struct
import subprocess
import sys
import tempfile
import threading
import tracemalloc
import types
import unittest
import unittest.mock
import warnings
import wave

import hound_bindings as hound
from hound_bindings import Cause, HoundError, _library
from interruptions import Interrupted, Interruption, in_threads
from wav import by_hand, made_by_wave

SAMPLES = array.array("h", [2, -3, 5, -7, 32767, -32768, 0, 1, 100, -100])
stereo = functools.partial(by_hand, channels=2)


class Slow(io.RawIOBase):
    """Bytes that come one by one and can't be sought in; each second read fails."""

    def __init__(self, content, fails=False):
        self.content, self.place, self.fails, self.reads = content, 0, fails, 0

    def readable(self):
        return True

    def readinto(self, buffer):
        self.reads += 1
        if self.fails and self.reads % 2 == 0:
            raise OSError("a fault")
        piece = self.content[self.place : self.place + 1] if len(buffer) else b""
        buffer[: len(piece)] = piece
        self.place += len(piece)
        return len(piece)


class Case(unittest.TestCase):
    def fails(self, cause, call):
        with self.assertRaises(HoundError) as caught:
            call()
        self.assertEqual(caught.exception.cause, cause)


class Streams(Case):
    def test_blocks_are_those_of_the_file(self):
        with tempfile.TemporaryDirectory() as folder:
            path = os.path.join(folder, "a.wav")
            with open(path, "wb") as file:
                file.write(made_by_wave(SAMPLES))
            with hound.open(path) as reader:
                self.assertEqual(reader.info[:6], (8000, 2, 16, False, 5, 44))
                blocks = [list(block) for block in reader.blocks(2)]
                self.assertEqual(blocks, [[2, -3, 5, -7], [32767, -32768, 0, 1], [100, -100]])
                self.assertEqual((len(reader.read()), reader.tell()), (0, 5))
                reader.seek(3)
                self.assertEqual(list(reader.read(1)), [0, 1])
                self.assertEqual(reader.read(always_2d=True).tolist(), [[100, -100]])
                reader.seek(0)
                self.assertEqual(list(reader), [SAMPLES])
                reader.seek(5)
                self.assertEqual(len(reader.read(1)), 0)
            self.assertTrue(reader._source.closed)

    def test_types(self):
        eight = stereo(bytes([0, 127, 128, 255]), width=1)
        floats = by_hand(struct.pack("<2f", 0.5, -0.25), width=4, tag=3)
        for file, dtype, code, values in (
            (eight, "int8", "b", [-128, -1, 0, 127]),
            (eight, None, "h", [-128, -1, 0, 127]),
            (eight, "int32", "i", [-128, -1, 0, 127]),
            (floats, None, "f", [0.5, -0.25]),
            (floats, "float64", "d", [0.5, -0.25]),
        ):
            samples = hound.open(io.BytesIO(file)).read(dtype=dtype)
            self.assertEqual((samples.typecode, list(samples)), (code, values))

    def test_a_stream_of_unknown_length(self):
        for counted in 0, 1, 0x7FFFF000, 0x7FFFFFFF, 0xFFFFFFFF:
            stream = stereo(SAMPLES.tobytes(), counted)
            for file in io.BytesIO(stream), Slow(stream):
                with hound.open(file, to_end=True) as reader:
                    self.assertEqual((reader.info[:6], reader.info.frames), ((8000, 2, 16, False, 0, 44), 0))
                    read = list(reader.read(2)), list(reader.read()), len(reader.read())
                    self.assertEqual(read, (list(SAMPLES[:4]), list(SAMPLES[4:]), 0))
                    self.assertEqual((reader.tell(), reader.left_over), (5, 0))
            with hound.open(io.BytesIO(stream[:-3]), to_end=True) as reader:
                blocks = [list(block) for block in reader.blocks(3)]
                self.assertEqual((blocks, reader.left_over), ([list(SAMPLES[:6]), list(SAMPLES[6:8])], 1))
                reader.seek(1)
                self.assertEqual((list(reader.read(1)), reader.left_over), (list(SAMPLES[2:4]), 0))
                reader.seek(100)
                self.assertEqual(len(reader.read(1)), 0)
        words = "a stream of unknown length can be read to its end"
        self.assertRaisesRegex(HoundError, words, lambda: hound.open(io.BytesIO(stream)))
        self.fails(Cause.NO_DATA_CHUNK, lambda: hound.open(io.BytesIO(stream.replace(b"data", b"DATA")), to_end=True))

    def test_a_pipe_is_read_no_byte_too_far(self):
        chunk = b"LIST" + struct.pack("<I", 100_001) + bytes(100_002)
        inner, outer = os.pipe()

        def feed():
            with open(outer, "wb") as file:
                file.write(stereo(SAMPLES.tobytes(), before=chunk) + b"rest")

        thread = threading.Thread(target=feed)
        thread.start()
        with open(inner, "rb", buffering=0) as source:
            reader = hound.open(source)
            self.assertEqual((reader.read(2), reader.tell()), (SAMPLES[:4], 2))
            with self.assertRaises(io.UnsupportedOperation):
                reader.seek(0)
            self.assertEqual(reader.read(), SAMPLES[4:])
            reader.close()
            self.assertEqual(source.read(10), b"rest")
        thread.join()

    def test_a_pipe_that_says_that_it_can_be_sought_in(self):
        """As Python says of each one on Windows, where a seek does nothing."""

        class Pipe(io.FileIO):
            def seekable(self):
                return True

            def tell(self):
                return 0

            def seek(self, place, whence=0):
                return place

        content = stereo(SAMPLES.tobytes(), before=b"LIST" + struct.pack("<I", 1000) + bytes(1000))
        for opened in Pipe, lambda pipe: io.BufferedReader(Pipe(pipe), 64):
            inner, outer = os.pipe()
            os.write(outer, content + b"rest")
            os.close(outer)
            with opened(inner) as source:
                reader = hound.open(source)
                self.assertEqual((reader.read(2), reader.read()), (SAMPLES[:4], SAMPLES[4:]))
                self.assertRaises(io.UnsupportedOperation, lambda: reader.seek(0))
                self.assertEqual(source.read(10), b"rest")

    def test_a_file_within_another(self):
        source = io.BytesIO(b"before" + made_by_wave(SAMPLES))
        source.seek(6)
        reader = hound.open(source)
        self.assertEqual(reader.read(1), SAMPLES[:2])
        reader.seek(4)
        self.assertEqual(reader.read(), SAMPLES[8:])

    def test_bytes_that_come_one_by_one(self):
        self.assertEqual(hound.open(Slow(made_by_wave(SAMPLES))).read(), SAMPLES)

    def test_a_read_that_fails_loses_nothing(self):
        source = Slow(made_by_wave(SAMPLES))
        reader = hound.open(source)
        source.fails, got, faults = True, array.array("h"), 0
        while True:
            try:
                block = reader.read(2)
            except OSError:
                faults += 1
                continue
            if not block:
                break
            got += block
        self.assertEqual(got, SAMPLES)
        self.assertGreater(faults, 5)

    def test_a_smaller_read_after_one_that_failed(self):
        samples = array.array("h", range(1, 21))
        inner, outer = os.pipe()
        os.set_blocking(inner, False)
        content = by_hand(samples.tobytes())
        os.write(outer, content[:55])  # five samples and a half
        with open(inner, "rb", buffering=0) as source:
            reader = hound.open(source)
            self.assertRaises(BlockingIOError, lambda: reader.read(8))
            got = reader.read(1)
            self.assertEqual((list(got), reader.tell()), ([1], 1))
            os.write(outer, content[55:])
            os.close(outer)
            for block in reader.blocks(4):
                got += block
            self.assertEqual(got, samples)

    def test_a_seek_after_a_read_that_failed(self):
        class Faulty(io.BytesIO):
            fails = False

            def read(self, count):
                if self.fails and count < 8:
                    raise OSError("a fault")
                return super().read(min(count, 4) if self.fails else count)

            read1 = read

        source = Faulty(made_by_wave(SAMPLES))
        reader = hound.open(source)
        source.fails = True
        self.assertRaises(OSError, lambda: reader.read(2))
        source.fails = False
        self.assertEqual(reader.read(1), SAMPLES[:2])
        reader.seek(3)
        self.assertEqual(reader.read(), SAMPLES[6:])

    def test_a_failure_in_the_header(self):
        inner, outer = os.pipe()
        os.set_blocking(inner, False)
        os.write(outer, made_by_wave(SAMPLES)[:30])
        with open(inner, "rb", buffering=0) as source:
            self.assertRaises(BlockingIOError, lambda: hound.open(source))
        os.close(outer)

    def test_a_read_that_is_interrupted_at_each_bytecode(self):
        """The next one begins at the same frame, unless only the return was left."""
        content = made_by_wave(SAMPLES)

        def piped(buffering):
            inner, outer = os.pipe()
            os.write(outer, content)
            os.close(outer)
            return open(inner, "rb", buffering=buffering)

        for make in (lambda: io.BytesIO(content), lambda: piped(0), lambda: piped(64)):
            for at in itertools.count(1):
                with make() as source:
                    reader, got = hound.open(source), None
                    with Interruption(at) as interruption:
                        try:
                            got = reader.read(3)
                        except Interrupted:
                            pass
                    if got is None:
                        got = SAMPLES[:6] if interruption.is_at_the_end() else array.array("h")
                    self.assertEqual(got + reader.read(), SAMPLES, interruption.place)
                if interruption.place is None:
                    break
            self.assertGreater(at, 100)

    def test_threads_share_a_reader(self):
        samples = array.array("i", range(100_000))
        with tempfile.TemporaryDirectory() as folder:
            path = os.path.join(folder, "a.wav")
            hound.write(path, samples, 8000)
            with hound.open(path) as reader:
                got, errors = [], []

                def read():
                    try:
                        got.extend(reader.blocks(7))
                    except Exception as error:
                        errors.append(error)

                in_threads(read, read, read)
        self.assertEqual(errors, [])
        self.assertEqual(sorted(got), [samples[first : first + 7] for first in range(0, len(samples), 7)])

    def test_forked_processes_share_a_reader(self):
        """Of a file at a path each reads what it sought; what has one place for all of them isn't read elsewhere."""
        samples = array.array("i", range(100_000))
        with tempfile.TemporaryDirectory() as folder:
            path = os.path.join(folder, "a.wav")
            hound.write(path, samples, 8000)
            with hound.open(path) as reader, open(path, "rb") as file, hound.open(file) as shared:

                def are_right(seed):
                    some = random.Random(seed)
                    for _ in range(1000):
                        first = some.randrange(len(samples) - 50)
                        reader.seek(first)
                        if reader.read(50) != samples[first : first + 50]:
                            return False
                    return True

                def is_rejected():
                    for call in (shared.read, lambda: shared.seek(0)):
                        with self.assertRaisesRegex(RuntimeError, "the process that made it"):
                            call()
                    shared.close()
                    return hound.open(io.BytesIO(content_of(path))).read(1)[0] == 0

                children = [forked(lambda: are_right(seed) and is_rejected()) for seed in range(3)]
                self.assertTrue(are_right(3))
                for child in children:
                    self.assertEqual(os.waitpid(child, 0)[1], 0)
                self.assertEqual(shared.read(), samples)

    def test_a_process_that_is_forked_in_a_read_of_another_thread(self):
        """It doesn't wait for that thread, which it hasn't got."""
        begun, ended, read_into = threading.Event(), threading.Event(), hound.disk.read_into

        def late(*arguments):
            begun.set()
            ended.wait(60)
            return read_into(*arguments)

        with tempfile.TemporaryDirectory() as folder:
            path = os.path.join(folder, "a.wav")
            hound.write(path, SAMPLES, 8000)
            with hound.open(path) as reader:
                with unittest.mock.patch("hound_bindings.disk.read_into", late):
                    thread = threading.Thread(target=reader.read)
                    thread.start()
                    begun.wait(60)
                    child = os.fork()
                    if not child:
                        signal.alarm(20)
                        hound.disk.read_into = read_into
                        os._exit(reader.read() != SAMPLES)
                    self.assertEqual(os.waitpid(child, 0)[1], 0)
                    ended.set()
                    thread.join()
                self.assertEqual(reader.tell(), 10)

    def test_a_file_that_ends_early(self):
        reader = hound.open(io.BytesIO(stereo(SAMPLES.tobytes()[:-3], 20)))
        self.assertEqual(list(reader.read(3)), list(SAMPLES[:6]))
        self.assertEqual(list(reader.read(3)), list(SAMPLES[6:8]))
        self.fails(Cause.TRUNCATED, reader.read)

    def test_what_is_no_file(self):
        whole = made_by_wave(SAMPLES)
        for length in range(44):
            self.fails(Cause.ENDED, lambda: hound.open(io.BytesIO(whole[:length])))
        self.fails(Cause.NO_RIFF_TAG, lambda: hound.open(Slow(b"RIFX" + whole[4:])))
        self.fails(Cause.FRAME_LENGTH, lambda: hound.open(io.BytesIO(stereo(bytes(6)))))
        with self.assertRaises(FileNotFoundError):
            hound.open("none.wav")
        others = (io.StringIO("RIFF"), "is opened as text"), (b"RIFF", "is of type bytes"), (7, "is of type int")
        for other, words in others:
            for call in (
                lambda: hound.open(other),
                lambda: hound.create(other, 8000, 1, 16),
                lambda: hound.write(other, SAMPLES, 8000),
            ):
                self.assertRaisesRegex(TypeError, words, call)
        with self.assertRaises(TypeError):
            hound.open("none.wav", "rb")  # This mode isn't taken for `to_end`.

    def test_arguments(self):
        source = io.BytesIO(made_by_wave(SAMPLES))
        reader = hound.open(source)
        for call in (
            lambda: reader.read(-2),
            lambda: reader.seek(6),
            lambda: reader.seek(-1),
            lambda: next(reader.blocks(0)),
        ):
            self.assertRaises(ValueError, call)
        for call in (lambda: reader.read(1.5), lambda: reader.read(dtype="int64"), lambda: reader.seek("0")):
            self.assertRaises(TypeError, call)
        self.fails(Cause.TOO_WIDE, lambda: reader.read(dtype="int8"))
        self.assertEqual((source.tell(), reader.tell()), (44, 0))

    def test_memory_stays_small(self):
        with tempfile.TemporaryFile() as file:
            file.write(stereo(b"", 256 << 20))
            file.truncate(44 + (256 << 20))
            file.seek(0)
            tracemalloc.start()
            frames = sum(len(block) // 2 for block in hound.open(file).blocks(1 << 16))
            peak = tracemalloc.get_traced_memory()[1]
            tracemalloc.stop()
        self.assertEqual(frames, 64 << 20)
        self.assertLess(peak, 8 << 20)


def forked(call):
    """A process that ends with status 0 if a call returns what is true."""
    child = os.fork()
    if child:
        return child
    status = 1
    try:
        status = 0 if call() else 1
    finally:
        os._exit(status)


def content_of(path):
    with open(path, "rb") as file:
        return file.read()


# With which calls a durable file begins: its name is stored, and that it is empty; then its header, without the data
# length at first, and a checkpoint.
BEGINNING = ["sync of the folder", "sync", 0, "sync", 4, 40, "sync"]


class Calls:
    """The writes and syncs of a file, in order: the place of each write, or "sync", also of its folder. The nth of them
    fails."""

    def __init__(self, fails=0):
        self.made, self.fails, self.put, self.sync = [], fails, os.pwrite, os.fsync

    def make(self, call, does, does_in_part):
        self.made.append(call)
        if len(self.made) == self.fails:
            does_in_part()
            raise OSError("a fault")
        return does()

    def __enter__(self):
        def put(file, content, place):
            def part():
                return self.put(file, content[:3], place)

            return self.make(place, lambda: self.put(file, content, place), part)
        name = lambda file: "sync of the folder" if stat.S_ISDIR(os.fstat(file).st_mode) else "sync"
        sync = lambda file: self.make(name(file), lambda: self.sync(file), lambda: None)
        self.patches = [unittest.mock.patch("os.pwrite", put), unittest.mock.patch("os.fsync", sync)]
        for patch in self.patches:
            patch.start()
        return self

    def __exit__(self, *_):
        for patch in self.patches:
            patch.stop()


def samples_from(first, bits):
    """Three samples whose bytes are numbers from the first one on."""
    content = bytes(range(first, first + 3 * bits // 8))
    return array.array("b", [byte - 128 for byte in content]) if bits == 8 else array.array("h", content)


class Faults:
    """Lets a call that writes, syncs or cuts a file off fail, and those after it, too, unless it fails once."""

    NAMES = ("open", "pwrite", "fsync", "ftruncate")

    def __init__(self, at, fails_once):
        self.at, self.once, self.made, self.failed, self.patches = at, fails_once, 0, False, []

    def __enter__(self):
        for name in self.NAMES:
            self.patches.append(unittest.mock.patch(f"os.{name}", self.failing(getattr(os, name))))
        for patch in self.patches:
            patch.start()
        return self

    def __exit__(self, *_):
        for patch in self.patches:
            patch.stop()

    def failing(self, real):
        def call(*arguments):
            self.made += 1
            if self.made == self.at + 1 or (self.made > self.at and not self.once):
                self.failed = True
                raise OSError(errno.EIO, "a fault")
            return real(*arguments)

        return call


def succeeds(call):
    """Whether a call returns, and doesn't fail as one of the system does, or after a sync that failed."""
    try:
        call()
    except (OSError, HoundError):
        return False
    return True


class Effects(Case):
    """What a library requests that is newer than the package."""

    def requested(self, kind):
        file = types.SimpleNamespace(
            put=lambda *_: None,
            read_at=lambda *_: b"",
            cut=lambda *_: None,
            sync=lambda *_: None,
            sync_folder=lambda *_: None,
        )
        effect = _library.CEffect(kind=kind, report=0)
        hound.disk.perform(effect, file, True)
        return effect.report

    def test_each_kind_of_hound_h_is_performed(self):
        header = os.path.join(os.path.dirname(__file__), "..", "..", "c", "hound.h")
        with open(header) as file:
            body = re.search(r"HOUND_NOTHING,(.*?)};", re.sub(r"/\*.*?\*/", "", file.read(), flags=re.S), flags=re.S)[1]
        names = re.findall(r"HOUND_(\w+)", body)
        self.assertGreaterEqual(len(names), 5)
        for kind, name in enumerate(names, 1):
            self.assertEqual((getattr(hound.disk, name), self.requested(kind)), (kind, hound.disk.DONE))
        for kind in 0, len(names) + 1:
            with self.assertRaisesRegex(NotImplementedError, f"an effect of kind {kind}"):
                self.requested(kind)

    def test_an_effect_that_isn_t_known_is_never_done(self):
        def requests(machine, *_):
            machine._obj.effect.kind = 7
            reports.append(machine._obj.effect.report)
            return 1 if len(reports) < 3 else 0

        file = io.BytesIO()
        writer, reports = hound.create(file, 8000, 2, 16), []
        before = file.getvalue()
        with unittest.mock.patch("hound_bindings._recorder._recorder_next", requests):
            self.assertRaises(NotImplementedError, writer.flush)
        self.assertEqual((reports, file.getvalue()), ([0], before))
        writer.close()
        for name, call in ("_walk_next", hound.open), ("_repairer_next", hound.repair):
            reports.clear()
            file.seek(0)
            with unittest.mock.patch(f"hound_bindings._recorder.{name}", requests):
                self.assertRaises(NotImplementedError, lambda: call(file))
            self.assertEqual(reports, [0])


class Recordings(Case):
    step = 1  # How many bytecodes lie between two runs that are interrupted; test_windows.py has a larger one.

    def setUp(self):
        # A sync costs nothing there.
        folder = tempfile.TemporaryDirectory(dir="/dev/shm" if os.path.isdir("/dev/shm") else None)
        self.addCleanup(folder.cleanup)
        self.path = os.path.join(folder.name, "a.wav")

    def leave(self, content):
        with open(self.path, "wb") as file:
            file.write(content)

    def test_blocks_make_the_file_of_wave(self):
        for size in (2, 4, 10):
            with hound.create(self.path, 8000, 2, 16) as writer:
                for first in range(0, 10, size):
                    writer.write(SAMPLES[first : first + size])
            self.assertEqual(content_of(self.path), made_by_wave(SAMPLES))

    def test_a_flush_counts_what_was_written(self):
        writer = hound.create(self.path, 8000, 2, 16)
        for counted in range(5):
            writer.write(SAMPLES[2 * counted : 2 * counted + 2])
            with wave.open(self.path) as other:
                self.assertEqual(other.getnframes(), counted)
            writer.flush()
        writer.close()
        writer.close()
        self.assertEqual(content_of(self.path), made_by_wave(SAMPLES))
        for call in (writer.flush, lambda: writer.write(SAMPLES)):
            self.assertRaises(ValueError, call)

    def test_types(self):
        eight = memoryview(array.array("b", [-128, -1, 0])).cast("B").cast("b", [3, 1])
        for bits, is_float, block, tag, data in (
            (8, False, eight, 1, bytes([0, 127, 128])),
            (16, False, array.array("b", [-1, 2]), 1, struct.pack("<2h", -1, 2)),
            (16, False, array.array("i", [-32768, 5]), 1, struct.pack("<2h", -32768, 5)),
        ):
            with hound.create(self.path, 8000, 1, bits, is_float=is_float) as writer:
                writer.write(block)
            wanted = bytearray(by_hand(data, width=bits // 8, tag=tag))
            wanted += bytes(len(data) % 2)  # a pad byte, which the RIFF size counts
            wanted[4:8] = struct.pack("<I", len(wanted) - 8)
            self.assertEqual(content_of(self.path), bytes(wanted))
        with hound.create(self.path, 8000, 1, 32, is_float=True) as writer:
            writer.write(array.array("f", [0.5, -0.25]))
        self.assertEqual(content_of(self.path)[-12:], struct.pack("<I2f", 8, 0.5, -0.25))

    def test_append_to(self):
        chunk = b"LIST" + struct.pack("<I", 3) + b"abc\0"
        for first in (0, 4, 10):
            self.leave(stereo(SAMPLES[:first].tobytes(), before=chunk))
            with hound.append_to(self.path) as writer:
                writer.write(SAMPLES[first:])
            self.assertEqual(content_of(self.path), stereo(SAMPLES.tobytes(), before=chunk))
        for content, cause in (
            (stereo(SAMPLES.tobytes(), 8), Cause.NEEDS_MEND),
            (stereo(SAMPLES.tobytes()) + chunk, Cause.NEEDS_OVERWRITE),
            (stereo(SAMPLES.tobytes(), 7), Cause.NEEDS_MEND),
            (b"RIFX" + bytes(60), Cause.NO_RIFF_TAG),
        ):
            self.leave(content)
            self.fails(cause, lambda: hound.append_to(self.path))
            self.assertEqual(content_of(self.path), content)

    def test_errors_write_nothing(self):
        with hound.create(self.path, 8000, 2, 16) as writer:
            writer.write(SAMPLES)
            self.fails(Cause.UNFINISHED_FRAME, lambda: writer.write(SAMPLES[:3]))
            self.fails(Cause.TOO_WIDE, lambda: writer.write(array.array("i", [1, 32768])))
            self.assertRaises(TypeError, lambda: writer.write(array.array("H", [1, 2])))
            three = memoryview(array.array("i", [1, 2, 3])).cast("B").cast("i", [1, 3])
            self.assertRaises(ValueError, lambda: writer.write(three))
        self.assertEqual(content_of(self.path), made_by_wave(SAMPLES))
        for arguments in ((0, 2, 16), (8000, 0, 16), (8000, 2, 12), (8000, 65535, 16)):
            self.assertRaises(ValueError, lambda: hound.create(self.path, *arguments))
        self.assertEqual(content_of(self.path), made_by_wave(SAMPLES))  # which these have not emptied

    def test_the_order_of_a_durable_recording(self):
        with Calls() as calls, hound.create(self.path, 8000, 1, 8, durable=True) as writer:
            writer.write(array.array("b", [1]))
        self.assertEqual(calls.made, [*BEGINNING, 44, 45, "sync", 4, 40, "sync"])
        with Calls() as calls, hound.append_to(self.path) as writer:
            writer.write(array.array("b", [2]))
        self.assertEqual(calls.made, [45, 4, 40])
        with Calls() as calls:
            hound.append_to(self.path, durable=True).close()
        self.assertEqual(calls.made[:2], ["sync", "sync of the folder"])

    def test_a_sync_on_macos(self):
        """It is F_FULLFSYNC: after an `fsync` the disk may still lose what was written."""
        full = unittest.mock.patch("fcntl.F_FULLFSYNC", 51, create=True)
        wrong = unittest.mock.patch("os.fsync", side_effect=AssertionError)
        with full, wrong, unittest.mock.patch("fcntl.fcntl") as control:
            with hound.create(self.path, 8000, 2, 16, durable=True) as writer:
                writer.write(SAMPLES)
            self.assertEqual([call[0][1] for call in control.call_args_list], [51] * 6)
            hound.append(self.path, SAMPLES, durable=True)
            hound.write(self.path, SAMPLES, 8000, durable=True)
            self.assertEqual([call[0][1] for call in control.call_args_list], [51] * 12)
            control.side_effect = OSError(errno.EIO, "a fault")
            writer = hound.append_to(self.path)
            writer._durable = True
            self.assertRaises(OSError, writer.flush)
            self.fails(Cause.SYNC_FAILED, writer.close)

    def test_calls_that_fail(self):
        """A write that fails loses only its block, a checkpoint is made again, and a sync that failed ends all."""
        for nth in range(1 + len(BEGINNING), 50):
            written, has_ended = [], False
            with Calls(nth) as calls:
                writer = hound.create(self.path, 8000, 1, 24, durable=True)

                def attempt(call):
                    """Whether a call succeeds; none does after a sync that failed."""
                    nonlocal has_ended
                    try:
                        call()
                        self.assertFalse(has_ended)
                        return True
                    except OSError:
                        has_ended = calls.made[-1] == "sync"
                    except HoundError as error:
                        self.assertTrue(has_ended and error.cause == Cause.SYNC_FAILED)
                    return False

                for number in range(3):
                    if attempt(lambda: writer.write(array.array("h", [number, number, number]))):
                        written.append(number)
                    attempt(writer.flush)
                attempt(writer.close)
            for state in "left", "repaired":
                content = content_of(self.path)
                data = content[68 : 68 + struct.unpack("<I", content[64:68])[0]]
                found = [number for number, zero in struct.iter_unpack("<BH", data)][::3]
                self.assertEqual(data, b"".join(struct.pack("<BH", number, 0) * 3 for number in found))
                self.assertEqual(found, written[: len(found)] if has_ended else written)
                if not has_ended:
                    hound.repair(self.path)
            if len(calls.made) < nth:
                break
        self.assertGreater(nth, 20)
        self.assertEqual(written, [0, 1, 2])

    def test_a_block_is_in_the_file_only_if_its_write_returned(self):
        """Each call is interrupted at each bytecode, and then the recording is continued and closed."""
        cases = itertools.product((False, True), (1, 2, 3), (8, 16, 24))
        for number, (durable, channels, bits) in enumerate(cases):
            # One of the cases is interrupted after each step, the others less often.
            for at in itertools.count(1 + number % 5, self.step if number == 13 else 31):
                if self.interrupted(at, durable, channels, bits).place is None:
                    break
            self.assertGreater(at, 900)

    def interrupted(self, at, durable, channels, bits):
        def block(number):
            return array.array("i", range(10 * number, 10 * number + channels))

        accepted, maybe = [], []
        writer = hound.create(self.path, 8000, channels, bits, durable=durable)
        with Interruption(at) as interruption:
            try:
                for number in 1, 2:
                    maybe = [number]
                    writer.write(block(number))
                    accepted.append(number)
                    maybe = []
                    writer.flush()
                writer.close()
            except Interrupted:
                pass
        if not interruption.is_at_the_end():
            maybe = []
        what = f"{interruption.place}, {at}, {channels} channels, {bits} bits, {durable}"
        self.assertIn(self.found(channels, bits, what), [accepted[:count] for count in range(3)] + [accepted + maybe])
        try:
            writer.write(block(9))
            maybe.append(9)
        except ValueError:
            self.assertEqual(accepted, [1, 2])  # It is closed.
        writer.close()
        last = [9] * (9 in maybe)
        self.assertIn(self.found(channels, bits, what), [accepted + maybe, accepted + last], what)
        rest = len(content_of(self.path)) - 8
        self.assertEqual(struct.unpack("<I", content_of(self.path)[4:8]), (rest,), what)
        return interruption

    def found(self, channels, bits, what):
        """The numbers of the blocks that the header counts."""
        content = content_of(self.path)
        start, width = content.index(b"data") + 8, bits // 8
        data = content[start : start + struct.unpack("<I", content[start - 4 : start])[0]]
        values = [data[place] - 128 * (bits == 8) for place in range(0, len(data), width)]
        self.assertEqual(len(data) % (channels * width), 0, what)
        numbers = [value // 10 for value in values[::channels]]
        self.assertEqual(values, [10 * number + place for number in numbers for place in range(channels)], what)
        return numbers

    def test_a_sync_that_failed_isn_t_forgotten(self):
        """Its error is followed by an interruption at each bytecode."""
        for at in itertools.count(1):
            writer = hound.create(self.path, 8000, 1, 16, durable=True)
            writer.write(array.array("h", [1]))
            called = []

            def sync(descriptor):
                called.append(descriptor)
                raise OSError("a fault")

            with unittest.mock.patch("os.fsync", sync), Interruption(at) as interruption:
                try:
                    writer.flush()
                except (OSError, Interrupted):
                    pass
            if called:
                self.fails(Cause.SYNC_FAILED, writer.close)
            writer.close()
            if interruption.place is None:
                break
        self.assertGreater(at, 200)

    def test_signals(self):
        """A signal handler that raises, at random: all blocks whose writes returned are counted."""
        def handler(*_):
            raise Interrupted

        before = signal.signal(signal.SIGALRM, handler)
        self.addCleanup(signal.signal, signal.SIGALRM, before)
        for turn in range(300):
            writer, accepted, number = hound.create(self.path, 8000, 1, 16, durable=turn % 2 == 1), 0, 0
            try:
                signal.setitimer(signal.ITIMER_REAL, 0.0001 + turn * 1e-6)
                while True:
                    writer.write(array.array("h", [accepted % 1000]))
                    accepted += 1
                    writer.flush()
            except Interrupted:
                pass
            writer.close()
            found = hound.read(self.path)
            # The signal may have come between a write and the count.
            self.assertIn(len(found), (accepted, accepted + 1))
            self.assertEqual(list(found), [number % 1000 for number in range(len(found))])

    def test_a_signal_handler_that_raises_an_os_error_is_no_fault_of_a_sync(self):
        """As one that ends a call after a while does."""
        class Late(Interrupted, TimeoutError):
            pass

        with unittest.mock.patch("interruptions.Interrupted", Late):
            for at in itertools.count(1):
                writer = hound.create(self.path, 8000, 1, 16, durable=True)
                writer.write(array.array("h", [1]))
                with Interruption(at) as interruption:
                    try:
                        writer.flush()
                    except Late:
                        pass
                writer.write(array.array("h", [2]))
                writer.close()
                self.assertEqual(list(hound.read(self.path)), [1, 2], interruption.place)
                if interruption.place is None:
                    break
        self.assertGreater(at, 200)

    def test_a_call_by_a_signal_handler(self):
        for calls in ("flush", "write", "close"):
            errors = []

            def handler(*_):
                try:
                    getattr(writer, calls)(*[SAMPLES[:2]] * (calls == "write"))
                except RuntimeError as error:
                    errors.append(error)

            before, put = signal.signal(signal.SIGUSR1, handler), os.pwrite

            def interrupted(*arguments):
                os.kill(os.getpid(), signal.SIGUSR1)
                return put(*arguments)

            with hound.create(self.path, 8000, 2, 16) as writer:
                with unittest.mock.patch("os.pwrite", interrupted):
                    writer.write(SAMPLES)
                    writer.flush()
                self.assertEqual(len(errors), 3)
                handler()  # Outside of a call it is one as any other.
                self.assertEqual(len(errors), 3)
            signal.signal(signal.SIGUSR1, before)
            found = hound.read(self.path)
            self.assertEqual(found[:10], SAMPLES)
            self.assertIn("signal handler", str(errors[0]))

    def test_threads_share_a_writer(self):
        """One writes, and another flushes, as with an audio callback."""
        for turn in range(10):
            accepted, errors, is_done = [], [], threading.Event()

            def attempt(call):
                try:
                    call()
                    return True
                except Exception as error:
                    errors.append(error)

            def record():
                for number in range(300):
                    if attempt(lambda: writer.write(array.array("h", [number] * 64))):
                        accepted.append(number)
                is_done.set()

            def flush():
                while not is_done.is_set():
                    attempt(writer.flush)

            with hound.create(self.path, 8000, 1, 16, durable=turn % 2 == 1) as writer:
                in_threads(record, flush)
            self.assertEqual((errors, accepted), ([], list(range(300))))
            self.assertEqual(list(hound.read(self.path)), [number for number in accepted for _ in range(64)])

    def test_threads_append(self):
        """What isn't appended is a BlockingIOError."""
        hound.write(self.path, array.array("h"), 8000)
        accepted, errors = [], []

        def append(values):
            for value in values:
                try:
                    hound.append(self.path, array.array("h", [value] * 3))
                    accepted.append(value)
                except Exception as error:
                    errors.append(error)

        in_threads(lambda: append(range(300)), lambda: append(range(1000, 1300)))
        found = list(hound.read(self.path))
        self.assertEqual(found[::3], found[1::3])
        self.assertEqual((sorted(found[::3]), len(found) % 3), (sorted(accepted), 0))
        self.assertLessEqual(set(map(type, errors)), {BlockingIOError})
        self.assertTrue(accepted)

    def test_a_write_of_no_bytes_is_an_error(self):
        with hound.create(self.path, 8000, 2, 16) as writer:
            with unittest.mock.patch("os.pwrite", return_value=0):
                other = lambda: hound.write(self.path + "2", SAMPLES, 8000)
                for call in (lambda: writer.write(SAMPLES), writer.flush, other):
                    self.assertRaisesRegex(OSError, "none of the bytes", call)
            writer.write(SAMPLES)
        self.assertEqual(content_of(self.path), made_by_wave(SAMPLES))

    def test_errors_of_the_system_name_the_file(self):
        for call in (lambda: hound.create("/dev/full", 8000, 1, 16), lambda: hound.write("/dev/full", SAMPLES, 8000)):
            self.assertRaisesRegex(OSError, "No space left on device: '/dev/full'$", call)
        with hound.create(self.path, 8000, 2, 16) as writer:
            with unittest.mock.patch("os.pwrite", side_effect=lambda *_: os.close(-1)):
                for call in (
                    lambda: writer.write(SAMPLES),
                    writer.flush,
                    lambda: hound.write(self.path + "2", SAMPLES, 8000),
                ):
                    self.assertRaisesRegex(OSError, f"Bad file descriptor: '{self.path}2?'$", call)
        new = os.path.join(self.path + ".none", "b.wav")
        for call in (lambda: hound.write(new, SAMPLES, 8000), lambda: hound.repair(self.path, copy=new)):
            self.assertRaisesRegex(FileNotFoundError, f"No such file or directory: .*'{new}'$", call)

    def test_an_append_that_fails_leaves_the_file(self):
        """Also where a size can't be written: so it can be done again. After a sync that failed nothing is written."""
        for bits, durable in itertools.product((8, 16), (False, True)):
            contents = (bytes(range(1, 1 + count)) for count in (8, 8 + 3 * bits // 8))
            before, after = (by_hand(content, width=bits // 8) for content in contents)
            after += bytes(len(after) % 2)
            after = after[:4] + struct.pack("<I", len(after) - 8) + after[8:]
            for nth in itertools.count(1):
                self.leave(before)
                with Calls(nth) as calls:
                    try:
                        hound.append(self.path, samples_from(9, bits), durable=durable)
                        break
                    except OSError:
                        failed = calls.made[nth - 1]
                if str(failed).startswith("sync"):
                    self.assertEqual(calls.made[nth:], [])
                    continue
                if failed != 40:  # Else the size was written but for its last byte, a zero: then all are appended.
                    self.assertEqual(content_of(self.path), before, failed)
                    hound.append(self.path, samples_from(9, bits), durable=durable)
                self.assertEqual(content_of(self.path), after)
            self.assertGreater(nth, 3)

    def test_an_append_that_fails_and_can_t_be_cut_off(self):
        before = made_by_wave(SAMPLES)
        for nth in 1, 2:
            self.leave(before)
            patch = unittest.mock.patch("os.ftruncate", side_effect=OSError(errno.EIO, "another fault"))
            with Calls(nth), patch, self.assertRaises(OSError) as caught:
                hound.append(self.path, SAMPLES)
            self.assertIn("a fault, and the file couldn't be cut off, so a repair may take", str(caught.exception))
            self.assertEqual(hound.info(self.path).frames, 5)

    def test_what_can_t_be_cut_off_is_warned_of(self):
        """It follows the samples, though no call failed since."""
        chunk = b"LIST" + struct.pack("<I", 100) + b"\1" * 100
        cut = unittest.mock.patch("os.ftruncate", side_effect=OSError(errno.EIO, "a fault"))
        words = "a.wav: the file couldn't be cut off, so a repair may take"
        self.leave(made_by_wave(SAMPLES[:4]) + chunk)
        with cut, self.assertWarnsRegex(RuntimeWarning, words) as caught:
            hound.append(self.path, SAMPLES[4:], overwrite=True)
        self.assertEqual((caught.filename, hound.read(self.path)), (__file__, SAMPLES))
        writer = hound.create(self.path, 8000, 2, 16)
        with cut, Calls(1):
            self.assertRaisesRegex(OSError, "a fault, and the file couldn't be", lambda: writer.write(SAMPLES))
        with self.assertWarnsRegex(RuntimeWarning, words):
            writer.close()
        with warnings.catch_warnings():
            warnings.simplefilter("error")
            writer.close()
            writer = hound.create(self.path, 8000, 2, 16)
            with Calls(1):
                self.assertRaises(OSError, lambda: writer.write(SAMPLES))
            writer.close()

    def test_an_append_whose_last_size_was_written_though_it_failed(self):
        """The header never counts what isn't there: the block stays."""
        def put(file, content, place):
            count = write(file, content, place)
            if place == 40 and not failed:
                failed.append(place)
                raise OSError(errno.EIO, "a fault")
            return count

        failed, write = [], os.pwrite
        self.leave(made_by_wave(SAMPLES[:4]))
        with unittest.mock.patch("os.pwrite", put), unittest.mock.patch("os.ftruncate", side_effect=AssertionError):
            self.assertRaises(OSError, lambda: hound.append(self.path, SAMPLES[4:]))
        self.assertEqual(content_of(self.path), made_by_wave(SAMPLES))

    def test_a_forked_process_has_no_recorder(self):
        for ends_first in True, False:
            inner, outer = os.pipe()

            def leave():
                for call in (lambda: writer.write(SAMPLES), writer.flush):
                    with self.assertRaisesRegex(RuntimeError, "the process that made it"):
                        call()
                if not ends_first:
                    os.read(inner, 1)
                before = content_of(self.path)
                with writer:
                    pass
                writer.close()
                return content_of(self.path) == before

            with hound.create(self.path, 8000, 2, 16) as writer:
                writer.write(SAMPLES[:4])
                writer.flush()
                child = forked(leave)
                if ends_first:
                    self.assertEqual(os.waitpid(child, 0)[1], 0)
                    self.assertRaises(BlockingIOError, lambda: hound.append_to(self.path))
                writer.write(SAMPLES[4:])
            os.write(outer, b"x")
            if not ends_first:
                self.assertEqual(os.waitpid(child, 0)[1], 0)
            os.close(inner)
            os.close(outer)
            self.assertEqual(content_of(self.path), made_by_wave(SAMPLES))

    def test_a_forked_process_that_ends_writes_nothing_to_an_object(self):
        """Neither does its object, when Python closes it."""
        ran = self.run_program(
            "file = open(path, 'w+b')\nwriter = hound.create(file, 8000, 2, 16)\n"
            "for first in range(0, 10, 2):\n"
            "    writer.write(array.array('h', range(first, first + 2)))\n"
            "    if os.fork() == 0:\n"
            "        raise SystemExit\n"
            "    os.wait()\n"
            "writer.close()\n"
        )
        self.assertEqual((ran.returncode, ran.stderr), (0, b""))
        self.assertEqual(content_of(self.path), made_by_wave(array.array("h", range(10))))

    def test_a_process_that_is_forked_in_a_call_of_another_thread(self):
        """It doesn't wait for that thread, which it hasn't got."""
        begun, ended, pwrite = threading.Event(), threading.Event(), os.pwrite

        def put(*arguments):
            begun.set()
            ended.wait(60)
            return pwrite(*arguments)

        with hound.create(self.path, 8000, 2, 16) as writer:
            with unittest.mock.patch("os.pwrite", put):
                thread = threading.Thread(target=lambda: writer.write(SAMPLES))
                thread.start()
                begun.wait(60)
                child = forked(lambda: signal.alarm(20) or writer.close() or True)
                self.assertEqual(os.waitpid(child, 0)[1], 0)
                ended.set()
                thread.join()
        self.assertEqual(content_of(self.path), made_by_wave(SAMPLES))

    def test_no_copy_of_a_writer(self):
        with hound.create(self.path, 8000, 2, 16) as writer:
            for call in copy.copy, copy.deepcopy:
                self.assertRaisesRegex(TypeError, "can't be copied", lambda: call(writer))

    def test_a_write_after_one_that_failed_publishes(self):
        writer = hound.create(self.path, 8000, 2, 16)
        writer.write(SAMPLES[:4])
        with unittest.mock.patch("os.pwrite", side_effect=OSError), self.assertRaises(OSError):
            writer.write(SAMPLES[4:6])
        self.assertEqual(hound.info(self.path).frames, 0)
        writer.write(SAMPLES[6:])
        self.assertEqual(hound.info(self.path).frames, 2)
        writer.close()
        self.assertEqual(hound.read(self.path), SAMPLES[:4] + SAMPLES[6:])

    PROGRAM = "import array, os, sys, hound_bindings as hound\npath = sys.argv[1]\n"

    def run_program(self, text, *options):
        words = [sys.executable, *options, "-c", self.PROGRAM + text, self.path]
        env = {**os.environ, "PYTHONPATH": os.path.dirname(Interruption.FOLDER)}
        return subprocess.run(words, env=env, stdout=subprocess.PIPE, stderr=subprocess.PIPE, timeout=60)

    def test_a_writer_that_nobody_closes(self):
        start = "writer = hound.create(path, 8000, 2, 16)\nwriter.write(array.array('h', range(10)))\n"
        for rest in (
            "",
            "writer.itself = writer\ndel writer\nimport gc\ngc.collect()\nassert hound.info(path).frames == 5\n",
            "del writer\nassert hound.info(path).frames == 5\n",
            "raise SystemExit\n",
            "if os.fork() == 0:\n    raise SystemExit  # It neither counts nor unlocks.\n"
            "os.wait()\nassert hound.info(path).frames == 0\n"
            "try:\n    hound.append_to(path)\nexcept BlockingIOError:\n    pass\nelse:\n    sys.exit('unlocked')\n",
        ):
            ran = self.run_program(start + rest, "-W", "always")
            self.assertEqual((ran.returncode, ran.stdout), (0, b""), ran.stderr)
            self.assertEqual(ran.stderr.count(b"ResourceWarning: a Writer wasn't closed"), 1, ran.stderr)
            self.assertEqual(list(hound.read(self.path)), list(range(10)))
        with warnings.catch_warnings():
            warnings.simplefilter("error")
            hound.create(self.path, 8000, 2, 16).close()
            gc.collect()

    def test_create_doesn_t_empty_what_it_may_not_replace(self):
        create = lambda **more: hound.create(self.path, 8000, 2, 16, **more)
        self.leave(b"older")
        self.assertRaises(FileExistsError, lambda: create(exclusive=True))
        self.assertEqual(content_of(self.path), b"older")
        with unittest.mock.patch("os.fsync", side_effect=OSError("a fault")):
            self.assertRaises(OSError, lambda: create(durable=True))
        self.assertEqual(content_of(self.path), b"older")
        os.unlink(self.path)
        create(exclusive=True).close()
        self.assertEqual(hound.info(self.path).frames, 0)

    def test_a_folder_that_can_t_be_read(self):
        self.leave(b"older")
        folder, user = os.path.dirname(self.path), os.geteuid()
        os.chmod(self.path, 0o666)
        os.chmod(folder, 0o733 if user == 0 else 0o333)
        if user == 0:
            os.seteuid(65534)
        try:
            for path in self.path, self.path + "2":
                self.assertRaises(PermissionError, lambda: hound.create(path, 8000, 2, 16, durable=True))
        finally:
            os.seteuid(user)
            os.chmod(folder, 0o755)
        self.assertEqual((content_of(self.path), os.listdir(folder)), (b"older", ["a.wav"]))

    def test_two_users_of_a_file(self):
        def calls(path):
            yield lambda: hound.create(path, 8000, 2, 16)
            yield lambda: hound.append_to(path)
            yield lambda: hound.append(path, SAMPLES)
            yield lambda: hound.repair(path)
            yield lambda: hound.write(path, SAMPLES, 8000)

        for begin in (lambda: hound.create(self.path, 8000, 2, 16), lambda: hound.append_to(self.path)):
            writer = begin()
            writer.write(SAMPLES)
            for call in calls(self.path):
                with self.assertRaises(BlockingIOError) as caught:
                    call()
                said = "another program records to, appends to or repairs this file"
                self.assertEqual(str(caught.exception), f"[Errno {errno.EWOULDBLOCK}] {said}: '{self.path}'")
            ran = self.run_program("hound.append_to(path)")
            self.assertIn(b"BlockingIOError", ran.stderr)
            self.assertEqual(hound.find_damage(self.path).state, hound.State.CUT_OFF)
            writer.flush()
            self.assertEqual(hound.read(self.path)[-10:], SAMPLES)
            child = os.fork()
            if child == 0:
                signal.pause()
            writer.close()
            hound.append_to(self.path).close()  # The forked process has the descriptor, but no lock.
            os.kill(child, signal.SIGKILL)
            os.waitpid(child, 0)

    def test_a_file_that_is_replaced_before_it_is_locked(self):
        self.leave(made_by_wave(SAMPLES))
        lock = fcntl.flock

        def late(descriptor, operation):
            if not replaced:
                replaced.append(os.replace(self.path + "2", self.path))
            return lock(descriptor, operation)

        replaced = []
        with open(self.path + "2", "wb") as file:
            file.write(made_by_wave(SAMPLES[:4]))
        with unittest.mock.patch("fcntl.flock", late):
            hound.append(self.path, SAMPLES[4:])
        self.assertEqual(content_of(self.path), made_by_wave(SAMPLES))

    def test_a_system_without_locks(self):
        for patch in (
            unittest.mock.patch("fcntl.flock", side_effect=OSError(errno.ENOLCK, "no locks")),
            unittest.mock.patch("hound_bindings.disk.fcntl", None),
        ):
            with patch:
                hound.create(self.path, 8000, 2, 16).close()
                hound.append(self.path, SAMPLES)
                hound.repair(self.path)
                hound.write(self.path, SAMPLES, 8000, 2)
            self.assertEqual(content_of(self.path), made_by_wave(SAMPLES))

    def test_a_byte_after_odd_data(self):
        """Where frames have one byte, what isn't zero there is a sample."""
        for bits, channels, last in ((8, 1, b"\0"), (8, 1, b"\x4d"), (8, 3, b"\x4d"), (24, 1, b"\x4d")):
            is_cut_off = (bits, channels, last) == (8, 1, b"\x4d")
            content = by_hand(bytes(range(1, 4)), channels=channels, width=bits // 8)
            self.leave(content + last)
            for call in (lambda: hound.append_to(self.path).close(), lambda: hound.append(self.path, array.array("b"))):
                if is_cut_off:
                    self.fails(Cause.NEEDS_MEND, call)
                    self.assertEqual(content_of(self.path), content + last)
                else:
                    call()

    def test_memory_stays_small(self):
        block = array.array("h", bytes(2 << 16))
        tracemalloc.start()
        with hound.create(self.path, 8000, 2, 16) as writer:
            for _ in range(1 << 9):
                writer.write(block)
        with hound.append_to(self.path) as writer:
            writer.write(block)
        peak = tracemalloc.get_traced_memory()[1]
        tracemalloc.stop()
        self.assertEqual(os.path.getsize(self.path), 44 + 513 * (2 << 16))
        self.assertLess(peak, 8 << 20)


class Parts(Case):
    """Recordings that continue in a next file."""

    step = 1

    def setUp(self):
        folder = tempfile.TemporaryDirectory(dir="/dev/shm" if os.path.isdir("/dev/shm") else None)
        self.addCleanup(folder.cleanup)
        self.folder, self.path = folder.name, os.path.join(folder.name, "a.wav")

    def named(self, number):
        return self.path if number == 1 else os.path.join(self.folder, f"a-00{number}.wav")

    def contents(self):
        """Those of all files, each of which is the one before it with a larger number."""
        count = len(os.listdir(self.folder))
        return [content_of(self.named(number)) for number in range(1, count + 1)]

    def empty(self):
        for name in os.listdir(self.folder):
            os.unlink(os.path.join(self.folder, name))

    def test_a_block_goes_whole_into_the_next_file(self):
        blocks = [4, 4, 4, 9, 1, 0, 1, 25, 3]
        parts = [8, 4, 10, 10, 10, 9]  # A block of 25 frames is larger than a file of 10.
        samples = array.array("h", range(2 * sum(blocks)))
        for durable in False, True:
            with hound.create(self.path, 8000, 2, 16, split=10, durable=durable) as writer:
                done = 0
                for count in blocks:
                    writer.write(samples[2 * done : 2 * (done + count)])
                    done += count
                    self.assertEqual(writer.tell(), done)
                self.assertEqual((writer.frames_left, writer.info.frames), (1, 9))
                self.assertEqual(writer.paths, [self.named(number) for number in range(1, 7)])
            wanted = []
            for count in parts:
                wanted.append(made_by_wave(samples[: 2 * count]))
                samples = samples[2 * count :] + samples[: 2 * count]
            self.assertEqual(self.contents(), wanted)
            self.empty()

    def test_rows_of_frames(self):
        rows = memoryview(SAMPLES.tobytes()).cast("h", [5, 2])
        with hound.create(self.path, 8000, 2, 16, split=2) as writer:
            writer.write(rows)
        self.assertEqual(self.contents(), [made_by_wave(SAMPLES[i : i + 4]) for i in (0, 4, 8)])

    def test_as_many_as_have_room(self):
        for split in 1 << 40, (1 << 32) // 4:
            with hound.create(self.path, 8000, 2, 16, split=split) as writer:
                self.assertEqual(writer.frames_left, 4294967259 // 4)  # The RIFF size counts the pad byte, too.

    def test_a_file_that_is_full(self):
        """The first file is sparse: a test can't write 4 GiB."""
        writer = hound.create(self.path, 8000, 2, 16, split=1 << 40)
        writer._state.recorder.data_length = 4294967259 // 4 * 4 - 8
        for first in 0, 2, 4, 6:
            writer.write(SAMPLES[first : first + 2])
        writer.close()
        self.assertEqual([hound.info(path).frames for path in writer.paths], [4294967259 // 4, 2])
        self.assertEqual(hound.read(self.path, start=4294967259 // 4 - 2), SAMPLES[:4])
        self.assertEqual(content_of(self.named(2)), made_by_wave(SAMPLES[4:8]))

    def test_arguments(self):
        for split in 0, -1:
            self.assertRaises(ValueError, lambda: hound.create(self.path, 8000, 2, 16, split=split))
        self.assertRaises(TypeError, lambda: hound.create(self.path, 8000, 2, 16, split=1.5))
        self.assertRaises(ValueError, lambda: hound.create(io.BytesIO(), 8000, 2, 16, split=5))
        self.assertEqual(os.listdir(self.folder), [])
        os.symlink("nowhere", self.named(2))
        self.assertRaises(FileExistsError, lambda: hound.create(self.path, 8000, 2, 16, split=5))
        self.assertEqual(os.listdir(self.folder), ["a-002.wav"])

    def test_a_name_that_is_there(self):
        """It is found before the file before it is ended, which takes what still has room."""
        with hound.create(self.path, 8000, 2, 16, split=3) as writer:
            writer.write(SAMPLES[:4])
            with open(self.named(2), "wb") as other:
                other.write(b"mine")
            for _ in range(2):
                with self.assertRaises(FileExistsError) as caught:
                    writer.write(SAMPLES[4:8])
                self.assertEqual(caught.exception.filename, self.named(2))
                self.assertEqual(hound.info(self.path).frames, 0)
            with unittest.mock.patch("os.path.lexists", lambda _: False):  # Another program makes it after that look.
                self.assertRaises(FileExistsError, lambda: writer.write(SAMPLES[4:8]))
            writer.write(SAMPLES[4:6])
            self.assertEqual((writer.tell(), writer.paths), (3, [self.path]))
            for content in b"mine", b"", b"RIFF":  # also one that a call of another program has begun
                with open(self.named(2), "wb") as other:
                    other.write(content)
                self.assertRaises(FileExistsError, lambda: writer.write(SAMPLES[6:8]))
                self.assertEqual(content_of(self.named(2)), content)
        self.assertEqual(self.contents(), [made_by_wave(SAMPLES[:6]), b"RIFF"])

    def test_a_call_that_fails(self):
        """Each call of the system of a write that continues in a next file fails once, or is the last one that is
        done; and after it the recording goes on. A block is there if its write returned."""
        for durable, fails_once in itertools.product((False, True), (False, True)):
            for at in itertools.count():
                self.empty()
                writer = hound.create(self.path, 8000, 2, 16, split=3, durable=durable)
                writer.write(SAMPLES[:4])
                with Faults(at, fails_once) as faults:
                    is_done = succeeds(lambda: writer.write(SAMPLES[4:8]))
                rest = b"".join(content_of(name)[:4] for name in writer.paths)
                self.assertEqual(rest, b"RIFF" * len(writer.paths))
                self.assertEqual(len(os.listdir(self.folder)), len(writer.paths), (at, durable))
                is_ended = not succeeds(lambda: writer.write(SAMPLES[8:]))
                self.assertFalse(is_ended and not durable)
                is_closed = succeeds(writer.close)
                self.assertEqual(is_closed, not is_ended)  # Nothing is done after a sync that failed.
                if is_closed:
                    wanted = SAMPLES[:4] + (SAMPLES[4:8] if is_done else SAMPLES[:0]) + SAMPLES[8:]
                    found = array.array("h")
                    for name in writer.paths:
                        found += hound.read(name)
                        self.assertEqual(hound.find_damage(name).state, hound.State.WHOLE)
                    self.assertEqual(found, wanted, (at, durable, fails_once))
                else:
                    self.assertEqual(hound.repair(self.path).frames, 2)
                if not faults.failed:
                    break
            self.assertGreater(at, 4)

    def test_what_is_found_before_a_recording_begins(self):
        """Names of next files that are too long, and a folder in which none can be made."""
        for length in 252, 251, 250:  # A name has at most 255 bytes, and -9999 comes to it.
            name = os.path.join(self.folder, "a" * (length - 4) + ".wav")
            if length > 250:
                with self.assertRaises(OSError) as caught:
                    hound.create(name, 8000, 2, 16, split=2)
                self.assertEqual((caught.exception.errno, os.listdir(self.folder)), (errno.ENAMETOOLONG, []))
                hound.create(name, 8000, 2, 16).close()  # It is alone.
                os.unlink(name)
            else:
                with hound.create(name, 8000, 2, 16, split=2) as writer:
                    writer.write(SAMPLES)
                self.assertEqual(len(writer.paths), 3)
        with self.assertRaises(FileNotFoundError) as caught:
            hound.create(os.path.join(self.folder, "none", "a.wav"), 8000, 2, 16, split=2)
        self.assertEqual(caught.exception.filename, os.path.join(self.folder, "none"))
        self.empty()
        hound.create(self.path, 8000, 2, 16).close()
        before = content_of(self.path)
        os.chmod(self.path, 0o666)
        os.chmod(self.folder, 0o555)

        def create():
            if os.geteuid() == 0:
                os.setresuid(65534, 65534, 65534)
            with self.assertRaises(PermissionError) as caught:
                hound.create(self.path, 8000, 1, 8, split=2)
            return caught.exception.filename == self.folder

        self.assertEqual(os.waitpid(forked(create), 0)[1], 0)
        os.chmod(self.folder, 0o755)
        self.assertEqual(content_of(self.path), before)

    def test_all_files_are_in_one_folder(self):
        """Also where the program changes its own between them."""
        self.addCleanup(os.chdir, os.getcwd())
        os.chdir(self.folder)
        for call in hound.create, hound.resume:
            with call("a.wav", 8000, 2, 16, split=2) as writer:
                writer.write(SAMPLES[:4])
                os.chdir("/")
                writer.write(SAMPLES[4:8])
            count = len(os.listdir(self.folder))
            self.assertEqual(writer.paths, list(map(self.named, range(1, count + 1))))
            os.chdir(self.folder)
        self.assertEqual(self.contents(), [made_by_wave(SAMPLES[first : first + 4]) for first in (0, 4, 0, 4)])

    def test_a_block_that_is_larger_than_a_file_and_fails(self):
        """What is in is said, and counted; a sample that can't be written is found before any is."""
        with open(self.named(3), "wb") as other:
            other.write(b"mine")
        with hound.create(self.path, 8000, 2, 16, split=2) as writer:
            with self.assertRaises(FileExistsError) as caught:
                writer.write(SAMPLES)
            self.assertEqual(caught.exception.strerror, "File exists, and only the first 4 frames of 5 are recorded")
            self.assertEqual((writer.tell(), caught.exception.filename), (4, self.named(3)))
        self.assertEqual(self.contents()[:2], [made_by_wave(SAMPLES[:4]), made_by_wave(SAMPLES[4:8])])
        self.empty()
        with hound.create(self.path, 8000, 2, 16, split=2) as writer:
            for wide in array.array("i", [1] * 9 + [40000]), [1] * 9 + [40000]:
                self.fails(Cause.TOO_WIDE, lambda: writer.write(wide))
                self.assertEqual((writer.tell(), os.listdir(self.folder)), (0, ["a.wav"]))
            writer.write(array.array("i", SAMPLES))
        self.assertEqual(self.contents(), [made_by_wave(SAMPLES[i : i + 4]) for i in (0, 4, 8)])

    def test_a_write_that_is_interrupted_at_each_bytecode(self):
        """The next ones continue: a block is there if its write returned, whichever file it is in. Also within the
        `except`, where the traceback holds what the call had; and where there is no next one no empty file is left."""
        for durable, within, count in (False, True, 3), (False, False, 3), (False, True, 0), (True, True, 3):
            for at in itertools.count(1 + durable, self.step * (5 if durable else 1)):
                self.empty()
                with warnings.catch_warnings():
                    warnings.simplefilter("ignore", ResourceWarning)  # A file is closed when it is collected.
                    if self.interrupted(at, durable, within, count).place is None:
                        break
            self.assertGreater(at, 500)

    def interrupted(self, at, durable, within, count):
        writer = hound.create(self.path, 8000, 1, 16, split=2, durable=durable)
        writer.write(SAMPLES[:2])
        is_done, error = False, None
        with Interruption(at) as interruption:
            try:
                writer.write(SAMPLES[2:4])
                is_done = True
            except Interrupted as caught:
                error = caught if within else None
        is_done |= interruption.is_at_the_end()
        for sample in SAMPLES[4 : 4 + count]:
            writer.write(array.array("h", [sample]))
        writer.close()
        del error
        wanted = SAMPLES[:2] + (SAMPLES[2:4] if is_done else SAMPLES[:0]) + SAMPLES[4 : 4 + count]
        found = array.array("h")
        for name in writer.paths:
            found += hound.read(name)
            self.assertEqual(hound.find_damage(name).state, hound.State.WHOLE)
        self.assertEqual((found, len(self.contents())), (wanted, len(writer.paths)), interruption.place)
        return interruption


if __name__ == "__main__":
    unittest.main()
