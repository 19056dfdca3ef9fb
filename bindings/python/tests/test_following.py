"""Recordings that are followed while they are made, by recorders of the package and by hand."""
import array
import errno
import fcntl
import itertools
import os
import signal
import struct
import subprocess
import sys
import tempfile
import threading
import time
import unittest
import unittest.mock

import hound_bindings as hound
from hound_bindings import Cause, State
from interruptions import Interrupted, Interruption
from test_streams import SAMPLES, Case, forked, stereo
from wav import CHUNK, by_hand, made_by_wave, with_chunk

PACKAGE = os.path.dirname(os.path.dirname(hound.__file__))


class Followed(Case):
    def setUp(self):
        folder = tempfile.TemporaryDirectory(dir="/dev/shm" if os.path.isdir("/dev/shm") else None)
        self.addCleanup(folder.cleanup)
        self.folder, self.path = folder.name, os.path.join(folder.name, "a.wav")

    def leave(self, content, path=None):
        """Writes a file in place, as a recorder does that empties it."""
        with open(path or self.path, "wb") as file:
            file.write(content)



class Following(Followed):
    def is_replaced(self, call):
        with self.assertRaises(OSError) as caught:
            call()
        self.assertEqual((caught.exception.errno, caught.exception.filename), (errno.ESTALE, self.path))

    def test_frames_are_given_once_they_are_counted(self):
        with hound.create(self.path, 8000, 2, 16) as writer, hound.Follower(self.path) as follower:
            self.assertEqual((follower.info, follower.tell()), (None, 0))
            self.assertEqual((len(follower.read()), follower.info[:6]), (0, (8000, 2, 16, False, 0, 44)))
            writer.write(SAMPLES[:4])
            self.assertEqual(len(follower.read()), 0)
            writer.flush()
            self.assertEqual((follower.read(1), follower.tell(), follower.info.frames), (SAMPLES[:2], 1, 2))
            writer.write(SAMPLES[4:])
            writer.flush()
            self.assertEqual(follower.read(0), array.array("h"))
            self.assertEqual((follower.read(), follower.info.frames), (SAMPLES[2:4], 2))
            self.assertEqual((follower.read(2), follower.read()), (SAMPLES[4:8], SAMPLES[8:]))
            self.assertEqual((follower.read(), follower.tell()), (array.array("h"), 5))
        self.assertRaises(ValueError, follower.read)
        with hound.Follower(self.path) as follower:
            self.assertRaises(ValueError, lambda: follower.read(-2))

    def test_forms_of_blocks(self):
        """They are those of a Reader, and what has no header yet has the form that is requested."""
        wide = array.array("i", [1, -2, 3, -4, 8388607, -8388608])
        self.leave(b"")
        with hound.Follower(self.path) as follower:
            self.assertEqual(follower.read(dtype="float64"), array.array("d"))
            self.assertEqual(follower.read(always_2d=True).tolist(), [])
            self.assertRaises(TypeError, lambda: follower.read(dtype="int64"))
            hound.write(self.path + "2", wide, 8000, 2, 24)
            with open(self.path + "2", "rb") as file:
                self.leave(file.read())
            for dtype in None, "float32", "int32", "float64":
                for always_2d in False, True:
                    with hound.Follower(self.path) as one:
                        got = one.read(2, dtype, always_2d=always_2d)
                    with hound.open(self.path) as reader:
                        other = reader.read(2, dtype, always_2d=always_2d)
                    self.assertEqual(got.tolist(), other.tolist())
                    self.assertEqual(memoryview(got).format, memoryview(other).format)
            self.fails(Cause.TOO_WIDE, lambda: follower.read(dtype="int16"))
            self.assertEqual(follower.read(dtype="int32"), wide)  # Nothing was taken.

    def test_types_of_numpy(self):
        try:
            import numpy
        except ImportError:
            self.skipTest("numpy isn't here")
        self.leave(b"")
        with hound.Follower(self.path) as follower:
            self.assertEqual(follower.read(dtype=numpy.float32).shape, (0,))
            self.leave(made_by_wave(SAMPLES))
            got = follower.read(2, numpy.int16)
            self.assertEqual((got.dtype, got.tolist()), (numpy.int16, [[2, -3], [5, -7]]))
        blocks = list(hound.follow(self.path, 3, numpy.float64))
        self.assertEqual([block.shape for block in blocks], [(3, 2), (2, 2)])

    def test_a_header_that_comes_byte_by_byte(self):
        content = with_chunk(stereo(SAMPLES.tobytes()), CHUNK)
        for header in range(20, len(content) - 2 * len(SAMPLES)):
            self.leave(content[:header])
            with hound.Follower(self.path) as follower:
                self.assertEqual((len(follower.read()), follower.info), (0, None))
                self.leave(content)
                self.assertEqual(follower.read(), SAMPLES)

    def test_what_a_header_counts(self):
        """Fewer frames than before change nothing, and a part of a frame isn't given."""
        data = SAMPLES.tobytes()
        with open(self.path, "wb", buffering=0) as file, hound.Follower(self.path) as follower:
            file.write(stereo(data, counted=0))
            for counted, given in ((4, 4), (0, 0), (3, 0), (7, 0), (8, 4), (17, 8), (20, 4)):
                os.pwrite(file.fileno(), struct.pack("<I", counted), 40)
                self.assertEqual(len(follower.read()) * 2, given, counted)
            for counted in 0xFFFFFFFF, 0xFFFFFFFF - 35:
                os.pwrite(file.fileno(), struct.pack("<I", counted), 40)
                self.fails(Cause.TOO_LONG, follower.read)
            os.pwrite(file.fileno(), struct.pack("<I", 20), 40)
            self.assertEqual(len(follower.read()), 0)

    def test_the_length_is_read_from_its_last_byte(self):
        """The order of the reads is what keeps a length that is being written from counting too much."""
        self.leave(stereo(SAMPLES.tobytes()))
        calls, pread = [], os.pread

        def noted(descriptor, count, place):
            calls.append((count, place))
            return pread(descriptor, count, place)

        with hound.Follower(self.path) as follower, unittest.mock.patch("os.pread", noted):
            follower.read()
            self.assertEqual(calls[calls.index((4, 40)) :][:5], [(4, 40), (1, 43), (1, 42), (1, 41), (1, 40)])
            calls.clear()
            follower.read()
            self.assertEqual(calls, [(4, 40)])  # One call of the system where nothing is new.

    def test_headers_that_are_not_read(self):
        for content, cause, kind in (
            (b"fLaC" + bytes(40), Cause.NO_RIFF_TAG, 65542),
            (stereo(b"", tag=2), Cause.UNSUPPORTED, 2),
        ):
            self.leave(content)
            with hound.Follower(self.path) as follower, self.assertRaises(hound.HoundError) as caught:
                follower.read()
            error = caught.exception
            self.assertEqual((error.cause, error.kind, error.filename), (cause, kind, self.path))
        self.assertRaises(FileNotFoundError, lambda: hound.Follower(self.path + "2"))

    def test_a_file_that_becomes_another_one(self):
        """It is an error once something was given; before that the other one is followed."""
        other = array.array("h", range(50, 90))
        for content in (b"", stereo(b""), stereo(SAMPLES.tobytes())[:60], stereo(other.tobytes())):
            self.leave(stereo(SAMPLES.tobytes()))
            with hound.Follower(self.path) as follower:
                follower.read()
                self.leave(content)
                is_noticed_at_once = len(content) in (0, 124)
                self.is_replaced(follower.read if is_noticed_at_once else follower.is_recorded)
        for content in b"", stereo(b""), stereo(b"")[:30]:
            self.leave(stereo(b""))
            with hound.Follower(self.path) as follower:
                follower.read()
                self.leave(content)
                follower.read()
                self.leave(by_hand(other.tobytes(), channels=1))
                self.assertEqual(follower.read() or follower.read(), other)
                self.assertEqual(follower.info.channels, 1)

    def test_another_header_before_the_first_samples(self):
        """What was counted of a file that is emptied then isn't given as samples of the older header."""
        self.leave(stereo(SAMPLES.tobytes()))
        read_at, wide = hound.disk.Descriptor.read_at, by_hand(bytes(range(30)), width=3)

        def late(file, count, place):
            if (count, place) == (20, 44):
                self.leave(wide)
            return read_at(file, count, place)

        with hound.Follower(self.path) as follower, unittest.mock.patch("hound_bindings.disk.Descriptor.read_at", late):
            self.assertEqual(len(follower.read()), 0)
            self.assertEqual(len(follower.read(dtype="int32")), 10)

    def test_another_file_at_the_path(self):
        """_folder_: on Windows nobody renames a file that is followed."""
        recorder = hound.create(self.path, 8000, 2, 16)
        with hound.Follower(self.path) as follower:
            follower.read()
            os.rename(self.path, self.path + "2")
            self.assertTrue(follower.is_recorded())
            self.leave(made_by_wave(SAMPLES[:4], 1))
            self.assertTrue(follower.is_recorded())  # From now on it is the other one.
            self.assertEqual((follower.read(), follower.is_recorded()), (SAMPLES[:4], False))
        os.unlink(self.path)
        with hound.Follower(self.path + "2") as follower:
            recorder.write(SAMPLES)
            recorder.flush()
            self.assertEqual(follower.read(), SAMPLES)
            os.rename(self.path + "2", self.path)
            self.assertTrue(follower.is_recorded())
            recorder.write(SAMPLES)
            recorder.close()
            self.assertEqual((follower.read(), follower.is_recorded()), (SAMPLES, False))
        with hound.Follower(self.path) as follower:
            follower.read()
            os.rename(self.path, self.path + "2")
            self.leave(made_by_wave(SAMPLES))
            self.is_replaced(follower.is_recorded)

    def test_whether_it_is_recorded(self):
        with hound.create(self.path, 8000, 2, 16), hound.Follower(self.path) as follower:
            self.assertTrue(follower.is_recorded())
            with hound.Follower(self.path) as other:
                self.assertTrue(other.is_recorded())
        with hound.Follower(self.path) as follower:
            self.assertFalse(follower.is_recorded())
            hound.append(self.path, SAMPLES)  # The lock was given back.
            with unittest.mock.patch("fcntl.flock", side_effect=OSError(errno.ENOLCK, "no locks")):
                self.assertFalse(follower.is_recorded())

    def test_a_recorder_tries_its_lock_again(self):
        """Ten times: so long a follower may hold it."""
        hound.write(self.path, SAMPLES, 8000, 2)
        lock = fcntl.flock

        def late(descriptor, operation):
            tried.append(operation)
            if len(tried) <= failing:
                raise BlockingIOError(errno.EWOULDBLOCK, "locked")
            return lock(descriptor, operation)

        for failing in 0, 9, 10:
            tried = []
            with unittest.mock.patch("fcntl.flock", late):
                begun, call = time.monotonic(), lambda: hound.append_to(self.path)
                self.assertRaises(BlockingIOError, call) if failing == 10 else call().close()
                self.assertGreaterEqual(time.monotonic() - begun, 0.002 * min(failing, 9))
            self.assertEqual(tried.count(fcntl.LOCK_EX | fcntl.LOCK_NB), min(failing + 1, 10))

    def test_interruptions(self):
        """After one at each third bytecode the next call goes on with the same frame."""
        self.leave(stereo(SAMPLES.tobytes()))
        for at in itertools.count(1, 3):
            follower, got = hound.Follower(self.path), None
            with Interruption(at) as interruption:
                try:
                    got = follower.read(2)
                except Interrupted:
                    pass
            if got is None:
                got = SAMPLES[:4] if interruption.is_at_the_end() else array.array("h")
            self.assertEqual(got + follower.read(), SAMPLES, interruption.place)
            follower.close()
            if interruption.place is None:
                break
        self.assertGreater(at, 300)

    def test_a_read_that_fails(self):
        """The next call goes on with it."""
        pread = os.pread

        def faulty(*words):
            nonlocal left
            left -= 1
            if left == 0:
                raise OSError(errno.EIO, "a fault")
            return pread(*words)

        self.leave(stereo(SAMPLES.tobytes()))
        for fault in itertools.count(1):
            left, got, has_failed = fault, array.array("h"), False
            with hound.Follower(self.path) as follower:
                with unittest.mock.patch("os.pread", faulty):
                    for _ in range(3):
                        try:
                            got += follower.read(3)
                        except OSError as error:
                            has_failed = True
                            self.assertEqual((error.errno, error.filename), (errno.EIO, self.path))
                self.assertEqual(got + follower.read(), SAMPLES, fault)
            if not has_failed:
                break
        self.assertGreater(fault, 10)

    def test_threads_share_a_follower(self):
        samples, got = array.array("i", range(50_000)), []
        hound.write(self.path, samples, 8000)
        with hound.Follower(self.path) as follower:

            def take():
                while block := follower.read(7):
                    got.append(block)

            threads = [threading.Thread(target=take) for _ in range(4)]
            for thread in threads:
                thread.start()
            for thread in threads:
                thread.join()
        self.assertEqual(sorted(sample for block in got for sample in block), samples.tolist())

    def test_a_forked_process(self):
        self.leave(made_by_wave(SAMPLES))
        with hound.Follower(self.path) as follower:

            def read():
                with self.assertRaisesRegex(RuntimeError, "belongs to the process that made it"):
                    follower.read()
                follower.close()
                return True

            self.assertEqual(os.waitpid(forked(read), 0)[1], 0)
            self.assertEqual(follower.read(), SAMPLES)


class Iterations(Followed):
    """The iteration over blocks, which waits."""

    def begun(self, blocks, **form):
        """A forked recorder of these blocks, each counted before the next one, which is killed after the last one."""
        def record():
            writer = hound.create(self.path, 8000, 2, 16, **form)
            for block in blocks:
                writer.write(block)
                writer.flush()
                time.sleep(0.01)
            writer.write(SAMPLES)
            os.kill(os.getpid(), signal.SIGKILL)

        child = os.fork()
        if child == 0:
            try:
                record()
            finally:
                os._exit(1)
        self.addCleanup(os.waitpid, child, 0)

    def test_a_killed_recorder(self):
        for durable in False, True:
            self.begun([SAMPLES, SAMPLES[:4]] * 10, durable=durable)
            got = [list(block) for block in hound.follow(self.path, 3, timeout=5, poll=0.002)]
            self.assertEqual(sum(got, []), (SAMPLES + SAMPLES[:4]).tolist() * 10)
            self.assertTrue(all(len(block) in (2, 4, 6) for block in got))
            found = hound.find_damage(self.path)
            self.assertEqual((found.state, found.counted, found.added), (State.CUT_OFF, 70, 5))
            os.unlink(self.path)

    def test_parts(self):
        self.begun([SAMPLES, SAMPLES[:4]] * 10, split=12)
        got = [list(block) for block in hound.follow(self.path, 3, timeout=5, poll=0.002, parts=True)]
        self.assertEqual(sum(got, []), (SAMPLES + SAMPLES[:4]).tolist() * 10)
        self.assertEqual(len(os.listdir(self.folder)), 7)
        self.assertEqual(sum(map(len, hound.follow(self.path))), 24)

    def test_parts_of_a_recorder_that_locks_nothing(self):
        """A file has ended where the next one counts frames: only the last one is waited for."""
        for number in range(1, 12):
            self.leave(stereo(SAMPLES.tobytes()), hound.parts.part_name(self.path, number))
        self.leave(stereo(b""), hound.parts.part_name(self.path, 12))
        begun = time.monotonic()
        self.assertEqual(list(hound.follow(self.path, idle=1.5, parts=True)), [SAMPLES] * 11)
        self.assertTrue(3 <= time.monotonic() - begun < 12)

    def test_the_last_look_comes_after_the_lock(self):
        """The recorder makes its last checkpoint, and ends, when the lock is asked for."""
        writer, is_recorded = hound.create(self.path, 8000, 2, 16), hound.Follower.is_recorded

        def late(follower):
            if writer.tell() == 0:
                writer.write(SAMPLES)
                writer.close()
            return is_recorded(follower)

        with unittest.mock.patch("hound_bindings.Follower.is_recorded", late):
            self.assertEqual(list(hound.follow(self.path)), [SAMPLES])

    def test_how_often_a_lock_is_asked_for(self):
        asked, flock = [], fcntl.flock

        def noted(descriptor, operation):
            asked.append(time.monotonic())
            return flock(descriptor, operation)

        with hound.create(self.path, 8000, 2, 16) as writer, unittest.mock.patch("fcntl.flock", noted):
            writer.write(SAMPLES)
            writer.flush()
            with self.assertRaisesRegex(TimeoutError, "nothing new is counted"):
                list(hound.follow(self.path, timeout=2.3, poll=0.001))
        self.assertIn(len(asked), (2, 3))
        self.assertTrue(all(later - sooner > 0.99 for sooner, later in zip(asked, asked[1:])), asked)

    def test_a_file_that_has_no_header_yet(self):
        """Its recorder may not have locked it yet: so it is asked about after a second."""
        self.leave(b"RIFF")

        def record():
            time.sleep(0.1)
            hound.write(self.path + "2", SAMPLES, 8000, 2)
            os.replace(self.path + "2", self.path)

        thread = threading.Thread(target=record)
        thread.start()
        self.assertEqual(list(hound.follow(self.path)), [SAMPLES])
        thread.join()
        self.leave(b"RIFF")
        begun = time.monotonic()
        self.assertEqual(list(hound.follow(self.path)), [])
        self.assertGreaterEqual(time.monotonic() - begun, 1)

    def test_a_file_that_is_not_there_yet(self):
        self.assertRaises(FileNotFoundError, lambda: list(hound.follow(self.path)))
        self.assertRaises(TimeoutError, lambda: list(hound.follow(self.path, timeout=0.1)))
        self.begun([SAMPLES])
        self.assertEqual(list(hound.follow(self.path, timeout=5)), [SAMPLES])

    def test_a_recorder_that_locks_nothing(self):
        """It is waited for."""
        self.leave(stereo(SAMPLES.tobytes()[:8]))

        def record():
            for counted in range(8, 21, 4):
                self.leave(stereo(SAMPLES.tobytes()[:counted]))
                time.sleep(0.1)

        thread = threading.Thread(target=record)
        thread.start()
        got = [list(block) for block in hound.follow(self.path, idle=2)]
        thread.join()
        self.assertEqual(sum(got, []), SAMPLES.tolist())
        begun = time.monotonic()
        self.assertEqual(list(hound.follow(self.path, 9, "int16", idle=0.5)), [SAMPLES])
        self.assertGreaterEqual(time.monotonic() - begun, 0.5)

    def test_an_interrupt_ends_it_at_once(self):
        with hound.create(self.path, 8000, 2, 16) as writer:
            writer.write(SAMPLES)
            writer.flush()
            program = (
                "import signal, sys, hound_bindings as hound\n"
                "signal.signal(signal.SIGINT, signal.default_int_handler)  # nohup and & ignore it\n"
                "for block in hound.follow(sys.argv[1], poll=5):\n"
                "    print(len(block), flush=True)"
            )
            words = [sys.executable, "-c", program, self.path]
            env = {**os.environ, "PYTHONPATH": PACKAGE}
            with subprocess.Popen(words, env=env, stdout=subprocess.PIPE, stderr=subprocess.PIPE) as running:
                self.assertEqual(running.stdout.readline(), b"10\n")
                time.sleep(0.2)
                begun = time.monotonic()
                running.send_signal(signal.SIGINT)
                self.assertIn(b"KeyboardInterrupt", running.communicate()[1])
                self.assertLess(time.monotonic() - begun, 1)

    def test_arguments(self):
        hound.write(self.path, SAMPLES, 8000, 2)
        for wrong in (
            {"frames": 0}, {"poll": 0}, {"poll": -1.0}, {"idle": -1}, {"timeout": -1}, {"timeout": float("nan")},
            {"poll": float("inf")},
        ):  # fmt: skip
            self.assertRaises(ValueError, lambda: hound.follow(self.path, **wrong))
        self.assertRaises(TypeError, lambda: hound.follow(self.path, 4096, "int16", True))
        self.assertRaises(TypeError, lambda: list(hound.follow(self.path, 4096, "int64")))
        self.assertEqual(list(hound.follow(self.path, always_2d=True))[0].tolist()[0], [2, -3])

    def test_a_whole_file(self):
        """The lock is free, so it ends at once."""
        hound.write(self.path, SAMPLES, 8000, 2)
        begun = time.monotonic()
        self.assertEqual(list(hound.follow(self.path)), [SAMPLES])
        self.assertLess(time.monotonic() - begun, 0.9)
        with hound.Follower(self.path) as follower:
            self.assertEqual(follower.find_damage(), (State.WHOLE, 5, 0))


if __name__ == "__main__":
    unittest.main()
