"""Recordings that are continued by a recorder that starts by itself, whatever a kill left of them."""
import array
import io
import itertools
import os
import random
import signal
import struct
import tempfile
import unittest

import hound_bindings as hound
from hound_bindings import Cause
from test_streams import SAMPLES, Case, content_of, forked, stereo
from wav import CHUNK, by_hand, made_by_wave, with_chunk

FORM = 8000, 2, 16
# The header with which a new file of 24 bits begins, by the specification of WAVEFORMATEXTENSIBLE.
EXTENSIBLE = (
    b"RIFF\0\0\0\0WAVEfmt " + struct.pack("<IHHIIHHHHI", 40, 0xFFFE, 2, 8000, 48000, 6, 24, 22, 24, 3)
    + b"\1\0\0\0\0\0\x10\0\x80\0\0\xaa\0\x38\x9b\x71data\0\0\0\0"
)  # fmt: skip
# The same of 16 bits.
PLAIN = stereo(b"", riff=0)


class Resuming(Case):
    def setUp(self):
        folder = tempfile.TemporaryDirectory(dir="/dev/shm" if os.path.isdir("/dev/shm") else None)
        self.addCleanup(folder.cleanup)
        self.folder, self.path = folder.name, os.path.join(folder.name, "a.wav")

    def named(self, number):
        return self.path if number == 1 else os.path.join(self.folder, f"a-{number:03}.wav")

    def leave(self, content, number=1):
        with open(self.named(number), "wb") as file:
            file.write(content)

    def content(self, number=1):
        return content_of(self.named(number))

    def empty(self):
        for name in os.listdir(self.folder):
            os.unlink(os.path.join(self.folder, name))

    def resumes(self, samples, *form, **more):
        with hound.resume(self.path, *form, **more) as writer:
            writer.write(samples)
            return writer

    def test_one_that_isn_t_there(self):
        for durable in False, True:
            self.resumes(SAMPLES[:4], *FORM, durable=durable)
            self.resumes(SAMPLES[4:], *FORM, durable=durable)
            self.assertEqual(self.content(), made_by_wave(SAMPLES))
            self.empty()
        self.assertRaises(FileNotFoundError, lambda: hound.resume(self.path))
        self.assertRaises(TypeError, lambda: hound.resume(self.path, 8000, 2))
        self.fails(Cause.NOT_WRITABLE, lambda: hound.resume(self.path, 8000, 2, 12))
        self.assertRaises(TypeError, lambda: hound.resume(io.BytesIO(), *FORM))
        self.assertEqual(os.listdir(self.folder), [])

    def test_a_part_of_a_header_is_begun_anew(self):
        """A kill may leave each part of what a new file begins with, and no sample is in it."""
        wide = array.array("i", [1, -2, 3, -4])
        data = b"".join(value.to_bytes(3, "little", signed=True) for value in wide)
        for header, bits, samples, content in (
            (PLAIN, 16, SAMPLES, made_by_wave(SAMPLES)),
            (EXTENSIBLE, 24, wide, struct.pack("<4sI", b"RIFF", 60 + 12) + EXTENSIBLE[8:64] + b"\x0c\0\0\0" + data),
        ):
            for length, durable in itertools.product(range(len(header) + 1), (False, True)):
                self.leave(header[:length])
                self.resumes(samples, 8000, 2, bits, durable=durable)
                self.assertEqual(self.content(), content, length)

    def test_what_is_no_part_of_such_a_header_stays(self):
        for content in (
            PLAIN[:40].replace(b"WAVE", b"WAVX"), PLAIN[:30] + b"\1" + PLAIN[31:40], EXTENSIBLE[:40],
            by_hand(b"", riff=0)[:40], b"fLaC", b"text", made_by_wave(SAMPLES)[:40], b"\0" * 20,
        ):  # fmt: skip
            self.leave(content)
            self.assertRaises(hound.HoundError, lambda: hound.resume(self.path, *FORM))
            self.assertEqual(self.content(), content)
        self.leave(PLAIN[:40])
        self.fails(Cause.ENDED, lambda: hound.resume(self.path))  # Nothing says what the samples are to be.
        self.assertEqual(self.content(), PLAIN[:40])

    def test_what_was_cut_off_is_repaired_first(self):
        """Also where the header counts more than the file holds, or no whole frames."""
        whole, later = stereo(SAMPLES.tobytes()), SAMPLES[:2]
        for counted, length in itertools.product((0, 4, 7, 20, 24, 0xFFFFFFFF), range(44, len(whole) + 1)):
            for form in FORM, ():
                self.leave(stereo(SAMPLES.tobytes(), counted)[:length])
                held = (length - 44) // 4 * 2
                with hound.resume(self.path, *form) as writer:
                    self.assertEqual(writer.tell(), held // 2)
                    writer.write(later)
                self.assertEqual(self.content(), made_by_wave(SAMPLES[:held] + later), (counted, length))

    def test_other_files_stay(self):
        for content, wrong in (
            (by_hand(SAMPLES.tobytes()), ValueError),
            (stereo(SAMPLES.tobytes(), rate=8001), ValueError),
            (stereo(bytes(16), 4, width=1), ValueError),
            (stereo(bytes(16), 8, width=4, tag=3), ValueError),
            (stereo(SAMPLES.tobytes(), after=CHUNK), hound.HoundError),
        ):
            self.leave(content)
            self.assertRaises(wrong, lambda: hound.resume(self.path, *FORM))
            self.assertEqual(self.content(), content)
        self.leave(with_chunk(made_by_wave(SAMPLES), CHUNK))
        self.resumes(SAMPLES, *FORM)
        self.assertEqual(self.content(), with_chunk(made_by_wave(SAMPLES + SAMPLES), CHUNK))
        with hound.create(self.path, *FORM):
            self.assertRaises(BlockingIOError, lambda: hound.resume(self.path, *FORM))

    def test_a_recording_in_parts(self):
        """It continues in the last one, and the one before that is repaired, too."""
        for last, held in (made_by_wave(SAMPLES[:2]), 1), (PLAIN[:40], 0), (b"", 0), (stereo(bytes(4), 0), 1):
            for form in FORM, ():
                self.empty()
                self.leave(made_by_wave(SAMPLES))
                self.leave(stereo(SAMPLES.tobytes(), 8), 2)
                self.leave(last, 3)
                with hound.resume(self.path, *form, split=3) as writer:
                    self.assertEqual((writer.tell(), writer.frames_left), (10 + held, 3 - held))
                    writer.write(SAMPLES[: 6 - 2 * held])
                    writer.write(SAMPLES[:2])
                    self.assertEqual(writer.paths, list(map(self.named, range(1, 5))))
                self.assertEqual([self.content(1), self.content(2)], [made_by_wave(SAMPLES)] * 2)
                self.assertEqual([len(self.content(number)) for number in (3, 4)], [44 + 12, 44 + 4])
        with hound.resume(self.path, *FORM) as writer:  # without `split` the last file takes more
            writer.write(SAMPLES)
        self.assertEqual(self.content(4), made_by_wave(SAMPLES[:2] + SAMPLES))

    def test_parts_that_don_t_fit(self):
        for numbers, error in ([2], FileNotFoundError), ([1, 3], FileNotFoundError), ([1, 2, 4], FileNotFoundError):
            self.empty()
            for number in numbers:
                self.leave(made_by_wave(SAMPLES), number)
            self.assertRaises(error, lambda: hound.resume(self.path, *FORM))
            self.assertEqual(len(os.listdir(self.folder)), len(numbers))
        self.empty()
        for first, second in (by_hand(b"\0\0"), stereo(b"")), (stereo(b""), by_hand(b"\0\0")):
            self.leave(first)
            self.leave(second, 2)
            self.assertRaisesRegex(ValueError, "a.*wav has another form", lambda: hound.resume(self.path))
            self.assertEqual((self.content(), self.content(2)), (first, second))
        self.empty()
        for name in "a-02.wav", "a-0002.wav", "a-001.wav", "a-002.WAV", "b-002.wav", "a-002b.wav", "a-002":
            with open(os.path.join(self.folder, name), "wb"):
                pass
        self.assertEqual(self.resumes(SAMPLES, *FORM).paths, [self.path])

    def test_a_recorder_that_is_killed_and_starts_again(self):
        """Each call that changes a file may be the last one, done in part. Whatever it leaves, the next start goes on
        after all that had been written, and no start is an error."""
        kills = 0
        for durable, chunks, turn in itertools.product((False, True), (None, [(b"bext", bytes(range(99)))]), range(15)):
            self.empty()
            some, starts = random.Random(turn), 0
            while self.killed(some.randrange(1, 25), some.random(), durable, chunks):
                kills, starts = kills + 1, starts + 1
                self.assertLess(starts, 200)
            found = array.array("h")
            for number in range(1, len(os.listdir(self.folder)) + 1):
                found += hound.read(self.named(number))
                self.assertEqual(hound.find_damage(self.named(number)).state, hound.State.WHOLE)
                self.assertEqual(self.content(number).startswith(b"bext", 36), chunks is not None)
            self.assertEqual(found.tolist(), [number for number in range(40) for _ in range(2)])
        self.assertGreater(kills, 400)

    def killed(self, last, share, durable, chunks):
        """Starts a recorder of 40 frames, and kills it in its call of this number, once a share of it is done. Whether
        it was."""
        left, write, cut = last, os.pwrite, os.ftruncate

        def counted(call, part):
            nonlocal left
            left -= 1
            if left == 0:
                part()
                os.kill(os.getpid(), signal.SIGKILL)
            return call()

        def record():
            os.pwrite = lambda *words: counted(
                lambda: write(*words), lambda: write(words[0], bytes(words[1])[: int(share * len(words[1]))], words[2])
            )
            os.ftruncate = lambda *words: counted(lambda: cut(*words), lambda: None)
            with hound.resume(self.path, *FORM, split=7, durable=durable, chunks=chunks) as writer:
                for frame in range(writer.tell(), 40):
                    writer.write(array.array("h", [frame, frame]))
                    if frame % 3 == 0:
                        writer.flush()
            return True

        status = os.waitpid(forked(record), 0)[1]
        self.assertIn(status, (0, signal.SIGKILL), "a start is rejected")
        return status != 0

    def test_chunks_before_the_samples(self):
        content, data = bytes(range(256)) * 3, SAMPLES.tobytes()
        for length in (0, 1, 8, *range(218, 230), 602):
            chunks = [(b"bext", content[:length]), (b"iXML", memoryview(content)[: length + 2])]
            between = b"".join(
                name + struct.pack("<I", len(part)) + part + bytes(len(part) % 2) for name, part in chunks
            )
            start = 12 + 24 + len(between) + 8
            if (start - 4) // 512 != (start - 1) // 512:  # The length of the data would lie across two sectors.
                between += b"JUNK\2\0\0\0\0\0"
            whole = by_hand(data, between=between, channels=2)
            begun = by_hand(b"", between=between, channels=2)
            with hound.create(self.path, *FORM, chunks=chunks, durable=length == 8) as writer:
                writer.write(SAMPLES)
            self.assertEqual(self.content(), whole)
            self.resumes(SAMPLES, *FORM, chunks=chunks)
            self.assertEqual(self.content(), by_hand(2 * data, between=between, channels=2))
            for cut in {0, 1, 40, len(begun) // 2, len(begun) - 1, len(begun)}:
                self.leave(begun[:cut])
                self.resumes(SAMPLES, *FORM, chunks=chunks)
                self.assertEqual(self.content(), whole)
            self.leave(begun[:-1].replace(b"iXML", b"iXMM"))
            self.fails(Cause.ENDED, lambda: hound.resume(self.path, *FORM, chunks=chunks))
            self.assertIn(b"iXMM", self.content())
            memory = io.BytesIO()
            with hound.create(memory, *FORM, chunks=chunks) as writer:
                writer.write(SAMPLES)
            self.assertEqual(memory.getvalue(), whole)
            self.empty()
            with hound.create(self.path, *FORM, split=len(SAMPLES) // 2, chunks=chunks) as writer:
                for _ in range(3):
                    writer.write(SAMPLES)
            self.assertEqual([self.content(number) for number in (1, 2, 3)], [whole] * 3)
            self.empty()
        self.leave(whole)
        for name, part, error in (
            (b"data", b"", ValueError), (b"fmt ", b"", ValueError), (b"bex", b"", ValueError),
            ("bext", b"", ValueError), (b"bext", "text", TypeError), (b"bext", 7, TypeError),
        ):  # fmt: skip
            self.assertRaises(error, lambda: hound.create(self.path, *FORM, chunks=[(name, part)]))
        self.assertRaises(TypeError, lambda: hound.create(self.path, *FORM, chunks=7))
        self.assertRaises(ValueError, lambda: hound.resume(self.path, chunks=[(b"bext", b"")]))
        self.assertEqual(self.content(), whole)


if __name__ == "__main__":
    unittest.main()
