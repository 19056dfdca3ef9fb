"""Floats whose full scale is 1, the spec that travels with samples, and files of objects. What is expected is computed
by hand, by the module `wave`, or by fractions."""
import array
import contextlib
import fractions
import io
import itertools
import math
import mmap
import operator
import os
import random
import struct
import sys
import tempfile
import tracemalloc
import unittest
import unittest.mock
import warnings

import hound_bindings as hound
from hound_bindings import Cause, Info
from interruptions import Interrupted, Interruption
from test_files import two_d
from test_streams import SAMPLES, Case, content_of
from wav import by_hand, made_by_wave, wave_of

WIDE = {
    8: [-128, -1, 0, 1, 127],
    16: [-32768, -1, 0, 12345, 32767],
    24: [-(2**23), -1, 0, 1234567, 2**23 - 1],
    32: [-(2**31), -1, 0, 123456789, 2**31 - 1],
}
TOP = 32768.0


def nearest(sample, bits):
    """The integer of a float, computed by fractions: rounded, of two to the even one, and clipped."""
    top = 1 << (bits - 1)
    return max(-top, min(top - 1, round(fractions.Fraction(sample) * top)))


def as_float32(values):
    return [struct.unpack("<f", struct.pack("<f", value))[0] for value in values]


def silently(call):
    """What a call returns, and the texts of its warnings."""
    with warnings.catch_warnings(record=True) as caught:
        warnings.simplefilter("always")
        return call(), [(str(one.message), one.filename) for one in caught]


def states_of_mmix(state):
    """The states of the generator of Knuth's MMIX."""
    while True:
        state = (state * 6364136223846793005 + 1442695040888963407) % 2**64
        yield state


def noises_of(seed, bits):
    """Triangular noise of at most one step of so many bits."""
    for state in states_of_mmix(seed):
        yield fractions.Fraction((state >> 48) - (state >> 32) % 2**16, 2 ** (16 + bits - 1))


class Folder(Case):
    def setUp(self):
        folder = tempfile.TemporaryDirectory()
        self.addCleanup(folder.cleanup)
        self.path = os.path.join(folder.name, "a.wav")

    def leave(self, content):
        with open(self.path, "wb") as file:
            file.write(content)


class Floats(Folder):
    def test_integers_are_read_as_floats(self):
        for bits, values in WIDE.items():
            self.leave(wave_of(bits, values))
            exact = [value / 2 ** (bits - 1) for value in values]
            for file in self.path, content_of(self.path), io.BytesIO(content_of(self.path)):
                self.assertEqual(hound.read(file, dtype="float64"), array.array("d", exact))
                if hasattr(file, "seek"):
                    file.seek(0)
                self.assertEqual(hound.read(file, 1, dtype="float32"), array.array("f", as_float32(exact[1:])))
            with hound.open(self.path) as reader:
                blocks = [list(block) for block in reader.blocks(2, "float64")]
                self.assertEqual(blocks, [exact[:2], exact[2:4], exact[4:]])
            block = array.array("f", bytes(8))
            self.assertEqual((hound.read_into(self.path, block, 3), list(block)), (2, as_float32(exact[3:])))
        floats = hound.to_bytes(array.array("f", [0.25, 3.5]), 8000)  # They stay as they are.
        self.assertEqual([list(hound.read(floats, dtype=dtype)) for dtype in ("float32", "float64")], [[0.25, 3.5]] * 2)

    def test_files_longer_than_what_is_converted_at_once(self):
        some = random.Random(3)
        values = [some.randrange(-32768, 32768) for _ in range(3 * (1 << 16) + 6)]
        content = wave_of(16, values, 3)
        for count, rest in (len(values), 0), (196608, 0), (131073, 0), (131073, 3):
            source = content[: 44 + 2 * count + rest]
            exact = array.array("d", [value / TOP for value in values[:count]])
            self.assertEqual(hound.read(source, dtype="float64"), exact)
            self.assertEqual(hound.open(io.BytesIO(source)).read(dtype="float32"), array.array("f", exact))
        for samples in array.array("f", exact), exact, list(exact), two_d(exact, 3), array.array("q", values[:count]):
            self.assertEqual(hound.read(hound.to_bytes(samples, 8000, 3, 16), dtype="float64"), exact)

    def test_floats_are_written_as_integers(self):
        some = random.Random(4)
        for bits in 8, 16, 24:
            step = 2.0 ** (1 - bits)
            values = [some.uniform(-1, 1) for _ in range(500)]
            values += [0.5 * step, 1.5 * step, 2.5 * step, -0.5 * step, -1.0, 1 - step]
            for samples in array.array("f", values), array.array("d", values), values:
                content = hound.to_bytes(samples, 8000, bits=bits)
                rounded = [nearest(sample, bits) for sample in samples]
                self.assertEqual(list(hound.read(content, dtype="int32")), rounded)
        every = array.array("d", [value / 2**31 for value in WIDE[32]])
        exact = hound.to_bytes(every, 8000, like=Info(8000, 1, 32))
        self.assertEqual(list(hound.read(exact)), WIDE[32])

    def test_float64_in_files_of_floats(self):
        """They are the nearest floats, also of more samples than are converted at once."""
        largest, next_one = 3.4028235677973362e38, 3.4028235677973366e38  # The second one is nearer to infinity.
        values = [0.1, 1 + 2**-24, 1 + 3 * 2**-24, -0.0, 1e-46, -1e-45, math.inf, -math.inf, largest] * 8000
        floats = array.array("f", values)
        content = hound.to_bytes(array.array("d", values), 8000)
        self.assertEqual(hound.read(content).tobytes(), floats.tobytes())
        self.assertEqual(hound.read(content, dtype="float64").tobytes(), array.array("d", floats).tobytes())
        with hound.create(self.path, 8000, like=hound.info(content)) as writer:
            writer.write(values[:9])
            self.assertRaises(hound.HoundError, lambda: writer.write([0.5, next_one]))
        self.assertEqual(content_of(self.path)[-36:], floats[:9].tobytes())
        with self.assertRaises(hound.HoundError) as caught:
            hound.to_bytes([next_one], 8000)
        self.assertEqual(caught.exception.cause, hound.Cause.TOO_WIDE)

    def test_float64_is_rounded_once(self):
        """A float32 would make a half of what is a little more or less."""
        for bits in 8, 16, 24:
            step, tiny = 2.0 ** (1 - bits), 2.0**-52
            values = [(k + 0.5) * step * sign for k in range(-3, 4) for sign in (1 - tiny, 1, 1 + tiny)] * 4000
            content = hound.to_bytes(array.array("d", values), 8000, bits=bits)
            self.assertEqual(list(hound.read(content, dtype="int32")), [nearest(value, bits) for value in values])

    def test_what_is_clipped_is_counted(self):
        values = [1.0, 1 - 2**-17, -1.0, -1.0001, math.inf, -math.inf, math.nan, 1e300, 0.5, 32767.49 / TOP]
        wanted = [32767, 32767, -32768, -32768, 32767, -32768, 0, 32767, 16384, 32767]
        for samples, clipped in (array.array("f", values), 6), (array.array("d", values), 6), (values, 6):
            content, said = silently(lambda: hound.to_bytes(samples, 8000, bits=16))
            self.assertEqual(list(hound.read(content)), wanted)
            self.assertEqual(said, [(f"{clipped} of 10 samples were clipped", __file__)])
        writer = hound.create(self.path, 8000, 1, 16)
        self.assertEqual(silently(lambda: writer.write([0.5]))[1], [])
        for count in 6, 12:
            said = silently(lambda: writer.write(values))[1]
            self.assertEqual((writer.clipped, [name for _, name in said]), (count, [__file__]))
        with warnings.catch_warnings():
            warnings.simplefilter("error")
            self.assertRaises(RuntimeWarning, lambda: writer.write(values))
        writer.close()
        self.assertEqual(list(hound.read(self.path)), [16384] + wanted * 2)
        self.assertEqual(writer.clipped, 12)

    def test_dither(self):
        """Its noise has a mean of 0, a variance of a sixth of a step, as that of two uniform numbers is, and is at most
        a step; the error that is left after rounding is a quarter."""
        level, count = -100.3 / TOP, 40000
        for samples in array.array("f", [level] * count), array.array("d", [level] * count):
            first = hound.read(hound.to_bytes(samples, 8000, bits=16, dither=True))
            errors = [value - samples[0] * TOP for value in first]
            self.assertLess(abs(sum(errors) / count), 0.02)
            self.assertAlmostEqual(sum(error**2 for error in errors) / count, 0.25, delta=0.01)
            self.assertLess(max(map(abs, errors)), 1.5)
            self.assertEqual(set(first), {-101, -100, -99})
            self.assertEqual(first, hound.read(hound.to_bytes(samples, 8000, bits=16, dither=1)))
            self.assertNotEqual(first, hound.read(hound.to_bytes(samples, 8000, bits=16, dither=7)))
            with hound.create(self.path, 8000, 1, 16, dither=True) as writer:
                writer.write(samples[:7])
                writer.write(samples[7:])
            self.assertEqual(hound.read(self.path), first)
        for call in (
            lambda: hound.to_bytes(SAMPLES, 8000, dither=True),
            lambda: hound.to_bytes([0.5], 8000, dither=True),
            lambda: hound.create(self.path, 8000, 1, 16, dither=-1),
        ):
            self.assertRaisesRegex(ValueError, "dither is", call)
        self.assertEqual(hound.read(self.path), first)

    def test_dither_is_that_of_a_model(self):
        """By fractions: the states of the generator, the difference of their upper two 16 bits, and one
        rounding to a double. A block that failed takes no noise."""
        some = random.Random(8)
        for bits in 8, 16, 24, 32:
            steps = [some.randrange(-(1 << bits), 1 << bits) / 2.0**bits for _ in range(200)]
            values = steps + [some.uniform(-1.1, 1.1) for _ in range(200)] + [0.0, -0.0, 1.0, -1.0, 1e-300, 1e300]
            for code, seed in ("f", 1), ("d", 1), ("d", sys.maxsize):
                samples = array.array(code, [value if code == "d" else min(value, 3e38) for value in values])
                noisy = map(operator.add, map(fractions.Fraction, samples), noises_of(seed, bits))
                wanted = [nearest(float(sample), bits) for sample in noisy]
                like = Info(8000, 1, bits)
                with warnings.catch_warnings():
                    warnings.simplefilter("ignore")
                    content = hound.to_bytes(samples, like=like, dither=seed)
                    self.assertEqual(list(hound.read(content, dtype="int32")), wanted)
                    with hound.create(self.path, like=like, dither=seed) as writer:
                        writer.write(samples[:5])
                        with unittest.mock.patch("os.pwrite", side_effect=OSError("full")):
                            self.assertRaises(OSError, lambda: writer.write(samples[5:]))
                        writer.write(samples[5:])
                self.assertEqual(content_of(self.path), content)

    def test_no_copy_of_all_samples_is_made(self):
        """But for those that are written."""
        for code in "fdqb":
            samples = array.array(code, bytes((2 << 20) * array.array(code).itemsize))
            tracemalloc.start()
            with hound.create(self.path, 8000, 1, 16) as writer:
                writer.write(samples)
            written = tracemalloc.get_traced_memory()[1]
            tracemalloc.reset_peak() if hasattr(tracemalloc, "reset_peak") else tracemalloc.clear_traces()
            hound.read(self.path, dtype="float32")
            read = tracemalloc.get_traced_memory()[1]
            tracemalloc.stop()
            self.assertLess(written, 12 << 20, code)
            self.assertLess(read, 24 << 20, code)

    def test_floats_are_appended(self):
        self.leave(made_by_wave(SAMPLES))
        hound.append(self.path, [[0.5, -0.5]])
        with hound.append_to(self.path) as writer:
            writer.write(array.array("d", [0.25, -1]))
        self.assertEqual(content_of(self.path), made_by_wave(SAMPLES + array.array("h", [16384, -16384, 8192, -32768])))

    def test_an_error_changes_nothing(self):
        writer = hound.create(self.path, 8000, 2, 8)
        writer.write([1, 2])
        before = content_of(self.path)
        for cause, block in (
            (Cause.TOO_WIDE, [1, 128]),
            (Cause.TOO_WIDE, array.array("q", [1, 1 << 40])),
            (Cause.TOO_WIDE, [1, 1 << 70]),
            (Cause.UNFINISHED_FRAME, [0.5]),
        ):
            self.fails(cause, lambda: writer.write(block))
        for block in ["1", "2"], [None], [[1, 2], [3]], [[], []], [1j, 2]:
            with self.assertRaises((TypeError, ValueError)):
                writer.write(block)
        self.assertEqual((content_of(self.path), writer.tell()), (before, 1))
        writer.close()
        with hound.create(self.path, 8000, 1, 32, is_float=True) as writer:
            self.fails(Cause.OTHER_FORMAT, lambda: writer.write([1]))
            self.fails(Cause.TOO_WIDE, lambda: writer.write([0.5, 1e300]))
            writer.write([0.1, math.inf])
        self.assertEqual(hound.read(self.path), array.array("f", [0.1, math.inf]))

    def test_a_write_of_floats_that_is_interrupted(self):
        """At some of its bytecodes: the block isn't in the file then, and the next one is."""
        for at in itertools.count(1, 7):
            writer = hound.create(self.path, 8000, 1, 16)
            with warnings.catch_warnings(), Interruption(at) as interruption:
                warnings.simplefilter("ignore")
                try:
                    writer.write([0.5, 2.0])
                    written = True
                except Interrupted:
                    written = interruption.is_at_the_end()
            self.assertEqual(writer.clipped, written)
            writer.write([-0.5])
            writer.close()
            self.assertEqual(list(hound.read(self.path)), [16384, 32767] * written + [-16384], interruption.place)
            if interruption.place is None:
                break
        self.assertGreater(at, 500)

    def test_spellings_of_types(self):
        content = made_by_wave(SAMPLES)
        names = ("i2", "h"), ("<i4", "i"), ("f4", "f"), ("<f8", "d"), ("float", "d"), (float, "d"), ("=f4", "f")
        for name, code in names:
            self.assertEqual(hound.read(content, dtype=name).typecode, code)
        for name in ">f4", ">i2", "flot32", "int64", int, 4, ["f4"]:
            self.assertRaisesRegex(TypeError, "^dtype is ", lambda: hound.read(content, dtype=name))

    def test_numpy(self):
        try:
            import numpy
        except ImportError:
            self.skipTest("numpy isn't here")
        content = made_by_wave(SAMPLES)
        for dtype in numpy.float32, numpy.dtype("float64"), "f4", numpy.int32, numpy.dtype("<i2"):
            back = numpy.asarray(hound.read(content, dtype=dtype, always_2d=True))
            self.assertEqual((back.dtype, back.shape), (numpy.dtype(dtype), (5, 2)))
            self.assertEqual(hound.to_bytes(back, 8000, bits=16), content)
            self.assertEqual(hound.to_bytes(back[::-1][::-1], 8000, bits=16), content)
        for dtype in numpy.float32, numpy.dtype("float64"), numpy.int32, numpy.dtype("<i2"), numpy.int16:
            words = numpy.dtype(dtype).name
            for channels in 1, 2:
                some = hound.to_bytes(array.array("h", range(-6, 6)), 8000, channels)
                flat = list(hound.read(some, dtype=words))
                for source in some, io.BytesIO(some):
                    back = hound.read(source, dtype=dtype)
                    self.assertEqual((type(back), back.dtype), (numpy.ndarray, numpy.dtype(dtype)))
                    self.assertEqual(back.shape, (12,) if channels == 1 else (6, 2))
                    self.assertEqual(back.reshape(-1).tolist(), flat)
                    self.assertEqual(back.mean(), numpy.mean(flat))
                    back += 1  # It is writable, and its own.
                    self.assertEqual(hound.read(some, dtype=dtype, always_2d=True).shape, (12 // channels, channels))
                    empty = hound.read(some, 12 // channels, dtype=dtype)
                    self.assertEqual(empty.shape, (0,) if channels == 1 else (0, 2))
                    self.assertEqual(hound.read(some, dtype=words).__class__, array.array)
                with hound.open(io.BytesIO(some)) as reader:
                    blocks = list(reader.blocks(4, dtype))
                self.assertEqual([type(block) for block in blocks], [numpy.ndarray] * len(blocks))
                self.assertEqual(numpy.concatenate(blocks).reshape(-1).tolist(), flat)
                copy = hound.to_bytes(numpy.concatenate(blocks), like=hound.info(some))
                self.assertEqual(copy, some)
        self.assertIsInstance(hound.read(content, dtype=float), array.array)
        out = numpy.zeros(10, "float32")
        self.assertIsInstance(hound.read(content, dtype=numpy.float32, out=out), memoryview)
        for dtype in numpy.dtype(">f4"), numpy.dtype(">i2"), numpy.uint8, numpy.int64:
            self.assertRaisesRegex(TypeError, "^dtype is ", lambda: hound.read(content, dtype=dtype))
        flat = hound.to_bytes(array.array("h", [2, -3]), 8000, 2)
        self.assertEqual(hound.to_bytes(numpy.array([[2, -3]]), 8000), flat)


class Specs(Folder):
    def test_the_spec_travels(self):
        for bits, is_float, width, samples in (
            (24, False, 3, array.array("i", WIDE[24] + [5])),
            (24, False, 4, array.array("i", WIDE[24] + [5])),
            (8, False, 1, array.array("h", WIDE[8] + [5])),
            (32, True, 4, array.array("f", [0.5, -1, 2, 0.25, 0, 1])),
        ):
            with hound.create(self.path, 48000, 2, bits, is_float=is_float, bytes_per_sample=width) as writer:
                writer.write(samples)
            before = content_of(self.path)
            again, info = hound.read_with_info(self.path)
            self.assertEqual((again, info), (samples, (48000, 2, bits, is_float, 3, len(before) - 6 * width, width)))
            self.assertEqual((info.duration, hound.info(self.path)), (3 / 48000, info))
            os.unlink(self.path)
            self.assertEqual(hound.write(self.path, again, like=info), len(before))
            self.assertEqual(content_of(self.path), before)
            with hound.create(self.path, like=info) as writer:
                writer.write(again)
            self.assertEqual(content_of(self.path), before)
            floats = hound.read(self.path, dtype="float64")
            self.assertEqual(hound.to_bytes(floats, like=info), before)

    def test_what_is_given_goes_before_what_is_like(self):
        info = Info(48000, 2, 24, False, 9, 68, 4)
        for more, wanted in (
            ({}, (48000, 2, 24, False, 1, 68, 4)),
            ({"rate": 8000}, (8000, 2, 24, False, 1, 68, 4)),
            ({"bits": 16}, (48000, 2, 16, False, 1, 44, 2)),
            ({"bits": 32}, (48000, 2, 32, True, 1, 68, 4)),
            ({"channels": 1}, (48000, 1, 24, False, 2, 68, 4)),
        ):
            self.assertEqual(hound.info(hound.to_bytes([0.5, 0.25], like=info, **more)), wanted)
        self.assertEqual(hound.info(hound.to_bytes([0.5], 8000))[2:4], (32, True))
        self.assertEqual(hound.info(hound.to_bytes([5], 8000))[2:4], (16, False))
        floats = info._replace(is_float=True, bits_per_sample=32)
        self.fails(Cause.OTHER_FORMAT, lambda: hound.to_bytes([5, 6], like=floats))
        self.assertRaisesRegex(TypeError, "^rate is None", lambda: hound.to_bytes([1]))
        self.assertRaisesRegex(TypeError, "^like is ", lambda: hound.to_bytes([1], like="a.wav"))
        for bits, like in (32, floats), (24, info):  # The bits of the other file, which say no more than it does.
            file = io.BytesIO()
            hound.create(file, like=like, bits=bits).close()
            file.seek(0)
            self.assertEqual(hound.info(file)[2:4], like[2:4])
            self.assertEqual(hound.info(file).bytes_per_sample, 4)
        self.assertRaisesRegex(TypeError, "^bits is None", lambda: hound.create(self.path, 8000, 1))
        self.assertRaisesRegex(ValueError, "3 columns", lambda: hound.to_bytes([[1, 2, 3]], like=info))
        self.assertEqual(Info(0, 1, 8).duration, 0)

    def test_a_writer_says_what_it_has(self):
        with hound.create(self.path, 8000, 2, 24) as writer:
            for frames in range(3):
                self.assertEqual((writer.tell(), writer.info), (frames, (8000, 2, 24, False, frames, 68, 3)))
                writer.write([1, 2])
        with hound.append_to(self.path) as writer:
            self.assertEqual((writer.tell(), writer.info), (3, hound.info(self.path)))
            with unittest.mock.patch("os.pwrite", side_effect=OSError), self.assertRaises(OSError):
                writer.write([1, 2])
            self.assertEqual(writer.tell(), 3)
        self.assertEqual(writer.info, hound.info(self.path))

    def test_errors_name_the_file(self):
        self.leave(by_hand(bytes(8), 4))
        torn = self.path + "2"
        with open(torn, "wb") as file:
            file.write(by_hand(bytes(8), 16))
        named = io.BytesIO(b"RIFY" + bytes(60))
        named.name = "mine"
        for name, call in (
            (self.path, lambda: hound.append(self.path, [1])),
            (self.path, lambda: hound.append_to(self.path)),
            (self.path, lambda: hound.read(self.path, dtype="int8")),
            (torn, lambda: hound.read(torn, 7)),
            (__file__, lambda: hound.info(__file__)),
            (__file__, lambda: hound.open(__file__)),
            (__file__, lambda: hound.find_damage(__file__)),
            (__file__, lambda: hound.repair(__file__)),
            ("mine", lambda: hound.open(named)),
        ):
            with self.assertRaises(hound.HoundError) as caught:
                call()
            error = caught.exception
            self.assertEqual(error.filename, name)
            self.assertTrue(str(error).startswith(f"{name}: {error.cause.sentence}"), error)
        with self.assertRaises(hound.HoundError) as caught:
            hound.write(self.path, [40000], 8000)
        self.assertEqual(str(caught.exception), f"{self.path}: a value doesn't fit in 16 bits: bits=24 holds more")
        with hound.create(self.path, 8000, 1, 8) as writer, self.assertRaises(hound.HoundError) as caught:
            writer.write([300])
        self.assertEqual(caught.exception.filename, self.path)
        with self.assertRaises(hound.HoundError) as caught:
            hound.info(b"")
        self.assertEqual(str(caught.exception), "the bytes end before the data begin")

    def test_the_version(self):
        self.assertRegex(hound.__version__, r"^\d+\.\d+\.\d+$")


class Piecemeal(io.RawIOBase):
    """An object that writes and reads at most three bytes at a time."""

    def __init__(self, content=b""):
        self.inner = io.BytesIO(content)

    def readable(self):
        return True

    writable = seekable = readable

    def readinto(self, buffer):
        return self.inner.readinto(memoryview(buffer)[:3])

    def write(self, content):
        return self.inner.write(content[:3])

    def seek(self, *place):
        return self.inner.seek(*place)

    def truncate(self, size=None):
        return self.inner.truncate(size)


class Older:
    """An object without `seekable`, as a SpooledTemporaryFile of Python 3.10: its `seek` returns nothing."""

    def __init__(self, content=b""):
        self.inner = io.BytesIO(content)
        for name in "read", "write", "tell", "truncate":
            setattr(self, name, getattr(self.inner, name))

    def seek(self, *place):
        self.inner.seek(*place)


class Unseekable(io.BytesIO):
    """An object that says that it can be sought in."""

    def tell(self):
        raise io.UnsupportedOperation("tell")

    def seek(self, *place):
        raise io.UnsupportedOperation("seek")


class ReadOnly:
    """An object that has only a `read`."""

    def __init__(self, content):
        self.read = io.BytesIO(content).read


class Objects(Case):
    def test_an_object_that_is_opened_to_append(self):
        """All is written at its end, so only a whole file is, and where it is there."""
        whole, cut_off = made_by_wave(SAMPLES), made_by_wave(SAMPLES)[:40] + bytes(4) + made_by_wave(SAMPLES)[44:]
        with tempfile.TemporaryDirectory() as folder:
            path = os.path.join(folder, "a.wav")
            for content, place, call in (
                (b"", 0, lambda file: hound.create(file, 8000, 2, 16)),
                (whole, 0, lambda file: hound.create(file, 8000, 2, 16)),
                (whole, 0, lambda file: hound.write(file, SAMPLES, 8000, 2)),
                (whole, 0, hound.append_to),
                (whole, 0, lambda file: hound.append(file, SAMPLES)),
                (whole, 64, lambda file: hound.append(file, SAMPLES)),
                (cut_off, 0, hound.repair),
            ):
                for mode, buffering in ("a+b", -1), ("a+b", 0):
                    with open(path, "wb") as file:
                        file.write(content)
                    with open(path, mode, buffering) as file:
                        file.seek(place)
                        words = r'opened to append, .*: open it with "r\+b"'
                        self.assertRaisesRegex(io.UnsupportedOperation, words, lambda: call(file))
                        self.assertEqual(content_of(path), content)
            with open(path, "a+b") as file:
                file.seek(0)
                self.assertEqual(hound.find_damage(file), (hound.State.CUT_OFF, 5, 0))
            with open(path, "r+b") as file:
                hound.repair(file)
            with open(path, "a+b") as file:
                file.seek(0)
                self.assertEqual((hound.repair(file), content_of(path)), ((hound.State.WHOLE, 5, 0), whole))
            os.unlink(path)
            with open(path, "ab") as file:
                hound.write(file, SAMPLES, 8000, 2)
                hound.write(file, SAMPLES, 8000, 2)
            self.assertEqual(content_of(path), whole * 2)

    def test_a_descriptor_that_appends(self):
        """As that of standard output by >>, which fcntl knows."""
        with tempfile.TemporaryDirectory() as folder:
            path = os.path.join(folder, "a.wav")
            for content in made_by_wave(SAMPLES), b"":
                with open(path, "wb") as file:
                    file.write(content)
                with open(os.open(path, os.O_RDWR | os.O_APPEND), "r+b") as file:
                    self.assertRaises(io.UnsupportedOperation, lambda: hound.create(file, 8000, 2, 16))
                    if content:
                        self.assertRaises(io.UnsupportedOperation, lambda: hound.write(file, SAMPLES, 8000, 2))
                    else:
                        hound.write(file, SAMPLES, 8000, 2)
                self.assertEqual(content_of(path), made_by_wave(SAMPLES))

    def test_an_object_that_writes_elsewhere(self):
        class Appending(io.BytesIO):
            def write(self, content):
                self.seek(0, os.SEEK_END)
                return super().write(content)

        self.assertRaisesRegex(OSError, "elsewhere", lambda: hound.create(Appending(), 8000, 2, 16))
        file = Appending(made_by_wave(SAMPLES))
        self.assertRaisesRegex(OSError, "elsewhere", lambda: hound.write(file, SAMPLES, 8000))

    def test_an_object_without_seekable(self):
        file = Older()
        with hound.create(file, 8000, 2, 16) as writer:
            writer.write(SAMPLES[:4])
        file.inner.write(b"torn")
        file.inner.seek(0)
        for call in hound.find_damage, hound.repair:
            self.assertEqual(call(file), (hound.State.CUT_OFF, 3, 0))
        file.inner.truncate(52)
        hound.repair(file)
        self.assertEqual(hound.info(file).frames, 2)
        hound.append(file, SAMPLES[4:])
        file.inner.seek(0)
        self.assertEqual(file.inner.getvalue(), made_by_wave(SAMPLES))
        self.assertEqual(list(hound.open(file).blocks(4)), [SAMPLES[:8], SAMPLES[8:]])
        with tempfile.SpooledTemporaryFile() as file:
            hound.write(file, SAMPLES[:4], 8000, 2)
            file.seek(0)
            self.assertEqual(hound.append(file, SAMPLES[4:]), 64)
            file.seek(0)
            self.assertEqual(hound.read(file), SAMPLES)

    def test_an_object_that_can_t_be_sought_in(self):
        whole = made_by_wave(SAMPLES)
        for make in Unseekable, ReadOnly:
            self.assertEqual(list(hound.open(make(whole)).blocks(4)), [SAMPLES[:8], SAMPLES[8:]])
            self.assertEqual((hound.read(make(whole), 0, 2), hound.info(make(whole)).frames), (SAMPLES[:4], 5))
            for call in hound.find_damage, hound.repair, hound.append_to:
                self.assertRaisesRegex(io.UnsupportedOperation, "can't be sought in", lambda: call(make(whole)))
        file = Unseekable()
        hound.write(file, SAMPLES, 8000, 2)
        self.assertEqual(file.getvalue(), whole)

    def test_a_method_that_an_object_lacks(self):
        file = ReadOnly(made_by_wave(SAMPLES))
        for call in (lambda: hound.write(file, SAMPLES, 8000), lambda: hound.create(file, 8000, 1, 16)):
            self.assertRaisesRegex(TypeError, "the file is of type ReadOnly, .* with the method write$", call)
        file = Older(made_by_wave(SAMPLES))
        del file.truncate
        self.assertRaisesRegex(TypeError, "of type Older, .* truncate$", lambda: hound.append(file, SAMPLES))
        del file.read
        self.assertRaisesRegex(TypeError, "of type Older, .* read$", lambda: hound.open(file))

    def test_a_mapped_file(self):
        """It is read, but its length is fixed."""
        for content, state in (made_by_wave(SAMPLES), hound.State.WHOLE), (by_hand(bytes(8), 4), hound.State.CUT_OFF):
            with mmap.mmap(-1, len(content)) as file:
                file[:] = content
                self.assertEqual(hound.find_damage(file).state, state)
                with hound.open(file) as reader:
                    self.assertEqual(reader.read(), hound.read(content))
                file.seek(0)
                for call in hound.append_to, hound.repair if state == hound.State.CUT_OFF else hound.append_to:
                    self.assertRaisesRegex(TypeError, "of type mmap, .* truncate$", lambda: call(file))
                self.assertEqual(file[:], content)

    def test_what_read_and_write_return(self):
        class Counts(io.BytesIO):
            counts = lambda self, count: count

            def write(self, content):
                return self.counts(super().write(content))

        for wrong in None, -1, 0, 1000, "4":
            for call in (
                lambda: hound.create(file, 8000, 2, 16),
                lambda: hound.write(file, SAMPLES, 8000),
                lambda: hound.append(file, SAMPLES),
            ):
                file = Counts(made_by_wave(SAMPLES))
                file.counts = lambda count: wrong
                self.assertRaisesRegex(OSError, f"the method write of the file returned {wrong!r}, and not how", call)

        class Gives(io.BytesIO):
            def read(self, count=-1):
                return self.gives(super().read(count))

            read1 = read

        for gives, kind, words in (
            (lambda content: None, BlockingIOError, "no bytes yet"),
            (lambda content: content + bytes(99), OSError, "gave [0-9]+ bytes where at most [0-9]+ were asked for"),
        ):
            for call in hound.open, hound.find_damage, hound.repair, hound.append_to:
                file = Gives(made_by_wave(SAMPLES))
                file.gives = gives
                self.assertRaisesRegex(kind, words, lambda: call(file))
                self.assertEqual(file.getvalue(), made_by_wave(SAMPLES))

    def test_an_object_that_is_closed(self):
        file = io.BytesIO()
        writer = hound.create(file, 8000, 2, 16)
        writer.write(SAMPLES)
        file.close()
        for call in writer.flush, writer.close:
            self.assertRaisesRegex(ValueError, "closed", call)
        writer.close()
        for call in hound.open, hound.append_to, hound.repair, lambda file: hound.create(file, 8000, 2, 16):
            self.assertRaisesRegex(ValueError, "closed", lambda: call(file))

    def test_a_recording_to_an_object(self):
        for before in b"", b"before":
            for make in io.BytesIO, Piecemeal:
                file = make(before + bytes(100))
                file.seek(len(before))
                with hound.create(file, 8000, 2, 16) as writer:
                    for first in range(0, 10, 2):
                        writer.write(SAMPLES[first : first + 2])
                        writer.flush()
                    self.assertEqual(writer.tell(), 5)
                content = getattr(file, "inner", file).getvalue()
                self.assertEqual((content, file.tell()), (before + made_by_wave(SAMPLES), len(content)))
                self.assertRaises(ValueError, writer.flush)
                file.seek(len(before))
                self.assertEqual(hound.read(file), SAMPLES)
                file.seek(len(before))
                self.assertEqual(hound.append(file, SAMPLES), 44 + 40)
                file.seek(len(before))
                self.assertEqual(hound.info(file).frames, 10)

    def test_a_recording_that_is_interrupted(self):
        """At some of its bytecodes: a block is in the file only if its write returned."""
        for at in itertools.count(1, 5):
            file, accepted = io.BytesIO(), 0
            writer = hound.create(file, 8000, 2, 16)
            with Interruption(at) as interruption:
                try:
                    for first in 0, 4:
                        writer.write(SAMPLES[first : first + 4])
                        accepted += 4
                        writer.flush()
                    writer.close()
                except Interrupted:
                    pass
            if interruption.is_at_the_end() and accepted < 8 and writer.tell() * 2 > accepted:
                accepted += 4
            with contextlib.suppress(ValueError):  # It is closed.
                writer.write(SAMPLES[accepted : accepted + 2])
                accepted += 2
            writer.close()
            self.assertEqual(file.getvalue(), made_by_wave(SAMPLES[:accepted]), interruption.place)
            if interruption.place is None:
                break
        self.assertGreater(at, 1000)

    def test_a_block_that_fails(self):
        class Faulty(io.BytesIO):
            fails = False

            def write(self, content):
                if self.fails and len(content) > 4:
                    super().write(content[:3])
                    raise OSError("a fault")
                return super().write(content)

        file = Faulty()
        with hound.create(file, 8000, 2, 16) as writer:
            writer.write(SAMPLES[:4])
            file.fails = True
            self.assertRaises(OSError, lambda: writer.write(SAMPLES))
            file.fails = False
            writer.write(SAMPLES[4:])
        self.assertEqual(file.getvalue(), made_by_wave(SAMPLES))

    def test_an_object_is_written_to_and_repaired(self):
        file = io.BytesIO()
        self.assertEqual(hound.write(file, SAMPLES, 8000, 2), 64)
        self.assertEqual(file.getvalue(), made_by_wave(SAMPLES))
        file.truncate(62)
        file.seek(0)
        for call in hound.find_damage, hound.repair:
            self.assertEqual(call(file), (hound.State.CUT_OFF, 4, 2))
        self.assertEqual(hound.info(file).frames, 4)
        self.assertEqual(hound.read(file), SAMPLES[:8])
        inner, outer = os.pipe()
        with open(outer, "wb", buffering=0) as pipe, open(inner, "rb") as source:
            hound.write(pipe, SAMPLES, 8000, 2)
            self.assertEqual(hound.read(source), SAMPLES)
            for call in (
                lambda: hound.create(pipe, 8000, 2, 16),
                lambda: hound.append(source, SAMPLES),
                lambda: hound.repair(source),
            ):
                self.assertRaises(io.UnsupportedOperation, call)
        self.assertRaisesRegex(ValueError, "durable", lambda: hound.create(file, 8000, 2, 16, durable=True))


if __name__ == "__main__":
    unittest.main()
