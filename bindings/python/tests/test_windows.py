"""The tests of the package with no more of the system's modules than Python has of them on Windows, where no folder can
be opened, no open file be replaced, and no file be synced that is only read."""
import contextlib
import ctypes  # noqa: F401
import errno
import fcntl
import inspect
import mmap
import os
import re
import shutil  # noqa: F401
import sys
import tempfile
import types
import unittest
import unittest.mock

if "hound_bindings" in sys.modules:
    raise unittest.SkipTest("the package was imported with all that this system has: run this file alone")

# What the package may use of these modules.
NAMES = {
    os: (
        "O_CREAT O_EXCL O_RDONLY O_RDWR O_WRONLY PathLike SEEK_END SEEK_SET W_OK X_OK access chmod close curdir environ"
        " fsdecode fspath fstat fsync ftruncate getpid listdir lseek lstat name path read stat strerror"
        " supports_effective_ids urandom write"
    ),
    mmap: "mmap",
}
# What tests use of this system that Windows hasn't, or that this file has in another way.
UNIX = "pread|_read_piece|pwrite|Calls|fcntl|fork|killed|Faults|mkfifo|set_blocking|subprocess|_folder_|synced|may_not_replace"
O_BINARY = 1 << 40


class OnWindows(types.ModuleType):
    """What Windows has of a module of this system."""

    def __init__(self, module, **others):
        super().__init__(module.__name__)
        self.module, self.names = module, NAMES[module].split()
        vars(self).update(others)

    def __getattr__(self, name):
        if name not in self.names:
            raise AttributeError(f"{self.__name__}.{name} isn't there on Windows")
        return getattr(self.module, name)


def denied(path):
    return PermissionError(errno.EACCES, os.strerror(errno.EACCES), path)


def open_file(path, flags, mode=0o777):
    if os.path.isdir(path):
        raise denied(path)
    if not flags & O_BINARY:
        raise AssertionError(f"{path} isn't opened as binary")
    return os.open(path, flags & ~O_BINARY, mode)


def check_not_open(path):
    for descriptor in os.listdir("/proc/self/fd"):
        if os.path.realpath(f"/proc/self/fd/{descriptor}") == os.path.realpath(path):
            raise denied(path)


def replace(old, new):
    check_not_open(new)
    os.replace(old, new)


def unlink(path):
    check_not_open(path)
    os.unlink(path)


def check_place(reserved, low, high, overlapped):
    """What is locked is the byte of hound_file.h, by an OVERLAPPED of 32 bytes."""
    place = overlapped._obj
    asked = reserved, low, high, place.place, type(place).place.offset, ctypes.sizeof(place)
    if asked != (0, 1, 0, 1 << 62, 16, 32):
        raise AssertionError(f"another place: {asked}")


def lock_file(handle, flags, *place):
    """What LockFileEx does at once: it locks for one handle, or for all that only look."""
    check_place(*place)
    with contextlib.suppress(OSError):
        fcntl.flock(handle - HANDLE, {1: fcntl.LOCK_SH, 3: fcntl.LOCK_EX}[flags] | fcntl.LOCK_NB)
        return 1
    return 0


def unlock_file(handle, *place):
    check_place(*place)
    fcntl.flock(handle - HANDLE, fcntl.LOCK_UN)
    return 1


HANDLE, LOCK_VIOLATION = 1 << 40, 33
LOCKS = {"LockFileEx": lock_file, "UnlockFileEx": unlock_file}
ctypes.WinDLL = lambda name, use_last_error: types.SimpleNamespace(**{"kernel32": LOCKS}[name])
ctypes.get_last_error = lambda: LOCK_VIOLATION


def imported():
    """Imports the package as on Windows."""
    windows = {"fcntl": None, "mmap": OnWindows(mmap)}
    windows["msvcrt"] = types.SimpleNamespace(get_osfhandle=lambda descriptor: HANDLE + descriptor)
    windows["os"] = OnWindows(os, O_BINARY=O_BINARY, open=open_file, replace=replace, unlink=unlink)
    here = {name: sys.modules.get(name) for name in windows}
    sys.modules.update(windows)
    try:
        import hound_bindings
    finally:
        sys.modules.update(here)
    return hound_bindings


hound = imported()
import test_files  # noqa: E402
import test_floats  # noqa: E402
import test_following  # noqa: E402
import test_resuming  # noqa: E402
import test_streams  # noqa: E402
from test_streams import SAMPLES, content_of  # noqa: E402
from wav import made_by_wave  # noqa: E402


class Windows(test_streams.Case):
    def setUp(self):
        folder = tempfile.TemporaryDirectory()
        self.addCleanup(folder.cleanup)
        self.path = os.path.join(folder.name, "a.wav")

    def test_the_package_has_what_windows_has(self):
        self.assertIsNone(hound.disk.fcntl)
        self.assertRaises(AttributeError, lambda: hound.disk.os.pread)
        self.assertRaises(PermissionError, lambda: hound.disk.os.open(os.path.dirname(self.path), os.O_RDONLY))

    def test_a_file_is_locked(self):
        calls = (
            hound.append_to,
            hound.repair,
            lambda path: hound.create(path, 8000, 2, 16),
            lambda path: hound.write(path, SAMPLES, 8000),
        )
        for begin in calls[2], calls[0]:
            with begin(self.path) as writer:
                writer.write(SAMPLES)
                for call in calls:
                    words = "another program records to, appends to or repairs this file"
                    with self.assertRaisesRegex(BlockingIOError, words):
                        call(self.path)
        self.assertEqual(content_of(self.path), made_by_wave(SAMPLES * 2))

    def test_a_disk_without_locks(self):
        with unittest.mock.patch("ctypes.get_last_error", lambda: 1), hound.create(self.path, 8000, 2, 16) as writer:
            hound.repair(self.path)
            writer.write(SAMPLES)

    def test_durable_files(self):
        """Only their folders aren't synced."""
        one, synced = SAMPLES, []

        def sync(descriptor):
            self.assertNotEqual(fcntl.fcntl(descriptor, fcntl.F_GETFL) & os.O_ACCMODE, os.O_RDONLY)
            synced.append(os.fstat(descriptor).st_size)

        patch = unittest.mock.patch("os.fsync", sync)
        patch.start()
        self.addCleanup(patch.stop)
        for _ in range(2):  # The second file replaces the first one.
            hound.write(self.path, one[:2], 8000, 2, durable=True)
        hound.append(self.path, one[2:6], durable=True)
        with hound.append_to(self.path, durable=True) as writer:
            writer.write(one[6:])
        self.assertEqual(synced, [48, 48, 48, 56, 56, 56, 64, 64])
        self.assertEqual(content_of(self.path), made_by_wave(one))
        with hound.create(self.path, 8000, 2, 16, durable=True) as writer:
            writer.write(one)
            self.assertRaises(BlockingIOError, lambda: hound.write(self.path, one, 8000))
        self.assertEqual(content_of(self.path), made_by_wave(one))
        self.assertEqual(os.listdir(os.path.dirname(self.path)), ["a.wav"])

    def test_short_writes_continue(self):
        write = os.write
        with unittest.mock.patch("os.write", lambda file, content: write(file, content[:3])):
            hound.write(self.path, SAMPLES[:4], 8000, 2)
            with hound.append_to(self.path) as writer:
                writer.write(SAMPLES[4:])
        self.assertEqual(content_of(self.path), made_by_wave(SAMPLES))

    def test_writes_that_fail(self):
        """An append leaves the file as it was, and a recording has the other blocks."""
        write, made = os.write, []

        def put(file, content):
            made.append(content)
            if len(made) == failing:
                raise OSError(errno.ENOSPC, "a fault")
            return write(file, content)

        for failing in 1, 2, 3:
            hound.write(self.path, SAMPLES[:4], 8000, 2)
            accepted = SAMPLES[:4]
            with unittest.mock.patch("os.write", put), hound.append_to(self.path) as writer:
                made.clear()
                for first in 4, 6, 8:
                    with contextlib.suppress(OSError):
                        writer.write(SAMPLES[first : first + 2])
                        accepted += SAMPLES[first : first + 2]
            self.assertEqual(len(accepted), 8)
            self.assertEqual(content_of(self.path), made_by_wave(accepted))
            with unittest.mock.patch("os.write", put):
                made.clear()
                if failing < 3:
                    self.assertRaises(OSError, lambda: hound.append(self.path, SAMPLES))
                    self.assertEqual(content_of(self.path), made_by_wave(accepted))


def load_tests(loader, tests, _):
    # The tests of test_streams.py are interrupted at each bytecode.
    test_streams.Recordings.step = test_streams.Parts.step = 7
    cases = test_files.Files, test_streams.Streams, test_streams.Recordings, test_streams.Parts, test_resuming.Resuming
    cases = *cases, test_following.Following
    for case in (*cases, test_floats.Floats, test_floats.Specs, test_floats.Objects):
        for name in loader.getTestCaseNames(case):
            if not re.search(UNIX, inspect.getsource(getattr(case, name))):
                tests.addTest(case(name))
    return tests


if __name__ == "__main__":
    unittest.main()
