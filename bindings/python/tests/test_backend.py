"""What `pip install` builds on this computer, and which command it calls on others."""
import os
import shutil
import subprocess
import sys
import sysconfig
import tarfile
import tempfile
import unittest
import zipfile
from unittest import mock

sys.path.insert(0, os.path.dirname(os.path.dirname(os.path.abspath(__file__))))
import backend  # noqa: E402


LACKING = backend.PROCESSOR["lacking"]


def on(name, machine, has_32_bits=False):
    return mock.patch("backend.system", lambda: (name, machine, has_32_bits))


def compilers(*names):
    """These compilers are here, and no others."""
    return mock.patch("shutil.which", lambda name: name if name in names else None)


class Backend(unittest.TestCase):
    def setUp(self):
        folder = tempfile.TemporaryDirectory()
        self.addCleanup(folder.cleanup)
        self.folder = folder.name
        environment = mock.patch.dict(os.environ)
        environment.start()
        self.addCleanup(environment.stop)
        for name in "CC", "HOUND_C_LIB", "HOUND_C_SOURCE":
            os.environ.pop(name, None)

    def carried(self):
        """The file of bindings/lib that is taken, without a compiler."""
        with compilers():
            path, carried = backend.shared_library(self.folder), backend.carried_library()
        with open(path, "rb") as made, open(carried, "rb") as file:
            self.assertEqual(made.read(), file.read())
            return os.path.relpath(file.name, os.path.join(backend.BINDINGS, "lib"))

    def command(self, by_source=False):
        """The command that would be called."""
        source = mock.patch.dict(os.environ, {"HOUND_C_SOURCE": "1"} if by_source else {})
        with mock.patch("subprocess.run") as run, source:
            library = backend.shared_library(self.folder)
        words = run.call_args[0][0]
        self.assertIn(library, words[words.index("-o") + 1] if "-o" in words else " ".join(words))
        return words, os.path.basename(library)

    def test_the_compiler_is_the_first_that_is_here(self):
        for name, here, wanted in (
            ("Linux", ("gcc", "cc", "clang"), "cc"),
            ("Linux", ("clang", "gcc"), "gcc"),
            ("Darwin", ("clang",), "clang"),
            ("Windows", ("clang", "cl", "gcc"), "gcc"),
            ("Windows", ("clang", "cl"), "cl"),
        ):
            with on(name, "riscv64"), compilers(*here):
                self.assertEqual(self.command()[0][0], wanted)
        os.environ["CC"] = "mine -g"
        with on("Linux", "riscv64"), compilers("cc", "mine"):
            self.assertEqual(self.command()[0][:2], ["mine", "-g"])

    def test_no_compiler_is_here(self):
        for named, name, sought in (
            ("", "Linux", "cc, gcc, clang"),
            ("", "Windows", "cc, gcc, cl"),
            ("mine -g", "Linux", "mine -g"),
        ):
            os.environ["CC"] = named
            with on(name, "riscv64"), compilers(), self.assertRaisesRegex(SystemExit, rf"\({sought}\): set CC to one"):
                backend.shared_library(self.folder)

    def test_the_library_is_carried_or_compiled(self):
        for machine, has_32_bits, is_carried in (
            ("x86_64", False, True),
            ("aarch64", False, True),
            ("x86_64", True, False),
            ("aarch64", True, False),
            ("riscv64", False, False),
        ):
            with on("Linux", machine, has_32_bits), compilers("cc"):
                if is_carried:
                    self.assertEqual(self.carried(), f"{machine}-linux/libhound_c.so")
                words, library = self.command(is_carried)
            self.assertEqual(library, "libhound_c.so")
            self.assertTrue(words[-3].endswith("hound_c.c"))
            self.assertEqual({"-m32", "-msse2", "-mfpmath=sse"} <= set(words), machine == "x86_64" and has_32_bits)

    def test_a_processor_that_can_t_run_the_carried_library(self):
        """Another one is compiled, and one that was built elsewhere is an error that says so."""
        flags = "flags : fpu cx16 lahf_lm pni popcnt sse4_1 sse4_2 ssse3 avx"
        for gone in ("", *backend.PROCESSOR["X86_64_V2"]):
            said = os.path.join(self.folder, "cpuinfo")
            with open(said, "w") as file:
                file.write(f"processor : 0\n{flags.replace(f' {gone} ', ' ')}\n")
            lacking = lambda needed: LACKING(needed, said)
            with on("Linux", "x86_64"), mock.patch.dict(backend.PROCESSOR, lacking=lacking), compilers("cc"):
                self.assertEqual(backend.carried_library() is None, bool(gone))
                if gone:
                    self.assertTrue(self.command()[0][-3].endswith("hound_c.c"))
                    self.assertNotIn("manylinux", backend.wheel_tag())
                else:
                    self.carried()
            with on("Linux", "aarch64"), mock.patch.dict(backend.PROCESSOR, lacking=lacking), compilers():
                self.carried()
        self.assertEqual(LACKING(["none_such"], os.path.join(self.folder, "none")), [])

    def test_a_library_that_was_built_for_another_processor(self):
        library = backend.shared_library(self.folder)
        program = "import hound_bindings as hound; print(len(hound.to_bytes([1], 8000)))"
        env = {**os.environ, "HOUND_C_LIBRARY": library, "PYTHONPATH": backend.HERE}
        for needs, status in (None, 0), ("", 0), ("none_such", 1):
            if needs is not None:
                with open(library + ".needs", "w") as file:
                    file.write(needs)
            ran = subprocess.run([sys.executable, "-c", program], env=env, capture_output=True)
            lines = ran.stderr.decode().splitlines()
            self.assertEqual((ran.returncode, ran.stdout), (status, b"" if status else b"46\n"), lines)
        with open("/proc/cpuinfo") as file:
            has_flags = "\nflags" in file.read()
        if has_flags:
            said = f"ImportError: {library} was built for another processor: this one lacks none_such. Install"
            self.assertTrue(lines[-1].startswith(said), lines)

    def test_a_named_library_is_linked(self):
        os.environ["HOUND_C_LIB"] = self.folder
        open(os.path.join(self.folder, "libhound_c.a"), "w").close()
        with on("Linux", "x86_64"), compilers("cc"):
            words, _ = self.command()
            self.assertIn(os.path.join(self.folder, "libhound_c.a"), words)
            self.assertEqual(backend.wheel_tag(), "py3-none-" + sysconfig.get_platform().replace("-", "_"))

    @unittest.skipUnless(shutil.which("cc") and shutil.which("ar"), "no C compiler is here")
    def test_a_named_library_of_another_version(self):
        words = ["cc", "-c", "-fPIC", "-x", "c", "-", "-o", os.path.join(self.folder, "one.o")]
        subprocess.run(words, input=b"int hound_info(void) { return 0; }", check=True)
        subprocess.run(["ar", "rcs", "libhound_c.a", "one.o"], cwd=self.folder, check=True)
        os.environ["HOUND_C_LIB"] = self.folder
        words = f"isn't the library of hound_bindings {backend.VERSION}: it lacks hound_version"
        self.assertRaisesRegex(SystemExit, words, lambda: backend.build_wheel(self.folder))
        self.assertFalse(any(name.endswith(".whl") for name in os.listdir(self.folder)))

    def test_windows_and_macos(self):
        with on("Windows", "amd64"), compilers("cl"):
            words, library = self.command()
        self.assertEqual(library, "hound_c.dll")
        exports = [word for word in words if word.startswith("/EXPORT:hound_")]
        self.assertEqual((len(set(exports)), words[-len(exports) - 1]), (57, "/link"))
        with on("Windows", "amd64"), compilers("gcc"):
            self.assertEqual(self.command()[1], "hound_c.dll")
        with on("Darwin", "arm64"):
            words, library = self.command()
        self.assertEqual((words[words.index("-arch") + 1], library), ("arm64", "libhound_c.so"))

    def test_a_wheel(self):
        """It has the modules, the command and its page for `man`."""
        with zipfile.ZipFile(os.path.join(self.folder, backend.build_wheel(self.folder))) as wheel:
            names, info = wheel.namelist(), f"hound_bindings-{backend.VERSION}.dist-info"
            points = wheel.read(f"{info}/entry_points.txt").decode()
            page = wheel.read(f"hound_bindings-{backend.VERSION}.data/data/share/man/man1/hound-wav.1").decode()
            names_of_libraries = [name for name in names if "libhound_c" in name]
            for name in names_of_libraries[1:]:
                self.assertEqual(wheel.read(name).decode().split(), list(backend.PROCESSOR["X86_64_V2"]))
        if backend.system() == ("Linux", "x86_64", False):
            wanted = [f"hound_bindings/libhound_c.so{end}" for end in ("", ".needs")]
            self.assertEqual(names_of_libraries, wanted)
        modules = [name for name in os.listdir(os.path.join(backend.HERE, "hound_bindings")) if name.endswith(".py")]
        self.assertLessEqual({f"hound_bindings/{name}" for name in [*modules, "py.typed"]}, set(names))
        commands = ("info", "repair", "cat", "convert", "record")
        self.assertLessEqual({f'.SH "hound-wav {name}"' for name in commands}, set(page.split("\n")))
        self.assertIn("\n  \\-\\-dry\\-run ", page)
        self.assertEqual(points, "[console_scripts]\nhound-wav = hound_bindings.command:main\n")

    def test_an_sdist(self):
        """It has all that a wheel is made of: the wheel of it is that of this folder, byte for byte."""
        name = backend.build_sdist(self.folder)
        self.assertEqual(name, f"hound_bindings-{backend.VERSION}.tar.gz")
        with tarfile.open(os.path.join(self.folder, name)) as archive:
            archive.extractall(self.folder)
        made = os.path.join(self.folder, "made")
        os.mkdir(made)
        command = [sys.executable, "-B", "-c", "import backend; backend.build_wheel('../made')"]
        subprocess.run(command, cwd=os.path.join(self.folder, name[: -len(".tar.gz")]), check=True)
        wheel = backend.build_wheel(self.folder)
        self.assertEqual(backend.read(os.path.join(made, wheel)), backend.read(os.path.join(self.folder, wheel)))

    def test_tags(self):
        for system, platform, version, tag in (
            (("Linux", "x86_64", False), "linux-x86_64", "", "manylinux1_x86_64.musllinux_1_1_x86_64"),
            (("Linux", "aarch64", False), "linux-aarch64", "", "manylinux2014_aarch64.musllinux_1_1_aarch64"),
            (("Linux", "riscv64", False), "linux-riscv64", "", "linux_riscv64"),
            (("Linux", "x86_64", True), "linux-x86_64", "", "linux_i686"),
            (("Linux", "i686", True), "linux-i686", "", "linux_i686"),
            (("Linux", "aarch64", True), "linux-aarch64", "", "linux_armv7l"),
            (("Windows", "amd64", False), "win-amd64", "", "win_amd64"),
            (("Windows", "amd64", True), "win32", "", "win32"),
            (("Darwin", "arm64", False), "macosx-10.9-universal2", "14.5.1", "macosx_14_0_arm64"),
            (("Darwin", "x86_64", False), "macosx-10.9-universal2", "10.15.7", "macosx_10_15_x86_64"),
            (("Darwin", "x86_64", False), "macosx-11-x86_64", "11", "macosx_11_0_x86_64"),
        ):
            mac = mock.patch("platform.mac_ver", return_value=(version, (), ""))
            with on(*system), mac, mock.patch("sysconfig.get_platform", return_value=platform):
                self.assertEqual(backend.wheel_tag(), f"py3-none-{tag}")

    def test_32_bits_on_a_computer_of_64(self):
        try:
            with on("Linux", "x86_64", True):
                library = backend.shared_library(self.folder)
        except subprocess.CalledProcessError:
            self.skipTest("no compiler for i386 is here")
        with open(library, "rb") as file:
            head = file.read(20)
        self.assertEqual((head[:5], head[18:]), (b"\x7fELF\1", b"\3\0"))  # of 32 bits, for i386


if __name__ == "__main__":
    unittest.main()
