"""Builds the wheel and the sdist of this folder with Python alone, so that `pip install` needs no network. The wheel
has the shared library that ../lib has for this processor. Where ../lib has none, as for an x86-64 that isn't
x86-64-v2, or with HOUND_C_SOURCE in the environment, a C compiler makes one of ../c/hound_c.c, and with HOUND_C_LIB of
the static library in that folder. The pages that the command serves are those of ../js/page. An sdist has lib, c and
js in this folder."""
import base64
import gzip
import hashlib
import io
import os
import platform
import re
import runpy
import shutil
import struct
import subprocess
import sys
import sysconfig
import tarfile
import tempfile
import zipfile

HERE = os.path.dirname(os.path.abspath(__file__))
IS_SDIST = os.path.exists(os.path.join(HERE, "PKG-INFO"))
BINDINGS = HERE if IS_SDIST else os.path.dirname(HERE)
LICENSE = os.path.join(HERE if IS_SDIST else os.path.dirname(BINDINGS), "LICENSE")
PAGES, PAGE_NAMES = os.path.join(BINDINGS, "js", "page"), ("hound.html", "record.html")
HEADER, SOURCE = os.path.join(BINDINGS, "c", "hound.h"), os.path.join(BINDINGS, "c", "hound_c.c")


def read(path):
    with open(path, "rb") as file:
        return file.read()


def project():
    """What pyproject.toml says of the project: texts, and lists of texts. Python has no reader of TOML before 3.11."""
    text = read(os.path.join(HERE, "pyproject.toml")).decode().partition("[project]\n")[2].partition("\n[")[0]
    values = re.findall(r'^([\w-]+) = (?:{ text = )?("[^"]*"|\[[^]]*\])', text, flags=re.M)
    found = {key: re.findall(r'"([^"]*)"', value) for key, value in values}
    return {key: texts if key in ("keywords", "classifiers") else texts[0] for key, texts in found.items()}


PROJECT = project()
NAME, VERSION = PROJECT["name"], PROJECT["version"]
HEADERS = [
    ("Metadata-Version", "2.1"),
    ("Name", NAME),
    ("Version", VERSION),
    ("Summary", PROJECT["description"]),
    ("Keywords", ",".join(PROJECT["keywords"])),
    ("License", PROJECT["license"]),
    *(("Classifier", classifier) for classifier in PROJECT["classifiers"]),
    ("Requires-Python", PROJECT["requires-python"]),
    ("Description-Content-Type", "text/markdown"),
]
README = read(os.path.join(HERE, "README.md"))
METADATA = "".join(f"{name}: {value}\n" for name, value in HEADERS).encode() + b"\n" + README
PROCESSOR = runpy.run_path(os.path.join(HERE, NAME, "processor.py"))
# What the libraries of ../lib need that not each such processor has.
NEEDS = {"x86_64": PROCESSOR["X86_64_V2"]}


def system():
    """The system, its processor, and whether this Python has 32 bits, as on some computers of 64 bits."""
    return platform.system(), platform.machine().lower(), struct.calcsize("P") == 4


def compiler():
    """The words that begin a call of the C compiler: those of CC, or the first compiler that is here."""
    # On Windows clang may be the one that exports nothing unless it is marked.
    named, usual = os.environ.get("CC"), ["cc", "gcc", "cl" if system()[0] == "Windows" else "clang"]
    for words in [named] if named else usual:
        if shutil.which(words.split()[0]):
            return words.split()
    raise SystemExit(f"no C compiler is there ({named or ', '.join(usual)}): set CC to one")


def is_msvc(words):
    """Whether a compiler takes the options of cl."""
    return os.path.basename(words[0]).lower() in ("cl", "cl.exe", "clang-cl", "clang-cl.exe")


def compiling(words, library):
    """The command that compiles ../c/hound_c.c."""
    name, machine, has_32_bits = system()
    if is_msvc(words):
        with open(HEADER) as file:
            exports = re.findall(r"^(?:void|int32_t|int64_t) (hound_\w+)\(", file.read(), flags=re.M)
        return [
            *words, "/nologo", "/O2", "/LD", SOURCE, f"/Fo{library}.obj", f"/Fe{library}",
            "/link", *(f"/EXPORT:{export}" for export in exports),
        ]  # fmt: skip
    options = ["-shared", "-std=c99", "-O3"]
    options += ["-static-libgcc"] if name == "Windows" else ["-fPIC"]
    if name == "Darwin":
        options += ["-arch", machine]
    if has_32_bits and re.fullmatch("x86(_64)?|amd64|i[3-6]86", machine):
        options += ["-m32", "-msse2", "-mfpmath=sse"]
    return [*words, *options, SOURCE, "-o", library]


def carried_library():
    """The shared library that ../lib has for this processor, if that is to be taken. It needs no other library, so it
    is for every Linux."""
    name, machine, has_32_bits = system()
    library = os.path.join(BINDINGS, "lib", f"{machine}-{name.lower()}", "libhound_c.so")
    is_other = has_32_bits or os.environ.get("HOUND_C_SOURCE") or os.environ.get("HOUND_C_LIB")
    is_there = os.path.exists(library) and not is_other
    return library if is_there and not PROCESSOR["lacking"](NEEDS.get(machine, ())) else None


def shared_library(folder):
    """Makes the shared library in a folder, and returns its path."""
    library = os.path.join(folder, "hound_c.dll" if system()[0] == "Windows" else "libhound_c.so")
    named, carried = os.environ.get("HOUND_C_LIB"), carried_library()
    if carried:
        return shutil.copyfile(carried, library)
    if named:
        archive = os.path.join(named, "libhound_c.a")
        if not os.path.exists(archive):
            raise SystemExit(f"{archive} isn't there: HOUND_C_LIB has to name the folder that holds it")
        whole = ["-Wl,--whole-archive", archive, "-Wl,--no-whole-archive"]
        command = [*compiler(), "-shared", *whole, "-o", library]
    else:
        command = compiling(compiler(), library)
    subprocess.run(command, check=True)
    return library


def wheel_tag():
    """What the wheel is for: this system, and the processor that its library is for."""
    name, machine, has_32_bits = system()
    if carried_library():  # The oldest systems that these tags have.
        older = {"x86_64": "manylinux1_x86_64", "aarch64": "manylinux2014_aarch64"}[machine]
        return f"py3-none-{older}.musllinux_1_1_{machine}"
    if name == "Darwin":  # Python may have the code for two processors, and be for older systems.
        major, minor = (platform.mac_ver()[0].split(".") + ["0"])[:2]
        return f"py3-none-macosx_{major}_{minor if major == '10' else '0'}_{machine}"
    tag = "py3-none-" + sysconfig.get_platform().replace("-", "_").replace(".", "_")
    if name == "Linux" and has_32_bits:
        return tag.replace("x86_64", "i686").replace("aarch64", "armv7l")
    return tag


def manual(library):
    """The page for `man`, over this library: what --help prints of the command and of its commands."""
    environment = {**os.environ, "HOUND_C_LIBRARY": library, "PYTHONPATH": HERE, "COLUMNS": "74"}

    def printed(*words):
        command = [sys.executable, "-B", "-m", NAME, *words, "--help"]
        run = subprocess.run(command, env=environment, capture_output=True, universal_newlines=True)
        if run.returncode:  # The last line says why, as that it isn't the library of this version.
            raise SystemExit(run.stderr.rstrip().split("\n")[-1])
        return run.stdout

    parts = {"hound-wav": printed()}
    parts.update((f"hound-wav {name}", printed(name)) for name in re.findall(r"(?m)^    (\w+)  ", parts["hound-wav"]))
    name = "hound-wav \\- reads, repairs, converts and records WAV files"
    page = f'.TH HOUND-WAV 1 "" "{NAME} {VERSION}"\n.SH NAME\n{name}\n'
    for title, text in parts.items():
        text = text.replace("\\", "\\e").replace("-", "\\-")
        page += f'.SH "{title}"\n.nf\n' + re.sub("(?m)^(?=[.'])", r"\\&", text) + ".fi\n"
    return page.encode()


def package_files():
    """The files of the package, by their names in a wheel or an sdist, without a library and the pages."""
    names = sorted(name for name in os.listdir(os.path.join(HERE, NAME)) if name.endswith((".py", ".typed")))
    return {f"{NAME}/{name}": read(os.path.join(HERE, NAME, name)) for name in names}


def build_wheel(wheel_directory, config_settings=None, metadata_directory=None):
    """Writes the wheel, and returns its file name."""
    tag, files = wheel_tag(), package_files()
    for name in PAGE_NAMES:
        files[f"{NAME}/{name}"] = read(os.path.join(PAGES, name))
    with tempfile.TemporaryDirectory() as folder:
        library = shared_library(folder)
        files[f"{NAME}/{os.path.basename(library)}"] = read(library)
        if carried_library() and system()[1] in NEEDS:
            files[f"{NAME}/{os.path.basename(library)}.needs"] = " ".join(NEEDS[system()[1]]).encode()
        if system()[0] != "Windows":
            files[f"{NAME}-{VERSION}.data/data/share/man/man1/hound-wav.1"] = manual(library)
    info = f"{NAME}-{VERSION}.dist-info"
    tags = "".join(f"Tag: py3-none-{one}\n" for one in tag.split("-")[2].split("."))
    files[f"{info}/LICENSE"] = read(LICENSE)
    files[f"{info}/METADATA"] = METADATA
    files[f"{info}/entry_points.txt"] = f"[console_scripts]\nhound-wav = {NAME}.command:main\n".encode()
    files[f"{info}/WHEEL"] = f"Wheel-Version: 1.0\nGenerator: {NAME}\nRoot-Is-Purelib: false\n{tags}".encode()
    record = ""
    for name, content in files.items():
        digest = base64.urlsafe_b64encode(hashlib.sha256(content).digest()).rstrip(b"=").decode()
        record += f"{name},sha256={digest},{len(content)}\n"
    files[f"{info}/RECORD"] = f"{record}{info}/RECORD,,\n".encode()
    wheel = f"{NAME}-{VERSION}-{tag}.whl"
    with zipfile.ZipFile(os.path.join(wheel_directory, wheel), "w", zipfile.ZIP_DEFLATED) as archive:
        for name, content in files.items():
            entry = zipfile.ZipInfo(name)  # with a fixed time: the same files make the same wheel
            entry.external_attr = 0o644 << 16
            archive.writestr(entry, content, zipfile.ZIP_DEFLATED)
    return wheel


def build_sdist(sdist_directory, config_settings=None):
    """Writes the sdist, and returns its file name. It has this folder, the license, and what else a wheel is made
    of: the C file, the libraries for Linux and the pages."""
    files = {name: read(os.path.join(HERE, name)) for name in ("backend.py", "pyproject.toml", "README.md")}
    files.update(package_files())
    files.update({"PKG-INFO": METADATA, "LICENSE": read(LICENSE)})
    files.update({f"c/{name}": read(os.path.join(BINDINGS, "c", name)) for name in ("hound.h", "hound_c.c")})
    files.update({f"js/page/{name}": read(os.path.join(PAGES, name)) for name in PAGE_NAMES})
    for folder, _, names in os.walk(os.path.join(BINDINGS, "lib")):
        for path in (os.path.join(folder, name) for name in names if not name.endswith(".wasm")):
            files[os.path.relpath(path, BINDINGS).replace(os.sep, "/")] = read(path)
    content, sdist = io.BytesIO(), f"{NAME}-{VERSION}"
    with tarfile.open(fileobj=content, mode="w", format=tarfile.USTAR_FORMAT) as archive:
        for name in sorted(files):
            entry = tarfile.TarInfo(f"{sdist}/{name}")  # With a fixed time: the same files make the same sdist.
            entry.size, entry.mode = len(files[name]), 0o644
            archive.addfile(entry, io.BytesIO(files[name]))
    with open(os.path.join(sdist_directory, f"{sdist}.tar.gz"), "wb") as file:
        file.write(gzip.compress(content.getvalue(), mtime=0))
    return f"{sdist}.tar.gz"
