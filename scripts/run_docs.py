#!/usr/bin/env python3
"""Runs each program and each command of README.md, docs/ and the packages' pages as it is printed there, as a reader
does who copies it: by the packages as they are installed from a fresh clone, and without network where unshare is
allowed.

usage: scripts/run_docs.py [PAGE..]     (of these pages alone)

Each section of a page is an empty folder. A program finds there what the commands of the section left, and no file of
another program; CLONE in a command is the clone. A line that prints something may end in a comment with it, which is
compared. HTML comments before a block say what isn't on the page:

    <!-- first: COMMANDS -->       run in the same shell before a command, or in the folder before a program
    <!-- with: WORDS = OTHERS -->  what is put for some words, such as a shorter time
    <!-- not run: WHY -->          this block isn't run
    <!-- no block is run: WHY -->  nor is any other one of the page

It writes what each block that fails says, how many of a page aren't run, and last 'N passed, M failed, K skipped'."""
import collections
import concurrent.futures
import os
import re
import shutil
import signal
import subprocess
import sys
import tempfile

TOP = os.path.dirname(os.path.dirname(os.path.abspath(__file__)))
SECONDS = 300  # No block may take longer.
PROGRAMS = {"python": "py", "js": "mjs", "c": "c", "rust": "rs"}
LANGUAGES = {*PROGRAMS, "sh", "toml"}
PRINTS = r"^ *(?:print|println!|console\.log)\(.*\);? +(?:#|//) (.*)$"

# What a take.wav has that some programs leave, by other means than the library: those of README.md a stereo file of 16
# bits at 48 kHz with the samples 2, -3, 5, -7; the one with bext a chunk of 602 bytes and these samples in 24 bits.
FOUR_SAMPLES = (
    b"RIFF\54\0\0\0WAVEfmt \20\0\0\0\1\0\2\0\200\273\0\0\0\356\2\0\4\0\20\0data\10\0\0\0\2\0\375\377\5\0\371\377"
)
WIDE_SAMPLES = b"data\14\0\0\0\2\0\0\375\377\377\5\0\0\371\377\377"
LEAVES = [
    ("README.md", "", re.escape(FOUR_SAMPLES)),
    ("docs/BINDINGS.md", "bext(", b"RIFF.{4}WAVE.*bext\x5a\2\0\0Scene 12\0.{593}" + re.escape(WIDE_SAMPLES)),
]
# What the program that meters a take prints of these samples: the level of the loudest, which is 20 log10(7 / 2^23).
METERED = ["-121.6 dB", "at most 0.000; the recorder left 0 frames uncounted"]


class Block:
    """A block of code of a page, or commands of it, with what its HTML comments say."""

    def __init__(self, page, line, section, language, text, said):
        self.page, self.line, self.section, self.language, self.text = page, line, section, language, text
        self.first = [words for kind, words in said if kind == "first"]
        self.replaced = [words.partition(" = ") for kind, words in said if kind == "with"]
        self.skipped = next((words for kind, words in said if kind in ("not run", "no block is run")), None)

    def printed(self):
        """The lines that the page says are printed."""
        is_meter = "hound.follow(" in self.text and "log10" in self.text
        return METERED if is_meter else re.findall(PRINTS, self.text, flags=re.M)


def blocks_of(page):
    """The fenced blocks of a page, and its indented ones, which are commands."""
    with open(os.path.join(TOP, page)) as file:
        lines = file.read().split("\n")
    of_page, said, section, index = [], [], 0, 0
    while index < len(lines):
        line, begun = lines[index], index + 1
        comment = re.fullmatch(r"<!-- (first|with|not run|no block is run): (.*) -->", line)
        fence = re.fullmatch(r"```(\w*)", line)
        if comment:
            (of_page if comment[1] == "no block is run" else said).append((comment[1], comment[2]))
        elif fence:
            index = lines.index("```", index + 1)
            yield Block(page, begun, section, fence[1], "\n".join(lines[begun:index]) + "\n", said + of_page)
            said = []
        elif line.startswith("    ") and index > 0 and re.fullmatch(r"|<!--.*-->", lines[index - 1]):
            while lines[index + 1].startswith("    "):
                index += 1
            text = "\n".join(line[4:] for line in lines[begun - 1 : index + 1])
            yield Block(page, begun, section, "sh", text + "\n", said + of_page)
            said = []
        elif line.startswith("#"):
            section = begun
        elif line:
            said = []
        index += 1


class Reader:
    """Someone who has a clone, and the packages installed from it."""

    def __init__(self, folder):
        self.folder, self.clone = folder, os.path.join(folder, "hound")
        self.env = {key: value for key, value in os.environ.items() if not key.startswith("HOUND_")}
        self.env.update(
            PYTHONDONTWRITEBYTECODE="1",
            PIP_DISABLE_PIP_VERSION_CHECK="1",
            CARGO_HOME=os.path.join(folder, "cargo"),
            CARGO_TARGET_DIR=os.path.join(folder, "target"),
            npm_config_offline="true",
            npm_config_update_notifier="false",
        )
        allowed = subprocess.run(["unshare", "-rn", "true"], capture_output=True).returncode == 0
        self.without_network = ["unshare", "-rn"] if allowed else []
        self.python = os.path.join(folder, "env", "bin", "python")
        self.has_pip = self.has_numpy = False

    def run(self, command, folder, paths=(), given=None):
        """What a command prints; where it fails the error has all that it wrote. One that takes too long is ended with
        all that it has started, because these keep its output open."""
        env = {**self.env, "PATH": os.pathsep.join([*paths, self.env["PATH"]])}
        running = subprocess.Popen(
            self.without_network + command, cwd=folder, env=env, stdin=given or subprocess.DEVNULL,
            stdout=subprocess.PIPE, stderr=subprocess.PIPE, text=True, errors="replace", start_new_session=True,
        )  # fmt: skip
        try:
            printed, said = running.communicate(timeout=SECONDS)
        except subprocess.TimeoutExpired:
            os.killpg(running.pid, signal.SIGKILL)
            running.communicate()
            raise
        if running.returncode:
            raise RuntimeError(f"{command[0]} ended with {running.returncode}\n{printed}{said}")
        return printed

    def prepare(self, languages):
        """Makes the clone, and installs what programs of these languages need."""
        script = f'. scripts/bindings.sh; clone_to "{self.clone}"; python_with_numpy'
        python = subprocess.run(["bash", "-c", script], cwd=TOP, check=True, capture_output=True, text=True).stdout
        python = python.strip().split("\n")[-1]
        can_install = subprocess.run([python, "-c", "import ensurepip, venv"], capture_output=True).returncode == 0
        if languages & {"python", "sh"} and can_install:
            self.run([python, "-m", "venv", "--system-site-packages", "env"], self.folder)
            self.run([self.python, "-m", "pip", "install", "-q", f"{self.clone}/bindings/python"], self.folder)
            self.has_pip = True
            self.has_numpy = subprocess.run([self.python, "-c", "import numpy"], capture_output=True).returncode == 0
        if languages & {"js", "sh"} and shutil.which("npm"):
            os.mkdir(os.path.join(self.folder, "npm"))
            words = ["npm", "install", "--silent", "--no-audit", "--no-fund"]
            self.run([*words, f"{self.clone}/bindings/js"], os.path.join(self.folder, "npm"))
        if "rust" in languages and shutil.which("cargo"):
            self.run(["cargo", "init", "-q", "--vcs", "none", "--name", "fetched"], self.new_folder("fetched"))
            with open(os.path.join(self.folder, "fetched", "Cargo.toml"), "a") as file:
                file.write(self.dependency())
            self.run(["cargo", "fetch", "-q"], os.path.join(self.folder, "fetched"))

    def dependency(self):
        return f'hound = {{ git = "file://{self.clone}" }}\n'

    def new_folder(self, *names):
        path = os.path.join(self.folder, *names)
        os.makedirs(path)
        return path


# What each language needs, except for Python and bash.
NEEDED = {"js": ["node", "npm"], "c": ["cc"], "rust": ["cargo"], "toml": ["cargo"]}


def is_of_numpy(block):
    return "import numpy" in block.text


class Section:
    """A section of a page, and the folder in which its blocks are run."""

    def __init__(self, reader, blocks, number):
        self.reader, self.blocks = reader, blocks
        self.folder = reader.new_folder("sections", str(number))
        self.left = []  # What the last program left there.
        if shutil.which("npm") and not any("npm install" in block.text for block in blocks):
            self.link_package()

    def link_package(self):
        modules = os.path.join(self.reader.folder, "npm", "node_modules")
        if os.path.isdir(modules):
            os.symlink(modules, os.path.join(self.folder, "node_modules"))

    def run_all(self):
        """For each block whether it runs as it is printed, and what it says."""
        for block in self.blocks:
            missing = self.missing(block)
            if block.skipped:
                yield block, None, f"not run: {block.skipped}"
            elif block.language not in LANGUAGES:
                yield block, False, f"nothing says how a block of '{block.language}' is run"
            elif missing:
                yield block, None, f"passed over, since {missing[0]} isn't here: blocks of its kind"
            else:
                try:
                    self.run(block)
                    yield block, True, ""
                except (AssertionError, OSError, RuntimeError, subprocess.TimeoutExpired) as error:
                    yield block, False, str(error)

    def missing(self, block):
        """The programs that a block needs, and that aren't here."""
        if block.language in ("python", "sh") and not self.reader.has_pip:
            return ["ensurepip"]  # Debian: python3-venv
        if is_of_numpy(block):
            return [] if self.reader.has_numpy else ["numpy"]
        if block.language != "sh":
            return [name for name in NEEDED.get(block.language, []) if not shutil.which(name)]
        defined = {"cd", "echo", "printf", *re.findall(r"(\w+)\(\)", " ".join(block.first))}
        path = os.pathsep.join([*self.paths(), os.environ["PATH"]])
        called = re.findall(r"(?:^|[|(] *|&& *)([a-z][\w.-]*)(?= )", block.text, flags=re.M)
        return [name for name in called if name not in defined and not shutil.which(name, path=path)]

    def run(self, block):
        first = "\n".join(block.first).replace("CLONE", self.reader.clone)
        if block.language in PROGRAMS:
            self.remove_left()
            before = set(os.listdir(self.folder))
            if first:
                self.bash(first)
            printed = getattr(self, "run_" + block.language)(block).split("\n")
            self.left = sorted(set(os.listdir(self.folder)) - before)
            self.compare(block, printed)
        elif block.language == "toml":
            self.run_patched(block)
        else:
            text = block.text.replace("CLONE", self.reader.clone)
            for words, _, others in block.replaced:
                assert words in text, f"it doesn't have the words {words}"
                text = text.replace(words, others)
            self.bash(f"{first}\n{text}")

    def remove_left(self):
        for name in self.left:
            path = os.path.join(self.folder, name)
            shutil.rmtree(path) if os.path.isdir(path) and not os.path.islink(path) else os.unlink(path)

    def compare(self, block, printed):
        lines = [line.strip() for line in printed]
        for wanted in block.printed():
            assert wanted in lines, f"it prints {printed}, and not: {wanted}"
        for page, words, form in LEAVES:
            if block.page == page and words in block.text:
                with open(os.path.join(self.folder, "take.wav"), "rb") as file:
                    assert re.fullmatch(form, file.read(), flags=re.S), "it leaves another take.wav"

    def paths(self):
        """Where its commands are: of an environment that the section made, else of the one that all share."""
        return [os.path.join(self.folder, "env", "bin"), os.path.dirname(self.reader.python)]

    def bash(self, text):
        with open("/dev/zero", "rb") as zeros:
            source = subprocess.Popen(["head", "-c", "4800000"], stdin=zeros, stdout=subprocess.PIPE)
        with source.stdout:
            self.reader.run(["bash", "-eu", "-o", "pipefail", "-c", text], self.folder, self.paths(), source.stdout)

    def saved(self, block):
        """The program, by the name that a command of the section has for it."""
        ending = PROGRAMS[block.language]
        commands = "".join(block.text for block in self.blocks if block.language == "sh")
        named = re.findall(rf"(?<![\w/.-])(\w+\.{ending})\b", commands)
        path = os.path.join(self.folder, named[0] if named else f"mine.{ending}")
        with open(path, "w") as file:
            file.write(block.text)
        return path

    def run_python(self, block):
        """In the environment that the section made, or in the one that all share if it needs numpy, since that has the
        system's."""
        paths = self.paths()[1:] if is_of_numpy(block) else self.paths()
        return self.reader.run(["python", self.saved(block)], self.folder, paths)

    def run_js(self, block):
        return self.reader.run(["node", self.saved(block)], self.folder)

    def run_c(self, block):
        """As the table of README.md has it, with warnings."""
        library = f"{self.reader.clone}/bindings/lib/{os.uname().machine}-linux/libhound_c.a"
        if not os.path.exists(library):
            library = f"{self.reader.clone}/bindings/c/hound_c.c"
        strict = ["-Wall", "-Wextra", "-Werror", "-pedantic"]
        include = f"-I{self.reader.clone}/bindings/c"
        self.reader.run(["cc", *strict, include, self.saved(block), library], self.folder)
        return self.reader.run(["./a.out"], self.folder)

    def run_rust(self, block):
        return self.run_cargo(f"user{block.line}", self.reader.dependency(), block.text)

    def run_patched(self, block):
        """README's program, which depends on the published crate, with these lines."""
        program = next(one.text for one in blocks_of("README.md") if one.language == "rust")
        lines = block.text.replace("CLONE", self.reader.clone)
        printed = self.run_cargo("patched", f'hound = "3.5"\n\n{lines}', program, "--offline")
        assert printed == "[2, -3, 5, -7]\n", f"README's program prints {printed}"

    def run_cargo(self, name, lines, program, *words):
        folder = os.path.join(self.folder, name)
        self.reader.run(["cargo", "new", "-q", "--vcs", "none", folder], self.folder)
        with open(os.path.join(folder, "Cargo.toml"), "a") as file:
            file.write(lines)
        with open(os.path.join(folder, "src", "main.rs"), "w") as file:
            file.write(program)
        manifest = ["--manifest-path", os.path.join(folder, "Cargo.toml")]
        return self.reader.run(["cargo", "run", "-q", *manifest, *words], self.folder)


def pages():
    found = ["README.md", "docs", "bindings/c", "bindings/hound", "bindings/js", "bindings/python", "scripts"]
    for path in found:
        names = os.listdir(os.path.join(TOP, path)) if os.path.isdir(os.path.join(TOP, path)) else [""]
        yield from sorted(os.path.join(path, name).rstrip("/") for name in names if (name or path).endswith(".md"))


def main():
    named = [os.path.relpath(os.path.abspath(page), TOP) for page in sys.argv[1:]] or list(pages())
    sections = {}
    for page in named:
        for block in blocks_of(page):
            sections.setdefault((page, block.section), []).append(block)
    every = [block for blocks in sections.values() for block in blocks]
    counts, skipped = {True: 0, False: 0, None: 0}, collections.Counter()
    with tempfile.TemporaryDirectory(prefix="hound_docs_") as folder:
        reader = Reader(folder)
        if not reader.without_network:
            print("docs: passed over, since unshare isn't allowed here: that no block needs a network")
        reader.prepare({block.language for block in every if not block.skipped})
        run = [Section(reader, blocks, number) for number, blocks in enumerate(sections.values())]
        with concurrent.futures.ThreadPoolExecutor(3) as pool:
            for results in pool.map(lambda section: list(section.run_all()), run):
                for block, is_passed, said in results:
                    counts[is_passed] += 1
                    if is_passed is None:
                        skipped[block.page, said] += 1
                    elif not is_passed:
                        print(f"docs: FAILED: {block.page}:{block.line}: {said}", flush=True)
    for (page, said), count in skipped.items():
        print(f"docs: {said}: {count} of {page}")
    print(f"docs: {counts[True]} passed, {counts[False]} failed, {counts[None]} skipped")
    sys.exit(counts[False] > 0)


if __name__ == "__main__":
    main()
