#!/usr/bin/env python3
"""The programs of bindings/c, compiled for another system or processor, beside those of this one: what they print,
their status, and each file have to be the same, byte for byte. Then two of them at one file, one that is killed and
whose file is repaired, how often a durable file is synced, a file of 3 GB, and other names. With --wrong their wrong
versions for Windows have to be found.

usage: programs.py HERE THERE [RUN..]     (folders with these programs; there with .exe; RUN runs those)
       programs.py --wrong HERE SCRATCH RUN LIBRARY COMPILER..     (the compiler's words, to link that library)"""
import os
import random
import shutil
import subprocess
import sys
import tempfile

C = os.path.join(os.path.dirname(os.path.dirname(os.path.abspath(__file__))), "c")
NAMES = "cat", "follow", "record", "repair"
# Bits, channels, and the frames between checkpoints.
SHAPES = (8, 1, 7), (16, 2, 100), (24, 3, 50), (32, 1, 1000)
LIST = b"LIST\4\0\0\0INFO"
LOCKED = b"another program records to this file or repairs it"
# Names with letters of two scripts, which no code page has together, and of more than 260.
OTHER_NAMES = "\u0437\u0432\u0443\u043a \u97f3.wav", os.path.join("long" * 50, "longer" * 40, "take.wav")
# Bytes that a text has another meaning for: both ends of a line, and the end of a text on Windows.
DATA = b"\r\n\x1a" * 40 + random.Random(5).randbytes(4000)
WRONG = {
    "standard input is a text": ("_setmode(descriptor, _O_BINARY)", "(void)descriptor"),
    "a file is a text": ("flags | _O_BINARY", "flags | _O_TEXT"),
    "no lock": ("if (LockFileEx((HANDLE)_get_osfhandle(descriptor), how, 0, 1, 0, &place)) return 0;", "return 0;"),
    "places of 32 bits": (
        "_lseeki64(descriptor, (__int64)place, SEEK_SET)",
        "_lseek(descriptor, (long)place, SEEK_SET)",
    ),
    "lengths of 32 bits": (
        "(uint64_t)about.st_size, *is_regular = (about.st_mode & _S_IFMT)",
        "(uint32_t)about.st_size & 0x7FFFFFFF, *is_regular = (about.st_mode & _S_IFMT)",
    ),
    "nothing is synced": ("return _commit(descriptor);", "return (void)descriptor, 0;"),
    "nothing is cut off": ("_chsize_s(descriptor, (__int64)length)", "((void)length, (void)descriptor, 0)"),
    "paths of the code page": ("CP_UTF8, MB_ERR_INVALID_CHARS, path", "CP_ACP, 0, path"),
    "arguments of the code page": ("*count = all, *arguments = words", "*count = all"),
}


class Wrong(Exception):
    pass


def expect(what, holds):
    if not holds:
        raise Wrong(what)


class Programs:
    """Those of one system, with a folder of their own."""

    def __init__(self, folder, scratch, run=(), ending=""):
        self.words = {name: [*run, os.path.join(folder, name + ending)] for name in NAMES}
        self.folder, self.path = scratch, os.path.join(scratch, "take.wav")
        os.mkdir(scratch)

    def contents(self):
        if not os.path.exists(self.path):
            return None
        with open(self.path, "rb") as file:
            return file.read()

    def leave(self, contents):
        with open(self.path, "wb") as file:
            file.write(contents)

    def begun(self, name, *words):
        pipes = dict.fromkeys(("stdin", "stdout", "stderr"), subprocess.PIPE)
        return subprocess.Popen([*self.words[name], *words], cwd=self.folder, **pipes)

    def ran(self, name, *words, data=b""):
        """The status, what is printed, and the file."""
        program = self.begun(name, *words)
        output, said = program.communicate(data, timeout=20)
        if name != "cat":
            output = output.replace(b"\r\n", b"\n")
        return program.returncode, output, said.replace(b"\r\n", b"\n"), self.contents()

    def recording(self, path="take.wav"):
        """A recorder that has made its first checkpoint."""
        recorder = self.begun("record", path, "8000", "2", "16", "100")
        recorder.stdin.write(DATA)
        recorder.stdin.flush()
        recorder.stdout.readline()
        return recorder


def check_same(here, there):
    """Runs both alike, and counts these runs."""
    count = 0

    def same(name, *words, data=b"", status=0):
        nonlocal count
        wanted, got = here.ran(name, *words, data=data), there.ran(name, *words, data=data)
        is_same = wanted == got and wanted[0] == status
        expect(f"{name} {' '.join(words)}: {wanted!r} here, and there {got!r}"[:2000], is_same)
        count += 1

    for bits, channels, every in SHAPES:
        shape, frame = ["take.wav", "44100", str(channels), str(bits), str(every)], channels * bits // 8
        for one in here, there:
            if os.path.exists(one.path):
                os.remove(one.path)
        same("record", *shape, data=DATA[: 99 * frame])
        same("record", *shape, data=DATA, status=1)  # It exists.
        header, samples = here.contents()[:-99 * frame], DATA[: 99 * frame]
        whole = here.contents()
        for held in header + samples * 2 + b"\1" * (frame - 1), whole[:-1], whole + LIST, whole[:20], b"":
            for words in [], ["--to-end"]:
                for one in here, there:
                    one.leave(held)
                same("repair", "take.wav", *words, status=1 if len(held) < 44 else 0)
        for one in here, there:
            one.leave(whole[:40] + bytes(4) + whole[44:] if len(header) == 44 else whole)
        same("record", *shape, "--append", "--durable", data=DATA[: 55 * frame + frame - 1], status=int(frame > 1))
        for words in [], ["--float"], ["--to-end"]:
            same("cat", *words, data=here.contents())
        stream = whole[: whole.index(b"data") + 8] + DATA[: 9 * frame] + b"\1" * (frame - 1)
        same("cat", "--to-end", data=stream, status=int(frame > 1))
        same("cat", data=here.contents()[:-frame], status=1)
        same("record", *shape, "--overwrite", data=DATA[: 33 * frame])
    same("record", "none/take.wav", "44100", "1", "16", "9", status=1)
    same("record", "take.wav", "5000000000", "1", "16", "9", "--overwrite", status=1)
    return count


def check_two(one):
    """Two programs at one file: the second one changes nothing."""
    os.remove(one.path)
    recorder = one.recording()
    form = ["8000", "2", "16", "9"]
    for name, words in ("record", [*form, "--append"]), ("record", [*form, "--overwrite"]), ("repair", []):
        status, output, said, _ = one.ran(name, "take.wav", *words, data=bytes(4000))
        is_rejected = (status, output) == (1, b"") and LOCKED in said
        expect(f"{name} {words} isn't rejected: {status} {output!r} {said!r}", is_rejected)
    recorder.communicate()
    expect("the first recorder lost samples", recorder.returncode == 0 and one.contents()[44:] == DATA)
    expect("a lock outlives its program", one.ran("repair", "take.wav")[0] == 0)


def check_followed(one):
    """A recording is followed from its first checkpoint on, until its recorder ends."""
    os.remove(one.path)
    recorder = one.recording()
    follower = one.begun("follow", "take.wav")
    first = follower.stdout.read(400)
    expect("a follower ends before its recorder", follower.poll() is None)
    recorder.communicate(timeout=20)
    given = first + follower.stdout.read()
    said = follower.communicate(timeout=20)[1]
    expect(f"a follower gives other samples: {said!r}", (given, follower.returncode) == (DATA, 0))
    said = b"follow: none.wav: No such file or directory\n"
    expect("a file that isn't there is followed", one.ran("follow", "none.wav")[:3] == (1, b"", said))


def syncs(one):
    """How often the system stores the file of a durable recording."""
    log = one.path + ".log"
    words = ["strace", "-f", "-y", "-qq", "-o", log, "-e", "trace=fsync", *one.words["record"], "take.wav"]
    words += ["8000", "2", "16", "100", "--overwrite", "--durable"]
    none = subprocess.DEVNULL
    subprocess.run(words, input=DATA, cwd=one.folder, stdout=none, stderr=none, timeout=20)
    with open(log) as file:
        return file.read().count("take.wav>")


def check_synced(here, there):
    """Each sync is one of the system, as here."""
    if shutil.which("strace"):
        wanted, got = syncs(here), syncs(there)
        expect(f"{got} syncs and not {wanted}", 0 < wanted == got)


def check_killed(here, there):
    """A recorder that is killed: the file has its first checkpoint, and a repair finds all that it holds."""
    os.remove(there.path)
    recorder = there.recording()
    recorder.kill()
    recorder.communicate()
    left = there.contents()
    counted = int.from_bytes(left[40:44], "little")
    expect("a kill loses a checkpoint", 400 <= counted <= len(left) - 44 and left[44:] == DATA[: len(left) - 44])
    left = left[:40] + (200).to_bytes(4, "little") + left[44:] + b"\1\2\3"  # as if that were before the checkpoint
    for one in here, there:
        one.leave(left)
    wanted, got = here.ran("repair", "take.wav"), there.ran("repair", "take.wav")
    expect(f"{got[:3]!r} is not the repair {wanted[:3]!r}", wanted == got and b"cut off" in got[1])


def check_long(there):
    """A file of 3 GB, of which nothing but its ends is stored: its header counts the whole frames then."""
    length = 3 * 10**9 + 44
    there.leave(there.contents()[:44])
    os.truncate(there.path, length + 1)
    ran = subprocess.run([*there.words["repair"], there.path], stdout=subprocess.PIPE)
    with open(there.path, "rb") as file:
        header = file.read(44)
    there.leave(b"")
    expect(f"a file of 3 GB: {ran}", ran.returncode == 0 and header[40:] == (length - 44).to_bytes(4, "little"))


def check_names(here, there):
    """A recording at each of the other names, which a second one rejects, and its repair."""
    for name in OTHER_NAMES:
        both = []
        for one in here, there:
            one.path = os.path.join(one.folder, name)
            os.makedirs(os.path.dirname(one.path), exist_ok=True)
            recordings = [one.ran("record", name, "8000", "1", "16", "100", data=DATA) for _ in range(2)]
            both.append([*recordings, one.ran("repair", name)])
        wanted, got = both
        expect(f"at {name!a}: {got!r} is not {wanted!r}"[:2000], wanted == got and [ran[0] for ran in got] == [0, 1, 0])


def check(here, folder, scratch, run, ending=".exe"):
    """What was tried."""
    with tempfile.TemporaryDirectory(dir=scratch) as work:
        one = Programs(here, os.path.join(work, "here"))
        other = Programs(folder, os.path.join(work, "there"), run, ending)
        # While a program runs, wine needs no seconds to start another; what it starts with the first has its output.
        with other.recording("first.wav") as first:
            count = check_same(one, other)
            check_two(other)
            check_followed(other)
            check_synced(one, other)
            check_killed(one, other)
            check_long(other)
            check_names(one, other)
            first.stdin.close()
    return count


def check_wrong(here, scratch, run, library, compiler):
    """The programs of wrong versions of hound_file.h have to differ."""
    for number, (what, (part, other)) in enumerate(WRONG.items()):
        folder = os.path.join(scratch, f"wrong{number}")
        shutil.copytree(C, folder)
        with open(os.path.join(C, "hound_file.h")) as file:
            text = file.read()
        if text.count(part) != 1:
            sys.exit(f"programs: hound_file.h has {text.count(part)} times: {part}")
        with open(os.path.join(folder, "hound_file.h"), "w") as file:
            file.write(text.replace(part, other))
        for name in NAMES:
            program = os.path.join(folder, name)
            subprocess.run([*compiler, "-w", program + ".c", library, "-o", program + ".exe"], check=True)
        try:
            check(here, folder, scratch, run)
        except (Wrong, subprocess.TimeoutExpired) as error:
            print(f"programs: wrong: {what}: found by {str(error)[:90]!r}", flush=True)
        else:
            sys.exit(f"programs: this wrong version isn't found: {what}")


def main():
    words = sys.argv[1:]
    os.environ["LC_ALL"] = "C.UTF-8"  # by which wine reads names
    try:
        if words[0] == "--wrong":
            check_wrong(words[1], words[2], words[3:4], words[4], words[5:])
        else:
            runs = check(words[0], words[1], None, words[2:])
            tried = "two at one file, a follower, a kill, syncs, 3 GB, other names"
            print(f"programs: {runs} runs of cat, record and repair are the same; {tried}")
    except Wrong as error:
        sys.exit(f"programs: {error}")


if __name__ == "__main__":
    main()
