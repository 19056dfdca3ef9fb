#!/usr/bin/env python3
"""Has other programs read what a recorder leaves with an odd number of data bytes, at each of its
checkpoints and at its end: just the samples that were published, and without a warning.

usage: doubt/peers.py

It needs python3, and for the checkpoints strace, which ends the recorder at each. The programs are
sox, ffmpeg, those of libsndfile, python's wave, and wavpack, which warns where odd data have no pad
byte; those that aren't there are named and passed over."""
import os
import shutil
import subprocess
import sys
import tempfile
import warnings
import wave

HERE = os.path.dirname(os.path.dirname(os.path.abspath(__file__)))
CRATE = os.path.join(HERE, "crates", "hound_examples")
PROGRAM = os.path.join(CRATE, "out", "hound_examples")
LOTS = 5
LENGTHS = [1, 3, 1001]


class Disagrees(Exception):
    pass


def fail(words):
    sys.exit("peers: " + words)


def run(*words):
    """What a program writes to its output; it succeeds, and says nothing on standard error."""
    ran = subprocess.run(words, stdout=subprocess.PIPE, stderr=subprocess.PIPE)
    said = "; ".join(ran.stderr.decode(errors="replace").split("\n")).strip("\r ;")
    if ran.returncode or said:
        raise Disagrees(f"{words[0]} ends with status {ran.returncode} and says: {said}")
    return ran.stdout


def recorded(count, bits):
    """The first so many samples that are recorded."""
    return [index % min(1 << bits - 1, 32768) for index in range(count)]


def compare(data, width, bits, published):
    """Compares numbers of so many bytes, whose upper bits are used, with what was recorded."""
    wanted = recorded(published, bits)
    places = range(0, len(data), width)
    numbers = [int.from_bytes(data[at : at + width], "little", signed=True) for at in places]
    if [number >> (8 * width - bits) for number in numbers] != wanted:
        raise Disagrees(f"it reads {len(numbers)} samples, not the {published} published ones")


def compare_as_stored(data, bits, published):
    """The same of samples as a file has them, where eight bits have no sign."""
    if bits == 8:
        data = bytes(byte ^ 0x80 for byte in data)
    compare(data, bits // 8, bits, published)


def by_sox(path, bits, published):
    data = run("sox", "-D", path, "-t", "raw", "-e", "signed", "-b", "32", "-")
    compare(data, 4, bits, published)


def by_ffmpeg(path, bits, published):
    # Where a file has no mask it warns that it guesses one, unless an option turns that off.
    words = ["-v", "warning", "-nostdin", "-guess_layout_max", "0"]
    data = run("ffmpeg", *words, "-i", path, "-f", "s32le", "-")
    compare(data, 4, bits, published)


def by_libsndfile(path, bits, published):
    # Its list of chunks has a remark on each odd length of data, with a pad byte or without.
    run("sndfile-info", path)
    run("sndfile-convert", "-pcm32", path, path + ".raw")
    with open(path + ".raw", "rb") as file:
        compare(file.read(), 4, bits, published)


def by_python(path, bits, published):
    with warnings.catch_warnings():
        warnings.simplefilter("error")
        with wave.open(path) as file:
            data = file.readframes(file.getnframes() + 1)
    compare_as_stored(data, bits, published)


def by_wavpack(path, bits, published):
    run("wavpack", "-q", "-y", path, "-o", path + ".wv")
    run("wvunpack", "-q", "-y", "-r", path + ".wv", "-o", path + ".raw")
    with open(path + ".raw", "rb") as file:
        compare_as_stored(file.read(), bits, published)


# The program that has to be there, and what reads a file by it.
PEERS = {
    "sox": ("sox", by_sox),
    "ffmpeg": ("ffmpeg", by_ffmpeg),
    "libsndfile": ("sndfile-convert", by_libsndfile),
    "python's wave": ("python3", by_python),
    "wavpack": ("wavpack", by_wavpack),
}


def why_not(peer, bits):
    """Why a program reads no file of these bits here; those of 24 have an extensible fmt chunk."""
    if shutil.which(PEERS[peer][0]) is None:
        return "it isn't there"
    if bits == 24 and peer == "python's wave" and sys.version_info < (3, 12):
        return "before Python 3.12 it reads no extensible fmt chunk"
    return None


def record(path, bits, length, stop):
    """Records in lots of this length, up to the checkpoint with this number, or to the end."""
    words = [os.path.join(os.path.dirname(path), "record"), path, str(length), f"bits={bits}"]
    said = path + ".said"
    if stop is not None:
        # After each checkpoint the recorder says so by one write. It is killed before that.
        kill = ["-e", "trace=write", "-e", f"inject=write:signal=SIGKILL:when={stop}"]
        words = ["strace", "-qq", "-o", os.devnull, "-P", said, *kill, *words]
    with open(path + ".given", "wb") as file:
        for number in recorded(LOTS * length, bits):
            file.write(bytes([number + 128]) if bits == 8 else number.to_bytes(bits // 8, "little"))
    with open(said, "wb") as output, open(path + ".given", "rb") as file:
        status = subprocess.run(words, stdin=file, stdout=output).returncode
    with open(said) as output:
        lines = [int(line) for line in output if not line.startswith("recorded")]
    wanted = [lot * length for lot in range(1, LOTS + 1 if stop is None else stop)]
    if (stop is None) != (status == 0) or lines != wanted:
        fail(f"the recorder ends with status {status}, and has said {lines}")


def files_of(folder, bits):
    """Files of a recorder, each with how many samples were published."""
    stops = [*range(1, LOTS + 1)] if shutil.which("strace") else []
    for length in LENGTHS:
        for stop in [*stops, None]:
            path = os.path.join(folder, f"{bits}_bits_lots_of_{length}_{stop or 'end'}.wav")
            record(path, bits, length, stop)
            yield path, (stop or LOTS) * length


def look(peer, bits, files):
    """Has a program read all files, says what came of it, and returns whether it agrees."""
    faults = []
    for path, published in files:
        try:
            PEERS[peer][1](path, bits, published)
        except (Disagrees, Warning, wave.Error) as fault:
            faults.append(f"{os.path.basename(path)}: {fault}")
    kind = f"{peer}, {bits} bits: {len(files)} files"
    if faults:
        print(f"{kind}, of which {len(faults)} DISAGREE, the first at {faults[0]}", flush=True)
    else:
        print(f"{kind}, in each what was published, and no warning", flush=True)
    return not faults


def main():
    if shutil.which("rt"):
        print("peers: proving and building the examples, where they have changed", flush=True)
        quiet = {"stdout": subprocess.DEVNULL, "stderr": subprocess.DEVNULL}
        subprocess.run(["rt", "run"], cwd=CRATE, stdin=subprocess.DEVNULL, **quiet)
    if not os.path.exists(PROGRAM):
        fail("the examples don't build: see `rt run` in crates/hound_examples")
    if shutil.which("strace") is None:
        print("checkpoints: not looked at, since strace isn't there")
    agree = disagree = 0
    with tempfile.TemporaryDirectory() as folder:
        os.symlink(PROGRAM, os.path.join(folder, "record"))  # The name says which example runs.
        for bits in [8, 24]:
            print(f"peers: recording files of {bits} bits", flush=True)
            files = list(files_of(folder, bits))
            for peer in PEERS:
                reason = why_not(peer, bits)
                if reason:
                    print(f"{peer}, {bits} bits: passed over, since {reason}")
                elif look(peer, bits, files):
                    agree += 1
                else:
                    disagree += 1
    print(f"peers: {agree} agree, {disagree} disagree")
    sys.exit(1 if disagree or not agree else 0)


main()
