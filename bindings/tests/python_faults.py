#!/usr/bin/env python3
"""Kills programs that append to, repair, write and record files by the Python package, and lets their calls of
the system fail. After each the file is read by hand, repaired, and read again: it counts only samples that it
holds, those from before and each that was reported are there, and none was invented. Where one call failed,
the file is the one from before, byte for byte, but for a recording. So it is where a signal handler raises at a
bytecode, or threads share a recorder; and a reader whose reads fail loses nothing. Wrong versions have to be found.

usage: python_faults.py [KILLS [short]]    (200 kills where no number is given; short: fewer of the other runs)

It needs strace and the package hound_bindings, and for a disk that fills up the right to mount a tmpfs."""
import array
import collections
import contextlib
import functools
import itertools
import os
import random
import re
import resource
import signal
import struct
import subprocess
import sys
import tempfile
import time
from typing import NamedTuple

import hound_bindings as hound
import python_program
from python_program import CASES, LIST, PART, STREAM, VERSIONS, Case, file_of, head, perform, samples_of

sys.path.insert(0, os.path.join(os.path.dirname(os.path.dirname(os.path.abspath(__file__))), "python", "tests"))
from interruptions import Interrupted, Interruption, in_threads  # noqa: E402


class Wrong(Exception):
    """A file, or a report, isn't as it has to be."""


def look(path, case, least, most, what, after=b""):
    """Reads a file, which has at least and at most so many frames, and again when it is repaired."""
    for state in "left", "repaired":
        with open(path, "rb") as file:
            contents = file.read()
        start = len(head(case, 0))
        if contents[:4] != b"RIFF" or contents[8 : start - 4] != head(case, 0)[8:-4]:
            raise Wrong(f"{what}, {state}: another head")
        (length,) = struct.unpack("<I", contents[start - 4 : start])
        held = len(contents) - start
        if state == "repaired" and case.frame == 1 and contents[start + length - 1] == 0:
            length -= 1  # It is a pad byte that wasn't counted yet, and looks like a sample.
        if length > held or length % case.frame:
            raise Wrong(f"{what}, {state}: {length} bytes are counted, and {held} are there")
        if contents[start : start + length] != STREAM[:length]:
            raise Wrong(f"{what}, {state}: another sample is among {length // case.frame} frames")
        if not least <= length // case.frame <= most:
            raise Wrong(f"{what}, {state}: {length // case.frame} frames, and not from {least} to {most}")
        if state == "left":
            hound.repair(path)
    rest = contents[start + length :]
    if len(rest) - length % 2 >= case.frame and not after.startswith(rest[length % 2 :]):
        raise Wrong(f"{what}: {len(rest)} bytes aren't counted after a repair")
    return length // case.frame


class Task(NamedTuple):
    """What a program does once to a file with some frames: which of them are counted, which aren't or come
    newly, and what the file is before and after it."""

    work: str
    case: Case
    first: int
    count: int
    before: bytes
    done: bytes
    after: bytes = b""

    def __str__(self):
        return f"{self.work}, {self.case.name}"


def task(work, case, first, count):
    done, total = file_of(case, first + count), (first + count) * case.frame
    if "overwrite" in work:
        return Task(work, case, first, count, file_of(case, first, LIST), done, LIST)
    if work != "repair":
        return Task(work, case, first, count, file_of(case, first), done)
    torn = bytes(case.frame - 1)
    cut_off = head(case, first * case.frame) + STREAM[:total] + torn
    return Task(work, case, first, count, cut_off, head(case, total) + STREAM[:total] + (torn or bytes(total % 2)))


TRIED = ["right"]  # The version of the package in the programs.


def words(path, task, times=1, control=None):
    place = CASES.index(task.case)
    numbers = map(str, (place, task.first, task.count, times))
    return [sys.executable, "-S", python_program.__file__, control or TRIED[0], task.work, path, *numbers]


def leave(path, contents):
    with open(path, "wb") as file:
        file.write(contents)


def traced(folder, task, control, *options):
    """Does a task under strace: the path, its status, and its calls on its files: their names, and the place
    that each writes at."""
    path, part = os.path.join(folder, "a.wav"), os.path.join(folder, PART)
    leave(path, task.before)
    with contextlib.suppress(FileNotFoundError):
        os.unlink(part)
    log = os.path.join(folder, "log")
    tracing = ["strace", "-qq", "-o", log, "-P", path, "-P", part, *options]
    ran = subprocess.run(tracing + words(path, task, control=control), stdout=subprocess.PIPE, stderr=subprocess.PIPE)
    if ran.returncode not in (0, 3, -signal.SIGKILL):
        raise Wrong(f"{task}: {ran.stderr.decode()}")
    with open(log) as file:
        lines = file.readlines()
    if options and ran.returncode != -signal.SIGKILL and "INJECTED" not in "".join(lines):
        raise Wrong(f"{task}: this fault isn't met: {options[-1]}")
    calls = re.findall(r"^(\w+)\((?:.* (\d+)\) += \d)?", "".join(lines), flags=re.M)
    return path, ran.returncode, [(name, int(place) if name == "pwrite64" and place else None) for name, place in calls]


def is_as_promised(path, task, status, what, is_exact):
    """Whether the file is as it has to be: the one from after a success, from before an error, or some other
    that holds what it counts."""
    with open(path, "rb") as file:
        contents = file.read()
    if status == 0 and contents != task.done:
        raise Wrong(f"{what}: a success leaves another file")
    if "create" in task.work and len(contents) < len(head(task.case, 0)):
        return
    is_exact = is_exact and "record" not in task.work
    padded = contents.ljust(len(task.before), bytes(1))  # A full disk may have no room for the pad byte again.
    if status == 3 and is_exact and task.work in ("append", "durable", "write") and padded != task.before:
        end = len(head(task.case, 0)) + (task.first + task.count) * task.case.frame
        # After a sync that failed nothing more is written, so all of the block may stay.
        if "fsync" not in what or len(contents) not in (end, end + end % 2):
            raise Wrong(f"{what}: the file isn't the one from before")
    if task.work == "write" and contents not in (task.before, task.done):
        raise Wrong(f"{what}: the file is neither the old nor the new one")
    if is_exact and status in (0, 3) and os.path.exists(os.path.join(os.path.dirname(path), PART)):
        raise Wrong(f"{what}: a part of a file is left")
    if task.work != "write":
        look(path, task.case, task.first, task.first + task.count, what, task.after)


# The calls that change a file.
CHANGES = ("pwrite64", "ftruncate", "fsync", "rename")


def each_call(folder, task, faults, names=None, control="right"):
    """Does a task with each of its calls, or of those with these names, killed or failing in turn: how many
    runs, and what was wrong."""
    path, status, calls = traced(folder, task, control)
    wrong, runs = [], 0
    if status:
        raise Wrong(f"{task} fails by itself")
    is_as_promised(path, task, status, str(task), True)
    for name, count in collections.Counter(name for name, _ in calls).items():
        if names and name not in names:
            continue
        for number in range(1, count + 1):
            for fault in faults:
                what = f"{task}: {name} {number} {fault}"
                kind, _, on = fault.partition(" ")
                when = f"signal=KILL:when={number}" if kind == "KILL" else f"error={kind}:when={number}{on}"
                runs += 1
                try:
                    injected = ["-e", f"trace={name}", "-e", f"inject={name}:{when}"]
                    path, status, _ = traced(folder, task, control, *injected)
                    # A file that can't be closed may have all.
                    is_as_promised(path, task, status, what, not on and name != "close")
                except Wrong as error:
                    wrong.append(str(error))
    return runs, wrong


def order(folder):
    """The calls of an append to odd data that makes them odd again: the samples, and then a checkpoint, which writes
    the pad byte and the sizes. One that is durable syncs between. Where chunks are cut off, a checkpoint follows
    that."""
    works = ("append", "durable", "durable overwrite")
    for case in CASES[1], CASES[5]:
        start = len(head(case, 0))
        for work in works:
            sync = [("fsync", None)] * ("durable" in work)

            def checkpoint(end):
                return [("pwrite64", end), *sync, ("pwrite64", 4), ("pwrite64", start - 4), *sync]

            wanted = sync + ([("ftruncate", None), *sync] + checkpoint(start + 101)) * ("overwrite" in work)
            wanted += [("pwrite64", start + 101)] + checkpoint(start + 101 + 4998)
            _, _, calls = traced(folder, task(work, case, 101, 4998), "right")
            calls = [call for call in calls if call[0] in CHANGES]
            if calls != wanted:
                raise Wrong(f"the calls of {work} are {calls}, and not {wanted}")
    print("an append: samples, pad byte, sizes; with syncs between where it is durable", flush=True)
    return 2 * len(works)


def kill(folder, count):
    """Kills so many programs that append block after block, each at a random time, and appends to what they
    leave once it is repaired."""
    inside, path = 0, os.path.join(folder, "killed.wav")
    for turn in range(count):
        # Of 8 bits and one channel a repair takes a pad byte that isn't counted yet for a sample.
        cases = [case for case in CASES if case.frame > 1]
        case, work = cases[turn % len(cases)], ("append", "record", "durable", "append", "durable record")[turn % 5]
        appended = task(work, case, 100, (4096, 333, 200000)[turn // 2 % 3] // case.frame | 1)
        leave(path, appended.before)
        times = (len(STREAM) // case.frame - 100) // appended.count
        running = subprocess.Popen(words(path, appended, times), stdout=subprocess.PIPE)
        first = running.stdout.readline()
        time.sleep(random.random() * (0.02 if "durable" in work else 0.004))
        running.send_signal(signal.SIGKILL)
        rest, _ = running.communicate()
        reported = int((first + rest).rsplit(b"\n", 2)[-2])
        inside += os.path.getsize(path) > len(file_of(case, reported))
        what = f"kill {turn}: {appended} in blocks of {appended.count}"
        found = look(path, case, reported, reported + appended.count, what)
        hound.append(path, samples_of(case, found, 50))
        with open(path, "rb") as file:
            if file.read() != file_of(case, found + 50):
                raise Wrong(f"{what}: what continues it leaves another file")
    print(f"killed {count} programs that append: {inside} files with more than was reported, none wrong", flush=True)
    return count


def limit(folder, cases):
    """Appends where a file may not become so long."""
    runs, path = 0, os.path.join(folder, "long.wav")
    for case in cases:
        for work in ("append", "overwrite", "durable") + ("record",) * (case.frame > 1):
            long = task(work, case, 999, 7001)
            used = len(long.before)
            for length in [10, len(file_of(case, 999)) + 2, used, used + 1, used + 4096, len(long.done) - 1]:
                leave(path, long.before)
                limited = lambda: resource.setrlimit(resource.RLIMIT_FSIZE, (length, length))
                status = subprocess.run(words(path, long), stdout=subprocess.DEVNULL, preexec_fn=limited).returncode
                if status != 3:
                    raise Wrong(f"{long}: no error with a limit of {length}")
                is_as_promised(path, long, status, f"{long}, a limit of {length}", True)
                runs += 1
    print(f"files longer than they may be: {runs} runs, none wrong", flush=True)
    return runs


def fill(folder, cases):
    """Appends to files and writes them anew on a disk that is full."""
    disk, runs = os.path.join(folder, "disk"), 0
    os.mkdir(disk)
    if subprocess.run(["mount", "-t", "tmpfs", "-o", "size=64k", "none", disk], stderr=subprocess.DEVNULL).returncode:
        print("a disk that fills up: not run, since no tmpfs can be mounted here", flush=True)
        return runs
    try:
        path = os.path.join(disk, "full.wav")
        for case in cases:
            for work in ("append", "durable", "overwrite", "write") + ("record",) * (case.frame > 1):
                for first in 12000 // case.frame, 12001 // case.frame:
                    full = task(work, case, first, 30000 // case.frame)
                    if work == "write" and case.chunks:
                        continue
                    leave(path, full.before)
                    with open(os.path.join(disk, "filler"), "wb", buffering=0) as file, contextlib.suppress(OSError):
                        while True:
                            file.write(bytes(4096))
                    ran = subprocess.run(words(path, full), stdout=subprocess.DEVNULL)
                    if ran.returncode != 3:
                        raise Wrong(f"{full}: the disk isn't full")
                    is_as_promised(path, full, 3, f"{full}, on a full disk", True)
                    if sorted(os.listdir(disk)) != ["filler", "full.wav"]:
                        raise Wrong(f"{full}: another file is left on the full disk")
                    os.unlink(os.path.join(disk, "filler"))
                    runs += 1
    finally:
        subprocess.run(["umount", disk])
    print(f"a disk that fills up: {runs} runs, none wrong", flush=True)
    return runs


def continued(path, case, durable, at):
    """Interrupts a recorder before a bytecode, and then continues it with the first block that isn't in the file: the
    interruption, and how many frames there are."""
    first, count, is_writing = 3, 2, False
    leave(path, file_of(case, first))
    writer = hound.append_to(path, durable=durable)
    with Interruption(at) as interruption:
        try:
            for _ in range(2):
                block, is_writing = samples_of(case, first, count), True
                writer.write(block)
                first, is_writing = first + count, False
                writer.flush()
            writer.close()
        except Interrupted:
            pass
    if is_writing and interruption.is_at_the_end():
        first += count
    with contextlib.suppress(ValueError):  # It is closed.
        writer.write(samples_of(case, first, count))
        first += count
    writer.close()
    return interruption, first


def in_pieces(call):
    """A call during which four samples are written at once, so that most blocks have several pieces."""

    @functools.wraps(call)
    def called(*arguments):
        length, hound.conversion.BLOCK = hound.conversion.BLOCK, 4
        try:
            return call(*arguments)
        finally:
            hound.conversion.BLOCK = length

    return called


@in_pieces
def interrupt(folder, step):
    """A signal handler that raises, at some bytecodes of each recorder."""
    path, runs = os.path.join(folder, "interrupted.wav"), 0
    for number, (channels, width, durable) in enumerate(itertools.product((1, 2, 3, 5, 6), (1, 2, 3), (False, True))):
        case = Case(f"{8 * width} bits, {channels} channels", channels, width)
        for at in itertools.count(1 + number % step, step):
            what = f"{case.name}, {'' if durable else 'not '}durable, interrupted at {at}"
            try:
                interruption, frames = continued(path, case, durable, at)
            except (hound.HoundError, OSError) as error:
                raise Wrong(f"{what}: {error}") from error
            look(path, case, frames, frames, f"{what}: {interruption.place}")
            runs += 1
            if interruption.place is None:
                break
    print(f"signal handlers that raise, at a bytecode: {runs} recorders, none wrong", flush=True)
    return runs


@in_pieces
def interrupt_changes(folder, step):
    """The same of other calls, which do all or nothing."""
    path, runs = os.path.join(folder, "changed.wav"), 0
    works = [(work, case) for case in CASES for work in ("append", "durable", "overwrite", "repair")]
    for number, (work, case) in enumerate(works + [("write", CASES[0]), ("write", CASES[1])]):
        one = task(work, case, 100, 51)
        for at in itertools.count(1 + number % step, step):
            leave(path, one.before)
            with Interruption(at) as interruption, contextlib.suppress(Interrupted):
                perform(work, path, case, 100, 151)
            with open(path, "rb") as file:
                contents = file.read()
            if work in ("overwrite", "repair"):  # The chunks may be cut off; a repair is done again.
                look(path, case, 100, 151, f"{one}, interrupted at {at}, {interruption.place}", one.after)
            elif contents not in (one.before, one.done):
                at_place = f"{one}, interrupted at {at}, {interruption.place}"
                raise Wrong(f"{at_place}: the file is neither the old nor the new one")
            runs += 1
            if interruption.place is None:
                break
    print(f"signal handlers that raise in an append, a repair or a write: {runs} runs, none wrong", flush=True)
    return runs


def share(folder, turns):
    """Threads that share a recorder: one writes, two flush, and each runs for a short time."""
    sys.setswitchinterval(1e-5)
    path, blocks = os.path.join(folder, "shared.wav"), 200
    for turn in range(turns):
        case, durable = CASES[(0, 2, 6, 8)[turn % 4]], turn % 2 == 1
        errors, is_done, accepted = [], [], []
        leave(path, file_of(case, 0))

        def attempt(call):
            try:
                call()
                return True
            except Exception as error:
                errors.append(error)

        def write():
            for _ in range(blocks):
                if attempt(lambda: writer.write(samples_of(case, 50 * len(accepted), 50))):
                    accepted.append(1)
            is_done.append(True)

        def flush():
            while not is_done:
                attempt(writer.flush)

        try:
            with hound.append_to(path, durable=durable) as writer:
                in_threads(write, flush, flush)
        except (OSError, ValueError) as error:
            errors.append(error)
        if errors:
            raise Wrong(f"threads that share a recorder, {case.name}: {errors[0]!r}")
        look(path, case, 50 * blocks, 50 * blocks, f"threads that share a recorder, {case.name}")
    sys.setswitchinterval(0.005)
    print(f"threads that share a recorder: {turns} runs, none wrong", flush=True)
    return turns


def feed(turns):
    """Pipes that give bytes now and then, which are read in blocks of any length."""
    some = random.Random(2)
    for turn in range(turns):
        case = [case for case in CASES if case.width == 2 and not case.chunks][turn % 2]
        content, got, inner, outer = file_of(case, 500), array.array("h"), *os.pipe()
        at = len(head(case, 0))
        os.set_blocking(inner, False)
        os.write(outer, content[:at])
        with open(inner, "rb", buffering=turn % 3 * 40) as source, open(outer, "wb", buffering=0) as pipe:
            reader = hound.open(source)
            while at < len(content) or len(got) < 500 * case.channels:
                try:
                    got += reader.read(some.choice((1, 7, 64, 1000)))
                except BlockingIOError:
                    if at == len(content):
                        raise Wrong(f"a pipe, {case.name}: bytes are missing after frame {reader.tell()}") from None
                    at += pipe.write(content[at : at + some.randrange(1, 300)])
                if reader.tell() * case.channels != len(got):
                    raise Wrong(f"a pipe, {case.name}: {len(got)} samples are read before frame {reader.tell()}")
        if got != samples_of(case, 0, 500):
            raise Wrong(f"a pipe, {case.name}: other samples are read")
    print(f"pipes that give bytes now and then: {turns} runs, none wrong", flush=True)
    return turns


def find_control(control, tried, *arguments):
    """A wrong version has to be found by what is tried in a forked process."""
    sys.stdout.flush()
    child = os.fork()
    if child == 0:
        VERSIONS[control]()
        TRIED[0] = control
        signal.alarm(60)
        try:
            with open(os.devnull, "w") as output, contextlib.redirect_stdout(output):
                tried(*arguments)
        except Wrong:
            os._exit(9)
        finally:
            os._exit(0)
    _, status = os.waitpid(child, 0)
    if status not in (9 << 8, signal.SIGALRM):  # One that never ends is found, too.
        raise Wrong(f"the wrong version '{control}' isn't found: {status}")
    print(f"control, {control}: found", flush=True)


def tasks(is_short):
    """The tasks whose calls are killed or fail."""
    works = [(work, case) for case in CASES[:6] for work in ("append", "durable", "overwrite", "repair")]
    works += [("write", CASES[0]), ("write", CASES[1])]
    works += [(work, case) for case in CASES[2:5] for work in ("record", "durable record")]
    works += [(work, case) for case in CASES[6:] for work in ("durable", "repair", "durable record")]
    if is_short:
        works = [("durable", CASES[1]), ("overwrite", CASES[0]), ("repair", CASES[1]), ("write", CASES[0])]
        works += [("durable record", CASES[2]), ("durable", CASES[6]), ("record", CASES[8])]
    works += [("create record", CASES[0]), ("create durable record", CASES[3])]
    for work, case in works:
        yield task(work, case, 0 if "create" in work else 100, 4999)
        if case.frame % 2 and not is_short:
            yield task(work, case, 101, 4999)


def find_controls(folder):
    """Each wrong version has to be found, by a kill at one of its calls or by one that fails."""
    for control, case, fault in [
        ("a report before the effect", CASES[0], "KILL"),
        ("each report is that it is done", CASES[0], "ENOSPC"),
        ("no block is written", CASES[0], "ENOSPC"),
        ("kept after a failure", CASES[0], "ENOSPC"),
        ("counted early", CASES[0], "KILL"),
    ]:
        work = "record" if control == "counted early" else "append"
        try:
            runs, wrong = each_call(folder, task(work, case, 100, 4999), [fault], CHANGES, control)
        except Wrong as error:  # It fails by itself.
            runs, wrong = 1, [str(error)]
        print(f"control, {control}: {len(wrong)} of {runs} runs wrong", flush=True)
        if not wrong:
            raise Wrong(f"the wrong version '{control}' isn't found")
    find_control("a block isn't cut off", limit, folder, CASES[:1])
    find_control("effects forgotten", interrupt, folder, 7)
    find_control("blocks forgotten", interrupt, folder, 7)
    find_control("pieces at one place", interrupt, folder, 97)
    find_control("nobody waits", share, folder, 400)  # until a run is wrong
    find_control("all held is returned", feed, 20)


def main():
    count, is_short = int((sys.argv + [200])[1]), sys.argv[2:] == ["short"]
    # The programs find the package where it was found here.
    os.environ["PYTHONPATH"] = os.path.dirname(os.path.dirname(hound.__file__))
    with tempfile.TemporaryDirectory() as folder:
        folder = os.path.realpath(folder)
        find_controls(folder)
        runs = order(folder) + kill(folder, count)
        step = 397 if is_short else 3
        runs += interrupt(folder, step) + interrupt_changes(folder, step)
        runs += share(folder, 8 if is_short else 80) + feed(20 if is_short else 200)
        for one in tasks(is_short):
            done, wrong = each_call(folder, one, ["KILL", "ENOSPC", "EIO +"], CHANGES if is_short else None)
            if wrong:
                raise Wrong("\n".join(wrong))
            print(f"each call killed or failing: {one}: {done} runs, none wrong", flush=True)
            runs += done
        cases = CASES[:2] if is_short else CASES
        runs += limit(folder, cases) + fill(folder, cases)
    print(f"python_faults: {runs} runs, no sample lost and none invented")


if __name__ == "__main__":
    try:
        main()
    except Wrong as error:
        sys.exit(f"python_faults: {error}")
