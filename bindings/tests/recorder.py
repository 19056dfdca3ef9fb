#!/usr/bin/env python3
"""Tries what bindings/c/record.c does at the edges of a recording: files that exist, a folder that can't be synced, two
programs on one file, one that is replaced, an output that nobody reads, standard streams that are closed, an input
without bytes yet or that ends within a frame, disks that are full, files that can't be appended to, and recordings in
parts. Each of its wrong versions has to be found.

usage: recorder.py     (with cc; as root it also tries a folder that can't be read, and a disk that fills up)"""
import functools
import os
import resource
import signal
import stat
import struct
import subprocess
import sys
import tempfile
import time

from recordings import Wrong, accepted_by, changed, compiled, contents_of, expect, part_name, parts_at, text_of

SHAPE = ["48000", "2", "16", "100"]
CHUNK = b"LIST\4\0\0\0INFO"
DATA = bytes(range(1, 251)) * 16  # 1,000 whole frames of two channels with 16 bits
# Wrong versions of record.c: a part, and what is in its place.
WRONG = {
    "a file that exists is emptied": ("(is_emptied ? 0 : O_EXCL)", "0"),
    "a file is emptied before its folder is synced": (
        "open(path, flags | O_CLOEXEC |",
        "open(path, flags | (flags & O_CREAT ? O_TRUNC : 0) |",
    ),
    "a file gets the number of a standard stream": (
        "if (descriptor < 0 || descriptor > STDERR_FILENO) return descriptor;",
        "return descriptor;",
    ),
    "a file that isn't at its path any more is recorded to": (
        "return held.st_dev == there.st_dev && held.st_ino == there.st_ino;",
        "return 1;",
    ),
    "a file that isn't recorded to stays": (
        "give_up(file, path, is_made, HOUND_NOT_PERFORMED)",
        "give_up(file, path, 0, HOUND_NOT_PERFORMED)",
    ),
    "a file without a header stays": ("give_up(file, path, !is_emptied, code)", "give_up(file, path, 0, code)"),
    "no lock": ("flock(descriptor, (is_shared ? LOCK_SH : LOCK_EX) | LOCK_NB)", "0"),
    "a lock is tried once": ("--attempts_left == 0", "1"),
    "a length of data lies across two sectors": (
        "filler = hound_filler((uint64_t)front + length, out + front - 8 + length, HOUND_FILLER_BYTES);",
        "filler = 0;",
    ),
    "a next file has no chunks": ("is_durable, 0, file->header, file->header_length)", "is_durable, 0, NULL, 0)"),
    "an output that nobody reads ends it": ("signal(SIGPIPE, SIG_IGN);", ""),
    "an input without bytes yet is at its end": ("errno == EAGAIN || errno == EWOULDBLOCK", "0"),
    "a torn frame isn't reported": (
        'if (torn > 0) complain("the input ends within a frame, which isn\'t recorded");',
        "",
    ),
    "a fault has no reason": ("if (code < 0 && file.fault) complain(hound_file_text(&file, code));", ""),
    "another fault than the first is the reason": (
        "else if (file->fault == 0) file->fault = errno;",
        "else file->fault = errno;",
    ),
    "a header that counts a part of a frame isn't repaired": ("|| code == HOUND_UNFINISHED_FRAME", ""),
    "a header that counts too much isn't repaired": ("if (code == HOUND_TRUNCATED || ", "if ("),
    "a file of another spec is repaired": (
        "code = hound_file_continues(spec, &found->spec) ?",
        "code = found->counted > found->frames ? HOUND_TRUNCATED : hound_file_continues(spec, &found->spec) ?",
    ),
    "samples of another rate are appended": ("held->sample_rate == spec->sample_rate && ", ""),
    "samples of other channels are appended": (" && held->channels == spec->channels", ""),
    "a missing file isn't begun": ("|| (code < 0 && file->fault == ENOENT)", ""),
    "a rest of a block isn't reported": (
        'if (file.has_rest) complain("a part of a block that was lost stays in the file");',
        "",
    ),
    "a file is taken to count samples that no checkpoint counts": (
        "if (code == 0) file->counted = file->recorder.data_length;",
        "file->counted = file->recorder.data_length;",
    ),
    "a device is taken for a file": ("S_ISREG(about.st_mode)", "1"),
    "a rejected block isn't cut off": (
        "case HOUND_SHORTEN: is_done = hound_file_shorten(file->descriptor, effect->place) == 0;",
        "case HOUND_SHORTEN: is_done = 1;",
    ),
    "a report is taken for done": (
        "file->fault == 0) file->fault = errno;\n    effect->report = is_done ? HOUND_DONE : HOUND_FAILED;",
        "file->fault == 0) file->fault = errno;\n    effect->report = HOUND_DONE;",
    ),
    "a recording that was cut off is overwritten": ("found, HOUND_MEND) :", "found, HOUND_OVERWRITE) :"),
    "an empty file isn't begun anew": ("if (code == HOUND_ENDED || ", "if ("),
    "a file with a part of a header isn't begun anew": ("&& held < effect.length", "&& held == 0"),
    "a file with a part of another header is emptied": ("|| memcmp(there, bytes + done, (size_t)piece)", ""),
    "a header is written in two parts": ("effect->length + next.length <= HOUND_HEADER_BYTES", "0"),
    "a part that exists is emptied": ("file->is_durable, 0, file->header", "file->is_durable, 1, file->header"),
    "a part is ended without its last checkpoint": (
        "    code = hound_file_checkpoint(file);\n    if (code < 0) return hound_file_give_up(&next",
        "    if (code < 0) return hound_file_give_up(&next",
    ),
    "a part that isn't recorded to stays": ("give_up(&next, path, 1, code)", "give_up(&next, path, 0, code)"),
    "a part has a frame more": ("? left : most - held;", "? left : most - held + 1;"),
    "the samples of parts before aren't counted": ("parts++, before = held;", "parts++;"),
    "the name of the second part isn't looked at first": ("if (is_split) check_second(argv[1]);", ""),
    "a name that is too long isn't noticed": ("if (errno != ENOENT || !(folder", "if (!(folder"),
    "the folder of the second part isn't looked at": ('result = access(end ? folder : ".", W_OK | X_OK)', "result = 0"),
    "a number ends where its digits do": (" && !*end", ""),
    "a number may be too large": (" && number <= most", ""),
    "chunks after the data are overwritten": ("found, HOUND_MEND) :", "found, HOUND_MEND | HOUND_OVERWRITE) :"),
}

# A version that is right: of three reports two are lost, so that each effect is performed three times.
LOST = (
    "effect->report = is_done ? HOUND_DONE : HOUND_FAILED;",
    "static int number; effect->report = !is_done ? HOUND_FAILED : ++number % 3 ? HOUND_PENDING : HOUND_DONE;",
)


def counted_in(path):
    """How many samples the header of a file counts; its data begin at byte 44, and it holds them."""
    contents = contents_of(path)
    (length,) = struct.unpack("<I", contents[40:44])
    if contents[44 : 44 + length] != (DATA * 99)[:length]:
        raise Wrong("the file counts samples that weren't given, or that it doesn't hold")
    return length // 2


def run(words, data=DATA, **options):
    return subprocess.run(words, input=data, stdout=subprocess.PIPE, stderr=subprocess.PIPE, timeout=20, **options)


def is_rejected(ran, sentence):
    return (ran.returncode, ran.stdout) == (1, b"") and ran.stderr.startswith(b"record: " + sentence)


def exists(record, path):
    expect("it doesn't record", run([record, path, *SHAPE]).returncode == 0 and counted_in(path) == len(DATA) // 2)
    before = contents_of(path)
    expect("it records over a file", is_rejected(run([record, path, *SHAPE]), b"the file exists"))
    expect("a file that is there changes", contents_of(path) == before)
    ran = run([record, path, *SHAPE, "--overwrite"], DATA[:400])
    expect("--overwrite fails", ran.returncode == 0 and counted_in(path) == 200)
    ran = run([record, path, *SHAPE, "--append"], DATA[400:800])
    expect("--append fails", ran.returncode == 0 and counted_in(path) == 400)


def folder_without_leave(record, path):
    """As a user who may write in a folder and not read it."""
    if os.geteuid() != 0:
        return
    home = os.path.dirname(path)
    drop = os.path.join(home, "drop")
    os.chmod(home, 0o755)
    os.mkdir(drop)
    there, new = os.path.join(drop, "there.wav"), os.path.join(drop, "new.wav")
    run([record, there, *SHAPE])
    os.chmod(there, 0o666)
    os.chmod(drop, 0o733)
    before = contents_of(there)
    nobody = ["setpriv", "--reuid=65534", "--regid=65534", "--clear-groups", record]
    for words in [there, *SHAPE, "--durable", "--overwrite"], [new, *SHAPE, "--durable"]:
        expect("the folder isn't synced", is_rejected(run([*nobody, *words]), b"Permission denied"))
    expect("a recording is emptied that isn't begun anew", contents_of(there) == before)
    expect("an empty file is left", not os.path.exists(new))


def two_programs(record, path):
    first = subprocess.Popen([record, path, *SHAPE], stdin=subprocess.PIPE, stdout=subprocess.PIPE)
    first.stdin.write(DATA)
    first.stdin.flush()
    first.stdout.readline()
    repair = compiled(os.path.dirname(path), "repair", text_of("repair"))
    rejected = [run([record, path, *SHAPE, word]) for word in ("--append", "--overwrite")]
    repaired = run([repair, path])
    first.communicate()
    expect("two programs record to one file", all(is_rejected(ran, b"another program records") for ran in rejected))
    expect("a live recording is repaired", repaired.returncode == 1 and b": another program" in repaired.stderr)
    expect("the first recorder lost samples", counted_in(path) == len(DATA) // 2)
    expect("a lock outlives its program", run([record, path, *SHAPE, "--append"]).returncode == 0)


def locked_for_a_moment(record, path):
    """A follower has locked the file at nine attempts, or at ten: then it is an error."""
    for attempts, status in (9, 0), (10, 1):
        words = ["strace", "-qq", "-o", path + ".log", "-e", "trace=flock"]
        words += ["-e", f"inject=flock:error=EAGAIN:when=1..{attempts}"]
        ran = run([*words, record, path, *SHAPE, "--overwrite"], DATA)
        expect(f"a file that is locked at {attempts} attempts ends it with {ran.returncode}", ran.returncode == status)
        expect("it doesn't record", counted_in(path) == len(DATA) // 2)


def closed_streams(record, path):
    """Started with a standard stream that is closed: the system gives its number to the file that is opened next."""
    for stream, wanted in enumerate((b"", DATA, DATA)):
        ran = run([record, path, *SHAPE], DATA + b"\1", preexec_fn=functools.partial(os.close, stream))
        counted = 2 * counted_in(path)
        expect("a closed stream is no error, or a torn frame", ran.returncode == 1)
        expect("a closed stream is recorded, or gets samples", counted == os.path.getsize(path) - 44 == len(wanted))
        os.remove(path)


def replaced(record, path):
    """Another file is renamed to the path after it was opened, and before it is locked."""
    other, log = path + ".other", path + ".log"
    run([record, path, *SHAPE], DATA[:400])
    run([record, other, *SHAPE], DATA[:800])
    words = ["strace", "-qq", "-o", log, "-e", "trace=openat,flock", "-e", "inject=flock:delay_enter=500000:when=1"]
    pipes = dict.fromkeys(("stdin", "stdout", "stderr"), subprocess.PIPE)
    recorder = subprocess.Popen([*words, record, path, *SHAPE, "--append"], **pipes)
    while not (os.path.exists(log) and path.encode() in contents_of(log)):
        time.sleep(0.01)
    os.rename(other, path)
    recorder.communicate(DATA[800:1200])
    expect("a file that was replaced is recorded to", recorder.returncode == 0 and counted_in(path) == 600)


def closed_output(record, path):
    recorder = subprocess.Popen([record, path, *SHAPE], stdin=subprocess.PIPE, stdout=subprocess.PIPE)
    recorder.stdin.write(DATA)
    recorder.stdin.flush()
    recorder.stdout.readline()
    recorder.stdout.close()
    for _ in range(9):
        time.sleep(0.01)
        try:
            recorder.stdin.write(DATA)
            recorder.stdin.flush()
        except BrokenPipeError:
            raise Wrong("it ends where nobody reads what it prints") from None
    recorder.stdin.close()
    expect("its status is that of an error", recorder.wait() == 0 and counted_in(path) == 10 * len(DATA) // 2)


def slow_input(record, path):
    """A pipe that doesn't block, with pauses and pieces of odd lengths."""
    reading, writing = os.pipe()
    os.set_blocking(reading, False)
    recorder = subprocess.Popen([record, path, *SHAPE], stdin=reading, stdout=subprocess.PIPE, stderr=subprocess.PIPE)
    os.close(reading)
    for first in range(0, len(DATA), 777):
        time.sleep(0.01)
        try:
            os.write(writing, DATA[first : first + 777])
        except BrokenPipeError:
            raise Wrong("it ends before its input does") from None
    os.close(writing)
    recorder.communicate()
    expect("samples of a slow input are lost", recorder.returncode == 0 and counted_in(path) == len(DATA) // 2)


def cut_off(record, path):
    """A recording that was killed: its header counts fewer frames than the file holds, and a part of one is at its
    end."""
    run([record, path, *SHAPE], DATA[:400])
    with open(path, "ab") as file:
        file.write(DATA[400:803])
    expect("--append fails", run([record, path, *SHAPE, "--append"], DATA[800:1200]).returncode == 0)
    expect("frames that the file held are lost", counted_in(path) == 600 and os.path.getsize(path) == 44 + 1200)


def counts_too_much(record, path):
    """A file whose header counts a part of a frame, or more than the file holds, as after a loss of power: a recorder
    never cuts off what is counted, so the file is repaired first."""
    for counted in 6, 8, 200:
        run([record, path, *SHAPE, "--overwrite"], DATA[:8])
        with open(path, "r+b") as file:
            file.truncate(44 + 6)
            file.seek(40)
            file.write(bytes([counted]))
        before = contents_of(path)
        expect("another spec is taken", run([record, path, "8000", *SHAPE[1:], "--append"]).returncode == 1)
        expect("a file of another spec changes", contents_of(path) == before)
        expect("it isn't continued", run([record, path, *SHAPE, "--append"], DATA[4:400]).returncode == 0)
        expect("other samples are in it", counted_in(path) == 200)


def torn_frame(record, path):
    ran = run([record, path, *SHAPE], DATA[:-1])
    expect("a torn frame isn't reported", ran.returncode == 1 and b"within a frame" in ran.stderr)
    expect("its whole frames aren't counted", counted_in(path) == len(DATA) // 2 - 2)


def failing(path, injected):
    """The words by which a call of the system on this file fails."""
    call = injected.split(":")[0]
    return ["strace", "-qq", "-o", "/dev/null", "-P", path, "-e", f"trace={call}", "-e", f"inject={injected}"]


def writes_of(words, path, data=DATA):
    """How many writes a program makes to a file, which is removed again."""
    log = os.path.join(os.path.dirname(path), "log")
    run(["strace", "-qq", "-o", log, "-P", path, "-e", "trace=pwrite64", *words], data)
    count = len(contents_of(log).splitlines())
    for name in os.listdir(os.path.dirname(path)):
        os.remove(os.path.join(os.path.dirname(path), name))
    return count


def limit(length):
    """No file may be longer."""

    def limited():
        signal.signal(signal.SIGXFSZ, signal.SIG_IGN)
        resource.setrlimit(resource.RLIMIT_FSIZE, (length, length))

    return limited


def full_disk(record, path):
    """The header can't be written any more once the blocks of the file can't, by a limit of its length."""
    ran = run([record, path, *SHAPE], preexec_fn=limit(20))
    expect("a file without a whole header is left", is_rejected(ran, b"File too large") and not os.path.exists(path))
    ran = run([record, path, *SHAPE], preexec_fn=limit(1000))
    expect("a full disk isn't named", ran.returncode == 1 and b"record: File too large\n" in ran.stderr)
    said = [int(line) for line in ran.stdout.split() if line.isdigit()]
    expect("samples of a checkpoint are lost", counted_in(path) >= max(said))
    expect("a part of a rejected block stays", os.path.getsize(path) == 44 + 2 * counted_in(path))


def failing_cut(record, path):
    """The part of a block that is there can't be cut off."""
    ran = run([*failing(path, "ftruncate:error=EIO"), record, path, *SHAPE], DATA[:1000], preexec_fn=limit(544))
    expect("the first fault isn't said", ran.returncode == 1 and ran.stderr.startswith(b"record: File too large\n"))
    expect("what stays isn't said", b"record: a part of a block that was lost stays in the file\n" in ran.stderr)
    expect("the part isn't there", os.path.getsize(path) == 544 > 44 + 2 * counted_in(path))


def failing_header(record, path):
    """No size of the header can be written after the first checkpoint, as on a disk that fails."""
    begun = writes_of([record, path, *SHAPE], path, DATA[:400])
    ran = run([*failing(path, f"pwrite64:error=EIO:when={begun + 1}+"), record, path, *SHAPE])
    counted = counted_in(path)
    is_said = b"record: Input/output error\n" in ran.stderr
    expect("why samples aren't counted isn't said", ran.returncode == 1 and is_said)
    expect("how many are counted isn't said", b"record: the header counts only %d samples" % counted in ran.stderr)


def file_without_a_number(record, path):
    """The system can't say which file it is that was made."""
    ran = run([*failing(path, "%fstat:error=EIO"), record, path, *SHAPE])
    expect("the error isn't said", is_rejected(ran, b"Input/output error"))
    expect("a file that isn't recorded to is left", not os.path.exists(path))


def killed_before_the_header(record, path):
    for number, size in (1, 0), (2, 44):
        run([*failing(path, f"pwrite64:signal=KILL:when={number}"), record, path, *SHAPE, "--durable", "--overwrite"])
        expect("a kill leaves a part of a header", os.path.getsize(path) == size)
        expect("it isn't begun anew", run([record, path, *SHAPE, "--append"]).returncode == 0)
        expect("other samples are in it", counted_in(path) == len(DATA) // 2)
        os.truncate(path, 0)
    expect("it is recorded over", is_rejected(run([record, path, *SHAPE]), b"the file exists"))
    ran = run([record, path, *SHAPE, "--durable", "--append"])
    expect("it isn't begun anew", ran.returncode == 0 and counted_in(path) == len(DATA) // 2)
    whole = contents_of(path)
    new = whole[:4] + bytes(4) + whole[8:40] + bytes(4)  # Both sizes are 0 before the first checkpoint.
    for length in 1, 20, 40, 43, 44:
        with open(path, "wb") as file:
            file.write(new[:length])
        ran = run([record, path, *SHAPE, "--append"])
        expect("a part of a new header isn't begun anew", ran.returncode == 0 and contents_of(path) == whole)
    for left in whole[:20], whole[:43], new[:24] + struct.pack("<II", 44100, 4 * 44100) + new[32:43]:
        with open(path, "wb") as file:
            file.write(left)
        ran = run([record, path, *SHAPE, "--append"])
        expect("another header is overwritten", is_rejected(ran, b"the bytes end"))
        expect("a file with another header changes", contents_of(path) == left)
    os.remove(path)
    ran = run([record, path, *SHAPE, "--append"])
    expect("a missing file isn't begun", ran.returncode == 0 and contents_of(path) == whole)
    ran = run([record, os.path.join(path, "file"), *SHAPE, "--append"])
    expect("a file is made in a file", is_rejected(ran, b"Not a directory"))
    ran = run([record, os.path.join(os.path.dirname(path), "none", "file"), *SHAPE, "--append"])
    expect("a folder that is missing is made", is_rejected(ran, b"No such file"))


def another_spec(record, path):
    run([record, path, *SHAPE], DATA[:400])
    before = contents_of(path)
    for shape in ["44100", "2", "16", "100"], ["48000", "1", "16", "100"], ["48000", "2", "8", "100"]:
        said = b"the file has samples of another rate, format or number of channels"
        expect("samples of another spec are appended", is_rejected(run([record, path, *shape, "--append"]), said))
        expect("a file of another spec changes", contents_of(path) == before)
    with open(path, "wb") as file:
        file.write(before[:40] + bytes(4) + before[44:])
    expect("another spec is repaired", run([record, path, "8000", *SHAPE[1:], "--append"]).returncode == 1)
    expect("a file of another spec is repaired", contents_of(path) == before[:40] + bytes(4) + before[44:])


def not_appended(record, path):
    whole = run([record, path, *SHAPE]) and contents_of(path)
    with open(path, "wb") as file:
        file.write(whole + CHUNK)
    expect("chunks are overwritten", is_rejected(run([record, path, *SHAPE, "--append"]), b"chunks or a tag"))
    expect("chunks that aren't overwritten change", contents_of(path) == whole + CHUNK)
    with open(path, "wb") as file:
        file.write(whole[:20] + b"\2\0" + whole[22:])
    said = b"the file holds Microsoft ADPCM, and isn't read: convert it by ffmpeg"
    expect("ADPCM isn't named", is_rejected(run([record, path, *SHAPE, "--append"]), said))
    os.remove(path)
    os.mkfifo(path)
    for words in ["--append"], ["--overwrite"]:
        expect("a pipe is recorded to", is_rejected(run([record, path, *SHAPE, *words]), b"this is no regular file"))
    ran = run([record, "/dev/null", *SHAPE, "--overwrite"])
    expect("a device is recorded to", is_rejected(ran, b"this is no regular file"))
    expect("a pipe isn't left", stat.S_ISFIFO(os.stat(path).st_mode))


def counted_in_parts(path):
    """How many frames each part counts, and the samples of all; each has a header of 44 bytes."""
    counts, data = [], b""
    for name in parts_at(path):
        contents = contents_of(name)
        expect("a part has no header", len(contents) >= 44)
        (length,) = struct.unpack("<I", contents[40:44])
        counts.append(length // 4)
        data += contents[44 : 44 + length]
    return counts, data


def left_by(ran):
    """The samples that a recorder of two channels of 16 bits doesn't say to have lost; and that it lost some."""
    data = accepted_by(ran.stdout, DATA, 2)
    expect("what is lost isn't said", len(data) < len(DATA))
    return data


def in_parts(record, path):
    for words in [], ["--durable"]:
        ran = run([record, path, *SHAPE, "--split", "300", *words])
        expect("it fails", ran.returncode == 0)
        expect("it isn't recorded in parts", counted_in_parts(path) == ([300, 300, 300, 100], DATA))
        said = [*(b"%d" % count for count in range(200, 2001, 200)), b"recorded 2000 samples"]
        expect("it doesn't say how many samples all parts have", ran.stdout.splitlines() == said)
        for name in parts_at(path):
            os.remove(name)
    run([record, path, *SHAPE, "--split", "500"])
    expect("there is an empty part", counted_in_parts(path) == ([500, 500], DATA))
    for words in [], ["5", "--append"]:
        expect("the usage isn't said", is_rejected(run([record, path, *SHAPE, "--split", *words]), b"usage"))


def header_with(chunks):
    """By hand: what a file with these chunks before its samples begins with, up to the name of its data."""
    chunks = [(b"fmt ", struct.pack("<HHIIHH", 1, 2, 48000, 192000, 4, 16)), *chunks]
    laid_out = [name + struct.pack("<I", len(content)) + content + bytes(len(content) % 2) for name, content in chunks]
    body = b"WAVE" + b"".join(laid_out)
    start = 8 + len(body) + 8
    if (start - 4) // 512 != (start - 1) // 512:  # The length of the data would lie across two sectors.
        body += b"JUNK\2\0\0\0\0\0"
    return body


def chunks_before_the_samples(record, path):
    with tempfile.TemporaryDirectory() as folder:
        chunks_from(record, path, folder)


def chunks_from(record, path, folder):
    def file_of(body, data):
        sizes = struct.pack("<I", len(body) + 8 + len(data)), struct.pack("<I", len(data))
        return b"RIFF" + sizes[0] + body + b"data" + sizes[1] + data

    content = bytes(range(1, 251)) * 3
    given, other = (os.path.join(folder, name) for name in ("given", "other"))
    words = [record, path, *SHAPE, "--chunk", f"bext={given}", "--chunk", f"iXML={other}"]
    for length in 1, 8, 223, 224, 225, 226, 227, 602:  # With 225 and 226 the data would begin at byte 514.
        chunks = content[:length], content[: length + 2]
        for name, chunk in zip((given, other), chunks):
            with open(name, "wb") as file:
                file.write(chunk)
        body = header_with([(b"bext", chunks[0]), (b"iXML", chunks[1])])
        expect("it fails", run(words).returncode == 0)
        expect("the chunks aren't before the samples", contents_of(path) == file_of(body, DATA))
        expect("it isn't continued", run([*words, "--append"]).returncode == 0)
        expect("the chunks don't stay", contents_of(path) == file_of(body, DATA * 2))
        begun = file_of(body, b"")
        for cut in {0, 1, 40, len(begun) // 2, len(begun) - 1}:
            with open(path, "wb") as file:
                file.write(begun[:cut])
            expect("a part of its header isn't begun anew", run([*words, "--append"]).returncode == 0)
            expect("it isn't recorded", contents_of(path) == file_of(body, DATA))
        with open(path, "wb") as file:
            file.write(begun[:-1].replace(b"iXML", b"iXMM"))
        ran = run([*words, "--append"])
        expect("a part of another header is begun anew", ran.returncode == 1 and b"iXMM" in contents_of(path))
        os.remove(path)
    expect("it fails in parts", run([*words, "--split", "600"]).returncode == 0)
    parts = [contents_of(name) for name in parts_at(path)]
    expect("not each part has the chunks", parts == [file_of(body, DATA[:2400]), file_of(body, DATA[2400:])])
    for name in parts_at(path):
        os.remove(name)
    for chunk in f"data={given}", f"fmt ={given}", f"bex={given}", "bext", f"bext={given}.not", "bext=":
        ran = run([record, path, *SHAPE, "--chunk", chunk])
        expect(f"{chunk} isn't rejected", ran.returncode == 1 and ran.stderr and not os.path.exists(path))


def wrong_numbers(record, path):
    """Words with a unit, as hound-wav takes them, and others that are no numbers: each is named."""
    for place, name in enumerate(("RATE", "CHANNELS", "BITS", "FRAMES", "--split")):
        for word in "0", "-1", "+1", " 1", "", "1.5", "2GiB", "1h", "44.1k", "5x", "4294967296", "18446744073709551617":
            words = [*SHAPE, "--split", "300"]
            words[place if place < 4 else 5] = word
            said = f"{name} is {word}, and not a whole number".encode()
            expect(f"{word} is taken for {name}", is_rejected(run([record, path, *words]), said))
            expect("a file is begun", not os.path.exists(path))


def part_that_exists(record, path):
    for number, sentence, counts in (2, b"the second file exists", []), (3, b"File exists", [300, 300]):
        name = part_name(path, number)
        with open(name, "wb") as file:
            file.write(b"mine")
        ran = run([record, path, *SHAPE, "--split", "300"])
        expect("it isn't said", ran.returncode == 1 and ran.stderr.startswith(b"record: " + sentence))
        expect("a part that exists is changed", contents_of(name) == b"mine")
        os.remove(name)
        found = counted_in_parts(path) if counts else (counts, b"")
        expect("the parts before it lack samples", found == (counts, DATA[: 4 * sum(counts)]))
        expect("it began", bool(counts) or not os.listdir(os.path.dirname(path)))


def second_part_that_can_t_be_made(record, path):
    """Its name has no room, or its folder can't be written: that is said before the recording begins."""
    home, said = os.path.split(path)[0], b"the second file, whose name ends in -002, can't be made: "
    name = os.path.join(home, "a" * 248 + ".wav")
    ran = run([record, name, *SHAPE, "--split", "300"])
    expect("a long name isn't said", is_rejected(ran, said + b"File name too long"))
    expect("it is recorded", not os.path.exists(name))
    ran = run([record, os.path.basename(name)[4:], *SHAPE, "--split", "300"], cwd=home)
    expect("a name that has room is rejected", ran.returncode == 0)
    if os.geteuid() != 0:
        return
    run([record, path, *SHAPE])
    os.chmod(path, 0o666)
    os.chmod(home, 0o555)
    before = contents_of(path)
    nobody = ["setpriv", "--reuid=65534", "--regid=65534", "--clear-groups", record, path, *SHAPE, "--overwrite"]
    expect("a folder isn't looked at", is_rejected(run([*nobody, "--split", "300"]), said + b"Permission denied"))
    expect("a recording is emptied that can't go on", contents_of(path) == before)
    expect("one file isn't recorded", run(nobody).returncode == 0)


def part_that_can_t_be_ended(record, path):
    """The last write to the first part fails, in its last checkpoint: the block after it is lost, and the next one
    isn't."""
    words = [record, path, *SHAPE[:-1], "1000", "--split", "100"]
    ran = run([*failing(path, f"pwrite64:error=EIO:when={writes_of(words, path)}"), *words])
    expect("the error isn't said", ran.returncode == 1 and b"record: Input/output error\n" in ran.stderr)
    expect("the parts have other samples", counted_in_parts(path) == ([100] * 9, left_by(ran)))


def part_that_has_no_room(record, path):
    """The second part can't be made while the disk is full: none is left, and the first one is whole."""
    ran = run([record, path, *SHAPE, "--split", "100"], preexec_fn=limit(444))
    expect("it isn't recorded", ran.returncode == 0 and counted_in_parts(path) == ([100] * 10, DATA))
    for name in parts_at(path):
        os.remove(name)
    second = part_name(path, 2)
    ran = run([*failing(second, "pwrite64:error=ENOSPC:when=1"), record, path, *SHAPE, "--split", "100"])
    expect("the part isn't made again", counted_in_parts(path) == ([100] * 9, left_by(ran)))
    expect("it isn't said", ran.returncode == 1 and b"record: No space left on device\n" in ran.stderr)


CHECKS = [
    in_parts,
    chunks_before_the_samples,
    wrong_numbers,
    part_that_exists,
    second_part_that_can_t_be_made,
    part_that_can_t_be_ended,
    part_that_has_no_room,
    exists,
    folder_without_leave,
    two_programs,
    locked_for_a_moment,
    closed_output,
    slow_input,
    cut_off,
    torn_frame,
    counts_too_much,
    full_disk,
    failing_cut,
    failing_header,
    file_without_a_number,
    killed_before_the_header,
    another_spec,
    not_appended,
    closed_streams,
    replaced,
]


def first_failure(record):
    """Why a program is wrong, if it is."""
    for check in CHECKS:
        with tempfile.TemporaryDirectory() as folder:
            try:
                check(record, os.path.join(folder, "take.wav"))
            except (Wrong, subprocess.TimeoutExpired) as error:
                return f"{check.__name__}: {error}"
    return None


def main():
    with tempfile.TemporaryDirectory() as folder:
        os.chmod(folder, 0o755)
        text = text_of("record")
        failure = first_failure(compiled(folder, "record", text))
        if failure:
            sys.exit(f"recorder: {failure}")
        failure = first_failure(compiled(folder, "lost", text.replace(*LOST)))
        if failure:
            sys.exit(f"recorder: with reports that are lost: {failure}")
        for number, (what, (part, other)) in enumerate(WRONG.items()):
            if not first_failure(compiled(folder, f"wrong{number}", changed(text, part, other))):
                sys.exit(f"recorder: this wrong version isn't found: {what}")
        print(f"recorder: {len(CHECKS)} checks, also with reports that are lost, and {len(WRONG)} wrong versions found")


if __name__ == "__main__":
    main()
