"""Lets a virtual machine record on a disk that notes each write and flush, takes its power away at thousands of
moments, and looks at what its files are then: each time a second machine mounts what the disk may have, with some
of the writes that no flush has covered, and reads and repairs the files.

usage: doubt/faults.py power [STATES] [SEED] [--fs NAME,..] [--control NAME,..] [--log FOLDER] [--turn N] [--c]

STATES states (500) are divided among the file systems, and a fifth as many more among the controls: recorders that
leave out a sync, or a disk that does, for which the test has to find wrong states. `--fs` and `--control` choose
some of each, or `none`. `--log` is a folder with a recording that was made, or for one; `--turn` is one of its states.
With `--c` the recorder is bindings/c/record.c, and else the example `record`."""
import argparse
import atexit
import collections
import concurrent.futures
import os
import re
import shutil
import struct
import subprocess
import sys
import tempfile
import time

sys.dont_write_bytecode = True
import disk
import guest

TOP = os.path.dirname(os.path.dirname(os.path.dirname(os.path.abspath(__file__))))
EXAMPLES = os.path.join(TOP, "crates/hound_examples/out/hound_examples")
HEADER = 44
SPARE = 4096  # Bytes past the file system, for the marks.
SLOT = 4 << 20  # Bytes of the answer about a state.
BLOCK = 4096  # A file is given in blocks; one that can't be read is given as zeros.
AT_ONCE = 100  # States that a machine looks at.
NOT_RUN = 3  # The status where something is missing.

# How a file system is made, and checked: before each mount, as a machine does where there is no journal, or where a
# mount fails. Whether the recording machine writes early, 0.1 seconds after a program has written, and not after 30
# seconds as usual: on vfat it doesn't, since Linux may then leave a file's size out of a sync (`vfat-early`).
FIELDS = "kind mebibytes make modules before_mount if_it_fails is_early"
FileSystem = collections.namedtuple("FileSystem", FIELDS, defaults=["", "", True])
VFAT = FileSystem("vfat", 40, "mkfs.vfat -F 32 -s 1", ["vfat", "nls_cp437", "nls_ascii", "nls_utf8"], "fsck.vfat -a -w")
FILE_SYSTEMS = {
    "ext4": FileSystem(
        "ext4",
        32,
        "mkfs.ext4 -q -F -b 4096 -J size=4 -E lazy_itable_init=0,lazy_journal_init=0,nodiscard",
        [],
        if_it_fails="e2fsck -fy",
    ),
    "vfat": VFAT._replace(is_early=False),
    "vfat-early": VFAT,
    "xfs": FileSystem("xfs", 320, "mkfs.xfs -q -K", ["xfs"]),
    "btrfs": FileSystem("btrfs", 128, "mkfs.btrfs -q -f -K", ["crc32c_generic", "btrfs"]),
}
USUAL = ["ext4", "vfat", "xfs"]

# The name of a file. It is long, so that on vfat it takes more than one sector of the folder, which no sync of the file
# writes whole.
NAME = "recording-with-a-long-name-whose-folder-has-to-be-synced-{}.wav"

# A recorder that begins a file, or appends to one: so many batches of so many samples. One is killed after this many.
Session = collections.namedtuple("Session", "file kind lots length killed", defaults=[None])
ALONE = [
    Session("r0", "durable", 40, 1),
    Session("r1", "durable", 40, 40),
    Session("r2", "durable", 30, 700),
    Session("r3", "durable", 6, 9000),
]
SESSIONS = [
    *ALONE,
    Session("r4", "plain", 10, 50),
    Session("r4", "append", 20, 50),
    Session("r5", "durable", 40, 30, killed=15),
    Session("r5", "append", 15, 30),
    Session("r6", "durable", 20, 60),
    Session("r6", "durable", 10, 20),
]
WORDS = {"plain": [], "durable": ["durable"], "append": ["durable", "append"]}
RECORD_C = os.path.join(tempfile.gettempdir(), f"record_c_{os.getpid()}")

# A trial that has to find wrong states, since something is left out: syncs of the recorder, which strace fakes, or
# three of four flushes of the disk. The syncs of a new file: itself and its folder by `fsync`, the header by `fsync`,
# then by `fdatasync` in turn sizes and samples.
Control = collections.namedtuple("Control", "fs sessions left_out")
CONTROLS = {
    "no-sync": Control("ext4", ALONE, ["fsync:retval=0", "fdatasync:retval=0"]),
    "no-sync-of-samples": Control("ext4", ALONE, ["fsync:retval=0:when=3", "fdatasync:retval=0:when=2+2"]),
    "no-sync-of-sizes": Control("ext4", ALONE, ["fdatasync:retval=0:when=1+2"]),
    "no-sync-of-folder": Control(
        "vfat",
        [Session(f"r{number}", "durable", 5, 40) for number in range(20)],
        ["fsync:retval=0:when=2"],
    ),
    "deaf-disk": Control("ext4", ALONE, []),
}
# The same for record.c, which has no sync of the header, and calls `fsync` alone.
LEFT_OUT_IN_C = {
    "no-sync": ["fsync:retval=0"],
    "no-sync-of-samples": ["fsync:retval=0:when=3+2"],
    "no-sync-of-sizes": ["fsync:retval=0:when=4+2"],
}


def words_of(session, file):
    """The recorder's words."""
    if os.path.exists(RECORD_C):
        words = ["--" + word for word in WORDS[session.kind]]
        return [os.path.basename(RECORD_C), file, "44100", "1", "16", str(session.length), *words]
    return ["record", file, str(session.length), *WORDS[session.kind]]


def compile_record_c():
    """Compiles record.c, with the library that the packages take."""
    library = os.environ.get("HOUND_C_LIB") or os.path.join(TOP, "bindings/lib", os.uname().machine + "-linux")
    source, archive = os.path.join(TOP, "bindings/c/record.c"), os.path.join(library, "libhound_c.a")
    compiler = [os.environ.get("CC", "cc"), "-O1", "-I" + os.path.dirname(source)]
    subprocess.run([*compiler, source, archive, "-o", RECORD_C], check=True)


def fresh(path, system):
    """Makes a disk with an empty file system, and room for the marks past it."""
    size = system.mebibytes << 20
    with open(path, "wb") as file:
        file.truncate(size)
    subprocess.run([*system.make.split(), path], check=True, stdout=subprocess.DEVNULL, stderr=subprocess.DEVNULL)
    os.truncate(path, size + SPARE)
    return size


def script_of(sessions, system, size, left_out):
    """What the recording machine does. A mark is a block, written past the file system and not flushed: what the
    recorder has said by then. The recorder stops while it is written. Another program writes a file beside it.
    The samples count up; a file that is appended to says how many it has."""
    early = "echo 5 > /proc/sys/vm/dirty_writeback_centisecs; echo 10 > /proc/sys/vm/dirty_expire_centisecs"
    in_file, in_header = "$(stat -c %s $file) / 2 - 22", "$(od -A n -t u4 -j 40 -N 4 $file) / 2"
    held = in_file if os.path.exists(RECORD_C) else in_header
    lines = [
        f"""
mark() {{
    echo "mark $1 $2" | dd of=/dev/vda bs={SPARE} seek={size // SPARE} conv=sync,notrunc oflag=direct
}}
session() {{
    number=$1; last=$2; count=$3; file=$4; shift 4
    first=0
    [ "$file" = - ] || first=$(({held}))
    tail -c +$((2 * first + 1)) /bin/samples | head -c $((2 * count)) > /tmp/given
    mark $number begun
    "$@" < /tmp/given > /tmp/lines &
    recorder=$!
    while read line; do
        [ "$line" = "${{line#* }}" ] || continue
        kill -STOP $recorder
        mark $number $line
        [ "$line" != "$last" ] || kill -KILL $recorder
        kill -CONT $recorder
    done < /tmp/lines
    wait $recorder
    echo "recorded $number: $?"
}} 2> /dev/null
{early if system.is_early else "true"}
mount -t {system.kind} /dev/vda /disk || echo guest: no mount
mkfifo /tmp/lines
ln -s /bin/hound_examples /bin/record # The name says which example runs.
while usleep 20000; do
    dd if=/dev/urandom of=/disk/other bs=4096 count=25 {"" if system.is_early else "oflag=direct"} 2> /dev/null
done &
"""
    ]
    tracing = ["strace", "-o", "/dev/null", "-e", "trace=fsync,fdatasync"] if left_out else []
    for calls in left_out:
        tracing += ["-e", f"inject={calls}"]
    for number, session in enumerate(sessions):
        last = session.killed * session.length if session.killed else "-"
        file = "/disk/" + NAME.format(session.file)
        before = file if session.kind == "append" else "-"
        words = words_of(session, file)
        numbers = [str(number), str(last), str(session.lots * session.length)]
        lines.append(" ".join(["session", *numbers, before, *tracing, *words]))
    return "\n".join(lines)


def record(folder, system, sessions, left_out):
    """Lets a machine record on a new disk of this file system, and leaves in the folder what the disk was and its
    log."""
    image, used, initial, address = (os.path.join(folder, part) for part in ("image", "used", "initial", "socket"))
    size = fresh(image, system)
    subprocess.run(["cp", "--sparse=always", image, used], check=True)
    samples = os.path.join(folder, "samples")
    with open(samples, "wb") as file:
        file.write(struct.pack("<65536h", *(index & 0x7FFF for index in range(65536))))
    programs = [EXAMPLES, samples, shutil.which("strace"), *(path for path in [RECORD_C] if os.path.exists(path))]
    guest.initial_files(initial, system.modules, programs, script_of(sessions, system, size, left_out))
    server = disk.Server(used, address)
    server.start()
    drives = ["-blockdev", f"driver=nbd,server.type=unix,server.path={address},node-name=disk"]
    drives += ["-device", "virtio-blk-pci,drive=disk,write-cache=on,num-queues=1,discard=off,write-zeroes=off"]
    begun = time.time()
    said = guest.ended(guest.start(initial, drives), 600)
    server.join(30)
    if server.fault:
        raise server.fault
    for number, session in enumerate(sessions):
        status = 137 if session.killed else 0
        if f"recorded {number}: {status}\n" not in said:
            raise RuntimeError("the recorders didn't do as the script says:\n" + said)
    server.log.save(os.path.join(folder, "log"))
    os.remove(used)
    return time.time() - begun


def marks_of(log, size):
    """Per session its marks: the entry from which on one holds, and what it says."""
    marks = collections.defaultdict(list)
    for at, (kind, place, data) in enumerate(log.entries):
        if kind == disk.WRITE and place == size:
            number, words = re.match(rb"mark (\d+) (\w+)\n", data).groups()
            marks[int(number)].append((at + 1, None if words == b"begun" else int(words)))
    return marks


def expected(sessions, marks, moment):
    """Per file how many samples it has at least and at most at this moment, or None where nothing is promised: of a
    plain one, and of one that is begun anew over another until something of it is published."""
    found = {session.file: (0, 0) for session in sessions}
    held = dict.fromkeys(found, 0)
    for number, session in enumerate(sessions):
        said = [count for at, count in marks[number] if at <= moment]
        if not said:
            continue
        file, total, published = session.file, session.lots * session.length, said[-1]
        if session.kind == "append":
            held[file] += total
            least = published if published is not None else found[file] and found[file][0]
            found[file] = None if least is None else (least, held[file])
        elif session.kind == "plain":
            held[file], found[file] = total, None
        else:
            found[file] = (published, total) if published is not None else None if held[file] else (0, total)
            held[file] = total
    return found


def has_header(data):
    if data is None or len(data) < HEADER:
        return False
    return data[:4] == b"RIFF" and data[8:16] == b"WAVEfmt " and data[36:40] == b"data"


def count_of(data):
    return struct.unpack("<I", data[40:44])[0] // 2


def fault_of(data, least, most):
    """What is wrong with a file, if anything."""
    if not has_header(data):
        return "it has no header" if least and data else "there is none" if least else None
    count = count_of(data)
    if len(data) < HEADER + 2 * count:
        return f"it counts {count} samples and holds {(len(data) - HEADER) // 2}"
    if data[HEADER : HEADER + 2 * count] != struct.pack(f"<{count}h", *(index & 0x7FFF for index in range(count))):
        return f"one of its {count} samples is another"
    if not least <= count <= most:
        return f"it counts {count} samples"
    return None


def fault_of_repair(before, after, least):
    """What is wrong with a repaired file: samples are missing, are others than before, or not those that it holds."""
    if not has_header(before):
        return None
    if not has_header(after) or after[HEADER : len(before)] != before[HEADER:]:
        return "the repair changes a sample"
    count = count_of(after)
    if count < max(least, count_of(before)):
        return f"repaired, it counts {count} samples"
    if after != before and count != (len(before) - HEADER) // 2:
        return f"repaired, it counts {count} samples and holds {(len(before) - HEADER) // 2}"
    return None


def checks_of(system):
    """The programs that check it."""
    return [shutil.which(command.split()[0]) for command in (system.before_mount, system.if_it_fails) if command]


def script_of_looks(system, size, count):
    """What the second machine does with each disk: it mounts it, gives the files, repairs them and gives them again."""
    checks = system.before_mount, system.if_it_fails
    before, after = (f"{command} /dev/loop0 > /dev/null" if command else "true" for command in checks)
    mount = f"mount -t {system.kind} /dev/loop0 /disk"
    return f"""
files() {{
    stat -c '%s %n' /disk/*.wav; echo
    for file in /disk/*.wav; do dd if=$file bs={BLOCK} conv=sync,noerror; done
}}
ln -s /bin/hound_examples /bin/mend # The name says which example runs.
look() {{
    {before}
    {mount} || {{ {after}; {mount}; }} || return
    echo mounted; files
    for file in /disk/*.wav; do mend $file --yes > /dev/null; done
    files
    umount /disk
}}
for state in $(seq 0 {count - 1}); do
    losetup -o $((state * {size})) /dev/loop0 /dev/vda
    look 2> /dev/null | dd of=/dev/vdb bs={SLOT} seek=$state conv=notrunc iflag=fullblock 2> /dev/null
    losetup -d /dev/loop0
done
sync
"""


def answer_of(data):
    """What the second machine says of a disk: its files by name before and after the repair, or None if it has no
    mount."""
    if not data.startswith(b"mounted\n"):
        return None
    looks, at = [], len(b"mounted\n")
    for _ in range(2):
        end = data.index(b"\n\n", at - 1) + 1
        sizes = [line.split() for line in data[at:end].decode().split("\n") if line]
        at, files = end + 1, {}
        for size, name in sizes:
            files[os.path.basename(name)[-len("r0.wav") : -len(".wav")]] = data[at : at + int(size)]
            at += -(-int(size) // BLOCK) * BLOCK
        looks.append(files)
    return looks


def look(folder, system, size, states):
    """Lets a machine look at these disks, and returns what it found in each."""
    disks, answers, initial = (os.path.join(folder, part) for part in ("disks", "answers", "initial"))
    with open(disks, "wb") as file:
        file.truncate(len(states) * size)
        for number, sectors in enumerate(states):
            disk.build(file, number * size, sectors)
    with open(answers, "wb") as file:
        file.truncate(len(states) * SLOT)
    script = script_of_looks(system, size, len(states))
    guest.initial_files(initial, system.modules, [EXAMPLES, *checks_of(system)], script)
    drives = []
    for path in (disks, answers):
        drives += ["-drive", f"file={path},format=raw,if=virtio,cache=unsafe"]
    guest.ended(guest.start(initial, drives), 1200)
    with open(answers, "rb") as file:
        found = [answer_of(os.pread(file.fileno(), SLOT, number * SLOT)) for number in range(len(states))]
    os.remove(disks)
    os.remove(answers)
    return found


class Trial:
    """Losses of power of one recording."""

    def __init__(self, name, control, folder, is_kept):
        self.name, self.control, self.folder, self.is_kept = name, control, folder, is_kept
        self.system = FILE_SYSTEMS[name]
        self.size = self.system.mebibytes << 20
        what = CONTROLS[control] if control else Control(name, SESSIONS, [])
        self.sessions, self.left_out = what.sessions, what.left_out
        if os.path.exists(RECORD_C):
            self.left_out = LEFT_OUT_IN_C.get(control, self.left_out)
        self.wrong, self.counts = [], collections.Counter()

    def prepare(self):
        if not os.path.exists(os.path.join(self.folder, "log")):
            os.makedirs(self.folder, exist_ok=True)
            took = record(self.folder, self.system, self.sessions, self.left_out)
            print(f"power: {self.name}: recorded in {took:.0f} seconds", flush=True)
        self.log = disk.Log.load(os.path.join(self.folder, "log"))
        self.marks = marks_of(self.log, self.size)
        self.image = list(disk.runs_of(os.path.join(self.folder, "image")))

    def states(self, seed, turns):
        """Each turn's moment, and the disk that a loss of power leaves then; earlier moments come first."""
        first = self.marks[0][0][0]
        chances = {turn: disk.chance_of(seed, turn) for turn in turns}
        moments = {turn: chances[turn].randrange(first, len(self.log.entries) + 1) for turn in turns}
        replay = disk.Disk(self.image, self.log, 4 if self.control == "deaf-disk" else 1)
        for turn in sorted(turns, key=moments.get):
            replay.advance(moments[turn])
            how, lost = replay.lose(chances[turn])
            kept = {**replay.kept, **lost}
            sectors = {number: data for number, data in kept.items() if number * disk.SECTOR < self.size}
            yield turn, moments[turn], how, sectors
            most = "writes that could be lost, at most"
            self.counts[most] = max(self.counts[most], len(replay.pending))

    def judge(self, turn, moment, how, found):
        """Notes what is wrong with a state."""
        before, after = found or ({}, {})
        self.counts["states"] += 1
        self.counts["disks that have no mount"] += found is None
        for file, bounds in expected(self.sessions, self.marks, moment).items():
            least, most = bounds or (0, 0)
            pair = before.get(file), after.get(file)
            fault = bounds and (fault_of(pair[0], least, most) or fault_of_repair(*pair, least))
            self.counts["files read"] += file in before
            found_more = all(map(has_header, pair)) and count_of(pair[1]) > count_of(pair[0])
            self.counts["repairs that found more"] += found_more
            if fault:
                where = f"{self.name}, entry {moment} of {len(self.log.entries)} ({how}), {file}.wav"
                self.wrong.append((turn, f"{where}: {least} samples were published, and {fault}"))

    def run(self, seed, turns):
        batches, batch = [], []
        folders = tempfile.TemporaryDirectory(prefix="hound_power_")
        with concurrent.futures.ThreadPoolExecutor(2) as pool, folders as folder:

            def begin():
                place = os.path.join(folder, str(len(batches)))
                os.mkdir(place)
                states = [state[3] for state in batch]
                looked = pool.submit(look, place, self.system, self.size, states)
                batches.append(([state[:3] for state in batch], looked))

            for state in self.states(seed, turns):
                batch.append(state)
                if len(batch) == AT_ONCE:
                    begin()
                    batch = []
            if batch:
                begin()
            for states, looking in batches:
                for (turn, moment, how), found in zip(states, looking.result()):
                    self.judge(turn, moment, how, found)

    def report(self, seed, took):
        """Says how many states are wrong; of a control one of them, and of the others how each is made again."""
        turns = {turn for turn, _ in self.wrong}
        what = f"{self.name}, {self.control or 'nothing left out'}"
        counts = ", ".join(f"{name}: {count}" for name, count in self.counts.items() if name != "states")
        done = f"{self.counts['states']} states, {len(turns)} wrong; {counts}; seed {seed}, {took:.0f} seconds"
        print(f"power: {what}: {done}", flush=True)
        if self.control:
            for _, words in self.wrong[:1]:
                print(f"power: as it must be: {words}", flush=True)
        elif self.wrong:
            kept = self.folder
            if not self.is_kept:
                kept = tempfile.mkdtemp(prefix="hound_power_wrong_")
                for part in ("image", "log"):
                    shutil.copy(os.path.join(self.folder, part), kept)
            for turn, words in self.wrong[:20]:
                again = f"doubt/faults.py power 1 {seed} --fs {self.name} --control none --log {kept} --turn {turn}"
                print(f"power: wrong: {words}\n    again: {again}", flush=True)
        return len(turns)


def missing():
    """What isn't here, or None."""
    programs = {
        "qemu-system-x86_64": "qemu-system-x86",
        "busybox": "busybox-static",
        "strace": "strace",
        "mkfs.ext4": "e2fsprogs",
        "mkfs.vfat": "dosfstools",
        "mkfs.xfs": "xfsprogs",
    }
    packages = sorted({package for program, package in programs.items() if not shutil.which(program)})
    if packages:
        return f"programs are missing: apt-get install --no-install-recommends {' '.join(packages)}"
    if "ld-linux" in subprocess.run(["ldd", shutil.which("busybox")], capture_output=True, text=True).stdout:
        return "busybox needs libraries: apt-get install busybox-static"
    try:
        guest.kernel()
    except guest.NotHere as fault:
        return str(fault)
    return None


def main():
    parser = argparse.ArgumentParser(prog="doubt/faults.py power", usage=__doc__.split("usage: ")[1].split("\n")[0])
    parser.add_argument("states", nargs="?", type=int, default=500)
    parser.add_argument("seed", nargs="?", type=int, default=1)
    parser.add_argument("--fs", default=",".join(USUAL))
    parser.add_argument("--control")
    parser.add_argument("--log")
    parser.add_argument("--turn", type=int)
    parser.add_argument("--c", action="store_true")
    options = parser.parse_args()
    lacks = missing()
    if lacks:
        print(f"power: not run: {lacks}")
        sys.exit(NOT_RUN)
    names = [] if options.fs == "none" else options.fs.split(",")
    if options.control is None:
        controls = list(CONTROLS)
    else:
        controls = [] if options.control == "none" else options.control.split(",")
    trials = [(name, None, options.states // len(names)) for name in names]
    trials += [(CONTROLS[control].fs, control, options.states // 5 // len(controls)) for control in controls]
    if options.c:
        compile_record_c()
        atexit.register(os.remove, RECORD_C)
    failed, since = False, time.time()
    for name, control, states in trials:
        with tempfile.TemporaryDirectory(prefix="hound_power_") as folder:
            trial, begun = Trial(name, control, options.log or folder, bool(options.log)), time.time()
            try:
                trial.prepare()
                trial.run(options.seed, [options.turn] if options.turn is not None else range(states))
            except RuntimeError as fault:
                sys.exit(f"power: {name}, {control}: {fault}")
            wrong = trial.report(options.seed, time.time() - begun)
            failed = failed or (wrong > 0) == (control is None)
    ended = "no state is wrong but those of the controls, and each of these finds some"
    if failed:
        ended = "a state is wrong, or a control finds none"
    print(f"power: {ended}; {time.time() - since:.0f} seconds")
    sys.exit(failed)


if __name__ == "__main__":
    main()
