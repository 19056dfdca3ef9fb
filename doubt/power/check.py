"""Tries what needs no virtual machine: the log of a disk, what a loss of power may leave, and what a file is held to.

usage: python3 doubt/power/check.py"""
import os
import socket
import struct
import sys
import tempfile

sys.dont_write_bytecode = True
import disk
import power


def sector(letter):
    return letter.encode() * disk.SECTOR


def write(number, letters):
    return disk.WRITE, number * disk.SECTOR, b"".join(map(sector, letters))


def answer(number):
    return disk.ANSWER, number, b""


FLUSH = disk.FLUSH, 0, b""


def same(found, wanted, what):
    if found != wanted:
        sys.exit(f"power: {what}: {found} where {wanted} is wanted")


def letters_of(sectors):
    return {number: data[:1].decode() for number, data in sectors.items()}


def a_flush_covers_what_was_answered_before_it():
    log = disk.Log([write(0, "a"), write(1, "b"), answer(0), FLUSH, answer(1), write(0, "c"), answer(5), FLUSH])
    looks = [(3, {}, [0, 1]), (4, {0: "a"}, [1]), (7, {0: "a"}, [1, 5]), (8, {0: "c", 1: "b"}, [])]
    for moment, kept, pending in looks:
        replay = disk.Disk([], log)
        replay.advance(moment)
        same((letters_of(replay.kept), list(replay.pending)), (kept, pending), f"the disk after {moment} entries")
    replay = disk.Disk([(0, sector("x") + sector("y"))], log, one_in=2)
    for moment, kept in [(7, {0: "x", 1: "y"}), (8, {0: "c", 1: "b"})]:
        replay.advance(moment)
        same(letters_of(replay.kept), kept, f"a disk that ignores its first flush, after {moment} entries")


def a_loss_leaves_each_mixture():
    log = disk.Log([write(0, "ab"), write(1, "cd"), answer(0), answer(1)])
    replay = disk.Disk([], log)
    replay.advance(4)
    found = set()
    for turn in range(2000):
        _, lost = replay.lose(disk.chance_of(1, turn))
        found.add("".join(letters_of(lost).get(number, ".") for number in range(3)))
    wanted = {first + second + third for first in ".a" for second in ".bc" for third in ".d"}
    same(found, wanted, "the states of two writes that overlap")
    same(replay.lose(disk.chance_of(3, 7)), replay.lose(disk.chance_of(3, 7)), "a state that is made again")


def a_disk_is_built_and_its_log_is_kept(folder):
    path = os.path.join(folder, "disk")
    with open(path, "wb") as file:
        file.truncate(9 * disk.SECTOR)
        disk.build(file, disk.SECTOR, {0: sector("a"), 1: sector("b"), 6: sector("c")})
    with open(path, "rb") as file:
        zeros = b"\0" * disk.SECTOR
        same(file.read(), zeros + sector("a") + sector("b") + 4 * zeros + sector("c") + zeros, "a disk")
    log = disk.Log([write(3, "ab"), answer(0), FLUSH])
    log.save(path)
    same(disk.Log.load(path).entries, log.entries, "a log that is read")
    with open(path, "r+b") as file:
        file.truncate(os.path.getsize(path) - 1)
    try:
        disk.Log.load(path)
    except (ValueError, struct.error):
        return
    sys.exit("power: a log that was cut off is read")


def a_write_is_answered_after_the_flush_that_came_meanwhile(folder):
    path, address = os.path.join(folder, "served"), os.path.join(folder, "socket")
    with open(path, "wb") as file:
        file.write(sector("a") * 2)
    server = disk.Server(path, address)
    server.start()
    with socket.socket(socket.AF_UNIX) as client:
        client.connect(address)
        head = client.recv(152, socket.MSG_WAITALL)
        same(head[:8] + head[16:24], b"NBDMAGIC" + struct.pack(">Q", 2 * disk.SECTOR), "the disk's greeting")

        def asked(kind, number, data=b""):
            length = disk.SECTOR if kind < 3 else 0
            head = (0x25609513, 0, kind, b"handle%2d" % kind, number * disk.SECTOR, length)
            return struct.pack(">IHH8sQI", *head) + data

        client.sendall(asked(1, 1, sector("b")) + asked(3, 0) + asked(0, 1))
        handles = []
        for length in (0, disk.SECTOR, 0):
            reply = client.recv(16 + length, socket.MSG_WAITALL)
            handles.append(reply[8:16])
        same(handles, [b"handle 3", b"handle 0", b"handle 1"], "the order of answers")
    server.join(10)
    kinds = [kind for kind, _, _ in server.log.entries]
    same((server.fault, kinds), (None, [disk.WRITE, disk.FLUSH, disk.ANSWER]), "what the disk notes")


def wav(counted, samples):
    fmt = struct.pack("<IHHIIHH", 16, 1, 1, 44100, 88200, 2, 16)
    head = b"RIFF" + struct.pack("<I", 36 + 2 * counted) + b"WAVEfmt " + fmt
    return head + b"data" + struct.pack(f"<I{len(samples)}h", 2 * counted, *samples)


def files_are_judged():
    for data, least, most, is_wrong in [
        (None, 0, 9, False),
        (None, 1, 9, True),
        (b"RIFF", 0, 9, False),
        (b"RIFF", 1, 9, True),
        (wav(2, [0, 1, 2]), 2, 3, False),
        (wav(2, [0, 1, 2]), 3, 3, True),
        (wav(2, [0, 1, 2]), 0, 1, True),
        (wav(3, [0, 1]), 0, 9, True),
        (wav(2, [0, 0]), 0, 9, True),
    ]:
        same(power.fault_of(data, least, most) is not None, is_wrong, f"a file of {data}")
    torn = wav(2, [0, 1, 2, 0])
    for after, is_wrong in [
        (wav(4, [0, 1, 2, 0]), False),
        (torn, False),
        (wav(1, [0, 1, 2, 0]), True),
        (wav(3, [0, 1, 2, 0]), True),
        (wav(4, [0, 1, 2, 3]), True),
    ]:
        same(power.fault_of_repair(torn, after, 2) is not None, is_wrong, f"a repair that leaves {after}")


def what_is_expected():
    sessions = [
        power.Session("r0", "durable", 3, 10),
        power.Session("r0", "append", 2, 5),
        power.Session("r1", "plain", 2, 4),
        power.Session("r1", "append", 2, 4),
        power.Session("r2", "durable", 9, 9),
        power.Session("r2", "durable", 2, 3),
    ]
    marks = {
        0: [(1, None), (2, 10), (3, 20)],
        1: [(4, None), (5, 25)],
        2: [(6, None), (7, 4)],
        3: [(8, None), (9, 12)],
        4: [(10, None), (11, 81)],
        5: [(12, None), (13, 3)],
    }
    for moment, wanted in [
        (1, {"r0": (0, 30), "r1": (0, 0), "r2": (0, 0)}),
        (3, {"r0": (20, 30), "r1": (0, 0), "r2": (0, 0)}),
        (4, {"r0": (20, 40), "r1": (0, 0), "r2": (0, 0)}),
        (5, {"r0": (25, 40), "r1": (0, 0), "r2": (0, 0)}),
        (8, {"r0": (25, 40), "r1": None, "r2": (0, 0)}),
        (9, {"r0": (25, 40), "r1": (12, 16), "r2": (0, 0)}),
        (11, {"r0": (25, 40), "r1": (12, 16), "r2": (81, 81)}),
        (12, {"r0": (25, 40), "r1": (12, 16), "r2": None}),
        (13, {"r0": (25, 40), "r1": (12, 16), "r2": (3, 6)}),
    ]:
        same(power.expected(sessions, marks, moment), wanted, f"what is expected after {moment} entries")


def main():
    a_flush_covers_what_was_answered_before_it()
    a_loss_leaves_each_mixture()
    files_are_judged()
    what_is_expected()
    with tempfile.TemporaryDirectory() as folder:
        a_disk_is_built_and_its_log_is_kept(folder)
        a_write_is_answered_after_the_flush_that_came_meanwhile(folder)
    print("power: the log of a disk, its losses and what its files are held to are as they should")


main()
