"""A disk that notes each write and flush, and what it may have where its power goes.

A flush covers the writes that were answered before it came. Every other write since may be on the disk or
not, whole or by sectors, in any order."""
import itertools
import os
import random
import socket
import struct
import threading

SECTOR = 512
WRITE, ANSWER, FLUSH = range(3)
HEAD = struct.Struct("<BQQ")


def runs_of(path):
    """The parts of a file that were written, as places and bytes: the rest are zeros."""
    with open(path, "rb") as file:
        size, end = os.fstat(file.fileno()).st_size, 0
        while end < size:
            try:
                at = os.lseek(file.fileno(), end, os.SEEK_DATA)
            except OSError:  # Nothing follows.
                return
            end = os.lseek(file.fileno(), at, os.SEEK_HOLE)
            yield at, os.pread(file.fileno(), end - at, at)


def sectors_of(place, data):
    """The sectors of these bytes, each with its number."""
    for at in range(0, len(data), SECTOR):
        yield (place + at) // SECTOR, data[at : at + SECTOR]


class Log:
    """What was asked of a disk, in its order: (WRITE, place, bytes), (ANSWER, number of the write's entry, b"")
    once the write was answered, and (FLUSH, 0, b"")."""

    def __init__(self, entries=()):
        self.entries = list(entries)

    def save(self, path):
        with open(path, "wb") as file:
            for kind, place, data in self.entries:
                file.write(HEAD.pack(kind, place, len(data)) + data)

    @staticmethod
    def load(path):
        log = Log()
        with open(path, "rb") as file:
            while head := file.read(HEAD.size):
                kind, place, length = HEAD.unpack(head)
                data = file.read(length)
                if kind > FLUSH or len(data) < length or (kind == ANSWER and place >= len(log.entries)):
                    raise ValueError(f"{path}: entry {len(log.entries)} is none")
                log.entries.append((kind, place, data))
        return log


class Disk:
    """A disk at a moment of its log: `kept` are the sectors that a flush has covered, `pending` the writes that a
    loss of power may undo. It does only one in so many flushes, and ignores the others, where that isn't 1."""

    def __init__(self, image, log, one_in=1):
        self.kept = {number: data for place, run in image for number, data in sectors_of(place, run)}
        self.log, self.moment, self.one_in = log, 0, one_in
        self.pending, self.answered, self.flushes = {}, set(), 0

    def keep(self, numbers):
        for number in numbers:
            self.kept.update(sectors_of(*self.pending.pop(number)))
        self.answered.difference_update(numbers)

    def advance(self, moment):
        """Takes the entries up to this many."""
        for number in range(self.moment, moment):
            kind, place, data = self.log.entries[number]
            if kind == WRITE:
                self.pending[number] = place, data
            elif kind == ANSWER:
                if place in self.pending:
                    self.answered.add(place)
            else:
                self.flushes += 1
                if self.flushes % self.one_in == 0:
                    self.keep(sorted(self.answered))
        self.moment = moment

    def lose(self, chance):
        """The sectors that a loss of power here leaves other than as they are kept: of all pending writes, of none, of
        all but one, of one, of some, or of some sectors, each of them as any write left it."""
        writes = list(self.pending.values())
        how = chance.choice(["all", "none", "all but one", "one", "some writes", "some sectors", "some sectors"])
        share, one = chance.random(), chance.randrange(len(writes)) if writes else 0
        left = {}
        for number, (place, data) in enumerate(writes):
            for sector, contents in sectors_of(place, data):
                left.setdefault(sector, []).append((number, contents))
        taken = {
            "all": lambda number: True,
            "none": lambda number: False,
            "all but one": lambda number: number != one,
            "one": lambda number: number == one,
        }.get(how)
        if how == "some writes":
            some = {number for number in range(len(writes)) if chance.random() < share}
            taken = some.__contains__
        lost = {}
        for sector, versions in left.items():
            if how == "some sectors":
                versions = [chance.choice(versions)] if chance.random() < share else []
            else:
                versions = [version for version in versions if taken(version[0])]
            if versions:
                lost[sector] = versions[-1][1]
        return how, lost


def build(file, begin, sectors):
    """Writes a disk of these sectors into a file without contents, from this byte on."""
    numbers = enumerate(sorted(sectors))
    for _, run in itertools.groupby(numbers, lambda pair: pair[1] - pair[0]):
        run = [number for _, number in run]
        os.pwrite(file.fileno(), b"".join(sectors[number] for number in run), begin + run[0] * SECTOR)


class Server(threading.Thread):
    """Serves a file as a disk over a socket (NBD, with its old handshake), and notes what is asked of it. A write is
    answered late, when nothing more is asked, so that a flush finds writes that are in flight."""

    READ, ASK_WRITE, DISCONNECT, ASK_FLUSH = range(4)
    DELAY = 0.002
    MOST_IN_FLIGHT = 64

    def __init__(self, path, address):
        super().__init__(daemon=True)
        self.file = open(path, "r+b")
        self.listening = socket.socket(socket.AF_UNIX)
        self.listening.bind(address)
        self.listening.listen(1)
        self.log, self.in_flight, self.fault = Log(), [], None

    def receive(self, count):
        parts = bytearray()
        while len(parts) < count:
            part = self.client.recv(count - len(parts))
            if not part:
                raise EOFError
            parts += part
        return bytes(parts)

    def reply(self, handle, data=b""):
        self.client.sendall(struct.pack(">II", 0x67446698, 0) + handle + data)

    def answer_writes(self):
        for number, handle in self.in_flight:
            self.log.entries.append((ANSWER, number, b""))
            self.reply(handle)
        self.in_flight = []

    def serve(self):
        has_flags, can_flush = 1, 4
        size = os.fstat(self.file.fileno()).st_size
        self.client.sendall(struct.pack(">8sQQI124x", b"NBDMAGIC", 0x420281861253, size, has_flags | can_flush))
        while True:
            self.client.settimeout(self.DELAY if self.in_flight else None)
            try:
                first = self.client.recv(1)
            except socket.timeout:
                self.answer_writes()
                continue
            self.client.settimeout(None)
            if not first:
                return
            magic, _, kind, handle, place, count = struct.unpack(">IHH8sQI", first + self.receive(27))
            if magic != 0x25609513 or kind > self.ASK_FLUSH:
                raise ValueError(f"a request of kind {kind}")
            if kind == self.DISCONNECT:
                return
            if kind == self.READ:
                self.reply(handle, os.pread(self.file.fileno(), count, place))
            elif kind == self.ASK_FLUSH:
                self.log.entries.append((FLUSH, 0, b""))
                self.reply(handle)
            else:
                data = self.receive(count)
                os.pwrite(self.file.fileno(), data, place)
                self.in_flight.append((len(self.log.entries), handle))
                self.log.entries.append((WRITE, place, data))
                if len(self.in_flight) >= self.MOST_IN_FLIGHT:
                    self.answer_writes()

    def run(self):
        try:
            self.client, _ = self.listening.accept()
            self.serve()
        except EOFError:
            pass
        except (OSError, ValueError, struct.error) as fault:
            self.fault = fault


def chance_of(seed, turn):
    """What decides a state: the same for the same seed and turn, whatever the other states are."""
    return random.Random(f"{seed}/{turn}")
