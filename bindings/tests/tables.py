#!/usr/bin/env python3
"""The tables of docs/PROVING.md beside the library: each row has a case, which brings a machine by calls of hound.h to
where the first columns say, and asks whether it then does what the others say. What a case expects is written by hand,
from the words of its row. A row without a case is an error, and so is a case whose row is gone.

usage: tables.py     (with the package hound_bindings on the path)"""
import ctypes
import os
import re
import struct
import sys

TOP = os.path.dirname(os.path.dirname(os.path.dirname(os.path.abspath(__file__))))
sys.path.insert(0, os.path.join(TOP, "bindings", "python", "tests"))
import wav  # noqa: E402

from hound_bindings import Cause, State, _library  # noqa: E402
from hound_bindings._library import (  # noqa: E402
    DONE, FAILED, NOTHING_NEW, POINTER, READ, SHORTEN, SIZE, SYNC, U64, WRITE, WRITE_BLOCK, CFollower, CInfo,
    CRecorder, CRepair, CRepairer, CSpec, CWalk,
)  # fmt: skip

INT, NUMBER = ctypes.c_int32, ctypes.c_uint32
BEGIN = _library.function("recorder_begin", POINTER, POINTER, result=INT)
RESUME = _library.function("recorder_resume", POINTER, NUMBER, POINTER, result=INT)
WRITE_SAMPLES = _library.function("recorder_write", POINTER, U64, result=INT)
CHECKPOINT = _library.function("recorder_checkpoint", POINTER, result=None)
NEXT = _library.function("recorder_next", POINTER, result=INT)
FIND_DAMAGE = _library.function("find_damage", POINTER, SIZE, POINTER, result=INT)
REPAIRER_BEGIN = _library.function("repairer_begin", U64, NUMBER, POINTER, result=None)
REPAIRER_NEXT = _library.function("repairer_next", POINTER, POINTER, result=INT)
WALK_NEXT = _library.function("walk_next", POINTER, POINTER, result=INT)
FOLLOWER_NEXT = _library.function("follower_next", POINTER, result=INT)
PENDING, NOTHING, MEND, OVERWRITE, FIND, REPAIR = 0, 0, 1, 2, 0, 1
PHASES, HEALTHS = ("Idle", "Saving", "Requested", "Writing", "Cleaning"), ("Sound", "Suspect", "Dead")
# Two channels of 16 bits: a frame has four bytes, and the data begin at 44.
SPEC, FRAME, START = CSpec(8000, 2, 16, 2, 0), 4, 44
CASES = {}


def case(*cells):
    """A case of the row with these cells."""

    def add(test):
        if cells in CASES:
            sys.exit(f"tables: two cases of {cells}")
        CASES[cells] = test
        return test

    return add


def must(holds, what):
    if not holds:
        raise AssertionError(what)


def same(got, wanted):
    must(got == wanted, f"{got} for {wanted}")


def failed_with(cause):
    return -int(cause)


# ---- recorders


def place_of(r):
    """How a recorder is, without what it requests."""
    return PHASES[r.phase], HEALTHS[r.health], r.number, r.has_rest, r.data_length


def requests(machine):
    """What a machine requests: the kind, and what it has of a place, a length and bytes."""
    effect = machine.effect
    kept = bytes(effect.bytes)[: effect.length] if effect.kind == WRITE else b""
    return effect.kind, effect.place, effect.length, kept


def goes_on(r, report=PENDING):
    r.effect.report = report
    return NEXT(ctypes.byref(r))


def settled(r):
    """Performs all of a request, and returns what was requested, and the last result."""
    done, code = [], goes_on(r)
    while code == 1:
        done.append(requests(r))
        code = goes_on(r, DONE)
    return done, code


def begun():
    r = CRecorder()
    same(BEGIN(ctypes.byref(SPEC), ctypes.byref(r)), 0)
    return r


def idle():
    r = begun()
    same(settled(r)[1], 0)
    return r


def with_block(samples=4):
    """A recorder that has written a block of so many samples, without a checkpoint."""
    r = idle()
    same(WRITE_SAMPLES(ctypes.byref(r), samples), 0)
    same(settled(r)[1], 0)
    return r


def requested(samples=4):
    r = idle()
    same(WRITE_SAMPLES(ctypes.byref(r), samples), 0)
    return r


def writing():
    r = requested()
    same(goes_on(r), 1)
    return r


def cleaning():
    r = writing()
    same(goes_on(r, FAILED), 1)
    return r


def suspect():
    r = cleaning()
    same(goes_on(r, DONE), failed_with(Cause.NEEDS_CHECKPOINT))
    return r


def saving(done=0):
    """A recorder with a block, of whose checkpoint so many effects are done."""
    r = with_block()
    CHECKPOINT(ctypes.byref(r))
    same(goes_on(r), 1)
    for _ in range(done):
        same(goes_on(r, DONE), 1)
    return r


def dead():
    r = saving()
    same(goes_on(r, FAILED), failed_with(Cause.SYNC_FAILED))
    return r


def with_rest():
    """A recorder that gave a block up, what of it may be in the file is to be cut off."""
    r = writing()
    same(WRITE_SAMPLES(ctypes.byref(r), 4), 0)
    return r


def checkpoint_of(length):
    """The effects of a checkpoint of data of even length."""
    riff = struct.pack("<I", START - 8 + length)
    counted = struct.pack("<I", length)
    sync = SYNC, 0, 0, b""
    return [sync, (WRITE, 4, 4, riff), (WRITE, START - 4, 4, counted), sync]


def stays(r, result, wanted):
    """Calls it twice without a report: it returns this, requests this, and stays."""
    before = place_of(r)
    for _ in range(2):
        same(goes_on(r), result)
        same((requests(r), place_of(r)), (wanted, before))


NONE = NOTHING, 0, 0, b""


@case("Idle", "nothing: all is done", "as it was")
def _():
    stays(idle(), 0, NONE)
    stays(suspect(), 0, NONE)


@case("Saving, once no effect is left", "nothing: all is done", "Idle, and Sound")
def _():
    r = suspect()
    CHECKPOINT(ctypes.byref(r))
    same(settled(r), ([(SYNC, 0, 0, b""), *checkpoint_of(0)], 0))
    same(place_of(r), ("Idle", "Sound", 0, 0, 0))


@case(
    "Cleaning; and any other but Idle while bytes are to be cut off", "a cut where the data end", "as it was"
)
def _():
    cut = SHORTEN, START, 0, b""
    stays(cleaning(), 1, cut)
    stays(with_rest(), 1, cut)
    r = with_rest()
    CHECKPOINT(ctypes.byref(r))
    stays(r, 1, cut)


@case(
    "Saving; and Requested, unless Sound with no checkpoint begun", "the next effect of the checkpoint", "as it was"
)
def _():
    for done, effect in enumerate(checkpoint_of(8)):
        stays(saving(done), 1, effect)
    r = suspect()
    same(WRITE_SAMPLES(ctypes.byref(r), 4), 0)
    stays(r, 1, (SYNC, 0, 0, b""))
    r = saving(2)
    same(WRITE_SAMPLES(ctypes.byref(r), 4), 0)
    stays(r, 1, checkpoint_of(8)[2])


@case("Requested, once no checkpoint comes first; and Writing", "the block, where the data end", "Writing")
def _():
    r = requested(6)
    same((goes_on(r), requests(r), PHASES[r.phase]), (1, (WRITE_BLOCK, START, 12, b""), "Writing"))
    stays(r, 1, (WRITE_BLOCK, START, 12, b""))
    r = saving(3)
    same(WRITE_SAMPLES(ctypes.byref(r), 2), 0)
    same((goes_on(r), goes_on(r, DONE), requests(r)), (1, 1, (WRITE_BLOCK, START + 8, 4, b"")))
    same(place_of(r), ("Writing", "Sound", 0, 0, 8))


@case("Saving or Requested, of a recorder that no call made", "`NotWritable` or `TooLong`", "Idle")
def _():
    for phase, health in ((1, 0), (1, 1), (2, 1)):
        for start, length, cause in ((19, 0, Cause.NOT_WRITABLE), (START, 2**32 - 1, Cause.TOO_LONG)):
            r = idle()
            r.data_start, r.data_length, r.phase, r.health, r.block = start, length, phase, health, length
            same((goes_on(r), PHASES[r.phase], HEALTHS[r.health]), (failed_with(cause), "Idle", HEALTHS[health]))


@case("any, once Dead", "`SyncFailed`", "as it was")
def _():
    stays(dead(), failed_with(Cause.SYNC_FAILED), NONE)
    r = dead()
    CHECKPOINT(ctypes.byref(r))
    stays(r, failed_with(Cause.SYNC_FAILED), NONE)
    for phase in range(5):
        r = dead()
        r.phase = phase
        stays(r, failed_with(Cause.SYNC_FAILED), NONE)


@case("Idle", "done or failed", "as it was")
def _():
    for report in DONE, FAILED:
        r = with_block()
        before = place_of(r)
        same((goes_on(r, report), requests(r), place_of(r)), (0, NONE, before))


@case("Cleaning", "done or failed", "Idle; the call returns `NeedsCheckpoint`, or `SyncFailed` once Dead")
def _():
    for report in DONE, FAILED:
        for health, cause in ((1, Cause.NEEDS_CHECKPOINT), (2, Cause.SYNC_FAILED)):
            r = cleaning()
            r.health = health
            same((goes_on(r, report), place_of(r)), (failed_with(cause), ("Idle", HEALTHS[health], 0, 0, 0)))


@case("any other, while bytes are to be cut off", "done or failed", "nothing is to be cut off")
def _():
    for report in DONE, FAILED:
        for is_checkpoint in False, True:
            r = with_rest()
            if is_checkpoint:
                CHECKPOINT(ctypes.byref(r))
            same((goes_on(r), r.effect.kind, r.has_rest), (1, SHORTEN, 1))
            # Suspect, so that a sync comes next.
            same((goes_on(r, report), r.effect.kind, r.has_rest), (1, SYNC, 0))


@case("Writing", "done", "Idle, and the block counts")
def _():
    r = writing()
    same((goes_on(r, DONE), place_of(r)), (0, ("Idle", "Sound", 0, 0, 8)))


@case("Writing", "failed", "Cleaning, and Suspect")
def _():
    r = writing()
    same((goes_on(r, FAILED), place_of(r)), (1, ("Cleaning", "Suspect", 0, 0, 0)))


@case("Saving or Requested", "done", "the effect after that one is next")
def _():
    effects = checkpoint_of(8)
    for done in range(3):
        r = saving(done)
        same((goes_on(r, DONE), requests(r), r.number), (1, effects[done + 1], done + 1))
    r = saving(1)
    same(WRITE_SAMPLES(ctypes.byref(r), 4), 0)
    same((goes_on(r), goes_on(r, DONE), requests(r), PHASES[r.phase]), (1, 1, effects[2], "Requested"))


@case("Saving or Requested", "a write failed", "Idle, and Suspect; the call returns `NeedsCheckpoint`")
def _():
    for done in 1, 2:
        for is_block in False, True:
            r = saving(done)
            if is_block:
                same((WRITE_SAMPLES(ctypes.byref(r), 4), goes_on(r)), (0, 1))
            same(goes_on(r, FAILED), failed_with(Cause.NEEDS_CHECKPOINT))
            same(place_of(r), ("Idle", "Suspect", 0, 0, 8))


@case("Saving or Requested", "a sync failed", "Idle, and Dead; the call returns `SyncFailed`")
def _():
    for done in 0, 3:
        r = saving(done)
        same((goes_on(r, FAILED), place_of(r)), (failed_with(Cause.SYNC_FAILED), ("Idle", "Dead", 0, 0, 8)))
    r = suspect()
    same((WRITE_SAMPLES(ctypes.byref(r), 4), goes_on(r)), (0, 1))
    same((goes_on(r, FAILED), place_of(r)), (failed_with(Cause.SYNC_FAILED), ("Idle", "Dead", 0, 0, 0)))


@case("any", "none", "as it was: the same is requested again")
def _():
    for r in (idle(), saving(), saving(2), with_rest(), writing(), cleaning(), suspect()):
        code = goes_on(r)
        stays(r, code, requests(r))


@case("Writing", "a block or a checkpoint", "Suspect, and what the block left is to be cut off")
def _():
    r = writing()
    CHECKPOINT(ctypes.byref(r))
    same(place_of(r), ("Saving", "Suspect", 0, 1, 0))
    r = writing()
    same((WRITE_SAMPLES(ctypes.byref(r), 2), place_of(r)), (0, ("Requested", "Suspect", 0, 1, 0)))


@case("Cleaning", "a block or a checkpoint", "what the block left is to be cut off")
def _():
    r = cleaning()
    CHECKPOINT(ctypes.byref(r))
    same(place_of(r), ("Saving", "Suspect", 0, 1, 0))
    r = cleaning()
    same((WRITE_SAMPLES(ctypes.byref(r), 2), place_of(r)), (0, ("Requested", "Suspect", 0, 1, 0)))


@case("Requested", "a block or a checkpoint", "the block that was requested is dropped")
def _():
    r = requested(4)
    CHECKPOINT(ctypes.byref(r))
    same((settled(r), r.data_length), ((checkpoint_of(0), 0), 0))
    r = requested(4)
    same(WRITE_SAMPLES(ctypes.byref(r), 10), 0)
    same((settled(r), r.data_length), (([(WRITE_BLOCK, START, 20, b"")], 0), 20))


@case("any", "a checkpoint", "Saving")
def _():
    for r in (idle(), requested(), writing(), cleaning(), suspect(), saving(1), dead()):
        CHECKPOINT(ctypes.byref(r))
        same(PHASES[r.phase], "Saving")


@case("Saving", "a block that is rejected", "Saving, with the error: the checkpoint continues")
def _():
    for samples, cause in ((3, Cause.UNFINISHED_FRAME), (2**31, Cause.TOO_LONG)):
        r = saving(1)
        same((WRITE_SAMPLES(ctypes.byref(r), samples), PHASES[r.phase]), (failed_with(cause), "Saving"))
        same(settled(r), (checkpoint_of(8)[1:], 0))


@case("any other", "a block that is rejected", "Idle, with the error")
def _():
    for r in (idle(), requested(), writing(), cleaning(), suspect()):
        same(WRITE_SAMPLES(ctypes.byref(r), 3), failed_with(Cause.UNFINISHED_FRAME))
        same(PHASES[r.phase], "Idle")
    r = dead()
    same((WRITE_SAMPLES(ctypes.byref(r), 3), PHASES[r.phase]), (failed_with(Cause.SYNC_FAILED), "Idle"))


@case("any", "a block that has room", "Requested")
def _():
    for r in (idle(), requested(), writing(), cleaning(), suspect(), saving(1)):
        same((WRITE_SAMPLES(ctypes.byref(r), 6), PHASES[r.phase]), (0, "Requested"))
    # The RIFF size of the data that have most room is 2^32 - 4.
    most = (2**32 - 4 - 36) // 2
    r = idle()
    same((WRITE_SAMPLES(ctypes.byref(r), most), PHASES[r.phase]), (0, "Requested"))
    same(WRITE_SAMPLES(ctypes.byref(r), most + 2), failed_with(Cause.TOO_LONG))


# ---- files that are continued

FRAMES = bytes(range(1, 41))
FOLLOWED = wav.CHUNK


def resumed(file, state, allowed):
    """What a recorder of a file returns that is found so, and the recorder."""
    found, r = CRepair(), CRecorder()
    same(FIND_DAMAGE(file, len(file), ctypes.byref(found)), 0)
    same(State(found.state), state)
    return RESUME(ctypes.byref(found), allowed, ctypes.byref(r)), r


def stereo(data, counted=None, **more):
    return wav.by_hand(data, counted, channels=2, **more)


@case("any that lacks samples which are counted", "nothing", "none: `Truncated`")
def _():
    for allowed in range(4):
        same(resumed(stereo(FRAMES, 48), State.CUT_OFF, allowed)[0], failed_with(Cause.TRUNCATED))


@case(
    "any that ends with the whole frames that are counted, or with their pad byte", "nothing", "continues after them"
)
def _():
    odd = wav.by_hand(bytes([1, 2, 3]), width=1, after=b"\0")
    files = (
        (stereo(FRAMES), State.WHOLE, 40),
        (stereo(FRAMES, riff=7), State.ALL_COUNTED, 40),
        (odd, State.WHOLE, 3),
        (odd[:-1], State.ALL_COUNTED, 3),
    )
    for file, state, length in files:
        for allowed in range(4):
            code, r = resumed(file, state, allowed)
            same((code, place_of(r)), (0, ("Idle", "Sound", 0, 0, length)))


@case("`Whole` or `AllCounted`", "nothing", "continues after the samples that are counted, and cuts off a torn frame")
def _():
    for riff, state in ((76, State.WHOLE), (7, State.ALL_COUNTED)):
        for allowed in range(4):
            code, r = resumed(stereo(FRAMES, after=bytes([7, 7, 7]), riff=riff), state, allowed)
            same((code, place_of(r)), (0, ("Idle", "Suspect", 0, 1, 40)))
            CHECKPOINT(ctypes.byref(r))
            same((goes_on(r), requests(r)), (1, (SHORTEN, 84, 0, b"")))


@case(
    "`CutOff`, whose header counts no more than whole frames", "to mend",
    "continues after all of these, by a checkpoint",
)
def _():
    for counted in 0, 8, 6:
        for allowed in MEND, MEND | OVERWRITE:
            code, r = resumed(stereo(FRAMES, counted), State.CUT_OFF, allowed)
            same((code, place_of(r)), (0, ("Idle", "Suspect", 0, 0, 40)))
            same(WRITE_SAMPLES(ctypes.byref(r), 2), 0)
            block = WRITE_BLOCK, 84, 4, b""
            same(settled(r), ([(SYNC, 0, 0, b""), *checkpoint_of(40), block], 0))


@case("`CutOff`, whose header counts more", "to mend", "none: `UnfinishedFrame`, to be repaired first")
def _():
    for allowed in MEND, MEND | OVERWRITE:
        code, _ = resumed(stereo(FRAMES + b"\1\2", 42), State.CUT_OFF, allowed)
        same(code, failed_with(Cause.UNFINISHED_FRAME))


@case("`CutOff`", "nothing", "none: `NeedsMend`")
def _():
    for allowed in 0, OVERWRITE:
        for file in stereo(FRAMES, 8), stereo(FRAMES + b"\1\2", 42):
            same(resumed(file, State.CUT_OFF, allowed)[0], failed_with(Cause.NEEDS_MEND))


@case(
    "`HasChunksAfterData`", "to overwrite", "continues after the samples that are counted, and cuts the chunks off"
)
def _():
    for allowed in OVERWRITE, MEND | OVERWRITE:
        code, r = resumed(stereo(FRAMES, after=FOLLOWED), State.HAS_CHUNKS_AFTER_DATA, allowed)
        same((code, place_of(r)), (0, ("Idle", "Suspect", 0, 1, 40)))
        CHECKPOINT(ctypes.byref(r))
        same((goes_on(r), requests(r)), (1, (SHORTEN, 84, 0, b"")))


@case("`HasChunksAfterData`", "nothing", "none: `NeedsOverwrite`")
def _():
    for allowed in 0, MEND:
        code, _ = resumed(stereo(FRAMES, after=FOLLOWED), State.HAS_CHUNKS_AFTER_DATA, allowed)
        same(code, failed_with(Cause.NEEDS_OVERWRITE))


# ---- repairers


def repairer(file, mode=REPAIR):
    machine = CRepairer()
    REPAIRER_BEGIN(len(file), mode, ctypes.byref(machine))
    return machine


def asks(machine, found, report=PENDING):
    machine.effect.report = report
    return REPAIRER_NEXT(ctypes.byref(machine), ctypes.byref(found))


def read(machine, file):
    """Reads what a machine requests, which is at most 40 bytes."""
    effect = machine.effect
    part = file[effect.place : effect.place + effect.length]
    effect.length = len(part)
    ctypes.memmove(effect.bytes, part, len(part))


def looked(file, mode=FIND):
    """The parts that a repairer reads of a file, what it found, and its last result."""
    machine, found, parts = repairer(file, mode), CRepair(), []
    code = asks(machine, found)
    while code == 1 and machine.effect.kind == READ:
        parts.append((machine.effect.place, machine.effect.length))
        read(machine, file)
        code = asks(machine, found, DONE)
    return parts, found, code, machine


FRONT = [(0, 12), (12, 8), (20, 16), (36, 8)]


@case("Head", "as many as the next part of the header has", "after the parts before")
def _():
    same(looked(stereo(FRAMES))[0][:4], FRONT)
    with_junk = wav.with_chunk(stereo(FRAMES), b"junk\4\0\0\0abcd")
    same(looked(with_junk)[0][:5], [(0, 12), (12, 8), (23, 9), (32, 16), (48, 8)])


@case("Last", "1", "after the data that the header counts")
def _():
    for last in 0, 9:
        same(looked(stereo(FRAMES, after=bytes([last])))[0][4], (84, 1))


@case("Chunk", "8", "after the data, or after the chunk before")
def _():
    chunks = b"abcd" + struct.pack("<I", 6) + bytes(6) + b"efgh" + struct.pack("<I", 0) + FOLLOWED
    parts, found, code, _ = looked(stereo(FRAMES, after=chunks))
    same((parts, code, found.state), ([*FRONT, (84, 8), (98, 8), (106, 8)], 0, State.HAS_CHUNKS_AFTER_DATA))


@case("Tag", "3", "128 bytes before the end")
def _():
    same(looked(stereo(bytes(200), 40))[0][-2], (44 + 200 - 128, 3))
    parts, found, code, _ = looked(stereo(FRAMES, after=b"TAG" + bytes(125)))
    same((parts[-1], code, found.state), ((84, 3), 0, State.HAS_CHUNKS_AFTER_DATA))


@case("Size", "4", "that of the RIFF size")
def _():
    same(looked(stereo(FRAMES))[0], [*FRONT, (4, 4)])


CUT_OFF = stereo(FRAMES, 8)
# What mends it: the sizes are right for 40 bytes of data, with a sync around each.
MENDING = [(SYNC, 0, 0, b""), *checkpoint_of(40)[1:2], (SYNC, 0, 0, b""), *checkpoint_of(40)[2:]]


def mends(done=0):
    """A repairer of that file, so many of whose effects are done."""
    _, found, code, machine = looked(CUT_OFF, REPAIR)
    same(code, 1)
    for _ in range(done):
        same(asks(machine, found, DONE), 1)
    return machine, found


@case("Mends", "done", "the next effect; after the last one what was found, and Found")
def _():
    for done, effect in enumerate(MENDING):
        same(requests(mends(done)[0]), effect)
    machine, found = mends(len(MENDING) - 1)
    same(asks(machine, found, DONE), 0)
    same((State(found.state), found.frames, found.counted), (State.CUT_OFF, 10, 2))
    same((asks(machine, found, DONE), found.frames), (0, 10))


@case("Mends", "none", "the same effect again")
def _():
    for done, effect in enumerate(MENDING):
        machine, found = mends(done)
        for _ in range(2):
            same((asks(machine, found), requests(machine)), (1, effect))


@case("Mends", "failed", "Failed, with the error that the effect has")
def _():
    for done, effect in enumerate(MENDING):
        machine, found = mends(done)
        cause = Cause.SYNC_FAILED if effect[0] == SYNC else Cause.NOT_PERFORMED
        same([asks(machine, found, report) for report in (FAILED, PENDING, DONE)], [failed_with(cause)] * 3)


@case("Looks, and another part decides", "done", "that part, after which fewer are left")
def _():
    parts, found, code, _ = looked(CUT_OFF)
    # Chunks are looked for after a pad byte and without one, which is the same place here.
    same((parts, code, found.frames), ([*FRONT, (52, 8), (52, 8), (4, 4)], 0, 10))


@case("Looks, and the file is known", "done", "the first effect, and Mends; or what was found, and Found")
def _():
    machine, found = mends()
    same(requests(machine), MENDING[0])
    for file, state in ((stereo(FRAMES), State.WHOLE), (stereo(FRAMES, after=FOLLOWED), State.HAS_CHUNKS_AFTER_DATA)):
        _, found, code, machine = looked(file, REPAIR)
        same((code, found.state, found.frames, asks(machine, found, DONE), found.state), (0, state, 10, 0, state))


@case("Looks, at bytes that aren't repaired", "done", "their error, and stays as it is")
def _():
    wrong = (
        (b"RIFX" + CUT_OFF[4:], 0, Cause.NO_RIFF_TAG),
        (wav.by_hand(FRAMES, channels=2, tag=6), 2, Cause.UNSUPPORTED),
        (CUT_OFF[:40], 3, Cause.ENDED),
    )
    for file, number, cause in wrong:
        parts, found, code, machine = looked(file, REPAIR)
        same((parts[-1], code), (FRONT[number], failed_with(cause)))
        same((asks(machine, found), machine.effect.place, machine.effect.length), (1, *FRONT[number]))


@case("Looks", "none", "the same part again")
def _():
    machine, found = repairer(CUT_OFF), CRepair()
    report = PENDING
    for part in FRONT:
        for _ in range(2):
            same((asks(machine, found, report), machine.effect.place, machine.effect.length), (1, *part))
            report = PENDING
        read(machine, CUT_OFF)
        report = DONE


@case("Looks", "failed", "Failed, with the error of a call that wasn't performed")
def _():
    machine, found = repairer(CUT_OFF), CRepair()
    same(asks(machine, found), 1)
    same([asks(machine, found, report) for report in (FAILED, PENDING, DONE)], [failed_with(Cause.NOT_PERFORMED)] * 3)


@case("Found", "any", "what was found again")
def _():
    _, _, code, machine = looked(CUT_OFF)
    for report in PENDING, DONE, FAILED:
        found = CRepair()
        same((code, asks(machine, found, report)), (0, 0))
        same((State(found.state), found.frames, found.counted), (State.CUT_OFF, 10, 2))


@case("Failed", "any", "the same error again")
def _():
    for done, cause in ((0, Cause.SYNC_FAILED), (1, Cause.NOT_PERFORMED)):
        machine, found = mends(done)
        same(asks(machine, found, FAILED), failed_with(cause))
        same([asks(machine, found, report) for report in (PENDING, DONE, FAILED)], [failed_with(cause)] * 3)


# ---- walks


def walked(file):
    """The parts that a walk over a file requests, its result, what it found, and the walk before its last call and
    after it."""
    walk, info, parts = CWalk(), CInfo(), []
    code, before = WALK_NEXT(ctypes.byref(walk), ctypes.byref(info)), None
    while code == 1:
        parts.append((walk.effect.place, walk.effect.length))
        read(walk, file)
        walk.effect.report = DONE
        before = bytes(walk)
        code = WALK_NEXT(ctypes.byref(walk), ctypes.byref(info))
    return parts, code, info, before, bytes(walk)


@case("Front", "12", "the first byte")
def _():
    same(walked(CUT_OFF)[0][0], (0, 12))


@case("Header", "8", "after the chunks before, where the last one has no content, or all of it was read")
def _():
    same(walked(CUT_OFF)[0], FRONT)
    same(walked(wav.with_chunk(CUT_OFF, b"junk\0\0\0\0"))[0], [(0, 12), (12, 8), (20, 8), (28, 16), (44, 8)])


@case("Last", "9: the last byte of a content that is passed over, and the header after it", "at that byte")
def _():
    for content in b"abcd", b"abc\0":
        junk = b"junk" + struct.pack("<I", len(content.rstrip(b"\0"))) + content
        same(walked(wav.with_chunk(CUT_OFF, junk))[0], [(0, 12), (12, 8), (23, 9), (32, 16), (48, 8)])


@case("Fmt", "as many as the content of a fmt chunk has, at most 40", "after its header")
def _():
    for more in 0, 2, 24, 34:
        file = stereo(FRAMES, extra=struct.pack("<H", max(0, more - 2)).ljust(more, b"\0")[:more])
        same(walked(file)[0][2], (20, min(16 + more, 40)))


@case(
    "done, and another part decides",
    "1: it requests that part, which is after this one",
    "at it; fewer are left",
)
def _():
    parts = walked(wav.with_chunk(CUT_OFF, b"junk\4\0\0\0abcd"))[0]
    same(parts, [(0, 12), (12, 8), (23, 9), (32, 16), (48, 8)])
    must(all(place + length <= later for (place, length), (later, _) in zip(parts, parts[1:])), parts)


@case("done, and the data begin after it", "0, with what is before them", "as it was")
def _():
    _, code, info, before, after = walked(CUT_OFF)
    spec = info.spec
    same((code, info.data_start, info.samples), (0, START, 4))
    same((spec.sample_rate, spec.channels, spec.bits_per_sample, spec.bytes_per_sample), (8000, 2, 16, 2))
    same(after, before)


@case("done, and the file isn't read", "the cause", "as it was")
def _():
    files = (
        (b"RIFX" + CUT_OFF[4:], Cause.NO_RIFF_TAG),
        (wav.by_hand(FRAMES, channels=2, tag=6), Cause.UNSUPPORTED),
        (CUT_OFF[:40], Cause.ENDED),
    )
    for file, cause in files:
        _, code, _, before, after = walked(file)
        same((code, after), (failed_with(cause), before))


@case("none", "1: it requests the part again", "as it was")
def _():
    walk, info = CWalk(), CInfo()
    same(WALK_NEXT(ctypes.byref(walk), ctypes.byref(info)), 1)
    for part in FRONT:
        before = bytes(walk)
        same((WALK_NEXT(ctypes.byref(walk), ctypes.byref(info)), bytes(walk)), (1, before))
        same((walk.effect.place, walk.effect.length), part)
        read(walk, CUT_OFF)
        walk.effect.report = DONE
        code = WALK_NEXT(ctypes.byref(walk), ctypes.byref(info))
    same(code, 0)


@case("failed", "`HOUND_NOT_PERFORMED`", "as it was")
def _():
    walk, info = CWalk(), CInfo()
    same(WALK_NEXT(ctypes.byref(walk), ctypes.byref(info)), 1)
    walk.effect.report = FAILED
    before = bytes(walk)
    same((WALK_NEXT(ctypes.byref(walk), ctypes.byref(info)), bytes(walk)), (failed_with(Cause.NOT_PERFORMED), before))


# ---- followers

# Which bytes the last four reads of a look request, where the data begin at 44.
LENGTH = [(40, 4), (43, 1), (42, 1), (41, 1), (40, 1)]


def follows(follower, report=PENDING):
    """What a follower returns, and the read that it requests."""
    follower.effect.report = report
    code = FOLLOWER_NEXT(ctypes.byref(follower))
    return code, (follower.effect.place, follower.effect.length) if code == 1 else None


def look(follower, *files):
    """The reads of a look, and what it returns. Each read is of the next file, and those after the last file are of
    that one."""
    parts, (code, part) = [], follows(follower)
    while code == 1:
        parts.append(part)
        read(follower, files[min(len(parts), len(files)) - 1])
        code, part = follows(follower, DONE)
    return parts, code


def following(file=stereo(FRAMES, 8)):
    """A follower that has read the header, and has counted what that counts."""
    follower = CFollower()
    same([look(follower, file)[1] for _ in range(2)], [0, 0])
    return follower


def next_look(follower, file, reads):
    """A follower in a look, so many of whose reads are done, and the next one is requested."""
    code, part = follows(follower)
    for _ in range(reads):
        read(follower, file)
        code, part = follows(follower, DONE)
    return code, part


@case("Walks", "as many as the next part of the header has", "after the parts before")
def _():
    same(look(CFollower(), CUT_OFF), (FRONT, 0))
    with_junk = wav.with_chunk(CUT_OFF, b"junk\4\0\0\0abcd")
    same(look(CFollower(), with_junk)[0], [(0, 12), (12, 8), (23, 9), (32, 16), (48, 8)])


@case("Looks, at the Length", "4", "those of the data length")
def _():
    same(look(following(), CUT_OFF)[0], LENGTH[:1])
    with_junk = wav.with_chunk(CUT_OFF, b"junk\4\0\0\0abcd")
    same(look(following(with_junk), with_junk)[0], [(52, 4)])


@case("Looks, at a Byte", "1", "that of the data length with its number")
def _():
    same(look(following(), stereo(FRAMES))[0], LENGTH)


@case("any", "none", "it requests the same again", "as it was")
def _():
    for reads, part in enumerate(FRONT):
        follower = CFollower()
        same(next_look(follower, CUT_OFF, reads), (1, part))
        before = bytes(follower)
        same((follows(follower), bytes(follower)), ((1, part), before))
    for reads, part in enumerate(LENGTH):
        follower = following()
        same(next_look(follower, stereo(FRAMES), reads), (1, part))
        before = bytes(follower)
        same((follows(follower), bytes(follower)), ((1, part), before))


@case("Walks", "done, and another part decides", "it requests that part", "at that part")
def _():
    for reads, part in enumerate(FRONT):
        same(next_look(CFollower(), CUT_OFF, reads), (1, part))


@case(
    "Walks", "done, and the data begin after it", "Grew",
    "at the Length of this recording, of which none is counted",
)
def _():
    follower = CFollower()
    same((look(follower, CUT_OFF), follower.data_start, follower.counted), ((FRONT, 0), START, 0))
    spec = follower.spec
    same((spec.sample_rate, spec.channels, spec.bits_per_sample, spec.bytes_per_sample), (8000, 2, 16, 2))
    same(follows(follower), (1, LENGTH[0]))


@case("Walks", "done, and the file ends before the data begin", "NothingNew", "at the first part")
def _():
    for length in range(START):
        follower = CFollower()
        parts, code = look(follower, CUT_OFF[:length])
        same((code, follower.data_start), (NOTHING_NEW, 0))
        same(parts, FRONT[: len(parts)])
        same(look(follower, CUT_OFF), (FRONT, 0))


@case("Walks", "done, and the file isn't read", "Rejected, with the cause", "at the first part")
def _():
    for file, cause in (
        (b"RIFX" + CUT_OFF[4:], Cause.NO_RIFF_TAG),
        (wav.by_hand(FRAMES, channels=2, tag=6), Cause.UNSUPPORTED),
    ):
        follower = CFollower()
        for _ in range(2):
            same((look(follower, file)[1], follower.data_start), (failed_with(cause), 0))
        same(look(follower, CUT_OFF), (FRONT, 0))


@case("Looks, at the Length", "done, with the length that was read last", "NothingNew", "as it was")
def _():
    follower = following()
    same((follows(follower), read(follower, CUT_OFF)), ((1, LENGTH[0]), None))
    same((follows(follower, DONE), follower.counted), ((NOTHING_NEW, None), 8))
    same((look(follower, CUT_OFF), follower.counted), ((LENGTH[:1], NOTHING_NEW), 8))


@case(
    "Looks, at the Length", "done, with another length", "it requests the last byte of the length", "at that Byte"
)
def _():
    # Also one that counts fewer, or differs in one byte only.
    for counted in 0, 7, 9, 40, 8 + 2**8, 8 + 2**16, 8 + 2**24:
        follower = following()
        same(next_look(follower, stereo(FRAMES, counted), 1), (1, (43, 1)))
        same(follower.counted, 8)


@case("Looks, at Byte 0", "done, and the length is that of no file", "TooLong", "at the Length")
def _():
    # The RIFF size counts 36 bytes before the data, and the pad byte after data of odd length.
    for counted in 2**32 - 37, 2**32 - 36, 2**32 - 1:
        follower = following()
        for _ in range(2):
            parts, code = look(follower, stereo(FRAMES, counted, riff=0))
            same((parts, code, follower.counted), (LENGTH, failed_with(Cause.TOO_LONG), 8))
        same((look(follower, stereo(FRAMES))[1], follower.counted), (0, 40))


@case(
    "Looks, at Byte 0", "done, and the length counts more whole frames", "Grew", "at the Length, with these counted"
)
def _():
    for counted, whole in ((12, 12), (15, 12), (40, 40), (2**32 - 38, 2**32 - 40)):
        follower = following()
        same((look(follower, stereo(FRAMES, counted, riff=0)), follower.counted), ((LENGTH, 0), whole))
        same(follows(follower), (1, LENGTH[0]))
    # Each byte is that of the file when it is read: here the second one of 256, and the first one of 260.
    follower = following(stereo(FRAMES, 256))
    torn = stereo(FRAMES, 252), stereo(FRAMES, 252), stereo(FRAMES, 252), stereo(FRAMES, 256), stereo(FRAMES, 260)
    same((look(follower, *torn), follower.counted), ((LENGTH, 0), 260))


@case("Looks, at Byte 0", "done, and it counts no more", "NothingNew", "at the Length")
def _():
    # 9 has no whole frame more, and fewer take back none. What was read last is known again.
    for counted in 9, 11, 0, 4, 7:
        follower = following()
        same((look(follower, stereo(FRAMES, counted)), follower.counted), ((LENGTH, NOTHING_NEW), 8))
        same((look(follower, stereo(FRAMES, counted)), follower.counted), ((LENGTH[:1], NOTHING_NEW), 8))
        same((look(follower, stereo(FRAMES)), follower.counted), ((LENGTH, 0), 40))


@case("Looks, at another Byte", "done", "it requests the byte before that one", "at that Byte")
def _():
    for reads in 1, 2, 3:
        same(next_look(following(), stereo(FRAMES), reads + 1), (1, LENGTH[reads + 1]))


@case("Looks", "done, with fewer bytes than were requested", "Truncated", "at the Length")
def _():
    for reads in range(5):
        follower = following()
        same(next_look(follower, stereo(FRAMES), reads), (1, LENGTH[reads]))
        read(follower, b"")
        same((follows(follower, DONE), follower.counted), ((failed_with(Cause.TRUNCATED), None), 8))
        same(follows(follower), (1, LENGTH[0]))
    follower = following()
    same(look(follower, CUT_OFF[:43]), (LENGTH[:1], failed_with(Cause.TRUNCATED)))


@case("any", "failed", "NotPerformed", "where the next look begins")
def _():
    for reads in range(4):
        follower = CFollower()
        same(next_look(follower, CUT_OFF, reads), (1, FRONT[reads]))
        same(follows(follower, FAILED), (failed_with(Cause.NOT_PERFORMED), None))
        same(follows(follower), (1, FRONT[0]))
    for reads in range(5):
        follower = following()
        same(next_look(follower, stereo(FRAMES), reads), (1, LENGTH[reads]))
        same((follows(follower, FAILED), follower.counted), ((failed_with(Cause.NOT_PERFORMED), None), 8))
        same(follows(follower), (1, LENGTH[0]))


def rows():
    """The rows of the tables that scripts/make_words.py makes, without their last cell, which names the definition."""
    with open(os.path.join(TOP, "docs", "PROVING.md"), encoding="utf-8") as page:
        made = re.findall(r"<!-- made by scripts/make_words.py .*?-->(.*?)<!-- the end", page.read(), flags=re.S)
    for part in made:
        lines = [line for line in part.split("\n") if line.startswith("|")]
        heads = {i for i, line in enumerate(lines) if i + 1 < len(lines) and lines[i + 1].startswith("|-")}
        for i, line in enumerate(lines):
            if i not in heads and not line.startswith("|-"):
                yield tuple(cell.strip() for cell in line.strip("|").split("|"))[:-1]


def main():
    found, wrong = list(rows()), []
    if len(found) < 50:
        sys.exit(f"tables: PROVING has only {len(found)} rows")
    for cells in found:
        if cells not in CASES:
            wrong.append(f"no case of the row {' | '.join(cells)}")
    for cells, test in CASES.items():
        if cells not in found:
            wrong.append(f"no row of the case {' | '.join(cells)}")
            continue
        try:
            test()
        except AssertionError as error:
            wrong.append(f"{' | '.join(cells)}: {error}")
    if wrong:
        sys.exit("tables: " + "\ntables: ".join(wrong))
    print(f"tables: {len(found)} rows of PROVING")


if __name__ == "__main__":
    main()
