"""WAV files, read, written, appended to and repaired by proved code.

A file is a path, or an object that reads, writes and seeks as one does, such as an io.BytesIO, from the place on where
it is (but not one that was opened to append, since that writes at its end); `info`, `read` and `read_into` take bytes,
too. Samples are interleaved: `array.array`s, lists, or anything with a buffer, such as a numpy array; two dimensions
are frames by channels. Integers are read and written as they are. Where floats are read from a file of integers, or
written to one, their full scale is 1: they are the integers divided by 2^(bits - 1). What is written is rounded to the
nearest integer and clipped, which a RuntimeWarning counts; `dither` adds triangular noise of at most one step before
that, and is the seed of its generator (True is 1).

A file that is recorded to, appended to, repaired or replaced is locked (`flock`; on Windows LockFileEx, until it is
replaced): what another program, or a Writer of this one, has locked is a BlockingIOError. Programs without such locks
may not change a file during a call. Of what is `durable` Windows syncs files, but no folders.
"""
from ._following import Follower, follow
from ._library import Cause, HoundError, Info, Repair, State
from ._library import __version__ as __version__
from .files import append, info, read, read_into, read_with_info, to_bytes, write
from .lost import guess
from .repairs import find_damage, repair
from .resuming import resume
from .streams import Reader, Writer, append_to, create, open

__all__ = [
    "Cause", "Follower", "HoundError", "Info", "Reader", "Repair", "State", "Writer", "append", "append_to", "create",
    "find_damage", "follow", "guess", "info", "open", "read", "read_into", "read_with_info", "repair", "resume",
    "to_bytes", "write",
]  # fmt: skip

for _name in __all__:  # by which help, tracebacks and pickles name them
    globals()[_name].__module__ = __name__
