"""Chunks before the samples of a new file, such as bext."""
import ctypes
import struct
from typing import Any, Iterable, Optional, Tuple

from ._library import HEADER_BYTES, POINTER, SIZE, U64, CSpec, checked, function

__all__ = ["Chunks", "header_with"]

_header = function("header", POINTER, U64, POINTER, SIZE)
_filler = function("filler", U64, POINTER, SIZE)
_sizes = function("sizes", POINTER, U64, U64, POINTER, SIZE)

Chunks = Iterable[Tuple[bytes, Any]]


def header_with(spec: CSpec, chunks: Optional[Chunks]) -> Optional[bytes]:
    """The header of a file of no samples with these chunks before its data, or None where none are given. All four
    bytes of the data length are in one sector of a disk, which a power failure stores whole or not."""
    if chunks is None:
        return None
    room, given = ctypes.create_string_buffer(HEADER_BYTES), ctypes.byref(spec)
    length = checked(_header(given, 0, room, HEADER_BYTES))
    plain = room.raw[:length]
    before = plain[:-8] + b"".join(_laid_out(name, content) for name, content in chunks)
    length = checked(_filler(len(before) + 8, room, HEADER_BYTES))
    header = before + room.raw[:length] + plain[-8:]
    checked(_sizes(given, len(header), 0, room, HEADER_BYTES))
    return header[:4] + room.raw[:4] + header[8:]


def _laid_out(name: bytes, content: Any) -> bytes:
    """The bytes of a chunk: its name, the length of its content, this, and a byte of 0 where the length is odd."""
    if not isinstance(name, bytes) or len(name) != 4:
        raise ValueError(f"a chunk is named {name!r}, and not by four bytes")
    if name in (b"data", b"fmt "):
        raise ValueError(f"a chunk is named {name!r}, as one that each file has")
    bytes_of = memoryview(content).tobytes()
    return name + struct.pack("<I", len(bytes_of)) + bytes_of + bytes(len(bytes_of) % 2)
