"""The files of a split recording: take.wav, take-002.wav, take-003.wav and so on."""
import contextlib
import errno
import os
import re
from typing import Dict, Tuple

from ._library import Path

__all__ = ["check_folder", "check_next", "check_no_part", "first_of", "part_name", "parts_at"]

# The number of a part that has one in its name, which has at least three digits.
_NUMBERED = re.compile(r"(.*)-([0-9]{3}|[1-9][0-9]{3,})(\.[^.]*)?", re.DOTALL)
# The names of so many parts are looked at before a recording begins: those of more may be too long.
_MOST = 9999


def part_name(path: Path, number: int) -> str:
    """The name of a file of a recording: take-002.wav is the second one of take.wav."""
    stem, ending = os.path.splitext(os.fsdecode(path))
    return stem + ending if number == 1 else f"{stem}-{number:03}{ending}"


def first_of(path: Path) -> Tuple[str, int]:
    """The name of the first file of the recording that a file seems to be a part of, and the number of that part."""
    folder, name = os.path.split(os.fsdecode(path))
    found = _NUMBERED.fullmatch(name)
    if found is None or int(found[2]) < 2 or not found[1]:
        return os.path.join(folder, name), 1
    return os.path.join(folder, found[1] + (found[3] or "")), int(found[2])


def parts_at(path: Path) -> Dict[int, str]:
    """The files of a recording that are there, by their numbers, in the order of these."""
    first = os.fsdecode(path)
    folder = os.path.dirname(first)
    named = (os.path.join(folder, name) for name in os.listdir(folder or os.curdir))
    found = {number: name for name in named for start, number in [first_of(name)] if start == first and number > 1}
    if os.path.lexists(first):
        found[1] = first
    return dict(sorted(found.items()))


def check_no_part(path: Path) -> None:
    """An error where a file of this name is there, also a link to none, or where no file can have it."""
    try:
        os.lstat(path)
    except FileNotFoundError:
        return
    raise FileExistsError(errno.EEXIST, os.strerror(errno.EEXIST), os.fspath(path))


def check_next(path: Path, number: int = 2) -> None:
    """An error where a recording couldn't continue in a next file of this number: there is one, its name or that of a
    later one would be too long, or nothing can be made in its folder."""
    check_no_part(part_name(path, number))
    with contextlib.suppress(FileNotFoundError):
        os.lstat(part_name(path, max(number, _MOST)))
    check_folder(path)


def check_folder(path: Path) -> None:
    """An error where nothing can be made in the folder of a file."""
    folder = os.path.dirname(os.fsdecode(path)) or os.curdir
    os.stat(folder)  # An error where it isn't there.
    if not os.access(folder, os.W_OK | os.X_OK, effective_ids=os.access in os.supports_effective_ids):
        raise PermissionError(errno.EACCES, os.strerror(errno.EACCES), folder)
