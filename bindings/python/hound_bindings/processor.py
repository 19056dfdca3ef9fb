"""Whether the processor can run a library. It imports nothing of the package, since what builds that uses it, too."""
from typing import Iterable, List

__all__ = ["X86_64_V2", "lacking"]

# What x86-64-v2 has more than the first processors of 64 bits, as Linux names it.
X86_64_V2 = ("cx16", "lahf_lm", "pni", "popcnt", "sse4_1", "sse4_2", "ssse3")


def lacking(needed: Iterable[str], path: str = "/proc/cpuinfo") -> List[str]:
    """Those of these abilities that this processor hasn't got, where the system says which it has."""
    try:
        with open(path) as file:
            flags = next((line.split() for line in file if line.startswith("flags")), None)
    except OSError:
        flags = None
    return [] if flags is None else [name for name in needed if name not in flags]
