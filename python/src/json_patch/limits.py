"""Limits: how many levels a document may have, and how much a patch may make and do."""
from __future__ import annotations

TYPE_CHECKING = False
if TYPE_CHECKING:
    from typing import Optional, Tuple

# the most levels that there may be, and the bytes where no limit is given, as in json_patch.h
MOST_LEVELS = 124
MOST_BYTES = 500_000
# nothing takes or has so many
_MOST = 2**64 - 1


class Limits:
    """What a call keeps to, for patches of strangers: no document has more than `depth` levels, of which
    1 has none and [[1]] has two, and what a call makes has at most `bytes` bytes more than the texts that
    are handed to the library: the document after each operation, a merged one, and an inverse. Nor do the
    operations of one patch together cost more: a copy what it copies, a test what it reads beyond the length
    of its value. A patch has at most `operations` operations, where that is not None.

    In place `bytes` is what the copies of one patch may add. There a value counts one for each value in it,
    itself included, and one for each byte of a string or a member's name.

    >>> Limits(depth=10)
    Limits(depth=10, bytes=500000, operations=None)

    ValueError, where one is negative, or `depth` more than 124; TypeError, where one is no int.
    """

    def __init__(self, depth: int = MOST_LEVELS, bytes: int = MOST_BYTES, operations: Optional[int] = None) -> None:
        _expect_number("depth", depth)
        _expect_number("bytes", bytes)
        if operations is not None:
            _expect_number("operations", operations)
        if depth > MOST_LEVELS:
            raise ValueError(f"depth is {depth}, and at most {MOST_LEVELS}")
        self._depth, self._bytes, self._operations = depth, bytes, operations
        # as the library takes them
        self._given = depth, min(bytes, _MOST), _MOST if operations is None else min(operations, _MOST)

    @property
    def depth(self) -> int:
        return self._depth

    @property
    def bytes(self) -> int:
        return self._bytes

    @property
    def operations(self) -> Optional[int]:
        return self._operations

    def __eq__(self, other: object) -> bool:
        return isinstance(other, Limits) and _numbers(self) == _numbers(other)

    def __hash__(self) -> int:
        return hash(_numbers(self))

    def __repr__(self) -> str:
        return f"Limits(depth={self.depth}, bytes={self.bytes}, operations={self.operations})"


def _numbers(limits: Limits) -> Tuple[int, int, Optional[int]]:
    return limits.depth, limits.bytes, limits.operations


def _expect_number(name: str, value: object) -> None:
    if not isinstance(value, int) or isinstance(value, bool):
        raise TypeError(f"{name} is an int, and not {type(value).__name__}")
    if value < 0:
        raise ValueError(f"{name} is {value}, and not 0 or more")


DEFAULT = Limits()
