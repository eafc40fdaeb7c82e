"""How objects nest. What is handed in may nest without end, so that no recursion goes as deep as that."""
from __future__ import annotations

from . import _native

TYPE_CHECKING = False
if TYPE_CHECKING:
    from typing import Any, List

# how many levels of a text the library reads
_MOST_READ = 127
LEAVES = frozenset((str, int, float, bool, type(None)))
CONTAINERS = (dict, list, tuple)
# so many lists and dicts of one level are looked through sooner than told apart
_FEW = 100


def is_deeper(value: object, levels: int) -> bool:
    """Whether lists and dicts nest deeper than this, as they do where one holds itself."""
    told = _native.is_deeper(value, levels)
    return _is_deeper(value, levels) if told is None else told


def _is_deeper(value: object, levels: int) -> bool:
    """The same of any lists and dicts: of those that only seem to be Python's own, and of many."""
    held: List[Any] = [value]
    for _ in range(levels):
        held = [
            item
            for container in held
            for item in (container.values() if isinstance(container, dict) else container)
            if type(item) not in LEAVES and isinstance(item, CONTAINERS)
        ]
        if not held:
            return False
        # one may stand at several places, and then would be looked through more often with each level
        if len(held) > _FEW:
            held = list({id(item): item for item in held}.values())
    return True


def is_deep(value: object) -> bool:
    """Whether lists and dicts nest deeper than the library reads. Shallower ones the library counts."""
    return is_deeper(value, _MOST_READ)


def shown(value: object) -> str:
    """What repr says of an object, but for one that nests too deep for it."""
    return "..." if is_deep(value) else repr(value)
