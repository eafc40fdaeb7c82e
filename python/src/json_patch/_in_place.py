"""The operations of RFC 6902, made on Python's lists and dicts themselves, all or nothing. No proof covers
this: tests hold it against the library.

Nothing here goes by recursion, but for a few levels of a patch, and the object is never looked through: the time
goes with the patch, with what it copies and compares, and with what Python takes to put an item into a list."""
from __future__ import annotations

from ._calls import expect_patch, fault, operation_of
from ._depth import CONTAINERS, is_deeper
from ._native import OVER, REFUSED
from ._texts import as_bytes, exact, is_decimal, pointer_path, text_of, value_of
from .errors import INSIDE_ITSELF, NOWHERE, NO_SOURCE, TEST_FAILED, TOO_DEEP, TOO_MANY, TOO_MUCH, JsonPointerException
from .limits import Limits
from .pointer import JsonPointer, is_index

TYPE_CHECKING = False
if TYPE_CHECKING:
    from typing import Any, Dict, List, Optional, Tuple

    from ._texts import Dumps, Loads

    # an operation, the names and indexes of its path, and its value, or those of where that comes from
    _Operation = Tuple[str, List[str], Any]

# Stands in a dict where a member was removed, until the end: so it can come back to its place.
_GONE = object()
_ARRAYS = (list, tuple)
_ATOMS = (str, int, float, type(None))
_OTHER_MEMBER = {"add": "value", "remove": None, "replace": "value", "move": "from", "copy": "from", "test": "value"}
_PLAIN, _PLAIN_LEVELS = 2**63, 8


class _Refused(Exception):
    """An operation isn't made: the library's kind and status for that."""

    def __init__(self, kind: int, status: int = REFUSED) -> None:
        super().__init__(kind)
        self.kind, self.status = kind, status


class _NotPlain(Exception):
    """The library has to say whether this is a patch."""


def changed(obj: Any, patch: Any, limits: Limits, dumps: Optional[Dumps] = None, loads: Optional[Loads] = None) -> Any:
    """The object itself, changed by a patch within limits. Where the patch makes another document of it that
    it can't hold, it returns that."""
    run, operations = _Run(obj, limits), _operations(patch, dumps, loads)
    most = limits.operations
    if most is not None and len(operations) > most:
        raise _fault(_Refused(TOO_MANY, OVER), most, text_of(patch, dumps))
    made = 0
    try:
        for operation in operations:
            run.make(*operation)
            made += 1
    except _Refused as refused:
        run.undo()
        raise _fault(refused, made, text_of(patch, dumps)) from None
    except BaseException:
        run.undo()
        raise
    run.clear()
    return _filled(obj, run.root)


def _fault(refused: _Refused, operation: int, patch: bytes) -> Exception:
    return fault(refused.status, operation, refused.kind, operation_of(patch, operation)["path"], patch)


def _operations(patch: Any, dumps: Optional[Dumps], loads: Optional[Loads]) -> List[_Operation]:
    """The operations of a patch, their values copied. To ask the library takes longer than to make a few."""
    try:
        if type(patch) is not list or dumps or loads:
            raise _NotPlain
        return [_read(operation, is_plain=True) for operation in patch]
    except (_NotPlain, KeyError, TypeError, JsonPointerException):
        text = text_of(patch, dumps)
        expect_patch(text)
        return [_read(operation) for operation in value_of(text, loads, told="patch")]


def _read(operation: Any, is_plain: bool = False) -> _Operation:
    op = operation["op"]
    other = _OTHER_MEMBER[op]
    path, value = operation["path"], operation[other] if other else None
    if is_plain:
        if type(operation) is not dict or len(operation) != 2 + bool(other):
            raise _NotPlain
        path, value = _plain(path, 0), _plain(value, _PLAIN_LEVELS)
    return op, JsonPointer(path).parts, JsonPointer(value).parts if other == "from" else value


def _plain(value: Any, levels: int) -> Any:
    """A copy of what is JSON for everyone, and has few levels. A TypeError, too, says that it isn't."""
    kind = type(value)
    if kind is str and value.isascii() or kind is int and -_PLAIN < value < _PLAIN or kind is bool or value is None:
        return value
    # nan and the infinities, less themselves, are no zero
    if kind is float and value - value == 0:
        return value
    if kind is list and levels:
        return [_plain(item, levels - 1) for item in value]
    if kind is dict and levels and "".join(value).isascii():
        return {name: _plain(member, levels - 1) for name, member in value.items()}
    raise _NotPlain


class _Run:
    """A patch on its way: the document, what takes each change back, where the marks are, and how much may
    still be copied."""

    def __init__(self, root: Any, limits: Limits) -> None:
        self.root = root
        self._depth, self._copied = limits.depth, limits.bytes
        self._log: List[Tuple[Any, ...]] = []
        self._marks: List[Tuple[Dict[str, Any], str]] = []
        # how many stand in a dict, by its id: each is held by the log
        self._gone: Dict[int, int] = {}

    def undo(self) -> None:
        for change, *arguments in reversed(self._log):
            change(*arguments)

    def clear(self) -> None:
        for members, name in self._marks:
            if members.get(name) is _GONE:
                del members[name]

    def make(self, op: str, path: List[str], other: Any) -> None:
        """`other` is the value, or where it comes from."""
        if op == "remove":
            self._take(path)
        elif op == "test":
            if not _are_same(self._at(path), other, self._gone):
                raise _Refused(TEST_FAILED)
        elif op == "copy":
            self._put(path, self._copy(other, path))
        elif op == "move":
            self._move(other, path)
        else:
            self._expect_depth(other, path)
            (self._put if op == "add" else self._replace)(path, other)

    def _expect_depth(self, value: Any, path: List[str]) -> None:
        if is_deeper(value, self._depth - len(path)):
            raise _Refused(TOO_DEEP, OVER)

    def _copy(self, source: List[str], path: List[str]) -> Any:
        value = self._at(source, NO_SOURCE)
        self._expect_depth(value, path)
        made, size = _copied(value, self._copied)
        self._copied -= size
        return made

    def _move(self, source: List[str], path: List[str]) -> None:
        """One that is over the limits is so before it is refused, but where there is nothing to move."""
        is_inside = len(source) < len(path) and path[: len(source)] == source
        value = self._at(source, INSIDE_ITSELF if is_inside else NO_SOURCE)
        if len(source) < len(path):
            self._expect_depth(value, path)
        if is_inside or not source:
            raise _Refused(INSIDE_ITSELF if is_inside else NO_SOURCE)
        self._take(source)
        self._put(path, value)

    def _at(self, path: List[str], kind: int = NOWHERE) -> Any:
        value = self.root
        for token in path:
            value = _child(value, token, kind)
        return value

    def _held(self, path: List[str]) -> Tuple[Any, Any, Any]:
        """What holds the value there and is to be changed, its key or index, and the value."""
        holder, last = self._at(path[:-1]), path[-1]
        value = _child(holder, last)
        return (holder, last, value) if isinstance(holder, dict) else (_list(holder), int(last), value)

    def _take(self, path: List[str]) -> None:
        if not path:
            raise _Refused(NOWHERE)
        holder, key, value = self._held(path)
        if isinstance(holder, dict):
            holder[key] = _GONE
            self._marks.append((holder, key))
            self._gone[id(holder)] = self._gone.get(id(holder), 0) + 1
            self._log.append((holder.__setitem__, key, value))
        else:
            del holder[key]
            self._log.append((holder.insert, key, value))

    def _replace(self, path: List[str], value: Any) -> None:
        if not path:
            self.root = value
            return
        holder, key, old = self._held(path)
        holder[key] = value
        self._log.append((holder.__setitem__, key, old))

    def _put(self, path: List[str], value: Any) -> None:
        if not path:
            self.root = value
            return
        holder, last = self._at(path[:-1]), path[-1]
        if isinstance(holder, dict):
            back = (holder.__setitem__, last, holder[last]) if last in holder else (holder.__delitem__, last)
            holder[last] = value
            if back[-1] is _GONE:
                self._gone[id(holder)] -= 1
        else:
            place = _place(holder, last)
            back = (holder.__delitem__, place)
            holder.insert(place, value)
        self._log.append(back)


def _child(holder: Any, token: str, kind: int = NOWHERE) -> Any:
    """The member or item of this name or index."""
    found = _GONE
    if isinstance(holder, dict):
        found = holder.get(token, _GONE)
    elif isinstance(holder, _ARRAYS) and is_index(token) and int(token) < len(holder):
        found = holder[int(token)]
    if found is _GONE:
        raise _Refused(kind)
    return found


def _list(holder: Any) -> List[Any]:
    if isinstance(holder, list):
        return holder
    raise TypeError("a tuple can't be changed in place")


def _place(holder: Any, token: str) -> int:
    """Where an item goes that is added at this index."""
    if not isinstance(holder, _ARRAYS) or not (token == "-" or is_index(token)):
        raise _Refused(NOWHERE)
    place = len(holder) if token == "-" else int(token)
    if place > len(_list(holder)):
        raise _Refused(NOWHERE)
    return place


def _bytes(text: Any) -> int:
    if isinstance(text, str):
        return len(text) if text.isascii() else len(as_bytes(text))
    raise TypeError(f"a member's name is a str, and not {type(text).__name__}")


def _atom(value: Any) -> Any:
    """What is no list and no dict, as json.dumps would write it, and another of the caller's a Decimal."""
    return value if isinstance(value, _ATOMS) or is_decimal(value) else pointer_path(value)


def _copied(value: Any, most: int) -> Tuple[Any, int]:
    """New lists and dicts with the same content, each place with its own, and the size of that. It makes
    no more than this allows."""
    made: List[Any] = [None]
    left: List[Tuple[Any, Any, Any]] = [(value, made, 0)]
    size = 0
    while left:
        # what is left has this size at least: so it stays short, too
        if size + len(left) > most:
            raise _Refused(TOO_MUCH, OVER)
        value, into, key = left.pop()
        size += 1
        if isinstance(value, dict):
            members = {name: member for name, member in value.items() if member is not _GONE}
            size += sum(map(_bytes, members))
            into[key] = members
            left += [(member, members, name) for name, member in members.items()]
        elif isinstance(value, _ARRAYS):
            into[key] = items = list(value)
            left += [(item, items, index) for index, item in enumerate(value)]
        else:
            into[key] = atom = _atom(value)
            size += _bytes(atom) if isinstance(atom, str) else 0
    if size > most:
        raise _Refused(TOO_MUCH, OVER)
    return made[0], size


def _are_same(value: Any, wanted: Any, gone: Dict[int, int]) -> bool:
    """Whether a value is the one that a patch says, where dicts hold so many marks."""
    left = [(value, wanted)]
    while left:
        value, wanted = left.pop()
        if isinstance(wanted, dict):
            if not isinstance(value, dict) or len(value) - gone.get(id(value), 0) != len(wanted):
                return False
            left += [(value.get(name, _GONE), member) for name, member in wanted.items()]
        elif isinstance(wanted, list):
            if not isinstance(value, _ARRAYS) or len(value) != len(wanted):
                return False
            left += zip(value, wanted)
        elif value is _GONE or isinstance(value, CONTAINERS) or not _are_same_atoms(_atom(value), wanted):
            return False
    return True


def _are_same_atoms(one: Any, other: Any) -> bool:
    """Numbers are compared by what json.dumps writes of them, as in a text: 1e23 is 10**23, and no binary fraction."""
    if isinstance(one, bool) or isinstance(other, bool):
        return one is other
    if type(one) is not type(other):
        one, other = exact(one), exact(other)
    try:
        return bool(one == other)
    except ArithmeticError:
        # a Decimal that is a signaling nan
        return False


def _filled(obj: Any, made: Any) -> Any:
    """The object with another's content, where it can have that, and else the other."""
    if obj is made:
        return obj
    if isinstance(obj, list) and isinstance(made, list):
        obj[:] = made
    elif isinstance(obj, dict) and isinstance(made, dict):
        obj.clear()
        obj.update(made)
    else:
        return made
    return obj
