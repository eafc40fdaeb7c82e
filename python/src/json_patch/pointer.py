"""JSON pointers (RFC 6901) into Python's objects, with the names of the package jsonpointer."""
from __future__ import annotations

# collections.abc takes all of collections
from _collections_abc import Mapping, Sequence

from ._depth import is_deep, shown
from .errors import JsonPointerException, _PastTheEnd

TYPE_CHECKING = False
if TYPE_CHECKING:
    from typing import Any, Dict, Iterable, List, Tuple, Union

# No list has so many items that an index of more digits could be one of them.
_MOST_DIGITS = 19
_NO_DEFAULT = object()


class EndOfList:
    """What `-` stands for in a list: the place after its last item."""

    def __init__(self, list_: Any) -> None:
        self.list_ = list_

    def __repr__(self) -> str:
        return f"{type(self).__name__}({shown(self.list_)})"


def _is_list(value: object) -> bool:
    return isinstance(value, Sequence) and not isinstance(value, (str, bytes, bytearray))


def _is_number(part: str) -> bool:
    return part.isdigit() and part.isascii() and (part[0] != "0" or part == "0")


def is_index(part: str) -> bool:
    return len(part) <= _MOST_DIGITS and _is_number(part)


def escaped(part: str) -> str:
    return part.replace("~", "~0").replace("/", "~1")


def _expect_depth(value: object) -> None:
    if type(value) is not str and is_deep(value):
        raise JsonPointerException("what isn't a list or dict nests too deep", kind="TooDeep")


def copied(value: Any) -> Any:
    """A deep copy, as copy.deepcopy makes, but of lists and dicts without recursion. What else holds
    lists, dicts and tuples that nest too deep is refused."""
    made: List[Any] = [None]
    known: Dict[int, Any] = {}
    left: List[Tuple[Any, Any, Any]] = [(value, made, 0)]
    while left:
        value, into, name = left.pop()
        if id(value) in known:
            into[name] = known[id(value)]
        elif type(value) is dict:
            into[name] = known[id(value)] = new = dict.fromkeys(value)
            left.extend((item, new, key) for key, item in value.items())
        elif type(value) is list:
            into[name] = known[id(value)] = items = [None] * len(value)
            left.extend((item, items, index) for index, item in enumerate(value))
        else:
            into[name] = _copied_by_itself(value, known)
    return made[0]


def _copied_by_itself(value: Any, known: Dict[int, Any]) -> Any:
    import copy

    _expect_depth(value)
    try:
        return copy.deepcopy(value, known)
    except RecursionError as error:
        raise JsonPointerException("a value nests too deep to be copied", kind="TooDeep") from error


class JsonPointer:
    """A JSON pointer, and the names and indexes that it goes by, in `parts`.

    >>> JsonPointer("/a/0").resolve({"a": [5]})
    5
    >>> JsonPointer.from_parts(["a", "~", "/", 0])
    JsonPointer('/a/~0/~1/0')
    """

    def __init__(self, pointer: str) -> None:
        if not isinstance(pointer, str):
            raise TypeError(f"a pointer is a str, and not {type(pointer).__name__}")
        escapes = pointer.count("~")
        if escapes and escapes != pointer.count("~0") + pointer.count("~1"):
            raise JsonPointerException(f"pointer {pointer!r}: NoPointer, ~ stands before 0 or 1", kind="NoPointer", path=pointer)
        first, *parts = pointer.split("/")
        if first:
            raise JsonPointerException(f"pointer {pointer!r}: NoPointer, it begins with /", kind="NoPointer", path=pointer)
        self.parts = [part.replace("~1", "/").replace("~0", "~") for part in parts] if escapes else parts

    @classmethod
    def from_parts(cls, parts: Iterable[object]) -> JsonPointer:
        """The pointer that goes by these names and indexes."""
        made = []
        for part in parts:
            _expect_depth(part)
            made.append("/" + escaped(str(part)))
        return cls("".join(made))

    @property
    def path(self) -> str:
        """The pointer's text."""
        return "".join("/" + escaped(part) for part in self.parts)

    def get_parts(self) -> List[str]:
        return self.parts

    def _nowhere(self, why: str) -> JsonPointerException:
        return JsonPointerException(f"pointer {self.path!r}: Nothing, {why}", kind="Nothing", path=self.path)

    @classmethod
    def get_part(cls, doc: Any, part: object) -> Any:
        """A name or an index, as what stands in `doc` is looked up by it."""
        _expect_depth(part)
        if isinstance(doc, Mapping) or (_is_list(doc) and part == "-"):
            return part
        if _is_list(doc):
            if not _is_number(str(part)):
                raise JsonPointerException(f"{part!r} is no index", kind="Nothing")
            if not is_index(str(part)):
                raise _PastTheEnd(f"the index {part} is past the end", kind="Nothing")
            return int(str(part))
        if hasattr(doc, "__getitem__") and not isinstance(doc, (str, bytes, bytearray)):
            return part
        raise JsonPointerException(f"{type(doc).__name__} has no members", kind="Nothing")

    def walk(self, doc: Any, part: object) -> Any:
        """What stands in `doc` at one name or index."""
        part = self.get_part(doc, part)
        if _is_list(doc) and part == "-":
            return EndOfList(doc)
        try:
            return doc[part]
        except IndexError as error:
            raise self._nowhere(f"the index {part} is past the end") from error
        except KeyError as error:
            raise self._nowhere(f"there is no member {part!r}") from error

    def to_last(self, doc: Any) -> Tuple[Any, Any]:
        """What holds that which the pointer leads to, and the last name or index: None for the root."""
        if not self.parts:
            return doc, None
        for part in self.parts[:-1]:
            doc = self.walk(doc, part)
        return doc, self.get_part(doc, self.parts[-1])

    def resolve(self, doc: Any, default: Any = _NO_DEFAULT) -> Any:
        """What the pointer leads to; where that is nothing, the default, or a JsonPointerException."""
        try:
            for part in self.parts:
                doc = self.walk(doc, part)
        except JsonPointerException:
            if default is _NO_DEFAULT:
                raise
            return default
        return doc

    get = resolve

    def set(self, doc: Any, value: Any, inplace: bool = True) -> Any:
        """Puts a value where the pointer leads, in `doc` itself or in a copy, and returns that. In a list
        it takes an item's place, or is added at `-`; in a dict the member may be missing."""
        if not self.parts:
            if inplace:
                raise JsonPointerException("the whole document can't be set in place", path="")
            return value
        doc = doc if inplace else copied(doc)
        parent, part = self.to_last(doc)
        if _is_list(parent) and part == "-":
            parent.append(value)
            return doc
        try:
            parent[part] = value
        except IndexError as error:
            told = f"pointer {self.path!r}: Nothing, the index {part} is past the end"
            raise _PastTheEnd(told, kind="Nothing", path=self.path) from error
        return doc

    def contains(self, ptr: JsonPointer) -> bool:
        """Whether this pointer begins with the other, or is it."""
        return self.parts[: len(ptr.parts)] == ptr.parts

    def __contains__(self, item: JsonPointer) -> bool:
        return self.contains(item)

    def join(self, suffix: Union[JsonPointer, str, Iterable[object]]) -> JsonPointer:
        """This pointer with another's parts after its own.

        >>> JsonPointer("/a").join("/b/c") == JsonPointer("/a") / ["b", "c"]
        True
        """
        if isinstance(suffix, str):
            suffix = JsonPointer(suffix)
        try:
            more: List[object] = [*(suffix.parts if isinstance(suffix, JsonPointer) else suffix)]
        except TypeError as error:
            raise JsonPointerException(f"{suffix!r} has no parts") from error
        return JsonPointer.from_parts([*self.parts, *more])

    __truediv__ = join

    def __eq__(self, other: object) -> bool:
        return isinstance(other, JsonPointer) and self.parts == other.parts

    def __hash__(self) -> int:
        return hash(tuple(self.parts))

    def __str__(self) -> str:
        return self.path

    def __repr__(self) -> str:
        return f"{type(self).__name__}({self.path!r})"


def resolve_pointer(doc: Any, pointer: str, default: Any = _NO_DEFAULT) -> Any:
    """What a pointer leads to in a document; where that is nothing, the default, or a
    JsonPointerException.

    >>> resolve_pointer({"a": {"b/c": [1, 2]}}, "/a/b~1c/1")
    2
    >>> resolve_pointer({}, "/a", None) is None
    True
    """
    return JsonPointer(pointer).resolve(doc, default)


def set_pointer(doc: Any, pointer: str, value: Any, inplace: bool = True) -> Any:
    """Puts a value where a pointer leads, in the document itself or in a copy, and returns that.

    >>> set_pointer({"a": [1]}, "/a/-", 2)
    {'a': [1, 2]}
    """
    return JsonPointer(pointer).set(doc, value, inplace)
