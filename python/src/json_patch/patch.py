"""Patches, and the calls that apply them to Python's objects."""
from __future__ import annotations

from . import _native
from ._calls import applied, difference, expect_patch, joined, merged, recorded
from ._in_place import changed
from ._depth import shown
from ._texts import (
    as_bytes, by_callers_code, document_text, expect_patch_depth, key_of, patch_text, pointer_path, text_of, text_to_check,
    value_of,
)
from .limits import DEFAULT, Limits
from .pointer import JsonPointer, escaped

TYPE_CHECKING = False
if TYPE_CHECKING:
    from typing import Any, Callable, Iterator, List, Mapping, Optional, Sequence, Tuple, Type, TypeVar, Union

    from ._texts import Dumps, Loads

    Operation = Mapping[str, Any]
    # what is read as a patch: operations, a JSON text, or a JsonPatch
    Patch = Union["JsonPatch", str, bytes, Sequence[Operation]]

    _Made = TypeVar("_Made", bound="JsonPatch")


class JsonPatch:
    """A list of operations, in `patch`.

    >>> patch = JsonPatch([{"op": "add", "path": "/a/-", "value": 3}])
    >>> patch.apply({"a": [1, 2]})
    {'a': [1, 2, 3]}
    >>> JsonPatch([{"op": "add", "path": "a"}])
    Traceback (most recent call last):
        ...
    json_patch.errors._InvalidPointer: patch: operation 0: member "path" is not a pointer
    """

    def __init__(self, patch: Union[JsonPatch, Sequence[Operation]]) -> None:
        operations = operations_of(patch)
        expect_patch(text_to_check(operations))
        self.patch: List[Any] = operations if isinstance(operations, list) else list(operations)

    @classmethod
    def from_string(cls, patch_str: Union[str, bytes], loads: Optional[Callable[[Any], Any]] = None) -> JsonPatch:
        """The patch that a JSON text says, read by the library, or by `loads`."""
        if loads or cls.json_loader is not JsonPatch.json_loader:
            return cls(by_callers_code(loads or cls.json_loader, patch_str))
        return cls._of_library(cls.json_loader(patch_str))

    @classmethod
    def from_diff(
        cls: Type[_Made], src: Any, dst: Any, optimization: bool = True, dumps: Optional[Dumps] = None,
        pointer_cls: Type[JsonPointer] = JsonPointer, *, moves: bool = False, guarded: bool = False,
        loads: Optional[Loads] = None, limits: Limits = DEFAULT,
    ) -> _Made:
        """The patch that leads from one document to another: applied to the one, within the same depth, it
        leaves the other. It adds, removes and replaces, with `moves` it moves what stands elsewhere, too, and it
        has no operation exactly where the documents are equal. Both have at most the levels of the limits. Where
        it is `guarded`, a test of what is removed or replaced stands before, so that it is refused on a document
        that has something else there; it has no moves then, and ValueError is raised where both are asked for.
        `dumps` writes the documents, and `loads` reads the patch. The library compares and writes the paths:
        `optimization` and `pointer_cls` change nothing.

        >>> JsonPatch.from_diff({"a": [1, 2], "b": "long enough"}, {"a": [2], "b": "long enough"})
        JsonPatch([{'op': 'remove', 'path': '/a/0'}])
        >>> JsonPatch.from_diff({"draft": [1, 2]}, {"title": [1, 2]}, moves=True)
        JsonPatch([{'from': '/draft', 'op': 'move', 'path': '/title'}])
        >>> JsonPatch.from_diff([1, "long enough"], ["long enough"], guarded=True)
        JsonPatch([{'op': 'test', 'path': '/0', 'value': 1}, {'op': 'remove', 'path': '/0'}])
        """
        if moves and guarded:
            raise ValueError("a guarded patch has no moves")
        flags = _native.DIFF_MOVES if moves else _native.DIFF_GUARDED if guarded else 0
        if not (moves or dumps or loads):
            return cls._of_library(_difference_of_parts(src, dst, limits, flags))
        made = difference(_native.diff, document_text(src, dumps), document_text(dst, dumps), limits._given, flags)
        return cls._of_library(value_of(made, loads))

    @staticmethod
    def json_loader(patch_str: Union[str, bytes]) -> Any:
        """The operations of a text, of which the library says whether it is a patch."""
        text = as_bytes(patch_str)
        expect_patch(text)
        return value_of(text, told="patch")

    @staticmethod
    def json_dumper(value: Any) -> str:
        import json

        expect_patch_depth(value)
        return json.dumps(value, default=pointer_path)

    @classmethod
    def _of_library(cls: Type[_Made], operations: List[Any]) -> _Made:
        """Of operations that the library has written or checked: only a subclass looks at them again."""
        if cls.__init__ is not JsonPatch.__init__:
            return cls(operations)
        made = cls.__new__(cls)
        made.patch = operations
        return made

    def to_string(self, dumps: Optional[Callable[[Any], str]] = None) -> str:
        """The patch as a JSON text."""
        return by_callers_code(dumps or self.json_dumper, self.patch)

    def apply(
        self, obj: Any, in_place: bool = False, *, dumps: Optional[Dumps] = None, loads: Optional[Loads] = None,
        limits: Limits = DEFAULT,
    ) -> Any:
        """What the patch leaves of an object, which stays as it is: `dumps` writes it, the library patches the
        text as apply_text does, and `loads` reads what that leaves. With `in_place` it is the object itself
        that is changed, by Python, and returned; a document that is no list or dict can't be. That takes the
        time of the patch, and not of the object, which isn't read as a whole: anything may stand where the
        patch doesn't look. OverLimit, where an operation is over the limits, and without `in_place` TooDeep,
        where the object is.

        >>> document = {"a": [1]}
        >>> rows = document["a"]
        >>> JsonPatch([{"op": "add", "path": "/a/-", "value": 2}]).apply(document, in_place=True) is document
        True
        >>> rows
        [1, 2]
        """
        if in_place:
            return changed(obj, self.patch, limits, dumps, loads)
        return value_of(applied(document_text(obj, dumps), patch_text(self.patch, dumps), limits), loads)

    def record(
        self, obj: Any, *, dumps: Optional[Dumps] = None, loads: Optional[Loads] = None, limits: Limits = DEFAULT
    ) -> Tuple[Any, JsonPatch]:
        """What the patch leaves of an object, and the patch that leads back, within limits. Both are read by
        `loads`. The way back doesn't keep the order of members: one that was removed comes last.

        >>> JsonPatch([{"op": "remove", "path": "/a"}]).record({"a": 1})
        ({}, JsonPatch([{'op': 'add', 'path': '/a', 'value': 1}]))
        """
        return _recorded(obj, patch_text(self.patch, dumps), dumps, loads, limits)

    def _key(self) -> str:
        """What two patches share that are equal."""
        expect_patch_depth(self.patch)
        return key_of(self.patch)

    def __eq__(self, other: object) -> bool:
        return isinstance(other, JsonPatch) and self._key() == other._key()

    def __hash__(self) -> int:
        return hash(self._key())

    def __bool__(self) -> bool:
        return bool(self.patch)

    def __iter__(self) -> Iterator[Any]:
        return iter(self.patch)

    def __len__(self) -> int:
        return len(self.patch)

    def __str__(self) -> str:
        return self.to_string()

    def __repr__(self) -> str:
        return f"JsonPatch({shown(self.patch)})"


def operations_of(patch: Any) -> Any:
    """What a JsonPatch holds, and any other patch itself."""
    return patch.patch if isinstance(patch, JsonPatch) else patch


def _difference_of_parts(src: Any, dst: Any, limits: Limits, flags: int) -> List[Any]:
    """The operations that lead from one document to another, by the texts of the least parts of both outside of
    which they are plainly equal. In their texts these stand below a name as long as the pointer to them, so that
    the library counts each path as it will be."""
    way = _native.differs_at(src, dst, limits.depth)
    if way is None:
        return []
    path, given = "", limits._given
    for step in way:
        src, dst = src[step], dst[step]
        path += "/" + escaped(str(step))
    if way:
        name = path[1:].replace("/", "-").replace("~", "-")
        src, dst, given = {name: src}, {name: dst}, (given[0] - len(way) + 1, *given[1:])
    operations: List[Any] = value_of(difference(_native.diff, document_text(src), document_text(dst), given, flags))
    for operation in operations if way else ():
        operation["path"] = path + operation["path"][len(path):]
    return operations


def _recorded(
    document: Any, patch: bytes, dumps: Optional[Dumps], loads: Optional[Loads], limits: Limits
) -> Tuple[Any, JsonPatch]:
    made, inverse = recorded(document_text(document, dumps), patch, limits)
    return value_of(made, loads), JsonPatch._of_library(value_of(inverse, loads))


def apply_patch(
    doc: Any, patch: Patch, in_place: bool = False, *, dumps: Optional[Dumps] = None, loads: Optional[Loads] = None,
    limits: Limits = DEFAULT,
) -> Any:
    """What a patch, as a list of operations, a JSON text or a JsonPatch, leaves of a document, within
    limits. A number may be any that `dumps` writes and `loads` reads, which are json's where none is named:

    >>> import decimal, json
    >>> read = lambda text: json.loads(text, parse_float=decimal.Decimal)
    >>> apply_patch({"price": 0.1, "stock": 7}, '[{"op": "add", "path": "/price", "value": 1.50}]', loads=read)
    {'price': Decimal('1.50'), 'stock': 7}
    """
    if isinstance(patch, JsonPatch):
        return patch.apply(doc, in_place, dumps=dumps, loads=loads, limits=limits)
    if in_place:
        return changed(doc, patch, limits, dumps, loads)
    return value_of(applied(document_text(doc, dumps), text_of(patch, dumps), limits), loads)


def record_patch(
    doc: Any, patch: Patch, *, dumps: Optional[Dumps] = None, loads: Optional[Loads] = None, limits: Limits = DEFAULT
) -> Tuple[Any, JsonPatch]:
    """What a patch leaves of a document, and the JsonPatch that leads back, as JsonPatch.record does."""
    if isinstance(patch, JsonPatch):
        return patch.record(doc, dumps=dumps, loads=loads, limits=limits)
    return _recorded(doc, text_of(patch, dumps), dumps, loads, limits)


def make_patch(
    src: Any, dst: Any, pointer_cls: Type[JsonPointer] = JsonPointer, *, moves: bool = False, guarded: bool = False,
    dumps: Optional[Dumps] = None, loads: Optional[Loads] = None, limits: Limits = DEFAULT,
) -> JsonPatch:
    """The JsonPatch that leads from one document to another, as JsonPatch.from_diff makes it.

    >>> src, dst = {"a": 1, "rows": ["x", "y"]}, {"a": 1, "rows": ["x", "z", "y"]}
    >>> make_patch(src, dst)
    JsonPatch([{'op': 'add', 'path': '/rows/1', 'value': 'z'}])
    >>> make_patch(src, dst).apply(src) == dst
    True
    """
    return JsonPatch.from_diff(
        src, dst, pointer_cls=pointer_cls, moves=moves, guarded=guarded, dumps=dumps, loads=loads, limits=limits,
    )


def merge_patch(
    doc: Any, patch: Any, *, dumps: Optional[Dumps] = None, loads: Optional[Loads] = None, limits: Limits = DEFAULT
) -> Any:
    """A document with a merge patch (RFC 7396) merged into it. Both have at most the levels of the
    limits, and so has what comes of them.

    >>> merge_patch({"a": 1, "b": 2}, {"a": None, "c": [3]})
    {'b': 2, 'c': [3]}
    """
    return value_of(merged(document_text(doc, dumps), patch_text(patch, dumps), limits), loads)


def make_merge_patch(
    src: Any, dst: Any, *, dumps: Optional[Dumps] = None, loads: Optional[Loads] = None, limits: Limits = DEFAULT
) -> Any:
    """The merge patch that leads from one document to another: merge_patch makes the other of the one by it. It
    says no more than it has to, and is {} where both are equal dicts; members are in byte order of their names.

    >>> make_merge_patch({"a": 1, "b": {"c": 2, "d": 3}}, {"b": {"c": 2, "d": 4}})
    {'a': None, 'b': {'d': 4}}

    NoMergePatch, where there is none: a None in it removes a member, so it can't make one None that isn't already.
    """
    made = difference(_native.merge_diff, document_text(src, dumps), document_text(dst, dumps), limits._given)
    return value_of(made, loads)


def join_merge_patches(
    first: Any, then: Any, *, dumps: Optional[Dumps] = None, loads: Optional[Loads] = None, limits: Limits = DEFAULT
) -> Any:
    """The merge patch that does to every document what two do in turn. Its members are in byte order of their names.

    >>> join_merge_patches({"a": 1, "b": None}, {"a": {"c": 2}})
    Traceback (most recent call last):
    json_patch.errors.NoMergePatch: no merge patch does this
    >>> join_merge_patches({"b": None, "a": {"d": 1}}, {"a": {"c": 2}})
    {'a': {'c': 2, 'd': 1}, 'b': None}

    NoMergePatch, where there is none. That is so where `first` has None, or another value that is no dict, and `then`
    has a dict: both in turn make exactly that dict, and one merge patch keeps what else a dict has that is there.
    """
    return value_of(joined(patch_text(first, dumps), patch_text(then, dumps), limits), loads)
