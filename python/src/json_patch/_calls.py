"""The library's calls, made, with an exception for each status."""
from __future__ import annotations

from . import _native
from ._native import CLOSED, IMPOSSIBLE, NO_DOCUMENT, NO_PATCH, NO_POINTER, NOTHING, OVER, REFUSED, Fault, kind_text
from .errors import (
    KINDS, NOT_A_LIST, JsonPatchException, JsonPointerException, NoMergePatch, OverLimit, TooDeep, _LeadsNowhere, _TestsNothing,
)
from .limits import Limits

TYPE_CHECKING = False
if TYPE_CHECKING:
    from typing import Any, Callable, Dict, Optional, Tuple, TypeVar

    _Made = TypeVar("_Made")

# a text that is no document, told as no patch, or the other way round
_AS_DOCUMENT, _AS_PATCH = {NO_PATCH: NO_DOCUMENT}, {NO_DOCUMENT: NO_PATCH}
# the kinds of a pointer's faults
_OF_POINTER = {NO_POINTER: "NoPointer", NOTHING: "Nothing"}


def of_text(told: str, kind: int) -> Exception:
    """The exception where a text is no patch, or is told of as another, for this kind."""
    name, error = KINDS[kind]
    if told != "patch":
        error = TooDeep if issubclass(error, TooDeep) else JsonPatchException
    return error(f"{told} {kind_text(kind)}", kind=name)


def operation_of(patch: bytes, number: int) -> Dict[str, Any]:
    """The operation of this number. Its numbers may be any, and stay as they are written."""
    import json

    operation: Dict[str, Any] = json.loads(patch, parse_int=str, parse_float=str)[number]
    return operation


def _over(operation: int, kind: int, patch: bytes) -> Exception:
    name, told = KINDS[kind][0], f"is over the limits: it {kind_text(kind)}"
    if not patch:
        return OverLimit(f"the merge {told}", kind=name)
    path = operation_of(patch, operation)["path"]
    return OverLimit(f"operation {operation} at path {path!r} {told}", operation=operation, kind=name, path=path)


def fault(status: int, operation: int, kind: int, path: Optional[str], patch: bytes = b"") -> Exception:
    """The exception for what a call tells that was handed the text of this patch, none if that is a merge patch."""
    if status == CLOSED:
        return ValueError("the document is closed")
    if status == IMPOSSIBLE:
        return NoMergePatch("no merge patch does this", kind="Impossible")
    if status == NO_DOCUMENT:
        return of_text("document", kind)
    if status == OVER:
        return _over(operation, kind, patch)
    name, error = KINDS[kind]
    if status == REFUSED:
        if error is _LeadsNowhere and operation_of(patch, operation)["op"] == "test":
            error = _TestsNothing
        told = f"operation {operation} failed at path {path!r}: {kind_text(kind)}"
        return error(told, operation=operation, kind=name, path=path)
    if kind <= NOT_A_LIST:
        return of_text("patch", kind)
    return error(f"patch: operation {operation}: {kind_text(kind)}", operation=operation, kind=name)


def called(call: Callable[..., _Made], *given: Any, patch: bytes = b"", told: Dict[int, int] = {}) -> _Made:
    """What a call of the library returns, or else the exception. `patch` is the text that it is handed of a
    patch, none if that is a merge patch; a status in `told` is told as another."""
    try:
        return call(*given)
    except Fault as error:
        status, operation, kind, path = error.args
        raise fault(told.get(status, status), operation, kind, path, patch) from None


def applied(document: bytes, patch: bytes, limits: Limits) -> bytes:
    return called(_native.apply, document, patch, limits._given, patch=patch)


def merged(document: bytes, patch: bytes, limits: Limits) -> bytes:
    return called(_native.merge, document, patch, limits._given)


def recorded(document: bytes, patch: bytes, limits: Limits) -> Tuple[bytes, bytes]:
    """The text that a patch leaves, and that of the patch that leads back."""
    return called(_native.record, document, patch, limits._given, patch=patch)


def difference(call: Callable[..., bytes], *given: Any) -> bytes:
    """The text of the patch that a call makes to lead to a text, which is told as a document."""
    return called(call, *given, told=_AS_DOCUMENT)


def joined(first: bytes, then: bytes, limits: Limits) -> bytes:
    """The text of the merge patch that does what two do, of which the first is told as a patch, too."""
    return called(_native.merge_join, first, then, limits._given, told=_AS_PATCH)


def found(call: Callable[..., bytes], pointer: str, *given: Any) -> bytes:
    """What a call writes that goes where a pointer leads."""
    try:
        return call(*given)
    except Fault as error:
        kind = _OF_POINTER.get(error.args[0])
        if kind is None:
            raise fault(*error.args) from None
        raise JsonPointerException(f"pointer {pointer!r}: {kind}", kind=kind, path=pointer) from None


def expect_patch(text: bytes) -> None:
    """Raises why a text is no patch."""
    called(_native.check, text)
