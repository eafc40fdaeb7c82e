"""What the calls raise, and what each exception tells."""
from __future__ import annotations

TYPE_CHECKING = False
if TYPE_CHECKING:
    from typing import Dict, Optional, Tuple, Type


class _Told(Exception):
    """An exception that tells more than its message: `kind` names what went wrong, `operation` is the
    number of the operation at fault, from 0, and `path` its path. Those that don't apply are None."""

    def __init__(
        self,
        *message: object,
        operation: Optional[int] = None,
        kind: Optional[str] = None,
        path: Optional[str] = None,
    ) -> None:
        super().__init__(*message)
        self.operation, self.kind, self.path = operation, kind, path


class JsonPatchException(_Told):
    """What goes wrong with a document or a patch."""


class InvalidJsonPatch(JsonPatchException):
    """The patch isn't one, whatever the document."""


class JsonPatchConflict(JsonPatchException):
    """An operation can't be made on this document."""


class JsonPatchTestFailed(JsonPatchException, AssertionError):
    """Another value stands where a `test` looks, or none."""


class JsonPointerException(_Told):
    """A pointer isn't one, or leads nowhere."""


class NumberOutOfRange(JsonPatchException, ValueError):
    """A number has more digits than Python writes and reads."""


class TooDeep(JsonPatchException, ValueError):
    """A document or a patch nests deeper than the limit, as a text or as an object: one that holds itself
    does, too."""


class OverLimit(JsonPatchException):
    """An operation of a patch is over the limits, and nothing is changed: it would put a value too deep
    (`kind` is TooDeep), or leave too long a text or inverse (TooMuch), or copy or test too much, with
    what was before, or is the first too many (TooMany). A merge that would leave too long a text has no
    operation."""


class NoMergePatch(JsonPatchException, ValueError):
    """No merge patch does what is asked: it can't make a member null, nor can it put an object whole, as
    `{"a": 1}` and then `{"a": {"b": 2}}` do, since of one that is there it keeps the other members."""


class NothingToUndo(JsonPatchException, IndexError):
    """The last change of a Document wasn't recorded, or has been taken back."""


# jsonpatch raises one or the other by where on the way a pointer leads nowhere: both catch these.
class _LeadsNowhere(JsonPatchConflict, JsonPointerException):
    pass


# It raises JsonPatchTestFailed where that is the pointer of a `test`.
class _TestsNothing(_LeadsNowhere, JsonPatchTestFailed):
    pass


# It leaves what json.loads raises, a ValueError.
class _NoPatchText(InvalidJsonPatch, ValueError):
    pass


class _InvalidPointer(InvalidJsonPatch, JsonPointerException):
    pass


class _InvalidNumber(InvalidJsonPatch, NumberOutOfRange):
    pass


class _PatchTooDeep(InvalidJsonPatch, TooDeep):
    pass


# jsonpointer leaves what a list raises that is assigned to past its end, an IndexError.
class _PastTheEnd(JsonPointerException, IndexError):
    pass


# the kinds of json_patch.h, and what is raised for each
KINDS: Dict[int, Tuple[str, Type[_Told]]] = {
    1: ("NotJson", _NoPatchText),
    3: ("TestFailed", JsonPatchTestFailed),
    4: ("InvalidFromPointer", _LeadsNowhere),
    5: ("InvalidPointer", _LeadsNowhere),
    6: ("CannotMoveInsideItself", _LeadsNowhere),
    7: ("TooDeep", _PatchTooDeep),
    8: ("TooMuch", OverLimit),
    9: ("UnpairedSurrogate", _NoPatchText),
    10: ("TooMany", OverLimit),
    11: ("NotAList", InvalidJsonPatch),
    12: ("NotAnObject", InvalidJsonPatch),
    13: ("MissingOp", InvalidJsonPatch),
    14: ("OpNotText", InvalidJsonPatch),
    15: ("UnknownOp", InvalidJsonPatch),
    16: ("MissingFrom", InvalidJsonPatch),
    17: ("FromNotText", InvalidJsonPatch),
    18: ("BadFrom", _InvalidPointer),
    19: ("MissingPath", InvalidJsonPatch),
    20: ("PathNotText", InvalidJsonPatch),
    21: ("BadPath", _InvalidPointer),
    22: ("MissingValue", InvalidJsonPatch),
}
# the kinds of an operation that isn't made
TEST_FAILED, NO_SOURCE, NOWHERE, INSIDE_ITSELF, TOO_DEEP, TOO_MUCH = range(3, 9)
TOO_MANY = 10
# that of an object whose text would be no JSON, which the library isn't handed
NOT_JSON = 1
# up to this kind a patch is at fault as a whole, and after it by one of its operations
NOT_A_LIST = 11
