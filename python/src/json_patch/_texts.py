"""From objects to the texts that the library reads, and back."""
from __future__ import annotations

from ._calls import of_text
from ._depth import is_deep
from .errors import NOT_JSON, TOO_DEEP, NumberOutOfRange, _InvalidNumber
from .pointer import JsonPointer

TYPE_CHECKING = False
if TYPE_CHECKING:
    from typing import Any, Callable, Dict, Optional, TypeVar, Union

    # of the caller: what writes an object as a JSON text, and what reads one
    Dumps = Callable[[Any], Union[str, bytes]]
    Loads = Callable[[str], Any]
    _Read = TypeVar("_Read")

_OPEN, _CLOSE = ("[", "{"), ("]", "}")


def pointer_path(value: object) -> str:
    """A JsonPointer stands for its text."""
    if isinstance(value, JsonPointer):
        return value.path
    raise TypeError(f"{type(value).__name__} can't be written as JSON")


def is_decimal(value: object) -> bool:
    from decimal import Decimal

    return isinstance(value, Decimal)


def _number_or_path(value: object) -> Union[int, str]:
    return 0 if is_decimal(value) else pointer_path(value)


_ENCODERS: Dict[Any, Callable[[Any], str]] = {}


def _encoder(default: Callable[[Any], object]) -> Callable[[Any], str]:
    """What writes objects that don't nest too deep, so that none holds itself: to make one takes as long as to
    write a small object."""
    if default not in _ENCODERS:
        from json import JSONEncoder

        _ENCODERS[default] = JSONEncoder(separators=(",", ":"), allow_nan=False, check_circular=False, default=default).encode
    return _ENCODERS[default]


def _text(value: object, told: str, default: Callable[[Any], object] = pointer_path) -> bytes:
    """The text of an object, of which this is told where it holds nan, infinity or a number of some thousand
    digits, for which json has no text. How deep it nests is seen before: json goes by recursion, for which a
    thread's stack may be too small."""
    try:
        return _encoder(default)(value).encode()
    except ValueError as error:
        if str(error).startswith("Out of range float"):
            raise of_text(told, NOT_JSON) from error
        raise _out_of_range(told) from error


def _out_of_range(told: str) -> NumberOutOfRange:
    """Of a number that Python doesn't write or read: for the library it may be any."""
    error = _InvalidNumber if told == "patch" else NumberOutOfRange
    return error(f"{told} holds a number that is out of range", kind="NumberOutOfRange")


def document_text(document: object, dumps: Optional[Dumps] = None) -> bytes:
    if is_deep(document):
        raise of_text("document", TOO_DEEP)
    return as_bytes(dumps(document)) if dumps else _text(document, "document")


def patch_text(patch: object, dumps: Optional[Dumps] = None) -> bytes:
    """The text of a patch or a merge patch that is an object."""
    expect_patch_depth(patch)
    return as_bytes(dumps(patch)) if dumps else _text(patch, "patch")


def text_of(patch: object, dumps: Optional[Dumps] = None) -> bytes:
    """The text of a patch, as it is written where it is a text."""
    return as_bytes(patch) if isinstance(patch, (str, bytes)) else patch_text(patch, dumps)


def text_to_check(patch: object) -> bytes:
    """A text that is a patch exactly where that of an object is, whatever writes its Decimals."""
    expect_patch_depth(patch)
    return _text(patch, "patch", default=_number_or_path)


def expect_patch_depth(patch: object) -> None:
    if is_deep(patch):
        raise of_text("patch", TOO_DEEP)


def by_callers_code(call: Callable[[Any], _Read], patch: Any) -> _Read:
    """What a function of the caller's reads or writes. Where it can't for the patch's depth, that is told."""
    try:
        return call(patch)
    except RecursionError as error:
        raise of_text("patch", TOO_DEEP) from error


def as_bytes(text: Union[str, bytes]) -> bytes:
    """Of a text with an unpaired surrogate they are no UTF-8, which the library refuses."""
    return text.encode(errors="surrogatepass") if isinstance(text, str) else bytes(memoryview(text))


def value_of(text: bytes, loads: Optional[Loads] = None, told: str = "result") -> Any:
    """The object of a text that the library wrote, or has checked. Of a number with some thousand digits, which
    json.loads may not read, this is told."""
    import json

    if loads:
        return loads(text.decode())
    try:
        # of a str json doesn't guess the encoding
        return json.loads(text.decode())
    except ValueError as error:
        raise _out_of_range(told) from error


def exact(value: Any) -> Any:
    """A float as the number that json.dumps writes, which its binary fraction isn't; all else as it is."""
    if not isinstance(value, float):
        return value
    from decimal import Decimal

    return Decimal(float.__repr__(value))


def key_of(patch: Any) -> str:
    """A text that patches share which are equal: numbers by what they say, and members in any order."""
    import json

    text = json.dumps(patch, default=lambda value: _key_of_number(str(value)) if is_decimal(value) else pointer_path(value))
    return json.dumps(json.loads(text, parse_int=_key_of_number, parse_float=_key_of_number), sort_keys=True)


def _key_of_number(text: str) -> str:
    """One text for each number, which no string of a patch is: it holds an unpaired surrogate."""
    mantissa, _, power = text.lower().partition("e")
    whole, _, fraction = mantissa.partition(".")
    digits = (whole + fraction).lstrip("-0")
    kept = digits.rstrip("0")
    zeros = int(power or 0) - len(fraction) + len(digits) - len(kept)
    return "\ud800" + (f"{'-' * text.startswith('-')}{kept}e{zeros}" if kept else "0")


def indented(text: bytes, spaces: int) -> bytes:
    """A JSON text with each member and element on a line, its numbers and strings as they are written."""
    import re

    made: list[str] = []
    levels, before = 0, ""
    # of a string the run up to an escape is one step, since each step takes memory
    for token in re.findall(r'"[^"\\]*(?:\\.[^"\\]*)*"|[\[\]{}:,]|[^\s\[\]{}:,"]+', text.decode()):
        levels -= token in _CLOSE
        if before == "," or (before in _OPEN) != (token in _CLOSE):
            made.append("\n" + " " * (spaces * levels))
        made.append(": " if token == ":" else token)
        levels += token in _OPEN
        before = token
    return "".join(made).encode()
