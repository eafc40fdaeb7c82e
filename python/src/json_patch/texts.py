"""Patches on JSON texts, of which every byte is kept that no operation changes."""
from __future__ import annotations

from . import _native
from ._calls import applied, found, merged
from ._texts import as_bytes, patch_text, text_of
from .limits import DEFAULT, Limits
from .patch import operations_of

TYPE_CHECKING = False
if TYPE_CHECKING:
    from typing import Any, Optional, TypeVar

    from ._texts import Dumps
    from .patch import Patch

    # what comes back is what was handed in
    _Text = TypeVar("_Text", str, bytes)


def apply_text(text: _Text, patch: Patch, *, dumps: Optional[Dumps] = None, limits: Limits = DEFAULT) -> _Text:
    """What a patch, as a list of operations, a JSON text or a JsonPatch, leaves of a JSON text. Whitespace,
    the order of members and the way in which numbers and strings are written stay, and what is added
    follows its neighbours: whitespace, or a colon with whitespace, of at most 128 bytes is taken over.
    Numbers may be any, and are compared exactly.

    >>> print(apply_text('''{
    ...   "price": 1.50,
    ...   "tags": [ "new" ]
    ... }''', [{"op": "copy", "from": "/price", "path": "/was"}, {"op": "add", "path": "/tags/-", "value": "red"}]))
    {
      "price": 1.50,
      "tags": [ "new", "red" ],
      "was": 1.50
    }

    It is refused as by apply_patch, and then nothing is changed. `dumps` writes a patch that is no text.
    """
    return _like(text, applied(as_bytes(text), text_of(operations_of(patch), dumps), limits))


def merge_text(text: _Text, patch: Any, *, dumps: Optional[Dumps] = None, limits: Limits = DEFAULT) -> _Text:
    """A JSON text with a merge patch (RFC 7396) merged into it, which is any object and no text of one. What the
    merge doesn't change is kept, and all of the text where it changes nothing.

    >>> merge_text('{ "price": 1.50, "tags": ["new"], "old": 1 }', {"old": None, "tags": ["new"], "stock": 5})
    '{ "price": 1.50, "tags": ["new"], "stock": 5 }'
    """
    return _like(text, merged(as_bytes(text), patch_text(patch, dumps), limits))


def resolve_text(text: _Text, pointer: str, *, limits: Limits = DEFAULT) -> _Text:
    """The text of the value where a JSON pointer (RFC 6901) leads in a JSON text, as it is written there;
    JsonPointerException, where nothing does.

    >>> resolve_text('{"price": 1.50, "tags": [ "new" ]}', "/price")
    '1.50'
    """
    return _like(text, found(_native.value, pointer, as_bytes(text), as_bytes(pointer), limits._given))


def _like(text: _Text, made: bytes) -> _Text:
    return made.decode() if isinstance(text, str) else made
