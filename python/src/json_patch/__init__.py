"""JSON Patch (RFC 6902), JSON Pointer (RFC 6901) and JSON Merge Patch (RFC 7396).

Patches are applied by a library that is proved to do what RFC 6902 says. The names are those of the
packages jsonpatch and jsonpointer:

>>> apply_patch({"a": [1, 2]}, [{"op": "move", "from": "/a/0", "path": "/b"}])
{'a': [2], 'b': 1}
>>> JsonPatch.from_string('[{"op": "remove", "path": "/a"}]').apply({"a": 1})
{}
>>> resolve_pointer({"a": [1, 2]}, "/a/1")
2

A refused patch changes nothing, and the exception tells which operation is refused, why, and its
path:

>>> try:
...     apply_patch({"a": 1}, [{"op": "test", "path": "/a", "value": 1}, {"op": "remove", "path": "/b"}])
... except JsonPatchConflict as error:
...     print(error, error.operation, error.kind, error.path)
operation 1 failed at path '/b': path is invalid 1 InvalidPointer /b

A patch that is recorded returns the patch that leads back:

>>> record_patch({"a": [1, 2]}, [{"op": "remove", "path": "/a/0"}])
({'a': [2]}, JsonPatch([{'op': 'add', 'path': '/a/0', 'value': 1}]))

Of two documents the patch is made that leads from the one to the other:

>>> make_patch({"name": "a", "rows": [1, 2, 3]}, {"name": "a", "rows": [1, 3]})
JsonPatch([{'op': 'remove', 'path': '/rows/1'}])

Merge patches (RFC 7396) are merged in, made from two documents, and joined, two in one:

>>> merge_patch({"a": 1, "b": 2}, make_merge_patch({"a": 1, "b": 2}, {"b": 2, "c": 3}))
{'b': 2, 'c': 3}

A JSON text, such as a file's, is patched with every other byte kept:

>>> apply_text('{ "price": 1.50, "rows": [1, 2] }', [{"op": "remove", "path": "/rows/0"}])
'{ "price": 1.50, "rows": [2] }'

A document that is changed again and again is kept by the library, as its text, and takes back the last
change that was recorded:

>>> with Document.from_string('{ "rows": [1.50, 2] }') as document:
...     inverse = document.record([{"op": "replace", "path": "/rows/0", "value": 3}])
...     document.get("/rows")
...     document.undo()
...     document.to_string()
[3, 2]
'{ "rows": [1.50, 2] }'

A stranger's patch can't nest a document without end, nor make it, or the inverse, long without end: every call
keeps to Limits, those of `limits` or Limits(). OverLimit tells which operation is over, and nothing is changed:

>>> try:
...     apply_patch([], [{"op": "copy", "from": "", "path": "/-"}] * 9, limits=Limits(bytes=100))
... except OverLimit as error:
...     print(error)
operation 7 at path '/-' is over the limits: it takes too much

A document is what json.dumps writes of an object, and what comes back is what json.loads reads: new lists and
dicts, the members in their order, a key 1 as "1". `dumps` and `loads` name other functions, as for Decimals. Numbers
may be any that these write and read; nan and infinity are no JSON.

What is no UTF-8 or no JSON (RFC 8259) is refused with the `kind` NotJson, and what holds an unpaired
surrogate, which stands for no character, with UnpairedSurrogate. A text in UTF-16, or with a byte order mark, is
no JSON.

A document or a merge patch with more levels than the limit, and a patch whose text nests more than 127,
is refused by TooDeep, as a text or as an object, also one that holds itself. No call raises
RecursionError for what it is handed, but where the caller's own calls leave it no room. A thread has
to have 256 kB of stack.
"""
from ._version import __version__
from .document import Document
from .errors import (
    InvalidJsonPatch,
    JsonPatchConflict,
    JsonPatchException,
    JsonPatchTestFailed,
    JsonPointerException,
    NoMergePatch,
    NothingToUndo,
    NumberOutOfRange,
    OverLimit,
    TooDeep,
)
from .limits import Limits
from .patch import JsonPatch, apply_patch, join_merge_patches, make_merge_patch, make_patch, merge_patch, record_patch
from .pointer import EndOfList, JsonPointer, resolve_pointer, set_pointer
from .texts import apply_text, merge_text, resolve_text

__all__ = [
    "Document",
    "EndOfList",
    "InvalidJsonPatch",
    "JsonPatch",
    "JsonPatchConflict",
    "JsonPatchException",
    "JsonPatchTestFailed",
    "JsonPointer",
    "JsonPointerException",
    "Limits",
    "NoMergePatch",
    "NothingToUndo",
    "NumberOutOfRange",
    "OverLimit",
    "TooDeep",
    "__version__",
    "apply_patch",
    "apply_text",
    "join_merge_patches",
    "make_merge_patch",
    "make_patch",
    "merge_patch",
    "merge_text",
    "record_patch",
    "resolve_pointer",
    "resolve_text",
    "set_pointer",
]
