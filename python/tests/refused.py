"""Each request for memory of the package's module in C, and of the library in it, is refused in turn, alone and with
all that come after it: over a module that is linked with refused.c. With all after it refused, a call raises
MemoryError, and leaves a document that is kept as it was; with one alone it does that, or what it does with ample
memory. It ends with 1 where that isn't so."""
import ctypes
import sys

from json_patch import (
    Document, JsonPatch, _native, apply_text, join_merge_patches, make_merge_patch, make_patch, merge_text, record_patch,
    resolve_text,
)

LONG = "x" * 3_000
TEXT = '{ "a": [1, 2.50, {"b": null}], "c": "%s" }' % LONG
OBJECT, OTHER = {"a": [1, 2.5, {"b": None}], "c": LONG}, {"a": [2.5, 1], "c": 7, "d": LONG}
PATCH = [{"op": "move", "from": "/a/1", "path": "/d"}, {"op": "replace", "path": "/c", "value": LONG}, {"op": "copy", "from": "/d", "path": "/a/-"}]
REFUSED = [*PATCH, {"op": "remove", "path": "/e" * 3_000}]

NONE, ALL = (0, 0), 2**62

# each is handed a document that is kept, after a recorded change of it
CALLS = [
    lambda _: apply_text(TEXT, PATCH),
    lambda _: apply_text(TEXT, REFUSED),
    lambda _: record_patch(OBJECT, PATCH),
    lambda _: merge_text(TEXT, OTHER),
    lambda _: make_patch(OBJECT, OTHER),
    lambda _: make_patch({"a": [OBJECT], "c": LONG}, {"a": [OTHER], "c": LONG}),
    lambda _: make_patch(OBJECT, OTHER, moves=True),
    lambda _: make_patch(OBJECT, OTHER, guarded=True),
    lambda _: make_merge_patch({"a": 1}, OTHER),
    lambda _: join_merge_patches({"d": None}, OTHER),
    lambda _: JsonPatch(PATCH),
    lambda _: resolve_text(TEXT, "/c"),
    lambda _: Document.from_string(TEXT).close(),
    lambda kept: kept.apply(PATCH),
    lambda kept: kept.apply(REFUSED),
    lambda kept: kept.record(PATCH),
    lambda kept: kept.merge(OTHER),
    lambda kept: kept.undo(),
    lambda kept: _native.inverse(kept._handle),
    lambda kept: kept.diff(OTHER),
    lambda kept: kept.get("/c"),
    lambda kept: kept.to_string(),
]


def outcome(call, refuse, *refused):
    """What a call returns or raises, but that is want of memory, the text that is kept then, and how many
    requests it made, of which those of these numbers were refused."""
    with Document.from_string(TEXT) as kept:
        kept.record([{"op": "replace", "path": "/a/0", "value": 5}])
        refuse(*refused)
        try:
            made = call(kept)
        except MemoryError:
            made = MemoryError
        except Exception as error:
            made = repr(error)
        asked = refuse(*NONE)
        return made, kept.to_string(), asked


def requests(call, refuse):
    """How many requests a call makes, each of which was refused."""
    untouched = MemoryError, outcome(lambda kept: None, refuse, *NONE)[1]
    *done, number = outcome(call, refuse, *NONE)
    for one in range(1, number + 1):
        told = call.__code__.co_firstlineno, one
        assert outcome(call, refuse, one, ALL)[:2] == untouched, told
        assert outcome(call, refuse, one, one)[:2] in (untouched, tuple(done)), told
    assert done[0] is not MemoryError, call.__code__.co_firstlineno
    return number


def main():
    refuse = ctypes.PyDLL(_native.__file__).refuse
    refuse.argtypes, refuse.restype = [ctypes.c_long] * 2, ctypes.c_long
    numbers = [requests(call, refuse) for call in CALLS]
    # an undo makes none
    assert numbers.count(0) == 1, numbers
    print(f"python: {sum(numbers)} requests of {len(CALLS)} calls, each refused in turn")


if __name__ == "__main__":
    sys.exit(main())
