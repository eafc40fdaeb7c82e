"""The calls of json_patch.h on texts, and on a text that is kept, made by ctypes: c/build has to have built the library, or the environment
variable JSON_PATCH_LIBRARY says where it is."""
import ctypes
import os
from pathlib import Path

TOP = Path(__file__).resolve().parent.parent
os.environ.setdefault("JSON_PATCH_LIBRARY", str(TOP / "c/out/lib/libjson_patch.so"))
OK, REFUSED, NO_DOCUMENT, NO_PATCH, NO_MEMORY, NO_ROOM, OVER = 0, 1, 2, 3, 4, 5, 9
MOST_LEVELS, MOST_BYTES = 124, 500_000
TOO_DEEP, TOO_MUCH = "nests too deep", "takes too much"


class Report(ctypes.Structure):
    _fields_ = [("size", ctypes.c_size_t), ("operation", ctypes.c_size_t), ("inverse_size", ctypes.c_size_t), ("kind", ctypes.c_uint8)]


class Limits(ctypes.Structure):
    """On how deep a text nests and how many bytes it has; a patch may have any number of operations."""

    _fields_ = [(name, ctypes.c_size_t) for name in ("size", "depth", "bytes", "operations")]

    def __init__(self, depth, most):
        super().__init__(ctypes.sizeof(Limits), depth, most, ctypes.c_size_t(-1).value)


class Handle(ctypes.Structure):
    _fields_ = [("at", ctypes.c_void_p)]


LIBRARY = ctypes.CDLL(os.environ["JSON_PATCH_LIBRARY"])
LIBRARY.json_patch_kind_text.restype = ctypes.c_char_p
TEXT = [ctypes.c_char_p, ctypes.c_size_t]
CALLS = {name: getattr(LIBRARY, f"json_patch_{name}") for name in ("apply", "merge", "diff", "record")}
# the flags of a difference: none
FLAGS = {"diff": (0,)}
for name, call in CALLS.items():
    outputs, flags = TEXT * (1 + (name == "record")), [ctypes.c_uint] * (name == "diff")
    call.argtypes = [*TEXT, *TEXT, ctypes.POINTER(Limits), *flags, *outputs, ctypes.POINTER(Report)]
    call.restype = ctypes.c_uint8

HANDLE = [ctypes.POINTER(Handle)]
KEPT = {name: getattr(LIBRARY, f"json_patch_{name}") for name in (
    "open", "update", "update_recorded", "update_merged", "undo", "inverse", "text", "close",
)}
for name, given in (
    ("open", [*TEXT, ctypes.POINTER(Limits)]), ("update", [*TEXT, *TEXT]), ("update_recorded", [*TEXT, *TEXT]),
    ("update_merged", TEXT), ("undo", []), ("inverse", TEXT), ("text", TEXT),
):
    KEPT[name].argtypes, KEPT[name].restype = [*HANDLE, *given, ctypes.POINTER(Report)], ctypes.c_uint8
KEPT["close"].argtypes, KEPT["close"].restype = HANDLE, None


def kind_of(report):
    return LIBRARY.json_patch_kind_text(report.kind).decode()


def answer(name, document, patch, depth=MOST_LEVELS, most=MOST_BYTES):
    """What a call says of two texts: "ok" and what it writes; "over", the operation and why; "refused", the
    operation, its path and why; or "document" or "patch" and what is wrong with it."""
    document, patch, report = document.encode(), patch.encode(), Report()
    limits = Limits(depth, most)
    rooms = [len(document) + len(patch) + 64] * (1 + (name == "record"))
    while True:
        outputs = [ctypes.create_string_buffer(room) for room in rooms]
        given = [part for output, room in zip(outputs, rooms) for part in (output, room)]
        status = CALLS[name](document, len(document), patch, len(patch), limits, *FLAGS.get(name, ()), *given, report)
        sizes = [report.size, report.inverse_size][: len(rooms)]
        if status in (OK, REFUSED, NO_ROOM) and any(size > room for size, room in zip(sizes, rooms)):
            rooms = sizes
            continue
        written = [ctypes.string_at(output, size).decode() for output, size in zip(outputs, sizes)]
        why = kind_of(report)
        told = {OK: ("ok", *written), OVER: ("over", report.operation, why), NO_DOCUMENT: ("document", why)}
        told.update({REFUSED: ("refused", report.operation, written[0], why), NO_PATCH: ("patch", why)})
        return told[status]


def written(call, *given):
    """The status of a call that is handed room, what it writes, and its report."""
    report, room = Report(), 1024
    while True:
        out = ctypes.create_string_buffer(room)
        status = call(*given, out, room, report)
        if report.size <= room:
            return status, ctypes.string_at(out, report.size).decode(), report
        room = report.size


def changed(handle, name, patch):
    """Makes a change of what is kept."""
    if name != "merge":
        return written(KEPT["update_recorded" if name == "record" else "update"], handle, patch, len(patch))
    report = Report()
    return KEPT["update_merged"](handle, patch, len(patch), report), "", report


def answer_of_kept(name, document, patch, depth, most):
    """The same where the text is kept. What isn't made has to leave it, and what is recorded to be taken back, byte
    for byte: else the last of the answer is the text that stands there."""
    document, patch, report, handle = document.encode(), patch.encode(), Report(), Handle()
    if KEPT["open"](handle, document, len(document), Limits(depth, most), report):
        return ("document", kind_of(report))
    status, path, report = changed(handle, name, patch)
    made, inverse = (written(KEPT[call], handle)[1] for call in ("text", "inverse"))
    if name == "record" and status == OK:
        KEPT["undo"](handle, Report())
    now = written(KEPT["text"], handle)[1]
    KEPT["close"](handle)
    told = {OK: ("ok", made, inverse)[: 2 + (name == "record")], OVER: ("over", report.operation, kind_of(report))}
    told.update({REFUSED: ("refused", report.operation, path, kind_of(report)), NO_PATCH: ("patch", kind_of(report))})
    wanted = made if status == OK and name != "record" else document.decode()
    return told[status] if now == wanted else (*told[status], now)
