"""The command json-patch: patches on files."""
from __future__ import annotations

import argparse
import json
import signal
import sys
from contextlib import contextmanager, suppress
from itertools import combinations
from typing import Any, Callable, Dict, Iterator, List, NoReturn, Optional, TypeVar, Union

from . import _files, _native
from ._calls import applied, called, expect_patch, merged, recorded
from ._texts import indented
from ._version import __version__
from .errors import (
    InvalidJsonPatch, JsonPatchConflict, JsonPatchException, JsonPatchTestFailed, JsonPointerException, NoMergePatch, OverLimit,
)
from .limits import MOST_BYTES, MOST_LEVELS, Limits
from .texts import resolve_text

_Made = TypeVar("_Made")

REFUSED, UNREADABLE, NO_MEMORY, UNWRITABLE, USAGE = 1, 2, 3, 4, 64

_EPILOG = """\
DOCUMENT, PATCH, FROM and TO are names of files, or - for standard input. The result goes to standard output;
with --in-place it takes the place of DOCUMENT, by a new file that is written beside it and renamed over
it, so that DOCUMENT has the old content or the new one whenever the command is stopped. INVERSE may be a
device or a pipe, such as /dev/stdout with --in-place. Where two results would go to one place, or a result
over what is read, nothing is written.

apply, merge, record and get keep the text: whitespace, the order of members, and the way in which numbers
and strings are written; what is added follows its neighbours. With --indent the whitespace is another, and
nothing else. Numbers may be any.

exit status:
  0   done
  1   the patch is refused or over the limits, no merge patch leads to TO, or the pointer leads nowhere:
      nothing is changed
  2   DOCUMENT, PATCH, FROM, TO or POINTER can't be read, isn't one, or nests too deep
  3   out of memory
  4   the output can't be written
  64  the command line is none of those above
"""


class _Failure(Exception):
    """What the command ends with: a status, and the line that says why."""

    def __init__(self, status: int, told: str) -> None:
        super().__init__(told)
        self.status = status


class _Parser(argparse.ArgumentParser):
    def error(self, message: str) -> NoReturn:
        raise _Failure(USAGE, f"{_visible(message)} (see {self.prog} --help)")

    def _print_message(self, message: str, file: object = None) -> None:
        """The help and the version: what is wrong is raised."""
        _show(message.encode())


def _parser() -> argparse.ArgumentParser:
    parser = _Parser(
        prog="json-patch",
        description="Applies JSON patches (RFC 6902) and JSON merge patches (RFC 7396) to files, and makes and checks patches.",
        epilog=_EPILOG,
        formatter_class=argparse.RawDescriptionHelpFormatter,
    )
    parser.add_argument("-v", "--version", action="version", version=f"json-patch {__version__}")
    commands = parser.add_subparsers(dest="command", metavar="COMMAND", required=True)

    def command(name: str, told: str) -> argparse.ArgumentParser:
        made: argparse.ArgumentParser = commands.add_parser(name, help=told, description=f"{told[0].upper()}{told[1:]}.")
        return made

    for name, told in (
        ("apply", "write what a patch leaves of a document"),
        ("merge", "write a document with a merge patch merged into it"),
        ("record", "apply a patch, and write the patch that leads back, to another file"),
    ):
        changing = command(name, told)
        changing.add_argument("document", metavar="DOCUMENT", help="the document's file, or -")
        if name == "record":
            changing.add_argument("patch", metavar="PATCH", help="the patch's file, or -")
            changing.add_argument("inverse", metavar="INVERSE", help="the file for the patch that leads back")
        else:
            changing.add_argument("patch", metavar="PATCH", nargs="?", default="-", help="the patch's file, or - (the default)")
        changing.add_argument("-i", "--in-place", action="store_true", help="change DOCUMENT itself")
        changing.add_argument("-b", "--backup", action="store_true", help="with -i, keep the old one as DOCUMENT.orig")
        _add_output(changing)
        _add_limits(changing)
        if name != "merge":
            changing.add_argument("--limit-operations", type=_operations, metavar="N", help="refuse a patch of more than N operations")
    differing = command("diff", "write the patch that leads from a document to another, [] where they are equal")
    differing.add_argument("document", metavar="FROM", help="the file of the document that the patch is for, or -")
    differing.add_argument("goal", metavar="TO", nargs="?", default="-", help="the file of the one to which it leads, or - (the default)")
    form = differing.add_mutually_exclusive_group()
    form.add_argument("-m", "--merge", action="store_true", help="write a merge patch, {} where they are equal objects; none makes a member null")
    form.add_argument("--moves", action="store_true", help="move what stands elsewhere, where the patch is no longer by it")
    form.add_argument("--guarded", action="store_true", help="test what is removed or replaced, so that a document is refused that has something else there")
    _add_output(differing)
    _add_levels(differing)
    getting = command("get", "write what stands where a pointer leads in a document")
    getting.add_argument("document", metavar="DOCUMENT", help="the document's file, or -")
    getting.add_argument("pointer", metavar="POINTER", help="a JSON pointer (RFC 6901), such as /rows/0")
    _add_output(getting)
    checking = command("check", "say whether a file is a patch, and write nothing")
    checking.add_argument("patch", metavar="PATCH", nargs="?", default="-", help="the patch's file, or - (the default)")
    return parser


def _add_output(parser: argparse.ArgumentParser) -> None:
    parser.add_argument("--indent", type=_spaces, metavar="N", help="write each member and element on a line, indented by N spaces (at most 100)")
    escapes = "changes nothing: a text keeps the escapes that it has, and diff writes none that need not be"
    parser.add_argument("-u", "--preserve-unicode", action="store_true", help=escapes)


def _add_levels(parser: argparse.ArgumentParser) -> None:
    levels = f"refuse what nests deeper than N levels (at most {MOST_LEVELS}, which it is without this)"
    parser.add_argument("--limit-depth", type=_levels, metavar="N", default=MOST_LEVELS, help=levels)


def _add_limits(parser: argparse.ArgumentParser) -> None:
    _add_levels(parser)
    told = f"refuse a patch by which a text, record's inverse, or what it copies and tests takes more than N bytes beyond both files ({MOST_BYTES})"
    parser.add_argument("--limit-bytes", type=_bytes, metavar="N", default=MOST_BYTES, help=told)


def _is_number(text: str) -> bool:
    return text.isascii() and text.isdecimal() and len(text) <= 99


def _levels(text: str) -> int:
    if not _is_number(text) or int(text) > MOST_LEVELS:
        raise argparse.ArgumentTypeError(f"{text!r} is no number of levels, which are at most {MOST_LEVELS}")
    return int(text)


def _bytes(text: str) -> int:
    return _count(text, "bytes")


def _operations(text: str) -> int:
    return _count(text, "operations")


def _count(text: str, of: str) -> int:
    if not _is_number(text):
        raise argparse.ArgumentTypeError(f"{text!r} is no number of {of}")
    return int(text)


def _spaces(text: str) -> int:
    if not text.isdecimal() or int(text) > 100:
        raise argparse.ArgumentTypeError(f"{text!r} is no number of spaces")
    return int(text)


def _visible(text: str) -> str:
    """The text in one line, and of characters that a terminal shows."""
    return "".join(one if one.isprintable() else one.encode("unicode_escape").decode() for one in text)


def _shown(name: str) -> str:
    """A file's name, as such a text."""
    if name == _files.STANDARD:
        return "standard input"
    return name if name.isprintable() else repr(name)


def _read(name: str) -> bytes:
    try:
        return _files.read(name)
    except OSError as error:
        raise _Failure(UNREADABLE, f"{_shown(name)}: {error.strerror}") from error


def _writing(name: str, write: Callable[[], None]) -> None:
    try:
        write()
    except OSError as error:
        raise _Failure(UNWRITABLE, f"{name}: {error.strerror}") from error


@contextmanager
def _at_fault(name: str, document: Optional[str] = None) -> Iterator[None]:
    """What is raised in the block is told of this file, in one line; where the block reads a document and a
    patch, what is wrong with the document is told of that."""
    try:
        yield
    except (JsonPatchException, JsonPointerException) as error:
        refused = isinstance(error, (JsonPatchConflict, JsonPatchTestFailed, NoMergePatch, OverLimit)) or error.kind == "Nothing"
        if document is not None and not refused and not isinstance(error, InvalidJsonPatch):
            name = document
        raise _Failure(REFUSED if refused else UNREADABLE, _one_line(error, name)) from error


def _one_line(error: Union[JsonPatchException, JsonPointerException], name: str) -> str:
    """The file, the operation's number, the path and the kind."""
    told = [_shown(name)]
    if error.operation is not None:
        told.append(f"operation {error.operation}")
    if error.path is not None:
        told.append(f"path {json.dumps(error.path)}")
    return ": ".join([*told, str(error.kind)])


def _line(text: bytes, asked: argparse.Namespace) -> bytes:
    """A text as it is to be laid out, with the end of its line."""
    return (text if asked.indent is None else indented(text, asked.indent)) + b"\n"


def _limits(asked: argparse.Namespace) -> Limits:
    given = vars(asked)
    return Limits(given.get("limit_depth", MOST_LEVELS), given.get("limit_bytes", MOST_BYTES), given.get("limit_operations"))


def _put(text: bytes, asked: argparse.Namespace) -> None:
    content = text if asked.indent is None else _line(text, asked)
    if asked.in_place:
        _writing(_shown(asked.document), lambda: _files.replace(asked.document, content, asked.backup))
    else:
        _show(content)


def _show(content: bytes) -> None:
    _writing("standard output", lambda: _files.write_to(1, content))


def _apply(asked: argparse.Namespace) -> None:
    _put(_changed(applied, asked), asked)


def _merge(asked: argparse.Namespace) -> None:
    _put(_changed(merged, asked), asked)


def _changed(change: Callable[[bytes, bytes, Limits], _Made], asked: argparse.Namespace) -> _Made:
    """What is made of the document's text by that of a patch."""
    text, patch = _read(asked.document), _read(asked.patch)
    with _at_fault(asked.patch, asked.document):
        return change(text, patch, _limits(asked))


def _record(asked: argparse.Namespace) -> None:
    """The inverse is written first: where that fails, the document stays."""
    content, inverse = _changed(recorded, asked)
    _writing(_shown(asked.inverse), lambda: _files.replace(asked.inverse, inverse + b"\n"))
    _put(content, asked)


def _diff(asked: argparse.Namespace) -> None:
    text, goal = _read(asked.document), _read(asked.goal)
    with _at_fault(asked.goal, asked.document):
        if asked.merge:
            made = called(_native.merge_diff, text, goal, _limits(asked)._given)
        else:
            flags = _native.DIFF_MOVES if asked.moves else _native.DIFF_GUARDED if asked.guarded else 0
            made = called(_native.diff, text, goal, _limits(asked)._given, flags)
    _show(_line(made, asked))


def _get(asked: argparse.Namespace) -> None:
    text = _read(asked.document)
    with _at_fault(asked.document):
        found = resolve_text(text, asked.pointer)
    _show(_line(found, asked))


def _check(asked: argparse.Namespace) -> None:
    patch = _read(asked.patch)
    with _at_fault(asked.patch):
        expect_patch(patch)


_COMMANDS: Dict[str, Callable[[argparse.Namespace], None]] = {
    "apply": _apply,
    "merge": _merge,
    "record": _record,
    "diff": _diff,
    "get": _get,
    "check": _check,
}


def _why_none(asked: argparse.Namespace) -> Optional[str]:
    """Why what is asked for can't be, or None."""
    has = vars(asked)
    if has.get("document") == _files.STANDARD and has.get("patch") == _files.STANDARD:
        return "DOCUMENT and PATCH can't both be standard input"
    if has.get("document") == _files.STANDARD and has.get("goal") == _files.STANDARD:
        return "FROM and TO can't both be standard input"
    if has.get("in_place") and (asked.document == _files.STANDARD or _files.is_no_file(asked.document)):
        return "--in-place needs a file for DOCUMENT"
    if has.get("backup") and not asked.in_place:
        return "--backup needs --in-place"
    if has.get("backup") and _files.is_no_file(_files.backup_of(asked.document)):
        return "DOCUMENT.orig is there, and isn't a file"
    if has.get("inverse") == _files.STANDARD:
        return "INVERSE is the name of a file"
    return _why_lost(_results(has), _sources(has))


def _sources(has: Dict[str, Any]) -> Dict[str, _files.Place]:
    """Where what the command reads comes from, under the names of the help."""
    names = {"document": "FROM" if "goal" in has else "DOCUMENT", "patch": "PATCH", "goal": "TO"}
    return {told: _files.source(has[name]) for name, told in names.items() if name in has}


def _results(has: Dict[str, Any]) -> Dict[str, _files.Place]:
    """Where what the command writes goes, but for DOCUMENT itself."""
    made: Dict[str, _files.Place] = {}
    if "inverse" in has:
        made["INVERSE"] = has["inverse"]
    if has.get("backup"):
        made["DOCUMENT.orig"] = _files.backup_of(has["document"])
    if not has.get("in_place") and has["command"] != "check":
        made["standard output"] = _files.OUTPUT
    return made


def _why_lost(results: Dict[str, _files.Place], sources: Dict[str, _files.Place]) -> Optional[str]:
    """Which text would be lost under another, or None."""
    for result, place in results.items():
        for source, given in sources.items():
            if _files.overwrites(place, given):
                return f"{result} can't be {source}"
    for (first, place), (second, other) in combinations(results.items(), 2):
        if _files.collide(place, other):
            return f"{first} can't be {second}"
    return None


def main(arguments: Optional[List[str]] = None) -> int:
    """Does what the command line asks for, and returns the status."""
    # as a program that isn't Python's ends: at once, and without a word
    signal.signal(signal.SIGPIPE, signal.SIG_DFL)
    # one that is ignored stays so, as in a shell's background
    if signal.getsignal(signal.SIGINT) != signal.SIG_IGN:
        signal.signal(signal.SIGINT, signal.SIG_DFL)
    try:
        parser = _parser()
        asked = parser.parse_args(arguments)
        why = _why_none(asked)
        if why:
            parser.error(why)
        _COMMANDS[asked.command](asked)
    except _Failure as failure:
        _tell(str(failure))
        return failure.status
    except MemoryError:
        _tell("out of memory")
        return NO_MEMORY
    return 0


def _tell(fault: str) -> None:
    """A line on standard error, where that is open and takes it: the status tells, too."""
    if sys.stderr is not None:
        with suppress(OSError):
            _files.write_to(_files.ERRORS, f"json-patch: {fault}\n".encode(sys.stderr.encoding, "backslashreplace"))
