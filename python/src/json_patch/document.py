"""Documents that the library keeps."""
from __future__ import annotations

import warnings

from . import _native
from ._calls import called, difference, fault, found
from ._texts import as_bytes, document_text, patch_text, text_of, value_of
from .errors import NothingToUndo
from .limits import DEFAULT, Limits
from .patch import JsonPatch, operations_of

TYPE_CHECKING = False
if TYPE_CHECKING:
    from threading import local
    from types import TracebackType
    from typing import Any, Callable, Optional, Type, Union

    from .patch import Patch
else:
    # as threading does, which takes longer to import than this package
    from _thread import _local as local


class _Here(local):
    """What a thread is told by: `thread` is an object of its own. A thread's number is given to another
    when it has ended, and no other object is this one while it is kept."""

    def __init__(self) -> None:
        self.thread = object()


_HERE = _Here()


class Document:
    """A document that the library keeps as its text: every byte that no change touches stays. It is a
    context manager, and closed at its end. It stays on the thread that made it: on another each call raises
    RuntimeError, and the memory of one that goes there without being closed isn't given back.

    >>> with Document.from_string('{ "b": [2], "a": 1.50 }') as document:
    ...     inverse = document.record([{"op": "move", "from": "/b/0", "path": "/a"}])
    ...     print(document, inverse)
    ...     document.undo()
    ...     document.merge({"b": None})
    ...     print(document)
    { "b": [], "a": 2 } [{"op": "replace", "path": "/a", "value": 1.5}, {"op": "add", "path": "/b/0", "value": 2}]
    { "a": 1.50 }

    The limits hold of the document and of every change of it, as of the calls on texts.
    """

    def __init__(self, document: Any, *, limits: Limits = DEFAULT) -> None:
        self._open(document_text(document), limits)

    @classmethod
    def from_string(cls, document_str: Union[str, bytes], *, limits: Limits = DEFAULT) -> Document:
        """The document that a JSON text says."""
        made = cls.__new__(cls)
        made._open(as_bytes(document_str), limits)
        return made

    def _open(self, text: bytes, limits: Limits) -> None:
        handle = _native.Handle()
        called(_native.open, handle, text, limits._given)
        self._opened, self._thread, self._is_open = handle, _HERE.thread, True

    @property
    def _handle(self) -> _native.Handle:
        if self._thread is not _HERE.thread:
            raise RuntimeError("the document is kept on another thread")
        return self._opened

    def _updated(self, call: Callable[[_native.Handle, bytes], None], patch: Patch) -> None:
        text = text_of(operations_of(patch))
        called(call, self._handle, text, patch=text)

    def apply(self, patch: Patch) -> None:
        """Changes the document by a list of operations, a JSON text or a JsonPatch, or not at all."""
        self._updated(_native.update, patch)

    def record(self, patch: Patch) -> JsonPatch:
        """The same, and returns the JsonPatch that leads back. Where that can't be made for want of
        memory, the change is taken back."""
        self._updated(_native.update_recorded, patch)
        try:
            return JsonPatch._of_library(value_of(called(_native.inverse, self._handle)))
        except BaseException:
            self.undo()
            raise

    def undo(self) -> None:
        """Takes back the last change, which `record` made, to the very text before it: once. It takes no
        memory. NothingToUndo, where the last change wasn't recorded, or has been taken back.

        >>> with Document.from_string("[1, 2]") as document:
        ...     inverse = document.record([{"op": "remove", "path": "/0"}])
        ...     document.undo()
        ...     document.to_string()
        '[1, 2]'
        """
        try:
            _native.undo(self._handle)
        except _native.Fault as error:
            if error.args[0] != _native.NOTHING:
                raise fault(*error.args) from None
            raise NothingToUndo("there is no recorded change to take back", kind="Nothing") from None

    def merge(self, patch: Any) -> None:
        """Merges a merge patch, which is any object and no text of one, into the document."""
        called(_native.update_merged, self._handle, patch_text(patch))

    def diff(self, other: Any) -> JsonPatch:
        """The JsonPatch that leads from the document to another, which is any object, or a Document. Neither is
        changed, and the other has at most the levels of this one's limits.

        >>> with Document({"rows": ["x", "y"]}) as document:
        ...     document.diff({"rows": ["x"]})
        JsonPatch([{'op': 'remove', 'path': '/rows/1'}])
        """
        text = other.to_string().encode() if isinstance(other, Document) else document_text(other)
        return JsonPatch._of_library(value_of(difference(_native.diff_to, self._handle, text)))

    def get(self, pointer: str = "") -> Any:
        """What stands where a JSON pointer leads; JsonPointerException, where nothing does."""
        return value_of(found(_native.value_at, pointer, self._handle, as_bytes(pointer)))

    def to_string(self) -> str:
        """The document's text: every byte that no change touched is as it was handed in."""
        return called(_native.text, self._handle).decode()

    def close(self) -> None:
        """Gives the document's memory back. From then on each call but close raises ValueError."""
        _native.close(self._handle)
        self._is_open = False

    def __str__(self) -> str:
        return self.to_string()

    def __enter__(self) -> Document:
        return self

    def __exit__(
        self, raised: Optional[Type[BaseException]], error: Optional[BaseException], frames: Optional[TracebackType]
    ) -> None:
        self.close()

    def __del__(self) -> None:
        if not getattr(self, "_is_open", False):
            return
        if self._thread is _HERE.thread:
            self.close()
        else:
            warnings.warn("a document wasn't closed on its thread", ResourceWarning, source=self)
