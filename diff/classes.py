"""The classes of disagreements: for each the other that it is of, what happens there, and the test of a
disagreement. A test is given the operation at which the two part, the document before it, and both
answers. A disagreement is in no class unless the answer here, and what is left of the document, is
that of model.py: a class tells what the other does, and lets nothing pass here."""
from model import Model, Refused, copied, same, tokens_of


def alike(a, b):
    """Answers that say the same; true isn't 1."""
    if isinstance(a, tuple) and isinstance(b, tuple):
        return len(a) == len(b) and all(map(alike, a, b))
    return same(a, b)


class Parting:
    """Where two answers part: the first operation that only one of them accepts."""

    def __init__(self, case, ours, theirs):
        document, operations = case
        self.first = document
        self.ours, self.theirs, self.operations = ours, theirs, operations
        numbers = [int(answer[1]) for answer in (ours, theirs) if answer[0] in ("refused", "raised")]
        self.operation, self.document = {}, document
        if numbers:
            self.operation = operations[min(numbers)]
            self.document = Model().before(document, operations, min(numbers))
        self.op = self.operation.get("op")
        self.path = tokens_of(self.operation.get("path", ""))
        self.source = tokens_of(self.operation["from"]) if "from" in self.operation else None

    def parents(self):
        """What stands where `path` and `from` lead without their last tokens: for a move's `path`, when
        the value at `from` is gone."""
        return [found(self.without_source(), self.path[:-1]), found(self.document, (self.source or [])[:-1])]

    def leads_into_text(self):
        """Whether a text stands where `path` or `from` still has tokens left."""
        ways = [(self.without_source(), self.path), (self.document, self.source or [])]
        return any(isinstance(found(document, way[:end]), str) for document, way in ways for end in range(len(way)))

    def without_source(self):
        if self.op != "move":
            return self.document
        try:
            return Model().removed(copied(self.document), self.source)
        except Refused:
            return self.document

    def moved_over_member(self):
        """Whether a move before the refused operation put its value over another."""
        document = copied(self.first)
        for operation in self.operations[: self.ours[1]]:
            if operation["op"] == "move":
                path = tokens_of(operation["path"])
                without = Model().removed(copied(document), tokens_of(operation["from"]))
                parent = found(without, path[:-1])
                if path and isinstance(parent, dict) and path[-1] in parent:
                    return True
            document = Model().step(document, operation)
        return False

    def raised(self, name):
        return self.theirs[0] == "raised" and self.theirs[2] == name

    def panicked(self):
        return self.theirs == ("panicked",) and self.ours[0] == "refused"

    def only_here_refused(self):
        """The other accepts the operation that is refused here."""
        if self.ours[0] != "refused":
            return False
        return self.theirs[0] == "ok" or int(self.theirs[1]) > self.ours[1]


def found(document, tokens):
    """What stands there, or Refused."""
    try:
        return Model().found(document, tokens)
    except Refused:
        return Refused


def is_atom(value):
    return not isinstance(value, (dict, list)) and value is not Refused


def goes_onto_ancestor(operation):
    if operation["op"] != "move":
        return False
    source, path = tokens_of(operation["from"]), tokens_of(operation["path"])
    return source[: len(path)] == path and len(path) < len(source)


def has_leading_zero(token):
    return len(token) > 1 and token[0] == "0" and token[1:].isdigit()


RUST, NLOHMANN, PYTHON = "json-patch 5.0.0", "nlohmann/json", "jsonpatch (Python)"

CLASSES = [
    (RUST, "panics where a value was moved onto its own ancestor and a later operation is refused",
     lambda at: at.panicked() and any(map(goes_onto_ancestor, at.operations))),
    (RUST, "panics where a refused move took its value, and an operation before it is to be undone",
     lambda at: at.panicked() and at.op == "move" and at.ours[3] == "InvalidPointer"),
    (RUST, "a refused move loses its value, in patch too",
     lambda at: at.op == "move" and at.ours[:4] == at.theirs[:4] and at.ours[3] == "InvalidPointer"),
    (RUST, "undoes a move over a member by putting the member's value back at a place that has shifted",
     lambda at: at.ours[:4] == at.theirs[:4] and at.moved_over_member()),
    (RUST, "panics where a move over a member is undone at a place that has shifted",
     lambda at: at.panicked() and at.moved_over_member()),
    (NLOHMANN, "adds to an atom: a failed assertion, undefined where assertions are off",
     lambda at: at.raised("assertion") and at.op in ("add", "copy", "move")),
    (NLOHMANN, "a null on the way of an add becomes an object or an array",
     lambda at: at.only_here_refused() and at.op in ("add", "copy", "move") and at.parents()[0] is None),
    (NLOHMANN, "removes nothing from an atom, and accepts that",
     lambda at: at.only_here_refused() and at.op == "remove" and is_atom(at.parents()[0])),
    (NLOHMANN, "takes a negative number for the unsigned one of the same bits in a test",
     lambda at: at.only_here_refused() and at.op == "test" and at.ours[3] == "TestFailed"),
    (NLOHMANN, "moves a value inside itself",
     lambda at: at.only_here_refused() and at.ours[3] == "CannotMoveInsideItself"),
    (PYTHON, "an operation at the root raises TypeError",
     lambda at: at.raised("TypeError") and (not at.path or at.source == [])),
    (PYTHON, "refuses to copy the whole document",
     lambda at: at.theirs[0] == "refused" and at.op == "copy" and at.source == []),
    (PYTHON, "refuses to replace the member named '-'",
     lambda at: at.theirs[0] == "refused" and at.op == "replace" and at.path[-1:] == ["-"] and isinstance(at.parents()[0], dict)),
    (PYTHON, "takes from a text by TypeError",
     lambda at: at.raised("TypeError") and at.path and (any(map(is_atom, at.parents())) or at.leads_into_text())),
    (PYTHON, "takes from the '-' of a list by TypeError",
     lambda at: at.raised("TypeError") and "-" in (at.source or at.path)),
    (PYTHON, "reads an index with leading zeros as its number",
     lambda at: at.only_here_refused() and any(map(has_leading_zero, (at.source or []) + at.path))),
    (PYTHON, "finds the characters of a text by their numbers",
     lambda at: at.only_here_refused() and at.leads_into_text()),
    (PYTHON, "takes true for 1 and false for 0 in a test",
     lambda at: at.op == "test" and at.ours[3:4] == ("TestFailed",) and at.only_here_refused()),
    (PYTHON, "moves an element of an array inside itself",
     lambda at: at.only_here_refused() and at.ours[3] == "CannotMoveInsideItself"),
]


def is_right(mode, case, ours):
    """Whether an answer is the model's. A list is recorded as it is run by `patch`; the answer on an
    inverse, which is a list for `patch`, is the document to which it is to lead."""
    mode = "patch" if mode in ("record", "inverse") else mode
    try:
        return alike(ours, Model().answer(mode, *case))
    except (AttributeError, KeyError, TypeError):
        return False  # an inverse that is no patch


def of(peer, mode, case, ours, theirs):
    """The name of the first class that a disagreement falls into, or None."""
    if mode == "merge" or not is_right(mode, case, ours):
        return None
    at = Parting(case, ours, theirs)
    return next((name for other, name, holds in CLASSES if other == peer and holds(at)), None)
