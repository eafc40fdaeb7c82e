"""The tables of cases whose answers were worked by hand, and how diff/model.py answers them: those of
crates/json_patch_vectors, read from their source, those of memory/cases.py, rows of
crates/json_patch_memory, and some of the model's own (OWN). diff/try_model.py shows that each fault of the model is seen by a row."""
import glob
import json
import os
import re
import sys

from model import Model

TOP = os.path.dirname(os.path.dirname(os.path.abspath(__file__)))
sys.path += [TOP, os.path.join(TOP, "memory")]
from memory import cases as memory  # noqa: E402
from patches import compact, test  # noqa: E402
from reasons import KINDS, REFUSAL  # noqa: E402

VECTORS = os.path.join(TOP, "crates/json_patch_vectors/src/*.rt")
ITEM = re.compile(r"^const (\w+): &(?:str|\[Case\]) = ", re.MULTILINE)
LEXEME = re.compile(
    r'r(?P<hashes>#*)"(?P<raw>.*?)"(?P=hashes)|"(?P<text>(?:\\.|[^"\\])*)"|(?P<word>\w+(?:::\w+)*!?)'
    r"|\s+|//[^\n]*|(?P<mark>[^\s\w])",
    re.DOTALL,
)


class Source:
    """The value of a constant: texts, numbers, lists, and structs as dicts of their fields."""

    def __init__(self, text, constants):
        self.lexemes = (found for found in LEXEME.finditer(text) if found.lastgroup)
        self.constants = constants
        self.step()

    def step(self):
        self.next = next(self.lexemes, None)

    def takes(self, mark):
        taken = self.next["mark"] == mark
        if taken:
            self.step()
        return taken

    def value(self):
        self.takes("&")
        found = self.next
        self.step()
        if found["raw"] is not None:
            return found["raw"]
        if found["text"] is not None:
            return json.loads(f'"{found["text"]}"')
        if found["mark"] == "[":
            return self.until("]", self.value)
        return self.named(found["word"])

    def named(self, word):
        if self.takes("{"):
            return dict(self.until("}", self.field))
        if self.takes("("):
            values = self.until(")", self.value)
            return lost(*values) if word == "lost!" else "".join(values)
        return int(word) if word.isdigit() else self.constants[word]

    def field(self):
        name = self.next["word"]
        self.step()
        return name, self.value() if self.takes(":") else self.constants[name]

    def until(self, end, part):
        parts = []
        while not self.takes(end):
            parts.append(part())
            self.takes(",")
        return parts


def lost(document, path, patch):
    """What the macro of that name in hostile.rt writes: the first operation finds nothing."""
    refused = {"operation": 0, "path": path, "kind": "InvalidPointer", "left": document}
    return {"name": path, "document": document, "patch": patch, "expected": refused}


def vectors():
    """The cases of the crate, each a dict of its fields."""
    for path in sorted(glob.glob(VECTORS)):
        with open(path, encoding="utf-8") as file:
            text = file.read()
        constants = {"None": None, "true": True, "false": False}
        for item in ITEM.finditer(text):
            constants[item[1]] = Source(text[item.end() :], constants).value()
        yield from constants.get("CASES", [])


def calls(*names, crate="json_patch_memory"):
    """The rows of these calls that the crate is run on, each with the line that answers it."""
    at = os.path.join(TOP, "crates", crate)
    with open(f"{at}/stdin", encoding="utf-8") as asked, open(f"{at}/stdout", encoding="utf-8") as told:
        for line, answer in zip(asked, told, strict=True):
            if not line.startswith("#") and json.loads(line)[0] in names:
                yield json.loads(line), answer.rstrip("\n")


# Rows of the model's own, worked by hand: pairs of which no test of one lets the other past, either
# way (RFC 6902, section 4.6).
OWN = [
    (True, 1),
    ([[0]], [[False]]),
    ({"x": 1}, {"x": 2}),
    ({"x": 1}, {"x": 1, "y": 2}),
    ({"x": {"y": [1]}}, {"x": {"y": [2]}}),
    ([1], [1, 2]),
    ([1, 2], [2, 1]),
    ({}, []),
    ("1", 1),
    (None, False),
]


def rows():
    """Each row of the tables: its mode, its document and patch, and the answer worked by hand."""
    for one, other in OWN:
        for here, asked in ((one, other), (other, one)):
            document = {"a": here}
            yield from refused([document, [test("/a", asked)]], 0, "/a", "TestFailed", compact(document))
    for (_, first, second), answer in calls("are_apart"):
        there, back = map(json.loads, answer.split(", "))
        yield "apart", first, second, ("ok", there)
        yield "apart", second, first, ("ok", back)
    for case in vectors():
        given = [json.loads(case["document"]), json.loads(case["patch"])]
        if "merged" in case:
            yield "merge", *given, ("ok", json.loads(case["merged"]))
        elif "kind" in case["expected"]:
            yield from refused(given, *(case["expected"][name] for name in ("operation", "path", "kind", "left")))
        else:
            after, inverse = (case["expected"][name] for name in ("document", "inverse"))
            yield from accepted(given, json.loads(after), json.loads(inverse) if inverse else None)
    for run in {**memory.RUNS, **memory.TAKEN, **memory.IN_PLACE}.values():
        given = [json.loads(run.states[0]), run.operations]
        if run.refusal:
            number, path, reason = REFUSAL.fullmatch(run.refusal).groups()
            yield from refused(given, int(number), path, KINDS[reason], run.states[-1])
        else:
            yield from accepted(given, json.loads(run.states[-1]), run.inverse)
    for document, changes, merged in memory.MERGES.values():
        yield "merge", document, changes, ("ok", merged)


def refused(given, number, path, kind, left):
    yield "patch", *given, ("refused", number, path, kind, given[0])
    yield "unsafe", *given, ("refused", number, path, kind, json.loads(left))


def accepted(given, after, inverse):
    yield "patch", *given, ("ok", after)
    if inverse is not None:
        yield "patch", after, inverse, ("ok", given[0])


def is_same(answer, right):
    """By their texts, in which true isn't 1, and not by what the model takes for the same."""
    return compact(answer) == compact(right)


def faults(model=Model()):
    """What the model answers otherwise, and a table that isn't there."""
    wrong, read = [], {"ok": 0, "refused": 0, "merge": 0, "apart": 0}
    for mode, document, changes, right in rows():
        read[mode if mode in read else right[0]] += 1
        try:
            answer = model.answer(mode, document, changes)
        except Exception as error:  # the model is to answer each row
            answer = ("ended by", repr(error))
        if not is_same(answer, right):
            wrong.append(f"diff/model.py, {mode}: {document} with {changes}: {answer}, not {right}")
    wrong += [f"the tables have no row of the kind {kind}" for kind, count in read.items() if not count]
    return wrong
