#!/usr/bin/env python3
"""Rows that were worked by hand, of lists within limits, and how diff/limits_model.py answers them: those
below, and those of crates/json_patch_memory that tell of limits. It asks too that each of the faults
below, one at a time, in the model is found by a row. It takes a second.

    diff/limits_tables.py
"""
import json
import re
import sys
import types
from pathlib import Path

import limits_model
from limits_model import TOO_DEEP, TOO_MUCH
from reasons import KINDS, REFUSAL
from tables import calls, is_same

MODEL = Path(limits_model.__file__)
OVER = re.compile(r"operation '/(\d+)' is over the limits: (.*)")
OVER_KINDS = {"value would reach too deep": TOO_DEEP, "too much would be copied": TOO_MUCH}
MUCH = 1000

# A name, a document, operations, the limits of levels and copies, and the answer, worked by hand.
OWN = [
    ("a path of two tokens", {"a": [0]}, [["add", "/a/0", 1]], 1, 0, ("over", 0, TOO_DEEP)),
    ("the same, as deep as it may", {"a": [0]}, [["add", "/a/0", 1]], 2, 0, ("ok", {"a": [1, 0]})),
    ("a value of two levels at the root", 0, [["replace", "", [{}]]], 1, 0, ("over", 0, TOO_DEEP)),
    ("the same, as deep as it may", 0, [["replace", "", [{}]]], 2, 0, ("ok", [{}])),
    ("levels of a member's value", {}, [["add", "/a", {"b": {"c": 1}}]], 2, 0, ("over", 0, TOO_DEEP)),
    ("levels of the second item", [], [["add", "/0", [1, [2]]]], 2, 0, ("over", 0, TOO_DEEP)),
    ("the same, as deep as it may", [], [["add", "/0", [1, [2]]]], 3, 0, ("ok", [[1, [2]]])),
    ("items beside each other share a level", [], [["add", "/0", [[], []]]], 3, 0, ("ok", [[[], []]])),
    ("an empty array is a level", [], [["add", "/0", []]], 1, 0, ("over", 0, TOO_DEEP)),
    ("a test is never over", [1], [["test", "/0", [[[]]]]], 0, 0, ("refused", 0, "/0", "TestFailed")),
    ("nor is a remove", [[[1]]], [["remove", "/0/0/0"]], 0, 0, ("ok", [[[]]])),
    ("a move to a shorter path", [1, [[2]]], [["move", "/1/0", "/0"]], 0, 0, ("ok", [[2], 1, []])),
    ("a move to a path as long", [[1]], [["move", "/0", "/0"]], 0, 0, ("ok", [[1]])),
    ("a move to a longer path", {"a": [], "b": [[]]}, [["move", "/a", "/b/0/0"]], 3, 0, ("over", 0, TOO_DEEP)),
    ("the same, as deep as it may", {"a": [], "b": [[]]}, [["move", "/a", "/b/0/0"]], 4, 0, ("ok", {"b": [[[]]]})),
    ("a move copies nothing", {"a": "long", "b": {}}, [["move", "/a", "/b/a"]], 9, 0, ("ok", {"b": {"a": "long"}})),
    ("a copy to a longer path", {"a": [1], "b": []}, [["copy", "/a", "/b/0"]], 2, MUCH, ("over", 0, TOO_DEEP)),
    ("a copy to a shorter path", {"a": {"b": [1]}}, [["copy", "/a/b", "/c"]], 1, MUCH, ("over", 0, TOO_DEEP)),
    ("a copy of nothing", {}, [["copy", "/a", "/b/c"]], 0, 0, ("refused", 0, "/b/c", "InvalidFromPointer")),
    ("a copy of a number counts one", [7], [["copy", "/0", "/0"]], 1, 0, ("over", 0, TOO_MUCH)),
    ("the same, as much as may be", [7], [["copy", "/0", "/0"]], 1, 1, ("ok", [7, 7])),
    ("a string counts its bytes", ["é"], [["copy", "/0", "/0"]], 1, 2, ("over", 0, TOO_MUCH)),
    ("the same, as much as may be", ["é"], [["copy", "/0", "/0"]], 1, 3, ("ok", ["é", "é"])),
    ("a name counts its bytes", [{"ab": 1}], [["copy", "/0", "/0"]], 2, 3, ("over", 0, TOO_MUCH)),
    ("the same, as much as may be", [{"ab": 1}], [["copy", "/0", "/0"]], 2, 4, ("ok", [{"ab": 1}, {"ab": 1}])),
    ("members and items count", [{"a": [1, 2]}], [["copy", "/0", "/0"]], 3, 4, ("over", 0, TOO_MUCH)),
    ("copies count together", [7], [["copy", "/0", "/0"]] * 3, 1, 2, ("over", 2, TOO_MUCH)),
    ("the same, as much as may be", [7], [["copy", "/0", "/0"]] * 3, 1, 3, ("ok", [7] * 4)),
    ("a value that is put isn't copied", [], [["add", "/0", "long"], ["replace", "/0", "longer"]], 1, 0, ("ok", ["longer"])),
    ("what is both over counts as deep", [[1]], [["copy", "", "/0/0"]], 3, 0, ("over", 0, TOO_DEEP)),
    ("over before refused", [], [["replace", "/7", []]], 1, 0, ("over", 0, TOO_DEEP)),
    ("refused before over", [], [["remove", "/7"], ["add", "/0", [[]]]], 1, 0, ("refused", 0, "/7", "InvalidPointer")),
    ("the second is over", [], [["add", "/0", 1], ["add", "/0", []]], 1, 0, ("over", 1, TOO_DEEP)),
    ("a copy of what was put before", [], [["add", "/0", [1, 2]], ["copy", "/0", "/1"]], 2, 2, ("over", 1, TOO_MUCH)),
    ("an escaped token is one", {"a/b": {}}, [["add", "/a~1b/c", 1]], 1, 0, ("over", 0, TOO_DEEP)),
    ("the same, as deep as it may", {"a/b": {}}, [["add", "/a~1b/c", 1]], 2, 0, ("ok", {"a/b": {"c": 1}})),
]

# The same of recorded runs.
RECORDED = [
    ("a move copies its value", {"a": "long"}, [["move", "/a", "/b"]], 1, 4, ("over", 0, TOO_MUCH)),
    ("the same, as much as may be", {"a": "long"}, [["move", "/a", "/b"]], 1, 5, ("ok", {"b": "long"})),
    ("to where it stands, too", [[1]], [["move", "/0", "/0"]], 2, 1, ("over", 0, TOO_MUCH)),
    ("moves count together", {"a": 1}, [["move", "/a", "/b"], ["move", "/b", "/a"]], 1, 1, ("over", 1, TOO_MUCH)),
    ("and with copies", [7], [["copy", "/0", "/0"], ["move", "/0", "/1"]], 1, 1, ("over", 1, TOO_MUCH)),
    ("a value that is taken away isn't copied", ["long"], [["remove", "/0"], ["add", "/0", 1], ["replace", "/0", 2]], 1, 0, ("ok", [2])),
    ("a test copies nothing", ["long"], [["test", "/0", "long"]], 1, 0, ("ok", ["long"])),
    ("a move of nothing", {}, [["move", "/a", "/b"]], 1, 0, ("refused", 0, "/b", "InvalidFromPointer")),
    ("a move that would be refused is over", {"a": 1}, [["move", "/a", "/b/c"]], 2, 0, ("over", 0, TOO_MUCH)),
    ("a move that is both over is too deep", {"a": [], "b": []}, [["move", "/a", "/b/0"]], 2, 0, ("over", 0, TOO_DEEP)),
]

# The fault, the text of the model that it changes, which stands there once, and what it becomes.
FAULTS = [
    ("the path isn't counted", "return path + levels(operation[\"value\"])", "return levels(operation[\"value\"])"),
    ("nor that of a copy", "(path + levels(value) for", "(levels(value) for"),
    ("the value isn't counted", "return path + levels(operation[\"value\"])", "return path"),
    ("nor that of a copy", "(path + levels(value) for", "(path for"),
    ("a move that shortens counts", "name == \"move\" and path <=", "name == \"move\" and path <= 0 *"),
    ("one to a path as long counts", "path <= len(tokens_of", "path < len(tokens_of"),
    ("no move counts", "if name == \"move\" and path <= len(tokens_of(operation[\"from\"])):", "if name == \"move\":"),
    ("a copy that shortens is let past", "if name == \"move\" and path", "if path"),
    ("a remove or a test reaches to its path", 'if name in ("remove", "test"):\n            return 0', 'if name in ("remove", "test"):\n            return path'),
    ("a test counts its value", 'if name in ("remove", "test"):\n            return 0', 'if name in ("remove", "test"):\n            return levels(operation.get("value"))'),
    ("a replace is free", 'if name in ("add", "replace"):', 'if name == "replace":\n            return 0\n        if name == "add":'),
    ("an add is free", 'if name in ("add", "replace"):', 'if name == "add":\n            return 0\n        if name == "replace":'),
    ("a level past the limit is let past", "> depth:", "> depth + 1:"),
    ("a level at the limit is over", "> depth:", ">= depth:"),
    ("one past the copies is let past", "much > allowed:", "much > allowed + 1:"),
    ("as much as may be copied is over", "much > allowed:", "much >= allowed > 0:"),
    ("copies alone are limited", "if self.reach(state, operation) > depth:", "if operation[\"op\"] == \"copy\" and self.reach(state, operation) > depth:"),
    ("copies count one by one", "            allowed -= much\n", ""),
    ("too much before too deep", "if self.reach(state, operation) > depth:", "if self.reach(state, operation) > depth and self.copies(state, operation, recorded) <= allowed:"),
    ("a move copies", "(recorded and operation", "(operation"),
    ("no move copies", "not (recorded and operation[\"op\"] == \"move\")", "True"),
    ("an add copies", '"move"):\n            return 0', '"move"):\n            return size(operation.get("value")) - 1'),
    ("names aren't counted", "1 + own + names +", "1 + own +"),
    ("strings aren't counted", "1 + own + names", "1 + names"),
    ("a string counts its characters", "len(value.encode())", "len(value)"),
    ("a value isn't counted itself", "return 1 + own", "return own"),
    ("what is below isn't counted", " + sum(map(size, below(value)))", ""),
    ("members are skipped", "return list(value.values())", "return []"),
    ("items are skipped", "return value if isinstance(value, LISTS) else []", "return []"),
    ("the first item alone is looked at", "return value if isinstance(value, LISTS) else []", "return value[:1] if isinstance(value, LISTS) else []"),
    ("an empty array has no level", "if not isinstance(value, (MAPS, LISTS)):", "if not value or not isinstance(value, (MAPS, LISTS)):"),
    ("levels are added up", "max(map(levels, below(value)), default=0)", "sum(map(levels, below(value)))"),
    ("the copies are those of the first document", "self.copies(state, operation,", "self.copies(document, operation,"),
    ("the first operation is blamed", '("over", number, TOO_DEEP)', '("over", 0, TOO_DEEP)'),
    ("the first copy is blamed", '("over", number, TOO_MUCH)', '("over", 0, TOO_MUCH)'),
    ("a refused one is looked at first", "            if self.reach(state", "            try:\n                self.model.step(copied(state), operation)\n            except Refused as kind:\n                return (\"refused\", number, operation[\"path\"], str(kind))\n            if self.reach(state"),
    ("a slash in a name is a token", "name, path = operation[\"op\"], len(tokens_of(operation[\"path\"]))", "name, path = operation[\"op\"], operation[\"path\"].replace(\"~1\", \"/\").count(\"/\")"),
]


def operation(name, *parts):
    """An operation of its parts: a path and a value, or `from` and a path."""
    names = {"remove": ["path"], "move": ["from", "path"], "copy": ["from", "path"]}.get(name, ["path", "value"])
    return {"op": name, **dict(zip(names, parts))}


def told(line):
    """What a row of the crate tells, as the model answers."""
    words, left = line.split(" leaves ")
    over, refused = OVER.fullmatch(words), REFUSAL.fullmatch(words)
    if over:
        return ("over", int(over[1]), OVER_KINDS[over[2]])
    if refused:
        number, path, reason = refused.groups()
        return ("refused", int(number), path, KINDS[reason])
    return ("ok", json.loads(left))


def rows():
    """Each row: its name, what the model is asked, and the answer."""
    for is_recorded, table in enumerate((OWN, RECORDED)):
        for name, document, operations, depth, allowed, right in table:
            yield name, (document, [operation(*parts) for parts in operations], depth, allowed, bool(is_recorded)), right
    for (call, document, operations, depth, copied), line in calls("patch_within", "apply_patches_within"):
        yield line, (document, operations, depth, copied, call == "apply_patches_within"), told(line)


def faults(model):
    """The rows that the model answers otherwise."""
    for name, asked, right in rows():
        try:
            answer = model.answer(*asked)
        except Exception as error:  # the model is to answer each row
            answer = ("ended by", repr(error))
        if not is_same(answer, right):
            yield f"{name}: {asked}: {answer}, not {right}"


def wrong_model(old, new):
    """The model with that text in another form."""
    source = MODEL.read_text(encoding="utf-8")
    if source.count(old) != 1:
        sys.exit(f"diff/limits_model.py has {source.count(old)} times: {old}")
    module = types.ModuleType("wrong_model")
    exec(compile(source.replace(old, new), str(MODEL), "exec"), module.__dict__)
    return module.LimitsModel()


def main():
    wrong = list(faults(limits_model.LimitsModel()))
    unseen = [fault for fault, old, new in FAULTS if not any(faults(wrong_model(old, new)))]
    wrong += [f"no row sees the fault of diff/limits_model.py: {fault}" for fault in unseen]
    for line in wrong:
        print(f"WRONG: {line}")
    print(f"diff/limits_tables.py: {len(list(rows()))} rows, {len(FAULTS)} faults of diff/limits_model.py tried")
    return 1 if wrong else 0


if __name__ == "__main__":
    sys.exit(main())
