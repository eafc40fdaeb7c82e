#!/usr/bin/env python3
"""Asks that diff/tables.py finds each of the faults below, one at a time, in diff/model.py. A fault is
a line of the model in another form, and a fault that no row sees is told. It takes a few seconds, and
diff/try_wrong.py does the same.

    diff/try_model.py
"""
import sys
import types
from pathlib import Path

import tables

MODEL = Path(tables.__file__).parent / "model.py"

# The fault, the text of the model that it changes, which stands there once, and what it becomes.
FAULTS = [
    ("true is 1", "type(a) is type(b) and a == b", "a == b"),
    (
        "the values of members are not compared",
        "a.keys() == b.keys() and all(same(a[k], b[k]) for k in a)",
        "a.keys() == b.keys()",
    ),
    ("other members are let past", "a.keys() == b.keys() and", "a.keys() <= b.keys() and"),
    ("members that aren't there are let past", "a.keys() == b.keys() and", "a.keys() >= b.keys() and"),
    ("other items are let past", "len(a) == len(b) and all(map(same, a, b))", "all(map(same, a, b))"),
    ("~ is not decoded", '.replace("~0", "~")', ""),
    ("~1 is not decoded", '.replace("~1", "/").replace', ".replace"),
    (
        "~0 is decoded before ~1",
        '.replace("~1", "/").replace("~0", "~")',
        '.replace("~0", "~").replace("~1", "/")',
    ),
    ("an index may begin with 0", 'digits and (token == "0" or token[0] != "0")', "digits"),
    ("0 is no index", '(token == "0" or token[0] != "0")', '(token[0] != "0")'),
    (
        "the end of an array has an item",
        "if place is not None and place < len(value):",
        "if place is not None and place <= len(value):",
    ),
    (
        "- is the last item",
        'place = len(parent) if last == "-"',
        'place = len(parent) - 1 if last == "-"',
    ),
    (
        "- is no place",
        'place = len(parent) if last == "-" else self.place(last)',
        "place = self.place(last)",
    ),
    ("an add at the end is refused", "place <= len(parent)", "place < len(parent)"),
    (
        "an add past the end goes to the end",
        "if place is not None and place <= len(parent):",
        "if place is not None:",
    ),
    (
        "an add takes the place of an item",
        "parent.insert(place, value)",
        "parent[place : place + 1] = [value]",
    ),
    (
        "an add beside a member is refused",
        "            parent[last] = value\n",
        "            self.child(parent, last)\n            parent[last] = value\n",
    ),
    (
        "a remove of the document leaves null",
        '        if not tokens:\n            raise Refused("InvalidPointer")',
        "        if not tokens:\n            return None",
    ),
    (
        "a remove takes the item before",
        "        del parent[tokens[-1] if isinstance(parent, MAPS) else self.place(tokens[-1])]",
        "        del parent[tokens[-1] if isinstance(parent, MAPS) else self.place(tokens[-1]) - 1]",
    ),
    (
        "a replace makes a member that isn't there",
        "        self.child(parent, tokens[-1])\n        parent[tokens",
        "        parent[tokens",
    ),
    (
        "a source that isn't there has the kind of a target",
        'raise Refused("InvalidFromPointer") from None',
        "raise",
    ),
    (
        "a move inside itself is looked at as any",
        "if source == target[: len(source)] and len(source) < len(target):",
        "if False:",
    ),
    ("a move to its own place is refused", " and len(source) < len(target):", ":"),
    (
        "a move leaves its source",
        "self.added(self.removed(document, source), target, value)",
        "self.added(document, target, value)",
    ),
    (
        "a move looks for its target first",
        "return self.added(self.removed(document, source), target, value)",
        "return self.removed(self.added(document, target, value), source)",
    ),
    (
        "a test of another value passes",
        "if not same(self.found(document, tokens), value):",
        "if self.found(document, tokens) is None:",
    ),
    (
        "a copy has the kind of an add",
        "copied(self.source(document, tokens_of(operation",
        "copied(self.found(document, tokens_of(operation",
    ),
    ("a merge keeps what null removes", "members.pop(name, None)", "members[name] = None"),
    (
        "a merge keeps null in a new object",
        "members[name] = self.merged(members.get(name), change)",
        "members[name] = copied(change) if name not in members else self.merged(members[name], change)",
    ),
    (
        "a merge into what is no object keeps nothing but null",
        "copied(document) if isinstance(document, MAPS) else {}",
        "copied(document) if isinstance(document, MAPS) else None",
    ),
    (
        "a merge of an array joins it",
        "return copied(changes)",
        "return document + changes if isinstance(document, LISTS) and isinstance(changes, LISTS) else copied(changes)",
    ),
    (
        "a merge does not go down",
        "members[name] = self.merged(members.get(name), change)",
        "members[name] = copied(change)",
    ),
    (
        "an index reaches no further than itself",
        "return tokens[:-1] if place else tokens",
        "return tokens",
    ),
    (
        "- reaches no further than itself",
        '(tokens[-1] == "-" or self.place(tokens[-1]) is not None)',
        "self.place(tokens[-1]) is not None",
    ),
    ("a test changes what it reads", "return [], [tokens]", "return [tokens], []"),
    ("a test reads nothing", "return [], [tokens]", "return [], []"),
    ("a replace reaches beside itself", "return [tokens], []", "return [self.reach(tokens)], []"),
    (
        "a move changes nothing at its source",
        "[self.reach(tokens_of(operation[\"from\"])), self.reach(tokens)]",
        "[self.reach(tokens)]",
    ),
    ("a copy reads nothing", '[tokens_of(operation["from"])] if name == "copy" else []', "[]"),
    ("a place below another is apart from it", "p[: len(q)] != q[: len(p)]", "p != q"),
    (
        "what one reads and the other changes is apart",
        "all_diverge(changed, changed_there + read_there)",
        "all_diverge(changed, changed_there)",
    ),
    ("the same, the other way", " and all_diverge(changed_there, read)", ""),
    ("patch leaves what it made", 'left = state if mode == "unsafe" else document', "left = state"),
    (
        "patch_unsafe leaves the first document",
        'left = state if mode == "unsafe" else document',
        "left = document",
    ),
    (
        "a refusal has the number after",
        '("refused", number, operation',
        '("refused", number + 1, operation',
    ),
    (
        "a refusal has the path of the source",
        'operation["path"], str(kind), left',
        'operation.get("from", operation["path"]), str(kind), left',
    ),
]


def wrong_model(old, new):
    """The model with that text in another form."""
    source = MODEL.read_text(encoding="utf-8")
    if source.count(old) != 1:
        sys.exit(f"diff/model.py has {source.count(old)} times: {old}")
    module = types.ModuleType("wrong_model")
    exec(compile(source.replace(old, new), str(MODEL), "exec"), module.__dict__)
    return module.Model()


def unseen():
    """The faults that no row of the tables sees."""
    for fault, old, new in FAULTS:
        if not tables.faults(wrong_model(old, new)):
            yield f"no row of the tables sees the fault of diff/model.py: {fault}"


def main():
    wrong = [*tables.faults(), *unseen()]
    for line in wrong:
        print(f"WRONG: {line}")
    print(f"diff/tables.py: {len(FAULTS)} faults of diff/model.py tried")
    return 1 if wrong else 0


if __name__ == "__main__":
    sys.exit(main())
