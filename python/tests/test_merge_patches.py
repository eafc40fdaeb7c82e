"""Merge patches that are made of two documents, and joined, two in one: against models of when there is one,
and with what a stranger may hand in, here and on a thread with little stack."""
import json
import random
import re
import unittest
from decimal import Decimal

from json_patch import (
    InvalidJsonPatch, JsonPatchException, Limits, NoMergePatch, TooDeep, join_merge_patches, make_merge_patch, merge_patch,
)
from support import ALL_ROWS, IMPOSSIBLE, NO_NUMBERS, OK, SAYS, holding_itself, nested, on_each_stack

CALLS = {"merge_diff": make_merge_patch, "merge_join": join_merge_patches}


def wants_null(src, dst):
    """Whether, in dicts alone, a member of the second is None that is none of the first (RFC 7396, section 2)."""
    if not isinstance(dst, dict):
        return False
    there = src if isinstance(src, dict) else {}
    return any((value is None and there.get(name, 0) is not None) or wants_null(there.get(name), value) for name, value in dst.items())


def resets(first, then):
    """Whether the second has a dict where the first has what is none."""
    if not isinstance(then, dict):
        return False
    return not isinstance(first, dict) or any(name in first and resets(first[name], value) for name, value in then.items())


def text_of(document):
    """By which documents are told apart: for Python True is 1."""
    return json.dumps(document, sort_keys=True)


def written(value):
    """A text with the numbers as they were read by this."""
    return re.sub(r'"#([^"]*)"', r"\1", json.dumps(value))


def as_written(text):
    return json.loads(text, parse_int="#{}".format, parse_float="#{}".format)


class Random:
    def __init__(self, seed):
        self.chance = random.Random(seed)

    def value(self, levels, null=0.1):
        kind = self.chance.random()
        if kind < null:
            return None
        if levels == 0 or kind < 0.45:
            return self.chance.choice([True, False, 0, 1, -7, 2**64, 0.1, 1e23, "", "a", "\u00e9~/", [None], [1, {"a": None}]])
        names = ["", "a", "b", "c/", "~", "\u00e9", "A"]
        return {name: self.value(levels - 1, null) for name in self.chance.sample(names, self.chance.randrange(5))}

    def changed(self, old, levels, null):
        """The same, changed here and there."""
        if self.chance.random() < 0.2:
            return self.value(levels, null)
        if not isinstance(old, dict):
            return old
        made = {name: self.changed(value, levels - 1, null) for name, value in old.items() if self.chance.random() < 0.8}
        return made if self.chance.random() < 0.7 else {**made, "new": self.value(levels - 1, null)}


class MergePatches(unittest.TestCase):
    def assertNone(self, call, *given, **code):
        with self.assertRaises(NoMergePatch) as caught:
            call(*given, **code)
        error = caught.exception
        self.assertEqual((error.kind, error.operation, error.path), ("Impossible", None, None))
        self.assertIsInstance(error, ValueError)

    def test_tables(self):
        rows = [row for row in ALL_ROWS if row[0] in CALLS]
        self.assertGreater(min(sum(row[3] == status for row in rows) for status in (OK, IMPOSSIBLE)), 4)
        code = {"dumps": written, "loads": as_written}
        for call, first, second, status, _, _, made in rows:
            with self.subTest(call=call, first=first, second=second):
                given = as_written(first), as_written(second)
                if status == IMPOSSIBLE:
                    self.assertNone(CALLS[call], *given, **code)
                else:
                    # in the order of members, and each number as it stands
                    self.assertEqual(json.dumps(CALLS[call](*given, **code)), json.dumps(as_written(made)))

    def test_what_stays(self):
        src, dst = {"b": [1], "a": {"x": 1}}, {"a": {"x": 1.0, "y": {}}, "b": [1, None]}
        held = json.dumps([src, dst])
        made = make_merge_patch(src, dst)
        self.assertEqual(made, {"a": {"y": {}}, "b": [1, None]})
        made["b"].append(2)
        self.assertEqual(join_merge_patches(src, dst), {"a": {"x": 1.0, "y": {}}, "b": [1, None]})
        self.assertEqual(json.dumps([src, dst]), held)

    def test_orders(self):
        """Members are in byte order of their names, those that go and those that come."""
        dst = {"b": 1, "\U0001f600": 2, "B": {"z": 1, "y": 2}, "\uff5e": 3, "": 4}
        self.assertEqual(json.dumps(make_merge_patch({"a": 1}, dst)), json.dumps({"": 4, "B": {"y": 2, "z": 1}, "a": None, "b": 1, "\uff5e": 3, "\U0001f600": 2}))
        self.assertEqual(list(join_merge_patches({"c": 1, "a": 2}, {"d": None, "b": 1})), ["a", "b", "c", "d"])

    def test_decimals(self):
        write = lambda value: re.sub(r'"D([^"]*)"', r"\1", json.dumps(value, default=lambda number: f"D{number}"))
        code = {"dumps": write, "loads": lambda text: json.loads(text, parse_float=Decimal)}
        document = {"price": Decimal("2.10"), "stock": 7}
        self.assertEqual(repr(make_merge_patch(document, {"price": Decimal("1.50")}, **code)), "{'price': Decimal('1.50'), 'stock': None}")
        self.assertEqual(make_merge_patch(document, {"stock": 7, "price": Decimal("2.1")}, **code), {})
        self.assertEqual(repr(join_merge_patches({"price": Decimal("2.10")}, {"was": Decimal("1.50")}, **code)), "{'price': Decimal('2.10'), 'was': Decimal('1.50')}")
        for call in (lambda: make_merge_patch(document, {}), lambda: make_merge_patch({}, document), lambda: join_merge_patches(document, {}), lambda: join_merge_patches({}, document)):
            with self.assertRaises(TypeError):
                call()

    def test_random_documents(self):
        made, none, shorter = Random(7396), 0, 0
        for _ in range(4_000):
            src = made.value(4, null=0.05)
            dst = made.changed(src, 4, null=made.chance.choice([0, 0.1]))
            if wants_null(src, dst):
                self.assertNone(make_merge_patch, src, dst)
                none += 1
                continue
            patch = make_merge_patch(src, dst)
            self.assertEqual(text_of(merge_patch(src, patch)), text_of(dst), (src, dst, patch))
            self.assertEqual(patch == {}, dst == {} if not isinstance(src, dict) else text_of(src) == text_of(dst), (src, dst, patch))
            # and no member of it is there for nothing
            for name in patch if isinstance(patch, dict) else ():
                less = {other: value for other, value in patch.items() if other != name}
                self.assertNotEqual(text_of(merge_patch(src, less)), text_of(dst), (src, dst, patch))
            shorter += len(text_of(patch)) < len(text_of(dst))
        self.assertGreater(min(none, shorter), 400)

    def test_random_merge_patches(self):
        made, none, both = Random(6902), 0, 0
        for _ in range(4_000):
            first = made.value(3)
            then = made.changed(first, 3, null=0.2) if made.chance.random() < 0.5 else made.value(3)
            if resets(first, then):
                self.assertNone(join_merge_patches, first, then)
                none += 1
                continue
            joined = join_merge_patches(first, then)
            for document in (None, {"a": {"a": 1}, "b": []}, made.value(4), made.changed(first, 4, null=0.1)):
                in_turn = merge_patch(merge_patch(document, first), then)
                self.assertEqual(text_of(merge_patch(document, joined)), text_of(in_turn), (first, then, document))
            both += isinstance(then, dict)
        self.assertGreater(min(none, both), 400)

    def test_deep(self):
        pairs = [({"a": 0}, {"a": 1})]
        for _ in range(123):
            pairs.append(tuple({"a": document, "b": "x" * 100} for document in pairs[-1]))

        def each():
            for levels, (src, dst) in enumerate(pairs, 1):
                innermost = make_merge_patch(src, dst)
                self.assertEqual(json.dumps(innermost), '{"a": ' * levels + "1" + "}" * levels)
                self.assertEqual(merge_patch(src, innermost), dst)
                self.assertEqual(join_merge_patches(src, dst), dst)
                limits = Limits(depth=levels)
                self.assertEqual(make_merge_patch(src, dst, limits=limits), innermost)
                for call in CALLS.values():
                    for given in ((src, 1), (1, dst)):
                        with self.assertRaises(TooDeep):
                            call(*given, limits=Limits(depth=levels - 1))

        on_each_stack(each)

    def test_too_deep(self):
        objects = (nested(125), nested(128), nested(100_000), holding_itself(), {"a": [nested(125)]})

        def refused():
            for deep in objects:
                for call, given, is_patch in (
                    (make_merge_patch, (deep, {}), False), (make_merge_patch, ({}, deep), False),
                    (join_merge_patches, (deep, {}), True), (join_merge_patches, ({}, deep), True),
                ):
                    with self.assertRaises(TooDeep) as caught:
                        call(*given)
                    self.assertEqual(isinstance(caught.exception, InvalidJsonPatch), is_patch)

        on_each_stack(refused)

    def test_refused(self):
        """A document is refused as one, and a merge patch as one, whichever of the two it is."""
        for value, kind in (("\ud800", "UnpairedSurrogate"), *((number, "NotJson") for number in NO_NUMBERS)):
            for call, told in ((make_merge_patch, "document"), (join_merge_patches, "patch")):
                for given in ((value, 1), ({}, [value])):
                    with self.assertRaises(JsonPatchException) as caught:
                        call(*given)
                    self.assertEqual((str(caught.exception), caught.exception.kind), (f"{told} {SAYS[kind]}", kind))
                    self.assertEqual(isinstance(caught.exception, InvalidJsonPatch), told == "patch")

    def test_what_the_callers_functions_do(self):
        for text, kind in (("nan", "NotJson"), ("[" * 200, "TooDeep"), ("[", "NotJson")):
            for call, told in ((make_merge_patch, "document"), (join_merge_patches, "patch")):
                with self.assertRaises(JsonPatchException) as caught:
                    call({}, {}, dumps=lambda value: text)
                self.assertEqual(str(caught.exception), f"{told} {SAYS[kind]}")

        def fails(_):
            raise KeyError("of the caller")

        for code in ({"dumps": fails}, {"loads": fails}):
            for call in CALLS.values():
                with self.assertRaises(KeyError):
                    call({"a": 1}, {"a": 2}, **code)

    def test_texts(self):
        """A text is a document as any object is, and not the text of one."""
        self.assertEqual((make_merge_patch("{}", "[1]"), join_merge_patches("{}", "[1]")), ("[1]", "[1]"))
        self.assertNone(join_merge_patches, "{}", {})


if __name__ == "__main__":
    unittest.main()
