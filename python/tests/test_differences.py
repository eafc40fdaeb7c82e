"""The patch that leads from one document to another: what it says of documents that were worked by hand,
and that it answers what a stranger may hand in, here and on a thread with little stack."""
import json
import random
import unittest

from json_patch import (
    Document, InvalidJsonPatch, JsonPatch, JsonPatchException, JsonPatchTestFailed, JsonPointer, Limits, TooDeep, apply_patch, make_patch,
    resolve_pointer, _native,
)
from support import NO_NUMBERS, NOT_WHOLE, PAST_FLOATS, ROWS, SAYS, holding_itself, nested, on_another_thread, on_each_stack

STAYS = "a text that is long enough to stay"
KINDS = ({}, {"moves": True}, {"guarded": True})


def beside(levels, innermost):
    """So many dicts in one another, each with a text beside the next."""
    made = innermost
    for _ in range(levels):
        made = {"a": made, "b": STAYS * 3}
    return made


def text_of(document):
    """By which documents are told apart: for Python True is 1."""
    return json.dumps(document, sort_keys=True)


class Differences(unittest.TestCase):
    def assertLeads(self, src, dst):
        """Each call makes a patch that leads there. What it is made of stays."""
        held = json.dumps([src, dst])
        patch, moving, guarded = (make_patch(src, dst, **kind) for kind in KINDS)
        self.assertEqual([JsonPatch.from_diff(src, dst, **kind) for kind in KINDS], [patch, moving, guarded])
        for each in (patch, moving, guarded):
            self.assertEqual((text_of(each.apply(src)), bool(each)), (text_of(dst), text_of(src) != text_of(dst)))
        self.assertLessEqual(len(moving), len(patch))
        self.assertGuards(src, patch, guarded)
        with Document(src) as kept, Document(dst) as goal:
            self.assertEqual((kept.diff(dst), kept.diff(goal)), (patch, patch))
            kept.apply(patch)
            self.assertEqual((text_of(kept.get()), text_of(goal.get())), (text_of(dst), text_of(dst)))
            self.assertEqual(list(kept.diff(goal)), [])
        self.assertEqual(json.dumps([src, dst]), held)
        return patch

    def assertGuards(self, src, patch, guarded):
        """It is the patch, with a test before each operation that takes something, of what that is."""
        wanted, now = [], json.loads(json.dumps(src))
        for change in patch:
            if change["op"] != "add":
                held = json.dumps(resolve_pointer(now, change["path"]))
                wanted.append({"op": "test", "path": change["path"], "value": json.loads(held)})
            wanted.append(change)
            now = apply_patch(now, [change], in_place=True)
        self.assertEqual(text_of(list(guarded)), text_of(wanted))

    def test_tables(self):
        rows = [(src, dst, patch) for call, src, dst, *_, patch in ROWS if call == "diff"]
        self.assertGreater(len(rows), 20)
        for src, dst, patch in rows:
            with self.subTest(src=src, dst=dst):
                self.assertEqual(list(self.assertLeads(json.loads(src), json.loads(dst))), json.loads(patch))

    def test_make_patch(self):
        self.assertEqual(list(self.assertLeads([1, 2, 3], [1, 3])), [{"op": "remove", "path": "/1"}])
        self.assertEqual(list(self.assertLeads({"a/~": 1, "b": STAYS}, {"a/~": True, "b": STAYS})), [{"op": "replace", "path": "/a~1~0", "value": True}])
        self.assertEqual(list(self.assertLeads({}, {"b": 1, "a": {"c": None}})), [{"op": "replace", "path": "", "value": {"b": 1, "a": {"c": None}}}])
        self.assertEqual(list(self.assertLeads({"é": [0]}, {"é": [0]})), [])

    def test_guarded(self):
        patch = make_patch({"a": 1, "b": STAYS}, {"a": 2, "b": STAYS}, guarded=True)
        self.assertEqual(list(patch), [{"op": "test", "path": "/a", "value": 1}, {"op": "replace", "path": "/a", "value": 2}])
        self.assertEqual(patch.apply({"a": 1.0, "c": 3}), {"a": 2, "c": 3})
        for other in ({"a": 3, "b": STAYS}, {"a": True, "b": STAYS}):
            self.assertRaises(JsonPatchTestFailed, patch.apply, other)
        for call in (make_patch, JsonPatch.from_diff):
            self.assertRaises(ValueError, call, 1, 2, moves=True, guarded=True)

    def test_pairs_of_a_whole_call(self):
        """Of all arrays together 16,777,216 pairs of items are looked at, and then an item stays if it is one
        of the next eight. The second array has 21 * 12 pairs: by these 9 items are removed and 2 replaced. Its
        rows stand 9 items further, so that else they would be replaced, too, and the whole is shorter."""
        rows = [f"{number} {STAYS * 2}" for number in range(10)]
        old, new = ["x", *range(9), *rows, "y"], ["z", *rows, "w"]

        def made(olds, news, beside, parent):
            src, dst = beside(list(range(olds)), old), beside(list(range(-news, 0)), new)
            patch = make_patch(src, dst)
            self.assertEqual(text_of(patch.apply(src)), text_of(dst))
            return sorted(change["op"] for change in patch if change["path"].startswith(parent + "/"))

        for beside, parent, most in (
            (lambda *pair: {"a": pair[0], "b": pair[1], "c": STAYS * 9}, "/b", (4096, 4096)),
            (lambda *pair: {"a": pair[0], "b": pair[1], "c": STAYS * 9}, "/b", (2048, 8192)),
            # the outer arrays differ in two items, and have four pairs
            (lambda *pair: [*pair, STAYS * 9], "/1", (4094, 4098)),
            (lambda *pair: {"a": [[pair[0]], pair[1], STAYS * 9]}, "/a/1", (4094, 4098)),
        ):
            self.assertEqual(made(*most, beside, parent), [], parent)
            self.assertEqual(made(most[0], most[1] - 1, beside, parent), ["remove"] * 9 + ["replace"] * 2, parent)

    def test_parameters(self):
        """The library compares, and writes the paths."""
        def unasked(*_):
            raise AssertionError

        wanted = make_patch([0, STAYS], [1, STAYS])
        self.assertEqual(JsonPatch.from_diff([0, STAYS], [1, STAYS], False, json.dumps, unasked), wanted)
        self.assertEqual(JsonPatch.from_diff([0, STAYS], [1, STAYS], optimization=True, dumps=json.dumps, pointer_cls=JsonPointer), wanted)
        self.assertEqual(make_patch([0, STAYS], [1, STAYS], pointer_cls=unasked), wanted)
        self.assertEqual(list(make_patch([0, STAYS], [1, STAYS], dumps=lambda document: "[7]")), [])

    def test_subclasses(self):
        class Own(JsonPatch):
            def __init__(self, patch):
                super().__init__(patch)
                self.seen = len(self.patch)

        made = Own.from_diff([1, STAYS], [2, STAYS])
        self.assertEqual((type(made), made.seen), (Own, 1))

    def test_random_documents(self):
        chance = random.Random(6902)

        def value(levels):
            kind = chance.randrange(9 if levels else 6)
            if kind < 6:
                return (None, True, False, chance.randrange(-3, 4), chance.choice(["", "a", "é~/", STAYS]), 2**64 - 1)[kind]
            if kind == 6:
                return {chance.choice(["", "a", "b", "c/", "~", "é", "-", "0"]): value(levels - 1) for _ in range(chance.randrange(5))}
            return [value(levels - 1) for _ in range(chance.randrange(6))]

        def changed(old, levels):
            if chance.random() < 0.3:
                return value(levels)
            if isinstance(old, list):
                items = [changed(item, levels - 1) for item in old if chance.random() < 0.8]
                if chance.random() < 0.5:
                    chance.shuffle(items)
                return [*items, value(0)] if chance.random() < 0.3 else items
            if isinstance(old, dict):
                return {renamed(name): changed(member, levels - 1) for name, member in old.items() if chance.random() < 0.8}
            return old

        def renamed(name):
            return name if chance.random() < 0.6 else f"{name}/2"

        several = moving = 0
        for _ in range(2_000):
            src = [{"k": value(4), "stays": STAYS * 9}, value(4), STAYS * 9]
            dst = changed(src, 5)
            several += len(self.assertLeads(src, dst)) > 1
            moving += any(change["op"] == "move" for change in make_patch(src, dst, moves=True))
        self.assertGreater(several, 100)
        self.assertGreater(moving, 50)

    def test_hostile_pairs(self):
        many = 600
        lists = (
            [], list(range(many)), list(range(1, many)), list(range(many, 0, -1)), [7] * many, [7] * (many + 1), [0, 1] * (many // 2),
            [1, 0] * (many // 2), [[number] for number in range(many)], [{"a": number} for number in range(many)],
        )
        for src in lists:
            for dst in lists:
                self.assertLeads(src, dst)
        # more pairs of items than are each looked at
        longest = list(range(50_000))
        for src, dst in ((longest, longest[1:]), (longest[:-1], longest), (longest, longest[::-1]), (lists[4], longest), (longest, longest)):
            self.assertLeads(src, dst)
        objects = ({}, {f"m{number}": number for number in range(many)}, {f"m{number}": number + 1 for number in range(7, many + 7)}, {"m7": lists[1]})
        for src in objects:
            for dst in objects:
                self.assertLeads(src, dst)

    def test_deep_pairs(self):
        pairs = [(beside(levels, 0), beside(levels, 1), nested(levels), levels) for levels in (1, 60, 123, 124)]

        def each():
            for src, dst, deep, levels in pairs:
                patch = self.assertLeads(src, dst)
                self.assertEqual(list(patch), [{"op": "replace", "path": "/a" * levels, "value": 1}])
                self.assertEqual(make_patch(src, dst, limits=Limits(depth=levels)), patch)
                self.assertEqual(patch.apply(src, limits=Limits(depth=levels)), dst)
                self.assertLeads(deep, src)
                self.assertLeads(0, deep)
                for one, other in ((src, dst), (src, 0), (0, dst)):
                    with self.assertRaises(TooDeep):
                        make_patch(one, other, limits=Limits(depth=levels - 1))

        on_each_stack(each)

    def test_too_deep(self):
        objects = (nested(125), nested(127), nested(128), nested(1_000), nested(100_000), holding_itself(), {"a": [nested(125)]})

        def refused():
            for deep in objects:
                with Document({}) as kept:
                    for call in (lambda: make_patch(deep, {}), lambda: make_patch({}, deep), lambda: JsonPatch.from_diff(deep, deep), lambda: kept.diff(deep)):
                        with self.assertRaises(TooDeep) as caught:
                            call()
                        self.assertNotIsInstance(caught.exception, InvalidJsonPatch)
                    self.assertEqual(kept.get(), {})

        on_each_stack(refused)

    def test_limits_of_a_document(self):
        with Document([1], limits=Limits(depth=2)) as kept:
            self.assertEqual(list(kept.diff([[2], STAYS])), [{"op": "replace", "path": "", "value": [[2], STAYS]}])
            with self.assertRaises(TooDeep):
                kept.diff([[[]]])
            self.assertEqual(kept.get(), [1])

    def test_refused(self):
        """A document is refused as one, whichever of the two it is."""
        for value, kind in (("\ud800", "UnpairedSurrogate"), *((number, "NotJson") for number in NO_NUMBERS)):
            self.assertToldOfDocument(kind, lambda: make_patch(value, 1), lambda: make_patch({}, [value]), lambda: Document({}).diff(value))

    def assertToldOfDocument(self, kind, *calls):
        for call in calls:
            with self.assertRaises(JsonPatchException) as caught:
                call()
            self.assertNotIsInstance(caught.exception, InvalidJsonPatch)
            self.assertEqual((str(caught.exception), caught.exception.kind), (f"document {SAYS[kind]}", kind))

    def test_any_numbers(self):
        chance = random.Random(8259)
        numbers = (*NOT_WHOLE, *PAST_FLOATS, 0.1, 1 / 3, 1e300, 1e23, 5e-324, 0, 1)
        for _ in range(500):
            src, dst = ({chance.choice("abcd"): [chance.choice(numbers) for _ in range(chance.randrange(4))], "stays": STAYS} for _ in range(2))
            patch = make_patch(src, dst)
            # values are compared, and 1.0 is 1: so it may stay
            self.assertEqual(patch.apply(src), dst)
            with Document(src) as kept:
                self.assertEqual(kept.diff(dst), patch)
            self.assertEqual(bool(patch), src != dst)

    def test_numbers_as_they_are_written(self):
        """Each that is put has the spelling that it has in the second text where it goes, whichever are one number."""
        chance, loads = random.Random(6902), lambda text: json.loads(text, parse_int=str, parse_float=str)
        for spellings in (("1.5", "1.50", "15e-1", "1", "1.0", "-0", "0", "2"), ("1.5", "1", "0", "2", "1e400")):
            for _ in range(1_000):
                src, dst = (self.spelled(chance, spellings) for _ in range(2))
                for operation in loads(_native.diff(src.encode(), dst.encode(), Limits()._given, 0)):
                    if "value" in operation:
                        self.assertEqual(resolve_pointer(loads(dst), operation["path"]), operation["value"], (src, dst))

    def spelled(self, chance, spellings, levels=3):
        """The text of a document of such numbers."""
        if levels == 0 or chance.random() < 0.3:
            return chance.choice(spellings)
        inside = [self.spelled(chance, spellings, levels - 1) for _ in range(chance.randrange(5))]
        if chance.random() < 0.5:
            return f"[{','.join(inside)}]"
        return "{%s}" % ",".join(f'"{chance.choice("abcd")}":{one}' for one in inside)

    def test_closed_and_threads(self):
        with Document([1]) as kept, Document([2]) as goal:
            self.assertIsInstance(on_another_thread(lambda: kept.diff([])), RuntimeError)
            self.assertIsInstance(on_another_thread(lambda: Document([]).diff(goal)), RuntimeError)
        for call in (lambda: kept.diff([]), lambda: Document([]).diff(goal)):
            with self.assertRaises(ValueError):
                call()

    def test_texts(self):
        """A text is a document as any object is, and not the text of one."""
        self.assertEqual(list(self.assertLeads("[]", "[1]")), [{"op": "replace", "path": "", "value": "[1]"}])
        self.assertEqual(apply_patch("[]", make_patch("[]", "[1]")), "[1]")


if __name__ == "__main__":
    unittest.main()
