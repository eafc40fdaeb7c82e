"""What nests far deeper than a text may, on threads with little stack too: each call refuses it by name,
and nothing is changed."""
import collections
import json
import random
import sys
import time
import unittest

from json_patch import (
    Document, EndOfList, InvalidJsonPatch, JsonPatch, JsonPatchException, JsonPointer, JsonPointerException, TooDeep,
    apply_patch, merge_patch, record_patch, resolve_pointer, set_pointer,
)
from json_patch import _native
from json_patch._depth import _is_deeper, is_deep, is_deeper
from support import holding_itself, nested, on_each_stack

LEVELS = 100_000
BRACKETS = 1_000_000
TEXTS = ["[" * BRACKETS, "[" * (BRACKETS // 2) + "]" * (BRACKETS // 2), '[{"a":' * (BRACKETS // 6), "[" * 128]


def nested_dicts(levels, kind=dict):
    made = kind()
    for _ in range(levels - 1):
        made = kind(a=made)
    return made


def nested_tuples(levels):
    made = ()
    for _ in range(levels - 1):
        made = (made,)
    return made


def released(deep):
    """Takes a nest apart from without: Python's own way to free one of OrderedDicts is recursive."""
    while deep:
        deep = deep.pop("a", None)


def deep_objects():
    """They aren't made on a thread with little stack: Python 3.13 needs more to free them."""
    return (
        nested(LEVELS), nested_dicts(LEVELS), nested_tuples(LEVELS), nested(1_000), nested(128), {"a": [nested(LEVELS)]},
        [{}, *[[nested_dicts(LEVELS)]] * 3], holding_itself(),
    )


class Deep(unittest.TestCase):
    def assertTooDeep(self, error, *calls):
        for call in calls:
            with self.assertRaises(error) as caught:
                call()
            self.assertIsInstance(caught.exception, TooDeep)
            self.assertEqual((caught.exception.kind, caught.exception.operation), ("TooDeep", None))

    def test_documents(self):
        patch, objects = [{"op": "replace", "path": "", "value": 1}], deep_objects()

        def refused():
            for deep in objects:
                self.assertTooDeep(
                    JsonPatchException,
                    lambda: apply_patch(deep, patch), lambda: record_patch(deep, patch), lambda: merge_patch(deep, {}), lambda: Document(deep),
                    lambda: JsonPatch(patch).apply(deep), lambda: JsonPatch(patch).record(deep),
                )
                # in place it isn't looked through (test_in_place has more)
                self.assertEqual(apply_patch(deep, patch, in_place=True), 1)
                self.assertTrue(is_deep(deep))

        on_each_stack(refused)

    def test_patches(self):
        objects = deep_objects()

        def refused():
            for deep in objects:
                document = {"b": 1}
                for patch in ([{"op": "remove", "path": "/b"}, {"op": "add", "path": "/a", "value": deep}], deep):
                    with Document({}) as kept:
                        self.assertTooDeep(
                            InvalidJsonPatch,
                            lambda: JsonPatch(patch), lambda: apply_patch(document, patch),
                            lambda: apply_patch(document, patch, in_place=True), lambda: record_patch(document, patch),
                            lambda: merge_patch(document, patch), lambda: JsonPatch.json_dumper(patch),
                            lambda: kept.apply(patch), lambda: kept.record(patch), lambda: kept.merge(patch),
                        )
                        self.assertEqual((kept.get(), document), ({}, {"b": 1}))

        on_each_stack(refused)

    def test_texts(self):
        def refused():
            for text in TEXTS:
                for form in (text, text.encode()):
                    self.assertTooDeep(JsonPatchException, lambda: Document.from_string(form))
                    document = {"b": 1}
                    with Document({}) as kept:
                        self.assertTooDeep(
                            InvalidJsonPatch,
                            lambda: JsonPatch.from_string(form), lambda: JsonPatch.json_loader(form),
                            lambda: apply_patch(document, form), lambda: apply_patch(document, form, in_place=True),
                            lambda: record_patch(document, form), lambda: kept.apply(form), lambda: kept.record(form),
                        )
                        self.assertEqual((kept.get(), document), ({}, {"b": 1}))
                    # a string, where an object is asked for, is a string
                    self.assertEqual(merge_patch(text, text), text)

        on_each_stack(refused)

    def test_readers_and_writers_of_the_caller(self):
        class Own(JsonPatch):
            json_loader = staticmethod(json.loads)

        deep = JsonPatch([])
        deep.patch.append(nested(LEVELS))
        self.assertTooDeep(
            InvalidJsonPatch,
            lambda: JsonPatch.from_string(TEXTS[0], loads=json.loads), lambda: Own.from_string(TEXTS[0]),
            lambda: deep.to_string(json.dumps), lambda: deep.to_string(),
        )

    def test_patches_that_are_deep_by_now(self):
        patch = JsonPatch([{"op": "add", "path": "/a", "value": []}])
        patch.patch[0]["value"] = nested(LEVELS)

        def refused():
            document = {}
            self.assertTooDeep(
                InvalidJsonPatch,
                lambda: patch.apply({}), lambda: patch.apply(document, in_place=True), lambda: patch.record({}),
                lambda: apply_patch({}, patch), lambda: patch == patch, lambda: hash(patch), patch.to_string,
                lambda: str(patch), lambda: JsonPatch(patch),
            )
            self.assertEqual((document, repr(patch), bool(patch), len(patch)), ({}, "JsonPatch(...)", True, 1))

        on_each_stack(refused)

    def test_other_containers(self):
        deep = nested_dicts(LEVELS, collections.OrderedDict)
        try:
            patch = [{"op": "add", "path": "", "value": deep}]
            on_each_stack(lambda: self.assertTooDeep(
                JsonPatchException,
                lambda: apply_patch(deep, []), lambda: merge_patch({}, deep), lambda: JsonPatch(patch), lambda: Document(deep),
            ))
        finally:
            released(deep)

    def test_a_large_recursion_limit(self):
        """It isn't Python's limit that the calls live by."""
        before = sys.getrecursionlimit()
        sys.setrecursionlimit(1_000_000)
        try:
            self.test_documents()
            self.test_patches()
            self.test_texts()
        finally:
            sys.setrecursionlimit(before)

    def test_pointers(self):
        deep, copies, tuples = nested(LEVELS), [], [nested_tuples(LEVELS)]
        on_each_stack(lambda: self.walk_by_pointers(deep, copies, tuples))

    def walk_by_pointers(self, deep, copies, tuples):
        pointer = JsonPointer.from_parts([0] * (LEVELS - 1))
        self.assertEqual(pointer.resolve(deep), [])
        made = set_pointer(deep, pointer.path + "/-", 7, inplace=False)
        copies.append(made)
        self.assertEqual((resolve_pointer(made, pointer.path), pointer.resolve(deep)), ([7], []))
        self.assertEqual(pointer, JsonPointer(pointer.path))
        self.assertEqual(repr(EndOfList(deep)), "EndOfList(...)")
        # as a name it is none, and nothing but lists and dicts is copied to any depth
        for call in (
            lambda: JsonPointer.from_parts([deep]), lambda: JsonPointer("") / [deep], lambda: pointer.walk([1], deep),
            lambda: set_pointer(tuples, "/0", 1, inplace=False),
        ):
            with self.assertRaises(JsonPointerException) as caught:
                call()
            self.assertEqual(caught.exception.kind, "TooDeep")

    def test_copies_that_hold_themselves(self):
        items = holding_itself()
        made = set_pointer(items, "/-", 7, inplace=False)
        self.assertIs(made[0], made)
        self.assertEqual((made[1], len(items)), (7, 1))

    def test_looked_at_by_c_and_by_python(self):
        pick = random.Random(7)

        def grown(levels):
            kind = pick.choice([list, tuple, dict, collections.OrderedDict, int] if levels else [int, str])
            if kind in (int, str):
                return kind(1)
            inside = [grown(levels - 1) for _ in range(pick.randrange(4))]
            return kind(enumerate(inside)) if issubclass(kind, dict) else kind(inside)

        told = {True: 0, False: 0, None: 0}
        for _ in range(5_000):
            value, levels = [grown(6)], pick.randrange(-1, 8)
            by_c = _native.is_deeper(value, levels)
            told[by_c] += 1
            self.assertIn(by_c, (None, _is_deeper(value, levels)))
            self.assertEqual(is_deeper(value, levels), _is_deeper(value, levels))
        self.assertGreater(min(told.values()), 500)
        self.assertEqual([is_deeper(1, levels) for levels in (-1, 0, 1)], [True, False, False])

    def test_lists_that_stand_at_many_places(self):
        """Python looks through each once, and so ends."""
        shared = [1]
        for _ in range(120):
            shared = [shared, shared]
        self.assertIsNone(_native.is_deeper(shared, 127))
        self.assertFalse(is_deep(shared))
        self.assertTrue(is_deeper(shared, 120))

    def test_a_long_list_that_stands_at_many_places(self):
        """Of 10,000,000,000 items each is looked at once by Python, which asks C first."""
        begun = time.process_time()
        self.assertFalse(is_deeper([[0] * 1_000_000] * 10_000, 5))
        self.assertTrue(is_deeper([(*[0] * 1_000_000, [])] * 10_000, 2))
        shared = [[0] * 1_000_000] * 10_000
        self.assertEqual(_native.differs_at(shared, shared, 124), [])
        self.assertLess(time.process_time() - begun, 5)

    def test_how_deep(self):
        self.assertFalse(is_deep(nested(127)))
        self.assertTrue(is_deep(nested(128)))
        self.assertFalse(is_deep({"a": nested_dicts(126)}))
        self.assertTrue(is_deep(nested_dicts(128)))
        self.assertTrue(is_deep(holding_itself()))
        # lists that each stand in the next one twice
        twice = []
        for _ in range(126):
            twice = [twice, twice]
        self.assertFalse(is_deep(twice))

    def test_a_caller_that_is_deep_itself(self):
        """There the refusal would be wrong: Python's own error is passed on."""
        def called(levels):
            return called(levels - 1) if levels else apply_patch(nested(100), [])

        told = set()
        for levels in range(700, 1000):
            try:
                self.assertEqual(called(levels), nested(100))
                told.add("done")
            except RecursionError:
                told.add("RecursionError")
        self.assertEqual(told, {"done", "RecursionError"})


if __name__ == "__main__":
    unittest.main()
