"""Limits, what is over them, and changes that are taken back."""
import copy
import json
import pickle
import unittest
from unittest import mock

import json_patch
from json_patch import (
    Document, JsonPatch, JsonPatchConflict, JsonPatchException, Limits, NothingToUndo, OverLimit, TooDeep, apply_patch,
    apply_text, merge_patch, record_patch,
)
from json_patch.limits import MOST_LEVELS
from support import SAYS, holding_itself, nested

COPY = {"op": "copy", "from": "/a", "path": "/b"}
MOVE, BACK = {"op": "move", "from": "/a", "path": "/b"}, {"op": "move", "from": "/b", "path": "/a"}


def of_texts(document, patch, limits):
    """The calls from object to object, within limits of texts."""
    return (
        lambda: apply_patch(document, patch, limits=limits), lambda: record_patch(document, patch, limits=limits)[0],
        lambda: JsonPatch(patch).apply(document, limits=limits), lambda: JsonPatch(patch).record(document, limits=limits)[0],
        lambda: json.loads(apply_text(json.dumps(document, separators=(",", ":")), patch, limits=limits)),
        lambda: kept("apply", document, patch, limits), lambda: kept("record", document, patch, limits),
    )


def in_place(document, patch, limits):
    """That which counts copies."""
    return (lambda: apply_patch(copy.deepcopy(document), patch, in_place=True, limits=limits),)


def kept(name, document, patch, limits):
    with Document(document, limits=limits) as held:
        try:
            getattr(held, name)(patch)
        except JsonPatchException:
            assert held.get() == document
            raise
        return held.get()


def each_call(document, patch, limits):
    return *of_texts(document, patch, limits), *in_place(document, patch, limits)


class Within(unittest.TestCase):
    def assertOver(self, document, patch, limits, operation, kind, calls=each_call):
        for call in calls(document, patch, limits):
            with self.assertRaises(OverLimit) as caught:
                call()
            error = caught.exception
            self.assertEqual((error.operation, error.kind, error.path), (operation, kind, patch[operation]["path"]))
            self.assertIsInstance(error, JsonPatchException)
            self.assertNotIsInstance(error, (TooDeep, JsonPatchConflict))
            self.assertEqual(str(error), f"operation {operation} at path {error.path!r} is over the limits: it {SAYS[kind]}")
            self.assertEqual(vars(pickle.loads(pickle.dumps(error))), vars(error))

    def assertMakes(self, document, patch, limits, wanted, calls=each_call):
        for call in calls(document, patch, limits):
            self.assertEqual(call(), wanted)

    def test_depths(self):
        patch = [{"op": "test", "path": "", "value": []}, {"op": "add", "path": "/0", "value": [[]]}]
        self.assertMakes([], patch, Limits(depth=3), [[[]]])
        self.assertOver([], patch, Limits(depth=2), 1, "TooDeep")
        self.assertMakes({}, [{"op": "add", "path": "/a", "value": nested(123)}], Limits(), {"a": nested(123)})
        self.assertOver({}, [{"op": "add", "path": "/a", "value": nested(124)}], Limits(), 0, "TooDeep")

    def test_operations_that_would_be_refused(self):
        """They leave no text that could be over; where copies are counted, they are over before."""
        patch = [{"op": "add", "path": "/0/a", "value": 1}]
        self.assertOver([], patch, Limits(depth=1), 0, "TooDeep", in_place)
        for call in of_texts([], patch, Limits(depth=1)):
            with self.assertRaises(JsonPatchConflict):
                call()

    def test_copies(self):
        document = {"a": "cde"}
        self.assertMakes(document, [COPY], Limits(bytes=4), {"a": "cde", "b": "cde"})
        self.assertOver(document, [COPY], Limits(bytes=3), 0, "TooMuch", in_place)
        self.assertOver(document, [COPY] * 3, Limits(bytes=8), 2, "TooMuch", in_place)
        self.assertMakes(document, [COPY] * 3, Limits(bytes=2**100), {"a": "cde", "b": "cde"})
        many = {"a": "x" * 499}
        self.assertMakes(many, [COPY] * 1000, Limits(), {**many, "b": many["a"]})
        self.assertOver(many, [COPY] * 1001, Limits(), 1000, "TooMuch", in_place)

    def test_operations(self):
        """One more is over before the first is made, whatever that comes to."""
        patch = [{"op": "remove", "path": "/0"}, {"op": "add", "path": "/-", "value": 2}]
        for most in (2, 3, 2**100, None):
            self.assertMakes([1], patch, Limits(operations=most), [2])
        self.assertOver([1], patch, Limits(operations=1), 1, "TooMany")
        self.assertOver([1], patch, Limits(operations=0), 0, "TooMany")
        self.assertOver([], patch * 100, Limits(operations=199), 199, "TooMany")
        for call in each_call([], patch, Limits(operations=2)):
            with self.assertRaises(JsonPatchConflict):
                call()
        self.assertMakes([1], [], Limits(operations=0), [1])
        document = [1]
        for given in (patch, json.dumps(patch)):
            with self.assertRaises(OverLimit) as caught:
                apply_patch(document, given, in_place=True, limits=Limits(operations=1))
            self.assertEqual((caught.exception.operation, caught.exception.path, document), (1, "/-", [1]))
        with self.assertRaises(json_patch.InvalidJsonPatch):
            apply_patch([1], [*patch, {}], limits=Limits(operations=0))
        self.assertEqual(merge_patch({}, {"a": 1, "b": 2}, limits=Limits(operations=0)), {"a": 1, "b": 2})

    def test_bytes(self):
        """The document has 108 bytes, the patch 39 and 40 for each that follows, and what a copy leaves 215."""
        document = {"a": "x" * 100}
        self.assertMakes(document, [COPY], Limits(bytes=68), {**document, "b": document["a"]}, of_texts)
        self.assertOver(document, [COPY], Limits(bytes=67), 0, "TooMuch", of_texts)
        back = {"op": "remove", "path": "/b"}
        self.assertOver(document, [COPY, back, COPY], Limits(bytes=0), 0, "TooMuch", of_texts)
        test = [{"op": "test", "path": "/a", "value": document["a"]}]
        self.assertMakes(document, [*test, COPY, back], Limits(bytes=0), document, of_texts)

    def test_bytes_of_inverses(self):
        """Each move of the inverse holds the value that it moves."""
        document, moves = {"a": "x" * 100}, [MOVE, BACK] * 9
        made, inverse = record_patch(document, moves)
        size = [len(json.dumps(value, separators=(",", ":"))) for value in (document, moves, inverse.patch)]
        self.assertEqual((made, len(inverse)), (document, 36))
        spare = size[2] - size[0] - size[1]
        for record in (
            lambda limits: record_patch(document, moves, limits=limits), lambda limits: JsonPatch(moves).record(document, limits=limits),
            lambda limits: (kept("record", document, moves, limits), inverse),
        ):
            self.assertEqual(record(Limits(bytes=spare)), (made, inverse))
            with self.assertRaises(OverLimit) as caught:
                record(Limits(bytes=spare - 1))
            self.assertEqual((caught.exception.operation, caught.exception.kind, caught.exception.path), (17, "TooMuch", "/a"))
        self.assertEqual(apply_patch(document, moves, limits=Limits(bytes=0)), document)

    def test_bytes_of_merges(self):
        """In compact texts a merge puts no whitespace, and leaves no more than both."""
        self.assertEqual(merge_patch({"a": 1}, {"b": 2}, limits=Limits(bytes=0)), {"a": 1, "b": 2})
        # 9 bytes and 7 are merged to 17
        write = lambda value: '{ "a": 1}' if "a" in value else '{"b":2}'
        self.assertEqual(merge_patch({"a": 1}, {"b": 2}, dumps=write, limits=Limits(bytes=1)), {"a": 1, "b": 2})
        with self.assertRaises(OverLimit) as caught:
            merge_patch({"a": 1}, {"b": 2}, dumps=write, limits=Limits(bytes=0))
        error = caught.exception
        self.assertEqual((error.operation, error.kind, error.path), (None, "TooMuch", None))

    def test_a_kept_document_counts_at_each_patch(self):
        """Each copy adds 40 bytes, and the patch has 39."""
        copied = [{"op": "copy", "from": "/0", "path": "/-"}]
        with Document(["x" * 37], limits=Limits(bytes=1)) as kept:
            for _ in range(9):
                kept.apply(copied)
            self.assertEqual(len(kept.get()), 10)
        with Document(["x" * 37], limits=Limits(bytes=0)) as kept, self.assertRaises(OverLimit) as caught:
            kept.apply(copied)
        self.assertEqual(caught.exception.kind, "TooMuch")

    def test_documents_and_merge_patches(self):
        limits = Limits(depth=2)
        self.assertEqual(merge_patch([[1]], {"a": {}}, limits=limits), {"a": {}})
        for call in (
            lambda: merge_patch([[[]]], {}, limits=limits), lambda: apply_patch([[[]]], [], limits=limits),
            lambda: record_patch([[[]]], [], limits=limits), lambda: Document([[[]]], limits=limits),
            lambda: Document.from_string("[[[]]]", limits=limits), lambda: merge_patch({}, {"a": {"b": []}}, limits=limits),
            lambda: apply_patch(nested(125), []), lambda: Document(nested(125)), lambda: merge_patch({}, nested(125)),
        ):
            with self.assertRaises(TooDeep) as caught:
                call()
            self.assertEqual((caught.exception.kind, caught.exception.operation), ("TooDeep", None))
            self.assertIsInstance(caught.exception, ValueError)
        with Document({}, limits=limits) as kept, self.assertRaises(json_patch.InvalidJsonPatch):
            kept.merge({"a": {"b": {}}})
        with Document.from_string("[[]]", limits=limits) as kept, self.assertRaises(OverLimit):
            kept.apply('[{"op":"copy","from":"","path":"/0"}]')

    def test_limits_as_values(self):
        self.assertEqual(len({Limits(), Limits(MOST_LEVELS), pickle.loads(pickle.dumps(Limits())), Limits(9), Limits(bytes=9), Limits(operations=9)}), 4)

    def test_what_are_no_limits(self):
        for name, value, error in (
            ("depth", -1, ValueError), ("bytes", -1, ValueError), ("depth", 125, ValueError), ("depth", 2**70, ValueError),
            ("depth", 1.0, TypeError), ("bytes", "9", TypeError), ("bytes", None, TypeError), ("depth", True, TypeError),
            ("operations", -1, ValueError), ("operations", 1.0, TypeError),
        ):
            with self.assertRaises(error) as caught:
                Limits(**{name: value})
            self.assertTrue(str(caught.exception).startswith(f"{name} is "), caught.exception)
        with self.assertRaises(AttributeError):
            Limits().depth = 7


class Undone(unittest.TestCase):
    def assertNothing(self, kept):
        before = kept.get()
        with self.assertRaises(NothingToUndo) as caught:
            kept.undo()
        self.assertIsInstance(caught.exception, (JsonPatchException, IndexError))
        self.assertEqual((caught.exception.kind, kept.get()), ("Nothing", before))

    def test_undo(self):
        with Document({"a": [1, 2]}) as kept:
            self.assertNothing(kept)
            kept.record([{"op": "remove", "path": "/a/0"}, {"op": "move", "from": "/a", "path": "/b"}])
            with self.assertRaises(JsonPatchConflict):
                kept.record([{"op": "remove", "path": "/a"}])
            self.assertEqual(kept.get(), {"b": [2]})
            kept.undo()
            self.assertEqual(kept.get(), {"a": [1, 2]})
            self.assertNothing(kept)

    def test_changes_that_are_not_recorded(self):
        for change in (lambda kept: kept.apply([]), lambda kept: kept.merge({"b": 2})):
            with Document({"a": 1}) as kept:
                kept.record([{"op": "remove", "path": "/a"}])
                change(kept)
                self.assertNothing(kept)

    def test_recorded_but_nothing_changed(self):
        with Document({"a": 1}) as kept:
            self.assertEqual(list(kept.record([{"op": "test", "path": "/a", "value": 1}])), [])
            kept.undo()
            self.assertEqual(kept.get(), {"a": 1})
            self.assertNothing(kept)

    def test_handles_that_are_shared(self):
        with Document([1]) as kept:
            shared = copy.copy(kept)
            kept.record([{"op": "remove", "path": "/0"}])
            shared.undo()
            self.assertEqual(kept.get(), [1])
            self.assertNothing(kept)
            kept.record([{"op": "remove", "path": "/0"}])
            shared.apply([{"op": "add", "path": "/0", "value": 2}])
            self.assertNothing(kept)

    def test_closed(self):
        kept = Document([1])
        kept.record([{"op": "remove", "path": "/0"}])
        kept.close()
        with self.assertRaises(ValueError):
            kept.undo()

    def test_as_deep_as_may_be(self):
        deep = nested(124)
        with Document(deep) as kept:
            inverse = kept.record([{"op": "replace", "path": "", "value": 1}])
            kept.undo()
            self.assertEqual(kept.get(), deep)
            self.assertEqual(inverse.apply(1), deep)

    def test_recorded_or_not_at_all(self):
        """Where the inverse can't be had, the change is taken back."""
        patch = [{"op": "remove", "path": "/a"}]
        with Document({"a": 1}) as kept:
            for name, fault in (
                ("json_patch._native.inverse", mock.Mock(side_effect=MemoryError)),
                ("json_patch.document.value_of", mock.Mock(side_effect=MemoryError)),
                ("json_patch.document.value_of", mock.Mock(side_effect=RecursionError)),
                ("json_patch.document.value_of", mock.Mock(side_effect=KeyboardInterrupt)),
            ):
                with mock.patch(name, fault), self.assertRaises((MemoryError, RecursionError, KeyboardInterrupt)):
                    kept.record(patch)
                self.assertEqual(kept.get(), {"a": 1})
                self.assertNothing(kept)


class InPlace(unittest.TestCase):
    def test_sizes(self):
        """One for each value, and one for each byte of a string or a name, whatever the characters."""
        for value, size in ((7, 1), ("cde", 4), ("é", 3), ("\U0001f600", 5), ({"é": [None, "a"]}, 7), ({"a": {}, "b": []}, 5), ([], 1), (True, 1), (1.5, 1)):
            for document in ({"a": value}, {"a": value, "gone": 1}):
                patch = [{"op": "copy", "from": "/a", "path": "/b"}]
                with self.assertRaises(OverLimit):
                    apply_patch(document, patch, in_place=True, limits=Limits(bytes=size - 1))
                self.assertEqual(apply_patch(document, patch, in_place=True, limits=Limits(bytes=size))["b"], value)

    def test_lists_at_two_places_count_for_each(self):
        """Each copy doubles the one list."""
        rows = []
        document = {"a": rows, "b": rows}
        patch = [{"op": "copy", "from": "/a", "path": "/b/-"}]
        for much, times in ((1, 1), (3, 2), (7, 3), (15, 4)):
            with self.assertRaises(OverLimit) as caught:
                apply_patch(document, patch * 200, in_place=True, limits=Limits(bytes=much))
            self.assertEqual((caught.exception.operation, caught.exception.kind), (times, "TooMuch"))
            self.assertEqual(document, {"a": [], "b": []})
            self.assertIs(document["a"], document["b"])
        self.assertIs(apply_patch(document, patch * 4, in_place=True, limits=Limits(bytes=15)), document)
        self.assertEqual([str(rows).count("["), str(document).count("[")], [16, 32])

    def test_what_holds_itself(self):
        """However often, and however many a list holds: no more is looked at than the limits allow."""
        wide, twice = holding_itself(), []
        wide *= 1_000
        for _ in range(100):
            twice = [twice, twice]
        for document, kind in ((wide, "TooDeep"), (twice, "TooMuch")):
            with self.assertRaises(OverLimit) as caught:
                apply_patch(document, [{"op": "copy", "from": "/0", "path": "/0"}], in_place=True)
            self.assertEqual(caught.exception.kind, kind)


if __name__ == "__main__":
    unittest.main()
