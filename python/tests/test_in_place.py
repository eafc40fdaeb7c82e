"""Objects that are changed themselves. diff/in_place.py holds random changes against the library's."""
import collections
import datetime
import decimal
import json
import time
import unittest

from json_patch import (
    InvalidJsonPatch, JsonPatch, JsonPatchConflict, JsonPatchException, JsonPatchTestFailed, JsonPointer, OverLimit, TooDeep, apply_patch,
)
from json_patch.errors import KINDS
from support import OK, REFUSED, ROWS, holding_itself, nested, on_each_stack

FAILS = {"op": "test", "path": "/nowhere", "value": 1}


def held(value):
    """Each list and dict, and what it holds, in order."""
    found, left = [], [value]
    for value in left:
        if isinstance(value, (dict, list)):
            found.append((value, list(value.items() if isinstance(value, dict) else enumerate(value))))
            left.extend(item for _, item in found[-1][1])
    return found


def unread(kind):
    """A list or dict of which one item may be asked for, and not all of them."""
    def refused(*_):
        raise AssertionError("looked through")

    names = ("__iter__", "items", "values", "keys", "copy", "__eq__", "__contains__" if kind is list else "__reversed__")
    return type("Unread", (kind,), {name: refused for name in names})


class InPlace(unittest.TestCase):
    def changed(self, document, *operations):
        """What a patch leaves in place has to be what it leaves elsewhere."""
        wanted = apply_patch(document, list(operations))
        self.assertIs(apply_patch(document, list(operations), in_place=True), document)
        self.assertEqual(document, wanted)
        return document

    def assertRefused(self, document, *operations, error=JsonPatchException):
        return self.assertRefusedAs(document, list(operations), error)

    def assertRefusedAs(self, document, patch, error):
        """Each list and dict is then itself, and holds what it held, in the same order."""
        before = held(document)
        with self.assertRaises(error) as caught:
            apply_patch(document, patch, in_place=True)
        for value, items in before:
            found = list(value.items() if isinstance(value, dict) else enumerate(value))
            self.assertEqual([(name, id(item)) for name, item in found], [(name, id(item)) for name, item in items])
        return caught.exception

    def test_what_is_held_is_changed(self):
        rows = [{"n": 1}, {"n": 2}]
        document, first = {"rows": rows, "z": 1, "a": 2}, rows[0]
        self.changed(
            document,
            {"op": "add", "path": "/rows/0", "value": {"n": 0}},
            {"op": "replace", "path": "/rows/1/n", "value": 7},
            {"op": "move", "from": "/rows/1", "path": "/first"},
            {"op": "copy", "from": "/first", "path": "/rows/-"},
            {"op": "remove", "path": "/a"},
            {"op": "test", "path": "/z", "value": 1},
        )
        self.assertEqual(rows, [{"n": 0}, {"n": 2}, {"n": 7}])
        self.assertIs(document["first"], first)
        self.assertIsNot(rows[2], first)
        self.assertEqual(list(document), ["rows", "z", "first"])

    def test_the_patch_stays(self):
        for name in ("n", "é"):
            value = {name: []}
            patch = JsonPatch([{"op": "add", "path": "/a", "value": value}, {"op": "add", "path": f"/a/{name}/-", "value": 1}])
            document = {}
            patch.apply(document, in_place=True)
            self.assertEqual((document, value), ({"a": {name: [1]}}, {name: []}))
            self.assertIsNot(document["a"], value)

    def test_tables(self):
        for call, document, patch, status, operation, kind, path in ROWS:
            if call != "apply":
                continue
            document, patch = json.loads(document), json.loads(patch)
            with self.subTest(document=document, patch=patch):
                if status == OK:
                    wanted = apply_patch(document, patch)
                    self.assertEqual(json.dumps(apply_patch(document, patch, True), sort_keys=True), json.dumps(wanted, sort_keys=True))
                    continue
                for given in (patch, json.dumps(patch)):
                    error = self.assertRefusedAs(document, given, JsonPatchException)
                    self.assertEqual((error.kind, error.path), (KINDS[kind][0], path if status == REFUSED else None))

    def test_refused(self):
        rows = [1]
        document = {"b": {"c": {}, "d": [2]}, "rows": rows, "a": 7, "e": [[3], [4]]}
        changes = (
            {"op": "add", "path": "/rows/-", "value": 2}, {"op": "add", "path": "/rows/0", "value": 2}, {"op": "replace", "path": "/rows/0", "value": 2},
            {"op": "remove", "path": "/rows/0"}, {"op": "remove", "path": "/b"}, {"op": "add", "path": "/a", "value": 2},
            {"op": "add", "path": "/new", "value": {}}, {"op": "move", "from": "/a", "path": "/b/d/0"}, {"op": "move", "from": "/e/0", "path": "/e/1"},
            {"op": "move", "from": "/b/c", "path": "/a"}, {"op": "copy", "from": "/e", "path": "/e/-"}, {"op": "move", "from": "/b/d", "path": ""},
            {"op": "replace", "path": "", "value": {"nothing": 1}}, {"op": "replace", "path": "/b/c", "value": []}, {"op": "move", "from": "/b", "path": "/b"},
        )
        for change in changes:
            for other in changes:
                operations = change, {"op": "add", "path": "/b", "value": {}}, other, FAILS
                error = self.assertRefused(document, *operations)
                self.assertEqual(error.path, operations[error.operation]["path"])
        self.assertRefused(document, {"op": "move", "from": "/a", "path": "/b/none/x"}, error=JsonPatchConflict)
        self.assertRefused(document, {"op": "move", "from": "/e/0", "path": "/e/2"}, error=JsonPatchConflict)
        self.assertRefused(document, {"op": "remove", "path": "/a"}, {"op": "test", "path": "/b", "value": {"c": {}}}, error=JsonPatchTestFailed)

    def test_members_that_were_removed(self):
        """They come back to their place, are no members for what looks, and aren't copied."""
        document = {"a": 1, "b": {"c": 2, "d": 3}, "e": 4}
        self.changed(
            document, {"op": "remove", "path": "/b/c"}, {"op": "test", "path": "/b", "value": {"d": 3}}, {"op": "copy", "from": "/b", "path": "/f"},
            {"op": "move", "from": "/a", "path": "/g"}, {"op": "add", "path": "/a", "value": 5},
        )
        self.assertEqual(list(document), ["a", "b", "e", "f", "g"])
        self.assertEqual(list(document["f"].items()), [("d", 3)])
        for op in ("test", "replace"):
            self.assertRefused(document, {"op": "remove", "path": "/e"}, {"op": op, "path": "/e", "value": 4}, error=JsonPatchConflict)
        for op in ("copy", "move"):
            error = self.assertRefused(document, {"op": "remove", "path": "/e"}, {"op": op, "from": "/e", "path": "/a"})
            self.assertEqual(error.kind, "InvalidFromPointer")
        self.assertRefused(document, {"op": "remove", "path": "/e"}, {"op": "remove", "path": "/e"})
        self.assertRefused(document, {"op": "remove", "path": "/b/d"}, {"op": "test", "path": "/b", "value": {"d": 3}}, error=JsonPatchTestFailed)

    def test_roots(self):
        self.changed({"a": 1}, {"op": "replace", "path": "", "value": {"b": 2}})
        self.changed([1], {"op": "replace", "path": "", "value": []}, {"op": "add", "path": "/0", "value": 2})
        self.changed({"a": {"b": {"c": 1}}, "d": 2}, {"op": "remove", "path": "/d"}, {"op": "move", "from": "/a/b", "path": ""})
        self.assertEqual(apply_patch([1], [{"op": "replace", "path": "", "value": 7}], in_place=True), 7)
        self.assertEqual(apply_patch(1, [{"op": "replace", "path": "", "value": [7]}], in_place=True), [7])

    def test_the_object_is_not_looked_through(self):
        rows, members = unread(list)([1, 2, [3]]), unread(dict)(a=1, b=[2], c={})
        apply_patch({"rows": rows, "members": members}, [
            {"op": "add", "path": "/rows/1", "value": 7}, {"op": "replace", "path": "/rows/0", "value": 7}, {"op": "remove", "path": "/rows/2"},
            {"op": "move", "from": "/rows/2", "path": "/members/d"}, {"op": "copy", "from": "/members/b", "path": "/members/c"},
            {"op": "test", "path": "/members/b", "value": [2]}, {"op": "remove", "path": "/members/a"},
        ], in_place=True)
        self.assertEqual((len(rows), len(members), members["c"], members["d"]), (2, 3, [2], [3]))
        # nor are those compared whose number of items is another
        with self.assertRaises(JsonPatchTestFailed):
            apply_patch([rows, members], [{"op": "test", "path": "/0", "value": [1]}], in_place=True)
        with self.assertRaises(JsonPatchTestFailed):
            apply_patch([rows, members], [{"op": "test", "path": "/1", "value": {}}], in_place=True)

    def test_numbers(self):
        """Any stand in the object. Equal are those that json.dumps writes as one number."""
        document = {"price": 1.5, "whole": 1.0, "minus": -0.0, "large": 2.0**63, "nan": float("nan"), "wide": 10**400, "true": True}
        apply_patch(document, [
            {"op": "test", "path": "/whole", "value": 1}, {"op": "test", "path": "/minus", "value": 0}, {"op": "test", "path": "/large", "value": 9223372036854776000},
            {"op": "copy", "from": "/price", "path": "/was"}, {"op": "move", "from": "/wide", "path": "/wider"}, {"op": "test", "path": "/wider", "value": 10**400},
            {"op": "add", "path": "/tenth", "value": 0.1}, {"op": "test", "path": "/tenth", "value": 0.1}, {"op": "test", "path": "/price", "value": 1.5},
        ], in_place=True)
        self.assertEqual((document["was"], document["wider"], "wide" in document, document["tenth"]), (1.5, 10**400, False, 0.1))
        for name, value in (("large", 2**63), ("true", 1), ("whole", True), ("whole", "1.0"), ("nan", 0), ("price", 1), ("whole", None), ("wider", 1), ("tenth", 0.1 + 2**-50), ("price", "1.5"), ("large", float(2**64))):
            self.assertRefused(document, {"op": "test", "path": f"/{name}", "value": value}, error=JsonPatchTestFailed)

    def test_what_no_text_says(self):
        """It may stand where the patch doesn't look. What it looks at is what json.dumps writes."""
        day, pair = datetime.date(2026, 1, 2), (1, {"n": [2]})
        document = {"day": day, "pair": pair, 1: "one", "at": JsonPointer("/x"), "half": "\ud800", "keys": {1: 2}}
        apply_patch(document, [
            {"op": "move", "from": "/day", "path": "/when"}, {"op": "add", "path": "/pair/1/n/-", "value": 3}, {"op": "test", "path": "/at", "value": "/x"},
            {"op": "copy", "from": "/pair", "path": "/list"}, {"op": "test", "path": "/pair", "value": [1, {"n": [2, 3]}]}, {"op": "copy", "from": "/half", "path": "/too"},
        ], in_place=True)
        self.assertEqual(document["list"], [1, {"n": [2, 3]}])
        self.assertIs(document["pair"], pair)
        self.assertEqual((document["when"], document["too"], document[1]), (day, "\ud800", "one"))
        self.assertRefused(document, {"op": "remove", "path": "/1"}, error=JsonPatchConflict)
        self.assertRefused(document, {"op": "test", "path": "/keys", "value": {"1": 2}}, error=JsonPatchTestFailed)
        for operation in (
            {"op": "test", "path": "/when", "value": 1}, {"op": "copy", "from": "/when", "path": "/x"}, {"op": "copy", "from": "/keys", "path": "/x"},
            {"op": "remove", "path": "/pair/0"}, {"op": "replace", "path": "/pair/0", "value": 1}, {"op": "add", "path": "/pair/-", "value": 1},
        ):
            self.assertRefused(document, {"op": "add", "path": "/list/0", "value": 0}, operation, error=TypeError)

    def test_lists_at_two_places(self):
        """It is one list, and changed at both."""
        shared = [1]
        document = {"a": shared, "b": shared}
        apply_patch(document, [{"op": "add", "path": "/a/-", "value": 2}, {"op": "copy", "from": "", "path": "/c"}, {"op": "add", "path": "/c/a/-", "value": 3}], in_place=True)
        self.assertEqual(document, {"a": [1, 2], "b": [1, 2], "c": {"a": [1, 2, 3], "b": [1, 2]}})
        self.assertIs(document["a"], document["b"])
        self.assertRefused(document, *[{"op": "copy", "from": "/a", "path": "/b/-"}] * 200, error=OverLimit)

    def test_other_dicts(self):
        document = collections.OrderedDict(b=1, a=[2])
        self.changed(document, {"op": "move", "from": "/b", "path": "/a/0"})
        self.assertIsInstance(document, collections.OrderedDict)
        self.assertRefused(document, {"op": "remove", "path": "/a"}, {"op": "add", "path": "/b", "value": 1}, FAILS)
        counted = collections.defaultdict(list, a=1)
        self.assertRefused(counted, {"op": "add", "path": "/none/-", "value": 1})

    def test_a_signaling_nan_is_none(self):
        for other in (1, 1.5, decimal.Decimal(1)):
            document = {"a": decimal.Decimal("sNaN")}
            with self.assertRaises(JsonPatchTestFailed):
                apply_patch(document, [{"op": "test", "path": "/a", "value": 1}], in_place=True, loads=lambda text: [{"op": "test", "path": "/a", "value": other}])

    def test_members_that_went_are_not_counted_each_time(self):
        """As many tests as members that were removed: to count these would take the square."""
        names = [f"/{number}" for number in range(10_000)]
        document = dict.fromkeys([name[1:] for name in names], 0)
        tests = [{"op": "test", "path": "", "value": {}}]
        begun = time.process_time()
        apply_patch(document, [{"op": "remove", "path": name} for name in names] + tests * 10_000, in_place=True)
        self.assertLess(time.process_time() - begun, 3)
        self.assertEqual(document, {})

    def test_members_that_went_and_came(self):
        """A test counts those that are there, whatever went and came."""
        self.changed(
            {"a": 1, "b": {"c": 1, "d": 2}},
            {"op": "remove", "path": "/a"}, {"op": "test", "path": "", "value": {"b": {"c": 1, "d": 2}}},
            {"op": "add", "path": "/a", "value": 2}, {"op": "test", "path": "", "value": {"a": 2, "b": {"c": 1, "d": 2}}},
            {"op": "remove", "path": "/b/c"}, {"op": "move", "from": "/b", "path": "/e"}, {"op": "test", "path": "/e", "value": {"d": 2}},
            {"op": "test", "path": "", "value": {"a": 2, "e": {"d": 2}}}, {"op": "copy", "from": "/e", "path": "/e/c"},
            {"op": "test", "path": "/e", "value": {"c": {"d": 2}, "d": 2}}, {"op": "test", "path": "/e/c", "value": {"d": 2}},
        )

    def test_texts(self):
        self.changed({"\u00e9\U0001f600": "\x00\x1f\x7f\u2028\"\\/"}, {"op": "add", "path": "/\x7f", "value": "\u0085"})

    def test_patches_that_take_the_library(self):
        """What isn't plain is read by it, and the same is made."""
        several = [{"deep": nested(60)}, {"é": 1}, list(range(2_000)), "é", 2**64 - 1, collections.OrderedDict(a=(1, 2)), JsonPointer("/a/~1")]
        for value in several:
            document = {"a": [], "b": 1}
            operations = [{"op": "add", "path": "/a/0", "value": value}, {"op": "test", "path": "/a/0", "value": value, "more": 1}]
            wanted = apply_patch(document, operations)
            for patch in (operations, tuple(operations), JsonPatch(operations), json.dumps(operations, default=lambda pointer: pointer.path)):
                document = {"a": [], "b": 1}
                self.assertIs(apply_patch(document, patch, in_place=True), document)
                self.assertEqual(document, wanted)
        document = {"a": 1}
        apply_patch(document, [collections.OrderedDict(op="move", **{"from": JsonPointer("/a"), "path": JsonPointer("/b")})], in_place=True)
        self.assertEqual(document, {"b": 1})

    def test_what_is_no_patch(self):
        """It is told before anything is made, whatever is refused before it."""
        for wrong in (
            {}, {"op": "add"}, {"op": "spam", "path": ""}, {"op": 7, "path": ""}, {"op": [], "path": ""}, {"op": "remove", "path": "a"}, {"op": "remove", "path": 7},
            {"op": "remove"}, {"op": "add", "path": "/b"}, {"op": "move", "path": ""}, {"op": "copy", "from": "/~2", "path": ""}, {"op": "test", "path": "/a"},
            {"op": "add", "path": "/b", "value": float("nan")}, {"op": "add", "path": "/b", "value": [float("inf")]}, 7, None, "a", [],
        ):
            for first in ({"op": "add", "path": "/a", "value": 2}, FAILS):
                with self.assertRaises(InvalidJsonPatch) as told:
                    apply_patch({}, [first, wrong])
                error = self.assertRefused({"a": 1}, first, wrong, error=InvalidJsonPatch)
                self.assertEqual((type(error), str(error), vars(error)), (type(told.exception), str(told.exception), vars(told.exception)))
        for name in ("\ud800", "a\udfff"):
            for wrong in ({"op": "add", "path": f"/{name}", "value": 1}, {"op": "add", "path": "/b", "value": [name]}, {"op": "add", "path": "/b", "value": {name: 1}}):
                self.assertEqual(self.assertRefused({"a": 1}, wrong, error=InvalidJsonPatch).kind, "UnpairedSurrogate")

    def test_changes_of_a_patch(self):
        """What is made is what the JsonPatch says by then."""
        patch = JsonPatch([{"op": "add", "path": "/a", "value": 1}])
        patch.patch[0]["value"] = True
        self.assertIs(patch.apply({}, in_place=True)["a"], True)
        patch.patch[0]["op"] = "spam"
        with self.assertRaises(InvalidJsonPatch):
            patch.apply({}, in_place=True)

    def test_depths(self):
        deep = nested(100_000)
        tokens = "/0" * 99_998

        def each():
            for value, path in ((deep, tokens + "/0"), (holding_itself(), "/0" * 200_000)):
                for patch in (
                    [{"op": "add", "path": path + "/-", "value": 1}], [{"op": "copy", "from": "", "path": "/-"}], [{"op": "copy", "from": "/0", "path": "/0"}],
                    [{"op": "replace", "path": path, "value": 1}], [{"op": "move", "from": "/0", "path": "/0/0/0"}],
                ):
                    self.assertEqual(self.assertOver(value, patch).kind, "TooDeep")
                with self.assertRaises(JsonPatchTestFailed):
                    apply_patch(value, [{"op": "test", "path": "", "value": nested(120)}], in_place=True)
                self.assertIs(apply_patch(value, [{"op": "move", "from": "/0", "path": "/0"}], in_place=True), value)
            apply_patch(deep, [{"op": "move", "from": tokens + "/0", "path": "/1"}], in_place=True)
            innermost = deep
            for _ in range(99_998):
                innermost = innermost[0]
            innermost.append(deep.pop())
            self.assertEqual(innermost, [[]])

        on_each_stack(each)

    def assertOver(self, value, patch):
        with self.assertRaises(OverLimit) as caught:
            apply_patch(value, patch, in_place=True)
        self.assertNotIsInstance(caught.exception, TooDeep)
        return caught.exception


if __name__ == "__main__":
    unittest.main()
