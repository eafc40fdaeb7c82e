"""Texts patched in place: what is kept, what is put in, and what is refused."""
import difflib
import json
import unittest
from pathlib import Path

from json_patch import (
    InvalidJsonPatch, JsonPatch, JsonPatchConflict, JsonPatchException, JsonPatchTestFailed, JsonPointerException, Limits, OverLimit,
    TooDeep, apply_text, make_patch, merge_text, resolve_text,
)
from support import nested, on_each_stack

REAL = Path(__file__).resolve().parent / "real"
FILES = 20


def changed_lines(old, new):
    """The lines that go and come, as a diff shows them."""
    lines = difflib.unified_diff(old.splitlines(True), new.splitlines(True), n=0)
    return [line for line in lines if not line.startswith(("---", "+++", "@@"))]


class RealFiles(unittest.TestCase):
    """Files of settings and manifests as programs have them, each with a patch and the lines that it
    changes."""

    def test_files(self):
        names = sorted(REAL.glob("*.diff"))
        self.assertEqual(len(names), FILES)
        for name in names:
            with self.subTest(name.stem):
                document, patch, diff = (name.with_suffix(end).read_bytes() for end in (".json", ".patch.json", ".diff"))
                text = document.decode()
                made = apply_text(text, patch.decode())
                self.assertEqual(changed_lines(text, made), diff.decode().splitlines(True))
                self.assertEqual(apply_text(document, patch), made.encode())


class Texts(unittest.TestCase):
    def test_layouts(self):
        """Each line of a table: a text, an operation, and the text after."""
        for text, operation, after in (
            ('{\n  "a": 1,\n  "b": 2\n}\n', {"op": "remove", "path": "/a"}, '{\n  "b": 2\n}\n'),
            ('{\n  "a": 1,\n  "b": 2\n}\n', {"op": "remove", "path": "/b"}, '{\n  "a": 1\n}\n'),
            ('{\n\t"a": 1\n}', {"op": "add", "path": "/b", "value": [2]}, '{\n\t"a": 1,\n\t"b": [2]\n}'),
            ("[\r\n 1,\r\n 3\r\n]", {"op": "add", "path": "/1", "value": 2}, "[\r\n 1,\r\n 2,\r\n 3\r\n]"),
            ("[1, 2]", {"op": "move", "from": "/0", "path": "/-"}, "[2,1]"),
            ('{"a": 1.50}', {"op": "copy", "from": "/a", "path": "/b"}, '{"a": 1.50,"b": 1.50}'),
            (' [ ] ', {"op": "add", "path": "/-", "value": None}, ' [null ] '),
            ('{"a": 1, "\\u0061": 2}', {"op": "replace", "path": "/a", "value": "x"}, '{"a": 1, "\\u0061": "x"}'),
            ('{"a": 1, "b": 2, "\\u0061": 3}', {"op": "remove", "path": "/a"}, '{"b": 2}'),
            ("\t1e400\n", {"op": "replace", "path": "", "value": {"a": 1}}, '\t{"a":1}\n'),
        ):
            self.assertEqual(apply_text(text, [operation]), after, (text, operation))
            self.assertEqual(apply_text(text.encode(), json.dumps([operation]).replace(": ", ":")), after.encode())

    def test_what_is_handed_in(self):
        text, operations = "[1.0, 2]", [{"op": "test", "path": "/0", "value": 1}, {"op": "add", "path": "/-", "value": 0.5}]
        for patch in (operations, tuple(operations), json.dumps(operations), json.dumps(operations).encode()):
            self.assertEqual(apply_text(text, patch), "[1.0, 2, 0.5]")
        self.assertEqual(apply_text(text, JsonPatch([{"op": "remove", "path": "/0"}])), "[2]")
        self.assertEqual(apply_text(bytearray(b"[1]"), "[]"), b"[1]")
        self.assertEqual(apply_text("[1]", '[{"op": "add", "path": "/0", "value": [ 1.50 ]}]'), "[[ 1.50 ],1]")

    def test_numbers_are_compared_exactly(self):
        for number, other in (("1.50", "15e-1"), ("1e400", "10e399"), ("-0", "0.0"), ("1e-400", "0.1e-399"), ("100", "1E+2")):
            self.assertEqual(apply_text(number, f'[{{"op":"test","path":"","value":{other}}}]'), number)
        for number, other in (("1.5", "1.50000000000000000001"), ("1e400", "1e401"), ("9007199254740993", "9007199254740992.0"), ("1", '"1"'), ("1", "true")):
            with self.assertRaises(JsonPatchTestFailed, msg=(number, other)):
                apply_text(number, f'[{{"op":"test","path":"","value":{other}}}]')

    def test_refused(self):
        text = '{"a": 1, "b": [1.5]}'
        remove, there, failing = {"op": "remove", "path": "/c"}, {"op": "remove", "path": "/a"}, {"op": "test", "path": "/b/0", "value": 1}
        for patch, error, operation, kind, path in (
            ([there, remove], JsonPatchConflict, 1, "InvalidPointer", "/c"),
            ([failing], JsonPatchTestFailed, 0, "TestFailed", "/b/0"),
            ([{"op": "test", "path": "/c", "value": 1e400}], JsonPatchException, 0, None, None),
            ([{"op": "copy", "from": "/c", "path": "/d"}], JsonPatchConflict, 0, "InvalidFromPointer", "/d"),
            ([{"op": "move", "from": "/b", "path": "/b/0"}], JsonPatchConflict, 0, "CannotMoveInsideItself", "/b/0"),
            ('[{"op":"test","path":"/c","value":' + "1" * 5000 + "}]", JsonPatchTestFailed, 0, "InvalidPointer", "/c"),
        ):
            with self.assertRaises(error) as caught:
                apply_text(text, patch)
            if path is not None:
                self.assertEqual((caught.exception.operation, caught.exception.kind, caught.exception.path), (operation, kind, path))

    def test_what_is_no_text_or_patch(self):
        for text, patch, error, kind in (
            ("[1", "[]", JsonPatchException, "NotJson"), ("", "[]", JsonPatchException, "NotJson"), ("\ufeff1", "[]", JsonPatchException, "NotJson"),
            ('"\ud800"', "[]", JsonPatchException, "NotJson"), (b"\xff", "[]", JsonPatchException, "NotJson"), ('"\\ud800"', "[]", JsonPatchException, "UnpairedSurrogate"),
            ("1", "[", InvalidJsonPatch, "NotJson"), ("1", "{}", InvalidJsonPatch, "NotAList"), ("1", "[{}]", InvalidJsonPatch, "MissingOp"),
            ("1", [{"op": "add", "path": "a", "value": 1}], InvalidJsonPatch, "BadPath"),
            ("[" * 125 + "]" * 125, "[]", TooDeep, "TooDeep"), ("[" * 1_000_000, "[]", TooDeep, "TooDeep"),
            ("1", "[" * 1_000_000, InvalidJsonPatch, "TooDeep"), ("1", nested(200), InvalidJsonPatch, "TooDeep"),
        ):
            with self.assertRaises(error) as caught:
                apply_text(text, patch)
            self.assertEqual(caught.exception.kind, kind, (text[:9], patch[:9]))

    def test_limits(self):
        nest, text = [{"op": "copy", "from": "", "path": "/0"}], "[7]"
        self.assertEqual(apply_text(text, nest, limits=Limits(depth=2)), "[[7],7]")
        with self.assertRaises(OverLimit) as caught:
            apply_text(text, nest, limits=Limits(depth=1))
        self.assertEqual((caught.exception.operation, caught.exception.kind, caught.exception.path), (0, "TooDeep", "/0"))
        # the text has 104 bytes, the patch 39, and the copy leaves 207
        long, twice = json.dumps(["x" * 100]), '[{"op":"copy","from":"/0","path":"/0"}]'
        self.assertEqual(len(apply_text(long, twice, limits=Limits(bytes=64))), 207)
        with self.assertRaises(OverLimit) as caught:
            apply_text(long, twice, limits=Limits(bytes=63))
        self.assertEqual((caught.exception.operation, caught.exception.kind), (0, "TooMuch"))

    def test_on_a_small_stack(self):
        def hostile():
            double = json.dumps([{"op": "copy", "from": "", "path": f"/{number}"} for number in range(60)])
            nest = json.dumps([{"op": "copy", "from": "", "path": "/a" * 2**number} for number in range(12)])
            for text, patch in (("{}", double), ('{"a":0}', nest)):
                with self.assertRaises(OverLimit):
                    apply_text(text, patch)
            self.assertEqual(apply_text("[" * 124 + "]" * 124, "[]"), "[" * 124 + "]" * 124)

        on_each_stack(hostile)

    def test_merges(self):
        """Each line of a table: a text, a merge patch, and the text after (RFC 7396)."""
        for text, patch, after in (
            ('{ "a": 1, "b": 2 }', {"a": None}, '{ "b": 2 }'),
            ('{\n  "a": 1.50\n}\n', {"b": "x"}, '{\n  "a": 1.50,\n  "b": "x"\n}\n'),
            ('{"a": {"b": 1, "c": 2}}', {"a": {"b": None, "d": 3}}, '{"a": {"c": 2,"d": 3}}'),
            ('{"a": [1]}', {"a": {"b": None, "c": 1}}, '{"a": {"c":1}}'),
            ('{"a": 1.50, "b": [ 1e1 ]}', {"a": 1.5, "b": [10], "c": None}, '{"a": 1.50, "b": [ 1e1 ]}'),
            ('{"a": 1, "a": 2}', {"a": None}, "{}"),
            (" [1, 2] ", [3], " [3] "),
            ("[1]", {"a": {"b": None}}, '{"a":{}}'),
        ):
            self.assertEqual(merge_text(text, patch), after, (text, patch))
            self.assertEqual(merge_text(text.encode(), patch), after.encode())
        for text, patch, kind in (("[1", {}, "NotJson"), ("[[1]]", {}, "TooDeep"), ("{}", [[1]], "TooDeep"), ("{}", nested(200), "TooDeep")):
            with self.assertRaises(JsonPatchException) as caught:
                merge_text(text, patch, limits=Limits(depth=1))
            self.assertEqual((caught.exception.kind, isinstance(caught.exception, InvalidJsonPatch)), (kind, patch != {}))

    def test_merges_within(self):
        """A merge leaves at most the bytes of both texts and so many more; much whitespace isn't taken over."""
        wide, many = "{" + " " * 60_000 + '"a":1}', {f"m{number}": 1 for number in range(6_000)}
        made = merge_text(wide, many, limits=Limits(bytes=0))
        self.assertEqual(made, wide[:-1] + "," + json.dumps(many, separators=(",", ":"))[1:])
        self.assertEqual(merge_text('{ "a": 1}', {"b": 2}, limits=Limits(bytes=1)), '{ "a": 1, "b": 2}')
        with self.assertRaises(OverLimit) as caught:
            merge_text('{ "a": 1}', {"b": 2}, limits=Limits(bytes=0))
        error = caught.exception
        self.assertEqual((error.operation, error.kind, error.path), (None, "TooMuch", None))
        self.assertEqual(str(error), "the merge is over the limits: it takes too much")

    def test_differences_of_texts(self):
        """A patch that leads from one document to another is over no limits whose `bytes` are 256 for each operation."""
        for spaces in (0, 60, 128, 129, 5_000):
            new = "{" + " " * spaces + '"m0"' + " " * spaces + ": [" + " " * spaces + "1]}"
            wanted = {"m0": [0, 1, 2], **{f"m{number}": 0 for number in range(1, 80)}}
            patch = make_patch(json.loads(new), wanted)
            made = apply_text(new, patch, limits=Limits(bytes=256 * len(patch.patch)))
            self.assertEqual(json.loads(made), wanted)

    def test_values(self):
        text = '{ "a" : [ 1.50, "\\u00e9" ], "" : {"m/n" : 1e400, "~": [ ]}, "a\\u002fb":{"x":1,"x":2} }'
        for pointer, found in (
            ("/a", '[ 1.50, "\\u00e9" ]'), ("/a/0", "1.50"), ("/a/1", '"\\u00e9"'), ("//m~1n", "1e400"), ("//~0", "[ ]"), ("/a~1b/x", "2"), ("", text),
        ):
            self.assertEqual(resolve_text(text, pointer), found)
            self.assertEqual(resolve_text(text.encode(), pointer), found.encode())
        for pointer, kind in (("/b", "Nothing"), ("/a/2", "Nothing"), ("/a/-", "Nothing"), ("/a/00", "Nothing"), ("a", "NoPointer"), ("/~2", "NoPointer")):
            with self.assertRaises(JsonPointerException) as caught:
                resolve_text(text, pointer)
            self.assertEqual((caught.exception.kind, caught.exception.path), (kind, pointer))
        with self.assertRaises(JsonPatchException) as caught:
            resolve_text("[1", "")
        self.assertEqual(caught.exception.kind, "NotJson")
        self.assertEqual(len(resolve_text(json.dumps("x" * 100_000), "")), 100_002)


if __name__ == "__main__":
    unittest.main()
