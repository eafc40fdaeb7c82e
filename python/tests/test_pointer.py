"""Pointers into Python's objects: RFC 6901's examples, and what the package jsonpointer has beside."""
import collections
import unittest

from json_patch import EndOfList, JsonPointer, JsonPointerException, resolve_pointer, set_pointer
from json_patch.pointer import copied

# RFC 6901, section 5
DOCUMENT = {
    "foo": ["bar", "baz"], "": 0, "a/b": 1, "c%d": 2, "e^f": 3, "g|h": 4, "i\\j": 5, 'k"l': 6, " ": 7, "m~n": 8,
}
EXAMPLES = [
    ("", DOCUMENT), ("/foo", ["bar", "baz"]), ("/foo/0", "bar"), ("/", 0), ("/a~1b", 1), ("/c%d", 2), ("/e^f", 3),
    ("/g|h", 4), ("/i\\j", 5), ('/k"l', 6), ("/ ", 7), ("/m~0n", 8),
]
NOWHERE = ("/foo/2", "/foo/00", "/foo/01", "/foo/-1", "/foo/+1", "/foo/1 ", "/foo/1\n", "/foo/\u0661", "/foo/" + "9" * 5000, "/bar", "/foo/0/0", "//a")
NO_POINTERS = ("a", "foo/0", "/~", "/~2", "/a~", "~0", "#/foo")


class Pointers(unittest.TestCase):
    def test_examples(self):
        for pointer, value in EXAMPLES:
            self.assertEqual(resolve_pointer(DOCUMENT, pointer), value)
            self.assertEqual(JsonPointer(pointer).path, pointer)
            self.assertEqual(JsonPointer.from_parts(JsonPointer(pointer).parts), JsonPointer(pointer))

    def test_nowhere(self):
        for pointer in NOWHERE:
            with self.subTest(pointer=pointer[:9]):
                with self.assertRaises(JsonPointerException) as caught:
                    resolve_pointer(DOCUMENT, pointer)
                self.assertEqual(caught.exception.kind, "Nothing")
                self.assertEqual(resolve_pointer(DOCUMENT, pointer, 7), 7)

    def test_none(self):
        for pointer in NO_POINTERS:
            with self.assertRaises(JsonPointerException) as caught:
                JsonPointer(pointer)
            self.assertEqual((caught.exception.kind, caught.exception.path), ("NoPointer", pointer))

    def test_order_of_escapes(self):
        self.assertEqual(JsonPointer("/~01").parts, ["~1"])
        self.assertEqual(JsonPointer.from_parts(["~1"]).path, "/~01")

    def test_end_of_list(self):
        self.assertIsInstance(resolve_pointer([1], "/-"), EndOfList)
        with self.assertRaises(JsonPointerException):
            resolve_pointer([1], "/-/a")

    def test_set(self):
        document = {"a": [1, 2]}
        self.assertIs(set_pointer(document, "/a/0", 3), document)
        self.assertEqual(document, {"a": [3, 2]})
        made = set_pointer(document, "/a/-", 4, inplace=False)
        self.assertEqual((made, document), ({"a": [3, 2, 4]}, {"a": [3, 2]}))
        self.assertEqual(set_pointer(document, "", 5, inplace=False), 5)
        for pointer in ("", "/a/2", "/b/c", "/a/x"):
            with self.assertRaises(JsonPointerException):
                set_pointer(document, pointer, 6)
        self.assertEqual(document, {"a": [3, 2]})

    def test_other_containers(self):
        document = collections.OrderedDict(a=collections.deque([1, (2, 3)]))
        self.assertEqual(resolve_pointer(document, "/a/1/0"), 2)

    def test_copies(self):
        document = {"a": [{}, [1, "b"]], "c": None}
        made = copied(document)
        self.assertEqual(made, document)
        made["a"][1].append(2)
        made["a"][0]["d"] = 3
        self.assertEqual(document, {"a": [{}, [1, "b"]], "c": None})
        self.assertEqual(list(made), ["a", "c"])
        self.assertEqual(copied(7), 7)


if __name__ == "__main__":
    unittest.main()
