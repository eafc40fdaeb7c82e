"""Compares the package with jsonpatch and jsonpointer, whose names it has: the relations of the
exceptions, what calls return, leave and raise, and what is seen by who holds a part of a document that
is changed in place. It needs both packages, and this repository for its random cases.

Where the two part there has to be a class of diff/classes.py, or a line below, that says how."""
import copy
import inspect
import json
import random
import re
import sys
import unittest
from decimal import Decimal
from pathlib import Path

import json_patch
import jsonpatch
import jsonpointer

sys.path.append(str(Path(__file__).resolve().parents[2] / "diff"))
import cases  # noqa: E402
import classes  # noqa: E402
from cases import Cases  # noqa: E402
from model import same  # noqa: E402

# to those of diff/ come numbers with a fraction, of which none is equal to a whole one
cases.ATOMS += [0.5, 1.5, -0.1, 1 / 3, 2.5e-9, 5e-324, 12.25]
COUNT = 2_000
EXCEPTIONS = {
    name: getattr(jsonpatch, name)
    for name in (
        "JsonPatchException", "InvalidJsonPatch", "JsonPatchConflict", "JsonPatchTestFailed", "JsonPointerException",
    )
}
FAULTS = tuple(EXCEPTIONS.values())
OUR_FAULTS = (json_patch.JsonPatchException, json_patch.JsonPointerException)


def outcome(call):
    """What a call returns, and what it raises, of which one is None."""
    try:
        return call(), None
    except Exception as error:
        return None, error


def is_one_of_theirs(ours, theirs):
    """Whether who catches what they raise catches what is raised here."""
    return all(isinstance(ours, getattr(json_patch, name)) for name, kind in EXCEPTIONS.items() if isinstance(theirs, kind))


def answer(document, patch, of_one, faults):
    """The outcome of operations that are made one by one, as diff/classes.py reads it."""
    for number, operation in enumerate(patch):
        document, error = outcome(lambda: of_one([operation]).apply(document, in_place=True))
        if isinstance(error, faults):
            return ("refused", number, getattr(error, "path", ""), getattr(error, "kind", "")), error
        if error:
            return ("raised", str(number), type(error).__name__), error
    return ("ok", document), None


def containers(document):
    """The lists and dicts of a document, the same way for equal ones."""
    found, left = [], [document]
    while left:
        value = left.pop()
        if isinstance(value, (dict, list)):
            found.append(value)
            left.extend(value.values() if isinstance(value, dict) else value)
    return found


class Exceptions(unittest.TestCase):
    def test_relations(self):
        builtin = {"AssertionError": AssertionError, "Exception": Exception}
        theirs = {**EXCEPTIONS, **builtin}
        ours = {**{name: getattr(json_patch, name) for name in EXCEPTIONS}, **builtin}
        for one in theirs:
            for other in theirs:
                self.assertEqual(issubclass(ours[one], ours[other]), issubclass(theirs[one], theirs[other]), (one, other))

    def test_made_by_callers(self):
        for name in EXCEPTIONS:
            for arguments in ((), ("a",), ("a", 1)):
                self.assertEqual(getattr(json_patch, name)(*arguments).args, EXCEPTIONS[name](*arguments).args)


# The names of theirs that are missing here.
LEFT_OUT = {
    "multidict", "AddOperation", "CopyOperation", "MoveOperation", "RemoveOperation", "ReplaceOperation",
    "TestOperation", "PatchOperation", "DiffBuilder", "basestring", "pairwise", "escape", "unescape", "encode_str",
}
LEFT_OUT_OF_CLASSES = {"operations"}


class Names(unittest.TestCase):
    def test_of_modules(self):
        own = {
            name
            for module in (jsonpatch, jsonpointer)
            for name, value in vars(module).items()
            if not name.startswith("_") and getattr(value, "__module__", None) == module.__name__
        }
        self.assertEqual({name for name in own - LEFT_OUT if not hasattr(json_patch, name)}, set())

    def test_of_classes(self):
        for theirs, ours in ((jsonpatch.JsonPatch, json_patch.JsonPatch), (jsonpointer.JsonPointer, json_patch.JsonPointer)):
            special = {"__bool__", "__iter__", "__eq__", "__hash__", "__str__", "__contains__", "__truediv__"}
            names = {name for name in vars(theirs) if name[0] != "_" or name in special}
            self.assertEqual({name for name in names - LEFT_OUT_OF_CLASSES if not hasattr(ours, name)}, set())

    def test_parameters(self):
        pairs = [
            (jsonpatch.apply_patch, json_patch.apply_patch), (jsonpatch.JsonPatch, json_patch.JsonPatch),
            (jsonpatch.make_patch, json_patch.make_patch),
            (jsonpointer.resolve_pointer, json_patch.resolve_pointer), (jsonpointer.set_pointer, json_patch.set_pointer),
        ]
        for kind, own in ((jsonpatch.JsonPatch, json_patch.JsonPatch), (jsonpointer.JsonPointer, json_patch.JsonPointer)):
            names = [name for name in vars(kind) if inspect.isroutine(getattr(kind, name)) and hasattr(own, name)]
            pairs += [(getattr(kind, name), getattr(own, name)) for name in names if name[0] != "_" and name != "json_dumper"]
        for theirs, ours in pairs:
            wanted = [name for name in inspect.signature(theirs).parameters if name != "pointer_cls"]
            there = list(inspect.signature(ours).parameters)
            self.assertEqual(there[: len(wanted)], wanted, theirs)


class Patches(unittest.TestCase):
    """The random cases of diff/."""

    @classmethod
    def setUpClass(cls):
        made = Cases(6902)
        cls.cases = [made.patch_case() for _ in range(COUNT)]

    def test_results_and_exceptions(self):
        refused = 0
        for document, patch in self.cases:
            with self.subTest(document=document, patch=patch):
                ours, our_error = answer(copy.deepcopy(document), patch, json_patch.JsonPatch, OUR_FAULTS)
                theirs, their_error = answer(copy.deepcopy(document), copy.deepcopy(patch), jsonpatch.JsonPatch, FAULTS)
                if ours[:2] == theirs[:2] and ours[0] == "refused":
                    refused += 1
                    self.assertTrue(self.is_caught(our_error, their_error, patch[ours[1]]), (our_error, repr(their_error)))
                elif not classes.alike(ours, theirs):
                    self.assertIsNotNone(classes.of(classes.PYTHON, "patch", (document, patch), self.whole(ours, document, patch), theirs), (ours, theirs))
        self.assertGreater(refused, COUNT / 10)

    def whole(self, ours, document, patch):
        """The answer with the document that is left, which a refusal of the whole patch leaves as it was."""
        if ours[0] != "refused":
            return ours
        left = copy.deepcopy(document)
        _, error = outcome(lambda: json_patch.apply_patch(left, patch, in_place=True))
        return ("refused", error.operation, error.path, error.kind, left)

    def is_caught(self, ours, theirs, operation):
        # they hold the `-` of a replace to be no patch, and here it leads nowhere
        if operation["op"] == "replace" and operation["path"].endswith("/-"):
            return isinstance(ours, json_patch.JsonPatchConflict)
        return is_one_of_theirs(ours, theirs)

    def test_objects(self):
        """What is made of a copy is equal, and so is the order of its members, where none is moved to its own place."""
        compared = refused = 0
        for document, patch in self.cases:
            held = json.dumps([document, patch])
            ours, our_error = outcome(lambda: json_patch.apply_patch(document, patch))
            self.assertEqual(json.dumps([document, patch]), held)
            theirs, their_error = outcome(lambda: jsonpatch.apply_patch(document, copy.deepcopy(patch)))
            with self.subTest(document=document, patch=patch):
                if our_error and their_error:
                    refused += 1
                elif not our_error and not their_error and same(ours, theirs):
                    if all(operation.get("from") != operation["path"] for operation in patch):
                        compared += 1
                        self.assertEqual(json.dumps(ours), json.dumps(theirs))
                    self.assertTrue(same(json_patch.record_patch(document, patch)[0], ours))
                    self.assertTrue(same(json_patch.apply_patch(document, json.dumps(patch)), ours))
        self.assertGreater(min(compared, refused), COUNT / 10)

    def test_in_place(self):
        compared = 0
        for document, patch in self.cases:
            mine, other = copy.deepcopy(document), copy.deepcopy(document)
            held = list(zip(containers(mine), containers(other)))
            ours, our_error = outcome(lambda: json_patch.apply_patch(mine, patch, in_place=True))
            theirs, their_error = outcome(lambda: jsonpatch.apply_patch(other, copy.deepcopy(patch), in_place=True))
            with self.subTest(document=document, patch=patch):
                if our_error:
                    self.assertTrue(same(mine, document))
                elif not their_error and not any(operation["path"] == "" for operation in patch) and same(ours, theirs):
                    compared += 1
                    for one, two in held:
                        self.assertTrue(same(one, two), (one, two))
                    self.assertEqual(ours is mine, theirs is other)
        self.assertGreater(compared, COUNT / 10)


class Numbers(unittest.TestCase):
    def test_equal_numbers(self):
        """They compare binary fractions, and here what is written is compared."""
        for value, wanted, theirs, ours in (
            (1.0, 1, True, True), (0.1, 0.1, True, True), (-0.0, 0, True, True), (0.1, 0.1 + 2**-50, False, False), (1.5, "1.5", False, False),
            (True, 1, True, False), (1e23, 10**23, False, True), (1e23, int(1e23), True, False),
        ):
            patch = [{"op": "test", "path": "/a", "value": wanted}]
            for package, accepts in ((jsonpatch, theirs), (json_patch, ours)):
                for in_place in (False, True):
                    _, error = outcome(lambda: package.apply_patch({"a": value}, patch, in_place=in_place))
                    self.assertIsInstance(error, type(None) if accepts else package.JsonPatchTestFailed, (value, wanted))

    def test_decimals(self):
        """There they stand in documents as all else does, and here the caller's functions write and read them."""
        read = lambda text: json.loads(text, parse_float=Decimal)
        code = {"dumps": lambda value: re.sub(r'"D([^"]*)"', r"\1", json.dumps(value, default="D{}".format)), "loads": read}
        document = {"price": Decimal("2.10"), "list": [Decimal("0.1"), 7]}
        for text in (
            '[{"op": "replace", "path": "/price", "value": 1.50}, {"op": "add", "path": "/list/-", "value": [2.0]}]',
            '[{"op": "test", "path": "/price", "value": 2.1}, {"op": "move", "from": "/list/0", "path": "/was"}]',
            '[{"op": "copy", "from": "/price", "path": "/list/0"}, {"op": "remove", "path": "/price"}]',
        ):
            wanted = jsonpatch.JsonPatch.from_string(text, loads=read).apply(document)
            made = json_patch.JsonPatch.from_string(text, loads=read)
            for found in (
                json_patch.apply_patch(document, text, **code), made.apply(document, **code), made.record(document, **code)[0],
                made.apply(copy.deepcopy(document), True, **code), json_patch.apply_patch(copy.deepcopy(document), text, True, **code),
            ):
                self.assertEqual(repr(found), repr(wanted))
            self.assertEqual(json_patch.make_patch(document, wanted, **code).apply(document, **code), wanted)

    def test_a_move_to_its_own_place(self):
        """There the member stays, and here it comes last, but in place."""
        patch = [{"op": "move", "from": "/a", "path": "/a"}]
        self.assertEqual(list(jsonpatch.apply_patch({"a": 1, "b": 2}, patch)), ["a", "b"])
        self.assertEqual(list(json_patch.apply_patch({"a": 1, "b": 2}, patch)), ["b", "a"])
        self.assertEqual(list(json_patch.apply_patch({"a": 1, "b": 2}, patch, in_place=True)), ["a", "b"])


class Differences(unittest.TestCase):
    """Between random documents, and from each to what a random patch leaves of it."""

    def pairs(self):
        made = Cases(1)
        for _ in range(COUNT):
            document, patch = made.patch_case()
            left, error = outcome(lambda: json_patch.apply_patch(document, patch))
            yield document, made.value() if error else left

    def has_dash(self, patch):
        """They hold the replacement of a member `-` to be no patch."""
        return any(operation["op"] == "replace" and operation["path"].endswith("/-") for operation in patch)

    def test_each_leads_by_both_packages(self):
        lengths = set()
        for src, dst in self.pairs():
            with self.subTest(src=src, dst=dst):
                held = copy.deepcopy((src, dst))
                patch = json_patch.make_patch(src, dst)
                self.assertTrue(same([src, dst], list(held)))
                self.assertTrue(same(patch.apply(src), dst), patch)
                if self.has_dash(patch):
                    continue
                lengths.add(len(patch))
                left = jsonpatch.apply_patch(copy.deepcopy(src), patch.patch)
                self.assertTrue(same(left, dst), patch)
                self.assertTrue(same(jsonpatch.JsonPatch.from_string(str(patch)).apply(src), dst), patch)
        self.assertTrue({0, 1, 2, 3} <= lengths, lengths)

    def test_empty_alike(self):
        """Both patches are empty, or neither is."""
        for src, dst in self.pairs():
            for one, other in ((src, dst), (src, copy.deepcopy(src))):
                with self.subTest(src=one, dst=other):
                    self.assertEqual(bool(json_patch.make_patch(one, other)), bool(jsonpatch.make_patch(one, other)))


# Patches that are none, whatever the document.
MALFORMED = [
    [{}], [{"op": "add"}], [{"op": "add", "path": "/a"}], [{"path": "/a"}], [{"op": 7, "path": "/a"}],
    [{"op": "spam", "path": "/a"}], [{"op": "move", "path": "/a"}], [{"op": "copy", "path": "/a"}],
    [{"op": "remove", "path": "a"}], [{"op": "remove", "path": "/~2"}], [{"op": "remove", "path": 7}],
    [{"op": "test", "path": "/a"}], [{"op": "replace", "path": "/a"}], ["a"], [{"op": "remove", "path": None}],
]


class Malformed(unittest.TestCase):
    def test_exceptions(self):
        for patch in MALFORMED:
            with self.subTest(patch=patch):
                _, theirs = outcome(lambda: jsonpatch.apply_patch({"a": 1}, patch))
                _, ours = outcome(lambda: json_patch.apply_patch({"a": 1}, patch))
                self.assertIsInstance(theirs, (*FAULTS, TypeError))
                self.assertIsInstance(ours, json_patch.InvalidJsonPatch)
                if isinstance(theirs, FAULTS):
                    self.assertTrue(is_one_of_theirs(ours, theirs), (ours, theirs))

    def test_texts(self):
        for text in ("[", "", '[{"op":"spam","path":""}]', '"a"'):
            with self.subTest(text=text):
                _, theirs = outcome(lambda: jsonpatch.JsonPatch.from_string(text))
                _, ours = outcome(lambda: json_patch.JsonPatch.from_string(text))
                self.assertIsInstance(theirs, (ValueError, *FAULTS))
                self.assertIsInstance(ours, json_patch.InvalidJsonPatch)
                self.assertTrue(not isinstance(theirs, ValueError) or isinstance(ours, ValueError))


class Calls(unittest.TestCase):
    """What both have of JsonPatch besides."""

    def test_views(self):
        operations = [{"op": "add", "path": "/a", "value": 1}, {"op": "remove", "path": "/b"}]
        text = json.dumps(operations)
        for package in (jsonpatch, json_patch):
            for made in (package.JsonPatch(operations), package.JsonPatch.from_string(text)):
                self.assertEqual(list(made), operations)
                self.assertEqual(made.patch, operations)
                self.assertEqual(made.to_string(), text)
                self.assertEqual(str(made), text)
                self.assertEqual(made.to_string(dumps=repr), repr(operations))
                self.assertTrue(made)
                self.assertFalse(package.JsonPatch([]))
                self.assertEqual(made, package.JsonPatch(copy.deepcopy(operations)))
                self.assertNotEqual(made, package.JsonPatch(operations[:1]))
                self.assertNotEqual(made, operations)
                self.assertEqual(hash(made), hash(package.JsonPatch(copy.deepcopy(operations))))
                self.assertEqual(package.JsonPatch.from_string("x", loads=lambda _: operations), made)
                self.assertEqual(package.apply_patch({"b": 2}, made), {"a": 1})
            self.assertIs(package.JsonPatch(operations).patch, operations)

    def test_pointers_as_paths(self):
        for package, pointer in ((jsonpatch, jsonpointer.JsonPointer), (json_patch, json_patch.JsonPointer)):
            patch = [{"op": "move", "from": "/a", "path": pointer("/b")}]
            self.assertEqual(package.apply_patch({"a": 1}, patch), {"b": 1})

    def test_loaders_of_subclasses(self):
        for package in (jsonpatch, json_patch):
            class Own(package.JsonPatch):
                json_dumper = staticmethod(lambda value: "dumped")
                json_loader = staticmethod(lambda text: [])

            self.assertEqual(Own.from_string("x").to_string(), "dumped")


class Pointers(unittest.TestCase):
    """Random pointers into random documents."""

    @classmethod
    def setUpClass(cls):
        made, chance = Cases(6901), random.Random(6901)
        cls.cases = []
        for _ in range(COUNT):
            document = made.value()
            tokens = chance.choice([made.target, lambda document: made.way(document)[0]])(document)
            cls.cases.append((document, json_patch.JsonPointer.from_parts(tokens + ["x"] * (chance.random() < 0.1)).path))

    def leads_into_text(self, document, pointer):
        """They take a character of a text for an item of a list."""
        parts = json_patch.JsonPointer(pointer).parts
        found = [outcome(lambda: json_patch.JsonPointer.from_parts(parts[:end]).resolve(document))[0] for end in range(len(parts))]
        return any(isinstance(value, str) for value in found)

    def has_number_of_zeros(self, pointer):
        """They may read 01 as an index, and raise what int() raises for 1a."""
        return any(part[:1] == "0" and part != "0" for part in json_patch.JsonPointer(pointer).parts)

    def compared(self, theirs, ours, document, pointer):
        if self.leads_into_text(document, pointer) or self.has_number_of_zeros(pointer):
            return False
        (their_value, their_error), (our_value, our_error) = outcome(theirs), outcome(ours)
        if their_error:
            self.assertIsNotNone(our_error)
            self.assertTrue(is_one_of_theirs(our_error, their_error), (our_error, repr(their_error)))
            if isinstance(their_error, (IndexError, TypeError)):
                self.assertIsInstance(our_error, type(their_error))
            return True
        self.assertIsNone(our_error)
        if isinstance(their_value, jsonpointer.EndOfList):
            self.assertIsInstance(our_value, json_patch.EndOfList)
            their_value, our_value = their_value.list_, our_value.list_
        self.assertTrue(same(their_value, our_value), (their_value, our_value))
        return True

    def test_resolve(self):
        compared = 0
        for document, pointer in self.cases:
            with self.subTest(document=document, pointer=pointer):
                compared += self.compared(
                    lambda: jsonpointer.resolve_pointer(document, pointer),
                    lambda: json_patch.resolve_pointer(document, pointer), document, pointer,
                )
                self.compared(
                    lambda: jsonpointer.resolve_pointer(document, pointer, None),
                    lambda: json_patch.resolve_pointer(document, pointer, None), document, pointer,
                )
        self.assertGreater(compared, COUNT / 2)

    def test_set(self):
        for document, pointer in self.cases:
            for inplace in (True, False):
                with self.subTest(document=document, pointer=pointer, inplace=inplace):
                    mine, other = copy.deepcopy(document), copy.deepcopy(document)
                    self.compared(
                        lambda: jsonpointer.set_pointer(other, pointer, 7, inplace),
                        lambda: json_patch.set_pointer(mine, pointer, 7, inplace), document, pointer,
                    )
                    if not self.leads_into_text(document, pointer) and not self.has_number_of_zeros(pointer):
                        self.assertTrue(same(mine, other))

    def test_views(self):
        pointers = [pointer for _, pointer in self.cases]
        for one, other in zip(pointers, pointers[1:]):
            (mine, second), (theirs, their_second) = map(json_patch.JsonPointer, (one, other)), map(jsonpointer.JsonPointer, (one, other))
            for call in (
                lambda a, b: (a.parts, a.get_parts(), a.path, str(a), a == b, a != b, a.contains(b), b in a, hash(a) == hash(b)),
                lambda a, b: (a.join(b).path, (a / b.path).path, a.join(b.parts).path, type(a).from_parts([1, "~/"]).path),
            ):
                self.assertEqual(call(mine, second), call(theirs, their_second))

    def test_none(self):
        for pointer in ("a", "/~2", "/~", "~", "/a~", 7, None):
            _, theirs = outcome(lambda: jsonpointer.JsonPointer(pointer))
            _, ours = outcome(lambda: json_patch.JsonPointer(pointer))
            self.assertTrue(is_one_of_theirs(ours, theirs))
            self.assertEqual(isinstance(ours, TypeError), isinstance(theirs, TypeError))

    def test_no_suffix(self):
        for package in (jsonpointer, json_patch):
            with self.assertRaises(package.JsonPointerException):
                package.JsonPointer("/a").join(7)


if __name__ == "__main__":
    unittest.main()
