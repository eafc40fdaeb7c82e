"""Patches, on Python's objects."""
import json
import re
import resource
import unittest
from decimal import Decimal

from json_patch import (
    Document, InvalidJsonPatch, JsonPatch, JsonPatchConflict, JsonPatchException, JsonPatchTestFailed, JsonPointer,
    JsonPointerException, Limits, NumberOutOfRange, apply_patch, apply_text, make_patch, merge_patch, merge_text, record_patch,
    resolve_pointer, resolve_text,
)
from support import NO_NUMBERS, NOT_WHOLE, PAST_FLOATS, SAYS, nested, on_each_stack


class Patches(unittest.TestCase):
    def assertRefused(self, errors, document, patch):
        for error in errors:
            with self.assertRaises(error):
                apply_patch(document, patch)

    def test_kinds_of_patch(self):
        wanted, operations = {"b": 1}, [{"op": "move", "from": "/a", "path": "/b"}]
        text = json.dumps(operations)
        for patch in (operations, text, text.encode(), JsonPatch(operations), JsonPatch.from_string(text)):
            self.assertEqual(apply_patch({"a": 1}, patch), wanted)

    def test_documents_stay(self):
        document = {"a": [1]}
        self.assertEqual(apply_patch(document, [{"op": "add", "path": "/a/-", "value": 2}]), {"a": [1, 2]})
        self.assertEqual(document, {"a": [1]})

    def test_in_place(self):
        document, items = {"a": 1}, [1]
        self.assertIs(apply_patch(document, [{"op": "remove", "path": "/a"}], in_place=True), document)
        self.assertEqual(document, {})
        self.assertIs(JsonPatch([{"op": "remove", "path": "/0"}]).apply(items, True), items)
        self.assertEqual(items, [])
        self.assertEqual(apply_patch(items, [{"op": "replace", "path": "", "value": 7}], in_place=True), 7)

    def test_conflicts(self):
        for patch in ([{"op": "remove", "path": "/b"}], [{"op": "copy", "from": "/b/c", "path": "/a"}]):
            self.assertRefused([JsonPatchConflict, JsonPointerException, JsonPatchException], {"a": 1}, patch)
        self.assertRefused([JsonPatchConflict], {"a": {}}, [{"op": "move", "from": "/a", "path": "/a/b"}])

    def test_tests(self):
        errors = [JsonPatchTestFailed, AssertionError]
        self.assertRefused(errors, {"a": 1}, [{"op": "test", "path": "/a", "value": True}])
        errors = [JsonPatchTestFailed, JsonPatchConflict, JsonPointerException]
        nothing = [{"op": "test", "path": "", "value": {}}, {"op": "test", "path": "/a", "value": 1}]
        self.assertRefused(errors, {}, nothing)
        with self.assertRaises(JsonPatchConflict) as caught:
            apply_patch({}, [{"op": "remove", "path": "/a"}])
        self.assertNotIsInstance(caught.exception, JsonPatchTestFailed)

    def test_invalid_patches(self):
        for text in ("{}", "[", "7", '"a"', '[{"op":"spam","path":""}]'):
            with self.assertRaises(InvalidJsonPatch):
                JsonPatch.from_string(text)
        self.assertRefused([InvalidJsonPatch, JsonPointerException], {}, [{"op": "remove", "path": "a"}])
        with self.assertRaises(InvalidJsonPatch):
            JsonPatch([7])
        for patch in ([{"op": "add"}], [{"op": "remove", "path": ""}, {"op": "add"}]):
            with self.assertRaises(InvalidJsonPatch) as caught:
                JsonPatch(patch)
            self.assertEqual(caught.exception.operation, len(patch) - 1)

    def test_no_json(self):
        for text in ("[", "", "\ud800", b"\xff", "[" * 127):
            with self.assertRaises(InvalidJsonPatch) as caught:
                JsonPatch.from_string(text)
            self.assertIsInstance(caught.exception, ValueError)
            self.assertEqual(caught.exception.kind, "NotJson")
        self.assertToldOfBoth("\ud800", "UnpairedSurrogate", lambda: Document("\ud800"))
        self.assertEqual(apply_patch(nested(124), []), nested(124))

    def assertToldOfBoth(self, value, kind, *calls):
        """Of the document, and of a patch or a merge patch that holds the value."""
        patch = [{"op": "add", "path": "", "value": value}]
        for call in (lambda: apply_patch(value, []), lambda: record_patch(value, []), lambda: merge_patch(value, {}), lambda: make_patch(value, 1), *calls):
            with self.assertRaises(JsonPatchException) as caught:
                call()
            self.assertNotIsInstance(caught.exception, InvalidJsonPatch)
            self.assertEqual((str(caught.exception), caught.exception.kind), (f"document {SAYS[kind]}", kind))
        document = {}
        for call in (
            lambda: apply_patch({}, patch), lambda: apply_patch(document, patch, in_place=True), lambda: record_patch({}, patch),
            lambda: merge_patch({}, value), lambda: JsonPatch(patch), lambda: apply_text("{}", patch), lambda: merge_text("{}", value),
        ):
            with self.assertRaises(InvalidJsonPatch) as caught:
                call()
            self.assertEqual((str(caught.exception), caught.exception.kind), (f"patch {SAYS[kind]}", kind))
            self.assertIsInstance(caught.exception, ValueError)
        self.assertEqual(document, {})

    def test_a_patch_is_made_by_apply_alone(self):
        doubled = [{"op": "replace", "path": "", "value": [1]}] + [{"op": "copy", "from": "", "path": "/-"}] * 64
        limits = resource.getrlimit(resource.RLIMIT_AS)
        resource.setrlimit(resource.RLIMIT_AS, (2**30, limits[1]))
        try:
            self.assertEqual(len(JsonPatch(doubled)), 65)
            with self.assertRaises(MemoryError):
                apply_patch(None, doubled, limits=Limits(bytes=2**40))
        finally:
            resource.setrlimit(resource.RLIMIT_AS, limits)

    def test_deep_inverses(self):
        """Of a document that is as deep as one may be the inverse is read again."""
        document = nested(124)
        made, inverse = record_patch(document, [{"op": "replace", "path": "", "value": 1}])
        self.assertEqual((made, list(inverse)), (1, [{"op": "replace", "path": "", "value": document}]))
        for again in (inverse, list(inverse), inverse.to_string()):
            self.assertEqual(apply_patch(made, again), document)

    def test_numbers(self):
        """Any that json writes and reads, in the document, the patch and the inverse."""
        for number in (*NOT_WHOLE, *PAST_FLOATS, 0.1, 1e300, 2**64 - 1, -(2**63), 1 / 3):
            document, patch = {"a": number, "b": 1}, [{"op": "test", "path": "/a", "value": number}, {"op": "replace", "path": "/b", "value": [number]}]
            changed = {"a": number, "b": [number]}
            calls = (
                lambda: apply_patch(document, patch), lambda: JsonPatch(patch).apply(document), lambda: apply_patch(document, json.dumps(patch)),
                lambda: apply_patch(dict(document), patch, in_place=True), lambda: record_patch(document, patch)[0],
                lambda: merge_patch(document, {"b": [number]}), lambda: make_patch(document, changed).apply(document),
                lambda: record_patch(changed, [{"op": "replace", "path": "/b", "value": 1}])[1].apply(document),
            )
            for call in calls:
                # 1.0 stays a float, and -0.0 is none that is 0
                self.assertEqual(json.dumps(call()), json.dumps(changed))
            self.assertFalse(make_patch(document, dict(document)))

    def test_numbers_are_compared_by_value(self):
        document = {"one": 1.0, "zero": -0.0, "large": 1e23, "tenth": 0.1}
        for name, value in (("one", 1), ("zero", 0), ("large", 10**23), ("tenth", 0.1)):
            self.assertEqual(apply_patch(document, [{"op": "test", "path": f"/{name}", "value": value}]), document)
        for name, value in (("one", True), ("zero", False), ("large", int(1e23)), ("tenth", 0.1 + 2**-50), ("one", "1.0")):
            with self.assertRaises(JsonPatchTestFailed):
                apply_patch(document, [{"op": "test", "path": f"/{name}", "value": value}])
        self.assertEqual(list(make_patch({"a": 1}, {"a": 1.0})), [])

    def test_what_is_no_number(self):
        for number in NO_NUMBERS:
            self.assertToldOfBoth(number, "NotJson", lambda: Document(number))

    def test_numbers_of_many_digits(self):
        """Some Pythons write and read no more than 4,300: there they are refused, and else they are as any."""
        wide, text = 10**5000, "1" + "0" * 5000
        try:
            json.dumps(wide)
        except ValueError:
            self.assertToldOfBoth(wide, "NumberOutOfRange", lambda: Document(wide))
            for call in (lambda: apply_patch({}, f'[{{"op":"add","path":"/a","value":{text}}}]'), lambda: JsonPatch.from_string(f'[{{"op":"add","path":"/a","value":{text}}}]')):
                with self.assertRaises(NumberOutOfRange) as caught:
                    call()
                self.assertEqual(caught.exception.kind, "NumberOutOfRange")
        else:
            self.assertEqual(apply_patch([wide], [{"op": "test", "path": "/0", "value": wide}]), [wide])
        self.assertEqual(apply_patch({"a": 1}, f'[{{"op":"add","path":"/a","value":{text}}}]', loads=len), len(text) + 6)

    def test_order_of_members(self):
        document = {"z": 1, "a": {"y": 2, "b": 3}, "m": 4}
        made = apply_patch(document, [{"op": "replace", "path": "/a/y", "value": {"q": 1, "c": 2}}, {"op": "add", "path": "/k", "value": 5}])
        self.assertEqual(json.dumps(made), json.dumps({"z": 1, "a": {"y": {"q": 1, "c": 2}, "b": 3}, "m": 4, "k": 5}))
        made, inverse = record_patch(document, [{"op": "replace", "path": "/a", "value": 0}])
        self.assertEqual((list(made), json.dumps(inverse.apply(made))), (["z", "a", "m"], json.dumps(document)))
        self.assertEqual(list(merge_patch(document, {"k": 5, "z": None})), ["a", "m", "k"])
        self.assertEqual(list(make_patch(document, {**document, "k": 5}).apply(document)), ["z", "a", "m", "k"])

    def test_equal_patches(self):
        """By the numbers' values, whatever writes them, and in any order of members."""
        def of(value):
            return JsonPatch([{"op": "add", "path": "/a", "value": value}])

        large = Decimal(10**400)
        for one, *others in (
            (1, 1.0, Decimal(1), Decimal("1.00")), (0, -0.0, Decimal("-0.00"), Decimal("0E+7")), (0.1, Decimal("0.1"), Decimal("1E-1")), (10**23, 1e23, Decimal("1E+23")),
            (-1500, -1500.0, Decimal("-1.5E+3")), (10**400, large), ([{"a": 1, "b": [2.5]}], [{"b": [Decimal("2.50")], "a": 1.0}], ({"b": (2.5,), "a": 1},)),
            ({"1": "/a"}, {1: JsonPointer("/a")}),
        ):
            for other in others:
                self.assertEqual((of(one), hash(of(one))), (of(other), hash(of(other))))
        values = (1, True, "1", [1], -1, 10, 0.1, Decimal("0.1000000000000000055511151231257827"), 10**23, int(1e23), 10**400, None, {"a": 1}, {"a": 2}, [1, 2], [2, 1])
        for one in values:
            for other in values:
                self.assertEqual(of(one) == of(other), one is other, (one, other))

        def deep():
            self.assertEqual((of(nested(125)), hash(of(nested(125)))), (of(nested(125)), hash(of(nested(125)))))

        on_each_stack(deep)

    def test_keys(self):
        self.assertEqual(apply_patch({1: "one", None: 2, 1.5: [{True: 3}]}, []), {"1": "one", "null": 2, "1.5": [{"true": 3}]})

    def test_texts(self):
        for text in ("", "é", "\0", "\U0001f600", '"\\/\n', "a" * 100_000):
            self.assertEqual(apply_patch({text: text}, []), {text: text})
            patch = [{"op": "add", "path": "/-", "value": text}]
            self.assertEqual(apply_patch([], patch), [text])

    def test_results_longer_than_both_texts(self):
        wanted = [1, 2]
        for _ in range(10):
            wanted = [*wanted, wanted]
        self.assertEqual(apply_patch([1, 2], [{"op": "copy", "from": "", "path": "/-"}] * 10), wanted)

    def test_long_paths(self):
        path = "/" + "~1" * 5_000
        with self.assertRaises(JsonPatchConflict) as caught:
            apply_patch({}, [{"op": "remove", "path": path}])
        self.assertEqual(caught.exception.path, path)

    def test_paths_in_visible_characters(self):
        """What a message shows is printable; the exception's path is as it stands."""
        path = "/" + "".join(map(chr, range(0x100))).replace("~", "~0").replace("/", "~1") + "\u2028\ufeff"
        operation, nested_once = {"op": "remove", "path": path}, [{"op": "add", "path": path, "value": [[]]}]
        for call in (
            lambda: apply_patch({}, [operation]), lambda: apply_text("{}", [operation]), lambda: Document({}).record([operation]),
            lambda: apply_patch({}, nested_once, limits=Limits(depth=1)), lambda: resolve_text("{}", path), lambda: Document({}).get(path),
            lambda: resolve_pointer({}, path), lambda: JsonPointer(path + "~"),
        ):
            with self.assertRaises((JsonPatchException, JsonPointerException)) as caught:
                call()
            self.assertTrue(str(caught.exception).isprintable(), caught.exception)
            self.assertIn("/\\x00\\x01", str(caught.exception))
            self.assertEqual(caught.exception.path.rstrip("~"), path)

    def test_as_a_list(self):
        patch = JsonPatch([{"op": "remove", "path": "/a"}])
        self.assertEqual(list(patch), [{"op": "remove", "path": "/a"}])
        self.assertEqual(len(patch), 1)
        self.assertFalse(JsonPatch([]))
        self.assertEqual(JsonPatch.from_string(str(patch)), patch)
        self.assertNotEqual(patch, JsonPatch([]))
        self.assertEqual(JsonPatch(patch), patch)
        self.assertEqual(JsonPatch(tuple(patch)), patch)


class Callers(unittest.TestCase):
    """Functions of the caller that write and read texts."""

    def test_decimals(self):
        write = lambda value: re.sub(r'"D([^"]*)"', r"\1", json.dumps(value, default=lambda number: f"D{number}"))
        read = lambda text: json.loads(text, parse_float=Decimal)
        code = {"dumps": write, "loads": read}
        document, patch = {"price": Decimal("2.10"), "stock": 7}, [{"op": "test", "path": "/price", "value": Decimal("2.1")}, {"op": "replace", "path": "/price", "value": Decimal("1.50")}]
        wanted, back = {"price": Decimal("1.50"), "stock": 7}, [{"op": "replace", "path": "/price", "value": Decimal("2.10")}]
        made = JsonPatch(patch)
        for call in (
            lambda: apply_patch(document, patch, **code), lambda: made.apply(document, **code), lambda: apply_patch(document, write(patch), **code),
            lambda: apply_patch(document, made, **code), lambda: merge_patch(document, {"price": Decimal("1.50")}, **code),
            lambda: apply_patch(dict(document), patch, in_place=True, **code), lambda: made.apply(dict(document), True, **code),
            lambda: apply_patch(dict(document), write(patch), in_place=True, **code), lambda: record_patch(document, made, **code)[0],
        ):
            self.assertEqual(repr(call()), repr(wanted))
        for inverse in (record_patch(document, patch, **code)[1], made.record(document, **code)[1], record_patch(document, write(patch), **code)[1]):
            self.assertEqual(repr(inverse.patch), repr(back))
            self.assertEqual((inverse.apply(wanted, **code), inverse), (document, JsonPatch(back)))
        for difference in (make_patch(wanted, document, **code), JsonPatch.from_diff(wanted, document, dumps=write, loads=read)):
            self.assertEqual(repr(difference.patch), repr(back))
        self.assertEqual(apply_text('{"price": 2.10}', patch, dumps=write), '{"price": 1.50}')
        self.assertEqual(merge_text('{"price": 2.10}', {"price": Decimal("1.50")}, dumps=write), '{"price": 1.50}')
        self.assertEqual(repr(JsonPatch.from_string(write(patch), loads=read).patch), repr(patch))
        for call in (
            lambda: apply_patch(document, []), lambda: merge_patch({}, document), lambda: make_patch(document, {}), lambda: made.apply({"price": 1}),
            lambda: Document(document), lambda: apply_patch({"price": 2.1}, patch, in_place=True),
        ):
            with self.assertRaises(TypeError):
                call()

    def test_decimals_in_place(self):
        """They are compared as the numbers that they are."""
        document = {"price": Decimal("2.10"), "was": 2.1}
        same = [{"op": "test", "path": "/price", "value": 2.1}, {"op": "copy", "from": "/price", "path": "/was"}]
        self.assertEqual(repr(apply_patch(document, same, in_place=True)["was"]), "Decimal('2.10')")
        for value in (2, 2.1000000000000005, "2.10", None, True):
            with self.assertRaises(JsonPatchTestFailed):
                apply_patch(document, [{"op": "test", "path": "/price", "value": value}], in_place=True)

    def test_bytes(self):
        """Of a dumps that returns them."""
        write = lambda value: json.dumps(value).encode()
        self.assertEqual(apply_patch({"a": "\u00e9"}, [{"op": "move", "from": "/a", "path": "/b"}], dumps=write), {"b": "\u00e9"})

    def test_what_they_write(self):
        """It is read by the library, whatever it is, and what they raise is passed on."""
        for text, kind in (("nan", "NotJson"), ('"\ud800"', "NotJson"), ('"\\ud800"', "UnpairedSurrogate"), ("[" * 200, "TooDeep")):
            with self.assertRaises(JsonPatchException) as caught:
                apply_patch({}, "[]", dumps=lambda value: text)
            self.assertEqual((str(caught.exception), caught.exception.kind), (f"document {SAYS[kind]}", kind))

        def fails(_):
            raise KeyError("of the caller")

        for code in ({"dumps": fails}, {"loads": fails}):
            for call in (apply_patch, record_patch, make_patch, merge_patch):
                with self.assertRaises(KeyError):
                    call({"a": 1}, [], **code)

    def test_what_they_read(self):
        self.assertEqual(apply_patch([1, 2], [{"op": "remove", "path": "/0"}], loads=str), "[2]")
        self.assertEqual(record_patch([1], [{"op": "remove", "path": "/0"}], loads=str)[0], "[]")
        self.assertEqual(make_patch([1, "stays as it is"], [2, "stays as it is"], loads=lambda text: [text]).patch, ['[{"op":"replace","path":"/0","value":2}]'])
