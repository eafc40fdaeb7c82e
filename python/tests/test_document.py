"""Documents that the library keeps."""
import copy
import json
import unittest

from json_patch import (
    Document, InvalidJsonPatch, JsonPatch, JsonPatchConflict, JsonPatchException, JsonPatchTestFailed,
    JsonPointerException, TooDeep, apply_text,
)
from support import CALLS, NOT_WHOLE, OK, PAST_FLOATS, ROWS, nested, on_another_thread


class Kept(unittest.TestCase):
    def test_tables(self):
        for call, document, patch, status, *_ in ROWS:
            # those of differences are in test_differences.py
            if call.endswith("diff"):
                continue
            with self.subTest(call=call, document=document, patch=patch), Document.from_string(document) as kept:
                before, change = str(kept), {"apply": kept.apply, "record": kept.record, "merge": kept.merge}[call]
                try:
                    inverse = change(json.loads(patch))
                except JsonPatchException:
                    self.assertNotEqual(status, OK)
                    self.assertEqual(str(kept), before)
                    continue
                self.assertEqual(status, OK)
                self.assertEqual(kept.get(), CALLS["merge" if call == "merge" else "apply"](json.loads(document), json.loads(patch)))
                if inverse is not None:
                    changed = str(kept)
                    kept.undo()
                    self.assertEqual(str(kept), before)
                    kept.record(patch)
                    self.assertEqual(str(kept), changed)
                    kept.apply(inverse)
                    self.assertEqual(list(kept.diff(json.loads(document))), [])

    def test_kinds_of_patch(self):
        operations = [{"op": "add", "path": "/-", "value": "é"}]
        text = json.dumps(operations)
        with Document([]) as kept:
            for patch in (operations, text, text.encode(), JsonPatch(operations)):
                kept.apply(patch)
            self.assertEqual(kept.get(), ["é"] * 4)
            self.assertEqual(len(kept.record(text)), 1)

    def test_get(self):
        with Document({"a": ["b" * 1000, 2]}) as kept:
            self.assertEqual(kept.get("/a/0"), "b" * 1000)
            self.assertEqual(kept.get("/a/1"), 2)
            for pointer, kind in (("/a/2", "Nothing"), ("/c", "Nothing"), ("a", "NoPointer"), ("/~2", "NoPointer")):
                with self.assertRaises(JsonPointerException) as caught:
                    kept.get(pointer)
                self.assertEqual((caught.exception.path, caught.exception.kind), (pointer, kind))

    def test_many(self):
        with Document([]) as kept:
            for number in range(1000):
                kept.apply([{"op": "add", "path": "/-", "value": number}])
            self.assertEqual(kept.get(), list(range(1000)))

    def test_long_paths(self):
        path = "/" + "~1" * 5_000
        with Document({}) as kept, self.assertRaises(JsonPatchConflict) as caught:
            kept.apply([{"op": "remove", "path": path}])
        self.assertEqual(caught.exception.path, path)

    def test_tests(self):
        with Document({}) as kept:
            for patch in ('[{"op":"test","path":"/a","value":1}]', [{"op": "test", "path": "/a", "value": 1}]):
                with self.assertRaises(JsonPatchTestFailed):
                    kept.apply(patch)

    def test_deep_inverses(self):
        """Of a document that is as deep as one may be the inverse is read again."""
        document = nested(124)
        with Document(document) as kept:
            inverse = kept.record([{"op": "replace", "path": "", "value": 1}])
            self.assertEqual(kept.get(), 1)
            self.assertEqual(list(inverse), [{"op": "replace", "path": "", "value": document}])
            self.assertEqual(list(kept.record(inverse)), [{"op": "replace", "path": "", "value": 1}])
            self.assertEqual(kept.get(), document)
            kept.apply(inverse.to_string())
            self.assertEqual(kept.get(), document)

    def test_no_json(self):
        texts = *((text, "NotJson") for text in ("[", "", '"\ud800"', b"\xff", "[" * 124)), ('"\\ud800"', "UnpairedSurrogate")
        with Document({}) as kept:
            for text, kind in texts:
                with self.assertRaises(JsonPatchException) as caught:
                    Document.from_string(text)
                self.assertEqual(caught.exception.kind, kind)
                with self.assertRaises(InvalidJsonPatch) as caught:
                    kept.apply(text)
                self.assertEqual(caught.exception.kind, kind)
            # a document's brackets are counted first
            with self.assertRaises(TooDeep):
                Document.from_string("[" * 125)
            with self.assertRaises(JsonPointerException):
                kept.get("/\ud800")

    def test_threads(self):
        with Document([]) as kept:
            patch = [{"op": "add", "path": "/-", "value": 1}]
            for call in (kept.get, kept.to_string, lambda: kept.apply(patch), lambda: kept.merge(1), kept.close):
                self.assertIsInstance(on_another_thread(call), RuntimeError)
            self.assertEqual(kept.get(), [])

    def test_owner_that_has_ended(self):
        for _ in range(100):
            # A thread that starts after this one can have its number.
            kept, lost = on_another_thread(lambda: (Document([]), [Document([])]))
            self.assertIsInstance(on_another_thread(kept.get), RuntimeError)
            with self.assertWarns(ResourceWarning):
                on_another_thread(lost.clear)
            with self.assertWarns(ResourceWarning):
                del kept

    def test_lost_on_another_thread(self):
        made = [Document([])]
        with self.assertWarns(ResourceWarning):
            on_another_thread(made.clear)

    def test_copies(self):
        with Document([1]) as kept:
            shared = copy.copy(kept)
            shared.apply([{"op": "remove", "path": "/0"}])
            self.assertEqual(kept.get(), [])
            shared.close()
            with self.assertRaises(ValueError):
                kept.get()
        with Document([1]) as kept, self.assertRaises(TypeError):
            copy.deepcopy(kept)

    def test_closed(self):
        kept = Document([])
        kept.close()
        kept.close()
        for call in (kept.get, kept.to_string, lambda: kept.apply([]), lambda: kept.merge({}), lambda: kept.record([])):
            with self.assertRaises(ValueError):
                call()

    def test_numbers(self):
        """Any that json writes and reads, in the document and in its patches."""
        for number in (*NOT_WHOLE, *PAST_FLOATS, 2**64 - 1, -(2**63)):
            add = [{"op": "add", "path": "/a", "value": number}]
            with Document(number) as kept:
                self.assertEqual(json.dumps(kept.get()), json.dumps(number))
                kept.merge({"b": number})
                kept.apply(add)
                kept.record([{"op": "test", "path": "/a", "value": number}, {"op": "remove", "path": "/a"}])
                self.assertEqual(json.dumps(kept.get()), json.dumps({"b": number}))
                kept.undo()
                self.assertEqual(json.dumps(kept.get()), json.dumps({"b": number, "a": number}))

    def test_the_text_stays(self):
        """Numbers as they are written, members in their order, the layout, and a name that stands twice."""
        text = '{ "b" : 1.50,\n  "a": [1e400, -0, "\\u00e9"],\t"c": 1, "c": 2 }\n'
        patch = [{"op": "move", "from": "/b", "path": "/a/0"}, {"op": "remove", "path": "/c"}]
        with Document.from_string(text) as kept:
            for _ in range(2):
                self.assertEqual((kept.to_string(), str(kept)), (text, text))
                inverse = kept.record(patch)
                self.assertEqual(str(kept), apply_text(text, patch))
                kept.undo()
            self.assertEqual(list(inverse)[-1], {"op": "add", "path": "/b", "value": 1.5})
            self.assertEqual(str(Document.from_string(text.encode())), text)
        with Document({"b": 1, "é": 2, "a": {"d": 3, "c": 4}}) as kept:
            self.assertEqual(kept.get(), {"b": 1, "é": 2, "a": {"d": 3, "c": 4}})
            self.assertEqual(list(kept.get()), ["b", "é", "a"])

    def test_refused(self):
        with self.assertRaises(JsonPatchException):
            Document.from_string("[")
        with Document({}) as kept:
            for patch, error in ((7, InvalidJsonPatch), ([{"op": "remove", "path": "/a"}], JsonPatchConflict)):
                with self.assertRaises(error):
                    kept.apply(patch)
            self.assertEqual(str(kept), "{}")
