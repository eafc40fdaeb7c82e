"""Patches of a hundred bytes to a megabyte that nest a document in itself, and merge patches, values and
documents up to the limit and past it: each is answered, here and on a thread with little stack. What has
to come of each is counted from its levels alone."""
import json
import unittest

from json_patch import Document, InvalidJsonPatch, Limits, OverLimit, TooDeep, apply_patch, merge_patch, record_patch
from support import nested, on_each_stack

MOST = 124
DEPTHS = (2, 3, 7, 60, 123, MOST)
LENGTHS = (100, 300, 3_000, 70_000, 1_000_000)


class Nest:
    """A way to nest: how a level is put round a value, the token or tokens that lead into it, and how many
    levels that are."""

    def __init__(self, put, tokens, levels=1):
        self.put, self.tokens, self.levels = put, tokens, levels

    def made(self, turns):
        made = 0
        for _ in range(turns):
            made = self.put(made)
        return made


NESTS = (
    Nest(lambda value: {"a": value}, "/a"), Nest(lambda value: [value], "/0"), Nest(lambda value: {"a/m~": value}, "/a~1m~0"),
    Nest(lambda value: {"": value}, "/"), Nest(lambda value: [[value]], "/0/0", 2), Nest(lambda value: {"a": [value]}, "/a/0", 2),
    Nest(lambda value: [{"é~/": value}], "/0/é~0~1", 2),
)


class Hostile(unittest.TestCase):
    def assertEach(self, document, patch, limits, over):
        """Each call answers a text or a list alike: the operation of this number is over, or none is."""
        for form in (patch, json.dumps(patch), json.dumps(patch, ensure_ascii=False).encode()):
            self.answer(lambda: apply_patch(document, form, limits=limits), over)
        self.answer(lambda: record_patch(document, patch, limits=limits), over)
        text = json.dumps(document)
        held = json.loads(text)
        made = self.answer(lambda: apply_patch(held, patch, in_place=True, limits=limits), over)
        # an object can't become an array
        self.assertEqual(held, made if type(made) is type(held) else document)
        with Document(document, limits=limits) as kept:
            self.answer(lambda: kept.apply(patch), over)
            if over is not None:
                self.assertEqual(kept.get(), document)
        with Document.from_string(text, limits=limits) as kept:
            self.answer(lambda: kept.record(patch), over)
            if over is None:
                self.assertEqual(kept.get(), made)
                kept.undo()
            self.assertEqual(kept.get(), document)

    def answer(self, call, over):
        if over is None:
            return call()
        with self.assertRaises(OverLimit) as caught:
            call()
        self.assertEqual((caught.exception.operation, caught.exception.kind), (over, "TooDeep"))
        return None

    def test_copies_that_double(self):
        """Each copy of the whole goes to its innermost place, and doubles the levels."""
        def each():
            for nest in NESTS:
                for depth in DEPTHS:
                    for length in LENGTHS if depth == MOST else LENGTHS[:-1]:
                        self.doubled(nest, depth, length)

        on_each_stack(each)

    def doubled(self, nest, depth, length):
        patch, turns, over, total = [], 1, None, 0
        while total + turns * len(nest.tokens) < length and turns < 10**5:
            patch.append({"op": "copy", "from": "", "path": nest.tokens * turns})
            if over is None and 2 * turns * nest.levels > depth:
                over = len(patch) - 1
            total += turns * len(nest.tokens)
            turns *= 2
        self.assertEach(nest.made(1), patch, Limits(depth=depth), over)

    def test_moves_that_nest(self):
        """Each move puts a member into the next: before number k it has k + 1 levels, and goes two deep."""
        def each():
            for turns in (1, 122, 123, 500, 2_000):
                document = {f"m{number:04}": {} for number in range(turns + 1)}
                for name in ("m", "m~1~0", ""):
                    patch = [
                        {"op": "move", "from": f"/m{number - 1:04}", "path": f"/m{number:04}/{name}"} for number in range(1, turns + 1)
                    ]
                    self.assertEach(document, patch, Limits(), None if turns + 2 <= MOST else MOST - 2)

        on_each_stack(each)

    def test_moves_into_lists(self):
        """The last list is moved into the one before it, again and again: as deep as above."""
        def each():
            for turns in (1, 122, 123, 500, 2_000):
                moves = [{"op": "move", "from": f"/{last}", "path": f"/{last - 1}/0"} for last in range(turns, 0, -1)]
                over = None if turns + 2 <= MOST else MOST - 2
                self.assertEach([[] for _ in range(turns + 1)], moves, Limits(), over)

        on_each_stack(each)

    def test_values(self):
        """In a patch whose text nests at most 127 levels, two of them its own."""
        values = {levels: nested(levels) for levels in (1, 60, 122, 123, 124, 125, 126, 127, 1_000, 30_000)}

        def each():
            for levels, value in values.items():
                for name in ("add", "replace"):
                    for path in ("", "/a"):
                        patch = [{"op": name, "path": path, "value": value}]
                        if levels + 2 > 127:
                            self.too_deep({"a": 0}, patch)
                        else:
                            fits = levels + path.count("/") <= MOST
                            self.assertEach({"a": 0}, patch, Limits(), None if fits else 0)

        on_each_stack(each)

    def too_deep(self, document, patch):
        with Document(document) as kept:
            for call in (
                lambda: apply_patch(document, patch), lambda: record_patch(document, patch), lambda: kept.apply(patch),
                lambda: kept.record(patch), lambda: apply_patch(document, patch, in_place=True),
            ):
                with self.assertRaises(TooDeep) as caught:
                    call()
                self.assertIsInstance(caught.exception, InvalidJsonPatch)
            self.assertEqual((kept.get(), document), ({"a": 0}, {"a": 0}))

    def test_merge_patches(self):
        turns_of = (1, 30, 61, 62, 63, 123, 124, 125, 126, 127, 128, 1_000, 50_000)
        patches = [(nest, [(turns, nest.made(turns)) for turns in turns_of]) for nest in NESTS]

        def each():
            for nest, made_of in patches:
                for turns, deep in made_of:
                    for document in ({}, deep if turns * nest.levels <= MOST else [1]):
                        with Document(document) as kept:
                            if turns * nest.levels <= MOST:
                                made = merge_patch(document, deep)
                                kept.merge(deep)
                                self.assertEqual(kept.get(), made)
                                continue
                            for call in (lambda: merge_patch(document, deep), lambda: kept.merge(deep)):
                                with self.assertRaises(TooDeep):
                                    call()
                            self.assertEqual(kept.get(), document)

        on_each_stack(each)


if __name__ == "__main__":
    unittest.main()
