"""make_patch writes the parts alone outside of which both documents are plainly equal: which parts these are, and that
what is refused of a document is refused where it is equal in both, too."""
import decimal
import json
import math
import random
import sys
import unittest

from json_patch import JsonPatchException, JsonPointer, Limits, TooDeep, _native, make_patch
from json_patch._texts import _text
from support import SAYS, holding_itself, nested, on_each_stack

STAYS = "a text that is long enough to stay"
WHOLE = {"dumps": lambda document: _text(document, "document")}


class Own:
    """What tells whether it was asked if it is equal."""

    asked = False

    def __eq__(self, other):
        Own.asked = True
        return self is other

    def __hash__(self):
        return hash("a")


class OwnText(str):
    pass


class OwnDict(dict):
    pass


LONG = "é" * 70
LEAVES = (
    None, True, False, 0, 1, -1, 2**63 - 1, 2**63, -(2**63), -(2**63) - 1, 10**5000, 0.0, -0.0, 1.0, 1.5, float(2**63), 5e-324, math.nan,
    math.inf, -math.inf, "", "a", "1", "é", "\U0001f600", "\ud83d\ude00", "\ud800", "\udfff", "\ud7ff\ue000", LONG, LONG + "\ud800",
    "a" * 64, "a" * 65, OwnText("a"), (), (1,), OwnDict(), decimal.Decimal(1), JsonPointer("/a"), Own(),
)
NAMES = ("", "a", "b", "c/", "~", "é", "0", "\ud800", LONG, OwnText("d"), 0, 1.5, None, Own())


def is_plain(text):
    return type(text) is str and not any("\ud800" <= character <= "\udfff" for character in text)


def are_alike(one, other, levels):
    """Whether both are arrays or objects of one size, with the same names."""
    if type(one) is not type(other) or type(one) not in (list, dict) or levels <= 0 or len(one) != len(other):
        return False
    return type(one) is list or all(map(is_plain, [*one, *other])) and set(one) == set(other)


def below(one):
    return one if type(one) is dict else range(len(one))


def are_equal(one, other, levels):
    """Whether both are the same plain JSON, of at most so many levels."""
    if type(one) in (list, dict):
        return are_alike(one, other, levels) and all(are_equal(one[step], other[step], levels - 1) for step in below(one))
    if type(one) is not type(other) or type(one) not in (str, int, float, bool, type(None)) or one != other:
        return False
    return is_plain(one) if type(one) is str else -(2**63) <= one < 2**63 if type(one) is int else type(one) is not float or math.isfinite(one)


def way(one, other, levels):
    """What _native.differs_at returns, by what it means."""
    if are_equal(one, other, levels):
        return None
    made = []
    while are_alike(one, other, levels):
        differ = [step for step in below(one) if not are_equal(one[step], other[step], levels - 1)]
        if len(differ) != 1:
            break
        made += differ
        one, other, levels = one[differ[0]], other[differ[0]], levels - 1
    return made


class Pairs:
    """Pairs of documents that differ in a few places; `leaves` and `names` are what they are made of."""

    def __init__(self, seed, leaves, names):
        self.chance, self.leaves, self.names = random.Random(seed), leaves, names

    def next(self):
        one = self.value(5)
        left = self.chance.choice([0, 1, 1, 1, 2, 3])
        return one, self.changed(one, [left])

    def value(self, levels):
        kind = self.chance.randrange(4) if levels else 0
        if kind == 0:
            return self.chance.choice(self.leaves)
        items = [self.value(levels - 1) for _ in range(self.chance.randrange(5))]
        return items if kind == 1 else {self.chance.choice(self.names): item for item in items}

    def changed(self, old, left):
        """A copy with at most so many changes, and members in another order."""
        if left[0] and self.chance.random() < 0.25:
            left[0] -= 1
            return self.value(self.chance.randrange(3))
        if type(old) is list:
            made = [self.changed(item, left) for item in old]
            if left[0] and self.chance.random() < 0.25:
                left[0] -= 1
                made.insert(self.chance.randrange(len(made) + 1), self.value(1))
            return made
        if type(old) is not dict:
            return old
        members = [(name, self.changed(member, left)) for name, member in old.items()]
        if self.chance.random() < 0.3:
            self.chance.shuffle(members)
        if left[0] and self.chance.random() < 0.25:
            left[0] -= 1
            members.append((self.chance.choice(self.names), self.value(1)))
        return dict(members)


class Parts(unittest.TestCase):
    def test_random_pairs(self):
        """Half of them of what is plain, where more is told."""
        odd, plain = Pairs(6902, LEAVES, NAMES), Pairs(6901, [leaf for leaf in LEAVES if are_equal(leaf, leaf, 0)], NAMES[:7])
        lengths = [0] * 6
        for number in range(20_000):
            pairs = odd if number % 2 else plain
            one, other = pairs.next()
            levels = pairs.chance.choice([124, 124, 124, 0, 1, 2, 3, 4, 5, 6])
            Own.asked = False
            told = _native.differs_at(one, other, levels)
            self.assertFalse(Own.asked)
            self.assertEqual(told, way(one, other, levels), (one, other, levels))
            lengths[5 if told is None else len(told)] += 1
        self.assertGreater(min(lengths), 50, lengths)

    def test_ways(self):
        for one, other, wanted in (
            ({"a": [1, {"b": 2}], "c": 3}, {"c": 3, "a": [1, {"b": 4}]}, ["a", 1, "b"]),
            ({"a": [1, {"b": 2}], "c": 3}, {"a": [1, {"b": 4}], "c": 4}, []),
            ([[1, [2, 3]], 4], [[1, [5, 6]], 4], [0, 1]),
            ([[1, [2, 3]], 4], [[1, [2]], 4], [0, 1]),
            ([[0, 1], [2, 3], [4, 5]], [[0, 1], [2, 3], [4, 6]], [2, 1]),
            ({"a": {"b": 1, "c": 2}}, {"a": {"b": 1, "d": 2}}, ["a"]),
            ([1], [True], [0]),
            ([1], [1.0], [0]),
            ([[1], [2]], [[1], (2,)], [1]),
            ({1: [2]}, {1: [3]}, []),
            ({"a": [2]}, {OwnText("a"): [3]}, []),
            ({Own(): 1}, {"a": 1}, []),
            ({"b": 1, "a": 1}, {"b": 1, Own(): 1}, []),
            (nested(124), nested(124), None),
            (nested(125), nested(125), [0] * 124),
            ([nested(9), nested(124)], [nested(9), nested(124)], [1] + [0] * 123),
        ):
            Own.asked = False
            self.assertEqual(_native.differs_at(one, other, 124), wanted)
            self.assertEqual(_native.differs_at(other, one, 124), wanted)
            self.assertFalse(Own.asked)
        self.assertEqual(_native.differs_at(nested(200), nested(200), 200), [0] * 124)

    def test_objects_that_never_end(self):
        """What stands at many places is looked at there, up to a bound. What holds itself is too deep at once."""
        shared, twice = [1], [1]
        for _ in range(100):
            shared, twice = [shared, shared], [twice, twice]
        itself, too = [], []
        itself += [itself, itself, itself]
        too += [too, too, too]
        self.assertEqual(_native.differs_at(shared, twice, 124), [])
        on_each_stack(lambda: self.assertEqual(_native.differs_at(itself, too, 124), []))
        for one, other in ((itself, too), (holding_itself(), holding_itself())):
            self.assertRaises(TooDeep, make_patch, one, other)

    def test_nothing_is_kept(self):
        name, text = "a name " + STAYS, LONG + STAYS
        one, other = ({name: [text, {"a": number}]} for number in range(2))
        before = sys.getrefcount(name), sys.getrefcount(text)
        for _ in range(1_000):
            _native.differs_at(one, other, 124)
        self.assertEqual((sys.getrefcount(name), sys.getrefcount(text)), before)

    def test_paths(self):
        for name in ("a", "", "/", "~", "~1", "a/b~c", '"', "\n\0", "é\U0001f600", "-", "0", "a" * 200):
            src, dst = ({"b": [STAYS, {name: [STAYS * 2, number]}]} for number in range(2))
            path = JsonPointer.from_parts(["b", 1, name, 1]).path
            change = {"op": "replace", "path": path, "value": 1}
            self.assertEqual(list(make_patch(src, dst)), [change])
            self.assertEqual(list(make_patch(src, dst, guarded=True)), [{"op": "test", "path": path, "value": 0}, change])
            self.assertEqual(make_patch(src, dst).apply(src), dst)

    def test_as_short_as_of_the_whole(self):
        """The library counts each path at its length: at the end of a long one it puts in the whole part."""
        for length in range(0, 60):
            src, dst = ({"a" * length: value, "b": STAYS} for value in ([STAYS, 1, "x" * 25, 2], [STAYS, 3, "x" * 25, 4]))
            self.assertEqual(make_patch(src, dst), make_patch(src, dst, **WHOLE))
            self.assertEqual(make_patch(src, dst, guarded=True), make_patch(src, dst, guarded=True, **WHOLE))

    def test_nothing_differs(self):
        for document in (1, "é", [], {"a": [1.5, None, {"b": LONG}]}, 2**64, decimal.Decimal("nan"), (1, 2), JsonPointer("/a")):
            if not isinstance(document, decimal.Decimal):
                self.assertEqual(list(make_patch(document, document)), [])
        self.assertEqual(list(make_patch([1, -0.0, {"a": True}], [1.0, 0, {"a": True}])), [])

    def test_refused_where_both_are_equal(self):
        for value, error, kind in (
            (math.nan, JsonPatchException, "NotJson"), (-math.inf, JsonPatchException, "NotJson"),
            ("\ud800", JsonPatchException, "UnpairedSurrogate"), ({LONG + "\udc00": 1}, JsonPatchException, "UnpairedSurrogate"),
            (10**5000, JsonPatchException, "NumberOutOfRange"), (nested(124), JsonPatchException, "TooDeep"),
            (object(), TypeError, None), ({(): 1}, TypeError, None), (decimal.Decimal(1), TypeError, None),
        ):
            for src, dst in (
                ([value], [value]), ({"a": value, "b": 1}, {"a": value, "b": 1}), ({"a": [1, value], "b": 1}, {"a": [1, value], "b": 2}),
                ([{"b": 2}, {"a": value}], [{"b": 1}, {"a": value}]),
            ):
                for flags in ({}, {"guarded": True}):
                    with self.assertRaises(error) as caught:
                        make_patch(src, dst, **flags)
                    if kind:
                        self.assertEqual((caught.exception.kind, str(caught.exception)), (kind, f"document {SAYS[kind]}"))

    def test_depths(self):
        src, dst = ([[[number]], nested(5)] for number in range(2))
        self.assertEqual(list(make_patch(src, dst, limits=Limits(depth=6))), [{"op": "replace", "path": "/0/0/0", "value": 1}])
        for limit in range(6):
            self.assertRaises(TooDeep, make_patch, src, dst, limits=Limits(depth=limit))
        self.assertEqual(list(make_patch([[0]], [[[]]], limits=Limits(depth=3))), [{"op": "replace", "path": "/0/0", "value": []}])
        self.assertRaises(TooDeep, make_patch, [[0]], [[[]]], limits=Limits(depth=2))
        self.assertEqual(list(make_patch(0, 1, limits=Limits(depth=0))), [{"op": "replace", "path": "", "value": 1}])

    def test_functions_of_the_caller(self):
        """They are handed both documents, and the text of the patch."""
        told = []

        def dumps(document):
            told.append(document)
            return json.dumps(document)

        def loads(text):
            told.append(json.loads(text))
            return told[-1]

        src, dst = [STAYS, 1], [STAYS, 2]
        self.assertEqual(list(make_patch(src, dst, dumps=dumps, loads=loads)), told[2])
        self.assertEqual(told[:2], [src, dst])


if __name__ == "__main__":
    unittest.main()
