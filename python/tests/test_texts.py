"""What a text is refused for, wherever it is handed in."""
import unittest

from json_patch import (
    Document, InvalidJsonPatch, JsonPatch, JsonPatchException, apply_patch, apply_text, record_patch,
)

# Texts of numbers, and those of values that no call reads, each with the kind of its refusal.
NUMBERS = ["1e400", "-1e400", *("1" + "0" * zeros for zeros in (308, 309, 400, 5000)), "1e-400", "-0", "-0.0"]
NO_VALUES = [('"\\ud800"', "UnpairedSurrogate"), ('"\\ud800', "NotJson"), ("NaN", "NotJson"), ("Infinity", "NotJson"), ("\ufeff[]", "NotJson")]


class Texts(unittest.TestCase):
    def assertToldBy(self, calls, kind):
        for call in calls:
            with self.assertRaises(JsonPatchException) as caught:
                call()
            self.assertEqual(caught.exception.kind, kind)

    def readers_of_patch(self, kept, text):
        return (
            lambda: kept.apply(text), lambda: apply_patch({}, text), lambda: JsonPatch.from_string(text), lambda: record_patch({}, text),
            lambda: apply_patch({}, text, in_place=True), lambda: apply_text("{}", text),
        )

    def test_values(self):
        with Document({}) as kept:
            for value, kind in NO_VALUES:
                with self.subTest(value=value[:9]):
                    patch = '[{"op":"add","path":"/a","value":%s}]' % value
                    self.assertToldBy([lambda: Document.from_string(value), lambda: kept.record(patch)], kind)
                    self.assertToldBy(self.readers_of_patch(kept, patch), kind)
            self.assertEqual(kept.get(), {})
        for value in NUMBERS:
            with self.subTest(value=value[:9]), Document.from_string("{ }") as kept:
                patch = '[{"op":"add","path":"/a","value":%s}]' % value
                self.assertEqual(apply_patch({}, patch, loads=str), '{"a":%s}' % value)
                self.assertEqual(apply_text("{}", patch), '{"a":%s}' % value)
                kept.apply(patch)
                self.assertEqual((kept.to_string(), str(Document.from_string(value))), (apply_text("{ }", patch), value))

    def test_encodings(self):
        with Document({}) as kept:
            encoded = ["[]".encode(name) for name in ("utf-8-sig", "utf-16", "utf-16-le", "utf-16-be", "utf-32")]
            for text in ("\ufeff[]", *encoded):
                with self.subTest(text=text):
                    self.assertToldBy([lambda: Document.from_string(text), *self.readers_of_patch(kept, text)], "NotJson")

    def test_spaces(self):
        for text in ("[]", " []", "[ ]", "\t[\n]\r", ' [ {"op":"test","path":"","value":{}} ] '):
            self.assertEqual(apply_patch({}, text), {})
        for text in ("[ ] ]", " [,]", " [ ", "[[]", ' [ {"op":"test","path":"","value":{}} , ] '):
            with self.assertRaises(InvalidJsonPatch):
                JsonPatch.from_string(text)
        with self.assertRaises(InvalidJsonPatch) as caught:
            JsonPatch.from_string(' [ {"op":"remove","path":""} , 7 ] ')
        self.assertEqual((caught.exception.operation, caught.exception.kind), (1, "NotAnObject"))

    def test_members_that_are_not_read(self):
        patch = '[{"op":"test","path":"","value":{},"x":[1.5,-0]}]'
        self.assertEqual(JsonPatch.from_string(patch).apply({}), {})
        with Document({}) as kept:
            kept.apply(patch)


class Row:
    """An array as it is written: its elements, and what stands before each."""

    def __init__(self, elements, separator):
        self.elements = list(elements)
        self.before = ["", *[separator] * (len(self.elements) - 1)]
        self.comma = "," + separator.split(",")[1]

    def remove(self, number):
        del self.before[min(number + 1, len(self.elements) - 1)]
        return self.elements.pop(number)

    def add(self, number, value):
        self.before.insert(number + 1 if number < len(self.elements) else number, self.comma)
        self.elements.insert(number, value)

    def __str__(self):
        return "[" + "".join(part for pair in zip(self.before, self.elements) for part in pair) + "]"


class LongArrays(unittest.TestCase):
    """Texts so long that the check leaves places in them, and patches so short that these are used."""

    ELEMENTS = [
        (str(n), '[%d, "a],b" ,{}]' % n, '{"n":%d,"s":"\\",[{","a":[[],%d]}' % (n, n))[n % 3] for n in range(1200)
    ]
    AROUND = [("", "", ""), ("\n", "\n", ""), (' {"a": [0], "rows" : ', ', "z": [1,2]}', "/rows"), ("[[3,[4]],", ",[5]]", "/1")]

    def assertMade(self, change, operation):
        for separator in (",", ", ", "\n , ", " ,"):
            for front, back, path in self.AROUND:
                row = Row(self.ELEMENTS, separator)
                text = front + str(row) + back
                change(row)
                patch = "[%s]" % operation.replace("%s", path)
                self.assertEqual(apply_text(text, patch), front + str(row) + back)

    def test_places(self):
        last = len(self.ELEMENTS) - 1
        for number in (0, 1, *range(2, last - 1, 171), last - 1, last):
            with self.subTest(number=number):
                self.assertMade(lambda row: row.remove(number), '{"op":"remove","path":"%s/' + str(number) + '"}')
                self.assertMade(lambda row: row.add(number, "7"), '{"op":"add","path":"%s/' + str(number) + '","value":7}')
                self.assertMade(
                    lambda row: row.add(last - number, row.remove(number)),
                    '{"op":"move","from":"%s/' + str(number) + '","path":"%s/' + str(last - number) + '"}',
                )
                self.assertMade(
                    lambda row: row.add(len(row.elements), row.elements[number]),
                    '{"op":"copy","from":"%s/' + str(number) + '","path":"%s/-"}',
                )

    def test_past_the_end(self):
        text = '{"rows":%s}' % Row(self.ELEMENTS, ",")
        for operation in ('"remove","path":"/rows/1200"', '"add","path":"/rows/1201","value":7', '"add","path":"/rows/01","value":7'):
            with self.assertRaises(JsonPatchException) as caught:
                apply_text(text, '[{"op":%s}]' % operation)
            self.assertEqual(caught.exception.kind, "InvalidPointer")


class DeepWays(unittest.TestCase):
    """Ways so deep, to texts so long, that all that is on the way is opened at once, for patches that are made in pieces."""

    FRAMES = [
        ('{"a":', "}", "/a"),
        ("[0, ", " ,[1]]", "/1"),
        ('{"a":[2],"z":1 ,\n"a" :', ',"y":{}\n}', "/a"),
        ('{ "\\u0061/~" :', ', "b":[[]]}', "/a~1~0"),
    ]

    def framed(self, depth):
        """What stands before and behind a value so deep, and the pointer to it."""
        frames = [self.FRAMES[level % len(self.FRAMES)] for level in range(depth)]
        fronts, backs, tokens = zip(*frames)
        return "".join(fronts), "".join(reversed(backs)), "".join(tokens)

    def test_changes(self):
        for depth in (1, 6, 7, 8, 9, 30, 110):
            front, back, path = self.framed(depth)
            row = Row(LongArrays.ELEMENTS, ", ")
            text = front + str(row) + back
            row.remove(5)
            row.add(1000, "7")
            row.elements[3] = "1.50"
            row.add(0, row.remove(600))
            patch = (
                '[{"op":"remove","path":"%s/5"},{"op":"add","path":"%s/1000","value":7},'
                '{"op":"replace","path":"%s/3","value":1.50},{"op":"move","from":"%s/600","path":"%s/0"}]'
            ) % ((path,) * 5)
            with self.subTest(depth=depth):
                self.assertEqual(apply_text(text, patch), front + str(row) + back)
                with Document.from_string(text) as kept:
                    kept.apply(patch)
                    self.assertEqual(kept.to_string(), front + str(row) + back)

    def test_other_ways(self):
        front, back, path = self.framed(12)
        row = Row(LongArrays.ELEMENTS, ",")
        text = front + str(row) + back
        patch = (
            '[{"op":"replace","path":"%s/0","value":8},{"op":"remove","path":"/a/1/y"},'
            '{"op":"test","path":"%s/4","value":[4,"a],b",{}]},{"op":"test","path":"/a/0","value":0}]'
        ) % (path, path)
        row.elements[0] = "8"
        head, gone, tail = back.rpartition(',"y":{}')
        self.assertTrue(gone)
        self.assertEqual(apply_text(text, patch), front + str(row) + head + tail)

    def test_refused(self):
        front, back, path = self.framed(40)
        text = front + str(Row(LongArrays.ELEMENTS, ",")) + back
        changes = ',{"op":"remove","path":"%s/0"}' % path * 3
        for end in ("/1200", "/x", "/0/9"):
            with self.assertRaises(JsonPatchException) as caught:
                apply_text(text, '[{"op":"test","path":"","value":%s}%s,{"op":"remove","path":"%s"}]' % (text, changes, path + end))
            self.assertEqual((caught.exception.operation, caught.exception.path), (4, path + end))
