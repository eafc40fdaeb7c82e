"""The rows of c/cases.json, and the numbers of json_patch.h."""
import json
import re
import unittest

from json_patch import JsonPatchException, Limits, _native, record_patch
from json_patch.errors import KINDS
from json_patch.limits import MOST_BYTES, MOST_LEVELS
from support import CALLS, C, OK, REFUSED, ROWS

HEADER = (C / "json_patch.h").read_text(encoding="utf-8")


def in_words(name):
    """A name of the header as Rust has it: NotAList for NOT_A_LIST."""
    return "".join(word.capitalize() for word in name.split("_"))


class Tables(unittest.TestCase):
    def made(self, call, document, patch):
        made = CALLS[call](json.loads(document), json.loads(patch))
        return [made[0], made[1].patch] if call == "record" else made

    def test_accepted(self):
        for call, document, patch, status, _, _, written in ROWS:
            if status == OK:
                with self.subTest(call=call, document=document, patch=patch):
                    # in the order of members, too
                    self.assertEqual(json.dumps(self.made(call, document, patch)), json.dumps(json.loads(written)))

    def test_refused(self):
        for call, document, patch, status, operation, kind, path in ROWS:
            if status != OK:
                with self.subTest(call=call, document=document, patch=patch):
                    name = KINDS[kind][0]
                    with self.assertRaises(JsonPatchException) as caught:
                        self.made(call, document, patch)
                    self.assertEqual(caught.exception.kind, name)
                    self.assertTrue(str(caught.exception).endswith(f" {_native.kind_text(kind)}"), caught.exception)
                    self.assertEqual(caught.exception.operation, None if name == "NotAList" else operation)
                    self.assertEqual(caught.exception.path, path if status == REFUSED else None)

    def test_inverses_lead_back(self):
        for call, document, patch, status, *_ in ROWS:
            if call == "record" and status == OK:
                with self.subTest(document=document, patch=patch):
                    made, inverse = record_patch(json.loads(document), json.loads(patch))
                    self.assertEqual(inverse.apply(made), json.loads(document))


class Header(unittest.TestCase):
    def numbers(self, title, end):
        """The constants that are declared under a title."""
        found = re.findall(r"JSON_PATCH_(\w+) = (\d+)", HEADER.partition(title)[2].partition(end)[0])
        return {name: int(number) for name, number in found}

    def test_kinds(self):
        found = {number: in_words(name) for name, number in self.numbers("What is at fault", "} json_patch_report").items()}
        del found[0]
        self.assertEqual(found, {number: name for number, (name, _) in KINDS.items()})

    def test_statuses(self):
        found = self.numbers("What came of a call", "What is at fault")
        self.assertEqual(len(found), 13)
        # want of memory or room, limits and flags are for the module alone
        for name in found.keys() - {"NO_MEMORY", "NO_ROOM", "BAD_LIMITS", "BAD_FLAGS"}:
            self.assertEqual(getattr(_native, name), found[name], name)

    def test_limits(self):
        most = dict(re.findall(r"#define JSON_PATCH_MOST_(\w+) (\d+)", HEADER))
        self.assertEqual(most, {"LEVELS": str(MOST_LEVELS), "BYTES": str(MOST_BYTES)})
        self.assertEqual(Limits(), Limits(MOST_LEVELS, MOST_BYTES))
        self.assertEqual(Limits(7, 2**70)._given, (7, 2**64 - 1, 2**64 - 1))
        self.assertEqual(Limits(7, 8, 9)._given, (7, 8, 9))

    def test_calls(self):
        """Each call is there, and takes what it has to: a text is bytes that stay as they are."""
        for name in re.findall(r"^json_patch_status json_patch_(\w+)\(", HEADER, re.MULTILINE):
            with self.subTest(name=name):
                call = getattr(_native, name)
                for given in ((), ("[]",), ("[]", "[]", (1, 2, 3)), (bytearray(b"[]"),), (bytearray(b"[]"), b"[]", (1, 2, 3))):
                    with self.assertRaises(TypeError):
                        call(*given)
