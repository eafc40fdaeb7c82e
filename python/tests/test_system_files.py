"""The JSON files that the system has, through each call: what isn't changed comes back equal, in its order."""
import copy
import json
import os
import random
import unittest
from pathlib import Path

from json_patch import (
    Document, JsonPatch, JsonPointer, NoMergePatch, apply_patch, apply_text, join_merge_patches, make_merge_patch, make_patch,
    merge_patch, merge_text, record_patch, resolve_pointer, resolve_text,
)
from json_patch._depth import is_deeper

ROOT, MOST_FILES, DEEPEST = "/usr", 500, 120
# the most bytes of a file, from how many it is a large one, and how many all large ones may have: they take the time
LARGEST, LARGE, MOST_OF_LARGE = 1_000_000, 16_000, 2_000_000
ADDED = "added by a test"


def files():
    """Such files in any order, the same one for the same files."""
    found = sorted(Path(folder) / name for folder, _, names in os.walk(ROOT) for name in names if name.endswith(".json"))
    random.Random(8259).shuffle(found)
    taken, left = [], MOST_OF_LARGE
    for path in found:
        size = path.stat().st_size if path.is_file() and os.access(path, os.R_OK) else LARGEST + 1
        counted = size if size > LARGE else 0
        if len(taken) < MOST_FILES and size <= LARGEST and counted <= left:
            taken.append(path)
            left -= counted
    return taken


def read(path):
    """The text of a file and what it says, or None, where that is nothing that both can read and write: some have
    comments."""
    try:
        text = path.read_text(encoding="utf-8")
        document = json.loads(text, parse_constant=int)
        json.dumps(document, allow_nan=False, ensure_ascii=False).encode()
    except (ValueError, RecursionError):
        return None
    return None if is_deeper(document, DEEPEST) else (text, document)


def way_to_leaf(document, chance):
    """The names and indexes on a way to what holds nothing."""
    while isinstance(document, (dict, list)) and document:
        part = chance.choice(list(document)) if isinstance(document, dict) else chance.randrange(len(document))
        yield part
        document = document[part]


def merged(target, patch):
    """RFC 7396, section 2."""
    if not isinstance(patch, dict):
        return patch
    made = dict(target) if isinstance(target, dict) else {}
    for name, value in patch.items():
        if value is None:
            made.pop(name, None)
        else:
            made[name] = merged(made.get(name), value)
    return made


def holds_null(value):
    """Whether a null stands in it, in objects alone: a merge patch puts none there."""
    return isinstance(value, dict) and any(it is None or holds_null(it) for it in value.values())


class Files(unittest.TestCase):
    def assertIs(self, made, wanted):
        """They are equal, and in order."""
        if json.dumps(made) != json.dumps(wanted):
            self.fail(f"{json.dumps(made)[:200]} isn't {json.dumps(wanted)[:200]}")

    def test_each(self):
        chance, count = random.Random(6902), 0
        for path in files():
            found = read(path)
            if not found:
                continue
            with self.subTest(path=path):
                count += 1
                self.kept(*found)
                pointer = JsonPointer.from_parts(way_to_leaf(found[1], chance)).path
                self.looked_at(*found, pointer)
                if isinstance(found[1], (dict, list)):
                    self.changed(*found, pointer)
        if not count:
            self.skipTest(f"{ROOT} has none")

    def assertSays(self, made, wanted):
        """They are equal, their members in any order."""
        self.assertIs(*(json.loads(json.dumps(it, sort_keys=True)) for it in (made, wanted)))

    def kept(self, text, document):
        """By what changes nothing."""
        self.assertIs(apply_patch(document, []), document)
        made, inverse = record_patch(document, "[]")
        self.assertIs([made, inverse.patch], [document, []])
        for kind in ({}, {"moves": True}, {"guarded": True}):
            self.assertIs(make_patch(document, document, **kind).patch, [])
        self.assertEqual(apply_text(text, "[]"), text)
        self.assertIs(merge_patch({"any": document}, {"other": None}), {"any": document})
        if isinstance(document, dict):
            self.assertIs(merge_patch(document, {}), document)
            self.assertEqual(merge_text(text, {ADDED: None}), text)
            self.assertIs(make_merge_patch(document, document), {})
            self.assertSays(join_merge_patches(document, {}), document)
            self.assertSays(join_merge_patches({}, document), document)

    def looked_at(self, text, document, pointer):
        wanted = resolve_pointer(document, pointer)
        self.assertIs(json.loads(resolve_text(text, pointer)), wanted)
        with Document.from_string(text) as opened:
            self.assertIs(opened.get(pointer), wanted)
            self.assertIs(opened.diff(document).patch, [])
            self.assertEqual(opened.to_string(), text)

    def changed(self, text, document, pointer):
        """A leaf is replaced, and a member or an element added at the end."""
        end = "/" + (ADDED if isinstance(document, dict) else "-")
        patch = JsonPatch([{"op": "add", "path": end, "value": [0.1, {"b": 1, "a": 1e300}]}, *([{"op": "replace", "path": pointer, "value": "é\n"}] if pointer else [])])
        wanted = apply_patch(copy.deepcopy(document), patch, in_place=True)
        made, inverse = patch.record(document)
        self.assertIs(made, wanted)
        self.assertIs(apply_patch(document, str(patch)), wanted)
        self.assertIs(inverse.apply(made), document)
        self.compared(document, made)
        self.kept_open(text, document, patch, wanted)
        if isinstance(document, dict):
            self.merged(document, made)

    def compared(self, document, made):
        for kind in ({}, {"moves": True}, {"guarded": True}):
            self.assertSays(make_patch(document, made, **kind).apply(document), made)
        back = make_patch(made, document)
        self.assertSays(back.apply(made), document)
        if all(operation["op"] == "remove" or isinstance(operation["value"], str) for operation in back):
            self.assertIs(back.apply(made), document)

    def kept_open(self, text, document, patch, wanted):
        """The same changes of the text, which is kept, and these taken back."""
        with Document.from_string(text) as opened:
            inverse = opened.record(patch)
            self.assertIs(json.loads(opened.to_string()), wanted)
            self.assertIs(inverse.apply(wanted), document)
            opened.undo()
            self.assertEqual(opened.to_string(), text)
            opened.apply(patch)
            self.assertIs(json.loads(opened.to_string()), wanted)
            opened.apply(opened.diff(document))
            self.assertSays(json.loads(opened.to_string()), document)
            if isinstance(document, dict):
                opened.merge({ADDED: [wanted]})
                self.assertSays(json.loads(opened.to_string()), {**document, ADDED: [wanted]})

    def merged(self, document, made):
        self.assertIs(merge_patch(document, {ADDED: 1}), {**document, ADDED: 1})
        self.assertIs(merge_patch({**document, ADDED: 1}, {ADDED: None}), document)
        patch = make_merge_patch(document, made)
        self.assertSays(merged(document, patch), made)
        self.assertSays(merge_patch(document, patch), made)
        self.assertRaises(NoMergePatch, make_merge_patch, document, {**document, ADDED: None})
        if holds_null(document):
            self.assertRaises(NoMergePatch, make_merge_patch, {}, document)
        else:
            self.assertSays(make_merge_patch({}, document), document)


if __name__ == "__main__":
    unittest.main()
