#!/usr/bin/env python3
"""Random JSON texts, merged in place, through the library for C, against a model (`merges_model`).

    diff/merges.py [--seed S] [--cases N] [--spoil]

c/package has to have built the package, which is called in this process. The texts are those of diff/texts.py,
and so are the values in the merge patches, which name members that are there and others, remove, replace and
merge into them, and write values again that stand there already. Each answer has to say what RFC 7396 says,
and keep each byte that the patch doesn't name. In one case of eight a byte of the text or of the patch is
changed or cut off: if that isn't JSON any more, it has to be refused as the one at fault. The run fails where
one of this doesn't hold, and where something that may happen to a member never came. RFC 7396's own examples
go before. With `--spoil` a byte of each new text is changed before it is looked at: then it fails where one
isn't found out."""
import argparse
import sys
from collections import Counter
from pathlib import Path

from merges_model import EXAMPLES, is_merged, value_of
from texts import NAMES, Texts
from texts_model import read

TOP = Path(__file__).resolve().parent.parent
sys.path.append(str(TOP / "c/out/python"))
import json_patch  # noqa: E402
from json_patch._calls import merged  # noqa: E402

KINDS = ("removed", "removed nothing", "merged into", "put in for an object", "put in for another", "same", "replaced", "new", "new object",
         "no object", "broken text", "broken patch", "changed, and still JSON", "unchanged")


class Merges(Texts):
    """Texts and merge patches, the same for one seed."""

    def __init__(self, seed):
        super().__init__(seed)
        self.came = Counter()

    def member_value(self, text, node):
        """What a patch says of a member: of one that is there, its node, or else None."""
        chance = self.random.random()
        if chance < 0.25:
            self.came["removed" if node else "removed nothing"] += 1
            return "null"
        if node and node.kind == "object" and chance < 0.7:
            self.came["merged into"] += 1
            return self.patch_for(text, node)
        if node and chance < 0.4:
            self.came["same"] += 1
            return text[node.start:node.end]
        value = self.value(self.random.choice((0, 0, 1, 2, 3)))
        is_object = value.startswith("{")
        if not node:
            self.came["new object" if is_object else "new"] += 1
        elif is_object:
            self.came["put in for an object" if node.kind == "object" else "put in for another"] += 1
        else:
            self.came["replaced"] += 1
        return value

    def patch_for(self, text, node):
        """An object that names some members of another, and some that it hasn't."""
        there = {said: child for _, said, _, child in node.parts}
        names = [name for name in there if self.random.random() < 0.5]
        names += [self.random.choice(NAMES) for _ in range(self.random.choice((0, 0, 1, 2)))]
        self.random.shuffle(names)
        return self.row("{}", [
            self.string(name) + self.whitespace() + ":" + self.whitespace() + self.member_value(text, there.get(name)) for name in names])

    def next(self):
        """A text, a merge patch, and whether a byte of one is changed or cut off."""
        text = self.text(4)
        if self.random.random() < 0.7:
            text = self.whitespace() + self.row("{}", [self.string(name) + ":" + self.whitespace() + self.value(3) for name in self.names()]) + self.whitespace()
        whole = read(text)
        if whole.kind == "object" and self.random.random() < 0.9:
            patch = self.whitespace() + self.patch_for(text, whole) + self.whitespace()
        else:
            patch = self.text(3)
            self.came["no object"] += read(patch).kind != "object"
        if self.random.random() >= 0.125:
            return text, patch, False
        return (self.broken(text), patch, True) if self.random.random() < 0.5 else (text, self.broken(patch), True)

    def names(self):
        return [self.random.choice(NAMES) for _ in range(self.random.randrange(6))]


def answer(text, patch):
    """The new text, or which text is at fault."""
    try:
        return merged(text.encode(), patch.encode(), json_patch.Limits()).decode()
    except json_patch.InvalidJsonPatch:
        return "broken patch", None
    except json_patch.JsonPatchException:
        return "broken text", None


def fault(text, patch):
    """Which text isn't JSON, or None."""
    for told, given in (("broken text", text), ("broken patch", patch)):
        try:
            value_of(given)
        except ValueError:
            return told
    return None


def is_right(text, patch, got, came):
    told = fault(text, patch)
    if told or isinstance(got, tuple):
        came[told] += 1
        return got == (told, None)
    came["unchanged"] += got == text
    return is_merged(text, patch, got)


def spoilt(chance, got):
    """The new text with one of its bytes changed."""
    at = chance.randrange(len(got))
    return got[:at] + ("x" if got[at] != "x" else "y") + got[at + 1:]


def is_found_out(text, patch, new):
    try:
        return not is_merged(text, patch, new)
    except ValueError:
        return True


def asked_for():
    words = argparse.ArgumentParser(description=__doc__, formatter_class=argparse.RawDescriptionHelpFormatter)
    words.add_argument("--seed", type=int, default=1)
    words.add_argument("--cases", type=int, default=20_000)
    words.add_argument("--spoil", action="store_true")
    return words.parse_args()


def main():
    asked = asked_for()
    merges, wrong = Merges(asked.seed), 0
    came = merges.came
    for text, patch, said in EXAMPLES:
        assert value_of(answer(text, patch)) == value_of(said) and is_merged(text, patch, said), (text, patch)
    for _ in range(asked.cases):
        text, patch, is_broken = merges.next()
        got = answer(text, patch)
        right = is_right(text, patch, got, came)
        came["changed, and still JSON"] += is_broken and isinstance(got, str)
        if asked.spoil:
            right = isinstance(got, tuple) or is_found_out(text, patch, spoilt(merges.random, got))
        if not right:
            wrong += 1
            if wrong <= 5:
                print(f"WRONG: {text!r} with {patch!r}\n  got {got!r}")
    missing = [kind for kind in KINDS if not came[kind]]
    print(f"{asked.cases} texts merged, seed {asked.seed}: {wrong} " + ("spoilt ones not found out" if asked.spoil else "wrong"))
    print(", ".join(f"{count} {kind}" for kind, count in sorted(came.items(), key=str)))
    if missing:
        print("never: " + ", ".join(missing))
    return 1 if wrong or missing else 0


if __name__ == "__main__":
    sys.exit(main())
