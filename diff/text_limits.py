#!/usr/bin/env python3
"""Random JSON texts, patched, recorded and merged within random small limits, through the library for C.

    diff/text_limits.py [--seed S] [--cases N]

c/build has to have built the library, which is called in this process. Texts and patches are those of
diff/texts.py, with more copies and moves, and the model is that of the bytes (`texts_model`): after each
operation it counts how deep the new text nests, how many bytes it has, and the inverse, and what the operations cost.
The limits of a case lie about where one of its operations would be over, mostly. The answer has to be the model's, byte by byte, or
name the operation that is refused or over, and why; and an inverse has to lead back to a text that says the same.
A text that is kept has to come to the same, and what is recorded to be taken back, byte for byte.
A merge of another text into each, which diff/merges.py makes without limits, has to come to the same within
them, or to be over where it is longer. The run fails where an answer is another, and where a kind of answer
never came."""
import argparse
import sys
from collections import Counter

import library
from library import MOST_BYTES, MOST_LEVELS, TOO_DEEP, TOO_MUCH
from texts import Texts
from texts_model import Refused, at_tokens, plain, read, recorded, step, stretch, tokens_of

KINDS = ("ok", "refused", f"over: {TOO_DEEP}", f"over: {TOO_MUCH}", "over by cost", "over where recorded", "document", "merge: ok", "merge: over",
         "merge: document", "merge: patch")
LARGE = 5_000


def levels(node):
    """How many objects and arrays are open at once, at most."""
    if node.kind not in ("object", "array"):
        return 0
    return 1 + max((levels(child) for *_, child in node.parts), default=0)


def size(text):
    return len(text.encode())


def size_at(text, pointer):
    return size(stretch(text, at_tokens(read(text), tokens_of(pointer))))


def cost_of(text, operation, put):
    """How many bytes an accepted operation copies, or a test reads of the text beyond those of its value."""
    if operation["op"] == "copy":
        return size_at(text, operation["from"])
    if operation["op"] == "test":
        return max(0, size_at(text, operation["path"]) - size(put))
    return 0


def states(text, operations):
    """After each operation, up to the one that is refused: the text, the inverse and what all cost."""
    now, cost = text, 0
    for number, (operation, put) in enumerate(operations):
        before, now = now, step(now, operation, put)
        cost += cost_of(before, operation, put)
        yield now, recorded(text, operations[: number + 1])[0][1], cost


class LimitedTexts(Texts):
    """Texts and patches with limits, the same for one seed."""

    def operation(self, text):
        operation, put = super().operation(text)
        if self.random.random() < 0.5 and size(text) < LARGE:
            operation, put = {"op": self.random.choice(("copy", "copy", "move")), "path": self.pointer(text), "from": self.pointer(text)}, None
            if self.random.random() < 0.7:
                operation["from"] = operation["from"].rpartition("/")[0] if self.random.random() < 0.4 else ""
        return operation, put

    def operations(self, text):
        made = []
        for _ in range(self.random.randrange(8)):
            made.append(self.operation(text))
            try:
                text = step(text, *made[-1])
            except Refused:
                if self.random.random() < 0.8:
                    made.pop()
        return made

    def costly(self):
        """A text with a long member, and operations that copy it, mostly over another, or test it by less."""
        count = self.random.randrange(50, 400)
        long, short = self.random.choice((('"' + "x" * count + '"', None), ("[" + " " * count + "1]", "[1]"), ("1." + "0" * count, "1"),
                                          ('{"a":[0],' + '"a":0,' * (count // 6) + '"a":2}', '{ "a":2}')))
        text = self.row("{}", ['"a":' + self.value(2), '"b":' + long])
        ways = [({"op": "copy", "path": path, "from": "/b"}, None) for path in ("/a", "/a", "/c")]
        ways += [({"op": "test", "path": "/b"}, short)] * 3 if short else []
        return text, [self.random.choice(ways) for _ in range(self.random.randrange(2, 8))]

    def next(self):
        if self.random.random() < 0.2:
            text, operations = self.costly()
        else:
            text = self.text(4)
            operations = self.operations(text)
        patch = self.written(operations)
        spare, deep = [0], [levels(read(text))]
        try:
            for now, back, cost in states(text, operations):
                spare += [max(0, bytes - size(text) - size(patch)) for bytes in (size(now), size(back), cost)]
                deep.append(levels(read(now)))
        except Refused:
            pass
        return text, operations, patch, self.about(deep, MOST_LEVELS), self.about(spare, MOST_BYTES)

    def about(self, counts, most):
        """One of the counts, or one more or less; or the largest limit."""
        if self.random.random() < 0.2:
            return most
        return min(most, max(0, self.random.choice((self.random.choice(counts), max(counts))) + self.random.choice((-1, -1, 0, 1))))


def expected(came, name, text, operations, patch, depth, spare):
    if levels(read(text)) > depth:
        return ("document", TOO_DEEP)
    most, made, number = size(text) + size(patch) + spare, (text, "[]"), -1
    try:
        for number, (*made, cost) in enumerate(states(text, operations)):
            if levels(read(made[0])) > depth:
                return ("over", number, TOO_DEEP)
            largest = max(map(size, made[: 1 + (name == "record")]))
            if max(largest, cost) > most:
                came["over by cost"] += largest <= most
                return ("over", number, TOO_MUCH)
    except Refused as refused:
        return ("refused", number + 1, operations[number + 1][0]["path"], str(refused))
    return ("ok", *made[: 1 + (name == "record")])


def merged(texts, text, depth):
    """A merge patch, the one of some that leaves the most bytes, limits, and what the merge comes to within them, by
    what it comes to without."""
    made = {patch: library.answer("merge", text, patch) for patch in (texts.text(3) for _ in range(4))}
    mores = {patch: max(0, size(left[1]) - size(text) - size(patch)) for patch, left in made.items()}
    patch = max(made, key=mores.get)
    limits = depth, texts.about([mores[patch]], MOST_BYTES)
    for named, it in (("document", text), ("patch", patch)):
        if levels(read(it)) > depth:
            return patch, limits, (named, TOO_DEEP)
    return patch, limits, ("over", 0, TOO_MUCH) if mores[patch] > limits[1] else made[patch]


def is_led_back(text, new, inverse, depth):
    """Whether the inverse leads to a text that says the same, within the same depth."""
    back = library.answer("apply", new, inverse, depth, sys.maxsize)
    return back[0] == "ok" and plain(read(back[1])) == plain(read(text))


def main():
    words = argparse.ArgumentParser(description=__doc__, formatter_class=argparse.RawDescriptionHelpFormatter)
    words.add_argument("--seed", type=int, default=1)
    words.add_argument("--cases", type=int, default=10_000)
    asked = words.parse_args()
    texts, came, wrong = LimitedTexts(asked.seed), Counter(), []
    for _ in range(asked.cases):
        text, operations, patch, *limits = texts.next()
        cases = {name: (patch, limits, expected(came, name, text, operations, patch, *limits)) for name in ("apply", "record")}
        cases["merge"] = merged(texts, text, limits[0])
        answers = [right for *_, right in cases.values()]
        came.update(f"over: {it[2]}" if it[0] == "over" else it[0] for it in answers[:2])
        came["over where recorded"] += answers[0][0] == "ok" and answers[1][0] == "over"
        came[f"merge: {answers[2][0]}"] += 1
        for name, (given, within, right) in cases.items():
            got = library.answer(name, text, given, *within)
            if got != right:
                wrong.append(f"{name} {text!r} {given!r} within {within}\n  wanted {right}\n  got    {got}")
            elif name == "record" and got[0] == "ok" and not is_led_back(text, *got[1:], within[0]):
                wrong.append(f"{name} {text!r} {given!r}: {got} doesn't lead back")
            of_kept = library.answer_of_kept(name, text, given, *within)
            if of_kept != right:
                wrong.append(f"{name} of a kept {text!r} {given!r} within {within}\n  wanted {right}\n  got    {of_kept}")
    for line in sorted(wrong, key=len)[:5]:
        print(f"WRONG: {line}")
    missing = [kind for kind in KINDS if not came[kind]]
    print(f"{asked.cases} texts within limits, seed {asked.seed}: {len(wrong)} wrong")
    print(", ".join(f"{count} {kind}" for kind, count in sorted(came.items())))
    if missing:
        print("never: " + ", ".join(missing))
    return 1 if wrong or missing else 0


if __name__ == "__main__":
    sys.exit(main())
