#!/usr/bin/env python3
"""Random JSON texts that the library for C keeps, under one change after another.

    diff/kept.py [--seed S] [--cases N]

c/build has to have built the library, which is called in this process. Texts and patches are those of diff/texts.py.
Each text, two in five of them an object of many members, two in three an element of arrays that are too long to stay
closed, and one in ten beside so many of them that they are closed again, is opened once and changed by thirty patches,
so many of which a case is: they are made or recorded, a third is refused by a test at a random place, and of two that
are recorded one is taken back. The answer, the inverse and the text that stands after each have to be the model's
(`texts_model`), byte by byte. The run fails where one isn't, and where a kind of change never came."""
import argparse
import sys
from collections import Counter

import library
from library import KEPT, OK, REFUSED, Handle, Report
from texts import Texts
from texts_model import patched, recorded

PATCHES = 30
LARGE = 20_000
NEVER = ({"op": "test", "path": ""}, '"never"')
KINDS = ("made", "recorded", "taken back", "refused", "refused behind an operation")


def patch_of(texts, now):
    """Some operations, most of them accepted, and in a third of the cases one that isn't."""
    operations, then = [], now
    for operation in (texts.operation(now) for _ in range(texts.random.randrange(6))):
        after, _ = patched(then, [operation])
        if after is not None or texts.random.random() < 0.1:
            operations.append(operation)
            then = after or then
    if texts.random.random() < 0.33:
        operations.insert(texts.random.randrange(len(operations) + 1), NEVER)
    return operations


def answer(handle, name, patch):
    """What the library says of a change: what the model says."""
    status, path, report = library.changed(handle, name, patch.encode())
    if status == REFUSED:
        return None, f"operation '/{report.operation}' failed at path '{path}': {library.kind_of(report)}"
    assert status == OK, status
    text, inverse = (library.written(KEPT[call], handle)[1] for call in ("text", "inverse"))
    return ([text, inverse] if name == "record" else text), None


def changed(texts, handle, now, came):
    """Makes a change of the kept text, which is `now`: the text then, and what is wrong, if something is."""
    operations, name = patch_of(texts, now), texts.random.choice(("apply", "record"))
    patch = texts.written(operations)
    wanted = (recorded if name == "record" else patched)(now, operations)
    got = answer(handle, name, patch)
    if got != wanted:
        return now, f"{name} {patch!r} on {now!r}\n  wanted {wanted}\n  got    {got}"
    if wanted[0] is None:
        came["refused"] += 1
        came["refused behind an operation"] += "'/0'" not in wanted[1]
        then = now
    elif name == "apply":
        came["made"] += 1
        then = wanted[0]
    elif texts.random.random() < 0.5:
        came["recorded"] += 1
        then = wanted[0][0]
    else:
        came["taken back"] += 1
        then = now
        assert KEPT["undo"](handle, Report()) == OK
    left = library.written(KEPT["text"], handle)[1]
    return then, None if left == then else f"{name} {patch!r} on {now!r}\n  has to leave {then!r}\n  leaves       {left!r}"


def long(texts):
    """A text, as it is or in one array or two, each with a string that makes it too long to stay closed; or beside
    arrays of which three open ones are so many elements that they are closed."""
    text, long_string = texts.wide() if texts.random.random() < 0.4 else texts.text(4), f'"{"x" * 1_100}"'
    if texts.random.random() < 0.1:
        arrays = [f"[{long_string}{', 1' * 150}]" for _ in range(4)]
        return f"[{', '.join([*arrays, text])}]"
    for _ in range(texts.random.randrange(3)):
        text = f"[{long_string}, {text}]"
    return text


def kept(texts, came, wrong):
    """One text and the changes of it. How many they are."""
    now, handle = long(texts), Handle()
    assert KEPT["open"](handle, now.encode(), len(now.encode()), None, Report()) == OK
    for number in range(PATCHES):
        now, what = changed(texts, handle, now, came)
        if what:
            wrong.append(what)
        if what or len(now) > LARGE:
            break
    KEPT["close"](handle)
    return number + 1


def main():
    words = argparse.ArgumentParser(description=__doc__, formatter_class=argparse.RawDescriptionHelpFormatter)
    words.add_argument("--seed", type=int, default=1)
    words.add_argument("--cases", type=int, default=10_000)
    asked = words.parse_args()
    texts, came, wrong, done = Texts(asked.seed), Counter(), [], 0
    while done < asked.cases:
        done += kept(texts, came, wrong)
    for line in sorted(wrong, key=len)[:5]:
        print(f"WRONG: {line}")
    missing = [kind for kind in KINDS if not came[kind]]
    print(f"{done} changes of kept texts, seed {asked.seed}: {len(wrong)} wrong")
    print(", ".join(f"{count} {kind}" for kind, count in sorted(came.items())))
    if missing:
        print("never: " + ", ".join(missing))
    return 1 if wrong or missing else 0


if __name__ == "__main__":
    sys.exit(main())
