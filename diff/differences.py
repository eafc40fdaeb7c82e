#!/usr/bin/env python3
"""Random pairs of documents, and the patch that leads from one to the other.

    diff/differences.py [--seed S] [--pairs N] --ours PROGRAM --rust PROGRAM [--spoil FAULT]

PROGRAM is that of diff/differences.rt.txt, which `diff/build FOLDER json_patch_differences
diff/differences.rt.txt json_patch_diff json_patch_moves json_merge_diff` proves and builds; the second one that of
diff/run.py round the Rust crate. Each patch is made on the first document by `patch` here, by the Rust
crate and by Python's jsonpatch, and all have to leave the second document, but that jsonpatch refuses to
replace a member whose name is `-`. It has no operation exactly where the documents are equal, adds, removes
and replaces alone, has at most as many operations as both documents have values, and no more bytes than the
replacement of the whole. The patch of `guarded_diff` has to be the same with a test before each removal and
replacement, to lead there too, and to be accepted by the Rust crate on a third document exactly where
`beside` says so by the definition. That of `moving_diff` has to lead there, with no `copy` and no `test`,
and with no more operations and no more bytes than that of `diff`. The run fails where one of this doesn't
hold, and where a kind of pair, of operation or of answer never came. With `--spoil` the patches are spoilt
before anyone looks at them, in one of the ways of FAULTS, or each in turn for `all`: then it fails where
one isn't found out."""
import argparse
import sys
from collections import Counter

from cases import NAMES, Cases
from model import Model, Refused, copied, same, tokens_of
from run import BATCH, HERE, answers, meaning, text

PYTHON = ["/usr/bin/python3", f"{HERE}/python_peer.py"]
SIDES = ("patch here", "the Rust crate", "jsonpatch")
KINDS = ("two of their own", "a few places changed", "rows moved about", "arrays of few elements", "members renamed")


class Pairs:
    """Pairs of documents, the same for one seed."""

    def __init__(self, seed):
        self.cases = Cases(seed)
        self.random = self.cases.random

    def next(self):
        kind = self.random.choice(KINDS)
        make = (self.apart, self.changed, self.rows, self.few, self.renamed)[KINDS.index(kind)]
        before, after = make()
        return kind, (before, after) if self.random.random() < 0.5 else (after, before)

    def third(self, pair):
        """A document that is like the first, mostly."""
        document = copied(pair[self.random.random() < 0.1])
        for _ in range(self.random.randrange(3)):
            _, document = self.cases.after(document, self.cases.operation(document))
        return document

    def apart(self):
        return self.cases.value(), self.cases.value()

    def changed(self):
        """A document, and what accepted operations leave of it."""
        document = self.cases.value()
        after = copied(document)
        for _ in range(self.random.randrange(6)):
            _, after = self.cases.after(after, self.cases.operation(after))
        return document, after

    def row(self):
        names = self.random.sample(NAMES, 3)
        return {name: self.cases.value(1) for name in names} if self.random.random() < 0.6 else self.cases.value(1)

    def rows(self):
        """A list, and the list with rows put in, taken away, changed and moved."""
        rows = [self.row() for _ in range(self.random.randrange(9))]
        after = copied(rows)
        for _ in range(self.random.randrange(1, 5)):
            self.shift(after)
        tokens = [self.random.choice(NAMES) for _ in range(self.random.randrange(3))]
        return self.under(tokens, rows), self.under(tokens, after)

    def shift(self, rows):
        place = self.random.randrange(len(rows) + 1)
        way = self.random.choice(["add", "again", "remove", "change", "move", "shuffle"])
        if way == "add" or not rows:
            rows.insert(place, self.row())
        elif way == "again":
            rows.insert(place, copied(self.random.choice(rows)))
        elif way == "remove":
            del rows[min(place, len(rows) - 1)]
        elif way == "change":
            rows[min(place, len(rows) - 1)] = self.row()
        elif way == "move":
            rows.insert(min(place, len(rows) - 1), rows.pop(self.random.randrange(len(rows))))
        else:
            self.random.shuffle(rows)

    def under(self, tokens, value):
        for token in tokens:
            value = {token: value, "beside": "what stays"}
        return value

    def few(self):
        """Two arrays of elements of which most come again and again."""
        atoms = self.random.sample([None, 0, 1, "", "a", [], {}, [0], {"": 0}], 3)
        return [[copied(self.random.choice(atoms)) for _ in range(self.random.randrange(12))] for _ in range(2)]

    def renamed(self):
        """An object, and the object with other names for some members and other values for some."""
        before = {name: self.cases.value(2) for name in self.random.sample(NAMES, self.random.randrange(1, 8))}
        after = {}
        for name, value in before.items():
            roll = self.random.random()
            if roll < 0.2:
                after[self.random.choice(NAMES)] = copied(value)
            elif roll < 0.3:
                after[name] = self.cases.value(1)
            elif roll < 0.9:
                after[name] = copied(value)
        return before, after


def values(document):
    """How many values there are in a document, itself one of them."""
    parts = document.values() if isinstance(document, dict) else document if isinstance(document, list) else ()
    return 1 + sum(map(values, parts))


def size(value):
    return len(text(value).encode())


def faults(pair, patch):
    """What of the promises doesn't hold of the patch between two documents."""
    before, after = pair
    whole = [{"op": "replace", "path": "", "value": after}]
    if (not patch) != same(before, after):
        yield "empty, or not"
    if any(operation["op"] not in ("add", "remove", "replace") for operation in patch):
        yield "another operation"
    if len(patch) > values(before) + values(after):
        yield "too many operations"
    if size(patch) > size(whole):
        yield "too many bytes"


def move_faults(patch, changes):
    """What doesn't hold of the patch with moves, beside the one without."""
    if any(operation["op"] not in ("add", "remove", "replace", "move") for operation in patch):
        yield "moving: another operation"
    if len(patch) > len(changes):
        yield "moving: more operations"
    if size(patch) > size(changes):
        yield "moving: more bytes"


def unguarded(patch):
    return [operation for operation in patch if operation["op"] != "test"]


def guard_faults(pair, patch, changes):
    """What doesn't hold of the patch with tests, beside the one without."""
    if unguarded(patch) != changes:
        yield "other changes"
    takes = [operation["op"] in ("remove", "replace") for operation in patch]
    tests = [operation["op"] == "test" for operation in patch]
    if tests != [*takes[1:], False][: len(patch)] or any(
        operation["path"] != following["path"] for operation, following in zip(patch, patch[1:]) if operation["op"] == "test"
    ):
        yield "a test that is missing, or at another place"


def beside(document, other, changes):
    """What the changes leave of the other document, if it has what the first has wherever they take
    something; else nothing."""
    model, document, other = Model(), copied(document), copied(other)
    for operation in changes:
        tokens = tokens_of(operation["path"])
        try:
            if operation["op"] != "add" and not same(model.found(document, tokens), model.found(other, tokens)):
                return ("refused",)
            document, other = model.step(document, operation), model.step(other, operation)
        except Refused:
            return ("refused",)
    return ("ok", other)


def dash(patch, answer):
    """jsonpatch refuses to replace a member whose name is `-` (diff/classes.py)."""
    return answer[0] == "refused" and patch[answer[1]]["op"] == "replace" and patch[answer[1]]["path"].endswith("/-")


# ---- patches that are spoilt

def drops_last(patch):
    return patch[:-1]


def turned_round(patch):
    return patch[::-1]


def twice(patch):
    return patch[:1] + patch


def one_further(patch):
    """The last index of the last operation is one more."""
    *first, last = patch
    front, _, token = last["path"].rpartition("/")
    return [*first, {**last, "path": f"{front}/{int(token) + 1}"}] if token.isdigit() else patch


def unescaped(patch):
    return [{**operation, "path": operation["path"].replace("~1", "/")} for operation in patch]


def null_for_value(patch):
    *first, last = patch
    return [*first, {**last, "value": None}] if last.get("value") is not None else patch


def tests_later(patch):
    """Each test and what follows it change places."""
    spoilt = list(patch)
    for place, operation in enumerate(patch):
        if operation["op"] == "test":
            spoilt[place : place + 2] = spoilt[place : place + 2][::-1]
    return spoilt


def untested(patch):
    return patch[1:] if patch[0]["op"] == "test" else patch


FAULTS = {fault.__name__: fault for fault in (drops_last, turned_round, twice, one_further, unescaped, null_for_value, tests_later, untested)}


class Tally:
    def __init__(self):
        self.kinds, self.operations, self.wrong, self.led = Counter(), Counter(), [], Counter()
        self.beside, self.dashes = Counter(), 0
        self.moving = Counter()

    def look(self, kind, pair, patch, left):
        """The patch between two documents, and what each implementation left of the first."""
        self.kinds[kind] += 1
        self.operations.update(operation["op"] for operation in patch)
        told = list(faults(pair, patch))
        for name, answer in left.items():
            if answer[0] == "ok" and same(answer[1], pair[1]):
                self.led[name] += 1
            elif name == "jsonpatch" and dash(patch, answer):
                self.dashes += 1
            else:
                told.append(f"{name}: {answer}")
        if told:
            self.wrong.append((pair, patch, told))

    def look_guarded(self, pair, changes, patch, left, third, right, answer):
        """The patch with tests, what each left of the first document, and what the third document
        should become and became."""
        told = list(guard_faults(pair, patch, changes))
        for name, found in left.items():
            led = found[0] == "ok" and same(found[1], pair[1])
            if not led and not (name == "jsonpatch" and dash(patch, found)):
                told.append(f"guarded, {name}: {found}")
        self.beside[right[0]] += 1
        if answer[0] != right[0] or (right[0] == "ok" and not same(answer[1], right[1])):
            told.append(f"beside {text(third)}: {answer}, not {right}")
        if told:
            self.wrong.append((pair, patch, told))

    def look_moving(self, pair, changes, patch, left):
        """The patch with moves beside the one without, and what each left of the first document."""
        told = list(move_faults(patch, changes))
        for name, found in left.items():
            led = found[0] == "ok" and same(found[1], pair[1])
            if not led and not (name == "jsonpatch" and dash(patch, found)):
                told.append(f"moving, {name}: {found}")
        self.moving["patches"] += any(operation["op"] == "move" for operation in patch)
        self.moving["moves"] += sum(operation["op"] == "move" for operation in patch)
        self.moving["operations"] += len(changes) - len(patch)
        self.moving["bytes"] += size(changes) - size(patch)
        if told:
            self.wrong.append((pair, patch, told))

    def faults(self):
        never = [f"no pair is {kind}" for kind in KINDS if not self.kinds[kind]]
        never += [f"no operation is {name}" for name in ("add", "remove", "replace") if not self.operations[name]]
        never += [] if self.moving["moves"] else ["no operation is move"]
        return never + [f"no third document is {name}" for name in ("ok", "refused") if not self.beside[name]]


def made(ours, mode, lines, spoil):
    """The patches of the pairs, and what each leaves of the first document here."""
    told = [meaning(line) for line in answers([ours, mode], lines)]
    for line, answer in zip(lines, told):
        if answer[0] != "ok":
            sys.exit(f"{mode}: {line}: {answer}")
    return [spoil(answer[1][0]) if answer[1][0] else [] for answer in told], [("ok", answer[1][1]) for answer in told]


def compared(seed, count, ours, rust, spoil=lambda patch: patch):
    """The tally of that many pairs."""
    pairs, tally, done = Pairs(seed), Tally(), 0
    by_crate = lambda runs: list(map(meaning, answers([rust, "patch"], list(map(text, runs)))))
    by_python = lambda runs: list(map(meaning, answers(PYTHON, list(map(text, runs)))))
    while done < count:
        kinds, batch = zip(*[pairs.next() for _ in range(min(BATCH, count - done))])
        thirds = [pairs.third(pair) for pair in batch]
        lines = list(map(text, batch))
        patches, here = made(ours, "diff", lines, spoil)
        runs = [[before, patch] for (before, _), patch in zip(batch, patches)]
        for kind, pair, patch, *left in zip(kinds, batch, patches, here, by_crate(runs), by_python(runs)):
            tally.look(kind, pair, patch, dict(zip(SIDES, left)))
        guarded, here = made(ours, "guarded", lines, spoil)
        runs = [[before, patch] for (before, _), patch in zip(batch, guarded)]
        left = [dict(zip(SIDES, each)) for each in zip(here, by_crate(runs), by_python(runs))]
        right = [beside(before, third, unguarded(patch)) for (before, _), third, patch in zip(batch, thirds, guarded)]
        told = by_crate([[third, patch] for third, patch in zip(thirds, guarded)])
        for each in zip(batch, patches, guarded, left, thirds, right, told):
            tally.look_guarded(*each)
        moving, here = made(ours, "moving", lines, spoil)
        runs = [[before, patch] for (before, _), patch in zip(batch, moving)]
        for pair, changes, patch, *left in zip(batch, patches, moving, here, by_crate(runs), by_python(runs)):
            tally.look_moving(pair, changes, patch, dict(zip(SIDES, left)))
        done += len(batch)
    return tally


def spoilt(asked):
    """Each fault has to be found out."""
    names = list(FAULTS) if asked.spoil == "all" else [asked.spoil]
    missed = []
    for name in names:
        tally = compared(asked.seed, asked.pairs, asked.ours, asked.rust, FAULTS[name])
        print(f"{name}: {len(tally.wrong)} patches of {asked.pairs} pairs found out", flush=True)
        missed += [] if tally.wrong else [name]
    return 1 if missed else 0


def main():
    words = argparse.ArgumentParser()
    words.add_argument("--seed", type=int, default=1)
    words.add_argument("--pairs", type=int, default=2_000)
    words.add_argument("--ours", required=True)
    words.add_argument("--rust", required=True)
    words.add_argument("--spoil", choices=["all", *FAULTS])
    asked = words.parse_args()
    if asked.spoil:
        sys.exit(spoilt(asked))
    tally = compared(asked.seed, asked.pairs, asked.ours, asked.rust)
    for pair, patch, told in sorted(tally.wrong, key=lambda found: len(text(found[0])))[:5]:
        print(f"WRONG: {text(pair)}: {text(patch)}: {told}")
    for line in tally.faults():
        print(f"WRONG: {line}")
    print(f"diff/differences.py: seed {asked.seed}, {asked.pairs} pairs: " + ", ".join(f"{tally.kinds[kind]} {kind}" for kind in KINDS))
    print("operations: " + ", ".join(f"{count} {name}" for name, count in sorted(tally.operations.items())))
    print(f"with moves: {tally.moving['patches']} patches have {tally.moving['moves']}, in all {tally.moving['operations']} operations and {tally.moving['bytes']} bytes less")
    print(f"third documents: {tally.beside['ok']} accept the patch with tests, {tally.beside['refused']} refuse it")
    print("led to the second document: " + ", ".join(f"{count} by {name}" for name, count in tally.led.items()) + f"; {tally.dashes} refused by jsonpatch for a member named `-`; {len(tally.wrong)} wrong")
    sys.exit(1 if tally.wrong or tally.faults() else 0)


if __name__ == "__main__":
    main()
