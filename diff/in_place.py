#!/usr/bin/env python3
"""Random patches, made in place on Python's objects, against the library for C.

    diff/in_place.py [--seed S] [--cases N]

c/package has to have built the package, which is called in this process. Of four cases three have the random
small limits, mostly about where one of its operations would be over: which is told by diff/limits_model.py. One
has numbers of any kind. What the library leaves has to be what stands in the object afterwards, which is the same
one; it has to have its members in their order, as the text has them, where the patch adds no name that it
removed, and to share no list or dict with the patch. What the library refuses has to be refused with the same
exception, and each list and dict of the object has to hold what it held, in the same order. The run fails where one
of this doesn't hold, and where a kind of case never came."""
import argparse
import json
import sys
from collections import Counter
from pathlib import Path

from cases import Cases
from limits_model import LimitsModel, levels, size
from limits_tables import faults as faults_of_model
from model import Refused, copied, tokens_of

TOP = Path(__file__).resolve().parent.parent
sys.path.append(str(TOP / "c/out/python"))
import json_patch  # noqa: E402

LARGE = 10_000
# within these the library never is over
ENOUGH = json_patch.Limits(bytes=2**63)
SAYS = {"TooDeep": "nests too deep", "TooMuch": "takes too much"}
KINDS = ("made", "made in order", "refused", "over TooDeep", "over TooMuch", "deep document", "numbers made", "numbers refused")
# Those of a line are one number, as json.dumps writes them, and those of two lines aren't: as a double, 2**63 is
# written as 9223372036854775808.0 isn't.
NUMBERS = (
    (0, 0.0, -0.0), (1, 1.0), (1.5,), (0.1,), (0.30000000000000004,), (1e23, 10**23), (int(1e23),), (2**63,),
    (float(2**63), 9223372036854776000), (1e300, 10**300), (2**53 + 1,), (float(2**53), 2**53), (5e-324,), (-1, -1.0),
)


class LimitedCases:
    """Cases with limits, the same for one seed."""

    def __init__(self, seed):
        self.cases, self.model = Cases(seed), LimitsModel()
        self.random = self.cases.random

    def next(self):
        make = self.random.choice([self.cases.patch_case, self.cases.dense_case, self.nesting_case])
        document, operations = make()
        reached, much = self.profile(document, operations)
        least = levels(document)
        depth = self.about([max(least, reach) for reach in (0, *reached)], 124)
        return document, operations, json_patch.Limits(depth, self.about(much, json_patch.Limits().bytes))

    def nesting_case(self):
        """A list of copies and moves from places near the root to any, until the document is large."""
        def operation(state):
            name = self.random.choice(["copy", "copy", "move", "add"]) if size(state) < LARGE else "remove"
            near = lambda: self.cases.way(state)[0][: self.random.randrange(4)]
            return self.cases.operation_at(state, name, near, lambda: self.cases.target(state))

        return self.cases.list_on(self.cases.value(), self.random.randrange(20), 0.05, operation)

    def profile(self, document, operations):
        """How deep each operation reaches, and how much is copied by its end, up to one that is refused."""
        state, reached, much = copied(document), [], [0]
        for operation in operations:
            reached.append(self.model.reach(state, operation))
            much.append(much[-1] + self.model.copies(state, operation, recorded=False))
            try:
                state = self.model.model.step(state, operation)
            except Refused:
                break
        return reached, much

    def about(self, counts, most):
        """One of the counts, or one more or less; or the largest limit."""
        if self.random.random() < 0.2:
            return most
        return min(most, max(0, self.random.choice(counts) + self.random.choice([-1, 0, 0, 1])))


class NumberCases:
    """Cases of whose values many are numbers of any kind, the same for one seed."""

    def __init__(self, seed):
        self.cases = Cases(seed)
        self.random = self.cases.random

    def next(self):
        document, operations = self.random.choice([self.cases.patch_case, self.cases.dense_case])()
        lines = {}
        return self.numbered(document, lines), [
            {name: self.numbered(member, lines) if name == "value" else member for name, member in operation.items()}
            for operation in operations
        ]

    def numbered(self, value, lines):
        """The value with other atoms: equal ones mostly become one number, in any of its ways."""
        if isinstance(value, dict):
            return {name: self.numbered(member, lines) for name, member in value.items()}
        if isinstance(value, list):
            return [self.numbered(item, lines) for item in value]
        line = lines.setdefault(json.dumps(value), self.random.choice(NUMBERS))
        return value if self.random.random() < 0.02 else self.random.choice(line)


def containers(value):
    """Each list and dict that is held, with what it holds, in order."""
    found, left = [], [value]
    for value in left:
        if isinstance(value, (dict, list)):
            held = list(value.items() if isinstance(value, dict) else enumerate(value))
            found.append((value, held))
            left.extend(item for _, item in held)
    return found


def is_as_before(found):
    return all(
        [(name, id(item)) for name, item in (value.items() if isinstance(value, dict) else enumerate(value))]
        == [(name, id(item)) for name, item in held]
        for value, held in found
    )


def outcome(call):
    """What a call returns, and what it raises, of which one is None."""
    try:
        return call(), None
    except (json_patch.JsonPatchException, json_patch.JsonPointerException) as error:
        return None, error


def told(error):
    return error and (type(error), str(error), vars(error))


def adds_again(operations):
    """Whether a name may be added that was removed, by the last tokens alone."""
    last = lambda pointer: tokens_of(pointer)[-1:]
    removed = [last(operation["path" if operation["op"] == "remove" else "from"]) for operation in operations if operation["op"] in ("remove", "move")]
    return any(last(operation["path"]) in removed for operation in operations if operation["op"] in ("add", "copy", "move"))


def faults(document, operations, wanted, wanted_error, call):
    """What is wrong with the change in place; `wanted` is the library's answer, by its text."""
    obj, patch = copied(document), copied(operations)
    before = containers(obj)
    made, error = outcome(lambda: call(obj, patch))
    if told(error) != told(wanted_error):
        yield f"{error!r}, and not {wanted_error!r}"
        return
    if json.dumps(patch) != json.dumps(operations):
        yield f"the patch is {patch}"
    if error:
        if not is_as_before(before):
            yield f"what was refused left {obj}"
        return
    if json.dumps(made, sort_keys=True) != json.dumps(wanted, sort_keys=True):
        yield f"{made}, and not {wanted}"
    if type(made) is type(obj) and isinstance(obj, (dict, list)) and made is not obj:
        yield "another object"
    found = [id(value) for value, _ in containers(made)]
    if len(set(found)) < len(found) or set(found) & {id(value) for value, _ in containers(patch)}:
        yield "a list or dict stands at two places"


def over(document, operations, limits):
    """The exception of the operation that the model says is over, if one is."""
    told = LimitsModel().answer(document, operations, limits.depth, limits.bytes, recorded=False)
    if told[0] != "over":
        return None
    _, number, kind = told
    path = operations[number]["path"]
    message = f"operation {number} at path {path!r} is over the limits: it {SAYS[kind]}"
    return json_patch.OverLimit(message, operation=number, kind=kind, path=path)


def of_limits(case, counts):
    """Compares within limits. The text's answer tells the order."""
    document, operations, limits = case
    if levels(document) > limits.depth:
        counts["deep document"] += 1
        return
    wanted, error = None, over(document, operations, limits)
    if not error:
        wanted, error = outcome(lambda: json_patch.apply_patch(document, operations, limits=ENOUGH))
    counts["over " + error.kind if isinstance(error, json_patch.OverLimit) else "refused" if error else "made"] += 1
    call = lambda obj, patch: json_patch.JsonPatch(patch).apply(obj, in_place=True, limits=limits)
    yield from faults(document, operations, wanted, error, call)
    if not error and not adds_again(operations):
        counts["made in order"] += 1
        in_order, made = json_patch.apply_patch(document, operations), in_place(copied(document), operations)
        if isinstance(made, dict) == isinstance(document, dict) and json.dumps(made) != json.dumps(in_order):
            yield f"in the order of {json.dumps(made)}, and not {json.dumps(in_order)}"


def of_numbers(case, counts):
    """Compares with the call from object to object. Of a text the values are new, and their numbers its own."""
    document, operations = case
    wanted, error = outcome(lambda: json_patch.apply_patch(document, operations))
    counts["numbers refused" if error else "numbers made"] += 1
    for patch in (operations, json_patch.JsonPatch(operations), json.dumps(operations)):
        call = lambda obj, operations: in_place(obj, operations if patch is operations else patch)
        yield from faults(document, operations, wanted, error, call)


def in_place(obj, patch):
    return json_patch.apply_patch(obj, patch, in_place=True)


def main():
    words = argparse.ArgumentParser()
    words.add_argument("--seed", type=int, default=1)
    words.add_argument("--cases", type=int, default=2_000)
    asked = words.parse_args()
    limited, numbered = LimitedCases(asked.seed), NumberCases(asked.seed)
    counts, wrong = Counter(), list(faults_of_model(LimitsModel()))
    for number in range(asked.cases):
        compare, cases = (of_numbers, numbered) if number % 4 == 3 else (of_limits, limited)
        case = cases.next()
        wrong += [f"{json.dumps(case[:2])}: {line}" for line in compare(case, counts)]
    wrong += [f"no case is {kind}" for kind in KINDS if not counts[kind]]
    for line in sorted(wrong, key=len)[:5]:
        print(f"WRONG: {line}")
    said = ", ".join(f"{counts[kind]} {kind}" for kind in KINDS)
    print(f"diff/in_place.py: seed {asked.seed}, {asked.cases} patches: {said}; {len(wrong)} wrong")
    return 1 if wrong else 0


if __name__ == "__main__":
    sys.exit(main())
