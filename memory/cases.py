"""The calls whose requests for memory are refused, and what they have to answer and to leave."""
import json
from collections import namedtuple

from patches import (
    ARTICLE, ARTICLE_MERGE, ARTICLE_MERGED, NAMES, NAMES_PATCH, VECTORS,
    add, compact, copy, indented, move, pointer, printed, printed_patch, remove, replace, test,
)
from refusals import MEMORY
from states import worked

NOT_FOUND = "path is invalid"

# A call of the program json_patch_memory: its line in the table that is printed, its arguments, what
# the program writes with ample memory, and each thing that it may write out of memory.
# `requests` is the number of requests, where it is known, and `at_least` a bound on it.
Call = namedtuple("Call", "line arguments answer short requests at_least", defaults=[None, 0])

# A run of json_patch_tool: its mode, its input, and its status, line and fault with ample memory.
ToolRun = namedtuple("ToolRun", "line mode input status output fault")

# A bound on the requests that fall into a call on a large document.
Bound = namedtuple("Bound", "line arguments answer fewer_than")


def left(answer, state):
    """What the program writes: an answer, and what the call leaves."""
    return f"{answer} leaves {state}\n"


class Run:
    """A list of operations on a document, with the states that it passes through, and the patch
    that leads back or the text of the refusal after the last of those states."""

    def __init__(self, states, operations, inverse=None, refusal=None):
        self.states = [compact(state) for state in states]
        self.operations = operations
        self.inverse = inverse
        self.refusal = refusal

    def arguments(self, call):
        return [call, self.states[0], compact(self.operations)]


def refusal(number, path, reason):
    return f"operation '/{number}' failed at path '{path}': {reason}"


RUNS = {
    "a test and an add": Run(
        [NAMES, NAMES, [{"happy": True, "name": "Andrew"}, {"name": "Maxim"}]],
        NAMES_PATCH,
        inverse=[remove("/0/happy")],
    ),
    "the whole document replaced": Run(
        [None, {"title": "Hello!"}],
        [replace("", {"title": "Hello!"})],
        inverse=[replace("", None)],
    ),
    "numbers put in before items": Run(
        [
            [1, 2, 3],
            [1, 10, 2, 3],
            [11, 1, 10, 2, 3],
            [11, 1, 10, 2, 12, 3],
            [11, 1, 13, 10, 2, 12, 3],
            [11, 1, 13, 10, 2, 12, 14, 3],
            [11, 1, 13, 15, 10, 2, 12, 14, 3],
        ],
        [add("/1", 10), add("/0", 11), add("/4", 12), add("/2", 13), add("/6", 14), add("/3", 15)],
        inverse=[remove("/3"), remove("/6"), remove("/2"), remove("/4"), remove("/0"), remove("/1")],
    ),
    "a member moved over its parent": Run(
        [{"a": {"b": 1, "c": 2}}, {"a": 1}],
        [move("/a/b", "/a")],
        inverse=[replace("/a", {"c": 2}), add("/a/b", 1)],
    ),
    "an item moved over a member of a later one": Run(
        [[9, {"k": 0}, {"b": 1}], [{"k": 0}, {"b": 9}]],
        [move("/0", "/1/b")],
        inverse=[replace("/1/b", 1), add("/0", 9)],
    ),
    "a member moved before its parent": Run(
        [[{"x": 5}, 7], [5, {}, 7]],
        [move("/0/x", "/0")],
        inverse=[remove("/0"), add("/0/x", 5)],
    ),
    "an item moved behind the next one": Run(
        [[1, 2], [2, 1]],
        [move("/0", "/1")],
        inverse=[remove("/1"), add("/0", 1)],
    ),
    "an item moved past the end": Run(
        [[1, 2]],
        [move("/0", "/2")],
        refusal=refusal(0, "/2", NOT_FOUND),
    ),
    "a member moved to where nothing is": Run(
        [{"a": 1}],
        [move("/a", "/c/x")],
        refusal=refusal(0, "/c/x", NOT_FOUND),
    ),
    "an add and a failed test": Run(
        [{"a": 1}, {"a": 1, "b": 2}],
        [add("/b", 2), test("/a", 9)],
        refusal=refusal(1, "/a", "value did not match"),
    ),
    "places that shift": Run(
        [
            {"l": [1, 2, 3]},
            {"l": [2, 3]},
            {"l": [2, 3, 4]},
            {"l": [3, 4, 2]},
            {"l": [3, 4, 2]},
        ],
        [remove("/l/0"), add("/l/-", 4), move("/l/0", "/l/2"), test("/l/2", 2)],
        inverse=[remove("/l/2"), add("/l/0", 2), remove("/l/2"), add("/l/0", 1)],
    ),
    "a member moved over the document": Run(
        [{"a": 1, "b": 2}, 1],
        [move("/a", "")],
        inverse=[replace("", {"b": 2}), add("/a", 1)],
    ),
}

# Lists whose later operations meet what earlier ones took away: in what they move, copy, test and
# displace, and at its very place.
TAKEN = {
    "a member removed inside what is moved": Run(
        [
            {"a": {"b": 1, "c": 2}, "x": {}},
            {"a": {"c": 2}, "x": {}},
            {"x": {"a": {"c": 2}}},
            {"x": {"a": {"c": 2}}},
        ],
        [remove("/a/b"), move("/a", "/x/a"), test("/x/a", {"c": 2})],
        inverse=[remove("/x/a"), add("/a", {"c": 2}), add("/a/b", 1)],
    ),
    "a member removed inside what is copied": Run(
        [
            {"a": {"b": 1, "c": [2]}},
            {"a": {"c": [2]}},
            {"a": {"c": [2]}, "d": {"c": [2]}},
            {"a": {"c": [2]}, "d": {"c": [2]}},
        ],
        [remove("/a/b"), copy("/a", "/d"), test("", {"a": {"c": [2]}, "d": {"c": [2]}})],
        inverse=[remove("/d"), add("/a/b", 1)],
    ),
    "an item removed inside what is tested": Run(
        [{"l": [1, 2, 3]}, {"l": [1, 3]}, {"l": [1, 3]}, {"l": [1, 3, 4]}],
        [remove("/l/1"), test("/l", [1, 3]), add("/l/-", 4)],
        inverse=[remove("/l/2"), add("/l/1", 2)],
    ),
    "members removed inside what is displaced": Run(
        [
            {"a": {"b": 1, "c": 2}, "x": [7, "text"]},
            {"a": {"c": 2}, "x": [7, "text"]},
            {"a": {"c": 2}, "x": ["text"]},
            {"a": 5, "x": ["text"]},
            {"a": 5, "x": 8},
        ],
        [remove("/a/b"), remove("/x/0"), replace("/a", 5), add("/x", 8)],
        inverse=[replace("/x", ["text"]), replace("/a", {"c": 2}), add("/x/0", 7), add("/a/b", 1)],
    ),
    "a member removed inside what a move displaces": Run(
        [{"a": {"b": 1, "c": 2}, "d": "text"}, {"a": {"c": 2}, "d": "text"}, {"a": "text"}],
        [remove("/a/b"), move("/d", "/a")],
        inverse=[replace("/a", {"c": 2}), add("/d", "text"), add("/a/b", 1)],
    ),
    "an add where a member was removed": Run(
        [{"a": [1], "b": 2}, {"b": 2}, {"a": 3, "b": 2}, {"b": 2}, {"a": {}, "b": 2}],
        [remove("/a"), add("/a", 3), remove("/a"), add("/a", {})],
        inverse=[remove("/a"), add("/a", 3), remove("/a"), add("/a", [1])],
    ),
    "a move there and back": Run(
        [{"a": [1], "b": 2}, {"b": 2, "c": [1]}, {"a": [1], "b": 2}, {"b": 2}],
        [move("/a", "/c"), move("/c", "/a"), remove("/a")],
        inverse=[add("/a", [1]), remove("/a"), add("/c", [1]), remove("/c"), add("/a", [1])],
    ),
    "items taken away from a list that grows": Run(
        [
            {"l": [1, 2, 3], "m": {}},
            {"l": [2, 3], "m": {"x": 1}},
            {"l": [2, 3, 4], "m": {"x": 1}},
            {"l": [5, 2, 3, 4], "m": {"x": 1}},
            {"l": [5, 3, 4], "m": {"x": 1}},
            {"l": [3, 4, 5], "m": {"x": 1}},
        ],
        [move("/l/0", "/m/x"), add("/l/-", 4), add("/l/0", 5), remove("/l/1"), move("/l/0", "/l/2")],
        inverse=[
            remove("/l/2"), add("/l/0", 5), add("/l/1", 2), remove("/l/0"), remove("/l/2"),
            remove("/m/x"), add("/l/0", 1),
        ],
    ),
    "an item removed inside items that are copied and moved": Run(
        [
            [[1, 2], 3],
            [[2], 3],
            [[2], 3, [2]],
            [3, [2], [2]],
        ],
        [remove("/0/0"), copy("/0", "/-"), move("/0", "/1")],
        inverse=[remove("/1"), add("/0", [2]), remove("/2"), add("/0/0", 1)],
    ),
    "escaped names": Run(
        [
            {"a/b": {"m~n": 1, "o": 2}, "c": {}},
            {"a/b": {"o": 2}, "c": {}},
            {"c": {"d/e": {"o": 2}}},
            {"a/b": {"o": 2}, "c": {"d/e": {"o": 2}}},
            {"a/b": {"o": 3}, "c": {"d/e": {"o": 2}}},
            {"a/b": {"o": 3}, "c": {"d/e": {"o": 2}}},
        ],
        [
            remove("/a~1b/m~0n"), move("/a~1b", "/c/d~1e"), copy("/c/d~1e", "/a~1b"),
            replace("/a~1b/o", 3), test("/c/d~1e", {"o": 2}),
        ],
        inverse=[
            replace("/a~1b/o", 2), remove("/a~1b"), remove("/c/d~1e"), add("/a~1b", {"o": 2}),
            add("/a~1b/m~0n", 1),
        ],
    ),
    "a failed test after removes and moves": Run(
        [
            {"a": {"b": 1, "c": 2}, "l": [1, 2]},
            {"a": {"c": 2}, "l": [1, 2]},
            {"a": {"c": 2, "d": 1}, "l": [2]},
            {"a": {"c": 2, "d": 1}, "e": {"c": 2, "d": 1}, "l": [2]},
            {"a": {"c": 2, "d": 1}, "e": {"c": 2, "d": 1}, "l": [5]},
        ],
        [remove("/a/b"), move("/l/0", "/a/d"), copy("/a", "/e"), replace("/l/0", 5), test("/a/c", 9)],
        refusal=refusal(4, "/a/c", "value did not match"),
    ),
    "a remove of what was moved away, with escaped names": Run(
        [
            {"a/b": [1], "m~n": {"x": 1}},
            {"a/b": [1], "m~n": {}},
            {"m~n": {"y/z": [1]}},
            {"c~d": 3, "m~n": {"y/z": [1]}},
            {"m~n": {"y/z": [1]}},
        ],
        [
            remove("/m~0n/x"), move("/a~1b", "/m~0n/y~1z"), add("/c~0d", 3), remove("/c~0d"),
            remove("/a~1b"),
        ],
        refusal=refusal(4, "/a~1b", NOT_FOUND),
    ),
    "a move below what was removed": Run(
        [{"a": {"b": {}}, "c": 2}, {"a": {}, "c": 2}],
        [remove("/a/b"), move("/c", "/a/b/x")],
        refusal=refusal(1, "/a/b/x", NOT_FOUND),
    ),
    "a move of what was removed": Run(
        [{"a": [1], "b": 2}, {"b": 2}, {"b": 2}],
        [remove("/a"), test("", {"b": 2}), move("/a", "/b")],
        refusal=refusal(2, "/b", '"from" path is invalid'),
    ),
    "an item past those that are left": Run(
        [[1, 2, 3], [1, 2], [1]],
        [remove("/2"), remove("/1"), replace("/1", 5)],
        refusal=refusal(2, "/1", NOT_FOUND),
    ),
}

IN_PLACE = {
    "an add and a move": Run(
        [{"a": 1}, {"a": 1, "b": 2}, {"b": 2, "c": 1}],
        [add("/b", 2), move("/a", "/c")],
    ),
}

# Arrays in which an item shifts from whose inside a value was taken away: to an index of as many
# digits, of one more or of one fewer.
KEPT = {"x": 5, "y": [6]}


def behind(count, item):
    """An array in which so many items come before this one."""
    return [0] * count + [item]


def shifting(document, operations, failing=None, why=None):
    """A run whose states are worked by states.py, with an operation at its end that is refused."""
    states, inverse = worked(document, operations)
    if not failing:
        return Run(states, operations, inverse=inverse)
    refused = refusal(len(operations), failing["path"], why)
    return Run(states, [*operations, failing], refusal=refused)


def at_each_power():
    """Shifts between 9 and 10, 99 and 100, 999 and 1000."""
    for index in (9, 99, 999):
        here, there = behind(index, KEPT), behind(index + 1, KEPT)
        on = [remove(f"/{index}/x"), add("/0", 1)]
        yield f"an item at {index} that shifts on", shifting(here, on)
        back = [remove(f"/{index + 1}/x"), remove("/0")]
        yield f"an item at {index + 1} that shifts back", shifting(there, back)
        yield f"a member of the item at {index} moved before it", shifting(here, [move(f"/{index}/x", "/0")])
        failed = shifting(here, on, test(f"/{index + 1}", KEPT), "value did not match")
        yield f"an item at {index} that shifts on, and a failed test", failed


def below_long_names():
    """Shifts below a name so long that the pointer's text has 1,024 bytes, before or after, or more;
    and of bytes that are no characters of their own."""
    for what, name in (
        ("of 1,018", "n" * 1018),
        ("of 1,019", "n" * 1019),
        ("of 1,020", "n" * 1020),
        ("of 5,000 escaped", "~/" * 2500),
        ("of 600 two-byte", "\u00e9~" * 300),
    ):
        path = pointer([name])
        operations = [remove(f"{path}/9/x"), add(f"{path}/0", 1)]
        yield f"an item below a name {what} characters", shifting({name: behind(9, KEPT)}, operations)


ESCAPED = {"a/b~c": behind(9, {"x/~y": 5, "z": 6})}
SHIFTED = {
    **dict(at_each_power()),
    **dict(below_long_names()),
    "an item that shifts twice": shifting(behind(8, KEPT), [remove("/8/x"), add("/0", 1), add("/0", 2)]),
    "an item that shifts on and back": shifting(
        behind(9, KEPT), [remove("/9/x"), add("/0", 1), remove("/0"), add("/1", 2), remove("/2")]
    ),
    "an item under two arrays that shift": shifting(
        behind(9, behind(9, KEPT)), [remove("/9/9/x"), add("/9/0", 1), add("/0", 2)]
    ),
    "an item under two arrays, the outer first": shifting(
        behind(99, behind(9, KEPT)),
        [add("/0", 1), remove("/100/9/x"), remove("/0"), add("/99/-", 2), add("/99/3", 3)],
    ),
    "a member moved out of two arrays": shifting(
        behind(9, behind(9, KEPT)), [move("/9/9/x", "/0"), add("/10/0", 1)]
    ),
    "an item moved to another array, which shifts": shifting(
        {"l": behind(9, KEPT), "m": [0] * 10}, [remove("/l/9/x"), move("/l/9", "/m/9"), add("/m/0", 1)]
    ),
    "an item copied and then shifted": shifting(
        behind(9, KEPT), [remove("/9/x"), copy("/9", "/0"), add("/0/x", 7), remove("/10/y/0")]
    ),
    "an item shifted and then displaced": shifting(
        behind(9, KEPT), [remove("/9/x"), add("/0", 1), replace("/10", 2), add("/0", 3)]
    ),
    "an item shifted and then removed": shifting(
        behind(9, KEPT), [remove("/9/x"), add("/0", 1), remove("/10"), add("/-", 2)]
    ),
    "an item shifted and then tested": shifting(
        behind(9, KEPT),
        [remove("/9/x"), add("/0", 1), test("/10", {"y": [6]}), test("", [1, *[0] * 9, {"y": [6]}])],
    ),
    "members whose names are indices": shifting(
        {"l": {"0": 1, "9": dict(KEPT)}}, [remove("/l/9/x"), replace("/l/0", 2), add("/l/1", 3)]
    ),
    "escaped names above an item that shifts": shifting(
        ESCAPED, [remove("/a~1b~0c/9/x~1~0y"), add("/a~1b~0c/0", 1)]
    ),
    "a member of an escaped name moved before its item": shifting(
        ESCAPED, [move("/a~1b~0c/9/x~1~0y", "/a~1b~0c/0"), test("/a~1b~0c/10", {"z": 6})]
    ),
    "an escaped name below an item that shifts": shifting(
        behind(9, {"m~/n": {"~": 1, "/": 2}}),
        [remove("/9/m~0~1n/~0"), move("/9/m~0~1n/~1", "/0"), add("/10/m~0~1n/~1", 3)],
    ),
    "twenty operations over one array": shifting(
        {"l": [{"x": number} for number in range(10)]},
        [it for number in range(10) for it in (remove(f"/l/{2 * number}/x"), add("/l/0", number))],
    ),
    "twenty moves over one array": shifting(
        [{"x": number, "y": 0} for number in range(20)], [move(f"/{2 * number}/x", "/0") for number in range(20)]
    ),
    "twenty operations over one array, and a failed test": shifting(
        {"l": [{"x": number} for number in range(10)]},
        [it for number in range(10) for it in (remove(f"/l/{2 * number}/x"), add("/l/0", number))],
        test("/l/19", {"x": 9}),
        "value did not match",
    ),
}

# A thousand changes, with an element that shifts on: ten times as many as those in which json_patch
# follows where it went (MOST_FOLLOWED in its module `clearing`).
MANY = [remove("/9/x"), add("/0", 1), *[add("/0", 2), remove("/0")] * 500]
LONG = {
    "more than a thousand changes": shifting(behind(9, KEPT), MANY),
    "more than a thousand changes, and a failed test": shifting(
        behind(9, KEPT), MANY, test("/10", KEPT), "value did not match"
    ),
}

# A depth, a document, and commands, each with its answer and the document, the number of undos and
# the number of redos that it leaves.
OVER = {"a": {"b": 1, "c": 2}}
EDITS = {
    "a move back and on": (65536, OVER, [
        ([move("/a/b", "/a")], "true", {"a": 1}, 1, 0),
        ("undo", "true", OVER, 0, 1),
        ("redo", "true", {"a": 1}, 1, 0),
        ("undo", "true", OVER, 0, 1),
        ("undo", "false", OVER, 0, 1),
    ]),
    "a change drops what was undone": (65536, {}, [
        ([add("/b", 2)], "true", {"b": 2}, 1, 0),
        ("undo", "true", {}, 0, 1),
        ([add("/c", 3)], "true", {"c": 3}, 1, 0),
        ("redo", "false", {"c": 3}, 1, 0),
    ]),
    "the empty patch is a change": (65536, 7, [
        ([], "true", 7, 1, 0),
        ("undo", "true", 7, 0, 1),
    ]),
    "the oldest version is dropped": (2, 0, [
        ([replace("", 1)], "true", 1, 1, 0),
        ([replace("", 2)], "true", 2, 2, 0),
        ([replace("", 3)], "true", 3, 2, 0),
        ("undo", "true", 2, 1, 1),
        ("undo", "true", 1, 0, 2),
        ("undo", "false", 1, 0, 2),
    ]),
    "a refused change at a full history drops nothing": (2, 0, [
        ([replace("", 1)], "true", 1, 1, 0),
        ([replace("", 2)], "true", 2, 2, 0),
        ([replace("", 3), remove("/b")], refusal(1, "/b", NOT_FOUND), 2, 2, 0),
        ("undo", "true", 1, 1, 1),
        ("undo", "true", 0, 0, 2),
    ]),
    "without depth nothing is kept": (0, 0, [
        ([replace("", 1)], "true", 1, 0, 0),
        ("undo", "false", 1, 0, 0),
        ("redo", "false", 1, 0, 0),
    ]),
    "a refused change": (65536, {"a": 1}, [
        ([replace("/a", 2), remove("/b")], refusal(1, "/b", NOT_FOUND), {"a": 1}, 0, 0),
    ]),
}


def edited(run):
    """A change, taken back and made again."""
    first, last = json.loads(run.states[0]), json.loads(run.states[-1])
    if run.refusal:
        return 65536, first, [(run.operations, run.refusal, first, 0, 0)]
    return 65536, first, [
        (run.operations, "true", last, 1, 0),
        ("undo", "true", first, 0, 1),
        ("redo", "true", last, 1, 0),
    ]


EDITS.update((name, edited(run)) for name, run in {**TAKEN, **SHIFTED}.items())

MERGES = {
    "an article": (ARTICLE, ARTICLE_MERGE, ARTICLE_MERGED),
    "a null in an object": ({}, {"a": {"b": None}}, {"a": {}}),
    "an object for a list": ([1], {"a": 1}, {"a": 1}),
    "null for an object": ({"a": 1}, None, None),
    "objects at two depths": (
        {"a": {"b": 1, "c": "text", "d": {"e": "text"}}, "f": "text", "z": [1]},
        {"a": {"b": {"m": "text", "n": None}, "c": None, "d": {"e": 2}}, "f": [1], "g": {"h": 3}},
        {"a": {"b": {"m": "text"}, "d": {"e": 2}}, "f": [1], "g": {"h": 3}, "z": [1]},
    ),
}


def pointer_calls():
    pointer = "/a~1b/m~0n"
    same = left(MEMORY, pointer)
    for call in ("to_buf", "parse", "clone"):
        yield Call(f"pointer {call}: {pointer}", [call, pointer], left(pointer, pointer), [same])
    ended_anew = left("/a~1b/1", pointer)
    yield Call(f"pointer with_last: {pointer}", ["with_last", pointer, "1"], ended_anew, [same])
    for pointer, token in (("/a~1b", "a/b"), (pointer, "m~n")):
        line = f"pointer decoded: the last token of {pointer}"
        yield Call(line, ["decoded", pointer], left(token, pointer), [left(MEMORY, pointer)])
    for pointer, longer in (("", "/a~1b~0"), ("/x", "/x/a~1b~0")):
        yield Call(
            f"pointer push_back: {pointer or 'the root'}",
            ["push_back", pointer, "a/b~"],
            left("done", longer),
            [left(MEMORY, pointer)],
        )


def run_calls():
    """`patch` and `apply_patches` leave the document as it was; `patch_unsafe` leaves what some prefix
    of the list gave."""
    for name, run in {**RUNS, **TAKEN, **SHIFTED, **LONG}.items():
        first, last = run.states[0], run.states[-1]
        if run.refusal:
            patched = recorded = left(run.refusal, first)
        else:
            patched, recorded = left("done", last), left(printed_patch(run.inverse), last)
        unchanged = [left(MEMORY, first)]
        yield Call(f"patch: {name}", run.arguments("patch"), patched, unchanged)
        yield Call(f"apply_patches: {name}", run.arguments("apply_patches"), recorded, unchanged)
    for name, run in {**RUNS, **TAKEN, **IN_PLACE, **SHIFTED, **LONG}.items():
        answer = left(run.refusal or "done", run.states[-1])
        prefixes = [left(MEMORY, state) for state in run.states]
        yield Call(f"patch_unsafe: {name}", run.arguments("patch_unsafe"), answer, prefixes)


def named_calls():
    """Calls of which it is known how many requests fall into them."""
    removes = compact([test("/l/0", 1), remove("/l/0")])
    yield Call(
        "patch_unsafe: a test and a remove",
        ["patch_unsafe", '{"l":[1,2]}', removes],
        left("done", '{"l":[2]}'),
        [],
        requests=0,
    )
    names = compact([test("/a/b", 1), remove("/a/b"), remove("/a")])
    yield Call(
        "patch_unsafe: a test and removes of members",
        ["patch_unsafe", '{"a":{"b":1}}', names],
        left("done", "{}"),
        [],
        requests=0,
    )
    yield Call(
        "patch: no operation",
        ["patch", '{"a":[1,2]}', "[]"],
        left("done", '{"a":[1,2]}'),
        [],
        requests=0,
    )
    # a number takes no memory, so these are requests for room in the list
    grows = RUNS["numbers put in before items"]
    yield Call(
        "patch_unsafe: numbers put into a list that is full",
        grows.arguments("patch_unsafe"),
        left("done", grows.states[-1]),
        [left(MEMORY, state) for state in grows.states],
        at_least=2,
    )
    yield Call(
        "patch_unsafe: a refusal, whose path is copied",
        ["patch_unsafe", '{"a":1}', compact([remove("/c/x")])],
        left(refusal(0, "/c/x", NOT_FOUND), '{"a":1}'),
        [left(MEMORY, '{"a":1}')],
        requests=1,
    )


def merge_calls():
    for name, (document, changes, merged) in MERGES.items():
        texts = [compact(document), compact(changes)]
        short = [left(MEMORY, texts[0])]
        yield Call(f"merge: {name}", ["merge", *texts], left("done", compact(merged)), short)


ROW = "a row that is long enough to stay"

# two documents, the patch between them, that with tests, and that with moves where it is another
DIFFERENCES = {
    "nothing": ({"a": [1, {"b": None}]}, {"a": [1, {"b": None}]}, [], [], None),
    "the whole": (
        {"a": 1, "b": 2},
        {"a": 3, "b": 4},
        [replace("", {"a": 3, "b": 4})],
        [test("", {"a": 1, "b": 2}), replace("", {"a": 3, "b": 4})],
        None,
    ),
    "members": (
        {"a": 1, "b/": {"c": 2, "stays": ROW}, "z": ROW},
        {"b/": {"c": 3, "stays": ROW}, "new": [ROW], "z": ROW},
        [remove("/a"), replace("/b~1/c", 3), add("/new", [ROW])],
        [test("/a", 1), remove("/a"), test("/b~1/c", 2), replace("/b~1/c", 3), add("/new", [ROW])],
        None,
    ),
    "items": (
        [[ROW, 1], [ROW, 2], [ROW, 3], [ROW, 4]],
        [[ROW, 0], [ROW, 1], [ROW, 3], [ROW, 5]],
        [add("/0", [ROW, 0]), remove("/2"), replace("/3/1", 5)],
        [add("/0", [ROW, 0]), test("/2", [ROW, 2]), remove("/2"), test("/3/1", 4), replace("/3/1", 5)],
        None,
    ),
    "a member with another name": (
        {"a/b": [ROW], "stays": ROW * 3},
        {"m~n": [ROW], "stays": ROW * 3},
        [remove("/a~1b"), add("/m~0n", [ROW])],
        [test("/a~1b", [ROW]), remove("/a~1b"), add("/m~0n", [ROW])],
        [move("/a~1b", "/m~0n")],
    ),
    "an item that goes to the end": (
        [[ROW, 1], [ROW, 2], [ROW, 3]],
        [[ROW, 2], [ROW, 3], [ROW, 1]],
        [remove("/0"), add("/2", [ROW, 1])],
        [test("/0", [ROW, 1]), remove("/0"), add("/2", [ROW, 1])],
        [move("/0", "/2")],
    ),
}


def diff_calls():
    for name, (document, goal, plain, guarded, moving) in DIFFERENCES.items():
        texts = [compact(document), compact(goal)]
        short = [left(MEMORY, texts[0])]
        patches = {"diff": plain, "guarded_diff": guarded, "moving_diff": plain if moving is None else moving}
        for call, changes in patches.items():
            yield Call(f"{call}: {name}", [call, *texts], left(printed_patch(changes), texts[0]), short)


NO_PATCH = "none"

# two documents and the merge patch between them, or two merge patches and the one that does both
MADE = {
    "merge_diff": {
        "an article": (ARTICLE, ARTICLE_MERGED, compact(ARTICLE_MERGE)),
        "equal objects": ({"a": [ROW], "b": {"c": None}}, {"a": [ROW], "b": {"c": None}}, "{}"),
        "a list for an object": ({"a": 1}, [ROW, {"b": None}], compact([ROW, {"b": None}])),
        "null for an object": ({"a": 1}, None, "null"),
        "an object for a list": ([1], {"a": {"b": ROW}}, compact({"a": {"b": ROW}})),
        "objects at two depths": (
            {"a": {"b": 1, "c": ROW, "d": {"e": ROW}}, "f": ROW, "z": [1]},
            {"a": {"b": {"m": ROW}, "d": {"e": 2}}, "f": [1], "g": {"h": 3}, "z": [1]},
            compact({"a": {"b": {"m": ROW}, "c": None, "d": {"e": 2}}, "f": [1], "g": {"h": 3}}),
        ),
        "a null that is wanted, behind what changes": (
            {"a": {"b": 1, "z": 2}, "c": 3, "d": 4}, {"a": {"b": ROW, "c": {"d": None}}}, NO_PATCH,
        ),
    },
    "merge_both": {
        "an article, and an author": (
            ARTICLE_MERGE,
            {"author": {"familyName": ROW, "email": None}, "title": None},
            compact({**ARTICLE_MERGE, "author": {"familyName": ROW, "email": None}, "title": None}),
        ),
        "objects at two depths": (
            {"a": {"b": ROW, "c": {"d": None}}, "e": {"f": [ROW]}, "g": None},
            {"a": {"b": None, "c": {"h": ROW}}, "g": [None], "i": {"j": None}},
            compact({"a": {"b": None, "c": {"d": None, "h": ROW}}, "e": {"f": [ROW]}, "g": [None], "i": {"j": None}}),
        ),
        "a list that replaces": ({"a": 1}, [ROW], compact([ROW])),
        "two empty objects": ({}, {}, "{}"),
        "an object behind what was removed": (
            {"a": {"b": ROW}, "c": None, "d": ROW}, {"a": {"b": 1}, "c": {"e": ROW}}, NO_PATCH,
        ),
    },
}


def made_calls():
    for call, made in MADE.items():
        for name, (first, second, answer) in made.items():
            texts = [compact(first), compact(second)]
            short = [left(MEMORY, texts[0])]
            yield Call(f"{call}: {name}", [call, *texts], left(answer, texts[0]), short)


TEXT = '{"name": "x", "list": [1.50, 2] }'
NO_PLACE = "no such place"

# a text, the place and the value of a change, and the answer
TEXT_CHANGES = {
    "add_to_text": {
        "an element": (TEXT, "/list/1", "7", '{"name": "x", "list": [1.50, 7, 2] }'),
        "a member": (TEXT, "/new", ' {"a":null} ', '{"name": "x", "list": [1.50, 2], "new": {"a":null} }'),
        "an element where there is none": ('{"a/b":[ ]}', "/a~1b/-", "true", '{"a/b":[true ]}'),
        "the whole": (" [1]  ", "", "2", " 2  "),
        "below a string": (TEXT, "/name/0", "7", NO_PLACE),
        "no JSON": ('{"list": [1,', "/list/0", "7", "the text is not JSON"),
    },
    "replace_in_text": {
        "an element": (TEXT, "/list/0", "1e1", '{"name": "x", "list": [1e1, 2] }'),
        "a member that isn't there": (TEXT, "/new", "7", NO_PLACE),
    },
    "remove_from_text": {
        "an element": (TEXT, "/list/0", None, '{"name": "x", "list": [2] }'),
        "members of one name": ('{ "a": 1, "b": 2, "\\u0061": 3 }', "/a", None, '{ "b": 2 }'),
        "the whole": (TEXT, "", None, NO_PLACE),
    },
}


def text_calls():
    for call, changes in TEXT_CHANGES.items():
        for name, (text, path, value, answer) in changes.items():
            words = [call, text, path, *([] if value is None else [value])]
            yield Call(f"{call}: {name}", words, left(answer, text), [left(MEMORY, text)])


def editor_state(document, undos, redos):
    return f"{compact(document)}, undos {undos}, redos {redos}"


def editor_call(line, depth, document, commands, answer, before, after):
    """The last of the commands. One that has something to do takes memory."""
    return Call(
        line,
        ["edit", str(depth), compact(document), compact(commands)],
        left(answer, editor_state(*after)),
        [left(MEMORY, editor_state(*before))],
        requests=0 if answer == "false" else None,
        at_least=1 if answer == "true" else 0,
    )


def editor_calls():
    """A call for which memory is short leaves the document, the undos and the redos."""
    for name, (depth, document, lines) in EDITS.items():
        commands, before = [], (document, 0, 0)
        for command, answer, *after in lines:
            commands = [*commands, command]
            call = command if isinstance(command, str) else "apply"
            line = f"editor {call}: {name}"
            yield editor_call(line, depth, document, commands, answer, before, after)
            before = after
    for name, run in LONG.items():
        _, document, [(operations, answer, *after)] = (*edited(run)[:2], edited(run)[2][:1])
        yield editor_call(f"editor apply: {name}", 1, document, [operations], answer, (document, 0, 0), after)
    # As many changes as the deepest history keeps, given by their number.
    full = (0, 65536, 0)
    for line, changes, answer in (
        ("one change more than are kept", [], "true"),
        ("a refused change where no more are kept", [remove("/b")], refusal(0, "/b", NOT_FOUND)),
    ):
        commands = [65536, changes]
        yield editor_call(f"editor apply: {line}", 65536, 0, commands, answer, full, full)
    # An editor that stored documents in place of patches would take no memory here.
    line = "editor_stores_versions"
    yield editor_call(line, 65536, 7, [[], "undo"], "true", (7, 1, 0), (7, 0, 1))


def kind_calls(line, kind, value, read, told):
    """The calls on one value: `read` is what is read of it, and `told` the text of that."""
    text = compact(value)
    argument = [left(MEMORY, text)]
    yield Call(f"from_value: {line}", ["from_value", kind, text], left(told, text), argument)
    same = [left(MEMORY, told)]
    yield Call(f"to_value: {line}", ["to_value", kind, text], left(compact(read), told), same)
    yield Call(f"clone: {line}", ["clone", kind, text], left(told, told), same)


def text_call(line, call, value, told):
    """The call on the text of a value: `told` is the text of what is read."""
    text = compact(value)
    return Call(f"{call}: {line}", [call, text], left(told, text), [left(MEMORY, text)])


def vector_calls():
    """Each vector's document and patch, each of its operations, and each operation's struct."""
    for document, operations in VECTORS:
        read = [{n: v for n, v in it.items() if n != "xyz"} for it in operations]
        yield from kind_calls("a patch", "patch", operations, read, printed_patch(read))
        yield text_call("a patch", "patch_from_str", operations, printed_patch(read))
        for it in read:
            fields = {n: v for n, v in it.items() if n != "op"}
            yield from kind_calls("an operation", "operation", it, it, printed(it))
            yield from kind_calls(f"a struct of {it['op']}", it["op"], it, fields, printed(fields))
        text = compact(document)
        answer = left(indented(document), text)
        yield Call("pretty", ["pretty", text], answer, [left(MEMORY, text)])
        yield text_call("a document", "document_from_str", document, text)
        yield text_call("a document", "document_from_slice", document, text)
    for name, run in {**TAKEN, **SHIFTED}.items():
        told = printed_patch(run.operations)
        yield from kind_calls(name, "patch", run.operations, run.operations, told)
        yield text_call(name, "patch_from_str", run.operations, told)
        document = json.loads(run.states[0])
        yield text_call("a document", "document_from_str", document, run.states[0])
    # What says no document or no patch is no answer either out of memory.
    for call, text, why in (
        ("document_from_str", '{"a":[1,2', "text is not JSON: EOF while parsing at line 1 column 9"),
        ("document_from_str", '{"a":["text",1.5]}', "document holds a number that is not whole"),
        ("document_from_slice", '{"a":[1,2', "text is not JSON: EOF while parsing at line 1 column 9"),
        ("document_from_slice", '{"a":["text",1.5]}', "document holds a number that is not whole"),
        ("patch_from_str", '[{"op":"add"', "text is not JSON: EOF while parsing at line 1 column 12"),
        ("patch_from_str", '{"op":"add"}', "patch is not a list"),
        (
            "patch_from_str",
            '[{"op":"remove","path":"/a"},{"op":"add","path":"/b"}]',
            """operation '/1': member "value" is missing""",
        ),
    ):
        yield Call(f"{call}: no {call.partition('_')[0]}", [call, text], left(why, text), [left(MEMORY, text)])


def tool_runs():
    """The program, which writes nothing to standard output where memory is short."""
    over = {"a": {"b": 1, "c": 2}}
    patched = '[{"happy":true,"name":"Andrew"},{"name":"Maxim"}]'
    recorded = (
        '[{"a":1},[{"op":"replace","path":"/a","value":{"c":2}},'
        '{"op":"add","path":"/a/b","value":1}]]'
    )
    moved = [[move("/a/b", "/a")], "undo", "redo"]
    changes = [[replace("/a", 2)], "undo", "undo", "redo", [remove("/b")]]
    replies = '[{"a":2},[true,true,false,true,{"kind":"InvalidPointer","operation":0}]]'
    inside = [[move("/a", "/a/b")], "undo"]
    refused = '[{"a":1},[{"kind":"CannotMoveInsideItself","operation":0},false]]'
    for name, mode, pair, line in (
        ("a test and an add", "patch", [NAMES, NAMES_PATCH], patched),
        ("a member moved over its parent", "record", [over, [move("/a/b", "/a")]], recorded),
        ("an article", "merge", [ARTICLE, ARTICLE_MERGE], compact(ARTICLE_MERGED)),
        ("a member moved, back and again", "edit", [over, moved], '[{"a":1},[true,true,true]]'),
        ("nothing to take, and a refusal", "edit", [{"a": 1}, changes], replies),
        ("no command", "edit", [7, []], "[7,[]]"),
        ("nothing to take either way", "edit", [7, ["undo", "redo"]], "[7,[false,false]]"),
        ("a move inside itself is refused", "edit", [{"a": 1}, inside], refused),
    ):
        yield ToolRun(f"json_patch_tool {mode}: {name}", mode, compact(pair), 0, line + "\n", "")
    absent = refusal(0, "/-", NOT_FOUND)
    no_value = [[replace("", 8)], [{"op": "add", "path": "/a"}]]
    for name, mode, pair, status, fault in (
        ("an item that isn't there", "patch", [[1], [remove("/-")]], 1, absent),
        ("no patch", "record", [1, {}], 2, "patch is not a list"),
        ("a fraction", "merge", [1.5, {}], 2, "a number is not whole"),
        ("no commands", "edit", [7, {}], 2, "patch is not a list"),
        ("another word", "edit", [7, [[], "Undo"]], 2, "patch is not a list"),
        ("no value", "edit", [7, no_value], 2, """operation '/0': member "value" is missing"""),
        ("a fraction", "edit", [1.5, []], 2, "a number is not whole"),
    ):
        yield ToolRun(f"json_patch_tool {mode}: {name}", mode, compact(pair), status, "", fault)
    yield from tool_patches()
    for name, (document, changes, merged) in MERGES.items():
        yield written("merge", name, [document, changes], compact(merged))


def written(mode, name, pair, line):
    return ToolRun(f"json_patch_tool {mode}: {name}", mode, compact(pair), 0, line + "\n", "")


def respond_calls():
    """The call that makes the program's line, on the inputs of the program."""
    for run in tool_runs():
        line = run.line.replace("json_patch_tool", "respond", 1)
        yield Call(line, ["respond", run.mode, run.input], left(run.output or run.fault, run.input), [left(MEMORY, run.input)])


def tool_patches():
    """Lists of operations in the modes that take one."""
    for name, run in {**RUNS, **TAKEN, **SHIFTED}.items():
        document, last = json.loads(run.states[0]), run.states[-1]
        pair, edits = [document, run.operations], [document, [run.operations, "undo", "redo"]]
        if run.refusal:
            for mode in ("patch", "record"):
                yield ToolRun(f"json_patch_tool {mode}: {name}", mode, compact(pair), 1, "", run.refusal)
            continue
        yield written("patch", name, pair, last)
        yield written("record", name, pair, f"[{last},{printed_patch(run.inverse)}]")
        yield written("edit", name, edits, f"[{last},[true,true,true]]")


def large_calls():
    """What a change of one member may ask for, on a thousand of them."""
    members = {f"m{number:03}": "abcdefghij" for number in range(1000)}
    document = {**members, "x": {}}
    items = [{"k": "abcdefghij", "x": {}}] * 1000
    changed = items[:500] + [{**items[500], "x": {"b": 2}}] + items[501:]
    set_to_2 = {**members, "x": 2}
    filled = {**members, "x": {"a": 1, "b": 2}}
    for name, first, operations, last, fewer_than in (
        ("below a member", document, [add("/x/b", 2)], {**members, "x": {"b": 2}}, 64),
        ("in an item", items, [add("/500/x/b", 2)], changed, 64),
        ("of two below a member", filled, [remove("/x/a"), remove("/x/b")], document, 16),
        ("beside members", members, [add("/x", 2)], set_to_2, 16),
        ("of a member", document, [replace("/x", 2)], set_to_2, 16),
        ("of a member", document, [remove("/x")], members, 1),
        ("of a member", document, [test("/x", {})], document, 1),
    ):
        line = f"patch: {operations[0]['op']} {name}, of 1000"
        arguments = ["patch", compact(first), compact(operations)]
        yield Bound(line, arguments, left("done", compact(last)), fewer_than)
    # Neither copies what its places share, in each of the calls; `inverse` is what the last answers.
    renamed = {name: text for name, text in members.items() if name != "m500"}
    for operation, last, inverse in (
        (move("/m500", "/y"), {**renamed, "y": "abcdefghij"}, [remove("/y"), add("/m500", "abcdefghij")]),
        (remove("/m500"), renamed, [add("/m500", "abcdefghij")]),
    ):
        for call in ("patch", "patch_unsafe", "apply_patches"):
            told = printed_patch(inverse) if call == "apply_patches" else "done"
            line = f"{call}: {operation['op']} of a member, of 1000"
            arguments = [call, compact(members), compact([operation])]
            yield Bound(line, arguments, left(told, compact(last)), 16)
    removes = [remove("/x/a"), remove("/x/b")]
    yield Bound(
        "apply_patches: remove of two below a member, of 1000",
        ["apply_patches", compact(filled), compact(removes)],
        left(printed_patch([add("/x/b", 2), add("/x/a", 1)]), compact(document)),
        16,
    )
