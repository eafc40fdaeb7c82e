"""The documents and patches that are timed."""
import copy
import random


def row(number):
    return {"id": number, "name": f"name {number:06}", "tags": ["a", "b"], "done": False}


def rows(count):
    return {"rows": [row(i) for i in range(count)]}


def object_of(count):
    return {f"member {i:04}": "ten letter" for i in range(count)}


def replace_in_the_middle(count):
    """One replace in a document of so many rows, of about 69 bytes each."""
    path = f"/rows/{count // 2}/tags/1"
    return rows(count), [{"op": "replace", "path": path, "value": "c"}]


def mixed(count, first=0):
    """Adds, moves, copies, tests, replaces and removes in so many rows, from the first one on."""
    for i in range(first, first + count):
        yield {"op": "add", "path": f"/rows/{i}/tags/-", "value": i}
        yield {"op": "test", "path": f"/rows/{i}/id", "value": i}
        yield {"op": "copy", "from": f"/rows/{i}/name", "path": f"/rows/{i}/title"}
        yield {"op": "move", "from": f"/rows/{i}/name", "path": f"/rows/{i}/label"}
        yield {"op": "replace", "path": f"/rows/{i}/done", "value": True}
        yield {"op": "remove", "path": f"/rows/{i}/tags/0"}


def shifting(count):
    """Changes in so many rows, with rows added and removed before them."""
    for i in range(1, count + 1):
        yield {"op": "move", "from": f"/rows/{i}/name", "path": f"/rows/{i}/label"}
        yield {"op": "add", "path": "/rows/0", "value": row(i)}
        yield {"op": "remove", "path": f"/rows/{i + 1}/tags/0"}
        yield {"op": "remove", "path": "/rows/1"}
        yield {"op": "copy", "from": f"/rows/{i}/label", "path": f"/rows/{i}/title"}
        yield {"op": "test", "path": f"/rows/{i}/id", "value": i}


def in_members(count):
    """Of each three members of an object two are removed and one is moved."""
    for i in range(0, 3 * count, 3):
        yield {"op": "remove", "path": f"/member {i:04}"}
        yield {"op": "move", "from": f"/member {i + 1:04}", "path": f"/moved {i:04}"}
        yield {"op": "remove", "path": f"/member {i + 2:04}"}


def in_each_tenth(op, count, **members):
    """An operation on each tenth of so many members of an object."""
    return [{"op": op, "path": f"/member {i:04}", **members} for i in range(0, count, 10)]


def in_items(count):
    """Elements removed from an array and added to it, in turn, all over it."""
    for i in range(count):
        yield {"op": "remove", "path": f"/{i * 13 % 9_000}"}
        yield {"op": "add", "path": f"/{i * 7 % 9_000}", "value": i}


def deployment(number):
    labels = {"app.kubernetes.io/name": f"app-{number}", "app.kubernetes.io/part-of": "shop"}
    container = {"name": "main", "image": f"registry.local/app-{number}:1.0", "ports": [{"containerPort": 8080}]}
    return {
        "apiVersion": "apps/v1",
        "kind": "Deployment",
        "metadata": {"name": f"app-{number}", "labels": labels, "annotations": {"deployment.kubernetes.io/revision": "1"}},
        "spec": {"replicas": 2, "template": {"metadata": {"labels": labels}, "spec": {"containers": [container]}}},
    }


def deployed(count):
    """What an operator changes in so many deployments, by names that hold a `/`."""
    for i in range(count):
        labels = f"/items/{i}/metadata/labels/app.kubernetes.io~1"
        notes = f"/items/{i}/metadata/annotations/deployment.kubernetes.io~1"
        yield {"op": "test", "path": f"{labels}name", "value": f"app-{i}"}
        yield {"op": "replace", "path": f"/items/{i}/spec/template/spec/containers/0/image", "value": "registry.local/app:2.0"}
        yield {"op": "replace", "path": f"{notes}revision", "value": "2"}
        yield {"op": "add", "path": f"{labels}version", "value": "2.0"}
        yield {"op": "remove", "path": f"{labels}part-of"}


def apart_rows(count):
    """Two lists of so many operations, each on rows of its own."""
    rows_of_each = count // 6 + 1
    return [list(mixed(rows_of_each, first))[:count] for first in (0, rows_of_each)]


def apart_copies(count):
    """Two lists of so many copies of one member into objects of their own."""
    return [[{"op": "copy", "from": "/t", "path": f"/{name}/x{i}"} for i in range(count)] for name in "ab"]


def log(count):
    """Operations on fifty rows and on the members of an object, again and again."""
    for i in range(count):
        yield {"op": "add", "path": f"/rows/{i % 50}/tags/-", "value": i}
        yield {"op": "test", "path": f"/rows/{i % 50}/id", "value": i % 50}
        yield {"op": "add", "path": f"/names/n{i}", "value": {"k": [i, None, "text"]}}
        yield {"op": "copy", "from": f"/names/n{i}", "path": "/last"}
        yield {"op": "move", "from": f"/names/n{i}", "path": f"/names/m{i}"}
        yield {"op": "replace", "path": f"/names/m{i}/k", "value": True}


TINY = (
    [{"name": "Andrew"}, {"name": "Maxim"}],
    [{"op": "test", "path": "/0/name", "value": "Andrew"}, {"op": "add", "path": "/0/happy", "value": True}],
)

MIXED = list(mixed(17))[:100]
SHIFTING = list(shifting(17))[:100]

# name, mode, calls a round, document and patch
CALLS = [
    ("two operations on a tiny array", "patch", 20_000, TINY),
    ("one replace in an object of 1,000 members", "patch", 1_000,
     (object_of(1_000), [{"op": "replace", "path": "/member 0500", "value": "other text"}])),
    ("one replace deep in 10 MB", "patch", 5, replace_in_the_middle(145_000)),
    ("1,000 inserts into an array of 10,000", "patch", 20,
     (list(range(10_000)), [{"op": "add", "path": f"/{i * 7 % 10_000}", "value": i} for i in range(1_000)])),
    ("a merge of 100 members into 100 kB", "merge", 200,
     (object_of(3_300), {f"member {i * 33:04}": i for i in range(100)})),
]

REFUSED = "100 mixed operations on 100 kB, and a refused one"

# name, calls a round, document and patch: each is made by `patch`, `patch_within`, `patch_unsafe` and `apply_patches`
LISTS = [
    ("one move among 1,000 members", 200,
     (object_of(1_000), [{"op": "move", "from": "/member 0500", "path": "/moved"}])),
    ("one remove among 1,000 members", 200,
     (object_of(1_000), [{"op": "remove", "path": "/member 0500"}])),
    ("200 removes and 100 moves among 1,000 members", 20, (object_of(1_000), list(in_members(100)))),
    ("500 removes and 500 adds in an array of 10,000", 10, (list(range(10_000)), list(in_items(500)))),
    ("100 mixed operations on 100 kB", 20, (rows(1_450), MIXED)),
    ("100 mixed operations on 100 kB, with shifts", 20, (rows(1_450), SHIFTING)),
    ("100 mixed operations on 10 MB", 1, (rows(145_000), MIXED)),
    ("100 mixed operations on 10 MB, with shifts", 1, (rows(145_000), SHIFTING)),
    ("100 operations on 20 deployments, names with a /", 100,
     ({"items": [deployment(i) for i in range(20)]}, list(deployed(20)))),
    (REFUSED, 20, (rows(1_450), [*MIXED, {"op": "test", "path": "/rows/0/id", "value": 1}])),
]
CALLS += [(name, mode, count, case) for name, count, case in LISTS for mode in ("patch", "patch_within", "patch_unsafe", "apply_patches")]


# name, calls a round, two lists that are apart
APART = [
    ("one operation each, on rows of their own", 100_000, apart_rows(1)),
    ("100", 1_000, apart_rows(100)),
    ("1,000", 50, apart_rows(1_000)),
    ("10,000", 2, apart_rows(10_000)),
    ("1,000 copies of one member each", 5, apart_copies(1_000)),
    ("10,000 copies of one member each", 1, apart_copies(10_000)),
]

# name, document and patch: read, patched and written by a whole program
PROGRAMS = [
    ("a tiny array, two operations", TINY),
    ("50 rows, 6,000 operations", ({"last": None, "names": {}, "rows": rows(50)["rows"]}, list(log(1_000)))),
    ("10 MB, one replace", replace_in_the_middle(145_000)),
    ("10 MB, 100 mixed operations", (rows(145_000), MIXED)),
]

# bytes of the text (about), rows of the document, calls of one replace a round
SIZES = [
    (1_000, 14, 20_000),
    (10_000, 145, 2_000),
    (100_000, 1_450, 200),
    (1_000_000, 14_500, 20),
    (10_000_000, 145_000, 3),
]


def with_rows(change):
    """Fifty rows, and what is left of them where they are changed so."""
    before = rows(50)
    after = copy.deepcopy(before)
    change(after["rows"])
    return before, after


def one_changed(count, place):
    """So many rows, of which one has another name."""
    before = rows(count)
    after = copy.deepcopy(before)
    after["rows"][place]["name"] = "other name"
    return before, after


def lists_edited(count, length):
    """So many arrays of numbers, each with one to five elements put in, taken out or changed."""
    roll = random.Random(1)
    before = {f"array {i:03}": [roll.randrange(1_000) for _ in range(length)] for i in range(count)}
    after = copy.deepcopy(before)
    for items in after.values():
        for _ in range(roll.randrange(1, 6)):
            place = roll.randrange(len(items))
            way = roll.choice(["add", "remove", "change"])
            if way == "add":
                items.insert(place, roll.randrange(1_000))
            elif way == "remove":
                del items[place]
            else:
                items[place] = roll.randrange(1_000)
    return before, after


def members_changed(count, changed):
    """An object of so many members, of which some have another value."""
    before = object_of(count)
    after = dict(before)
    for i in range(0, count, count // changed):
        after[f"member {i:04}"] = "other text"
    return before, after


def nested(depth, before, after):
    """Both so many objects deep, each of which has two other members."""
    for i in range(depth):
        before, after = ({"id": i, "name": f"name {i}", "next": value} for value in (before, after))
    return before, after


def others(count):
    """So many rows, and as many objects of other names and values."""
    return rows(count), {"lines": [{"number": -i, "text": f"text {i}", "marks": [i]} for i in range(count)]}


# name, calls a round, two documents
DIFFERENCES = [
    ("10 MB, equal", 3, (rows(145_000), rows(145_000))),
    ("10 MB, a change in the middle", 3, one_changed(145_000, 72_500)),
    ("10 MB, a change in the last row", 3, one_changed(145_000, -1)),
    ("a row inserted in the middle of 50", 1_000, with_rows(lambda items: items.insert(25, row(50)))),
    ("10 of 50 rows removed", 1_000, with_rows(lambda items: items.__delitem__(slice(20, 30)))),
    ("the first of 50 rows moved to the end", 1_000, with_rows(lambda items: items.append(items.pop(0)))),
    ("300 arrays of 60 numbers, 1 to 5 edits each", 10, lists_edited(300, 60)),
    ("10 of 1,000 members changed", 200, members_changed(1_000, 10)),
    ("100 kB, all different", 5, others(1_450)),
    ("1,000 members below 20 objects, one changed", 200, nested(20, *members_changed(1_000, 1))),
]
