"""Calls that are meant to take long, each on two texts of about so many bytes: for whoever times them."""
from itertools import cycle

LEVELS = 120


def operation(name, path, **others):
    """`source` is its `from`, and `value` a text."""
    parts = [f'"op":"{name}"', f'"path":"{path}"']
    parts += [f'"from":"{others["source"]}"'] if "source" in others else []
    parts += [f'"value":{others["value"]}'] if "value" in others else []
    return "{" + ",".join(parts) + "}"


def patch(size, turns, first=()):
    """These operations first, and then the others by turns, as many as fit."""
    made, length = list(first), sum(map(len, first)) + len(first) + 1
    for one in turns:
        length += len(one) + 1
        if length > size:
            break
        made.append(one)
    return "[" + ",".join(made) + "]"


def row(piece, size):
    """The piece as often as it fits, with commas."""
    return ",".join([piece] * (size // (len(piece) + 1)))


def nested(inside, levels):
    return '{"":' * levels + inside + "}" * levels


def there_and_back(*inside, there="/b"):
    """Moves of /a there and back, after each of which these operations are made in what was moved."""
    for source, path in cycle((("/a", there), (there, "/a"))):
        yield operation("move", path, source=source)
        for name, below, value in inside:
            yield operation(name, path + below, value=value)


def over_a_member(size):
    yield "copies over a member", f'{{"a":"{"x" * size}","b":0}}', patch(size, cycle([operation("copy", "/b", source="/a")]))
    doubled = [operation("copy", "/a/-", source="/a") for _ in range(5)]
    document = f'{{"a":["{"x" * size}"],"b":0}}'
    yield "copies over a member, of an array that doubled five times", document, patch(size, cycle([operation("copy", "/b", source="/a")]), doubled)


def moved(size):
    """What is looked into is opened, level by level, and stays open where it is moved."""
    deep = "/" * (LEVELS - 2)
    values = {
        "an array of zeros": ("[" + row("0", size) + "]", "/0", "0"),
        "an object of members with no name": ("{" + row('"":0', size) + "}", "/", "0"),
        "an array of zeros below 119 objects": (nested("[" + row("0", size) + "]", LEVELS - 2), deep + "/0", "0"),
        "an array of arrays below 119 objects": (nested("[" + row("[]", size) + "]", LEVELS - 2), deep + "/0", "[]"),
    }
    for name, (value, place, inside) in values.items():
        document = f'{{"a":{value}}}'
        yield f"moves of {name}", document, patch(size, there_and_back())
        for other in ("test", "replace"):
            yield f"moves of {name}, each with a {other} inside", document, patch(size, there_and_back((other, place, inside)))
    # where the text nests too deep, unless it is looked at
    zeros = "[" + row("0", size) + "]"
    for name, value in ("an array of zeros", zeros), ("an array of zeros below 100 objects", nested(zeros, 100)):
        document = f'{{"a":{value},"c":{{}}}}'
        yield f"moves of {name} to a deeper place and back", document, patch(size, there_and_back(there="/c/d"))
    # each makes the look before it useless
    deep = (operation("add", "/n", value="[" * 70 + "]" * 70), operation("remove", "/n"))
    way = (operation("move", "/c/d/a", source="/a"), operation("move", "/a", source="/c/d/a"))
    yield "moves to a deeper place and back, and a deep value added and removed", f'{{"a":0,"c":{{"d":{{}}}},"z":{zeros}}}', patch(size, cycle(way + deep))


def front(size):
    zeros = "[" + row("0", size) + "]"
    yield "removes at the front", zeros, patch(size, cycle([operation("remove", "/0")]))
    yield "inserts at the front", zeros, patch(size, cycle([operation("add", "/0", value="0")]))
    yield "moves from the front to the end", zeros, patch(size, cycle([operation("move", f"/{zeros.count('0') - 1}", source="/0")]))


def names(size):
    members = [f"{number:07}" for number in range(size // 12)]
    document = "{" + ",".join(f'"{name}":0' for name in members) + "}"
    yield "replaces by name in one object", document, patch(size, (operation("replace", f"/{name}", value="0") for name in cycle(members)))
    yield "removes and adds by name in one object", document, patch(size, (
        one for name in cycle(members) for one in (operation("remove", f"/{name}"), operation("add", f"/{name}", value="0"))))
    # an object of fewer than 32 members has no index of names
    beside = ",".join(f'"{number:02}":"{"x" * (size // (31 * LEVELS))}"' for number in range(30))
    deep = f'{{{beside},"":' * LEVELS + "0" + "}" * LEVELS
    yield "replaces below 120 objects of 31 members", deep, patch(size, cycle([operation("replace", "/" * LEVELS, value="0")]))
    # and none is built before the 17th question
    objects = size // 1000
    document = "[" + ",".join("{" + ",".join(f'"{number:04}":0' for number in range(1000 // 9)) + "}" for _ in range(objects)) + "]"
    asked = [operation("test", f"/{number}/{1000 // 9 - 1:04}", value="0") for number in range(objects) for _ in range(16)]
    yield "tests of objects of 111 members, 16 in each", document, patch(size, cycle(asked))
    # a member's name is compared by its escapes, up to where it differs
    name = "x" * (size // 100)
    escaped = "".join(f"\\u{ord(letter):04x}" for letter in name)
    document = "{" + ",".join(f'"{escaped}{number}":0' for number in range(16)) + "}"
    yield "tests of long names with escapes", document, patch(size, cycle([operation("test", f"/{name}15", value="0")]))


def tests(size):
    """Values that say the same as a short one."""
    values = {
        "an object of many members of one name": ("{" + row('"":0', size) + "}", '{"":0}'),
        "an object of which the last member of a name counts": ('{"":[' + row('{"":[0]}', size) + '],"":0}', '{"":0}'),
        "a number of many digits": ("1." + "0" * size, "1"),
        "whitespace": ("[" + " " * size + "]", "[]"),
    }
    for name, (value, short) in values.items():
        yield f"tests of {name}", f'{{"a":{value}}}', patch(size, cycle([operation("test", "/a", value=short)]))
    # it is put together from its members each time
    opened = [operation("test", "/a/", value="0")]
    document = '{"a":{' + row('"":0', size) + "}}"
    yield "tests of all, open", document, patch(size, cycle([operation("test", "", value='{"a":{"":0}}')]), opened)


def recorded(size):
    """What an inverse holds is looked up before each change."""
    zeros = "[" + row("0", size) + "]"
    yield "removes at the front", zeros, patch(size, cycle([operation("remove", "/0")]))
    yield "replaces of all but a member", '{"a":' + zeros + ',"b":0}', patch(size, cycle([operation("replace", "/b", value="0")]))
    yield "moves of an array of zeros", '{"a":' + zeros + "}", patch(size, there_and_back())
    yield "adds at the end", zeros, patch(size, cycle([operation("add", "/-", value="0")]))


def merged(size):
    members = [f"{number:07}" for number in range(size // 12)]
    document = "{" + ",".join(f'"{name}":0' for name in members) + "}"
    yield "each member removed", document, "{" + ",".join(f'"{name}":null' for name in members) + "}"
    yield "as many members added", document, "{" + ",".join(f'"x{name}":0' for name in members) + "}"
    yield "members of one name", "{" + row('"":0', size) + "}", "{" + row('"":null', size) + "}"
    yield "120 objects in each other, with nothing changed", nested("[" + row("0", size) + "]", LEVELS - 2), nested("[" + row("0", size) + "]", LEVELS - 2)
    yield "objects in each other that aren't there", "{}", nested("{" + row('"":0', size) + "}", LEVELS - 2)
    yield "a number of many digits, the same in other digits", '{"a":1.' + "0" * size + "}", '{"a":10.' + "0" * size + "e-1}"


def differing(size):
    yield "arrays of two values by turns, one behind", "[" + row("0,1", size) + "]", "[1," + row("0,1", size) + "]"
    yield "arrays of two values, in different order", "[" + row("0,0,1", size) + "]", "[" + row("0,1,1", size) + "]"
    numbers = range(size // 7)
    yield "an array turned round", "[" + ",".join(map(str, numbers)) + "]", "[" + ",".join(map(str, reversed(numbers))) + "]"
    yield "arrays of arrays, each changed", "[" + row("[0,1,2]", size) + "]", "[" + row("[1,0,2]", size) + "]"
    yield "arrays in each other, each with more", "[0," * 100 + row("0", size) + "]" * 100, "[1,0," * 100 + row("0", size) + "]" * 100
    long = "x" * (size // 100)
    yield "long strings that end in other letters", "[" + ",".join(f'"{long}{n}"' for n in range(100)) + "]", "[" + ",".join(f'"{long}{n}"' for n in range(100, 0, -1)) + "]"
    yield "objects of other names", "{" + ",".join(f'"{n:07}":0' for n in range(size // 12)) + "}", "{" + ",".join(f'"x{n:07}":0' for n in range(size // 12)) + "}"
    zeros = "0" * (size // 1000)
    yield "one number in a thousand spellings", "[" + ",".join(f"1.{zeros}{'0' * n}" for n in range(500)) + "]", "[" + ",".join(f"1.{zeros}{'0' * n}" for n in range(500, 0, -1)) + "]"
    yield "numbers that differ in their last digit", "[" + ",".join(f"1.{zeros}{n}" for n in range(1, 999)) + "]", "[" + ",".join(f"1.{zeros}{n}" for n in range(999, 1, -1)) + "]"


def cases(size):
    """The call of each, its name, and the two texts."""
    groups = {"apply": (over_a_member, moved, front, names, tests), "record": (recorded,), "merge": (merged,), "diff": (differing,)}
    for call, makers in groups.items():
        for maker in makers:
            for name, *texts in maker(size):
                yield (call, name, *texts)
