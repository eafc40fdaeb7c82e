"""Documents and patches, as Python values, and the texts in which they are printed."""
import json


def add(path, value):
    return {"op": "add", "path": path, "value": value}


def remove(path):
    return {"op": "remove", "path": path}


def replace(path, value):
    return {"op": "replace", "path": path, "value": value}


def move(origin, path):
    return {"op": "move", "from": origin, "path": path}


def copy(origin, path):
    return {"op": "copy", "from": origin, "path": path}


def test(path, value):
    return {"op": "test", "path": path, "value": value}


def pointer(tokens):
    return "".join("/" + token.replace("~", "~0").replace("/", "~1") for token in tokens)


def compact(value):
    """The compact text of a value, members in byte order of their names."""
    return json.dumps(value, separators=(",", ":"), sort_keys=True, ensure_ascii=False)


def indented(value):
    """The same in lines, two spaces a level."""
    return json.dumps(value, indent=2, sort_keys=True, ensure_ascii=False)


def printed(operation):
    """The text of an operation, its members in the order `op`, `from`, `path`, `value`."""
    names = [name for name in ("op", "from", "path", "value") if name in operation]
    return "{" + ",".join(f'"{name}":{compact(operation[name])}' for name in names) + "}"


def printed_patch(operations):
    return "[" + ",".join(map(printed, operations)) + "]"


ARTICLE = {
    "title": "Goodbye!",
    "author": {"givenName": "John", "familyName": "Doe"},
    "tags": ["example", "sample"],
    "content": "This will be unchanged",
}
ARTICLE_MERGE = {
    "title": "Hello!",
    "phoneNumber": "+01-123-456-7890",
    "author": {"familyName": None},
    "tags": ["example"],
}
ARTICLE_MERGED = {
    "author": {"givenName": "John"},
    "content": "This will be unchanged",
    "phoneNumber": "+01-123-456-7890",
    "tags": ["example"],
    "title": "Hello!",
}
NAMES = [{"name": "Andrew"}, {"name": "Maxim"}]
NAMES_PATCH = [test("/0/name", "Andrew"), add("/0/happy", True)]
POINTED = {
    "foo": ["bar", "baz"],
    "": 0,
    "a/b": 1,
    "c%d": 2,
    "e^f": 3,
    "g|h": 4,
    "i\\j": 5,
    'k"l': 6,
    " ": 7,
    "m~n": 8,
}

# The documents and patches of json_patch's documentation, of RFC 6902, appendix A, of RFC 6901,
# section 5, and some on places that shift and on the root.
VECTORS = [
    (NAMES, NAMES_PATCH),
    (
        ARTICLE,
        [
            replace("/title", "Hello!"),
            remove("/author/familyName"),
            remove("/tags/1"),
            add("/phoneNumber", "+01-123-456-7890"),
        ],
    ),
    ({"title": "Something", "": "Hello!"}, [replace("/", "Bye!")]),
    (["hello", "bye"], [remove("/0"), remove("/0")]),
    (["hello", "bye", "hi"], [remove("/1"), remove("/1")]),
    (["hello"], [add("/1", "bye"), add("/2", "hi")]),
    ({"style": [{"ref": {"hello": "hello"}}]}, [replace("/style", {"ref": {"name": "name"}})]),
    ({"first": 1, "second": 2, "third": 3}, [remove("/third")]),
    ({"/slashed/path/with/~": 1}, [replace("/~1slashed~1path~1with~1~0", 2)]),
    ({"foo": "bar"}, [add("/baz", "qux")]),
    ({"foo": "bar"}, [{**add("/baz", "qux"), "xyz": 123}]),
    ({"foo": ["bar", "baz"]}, [add("/foo/1", "qux")]),
    ({"baz": "qux", "foo": "bar"}, [remove("/baz")]),
    ({"foo": ["bar", "qux", "baz"]}, [remove("/foo/1")]),
    ({"baz": "qux", "foo": "bar"}, [replace("/baz", "boo")]),
    (
        {"foo": {"bar": "baz", "waldo": "fred"}, "qux": {"corge": "grault"}},
        [move("/foo/waldo", "/qux/thud")],
    ),
    ({"foo": ["all", "grass", "cows", "eat"]}, [move("/foo/1", "/foo/3")]),
    ({"baz": "qux", "foo": ["a", 2, "c"]}, [test("/baz", "qux"), test("/foo/1", 2)]),
    ({"baz": "qux"}, [test("/baz", "bar")]),
    ({"foo": "bar"}, [add("/child", {"grandchild": {}})]),
    ({"foo": "bar"}, [add("/baz/bat", "qux")]),
    ({"/": 9, "~1": 10}, [test("/~01", 10)]),
    ({"/": 9, "~1": 10}, [test("/~01", "10")]),
    ({"foo": ["bar"]}, [add("/foo/-", ["abc", "def"])]),
    (
        POINTED,
        [
            test("", POINTED),
            test("/foo", ["bar", "baz"]),
            test("/foo/0", "bar"),
            test("/", 0),
            test("/a~1b", 1),
            test("/c%d", 2),
            test("/e^f", 3),
            test("/g|h", 4),
            test("/i\\j", 5),
            test('/k"l', 6),
            test("/ ", 7),
            test("/m~0n", 8),
        ],
    ),
    (
        {"l": [1, 2, 3]},
        [remove("/l/0"), add("/l/-", 4), move("/l/0", "/l/2"), test("/l/2", 2)],
    ),
    ({"a": 1, "b": 2}, [move("/a", "")]),
    ({"a": 1}, [move("/a", "/a")]),
    ({"a": 1}, [move("/a", "/ab")]),
    ([1], [copy("/0", "/-")]),
    ({"a": {}}, [copy("/a", "/a/b")]),
    ({"k": 1}, [copy("", "/a")]),
    (1, [remove("")]),
    (1, [add("/a", 2)]),
    (1, [copy("/a", "/b")]),
]
