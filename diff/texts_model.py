"""What a patch leaves of a JSON text, byte by byte: a model in plain Python, from the definitions.

A text is read into nodes, each with the place of its first byte and of the one after its last, and an
operation cuts a piece out of the text or puts one in; then the new text is read again."""
from decimal import Decimal
import json
import re

WHITESPACE = " \t\n\r"
WORD = re.compile(r"[^\s,:\[\]{}\"]+")
STRING = re.compile(r'"(?:[^"\\]|\\.)*"')
INDEX = re.compile(r"(0|[1-9][0-9]*)\Z")


class Refused(Exception):
    pass


class Node:
    """A value in a text: `kind` is "object", "array", "string", "number" or a literal. Of an object or
    an array `parts` are the members or elements, each (start, name, name's end, node)."""

    def __init__(self, kind, start):
        self.kind, self.start, self.end, self.parts, self.said = kind, start, None, [], None


def whitespace_end(text, at):
    while at < len(text) and text[at] in WHITESPACE:
        at += 1
    return at


def read(text):
    node = value(text, whitespace_end(text, 0))
    assert whitespace_end(text, node.end) == len(text)
    return node


def value(text, at):
    if text[at] in "{[":
        return row(text, at)
    if text[at] == '"':
        node = Node("string", at)
        node.end = STRING.match(text, at).end()
        node.said = json.loads(text[at:node.end])
        return node
    word = WORD.match(text, at)
    node = Node(word[0] if word[0] in ("true", "false", "null") else "number", at)
    node.end, node.said = word.end(), word[0]
    return node


def row(text, at):
    node = Node("object" if text[at] == "{" else "array", at)
    at = whitespace_end(text, at + 1)
    while text[at] not in "}]":
        start, name, name_end = at, None, None
        if node.kind == "object":
            name_end = STRING.match(text, at).end()
            name = json.loads(text[at:name_end])
            at = whitespace_end(text, whitespace_end(text, name_end) + 1)
        child = value(text, at)
        node.parts.append((start, name, name_end, child))
        at = whitespace_end(text, child.end)
        if text[at] == ",":
            at = whitespace_end(text, at + 1)
    node.end = at + 1
    return node


# ---- where a token leads


def number_of(node, token):
    """The number of the member or element that the token names, or None."""
    if node.kind == "object":
        return max((n for n, part in enumerate(node.parts) if part[1] == token), default=None)
    if node.kind == "array" and INDEX.match(token) and int(token) < len(node.parts):
        return int(token)
    return None


def at_tokens(node, tokens):
    for token in tokens:
        number = number_of(node, token)
        if number is None:
            return None
        node = node.parts[number][3]
    return node


def tokens_of(pointer):
    return [token.replace("~1", "/").replace("~0", "~") for token in pointer.split("/")[1:]]


# ---- equality (RFC 6902, section 4.6)


def plain(node):
    """What is equal exactly where two nodes say the same."""
    if node.kind == "object":
        return ("object", frozenset({name: plain(child) for _, name, _, child in node.parts}.items()))
    if node.kind == "array":
        return ("array", tuple(plain(child) for *_, child in node.parts))
    if node.kind == "number":
        return ("number", number(node.said))
    return (node.kind, node.said)


def number(said):
    """Sign, digits and exponent, of no trailing zero."""
    sign, digits, exponent = Decimal(said).as_tuple()
    digits = "".join(map(str, digits)).lstrip("0")
    kept = digits.rstrip("0")
    return (sign, kept, exponent + len(digits) - len(kept)) if kept else (0, "", 0)


# ---- one place changed


def replaced(text, node, put):
    return text[:node.start] + put + text[node.end:]


def before(node, number):
    """The end of the member or element before, or of the bracket."""
    return node.parts[number - 1][3].end if number else node.start + 1


def cut(text, node, number):
    """Without the member or element of this number, and what goes with it."""
    start, child = node.parts[number][0], node.parts[number][3]
    if number + 1 < len(node.parts):
        return text[:start] + text[node.parts[number + 1][0]:]
    if number:
        return text[:before(node, number)] + text[child.end:]
    return text[:node.start + 1] + text[node.end - 1:]


def gap(text, node, number):
    """The whitespace before a member or an element, behind the bracket or the comma."""
    start = node.parts[number][0]
    comma = before(node, number)
    return text[(whitespace_end(text, comma) + 1 if number else comma):start]


def removed(text, tokens):
    if not tokens:
        raise Refused
    while True:
        parent = at_tokens(read(text), tokens[:-1])
        number = number_of(parent, tokens[-1])
        text = cut(text, parent, number)
        parent = at_tokens(read(text), tokens[:-1])
        if parent.kind == "array" or number_of(parent, tokens[-1]) is None:
            return text


def quoted(name):
    """A name as a JSON string: escapes where there have to be some, the short one where there is one."""
    short = {'"': '\\"', "\\": "\\\\", "\b": "\\b", "\f": "\\f", "\n": "\\n", "\r": "\\r", "\t": "\\t"}
    return '"' + "".join(short.get(c) or (f"\\u{ord(c):04x}" if c < " " else c) for c in name) + '"'


def added(text, tokens, put):
    whole = read(text)
    if not tokens:
        return replaced(text, whole, put)
    parent = at_tokens(whole, tokens[:-1])
    token = tokens[-1]
    if parent is None or parent.kind not in ("object", "array"):
        raise Refused
    count = len(parent.parts)
    if parent.kind == "object":
        number = number_of(parent, token)
        if number is not None:
            return replaced(text, parent.parts[number][3], put)
        if not count:
            return text[:parent.start + 1] + quoted(token) + ":" + put + text[parent.start + 1:]
        _, _, name_end, last = parent.parts[-1]
        ahead = "," + gap(text, parent, count - 1) + quoted(token) + text[name_end:last.start]
        return text[:last.end] + ahead + put + text[last.end:]
    number = count if token == "-" else int(token) if INDEX.match(token) else count + 1
    if number > count:
        raise Refused
    if number < count:
        start = parent.parts[number][0]
        style = gap(text, parent, 1 if number == 0 and count > 1 else number)
        return text[:start] + put + "," + style + text[start:]
    if not count:
        return text[:parent.start + 1] + put + text[parent.start + 1:]
    end = parent.parts[-1][3].end
    return text[:end] + "," + gap(text, parent, count - 1) + put + text[end:]


# ---- operations


def step(text, operation, put):
    """The text after an operation, whose value is written as `put`; Refused with the kind."""
    tokens = tokens_of(operation["path"])
    op = operation["op"]
    if op in ("copy", "move"):
        return carried(text, op, operation["from"], operation["path"])
    there = at_tokens(read(text), tokens)
    if op == "add":
        return or_refused("path is invalid", added, text, tokens, put)
    if there is None:
        raise Refused("path is invalid")
    if op == "remove":
        return or_refused("path is invalid", removed, text, tokens)
    if op == "replace":
        return replaced(text, there, put)
    if plain(there) != plain(read(put)):
        raise Refused("value did not match")
    return text


def carried(text, op, source, path):
    tokens, source_tokens = tokens_of(path), tokens_of(source)
    if op == "move" and len(tokens) > len(source_tokens) and tokens[:len(source_tokens)] == source_tokens:
        raise Refused("cannot move the value inside itself")
    there = at_tokens(read(text), source_tokens)
    if there is None:
        raise Refused('"from" path is invalid')
    put = text[there.start:there.end]
    if op == "move":
        text = or_refused('"from" path is invalid', removed, text, source_tokens)
    return or_refused("path is invalid", added, text, tokens, put)


def or_refused(kind, call, *given):
    try:
        return call(*given)
    except Refused:
        raise Refused(kind) from None


def patched(text, operations):
    """The text after the operations, each with its value's text, or the number, path and kind of the
    first that is refused."""
    for number, (operation, put) in enumerate(operations):
        try:
            text = step(text, operation, put)
        except Refused as refused:
            return None, f"operation '/{number}' failed at path '{operation['path']}': {refused}"
    return text, None


# ---- the way back


def stretch(text, node):
    return text[node.start:node.end]


def back_from_add(text, tokens):
    """What takes an addition back: the operation's name, its tokens and its value's text."""
    whole = read(text)
    if not tokens:
        return ("replace", tokens, stretch(text, whole))
    parent = at_tokens(whole, tokens[:-1])
    if parent.kind == "array":
        return ("remove", tokens[:-1] + [str(len(parent.parts)) if tokens[-1] == "-" else tokens[-1]], None)
    there = at_tokens(parent, tokens[-1:])
    return ("remove", tokens, None) if there is None else ("replace", tokens, stretch(text, there))


def back_from(text, operation):
    """What takes an accepted operation back, in the order in which it is made."""
    op, tokens = operation["op"], tokens_of(operation["path"])
    if op == "test":
        return []
    if op in ("add", "copy"):
        return [back_from_add(text, tokens)]
    if op == "move":
        source = tokens_of(operation["from"])
        taken = stretch(text, at_tokens(read(text), source))
        return [back_from_add(removed(text, source), tokens), ("add", source, taken)]
    return [("add" if op == "remove" else "replace", tokens, stretch(text, at_tokens(read(text), tokens)))]


def pointer_of(tokens):
    return "".join("/" + token.replace("~", "~0").replace("/", "~1") for token in tokens)


def recorded(text, operations):
    """As `patched`, and the text of the undo."""
    new, why = patched(text, operations)
    if new is None:
        return None, why
    undo = []
    for operation, put in operations:
        undo = back_from(text, operation) + undo
        text = step(text, operation, put)
    parts = [f'{{"op":"{op}","path":{quoted(pointer_of(tokens))}' + (f',"value":{put}}}' if put is not None else "}")
             for op, tokens, put in undo]
    return [new, "[" + ",".join(parts) + "]"], None
