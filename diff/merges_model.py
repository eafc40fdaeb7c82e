"""What a merge patch leaves of a JSON text: a model in plain Python, from RFC 7396 and from what is promised of
the bytes.

The value is RFC 7396's, over what Python's json reads. Of the bytes the model says which are kept, which are
put in, and in which order. How much whitespace a member brings along that is new to its object it leaves open,
and how its name is spelled."""
from decimal import Decimal
import json
import re

from texts_model import STRING, WHITESPACE, Node, added, at_tokens, plain, read, removed, replaced

# RFC 7396, appendix A: the document, the merge patch, and the result
EXAMPLES = [
    ('{"a":"b"}', '{"a":"c"}', '{"a":"c"}'), ('{"a":"b"}', '{"b":"c"}', '{"a":"b","b":"c"}'), ('{"a":"b"}', '{"a":null}', "{}"),
    ('{"a":"b","b":"c"}', '{"a":null}', '{"b":"c"}'), ('{"a":["b"]}', '{"a":"c"}', '{"a":"c"}'),
    ('{"a":"c"}', '{"a":["b"]}', '{"a":["b"]}'), ('{"a":{"b":"c"}}', '{"a":{"b":"d","c":null}}', '{"a":{"b":"d"}}'),
    ('{"a":[{"b":"c"}]}', '{"a":[1]}', '{"a":[1]}'), ('["a","b"]', '["c","d"]', '["c","d"]'), ('{"a":"b"}', '["c"]', '["c"]'),
    ('{"a":"foo"}', "null", "null"), ('{"a":"foo"}', '"bar"', '"bar"'), ('{"e":null}', '{"a":1}', '{"e":null,"a":1}'),
    ("[1,2]", '{"a":"b","c":null}', '{"a":"b"}'), ("{}", '{"a":{"bb":{"ccc":null}}}', '{"a":{"bb":{}}}'),
]


# ---- values


def exact(written):
    """What is equal exactly where two numbers are: sign, digits and exponent, of no trailing zero."""
    sign, digits, exponent = Decimal(written).as_tuple()
    kept = "".join(map(str, digits)).strip("0")
    end = len("".join(map(str, digits)).rstrip("0"))
    return ("number", sign, kept, exponent + len(digits) - end) if kept else ("number",)


def no_number(word):
    raise ValueError(word)


def expect_pairs(members):
    """Members of which each name and each string is a text: an unpaired surrogate is none."""
    json.dumps(members, ensure_ascii=False).encode()
    return dict(members)


def value_of(text):
    """What a text says: of a name that stands twice the last value. ValueError, where it isn't JSON or has an
    unpaired surrogate."""
    value = json.loads(text, parse_int=exact, parse_float=exact, parse_constant=no_number, object_pairs_hook=expect_pairs)
    json.dumps(value, ensure_ascii=False).encode()
    return value


def merged_value(target, patch):
    """RFC 7396, section 2."""
    if not isinstance(patch, dict):
        return patch
    target = dict(target) if isinstance(target, dict) else {}
    for name, value in patch.items():
        if value is None:
            target.pop(name, None)
        else:
            target[name] = merged_value(target.get(name), value)
    return target


# ---- bytes


class Member:
    """A member as it is written: `lead` is the whitespace before it, behind the bracket or the comma, and
    `trail` that behind its value; None where that is left open. So are the name and the colon, of one that
    is new."""

    def __init__(self, lead, said, head, value, trail):
        self.lead, self.said, self.head, self.value, self.trail = lead, said, head, value, trail


class Object:
    """An object as it is written. `inside` is the whitespace in one that has no member."""

    def __init__(self, members, inside):
        self.members, self.inside = members, inside

    def last(self, name):
        return next((member for member in reversed(self.members) if member.said == name), None)


def whitespace_behind(text, at):
    end = at
    while text[end] in WHITESPACE:
        end += 1
    return text[at:end]


def written(text, node: Node):
    """An object with its members, and of any other value the text."""
    if node.kind != "object":
        return text[node.start:node.end]
    members, behind = [], node.start + 1
    for start, said, _, child in node.parts:
        trail = whitespace_behind(text, child.end)
        members.append(Member(text[behind:start], said, text[start:child.start], written(text, child), trail))
        behind = child.end + len(trail) + 1
    return Object(members, "" if members else text[node.start + 1:node.end - 1])


def merged_into(was, patch):
    """What stands there after the patch's value, both as they are written."""
    if isinstance(patch, Object):
        into = was if isinstance(was, Object) else copied(patch)
        for number, member in enumerate(patch.members):
            if all(member.said != later.said for later in patch.members[number + 1:]):
                merge_member(into, member)
        return into
    return was if not isinstance(was, Object) and value_of(was) == value_of(patch) else patch


def copied(value):
    if not isinstance(value, Object):
        return value
    members = [Member(one.lead, one.said, one.head, copied(one.value), one.trail) for one in value.members]
    return Object(members, value.inside)


def merge_member(into, member):
    """What was there is changed, and its place stays; what is new goes to the end."""
    there = into.last(member.said)
    if member.value == "null":
        while into.last(member.said):
            take(into, into.last(member.said))
    elif there:
        there.value = merged_into(there.value, member.value)
    else:
        value = copied(member.value)
        put(into, Member(None, member.said, None, merged_into(value, member.value) if isinstance(value, Object) else value, None))


def take(into, member):
    """With the comma and the whitespace up to the next member; the last with that before it."""
    number = into.members.index(member)
    if number + 1 < len(into.members):
        into.members[number + 1].lead = member.lead
    elif number:
        into.members[number - 1].trail = member.trail
    del into.members[number]


def put(into, member):
    if into.members:
        member.trail, into.members[-1].trail = into.members[-1].trail, ""
    else:
        member.trail, into.inside = into.inside, ""
    into.members.append(member)


# ---- what is wanted, as a row of pieces: texts, None for any whitespace, and names by what they say


def pieces_of(value):
    if not isinstance(value, Object):
        return [value]
    pieces = ["{"]
    for number, member in enumerate(value.members):
        pieces += [","] if number else []
        pieces += [member.lead]
        pieces += [("name", member.said), None, ":", None] if member.head is None else [member.head]
        pieces += [*pieces_of(member.value), member.trail]
    return [*pieces, *([] if value.members else [value.inside]), "}"]


def merged(text, patch):
    """The pieces of the new text, and what it says."""
    whole, other = read(text), read(patch)
    changed = merged_into(written(text, whole), written(patch, other))
    return [text[:whole.start], *pieces_of(changed), text[whole.end:]], merged_value(value_of(text), value_of(patch))


def fits(pieces, new):
    at = 0
    for piece in pieces:
        if piece is None:
            at = re.compile(f"[{WHITESPACE}]*").match(new, at).end()
        elif isinstance(piece, tuple):
            name = STRING.match(new, at)
            if not name or json.loads(name[0]) != piece[1]:
                return False
            at = name.end()
        elif not new.startswith(piece, at):
            return False
        else:
            at += len(piece)
    return at == len(new)


def is_merged(text, patch, new):
    """Whether the new text is what the patch leaves of the text."""
    pieces, value = merged(text, patch)
    return fits(pieces, new) and value_of(new) == value


# ---- all bytes, where a merge patch is written with no whitespace


def compact(value):
    return json.dumps(value, ensure_ascii=False, separators=(",", ":"))


def made(text, changes, tokens=()):
    """A text with the value of a merge patch merged into what stands at the tokens, by the changes of
    `texts_model`: what goes with a new member is as there."""
    there, value = at_tokens(read(text), tokens), compact(merged_value(None, changes))
    if not isinstance(changes, dict) or there.kind != "object":
        return text if plain(there) == plain(read(value)) else replaced(text, there, value)
    for name, change in changes.items():
        place = [*tokens, name]
        if at_tokens(read(text), place):
            text = removed(text, place) if change is None else made(text, change, place)
        elif change is not None:
            text = added(text, place, compact(merged_value(None, change)))
    return text
