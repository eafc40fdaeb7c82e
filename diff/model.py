"""JSON Patch (RFC 6902) and JSON Merge Patch (RFC 7396) on Python values, by the letter of the rules:
what makes the cases, what judges each answer, and what names a disagreement. It is written for that
alone, and is no peer: diff/tables.py holds it against answers that were worked by hand."""

LISTS = list
MAPS = dict


class Refused(Exception):
    """An operation that isn't made, with its kind."""


def copied(value):
    if isinstance(value, MAPS):
        return {name: copied(member) for name, member in value.items()}
    if isinstance(value, LISTS):
        return [copied(item) for item in value]
    return value


def same(a, b):
    """Equality of JSON values, in which true isn't 1, as it is in Python."""
    if isinstance(a, MAPS):
        return isinstance(b, MAPS) and a.keys() == b.keys() and all(same(a[k], b[k]) for k in a)
    if isinstance(a, LISTS):
        return isinstance(b, LISTS) and len(a) == len(b) and all(map(same, a, b))
    return type(a) is type(b) and a == b


def encoded(token):
    return token.replace("~", "~0").replace("/", "~1")


def pointer(tokens):
    return "".join("/" + encoded(token) for token in tokens)


def tokens_of(text):
    return [part.replace("~1", "/").replace("~0", "~") for part in text.split("/")[1:]]


def all_diverge(pointers, others):
    """Whether none begins one of the others, or is begun by one."""
    return all(p[: len(q)] != q[: len(p)] for p in pointers for q in others)


class Model:
    def place(self, token):
        """The number that a token names, or None."""
        digits = token.isascii() and token.isdigit()
        return int(token) if digits and (token == "0" or token[0] != "0") else None

    def child(self, value, token):
        if isinstance(value, MAPS):
            if token in value:
                return value[token]
        elif isinstance(value, LISTS):
            place = self.place(token)
            if place is not None and place < len(value):
                return value[place]
        raise Refused("InvalidPointer")

    def found(self, document, tokens):
        for token in tokens:
            document = self.child(document, token)
        return document

    def added(self, document, tokens, value):
        if not tokens:
            return value
        parent = self.found(document, tokens[:-1])
        last = tokens[-1]
        if isinstance(parent, MAPS):
            parent[last] = value
            return document
        if isinstance(parent, LISTS):
            place = len(parent) if last == "-" else self.place(last)
            if place is not None and place <= len(parent):
                parent.insert(place, value)
                return document
        raise Refused("InvalidPointer")

    def removed(self, document, tokens):
        if not tokens:
            raise Refused("InvalidPointer")
        parent = self.found(document, tokens[:-1])
        self.child(parent, tokens[-1])
        del parent[tokens[-1] if isinstance(parent, MAPS) else self.place(tokens[-1])]
        return document

    def replaced(self, document, tokens, value):
        if not tokens:
            return value
        parent = self.found(document, tokens[:-1])
        self.child(parent, tokens[-1])
        parent[tokens[-1] if isinstance(parent, MAPS) else self.place(tokens[-1])] = value
        return document

    def source(self, document, tokens):
        try:
            return self.found(document, tokens)
        except Refused:
            raise Refused("InvalidFromPointer") from None

    def moved(self, document, source, target):
        if source == target[: len(source)] and len(source) < len(target):
            raise Refused("CannotMoveInsideItself")
        document = copied(document)
        value = self.source(document, source)
        if not source:
            raise Refused("InvalidFromPointer")
        return self.added(self.removed(document, source), target, value)

    def tested(self, document, tokens, value):
        if not same(self.found(document, tokens), value):
            raise Refused("TestFailed")
        return document

    def step(self, document, operation):
        """The document after the operation. A document is changed for it only where it is accepted."""
        name, tokens = operation["op"], tokens_of(operation["path"])
        if name == "add":
            return self.added(document, tokens, copied(operation["value"]))
        if name == "remove":
            return self.removed(document, tokens)
        if name == "replace":
            return self.replaced(document, tokens, copied(operation["value"]))
        if name == "move":
            return self.moved(document, tokens_of(operation["from"]), tokens)
        if name == "copy":
            return self.added(document, tokens, copied(self.source(document, tokens_of(operation["from"]))))
        return self.tested(document, tokens, operation["value"])

    def merged(self, document, changes):
        if not isinstance(changes, MAPS):
            return copied(changes)
        members = copied(document) if isinstance(document, MAPS) else {}
        for name, change in changes.items():
            if change is None:
                members.pop(name, None)
            else:
                members[name] = self.merged(members.get(name), change)
        return members

    def reach(self, tokens):
        """All that an add or a remove there may change."""
        place = tokens and (tokens[-1] == "-" or self.place(tokens[-1]) is not None)
        return tokens[:-1] if place else tokens

    def footprint(self, operation):
        """The pointers of what the operation changes, and of what it only reads."""
        name, tokens = operation["op"], tokens_of(operation["path"])
        if name == "test":
            return [], [tokens]
        if name == "replace":
            return [tokens], []
        if name == "move":
            return [self.reach(tokens_of(operation["from"])), self.reach(tokens)], []
        return [self.reach(tokens)], [tokens_of(operation["from"])] if name == "copy" else []

    def are_apart(self, xs, ys):
        """Whether no operation of the one list changes what one of the other changes or reads."""
        pairs = [(self.footprint(x), self.footprint(y)) for x in xs for y in ys]
        return all(
            all_diverge(changed, changed_there + read_there) and all_diverge(changed_there, read)
            for (changed, read), (changed_there, read_there) in pairs
        )

    def answer(self, mode, document, changes):
        """The answer that is right: the document, or a refusal with its number, path and kind and with
        what is left of the document. The inverse of a recorded run is no part of it."""
        if mode == "apart":
            return ("ok", self.are_apart(document, changes))
        if mode == "merge":
            return ("ok", self.merged(document, changes))
        state = copied(document)
        for number, operation in enumerate(changes):
            try:
                state = self.step(state, operation)
            except Refused as kind:
                left = state if mode == "unsafe" else document
                return ("refused", number, operation["path"], str(kind), left)
        return ("ok", state)

    def before(self, document, operations, number):
        """The document before the operation of that number, the ones before it accepted."""
        document = copied(document)
        for operation in operations[:number]:
            document = self.step(document, operation)
        return document
