"""Random cases, the same for one seed: a document and a patch, or a document and a merge patch."""
import random

from model import Model, Refused, copied, pointer

NAMES = ["a", "b", "c", "", "/", "~", "~1", "~01", "m~n", "a/b", "-", "0", "01", "1", "\u00e9", 'k"l', "\\", "\n", " ", "ab"]
ATOMS = [None, True, False, 0, 1, 2, -1, 18446744073709551615, -9223372036854775808,
         9223372036854775807, 9223372036854775808, "", "x", "text", "~0", "/", "\u00e9\U0001F600", "\u0001"]
BAD_TOKENS = ["00", "01", "+1", "-1", "1a", " ", "18446744073709551615", "18446744073709551616", "-", ""]
OPERATIONS = ["add", "add", "remove", "replace", "move", "move", "copy", "test"]
# of the dense lists, which take away and put in again and again at so many places
DENSE = ["remove", "remove", "remove", "move", "move", "move", "add", "add", "copy", "test", "replace"]
PLACES = 4
LONGEST = 30


class Cases:
    def __init__(self, seed):
        self.random = random.Random(seed)
        self.model = Model()

    def value(self, depth=3):
        roll = self.random.random()
        if depth == 0 or roll < (0.4 if depth < 3 else 0.05):
            return self.random.choice(ATOMS)
        count = self.random.randrange(4)
        if roll < 0.7:
            return [self.value(depth - 1) for _ in range(count)]
        return {self.random.choice(NAMES): self.value(depth - 1) for _ in range(count)}

    def way(self, document):
        """The tokens of something that stands in the document, mostly not at the root."""
        tokens = []
        onwards = 0.99
        while isinstance(document, (dict, list)) and document and self.random.random() < onwards:
            onwards = 0.7
            if isinstance(document, dict):
                name = self.random.choice(list(document))
                tokens.append(name)
                document = document[name]
            else:
                place = self.random.randrange(len(document))
                tokens.append(str(place))
                document = document[place]
        return tokens, document

    def target(self, document):
        """The tokens of a place for a value, or now and then of none."""
        tokens, found = self.way(document)
        roll = self.random.random()
        if roll < 0.1:
            return tokens
        if roll < 0.15:
            return tokens + [self.random.choice(BAD_TOKENS)]
        if isinstance(found, dict):
            return tokens + [self.random.choice(NAMES)]
        if isinstance(found, list):
            return tokens + [self.random.choice(["-", str(len(found)), str(self.random.randrange(len(found) + 2))])]
        return tokens

    def source(self, document):
        tokens, _ = self.way(document)
        if self.random.random() < 0.05:
            tokens = tokens + [self.random.choice(BAD_TOKENS)]
        return tokens

    def operation(self, document):
        name = self.random.choice(OPERATIONS)
        return self.operation_at(document, name, lambda: self.source(document), lambda: self.target(document))

    def dense_operation(self, document, places):
        """An operation at one of the places, or at something that stands at one or below."""
        def source():
            tokens = self.random.choice(places)
            try:
                below, _ = self.way(self.model.found(document, tokens))
            except Refused:
                return tokens
            return tokens + below if self.random.random() < 0.3 else tokens

        return self.operation_at(document, self.random.choice(DENSE), source, source)

    def operation_at(self, document, name, source, target):
        if name == "add":
            return {"op": name, "path": pointer(target()), "value": self.value(2)}
        if name in ("move", "copy"):
            return {"op": name, "from": pointer(source()), "path": pointer(target())}
        tokens = source()
        if name == "remove":
            return {"op": name, "path": pointer(tokens)}
        if name == "replace":
            return {"op": name, "path": pointer(tokens), "value": self.value(2)}
        try:
            value = self.model.found(document, tokens)
        except Refused:
            value = None
        if self.random.random() < 0.1:
            value = self.value(1)
        return {"op": name, "path": pointer(tokens), "value": copied(value)}

    def patch_case(self):
        """A document and a list of up to thirty operations, of which most are accepted."""
        document = self.value()
        return self.list_on(document, self.random.randrange(LONGEST + 1), 0.1, self.operation)

    def dense_case(self):
        """The same, dense in `remove` and `move` at few places, so that a list finds again and again
        what it took away."""
        document = self.value()
        places = [self.target(document) for _ in range(PLACES)]
        tries = self.random.randrange(2 * LONGEST + 1)
        return self.list_on(document, tries, 0.02, lambda state: self.dense_operation(state, places))

    def pair_case(self):
        """A document, and two lists on it that are dense at few places: half of them at children of one
        parent, the one list's and the other's."""
        crowded = [self.value() for _ in range(self.random.randrange(2, 5))]
        named = dict(zip(self.random.sample(NAMES, len(crowded)), crowded))
        document = self.random.choice([crowded, named])
        mine = [self.target(document) for _ in range(self.random.randrange(1, 4))]
        yours = [self.target(document) for _ in range(self.random.randrange(1, 4))]
        if self.random.random() < 0.5:
            children = self.children(document)
            cut = self.random.randrange(1, len(children))
            mine, yours = children[:cut], children[cut:]
        return [document, self.list_at(document, mine), self.list_at(document, yours)]

    def children(self, document):
        """The tokens of the children of a parent that has two or more, or of places below them, in any
        order."""
        tokens, found = self.way(document)
        while not isinstance(found, (dict, list)) or len(found) < 2:
            tokens = tokens[:-1]
            found = self.model.found(document, tokens)
        names = list(found) if isinstance(found, dict) else [str(place) for place in range(len(found))]
        self.random.shuffle(names)
        return [tokens + [name] + self.target(self.model.child(found, name)) for name in names]

    def list_at(self, document, places):
        """A list at the places, of one operation or more."""
        tries, made = self.random.randrange(1, 9), []
        while not made:
            made = self.list_on(document, tries, 0.1, lambda state: self.dense_operation(state, places))[1]
        return made

    def list_on(self, document, tries, refused, next_operation):
        """A list of what is tried; of what would be refused, so large a share is taken."""
        state, operations = copied(document), []
        for _ in range(tries):
            operation = next_operation(state)
            ended, after = self.after(state, operation)
            if ended and self.random.random() >= refused:
                continue
            operations.append(operation)
            if ended and self.random.random() < 0.9:
                break
            state = after
        return [document, operations]

    def after(self, state, operation):
        try:
            return False, self.model.step(state, operation)
        except Refused:
            return True, state

    def merge_case(self):
        return [self.value(), self.value()]
