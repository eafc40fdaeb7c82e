"""Where a list of operations is over limits, in plain Python: written from the definitions (docs and
crates/json_patch_limits/specs/OverLimits.antt), and from nothing that computes them. It goes beside
diff/model.py, which makes the operations; diff/limits_tables.py holds it against answers that were
worked by hand."""
from model import LISTS, MAPS, Model, Refused, copied, tokens_of

TOO_DEEP, TOO_MUCH = "TooDeep", "TooMuch"


def below(value):
    """The values that stand right in this one."""
    if isinstance(value, MAPS):
        return list(value.values())
    return value if isinstance(value, LISTS) else []


def levels(value):
    """How many arrays and objects stand round the innermost value."""
    if not isinstance(value, (MAPS, LISTS)):
        return 0
    return 1 + max(map(levels, below(value)), default=0)


def size(value):
    """One for each value in it, itself included, and one for each byte of its strings and names."""
    own = len(value.encode()) if isinstance(value, str) else 0
    names = sum(len(name.encode()) for name in value) if isinstance(value, MAPS) else 0
    return 1 + own + names + sum(map(size, below(value)))


class LimitsModel:
    def __init__(self):
        self.model = Model()

    def found(self, document, pointer):
        """A list with what stands there, or an empty one."""
        try:
            return [self.model.found(document, tokens_of(pointer))]
        except Refused:
            return []

    def reach(self, document, operation):
        """How deep the value stands that the operation puts, with its own levels; 0 where it puts none,
        or moves one to where no more tokens lead than from where it takes it."""
        name, path = operation["op"], len(tokens_of(operation["path"]))
        if name in ("remove", "test"):
            return 0
        if name in ("add", "replace"):
            return path + levels(operation["value"])
        if name == "move" and path <= len(tokens_of(operation["from"])):
            return 0
        return max((path + levels(value) for value in self.found(document, operation["from"])), default=0)

    def copies(self, document, operation, recorded):
        """How much of the document it copies: in a recorded run also what it moves, which the inverse holds."""
        if operation["op"] != "copy" and not (recorded and operation["op"] == "move"):
            return 0
        return sum(map(size, self.found(document, operation["from"])))

    def answer(self, document, operations, depth, allowed, recorded):
        """What comes of the list, in a run that is recorded or isn't: the document that it leaves, the
        first operation that is over and its kind, or the one that is refused, with its path and kind."""
        state = copied(document)
        for number, operation in enumerate(operations):
            if self.reach(state, operation) > depth:
                return ("over", number, TOO_DEEP)
            much = self.copies(state, operation, recorded)
            if much > allowed:
                return ("over", number, TOO_MUCH)
            allowed -= much
            try:
                state = self.model.step(state, operation)
            except Refused as kind:
                return ("refused", number, operation["path"], str(kind))
        return ("ok", state)
