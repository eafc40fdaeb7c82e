"""What the operations of a list leave, one after another, and the patch that leads back: worked by
diff/model.py. memory/run holds that against the answers of diff/tables.py, which were worked by hand, and
what stands here against the inputs of cases.py whose states and inverse were worked by hand too."""
import sys
from pathlib import Path

from patches import add, pointer, remove, replace

sys.path.append(str(Path(__file__).resolve().parent.parent / "diff"))
from model import Model, Refused, copied, tokens_of  # noqa: E402

MODEL = Model()


def at(document, tokens):
    """What stands there in the document, or None."""
    try:
        return MODEL.found(document, tokens)
    except Refused:
        return None


def undo_of_put(document, path):
    """What takes back a value that was put in there: the place may be the end of an array."""
    tokens = tokens_of(path)
    parent = at(document, tokens[:-1])
    if tokens and isinstance(parent, list):
        place = str(len(parent)) if tokens[-1] == "-" else tokens[-1]
        return remove(pointer([*tokens[:-1], place]))
    if tokens and tokens[-1] not in parent:
        return remove(path)
    return replace(path, copied(at(document, tokens)))


def inverse_of(document, operation):
    """The operations that take back one operation, which the document accepts."""
    name, path = operation["op"], operation["path"]
    if name == "test":
        return []
    if name == "remove":
        return [add(path, copied(at(document, tokens_of(path))))]
    if name == "replace":
        return [replace(path, copied(at(document, tokens_of(path))))]
    if name in ("add", "copy"):
        return [undo_of_put(document, path)]
    source = tokens_of(operation["from"])
    without = MODEL.removed(copied(document), source)
    return [undo_of_put(without, path), add(operation["from"], copied(at(document, source)))]


def worked(document, operations):
    """The states, the first included, and the inverse: the last operation's first."""
    states, inverse = [document], []
    for operation in operations:
        inverse = inverse_of(states[-1], operation) + inverse
        states.append(MODEL.step(copied(states[-1]), operation))
    return states, inverse
