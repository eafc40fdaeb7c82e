"""A refusal as our programs say it: its number, path and reason, and the kind that each reason is of."""
import re

REFUSAL = re.compile(r"operation '/(\d+)' failed at path '(.*)': (.*)", re.DOTALL)
KINDS = {
    "value did not match": "TestFailed",
    "path is invalid": "InvalidPointer",
    '"from" path is invalid': "InvalidFromPointer",
    "cannot move the value inside itself": "CannotMoveInsideItself",
}
