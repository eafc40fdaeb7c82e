"""Python's jsonpatch as a peer: reads lines, each `[document,patch]`, and answers each with
`ok DOCUMENT`, `refused NUMBER` or `raised NUMBER NAME` where what is raised is no fault of a patch.
The operations are made one by one, so that a refusal has its number."""
import json
import sys

import jsonpatch
import jsonpointer


def answer(line):
    document, patch = json.loads(line)
    for number, operation in enumerate(patch):
        try:
            document = jsonpatch.JsonPatch([operation]).apply(document, in_place=True)
        except (jsonpatch.JsonPatchException, jsonpointer.JsonPointerException):
            return f"refused {number}"
        except Exception as error:
            return f"raised {number} {type(error).__name__}"
    return "ok " + json.dumps(document, ensure_ascii=False, separators=(",", ":"))


for each in sys.stdin:
    print(answer(each))
