"""What an import takes, and what exceptions carry from process to process."""
import copy
import pickle
import subprocess
import sys
import unittest

import json_patch
from json_patch import JsonPatchConflict, JsonPointerException, _native, apply_patch


class Imports(unittest.TestCase):
    def test_what_takes_long(self):
        """The first call that wants it imports it, or who checks types."""
        code = "import sys; before = set(sys.modules); import json_patch; print(*set(sys.modules) - before)"
        new = set(subprocess.run([sys.executable, "-c", code], stdout=subprocess.PIPE, text=True, check=True).stdout.split())
        self.assertIn("json_patch", new)
        self.assertEqual(new & {"collections", "ctypes", "dataclasses", "inspect", "json", "pathlib", "re", "threading", "typing", "urllib"}, set())

    def test_version(self):
        self.assertEqual(json_patch.__version__, _native.VERSION)


class Exceptions(unittest.TestCase):
    def test_copies(self):
        for call in (lambda: apply_patch({}, [{"op": "remove", "path": "/a"}]), lambda: json_patch.JsonPointer("a")):
            with self.assertRaises((JsonPatchConflict, JsonPointerException)) as caught:
                call()
            error = caught.exception
            for made in (pickle.loads(pickle.dumps(error)), copy.copy(error)):
                self.assertIs(type(made), type(error))
                self.assertEqual((str(made), vars(made)), (str(error), vars(error)))


if __name__ == "__main__":
    unittest.main()
