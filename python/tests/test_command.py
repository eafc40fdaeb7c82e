"""The command json-patch, through a shell: what it writes, how it ends, and what it leaves."""
import json
import os
import shutil
import signal
import stat
import subprocess
import sys
import tempfile
import unittest
from pathlib import Path

import json_patch

MODULE = f"'{sys.executable}' -m json_patch"
# where the package is installed there is a program, too
COMMAND = shutil.which("json-patch") or MODULE
DOCUMENT = '{ "b": [1, 2], "a": "\\u00e9" }'
PATCH = '[{"op": "move", "from": "/b/0", "path": "/c"}]'
PATCHED = '{ "b": [2], "a": "\\u00e9", "c": 1 }'
# seconds after which a command hangs: on a loaded machine one that ends at once was seen to take more than 60
HANGS = 600
INVERSE = [{"op": "remove", "path": "/c"}, {"op": "add", "path": "/b/0", "value": 1}]


class Command(unittest.TestCase):
    def setUp(self):
        self.folder = Path(tempfile.mkdtemp())
        self.addCleanup(shutil.rmtree, self.folder)
        self.write("d.json", DOCUMENT)
        self.write("p.json", PATCH)

    def write(self, name, text):
        (self.folder / name).write_text(text, encoding="utf-8")

    def text(self, name):
        return (self.folder / name).read_text(encoding="utf-8")

    def run_lines(self, lines):
        """What a shell's lines write, and the status of the last."""
        lines = f"json-patch() {{ {COMMAND} \"$@\"; }}\n{lines}"
        done = subprocess.run(["bash", "-c", lines], cwd=self.folder, capture_output=True, timeout=HANGS)
        return done.stdout.decode(), done.stderr.decode(), done.returncode

    def assertDoes(self, lines, written=""):
        self.assertEqual(self.run_lines(lines), (written, "", 0), lines)

    def assertEnds(self, status, told, lines):
        """It ends with a status, one line on standard error and nothing written, and the document stays."""
        self.assertEqual(self.run_lines(lines), ("", f"json-patch: {told}\n", status), lines)
        self.assertEqual(self.text("d.json"), DOCUMENT)
        self.assertEqual([path.name for path in self.folder.iterdir() if path.name[0] == "."], [])

    def test_apply(self):
        self.assertDoes("json-patch apply d.json p.json", PATCHED)
        self.assertDoes("json-patch apply d.json - < p.json", PATCHED)
        self.assertDoes("json-patch apply d.json < p.json", PATCHED)
        self.assertDoes("cat d.json | json-patch apply - p.json", PATCHED)
        self.assertDoes("json-patch apply -u d.json p.json", PATCHED)
        self.assertDoes(f"{MODULE} apply d.json p.json", PATCHED)
        self.assertDoes("json-patch apply --indent 2 d.json p.json", '{\n  "b": [\n    2\n  ],\n  "a": "\\u00e9",\n  "c": 1\n}\n')

    def test_any_numbers(self):
        """Where the text is kept."""
        self.write("half.json", '{\n  "a": 1.50,\n  "b": 1e400\n}\n')
        self.write("p.json", '[{"op": "test", "path": "/a", "value": 1.5}, {"op": "copy", "from": "/a", "path": "/c"}, {"op": "remove", "path": "/b"}]')
        self.assertDoes("json-patch apply half.json p.json", '{\n  "a": 1.50,\n  "c": 1.50\n}\n')
        self.assertDoes("json-patch get half.json /b", "1e400\n")
        self.assertDoes("json-patch apply --indent 1 half.json p.json", '{\n "a": 1.50,\n "c": 1.50\n}\n')
        self.write("half.json", '{"a": 1.50}')
        self.assertDoes("json-patch get --indent 1 half.json ''", '{\n "a": 1.50\n}\n')
        self.write("p.json", '[{"op": "test", "path": "/a", "value": 15e-1}, {"op": "replace", "path": "/a", "value": 2.25}]')
        self.assertDoes("json-patch record half.json p.json i; echo; cat i", '{"a": 2.25}\n[{"op":"replace","path":"/a","value":1.50}]\n')
        self.assertDoes("json-patch record -i half.json p.json i; json-patch apply half.json i", '{"a": 1.50}')
        self.write("half.json", '{"a": 1.50}')
        self.write("m.json", '{"b": 1e400, "a": 15e-1}')
        self.assertDoes("json-patch merge half.json m.json", '{"a": 1.50,"b": 1e400}')

    def test_merge(self):
        self.write("m.json", '{"a": null, "d": {"e": null}}')
        self.assertDoes("json-patch merge d.json m.json", '{ "b": [1, 2], "d": {} }')
        self.assertDoes("json-patch merge --indent 0 d.json m.json | tr -d ' \\n'; echo", '{"b":[1,2],"d":{}}\n')

    def test_record(self):
        self.assertDoes("json-patch record d.json p.json inverse.json", PATCHED)
        self.assertEqual(json.loads(self.text("inverse.json")), INVERSE)
        self.assertDoes("json-patch record -i d.json p.json inverse.json && json-patch apply d.json inverse.json", '{ "b": [1,2], "a": "\\u00e9" }')
        # what was displaced has the bytes that it had
        self.write("d.json", DOCUMENT)
        self.write("all.json", '[{"op": "replace", "path": "", "value": 1e400}]')
        self.assertDoes("json-patch record d.json all.json i && json-patch apply i <<< '[{\"op\":\"remove\",\"path\":\"/0/op\"}]'", f'1e400[{{"path":"","value":{DOCUMENT}}}]\n')
        self.write("d.json", DOCUMENT)
        self.assertDoes("json-patch record --indent 0 d.json p.json i | tr -d ' \\n'; echo", PATCHED.replace(" ", "") + "\n")

    def test_diff(self):
        self.write("to.json", '{"a": "\u00e9", "b": [1, 2, 3]}')
        made = '[{"op":"add","path":"/b/2","value":3}]\n'
        self.assertDoes("json-patch diff d.json to.json", made)
        self.assertDoes("json-patch diff d.json - < to.json", made)
        self.assertDoes("json-patch diff d.json < to.json", made)
        self.assertDoes("json-patch diff - to.json < d.json", made)
        self.assertDoes("json-patch diff -u --limit-depth 2 d.json to.json", made)
        self.assertDoes("json-patch diff --indent 1 d.json to.json", json.dumps(json.loads(made), indent=1) + "\n")
        self.assertDoes("json-patch diff d.json to.json | json-patch apply d.json", '{ "b": [1, 2, 3], "a": "\\u00e9" }')
        self.assertDoes("json-patch diff to.json d.json | json-patch apply to.json", '{"a": "\u00e9", "b": [1, 2]}')
        self.assertDoes("json-patch diff d.json d.json", "[]\n")
        self.assertEqual(self.text("d.json"), DOCUMENT)

    def test_diff_of_any_numbers(self):
        self.write("one.json", '{"price": 1.50, "large": 1e400, "tags": ["new", "red"]}')
        self.write("other.json", '{"large": 10e399, "price": 2.50, "tags": ["new", "red"]}')
        made = '[{"op":"replace","path":"/price","value":2.50}]\n'
        self.assertDoes("json-patch diff one.json other.json", made)
        self.assertDoes("json-patch diff one.json other.json | json-patch check", "")
        self.assertDoes("json-patch diff one.json other.json | json-patch apply one.json", '{"price": 2.50, "large": 1e400, "tags": ["new", "red"]}')
        self.assertDoes("json-patch diff --indent 2 one.json other.json | tr -d ' \\n'; echo", made)

    def test_diff_with_moves(self):
        self.write("one.json", '{"draft": [1.50, 1e400]}')
        self.write("other.json", '{"title": [1.5, 10e399]}')
        self.assertDoes("json-patch diff --moves one.json other.json", '[{"from":"/draft","op":"move","path":"/title"}]\n')
        self.assertDoes("json-patch diff --moves one.json other.json | json-patch apply one.json", '{"title":[1.50, 1e400]}')

    def test_diff_with_tests(self):
        self.write("one.json", '{"price": 1.50, "large": 1e400}')
        self.write("other.json", '{"price": 2.50, "large": 10e399}')
        self.write("third.json", '{"price": 1.5, "tags": []}')
        made = '[{"op":"test","path":"/price","value":1.50},{"op":"replace","path":"/price","value":2.50}]'
        self.assertDoes("json-patch diff --guarded one.json other.json", made + "\n")
        self.assertDoes("json-patch diff --guarded one.json other.json | json-patch apply third.json", '{"price": 2.50, "tags": []}')
        refused = 'standard input: operation 0: path "/price": TestFailed'
        self.assertEnds(1, refused, "json-patch diff --guarded one.json other.json | json-patch apply other.json")

    def test_diff_refused(self):
        self.write("bad", "[1")
        for told, arguments in (
            ("none: No such file or directory", "none d.json"), ("none: No such file or directory", "d.json none"),
            ("bad: NotJson", "bad d.json"), ("bad: NotJson", "d.json bad"), ("bad: NotJson", "bad bad"),
            ("standard input: NotJson", "d.json < bad"), ("d.json: TooDeep", "--limit-depth 1 d.json d.json"),
            ("d.json: TooDeep", "--limit-depth 1 - d.json <<< 1"),
        ):
            self.assertEnds(2, told, f"json-patch diff {arguments}")
        for arguments in ("", "- -", "-", "d.json --limit-bytes 1", "d.json p.json -i", "d.json p.json -m --moves", "d.json p.json --moves --guarded"):
            written, _, status = self.run_lines(f"json-patch diff {arguments} < d.json")
            self.assertEqual((written, status), ("", 64), arguments)

    def test_diff_merge(self):
        self.write("to.json", '{"b": [1.0, 2], "c": {"d": 1.50}}')
        made = '{"a":null,"c":{"d":1.50}}\n'
        self.assertDoes("json-patch diff --merge d.json to.json", made)
        self.assertDoes("json-patch diff -m d.json < to.json", made)
        self.assertDoes("json-patch diff -m --indent 1 --limit-depth 2 - to.json < d.json", json.dumps({"a": None, "c": {"d": 1.5}}, indent=1).replace("1.5", "1.50") + "\n")
        self.assertDoes("json-patch diff -m d.json to.json | json-patch merge d.json", '{ "b": [1, 2], "c": {"d":1.50} }')
        self.assertDoes("json-patch diff -m d.json d.json", "{}\n")
        self.write("to.json", '{"a": {"b": null}}')
        self.assertEnds(1, "to.json: Impossible", "json-patch diff -m d.json to.json")
        self.assertEnds(1, "standard input: Impossible", "json-patch diff -m d.json < to.json")
        self.write("bad", "[1")
        for told, arguments in (("bad: NotJson", "bad to.json"), ("bad: NotJson", "d.json bad"), ("to.json: TooDeep", "--limit-depth 1 - to.json <<< 1")):
            self.assertEnds(2, told, f"json-patch diff -m {arguments}")

    def test_get(self):
        self.assertDoes("json-patch get d.json /b", "[1, 2]\n")
        self.assertDoes("json-patch get - '' < d.json", DOCUMENT + "\n")
        self.assertDoes("json-patch get --indent 0 d.json /b | tr -d '\\n'; echo", "[1,2]\n")
        self.assertEnds(1, 'd.json: path "/b/2": Nothing', "json-patch get d.json /b/2")
        self.assertEnds(2, 'd.json: path "b": NoPointer', "json-patch get d.json b")

    def test_check(self):
        self.assertDoes("json-patch check p.json")
        self.assertDoes("json-patch check < p.json")
        self.write("p.json", '[{"op": "remove", "path": ""}, {"op": "add"}]')
        self.assertEnds(2, "p.json: operation 1: MissingPath", "json-patch check p.json")

    def test_in_place(self):
        (self.folder / "d.json").chmod(0o640)
        (self.folder / "link").symlink_to("d.json")
        self.assertDoes("json-patch apply --in-place --backup link p.json")
        self.assertEqual((self.text("d.json"), self.text("d.json.orig")), (PATCHED, DOCUMENT))
        self.assertEqual(stat.S_IMODE((self.folder / "d.json").stat().st_mode), 0o640)
        self.assertTrue((self.folder / "link").is_symlink())
        self.assertDoes("echo '{\"a\": null}' | json-patch merge -i --indent 1 d.json")
        self.assertEqual(self.text("d.json"), '{\n "b": [\n  2\n ],\n "c": 1\n}\n')
        self.assertEqual({path.name for path in self.folder.iterdir()}, {"d.json", "d.json.orig", "link", "p.json"})

    def test_refused(self):
        self.write("p.json", '[{"op": "test", "path": "/a", "value": "\u00e9"}, {"op": "remove", "path": "/c\\n\u00e9"}]')
        told = 'p.json: operation 1: path "/c\\n\\u00e9": InvalidPointer'
        for options in ("", "-i", "-ib"):
            self.assertEnds(1, told, f"json-patch apply {options} d.json p.json")
        self.assertEnds(1, told, "json-patch record -i d.json p.json inverse.json")
        self.assertFalse((self.folder / "inverse.json").exists())
        self.write("p.json", '[{"op": "test", "path": "/a", "value": 1}]')
        self.assertEnds(1, 'standard input: operation 0: path "/a": TestFailed', "json-patch apply d.json < p.json")

    def test_paths_in_visible_characters(self):
        """Of those that a JSON text may have, no terminal is sent one that it doesn't show."""
        path = "/" + "".join(map(chr, range(0xA0))).replace("~", "~0")
        told = "/" + "".join(f"\\u{n:04x}" for n in range(32)) + json.dumps(path[33:])[1:-1]
        for short, n in zip("btnfr", (8, 9, 10, 12, 13)):
            told = told.replace(f"\\u{n:04x}", "\\" + short)
        self.assertTrue(told.isprintable() and told.isascii())
        self.write("p.json", json.dumps([{"op": "remove", "path": path}]))
        self.assertEnds(1, f'p.json: operation 0: path "{told}": InvalidPointer', "json-patch apply d.json p.json")
        self.assertEnds(1, 'd.json: path "/a\\u007f\\u009b": Nothing', "json-patch get d.json $'/a\\x7f\\u009b'")
        written, fault, status = self.run_lines("json-patch check $'p.json' $'a\\n\\x7f\\e[m'")
        self.assertEqual((written, fault, status), ("", "json-patch: unrecognized arguments: a\\n\\x7f\\x1b[m (see json-patch --help)\n", 64))

    def test_unreadable(self):
        self.write("bad", "[1.5")
        self.write("half", "[1.5]")
        self.write("line\nfeed", "7")
        for told, arguments in (
            ("none: No such file or directory", "apply none p.json"), (".: Is a directory", "apply d.json ."),
            ("bad: NotJson", "apply bad p.json"), ("bad: NotJson", "record bad p.json i"), ("half: operation 0: NotAnObject", "record d.json half i"),
            ("bad: NotJson", "apply d.json bad"), ("half: operation 0: NotAnObject", "apply d.json half"),
            ("'line\\nfeed': NotAList", "apply d.json line*"), ("bad: NotJson", "merge --indent 1 d.json bad"),
            ("d.json: NotAList", "record d.json d.json i"), ("bad: NotJson", "get bad /a"), ("half: operation 0: NotAnObject", "check half"),
        ):
            self.assertEnds(2, told, f"json-patch {arguments}")

    def test_limits(self):
        self.write("p.json", '[{"op": "test", "path": "/b/0", "value": 1}, {"op": "copy", "from": "/b", "path": "/b/-"}]')
        made = '{ "b": [1, 2, [1, 2]], "a": "\\u00e9" }'
        self.assertDoes("json-patch apply --limit-depth 3 --limit-bytes 0 d.json p.json", made)
        self.assertDoes("json-patch record --limit-depth=3 --limit-bytes=0 d.json p.json i", made)
        for options in ("", "-i", "-ib"):
            self.assertEnds(1, 'p.json: operation 1: path "/b/-": TooDeep', f"json-patch apply {options} --limit-depth 2 d.json p.json")
            self.assertEnds(1, 'p.json: operation 1: path "/b/-": TooDeep', f"json-patch record {options} --limit-depth 2 d.json p.json j")
        self.assertFalse((self.folder / "j").exists())
        for command in ("apply --limit-operations 1 d.json p.json", "record -i --limit-operations=1 d.json p.json j"):
            self.assertEnds(1, 'p.json: operation 1: path "/b/-": TooMany', f"json-patch {command}")
        self.assertDoes("json-patch apply --limit-operations 2 d.json p.json", made)
        # the document has 104 bytes, the patch 39, and the copy leaves 207
        self.write("long.json", json.dumps(["x" * 100]))
        self.write("p.json", '[{"op":"copy","from":"/0","path":"/0"}]')
        self.assertDoes("json-patch apply --limit-bytes 64 long.json p.json | wc -c", "207\n")
        self.assertDoes("json-patch record --limit-bytes 64 long.json p.json i | wc -c; cat i", '207\n[{"op":"remove","path":"/0"}]\n')
        for command in ("apply --limit-bytes 63 long.json p.json", "record --limit-bytes 63 long.json p.json j", "record -i --limit-bytes 63 long.json p.json j"):
            self.assertEnds(1, 'p.json: operation 0: path "/0": TooMuch', f"json-patch {command}")
        # nor may the inverse be longer, which holds what each operation displaces
        self.write("moves.json", json.dumps([{"op": "move", "from": "/0", "path": "/0"}] * 9))
        sizes, _, status = self.run_lines("json-patch record long.json moves.json i > made; cmp made long.json && cat i | wc -c; cat long.json moves.json | wc -c")
        inverse, both = map(int, sizes.split())
        spare = inverse - 1 - both
        self.assertGreater(spare, 0)
        self.assertDoes(f"json-patch record --limit-bytes {spare} long.json moves.json i | cmp - long.json")
        for options in ("", "-i"):
            self.assertEnds(1, 'moves.json: operation 8: path "/0": TooMuch', f"json-patch record {options} --limit-bytes {spare - 1} long.json moves.json j")
        self.assertDoes("json-patch apply --limit-bytes 0 long.json moves.json | cmp - long.json")
        self.assertFalse((self.folder / "j").exists())
        self.write("m.json", '{"b": {"c": [1]}}')
        self.assertDoes("json-patch merge --limit-depth 3 d.json m.json", '{ "b": {"c": [1]}, "a": "\\u00e9" }')
        self.assertEnds(2, "m.json: TooDeep", "json-patch merge --limit-depth 2 d.json m.json")
        # 9 bytes and 7 are merged to 17
        self.write("two.json", '{ "a": 1}')
        self.write("add.json", '{"b":2}')
        self.assertDoes("json-patch merge --limit-bytes 1 two.json add.json", '{ "a": 1, "b": 2}')
        self.assertEnds(1, "add.json: TooMuch", "json-patch merge --limit-bytes 0 two.json add.json")
        for command in ("apply", "merge"):
            self.assertEnds(2, "d.json: TooDeep", f"json-patch {command} --limit-depth 1 d.json m.json")

    def test_what_nests_too_deep(self):
        for name, text in (("125", "[" * 125 + "]" * 125), ("brackets", "[" * 1_000_000)):
            self.write(name, text)
            for command in ("apply", "merge"):
                self.assertEnds(2, f"{name}: TooDeep", f"json-patch {command} {name} p.json")
            self.assertEnds(2, f"{name}: TooDeep", f"json-patch record -i {name} p.json i")
            self.assertEnds(2, f"{name}: TooDeep", f"json-patch merge -i d.json {name}")
        self.assertEnds(2, "brackets: TooDeep", "json-patch apply -i d.json brackets")
        self.assertEnds(2, "brackets: TooDeep", "json-patch check brackets")
        self.assertEnds(2, "brackets: TooDeep", "json-patch get brackets ''")
        self.write("124", "[" * 124 + "]" * 124)
        self.assertDoes("json-patch apply --indent 1 124 <<< '[]' | tr -d ' \\n'; echo", "[" * 124 + "]" * 124 + "\n")
        self.assertDoes("json-patch apply 124 <<< '[]'", "[" * 124 + "]" * 124)
        # on a small stack: number n finds 2 * 2**n levels, and puts them as many deep
        self.write("d.json", '{"b":[]}')
        self.write("p.json", json.dumps([{"op": "copy", "from": "", "path": "/b/0" * 2**n} for n in range(16)]))
        written, told, status = self.run_lines("ulimit -s 256; json-patch apply -i d.json p.json")
        self.assertEqual((written, told.count("\n"), status), ("", 1, 1), told)
        self.assertTrue(told.startswith("json-patch: p.json: operation 5: ") and told.endswith("TooDeep\n"), told)

    def test_usage(self):
        for arguments in (
            "", "spam", "apply", "get d.json", "apply - -", "apply -", "apply -i - p.json", "apply -b d.json p.json", "apply --indent x d.json p.json",
            "apply --indent -1 d.json p.json", "record d.json p.json", "record d.json p.json d.json", "record d.json p.json ./p.json",
            "record d.json p.json -", "check a b", "apply --spam d.json p.json", "apply --limit-depth 125 d.json p.json",
            "apply --limit-depth -1 d.json p.json", "merge --limit-bytes x d.json p.json", "record --limit-bytes 1.5 d.json p.json i",
            "get --limit-depth 3 d.json /b", f"apply --limit-depth {'9' * 5000} d.json p.json", "apply --limit-bytes \u0664 d.json p.json",
        ):
            written, told, status = self.run_lines(f"json-patch {arguments} < p.json")
            self.assertEqual((written, told.count("\n"), status), ("", 1, 64), (arguments, told))
            self.assertTrue(told.startswith("json-patch"), told)
        self.assertEqual(self.text("d.json"), DOCUMENT)

    def test_results_that_would_stand_over_another(self):
        """No two results go to one place, and none over what is read: it is refused before all else."""
        self.write("i.json", "[]")
        self.write("other", "kept")
        for link, to in (("linked", "d.json"), ("to-i", "i.json"), ("to-orig", "d.json.orig"), ("to-new", "new")):
            (self.folder / link).symlink_to(to)
        os.link(self.folder / "p.json", self.folder / "hard")
        before = {path.name: path.read_bytes() for path in self.folder.iterdir() if path.exists()}
        for told, arguments in (
            ("INVERSE can't be DOCUMENT", "record d.json p.json ./linked"),
            ("INVERSE can't be DOCUMENT", "record - p.json d.json < d.json"),
            ("INVERSE can't be DOCUMENT", "record new p.json to-new"),
            ("INVERSE can't be PATCH", "record -i d.json p.json hard"),
            ("INVERSE can't be PATCH", "record d.json - p.json < p.json"),
            ("INVERSE can't be DOCUMENT.orig", "record -ib d.json p.json d.json.orig"),
            ("INVERSE can't be DOCUMENT.orig", "record -ib linked p.json to-orig"),
            ("INVERSE can't be standard output", "record d.json p.json /dev/stdout"),
            ("INVERSE can't be standard output", "record d.json p.json /dev/fd/1 | cat; exit ${PIPESTATUS[0]}"),
            ("INVERSE can't be standard output", "record d.json p.json to-i >> i.json"),
            ("INVERSE can't be standard output", "record d.json p.json /dev/fd/3 3>> other 1>&3"),
            ("DOCUMENT.orig can't be PATCH", "apply -ib d.json to-orig"),
            ("DOCUMENT.orig can't be PATCH", "merge -ib linked d.json.orig"),
            ("standard output can't be DOCUMENT", "apply d.json p.json >> d.json"),
            ("standard output can't be DOCUMENT", "get - /b 1<> d.json < d.json"),
            ("standard output can't be PATCH", "merge d.json p.json >> hard"),
            ("standard output can't be FROM", "diff d.json i.json >> linked"),
            ("standard output can't be TO", "diff d.json - < i.json >> i.json"),
            ("--in-place needs a file for DOCUMENT", "apply -i /dev/stdin p.json < d.json"),
            ("--in-place needs a file for DOCUMENT", "apply -i /dev/null p.json"),
            ("--in-place needs a file for DOCUMENT", "merge -i . p.json"),
        ):
            written, fault, status = self.run_lines(f"json-patch {arguments}")
            self.assertEqual((written, status), ("", 64), (arguments, fault))
            self.assertTrue(fault.startswith(f"json-patch: {told} (see "), (arguments, fault))
            self.assertEqual({path.name: path.read_bytes() for path in self.folder.iterdir() if path.exists()}, before, arguments)

    def test_backups_that_can_not_be(self):
        told = "json-patch: DOCUMENT.orig is there, and isn't a file (see json-patch --help)\n"
        orig = self.folder / "d.json.orig"
        for make, gone in ((orig.mkdir, orig.rmdir), (lambda: os.mkfifo(orig), orig.unlink), (lambda: orig.symlink_to("/dev/null"), orig.unlink)):
            make()
            self.assertEqual(self.run_lines("json-patch record -ib d.json p.json i"), ("", told, 64))
            gone()
        orig.symlink_to("d.json")
        written, told, status = self.run_lines("json-patch record -ib d.json p.json i")
        self.assertEqual((written, status, told), ("", 64, "json-patch: DOCUMENT.orig can't be DOCUMENT (see json-patch --help)\n"))
        self.assertEqual((self.text("d.json"), (self.folder / "i").exists()), (DOCUMENT, False))

    def test_inverses_on_devices_and_pipes(self):
        """They are written to, as the shell's redirections would: nothing takes their place."""
        inverse = json.dumps(INVERSE, separators=(",", ":")) + "\n"
        for place in ("/dev/stdout", "/dev/fd/1", "/proc/self/fd/1"):
            self.assertDoes(f"json-patch record -i d.json p.json {place} | cat", inverse)
            self.assertEqual(self.text("d.json"), PATCHED)
            self.write("d.json", DOCUMENT)
        self.write("log", "kept\n")
        self.assertDoes("{ json-patch record -i d.json p.json /dev/stdout; echo end; } >> log; cat log", f"kept\n{inverse}end\n")
        self.write("d.json", DOCUMENT)
        self.assertDoes("exec 3> log; json-patch record d.json p.json /dev/fd/3; echo; exec 3>&-; cat log", f"{PATCHED}\n{inverse}")
        self.assertDoes("mkfifo fifo; cat fifo & json-patch record d.json p.json fifo > made; wait; cat made", inverse + PATCHED)
        self.assertDoes("json-patch record d.json p.json >(cat > made) | cat; sleep 0.1; cat made", PATCHED + inverse)
        self.assertDoes("json-patch record d.json p.json /dev/null", PATCHED)
        self.assertDoes("json-patch record d.json p.json /dev/null > /dev/null")
        self.assertEnds(4, "/dev/fd/9: Bad file descriptor", "json-patch record d.json p.json /dev/fd/9")
        self.assertEnds(4, "/dev/stdin: Bad file descriptor", "json-patch record -i d.json p.json /dev/stdin < /dev/null")

    def test_standard_error(self):
        """Where it is closed or full the status alone tells: no line goes elsewhere."""
        self.write("p.json", '[{"op": "remove", "path": "/c"}]')
        for status, arguments in ((1, "apply d.json p.json"), (2, "apply none p.json"), (64, "apply"), (64, "record d.json p.json -")):
            for where in ("2>&-", "2> /dev/full", "> made 2>&-", "2> /dev/null"):
                self.assertEqual(self.run_lines(f"json-patch {arguments} {where}"), ("", "", status), (arguments, where))
                self.assertFalse((self.folder / "made").exists() and self.text("made"))

    def test_help(self):
        self.assertDoes("json-patch --version", f"json-patch {json_patch.__version__}\n")
        written, told, status = self.run_lines("json-patch --help && json-patch apply --help && COLUMNS=40 json-patch -h")
        self.assertEqual((told, status), ("", 0))
        for word in ("apply", "merge", "record", "get", "check", "--in-place", "--backup", "--indent", "--limit-depth", "--limit-bytes", "exit status"):
            self.assertIn(word, written)
        for arguments in ("--help", "--version", "apply --help"):
            self.assertEnds(4, "standard output: No space left on device", f"json-patch {arguments} > /dev/full")
            self.assertEnds(4, "standard output: Bad file descriptor", f"json-patch {arguments} >&-")

    def test_memory(self):
        self.write("d.json", "[1]")
        self.write("p.json", json.dumps([{"op": "copy", "from": "", "path": "/-"}] * 40))
        written, told, status = self.run_lines("ulimit -v 200000; json-patch apply -i --limit-bytes 9999999999 d.json p.json")
        self.assertEqual((written, told, status), ("", "json-patch: out of memory\n", 3))
        self.assertEqual(self.text("d.json"), "[1]")

    def test_full_disks(self):
        told = "standard output: No space left on device"
        self.assertEnds(4, told, "json-patch apply d.json p.json > /dev/full")
        self.assertEnds(4, told, "json-patch get d.json /b > /dev/full")
        self.assertEnds(4, "/dev/full: No space left on device", "json-patch record -i d.json p.json /dev/full")
        self.assertEnds(4, "standard output: Bad file descriptor", "json-patch apply d.json p.json >&-")
        self.assertEnds(4, "nowhere/i: No such file or directory", "json-patch record -i d.json p.json nowhere/i")

    def test_files_that_may_not_grow(self):
        self.write("p.json", json.dumps([{"op": "add", "path": "/b/-", "value": "x" * 100_000}]))
        for options in ("-i", "-ib"):
            self.assertEnds(4, "d.json: File too large", f"ulimit -f 10; json-patch apply {options} d.json p.json")

    def test_a_long_string_indented(self):
        """It takes no more memory for each character."""
        self.write("d.json", json.dumps(["x" * 10_000_000]))
        self.assertDoes("ulimit -v 500000; json-patch get --indent 1 d.json '' | wc -c", "10000008\n")

    def test_readers_that_go(self):
        self.write("p.json", json.dumps([{"op": "add", "path": "/b/-", "value": "x" * 1_000_000}]))
        lines = "json-patch apply d.json p.json | head -c 1 > /dev/null; echo ${PIPESTATUS[0]}"
        self.assertDoes(lines, f"{128 + signal.SIGPIPE}\n")

    def test_interrupts(self):
        # a shell's background jobs ignore it, and hand that on
        self.addCleanup(signal.signal, signal.SIGINT, signal.signal(signal.SIGINT, signal.default_int_handler))
        fifo = self.folder / "fifo"
        os.mkfifo(fifo)
        for number in (signal.SIGINT, signal.SIGTERM):
            process = subprocess.Popen(["bash", "-c", f"exec {COMMAND} apply -i d.json fifo"], cwd=self.folder, stderr=subprocess.PIPE)
            with open(fifo, "wb"):  # opens when the command does
                process.send_signal(number)
                self.assertEqual((process.stderr.read(), process.wait(timeout=HANGS)), (b"", -number))
            process.stderr.close()
            self.assertEqual(self.text("d.json"), DOCUMENT)
        # what the caller ignores
        process = subprocess.Popen(["bash", "-c", f"trap '' INT; exec {COMMAND} apply -i d.json fifo"], cwd=self.folder)
        with open(fifo, "wb") as file:
            process.send_signal(signal.SIGINT)
            file.write(PATCH.encode())
        self.assertEqual(process.wait(timeout=HANGS), 0)
        self.assertEqual(self.text("d.json"), PATCHED)


if __name__ == "__main__":
    unittest.main()
