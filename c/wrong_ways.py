"""Makes a source that stands on the library wrong, in one way after another, and asks the tests: for the scripts
sabotage of python/, sqlite/ and postgresql/."""


def tried(who, ways, finds):
    """The status of a script: 1, where a test lets a way past, or fails on the right source. A way is a file, what
    is exchanged in it for what, and the test that has to find it out; `finds` says whether a test fails over the
    files as they are."""
    missed = 0
    rights = [(ways[0][0], "", "", test) for test in sorted({test for *_, test in ways})]
    for file, old, new, test in rights + ways:
        text = file.read_text(encoding="utf-8")
        assert not old or text.count(old) == 1, old
        file.write_text(text.replace(old, new) if old else text, encoding="utf-8")
        if finds(test) != bool(old):
            missed += 1
            print(f"{who}: WRONG: {test} {'lets past' if old else 'fails on the right source'}: {old!r} for {new!r}")
        file.write_text(text, encoding="utf-8")
    print(f"{who}: {len(ways)} ways to be wrong, {missed} not told")
    return 1 if missed else 0
