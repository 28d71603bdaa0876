"""No line is wider than 120 columns: python3 tools/test_widths.py

Of code, definitions, proofs, documents, tests and tools. In documents, rows of tables and code are let be.
"""
# needs no build
import os
import re
import unittest

ROOT = os.path.dirname(os.path.dirname(os.path.abspath(__file__)))
COLUMNS = 120
KINDS = {".rt", ".antt", ".md", ".py", ".c", ".h", ".rs", ".sh"}


def held(path):
    """A file whose lines are held to the width: by its name, or a script."""
    kind = os.path.splitext(path)[1]
    if kind:
        return kind in KINDS
    with open(path, "rb") as file:
        return file.read(2) == b"#!"


def files(root=ROOT):
    for folder, inner, names in os.walk(root):
        inner[:] = [name for name in inner if name not in (".git", "target", "__pycache__", "data", "out")]
        for name in names:
            if held(os.path.join(folder, name)):
                yield os.path.join(folder, name)


def prose(text):
    """The lines of a document, with tables and code emptied, so that line numbers stay."""
    text = re.sub(r"(?ms)^ *```.*?^ *```", lambda block: re.sub(r"[^\n]", "", block[0]), text)
    return ["" if re.match(r"\s*\||    ", line) else line for line in text.split("\n")]


def wide(path):
    """The numbers of the lines that are too wide."""
    with open(path, encoding="utf-8") as file:
        text = file.read()
    lines = prose(text) if path.endswith(".md") else text.split("\n")
    return [at for at, line in enumerate(lines, 1) if len(line) > COLUMNS]


class Widths(unittest.TestCase):
    def test_files(self):
        seen = 0
        for path in files():
            seen += 1
            name = os.path.relpath(path, ROOT).replace(os.sep, "/")
            found = wide(path)
            if found:
                with self.subTest(name):
                    self.fail(f"lines of more than {COLUMNS} columns: " + ", ".join(map(str, found)))
        self.assertGreater(seen, 0)

    def test_prose(self):
        lines = prose("# a\n```\ncode\n```\n| row |\n    more code\nwords\n")
        self.assertEqual(lines, ["# a", "", "", "", "", "", "words", ""])


if __name__ == "__main__":
    unittest.main()
