"""Tests of the counts and quotations that are written into documents: python3 tools/test_figures.py"""
# needs no build
import contextlib
import importlib.machinery
import importlib.util
import io
import os
import struct
import sys
import tempfile
import unittest
from unittest import mock

sys.dont_write_bytecode = True
import counts
import measures
import quotations

PATH = os.path.join(counts.ROOT, "tools", "figures")
LOADER = importlib.machinery.SourceFileLoader("figures", PATH)
figures = importlib.util.module_from_spec(importlib.util.spec_from_loader("figures", LOADER))
LOADER.exec_module(figures)

FILES = {
    "crates.txt": "# a comment\nlow:\nmiddle: low\n\nhigh: low middle check\nside: low\n",
    "crates/low/must-fail/a.edit": "",
    "crates/high/src/main.rt": "fn main() {}\n",
    "crates/high/data/a.in": "",
    "crates/high/stdout": "1\n2\n3\n",
    "crates/low/specs/Laws.antt": "-- laws\n\npub twice : (n : ℕ) →\n    n + n ≡ 2 * n\ntwice n = omega arith\n",
    "crates/check_vectors/data/a.in": "010004FB\n0300000001C339\n",
    "crates/check_vectors/data/a.out": "1100\n",
    "crates/check_vectors/data/b.in": "\x82",
    "crates/check_vectors/data/b.out": "1E01E1\n",
    "evidence/tests/faults.rs": "const A: [Fault; 2] = [];\nconst B: [Fault; 3] = [];\n  #[test]\n#[test]\n//#[test]\n",
    "include/link_survey.h": "uint32_t link_survey_load(void);\n",
    "tools/test_a.py": "class A:\n    def test_a(self):\n        pass\n\n    def other(self):\n        pass\n",
    "docs/A.md": "Before.\n\n<!-- figures:counts -->\n| crates | 3 |\n<!-- /figures -->\n\nAfter, 3 crates.\n",
    "docs/B.md": "`crates/low/specs/Laws.antt`, line 1:\n\n```\npub twice : (n : ℕ) → n + n ≡ n * 2\n```\n",
}


class Tree(unittest.TestCase):
    def setUp(self):
        folder = tempfile.TemporaryDirectory()
        self.addCleanup(folder.cleanup)
        self.root = folder.name
        for name, text in FILES.items():
            self.write(name, text)
        for name, value in ("ROOT", self.root), ("ARCHIVE", os.path.join(self.root, "a.a")):
            patch = mock.patch.object(counts, name, value)
            patch.start()
            self.addCleanup(patch.stop)

    def write(self, name, text):
        path = os.path.join(self.root, name)
        os.makedirs(os.path.dirname(path), exist_ok=True)
        with open(path, "w", encoding="latin-1" if "\x82" in text else "utf-8") as file:
            file.write(text)

    def read(self, name):
        return counts.contents(os.path.join(self.root, name))

    def made(self, *words):
        """The exit status of the command and what it prints."""
        with contextlib.redirect_stdout(io.StringIO()) as printed, contextlib.redirect_stderr(printed):
            status = figures.main(list(words))
        return status, printed.getvalue()


class Counts(Tree):
    def test_counts(self):
        self.assertEqual((len(counts.crates()), counts.edges()), (4, 4))
        self.assertEqual((counts.under("high"), counts.programs()), ({"low", "middle"}, ["high"]))
        self.assertEqual((len(counts.edits()), counts.python_tests(), counts.rust_tests()), (1, 1, 2))
        self.assertEqual((counts.wrong_libraries(), counts.header_calls(), counts.report_vectors()), (5, 1, (2, 1, 1)))

    def test_archive(self):
        """An object with a section of 5 bytes of code, 7 of constants, 11 that begin as 0 and 13 that are not kept."""
        sections = [(1, 2 | 4, 5), (1, 2, 7), (8, 2 | 1, 11), (1, 0, 13)]
        head = b"\x7fELF" + bytes(36) + struct.pack("<Q10xHH2x", 64, 64, len(sections))
        rows = [struct.pack("<IIQQQQ", 0, kind, flags, 0, 0, size) + bytes(24) for kind, flags, size in sections]
        member = head + b"".join(rows)
        entry = b"a.o/".ljust(48) + str(len(member)).encode().ljust(10) + b"`\n" + member
        with open(counts.ARCHIVE, "wb") as file:
            file.write(b"!<arch>\n" + b"/".ljust(48) + b"3".ljust(10) + b"`\nabc\n" + entry + entry)
        self.assertEqual(counts.archive_sizes(counts.ARCHIVE), [10, 14, 22])


class Written(Tree):
    def setUp(self):
        super().setUp()
        # a block of one row
        patch = mock.patch.dict(figures.MAKERS, counts=lambda: f"| crates | {len(counts.crates())} |\n")
        patch.start()
        self.addCleanup(patch.stop)

    def test_written_and_held(self):
        status, printed = self.made("--check")
        self.assertEqual(status, 1)
        self.assertIn("docs/A.md:4: no longer holds: | crates | 3 |", printed)
        self.assertEqual(self.read("docs/A.md"), FILES["docs/A.md"])
        self.assertEqual(self.made()[0], 0)
        self.assertEqual(self.read("docs/A.md"), FILES["docs/A.md"].replace("| 3 |", "| 4 |"))
        self.assertEqual(self.made("--check"), (0, "1 blocks hold\n"))
        self.write("docs/A.md", self.read("docs/A.md") + "<!-- figures:stack -->\n<!-- /figures -->\n")
        self.assertEqual(self.made("--check"), (0, "left out: stack: written on request\n1 blocks hold\n"))

    def test_quotation(self):
        self.made()
        self.assertEqual(
            self.read("docs/B.md"),
            "`crates/low/specs/Laws.antt`, lines 3 to 4:\n\n```\npub twice : (n : ℕ) →\n    n + n ≡ 2 * n\n```\n",
        )

    def test_a_quotation_that_is_gone(self):
        """Left as it is, for tools/test_docs.py to refuse."""
        text = FILES["docs/B.md"].replace("twice", "thrice")
        self.assertEqual(quotations.renewed(text), text)

    def test_a_block_without_a_maker(self):
        self.write("docs/A.md", FILES["docs/A.md"].replace("figures:counts", "figures:count"))
        with self.assertRaises(SystemExit):
            self.made("--check")

    def test_archive(self):
        block = "<!-- figures:archive -->\n| by `kit 1` | 5 |\n<!-- /figures -->\n"
        self.write("docs/A.md", block)
        self.assertIn("left out: archive: the archive is not built", self.made()[1])
        with mock.patch.object(figures, "kit", lambda: "kit 2"):
            self.assertIn("left out: archive: its figures are of another kit", self.made("--check")[1])
        self.write("a.a", "!<arch>\n")
        os.utime(counts.ARCHIVE, (1, 1))
        self.assertIn("left out: archive: the archive is older than the crates", self.made()[1])
        self.assertEqual(self.read("docs/A.md"), block)

    def test_words(self):
        self.assertEqual(self.made("--all")[0], 2)
        self.assertEqual(self.made("--check", "stack")[0], 2)


class Measures(unittest.TestCase):
    """Tables from what the programs of evidence/ print."""

    def test_search(self):
        text = "replies:\n         7  a ring\n  load:  0 × 1200  4 × 30  15 × 1\n  tick:  10 × 2\n2 calls\n"
        rows = measures.search_table(text).splitlines()[2:]
        self.assertEqual(rows[0], "| `link_survey_load` | 1,231 | 1,200 | 4: 30, 15: 1 |")
        self.assertEqual(rows[1:], ["| `link_survey_tick` | 2 | 0 | 10: 2 |"])

    def test_faults(self):
        text = "running 2 tests\ntest live_tables ...   1094  counts not judged: case 1: a\n     4  6 too late: b\nok\n"
        text += "test no_fault ... ok\n\ntest result: ok. 2 passed; 0 failed\n"
        rows = measures.faults_table(text).splitlines()[2:]
        self.assertEqual(rows, ["| live tables | counts not judged | 1,094 |", "| live tables | 6 too late | 4 |"])

    def test_stack(self):
        rows = measures.stack_table("Deepest stack.\n\ncall  proved  plain on words\nread    480   240\n").splitlines()
        self.assertEqual(rows[2:], ["| `link_survey_read` | 480 | 240 |"])


if __name__ == "__main__":
    unittest.main()
