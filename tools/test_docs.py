"""The documents against the repository: python3 tools/test_docs.py

Every name of a definition or theorem, every must-fail edit and every path that a document gives must be there, and what
docs/PROOFS.md says of public functions must hold. The old text of each must-fail edit must stand once in its file.
"""
# needs no build
import glob
import os
import re
import unittest

ROOT = os.path.dirname(os.path.dirname(os.path.abspath(__file__)))
DOCUMENTS = sorted(glob.glob(os.path.join(ROOT, "docs", "**", "*.md"), recursive=True))
DOCUMENTS.append(os.path.join(ROOT, "README.md"))


def contents(path):
    with open(path, encoding="utf-8") as file:
        return file.read()


def quoted(path):
    """What stands between backquotes, blocks of code left out."""
    return re.findall(r"`([^`\n]+)`", re.sub(r"(?ms)^```.*?^```", "", contents(path)))


def declares(text, name):
    """A module declares a name: as a definition, a theorem, a field, a record or a data type."""
    before = r"(?m)^\s*(?:abbrev |unfoldable )?(?:pub )?(?:record |data )?"
    return re.search(before + re.escape(name) + r"(?=[\s:])", text) is not None


class Documents(unittest.TestCase):
    def each(self, pattern, there):
        """Every quoted text of the pattern names something that is there."""
        tried = [(document, re.fullmatch(pattern, text)) for document in DOCUMENTS for text in quoted(document)]
        found = [(document, match) for document, match in tried if match]
        self.assertTrue(found)
        for document, match in found:
            with self.subTest(f"{os.path.basename(document)}: {match[0]}"):
                self.assertTrue(there(match))

    def test_names(self):
        def there(match):
            # a definition stands in specs/, a theorem there or in proofs/
            paths = [os.path.join(ROOT, "crates", match[1], part, match[2] + ".antt") for part in ("specs", "proofs")]
            return any(os.path.exists(path) and declares(contents(path), match[3]) for path in paths)

        self.each(r"(\w+)/([A-Z]\w*)\.(?!antt$|md$)([^\s.]+)", there)

    def test_edits(self):
        folder = os.path.join(ROOT, "crates")
        self.each(
            r"(\w+)/must-fail/(\w+)",
            lambda m: os.path.exists(os.path.join(folder, m[1], "must-fail", m[2] + ".edit")),
        )

    def test_paths(self):
        self.each(
            r"(?:\.ci|crates|docs|examples|include|tools)/[\w./-]*",
            # what stands in out/ is made by rt
            lambda m: "/out/" in m[0] or os.path.exists(os.path.join(ROOT, m[0])),
        )

    def test_links(self):
        for document in DOCUMENTS:
            for target in re.findall(r"\]\(([^)#:]+)\)", contents(document)):
                with self.subTest(f"{os.path.basename(document)}: {target}"):
                    self.assertTrue(os.path.exists(os.path.join(os.path.dirname(document), target)))


class Statements(unittest.TestCase):
    def test_quoted(self):
        """docs/THEOREMS.md quotes the lines that it names."""
        text = contents(os.path.join(ROOT, "docs", "THEOREMS.md"))
        blocks = re.findall(r"(?ms)^`(crates/[\w./]+)`, lines? (\d+)(?: to (\d+))?:\n\n```\n(.*?)\n```$", text)
        self.assertEqual(len(blocks), text.count("\n```\n") // 2)
        self.assertTrue(blocks)
        for path, first, last, said in blocks:
            with self.subTest(f"{path}: {first}"):
                lines = contents(os.path.join(ROOT, path)).split("\n")
                self.assertEqual(said, "\n".join(lines[int(first) - 1 : int(last or first)]))


class Edits(unittest.TestCase):
    def test_old_text_once(self):
        """An edit says which text of which file it replaces: `file:`, `old:`, `new:`."""
        found = glob.glob(os.path.join(ROOT, "crates", "*", "must-fail", "*.edit"))
        self.assertTrue(found)
        for path in found:
            with self.subTest(os.path.relpath(path, ROOT)):
                edit = re.search(r"(?ms)^file: *(\S+)$.*?^old:(.*?)\n?^new:", contents(path))
                self.assertIsNotNone(edit)
                crate = os.path.dirname(os.path.dirname(path))
                old = edit[2].removeprefix(" ").strip("\n")
                self.assertEqual(contents(os.path.join(crate, edit[1])).count(old), 1)


class PublicFunctions(unittest.TestCase):
    # what they give or do depends on the system, of which no contract can speak
    UNPROMISED = {("base_io", name) for name in ("arg_count", "open_read", "write_all", "print_decimal", "fail")}

    def test_contracts(self):
        found = 0
        for path in glob.glob(os.path.join(ROOT, "crates", "*", "src", "**", "*.rt"), recursive=True):
            crate = os.path.relpath(path, os.path.join(ROOT, "crates")).split(os.sep)[0]
            # the words of a function up to the brace before its body: alone on its line, or after the signature
            for name, head in re.findall(
                r"(?ms)^\s*pub (?:extern \"C\" )?fn (\w+)(.*?)(?:^\s*\{|\)(?: -> [^\n]*)? \{)$", contents(path)
            ):
                found += 1
                with self.subTest(f"{os.path.relpath(path, ROOT)}: {name}"):
                    self.assertNotIn("requires", head)
                    if (crate, name) not in self.UNPROMISED:
                        self.assertIn("ensures", head)
        self.assertGreater(found, 0)


if __name__ == "__main__":
    unittest.main()
