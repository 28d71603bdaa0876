"""The house and its documents: python3 tools/test_house.py

What each room may know, the lists that tools/lists.py writes, and what documents say by name: functions, modules and
crates, decisions by number, words of the glossary, versions of the header.
"""
# needs no build
import glob
import os
import re
import unittest

import lists
import rooms

ROOT = rooms.ROOT
CRATES = rooms.dependencies()
DOCUMENTS = [os.path.join(ROOT, name) for name in ("README.md", "CHANGELOG.md")]
DOCUMENTS += sorted(glob.glob(os.path.join(ROOT, "docs", "**", "*.md"), recursive=True))


def contents(path):
    with open(os.path.join(ROOT, path), encoding="utf-8") as file:
        return file.read()


def quoted(path):
    """What stands between backquotes, blocks of code left out."""
    return re.findall(r"`([^`\n]+)`", re.sub(r"(?ms)^```.*?^```", "", contents(path)))


def sources(crate):
    paths = glob.glob(os.path.join(ROOT, "crates", crate, "src", "**", "*.rt"), recursive=True)
    return "".join(contents(path) for path in paths)


SOURCES = {crate: sources(crate) for crate in CRATES}


def has(crate, name):
    """A crate has a function, constant, type or module of this name, or hands one on."""
    declared = rf"\b(?:fn|const|struct|enum|mod|type) {name}\b|pub use [\w:{{}}, ]*\b{name}\b"
    return re.search(declared, SOURCES[crate]) is not None


class Rooms(unittest.TestCase):
    def test_knows(self):
        """No crate knows a room that it may not."""
        self.assertEqual(rooms.faults(), [])

    def test_pages(self):
        """The lists in the documents are as made now (python3 tools/lists.py --write makes them anew)."""
        for path, text in lists.pages().items():
            with self.subTest(path):
                self.assertEqual(contents(path), text)

    def test_rule(self):
        """The rule turns down a face that knows the other, a stage that knows another, a table that knows a rule."""
        against = "words_run survey, value_ring words_layout, table_values spec_rules, stage06_places stage04_ranking"
        for pair in against.split(", "):
            self.assertFalse(rooms.may_know(*pair.split()))
        self.assertFalse(rooms.has_functions("spec_state"))
        self.assertTrue(rooms.has_functions("stage_clock"))
        for pair in "words_run stage01_components, stage07_range stage07_segments, survey table".split(", "):
            self.assertTrue(rooms.may_know(*pair.split()))


class Names(unittest.TestCase):
    def each(self, pattern, there, documents=DOCUMENTS):
        """Every quoted text of the pattern names something that is there."""
        tried = [(document, re.fullmatch(pattern, text)) for document in documents for text in quoted(document)]
        found = [(document, match) for document, match in tried if match]
        self.assertTrue(found)
        for document, match in found:
            with self.subTest(f"{os.path.basename(document)}: {match[0]}"):
                self.assertTrue(there(match))

    def test_functions(self):
        self.each(r"(\w+)::(?:\w+::)*(\w+)(?:\(.*\))?", lambda m: m[1] not in CRATES or has(m[1], m[2]))

    def test_modules(self):
        def there(match):
            path = os.path.join(ROOT, "crates", match[1], match[2], match[3])
            return match[1] not in CRATES or any(os.path.exists(path + end) for end in ("", ".antt", ".rt"))

        self.each(r"(\w+)/(src|specs|proofs)/([\w./-]+)", there)

    def test_crates(self):
        """A name that begins with a room's word is a crate's, or a function's; EVIDENCE has names as measured."""
        room = r"(?:base|table|file|spec|theory|load|stage\d\d|leap|report|ring|value|words|check)_[a-z0-9_]+"
        others = [document for document in DOCUMENTS if not document.endswith("EVIDENCE.md")]
        self.each(room, lambda m: m[0] in CRATES or any(has(crate, m[0]) for crate in CRATES), others)


class Decisions(unittest.TestCase):
    NUMBER = r"[DUVW]\d+|C\d(?!\d)|T-\d\d[a-z]"

    def test_numbers(self):
        """Each decision stands once, without a gap, and a document that gives its number finds it."""
        stand = re.findall(rf"(?m)^### ({self.NUMBER})\. ", contents("docs/DECISIONS.md"))
        self.assertEqual(len(stand), len(set(stand)))
        for letter in "CDUVW":
            numbers = [int(number[1:]) for number in stand if number[0] == letter]
            self.assertEqual(sorted(numbers), list(range(1, len(numbers) + 1)))
        for document in DOCUMENTS:
            for number in re.findall(rf"(?<![\w-])({self.NUMBER})(?!\w)", contents(document)):
                with self.subTest(f"{os.path.basename(document)}: {number}"):
                    self.assertIn(number, stand)


class Glossary(unittest.TestCase):
    def test_identifiers(self):
        """Each identifier of docs/GLOSSARY.md stands in the code or in the definitions."""
        found = set()
        for kind in ("src/**/*.rt", "specs/**/*.antt"):
            for path in glob.glob(f"{ROOT}/crates/*/{kind}", recursive=True):
                found.update(re.findall(r"\w+", contents(path)))
        names = [text for text in quoted("docs/GLOSSARY.md") if re.fullmatch(r"\w+", text)]
        self.assertTrue(names)
        for name in names:
            with self.subTest(name):
                self.assertIn(name, found)


class Opening(unittest.TestCase):
    def test_list(self):
        """README.md opens with the list that docs/FOREMAN.md has of the same site, which tools/test_survey.py makes."""
        lists = re.findall(r"(?m)(?:^    .*\n)+", contents("README.md"))
        self.assertIn("units cut off", lists[0])
        self.assertIn(lists[0], contents("docs/FOREMAN.md"))


class Versions(unittest.TestCase):
    def test_changelog(self):
        """CHANGELOG.md tells every version of the header."""
        version = int(re.search(r"#define LINK_SURVEY_VERSION (\d+)", contents("include/link_survey.h"))[1])
        told = re.findall(r"(?m)^## Version (\d+)", contents("CHANGELOG.md"))
        self.assertTrue({str(k) for k in range(1, version + 1)} <= set(told))


class Caller(unittest.TestCase):
    def test_shown(self):
        """The manual's caller is the program that the gate builds and runs."""
        source = contents("crates/check_caller/src/main.rt")
        shown = source[source.index("use "):]
        self.assertIn("```\n" + shown + "```", contents("docs/MANUAL.md"))

    def test_printed(self):
        """It prints document 01's report of case B, as the program does."""
        self.assertEqual(contents("crates/check_caller/stdout"), contents("examples/case-b.report.txt"))


class Refusals(unittest.TestCase):
    def test_names(self):
        """The library and its header have the same names for the same numbers."""
        code = re.findall(r"pub const (\w+): u8 = (\d+);", contents("crates/table_refusals/src/lib.rt"))
        header = re.findall(r"LINK_SURVEY_(\w+) = (\d+)[, ]", contents("include/link_survey.h"))
        header = header[:[name for name, _ in header].index("NO_SUCH_SEAT") + 1]
        self.assertEqual(code, header)


if __name__ == "__main__":
    unittest.main()
