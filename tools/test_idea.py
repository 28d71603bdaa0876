"""docs/IDEA.md and its drawings: python3 tools/test_idea.py

The stored drawings are what tools/idea_drawings.py makes, and whatever the page names stands in the repository.
"""
import glob
import os
import re
import unittest
import xml.etree.ElementTree

from idea_drawings import FOLDER, drawings

ROOT = os.path.dirname(os.path.dirname(os.path.abspath(__file__)))
PAGE = os.path.join(ROOT, "docs", "IDEA.md")


def contents(path):
    with open(path, encoding="utf-8") as file:
        return file.read()


def crates():
    """The crates that the list of crates names."""
    return set(re.findall(r"(?m)^(\w+)(?: \w+)?:", contents(os.path.join(ROOT, "crates.txt"))))


def declared(text, name):
    """A module declares a name: as a definition, a theorem, a field, a record or a data type."""
    begins = r"^\s*(?:abbrev |unfoldable )?(?:pub )?(?:record |data )?"
    return re.search(begins + re.escape(name) + r"(?=[\s:])", text, re.MULTILINE) is not None


class Page(unittest.TestCase):
    def setUp(self):
        self.text = contents(PAGE)
        self.quoted = re.findall(r"`([^`\n]+)`", self.text)

    def stands(self, quoted):
        """A name in a module, a crate, or a path; `blocks` alone is what the page's first lines explain."""
        name = re.fullmatch(r"(\w+)/((?:\w+/)?\w+)\.([^\s.]+)", quoted)
        if name and not os.path.exists(os.path.join(ROOT, quoted)):
            # a definition stands in specs/, a theorem there or in proofs/
            paths = [os.path.join(ROOT, "crates", name[1], part, name[2] + ".antt") for part in ("specs", "proofs")]
            return name[1] in crates() and any(os.path.exists(p) and declared(contents(p), name[3]) for p in paths)
        if "/" in quoted:
            return os.path.exists(os.path.join(ROOT, quoted))
        return quoted in crates() or any(q.endswith("." + quoted) for q in self.quoted if "/" in q)

    def test_names(self):
        self.assertGreater(len(self.quoted), 50)
        for quoted in self.quoted:
            with self.subTest(quoted):
                self.assertTrue(self.stands(quoted))

    def test_a_name_that_is_not_there(self):
        for missing in ("theory_graph/Splice.none", "theory_graph/Nowhere.blocks", "no_crate/Rings.Ring", "no_crate"):
            self.assertFalse(self.stands(missing))

    def test_each_section_ends_with_its_theorems(self):
        sections = re.split(r"(?m)^## ", self.text)[1:]
        self.assertEqual([int(s.split(".")[0]) for s in sections], list(range(1, len(sections) + 1)))
        for section in sections:
            with self.subTest(section.split("\n")[0]):
                last = section.strip().split("\n\n")[-1]
                self.assertRegex(last, r"(?s)^\*.*`\w+/(?:\w+/)?\w+\.[\w?-]+`.*\*$")

    def test_size(self):
        lines = self.text.rstrip("\n").split("\n")
        self.assertLessEqual(len(lines), 250)
        self.assertLessEqual(max(map(len, lines)), 120)


class Drawings(unittest.TestCase):
    def test_stored(self):
        made = drawings()
        self.assertEqual(sorted(made), sorted(map(os.path.basename, glob.glob(os.path.join(FOLDER, "idea-*.svg")))))
        for file, text in made.items():
            with self.subTest(file):
                self.assertEqual(contents(os.path.join(FOLDER, file)), text)

    def test_shown(self):
        """Each drawing is shown once, and is a whole picture within its frame."""
        self.assertEqual(sorted(re.findall(r"\]\(img/([^)]+)\)", contents(PAGE))), sorted(drawings()))
        for file, text in drawings().items():
            with self.subTest(file):
                svg = xml.etree.ElementTree.fromstring(text)
                _, _, wide, high = map(float, svg.get("viewBox").split())
                for place in svg.iter("{http://www.w3.org/2000/svg}text"):
                    self.assertTrue(0 <= float(place.get("x")) <= wide and 0 <= float(place.get("y")) <= high)


if __name__ == "__main__":
    unittest.main()
