"""The examples in C against the proved library: python3 tools/test_examples.py

Builds the archive by `rt lib` in crates/survey_c where it is missing or older than the crates, then the examples. What
cannot be run for want of `rt` or of a compiler is skipped, and said so. tools/test_cross.py does this for other
processors.
"""
import ctypes
import glob
import os
import re
import shutil
import subprocess
import tempfile
import unittest

import request_vectors

ROOT = os.path.dirname(os.path.dirname(os.path.abspath(__file__)))
EXAMPLES = os.path.join(ROOT, "examples")
INCLUDE = os.path.join(ROOT, "include")
VECTORS = os.path.join(ROOT, "crates", "check_vectors", "data")
LEVELS = os.path.join(ROOT, "evidence", "tests", "levels", "program")
CRATE = os.path.join(ROOT, "crates", "survey_c")
ARCHIVE = os.path.join(CRATE, "out", "libsurvey_c.a")
WARNINGS = ["-Wall", "-Wextra", "-Wpedantic", "-Werror"]

# document 01's case B: the rounds of stages 1 to 10 are 3, 4, 2, 4, 2, 4, 3, 1, 2, 2, of ceilings 4, 5, 2, 4, 2, 4, 3,
# 1, 3, 2; the foreman's lines are those of an independent model
CASE_B = """\
4 units, 4 links
round   0  countdown  30  colour              2001001EC1
round   3  countdown  26  tree                2002001AC4
round   7  countdown  21  tour                20030015C8
round   9  countdown  19  first ranking       20040013C9
round  13  countdown  15  marks               2005000FCC
round  15  countdown  13  second ranking      2006000DCD
round  19  countdown   9  least and greatest  20070009D0
round  22  countdown   6  joins               20080006D2
round  23  countdown   5  classes             20090005D2
round  25  countdown   2  labels              200A0002D4
round  27  countdown   0  finished            200B0000D5
unit 2 is a single point: without it, others lose each other
link 3, between units 2 and 3, at -127 dBm, is lone: no ring backs it up
"""

# document 01's case E, two rings that meet in unit 2. By hand from document 02: a lorry in 0-2 opens the ring 0-1-2 and
# no other; a lifting order is read from its end, 0 and then the least unit that may stand next; 3 is reached from 0, 1
# and 2 and reaches none; without 0-2 and with 1-3, 0 hangs on 1 alone
REQUESTS = """\
ring of links 0 and 1: 0 1 2
ring of links 0 and 4: none
a lorry in link 2, links 3 and 5: always
a lorry in link 2, links 0 and 1: perhaps
a lorry in link 2, links 0 and 3: never
lifting order: 4 3 2 1 0
lifting order, 1 before 2: 4 3 1 2 0
lifting order, 0 before 3: refused, 20
one-way links: 0 0 0 3
passes: 2
opened, 6 links, at each unit: 2 2 4 2 2
1-3 added, 7 links, at each unit: 2 3 4 3 2
2-0 withdrawn, 6 links, at each unit: 1 3 3 3 2
2-0 withdrawn again, 6 links, at each unit: refused, 21
level of the last link: -75 dBm
unit 1 is a single point
"""


def contents(path):
    with open(path, encoding="utf-8") as file:
        return file.read()


def example(name):
    return os.path.join(EXAMPLES, name)


def compilers(*names):
    return [name for name in names if shutil.which(name)]


def newest_source():
    found = [os.path.join(ROOT, "crates.txt")]
    for folder in "src", "specs", "proofs":
        found += glob.glob(os.path.join(ROOT, "crates", "*", folder, "**", "*.*"), recursive=True)
    return max(map(os.path.getmtime, found))


def archive():
    """Makes the archive where it is missing or older than a source, unless tools/check has tried that."""
    if os.path.exists(ARCHIVE) and os.path.getmtime(ARCHIVE) >= newest_source():
        return
    if os.environ.get("LINK_SURVEY_ARCHIVE") == "tried":
        raise unittest.SkipTest("no archive of survey_c from these sources")
    if not shutil.which("rt"):
        raise unittest.SkipTest("the archive is missing or old, and there is no rt to make it")
    made = subprocess.run(["rt", "lib"], cwd=CRATE, capture_output=True, text=True, check=False)
    if made.returncode != 0:
        raise AssertionError("rt lib in crates/survey_c failed:\n" + made.stdout[-2000:] + made.stderr[-2000:])
    # rt leaves an archive that is still right as it was
    os.utime(ARCHIVE)


def build(compiler, program, sources, more=()):
    command = [compiler, "-std=c99", *WARNINGS, *more, "-I" + INCLUDE, *map(example, sources), ARCHIVE, "-o", program]
    built = subprocess.run(command, capture_output=True, text=True, check=False)
    if built.returncode != 0:
        raise AssertionError(f"{' '.join(sources)}:\n{built.stderr}")


def vectors():
    """The files of the program's vectors, those with levels too."""
    found, levels = (sorted(glob.glob(os.path.join(folder, "*.in"))) for folder in (VECTORS, LEVELS))
    if not found or not levels:
        raise AssertionError("there are no vectors")
    return found + levels


FAMILIES = ("rings", "lifting", "doubtful", "one_way", "live", "seats")


def play_requests(test, library, families=FAMILIES):
    """The vectors of the requests through a library's calls, against what an independent model says."""
    for family in families:
        crate = os.path.join(ROOT, "crates", "check_" + family)
        lines = []
        for name in re.findall(r"\S+\.in\b", contents(os.path.join(crate, "args"))):
            lines += request_vectors.played(library, family, name, contents(os.path.join(crate, "data", name)))
        with test.subTest(family):
            test.assertEqual(lines, contents(os.path.join(crate, "stdout")).splitlines())


class Programs(unittest.TestCase):
    @classmethod
    def setUpClass(cls):
        found = compilers("cc", "gcc", "clang")
        if not found:
            raise unittest.SkipTest("there is no C compiler")
        archive()
        folder = tempfile.TemporaryDirectory()
        cls.addClassCleanup(folder.cleanup)
        cls.folder = folder.name
        for name in "case_b", "handset", "office", "requests", "acceptance", "reports":
            build(found[0], os.path.join(cls.folder, name), [name + ".c"])
        build(found[0], os.path.join(cls.folder, "self_test"), ["self_test_main.c", "self_test.c"])
        one = ["-DLINK_SURVEY_SELF_TEST_ONE_SEAT"]
        build(found[0], os.path.join(cls.folder, "one_seat"), ["self_test_main.c", "self_test.c"], one)

    def made(self, name, *arguments, given=b""):
        """The exit status of a program, and what it wrote to its output and to its error output."""
        command = [os.path.join(self.folder, name), *arguments]
        done = subprocess.run(command, input=given, capture_output=True, timeout=60, check=False)
        return done.returncode, done.stdout.decode(), done.stderr.decode()

    def test_case_b(self):
        self.assertEqual(self.made("case_b"), (0, "27 rounds\nunit 2 is a single point\n", ""))

    def test_office(self):
        # cases B and E take 27 and 28 rounds, by turns from seat 0 on: B ends with tick 2 * 27 - 1, E with tick 27 + 28
        printed = "tick 53: seat 0 is finished after 27 rounds\ntick 55: seat 3 is finished after 28 rounds\n"
        self.assertEqual(self.made("office"), (0, printed, ""))

    def test_requests(self):
        self.assertEqual(self.made("requests"), (0, REQUESTS, ""))
        manual = contents(os.path.join(ROOT, "docs", "MANUAL.md"))
        self.assertIn("".join("    " + line + "\n" for line in REQUESTS.splitlines()), manual)

    def test_handset(self):
        printed = CASE_B + contents(example("case-b.report.txt"))
        self.assertEqual(self.made("handset", example("case-b.txt")), (0, printed, ""))
        with open(example("case-b.txt"), "rb") as file:
            self.assertEqual(self.made("handset", given=file.read()), (0, printed, ""))

    def test_levels(self):
        """Case B with levels, its third link without one: the same report; a lone link is shown with its level."""
        given = b"010004FB\n0300000001C339\n0300010002BA40\n0200000002FC\n0300020003AD4B\n0F0004ED\n"
        printed = CASE_B.replace("-127 dBm", "-83 dBm") + contents(example("case-b.report.txt"))
        self.assertEqual(self.made("handset", given=given), (0, printed, ""))
        status, printed, told = self.made("handset", given=given.replace(b"AD4B", b"01F7"))
        self.assertEqual((status, printed), (1, ""))
        self.assertIn("refused, number 16:", told)

    def test_no_lone_link(self):
        status, printed, _ = self.made("handset", example("case-e.txt"))
        self.assertEqual(status, 0)
        self.assertIn("unit 2 is a single point", printed)
        self.assertIn("there is no lone link\n" + contents(example("case-e.report.txt")), printed)

    def test_nothing_weak(self):
        status, printed, _ = self.made("handset", given=b"010001FE\n0F0000F1\n")
        self.assertEqual(status, 0)
        self.assertIn("there is no single point\nthere is no lone link\n", printed)
        self.assertIn("round   0  countdown  16  colour              20010010CF\n", printed)

    def test_every_round(self):
        """-v shows each round once; the countdown falls to 0; where a stage begins the line is that without -v."""
        status, printed, _ = self.made("handset", "-v", example("case-b.txt"))
        self.assertEqual(status, 0)
        shown = re.findall(r"(?m)^round +(\d+)  countdown +(\d+)  ", printed)
        self.assertEqual([int(rounds) for rounds, _ in shown], list(range(28)))
        countdowns = [int(countdown) for _, countdown in shown]
        self.assertEqual(countdowns, sorted(set(countdowns), reverse=True))
        self.assertEqual(countdowns[-1], 0)
        for line in CASE_B.splitlines():
            self.assertIn(line + "\n", printed)
        # the first case of these vectors is case B: 28 times the foreman's line, then the service line
        lines = contents(os.path.join(ROOT, "crates", "check_lines", "stdout")).splitlines()
        self.assertEqual(re.findall(r"(?m)^round .+  (20[0-9A-F]{8})$", printed), lines[0:56:2])

    def test_vectors(self):
        """The report of each file, or the number of its refusal with words."""
        for path in vectors():
            with self.subTest(os.path.basename(path)):
                expected = contents(path[:-3] + ".out")
                status, printed, told = self.made("handset", path)
                if expected.startswith("1E"):
                    self.assertEqual((status, printed), (1, ""))
                    self.assertRegex(told, rf"\Arefused, number {int(expected[2:4], 16)}: \w.+\n\Z")
                else:
                    self.assertEqual((status, told), (0, ""))
                    self.assertTrue(printed.endswith("\n" + expected))

    def test_reports(self):
        status, printed, told = self.made("reports", *vectors())
        self.assertEqual((status, told), (0, ""))
        self.assertEqual(printed, "".join(contents(path[:-3] + ".out") for path in vectors()))
        self.assertEqual(self.made("reports", os.path.join(self.folder, "missing"))[0], 2)

    def test_acceptance(self):
        """T-13's lines are those that a removal of one unit after another gave."""
        lines = contents(os.path.join(ROOT, "crates", "small_sites", "stdout"))
        self.assertEqual(len(lines.splitlines()), 1099)
        self.assertEqual(self.made("acceptance"), (0, lines, ""))

    def test_self_test(self):
        self.assertEqual(self.made("self_test"), (0, "passed\n", ""))
        self.assertEqual(self.made("one_seat"), (0, "passed\n", ""))

    def test_too_long(self):
        status, printed, told = self.made("handset", given=b"0200000001FD\n" * 5042)
        self.assertEqual((status, printed), (1, ""))
        self.assertIn("refused, number 1:", told)

    def test_command(self):
        self.assertEqual(self.made("handset", os.path.join(self.folder, "missing"))[0], 2)
        self.assertEqual(self.made("handset", "a", "b")[0], 2)


class Calls(unittest.TestCase):
    """The vectors of the requests, through the archive as a shared library."""

    @classmethod
    def setUpClass(cls):
        found = compilers("cc", "gcc", "clang")
        if not found:
            raise unittest.SkipTest("there is no C compiler")
        archive()
        folder = tempfile.TemporaryDirectory()
        cls.addClassCleanup(folder.cleanup)
        path = os.path.join(folder.name, "survey_c.so")
        command = [found[0], "-shared", "-o", path, "-Wl,--whole-archive", ARCHIVE, "-Wl,--no-whole-archive"]
        made = subprocess.run(command, capture_output=True, text=True, check=False)
        if made.returncode != 0:
            raise AssertionError(made.stderr)
        cls.library = ctypes.CDLL(path)

    def test_vectors(self):
        play_requests(self, self.library)


class Texts(unittest.TestCase):
    def test_manual(self):
        listings = re.findall(r"(?ms)^```c\n(.*?)^```$", contents(os.path.join(ROOT, "docs", "MANUAL.md")))
        self.assertEqual(listings, [contents(example("case_b.c"))])

    def test_warnings_in_c(self):
        """All but the start without an operating system, which is for one processor: tools/test_cross.py builds it."""
        sources = sorted(set(glob.glob(example("*.c"))) - {example("bare_metal_start.c")})
        self.compiled(compilers("gcc", "clang"), ["c99", "c11", "c17", "c2x"], sources)

    def test_every_refusal_is_told(self):
        """handset.c has as many texts as the header has numbers."""
        header = contents(os.path.join(INCLUDE, "link_survey.h"))
        refusals = re.search(r"(?s)enum link_survey_refusal {.*?};", header)[0]
        numbers = re.findall(r"(?m)^    LINK_SURVEY_\w+ = (\d+)", refusals)
        told = re.search(r"(?s)refusals\[\] = {(.*?)};", contents(example("handset.c")))[1]
        self.assertEqual(list(map(int, numbers)), list(range(24)))
        self.assertEqual(len(re.findall(r'(?m)^    "[^"]+"', told)), len(numbers))

    def test_wrong_widths(self):
        """A compiler for which one of the header's assertions does not hold refuses it, and says which."""
        found = compilers("gcc", "clang")
        if not found:
            self.skipTest("there is no C compiler")
        for wide, other, said in [
            ("uint64_t", "uint32_t", "a_length_has_8_bytes"),
            ("uint32_t", "uint64_t", "a_number_has_4_bytes"),
            ("uint16_t", "uint32_t", "a_word_and_a_level_have_2_bytes"),
        ]:
            source = f'#include <stddef.h>\n#include <stdint.h>\n#define {wide} {other}\n#include "link_survey.h"\n'
            for standard in "c99", "c11":
                with self.subTest(f"{standard}: {wide}"):
                    command = [found[0], "-std=" + standard, "-I" + INCLUDE, "-fsyntax-only", "-x", "c", "-"]
                    done = subprocess.run(command, input=source, capture_output=True, text=True, check=False)
                    self.assertNotEqual(done.returncode, 0)
                    self.assertIn(said, done.stderr)

    def test_warnings_in_cpp(self):
        with tempfile.TemporaryDirectory() as folder:
            source = os.path.join(folder, "header.cpp")
            with open(source, "w", encoding="utf-8") as file:
                file.write('#include "link_survey.h"\nunsigned file_bytes() { return LINK_SURVEY_FILE_BYTES(4u); }\n')
                file.write("unsigned report_bytes() { return LINK_SURVEY_REPORT_BYTES(4u, 4u); }\n")
                file.write("int lowest_level() { return LINK_SURVEY_LOWEST_LEVEL; }\n")
            standards = ["c++11", "c++14", "c++17", "c++20", "c++2b"]
            self.compiled(compilers("g++", "clang++"), standards, [source], "-Wold-style-cast")

    def compiled(self, found, standards, sources, *more):
        if not found:
            self.skipTest("there is no compiler for this language")
        for compiler in found:
            for standard in standards:
                command = [compiler, "-std=" + standard, *WARNINGS, *more, "-I" + INCLUDE, "-fsyntax-only"]
                with self.subTest(f"{compiler} {standard}"):
                    done = subprocess.run(command + sources, capture_output=True, text=True, check=False)
                    self.assertEqual((done.returncode, done.stderr), (0, ""))


if __name__ == "__main__":
    unittest.main()
