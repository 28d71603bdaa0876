"""Tests of the front door, its reports and its program: python3 tools/test_survey.py

What the program is made to run on is skipped, and said so, where the program link_survey is not built; most tests lend
it a report instead.
"""
import importlib.util
import os
import random
import re
import shlex
import subprocess
import sys
import types
import unittest
import xml.etree.ElementTree as ElementTree
from unittest import mock

import judge
import survey
from answers import Marks
from testing import DATA, DOOR, LEVELS, PROGRAM, ROOT, VECTORS, Door, changed, contents, example, file_of, line, text_of
from testing import vectors


class CaseE(Door):
    """Case E with a report that was changed."""

    def setUp(self):
        super().setUp()
        self.site = contents(example("case-e.txt"))
        self.report = contents(example("case-e.report.txt"))

    def refused(self, report, *words):
        svg = self.at("site.svg")
        self.fails(self.reported(self.site, report, "--svg", svg), *words)
        self.assertFalse(os.path.exists(svg))


class Contradictions(CaseE):
    def contradicted(self, report, words):
        self.refused(report, "!! ", "report.txt contradicts ", "do not rely on it", words)

    def test_a_single_point_hidden(self):
        report = changed(changed(self.report, 3, 9, 0), 12, 2, 0)
        self.contradicted(report, "unit 2 is not a single point, but its loss parts its group")

    def test_a_single_point_invented(self):
        report = changed(changed(self.report, 1, 9, 1), 12, 2, 2)
        self.contradicted(report, "unit 0 is a single point, but its loss parts nothing")

    def test_a_lone_link_invented(self):
        report = changed(changed(self.report, 6, 5, 1), 12, 4, 1)
        self.contradicted(report, "link 0 (0-1) is lone, but its loss parts nothing")

    def test_a_lone_link_hidden(self):
        self.site = contents(example("case-b.txt"))
        report = contents(example("case-b.report.txt"))
        self.contradicted(
            changed(changed(report, 8, 5, 0), 9, 4, 0), "link 3 (2-3) is not lone, but its loss parts its group"
        )

    def test_one_label_for_all(self):
        report = self.report
        for at in 9, 10, 11:
            report = changed(report, at, 4, 0)
        self.contradicted(report, "link 3 (2-3) the label 0")

    def test_a_colour_changed(self):
        self.contradicted(changed(self.report, 5, 4, 3), "unit 4 the colour 3")

    def test_a_parent_that_is_no_neighbour(self):
        self.contradicted(changed(self.report, 5, 6, 0), "unit 4 the parent 0, but no link joins the two")

    def test_a_place_twice(self):
        self.contradicted(changed(self.report, 5, 8, 3), "the places in the report")

    def test_many(self):
        """A chain of 256 units with a report that knows no weak place: 254 single points, 255 lone links, 254 labels
        and 254 parents are wrong."""
        self.site = file_of(256, [(v, v + 1) for v in range(255)])
        rows = [line(0x12, 0, v, 0, 0, *((255, 255) if v == 0 else (0, 0)), 0, v, 0) for v in range(256)]
        rows += [line(0x13, 0, j, 0, 0, 0) for j in range(255)]
        report = line(0x11, 0, 1, 0, 0) + b"".join(rows) + line(0x1F, 0, 0, 0, 0)
        self.contradicted(report, f"and {254 + 255 + 254 + 254 - 20} more\n")


class FaultyReports(CaseE):
    def lines(self):
        return self.report.splitlines(keepends=True)

    def test_sum(self):
        self.refused(self.report.replace(b"11001C0022B1", b"11001D0022B1"), "line 1: the check byte is B1")

    def test_character(self):
        self.refused(self.report.replace(b"1F", b"1f"), "line 13: the character 'f'")

    def test_line_feed(self):
        self.refused(self.report[:-1], "line 13: the line lacks its line feed")

    def test_carriage_return(self):
        self.refused(self.report.replace(b"\n", b"\r\n"), "line 1: the line ends in a carriage return")

    def test_empty(self):
        self.refused(b"", "the report is empty")

    def test_kind_of_a_file(self):
        self.refused(self.site, "line 1: the kind 01 does not belong")

    def test_unit_line_missing(self):
        lines = self.lines()
        self.refused(b"".join(lines[:3] + lines[4:]), "line 4: unit 2 should stand here, not 3")

    def test_unit_line_after_a_link_line(self):
        lines = self.lines()
        self.refused(
            b"".join(lines[:5] + [lines[6], lines[5]] + lines[7:]), "line 7: a line of kind 12 should not stand here"
        )

    def test_link_line_missing(self):
        lines = self.lines()
        self.refused(b"".join(lines[:6] + lines[7:]), "line 7: link 0 should stand here, not 1")

    def test_last_line_missing(self):
        self.refused(b"".join(self.lines()[:-1]), "of kind 1F, is missing")

    def test_count_at_the_end(self):
        self.refused(changed(self.report, 12, 2, 2), "it counts 2 single points, but the lines before mark 1")

    def test_flag(self):
        self.refused(changed(self.report, 1, 9, 2), "line 2: the flag is 02")

    def test_report_of_another_site(self):
        other = contents(example("case-b.report.txt"))
        self.refused(other, "does not belong to", "it has 4 units, the table 5")

    def test_report_of_an_accepted_file_for_a_faulty_one(self):
        self.site = self.site.replace(b"010005FA", b"010004FB")
        self.refused(self.report, "link 4 (3-4) names a unit past the last one, 3")


class Programs(Door):
    """The program that is run, by stand-ins."""

    def setUp(self):
        super().setUp()
        self.report = contents(example("case-b.report.txt"))

    def test_what_it_prints_is_told(self):
        expected = self.reported(contents(example("case-b.txt")), self.report)
        self.assertEqual(expected[0], 1)
        self.assertEqual(self.run_door(example("case-b.txt"), "--program", self.printing(self.report)), expected)
        with mock.patch.dict(os.environ, LINK_SURVEY_PROGRAM=self.printing(self.report)):
            self.assertEqual(self.run_door(example("case-b.txt")), expected)
            self.assertEqual(self.run_door("-", given=contents(example("case-b.txt"))), expected)

    def test_it_is_given_the_survey_file(self):
        for given in contents(example("case-b.txt")), text_of(4, [(0, 1), (1, 2), (0, 2), (2, 3)]), b"junk\n":
            copy = self.at("copy.txt")
            path = self.program(f"cat > '{copy}'; cat '{self.at('printed.txt', self.report)}'")
            self.run_door("-", "--program", path, given=given)
            self.assertEqual(contents(copy), b"junk\n" if given == b"junk\n" else contents(example("case-b.txt")))

    def test_contradiction(self):
        path = self.printing(changed(changed(self.report, 8, 5, 0), 9, 4, 0))
        self.fails(
            self.run_door(example("case-b.txt"), "--program", path),
            "!! the report contradicts",
            "link 3 (2-3) is not lone",
        )
        self.fails(
            self.run_door(example("case-b.txt"), "--program", self.printing(b"1E09D9\n")),
            "!! but nothing is wrong with ",
        )

    def test_contradiction_of_the_earlier_table(self):
        path = self.program(
            f"read x; if [ $x = 010004FB ]; then cat '{example('case-b.report.txt')}'; else echo 1E09D9; fi"
        )
        self.assertEqual(self.run_door(example("case-b.txt"), "--program", path)[0], 1)
        done = self.run_door(example("case-b.txt"), "--program", path, "--before", example("case-e.txt"))
        self.fails(done, "!! but nothing is wrong with ", "case-e.txt")

    def test_not_there(self):
        done = self.run_door(example("case-b.txt"), "--program", self.at("none"))
        self.fails(done, "is not there: `rt run` in ", "(README.md)")
        self.assertEqual(done[2].count("\n"), 1)

    def test_failures(self):
        for path, words in [
            (self.folder, "cannot be run"),
            (self.at("text", b"no program\n"), "cannot be run"),
            (self.program("echo out of memory >&2; exit 3"), "failed with 3: out of memory"),
        ]:
            self.fails(self.run_door(example("case-b.txt"), "--program", path), words)
        self.fails(self.run_door(example("case-b.txt"), "--program", self.program("exit 0")), "the report is empty")
        self.fails(
            self.run_door(example("case-b.txt"), "--program", self.program("echo hello")), "line 1: the character 'h'"
        )
        with mock.patch.object(judge, "SECONDS", 0.2):
            self.fails(
                self.run_door(example("case-b.txt"), "--program", self.program("exec sleep 20")),
                "it was stopped after 0.2 seconds",
            )

    def test_the_program_on_every_vector(self):
        if not os.path.exists(PROGRAM):
            self.skipTest("the program link_survey is not built (rt run in its folder)")
        for path in vectors("*", VECTORS) + vectors("*", LEVELS):
            with self.subTest(os.path.basename(path)):
                file = contents(path + ".in")
                self.assertEqual(judge.run_program(PROGRAM, file), contents(path + ".out"))
                if len(file) < 500:
                    self.assertEqual(
                        self.run_door(path + ".in", "--program", PROGRAM),
                        self.run_door(path + ".in", "--report", path + ".out"),
                    )


class Outputs(Door):
    """Drawings and pages, made by stand-ins for the modules that make them."""

    def setUp(self):
        super().setUp()
        self.made = []
        modules = {"drawing": types.ModuleType("drawing"), "page": types.ModuleType("page")}
        modules["drawing"].svg_of = lambda *given: self.made.append(given) or "<svg>\u00d7</svg>\n"
        modules["page"].html_of = lambda *given: self.made.append(given) or "<html/>\n"
        patch = mock.patch.dict(sys.modules, modules)
        patch.start()
        self.addCleanup(patch.stop)
        self.case = example("case-b.txt"), "--report", example("case-b.report.txt")
        self.words = self.run_door(*self.case)[1]
        self.assertTrue(self.words)

    def test_written(self):
        svg, html = self.at("site.svg"), self.at("site.html")
        self.assertEqual(self.run_door(*self.case, "--svg", svg, "--html", html), (1, self.words, ""))
        self.assertEqual((contents(svg), contents(html)), ("<svg>\u00d7</svg>\n".encode(), b"<html/>\n"))

    def test_standard_output(self):
        self.assertEqual(self.run_door(*self.case, "--svg", "-"), (1, "<svg>\u00d7</svg>\n", self.words))
        self.assertEqual(self.run_door(*self.case, "--html", "-"), (1, "<html/>\n", self.words))

    def test_what_is_drawn(self):
        named = self.at("site.txt", text_of(4, [(0, 1), (1, 2), (0, 2), (2, 3)], [(3, "relay")]))
        report = "--report", example("case-b.report.txt")
        self.run_door(named, *report, "--svg", "-", "--full", "--before", example("case-e.txt"))
        self.run_door(named, *report, "--html", self.at("x"))
        (losses, names, before, *drawn), page = self.made
        found = losses.site.units, names, before.site.units, *drawn
        self.assertEqual(found, (4, {3: "relay"}, 5, True, None, True, Marks()))
        self.assertEqual((page[0].site.units, *page[1:]), (4, {3: "relay"}, None, None, True, Marks(), []))

    def test_unwritable(self):
        """The words are there all the same."""
        for out in os.path.join(self.folder, "none", "x.svg"), self.folder:
            for option in "--svg", "--html":
                code, said, told = self.run_door(*self.case, option, out)
                self.assertEqual((code, said), (2, self.words))
                self.assertIn(f"{out}: cannot be written: ", told)
        self.fails(self.run_door(example("case-b.txt"), "--to-text", self.folder), "cannot be written: Is a directory")

    def test_options_that_do_not_go_together(self):
        for arguments, words in [
            ((*self.case, "--svg", "-", "--html", "-"), "only one - can be standard output"),
            (("-", "--before", "-"), "only one - can be standard input"),
            (("-", "--to-file", "-", "--to-text", "x"), "stand alone"),
            ((*self.case, "--to-file", "-"), "stand alone"),
            ((), "SITE"),
        ]:
            self.fails(self.run_door(*arguments), words)

    def test_no_input_is_overwritten(self):
        site = self.at("site.txt", text_of(2, [(0, 1)], [(0, "gate")]))
        for option in "--to-file", "--to-text", "--svg":
            self.fails(
                self.run_door(site, option, os.path.join(self.folder, ".", "site.txt")), "it would be overwritten"
            )
        self.assertEqual(contents(site), text_of(2, [(0, 1)], [(0, "gate")]))

    def test_help(self):
        code, said, told = self.run_door("--help")
        self.assertEqual((code, told), (0, ""))
        for option in "svg", "html", "before", "full", "report", "program", "to-file", "to-text":
            self.assertIn(f"--{option} ", said)
        for words in "units 5", "Exit status":
            self.assertIn(words, said)


@unittest.skipUnless(
    importlib.util.find_spec("drawing") and importlib.util.find_spec("page"), "drawing.py and page.py are not here"
)
class Together(Door):
    """The front door with the modules that draw, on a site with names, an earlier table and a spare."""

    def test_drawing_and_page(self):
        if not os.path.exists(PROGRAM):
            self.skipTest("the program link_survey is not built (rt run in its folder)")
        svg, html = self.at("site.svg"), self.at("site.html")
        site = example("road-spare.txt"), "--before", example("road.txt"), "--program", PROGRAM
        code, said, told = self.run_door(*site, "--svg", svg, "--html", html)
        self.assertEqual((code, told), (1, ""))
        self.assertEqual(ElementTree.fromstring(contents(svg)).tag, "{http://www.w3.org/2000/svg}svg")
        self.assertRegex(contents(html), rb"(?i)\A<!doctype html>")
        for drawn in contents(svg).decode(), contents(html).decode():
            for name in "repeater A", "repeater B", "spare":
                self.assertIn(name, drawn)
        self.assertEqual(self.run_door(*site, "--svg", "-"), (1, contents(svg).decode(), said))


class Foreman(Door):
    """What docs/FOREMAN.md shows without its command, and its commands; test_shown.py has those with what they
    print."""

    def setUp(self):
        super().setUp()
        self.page = contents(os.path.join(ROOT, "docs", "FOREMAN.md")).decode()
        self.blocks = ["".join(block) for block in re.findall(r"(?m)(?<=\n\n)(?:    .+\n)+", self.page)]

    def shown(self, beginning):
        """The block of the page that begins so, as it was printed."""
        found = [block for block in self.blocks if block.startswith("    " + beginning)]
        self.assertEqual(len(found), 1)
        return re.sub(r"(?m)^    ", "", found[0])

    def test_lists(self):
        if not os.path.exists(PROGRAM):
            self.skipTest("the program link_survey is not built (rt run in its folder)")
        for arguments, beginning in [
            ((example("case-b.txt"),), "4 units, 4 links"),
            ((example("case-e.txt"),), "5 units, 6 links"),
        ]:
            self.assertEqual(self.run_door(*arguments, "--program", PROGRAM), (1, self.shown(beginning), ""))

    def test_commands(self):
        """Each command of the page is understood, and its inputs are there."""
        found = re.findall(r"(?m)^    python3 tools/survey.py (.+)$", self.page)
        self.assertEqual(len(found), 16)
        for command in found:
            options = survey.command_line().parse_args(shlex.split(command))
            several = *(options.sites or ()), *(options.compare or ())
            for path in options.site, options.before, options.report, options.plan, *several:
                self.assertTrue(path is None or os.path.exists(os.path.join(ROOT, path)), path)

    def test_countdown(self):
        """Document 01: each stage's ceiling for four units, and the rounds that case B takes, 27 in all, of a
        countdown of 30."""
        ceilings, rounds = [4, 5, 2, 4, 2, 4, 3, 1, 3, 2], [3, 4, 2, 4, 2, 4, 3, 1, 2, 2]
        self.assertEqual((sum(ceilings), sum(rounds)), (30, 27))
        names = "colour, tree, tour, first ranking, marks, second ranking, least and greatest, joins, classes, labels"
        names = names.split(", ") + ["finished"]
        rows = re.findall(r"(?m)^\| (\d+) \| ([a-z ]+) \| .*\| ([\d ]+) \|$", self.page)
        expected = [[sum(ceilings[i:]) - k for k in range(rounds[i])] for i in range(10)] + [[0]]
        shown = [(int(stage), name, list(map(int, countdowns.split()))) for stage, name, countdowns in rows]
        self.assertEqual(shown, list(zip(range(1, 12), names, expected)))


class Faults(Door):
    def test_inputs(self):
        for path, words in [
            (self.at("none.txt"), "none.txt: cannot be read: No such file"),
            (self.folder, "cannot be read: Is a directory"),
            (self.at("long.txt", bytes(2**20 + 1)), "this is no table of a site"),
        ]:
            self.fails(self.run_door(path), words)
            self.fails(self.run_door(example("case-b.txt"), "--report", path), words)
            self.fails(self.run_door(path, "--to-file", "-"), words)

    def test_junk(self):
        """Whatever the bytes, the program's refusal 1 or a fault of plain text; never a traceback."""
        pick = random.Random(31)
        for length in (1, 7, 300):
            for alphabet in (range(256), b"0123456789ABCDEF\n", b"0123-=# \nunits", bytes(range(128, 256))):
                junk = bytes(pick.choice(alphabet) for _ in range(length))
                self.fails(self.reported(junk, b"1E01E1\n"))
        self.fails(self.reported(b"", b"1E02E0\n"), "the file is empty")
        self.fails(self.reported(b"\xff\xfeu\x00n\x00i\x00t\x00s\x00", b"1E01E1\n"), "plain text is read too")


class AsAProgram(Door):
    """What only a process of its own shows."""

    def door(self, *arguments, **how):
        return subprocess.run(
            [sys.executable, DOOR, *arguments], capture_output="stdout" not in how, timeout=60, check=False, **how
        )

    def case(self, *arguments):
        return example("case-b.txt"), "--report", example("case-b.report.txt"), *arguments

    def test_exit_status(self):
        done = self.door(*self.case())
        self.assertEqual((done.returncode, done.stderr), (1, b""))
        self.assertIn(b"unit 2 is a single point", done.stdout)
        self.assertEqual(
            self.door("-", "--report", example("case-b.report.txt"), input=contents(example("case-b.txt"))).stdout,
            done.stdout,
        )
        ring = vectors("*_v_ring", DATA)[0]
        self.assertEqual(self.door(ring + ".in", "--report", ring + ".out").returncode, 0)
        refused = vectors("*_r7_end_is_n", DATA)[0]
        done = self.door(refused + ".in", "--report", refused + ".out")
        self.assertEqual((done.returncode, done.stdout), (2, b""))

    def test_a_reader_that_went_away(self):
        for arguments in self.case(), (example("case-b.txt"), "--to-text", "-"):
            end, out = os.pipe()
            os.close(end)
            try:
                done = self.door(*arguments, stdout=out, stderr=subprocess.PIPE)
            finally:
                os.close(out)
            self.assertEqual((done.returncode, done.stderr), (2, b""))

    @unittest.skipUnless(os.path.exists("/dev/full"), "there is no /dev/full")
    def test_a_full_disk(self):
        with open("/dev/full", "wb") as full:
            done = self.door(*self.case(), stdout=full, stderr=subprocess.PIPE)
        self.assertEqual(done.returncode, 2)
        self.assertRegex(done.stderr, rb"\Astandard output cannot be written: .+\n\Z")
        done = self.door(example("case-b.txt"), "--to-text", "/dev/full")
        self.assertEqual(done.returncode, 2)
        self.assertRegex(done.stderr, rb"\A/dev/full: cannot be written: .+\n\Z")

    def test_closed_streams(self):
        for closed in "<&-", ">&-":
            command = ["sh", "-c", f'exec "$0" "$@" {closed}', sys.executable, DOOR, "-", "--to-text", "-"]
            done = subprocess.run(command, input=contents(example("case-b.txt")), capture_output=True, check=False)
            self.assertEqual(done.returncode, 2)
            self.assertRegex(done.stderr, rb"\Astandard (in|out)put is closed\n\Z")
        command = ["sh", "-c", 'exec "$0" "$@" >&-', sys.executable, DOOR, *self.case()]
        done = subprocess.run(command, capture_output=True, check=False)
        self.assertEqual((done.returncode, done.stderr), (2, b"standard output is closed\n"))

    def test_a_terminal_without_the_characters(self):
        site = self.at("site.txt", text_of(2, [(0, 1)], [(0, "Br\u00fccke")]))
        two = vectors("*_v_two_units", DATA)[0]
        done = self.door(site, "--report", two + ".out", env={**os.environ, "PYTHONIOENCODING": "ascii"})
        self.assertEqual((done.returncode, done.stderr), (1, b""))
        self.assertIn(b"unit 0 (Br?cke)", done.stdout)


if __name__ == "__main__":
    unittest.main()
