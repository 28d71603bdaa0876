"""Tests of reports held to their tables and compared with each other: python3 tools/test_compare.py

What a survey must report comes from the vectors of an independent model.
"""
import unittest

from losses import Losses
from plain_text import read_text
from replay import Replay, ceilings, plan_faults
from reports import DRAWN, OWN, PLAIN, along, impossible
from survey_text import ABSENT, read_report, read_site
from testing import Door, changed, contents, example, file_of, line, report_of, streams, table_taken, taken, text_of
from testing import valid

RING = [(0, 1), (1, 2), (2, 3), (0, 3)]


def replay_of(text, parents=None):
    """The survey of a site in plain text."""
    return Replay(Losses(read_text(text)[0]), parents)


class Replayed(unittest.TestCase):
    def test_every_vector(self):
        for name, file, report in valid():
            with self.subTest(name):
                self.assertEqual(Replay(Losses(read_site(file))).report(), read_report(report))

    def test_every_round(self):
        """Both handsets' lines after the load and after each round, along the survey's own tree and drawn ones."""
        files, lines = streams("lines")
        drawn = 0
        for cases, stream in files:
            for _ in range(cases):
                planned = next(stream) == 2
                site, parents = table_taken(stream), taken(stream)
                drawn += planned
                for status in Replay(Losses(site), parents if planned else None).statuses():
                    told = status.stage, *divmod(status.countdown, 256)
                    self.assertEqual(next(lines).encode() + b"\n", line(0x20, *told))
                    more = *divmod(status.rounds, 256), *divmod(status.requests, 256)
                    self.assertEqual(next(lines).encode() + b"\n", line(0x21, *told, *more))
        self.assertGreater(drawn, 0)
        self.assertEqual(list(lines), [])

    def test_countdown(self):
        """The limits of document 01: 30 for 4 units, 804 for 256."""
        self.assertEqual([sum(ceilings(units)) for units in (1, 4, 256)], [16, 30, 804])

    def test_drawn_trees_that_do_not_fit(self):
        """Refusal 18, by the loads of an independent model."""
        files, lines = streams("loads")
        tried = {True: 0, False: 0}
        for cases, stream in files:
            for _ in range(cases):
                call, units, ends, levels, parents = next(stream), next(stream), *(taken(stream) for _ in range(3))
                next(stream)
                number = int(next(lines).split()[0])
                if call == 2 and number in (0, 18):
                    site = read_site(file_of(units, list(zip(ends[::2], ends[1::2]))))
                    faults = list(plan_faults(site, Losses(site).groups, parents))
                    self.assertEqual(bool(faults), number == 18)
                    tried[bool(faults)] += 1
                    self.assertEqual(len(levels), len(site.links))
        self.assertGreater(min(tried.values()), 1)


class Held(Door):
    """A report held to the survey of its table, and not to removal alone."""

    def setUp(self):
        super().setUp()
        self.site, self.report = contents(example("case-b.txt")), contents(example("case-b.report.txt"))

    def refused(self, report, *words):
        self.fails(self.reported(self.site, report), "!! ", "report.txt contradicts ", *words)

    def test_rounds(self):
        self.refused(
            changed(changed(self.report, 0, 1, 3), 0, 2, 11),
            "the report says 779 rounds, but the survey takes 27 (4 units take 30 at the most)",
        )
        self.refused(changed(self.report, 0, 2, 28), "the report says 28 rounds, but the survey takes 27\n")

    def test_requests(self):
        self.refused(changed(self.report, 0, 4, 23), "23 ranking requests, but the survey makes 22")

    def test_places(self):
        swapped = changed(changed(self.report, 2, 8, 2), 3, 8, 1)
        self.refused(swapped, "unit 1 the place 2, but the survey gives it 1", "unit 2 the place 1, but")

    def test_a_program_along_another_tree(self):
        """A program has no leave to choose a tree; a report from elsewhere may be along a drawn one."""
        site = text_of(4, RING)
        drawn = report_of(replay_of(site, [ABSENT, 0, 1, 2]).report())
        path = self.printing(drawn)
        self.fails(self.run_door(self.at("site.txt", site), "--program", path), "the report is along a tree drawn by")
        code, said, told = self.reported(site, drawn)
        self.assertEqual((code, told), (0, ""))
        self.assertRegex(said, r"(?m)^the survey took 25 rounds and 22 ranking requests, along a tree drawn by")

    def test_a_set_that_takes_no_levels(self):
        site = b"units 4\n0-1 -90\n0-2 -50\n1-3 -90\n2-3 -50\n"
        plain = report_of(replay_of(b"units 4\n0-1\n0-2\n1-3\n2-3\n").report())
        own = report_of(replay_of(site).report())
        self.assertNotEqual(plain, own)
        self.assertIn("along the tree of a set that takes no levels", self.reported(site, plain)[1])
        self.assertNotIn("along", self.reported(site, own)[1])

    def test_the_program_is_held_too(self):
        site = self.at("site.txt", self.site)
        given = site, "--report", self.at("report.txt", self.report)
        self.assertEqual(self.run_door(*given, "--program", self.printing(self.report))[0], 1)
        forged = self.printing(changed(self.report, 0, 2, 28))
        self.fails(self.run_door(*given, "--program", forged), "!! the report contradicts", "says 28 rounds")

    def test_every_vector(self):
        for name, file, report in valid():
            with self.subTest(name):
                losses, report = Losses(read_site(file)), read_report(report)
                self.assertEqual(along(losses, report), (OWN, []))
                self.assertEqual(list(impossible(report)), [])
                self.assertTrue(along(losses, report._replace(rounds=report.rounds + 1))[1])
                drawn = Replay(losses, [unit.parent for unit in report.units]).report()
                tree, wrong = along(losses, drawn)
                self.assertEqual(wrong, [])
                self.assertIn(tree, (OWN, PLAIN, DRAWN))
                self.assertEqual(list(impossible(drawn)), [])


class Compared(Door):
    SITE = text_of(4, RING, [(3, "gate")])

    def compared(self, one, two, *arguments):
        paths = self.at("a.txt", one), self.at("b.txt", two)
        code, said, told = self.run_door(*arguments, "--compare", *paths)
        self.assertEqual(told, "")
        said = " ".join(line.removeprefix("!!   ").strip() for line in said.splitlines())
        first = f"A: {paths[0]}; B: {paths[1]} "
        self.assertTrue(said.startswith(first), said)
        return code, said.removeprefix(first)

    def reports(self):
        return (report_of(replay_of(self.SITE, parents).report()) for parents in (None, [ABSENT, 0, 1, 2]))

    def test_the_same(self):
        for _, file, report in valid()[:20]:
            self.assertEqual(self.compared(report, report)[0], 0)
            code, said = self.compared(report, report, self.at("site.txt", file))
            self.assertEqual(code, 0)
            self.assertRegex(said, r"both are surveys of \S+site.txt, both along the survey's own tree$")

    def test_of_one_table(self):
        own, drawn = self.reports()
        code, said = self.compared(own, drawn)
        self.assertEqual(code, 1)
        self.assertEqual(
            said,
            "both have 4 units and 4 links; the same in both: requests, places, groups, labels, lone links, single "
            "points rounds: 28 in A, 25 in B parents of 1 unit differ: unit 3: 0 in A, 2 in B "
            "both can be surveys of one table: all that follows from the links alone is the same; the rest follows "
            "from the tree, and that from the levels, the year of the set and what the planner drew",
        )
        code, said = self.compared(own, drawn, self.at("site.txt", self.SITE))
        self.assertEqual(code, 1)
        self.assertIn("unit 3 (gate): 0 in A, 2 in B", said)
        self.assertRegex(said, r"A along the survey's own tree, B along a tree drawn by the planner$")

    def test_sets_of_different_years(self):
        site = b"units 4\n0-1 -90\n0-2 -50\n1-3 -90\n2-3 -50\n"
        own, plain = (report_of(replay_of(text).report()) for text in (site, b"units 4\n0-1\n0-2\n1-3\n2-3\n"))
        said = self.compared(plain, own, self.at("site.txt", site))[1]
        self.assertRegex(said, r"A along the tree of a set that takes no levels, B along the survey's own tree$")

    def test_of_two_tables(self):
        own = next(self.reports())
        code, said = self.compared(own, contents(example("case-b.report.txt")))
        self.assertEqual(code, 1)
        self.assertTrue(
            said.endswith(
                "labels of 1 link differ: link 3: 0 in A, 3 in B lone links: 3 in B alone single points: 2 in B alone "
                "!! not surveys of one table: labels, lone links and single points differ, which follow from the links "
                "alone"
            ),
            said,
        )
        other = report_of(replay_of(text_of(5, [(0, 1), (1, 2), (0, 2), (2, 3), (3, 4), (2, 4)])).report())
        code, said = self.compared(own, other)
        sizes = "A has 4 units and 4 links, B has 5 units and 6 links"
        self.assertEqual((code, said), (1, f"!! not surveys of one table: {sizes}"))

    def test_more_links_than_there_are(self):
        """Two rows, 0-1-2-3 and 0-2-1-3: all that follows from the links is the same, but the trees need five links."""
        rows = [(0, 1), (1, 2), (2, 3)], [(0, 2), (2, 1), (1, 3)]
        reports = [report_of(replay_of(text_of(4, links)).report()) for links in rows]
        code, said = self.compared(*reports)
        self.assertEqual(code, 1)
        self.assertIn("!! not surveys of one table: their parents go along 5 links, more than either has", said)

    def test_a_report_that_no_survey_makes(self):
        own = next(self.reports())
        code, said = self.compared(own, changed(own, 0, 1, 3))
        self.assertEqual(code, 2)
        self.assertIn("!! B is no survey of any table: it has 796 rounds, but 4 units in 1 group take 23 to 30", said)
        for forged, why in [
            (changed(own, 0, 4, 1), "1 ranking request, but groups of these sizes make 22"),
            (changed(own, 2, 8, 3), "the tour of its tree gives unit 1 another place"),
            (changed(own, 2, 4, 1), "unit 1 is the lowest of its group and so has no parent, but unit 0 is drawn"),
            (changed(own, 2, 4, 2), "its colours are not those of groups"),
            (changed(own, 8, 4, 3), "link 3 is not lone, but its label has 1 link"),
            (changed(own, 8, 4, 1), "link 3 has the label 1, which is no first link of a set"),
        ]:
            code, said = self.compared(forged, own)
            self.assertEqual(code, 2, said)
            self.assertIn("!! A is no survey of any table: ", said)
            self.assertIn(why, said)

    def test_beside_a_table_that_is_not_theirs(self):
        own = next(self.reports())
        code, said = self.compared(own, contents(example("case-b.report.txt")), example("case-b.txt"))
        self.assertEqual(code, 2)
        self.assertIn("!! A is no survey of ", said)
        self.assertIn("the report says that unit 2 is not a single point, but its loss parts its group", said)
        self.assertNotIn("!! B is", said)

    def test_refusals(self):
        own = next(self.reports())
        code, said = self.compared(own, b"1E09D9\n")
        self.assertEqual((code, said), (1, "B is no report but a refusal, number 9: two units are linked twice"))
        self.assertEqual(self.compared(b"1E09D9\n", b"1E09D9\n")[0], 0)

    def test_faulty(self):
        own = self.at("own.txt", next(self.reports()))
        self.fails(self.run_door("--compare", own, self.at("none.txt")), "none.txt: cannot be read")
        self.fails(self.run_door("--compare", own, example("case-b.txt")), "line 1: the kind 01 does not belong")
        self.fails(self.run_door("--compare", own), "expected 2 arguments")
        self.fails(self.run_door("--compare", own, own, "--svg", "-"), "--compare stands alone")
        self.fails(self.run_door("--compare", "-", "-"), "only one - can be standard input")


if __name__ == "__main__":
    unittest.main()
