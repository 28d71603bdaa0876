"""Tests of questions put to a site, their answers and the words for them: python3 tools/test_asking.py

The program link_ask is tried where it is built. Most tests ask a stand-in instead (tools/testing_ask.py), which tries
every ring, order and setting. What is worked out from the table alone is held to the vectors of document 02's requests.
"""
import itertools
import json
import os
import random
import re
import sys
import unittest
from unittest import mock

import answers
import asking
import planning
from asking import Refused, worked_out
from files import Given
from losses import Losses
from naming import Names, parents_of
from survey_text import ABSENT, Fault, Site, read_site, write_site
from testing import HERE, PROGRAM, Door, contents, example, file_of, streams, table_taken, taken, text_of
from testing import weak_by_removal
from working import ALWAYS, NEVER, PERHAPS, Doubts, changed_table, has_ring, one_way_of, order_fault, order_of
from working import ring_fault, ring_of, verdict_of

CASE_B = [(0, 1), (1, 2), (0, 2), (2, 3)]
CASE_E = [(0, 1), (1, 2), (0, 2), (2, 3), (3, 4), (2, 4)]
BUILT = asking.ASKER
NOT_BUILT = "the program link_ask is not built (rt run in its folder)"


def site_of(units, links):
    return Site(units, links, [-127] * len(links))


class Vectors(unittest.TestCase):
    """What is worked out from the table, against an independent model."""

    def cases(self, family):
        files, self.lines = streams(family)
        for cases, stream in files:
            for _ in range(cases):
                yield stream

    def printed(self):
        return [int(word) for word in next(self.lines).split()]

    def test_rings(self):
        seen = {0: 0, 1: 0}
        for stream in self.cases("rings"):
            site = table_taken(stream)
            next(stream)
            questions = [(next(stream), next(stream), next(stream)) for _ in range(next(stream))]
            losses = Losses(site)
            for (i, j, _), right in zip(questions, self.printed()):
                if right in seen:
                    seen[right] += 1
                    units = ring_of(site, i, j)
                    self.assertEqual((bool(units), has_ring(losses, i, j)), (right == 1, right == 1))
                    self.assertTrue(not units or ring_fault(site, i, j, units) is None)
        self.assertGreater(min(seen.values()), 1000)

    def test_lifting_orders(self):
        seen = {0: 0, 19: 0, 20: 0}
        for stream in self.cases("lifting"):
            site, _, _, words = table_taken(stream), next(stream), next(stream), taken(stream)
            right = self.printed()
            if right[0] in seen and len(words) % 2 == 0:
                seen[right[0]] += 1
                pairs = list(zip(words[::2], words[1::2]))
                order = worked_out(order_of, site, pairs)
                self.assertEqual(order, Refused(right[0]) if right[0] else right[1:])
                self.assertTrue(right[0] or order_fault(site, pairs, order) is None)
        self.assertGreater(min(seen.values()), 3)

    def test_doubtful_links(self):
        seen = {0: 0, 1: 0, 2: 0}
        for stream in self.cases("doubtful"):
            site, _, marks = table_taken(stream), next(stream), taken(stream)
            questions = [(next(stream), next(stream)) for _ in range(next(stream))]
            losses, doubtful = Losses(site), {k for k, mark in enumerate(marks) if mark}
            for (i, j), right in zip(questions, self.printed()):
                if right in seen:
                    seen[right] += 1
                    self.assertEqual(verdict_of(losses, i, j, doubtful), (NEVER, PERHAPS, ALWAYS)[right])
        self.assertGreater(min(seen.values()), 500)

    def test_one_way_links(self):
        seen = 0
        for stream in self.cases("one_way"):
            units, ends, _ = next(stream), taken(stream), next(stream)
            right = self.printed()
            if right[0] == 0:
                seen += 1
                numbers, passes = one_way_of(site_of(units, list(zip(ends[::2], ends[1::2]))))
                self.assertEqual([0, passes, *numbers], right)
        self.assertGreater(seen, 100)

    def test_live_tables(self):
        """Each change of the vectors alone, on the table that it is made to."""
        seen = {}
        for name in (f"t09_changes_{k:03}.in" for k in range(8)):
            folder = os.path.join(os.path.dirname(HERE), "crates", "check_live", "data")
            stream = iter([int(word) for word in contents(os.path.join(folder, name)).split()])
            lines = self.live_lines()[name]
            for _ in range(next(stream)):
                table = None
                for _ in range(next(stream)):
                    step = next(stream)
                    if step == 4:
                        table = [next(stream) for _ in range(3)] and None
                        continue
                    if step == 1:
                        opened = table_taken(stream)
                        right = next(lines)
                        table = opened if right[0] == 0 else table
                        continue
                    change = ("add", *(next(stream) for _ in range(3))) if step == 2 else (
                        "withdraw", next(stream), next(stream), None
                    )
                    right = next(lines)
                    if table is not None:
                        found = worked_out(changed_table, table, [change])
                        number = found.number if isinstance(found, Refused) else 0
                        self.assertEqual(number, right[0])
                        seen[number] = seen.get(number, 0) + 1
                        table = table if number else found
                        self.assertEqual(len(table.links), right[1])
                next(lines)
        self.assertTrue({0, 7, 8, 9, 16, 21} <= set(seen), seen)

    def live_lines(self):
        """The lines that the check program prints, by file."""
        if not hasattr(self, "live"):
            folder = os.path.join(os.path.dirname(HERE), "crates", "check_live")
            printed = contents(os.path.join(folder, "stdout")).splitlines()
            rows = iter([[int(k) for k in row.split()] for row in printed])
            self.live = {name.decode(): rows for name in contents(os.path.join(folder, "args")).split()}
        return self.live


class DoubtsTried(unittest.TestCase):
    def test_every_setting(self):
        """What is weak always, perhaps and never, against every setting of small sites."""
        seen = set()
        for seed in range(60):
            pick = random.Random(seed)
            units = pick.randint(2, 7)
            pairs = list(itertools.combinations(range(units), 2))
            links = pick.sample(pairs, min(len(pairs), pick.randint(1, units + 2)))
            marks = pick.sample(range(len(links)), min(len(links), pick.randint(0, 4)))
            settings = []
            for gone in itertools.product((False, True), repeat=len(marks)):
                away = {mark for mark, is_gone in zip(marks, gone) if is_gone}
                left = [link for k, link in enumerate(links) if k not in away]
                settings.append((left, weak_by_removal(units, left)))
            found = Doubts(Losses(site_of(units, links)), set(marks))
            for v in range(units):
                weak = {v in lost for _, lost in settings}
                right = PERHAPS if len(weak) > 1 else ALWAYS if True in weak else NEVER
                self.assertEqual(found.units[v], right, (seed, v))
                seen.add(right)
            for j, link in enumerate(links):
                weak = {frozenset(link) in lost for left, lost in settings if link in left}
                right = PERHAPS if len(weak) > 1 else ALWAYS if True in weak else NEVER
                self.assertEqual(found.links[j], right, (seed, link))
                seen.add(right)
        self.assertEqual(seen, {ALWAYS, PERHAPS, NEVER})


class Said(unittest.TestCase):
    """Units, links and pairs as people say them."""

    def setUp(self):
        names = {0: "head N1", 2: "gate - north", 3: "Pump 2-3", 4: "pump 2", 5: "1-2"}
        self.says = Names(site_of(6, [(0, 1), (2, 1), (3, 4), (2, 3)]), names)

    def test_links(self):
        for said, position in [
            ("0-1", 0), ("1-0", 0), (" 1 - 2 ", 1), ("1\u20132", 1), ("3", 3), ("head n1-1", 0), ("HEAD  N1 - 1", 0),
            ("gate - north-1", 1), ("1-gate - north", 1), ("pump 2-pump 2-3", 2), ("Pump 2-3 - pump 2", 2),
            ("gate - north-pump 2-3", 3),
        ]:
            self.assertEqual(self.says.link(said), position, said)

    def test_faults(self):
        for said, words in [
            ("0-2", "no link joins units 0 (head N1) and 2 (gate - north)"), ("4", "there is no link 4: the links are"),
            ("0-9", "there is no unit 9: the units are 0 to 5"), ("gate-1", "no unit is called 'gate'"),
            ("gate", "'gate' is no link: a link is two units, like 3-4"), ("0-", "'0-' is no link"),
        ]:
            with self.assertRaises(Fault) as caught:
                self.says.link(said)
            self.assertIn(words, str(caught.exception))
        with self.assertRaisesRegex(Fault, "the table has none"):
            Names(site_of(2, [])).link("0")
        with self.assertRaisesRegex(Fault, "units 0, 1 are both called gate"):
            Names(site_of(2, [(0, 1)]), {0: "gate", 1: "Gate"}).link("gate-1")

    def test_pairs(self):
        self.assertEqual(self.says.pairs(["3 before 1", "head N1 BEFORE pump 2, 2 before 3"]), [(3, 1), (0, 4), (2, 3)])
        for said in "3", "3 after 1", "3-1", "before":
            with self.assertRaisesRegex(Fault, "is no pair: it is like '7 before 8'"):
                self.says.pairs([said])

    def test_changes(self):
        self.assertEqual(
            self.says.change("add", ["0-2", "-63", "head N1-4", "5-0", "0"]),
            [("add", 0, 2, -63), ("add", 0, 4, None), ("add", 5, 0, 0)],
        )
        both = [("withdraw", 0, 1, None), ("withdraw", 2, 1, None)]
        self.assertEqual(self.says.change("withdraw", ["0-1", "2-1"]), both)
        with self.assertRaisesRegex(Fault, "'-64' is no link"):
            self.says.change("add", ["0-2", "-63", "-64"])

    def test_drawn_trees(self):
        says = Names(site_of(5, CASE_E), {2: "gate", 3: "east-3"})
        text = "# the planner's\n\n0-1  # first\n0 - gate\ngate - east-3\n3-4\n".encode()
        self.assertEqual(parents_of(text, says), [ABSENT, 0, 0, 2, 3])
        self.assertEqual(parents_of(b"0-1-2-3-4", says), [ABSENT, 0, 1, 2, 3])
        self.assertEqual(parents_of(b"0 > 2 > 4 > 3\n0 -> 1", says), [ABSENT, 0, 0, 4, 2])
        for text, words in [
            (b"0-1\n2-1\n", "line 2: unit 1 hangs on unit 0 already, in line 1"),
            (b"0\n", "line 1: '0' is no relay path"),
            (b"0-9\n", "line 1: there is no unit 9"), (b"\xff", "not in UTF-8"),
        ]:
            with self.assertRaisesRegex(Fault, words):
                parents_of(text, says)


class Asked(Door):
    """The front door with a stand-in for the program."""

    def setUp(self):
        super().setUp()
        script = f"#!/bin/sh\nexec '{sys.executable}' '{HERE}/testing_ask.py' \"$@\"\n"
        self.asker = self.at("link_ask", script.encode())
        os.chmod(self.asker, 0o755)
        text = text_of(5, CASE_E, [(2, "gate"), (4, "relay")])
        self.site = self.at("site.txt", text)

    def answer(self, *arguments, lies=""):
        with mock.patch.dict(os.environ, LINK_ASK_LIES=lies):
            code, said, told = self.run_door(self.site, *arguments, "--asker", self.asker, *self.reporting())
        return code, said, told

    def reporting(self):
        """The program link_survey where it is built, else it is not needed."""
        return ("--program", PROGRAM) if os.path.exists(PROGRAM) else ()

    def lines(self, *arguments):
        code, said, told = self.answer(*arguments)
        self.assertEqual(told, "")
        return code, said.splitlines()

    def setUpProgram(self):
        if not os.path.exists(PROGRAM):
            self.skipTest("the program link_survey is not built (rt run in its folder)")

    def test_ring(self):
        self.setUpProgram()
        self.assertEqual(
            self.lines("--ring", "2-3", "4"),
            (0, ["a ring of 3 units holds link 3 (2-3: gate, unit 3) and link 4 (3-4: unit 3, relay)",
                 "  walk units 2 (gate), 3, 4 (relay), and back to the first"]),
        )
        self.assertEqual(
            self.lines("--ring", "0-1", "gate-relay"),
            (1, ["no ring holds link 0 (0-1) and link 5 (2-4: gate, relay): they do not back each other up"]),
        )
        self.assertEqual(self.lines("--ring", "0-1")[1][0], "a ring of 3 units holds link 0 (0-1)")
        self.site = self.at("b.txt", text_of(4, CASE_B))
        self.assertEqual(self.lines("--ring", "2-3"), (1, ["no ring holds link 3 (2-3): it is lone"]))

    def test_doubtful(self):
        self.setUpProgram()
        code, said = self.lines("--ring", "0-1", "1-2", "--doubtful", "2-3")
        self.assertEqual((code, said[2]), (0, "doubtful: link 3 (2-3: gate, unit 3): it may be gone"))
        told = "link 0 (0-1) and link 1 (1-2: unit 1, gate) back each other up always: whatever is in the way, a ring "
        self.assertEqual(" ".join(map(str.strip, said[3:])), told + "holds both")
        code, said = self.lines("--ring", "3-4", "--doubtful", "2-3", "0-1")
        told = "link 4 (3-4: unit 3, relay) is backed up perhaps: that hangs on what is in the way"
        self.assertEqual((code, said[-1]), (1, told))
        self.assertIn("never: not even where nothing", self.lines("--ring", "0", "4", "--doubtful", "1")[1][-1])
        self.assertEqual(
            self.lines("--doubtful", "2-3"),
            (1, ["doubtful: link 3 (2-3: gate, unit 3): it may be gone", "weak whatever is gone: unit 2 (gate)",
                 "weak where it is gone: unit 4 (relay); links 2-4, 3-4"]),
        )
        self.assertEqual(
            self.lines("--doubtful", "2-3", "relay-3")[1][-1], "with all of them gone unit 3 hears nobody"
        )
        self.site = self.at("row.txt", text_of(4, [(0, 1), (1, 2), (2, 3)]))
        self.assertEqual(
            self.lines("--doubtful", "2-3"),
            (1, ["doubtful: link 2 (2-3): it may be gone", "weak whatever is gone: unit 1; links 0-1, 1-2, 2-3",
                 "weak now, though not where it is gone: unit 2", "nothing more becomes weak, whatever is gone",
                 "with it gone unit 3 hears nobody"]),
        )

    def test_lift(self):
        self.setUpProgram()
        self.assertEqual(
            self.lines("--lift"),
            (0, ["lifting order: what still stands keeps its signal to unit 0, which goes last", "  1  unit 4 (relay)",
                 "  2  unit 3", "  3  unit 2 (gate)", "  4  unit 1", "  5  unit 0"]),
        )
        code, said = self.lines("--lift", "1 before gate")
        self.assertEqual((code, said[1]), (0, "  kept: 1 before 2 (gate)"))
        self.assertEqual([row.split()[2] for row in said[2:]], list("43120"))
        code, said = self.lines("--lift", "0 before 3", "4 before 3")
        self.assertEqual(code, 1)
        self.assertTrue(said[0].startswith("refused with number 20: no lifting order exists: "))
        self.assertEqual(said[-1], "  without this pair there is one: 0 before 3")
        self.site = self.at("apart.txt", text_of(4, [(0, 1), (2, 3)]))
        self.assertEqual(self.lines("--lift")[1][-1], "  units 2, 3 cannot reach unit 0 as it is")

    def test_one_way(self):
        self.site = self.at("one.txt", b"units 4\n0-1\n1-0\n1-2\n2 = gate\n")
        self.assertEqual(
            self.lines("--one-way"),
            (1, ["4 units, 3 one-way links, from the first unit of each to the second: 3 groups",
                 "  units 0, 1: each reaches each other", "  units 2 (gate), 3: each alone, by no way there and back",
                 "numbered in 2 passes"]),
        )
        self.site = self.at("ring.txt", file_of(3, [(0, 1), (1, 2), (2, 0)]))
        self.assertEqual(self.lines("--one-way")[0], 0)
        self.site = self.at("twice.txt", b"units 2\n0-1\n0-1\n")
        self.fails(self.answer("--one-way"), "units 0 and 1 have a link already, in line 2")
        self.site = self.at("two.txt", b"units 2\n0-1\n1-0\n")
        self.fails(self.answer(), "units 1 and 0 have a link already, in line 2")

    def test_plan(self):
        self.setUpProgram()
        plan = self.at("plan.txt", b"0-1-2\ngate - relay\n2-3\n")
        code, said = self.lines("--plan", plan)
        self.assertEqual(code, 1)
        self.assertIn("the survey took 25 rounds and 34 ranking requests, along a tree drawn by the planner", said)
        own = self.run_door(self.site, "--program", PROGRAM)[1].splitlines()
        self.assertEqual([row for row in said if "rounds" not in row], [row for row in own if "rounds" not in row])
        for text, words in [
            (b"0-1-2-3\n", "unit 4 (relay) has no parent, but the lowest unit of its group is 0"),
            (b"0-1-2-3\n0-4\n", "unit 4 (relay) has unit 0 as parent, but no link joins the two"),
            (b"0-1-2\n3-4-3\n", "unit 3 is drawn in a circle"),
            (b"0-1-2-3-4\n1-0\n", "unit 0 is the lowest of its group and so has no parent, but unit 1 is drawn as one"),
        ]:
            self.fails(self.answer("--plan", self.at("plan.txt", text)), words, "refused the drawn tree with number 18")
        self.site = self.at("apart.txt", text_of(3, [(0, 1)]))
        self.fails(self.answer("--plan", self.at("plan.txt", b"0-1\n")), "no link ends at unit 2", "with number 22")

    def test_changes(self):
        self.setUpProgram()
        code, said = self.lines("--add", "1-3", "-63", "--withdraw", "gate-relay", "--add", "0-relay")
        self.assertEqual((code, said[1]), (0, "since the earlier table: links 1-3, 0-4 came; link 2-4 went"))
        out = self.at("out.txt")
        self.assertEqual(self.answer("--add", "1-3", "-63", "--withdraw", "4-2", "--to-text", out)[:2], (0, ""))
        self.assertEqual(contents(out), b"units 5\n0-1\n1-2\n0-2\n2-3\n3-4\n1-3 -63\n2 = gate\n4 = relay\n")
        for words, told in [
            (["--add", "1-0"], "change 1 of 1, to add a link between units 1 and 0, is refused with number 9: two"),
            (["--withdraw", "0-1", "0-1"], "change 2 of 2, to withdraw a link between units 0 and 1, is refused with"),
            (["--add", "1-3", "3"], "number 16"), (["--add", "1-1"], "number 8"),
        ]:
            self.fails(self.answer(*words), told)
        code, said = self.lines("--withdraw", "3-4", "2-4")
        self.assertEqual(said[0], "!! no link ends at unit 4 (relay): a handset will not store the changed table (22)")
        # questions are about the changed table
        said = self.lines("--withdraw", "0-2", "--ring", "0-1")[1]
        self.assertEqual(said, ["no ring holds link 0 (0-1): it is lone"])

    def test_lines(self):
        self.setUpProgram()
        code, said = self.lines("--lines")
        self.assertEqual((code, len(said)), (0, 1 + 1 + 28))
        self.assertEqual(said[1], "    0 1 colour                    34  20010022BD    2101002200000000BC")
        self.assertTrue(said[-1].startswith("   28 11 finished                  0  200B0000D5    210B0000001C0022"))

    def test_sites(self):
        code, said, told = self.run_door(
            self.site, "--sites", example("case-b.txt"), example("road.txt"), "--asker", self.asker
        )
        self.assertEqual((code, told), (0, ""))
        # word by word: where a line ends depends on how long the names of the files are
        self.assertEqual(said.split(), " ".join([
            "3 sites on one channel, a round each in turn: 90 ticks in all",
            f"seat 0: {self.site}: finished at tick 82, after 28 rounds: 1 single point, no lone links",
            f"seat 1: {example('case-b.txt')}: finished at tick 80, after 27 rounds: 1 single point, 1 lone link",
            f"seat 2: {example('road.txt')}: finished at tick 90, after 35 rounds: 3 single points, 3 lone links",
        ]).split())
        full = self.run_door("--sites", example("case-b.txt"), "--full", "--asker", self.asker)[1].splitlines()
        self.assertEqual(len([row for row in full if row.startswith("  tick ")]), 27)
        self.assertEqual(full[1], "  tick 1: seat 0, stage 1 (colour), countdown 29")

    def test_lies_are_found_out(self):
        self.setUpProgram()
        plan = self.at("plan.txt", b"0-1-2\n2-4\n2-3\n")
        for lie, arguments in [
            ("ring", ["--ring", "0", "1"]), ("no ring", ["--ring", "0", "1"]), ("lift", ["--lift"]),
            ("doubtful", ["--ring", "0", "1", "--doubtful", "0"]), ("plan", ["--plan", plan]),
            ("one-way", ["--one-way"]), ("change", ["--add", "1-3"]), ("lines", ["--lines"]),
            ("seats", ["--sites", self.site]),
        ]:
            with self.subTest(lie):
                self.fails(self.answer(*arguments, lies=lie), "!! the program's ", "do not rely on")

    def test_programs_that_fail(self):
        self.setUpProgram()
        for body, words in [
            ("echo bad >&2; exit 2", "it failed with 2: bad"),
            ("echo 'not understood' >&2", "its answer is not understood: not understood"),
            ("echo always", "its answer is not understood: always"),
            ("printf x", "its last line has no line feed"), ("true", "its last line has no line feed"),
            ("echo 'refused 13: x'", "it answers refusal 13"),
            ("echo 'refused 99: x'", "refusal 99 (which there is not)"),
        ]:
            self.asker = self.program(body)
            self.fails(self.answer("--ring", "0", "1"), words)
        self.fails(self.run_door(self.site, "--ring", "0", "--asker", self.at("none")), "`rt run` in ")

    def test_not_built(self):
        """The answer is worked out from the table, and it is said plainly."""
        with mock.patch.object(asking, "ASKER", self.at("none")):
            for arguments in (["--ring", "0", "1"], ["--lift"], ["--doubtful", "0"], ["--lines"], ["--one-way"],
                              ["--add", "1-3"], ["--sites", self.site], ["--plan", self.at("p.txt", b"0-1-2-3\n2-4")]):
                code, said, told = self.run_door(self.site, *arguments)
                self.assertEqual((code, told), (3, ""), arguments)
                self.assertTrue(said.startswith("!! not by the proved program link_ask, which is not built here"), said)

    def test_what_does_not_go_together(self):
        for arguments, words in [
            (["--ring", "0", "1", "2"], "--ring is about one link or two"),
            (["--ring", "0", "--spares"], "--ring is answered in the list's place"),
            (["--one-way", "--lift"], "--one-way stands alone"),
            (["--sites", "x", "--ring", "0"], "--sites stands alone"),
            (["--sites", *"abcdefgh"], "a channel has room for eight sites"),
            (["--plan", "x", "--to-text", "y"], "nothing is surveyed"),
        ]:
            self.fails(self.answer(*arguments), words)
        self.fails(self.run_door("--ring", "0-1", self.site), "the table is missing: SITE, which stands first")


class Drawn(Door):
    """What is drawn and written of answers."""

    def setUp(self):
        super().setUp()
        self.site = self.at("site.txt", text_of(5, CASE_E, [(2, "gate")]))

    def made(self, form, *arguments):
        out = self.at("out")
        self.run_door(self.site, *arguments, f"--{form}", out)
        return contents(out).decode()

    def test_ring(self):
        svg = self.made("svg", "--ring", "2-3", "3-4")
        bold = re.findall(r'<g class="ring link" data-link="(\d)">', svg)
        self.assertEqual(sorted(bold), ["3", "4", "5"])
        self.assertEqual(svg.count('class="bold"'), 3 + 1)  # and once below, where marks are told
        self.assertIn(">ring: 2 - 3 - 4 - 2</text>", svg)
        self.assertNotIn('class="bold"', self.made("svg"))
        graph = self.made("dot", "--ring", "2-3", "3-4")
        self.assertEqual(re.findall(r'id="link(\d)".*penwidth="6"', graph), ["3", "4", "5"])

    def test_page(self):
        written = self.made("html", "--ring", "2-3", "3-4", "--lift")
        self.assertEqual(written.count('class="bold"'), 3 + 1)
        self.assertEqual(written.count('class="turn"'), 5)
        self.assertIn('<p class="more">walk units 2 (gate), 3, 4, and back to the first</p>', written)

    def test_lifting_order(self):
        svg = self.made("svg", "--lift")
        turns = dict(re.findall(r'data-unit="(\d)">.*class="turn"[^>]*>(\d)\.</text>', svg))
        self.assertEqual(turns, {"4": "1", "3": "2", "2": "3", "1": "4", "0": "5"})
        self.assertIn('xlabel="lift 1"', self.made("dot", "--lift"))

    def test_every_turn_is_told(self):
        """Beside its unit, or where there is no room, below."""
        pick = random.Random(3)
        links = [(v, v + 1) for v in range(59)]
        links += pick.sample([pair for pair in itertools.combinations(range(60), 2) if pair not in links], 300)
        self.site = self.at("dense.txt", text_of(60, links, [(v, f"head {v}") for v in range(0, 60, 2)]))
        svg = self.made("svg", "--lift")
        beside = dict(re.findall(r'data-unit="(\d+)">.*?class="turn"[^>]*>(\d+)\.</text>', svg))
        below = dict(re.findall(r'data-name="(\d+)">.*\n.*lifted as (\d+)\.</text>', svg))
        self.assertTrue(below)
        order = order_of(site_of(60, links), [])
        self.assertEqual(beside | below, {str(v): str(k) for k, v in enumerate(order, 1)})

    def test_doubtful(self):
        svg = self.made("svg", "--doubtful", "2-3")
        self.assertEqual(re.findall(r'class="doubtful link" data-link="(\d)"', svg), ["3"])
        self.assertIn(">doubtful link: 3 (2-3)</text>", svg)

    def test_json(self):
        written = self.made("json", "--ring", "0", "1", "--doubtful", "3", "--lift", "1 before gate")
        told = json.loads(written)
        self.assertEqual(told["answers_by"], "program" if os.path.exists(BUILT) else "table")
        told = told["answers"]
        self.assertEqual(told["ring"]["links"], [0, 1])
        self.assertEqual(set(told["ring"]["units"]), {0, 1, 2})
        self.assertEqual(told["doubtful"], {"links": [0, 1], "marks": [3], "verdict": "always"})
        self.assertEqual(told["lift"], {"pairs": [[1, 2]], "order": [4, 3, 1, 2, 0]})

    def test_large_sites_are_drawn_whole(self):
        links = [(v, (v + 1) % 90) for v in range(90)] + [(v, 90 + v) for v in range(90)]
        self.site = self.at("large.txt", text_of(180, links))
        self.assertEqual(self.made("svg", "--ring", "0-1").count('class="ring link"'), 90)


@unittest.skipUnless(os.path.exists(BUILT), NOT_BUILT)
class Program(unittest.TestCase):
    """The program itself, by the front door's questions."""

    def test_small_sites(self):
        for seed in range(40):
            pick = random.Random(seed)
            units = pick.randint(2, 9)
            pairs = list(itertools.combinations(range(units), 2))
            links = pick.sample(pairs, min(len(pairs), pick.randint(1, units + 4)))
            losses = Losses(site_of(units, links))
            given = Given("site", write_site(losses.site))
            ask = answers.Asker(losses, given, Names(losses.site), BUILT)
            two = [str(pick.randrange(len(links))) for _ in range(2)]
            ask.ring(two)
            ask.ring(two[:1])
            ask.verdict(two, [str(k) for k in pick.sample(range(len(links)), min(3, len(links)))])
            ask.lift([f"{pick.randrange(units)} before {pick.randrange(units)}" for _ in range(pick.randint(0, 2))])
            ask.handsets()
            answers.one_way_told(BUILT, losses.site, given)

    def test_changes_and_drawn_trees(self):
        """Changes, some of them refused, and trees, some of which do not fit; each answer is held to the table."""
        seen = {"changed": 0, "planned": 0, "refused": 0}
        for seed in range(60):
            pick = random.Random(seed)
            units = pick.randint(2, 8)
            pairs = list(itertools.combinations(range(units), 2))
            site = site_of(units, pick.sample(pairs, min(len(pairs), pick.randint(1, units + 3))))
            given, losses = Given("site", write_site(site)), Losses(site)
            changes = []
            for _ in range(pick.randint(1, 4)):
                said = "{}-{}".format(*pick.sample(range(units), 2))
                added = "add", [said, str(-pick.randrange(128))]
                changes.append(("withdraw", [said]) if pick.random() < 0.4 else added)
            paths = ["-".join(map(str, pair)) for pair in pick.sample(pairs, min(len(pairs), units - 1))]
            for kind, work in [
                ("changed", lambda: planning.changed_site(given, site, changes, BUILT, lambda line: None)),
                ("planned", lambda: planning.along_plan(losses, given, "plan", "\n".join(paths).encode(), BUILT)),
            ]:
                try:
                    work()
                    seen[kind] += 1
                except Fault as fault:
                    self.assertNotIn("do not rely", str(fault))
                    seen["refused"] += 1
        self.assertGreater(min(seen.values()), 2, seen)

    def test_vectors(self):
        """Rings and orders of the largest sites."""
        for name in "full_256_1024", "ring_256", "ladder", "path_256":
            folder = os.path.join(os.path.dirname(HERE), "crates", "check_vectors", "data")
            path = next(os.path.join(folder, each) for each in os.listdir(folder) if each.endswith(f"_v_{name}.in"))
            losses = Losses(read_site(contents(path)))
            ask = answers.Asker(losses, Given(path, contents(path)), Names(losses.site), BUILT)
            ask.ring(["0", str(len(losses.site.links) - 1)])
            ask.lift([])
            ask.verdict(["0", "1"], ["2", "3"])

    def test_sites(self):
        found = [Losses(site_of(4, CASE_B)), Losses(site_of(5, CASE_E)), Losses(site_of(2, [(0, 1)]))]
        self.assertEqual(len(list(answers.sites_told(BUILT, found, "abc", False))), 4)


if __name__ == "__main__":
    unittest.main()
