"""Tests of the list in words, alone and beside an earlier table: python3 tools/test_words.py"""
import itertools
import random
import re
import unittest

from folds import Fold, Folding, most_cut
from losses import Losses, changes
from survey_text import Site
from testing import Door, components, contents, example, text_of, valid, weak_by_removal


class Words(Door):
    def test_case_b(self):
        code, said, told = self.reported(contents(example("case-b.txt")), contents(example("case-b.report.txt")))
        self.assertEqual((code, told), (1, ""))
        self.assertEqual(
            said.splitlines(),
            [
                "4 units, 4 links: 1 single point, 1 lone link",
                "weak places, the worst first; in front the number of units cut off:",
                "  1  unit 2 is a single point: its loss cuts off unit 3 from 2 others",
                "  1  link 3 (2-3) is lone: its loss cuts off unit 3 from 3 others",
                "the 3 links among units 0, 1, 2 back each other up",
                "the survey took 27 rounds and 22 ranking requests",
                "by parts, for the planner: 2 + 1 = 3, the 4 units less 1 group",
            ],
        )

    def test_case_e(self):
        code, said, _ = self.reported(contents(example("case-e.txt")), contents(example("case-e.report.txt")))
        self.assertEqual(code, 1)
        self.assertEqual(
            said.splitlines(),
            [
                "5 units, 6 links: 1 single point, no lone links",
                "weak places, the worst first; in front the number of units cut off:",
                "  2  unit 2 is a single point: its loss cuts off units 0, 1 from 2 others",
                "the 3 links among units 0, 1, 2 back each other up",
                "the 3 links among units 2, 3, 4 back each other up",
                "the survey took 28 rounds and 34 ranking requests",
                "by parts, for the planner: 2 + 2 = 4, the 5 units less 1 group",
            ],
        )

    def test_every_site(self):
        """The words against the report's lines, read here by their places."""
        for name, file, report in valid():
            with self.subTest(name):
                lines = report.decode().split()
                units, links = ([text for text in lines if text.startswith(kind)] for kind in ("12", "13"))
                single = {v for v, text in enumerate(units) if text[18:20] == "01"}
                lone = {j for j, text in enumerate(links) if text[10:12] == "01"}
                groups = sum(text[2:6] == text[6:10] for text in units)
                code, said, told = self.reported(file, report, "--full")
                said = re.sub(r"\n +(?! *\d+  \w)", " ", said)  # broken lines made whole
                self.assertEqual((code, told), (1 if single or lone or groups > 1 else 0, ""))
                found = re.findall(r"(?m)^ +(\d+)  unit (\d+) is a single point: ", said)
                self.assertEqual({int(v) for _, v in found}, single)
                found += re.findall(r"(?m)^ +(\d+)  link (\d+) \(\d+-\d+\) is lone: ", said)
                self.assertEqual({int(j) for _, j in found[len(single) :]}, lone)
                cut = [int(k) for k in re.findall(r"(?m)^ +(\d+)  \w", said)]
                self.assertEqual(cut, sorted(cut, reverse=True))
                self.assertEqual(len(cut), len(single) + len(lone))
                labels = [text[6:10] for text in links]
                backed = sorted((labels.count(k) for k in set(labels) if labels.count(k) > 1), reverse=True)
                self.assertEqual(
                    [int(k) for k in re.findall(r"(?m)^the (\d+) links among .+ back each other up$", said)], backed
                )
                # T-14: the last line's sum is the units less the groups, which the report tells by colours
                last = said.splitlines()[-1]
                self.assertTrue(last.startswith("by parts, for the planner: "), last)
                self.assertEqual(int(last.split(", the ")[0].split()[-1]), len(units) - groups)
                self.assertEqual(said.startswith("!! "), groups > 1)

    def test_what_a_loss_cuts_off(self):
        """Weak places, their parts and their order against removal, on sites of every size up to 12 units."""
        for seed in range(120):
            pick = random.Random(seed)
            units = pick.randint(1, 12)
            pairs = list(itertools.combinations(range(units), 2))
            links = pick.sample(pairs, min(len(pairs), pick.randint(0, units + 3)))
            expected = weak_by_removal(units, links)
            found = Losses(Site(units, links, [-127] * len(links))).weak()
            self.assertEqual(
                {
                    frozenset(place.ends) if place.ends else place.number: set(map(frozenset, place.parts))
                    for place in found
                },
                expected,
            )
            self.assertEqual(len(found), len(expected))
            for place in found:
                sizes = sorted(map(len, place.parts))
                self.assertEqual((place.cut, list(map(len, place.parts))), (sum(sizes[:-1]), sizes))
                if place.ends:
                    self.assertEqual(links[place.number], place.ends)
            order = [(-place.cut, place.ends is not None, place.number) for place in found]
            self.assertEqual(order, sorted(order))

    def test_units_that_hear_nobody_come_first(self):
        """The words that the foreman asked for."""
        rest = [v for v in range(40) if v not in (8, 33, 38)]
        code, said = self.said_of(40, list(zip(rest, rest[1:] + rest[:1])))
        self.assertEqual(code, 1)
        self.assertEqual(said[0], "!! 3 units hear nobody: 8, 33, 38: switched on?")
        self.assertEqual(said[1], "40 units, 37 links: no single points, no lone links")
        self.assertEqual(
            said[2], "no weak place: any one unit or link may fail, and all others of its group still reach each other"
        )

    def test_groups_come_first(self):
        code, said = self.said_of(9, [(0, 1), (1, 2), (2, 0), (4, 5), (5, 6), (6, 7), (7, 4)], [(5, "gate")])
        self.assertEqual(code, 1)
        self.assertEqual(
            said[:4],
            [
                "!! 2 units hear nobody: 3, 8: switched on?",
                "!! the other 7 units are in 2 groups that no link joins:",
                "!!   4 units: 4, 5 (gate), 6, 7",
                "!!   3 units: 0, 1, 2",
            ],
        )
        self.assertEqual(self.said_of(4, [(0, 1), (2, 3)])[1][0], "!! the 4 units are in 2 groups that no link joins:")
        self.assertEqual(self.said_of(3, [(0, 2)])[1][0], "!! 1 unit hears nobody: 1: switched on?")
        self.assertEqual(self.said_of(3, [])[1][0], "!! 3 units hear nobody: 0, 1, 2: switched on?")

    def test_one_unit_is_well(self):
        code, said = self.said_of(1, [])
        self.assertEqual((code, said[0]), (0, "1 unit, no links: no single points, no lone links"))

    def test_nothing_weak(self):
        code, said = self.said_of(3, [(0, 1), (1, 2), (2, 0)])
        self.assertEqual(
            (code, said[1]), (0, "no weak place: any one unit or link may fail, and all others still reach each other")
        )

    def test_the_smaller_sides_are_named(self):
        chain = [(v, v + 1) for v in range(9)]
        self.assertEqual(
            self.said_of(10, chain, (), "--full")[1][2:5],
            [
                "  5  link 4 (4-5) is lone: its loss cuts off units 0 to 4 from 5 others",
                "  4  unit 4 is a single point: its loss cuts off units 0 to 3 from 5 others",
                "  4  unit 5 is a single point: its loss cuts off units 6 to 9 from 5 others",
            ],
        )
        star = [(0, v) for v in range(1, 6)]
        self.assertEqual(
            self.said_of(6, star)[1][2],
            "  4  unit 0 is a single point: its loss leaves 5 parts: units 1 to 5, each alone",
        )
        tails = star + [(1, 2), (5, 6), (6, 7), (7, 5)]
        self.assertEqual(
            self.said_of(8, tails)[1][2],
            "  4  unit 0 is a single point: its loss leaves 4 parts: units 3, 4, each alone; units 1, 2; 3 others",
        )

    def test_chains_are_folded(self):
        """Two rings with a chain between them, and a chain with two ends; with --full each place alone."""
        rings = [(0, 1), (1, 2), (0, 2), (16, 17), (17, 18), (16, 18)]
        links = rings + [(v, v + 1) for v in range(2, 16)]
        told = "  9  units 2 to 16 in one chain: each of 15 units and 14 links is weak: a loss cuts off 2 to 9 units"
        self.assertEqual(self.said_of(19, links)[1][2:4], [told, "the 3 links among units 0, 1, 2 back each other up"])
        self.assertEqual(len(self.said_of(19, links, (), "--full")[1]), 2 + 15 + 14 + 2 + 2)
        chain = [(v, v + 1) for v in range(9)]
        told = "  5  units 1 to 8 in one chain: each of 8 units and 9 links is weak: a loss cuts off 1 to 5 units"
        self.assertEqual(self.said_of(10, chain)[1][2], told)
        names = [(v, f"N{v}") for v in range(10)]
        self.assertIn("units 1 (N1) to 8 (N8) in one chain", self.said_of(10, chain, names)[1][2])

    def test_chains_that_do_not_count_up(self):
        row = [4, 9, 0, 7, 2, 5, 1, 8, 3, 6]
        said = self.said_of(10, list(zip(row, row[1:])))[1][2:4]
        told = (
            "  5  the units from 9 over 0 to 3 in one chain: each of 8 units and 9 links is weak: a loss cuts off 1 to "
            "5"
        )
        self.assertEqual(said, [told, "     units"])
        said = self.said_of(4, [(2, 0), (0, 3), (3, 1)])[1][2]
        self.assertEqual(
            said, "  2  units 3, 0 in one chain: each of 2 units and 3 links is weak: a loss cuts off 1 to 2 units"
        )

    def test_ends_are_folded(self):
        told = "  1  units 1 to 5, each on one lone link to unit 0: each of 5 links is weak: a loss cuts off 1 unit"
        self.assertIn(told, self.said_of(6, [(0, v) for v in range(1, 6)])[1])

    def test_the_worst_are_told(self):
        """A comb of 60 teeth: 40 lines, the rest counted; with --full all."""
        links = [(v, v + 1) for v in range(59)] + [(v, 60 + v) for v in range(60)]
        said = self.said_of(120, links)[1]
        places = 60 + len(links)
        self.assertEqual(
            said[42], f"  and {places - 40} more, each cutting off 40 units or fewer; --full tells them all"
        )
        self.assertEqual(sum(" is " in text for text in self.said_of(120, links, (), "--full")[1]), places)

    def test_long_lists_are_counted(self):
        """Every other unit behind one link: a dozen are told, the rest counted."""
        odd = list(range(1, 80, 2))
        links = [(a, b) for a in odd for b in odd if a < b <= a + 4]
        links += [(a, b) for a in range(0, 80, 2) for b in range(0, 80, 2) if a < b <= a + 4] + [(0, 1)]
        said = " ".join(" ".join(self.said_of(80, links)[1]).split())
        self.assertIn("cuts off units 0, 2, 4, 6, 8, 10, 12, 14, 16, 18, 20, 22 and 28 more from 40 others", said)
        self.assertNotIn("more from", " ".join(self.said_of(80, links, (), "--full")[1]))

    def test_every_weak_place_is_in_one_line(self):
        """Folded or not, each weak place is told once, the worst first: against removal."""
        folded = 0
        for seed in range(150):
            pick = random.Random(seed)
            units = pick.randint(2, 16)
            pairs = [(v, v + 1) for v in range(units - 1)] if seed % 2 else list(
                itertools.combinations(range(units), 2)
            )
            links = pick.sample(pairs, min(len(pairs), pick.randint(units // 2, units + 1)))
            links += [(0, v) for v in range(2, units) if pick.random() < 0.2 and (0, v) not in links]
            losses = Losses(Site(units, links, [-127] * len(links)))
            told = Folding(losses, losses.weak()).in_order()
            cuts = [most_cut(each) for each in told]
            self.assertEqual(cuts, sorted(cuts, reverse=True))
            keys = []
            for each in told:
                places = each.places if isinstance(each, Fold) else [each]
                folded += isinstance(each, Fold)
                keys += [frozenset(place.ends) if place.ends else place.number for place in places]
            self.assertEqual(len(keys), len(set(keys)))
            self.assertEqual(set(keys), set(weak_by_removal(units, links)))
        self.assertGreater(folded, 30)

    def test_no_line_is_broken_inside_a_range(self):
        """Sites with many ranges: whatever the width, `to` stands with both its numbers."""
        for seed in range(8):
            pick = random.Random(seed)
            links = [(v, v + 1) for v in range(199) if pick.random() < 0.9]
            said = "\n".join(self.said_of(200, links)[1])
            self.assertNotRegex(said, r"\d *\n[ !]*to \d|\bto *\n[ !]*\d")

    def test_names(self):
        names = [(0, "head N1"), (2, "gate"), (3, "relay")]
        self.assertEqual(
            self.said_of(4, [(0, 1), (1, 2), (0, 2), (2, 3)], names)[1][2:5],
            [
                "  1  unit 2 (gate) is a single point: its loss cuts off unit 3 (relay) from 2 others",
                "  1  link 3 (2-3: gate, relay) is lone: its loss cuts off unit 3 (relay) from 3 others",
                "the 3 links among units 0 (head N1), 1, 2 (gate) back each other up",
            ],
        )
        self.assertIn("link 0 (0-1: unit 0, gate) is lone", self.said_of(2, [(0, 1)], [(1, "gate")])[1][2])

    def test_long_lines_are_broken_between_names(self):
        names = [(v, f"head number {v}") for v in range(20)]
        said = self.said_of(20, [(v, v + 1) for v in range(19)], names)[1]
        self.assertLessEqual(max(map(len, said)), 110)
        broken = "\n".join(said)
        for v, name in names:
            self.assertEqual(
                len(re.findall(rf"\b{v} \({name}\)", broken)),
                len(re.findall(rf"\b{v}\s+\(head\s+number\s+{v}\)", broken)),
            )

    def test_many_sets_in_short(self):
        links = [(3 * k + a, 3 * k + b) for k in range(12) for a, b in ((0, 1), (1, 2), (0, 2))] + [
            (3 * k, 3 * k + 3) for k in range(11)
        ]
        for arguments, shown in ((), 8), (("--full",), 12):
            said = self.said_of(36, links, (), *arguments)[1]
            self.assertEqual(sum(text.endswith("back each other up") for text in said), shown)
            self.assertEqual("and 4 sets more do, of 3 links each; --full tells them all" in said, shown == 8)


class Before(Door):
    def losses(self, units, links):
        return Losses(Site(units, links, [-127] * len(links)))

    CASE_B = [(0, 1), (1, 2), (0, 2), (2, 3)]

    def told(self, now, before):
        """The exit status and the words of one table compared with another, each a count, links, and names if any."""
        return self.said_of(
            *(now if len(now) == 3 else (*now, ())), "--before", self.at("before.txt", text_of(*before))
        )

    def test_a_spare_that_cures(self):
        """Document FOREMAN: in the first site a spare that hears 1 and 3 cures the single point and the lone link."""
        code, said = self.told((5, self.CASE_B + [(1, 4), (3, 4)]), (4, self.CASE_B))
        self.assertEqual(code, 0)
        self.assertEqual(
            said[:4],
            [
                "5 units, 6 links: no single points, no lone links",
                "since the earlier table: unit 4 came; links 1-4, 3-4 came",
                "weak places: 2 cured, 0 new, 0 remaining",
                "cured: unit 2; link 2-3",
            ],
        )

    def test_a_spare_that_doubles_a_link(self):
        """A spare that hears 2 and 3 leaves unit 2 a single point, which now cuts off the spare too."""
        code, said = self.told((5, self.CASE_B + [(2, 4), (3, 4)]), (4, self.CASE_B))
        self.assertEqual(code, 1)
        self.assertEqual(
            said[2:6],
            [
                "weak places: 1 cured, 0 new, 1 remaining",
                "cured: link 2-3",
                "remaining, the worst first; in front the number of units cut off:",
                "  2  unit 2 is a single point: its loss cuts off units 0, 1 from 2 others (before: 1)",
            ],
        )

    def test_a_link_that_went_is_no_cure(self):
        code, said = self.told((4, self.CASE_B[:3]), (4, self.CASE_B, [(2, "gate")]))
        self.assertEqual(code, 1)
        self.assertEqual(
            said[:6],
            [
                "!! 1 unit hears nobody: 3: switched on?",
                "4 units, 3 links: no single points, no lone links",
                "since the earlier table: link 2-3 went",
                "groups that no link joins: 1 before, 2 now",
                "weak places: 2 lost, 0 cured, 0 new, 0 remaining",
                "!! lost, for what hung together by it is apart now: unit 2 (gate); link 2-3",
            ],
        )

    def test_positions_that_moved(self):
        """The lone link stands at another position and the other way round: it remains."""
        code, said = self.told((4, [(3, 2), (0, 1), (1, 2), (0, 2)]), (4, self.CASE_B))
        self.assertEqual(code, 1)
        self.assertEqual(
            said[1:3],
            ["since the earlier table: the same units and links", "weak places: 0 cured, 0 new, 2 remaining"],
        )
        self.assertIn("  1  link 0 (3-2) is lone: its loss cuts off unit 3 from 3 others", said)

    def test_new(self):
        code, said = self.told((5, self.CASE_B + [(3, 4)]), (4, self.CASE_B))
        self.assertEqual(code, 1)
        self.assertEqual(said[2], "weak places: 0 cured, 2 new, 2 remaining")
        new, remaining = (
            next(i for i, text in enumerate(said) if text.startswith(word)) for word in ("new,", "remaining,")
        )
        self.assertEqual(
            [text.split(" is ")[0] for text in said[new + 1 : remaining]], ["  1  unit 3", "  1  link 4 (3-4)"]
        )
        self.assertEqual(
            [text.split(" is ")[0] for text in said[remaining + 1 : remaining + 3]],
            ["  2  unit 2", "  2  link 3 (2-3)"],
        )

    def test_a_unit_that_went(self):
        _, said = self.told((3, self.CASE_B[:3]), (4, self.CASE_B))
        self.assertEqual(said[1], "since the earlier table: unit 3 went; link 2-3 went")
        self.assertEqual(said[2:4], ["weak places: 2 cured, 0 new, 0 remaining", "cured: unit 2; link 2-3"])

    def test_other_names(self):
        _, said = self.told((4, self.CASE_B, [(0, "A"), (1, "C")]), (4, self.CASE_B, [(0, "A"), (1, "B"), (2, "C")]))
        self.assertIn("!! unit 1 (C) had another name there: units are compared by their numbers", said)

    def test_every_weak_place_is_told_once(self):
        """Against removal: which are weak before and now, and whether those at both ends of a former one still reach
        each other."""
        seen = set()
        for seed in range(150):
            pick = random.Random(seed)
            units, more = pick.randint(2, 9), pick.randint(-1, 2)
            pairs = list(itertools.combinations(range(units), 2))
            links = pick.sample(pairs, min(len(pairs), units))
            later = [link for link in links if pick.random() < 0.8 and max(link) < units + more]
            later += [
                link
                for link in itertools.combinations(range(units + more), 2)
                if link not in later and pick.random() < 0.1
            ]
            was, now = weak_by_removal(units, links), weak_by_removal(units + more, later)
            found = changes(self.losses(units, links), self.losses(units + more, later))
            keys = [[frozenset(place.ends) if place.ends else place.number for place in places] for places in found[:3]]
            keys.append([frozenset(place.ends) if place.ends else place.number for _, place in found.remaining])
            self.assertEqual(set(keys[2]), set(now) - set(was))
            self.assertEqual(set(keys[3]), set(now) & set(was))
            self.assertEqual(set(keys[0]) | set(keys[1]), set(was) - set(now))
            self.assertEqual(sum(map(len, keys)), len(set(was) | set(now)))
            groups = components(units + more, later)
            for kind, one_group in (0, True), (1, False):
                for key in keys[kind]:
                    held = key if isinstance(key, frozenset) else {v for link in links if key in link for v in link} - {
                        key
                    }
                    held = {v for v in held if v < units + more}
                    self.assertEqual(any(held <= group for group in groups) or not held, one_group)
            for was_place, place in found.remaining:
                self.assertEqual(
                    was_place.cut,
                    sum(sorted(map(len, was[frozenset(place.ends) if place.ends else place.number]))[:-1]),
                )
            seen.update(kind for kind in range(4) if keys[kind])
        self.assertEqual(seen, {0, 1, 2, 3})

    def test_a_faulty_earlier_table(self):
        for before, words in [
            (self.at("none.txt"), "none.txt: cannot be read"),
            (self.at("a.txt", b"units 2\n0-2\n"), "a.txt: line 2: there is no unit 2"),
            (self.at("b.txt", b"010000FF\n0F0000F1\n"), "b.txt: line 1: the unit count is 0"),
        ]:
            self.fails(
                self.run_door(example("case-b.txt"), "--report", example("case-b.report.txt"), "--before", before),
                words,
            )


if __name__ == "__main__":
    unittest.main()
