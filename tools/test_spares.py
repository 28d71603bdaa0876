"""Tests of the spares and plans that are proposed: python3 tools/test_spares.py

On small sites the best spare and the fewest links are found here by trying all; what is weak, by taking away.
"""
import itertools
import os
import random
import time
import unittest

import judge
import plain_text
from joins import Tree
from limits import Limits, limits_of, near_pairs, pairs_in
from losses import Losses
from proposals import proposed, with_links
from spares import Plan, best_pair, bound_of, hops_of
from survey_text import Fault, Site
from testing import PROGRAM, Door, components, contents, example, text_of, weak_by_removal

ANY = lambda u, v: True
# Seconds of processor time that `plain_loop` takes on the machine for which the bounds of time below were set.
PLAIN = 0.07


def plain_loop():
    begun = time.process_time()
    sum(i * i for i in range(1_000_000))
    return time.process_time() - begun


def losses_of(units, links):
    return Losses(Site(units, links, [-127] * len(links)))


def small_site(seed, most=8):
    pick = random.Random(seed)
    units = pick.randint(3, most)
    pairs = list(itertools.combinations(range(units), 2))
    return units, pick.sample(pairs, min(len(pairs), pick.randint(0, units + 2)))


def is_whole(units, links):
    """In one piece, whichever unit is lost."""
    return all(len(components(units, links, lost)) == 1 for lost in (None, *range(units)))


def large_sites():
    """Sites of 256 units of every kind."""
    pick = random.Random(5)
    yield "chain", [(v, v + 1) for v in range(255)]
    yield "star", [(0, v) for v in range(1, 256)]
    yield "tree", [(pick.randrange(v), v) for v in range(1, 256)]
    yield "road", [(pick.randrange(max(0, v - 4), v), v) for v in range(1, 256)]
    yield "two hubs", [(0, 1)] + [(v % 2, v) for v in range(2, 256)]
    yield "legs", [e for v in range(1, 255, 2) for e in ((0, v), (v, v + 1))] + [(0, 255)]
    yield "comb", [(v, v + 1) for v in range(127)] + [(v, 128 + v) for v in range(128)]
    yield "town", sorted({tuple(sorted(pick.sample(range(256), 2))) for _ in range(300)})
    yield "unlinked", []


class FewestLinks(unittest.TestCase):
    def test_small_sites(self):
        """The plan cures all, has as many links as the bound says, and no plan with one less does: by trying all."""
        seen = set()
        for seed in range(250):
            units, links = small_site(seed, 7)
            losses = losses_of(units, links)
            plan = Plan(Tree(losses), hops_of(losses.site))
            with self.subTest(seed):
                now = links + plan.links
                self.assertTrue(is_whole(units, now), plan.links)
                self.assertEqual(len({frozenset(pair) for pair in now}), len(now))
                self.assertEqual(len(plan.links), plan.fewest)
                if plan.fewest and (units < 7 or plan.fewest < 4):
                    free = [pair for pair in itertools.combinations(range(units), 2) if pair not in links]
                    fewer = itertools.combinations(free, plan.fewest - 1)
                    self.assertFalse(any(is_whole(units, links + list(more)) for more in fewer))
                seen.add(plan.fewest)
        self.assertLessEqual({0, 1, 2, 3, 4}, seen)

    def test_bound_in_words(self):
        """Half the leaf blocks rounded up, or the most pieces that one unit's loss leaves less one; pieces count."""
        for units, links, fewest in [
            (10, [(v, v + 1) for v in range(9)], 1),
            (10, [(0, v) for v in range(1, 10)], 8),
            (8, [(0, 1), (1, 2), (1, 3), (3, 4), (4, 5), (4, 6), (6, 7)], 2),
            (4, [(0, 1), (2, 3)], 2),
            (3, [], 3),
            (7, [(0, 1), (1, 2), (0, 2), (3, 4), (4, 5), (3, 5)], 3),
            (3, [(0, 1), (1, 2), (0, 2)], 0),
        ]:
            self.assertEqual(bound_of(Tree(losses_of(units, links))), fewest, links)

    def test_256_units(self):
        """Every kind of large site: the bound is reached, in under two seconds with the best spare."""
        for name, links in large_sites():
            with self.subTest(name):
                losses = losses_of(256, links)
                begun = time.process_time()
                tree, far = Tree(losses), hops_of(losses.site)
                plan = Plan(tree, far)
                best_pair(tree, far, ANY)
                self.assertLess(time.process_time() - begun, 2)
                self.assertEqual(len(plan.links), plan.fewest)
                after = Losses(with_links(losses.site, plan.links))
                self.assertEqual((after.unit_parts, after.link_parts, len(after.groups)), ({}, {}, 1))


class BestSpare(unittest.TestCase):
    def test_small_sites(self):
        """No other pair of units, tried one by one, leaves fewer weak places."""
        cures = 0
        for seed in range(150):
            units, links = small_site(seed)
            losses = losses_of(units, links)
            pair = best_pair(Tree(losses), hops_of(losses.site), ANY)
            left = {
                (u, v): len(weak_by_removal(units + 1, links + [(u, units), (v, units)]))
                for u, v in itertools.combinations(range(units), 2)
                if any({u, v} <= part for part in components(units, links))
            }
            before = len(weak_by_removal(units, links))
            with self.subTest(seed):
                self.assertEqual(left[pair] if pair else before, min([before, *left.values()]))
            cures += pair is not None
        self.assertGreater(cures, 50)

    def test_road(self):
        """A spare that units 0 and 7 hear leaves 1 of 6 weak places; one that unit 5 hears too leaves none."""
        site, _ = plain_text.read_text(contents(example("road.txt")))
        self.assertEqual(len(weak_by_removal(9, site.links)), 6)
        found = proposed(Losses(site), 1, Limits(), Losses)
        self.assertEqual([step.heard_by for step in found.steps], [(0, 7)])
        self.assertEqual(len(weak_by_removal(10, site.links + [(0, 9), (7, 9)])), 1)
        self.assertEqual(found.steps[0].too[0], 5)
        self.assertEqual(weak_by_removal(10, site.links + [(0, 9), (5, 9), (7, 9)]), {})

    def test_a_long_road(self):
        """One spare cures all 52 weak places of a road of 40 units."""
        links = [(v, v + 1) for v in range(39)] + [(v, v + 2) for v in (3, 4, 5, 10, 11, 12, 17, 23, 24, 30)]
        self.assertEqual(len(weak_by_removal(40, links)), 52)
        found = proposed(losses_of(40, links), 3, Limits(), Losses)
        self.assertEqual([step.heard_by for step in found.steps], [(0, 39)])
        self.assertEqual(weak_by_removal(41, links + [(0, 40), (39, 40)]), {})


class Proposed(unittest.TestCase):
    def test_each_is_surveyed_as_it_is_told(self):
        """The tables that are surveyed are the site with the spares so far; each leaves what removal says, never
        more."""
        for seed in range(80):
            units, links = small_site(seed)
            losses = losses_of(units, links)
            tables = []
            found = proposed(losses, 3, Limits(), lambda site: tables.append(site) or Losses(site))
            now, number = list(links), units
            for step in found.steps:
                now += [(v, number) for v in step.heard_by]
                number += 1
                weak = weak_by_removal(number, now)
                self.assertIn((number, now), [(site.units, site.links) for site in tables])
                self.assertEqual(len(step.losses.weak()), len(weak))
                if step.too:
                    more = weak_by_removal(number, now + [(step.too[0], number - 1)])
                    self.assertEqual(len(step.too[1].weak()), len(more))
                    self.assertLess(len(more), len(weak))
            alone = [v for v in range(units) if not any(v in pair for pair in links)]
            self.assertEqual(found.left_out, alone)
            if found.remedy.links:
                others = {frozenset(part) for part in components(units, links + found.remedy.links)}
                self.assertEqual(len(others), 1 + len(alone))
                self.assertEqual(found.remedy.losses.weak(), [])
            if found.whole:
                self.assertTrue(units < 3 or is_whole(units, links + found.whole.links))

    def test_up_to_so_many(self):
        """Spares end where nothing is weak any more, and before all else they join groups."""
        links = [(0, v) for v in range(1, 7)]
        self.assertEqual(len(proposed(losses_of(7, links), 2, Limits(), Losses).steps), 2)
        found = proposed(losses_of(7, links), 9, Limits(), Losses)
        self.assertEqual((len(found.steps), found.steps[-1].losses.weak()), (5, []))
        groups = proposed(losses_of(6, [(0, 1), (1, 2), (3, 4), (4, 5)]), 1, Limits(), Losses)
        self.assertEqual(len(groups.steps[0].losses.groups), 1)

    def test_a_full_table(self):
        """256 units leave no room for a spare: links are proposed; with 1,024 links not even these."""
        chain = [(v, v + 1) for v in range(255)]
        found = proposed(losses_of(256, chain), 1, Limits(), Losses)
        self.assertFalse(found.spares)
        self.assertEqual([step.heard_by for step in found.steps], [(0, 255)])
        self.assertEqual(found.steps[0].losses.weak(), [])
        dense = [pair for pair in itertools.combinations(range(60), 2)][: 1024 - 196] + [
            (v, v + 1) for v in range(59, 255)
        ]
        found = proposed(losses_of(256, dense), 1, Limits(), Losses)
        self.assertEqual((len(dense), found.steps, found.remedy.losses), (1024, [], None))

    def test_two_units(self):
        found = proposed(losses_of(2, [(0, 1)]), 1, Limits(), Losses)
        self.assertEqual([step.heard_by for step in found.steps], [(0, 1)])
        self.assertEqual(found.steps[0].losses.weak(), [])


class Near(unittest.TestCase):
    def test_only_pairs_that_are_near(self):
        for seed in range(60):
            units, links = small_site(seed)
            pick = random.Random(seed)
            pairs = {pair for pair in itertools.combinations(range(units), 2) if pick.random() < 0.4}
            limits = Limits(pairs=pairs)
            found = proposed(losses_of(units, links), 4, limits, Losses)
            self.assertLessEqual({step.heard_by for step in found.steps}, pairs)
            self.assertLessEqual(set(found.remedy.links), pairs)
            self.assertGreaterEqual(len(found.remedy.links), 0 if found.remedy.losses is None else 1)
            if found.remedy.losses and not found.left_out and len(found.remedy.losses.groups) == 1:
                if not found.remedy.losses.weak():
                    self.assertGreaterEqual(len(found.remedy.links), found.remedy.fewest)

    def test_best_of_those_that_are_near(self):
        for seed in range(80):
            units, links = small_site(seed)
            losses = losses_of(units, links)
            pick = random.Random(seed)
            pairs = {pair for pair in itertools.combinations(range(units), 2) if pick.random() < 0.5}
            pair = best_pair(Tree(losses), hops_of(losses.site), lambda u, v: (u, v) in pairs)
            before = len(weak_by_removal(units, links))
            left = [
                len(weak_by_removal(units + 1, links + [(u, units), (v, units)]))
                for u, v in pairs
                if any({u, v} <= part for part in components(units, links))
            ]
            mine = len(weak_by_removal(units + 1, links + [(v, units) for v in pair])) if pair else before
            self.assertEqual(mine, min([before, *left]))

    def test_places(self):
        """A spare stands between two units, so it joins those twice as far apart as two that hear each other."""
        text = b"units 5\n0-1\n1-2\n2-3\n3-4\n" + b"".join(
            b"%d @ %d\n" % (v, 100 * v) for v in range(5)
        ) + b"reach 150\n"
        given = plain_text.read_all(text)
        limits = limits_of(given.site, None, given.places, given.reach)
        self.assertEqual([limits.link(0, v) for v in range(1, 5)], [True, False, False, False])
        self.assertEqual([limits.spare(0, v) for v in range(1, 5)], [True, True, True, False])
        self.assertEqual(limits_of(given.site, None, given.places, None).reach, 100)
        self.assertTrue(limits_of(given.site, "0-4", given.places, given.reach).spare(0, 4))
        found = proposed(Losses(given.site), 3, limits, Losses)
        self.assertTrue(found.steps)
        for step in found.steps:
            self.assertLessEqual(abs(step.heard_by[0] - step.heard_by[1]), 3)

    def test_pairs(self):
        self.assertEqual(near_pairs("0-7,9 \u2013 3; 1-2", 10), {(0, 7), (3, 9), (1, 2)})
        self.assertEqual(pairs_in("# near\n0-1 # gate\n\n2-1, 4-3\n", 5), {(0, 1), (1, 2), (3, 4)})
        for said, words in [
            ("0-5", "--near: line 1: there is no unit 5: the units are 0 to 4"),
            ("3-3", "--near: line 1: 3-3 is no pair"),
            ("nowhere", "--near: nowhere: cannot be read: No such file or directory (pairs of units are written like"),
        ]:
            with self.assertRaises(Fault) as caught:
                near_pairs(said, 5)
            self.assertTrue(str(caught.exception).startswith(words), caught.exception)


class AtTheDoor(Door):
    """What the front door says of spares."""

    def spares(self, text, *arguments):
        """The words for a table from where spares come on, without the program."""
        from unittest import mock

        with mock.patch.object(judge, "PROGRAM", os.path.join(self.folder, "none")):
            code, said, told = self.run_door(self.at("site.txt", text), "--spares", *arguments)
        self.assertEqual((code, told), (3, ""), told)
        return said

    def test_words(self):
        said = self.spares(contents(example("road.txt")), "1")
        for words in [
            "spare 1, heard by units 0 (head N1) and 7 (side road): cures 5 of 6 weak places: units 2 (repeater A),",
            "what stays: unit 4 (repeater C)",
            "not by the proved program: 1 weak place left",
            "heard by unit 5 (head S1) too",
            "unit 8 (lorry exit) hears nobody and is left out of these",
            "the fewest links or spares that could cure all: 2; a plan of as many: 0-7, 3-5;",
            "the fewest links or spares that could cure all and join unit 8 (lorry exit) too: 3;",
        ]:
            self.assertIn(words, said)
        self.assertNotIn("spare 2", said)

    def test_near(self):
        said = self.spares(text_of(5, [(v, v + 1) for v in range(4)]), "2", "--near", "0-2,2-4")
        self.assertIn("spare 1, heard by units 0 and 2:", said)
        told = "the fewest links or spares that could cure all: 1; within the limits none does: 2 leave some: 0-2, 2-4;"
        self.assertIn(told, said)
        self.fails(self.run_door(example("case-b.txt"), "--near", "0-1"), "--near limits what --spares proposes")
        self.fails(self.run_door(example("case-b.txt"), "--spares", "0"), "no number of spares from 1 to 256")

    def test_nothing_to_cure(self):
        self.assertIn("no spare is needed: no weak place\n", self.spares(text_of(3, [(0, 1), (1, 2), (0, 2)])))
        for units in 2, 3:
            said = self.spares(text_of(units, [(0, 1)]))
            self.assertIn("only a spare that both hear cures it", said)
            self.assertNotIn("could cure all: 0", said)
        self.assertIn("no unit hears another yet", self.spares(text_of(3, [])))

    @unittest.skipUnless(os.path.exists(PROGRAM), "the program link_survey is not built (rt run in its folder)")
    def test_by_the_program(self):
        code, said, told = self.run_door(example("road.txt"), "--spares", "2", "--program", PROGRAM)
        self.assertEqual((code, told), (1, ""))
        self.assertIn("  surveyed again: 1 weak place left\n", said)
        self.assertIn("  surveyed again: no weak place left\n", said)
        self.assertNotIn("not by the proved program", said)

    @unittest.skipUnless(os.path.exists(PROGRAM), "the program link_survey is not built (rt run in its folder)")
    def test_the_largest_sites_by_the_program(self):
        for name, links in large_sites():
            if name not in ("star", "tree", "town"):
                continue
            slower = max(1, *(plain_loop() / PLAIN for _ in range(3)))
            begun = time.process_time()
            code, said, told = self.run_door(self.at("site.txt", text_of(256, links)), "--spares", "--program", PROGRAM)
            self.assertEqual((code, told), (1, ""))
            self.assertIn("surveyed again: no weak place left", " ".join(said.split()))
            self.assertLess(time.process_time() - begun, 2 * slower, name)

    def test_a_program_that_contradicts(self):
        """A report of the proposed table that the links do not bear out is no proposal."""
        body = f"read x; if [ $x = 010004FB ]; then cat '{example('case-b.report.txt')}'; else echo 1E09D9; fi"
        done = self.run_door(example("case-b.txt"), "--spares", "--program", self.program(body))
        self.fails(done, "!! but nothing is wrong with the table with the spares")


if __name__ == "__main__":
    unittest.main()
