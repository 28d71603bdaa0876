#!/usr/bin/env python3
"""Tests of what the program small_sites must print: python3 tools/test_small_sites.py"""
import os
import unittest

import small_sites

STORED = os.path.join(os.path.dirname(os.path.dirname(os.path.abspath(__file__))), "crates", "small_sites", "stdout")


class Listing(unittest.TestCase):
    def test_counts(self):
        counts = {}
        for units, number, _ in small_sites.sites():
            self.assertEqual(number, counts.get(units, 0), "numbers follow from 0")
            self.assertEqual(units, max(counts | {units: 0}), "unit counts ascend")
            counts[units] = number + 1
        self.assertEqual(counts, {1: 1, 2: 2, 3: 8, 4: 64, 5: 1024})

    def test_each_once(self):
        seen = [(units, frozenset(links)) for units, _, links in small_sites.sites()]
        self.assertEqual(len(seen), 1099)
        self.assertEqual(len(set(seen)), 1099)


class Lines(unittest.TestCase):
    def test_example_of_the_request(self):
        self.assertEqual(small_sites.line(3, 3, [(0, 1), (0, 2)]), "220003000301D7")

    def test_a_ring_has_no_single_point(self):
        self.assertFalse(any(small_sites.is_single(u, 3, [(0, 1), (0, 2), (1, 2)]) for u in range(3)))

    def test_two_rings_meet_in_one(self):
        links = [(0, 1), (0, 2), (1, 2), (2, 3), (2, 4), (3, 4)]
        self.assertEqual([u for u in range(5) if small_sites.is_single(u, 5, links)], [2])

    def test_units_without_a_link_count_for_nothing(self):
        self.assertFalse(any(small_sites.is_single(u, 4, [(0, 1)]) for u in range(4)))

    def test_stored_output(self):
        with open(STORED, encoding="ascii") as stored:
            self.assertEqual(stored.read(), "\n".join(small_sites.lines()) + "\n")


if __name__ == "__main__":
    unittest.main()
