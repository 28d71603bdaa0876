#!/usr/bin/env python3
"""Tests of the program link_ask: python3 tools/test_ask.py

The vectors of document 02's requests (crates/check_*/data, and beside them in stdout what an independent model expects)
are turned into survey files and arguments, and the answers are held to what is expected. A question whose answer hangs
on a budget, or on the places of a lent slice, is left out: the program runs to the end and has room enough."""
import itertools
import os
import subprocess
import tempfile
import unittest

from survey_text import REFUSALS, Site, write_site
from testing import ROOT, contents, line

PROGRAM = os.path.join(ROOT, "crates", "link_ask", "out", "link_ask")
CASE_B = contents(os.path.join(ROOT, "crates", "link_survey", "stdin"))
ABSENT = 65535
OF_A_CALL = (12, 14, 15)  # numbers that hang on how a call is made


def ask(words, file=b""):
    """What is printed for arguments and standard input; on standard error too."""
    done = subprocess.run([PROGRAM, *map(str, words)], input=file, capture_output=True, check=True)
    return done.stdout.decode("ascii"), done.stderr.decode("ascii")


def crate(family):
    return os.path.join(ROOT, "crates", "check_" + family)


def names(family):
    """The streams in the order in which the check program plays them."""
    words = contents(os.path.join(crate(family), "args")).decode().split()
    return [word for word in words if os.path.exists(os.path.join(crate(family), "data", word))]


def stream(family, name):
    return map(int, contents(os.path.join(crate(family), "data", name)).split())


def expected(family):
    return iter(contents(os.path.join(crate(family), "stdout")).decode().splitlines())


def listed(numbers):
    return [next(numbers) for _ in range(next(numbers))]


def table(numbers):
    units = next(numbers)
    return units, listed(numbers), listed(numbers)


def file_of(units, ends, levels):
    """The survey file of a table; None where no file can say it."""
    if len(ends) != 2 * len(levels) or not all(-128 <= level <= 127 for level in levels):
        return None
    links = list(zip(ends[::2], ends[1::2]))
    return write_site(Site(units, links, levels, [0x03] * len(links)))


def refusal(number, head=""):
    return f"{head}refused {number}: {REFUSALS[number]}\n"


def cases(family):
    """Each stream's numbers after the count of its cases, once a case; the lines that are expected of all of them."""
    lines = expected(family)
    for name in names(family):
        numbers = stream(family, name)
        for _ in range(next(numbers)):
            yield name, numbers, lines


@unittest.skipUnless(os.path.exists(PROGRAM), "the program link_ask is not built")
class Answers(unittest.TestCase):
    def answered(self, words, file, wanted):
        self.assertEqual(ask(words, file), (wanted, ""), " ".join(map(str, words)))

    def is_ring(self, said, ends, first, second):
        """A ring that holds both links and starts with the ends of the first."""
        head, *rows = said.splitlines()
        walk = [int(row.removeprefix("unit ")) for row in rows]
        held = f"link {first}" if first == second else f"links {first} and {second}"
        self.assertEqual(head, f"a ring of {len(walk)} units holds {held}")
        links = [{a, b} for a, b in zip(ends[::2], ends[1::2])]
        steps = [{walk[k - 1], walk[k]} for k in range(len(walk))]
        self.assertTrue(len(walk) >= 3 and len(set(walk)) == len(walk), "different units")
        self.assertTrue(all(step in links for step in steps), "each linked to the next")
        self.assertTrue(links[first] in steps and links[second] in steps, "both links")
        self.assertEqual(set(walk[:2]), links[first])

    def test_rings(self):
        for _, numbers, lines in cases("rings"):
            units, ends, levels = table(numbers)
            next(numbers)
            asked = [(next(numbers), next(numbers), next(numbers)) for _ in range(next(numbers))]
            known = [pair for pair in zip(asked, map(int, next(lines).split())) if pair[1] not in OF_A_CALL]
            for (first, second, _), answer in known[:2]:
                words, file = ("ring", first, second), file_of(units, ends, levels)
                held = f"link {first}" if first == second else f"links {first} and {second}"
                if answer == 1:
                    self.is_ring(ask(words, file)[0], ends, first, second)
                else:
                    self.answered(words, file, refusal(answer) if answer else f"no ring holds {held}\n")

    def test_lifting_orders(self):
        for _, numbers, lines in cases("lifting"):
            file = file_of(*table(numbers))
            next(numbers), next(numbers)
            pairs = listed(numbers)
            number, *order = map(int, next(lines).split())
            if number in OF_A_CALL:
                continue
            words = ("lift", *pairs)
            if len(pairs) % 2:
                self.not_understood(words, file)
            else:
                self.answered(words, file, refusal(number) if number else "".join(f"lift unit {u}\n" for u in order))

    def test_doubtful_links(self):
        for _, numbers, lines in cases("doubtful"):
            file = file_of(*table(numbers))
            next(numbers)
            places = [j for j, mark in enumerate(listed(numbers)) if mark]
            asked = [(next(numbers), next(numbers)) for _ in range(next(numbers))]
            known = [pair for pair in zip(asked, map(int, next(lines).split())) if pair[1] not in OF_A_CALL]
            for (first, second), answer in known[:3]:
                wanted = ["never\n", "perhaps\n", "always\n"][answer] if answer < 3 else refusal(answer)
                self.answered(("doubtful", first, second, *places), file, wanted)

    def test_one_way_links(self):
        for _, numbers, lines in cases("one_way"):
            units, ends, _ = next(numbers), listed(numbers), next(numbers)
            number, *found = map(int, next(lines).split())
            file = file_of(units, ends, [0] * (len(ends) // 2))
            if number in OF_A_CALL or file is None:
                continue
            rows = "".join(f"unit {u} group {group}\n" for u, group in enumerate(found[1:]))
            self.answered(("one-way",), file, refusal(number) if number else rows + f"passes {found[0]}\n")

    def not_understood(self, words, file=CASE_B):
        said, wrong = ask(words, file)
        self.assertEqual(said, "", words)
        self.assertRegex(wrong, r"\Alink_ask: not understood: usage: link_ask ring I J .*\n\Z")

    def test_words_that_are_not_understood(self):
        for words in (
            "", "rings 0 1", "Ring 0 1", "ring", "ring 0", "ring 0 1 2", "ring 0 -1", "ring 0 x", "ring 0 65536",
            "ring 0 000001", "ring 0 1.", "lift 0", "lift none 1", "doubtful 0", "doubtful 0 1 x", "plan 0 nome",
            "plan -1", "one-way 1", "add 0 3", "add 0 3 --5", "add 0 3 x", "withdraw 0", "add 0 3 -60 withdraw 1",
            "add 0 3 -60 1", "withdraw 0 1 ring", "lines 1", "seats", "seats a b c d e f g h i",
        ):
            self.not_understood(words.split())
        self.not_understood(("ring", "0", ""))
        self.not_understood(("ring", "0", " 1"))

    def test_numbers_with_zeros_before_them(self):
        self.answered(("ring", "00000", "3"), CASE_B, "no ring holds links 0 and 3\n")


@unittest.skipUnless(os.path.exists(PROGRAM), "the program link_ask is not built")
class Files(unittest.TestCase):
    """What is made of a file, and files played round by round."""

    def drawn(self):
        """The tables with parents drawn for them, and the state at the end of each."""
        states, name = {}, None
        for row in expected("tables"):
            if row in names("tables"):
                name = row
            elif row.startswith("round "):
                states[name] = dict(zip(("round", "stage", "countdown", "requests"), map(int, row.split()[1::2])))
            elif " " in row:
                key, *entries = row.split()
                states[name][key] = [ABSENT if entry == "-" else entry for entry in entries]
        for name in names("tables"):
            if name.startswith("t05"):
                numbers = stream("tables", name)
                yield table(numbers), listed(numbers), states[name]

    def report(self, units, ends, state):
        """Document 01's lines from the tables of a finished survey."""
        labels = [int(label) for label in state.get("label", [])]
        meet = [{labels[j // 2] for j, end in enumerate(ends) if end == u} for u in range(units)]
        single, lone = [len(at) > 1 for at in meet], [labels.count(label) == 1 for label in labels]
        rows = [line(0x11, *divmod(state["round"], 256), *divmod(state["requests"], 256))]
        for u in range(units):
            numbers = u, int(state["color"][u]), int(state["parent"][u]), int(state["place"][u])
            rows.append(line(0x12, *itertools.chain(*(divmod(n, 256) for n in numbers)), single[u]))
        for j, label in enumerate(labels):
            rows.append(line(0x13, *divmod(j, 256), *divmod(label, 256), lone[j]))
        return b"".join(rows) + line(0x1F, *divmod(sum(single), 256), *divmod(sum(lone), 256))

    def test_reports_with_a_drawn_tree(self):
        played = 0
        for (units, ends, levels), parents, state in self.drawn():
            self.assertEqual(state["stage"], 11)
            words = ["none" if parent == ABSENT else parent for parent in parents]
            wanted = self.report(units, ends, state).decode()
            self.assertEqual(ask(("plan", *words), file_of(units, ends, levels)), (wanted, ""))
            played += 1
        self.assertGreater(played, 10)

    def test_refused_drawn_trees(self):
        seen = set()
        for _, numbers, lines in cases("loads"):
            call, (units, ends, levels) = next(numbers), table(numbers)
            parents, _ = listed(numbers), next(numbers)
            number, file = int(next(lines).split()[0]), file_of(units, ends, levels)
            if call == 2 and number and file is not None and len(ends) <= 2048:
                self.assertEqual(ask(("plan", *parents), file), (refusal(number), ""))
                seen.add(number)
        self.assertLessEqual({17, 18}, seen)

    def changed(self, file, words, numbers, hand):
        """The steps of a live table: each refused one is told, and at the end the file is that of the table in hand."""
        accepted = []
        for word, number in zip(words, numbers):
            if number:
                wanted = refusal(number, f"change {len(accepted) + 1} ")
                self.assertEqual(ask(itertools.chain(*accepted, word), file), (wanted, ""))
            else:
                accepted.append(word)
        if accepted:
            units, ends, levels = hand
            whole = units == 1 or set(range(units)) <= set(ends)
            wanted = file_of(units, ends, levels).decode() if whole else refusal(22)
            self.assertEqual(ask(itertools.chain(*accepted), file), (wanted, ""))

    def test_changes(self):
        played = 0
        for name, numbers, lines in cases("live"):
            if "given" in name:
                break
            opened, words, told = None, [], []
            for _ in range(next(numbers)):
                step = next(numbers)
                number = int(next(lines).split()[0])
                if step == 1:
                    given = table(numbers)
                    if not number:
                        opened, words, told = given, [], []
                else:
                    end = ("add", next(numbers), next(numbers), next(numbers)) if step == 2 else \
                        ("withdraw", next(numbers), next(numbers))
                    words.append(end)
                    told.append(number)
            units, links, *rest = map(int, next(lines).split())
            if opened is not None and file_of(*opened) is not None and words:
                self.changed(file_of(*opened), words, told, (units, rest[:2 * links], rest[2 * links:]))
                played += 1
        self.assertGreater(played, 10)

    def handsets(self):
        """The tables that are loaded without parents, and the lines of both handsets in each state."""
        for _, numbers, lines in cases("lines"):
            call, given = next(numbers), table(numbers)
            listed(numbers)
            rows = []
            while not rows or not rows[-2].startswith("200B"):
                rows += [next(lines), next(lines)]
            if call == 1:
                yield file_of(*given), rows

    def test_lines(self):
        for file, rows in self.handsets():
            self.assertEqual(ask(("lines",), file), ("".join(row + "\n" for row in rows), ""))

    def ticks(self, shown):
        """The seats in turn, each with its next stage and countdown, until none has one left."""
        rows, at = [], [0] * len(shown)
        while any(k + 1 < len(states) for k, states in zip(at, shown)):
            for seat, states in enumerate(shown):
                if at[seat] + 1 < len(states):
                    at[seat] += 1
                    stage, countdown = states[at[seat]]
                    rows.append(f"tick {len(rows) + 1} seat {seat} stage {stage} countdown {countdown}\n")
        return "".join(rows)

    def test_seats(self):
        sites = []
        for file, rows in self.handsets():
            sites.append((file, [(int(row[2:4], 16), int(row[4:8], 16)) for row in rows[::2]]))
        with tempfile.TemporaryDirectory() as folder:
            paths = []
            for k, (file, _) in enumerate(sites):
                paths.append(os.path.join(folder, str(k)))
                with open(paths[-1], "wb") as out:
                    out.write(file)
            for count in range(1, 9):
                wanted = self.ticks([states for _, states in sites[:count]])
                self.assertEqual(ask(("seats", *paths[:count])), (wanted, ""))
            faulty = os.path.join(folder, "faulty")
            with open(faulty, "wb") as out:
                out.write(CASE_B[:-1])
            wanted = refusal(1, "seat 0 ") + self.ticks([[], sites[1][1]])
            self.assertEqual(ask(("seats", faulty, paths[1])), (wanted, ""))
            self.assertEqual(ask(("seats", faulty)), (refusal(1, "seat 0 "), ""))
            said, wrong = ask(("seats", os.path.join(folder, "missing")))
            self.assertEqual(said, "")
            self.assertIn("missing: ", wrong)

    def test_refused_files(self):
        refused = {1: CASE_B[:-1], 2: line(0x01, 0, 4), 4: line(0x01, 0, 0) + line(0x0F, 0, 0)}
        for number, file in refused.items():
            for words in "ring 0 1", "lift", "plan none", "withdraw 0 1", "lines", "one-way", "doubtful 0 1":
                self.assertEqual(ask(words.split(), file), (refusal(number), ""), words)


if __name__ == "__main__":
    unittest.main()
