"""Tests of plain text and of survey files, with their faults: python3 tools/test_text.py"""
import itertools
import os
import unittest

import plain_text
from losses import Losses
from survey_text import Fault, Site, level_of, read_site, write_site
from testing import LEVELS, REWRITE, VECTORS, Door, contents, example, file_of, line, text_of, valid, vectors


class PlainText(Door):
    def test_round_trip(self):
        """Each valid vector to text and back: byte for byte, check bytes and levels included."""
        kinds = set()
        for name, file, _ in valid():
            with self.subTest(name):
                self.assertFalse(plain_text.is_text(file))
                text = plain_text.write_text(read_site(file))
                self.assertTrue(plain_text.is_text(text))
                site, names = plain_text.read_text(text)
                self.assertEqual(write_site(site), file)
                self.assertEqual(names, {})
                kinds.update(frame[:2] for frame in file.split())
                lines = [f"units {int(file[2:6], 16)}\n"]
                for row in file.decode().split()[1:-1]:
                    level = f" {-(-int(row[10:12], 16) % 256)}" if row.startswith("03") else ""
                    lines.append(f"{int(row[2:6], 16)}-{int(row[6:10], 16)}{level}\n")
                self.assertEqual(text, "".join(lines).encode())
        self.assertEqual(kinds, {b"01", b"02", b"03", b"0F"})

    def test_written_with_levels(self):
        """Vectors of a writer whose files have kind 03 alone; it refuses tables with a unit that hears nobody."""
        written = 0
        for path in vectors("*_v_*", REWRITE):
            site, expected = read_site(contents(path + ".in")), contents(path + ".out")
            self.assertEqual(write_site(site), contents(path + ".in"))
            self.assertEqual(expected == line(0x1E, 22), bool(Losses(site).alone()))
            if expected != line(0x1E, 22):
                self.assertEqual(write_site(site._replace(kinds=[3] * len(site.links))), expected)
                written += 1
        self.assertGreater(written, 0)

    def test_the_lowest_level_and_none(self):
        """A link of kind 03 at -127 dBm and one of kind 02 mean the same and stay apart, both ways."""
        text = b"units 3\n0-1\n1-2 -127\n0-2 0\n"
        file = line(1, 0, 3) + line(2, 0, 0, 0, 1) + line(3, 0, 1, 0, 2, 0x81) + line(3, 0, 0, 0, 2, 0) + line(
            0x0F, 0, 3
        )
        site = plain_text.read_text(text)[0]
        self.assertEqual((site.levels, write_site(site)), ([-127, -127, 0], file))
        self.assertEqual((read_site(file), plain_text.write_text(read_site(file))), (site, text))
        self.assertEqual(
            write_site(Site(3, site.links, site.levels)), file.replace(line(3, 0, 1, 0, 2, 0x81), line(2, 0, 1, 0, 2))
        )

    def test_what_may_be_written(self):
        written = (
            "\ufeff# the bridge\r\n\r\n  Units   5 # with the spare\r\n0-1\r\n\t1-2   -63\r\n2\u20133 \u221271 dBm\r\n"
            "3 =  head \t N3 \r\n4 = Br\u00fccke 2-3 \u2013 Ost\r\n003-04 -0\r\n"
        )
        site, names = plain_text.read_text(written.encode())
        self.assertEqual(site, Site(5, [(0, 1), (1, 2), (2, 3), (3, 4)], [-127, -63, -71, 0], [2, 3, 3, 3]))
        self.assertEqual(names, {3: "head N3", 4: "Br\u00fccke 2-3 \u2013 Ost"})
        self.assertEqual(plain_text.read_text(plain_text.write_text(site, names)), (site, names))
        self.assertEqual(plain_text.read_text(b"units 1"), (Site(1, [], [], []), {}))

    def test_faults(self):
        pairs = itertools.islice(itertools.combinations(range(256), 2), 1025)
        for text, words in [
            ("0-1\n", "line 1: the number of units should stand first, like: units 5 (here stands '0-1')"),
            ("\n# x\nunits\n", "line 3: the number of units should stand first"),
            ("# nothing\n", "the number of units is missing"),
            ("units 0\n", "line 1: a site has 1 to 256 units, not 0"),
            ("units 257\n", "line 1: a site has 1 to 256 units, not 257"),
            ("units " + "9" * 5000 + "\n", "line 1: a site has 1 to 256 units, not 999999999"),
            ("units 5\nunits 5\n", "line 2: the number of units was given before"),
            ("units 5\n\n0-5\n", "line 3: there is no unit 5: the units are 0 to 4"),
            ("units 1\n0-1\n", "line 2: there is no unit 1: the only unit is 0"),
            ("units 5\n" + "1" * 5000 + "-0\n", "line 2: there is no unit 111111111"),
            ("units 5\n2-2\n", "line 2: the link joins unit 2 to itself"),
            ("units 5\n0-1\n1-2\n1-0 -50\n", "line 4: units 1 and 0 have a link already, in line 2"),
            ("units 5\n0 1\n", "line 2: '0 1' is not understood: a link is written with a dash, like 0-1"),
            (
                "units 5\n0-1-2\n",
                "line 2: '0-1-2': a link has two units, like 0-1, and its level stands behind a space",
            ),
            ("units 5\n0 - 1 - 2 - 3\n", "line 2: '0 - 1 - 2 - 3': a link has two units"),
            ("units 5\ngate\n", "line 2: 'gate' is not understood: a line is a link like 0-1"),
            ("units 5\n0-1 63\n", "line 2: '63' is no level: it is -127 to 0 dBm"),
            ("units 5\n0-1 -128\n", "line 2: '-128' is no level: it is -127 to 0 dBm"),
            ("units 5\n0-1 -6.5\n", "line 2: '-6.5' is no level: it is a number of dBm, -127 to 0"),
            ("units 5\n0-1 good\n", "line 2: 'good' is no level"),
            ("units 5\n5 = gate\n", "line 2: there is no unit 5"),
            ("units 5\n3 =\n", "line 2: the name of unit 3 is missing"),
            ("units 5\n3 = # gate\n", "line 2: the name of unit 3 is missing"),
            ("units 5\n3 = a\n3 = b\n", "line 3: unit 3 has a name already: a"),
            ("units 5\n3 = " + "x" * 41 + "\n", "line 2: the name of unit 3 has 41 characters, more than 40"),
            ("units 5\n3 = a\x07\n", "line 2: a character is none that can be printed"),
            (text_of(256, pairs).decode(), "line 1026: this is link 1,025: a site has at most 1,024"),
        ]:
            with self.subTest(text[:30]):
                with self.assertRaises(Fault) as caught:
                    plain_text.read_text(text.encode())
                self.assertTrue(str(caught.exception).startswith(words), caught.exception)
                self.assertEqual("\n" in str(caught.exception) or len(str(caught.exception)) > 200, False)
        with self.assertRaises(Fault) as caught:
            plain_text.read_text(b"units 5\n0-1\n3 = Br\xfccke\n")
        self.assertTrue(str(caught.exception).startswith("line 3: a character is not in UTF-8"))

    def test_faults_of_the_door(self):
        self.fails(self.run_door(self.at("s.txt", b"units 3\n0-3\n")), "s.txt: line 2: there is no unit 3")
        self.fails(self.run_door("-", given=b"0-1\n"), "-: line 1: the number of units should stand first")

    def test_convert(self):
        text = text_of(4, [(0, 1), (1, 2), (0, 2), (2, 3)])
        file = contents(example("case-b.txt"))
        out = self.at("out.txt")
        self.assertEqual(self.run_door(self.at("s.txt", text), "--to-file", out), (0, "", ""))
        self.assertEqual(contents(out), file)
        self.assertEqual(self.run_door(example("case-b.txt"), "--to-file", "-"), (0, file.decode(), ""))
        self.assertEqual(self.run_door("-", "--to-text", "-", given=file), (0, text.decode(), ""))
        named = text_of(4, [(0, 1)], [(2, "gate")])
        self.assertEqual(self.run_door("-", "--to-text", "-", given=b"# x\n" + named), (0, named.decode(), ""))
        code, said, told = self.run_door("-", "--to-file", "-", given=named)
        self.assertEqual((code, said.encode()), (0, file_of(4, [(0, 1)])))
        self.assertEqual(told, "no link ends at units 2, 3: a handset refuses such a table with 22\n")
        self.fails(
            self.run_door("-", "--to-text", "-", given=file[:-1]), "-: its last line lacks the line feed: press Enter"
        )
        self.fails(
            self.run_door("-", "--to-file", "-", given=b"units 2\n0-0\n"), "-: line 2: the link joins unit 0 to itself"
        )


class Refusals(Door):
    def test_every_refused_file(self):
        for path in vectors("*", VECTORS) + vectors("*", LEVELS):
            report = contents(path + ".out")
            if not report.startswith(b"1E"):
                continue
            with self.subTest(os.path.basename(path)):
                number = int(report[2:4], 16)
                with self.assertRaises(Fault) as caught:
                    read_site(contents(path + ".in"))
                self.assertEqual(caught.exception.number, number)
                done = self.run_door(path + ".in", "--report", path + ".out")
                self.fails(done, f"with number {number}:")
                self.assertNotIn("!! but", done[2])

    def test_a_refusal_of_a_sound_file(self):
        self.fails(self.reported(contents(example("case-b.txt")), b"1E07DB\n"), "!! but nothing is wrong with ")

    def test_a_refusal_for_another_reason(self):
        self.fails(
            self.reported(b"010000FF\n0F0000F1\n", b"1E07DB\n"),
            "!! but that is not what is wrong with it: ",
            "line 1: the unit count is 0",
        )

    def test_plain_text_is_offered(self):
        self.fails(
            self.reported(b"hello\n", b"1E01E1\n"),
            "line 1: the character 'h'",
            "plain text is read too: its first line is like: units 5",
        )

    def test_a_report_for_a_table(self):
        for report in contents(example("case-b.report.txt")), b"1E07DB\n":
            self.fails(self.reported(report, b"1E01E1\n"), "line 1: the kind 1", "this looks like a report")

    def test_units_without_a_link(self):
        refusal = line(0x1E, 22)
        for units, links, words in (2, [], "units 0, 1"), (3, [(0, 2)], "unit 1"), (6, [(1, 0)], "units 2 to 5"):
            self.fails(
                self.reported(file_of(units, links), refusal), "a unit has no link", f"no link ends at {words}\n"
            )
        for sound in file_of(1, []), file_of(2, [(1, 0)]):
            self.fails(self.reported(sound, refusal), "!! but nothing is wrong with ")


class Levels(Door):
    """Links of kind 03, which have a level, and of kind 02, which have none."""

    def site(self, *links):
        return line(0x01, 0, 4) + b"".join(line(*link) for link in links) + line(0x0F, *divmod(len(links), 256))

    def refused(self, site, number, words):
        with self.assertRaises(Fault) as caught:
            read_site(site)
        self.assertEqual(caught.exception.number, number)
        self.assertIn(words, str(caught.exception))

    def test_both_kinds(self):
        file = self.site((3, 0, 0, 0, 1, 0xC3), (2, 0, 1, 0, 2), (3, 0, 0, 0, 2, 0x00), (3, 0, 2, 0, 3, 0x81))
        site = read_site(file)
        self.assertEqual(
            (site.links, site.levels, site.kinds),
            ([(0, 1), (1, 2), (0, 2), (2, 3)], [-61, -127, 0, -127], [3, 2, 3, 3]),
        )
        report = contents(example("case-b.report.txt"))
        self.assertEqual(self.reported(file, report), self.reported(contents(example("case-b.txt")), report))

    def test_level_bytes(self):
        """00 and 81 to FF are levels, and each is the byte of its level; 01 to 80 are refused."""
        for byte in range(256):
            file = self.site((3, 0, 0, 0, 1, byte))
            if 0x01 <= byte <= 0x80:
                self.refused(file, 16, "line 2: link 0 has the level ")
            else:
                self.assertEqual(read_site(file).levels[0] % 256, byte)
            self.assertEqual(level_of(bytes([3, 0, 0, 0, 1, byte, 0])) % 256, byte)

    def test_faults(self):
        link, bad = (3, 0, 0, 0, 1, 0xC3), (3, 0, 0, 0, 1, 0x01)
        self.refused(self.site(link).replace(b"C3", b"C4"), 1, "line 2: the check byte is 39")
        self.refused(self.site(bad, (3, 0, 0, 0, 1)), 1, "line 3: a line of kind 03 has 14 digits, this one has 12")
        self.refused(self.site(bad, (2, 0, 0, 0, 1, 0)), 1, "line 3: a line of kind 02 has 12 digits, this one has 14")
        self.refused(self.site(bad, (1, 0, 4)), 2, "line 3: a line of kind 02 or 03 should stand here, not 01")
        self.refused(
            self.site(bad).replace(b"0F0001F0", b"0F0002EF"), 3, "line 3: it counts 2 links, but the file has 1"
        )
        self.refused(self.site(*[bad] * 1025), 6, "the file has 1025 links")
        self.refused(self.site(bad).replace(b"010004FB", b"010000FF"), 16, "line 2: link 0 has the level 1")
        self.refused(self.site(link, (3, 0, 9, 0, 9, 0x80)), 16, "line 3: link 1 has the level -128")


if __name__ == "__main__":
    unittest.main()
