"""Tests of what the front door says where a file is faulty, and where the proved program is not built:
python3 tools/test_messages.py
"""
import os
import re
import unittest
from unittest import mock

import judge
import plain_text
import options
import survey
from survey_text import REFUSALS, Fault, Site
from testing import ROOT, Door, contents, example, line, text_of

CASE_B = [(0, 1), (1, 2), (0, 2), (2, 3)]


class Mends(Door):
    """Survey files that an editor or a transfer spoilt: the cause comes first, and what to do."""

    def told(self, data, *arguments):
        """The first line of what is said of a survey file that the program refuses with 1, and all of it."""
        done = self.reported(data, line(0x1E, 1), *arguments)
        self.fails(done, "with number 1: ")
        return done[2].split("\n")[0].split("site.txt: ")[1], done[2]

    def test_each_cause_comes_first(self):
        file = contents(example("case-b.txt"))
        for data, cause, mend in [
            (
                file.replace(b"\n", b"\r\n"),
                "its lines end in a carriage return, as on Windows",
                "save it with line ends LF",
            ),
            (file.lower(), "its digits A to F are in lower case", "they must be in upper case"),
            (b"\xef\xbb\xbf" + file, "a byte order mark stands before the first line", "save it as UTF-8 without BOM"),
            (file.decode().encode("utf-16"), "it is saved as UTF-16", "save it as plain text in UTF-8"),
            (file.decode().encode("utf-16-le"), "it is saved as UTF-16", "save it as plain text in UTF-8"),
            (file[:-1], "its last line lacks the line feed", "press Enter at its end"),
        ]:
            with self.subTest(cause):
                first, _ = self.told(data)
                self.assertTrue(first.startswith(cause), first)
                self.assertIn(mend, first)

    def test_several_causes(self):
        first, told = self.told(b"\xef\xbb\xbf" + contents(example("case-b.txt")).lower().replace(b"\n", b"\r\n"))
        for cause in "byte order mark", "carriage return", "lower case":
            self.assertIn(cause, first)
        self.assertIn("(line 1: ", told)
        self.assertNotIn("plain text is read too", told)

    def test_no_cause_in_the_whole(self):
        """A single wrong line is told by its line, first."""
        first, _ = self.told(contents(example("case-b.txt")).replace(b"FB", b"FC", 1))
        self.assertTrue(first.startswith("line 1: the check byte is FC"), first)

    def test_plain_text_in_utf_16(self):
        first, _ = self.told(text_of(4, CASE_B).decode().encode("utf-16"))
        self.assertTrue(first.startswith("it is saved as UTF-16"), first)


class Hyphens(unittest.TestCase):
    def links(self, said):
        return plain_text.read_text(f"units 5\n{said}\n".encode())[0]

    def test_links_with_spaces_and_dashes(self):
        for said in "0-1", "0 - 1", "0 -1", "0\u20131", "0 \u2014 1", "0\u22121", "0\uff0d1":
            self.assertEqual(self.links(said).links, [(0, 1)], said)
            self.assertEqual(self.links(said + " -63").levels, [-63])
            self.assertEqual(self.links(said + " \u221263 dBm").levels, [-63])
        self.assertEqual(self.links("0 - 1 - 63"), Site(5, [(0, 1)], [-63], [3]))

    def test_such_text_is_told_from_a_survey_file(self):
        for said in b"0 - 1\nunits 5\n", "0 \u2014 1\n".encode(), b"# a remark\n", b"3 @ 5\n":
            self.assertTrue(plain_text.is_text(said), said)

    def test_old_line_ends(self):
        self.assertEqual(plain_text.read_text(b"units 3\r0-1\r1-2\r")[0].links, [(0, 1), (1, 2)])

    def test_a_level_without_its_minus(self):
        with self.assertRaises(Fault) as caught:
            self.links("0-1 63")
        self.assertIn("(is -63 meant?)", str(caught.exception))


class Names(Door):
    def names(self, *lines):
        return plain_text.read_text("\n".join(["units 9", *lines, ""]).encode())[1]

    def test_taken_whole(self):
        """Names with hyphens, dashes, number signs and equals signs; a remark is what stands between spaces."""
        for said, name in [
            ("3 = Br\u00fccke 2-3 \u2013 Ost", "Br\u00fccke 2-3 \u2013 Ost"),
            ("3 = Pumpe #2", "Pumpe #2"),
            ("3 = #2", "#2"),
            ("3 = C#", "C#"),
            ("3 = a=b", "a=b"),
            ('3 = "Lager # 4"', "Lager # 4"),
            ("3 = gate # the northern one", "gate"),
            ("3 = 0-1", "0-1"),
        ]:
            self.assertEqual(self.names(said), {3: name}, said)

    def test_never_cut_in_silence(self):
        with self.assertRaises(Fault) as caught:
            self.names("3 = Lager # 4")
        self.assertIn("""line 2: is '# 4' part of the name? Then write 3 = "Lager # 4";""", str(caught.exception))

    def test_written_and_read_again(self):
        names = {0: "Pumpe #2", 1: "Lager # 4", 2: '"Tor"', 3: "a - b", 4: "C#", 5: '"', 6: "# 1"}
        text = plain_text.read_all(b"units 9\n3 @ -1.5 20\n4 @ 7\nreach 250 m\n")
        again = plain_text.read_all(plain_text.write_text(text.site, names, text.places, text.reach))
        self.assertEqual(again, text._replace(names=names))
        self.assertEqual((again.places, again.reach), ({3: (-1.5, 20.0), 4: (7.0, 0.0)}, 250.0))

    def test_faults_of_places(self):
        for said, words in [
            ("9 @ 5", "there is no unit 9"),
            ("3 @ here", "is not understood"),
            ("3 @ 5 6\n3 @ 5 6", "unit 3 has a place already"),
            ("3 @ 99999999", "metres is too far"),
            ("reach far", "the reach is a number of metres"),
            ("reach 0", "the reach is a number of metres"),
            ("reach 5\nreach 6", "the reach was given before"),
        ]:
            with self.assertRaises(Fault) as caught:
                self.names(*said.split("\n"))
            self.assertIn(words, str(caught.exception))

    def test_two_units_of_one_name(self):
        text = text_of(4, CASE_B, [(0, "gate"), (2, "Gate"), (3, "relay")])
        code, said, told = self.reported(text, contents(example("case-b.report.txt")))
        self.assertEqual((code, told), (1, "!! units 0, 2 have the same name, gate: give each its own\n"))


class Refusals(Door):
    def test_every_number_has_its_words(self):
        """Document 01 and its requests: 1 to 23, each of them told."""
        self.assertEqual(sorted(REFUSALS), list(range(1, 24)))
        for number in range(1, 24):
            done = self.reported(contents(example("case-b.txt")), line(0x1E, number))
            self.fails(done, f"the survey refused the table with number {number}: {REFUSALS[number]}\n")
        self.fails(self.reported(contents(example("case-b.txt")), line(0x1E, 24)), "there is no refusal 24")

    def test_the_answers_have_the_same_words(self):
        """What ask_words says why, entry by entry: its definition, in which ++ joins two pieces of one entry."""
        path = os.path.join(ROOT, "crates", "ask_words", "specs", "Refusals.antt")
        # a crate that is not brought over yet has .txt behind its files' names (docs/PORT.md)
        text = contents(path if os.path.exists(path) else path + ".txt").decode()
        entries = text.split("\nwhys =\n")[1].split("\n\n")[0].split("∷")[1:-1]
        words = ["".join(re.findall(r'characters "(.*)"', entry)) for entry in entries]
        self.assertEqual(words, [REFUSALS[number] for number in range(1, 24)])


class WithoutTheProgram(Door):
    """What is told where crates/link_survey/out/link_survey is not built."""

    MARK = "!! not by the proved program, which is not built here (README.md)"

    def setUp(self):
        super().setUp()
        patches = mock.patch.object(judge, "PROGRAM", self.at("none")), mock.patch.dict(os.environ)
        for patch in patches:
            patch.start()
            self.addCleanup(patch.stop)
        os.environ.pop(judge.PROGRAM_VARIABLE, None)

    def test_the_list_is_marked(self):
        code, said, told = self.run_door(example("case-b.txt"))
        self.assertEqual((code, told), (3, ""))
        self.assertTrue(said.startswith(self.MARK), said)
        proved = self.run_door(example("case-b.txt"), "--report", example("case-b.report.txt"))[1].splitlines()
        rest = [text for text in said.splitlines() if not text.startswith("!!")]
        self.assertEqual(rest, [text for text in proved if not text.startswith("the survey took")])

    def test_a_sound_site_is_no_proof(self):
        code, said, _ = self.run_door(self.at("site.txt", text_of(3, [(0, 1), (1, 2), (0, 2)])))
        self.assertEqual(code, 3)
        self.assertIn("no weak place", said)

    def test_drawing_and_page_are_marked(self):
        for option in "--svg", "--html":
            code, drawn, _ = self.run_door(example("case-b.txt"), option, "-")
            self.assertEqual(code, 3)
            self.assertIn("NOT BY THE PROVED PROGRAM", drawn)

    def test_a_faulty_table(self):
        self.fails(self.run_door(self.at("site.txt", b"010000FF\n0F0000F1\n")), "line 1: the unit count is 0")

    def test_a_program_that_was_named(self):
        done = self.run_door(example("case-b.txt"), "--program", self.at("other"))
        self.fails(done, "is not there: `rt run` in ")
        with mock.patch.dict(os.environ, {judge.PROGRAM_VARIABLE: self.at("other")}):
            self.fails(self.run_door(example("case-b.txt")), "is not there")


class Options(Door):
    def test_help(self):
        code, said, told = self.run_door("--help")
        self.assertEqual((code, told), (0, ""))
        for word in "--spares", "--near", "reach 250", "3 @ 120 4", "not built":
            self.assertIn(word, said)

    def test_spares_before_the_site(self):
        self.fails(self.run_door("--spares", example("road.txt")), "(SITE stands before --spares)")
        self.assertEqual(survey.command_line().parse_args(["x", "--spares"]).spares, options.SPARES)


if __name__ == "__main__":
    unittest.main()
