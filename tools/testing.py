"""What the tests of the front door share: the vectors, sites and tables, and the door run within the test.

The vectors stand in crates/check_vectors/data, or where LINK_SURVEY_VECTORS says: NAME.in is a survey file, NAME.out
what the survey prints.
"""
import contextlib
import glob
import io
import os
import tempfile
import unittest
from unittest import mock

import judge
import survey
from survey_text import Site

HERE = os.path.dirname(os.path.abspath(__file__))
ROOT = os.path.dirname(HERE)
DATA = os.path.join(ROOT, "crates", "check_vectors", "data")
VECTORS = os.environ.get("LINK_SURVEY_VECTORS", DATA)
LEVELS = os.path.join(ROOT, "evidence", "tests", "levels", "program")
REWRITE = os.path.join(ROOT, "evidence", "tests", "levels", "rewrite")
PROGRAM = os.path.join(ROOT, "crates", "link_survey", "out", "link_survey")
DOOR = os.path.join(HERE, "survey.py")


def vectors(pattern, folder):
    found = sorted(path[:-3] for path in glob.glob(os.path.join(folder, pattern + ".in")))
    if not found:
        raise AssertionError(f"no vectors {pattern} in {folder}")
    return found


def contents(path):
    with open(path, "rb") as file:
        return file.read()


def example(name):
    return os.path.join(ROOT, "examples", name)


def valid():
    """The survey files of the vectors that are not refused, each with its report."""
    found = [
        (path, contents(path + ".in"), contents(path + ".out")) for path in vectors("*", VECTORS) + vectors("*", LEVELS)
    ]
    return [(os.path.basename(path), file, report) for path, file, report in found if not report.startswith(b"1E")]


def line(*body):
    """The line of a frame."""
    return bytes([*body, -sum(body) % 256]).hex().upper().encode() + b"\n"


def file_of(units, links):
    body = b"".join(line(0x02, *divmod(a, 256), *divmod(b, 256)) for a, b in links)
    return line(0x01, *divmod(units, 256)) + body + line(0x0F, *divmod(len(links), 256))


def text_of(units, links, names=()):
    return "".join(
        [f"units {units}\n", *(f"{a}-{b}\n" for a, b in links), *(f"{v} = {name}\n" for v, name in names)]
    ).encode()


def report_of(report):
    """The lines of a report."""
    out = line(0x11, *divmod(report.rounds, 256), *divmod(report.requests, 256))
    for v, unit in enumerate(report.units):
        numbers = v, unit.color, unit.parent, unit.place
        out += line(0x12, *(byte for number in numbers for byte in divmod(number, 256)), int(unit.single))
    for j, link in enumerate(report.links):
        out += line(0x13, *divmod(j, 256), *divmod(link.label, 256), int(link.lone))
    marked = sum(unit.single for unit in report.units), sum(link.lone for link in report.links)
    return out + line(0x1F, *divmod(marked[0], 256), *divmod(marked[1], 256))


def changed(report, line, at, byte):
    """A report with one byte of a line replaced and the check byte put right."""
    lines = report.split(b"\n")
    frame = bytearray.fromhex(lines[line].decode())
    frame[at] = byte
    frame[-1] = -sum(frame[:-1]) % 256
    lines[line] = frame.hex().upper().encode()
    return b"\n".join(lines)


def streams(family):
    """The streams of numbers that a check program of the gate reads, file after file, each with the number of its
    cases taken off, and the lines that it must print (from an independent model)."""
    folder = os.path.join(ROOT, "crates", f"check_{family}")
    numbers = []
    for name in contents(os.path.join(folder, "args")).decode().split():
        stream = iter([int(word) for word in contents(os.path.join(folder, "data", name)).split()])
        numbers.append((next(stream), stream))
    return numbers, iter(contents(os.path.join(folder, "stdout")).decode().splitlines())


def taken(stream):
    """A list of a stream: its length, then its numbers."""
    return [next(stream) for _ in range(next(stream))]


def table_taken(stream):
    """The table of a stream."""
    units, ends = next(stream), taken(stream)
    return Site(units, list(zip(ends[::2], ends[1::2])), taken(stream))


def components(units, links, without=None):
    """The groups of units that links join, by merging sets; a unit that is left out is in none."""
    sets = {v: {v} for v in range(units) if v != without}
    for a, b in links:
        if without not in (a, b) and sets[a] is not sets[b]:
            joined = sets[a] | sets[b]
            for v in joined:
                sets[v] = joined
    return {frozenset(found) for found in sets.values()}


def weak_by_removal(units, links):
    """For each single point and each lone link, the units of a link as a set, the parts of its group after its loss."""
    whole = components(units, links)
    found = {}
    for v in range(units):
        found[v] = components(units, links, v) - whole
    for link in links:
        found[frozenset(link)] = components(units, [other for other in links if other != link]) - whole
    return {lost: left for lost, left in found.items() if len(left) > 1}


class Door(unittest.TestCase):
    """The front door is run within the test, on a folder of its own."""

    def setUp(self):
        folder = tempfile.TemporaryDirectory()
        self.addCleanup(folder.cleanup)
        self.folder = folder.name

    def at(self, name, data=None):
        """A path in the folder, and a file there."""
        path = os.path.join(self.folder, name)
        if data is not None:
            with open(path, "wb") as file:
                file.write(data)
        return path

    def run_door(self, *arguments, given=b""):
        """The exit status, and what stands on standard output and on standard error."""
        streams = [io.TextIOWrapper(io.BytesIO(data), encoding="utf-8", newline="\n") for data in (given, b"", b"")]
        with mock.patch("sys.stdin", streams[0]), contextlib.redirect_stdout(streams[1]), contextlib.redirect_stderr(
            streams[2]
        ):
            try:
                code = survey.main(list(arguments))
            except SystemExit as left:
                code = left.code
        for stream in streams[1:]:
            stream.flush()
        return code, *(stream.buffer.getvalue().decode() for stream in streams[1:])

    def reported(self, site, report, *arguments):
        """A table, given as bytes, with a stored report."""
        return self.run_door(self.at("site.txt", site), "--report", self.at("report.txt", report), *arguments)

    def said_of(self, units, links, names=(), *arguments):
        """The exit status and the words of a table, whose report is not looked at."""
        unjudged = {"contradictions": lambda losses, report: [], "along": lambda losses, report: (judge.OWN, [])}
        with mock.patch.multiple(judge, **unjudged):
            rows = [line(0x12, 0, v, 0, 0, 0, 0, 0, 0, 0) for v in range(units)] + [
                line(0x13, *divmod(j, 256), 0, 0, 0) for j in range(len(links))
            ]
            report = line(0x11, 0, 1, 0, 0) + b"".join(rows) + line(0x1F, 0, 0, 0, 0)
            code, said, told = self.reported(text_of(units, links, names), report, *arguments)
        self.assertEqual(told, "")
        return code, said.splitlines()

    def program(self, body):
        """A stand-in for the program: a shell script."""
        path = self.at("program", b"#!/bin/sh\n" + body.encode() + b"\n")
        os.chmod(path, 0o755)
        return path

    def printing(self, report):
        return self.program(f"cat > /dev/null; cat '{self.at('printed.txt', report)}'")

    def fails(self, done, *words):
        code, said, told = done
        self.assertEqual((code, said), (2, ""), told)
        for word in words:
            self.assertIn(word, told)
        self.assertNotIn("Traceback", told)
