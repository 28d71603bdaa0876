#!/usr/bin/env python3
"""The rooms of the house and what each may know: python3 tools/rooms.py says which crate knows one that it may not.

The first word of a crate's name is its room; what a crate names stands in crates.txt.
"""
import glob
import os
import re
import sys
from collections import namedtuple

ROOT = os.path.dirname(os.path.dirname(os.path.abspath(__file__)))
CODELESS = ("spec", "theory")  # rooms without a function

# names: a regular expression for the names of its crates; knows: the rooms that its crates may name, beside itself
Room = namedtuple("Room", "name title names holds knows")

ROOMS = [
    Room("base", "`base_`", r"base_\w+",
         "lists, slices, copies, lg, streams of numbers, input and output: no word of the survey", ()),
    Room("table", "`table`, `table_`", r"table(_\w+)?", "load's checks, levels, small functions over plain tables",
         ("base",)),
    Room("file", "`file_`", r"file_\w+", "frames, what a file means, reading, writing, round trips", ("base", "table")),
    Room("spec", "`spec_`", r"spec_\w+", "what a reader must believe: state, rules, machine, claim, channel; no code",
         ("base", "table", "file")),
    Room("theory", "`theory_`", r"theory_\w+",
         "graphs and rings, what every reached state has, ears, min-label; no code",
         ("base", "table", "spec")),
    Room("stages", "`load_`, `stage01_` to `stage10_`, `stage_clock`, `leap_`",
         r"(load|leap)_\w+|stage\d\d_\w+|stage_clock",
         "what a load sets; a crate for each stage and those under it; many rounds at once", ("base", "table", "spec")),
    Room("report", "`report_`", r"report_\w+", "flags, lines and the report from plain tables; what the program prints",
         ("base", "table", "file", "spec")),
    Room("requests",
         "`ring_`, `one_way`, `lifting_order`, `live_table`, `handset_lines`, `small_tables`, `channel_turns`",
         r"ring_\w+|one_way(_\w+)?|lifting_order|live_table|handset_lines|small_tables|channel_turns",
         "document 02's requests over plain tables", ("base", "table", "file", "spec", "theory")),
    Room("value", "`survey`, `value_`, `survey_calls`", r"survey|value_\w+|survey_calls",
         "the calls by value, on document 01's struct",
         ("base", "table", "file", "spec", "theory", "stages", "report", "requests")),
    Room("words", "`words_`, `survey_c`", r"words_\w+|survey_c", "the calls on lent words, and those for C",
         ("base", "table", "file", "spec", "theory", "stages", "report", "requests")),
    Room("ask", "`ask_`", r"ask_\w+", "questions about a file, and their answers in plain words",
         ("base", "table", "file", "spec", "theory", "report", "requests", "value", "words")),
    Room("programs", "`link_survey`, `link_ask`, `small_sites`, `check_`",
         r"link_survey|link_ask|small_sites|check_\w+",
         "the programs, the list of small sites, programs that compare",
         ("base", "table", "file", "spec", "report", "requests", "value", "words", "ask")),
]

# Crates that know one more room or stage, and why.
EXCEPTIONS = {
    ("base_copies", "table_levels"): "levels lie in words as two's complement",
    ("table_values", "spec_rules"): "its promises are said in the rules' words",
    ("spec_claim", "theory_reach"): "the claim ends with \"the survey is right\"",
    ("report_program", "theory_reach"): "what the program prints ends with the same",
    ("stage06_places", "stage04_ranking"): "the second ranking makes the rounds of the first",
    ("words_live", "value_live"): "a live table in words is changed by the call by value",
    ("words_requests", "value_lifting"): "the call on words keeps the promise of the call by value",
    ("words_requests", "value_ring"): "the call on words keeps the promise of the call by value",
    ("words_requests", "value_doubtful"): "the call on words keeps the promise of the call by value",
    ("survey_c", "value_lifting"): "the call from C keeps the promise of the call by value",
    ("small_sites", "theory_graph"): "a bit of its lines is set where the unit is an articulation point",
    ("small_sites", "theory_reach"): "the same, of the survey's end",
}


def contents(path):
    with open(os.path.join(ROOT, path), encoding="utf-8") as file:
        return file.read()


def dependencies():
    """Each crate's, in the order of crates.txt."""
    lines = [line for line in contents("crates.txt").split("\n") if line and not line.startswith("#")]
    named = [line.split(":", 1) for line in lines]
    return {name.split()[0]: deps.split() for name, deps in named}


def room_of(crate):
    """The room whose names the crate's name is one of; None where there is none."""
    return next((room for room in ROOMS if re.fullmatch(room.names, crate)), None)


def stage_of(crate):
    found = re.match(r"stage(\d\d)_", crate)
    return found[1] if found else None


def may_know(crate, other):
    mine, its = room_of(crate), room_of(other)
    if mine is not its:
        return its.name in mine.knows
    one, two = stage_of(crate), stage_of(other)
    return not (one and two) or one == two


def trespasses(deps):
    """Pairs of a crate and one that it names and may not know, exceptions among them."""
    return [(crate, other) for crate in deps for other in deps[crate] if other in deps and not may_know(crate, other)]


def sentence(crate):
    """What the crate says of itself: the comment at the head of its lib.rt or main.rt."""
    paths = [f"crates/{crate}/src/{name}.rt" for name in ("lib", "main")]
    path = next((path for path in paths if os.path.exists(os.path.join(ROOT, path))), None)
    if path is None:
        return ""
    said = []
    for line in contents(path).split("\n"):
        if not line.startswith("//"):
            break
        said.append(line[2:].strip())
    return " ".join(said)


def has_functions(crate):
    paths = glob.glob(os.path.join(ROOT, "crates", crate, "src", "**", "*.rt"), recursive=True)
    return any(re.search(r"(?m)^\s*(?:pub )?fn ", contents(path)) for path in paths)


def faults():
    """What is wrong with the rooms, in words."""
    deps = dependencies()
    found = [f"{crate} has no room: its name begins with none of theirs" for crate in deps if room_of(crate) is None]
    if found:
        return found
    over = trespasses(deps)
    found += [f"{crate} may not know {other}" for crate, other in over if (crate, other) not in EXCEPTIONS]
    idle = [pair for pair in EXCEPTIONS if pair not in over]
    found += [f"{crate} no longer knows {other}: the exception can go" for crate, other in idle]
    coded = [crate for crate in deps if room_of(crate).name in CODELESS and has_functions(crate)]
    found += [f"{crate} has a function, and its room has no code" for crate in coded]
    silent = [crate for crate in deps if not sentence(crate)]
    found += [f"{crate} says nothing of itself: its lib.rt or main.rt begins without a comment" for crate in silent]
    return found


def main():
    found = faults()
    for fault in found:
        print(fault)
    return 1 if found else 0


if __name__ == "__main__":
    sys.exit(main())
