"""The words that the front door is called with, and which of them go together."""
import argparse
import os

from asking import ASKER_VARIABLE
from judge import PROGRAM_VARIABLE

SPARES = 3  # so many spares are proposed where no number is given
DRAWN = "svg", "html", "json", "csv", "dot"  # what can be written of a survey

ABOUT = """\
Surveys a site and prints what is weak there: first, loud, the units that hear nobody
and the groups that no link joins; then the weak places, the worst first; then what
backs each other up. With --spares it says where spare repeaters go; and it answers
questions: rings, lifting orders, doubtful links and others."""

MORE = """\
SITE is a survey file or plain text, told apart by what stands in it; - is standard
input. In plain text a level (in dBm), a name, a place (metres along the road and
across), the reach and what stands behind # may be left out:

    # the bridge, night shift
    units 5
    0-1
    1-2 -63
    3 = head N3
    3 @ 120 4
    reach 250

Where what is written (a drawing, a page) goes to standard output (-), the words go to
standard error. Faults and warnings always go there.

Exit status: 0 where the site has no weak place and is in one piece; 1 where it has
weak places or is in pieces; 2 where the table was refused, something failed, or the
report contradicts the links (each unit and each link is taken away once to see); 3
where a proved program is not built: what is told was worked out without it. Of a
question: 0 where the answer is yes (a ring, an order, always), 1 where it is no. Of two
reports that are compared: 0 where they are the same, 1 where they differ, 2 where
one of them is none of a survey."""


QUESTIONS = """\
Each is answered in the list's place, by the program link_ask. A link is two units, like
3-4, or its position; units may be named: "repeater B-repeater C"."""
CHANGES = """\
The changed table is surveyed beside the one given; --to-file and --to-text write it."""


class Change(argparse.Action):
    """Links to add and to withdraw, kept in the order in which they are said."""

    def __call__(self, parser, options, words, option=None):
        options.changes = [*(options.changes or []), (option.removeprefix("--"), words)]


def command_line():
    parser = argparse.ArgumentParser(
        prog="survey.py",
        description=ABOUT,
        epilog=MORE,
        formatter_class=argparse.RawDescriptionHelpFormatter,
        allow_abbrev=False,
    )
    parser.add_argument("site", metavar="SITE", nargs="?", help="the table of links: a survey file or plain text")
    survey_words(parser.add_argument_group("the list").add_argument)
    written_words(parser.add_argument_group("what is written").add_argument)
    question_words(parser.add_argument_group("questions", QUESTIONS).add_argument)
    change_words(parser.add_argument_group("changes", CHANGES).add_argument)
    report_words(parser.add_argument_group("reports").add_argument)
    return parser


def survey_words(add):
    add("--before", metavar="SITE", help="an earlier table of the site: say what is cured, new and remaining")
    add("--full", action="store_true", help="tell each weak place and set of links alone, and draw every unit and link")
    add("--spares", metavar="K", nargs="?", type=number, const=SPARES,
        help=f"say where up to K spare repeaters go ({SPARES} without a number), each surveyed before it is told")
    add("--near", metavar="PAIRS",
        help="pairs of units that can be joined, like 0-7,3-9, or a file of them: no others are proposed")
    add("--program", metavar="PATH",
        help=f"the program (else what {PROGRAM_VARIABLE} says, else crates/link_survey/out/link_survey)")


def written_words(add):
    add("--svg", metavar="OUT", help="write a drawing of the site")
    add("--html", metavar="OUT", help="write a page on which a tap shows what a loss parts")
    add("--json", metavar="OUT", help="write table and findings as JSON, for other programs")
    add("--csv", metavar="OUT", help="write them as a sheet for office programs, a row for each unit and link")
    add("--dot", metavar="OUT", help="write them as a graph for Graphviz")
    add("--to-file", metavar="OUT", help="no survey: write SITE as a survey file (names and places are lost)")
    add("--to-text", metavar="OUT", help="no survey: write SITE as plain text")


def question_words(add):
    add("--ring", metavar="LINK", nargs="+", help="show a ring that holds both links, or one; it is bold in a drawing")
    add("--doubtful", metavar="LINK", nargs="+",
        help="links that may fail: say what becomes of the weak places; with --ring, whether a ring holds those links "
        "always, perhaps or never")
    add("--lift", metavar="PAIR", nargs="*",
        help='the order in which units are collected; "7 before 8" is kept; the turns stand in a drawing')
    add("--lines", action="store_true", help="what both handsets show after the load and after each round")
    add("--one-way", action="store_true", help="read each link as one-way, first unit to second: who reaches whom")
    add("--sites", metavar="SITE", nargs="+", help="the turns of up to eight sites on one channel; --full: each tick")
    said = f"the program (else what {ASKER_VARIABLE} says, else crates/link_ask/out/link_ask)"
    add("--asker", metavar="PATH", help=said)


def change_words(add):
    add("--add", metavar="LINK", nargs="+", action=Change, dest="changes",
        help="add links at the end of the table, each with its level behind it: --add 3-7 -63")
    add("--withdraw", metavar="LINK", nargs="+", action=Change, dest="changes", help="withdraw links: --withdraw 3-4")
    add("--plan", metavar="FILE",
        help="survey along a tree drawn by the planner: relay paths, one a line, like 0-2-3, from the lowest unit out")


def report_words(add):
    add("--report", metavar="FILE", help="a report made elsewhere, from C, say: it is held to the table and told")
    add("--compare", metavar=("A", "B"), nargs=2,
        help="two reports field by field, and whether both are surveys of one table; of SITE, where it is given")


def number(said):
    if not said.isascii() or not said.isdigit() or not 1 <= int(said) <= 256:
        raise argparse.ArgumentTypeError(f"{said!r} is no number of spares from 1 to 256 (SITE stands before --spares)")
    return int(said)


def written_of(options):
    """The paths that a survey's forms go to, by form."""
    return {form: getattr(options, form) for form in DRAWN if getattr(options, form)}


def questions_of(options):
    """The questions that are answered in the list's place."""
    return [word for word in ("ring", "doubtful", "lift", "lines") if getattr(options, word) not in (None, False)]


def check_options(parser, options):
    converted = [path for path in (options.to_file, options.to_text) if path]
    outputs = [*written_of(options).values(), *converted]
    beside = [options.before, options.report, options.plan, *(options.compare or ()), *(options.sites or ())]
    inputs = [path for path in (options.site, *beside) if path]
    for together, message in faults_of(options, outputs, converted):
        if together:
            parser.error(message)
    for paths, stream in (inputs, "standard input"), (outputs, "standard output"):
        if paths.count("-") > 1:
            parser.error(f"only one - can be {stream}")
    for path in outputs:
        if path != "-" and any(same_file(path, other) for other in inputs):
            parser.error(f"{path} is read: it would be overwritten")


def faults_of(options, outputs, converted):
    """What does not go together."""
    questions, listed = questions_of(options), options.spares or options.before or options.report
    alone = outputs or listed or questions or options.changes or options.plan
    yield not (options.site or options.compare or options.sites), "the table is missing: SITE, which stands first"
    yield options.compare and (alone or options.sites or options.one_way), "--compare stands alone, or with SITE"
    yield options.sites and (alone or options.one_way), "--sites stands alone, or with --full"
    yield options.one_way and (alone or options.full), "--one-way stands alone: no list is made of such a table"
    yield (
        converted and (len(outputs) > 1 or listed or questions or options.plan),
        "--to-file and --to-text stand alone: nothing is surveyed",
    )
    yield questions and listed, f"--{questions and questions[0]} is answered in the list's place"
    yield options.plan and (options.report or questions), "--plan makes a list of its own: ask the questions without it"
    yield options.ring and len(options.ring) > 2, "--ring is about one link or two"
    yield options.near is not None and not options.spares, "--near limits what --spares proposes: give both"
    yield options.sites and len(options.sites) + bool(options.site) > 8, "a channel has room for eight sites"


def same_file(path, other):
    return os.path.exists(path) and os.path.exists(other) and os.path.samefile(path, other)
