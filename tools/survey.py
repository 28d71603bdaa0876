#!/usr/bin/env python3
"""Surveys a site of portable signals, says what is weak there and where spares go, and answers questions about it: the
front door to the programs crates/link_survey/out/link_survey and crates/link_ask/out/link_ask."""
import os
import sys
from collections import namedtuple

import export
from answers import Answer, Asker, marks_of, one_way_told, sites_told
from asking import UNPROVED, asker_at
from compare import compared_reports
from files import read, read_given, within, write
from judge import judged, program_at, site_of, surveyed, surveyed_again, tree_of
from limits import limits_of
from losses import Losses, units_of
from naming import Names
from options import check_options, command_line, questions_of, written_of
from plain_text import same_names, write_text
from planning import along_plan, changed_site
from proposals import proposed
from reports import DRAWN
from spare_words import spare_words
from survey_text import Fault, read_report, write_site
from words import LOUD, words, wrapped

# a survey and all that was found with it: the site that was given, the tree where it is not the survey's own, by what
# it was found, the losses of an earlier table, what is proposed, the answers to questions, whether all is drawn, and
# whether the program link_ask was wanted and is not built
Surveyed = namedtuple(
    "Surveyed",
    "losses report given tree by before proposed answers full unasked",
    defaults=(None, None, (), False, False),
)


def convert(options):
    given = altered(read_given(options.site), options, complain)
    site = site_of(given)
    unasked = options.changes and asker_at(options.asker) is None
    if unasked:
        complain(UNPROVED)
    alone = [] if options.to_text or options.changes else Losses(site).alone()
    if alone:
        complain(f"no link ends at {units_of(alone)}: a handset refuses such a table with 22")
    text = options.to_text and write_text(site, given.names, given.places, given.reach)
    write(options.to_text or options.to_file, text or given.data)
    return 3 if unasked else 0


def survey(options):
    """The list; or, in its place, the answers to questions."""
    first, lines = read_given(options.site), []
    given = altered(first, options, lines.append)
    earlier = read_given(options.before) if options.before else first if options.changes else None
    program, questions = program_at(options.program), questions_of(options)
    unasked = asker_at(options.asker) is None and bool(questions or options.changes or options.plan)
    found = reported(options, program, given)
    before = earlier and surveyed(program, earlier)[0]
    found = found._replace(before=before, full=options.full, unasked=unasked)
    for units in same_names(given.names):
        complain(f"{LOUD}{units_of(units)} have the same name, {given.names[units[0]]}: give each its own")
    if questions:
        found = found._replace(answers=answers_of(options, program, found))
        lines += [line for answer in found.answers for line in answer.lines]
        code = 3 if unasked else 0 if all(answer.good for answer in found.answers) else 1
    else:
        losses, report = found.losses, found.report
        lines = [*([UNPROVED] if unasked else []), *lines]
        lines += words(losses, report, given.names, options.full, before, earlier and earlier.names, found.tree)
        weak = losses.unit_parts or losses.link_parts or len(losses.groups) > 1
        code = 3 if unasked or report is None else 1 if weak else 0
    if options.spares:
        limits = limits_of(found.losses.site, options.near, given.places, given.reach)
        spares = proposed(found.losses, options.spares, limits, lambda site: surveyed_again(program, site))
        found = found._replace(proposed=spares)
        lines += spare_words(spares, given.names, proved=program is not None)
    return write_all(options, found, lines, code)


def write_all(options, found, lines, code):
    """What is wanted of a survey is written, and its lines are said; the exit status."""
    outs = written_of(options)
    for form, out in outs.items():
        try:
            write(out, made(form, found).encode("utf-8"))
        except Fault as fault:
            complain(fault)
            code = 2
    say(lines, sys.stderr if "-" in outs.values() else sys.stdout)
    return code


def altered(given, options, tell):
    """The table with its changes made, and in words what a handset says to them."""
    if not options.changes:
        return given
    changed = changed_site(given, site_of(given), options.changes, asker_at(options.asker), tell)
    return given._replace(path=f"{given.path} as changed", data=write_site(changed))


def reported(options, program, given):
    """The survey of a table: a report made elsewhere, one along a drawn tree, or the program's own."""
    if options.report:
        losses, report = judged(given, options.report, read(options.report))
        if program:
            surveyed(program, given)
        return Surveyed(losses, report, given, tree_of(losses, report), "report")
    losses, report = surveyed(program, given)
    by = "program" if program else "removal"
    if not options.plan:
        return Surveyed(losses, report, given, "", by)
    asker = asker_at(options.asker)
    planned = along_plan(losses, given, options.plan, read(options.plan), asker)
    return Surveyed(losses, planned, given, DRAWN, "program" if asker else "removal")


def answers_of(options, program, found):
    """The answers to the questions, each held to the table."""
    names = Names(found.losses.site, found.given.names)
    ask = Asker(found.losses, found.given, names, asker_at(options.asker))
    answers = [Answer([UNPROVED], {}, True)] if found.unasked else []
    if options.ring:
        answers.append(ask.ring(options.ring))
    if options.doubtful:
        if options.ring:
            answers.append(ask.verdict(options.ring, options.doubtful))
        else:
            answers.append(ask.doubts(options.doubtful, lambda site: surveyed_again(program, site)))
    if options.lift is not None:
        answers.append(ask.lift(options.lift))
    if options.lines:
        answers.append(ask.handsets())
    return answers


def one_way(options):
    """Who reaches whom where each link goes one way."""
    given = read_given(options.site, one_way=True)
    asker, site = asker_at(options.asker), site_of(given, one_way=True)
    answer = one_way_told(asker, site, given)
    say([*([] if asker else [UNPROVED]), *answer.lines], sys.stdout)
    return 3 if asker is None else 0 if answer.good else 1


def sites(options):
    """Several sites on one channel."""
    paths = [*([options.site] if options.site else []), *options.sites]
    asker = asker_at(options.asker)
    found = [Losses(site_of(read_given(path))) for path in paths]
    say([*([] if asker else [UNPROVED]), *sites_told(asker, found, paths, options.full)], sys.stdout)
    return 3 if asker is None else 0


def compare(options):
    """Two reports; beside a table where one is given."""
    given = options.site and read_given(options.site)
    reports = [within(path, read_report, read(path)) for path in options.compare]
    losses = given and surveyed(program_at(options.program), given)[0]
    lines = list(compared_reports(options.compare, reports, given and given.names, losses, options.site))
    say(lines, sys.stdout)
    if any(line.startswith((f"{LOUD}A is", f"{LOUD}B is")) for line in lines):
        return 2
    return 0 if reports[0] == reports[1] else 1


def say(lines, out):
    if out is None:
        raise Fault("standard output is closed")
    print("".join(wrapped(line) + "\n" for line in lines), end="", flush=True, file=out)


def made(form, found):
    """What is written of a survey. The modules that draw are read where they are needed."""
    losses, report, given = found[:3]
    marks, proved = marks_of(found.answers), report is not None and not found.unasked
    if form == "svg":
        from drawing import svg_of

        return svg_of(losses, given.names, found.before, found.full, found.proposed, proved, marks)
    if form == "html":
        from page import html_of

        told = [line for answer in found.answers for line in answer.lines]
        return html_of(losses, given.names, found.before, found.proposed, proved, marks, told)
    if form == "json":
        answers = {key: value for answer in found.answers for key, value in answer.data.items()}
        return export.json_of(losses, report, given, found.by, found.tree, answers, not found.unasked)
    if form == "csv":
        return export.csv_of(losses, report, given)
    return export.dot_of(losses, report, given, marks.ring, marks.order)


def complain(fault):
    print(fault, file=sys.stderr, flush=True)


def work_of(options):
    if options.to_file or options.to_text:
        return convert
    if options.compare:
        return compare
    return sites if options.sites else one_way if options.one_way else survey


def main(arguments=None):
    parser = command_line()
    options = parser.parse_args(arguments)
    check_options(parser, options)
    try:
        return work_of(options)(options)
    except Fault as fault:
        complain(fault)
        return 2


def run():
    """As a program: a reader that went away, a full disk and an interrupt end it without a traceback."""
    for stream in sys.stdout, sys.stderr:
        if stream is not None:
            stream.reconfigure(errors="replace")
    try:
        code = main()
        if sys.stdout is not None:
            sys.stdout.flush()
        return code
    except KeyboardInterrupt:
        return 2
    except OSError as error:
        # what is still held back would fail again when the program ends
        os.dup2(os.open(os.devnull, os.O_WRONLY), 1)
        if not isinstance(error, BrokenPipeError):
            print(f"standard output cannot be written: {error.strerror}", file=sys.stderr)
        return 2


if __name__ == "__main__":
    sys.exit(run())
