"""The proved program's word on a table: it is run, and the links of the table must bear its report out."""
import os
import subprocess

from files import Given, within
from losses import Losses, contradictions, units_of
from mends import causes
from reports import OWN, along
from survey_text import REFUSALS, Fault, read_report, read_site, write_site
from words import LOUD

ROOT = os.path.dirname(os.path.dirname(os.path.abspath(__file__)))
PROGRAM = os.path.join(ROOT, "crates", "link_survey", "out", "link_survey")
PROGRAM_VARIABLE = "LINK_SURVEY_PROGRAM"
SECONDS = 60  # the largest site takes a fraction of one
TOLD = 20  # so many contradictions are told one by one


def program_at(given):
    """The path of the program, or None where none was named and none is built."""
    return path_of(given, PROGRAM_VARIABLE, PROGRAM, "link_survey")


def path_of(given, variable, built, crate):
    """The path of a program: as given, as a variable says, or as it is built; None where it was not named and is not
    there."""
    named = given or os.environ.get(variable)
    path = named or built
    if not os.path.exists(path):
        if named:
            raise Fault(f"the program {path} is not there: `rt run` in {ROOT}/crates/{crate} builds it (README.md)")
        return None
    return os.path.abspath(path)


def run_program(path, data):
    """What the program prints for a survey file."""
    try:
        done = subprocess.run([path], input=data, capture_output=True, timeout=SECONDS, check=False)
    except OSError as error:
        raise Fault(f"{path}: cannot be run: {error.strerror}") from None
    except subprocess.TimeoutExpired:
        raise Fault(f"{path}: it was stopped after {SECONDS} seconds") from None
    if done.returncode:
        raise Fault(f"{path}: it failed with {done.returncode}: {done.stderr.decode(errors='replace').strip()}")
    return done.stdout


def site_of(given, one_way=False):
    """The site of a survey file. Where it is none, the cause that lies in the file as a whole comes first, and last
    a word on what may have been meant."""
    try:
        return read_site(given.data, one_way)
    except Fault as fault:
        said, more = str(fault), ""
        found = list(causes(given.data)) if fault.number == 1 else []
        if found:
            said = "; ".join(found) + f"\n({said})"
        elif fault.number == 1 and given.data[:2] in (b"11", b"1E"):
            more = "\n(this looks like a report: give the table it was made from, and the report by --report)"
        if fault.number == 1 and not more and not read_as_digits(given.data):
            more = "\n(plain text is read too: its first line is like: units 5)"
        raise Fault(f"{given.path}: {said}{more}", fault.number) from None


def read_as_digits(data):
    """Whether it is nearly a survey file: hexadecimal digits and line ends alone."""
    return not data.removeprefix(b"\xef\xbb\xbf").translate(None, b"0123456789abcdefABCDEF\r\n")


def refusal(number, given):
    """What a refusal in the place of a report means, and whether it is the right one: the cause first."""
    told = f"the survey refused the table with number {number}: {REFUSALS[number]}"
    try:
        site = site_of(given)
    except Fault as fault:
        if fault.number != number:
            return Fault(f"{told}\n{LOUD}but that is not what is wrong with it: {fault}")
        return Fault(f"{fault}\n{told}")
    # 22 is none of the program, which opens stored tables: load and writing give it
    alone = Losses(site).alone()
    if number == 22 and alone:
        return Fault(f"{given.path}: no link ends at {units_of(alone, given.names)}\n{told}")
    return Fault(f"{told}\n{LOUD}but nothing is wrong with {given.path}")


def judged(given, source, data, own=False):
    """What the losses of a table do and its report, which the links of the table must bear out; and so must a survey
    replayed from the table, along the report's tree, the survey's own where that is wanted."""
    report = within(source, read_report, data)
    if isinstance(report, int):
        raise refusal(report, given)
    site = site_of(given)
    for what, of_report, of_site in ("units", report.units, site.units), ("links", report.links, len(site.links)):
        if len(of_report) != of_site:
            words = f"it has {len(of_report)} {what}, the table {of_site}"
            raise Fault(f"{source} does not belong to {given.path}: {words}")
    losses = Losses(site)
    judged_report(losses, source, report, given.path, own)
    return losses, report


def judged_report(losses, source, report, table="the table", own=False):
    """A report must say what the links of the table do."""
    wrong = list(contradictions(losses, report))
    if not wrong:
        tree, wrong = along(losses, report)
        if own and not wrong and tree != OWN:
            wrong = [f"the report is along {tree}"]
    if wrong:
        more = [f"and {len(wrong) - TOLD} more"] if len(wrong) > TOLD else []
        first = f"{LOUD}{source} contradicts {table}: do not rely on it"
        raise Fault("\n".join([first, *wrong[:TOLD], *more]))


def surveyed(program, given):
    """What the losses of a table do and its report; without a program, by taking each unit and link away, and no
    report."""
    if program is None:
        return Losses(site_of(given)), None
    return judged(given, "the report", run_program(program, given.data), own=True)


def surveyed_again(program, site):
    """The losses of a table that is proposed."""
    return surveyed(program, Given("the table with the spares", write_site(site)))[0]


def tree_of(losses, report):
    """The tree of a report where it is not the survey's own, in words."""
    tree = OWN if report is None else along(losses, report)[0]
    return "" if tree == OWN else tree
