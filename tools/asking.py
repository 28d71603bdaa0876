"""The proved program link_ask: a question is asked of it, its answer read, and held to what was worked out from the
table. Where it is not built, what was worked out is the answer."""
import os
import re
import subprocess
import tempfile
from collections import namedtuple

from judge import ROOT, SECONDS, path_of
from survey_text import REFUSALS, Fault, read_report, read_site, write_site
from words import LOUD

ASKER = os.path.join(ROOT, "crates", "link_ask", "out", "link_ask")
ASKER_VARIABLE = "LINK_ASK_PROGRAM"
UNPROVED = (
    f"{LOUD}not by the proved program link_ask, which is not built here (README.md): worked out from the table instead"
)
REFUSED = re.compile(r"(?:(change|seat) (\d+) )?refused (\d+): (.*)")

# a refusal: its number, and the change or seat that it is of, counted as the program counts them, or None
Refused = namedtuple("Refused", "number at", defaults=(None,))


def asker_at(given):
    """The path of the program, or None where none was named and none is built."""
    return path_of(given, ASKER_VARIABLE, ASKER, "link_ask")


def lines_of(program, words, data):
    """The lines that the program prints for a question."""
    command = [program, *map(str, words)]
    try:
        done = subprocess.run(command, input=data, capture_output=True, timeout=SECONDS, check=False)
    except OSError as error:
        raise Fault(f"{program}: cannot be run: {error.strerror}") from None
    except subprocess.TimeoutExpired:
        raise Fault(f"{program}: it was stopped after {SECONDS} seconds") from None
    if done.returncode not in (0, 1):
        raise Fault(f"{program}: it failed with {done.returncode}: {done.stderr.decode(errors='replace').strip()}")
    # the program has no exit status of its own: what it does not understand it tells on standard error
    if not done.stdout and done.stderr:
        raise strange(program, done.stderr.decode(errors="replace").strip())
    text = done.stdout.decode("ascii", errors="replace")
    if not text.endswith("\n"):
        raise strange(program, "its last line has no line feed")
    return text.split("\n")[:-1]


def strange(program, what):
    return Fault(f"{program}: its answer is not understood: {what}")


def refusal_in(line):
    """The refusal that a line tells, or None."""
    match = REFUSED.fullmatch(line)
    return match and Refused(int(match[3]), int(match[2]) if match[2] else None)


def numbers(line, form):
    """The numbers of a line of a form, in which N stands for each."""
    match = re.fullmatch(form.replace("N", r"(\d{1,5})"), line)
    if not match:
        raise ValueError(line)
    return tuple(map(int, match.groups()))


# ---- reading the answers


def read_ring(lines):
    if re.fullmatch(r"no ring holds links? \d+(?: and \d+)?", lines[0]):
        return []
    match = re.fullmatch(r"a ring of (\d+) units holds links? \d+(?: and \d+)?", lines[0])
    units = [numbers(line, "unit N")[0] for line in lines[1:]]
    if not match or int(match[1]) != len(units):
        raise ValueError(lines[0])
    return units


def read_order(lines):
    return [numbers(line, "lift unit N")[0] for line in lines]


def read_verdict(lines):
    if len(lines) != 1 or lines[0] not in ("always", "perhaps", "never"):
        raise ValueError(lines[0])
    return lines[0]


def read_groups(lines):
    rows = [numbers(line, "unit N group N") for line in lines[:-1]]
    if [v for v, _ in rows] != list(range(len(rows))):
        raise ValueError(lines[0])
    return [group for _, group in rows], numbers(lines[-1], "passes N")[0]


def read_lines(reader):
    return lambda lines: reader("".join(line + "\n" for line in lines).encode())


def read_ticks(lines):
    """The seats that were refused, and the ticks of the others."""
    refused = [refusal_in(line) for line in lines if REFUSED.fullmatch(line)]
    rows = [numbers(line, "tick N seat N stage N countdown N") for line in lines if not REFUSED.fullmatch(line)]
    if [row[0] for row in rows] != list(range(1, len(rows) + 1)):
        raise ValueError(lines[0])
    return {each.at: each.number for each in refused}, [row[1:] for row in rows]


READERS = {
    "ring": read_ring,
    "lift": read_order,
    "doubtful": read_verdict,
    "plan": read_lines(read_report),
    "one-way": read_groups,
    "add": read_lines(read_site),
    "withdraw": read_lines(read_site),
    "lines": list,
    "seats": read_ticks,
}


def answered(program, words, data=b""):
    """The program's answer to a question, or Refused."""
    lines = lines_of(program, words, data)
    if words[0] != "seats" and len(lines) == 1 and refusal_in(lines[0]):
        return refusal_in(lines[0])
    try:
        return READERS[words[0]](lines)
    except (ValueError, IndexError, Fault) as error:
        raise strange(program, str(error)) from None


# ---- held to what was worked out


def worked_out(working, *given):
    """What was worked out, or Refused."""
    try:
        return working(*given)
    except Fault as fault:
        if fault.number is None:
            raise
        return Refused(fault.number, getattr(fault, "change", None))


def told(answer):
    if isinstance(answer, Refused):
        of = f" of change {answer.at}" if answer.at else ""
        return f"refusal {answer.number}{of} ({REFUSALS.get(answer.number, 'which there is not')})"
    said = str(answer)
    return said if len(said) < 200 else said[:200] + ".."


def asked(program, words, data, right, fault_of=None):
    """The answer to a question: the program's, held to what is right, by a judge where several answers are; without a
    program what is right."""
    if program is None:
        return right
    answer = answered(program, words, data)
    question = " ".join(map(str, words))
    if isinstance(answer, Refused) or isinstance(right, Refused) or fault_of is None or not (answer and right):
        wrong = None if answer == right else f"it answers {told(answer)}, but the links say {told(right)}"
    else:
        wrong = fault_of(answer)
    if wrong:
        first = f"{LOUD}the program's answer to `{question[:200]}` contradicts the table: do not rely on it"
        raise Fault(f"{first}\n{wrong}")
    return answer


def asked_of_sites(program, sites, right):
    """The ticks of several sites, each a survey file in a seat of its own."""
    if program is None:
        return right
    with tempfile.TemporaryDirectory() as folder:
        paths = []
        for seat, site in enumerate(sites):
            paths.append(os.path.join(folder, f"seat{seat}"))
            with open(paths[-1], "wb") as file:
                file.write(write_site(site))
        answer = answered(program, ["seats", *paths])
    if answer != ({}, right):
        raise Fault(f"{LOUD}the program's turns contradict the tables: do not rely on them")
    return right
