"""Tables of docs/EVIDENCE.md that a program of evidence/ makes, some of them in minutes: for tools/figures NAME."""
import os
import re
import subprocess

import counts
from counts import Unknown, number, table

CARGO = ["cargo", "run", "--offline", "--quiet", "--release", "--features", "face", "--bin"]


def printed(*command):
    """What a command writes in evidence/."""
    folder = os.path.join(counts.ROOT, "evidence")
    try:
        done = subprocess.run(command, cwd=folder, capture_output=True, text=True, check=False)
    except OSError as why:
        raise Unknown(str(why)) from None
    if done.returncode != 0:
        raise Unknown(f"{' '.join(command)} failed:\n{done.stdout[-500:]}{done.stderr[-500:]}")
    return done.stdout


def search():
    return search_table(printed(*CARGO, "fuzz"))


def search_table(text):
    """Each call of the search: how often it was made, and how often each number came back."""
    rows = []
    for call, numbers in re.findall(r"(?m)^  (\w+):((?:  \d+ × \d+)+)$", text):
        times = {int(n): int(count) for n, count in re.findall(r"(\d+) × (\d+)", numbers)}
        made, taken = sum(times.values()), times.pop(0, 0)
        refused = ", ".join(f"{n}: {number(count)}" for n, count in sorted(times.items()))
        rows.append((f"`link_survey_{call}`", number(made), number(taken), refused))
    return table(("call", "calls", "not refused", "refused, and how often"), rows)


def faults():
    one_by_one = "--nocapture", "--test-threads", "1"
    return faults_table(printed("cargo", "test", "--offline", "--test", "faults", "--", *one_by_one))


def faults_table(text):
    """Each wrong library, and the case in which it was found; the name of its test is that of the calls."""
    rows, calls = [], ""
    for line in text.splitlines():
        begun = re.match(r"test (\w+) \.\.\. ?", line)
        if begun:
            calls = begun[1].replace("_", " ")
        fault = re.match(r"\s*(\d+)  (.+?): ", line[begun.end() :] if begun else line)
        if fault:
            rows.append((calls, fault[2], number(int(fault[1]))))
    return table(("calls", "fault", "found in case"), rows)


def stack():
    return stack_table(printed(*CARGO, "bench", "stack"))


def stack_table(text):
    found = re.findall(r"(?m)^(\w+) +(\d+) +(\d+)$", text)
    rows = [(f"`link_survey_{call}`", number(int(proved)), number(int(plain))) for call, proved, plain in found]
    return table(("call", "bytes, proved", "bytes, plain"), rows)


MAKERS = {"search": search, "faults": faults, "stack": stack}
