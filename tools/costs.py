"""What the library costs on each processor: python3 tools/costs.py [sizes|stacks|instructions]

Prints the tables of docs/EVIDENCE.md: the bytes of code and of constants of each archive; the bytes of stack of each
call; the instructions of each call's dearest run on an Arm Cortex-M4. The archives are those of `rt lib` in
crates/survey_c and of `tools/cross all`. What is not installed here is left out, and said so.
"""
import functools
import os
import subprocess
import sys
import tempfile

import elf
import targets
from targets import HOST, ROOT

CALLS = os.path.join(ROOT, "tools", "cost_calls")
ALL = [HOST, *targets.TARGETS.values()]


def sizes():
    rows = [("archive", "code", "constants", "needs")]
    for target in ALL:
        found = elf.Archive(targets.archive(target))
        needs = ", ".join(f"`{name}`" for name in sorted(found.needed))
        rows.append((f"`{target.name}`", f"{found.code:,}", f"{found.constants:,}", needs))
    return rows


@functools.cache
def measured(name):
    """Stack and instructions of each call on a target, by the call's name."""
    target = next(target for target in ALL if target.name == name)
    sources = [os.path.join(CALLS, "calls.c"), os.path.join(CALLS, "linux.c")]
    if targets.bare(target):
        sources[1:] = [os.path.join(CALLS, "bare.c"), os.path.join(targets.EXAMPLES, "bare_metal_start.c")]
    with tempfile.TemporaryDirectory() as folder:
        program = os.path.join(folder, "costs")
        command = [*target.compiler, "-std=c99", "-O1", "-I" + targets.INCLUDE, "-I" + CALLS, *sources]
        subprocess.run([*command, targets.archive(target), "-lgcc", "-o", program], check=True)
        # an instruction a nanosecond; only the emulator of a whole board can count
        counted = ["-icount", "shift=0"] if targets.bare(target) else []
        run = [*target.emulator[:1], *counted, *target.emulator[1:], program]
        done = subprocess.run(run, stdin=subprocess.DEVNULL, capture_output=True, text=True, check=True)
    parts = (line.rpartition(": ") for line in done.stdout.splitlines())
    return {name: tuple(map(int, numbers.split())) for name, _, numbers in parts}


def runnable():
    found = []
    for target in ALL:
        lacking = targets.missing(target)
        if lacking:
            print(f"{target.name} is left out: not here: {', '.join(lacking)}", file=sys.stderr)
        else:
            found.append(target)
    return found


def stacks():
    costs = {target.name: measured(target.name) for target in runnable()}
    rows = [("call", *(f"`{name}`" for name in costs))]
    for call in next(iter(costs.values()), ()):
        rows.append((call, *(f"{of[call][0]:,}" for of in costs.values())))
    return rows


def instructions():
    target = targets.TARGETS["thumbv7em-none-eabi"]
    if targets.missing(target):
        raise SystemExit(f"not here: {', '.join(targets.missing(target))}")
    costs = measured(target.name)
    return [("call", "instructions"), *((call, f"{count:,}") for call, (_, count) in costs.items())]


TABLES = {"sizes": sizes, "stacks": stacks, "instructions": instructions}


def main(words):
    if any(word not in TABLES for word in words):
        print("usage: python3 tools/costs.py [sizes|stacks|instructions]", file=sys.stderr)
        return 2
    for word in words or TABLES:
        head, *rows = TABLES[word]()
        print("\n".join("| " + " | ".join(row) + " |" for row in [head, ["---"] * len(head), *rows]) + "\n", flush=True)
    return 0


if __name__ == "__main__":
    sys.exit(main(sys.argv[1:]))
