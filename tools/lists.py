#!/usr/bin/env python3
"""Lists in the documents that are made from the sources.

    python3 tools/lists.py            says which document no longer agrees
    python3 tools/lists.py --write    writes them: the rooms in docs/ARCHITECTURE.md, docs/CRATES.md (the comment at the
                                      head of each crate's lib.rt or main.rt), docs/EDITS.md (the first line of each
                                      must-fail edit) and docs/CONTRACTS.md (each public function's promise)
"""
import glob
import os
import re
import sys
import textwrap

import contracts
from rooms import EXCEPTIONS, ROOMS, ROOT, contents, dependencies, faults, room_of, sentence

WIDTH = 120

CRATES_HEAD = """\
# The crates

Written by `python3 tools/lists.py --write` from `crates.txt` and from the comment at the head of each crate's `lib.rt`
or `main.rt`; do not edit it. `docs/ARCHITECTURE.md` says what each room may know.

"""

EDITS_HEAD = """\
# Programs that must fail

Written by `python3 tools/lists.py --write` from the first line of each edit; do not edit it.

Each of these {count} edits makes a wrong program, or a wrong definition, of the same shape. `rt must-fail` applies it
to a copy of its crate, and the prover must refuse it. `docs/PROOFS.md` has document 01's own failing versions.

"""

CONTRACTS_HEAD = """\
# Public functions and their promises

Written by `python3 tools/lists.py --write`; do not edit it. For each public function the definitions that its `ensures`
names; the promise itself stands above the function's body, in `src` of its crate. None has a `requires`. A function
without a definition here says its promise by lists and arithmetic alone; of `base_io`, whose functions reach files and
the terminal, some promise nothing, since no contract can say what the system gives or takes.

"""


def edits(crate):
    """Each must-fail edit's name and its first line."""
    paths = sorted(glob.glob(os.path.join(ROOT, "crates", crate, "must-fail", "*.edit")))
    return [(os.path.basename(path)[:-5], contents(path).split("\n", 1)[0].strip()) for path in paths]


def item(text):
    return textwrap.fill(text, WIDTH, initial_indent="- ", subsequent_indent="  ", break_long_words=False,
                         break_on_hyphens=False)


def known(room):
    """The rooms that a room may know, in words."""
    above = [other.name for other in ROOMS[:ROOMS.index(room)]]
    missing = [name for name in above if name not in room.knows]
    if not room.knows:
        return "nothing else"
    if len(above) < 3 or len(missing) > 1:
        return ", ".join(room.knows)
    return "all above" + (f" but {missing[0]}" if missing else "")


def rooms_table(deps):
    """The table of rooms in docs/ARCHITECTURE.md, and the exceptions."""
    lines = ["| room | crates | holds | may know |", "|---|---|---|---|"]
    for room in ROOMS:
        count = sum(1 for crate in deps if room_of(crate) is room)
        lines.append(f"| {room.name} | {count} | {room.holds} | {known(room)} |")
    lines += ["", "A room is the first word of its crates' names, save for these:", ""]
    lines += [item(f"{room.name}: {room.title}") for room in ROOMS if room.title != f"`{room.name}_`"]
    lines += ["", "Exceptions, each with its reason:", ""]
    reasons = {}
    for (crate, other), why in EXCEPTIONS.items():
        reasons.setdefault((crate, why), []).append(f"`{other}`")
    lines += [item(f"`{crate}` knows {', '.join(others)}: {why}.") for (crate, why), others in reasons.items()]
    return "\n".join(lines)


def by_room(deps, entry):
    """A heading for each room, and under it what entry gives for each of its crates, in the order of crates.txt."""
    parts = []
    for room in ROOMS:
        said = [entry(crate) for crate in deps if room_of(crate) is room]
        said = [text for text in said if text]
        if said:
            parts.append(f"## {room.title}\n\n{room.holds[0].upper()}{room.holds[1:]}.\n\n" + "\n".join(said))
    return "\n\n".join(parts) + "\n"


def crates_page(deps):
    def entry(crate):
        stands = ", ".join(f"`{other}`" for other in deps[crate] if other in deps)
        return item(f"`{crate}`: {sentence(crate)}" + (f" Stands on {stands}." if stands else ""))

    return CRATES_HEAD + by_room(deps, entry)


def edits_page(deps):
    def entry(crate):
        said = edits(crate)
        if not said:
            return ""
        rows = [item(f"`{crate}/must-fail/{name}`: {text}") for name, text in said]
        return "\n".join([f"### {crate}", ""] + rows + [""])

    count = sum(len(edits(crate)) for crate in deps)
    return re.sub(r"\n{3,}", "\n\n", EDITS_HEAD.format(count=count) + by_room(deps, entry))


def contracts_page(deps):
    def entry(crate):
        rows = []
        for name, named in contracts.promises(crate):
            said = ", ".join(f"`{definition}`" for definition in named)
            rows.append(item(f"`{crate}::{name}`" + (f": {said}" if said else "")))
        return "\n".join(rows)

    return CONTRACTS_HEAD + by_room(deps, entry)


BEGIN, END = "<!-- rooms: tools/lists.py writes what stands here -->", "<!-- end of rooms -->"


def pages():
    """Each document that is written or has a part that is, with what it should hold."""
    deps = dependencies()
    page = contents("docs/ARCHITECTURE.md")
    before, after = page.split(BEGIN)[0], page.split(END)[1]
    return {
        "docs/ARCHITECTURE.md": f"{before}{BEGIN}\n\n{rooms_table(deps)}\n\n{END}{after}",
        "docs/CRATES.md": crates_page(deps),
        "docs/EDITS.md": edits_page(deps),
        "docs/CONTRACTS.md": contracts_page(deps),
    }


def agrees(path, text):
    return os.path.exists(os.path.join(ROOT, path)) and contents(path) == text


def main():
    found = faults()
    for fault in found:
        print(fault)
    write = "--write" in sys.argv[1:]
    stale = [] if found else [(path, text) for path, text in pages().items() if not agrees(path, text)]
    for path, text in stale:
        print(f"{path}: " + ("written" if write else "not as made from the sources"))
        if write:
            with open(os.path.join(ROOT, path), "w", encoding="utf-8") as file:
                file.write(text)
    return 1 if found or (stale and not write) else 0


if __name__ == "__main__":
    sys.exit(main())
