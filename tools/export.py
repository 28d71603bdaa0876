"""Table and findings for other programs: as JSON, as CSV and as a graph in Graphviz's language (docs/MANUAL.md,
"For other programs").

Each can be read back: units, links, levels, names and places are all there, and what was found of each.
"""
import csv
import io
import json

from ink import CURED, WEAK
from losses import part_numbers
from reports import OWN
from survey_text import ABSENT, LINK_WITH_LEVEL, kinds_of

FORM = "link survey 1"  # grows with a change of what stands where
COLUMNS = (
    "what", "number", "name", "first", "second", "level", "along", "across", "group", "parent", "place", "label",
    "weak", "cuts_off"
)


class Findings:
    """What is told of each unit and link, by whichever form."""

    def __init__(self, losses, report, given):
        self.losses, self.site, self.report, self.given = losses, losses.site, report, given
        self.group = part_numbers(losses.groups)
        kinds = kinds_of(self.site)
        self.levels = [self.site.levels[j] if kind == LINK_WITH_LEVEL else None for j, kind in enumerate(kinds)]
        self.cut = {(place.ends is None, place.number): place.cut for place in losses.weak()}

    def unit(self, v):
        line = self.report.units[v] if self.report else None
        return {
            "unit": v,
            "name": self.given.names.get(v),
            "metres": list(self.given.places[v]) if v in self.given.places else None,
            "group": self.losses.groups[self.group[v]][0],
            "parent": line.parent if line and line.parent != ABSENT else None,
            "place": line.place if line else None,
            "single_point": v in self.losses.unit_parts,
            "cuts_off": self.cut.get((True, v), 0),
        }

    def link(self, j):
        return {
            "link": j,
            "ends": list(self.site.links[j]),
            "level": self.levels[j],
            "label": self.losses.labels[j],
            "lone": j in self.losses.link_parts,
            "cuts_off": self.cut.get((False, j), 0),
        }

    def units(self):
        return [self.unit(v) for v in range(self.site.units)]

    def links(self):
        return [self.link(j) for j in range(len(self.site.links))]


def json_of(losses, report, given, by, tree="", answers=None, asked=True):
    """One object, a line for each unit, link and weak place; `by` tells whether the program, a report from elsewhere
    or removal alone found it, and `asked` whether the program link_ask gave the answers."""
    found = Findings(losses, report, given)
    weak = [
        {"unit" if place.ends is None else "link": place.number, "cuts_off": place.cut, "parts": place.parts}
        for place in losses.weak()
    ]
    told = {
        "form": FORM,
        "by": by,
        "survey": report and {"rounds": report.rounds, "requests": report.requests, "along": tree or OWN},
        "reach": given.reach,
        "units": found.units(),
        "links": found.links(),
        "groups": losses.groups,
        "hear_nobody": losses.alone(),
        "weak_places": weak,
        "back_each_other_up": losses.backed(),
        "answers": answers or {},
        "answers_by": ("program" if asked else "table") if answers else None,
    }
    return "{" + ",".join(f"\n{json.dumps(key)}: {in_lines(value)}" for key, value in told.items()) + "\n}\n"


def in_lines(value):
    """JSON of a value; of a list, a line for each thing in it."""
    if not isinstance(value, list) or not value:
        return json.dumps(value, ensure_ascii=False)
    return "[" + ",".join("\n " + json.dumps(each, ensure_ascii=False) for each in value) + "\n]"


def csv_of(losses, report, given):
    """A row for each unit, then one for each link. It begins with a byte order mark, by which office programs know
    that names are in UTF-8."""
    found, out = Findings(losses, report, given), io.StringIO(newline="")
    table = csv.DictWriter(out, COLUMNS, restval="")
    table.writeheader()
    for told in found.units():
        metres = dict(zip(("along", "across"), told["metres"] or ()))
        row = {key: told[key] for key in ("name", "group", "parent", "place", "cuts_off")}
        weak = "single point" if told["single_point"] else ""
        table.writerow({"what": "unit", "number": told["unit"], "weak": weak, **row, **metres})
    for told in found.links():
        first, second = told["ends"]
        row = {key: told[key] for key in ("level", "label", "cuts_off")}
        weak = "lone" if told["lone"] else ""
        table.writerow({"what": "link", "number": told["link"], "first": first, "second": second, "weak": weak, **row})
    return "\ufeff" + out.getvalue()


def quoted(said):
    return '"' + said.replace("\\", "\\\\").replace('"', '\\"') + '"'


def look(**attributes):
    """Attributes of a unit or link; those that are None are left out."""
    kept = {name: value for name, value in attributes.items() if value is not None}
    return ", ".join(f"{name}={quoted(str(value))}" for name, value in kept.items())


def dot_of(losses, report, given, ring=(), order=()):
    """A graph: single points filled, lone links dashed, units that hear nobody dotted; the links of a ring thick, and
    beside each unit its number in a lifting order."""
    found, alone = Findings(losses, report, given), set(losses.alone())
    turn = {v: k for k, v in enumerate(order, 1)}
    held = {frozenset((v, ring[k - 1])) for k, v in enumerate(ring)}
    lines = ["graph site {", f"  // {FORM}", "  node [shape=circle];"]
    for told in found.units():
        v, single = told["unit"], told["single_point"]
        name = f"{v}\n{told['name']}" if told["name"] else str(v)
        marks = look(
            label=name, tooltip="single point" if single else "hears nobody" if v in alone else None,
            style="filled" if single else "dotted" if v in alone else None,
            fillcolor=WEAK if single else None, fontcolor="white" if single else None,
            pos="{},{}!".format(*told["metres"]) if told["metres"] else None,
            xlabel=f"lift {turn[v]}" if v in turn else None,
        )
        lines.append(f"  {v} [{marks}];".replace("\n", "\\n"))
    for told in found.links():
        a, b = told["ends"]
        on_ring = frozenset((a, b)) in held
        level = f" {told['level']} dBm" if told["level"] is not None else ""
        marks = look(
            id=f"link{told['link']}", label=f"{told['link']}{level}", tooltip="lone" if told["lone"] else None,
            style="dashed" if told["lone"] else None, color=WEAK if told["lone"] else CURED if on_ring else None,
            penwidth=6 if on_ring else 3 if told["lone"] else None,
        )
        lines.append(f"  {a} -- {b} [{marks}];")
    return "\n".join(lines + ["}"]) + "\n"
