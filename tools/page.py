"""A page for the planner: the drawing, and beside it the list of weak places; tap a unit or a link to see what its
loss cuts off.

`html_of` gives one file that asks nothing of a network. What each loss cuts off stands in the page as data; the
script only shows it. Rings and doubtful links are worked out in the page, from the links alone.
"""
import json
import re
from html import escape

import block_drawing
import drawing
from captions import UNPROVED, deaf_units, pieces
from folds import Fold, Folding, most_cut
from losses import counted, listed
from page_rings import RINGS
from page_script import SCRIPT
from page_style import STYLE
from spare_words import spare_words
from words import fold_name

FIRST = (
    "Tap a unit or a link: what its loss cuts off turns grey. Press “a ring” or “doubtful links” to ask about links. "
    "By key: Tab to the drawing, arrows, Enter. "
    "The list: what cuts off the most comes first."
)


def cut_off(left):
    """The parts that a loss cuts off: all but the largest, which comes after them; the smallest first."""
    left = sorted(left, key=lambda part: (len(part), part))
    return left[:-1], left[-1]


def weak_places(losses):
    """(key, units cut off, parts cut off, the rest) of every weak place, those that cut off the most first."""
    found = [("u", v, left) for v, left in losses.unit_parts.items()] + [
        ("l", j, left) for j, left in losses.link_parts.items()
    ]
    places = []
    for kind, k, left in found:
        parts, rest = cut_off(left)
        places.append((-sum(map(len, parts)), kind != "u", k, f"{kind}{k}", parts, rest))
    return [(key, -count, parts, rest) for count, _, _, key, parts, rest in sorted(places)]


def name_of(losses, names, key):
    k = int(key[1:])
    if key[0] == "u":
        return drawing.unit_name(k, names)
    a, b = losses.site.links[k]
    return f"link {k} ({a}-{b})"


def words_of(losses, names, key, parts, rest):
    """What a loss does, in words."""
    what = counted(sum(map(len, parts)), "unit")
    others = counted(len(rest), "other") if len(rest) != 1 else f"unit {rest[0]}"
    alone = [part[0] for part in parts if len(part) == 1]
    said = [f"each of {listed(alone)}"] if len(alone) > 1 else [str(v) for v in alone]
    said += [listed(part) for part in parts if len(part) > 1]
    return f"Loss of {name_of(losses, names, key)} cuts off {what}: {'; '.join(said)} from {others}."


def data_of(losses, names):
    """What the script shows."""
    places = weak_places(losses)
    told = {key: words_of(losses, names, key, parts, rest) for key, _, parts, rest in places}
    for v in deaf_units(losses):
        told[f"u{v}"] = f"{drawing.unit_name(v, names).capitalize()} hears nobody: switched on?"
    return {
        "units": losses.site.units,
        "links": [list(pair) for pair in losses.site.links],
        "names": {str(v): name for v, name in sorted((names or {}).items())},
        "cut": {key: parts for key, _, parts, _ in places},
        "said": told,
    }


def row(key, said):
    return f'<li data-key="{key}"><button>{said}</button></li>'


def weak_row(losses, names, key, count, parts):
    """A weak place as a button."""
    kind = "single point" if key[0] == "u" else "lone link"
    said = "; ".join(listed(part) for part in parts[:40]) + ("; and others" if len(parts) > 40 else "")
    return row(key, f"<b>{count}</b> {escape(name_of(losses, names, key))}, {kind}: cuts off {said}")


def rows_of(losses, names):
    """The list, each row a button; chains are folded, to be opened."""
    alone = [(v, escape(drawing.unit_name(v, names))) for v in deaf_units(losses)]
    out = [row(f"u{v}", f"<b>!</b> {unit} hears nobody: switched on?") for v, unit in alone]
    rows = {key: weak_row(losses, names, key, count, parts) for key, count, parts, _ in weak_places(losses)}
    order = list(rows)

    def row_key(place):
        return f"u{place.number}" if place.ends is None else f"l{place.number}"

    for told in Folding(losses, losses.weak()).in_order():
        if isinstance(told, Fold):
            inner = "\n".join(rows[key] for key in sorted(map(row_key, told.places), key=order.index))
            said = f"<b>{most_cut(told)}</b> {escape(fold_name(told, names or {}))}"
            out.append(f'<li class="fold"><details><summary>{said}</summary><ol>\n{inner}\n</ol></details></li>')
        else:
            out.append(rows[row_key(told)])
    none = "<li>No weak places: any one unit or link may fail, and all others still reach each other.</li>"
    return "\n".join(out or [none])


def spares_of(found, names, proved):
    """Where spares go, in words."""
    if not found:
        return ""
    lines = [line.replace("\u00a0", " ") for line in spare_words(found, names, proved)]
    told = [f'<p class="{"more" if line.startswith(" ") else "one"}">{escape(line.strip())}</p>' for line in lines]
    return f'<div id="spares"><h2>Spares</h2>{"".join(told)}</div>\n'


def asked_of(lines):
    """What was asked, and the answers, in words."""
    if not lines:
        return ""
    told = [line.replace("\u00a0", " ") for line in lines]
    rows = [f'<p class="{"more" if line.startswith(" ") else "one"}">{escape(line.strip())}</p>' for line in told]
    return f'<div id="asked"><h2>Asked</h2>{"".join(rows)}</div>\n'


def inline(svg):
    """A drawing to stand within the page, which knows how wide it is."""
    end = svg.index(">")
    wide = re.search(r'viewBox="\S+ \S+ (\S+)', svg)[1]
    return re.sub(r' (?:xmlns|width|height)="[^"]*"', "", svg[:end]) + f' style="--wide: {wide}"' + svg[end:]


def sheets_of(losses, names, before, found, marks=None):
    """The drawings of a page: the name of each, what its button says, and its text; the first is shown first."""
    whole = "whole", "all units and links", drawing.full_svg(losses, names, before, bare=True, marks=marks)
    sheets = [whole]
    if losses.site.units > drawing.SMALL:
        tree = "blocks", "weak places", block_drawing.svg_of(losses, names, bare=True)
        first = (marks and any(marks)) or drawing.is_full(losses, bool(names))
        sheets = [whole, tree] if first else [tree, whole]
    if found and found.steps:
        spared = drawing.full_svg(losses, names, before, True, found)
        sheets.append(("spared", "with the spares", re.sub(r' data-(?:unit|link|of)="\d+"', "", spared)))
    return sheets


def section_of(sheets):
    """The drawings with their buttons."""
    tools = "".join(
        f'<button data-zoom="{by}">{said}</button>' for by, said in ((1.4, "+"), (0.714, "−"), (0, "whole"))
    )
    tools += '<button data-key="">clear</button>'
    for mode, said in ("loss", "a loss"), ("ring", "a ring"), ("doubtful", "doubtful links"):
        tools += f'<button data-mode-of="{mode}" aria-pressed="{"true" if mode == "loss" else "false"}">{said}</button>'
    out = ""
    for k, (sheet, said, svg) in enumerate(sheets):
        if len(sheets) > 1:
            tools += f'<button data-show="{sheet}" aria-pressed="{"false" if k else "true"}">{said}</button>'
        look = (
            f'class="sheet" id="{sheet}"{" hidden" if k else ""} tabindex="0" role="region" aria-label="drawing: '
            f'{said}"'
        )
        out += f"<div {look}>{inline(svg)}</div>\n"
    return f'<section id="drawing"><div class="tools">{tools}</div>\n{out}</section>'


def html_of(losses, names=None, before=None, found=None, proved=True, marks=None, answers=()):
    """The page of a site. What is marked, a ring, a lifting order or doubtful links, stands in its drawing, and the
    lines of the answers over its list."""
    site = losses.site
    title = (
        f"{counted(site.units, 'unit')}, {counted(len(site.links), 'link')}: "
        f"{counted(len(losses.unit_parts), 'single point')}, {counted(len(losses.link_parts), 'lone link')}"
    )
    told = [*([] if proved else [UNPROVED]), *pieces(losses)]
    loud = "".join(f'<p class="loud">{escape(said)}</p>' for said in told)
    # no "</" within the data, which would end it
    data = json.dumps(data_of(losses, names), separators=(",", ":"), ensure_ascii=False).replace("</", "<\\/")
    return f"""<!DOCTYPE html>
<html lang="en">
<head>
<meta charset="utf-8">
<meta name="viewport" content="width=device-width, initial-scale=1">
<title>{escape(title)}</title>
<style>{STYLE}</style>
</head>
<body style="--loud: {len(told)}">
<header><h1>{escape(title)}</h1>{loud}</header>
<main>
{section_of(sheets_of(losses, names, before, found, marks))}
<aside id="list">
<p id="said" aria-live="polite">{FIRST}</p>
{asked_of(answers)}{spares_of(found, names, proved)}<ol>
{rows_of(losses, names)}
</ol>
</aside>
</main>
<script type="application/json" id="site">{data}</script>
<script>{RINGS}{SCRIPT}</script>
</body>
</html>
"""
