"""What stands over a drawing and under it: counts, pieces said loud, and the legend."""
from ink import FONT, INK, WEAK, text, wrapped
from losses import counted, listed


UNPROVED = "NOT BY THE PROVED PROGRAM: each unit and link was taken away once instead"


def deaf_units(losses):
    """The units that hear nobody; a site of one unit has none."""
    return [part[0] for part in losses.groups if len(part) == 1] if losses.site.units > 1 else []


def linked_groups(losses):
    """The groups of two units and more, the largest first."""
    return sorted((part for part in losses.groups if len(part) > 1), key=lambda part: (-len(part), part))


def pieces(losses):
    """What must be said before all else: separate groups, and units that hear nobody."""
    deaf, groups = deaf_units(losses), linked_groups(losses)
    said = []
    if len(groups) > 1:
        sizes = [len(part) for part in groups]
        said.append(
            f"{len(groups)} SEPARATE GROUPS that no link joins, of {', '.join(map(str, sizes[:-1]))} and {sizes[-1]} "
            "units"
        )
    if deaf:
        who = "1 UNIT HEARS NOBODY" if len(deaf) == 1 else f"{len(deaf)} UNITS HEAR NOBODY"
        said.append(f"{who}: {listed(deaf)}: switched on?")
    return said


def header(losses, left, bottom, wide, proved=True):
    """The lines over a drawing, which end at its bottom, and where they begin."""
    site = losses.site
    first = (
        f"{counted(site.units, 'unit')}, {counted(len(site.links), 'link')}: "
        f"{counted(len(losses.unit_parts), 'single point')}, {counted(len(losses.link_parts), 'lone link')}"
    )
    told = [*([] if proved else [UNPROVED]), *pieces(losses)]
    loud = [line for said in told for line in wrapped(said, wide - 70, FONT + 1, True)]
    titles = wrapped(first, wide - 40, FONT, True)
    box = 24 * len(loud) + 14 if loud else 0
    top = bottom - 22 * len(titles) - (box + 20 if loud else 0) - 14
    y = top + 24
    out = []
    for line in titles:
        out.append(text(left + 20, y, line, f'font-weight="bold" fill="{INK}"'))
        y += 22
    if loud:
        y -= 12
        frame = f'x="{left + 14:.0f}" y="{y:.0f}" width="{wide - 28:.0f}" height="{box}"'
        out.append(f'<g class="pieces"><rect {frame} rx="6" fill="white" stroke="{WEAK}" stroke-width="4"/>')
        for k, line in enumerate(loud):
            out.append(
                text(left + 30, y + 23 + 24 * k, line, f'font-size="{FONT + 1}" font-weight="bold" fill="{WEAK}"')
            )
        out.append("</g>")
    return out, top


def footer(rows, left, top):
    """The legend from a top on, and where it ends; rows are a sample around (0, 0), its height and lines of words."""
    out = []
    for sample, high, lines in rows:
        top += max(24, high) / 2
        out.append(f'<g class="legend" transform="translate({left + 46:.0f} {top:.0f})">{sample}')
        out += [text(38, 5 + 20 * k, line, f'fill="{INK}"') for k, line in enumerate(lines)] + ["</g>"]
        top += max(24, high) / 2 + 20 * (len(lines) - 1)
    return out, top + 10
