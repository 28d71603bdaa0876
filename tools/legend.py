"""The rows under a drawing of every unit and link: what its marks mean, and the names that found no room beside
their units."""
from captions import deaf_units
from ink import CURED, FONT, INK, WEAK, bold, cured, disc, lone, path, spare_line, spare_mark, straight, styled, text
from ink import width_of, wrapped
from losses import listed

NAMED = 6  # so many sets of links stand in the legend, and more where the page has room
ROW = 21  # from one row of names to the next
APART = 26  # between two columns of names


def plural(some):
    return "" if len(some) == 1 else "s"


class Rows:
    """Rows of a drawn sample around (0, 0), its height, and its words in lines."""

    def __init__(self, wide):
        self.wide = wide
        self.rows = []

    def add(self, sample, *tries):
        """The first wording that takes no more than two lines, else the last."""
        for said in tries:
            lines = wrapped(said, self.wide - 90)
            if len(lines) <= 2:
                break
        small = f'<g transform="scale(0.65)">{sample}</g>' if "circle" in sample or "rect" in sample else sample
        self.rows.append((small, 30, lines))

    def high(self):
        return sum(30 + 20 * (len(lines) - 1) for _, _, lines in self.rows)


def weak_rows(rows, losses, before):
    """What is weak; and of what was weak before, what is cured."""
    links = losses.site.links
    if losses.unit_parts:
        said = f"single point{plural(losses.unit_parts)}: {listed(losses.unit_parts)}"
        rows.add(disc(0, 0, "", "single"), said, f"{len(losses.unit_parts)} single points")
    if losses.link_parts:
        named = ", ".join(f"{j} ({links[j][0]}-{links[j][1]})" for j in sorted(losses.link_parts))
        many = f"{len(losses.link_parts)} lone links"
        rows.add(lone(straight(-22, 0, 22, 0)), f"lone link{plural(losses.link_parts)}: {named}", many)
    units, ways = before.unit_parts.keys() - losses.unit_parts, before.link_parts.keys() - losses.link_parts
    if units:
        said = f"no single point any more, with the spares: {listed(units)}"
        rows.add(disc(0, 0, "", "cured"), said, f"{len(units)} units are no single points any more, with the spares")
    if ways:
        said = f"lone no more, with the spares: {listed(ways)}"
        rows.add(cured(straight(-22, 0, 22, 0)), said, f"{len(ways)} links are lone no more, with the spares")


def spare_rows(rows, found):
    """The spares that are proposed."""
    groups = len(found.losses.pieces()) if found else 0
    for k, step in enumerate(found.steps, 1) if found else ():
        weak = len(step.losses.weak())
        left = f"{weak} weak place{'' if weak == 1 else 's'} left" if weak else "no weak place left"
        left = f"joins groups; {left}" if len(step.losses.pieces()) < groups else left
        groups = len(step.losses.pieces())
        what = "spare" if found.spares else "link"
        heard = "heard by" if found.spares else "between"
        sample = spare_mark(0, 0, f"S{k}") if found.spares else spare_line(straight(-22, 0, 22, 0))
        rows.add(sample, f"{what} {k}, {heard} units {step.heard_by[0]} and {step.heard_by[1]}: {left}")


def marked_rows(rows, losses, marks):
    """The ring, the lifting order and the doubtful links that were asked for."""
    if marks.ring:
        sample = bold(straight(-22, 0, 22, 0)) + path(straight(-22, 0, 22, 0), "white", 3)
        walk = " - ".join(map(str, (*marks.ring, marks.ring[0])))
        rows.add(sample, f"ring: {walk}", f"ring of {len(marks.ring)} units")
    if marks.order:
        sample = text(0, 5, "1.", f'text-anchor="middle" font-weight="bold" fill="{CURED}"')
        first = ", ".join(map(str, marks.order))
        rows.add(sample, f"lifting order: {first}", f"lifting order, unit {marks.order[0]} first")
    if marks.doubtful:
        links = ", ".join(f"{j} ({losses.site.links[j][0]}-{losses.site.links[j][1]})" for j in marks.doubtful)
        sample = text(0, 5, "?", f'text-anchor="middle" font-weight="bold" fill="{INK}"')
        rows.add(sample, f"doubtful link{plural(marks.doubtful)}: {links}", f"{len(marks.doubtful)} doubtful links")


def legend(losses, before, styles, tags, wide, room, grouped, found, marks=None):
    rows = Rows(wide)
    deaf = deaf_units(losses)
    if deaf:
        rows.add(disc(0, 0, "", "deaf"), f"hears nobody: {listed(deaf)}", f"hears nobody: {len(deaf)} units")
    for tag, part in grouped:
        sample = text(0, 5, tag, f'text-anchor="middle" font-weight="bold" fill="{WEAK}"')
        rows.add(sample, f"separate group: {listed(part)}", f"separate group of {len(part)} units")
    weak_rows(rows, losses, before)
    spare_rows(rows, found)
    if marks:
        marked_rows(rows, losses, marks)
    backed = [[j for j in links if j < len(before.site.links)] for links in losses.backed()]
    backed = [links for links in backed if links]
    most = max(NAMED, int((room - rows.high()) / 40))
    shown = backed if len(backed) <= most else backed[: most - 1]
    for links in shown:
        label = losses.labels[links[0]]
        tag = f"{tags[label]}: " if tags[label] else ""
        units = listed({v for j in links for v in losses.site.links[j]})
        rows.add(
            styled(straight(-22, 0, 22, 0), styles[label]),
            f"{tag}links {listed(links)} back each other up",
            f"{tag}{len(links)} links back each other up, among units {units}",
            f"{tag}{len(links)} links back each other up, the first of them link {links[0]}",
        )
    if len(shown) < len(backed):
        rows.add("", f"and {len(backed) - len(shown)} more sets of links that back each other up")
    return rows.rows or [("", 24, ["no links"])]


def name_rows(names, left, top, wide, what="names:"):
    """Names in columns under the numbers of their units, and where they end."""
    if not names:
        return [], top
    number = max(width_of(str(v), FONT, True) for v in names) + 9
    column = number + max(map(width_of, names.values())) + APART
    columns = max(1, min(len(names), int((wide - 40 + APART) / column)))
    high = -(-len(names) // columns)
    out = [text(left + 20, top + 18, what, f'font-weight="bold" fill="{INK}"')]
    for i, (v, name) in enumerate(sorted(names.items())):
        x, y = left + 20 + column * (i // high), top + 18 + ROW * (1 + i % high)
        bold = f'font-weight="bold" fill="{INK}" text-anchor="end"'
        out.append(f'<g class="listed" data-name="{v}">{text(x + number - 9, y, v, bold)}')
        out.append(text(x + number, y, name, f'class="name" fill="{INK}"') + "</g>")
    return out, top + 18 + ROW * (1 + high)
