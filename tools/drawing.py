"""A surveyed site drawn: every unit and link where that is legible, else the block tree.

`svg_of` gives the text of the drawing. Weak places are drawn last, so that nothing hides them, and no link passes
through a unit that is no end of it.
"""
import functools

import block_drawing
import labels
import layout
import routes
from captions import deaf_units, footer, header, linked_groups
from ink import COLORS, CURED, FONT, HALO, INK, LINES, PAGE, PALE, WEAK, Line, bold, cured, disc, escape, letters, lone
from ink import opened, path, spare_line, spare_mark, styled, text, under
from legend import legend, name_rows
from losses import neighbours_of, parts
from survey_text import LOWEST_LEVEL, Site

NUMBERED = 60  # up to so many links, each shows its position where there is room beside it, a lone one always
SMALL = 60  # up to so many units every unit and link is legible
LARGE = 1.36  # a drawing so many times larger than a page has digits of 1.4 mm on it, as maps have
CROSSED = 0.7  # links that cross more often than this, each, are not
EDGE = 10  # to the left and right of frames
NAMED_WIDE = 900  # a drawing with names is no narrower


def styles_of(losses):
    """A line for each label of more than one link. Up to three sets that meet at a unit differ in their line, and up
    to four in colour: each set is chosen after one that it meets, so all that it must differ from meet at one unit."""
    sets = losses.backed()
    touched = [{v for j in links for v in losses.site.links[j]} for links in sets]
    meeting = {}
    for i, units in enumerate(touched):
        for v in units:
            meeting.setdefault(v, []).append(i)
    chosen = {}
    for start in range(len(sets)):
        ahead = [start] if start not in chosen else []
        for i in ahead:
            if i in chosen:
                continue
            near = sorted({k for v in touched[i] for k in meeting[v]} - {i})
            taken = [chosen[k] for k in near if k in chosen]
            used = list(chosen.values())
            wides = [wide for wide, _ in LINES]
            wide, core = LINES[scarcest(wides, [t.wide for t in taken], [t.wide for t in used])]
            color = COLORS[scarcest(COLORS, [t.color for t in taken], [t.color for t in used])]
            chosen[i] = Line(color, wide, core)
            ahead += [k for k in near if k not in chosen]
    return {losses.labels[links[0]]: chosen[i] for i, links in enumerate(sets)}


def scarcest(looks, taken, used):
    """Which of some looks is taken least, then used least."""
    return min(range(len(looks)), key=lambda n: (taken.count(looks[n]), used.count(looks[n]), n))


def letters_of(losses):
    """A letter for each label of more than one link, where there are several such."""
    backed = losses.backed()
    return {losses.labels[links[0]]: letters(i) if len(backed) > 1 else "" for i, links in enumerate(backed)}


def unit_name(v, names):
    return f"unit {v} ({names[v]})" if names and v in names else f"unit {v}"


def frames_of(plan, units):
    """The frames of groups, which count so many units, spares left out, and of the units that hear nobody."""
    out = []
    for x, y, w, h, part in plan.frames:
        said = f"group of {sum(v < units for v in part)} units"
        frame = f'x="{x:.1f}" y="{y:.1f}" width="{w:.1f}" height="{h:.1f}" rx="12" fill="none"'
        out.append(f'<g class="group"><rect {frame} stroke="{INK}" stroke-width="2.5"/>')
        out.append(text(x + 14, y + 24, said, f'font-weight="bold" fill="{INK}"') + "</g>")
    if plan.deaf:
        x, y, w, h, part = plan.deaf
        frame = f'x="{x:.1f}" y="{y:.1f}" width="{w:.1f}" height="{h:.1f}" rx="12" fill="none"'
        out.append(f'<g class="deaf"><rect {frame} stroke="{WEAK}" stroke-width="4" stroke-dasharray="14 7"/>')
        said = "hears nobody" if len(part) == 1 else "hear nobody"
        out.append(text(x + 14, y + 25, said, f'font-size="{FONT + 1}" font-weight="bold" fill="{WEAK}"') + "</g>")
    return out


def tag_of(losses, j, tags):
    """What stands beside a link: its number, and the letter of its set."""
    if j in losses.link_parts:
        return f"{j}"
    return f"{j} {tags[losses.labels[j]]}".strip()


class Sheet:
    """A drawing of every unit and link: of a site as it is, or with the spares that are proposed for it."""

    def __init__(self, losses, names, before, found, marks=None):
        self.was = losses
        self.losses = losses
        if found and found.steps:
            self.losses, before = found.steps[-1].losses, before or losses
        self.site, self.names, self.found = self.losses.site, names or {}, found
        self.marks = marks
        self.ring = ring_links(marks.ring if marks else ())
        self.turn = {v: k for k, v in enumerate(marks.order if marks else (), 1)}
        self.fresh_links = len(losses.site.links)
        self.plan = plan_of(self.losses, before, bool(names))
        self.styles, self.tags = styles_of(self.losses), letters_of(self.losses)
        self.grouped = grouped_by_tag(self.losses, self.plan)
        self.measure()
        self.ways = routes.routed(self.plan.places, self.site.links, self.plan.rims)
        frames = [frame[:4] for frame in (*self.plan.frames, *([self.plan.deaf] if self.plan.deaf else []))]
        edges = self.left + 3, self.above + 3, self.left + self.wide - 3, self.under - 2
        self.room = labels.Room(self.plan.places, self.ways, edges, frames)
        for x, y, *_ in frames:
            self.room.take((x + 10, y + 6, x + 180, y + 30))

    def measure(self):
        """The edges of the part that units, links and words beside them stand in."""
        xs, ys = ([p[i] for p in self.plan.places.values()] for i in (0, 1))
        more = layout.NAMES if self.names else 0
        self.left, self.above = min(-EDGE, min(xs) - layout.MARGIN - more), min(0, min(ys) - layout.MARGIN - more)
        right = max(self.plan.wide + EDGE, max(xs) + layout.MARGIN + more)
        if self.names and right - self.left < NAMED_WIDE:
            beside = (NAMED_WIDE - right + self.left) / 2
            self.left, right = self.left - beside, right + beside
        self.wide = right - self.left
        self.under = max(self.plan.high, max(ys) + layout.MARGIN) + more

    def is_lone(self, j):
        return j in self.losses.link_parts

    def link(self, j):
        """A link: lone, cured, backed up, or of a spare."""
        a, b = self.site.links[j]
        d = routes.drawn(self.ways[j])
        if j >= self.fresh_links:
            told = "link that is proposed" if not self.found.spares else "link of a spare"
            return f'<g class="spare line"><title>{told}</title>{spare_line(d)}</g>'
        level = f", {self.site.levels[j]} dBm" if self.site.levels[j] > LOWEST_LEVEL else ""
        kind, label = "link", self.losses.labels[j]
        if self.is_lone(j):
            kind, said, ink = "lone link", "lone", lone(d)
        elif j in self.was.link_parts:
            kind, said, ink = "cured link", "lone no more, with the spares", cured(d)
        else:
            thin = 0.5 if len(self.site.links) > 300 else 1
            style = self.styles[label]
            said = f"backed up, set {self.tags[label]}" if self.tags[label] else "backed up"
            ink = styled(d, style._replace(wide=max(0.8, style.wide * thin), core=style.core * thin))
        if frozenset((a, b)) in self.ring:
            kind, said, ink = f"ring {kind}", f"{said}, on the ring", bold(d) + ink
        if self.is_doubtful(j):
            kind, said = f"doubtful {kind}", f"{said}, doubtful"
        hit = path(d, "transparent", 18, None, ' class="hit"')
        return f'<g class="{kind}" data-link="{j}"><title>link {j} ({a}-{b}){level}: {said}</title>{hit}{ink}</g>'

    def is_doubtful(self, j):
        return self.marks is not None and j in self.marks.doubtful

    def links(self):
        """The links, those that are lone last and on white."""
        weak = [j for j in range(len(self.site.links)) if self.is_lone(j)]
        beneath = [under(routes.drawn(self.ways[j])) for j in weak]
        others = [self.link(j) for j in range(len(self.site.links)) if not self.is_lone(j)]
        return others, beneath + [self.link(j) for j in weak]

    def numbers(self, weak):
        """The numbers beside links: of those that are lone, always; of others, where there is room and they are few."""
        out = []
        for j in range(self.fresh_links):
            if self.is_lone(j) != weak or not (weak or len(self.site.links) <= NUMBERED):
                continue
            said = tag_of(self.losses, j, self.tags) + (" ?" if self.is_doubtful(j) else "")
            at = labels.number_place(self.room, self.ways[j], said, weak, weak)
            if at:
                look = f'font-weight="bold" fill="{WEAK}"' if weak else f'fill="{PALE}"'
                out.append(text(at[0], at[1] + FONT * 0.36, said, f'text-anchor="middle" {look} {HALO} data-of="{j}"'))
        return out

    def words_beside(self):
        """What stands beside units, by unit: tags of groups, turns of a lifting order and names; and the turns and
        names that find no room."""
        deaf = set(deaf_units(self.losses))
        loud = {v: tag for tag, part in self.grouped for v in part}
        loud.update({v: "hears nobody" for v in deaf if not self.plan.deaf})
        out, left = {}, {}
        for v, said in sorted(loud.items()):
            placed = labels.name_place(self.room, *self.plan.places[v], said)
            if placed:
                out[v] = written(placed, f'fill="{WEAK}" font-weight="bold"')
        for v, k in self.turn.items():
            placed = labels.name_place(self.room, *self.plan.places[v], f"{k}.")
            if placed:
                out[v] = out.get(v, "") + written(placed, f'class="turn" fill="{CURED}" font-weight="bold"')
            else:
                left[v] = f"lifted as {k}."
        for v in self.in_turn():
            name = self.names[v]
            placed = labels.name_place(self.room, *self.plan.places[v], name)
            if placed:
                out[v] = out.get(v, "") + written(placed, f'class="name" fill="{INK}"')
            else:
                left[v] = f"{name}, {left[v]}" if v in left else name
        return out, left

    def in_turn(self):
        """The units with names: weak ones choose their places first, then those with the most links."""
        weak = self.was.unit_parts.keys() | self.losses.unit_parts.keys()
        crowd = [len(near) for near in neighbours_of(self.site)]
        return sorted(self.names, key=lambda v: (v not in weak, -crowd[v], v))

    def kind_of(self, v, deaf):
        if v in self.losses.unit_parts:
            return "single"
        if v in self.was.unit_parts:
            return "cured"
        return "deaf" if v in deaf else "plain"

    def units(self, beside):
        """The units, and the single points among them apart."""
        deaf = set(deaf_units(self.losses))
        told = {"single": "single point", "deaf": "hears nobody", "plain": "no single point"}
        told["cured"] = "no single point any more, with the spares"
        out = {"plain": [], "deaf": [], "cured": [], "single": []}
        for v in range(self.was.site.units):
            kind = self.kind_of(v, deaf)
            cls = "unit" if kind == "plain" else f"{kind} unit"
            title = f"{escape(unit_name(v, self.names))}: {told[kind]}"
            mark = disc(*self.plan.places[v], v, kind) + beside.get(v, "")
            out[kind].append(f'<g class="{cls}" data-unit="{v}"><title>{title}</title>{mark}</g>')
        return out["plain"] + out["cured"] + out["deaf"], out["single"] + self.spares()

    def spares(self):
        """The spares that are proposed."""
        out = []
        for k, v in enumerate(range(self.was.site.units, self.site.units), 1):
            heard = self.found.steps[k - 1].heard_by
            title = f"spare {k}, heard by units {heard[0]} and {heard[1]}"
            out.append(f'<g class="spare"><title>{title}</title>{spare_mark(*self.plan.places[v], f"S{k}")}</g>')
        return out

    def svg(self, bare, proved):
        """The drawing; bare, without the lines over it."""
        others, weak = self.links()
        weak_numbers = self.numbers(True)
        beside, left_over = self.words_beside()
        units, singles = self.units(beside)
        numbers = self.numbers(False)
        head, top = header(self.was, self.left, self.above, self.wide, proved) if not bare else ([], self.above - 8)
        room = PAGE[1] - self.under + top - 30
        rows = legend(
            self.losses, self.was, self.styles, self.tags, self.wide, room, self.grouped, self.found, self.marks
        )
        foot, bottom = footer(rows, self.left, self.under + 8)
        what = "names and turns:" if self.turn else "names:"
        listed_names, bottom = name_rows(left_over, self.left, bottom, self.wide, what)
        title = f"{self.was.site.units} units, {len(self.was.site.links)} links"
        out = opened(self.left, top, self.wide, bottom - top + 6, title)
        out += head + frames_of(self.plan, self.was.site.units) + others + numbers + weak + units + weak_numbers
        out += singles + foot + listed_names
        return "\n".join(out + ["</svg>"]) + "\n"


def ring_links(ring):
    """The links that a ring holds, by their units."""
    return {frozenset((v, ring[k - 1])) for k, v in enumerate(ring)}


def written(placed, look):
    """The lines of words beside a unit."""
    lines, (x, y), anchor = placed
    anchored = f'text-anchor="{anchor}"' if anchor != "start" else ""
    return "".join(
        text(x, y + labels.LINE * k, said, f"{anchored} {look} {HALO}".strip()) for k, said in enumerate(lines)
    )


def grouped_by_tag(losses, plan):
    """Groups that have no frame of their own, because units kept their places: a tag for each but the largest."""
    groups = linked_groups(losses)
    if len(groups) < 2 or plan.frames:
        return []
    return [(f"G{k}", part) for k, part in enumerate(groups[1:], 2)]


@functools.lru_cache(maxsize=8)
def laid_out(units, links, named):
    """The layout of a site, kept for the kinds of drawing that ask for it."""
    site = Site(units, links, ())
    near = neighbours_of(site)
    return layout.laid_out(near, parts(near), named)


def plan_of(losses, before, named=False):
    old = (before or losses).site
    plan = laid_out(old.units, tuple(old.links), named)
    return plan if before is None else layout.kept(plan, neighbours_of(losses.site), losses.groups, named)


def full_svg(losses, names=None, before=None, bare=False, found=None, proved=True, marks=None):
    """Every unit and link; bare, without the lines over them."""
    return Sheet(losses, names, before, found, marks).svg(bare, proved)


def is_full(losses, named=False):
    """Whether every unit and link is drawn, and not the block tree: where that is legible on a page, or no less so
    than the tree is."""
    if losses.site.units <= SMALL:
        return True
    large = layout.largeness(neighbours_of(losses.site), losses.groups)
    if large > LARGE and large > block_drawing.largeness(losses):
        return False
    return layout.crossings(plan_of(losses, None, named).places, losses.site.links) <= CROSSED * len(losses.site.links)


def svg_of(losses, names=None, before=None, full=False, found=None, proved=True, marks=None):
    """The drawing of a site. With the site before, units that were there keep their places. What is marked, a ring, a
    lifting order or doubtful links, needs every unit and link."""
    if full or (marks and any(marks)) or is_full(losses, bool(names)):
        return full_svg(losses, names, before, False, found, proved, marks)
    return block_drawing.svg_of(losses, names, False, found, proved)
