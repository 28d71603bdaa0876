"""Questions put to a site, and their answers in words: rings, lifting orders, doubtful links, one-way links, handsets'
lines, and several sites on one channel."""
from collections import namedtuple

from asking import Refused, asked, asked_of_sites, worked_out
from losses import counted, named, units_of
from replay import STAGES, Replay
from survey_text import REFUSALS, line_of
from words import LISTED, WORST, held_names, in_short, link_name, listed_links
from working import ALWAYS, NEVER, PERHAPS, Doubts, has_ring, in_the_way, one_way_of, order_fault, order_of, ring_fault
from working import ring_of, ticks_of, verdict_of

# an answer: its lines, what it is for other programs, whether it is the one that was hoped for, and what is drawn of it
Answer = namedtuple("Answer", "lines data good ring order doubtful", defaults=((), (), ()))
# what is drawn of the answers: a ring's units, a lifting order, and the positions of doubtful links
Marks = namedtuple("Marks", "ring order doubtful", defaults=((), (), ()))


def marks_of(answers):
    """What is drawn of some answers: of each kind, the first that there is."""
    found = ([getattr(each, kind) for each in answers if getattr(each, kind)] for kind in Marks._fields)
    return Marks(*(each[0] if each else () for each in found))


class Asker:
    """A site and the program that is asked about it, None where it is not built."""

    def __init__(self, losses, given, says, program):
        self.losses, self.site, self.given, self.says, self.program = losses, losses.site, given, says, program
        self.names = held_names(given.names)

    def ask(self, words, right, fault_of=None):
        return asked(self.program, words, self.given.data, right, fault_of)

    def link(self, j):
        return link_name(j, self.site.links[j], self.names)

    def links(self, i, j):
        return self.link(i) if i == j else f"{self.link(i)} and {self.link(j)}"

    # ---- rings, and doubtful links

    def two_links(self, said):
        """One link or two, as they were said."""
        found = [self.says.link(word) for word in said]
        return found[0], found[-1]

    def ring(self, said):
        i, j = self.two_links(said)
        right = ring_of(self.site, i, j)
        assert bool(right) == has_ring(self.losses, i, j)
        units = self.ask(["ring", i, j], right, lambda units: ring_fault(self.site, i, j, units))
        data = {"ring": {"links": [i, j], "units": units}}
        if not units:
            why = "it is lone" if i == j else "they do not back each other up"
            return Answer([f"no ring holds {self.links(i, j)}: {why}"], data, False)
        walk = ", ".join(named(v, self.names) for v in units)
        first = f"a ring of {len(units)} units holds {self.links(i, j)}"
        return Answer([first, f"  walk units {walk}, and back to the first"], data, True, units)

    def marks(self, said):
        return sorted({self.says.link(word) for word in said})

    def verdict(self, ring, doubtful):
        """Whether two links back each other up whatever becomes of the doubtful ones."""
        (i, j), marks = self.two_links(ring), self.marks(doubtful)
        verdict = self.ask(["doubtful", i, j, *marks], verdict_of(self.losses, i, j, marks))
        does = f"{self.link(i)} is backed up" if i == j else f"{self.links(i, j)} back each other up"
        told = {
            ALWAYS: "always: whatever is in the way, a ring holds " + ("it" if i == j else "both"),
            PERHAPS: "perhaps: that hangs on what is in the way",
            NEVER: "never: not even where nothing is in the way",
        }
        lines = [self.doubtful_line(marks), f"{does} {told[verdict]}"]
        data = {"doubtful": {"links": [i, j], "marks": marks, "verdict": verdict}}
        return Answer(lines, data, verdict == ALWAYS, (), (), marks)

    def doubtful_line(self, marks):
        may = "it may" if len(marks) == 1 else "any of them may"
        return f"doubtful: {listed_links(marks, self.site, self.names)}: {may} be gone"

    def doubts(self, doubtful, survey):
        """What becomes of the weak places; `survey` surveys the table without the doubtful links."""
        marks = self.marks(doubtful)
        found = Doubts(self.losses, marks)
        survey(found.sure.site)
        self.ask_of_doubts(found)
        weak = {
            when: {"units": having(found.units, when), "links": having(found.links, when)} for when in (ALWAYS, PERHAPS)
        }
        now = [v for v in weak[PERHAPS]["units"] if v in self.losses.unit_parts]
        more = [v for v in weak[PERHAPS]["units"] if v not in now]
        gone = "it is gone" if len(marks) == 1 else "some of them are gone"
        lines = [self.doubtful_line(marks)]
        for said, units, links in [
            ("weak whatever is gone", *weak[ALWAYS].values()),
            (f"weak now, though not where {gone}", now, []),
            (f"weak where {gone}", more, weak[PERHAPS]["links"]),
        ]:
            if units or links:
                places = [place(v, None) for v in units] + [place(j, self.site.links[j]) for j in links]
                lines.append(f"{said}: {in_short(places, self.names, LISTED)}")
        if not more and not weak[PERHAPS]["links"]:
            lines.append("nothing more becomes weak, whatever is gone")
        if len(found.sure.groups) > len(self.losses.groups):
            lines.append(f"with {'it' if len(marks) == 1 else 'all of them'} gone {self.cut_off(found.sure)}")
        good = not any(units for kinds in weak.values() for units in kinds.values())
        return Answer(lines, {"doubtful": {"marks": marks, **weak}}, good, (), (), marks)

    def ask_of_doubts(self, found):
        """The program's word on what is told: of a link that it is backed up not always, or never; of a unit, by two of
        its links, that no ring need hold both while they are there."""
        if self.program is None:
            return
        weak = [(j, when) for j, when in found.links.items() if when != NEVER]
        for j, when in weak[:WORST]:
            self.ask(["doubtful", j, j, *found.marks], NEVER if when == ALWAYS else PERHAPS)
        for v in [v for v, when in found.units.items() if when != NEVER][:WORST]:
            i, j = found.witness(v)
            others = [k for k in found.marks if k not in (i, j)]
            self.ask(["doubtful", i, j, *others], verdict_of(self.losses, i, j, others))

    def cut_off(self, sure):
        """The groups that fall off the largest."""
        alone, pieces = sure.alone(), sure.pieces()
        said = [f"{units_of(alone, self.names, LISTED)} hear{'s' if len(alone) == 1 else ''} nobody"] if alone else []
        if len(pieces) > 1:
            said.append(f"{counted(len(pieces), 'group')} are apart: "
                        + "; ".join(units_of(part, self.names, LISTED) for part in pieces[1:]) + " from the largest")
        return " and ".join(said)

    # ---- lifting order

    def lift(self, said):
        pairs = self.says.pairs(said)
        right = worked_out(order_of, self.site, pairs)
        words = ["lift", *(v for pair in pairs for v in pair)]
        order = self.ask(words, right, lambda order: order_fault(self.site, pairs, order) or unlike(order, right))
        data = {"pairs": [list(pair) for pair in pairs], "order": None if isinstance(order, Refused) else order}
        if isinstance(order, Refused):
            return Answer(list(self.no_order(order, pairs)), {"lift": data}, False)
        wide = len(str(len(order)))
        lines = ["lifting order: what still stands keeps its signal to unit 0, which goes last"]
        lines += [f"  kept: {', '.join(self.pair(pair) for pair in pairs)}"] if pairs else []
        lines += [f"  {k:>{wide}}  unit {named(v, self.names)}" for k, v in enumerate(order, 1)]
        return Answer(lines, {"lift": data}, True, (), order)

    def pair(self, pair):
        return f"{named(pair[0], self.names)} before {named(pair[1], self.names)}"

    def no_order(self, refused, pairs):
        yield f"refused with number {refused.number}: {REFUSALS[refused.number]}"
        if refused.number == 20:
            apart, unkept = in_the_way(self.site, pairs)
            if apart:
                yield f"  {units_of(apart, self.names, LISTED)} cannot reach unit 0 as it is"
            elif unkept:
                many = "these pairs" if len(unkept) > 1 else "this pair"
                yield f"  without {many} there is one: {', '.join(self.pair(pair) for pair in unkept[:LISTED])}"

    # ---- the handsets' lines

    def handsets(self):
        """What both handsets show, after the load and after each round."""
        right, lines = [], ["round stage                countdown  foreman's     service's"]
        statuses = list(Replay(self.losses).statuses())
        for status in statuses:
            short = status.stage, *divmod(status.countdown, 256)
            long = *short, *divmod(status.rounds, 256), *divmod(status.requests, 256)
            right += [line_of(0x20, *short).decode().strip(), line_of(0x21, *long).decode().strip()]
        shown = self.ask(["lines"], right)
        for status, short, long in zip(statuses, shown[::2], shown[1::2]):
            stage = f"{status.stage} {STAGES[status.stage - 1]}"
            lines.append(f"{status.rounds:>5} {stage:<22}{status.countdown:>8}  {short}    {long}")
        return Answer(lines, {"lines": shown}, True)


def one_way_told(program, site, given):
    """Which units reach each other where each link goes one way."""
    names = held_names(given.names)
    numbers, passes = asked(program, ["one-way"], given.data, one_way_of(site))
    groups = {}
    for v, number in enumerate(numbers):
        groups.setdefault(number, []).append(v)
    both = [group for group in groups.values() if len(group) > 1]
    alone = [group[0] for group in groups.values() if len(group) == 1]
    size = f"{counted(site.units, 'unit')}, {counted(len(site.links), 'one-way link')}"
    lines = [f"{size}, from the first unit of each to the second: {counted(len(groups), 'group')}"]
    lines += [f"  {units_of(group, names)}: each reaches each other" for group in both]
    if alone:
        lines.append(f"  {units_of(alone, names)}: {'each ' if len(alone) > 1 else ''}alone, by no way there and back")
    lines.append(f"numbered in {passes} pass{'' if passes == 1 else 'es'}")
    return Answer(lines, {}, len(groups) == 1)


def having(found, when):
    return [k for k, its in found.items() if its == when]


def place(number, ends):
    """A weak place as its name wants it."""
    return namedtuple("Place", "number ends")(number, ends)


def unlike(order, right):
    return None if order == right else f"the order is fixed: it is {' '.join(map(str, right))}"


def sites_told(program, sites, paths, full):
    """The lines of several sites on one channel: when each is finished, or every tick."""
    ticks = asked_of_sites(program, [losses.site for losses in sites], list(ticks_of([each.site for each in sites])))
    yield f"{counted(len(sites), 'site')} on one channel, a round each in turn: {counted(len(ticks), 'tick')} in all"
    if full:
        for tick, (seat, stage, countdown) in enumerate(ticks, 1):
            yield f"  tick {tick}: seat {seat}, stage {stage} ({STAGES[stage - 1]}), countdown {countdown}"
    for seat, (losses, path) in enumerate(zip(sites, paths)):
        own = [tick for tick, (served, *_) in enumerate(ticks, 1) if served == seat]
        weak = f"{counted(len(losses.unit_parts), 'single point')}, {counted(len(losses.link_parts), 'lone link')}"
        yield f"  seat {seat}: {path}: finished at tick {own[-1]}, after {counted(len(own), 'round')}: {weak}"
