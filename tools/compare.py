"""Two reports beside each other, field by field, and whether both can be surveys of one table: what a fitter asks of
sets of different years."""
from losses import contradictions, counted, listed, named
from reports import along, impossible
from survey_text import ABSENT, REFUSALS
from words import LOUD, held_names

MANY = 12  # so many units, links and faults are told one by one
BY_LINKS = "groups", "labels", "lone links", "single points"  # what follows from the links alone


def some_of(said):
    return "; ".join(said[:MANY]) + (f"; and {len(said) - MANY} more" if len(said) > MANY else "")


def parent_name(parent, names):
    return "none" if parent == ABSENT else named(parent, names)


def unit_field(a, b, field, what, names):
    """What differs in a field of the lines of units."""
    say = parent_name if field == "parent" else lambda number, _: str(number)
    said = []
    for v, lines in enumerate(zip(a.units, b.units)):
        one, two = (getattr(line, field) for line in lines)
        if one != two:
            said.append(f"unit {named(v, names)}: {say(one, names)} in A, {say(two, names)} in B")
    return said and f"{what} of {counted(len(said), 'unit')} differ: {some_of(said)}"


def label_field(a, b):
    pairs = enumerate(zip(a.links, b.links))
    said = [f"link {j}: {one.label} in A, {two.label} in B" for j, (one, two) in pairs if one.label != two.label]
    return said and f"labels of {counted(len(said), 'link')} differ: {some_of(said)}"


def marks_field(one, two, what, names):
    """What differs in single points or lone links."""
    found = (one - two, "A"), (two - one, "B")
    said = [f"{listed(numbers, names, MANY)} in {which} alone" for numbers, which in found if numbers]
    return said and f"{what}: {'; '.join(said)}"


def fields(a, b, names):
    """Each field of two reports of as many units and links: its name, and in words what differs, or nothing."""
    yield "rounds", a.rounds != b.rounds and f"rounds: {a.rounds} in A, {b.rounds} in B"
    yield "requests", a.requests != b.requests and f"ranking requests: {a.requests} in A, {b.requests} in B"
    yield "parents", unit_field(a, b, "parent", "parents", names)
    yield "places", unit_field(a, b, "place", "places", names)
    yield "groups", unit_field(a, b, "color", "colours", names)
    yield "labels", label_field(a, b)
    lone = [{j for j, line in enumerate(report.links) if line.lone} for report in (a, b)]
    yield "lone links", marks_field(*lone, "lone links", None)
    single = [{v for v, line in enumerate(report.units) if line.single} for report in (a, b)]
    yield "single points", marks_field(*single, "single points", names)


def size_of(report):
    return f"{counted(len(report.units), 'unit')} and {counted(len(report.links), 'link')}"


def ways_of(report):
    """The links that the tree of a report goes along."""
    return {frozenset((v, line.parent)) for v, line in enumerate(report.units) if line.parent != ABSENT}


def apart(a, b, other):
    """Why two reports cannot be of one table, in words; `other` has the fields that differ."""
    by_links = [what for what in BY_LINKS if what in other]
    if by_links:
        said = ", ".join(by_links[:-1]) + (" and " if len(by_links) > 1 else "") + by_links[-1]
        return f"{said} differ, which follow from the links alone"
    ways = len(ways_of(a) | ways_of(b))
    return f"their parents go along {ways} links, more than either has" if ways > len(a.links) else None


def side_by_side(a, b, names):
    """The lines for each field of two reports, and last why they cannot be of one table, or None."""
    if size_of(a) != size_of(b):
        return [], f"A has {size_of(a)}, B has {size_of(b)}"
    found = list(fields(a, b, names))
    other = {what: said for what, said in found if said}
    if not other:
        return [f"both have {size_of(a)}; every field is the same"], None
    same = [what for what, said in found if not said]
    first = f"both have {size_of(a)}" + (f"; the same in both: {', '.join(same)}" if same else "")
    return [first, *other.values()], apart(a, b, other)


def faults_of(report, losses):
    """What is wrong with a report: by itself, or beside the table that it should be of."""
    if losses is None:
        return list(impossible(report))
    site = losses.site
    if (len(report.units), len(report.links)) != (site.units, len(site.links)):
        table = f"{counted(site.units, 'unit')} and {counted(len(site.links), 'link')}"
        return [f"it has {size_of(report)}, the table {table}"]
    return list(contradictions(losses, report)) or along(losses, report)[1]


def verdicts(reports, apart_by, losses, path):
    """Whether two reports are surveys, and of one table."""
    if apart_by:
        yield f"{LOUD}not surveys of one table: {apart_by}"
    wrong = {which: faults_of(report, losses) for which, report in zip("AB", reports)}
    for which, faults in wrong.items():
        if faults:
            yield f"{LOUD}{which} is no survey of {path or 'any table'}: {some_of(faults)}"
    if any(wrong.values()) or apart_by:
        return
    if losses is not None:
        trees = [along(losses, report)[0] for report in reports]
        ways = f"both along {trees[0]}" if trees[0] == trees[1] else f"A along {trees[0]}, B along {trees[1]}"
        yield f"both are surveys of {path}, {ways}"
    elif reports[0] != reports[1]:
        yield (
            "both can be surveys of one table: all that follows from the links alone is the same; the rest follows "
            "from the tree, and that from the levels, the year of the set and what the planner drew"
        )


def compared_reports(paths, reports, names=None, losses=None, table=None):
    """The lines for two reports, each beside the table where one is given."""
    yield f"A: {paths[0]}; B: {paths[1]}"
    refused = [which for which, report in zip("AB", reports) if isinstance(report, int)]
    for which, report in zip("AB", reports):
        if which in refused:
            yield f"{which} is no report but a refusal, number {report}: {REFUSALS[report]}"
    if not refused:
        lines, apart_by = side_by_side(*reports, held_names(names))
        yield from lines
        yield from verdicts(reports, apart_by, losses, table)
