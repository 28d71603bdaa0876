"""A table as it is changed, and a survey along a tree that the planner drew: each made by the program link_ask where it
is built, and held to what is worked out from the table."""
from asking import Refused, asked, worked_out
from files import within
from judge import judged_report
from losses import Losses, named, units_of
from naming import Names, level_or_none, parents_of
from replay import Replay, plan_faults
from reports import unlike
from survey_text import ABSENT, LINK_WITH_LEVEL, REFUSALS, Fault
from words import LOUD
from working import changed_table, refused


def changed_site(given, site, changes, asker, tell):
    """The table with links added and withdrawn; `tell` gets what a handset says to it."""
    says = Names(site, given.names)
    steps = [step for kind, said in changes for step in says.change(kind, said)]
    right = worked_out(changed_table, site, steps)
    alone = [] if isinstance(right, Refused) else Losses(right).alone()
    words = []
    for kind, a, b, level in steps:
        words += [kind, a, b, *([level_or_none(level)] if kind == "add" else [])]
    # what is written has kind 03 alone, and a table in which a unit has no link is not written
    written = right
    if not isinstance(right, Refused):
        written = Refused(22) if alone else right._replace(kinds=[LINK_WITH_LEVEL] * len(right.links))
    asked(asker, words, given.data, written)
    if isinstance(right, Refused):
        kind, a, b, _ = steps[right.at - 1]
        link = f"{named(a, given.names)} and {named(b, given.names)}"
        raise Fault(
            f"change {right.at} of {len(steps)}, to {kind} a link between units {link}, is refused with number "
            f"{right.number}: {REFUSALS[right.number]}",
            right.number,
        )
    if alone:
        tell(f"{LOUD}no link ends at {units_of(alone, given.names)}: a handset will not store the changed table (22)")
    return right


def along_plan(losses, given, path, data, asker):
    """The report of a survey along the tree in a file."""
    site = losses.site
    parents = within(path, lambda data: parents_of(data, Names(site, given.names)), data)
    right = worked_out(planned_report, losses, parents)
    words = ["plan", *("none" if parent == ABSENT else parent for parent in parents)]
    report = asked(asker, words, given.data, right, lambda report: "; ".join(unlike(report, Replay(losses, parents))))
    if not isinstance(report, Refused):
        judged_report(losses, path, report)
        return report
    told = f"the survey refused the drawn tree with number {report.number}: {REFUSALS[report.number]}"
    if report.number == 22:
        raise Fault(f"{given.path}: no link ends at {units_of(losses.alone(), given.names)}\n{told}", 22)
    wrong = plan_faults(site, losses.groups, parents, given.names)
    faults = [f"{path}: unit {named(v, given.names)} {why}" for v, why in wrong]
    raise Fault("\n".join([*faults[:5], told]), report.number)


def planned_report(losses, parents):
    if list(plan_faults(losses.site, losses.groups, parents)):
        raise refused(18)
    if losses.alone():
        raise refused(22)
    return Replay(losses, parents).report()
