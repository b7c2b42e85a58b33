"""The report: figures as tables for people, as CSV and as JSON."""

import csv
import io
import json

from .formats import QUEUE_FULL, RANKS, REFUSALS
from .tables import aligned, grouped
from .walks import longest_from
from .words import counted

# The table's columns, and the groups that they stand in.
GROUPS = (
    *(("", 1), ("offers", 2), ("", 1), ("waits in cycles", 4), ("turns", 2), ("home turns", 2)),
    *(("dead times", 1), ("activates", 3), ("turns in a whole epoch", 4), ("walks from it", 2)),
)
HEAD = (
    *("class", "taken", "refused %d" % QUEUE_FULL, "answers", "mean", "median", "95th", "longest", "owned", "idle", "started", "owned"),
    *("dropped", "all", "passing", "past one", "least", "most", "minimum", "cap", "longest", "bound"),
)
# Those that stand behind them where the policy has four ranks.
RANK_GROUPS = (("activates on rank", RANKS),)
RANK_HEAD = tuple(map(str, range(RANKS)))
CSV_HEAD = (
    "folder",
    "class",
    "name",
    "offers_taken",
    "offers_refused_%d" % QUEUE_FULL,
    "answers",
    "wait_sum",
    "wait_mean",
    "wait_median",
    "wait_95th",
    "wait_longest",
    "turns_owned",
    "turns_idle",
    "home_turns_started",
    "home_turns_owned",
    "dead_times_dropped",
    "activates",
    "activates_passing",
    "activates_past_one",
    "whole_epochs",
    "epoch_turns_least",
    "epoch_turns_most",
    "minimum",
    "cap",
    "walk_longest",
    "walk_bound",
)
RANK_CSV_HEAD = tuple("activates_rank_%d" % rank for rank in range(RANKS))


def _shown(value, form="%d"):
    """A number that there may be none of."""
    return "-" if value is None else form % value


def _extremes(figures, number):
    """The least and the most turns of a class in a whole epoch; None where there is none."""
    turns = figures.turns_in_epochs(number)
    return (min(turns), max(turns)) if turns else (None, None)


def _row(figures, names, number):
    service, policy = figures.services[number], figures.policy
    least, most = _extremes(figures, number)
    return (
        names.of(number),
        service.taken,
        service.full,
        service.answers,
        _shown(service.mean, "%.2f"),
        _shown(service.median),
        _shown(service.nearest_rank(95)),
        _shown(service.longest),
        service.turns,
        service.idle,
        service.homes,
        service.homes_owned,
        service.elided,
        service.activates,
        service.passing,
        service.past_one,
        _shown(least),
        _shown(most),
        policy.minimums[number],
        policy.cap(number),
        _shown(service.longest_walk),
        figures.bounds[number],
        *(service.on_ranks if policy.ranks > 1 else ()),
    )


def _bound(figures):
    """How many classes a walk may try, whatever class of those at which turns start it starts at."""
    return figures.bounds[longest_from(figures.policy, figures.bounds)]


def _run_lines(figures, name):
    """What is said of a whole run."""
    epochs = "%s of %s" % (counted(figures.epochs, "whole epoch"), counted(figures.policy.epoch, "turn"))
    lines = ["%s: %s, %s, %s" % (name, counted(figures.ticks, "cycle"), counted(figures.turns, "turn"), epochs)]
    if figures.ticks:
        wires = "command wires busy in %d of %s (%.1f %%)" % (figures.busy, counted(figures.ticks, "cycle"), figures.busy_percent)
        lines.append("%s: %s, %s" % (wires, counted(figures.activates, "activate"), counted(figures.columns, "column command")))
        if figures.policy.ranks > 1:
            lines.append("on another rank than the one before: %d of %s" % (figures.rank_changes, counted(figures.activates, "activate")))
        walks = ", ".join("%s: %d" % (counted(tried, "class", "classes"), count) for tried, count in sorted(figures.walks.items()))
        lines.append("walks that tried %s; none may try more than %d" % (walks, _bound(figures)))
    for status, count in sorted(figures.refusals.items()):
        lines.append("refused with %d: %s (%s)" % (status, counted(count, "call"), REFUSALS[status].when))
    return lines


def _epoch_lines(figures, names):
    """Every epoch's turns, class by class, below caps and minimums."""
    classes, epoch = figures.policy.classes, figures.policy.epoch
    rows = [["epoch", *(names.of(number) for number in range(classes))]]
    rows += [["minimum", *figures.policy.minimums], ["cap", *(figures.policy.cap(number) for number in range(classes))]]
    rows += [[number, *figures.whole[number * classes : (number + 1) * classes]] for number in range(figures.epochs)]
    if figures.part:
        rows.append(["%d, %d of %s" % (figures.epochs, sum(figures.part), counted(epoch, "turn")), *figures.part])
    return aligned(rows)


def text_of(figures, names, name, epochs=False):
    """A run's figures as a table."""
    lines = _run_lines(figures, name)
    groups, head = (GROUPS + RANK_GROUPS, HEAD + RANK_HEAD) if figures.policy.ranks > 1 else (GROUPS, HEAD)
    lines += ["", *grouped(groups, [head, *(_row(figures, names, number) for number in range(figures.policy.classes))])]
    if epochs:
        lines += ["", "turns owned in each epoch", *_epoch_lines(figures, names)]
    return "\n".join(lines) + "\n"


def csv_of(reported):
    """One row for each folder and class; `reported` has a folder's name, its figures and its classes' names. If a policy has four ranks, all rows have columns for them; where there
    is one rank, those of the others are empty."""
    out = io.StringIO()
    writer = csv.writer(out, lineterminator="\n")
    columns = RANKS if any(figures.policy.ranks > 1 for _, figures, _ in reported) else 0
    writer.writerow(CSV_HEAD + RANK_CSV_HEAD[:columns])
    for name, figures, names in reported:
        for number, service in enumerate(figures.services):
            mean = None if service.mean is None else "%.3f" % service.mean
            waits = [service.waited, mean, service.median, service.nearest_rank(95), service.longest]
            turns = [service.turns, service.idle, service.homes, service.homes_owned, service.elided]
            activates = [service.activates, service.passing, service.past_one]
            epochs = [figures.epochs, *_extremes(figures, number), figures.policy.minimums[number], figures.policy.cap(number)]
            walks = [service.longest_walk, figures.bounds[number]]
            ranks = [service.on_ranks[rank] if rank < figures.policy.ranks else None for rank in range(columns)]
            writer.writerow([name, number, names.of(number), service.taken, service.full, service.answers, *waits, *turns, *activates, *epochs, *walks, *ranks])
    return out.getvalue()


def _walks_value(walks, bound):
    return {"tried": {str(tried): count for tried, count in sorted(walks.items())}, "longest": max(walks, default=None), "bound": bound}


def _class_value(figures, names, number, epochs):
    service = figures.services[number]
    least, most = _extremes(figures, number)
    whole = {"minimum": figures.policy.minimums[number], "cap": figures.policy.cap(number), "least": least, "most": most}
    if epochs:
        whole["each"] = list(figures.turns_in_epochs(number))
    ranks = {"activates_on_ranks": service.on_ranks} if figures.policy.ranks > 1 else {}
    return {
        "class": number,
        "name": names.of(number),
        "offers": {"taken": service.taken, "refused_%d" % QUEUE_FULL: service.full},
        "answers": service.answers,
        "waits": {"sum": service.waited, "mean": service.mean, "median": service.median, "95th": service.nearest_rank(95), "longest": service.longest},
        "turns": {"owned": service.turns, "idle": service.idle, "dead_times_dropped": service.elided},
        "home_turns": {"started": service.homes, "owned": service.homes_owned},
        "activates": service.activates,
        "passing": {"activates": service.passing, "past_one": service.past_one},
        "whole_epochs": whole,
        "walks": _walks_value(service.walks, figures.bounds[number]),
        **ranks,
    }


def _run_value(figures, names, epochs):
    ranks = {"rank_changes": figures.rank_changes} if figures.policy.ranks > 1 else {}
    return {
        "ticks": figures.ticks,
        "turns": figures.turns,
        "whole_epochs": figures.epochs,
        "turns_in_an_epoch": figures.policy.epoch,
        "command_wires": {"busy": figures.busy, "busy_percent": figures.busy_percent, "activates": figures.activates, "columns": figures.columns},
        **ranks,
        "walks": _walks_value(figures.walks, _bound(figures)),
        "refusals": {str(status): count for status, count in sorted(figures.refusals.items())},
        "classes": [_class_value(figures, names, number, epochs) for number in range(figures.policy.classes)],
    }


def json_of(reported, together, epochs=False):
    """The same as JSON: each folder, and, where they have one policy, all of them together."""
    folders = [{"folder": name, **_run_value(figures, names, epochs)} for name, figures, names in reported]
    value = {"folders": folders, "all": None if together is None else _run_value(together, reported[0][2], False)}
    return json.dumps(value, indent=2) + "\n"
