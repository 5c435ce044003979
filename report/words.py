"""The sentences of a report, for the page and for the text alike. Code stands in them between backquotes."""
from report import advice

VERBS = {"read": ("reads", "finds"), "write": ("writes", "leaves"), "update": ("updates", "adds")}


def count(number, word):
    return f"{number:,} {word}{'' if number == 1 else 's'}"


def nth(number):
    ends = {1: "st", 2: "nd", 3: "rd"}
    return f"{number:,}{'th' if number % 100 in (11, 12, 13) else ends.get(number % 10, 'th')}"


def summary(report):
    return f"{count(len(report.pairs), 'pair')} of lines {'races' if len(report.pairs) == 1 else 'race'}" if report.pairs else "No races"


def strange(kernel, said):
    return f"This folder is not a run of {kernel}: `replay` prints `{said.strip()}`. So lines and addresses stand below in place of its code."


def lines_words(pair):
    return f"line {pair[0]} in two lanes" if pair[0] == pair[1] else f"lines {pair[0]} and {pair[1]}"


def title(cause, kernel):
    return f"`{kernel.element(cause.byte)}`: {lines_words(cause.pairs[0])}"


def listed(pairs, most):
    return ", ".join(f"{low} {high}" for low, high in pairs[:most]) + (", .." if len(pairs) > most else "")


def more_pairs(cause, most):
    """The further pairs of a cause, or nothing."""
    further = cause.pairs[1:]
    return f"{count(len(further), 'more pair')} of lines alike: {listed(further, most)}" if further else ""


def left_words(report, most):
    told = f"each of which `./sword explain {report.folder.place} L M` tells"
    return f"{count(len(report.left), 'more pair')} of lines, {told}: {listed(report.left, most)}"


def lane_words(task, folder):
    """Where a task stands among the teams, from the innermost one."""
    steps = [f"lane {lane} of {folder.tasks[task.path[:depth]].spans[region]}" for depth, (region, lane) in enumerate(task.path)]
    return " below ".join(reversed(steps)) or "the main task"


def held_words(record, kernel):
    return " and ".join(f"`{kernel.mutex(mutex)}` held since line {line}" for mutex, line in record.held) or "no mutex held"


def access_words(record, folder, kernel):
    """What the expression of one record does."""
    verb, value = VERBS[record.kind]
    size = "" if kernel.is_known else f"{count(record.size, 'byte')} at "
    return (
        f"{verb} {size}`{kernel.element(record.address)}` and {value} {record.value}: {lane_words(record.task, folder)}, "
        f"the {nth(record.turn)} time that it comes here, {held_words(record, kernel)}"
    )


def order_words(cause, folder):
    """Why nothing orders the two."""
    interval, (one, other) = cause.interval, cause.lane_numbers
    above = folder.tasks[interval.above]
    forks = f"line {above.lines[interval.region]} forks" + (f" in {lane_words(above, folder)}" if interval.above else "")
    mutex = "no mutex is held at both" if cause.one.held or cause.other.held else "no mutex is held"
    return (
        f"No fork, join or barrier orders the two: lanes {one} and {other} of the team that {forks}, "
        f"both in its barrier interval {interval.phase + 1}; {mutex}."
    )


def advice_words(cause, kernel):
    return f"A guess how to mend it: {advice.guess(cause, kernel)}"
