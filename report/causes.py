"""The pairs of lines that race, put together by their causes, and the two records that `explain` names of each cause."""
from collections import defaultdict

# At most so many causes are asked for, and fewer in large folders, since each answer takes a pass over all records.
CAUSES, LEAST, RECORDS = 100, 8, 32_000_000


class Refused(Exception):
    """The program ended with this status, and printed this."""

    def __init__(self, status, said):
        super().__init__(said)
        self.status, self.said = status, said


class Cause:
    """Pairs of lines of one array and one barrier interval, each tied to another by a line, or by a line with the same code."""

    def __init__(self, number, pair, said, folder, kernel):
        words = said.split()
        self.number, self.pairs, self.byte = number, [pair], int(words[12])
        found = [folder.record(words[at + 1], int(words[at + 3]), int(words[at])) for at in (2, 7)]
        self.one, self.other = sorted(found, key=lambda it: it.line)
        self.array = kernel.array_of(self.byte)
        self.interval = folder.interval(self.one, self.other)
        self.began = folder.began(self.one.task, self.interval)
        self.touched = {
            line: {kind for kind, site in seen if not kernel.is_known or kernel.site(site).array == self.array}
            for line, seen in folder.seen_in(self.interval).items()
        }

    def takes(self, pair):
        """Whether this pair is of this cause: its lines touch the array in the interval, not both by reads, nor both by updates alone."""
        one, other = (self.touched.get(line, ()) for line in pair)
        return any(len({a, b}) > 1 or a == "write" for a in one for b in other)

    @property
    def lane_numbers(self):
        depth = len(self.interval.above)
        return tuple(it.task.path[depth][1] for it in (self.one, self.other))


class Report:
    """What there is to tell of a folder: its tasks, the pairs that race, their causes, and the pairs that no cause was asked for."""

    def __init__(self, folder, kernel, pairs, ask):
        self.folder, self.kernel, self.pairs, self.causes, self.left = folder, kernel, pairs, [], []
        groups, found, most = groups_of(pairs, kernel), defaultdict(list), max(LEAST, min(CAUSES, RECORDS // folder.records))
        for pair in pairs:
            group = found[groups[pair[0]]]
            cause = next((it for it in group if it.takes(pair)), None)
            if cause:
                cause.pairs.append(pair)
            elif len(self.causes) == most:
                self.left.append(pair)
            else:
                said = told(ask, "explain", folder.place, *pair)
                self.causes.append(Cause(len(self.causes) + 1, pair, said, folder, kernel))
                group.append(self.causes[-1])


def groups_of(pairs, kernel):
    """For each line the least line that it is tied to by pairs and by lines of the same code."""
    codes, least = {}, {}

    def root(line):
        while least.setdefault(line, line) != line:
            line = least[line]
        return line

    for pair in pairs:
        ties = {*map(root, pair), *(root(codes.setdefault(kernel.code(it), it)) for it in pair if kernel.code(it))}
        for it in ties:
            least[it] = min(ties)
    return {line: root(line) for line in list(least)}


def told(ask, *words):
    """What a command prints that finds its folder good."""
    status, said = ask(*words)
    if status > 1:
        raise Refused(status, said)
    return said


def pairs_of(report):
    return [tuple(map(int, it.split()[1:])) for it in report.splitlines()[:-1]]
