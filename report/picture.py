"""The run as a picture: tasks as lines from left to right, forks and joins between them, barriers as strokes across a team."""
import html
from report import words
from report.folder import Stretch

# What is drawn of a team, of a task and in all, besides what holds a record that races.
LANES, PHASES, REGIONS, BOXES = 8, 8, 4, 600
# The width of the whole, of the names at its left for each level of regions, of a stretch at least, and of what isn't drawn.
WIDTH, NAME, UNIT, LEFT_OUT = 1100, 100, 34, 44
# The height of a task, of the numbers above a team and of the lines below it; how far a fork leans, and how wide a barrier is.
ROW, ABOVE, BELOW, LEAN, BAR = 26, 26, 16, 14, 6
# From this width on a barrier interval is called so, and not by its number alone; and how wide a letter is.
WIDE, LETTER = 64, 6.5


def across(said):
    """How wide these words are, with some room."""
    return int(LETTER * len(said)) + 8


class Item:
    """A stretch, a team, or what is left out there: how wide and how high it is below its task's line."""

    def __init__(self, kind, width, height, what, at=0):
        self.kind, self.width, self.height, self.what, self.at = kind, width, height, what, at


def left_out(number):
    return [Item("left", max(LEFT_OUT, across(f"+{number:,}")), 0, number)] if number else []


class Column:
    """A barrier interval of a team with the items of each lane, or a gap of so many intervals; and the line of the barrier that ends it."""

    def __init__(self, number, gap, cells, lines):
        self.number, self.gap, self.cells = number, gap, cells
        self.line = lines[number + max(gap, 1) - 1] if number + max(gap, 1) <= len(lines) else ""

    def width(self, unit):
        least = max(across(str(self.line)), across(f"+{self.gap:,}") if self.gap else 0)
        return max([least, LEFT_OUT if self.gap else 2 * unit // 3, *(sum(it.width for it in cell) for cell in self.cells)])


class Team:
    def __init__(self, lanes, columns, hidden):
        self.lanes, self.columns, self.hidden = lanes, columns, hidden
        cells = zip(*(it.cells for it in columns if not it.gap))
        self.heights = [ROW + max([0, *(it.height for cell in lane for it in cell)]) for lane in cells]

    def width(self, unit):
        return sum(it.width(unit) for it in self.columns) + BAR * (len(self.columns) - 1) + 2 * LEAN

    def height(self):
        return ABOVE + sum(self.heights) + ROW * (self.hidden > 0) + BELOW


class Plan:
    """What is drawn, and how wide it is if a stretch has this width."""

    def __init__(self, folder, marks, unit):
        self.tasks, self.marks, self.unit, self.boxes = folder.tasks, marks, unit, 0
        self.kept = {path[:depth] for path, _, _ in marks for depth in range(len(path) + 1)}
        self.items = self.phase(self.tasks[()], 0)
        self.width = sum(it.width for it in self.items)

    def lanes(self, task, region):
        """The lanes of a team that are drawn."""
        paths = [(*task.path, (region, lane)) for lane in range(task.spans[region])]
        room = LANES - sum(it in self.kept for it in paths)
        others = [it for it in paths if it not in self.kept][: max(room, 0)]
        return [self.tasks[it] for it in paths if it in self.kept or it in others]

    def columns(self, lanes):
        """The barrier intervals of a team that are drawn, all of them or some."""
        total, depth, paths = len(lanes[0].phases), len(lanes[0].path), {it.path for it in lanes}
        kept = {phase for path, phase, _ in self.marks if path in paths}
        kept |= {self.tasks[path[:depth]].forked[path[depth][0]] for path in self.kept if len(path) > depth and path[:depth] in paths}
        columns, before, lines = [], 0, lanes[0].barriers
        for phase in sorted(kept | set(range(min(total, PHASES))))[: 2 * PHASES]:
            if phase > before:
                columns.append(Column(before, phase - before, [], lines))
            columns.append(Column(phase, 0, [self.phase(it, phase) for it in lanes], lines))
            before = phase + 1
        return columns + ([Column(before, total - before, [], lines)] if total > before else [])

    def phase(self, task, phase):
        """The items of one barrier interval of a task; those left out are counted."""
        items, left, room = [], 0, REGIONS
        for at, it in enumerate(task.phases[phase]):
            is_team = not isinstance(it, Stretch)
            is_kept = (task.path, phase, at) in self.marks or is_team and any((*task.path, (it, lane)) in self.kept for lane in range(task.spans[it]))
            room -= is_team and not is_kept
            if is_kept or room >= 0 and self.boxes < BOXES:
                items += left_out(left) + [self.item(task, it, at)]
                self.boxes, left = self.boxes + 1, 0
            else:
                left += 1
        return items + left_out(left)

    def item(self, task, it, at):
        if isinstance(it, Stretch):
            return Item("stretch", self.unit, 0, it, at)
        lanes = self.lanes(task, it)
        team = Team(lanes, self.columns(lanes), task.spans[it] - len(lanes))
        return Item("team", max(team.width(self.unit), across(f"line {task.lines[it]}")), team.height(), (it, team), at)


class Picture:
    def __init__(self, report):
        self.folder, self.parts, self.names, self.marks = report.folder, [], {}, {}
        for cause in report.causes:
            for it in (cause.one, cause.other):
                self.marks.setdefault((it.task.path, it.phase, it.item), []).append((cause, it))
        self.left = NAME * max(1, *map(len, self.folder.tasks))
        self.plan = self.fitting()

    def fitting(self):
        """A plan that fills the width, if its least one is narrower."""
        room, plan = WIDTH - self.left - LEAN, Plan(self.folder, self.marks, UNIT)
        more = Plan(self.folder, self.marks, 2 * UNIT).width - plan.width
        return plan if plan.width >= room or more <= 0 else Plan(self.folder, self.marks, UNIT + (room - plan.width) * UNIT // more)

    def svg(self):
        width = max(WIDTH, self.left + self.plan.width + LEAN)
        height = ROW + max([0, *(it.height for it in self.plan.items)]) + 4
        root = ROW // 2 + 4
        self.stroke("task", self.left, root, width - LEAN, root)
        self.names[root] = ["the main task"]
        self.draw_items(self.folder.tasks[()], 0, self.plan.items, self.left, root)
        for y, names in self.names.items():
            both = ", ".join(names)
            self.text(4, y + 4, both if across(both) < self.left else f"{names[0]}, ..", "soft")
        said = f"{words.count(len(self.folder.tasks), 'task')} from left to right, with forks, joins and barriers; each link is a record that races"
        size = f'xmlns="http://www.w3.org/2000/svg" width="{width}" height="{height}"'
        return f'<svg {size} role="group" aria-label="{said}">{"".join(self.parts)}</svg>'

    def text(self, x, y, said, kind=""):
        self.parts.append(f'<text x="{x}" y="{y}" class="{kind}">{html.escape(said)}</text>')

    def stroke(self, kind, x, y, to_x, to_y):
        self.parts.append(f'<path class="{kind}" d="M{x} {y}L{to_x} {to_y}"/>')

    def draw_items(self, task, phase, items, x, y):
        for it in items:
            if it.kind == "team":
                self.draw_team(task, *it.what, x, y, it.width)
            elif it.kind == "left":
                self.text(x + 4, y - 5, f"+{it.what:,}", "soft")
            else:
                self.draw_stretch((task.path, phase, it.at), it, x, y)
            x += it.width

    def draw_stretch(self, key, it, x, y):
        said = f"{it.what.accesses:,} access{'es' * (it.what.accesses > 1)}, records {it.what.first:,} to {it.what.last:,}"
        self.parts.append(f'<rect class="box" x="{x + 2}" y="{y - 7}" width="{it.width - 4}" height="14" rx="3"><title>{said}</title></rect>')
        marks = self.marks.get(key)
        if not marks:
            return
        (cause, record), middle = marks[0], x + it.width / 2
        others = len({it.number for it, _ in marks}) - 1
        more = f", and {words.count(others, 'race')} more" if others else ""
        name = html.escape(f"race {cause.number}: line {record.line}, {words.lane_words(record.task, self.folder)}{more}")
        self.parts.append(
            f'<a href="#race{cause.number}" aria-label="{name}"><title>{name}</title><circle class="record" cx="{middle:g}" cy="{y}" r="10"/>'
            f'<text x="{middle:g}" y="{y + 4}">{cause.number}{"+" * (others > 0)}</text></a>'
        )

    def draw_team(self, task, region, team, x, y, width):
        first, last, top = x + LEAN, x + width - LEAN, y + ABOVE + ROW
        self.text(x + 4, y - 5, f"line {task.lines[region]}", "soft")
        below = top
        for lane, height in zip(team.lanes, team.heights):
            self.stroke("fork", x, y, first, below)
            self.stroke("fork", last, below, x + width, y)
            self.stroke("task", first, below, last, below)
            self.name(below, words.lane_words(lane, self.folder))
            below += height
        if team.hidden:
            self.name(below, f"{words.count(team.hidden, 'lane')} more")
        left = first
        for at, column in enumerate(team.columns):
            if at:
                self.draw_barrier(team, team.columns[at - 1], left + BAR // 2, top, below)
                left += BAR
            self.draw_column(team, column, left, top, column.width(self.plan.unit))
            left += column.width(self.plan.unit)

    def name(self, y, said):
        names = self.names.setdefault(y, [])
        if said not in names:
            names.append(said)

    def draw_barrier(self, team, before, x, top, below):
        """The barrier that ends a barrier interval, or the last one of a gap."""
        self.stroke("bar", x, top - 11, x, below - ROW + 11)
        is_wide = before.width(self.plan.unit) > max(WIDE, across(f"line {before.line}"))
        self.parts.append(f'<text class="line" x="{x}" y="{below - ROW + 23}">{"line " * is_wide}{before.line}</text>')

    def draw_column(self, team, column, x, top, width):
        said = f"+{column.gap:,}" if column.gap else f"interval {column.number + 1}" if width > WIDE else str(column.number + 1)
        self.text(x + 2, top - 20, said, "soft")
        for lane, height, cell in zip(team.lanes, team.heights, column.cells):
            self.draw_items(lane, column.number, cell, x, top)
            top += height
