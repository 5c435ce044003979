"""Guesses how to mend a race, by what stands around its two records. `check` of a run of the changed kernel tells whether one was right."""
from itertools import takewhile
from typing import NamedTuple


class Place(NamedTuple):
    """A record's expression with the blocks around it below the team at whose lanes the two records part."""

    record: object
    site: object
    blocks: tuple


def place(record, kernel, depth):
    site = kernel.site(record.site)
    forks = [at for at, it in enumerate(site.blocks) if it.word == "parallel"]
    return Place(record, site, site.blocks[forks[depth] + 1 :])


def guess(cause, kernel):
    one, other = cause.one, cause.other
    words = of_mutexes(one, other, kernel) or of_updates(one, other)
    if words or not kernel.is_known:
        return words or "order the two by a barrier, or hold one mutex at both."
    depth = len(cause.interval.above)
    first, second = sorted((place(it, kernel, depth) for it in (one, other)), key=lambda it: it.site.first)
    around = common(first.blocks, second.blocks)
    return (
        of_sum(first, second, kernel)
        or of_nowait(first, second, around)
        or of_loop(first, second, around, kernel)
        or of_teams(around)
        or of_lanes(first, second, around, cause.began, kernel)
    )


def common(one, other):
    """The blocks around both, the outermost first."""
    depth = next((at for at, (a, b) in enumerate(zip(one, other)) if a is not b), min(len(one), len(other)))
    return one[:depth]


def of_team(blocks):
    """Those of these blocks that are the team's own, and not of a team below it."""
    return tuple(takewhile(lambda it: it.word != "parallel", blocks))


def of_mutexes(one, other, kernel):
    if one.held and other.held:
        here, there = (f"line {it.line}, which holds {' and '.join(f'`{kernel.mutex(mutex)}`' for mutex, _ in it.held)}" for it in (one, other))
        return f"different mutexes guard nothing against each other, so hold one and the same at {here}, and {there}."
    if one.held or other.held:
        bare, guarded = (one, other) if other.held else (other, one)
        mutex = kernel.mutex(guarded.held[-1][0])
        return f"hold `{mutex}` at line {bare.line}, too, as line {guarded.line} does: a mutex guards only against those that hold it."
    return None


def of_updates(one, other):
    if "update" not in (one.kind, other.kind):
        return None
    update, plain = (one, other) if one.kind == "update" else (other, one)
    change = "put a barrier between" if plain.kind == "read" else f"make line {plain.line} an `atomic` update, too, or put a barrier between"
    return f"the update of line {update.line} is atomic against other updates only: {change} the two lines."


def of_sum(first, second, kernel):
    it, mate = kernel.sum_at(first.record.site), kernel.sum_at(second.record.site)
    if not it or not mate:
        return None
    lines = sorted({first.record.line, second.record.line})
    if it == mate and it.rest:
        change = f"line {lines[0]} `atomic {it.target} {it.sign}= {it.rest}`"
    else:
        change = " and ".join(f"line {it}" for it in lines) + " an `atomic` update"
    return (
        f"several lanes add to one element, and one of two sums gets lost: make {change}, "
        "or put the sum into a critical section, or let each lane add up in a variable of its own first."
    )


def of_nowait(first, second, around):
    """A loop without a barrier at its end, whose lanes come to the other record, there or in the next turn of a serial loop."""
    for here, there in ((first, second), (second, first)):
        for block in of_team(here.blocks):
            outside = around[: around.index(block)] if block in around else around
            comes_again = any(it.word == "loop" for it in outside)
            if block.word == "for" and "nowait" in block.words and (comes_again or here is first and block not in around):
                where = "the next turn of the loop around it" if block in around else f"line {there.record.line}"
                return (
                    f"no lane waits at the end of the loop of line {block.line}, so one goes on to {where} while others are still in it: "
                    f"take the `nowait` of line {block.line} away."
                )
    return None


def of_loop(first, second, around, kernel):
    """One worksharing loop around both: two of its iterations touch one element."""
    loop = next((it for it in of_team(around) if it.word == "for"), None)
    if not loop:
        return None
    if first.record.kind == second.record.kind:
        return f"two iterations of the loop of line {loop.line} write one element: let each write elements of its own, or let one lane do it."
    does, line = of_neighbours(first, second, kernel)
    return f"in the loop of line {loop.line} {does}; let line {line} write into another array."


def of_neighbours(first, second, kernel):
    """What two lanes do, of which one reads, and the line of the other."""
    reader, writer = (first, second) if first.record.kind == "read" else (second, first)
    read, written = (kernel.expression(it.record.site) for it in (reader, writer))
    return f"a lane reads as `{read}` what another writes as `{written}`", writer.record.line


def of_line(first, second, line, kernel):
    """One statement of the team's own, which all lanes do."""
    if first.record.kind != second.record.kind and kernel.expression(first.record.site) != kernel.expression(second.record.site):
        does, line = of_neighbours(first, second, kernel)
        return f"{does}; let each lane read into a variable of its own, by `let`, and put a `barrier` before line {line} stores."
    return (
        f"every lane of the team comes to line {line}: give each lane an element of its own, such as the one at `tid`, "
        "or let one lane do it by a test of `tid`."
    )


def of_teams(around):
    """A team below around both: several lanes fork it."""
    inner = next((it for it in around if it.word == "parallel"), None)
    if not inner:
        return None
    return (
        f"several lanes fork the team of line {inner.line}, and these teams touch one element: "
        "give each team elements of its own, or let one lane fork it."
    )


def of_lanes(first, second, around, began, kernel):
    """Statements of the team's own, with no loop that shares them: all lanes do them, or those that a test lets through."""
    here, there = (it.blocks[len(around)] if len(it.blocks) > len(around) else None for it in (first, second))
    above, below = (block.line if block else it.record.line for block, it in ((here, first), (there, second)))
    if above == below:
        return of_line(first, second, above, kernel)
    if here and there and (here.word, there.word) == ("if", "else"):
        branches = f"lanes are in both branches of the test of line {here.line} at once"
        return f"{branches}: end it after the first one, put a `barrier` there, and test again."
    if above <= began < below:
        return f"after line {second.record.line} no lane waits before the next turn, where others do line {first.record.line}: put a `barrier` there."
    tests = [it for place in (first, second) for it in place.blocks if it.word in ("if", "else")]
    alone = f"the test of line {tests[-1].line} lets single lanes through, and nobody waits there" if tests else "no lane waits in between"
    inside = next((it for it in around if it.word in ("if", "else", "critical")), None)
    where = f"between line {above} and line {below}, and outside the block of line {inside.line}" if inside else f"before line {below}"
    return f"{alone}: put a `barrier` {where}, so that all that line {first.record.line} does comes before it."
