"""What is said beside the tables of `sweep` and `study`: which cuts and cases leave elements without a clock."""

from __future__ import annotations

from collections.abc import Sequence

from murdjohe.answers.studies import Case, Cut
from murdjohe.core import program, times
from murdjohe.core.inputs import Words
from murdjohe.core.wording import listed, plural
from murdjohe.network.reference_chain import LONGEST
from murdjohe.remarks.agreement import on_oscillation

MOST_LINES = LONGEST[0][1]
CAUTION = "`locked` counts every element that takes an input, also one that leads to an internal oscillator (own clock): `sim` of a cut says whose it is"


def name_of(row: Cut | Case) -> str:
    """What a row is of."""
    return row.link if isinstance(row, Cut) else row.case


def on_ends(rows: Sequence[Cut | Case], where: str, what: str, words: Words) -> list[str]:
    """Which runs aren't settled at their end, and in which loops stand there."""
    unsettled = [name_of(row) for row in rows if not row.is_settled]
    loops = [name_of(row) for row in rows if row.loops]
    said = []
    if unsettled:
        clash = on_oscillation(words)
        remedy = "a later UNTIL may not help" if clash else "run longer, to a later UNTIL"
        said += [f"{plural(len(unsettled), 'row')} not settled, {remedy}: {listed(unsettled)}", *clash]
    if loops:
        said.append(f"loops stand {where} {plural(len(loops), what)}: {listed(loops)}")
    return said


def on_cuts(words: Words, rows: Sequence[Cut]) -> list[str]:
    """What a table of single link failures says."""
    left = [(row.link, row.holdover + row.freerun) for row in rows]
    names = [f"{name} ({number})" for name, number in left if number]
    few = f"{len(names):,} of {plural(len(rows), 'cut')} leave elements in holdover or free-running at the end (how many): "
    said = ([few + listed(names)] if names else []) + on_needless(words, rows) + on_ends(rows, "after", "cut", words)
    return [
        *(said or [f"no cut of {len(rows):,} leaves an element in holdover at the end"]),
        CAUTION,
        on_end_of_cuts(words),
    ]


def lost_by_cuts(words: Words, cuts: list[str]) -> list[tuple[str, int, int]]:
    """Of some cuts how many elements each leaves without a source, by `study`, and how many of these no link could serve or are taken
    away themselves; nothing where the program doesn't say it."""
    from murdjohe.answers import api
    from murdjohe.network import reachability, wiring
    from murdjohe.plan import plan_tables

    network, (_, plan, at, until) = plan_tables.network_of(words), words.passed
    if network is None or not cuts:
        return []
    rows = "".join(f"{number},{at},down,{cut},\n" for number, cut in enumerate(cuts))
    try:
        studied = api.study(plan, f"case,at,what,target,value\n{rows}".encode(), int(until)).result.rows
    except (api.Refused, program.NoAnswer, program.Ended):
        return []
    wired = wiring.wiring_of(network)
    lost = reachability.Reach(wired).lost([frozenset(wired.lines_of(cut)) for cut in cuts])
    return [(cut, row.lost, apart.themselves + apart.beyond) for cut, row, apart in zip(cuts, studied, lost)]


def on_needless(words: Words, rows: Sequence[Cut]) -> list[str]:
    """Of the cuts after which somebody has no source, how many leave elements without one that a link could still serve."""
    doubtful = [row.link for row in rows if row.holdover or row.freerun or row.loops]
    found = [(cut, lost, max(0, lost - apart)) for cut, lost, apart in lost_by_cuts(words, doubtful) if lost]
    needless = sorted(((cut, left) for cut, _, left in found if left), key=lambda pair: -pair[1])
    others = [f"{cut} ({lost})" for cut, lost, left in found if not left]
    said = []
    if needless:
        verb = "leaves" if len(needless) == 1 else "leave"
        names = listed([f"{cut} ({left})" for cut, left in needless])
        said.append(
            f"{plural(len(needless), 'cut')} {verb} elements without a source although a link could still serve them (how many): {names}"
        )
    if others:
        cuts = plural(len(others), "cut")
        beyond = "only elements that no link could serve, or that fail themselves, are without a source"
        said.append(f"after {cuts} {beyond} (how many): {listed(others)}")
    return said


def on_end_of_cuts(words: Words) -> str:
    """When each link goes down, and that only the end is looked at."""
    at, until = (times.clock(int(time), words.start or 0) for time in words.passed[-2:])
    return f"each link goes down at {at}, and only the end, {until}, is looked at: what is lost and back by then isn't counted"


def on_end_of_cases(words: Words) -> str:
    """Of what the end alone is looked at."""
    until = times.clock(int(words.passed[-1]), words.start or 0)
    return f"only the end, {until}, is looked at: a source lost and back by then isn't counted, a level worse on the way is"


def on_lost(rows: Sequence[Case]) -> str:
    """How many cases leave elements without a source, the worst case first."""
    left = sorted((row for row in rows if row.lost), key=lambda row: row.lost, reverse=True)
    if not left:
        return f"no case of {len(rows):,} leaves an element without a source at the end"
    verb = "leaves" if len(left) == 1 else "leave"
    names = listed([f"{row.case} ({row.lost})" for row in left])
    return f"{len(left):,} of {plural(len(rows), 'case')} {verb} elements without a source at the end (how many, most first): {names}"


def on_way(rows: Sequence[Case]) -> list[str]:
    """Which cases make the level of elements worse on the way to the end, for how long, and how many do yet."""
    hurting = sorted((row for row in rows if row.hurt), key=lambda row: -row.dark)
    if not hurting:
        return []
    verb = "makes" if len(hurting) == 1 else "make"
    names = listed([f"{row.case} ({row.darkest}, {row.dark:,} ms)" for row in hurting])
    still = sum(row.still > 0 for row in hurting)
    return [
        f"{len(hurting):,} of {plural(len(rows), 'case')} {verb} levels worse than before on the way, and {still:,} still at the end "
        f"(for which element longest, and for how long up to the end): {names}"
    ]


def on_cases(words: Words, rows: Sequence[Case]) -> list[str]:
    """What a table of cases says."""
    if not rows:
        return ["there is no case, and so no row: the first field of an event names its case"]
    said = [on_lost(rows), *on_ends(rows, "in", "case", words)]
    far = [f"{row.case} ({row.longest})" for row in rows if row.longest > MOST_LINES]
    if far:
        said.append(f"traces of more than G.803's {MOST_LINES} lines in {plural(len(far), 'case')}: {listed(far)}")
    return [*said, *on_way(rows), on_end_of_cases(words)]
