"""What `nominate`, `protect` and `repair` would change of a plan, with what the program says of the plan then."""

from __future__ import annotations

from dataclasses import dataclass

from murdjohe.answers import api
from murdjohe.core.documents import Document
from murdjohe.core.faults import Wrong
from murdjohe.core.wording import plural
from murdjohe.desk.edits import TakeOver
from murdjohe.desk.states import States
from murdjohe.network import plan_file
from murdjohe.network.plan_file import PlanFile
from murdjohe.plan import priorities
from murdjohe.plan.plan_lines import PlanLines
from murdjohe.protection import promise
from murdjohe.repair import repairs

NOMINATE, PROTECT, REPAIR = "nominate", "protect", "repair"
COMMANDS = (NOMINATE, PROTECT, REPAIR)


@dataclass(frozen=True)
class Proposal:
    """What a command would change: each line or source with its priority before and after, and what is said of it."""

    by: str
    rows: tuple[tuple[str, int, int], ...]
    said: tuple[str, ...]

    @property
    def edit(self) -> TakeOver:
        """The edit that takes it over."""
        return TakeOver(self.by, {name: new for name, _, new in self.rows})


def written_by(command: str, taken: PlanFile) -> list[bytes]:
    """The plan that a command writes; by `repair` one for each of its sets, the best first. Raises Wrong where it finds none."""
    if command == NOMINATE:
        return [api.nominate(taken.data).text]
    if command == PROTECT:
        found = api.protect(taken.data).result
        if found.text is None:
            number = plural(len(found.gaps), "failure")
            raise Wrong(
                f"protect finds no priorities: {number} would cut elements off; an element's sources use all priorities"
            )
        return [found.text.encode()]
    kept = promise.lines_kept(taken.data) if taken.ranking.ring else ()
    repair = repairs.agreeing_sets(taken.plan, taken.data, repairs.repair_of(taken.network, kept=kept))
    return [repairs.mended(taken.plan, one) for one in repair.sets] or [taken.data]


def proposed(command: str, data: bytes) -> list[Proposal]:
    """What a command would change of a plan; `repair` may find several sets. Raises Wrong."""
    if command not in COMMANDS:
        raise Wrong(f"{command!r} proposes nothing: it has to be {', '.join(COMMANDS)}")
    taken = plan_file.taken("the plan", data)
    try:
        written = written_by(command, taken)
    except api.Refused as refused:
        raise Wrong(refused.sentence, status=refused.status) from None
    before = priorities.priorities_of(taken.network)
    return [proposal_of(command, data, before, one) for one in written]


def proposal_of(command: str, data: bytes, before: dict[str, int], written: bytes) -> Proposal:
    """What differs in a plan that a command wrote, and what the program says of it."""
    after = priorities.priorities_of(PlanLines(Document("the plan", written)).network)
    rows = tuple((name, before[name], after[name]) for name in before if before[name] != after[name])
    return Proposal(command, rows, said_of(command, data, rows))


def said_of(command: str, data: bytes, rows: tuple[tuple[str, int, int], ...]) -> tuple[str, ...]:
    """What the program says of the plan that comes of a proposal."""
    states = States(data, "the plan")
    if rows:
        states.apply(TakeOver(command, {name: new for name, _, new in rows}), 0)
    judgement = plan_file.judged(plan_file.taken("the plan", states.data), has_gaps=True)
    number = f"{len(rows):,} priorit{'y' if len(rows) == 1 else 'ies'} would change"
    return (f"{number}; checked: {judgement.text}", *judgement.lines)
