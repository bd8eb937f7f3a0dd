"""A plan that the program took, with the lines of its file, and what the program says of it.

Commands that read a plan begin here: a plan that the program refuses is told in its sentence, with the program's status.
"""

from __future__ import annotations

from dataclasses import dataclass
from functools import cached_property

from murdjohe.answers import api, reports
from murdjohe.core import documents, forms, inputs, program, refusals
from murdjohe.core.faults import Wrong, reason
from murdjohe.core.inputs import STDIN
from murdjohe.core.wording import plural
from murdjohe.plan.mistakes import SHOWN
from murdjohe.plan.model import Plan
from murdjohe.plan.plan_lines import PlanLines

ACCEPTED = "accepted"  # what `check` says of ranks that rise
AGREED, OSCILLATES = "agreed", "may oscillate"  # whether priorities agree, by `agree`
PROTECTED = "protected"  # what `protected` says of a plan without gaps


class PlanFile:
    """A plan that was taken: its name in sentences, its octets, and what `rank` answers to it."""

    def __init__(self, name: str, data: bytes, ranking: reports.Ranking, certificate: bytes) -> None:
        self.name = name
        self.data = data
        self.ranking = ranking
        self.certificate = certificate

    @cached_property
    def plan(self) -> PlanLines:
        """The plan with the lines of its file, which is read when it is asked for. Raises Wrong where Python can't."""
        plan = PlanLines(documents.Document(self.name, self.data))
        if plan.fault:
            raise Wrong(f"{self.name}: the program takes it, and Python's reader doesn't: {plan.fault}")
        return plan

    @property
    def network(self) -> Plan:
        """The plan as the field has it."""
        return self.plan.network

    def verdict(self) -> str:
        """What the program says of the plan: `accepted` where `check` takes the ranks of `rank`, or the ring."""
        if self.ranking.ring is not None:
            return f"cycle {' '.join(self.ranking.ring)}"
        answer = api.check(self.data, self.certificate)
        return answer.text.decode().strip()

    def gaps(self, groups: bytes | None = None) -> tuple[reports.Gap, ...]:
        """The failures, and the groups of a table, that cut somebody off who needn't be, as the program says."""
        return api.protected(self.data, groups).result.rows

    @cached_property
    def agreement(self) -> reports.Agreement:
        """Whether priorities agree, and the bounds by which the network is at rest, as the program says."""
        return api.agree(self.data).result

    def clash(self) -> tuple[str, ...] | None:
        """The lines that bear on one another in a circle, as the program says; none where timing may go round anyway."""
        return self.agreement.clash if self.ranking.ring is None else None

    def chains(self) -> tuple[reports.Chain, ...]:
        """How long chains into each element may become, as the program says; none where timing may go round."""
        return api.chains(self.data).result.rows or ()


@dataclass(frozen=True)
class Judgement:
    """What the program says of a plan: `accepted` or the ring, the lines whose priorities may oscillate, if any, and what ends
    that; and where it was asked, the failures, and groups if there are some, that cut somebody off who needn't be."""

    verdict: str
    clash: reports.Loop | None
    remedy: str | None
    gaps: tuple[reports.Gap, ...] | None
    has_groups: bool = False

    @property
    def is_good(self) -> bool:
        """Whether no loop is possible and no elements may oscillate."""
        return self.verdict == ACCEPTED and self.clash is None

    @property
    def text(self) -> str:
        """The judgement in a line."""
        said = [self.verdict]
        if self.verdict == ACCEPTED:
            said.append(AGREED if self.clash is None else OSCILLATES)
        if self.gaps is not None:
            number = plural(len(self.gaps), "gap") if self.gaps else PROTECTED
            said.append(f"{number} with these groups" if self.has_groups else number)
        return ", ".join(said)

    @property
    def lines(self) -> list[str]:
        """What is said of priorities that may oscillate; nothing where none do."""
        return [self.remedy] if self.remedy else []


def judged(plan: PlanFile, has_gaps: bool = False, groups: bytes | None = None) -> Judgement:
    """What the program says of a plan: of its ranks, of its priorities, and whether it is protected where that is asked, also against
    the groups of a table."""
    verdict = plan.verdict()
    clash = plan.clash() if verdict == ACCEPTED else None
    remedy = None
    if clash is not None:
        from murdjohe.network import oscillation

        remedy = oscillation.told(plan.plan, clash)
    return Judgement(verdict, clash, remedy, plan.gaps(groups) if has_gaps else None, groups is not None)


def others_of(document: documents.Document, refused: api.Refused) -> list[str]:
    """The mistakes of a refused plan that stand on other lines than the one that the program names."""
    from murdjohe.plan import row_mistakes
    from murdjohe.sentences import plan as sentences

    found = refusals.of(refused.status, refused.text)
    plan = PlanLines(document)
    if found is None or refused.status != program.BAD_PLAN or found.number not in row_mistakes.OF_ROWS or plan.fault:
        return []
    first = sentences.finding(plan, found).line
    mistakes = row_mistakes.mistakes_of(plan)
    mistakes.found = [mistake for mistake in mistakes.found if mistake[1] != first]
    return mistakes.lines(SHOWN - 1)


def taken(name: str, data: bytes) -> PlanFile:
    """The plan of some octets. Raises Wrong with the program's status where it refuses them, and all mistakes of its rows."""
    file = inputs.File(forms.PLAN, name, name)
    try:
        answer = api.rank(data)
    except api.Refused as refused:
        from murdjohe.sentences import answers

        with api.named([data]) as (path,):
            file.path = path
            words = inputs.Words(forms.FORMS["rank"], [name], ["rank", path], [file])
            sentence = answers.sentence(words, program.Answer(refused.status, refused.text))
        more = others_of(documents.Document(name, data), refused)
        raise Wrong(sentence or refused.sentence, *more, status=refused.status) from None
    return PlanFile(name, data, answer.result, answer.text)


def read(path: str) -> PlanFile:
    """The plan in a file, or on standard input for `-`. Raises Wrong."""
    try:
        with open(0 if path == STDIN else path, "rb", closefd=path != STDIN) as file:
            data = file.read(program.LONGEST_FILE + 1)
    except OSError as fault:
        wrong = reason("standard input" if path == STDIN else path, fault)
        raise Wrong(str(wrong), status=program.READ_FAULT) from None
    except ValueError as fault:  # (a name with a zero octet)
        raise Wrong(f"{path}: {fault}", status=program.READ_FAULT) from None
    return taken("standard input" if path == STDIN else path, data)
