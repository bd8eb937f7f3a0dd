"""The rules of one element once more, plain and slow: levels, conditions, commands, the choice, what is sent back."""

from collections.abc import Collection, Sequence

from bench.levels import LEVELS

Told = tuple[str, int, str | None]  # a word, an input, and a level where the word says one
Command = tuple[str, int | None]


class Input:
    """One input of an element: its signal and its level, and for how long it has been up or down."""

    def __init__(self, priority: int, first: str | None, bundle: object) -> None:
        self.priority, self.level, self.bundle = priority, first, bundle
        self.up, self.run, self.failed = True, 0, False

    def pass_millisecond(self, up: bool, cleared: bool, holdoff: int, wtr: int) -> None:
        """Down for more than hold-off it fails; up for more than wait-to-restore, or cleared while up, it is good."""
        self.run = self.run + 1 if up == self.up else 1
        self.up = up
        if not up and self.run > holdoff:
            self.failed = True
        elif up and (self.run > wtr or cleared):
            self.failed = False

    def left(self, holdoff: int, wtr: int) -> int:
        """After how many milliseconds a running time ends if nothing happens."""
        return (wtr if self.up else holdoff) + 1 - self.run

    def condition(self, holdoff: int, wtr: int) -> str:
        """Good (up, not failed), failed (down, failed), or a running time with what is left of it."""
        if self.up and not self.failed:
            return "good"
        if not self.up and self.failed:
            return "failed"
        return f"{'restoring' if self.up else 'holdoff'}:{self.left(holdoff, wtr)}"


class Element:
    """An element over time. `millisecond` or `evaluate` is called once for each millisecond from 0 on."""

    def __init__(
        self,
        option: str,
        own: str,
        floor: str | None,
        holdoff: int,
        wtr: int,
        inputs: Sequence[tuple[int, str | None, object]],
    ) -> None:
        self.option, self.places = option, {name: place for place, name in enumerate(LEVELS[option])}
        self.worst = LEVELS[option][-1]
        self.own, self.floor, self.holdoff, self.wtr = own, floor, holdoff, wtr
        self.inputs = [Input(*each) for each in inputs]
        self.locked: set[int] = set()
        self.forced: int | None = None
        self.manual: int | None = None
        self.taken: int | None = None
        self.was_locked = False
        self.answers: list[bool] = []  # of the commands of the last millisecond, whether each was taken

    def is_eligible(self, i: int) -> bool:
        """Not locked out, not failed, and of a level better than do-not-use, than which the floor is not better."""
        each = self.inputs[i]
        if i in self.locked or each.failed or each.level is None or each.level == self.worst:
            return False
        return self.floor is None or self.places[each.level] <= self.places[self.floor]

    def place(self, i: int) -> int:
        """The place of an input's level in the option's table."""
        return self.places[self.inputs[i].level or self.worst]

    def command(self, word: str, i: int | None) -> bool:
        """A forced or manual switch to an input that is locked out, or a manual one beside a forced one, is rejected.

        What is rejected is nothing. Gives whether the command was taken.
        """
        if word == "clear" or i is None:
            self.forced, self.manual = None, None
        elif word == "lockout":
            self.locked.add(i)
            if self.forced == i:
                self.forced = None
        elif word == "unlock":
            self.locked.discard(i)
        elif word == "forced" and i not in self.locked:
            self.forced, self.manual = i, None
        elif word == "manual" and i not in self.locked and self.forced is None:
            self.manual = i
        else:
            return False
        return True

    def millisecond(self, told: list[Told]) -> None:
        """One millisecond with what is told in it, a list of (word, input, level); what isn't told stays."""
        ups = [each.up for each in self.inputs]
        cleared: set[int] = set()
        commands: list[Command] = []
        for word, i, level in told:
            if word in ("up", "down"):
                ups[i] = word == "up"
            elif word == "has":
                self.inputs[i].level = level
            elif word == "clear-wtr":
                cleared.add(i)
            else:
                commands.append((word, i))
        self.evaluate(ups, cleared, commands)

    def told(self, ups: list[bool], cleared: Collection[int], commands: Sequence[Command]) -> list[int]:
        """Takes the signals of one millisecond and its commands in order: the inputs that are eligible then."""
        for i, each in enumerate(self.inputs):
            each.pass_millisecond(ups[i], i in cleared, self.holdoff, self.wtr)
        self.answers = [self.command(word, target) for word, target in commands]
        return [i for i in range(len(self.inputs)) if self.is_eligible(i)]

    def evaluate(self, ups: list[bool], cleared: Collection[int], commands: Sequence[Command]) -> None:
        """One millisecond with its signals, its commands in order, and the levels that the inputs have by now."""
        eligible = self.told(ups, cleared, commands)
        best_level = min((self.place(i) for i in eligible), default=None)
        if self.manual not in eligible or self.place(self.manual) != best_level:
            self.manual = None
        self.taken = self.choice(eligible, best_level)
        self.was_locked = self.was_locked or self.taken is not None

    def choice(self, eligible: list[int], best_level: int | None) -> int | None:
        """The forced input or none; else the manual one; else the best, where the current one stays on a tie."""
        if self.forced is not None:
            return self.forced if self.forced in eligible else None
        if self.manual is not None:
            return self.manual
        if not eligible:
            return None
        of_best_level = [i for i in eligible if self.place(i) == best_level]
        first = min(self.inputs[i].priority for i in of_best_level)
        best = [i for i in of_best_level if self.inputs[i].priority == first]
        return self.taken if self.taken in best else best[0]

    def level(self) -> str:
        """The level of the input that is taken, or the own clock's."""
        return self.own if self.taken is None else self.inputs[self.taken].level or self.worst

    def sent_back(self, i: int) -> str:
        """Do-not-use over the bundle of the input that is taken, and the element's level over any other."""
        if self.taken is not None and self.inputs[self.taken].bundle == self.inputs[i].bundle:
            return self.worst
        return self.level()

    def mode(self) -> str:
        """Forced before manual before automatic."""
        return "forced" if self.forced is not None else "manual" if self.manual is not None else "auto"

    def state(self) -> str:
        """Holdover without an input where one was ever taken before."""
        return "locked" if self.taken is not None else "holdover" if self.was_locked else "freerun"

    def answer(self) -> list[str]:
        """What stays while nothing is told and no input's "failed" changes."""
        sent = [self.sent_back(i) for i in range(len(self.inputs))]
        taken = "none" if self.taken is None else str(self.taken)
        return [taken, self.level(), self.mode(), self.state()] + sent
