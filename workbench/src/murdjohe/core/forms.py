"""The forms of the program: a line for each, with its words, what it does and what it ends with.

A command of the workbench stands for each, with the same words. Nothing heavy is imported here, since every start reads it.
"""

from __future__ import annotations

# What a word of a form is. All but the last four are names of files.
PLAN = "plan"
CERTIFICATE = "certificate"
EVENTS = "events"
CASES = "cases"
GROUPS = "groups"
FRAMES = "frames"
ROWS = "rows"
CAPTURE = "capture"
TIMED_ROWS = "timed rows"
RECEIVED = "received"
OPTION = "option"
ELEMENT = "element"
TIME = "time"
COUNT = "count"
NO_FILES = frozenset((OPTION, ELEMENT, TIME, COUNT))

DAY_MS = 86_400_000  # milliseconds: the greatest UNTIL
SIZES = (2, 100_000)  # the least and the greatest N of `gen` and `trial`

# What each kind of word may be, as help and sentences say it.
MEANINGS = {
    PLAN: "a plan, a TOML file of elements, links and sources (murdjohe help plan)",
    CERTIFICATE: "a certificate, a rank for each nominated line, as `rank` writes it",
    EVENTS: "an event list, a row each: at,what,target,value (murdjohe help events)",
    CASES: "a list of cases, events with the name of a case: case,at,what,target,value (murdjohe help cases)",
    GROUPS: "a list of groups, parts that fail together: group,kind,part (murdjohe help groups)",
    FRAMES: "captured ESMC frames, one a line as hexadecimal digits",
    ROWS: "rows of frames, as `decode` writes them: SOURCE,KIND,LEVEL",
    CAPTURE: "a classic pcap capture of one Ethernet interface",
    TIMED_ROWS: "rows of frames with times, as `pcap-decode` writes them: SEC,USEC,SOURCE,KIND,LEVEL",
    RECEIVED: "what the element received, a line each: AT,WORD,TARGET,VALUE",
    OPTION: "the network option, I or II, whose levels are meant",
    ELEMENT: "the name of an element of the plan",
    TIME: "a time up to a day: milliseconds, or 20m, 90s, 1h30m, HH:MM, HH:MM:SS",
    COUNT: "a number of elements, 2 to 100000",
}


class Word:
    """A word of a form: its name in help, its kind, and whether it may be left out, as the last words may."""

    __slots__ = ("name", "kind", "is_optional")

    def __init__(self, name: str, kind: str, is_optional: bool = False) -> None:
        self.name = name
        self.kind = kind
        self.is_optional = is_optional

    @property
    def is_file(self) -> bool:
        return self.kind not in NO_FILES


class Form:
    """A form of the program: its name, words, group, what it does in a line, the statuses that it may end with, and an
    example that runs in an empty folder; and how many of its last words, times, the workbench chooses where they are left out.
    """

    __slots__ = ("name", "words", "group", "does", "statuses", "example", "optional")

    def __init__(
        self,
        name: str,
        words: tuple[Word, ...],
        group: str,
        does: str,
        statuses: tuple[int, ...],
        example: tuple[str, ...],
        optional: int = 0,
    ) -> None:
        self.optional = optional
        self.name = name
        self.words = words
        self.group = group
        self.does = does
        self.statuses = statuses
        self.example = example

    @property
    def fewest(self) -> int:
        """How many words there have to be at least."""
        return sum(not word.is_optional for word in self.words)

    @property
    def names(self) -> list[str]:
        """The words as help has them, those that the program does without in brackets."""
        return [f"[{word.name}]" if word.is_optional else word.name for word in self.words]

    @property
    def synopsis(self) -> str:
        return " ".join((self.name, *self.names))

    @property
    def usage(self) -> str:
        """The same, with the times that the workbench chooses in brackets too."""
        must = len(self.words) - self.optional
        chosen = [f"[{name}" for name in self.names[must:]]
        return " ".join((self.name, *self.names[:must], *chosen)) + "]" * self.optional

    @property
    def synopses(self) -> list[str]:
        """The form with as many words as there have to be, with one more, and so on."""
        names = [word.name for word in self.words]
        return [" ".join((self.name, *names[:count])) for count in range(self.fewest, len(names) + 1)]


_PLAN = Word("PLAN", PLAN)
_CERT = Word("CERT", CERTIFICATE)
_EVENTS = Word("EVENTS", EVENTS)
_CASES = Word("CASES", CASES)
_GROUPS = Word("GROUPS", GROUPS, is_optional=True)
_AT = Word("AT", TIME)
_UNTIL = Word("UNTIL", TIME)
_OPTION = Word("OPTION", OPTION)
_N = Word("N", COUNT)

PLANNING = "Plans"
RUNNING = "What the network does"
PRIORITY = "Equipment without quality levels"
LAB = "In a lab"
TRYING = "To try things on"

_MAKE = "murdjohe gen 5 > plan.toml"
_RANK = "murdjohe rank plan.toml > certificate.csv"
_CUT = "printf 'at,what,target,value\\n60000,down,S1,\\n' > events.csv"
_LOCKED = "printf 'at,what,target,value\\n60000,lockout,R2>E2,\\n' > events.csv"
_FAIL = "murdjohe failures plan.toml --at 60s > cases.csv"
_ROW = "echo 020000000001,info,QL-PRC > rows"
_TIMED = "echo 1,5,020000000001,info,QL-PRC > rows"
_HEARD = "echo 60000,down,S1\\>E1, > received"

_ALL = (
    Form("check", (_PLAN, _CERT), PLANNING, "tests a certificate: accepted, or where a loop could close",
         (0, 1, 3, 4, 7, 9), (_MAKE, _RANK, "murdjohe check plan.toml certificate.csv")),
    Form("rank", (_PLAN,), PLANNING, "writes a plan's certificate, or names the loop to be broken",
         (0, 1, 3, 7, 9), (_MAKE, "murdjohe rank plan.toml")),
    Form("chains", (_PLAN,), PLANNING, "says how long a chain of timing into each element may become",
         (0, 1, 3, 7, 9), (_MAKE, "murdjohe nominate plan.toml > nominated.toml", "murdjohe chains nominated.toml")),
    Form("protected", (_PLAN, _GROUPS), PLANNING, "says what one failure cuts off although another path exists",
         (0, 1, 3, 5, 7, 9),
         (_MAKE, "murdjohe nominate plan.toml > nominated.toml", "murdjohe protected nominated.toml || echo has gaps")),
    Form("agree", (_PLAN,), PLANNING, "says whether a network of it comes to rest, and by when",
         (0, 1, 3, 7, 9), (_MAKE, "murdjohe nominate plan.toml > nominated.toml", "murdjohe agree nominated.toml")),
    Form("hops", (_PLAN,), PLANNING, "says how many links each element is from the nearest clock",
         (0, 3, 7, 9), (_MAKE, "murdjohe hops plan.toml")),
    Form("nominate", (_PLAN,), PLANNING, "gives a plan its priorities so that no loop is possible",
         (0, 3, 7, 9), (_MAKE, "murdjohe nominate plan.toml > nominated.toml")),
    Form("protect", (_PLAN,), PLANNING, "gives priorities by which no single failure takes sync away",
         (0, 1, 3, 7, 9),
         (_MAKE, "murdjohe protect plan.toml > protecting.toml", "murdjohe protected protecting.toml")),
    Form("sim", (_PLAN, _EVENTS, _UNTIL), RUNNING, "runs the network with faults and commands: every change",
         (0, 3, 5, 7, 9, 11), (_MAKE, _CUT, "murdjohe sim plan.toml events.csv 10m")),
    Form("inspect", (_PLAN, _EVENTS, _AT), RUNNING, "says of each input at AT why it is taken or isn't",
         (0, 3, 5, 7, 9), (_MAKE, _LOCKED, "murdjohe inspect plan.toml events.csv 10m")),
    Form("sweep", (_PLAN, _AT, _UNTIL), RUNNING, "lets each link fail alone at AT, and looks at UNTIL",
         (0, 3, 7, 9), (_MAKE, "murdjohe sweep plan.toml 60s 10m"), 2),
    Form("study", (_PLAN, _CASES, _UNTIL), RUNNING, "runs each of many cases by itself, and looks at UNTIL",
         (0, 3, 5, 7, 9), (_MAKE, _FAIL, "murdjohe study plan.toml cases.csv 10m"), 1),
    Form("prio-check", (_PLAN, _CERT), PRIORITY, "check, where elements choose by priority alone",
         (0, 1, 3, 4, 7, 9),
         (_MAKE, "murdjohe prio-rank plan.toml > certificate.csv", "murdjohe prio-check plan.toml certificate.csv")),
    Form("prio-rank", (_PLAN,), PRIORITY, "rank then, or the commands that make a loop",
         (0, 1, 3, 7, 9), (_MAKE, "murdjohe prio-rank plan.toml")),
    Form("prio-sim", (_PLAN, _EVENTS, _UNTIL), PRIORITY, "sim, where elements choose by priority alone",
         (0, 3, 5, 7, 9), (_MAKE, _CUT, "murdjohe prio-sim plan.toml events.csv 10m")),
    Form("decode", (_OPTION, Word("FILE", FRAMES)), LAB, "turns captured ESMC frames into rows",
         (0, 6, 7, 9), (_ROW, "murdjohe encode I rows > frames", "murdjohe decode I frames")),
    Form("encode", (_OPTION, Word("FILE", ROWS)), LAB, "turns rows into frames",
         (0, 6, 7, 9), (_ROW, "murdjohe encode I rows")),
    Form("pcap-decode", (_OPTION, Word("FILE", CAPTURE)), LAB, "turns a capture into rows with times",
         (0, 6, 7, 9), (_TIMED, "murdjohe pcap-encode I rows > capture.pcap", "murdjohe pcap-decode I capture.pcap")),
    Form("pcap-encode", (_OPTION, Word("FILE", TIMED_ROWS)), LAB, "turns rows with times into a capture",
         (0, 6, 7, 9), (_TIMED, "murdjohe pcap-encode I rows > capture.pcap")),
    Form("node", (_PLAN, Word("ELEMENT", ELEMENT), Word("FILE", RECEIVED), _UNTIL), LAB,
         "says what an element has to send for what it received", (0, 3, 6, 7, 9, 11),
         (_MAKE, _HEARD, "murdjohe node plan.toml E1 received 2s")),
    Form("gen", (_N,), TRYING, "writes a plan of N elements", (0, 2), ("murdjohe gen 5 > plan.toml",)),
    Form("trial", (_N,), TRYING, "ranks, tests and runs that plan, with a link that fails",
         (0, 2), ("murdjohe trial 10",)),
)  # fmt: skip
FORMS = {form.name: form for form in _ALL}
