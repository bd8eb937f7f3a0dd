"""The tables that the program writes, and their columns.

Made of docs/rows.toml by docs/row_tables, which says what stands here; nothing is changed by hand.
"""

# fmt: off
from __future__ import annotations

from murdjohe.core.row_columns import Column, Table

JSON = 1  # the version of what --json prints
RANKS = Table(
    "ranks", ("rank", "prio-rank"), "a nominated line with its rank", is_headed=True, columns=(
        Column("line", "line", "name", says="the nominated line"),
        Column("rank", "rank", "number", says="its rank: greater over every hop"),
    ),
)
CHAINS = Table(
    "chains", ("chains",), "the longest chains into an element", is_headed=True, columns=(
        Column("element", "element", "name", says="the element"),
        Column("links", "links", "number", unit="lines", limit=60, says="of all chains that lead into it, the most lines"),
        Column("since", "since", "number", unit="lines", limit=20, says="of all of them, the most lines since the last filter: from the last line that begins at a filter, this one included, or all lines if none does"),
        Column("clocks", "clocks", "number", unit="lines", limit=10, says="of all of them, the most lines that begin at a filter"),
    ),
)
GAPS = Table(
    "gaps", ("protected", "protect"), "a failure, or a group, that cuts elements off although a path remains", is_headed=True, columns=(
        Column("kind", "kind", "word", words=("none", "link", "bundle", "source", "element", "group"), says="none, link, bundle, source, element or group"),
        Column("failure", "failure", "name", none="", says="its name; nothing for none"),
        Column("elements", "elements", "number", unit="elements", says="how many elements are in reach and not served"),
        Column("first", "first", "name", says="the first of them, in the order of the plan"),
    ),
)
HOPS = Table(
    "hops", ("hops",), "how many links an element is from a clock", is_headed=True, columns=(
        Column("element", "element", "name", says="the element"),
        Column("hops", "hops", "number", none="none", unit="links", says="the least number of links from an element with a nominated source, over links in either direction, nominated or not; none if there is no way"),
        Column("via", "from", "name", none="none", says="if that is 0, its lowest-numbered nominated source; otherwise the lowest-numbered line into it from an element with one less; none if there is no way"),
    ),
)
CHANGES = Table(
    "changes", ("sim", "prio-sim"), "what an element shows from a millisecond on; level is None in a run by priority alone", part="changes", columns=(
        Column("at", "at", "number", unit="milliseconds", says="the millisecond"),
        Column("element", "element", "name", says="the element"),
        Column("mode", "mode", "word", words=("auto", "forced", "manual"), says="how its input is chosen: auto, forced or manual"),
        Column("input", "input", "name", none="none", says="the input that it takes, a line as L1>B or a source, or none"),
        Column("level", "level", "level", not_in="prio-sim", says="its quality level"),
        Column("state", "state", "word", words=("locked", "holdover", "freerun"), says="what its clock follows: locked (an input), holdover (nothing, and there was an input) or freerun (nothing, and there never was an input)"),
    ),
)
INPUTS = Table(
    "inputs", ("sim",), "how an input stands at the end, and in how many milliseconds that ends by itself", part="inputs", columns=(
        Column("element", "element", "name", says="the element"),
        Column("input", "input", "name", says="the input"),
        Column("condition", "condition", "word", words=("good", "holdoff", "failed", "restoring"), says="good (up and not failed), holdoff (down, and not failed yet), failed (down and failed) or restoring (up again, and not good yet)"),
        Column("left", "left", "number", unit="milliseconds", says="for holdoff and restoring in how many milliseconds that ends, if nothing happens; otherwise 0"),
    ),
)
TRACES = Table(
    "traces", ("sim",), "where the timing of an element begins, and over how many lines", part="traces", columns=(
        Column("element", "element", "name", says="the element"),
        Column("hops", "hops", "number", unit="lines", says="how many lines are followed"),
        Column("kind", "kind", "word", words=("source", "own", "loop"), says="where that ends: source (a source), own (the own clock of an element that takes nothing) or loop (an element that is met again, where timing goes round)"),
        Column("name", "name", "name", says="the source, the element that has its own clock, or the first element that is met again"),
    ),
)
COMMANDS = Table(
    "commands", ("inspect",), "a command of an operator, and whether it was taken when it was applied", part="commands", columns=(
        Column("at", "at", "number", unit="milliseconds", says="the millisecond"),
        Column("element", "element", "name", says="the element"),
        Column("word", "word", "word", words=("lockout", "unlock", "forced", "manual", "clear"), says="lockout, unlock, forced, manual or clear"),
        Column("input", "input", "name", none="", says="the input; for clear nothing"),
        Column("is_taken", "answer", "is", words=("taken", "rejected"), says="taken, or rejected: when it was applied, the input wasn't nominated; or it was locked out, for forced and manual; or another was forced, for manual"),
    ),
)
ELEMENTS = Table(
    "elements", ("inspect",), "what an element chose", part="elements", columns=(
        Column("element", "element", "name", says="the element"),
        Column("mode", "mode", "word", words=("auto", "forced", "manual"), says="how its input is chosen: auto, forced or manual"),
        Column("switched", "switched", "name", none="none", says="the input of the forced or manual switch, or none"),
        Column("input", "input", "name", none="none", says="the input that it takes, or none: a forced input is taken only if it may be"),
        Column("level", "level", "level", says="its quality level"),
        Column("state", "state", "word", words=("locked", "holdover", "freerun"), says="what its clock follows: locked (an input), holdover (nothing, and there was an input) or freerun (nothing, and there never was an input)"),
    ),
)
REASONS = Table(
    "reasons", ("inspect",), "what an input gives, and why it is taken or isn't", part="inputs", columns=(
        Column("element", "element", "name", says="the element"),
        Column("input", "input", "name", says="the input"),
        Column("condition", "condition", "word", words=("good", "holdoff", "failed", "restoring"), says="good (up and not failed), holdoff (down, and not failed yet), failed (down and failed) or restoring (up again, and not good yet)"),
        Column("left", "left", "number", unit="milliseconds", says="for holdoff and restoring in how many milliseconds that ends, if nothing happens; otherwise 0"),
        Column("level", "level", "level", none="none", says="the level that is heard on the line, which may differ from that of the element at its other end, or that the source has; none if nothing is heard"),
        Column("verdict", "verdict", "word", words=("taken", "locked-out", "failed", "silent", "do-not-use", "below-floor", "reserve"), says="why it is taken or isn't, the first of these that holds: taken, locked-out (by the operator), failed (also while it is restoring), silent (without a level), do-not-use (its level is no better), below-floor (the element's floor is better) or reserve (it could be taken, and isn't)"),
    ),
)
CUTS = Table(
    "cuts", ("sweep",), "what the network is at the end where one link failed", is_headed=True, columns=(
        Column("link", "link", "name", says="the link"),
        Column("is_settled", "settled", "is", words=("yes", "no"), says="yes if no timer of an input runs and no message on its way would still change anything; otherwise no: then run to a later UNTIL before you judge by the row"),
        Column("locked", "locked", "number", unit="elements", says="how many elements take an input"),
        Column("holdover", "holdover", "number", unit="elements", says="how many are left without an input by this cut"),
        Column("freerun", "freerun", "number", unit="elements", says="how many never had one"),
        Column("loops", "loops", "number", unit="closed walks", says="how many closed walks there are, as in the part loops of [the report](#the-report); anything but 0 in a settled row is a timing loop"),
        Column("worst", "worst", "level", says="the worst quality level that an element has"),
        Column("bound", "bound", "number", none="none", unit="milliseconds", says="the settling bound after AT: from this millisecond on the network is settled for sure; none if the plan has no bound"),
    ),
)
CASES = Table(
    "cases", ("study",), "what the network is at the end of the run of a case", is_headed=True, columns=(
        Column("case", "case", "name", says="the name of the case"),
        Column("is_settled", "settled", "is", words=("yes", "no"), says="yes or no, as in [the table of link failures](#link-failures)"),
        Column("locked", "locked", "number", unit="elements", says="how many elements take an input"),
        Column("holdover", "holdover", "number", unit="elements", says="how many are left without an input"),
        Column("freerun", "freerun", "number", unit="elements", says="how many never had one"),
        Column("loops", "loops", "number", unit="closed walks", says="how many closed walks there are"),
        Column("worst", "worst", "level", says="the worst quality level that an element has"),
        Column("bound", "bound", "number", none="none", unit="milliseconds", says="the settling bound after the last event of the run up to UNTIL, or after 0 if there is no event; none if the plan has no bound"),
        Column("lost", "lost", "number", unit="elements", says="how many elements have a trace, as in the part traces of [the report](#the-report), that doesn't end at a source: those on an own clock, and those that come to a loop"),
        Column("first", "first", "name", none="", says="the first of these in the order of the plan; nothing if there is none"),
        Column("longest", "longest", "number", unit="lines", says="the greatest number of lines of a trace that ends at a source or at an own clock"),
        Column("hurt", "hurt", "number", unit="elements", says="on the way: how many elements are worse than before in at least one millisecond"),
        Column("dark", "dark", "number", unit="milliseconds", says="on the way: the most milliseconds in which one element is worse, all together and not in one piece; 0 if none is"),
        Column("darkest", "darkest", "name", none="", says="the first element in the order of the plan that is worse for so long; nothing if none is"),
        Column("still", "still", "number", unit="elements", says="how many elements are worse in the millisecond UNTIL"),
    ),
)
SWITCHES = Table(
    "switches", ("prio-rank",), "an event of the list that makes a loop", is_headed=True, columns=(
        Column("at", "at", "number", unit="milliseconds", says="the millisecond, 0"),
        Column("what", "what", "word", words=("forced",), says="forced"),
        Column("target", "target", "name", says="the line that is switched to"),
        Column("value", "value", "name", none="", says="nothing"),
    ),
)
FRAMES = Table(
    "frames", ("decode", "pcap-decode"), "a frame: its source, kind and level; with an extended QL TLV the clock, flags and counts; with its time in a capture", columns=(
        Column("seconds", "seconds", "number", unit="seconds", only_in="pcap-decode", says="when the packet was captured, since 1970 began"),
        Column("microseconds", "microseconds", "number", unit="microseconds", only_in="pcap-decode", says="the microseconds of that"),
        Column("source", "source", "digits", says="the source address, twelve lower case hexadecimal digits"),
        Column("kind", "kind", "word", words=("info", "event"), says="info or event"),
        Column("level", "level", "level", is_any_code=True, says="the name of the level that the frame's codes name, or code-N with N from 0 to 15 if the option's table has no such four-bit code"),
        Column("clock", "clock", "digits", may_lack=True, says="the clock's identity, sixteen lower case hexadecimal digits"),
        Column("flags", "flags", "digits", may_lack=True, says="two lower case hexadecimal digits"),
        Column("eeecs", "eeecs", "number", unit="clocks", may_lack=True, says="how many enhanced EECs are cascaded, a number from 0 to 255"),
        Column("eecs", "eecs", "number", unit="clocks", may_lack=True, says="how many EECs are cascaded, a number from 0 to 255"),
    ),
)
SENT = Table(
    "sent", ("node",), "a frame that an element has to send", columns=(
        Column("at", "at", "number", unit="milliseconds", says="the millisecond"),
        Column("line", "line", "name", says="the nominated line on which it goes out"),
        Column("frame", "frame", "digits", says="its bytes"),
    ),
)
ALL = (RANKS, CHAINS, GAPS, HOPS, CHANGES, INPUTS, TRACES, COMMANDS, ELEMENTS, REASONS, CUTS, CASES, SWITCHES, FRAMES, SENT)
