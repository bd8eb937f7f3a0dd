"""The rules once more, plain and slow: an independent model, with which the proved program is compared.

usage: python3 -m bench.reference --rows
       python3 -m bench.reference --theorems N [--seed N]
       python3 -m bench.reference --sim PLAN EVENTS UNTIL
       python3 -m bench.reference --sweep PLAN AT UNTIL
       python3 -m bench.reference --inspect PLAN EVENTS AT
       python3 -m bench.reference --study PLAN CASES UNTIL

Written from the rules alone, and no code of the program is called. It goes through every millisecond and counts.
element.py has the condition of an input, operator commands, the choice of an input and one element; plan.py plans,
events, hops and ranks; network.py the network over time, settled milliseconds, closed walks and traces; report.py
the texts of a simulation and of a sweep; inspection.py that of an inspection; study.py tables of cases and what comes of
them; priority.py elements that choose by priority alone; node.py one element on captured frames. It grows with the
program.

--rows compares the reference with runs worked out by hand (runs_by_hand.py). --theorems tries the promises on a
running network on N random plans and on some by hand, and wrong texts of them (laws.py). --sim, --sweep and
--inspect print what the program is to print of accepted files, --study what comes of a table of cases, or what it is
refused with. It needs Python 3.11 alone.
"""

import sys

from bench.program import parser
from bench.reference import laws, runs_by_hand
from bench.reference.inspection import inspection_text
from bench.reference.plan import read_events, read_plan
from bench.reference.report import sim_text, sweep_text
from bench.reference.study import study_answer


def read(path: str) -> str:
    """The text of a file without its byte order mark."""
    with open(path, encoding="utf-8-sig", newline="") as file:
        return file.read()


def main() -> int:
    words = parser(__doc__, rows=False, seed=1)
    words.add_argument("--theorems", type=int, metavar="N")
    words.add_argument("--sim", nargs=3, metavar=("PLAN", "EVENTS", "UNTIL"))
    words.add_argument("--sweep", nargs=3, metavar=("PLAN", "AT", "UNTIL"))
    words.add_argument("--inspect", nargs=3, metavar=("PLAN", "EVENTS", "AT"))
    words.add_argument("--study", nargs=3, metavar=("PLAN", "CASES", "UNTIL"))
    given = words.parse_args()
    if given.sim:
        plan = read_plan(read(given.sim[0]))
        print(sim_text(plan, read_events(plan, read(given.sim[1])), int(given.sim[2])), end="")
    elif given.sweep:
        print(sweep_text(read_plan(read(given.sweep[0])), int(given.sweep[1]), int(given.sweep[2])), end="")
    elif given.inspect:
        plan = read_plan(read(given.inspect[0]))
        print(inspection_text(plan, read_events(plan, read(given.inspect[1])), int(given.inspect[2])), end="")
    elif given.study:
        with open(given.study[1], "rb") as file:
            status, text = study_answer(read_plan(read(given.study[0])), file.read(), int(given.study[2]))
        print(text, end="")
        return status
    elif given.rows:
        return 1 if runs_by_hand.compare() else 0
    elif given.theorems is not None:
        return 1 if laws.try_laws(given.theorems, given.seed) else 0
    else:
        words.error("--rows, --theorems, --sim, --sweep, --inspect or --study has to be given")
    return 0


if __name__ == "__main__":
    sys.exit(main())
