"""Reads what `gen N` prints by Python's own TOML reader, and compares it with the ladder row by row; then
`check` reads it back with a certificate.

usage: python3 -m bench.compare.gen PROGRAM [N..]      (N: 2, 3, 4 and 2000 where none is given)
"""

import sys
import tempfile
import tomllib
from typing import Any

from bench.measure.ladder import certificate_text, links_of
from bench.program import answer, program_words, put_files


def expected_ladder(count: int) -> dict[str, Any]:
    """The plan as a document, with every key."""
    return {
        "option": "I",
        "element": [{"name": f"E{j}", "own": "QL-SEC", "holdoff": 300, "wtr": 5} for j in range(count)],
        "link": [
            {
                "name": name,
                "a": f"E{a}",
                "b": f"E{b}",
                "priority_a": 0,
                "priority_b": priority,
                "delay_a": 10,
                "delay_b": 10,
            }
            for name, a, b, priority in links_of(count)
        ],
        "source": [
            {"name": "P0", "at": "E0", "level": "QL-PRC", "priority": 1},
            {"name": "P1", "at": "E1", "level": "QL-SSU-A", "priority": 1},
        ],
    }


def difference(program: str, count: int) -> str | None:
    """What is wrong with the ladder of so many elements, or with the answer of `check` to it."""
    status, text = answer(program, "gen", count)
    if status != 0 or tomllib.loads(text) != expected_ladder(count):
        return f"the ladder of {count} elements is another"
    with tempfile.TemporaryDirectory() as folder:
        put_files(folder, {"plan": text, "certificate": certificate_text(count)})
        answered = answer(program, "check", "plan", "certificate", folder=folder)
    if answered != (0, "accepted\n"):
        return f"check answers {answered} to the ladder of {count} elements"
    print(f"{count} elements, {len(links_of(count))} links, {len(text)} bytes: read by tomllib and by check")
    return None


def main() -> int:
    words = program_words(__doc__)
    words.add_argument("counts", nargs="*", type=int, metavar="N")
    given = words.parse_args()
    wrong = [said for count in given.counts or [2, 3, 4, 2000] if (said := difference(given.program, count))]
    for said in wrong:
        print(said)
    return 1 if wrong else 0


if __name__ == "__main__":
    sys.exit(main())
