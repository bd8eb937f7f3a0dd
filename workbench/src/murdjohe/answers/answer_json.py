"""An answer as JSON, in place of the program's bytes: the form, the status, the answer or refusal, and the sentences.

`json_schema` has what may stand there, which `murdjohe help json` prints.
"""

from __future__ import annotations

import dataclasses
import json
from typing import Any

from murdjohe.answers import reports
from murdjohe.core import refusals, row_tables
from murdjohe.core.inputs import Words
from murdjohe.core.program import Answer

NAMES = "Done Refuted Usage BadPlan BadCert BadEvents BadFrames ReadFault WriteFault TooLong NoMemory Stopped".split()


def plain(result: Any) -> Any:
    """The answer as JSON takes it: a dataclass as an object, octets as hexadecimal digits."""
    if isinstance(result, bytes):
        return {"octets": result.hex()}
    return dataclasses.asdict(result)


def refusal_of(answer: Answer) -> dict[str, Any]:
    """The refusal in an answer: its number and place, and the part of a frame, where it has these."""
    found = refusals.of(answer.status, answer.text)
    if found is None:
        return {"number": None, "place": None}
    part = {} if found.part is None else {"part": found.part}
    return {"number": found.number, "place": found.place or None, **part}


def text(words: Words, answer: Answer, said: list[str]) -> bytes:
    """The whole JSON text, which ends with a line feed."""
    name = NAMES[answer.status] if answer.status < len(NAMES) else str(answer.status)
    form = words.form.name
    told: dict[str, Any] = {
        "json": row_tables.JSON,
        "command": form,
        "form": form,
        "status": answer.status,
        "name": name,
    }
    if answer.status in reports.GOOD:
        told["answer"] = plain(reports.read(words.form.name, answer))
    else:
        told["refusal"] = refusal_of(answer) | {"sentence": said[0] if said else None}
    told["said"] = said
    return (json.dumps(told, ensure_ascii=False, indent=2, default=str) + "\n").encode("utf-8", "backslashreplace")
