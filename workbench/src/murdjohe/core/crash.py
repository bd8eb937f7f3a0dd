"""A mistake of the workbench itself: one line, and the trace in a file of its own."""

from __future__ import annotations

import os
import tempfile
import traceback


def kept(trace: str) -> str | None:
    """Writes the trace to a new file among the temporary ones, and gives its path; None where there is no place."""
    try:
        number, path = tempfile.mkstemp(".txt", "murdjohe-trace-")
        with os.fdopen(number, "w", encoding="utf-8", errors="backslashreplace") as file:
            file.write(trace)
        return path
    except OSError:
        return None


def told(mistake: BaseException) -> str:
    """The line on a mistake."""
    path = kept("".join(traceback.format_exception(mistake)))
    what = f"a mistake of the workbench itself, {type(mistake).__name__}: {str(mistake)[:200]}"
    where = f"its trace is in {path}" if path else "there is no place for its trace"
    return f"{what}; {where}"
