"""Tables and findings of the workbench's own commands as JSON."""

from __future__ import annotations

import json
from typing import Any


def text(value: Any) -> bytes:
    """The value as JSON, which ends with a line feed."""
    return (json.dumps(value, ensure_ascii=False, indent=2) + "\n").encode("utf-8", "surrogateescape")
