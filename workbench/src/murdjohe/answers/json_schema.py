"""What `--json` prints, as a JSON Schema: made of the dataclasses of answers, and of the words and units of `core.row_tables`."""

from __future__ import annotations

import dataclasses
import types
import typing
from typing import Any

from murdjohe.answers import answer_json, reports
from murdjohe.core import row_tables
from murdjohe.core.levels import LEVELS
from murdjohe.core.row_columns import LEVEL, WORD, Column, Table

PLAIN = {str: "string", int: "integer", bool: "boolean", types.NoneType: "null"}
TABLES: dict[str, Table] = {
    "Chain": row_tables.CHAINS,
    "Gap": row_tables.GAPS,
    "Hop": row_tables.HOPS,
    "Change": row_tables.CHANGES,
    "Input": row_tables.INPUTS,
    "Trace": row_tables.TRACES,
    "Command": row_tables.COMMANDS,
    "Inspected": row_tables.ELEMENTS,
    "Reason": row_tables.REASONS,
    "Cut": row_tables.CUTS,
    "Case": row_tables.CASES,
    "Frame": row_tables.FRAMES,
    "Sent": row_tables.SENT,
}
OCTETS = {"type": "object", "properties": {"octets": {"type": "string"}}, "required": ["octets"]}


def words_of(column: Column) -> list[str]:
    """The words that a column may hold, where these are known."""
    if column.kind == LEVEL:
        codes = [f"code-{number}" for number in range(16)] if column.is_any_code else []
        return [*dict.fromkeys(name for names in LEVELS.values() for name in names), *codes]
    return list(column.words) if column.kind == WORD else []


def of_column(column: Column, its: dict[str, Any]) -> dict[str, Any]:
    """A column: its type with its words and unit, and what it says."""
    words, more = words_of(column), {"unit": column.unit} if column.unit else {}
    if words:
        its = {"enum": [*words, *([None] if "null" in its.get("type", []) else [])]}
    return {**its, **more, "description": column.says}


def either(parts: list[dict[str, Any]]) -> dict[str, Any]:
    """One of some types."""
    names = [part.get("type") for part in parts]
    return {"type": names} if all(part == {"type": part.get("type")} for part in parts) else {"anyOf": parts}


def of_type(hint: Any) -> dict[str, Any]:
    """A type of the dataclasses."""
    if hint in PLAIN:
        return {"type": PLAIN[hint]}
    if dataclasses.is_dataclass(hint):
        return {"$ref": f"#/$defs/{typing.cast(type, hint).__name__}"}
    origin, inner = typing.get_origin(hint), typing.get_args(hint)
    if origin is dict:
        return {"type": "object", "additionalProperties": of_type(inner[1])}
    if origin is tuple:
        return {"type": "array", "items": of_type(inner[0])}
    if origin in (typing.Union, types.UnionType):
        return either([of_type(one) for one in inner])
    return OCTETS if hint is bytes else {}


def of_class(kind: type[Any]) -> dict[str, Any]:
    """A dataclass as an object."""
    hints = typing.get_type_hints(kind)
    its = {field.name: of_type(hints[field.name]) for field in dataclasses.fields(kind)}
    if table := TABLES.get(kind.__name__):
        its = {column.name: of_column(column, its[column.name]) for column in table.columns}
    about: dict[str, Any] = {"description": table.of} if table else {}
    return {"type": "object", **about, "properties": its, "required": list(its), "additionalProperties": False}


def classes_under(kind: Any) -> dict[str, type[Any]]:
    """The dataclasses that a type is made of, by their names."""
    if dataclasses.is_dataclass(kind) and isinstance(kind, type):
        inner = [classes_under(hint) for hint in typing.get_type_hints(kind).values()]
        return {kind.__name__: kind} | {name: one for found in inner for name, one in found.items()}
    return {name: one for part in typing.get_args(kind) for name, one in classes_under(part).items()}


def results() -> dict[str, Any]:
    """What each form answers."""
    return {form: typing.get_type_hints(reader)["return"] for form, reader in reports.READERS.items()}


def head_of(forms: list[str]) -> dict[str, Any]:
    """What every object has, or may have."""
    texts: dict[str, Any] = {"type": "array", "items": {"type": "string"}}
    refusal: dict[str, Any] = {
        "type": "object",
        "properties": {
            "number": {"type": ["integer", "null"]},
            "place": {"description": "where, as the program writes it"},
            "part": {"description": "which part of a frame"},
            "sentence": {"type": ["string", "null"]},
        },
    }
    answer = "of a form, where the status is 0, 1 or 11: what it writes; of other commands what they find"
    return {
        "json": {"const": row_tables.JSON},
        "command": {"type": ["string", "null"], "description": "the command; that of a form is the form"},
        "form": {"enum": forms, "description": "of a form of the program alone, and so is `name`"},
        "status": {"type": "integer"},
        "name": {"enum": answer_json.NAMES},
        "answer": {"description": answer},
        "refusal": refusal,
        "said": {**texts, "description": "sentences, which may change with every version"},
    }


def schema() -> dict[str, Any]:
    """The whole schema."""
    found = results()
    classes = {name: kind for result in found.values() for name, kind in classes_under(result).items()}
    forms: list[dict[str, Any]] = [
        {"properties": {"form": {"const": form}, "answer": of_type(kind)}} for form, kind in found.items()
    ]
    return {
        "$schema": "https://json-schema.org/draft/2020-12/schema",
        "title": f"What murdjohe COMMAND --json prints, version {row_tables.JSON}",
        "type": "object",
        "properties": head_of(list(found)),
        "required": ["json", "command", "status", "said"],
        "anyOf": [
            {"required": ["refusal"]},
            *({**form, "required": ["form", "name", "answer"]} for form in forms),
            {"required": ["answer"], "properties": {"command": {"not": {"enum": list(found)}}}},
        ],
        "$defs": {name: of_class(kind) for name, kind in sorted(classes.items())},
    }
