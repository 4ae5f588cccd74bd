"""JSON for people: what fits into a line stands on one, as in the examples."""

from __future__ import annotations

import json
from typing import Any

WIDTH = 110


def laid_out(value: Any, indent: int = 0, before: int = 0) -> str:
    """The text of a value. `before` is how much stands before it on its line."""
    short = json.dumps(value, ensure_ascii=False, separators=(",", ":"))
    if not isinstance(value, (dict, list)) or not value or indent + before + len(short) <= WIDTH:
        return short
    inner = " " * (indent + 1)
    if isinstance(value, list):
        parts = [laid_out(each, indent + 1) for each in value]
        return "[\n" + ",\n".join(inner + part for part in parts) + "]"
    parts = []
    for key, each in value.items():
        name = json.dumps(key, ensure_ascii=False) + ":"
        parts.append(name + laid_out(each, indent + 1, len(name)))
    return "{" + (",\n" + inner).join(parts) + "}"
