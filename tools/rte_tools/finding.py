"""What lint says: a place and a sentence."""

from __future__ import annotations

from dataclasses import dataclass


@dataclass(frozen=True)
class Finding:
    """A place and what is to be said of it."""

    place: str
    text: str
