"""How a place of a file is shown, with what is said of it."""

from __future__ import annotations

import textwrap

from rte_tools.source import Source

WIDTH = 110  # of a line of an explanation


def explained(source: Source, start: int, end: int, title: str, said: list[str], mend: str) -> list[str]:
    """A place with its line, the title, what is said of it, and the mend."""
    shown = [f"{source.where(start)}: {title}", *source.show(start, end)]
    return shown + [line for sentence in said for line in wrapped(sentence)] + wrapped(f"Mend: {mend}")


def wrapped(sentence: str) -> list[str]:
    """A sentence on lines of their own, indented."""
    return textwrap.wrap(
        sentence, WIDTH, initial_indent="  ", subsequent_indent="    ", break_long_words=False, break_on_hyphens=False
    )
