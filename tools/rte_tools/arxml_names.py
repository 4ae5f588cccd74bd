"""Names of at most 32 bytes for those of ARXML, which may have 128, and the table of those that differ."""

from __future__ import annotations

import hashlib
import re
from dataclasses import dataclass, field
from typing import Iterable

MOST, DIGITS = 32, 8
FITS = re.compile(r"[A-Za-z][A-Za-z0-9_]{0,31}\Z")
HEADER = "name\tshort name in ARXML\tpath in ARXML"


@dataclass
class Names:
    """The short form of a name depends on the name alone, so elements that agree in name still do.

    `known` are all short names of the files: none of them is given to something else.
    """

    known: set[str] = field(default_factory=set)
    forms: dict[str, str] = field(default_factory=dict)  # the short form of each name that does not fit
    used: set[str] = field(default_factory=set)  # these short forms
    lists: dict[str, set[str]] = field(default_factory=dict)  # the names that each list declares
    given: dict[str, str] = field(default_factory=dict)  # by path
    rows: list[tuple[str, str, str]] = field(default_factory=list)

    @classmethod
    def of(cls, short_names: Iterable[str]) -> Names:
        known = set(short_names)
        names = cls(known)
        for name in sorted(known):  # in a fixed order, so that forms do not hang on which is asked for first
            names.form(name)
        return names

    def form(self, name: str) -> str:
        """The name, or what stands for it where it is too long or no name here."""
        if FITS.match(name):
            return name
        if name not in self.forms:
            self.forms[name] = self.shortened(name)
            self.used.add(self.forms[name])
        return self.forms[name]

    def shortened(self, name: str) -> str:
        """The beginning of the name and eight digits of its hash, which no other name has."""
        head = re.sub(r"[^A-Za-z0-9_]", "_", name)[: MOST - DIGITS - 1]
        head = head if head[:1].isalpha() else f"x{head}"[: MOST - DIGITS - 1]
        digest = hashlib.sha256(name.encode("utf-8", "replace")).hexdigest()
        for start in range(len(digest) - DIGITS):
            made = f"{head}_{digest[start : start + DIGITS]}"
            if made not in self.used and made not in self.known:
                return made
        raise AssertionError("a hash has no digits left")

    def item(self, name: str, path: str) -> str:
        """The name of an item of an interface: the same in each interface, so that items of one name are joined."""
        return self.note(self.form(name), name, path)

    def declare(self, held_in: str, name: str, path: str, reserved: tuple[str, ...] = ()) -> str:
        """The name of something in a list, distinct from all others there."""
        return self.note(self.distinct(held_in, self.form(name), reserved), name, path)

    def distinct(self, held_in: str, name: str, reserved: tuple[str, ...] = ()) -> str:
        """The name, or one with a number behind it, that the list does not have yet."""
        used = self.lists.setdefault(held_in, set())
        made, number = name, 2
        while made in used or made in reserved:
            made, number = f"{name[: MOST - len(str(number)) - 1]}_{number}", number + 1
        used.add(made)
        return made

    def note(self, made: str, name: str, path: str) -> str:
        is_new = path not in self.given
        self.given[path] = made
        if made != name and is_new:
            self.rows.append((made, name, path))
        return made

    def table(self) -> str:
        """The table of the names that differ, as lines of fields with tabs between them."""
        return "\n".join([HEADER, *("\t".join(row) for row in self.rows)]) + "\n"
