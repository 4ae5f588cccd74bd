"""Data types of ARXML: integers with limits and arrays of them, by the base type of their implementation."""

from __future__ import annotations

from dataclasses import dataclass, field, replace

from rte_tools.arxml_report import LeftOut, Work
from rte_tools.arxml_tree import Part
from rte_tools.arxml_values import Scaling, limits_in, scaling, whole, words_in

RANGES = {
    "boolean": (0, 1),
    "uint8": (0, 255),
    "uint16": (0, 65535),
    "uint32": (0, 4294967295),
    "sint8": (-128, 127),
    "sint16": (-32768, 32767),
    "sint32": (-2147483648, 2147483647),
}
SIGNS = {"NONE": "uint", "2C": "sint"}  # by BASE-TYPE-ENCODING
MOST_WORDS, MOST_STEPS = 16, 16
PROPERTIES = ("SW-DATA-DEF-PROPS", "SW-DATA-DEF-PROPS-VARIANTS", "SW-DATA-DEF-PROPS-CONDITIONAL")


@dataclass(frozen=True)
class Form:
    """What a data type is: its base, the limits of a word as far as they are said, and how many words it has."""

    base: str
    lower: int | None = None
    upper: int | None = None
    words: int = 1
    scale: Scaling = Scaling()

    def limits(self) -> tuple[int, int]:
        """The limits, within the range of the base."""
        least, most = RANGES[self.base]
        lower = least if self.lower is None else self.lower
        upper = most if self.upper is None else self.upper
        return max(least, min(lower, most)), min(most, max(upper, least))


@dataclass
class Types:
    """The data types that were asked for, by their path."""

    work: Work
    made: dict[str, dict] = field(default_factory=dict)
    named: dict[str, dict] = field(default_factory=dict)  # by the name in the description
    forms: dict[str, Form] = field(default_factory=dict)  # by the name in the description
    refused: dict[str, str] = field(default_factory=dict)  # why, by path
    maps: dict[str, str] | None = None  # from application types to those of the implementation

    def of(self, prototype: Part) -> dict:
        """The data type of a prototype. Raises LeftOut."""
        path = prototype.text("TYPE-TREF")
        if path not in self.made and path not in self.refused:
            try:
                self.made[path] = self.make(path)
            except LeftOut as why:
                self.refused[path] = str(why)
                part = self.work.tree.at(path)
                if part:
                    self.work.report.left_out(part, str(why))
        if path in self.refused:
            raise LeftOut(f"its data type {path or '(none)'} is left out: {self.refused[path]}")
        return self.made[path]

    def make(self, path: str) -> dict:
        form = self.form(path, MOST_STEPS)
        if form.words > MOST_WORDS:
            raise LeftOut(f"it has {form.words} words, and at most {MOST_WORDS} may be")
        lower, upper = form.limits()
        if lower > upper:
            raise LeftOut(f"no number is from {lower} to {upper}")
        part = self.work.tree.at(path)
        if part and (form.lower, form.upper) != (None, None):
            said = form.lower if form.lower is not None else lower, form.upper if form.upper is not None else upper
            if said != (lower, upper):
                self.work.report.changed(part, f"its limits {said[0]} and {said[1]} are cut to the range of {form.base}")
        name = self.work.names.declare("dataTypes", path.rpartition("/")[2], path)
        self.forms[name] = form
        self.named[name] = {"shortName": name, "baseType": form.base, "lower": lower, "upper": upper, "words": form.words}
        return self.named[name]

    # ---- what a path names

    def form(self, path: str, steps: int) -> Form:
        part = self.work.tree.at(path)
        if not part or not steps:
            base = path.rpartition("/")[2]
            if base in RANGES and steps:
                return Form(base)  # a platform type, whose files are seldom at hand
            raise LeftOut("it is not in the files" if steps else "it refers to itself")
        part.take()
        if part.tag == "SW-BASE-TYPE":
            return Form(self.base(part))
        if part.tag == "APPLICATION-PRIMITIVE-DATA-TYPE":
            return self.application(part, steps)
        if part.tag == "APPLICATION-ARRAY-DATA-TYPE":
            return self.application_array(part, steps)
        if part.tag == "IMPLEMENTATION-DATA-TYPE":
            return self.implementation(part, steps)
        raise LeftOut(f"{part.tag} is no whole number and no array of them")

    def base(self, part: Part) -> str:
        part.skip()
        if part.name in RANGES:
            return part.name
        encoding, size = part.text("BASE-TYPE-ENCODING").upper(), whole(part.text("BASE-TYPE-SIZE") or "0")
        if encoding == "BOOLEAN":
            return "boolean"
        found = next((f"{SIGNS[encoding]}{bits}" for bits in (8, 16, 32) if 0 < size <= bits), "") if encoding in SIGNS else ""
        if not found:
            raise LeftOut(f"the base type {part.name} of {size} bits, {encoding or 'without an encoding'}, is none of whole numbers up to 32 bits")
        return found

    def application(self, part: Part, steps: int) -> Form:
        """An application type has its limits; its base is that of the implementation type which is mapped to it."""
        properties = part.child(*PROPERTIES)
        mapped = self.implementation_of(part.path)
        below = self.form(mapped, steps - 1) if mapped else None
        said = self.limited(Form("sint32"), properties)
        if below and below.words > 1:
            raise LeftOut("an array is mapped to it")
        if below:
            return self.narrowed(said, below)
        if part.text("CATEGORY") == "BOOLEAN":
            return replace(said, base="boolean")
        base = narrowest(said.lower, said.upper)
        self.work.report.changed(part, f"no DATA-TYPE-MAP names it, so its base type is {base}")
        return replace(said, base=base)

    def narrowed(self, said: Form, below: Form) -> Form:
        """The limits of the application type; where it says none, those of the implementation."""
        if said.lower is None and said.upper is None:
            return replace(said, base=below.base, lower=below.lower, upper=below.upper)
        return replace(said, base=below.base)

    def application_array(self, part: Part, steps: int) -> Form:
        element = part.child("ELEMENT")
        if not element or element.text("ARRAY-SIZE-SEMANTICS") == "VARIABLE-SIZE":
            raise LeftOut("an array has a fixed size")
        below = self.form(element.text("TYPE-TREF"), steps - 1)
        mapped = self.implementation_of(part.path)
        if mapped:
            below = replace(below, base=self.form(mapped, steps - 1).base)
        return self.times(below, element.text("MAX-NUMBER-OF-ELEMENTS"))

    def implementation(self, part: Part, steps: int) -> Form:
        category, properties = part.text("CATEGORY"), part.child(*PROPERTIES)
        if category == "ARRAY":
            elements = part.children("SUB-ELEMENTS", "IMPLEMENTATION-DATA-TYPE-ELEMENT")
            if len(elements) != 1 or elements[0].text("ARRAY-SIZE-SEMANTICS") == "VARIABLE-SIZE":
                raise LeftOut("an array has elements of one type and a fixed size")
            return self.times(self.implementation(elements[0], steps - 1), elements[0].text("ARRAY-SIZE"))
        way = {"TYPE_REFERENCE": "IMPLEMENTATION-DATA-TYPE-REF", "VALUE": "BASE-TYPE-REF", "BOOLEAN": "BASE-TYPE-REF"}
        if category not in way or not properties:
            raise LeftOut(f"the category {category or '(none)'} is no whole number and no array of them")
        return self.limited(self.form(properties.text(way[category]), steps - 1), properties)

    # ---- parts of that

    def times(self, below: Form, size: str) -> Form:
        if below.words > 1:
            raise LeftOut("an array of arrays has more than one dimension")
        count = whole(size or "0")
        if count < 1:
            raise LeftOut("an array has a fixed size")
        return replace(below, words=count)

    def limited(self, form: Form, properties: Part | None) -> Form:
        """The form with the limits that its properties say."""
        if not properties:
            return form
        method = properties.target("COMPU-METHOD-REF")
        scale = scaling(method) if method else form.scale
        if method:
            method.take().skip()
        constraint = properties.target("DATA-CONSTR-REF")
        lower, upper = limits_in(constraint, scale) if constraint else (None, None)
        if not constraint and scale.texts:
            lower, upper = min(text[1] for text in scale.texts), max(text[2] for text in scale.texts)
        if lower is None and upper is None:
            return replace(form, scale=scale)
        return replace(form, lower=lower, upper=upper, scale=scale)

    def implementation_of(self, path: str) -> str:
        """The implementation type that a DATA-TYPE-MAP gives to an application type."""
        if self.maps is None:
            self.maps = {}
            for held in self.work.tree.all("DATA-TYPE-MAPPING-SET"):
                for entry in held.take().children("DATA-TYPE-MAPS", "DATA-TYPE-MAP"):
                    self.maps.setdefault(entry.text("APPLICATION-DATA-TYPE-REF"), entry.text("IMPLEMENTATION-DATA-TYPE-REF"))
        return self.maps.get(path, "")

    def init_value(self, holder: Part, kind: dict) -> list[int] | None:
        """The INIT-VALUE of a com spec or a variable, if it has one that fits."""
        held = holder.children("INIT-VALUE")
        if not held:
            return None
        try:
            words = words_in(held[0], self.forms[kind["shortName"]].scale)
            if len(words) != kind["words"]:
                raise LeftOut(f"it has {len(words)} words, and its data type {kind['words']}")
            if not all(kind["lower"] <= word <= kind["upper"] for word in words):
                raise LeftOut(f"it is not from {kind['lower']} to {kind['upper']}")
        except LeftOut as why:
            self.work.report.left_out(held[0], f"the initial value: {why}")
            return None
        return words


def narrowest(lower: int | None, upper: int | None) -> str:
    """The first base type that holds the limits; without limits the widest."""
    if lower is None or upper is None:
        return "sint32"
    for base in ("uint8", "sint8", "uint16", "sint16", "uint32"):
        if RANGES[base][0] <= lower and upper <= RANGES[base][1]:
            return base
    return "sint32"
