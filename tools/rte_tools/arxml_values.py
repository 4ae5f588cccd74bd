"""Numbers, limits and values of ARXML, as whole numbers of the implementation."""

from __future__ import annotations

import math
from dataclasses import dataclass
from fractions import Fraction

from rte_tools.arxml_report import LeftOut
from rte_tools.arxml_tree import Part

WORDS = {"true": 1, "false": 0}
MOST_STEPS = 16  # of constants that refer to constants


def number(text: str) -> Fraction:
    """A number of ARXML: decimal, with an exponent, hexadecimal, or true or false. Raises LeftOut."""
    text = text.strip()
    if text.lower() in WORDS:
        return Fraction(WORDS[text.lower()])
    try:
        if text.lower().lstrip("+-").startswith(("0x", "0b")):
            return Fraction(int(text, 0))
        return Fraction(text) if len(text) < 64 else Fraction(float(text))
    except (ValueError, OverflowError, ZeroDivisionError) as error:
        raise LeftOut(f"`{text[:40]}` is not a number") from error


def whole(text: str) -> int:
    """A whole number of ARXML. Raises LeftOut."""
    found = number(text)
    if found.denominator != 1:
        raise LeftOut(f"`{text}` is not a whole number")
    return int(found)


@dataclass(frozen=True)
class Scaling:
    """A COMPU-METHOD that is linear, or that gives texts to numbers: from physical values to those of the implementation."""

    add: Fraction = Fraction(0)
    multiply: Fraction = Fraction(1)
    divide: Fraction = Fraction(1)
    texts: tuple[tuple[str, int, int], ...] = ()  # each with its least and its greatest number

    def internal(self, physical: Fraction) -> Fraction:
        return (physical * self.divide - self.add) / self.multiply

    def of_text(self, text: str) -> int:
        for known, lower, _ in self.texts:
            if known == text:
                return lower
        raise LeftOut(f"the text `{text}` is none of its COMPU-METHOD")


def scaling(method: Part | None) -> Scaling:
    """What a COMPU-METHOD says; what is neither linear nor a table of texts is taken as it is."""
    held = method.children("COMPU-INTERNAL-TO-PHYS/COMPU-SCALES", "COMPU-SCALE") if method else []
    texts = []
    for scale in held:
        text = scale.text("COMPU-CONST", "VT")
        if text:
            texts.append((text, whole(scale.text("LOWER-LIMIT")), whole(scale.text("UPPER-LIMIT"))))
    if texts or len(held) != 1:
        return Scaling(texts=tuple(texts))
    above = [number(part.element.text or "") for part in held[0].children("COMPU-RATIONAL-COEFFS/COMPU-NUMERATOR", "V")]
    below = [number(part.element.text or "") for part in held[0].children("COMPU-RATIONAL-COEFFS/COMPU-DENOMINATOR", "V")]
    if len(above) != 2 or not above[1] or len(below) > 1:
        return Scaling()
    return Scaling(above[0], above[1], below[0] if below else Fraction(1))


def limit(part: Part | None, is_lower: bool) -> Fraction | None:
    """A limit, or none where the values go on for ever. An open one is not reached."""
    text = (part.element.text or "").strip() if part else ""
    if not part or not text or text.lstrip("+-").upper() == "INF" or part.element.get("INTERVAL-TYPE") == "INFINITE":
        return None
    found = number(text)
    if part.element.get("INTERVAL-TYPE") == "OPEN" and found.denominator == 1:
        return found + (1 if is_lower else -1)
    return found


def limits_in(constraint: Part, scale: Scaling) -> tuple[int | None, int | None]:
    """The least and the greatest number of the implementation, by a DATA-CONSTR."""
    rule = constraint.child("DATA-CONSTR-RULES", "DATA-CONSTR-RULE")
    internal = rule.child("INTERNAL-CONSTRS") if rule else None
    held = internal or (rule.child("PHYS-CONSTRS") if rule else None)
    if not held:
        return None, None
    ends = [limit(held.child("LOWER-LIMIT"), True), limit(held.child("UPPER-LIMIT"), False)]
    if not internal:
        ends = [end if end is None else scale.internal(end) for end in ends]
        if scale.multiply / scale.divide < 0:
            ends.reverse()
    elif physical := rule.child("PHYS-CONSTRS"):
        physical.skip()  # the same limits, before scaling
    lower, upper = ends
    return None if lower is None else math.ceil(lower), None if upper is None else math.floor(upper)


def words_in(value: Part, scale: Scaling, steps: int = MOST_STEPS) -> list[int]:
    """The words of a value. Raises LeftOut where it is none of numbers."""
    if value.tag == "NUMERICAL-VALUE-SPECIFICATION":
        return [whole(value.text("VALUE"))]
    if value.tag == "APPLICATION-VALUE-SPECIFICATION":
        return [physical_word(part, scale) for part in value.children("SW-VALUE-CONT/SW-VALUES-PHYS")]
    if value.tag == "ARRAY-VALUE-SPECIFICATION":
        return [word for part in value.children("ELEMENTS") for word in words_in(part, scale, steps)]
    if value.tag == "CONSTANT-REFERENCE" and steps:
        constant = value.target("CONSTANT-REF")
        held = constant.children("VALUE-SPEC") if constant else []
        if not held:
            raise LeftOut(f"the constant {value.text('CONSTANT-REF')} is not in the files")
        return words_in(held[0], scale, steps - 1)
    raise LeftOut(f"{value.tag} is no value of whole numbers")


def physical_word(part: Part, scale: Scaling) -> int:
    text = (part.element.text or "").strip()
    if part.tag == "VT":
        return scale.of_text(text)
    found = scale.internal(number(text)) if part.tag in ("V", "VF") else number(text)
    if found.denominator != 1:
        raise LeftOut(f"`{text}` is not a whole number of the implementation")
    return int(found)
