"""Pieces of SVG as text. Colours are classes, which the page's style gives a light and a dark form."""

from __future__ import annotations

from html import escape

CHARACTER = 6.7  # the width of a character of a label, in pixels
SMALL = 5.8  # of a small one
NAMESPACE = "http://www.w3.org/2000/svg"


def number(value: float) -> str:
    return f"{value:.1f}".rstrip("0").rstrip(".")


def title_of(title: str) -> str:
    return f"<title>{escape(title)}</title>" if title else ""


def rect(x: float, y: float, width: float, height: float, kind: str, title: str = "", radius: int = 0) -> str:
    place = f'x="{number(x)}" y="{number(y)}" width="{number(max(width, 0.5))}" height="{number(height)}"'
    corners = f' rx="{radius}"' if radius else ""
    return f'<rect class="{kind}" {place}{corners}>{title_of(title)}</rect>'


def text(x: float, y: float, content: str, kind: str = "label", title: str = "") -> str:
    return f'<text class="{kind}" x="{number(x)}" y="{number(y)}">{title_of(title)}{escape(content)}</text>'


def line(x: float, y: float, to_x: float, to_y: float, kind: str) -> str:
    ends = f'x1="{number(x)}" y1="{number(y)}" x2="{number(to_x)}" y2="{number(to_y)}"'
    return f'<line class="{kind}" {ends}/>'


def arrow(x: float, y: float, to_x: float, to_y: float, kind: str, title: str = "") -> str:
    """Leaves a mark upwards or downwards and arrives from the left."""
    bend = max(10.0, min(40.0, (to_x - x) / 2))
    middle = y + (to_y - y) * 0.6
    stop = to_x - 5
    way = "M{} {}C{} {} {} {} {} {}".format(*map(number, (x, y, x, middle, stop - bend, to_y, stop, to_y)))
    head = f"M{number(to_x)} {number(to_y)}l-7 -3.5v7z"
    return f'<g class="arrow {kind}">{title_of(title)}<path class="way" d="{way}"/><path class="head" d="{head}"/></g>'


def link(address: str, content: str) -> str:
    return f'<a href="{escape(address)}">{content}</a>'


def hatching(name: str = "hatch") -> str:
    """The pattern of what waits, for the classes that are filled with it."""
    lines = '<path class="hatching" d="M-1 1l2 -2M0 6l6 -6M5 7l2 -2"/>'
    return f'<defs><pattern id="{name}" width="6" height="6" patternUnits="userSpaceOnUse">{lines}</pattern></defs>'


def picture(width: float, height: float, parts: list[str], name: str, place: str = "") -> str:
    """A picture; one within another has a place, which is `x` and `y`."""
    size = f'width="{number(width)}" height="{number(height)}" viewBox="0 0 {number(width)} {number(height)}"'
    if place:
        return f"<svg {place} {size}>" + "\n".join(parts) + "</svg>"
    return f'<svg {size} role="img" aria-label="{escape(name)}">' + "\n".join(parts) + "</svg>"


def fitting(candidates: list[str], width: float) -> str:
    """The first candidate that fits into a width; else the last one, cut; nothing where not even that helps."""
    room = int(width / CHARACTER)
    for candidate in candidates:
        if len(candidate) <= room:
            return candidate
    return candidates[-1][: room - 1] + "…" if room >= 3 else ""
