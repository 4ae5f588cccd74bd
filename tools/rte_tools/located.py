"""JSON with the place of each value, read as the program reads it (rule 1).

The standard library's reader tells no places and takes more than JSON, such as `NaN`.
"""

from __future__ import annotations

import math
import re
from dataclasses import dataclass, field
from typing import Any, Callable, Iterator, NoReturn

DEPTH = 127  # how many brackets may be open at once
WHITE = re.compile(r"[ \t\n\r]*")
NUMBER = re.compile(r"-?(?:0|[1-9][0-9]*)(\.[0-9]+)?([eE][+-]?[0-9]+)?")
PLAIN = re.compile(r'[^"\\\x00-\x1f]*')
WORD = re.compile(r"[A-Za-z_][A-Za-z0-9_]*")
ESCAPES = {'"': '"', "\\": "\\", "/": "/", "b": "\b", "f": "\f", "n": "\n", "r": "\r", "t": "\t"}
CONTROLS = {"\t": ("a tab", "\\t"), "\n": ("a line end", "\\n"), "\r": ("a carriage return", "\\r")}
LITERALS = {"true": True, "false": False, "null": None}


class NotJson(Exception):
    """The text is not JSON. `start` and `end` say where, `message` says what is wrong there."""

    def __init__(self, start: int, message: str, end: int | None = None):
        super().__init__(message)
        self.start = start
        self.end = start + 1 if end is None else end
        self.message = message


@dataclass
class Node:
    """A value with its place. A list holds nodes, an object nodes by key; of a doubled key the last one."""

    start: int
    end: int
    value: Any
    keys: dict[str, int] = field(default_factory=dict)  # where each key of an object begins
    doubled: list[tuple[int, str]] = field(default_factory=list)  # keys that stood before, and where

    def plain(self) -> Any:
        """The value without places."""
        if isinstance(self.value, list):
            return [item.plain() for item in self.value]
        if isinstance(self.value, dict):
            return {key: item.plain() for key, item in self.value.items()}
        return self.value

    def at(self, place: str) -> Node:
        """The node of a place that is there."""
        node = self.find(place)
        if node is None:
            raise KeyError(place)
        return node

    def find(self, place: str) -> Node | None:
        """The node that a place of a refusal names (`/` is the whole), or none."""
        node: Node = self
        for part in [part for part in place.split("/") if part]:
            if isinstance(node.value, dict) and part in node.value:
                node = node.value[part]
            elif isinstance(node.value, list) and part.isdigit() and int(part) < len(node.value):
                node = node.value[int(part)]
            else:
                return None
        return node

    def walk(self) -> Iterator[Node]:
        """This node and all below it."""
        yield self
        if isinstance(self.value, (list, dict)):
            for node in self.value if isinstance(self.value, list) else self.value.values():
                yield from node.walk()


def matched(pattern: re.Pattern[str], text: str, start: int) -> re.Match[str]:
    """The match of a pattern that matches the empty text too."""
    found = pattern.match(text, start)
    assert found is not None
    return found


def read_json(text: str) -> Node:
    """The value that the text is. Raises NotJson where the program refuses the text by rule 1."""
    return Reader(text).whole()


class Reader:
    """Reads one text from its beginning."""

    def __init__(self, text: str):
        self.text = text
        self.here = 0
        self.open: list[int] = []  # where each bracket begins that is not closed yet

    def whole(self) -> Node:
        self.check_bytes()
        node = self.value()
        self.skip_white()
        if self.here < len(self.text):
            self.fail("the text should end here, since the value before is complete")
        return node

    def check_bytes(self) -> None:
        if self.text.startswith("\ufeff"):
            self.fail("the file begins with a byte order mark; save it as UTF-8 without one")
        if self.text.startswith(("\udcff\udcfe", "\udcfe\udcff")):
            self.fail("the file is UTF-16; save it as UTF-8")
        wrong = re.search("[\udc80-\udcff]", self.text)
        if wrong:
            self.fail("this byte is not UTF-8; save the file as UTF-8", wrong.start())

    def fail(self, message: str, start: int | None = None, end: int | None = None) -> NoReturn:
        raise NotJson(self.here if start is None else start, message, end)

    def skip_white(self) -> None:
        self.here = matched(WHITE, self.text, self.here).end()

    def peek(self) -> str:
        """The next character behind white space, or nothing at the end."""
        self.skip_white()
        return self.text[self.here : self.here + 1]

    def value(self) -> Node:
        first = self.peek()
        if first == "{":
            return self.nested(self.object)
        if first == "[":
            return self.nested(self.array)
        if first == '"':
            return self.string()
        if first == "-" or first.isdigit():
            return self.number()
        return self.literal(first)

    def nested(self, read: Callable[[], Node]) -> Node:
        self.open.append(self.here)
        if len(self.open) > DEPTH:
            self.fail(f"more than {DEPTH} brackets are open here")
        node = read()
        self.open.pop()
        return node

    def literal(self, first: str) -> Node:
        start = self.here
        word = WORD.match(self.text, start)
        if word and word.group() in LITERALS:
            self.here = word.end()
            return Node(start, self.here, LITERALS[word.group()])
        if word:
            self.fail(f"`{word.group()}` is not JSON; a text needs double quotes", end=word.end())
        self.fail(self.unexpected(first, "a value"))

    def unexpected(self, found: str, wanted: str) -> str:
        if not found:
            return f"the text ends where {wanted} should be{self.left_open()}"
        if found == "'":
            return "a text needs double quotes, not single ones"
        if found == "/":
            return "JSON has no comments"
        return f"`{found}` stands where {wanted} should be"

    def left_open(self) -> str:
        """Which bracket was opened last and is still open."""
        if not self.open:
            return ""
        start = self.open[-1]
        line = self.text.count("\n", 0, start) + 1
        return f"; the `{self.text[start]}` of line {line} is not closed"

    def array(self) -> Node:
        start = self.here
        self.here += 1
        items = []
        if self.peek() != "]":
            items.append(self.value())
            while self.goes_on("]"):
                items.append(self.value())
        self.here += 1
        return Node(start, self.here, items)

    def object(self) -> Node:
        node = Node(self.here, self.here, {})
        self.here += 1
        if self.peek() != "}":
            self.member(node)
            while self.goes_on("}"):
                self.member(node)
        self.here += 1
        node.end = self.here
        return node

    def goes_on(self, closing: str) -> bool:
        """Whether a comma with a further item comes, and not the closing bracket."""
        found = self.peek()
        if found == closing:
            return False
        if found != ",":
            self.fail(self.unexpected(found, f"a comma or `{closing}`"))
        comma = self.here
        self.here += 1
        if self.peek() in ("]", "}"):
            self.fail(f"there is a comma before `{self.peek()}`; take it out", comma)
        return True

    def member(self, node: Node) -> None:
        if self.peek() != '"':
            self.fail(self.unexpected(self.peek(), "a key in double quotes"))
        key = self.string()
        if self.peek() != ":":
            self.fail(self.unexpected(self.peek(), "a colon"))
        self.here += 1
        if key.value in node.value:
            node.doubled.append((key.start, key.value))
        node.keys[key.value] = key.start
        node.value[key.value] = self.value()

    def string(self) -> Node:
        start = self.here
        self.here += 1
        parts = []
        while True:
            plain = matched(PLAIN, self.text, self.here)
            parts.append(plain.group())
            self.here = plain.end()
            end = self.text[self.here : self.here + 1]
            if end == '"':
                self.here += 1
                return Node(start, self.here, "".join(parts))
            if end != "\\":
                self.fail(self.control(end))
            parts.append(self.escape())

    def control(self, found: str) -> str:
        if not found:
            return "the file ends within a text, so a quote is missing"
        name, escape = CONTROLS.get(found, ("a control character", "\\u00.."))
        return f"there is {name} within a text; a quote is missing, or it has to be written `{escape}`"

    def escape(self) -> str:
        start = self.here
        letter = self.text[start + 1 : start + 2]
        if letter in ESCAPES and letter:
            self.here += 2
            return ESCAPES[letter]
        if letter != "u":
            self.fail("there is no such escape", end=start + 2)
        code = self.four_digits(start)
        if 0xD800 <= code < 0xDC00 and self.text[self.here : self.here + 2] == "\\u":
            low = self.four_digits(self.here)
            if 0xDC00 <= low < 0xE000:
                return chr(0x10000 + ((code - 0xD800) << 10) + (low - 0xDC00))
        if 0xD800 <= code < 0xE000:
            self.fail("this is half of a character that takes two escapes", start, self.here)
        return chr(code)

    def four_digits(self, start: int) -> int:
        digits = self.text[start + 2 : start + 6]
        if not re.fullmatch("[0-9A-Fa-f]{4}", digits):
            self.fail("four hexadecimal digits have to follow `\\u`", start, start + 2)
        self.here = start + 6
        return int(digits, 16)

    def number(self) -> Node:
        start = self.here
        found = NUMBER.match(self.text, start)
        if not found:
            self.fail("a digit has to follow the minus")
        self.here = found.end()
        if self.text[self.here : self.here + 1].isdigit():
            self.fail("a number may not begin with 0", start)
        return Node(start, self.here, self.number_of(start, found))

    def number_of(self, start: int, found: re.Match) -> int | float:
        """The number. `-0` and what 64 bits do not hold by far are no whole numbers to the program either."""
        text = found.group()
        if found.group(1) is None and found.group(2) is None and text != "-0" and len(text) < 300:
            return int(text)
        number = float(text)
        if math.isinf(number):
            self.fail("the number is too large", start, self.here)
        return number
