"""The documents: what they link to exists, the README is read in one sitting, and users meet one vocabulary."""

from __future__ import annotations

import re
import unittest
from pathlib import Path
from typing import Iterator

from support import TOP, text_of

FOR_USERS = [
    "README.md",
    "docs/FIRST_NODE.md",
    "docs/SECOND_NODE.md",
    "docs/FORMAT.md",
    "docs/AUTOSAR.md",
    "docs/EDITORS.md",
    "tools/README.md",
    "examples/README.md",
]
DOCUMENTS = [TOP / "CONTRIBUTING.md", *sorted((TOP / "docs").glob("*.md")), *(TOP / name for name in FOR_USERS)]
SITTING = 8192  # bytes
FOLDERS = ("docs/", "tools/dev/", "examples/", "schema/", "bench/", "corpus/", ".vscode/", ".ci/")
FENCED = re.compile(r"^```.*?^```$", re.MULTILINE | re.DOTALL)
QUOTED = re.compile(r"`([\w.-]+(?:/[\w.-]+)+/?)[^`\n]*`")  # a path, and the words behind it
LINK = re.compile(r"\]\(([^)#\s]*)(#[^)\s]+)?\)")
HEADING = re.compile(r"^#+ (.+)$", re.MULTILINE)
NOT_CONNECTED, NOT_CLAMPED, NOT_PENDING = r"joined to nothing", r"held to (?:the|its|their) (?:limits?|types?)", r"\bdue\b"


def anchors(text: str) -> set[str]:
    """What headings can be linked by."""
    plain = [re.sub(r"[^\w\- ]", "", heading.lower()) for heading in HEADING.findall(FENCED.sub("", text))]
    return {f"#{heading.replace(' ', '-')}" for heading in plain}


def named(text: str) -> Iterator[str]:
    """The files and folders of the repository that stand in backquotes, without what a reader makes."""
    for path in QUOTED.findall(FENCED.sub("", text)):
        if path.startswith(FOLDERS) and not any(part.isupper() for part in path.split("/")):
            yield path


class Documents(unittest.TestCase):
    def test_the_readme_is_one_sitting(self) -> None:
        self.assertLessEqual(len((TOP / "README.md").read_bytes()), SITTING)

    def test_what_is_named_is_there(self) -> None:
        for document in DOCUMENTS:
            for path in named(text_of(document)):
                self.assertTrue((TOP / path).exists(), f"{document.name} names `{path}`")

    def test_what_is_linked_is_there(self) -> None:
        for document in DOCUMENTS:
            text = FENCED.sub("", text_of(document))
            for path, anchor in LINK.findall(text):
                to = document.parent / path if path else document
                self.assertTrue(to.exists(), f"{document.name} links {path}")
                if anchor and to.suffix == ".md":
                    self.assertIn(anchor, anchors(text_of(Path(to))), document.name)

    def test_users_meet_one_vocabulary(self) -> None:
        for name in FOR_USERS:
            for worn in (NOT_CONNECTED, NOT_CLAMPED, NOT_PENDING):
                self.assertNotRegex(text_of(TOP / name), worn, name)


if __name__ == "__main__":
    unittest.main()
