"""A description, or a mapping alone, of ARXML files."""

from __future__ import annotations

from dataclasses import dataclass
from typing import Iterable

from rte_tools.arxml_components import Components
from rte_tools.arxml_compositions import Compositions, Held, root_of
from rte_tools.arxml_ecuc import read_configuration
from rte_tools.arxml_interfaces import Interfaces
from rte_tools.arxml_mapping import Mapping, instances_below
from rte_tools.arxml_mending import drop_outer_calls, made_root, supply_modes
from rte_tools.arxml_ports import Ports
from rte_tools.arxml_report import LeftOut, Report, Work
from rte_tools.arxml_tree import Tree
from rte_tools.arxml_types import Types


class Nothing(Exception):
    """The files have nothing that a description could be made of; the message says what."""


@dataclass(frozen=True)
class Imported:
    value: dict
    report: Report
    table: str  # of the names that differ

    @property
    def is_whole(self) -> bool:
        """Whether it is a description, and not a mapping alone."""
        return "root" in self.value


def imported(files: Iterable[str], root_name: str = "") -> Imported:
    """Raises NotArxml, Nothing and OSError."""
    tree = Tree()
    for file in files:
        tree.read(file)
    work = Work.on(tree)
    types = Types(work)
    ports = Ports(work, types, Interfaces(work, types))
    compositions = Compositions(work, ports, Components(work, ports))
    configuration = read_configuration(work)
    root = read_root(work, compositions, root_name)
    if not root and not configuration.tasks:
        raise Nothing("these files have no composition, no software component and no task")
    instances = instances_below(work, compositions, root) if root else None
    value = described_by(work, compositions, root) if root else {}
    value["mapping"] = Mapping(work, configuration, instances).made(value)
    work.report.list_left(tree)
    return Imported(value, work.report, work.names.table())


def read_root(work: Work, compositions: Compositions, name: str) -> Held | None:
    part = root_of(work, name)
    if not part and name:
        raise Nothing(f"no composition of these files is named {name}")
    try:
        root = compositions.of(part, "root") if part else made_root(work, compositions)
    except LeftOut as why:
        raise Nothing(f"{part.path if part else ''}: {why}") from why
    if root:
        supply_modes(work, compositions)
        drop_outer_calls(work, root)
    return root


def described_by(work: Work, compositions: Compositions, root: Held) -> dict:
    """The description without its mapping; each list is in the order of the files."""
    order = {path: number for number, path in enumerate(work.tree.paths.values())}
    interfaces = compositions.ports.interfaces
    held = {path: each.made for path, each in compositions.held.items()}
    lists = {
        "dataTypes": interfaces.types.made,
        "modeGroups": interfaces.groups,
        "interfaces": interfaces.made,
        "components": compositions.components.made,
        "compositions": held,
    }
    value: dict = {}
    for key, made in lists.items():
        if made:
            value[key] = [made[path] for path in sorted(made, key=lambda path: order.get(path, 0))]
    value["root"] = root.made["shortName"]
    for each in held.values():
        for key in ("ports", "prototypes", "connectors"):
            if not each[key]:
                del each[key]
    return value
