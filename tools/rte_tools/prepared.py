"""What tools that run or replay a description begin with: its layout, a script that fits it, a trace that is its own."""

from __future__ import annotations

from rte_tools.bus_plan import BusPlan
from rte_tools.files import Unfit, read_file, read_trace_of, read_value
from rte_tools.judging import judge
from rte_tools.script_check import first_bad_line
from rte_tools.strangers import stranger
from rte_tools.trace import Trace
from rte_tools.turns import Layout


def read_layout(path: str) -> Layout:
    """The layout of a description. Raises Unfit if it is not read, or breaks a rule that is looked at."""
    value = read_value(path)
    refusal = judge(value)
    if refusal:
        raise Unfit(f"{path}: refused rule {refusal.number} at {refusal.place}; tools/dry_run.py shows where")
    return Layout(value)


def read_script(path: str, plan: BusPlan) -> str:
    """The text of a script. Raises Unfit if it is not read, or a line of it is refused."""
    text = read_file(path)
    refusal = first_bad_line(text, plan)
    if refusal:
        raise Unfit(f"{path}:{refusal.line}: script refused line {refusal.line} cause {refusal.number}; docs/FORMAT.md, The script")
    return text


def read_own_trace(path: str, plan: BusPlan) -> Trace:
    """The trace of a file. Raises Unfit if it is not read, is none, or is one of another description."""
    trace = read_trace_of(path)
    found = stranger(trace, plan)
    if found:
        line, why = found
        raise Unfit(f"{path}:{line.number}: the trace is of another description: {why}")
    return trace
