"""What the formats of other tools share. What is time there is the number of the line in the trace."""

from __future__ import annotations

from rte_tools.description import Description
from rte_tools.replay import ELSEWHERE

NOTE = "what stands as time is the number of the line in the trace"
ELSEWHERE_NAME = "in_no_task"


def task_name(lane: str) -> str:
    return ELSEWHERE_NAME if lane == ELSEWHERE else lane


def core_of(description: Description, lane: str) -> int:
    task = description.tasks.get(lane)
    return task.of if task else 0
