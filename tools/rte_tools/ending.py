"""How a tool ends: what it is given and cannot use is one line and a status, and a pipe that nobody reads is none of its faults."""

from __future__ import annotations

import os
import sys
from typing import Callable, NoReturn

from rte_tools.files import Unfit

NOT_USED, NOT_WRITTEN, INTERRUPTED = 2, 4, 130  # statuses


def end_with(name: str, work: Callable[[], int]) -> NoReturn:
    """Does the work of a tool and ends with its status."""
    try:
        status = work()
        sys.stdout.flush()
    except BrokenPipeError:
        status = NOT_WRITTEN
        forget_output()
    except KeyboardInterrupt:
        status = INTERRUPTED
    except (Unfit, OSError) as error:
        print(f"{name}: {told(error)}", file=sys.stderr)
        status = NOT_USED
        forget_output()
    sys.exit(status)


def told(error: Exception) -> str:
    """What is said of an error. One of the system's names the file, or is of the output."""
    return f"{error.filename or 'the output'}: {error.strerror}" if isinstance(error, OSError) and error.strerror else str(error)


def forget_output() -> None:
    """What is still held for standard output goes nowhere, since Python would try again at its end and say so."""
    if sys.stdout is sys.__stdout__:
        os.dup2(os.open(os.devnull, os.O_WRONLY), sys.stdout.fileno())
