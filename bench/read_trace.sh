#!/usr/bin/env bash
# Times the reading of a trace, and the writing of what was read: `read_trace.sh DESCRIPTION TRACE`. The trace is what `./rte run`
# printed of a script on the description, or any text in its form.
#
# Building the program around the reader takes more than an hour where nothing was proved before.
set -eu

. "$(dirname -- "$(readlink -f -- "${BASH_SOURCE[0]}")")/beside.sh"
build_beside read_trace rte_text bus_semantics description_stages trace_text trace_reading
"$program" "$@"
