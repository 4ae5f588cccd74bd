#!/usr/bin/env bash
# Times a task body that makes a million calls, each fed with its answer, five times over.
#
# Building the program around a frame takes a few minutes.
set -eu

. "$(dirname -- "$(readlink -f -- "${BASH_SOURCE[0]}")")/beside.sh"
build_beside run_bodies rte_text rte_value runnable_lang bus_semantics task_machine
"$program"
