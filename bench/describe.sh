#!/usr/bin/env bash
# Times the stages of descriptions: `describe.sh [FILE..]`, without files on generated ones of 1, 2, 4 and 8 MiB.
#
# Building the program that calls the stages takes more than an hour where nothing was proved before.
set -eu

. "$(dirname -- "$(readlink -f -- "${BASH_SOURCE[0]}")")/beside.sh"
build_beside describe_file rte_text description_places component_model composition_flatten compatibility description_stages

if [ $# -eq 0 ]; then
    for size in 1 2 4 8; do
        python3 "$bench/make_description.py" "$size" >"$work/$size.json"
        set -- "$@" "$work/$size.json"
    done
fi
"$program" "$@"
