#!/usr/bin/env bash
# Tries the tools: their tests, each of them on the examples, the schema, whether what README.md and docs/PROVED.md
# name as proof exists, and whether the program is quick on small files that are hard for it. It sees that the tables of crates are fresh, and
# that no count of the house got worse. It takes half a minute on a
# quiet machine and proves nothing.
#
# What cannot be tried because something is not installed or not built is skipped, and said. The program is the one that
# the variable RTE names, or the one that was built; nothing is built here. The status is 1 if something is wrong, else 0.
set -u

case ${1-} in
-h | --help)
    sed -n '2,/^set /{/^#/s/^# \{0,1\}//p}' -- "${BASH_SOURCE[0]}"
    exit 0
    ;;
esac

here=$(readlink -f -- "${BASH_SOURCE[0]}")
top=$(dirname -- "$(dirname -- "$here")")
cd -- "$top" || exit 1
held=$(mktemp -d) || exit 1
trap 'rm -rf -- "$held"' EXIT
export PYTHONPYCACHEPREFIX=$held/compiled

if ! python3 -c 'import sys; sys.exit(sys.version_info < (3, 10))' 2>/dev/null; then
    echo "tools: skipped, since there is no Python 3.10 or newer"
    exit 0
fi
if [ -z "${RTE:-}" ] && [ -x crates/rte/out/rte ]; then
    export RTE=$top/crates/rte/out/rte
fi
if [ -n "${RTE:-}" ] && [ ! -x "$RTE" ]; then
    echo "tools: FAILED, since there is no program $RTE"
    exit 1
fi

exec 3>&1
failed=0

# Runs a command, and says how long it took; what it prints is shown if it fails. A terminal sees what is under way.
try() {
    local name=$1 begun=$SECONDS
    shift
    [ ! -t 1 ] || printf 'tools: %s ..\r' "$name"
    if "$@" >"$held/said" 2>&1; then
        printf 'tools: %s: passed, %d s\n' "$name" $((SECONDS - begun))
    else
        printf 'tools: %s: FAILED, %d s\n' "$name" $((SECONDS - begun))
        sed 's/^/    /' "$held/said"
        failed=1
    fi
}

# Runs a function on each example, all of them side by side. What it writes has the example's name in `held`.
on_each_example() {
    local example job jobs=() wrong=0
    for example in examples/*/; do
        mkdir -p -- "$held/$example"
        "$1" "${example%/}" "$held/${example%/}" &
        jobs+=($!)
    done
    for job in "${jobs[@]}"; do
        wait "$job" || wrong=1
    done
    return $wrong
}

# Whether a trace is that of an example. The cores of a node take their turns in any order: then it is a legal one.
is_of_example() {
    if grep -q '"cores":1[,}]' "$1/description.json"; then
        cmp -- "$2" "$1/expected.txt"
    else
        [ "$("$RTE" check "$1/description.json" "$2" "$1/script.txt" | tee /dev/stderr)" = legal ]
    fi
}

# What the program prints has to come through unchanged.
explain_passes_through() {
    tools/explain.py "$1/description.json" "$1/script.txt" >"$2/trace" && is_of_example "$1" "$2/trace"
}

# Each case of the corpus has its verdict. How far it is can be seen at a terminal.
corpus_is_judged() {
    if [ -t 3 ]; then
        tools/corpus.py "$RTE" check 2>&3
    else
        tools/corpus.py "$RTE" check
    fi
}

# The text of each example that runs live is legal, of whatever order.
live_texts_are_legal() {
    local stimuli folder
    for stimuli in examples/*/stimuli.txt; do
        folder=${stimuli%/stimuli.txt}
        "$RTE" live "$folder/description.json" <"$stimuli" >"$held/text" || return 1
        tools/dry_check.py --live "$folder/description.json" "$held/text" "$stimuli" || return 1
    done
}

# So has the plan of each example that shows one.
plans_are_as_shown() {
    local shown
    for shown in examples/*/plan.txt; do
        "$RTE" plan "${shown%plan.txt}description.json" >"$held/plan" || return 1
        cmp -- "$held/plan" "$shown" || return 1
    done
}

lint_is_silent() {
    tools/lint.py "$1/description.json"
}

draw() {
    tools/timeline.py "$1/description.json" "$1/expected.txt" --to "$2" --output "$3" && [ -s "$3" ]
}

# Each as a page, and one in each format; the tests do the rest.
is_drawn() {
    local form forms=html
    [ "$1" != examples/door_control ] || forms='html svg btf vcd perfetto'
    for form in $forms; do
        draw "$1" "$form" "$2/drawn.$form" || return 1
    done
}

has_a_diagram() {
    tools/diagram.py "$1/description.json" >"$2/diagram" && [ -s "$2/diagram" ]
}

# The tests run beside all else; what is told of them is how long they were still waited for.
python3 -m unittest discover -s tools/tests >"$held/tests" 2>&1 &
tests=$!

tests_pass() {
    wait "$tests"
    local status=$?
    cat -- "$held/tests"
    return $status
}

has_headers() {
    local name
    for name in $(python3 -c 'import json,sys; [print(c["shortName"]) for c in json.load(open(sys.argv[1]))["components"]]' "$1/description.json"); do
        tools/header.py "$1/description.json" "$name" >"$2/header" && [ -s "$2/header" ] || return 1
    done
}

try "schema" schema/check.py
try "claims of the documents" tools/dev/claims.py
try "list of crates and its tables" tools/dev/crates.py --check
try "counts of the house" tools/dev/house.py
grep -q WORSE "$held/said" || sed 's/^/    /' "$held/said"
try "lint.py on the examples" on_each_example lint_is_silent
try "timeline.py on the examples" on_each_example is_drawn
try "diagram.py on the examples" on_each_example has_a_diagram
try "header.py on the examples" on_each_example has_headers
if [ -n "${RTE:-}" ]; then
    try "explain.py on the examples" on_each_example explain_passes_through
    try "plans of the examples" plans_are_as_shown
    try "live texts of the examples" live_texts_are_legal
    try "the corpus" corpus_is_judged
    try "hostile files of 256 KiB" bench/hostile.py --mebibytes 0.25 --slower 2
    sed -nE 's/^([a-z_]+) .*  (known to .*)$/tools: hostile files: `\1` is \2/p' "$held/said"
else
    echo "tools: explain.py, plans and live texts on the examples, the corpus and hostile files: skipped, since the program is not built"
fi
try "tests" tests_pass
skipped=$(grep -o 'skipped=[0-9]*' "$held/tests") && echo "tools: tests: $skipped, for want of what they need"
if ! python3 -c 'import jsonschema' 2>/dev/null; then
    echo "tools: schema by jsonschema: skipped, since Python's jsonschema is not installed"
fi
exit $failed
