#!/usr/bin/env bash
# Writes docs/EVIDENCE.md to standard output, from the log of a whole run of the gate, made in one of two ways:
#
#     tools/dev/gate_times.py >gate.log 2>&1
#     { time rt ci; } >gate.log 2>&1
#
# and then: tools/dev/evidence.sh gate.log >evidence.md && mv evidence.md docs/EVIDENCE.md
#
# Where the log is of a run that found much kept from earlier runs, the log of the last run from nothing may stand behind it, with the
# commit of that run: tools/dev/evidence.sh gate.log whole.log COMMIT. The page then says of that run, too.
#
# The log has to have the line 'N passed, 0 failed' of a run with no names, and its time: the minutes before the last line of rt,
# or the line 'real XmYs'. What the gate read must be committed. The hash is that of the program that `./rte run` built, if it
# is of this commit. The status is 0, 1 if the log or the tree is not as it should be, and 2 without a log.
set -euo pipefail

here=$(readlink -f -- "${BASH_SOURCE[0]}")
top=${here%/tools/dev/*}

fail() {
    printf 'evidence: %s\n' "$1" >&2
    exit 1
}

case $#,${1-} in
1,-h | 1,--help) sed -n '2,/^set /s/^# \{0,1\}//p' -- "${BASH_SOURCE[0]}"; exit 0 ;;
1,*) log=$1 whole='' ;;
3,*) log=$1 whole=$2 whole_commit=$3 ;;
*)
    echo 'usage: tools/dev/evidence.sh LOG [WHOLE_LOG COMMIT], logs of whole runs of the gate; --help says how they are made' >&2
    exit 2 ;;
esac

# ---- what the log says

# What the log of a whole run says: how many passed, in how many minutes.
read_log() {
    local result time
    [ -f "$1" ] && [ -r "$1" ] || fail "cannot read $1"
    result=$(grep -E '^[0-9]+ passed, [0-9]+ failed' -- "$1" | tail -n 1) || fail "no line 'N passed, M failed' in $1"
    [[ $result =~ ^([0-9]+)\ passed,\ 0\ failed$ ]] || fail "this is no whole run that passed: $result"
    passed=${BASH_REMATCH[1]}
    time=$(grep -E '^real[[:space:]]+[0-9]+m|^ *[0-9]+\.[0-9]+ rt: ' -- "$1" | tail -n 1) || fail "$1 tells no time"
    if [[ $time =~ ^real[[:space:]]+([0-9]+)m([0-9]+) ]]; then
        minutes=$(((10#${BASH_REMATCH[1]} * 60 + 10#${BASH_REMATCH[2]} + 30) / 60))
    else
        minutes=$(awk '{ printf "%.0f", $1 }' <<<"$time")
    fi
}

from_nothing=''
if [ -n "$whole" ]; then
    read_log "$whole"
    git -C "$top" merge-base --is-ancestor "$whole_commit" HEAD || fail "$whole_commit is no commit before this one"
    grep -q 'every proof and must-fail edit was done in this run' -- "$whole" || fail "$whole is of no run from nothing"
    from_nothing="
| The last run from nothing | commit \`$(git -C "$top" rev-parse --short=8 "$whole_commit")\`: \`$passed passed, 0 failed\` in $minutes min |"
fi
read_log "$log"
result="$passed passed, 0 failed"
done_in_run=$(sed -nE 's/^( *[0-9.]+ )?rt: ok; //p' -- "$log" | tail -n 1)

# ---- what was tried, and where

[ -z "$(git -C "$top" status --porcelain -- crates crates.txt HANDLES)" ] || fail "crates/ has changes that are not committed"
commit=$(git -C "$top" rev-parse HEAD)
program=$top/crates/rte/out/rte
hash='not built by `./rte run` at this commit'
if [ -x "$program" ] && [ "$(sed -n 's/^commit //p' -- "$top/crates/rte/out/built_from" 2>/dev/null)" = "$commit" ]; then
    hash=$(sha256sum -- "$program")
    hash="\`sha256 ${hash%% *}\`"
fi
processor=$(awk -F ': ' '/^model name/ { print $2; exit }' /proc/cpuinfo)
memory=$(awk '/^MemTotal/ { printf "%d", $2 / 1048576 + 0.5 }' /proc/meminfo)

# ---- which wrong body stands for which sentence of the headline

wrong_bodies() {
    cat <<'END'
C breaks no rule|compatibility/accepts_many_to_many
S is a script over the plan of C|none: it is an equation (below)
the bytes are the text of a run|script_run/puts_no_run_mark script_run/puts_no_entries_of_the_round rte_text/drops_the_last_byte
the run has the script's calls and run lines, all of them, in order|script_run/hides_a_call script_run/skips_run_lines
each entry is one that may come after those before it|data_objects/starts_what_is_not_pending task_slots/appends_what_was_not_made
an entry of an activation is the next call of its program, given the answers before|task_slots/forgets_the_answer task_slots/caller_goes_on_too_early task_machine/hears_a_refused_call task_generator/reads_port_at_each_use task_generator/publishes_at_once task_generator/fetches_one_by_one task_machine/publishes_an_empty_list
each answer is what the bus gives from the earlier entries|data_objects/keeps_another_value bundle_objects/fetches_at_two_moments bundle_objects/publishes_what_was_not_marked bundle_objects/takes_the_first_of_one_group queued_ports/overwrites_oldest mode_machine/enters_before_exits_end
this holds in whatever order the cores took their turns|cross_core_table/stamps_under_a_foreign_lock cross_core_table/stamps_another_answer
`idle` holds only if nothing may step any more|task_slots/starts_nothing bundle_objects/wakes_only_the_first_group script_run/closes_before_the_serial_pass
`unsettled` holds only after 100,000 entries of runnables|script_run/gives_up_at_99_999
status 0 comes only then|commands/done_after_a_failed_fetch commands/done_after_a_failed_put gathered_run/passes_over_a_failed_finish
each other status comes only if its cause is there|commands/always_words commands/always_refused commands/always_too_many_cores
of two nodes: each value that crosses is the one taken, up to the last one held, on each link, between the run lines of both|pair_run/sends_another_value pair_run/stops_after_one_receive pair_run/skips_the_last_link pair_run/runs_node_two_first
of a live node: each feed comes whole, once and in its order|feed_queue/serves_without_the_queue feed_queue/takes_a_feed_backwards live_lanes/drops_a_contended_wish live_lanes/makes_a_wish_twice
the least broken rule is named|compatibility/names_a_later_rule
a trace is called legal exactly if it is the text of such a run, else its first line that is not, with the clause|trace_check/check_accepts_a_foreign_call trace_check/refuses_for_a_lower_clause trace_check/takes_an_open_end trace_check/closes_outside_a_run_line
END
}

table() {
    local sentence bodies body crate cell
    while IFS='|' read -r sentence bodies; do
        cell=''
        case $bodies in none:*) printf '| %s | %s |\n' "$sentence" "$bodies"; continue ;; esac
        for body in $bodies; do
            crate=${body%/*}
            [ -f "$top/crates/$crate/must-fail/${body#*/}.edit" ] || fail "there is no wrong body $body"
            cell+="${cell:+, }[\`$body\`](../crates/$crate/must-fail/${body#*/}.edit)"
        done
        printf '| %s | %s |\n' "$sentence" "$cell"
    done < <(wrong_bodies)
}

# ---- which clause refuses a wrong body that is tried no more: what it does, the crate, the function and its clause, and why

covered_bodies() {
    cat <<'END'
a turn gives its entries in another order|core_runtime|run_round|stamps|the stamps of what is given count from 0
a turn keeps no entry|core_runtime|run_round|lawful|the objects stand for a history that has each entry
the serial pass begins at the second core|core_runtime|serial_pass|rest|a pass without an entry is rest of all cores
a write, a return or a leave wakes nobody|core_runtime|serial_pass|rest|what sleeps may not start
the serial pass takes its cores from the last on, or one of them twice|core_runtime|serial_pass|order|each core takes one turn, in the order of their numbers
a line at rest is closed with `unsettled`|script_run|put_lap|closes|after a pass without an entry the word is `idle`
a line goes on after 100,000 entries|script_run|put_lap|rises|a line that goes on has made fewer
a turn in a lane never looks|core_lanes|turn_by_guide|looked|without an entry each look at what is awake said so
the turn in which all looks are due looks at what is awake alone|core_lanes|Guided::look|looked|without an entry it made as many looks as are due, or found a word that names another core
a look at all that stands before a core's last entry is counted|core_lanes|Stay::note|whole|an entry begins the count anew
turns before a core's last entry are counted|core_lanes|Stay::note|turns|an entry begins the count anew
the 33rd turn without an entry is counted as one that looked at all, and looks at what is awake alone|core_lanes|Stay::turn|counts|a turn is noted so only with as many looks as all slots take, or a word that names another core
a core leaves after one turn that looks at all of its slots|core_lanes|Stay::note|turns|a turn without an entry counts as one more, whatever it looks at
a core leaves after 34 turns, whatever they made|core_lanes|make_turns|left|it leaves only with 1,024 entries, or 64 turns behind the last of them
a core leaves with a count of another round|core_lanes|Lane::go|its one clause|the count is that of its turns in this round, and true of its seat
a core counts no entry that it made|core_lanes|turn_once|taken|without an entry the core and its bench are as they were
a round has room for 1,025 entries of a core|core_lanes|run_together|its one clause|each core makes at most 1,024
an object is acted on whose lock another core has|cross_core_table|act_at|knows|an entry comes only of a try that took the object
an entry is stamped after its object was given back|core_lanes|run_together|its one clause|in the order of their stamps the entries lead from the old objects to the new
a stamp is left out|core_lanes|run_together|its one clause|the stamps of what was made count from 0
arguments are exchanged, a jump is one short, nested loops share a counter, a server returns before it publishes|task_generator|generate|its one clause|what a body asks equals what the actor rule wants
an activation ends by another event than it began by|task_machine|next_call|its one clause|the call is what the body asks after the answers so far
a line is read as an entry that has another line, or that does not fit|trace_reading|is_read_as|its one clause|the answer equals both tests
an entry's line is called bad|trace_reading|read_entry|reads|a bad line is that of no item
an area that is held is entered; an activation leaves the area of another|area_objects|AreaObject::act|answer|an answer has an entry only if this may come, and matches what the area keeps then
a group is read as invalid if it is not; a variable is read with a code|data_objects|read_code|its one clause|the code equals that of the definition
initial values are forgotten|data_objects|Group::new|kept|a new group keeps the initial values of its elements
a start that is not due marks the group as invalid|data_objects|Group::act|same|what answers `NotYet` changes nothing
a disabled event is admitted|machine_objects|admission|its one clause|the answer equals that of the definition
a machine waits for its running activations only if it has no queue, or has room for one switch more|machine_objects|MachineObject::new|kept|a new machine keeps what the plan says of it
an end tells no start that became due|machine_objects|MachineObject::act|told|an event that may start then, and could not before, is told
a bench gives a stamp twice|port_objects|PlainBench::take_stamp|stamp|the stamp is the next number
a loss is not told, or at another receiver|queue_objects|QueueGroup::act|answer|an answer is an entry that may come then, and a Receive has its code
an event of another queue than the one that took a value may start|queue_objects|QueueGroup::new|kept|each event has the queue of its receiver
a word beyond the limits is sent by a script; a line of it is left out|script_reading|read_script|read|the lines are those that the text has, and no line of it is bad
results of two callers are exchanged; another request is begun; another point is told; the events of another point are told|server_objects|ServerObject::act|answer, told|an answer is an entry that may come then; what may start is told
a server has room for one request more|server_objects|ServerObject::new|kept|a new server keeps the length that the plan gives its queue
a trace's activation makes a call that its program does not make|trace_walks|is_next|its one clause|the entry's wish equals the next call; the same wrong body stands in `trace_check`
a file that was read is called unread|commands|fetch_one|stopped|a file is unread only if a count of the shelf rose
a text that was put is called cut|commands|put_text|its one clause|a text is cut only if a put failed
a good script is refused|commands|script_over|stopped|the line that is named is the first bad one
a legal trace is refused|rte_program|check_over|stopped|the verdict that is named is right, and not legal
output that is left is not written at the end|gathered_output|finish|whole|where the answer is Done nothing is left
END
}

covered() {
    local body crate function clause why named
    while IFS='|' read -r body crate function clause why; do
        grep -rqE "fn ${function##*::}\\b" -- "$top/crates/$crate/src" || fail "there is no function $function of $crate"
        named="\`${clause//, /\`, \`}\`"
        [ "$clause" != 'its one clause' ] || named=$clause
        printf '| %s | `%s` | `%s` | %s | %s |\n' "$body" "$crate" "$function" "$named" "$why"
    done < <(covered_bodies)
}

# ---- what was refused once, run often and counted, as the page has it: the tools that say it are run by hand

refused() {
    awk '/^## / { held = /^## What was (refused once|run often|counted)$/ } held' "$top/docs/EVIDENCE.md"
}

rows=$(table)
covers=$(covered)
crates=$(find "$top"/crates/*/must-fail -name '*.edit' -printf '%h\n' | sort -u | wc -l)

cat <<END
# Evidence

What the last whole run of the gate said. \`tools/dev/evidence.sh\` wrote this page from its log.

| | |
|---|---|
| Commit | \`$commit\` |
| Toolchain | \`$(rt version)\` |
| Result | \`$result\` |
| Done in this run | ${done_in_run:-not told} |
| Time | $minutes min |$from_nothing
| Machine | $(nproc) processors ($processor), $memory GB of memory |
| Program | $hash |

The $passed that passed are the crates, each proved with its tests, and the wrong bodies, each refused. Two compilers built the
programs, and what each printed was compared byte for byte. To see it yourself, check out the commit and run \`rt ci\`; its last
line has to be the same.

$(refused)

## Which wrong body stands for which sentence

The sentences are those of [the headline](PROVED.md#the-headline). A wrong body changes a line or two of the code. The prover has
to refuse it; if it did not, the gate would fail.

| Sentence | Wrong bodies |
|---|---|
$rows

Other wrong bodies stand in the folders \`must-fail\`, which $crates crates have.

## Which clause refuses what is tried no more

These wrong bodies were tried once. A clause that says what the function does refuses each of them, and the proofs above rest on it. Those
of objects, scripts and walks stood in folders \`must-fail\` up to commit \`5d84f7c3\`, on which the gate refused each of them.

| Wrong body | Crate | Function | Clause | Why it is refused |
|---|---|---|---|---|
$covers
END
