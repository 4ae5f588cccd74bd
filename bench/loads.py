#!/usr/bin/env python3
"""Times whole runs of the program on descriptions and scripts that it makes.

    loads.py [CASE [SIZE]]
    loads.py cores [CASE [SIZE]]

Without a case each one is run at its size and at twice that. The functions below that take one number are the cases, and
their first lines say what each is. For each run one line is printed: the case, its size, the lines of the trace, the seconds of
the processor, the lines in one of these, and the peak of memory in MiB, which only GNU `time` can tell: where it is missing, that
column is left out.

With `cores` the cases are the functions that take a number of cores and a size, and each one is run on 1, 2 and 4 cores: the same
components and the same script, mapped otherwise. Printed are the case, the cores, the lines of the trace, the seconds by the clock
(the least of five runs, without the reading of the description: what an empty script takes), the seconds of all processors in that
run, the lines in one second by the clock, and these for 1 of the run on one core, which is one thread.

The program is `./rte` at the top of the repository, or the one that the variable RTE names: the program itself starts sooner.
"""

import json
import os
import pathlib
import shutil
import subprocess
import sys
import tempfile
import time

import make_description

TOP = pathlib.Path(__file__).resolve().parent.parent
PROGRAM = os.environ.get("RTE") or TOP / "rte"


def port(kind, name):
    return {"kind": kind + "PortPrototype", "shortName": name, "interface": "I"}


def runnable(name, accesses, program):
    return {"shortName": name, "accesses": accesses, "program": program}


def timing(name, of, period):
    return {"kind": "TimingEvent", "shortName": name, "runnable": of, "period": period}


def received(name, of, at):
    return {"kind": "DataReceivedEvent", "shortName": name, "runnable": of, "port": at, "element": "v"}


def component(name, ports, runnables, events):
    return {"shortName": name, "ports": ports, "behavior": {"runnables": runnables, "events": events}}


def assembly(provider, requester):
    return {"kind": "AssemblySwConnector", "provider": provider, "requester": requester}


def described(components, prototypes, connectors, cores, tasks, events, policy="standard", words=1):
    return {
        "dataTypes": [{"shortName": "T", "baseType": "sint32", "lower": 0, "upper": 1000, "words": words}],
        "interfaces": [
            {
                "kind": "SenderReceiverInterface",
                "shortName": "I",
                "dataElements": [{"shortName": "v", "type": "T", "swImplPolicy": policy}],
            }
        ],
        "components": components,
        "compositions": [{"shortName": "Top", "prototypes": prototypes, "connectors": connectors}],
        "root": "Top",
        "mapping": {"cores": cores, "tasks": tasks, "events": events},
    }


def writer(times, period):
    program = [["repeat", times, [["set", "x", ["add", "x", 1]], ["write", "o", "v", ["x"], "s"]]]]
    return component("W", [port("P", "o")], [runnable("Step", [["write", "o", "v"]], program)], [timing("E", "Step", period)])


def reader(times):
    program = [["repeat", times, [["read", "i", "v", ["x"], "s"]]]]
    return component("R", [port("R", "i")], [runnable("Look", [["read", "i", "v"]], program)], [received("D", "Look", "i")])


def prototypes(count):
    """A writer and so many readers."""
    return [{"shortName": "w", "type": "W"}] + [{"shortName": f"r{n}", "type": "R"} for n in range(count)]


def mapped(instance, event, task, position):
    return {"instance": instance, "event": event, "task": task, "position": position}


def chatter(size):
    """Two runnables for 1,000 run lines: one writes so many times, and the other then reads as often."""
    events = [mapped("w", "E", "T", 0), mapped("r0", "D", "T", 1)]
    tasks = [{"shortName": "T", "core": 0}]
    joined = [assembly(["w", "o"], ["r0", "i"])]
    return described([writer(size, 1), reader(size)], prototypes(1), joined, 1, tasks, events), "tick 1\nrun\n" * 1000


def counting(name, repeats):
    """A runnable that so many times reads the variable `n` and writes one more, each time within the area `x`."""
    step = ["area", "x", [["irvRead", "n", ["a"]], ["irvWrite", "n", [["add", "a", 1]]]]]
    return runnable(name, [["enter", "x"], ["irvRead", "n"], ["irvWrite", "n"]], [["repeat", repeats, [step]]])


def counters(size, repeats, cores):
    """One instance of so many of these runnables, each in a task of its own, dealt out to the cores, for 100 run lines."""
    part = component("C", [], [counting(f"R{n}", repeats) for n in range(size)], [timing(f"E{n}", f"R{n}", 1) for n in range(size)])
    part["behavior"] |= {"exclusiveAreas": ["x"], "variables": [{"shortName": "n", "type": "T"}]}
    tasks = [{"shortName": f"T{n}", "core": n % cores} for n in range(size)]
    events = [mapped("c", f"E{n}", f"T{n}", 0) for n in range(size)]
    return described([part], [{"shortName": "c", "type": "C"}], [], cores, tasks, events), "tick 1\nrun\n" * 100


def contention(size):
    """Two cores that fight for one area, each so many times in each of 100 run lines."""
    return counters(2, size, 2)


def waiters(size):
    """So many tasks of one core that wait for one area, for 100 run lines."""
    return counters(size, 1, 1)


def variables(size):
    """One instance with so many variables, each of which is written and read, for 100 run lines."""
    names = [f"n{n}" for n in range(size)]
    program = [["irvWrite", name, [number % 1000]] for number, name in enumerate(names)] + [["irvRead", name, ["x"]] for name in names]
    accesses = [["irvWrite", name] for name in names] + [["irvRead", name] for name in names]
    part = component("C", [], [runnable("R", accesses, program)], [timing("E", "R", 1)])
    part["behavior"]["variables"] = [{"shortName": name, "type": "T"} for name in names]
    tasks = [{"shortName": "T", "core": 0}]
    return described([part], [{"shortName": "c", "type": "C"}], [], 1, tasks, [mapped("c", "E", "T", 0)]), "tick 1\nrun\n" * 100


def spread(times, size):
    """One writer that writes so many times and then so many readers, each started by what it received, for 100 run lines."""
    events = [mapped("w", "E", "T", 0)] + [mapped(f"r{n}", "D", "T", n + 1) for n in range(size)]
    tasks = [{"shortName": "T", "core": 0}]
    joined = [assembly(["w", "o"], [f"r{n}", "i"]) for n in range(size)]
    return described([writer(times, 1), reader(1)], prototypes(size), joined, 1, tasks, events), "tick 1\nrun\n" * 100


def fan(size):
    """One writer and so many readers, each started by what it receives, for 100 run lines."""
    return spread(1, size)


def bursts(size):
    """As `fan`, but the writer writes 900 times before the readers start."""
    return spread(900, size)


def repeated(times, statements):
    """The statements so many times. A count is at most 1,000, so 1,024 is 2 times 512."""
    return [["repeat", 2, [["repeat", times // 2, statements]]]] if times > 1000 else [["repeat", times, statements]]


def sender(times, words):
    """Sends so many values of so many words at each tick."""
    program = repeated(times, [["set", "x", ["add", "x", 1]], ["send", "o", "v", ["x"] * words, "s"]])
    return component("W", [port("P", "o")], [runnable("Step", [["send", "o", "v"]], program)], [timing("E", "Step", 1)])


def receiver(places, words):
    """Receives at each start as often as its queue has places."""
    queued = port("R", "i") | {"comSpecs": [{"element": "v", "queueLength": places}]}
    program = repeated(places, [["receive", "i", "v", [f"x{n}" for n in range(words)], "s"]])
    return component("R", [queued], [runnable("Look", [["receive", "i", "v"]], program)], [received("D", "Look", "i")])


def sent(places, words, size, runs):
    """One sender that fills the queues of so many receivers, which then empty them, in one task and for so many run lines."""
    events = [mapped("w", "E", "T", 0)] + [mapped(f"r{n}", "D", "T", n + 1) for n in range(size)]
    tasks = [{"shortName": "T", "core": 0}]
    joined = [assembly(["w", "o"], [f"r{n}", "i"]) for n in range(size)]
    parts = [sender(places, words), receiver(places, words)]
    return described(parts, prototypes(size), joined, 1, tasks, events, "queued", words), "tick 1\nrun\n" * runs


def queue(size):
    """A queue of so many values of one word, which is filled and then emptied, for 1,000 run lines."""
    return sent(size, 1, 1, 1000)


def wide_queue(size):
    """As `queue`, but of values of 16 words."""
    return sent(size, 16, 1, 1000)


def audience(size):
    """One sender and so many receivers, each with a queue of its own, for 100 run lines."""
    return sent(1, 1, size, 100)


def queue_bursts(size):
    """1,024 values of 16 words are sent and then received, for so many run lines."""
    return sent(1024, 16, 1, size)


def instances(size):
    """So many instances on 8 cores, in pairs of a writer and its reader on the next core, for 100 run lines."""
    pairs = size // 2
    held = [{"shortName": f"w{n}", "type": "W"} for n in range(pairs)] + [{"shortName": f"r{n}", "type": "R"} for n in range(pairs)]
    joined = [assembly([f"w{n}", "o"], [f"r{n}", "i"]) for n in range(pairs)]
    tasks = [{"shortName": f"T{n}", "core": n} for n in range(8)]
    events = [mapped(f"w{n}", "E", f"T{n % 8}", n) for n in range(pairs)]
    events += [mapped(f"r{n}", "D", f"T{(n + 1) % 8}", pairs + n) for n in range(pairs)]
    return described([writer(1, 1), reader(1)], held, joined, 8, tasks, events), "tick 1\nrun\n" * 100


def clocked(lengths):
    """A TimingEvent of one instance with each of these periods, for 100 run lines with 900 ticks before each."""
    runnables = [runnable(f"R{n}", [], []) for n in range(len(lengths))]
    part = component("C", [], runnables, [timing(f"E{n}", f"R{n}", length) for n, length in enumerate(lengths)])
    events = [mapped("c", f"E{n}", "T", n) for n in range(len(lengths))]
    tasks = [{"shortName": "T", "core": 0}]
    return described([part], [{"shortName": "c", "type": "C"}], [], 1, tasks, events), "tick 900\nrun\n" * 100


def timers(size):
    """So many TimingEvents, each due at every thousandth tick, for 100 run lines with 900 ticks before each."""
    return clocked([1000] * size)


def periods(size):
    """As `timers`, but each TimingEvent has a period of its own, from 1,000 ticks on."""
    return clocked([1000 + n for n in range(size)])


# ---- calls


CALLS = {
    "kind": "ClientServerInterface",
    "shortName": "S",
    "operations": [
        {
            "shortName": "op",
            "arguments": [
                {"shortName": "a", "type": "T", "direction": "in"},
                {"shortName": "b", "type": "T", "direction": "out"},
            ],
        }
    ],
}


def of(interface, kind, name, **spec):
    """A port of another interface, with a com spec of its item if there are keys for one."""
    item = {"S": "op", "M": "g"}[interface]
    held = {"kind": kind + "PortPrototype", "shortName": name, "interface": interface}
    return held | ({"comSpecs": [{"element": item, **spec}]} if spec else {})


def client(times):
    """Calls so many times at each tick, and waits for each answer."""
    program = repeated(times, [["call", "c", "op", [1], ["y"], "s"]])
    return component("K", [of("S", "R", "c")], [runnable("Go", [["call", "c", "op"]], program)], [timing("E", "Go", 1)])


def server(places):
    """Adds what it is given to a variable, and returns the sum."""
    program = [["irvRead", "n", ["b"]], ["set", "b", ["add", "b", "a"]], ["irvWrite", "n", ["b"]]]
    serve = runnable("Serve", [["irvRead", "n"], ["irvWrite", "n"]], program) | {"canBeInvokedConcurrently": True}
    invoked = {"kind": "OperationInvokedEvent", "shortName": "O", "runnable": "Serve", "port": "s", "operation": "op"}
    part = component("V", [of("S", "P", "s", queueLength=places)], [serve], [invoked])
    part["behavior"]["variables"] = [{"shortName": "n", "type": "T"}]
    return part


def called(clients, times, tasks, events, runs):
    """So many clients of one server."""
    held = [{"shortName": "v", "type": "V"}] + [{"shortName": f"k{n}", "type": "K"} for n in range(clients)]
    joined = [assembly(["v", "s"], [f"k{n}", "c"]) for n in range(clients)]
    cores = 1 + max(task["core"] for task in tasks)
    whole = described([client(times), server(clients)], held, joined, cores, tasks, events)
    whole["interfaces"].append(CALLS)
    return whole, "tick 1\nrun\n" * runs


def calls_over(cores, size):
    """A client that calls a server so many times, for 100 run lines."""
    tasks = [{"shortName": "K", "core": 0}, {"shortName": "V", "core": cores - 1}]
    return called(1, size, tasks, [mapped("k0", "E", "K", 0), mapped("v", "O", "V", 0)], 100)


def calls(size):
    """A client that calls a server in another task of its core so many times, for 100 run lines."""
    return calls_over(1, size)


def calls_across(size):
    """As `calls`, but the server is on another core."""
    return calls_over(2, size)


def direct_calls(size):
    """As `calls`, but the server is direct: it runs in its caller's task."""
    return called(1, size, [{"shortName": "K", "core": 0}], [mapped("k0", "E", "K", 0)], 100)


def clients(size):
    """So many clients on one core, each in a task of its own, of one server on another core, for 100 run lines."""
    tasks = [{"shortName": "V", "core": 0}] + [{"shortName": f"K{n}", "core": 1} for n in range(size)]
    events = [mapped("v", "O", "V", 0)] + [mapped(f"k{n}", "E", f"K{n}", 0) for n in range(size)]
    return called(size, 1, tasks, events, 100)


# ---- modes


def switched(components, held, joined, cores, tasks, events, modes):
    """A description with one mode group, of these modes."""
    whole = described(components, held, joined, cores, tasks, events)
    whole["modeGroups"] = [{"shortName": "G", "modes": modes, "initialMode": modes[0]}]
    whole["interfaces"].append({"kind": "ModeSwitchInterface", "shortName": "M", "modeGroup": {"shortName": "g", "type": "G"}})
    return whole


def boss(modes):
    """Switches to each of these modes at each tick."""
    program = [["switch", "m", mode, "s"] for mode in modes]
    ports = [of("M", "P", "m", queueLength=len(modes))]
    return component("B", ports, [runnable("Flip", [["switch", "m"]], program)], [timing("E", "Flip", 1)])


def mode_event(name, activation, modes):
    return {
        "kind": "SwcModeSwitchEvent",
        "shortName": name,
        "runnable": "Hear",
        "port": "p",
        "activation": activation,
        "modes": modes,
    }


def mode_events(size):
    """A switch that starts so many events on exit and on entry, in each of 100 run lines."""
    kinds = ["onExit", "onEntry"]
    heard = [mode_event(f"X{n}", kinds[n % 2], ["On"]) for n in range(size)]
    parts = [boss(["On"]), component("U", [of("M", "R", "p")], [runnable("Hear", [], [])], heard)]
    held = [{"shortName": "b", "type": "B"}, {"shortName": "u", "type": "U"}]
    tasks = [{"shortName": "B", "core": 0}, {"shortName": "U", "core": 0}]
    events = [mapped("b", "E", "B", 0)] + [mapped("u", f"X{n}", "U", n) for n in range(size)]
    whole = switched(parts, held, [assembly(["b", "m"], ["u", "p"])], 1, tasks, events, ["On"])
    return whole, "tick 1\nrun\n" * 100


def switching(machines, runs):
    """So many machines, each switched there and back at each tick, with an event on entry, for so many run lines."""
    user = component("U", [of("M", "R", "p")], [runnable("Hear", [], [])], [mode_event("X", "onEntry", ["On"])])
    held = [{"shortName": f"b{n}", "type": "B"} for n in range(machines)] + [{"shortName": f"u{n}", "type": "U"} for n in range(machines)]
    joined = [assembly([f"b{n}", "m"], [f"u{n}", "p"]) for n in range(machines)]
    tasks = [{"shortName": "B", "core": 0}, {"shortName": "U", "core": 1}]
    events = [mapped(f"b{n}", "E", "B", n) for n in range(machines)] + [mapped(f"u{n}", "X", "U", n) for n in range(machines)]
    return switched([boss(["On", "Off"]), user], held, joined, 2, tasks, events, ["Off", "On"]), "tick 1\nrun\n" * runs


def switches(size):
    """A machine that is switched there and back at each tick, with an event on another core, for so many run lines."""
    return switching(1, size)


def machines(size):
    """As `switches`, but so many machines at once, for 100 run lines."""
    return switching(size, 100)


def disabled(size):
    """So many timing events that a mode disables: each is started at each tick and not admitted, for 100 run lines."""
    timers = [timing(f"E{n}", f"R{n}", 1) | {"disabledInModes": {"port": "p", "modes": ["On"]}} for n in range(size)]
    part = component("C", [of("M", "R", "p")], [runnable(f"R{n}", [], []) for n in range(size)], timers)
    held = [{"shortName": "c", "type": "C"}]
    tasks = [{"shortName": "T", "core": 0}]
    whole = switched([part], held, [], 1, tasks, [mapped("c", f"E{n}", "T", n) for n in range(size)], ["On"])
    whole["compositions"][0]["ports"] = [of("M", "R", "m")]
    whole["compositions"][0]["connectors"] = [{"kind": "DelegationSwConnector", "inner": ["c", "p"], "outer": "m"}]
    return whole, "tick 1\nrun\n" * 100


# ---- the environment


def bounced(size, cores, coherent):
    """Two runnables that publish two elements to each other so many times in each of 100 run lines, in lists or one by one."""
    pair = lambda kind, at: [[kind, at, "v"], [kind, at, "w"]]
    listed = lambda *ports: {"coherent": [[[at, "v"], [at, "w"]] for at in ports]} if coherent else {}
    more = [["iwrite", "o", element, [["add", variable, 1]]] for element, variable in (("v", "x"), ("w", "y"))]
    taken = [["iread", "i", "v", ["x"]], ["iread", "i", "w", ["y"]]]
    step = runnable("Step", pair("iread", "i") + pair("iwrite", "o"), [*taken, ["if", ["lt", "x", size], more, []]]) | listed("i", "o")
    begin = runnable("Begin", pair("iwrite", "o"), [["iwrite", "o", "v", [1]], ["iwrite", "o", "w", [1]]]) | listed("o")
    ports = [port("P", "o"), port("R", "i")]
    components = [component("A", ports, [begin, step], [timing("E", "Begin", 1), received("D", "Step", "i")])]
    components += [component("B", ports, [step], [received("D", "Step", "i")])]
    joined = [assembly(["a", "o"], ["b", "i"]), assembly(["b", "o"], ["a", "i"])]
    tasks = [{"shortName": f"T{n}", "core": n % cores} for n in range(2)]
    events = [mapped("a", "E", "T0", 0), mapped("a", "D", "T0", 1), mapped("b", "D", "T1", 0)]
    held = [{"shortName": "a", "type": "A"}, {"shortName": "b", "type": "B"}]
    whole = described(components, held, joined, cores, tasks, events)
    elements = whole["interfaces"][0]["dataElements"]
    elements.append(elements[0] | {"shortName": "w"})
    return whole, "tick 1\nrun\n" * 100


def lists(size):
    """One core that fetches and publishes pairs by coherent lists, so many times in each of 100 run lines."""
    return bounced(size, 1, True)


def lists_across(size):
    """The same on two cores, each of which waits for what the other publishes."""
    return bounced(size, 2, True)


def elements_across(size):
    """The same without lists: the elements are fetched and published one by one."""
    return bounced(size, 2, False)


def outer(size):
    """So many lines at outer ports, a write and a read by turns, and then one run line."""
    program = [["read", "i", "v", ["x"], "s"], ["write", "o", "v", ["x"], "s"]]
    passing = runnable("Pass", [["read", "i", "v"], ["write", "o", "v"]], program)
    part = component("C", [port("R", "i"), port("P", "o")], [passing], [received("D", "Pass", "i")])
    held = [{"shortName": "c", "type": "C"}]
    whole = described([part], held, [], 1, [{"shortName": "T", "core": 0}], [mapped("c", "D", "T", 0)])
    whole["compositions"][0]["ports"] = [port("R", "u"), port("P", "w")]
    whole["compositions"][0]["connectors"] = [
        {"kind": "DelegationSwConnector", "inner": ["c", inner], "outer": outer_port} for inner, outer_port in [("i", "u"), ("o", "w")]
    ]
    return whole, "".join(f"write u.v {n % 1000}\nread w.v\n" for n in range(size // 2)) + "run\n"


def at_the_root(component, inner, prototype, outer_port, event):
    """One instance of a component on one core, with this port of it at the root."""
    held = [{"shortName": prototype, "type": component["shortName"]}]
    whole = described([component], held, [], 1, [{"shortName": "T", "core": 0}], [mapped(prototype, event, "T", 0)], "queued")
    whole["compositions"][0]["ports"] = [outer_port]
    whole["compositions"][0]["connectors"] = [{"kind": "DelegationSwConnector", "inner": [prototype, inner], "outer": "link"}]
    return whole


def over_a_link(size):
    """Two nodes: 1,024 values go over the link in each of so many run lines."""
    held = port("P", "link") | {"comSpecs": [{"element": "v", "queueLength": 1024}]}
    one = at_the_root(sender(1024, 1), "o", "w", held, "E")
    two = at_the_root(receiver(1024, 1), "i", "r", port("R", "link"), "D")
    return one, "tick 1\nrun\n" * size, two


# ---- all at once


def everything(size):
    """What `make_description.py` writes for so many MiB, with servers of one operation mapped too, for 10 run lines.

    Its instances switch modes and start each other for ever, so each run line is `unsettled` after some 100,000 lines.
    """
    count = make_description.count_within(size * 1048576 - 131072, False)
    whole = make_description.description(count)
    for n in range(min(count, make_description.PAIRS)):
        for number, name in enumerate(["first", "second"]):
            whole["mapping"]["events"].append(mapped(f"c{n}/{name}", "Asked1", f"Task{n % 256}", 60000 + n // 256 * 2 + number))
    return whole, "tick 10\nrun\n" * 10


# ---- on several cores

PAIRS = 4


def paired(components, cores, shift, connected, events, script, pairs=PAIRS):
    """So many pairs of these two components: the first of a pair on a core, the second on the core that is so many further."""
    held = [{"shortName": f"{letter}{n}", "type": part["shortName"]} for n in range(pairs) for letter, part in zip("ab", components)]
    tasks = [{"shortName": f"{letter}{n}", "core": (n + at) % cores} for n in range(pairs) for letter, at in (("A", 0), ("B", shift))]
    joined = [connected(n) for n in range(pairs)]
    placed = [mapped(f"{letter.lower()}{n}", event, f"{letter}{n}", 0) for n in range(pairs) for letter, event in zip("AB", events)]
    return described(components, held, joined, cores, tasks, placed), script


def chattering(cores, size, shift):
    joined = lambda n: assembly([f"a{n}", "o"], [f"b{n}", "i"])
    return paired([writer(size, 1), reader(size)], cores, shift, joined, "ED", "tick 1\nrun\n" * 250)


def chatter_within(cores, size):
    """Four writers and their readers, each pair on one core: one writes so many times, and the other reads as often."""
    return chattering(cores, size, 0)


def chatter_across(cores, size):
    """As `chatter_within`, but the reader of each writer is on the next core."""
    return chattering(cores, size, 1)


def computing_within(cores, size):
    """64 writers and their readers, each pair on one core: 10 writes, and before each of them so many times 200 steps of a calculation."""
    steps = ["repeat", 200, [["set", "x", ["add", ["mul", "x", 3], 1]]]]
    program = [["repeat", 10, [["repeat", size, [steps]], ["write", "o", "v", ["x"], "s"]]]]
    source = component("W", [port("P", "o")], [runnable("Step", [["write", "o", "v"]], program)], [timing("E", "Step", 1)])
    joined = lambda n: assembly([f"a{n}", "o"], [f"b{n}", "i"])
    return paired([source, reader(10)], cores, 0, joined, "ED", "tick 1\nrun\n" * 25, 64)


def calls_between(cores, size):
    """Four clients, each of which calls its own server on the next core so many times and waits for each answer."""
    joined = lambda n: assembly([f"b{n}", "s"], [f"a{n}", "c"])
    whole, script = paired([client(size), server(1)], cores, 1, joined, "EO", "tick 1\nrun\n" * 250)
    whole["interfaces"].append(CALLS)
    return whole, script


def instances_on(cores, size):
    """So many instances in pairs of a writer and its reader on the next core, one task a core, for 250 run lines."""
    pairs = size // 2
    held = [{"shortName": f"{letter}{n}", "type": letter.upper()} for letter in "wr" for n in range(pairs)]
    joined = [assembly([f"w{n}", "o"], [f"r{n}", "i"]) for n in range(pairs)]
    tasks = [{"shortName": f"T{n}", "core": n} for n in range(cores)]
    events = [mapped(f"w{n}", "E", f"T{n % cores}", n) for n in range(pairs)]
    events += [mapped(f"r{n}", "D", f"T{(n + 1) % cores}", pairs + n) for n in range(pairs)]
    return described([writer(1, 1), reader(1)], held, joined, cores, tasks, events), "tick 1\nrun\n" * 250


ON_CORES = {computing_within: 10, chatter_within: 500, chatter_across: 500, calls_between: 100, instances_on: 1000}


CASES = {
    chatter: 250,
    fan: 500,
    bursts: 500,
    queue: 250,
    wide_queue: 250,
    audience: 500,
    queue_bursts: 250,
    instances: 500,
    timers: 500,
    periods: 500,
    contention: 250,
    waiters: 125,
    variables: 500,
    calls: 250,
    calls_across: 250,
    direct_calls: 250,
    clients: 125,
    mode_events: 500,
    switches: 500,
    machines: 125,
    disabled: 500,
    lists: 250,
    lists_across: 250,
    elements_across: 250,
    outer: 40000,
    over_a_link: 32,
    everything: 4,
}


def measured(words, trace, peak):
    """Runs the program, and gives its status, its seconds of the processor and its peak of memory in MiB, or None."""
    # The peak that the system gives for a child has that of this program in it; GNU `time` is small.
    clock = shutil.which("time")
    before = [clock, "--quiet", "--format=%M", f"--output={peak}"] if clock else []
    with open(trace, "wb") as told:
        child = subprocess.Popen([*before, PROGRAM, *words], stdout=told)
        _, status, used = os.wait4(child.pid, 0)
    kibibytes = peak.read_text().split()[-1] if clock else None
    return os.waitstatus_to_exitcode(status), used.ru_utime + used.ru_stime, int(kibibytes) / 1024 if kibibytes else None


def run(case, size):
    description, script, *second = case(size)
    with tempfile.TemporaryDirectory() as name:
        folder = pathlib.Path(name)
        words = [folder / "description.json", folder / "script.txt"]
        words[0].write_text(json.dumps(description, separators=(",", ":")))
        words[1].write_text(script)
        command = "run"
        for other in second:
            command = "pair"
            words.insert(1, folder / "second.json")
            words[1].write_text(json.dumps(other, separators=(",", ":")))
        status, seconds, peak = measured([command, *words], folder / "trace.txt", folder / "peak.txt")
        told = (folder / "trace.txt").read_bytes()
    if status != 0:
        sys.exit(f"{case.__name__} {size} ended with {status}: {told[:200]!r}")
    lines = told.count(b"\n")
    memory = f" {peak:8.1f} MiB" if peak else ""
    print(f"{case.__name__:12} {size:6} {lines:9} {seconds:8.2f} s {lines / seconds:12.0f} a second{memory}")


def timed(folder, description, script, times):
    """The least seconds by the clock of so many runs, the seconds of the processors in that run, and the lines of the trace."""
    words = [folder / "description.json", folder / "script.txt"]
    words[0].write_text(json.dumps(description, separators=(",", ":")))
    words[1].write_text(script)
    least = None
    for _ in range(times):
        begun = time.monotonic()
        with open(folder / "trace.txt", "wb") as told:
            child = subprocess.Popen([PROGRAM, "run", *words], stdout=told)
            _, status, used = os.wait4(child.pid, 0)
        seconds = time.monotonic() - begun
        if status != 0:
            sys.exit(f"the program ended with {os.waitstatus_to_exitcode(status)}: {(folder / 'trace.txt').read_bytes()[:200]!r}")
        this = (seconds, used.ru_utime + used.ru_stime)
        least = min(least or this, this)
    return *least, (folder / "trace.txt").read_bytes().count(b"\n")


def run_on_cores(case, size):
    """The case on 1, 2 and 4 cores."""
    alone = None
    for cores in (1, 2, 4):
        description, script = case(cores, size)
        with tempfile.TemporaryDirectory() as name:
            reading, read, _ = timed(pathlib.Path(name), description, "", 5)
            seconds, processors, lines = timed(pathlib.Path(name), description, script, 5)
        rate = lines / (seconds - reading)
        alone = alone or rate
        print(
            f"{case.__name__:15} {cores} cores {lines:9} {seconds - reading:8.3f} s {processors - read:8.3f} s of processors"
            f" {rate:12.0f} a second {rate / alone:6.2f}",
            flush=True,
        )


def main():
    if sys.argv[1:2] == ["cores"]:
        wanted = sys.argv[2:3] or [case.__name__ for case in ON_CORES]
        for case, size in ON_CORES.items():
            if case.__name__ in wanted:
                run_on_cores(case, int(sys.argv[3]) if len(sys.argv) > 3 else size)
        return
    if len(sys.argv) > 1:
        case = {c.__name__: c for c in CASES}[sys.argv[1]]
        run(case, int(sys.argv[2]) if len(sys.argv) > 2 else CASES[case])
        return
    for case, size in CASES.items():
        run(case, size)
        run(case, 2 * size)


if __name__ == "__main__":
    main()
