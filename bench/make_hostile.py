#!/usr/bin/env python3
"""Writes a description, a script or a trace that is hard for the program to standard output.

    make_hostile.py CASE [MEBIBYTES]

It is of nearly the given number of MiB, 8 where none is given. The functions below that take one number, and which CASES, SCRIPTS and
TRACES list, are the cases; their first lines say what each is. Scripts and traces are over the example `door_control`.
"""

import json
import random
import sys

DATA_TYPE = {"shortName": "T", "baseType": "sint16", "lower": 0, "upper": 1, "words": 1}


def interface(name, *elements):
    listed = [{"shortName": e, "type": "T", "swImplPolicy": "standard"} for e in elements]
    return {"kind": "SenderReceiverInterface", "shortName": name, "dataElements": listed}


def port(kind, name, of):
    return {"kind": kind + "PortPrototype", "shortName": name, "interface": of}


def ports(kind, letter, of, count):
    return [port(kind, f"{letter}{n}", of) for n in range(count)]


def component(name, *lists):
    return {"shortName": name, "ports": [p for ports in lists for p in ports], "behavior": {}}


def prototype(name, of):
    return {"shortName": name, "type": of}


def assembly(provider, requester):
    return {"kind": "AssemblySwConnector", "provider": provider, "requester": requester}


def delegation(inner, outer):
    return {"kind": "DelegationSwConnector", "inner": inner, "outer": outer}


def composition(name, ports, prototypes, connectors):
    return {"shortName": name, "ports": ports, "prototypes": prototypes, "connectors": connectors}


def fan(name, kind, of, component, letter, count, outer="q"):
    """One outer port that is delegated to many of a component's."""
    inner = [delegation(["w", f"{letter}{n}"], outer) for n in range(count)]
    return composition(name, [port(kind, outer, of)], [prototype("w", component)], inner)


def hubs(name, kind, of, held, count, inner="q"):
    """Many outer ports that are all delegated to one."""
    to = [delegation(["a", inner], f"h{n}") for n in range(count)]
    return composition(name, ports(kind, "h", of, count), [prototype("a", held)], to)


def whole(interfaces, components, compositions, root="Top"):
    return {
        "dataTypes": [DATA_TYPE],
        "interfaces": interfaces,
        "components": components,
        "compositions": compositions,
        "root": root,
        "mapping": {"cores": 1},
    }


def top(prototypes, connectors, ports=()):
    return composition("Top", list(ports), prototypes, connectors)


AB = [interface("I", "x"), interface("J", "y")]
SIDES = [prototype("p", "P"), prototype("r", "R")]


def two_sides(width, count, required="I"):
    """Sides P and R: many outer ports of each, all delegated to the same ports of a component."""
    components = [component("W", ports("P", "o", "I", width)), component("V", ports("R", "i", required, width))]
    compositions = [
        hubs("P", "P", "I", "P2", count),
        fan("P2", "P", "I", "W", "o", width),
        hubs("R", "R", required, "R2", count),
        fan("R2", "R", required, "V", "i", width),
    ]
    return components, compositions


def across(n):
    """An assembly from each outer port of the one side to one of the other."""
    return top(SIDES, [assembly(["p", f"h{k}"], ["r", f"h{k}"]) for k in range(n)])


def connectors(n):
    """Many assemblies that all lead to the same 256 x 256 ports."""
    components, below = two_sides(256, n)
    return whole(AB, components, [across(n)] + below)


def connectors_apart(n):
    """Many assemblies that all lead to the same ports, which are as many, and share no item."""
    components, below = two_sides(n, n, "J")
    return whole(AB, components, [across(n)] + below)


def near(n):
    """Many assemblies that all lead to the same 200 x 200 ports and to two of their own, which join nothing else."""
    interfaces = AB + [interface("A", "a"), interface("B", "b")]
    components = [
        component("W", ports("P", "o", "I", 200)),
        component("V", ports("R", "i", "I", 200)),
        component("W2", ports("P", "o", "A", n)),
        component("V2", ports("R", "i", "B", n)),
    ]
    left = hubs("P", "P", "I", "P2", n)
    left["prototypes"].append(prototype("b", "W2"))
    left["connectors"] += [delegation(["b", f"o{k}"], f"h{k}") for k in range(n)]
    right = hubs("R", "R", "I", "R2", n)
    right["prototypes"].append(prototype("b", "V2"))
    right["connectors"] += [delegation(["b", f"i{k}"], f"h{k}") for k in range(n)]
    below = [left, fan("P2", "P", "I", "W", "o", 200), right, fan("R2", "R", "I", "V", "i", 200)]
    return whole(interfaces, components, [across(n)] + below)


def hubs_own(n):
    """Very many provided ports that very many outer ports all lead to, each of these to one of its own besides."""
    interfaces = AB + [interface("A", "a")]
    components = [
        component("W", ports("P", "o", "I", n)),
        component("W2", ports("P", "o", "A", n)),
        component("V", ports("R", "i", "I", 1)),
    ]
    left = hubs("P", "P", "I", "P2", n)
    left["prototypes"].append(prototype("b", "W2"))
    left["connectors"] += [delegation(["b", f"o{k}"], f"h{k}") for k in range(n)]
    to = [assembly(["p", f"h{k}"], ["r", "i0"]) for k in range(n)]
    sides = [prototype("p", "P"), prototype("r", "V")]
    return whole(interfaces, components, [top(sides, to), left, fan("P2", "P", "I", "W", "o", n)])


def both_hubs(n):
    """The same on both sides, where each of the ports is joined to one."""
    interfaces = [interface(f"A{k}", f"a{k}") for k in range(n)] + [interface("B", "b"), interface("C", "c")]
    components = [
        component("W", [port("P", f"o{k}", f"A{k}") for k in range(n)]),
        component("V", [port("R", f"o{k}", f"A{k}") for k in range(n)]),
        component("W2", ports("P", "o", "B", n)),
        component("V2", ports("R", "o", "C", n)),
    ]
    below = []
    for name, kind, held, own in (("P", "P", "W", "W2"), ("R", "R", "V", "V2")):
        outer = hubs(name, kind, "A0", f"{name}2", n)
        outer["prototypes"].append(prototype("b", own))
        outer["connectors"] += [delegation(["b", f"o{k}"], f"h{k}") for k in range(n)]
        below += [outer, fan(f"{name}2", kind, "A0", held, "o", n)]
    return whole(interfaces, components, [across(n)] + below)


def overlaps(n):
    """Outer ports that are delegated to half of 256 ports, other ones each, and an assembly between each two of them."""
    count = int(n ** 0.5)
    chance = random.Random(1)
    components = [component("W", ports("P", "o", "I", 256)), component("V", ports("R", "o", "I", 256))]
    below = []
    for name, kind, held in (("P", "P", "W"), ("R", "R", "V")):
        to = [delegation(["w", f"o{k}"], f"h{a}") for a in range(count) for k in chance.sample(range(256), 128)]
        below.append(composition(name, ports(kind, "h", "I", count), [prototype("w", held)], to))
    return whole(AB, components, [top(SIDES, [assembly(["p", f"h{a}"], ["r", f"h{b}"]) for a in range(count) for b in range(count)])] + below)


def ways(n):
    """Seven levels on each side, each of very many ports that are delegated to four of the next: very many ways, few joins."""
    chance = random.Random(1)
    width = n // 14
    components = [component("W", ports("P", "h", "I", 16)), component("V", ports("R", "h", "I", 16))]
    below = []
    for side, kind, held in (("P", "P", "W"), ("R", "R", "V")):
        for level in range(7):
            of, count = (held, 16) if level == 6 else (f"{side}{level + 1}", width)
            to = [delegation(["a", f"h{b}"], f"h{a}") for a in range(width) for b in chance.sample(range(count), 4)]
            below.append(composition(f"{side}{level}", ports(kind, "h", "I", width), [prototype("a", of)], to))
    sides = [prototype("p", "P0"), prototype("r", "R0")]
    return whole(AB, components, [top(sides, [assembly(["p", f"h{k}"], ["r", f"h{k}"]) for k in range(width)])] + below)


def instances_apart(n):
    """One port of each of 1,000 instances that is joined among very many that are not, and very many ports that lead to it."""
    components = [
        component("W", ports("P", "j", "J", n), ports("P", "o", "I", 1)),
        component("V", ports("R", "i", "I", 1), ports("R", "x", "B", n // 5)),
    ]
    stand = [f"a{k}" for k in range(1000)]
    held = [delegation(["w", f"j{k}"], "q") for k in range(n)] + [delegation(["w", "o0"], "q")]
    to = [delegation(["v", p], f"h{k}") for k in range(n // 5) for p in ("i0", f"x{k}")]
    below = [
        composition("M", [port("P", "q", "I")], [prototype(s, "L") for s in stand], [delegation([s, "q"], "q") for s in stand]),
        composition("L", [port("P", "q", "I")], [prototype("w", "W")], held),
        composition("R", ports("R", "h", "I", n // 5), [prototype("v", "V")], to),
    ]
    sides = [prototype("p", "M"), prototype("r", "R")]
    return whole(AB + [interface("B", "b")], components, [top(sides, [assembly(["p", "q"], ["r", f"h{k}"]) for k in range(n // 5)])] + below)


def equal(n):
    """One assembly written many times, between ports of 256 ports each."""
    components, below = two_sides(256, 1)
    return whole(AB, components, [top(SIDES, [assembly(["p", "h0"], ["r", "h0"]) for k in range(n)])] + below)


def names(n):
    """Many ports and many ports, each of an interface of its own, whose names are all different."""
    interfaces = [interface(f"A{k}", f"a{k}") for k in range(n)] + [interface(f"B{k}", f"b{k}") for k in range(n)]
    components = [
        component("W", [port("P", f"o{k}", f"A{k}") for k in range(n)]),
        component("V", [port("R", f"i{k}", f"B{k}") for k in range(n)]),
    ]
    below = [fan("P", "P", "A0", "W", "o", n), fan("R", "R", "B0", "V", "i", n)]
    return whole(interfaces, components, [top(SIDES, [assembly(["p", "q"], ["r", "q"])])] + below)


def names_own(n):
    """Many ports and many ports, each joined to one."""
    interfaces = [interface(f"A{k}", f"a{k}") for k in range(n)]
    components = [
        component("W", [port("P", f"o{k}", f"A{k}") for k in range(n)]),
        component("V", [port("R", f"i{k}", f"A{k}") for k in range(n)]),
    ]
    below = [fan("P", "P", "A0", "W", "o", n), fan("R", "R", "A0", "V", "i", n)]
    return whole(interfaces, components, [top(SIDES, [assembly(["p", "q"], ["r", "q"])])] + below)


def names_split(n, letter="b"):
    """Each provided port has its own assembly to a port that is delegated to all required ones; no names are shared."""
    interfaces = [interface(f"A{k}", f"a{k}") for k in range(n)]
    interfaces += [interface(f"B{k}", f"{letter}{k}") for k in range(n)]
    components = [
        component("W", [port("P", f"o{k}", f"A{k}") for k in range(n)]),
        component("V", [port("R", f"i{k}", f"B{k}") for k in range(n)]),
    ]
    below = [fan("R", "R", "B0", "V", "i", n)]
    sides = [prototype("p", "W"), prototype("r", "R")]
    return whole(interfaces, components, [top(sides, [assembly(["p", f"o{k}"], ["r", "q"]) for k in range(n)])] + below)


def names_split_own(n):
    """The same, where each provided port is joined to one required one."""
    return names_split(n, "a")


def alternate(n):
    """Two compositions of very many assemblies each, which stand in turn."""
    side = int((n // 2) ** 0.5)
    made = component("W", ports("P", "o", "I", side), ports("R", "i", "J", side))
    inner = [assembly(["w", f"o{a}"], ["w", f"i{b}"]) for a in range(side) for b in range(side)]
    below = [composition(name, [], [prototype("w", "W")], inner) for name in ("A", "B")]
    return whole(AB, [made], [top([prototype(f"p{k}", "AB"[k % 2]) for k in range(1024)], [])] + below)


def instances(n, required="J"):
    """One provided port and very many required ones of each of 1,022 instances."""
    components = [component("W", ports("P", "o", "I", 1)), component("V", ports("R", "i", required, n))]
    stand = [f"a{k}" for k in range(1022)]
    down = [delegation([s, "q"], "q") for s in stand]
    many = composition("M", [port("R", "q", required)], [prototype(s, "R") for s in stand], down)
    root = top([prototype("p", "W"), prototype("r", "M")], [assembly(["p", "o0"], ["r", "q"])])
    return whole(AB, components, [root, many, fan("R", "R", required, "V", "i", n)])


def instances_joined(n):
    """The same, where all are joined, so that there are too many joins."""
    return instances(n, "I")


def inner(n):
    """One port of each of 1,022 instances, each reached over very many ports of its composition."""
    components = [component("W", ports("P", "o", "I", 1)), component("V", ports("R", "i", "I", 1))]
    stand = [f"a{k}" for k in range(1022)]
    down = [delegation([s, "q"], "q") for s in stand]
    many = composition("M", [port("R", "q", "I")], [prototype(s, "L") for s in stand], down)
    sides = [prototype("p", "W"), prototype("r", "M")]
    below = [many, fan("L", "R", "I", "K", "h", n), hubs("K", "R", "I", "V", n, "i0")]
    return whole(AB, components, [top(sides, [assembly(["p", "o0"], ["r", "q"])])] + below)


def outers(n):
    """Many ports of the root, all delegated to the same ports, whose items have other names."""
    components = [component("V", ports("R", "i", "J", n))]
    root = hubs("Top", "R", "I", "R", n)
    return whole(AB, components, [root, fan("R", "R", "J", "V", "i", n)])


def hub_joined(n):
    """One provided port that many assemblies lead to the same required ports."""
    components = [component("W", ports("P", "o", "I", 1)), component("V", ports("R", "i", "I", n))]
    below = [hubs("R", "R", "I", "R2", n), fan("R2", "R", "I", "V", "i", n)]
    sides = [prototype("p", "W"), prototype("r", "R")]
    return whole(AB, components, [top(sides, [assembly(["p", "o0"], ["r", f"h{k}"]) for k in range(n)])] + below)


def levels(n):
    """Seven levels of ports, each delegated to all of the next, and as many assemblies."""
    width = int((n / 8) ** 0.5)
    components = [component("W", ports("P", "o", "I", width)), component("V", ports("R", "i0", "I", 1))]
    below = []
    for level in range(6):
        held, letter, count = ("V", "i0", 1) if level == 5 else (f"L{level + 1}", "h", width)
        to = [delegation(["a", f"{letter}{b}"], f"h{a}") for a in range(width) for b in range(count)]
        below.append(composition(f"L{level}", ports("R", "h", "I", width), [prototype("a", held)], to))
    sides = [prototype("p", "W"), prototype("r", "L0")]
    across = [assembly(["p", f"o{a}"], ["r", f"h{b}"]) for a in range(width) for b in range(width)]
    return whole(AB, components, [top(sides, across)] + below)


def above_cycle(n):
    """A long row of compositions, each of the next, of which the last contains itself."""
    below = [{"shortName": f"C{k}", "prototypes": [prototype("p", f"C{min(k + 1, n - 1)}")]} for k in range(n)]
    return whole(AB, [], below, "C0")


def between_cycles(n):
    """The same row from a composition that contains itself, which is declared last."""
    last = {"shortName": "Top", "prototypes": [prototype("p", "Top"), prototype("q", "C0")]}
    return whole(AB, [], above_cycle(n)["compositions"] + [last], "Top")


def calls(n):
    """An interface of very many operations."""
    return {"kind": "ClientServerInterface", "shortName": "C", "operations": [{"shortName": f"o{k}"} for k in range(n)]}


def points(n):
    """Very many ports of the root, all of one interface of as many operations, each of which the environment may call."""
    return whole([calls(n)], [], [top([], [], ports("P", "p", "C", n))])


def points_inside(n):
    """Very many calls of a runnable of each of 1,022 instances."""
    accesses = [["call", "c", f"o{k}"] for k in range(n)]
    component = {
        "shortName": "W",
        "ports": [port("R", "c", "C")],
        "behavior": {"runnables": [{"shortName": "r", "accesses": accesses}]},
    }
    return whole([calls(n)], [component], [top([prototype(f"w{k}", "W") for k in range(1022)], [])])


def programs(n):
    """A program of as many statements, and an event for it, of each of 1,024 instances. It costs little, since it is in a loop of no turns."""
    runnable = {"shortName": "r", "program": [["repeat", 0, [["set", "x", 0]] * n]]}
    event = {"kind": "InitEvent", "shortName": "e", "runnable": "r"}
    components = [{"shortName": "W", "behavior": {"runnables": [runnable], "events": [event]}}]
    made = whole([], components, [top([prototype(f"w{k}", "W") for k in range(1024)], [])])
    made["mapping"]["tasks"] = [{"shortName": "T", "core": 0}]
    made["mapping"]["events"] = [{"instance": f"w{k}", "event": "e", "task": "T", "position": k} for k in range(1024)]
    return made


MOST_GROUPS = 16_383  # that a plan may have beside the clock


def pairs(first, last):
    """Coherent lists of two neighbours each."""
    return [[["i", f"e{k}"], ["i", f"e{k + 1}"]] for k in range(first, last - 1, 2)]


def reader(name, elements, coherent):
    """A runnable that reads elements implicitly, in these lists."""
    return {"shortName": name, "accesses": [["iread", "i", f"e{k}"] for k in range(elements)], "coherent": coherent}


def reading(elements, runnables, instances):
    """A component of one port with so many elements, and so many instances of it."""
    made = {"shortName": "V", "ports": [port("R", "i", "I")], "behavior": {"runnables": runnables}}
    stand = top([prototype(f"v{k}", "V") for k in range(instances)], [])
    return whole([interface("I", *(f"e{k}" for k in range(elements)))], [made], [stand])


def coherent(n):
    """Very many coherent lists of 16 elements each, of a component without instances; the last one has an element alone."""
    listed = [[["i", f"e{k}"] for k in range(first, first + 16)] for first in range(0, n - 16, 16)]
    return reading(n, [reader("r", n, [*listed, [["i", f"e{n - 1}"]]])], 0)


def coherent_twice(n):
    """Very many coherent lists of the same two elements."""
    return reading(2, [reader("r", 2, pairs(0, 2) * n)], 1)


def bundles(n):
    """Coherent lists of two elements that connect as many groups as there may be, no two of them connected before; and more lists of these."""
    elements = min(n, MOST_GROUPS)
    turns = max(2, 4 * n // elements - 2)
    return reading(elements, [reader(f"r{k}", elements, pairs(k % 2, elements)) for k in range(turns)], 1)


def bundle_grows(n):
    """Coherent lists of 16 elements, 15 of which are in each, so that each list connects one group more with the same bundle."""
    count = min(n, MOST_GROUPS - 15)
    shared = [f"e{k}" for k in range(15)]

    def one_more(k):
        elements = [f"e{15 + k}", *shared]
        accesses = [["iread", "i", e] for e in elements]
        return {"shortName": f"r{k}", "accesses": accesses, "coherent": [[["i", e] for e in elements]]}

    return reading(15 + count, [one_more(k) for k in range(count)], 1)


def runnables_inside(n):
    """Very many runnables of each of 1,022 instances, which no event starts."""
    return reading(2, [{"shortName": f"r{k}"} for k in range(n)], 1022)


def lists_inside(n):
    """A coherent list of each of as many runnables, of each of 1,022 instances."""
    return reading(2, [reader(f"r{k}", 2, pairs(0, 2)) for k in range(n)], 1022)


def lists(n):
    """Lists that each hold one other, 120 within one another."""
    held = []
    for _ in range(119):
        held = [held]
    return [held] * n


def objects(n):
    """Objects of one member each."""
    return [{"": 0}] * n


def members(n):
    """One object of many members, each with a name of its own."""
    return {f"{k:x}": 0 for k in range(n)}


CASES = [
    connectors, connectors_apart, near, hubs_own, both_hubs, overlaps, ways, instances_apart, equal, names, names_own,
    names_split, names_split_own, alternate, instances, instances_joined, inner, outers, hub_joined, levels, above_cycle,
    between_cycles, points, points_inside, programs, coherent, coherent_twice, bundles, bundle_grows, runnables_inside,
    lists_inside, lists, objects, members,
]

MOST_LINES = 99_999  # a script may have one more
HEADER = "rte-trace 2\n"
BAD = "walk\n"  # a line that no script may have, so that nothing is run


def repeated(line, size):
    """A script with the line as often as it may stand there, and with one comment that fills the rest of the size."""
    rest = size - len(BAD)
    count = min(MOST_LINES - 2, rest // len(line))
    return line * count + "#" * (rest - count * len(line) - 1) + "\n" + BAD


def comments(size):
    """A script of as many comments as it may have lines."""
    return repeated("#" * max(1, size // MOST_LINES - 1) + "\n", size)


def ticks(size):
    """A script of as many ticks as it may have lines."""
    return repeated("tick 1\n", size)


def writes(size):
    """A script of as many writes of four words as it may have lines."""
    return repeated("write wheels.speeds 20,21,22,21\n", size)


def one_value(size):
    """A script of one line, with a value of as many words as it has room for."""
    head = "write wheels.speeds 0"
    return head + ",0" * ((size - len(head) - 1) // 2) + "\n"


def one_name(size):
    """A script of one line, with a name that is as long as the file."""
    head, tail = "write ", ".v 0\n"
    return head + "a" * (size - len(head) - len(tail)) + tail


def one_line(size):
    """A trace of one line."""
    return "a" * size


def one_entry(size):
    """A trace with one line behind its first, as of an entry with a value of very many words."""
    head = HEADER + "env write wheels.speeds 0"
    return head + ",0" * ((size - len(head)) // 2)


def empty_lines(size):
    """A trace of empty lines alone."""
    return "\n" * size


def empty_lines_behind(size):
    """A trace of empty lines behind its first."""
    return HEADER + "\n" * (size - len(HEADER))


def run_marks(size):
    """A trace of nothing but run marks, each closed."""
    return HEADER + "run\nidle\n" * ((size - len(HEADER)) // len("run\nidle\n"))


SCRIPTS = [comments, ticks, writes, one_value, one_name]
TRACES = [one_line, one_entry, empty_lines, empty_lines_behind, run_marks]


def text(case, count):
    return json.dumps(case(count), separators=(",", ":"))


def described(case, wanted):
    """The text of a description's case, of nearly so many bytes and not more."""
    few, many = len(text(case, 1000)), len(text(case, 2000))
    count = max(1, 1000 + (wanted - few) * 1000 // (many - few))
    while count > 1 and len(text(case, count)) > wanted:
        count -= max(1, count // 100)
    return text(case, count)


def main():
    case = next((case for case in CASES + SCRIPTS + TRACES if [case.__name__] == sys.argv[1:2]), None)
    if case is None or len(sys.argv) > 3:
        sys.exit(__doc__)
    wanted = int(float(sys.argv[2] if len(sys.argv) > 2 else 8) * 1048576)
    sys.stdout.write(described(case, wanted) if case in CASES else case(wanted))


if __name__ == "__main__":
    main()
