#!/usr/bin/env -S python3 -B
"""Writes the litmus tests of crates/litmus/data as recordings, and their list into crates/litmus/args.

A test is a row of TESTS: its name, its threads, and how its writes are placed.

    Wx1      a write of 1 to x          Rx1      a read of 1 from x
    Ux0>1    an update of x from 0 to 1 F        a fence

A suffix names the mode: .na .rlx .acq .rel .ar .sc; without one an access is relaxed and a fence is sc.
A read's source is the one write of that value at its location, 0 being the initial one; where there are
several, the source carries a name, as `free:Wl0`, and the read tells it, as `Ul0>1@free`.

Placements: a location with one recorded write has it placed after the initial write. One with several has
their order told, as `x: 1 2`, by the values written or the names. `-x` leaves the writes of x open, and
`-` those of every location.
"""

import pathlib
import re

from lines import line

MODES = {"na": 0, "rlx": 1, "acq": 2, "rel": 3, "ar": 4, "sc": 5}

# The well-known shapes, each with the outcome that is asked about: threads, placements.
SHAPES = {
    "SB": ("Wx1 Ry0 | Wy1 Rx0", ""),
    "LB": ("Rx1 Wy1 | Ry1 Wx1", ""),
    "MP": ("Wx1 Wy1 | Ry1 Rx0", ""),
    "S": ("Wx2 Wy1 | Ry1 Wx1", "x: 1 2"),
    "R": ("Wx1 Wy1 | Wy2 Rx0", "y: 1 2"),
    "2+2W": ("Wx2 Wy1 | Wy2 Wx1", "x: 1 2, y: 1 2"),
    "WRC": ("Wx1 | Rx1 Wy1 | Ry1 Rx0", ""),
    "RWC": ("Wx1 | Rx1 Ry0 | Wy1 Rx0", ""),
    "WWC": ("Wx2 | Rx2 Wy1 | Ry1 Wx1", "x: 1 2"),
    "WRW+WR": ("Wx1 | Rx1 Wy1 | Wy2 Rx0", "y: 1 2"),
    "WRW+2W": ("Wx2 | Rx2 Wy1 | Wy2 Wx1", "x: 1 2, y: 1 2"),
    "WRR+2W": ("Wx2 | Rx2 Ry0 | Wy1 Wx1", "x: 1 2"),
    "ISA2": ("Wx1 Wy1 | Ry1 Wz1 | Rz1 Rx0", ""),
    "Z6.0": ("Wx1 Wy1 | Ry1 Wz1 | Wz2 Rx0", "z: 1 2"),
    "Z6.1": ("Wx2 Wy1 | Wy2 Wz1 | Rz1 Wx1", "x: 1 2, y: 1 2"),
    "Z6.2": ("Wx2 Wy1 | Ry1 Wz1 | Rz1 Wx1", "x: 1 2"),
    "Z6.3": ("Wx1 Wy1 | Wy2 Wz1 | Rz1 Rx0", "y: 1 2"),
    "Z6.4": ("Wx1 Wy1 | Wy2 Rz0 | Wz1 Rx0", "y: 1 2"),
    "Z6.5": ("Wx1 Wy1 | Wy2 Wz1 | Wz2 Rx0", "y: 1 2, z: 1 2"),
    "3.2W": ("Wx2 Wy1 | Wy2 Wz1 | Wz2 Wx1", "x: 1 2, y: 1 2, z: 1 2"),
    "3.SB": ("Wx1 Ry0 | Wy1 Rz0 | Wz1 Rx0", ""),
    "3.LB": ("Rx1 Wy1 | Ry1 Wz1 | Rz1 Wx1", ""),
    "W+RWC": ("Wx1 Wy1 | Ry1 Rz0 | Wz1 Rx0", ""),
    "IRIW": ("Wx1 | Rx1 Ry0 | Wy1 | Ry1 Rx0", ""),
    "IRRWIW": ("Wx2 | Rx2 Ry0 | Wy1 | Ry1 Wx1", "x: 1 2"),
    "IRWIW": ("Wx2 | Rx2 Wy1 | Wy2 | Ry2 Wx1", "x: 1 2, y: 1 2"),
    "4.SB": ("Wx1 Ry0 | Wy1 Rz0 | Wz1 Rw0 | Ww1 Rx0", ""),
    "4.LB": ("Rx1 Wy1 | Ry1 Wz1 | Rz1 Ww1 | Rw1 Wx1", ""),
}


def with_fences(threads):
    """An sc fence between any two accesses of a thread."""
    return " | ".join(" F ".join(thread.split()) for thread in threads.split("|"))


def with_modes(threads, write, read):
    """A mode for every write and one for every read."""
    return re.sub(r"[WR]\w+", lambda op: f"{op[0]}.{write if op[0][0] == 'W' else read}", threads)


REL_ACQ = ["SB", "LB", "MP", "S", "R", "2+2W", "WRC", "RWC", "WWC", "ISA2", "Z6.0", "Z6.2", "Z6.3", "3.LB",
           "W+RWC", "IRIW"]
SCS = ["SB", "LB", "MP", "R", "2+2W", "WRC", "RWC", "IRIW"]
OPEN = ["SB", "LB", "MP", "S", "R", "2+2W", "WRC", "ISA2", "3.LB", "IRIW"]

TESTS = [(name, *shape) for name, shape in SHAPES.items()]
TESTS += [(f"{name}+syncs", with_fences(threads), mo) for name, (threads, mo) in SHAPES.items()]
TESTS += [(f"{name}+rel+acq", with_modes(SHAPES[name][0], "rel", "acq"), SHAPES[name][1]) for name in REL_ACQ]
TESTS += [(f"{name}+scs", with_modes(SHAPES[name][0], "sc", "sc"), SHAPES[name][1]) for name in SCS]
TESTS += [(f"{name}+open", SHAPES[name][0], "-") for name in OPEN]
TESTS += [
    # release and acquire on some accesses only
    ("MP+rel+rlx", "Wx1 Wy1.rel | Ry1 Rx0", ""),
    ("MP+rlx+acq", "Wx1 Wy1 | Ry1.acq Rx0", ""),
    ("MP+rel+sc", "Wx1 Wy1.rel | Ry1.sc Rx0", ""),
    ("MP+sc+acq", "Wx1 Wy1.sc | Ry1.acq Rx0", ""),
    ("MP+na+rel+acq", "Wx1.na Wy1.rel | Ry1.acq Rx0.na", ""),
    ("MP+na+rlx", "Wx1.na Wy1 | Ry1 Rx0.na", ""),
    ("MP+rel+acq+open", "Wx1 Wy1.rel | Ry1.acq Rx0", "-"),
    ("WRC+rlx+rel+acq", "Wx1 | Rx1 Wy1.rel | Ry1.acq Rx0", ""),
    ("ISA2+rel+rlx+acq", "Wx1 Wy1.rel | Ry1 Wz1.rel | Rz1.acq Rx0", ""),
    # release sequences
    ("MP+relseq", "Wx1 Wy1.rel Wy2 | Ry2.acq Rx0", "y: 1 2"),
    ("MP+relseq-rmw", "Wx1 Wy1.rel | Uy1>2.rlx | Ry2.acq Rx0", "y: 1 2"),
    ("MP+relseq-rmw.ar", "Wx1 Wy1.rel | Uy1>2.ar | Ry2.acq Rx0", "y: 1 2"),
    # fences on one side only, at the ends, and of weaker modes
    ("MP+fence.rel+fence.acq", "Wx1 F.rel Wy1 | Ry1 F.acq Rx0", ""),
    ("MP+sync+po", "Wx1 F Wy1 | Ry1 Rx0", ""),
    ("MP+po+sync", "Wx1 Wy1 | Ry1 F Rx0", ""),
    ("MP+sync+acq", "Wx1 F Wy1 | Ry1.acq Rx0", ""),
    ("MP+rel+sync", "Wx1 Wy1.rel | Ry1 F Rx0", ""),
    ("MP+sync+po-rfi-po", "Wx1 F Wy1 | Ry1 Wz1 Rz1 Rx0", ""),
    ("SB+sync+po", "Wx1 F Ry0 | Wy1 Rx0", ""),
    ("SB+fences.ar", "Wx1 F.ar Ry0 | Wy1 F.ar Rx0", ""),
    ("SB+syncs-before", "F Wx1 Ry0 | F Wy1 Rx0", ""),
    ("SB+syncs-after", "Wx1 Ry0 F | Wy1 Rx0 F", ""),
    ("R+po+sync", "Wx1 Wy1 | Wy2 F Rx0", "y: 1 2"),
    ("R+sync+po", "Wx1 F Wy1 | Wy2 Rx0", "y: 1 2"),
    ("2+2W+sync+po", "Wx2 F Wy1 | Wy2 Wx1", "x: 1 2, y: 1 2"),
    ("RWC+po+sync", "Wx1 | Rx1 Ry0 | Wy1 F Rx0", ""),
    ("RWC+rel+acq+sync", "Wx1.rel | Rx1.acq Ry0.acq | Wy1.rel F Rx0.acq", ""),
    ("W+RWC+po+po+sync", "Wx1 Wy1 | Ry1 Rz0 | Wz1 F Rx0", ""),
    ("IRIW+sync+po", "Wx1 | Rx1 F Ry0 | Wy1 | Ry1 Rx0", ""),
    ("WRC+sync+po", "Wx1 | Rx1 F Wy1 | Ry1 Rx0", ""),
    # updates in place of writes, and as fences
    ("SB+rmws", "Ux0>1 Ry0 | Uy0>1 Rx0", ""),
    ("SB+rmw+po", "Ux0>1 Ry0 | Wy1 Rx0", ""),
    ("SB+sync+rmw", "Wx1 F Ry0 | Uy0>1 Rx0", ""),
    ("SB+rmws-apart", "Wx1 Uz0>1.ar Ry0 | Wy1 Uw0>1.ar Rx0", ""),
    ("SB+rmws-shared", "Wx1 Uz0>1.ar Ry0 | Wy1 Uz1>2.ar Rx0", "z: 1 2"),
    ("SB+rmws-shared.rlx", "Wx1 Uz0>1 Ry0 | Wy1 Uz1>2 Rx0", "z: 1 2"),
    ("LB+rmws", "Rx1 Uy0>1 | Ry1 Ux0>1", ""),
    ("2+2W+rmws", "Ux1>2 Uy0>1 | Uy1>2 Ux0>1", "x: 1 2, y: 1 2"),
    ("2+2W+rmws.ar", "Ux1>2.ar Uy0>1.ar | Uy1>2.ar Ux0>1.ar", "x: 1 2, y: 1 2"),
    ("MP+rmw.rel+acq", "Wx1 Uy0>1.rel | Ry1.acq Rx0", ""),
    ("MP+rel+rmw.acq", "Wx1 Wy1.rel | Uy1>2.acq Rx0", "y: 1 2"),
    ("MP+rmw.acq+acq", "Wx1 Uy0>1.acq | Ry1.acq Rx0", ""),
    ("MP+rel+rmw.rel", "Wx1 Wy1.rel | Uy1>2.rel Rx0", "y: 1 2"),
    ("IRIW+rmws", "Ux0>1 | Rx1 Ry0 | Uy0>1 | Ry1 Rx0", ""),
    # processors with store buffers
    ("SB+rfi-pos", "Wx1 Rx1 Ry0 | Wy1 Ry1 Rx0", ""),
    ("amd3", "Wx1 Wx2 Ry1 | Wy1 Wy2 Rx1", "x: 1 2, y: 1 2"),
    ("amd10", "Wx1 F Rx1 Ry0 | Wy1 F Ry1 Rx0", ""),
    ("iwp2.8.b", "Ux0>1 Wy1 | Ry1 Rx0", ""),
    ("n1", "Wx2 Ry0 | Wy1 Wx1 | Rx1 Rx2", "-x"),
    ("n2", "Wx1 Wy1 | Wy2 Wz1 | Rz1 Rx0 | Ry1 Ry2", "-y"),
    ("n4", "Rx2 Wx1 Rx1 | Rx1 Wx2 Rx2", "-"),
    ("n4b", "Rx2 Wx1 | Rx1 Wx2", "-"),
    ("n5", "Wx1 Rx2 | Wx2 Rx1", "-"),
    ("n6", "Wx1 Rx1 Ry0 | Wy2 Wx2", "x: 2 1"),
    ("n7", "Wx1 Rx1 Ry0 | Wy1 | Ry1 Rx0", ""),
    # two or more writes that only their readers order
    ("2+2W+observers", "Wx2 Wy1 | Wy2 Wx1 | Rx1 Rx2 | Ry1 Ry2", "-"),
    ("2+2W+half-open", "Wx2 Wy1 | Wy2 Wx1", "x: 1 2, -y"),
    ("S+observer", "Wx2 Wy1 | Ry1 Wx1 | Rx1 Rx2", "-x"),
    ("RSW", "Wx1 F Wy1 | Ry1 Rz0 Rz0 Rx0", ""),
    ("RDW", "Wx1 F Wy1 | Ry1 Rz0 Rz1 Rx0 | Wz1", ""),
    # coherence
    ("CoRR", "Wx1 | Wx2 | Rx2 Rx1", "x: 1 2"),
    ("CoRR0", "Wx1 | Rx1 Rx0", ""),
    ("CoRR1", "Wx1 Wx2 | Rx2 Rx1", "x: 1 2"),
    ("CoRR2", "Wx1 | Wx2 | Rx1 Rx2 | Rx2 Rx1", "x: 1 2"),
    ("CoWW", "Wx1 Wx2", "x: 2 1"),
    ("CoRW", "Rx2 Wx1 | Rx1 Wx2", "x: 1 2"),
    ("CoRW1", "Rx1 Wx1", ""),
    ("CoRW2", "Rx2 Wx1 | Wx2", "x: 1 2"),
    ("CoWR", "Wx1 Rx2 | Wx2", "x: 2 1"),
    ("CoWR0", "Wx1 Rx0", ""),
    ("CoRR+open", "Wx1 | Wx2 | Rx2 Rx1", "-"),
    ("CoRR+back+open", "Wx1 | Wx2 | Rx2 Rx1 Rx2", "-"),
    ("CoRR0+open", "Wx1 | Rx1 Rx0", "-"),
    ("CoRR1+open", "Wx1 Wx2 | Rx2 Rx1", "-"),
    ("CoRR2+open", "Wx1 | Wx2 | Rx1 Rx2 | Rx2 Rx1", "-"),
    ("CoWW+open", "Wx1 Wx2", "-"),
    ("CoRW1+open", "Rx1 Wx1", "-"),
    ("CoRW2+open", "Rx2 Wx1 | Wx2", "-"),
    ("CoWR+open", "Wx1 Rx2 | Wx2", "-"),
    ("CoWR0+open", "Wx1 Rx0", "-"),
    ("CoRR0+na", "Wx1.na | Rx1.na Rx0.na", ""),
    ("CoRR0+rmw", "Ux0>1 | Rx1 Rx0", ""),
    ("CoWW+rmws", "Ux0>1 Ux1>2", "x: 2 1"),
    ("CoRW2+rmw", "Rx2 Wx1 | Ux1>2", "x: 1 2"),
    # updates are atomic
    ("RMW+RMW", "Ux0>1 | Ux0>2", "x: 1 2"),
    ("RMW+RMW+open", "Ux0>1 | Ux0>2", "-"),
    ("RMW+W", "Ux0>1 | Wx2", "x: 2 1"),
    ("RMW+W+behind", "Ux0>1 | Wx2", "x: 1 2"),
    ("RMW+W+open", "Ux0>1 | Wx2", "-"),
    ("RMW+own-write", "Wx1 Ux0>2", "x: 1 2"),
    ("RMW+own-write+open", "Wx1 Ux0>2", "-"),
    ("RMW+chain", "Ux0>1 | Ux1>2 | Ux2>3", "x: 1 2 3"),
    ("RMW+chain+open", "Ux2>3 | Ux1>2 | Ux0>1", "-"),
    ("RMW+chain+crossed", "Ux0>1 | Ux1>2 | Ux2>3", "x: 1 3 2"),
    ("RMW+ring", "Ux2>1 | Ux1>2", "-"),
    # locks
    ("lock+both-in", "Ul0>1.acq | Ul0>2.acq", "-"),
    ("lock+handoff", "Ul0>1.acq Wx1.na free:Wl0.rel | Ul0>2.acq@free Rx0.na", "l: 1 free 2"),
    ("lock+handoff.rlx", "Ul0>1.acq Wx1.na free:Wl0 | Ul0>2.acq@free Rx0.na", "l: 1 free 2"),
    ("lock+SB", "Ul0>1.acq Wx1 Ry0 free:Wl0.rel | Ul0>2.acq@free Wy1 Rx0 last:Wl0.rel", "l: 1 free 2 last"),
    ("lock+SB+open", "Ul0>1.acq Wx1 Ry0 free:Wl0.rel | Ul0>2.acq@free Wy1 Rx0 last:Wl0.rel", "-"),
    ("ticket-lock", "Un0>1 Rs0.acq Wx1.na Ws1.rel | Un1>2 Rs1.acq Rx0.na", "n: 1 2"),
    ("ticket-lock+same-ticket", "Un0>1 Rs0.acq | Un0>2 Rs0.acq", "-"),
    ("seqlock", "Ws1 F.rel Wx1 Ws2.rel | Rs0.acq Rx1 F.acq Rs0", "s: 1 2"),
    ("seqlock+rel+acq", "Ws1 Wx1.rel Ws2.rel | Rs0.acq Rx1.acq Rs0", "s: 1 2"),
    ("Treiber-pop", "Wx1.na Ut0>1.rel | Ut1>2.acq Rx0.na", "t: 1 2"),
    # mutual exclusion without locks
    ("Dekker", "Wx1 Ry0 Rc0.na Wc1.na | Wy1 Rx0 Rc0.na Wc2.na", "c: 1 2"),
    ("Dekker+syncs", "Wx1 F Ry0 Rc0.na Wc1.na | Wy1 F Rx0 Rc0.na Wc2.na", "c: 1 2"),
    ("Dekker+scs", "Wx1.sc Ry0.sc Rc0.na Wc1.na | Wy1.sc Rx0.sc Rc0.na Wc2.na", "c: 1 2"),
    ("Peterson", "Wx1 Wt2 Ry0 | Wy1 Wt1 Rx0", "t: 2 1"),
    ("Peterson+turn", "Wx1 Wt2 Ry0 | Wy1 Wt1 Rx1 Rt2", "t: 1 2"),
    ("Peterson+turn+open", "Wx1 Wt2 Ry0 | Wy1 Wt1 Rx1 Rt2", "-t"),
    ("Peterson+turns", "Wx1 Wt2 Ry1 Rt1 | Wy1 Wt1 Rx1 Rt2", "-t"),
    ("Peterson+syncs", "Wx1 Wt2 F Ry0 | Wy1 Wt1 F Rx0", "t: 2 1"),
    ("Peterson+rmws", "Wx1 Ut0>2.ar Ry0 | Wy1 Ut2>1.ar Rx0", "t: 2 1"),
    ("Peterson+rmws.rlx", "Wx1 Ut0>2 Ry0 | Wy1 Ut2>1 Rx0", "t: 2 1"),
    # too many open writes to be judged
    ("nine-open", " | ".join(f"Wx{n}" for n in range(1, 10)), "-"),
]

OP = re.compile(r"(?:(?P<name>\w+):)?(?P<kind>[RWUF])(?P<where>[a-z])?(?P<first>\d+)?(?:>(?P<second>\d+))?"
                r"(?:\.(?P<mode>\w+))?(?:@(?P<source>\w+))?")


def parsed(threads):
    """The operations in the order of their events, each with its thread."""
    ops = []
    for thread, text in enumerate(threads.split("|"), 1):
        for word in text.split():
            op = OP.fullmatch(word).groupdict()
            op["thread"] = thread
            ops.append(op)
    return ops


def record(op, where):
    """The line that records an operation."""
    mode = MODES[op["mode"]] if op["mode"] else (5 if op["kind"] == "F" else 1)
    if op["kind"] == "F":
        return line("F", op["thread"], None, None, None, mode)
    read = op["first"] if op["kind"] in "RU" else None
    written = {"R": None, "W": op["first"], "U": op["second"]}[op["kind"]]
    return line(op["kind"], op["thread"], where[op["where"]], read, written, mode)


def recorded(threads, placements):
    """The bytes of a test's recording."""
    ops = parsed(threads)
    where = {}
    for op in ops:
        if op["kind"] != "F":
            where.setdefault(op["where"], len(where))
    writes = {name: {"0": [at]} for name, at in where.items()}  # by location: value or name -> events
    for number, op in enumerate(ops, len(where)):
        if op["kind"] in "WU":
            key = op["name"] or (op["first"] if op["kind"] == "W" else op["second"])
            writes[op["where"]].setdefault(key, []).append(number)

    def one(name, key):
        found = writes[name][key]
        assert len(found) == 1, (threads, name, key)
        return found[0]

    lines = [line("H", len(threads.split("|")), len(where), 0, 0, 4)]
    lines += [record(op, where) for op in ops]
    for number, op in enumerate(ops, len(where)):
        if op["kind"] in "RU":
            lines.append(line("L", number, one(op["where"], op["source"] or op["first"])))
    told = dict(part.split(": ") for part in placements.split(", ") if ": " in part)
    left_open = {part[1:] for part in placements.split(", ") if part.startswith("-")}
    for name, at in where.items():
        keys = [key for key in writes[name] if writes[name][key] != [at]]
        if left_open & {"", name} or not keys:
            continue
        order = told[name].split() if name in told else keys
        assert sorted(order) == sorted(keys) and (name in told or len(keys) == 1), (threads, name)
        for key in order:
            lines.append(line("P", one(name, key), at))
            at = one(name, key)
    return "".join(lines + [line("Z")])


def main():
    crate = pathlib.Path(__file__).resolve().parents[2] / "crates" / "litmus"
    data = crate / "data"
    data.mkdir(parents=True, exist_ok=True)
    names = [name for name, _, _ in TESTS]
    assert len(set(names)) == len(names) and all(len(name) <= 28 for name in names)
    for name, threads, placements in TESTS:
        (data / f"{name}.txt").write_text(recorded(threads, placements))
    (crate / "args").write_text("".join(f"{name}.txt\n" for name in names))


if __name__ == "__main__":
    main()
