"""Random graphs of every shape.

A graph is made from a run that its threads might have had: their events take effect in some order that keeps part of
program order, each read takes the last value at its location, and modification order is the order of effect. A share
of the reads and of the placements is then chosen at random. So allowed and forbidden graphs both come, under strong
models and weak ones.
"""

from dataclasses import dataclass, field

from lines import line

MODES = {"R": (0, 1, 2, 5), "W": (0, 1, 3, 5), "U": (1, 2, 3, 4, 5), "F": (2, 3, 4, 5)}


@dataclass
class Event:
    """An event with what it reads and writes, as far as that is settled."""

    kind: str
    thread: int
    location: int
    mode: int
    read: int = 0
    written: int = 0
    source: int | None = None


@dataclass
class Plan:
    """What a graph is to be like."""

    threads: int
    locations: int
    events: int  # recorded ones
    open_writes: int = 0
    unlinked: int = 0
    noise: int = 0  # how many of a hundred reads and placements are chosen at random
    relaxed: str = "none"  # what part of program order the run may leave: none, buffers, locations
    kinds: str = "RRRWWWUUF"
    models: tuple = (0, 1, 2, 3, 4)


@dataclass
class Graph:
    """A graph to be written as a recording."""

    plan: Plan
    header: tuple  # strong set, barrier, model
    events: list = field(default_factory=list)  # the initial writes are None

    def writes(self, location):
        """The recorded writes of a location, in rising number."""
        return [n for n, e in enumerate(self.events) if e and e.kind in "WU" and e.location == location]


def random_header(choose, plan):
    """A pile: any strong set, barrier or not, one of the models."""
    all_threads = 2**plan.threads - 1
    strong = choose.pick([0, 0, 0, all_threads, choose.between(0, all_threads)])
    return strong, choose.below(2), choose.pick(plan.models)


def random_events(choose, graph):
    """The events of a graph, by thread in turn or mixed."""
    plan = graph.plan
    threads = [choose.between(1, plan.threads) for _ in range(plan.events)]
    if choose.percent(50):
        threads.sort()
    graph.events = [None] * plan.locations
    for thread in threads:
        kind = choose.pick(plan.kinds)
        event = Event(kind, thread, choose.below(plan.locations), choose.pick(MODES[kind]))
        event.written = choose.pick([1, 1, 2, 3, choose.below(5), choose.below(2**32), 2**32 - 1])
        graph.events.append(event)


def may_overtake(plan, earlier, later):
    """Whether a run may let the later event of a thread take effect first."""
    if plan.relaxed == "none" or "F" in (earlier.kind, later.kind) or earlier.location == later.location:
        return False
    return plan.relaxed == "locations" or (earlier.kind == "W" and later.kind == "R")


def order_of_effect(choose, graph):
    """The recorded events in an order that keeps what the plan keeps of program order."""
    left = list(range(graph.plan.locations, len(graph.events)))
    order = []
    while left:
        i = choose.below(min(len(left), 12))
        event = graph.events[left[i]]
        ahead = [n for n in left[:i] if graph.events[n].thread == event.thread]
        blocking = [n for n in ahead if not may_overtake(graph.plan, graph.events[n], event)]
        order.append(blocking[0] if blocking else left[i])
        left.remove(order[-1])
    return order


def settle_values(choose, graph, order):
    """Gives each read its source and its value."""
    plan = graph.plan
    last = list(range(plan.locations))
    for n in order:
        event = graph.events[n]
        if event.kind in "RU":
            event.source = last[event.location]
            if choose.percent(plan.noise):
                event.source = choose.pick([event.location] + graph.writes(event.location))
            if event.source == n:
                event.source = n if choose.percent(20) else event.location
        if event.kind in "WU":
            last[event.location] = n
    for n in order:
        event = graph.events[n]
        if event.kind in "RU":
            source = graph.events[event.source]
            event.read = source.written if source else 0
    linked = [n for n in order if graph.events[n].source is not None]
    for n in choose.shuffled(linked)[: plan.unlinked]:
        graph.events[n].source = None


def placements(choose, graph, order):
    """Pairs of a write and the write to follow, in an order in which they can be placed."""
    plan = graph.plan
    writes = [n for n in order if graph.events[n].kind in "WU"]
    left_open = set(choose.shuffled(writes)[: plan.open_writes])
    pairs = []
    for location in range(plan.locations):
        final = [n for n in writes if graph.events[n].location == location and n not in left_open]
        for i in range(len(final) - 1):
            if choose.percent(plan.noise):
                final[i], final[i + 1] = final[i + 1], final[i]
        placed = [location]
        for n in choose.shuffled(final) if choose.percent(50) else final:
            at = max(i + 1 for i, p in enumerate(placed) if p == location or final.index(p) < final.index(n))
            pairs.append((n, placed[at - 1]))
            placed.insert(at, n)
    return pairs


def recorded(event):
    """The line that records an event."""
    if event.kind == "F":
        return line("F", event.thread, None, None, None, event.mode)
    read = event.read if event.kind in "RU" else None
    written = event.written if event.kind in "WU" else None
    return line(event.kind, event.thread, event.location, read, written, event.mode)


def lines_of(choose, graph, placed):
    """The recording: links and placements behind all records, or each as soon as it may come."""
    mixed = choose.percent(40)
    events = graph.events
    links = [(n, e.source) for n, e in enumerate(events) if e and e.source is not None]
    links = choose.shuffled(links) if choose.percent(30) else links
    placed = list(placed)
    lines = [line("H", graph.plan.threads, graph.plan.locations, *graph.header)]
    for n in range(graph.plan.locations, len(events)):
        lines.append(recorded(events[n]))
        if mixed and choose.percent(60):
            lines += [line("L", *pair) for pair in links if max(pair) <= n]
            links = [pair for pair in links if max(pair) > n]
            while placed and placed[0][0] <= n:
                lines.append(line("P", *placed.pop(0)))
    lines += [line("L", *pair) for pair in links] + [line("P", *pair) for pair in placed]
    return "".join(lines + [line("Z")])


def random_recording(choose, plan):
    """A recording of a graph by a plan, as bytes of text."""
    graph = Graph(plan, random_header(choose, plan))
    random_events(choose, graph)
    order = order_of_effect(choose, graph)
    settle_values(choose, graph, order)
    return lines_of(choose, graph, placements(choose, graph, order))


def random_plan(choose, events, threads=4, locations=3):
    """A plan for about so many recorded events."""
    noise = choose.pick([0, 0, 5, 10, 25, 60])
    return Plan(
        threads=choose.between(1, threads),
        locations=choose.between(1, locations),
        events=events,
        open_writes=choose.pick([0, 0, 1, 2, 3, choose.between(0, 9)]),
        unlinked=choose.pick([0] * 29 + [1]),
        noise=noise,
        relaxed=choose.pick(["none", "buffers", "locations"]),
        kinds=choose.pick(["RRRWWWUUF", "RW", "RWU", "U", "RRRRW", "WWWWR", "RWFF", "WU"]),
    )


def contended_plan(choose, events):
    """A plan for threads that meet at one or two locations."""
    plan = random_plan(choose, events, 4, 2)
    plan.threads = choose.between(2, 4)
    plan.noise = choose.pick([0, 10, 30, 100])
    plan.open_writes = choose.pick([0, 1, 2, 4, 6, 8, 9])
    plan.models = (0, 1, 2, 3, 3, 3, 4)
    plan.relaxed = choose.pick(["buffers", "locations"])
    plan.kinds = choose.pick(["RW", "RRW", "RWW", "RWU", "RRWWF", "RRU", "RRRWW"])
    return plan


def large_plan(choose, i):
    """A plan for up to 256 events, every other time for as many as there can be."""
    plan = random_plan(choose, 0, 16, 16)
    plan.events = 256 - plan.locations if i % 2 == 0 else choose.between(100, 256 - plan.locations)
    plan.noise = choose.pick([0, 0, 1])
    plan.unlinked = 0
    return plan


def random_recordings(choose, tiny, small, contended, middling, large):
    """Titles and recordings, so many of each sort."""
    most = [(2, 2), (4, 3), (16, 16)]
    sorts = [
        ("tiny", tiny, lambda i: random_plan(choose, choose.between(0, 4), *choose.pick(most))),
        ("small", small, lambda i: random_plan(choose, choose.between(5, 9), *choose.pick(most))),
        ("contended", contended, lambda i: contended_plan(choose, choose.between(4, 13))),
        ("middling", middling, lambda i: random_plan(choose, choose.between(10, 40), *choose.pick(most))),
        ("large", large, lambda i: large_plan(choose, i)),
    ]
    for name, count, plan in sorts:
        for i in range(count):
            yield f"random {name} {i}", random_recording(choose, plan(i))
