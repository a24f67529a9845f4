"""Random cycles of the kind that litmus tests are made of.

A cycle goes from location to location. At each location it goes through two or three events of different threads by
reads-from, modification order and reads-before; the last of them and the first at the next location are in one thread,
joined by program order. Fences, updates in place of writes, modes and open writes vary. Which models forbid such a
cycle depends on all of that.
"""

from lines import line
from random_graphs import MODES, Event, recorded

# The accesses of a cycle at one location, in turn: rf, rb, mo, and two of these.
PATHS = ["WR", "RW", "WW", "WR", "RW", "WW", "WRW", "RWR", "WWR"]
STYLES = {
    "relaxed": {"R": [1], "W": [1], "U": [1]},
    "released": {"R": [2], "W": [3], "U": [4]},
    "any": MODES,
}


def random_threads(choose):
    """The threads of a cycle, each a list of events; a source is an event, or None for the initial write."""
    locations = choose.between(2, 4)
    style = STYLES[choose.pick(list(STYLES))]
    updates = choose.pick([0, 0, 40])
    threads = [[]]
    for location in range(locations):
        last = None
        for i, kind in enumerate(choose.pick(PATHS)):
            if i > 0:
                threads.append([])
            if kind == "W" and choose.percent(updates):
                kind = "U"
            event = Event(kind, 0, location, choose.pick(style[kind]), source=last)
            threads[-1].append(event)
            if kind != "R":
                event.written = 1 if last is None else last.written + 1
                last = event
    # the cycle closes: the last thread goes on where the first began
    threads[0] = threads.pop() + threads[0]
    return locations, [with_between(choose, thread) for thread in threads]


def with_between(choose, thread):
    """A thread with a fence between its two events, or with the first one read back, or as it is."""
    if len(thread) < 2 or choose.percent(55):
        return thread
    if choose.percent(70):
        return [thread[0], Event("F", 0, 0, choose.pick([5, 5, 5, 3, 4])), thread[1]]
    first = thread[0]
    source = first if first.kind != "R" else first.source
    return [first, Event("R", 0, first.location, choose.pick([1, 2]), source=source), thread[1]]


def cycle_recording(choose):
    """A recording of a random cycle."""
    locations, threads = random_threads(choose)
    events = []
    for number, thread in enumerate(choose.shuffled(threads), 1):
        for event in thread:
            event.thread = number
            event.read = event.source.written if event.source else 0
            events.append(event)
    numbers = {id(event): n for n, event in enumerate(events, locations)}
    strong = choose.pick([0, 0, 0, choose.below(2 ** len(threads))])
    lines = [line("H", len(threads), locations, strong, choose.below(2), choose.below(5))]
    lines += [recorded(event) for event in events]
    for event in events:
        if event.kind in "RU":
            source = numbers[id(event.source)] if event.source else event.location
            lines.append(line("L", numbers[id(event)], source))
    left_open = choose.pick([0, 0, 50, 100])
    for location in range(locations):
        writes = [e for e in events if e.kind in "WU" and e.location == location]
        after = location
        for event in sorted(writes, key=lambda e: e.written):
            if not choose.percent(left_open):
                lines.append(line("P", numbers[id(event)], after))
                after = numbers[id(event)]
    return "".join(lines + [line("Z")])


def cycle_recordings(choose, count):
    """Titles and recordings of so many cycles."""
    for i in range(count):
        yield f"random cycle {i}", cycle_recording(choose)
