"""Every graph of a few recorded events over two locations and two threads, up to renaming.

All values are 0, so that every link can be made: a verdict does not depend on values. Every read is linked, as a closed
graph is denied otherwise. Modes matter to C11 alone, so only its graphs have several.
"""

from itertools import permutations, product

from lines import line

THREADS, LOCATIONS = 2, 2
SYNCHRONISING = {"R": (1, 2), "W": (1, 3), "U": (1, 2, 3, 4)}
C11 = 1


def events_of(count):
    """Every sequence of events (kind, thread, location) that begins in thread 1 at location 0."""
    choices = list(product("RWU", range(1, THREADS + 1), range(LOCATIONS)))
    first = [(kind, 1, 0) for kind in "RWU"]
    return product(*[first if i == 0 else choices for i in range(count)])


def writes_of(events, location):
    """The recorded writes of a location."""
    return [n for n, (kind, _, at) in enumerate(events, LOCATIONS) if kind in "WU" and at == location]


def links_of(events):
    """Every choice of a source for each read."""
    reads = [(n, at) for n, (kind, _, at) in enumerate(events, LOCATIONS) if kind in "RU"]
    for sources in product(*[[at] + writes_of(events, at) for _, at in reads]):
        yield [(n, source) for (n, _), source in zip(reads, sources)]


def placements_of(events):
    """Every order of some of the writes, for each location."""
    def orders(writes):
        return [order for count in range(len(writes) + 1) for order in permutations(writes, count)]

    for chosen in product(*[orders(writes_of(events, at)) for at in range(LOCATIONS)]):
        yield [pair for at, order in enumerate(chosen) for pair in zip(order, (at,) + order)]


def piles():
    """Each model with each strong set."""
    for model in range(5):
        for strong in range(2**THREADS):
            yield strong, model


def modes_of(events, model):
    """Every choice of modes that matters."""
    if model == C11:
        return product(*[SYNCHRONISING[kind] for kind, _, _ in events])
    return [tuple(1 for _ in events)]


def recorded(events, modes, links, placed, strong, model):
    """The recording of a graph."""
    lines = [line("H", THREADS, LOCATIONS, strong, 0, model)]
    for (kind, thread, at), mode in zip(events, modes):
        lines.append(line(kind, thread, at, 0 if kind in "RU" else None, 0 if kind in "WU" else None, mode))
    lines += [line("L", *pair) for pair in links] + [line("P", *pair) for pair in placed]
    return "".join(lines + [line("Z")])


def tiny_recordings(most, every=1):
    """Titles and recordings of graphs with up to so many recorded events, or one of so many of them."""
    number = 0
    for count in range(most + 1):
        for events in events_of(count):
            for links, placed, (strong, model) in product(links_of(events), placements_of(events), piles()):
                for modes in modes_of(events, model):
                    if number % every == 0:
                        yield f"tiny {number}", recorded(events, modes, links, placed, strong, model)
                    number += 1
