"""Lines of a recording, packed files, and choices that come out the same on every machine."""

WIDTHS = (4, 4, 11, 11, 2)


def line(kind, *fields):
    """A line of a recording: a kind letter and up to five fields, None for an empty one."""
    fields = list(fields) + [None] * (5 - len(fields))
    return kind + "".join(("" if f is None else str(f)).rjust(w) for f, w in zip(fields, WIDTHS)) + "\n"


def pack(recordings):
    """The bytes of a packed file: each recording behind its title line."""
    packed = bytearray()
    for title, recording in recordings:
        bytes_ = recording if isinstance(recording, bytes) else recording.encode()
        assert not any(part.startswith(b"#") for part in bytes_.split(b"\n")), title
        assert packed[-1:] in (b"", b"\n"), f"the recording before {title} does not end in a newline"
        packed += f"# {title}\n".encode() + bytes_
    return bytes(packed)


class Chooser:
    """Numbers from a fixed start value (the generator splitmix64)."""

    def __init__(self, start):
        self.state = start

    def word(self):
        """The next 64 bits."""
        self.state = (self.state + 0x9E3779B97F4A7C15) % 2**64
        z = self.state
        z = (z ^ z >> 30) * 0xBF58476D1CE4E5B9 % 2**64
        z = (z ^ z >> 27) * 0x94D049BB133111EB % 2**64
        return z ^ z >> 31

    def below(self, bound):
        """A number below the bound."""
        return self.word() % bound

    def between(self, low, high):
        """A number from low to high, both included."""
        return low + self.below(high - low + 1)

    def percent(self, share):
        """True in that many of a hundred cases."""
        return self.below(100) < share

    def pick(self, things):
        """One of the things."""
        return things[self.below(len(things))]

    def shuffled(self, things):
        """The things in some order."""
        things = list(things)
        for i in range(len(things) - 1, 0, -1):
            j = self.below(i + 1)
            things[i], things[j] = things[j], things[i]
        return things
