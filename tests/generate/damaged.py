"""Damaged recordings: each denial that a file can get, at varied lines and columns.

The titles tell what was done to a good recording. What comes of it is for the checkers to say.
"""

from lines import line, WIDTHS
from random_graphs import MODES, random_plan, random_recording

STARTS = (1, 5, 9, 20, 31)  # where each field begins in a line, counted from 0
FIELDS = {"H": "01234", "R": "0124", "W": "0134", "U": "01234", "F": "04", "L": "01", "P": "01", "Z": ""}

# A recording with every kind of line; its events are 0 and 1 initial, 2 W x, 3 R y, 4 W y, 5 U x, 6 F, 7 R x.
GOOD = [
    line("H", 3, 2, 5, 1, 3),
    line("W", 1, 0, None, 1, 1),
    line("R", 1, 1, 0, None, 2),
    line("W", 2, 1, None, 2, 3),
    line("U", 2, 0, 1, 4, 4),
    line("F", 3, None, None, None, 5),
    line("R", 3, 0, 4, None, 0),
    line("L", 3, 1),
    line("L", 5, 2),
    line("L", 7, 5),
    line("P", 2, 0),
    line("P", 4, 1),
    line("P", 5, 2),
    line("Z"),
]


def changed(at, *lines):
    """The good recording with some lines in place of one."""
    return "".join(GOOD[:at] + list(lines) + GOOD[at + 1 :])


def with_fields(at, texts):
    """The good recording with other bytes in some fields of a line, by their positions from 0."""
    text = GOOD[at]
    for position, field in texts.items():
        start, width = STARTS[position], WIDTHS[position]
        text = text[:start] + field.rjust(width)[:width] + text[start + width :]
    return changed(at, text)


def with_field(at, position, text):
    """The good recording with other bytes in a field of a line."""
    return with_fields(at, {position: text})


def first_of_each_kind():
    """Each kind of line, where it first stands in the good recording."""
    kinds = [text[0] for text in GOOD]
    return [(kind, kinds.index(kind)) for kind in FIELDS]


def bad_lines():
    """Line: a length other than 33, or an unknown letter."""
    unknown = "AxY\0\t\xff["
    for at, text in enumerate(GOOD):
        letter = unknown[at % len(unknown)]
        yield f"line {at + 1} a byte short", changed(at, text[:-2] + "\n")
        yield f"line {at + 1} a byte long", changed(at, text[:-1] + " \n")
        yield f"line {at + 1} with the letter {letter!r}", changed(at, letter + text[1:])
        yield f"an empty line {at + 1}", changed(at, "\n", text)
        yield f"line {at + 1} with a carriage return", changed(at, text[:-1] + "\r\n")
    for tail in ["\n", "Q\n", line("Z")[:-2] + "\n", line("R", 1, 0, 0)[1:] + "\n"]:
        yield f"{tail[:1]!r} behind Z", "".join(GOOD) + tail
    yield "a letter alone", "H\n"
    yield "a line of spaces", " " * 33 + "\n"


def bad_frames():
    """Frame: H and Z out of their places."""
    yield "nothing at all", ""
    for at in range(1, len(GOOD)):
        yield f"the first {at} lines", "".join(GOOD[:at])
        yield f"from line {at + 1} on", "".join(GOOD[at:])
        yield f"H again as line {at + 1}", changed(at, GOOD[0], GOOD[at])
        yield f"a bad H again as line {at + 1}", changed(at, line("H", "0x", "", "-1", "", ""), GOOD[at])
        yield f"line {at + 1} behind Z", "".join(GOOD) + GOOD[at]
        yield f"Z early as line {at + 1}", changed(at, line("Z"), GOOD[at])


def bad_fields():
    """Blank and Number: each field of each kind, empty, filled or no number."""
    for kind, at in first_of_each_kind():
        for position in range(5):
            if str(position) not in FIELDS[kind]:
                for text in ["0", "7", "\t", "x"]:
                    yield f"{kind} with {text!r} in field {position + 1}", with_field(at, position, text)
                continue
            yield f"{kind} without field {position + 1}", with_field(at, position, "")
            for text in ["00", "01", "-1", "+1", "1 ", "x", "\t", "1x", " 1 "]:
                yield f"{kind} with {text!r} in field {position + 1}", with_field(at, position, text)
            if WIDTHS[position] == 11:
                for text in ["4294967295", "4294967296", "9999999999", "99999999999", "10000000000", "1 1"]:
                    yield f"{kind} with {text!r} in field {position + 1}", with_field(at, position, text)


def two_faults():
    """Two faults on one line: each test looks at all fields before the next one begins."""
    for kind, at in first_of_each_kind():
        for first in map(int, FIELDS[kind]):
            for second in range(first + 1, 5):
                blank = "" if str(second) in FIELDS[kind] else "7"
                title = f"{kind} with 'x' in field {first + 1} and {blank!r} in field {second + 1}"
                yield title, with_fields(at, {first: "x", second: blank})
        if kind in MODES:
            for position in (0, 1) if kind != "F" else (0,):
                title = f"{kind} of mode 9 with 99 in field {position + 1}"
                yield title, with_fields(at, {4: "9", position: "99"})
    for first in range(5):
        for second in range(first + 1, 5):
            yield f"H with 99 in fields {first + 1} and {second + 1}", with_fields(0, {first: "99", second: "99"})


def bad_ranges():
    """Range: every number of every line just beyond its range."""
    numbers = {
        "H": [[0, 17, 9999], [0, 17, 300], [8, 65535, 65536, 4294967295], [2, 4294967295], [5, 6, 99]],
        "R": [[0, 4, 17], [2, 16, 9999]],
        "W": [[0, 4, 256], [2, 16, 256]],
        "U": [[0, 4, 257], [2, 16, 9999]],
        "F": [[0, 4, 9999]],
        "L": [[8, 255, 256, 9999], [8, 255, 256, 9999]],
        "P": [[8, 255, 256, 9999], [8, 255, 256, 9999]],
    }
    for kind, at in first_of_each_kind():
        for position, bad in enumerate(numbers.get(kind, [])):
            for number in bad:
                yield f"{kind} with {number} in field {position + 1}", with_field(at, position, str(number))
    for first, second in [(0, 0), (17, 17), (3, 0), (0, 17)]:
        yield f"H of size {first} and {second}", changed(0, line("H", first, second, 0, 0, 0))
    yield "a link before its read", changed(1, line("L", 3, 1), GOOD[1])
    yield "a place before its write", changed(1, line("P", 2, 0), GOOD[1])


def bad_modes():
    """Mode: each mode that a label does not take."""
    for kind, at in first_of_each_kind():
        if kind in MODES:
            for mode in [m for m in range(7) if m not in MODES[kind]] + [9, 10, 42, 99]:
                yield f"{kind} of mode {mode}", with_field(at, 4, str(mode))


def too_many_events():
    """Full: a record more than 256 events."""
    fence = line("F", 1, None, None, None, 5)
    records = {
        1: line("W", 1, 0, None, 0, 1),
        2: line("R", 1, 0, 0, None, 1),
        9: line("U", 1, 0, 0, 0, 1),
        16: fence,
    }
    for locations, record in records.items():
        full = line("H", 1, locations, 0, 0, 0) + fence * (256 - locations)
        yield f"{record[0]} on a full graph of {locations} locations", full + record + line("Z")
    yield "a full graph", full + line("Z")
    yield "an update of a bad mode on a full graph", full + line("U", 1, 0, 0, 0, 0) + line("Z")


def bad_entries():
    """Kind, Site, Value, Twice and Loose: links and placements that the graph does not take, and the first fault of several."""
    for first in range(9):
        for second in range(9):
            yield f"link {first} to {second} again", changed(13, line("L", first, second), GOOD[13])
            yield f"place {first} after {second} again", changed(13, line("P", first, second), GOOD[13])
    for at in (10, 11, 12):
        for other in (0, 1, 2, 4, 5):
            number = int(GOOD[at][1:5])
            yield f"place {number} after {other} in place of line {at + 1}", changed(at, line("P", number, other))
    for at in (7, 8, 9):
        number = int(GOOD[at][1:5])
        for other in (0, 1, 2, 4, 5):
            yield f"link {number} to {other} in place of line {at + 1}", changed(at, line("L", number, other))


def left_out():
    """Unread: recordings with links left out. Wide: with more writes left open than are judged."""
    for drop in [(7,), (8,), (9,), (7, 8), (8, 9), (7, 8, 9)]:
        yield f"without lines {drop}", "".join(text for i, text in enumerate(GOOD) if i not in drop)
    for count in (7, 8, 9, 20):
        writes = "".join(line("W", 1 + i % 4, i % 2, None, i, 1) for i in range(count))
        for model in (0, 3):
            yield f"{count} open writes, model {model}", line("H", 4, 2, 0, 0, model) + writes + line("Z")
    for count in (16, 17):
        for open_at in (0, 1):
            writes = "".join(line("W", 1, 0, None, i, 1) for i in range(count)) + line("W", 1, 1, None, 1, 1)
            placed = "".join(line("P", 2 + i, 0) for i in range(1 - open_at, count))
            placed += "" if open_at else line("P", 2 + count, 1)
            text = line("H", 1, 2, 0, 0, 0) + writes + placed + line("Z")
            yield f"{count} writes of a location, open at location {open_at}", text
    unread = line("H", 1, 1, 0, 0, 0) + line("W", 1, 0, None, 1, 1) * 9 + line("R", 1, 0, 0, None, 1) + line("Z")
    yield "an unlinked read and nine open writes", unread


def random_mutants(choose, count):
    """Random recordings with one or two random faults in their bytes or lines."""
    made = 0
    while made < count:
        lines = random_recording(choose, random_plan(choose, choose.between(2, 6))).encode().splitlines(keepends=True)
        for _ in range(choose.pick([1, 1, 2])):
            lines = mutated(choose, lines) or lines
        bytes_ = b"".join(lines)
        if not any(part.startswith(b"#") for part in bytes_.split(b"\n")) and bytes_.endswith(b"\n"):
            yield f"mutant {made}", bytes_
            made += 1


def mutated(choose, lines):
    """The lines with one fault."""
    i, how = choose.below(len(lines)), choose.below(7)
    text = bytearray(lines[i])
    at = choose.below(len(text)) if text else 0
    if how == 0:
        text[at] = choose.pick(b"0123456789 HRWUFLPZ\t\n\x00\xff-+.x")
    elif how == 1:
        del text[at]
    elif how == 2:
        text.insert(at, choose.pick(b"0123456789 Z"))
    elif how == 3:
        return lines[:i] + lines[i + 1 :]
    elif how == 4:
        return lines[:i] + [lines[i]] + lines[i:]
    elif how == 5:
        j = choose.below(len(lines))
        lines = list(lines)
        lines[i], lines[j] = lines[j], lines[i]
        return lines
    else:
        digits = [p for p, byte in enumerate(text) if chr(byte).isdigit()]
        if digits:
            text[choose.pick(digits)] = choose.pick(b"0123456789")
    return lines[:i] + [bytes(text)] + lines[i + 1 :]


def damaged_recordings(choose, mutants):
    """Titles and recordings; the first is the good one that the others were made of."""
    yield "undamaged", "".join(GOOD)
    sorts = [bad_lines, bad_frames, bad_fields, two_faults, bad_ranges, bad_modes]
    sorts += [too_many_events, bad_entries, left_out]
    for sort in sorts:
        for title, recording in sort():
            yield f"damaged: {title}", recording if isinstance(recording, bytes) else recording.encode("latin1")
    for title, recording in random_mutants(choose, mutants):
        yield f"damaged: {title}", recording


def without_newline():
    """A recording whose last line has no newline. In a packed file it can only stand last."""
    return "damaged: Z without its newline", "".join(GOOD)[:-1]
