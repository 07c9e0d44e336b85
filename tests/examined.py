"""How many groups of 64 units a report examines (document 02, W10), from the definition, and listings whose reports say so.

A controller's different units (W2) are stretches here, in the order of its list, and its marks are one number, whose bit m is
unit m. A run begins at each set bit whose neighbour below is clear or belongs to another stretch.
"""

from batches import DONE, records_of
from case import answers_by_line

GROUP = 64


def stretches(unit, ranges):
    """What each range has for itself, without what earlier ones have: units by their number in memory, from one up to another."""
    listed, own = [], []
    for start, length in ranges:
        left = [(start // unit, start // unit + length)]
        for first, after in listed:
            cut = [part for one, end in left for part in ((one, min(end, first)), (max(one, after), end))]
            left = [(one, end) for one, end in cut if one < end]
        listed.append((start // unit, start // unit + length))
        own += left
    return own


def groups(own, pending, room):
    """The groups up to and including the one where the run begins for which there is no room; if there is none, all."""
    begins, total = 0, 0
    for first, after in own:
        begins, total = begins | 1 << total, total + after - first
    firsts = pending & (begins | ~(pending << 1))
    for _ in range(room):
        firsts &= firsts - 1
    return lowest(firsts) // GROUP + 1 if firsts else -(-total // GROUP)


def lowest(bits):
    """The number of the lowest bit that is set."""
    return (bits & -bits).bit_length() - 1


def room(buffer):
    """How many runs a buffer of so many bytes holds (document 01, "The report")."""
    return (buffer - 16) // 16


# ---- Listings

class Tracked:
    """What a controller of a listing tracks, and its pending units as a number."""

    def __init__(self, granularity, *numbers):
        self.unit, self.pending = 4096 << granularity, 0
        self.own = stretches(self.unit, list(zip(numbers[::2], numbers[1::2])))

    def bits(self, address, end):
        """The units that share a byte with those from this address up to this end."""
        found, at = 0, 0
        for first, after in self.own:
            low, high = max(first, address // self.unit), min(after, -(-end // self.unit))
            if low < high and address < end:
                found |= (1 << high - low) - 1 << at + low - first
            at += after - first
        return found


def with_groups(cases):
    """These listings as shelf listings: the first line of each report says how many groups were examined. What is tracked and
    pending is followed by the answers that stand there."""
    return [case if case.answers is None else case._replace(answers=said_groups(case)) for case in cases]


def said_groups(case):
    tracked = {}
    parts, rest = answers_by_line(len(case.lines), case.answers)
    return [text for line, answer in zip(case.lines, parts) for text in followed(tracked, line, answer)] + rest


def followed(tracked, line, answer):
    """The answer to a line, with its groups if it is a report's; what is tracked is changed as a done line changes it."""
    if not answer or answer[0] != b"0" and not answer[0].startswith(b"0 "):
        return answer
    word, *numbers = line.split(b" ")
    if word == b"by":
        return followed(tracked, b" ".join(numbers[1:]), answer)
    if word in (b"dev", b"dev2"):
        tracked.clear()
    if word == b"start":
        name, *told = map(int, numbers)
        tracked[name] = Tracked(*told)
    if word == b"stop":
        tracked.pop(int(numbers[0]), None)
    if word in (b"write", b"batch", b"burst"):
        done = DONE.fullmatch(answer[0])
        for name, address, length in records_of(line)[:int(done.group(1)) if done else 1]:
            if name in tracked:
                tracked[name].pending |= tracked[name].bits(address, address + length)
    if word == b"recv" and int(numbers[0]) in tracked:
        return reported(tracked[int(numbers[0])], int(numbers[1]), answer)
    return answer


def reported(one, buffer, answer):
    said = b"%b groups %d" % (answer[0], groups(one.own, one.pending, room(buffer)))
    for run in answer[1:]:
        address, length = map(int, run.split(b" "))
        one.pending &= ~one.bits(address, address + one.unit * length)
    return [said, *answer[1:]]
