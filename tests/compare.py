"""Plays cases through two programs or three, compares every byte, and shortens a listing that shows a difference."""

import math
from itertools import zip_longest
from typing import NamedTuple

from case import Case, answers_by_line, begins_anew, input_of
from programs import run

TRIES_A_LINE = 200  # at shortening one line: of a batch each record might be tried


class Side(NamedTuple):
    """What one side of a comparison gave."""
    who: str
    answers: list  # of lines
    ending: str


class Found(NamedTuple):
    """A difference: a listing that shows it, what each side answered, and what is known about it."""
    title: str
    case: Case
    sides: list


def play(cases, programs):
    """Plays the cases, many in one run where they begin anew. Yields the differences, at most a few for each run."""
    many = [case for case in cases if begins_anew(case)]
    runs = [many] if many else []
    runs += [[case] for case in cases if not begins_anew(case)]
    for together in runs:
        yield from play_together(together, programs)


def play_together(cases, programs):
    first, *others = programs
    given, *rest = (side(program.name, program, joined(cases)) for program in programs)
    for one in (given, *rest):
        yield from against_hand(cases, one)
    for program, other in zip(others, rest):
        def sides_of(case):
            return [side(one.name, one, case) for one in (first, program)]

        if differ([given, other]):
            yield shortened_difference(f"first and {program.name} program", cases, [given, other], sides_of)


def play_two_ways(cases, programs, what, both_ways):
    """Plays the cases that begin anew through each program by itself, whose answers `both_ways` tells in two ways. Yields, for each
    program, the first difference."""
    cases = [case for case in cases if begins_anew(case)]
    for program in programs:
        def sides_of(case):
            return both_ways(program, case)

        sides = sides_of(joined(cases))
        if differ(sides):
            yield shortened_difference(f"{program.name} program, {what}", cases, sides, sides_of)


def joined(cases):
    """All these cases as one listing."""
    lines = [line for case in cases for line in case.lines]
    return Case("", lines, None, cases[-1].ended)


def side(who, program, case):
    result = run(program, input_of(case))
    return Side(who, lines_of(result.output), result.ending)


def differ(sides):
    one, other = sides
    return (one.answers, one.ending) != (other.answers, other.ending)


def against_hand(cases, given):
    """The first case whose answers by hand this side did not give."""
    if any(case.answers is None for case in cases):
        return
    by_hand = [answer for case in cases for answer in case.answers]
    place = first_difference(given.answers, by_hand)
    if place is None and given.ending == "ended":
        return
    case, start = case_at(cases, by_hand, place if place is not None else len(by_hand))
    answers = first_answers(given.answers[start:], len(case.lines))
    yield Found(f"{given.who} program, against the answers by hand: {case.name}", case,
                [Side(given.who, answers, given.ending), Side("by hand", case.answers, "ended")])


def lines_of(output):
    """The output's lines. A last one without its line feed is told apart by a mark."""
    lines = output.split(b"\n")
    last = lines.pop()
    return lines + [last + b"  (no line feed)"] if last else lines


def first_difference(one, other):
    """The first place where two lists differ, or None."""
    for place, (a, b) in enumerate(zip_longest(one, other)):
        if a != b:
            return place
    return None


def case_at(cases, answers, place):
    """The case whose answer stands at this place of all answers, and the place where its answers begin."""
    begin = 0
    for case in cases:
        after = begin + len(first_answers(answers[begin:], len(case.lines)))
        if place < after or case is cases[-1]:
            return case, begin
        begin = after


def first_answers(answers, count):
    """The answer lines of the next `count` listing lines."""
    _, rest = answers_by_line(count, answers)
    return answers[:len(answers) - len(rest)]


# ---- Shortening

def shortened_difference(what, cases, sides, sides_of):
    """The difference of two sides, on a listing from which no line can be deleted. `sides_of` plays a case."""
    one, other = (given.answers for given in sides)
    place = first_difference(one, other)
    case, _ = case_at(cases, other, place if place is not None else len(other))

    def shows(lines, ended):
        return differ(sides_of(Case(case.name, lines, None, ended)))

    lines, ended = shortest_start(cases, case, shows)
    before = len(lines)
    lines = fewest(lines, lambda fewer: shows(fewer, ended))
    lines = without_words(lines, lambda changed: shows(changed, ended))
    shorter = Case(case.name, lines, None, ended)
    title = f"{what}: {case.name}, shortened from {before} lines to {len(lines)}"
    return Found(title, shorter, sides_of(shorter))


def shortest_start(cases, case, shows):
    """The case alone if it shows the difference; else all lines up to its end; else all lines there are."""
    up_to = [line for other in cases[:cases.index(case) + 1] for line in other.lines]
    for lines in (case.lines, up_to):
        if shows(lines, case.ended):
            return lines, case.ended
    return [line for other in cases for line in other.lines], cases[-1].ended


def fewest(items, shows, tries=math.inf):
    """Deletes items, first many at a time and at last one by one, while the difference stays."""
    size = max(1, len(items) // 2)
    while True:
        at = 0
        while at < len(items):
            if tries == 0:
                return items
            tries -= 1
            fewer = items[:at] + items[at + size:]
            if shows(fewer):
                items = fewer
            else:
                at += size
        if size == 1:
            return items
        size = max(1, size // 2)


def without_words(lines, shows):
    """Deletes a start's ranges, a batch's records, and pairs of words of any other line, while the difference stays."""
    for at, line in enumerate(lines):
        head, parts = parted(line)

        def with_parts(fewer):
            return lines[:at] + [b" ".join([head, *fewer])] + lines[at + 1:]

        lines = with_parts(fewest(parts, lambda fewer: shows(with_parts(fewer)), TRIES_A_LINE))
    return lines


def parted(line):
    """The beginning of a line, at least its word, and the parts of two or three words that follow."""
    words = line.split(b" ")
    size = 3 if words[0] == b"batch" else 2
    first = 1 + (len(words) - 1) % size
    return b" ".join(words[:first]), [b" ".join(words[at:at + size]) for at in range(first, len(words), size)]
