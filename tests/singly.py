"""Batches against their notes played singly (document 02, W4), in one and the same program: no second one is needed.

A batch does exactly its single notes in list order up to the first refused one. So a listing in which each done batch is
replaced by these notes, as `write` lines, must get the same answers: what the notes answer, added up, is the batch's
answer, and every other line, reports among them, is answered as before.
"""

from batches import DONE, batch_answer, records_of, write_line
from case import Case, answers_by_line
from compare import Side, play_two_ways, side


def play(cases, programs):
    """Yields, for each program, the first difference."""
    return play_two_ways(cases, programs, "batches and their notes singly", both_ways)


def both_ways(program, case):
    """A program's answers to a listing, and those to it with its batches taken apart, put together again."""
    given = side("in batches", program, case)
    parts, _ = answers_by_line(len(case.lines), given.answers)
    notes = [tried(line, part) for line, part in zip(case.lines, parts)]
    apart = [one for line, singles in zip(case.lines, notes) for one in ([line] if singles is None else singles)]
    singly = side("singly", program, Case(case.name, apart, None, case.ended))
    return [given, Side("singly", put_together(notes, len(apart), singly.answers), singly.ending)]


def tried(line, answer):
    """The notes of a done batch as `write` lines: those done and the one after them, which must be refused. Else None."""
    done = DONE.fullmatch(answer[0]) if answer else None
    records = records_of(line) if done else None
    if records is None:
        return None
    return [write_line(record).encode() for record in records[:int(done.group(1)) + 1]]


def put_together(notes, count, answers):
    """The answers to a listing, from those to the same one with its batches taken apart."""
    parts, rest = answers_by_line(count, answers)
    at, lines = 0, []
    for singles in notes:
        own = parts[at:at + (1 if singles is None else len(singles))]
        at += len(own)
        flat = [line for part in own for line in part]
        lines += flat if singles is None else [batch_answer(flat)]
    return lines + rest
