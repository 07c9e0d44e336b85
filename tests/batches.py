"""Batches of notes (document 02, W4): their lines, their notes as single writes, and what a batch answers by its notes.

A record is an identifier, an address and a length in bytes.
"""

import re

from case import Case, answers_by_line

END = 2 ** 64
MOST_TAKEN = 1024    # records of a batch; with more it is refused with 22
MOST_LISTED = 1100   # records of a `batch` line; one with more is bad
MOST_BURST = 2000    # records of a `burst` line; one with more is bad
MOST_BYTES = 16_383  # of a line, before its line feed
GATHERED = 300       # records that fit a line, whatever their numbers are: one takes at most 48 bytes

NUMBER = rb"[0-9]{1,20}"
BATCH = re.compile(rb"batch(?: N N N)*".replace(b"N", NUMBER))
BURST = re.compile(rb"burst N N N N".replace(b"N", NUMBER))
WRITE = re.compile(rb"write N N N".replace(b"N", NUMBER))
NOTED = re.compile(rb"0 ([0-9]+)")  # the answer to a done write
DONE = re.compile(rb"0 done ([0-9]+) new [0-9]+ refusal [0-9]+")


# ---- Lines

def batch_line(records):
    return " ".join(["batch", *(str(number) for record in records for number in record)])


def burst_line(count, record):
    return " ".join(map(str, ["burst", count, *record]))


def write_line(record):
    return " ".join(map(str, ["write", *record]))


def records_of(line):
    """The records of a `batch`, a `burst` or a `write` line (of bytes); None for any other line."""
    if not any(form.fullmatch(line) for form in (BATCH, BURST, WRITE)):
        return None
    word, *numbers = line.split(b" ")
    numbers = [int(number) for number in numbers]
    if word == b"burst":
        return numbers[0] * [tuple(numbers[1:])]
    return [tuple(numbers[at:at + 3]) for at in range(0, len(numbers), 3)]


def line_of_bytes(length, filling, last, count=None):
    """A `batch` line of exactly so many bytes: records of length 0 of controller `filling`, then the record `last`.

    Addresses of 1 to 20 digits make up the length: of as few records as may be, or of `count` before the last one."""
    room = length - len(batch_line([last]))
    least = len(batch_line([(filling, "", 0)])) - len("batch")  # a record without the digits of its address
    count = count or -(-room // (least + 20))
    digits = room - count * least
    shares = [digits // count + (1 if row < digits % count else 0) for row in range(count)]
    return batch_line([*((filling, 10 ** (share - 1), 0) for share in shares), last])


# ---- Bad notes

def bad_note(dice, note, unknown, suspended):
    """A note that will be refused, made from a good one: of an unknown controller or a suspended one, past 2^64, or for
    two reasons. For the makers of seeded cases."""
    identifier, address, length = note
    past = (max(2, address), END - max(2, address) + 1)
    return dice.choice([
        (unknown, address, length), (unknown, *past),
        (suspended, address, length), (suspended, address, length), (suspended, *past),
        (identifier, *past), (identifier, END - 1, 2), (identifier, END - 1, END - 1),
    ])


# ---- Answers

def batch_answer(answers):
    """What a batch answers whose notes, one after another, are answered so (by a `write`) where each is made singly."""
    done = new = 0
    for answer in answers:
        noted = NOTED.fullmatch(answer)
        if not noted:
            return done_line(done, new, answer.decode("latin-1")).encode()
        done, new = done + 1, new + int(noted.group(1))
    return done_line(done, new).encode()


def done_line(done, new, refusal=0):
    return f"0 done {done} new {new} refusal {refusal}"


# ---- A listing with its single writes in batches

def gathered(case):
    """The same listing with each row of its writes in one batch, and the answers that follow from those to the writes.

    A refused note ends its batch. Behind it stand notes that would mark all units, if they were tried."""
    untried = sorted({(records_of(line)[0][0], 0, END - 1) for line in case.lines if WRITE.fullmatch(line)})
    lines, answers = [], []
    for row in rows_of(case):
        line, answer = row[0]
        if is_note(line, answer):
            row_answers = [answer[0] for _, answer in row]
            behind = [] if NOTED.fullmatch(row_answers[-1]) else untried
            line = batch_line([*(records_of(line)[0] for line, _ in row), *behind]).encode()
            answer = [batch_answer(row_answers)]
        lines.append(line)
        answers += answer
    return Case(f"{case.name}, its writes in batches", lines, answers, case.ended)


def rows_of(case):
    """The lines with their answers, in rows: of writes, up to the first refused one; any other line is a row alone."""
    rows, goes_on = [], False
    parts, _ = answers_by_line(len(case.lines), case.answers)
    for line, answer in zip(case.lines, parts):
        if goes_on and is_note(line, answer) and len(rows[-1]) < GATHERED:
            rows[-1].append((line, answer))
        else:
            rows.append([(line, answer)])
        goes_on = is_note(line, answer) and NOTED.fullmatch(answer[0])
    return rows


def is_note(line, answer):
    """Whether it is a write that a batch can hold: the line is good, and there is a device."""
    return WRITE.fullmatch(line) and answer[0] not in (b"bad", b"1")


def has_writes(case):
    return any(WRITE.fullmatch(line) for line in case.lines)
