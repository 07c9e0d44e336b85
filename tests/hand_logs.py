"""Lines with logs made by hand (document 02, W13): totals about 2^64, which no listing comes to by itself.

A line is `M R D LINE` or `unknown LINE`. The programs `hand_logs` and `plain_hand_logs` play LINE, one of a session listing, with a log that
has these totals in every account, answer it, and say what the log then has for each controller of the device, in the order of its settings.
Any other line is `bad`.

What they must say comes from neither. The answers are the second program's. By how much a line adds to a controller's totals is the difference
of what the second program answers to `log`, in a shelf listing, before and behind it; and the sums are Python's numbers, which no border cuts.
"""

import random
from typing import NamedTuple, Optional

import seeded
from case import answers_by_line
from compare import lines_of
from log_edges import NUMBERS
from migration_logs import LogCase
from programs import run

MOST = 2 ** 64 - 1
NONE, UNKNOWN = (0, 0, 0), None
SESSIONS_A_RUN = 100
# before a good line: totals that are none
NO_TOTALS = [b"", b"0 ", b"0 0 ", b"0 0 0 0 ", b" 0 0 0 ", b"0  0 0 ", b"0 0 0  ", b"0 0 0", b"01 0 0 ", b"0 00 0 ", b"-1 0 0 ", b"0 0 0x ", b"0 0 0\t", b"unknown", b"unknown  ",
             b"Unknown ", b"unknown 0 ", b"0 0 unknown ", *(b" ".join(row) + b" " for row in ([b"%d" % (MOST + 1), b"0", b"0"], [b"0", b"%d" % (MOST + 1), b"0"],
                                                                                          [b"0", b"0", b"%d" % (MOST + 1)], [b"%d" % (MOST + 6)] * 3))]


class Step(NamedTuple):
    line: bytes
    answer: list             # of lines
    controllers: tuple       # of the device behind it
    added: Optional[list]    # to each controller's totals; None where the log begins anew


# ---- Lines of a seed

def cases(seed, count, session, shelf):
    """Sessions of a seed, behind totals. `session` and `shelf` are the second program, which plays listings of either kind."""
    sessions = seeded.cases(seed, count)
    for at in range(0, count, SESSIONS_A_RUN):
        lines = [line for one in sessions[at:at + SESSIONS_A_RUN] for line in one.lines]
        yield behind_totals(f"seed {seed}, sessions from {at} on", random.Random(f"by hand {seed}/{at}"), steps_of(lines, session, shelf))


def steps_of(lines, session, shelf):
    """Each line with its answer, and with what it adds."""
    answers, rows, controllers = answers_of(session, lines), [], ()
    for line, answer in zip(lines, answers):
        if makes_device(line, answer):
            controllers = tuple(line.split(b" ")[6:])
        rows.append((line, answer, controllers))
    told, before = totals_behind(rows, shelf), []
    for (line, answer, controllers), after in zip(rows, told):
        anew = makes_device(line, answer)
        yield Step(line, answer, controllers, None if anew else [tuple(b - a for a, b in zip(*pair)) for pair in zip(before, after)])
        before = after


def makes_device(line, answer):
    return line.startswith(b"dev ") and answer == [b"0"]


def totals_behind(rows, shelf):
    """The totals of each controller behind each line, by `log`. A bad line is left out: it changes nothing, and might be none in a shelf listing."""
    asked = [([] if answer == [b"bad"] else [line]) + [b"log " + name for name in controllers] for line, answer, controllers in rows]
    answers = iter(answers_of(shelf, [line for lines in asked for line in lines]))
    for lines in asked:
        yield [numbers_of(answer[0]) for line, answer in [(line, next(answers)) for line in lines] if line.startswith(b"log ")]


def numbers_of(answer):
    """Of `0 marked M reported R dropped D`."""
    return tuple(map(int, answer.split(b" ")[2::2]))


def answers_of(program, lines):
    parts, _ = answers_by_line(len(lines), lines_of(run(program, b"".join(line + b"\n" for line in lines)).output))
    return parts


def behind_totals(name, dice, steps):
    """These lines behind totals, some of them once more behind none, which is bad and changes nothing."""
    lines, output = [], []
    for step in steps:
        if step.answer != [b"bad"] and dice.random() < 0.05:
            lines.append(dice.choice(NO_TOTALS) + step.line)
            output.append(b"bad")
        totals = any_totals(dice, step.added)
        lines.append(before_line(totals) + step.line)
        output += step.answer + ([] if step.answer == [b"bad"] else log_behind(totals, step))
    return case(name, lines, output)


def any_totals(dice, added):
    """Totals to begin with, aimed at those to which the line adds most."""
    if dice.random() < 0.1:
        return UNKNOWN
    return tuple(total(dice, more) for more in max(added or [], key=sum, default=NONE))


def total(dice, more):
    """Small, about 2^63, or near 2^64, often so that it comes to 2^64 - 1 with so many more, or just past it."""
    edge = min(MOST, MOST - more + dice.choice([-1, 0, 0, 1]))
    return dice.choice([0, dice.randrange(100), 2 ** 63 - dice.randrange(2), MOST, MOST - 1, MOST - dice.randrange(16_384), edge, edge, edge])


def before_line(totals):
    return b"unknown " if totals is UNKNOWN else b"%d %d %d " % totals


def log_behind(totals, step):
    """What the log has behind a line, for each controller."""
    if step.added is None:
        return [log_line(name, NONE) for name in step.controllers]
    return [log_line(name, grown(totals, added)) for name, added in zip(step.controllers, step.added)]


def grown(totals, added):
    """All three are unknown once one passes 2^64 - 1."""
    if totals is UNKNOWN:
        return UNKNOWN
    sums = tuple(a + b for a, b in zip(totals, added))
    return UNKNOWN if max(sums) > MOST else sums


def log_line(name, totals):
    return b"%b marked %b reported %b dropped %b" % (name, *([b"unknown"] * 3 if totals is UNKNOWN else [b"%d" % number for number in totals]))


def case(name, lines, output):
    return LogCase(name, *(b"".join(line + b"\n" for line in rows) for rows in (lines, output)))


# ---- Fixed lines, with answers by formulas that stand here

def fixed():
    """Each byte about totals, numbers about each border, and lines too long, all before `stop 5`, which is refused: 5 isn't tracked."""
    yield rows_case("bytes of totals", [row for byte in range(256) if byte != 0x0A for row in rows_of_byte(bytes([byte]))])
    yield rows_case("numbers of totals", [row for number in NUMBERS for row in rows_of_number(number)])
    yield rows_case("long lines", [row for length in [*range(1015, 1100), 65_536, 100_000] for row in rows_of_length(length)])


def rows_case(name, rows):
    """Rows of a line and the totals that stand before it, or "bad"."""
    lines, output = [b"0 0 0 dev 1 0 8 0 16 5"], [b"0", log_line(b"5", NONE)]
    for line, totals in rows:
        lines.append(line)
        output += [b"bad"] if totals == "bad" else [b"5", log_line(b"5", totals)]
    return case(name, lines, output)


def rows_of_byte(b):
    digit = b"0" <= b <= b"9"
    yield b + b" 2 3 stop 5", (int(b), 2, 3) if digit else "bad"
    yield b"1 " + b + b" 3 stop 5", (1, int(b), 3) if digit else "bad"
    yield b"1 2 " + b + b" stop 5", (1, 2, int(b)) if digit else "bad"
    yield b + b"1 2 3 stop 5", (int(b + b"1"), 2, 3) if digit and b != b"0" else "bad"
    yield b"1" + b + b" 2 3 stop 5", (int(b"1" + b), 2, 3) if digit else "bad"
    yield b"1" + b + b"2 3 stop 5", (1, 2, 3) if b == b" " else "bad"
    yield b"1 2 3" + b + b"stop 5", (1, 2, 3) if b == b" " else "bad"
    yield b"1 2 3 " + b + b"stop 5", "bad"
    yield b"unknow" + b + b" stop 5", UNKNOWN if b == b"n" else "bad"
    yield b"unknown" + b + b"stop 5", UNKNOWN if b == b" " else "bad"
    yield b"unknown" + b, "bad"


def rows_of_number(number):
    for place in range(3):
        totals = tuple(number if place == one else one for one in range(3))
        yield b"%d %d %d stop 5" % totals, totals if number <= MOST else "bad"
        yield b" ".join(b"0%d" % total if place == one else b"%d" % total for one, total in enumerate(totals)) + b" stop 5", "bad"


def rows_of_length(length):
    """The longest totals and the shortest; where a line is cut wrongly, its head or its tail would be a call."""
    for totals in ((MOST, MOST, MOST), NONE, UNKNOWN):
        good = before_line(totals) + b"stop 5"
        yield good.ljust(length), "bad"
        yield before_line(totals) + b"stop " + b"5" * length, "bad"
        yield b"x" * length + good, "bad"
        yield b" " * length + good, "bad"
        yield good, totals
