"""Numbers for the migration log (document 02, W13), told again from a listing's lines and answers.

Marked is what the done notes of a controller answered, added up; of a batch, which answers for all of its notes together, what each
marks anew. Reported is what the descriptors of its done reports say, in units. Dropped is how many of its units are pending at a done
stop: those that its notes touched and no report named since, by `Tracked` in examined.py. None is taken from the other two.
"""

from batches import DONE, NOTED, records_of
from case import answers_by_line
from compare import Side, play_two_ways, side
from examined import Tracked

LOGGED = (b"start", b"stop", b"write", b"recv", b"resume")  # lines that name one controller, behind which its log is worth asking for


def log_line(name):
    return f"log {name}"


class Logs:
    """The numbers of each controller of a listing's last device, in the order of its settings."""

    def __init__(self):
        self.made, self.totals, self.tracked = False, {}, {}

    def answer(self, name):
        """The answer to a `log` line."""
        if not self.made:
            return b"1"
        return b"0 marked %d reported %d dropped %d" % tuple(self.totals[name]) if name in self.totals else b"2"

    def follow(self, line, answer):
        """Counts what a line changes that got this answer, a list of lines."""
        if not answer or answer[0] != b"0" and not answer[0].startswith(b"0 "):
            return
        word, *numbers = line.split(b" ")
        if word == b"by":
            self.follow(b" ".join(numbers[1:]), answer)
        elif word in (b"dev", b"dev2"):
            names = map(int, numbers[5 if word == b"dev" else 8:])
            self.made, self.totals, self.tracked = True, {name: [0, 0, 0] for name in names}, {}
        elif word == b"start":
            name, *told = map(int, numbers)
            self.tracked[name] = Tracked(*told)
        elif word == b"stop":
            name = int(numbers[0])
            self.totals[name][2] += bin(self.tracked.pop(name).pending).count("1")
        elif word in (b"write", b"batch", b"burst"):
            self.noted(line, answer[0])
        elif word == b"recv":
            self.reported(int(numbers[0]), answer[1:])

    def noted(self, line, answer):
        done, count = DONE.fullmatch(answer), NOTED.fullmatch(answer)
        for name, address, length in records_of(line)[:int(done.group(1)) if done else 1]:
            one = self.tracked.get(name)
            touched = one.bits(address, address + length) if one else 0
            self.totals[name][0] += int(count.group(1)) if count else bin(touched & ~one.pending).count("1") if one else 0
            if one:
                one.pending |= touched

    def reported(self, name, runs):
        one = self.tracked[name]
        for run in runs:
            address, length = map(int, run.split(b" "))
            self.totals[name][1] += length
            one.pending &= ~one.bits(address, address + one.unit * length)


def of_listing(case):
    """The numbers after a listing whose answers are known."""
    logs = Logs()
    parts, _ = answers_by_line(len(case.lines), case.answers)
    for line, answer in zip(case.lines, parts):
        logs.follow(line, answer)
    return logs


# ---- Shelf listings with more `log` lines

def with_logs(cases):
    """These listings with the log of a controller behind each done line that names it, and with all logs at the end. No other answer
    changes."""
    for one in cases:
        if one.answers is not None:
            yield asked(one)


def asked(one):
    logs, lines, answers = Logs(), [], []
    parts, rest = answers_by_line(len(one.lines), one.answers)

    def ask(names):
        for name in names:
            lines.append(log_line(name).encode())
            answers.append(logs.answer(name))

    for line, answer in zip(one.lines, parts):
        logs.follow(line, answer)
        lines.append(line)
        answers += answer
        word, *numbers = line.split(b" ")
        if word == b"by" and len(numbers) > 1:
            _, word, *numbers = numbers
        if answer[0][:1] == b"0" and word in LOGGED:
            ask([int(numbers[0])])
        elif word in (b"batch", b"burst", b"dev", b"dev2"):
            ask(logs.totals)
    ask([*logs.totals, 65_432])
    return one._replace(name=f"{one.name}, with logs", lines=lines, answers=answers + rest, ended=True)


# ---- Each program's logs, by its own other answers

def play(cases, programs):
    """Yields, for each program, the first listing whose logs aren't what its other answers add up to."""
    return play_two_ways(cases, programs, "its logs and its other answers", both_ways)


def both_ways(program, case):
    given, logs, told = side("its logs", program, case), Logs(), []
    parts, rest = answers_by_line(len(case.lines), given.answers)
    for line, answer in zip(case.lines, parts):
        logs.follow(line, answer)
        is_log = line.startswith(b"log ") and answer and answer[0] != b"bad"
        told += [logs.answer(int(line.split(b" ")[1]))] if is_log else answer
    return [given, Side("its other answers", told + rest, given.ending)]
