"""From times to ratios. Every figure is a difference of times, so that what both listings do (starting, reading lines, answering) falls out."""

from sessions import BATCHES, idle, no_device

PROVED, PLAIN, TESTED = "proved", "plain C", "C with the test"
SHELF = "proved, in batches"


class Costs:
    """What one program's calls cost, by the best time of each record and body."""

    def __init__(self, best, program, calls):
        self.best, self.program, self.calls = best, program, calls

    def time(self, record, body):
        return self.best[self.program, record, body]

    def on(self, record, body):
        """A body on a record, less the same lines with no device: what its calls cost in all."""
        return self.time(record, body) - self.time(no_device(record), body)

    def line(self, record):
        """A line that is read and answered with one number, and leads to no call."""
        return (self.time(no_device(record), "writes") - self.time("nothing", "nothing")) / self.calls[record, "writes"]

    def done(self, record):
        """What the longer answer of a done write costs more than that of a refused one: both on a device that tracks nothing."""
        return (self.time(idle(record), "writes") - self.time(idle(record), "refused writes")) / self.calls[record, "writes"]

    def test(self, record):
        """The soundness test: a write that is then refused with 2 does nothing else, but for the search for its identifier."""
        return (self.time(record, "refused writes") - self.time(no_device(record), "writes")) / self.calls[record, "writes"]

    def write(self, record, body="writes"):
        return self.on(record, body) / self.calls[record, body] - self.done(record)

    def note(self, record):
        """A note in a batch: the answer of 1,024 of them is one line, so nothing is taken off for it."""
        return self.on(record, BATCHES) / self.calls[record, BATCHES]

    def report(self, record, session):
        return (self.on(record, session) - self.on(record, session + ", no reports")) / self.calls[record, session]

    def restart(self, record):
        """A stop and a start: their answers are as long as with no device, so nothing is taken off for them."""
        return self.on(record, "restarts") / self.calls[record, "restarts"]

    def session(self, record, session):
        return self.time(record, session) - self.time("nothing", "nothing")


CALLS = {
    "write, sparse: one unit": lambda costs, record: costs.write(record),
    "write, dense: all units of the controller": lambda costs, record: costs.write(record, "writes to all units"),
    "report, sparse: 0 to 8 runs": lambda costs, record: costs.report(record, "sparse"),
    "report, dense: 255 runs, mostly their text": lambda costs, record: costs.report(record, "dense"),
}
REST = {
    "a stop and a start again": lambda costs, record: costs.restart(record),
    "a line alone, no call": lambda costs, record: costs.line(record),
    "the whole sparse session": lambda costs, record: costs.session(record, "sparse"),
    "the whole dense session": lambda costs, record: costs.session(record, "dense"),
}


def ratio(cost):
    """The proved program's cost to another's."""
    return lambda programs, record, other: cost(programs[PROVED], record) / cost(programs[other], record)


def burst(programs, record, other):
    """A note in a batch of the proved program to a write of another."""
    return programs[SHELF].note(record) / programs[other].write(record)


def share(cost):
    """The soundness test's part of a program's cost, in percent."""
    return lambda programs, record, name: 100 * programs[name].test(record) / cost(programs[name], record)


def share_left_out(programs, record, name):
    """The same for a sparse write in C, where the test can be left out: it tells how far `share` can be believed."""
    return None if name == PROVED else 100 * (1 - programs[PLAIN].write(record) / programs[TESTED].write(record))


RATIOS = {**{name: ratio(cost) for name, cost in {**CALLS, **REST}.items()}, "a note in a batch of 1,024, to a C write": burst}
AIMS = {
    "write, sparse: one unit": "at most 6 and 16 of plain C, 3 of C with the test",
    "report, sparse: 0 to 8 runs": "at most 0.4 of plain C",
    "a line alone, no call": "at most 1.4",
    "the whole sparse session": "at most 1.6 with 1 range",
    "a note in a batch of 1,024, to a C write": "at most 2.5 of plain C",
}
SHARES = {**{name: share(cost) for name, cost in CALLS.items()}, "write, sparse, by leaving the test out": share_left_out}
