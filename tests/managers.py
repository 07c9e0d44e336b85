"""Two managers in one shelf (document 02, W12): a small model of who tracks what with how many ranges, for listings, and what the
rules of managers say of a device record.

The model knows neither shares nor marks. Its ranges are of one unit each, apart from each other, so that neither the pool nor a rule
of ranges is ever met, and of a report each range is a run.
"""

import pool
from edges import report
from parts import FIRST, LAST, ONLY, part, part_line
from settings_files import MOST_LIMIT, Settings, alone

MOST_RANGES = 16  # of a controller
TOLD = ("start", "stop", "recv", "susp", "resume", "part")  # the words before which `by` may stand
STATE = bytes(48)  # a header without anything behind it is a whole state


def first_hit(tests):
    """The number of the first test that isn't passed, or 0."""
    return next((number for number, passes in tests if not passes), 0)


# ---- Listings

def by(manager, line):
    return f"by {manager} {line}"


def dev2_line(one):
    *numbers, names = one
    return " ".join(map(str, ["dev2", *numbers, *names]))


def settings(limit, limit2=None, shelf=MOST_LIMIT, names=(5, 6, 7)):
    """Manager 1 with this limit; and, where there is a second limit, manager 2 with that."""
    second = (1, 0) if limit2 is None else (2, limit2)
    return Settings(1, 0, 8, 0, limit, *second, shelf, names)


class Shelf:
    """A device with these settings. Each call is by a manager, None for a line without `by`, and answers a row: its line, and the lines
    of its answer."""

    def __init__(self, one):
        self.settings, self.names, self.shelf = one, one.names, one.shelf
        self.first, self.limits = one.manager, {one.manager: one.limit}
        if not alone(one):
            self.limits[one.second] = one.limit2
        self.tracks, self.pending = {}, {}  # by controller: its manager and how many ranges; those of them that are written
        self.suspended, self.open = set(), None  # who is suspended, and whose state is on its way

    def dev(self):
        return dev2_line(self.settings), "0"

    def address(self, row):
        """Where the range in this row begins: every other unit."""
        return 2 * row * (4096 << self.settings.least)

    def counted(self, manager=None):
        """How many ranges are tracked in all, or by this manager."""
        return sum(count for tracker, count in self.tracks.values() if manager in (None, tracker))

    def known(self, manager, name):
        """The test that is first in each call that names a manager, behind 1."""
        return 2, manager in self.limits and name in self.names

    def caller(self, manager):
        return self.first if manager is None else manager

    def row(self, manager, line, tests, *done):
        """A line with its answer: the first test that isn't passed, or what a done call answers."""
        number = first_hit(tests)
        return (line if manager is None else by(manager, line)), *([str(number)] if number else done or ["0"])

    def start(self, manager, name, count):
        own = self.caller(manager)
        tests = [
            self.known(own, name),
            (4, name not in self.suspended),
            (3, name not in self.tracks),
            (12, count + self.counted(own) <= self.limits.get(own, 0)),
            (34, count + self.counted() <= self.shelf),
        ]
        line = " ".join(map(str, ["start", name, self.settings.least, *(number for row in range(count) for number in (self.address(row), 1))]))
        if not first_hit(tests):
            self.tracks[name], self.pending[name] = (own, count), set()
        return self.row(manager, line, tests)

    def stop(self, manager, name):
        tests = [
            self.known(self.caller(manager), name),
            (4, name not in self.suspended),
            (5, self.tracks.get(name, (None,))[0] == self.caller(manager)),
        ]
        if not first_hit(tests):
            del self.tracks[name]
        return self.row(manager, f"stop {name}", tests)

    def recv(self, manager, name, buffer):
        tests = [
            self.known(self.caller(manager), name),
            (5, self.tracks.get(name, (None,))[0] == self.caller(manager)),
            (8, buffer >= 32),
        ]
        done = ()
        if not first_hit(tests):
            rows = sorted(self.pending[name])
            told, left = rows[:(buffer - 16) // 16], rows[(buffer - 16) // 16:]
            self.pending[name] = set(left)
            done = report(self.settings.least, [(self.address(row), 1) for row in told], int(bool(left)), int(name in self.suspended))
            done[0] += " groups 1"  # it has at most 16 units
        return self.row(manager, f"recv {name} {buffer}", tests, *done)

    def susp(self, manager, name, kind=1):
        tests = [self.known(self.caller(manager), name), (15, kind <= 1)]
        if not first_hit(tests) and kind == 1:
            self.suspended.add(name)
        return self.row(manager, f"susp {name} {kind}", tests)

    def resume(self, manager, name):
        tests = [self.known(self.caller(manager), name), (13, name in self.suspended)]
        if not first_hit(tests):
            self.suspended.remove(name)
            self.open = None if self.open == name else self.open
        return self.row(manager, f"resume {name}", tests)

    def part(self, manager, name, indicator):
        """An only part with a whole state; a first one with its first dword, or a last one with the rest."""
        tests = [
            self.known(self.caller(manager), name),
            (13, name in self.suspended),
            (23, self.open in (None, name)),
            (26, indicator != LAST or self.open == name),
        ]
        begin, end = {ONLY: (0, 48), FIRST: (0, 4), LAST: (4, 48)}[indicator]
        if not first_hit(tests):
            self.open = name if indicator == FIRST else None
        done = ["0 whole 0"] if indicator == FIRST else ["0 whole 48", STATE.hex()]
        return self.row(manager, part_line(part(name, indicator, begin, STATE[begin:end])), tests, *done)

    def write(self, name, row):
        """A byte of the range in this row, whoever tracks it."""
        tests = [(2, name in self.names), (4, name not in self.suspended)]
        _, count = self.tracks.get(name, (None, 0))
        new = not first_hit(tests) and row < count and row not in self.pending[name]
        if new:
            self.pending[name].add(row)
        return self.row(None, f"write {name} {self.address(row)} 1", tests, f"0 {int(new)}")


# ---- Device records

def limits(record):
    """The managers that the settings name, each with its limit."""
    return dict([(record.manager, record.limit), *([record.second] if record.second else [])])


def counted(record, manager=None):
    """How many ranges the controllers in use track in all, or those that this manager tracks."""
    return sum(one.tracking[1] for one in pool.used(record) if one.tracking and manager in (None, one.managed_by(record.manager)))


def is_sound(record):
    """Whether a record that keeps all other rules keeps those of managers and limits."""
    names = [record.manager, *([record.second[0]] if record.second else [])]
    used, tracked = record.identifiers[:min(record.count, 8)], [one for one in pool.used(record) if one.tracking]
    kept = [
        len(set(names)) == len(names),
        not set(names) & set(used),
        all(limit <= MOST_LIMIT for limit in (record.limit, (record.second or (0, 0))[1], record.shelf)),
        all(one.managed_by(record.manager) in names for one in tracked),
        all(counted(record, manager) <= limit for manager, limit in limits(record).items()),
        counted(record) <= record.shelf,
    ]
    return all(kept)
