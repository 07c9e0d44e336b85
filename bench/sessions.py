"""The listings that are timed: what is set up first, and the lines that are played on it."""

import random
from typing import NamedTuple

UNIT, UNITS, FIRST = 4096, 16384, 1 << 32  # bytes of a unit, units of the pool (W7), address of a controller's first
ID, UNKNOWN = 5, 4                         # as many digits in both, so that their lines cost the same to read
RUNS = 255                                 # what a report of 4,096 bytes holds
BATCH = 1024                               # the most notes of one batch (W4)
BATCHES = "writes in batches"              # the one body that is a shelf listing

DEV = "dev 1 0 8 0 128"
IDLE = [f"{DEV} {ID}"]                     # a device that tracks nothing: a done write marks nothing


class Record(NamedTuple):
    """Controllers among which all units of the pool are shared out evenly, each with as many ranges, one behind the other."""
    controllers: int
    ranges: int    # of each controller

    @property
    def ids(self):
        return range(ID, ID + self.controllers)

    @property
    def units(self):
        """Of each controller."""
        return UNITS // self.controllers

    @property
    def length(self):
        """Units of each range."""
        return self.units // self.ranges

    def start(self, id, fewer=lambda: 0):
        """A start with all of its ranges, each by so many units shorter as `fewer` says for it."""
        ranges = (f"{FIRST + i * self.length * UNIT} {self.length - fewer()}" for i in range(self.ranges))
        return f"start {id} 0 {' '.join(ranges)}"

    def setup(self):
        return [f"{DEV} {' '.join(map(str, self.ids))}"] + [self.start(id) for id in self.ids]


RECORDS = {"1 range": Record(1, 1), "128 ranges": Record(8, 16)}  # the second has the most controllers and ranges that there can be


class Body(NamedTuple):
    lines: list
    calls: int     # among how many calls its time is shared


# ---- Writes and reports of one controller that has so many units

def write(unit, within=0, id=ID):
    return f"write {id} {FIRST + unit * UNIT + within} 1"


def report():
    return f"recv {ID} 4096"


def few_writes(rng, units, count):
    """Writes of one byte, anywhere."""
    return [write(rng.randrange(units), rng.randrange(UNIT)) for _ in range(count)]


def batches(writes):
    """The same writes in batches of 1,024."""
    notes = [line.removeprefix("write ") for line in writes]
    return [" ".join(["batch", *notes[at:at + BATCH]]) for at in range(0, len(notes), BATCH)]


def far_apart(rng, units):
    """Writes of one byte to 0 to 8 units, each in its own eighth of the units; every second time the last unit is among them."""
    eighth = units // 8
    chosen = [eighth * at + rng.randrange(eighth) for at in rng.sample(range(8), rng.randrange(9))]
    if chosen and rng.randrange(2):
        chosen[-1] = units - 1
    return [write(unit, rng.randrange(UNIT)) for unit in chosen]


def sparse(rng, units, reports):
    """A few writes, a report, and so on: a report goes over all units and finds 0 to 8 runs."""
    return [line for _ in range(reports) for line in far_apart(rng, units) + [report()]]


def dense(rng, units, reports):
    """Every second unit is pending: half as many runs as there are units. A report takes the first 255, and 255 writes mark them again."""
    taken = [write(2 * run) for run in range(RUNS)]
    lines = [write(unit) for unit in range(0, units, 2)]
    for _ in range(reports):
        lines += [report()] + rng.sample(taken, RUNS)
    return lines


def without_reports(lines):
    return [line for line in lines if not line.startswith("recv")]


def to_unknown(lines):
    """The same writes, for an identifier that is not in the settings: refused with 2, after the soundness test."""
    return [line.replace(f"write {ID} ", f"write {UNKNOWN} ") for line in lines]


# ---- Stops and starts

def restarts(rng, record, pairs):
    """One controller or another is stopped and started again, each range as it was at first or a unit shorter: so other shares move by some bits."""
    return [line for id in rng.choices(record.ids, k=pairs) for line in (f"stop {id}", record.start(id, lambda: rng.randrange(2)))]


# ---- All of them

def bodies(seed, scale):
    """What is played, by the names of record and body. Scale 1 fits an emulator."""
    return {(name, body): made for name, record in RECORDS.items() for body, made in bodies_on(record, seed, scale).items()}


def bodies_on(record, seed, scale):
    rng = random.Random(seed)
    writes = few_writes(rng, record.units, 40 * BATCH * scale)
    all_units = [f"write {ID} {FIRST} {record.units * UNIT}"] * (2_000 * scale)
    many_runs = dense(rng, record.units, 80 * scale)
    return {
        "writes": Body(writes, len(writes)),
        "refused writes": Body(to_unknown(writes), len(writes)),
        BATCHES: Body(batches(writes), len(writes)),
        "writes to all units": Body(all_units, len(all_units)),
        **sparse_bodies(record, seed, scale),
        "dense": Body(many_runs, 80 * scale),
        "dense, no reports": Body(without_reports(many_runs), 80 * scale),
        "restarts": Body(restarts(rng, record, 2_000 * scale), 2_000 * scale),
    }


def sparse_bodies(record, seed, scale):
    """The sparse session, and the same without its reports."""
    lines = sparse(random.Random(seed), record.units, 1_000 * scale)
    return {"sparse": Body(lines, 1_000 * scale), "sparse, no reports": Body(without_reports(lines), 1_000 * scale)}


def no_device(record):
    """In place of a record: nothing is set up, every line answers 1, and no call does any work."""
    return f"{record}, no device"


def idle(record):
    """In place of a record: a device that tracks nothing."""
    return f"{record}, idle"


def listings(made):
    """Every listing to be timed: lines, by the names of record and body. One is empty: it costs what starting a program costs."""
    lines = {("nothing", "nothing"): []}
    for (record, name), body in made.items():
        lines[record, name] = RECORDS[record].setup() + body.lines
        lines[no_device(record), name] = body.lines
        if name in ("writes", "refused writes"):
            lines[idle(record), name] = IDLE + body.lines
    return lines
