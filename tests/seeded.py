"""Sessions from a seed, aimed where errors live: edges of ranges and units, overlaps, small buffers, limits that are hit, and
a pool that is filled, left with gaps and packed again.

The maker keeps a guess of how the session stands, good enough to aim and not good enough to answer: the answers come from
the two programs alone. Session K of seed N is always the same.
"""

import random

from bad_rows import with_bad_rows
from case import Case
from damaged import damage
from overlap import beside_another, different_units

END = 2 ** 64
POOL = 16_384  # units of all controllers together (document 02, W7)


def cases(seed, count):
    return [Case(f"seed {seed}, session {number}", session(seed, number)) for number in range(count)]


def session(seed, number):
    return lines_of(Maker(random.Random(f"{seed}/{number}")))


def lines_of(maker):
    """A session's lines, some of them damaged."""
    dice, lines = maker.dice, [maker.dev()]
    length = dice.choice([6, 12, 20, 30, 45])
    while len(lines) < length:
        for line in maker.next_lines():
            lines.append(maker.damage(dice, line) if dice.random() < maker.damaged else line)
    return lines


class Maker:
    damage = staticmethod(damage)

    def __init__(self, dice):
        self.dice = dice
        self.tracked = {}       # guess: identifier -> (granularity, ranges)
        self.suspended = set()  # guess
        self.written = set()    # guess: identifiers with pending units
        self.damaged = dice.choice([0, 0, 0.02, 0.02, 0.3])
        # how much of the pool a start asks for: a little, at times a good part, or about all that is left
        self.pool = dice.choice(["little", "little", "little", "part", "part", "all"])
        self.changing = dice.random() < 0.5  # controllers stop and start often, so that the shares of others move
        self.overlaps = dice.choice([0, 0.5, 0.5, 1, 1])  # how often a list of ranges is pushed together
        self.small_buffers = dice.random() < 0.6

    # ---- the device

    def dev(self):
        """Settings that are done, so that a session never depends on the one before."""
        dice = self.dice
        names = dice.sample([0, 1, 2, 3, 5, 6, 7, 255, 256, 257, 4096, 32768, 65534, 65535], 9)
        self.manager, self.identifiers = names[0], names[1:1 + dice.choice([3, 4, 5, 8] if self.changing else [1, 2, 2, 3, 3, 5, 8])]
        self.least, self.greatest = dice.choice([(0, 0), (0, 8), (0, 8), (0, 20), (0, 20), (8, 8), (20, 20), (3, 12)])
        self.rule = dice.choice([0, 0, 0, 1])
        limits = [16, 33, 64] if self.changing else [dice.choice([0, 1, 2, 3, 8]), 16, 16, 33, 64, 127]
        self.limit = dice.choice([*limits, 128, 128, 128, 128])
        self.tracked, self.suspended, self.written = {}, set(), set()
        return self.words("dev", self.manager, self.least, self.greatest, self.rule, self.limit, *self.identifiers)

    def refused_dev(self):
        """One of the settings' rules broken; the device there was goes on."""
        manager, least, greatest, limit, names = self.manager, self.least, self.greatest, self.limit, self.identifiers
        broken = self.dice.randrange(6)
        if broken == 0:
            names = []
        if broken == 1:
            names = names[:7] + [names[0]]
        if broken == 2:
            names = names[:7] + [manager]
        if broken == 3:
            least = greatest + 1
        if broken == 4:
            greatest = self.dice.choice([21, 22, 255])
        if broken == 5:
            limit = self.dice.choice([129, 255, 256, 65535])
        return self.words("dev", manager, least, greatest, self.rule, limit, *names)

    # ---- lines

    def next_lines(self):
        kinds = self.kinds()
        made = self.dice.choices([kind for kind, _ in kinds], [weight for _, weight in kinds])[0]()
        return made if isinstance(made, list) else [made]

    def kinds(self):
        """What may come next, and how often."""
        kinds = [(self.write, 20), (self.writes, 14), (self.recv, 3), (self.drain, 1), (self.start, 4), (self.stop, 3),
                 (self.susp, 4), (self.resume, 3), (self.refused_dev, 1), (self.dev, 1)]
        if not self.tracked:
            kinds = [(self.start, 70), (self.write, 3), (self.recv, 2), (self.susp, 2), (self.resume, 2), (self.dev, 3)]
        elif len(self.tracked) < len(self.identifiers):
            kinds.append((self.start, 12 if not self.changing else 90 if len(self.tracked) < 3 else 20))
        if len(self.tracked) > 1 and self.changing:
            kinds += [(self.stop, 6), (self.change, 20)]
        if self.written:
            kinds += [(self.recv, 24), (self.drain, 6)]
        if self.suspended:
            kinds.append((self.resume, 12))
        return kinds

    def words(self, *words):
        return " ".join(map(str, words)).encode()

    def identifier(self, wanted=()):
        """One that is wanted, or any of the settings, rarely the manager's or a neighbour's."""
        luck = self.dice.random()
        if luck < 0.02:
            return self.manager
        if luck < 0.04:
            return (self.dice.choice(self.identifiers) + self.dice.choice([-1, 1])) % 65536
        wanted = [one for one in self.identifiers if one in wanted]
        return self.dice.choice(wanted if wanted and luck < 0.93 else self.identifiers)

    def stop(self, kept=None):
        """Of one that may stop, mostly, other than the one that is kept."""
        identifier = self.identifier(set(self.tracked) - self.suspended - {kept})
        if identifier not in self.suspended:
            self.tracked.pop(identifier, None)
        return self.words("stop", identifier)

    def susp(self):
        identifier, kind = self.identifier(self.tracked), self.dice.choice([1, 1, 1, 1, 0, 0, 2, 255])
        if kind == 1:
            self.suspended.add(identifier)
        return self.words("susp", identifier, kind)

    def resume(self):
        identifier = self.identifier(self.suspended)
        self.suspended.discard(identifier)
        return self.words("resume", identifier)

    def recv(self, identifier=None):
        small = [16, 31, 32, 32, 33, 47, 47, 48, 48, 63, 64, 79, 80, self.dice.randrange(65)]
        large = [128, 271, 272, 1024, 4095, 4096, 4096, self.dice.randrange(4097)]
        buffer = self.dice.choice(small if self.small_buffers or self.dice.random() < 0.5 else large)
        if identifier is None:
            identifier = self.identifier(self.written & set(self.tracked) or self.tracked)
        if buffer >= 64 or self.dice.random() < 0.3:
            self.written.discard(identifier)
        return self.words("recv", identifier, buffer)

    def change(self):
        """One writes, another stops and one starts, which moves the first one's share, mostly; then the first one's report."""
        writer = self.writer()
        written = self.scattered(writer) if self.dice.random() < 0.7 else [self.aimed(writer)]
        notes = [self.words("write", writer, *one) for one in written]
        moves = [self.stop(writer), self.start()] if self.dice.random() < 0.7 else [self.start()]
        return [*notes, *moves, self.recv(writer)]

    # ---- start

    def start(self):
        identifier = self.identifier([one for one in self.identifiers if one not in self.tracked])
        granularity = self.granularity()
        ranges = self.ranges(2 ** (12 + min(granularity, 20)))
        spoiled = self.dice.random() < 0.25
        if spoiled:
            granularity, ranges = self.spoil(granularity, ranges)
        if not spoiled and self.likely(identifier, granularity, ranges):
            self.tracked[identifier] = (granularity, ranges)
        return self.words("start", identifier, granularity, *(number for one in ranges for number in one))

    def likely(self, identifier, granularity, ranges):
        """Whether the start will be done, as far as the maker can tell."""
        unit = 2 ** (12 + min(granularity, 20))
        return (identifier in self.identifiers and identifier not in self.tracked and identifier not in self.suspended
                and self.least <= granularity <= self.greatest and self.within_limits(len(ranges))
                and all(address % unit == 0 and address + unit * length <= END for address, length in ranges)
                and different_units(unit, ranges) <= self.left())

    def within_limits(self, count):
        """Whether so many ranges more are within the limit, as far as the maker can tell."""
        return count + sum(len(others) for _, others in self.tracked.values()) <= self.limit

    def left(self):
        """How many units of the pool are left, as far as the maker can tell."""
        return POOL - sum(different_units(2 ** (12 + granularity), ranges) for granularity, ranges in self.tracked.values())

    def granularity(self):
        if self.dice.random() < 0.03:
            return self.dice.choice([0, max(0, self.least - 1), self.greatest + 1, 21, 255])
        return self.dice.choice([self.least, self.greatest, self.dice.randint(self.least, self.greatest)])

    def ranges(self, unit):
        """Rows with small gaps or none, often not in the order of their addresses; or pushed together, so that they overlap."""
        lengths = [self.length() for _ in range(self.dice.choice([1, 1, 2, 2, 3, 4, 6, 16]))]
        if self.dice.random() < 0.8:
            lengths = lengths[:max(1, self.limit // 2)]
        great = self.great()
        if great > sum(lengths):
            lengths[-1] = self.allowed(great - sum(lengths[:-1]))
        rows, at = [], 0
        for length in lengths:
            at += self.dice.choice([0, 0, 0, 1, 1, 2, 63, 64, 1000])
            rows.append((at, length))
            at += length
        if self.dice.random() < self.overlaps:
            rows = self.pushed_together(rows, great)
        base = self.base(unit, max(at + length for at, length in rows))
        if self.dice.random() < 0.5:
            self.dice.shuffle(rows)
        return [(min(base + unit * row, END - unit), length) for row, length in rows]

    def great(self):
        """How many units the ranges are to have in all, if these are many; else 0."""
        dice, left = self.dice, self.left()
        if self.pool == "all":
            return dice.choice([left - 1, left, left, left, left + 1, left // 2, left // 3])
        if self.pool == "part" and dice.random() < 0.5:
            return dice.choice([left // 2, left // 3, left // 5, 64 * dice.randint(1, 40), dice.randint(1, 4097)])
        return 0

    def allowed(self, length):
        """The length, or mostly, with the power-of-two rule on, the power of two below it."""
        return 2 ** (length.bit_length() - 1) if self.rule and self.dice.random() < 0.9 else length

    def pushed_together(self, rows, great):
        """Each row after the first is put where it has to do with one before it, mostly."""
        dice, placed = self.dice, rows[:1]
        for at, length in rows[1:]:
            length = dice.choice([length, length, length, dice.choice(placed)[1]])
            placed.append((beside_another(dice, placed, length) if dice.random() < 0.9 else at, length))
        missing = great - different_units(1, placed)
        if missing > 0:  # the row that ends last is made longer, until all have so many different units
            row = max(range(len(placed)), key=lambda one: sum(placed[one]))
            placed[row] = (placed[row][0], self.allowed(placed[row][1] + missing))
        return placed

    def length(self):
        if self.rule and self.dice.random() < 0.95:
            return 2 ** self.dice.choice([0, 0, 1, 1, 2, 3, 5, 6, 7])
        return self.dice.choice([1, 1, 1, 2, 2, 3, 4, 5, 6, 8, 12, 16, 31, 32, 33, 62, 63, 64, 65, 66, 127, 128, 129, 200])

    def base(self, unit, units):
        """Where the rows lie: at 0, about 2^32 and 2^63, anywhere, or so that they end at 2^64 or just past it."""
        end = END // unit
        places = [0, 1, 16, 2 ** 32 // unit, max(0, 2 ** 63 // unit - units // 2), end - units, end - units, end - units + 1,
                  self.dice.randrange(end)]
        return unit * max(0, min(self.dice.choice(places), end - 1))

    def spoil(self, granularity, ranges):
        """A start that breaks a rule, or whose line is damaged."""
        dice, ranges = self.dice, list(ranges)
        at = dice.randrange(len(ranges))
        address, length = ranges[at]
        unit = 2 ** (12 + min(granularity, 20))
        kind = dice.randrange(13)
        if kind == 0:
            ranges = []
        if kind == 1:
            ranges[at] = (address, 0)
        if kind == 2:
            ranges[at] = ((address + dice.choice([1, 512, unit // 2, unit - 1])) % END, length)
        if kind == 3:  # within another range, and yet it breaks a rule
            inside = min(END - 1, address + unit * dice.randrange(length))
            ranges.append(dice.choice([(inside, 0), (min(END - 1, inside + unit // 2), 1), (inside, 2 ** 32 - 1)]))
        if kind == 4:
            ranges.append((END - unit, dice.choice([1, 2, 2 ** 32 - 1])))
        if kind == 5:
            ranges[at] = (address, dice.choice([3, 4097, 16384, 16385, max(1, self.left()), self.left() + 1, 65536, 2 ** 31, 2 ** 32 - 1]))
        if kind == 6:
            granularity = dice.choice([0, self.greatest + 1, 255])
        if kind == 7:  # the descriptor limit counts listed ranges, and 17 are bad
            ranges = (ranges * 17)[:dice.choice([2, 15, 16, 16, 17])]
        if kind > 7:
            ranges = with_bad_rows(dice, unit, ranges)
        return granularity, ranges

    # ---- write

    def write(self):
        identifier = self.writer()
        return self.words("write", identifier, *self.aimed(identifier))

    def writes(self):
        """Writes of a byte, each into another unit of one controller: many runs."""
        identifier = self.writer()
        return [self.words("write", identifier, *one) for one in self.scattered(identifier)]

    def writer(self):
        """A controller whose notes will be done, mostly."""
        return self.identifier(set(self.tracked) - self.suspended)

    def tracked_by(self, identifier):
        """What it tracks, as far as the maker can tell: a unit's bytes, and ranges."""
        granularity, ranges = self.tracked.get(identifier, (self.least, [(65536, 4)]))
        return 2 ** (12 + granularity), ranges

    def aimed(self, identifier):
        """A written range, an address and bytes, at the edges of this controller's ranges and units."""
        unit, ranges = self.tracked_by(identifier)
        start, length = self.dice.choice(ranges)
        number = self.unit_of(length)
        address = start + unit * number + self.dice.choice([0, 0, 0, 1, -1, unit - 1, unit // 2, self.dice.randrange(unit)])
        address = max(0, min(address, END - 1))
        self.written.add(identifier)
        return address, self.bytes(unit, length - number, address)

    def scattered(self, identifier):
        """Written ranges of a byte, a sector or a unit, each in another unit; in long ranges more about their ends."""
        dice, (unit, ranges) = self.dice, self.tracked_by(identifier)
        step = dice.choice([1, 2, 2, 3, 16])
        addresses = set()
        for start, length in ranges:
            few = range(0, length, step) if length < 300 else [*range(0, 200, step), *range(length - 100, length), *dice.sample(range(length), 50)]
            addresses.update(start + unit * number for number in few)
        self.written.add(identifier)
        chosen = dice.sample(sorted(addresses), min(len(addresses), dice.choice([2, 3, 5, 8, 12])))
        return [(address, dice.choice([1, 1, 1, 512, unit])) for address in chosen]

    def drain(self):
        """A suspended controller's reports, until More To Report may be clear."""
        identifier = self.identifier(self.written & set(self.tracked) or self.tracked)
        buffer = self.dice.choice([32, 32, 47, 48, 64, 100])
        self.suspended.add(identifier)
        self.written.discard(identifier)
        reports = [self.words("recv", identifier, buffer)] * self.dice.choice([1, 1, 2, 3])
        return [self.words("susp", identifier, 1), *reports]

    def unit_of(self, length):
        """A unit of a range: its ends, one beside them, the edges of words, or any."""
        any_unit = self.dice.randrange(length)
        return self.dice.choice([0, length - 1, length, -1, min(length, 63), min(length, 64), any_unit, any_unit, any_unit])

    def bytes(self, unit, left, address):
        """A length in bytes: mostly within a unit or two, or up to the range's end, rarely up to 2^64 or past it."""
        luck = self.dice.random()
        if luck < 0.03:
            return min(END - 1, max(0, END - address + self.dice.choice([-1, 0, 1])))
        if luck < 0.05:
            return self.dice.choice([END - 1, 2 ** 63, self.dice.randrange(END)])
        if luck < 0.15:
            return max(0, unit * left + self.dice.choice([-1, 0, 1, unit]))
        return self.dice.choice([0, 1, 1, 1, 1, 2, 2, 512, 4096, unit - 1, unit, unit + 1, 2 * unit, 3 * unit + 2])
