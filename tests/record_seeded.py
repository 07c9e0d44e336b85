"""Cases of tests/records at random, from a seed."""

import random

import managers
import pool
from bad_rows import with_bad_rows
from batches import MOST_TAKEN, bad_note
from overlap import beside_another, different_units
from parts import FIRST, HEADER, LAST, MIDDLE, MOST_PART, MOST_STATE, ONLY, WORD, Part, header, spoiled
from queues import ENTRY, MOST_PLACES, WRONG_ENTRIES, WRONG_SIZES, Kept, any_entry
from record_by_hand import WRONG_AREAS, WRONG_WORDS
from record_case import ALL_ONES, CALLS, FRONT_BYTES, MEMORY, MOST_DATA, MOST_ROWS, Case, Record
from record_case import batch, make, part, post, structure, take


def cases(seed, count):
    """Each has a seed of its own, so that its name alone brings it back."""
    for number in range(count):
        yield Maker(f"{seed}/{number}").case().named(f"random, seed {seed}, number {number}")


class Maker:
    """Random cases from a seed: a sound record, at times damaged in one place, and a call that goes well with it."""

    def __init__(self, seed):
        self.random = random.Random(seed)
        self.place = 0  # the called controller's
        self.share_damaged = self.queue_damaged = self.manager_damaged = False
        self.sound = True  # None where that isn't known

    def chance(self, share):
        return self.random.random() < share

    def case(self):
        # A start has the most ways to be refused, and a part nearly as many; receives, posts and takes differ in what they find.
        call = self.random.choice(CALLS + ["start"] * 3 + ["receive"] * 2 + ["part", "post", "take"])
        self.great = 0.6 if call == "receive" else 0.2
        self.record = self.sound_record()
        if self.chance(0.5):
            # A fresh looks at the settings alone.
            self.damage_settings() if call == "fresh" else self.damage()
        self.called, self.by = self.identifier(call), self.caller(call)
        fields = {"id": self.called, "by": self.by, "mark": self.mark(), "words": self.words()}
        fields.update(getattr(self, call + "_fields", dict)())
        case = Case(self.record, call, **fields)
        case.share_damaged, case.queue_damaged, case.manager_damaged = self.share_damaged, self.queue_damaged, self.manager_damaged
        if self.manager_damaged:
            self.sound = managers.is_sound(self.record)
        case.sound = False if case.words != pool.WORDS else self.sound
        return case

    # Sound records

    def sound_record(self):
        pick = self.random
        record = self.record = Record()
        record.count = pick.choice([1, 2, 2, 3, 3, 4, 5, 8])
        few = pick.sample(range(20), 8) + [65535, 256, 257, pick.randrange(65536)]
        distinct = list(dict.fromkeys(few))
        pick.shuffle(distinct)
        record.manager, used = distinct[0], distinct[1:record.count + 1]
        names = [record.manager, distinct[record.count + 1]] if self.chance(0.6) else [record.manager]
        # An unused place often holds what would count if it were looked at.
        record.identifiers = used + [pick.choice(distinct + [0]) for _ in range(8 - record.count)]
        record.least, record.greatest = sorted(pick.choice([0, 0, 1, 8, 12, 19, 20]) for _ in range(2))
        record.rule = int(self.chance(0.4))
        for place, one in enumerate(record.controllers):
            one.base = self.number(16) % 2**16
            if self.chance(0.6):
                one.ranges = [(self.number(64), self.number(32)) for _ in range(16)]
            one.manager = pick.choice([0, *names, pick.choice(distinct), pick.randrange(65536)])
            if place >= record.count:
                one.tracking = pick.choice([None, (0, 1), (pick.randrange(256), pick.randrange(256))])
            elif self.chance(0.5) and self.units_left():
                granularity = pick.randint(record.least, record.greatest)
                one.track(granularity, *self.ranges(granularity))
                one.manager = pick.choice(names)
            one.suspended = int(self.chance(0.25))
            if self.chance(0.6):
                one.queue = self.queue() if place < record.count or self.chance(0.3) else self.any_queue()
        self.lay_shares()
        # Often little or nothing of a limit is left.
        record.limit, *others = [min(128, managers.counted(record, name) + pick.choice([0, 1, 2, 16, *[128] * 6])) for name in names]
        record.second = (names[1], *others) if others else None
        record.shelf = min(128, managers.counted(record) + pick.choice([0, 1, 2, 16, *[128] * 10]))
        suspended = self.used_places(lambda one: one.suspended)
        if suspended and self.chance(0.6):
            record.sequence = (record.identifiers[pick.choice(suspended)], self.end())
        return record

    def queue(self):
        """A sound one, small mostly: at times nearly full, full, or stopped and on its way to empty. Its totals are often about to
        pass 2^32, or have just done so. Rarely it has a size that no area has."""
        pick = self.random
        size = pick.choice([2, 2, 3, 3, 4, 5, 6, 7, 8, 16, 31, 33, 100, 132, 1023, 1024])
        if self.chance(0.04):
            size = pick.choice([1, 1025, 2048, 2050, 65535])
        fill = pick.choice([0, 0, 1, 2, size - 2, size - 1, size - 1, size - 1, size, pick.randrange(size)]) % (size + 1)
        taken = pick.choice([0, 1, WORD - 1, WORD - 2, WORD - fill, WORD - fill - 1, 2**31, pick.getrandbits(32)]) % WORD
        place = pick.choice([0, size - 1, size - 2, size // 2, pick.randrange(size)]) % size
        stopped = 1 if fill == size else int(self.chance(0.25))
        return Kept(size, (taken + fill) % WORD, taken, place, stopped)

    def any_queue(self):
        """One that nothing is asked of."""
        pick = self.random
        totals = [self.number(32) % WORD for _ in range(2)]
        return Kept(pick.choice([0, 1, 2, 65535]), *totals, self.number(16) % 2**16, pick.choice([0, 1]))

    def end(self):
        """Where a sequence may have ended: within the header, about its end, about the area's end, or anywhere."""
        pick = self.random
        return pick.choice([4, 8, 16, 20, 32, 36, 44, 48, 48, 52, 60, 64, 68, 4088, 4092, 4096, 4 * pick.randrange(1, 1025)])

    def lay_shares(self):
        """Puts the shares into the pool, in any order with any gaps; often as a start leaves them, or side by side. Gaps are
        small or great, or up to the edge of a word; the last share often ends with the pool."""
        pick = self.random
        tracked = [one for one in pool.used(self.record) if one.tracking]
        if self.chance(0.7):
            pick.shuffle(tracked)
        room = pool.POOL - sum(map(pool.units, tracked))
        gaps, at = pick.choice([[0], [0, 0, 1, 2], [0, 1, 63, 64, 65, 1000], [room // 2, room, 0]]), 0
        for number, one in enumerate(tracked):
            gap = pick.choice(gaps + [-at % 64]) if gaps != [0] else 0
            if number + 1 == len(tracked) and self.chance(0.3):
                gap = room
            gap = min(gap, room)
            one.base, at, room = at + gap, at + gap + pool.units(one), room - gap

    def units_taken(self):
        return sum(map(pool.units, pool.used(self.record)))

    def units_left(self):
        """How many units the pool has beside those tracked; 0 where a damaged record has too many."""
        return max(0, pool.POOL - self.units_taken())

    def ranges(self, granularity):
        """Ranges that keep the rules 18 to 21, 10 and 11, in any order; half of the lists overlap, some end at 2^64. Most are
        small, so that many fit the pool; some take half of what is left of it, or all, or a few groups. Where a report is asked for
        most do, so that it examines a few groups or many (document 02, W10)."""
        pick, unit = self.random, 4096 << granularity
        left = self.units_left()
        few = min(left, 64 * pick.randint(1, 30) + pick.choice([-1, 0, 1, pick.randrange(64)]))
        great = pick.choice([left, left, left // 2, left // 3, few, few, few]) if self.chance(self.great) else 0
        lengths = self.lengths(pick.choice([1, 2, 2, 3, 3, 4, 8, 15, 16]))
        rows = self.pushed_together(lengths, great) if self.chance(0.5) else self.apart(self.grown(lengths, great))
        if different_units(1, rows) > left:
            rows = rows[:1] if rows[0][1] <= left else [(rows[0][0], 1)]
        room = MEMORY // unit - max(at + length for at, length in rows)
        base = pick.choice([0, 0, 16, room, pick.randrange(room + 1)])
        if self.chance(0.5):
            pick.shuffle(rows)
        return [((base + at) * unit, length) for at, length in rows]

    def apart(self, lengths):
        rows, at = [], 0
        for length in lengths:
            at += self.random.choice([0, 0, 1, 2, self.random.randrange(2000)])
            rows.append((at, length))
            at += length
        return rows

    def pushed_together(self, lengths, great):
        """Each row has to do with one before it. Often more units are listed than there are different ones."""
        pick = self.random
        rows = [(pick.choice([0, 1, 300]), lengths[0])]
        for length in lengths[1:]:
            length = pick.choice([length, length, length, pick.choice(rows)[1]])
            rows.append((beside_another(pick, rows, length), length))
        missing = great - different_units(1, rows)
        if missing > 0 and not self.record.rule:
            # The row that ends last is made longer, up to so many different units.
            row = max(range(len(rows)), key=lambda one: sum(rows[one]))
            rows[row] = (rows[row][0], rows[row][1] + missing)
        elif missing > 0:
            rows[0] = (rows[0][0], 2 ** (great.bit_length() - 1))
        return rows

    def lengths(self, count):
        pick = self.random
        small, great = [1, 1, 1, 2, 2, 4, 8], [16, 32, 64, 128, 256]
        if not self.record.rule:
            small, great = small + [3, 5, 7], great + [31, 63, 65, 127, 129, 200]
        return [pick.choice(small if self.chance(0.85) else great) for _ in range(count)]

    def grown(self, lengths, great):
        """These lengths with the rest of so many units put to the first; with the rule on, powers of two that are no more."""
        missing = great - sum(lengths)
        if missing <= 0:
            return lengths
        if not self.record.rule:
            return [lengths[0] + missing, *lengths[1:]]
        power = 2 ** (great.bit_length() - 1)
        return self.random.choice([[power], [power // 2] * 2, [power // 16] * 16] if power >= 16 else [[power]])

    def number(self, bits):
        pick = self.random
        return pick.choice([0, 1, 2**bits - 1, 4096, 65536, pick.getrandbits(bits), pick.getrandbits(8)])

    # Damages: most make a sound record unsound, some don't.

    def damage(self):
        used, pick = self.record.controllers[:self.record.count], self.random
        tracked_ones = [one for one in used if one.tracking]
        self.one = pick.choice(tracked_ones or used)
        damages = [self.damage_settings, self.damage_tracking, self.damage_sequence, self.damage_queue, self.damage_managers]
        if tracked_ones:
            damages += [self.damage_tracking, self.damage_queue] + [self.damage_range] * 4 + [self.damage_share] * 3 + [self.damage_managers] * 3
        self.sound = None
        pick.choice(damages)()

    def damage_settings(self):
        record, pick = self.record, self.random
        name, values = pick.choice([
            ("count", [0, 1, 8, 9, 10, 255, 256 + record.count, 2**32 + 1, ALL_ONES]),
            ("manager", record.identifiers),
            ("identifiers", [self.one_repeated()]),
            ("least", [record.greatest, record.greatest + 1, 20, 21, 255]),
            ("greatest", [0, record.least, 20, 21, 255]),
            ("rule", [1]),
            ("limit", [0, 1, 128, 129, 256, 65535]),
            ("second", self.other_seconds()),
            ("second", self.other_seconds()),
            ("shelf", [0, 1, 128, 129, 256, 65535]),
        ])
        setattr(record, name, pick.choice(values))

    def other_seconds(self):
        """A second manager that is the first, a controller, stands in an unused place or has another limit; or none."""
        record, pick = self.record, self.random
        name, limit = record.second or (pick.randrange(65536), pick.randrange(129))
        others = [record.manager, *record.identifiers[:record.count], pick.choice(record.identifiers), pick.randrange(65536)]
        return [None, *((other, pick.choice([0, limit])) for other in others), *((name, other) for other in (0, 127, 128, 129, 129, limit + 256, 65535))]

    def one_repeated(self):
        """The identifiers with one in use put into another place, used or not."""
        repeated = list(self.record.identifiers)
        repeated[self.random.randrange(8)] = repeated[self.random.randrange(self.record.count)]
        return repeated

    def damage_tracking(self):
        record, pick, one = self.record, self.random, self.one
        granularity, count = one.tracking or (record.least, 1)
        edges = [record.least, record.greatest, record.least - 1, record.greatest + 1, granularity + 1]
        if self.chance(0.5):
            one.tracking = (pick.choice(edges + [20, 21, 64, 255]) % 256, count)
        else:
            one.tracking = (granularity, pick.choice([0, count - 1, count + 1, 16, 17, 18, 255]) % 256)
            if self.chance(0.5):
                record.limit = record.shelf = 128
                self.limit(one.managed_by(record.manager), 128)

    def damage_share(self):
        """A base at or about the end of the pool, or about another share's ends; or a share that grows by a unit."""
        record, pick, one = self.record, self.random, self.one
        self.share_damaged = True
        units = pool.units(one)
        others = [other for other in pool.used(record) if other.tracking and other is not one]
        other = pick.choice(others or record.controllers)
        end = other.base + pool.units(other)
        bases = [pool.POOL - units, pool.POOL - units + 1, pool.POOL - 1, pool.POOL, 2**16 - units, 2**16 - 1]
        beside = [other.base, other.base - units, other.base - units + 1, end, end - 1, (other.base + end) // 2]
        one.base = pick.choice(bases + beside * (2 if others else 0)) % 2**16
        if self.chance(0.2):
            granularity, count = one.tracking
            start, length = one.ranges[count - 1]
            one.ranges[count - 1] = (start, length + 1)

    def damage_sequence(self):
        """An end that is none, or an owner that may run, be unknown or stand in an unused place."""
        record, pick = self.record, self.random
        owner, end = record.sequence or (pick.choice(record.identifiers), self.end())
        record.sequence = pick.choice([
            (owner, pick.choice([0, 1, 2, 3, 6, end + 1, end + 2, end - 1, 4098, 4100, 4104, 8192, 65532, 65535])),
            (self.any_identifier(), end),
            (owner, end),
        ])

    def damage_queue(self):
        """A queue with one number at its border, just past it or anywhere; whether it is sound then is known."""
        pick, one = self.random, self.random.choice(pool.used(self.record))
        self.queue_damaged = True
        queue = one.queue or self.queue()
        size, posted, taken, place, stopped = queue
        fills = [size, size + 1, size - 1, size + 256, size + 2**16, WORD - 1, 2**31]
        one.queue = Kept(*pick.choice([
            *[(size, (taken + fill) % WORD, taken, place, stopped) for fill in fills],
            (size, (taken + size) % WORD, taken, place, 0),
            (size, (taken + size) % WORD, taken, place, 0),
            (size, posted, (posted + 1) % WORD, place, stopped),
            (size, taken, posted, place, stopped),
            *[(size, posted, taken, other % 2**16, stopped) for other in (size, size, size + 1, size - 1, place + 256, 65535)],
            *[(other % 2**16, posted, taken, place, stopped) for other in (0, place, place + 1, queue.fill(), queue.fill() + 1)],
            (size, posted, taken, place, 1 - stopped),
        ]))
        self.sound = all(other.queue.is_sound() for other in pool.used(self.record) if other.queue)

    def damage_managers(self):
        """Another manager of a tracked controller, a limit at what is taken of it or about 128, or another second manager; whether the
        record is sound then is known."""
        record, pick = self.record, self.random
        self.manager_damaged = True
        name = pick.choice(list(managers.limits(record)))
        taken = pick.choice([managers.counted(record, name), managers.counted(record)])
        limit = max(0, pick.choice([taken - 1, taken - 1, taken - 1, taken, taken + 1, 128, 129, 256 + taken, 65535]))
        kind = pick.choice(["manager"] * 4 + ["own limit"] * 3 + ["shelf limit"] * 3 + ["second"] * 2)
        if kind == "manager":
            self.one.manager = pick.choice([0, self.any_identifier(), self.any_identifier(), pick.choice(list(managers.limits(record))), name ^ 256])
        if kind == "own limit":
            self.limit(name, limit)
        if kind == "shelf limit":
            record.shelf = limit
        if kind == "second":
            record.second = pick.choice(self.other_seconds())

    def limit(self, manager, limit):
        """This manager has this limit; a stranger has none."""
        if manager == self.record.manager:
            self.record.limit = limit
        elif manager in managers.limits(self.record):
            self.record.second = (manager, limit)

    def damage_range(self):
        pick, one = self.random, self.one
        granularity, count = one.tracking
        unit = 4096 << granularity
        row, other = pick.randrange(count), pick.randrange(count)
        start, length = one.ranges[row]
        beside, beside_length = one.ranges[other]
        start, length = pick.choice([
            *[(start, new) for new in (0, length + 1, 3, 4097, 16384, 16385, 2**32 - 1, pick.getrandbits(32))],
            *[(new, length) for new in (start + 1, start + unit // 2, start - 4096, start ^ 2**63)],
            (beside, length),
            (beside + (beside_length - 1) * unit, length),
            (beside + beside_length * unit, length),
            (beside - length * unit, length),
            (beside - (length - 1) * unit, length),
            (MEMORY - length * unit, length),
            (MEMORY - (length - 1) * unit, length),
            (MEMORY - unit, 2),
            (pick.getrandbits(64), length),
        ])
        one.ranges[row] = (start % MEMORY, length % 2**32)

    # Calls

    def identifier(self, call):
        """Mostly one in use, and of these often one that the call isn't refused for."""
        if self.chance(0.08):
            return self.any_identifier()
        wanted = {
            "start": lambda one: not one.tracking and not one.suspended,
            "stop": lambda one: one.tracking and not one.suspended,
            "write": lambda one: one.tracking and not one.suspended,
            "receive": lambda one: one.tracking,
            "resume": lambda one: one.suspended,
            "part": lambda one: one.suspended,
            "post": lambda one: one.queue and not one.queue.stopped,
            "take": lambda one: one.queue and one.queue.fill(),
        }.get(call)
        liked = self.used_places(wanted) if wanted else []
        self.place = self.random.choice(liked if liked and self.chance(0.9) else self.used_places())
        return self.record.identifiers[self.place]

    def any_identifier(self):
        record, pick = self.record, self.random
        return pick.choice([*managers.limits(record), pick.choice(record.identifiers), pick.randrange(65536)])

    def caller(self, call):
        """Mostly a manager of the settings, and of a stop and a receive mostly the one that tracks; at times a controller or a stranger."""
        pick, record, one = self.random, self.record, self.record.controllers[self.place]
        known, tracker = list(managers.limits(record)), one.managed_by(record.manager)
        if self.chance(0.07):
            return pick.choice([0, record.manager ^ 256, pick.choice(record.identifiers), pick.randrange(65536)])
        if call in ("stop", "receive") and one.tracking:
            return tracker if self.chance(0.65) else pick.choice([name for name in known if name != tracker] or known)
        return pick.choice(known)

    def used_places(self, wanted=lambda one: True):
        """The places in use with a controller that is wanted."""
        return [place for place in range(max(1, min(self.record.count, 8))) if wanted(self.record.controllers[place])]

    def mark(self):
        pick = self.random
        sparse = pick.getrandbits(64) & pick.getrandbits(64) & pick.getrandbits(64)
        one = 1 << pick.randrange(64)
        return pick.choice([0, 0, ALL_ONES, ALL_ONES - one, 0x5555555555555555, 1, 2**63, one, one, 6, sparse, pick.getrandbits(64)])

    def words(self):
        return self.random.choice(WRONG_WORDS) if self.chance(0.04) else pool.WORDS

    def start_fields(self):
        record, pick = self.record, self.random
        granularity = min(20, pick.choice([record.least, record.greatest]))
        parts = {"granularity": granularity, "ranges": self.ranges(granularity)}
        if self.chance(0.3):
            self.leave_room(len(parts["ranges"]))
        elif self.chance(0.15):
            self.fill_pool(parts)
        if self.chance(0.5):
            pick.choice([self.damage_header] * 2 + [self.damage_listed] * 4 + [self.damage_rows] * 4)(parts)
        data = structure(reserved=pick.choice([0, 0, pick.getrandbits(16)]), **parts)
        if self.chance(0.1):
            data = data[:pick.choice([pick.randrange(8), pick.randrange(len(data)), len(data) - 1])]
        elif self.chance(0.2):
            data += pick.randbytes(pick.choice([1, 12, 100]))
        return {"data": data}

    def leave_room(self, count):
        """Just enough of the caller's limit, of the shelf's or of both is left, or one too few; of the other as it was."""
        record, pick = self.record, self.random
        own, all_counts = (managers.counted(record, name) + count - pick.choice([0, 1]) for name in (self.by, None))
        which = pick.choice(["own", "own", "shelf", "shelf", "both"])
        if which != "shelf":
            self.limit(self.by, min(128, own))
        if which != "own":
            record.shelf = min(128, all_counts)

    def fill_pool(self, parts):
        """The start's last range is made longer, so that the pool is just full, or has a unit too few."""
        *others, (start, _) = parts["ranges"]
        unit = 4096 << parts["granularity"]
        missing = self.units_left() - different_units(unit, others) + self.random.choice([-1, 0, 0, 1])
        start = 2**63 if others and start < 2**62 else start
        if missing > 0 and start + missing * unit <= MEMORY:
            parts["ranges"] = [*others, (start, missing)]

    def damage_header(self, parts):
        record, pick, number = self.record, self.random, len(parts["ranges"])
        name, value = pick.choice([
            ("version", pick.choice([1, 128, 255])),
            ("granularity", pick.choice([record.least - 1, record.greatest + 1, 255]) % 256),
            ("count", pick.choice([0, 0, number - 1, number + 1, 17, 256, 2**32 - 1])),
            ("ranges", (parts["ranges"] * 32)[:pick.choice([17, 17, 18, 32])]),
        ])
        parts[name] = value

    def damage_listed(self, parts):
        pick, listed, unit = self.random, parts["ranges"], 4096 << parts["granularity"]
        row = pick.randrange(len(listed))
        start, length = listed[row]
        far = (start + 2**63) % MEMORY  # from the others, so that it is the units that are too many
        listed[row] = pick.choice([
            *[(start, new) for new in (0, 3, 3, max(1, length - 1), length + 1, 16384, 2**32 - 1)],
            (far, max(1, self.units_left())),
            (far, self.units_left() + 1),
            ((start + 1) % MEMORY, length),
            (pick.choice(listed)[0], length),
            (MEMORY - unit, pick.choice([1, 2])),
        ])

    def damage_rows(self, parts):
        """Bad rows, at times in a list that is too long, so that none of them is heard."""
        rows = with_bad_rows(self.random, 4096 << parts["granularity"], parts["ranges"])
        parts["ranges"] = (rows * 17)[:17] if self.chance(0.15) else rows

    def write_fields(self):
        """At and around the edges of a listed range; at times anywhere."""
        pick = self.random
        if self.chance(0.2):
            return {"address": self.number(64), "bytes": self.number(64)}
        one = self.record.controllers[self.place]
        granularity, count = one.tracking or (0, 1)
        unit = 4096 << min(granularity, 20)
        start, length = one.ranges[pick.randrange(max(1, min(count, 16)))]
        at = start + pick.choice([0, 0, length, pick.randrange(length + 1)]) * unit + pick.choice([-1, 0, 0, 1])
        written = pick.choice([0, 1, 1, 2, unit, unit + 1, 3 * unit - 1, 64 * unit, MEMORY - at % MEMORY, ALL_ONES])
        return {"address": at % MEMORY, "bytes": written % MEMORY}

    def receive_fields(self):
        """With room for one run or a few; in places far apart there is room for some more."""
        pick = self.random
        size = pick.choice([31, 32, 32, 47, 48, 64, 100, 272, 1024, pick.randrange(1025), *[pick.randrange(32, 1025)] * 6])
        return {"data": pick.randbytes(size)}

    def suspend_fields(self):
        return {"type": self.random.choice([0, 1, 1, 1, 2, 255])}

    def batch_fields(self):
        """Good notes, often with bad ones among them in any place; at times a record too many."""
        pick = self.random
        rows = [self.note() for _ in range(pick.choice([0, 1, 2, 3, 5, 8, 8, 20, 20, MOST_ROWS]))]
        for row in pick.sample(range(len(rows)), min(len(rows), pick.choice([0, 0, 0, 1, 1, 2]))):
            rows[row] = self.bad_note()
        others = [pick.randrange(len(rows) + 1), 3 * len(rows) + 1, MOST_TAKEN, MOST_TAKEN + 1, MOST_TAKEN + 1]
        return batch(*rows, records=pick.choice([len(rows)] * 12 + others))

    def note(self):
        """Of any controller that runs, if there is one, and mostly of a tracked one; never past 2^64."""
        running = self.used_places(lambda one: not one.suspended) or self.used_places()
        tracked = [place for place in running if self.record.controllers[place].tracking]
        self.place = self.random.choice(tracked if tracked and self.chance(0.8) else running)
        fields = self.write_fields()
        return self.record.identifiers[self.place], fields["address"], min(fields["bytes"], MEMORY - fields["address"])

    def bad_note(self):
        record, note = self.record, self.note()
        suspended = [record.identifiers[place] for place in self.used_places(lambda one: one.suspended)]
        return bad_note(self.random, note, self.any_identifier(), self.random.choice(suspended or [note[0]]))

    def part_fields(self):
        """A part that goes on with the called controller's sequence, or begins one; it has the rest of a state, mostly, or
        some of it. Often the state or the part is spoiled, and at times the area has another length."""
        pick, (owner, end) = self.random, self.record.sequence or (None, 0)
        if self.chance(0.8):
            self.record.controllers[self.place].suspended = 1
        id = owner if owner is not None and self.chance(0.5) else self.called
        at = end if id == owner and end <= MOST_STATE and self.chance(0.8) else 0
        whole = self.whole(at)
        rest = self.chance(0.65)
        data = whole[at:] if rest else whole[at:at + 4 * pick.choice([1, 1, 2, 3, 8, 12])]
        indicator = (LAST if rest else MIDDLE) if at else (ONLY if rest else FIRST)
        one = Part(id, indicator, at, len(data) // 4, data)
        if self.chance(0.35):
            one = spoiled(pick, one)
        # A case has room for 1,024 bytes of data, and for the area's first 64 before one byte fills it.
        data = one.data[:min(len(one.data), MOST_DATA)].ljust(len(one.data), b"\0")[:MOST_PART]
        area = pick.choice(WRONG_AREAS) if self.chance(0.04) else MOST_STATE
        lent = {"area": area, "fill": pick.choice([0, 0xEE, 255]), "front": whole[:FRONT_BYTES]}
        return part(one.indicator, one.offset, data, id=one.id, count=one.count, **lent)

    def whole(self, at):
        """A state with more bytes than these, or as many: its header says how many, mostly."""
        pick = self.random
        length = max(HEADER, at) + 4 * pick.choice([0, 0, 1, 2, 5, 9, 200])
        if self.chance(0.1):
            length = pick.choice([MOST_STATE - 4, MOST_STATE, MOST_STATE, MOST_STATE + 4])
        dwords = (length - HEADER) // 4 + (pick.choice([-1, 1]) if self.chance(0.06) else 0)
        nvmecss = pick.randint(0, max(0, dwords))
        head = bytearray(header(nvmecss, max(0, dwords - nvmecss), reserved=pick.randbytes(14)))
        if self.chance(0.1):
            head[pick.choice([0, 1, 2, 15, 16, 18, 31, 32, 40, 47])] ^= 1 << pick.randrange(8)
        return bytes(head) + pick.randbytes(max(0, length - HEADER))

    def make_fields(self):
        pick = self.random
        places = pick.choice([2, 2, 3, 4, 5, 100, 132, MOST_PLACES - 1, MOST_PLACES, pick.randint(2, MOST_PLACES)])
        size = pick.choice([*WRONG_SIZES, pick.randrange(32_801)]) if self.chance(0.3) else ENTRY * places
        return {**make(size, id=self.called), **self.area_of(size, 0)}

    def post_fields(self):
        """An entry for the called controller's queue, as it should be mostly: at times of a wrong length, or with another area."""
        pick, queue, size = self.random, self.record.controllers[self.place].queue, self.size_lent()
        entry = pick.randbytes(pick.choice([*WRONG_ENTRIES, MOST_DATA])) if self.chance(0.08) else any_entry(pick)
        return {**post(entry, id=self.called, size=size), **self.area_of(size, queue.place + queue.fill() if queue else 0)}

    def take_fields(self):
        """Fewer than are queued, all or more; into a buffer that holds fewer, all or more."""
        pick, queue, size = self.random, self.record.controllers[self.place].queue, self.size_lent()
        fill = queue.fill() if queue else 0
        asked = pick.choice([0, 1, 1, 2, max(0, fill - 1), fill, fill, fill + 1, 2**16, WORD - 1, WORD - 1]) % WORD
        room = ENTRY * pick.choice([1, 2, 3, min(fill, 40), min(fill, 40), min(fill, 40) + 1, 32, 32]) + pick.choice([-1, 0, 0, 0, 1, 31])
        buffer = pick.randbytes(pick.choice([max(0, min(room, MOST_DATA))] * 8 + [0, 31, MOST_DATA]))
        return {**take(asked, buffer, id=self.called, size=size), **self.area_of(size, queue.place if queue else 0)}

    def size_lent(self):
        """The bytes of the called controller's queue, mostly; where there is none, any."""
        pick, queue = self.random, self.record.controllers[self.place].queue
        if queue is None or queue.size > MOST_PLACES or self.chance(0.06):
            return pick.choice([*WRONG_SIZES, *[64, 96, 128, ENTRY * MOST_PLACES] * 4])
        return ENTRY * queue.size

    def area_of(self, size, place):
        """What a queue's area of so many bytes holds, and the byte from which it is shown: about this place, counted round, or
        anywhere."""
        pick = self.random
        about = ENTRY * place % max(1, size) - pick.choice([0, 31, 32, 2000, 4168, 4199, 4200])
        shown = max(0, pick.choice([about, about, about, 0, 0, size, pick.randrange(size + 1)]))
        return {"fill": pick.randrange(256), "front": pick.choice([pick.randbytes(FRONT_BYTES), b"\xff" * FRONT_BYTES]), "shown": shown}
