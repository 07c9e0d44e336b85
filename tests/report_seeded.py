"""Cases of tests/reports at random, from a seed."""

import random

from report_case import (DESCRIPTOR_BYTES, HEADER_BYTES, MEMORY, MOST_DESCRIPTORS, MOST_LENT, Case, Report, unit_of,
                         zeros)


def cases(seed, count):
    """Each has a seed of its own, so that its name alone brings it back."""
    for number in range(count):
        yield Maker(f"{seed}/{number}").case(f"random, seed {seed}, number {number}")


class Maker:
    """Random cases from a seed: a report that breaks no rule, often damaged in one place or cut short, and an index."""

    def __init__(self, seed):
        self.random = random.Random(seed)

    def chance(self, share):
        return self.random.random() < share

    def case(self, name):
        report = self.good_report()
        index = self.index(report.count)
        known = report.accepted(index)
        if self.chance(0.5):
            self.damage(report)
            name, known = name + ", damaged", None
        lent = report.packed(self.random.getrandbits if self.chance(0.5) else zeros)
        if self.chance(0.25):
            lent = self.cut(lent)
            name, known = name + ", cut short", known and report.refused(8, 0, index, len(lent))
        elif self.chance(0.3):
            lent = (lent + self.random.randbytes(self.random.choice([1, 15, 16, 17, 64, MOST_LENT])))[:MOST_LENT]
        return Case(name, lent, index, known)

    # Reports that break no rule

    def good_report(self):
        pick = self.random
        granularity = pick.choice([0, 0, 8, 20, 20, pick.randrange(21)])
        number = pick.choice([0, 1, 1, 2, 2, 3, 4, 8, 64, 65, 66, pick.randrange(MOST_DESCRIPTORS + 1)])
        descriptors = [self.good_descriptor(granularity) for _ in range(number)]
        return Report(*descriptors, suspended=pick.randrange(2), more=pick.randrange(2) if number else 0,
                      identifier=pick.choice([0, 5, 256, 65535, pick.getrandbits(16)]), granularity=granularity)

    def good_descriptor(self, granularity):
        pick, unit = self.random, unit_of(granularity)
        length = pick.choice([1, 1, 2, 3, 4096, 2**32 - 1, 1 + pick.getrandbits(8), max(1, pick.getrandbits(32))])
        last = MEMORY // unit - length  # the last unit at which it can begin
        return unit * pick.choice([0, 1, last, last, pick.randrange(last + 1), pick.randrange(last + 1)]), length

    def index(self, count):
        """Mostly that of a descriptor, or one just past; at times one that would be if it were cut."""
        pick = self.random
        inside = pick.randrange(max(1, count))
        return pick.choice([*[inside] * 5, 0, max(0, count - 1), count, count + 1, 2**32 + inside,
                            2**60 + inside, 2**64 - 1, pick.getrandbits(64)])

    # Damages: most break a rule, some don't.

    def damage(self, report):
        damages = [self.damage_header, self.damage_header, self.damage_count]
        if report.descriptors:
            damages += [self.damage_descriptor] * 4
        self.random.choice(damages)(report)

    def damage_header(self, report):
        pick, granularity = self.random, report.granularity
        name, value = pick.choice([
            ("version", pick.choice([1, 128, 255, pick.randrange(256)])),
            ("granularity", pick.choice([21, 255, 256, 256 + granularity, 65535, pick.getrandbits(16)])),
            ("granularity", pick.choice([max(0, granularity - 1), granularity + 1, 20, pick.randrange(21)])),
            ("more", 1),
        ])
        setattr(report, name, value)

    def damage_count(self, report):
        pick, count = self.random, report.count
        report.count = pick.choice([0, max(0, count - 1), count + 1, count + 256, 2**16 + count, 2**28 + count,
                                    2**32 - 1, pick.randrange(MOST_DESCRIPTORS + 2), pick.getrandbits(32)])

    def damage_descriptor(self, report):
        pick, unit = self.random, unit_of(report.granularity)
        row = pick.choice([0, len(report.descriptors) - 1, pick.randrange(len(report.descriptors))])
        address, length = report.descriptors[row]
        address, length = pick.choice([
            *[(address, new) for new in (0, 0, length + 1, 2**32 - 1, pick.getrandbits(32))],
            *[(new, length) for new in (address + 1, address + unit // 2, address - 1)],
            (address ^ 2**pick.randrange(64), length),
            (MEMORY - length * unit, length),
            (MEMORY - (length - 1) * unit, length),
            (MEMORY - unit, 2),
            (pick.getrandbits(64), length),
        ])
        report.descriptors[row] = address % MEMORY, length % 2**32

    def cut(self, lent):
        """In the header, at a descriptor's edge, or anywhere before the last byte."""
        pick = self.random
        edge = HEADER_BYTES + DESCRIPTOR_BYTES * pick.randrange(MOST_DESCRIPTORS)
        return lent[:min(len(lent) - 1, pick.choice([pick.randrange(17), edge, edge - 1, pick.randrange(len(lent))]))]
