"""Cases of tests/reports by hand, with the answers that change request W1 and document 01, "The report", ask for."""

from itertools import product

from report_case import (DESCRIPTOR_BYTES, HEADER_BYTES, MEMORY, MOST_LENT, Answer, Case, Report, ones, refused,
                         unit_of, zeros)

DONE = None


def bad(first):
    """ "17 with the first bad index"."""
    return 17, first


# ---- Bytes

# Reports byte by byte, with an index and the answer, so that the layout isn't believed of a writer of these tests.
# Answer: refusal, first bad; suspended, more, identifier, granularity, count; refusal at the index, address, length;
# the run by itself.
BYTES = [
    ("none listed", "00 00 05 00 00 00 00 00 00 00 00 00 00 00 00 00", 0,
     Answer(0, 0, 0, 0, 5, 0, 0, 33, 0, 0)),
    ("suspended, identifier 0102h, granularity 8", "00 02 02 01 00 00 00 00 08 00 00 00 00 00 00 00", 0,
     Answer(0, 0, 1, 0, 258, 8, 0, 33, 0, 0)),
    ("more of one", "00 01 ff ff 01 00 00 00 14 00 00 00 00 00 00 00"
                    "00 00 00 00 01 00 00 00 04 03 02 01 00 00 00 00", 0,
     Answer(0, 0, 0, 1, 65535, 20, 1, 0, 2**32, 0x01020304, 2**32, 0x01020304)),
    ("the second of two", "00 03 00 80 02 00 00 00 00 00 00 00 00 00 00 00"
                          "00 00 01 00 00 00 00 00 04 00 00 00 00 00 00 00"
                          "00 70 06 05 04 03 02 01 09 00 00 00 00 00 00 00", 1,
     Answer(0, 0, 1, 1, 32768, 0, 2, 0, 0x0102030405067000, 9, 0x0102030405067000, 9)),
    ("past the second of two", "00 03 00 80 02 00 00 00 00 00 00 00 00 00 00 00"
                               "00 00 01 00 00 00 00 00 04 00 00 00 00 00 00 00"
                               "00 70 06 05 04 03 02 01 09 00 00 00 00 00 00 00", 2,
     Answer(0, 0, 1, 1, 32768, 0, 2, 33, 0, 0)),
    ("all that is reserved set", "00 fe 05 00 01 00 00 00 08 00 ff ff ff ff ff ff"
                                 "00 00 f0 ff ff ff ff ff 01 00 00 00 ff ff ff ff", 0,
     Answer(0, 0, 1, 0, 5, 8, 1, 0, 2**64 - 2**20, 1, 2**64 - 2**20, 1)),
    ("all bits set", "ff " * 32, 0, refused(6, run=(2**64 - 1, 2**32 - 1))),
    ("all bits set but the version's", "00 " + "ff " * 31, 0, refused(7, run=(2**64 - 1, 2**32 - 1))),
    ("count in byte 7", "00 00 05 00 00 00 00 01 00 00 00 00 00 00 00 00", 0, refused(8)),
    ("granularity in byte 9", "00 00 05 00 00 00 00 00 00 01 00 00 00 00 00 00", 0, refused(7)),
    ("length in byte 11", "00 00 05 00 01 00 00 00 00 00 00 00 00 00 00 00"
                          "00 00 01 00 00 00 00 00 00 00 00 01 00 00 00 00", 0,
     Answer(0, 0, 0, 0, 5, 0, 1, 0, 65536, 2**24, 65536, 2**24)),
    ("length in reserved bytes alone", "00 00 05 00 01 00 00 00 00 00 00 00 00 00 00 00"
                                       "00 00 01 00 00 00 00 00 00 00 00 00 01 00 00 00", 0,
     refused(17, 0, run=(65536, 0))),
    ("address in byte 1", "00 00 05 00 01 00 00 00 00 00 00 00 00 00 00 00"
                          "00 08 01 00 00 00 00 00 01 00 00 00 00 00 00 00", 0,
     refused(17, 0, run=(67584, 1))),
    ("the first of two, the second not wholly there", "00 03 00 80 02 00 00 00 00 00 00 00 00 00 00 00"
                                                      "08 07 06 05 04 03 02 01 0c 0b 0a 09 00 00 00 00"
                                                      "00 70 06 05 04 03 02 01 09 00 00 00 00 00 00", 0,
     refused(8, run=(0x0102030405060708, 0x090a0b0c))),
    ("the second of two, not wholly there", "00 03 00 80 02 00 00 00 00 00 00 00 00 00 00 00"
                                            "08 07 06 05 04 03 02 01 0c 0b 0a 09 00 00 00 00"
                                            "00 70 06 05 04 03 02 01 09 00 00 00 00 00 00", 1, refused(8)),
]


# ---- Fields

PAGE, PAGES = (65536, 1), [(65536, 1), (0, 3), (MEMORY - 4096, 1)]
LENGTH_0, OFF_ITS_UNIT, PAST_MEMORY = (65536, 0), (65537, 1), (MEMORY - 4096, 2)


def with_bad(count, *bad_ones):
    """So many good descriptors, some of them replaced: pairs of index and descriptor."""
    descriptors = [(8192 * index, 1) for index in range(count)]
    for index, one in bad_ones:
        descriptors[index] = one
    return Report(*descriptors)


# Each row: name, report, and DONE or the refusal. Each is played at several indexes, with reserved bits clear and set.
FIELDS = [
    ("none listed", Report(), DONE),
    ("one", Report(PAGE), DONE),
    ("three", Report(*PAGES), DONE),
    ("66", with_bad(66), DONE),
    ("67, of which 66 are there", Report(*with_bad(66).descriptors, count=67), 8),
    # 6: "version byte not 0"
    ("version 1", Report(PAGE, version=1), 6),
    ("version 2", Report(PAGE, version=2), 6),
    ("version 128", Report(PAGE, version=128), 6),
    ("version 255", Report(PAGE, version=255), 6),
    ("version 1, none listed", Report(version=1), 6),
    # "bit 1 suspended, bit 0 More To Report"
    ("suspended", Report(PAGE, suspended=1), DONE),
    ("suspended, none listed", Report(suspended=1), DONE),
    ("more", Report(PAGE, more=1), DONE),
    ("more and suspended", Report(*PAGES, more=1, suspended=1), DONE),
    # 9: "More set with no descriptors"
    ("more of none", Report(more=1), 9),
    ("more of none, suspended", Report(more=1, suspended=1), 9),
    ("more of none, one there", Report(PAGE, more=1, count=0), 9),
    # the identifier may be any
    ("identifier 0", Report(PAGE, identifier=0), DONE),
    ("identifier 255", Report(PAGE, identifier=255), DONE),
    ("identifier 256", Report(PAGE, identifier=256), DONE),
    ("identifier 65535", Report(identifier=65535), DONE),
    # 7: "granularity above 20". The greater ones would pass if cut to 8 bits or less.
    *[(f"granularity {granularity}", Report((2**32, 1), granularity=granularity), DONE) for granularity in (0, 8, 20)],
    *[(f"granularity {granularity}", Report((2**32, 1), granularity=granularity), 7)
      for granularity in (21, 22, 31, 32, 51, 52, 64, 128, 255, 256, 256 + 8, 256 + 20, 2**10, 2**15, 2**15 + 8,
                          65535)],
    ("granularity 20, none listed", Report(granularity=20), DONE),
    ("granularity 21, none listed", Report(granularity=21), 7),
    ("granularity 65535, none listed", Report(granularity=65535), 7),
    # 8: "descriptors not wholly there"
    ("one, none there", Report(count=1), 8),
    ("two, one there", Report(PAGE, count=2), 8),
    ("four, three there", Report(*PAGES, count=4), 8),
    # The greater counts would pass if cut, or if 16 times them were reckoned in 32 bits.
    *[(f"count {count}, three there", Report(*PAGES, count=count), 8)
      for count in (255, 256, 257, 2**16, 2**16 + 3, 2**24 + 1, 2**28 - 1, 2**28, 2**28 + 1, 2**28 + 3,
                    2**31, 2**31 + 3, 2**32 - 2, 2**32 - 1)],
    ("count 2^32 - 1, 66 there", Report(*with_bad(66).descriptors, count=2**32 - 1), 8),
    ("count 2^28, none there", Report(count=2**28), 8),
    ("count 2^32 - 1, none there", Report(count=2**32 - 1), 8),
    # what stands after the last descriptor
    ("one, three there", Report(*PAGES, count=1), DONE),
    ("none, three there", Report(*PAGES, count=0), DONE),
    ("one, 66 there", Report(*with_bad(66).descriptors, count=1), DONE),
    ("one, a bad one after it", Report(PAGE, LENGTH_0, count=1), DONE),
    ("none, a bad one after it", Report(OFF_ITS_UNIT, count=0), DONE),
    ("65, the bad 66th after them", Report(*with_bad(66, (65, PAST_MEMORY)).descriptors, count=65), DONE),
    # 17: "the first bad index", whatever of the three it is bad for
    ("length 0", Report(LENGTH_0), bad(0)),
    ("off its unit", Report(OFF_ITS_UNIT), bad(0)),
    ("past 2^64", Report(PAST_MEMORY), bad(0)),
    ("length 0 and off its unit", Report((65537, 0)), bad(0)),
    ("length 0 where it would end past 2^64", Report((MEMORY - 1, 0)), bad(0)),
    ("off its unit and past 2^64", Report((MEMORY - 1, 2)), bad(0)),
    ("length 0, then off its unit, then past 2^64", Report(LENGTH_0, OFF_ITS_UNIT, PAST_MEMORY), bad(0)),
    ("past 2^64, then off its unit, then length 0", Report(PAST_MEMORY, OFF_ITS_UNIT, LENGTH_0), bad(0)),
    ("good, then off its unit, then length 0", Report(PAGE, OFF_ITS_UNIT, LENGTH_0), bad(1)),
    ("good, then past 2^64, then length 0", Report(PAGE, PAST_MEMORY, LENGTH_0), bad(1)),
    ("good, then past 2^64, then off its unit", Report(PAGE, PAST_MEMORY, OFF_ITS_UNIT), bad(1)),
    *[(f"66, {named} at {index}", with_bad(66, (index, one)), bad(index))
      for named, one in (("length 0", LENGTH_0), ("off its unit", OFF_ITS_UNIT), ("past 2^64", PAST_MEMORY))
      for index in (0, 1, 33, 64, 65)],
    ("66, bad at 10 and 50", with_bad(66, (10, PAST_MEMORY), (50, LENGTH_0)), bad(10)),
    ("66, bad at 64 and 65", with_bad(66, (64, OFF_ITS_UNIT), (65, OFF_ITS_UNIT)), bad(64)),
    ("66, all bad", Report(*[LENGTH_0] * 66), bad(0)),
    # nothing else is asked of descriptors: they may share units, touch, and stand in any order
    ("the same twice", Report(PAGE, PAGE), DONE),
    ("they share units", Report((65536, 4), (69632, 4)), DONE),
    ("they touch, later one below", Report((69632, 1), (65536, 1)), DONE),
    ("address 0", Report((0, 1)), DONE),
    ("more than 4,096 units", Report((0, 4097)), DONE),
    ("as many units as the pool has, and one more", Report((0, 16384), (0, 16385)), DONE),
    ("all of memory at granularity 20, save a unit", Report((0, 2**32 - 1), granularity=20), DONE),
]

INDEXES = (0, 1, 2, 3, 4, 5, 64, 65, 66, 67, 255, 256, 258, 2**16, 2**16 + 2, 2**28 - 1, 2**28, 2**28 + 1, 2**31,
           # 16 times these, or that and the header's 16 bytes, is 0 or little in 32 or 64 bits
           2**32 - 1, 2**32, 2**32 + 1, 2**32 + 2, 2**60 - 1, 2**60, 2**60 + 1, 2**63, 2**64 - 2, 2**64 - 1)


# ---- Cases

def cases():
    yield from from_bytes()
    yield from fields()
    yield from indexes()
    yield from lengths()
    yield from units()
    yield from orders()


def from_bytes():
    for name, text, index, answer in BYTES:
        yield Case(f"byte by byte, {name}", bytes.fromhex(text), index, answer)


def fields():
    for name, report, refusal in FIELDS:
        for reserved, index in product((zeros, ones), sorted({0, max(0, report.count - 1), report.count})):
            yield one_case(f"{name}, reserved bits {reserved.__name__}", report, refusal, index, reserved)


def one_case(name, report, refusal, index, reserved=zeros):
    lent = report.packed(reserved)
    number, first_bad = refusal if isinstance(refusal, tuple) else (refusal, 0)
    answer = report.accepted(index) if refusal is DONE else report.refused(number, first_bad, index, len(lent))
    return Case(name, lent, index, answer)


def indexes():
    """33 exactly from the count on, also where bytes after the last descriptor would be one. Of refused reports, a run
    by itself exactly where it is counted and there."""
    for name, report, refusal in (
            ("none listed", Report(), DONE), ("three", Report(*PAGES), DONE), ("66", with_bad(66), DONE),
            ("three, 66 there", Report(*with_bad(66).descriptors, count=3), DONE),
            ("three, the second bad, 66 there", Report(*with_bad(66, (1, PAST_MEMORY)).descriptors, count=3), bad(1)),
            ("2^32 - 1, 66 there", Report(*with_bad(66).descriptors, count=2**32 - 1), 8)):
        for index in INDEXES:
            yield one_case(f"{name}, at an index", report, refusal, index)


def lengths():
    """The first bytes of a long report: refused with 8 exactly where the header or a listed descriptor isn't whole."""
    small, great = range(65), (1055, 1056, 1057, 1071, MOST_LENT)
    for counts, sizes in ((range(5), (*small, MOST_LENT)), ((64, 65, 66, 67), great)):
        for count, size in product(counts, sizes):
            report = Report(*with_bad(66).descriptors, count=count, suspended=1)
            index = max(0, count - 1)
            whole = size >= HEADER_BYTES + DESCRIPTOR_BYTES * count
            answer = report.accepted(index) if whole else report.refused(8, 0, index, size)
            yield Case(f"{count} listed, {size} bytes lent", report.packed(ones)[:size], index, answer)


def units():
    """A length of 0, an address off its unit and the end of memory, at each granularity."""
    most = 2**32 - 1  # units, the greatest length
    for granularity in range(21):
        unit = unit_of(granularity)
        good = [(0, 1), (unit, 1), (2**63, 1), (MEMORY - unit, 1), (MEMORY - 5 * unit, 5), (0, most),
                (MEMORY - most * unit, most)]
        off = [unit + 1, 2 * unit - 1, unit + unit // 2, 1, unit // 2, MEMORY - unit // 2, MEMORY - 1]
        ends_past = [(MEMORY - unit, 2), (MEMORY - unit, most), (MEMORY - 5 * unit, 6),
                     (MEMORY - (most - 1) * unit, most)]
        empty = [(0, 0), (unit, 0), (MEMORY - unit, 0)]
        for pair in good:
            report = Report((0, 1), pair, granularity=granularity)
            yield one_case(f"granularity {granularity}, good", report, DONE, 1)
        for pair in [*empty, *[(address, 1) for address in off], *ends_past]:
            report = Report((0, 1), pair, granularity=granularity)
            yield one_case(f"granularity {granularity}, second one bad", report, bad(1), 1)


# ---- The order

# W1: "Refusals, in this order: 8 fewer than 16 bytes, 6, 7 granularity above 20, 9 More set with no descriptors,
# 8 descriptors not wholly there, 17 ..., 33 an index past the last descriptor."
ORDER = ["8, header", "6", "7", "9", "8, descriptors", "17", "33"]

# What is listed: the rules broken by that, descriptors that are there, and how many are counted. 9 goes with no other
# of these, as nothing is counted then. The bad ones stand at index 1, and are bad at granularities 20 and 21.
COARSE, BAD_ONES = (2**33, 1), {"length 0": (2**33, 0), "off its unit": (2**31, 1), "past 2^64": (MEMORY - 2**33, 4)}
LISTED = [
    ("good ones", set(), [COARSE] * 3, 3),
    ("more of none", {"9"}, [COARSE] * 3, 0),
    ("one not there", {"8, descriptors"}, [COARSE] * 3, 4),
    *[(f"{name}", {"17"}, [COARSE, one, COARSE], 3) for name, one in BAD_ONES.items()],
    *[(f"{name}, and one not there", {"17", "8, descriptors"}, [COARSE, one, COARSE], 4)
      for name, one in BAD_ONES.items()],
]


def orders():
    """Every set of rules that can be broken at once; the first one in the order answers."""
    for (name, listed, descriptors, count), *others in product(LISTED, *[(False, True)] * 4):
        cut, version, granularity, index_past = others
        broken = set(listed)
        broken |= {rule for rule, wanted in zip(("8, header", "6", "7", "33"), others) if wanted}
        index = 2**64 - 1 if index_past else 0
        if not index_past and count == 0:
            continue  # every index is past the last of none
        report = Report(*descriptors, version=int(version), more=1, granularity=20 + granularity, count=count)
        lent = report.packed(ones)[:15 if cut else None]
        said = "; ".join(rule for rule in ORDER if rule in broken) or "no rule"
        yield Case(f"{name}; breaks {said}", lent, index, first_broken(report, broken, index, len(lent)))


def first_broken(report, broken, index, size):
    first = next((rule for rule in ORDER if rule in broken), "33")
    if first == "33":
        return report.accepted(index)  # the report itself is accepted
    return report.refused(int(first.split(",")[0]), 1 if first == "17" else 0, index, size)
