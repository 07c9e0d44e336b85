"""Cases of tests/records by hand, with the answers that documents 01 and 02 ask for."""

import itertools

from parts import FIRST, LAST, MIDDLE, ONLY, WORD, header, state
from queues import CLOSING, Kept
from record_case import ALL_ONES, MEMORY, MOST_ROWS, NOT_SAID, QUEUE_FILL, QUEUE_FRONT, Case, Controller, Record
from record_case import batch, make, numbers, part, post, rotated, structure, take

MIXED = 0x8E5A0F3C7001C0D1  # a mark word with set and clear bits in every byte; rotated by 1 to 63 it is another
WRONG_WORDS = (0, 1, 64, 255, 257, 512)  # "1 expects 256 words" (document 02, W7)
BASES = (0, 4096, 8192, 12288)  # where the shares of the first four controllers begin unless said: in words 0, 64, 128, 192
WRONG_UNITS = (0, 1, 64, 256, 16_320, 16_383, 16_385, 32_768)  # "its own lent area of 16,384 bytes" (document 02, W9)
WRONG_AREAS = (0, 1, 48, 4095, 4097, 4200)  # "in one lent area of that size (else 1)", of 4,096 bytes


# ---- Records

def base():
    """Controller 5 tracks 4 units from page 16 on and 2 from page 0 on; 6 is not tracked; 7 is suspended and tracks 3
    units of granularity 8. So 3 of the limit's 16 are taken, and 9 of the pool's 16,384 units: bits 0 to 5, and 8192 to
    8194. 5's queue has four places, of which the last and the first are filled, and its totals lie on both sides of 2^32; 6
    has none; 7's has two places, is full and stopped. There is one manager, 1, and the shelf's limit is 128."""
    record = Record()
    record.manager, record.least, record.greatest, record.rule, record.limit, record.shelf = 1, 0, 8, 0, 16, 128
    record.count, record.identifiers = 3, [5, 6, 7, 0, 0, 0, 0, 0]
    record.controllers[0] = Controller((0, 2), [(65536, 4), (0, 2)], queue=Kept(4, 1, WORD - 1, 3))
    record.controllers[2] = Controller((8, 1), [(1048576, 3)], suspended=1, base=BASES[2], queue=Kept(2, 2, 0, 1, 1))
    return record


def base_with_rubbish():
    """The same, with every unused place full of what no rule allows. 9 stands in an unused place."""
    record = base()
    record.identifiers[3:] = [5, 1, 9, 7, 65535]
    for place, one in enumerate(record.controllers):
        used = one.tracking[1] if one.tracking else 0
        one.ranges[used:] = [(65537 + row, 2**32 - 1 if row % 2 else 0) for row in range(used, 16)]
        if place >= 3:
            one.tracking, one.suspended = (255, 255), place % 2
        one.base = {1: 60000, 3: 3, 4: 65535, 5: 16384, 7: 8193}.get(place, one.base)
        one.manager = {1: 9, 3: 2, 4: 65535, 5: 3, 6: 5, 7: 0}.get(place, one.manager)
    unsound = [Kept(0), Kept(2, 2, 0), Kept(2, 0, 1, 1, 1), Kept(2, 0, 0, 2), Kept(65535, 7, 8, 65535)]
    for one, queue in zip(record.controllers[3:], unsound):
        one.queue = queue
    return record


def sixteen(first=0, length=1, unit=4096):
    """Sixteen ranges of this length in units, each beginning where the one before it ends."""
    return [(first + row * length * unit, length) for row in range(16)]


def listed(count, bad):
    """So many ranges of a page, every other one, some of them replaced: ranges by their row."""
    return [bad.get(row, (8192 * row, 1)) for row in range(count)]


def halves(length):
    """Sixteen ranges of this length, each beginning in the middle of the one before it: 8.5 lengths in all."""
    return [(row * length // 2 * 4096, length) for row in range(16)]


# Identifiers that keep the rules in all places, so that of a count too great it is the count alone that is refused.
EIGHT = (5, 6, 7, 0, 65535, 2, 3, 4)

# For each rule of a row (document 02, W3) a range that at granularity 0 breaks this one alone.
LENGTH_0, UNALIGNED, PAST_THE_END = (65536, 0), (65537, 1), (MEMORY - 4096, 2)
BAD = {19: LENGTH_0, 20: UNALIGNED, 21: PAST_THE_END}


# ---- Changes to a record

def change(function):
    """Makes a function of a record and other words one of these words alone, which answers a change to any record."""
    return lambda *words, **named: lambda record: function(record, *words, **named)


@change
def closed(record):
    record.__init__()


@change
def settings(record, **values):
    for name, value in values.items():
        setattr(record, name, value)


@change
def identifiers(record, *used, count=None):
    """These identifiers; the controllers that come into use by that are off and running and have no queue."""
    record.identifiers[:len(used)] = used
    record.count = len(used) if count is None else count
    for one in record.controllers[3:len(used)]:
        one.tracking, one.suspended, one.queue = None, 0, None


@change
def tracked(record, granularity, *ranges, place=0, base=None, **values):
    """The controller in this place (5 unless said) tracks these ranges, from its own base on unless said; settings as
    named."""
    record.controllers[place].track(granularity, *ranges)
    record.controllers[place].base = BASES[place] if base is None else base
    settings(**values)(record)


@change
def based(record, *bases):
    """Where the shares of the controllers begin, in their order; None leaves one as it is."""
    for one, base in zip(record.controllers, bases):
        one.base = one.base if base is None else base


@change
def counted(record, count, place=0):
    """On, with a count that need not fit the ranges there."""
    record.controllers[place].tracking, record.controllers[place].manager = (0, count), None
    record.controllers[place].ranges = sixteen()
    record.controllers[place].base = (BASES * 2)[place]
    record.limit = 128


@change
def off(record, place):
    record.controllers[place].tracking = None


@change
def in_place(record, place, row, start, length):
    """One range put anywhere, used or not."""
    record.controllers[place].ranges[row] = (start, length)


@change
def suspended(record, *flags):
    for one, flag in zip(record.controllers, flags):
        one.suspended = flag


@change
def opened(record, owner, end):
    """A sequence is open (document 02, W6)."""
    record.sequence = (owner, end)


@change
def queue(record, *kept, place=0):
    """The controller in this place (5 unless said) has a queue with this size, totals, place and stop; with none said, none."""
    record.controllers[place].queue = Kept(*kept) if kept else None


@change
def full(record, limit):
    """8 controllers of 16 ranges, 2,048 units each, side by side: 128 ranges in all, and the whole pool. Controller 7 stays
    suspended."""
    identifiers(*EIGHT)(record)
    settings(greatest=20, rule=1, limit=limit)(record)
    for place, one in enumerate(record.controllers):
        one.track(20, *sixteen(0, 128, 2**32))
        one.base = 2048 * place


@change
def equal(record, count, one):
    """So many equal ranges in the last controller."""
    record.controllers[7].track(20, *[one] * count)


@change
def alone(record, *ranges, granularity=0, base=0):
    """5 alone tracks, these ranges from this bit on; 7 is off and stays suspended. Limit and granularities are as wide as
    may be."""
    off(2)(record)
    tracked(granularity, *ranges, base=base, greatest=20, limit=128)(record)


@change
def row_of_eight(record):
    """8 controllers with 4 pages each, a hundred bits from one share to the next. Controller 7 stays suspended."""
    identifiers(*EIGHT)(record)
    for place in range(8):
        tracked(0, (65536, 4), place=place, base=100 * place)(record)


@change
def shares(record, *pairs):
    """Controllers 5, 6, 7 and so on, each with so many pages from page 0 on and with this base; one of 0 pages is off. 7 stays
    suspended."""
    identifiers(*range(5, 5 + len(pairs)))(record)
    settings(limit=128)(record)
    for place, (pages, base) in enumerate(pairs):
        record.controllers[place].tracking = None
        if pages:
            record.controllers[place].track(0, (0, pages))
        record.controllers[place].base = base


@change
def both(record, *changes):
    for one in changes:
        one(record)


# ---- Tables

# The calls that each record of the table below is handed to; all are done on the base.
BASE_CALLS = {
    "fresh": {},
    "start": dict(id=6, data=structure(0, [(65536, 1)])),
    "stop": dict(id=5),
    "write": dict(id=5, address=69632, bytes=1),
    "receive": dict(id=5, data=b"\xaa" * 64),
    "suspend": dict(id=5, type=1),
    "resume": dict(id=7),
    "batch": batch((5, 69632, 1), (5, 65536, 1)),
    "part": part(FIRST, 0, b"\1\2\3\4"),
    "make": make(96),
    "post": post(b"\xbb" * 32),
    "take": take(10, 100),
}

SOUND, UNSOUND, BROKEN = (0, 0), (0, 1), (16, 1)

# Name, change to the base, what fresh and the other calls answer, and those of them that answer otherwise. By hand,
# from document 01: "A record is sound exactly if its settings would pass 16, each tracked controller's granularity and
# ranges would pass 7, 9, 10 and 11, and the counts together are within the limit." And from document 02, W2: "Overlap is
# now allowed", and 11 "counts different units"; W3: 9 is 18 to 21. Of an unsound record no row is told. W6: "An open one is
# unsound if its owner isn't suspended or its end isn't whole dwords, 4 to 4,096 bytes." W7: "1 covers shares that overlap
# or leave these words and, in place of 11, tracked units above 16,384 in all." W8: "A fill above the queue's size, a place
# outside it, or a full queue not stopped, is unsound."
RECORDS = [
    ("base", both(), SOUND),
    ("closed device", closed(), BROKEN),
    # "1 to 8 controller identifiers"; the greater ones would pass if cut to 8, 16 or 32 bits.
    ("no identifier", settings(count=0), BROKEN),
    ("one identifier", settings(count=1), SOUND, {"start": 2, "resume": 2, "part": 2}),
    ("two identifiers", settings(count=2), SOUND, {"resume": 2, "part": 2}),
    ("8 identifiers", identifiers(*EIGHT), SOUND),
    ("count 9", identifiers(*EIGHT, count=9), BROKEN),
    ("count 16", identifiers(*EIGHT, count=16), BROKEN),
    ("count 255", identifiers(*EIGHT, count=255), BROKEN),
    ("count 256 + 3", identifiers(*EIGHT, count=259), BROKEN),
    ("count 2^16 + 3", identifiers(*EIGHT, count=2**16 + 3), BROKEN),
    ("count 2^32 + 3", identifiers(*EIGHT, count=2**32 + 3), BROKEN),
    ("count 2^63 + 3", identifiers(*EIGHT, count=2**63 + 3), BROKEN),
    ("count 2^64 - 1", identifiers(*EIGHT, count=2**64 - 1), BROKEN),
    # "all different"
    ("first and second the same", identifiers(5, 5, 7), BROKEN),
    ("first and last the same", identifiers(5, 6, 5), BROKEN),
    ("second and last the same", identifiers(5, 6, 6), BROKEN),
    ("seventh and eighth the same", identifiers(5, 6, 7, 8, 9, 10, 11, 11), BROKEN),
    ("first and eighth the same", identifiers(5, 6, 7, 8, 9, 10, 11, 5), BROKEN),
    ("the same save the high byte", identifiers(5, 6, 7, 5 + 256), SOUND),
    ("0 twice", identifiers(5, 6, 7, 0, 0), BROKEN),
    ("the same, unused", both(identifiers(5, 6, 7, 5), settings(count=3)), SOUND),
    # "the manager's own identifier, not among them"
    ("manager first", settings(manager=5), BROKEN),
    ("manager second", settings(manager=6), BROKEN),
    ("manager last", settings(manager=7), BROKEN),
    ("manager eighth", identifiers(5, 6, 7, 8, 9, 10, 11, 1), BROKEN),
    ("manager eighth, unused", both(identifiers(5, 6, 7, 8, 9, 10, 11, 1), settings(count=7)), SOUND),
    ("manager 0", settings(manager=0), SOUND),
    ("manager 65535", settings(manager=65535), SOUND),
    ("manager among them save the high byte", settings(manager=5 + 256), SOUND),
    # "least ≤ greatest ≤ 20", and 7 for the tracked: 5 has granularity 0, 7 has 8
    ("greatest 20", settings(greatest=20), SOUND),
    ("greatest 21", settings(greatest=21), BROKEN),
    ("greatest 255", settings(greatest=255), BROKEN),
    ("least and greatest 20", settings(least=20, greatest=20), UNSOUND),
    ("least and greatest 21", settings(least=21, greatest=21), BROKEN),
    ("least above greatest", settings(least=9), BROKEN),
    ("least 255", settings(least=255), BROKEN),
    ("least and greatest 8, 5 below", settings(least=8), UNSOUND),
    ("least 1, 5 below", settings(least=1), UNSOUND),
    ("greatest 7, 7 above", settings(greatest=7), UNSOUND),
    ("least and greatest 8", tracked(8, (0, 4), least=8), SOUND, {"start": 7}),
    # the limit: "0 to 128", and the counts together
    ("limit 0", settings(limit=0), UNSOUND),
    ("limit 2", settings(limit=2), UNSOUND),
    ("limit 3", settings(limit=3), SOUND, {"start": 12}),
    ("limit 4", settings(limit=4), SOUND),
    ("limit 128", settings(limit=128), SOUND),
    ("limit 129", settings(limit=129), BROKEN),
    ("limit 256 + 16", settings(limit=272), BROKEN),
    ("limit 65535", settings(limit=65535), BROKEN),
    ("limit 17, 17 taken", tracked(0, *sixteen(65536), limit=17), SOUND, {"start": 12}),
    ("limit 18, 17 taken", tracked(0, *sixteen(65536), limit=18), SOUND),
    ("limit 16, 17 taken", tracked(0, *sixteen(65536), limit=16), UNSOUND),
    ("limit 128, 128 taken", full(128), SOUND, {"start": 3}),
    ("limit 127, 128 taken", full(127), UNSOUND),
    ("limit 112, 112 taken, 16 unused", both(full(112), settings(count=7)), SOUND, {"start": 3}),
    ("limit 111, 112 taken, 16 unused", both(full(111), settings(count=7)), UNSOUND),
    ("full, last length 0", both(full(128), in_place(7, 15, 15 * 2**39, 0)), UNSOUND),
    ("full, last length 256", both(full(128), in_place(7, 15, 15 * 2**39, 256)), UNSOUND),
    ("full, last one the first again", both(full(128), in_place(7, 15, 0, 128)), SOUND, {"start": 3}),
    ("full, last one the first again, and longer", both(full(128), in_place(7, 15, 0, 256)), SOUND, {"start": 3}),
    ("full, last one a unit further", both(full(128), in_place(7, 15, 15 * 2**39 + 2**32, 128)), SOUND, {"start": 3}),
    ("all equal, limit 127, 128 taken", both(full(127), equal(16, (0, 128))), UNSOUND),
    ("all equal, limit 128, 128 taken", both(full(128), equal(16, (0, 128))), SOUND, {"start": 3}),
    ("full, last one off", both(full(112), off(7)), SOUND, {"start": 3}),
    # 18, "the count is 1 to 16"
    ("5 on, count 0", counted(0), UNSOUND),
    ("5 on, count 1", counted(1), SOUND),
    ("5 on, count 16", counted(16), SOUND),
    ("5 on, count 17", counted(17), UNSOUND),
    ("5 on, count 32", counted(32), UNSOUND),
    ("5 on, count 255", counted(255), UNSOUND),
    ("6 on, count 0", counted(0, place=1), UNSOUND),
    ("6 on, count 1", counted(1, place=1), SOUND, {"start": 3}),
    ("6 on, count 16", counted(16, place=1), SOUND, {"start": 3}),
    ("6 on, count 17", counted(17, place=1), UNSOUND),
    ("7 on, count 0", counted(0, place=2), UNSOUND),
    ("7 on, count 255", counted(255, place=2), UNSOUND),
    ("unused place on, count 255", counted(255, place=3), SOUND),
    ("unused place on, count 0", counted(0, place=7), SOUND),
    # 7
    ("granularity 9", tracked(9, (0, 1)), UNSOUND),
    ("granularity 255", tracked(255, (0, 1)), UNSOUND),
    ("granularity 64, as 0 if shifted round", tracked(64, (65536, 4)), UNSOUND),
    ("granularity 20", tracked(20, (2**32, 4096), greatest=20), SOUND),
    ("granularity 21", tracked(21, (2**33, 4), greatest=20), UNSOUND),
    # 19, "each length is at least 1"
    ("first length 0", tracked(0, (65536, 0), (0, 2)), UNSOUND),
    ("second length 0", tracked(0, (65536, 4), (0, 0)), UNSOUND),
    ("length 0 within another range", tracked(0, (65536, 4), (69632, 0)), UNSOUND),
    ("sixteenth length 0", both(tracked(0, *sixteen(), limit=128), in_place(0, 15, 2**20, 0)), UNSOUND),
    ("length 0 past the count", in_place(0, 2, 2**20, 0), SOUND),
    ("length 0 where off", in_place(1, 0, 65536, 0), SOUND),
    # 20, "each start is a multiple of the unit"
    ("start 1", tracked(0, (1, 1)), UNSOUND),
    ("start 4095", tracked(0, (4095, 1)), UNSOUND),
    ("start 65536 + 2048", tracked(0, (65536 + 2048, 1)), UNSOUND),
    ("start 2^63 + 1", tracked(0, (2**63 + 1, 1)), UNSOUND),
    ("start 2^64 - 1", tracked(0, (2**64 - 1, 1)), UNSOUND),
    ("granularity 8, start 1052672", tracked(8, (1052672, 1)), UNSOUND),
    ("granularity 8, start 1048576", tracked(8, (1048576, 1)), SOUND),
    ("granularity 20, start 2^31", tracked(20, (2**31, 1), greatest=20), UNSOUND),
    ("second start 4097", tracked(0, (65536, 4), (4097, 1)), UNSOUND),
    ("start 4097 past the count", in_place(0, 2, 4097, 1), SOUND),
    # 21, "start plus length in bytes is at most 2^64"
    ("ends at 2^64", tracked(0, (MEMORY - 4096, 1)), SOUND),
    ("ends a unit past 2^64", tracked(0, (MEMORY - 4096, 2)), UNSOUND),
    ("ends far past 2^64", tracked(0, (MEMORY - 4096, 2**32 - 1)), UNSOUND),
    ("4,096 units to 2^64", tracked(0, (MEMORY - 2**24, 4096)), SOUND),
    ("4,096 units past 2^64", tracked(0, (MEMORY - 2**24 + 4096, 4096)), UNSOUND),
    ("granularity 8, ends at 2^64", tracked(8, (MEMORY - 2**20, 1)), SOUND),
    ("granularity 8, ends past 2^64", tracked(8, (MEMORY - 2**20, 2)), UNSOUND),
    ("granularity 20, ends at 2^64", tracked(20, (MEMORY - 2**44, 4096), greatest=20), SOUND),
    ("granularity 20, ends past 2^64", tracked(20, (MEMORY - 2**32, 2), greatest=20), UNSOUND),
    ("granularity 20, length 2^32 - 1", tracked(20, (2**32, 2**32 - 1), greatest=20), UNSOUND),
    ("second ends at 2^64", tracked(0, (0, 1), (MEMORY - 4096, 1)), SOUND),
    ("second ends past 2^64", tracked(0, (65536, 1), (MEMORY - 4096, 2)), UNSOUND),
    # 19 to 21 in rows of 16
    *[(f"{number} in row {row} of 16", both(tracked(0, *sixteen(), limit=128), in_place(0, row, *one)), UNSOUND)
      for number, one in BAD.items() for row in (0, 1, 7, 15)],
    ("19 in row 1 and 21 in row 0", tracked(0, PAST_THE_END, LENGTH_0), UNSOUND),
    ("19 to 21 past the count", both(*[in_place(0, row, *one) for row, one in zip((2, 7, 15), BAD.values())]), SOUND),
    # overlap breaks no rule (W2)
    ("they touch", tracked(0, (65536, 4), (81920, 2)), SOUND),
    ("they touch, later one below", tracked(0, (81920, 2), (65536, 4)), SOUND),
    ("they share a unit", tracked(0, (65536, 4), (77824, 2)), SOUND),
    ("they share a unit, later one below", tracked(0, (77824, 2), (65536, 4)), SOUND),
    ("the same range twice", tracked(0, (65536, 4), (65536, 4)), SOUND),
    ("one within the other", tracked(0, (65536, 4), (69632, 1)), SOUND),
    ("one around the other", tracked(0, (69632, 1), (65536, 4)), SOUND),
    ("the same start", tracked(0, (65536, 1), (65536, 4)), SOUND),
    ("the same end", tracked(0, (77824, 1), (65536, 4)), SOUND),
    ("first and third share", tracked(0, (65536, 4), (0, 1), (77824, 1)), SOUND),
    ("three over one unit", tracked(0, (69632, 1), (65536, 4), (61440, 8)), SOUND),
    ("sixteen touch", tracked(0, *sixteen(65536), limit=128), SOUND),
    ("sixteen are the same", tracked(0, *[(65536, 2)] * 16, limit=128), SOUND),
    ("first and sixteenth share", tracked(0, *sixteen(65536)[:15], (65536, 1), limit=128), SOUND),
    ("last two share", tracked(0, *sixteen(65536)[:15], (65536 + 14 * 4096, 1), limit=128), SOUND),
    ("they share the last unit", tracked(0, (MEMORY - 8192, 2), (MEMORY - 4096, 1)), SOUND),
    ("they share the last unit of granularity 20", tracked(20, (MEMORY - 2**32, 1), (MEMORY - 2**33, 2), greatest=20), SOUND),
    ("within another and off its unit", tracked(0, (65536, 4), (69633, 1)), UNSOUND),
    ("the same start and past 2^64", tracked(0, (MEMORY - 4096, 1), (MEMORY - 4096, 2)), UNSOUND),
    ("they touch at the end", tracked(0, (MEMORY - 8192, 1), (MEMORY - 4096, 1)), SOUND),
    ("shared past the count", in_place(0, 2, 65536, 4), SOUND),
    ("two controllers share", tracked(8, (1048576, 3)), SOUND),
    # 10; 7 has 3 units, so the rule alone breaks it
    ("rule on, 7 has 3 units", settings(rule=1), UNSOUND),
    ("rule on, 7 has 4 units", both(settings(rule=1), in_place(2, 0, 1048576, 4)), SOUND),
    ("rule on, 5 has 3 units", both(tracked(0, (65536, 3), rule=1), in_place(2, 0, 1048576, 4)), UNSOUND),
    ("rule on, 4,096 units", both(tracked(0, (65536, 4096), rule=1), in_place(2, 0, 1048576, 1)), SOUND),
    ("rule on, 4,095 units", both(tracked(0, (65536, 4095), rule=1), in_place(2, 0, 1048576, 1)), UNSOUND),
    ("rule on, 2^31 units", both(tracked(0, (0, 2**31), rule=1), in_place(2, 0, 1048576, 1)), UNSOUND),
    ("rule on, 3 units within 4", both(tracked(0, (0, 4), (0, 3), rule=1), in_place(2, 0, 1048576, 1)), UNSOUND),
    ("rule on, 1 unit within 4", both(tracked(0, (0, 1), (0, 4), rule=1), in_place(2, 0, 1048576, 1)), SOUND),
    ("rule on, 3 past the count", both(settings(rule=1), in_place(2, 0, 0, 1), in_place(2, 1, 2**20, 3)), SOUND),
    # the old limit of a controller's units is gone (W7)
    *[(f"{length:,} units", tracked(0, (0, length)), SOUND) for length in (4095, 4096, 4097, 8191, 8192)],
    # "tracked units above 16,384 in all"; 5 alone has them, and a start asks for one more
    ("16,383 units", alone((0, 16383)), SOUND),
    ("16,384 units", alone((0, 16384)), SOUND, {"start": 11}),
    ("16,385 units", alone((0, 16385)), UNSOUND),
    ("16,383 and 1 units", alone((0, 16383), (2**26, 1)), SOUND, {"start": 11}),
    ("16,383 and 2 units", alone((0, 16383), (2**26, 2)), UNSOUND),
    ("16 times 1,024 units", alone(*sixteen(0, 1024)), SOUND, {"start": 11}),
    ("16 times 1,024 units and 1", alone(*sixteen(0, 1024)[:15], (2**30, 1025)), UNSOUND),
    ("32,769 units, a sum of 1 in 15 bits", alone((0, 32769)), UNSOUND),
    ("65,537 units, a sum of 1 in 16 bits", alone((0, 65537)), UNSOUND),
    ("2^32 + 1 units, a sum of 1 in 32 bits", alone((0, 2**32 - 1), (2**44, 2)), UNSOUND),
    ("2^32 units, a sum of 0 in 32 bits", alone(*sixteen(0, 2**28)), UNSOUND),
    # different units (W2)
    ("16,384 units twice", alone((0, 16384), (0, 16384)), SOUND, {"start": 11}),
    ("16,384 units sixteen times", alone(*[(0, 16384)] * 16), SOUND, {"start": 11}),
    ("16,384 units twice, a unit off", alone((0, 16384), (4096, 16384)), UNSOUND),
    ("16,384 units twice, a unit off, later one below", alone((4096, 16384), (0, 16384)), UNSOUND),
    ("16,384 units twice and 1", alone((0, 16384), (0, 16384), (2**26, 1)), UNSOUND),
    ("16,385 units twice", alone((0, 16385), (0, 16385)), UNSOUND),
    ("16,385 units around 16,384", alone((0, 16384), (0, 16385)), UNSOUND),
    ("16,383 and 2 units that share one", alone((0, 16383), (16382 * 4096, 2)), SOUND, {"start": 11}),
    ("16,383 and 2 units that touch", alone((0, 16383), (16383 * 4096, 2)), UNSOUND),
    ("8,193 and 8,192 units that share one, at 2^64", alone((MEMORY - 2**26, 8193), (MEMORY - 2**25, 8192)), SOUND, {"start": 11}),
    ("16 times 1,928 units by halves, 16,388", alone(*halves(1928)), UNSOUND),
    ("16 times 1,926 units by halves, 16,371", alone(*halves(1926)), SOUND),
    ("16,384 units twice at granularity 20", alone((2**32, 16384), (2**32, 16384), granularity=20), SOUND, {"start": 11}),
    ("a unit off at granularity 20", alone((2**32, 16384), (2**33, 16384), granularity=20), UNSOUND),
    ("2^32 - 1 units twice", alone((0, 2**32 - 1), (0, 2**32 - 1)), UNSOUND),
    ("2^32 - 1 units around 1", alone((0, 1), (0, 2**32 - 1)), UNSOUND),
    ("2^32 - 1 units sixteen times at granularity 20", alone(*[(2**32, 2**32 - 1)] * 16, granularity=20), UNSOUND),
    ("4,096 units each", both(tracked(0, (0, 4096)), tracked(8, (0, 4096), place=2)), SOUND),
    ("16,385 units past the count", in_place(0, 2, 2**30, 16385), SOUND),
    ("2^32 - 1 units where off", in_place(1, 0, 0, 2**32 - 1), SOUND),
    # "shares that ... leave these words": 7 has 3 units, 5 has 6
    *[(f"7 at {base}", based(None, None, base), SOUND) for base in (6, 7, 61, 62, 63, 64, 8191, 16380, 16381)],
    *[(f"7 at {base}", based(None, None, base), UNSOUND) for base in (16382, 16383, 16384, 16385, 20000, 32768, 65533, 65535)],
    *[(f"5 at {base}", based(base), SOUND) for base in (1, 58, 64, 8186, 8195, 16377, 16378)],
    *[(f"5 at {base}", based(base), UNSOUND) for base in (16379, 16383, 16384, 16389, 32768, 65530, 65535)],
    ("6 at 16,383, one unit", tracked(0, (0, 1), place=1, base=16383), SOUND, {"start": 3}),
    ("6 at 16,384, one unit", tracked(0, (0, 1), place=1, base=16384), UNSOUND),
    ("6 at 16,383, two units", tracked(0, (0, 2), place=1, base=16383), UNSOUND),
    ("6 at 65,535, one unit, which ends at 0 in 16 bits", both(based(8), tracked(0, (0, 1), place=1, base=65535)), UNSOUND),
    ("6 at 65,535, two units, which end at 1 in 16 bits", both(based(8), tracked(0, (0, 2), place=1, base=65535)), UNSOUND),
    ("6 at 49,152, 16,384 units, which end at 0 in 16 bits",
     both(off(0), off(2), tracked(0, (0, 16384), place=1, base=49152)), UNSOUND),
    ("16,384 units at 1", alone((0, 16384), base=1), UNSOUND),
    ("16,383 units at 1", alone((0, 16383), base=1), SOUND),
    ("16,383 units at 2", alone((0, 16383), base=2), UNSOUND),
    ("2 units at 16,382", alone((0, 2), base=16382), SOUND),
    ("2 units at 16,383", alone((0, 2), base=16383), UNSOUND),
    ("16,384 units at 65,535", alone((0, 16384), base=65535), UNSOUND),
    ("2^32 - 1 units at 65,535", alone((0, 2**32 - 1), base=65535), UNSOUND),
    # "shares that overlap": of 5, bits 0 to 5, and of 7, three bits; by one bit, by all, one within the other
    *[(f"7 at {base}, in 5's share", based(None, None, base), UNSOUND) for base in range(6)],
    *[(f"5 at {base}, over 7's share", based(base), UNSOUND) for base in range(8187, 8195)],
    *[(f"both at {base}", based(base, None, base), UNSOUND) for base in (0, 63, 64, 8192, 16378, 60000, 65535)],
    ("READINGS W7: 5 at 0 with 4 units, 6 at 3 with 1", both(tracked(0, (65536, 4)), tracked(0, (0, 1), place=1, base=3)), UNSOUND),
    ("5 at 0 with 4 units, 6 at 4 with 1", both(tracked(0, (65536, 4)), tracked(0, (0, 1), place=1, base=4)), SOUND, {"start": 3}),
    ("8,193 units, into 7's share", tracked(0, (0, 8193)), UNSOUND),
    ("8,192 units twice, up to 7's share", tracked(0, (0, 8192), (0, 8192)), SOUND),
    ("8,192 units twice, a unit off, into 7's share", tracked(0, (0, 8192), (4096, 8192)), UNSOUND),
    ("16,381 units beside 7's 3", both(tracked(0, (0, 16381)), based(None, None, 16381)), SOUND, {"start": 11}),
    ("16,381 units above 7's 3", both(tracked(0, (0, 16381), base=3), based(None, None, 0)), SOUND, {"start": 11}),
    ("16,380 units, a bit between", both(tracked(0, (0, 16380)), based(None, None, 16381)), SOUND),
    ("16,380 units, a bit before both", both(tracked(0, (0, 16380), base=1), based(None, None, 16381)), SOUND),
    ("16,382 units and 7's 3", both(tracked(0, (0, 16382)), based(None, None, 16381)), UNSOUND),
    ("16,382 units and 7's 3, past the end", both(tracked(0, (0, 16382)), based(None, None, 16382)), UNSOUND),
    ("16,382 units above 7's 3", both(tracked(0, (0, 16382), base=3), based(None, None, 0)), UNSOUND),
    ("16,384 units around 7's 3", both(tracked(0, (0, 16384)), based(None, None, 100)), UNSOUND),
    ("full, turned round", both(full(128), based(*range(14336, -1, -2048))), SOUND, {"start": 3}),
    ("full, first two on one place", both(full(128), based(2048)), UNSOUND),
    ("full, last one a bit lower", both(full(128), based(*[None] * 7, 14335)), UNSOUND),
    ("full, last one a bit higher", both(full(128), based(*[None] * 7, 14337)), UNSOUND),
    ("full, first one a bit higher", both(full(128), based(1)), UNSOUND),
    ("full, all a bit higher", both(full(128), based(*range(1, 14338, 2048))), UNSOUND),
    ("full, last one at 65,535", both(full(128), based(*[None] * 7, 65535)), UNSOUND),
    ("full, last one off, at 65,535", both(full(112), off(7), based(*[None] * 7, 65535)), SOUND, {"start": 3}),
    ("full, last one unused, at 3", both(full(112), settings(count=7), based(*[None] * 7, 3)), SOUND, {"start": 3}),
    ("full, first one off, the others two bits higher", both(full(112), off(0), based(None, *range(2050, 14341, 2048))), UNSOUND),
    ("full, first one off, the others below", both(full(112), off(0), based(None, *range(0, 12289, 2048))),
     SOUND, {"start": 3, "stop": 5, "receive": 5}),
    # each of eight shares with each other by a bit, and side by side
    *[(f"place {place} overlaps place {other} of eight by a bit", both(row_of_eight(), based(*[None] * place, 100 * other + 3)), UNSOUND)
      for place, other in itertools.permutations(range(8), 2)],
    *[(f"place {place} beside place {other} of eight", both(row_of_eight(), based(*[None] * place, 100 * other + shift)), SOUND, {"start": 3})
      for place, other in ((0, 1), (0, 7), (7, 0), (3, 5), (4, 3)) for shift in (-4, 4) if 100 * other + shift >= 0],
    # "Base of a controller that is off is an unused place"
    *[(f"6 off, at {base}", based(None, base), SOUND) for base in (0, 3, 8193, 16383, 16384, 60000, 65535)],
    *[(f"an unused place on, at {base}", both(counted(16, place=3), based(None, None, None, base)), SOUND) for base in (0, 8192, 65535)],
    ("5 off, at 8,192", both(off(0), based(8192)), SOUND, {"stop": 5, "receive": 5}),
    ("7 off, at 0", both(off(2), based(None, None, 0)), SOUND),
    # "Separately it is running or suspended", which soundness asks of an open sequence's owner alone
    ("all suspended", suspended(1, 1, 1), SOUND, {"start": 4, "stop": 4, "write": 4}),
    ("none suspended", suspended(0, 0, 0), SOUND, {"resume": 13, "part": 13}),
    ("unused suspended", suspended(0, 0, 1, 1, 1, 1, 1, 1), SOUND),
    # the open sequence (W6): 7 is suspended, 5 and 6 run, and 1 is the manager; 9 and 65535 are suspended in unused places
    # that are full of rubbish
    *[(f"7's sequence open, end {end}", opened(7, end), SOUND) for end in (4, 8, 16, 44, 48, 52, 2048, 4092, 4096)],
    *[(f"7's sequence open, end {end}", opened(7, end), UNSOUND)
      for end in (0, 1, 2, 3, 5, 6, 7, 47, 4093, 4094, 4095, 4097, 4098, 4100, 8192, 32768, 65532, 65535)],
    *[(f"a sequence open, owner {owner}", opened(owner, 16), UNSOUND) for owner in (0, 1, 5, 6, 8, 9, 5 + 256, 7 + 256, 65535)],
    *[(f"a sequence open, owner {owner}, end {end}", opened(owner, end), UNSOUND) for owner in (5, 9) for end in (0, 6, 4100)],
    ("5's sequence open, 5 and 7 suspended", both(suspended(1, 0, 1), opened(5, 16)), SOUND, {"stop": 4, "write": 4, "part": 23}),
    ("6's sequence open, 6 suspended", both(suspended(0, 1, 0), opened(6, 4)), SOUND, {"start": 4, "resume": 13, "part": 13}),
    ("5's sequence open, all others suspended", both(suspended(0, 1, 1), opened(5, 16)), UNSOUND),
    ("7's sequence open, none suspended", both(suspended(0, 0, 0), opened(7, 16)), UNSOUND),
    ("7's sequence open, 7 not in the settings", both(settings(count=2), opened(7, 16)), UNSOUND),
    ("8's sequence open", both(identifiers(5, 6, 7, 8), suspended(0, 0, 1, 1), opened(8, 16)), SOUND, {"part": 23}),
    ("8's sequence open, unused",
     both(identifiers(5, 6, 7, 8), suspended(0, 0, 1, 1), opened(8, 16), settings(count=3)), UNSOUND),
    ("the last one's sequence open",
     both(identifiers(*EIGHT), suspended(0, 0, 1, 0, 0, 0, 0, 1), opened(4, 4096)), SOUND, {"part": 23}),
    ("the last one's sequence open, unused",
     both(identifiers(*EIGHT), suspended(0, 0, 1, 0, 0, 0, 0, 1), opened(4, 4096), settings(count=7)), UNSOUND),
    ("0's sequence open", both(identifiers(*EIGHT), suspended(0, 0, 1, 1), opened(0, 16)), SOUND, {"part": 23}),
    ("0's sequence open, 0 running", both(identifiers(*EIGHT), opened(0, 16)), UNSOUND),
    ("closed device, a sequence open", both(closed(), opened(0, 4)), BROKEN),
    ("7's sequence open, limit 129", both(settings(limit=129), opened(7, 16)), BROKEN),
    ("7's sequence open, first length 0", both(tracked(0, (65536, 0)), opened(7, 16)), UNSOUND),
    ("7's sequence open, limit 2", both(settings(limit=2), opened(7, 16)), UNSOUND),
    # a queue (W8): a fill of 0 to the size, and full only where stopped; posts and takes lend four places
    ("no queue", queue(), SOUND, {"post": 29, "take": 29}),
    *[(f"a queue of 4, {fill} filled", queue(4, fill), SOUND) for fill in range(4)],
    *[(f"a queue of 4, {fill} filled, stopped", queue(4, fill, 0, 0, 1), SOUND, {"post": 30}) for fill in range(5)],
    *[(f"a queue of 4, {fill} filled", queue(4, fill), UNSOUND)
      for fill in (4, 5, 255, 256, 258, 2**16, 2**16 + 2, 2**31, 2**31 + 2, WORD - 2, WORD - 1)],
    *[(f"a queue of 4, {fill} filled, stopped", queue(4, fill, 0, 0, 1), UNSOUND)
      for fill in (5, 6, 256, 260, 2**16, 2**16 + 4, 2**31, WORD - 4, WORD - 1)],
    # the totals run freely, and pass 2^32
    *[(f"a queue of 4, posted {posted}, taken {taken}", queue(4, posted, taken), SOUND) for posted, taken in (
        (0, 0), (3, 3), (WORD - 1, WORD - 1), (0, WORD - 1), (2, WORD - 1), (0, WORD - 3), (2**31, 2**31 - 3), (2**31 + 1, 2**31),
        (WORD - 1, WORD - 4), (2**16, 2**16 - 1), (256, 255))],
    *[(f"a queue of 4, posted {posted}, taken {taken}", queue(4, posted, taken), UNSOUND) for posted, taken in (
        (0, 1), (3, 4), (WORD - 2, WORD - 1), (3, WORD - 1), (0, WORD - 4), (4, WORD - 1), (2**31, 0), (0, 2**31), (WORD - 1, 0),
        (WORD - 1, WORD - 5), (2**31 + 1, 2**31 - 3))],
    *[(f"a queue of 4, posted {posted}, taken {taken}, stopped", queue(4, posted, taken, 0, 1), SOUND, {"post": 30})
      for posted, taken in ((3, WORD - 1), (0, WORD - 4), (2**31 + 1, 2**31 - 3), (WORD - 1, WORD - 1), (0, WORD - 1))],
    *[(f"a queue of 4, posted {posted}, taken {taken}, stopped", queue(4, posted, taken, 0, 1), UNSOUND)
      for posted, taken in ((0, 1), (4, WORD - 1), (0, WORD - 5), (WORD - 1, 0))],
    # a place inside
    *[(f"a queue of 4, place {place}", queue(4, 2, 0, place), SOUND) for place in range(4)],
    *[(f"a queue of 4, empty, place {place}", queue(4, 9, 9, place), SOUND) for place in range(4)],
    *[(f"a queue of 4, place {place}", queue(4, 2, 0, place), UNSOUND) for place in (4, 5, 6, 8, 255, 256, 257, 259, 32768, 65535)],
    *[(f"a queue of 4, empty, place {place}", queue(4, 0, 0, place), UNSOUND) for place in (4, 256, 65535)],
    *[(f"a queue of 4, full and stopped, place {place}", queue(4, 4, 0, place, 1), UNSOUND) for place in (4, 65535)],
    # worked: two places
    ("a queue of 2, full and running", queue(2, 2, 0), UNSOUND),
    ("a queue of 2, full and stopped", queue(2, 2, 0, 0, 1), SOUND, {"post": 28, "take": 28}),
    ("a queue of 2, posted 0, taken 1", queue(2, 0, 1), UNSOUND),
    ("a queue of 2, place 2", queue(2, 0, 0, 2), UNSOUND),
    ("a queue of 2, empty and stopped", queue(2, 0, 0, 0, 1), SOUND, {"post": 28, "take": 28}),
    # of the size no more is asked: none has no place inside, and others that no area has are sound
    *[(f"a queue of no places, stopped {stopped}", queue(0, 0, 0, 0, stopped), UNSOUND) for stopped in (0, 1)],
    ("a queue of no places, place 65535", queue(0, 0, 0, 65535), UNSOUND),
    *[(f"a queue of {size}, empty", queue(size), SOUND, {"post": 28, "take": 28})
      for size in (1, 2, 3, 5, 1023, 1024, 1025, 2048, 2050, 2052, 32768, 65535)],
    *[(f"a queue of {size}, full and stopped", queue(size, size, 0, size - 1, 1), SOUND, {"post": 28, "take": 28})
      for size in (1, 2, 3, 5, 1023, 1024, 1025, 2048, 2052, 65535)],
    *[(f"a queue of {size}, full and running", queue(size, size, 0, size - 1), UNSOUND) for size in (1, 2, 3, 1023, 1024, 1025, 65535)],
    *[(f"a queue of {size}, one too many", queue(size, size + 1, 0, 0, 1), UNSOUND) for size in (1, 2, 3, 1023, 1024, 1025, 65535)],
    *[(f"a queue of {size}, place {size}", queue(size, 0, 0, size), UNSOUND) for size in (1, 2, 3, 1023, 1024, 1025, 65535)],
    # every controller in use, and no other
    *[(f"6's queue: {name}", queue(*kept, place=1), answers) for name, kept, answers in (
        ("a place filled", (4, 1, 0, 3), SOUND), ("full and stopped", (4, 4, 0, 3, 1), SOUND),
        ("full and running", (4, 4, 0, 3), UNSOUND), ("place 4", (4, 1, 0, 4), UNSOUND), ("posted 0, taken 1", (4, 0, 1), UNSOUND))],
    *[(f"7's queue: {name}", queue(*kept, place=2), answers) for name, kept, answers in (
        ("none", (), SOUND), ("full and stopped", (4, 4, 0, 3, 1), SOUND), ("full and running", (2, 2, 0, 1), UNSOUND),
        ("place 2", (2, 0, 0, 2), UNSOUND), ("no places", (0,), UNSOUND))],
    *[(f"a queue in place {place} of eight, {said}", both(identifiers(*EIGHT), queue(*kept, place=place)), answers)
      for place in (3, 6, 7)
      for said, kept, answers in (("full and stopped", (3, 3, 0, 2, 1), SOUND), ("full and running", (3, 3, 0, 2), UNSOUND))],
    *[(f"a queue in unused place {place}: {kept}", queue(*kept, place=place), SOUND)
      for place in (3, 4, 7) for kept in ((0,), (2, 2, 0), (2, 0, 1), (2, 0, 0, 2), (4, 1, 0, 3), (65535, 3, 9, 65535, 1))],
    ("the last one's queue full and running, unused", both(identifiers(*EIGHT), queue(3, 3, 0, 2, place=7), settings(count=7)), SOUND),
    # beside other rules
    ("closed device with a queue", both(closed(), queue(4, 1)), BROKEN),
    ("a queue full and running, limit 129", both(queue(4, 4), settings(limit=129)), BROKEN),
    ("a queue full and running, limit 2", both(queue(4, 4), settings(limit=2)), UNSOUND),
    ("5 off and suspended, its queue full and stopped", both(off(0), suspended(1), queue(4, 4, 0, 0, 1)),
     SOUND, {"stop": 4, "write": 4, "receive": 5, "post": 30}),
    ("5 off and suspended, its queue full and running", both(off(0), suspended(1), queue(4, 4)), UNSOUND),
    ("7's sequence open, 7's queue full and running", both(opened(7, 16), queue(2, 2, 0, place=2)), UNSOUND),
]

# Start structures for controller 6 of the base, and what they are answered with, by document 02, W3: "which rule and row,
# counted from 0, the earliest row first; within a row length 0, unaligned, past the end". Lists of 14 and more break 12
# too.
ROWS = [
    # "18 count 0 or over 16 (row 0)", whatever the rows hold. 17 ranges are 212 bytes.
    (structure(0, []), [18, 0]),
    (structure(8, []), [18, 0]),
    *[(structure(0, [one], count=0), [18, 0]) for one in BAD.values()],
    (structure(0, listed(17, {})), [18, 0]),
    *[(structure(0, listed(17, {row: one})), [18, 0]) for row in (0, 15, 16) for one in BAD.values()],
    *[(structure(0, [one] * count), [18, 0]) for count in (17, 32, 84) for one in BAD.values()],
    # "They stand where 9 stood": after 6, 7 and 8.
    (structure(0, [], count=17), [8]),
    *[(structure(0, [one], count=count), [8]) for count in (2, 16, 17, 256, 2**32 - 1) for one in BAD.values()],
    *[(structure(0, listed(count, {0: one}))[:-1], [8]) for count in (2, 16, 17) for one in BAD.values()],
    *[(structure(0, rows, version=1), [6]) for rows in ([], [LENGTH_0], [UNALIGNED], [PAST_THE_END], listed(17, {}))],
    *[(structure(9, rows), [7]) for rows in ([], [LENGTH_0], [UNALIGNED], [PAST_THE_END], listed(17, {}))],
    # And before 11 and 12; "rule on" below has 10.
    *[(structure(0, [(0, 16376), one]), [number, 1]) for number, one in BAD.items()],
    *[(structure(0, [(0, 16376)] + [(0, 1)] * 14 + [one]), [number, 15]) for number, one in BAD.items()],
    # Each rule in each of 16 rows, and in the last of fewer.
    *[(structure(0, listed(16, {row: one})), [number, row]) for row in range(16) for number, one in BAD.items()],
    *[(structure(0, listed(row + 1, {row: one})), [number, row])
      for row in (0, 1, 2, 7, 14) for number, one in BAD.items()],
    # A range that stands there and isn't listed.
    *[(structure(0, listed(14, {13: one}), count=13), [0]) for one in BAD.values()],
    *[(structure(0, listed(17, {15: one, 16: LENGTH_0}), count=16), [number, 15]) for number, one in BAD.items()],
    # Two rules in one row. A range of length 0 ends where it starts, so never past 2^64.
    *[(structure(0, listed(row + 1, {row: one})), [number, row]) for row in (0, 7, 15) for number, one in (
        (19, (65537, 0)), (19, (MEMORY - 4096, 0)), (19, (ALL_ONES, 0)),
        (20, (MEMORY - 4095, 1)), (20, (ALL_ONES, 1)), (20, (ALL_ONES, 2**32 - 1)))],
    # Two rows: the earlier one, whichever rule it breaks.
    *[(structure(0, listed(16, {row: one, later: other})), [number, row])
      for row, later in ((0, 1), (0, 15), (1, 2), (6, 7), (7, 15), (14, 15))
      for number, one in BAD.items() for other in BAD.values()],
    # Three rows and more.
    *[(structure(0, [(0, 1), *rows]), [number, 1]) for number, rows in (
        (19, [LENGTH_0, UNALIGNED, PAST_THE_END]), (19, [LENGTH_0, PAST_THE_END, UNALIGNED]),
        (20, [UNALIGNED, LENGTH_0, PAST_THE_END]), (20, [UNALIGNED, PAST_THE_END, LENGTH_0]),
        (21, [PAST_THE_END, LENGTH_0, UNALIGNED]), (21, [PAST_THE_END, UNALIGNED, LENGTH_0]))],
    *[(structure(0, [one] * 16), [number, 0]) for number, one in BAD.items()],
    # The structure's own granularity says what a unit is.
    (structure(8, [(1048576, 1), (1052672, 1)]), [20, 1]),
    (structure(0, [(1048576, 1), (1052672, 1)]), [0]),
    (structure(8, [(0, 1), (MEMORY - 2**20, 2)]), [21, 1]),
    (structure(8, [(0, 1), (MEMORY - 2**20, 1)]), [0]),
    (structure(7, [(0, 1), (MEMORY - 2**20, 2)]), [0]),
    (structure(7, [(0, 1), (MEMORY - 2**20, 3)]), [21, 1]),
    # 2^32 - 1 pages that end at 2^64, and a page past it.
    (structure(0, [(0, 1), (MEMORY - 4096 * (2**32 - 1), 2**32 - 1)]), [11]),
    (structure(0, [(0, 1), (MEMORY - 4096 * (2**32 - 2), 2**32 - 1)]), [21, 1]),
    # Overlap is no fault, and a range within another is a row like any other.
    *[(structure(0, [(65536, 4)] * 12 + [one]), [number, 12]) for number, one in BAD.items()],
    (structure(0, [(65536, 4), (61440, 16), (69632, 1), (69633, 1)]), [20, 3]),
    (structure(0, [(MEMORY - 4096, 1), (MEMORY - 4096, 1), (MEMORY - 4096, 2)]), [21, 2]),
    # What is reserved, and what stands behind the last range, says nothing.
    *[(structure(0, listed(3, {2: one}), reserved=65535) + b"\xff" * 100, [number, 2]) for number, one in BAD.items()],
]

# The device of a batch's worked numbers: controllers 5 and 6, of which 5 tracks 4 units from page 16 on. So 7 stands in an
# unused place.
WORKED = both(settings(count=2), tracked(0, (65536, 4)))

# Four controllers for batches, with their shares far apart. 5 and 7 are the base's; 6 tracks pages 0 to 3, the low bits of
# word 64; 8 tracks two units of 1 MiB, the low bits of word 192.
FOUR = both(identifiers(5, 6, 7, 8), tracked(0, (0, 4), place=1), tracked(8, (0, 2), place=3))

# Notes on these, and after so many of them: how many units are new, and the mark words that have changed.
NOTES = [(5, 65536, 1), (6, 4096, 4097), (8, 1048575, 2)]
LEFT = [(0, {}), (1, {0: 0b1}), (3, {0: 0b1, 64: 0b110}), (5, {0: 0b1, 64: 0b110, 192: 0b11})]
ALL_UNITS = [(id, 0, ALL_ONES) for id in (5, 6, 8)]

# Notes that are refused there, with their numbers, in the order of a write: 2 (1 is the manager, 9 stands in an unused
# place), 4, 14.
BAD_NOTES = [
    *[(2, one) for one in ((1, 0, 1), (9, 0, 0), (5 + 256, 65536, 1), (9, 2, ALL_ONES))],
    *[(4, one) for one in ((7, 1048576, 1), (7, 0, 0), (7, 2, ALL_ONES))],
    *[(14, one) for one in ((5, ALL_ONES, 2), (6, 2, ALL_ONES), (8, ALL_ONES, ALL_ONES))],
]
A_BAD_NOTE = {2: (9, 0, 1), 4: (7, 0, 1), 14: (6, 2, ALL_ONES)}  # of each number; refused on the base too

PAGES = [(5, 4096 * page, 1) for page in range(MOST_ROWS)]
EVERY_MARK = {word: ALL_ONES for word in range(64)}  # of 4,096 units from bit 0 on


def noted(done, new, cut=0):
    """The numbers of a done batch."""
    return numbers(count=new, notes_done=done, cut=cut)


# What a batch answers: "the single notes in list order up to the first refused one and answers the number done, the total
# newly pending and the refusal, if any". Here the whole answer is known: only the mark words that are named change.
BATCHES = [
    # Each refusal in each place. Behind it stand notes that would mark all, if they were tried.
    *[("batch", batch(*NOTES[:place], bad, *ALL_UNITS), noted(place, new, number), marks)
      for place, (new, marks) in enumerate(LEFT) for number, bad in BAD_NOTES],
    # Two refusals: the earlier one.
    *[("batch", batch(NOTES[0], one, other, *NOTES), noted(1, 1, number), {0: 1})
      for number, one in BAD_NOTES for other in A_BAD_NOTE.values()],
    # None, in any order.
    *[("batch", batch(*NOTES[:place]), noted(place, new), marks) for place, (new, marks) in enumerate(LEFT)],
    ("batch", batch(*reversed(NOTES)), noted(3, 5), LEFT[3][1]),
    ("batch", batch(*NOTES, *NOTES), noted(6, 5), LEFT[3][1]),
    # "The total newly pending": there are 6, 4 and 2 units, of which none, some or all were pending. The low byte of MIXED
    # is 11010001b.
    *[("batch", dict(mark=MIXED, **batch(*NOTES, bad, *ALL_UNITS)), noted(3, 3, number), {64: MIXED | 0b110, 192: MIXED | 0b11})
      for number, bad in BAD_NOTES],
    ("batch", batch(*ALL_UNITS), noted(3, 12), {0: 0b111111, 64: 0b1111, 192: 0b11}),
    ("batch", batch(*NOTES, *ALL_UNITS), noted(6, 12), {0: 0b111111, 64: 0b1111, 192: 0b11}),
    ("batch", dict(mark=0b0101, **batch(*ALL_UNITS)), noted(3, 7), {0: 0b111111, 64: 0b1111, 192: 0b0111}),
    ("batch", dict(mark=ALL_ONES - 63, **batch(*ALL_UNITS)), noted(3, 12),
     {0: ALL_ONES, 64: ALL_ONES - 0b110000, 192: ALL_ONES - 0b111100}),
    ("batch", dict(mark=ALL_ONES, **batch(*NOTES, *ALL_UNITS)), noted(6, 0)),
    # Record j is row j modulo the number of rows. A row past the last record isn't one of the batch.
    *[("batch", batch(*NOTES, records=records), noted(records, new), marks) for records, (new, marks) in enumerate(LEFT)],
    *[("batch", batch(*NOTES, records=records), noted(records, 5), LEFT[3][1]) for records in (4, 5, 6, 7, 1023, 1024)],
    *[("batch", batch(*NOTES, bad, records=3), noted(3, 5), LEFT[3][1]) for _, bad in BAD_NOTES],
    *[("batch", batch(*NOTES, bad, records=1024), noted(3, 5, number), LEFT[3][1]) for number, bad in BAD_NOTES],
    # "At most 1,024 records", whatever they are.
    ("batch", batch(*NOTES, records=1025), [22]),
    *[("batch", dict(mark=MIXED, **batch(bad, records=1025)), [22]) for _, bad in BAD_NOTES],
    *[("batch", batch(*NOTES, bad, records=1025), [22]) for _, bad in BAD_NOTES],
    *[("batch", batch(bad, *NOTES, records=1024), noted(0, 0, number)) for number, bad in BAD_NOTES],
    # What only other calls take is not looked at.
    ("batch", dict(id=9, address=2, bytes=ALL_ONES, type=255, **batch(*NOTES)), noted(3, 5), LEFT[3][1]),
    ("batch", dict(id=7, **batch()), noted(0, 0)),
]

def at_base(base):
    """Calls to controller 5 with 4 units whose share begins at this bit."""
    lowest, shift = divmod(base, 64)

    def words(bits, mark=0):
        """The words about the share with these of its four bits set, and with the others' bits as they were lent."""
        lent = rotated(mark, lowest) | rotated(mark, lowest + 1) << 64
        both_words = lent & ~(15 << shift) | bits << shift
        return {lowest: both_words % 2**64, **({lowest + 1: both_words >> 64} if lowest < 255 else {})}

    return [
        *[("write", dict(id=5, address=65536 + 4096 * unit, bytes=1), [0, 0, 1], words(1 << unit)) for unit in range(4)],
        ("write", dict(id=5, address=0, bytes=ALL_ONES), [0, 0, 4], words(0b1111)),
        ("write", dict(id=5, address=0, bytes=ALL_ONES, mark=ALL_ONES), [0, 0, 0], words(0b1111, ALL_ONES)),
        ("receive", dict(id=5, data=b"\xaa" * 32, mark=ALL_ONES), [0, 0, 0, 0, 0, 0, 1], words(0, ALL_ONES), [(65536, 4)]),
        ("stop", dict(id=5, mark=ALL_ONES), [0], words(0, ALL_ONES)),
        ("stop", dict(id=5, mark=MIXED), [0], words(0, MIXED)),
        ("batch", batch((5, 69632, 1), (5, 77824, 1)), noted(2, 2), words(0b1010)),
    ]


def lent_bits(mark, first, count):
    """So many bits of the lent marks from this one on. Bit b is in word b / 64, where all are rotated left by as many."""
    return [mark >> (at - at // 64) % 64 & 1 for at in range(first, first + count)]


def packed_marks(five, seven, length, mark):
    """The first and the last word after a start of 6 with so many units, bit by bit: 6 bits of 5 from bit `five` on, so many
    clear ones, 3 of 7 from bit `seven` on, and clear ones up to 16,384."""
    bits = lent_bits(mark, five, 6) + [0] * length + lent_bits(mark, seven, 3)
    bits += [0] * (16384 - len(bits))
    return {word: sum(bit << at for at, bit in enumerate(bits[64 * word:64 * word + 64])) for word in (0, 1, 2, 128, 255)}


def only(marks):
    """These words, and zeros in all others."""
    return {**{word: 0 for word in range(256)}, **marks}


def only_bits(*bits):
    """The words in which these bits of the pool are set, and no others."""
    return {word: sum(1 << bit % 64 for bit in bits if bit // 64 == word) for word in range(256)}


def placed(marks, *bases):
    """A done call that counts nothing: these words are left, and these bases of the first controllers."""
    return [0], marks, (), NOT_SAID, bases


def opens(end, owner=7):
    """A done part that goes on: its numbers, and the sequence that it leaves."""
    return numbers(), {}, (), (owner, end)


def yields(whole):
    """A done part that ends its sequence: the assembled bytes are counted, and nothing is open."""
    return numbers(whole=whole), {}, (), None


# What a part of controller 7 answers where nothing is open (document 02, W6). Here too the whole answer is known: of the
# area only the part's own bytes change, whatever the area held.
SIXTY = state(1, 2)
FULL = header(1012, 0)  # as many dwords as 4,096 bytes can hold
PARTS = [
    # The finished whole: at least a header, and as long as its sizes say, in dwords.
    ("part", part(ONLY, 0, bytes(48)), *yields(48)),
    *[("part", part(ONLY, 0, bytes(length)), [27]) for length in (4, 44, 52, 64, 1024, 4096)],
    ("part", part(ONLY, 0, header(4, 0) + bytes(16)), *yields(64)),
    ("part", part(ONLY, 0, header(0, 4) + bytes(16)), *yields(64)),
    *[("part", part(ONLY, 0, header(4, 0) + bytes(length)), [27]) for length in (0, 4, 12, 20)],
    ("part", part(ONLY, 0, SIXTY), *yields(60)),
    ("part", part(ONLY, 0, FULL + bytes(4048)), *yields(4096)),
    ("part", part(ONLY, 0, FULL + bytes(4044)), [27]),
    ("part", part(ONLY, 0, FULL + bytes(4052)), [27]),
    ("part", part(ONLY, 0, header(1013, 0) + bytes(4052)), [27]),
    ("part", part(ONLY, 0, header(512, 501) + bytes(4048)), [27]),
    ("part", part(ONLY, 0, header(512, 500) + bytes(4048)), *yields(4096)),
    # Each size has 16 bytes, and neither sum nor product is cut.
    *[("part", part(ONLY, 0, header(*sizes)), [27]) for sizes in (
        (256, 0), (2**16, 0), (2**32, 0), (2**64, 0), (2**120, 0), (2**127, 0), (0, 256), (0, 2**16), (0, 2**32), (0, 2**64),
        (0, 2**127), (2**30, 0), (2**62, 0), (2**126, 0), (0, 2**126), (2**64 - 1, 1), (1, 2**64 - 1), (2**128 - 1, 1),
        (2**127, 2**127), (2**128 - 1, 2**128 - 1))],
    # The version has two bytes; attributes and reserved bytes are not looked at.
    *[("part", part(ONLY, 0, header(0, 0, version=version)), [27]) for version in (1, 128, 256, 2**15, 2**16 - 1)],
    ("part", part(ONLY, 0, header(0, 0, reserved=b"\xff" * 14)), *yields(48)),
    # First parts, of as many bytes as may be, over any area.
    ("part", part(FIRST, 0, b"\1\2\3\4"), *opens(4)),
    ("part", part(FIRST, 0, b"\xff" * 64, fill=0), *opens(64)),
    ("part", part(FIRST, 0, bytes(4092)), *opens(4092)),
    ("part", part(FIRST, 0, bytes(4096)), *opens(4096)),
    ("part", part(FIRST, 0, bytes(4100)), [27]),
    ("part", dict(mark=MIXED, **part(FIRST, 0, SIXTY[:16], front=bytes(range(64)))), *opens(16)),
    # 2 and 13: 1 is the manager, 9 stands in an unused place, 5 and 6 run.
    *[("part", part(*words, id=id), [number]) for id, number in ((1, 2), (9, 2), (7 + 256, 2), (65535, 2), (5, 13), (6, 13))
      for words in ((ONLY, 0, bytes(48)), (FIRST, 0, bytes(4)), (4, 2, bytes(3)))],
    # 24: bits 1:0 set, or above 4,096, in both words.
    *[("part", part(indicator, offset, bytes(4)), [24]) for indicator in (MIDDLE, FIRST, LAST, ONLY, 4, 255)
      for offset in (1, 2, 3, 5, 4095, 4097, 4098, 4100, 2**16, 2**31, WORD - 4, WORD, WORD + 2, 2**63,
                     WORD * (WORD - 1), 2**64 - 4)],
    ("part", part(LAST, WORD, b""), [24]),
    # 25: an indicator above 3, a count of 0, data that aren't the counted dwords.
    *[("part", part(indicator, 0, bytes(48)), [25]) for indicator in (4, 5, 7, 128, 255)],
    *[("part", part(indicator, 0, b""), [25]) for indicator in (MIDDLE, FIRST, ONLY, 4)],
    *[("part", part(indicator, 0, bytes(48), count=count), [25]) for indicator in (FIRST, ONLY)
      for count in (0, 1, 11, 13, 48, 268, 2**16 + 12, 2**30 + 12, 2**31 + 12, 3 * 2**30 + 12, WORD - 1)],
    *[("part", part(FIRST, 0, bytes(length), count=1), [25]) for length in (0, 1, 3, 5, 8, 4100)],
    ("part", part(LAST, 0, bytes(4), count=0), [25]),
    *[("part", part(LAST, 0, b"", count=count), [25]) for count in (1, 2**30, WORD - 1)],
    # 26: first and only parts begin at 0; the others have nothing to go on from. No header is judged.
    *[("part", part(indicator, offset, data), [26]) for indicator in (FIRST, ONLY) for offset in (4, 48, 4092, 4096)
      for data in (bytes(4), bytes(48), bytes(4096))],
    *[("part", part(indicator, offset, data), [26]) for indicator in (MIDDLE, LAST) for offset in (0, 4, 48, 4096)
      for data in (bytes(4), bytes(48))],
    *[("part", part(LAST, offset, b"", fill=0), [26]) for offset in (0, 48, 4096)],
    # 1: the area has another length, whatever else is wrong.
    *[("part", part(*words, id=id, area=area), [1]) for area in WRONG_AREAS for id in (7, 9, 5)
      for words in ((ONLY, 0, bytes(48)), (FIRST, 0, bytes(4)), (4, 2, bytes(3)))],
    # What only other calls take is not looked at.
    ("part", dict(address=2, bytes=ALL_ONES, type=255, records=1025, **part(ONLY, 0, SIXTY)), *yields(60)),
]

# The same where its own sequence is open at 16, with these bytes in the area.
OPEN_AT_16 = [
    ("part", part(MIDDLE, 16, b"\1\2\3\4", front=SIXTY[:16]), *opens(20)),
    ("part", part(MIDDLE, 16, bytes(4080), front=SIXTY[:16]), *opens(4096)),
    ("part", part(MIDDLE, 16, bytes(4084), front=SIXTY[:16]), [27]),
    ("part", part(LAST, 16, SIXTY[16:], front=SIXTY[:16]), *yields(60)),
    ("part", part(LAST, 16, SIXTY[16:56], front=SIXTY[:16]), [27]),
    ("part", part(LAST, 16, SIXTY[16:] + bytes(4), front=SIXTY[:16]), [27]),
    ("part", part(LAST, 16, bytes(28), front=bytes(16)), [27]),
    ("part", part(LAST, 16, bytes(32), front=bytes(16)), *yields(48)),
    # What the area holds behind byte 16 is no part of the whole, and what it holds before is.
    ("part", part(LAST, 16, b"", front=bytes(64), fill=0), [27]),
    ("part", part(LAST, 16, bytes(32), front=bytes(16) + b"\xff" * 48, fill=255), *yields(48)),
    *[("part", part(LAST, 16, bytes(32), front=front), [27]) for front in (b"\1" + bytes(15), b"\0\1" + bytes(14))],
    ("part", part(LAST, 16, bytes(32), front=bytes(2) + b"\xff" * 14), *yields(48)),
    # Another place than 16.
    *[("part", part(indicator, offset, bytes(32), fill=0), [number]) for indicator in (MIDDLE, LAST)
      for number, offsets in ((26, (0, 12, 20, 48, 4096)), (24, (15, 17, 18, 4100, WORD + 16))) for offset in offsets],
    ("part", part(LAST, 20, b""), [26]),
    ("part", part(MIDDLE, 16, b""), [25]),
    # A first or an only part begins anew, also with fewer bytes than there were; refused, it leaves all.
    ("part", part(FIRST, 0, bytes(8), front=SIXTY), *opens(8)),
    ("part", part(FIRST, 0, SIXTY), *opens(60)),
    ("part", part(ONLY, 0, bytes(48)), *yields(48)),
    ("part", part(ONLY, 0, bytes(44), front=bytes(64)), [27]),
    ("part", part(ONLY, 0, b"\0\1" + b"\xee" * 46, front=bytes(64)), [27]),
    ("part", part(FIRST, 0, bytes(4100)), [27]),
    *[("part", part(indicator, 16, bytes(48), front=bytes(64)), [26]) for indicator in (FIRST, ONLY)],
    *[("part", part(MIDDLE, 16, bytes(4), front=SIXTY, area=area), [1]) for area in WRONG_AREAS],
    # "its resume drops its unfinished sequence"; every other call leaves it as it was.
    ("resume", dict(id=7), [0], {}, (), None),
    ("resume", dict(id=5), [13]),
    ("resume", dict(id=9), [2]),
    *[("suspend", dict(id=id, type=type), [0], {}, (), (7, 16)) for id in (5, 6, 7) for type in (0, 1)],
    ("suspend", dict(id=7, type=2), [15]),
    ("start", dict(id=6, data=structure(0, [(65536, 1)])), [0], {}, (), (7, 16)),
    ("start", dict(id=7, data=structure(0, [(65536, 1)])), [4]),
    ("stop", dict(id=5), [0], {}, (), (7, 16)),
    ("stop", dict(id=7), [4]),
    ("write", dict(id=5, address=69632, bytes=1), [0, 0, 1], {0: 2}, (), (7, 16)),
    ("write", dict(id=7, address=0, bytes=1), [4]),
    ("receive", dict(id=7, data=b"\xaa" * 32, mark=0b101), [0, 0, 0, 1, 1, 8, 1], {}, (), (7, 16)),
    ("batch", batch((5, 69632, 1), (7, 0, 1), (5, 0, 1)), noted(1, 1, 4), {0: 2}),
]

# The same where 5's sequence is open at 16, and 5 and 7 are suspended: 23, whatever 7's part holds, and 5's go on.
ANOTHERS = [
    *[("part", part(indicator, offset, data), [23]) for indicator in (MIDDLE, FIRST, LAST, ONLY, 4, 255)
      for offset in (0, 2, 16, 20, 4100, WORD) for data in (b"", bytes(4), bytes(48))],
    ("part", part(ONLY, 0, bytes(48), count=11), [23]),
    ("part", part(FIRST, 0, bytes(4), id=6), [13]),
    ("part", part(FIRST, 0, bytes(4), id=1), [2]),
    ("part", part(FIRST, 0, bytes(4), area=4095), [1]),
    ("part", part(MIDDLE, 16, bytes(4), id=5), *opens(20, owner=5)),
    ("part", part(LAST, 16, bytes(32), id=5, front=bytes(16)), *yields(48)),
    ("part", part(FIRST, 0, bytes(4), id=5), *opens(4, owner=5)),
    ("part", part(ONLY, 0, bytes(48), id=5), *yields(48)),
    ("resume", dict(id=7), [0], {}, (), (5, 16)),
    ("resume", dict(id=5), [0], {}, (), None),
    ("resume", dict(id=6), [13]),
]

# The same at the end of the area. The header's sizes are 1,012 in all.
AT_4092 = [
    ("part", part(MIDDLE, 4092, b"\1\2\3\4", front=FULL), *opens(4096)),
    ("part", part(LAST, 4092, b"\1\2\3\4", front=FULL), *yields(4096)),
    ("part", part(LAST, 4092, b"\1\2\3\4", front=header(1011, 0)), [27]),
    *[("part", part(indicator, 4092, bytes(8), front=header(1013, 0)), [27]) for indicator in (MIDDLE, LAST)],
    ("part", part(LAST, 4092, b"", front=header(1000, 11)), *yields(4092)),
    ("part", part(LAST, 4092, b"", front=FULL), [27]),
    *[("part", part(indicator, 4096, bytes(4), front=FULL), [26]) for indicator in (MIDDLE, LAST)],
]
AT_4096 = [
    ("part", part(LAST, 4096, b"", front=FULL), *yields(4096)),
    ("part", part(LAST, 4096, b"", front=header(1011, 0)), [27]),
    *[("part", part(indicator, 4096, bytes(4), front=FULL), [27]) for indicator in (MIDDLE, LAST)],
    *[("part", part(indicator, 4100, bytes(4), front=FULL), [24]) for indicator in (MIDDLE, LAST)],
    ("part", part(MIDDLE, 4096, b"", front=FULL), [25]),
    ("part", part(LAST, 4092, b"", front=FULL), [26]),
    ("part", part(FIRST, 0, bytes(4), front=FULL), *opens(4)),
]

# ---- Queue calls (document 02, W8). Here too the whole answer is known: of the area a post changes one place, of the buffer a
# take its front, and of the record each its own queue.

A, B, C = b"\xa1" * 32, b"\xb2" * 32, b"\xc3" * 32  # entries; none stands in a lent area
LARGE = 1024 * 32
SIZES = (0, 1, 2, 16, 30, 31, 32, 33, 34, 48, 62, 63, 64, 65, 66, 94, 95, 96, 97, 98, 126, 127, 128, 129, 130, 160, 1024, 2048,
         4096, 4104, 4200, 4224, 8192, 16384, 32704, 32735, 32736, 32737, 32766, 32767, 32768, 32769, 32770, 32784, 32799, 32800)


def lent(*places):
    """What these places of a queue's area hold, one after another: its first 64 bytes are 0 to 63, and in place p from 2 on
    all are 40h + p, cut to 8 bits."""
    return b"".join(QUEUE_FRONT[32 * place:32 * place + 32] or b"%c" % ((QUEUE_FILL + place) % 256) * 32 for place in places)


def makes(places):
    """A done make: an empty queue with totals 0, and no byte of the area is another."""
    return numbers(), {}, (), NOT_SAID, (), Kept(places)


def stores(place, entry, *kept):
    """A done post: the entry in this place, and the queue that is left."""
    return numbers(), {}, (), NOT_SAID, (), Kept(*kept), {place: entry}


def closes(place, *kept):
    """A post that finds one free place: the closing entry goes there."""
    return numbers(stopped=1), {}, (), NOT_SAID, (), Kept(*kept), {place: CLOSING}


def takes(entries, *kept, closing=0):
    """A done take: these bytes, and the queue that is left."""
    return numbers(taken=len(entries) // 32, closing=closing), {}, (), NOT_SAID, (), Kept(*kept), {}, entries


# On the base: 5 has a queue of four places, with the last and the first filled, 6 none, and 7 a stopped one of two places.
QUEUES = [
    # "until the queue is made anew, empty, with totals 0", whatever there was.
    *[("make", make(size, id=id), *makes(size // 32)) for id in (5, 6, 7) for size in (64, 96, 128, 4096, 32736, LARGE)],
    *[("make", make(size, id=id), [28]) for id in (5, 6, 7) for size in SIZES if size % 32 or not 64 <= size <= LARGE],
    *[("make", make(size, id=id), [2]) for id in (0, 1, 9, 5 + 256, 65535) for size in (0, 63, 64, 128, 32800)],
    # A post to the second place; the entry may be anything.
    *[("post", post(entry), *stores(1, entry, 4, 2, WORD - 1, 3)) for entry in (A, bytes(32), CLOSING, bytes(range(32)), lent(1), lent(3))],
    *[("post", post(A, size=size), [28]) for size in SIZES if size != 128],
    *[("post", post(entry, id=id, size=size), [2])
      for id in (0, 1, 9, 5 + 256, 65535) for size in (0, 63, 64, 128, 32800) for entry in (A, b"")],
    *[("post", post(entry, id=6, size=size), [29]) for size in (64, 96, 128, LARGE) for entry in (A, b"", A[:31], A + b"\0")],
    *[("post", post(entry, id=6, size=size), [28]) for size in (0, 32, 63, 65, 127, 32767, 32800) for entry in (A, b"")],
    *[("post", post((A * 32)[:length]), [8]) for length in (0, 1, 16, 30, 31, 33, 34, 63, 64, 96, 256 + 32, 1024)],
    ("post", post(A, id=7, size=64), [30]),
    *[("post", post((A * 32)[:length], id=7, size=64), [8]) for length in (0, 31, 33, 64, 1024)],
    *[("post", post(entry, id=7, size=size), [28]) for size in (0, 63, 65, 96, 128, LARGE) for entry in (A, b"")],
    # A take of what is asked for, of both that are queued, of what fits. The rest of the buffer is as it was.
    *[("take", take(0, buffer), *takes(b"", 4, 1, WORD - 1, 3)) for buffer in (0, 31, 32, 64, 1024)],
    *[("take", take(asked, buffer), *takes(b"", 4, 1, WORD - 1, 3)) for asked in (1, 2, WORD - 1) for buffer in (0, 1, 16, 31)],
    *[("take", take(1, buffer), *takes(lent(3), 4, 1, 0, 0)) for buffer in (32, 33, 63, 64, 65, 100, 1024)],
    *[("take", take(asked, buffer), *takes(lent(3), 4, 1, 0, 0)) for asked in (2, 3, WORD - 1) for buffer in (32, 33, 63)],
    *[("take", take(asked, buffer), *takes(lent(3, 0), 4, 1, 1, 1))
      for asked in (2, 3, 10, 255, 256, 257, 65536, 65537, 2**31, 2**31 + 1, WORD - 1) for buffer in (64, 65, 95, 96, 100, 1024)],
    ("take", take(2, bytes(range(70))), *takes(lent(3, 0), 4, 1, 1, 1)),
    *[("take", take(1, 32, size=size), [28]) for size in SIZES if size != 128],
    *[("take", take(1, 32, id=id, size=size), [2]) for id in (0, 1, 9, 5 + 256, 65535) for size in (0, 63, 64, 128, 32800)],
    *[("take", take(asked, buffer, id=6, size=size), [29]) for size in (64, 96, 128, LARGE) for asked, buffer in ((0, 0), (1, 32))],
    *[("take", take(1, 32, id=6, size=size), [28]) for size in (0, 32, 63, 65, 127, 32767, 32800)],
    # 7's: from its second place on, and behind it the closing one in the first.
    ("take", take(1, 64, id=7, size=64), *takes(lent(1), 2, 2, 1, 0, 1)),
    ("take", take(2, 63, id=7, size=64), *takes(lent(1), 2, 2, 1, 0, 1)),
    ("take", take(2, 64, id=7, size=64), *takes(lent(1, 0), 2, 2, 2, 1, 1, closing=1)),
    ("take", take(9, 100, id=7, size=64), *takes(lent(1, 0), 2, 2, 2, 1, 1, closing=1)),
    ("take", take(0, 64, id=7, size=64), *takes(b"", 2, 2, 0, 1, 1)),
    ("take", take(2, 31, id=7, size=64), *takes(b"", 2, 2, 0, 1, 1)),
    # Marks are as they were, and so is what is not shown of the area; past its end there is nothing to show.
    ("make", dict(mark=MIXED, **make(64)), *makes(2)),
    ("post", dict(mark=MIXED, **post(A)), *stores(1, A, 4, 2, WORD - 1, 3)),
    ("take", dict(mark=MIXED, **take(2, 64)), *takes(lent(3, 0), 4, 1, 1, 1)),
    *[("post", post(A, shown=shown), *stores(1, A, 4, 2, WORD - 1, 3)) for shown in (1, 31, 32, 33, 63, 64, 127, 128, 129, 4200, 65535)],
    *[("make", make(LARGE, shown=shown), *makes(1024)) for shown in (0, 1, 4200, 28567, 28568, 28569, 32767, 32768, 65535)],
    # What only other calls take is not looked at, nor by others what only these take.
    *[(call, dict(address=2, bytes=ALL_ONES, type=255, records=1025, indicator=4, low=2, high=1, count=WORD - 1, **fields), *after)
      for call, fields, *after in (
          ("make", make(64), *makes(2)),
          ("post", post(A), *stores(1, A, 4, 2, WORD - 1, 3)),
          ("take", take(2, 64), *takes(lent(3, 0), 4, 1, 1, 1)))],
    *[("make", dict(make(64), asked=asked), *makes(2)) for asked in (1, WORD - 1)],
    *[("post", dict(post(A), asked=asked), *stores(1, A, 4, 2, WORD - 1, 3)) for asked in (1, WORD - 1)],
    ("part", dict(asked=1, shown=100, **part(ONLY, 0, bytes(48))), *yields(48)),
    *[("stop", dict(id=5, asked=WORD - 1, shown=shown), [0]) for shown in (1, 65535)],
    ("batch", dict(asked=1, shown=1, **batch((5, 69632, 1))), noted(1, 1), {0: 2}),
]

# Worked numbers: sound records with such a queue of 5, and calls on them.
WORKED_QUEUES = [
    # 64 bytes: one entry, then the closing one, then 30 until it is made anew.
    ((2,), [("post", post(A, size=64), *stores(0, A, 2, 1))]),
    ((2, 1), [("post", post(B, size=64, front=A), *closes(1, 2, 2, 0, 0, 1))]),
    ((2, 2, 0, 0, 1), [
        ("post", post(C, size=64), [30]),
        ("post", post(C[:31], size=64), [8]),
        ("take", take(10, 100, size=64, front=A + CLOSING), *takes(A + CLOSING, 2, 2, 2, 0, 1, closing=1)),
        ("make", make(64), *makes(2)),
    ]),
    ((2, 2, 2, 0, 1), [
        ("take", take(10, 100, size=64), *takes(b"", 2, 2, 2, 0, 1)),
        ("post", post(C, size=64), [30]),
        ("make", make(64), *makes(2)),
    ]),
    # 96 bytes: a posted entry of FFh is not the closing one.
    ((3,), [("post", post(CLOSING, size=96), *stores(0, CLOSING, 3, 1)), ("post", post(A, size=64), [28])]),
    ((3, 1), [("take", take(1, 32, size=96, front=CLOSING), *takes(CLOSING, 3, 1, 1, 1))]),
    ((3, 2), [("take", take(2, 64, size=96, front=CLOSING * 2), *takes(CLOSING * 2, 3, 2, 2, 2))]),
    # 128 bytes: three are stored, and the fourth post closes.
    ((4, 2), [("post", post(C), *stores(2, C, 4, 3))]),
    ((4, 3), [("post", post(A), *closes(3, 4, 4, 0, 0, 1))]),
    ((4, 4, 0, 0, 1), [
        ("take", take(3, 128), *takes(lent(0, 1, 2), 4, 4, 3, 3, 1)),
        ("take", take(4, 128), *takes(lent(0, 1, 2, 3), 4, 4, 4, 0, 1, closing=1)),
        ("take", take(4, 127), *takes(lent(0, 1, 2), 4, 4, 3, 3, 1)),
    ]),
    ((4, 4, 3, 3, 1), [
        ("take", take(1, 32), *takes(lent(3), 4, 4, 4, 0, 1, closing=1)),
        ("take", take(0, 32), *takes(b"", 4, 4, 3, 3, 1)),
    ]),
    # The totals lie on both sides of 2^32: a fill of 3.
    ((4, 2, WORD - 1, 1), [
        ("post", post(A), *closes(0, 4, 3, WORD - 1, 1, 1)),
        ("take", take(2, 64), *takes(lent(1, 2), 4, 2, 1, 3)),
        ("take", take(9, 100), *takes(lent(1, 2, 3), 4, 2, 2, 0)),
    ]),
    # Three places, and 2^32 is no multiple of 3: the place is kept, and not reckoned from the totals.
    ((3, WORD - 1, WORD - 1), [
        ("post", post(A, size=96), *stores(0, A, 3, 0, WORD - 1)),
        ("take", take(1, 32, size=96), *takes(b"", 3, WORD - 1, WORD - 1)),
    ]),
    ((3, 0, WORD - 1), [
        ("take", take(1, 32, size=96, front=A), *takes(A, 3, 0, 0, 1)),
        ("post", post(B, size=96, front=A), *stores(1, B, 3, 1, WORD - 1)),
    ]),
    ((3, 0, 0, 1), [("post", post(B, size=96), *stores(1, B, 3, 1, 0, 1))]),
    ((3, 0, 0, 2), [("post", post(B, size=96), *stores(2, B, 3, 1, 0, 2))]),
    ((3, 1, 0, 2), [("post", post(B, size=96), *stores(0, B, 3, 2, 0, 2))]),
    ((3, 2, 0, 2), [("post", post(B, size=96), *closes(1, 3, 3, 0, 2, 1)), ("take", take(2, 64, size=96), *takes(lent(2, 0), 3, 2, 2, 1))]),
    # Posts that pass 2^32.
    ((5, WORD - 1, WORD - 3, 4), [
        ("post", post(A, size=160), *stores(1, A, 5, 0, WORD - 3, 4)),
        ("take", take(9, 160, size=160), *takes(lent(4, 0), 5, WORD - 1, WORD - 1, 1)),
    ]),
    ((5, WORD - 1, WORD - 5, 3), [("post", post(A, size=160), *closes(2, 5, 0, WORD - 5, 3, 1))]),
    ((2, WORD - 1, WORD - 2, 1), [("post", post(A, size=64), *closes(0, 2, 0, WORD - 2, 1, 1))]),
    ((2, WORD - 1, WORD - 1, 1), [("post", post(A, size=64), *stores(1, A, 2, 0, WORD - 1, 1))]),
    # Takes that pass it, or come up to it.
    ((5, 1, WORD - 3, 4), [
        ("take", take(1, 160, size=160), *takes(lent(4), 5, 1, WORD - 2, 0)),
        ("take", take(2, 160, size=160), *takes(lent(4, 0), 5, 1, WORD - 1, 1)),
        ("take", take(3, 160, size=160), *takes(lent(4, 0, 1), 5, 1, 0, 2)),
        ("take", take(4, 160, size=160), *takes(lent(4, 0, 1, 2), 5, 1, 1, 3)),
        ("take", take(5, 160, size=160), *takes(lent(4, 0, 1, 2), 5, 1, 1, 3)),
        ("post", post(A, size=160), *closes(3, 5, 2, WORD - 3, 4, 1)),
    ]),
    ((6, 2, WORD - 4, 5, 1), [
        ("take", take(5, 192, size=192), *takes(lent(5, 0, 1, 2, 3), 6, 2, 1, 4, 1)),
        ("take", take(6, 192, size=192), *takes(lent(5, 0, 1, 2, 3, 4), 6, 2, 2, 5, 1, closing=1)),
        ("post", post(A, size=192), [30]),
    ]),
    ((6, 2, 1, 4, 1), [("take", take(6, 192, size=192), *takes(lent(4), 6, 2, 2, 5, 1, closing=1))]),
    ((7, WORD - 1, WORD - 7, 6), [("post", post(A, size=224), *closes(5, 7, 0, WORD - 7, 6, 1))]),
    ((8, WORD - 1, WORD - 7, 6), [("post", post(A, size=256), *stores(4, A, 8, 0, WORD - 7, 6))]),
    # Stopped with less than all, or nothing, queued: the newest queued one is the closing one.
    ((4, 2, 0, 3, 1), [
        ("take", take(1, 32), *takes(lent(3), 4, 2, 1, 0, 1)),
        ("take", take(2, 64), *takes(lent(3, 0), 4, 2, 2, 1, 1, closing=1)),
        ("post", post(A), [30]),
    ]),
    ((4, 0, 0, 2, 1), [("take", take(9, 64), *takes(b"", 4, 0, 0, 2, 1)), ("post", post(A), [30]), ("make", make(128), *makes(4))]),
    # Sizes that no area has: posts and takes meet 28 whatever they lend, and a make is done. 32 times 2,050 is 64 in 16 bits.
    *[(kept, [
        *[("post", post(A, size=size), [28]) for size in (0, 32, 64, 96, 128, LARGE, 32800)],
        *[("take", take(1, 32, size=size), [28]) for size in (0, 32, 64, 96, 128, LARGE, 32800)],
        ("make", make(64), *makes(2)),
        ("make", make(63), [28]),
    ]) for kept in ((1,), (1, 1, 0, 0, 1), (1, 5, 5, 0, 1), (1025,), (1025, 1025, 0, 1024, 1), (2050,), (2051, 3, 0, 2050),
                    (65535, 65535, 0, 65534, 1))],
    # As many places as may be. The window of the answer is put about the place.
    ((1024, 0, WORD - 1023, 1), [
        ("post", post(A, size=LARGE), *closes(0, 1024, 1, WORD - 1023, 1, 1)),
        ("take", take(1024, 1024, size=LARGE), *takes(lent(*range(1, 33)), 1024, 0, WORD - 991, 33)),
    ]),
    ((1024, WORD - 1, WORD - 1, 1023), [
        ("post", post(A, size=LARGE, shown=shown), *stores(1023, A, 1024, 0, WORD - 1, 1023)) for shown in (0, 28568, 32736)]),
    ((1024, 20, 0, 1010), [
        ("take", take(20, 1024, size=LARGE), *takes(lent(*range(1010, 1024), *range(6)), 1024, 20, 20, 6)),
        ("take", take(14, 1024, size=LARGE), *takes(lent(*range(1010, 1024)), 1024, 20, 14, 0)),
        ("post", post(A, size=LARGE), *stores(6, A, 1024, 21, 0, 1010)),
    ]),
    ((1024, 1024, 0, 700, 1), [
        ("take", take(WORD - 1, 1000, size=LARGE), *takes(lent(*range(700, 731)), 1024, 1024, 31, 731, 1))]),
    ((1024, 1024, 1000, 676, 1), [
        ("take", take(WORD - 1, 1000, size=LARGE), *takes(lent(*range(676, 700)), 1024, 1024, 1024, 700, 1, closing=1))]),
    # A post into the midst of 1,024 places, and every byte of the area.
    ((1024, 100, 0, 500), [
        ("post", post(A, size=LARGE, shown=shown), *stores(600, A, 1024, 101, 0, 500)) for shown in range(0, LARGE, 4200)]),
    ((1000, WORD - 1, WORD - 1, 999), [("post", post(A, size=32000, shown=30000), *stores(999, A, 1000, 0, WORD - 1, 999))]),
]

# Eight controllers with a queue each, of 2 to 9 places, with one place filled, the last. Calls change the called one's.
EIGHT_QUEUES = both(identifiers(*EIGHT), *[queue(place + 2, place + 1, place, place + 1, place=place) for place in range(8)])
CALLS_TO_EIGHT = [
    one for place, id in enumerate(EIGHT) for one in (
        ("make", make(64, id=id), *makes(2)),
        ("post", post(A, id=id, size=64 + 32 * place),
         *(stores(0, A, place + 2, place + 2, place, place + 1) if place else closes(0, 2, 2, 0, 1, 1))),
        ("take", take(2, 64, id=id, size=64 + 32 * place), *takes(lent(place + 1), place + 2, place + 1, place + 1, 0)),
        ("post", post(A, id=id, size=96 + 32 * place), [28]),
    )
]

# Sound records, by their change to the base, and calls on them: the call, its fields, the first numbers of the answer
# (the row is 0 unless said); of some also mark words after the call, by their number, the report's runs, the sequence that
# is left, and the first controllers' bases. Marks are 0 unless said. Controller 5's bits 0 to 3 are pages 16 to 19, its
# bits 4 and 5 pages 0 and 1. What start and stop leave, all words of it and all bases, is known by `left` in record_case.py;
# some stands here too.
ONE = structure(0, [(65536, 1)])
SEVENTEEN = sixteen() + [(2**30, 1)]
# 5 at 200 with 4 units, 7 at 4 with 2 and 9 at 100 with 3; 6, 8, 10 and 11 are off.
OFF_ANYWHERE = shares((4, 200), (0, 60000), (2, 4), (0, 65535), (3, 100), (0, 16384), (0, 0))
ORDERS = [
    ("rows", both(), [
        *[("start", dict(id=6, data=data, mark=MIXED), known) for data, known in ROWS],
        # 2, 4 and 3 come before the structure is read.
        *[("start", dict(id=id, data=structure(0, rows)), [number]) for id, number in ((1, 2), (9, 2), (7, 4), (5, 3))
          for rows in ([], [LENGTH_0], [(0, 1), UNALIGNED], [(0, 1), PAST_THE_END], listed(17, {}))],
    ]),
    ("base", both(), [
        ("start", dict(id=1, data=b""), [2]),
        ("start", dict(id=0, data=ONE), [2]),
        ("start", dict(id=9, data=ONE), [2]),
        ("start", dict(id=5 + 256, data=ONE), [2]),
        ("start", dict(id=7, data=b""), [4]),
        ("start", dict(id=5, data=b""), [3]),
        *[("start", dict(id=6, data=structure(9, [], version=1)[:size]), [8]) for size in range(8)],
        ("start", dict(id=6, data=structure(9, [], version=1, count=1)), [6]),
        ("start", dict(id=6, data=structure(0, [(65536, 1)], version=255)), [6]),
        ("start", dict(id=6, data=structure(9, [], count=1)), [7]),
        ("start", dict(id=6, data=structure(255, [(0, 1)])), [7]),
        ("start", dict(id=6, data=structure(8, [(0, 1)])), [0]),
        ("start", dict(id=6, data=structure(0, [(1, 0)])[:19]), [8]),
        ("start", dict(id=6, data=structure(0, sixteen())[:199]), [8]),
        ("start", dict(id=6, data=structure(0, SEVENTEEN)[:211]), [8]),
        ("start", dict(id=6, data=structure(0, [], count=2**32 - 1).ljust(1024, b"\1")), [8]),
        ("start", dict(id=6, data=structure(0, [], count=85).ljust(1024, b"\1")), [8]),
        ("start", dict(id=6, data=structure(0, [(65536, 1)], count=257)), [8]),
        ("start", dict(id=6, data=structure(0, [(65536, 1)], count=2**31 + 1)), [8]),
        # 12 times this count is 12 in 32 bits, so a length reckoned there would do.
        ("start", dict(id=6, data=structure(0, [(65536, 1)], count=2**30 + 1)), [8]),
        ("start", dict(id=6, data=structure(0, [], count=84).ljust(1024, b"\1")), [18, 0]),
        ("start", dict(id=6, data=structure(0, SEVENTEEN)), [18, 0]),
        ("start", dict(id=6, data=structure(0, [])), [18, 0]),
        ("start", dict(id=6, data=structure(0, [(65536, 1)], count=0)), [18, 0]),
        ("start", dict(id=6, data=structure(0, [(65536, 0)])), [19, 0]),
        ("start", dict(id=6, data=structure(0, [(65537, 1)])), [20, 0]),
        ("start", dict(id=6, data=structure(8, [(1052672, 1)])), [20, 0]),
        ("start", dict(id=6, data=structure(0, [(MEMORY - 4096, 2)])), [21, 0]),
        ("start", dict(id=6, data=structure(0, [(MEMORY - 4096, 1)])), [0]),
        ("start", dict(id=6, data=structure(0, [(65536, 4), (81920, 1)])), [0]),
        ("start", dict(id=6, data=structure(0, [(65536, 4), (77824, 2)])), [0]),
        ("start", dict(id=6, data=structure(0, [(65536, 4), (65536, 4)])), [0]),
        ("start", dict(id=6, data=structure(0, [(65536, 4), (65536, 0)])), [19, 1]),
        ("start", dict(id=6, data=structure(0, [(65536, 4), (65537, 1)])), [20, 1]),
        # 9 units are tracked, so 16,375 are left: 4, and 16,372 or 16,373 that share one with them.
        ("start", dict(id=6, data=structure(0, [(65536, 4), (77824, 16372)])), [0]),
        ("start", dict(id=6, data=structure(0, [(65536, 4), (77824, 16373)])), [11]),
        ("start", dict(id=6, data=structure(0, [(0, 16375), (0, 16375)])), [0]),
        ("start", dict(id=6, data=structure(0, [(0, 16375), (4096, 16375)])), [11]),
        ("start", dict(id=6, data=structure(0, [(0, 2**32 - 1)] * 16)), [11]),
        ("start", dict(id=6, data=structure(0, [(0, 16375)] * 13)), [0]),
        ("start", dict(id=6, data=structure(0, [(0, 16375)] * 14)), [12]),
        ("start", dict(id=6, data=structure(0, [(0, 16375)] * 13 + [(2**26, 1)])), [11]),
        ("start", dict(id=6, data=structure(0, [(65536, 3)])), [0]),
        *[("start", dict(id=6, data=structure(0, [(0, length)])), [11]) for length in (16376, 16384, 16385, 65536, 2**32 - 1)],
        *[("start", dict(id=6, data=structure(0, [(0, length)]), mark=MIXED), [0]) for length in (4096, 4097, 8193, 16374, 16375)],
        ("start", dict(id=6, data=structure(8, [(0, 16376)])), [11]),
        ("start", dict(id=6, data=structure(8, [(0, 16375)])), [0]),
        ("start", dict(id=6, data=structure(0, sixteen()[:13])), [0]),
        ("start", dict(id=6, data=structure(0, sixteen()[:14])), [12]),
        ("start", dict(id=6, data=structure(0, sixteen())), [12]),
        ("start", dict(id=6, data=structure(0, sixteen(0, 1024))), [11]),
        ("start", dict(id=6, data=structure(0, sixteen(0, 1023))), [12]),
        ("start", dict(id=6, data=structure(0, [(65536, 1)], reserved=65535) + b"\xff" * 100), [0]),
        ("start", dict(id=6, data=ONE, mark=ALL_ONES), [0]),
        ("stop", dict(id=1), [2]),
        ("stop", dict(id=0), [2]),
        ("stop", dict(id=9), [2]),
        ("stop", dict(id=7), [4]),
        ("stop", dict(id=6), [5]),
        ("stop", dict(id=5, mark=ALL_ONES), [0]),
        ("write", dict(id=1, address=0, bytes=1), [2]),
        ("write", dict(id=9, address=2, bytes=ALL_ONES), [2]),
        ("write", dict(id=7, address=2, bytes=ALL_ONES), [4]),
        ("write", dict(id=5, address=2, bytes=ALL_ONES), [14]),
        ("write", dict(id=5, address=ALL_ONES, bytes=2), [14]),
        ("write", dict(id=5, address=ALL_ONES, bytes=ALL_ONES), [14]),
        ("write", dict(id=6, address=ALL_ONES, bytes=2), [14]),
        ("write", dict(id=6, address=0, bytes=ALL_ONES), [0, 0, 0]),
        ("write", dict(id=5, address=ALL_ONES, bytes=0), [0, 0, 0]),
        ("write", dict(id=5, address=ALL_ONES, bytes=1), [0, 0, 0]),
        ("write", dict(id=5, address=65536, bytes=0), [0, 0, 0]),
        ("write", dict(id=5, address=69632, bytes=1), [0, 0, 1]),
        ("write", dict(id=5, address=73727, bytes=2), [0, 0, 2]),
        ("write", dict(id=5, address=65535, bytes=1), [0, 0, 0]),
        ("write", dict(id=5, address=65535, bytes=2), [0, 0, 1]),
        ("write", dict(id=5, address=81919, bytes=1), [0, 0, 1]),
        ("write", dict(id=5, address=81920, bytes=1), [0, 0, 0]),
        ("write", dict(id=5, address=1, bytes=ALL_ONES), [0, 0, 6]),
        ("write", dict(id=5, address=4096, bytes=ALL_ONES - 4095), [0, 0, 5]),
        ("write", dict(id=5, address=0, bytes=ALL_ONES, mark=ALL_ONES), [0, 0, 0]),
        ("write", dict(id=5, address=0, bytes=ALL_ONES, mark=0b010101), [0, 0, 3]),
        ("write", dict(id=5, address=0, bytes=ALL_ONES, mark=ALL_ONES - 63), [0, 0, 6]),
        ("receive", dict(id=1, data=b"\xaa" * 64), [2]),
        ("receive", dict(id=9, data=b""), [2]),
        ("receive", dict(id=6, data=b""), [5]),
        *[("receive", dict(id=5, data=b"\xaa" * size), [8]) for size in (0, 1, 15, 16, 31)],
        ("receive", dict(id=5, data=b"\xaa" * 32), [0, 0, 0, 0, 0, 0, 0]),
        ("receive", dict(id=5, data=b"\xaa" * 32, mark=ALL_ONES - 63), [0, 0, 0, 0, 0, 0, 0]),
        ("receive", dict(id=5, data=b"\xaa" * 32, mark=ALL_ONES), [0, 0, 0, 0, 1, 0, 1]),
        ("receive", dict(id=5, data=b"\xaa" * 48, mark=ALL_ONES), [0, 0, 0, 0, 0, 0, 2]),
        ("receive", dict(id=5, data=b"\xaa" * 47, mark=0b010101), [0, 0, 0, 0, 1, 0, 1]),
        ("receive", dict(id=5, data=b"\xaa" * 63, mark=0b010101), [0, 0, 0, 0, 1, 0, 2]),
        ("receive", dict(id=5, data=b"\xaa" * 64, mark=0b010101), [0, 0, 0, 0, 0, 0, 3]),
        ("receive", dict(id=5, data=b"\xaa" * 1024, mark=0b010101), [0, 0, 0, 0, 0, 0, 3]),
        ("receive", dict(id=7, data=b"\xaa" * 32, mark=0b101), [0, 0, 0, 1, 1, 8, 1]),
        ("receive", dict(id=7, data=b"\xaa" * 48, mark=0b101), [0, 0, 0, 1, 0, 8, 2]),
        ("receive", dict(id=7, data=b"\xaa" * 48, mark=ALL_ONES - 7), [0, 0, 0, 1, 0, 8, 0]),
        ("suspend", dict(id=1, type=2), [2]),
        ("suspend", dict(id=9, type=1), [2]),
        *[("suspend", dict(id=id, type=type), [0]) for id in (5, 6, 7) for type in (0, 1)],
        *[("suspend", dict(id=id, type=type), [15]) for id in (5, 6, 7) for type in (2, 255)],
        ("resume", dict(id=1), [2]),
        ("resume", dict(id=9), [2]),
        ("resume", dict(id=5), [13]),
        ("resume", dict(id=6), [13]),
        ("resume", dict(id=7), [0]),
        # "An empty list is done with 0", also with rows that no record has. Records without rows are of controller 0.
        ("batch", batch(), noted(0, 0)),
        ("batch", dict(mark=MIXED, **batch()), noted(0, 0)),
        ("batch", batch((5, 65536, 1), records=0), noted(0, 0)),
        *[("batch", batch(records=records), noted(0, 0, 2)) for records in (1, 1024)],
        ("batch", batch(records=1025), [22]),
        # The edges of a write, as notes.
        ("batch", batch((5, 65536, 0), (5, ALL_ONES, 0), (5, ALL_ONES, 1), (5, 65535, 1), (5, 81920, 1)), noted(5, 0)),
        ("batch", batch((6, 0, ALL_ONES), (6, 1, ALL_ONES)), noted(2, 0)),
        ("batch", batch((6, 0, ALL_ONES), (6, 2, ALL_ONES)), noted(1, 0, 14)),
        ("batch", batch((5, 73727, 2), (5, 65535, 2), (5, 1, ALL_ONES)), noted(3, 6), {0: 0b111111}),
        ("batch", batch((5, 4096, ALL_ONES - 4095), (5, 0, 1)), noted(2, 6), {0: 0b111111}),
        # As many records as may be, and one more or less.
        *[("batch", batch((5, 65536, 1), records=records), noted(records, 1), {0: 1}) for records in (1023, 1024)],
        ("batch", batch((5, 65536, 1), records=1025), [22]),
    ]),
    ("worked batches", WORKED, [
        ("batch", batch((5, 69632, 1), (5, 73727, 2), (6, 0, 5), (7, 0, 1), (5, 65536, 1)), noted(3, 2, 2), {0: 0b0110}),
        ("batch", batch((7, 0, 1)), noted(0, 0, 2)),
        ("batch", batch(), noted(0, 0)),
        ("batch", batch((5, 65536, 1), (5, 65536, 1)), noted(2, 1), {0: 1}),
        ("batch", batch((5, 65536, 1), records=1024), noted(1024, 1), {0: 1}),
        ("batch", batch((5, ALL_ONES, 1), (5, ALL_ONES, 2)), noted(1, 0, 14)),
        ("batch", batch((7, 0, 0), records=1024), noted(0, 0, 2)),
        ("batch", batch((7, 0, 0), records=1025), [22]),
    ]),
    ("worked batches, 5 suspended", both(WORKED, suspended(1)), [
        ("batch", batch((6, 0, 1), (5, 65536, 1), (6, 0, 1)), noted(1, 0, 4)),
    ]),
    ("batches", FOUR, BATCHES),
    ("0 among the identifiers", both(identifiers(*EIGHT), tracked(0, (0, 1), place=3)), [
        *[("batch", batch(records=records), noted(records, 0)) for records in (1, 1024)],
        ("batch", batch(records=1025), [22]),
        ("batch", batch((0, 0, 1), records=2), noted(2, 1), {192: 1}),
    ]),
    ("rule on", both(settings(rule=1), in_place(2, 0, 1048576, 4)), [
        ("start", dict(id=6, data=structure(0, [(65536, 3)])), [10]),
        ("start", dict(id=6, data=structure(0, [(65536, 4)])), [0]),
        ("start", dict(id=6, data=structure(0, [(65536, 3), (65537, 3)])), [20, 1]),
        *[("start", dict(id=6, data=structure(0, [(65536, 3), one])), [number, 1]) for number, one in BAD.items()],
        *[("start", dict(id=6, data=structure(0, [one, (65536, 3)])), [number, 0]) for number, one in BAD.items()],
        ("start", dict(id=6, data=structure(0, sixteen(0, 3)[:15] + [(MEMORY - 4096, 3)])), [21, 15]),
        ("start", dict(id=6, data=structure(0, [])), [18, 0]),
        ("start", dict(id=6, data=structure(0, [(65536, 3)] * 17)), [18, 0]),
        ("start", dict(id=6, data=structure(0, [(65536, 4), (65536, 3)])), [10]),
        ("start", dict(id=6, data=structure(0, [(65536, 1), (65536, 4)])), [0]),
        ("start", dict(id=6, data=structure(0, [(0, 16385)])), [10]),
        ("start", dict(id=6, data=structure(0, [(0, 16384)])), [11]),
        ("start", dict(id=6, data=structure(0, [(0, 8192), (2**26, 8192)])), [11]),
        ("start", dict(id=6, data=structure(0, [(0, 8192), (2**26, 4096)])), [0]),
        ("start", dict(id=6, data=structure(0, sixteen(0, 3))), [10]),
    ]),
    ("6 suspended", suspended(0, 1), [
        ("start", dict(id=6, data=b""), [4]),
        ("stop", dict(id=6), [4]),
        ("write", dict(id=6, address=0, bytes=1), [4]),
        ("receive", dict(id=6, data=b"\xaa" * 64), [5]),
        ("resume", dict(id=6), [0]),
        ("batch", batch((5, 65536, 1), (6, 0, 1), (5, 69632, 1)), noted(1, 1, 4), {0: 1}),
        ("part", part(ONLY, 0, bytes(48), id=6), *yields(48)),
    ]),
    ("parts", both(), PARTS),
    ("parts, 7's sequence open at 16", opened(7, 16), OPEN_AT_16),
    ("parts, 5's sequence open at 16", both(suspended(1, 0, 1), opened(5, 16)), ANOTHERS),
    ("parts, 7's sequence open at 4,092", opened(7, 4092), AT_4092),
    ("parts, 7's sequence open at 4,096", opened(7, 4096), AT_4096),
    ("queues", both(), QUEUES),
    ("queues, 7's sequence open at 16", opened(7, 16), [
        ("make", make(64, id=7), *makes(2)),
        ("post", post(A), *stores(1, A, 4, 2, WORD - 1, 3)),
        ("take", take(2, 64, id=7, size=64), *takes(lent(1, 0), 2, 2, 2, 1, 1, closing=1)),
    ]),
    *[(f"{Kept(*kept)}", queue(*kept), calls) for kept, calls in WORKED_QUEUES],
    # Tracked or not, running or suspended.
    *[(f"{Kept(4, 2)} of a controller that is {said}", both(change_it, queue(4, 2)), [
        ("make", make(64), *makes(2)), ("post", post(A), *stores(2, A, 4, 3)), ("take", take(2, 64), *takes(lent(0, 1), 4, 2, 2, 2))])
      for said, change_it in (("off", off(0)), ("suspended", suspended(1)), ("off and suspended", both(off(0), suspended(1))))],
    ("queues of eight", EIGHT_QUEUES, CALLS_TO_EIGHT),
    ("4,096 units", tracked(0, (0, 4096)), [
        ("write", dict(id=5, address=0, bytes=ALL_ONES), [0, 0, 4096]),
        ("receive", dict(id=5, data=b"\xaa" * 32, mark=ALL_ONES), [0, 0, 0, 0, 0, 0, 1]),
        # As many rows as a case can have, a page each; then a bad one in the place of another.
        ("batch", batch(*PAGES), noted(56, 56), {0: 2**56 - 1}),
        ("batch", batch(*PAGES, records=1024), noted(1024, 56), {0: 2**56 - 1}),
        *[("batch", batch(*PAGES[:place], bad, *PAGES[place + 1:]), noted(place, place, number), {0: 2**place - 1})
          for place in (1, 27, 54, 55) for number, bad in A_BAD_NOTE.items()],
        ("batch", batch((5, 0, 2**23), (5, 0, ALL_ONES)), noted(2, 4096), EVERY_MARK),
    ]),
    # 64 marks at a time (W5): marks past a controller's units decide nothing, and a run crosses words.
    ("4 units", tracked(0, (65536, 4)), [
        ("receive", dict(id=5, data=b"\xaa" * 32, mark=ALL_ONES - 15), [0, 0, 0, 0, 0, 0, 0], {0: ALL_ONES - 15}),
        ("receive", dict(id=5, data=b"\xaa" * 32, mark=ALL_ONES - 7), [0, 0, 0, 0, 0, 0, 1], {0: ALL_ONES - 15}, [(77824, 1)]),
    ]),
    ("200 units", tracked(0, (0, 200)), [
        # Set are bits 63, 64, 129 and 194; then 62, 127, 128 and 193; then 62 to 64, 127 to 129, 193 and 194.
        ("receive", dict(id=5, data=b"\xaa" * 64, mark=2**63), [0, 0, 0, 0, 0, 0, 3], {0: 0, 1: 0, 2: 0, 3: 0, 4: 2**3},
         [(4096 * 63, 2), (4096 * 129, 1), (4096 * 194, 1)]),
        ("receive", dict(id=5, data=b"\xaa" * 48, mark=2**62), [0, 0, 0, 0, 1, 0, 2], {0: 0, 1: 0, 2: 0, 3: 2, 4: 2**2},
         [(4096 * 62, 1), (4096 * 127, 2)]),
        ("receive", dict(id=5, data=b"\xaa" * 48, mark=3 << 62), [0, 0, 0, 0, 1, 0, 2], {0: 0, 1: 0, 2: 0, 3: 6, 4: 12},
         [(4096 * 62, 3), (4096 * 127, 3)]),
        # Clear are bits 0, 65, 130 and 195.
        ("receive", dict(id=5, data=b"\xaa" * 80, mark=ALL_ONES - 1), [0, 0, 0, 0, 0, 0, 4],
         {0: 0, 1: 0, 2: 0, 3: ALL_ONES - 255, 4: ALL_ONES - 16}, [(4096, 64), (4096 * 66, 64), (4096 * 131, 64), (4096 * 196, 4)]),
        # Set are bits 0, 63 to 65, 129 and 130, 194 and 195.
        ("receive", dict(id=5, data=b"\xaa" * 64, mark=2**63 + 1), [0, 0, 0, 0, 1, 0, 3], {0: 0, 1: 0, 2: 0, 3: 12, 4: 24},
         [(0, 1), (4096 * 63, 3), (4096 * 129, 2)]),
    ]),
    ("to 2^64", tracked(0, (MEMORY - 2**24, 4096)), [
        ("write", dict(id=5, address=ALL_ONES, bytes=1), [0, 0, 1]),
        ("write", dict(id=5, address=1, bytes=ALL_ONES), [0, 0, 4096]),
        ("receive", dict(id=5, data=b"\xaa" * 32, mark=ALL_ONES), [0, 0, 0, 0, 0, 0, 1]),
        ("batch", batch((5, ALL_ONES, 1), (5, ALL_ONES, 2)), noted(1, 1, 14), {63: 2**63}),
        ("batch", batch((5, ALL_ONES, 1), (5, 1, ALL_ONES), (5, 2, ALL_ONES)), noted(2, 4096, 14), EVERY_MARK),
    ]),
    # Page 17, then pages 15 to 18, then page 16, then pages 14 to 19. So bit 0 is page 17, bits 1 to 3 are pages 15, 16
    # and 18, the third range has none, and bits 4 and 5 are pages 14 and 19.
    ("overlap", tracked(0, (69632, 1), (61440, 4), (65536, 1), (57344, 6)), [
        *[("write", dict(id=5, address=4096 * page + 4095, bytes=1), [0, 0, int(bit != 0)], {0: bit, 1: 0}) for page, bit in (
            (13, 0), (14, 1 << 4), (15, 1 << 1), (16, 1 << 2), (17, 1 << 0), (18, 1 << 3), (19, 1 << 5), (20, 0))],
        ("write", dict(id=5, address=65535, bytes=2), [0, 0, 2], {0: 0b000110}),
        ("write", dict(id=5, address=69631, bytes=2), [0, 0, 2], {0: 0b000101}),
        ("write", dict(id=5, address=73727, bytes=2), [0, 0, 2], {0: 0b001001}),
        ("write", dict(id=5, address=0, bytes=ALL_ONES), [0, 0, 6], {0: 0b111111, 1: 0}),
        ("write", dict(id=5, address=0, bytes=ALL_ONES, mark=0b000100), [0, 0, 5], {0: 0b111111, 1: 0b001000}),
        ("write", dict(id=5, address=0, bytes=ALL_ONES, mark=ALL_ONES - 63), [0, 0, 6], {0: ALL_ONES, 1: ALL_ONES - 126}),
        ("write", dict(id=5, address=69632, bytes=1, mark=ALL_ONES - 1), [0, 0, 1], {0: ALL_ONES, 1: ALL_ONES - 2}),
        ("receive", dict(id=5, data=b"\xaa" * 32, mark=ALL_ONES), [0, 0, 0, 0, 1, 0, 1],
         {0: ALL_ONES - 1, 1: ALL_ONES}, [(69632, 1)]),
        ("receive", dict(id=5, data=b"\xaa" * 47, mark=0b111110), [0, 0, 0, 0, 1, 0, 1], {0: 0b111000, 1: 0b1111100}, [(61440, 2)]),
        ("receive", dict(id=5, data=b"\xaa" * 64, mark=0b111111), [0, 0, 0, 0, 1, 0, 3], {0: 0b110000},
         [(69632, 1), (61440, 2), (73728, 1)]),
        ("receive", dict(id=5, data=b"\xaa" * 64, mark=0b111010), [0, 0, 0, 0, 1, 0, 3], {0: 0b100000},
         [(61440, 1), (73728, 1), (57344, 1)]),
        ("receive", dict(id=5, data=b"\xaa" * 96, mark=ALL_ONES), [0, 0, 0, 0, 0, 0, 5], {0: ALL_ONES - 63, 1: ALL_ONES},
         [(69632, 1), (61440, 2), (73728, 1), (57344, 1), (77824, 1)]),
        ("receive", dict(id=5, data=b"\xaa" * 48, mark=0b110000), [0, 0, 0, 0, 0, 0, 2],
         {0: 0, 1: 0b1100000}, [(57344, 1), (77824, 1)]),
        ("receive", dict(id=5, data=b"\xaa" * 48, mark=ALL_ONES - 63), [0, 0, 0, 0, 0, 0, 0], {0: ALL_ONES - 63}),
        ("stop", dict(id=5, mark=ALL_ONES), [0], {0: ALL_ONES - 63, 1: ALL_ONES, 128: ALL_ONES}),
        # Page 17, pages 16 and 17, page 14; pages 15 to 18, and all; a byte of each page.
        ("batch", batch((5, 69632, 1), (5, 65536, 8192), (5, 57344, 1)), noted(3, 3), {0: 0b010101}),
        ("batch", batch((5, 61440, 16384), (5, 0, ALL_ONES)), noted(2, 6), {0: 0b111111}),
        ("batch", batch(*[(5, 4096 * page + 4095, 1) for page in range(13, 21)]), noted(8, 6), {0: 0b111111}),
        ("batch", dict(mark=0b000100, **batch((5, 65536, 8192), (5, 69632, 1), (5, 61440, 1))), noted(3, 2), {0: 0b000111}),
        ("batch", dict(mark=ALL_ONES - 63, **batch((5, 69632, 1), (5, 0, ALL_ONES))), noted(2, 6), {0: ALL_ONES}),
        *[("batch", batch((5, 69632, 1), (5, 57344, 8192), bad, (5, 0, ALL_ONES)), noted(2, 3, number), {0: 0b010011})
          for number, bad in A_BAD_NOTE.items()],
        # 5 of the limit's 16 are taken. 6 bits of 5, the one of 6, 3 of 7.
        ("start", dict(id=6, data=structure(0, [(65536, 1)] * 11), mark=ALL_ONES), [0],
         {0: 0b1110111111, 1: 0, 64: 0, 128: 0, 255: 0}),
        ("start", dict(id=6, data=structure(0, [(65536, 1)] * 12)), [12]),
    ]),
    ("sixteen are the same", tracked(0, *[(65536, 2)] * 16, limit=128), [
        ("write", dict(id=5, address=0, bytes=ALL_ONES), [0, 0, 2], {0: 0b11, 1: 0}),
        ("receive", dict(id=5, data=b"\xaa" * 272, mark=ALL_ONES), [0, 0, 0, 0, 0, 0, 1], {0: ALL_ONES - 3}, [(65536, 2)]),
        ("batch", batch((5, 65536, 1), (5, 69632, 1), (5, 65536, 8192), records=1024), noted(1024, 2), {0: 0b11}),
    ]),
    ("4,096 units twice", tracked(0, (0, 4096), (0, 4096)), [
        ("write", dict(id=5, address=0, bytes=ALL_ONES), [0, 0, 4096], {0: ALL_ONES, 63: ALL_ONES, 64: 0}),
        ("receive", dict(id=5, data=b"\xaa" * 32, mark=ALL_ONES), [0, 0, 0, 0, 0, 0, 1], {0: 0, 63: 0, 64: ALL_ONES}, [(0, 4096)]),
        ("batch", batch((5, 0, 2**23), (5, 2**23, 2**23), (5, 0, 2**24)), noted(3, 4096), EVERY_MARK),
    ]),
    # Page 4095 is unit 0, and each other page p is unit p + 1.
    ("page 4095 before 4,096 pages", tracked(0, (16773120, 1), (0, 4096)), [
        ("write", dict(id=5, address=16773120, bytes=1), [0, 0, 1], {0: 1, 63: 0}),
        ("write", dict(id=5, address=0, bytes=1), [0, 0, 1], {0: 2}),
        ("write", dict(id=5, address=4096 * 62, bytes=1), [0, 0, 1], {0: 2**63, 1: 0}),
        ("write", dict(id=5, address=4096 * 63, bytes=1), [0, 0, 1], {0: 0, 1: 1}),
        ("write", dict(id=5, address=4096 * 4094, bytes=8192), [0, 0, 2], {0: 1, 62: 0, 63: 2**63, 64: 0}),
        ("write", dict(id=5, address=0, bytes=ALL_ONES), [0, 0, 4096], {0: ALL_ONES, 63: ALL_ONES, 64: 0}),
        ("receive", dict(id=5, data=b"\xaa" * 32, mark=ALL_ONES), [0, 0, 0, 0, 1, 0, 1],
         {0: ALL_ONES - 1, 1: ALL_ONES}, [(16773120, 1)]),
        ("receive", dict(id=5, data=b"\xaa" * 48, mark=ALL_ONES), [0, 0, 0, 0, 0, 0, 2], {0: 0, 63: 0, 64: ALL_ONES},
         [(16773120, 1), (0, 4095)]),
        ("batch", batch((5, 0, 1), (5, 16773120, 1), (5, 4096 * 63, 1), (5, 4096 * 4094, 8192)), noted(4, 4),
         {0: 0b11, 1: 1, 63: 2**63}),
    ]),
    # Unit 0 is page 100; pages 0 to 99 are units 1 to 100, and pages 101 to 199 units 101 to 199.
    ("page 100 before 200 pages", tracked(0, (409600, 1), (0, 200)), [
        ("write", dict(id=5, address=4096 * 99, bytes=3 * 4096), [0, 0, 3], {0: 1, 1: 0b11 << 36, 2: 0}),
        ("receive", dict(id=5, data=b"\xaa" * 48, mark=ALL_ONES), [0, 0, 0, 0, 1, 0, 2],
         {0: 0, 1: ALL_ONES - (2**37 - 1), 2: ALL_ONES}, [(409600, 1), (0, 100)]),
        ("receive", dict(id=5, data=b"\xaa" * 64, mark=ALL_ONES), [0, 0, 0, 0, 0, 0, 3],
         {0: 0, 1: 0, 2: 0, 3: ALL_ONES - 255, 4: ALL_ONES}, [(409600, 1), (0, 100), (413696, 99)]),
        ("batch", batch((5, 4096 * 99, 3 * 4096), (5, 409600, 1), (5, 0, 4096)), noted(3, 4), {0: 0b11, 1: 0b11 << 36}),
    ]),
    ("last unit before the last two, granularity 20", tracked(20, (MEMORY - 2**32, 1), (MEMORY - 2**33, 2), greatest=20), [
        ("write", dict(id=5, address=ALL_ONES, bytes=1), [0, 0, 1], {0: 1}),
        ("write", dict(id=5, address=MEMORY - 2**33, bytes=1), [0, 0, 1], {0: 2}),
        ("write", dict(id=5, address=1, bytes=ALL_ONES), [0, 0, 2], {0: 3}),
        ("receive", dict(id=5, data=b"\xaa" * 48, mark=ALL_ONES), [0, 0, 0, 0, 0, 20, 2], {0: ALL_ONES - 3},
         [(MEMORY - 2**32, 1), (MEMORY - 2**33, 1)]),
        ("batch", batch((5, MEMORY - 2**33, 1), (5, ALL_ONES, 1), (5, ALL_ONES, 2)), noted(2, 2, 14), {0: 3}),
    ]),
    ("sixteen touch", tracked(0, *sixteen(), limit=128), [
        ("receive", dict(id=5, data=b"\xaa" * 256, mark=ALL_ONES), [0, 0, 0, 0, 1, 0, 15]),
        ("receive", dict(id=5, data=b"\xaa" * 272, mark=ALL_ONES), [0, 0, 0, 0, 0, 0, 16]),
    ]),
    ("full", full(128), [
        ("write", dict(id=4, address=0, bytes=ALL_ONES), [0, 0, 2048]),
        ("receive", dict(id=4, data=b"\xaa" * 1024, mark=ALL_ONES), [0, 0, 0, 0, 0, 20, 16]),
        ("stop", dict(id=4, mark=ALL_ONES), [0], {223: ALL_ONES, 224: 0, 255: 0}),
        ("stop", dict(id=5, mark=ALL_ONES), [0], {0: 0, 31: 0, 32: ALL_ONES}),
        ("resume", dict(id=7), [0]),
        # The last unit of each in turn, up to 7, and then without it; and all units.
        ("batch", batch(*[(id, 2047 * 2**32, 1) for id in EIGHT]), noted(2, 2, 4), {31: 2**63, 63: 2**63}),
        ("batch", batch(*[(id, 2047 * 2**32, 1) for id in EIGHT if id != 7]), noted(7, 7),
         {32 * place + 31: 2**63 for place, id in enumerate(EIGHT) if id != 7}),
        ("batch", batch(*[(id, 0, ALL_ONES) for id in EIGHT if id != 7]), noted(7, 14336),
         {word: ALL_ONES for word in range(256) if EIGHT[word // 32] != 7}),
    ]),
    # A pool's worth of units in one share (W7).
    ("16,384 units", alone((0, 16384)), [
        ("write", dict(id=5, address=0, bytes=ALL_ONES), [0, 0, 16384], {word: ALL_ONES for word in range(256)}),
        ("write", dict(id=5, address=2**26 - 1, bytes=1), [0, 0, 1], {254: 0, 255: 2**63}),
        ("write", dict(id=5, address=2**26, bytes=1, mark=MIXED), [0, 0, 0]),
        ("receive", dict(id=5, data=b"\xaa" * 32, mark=ALL_ONES), [0, 0, 0, 0, 0, 0, 1], {0: 0, 255: 0}, [(0, 16384)]),
        ("receive", dict(id=5, data=b"\xaa" * 32, mark=2**63), [0, 0, 0, 0, 1, 0, 1], {0: 0, 1: 0, 2: 2, 255: 2**62}, [(258048, 2)]),
        ("batch", batch((5, 0, 2**25), (5, 0, ALL_ONES)), noted(2, 16384), {word: ALL_ONES for word in range(256)}),
        ("stop", dict(id=5, mark=ALL_ONES), [0], {word: 0 for word in range(256)}),
        *[("start", dict(id=6, data=structure(granularity, [(0, 1)]), mark=MIXED), [11]) for granularity in (0, 8, 20)],
        ("start", dict(id=6, data=structure(0, [(0, 1)] * 16), mark=MIXED), [11]),
    ]),
    # 11 before 12: the limit is met as well.
    ("16,384 units, limit 1", both(alone((0, 16384)), settings(limit=1)), [
        ("start", dict(id=6, data=structure(0, [(0, 1)])), [11]),
        ("start", dict(id=6, data=structure(0, [(0, 0)])), [19, 0]),
    ]),
    ("16,383 units, limit 1", both(alone((0, 16383)), settings(limit=1)), [
        ("start", dict(id=6, data=structure(0, [(0, 1)])), [12]),
        ("start", dict(id=6, data=structure(0, [(0, 2)])), [11]),
        ("start", dict(id=6, data=structure(0, [(0, 1), (0, 1)])), [12]),
        ("start", dict(id=6, data=structure(0, [(0, 1), (4096, 1)])), [11]),
    ]),
    # Shares anywhere: a call's bits are from its base on, and those outside all shares are neither read nor changed.
    *[(f"5's 4 units at {base}", tracked(0, (65536, 4), base=base), at_base(base)) for base in (1, 59, 60, 61, 63, 64, 100, 8188, 8195, 16380)],
    ("200 units at 8,195", tracked(0, (0, 200), base=8195), [
        ("write", dict(id=5, address=4096 * 60, bytes=4097), [0, 0, 2], {128: 2**63, 129: 1}),
        ("write", dict(id=5, address=0, bytes=ALL_ONES, mark=MIXED), [0, 0, 200 - sum(lent_bits(MIXED, 8195, 200))], {
            127: rotated(MIXED, 63), 128: MIXED | ALL_ONES - 7, 129: ALL_ONES, 130: ALL_ONES, 131: rotated(MIXED, 3) | 0x7FF,
            132: rotated(MIXED, 4)}),
        ("receive", dict(id=5, data=b"\xaa" * 32, mark=ALL_ONES), [0, 0, 0, 0, 0, 0, 1],
         {127: ALL_ONES, 128: 7, 129: 0, 130: 0, 131: ALL_ONES - 0x7FF, 132: ALL_ONES}, [(0, 200)]),
        # Set are bits 63 and 64, 129 and 194 from 8,192 on.
        ("receive", dict(id=5, data=b"\xaa" * 48, mark=2**63), [0, 0, 0, 0, 1, 0, 2],
         {127: 2**62, 128: 0, 129: 0, 130: 0, 131: 4}, [(4096 * 60, 2), (4096 * 126, 1)]),
        ("stop", dict(id=5, mark=ALL_ONES), [0], {127: ALL_ONES, 128: 7, 129: 0, 130: 0, 131: ALL_ONES - 0x7FF, 132: ALL_ONES}),
        ("receive", dict(id=7, data=b"\xaa" * 32, mark=ALL_ONES), [0, 0, 0, 1, 0, 8, 1], {127: ALL_ONES, 128: ALL_ONES - 7}),
    ]),
    # An accepted start packs: 5 from bit 0 on, then 6, then 7, and of the bits outside nothing is left. MOVES has more.
    # All bits of the shares but for the new one's are set, and none behind them.
    ("packing", based(100, None, 64), [
        ("start", dict(id=6, data=ONE, mark=ALL_ONES), [0], {0: 0b1110111111, **{word: 0 for word in range(1, 256)}}),
        ("start", dict(id=6, data=structure(0, [(0, 60)]), mark=ALL_ONES), [0], {0: 0b111111, 1: 0b11100, 2: 0}),
        # Refused, it moves nothing.
        ("start", dict(id=6, data=structure(0, [(0, 16376)]), mark=ALL_ONES), [11]),
        ("start", dict(id=6, data=structure(0, [(0, 1)] * 14), mark=ALL_ONES), [12]),
        ("start", dict(id=5, data=ONE, mark=ALL_ONES), [3]),
        # Nor does any other call. The bits of 5 are word 1's from bit 36 on, and those of 7 its lowest.
        ("stop", dict(id=5, mark=ALL_ONES), [0], {0: ALL_ONES, 1: ALL_ONES - (63 << 36), 2: ALL_ONES}),
        ("write", dict(id=5, address=65536, bytes=1), [0, 0, 1], {0: 0, 1: 1 << 36, 2: 0}),
        ("receive", dict(id=7, data=b"\xaa" * 64, mark=ALL_ONES), [0, 0, 0, 1, 0, 8, 1], {1: ALL_ONES - 7}, [(1048576, 3)]),
        ("receive", dict(id=5, data=b"\xaa" * 64, mark=ALL_ONES), [0, 0, 0, 0, 0, 0, 2], {1: ALL_ONES - (63 << 36)}, [(65536, 4), (0, 2)]),
        ("suspend", dict(id=5, type=1, mark=MIXED), [0]),
        ("resume", dict(id=7, mark=MIXED), [0]),
        ("batch", batch((5, 65536, 1), (5, 4096, 1)), noted(2, 2), {1: 0b100001 << 36}),
        ("part", dict(mark=MIXED, **part(ONLY, 0, bytes(48))), *yields(48)),
    ]),
    # The bases of controllers that are off are left as they were, by a start too; a stop makes its own 0 and leaves the
    # others.
    ("bases", OFF_ANYWHERE, [
        ("start", dict(id=6, data=structure(0, [(0, 5)]), mark=ALL_ONES),
         *placed(only_bits(*range(4), *range(9, 14)), 0, 4, 9, 65535, 11, 16384, 0)),
        ("start", dict(id=10, data=structure(0, [(0, 5)]), mark=ALL_ONES),
         *placed(only_bits(*range(9)), 0, 60000, 4, 65535, 6, 9, 0)),
        ("start", dict(id=11, data=structure(0, [(0, 1)]), mark=ALL_ONES),
         *placed(only_bits(*range(9)), 0, 60000, 4, 65535, 6, 16384, 9)),
        ("stop", dict(id=5, mark=ALL_ONES), *placed({1: ALL_ONES, 3: ALL_ONES - (15 << 8)}, 0, 60000, 4, 65535, 100, 16384, 0)),
        ("stop", dict(id=9, mark=ALL_ONES), *placed({1: ALL_ONES - (7 << 36), 3: ALL_ONES}, 200, 60000, 4, 65535, 0, 16384, 0)),
        *[("stop", dict(id=id, mark=ALL_ONES), [5]) for id in (6, 8, 10, 11)],
        *[("start", dict(id=id, data=structure(0, [(0, 16376)]), mark=ALL_ONES), [11]) for id in (6, 8, 10, 11)],
        ("start", dict(id=5, data=ONE, mark=ALL_ONES), [3]),
        ("resume", dict(id=7, mark=ALL_ONES), *placed({0: ALL_ONES}, 200, 60000, 4, 65535, 100, 16384, 0)),
        ("write", dict(id=9, address=4096, bytes=1), [0, 0, 1], {1: 1 << 37}, (), NOT_SAID, (200, 60000, 4, 65535, 100, 16384, 0)),
        ("write", dict(id=6, address=0, bytes=ALL_ONES), [0, 0, 0], only({}), (), NOT_SAID, (200, 60000)),
    ]),
]


def one_bit_a_word(base, pages):
    """The units of so many from this base on that the mark 1 makes pending. It sets one bit of each word, bit w modulo 64 of
    word w: so 0, 65, 130 and so on up to 4,095, and from 4,096 on again."""
    return [unit for unit in range(pages) if (base + unit) % 4096 % 65 == 0]


# Starts that move shares, in the form of ORDERS. Each word that is lent is another, so each that moves can be told. These
# are played on their records alone: what an unsound one and 255 words answer, other starts have shown.
MOVES = [
    # The first and the last words, bit by bit.
    *[(f"5 at {five} and 7 at {seven}", based(five, None, seven), [
        ("start", dict(id=6, data=structure(0, [(0, length)]), mark=mark), [0], packed_marks(five, seven, length, mark))
        for mark in (MIXED, ALL_ONES, 2**63 + 1, 1) for length in (1, 2, 54, 55, 58, 59, 64, 121, 128, 16375)])
      for five, seven in ((0, 8192), (0, 6), (3, 0), (8192, 16381), (16378, 16375), (63, 60), (61, 127), (9000, 4), (15, 12))],
    # 6 units go from the lowest bits of a word to bit 0. There the mark 1 has bit w modulo 64 set, if that is one of the 6.
    *[(f"6's 6 units in word {word}", shares((0, 60000), (6, 64 * word), (0, 0), (0, 0)), [
        ("start", dict(id=8, data=ONE, mark=1), *placed(only({0: moved}), 60000, 0, 0, 6)),
        ("start", dict(id=8, data=ONE, mark=MIXED), [0], only({0: rotated(MIXED, word) & 0b111111})),
        ("start", dict(id=5, data=ONE, mark=1), *placed(only({0: moved << 1}), 0, 1, 0, 0)),
    ]) for word, moved in (
        (0, 0b1), (1, 0b10), (2, 0b100), (5, 0b100000), (6, 0), (63, 0), (64, 0b1), (66, 0b100), (130, 0b100), (255, 0))],
    # Later controllers lie before earlier ones: whole words change places. MIXED rotated by 1 and by 2 stands here in digits.
    ("a word each, turned", shares((64, 64), (64, 0), (0, 0), (0, 0)), [
        ("start", dict(id=8, data=ONE, mark=MIXED), *placed(only({0: 0x1CB41E78E00381A3, 1: MIXED}), 0, 64, 0, 128)),
        ("start", dict(id=8, data=ONE, mark=1), *placed(only_bits(1, 64), 0, 64, 0, 128)),
    ]),
    ("three words, turned", shares((64, 128), (64, 64), (64, 0), (0, 0)), [
        ("start", dict(id=8, data=ONE, mark=MIXED),
         *placed(only({0: 0x39683CF1C0070346, 1: 0x1CB41E78E00381A3, 2: MIXED}), 0, 64, 128, 192)),
    ]),
    ("100 words above 101", shares((6400, 6464), (6464, 0), (0, 0), (0, 0)), [
        ("start", dict(id=8, data=structure(0, [(0, length)]), mark=mark), *placed(only({
            **{word: rotated(mark, word + 101) for word in range(100)},
            **{word: rotated(mark, word - 100) for word in range(100, 201)}}), 0, 6400, 0, 12864))
        for mark in (MIXED, 1, 2**63) for length in (1, 3520)]),
    # So do parts of words. The mark 1 has bits 65, 130, 195 and 260 set: unit 1 of 8, unit 0 of 6, none, unit 60 of 5.
    ("three parts of words, turned", shares((70, 200), (3, 130), (0, 9), (66, 64), (0, 0)), [
        ("start", dict(id=9, data=structure(0, [(0, 5)]), mark=1), *placed(only_bits(60, 70, 74), 0, 70, 9, 73, 139)),
        ("start", dict(id=9, data=structure(0, [(0, 16245)]), mark=1), *placed(only_bits(60, 70, 74), 0, 70, 9, 73, 139)),
        ("start", dict(id=9, data=structure(0, [(0, 16246)]), mark=1), [11]),
        ("start", dict(id=9, data=structure(0, [(0, 5)]), mark=MIXED), [0]),
    ]),
    # The last bit of all. The mark 1 sets it, as 255 modulo 64 is 63; 2 and ALL_ONES - 1 don't.
    ("6's unit at 16,383", shares((0, 0), (1, 16383), (0, 0), (0, 0)), [
        *[("start", dict(id=8, data=ONE, mark=mark), *placed(only({0: moved}), 0, 0, 0, 1))
          for mark, moved in ((1, 1), (2, 0), (ALL_ONES - 1, 0), (ALL_ONES, 1))],
        ("start", dict(id=5, data=structure(0, [(0, 16383)]), mark=1), *placed(only_bits(16383), 0, 16383, 0, 0)),
        ("start", dict(id=5, data=structure(0, [(0, 16383)]), mark=ALL_ONES - 1), *placed(only({}), 0, 16383, 0, 0)),
        ("start", dict(id=5, data=structure(0, [(0, 16384)]), mark=1), [11]),
    ]),
    ("6's unit at 16,383 and 5's 6 units", shares((6, 0), (1, 16383), (0, 0), (0, 0)), [
        ("start", dict(id=8, data=structure(0, [(0, 16377)]), mark=1), *placed(only_bits(0, 6), 0, 6, 0, 7)),
        ("start", dict(id=8, data=structure(0, [(0, 16378)]), mark=1), [11]),
    ]),
    ("6's unit at 0", shares((0, 16383), (1, 0), (0, 0), (0, 0)), [
        ("start", dict(id=5, data=structure(0, [(0, 16383)]), mark=1), *placed(only_bits(16383), 0, 16383, 0, 0)),
        ("start", dict(id=5, data=structure(0, [(0, 16383)]), mark=2), *placed(only({}), 0, 16383, 0, 0)),
    ]),
    # 200 units go to the left by bits, by a word, and by both.
    *[(f"6's 200 units at {base}", shares((0, 0), (200, base), (0, 0), (0, 0)), [
        ("start", dict(id=8, data=ONE, mark=1), *placed(only_bits(*moved), 0, 0, 0, 200)),
        *[("start", dict(id=8, data=ONE, mark=mark), [0]) for mark in (MIXED, ALL_ONES)],
    ]) for base, moved in (
        (0, (0, 65, 130, 195)), (1, (64, 129, 194)), (2, (63, 128, 193)), (63, (2, 67, 132, 197)), (64, (1, 66, 131, 196)),
        (65, (0, 65, 130, 195)), (127, (3, 68, 133, 198)), (128, (2, 67, 132, 197)), (129, (1, 66, 131, 196)))],
    # And to the right: they lie from bit 0 on, with units 0, 65, 130 and 195 pending, and 5 starts before them.
    ("6's 200 units to the right", shares((0, 0), (200, 0), (0, 0), (0, 0)), [
        ("start", dict(id=5, data=structure(0, [(0, length)]), mark=1), *placed(only_bits(*moved), 0, length, 0, 0))
        for length, moved in (
            (1, (1, 66, 131, 196)), (63, (63, 128, 193, 258)), (64, (64, 129, 194, 259)), (65, (65, 130, 195, 260)),
            (16184, (16184, 16249, 16314, 16379)))] + [
        ("start", dict(id=5, data=structure(0, [(0, length)]), mark=MIXED), [0]) for length in (1, 63, 64, 65, 128, 16184)]),
    # Many words over themselves: to the right by up to 131, by none, to the left by up to 130; by a bit more or less too.
    *[(f"6's 8,000 units at {base}", shares((0, 0), (8000, base), (0, 0), (0, 0)), [
        ("start", dict(id=5, data=structure(0, [(0, length)]), mark=mark), *placed(
            only_bits(*[length + unit for unit in one_bit_a_word(base, 8000)]) if mark == 1 else {}, 0, length))
        for length in (1, 63, 64, 65, 4096, 8383, 8384) for mark in (1, MIXED)]) for base in (0, 1, 63, 64, 4160, 8384)],
    ("125 words by 131", shares((0, 0), (8000, 0), (0, 0), (0, 0)), [
        ("start", dict(id=5, data=structure(0, [(0, 8384)]), mark=mark), [0],
         only({word: rotated(mark, word - 131) for word in range(131, 256)})) for mark in (MIXED, 1, 2**63)]),
    # Eight with gaps. Of the mark 1's bits they have 65; 130; 195; 260; 325 and 390; 4,095 and 4,096; 16,383.
    ("eight with gaps", shares((10, 60), (20, 121), (1, 195), (0, 60000), (64, 200), (100, 300), (65, 4095), (3, 16381)), [
        ("start", dict(id=8, data=structure(0, [(0, 7)]), mark=1),
         *placed(only_bits(5, 19, 30, 98, 127, 192, 202, 203, 269), 0, 10, 30, 31, 38, 102, 202, 267)),
        ("start", dict(id=8, data=structure(0, [(0, 1)]), mark=1),
         *placed(only_bits(5, 19, 30, 92, 121, 186, 196, 197, 263), 0, 10, 30, 31, 32, 96, 196, 261)),
        ("start", dict(id=8, data=structure(0, [(0, 16121)]), mark=1),
         *placed(only_bits(5, 19, 30, 16212, 16241, 16306, 16316, 16317, 16383), 0, 10, 30, 31, 16152, 16216, 16316, 16381)),
        ("start", dict(id=8, data=structure(0, [(0, 16122)]), mark=1), [11]),
        *[("start", dict(id=8, data=structure(0, [(0, length)]), mark=mark), [0])
          for mark in (MIXED, ALL_ONES) for length in (1, 33, 97, 16121)],
    ]),
    # The same in turned order.
    ("eight with gaps, turned", shares((3, 16381), (65, 4095), (100, 300), (64, 200), (0, 65535), (1, 195), (20, 121), (10, 60)), [
        ("start", dict(id=9, data=structure(0, [(0, 7)]), mark=1),
         *placed(only_bits(2, 3, 4, 93, 158, 228, 239, 249, 265), 0, 3, 68, 168, 232, 239, 240, 260)),
        *[("start", dict(id=9, data=structure(0, [(0, length)]), mark=mark), [0])
          for mark in (MIXED, ALL_ONES) for length in (1, 24, 16121)],
    ]),
    # Eight shares of 100 units, of which the last starts: the others lie in turned order, with gaps.
    ("packing of eight", both(identifiers(5, 6, 7, 8, 9, 10, 11, 12), *[
        tracked(0, (0, 100), place=place, base=16000 - 1000 * place, limit=128) for place in range(7)]), [
        ("start", dict(id=12, data=structure(0, [(0, length)]), mark=mark), [0])
        for mark in (MIXED, ALL_ONES) for length in (1, 100, 15684)] + [
        ("start", dict(id=12, data=structure(0, [(0, 15685)]), mark=MIXED), [11]),
        ("start", dict(id=12, data=structure(0, [(0, 1)]), mark=ALL_ONES), [0], {
            **{word: ALL_ONES for word in range(10)}, 10: 2**60 - 1, 11: 0, 255: 0}),
        ("start", dict(id=12, data=structure(0, [(0, 1)] * 16), mark=2**60), [0]),
        ("stop", dict(id=9, mark=ALL_ONES), [0], {
            186: ALL_ONES, 187: 2**32 - 1, 188: 0, 189: ALL_ONES - 15, 190: ALL_ONES}),
    ]),
    # The first controller of the settings starts, and all others move up; a controller that is off stands between them.
    ("packing from below", both(off(0), tracked(0, (0, 64), place=2, base=0), identifiers(5, 6, 7, 8), tracked(8, (0, 70), place=3, base=64)), [
        *[("start", dict(id=5, data=structure(0, [(0, length)]), mark=mark), [0])
          for mark in (MIXED, ALL_ONES) for length in (1, 63, 64, 65, 128, 1000, 16250)],
        ("start", dict(id=5, data=structure(0, [(0, 16251)])), [11]),
        ("start", dict(id=5, data=structure(0, [(0, 65)]), mark=ALL_ONES), [0], {0: 0, 1: ALL_ONES - 1, 2: ALL_ONES, 3: 0b1111111, 4: 0}),
    ]),
]


# ---- Groups examined (document 02, W10): "groups of 64 units, numbered from the controller's unit 0"; "With room for k runs it is
# the groups up to and including the one where run k + 1 begins, or, if there is none, all: the total of units divided by 64, rounded
# up."

def stays(groups, runs, **others):
    """A report of so many runs for which there is room, while others stay."""
    return numbers(more=1, runs=runs, groups=groups, **others)


def no_more(groups, runs, **others):
    return numbers(runs=runs, groups=groups, **others)


def side_by_side(*lengths):
    """Ranges of so many pages, each beginning where the one before it ends. All units pending, each of them is a run."""
    return [(4096 * sum(lengths[:row]), length) for row, length in enumerate(lengths)]


def all_pending(*lengths):
    """Such ranges with all units pending, and with each room up to one too great: run k + 1 begins where k ranges end."""
    total = -(-sum(lengths) // 64)
    return [({"mark": ALL_ONES}, room, stays(sum(lengths[:room]) // 64 + 1, room) if room < len(lengths) else no_more(total, len(lengths)))
            for room in range(1, len(lengths) + 2)]


# The mark 1 sets bits 0, 65, 130, 195 and 260, and from 4,096 on again. So of 200 units at a base these are pending, and with room for
# 1, 2 and so on runs so many groups are examined, the last of them with none that stays.
TWO_HUNDRED = {
    0: [2, 3, 4, 4],    # 0, 65, 130, 195
    1: [3, 4, 4],       # 64, 129, 194
    2: [3, 4, 4],       # 63, 128, 193
    3: [2, 4, 4],       # 62, 127, 192
    4: [2, 3, 4],       # 61, 126, 191
    5: [2, 3, 4],       # 60, 125, 190
    63: [2, 3, 4, 4],   # 2, 67, 132, 197
    64: [2, 3, 4, 4],   # 1, 66, 131, 196
    65: [2, 3, 4, 4],   # 0, 65, 130, 195
    66: [3, 4, 4],      # 64, 129, 194
    4098: [3, 4, 4],    # 63, 128, 193
    8195: [2, 4, 4],    # 62, 127, 192
    16184: [2, 3, 4, 4],  # 4, 69, 134, 199: the pool's last bits, from 12,288 + 3,896 on
}

GROUPS = [
    *[(f"200 units at {base}", tracked(0, (0, 200), base=base), [
        *[({"mark": 1}, room, stays(examined, room)) for room, examined in enumerate(groups[:-1], 1)],
        ({"mark": 1}, len(groups), no_more(groups[-1], len(groups))),
        ({"mark": 1}, 63, no_more(4, len(groups))),
        ({}, 1, no_more(4, 0)),
        ({"mark": ALL_ONES}, 1, no_more(4, 1)),
    ]) for base, groups in TWO_HUNDRED.items()],
    # Five units of another before it. Bits 5, 66 and 70 are its units 0, 61 and 65: by words of the pool the first two would be in
    # two groups, and the last two in one.
    ("100 units at 5, behind another's", shares((5, 0), (100, 5)), [
        ({"id": 6, "mark": 0b100010}, 1, stays(1, 1)),
        ({"id": 6, "mark": 0b100010}, 2, stays(2, 2)),
        ({"id": 6, "mark": 0b100010}, 3, no_more(2, 3)),
        ({"id": 6}, 1, no_more(2, 0)),
        ({"id": 5, "mark": 0b100010}, 1, no_more(1, 1)),
    ]),
    # The total decides, pending or not: not how many words of the pool it lies in, which at 63 are one more.
    *[(f"{units} units at {base}", alone((0, units), base=base), [
        ({}, 1, no_more(groups, 0)), ({"mark": ALL_ONES}, 1, no_more(groups, 1)), ({"mark": ALL_ONES}, 63, no_more(groups, 1))])
      for units, groups in ((1, 1), (2, 1), (63, 1), (64, 1), (65, 2), (127, 2), (128, 2), (129, 3), (4096, 64), (4097, 65), (16320, 255), (16321, 256))
      for base in (0, 1, 63)],
    ("16,384 units", alone((0, 16384)), [
        ({}, 1, no_more(256, 0)), ({}, 63, no_more(256, 0)), ({"mark": ALL_ONES}, 1, no_more(256, 1)),
        # Bits 0, 65 and so on; 4,095 and 4,096 are one run, the 64th.
        *[({"mark": 1}, room, stays(65 * room // 64 + 1, room)) for room in (1, 2, 31, 61, 62, 63)],
    ]),
    *[(f"ranges of {lengths} units", alone(*side_by_side(*lengths)), all_pending(*lengths)) for lengths in (
        (64, 64), (63, 65), (65, 63), (127, 1), (128, 1), (1, 199), (63, 1, 1, 63), (1, 62, 1, 1, 63), (16383, 1), (16320, 64), (16319, 65),
        (64, 16256, 64), (64,) * 16, (1,) * 16, (63,) * 16, (65,) * 16, (1024,) * 16)],
    *[(f"ranges of (63, 1, 1, 63) units at {base}", alone(*side_by_side(63, 1, 1, 63), base=base), all_pending(63, 1, 1, 63)) for base in (1, 63, 16256)],
    # Pages 100 to 163 are units 0 to 63, pages 0 to 99 units 64 to 163, and pages 164 to 199 units 164 to 199.
    ("64 pages, then 200 about them", alone((409600, 64), (0, 200)), [
        ({"mark": ALL_ONES}, 1, stays(2, 1)),
        ({"mark": ALL_ONES}, 2, stays(3, 2)),
        ({"mark": ALL_ONES}, 3, no_more(4, 3)),
        ({}, 1, no_more(4, 0)),
    ]),
    # Unit 0 is page 100; pages 0 to 99 are units 1 to 100, and pages 101 to 199 units 101 to 199.
    ("page 100 before 200 pages", alone((409600, 1), (0, 200)), [
        ({"mark": ALL_ONES}, 1, stays(1, 1)),
        ({"mark": ALL_ONES}, 2, stays(2, 2)),
        ({"mark": ALL_ONES}, 3, no_more(4, 3)),
    ]),
    # Units that are listed again are no further groups.
    ("64 pages twice", alone((0, 64), (0, 64)), [({}, 1, no_more(1, 0)), ({"mark": ALL_ONES}, 1, no_more(1, 1))]),
    ("64 pages twice, and page 64", alone((0, 64), (0, 64), (262144, 1)), [
        ({}, 1, no_more(2, 0)), ({"mark": ALL_ONES}, 1, stays(2, 1)), ({"mark": ALL_ONES}, 2, no_more(2, 2))]),
    ("sixteen times 64 pages", alone(*[(0, 64)] * 16), [({}, 1, no_more(1, 0)), ({"mark": ALL_ONES}, 1, no_more(1, 1))]),
    # Suspended, and of another granularity.
    ("200 units of 7 at 4,099", tracked(8, (0, 200), place=2, base=4099), [
        ({"id": 7, "mark": 1}, room, stays(groups, room, suspended=1, granularity=8)) for room, groups in ((1, 2), (2, 4))] + [
        ({"id": 7, "mark": 1}, 3, no_more(4, 3, suspended=1, granularity=8))]),
    # Refused: 2, 5 and 8, and zeros.
    ("200 units", tracked(0, (0, 200)), [({"id": 9, "mark": 1}, 1, [2]), ({"id": 6, "mark": 1}, 1, [5]), ({"mark": 1}, 0, [8])]),
]


# ---- Cases

def cases():
    for build, said in ((base, ""), (base_with_rubbish, ", rubbish in unused places")):
        yield from every_call(build, said)
        yield from wrong_words(build, said)
        yield from orders(build, said)
        yield from moves(build, said)
        yield from orders_of_a_part(build, said)
        yield from divided_headers(build, said)
        yield from orders_of_queue_calls(build, said)
        yield from groups_examined(build, said)
    yield from small_queues()
    yield from several_sizes()


def every_call(build, said, records=RECORDS):
    """Every record of the table with every call. Marks are in every place, so that each call shows which it clears."""
    for name, change_it, (fresh, others), *otherwise in records:
        for call, fields in BASE_CALLS.items():
            number = fresh if call == "fresh" else dict(*otherwise).get(call, others)
            yield Case(changed(build, change_it), call, mark=MIXED, **fields).named(f"{name}, {call}{said}", number)


def wrong_words(build, said):
    """On two records only, as words and record have nothing to do with each other. "Fresh: 16, then 1 for the marks'
    length"."""
    for name, change_it, fresh in (("base", both(), 1), ("closed device", closed(), 16)):
        for call, fields in BASE_CALLS.items():
            for words in WRONG_WORDS:
                case = Case(changed(build, change_it), call, words=words, mark=MIXED, **fields)
                yield case.named(f"{name}, {call}{said}, {words} words", fresh if call == "fresh" else 1)


def orders(build, said, table=ORDERS):
    """Each call as it is; then on a record whose last controller in use is unsound in row 1, and with a word too few."""
    for name, change_it, calls in table:
        record = changed(build, change_it)
        unsound = record.copied()
        unsound.controllers[record.count - 1].track(8, (1048576, 1), (1048577, 1))
        for call, fields, known, *after in calls:
            yield named(Case(record, call, **fields), f"{name}, {call}{said}", known, *after)
            yield Case(unsound, call, **fields).named(f"{name}, {call}{said}, unsound", 1)
            yield Case(record, call, words=255, **fields).named(f"{name}, {call}{said}, 255 words", 1)


def moves(build, said):
    for name, change_it, calls in MOVES:
        record = changed(build, change_it)
        for call, fields, known, *after in calls:
            yield named(Case(record, call, **fields), f"{name}, {call}{said}", known, *after)


# Of a part of 7, where its sequence is open at 16 and 8 is suspended too: what may be wrong with it, each with the number
# that this alone is refused with.
AREAS = {4096: 0, 4095: 1, 4097: 1}
IDS = {7: 0, 9: 2, 6: 13, 8: 23}
OFFSETS = {16: 0, 18: 24, WORD + 16: 24, 20: 26}
INDICATORS = {MIDDLE: 0, LAST: 27, FIRST: 26, 4: 25}  # 20 bytes are no state, and a first part begins at 0
DATA = {(1, 4): 0, (1, 3): 25, (0, 0): 25, (1021, 4084): 27}  # count, and how many bytes


def orders_of_a_part(build, said):
    """Every set of rules that can be broken at once: the least number answers, as W6's order is theirs. A last part may have
    no dwords."""
    record = changed(build, both(identifiers(5, 6, 7, 8), suspended(0, 0, 1, 1), opened(7, 16)))
    for chosen in itertools.product(AREAS.items(), IDS.items(), OFFSETS.items(), INDICATORS.items(), DATA.items()):
        (area, _), (id, _), (offset, _), (indicator, _), ((count, length), _) = chosen
        allowed = 25 if indicator == LAST and count == 0 else 0
        broken = [number for _, number in chosen if number not in (0, allowed)]
        fields = part(indicator, offset, bytes(length), id=id, count=count, area=area, front=bytes(16))
        name = f"part of {id}, area {area}, indicator {indicator}, offset {offset}, count {count}, {length} bytes{said}"
        yield named(Case(record, "part", **fields), name, *([[min(broken)]] if broken else opens(20)))


def divided_headers(build, said):
    """A state of 60 bytes of which the area has some and a last part the rest, with one bit of its header changed, or none:
    those of version and sizes make it no state, wherever they lie."""
    for end in range(4, 64, 4):
        record = changed(build, opened(7, end))
        for byte in (None, 0, 1, 2, 15, 16, 19, 20, 24, 31, 32, 35, 36, 40, 47):
            whole = bytearray(SIXTY)
            if byte is not None:
                whole[byte] ^= 0x80
            fields = part(LAST, end, bytes(whole[end:]), front=bytes(whole[:end]))
            known = yields(60) if byte in (None, 2, 15) else [[27]]
            yield named(Case(record, "part", mark=MIXED, **fields), f"60 bytes divided at {end}, byte {byte}{said}", *known)


def orders_of_queue_calls(build, said):
    """Every set of rules that can be broken at once by a queue call: the first of 1, 2, 28, 29, 8, 30 answers. 5 and 7 have four
    places, and 7's are stopped; 6 has no queue; 1 is the manager, and 9 stands in an unused place."""
    record = changed(build, both(queue(4, 2), queue(4, 2, 0, 3, 1, place=2)))
    calls = [("make", b"")] + [(call, (A * 2)[:length]) for call in ("post", "take") for length in (32, 0, 31, 33, 64)]
    for (call, data), id, size, words in itertools.product(calls, (5, 6, 7, 9, 1), (128, 127, 129, 96, 32, 0, 32800), (256, 255)):
        tests = [
            (1, words == 256),
            (2, id in (5, 6, 7)),
            (28, size == 128 or size == 96 and (call == "make" or id == 6)),
            (29, call == "make" or id != 6),
            (8, call != "post" or len(data) == 32),
            (30, call != "post" or id != 7),
        ]
        known = [next((number for number, passes in tests if not passes), 0)]
        lends = make(size, id=id) if call == "make" else post(data, id=id, size=size) if call == "post" else take(1, data, id=id, size=size)
        yield Case(record, call, words=words, **lends).named(f"{call} of {id}, area {size}, {len(data)} bytes, {words} words{said}", *known)


def small_queues():
    """Queues of 2 to 5 places, from each place on, with each fill, running and stopped: a post, and takes of each number. The
    totals pass 2^32 in some. Unused places are full of rubbish."""
    for size, stopped in itertools.product(range(2, 6), (0, 1)):
        for place, fill in itertools.product(range(size), range(size + stopped)):
            taken = (WORD - 3 + place) % WORD
            posted = (taken + fill) % WORD
            record = changed(base_with_rubbish, queue(size, posted, taken, place, stopped))
            name = str(Kept(size, posted, taken, place, stopped))
            free, after = (place + fill) % size, (posted + 1) % WORD
            known = closes(free, size, after, taken, place, 1) if fill == size - 1 else stores(free, A, size, after, taken, place)
            known = ([30],) if stopped else known
            yield named(Case(record, "post", **post(A, size=32 * size)), f"{name}, post", *known)
            for asked in range(size + 2):
                for buffer in sorted({32 * asked, max(0, 32 * fill - 1), 170}):
                    count = min(asked, fill, buffer // 32)
                    entries = lent(*((place + one) % size for one in range(count)))
                    kept = (size, posted, (taken + count) % WORD, (place + count) % size, stopped)
                    known = takes(entries, *kept, closing=int(stopped and count == fill and count > 0))
                    yield named(Case(record, "take", **take(asked, buffer, size=32 * size)), f"{name}, take {asked} into {buffer}", *known)


def several_sizes():
    """Posts and takes of queues of more places, from some of them on, nearly empty and nearly full."""
    for size in (6, 31, 32, 33, 64, 130, 131, 132, 133, 255, 256, 257, 511, 512, 513, 1023, 1024):
        for place, fill in itertools.product((0, 1, size // 2, size - 1), (0, 1, size // 2, size - 2, size - 1)):
            record = changed(base_with_rubbish, queue(size, fill + 7, 7, place))
            name, free = str(Kept(size, fill + 7, 7, place)), (place + fill) % size
            known = closes(free, size, fill + 8, 7, place, 1) if fill == size - 1 else stores(free, A, size, fill + 8, 7, place)
            yield named(Case(record, "post", **post(A, size=32 * size, shown=max(0, 32 * free - 2000))), f"{name}, post", *known)
            count = min(fill, 31)
            entries = lent(*((place + one) % size for one in range(count)))
            known = takes(entries, size, fill + 7, 7 + count, (place + count) % size)
            yield named(Case(record, "take", **take(WORD - 1, 1000, size=32 * size)), f"{name}, take", *known)


def groups_examined(build, said):
    """Receives with room for so many runs (document 02, W10). Of each all first numbers are known."""
    for name, change_it, calls in GROUPS:
        record = changed(build, change_it)
        for fields, room, known in calls:
            case = Case(record, "receive", data=b"\xaa" * (16 + 16 * room), **{"id": 5, **fields})
            yield case.named(f"groups, {name}, room for {room}{said}", *known)


def on_bytes():
    """The plain engine's own (document 02, W9): "its own lent area of 16,384 bytes", and "0 is clear, all else pending". Every unit
    is pending, and those of 5 and 7 hold each value in turn. A write leaves them as they are, a report makes them 0, and a start
    moves 7's to where they are now, behind 6's, which is clear."""
    for units, (call, fields) in itertools.product(WRONG_UNITS, BASE_CALLS.items()):
        yield Case(base(), call, mark=MIXED, **fields).named(f"{call} with {units} bytes", 1).on_bytes(units % 256, units=units)
    for call in ("start", "stop", "write", "receive", "suspend", "resume"):
        yield Case(base(), call, mark=MIXED, **{**BASE_CALLS[call], "id": 4}).named(f"{call} of an unknown controller on bytes", 2).on_bytes(3)
    calls = {"write": numbers(), "batch": numbers(notes_done=2), "receive": numbers(runs=2, groups=1), "start": (0,), "stop": (0,), "fresh": (0,)}
    after = {"receive": dict(marks={0: ALL_ONES - 63}, runs=((65536, 4), (0, 2))), "start": dict(marks={0: 0x3BF}, bases=(0, 6, 7)),
             "stop": dict(marks={0: ALL_ONES - 63})}
    for value, (call, known) in itertools.product(range(255), calls.items()):
        case = Case(base(), call, mark=ALL_ONES, **BASE_CALLS[call]).named(f"{call}, all pending, unit 0 holds {value + 1}", *known, **after.get(call, {}))
        yield case.on_bytes(value, shown=8190 if value % 2 and call != "start" else 0)
    for value, case in enumerate(groups_examined(base, " on bytes")):
        yield case.on_bytes(value % 255)


def named(case, name, known, *after):
    """The case with its name and what is known: the first numbers, and of some calls mark words, runs, the sequence, bases,
    the queue, what is stored in its area, what is taken, and managers."""
    return case.named(name, *known, **dict(zip(("marks", "runs", "sequence", "bases", "queue", "stored", "taken", "managers"), after)))


def changed(build, change_it):
    record = build()
    change_it(record)
    return record
