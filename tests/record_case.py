"""A case of tests/records and its answer, in the form of RECORDS.md."""

import copy
import functools
import struct

import examined
import managers
import pool
from parts import MOST_STATE, WORD
from queues import ENTRY, Kept, after_post, after_take, kept_refusal

CALLS = ["fresh", "start", "stop", "write", "receive", "suspend", "resume", "batch", "part", "make", "post", "take"]
QUEUE_CALLS = CALLS[9:]
MANAGERS_CALLS = ["start", "stop", "receive", "suspend", "resume", "part"]  # those that name a manager (W12)
CASE_BYTES = 3056
MOST_WORDS, MOST_DATA, MOST_AREA = 512, 1024, 4200  # that a case may lend; a part may have more data, zeros past the 1,024
MOST_QUEUE_AREA = 32_800  # that a queue call may be lent; an answer shows 4,200 bytes of it
MOST_UNITS = 64 * MOST_WORDS  # bytes that may be lent to the plain engine, one a unit
FRONT_BYTES = 64  # of an area, told one by one
ROW = struct.Struct("<HQQ")  # of a batch: id, address, bytes
MOST_ROWS = MOST_DATA // ROW.size
MEMORY = 2**64
ALL_ONES = 2**64 - 1


VALUES = bytes(range(1, 256)) * (MOST_UNITS // 255 + 2)  # of pending bytes, one behind the other
SPREAD = bytes(255 * (digit == ord("1")) for digit in range(256))


def rotated(mark, bits):
    """A mark word rotated left by so many bits, modulo 64."""
    return (mark << bits % 64 | mark >> 64 - bits % 64) & ALL_ONES


# ---- A case

class Controller:
    """Tracking is None (off) or (granularity, count). The base is its share's first bit. The manager is an identifier, or None:
    then it is the settings' first one where the controller is tracked, and 0 where it is off. The queue is None or a `Kept`.
    The 16 ranges are pairs of start and length in units."""

    def __init__(self, tracking=None, ranges=(), suspended=0, base=0, queue=None, manager=None):
        self.tracking = tracking
        self.suspended = suspended
        self.base = base
        self.manager = manager
        self.queue = queue
        self.ranges = (list(ranges) + [(0, 0)] * 16)[:16]

    def track(self, granularity, *ranges):
        """The settings' first manager tracks these ranges; what stands in the places behind them stays, and so does the base."""
        self.tracking, self.manager = (granularity, len(ranges)), None
        self.ranges[:len(ranges)] = ranges

    def managed_by(self, first):
        """The identifier in the record, where this is the settings' first manager."""
        return self.manager if self.manager is not None else first if self.tracking else 0

    def packed(self, first):
        granularity, count = self.tracking or (0, 0)
        head = (self.tracking is not None, granularity, count, self.suspended, self.base, self.managed_by(first))
        queue = (self.queue is not None, *(self.queue or Kept(0)))
        return struct.pack("<4BHHBHIIHB" + "QI" * 16, *head, *queue, *[number for pair in self.ranges for number in pair])

    def readable(self, first):
        tracking = "on, granularity {}, count {}".format(*self.tracking) if self.tracking else "off"
        used = self.tracking[1] if self.tracking else 0
        listed = " ".join(map(str, self.ranges[:used])) or "none"
        unused = "rubbish" if any(map(any, self.ranges[used:])) else "zeros"
        running = "suspended" if self.suspended else "running"
        queue = f"{self.queue}, fill {self.queue.fill()}" if self.queue else "no queue"
        share = f"base {self.base}, {pool.units(self)} units; manager {self.managed_by(first)}"
        return f"{tracking}, {running}; {share}; {queue}; ranges {listed}, then {unused}"


class Record:
    """Settings, 8 controllers and a sequence, as they come: nothing here asks whether they are sound. The second manager is None
    or a pair of identifier and limit, and the sequence None (nothing open) or a pair of owner and end."""

    def __init__(self):
        self.manager = self.least = self.greatest = self.rule = self.limit = self.shelf = self.count = 0
        self.second = None
        self.identifiers = [0] * 8
        self.controllers = [Controller() for _ in range(8)]
        self.sequence = None

    def copied(self):
        """Another record with the same in it, of which each part may be changed."""
        other = copy.copy(self)
        other.identifiers, other.controllers = list(self.identifiers), list(map(copy.copy, self.controllers))
        for one in other.controllers:
            one.ranges = list(one.ranges)
        return other

    def packed(self):
        second = (self.second is not None, *(self.second or (0, 0)))
        settings = (self.manager, self.least, self.greatest, self.rule, self.limit, *second, self.shelf, self.count, *self.identifiers)
        controllers = b"".join(one.packed(self.manager) for one in self.controllers)
        return struct.pack("<HBBBHBHHHQ8H", *settings) + controllers + packed_sequence(self.sequence)

    def readable(self):
        second = "second manager {}, its limit {}".format(*self.second) if self.second else "no second manager"
        yield (f"settings: manager {self.manager}, granularities {self.least} to {self.greatest}, rule {self.rule}, "
               f"limit {self.limit}, {second}, shelf limit {self.shelf}, count {self.count}, identifiers {self.identifiers}")
        for place, one in enumerate(self.controllers):
            yield f"controller {place}{' (unused)' if place >= self.count else ''}: {one.readable(self.manager)}"
        yield "sequence: open, owner {}, end {}".format(*self.sequence) if self.sequence else "sequence: nothing open"


def packed_sequence(sequence):
    owner, end = sequence or (0, 0)
    return struct.pack("<BHH", sequence is not None, owner, end)


CLOSED = Record().packed()


NOT_SAID = "not said"


class Case:
    """A record, lent marks, bytes and an area, and one call. `known` are the answer's first numbers, as far as known by
    hand, the row 0 unless said; of some done calls also mark words, runs, the sequence that is left, bases and managers are known,
    and of a queue call the queue that is left, what is stored in the area and what is put into the buffer. The call is by the
    settings' first manager unless said."""

    share_damaged = False    # a random case whose record was damaged in a share's place
    queue_damaged = False    # in a queue
    manager_damaged = False  # in managers and their limits
    sound = None             # whether record and words of a random case are, where that is known
    units = None             # how many bytes are lent to the plain engine; None for the other engine
    value = 0                # tells what pending ones of these hold

    def __init__(self, record, call, id=0, address=0, bytes=0, type=0, data=b"", records=0, words=pool.WORDS, mark=0,
                 indicator=0, low=0, high=0, count=0, area=0, fill=0, front=b"", asked=0, shown=0, by=None):
        self.record = record
        self.call = call
        self.by = record.manager if by is None else by
        self.id, self.address, self.bytes, self.type = id, address, bytes, type
        self.data, self.records = data, records
        self.words, self.mark = words, mark
        self.indicator, self.low, self.high, self.count = indicator, low, high, count
        self.area, self.fill, self.front = area, fill, front.ljust(FRONT_BYTES, b"%c" % fill)
        self.asked, self.shown = asked, shown

    def named(self, name, *known, marks=None, runs=(), sequence=NOT_SAID, bases=(), queue=NOT_SAID, stored=None, taken=b"", managers=()):
        """The marks are by the number of their word; the runs are pairs of address and length in units; the bases and managers are
        those of the first controllers, in their order. Bytes are stored at places of the area, and taken to the buffer's front."""
        self.name, self.known_marks, self.known_runs, self.known_sequence = name, marks or {}, runs, sequence
        self.known_bases, self.known_queue, self.known_stored, self.known_taken = bases, queue, stored or {}, taken
        self.known_managers = managers
        self.known = (*known, 0) if len(known) == 1 else known
        return self

    def on_bytes(self, value, shown=0, units=None):
        """The same call of the plain engine (document 02, W9), lent a byte for each bit of the marks, or so many bytes. All that
        is known stays known: an answer has a bit for each byte."""
        other = copy.copy(self)
        other.units, other.value = 64 * self.words if units is None else units, value
        other.words = -(-other.units // 64)
        if self.call not in QUEUE_CALLS:
            other.shown = shown
        return other

    def packed(self):
        call = (self.words, self.mark, CALLS.index(self.call), self.by, self.id, self.address, self.bytes, self.type)
        fields = struct.pack("<HQBHHQQBH", *call, len(self.data)) + in_room(self.data, MOST_DATA) + struct.pack("<H", self.records)
        part = struct.pack("<BIIIHB", self.indicator, self.low, self.high, self.count, self.area, self.fill) + self.front
        plain = struct.pack("<BHB", self.units is not None, self.units or 0, self.value)
        return (self.record.packed() + fields + part + struct.pack("<IH", self.asked, self.shown) + plain).ljust(CASE_BYTES, b"\0")

    def lent_words(self):
        """The lent marks. Words near each other differ, save for 0 and all ones, so that one that moved can be told. Of the plain
        engine's bytes it is the bits that they stand for."""
        words = ([rotated(self.mark, bits) for bits in range(64)] * (MOST_WORDS // 64))[:self.words]
        if self.units is not None and self.units % 64:
            words[-1] &= (1 << self.units % 64) - 1
        return words

    def lent_bytes(self):
        """The bytes that are lent to the plain engine: each that isn't 0 differs from those near it, and all values are met."""
        first = self.value % 255
        return both(VALUES[first:first + self.units], where_set(pool.as_number(self.lent_words()), self.units))

    def shows_bytes(self):
        """Whether the answer shows the plain engine's bytes: those of a part and a queue call are the area's."""
        return self.units is not None and self.call not in ("part", *QUEUE_CALLS)

    def lent_area(self):
        """A part's state area: the front, and behind it one byte again and again. A queue call's own area: the front, which
        is two places, and behind it places of one byte, each another. No other call is lent one."""
        behind = places_behind(self.fill) if self.call in QUEUE_CALLS else b"%c" % self.fill * MOST_AREA
        return (self.front + behind)[:self.area]

    def shown_of(self, area):
        """What an answer has room for of an area: a part's whole, a queue call's from a byte on that the case names."""
        return in_room(area[self.shown if self.call in QUEUE_CALLS else 0:], MOST_AREA)

    def readable(self):
        yield f"case: {self.name}"
        yield from self.record.readable()
        yield f"marks: {self.words} words, of which word w is {self.mark:#x} rotated left by w modulo 64 bits"
        if self.units is not None:
            yield f"in their place {self.units} bytes, the plain engine's: u + {self.value} modulo 255, and 1, where bit u is set, else 0; shown from {self.shown} on"
        yield (f"call: {self.call}, by {self.by}, id {self.id}, address {self.address}, bytes {self.bytes}, type {self.type}, "
               f"{len(self.data)} lent bytes {self.data.hex()}")
        if self.call == "batch":
            yield f"batch: {self.records} records, row after row of {list(ROW.iter_unpack(self.data))}"
        if self.call == "part":
            yield (f"part: indicator {self.indicator}, low {self.low}, high {self.high}, count {self.count}; "
                   f"state area of {self.area} bytes: {self.front.hex()}, then {self.fill:#x}")
        if self.call in QUEUE_CALLS:
            yield (f"queue: asked {self.asked}; area of {self.area} bytes, shown from {self.shown} on: {self.front.hex()}, "
                   f"then at byte k {self.fill:#x} and k / 32")
        if self.known:
            numbers = ", ".join(f"{name} {number}" for name, number in zip(NUMBERS, self.known))
            marks = "".join(f", mark word {word} {mark:#x}" for word, mark in self.known_marks.items())
            runs = "".join(f", run {one}" for one in self.known_runs)
            sequence = "" if self.known_sequence == NOT_SAID else f", sequence {self.known_sequence}"
            bases = f", bases {list(self.known_bases)}" if self.known_bases else ""
            managers = f", managers {list(self.known_managers)}" if self.known_managers else ""
            queue = "" if self.known_queue == NOT_SAID else f", {self.known_queue}"
            yield f"documents 01 and 02 ask for: {numbers}{marks}{runs}{sequence}{bases}{managers}{queue}"


@functools.lru_cache(maxsize=None)
def places_behind(fill):
    """A queue's area behind its first two places: the third is 32 times a byte 2 greater than this one, the next 3, and so on."""
    return b"".join(b"%c" % ((fill + place) % 256) * ENTRY for place in range(2, MOST_QUEUE_AREA // ENTRY))


def in_room(lent, room):
    """Lent bytes in a field with room for so many: zeros behind them, and those past it left out."""
    return lent[:room].ljust(room, b"\0")


def structure(granularity, ranges, version=0, count=None, reserved=0):
    """A start structure (document 01, "The start structure")."""
    count = len(ranges) if count is None else count
    header = struct.pack("<BHBI", version, reserved, granularity, count)
    return header + b"".join(struct.pack("<QI", *one) for one in ranges)


def batch(*rows, records=None):
    """The fields of a batch with these rows (id, address, bytes), each once unless the number of records is said."""
    return {"data": b"".join(ROW.pack(*one) for one in rows), "records": len(rows) if records is None else records}


def part(indicator, offset, data, id=7, count=None, area=4096, fill=0xEE, front=b""):
    """The fields of a part of controller 7, unless said, with as many dwords as its data have, unless said."""
    count = len(data) // 4 if count is None else count
    return {"id": id, "indicator": indicator, "low": offset % WORD, "high": offset // WORD, "count": count, "data": data,
            "area": area, "fill": fill, "front": front}


QUEUE_FRONT = bytes(range(FRONT_BYTES))  # two places that differ in each byte
QUEUE_FILL = 0x40                        # so the third place is 32 times 42h, the fourth 43h, and so on


def make(size, id=5, fill=QUEUE_FILL, front=QUEUE_FRONT, shown=0):
    """The fields of a call that makes a queue, of controller 5 unless said, in an area of so many bytes."""
    return {"id": id, "area": size, "fill": fill, "front": front, "shown": shown}


def post(entry, size=128, **lent):
    """The fields of a post, of controller 5 unless said, with an area of four places unless said."""
    return {"data": entry, **make(size, **lent)}


def take(asked, buffer, size=128, **lent):
    """The fields of a take with a buffer of so many bytes, or of these. The same holds."""
    buffer = b"\xaa" * buffer if isinstance(buffer, int) else buffer
    return {"asked": asked, "data": buffer, **make(size, **lent)}


# ---- An answer

NUMBERS = ["refusal", "row", "count", "suspended", "more", "granularity", "runs", "notes done", "cut", "whole",
           "stopped", "taken", "closing", "groups"]
PACKED_NUMBERS = struct.Struct("<BBQBBBQQBQBQBQ")
ROW_RULES = (19, 20, 21)  # a start that is refused with one of these answers its row; every other row is 0
OWN_NUMBERS = {  # behind the row, of a done call; all others are 0
    "write": {"count"}, "batch": {"count", "notes done", "cut"}, "receive": {"suspended", "more", "granularity", "runs", "groups"},
}


def record_fields():
    """Name and width of each field of a record, in their order."""
    yield from [("manager", 2), ("least", 1), ("greatest", 1), ("rule", 1), ("limit", 2)]
    yield from [("second manager", 1), ("its identifier", 2), ("its limit", 2), ("shelf limit", 2), ("count", 8)]
    yield from ((f"identifier in place {place}", 2) for place in range(8))
    for place in range(8):
        for name in ("tracking", "granularity", "count of ranges", "suspended"):
            yield f"controller {place}: {name}", 1
        yield f"controller {place}: base", 2
        yield f"controller {place}: manager", 2
        for name, width in (("queue", 1), ("size", 2), ("posted", 4), ("taken", 4), ("place", 2), ("stopped", 1)):
            yield f"controller {place}: {name}", width
        for row in range(16):
            yield f"controller {place}: start of range {row}", 8
            yield f"controller {place}: length of range {row}", 4
    yield from [("sequence", 1), ("owner", 2), ("end", 2)]


def answer_fields():
    """Name and width of each field of an answer, in their order."""
    yield from zip(NUMBERS, [1, 1, 8, 1, 1, 1, 8, 8, 1, 8, 1, 8, 1, 8])
    at = 0
    for name, width in record_fields():
        yield f"record, byte {at}, {name}", width
        at += width
    yield from ((f"mark word {word}", 8) for word in range(MOST_WORDS))
    yield from ((f"lent byte {byte}", 1) for byte in range(MOST_DATA))
    yield from ((f"byte {byte} of what is shown of the area", 1) for byte in range(MOST_AREA))


ANSWER_BYTES = sum(width for _, width in answer_fields())
AREA_AT = ANSWER_BYTES - MOST_AREA
DATA_AT = AREA_AT - MOST_DATA
MARKS_AT = DATA_AT - 8 * MOST_WORDS
RECORD_AT = PACKED_NUMBERS.size


def numbers_of(answer):
    """An answer's first numbers, by their names."""
    return dict(zip(NUMBERS, PACKED_NUMBERS.unpack_from(answer)))


def numbers(**named):
    """All first numbers of a done call, in their order: those that are named, and zeros."""
    return [named.get(name.replace(" ", "_"), 0) for name in NUMBERS]


def differences(one, other):
    """The fields in which two answers differ: name and both values."""
    at = 0
    for name, width in answer_fields():
        values = [int.from_bytes(answer[at:at + width], "little") for answer in (one, other)]
        if values[0] != values[1]:
            yield name, *values
        at += width


def asked_for(case, answer):
    """The answer that the documents ask for. Of the plain engine all that is known by bits, and the bytes that are shown."""
    asked = asked_by_bits(case, answer)
    if not case.shows_bytes():
        return asked
    return asked[:AREA_AT] + in_room(bytes_left(case, asked)[case.shown:], MOST_AREA)


def asked_by_bits(case, answer):
    """The answer that the documents ask for; of a random case as far as its number alone tells. Of a refused call all is
    known: the number, the row, zeros, and what was given (of a fresh the closed device). So it is of a batch by hand whose
    numbers are all known: what was given, save the mark words named; of a done part, save its own bytes of the area and the
    sequence; and of a done queue call, save its queue, an entry's place of the area and the front of its buffer. Of another
    done call the first numbers are known, a report's groups, the record and all marks, but for the bits that a write, a batch or a
    report may change, at times some mark words, runs, bases and managers, and the rest is taken to be as answered."""
    known = case.known or as_answered(case, *answer[:2])
    if known[0] or case.call == "batch" and len(known) == len(NUMBERS):
        return given(case, known)
    if case.call == "part":
        return given(case, known if len(known) == len(NUMBERS) else finished(case), sequence=sequence_left(case), area=assembled(case))
    if case.call in QUEUE_CALLS:
        return queue_answer(case, known)
    asked = bytearray(answer)
    record, words, count = left(case, struct.unpack_from(f"<{pool.WORDS}Q", answer, MARKS_AT))
    answered = {**numbers_of(answer), "count": count, "groups": groups_examined(case) if case.call == "receive" else 0}
    own = OWN_NUMBERS.get(case.call, ())
    counted = [answered[name] if name in own else 0 for name in NUMBERS]
    PACKED_NUMBERS.pack_into(asked, 0, *known, *counted[len(known):])
    asked[RECORD_AT:MARKS_AT] = record.packed()
    asked[MARKS_AT:DATA_AT] = struct.pack(f"<{pool.WORDS}Q", *words).ljust(8 * MOST_WORDS, b"\0")
    if case.call != "receive":
        asked[DATA_AT:AREA_AT] = in_room(case.data, MOST_DATA)
    asked[AREA_AT:] = bytes(MOST_AREA)
    for word, mark in case.known_marks.items():
        struct.pack_into("<Q", asked, MARKS_AT + 8 * word, mark)
    for row, (address, length) in enumerate(case.known_runs):
        struct.pack_into("<QII", asked, DATA_AT + 16 + 16 * row, address, length, 0)
    for place, base in enumerate(case.known_bases):
        struct.pack_into("<H", asked, RECORD_AT + 42 + 214 * place, base)
    for place, manager in enumerate(case.known_managers):
        struct.pack_into("<H", asked, RECORD_AT + 44 + 214 * place, manager)
    return bytes(asked)


# ---- What a done call leaves

def left(case, answered):
    """The record, the mark words and the count that a done call leaves, other than a part and a queue's. Of the marks only a write, a
    batch and a report have some that are taken from the answer: bits of their controllers' shares, of which notes set some
    that were clear, as many as they count, and a report clears some that were set."""
    if case.call == "fresh":
        return fresh(case.record), [0] * pool.WORDS, 0
    record, count = case.record.copied(), 0
    record.sequence = sequence_left(case)
    one = called(record, case.id)
    marks, answered = pool.as_number(case.lent_words()), pool.as_number(answered)
    if case.call == "start":
        granularity, listed = data_listed(case.data)
        one.tracking, one.manager, one.ranges = (granularity, len(listed)), case.by, (listed + [(0, 0)] * 16)[:16]
        marks = pool.packed(record, one, marks)
    if case.call == "stop":
        marks &= ~pool.mask(one)
        one.__init__(queue=one.queue)
    if case.call == "suspend":
        one.suspended |= case.type
    if case.call == "resume":
        one.suspended = 0
    if case.call in ("write", "batch"):
        noted = answered & (pool.mask(one) if case.call == "write" else pool.masks(record))
        marks, count = marks | noted, bin(noted & ~marks).count("1")
    if case.call == "receive":
        marks &= answered | ~pool.mask(one)
    return record, pool.as_words(marks), count


def groups_examined(case):
    """How many groups a done receive examines (document 02, W10): over the marks before it, from the controller's unit 0 on."""
    one = called(case.record, case.id)
    if not 0 < pool.units(one) <= pool.POOL:
        return 0  # only where it should have been refused
    granularity, count = one.tracking
    pending = (pool.as_number(case.lent_words()) & pool.mask(one)) >> one.base
    return examined.groups(examined.stretches(4096 << granularity, one.ranges[:count]), pending, examined.room(len(case.data)))


def bytes_left(case, asked):
    """The plain engine's bytes after a call whose bits are these then: one that is clear is 0, one that was clear before is 1, and
    every other is as it was, also where its share has moved."""
    before = case.lent_bytes()
    if case.call == "start" and asked[0] == 0:
        before = moved_bytes(case, before)
    marked = bytes(byte or 1 for byte in before)
    return both(marked, where_set(int.from_bytes(asked[MARKS_AT:DATA_AT], "little"), len(before)))


def where_set(bits, count):
    """A byte for each of so many bits, lowest first: FFh where it is set, else 0."""
    return f"{bits:0{count}b}"[::-1].encode().translate(SPREAD)[:count]


def both(one, other):
    """The bits that are set in both of two strings of bytes of one length."""
    return (int.from_bytes(one, "little") & int.from_bytes(other, "little")).to_bytes(len(one), "little")


def moved_bytes(case, before):
    """The plain engine's bytes where a done start has moved the shares."""
    after, (record, _, _) = bytearray(len(before)), left(case, ())
    for one, now in zip(pool.used(case.record), pool.used(record)):
        if one.tracking:
            after[now.base:now.base + pool.units(one)] = before[one.base:one.base + pool.units(one)]
    return after


def moves(case, record):
    """Whether a call that leaves this record moves a share in which a unit is pending."""
    marks = pool.as_number(case.lent_words())
    pairs = zip(pool.used(case.record), pool.used(record))
    return any(marks & pool.mask(one) for one, after in pairs if after.tracking and one.base != after.base)


def fresh(record):
    """The fresh device of these settings: zeros in every place that is not used."""
    made = Record()
    for name in ("manager", "least", "greatest", "rule", "limit", "second", "shelf", "count"):
        setattr(made, name, getattr(record, name))
    made.identifiers = (record.identifiers[:min(record.count, 8)] + [0] * 8)[:8]
    return made


def called(record, id):
    """The controller in use of this identifier. Only where the call should have been refused is there none."""
    return next((one for name, one in zip(record.identifiers, pool.used(record)) if name == id), Controller())


def data_listed(data):
    """Granularity and ranges of a start structure."""
    count = int.from_bytes(data[4:8], "little")
    return data[3], list(struct.iter_unpack("<QI", data[8:8 + 12 * min(count, 16)]))


def given(case, known, record=None, data=None, area=None, **changes):
    """These numbers, then zeros, and all that was given: but for another record, lent bytes or area where these are said, a
    sequence, and the mark words that are known to change."""
    record = copy.copy(record or case.record)
    record.sequence = changes.get("sequence", record.sequence)
    counted = PACKED_NUMBERS.pack(*known, *[0] * (len(NUMBERS) - len(known)))
    words = [case.known_marks.get(word, mark) for word, mark in enumerate(case.lent_words())]
    marks = struct.pack(f"<{case.words}Q", *words).ljust(8 * MOST_WORDS, b"\0")
    lent = in_room(case.data if data is None else data, MOST_DATA)
    area = case.shown_of(case.lent_area() if area is None else area)
    return counted + (CLOSED if case.call == "fresh" else record.packed()) + marks + lent + area


def borders(case):
    """Where a part's bytes begin and end in the area. Only of a part that should have been refused are they cut here."""
    offset = case.low + WORD * case.high
    return offset % 2**16, (offset + 4 * case.count) % 2**16


def finished(case):
    """The numbers of a done part: a last or an only one has assembled all bytes up to its end."""
    return numbers(whole=borders(case)[1] if case.indicator in (2, 3) else 0)


def assembled(case):
    """The state area after a done part: its own bytes are in their place."""
    begin, end = borders(case)
    return case.lent_area()[:begin] + case.data + case.lent_area()[end:]


def sequence_left(case):
    """The sequence after a done call: a fresh device has none, a part opens or ends one, and a resume drops the owner's."""
    if case.known_sequence != NOT_SAID:
        return case.known_sequence
    if case.call == "part":
        return None if case.indicator in (2, 3) else (case.id, borders(case)[1])
    dropped = case.call == "resume" and case.record.sequence and case.record.sequence[0] == case.id
    return None if case.call == "fresh" or dropped else case.record.sequence


def as_answered(case, refusal, row):
    """The number of a random case's answer, and the row where there may be one. The number is known where the record or the
    words are known to be unsound, and of a queue call wherever it isn't 1 for another reason; so it is of a call that names a
    manager, save for what a start's structure and a part's bytes are refused with."""
    if case.sound is False and case.call != "fresh":
        return 1, 0
    if case.call in QUEUE_CALLS and (case.sound or refusal != 1):
        return refusal_of_queue_call(case), 0
    if case.call in MANAGERS_CALLS and (case.sound or refusal != 1):
        refusal = refusal_of_managers_call(case, refusal)
    return refusal, row if case.call == "start" and refusal in ROW_RULES else 0


# ---- Calls that name a manager (document 02, W12)

def refusal_of_managers_call(case, answered):
    """What such a call is answered with on a sound record, with 256 words. Where nothing that is asked here refuses a start or a part,
    its answer may be one of those that are not asked here."""
    record, one = case.record, called(case.record, case.id)
    known = [(2, case.by in managers.limits(record)), (2, is_known(record, case.id))]
    running, suspended = (4, not one.suspended), (13, one.suspended == 1)
    own = (5, one.tracking is not None and one.managed_by(record.manager) == case.by)
    owner, _ = record.sequence or (case.id, 0)
    tests = {
        "start": [*known, running, (3, one.tracking is None)],
        "stop": [*known, running, own],
        "receive": [*known, own, (8, len(case.data) >= 32)],
        "suspend": [*known, (15, case.type <= 1)],
        "resume": [*known, suspended],
        "part": [(1, case.area == MOST_STATE), *known, suspended, (23, owner == case.id)],
    }[case.call]
    open_here = {"start": (8, 6, 7, 18, *ROW_RULES, 10, 11), "part": (24, 25, 26, 27)}.get(case.call, ())
    refusal = managers.first_hit(tests) or (answered if answered in open_here else 0)
    return refusal or (limit_passed(case) if case.call == "start" else 0)


def limit_passed(case):
    """12 or 34 of a start that nothing else refuses, or 0."""
    record, count = case.record, int.from_bytes(case.data[4:8], "little")
    return managers.first_hit([
        (12, count + managers.counted(record, case.by) <= managers.limits(record)[case.by]),
        (34, count + managers.counted(record) <= record.shelf),
    ])


def is_anothers(case):
    """Whether a stop or a receive asks for a controller that the settings' other manager tracks."""
    one, asked = called(case.record, case.id), case.call in ("stop", "receive") and case.by in managers.limits(case.record)
    return asked and one.tracking is not None and one.managed_by(case.record.manager) != case.by


def is_strangers(case):
    """Whether a call of a known controller is by what is no manager."""
    return case.call in MANAGERS_CALLS and case.by not in managers.limits(case.record) and is_known(case.record, case.id)


def is_known(record, id):
    """Whether the settings name this controller."""
    return id in record.identifiers[:min(record.count, 8)]


# ---- Queue calls

def refusal_of_queue_call(case):
    """What a queue call is answered with on a sound record, with 256 words."""
    known = is_known(case.record, case.id)
    return kept_refusal(case.call, called(case.record, case.id).queue, case.lent_area(), case.data) if known else 2


def queue_answer(case, known):
    """The answer to a done queue call: by hand where it is said what is left, else by the model in queues.py."""
    said = case.known_queue != NOT_SAID
    counted, queue, area, data = (known, *left_by_hand(case)) if said else left_by_model(case)
    record = case.record.copied()
    called(record, case.id).queue = queue
    return given(case, counted, record=record, area=area, data=data)


def left_by_hand(case):
    """The queue, the area and the lent bytes after a done queue call, as they are said."""
    area = bytearray(case.lent_area())
    for place, entry in case.known_stored.items():
        area[ENTRY * place:ENTRY * (place + 1)] = entry
    return case.known_queue, bytes(area), case.known_taken + case.data[len(case.known_taken):]


def left_by_model(case):
    """The numbers, the queue, the area and the lent bytes after a done queue call."""
    queue, area = called(case.record, case.id).queue, case.lent_area()
    if case.call == "make":
        return numbers(), Kept(len(area) // ENTRY), area, case.data
    if case.call == "post":
        queue, area = after_post(queue, area, case.data)
        return numbers(stopped=queue.stopped), queue, area, case.data
    queue, buffer, count, closing = after_take(queue, area, case.asked, case.data)
    return numbers(taken=count, closing=closing), queue, area, buffer


def passes_two_to_32(case, answered):
    """Whether a done post or take makes a total pass 2^32."""
    queue = called(case.record, case.id).queue
    return case.call == "post" and queue.posted == WORD - 1 or case.call == "take" and queue.taken + answered["taken"] >= WORD
