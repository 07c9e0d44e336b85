"""Edges of batches (document 02, W4) and of their lines, with answers by small formulas that stand beside each listing.

In each listing controller 5 tracks 4 pages from 65536 unless said, 6 is not tracked, and 7 is unknown.
"""

from batches import MOST_BURST, MOST_BYTES, MOST_LISTED, MOST_TAKEN, batch_line, burst_line, line_of_bytes, write_line
from batches import done_line as done
from damaged import long_lines
from edges import END, case, report

DEV, START = ("dev 1 0 8 0 16 5 6", "0"), ("start 5 0 65536 4", "0")
PAST_END = (5, END - 1, 2)
OVER_AN_EDGE = (5, 65535, 4098)  # marks two units; with a digit less in its length, one
# about the session's greatest length, about usual sizes of a buffer, and about the greatest length of a shelf's line
GOOD_BYTES = [*range(1016, 1034), 2047, 2048, 2049, 4095, 4096, 4097, 8191, 8192, 8193, *range(16_368, MOST_BYTES + 1)]
LONG_BYTES = [*range(MOST_BYTES + 1, 16_400), 16_407, 16_408, 24_576, 32_766, 32_767, 32_768, 32_776, 65_535, 65_536, 65_544, 100_000]
# about the most that a batch takes and a line lists; 341 records fit a line with the longest numbers, 2,729 with the shortest
COUNTS = [0, 1, 2, 3, 341, 342, 512, 1022, 1023, 1024, 1025, 1026, 1027, 1050, 1099, 1100, 1101, 1102, 1200, 2000, 2048, 2729]
# as before, and numbers that would be small if they were cut to 16, 32 or 64 bits
BURSTS = [0, 1, 2, 3, 255, 256, 1022, 1023, 1024, 1025, 1026, 1100, 1101, 1999, 2000, 2001, 2002, 2047, 2048, 4096, 65535, 65536,
          65537, 66560, 2 ** 32 - 1, 2 ** 32, 2 ** 32 + 1, 2 ** 32 + 1024, END - 1, END, END + 1, END + 1024, 10 * END]


def cases():
    yield from every_byte()
    yield from good_lengths()
    yield from long_lengths()
    yield from last_lines()
    yield from [short_line_case(), long_line_case()]
    yield from one_bad_number()
    yield from many_digits()
    yield from counts()
    yield from before_a_device()
    yield from equal_records()
    yield from mixed_batches()


def mixed_batches():
    """Those with batches of different records."""
    yield from cut_at_each_place()
    yield from cut_twice()
    yield from cut_late()
    yield from split_at_each_place()
    yield from many_units()
    yield from eight_controllers()
    yield from eight_controllers_cut()
    yield from each_granularity()


# ---- Which lines are good, and how long

def every_byte():
    """Each byte but the line feed, before, in and after a batch and a burst; 5 is not tracked."""
    for byte in range(256):
        if byte != 0x0A:
            b = chr(byte)
            space, digit = b == " ", b in "0123456789"
            yield case(f"byte {byte:02X}h in a batch", [
                DEV,
                (f"{b}batch", "bad"),
                (f"batch{b}", "bad"),
                (f"{b}atch", good_if(b == "b", 0)),
                (f"{b}batch 5 0 1", "bad"),
                (f"batch{b}5 0 1", good_if(space, 1)),
                (f"batch 5{b}0 1", good_if(space, 1)),
                (f"batch 5 0 {b}", good_if(digit, 1)),
                (f"batch 5 0 1{b}", good_if(digit, 1)),
                (f"batch 5 0 1{b}5 0 1", good_if(space, 2)),
                (f"burst 1 5 0{b}1", good_if(space, 1)),
                (f"burst 1 5 0 {b}", good_if(digit, 1)),
                (f"burst{b}1 5 0 1", good_if(space, 1)),
                (f"{b}urst 1 5 0 1", good_if(b == "b", 1)),
                ("batch", done(0, 0)),
            ])


def good_if(good, count):
    """The answer to so many notes that mark nothing, if the line is good."""
    return done(count, 0) if good else "bad"


def line_and_answer(length, count=None):
    """A line of so many bytes whose last record marks two units, if it is read whole; and its answer."""
    line = line_of_bytes(length, 6, OVER_AN_EDGE, count)
    return line, done(line.count(" ") // 3, 2) if length <= MOST_BYTES else "bad"


def good_lengths():
    """Lines of each length up to 16,383 bytes, of few records and, where they fit, of 1,024."""
    for length in GOOD_BYTES:
        for count in [None, MOST_TAKEN - 1] if length > 7 * MOST_TAKEN else [None]:
            line, answer = line_and_answer(length, count)
            yield case(f"a line of {length} bytes, {line.count(' ') // 3} records", [
                DEV, START,
                (line, answer),
                ("recv 5 64", *report(0, [(65536, 2)])),
                (line, answer),
                ("stop 5", "0"),
            ])


def long_lengths():
    """A longer line is one `bad`, whatever it holds, and the next line is read from its beginning."""
    yield from long_lines([MOST_BYTES - 1, MOST_BYTES, *LONG_BYTES])
    for length in LONG_BYTES:
        yield case(f"records in a line of {length} bytes", [
            DEV, START,
            line_and_answer(length),
            ("batch 5 69632 1", done(1, 1)),
            line_and_answer(length),
            ("recv 5 64", *report(0, [(69632, 1)])),
        ])


def last_lines():
    """A last line without a line feed is a line like any other."""
    short = [("batch", done(0, 0)), ("batch 5 65536 1", done(1, 1)), ("burst 2 7 0 1", done(0, 0, 2)), ("burst 1025 5 0 1", "22"), ("batch 5 0", "bad")]
    for row in [*short, *(line_and_answer(length) for length in range(MOST_BYTES - 1, MOST_BYTES + 3))]:
        yield without_line_feed(case(f"a last line of {len(row[0])} bytes without a line feed", [DEV, START, row]))


def without_line_feed(one):
    return one._replace(ended=False)


def one_bad_number():
    """One number that isn't one, or doesn't fit, among many records: the line is bad, and no record before it is done."""
    wrong = {
        "identifier": ["65536", "65541", "05", "x", ""],
        "address": [str(END), str(END + 65536), "065536", "-1", ""],
        "bytes": [str(END), str(END + 1), "01", "1 1", ""],
    }
    for count in (2, 342, MOST_TAKEN, MOST_TAKEN + 1, MOST_LISTED):
        for place, (field, texts) in enumerate(wrong.items()):
            lines = [with_word(count, row, place, text) for row in (0, 1, count // 2, count - 1) for text in texts]
            rows = [DEV, START, *((line, "bad") for line in lines), ("recv 5 64", *report(0, []))]
            yield case(f"{count} records, one with a wrong {field}", rows)


def with_word(count, row, place, text):
    """The line of so many records with this text in place of one number."""
    words = batch_line([(5, 65536, 1)] * count).split(" ")
    words[1 + 3 * row + place] = text
    return " ".join(words)


def many_digits():
    """Numbers of up to as many digits as a line can have, and more."""
    for digit in "0159":
        for length in (21, 100, 1000, 16_000, MOST_BYTES - len("batch 5 65536 "), MOST_BYTES + 1):
            number = digit * length
            lines = [f"batch 5 65536 {number}", f"batch 5 {number} 1", f"batch {number} 65536 1", f"burst {number} 5 65536 1"]
            yield case(f"numbers of {length} digits {digit}", [DEV, START, *((line, "bad") for line in lines), ("recv 5 64", *report(0, []))])


# ---- How many records

def batch_of(count, record, outcome):
    """The line of a batch of so many equal records, and its answer; `outcome` answers where it is done."""
    line = batch_line([record] * count)
    return line, "bad" if count > MOST_LISTED or len(line) > MOST_BYTES else taken(count, outcome)


def burst_of(count, record, outcome):
    return burst_line(count, record), "bad" if count > MOST_BURST else taken(count, outcome)


def taken(count, outcome):
    return "22" if count > MOST_TAKEN else outcome(count)


def first_marks(count):
    """The first note marks the unit; the others find it pending."""
    return done(count, min(count, 1))


def none_marks(count):
    return done(count, 0)


def first_refused(refusal):
    return lambda count: done(0, 0, refusal if count else 0)


EQUAL = [  # a record that comes again and again, what a batch of it answers, and what single notes do: the first, each other
    ("a unit", (5, 65536, 1), first_marks, "0 1", "0 0"),
    ("beside the range", (5, 65535, 1), none_marks, "0 0", "0 0"),
    ("length 0", (5, 65536, 0), none_marks, "0 0", "0 0"),
    ("the last byte of memory", (5, END - 1, 1), none_marks, "0 0", "0 0"),
    ("not tracked", (6, 65536, 1), none_marks, "0 0", "0 0"),
    ("unknown", (7, 65536, 1), first_refused(2), "2", "2"),
    ("unknown, length 0", (7, 0, 0), first_refused(2), "2", "2"),
    ("the manager's own", (1, 65536, 1), first_refused(2), "2", "2"),
    ("past 2^64", PAST_END, first_refused(14), "14", "14"),
    ("unknown, past 2^64", (7, END - 1, 2), first_refused(2), "2", "2"),
    ("suspended", (8, 65536, 1), first_refused(4), "4", "4"),
    ("suspended, past 2^64", (8, END - 1, 2), first_refused(4), "4", "4"),
]
BEFORE = [("dev 1 0 8 0 16 5 6 8", "0"), START, ("start 8 0 65536 4", "0"), ("susp 8 1", "0")]


def after(answer):
    """The reports after a batch of equal records: 5 has its first unit pending or nothing, and 8 nothing at all."""
    marked = [(65536, 1)] if " new 1 " in answer else []
    return [("recv 5 64", *report(0, marked)), ("recv 8 64", *report(0, [], suspended=1))]


def counts():
    """So many equal records: up to 1,024 a batch is done, above it is 22 and changes nothing, above the line's most `bad`."""
    for name, record, outcome, _, _ in EQUAL:
        lines = {f"batch of {count}": batch_of(count, record, outcome) for count in COUNTS}
        lines |= {f"burst of {count}": burst_of(count, record, outcome) for count in BURSTS}
        for title, (line, answer) in lines.items():
            yield case(f"{title} records: {name}", [*BEFORE, (line, answer), *after(answer)])


def before_a_device():
    """1 comes before 22 and before every note; only the line's form comes before 1."""
    for record in ((5, 65536, 1), (7, 0, 0), PAST_END):
        lines = [*(batch_of(count, record, none_marks) for count in COUNTS), *(burst_of(count, record, none_marks) for count in BURSTS)]
        rows = [(line, "bad" if answer == "bad" else "1") for line, answer in lines]
        yield case(f"before a dev, records {record}", rows)
        rows = [("dev 1 0 8 0 129 5", "16"), *rows, ("dev 1 0 8 0 16 5", "0"), ("batch", done(0, 0))]
        yield case(f"after a refused dev, records {record}", rows)


def equal_records():
    """A burst, a batch of equal records, and as many single notes: the same counts, pending units and reports."""
    for name, record, outcome, first, other in EQUAL:
        for count in (0, 1, 2, 3, 100, MOST_TAKEN):
            singles = [first, *[other] * count][:count]
            ways = {
                "a burst": [burst_of(count, record, outcome)],
                "a batch": [batch_of(count, record, outcome)],
                "single writes": [(write_line(record), answer) for answer in singles],
                "batches of one": [(batch_line([record]), batch_of_one(answer)) for answer in singles],
                "bursts of one": [(burst_line(1, record), batch_of_one(answer)) for answer in singles],
            }
            end = [*after(outcome(count)), ("batch 5 65536 1", done(1, 1))]
            for way, rows in ways.items():
                if all(answer != "bad" for _, answer in rows):  # else so many records with these numbers don't fit a line
                    yield case(f"{count} notes as {way}: {name}", [*BEFORE, *rows, *end])


def batch_of_one(answer):
    """The answer to a batch of one record, by that to its single note."""
    number, _, count = answer.partition(" ")
    return done(1, count) if number == "0" else done(0, 0, number)


# ---- Where it is cut

REFUSED = {  # a record for each refusal of a note
    "2, unknown": ((7, 65536, 1), 2),
    "2, the manager's own": ((1, 65536, 1), 2),
    "4": ((8, 65536, 1), 4),
    "4, not tracked": ((9, 65536, 1), 4),
    "14": ((5, 65536, END - 65535), 14),
    "14, not tracked": ((6, END - 1, END - 1), 14),
}
BEFORE_A_CUT = [("dev 1 0 8 0 16 5 6 8 9", "0"), ("start 5 0 65536 64", "0"), ("start 8 0 65536 4", "0"), ("susp 8 1", "0"), ("susp 9 1", "0")]


def every_other(count):
    """So many runs of one unit: every other page from 65536 on."""
    return [(65536 + 8192 * row, 1) for row in range(count)]


GOOD = [(5, address, 1) for address, _ in every_other(20)]


def cut_at_each_place():
    """20 notes, each of another unit, and a refused one at each place among them: those before stay, those after are not tried."""
    for name, (bad, refusal) in REFUSED.items():
        for at in range(len(GOOD) + 1):
            line = batch_line([*GOOD[:at], bad, *GOOD[at:]])
            yield case(f"cut at {at} by {name}", [
                *BEFORE_A_CUT,
                (line, done(at, at, refusal)),
                (line, done(at, 0, refusal)),
                ("recv 5 4096", *report(0, every_other(at))),
                ("recv 8 64", *report(0, [], suspended=1)),
                (batch_line(GOOD), done(len(GOOD), len(GOOD))),
                ("resume 8", "0"),
                ("batch 8 65536 1", done(1, 1)),
            ])


def cut_twice():
    """Two refused notes in a batch: the first in the list answers."""
    for name, (bad, refusal) in REFUSED.items():
        for other_name, (other, other_refusal) in REFUSED.items():
            for at, apart in ((0, 0), (0, 1), (1, 0), (3, 2), (19, 1)):
                yield case(f"cut at {at} by {name}, and {apart} later by {other_name}", [
                    *BEFORE_A_CUT,
                    (batch_line([*GOOD[:at], bad, *GOOD[at:at + apart], other, *GOOD[at + apart:]]), done(at, at, refusal)),
                    ("recv 5 4096", *report(0, every_other(at))),
                    (batch_line([other, bad]), done(0, 0, other_refusal)),
                ])


def cut_late():
    """1,024 records, the refused one about the first, the middle and the last place; with one more it is 22."""
    good = [(5, 65536 + 4096 * (row % 64), 1) for row in range(MOST_TAKEN - 1)]
    for name, (bad, refusal) in REFUSED.items():
        for at in (0, 1, 2, 511, 512, 513, 1022, 1023):
            records = [*good[:at], bad, *good[at:]]
            yield case(f"1,024 records cut at {at} by {name}", [
                *BEFORE_A_CUT,
                (batch_line([*records, (5, 65536, 1)]), "22"),
                ("recv 5 64", *report(0, [])),
                (batch_line(records), done(at, min(at, 64), refusal)),
                ("recv 5 64", *report(0, [(65536, min(at, 64))] if at else [])),
            ])


def split_at_each_place():
    """One batch, or the same notes in two: the counts add up, and the report is the same."""
    notes = [(5, address, 8192) for address, _ in every_other(32)]
    for at in range(33):
        yield case(f"64 units in two batches, the first of {at} notes", [
            *BEFORE_A_CUT,
            (batch_line(notes[:at]), done(at, 2 * at)),
            (batch_line(notes[at:]), done(32 - at, 64 - 2 * at)),
            (batch_line(notes), done(32, 0)),
            ("recv 5 32", *report(0, [(65536, 64)])),
        ])


# ---- Many units, many controllers, each granularity

def many_units():
    """Notes of a page each, up to 1,024 of 4,096; then of all pages at once. Reports of 4,096 bytes hold 255 runs."""
    chosen = {
        "pages 0 to 1,023": range(1024),
        "the last 1,024 pages": range(3072, 4096),
        "every other page": range(0, 2048, 2),
        "every fourth page, from above": range(4092, -1, -4),
        "the edges of words": [64 * word + bit for word in range(64) for bit in (0, 63)],
    }
    for name, pages in chosen.items():
        runs = runs_of(pages)
        yield case(f"a batch over {name}", [
            ("dev 1 0 8 0 16 5", "0"),
            ("start 5 0 0 4096", "0"),
            (batch_line([(5, 4096 * page, 1) for page in pages]), done(len(pages), len(pages))),
            (batch_line([(5, 4096 * page + 4095, 1) for page in pages]), done(len(pages), 0)),
            *(("recv 5 4096", *report(0, runs[at:at + 255], more=1 if len(runs) > at + 255 else 0)) for at in range(0, len(runs), 255)),
            ("batch 5 0 16777216 5 0 16777216", done(2, 4096)),
            ("recv 5 32", *report(0, [(0, 4096)])),
        ])


def runs_of(pages):
    """Addresses and lengths of the longest rows of consecutive pages."""
    runs = []
    for page in sorted(pages):
        if runs and sum(runs[-1]) == page:
            runs[-1] = (runs[-1][0], runs[-1][1] + 1)
        else:
            runs.append((page, 1))
    return [(4096 * page, length) for page, length in runs]


EIGHT = [5, 6, 7, 8, 9, 10, 65534, 65535]
DEV_OF_EIGHT = ("dev 1 0 8 0 16 " + " ".join(map(str, EIGHT)), "0")
IN_TURN = [(EIGHT[row % 8], 65536 + 4096 * (row // 8), 1) for row in range(MOST_TAKEN)]


def eight_controllers():
    """1,024 notes, the eight controllers in turn, each of 128 pages; all of them tracked, or all but one."""
    for off in (None, *EIGHT):
        tracked = [name for name in EIGHT if name != off]
        yield case(f"eight controllers in turn, not tracked: {off}", [
            DEV_OF_EIGHT,
            *((f"start {name} 0 65536 128", "0") for name in tracked),
            (batch_line(IN_TURN), done(MOST_TAKEN, 128 * len(tracked))),
            *((f"recv {name} 64", *report(0, [(65536, 128)])) for name in tracked),
        ])


def eight_controllers_cut():
    """The same with one of them suspended: those before it in turn have one unit pending, the others none."""
    for at, suspended in enumerate(EIGHT):
        yield case(f"eight controllers in turn, suspended: {suspended}", [
            DEV_OF_EIGHT,
            *((f"start {name} 0 65536 128", "0") for name in EIGHT),
            (f"susp {suspended} 1", "0"),
            (batch_line(IN_TURN), done(at, at, 4)),
            *((f"recv {name} 64", *report(0, [(65536, 1)])) for name in EIGHT[:at]),
            (f"recv {suspended} 64", *report(0, [], suspended=1)),
            *((f"recv {name} 64", *report(0, [])) for name in EIGHT[at + 1:]),
        ])


def each_granularity():
    """Two controllers, of granularities n and 20 - n: each note counts units of its own controller's size."""
    for n in range(21):
        unit, other = 2 ** (12 + n), 2 ** (12 + 20 - n)
        some = [(5, 17 * unit - 1, 2), (6, 17 * other - 1, 2), (5, 17 * unit, unit), (6, 20 * other, 1), (6, 19 * other, other)]
        all_then_cut = [(5, 16 * unit, 4 * unit), (6, 16 * other, 4 * other), (5, END - unit, unit), (6, END - other, other + 1), (5, 0, 1)]
        yield case(f"granularities {n} and {20 - n} in one batch", [
            ("dev 1 0 20 0 16 5 6", "0"),
            (f"start 5 {n} {16 * unit} 4", "0"),
            (f"start 6 {20 - n} {16 * other} 4", "0"),
            (batch_line(some), done(5, 5)),
            (batch_line(all_then_cut), done(3, 3, 14)),
            ("recv 5 64", *report(n, [(16 * unit, 4)])),
            ("recv 6 64", *report(20 - n, [(16 * other, 4)])),
        ])


# ---- Short and long lines, also for input in pieces

def short_line_case():
    """Good, damaged and refused batches, the last without its line feed: short enough to be fed byte by byte."""
    return without_line_feed(case("good, damaged and refused batches", [
        ("batch", "1"),
        DEV, START,
        ("batch", done(0, 0)),
        ("batch 5 65536 1 5 73728 1 7 0 1 5 69632 1", done(2, 2, 2)),
        ("batch ", "bad"),
        ("batch 5 65536", "bad"),
        ("burst 1024 5 65536 1", done(1024, 0)),
        ("burst 1025 5 65536 1", "22"),
        ("burst 2001 5 65536 1", "bad"),
        ("recv 5 64", *report(0, [(65536, 1), (73728, 1)])),
        ("batch 5 0 18446744073709551615 5 0 1", done(2, 4)),
    ]))


def long_line_case():
    """Lines of 16,383 bytes and of one more in turn, the last without its line feed."""
    good, bad = line_and_answer(MOST_BYTES), line_and_answer(MOST_BYTES + 1)
    again = (good[0], good[1].replace(" new 2 ", " new 0 "))
    return without_line_feed(case("lines about 16,383 bytes", [
        DEV, START, good, bad, bad, again, ("recv 5 64", *report(0, [(65536, 2)])), good, bad, again,
    ]))
