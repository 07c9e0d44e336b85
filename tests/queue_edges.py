"""Edges of user-data queues (document 02, W8) and of their lines, with answers by a plain model.

The model is `Queues` in queues.py: a queue is a list of what is queued. It has no ring, no totals and no place, so that
nothing in it can wrap. Where an answer doesn't depend on what is queued, it stands beside its line.
"""

import itertools
import random

from damaged import long_lines
from edges import case
from parts import WORD
from queues import CLOSING, ENTRY, MOST_BUFFER, MOST_ENTRY, MOST_PLACES, MOST_SIZE, WRONG_SIZES
from queues import Queues, any_entry, make_line, numbered, post_line, posted, take_line, taken

DEV = ("dev 1 0 8 0 16 5 6", "0")
NAMES = (5, 6, 7, 8, 9, 10, 65534, 65535)
MOST_BYTES = 16_383  # of a line
HEX = "0123456789abcdef"
A = b"\x0a" * ENTRY
# places: few, and about powers of two
SEVERAL = [*range(2, 20), 31, 32, 33, 63, 64, 65, 127, 128, 129, 255, 256, 257, 511, 512, 513, 1000, 1022, 1023, 1024]


def cases():
    yield from every_byte()
    yield from numbers_of_a_line()
    yield from long_lengths()
    yield from last_lines()
    yield from [short_line_case(), long_line_case()]
    yield from sizes()
    yield from other_sizes()
    yield from lengths_of_an_entry()
    yield from filled_and_drained()
    yield from every_row()
    yield from asked_and_buffers()
    yield every_value()
    yield every_bit()
    yield from the_greatest()
    yield from round_and_round()
    yield from made_anew_at_each_fill()
    yield from other_calls_between()
    yield new_devices()
    yield from long_interleavings()


def queues(*names):
    """The queues of a device with these controllers, 5 and 6 unless said, and the row that makes it."""
    names = names or (5, 6)
    return Queues(*names), ("dev 1 0 8 0 16 " + " ".join(map(str, names)), "0")


# ---- Which lines are good, and how long

def every_byte():
    """Each byte but the line feed, before, in and after lines of queues. The bad ones change nothing."""
    for byte in range(256):
        if byte != 0x0A:
            b = chr(byte)
            space, digit, hexadecimal = b == " ", b in "0123456789", b in HEX
            yield case(f"byte {byte:02X}h in lines of queues", [
                DEV,
                (f"{b}queue 5 96", "bad"),
                (f"{b}ueue 5 96", "0" if b == "q" else "bad"),
                (f"queue{b}5 96", "0" if space else "bad"),
                (f"queue 5{b}96", "0" if space else "bad"),
                (f"queue 5 96{b}", "0" if b == "0" else "28" if digit else "bad"),  # 960 bytes are 30 places
                (f"queue 5 {b}", "28" if digit else "bad"),
                (f"queue {b} 96", "0" if b in "56" else "2" if digit else "bad"),
                ("queue 5 32768", "0"),
                (f"{b}post 5 32768 {A.hex()}", "bad"),
                (f"{b}ost 5 32768 {A.hex()}", posted() if b == "p" else "bad"),
                (f"post{b}5 32768 {A.hex()}", posted() if space else "bad"),
                (f"post 5 32768{b}{A.hex()}", posted() if space else "bad"),
                (f"post 5 32768 {b}{A.hex()[1:]}", posted() if hexadecimal else "bad"),
                (f"post 5 32768 {A.hex()[:31]}{b}{A.hex()[32:]}", posted() if hexadecimal else "bad"),
                (f"post 5 32768 {A.hex()[:-1]}{b}", posted() if hexadecimal else "bad"),
                (f"post 5 32768 {A.hex()}{b}", "bad"),
                (f"post 5 32768 {A.hex()}{b}{b}", "8" if hexadecimal else "bad"),
                (f"post 5 32768 {b}", "8" if b == "-" else "bad"),
                ("queue 5 96", "0"),
                (f"{b}take 5 96 1 32", "bad"),
                (f"{b}ake 5 96 1 32", "0 taken 0 closing 0" if b == "t" else "bad"),
                (f"take{b}5 96 1 32", "0 taken 0 closing 0" if space else "bad"),
                (f"take 5 96{b}1 32", "0 taken 0 closing 0" if space else "bad"),
                (f"take 5 96 1{b}32", "0 taken 0 closing 0" if space else "bad"),
                (f"take 5 96 {b} 32", "0 taken 0 closing 0" if digit else "bad"),
                (f"take 5 96 1 32{b}", "0 taken 0 closing 0" if digit else "bad"),
                (f"take 5 96 1 {b}", "0 taken 0 closing 0" if digit else "bad"),
                ("post 5 96 -", "8"),
            ])


# about each border, and what would be a good number if it were cut to 8, 16, 32 or 64 bits
NUMBERS = [0, 1, 31, 32, 63, 64, 65, 96, 255, 256, 4095, 4096, 4097, 4128, 32_767, 32_768, 32_769, 32_799, 32_800, 32_801, 32_832, 65_535, 65_536,
           65_536 + 96, 2 ** 31, WORD - 1, WORD, WORD + 1, WORD + 96, 2 ** 63, 2 ** 64 - 1, 2 ** 64, 2 ** 64 + 1, 2 ** 64 + 96, 10 * 2 ** 64, 10 ** 40]


def numbers_of_a_line():
    """Each number in each field: one that doesn't fit is bad, and with a leading zero each is."""
    for number in NUMBERS:
        model, dev = queues()
        too_large = [make_line(5, number), post_line(5, number, A), take_line(5, number, 1, 32)] if number > MOST_SIZE else []
        good = number < 2 ** 16  # as an identifier; none of these is a controller's
        yield case(f"the number {number} in lines of queues", [
            dev,
            model.make(5, 96),
            *((line, "bad") for line in too_large),
            model.post(5, 96, A),
            (take_line(5, 96, number, 0), "0 taken 0 closing 0" if number < WORD else "bad"),
            (take_line(5, 96, 0, number), "0 taken 0 closing 0" if number <= MOST_BUFFER else "bad"),
            (make_line(number, 96), "2" if good else "bad"),
            (post_line(number, 96, A), "2" if good else "bad"),
            (take_line(number, 96, 1, 32), "2" if good else "bad"),
            *((line, "bad") for line in (
                make_line(5, f"0{number}"), make_line(f"0{number}", 96), post_line(5, f"0{number}", A), post_line(f"0{number}", 96, A),
                take_line(5, f"0{number}", 1, 32), take_line(f"0{number}", 96, 1, 32), take_line(5, 96, f"0{number}", 32),
                take_line(5, 96, 1, f"0{number}"))),
            model.take(5, 96, 9, 96),
        ])


def long_lengths():
    """A line of more than 16,383 bytes is one `bad`, and so is a shorter one with as many digits; the next is read whole."""
    yield from long_lines([MOST_BYTES, MOST_BYTES + 1])
    for length in (*range(140, 150), 1023, 1024, 4096, MOST_BYTES - 1, MOST_BYTES, MOST_BYTES + 1, MOST_BYTES + 2, 32_768, 65_536):
        head = "post 65535 32768 "
        line = head + "0" * (length - len(head))
        digits = length - len(head)
        answer = "2" if digits % 2 == 0 and digits // 2 <= MOST_ENTRY else "bad"  # 65535 is no controller
        model, dev = queues()
        yield case(f"a post of {length} bytes", [dev, model.make(5, 96), (line, answer), model.post(5, 96, A), (line, answer), model.take(5, 96, 9, 96)])


def last_lines():
    """A last line without a line feed is a line like any other."""
    for last in (("queue 5 64", "0"), ("queue 5 63", "28"), (post_line(5, 96, A), posted()), ("post 5 96 -", "8"), ("post 5 96 ", "bad"),
                 ("take 5 96 1 32", *taken([A])), ("take 5 96 0 32", *taken([])), ("take 5 96 1", "bad"), ("queue 5", "bad")):
        model, dev = queues()
        rows = [dev, model.make(5, 96), model.post(5, 96, A), last]
        yield without_line_feed(case(f"a last line without a line feed: {last[0][:20]}", rows))


def without_line_feed(one):
    return one._replace(ended=False)


# ---- Sizes

def sizes():
    """Each size up to 200 bytes, about each of some numbers of places, and about the greatest: with a queue of none, and made."""
    about = [ENTRY * places + more for places in (7, 8, 9, 31, 32, 64, 100, 128, 256, 511, 512, 1000, 1023, 1024) for more in (-1, 0, 1, 16)]
    for size in [*range(200), *about, *range(32_780, MOST_SIZE + 1)]:
        model, dev = queues()
        rows = [dev, model.post(5, size, A), model.take(5, size, 1, 32), model.make(5, size)]
        rows += [model.post(5, size, A), model.take(5, size, 1, 32), model.post(5, size, A[:-1]), model.take(6, size, 1, 32)]
        yield case(f"an area of {size} bytes", rows)


def other_sizes():
    """Made with one size, posted and taken with each other: 28, and nothing has changed."""
    others = [*range(0, 33 * ENTRY, ENTRY), *WRONG_SIZES, 2048, 4096, 8192, 16_384, 32_704, 32_736, 32_768]
    for places in (2, 3, 4, 5, 8, 16, 32, 64, 512, 1023, 1024):
        model, dev = queues()
        size = places * ENTRY
        rows = [dev, model.make(5, size), model.post(5, size, numbered(1))]
        for other in others:
            if other != size:
                rows += [(post_line(5, other, A), "28"), (take_line(5, other, 1, 32), "28")]
        rows += [model.take(5, size, 9, 96), model.post(5, size, numbered(2)), model.take(5, size, 9, 96)]
        yield case(f"{places} places, and areas of other sizes", rows)


def lengths_of_an_entry():
    """Entries of 0 to 64 bytes, and of more, which are bad: 8, and only the one of 32 is queued."""
    for length in range(MOST_ENTRY + 8):
        model, dev = queues()
        entry = bytes(range(1, length + 1))
        bad = length > MOST_ENTRY
        rows = [dev, model.make(5, 96), (post_line(5, 96, entry), "bad") if bad else model.post(5, 96, entry)]
        rows += [model.take(5, 96, 9, 96), model.make(5, 64), model.post(5, 64, A), model.post(5, 64, A)]
        rows += [(post_line(5, 64, entry), "bad" if bad else "30" if length == ENTRY else "8"), model.take(5, 64, 9, 96)]
        yield case(f"an entry of {length} bytes", rows)


# ---- Filled and drained

def filled_and_drained():
    """A queue of each of several sizes filled until it closes, and a post more; then drained so many at a time. Filled again once
    it is made anew, with its first entries taken before that."""
    for places in SEVERAL:
        size = places * ENTRY
        for step in sorted({1, 2, 3, places - 1, places, 128} if places < 40 else {places // 3, 128}):
            model, dev = queues()
            rows = [dev, model.make(5, size)]
            rows += [model.post(5, size, numbered(number)) for number in range(places + 1)]
            rows += [model.take(5, size, step, MOST_BUFFER) for _ in range(0, places + step, min(step, 128))]
            rows += [model.post(5, size, A), model.make(5, size)]
            rows += [model.post(5, size, numbered(number)) for number in range(places // 2)]
            rows += [model.take(5, size, WORD - 1, min(MOST_BUFFER, ENTRY * step)) for _ in range(0, places // 2 + 1, min(step, 128))]
            rows += [model.post(5, size, numbered(number)) for number in range(100, 101 + places)]
            rows += [model.take(5, size, WORD - 1, MOST_BUFFER) for _ in range(0, places + 1, 128)]
            yield case(f"{places} places, drained {step} at a time", rows)


def every_row():
    """Every row of five posts and takes of one or of all, in queues of 2 to 6 places, from each place on."""
    for places in range(2, 7):
        size = places * ENTRY
        for place in range(places):
            for row in itertools.product("pta", repeat=5):
                model, dev = queues()
                rows = [dev, model.make(5, size)]
                for number in range(place):
                    rows += [model.post(5, size, numbered(number)), model.take(5, size, 1, 32)]
                for number, kind in enumerate(row):
                    rows.append(model.post(5, size, numbered(16 + number)) if kind == "p" else model.take(5, size, 1 if kind == "t" else 9, 192))
                rows.append(model.take(5, size, 9, 192))
                yield case(f"{places} places, from place {place} on: {''.join(row)}", rows)


def asked_and_buffers():
    """Each number asked for with each buffer, of a queue of six places with 0 to 6 queued, from its last place on."""
    for queued in range(7):
        for buffer in (0, 1, 16, 31, 32, 33, 63, 64, 65, 95, 96, 97, 127, 128, 159, 160, 191, 192, 193, 223, 224, 1000, 4095, 4096):
            model, dev = queues()
            rows = [dev]
            for asked in (0, 1, 2, 3, 4, 5, 6, 7, 8, 255, 256, 65_535, 65_536, 65_537, 2 ** 31, WORD - 1):
                rows.append(model.make(5, 192))
                rows += [model.post(5, 192, numbered(number)) for number in range(5)]
                rows.append(model.take(5, 192, 5, 160))
                rows += [model.post(5, 192, numbered(16 + number)) for number in range(queued)]
                rows += [model.take(5, 192, asked, buffer), model.take(5, 192, 9, 224)]
            yield case(f"{queued} queued, a buffer of {buffer}", rows)


def every_value():
    """Each byte's value as 32 of it, in order, and then each entry again from the other end."""
    model, dev = queues()
    size = 1024 * ENTRY
    entries = [bytes([value]) * ENTRY for value in range(256)]
    rows = [dev, model.make(5, size)]
    rows += [model.post(5, size, entry) for entry in entries + entries[::-1]]
    rows += [model.take(5, size, asked, MOST_BUFFER) for asked in (1, 100, 1000, 1000, 1000, 1000, 1000)]
    return case("entries of each byte's value", rows)


def every_bit():
    """Each of an entry's 256 bits alone, and each alone clear."""
    model, dev = queues()
    size = 600 * ENTRY
    rows = [dev, model.make(6, size)]
    for bit in range(8 * ENTRY):
        one = (1 << bit).to_bytes(ENTRY, "little")
        rows += [model.post(6, size, one), model.post(6, size, bytes(255 - byte for byte in one))]
    rows += [model.take(6, size, 4096, MOST_BUFFER) for _ in range(5)]
    return case("entries of one bit, and of all but one", rows)


def the_greatest():
    """1,024 places, and a place or two fewer: filled to the closing one from several places on, and drained 128 at a time, the
    last entry alone, or all but it first."""
    for places in (MOST_PLACES - 2, MOST_PLACES - 1, MOST_PLACES):
        size = places * ENTRY
        for place in (0, 1, places // 2, places - 1):
            model, dev = queues()
            rows = [dev, model.make(5, size)]
            rows += [model.post(5, size, numbered(number)) for number in range(place)]
            rows += [model.take(5, size, WORD - 1, MOST_BUFFER) for _ in range(0, place, 128)]
            rows += [model.post(5, size, numbered(5000 + number)) for number in range(places + 1)]
            rows += [model.take(5, size, 127, MOST_BUFFER) for _ in range(0, places - 128, 127)]
            rest = len(model.of[5].queued)
            rows += [model.take(5, size, rest - 1, MOST_BUFFER), model.take(5, size, rest, 31), model.take(5, size, rest, 63)]
            rows += [model.take(5, size, 1, 32), model.post(5, size, A)]
            yield case(f"{places} places, from place {place} on", rows)


def round_and_round():
    """Many times around the area of each of several sizes, with so many always queued: at times a take has entries from both of
    its ends. At last it closes, wherever it stands."""
    for places in [*range(2, 12), 31, 32, 33, 100]:
        size = places * ENTRY
        for kept, step in {(0, 1), (1, 1), (0, places - 1), (max(0, places - 3), 2), (places // 2, max(1, places // 2 - 1))}:
            if kept + step >= places:
                continue
            model, dev = queues()
            number = itertools.count()
            rows = [dev, model.make(5, size)]
            rows += [model.post(5, size, numbered(next(number))) for _ in range(kept)]
            for _ in range(max(5, 4 * places // step)):
                rows += [model.post(5, size, numbered(next(number))) for _ in range(step)]
                rows.append(model.take(5, size, step, MOST_BUFFER))
            rows += [model.post(5, size, numbered(next(number))) for _ in range(places - kept + 1)]
            rows += [model.take(5, size, WORD - 1, MOST_BUFFER), model.take(5, size, 1, 32)]
            yield case(f"{places} places round and round, {kept} kept, {step} at a time", rows)


def made_anew_at_each_fill():
    """Made anew with 0 to all places filled, as large, larger or smaller, beside another's queue that stays."""
    for places in (2, 3, 5, 8):
        for fill in range(places + 1):
            for after in (2, places, places + 1, MOST_PLACES):
                model, dev = queues()
                size, new = places * ENTRY, after * ENTRY
                rows = [dev, model.make(5, size), model.make(6, size), model.post(6, size, numbered(77))]
                rows += [model.post(5, size, numbered(number)) for number in range(fill)]
                rows += [model.make(5, new), model.take(5, new, 9, 320), model.post(5, new, numbered(50)), model.post(5, size, A)]
                rows += [model.take(5, new, 9, 320), model.take(6, size, 9, 320)]
                yield case(f"{places} places made anew with {after}, {fill} filled", rows)


# ---- Other calls

def other_calls_between():
    """Each other call between any two of a queue's calls: nothing of the queue changes."""
    others = [
        [("start 5 0 65536 4", "0"), ("stop 5", "0")],
        [("susp 5 1", "0"), ("resume 5", "0")],
        [("susp 5 1", "0"), ("part 5 1 0 0 1 00000000", "0 whole 0"), ("resume 5", "0")],
        [("start 6 0 65536 4", "0"), ("write 6 65536 1", "0 1"), ("recv 6 32", "0 susp 0 more 0 gran 0 runs 1", "65536 1"), ("stop 6", "0")],
        [("batch 5 0 1 6 0 1", "0 done 2 new 0 refusal 0"), ("burst 3 9 0 1", "0 done 0 new 0 refusal 2")],
        [("stop 5", "5"), ("resume 5", "13"), ("susp 5 2", "15"), ("recv 5 64", "5"), ("start 5 0", "18 0"), ("write 5 1 18446744073709551615", "0 0")],
        [("dev 1 0 8 0 129 5 6", "16"), ("dev 1 0 8 0 16 5 5", "16"), ("queue 5 63", "28"), ("queue 7 64", "2"), ("queue", "bad")],
        [("queue 6 32768", "0"), (post_line(6, 32_768, CLOSING), posted()), ("take 6 32768 1 32", *taken([CLOSING]))],
    ]
    for number, between in enumerate(others):
        for places in (2, 3, 4):
            model, dev = queues()
            size, rows = places * ENTRY, [dev, *between]
            calls = [lambda: model.make(5, size)]
            calls += [lambda entry=numbered(one): model.post(5, size, entry) for one in range(places + 1)]
            calls += [lambda: model.take(5, size, 1, 32), lambda: model.post(5, size, A), lambda: model.take(5, size, 9, 128)]
            calls += [lambda: model.post(5, size, A), lambda: model.make(5, size), lambda: model.post(5, size, A)]
            for call in calls:
                rows += [call(), *between]
            yield case(f"other calls between those of a queue: {number}, {places} places", rows)


def new_devices():
    """A done `dev` makes all queues go away, whatever was queued, in whichever places its controllers stand."""
    rows = []
    for count in (1, 2, 5, 8, 8, 3):
        names = NAMES[-count:] if count == 5 else NAMES[:count]
        model, dev = queues(*names)
        rows.append(dev)
        for name in names:
            rows += [model.post(name, 96, A), model.take(name, 64, 1, 32), model.take(name, 63, 1, 32)]
        for turn, name in enumerate(names):
            size = (2 + turn % 3) * ENTRY
            rows += [model.make(name, size), model.take(name, size, 9, 96)]
            rows += [model.post(name, size, numbered(one)) for one in range(1 + turn % 4)]
        rows += [model.take(name, (2 + turn % 3) * ENTRY, 9, 96) for turn, name in enumerate(names) if turn % 2]
    return case("new devices with queues", rows)


# ---- At random, against the model

def long_interleavings():
    """Long rows of calls of up to eight controllers, from seeds that are always the same: posts more often than takes, or less
    often, so that some queues close early and others go round and round. Some have larger queues, and many posts at a time."""
    for number in range(60):
        yield case(f"a long interleaving: {number}", interleaving(random.Random(f"queues {number}"), many=number % 10 == 9))


def interleaving(dice, many):
    names = NAMES[:dice.choice([1, 2, 3, 8])]
    model, dev = queues(*names)
    posts, rows = dice.choice([0.35, 0.5, 0.6]), [dev]
    while len(rows) < (600 if many else 300):
        name = dice.choice(names) if dice.random() < 0.97 else dice.choice([1, 4, 11, 65533])
        queue, made_anew = model.of.get(name), dice.random()
        if made_anew < (0.7 if not queue else 0.1 if queue.stopped else 0.01):
            places = dice.choice([60, 64, 100, 128, 250] if many else [2, 2, 3, 3, 4, 5, 6, 7, 8, 9, 16, 17])
            rows.append(model.make(name, ENTRY * places if dice.random() < 0.95 else dice.choice(WRONG_SIZES)))
            continue
        size = ENTRY * queue.places if queue and dice.random() < 0.98 else dice.choice([*WRONG_SIZES, *[64, 96, 128] * 5])
        if dice.random() < posts:
            for _ in range(dice.choice([1, 20, 60]) if many else 1):
                entry = any_entry(dice) if dice.random() < 0.97 else dice.randbytes(dice.choice([0, 31, 33, 64]))
                rows.append(model.post(name, size, entry))
        else:
            asked = dice.choice([0, 1, 1, 2, 3, 5, 40, 1000, WORD - 1])
            rows.append(model.take(name, size, asked, dice.choice([0, 31, 32, 63, 64, 96, 100, 1000, 4096, dice.randrange(MOST_BUFFER + 1)])))
    return rows


# ---- Short and long lines, also for input in pieces

def short_line_case():
    """Good, damaged and refused lines of queues, the last without its line feed: short enough to be fed byte by byte."""
    model, dev = queues()
    return without_line_feed(case("good, damaged and refused lines of queues", [
        ("queue 5 64", "1"),
        dev,
        model.take(5, 64, 1, 32),
        model.make(5, 64),
        ("queue 5 64 ", "bad"),
        model.make(6, 65),
        model.post(5, 64, numbered(1)),
        (f"post 5 64 {A.hex()}0", "bad"),
        model.post(5, 64, A[:-1]),
        model.post(5, 64, numbered(2)),
        model.post(5, 64, numbered(3)),
        ("take 5 64 1 32 ", "bad"),
        model.take(5, 64, 9, 63),
        model.take(5, 64, 9, 64),
        model.take(5, 64, 9, 64),
    ]))


def long_line_case():
    """Takes of 128 entries, posts of too many digits and lines too long, the last without its line feed."""
    model, dev = queues()
    return without_line_feed(case("takes of 128 entries", [
        dev,
        model.make(5, 32_768),
        *(model.post(5, 32_768, numbered(number)) for number in range(300)),
        model.take(5, 32_768, 1000, MOST_BUFFER),
        ("post 5 32768 " + "0" * MOST_BYTES, "bad"),
        ("post 5 32768 " + "0" * 8000, "bad"),
        model.take(5, 32_768, 1000, MOST_BUFFER),
        ("take 5 32768 1" + " " * MOST_BYTES, "bad"),
        model.take(5, 32_768, 1000, MOST_BUFFER),
        model.take(5, 32_768, 1000, MOST_BUFFER),
    ]))
