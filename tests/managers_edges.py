"""Edges of managers and their limits (document 02, W12) and of their lines, with answers by a small model; and listings that are
known from elsewhere, told by one manager or another, with the answers that they have there.

The model is `Shelf` in managers.py: it knows who tracks which controller with how many ranges, and who is suspended. Whether settings
may be is asked in settings_files.py. Where an answer follows from neither, it stands beside its line.
"""

import itertools
import random

from case import answers_by_line
from edges import case
from managers import MOST_RANGES, TOLD, Shelf, by, dev2_line, settings
from parts import FIRST, LAST, MOST_PART, ONLY
from settings_files import Settings, any_settings, broken, save, spoiled_settings

TWO = Settings(1, 0, 8, 0, 16, 2, 4, 18, (5, 6, 7))
ONE = TWO._replace(second=1, limit2=0, shelf=128)
DEV2 = (dev2_line(TWO), "0")
EIGHT = (5, 6, 7, 8, 9, 10, 11, 12)
MOST_BYTES = 16_383  # of a line
STRANGERS = (3, 0, 5, 65535)  # to a shelf with managers 1 and 2; 5 is a controller


def cases():
    yield from every_byte()
    yield from numbers_of_a_line()
    yield from words_of_a_line()
    yield from long_lengths()
    yield from last_lines()
    yield from [short_line_case(), long_line_case()]
    yield from at_the_limits()
    yield from made_from_files()
    yield from every_state()
    yield from each_limit()
    yield from small_limits()
    yield from every_row()
    yield from long_walks()


# ---- Which lines are good, and how long

def every_byte():
    """Each byte but the line feed, before, in and after lines with `dev2` and with `by`. Nobody is tracked."""
    for byte in range(256):
        if byte != 0x0A:
            b = chr(byte)
            space, digit = b == " ", b in "0123456789"
            yield case(f"byte {byte:02X}h in lines of managers", [
                DEV2,
                (f"{b}dev2 1 0 8 0 16 2 4 18 5 6", "bad"),
                (f"{b}ev2 1 0 8 0 16 2 4 18 5 6", "0" if b == "d" else "bad"),
                (f"dev{b} 1 0 8 0 16 2 4 18 5 6", "0" if b == "2" else "bad"),
                (f"dev2{b} 1 0 8 0 16 2 4 18 5 6", "bad"),
                (f"dev2{b}1 0 8 0 16 2 4 18 5 6", "0" if space else "bad"),
                (f"dev2 1 0 8 0 16{b}2 4 18 5 6", "0" if space else "16" if digit else "bad"),  # a limit of 1,602 and more
                (f"dev2 1 0 8 0 16 2{b}4 18 5 6", "0" if space or digit else "bad"),  # second manager 204 and others
                (f"dev2 1 0 8 0 16 2 4{b}18 5 6", "0" if space else "16" if digit else "bad"),  # a limit of 4,018 and more
                (f"dev2 1 0 8 0 16 2 4 18{b}5 6", "0" if space else "16" if digit else "bad"),  # a shelf limit of 1,805 and more
                (f"dev2 1 0 8 0 16 {b} 4 18 5 6", ("16" if b in "156" else "0") if digit else "bad"),
                (f"dev2 1 0 8 0 16 {b} 0 18 5 6", ("16" if b in "56" else "0") if digit else "bad"),
                (f"dev2 1 0 8 0 16 2 {b} 18 5 6", "0" if digit else "bad"),
                (f"dev2 1 0 8 0 16 2 4 {b} 5 6", "0" if digit else "bad"),
                (f"dev2 1 0 8 0 16 2 4 18 5 6{b}", "0" if digit else "bad"),
                DEV2,
                (f"{b}by 1 stop 5", "bad"),
                (f"{b}y 1 stop 5", "5" if b == "b" else "bad"),
                (f"b{b} 1 stop 5", "5" if b == "y" else "bad"),
                (f"by{b}1 stop 5", "5" if space else "bad"),
                (f"by {b} stop 5", "5" if b in "12" else "2" if digit else "bad"),
                (f"by 2{b} stop 5", "2" if digit else "bad"),
                (f"by {b}2 stop 5", "2" if digit and b != "0" else "bad"),
                (f"by 2{b}stop 5", "5" if space else "bad"),
                (f"by 2 {b}stop 5", "bad"),
                (f"by 2 {b}top 5", "5" if b == "s" else "bad"),
                (f"by 2 stop{b}5", "5" if space else "bad"),
                (f"by 2 stop {b}", "5" if b in "567" else "2" if digit else "bad"),
                (f"by 2 stop 5{b}", "2" if digit else "bad"),
                (f"by {b}", "bad"),
                (f"by 2{b}", "bad"),
                (f"by 2 {b}", "bad"),
                ("by 2 stop 5", "5"),
            ])


# about each border, and what would be a good number if it were cut to 8, 16, 32 or 64 bits
NUMBERS = [0, 1, 2, 3, 5, 8, 20, 21, 127, 128, 129, 255, 256, 257, 258, 264, 384, 32_767, 32_768, 65_535, 65_536, 65_537, 65_538, 65_664, 2 ** 31,
           2 ** 32 - 1, 2 ** 32, 2 ** 32 + 1, 2 ** 63, 2 ** 64 - 1, 2 ** 64, 2 ** 64 + 1, 2 ** 64 + 2, 10 * 2 ** 64, 10 ** 40]
GREATEST = {"least": 255, "greatest": 255, "rule": 1}  # all other fields have 16 bits


def numbers_of_a_line():
    """Each number in each field: one that doesn't fit is bad, and with a leading zero each is."""
    for number in NUMBERS:
        rows = [DEV2]
        for one, field in itertools.product((TWO, ONE), Settings._fields[:-1]):
            rows += [made(one._replace(**{field: number}), number <= GREATEST.get(field, 65_535)), made(one._replace(**{field: f"0{number}"}), False)]
        for place in range(8):
            names = tuple(range(10, 18))
            rows += [made(TWO._replace(names=(*names[:place], number, *names[place + 1:])), number < 2 ** 16),
                     made(TWO._replace(names=(*names[:place], f"0{number}", *names[place + 1:])), False)]
        answer = "5" if number in (1, 2) else "2" if number < 2 ** 16 else "bad"
        controllers = "5" if number in TWO.names else "2" if number < 2 ** 16 else "bad"
        rows += [DEV2, (by(number, "stop 5"), answer), (by(f"0{number}", "stop 5"), "bad"), (by(2, f"stop {number}"), controllers),
                 (by(2, f"stop 0{number}"), "bad"), (by(3, f"stop {number}"), "2" if number < 2 ** 16 else "bad"), ("stop 5", "5")]
        yield case(f"the number {number} in lines of managers", rows)


def made(one, good=True):
    """A `dev2` line, which may be bad, and its answer."""
    return dev2_line(one), ("16" if broken(one) else "0") if good else "bad"


def words_of_a_line():
    """0 to 25 identifiers, lines that end too early, and `by` before each word."""
    names = tuple(range(5, 30))
    yield case("0 to 25 identifiers in a dev2", [made(one._replace(names=names[:count]), count <= 8) for one in (TWO, ONE) for count in range(26)])
    words = dev2_line(TWO).split(" ")
    yield case("a dev2 that ends too early", [DEV2, *((" ".join(words[:count]), "bad") for count in range(1, 9)), (" ".join(words[:9]), "16"), ("stop 5", "5")])
    good = {"start": ("5 0 0 1", "0"), "stop": ("6", "5"), "recv": ("6 64", "5"), "susp": ("6 0", "0"), "resume": ("6", "13"), "part": ("6 1 0 0 1 00000000", "13"),
            "dev": ("1 0 8 0 16 5 6", None), "dev2": ("1 0 8 0 16 2 4 18 5 6 7", None), "write": ("6 0 1", None), "batch": ("6 0 1", None),
            "burst": ("1 6 0 1", None), "queue": ("6 64", None), "post": ("6 64 -", None), "take": ("6 64 1 32", None), "old": ("-", None), "new": ("-", None),
            "save": ("1 1 0 8 0 16 1 0 128 5 6", None), "by": ("1 stop 6", None), "log": ("6", None), "": ("", None), "stopp": ("6", None)}
    for word, (numbers, answer) in good.items():
        line = f"{word} {numbers}"
        told = [(by(2, line), answer or "bad"), (by(3, line), "2" if answer else "bad"), (by(2, by(1, line)), "bad"), (f"by {line}", "bad")]
        bad = [(by(2, some), "bad") for some in (word, f"{word} ", f"{line} ", f" {line}", f"{line}x", f"{word}  {numbers}", f"{line} 0 0 0 x", word.upper())]
        yield case(f"by before the word {word!r}", [DEV2, *told, *bad, ("by 2 stop 7", "5")])


def long_lengths():
    """Lines about the greatest length: each is one `bad`, and the next is read from its beginning. Only a part may have so many digits; 5
    isn't suspended."""
    heads = ["by ", "by 1 ", "by 1 stop ", "by 1 start 5 0 ", "dev2 ", dev2_line(TWO), dev2_line(TWO) + " "]
    for length in (1023, 1024, 4095, 4096, *range(8_218, 8_224), *range(MOST_BYTES - 1, MOST_BYTES + 3), 16_392, 32_768, 65_536):
        lines = [(head + filling * (length - len(head)), "bad") for head in heads for filling in "0 x"]
        lines += [(f"by 1{filling * (length - 10)}stop 5", "bad") for filling in "1 x"]
        digits = length - len("by 1 part 5 1 0 0 1 ")
        lines += [(f"by 1 part 5 1 0 0 1 {'0' * digits}", "13" if digits % 2 == 0 and digits <= 2 * MOST_PART else "bad")]
        yield case(f"lines of managers of {length} bytes", [DEV2, *lines, ("by 2 stop 5", "5")])


def last_lines():
    """A last line without a line feed is a line like any other."""
    for last in (made(ONE), made(TWO._replace(second=1)), (dev2_line(TWO) + " ", "bad"), ("by 2 stop 5", "5"), ("by 3 stop 5", "2"), ("by 2 start 5 0 0 1", "0"),
                 ("by 2 start 5 0 1 1", "20 0"), ("by 2 stop", "bad"), ("by 2 ", "bad"), ("by 2", "bad"), ("by", "bad")):
        yield case(f"a last line {last[0]!r} without a line feed", [DEV2, last])._replace(ended=False)


# ---- Settings

def at_the_limits():
    """Every combination at the limits; behind each line a stop shows who the managers are: a refused `dev2` leaves the device."""
    for (least, greatest), rule, names in itertools.product(((0, 0), (20, 20), (0, 21), (9, 8)), (0, 1), ((), (0,), (5, 6), (5, 5), (2, 3, 4, 5, 6, 7, 8, 65535))):
        rows, device = [DEV2], TWO
        for limit, second, limit2, shelf in itertools.product((0, 128, 129), (1, 0, 65535, 9), (0, 128, 129), (0, 127, 128, 129)):
            one = Settings(1, least, greatest, rule, limit, second, limit2, shelf, names)
            device = device if broken(one) else one
            rows += [made(one), Shelf(device).stop(9, 5)]
        yield case(f"granularities {least} to {greatest}, rule {rule}, {len(names)} names of a dev2 at the limits", rows)


def made_from_files():
    """Settings by chance: a `dev2` is 16 exactly if a version 2 file can't hold them. A done one is tried by both managers."""
    dice = random.Random("devices from files")
    for number in range(40):
        rows = []
        for _ in range(12):
            one = any_settings(dice)
            if dice.random() < 0.3:
                one = spoiled_settings(dice, one)
            rows += [save(2, one), made(one)]
            if not broken(one):
                shelf = Shelf(one)
                rows += [any_row(dice, shelf) for _ in range(12)]
            else:
                rows += [DEV2]
        yield case(f"devices from files, {number}", [DEV2, *rows])


# ---- Calls

def every_state():
    """A controller that is off or tracked by each manager, running and suspended, with its state on its way or another's; each call by
    each manager, by none that is said and by strangers, and what is left."""
    calls = [
        ("start", 5, 1), ("start", 5, 5), ("start", 5, 16), ("start", 2, 1), ("stop", 5), ("stop", 1), ("stop", 2), ("stop", 9), ("resume", 5),
        *(("recv", 5, buffer) for buffer in (0, 31, 32, 64)), *(("susp", 5, kind) for kind in (0, 1, 2)), *(("part", 5, kind) for kind in (FIRST, LAST, ONLY)),
    ]
    for tracker, (suspended, owner) in itertools.product((None, 1, 2), ((False, None), (False, 6), (True, None), (True, 5), (True, 6))):
        for (call, *words), manager in itertools.product(calls, (None, 1, 2, *STRANGERS)):
            shelf = Shelf(TWO)
            rows = [shelf.dev(), shelf.start(1, 6, 14)]
            if tracker:
                rows += [shelf.start(tracker, 5, 2), shelf.write(5, 1)]
            if suspended:
                rows += [shelf.susp(2, 5)]
            if owner == 6:
                rows += [shelf.susp(1, 6)]
            if owner:
                rows += [shelf.part(2, owner, FIRST)]
            rows += [getattr(shelf, call)(manager, *words), shelf.write(5, 0)]
            rows += [row for other in (1, 2) for row in (shelf.recv(other, 5, 48), shelf.start(other, 7, 2), shelf.stop(other, 7), shelf.stop(other, 5))]
            name = f"5 tracked by {tracker}, suspended {suspended}, {owner}'s state open: {call} {words} by {manager}"
            yield case(name, [*rows, shelf.part(2, 5, LAST), shelf.resume(1, 5)])


def each_limit():
    """Each limit about borders, as the first one's, the second one's and the shelf's, while the others are 128, or all: filled with 16
    ranges at a time, one too many, and again where one has stopped."""
    for limit, which in itertools.product((0, 1, 2, 15, 16, 17, 31, 32, 33, 63, 64, 65, 111, 112, 113, 126, 127, 128), ("first", "second", "shelf", "own", "all")):
        own = limit if which in ("own", "all") else 128
        one = settings(limit if which == "first" else own, limit if which == "second" else own, limit if which in ("shelf", "all") else 128, EIGHT)
        for turns in ((1,), (2,), (1, 2), (2, 1, 1)):
            shelf, managers = Shelf(one), itertools.cycle(turns)
            rows = [shelf.dev()]
            for name in EIGHT:
                manager, left = next(managers), MOST_RANGES
                while left:  # as many as may be, from one too many on
                    rows.append(shelf.start(manager, name, left))
                    left = 0 if name in shelf.tracks else min(left - 1, max(shelf.limits[manager] - shelf.counted(manager), shelf.shelf - shelf.counted(), 0))
            rows += [shelf.start(manager, name, 1) for name in EIGHT for manager in (1, 2)]
            for name in (5, 12):
                rows += [shelf.stop(manager, name) for manager in (1, 2)]
                rows += [shelf.start(manager, name, count) for count in (16, 15, 2, 1) for manager in (2, 1)]
            yield case(f"limit {limit} of {which}, by {turns} in turn", rows)


def small_limits():
    """Each limit from 0 to 4 of each manager and of the shelf: starts and stops by both, of few ranges."""
    for limit, limit2, shelf_limit in itertools.product(range(5), (None, *range(5)), range(6)):
        shelf, dice = Shelf(settings(limit, limit2, shelf_limit)), random.Random(f"limits {limit} {limit2} {shelf_limit}")
        yield case(f"limits {limit}, {limit2} and {shelf_limit}", [shelf.dev(), *(any_start_or_stop(dice, shelf) for _ in range(60))])


def any_start_or_stop(dice, shelf):
    manager, name = dice.choice([None, 1, 1, 2, 2, 2]), dice.choice(shelf.names)
    if name in shelf.tracks and dice.random() < 0.8:
        return shelf.stop(dice.choice([manager, shelf.tracks[name][0], shelf.tracks[name][0]]), name)
    return shelf.start(manager, name, dice.choice([1, 1, 2, 2, 3, 4, 5]))


def every_row():
    """Each row of three starts and stops of two controllers by two managers, where limits are met at once. Each begins with a device anew."""
    starts = [("start", manager, name, count) for manager in (1, 2) for name in (5, 6) for count in (1, 2)]
    stops = [("stop", manager, name) for manager in (1, 2) for name in (5, 6)]
    for limits in ((1, 1, 1), (1, 1, 2), (2, 1, 2), (2, 2, 3), (0, 2, 1), (3, 1, 3)):
        for first in starts:
            rows = []
            for others in itertools.product(starts + stops, repeat=2):
                shelf = Shelf(settings(*limits, names=(5, 6)))
                rows += [shelf.dev(), *(getattr(shelf, call)(*words) for call, *words in (first, *others))]
            yield case(f"rows of three that begin with {first}, limits {limits}", rows)


def any_row(dice, shelf):
    """Any call, mostly by the manager that may make it."""
    name = dice.choice(shelf.names) if dice.random() < 0.95 else dice.choice([*shelf.limits, 9999])
    manager = dice.choice([None, *shelf.limits]) if dice.random() < 0.93 else dice.choice([*shelf.names, 9999])
    if name in shelf.tracks and dice.random() < 0.6:
        manager = shelf.tracks[name][0]
    kinds = [(shelf.susp, dice.choice([0, 1, 1, 2])), (shelf.resume,), (shelf.part, dice.choice([FIRST, LAST, ONLY])), (shelf.recv, dice.choice([16, 31, 32, 48, 64, 4096]))]
    kinds += [(shelf.start, dice.choice([1, 1, 2, 3, 4, 8, 15, 16]))] * (5 if name not in shelf.tracks else 1)
    kinds += [(shelf.stop,)] * 3 + [(shelf.resume,)] * (4 if name in shelf.suspended else 0)
    if name in shelf.tracks and dice.random() < 0.5:
        return shelf.write(name, dice.randrange(16))
    call, *words = dice.choice(kinds)
    return call(manager, name, *words)


def long_walks():
    """Any calls of up to eight controllers, with a new device now and then."""
    for number in range(60):
        dice, rows = random.Random(f"walk {number}"), []
        while len(rows) < 200:
            limits = [dice.choice([0, 1, 4, 8, 16, 17, 33, 64, 128]) for _ in range(3)]
            limit2, over_both = dice.choice([None, *[limits[1]] * 4]), dice.choice([limits[2], 128, sum(limits[:2]) // 2])
            shelf = Shelf(settings(limits[0], limit2, over_both, EIGHT[:dice.choice([2, 3, 5, 8])]))
            rows += [shelf.dev(), *(any_row(dice, shelf) for _ in range(dice.choice([20, 60, 100])))]
        yield case(f"calls by two managers, {number}", rows)


# ---- Listings from elsewhere

def told_by_the_first(cases):
    """These listings with `by` and the first manager before each line that may have it: no answer is another."""
    for one in cases:
        if one.answers is not None:
            yield told(one, f"{one.name}, told by the first manager", lambda line: line, lambda words: words[1])


def with_dev2(cases):
    """These listings with each `dev` replaced by the `dev2` that means the same: one manager, and shelf limit 128."""
    for one in cases:
        if one.answers is not None:
            yield one._replace(name=f"{one.name}, with dev2", lines=[in_dev2(line, lambda words: [*words[:6], words[1], b"0", b"128", *words[6:]]) for line in one.lines])


def told_by_the_second(cases):
    """These listings where their manager is the second of two, with its limit, and makes all calls. The first one has limit 0."""
    for one in cases:
        if one.answers is not None and not any(line.startswith((b"dev2", b"by ")) for line in one.lines):
            numbers = {word for line in one.lines for word in line.split(b" ")}
            first = next(b"%d" % name for name in range(65_000, 65_536) if b"%d" % name not in numbers)

            def second(line):
                return in_dev2(line, lambda words: [words[0], first, *words[2:5], b"0", words[1], words[5], b"128", *words[6:]])

            yield told(one, f"{one.name}, told by the second manager", second, lambda words: words[6])


def in_dev2(line, changed):
    """A `dev` line with its words changed, as a `dev2`; each other line as it is. One that was bad for a word still has it."""
    words = line.split(b" ")
    if words[0] != b"dev" or len(words) < 6:
        return line
    return b" ".join([b"dev2", *changed(words)[1:]])


def told(one, name, changed, manager_of):
    """A listing with its `dev` lines changed, and with `by` before each line that may have it and each that is bad: both are answered as
    without it. The manager is the one that `manager_of` finds among the words of the last `dev` or `dev2` that was done."""
    lines, manager = [], b"1"
    parts, _ = answers_by_line(len(one.lines), one.answers)
    for line, answer in zip(one.lines, parts):
        word = line.split(b" ")[0]
        line = changed(line)
        if word in (b"dev", b"dev2") and answer == [b"0"]:
            manager = manager_of(line.split(b" "))
        if word.decode("latin-1") in TOLD or answer == [b"bad"]:
            longer = b"by %b %b" % (manager, line)
            line = longer if len(longer) <= MOST_BYTES or answer == [b"bad"] else line
        lines.append(line)
    return one._replace(name=name, lines=lines)


# ---- Short and long lines, also for input in pieces

def short_line_case():
    """Good, damaged and refused lines, the last without its line feed: short enough to be fed byte by byte."""
    return case("good, damaged and refused lines of managers", [
        ("by 1 stop 5", "1"), made(TWO._replace(limit2=129)), DEV2, ("by 2 start 5 0 0 1", "0"), ("by 1 stop 5", "5"), ("by 02 stop 5", "bad"), ("by 2 stop 5 ", "bad"),
        ("by 3 stop 5", "2"), (dev2_line(TWO)[:-1], "bad"), ("by 2 recv 5 32", "0 susp 0 more 0 gran 0 runs 0 groups 1"), ("by 2", "bad"), ("by 2 stop 5", "0"),
    ])._replace(ended=False)


def long_line_case():
    """A part of 4,096 bytes by a manager, starts of 16 ranges, and lines too long, the last without its line feed."""
    part = f"part 5 1 0 0 1024 {'00' * 4096}"
    start = "start 6 0" + " 18446744073709547520 1" * 16
    return case("long lines of managers", [
        made(TWO._replace(limit2=16)), ("by 1 susp 5 1", "0"), (by(2, part), "0 whole 0"), (by(3, part), "2"), (by(2, part + "00" * 5), "bad"),
        (by(2, part + "0" * MOST_BYTES), "bad"), (by(2, start), "0"), (by(1, start), "3"), (by(2, start + " 0 1"), "bad"), (by(2, start + " 0 1" * MOST_BYTES), "bad"),
        ("by " + "2" * MOST_BYTES + " stop 6", "bad"), (dev2_line(TWO) + " 5" * MOST_BYTES, "bad"), ("by 2 stop 6", "0"), ("by 2 stop 6", "5"),
    ])._replace(ended=False)
