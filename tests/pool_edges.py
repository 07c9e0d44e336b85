"""Edges of the pool (document 02, W7): starts that fill it, gaps that are used again, and shares that move over every edge of
words, with answers by small formulas that stand beside each listing.

A start packs the shares in the order of the settings. So those of the controllers behind it move up by its units, and where
one has stopped, those behind it move down by as many with the next start. Their pending pages stay what they were. Pages are
units of granularity 0 and lie from address 0 on unless said.
"""

from itertools import chain, combinations

from batch_edges import runs_of
from edges import END, POOL, case, report

EIGHT = (5, 6, 7, 8, 9, 10, 11, 12)
DEV = ("dev 1 0 20 0 128 " + " ".join(map(str, EIGHT)), "0")
# by how many bits a share is moved: about the edges of one word, of two, of three, and far
MOVES = [1, 2, 3, 31, 32, 33, 61, 62, 63, 64, 65, 66, 126, 127, 128, 129, 130, 191, 192, 193, 255, 256, 257, 1000, 4095, 4096, 4097,
         8191, 8192, 8193, 16_183, 16_184]
PAGES = [0, 1, 3, 61, 62, 63, 64, 65, 67, 126, 127, 128, 130, 191, 192, 198, 199]  # of 200


def cases():
    yield from up_and_down()
    yield from each_gap()
    yield from every_word()
    yield from each_subset_stops()
    yield from filled()
    yield from units_and_ranges()
    yield from overlap_beside_others()
    yield from granularities()


def start(identifier, pages, answer="0", granularity=0):
    return f"start {identifier} {granularity} 0 {pages}", answer


def notes(identifier, pages):
    """The lines that make these pages pending, none of which was: a line for each run."""
    return [(f"write {identifier} {address} {4096 * length}", f"0 {length}") for address, length in runs_of(pages)]


def recv(identifier, buffer, runs, more=0):
    return (f"recv {identifier} {buffer}", *report(0, runs, more))


def up_and_down():
    """A share of 200 pages is moved up by so many bits, and down again; some of its runs are reported between."""
    runs = runs_of(PAGES)
    for units in MOVES:
        yield case(f"a share moves up by {units} bits and down again", [
            DEV,
            start(6, 200),
            *notes(6, PAGES),
            start(5, units),
            recv(6, 48, runs[:2], more=1),
            ("stop 5", "0"),
            recv(6, 48, runs[2:4], more=1),
            start(7, 1 if units < POOL - 200 else units),
            recv(6, 4096, runs[4:]),
            recv(7, 32, []),
            *notes(6, range(200)),
            ("stop 7", "0"),
            start(5, units),
            recv(6, 32, [(0, 200)]),
            recv(5, 32, []),
        ])


def each_gap():
    """A share of each size from 1 to 130 stops between two others, and a controller behind all of them starts."""
    for gap in range(1, 131):
        yield case(f"a gap of {gap} units", [
            DEV,
            start(5, 70), start(6, gap), start(7, 200), start(8, 1),
            *notes(5, [0, 69]), *notes(6, range(gap)), *notes(7, PAGES), *notes(8, [0]),
            ("stop 6", "0"),
            start(9, gap),
            recv(5, 64, runs_of([0, 69])), recv(7, 4096, runs_of(PAGES)), recv(8, 64, [(0, 1)]), recv(9, 64, []),
        ])


def every_word():
    """A share of 16,000 pages, each 61st of them pending, is moved by so many bits; what is reported are all of them."""
    pages = range(0, 16_000, 61)
    runs = runs_of(pages)
    for units in (1, 63, 64, 65, 128, 200, 383, 384):
        yield case(f"16,000 pages move by {units} bits", [
            DEV,
            start(6, 16_000),
            *notes(6, pages),
            start(7, POOL - 16_000 + 1, "11"),
            start(5, units),
            recv(6, 2096, runs[:130], more=1),
            ("stop 5", "0"),
            start(7, POOL - 16_000),
            recv(6, 4096, runs[130:]),
            (f"write 6 0 {END - 1}", "0 16000"),
            recv(6, 32, [(0, 16_000)]),
            recv(7, 32, []),
        ])


SIZES = (2047, 2048, 2049, 1, 63, 4000, 4096, 2080)  # 16,384 in all


def each_subset_stops():
    """Eight shares fill the pool. Each set of them stops, and the first of these takes all the room they leave, though it is
    in pieces: one page more is refused. The others' first and last pages stay pending."""
    sizes = dict(zip(EIGHT, SIZES))
    ends = {identifier: sorted({0, size - 1}) for identifier, size in sizes.items()}
    for stopped in chain.from_iterable(combinations(EIGHT, count) for count in range(1, 8)):
        room = sum(sizes[identifier] for identifier in stopped)
        others = [identifier for identifier in EIGHT if identifier not in stopped]
        yield case(f"controllers {stopped} stop", [
            DEV,
            *(start(identifier, size) for identifier, size in sizes.items()),
            *chain.from_iterable(notes(identifier, ends[identifier]) for identifier in EIGHT),
            *((f"stop {identifier}", "0") for identifier in stopped),
            start(stopped[0], room + 1, "11"),
            start(stopped[0], room),
            *(recv(identifier, 64, runs_of(ends[identifier])) for identifier in others),
            recv(stopped[0], 32, []),
            *((f"write {identifier} 0 {END - 1}", f"0 {sizes[identifier]}") for identifier in others),
            (f"write {stopped[0]} 0 {END - 1}", f"0 {room}"),
            *(recv(identifier, 32, [(0, sizes[identifier])]) for identifier in others),
            recv(stopped[0], 32, [(0, room)]),
        ])


def filled():
    """Shares that fill the pool, started from the first to the last, from the last, and from the middle outwards: nobody has
    room for a unit more, and each has its own pages."""
    orders = {"from the first": (0, 1, 2, 3, 4, 5, 6, 7), "from the last": (7, 6, 5, 4, 3, 2, 1, 0), "outwards": (3, 4, 2, 5, 1, 6, 0, 7)}
    for sizes in ((2048,) * 8, (1,) * 7 + (POOL - 7,), (POOL - 7,) + (1,) * 7, (64,) * 7 + (POOL - 448,), (63, 65) * 3 + (8000, 8000), SIZES):
        for title, order in orders.items():
            left, rows = POOL, [DEV]
            for place in order:
                # All that is left is asked for, and a unit more, before the share itself: only the last start takes all.
                rows += [start(EIGHT[place], left + 1, "11"), start(EIGHT[place], sizes[place])]
                rows += notes(EIGHT[place], [sizes[place] - 1])
                left -= sizes[place]
            rows += [recv(name, 32, [(4096 * (size - 1), 1)]) for name, size in zip(EIGHT, sizes)]
            rows += [(f"write {EIGHT[7]} 0 {END - 1}", f"0 {sizes[7]}"), ("stop 8", "0"), start(8, sizes[3] + 1, "11"), start(8, sizes[3])]
            rows += [recv(EIGHT[7], 32, [(0, sizes[7])]), recv(8, 32, [])]
            yield case(f"shares of {sizes} units, {title}", rows)


def units_and_ranges():
    """So many units and so many ranges are left, and k ranges are asked for, of a page each or all of one page: 11 before
    12."""
    for units in range(5):
        for ranges in range(5):
            rows = [(f"dev 1 0 8 0 {1 + ranges} 5 6", "0"), start(5, POOL - units)]
            for k in range(1, 6):
                for different, pages in ((k, range(k)), (1, [16] * k)):
                    answer = "11" if different > units else "12" if k > ranges else "0"
                    rows += [(f"start 6 0 {' '.join(f'{4096 * page} 1' for page in pages)}", answer)]
                    rows += [("stop 6", "0")] if answer == "0" else []
            yield case(f"{units} units and {ranges} ranges left", rows)


def overlap_beside_others():
    """Another controller holds so many units at the same addresses. Two ranges that share some have what is left, or more."""
    for held in (1, 64, 8000, POOL - 2):
        left = POOL - held
        for shared in sorted({1, left // 2, left}):
            # a and b units that share `shared` of them: a + b - shared are left.
            a = shared + (left - shared) // 2
            b = left + shared - a
            at = 4096 * (a - shared)
            runs = [(0, a)] + ([(4096 * a, b - shared)] if b > shared else [])
            yield case(f"{held} units are held, {a} and {b} share {shared}", [
                DEV,
                start(6, held),
                (f"write 6 0 {END - 1}", f"0 {held}"),
                (f"start 5 0 0 {a} {at + 4096} {b}", "11"),
                (f"start 5 0 0 {a} {at} {b + 1}", "11"),
                (f"start 5 0 0 {a} {at} {b}", "0"),
                (f"write 5 0 {END - 1}", f"0 {left}"),
                recv(5, 64, runs),
                recv(6, 64, [(0, held)]),
            ])


def granularities():
    """Each granularity beside another: units of any size take one bit each, and the reports have their own."""
    for n in range(21):
        unit, other = 2 ** (12 + n), 2 ** (12 + 20 - n)
        yield case(f"granularities {n} and {20 - n} in one pool", [
            DEV,
            start(6, 8192, granularity=n),
            start(7, 8192, granularity=20 - n),
            start(5, 1, "11"),
            (f"write 6 {8192 * unit - 1} 2", "0 1"),
            (f"write 7 {8191 * other - 1} 2", "0 2"),
            ("stop 6", "0"),
            start(5, 8193, "11"),
            start(5, 8191),
            start(6, 1, granularity=n),
            ("recv 7 64", *report(20 - n, [(8190 * other, 2)])),
            ("recv 6 64", *report(n, [])),
            (f"write 6 0 {END - 1}", "0 1"),
            ("recv 6 64", *report(n, [(0, 1)])),
        ])
