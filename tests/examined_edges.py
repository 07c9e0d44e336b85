"""Edges of the groups that a report examines (document 02, W10), with answers by small formulas that stand beside each listing.

A unit is a page here, unless said. Unit m of a guest whose only range begins at 0 lies at 4096 m, in group m / 64, rounded down.
"""

from batches import batch_line, done_line
from edges import END, POOL, case, report

EIGHT = [5, 6, 7, 8, 9, 10, 11, 12]


def cases():
    yield totals()
    yield from second_run_at_each_unit()
    yield from behind_another()
    yield each_room()
    yield from drained()
    yield from cut_in_two()
    yield from sixteen_ranges()
    yield from a_page_before_two_hundred()
    yield from each_granularity()
    yield eight_side_by_side()


def dev(*names):
    return (" ".join(map(str, ["dev 1 0 20 0 128", *names])), "0")


def notes(name, units, unit=4096):
    """A batch that makes these units of a controller pending, none of which is so before."""
    return (batch_line([(name, unit * one, 1) for one in units]), done_line(len(units), len(units)))


def recv(name, buffer, groups, runs, more=0, granularity=0):
    head, *others = report(granularity, runs, more)
    return (f"recv {name} {buffer}", f"{head} groups {groups}", *others)


def buffer_for(room):
    return 16 + 16 * room


def rounded_up(units):
    return -(-units // 64)


def totals():
    """Nothing pending, all pending, and all but the first and the last: all groups."""
    sizes = [*range(1, 200), 255, 256, 257, 4095, 4096, 4097, POOL - 65, POOL - 64, POOL - 63, POOL - 1, POOL]
    rows = [dev(5)]
    for size in sizes:
        all_groups = rounded_up(size)
        rows += [
            (f"start 5 0 0 {size}", "0"),
            recv(5, 32, all_groups, []),
            (f"write 5 0 {END - 1}", f"0 {size}"),
            recv(5, 32, all_groups, [(0, size)]),
            recv(5, 4096, all_groups, []),
            ("stop 5", "0"),
        ]
    return case("groups of each number of units", rows)


def second_run_at_each_unit():
    """Units 0 and m of all, with room for one run; unit m - 1 isn't pending, so m is at least 2. Then m alone: all groups."""
    places = [*range(2, 200), 4095, 4096, *(POOL - less for less in (129, 128, 65, 64, 63, 2, 1))]
    for size in (200, POOL):
        rows = [dev(5), (f"start 5 0 0 {size}", "0")]
        for unit in (one for one in places if one < size):
            rows += [
                notes(5, [0, unit]),
                recv(5, 32, unit // 64 + 1, [(0, 1)], more=1),
                recv(5, 47, rounded_up(size), [(4096 * unit, 1)]),
            ]
        yield case(f"run 2 at each unit of {size}", rows)


def behind_another():
    """Behind so many units of another controller, which begin the pool, the numbers are the same."""
    for before in (1, 5, 31, 59, 60, 63, 64, 65, 100, 127, 128, 8000):
        rows = [dev(5, 6), ("start 6 0 0 200", "0"), (f"start 5 0 0 {before}", "0")]
        for unit in (2, 3, 4, 58, 59, 60, 62, 63, 64, 65, 122, 126, 127, 128, 129, 190, 191, 192, 199):
            rows += [notes(6, [0, unit]), recv(6, 32, unit // 64 + 1, [(0, 1)], more=1), recv(6, 32, 4, [(4096 * unit, 1)])]
        yield case(f"run 2 at units behind {before} of another controller", rows)


def each_room():
    """Every other unit of 600 is pending, so run k + 1 begins at unit 2 k; up to 15 bytes more hold no further run."""
    runs = [(8192 * one, 1) for one in range(300)]
    rows = [dev(5)]
    for room in range(1, 256):
        buffer = min(4096, buffer_for(room) + room % 16)
        rows += [("start 5 0 0 600", "0"), notes(5, range(0, 600, 2)), recv(5, buffer, 2 * room // 64 + 1, runs[:room], more=1), ("stop 5", "0")]
    return case("groups with each room", rows)


def drained():
    """Each 61st unit of 5,000 is pending: report after report, until nothing is left, and one more."""
    runs = [(4096 * unit, 1) for unit in range(0, 5000, 61)]
    for room in (1, 2, 3, 7, 40, 81, 82, 83, 255):
        rows = [dev(5, 6), ("start 6 0 0 77", "0"), ("start 5 0 0 5000", "0"), notes(5, range(0, 5000, 61)), ("susp 5 1", "0")]
        for first in range(0, len(runs), room):
            stays = first + room < len(runs)
            groups = 61 * (first + room) // 64 + 1 if stays else rounded_up(5000)
            head, *others = report(0, runs[first:first + room], int(stays), suspended=1)
            rows.append((f"recv 5 {buffer_for(room)}", f"{head} groups {groups}", *others))
        head, = report(0, [], suspended=1)
        rows.append((f"recv 5 {buffer_for(room)}", f"{head} groups {rounded_up(5000)}"))
        yield case(f"5,000 units drained with room for {room}", rows)


def cut_in_two():
    """200 pages as two ranges, cut at each page: the second run begins there, whether a group does or not."""
    rows = [dev(5, 6), ("start 6 0 0 1", "0")]
    for cut in range(1, 200):
        rows += [
            (f"start 5 0 0 {cut} {4096 * cut} {200 - cut}", "0"),
            ("write 5 0 819200", "0 200"),
            recv(5, 32, cut // 64 + 1, [(0, cut)], more=1),
            recv(5, 32, 4, [(4096 * cut, 200 - cut)]),
            ("write 5 0 819200", "0 200"),
            recv(5, 48, 4, [(0, cut), (4096 * cut, 200 - cut)]),
            ("stop 5", "0"),
        ]
    yield case("200 pages cut in two", rows)


def sixteen_ranges():
    """Sixteen ranges of one length side by side, all pending: run k + 1 begins where k of them end."""
    for length in (1, 3, 4, 5, 31, 32, 33, 63, 64, 65, 100, 127, 128, 129, 1000, 1024):
        ranges = [(4096 * length * row, length) for row in range(16)]
        rows = [dev(5), (" ".join(["start 5 0", *(f"{start} {size}" for start, size in ranges)]), "0")]
        for room in range(1, 18):
            rows += [(f"write 5 0 {END - 1}", f"0 {16 * length if room == 1 else min(room - 1, 16) * length}")]
            groups = length * room // 64 + 1 if room < 16 else rounded_up(16 * length)
            rows += [recv(5, buffer_for(room), groups, ranges[:room], more=int(room < 16))]
        yield case(f"sixteen ranges of {length} units", rows)


def a_page_before_two_hundred():
    """A page, then 200 pages that have it too: the page is unit 0, a page below it has a unit more than its number, and the others
    have their own. Run 1 is the first range's page, run 2 another page, also where it touches."""
    for page in (0, 1, 62, 63, 64, 100, 128, 199):
        rows = [dev(5, 6), ("start 6 0 0 3", "0"), (f"start 5 0 {4096 * page} 1 0 200", "0"), recv(5, 32, 4, [])]
        for other in (one for one in range(200) if one != page):
            unit = other + 1 if other < page else other
            rows += [notes(5, [other, page]), recv(5, 32, unit // 64 + 1, [(4096 * page, 1)], more=1), recv(5, 32, 4, [(4096 * other, 1)])]
        yield case(f"page {page} before 200 pages", rows)


def each_granularity():
    """A group has 64 units of any size."""
    for n in range(21):
        unit = 4096 << n
        yield case(f"groups at granularity {n}", [
            dev(5), (f"start 5 {n} 0 130", "0"), notes(5, [0, 63, 65, 128], unit),
            recv(5, 32, 1, [(0, 1)], 1, n),
            recv(5, 32, 2, [(63 * unit, 1)], 1, n),
            recv(5, 32, 3, [(65 * unit, 1)], 1, n),
            recv(5, 32, 3, [(128 * unit, 1)], 0, n),
        ])


def eight_side_by_side():
    """Eight controllers whose shares begin at 0, 67, 134 and so on. Each has units 0, 64 and 66 pending."""
    rows = [dev(*EIGHT), *((f"start {name} 0 0 67", "0") for name in EIGHT), *(notes(name, [0, 64, 66]) for name in EIGHT)]
    for name in EIGHT:
        rows += [recv(name, 32, 2, [(0, 1)], more=1), recv(name, 32, 2, [(4096 * 64, 1)], more=1), recv(name, 32, 2, [(4096 * 66, 1)])]
    return case("groups of eight side by side", rows)
