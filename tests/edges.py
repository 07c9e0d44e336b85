"""Edges of the sizes in documents 01 and 02, with answers by small formulas that stand beside each listing."""

from case import Case, said

END = 2 ** 64
LAST_PAGE = END - 4096
POOL = 16_384  # units of all controllers together (document 02, W7)


def cases():
    yield from each_granularity()
    yield from last_unit_of_memory()
    yield from lengths()
    yield from each_buffer()
    yield many_runs()
    yield every_controller_full()
    yield from limits()
    yield marks_at_word_edges()
    yield from overlap_at_each_granularity()
    yield from overlap_at_the_end_of_memory()
    yield from different_units()
    yield from overlap_at_word_edges()
    yield from each_unit_first()
    yield from parted_runs_in_each_buffer()
    yield from overlap_and_limits()
    yield from each_row()
    yield from each_count()
    yield from rows_at_each_granularity()


def case(name, rows):
    """A case from rows of a line and its answer lines."""
    return Case(name, said(*(row[0] for row in rows)), said(*(answer for row in rows for answer in row[1:])))


def report(granularity, runs, more=0, suspended=0):
    """The answer lines of a report: runs are (address, length in units)."""
    head = f"0 susp {suspended} more {more} gran {granularity} runs {len(runs)}"
    return [head, *(f"{address} {length}" for address, length in runs)]


def each_granularity():
    """At each of the 21 granularities: the unit's first and last byte, and a write over an edge of two units."""
    for n in range(21):
        unit = 2 ** (12 + n)
        start = 16 * unit
        yield case(f"edges of a unit at granularity {n}", [
            ("dev 1 0 20 0 16 5 6", "0"),
            (f"start 5 {n} {start} 4", "0"),
            (f"write 5 {start - 1} 1", "0 0"),
            (f"write 5 {start} 1", "0 1"),
            (f"write 5 {start + unit - 1} 1", "0 0"),
            (f"write 5 {start + unit - 1} 2", "0 1"),
            (f"write 5 {start + 4 * unit - 1} 1", "0 1"),
            (f"write 5 {start + 4 * unit} 1", "0 0"),
            ("recv 5 64", *report(n, [(start, 2), (start + 3 * unit, 1)])),
            (f"write 5 {start - 1} {4 * unit + 2}", "0 4"),
            ("recv 5 64", *report(n, [(start, 4)])),
            (f"start 6 {n} {start + unit // 2} 1", "20 0"),
            (f"start 6 {n} {start + 1} 1", "20 0"),
        ])


def last_unit_of_memory():
    """The last unit ends at 2^64 exactly, at each granularity."""
    for n in (0, 1, 8, 19, 20):
        unit = 2 ** (12 + n)
        yield case(f"last unit of memory at granularity {n}", [
            ("dev 1 0 20 0 16 5 6", "0"),
            (f"start 5 {n} {END - unit} 1 0 1", "0"),
            (f"start 6 {n} {END - unit} 2", "21 0"),
            (f"write 5 {END - unit - 1} 1", "0 0"),
            (f"write 5 {END - unit - 1} 2", "0 1"),
            (f"write 5 {END - 1} 1", "0 0"),
            (f"write 5 {END - 1} 2", "14"),
            (f"write 5 {END - unit} {unit}", "0 0"),
            (f"write 5 {END - unit} {unit + 1}", "14"),
            ("recv 5 64", *report(n, [(END - unit, 1)])),
            (f"write 5 {END - 1} 1", "0 1"),
            ("write 5 0 1", "0 1"),
            ("recv 5 64", *report(n, [(END - unit, 1), (0, 1)])),
        ])
    yield case("4,096 units that end at 2^64", [
        ("dev 1 0 20 0 16 5", "0"),
        (f"start 5 0 {END - 4096 * 4096} 4096", "0"),
        (f"write 5 {LAST_PAGE - 1} 1", "0 1"),
        (f"write 5 {END - 1} 1", "0 1"),
        (f"write 5 {END - 4096 * 4096} 1", "0 1"),
        ("recv 5 64", *report(0, [(END - 4096 * 4096, 1), (LAST_PAGE - 4096, 2)])),
    ])


def lengths():
    """0, 1, all 16,384 units of the pool and one more, and 4,097, at granularities 0, 8 and 20."""
    for n in (0, 8, 20):
        unit = 2 ** (12 + n)
        yield case(f"lengths in units at granularity {n}", [
            ("dev 1 0 20 0 16 5", "0"),
            (f"start 5 {n} {unit} 0", "19 0"),
            (f"start 5 {n} {unit} {POOL + 1}", "11"),
            (f"start 5 {n} {unit} {POOL} 0 1", "11"),
            (f"start 5 {n} {unit} 1", "0"),
            (f"write 5 0 {END - 1}", "0 1"),
            ("recv 5 32", *report(n, [(unit, 1)])),
            ("stop 5", "0"),
            (f"start 5 {n} {unit} {POOL}", "0"),
            (f"write 5 {2 * unit} {unit}", "0 1"),
            (f"write 5 {POOL * unit} 1", "0 1"),
            (f"write 5 {(POOL + 1) * unit} 1", "0 0"),
            ("recv 5 64", *report(n, [(2 * unit, 1), (POOL * unit, 1)])),
            (f"write 5 0 {END - 1}", f"0 {POOL}"),
            ("recv 5 32", *report(n, [(unit, POOL)])),
            ("stop 5", "0"),
            (f"start 5 {n} 0 1 {unit} {POOL - 1}", "0"),
            (f"write 5 0 {END - 1}", f"0 {POOL}"),
            ("recv 5 64", *report(n, [(0, 1), (unit, POOL - 1)])),
            ("stop 5", "0"),
            (f"start 5 {n} {unit} 4097", "0"),
            (f"write 5 0 {END - 1}", "0 4097"),
        ])


def each_buffer():
    """Buffers of 0 to 64 bytes with five runs pending, and with none: below 32 refusal 8, then (b - 16) / 16 runs."""
    runs = [(65536 + 8192 * i, 1) for i in range(5)]
    for b in range(65):
        room = (b - 16) // 16
        rows = [("dev 1 0 8 0 16 5 6", "0"), ("start 5 0 65536 16", "0"), ("start 6 0 65536 16", "0")]
        rows += [(f"write 5 {address} 1", "0 1") for address, _ in runs]
        if b < 32:
            rows += [(f"recv 5 {b}", "8"), (f"recv 6 {b}", "8"), ("recv 5 4096", *report(0, runs))]
        else:
            rows += [(f"recv 5 {b}", *report(0, runs[:room], more=1)), (f"recv 6 {b}", *report(0, []))]
            rows += [("recv 5 4096", *report(0, runs[room:]))]
        yield case(f"buffer of {b} bytes", rows)


def many_runs():
    """2,048 runs, every other unit of 4,096: 255 fit 4,096 bytes, 254 fit 4,095 bytes."""
    runs = [(8192 * i, 1) for i in range(2048)]
    rows = [("dev 1 0 8 0 16 5", "0"), ("start 5 0 0 4096", "0")]
    rows += [(f"write 5 {address} 1", "0 1") for address, _ in runs]
    for b in (4095, 4096, 4096, 4096, 4096, 4096, 4096, 4096, 4096, 4096):
        room = (b - 16) // 16
        rows.append((f"recv 5 {b}", *report(0, runs[:room], more=1 if len(runs) > room else 0)))
        runs = runs[room:]
    return case("2,048 runs in reports of at most 4,096 bytes", rows)


def every_controller_full():
    """All 8 controllers with 16 ranges of 128 units at limit 128, which are 16,384; granularities 0 to 7, lists from the top
    downwards."""
    identifiers = [5, 6, 7, 8, 9, 10, 65534, 65535]
    rows = [("dev 1 0 8 1 128 " + " ".join(map(str, identifiers)), "0")]
    lists = {}
    for n, identifier in enumerate(identifiers):
        size = 128 * 2 ** (12 + n)
        lists[identifier] = [(size * (40 - 2 * row), 128) for row in range(16)]
        pairs = " ".join(f"{address} {length}" for address, length in lists[identifier])
        rows.append((f"start {identifier} {n} {pairs}", "0"))
    for identifier in identifiers:
        rows.append((f"write {identifier} 0 {END - 1}", "0 2048"))
    for n, identifier in enumerate(identifiers):
        rows.append((f"recv {identifier} 271", *report(n, lists[identifier][:15], more=1)))
    for n, identifier in enumerate(identifiers):
        rows.append((f"susp {identifier} 1", "0"))
        rows.append((f"recv {identifier} 272", *report(n, lists[identifier][15:], suspended=1)))
        rows.append((f"recv {identifier} 272", *report(n, [], suspended=1)))
    return case("all 8 controllers with 16 ranges", rows)


def limits():
    """The eighth controller's 16 ranges pass a limit of 127 and not one of 128."""
    pairs = " ".join(f"{8192 * row} 1" for row in range(16))
    fewer = " ".join(f"{8192 * row} 1" for row in range(15))
    for limit, answer in ((128, "0"), (127, "12")):
        rows = [(f"dev 1 0 8 0 {limit} 5 6 7 8 9 10 11 12", "0")]
        rows += [(f"start {identifier} 0 {pairs}", "0") for identifier in range(5, 12)]
        rows += [(f"start 12 0 {pairs}", answer)]
        rows += [(f"start 12 0 {fewer}", "3" if answer == "0" else "0")]
        rows += [("stop 8", "0"), (f"start 8 0 {pairs}", "0")]
        yield case(f"limit {limit} and 8 controllers", rows)
    rows = [("dev 1 0 8 0 0 5", "0"), ("start 5 0 0 1", "12"), (f"start 5 0 {pairs}", "12"), ("start 5 0", "18 0")]
    yield case("limit 0", rows)


def marks_at_word_edges():
    """Runs that end, begin and cross at every 64th unit, in ranges that don't begin there."""
    rows = [("dev 1 0 8 0 16 5 6", "0"), ("start 5 0 0 63 1048576 130 4194304 3900", "0"), ("start 6 0 0 64", "0")]
    rows += [("write 5 0 4294967296", "0 4093")]
    rows += [("recv 6 64", *report(0, []))]
    rows += [("recv 5 64", *report(0, [(0, 63), (1048576, 130), (4194304, 3900)]))]
    for unit in (62, 63, 64, 65, 127, 128, 129):
        rows.append((f"write 5 {1048576 + 4096 * unit} 1", "0 1"))
    rows += [("recv 5 64", *report(0, [(1048576 + 4096 * 62, 4), (1048576 + 4096 * 127, 3)]))]
    for unit in (0, 2, 3, 3899):
        rows.append((f"write 5 {4194304 + 4096 * unit} 1", "0 1"))
    rows += [("recv 5 32", *report(0, [(4194304, 1)], more=1))]
    rows += [("recv 5 4096", *report(0, [(4194304 + 8192, 2), (4194304 + 4096 * 3899, 1)]))]
    return case("marks at the edges of words", rows)


# ---- Ranges that overlap (document 02, W2): a unit counts once and belongs to the earliest listed

def overlap_at_each_granularity():
    """Units 17 and 18, then 16 to 19, then 15 to 17, which has only 15 left."""
    for n in range(21):
        unit = 2 ** (12 + n)
        yield case(f"overlap at granularity {n}", [
            ("dev 1 0 20 0 16 5", "0"),
            (f"start 5 {n} {17 * unit} 2 {16 * unit} 4 {15 * unit} 3", "0"),
            (f"write 5 {17 * unit - 1} 2", "0 2"),
            (f"write 5 {17 * unit - 1} 2", "0 0"),
            ("recv 5 64", *report(n, [(17 * unit, 1), (16 * unit, 1)])),
            (f"write 5 {15 * unit} {5 * unit}", "0 5"),
            ("recv 5 48", *report(n, [(17 * unit, 2), (16 * unit, 1)], more=1)),
            ("recv 5 48", *report(n, [(19 * unit, 1), (15 * unit, 1)])),
            ("stop 5", "0"),
            (f"start 5 {n} {15 * unit} 3 {16 * unit} 4 {17 * unit} 2", "0"),
            (f"write 5 {15 * unit} {5 * unit}", "0 5"),
            ("recv 5 64", *report(n, [(15 * unit, 3), (18 * unit, 2)])),
        ])


def overlap_at_the_end_of_memory():
    """The last unit alone, then the last k units; then the other way round."""
    for n in (0, 1, 8, 19, 20):
        unit = 2 ** (12 + n)
        for k in (1, 2, 3, 4096, POOL // 2):
            left = [(END - k * unit, k - 1)] if k > 1 else []
            yield case(f"overlap of the last unit and the last {k} at granularity {n}", [
                ("dev 1 0 20 0 16 5 6", "0"),
                (f"start 5 {n} {END - unit} 1 {END - k * unit} {k}", "0"),
                (f"start 6 {n} {END - k * unit} {k} {END - unit} 2", "21 1"),
                (f"start 6 {n} {END - k * unit} {k} {END - unit} 1", "0"),
                (f"write 5 {END - 1} 1", "0 1"),
                (f"write 5 {END - k * unit} {k * unit}", f"0 {k - 1}"),
                ("recv 5 48", *report(n, [(END - unit, 1), *left])),
                (f"write 6 {END - 1} 1", "0 1"),
                (f"write 6 {END - k * unit} {k * unit}", f"0 {k - 1}"),
                ("recv 6 48", *report(n, [(END - k * unit, k)])),
            ])


def different_units():
    """Two ranges of a and b units that share s of them have a + b - s: 16,384 are done, 16,385 are refused with 11."""
    for n in (0, 8, 20):
        unit = 2 ** (12 + n)
        for a, b in ((POOL, POOL), (POOL - 1, POOL), (POOL, 1), (8192, 8193), (16000, 385), (1, POOL)):
            s = a + b - POOL
            above, beside = (a - s + 1) * unit, (a - s + 2) * unit
            own = [((a + 1) * unit, b - s)] if b > s else []
            yield case(f"{a} and {b} units at granularity {n} that share {s}, or one fewer", [
                ("dev 1 0 20 0 16 5", "0"),
                (f"start 5 {n} {unit} {a} {beside} {b}", "11"),
                (f"start 5 {n} {unit} {a} {above} {b} 0 1", "11"),
                (f"start 5 {n} {unit} {a} {above} {b}", "0"),
                (f"write 5 0 {END - 1}", f"0 {POOL}"),
                ("recv 5 64", *report(n, [(unit, a), *own])),
            ])
    for n in (0, 20):
        unit = 2 ** (12 + n)
        rows = [("dev 1 0 20 0 16 5", "0")]
        for length in (POOL + 1, 2 * POOL, 65536 + 1, 2 ** 31, 2 ** 32 - 1):
            for count in (1, 2, 14, 15):
                same = " ".join([f"{unit} {length}"] * count)
                rows += [(f"start 5 {n} {ranges}", "11") for ranges in (same, f"{unit} 1 {same}", f"{same} {unit} 1")]
        rows += [(f"start 5 {n} {' '.join([f'{unit} {POOL}'] * 16)}", "0"), (f"write 5 0 {END - 1}", f"0 {POOL}")]
        yield case(f"equal ranges of any length at granularity {n}", rows)


def overlap_at_word_edges():
    """One unit, about each edge of a word, before all of 200: it stands first, and the rest in two parts."""
    for at in (0, 1, 62, 63, 64, 65, 126, 127, 128, 129, 198, 199):
        parts = [(0, at), (at + 1, 199 - at)]
        runs = [(4096 * at, 1)] + [(4096 * first, length) for first, length in parts if length]
        yield case(f"unit {at} before all of 200", [
            ("dev 1 0 8 0 16 5", "0"),
            (f"start 5 0 {4096 * at} 1 0 200", "0"),
            (f"write 5 {4096 * at} 1", "0 1"),
            ("recv 5 64", *report(0, runs[:1])),
            (f"write 5 0 {4096 * 200}", "0 200"),
            (f"write 5 0 {4096 * 200}", "0 0"),
            ("recv 5 32", *report(0, runs[:1], more=1)),
            ("recv 5 64", *report(0, runs[1:])),
            (f"write 5 0 {4096 * 200}", "0 200"),
            ("recv 5 64", *report(0, runs)),
        ])


def each_unit_first():
    """Of 16 pages each even one is listed before all of them, from above: 8 runs, then the 8 odd ones, one by one."""
    evens, odds = [(4096 * page, 1) for page in range(14, -1, -2)], [(4096 * page, 1) for page in range(1, 16, 2)]
    pairs = " ".join(f"{address} 1" for address, _ in evens)
    for last in ("0 16", "4096 15", "0 16 0 16"):
        rows = [("dev 1 0 8 0 16 5", "0"), (f"start 5 0 {pairs} {last}", "0"), ("write 5 0 65536", "0 16")]
        runs = evens + odds
        while runs:
            rows.append(("recv 5 64", *report(0, runs[:3], more=1 if len(runs) > 3 else 0)))
            runs = runs[3:]
        yield case(f"each even page before {last}", rows)


def parted_runs_in_each_buffer():
    """Four runs: page 18; of pages 16 to 20 those below it and those above; page 15. Buffers of 0 to 96 bytes."""
    runs = [(4096 * 18, 1), (4096 * 16, 2), (4096 * 19, 2), (4096 * 15, 1)]
    for b in range(97):
        room = (b - 16) // 16
        rows = [("dev 1 0 8 0 16 5", "0"), (f"start 5 0 {4096 * 18} 1 {4096 * 16} 5 {4096 * 15} 4", "0")]
        rows += [(f"write 5 {4096 * 15} {4096 * 6}", "0 6")]
        if b < 32:
            rows += [(f"recv 5 {b}", "8"), ("recv 5 4096", *report(0, runs))]
        else:
            rows += [(f"recv 5 {b}", *report(0, runs[:room], more=1 if room < 4 else 0))]
            rows += [("recv 5 4096", *report(0, runs[room:]))]
        yield case(f"parted runs in a buffer of {b} bytes", rows)


def overlap_and_limits():
    """8 controllers with 16 equal ranges each: 128 listed ranges, whatever they share."""
    same, fewer = " ".join(["8192 2"] * 16), " ".join(["8192 2"] * 15)
    for limit, answer in ((128, "0"), (127, "12")):
        rows = [(f"dev 1 0 8 0 {limit} 5 6 7 8 9 10 11 12", "0")]
        rows += [(f"start {identifier} 0 {same}", "0") for identifier in range(5, 12)]
        rows += [(f"start 12 0 {same}", answer), (f"start 12 0 {fewer}", "3" if answer == "0" else "0")]
        rows += [(f"write {identifier} 0 {END - 1}", "0 2") for identifier in range(5, 13)]
        rows += [(f"recv {identifier} 64", *report(0, [(8192, 2)])) for identifier in range(5, 13)]
        yield case(f"limit {limit} and 8 controllers with equal ranges", rows)


# ---- Which rule and which row (document 02, W3): the earliest row that breaks a rule, and its first rule of 19, 20, 21

def sixteen_good(unit):
    return [(2 * unit * row, 1) for row in range(16)]


def bad_ranges(unit):
    """For each rule of a row a range that breaks this one alone."""
    return {19: (unit, 0), 20: (unit + unit // 2, 1), 21: (END - unit, 2)}


def start_with(granularity, good, bad):
    """The line of a start with these ranges, some of them replaced: ranges by their row."""
    ranges = [bad.get(row, one) for row, one in enumerate(good)]
    return " ".join(map(str, ["start", 5, granularity, *sum(ranges, ())]))


def each_row():
    """Each rule broken in each of 16 rows, alone and with each rule broken in each later row."""
    for n in (0, 8, 20):
        unit = 2 ** (12 + n)
        good, bad = sixteen_good(unit), bad_ranges(unit)
        for number in bad:
            rows = [("dev 1 0 20 0 16 5", "0")]
            for row in range(16):
                rows += [(start_with(n, good, {row: bad[number]}), f"{number} {row}")]
                rows += [(start_with(n, good, {row: bad[number], later: other}), f"{number} {row}")
                         for later in range(row + 1, 16) for other in bad.values()]
            rows += [(start_with(n, good, {}), "0")]
            yield case(f"{number} in each row at granularity {n}", rows)


def each_count():
    """Lists of 1 to 16 ranges whose last one is bad, or the last but one."""
    for n in (0, 8, 20):
        unit = 2 ** (12 + n)
        good, bad = sixteen_good(unit), bad_ranges(unit)
        rows = [("dev 1 0 20 0 16 5", "0"), (f"start 5 {n}", "18 0")]
        rows += [(start_with(n, good[:count], {row: one}), f"{number} {row}")
                 for count in range(1, 17) for row in (count - 1, max(0, count - 2)) for number, one in bad.items()]
        rows += [(start_with(n, good, {}), "0")]
        yield case(f"the last of 1 to 16 rows at granularity {n}", rows)


def rows_at_each_granularity():
    """Half a unit and the last two halves of memory: faults of row 1 at this granularity, and good at the one below."""
    for n in range(1, 21):
        unit = 2 ** (12 + n)
        yield case(f"faults of row 1 at granularity {n}", [
            ("dev 1 0 20 0 16 5", "0"),
            (f"start 5 {n} 0 1 {unit // 2} 1", "20 1"),
            (f"start 5 {n} 0 1 {END - unit} 2", "21 1"),
            (f"start 5 {n} 0 1 {END - unit // 2} 2", "20 1"),
            (f"start 5 {n - 1} 0 1 {END - unit // 2} 2", "21 1"),
            (f"start 5 {n - 1} 0 1 {unit // 2} 1 {END - unit} 2", "0"),
        ])
