"""The order of a start's refusals (documents 01 and 02): a listing for every set of rules that one start breaks at once.

Start: 1, 2, 4, 3, 8 (header), 6, 7, 8 (listed ranges), 18, then row by row 19, 20, 21, then 10, 11, 12. The first hit
answers, and of 18 to 21 the row too (W3). 6 and 8 can't be met here, because the session program makes the start
structure from the line; nor can 18 for more than 16 ranges, because such a line is `bad`. 1 has its cases in
by-hand/3-refusals.cases.
"""

from itertools import permutations, product

from case import Case, said

BEFORE_ROWS, OF_A_ROW, AFTER_ROWS = [2, 4, 3, 7], [19, 20, 21], [10, 11, 12]
END = 2 ** 64

WHO = {  # how the named controller stands: what is broken by that alone
    "unknown": {2}, "manager": {2}, "off": set(), "tracked": {3}, "suspended": {4}, "tracked and suspended": {4, 3},
}
GRANULARITY = {"least": set(), "greatest": set(), "below": {7}, "above": {7}, "far above": {7}}
NUMBER = {"least": 1, "greatest": 8, "below": 0, "above": 9, "far above": 255}

# Rows that break rules, each told by the rules that it breaks: every set of them spread over rows, in each order, and
# two in one row. 19 and 21 can't be broken in one row, because a range of length 0 ends where it starts.
BAD_ROWS = [
    *[tuple((rule,) for rule in rules) for size in (1, 2, 3) for rules in permutations(OF_A_ROW, size)],
    *[rows for both, other in (((19, 20), (21,)), ((20, 21), (19,))) for rows in ((both,), (both, other), (other, both))],
]
# What the start lists, and its rows that break rules, before or behind two good ones. Document 02, W2: overlap breaks
# nothing, 11 counts different units, and 12 counts listed ranges; W7: 11 counts those of all controllers.
LISTED = [
    ("good ones", ()), ("no range", ()), ("a unit twice", ()), ("16,384 units, 8,192 different", ()),
    ("within another", ((20,),)), *product(("bad ones first", "good ones first"), BAD_ROWS),
]

HELD = 10  # ranges that controller 6 holds, a unit each
POOL = 16_384


def cases():
    for who, granularity, listed, ten, eleven, twelve in product(WHO, GRANULARITY, LISTED, *[(False, True)] * 3):
        kind, bad_rows = listed
        if kind == "no range" and (ten or eleven or twelve):
            continue  # no range has no length, and adds nothing to the count
        wanted = {18: kind == "no range", 10: ten, 11: eleven, 12: twelve}
        broken = WHO[who] | GRANULARITY[granularity] | {number for number in wanted if wanted[number]}
        yield one_case(who, NUMBER[granularity], kind, bad_rows, broken)


def one_case(who, granularity, kind, bad_rows, broken):
    rows = rows_for(granularity, kind, bad_rows, broken)
    answer = first_hit(broken, [rules for rules, _ in rows])
    identifier = {"unknown": 7, "manager": 1}.get(who, 5)
    lines, answers = before(who, limit_for(who, len(rows), broken))
    lines += said(" ".join(map(str, ["start", identifier, granularity, *(number for _, one in rows for number in one)])))
    answers += said(answer)
    more_lines, more_answers = after(who, granularity, answer)
    name = (f"start of a controller {who} that breaks {sorted(broken) or 'no rule'}, and in rows "
            f"{[list(rules) for rules, _ in rows]}, listed: {kind}")
    return Case(name, lines + more_lines, answers + more_answers)


def first_hit(broken, rows):
    """The answer, by the rules that the start breaks and those that each of its rows breaks."""
    hits = [str(number) for number in BEFORE_ROWS if number in broken]
    hits += ["18 0"] if 18 in broken else []
    hits += [f"{number} {row}" for row, rules in enumerate(rows) for number in OF_A_ROW if number in rules]
    hits += [str(number) for number in AFTER_ROWS if number in broken]
    return next(iter(hits), "0")


def limit_for(who, count, broken):
    """As low as it can be without refusal 12, or one lower."""
    own = 1 if "tracked" in who else 0
    return HELD + own + count - (1 if 12 in broken else 0)


def rows_for(granularity, kind, bad_rows, broken):
    """Rows that break just these rules: what each breaks, and its range. Far apart: 16,384 units of the coarsest granularity
    that is allowed are 2^34 bytes. With 11 they have as many units as there are, of which controller 6 holds ten."""
    unit, far = 2 ** (12 + min(granularity, 20)), 2 ** 40
    long, other = (POOL // 2, POOL // 2) if 11 in broken else (2, 4)
    if 10 in broken:
        long, other = POOL if 11 in broken else 2, 3
    good = [((), (far, long)), ((), (2 * far, other))]
    bad = [(rules, bad_range(rules, unit, (3 + row) * far, other)) for row, rules in enumerate(bad_rows)]
    if kind == "no range":
        return []
    if kind == "bad ones first":
        return bad + good
    if kind == "within another":
        return good + [(rules, (far + unit // 2, 1)) for rules in bad_rows]
    if kind == "a unit twice":
        return good + [((), (far + unit, 1))]
    if kind == "16,384 units, 8,192 different":
        return good + [((), (3 * far, POOL // 2))] * 2
    return good + bad


def bad_range(rules, unit, place, length):
    """A range that breaks just these rules of a row, at this place unless it ends past 2^64."""
    start = END - unit if 21 in rules else place
    return start + (unit // 2 if 20 in rules else 0), 0 if 19 in rules else length


def before(who, limit):
    """Controller 6 holds ten ranges and has a pending unit; 5 stands as `who` says, with a pending unit if tracked."""
    held = " ".join(f"{8192 * row} 1" for row in range(HELD))
    lines = [f"dev 1 1 8 1 {limit} 5 6", f"start 6 1 {held}", "write 6 8192 1"]
    answers = ["0", "0", "0 1"]
    if "tracked" in who:
        lines += ["start 5 1 65536 4", "write 5 73728 1"]
        answers += ["0", "0 1"]
    if "suspended" in who:
        lines += ["susp 5 1"]
        answers += ["0"]
    return said(*lines), said(*answers)


def after(who, granularity, answer):
    """A refused start has changed nothing; a done one tracks with its granularity and nothing pending."""
    suspended = 1 if "suspended" in who else 0
    lines, answers = ["recv 5 64"], ["5"]
    if "tracked" in who:
        answers = [f"0 susp {suspended} more 0 gran 1 runs 1", "73728 1"]
    elif answer == "0":
        answers = [f"0 susp {suspended} more 0 gran {granularity} runs 0"]
    lines += ["recv 6 64"]
    answers += ["0 susp 0 more 0 gran 1 runs 1", "8192 1"]
    return said(*lines), said(*answers)
