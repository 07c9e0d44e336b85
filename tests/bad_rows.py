"""Lists of ranges with bad rows (document 02, W3), for the makers of seeded cases."""

END = 2 ** 64


def with_bad_rows(dice, unit, ranges):
    """These ranges, often listed again up to 16 rows, with a rule of a row broken in one of them or in several."""
    rows = (ranges * 16)[:dice.choice([len(ranges), 4, 8, 16, 16])]
    for row in dice.sample(range(len(rows)), min(len(rows), dice.choice([1, 1, 1, 2, 3]))):
        rows[row] = bad_row(dice, unit, *rows[row])
    return rows


def bad_row(dice, unit, start, length):
    """A range that breaks 19, 20 or 21, each as often, at times two of them; made from one that breaks none."""
    last, off = END - unit, dice.choice([1, 512, unit // 2, unit - 1])
    return dice.choice([
        (start, 0), (start + off, 0), (last, 0),
        (start + off, length), (start + off, length), (last + off, 1),
        (last, 2), (last, 2 ** 32 - 1), (END - unit * max(1, length - 1), max(2, length)),
    ])
