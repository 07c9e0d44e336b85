"""Ranges that overlap (document 02, W2), for the makers of seeded cases."""


def different_units(unit, ranges):
    """How many units these ranges have in all, each counted once: gone over by address, as there may be 2^32 of them."""
    total, end = 0, 0
    for start, after in sorted((start // unit, start // unit + length) for start, length in ranges):
        total += max(0, after - max(start, end))
        end = max(end, after)
    return total


def beside_another(dice, placed, length):
    """Where a row of this length has to do with one of those placed: the same start or end, within it, around it, a unit
    off, touching. Rows are pairs of a unit's number and a length."""
    near, size = dice.choice(placed)
    last = near + size - 1
    return max(0, dice.choice([
        near, near, near + 1, near - 1,
        last, last + 1, last - length + 1, last - length, last - length + 2,
        near - length, near - length + 1,
        near + size // 2, near + (size - length) // 2, dice.randint(near, last),
    ]))
