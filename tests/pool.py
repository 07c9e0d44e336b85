"""The pool of units (document 02, W7): how many units a controller has, where its share lies, and what start and stop leave
of the marks.

The marks are one number here, whose bit b is the pool's bit b. A share is cut out of it and shifted to its place.
"""

from overlap import different_units

POOL = 16_384  # units of all tracked controllers together, and bits
WORDS = 256    # of 64 bits


def units(one):
    """How many different units a controller of a record tracks: none where it is off."""
    if not one.tracking:
        return 0
    granularity, count = one.tracking
    return different_units(4096 << granularity, one.ranges[:count])


def used(record):
    """The controllers that the settings count."""
    return record.controllers[:min(record.count, 8)]


def mask(one):
    """The bits of a controller's share. Only that of an unsound record could have more than the pool."""
    return ((1 << min(units(one), POOL)) - 1) << one.base


def masks(record):
    """The bits of all shares."""
    return sum(mask(one) for one in used(record))


def packed(record, new, marks):
    """Moves the shares of a record as an accepted start does: one after another from bit 0, in the order of the settings;
    that of the new controller is clear, and what is off stays. Answers the marks after it, all of them bits of shares."""
    after, at = 0, 0
    for one in used(record):
        if one.tracking:
            after |= 0 if one is new else (marks & mask(one)) >> one.base << at
            one.base, at = at, at + units(one)
    return after


def as_number(words):
    return sum(word << 64 * at for at, word in enumerate(words))


def as_words(number):
    return [number >> 64 * at & 2**64 - 1 for at in range(WORDS)]
