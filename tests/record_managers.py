"""Cases of tests/records by hand about managers and their limits (document 02, W12), with the answers that the documents ask for."""

import itertools

from managers import first_hit
from parts import FIRST, LAST, MIDDLE, ONLY, WORD
from record_by_hand import A, BASE_CALLS, BROKEN, EIGHT, MIXED, ONE, SOUND, UNSOUND, base, base_with_rubbish, every_call, lent, orders
from record_by_hand import both, change, changed, closed, counted, full, identifiers, off, opened, settings, shares, sixteen, suspended
from record_by_hand import makes, noted, only_bits, opens, stores, takes, yields
from record_case import ALL_ONES, MANAGERS_CALLS, MEMORY, NOT_SAID, Case, batch, make, part, post, structure, take


# ---- Changes to a record

@change
def two(record, limit2=4, shelf=18, second=2, **values):
    """A second manager, 2 unless said, with this limit, and the shelf's limit; other settings as named."""
    record.second, record.shelf = (second, limit2), shelf
    settings(**values)(record)


@change
def by(record, *managers):
    """Who tracks the first controllers, in their order, or what stands there where one is off; None leaves it as it is."""
    for one, manager in zip(record.controllers, managers):
        one.manager = one.manager if manager is None else manager


@change
def holding(record, *pairs):
    """Controllers 5, 6, 7 and so on run, each with so many ranges of a page, tracked by this manager; with 0 ranges one is off, and
    the manager stands there all the same. Each share begins 100 bits behind the one before."""
    identifiers(*range(5, 5 + len(pairs)))(record)
    for place, (count, manager) in enumerate(pairs):
        one = record.controllers[place]
        one.tracking, one.suspended = None, 0
        if count:
            one.track(0, *sixteen()[:count])
        one.base, one.manager = 100 * place, manager


# ---- Records, in the form of RECORDS in record_by_hand.py: every one is handed to every call, by the first manager

# What the first manager may not do where the second one tracks 5: "stop and receive by the other manager get 5".
OTHERS = {"stop": 5, "receive": 5}

# "The managers' identifiers differ and are not among the controllers, else 16." "In a sound one that manager is in the settings,
# its counts are within its limit, and all counts within the shelf's." On the base 1 is the manager, with limit 16; 5 has 2 ranges,
# and 7 has 1.
RECORDS = [
    ("a second manager", two(), SOUND),
    # "The managers' identifiers differ": in a record, whatever the limit is.
    *[(f"second manager the first, limit {limit}", two(limit, second=1), BROKEN) for limit in (0, 1, 4, 16, 128, 129)],
    ("manager 2, second manager 2", both(settings(manager=2), two()), BROKEN),
    ("manager 0, second manager 0", both(settings(manager=0), two(second=0)), BROKEN),
    # "and are not among the controllers"; unused places are not looked at, and 0, 9 and 65535 stand in some
    *[(f"second manager {id}", two(second=id), SOUND) for id in (0, 3, 8, 9, 255, 1 + 256, 5 + 256, 7 + 256, 65535)],
    *[(f"second manager {id}", two(second=id), BROKEN) for id in (5, 6, 7)],
    ("both managers among the controllers", both(settings(manager=5), two(second=6)), BROKEN),
    ("second manager fourth", both(identifiers(5, 6, 7, 2), two()), BROKEN),
    ("second manager fourth, unused", both(identifiers(5, 6, 7, 2), two(count=3)), SOUND),
    ("second manager eighth", both(identifiers(5, 6, 7, 8, 9, 10, 11, 2), two()), BROKEN),
    ("second manager eighth, unused", both(identifiers(5, 6, 7, 8, 9, 10, 11, 2), two(count=7)), SOUND),
    ("no second manager, 0 among the controllers", identifiers(*EIGHT), SOUND),
    ("second manager 0, among the controllers", both(identifiers(*EIGHT), two(second=0)), BROKEN),
    ("manager 0, second manager 1", both(settings(manager=0), two(second=1)), SOUND),
    ("manager 65535, second manager 0", both(settings(manager=65535), two(second=0)), SOUND),
    # limits of 0 to 128
    *[(f"second manager's limit {limit}", two(limit), SOUND) for limit in (0, 1, 2, 16, 127, 128)],
    *[(f"second manager's limit {limit}", two(limit), BROKEN) for limit in (129, 130, 255, 256, 256 + 4, 384, 32768, 65535)],
    ("limits 128, 128 and 128", two(128, 128, limit=128), SOUND),
    ("limits 129, 128 and 128", two(128, 128, limit=129), BROKEN),
    ("limits 128, 129 and 128", two(129, 128, limit=128), BROKEN),
    ("limits 128, 128 and 129", two(128, 129, limit=128), BROKEN),
    *[(f"shelf limit {shelf}", change_it, SOUND) for shelf in (4, 5, 127, 128) for change_it in (settings(shelf=shelf), two(4, shelf))],
    *[(f"shelf limit {shelf}", change_it, SOUND, {"start": 34}) for shelf in (3,) for change_it in (settings(shelf=shelf), two(4, shelf))],
    *[(f"shelf limit {shelf}", change_it, UNSOUND) for shelf in (0, 1, 2) for change_it in (settings(shelf=shelf), two(4, shelf))],
    *[(f"shelf limit {shelf}", change_it, BROKEN)
      for shelf in (129, 130, 255, 256, 256 + 18, 384, 32768, 65535) for change_it in (settings(shelf=shelf), two(4, shelf))],
    ("shelf limit 0, nothing tracked", both(off(0), off(2), settings(shelf=0)), SOUND, {"start": 34, **OTHERS}),
    ("limits 0 and 0, shelf limit 0, nothing tracked", both(off(0), off(2), two(0, 0, limit=0)), SOUND, {"start": 12, **OTHERS}),
    # 12 comes before 34
    ("limit 3, shelf limit 3", settings(limit=3, shelf=3), SOUND, {"start": 12}),
    ("limit 3, shelf limit 4", settings(limit=3, shelf=4), SOUND, {"start": 12}),
    ("limit 4, shelf limit 3", settings(limit=4, shelf=3), SOUND, {"start": 34}),
    ("limit 2, shelf limit 3", settings(limit=2, shelf=3), UNSOUND),
    ("limit 3, shelf limit 2", settings(limit=3, shelf=2), UNSOUND),
    # "that manager is in the settings": with one manager
    ("5 and 7 tracked by 1", by(1, None, 1), SOUND),
    *[(f"5 tracked by {id}, one manager", by(id), UNSOUND) for id in (0, 2, 3, 5, 6, 7, 9, 1 + 256, 256, 65535)],
    *[(f"7 tracked by {id}, one manager", by(None, None, id), UNSOUND) for id in (0, 2, 5, 7, 1 + 256, 65535)],
    ("manager 0, 5 and 7 tracked by 0", both(settings(manager=0), by(0, None, 0)), SOUND),
    ("manager 0, 5 tracked by 1", both(settings(manager=0), by(1)), UNSOUND),
    ("manager 65535, 7 tracked by 0", both(settings(manager=65535), by(None, None, 0)), UNSOUND),
    # and with two
    ("5 tracked by 2", both(two(), by(2)), SOUND, OTHERS),
    ("7 tracked by 2", both(two(), by(None, None, 2)), SOUND),
    ("5 and 7 tracked by 2", both(two(), by(2, None, 2)), SOUND, OTHERS),
    *[(f"5 tracked by {id}, two managers", both(two(), by(id)), UNSOUND) for id in (0, 3, 5, 6, 7, 9, 1 + 256, 2 + 256, 65535)],
    *[(f"7 tracked by {id}, two managers", both(two(), by(None, None, id)), UNSOUND) for id in (0, 3, 5, 7, 2 + 256, 65535)],
    ("5 tracked by 2, 7 by 3", both(two(), by(2, None, 3)), UNSOUND),
    ("5 tracked by 2, second manager 3", both(two(second=3), by(2)), UNSOUND),
    ("5 tracked by 0, second manager 0", both(two(second=0), by(0)), SOUND, OTHERS),
    ("5 tracked by 65535, second manager 65535", both(two(second=65535), by(65535)), SOUND, OTHERS),
    ("5 tracked by 1, manager 0, second manager 1", both(settings(manager=0), two(second=1), by(1)), SOUND, OTHERS),
    ("5 tracked by 1, manager 0, second manager 2", both(settings(manager=0), two(), by(1)), UNSOUND),
    # "Managers of controllers that are off or not in use are not looked at"
    *[(f"6 off, with manager {id}", both(change_it, by(None, id)), SOUND) for id in (0, 1, 2, 3, 6, 65535) for change_it in (both(), two())],
    *[(f"5 off, with manager {id}", both(change_it, off(0), by(id)), SOUND, OTHERS) for id in (0, 2, 3, 65535) for change_it in (both(), two())],
    ("7 off, with manager 3", both(off(2), by(None, None, 3)), SOUND),
    *[(f"an unused place on, with manager {id}", both(counted(16, place=place), by(*[None] * place, id)), SOUND)
      for place in (3, 7) for id in (0, 1, 2, 3, 65535)],
    ("8's manager 3, off", both(identifiers(5, 6, 7, 8), by(None, None, None, 3)), SOUND),
    ("8 tracked by 3", both(identifiers(5, 6, 7, 8), counted(1, place=3), by(None, None, None, 3)), UNSOUND),
    ("8 tracked by 3, unused", both(identifiers(5, 6, 7, 8), counted(1, place=3), by(None, None, None, 3), settings(count=3)), SOUND),
    ("the last of eight tracked by 8", both(full(128), by(*[None] * 7, 8)), UNSOUND),
    ("the last of eight tracked by 8, off", both(full(112), by(*[None] * 7, 8), off(7)), SOUND, {"start": 3}),
    ("the last of eight tracked by 8, unused", both(full(112), by(*[None] * 7, 8), settings(count=7)), SOUND, {"start": 3}),
    # "its counts are within its limit"
    ("5 tracked by 2, its limit 2", both(two(2), by(2)), SOUND, OTHERS),
    ("5 tracked by 2, its limit 1", both(two(1), by(2)), UNSOUND),
    ("5 tracked by 2, its limit 0", both(two(0), by(2)), UNSOUND),
    ("7 tracked by 2, its limit 1", both(two(1), by(None, None, 2)), SOUND),
    ("7 tracked by 2, its limit 0", both(two(0), by(None, None, 2)), UNSOUND),
    ("5 and 7 tracked by 2, its limit 3", both(two(3), by(2, None, 2)), SOUND, OTHERS),
    ("5 and 7 tracked by 2, its limit 2", both(two(2), by(2, None, 2)), UNSOUND),
    ("5 and 7 tracked by 2, the first one's limit 0", both(two(3, limit=0), by(2, None, 2)), SOUND, {"start": 12, **OTHERS}),
    ("5 and 7 tracked by 2, the first one's limit 1", both(two(3, limit=1), by(2, None, 2)), SOUND, OTHERS),
    ("7 tracked by 2, the first one's limit 2", both(two(1, limit=2), by(None, None, 2)), SOUND, {"start": 12}),
    ("7 tracked by 2, the first one's limit 3", both(two(1, limit=3), by(None, None, 2)), SOUND),
    ("7 tracked by 2, the first one's limit 1", both(two(1, limit=1), by(None, None, 2)), UNSOUND),
    ("5 tracked by 2, the first one's limit 1", both(two(2, limit=1), by(2)), SOUND, {"start": 12, **OTHERS}),
    ("5 tracked by 2, the first one's limit 0", both(two(2, limit=0), by(2)), UNSOUND),
    ("6 off, with manager 2 and its limit 0", both(two(0), by(None, 2)), SOUND),
    # "and all counts within the shelf's"
    ("7 tracked by 2, shelf limit 4", both(two(1, 4), by(None, None, 2)), SOUND),
    ("7 tracked by 2, shelf limit 3", both(two(1, 3), by(None, None, 2)), SOUND, {"start": 34}),
    *[(f"7 tracked by 2, shelf limit {shelf}", both(two(1, shelf), by(None, None, 2)), UNSOUND) for shelf in (0, 1, 2)],
    ("5 tracked by 2, shelf limit 3", both(two(2, 3), by(2)), SOUND, {"start": 34, **OTHERS}),
    ("5 tracked by 2, shelf limit 2", both(two(2, 2), by(2)), UNSOUND),
    # 128 ranges, 64 by each of two, or 112 and 16; 9 is the second manager
    ("64 and 64 taken of 64 and 64", both(full(64), two(64, 128, second=9), by(*[1, 9] * 4)), SOUND, {"start": 3}),
    ("64 and 64 taken of 63 and 64", both(full(63), two(64, 128, second=9), by(*[1, 9] * 4)), UNSOUND),
    ("64 and 64 taken of 64 and 63", both(full(64), two(63, 128, second=9), by(*[1, 9] * 4)), UNSOUND),
    ("64 and 64 taken of 64 and 64, shelf limit 127", both(full(64), two(64, 127, second=9), by(*[1, 9] * 4)), UNSOUND),
    ("64 and 64 taken of 128 and 128, shelf limit 127", both(full(128), two(128, 127, second=9), by(*[1, 9] * 4)), UNSOUND),
    ("112 and 16 taken of 112 and 16", both(full(112), two(16, 128, second=9), by(*[None] * 7, 9)), SOUND, {"start": 3}),
    ("112 and 16 taken of 111 and 16", both(full(111), two(16, 128, second=9), by(*[None] * 7, 9)), UNSOUND),
    ("112 and 16 taken of 112 and 15", both(full(112), two(15, 128, second=9), by(*[None] * 7, 9)), UNSOUND),
    ("112 and 16 taken of 112 and 16, shelf limit 127", both(full(112), two(16, 127, second=9), by(*[None] * 7, 9)), UNSOUND),
    ("128 taken of 128 by the second", both(full(0), two(128, 128, second=9), by(*[9] * 8)), SOUND, {"start": 3, **OTHERS}),
    ("128 taken of 127 by the second", both(full(0), two(127, 128, second=9), by(*[9] * 8)), UNSOUND),
    ("112 taken, 16 of the second one's off", both(full(112), two(0, 112, second=9), by(*[None] * 7, 9), off(7)), SOUND, {"start": 3}),
    ("112 taken, 16 of the second one's unused", both(full(112), two(0, 112, second=9, count=7), by(*[None] * 7, 9)), SOUND, {"start": 3}),
    ("112 taken, 16 unused, shelf limit 111", both(full(112), two(0, 111, second=9, count=7), by(*[None] * 7, 9)), UNSOUND),
    # READINGS, W12: with 1's limit 16, 2's limit 4 and shelf limit 18
    ("5 tracked by 3", both(two(), holding((10, 3), (0, 0), (0, 0))), UNSOUND),
    ("6 tracked by 2 with 5 ranges", both(two(), holding((10, 1), (5, 2), (0, 0))), UNSOUND),
    ("16 and 4 ranges", both(two(), holding((16, 1), (4, 2), (0, 0))), UNSOUND),
    ("14 and 4 ranges", both(two(), holding((14, 1), (4, 2), (0, 0)), suspended(0, 0, 1)), SOUND, {"start": 3}),
    # beside other rules
    ("closed device with a second manager", both(closed(), two(0, 0)), BROKEN),
    ("5 tracked by 3, limit 129", both(settings(limit=129), by(3)), BROKEN),
    ("5 tracked by 3, a sequence open", both(opened(7, 16), by(3)), UNSOUND),
    ("5 tracked by 2, a sequence open", both(two(), opened(7, 16), by(2)), SOUND, OTHERS),
]


# ---- Calls by a manager, in the form of ORDERS in record_by_hand.py

def begin(id, count, **fields):
    """A start with so many ranges of a page."""
    return "start", dict(id=id, data=structure(0, sixteen()[:count]), **fields)


def left(*managers, marks=None, bases=(), sequence=NOT_SAID):
    """A done call that counts nothing: these managers of the first controllers are left."""
    return [0], marks or {}, (), sequence, bases, NOT_SAID, {}, b"", managers


def anything(*ids, by):
    """Every call that names a manager, of these controllers, as it should be and otherwise."""
    return [one for id in ids for one in (
        begin(id, 1, by=by), begin(id, 16, by=by), ("start", dict(id=id, data=b"", by=by)), ("stop", dict(id=id, by=by)),
        ("receive", dict(id=id, data=b"\xaa" * 64, by=by)), ("receive", dict(id=id, data=b"", by=by)),
        *(("suspend", dict(id=id, type=type, by=by)) for type in (0, 1, 2)), ("resume", dict(id=id, by=by)),
        ("part", dict(by=by, **part(ONLY, 0, bytes(48), id=id))), ("part", dict(by=by, **part(4, 2, b"", id=id))))]


NOBODY = holding((0, 0), (0, 0), (0, 0))
NOTHING = [0, 0, 0, 0, 0, 0, 0]  # the first numbers of a report without runs, of one that runs

# READINGS, W12, section 4: manager 1 with limit 16, manager 2 with limit 4, shelf limit 18; controllers 5, 6 and 7. First the
# worked numbers, each on the record that those before it leave, and beside them what is near.
WORKED = [
    ("nothing tracked", both(two(), NOBODY), [
        (*begin(5, 10, by=1), *left(1, 0, 0)),
        (*begin(5, 16, by=1), *left(1, 0, 0)),
        (*begin(5, 4, by=2), *left(2, 0, 0)),
        (*begin(6, 3, by=2), *left(0, 2, 0)),
        (*begin(7, 1, by=1), *left(0, 0, 1)),
        (*begin(5, 5, by=2), [12]),
        (*begin(5, 16, by=2), [12]),
        *[("stop", dict(id=5, by=by), [5]) for by in (1, 2)],
        *[("receive", dict(id=5, data=b"\xaa" * size, by=by), [5]) for by in (1, 2) for size in (16, 64)],
        *[("resume", dict(id=5, by=by), [13]) for by in (1, 2)],
    ]),
    ("5 by 1 with 10", both(two(), holding((10, 1), (0, 0), (0, 0))), [
        # 3, whoever tracks it, and before the structure is read
        *[(*begin(5, count, by=by), [3]) for by in (1, 2) for count in (1, 16)],
        *[("start", dict(id=5, data=data, by=by), [3]) for by in (1, 2) for data in (b"", structure(9, [], version=1))],
        # 5 for the other one, before 8
        ("stop", dict(id=5, by=2), [5]),
        *[("receive", dict(id=5, data=b"\xaa" * size, by=2, mark=ALL_ONES), [5]) for size in (0, 16, 31, 32, 64, 1024)],
        *[("receive", dict(id=5, data=b"\xaa" * size, by=1, mark=ALL_ONES), [8]) for size in (0, 16, 31)],
        ("receive", dict(id=5, data=b"\xaa" * 32, by=1), NOTHING),
        # 2 for an unknown manager, and for a manager as the controller
        *[(*one, [2]) for by in (3, 0, 5, 6, 7, 9, 1 + 256, 2 + 256, 65535) for one in anything(5, by=by)],
        *[(*one, [2]) for by in (3, 5) for one in anything(6, 9, 1, 2, 3, by=by)],
        *[(*one, [2]) for by in (1, 2) for one in anything(1, 2, 3, 9, by=by)],
        # 12 counts that manager's ranges alone
        (*begin(6, 5, by=2), [12]),
        (*begin(6, 4, by=2), *left(1, 2, 0)),
        (*begin(6, 6, by=1), *left(1, 1, 0)),
        (*begin(6, 7, by=1), [12]),
        ("stop", dict(id=5, by=1, mark=ALL_ONES), *left(0, 0, 0)),
    ]),
    ("5 by 1 with 10, 6 by 2 with 4", both(two(), holding((10, 1), (4, 2), (0, 9))), [
        (*begin(7, 7, by=1), [12]),
        (*begin(7, 6, by=1), [34]),
        (*begin(7, 5, by=1), [34]),
        (*begin(7, 4, by=1), *left(1, 2, 1)),
        (*begin(7, 1, by=1, mark=ALL_ONES), *left(1, 2, 1, marks=only_bits(*range(14)), bases=(0, 10, 14))),
        *[(*begin(7, count, by=2), [12]) for count in (1, 4, 5, 16)],
        (*begin(7, 16, by=1), [12]),
        ("stop", dict(id=6, by=1), [5]),
        ("stop", dict(id=5, by=2), [5]),
        # what stands in 7's place, which is off, stays
        ("stop", dict(id=6, by=2), *left(1, 0, 9)),
        ("stop", dict(id=5, by=1), *left(0, 2, 9)),
        ("receive", dict(id=6, data=b"\xaa" * 64, by=1, mark=ALL_ONES), [5]),
        ("receive", dict(id=6, data=b"\xaa" * 64, by=2), NOTHING),
        *[("suspend", dict(id=id, type=type, by=by), *left(1, 2, 9)) for id in (5, 6, 7) for type in (0, 1) for by in (1, 2)],
        *[("suspend", dict(id=id, type=2, by=by), [15]) for id in (5, 6, 7) for by in (1, 2)],
        *[("resume", dict(id=id, by=by), [13]) for id in (5, 6, 7) for by in (1, 2)],
    ]),
    # "Suspension belongs to the controller, whoever asked"; 4 before 5, and before 3
    ("5 by 1 with 10 and suspended, 6 by 2 with 4", both(two(), holding((10, 1), (4, 2), (0, 9)), suspended(1)), [
        *[("stop", dict(id=5, by=by), [4]) for by in (1, 2)],
        *[(*begin(5, 1, by=by), [4]) for by in (1, 2)],
        *[("resume", dict(id=5, by=by), *left(1, 2, 9)) for by in (1, 2)],
        *[("suspend", dict(id=5, type=type, by=by), *left(1, 2, 9)) for type in (0, 1) for by in (1, 2)],
        ("receive", dict(id=5, data=b"\xaa" * 32, by=2), [5]),
        ("receive", dict(id=5, data=b"\xaa" * 32, by=1), [0, 0, 0, 1, 0, 0, 0]),
        *[("part", dict(by=by, **part(ONLY, 0, bytes(48), id=5)), *yields(48)) for by in (1, 2)],
        *[("part", dict(by=by, **part(FIRST, 0, bytes(4), id=5)), *opens(4, owner=5)) for by in (1, 2)],
        *[("part", dict(by=by, **part(FIRST, 0, bytes(4), id=6)), [13]) for by in (1, 2)],
        *[(*one, [2]) for one in anything(5, by=3)],
    ]),
    # The shelf is full: 14 of 16, 4 of 4, 18 of 18.
    ("5 by 1 with 10, 6 by 2 with 4, 7 by 1 with 4", both(two(), holding((10, 1), (4, 2), (4, 1), (0, 0))), [
        (*begin(8, 1, by=1), [34]),
        (*begin(8, 2, by=1), [34]),
        (*begin(8, 3, by=1), [12]),
        (*begin(8, 1, by=2), [12]),
        ("stop", dict(id=5, by=1), *left(0, 2, 1, 0)),
        ("stop", dict(id=6, by=2), *left(1, 0, 1, 0)),
        ("stop", dict(id=7, by=1), *left(1, 2, 0, 0)),
        *[("stop", dict(id=id, by=by), [5]) for id, by in ((5, 2), (6, 1), (7, 2), (8, 1), (8, 2))],
    ]),
    # A stop gives its count back, to its manager and to the shelf.
    ("6 by 2 with 4, 7 by 1 with 4", both(two(), holding((0, 0), (4, 2), (4, 1))), [
        (*begin(5, 10, by=1), *left(1, 2, 1)),
        (*begin(5, 11, by=1), [34]),
        (*begin(5, 12, by=1), [34]),
        (*begin(5, 13, by=1), [12]),
        *[(*begin(5, count, by=2), [12]) for count in (1, 10, 16)],
    ]),
    ("5 by 1 with 10, 7 by 1 with 4", both(two(), holding((10, 1), (0, 2), (4, 1))), [
        (*begin(6, 4, by=2), *left(1, 2, 1)),
        (*begin(6, 5, by=2), [12]),
        (*begin(6, 2, by=1), *left(1, 1, 1)),
        (*begin(6, 3, by=1), [12]),
    ]),
    # One manager, shelf limit 3.
    ("one manager, shelf limit 3", both(settings(shelf=3), NOBODY), [
        (*begin(5, 4), [34]),
        (*begin(5, 3), *left(1, 0, 0)),
        (*begin(5, 16), [34]),
        *[(*one, [2]) for one in anything(5, by=2)],
        *[(*one, [2]) for one in anything(5, by=0)],
    ]),
    ("one manager, limit 2 and shelf limit 3", both(settings(limit=2, shelf=3), NOBODY), [
        (*begin(5, 2), *left(1, 0, 0)),
        *[(*begin(5, count), [12]) for count in (3, 4, 16)],
    ]),
    ("one manager, limit 3 and shelf limit 2", both(settings(limit=3, shelf=2), holding((1, 1), (0, 0), (0, 0))), [
        (*begin(6, 1), *left(1, 1, 0)),
        (*begin(6, 2), [34]),
        *[(*begin(6, count), [12]) for count in (3, 4, 16)],
    ]),
]

ORDERS = [
    *WORKED,
    # Limits of 0: a start has at least one range.
    ("limits 0 and 4", both(two(4, 18, limit=0), NOBODY), [(*begin(5, 1, by=1), [12]), (*begin(5, 4, by=2), *left(2, 0, 0))]),
    ("limits 4 and 0", both(two(0, 18, limit=4), NOBODY), [(*begin(5, 4, by=1), *left(1, 0, 0)), (*begin(5, 1, by=2), [12])]),
    ("shelf limit 0", both(two(4, 0), NOBODY), [
        *[(*begin(5, 1, by=by), [34]) for by in (1, 2)], (*begin(5, 5, by=2), [12]), (*begin(5, 16, by=1), [34])]),
    ("limits 0 and 0, shelf limit 0", both(two(0, 0, limit=0), NOBODY), [(*begin(5, 1, by=by), [12]) for by in (1, 2)]),
    # As many ranges as may be: 64 and 48 of 128, and a start with 16.
    *[(f"64 and 48 taken of {limits}", both(two(limits[1], limits[2], limit=limits[0]), holding(*[(16, 1)] * 4, *[(16, 2)] * 3, (0, 0))), [
        (*begin(12, 16, by=1), *first), (*begin(12, 16, by=2), *second)])
      for limits, first, second in (
          ((80, 64, 128), left(*[1] * 4, *[2] * 3, 1), left(*[1] * 4, *[2] * 3, 2)),
          ((79, 64, 128), [[12]], left(*[1] * 4, *[2] * 3, 2)),
          ((80, 63, 128), left(*[1] * 4, *[2] * 3, 1), [[12]]),
          ((80, 64, 127), [[34]], [[34]]),
          ((128, 128, 127), [[34]], [[34]]),
          ((79, 64, 127), [[12]], [[34]]),
          ((128, 48, 128), left(*[1] * 4, *[2] * 3, 1), [[12]]),
          ((64, 128, 112), [[12]], [[34]]),
          ((128, 128, 128), left(*[1] * 4, *[2] * 3, 1), left(*[1] * 4, *[2] * 3, 2)))],
    # What is off or not in use is not counted, whatever manager stands there.
    ("10 of 2's off, 4 of 1's", both(two(4, 8), holding((10, 2), (4, 1), (0, 2)), off(0)), [
        (*begin(7, 4, by=2), *left(2, 1, 2)),
        (*begin(7, 4, by=1), *left(2, 1, 1)),
        (*begin(5, 4, by=2), *left(2, 1, 2)),
        (*begin(5, 4, by=1), *left(1, 1, 2)),
        (*begin(7, 5, by=2), [12]),
        (*begin(7, 5, by=1), [34]),
        ("stop", dict(id=5, by=2), [5]),
        ("receive", dict(id=5, data=b"\xaa" * 64, by=2), [5]),
        ("stop", dict(id=6, by=1), *left(2, 0, 2)),
    ]),
    ("10 of 2's unused, 4 of 1's", both(two(4, 8), holding((0, 9), (4, 1), (10, 2)), settings(count=2)), [
        (*begin(5, 4, by=2), *left(2, 1, 2)),
        (*begin(5, 4, by=1), *left(1, 1, 2)),
        (*begin(5, 5, by=2), [12]),
        (*begin(5, 5, by=1), [34]),
        ("stop", dict(id=7, by=2), [2]),
        ("stop", dict(id=6, by=1), *left(9, 0, 2)),
    ]),
    # Listed ranges count, and not their units: 4 times one page.
    ("equal ranges", both(two(), NOBODY), [
        ("start", dict(id=5, data=structure(0, [(65536, 1)] * 4), by=2), *left(2, 0, 0)),
        ("start", dict(id=5, data=structure(0, [(65536, 1)] * 5), by=2), [12]),
    ]),
    # "the unit pool stays one": 11 counts the units of both, and comes before 12 and 34.
    ("10,000 units of 1's", both(shares((10000, 0), (0, 0), (0, 0)), two(128, 128)), [
        *[("start", dict(id=6, data=structure(0, [(0, 6384)]), by=by), *left(1, by, 0)) for by in (1, 2)],
        *[("start", dict(id=6, data=structure(0, [(0, 6385)]), by=by), [11]) for by in (1, 2)],
    ]),
    ("6,384 units of 1's and 10,000 of 2's", both(shares((6384, 0), (10000, 6384), (0, 0), (0, 0)), two(128, 128), by(1, 2, 0, 0)), [
        *[("start", dict(id=8, data=ONE, by=by), [11]) for by in (1, 2)],
        ("stop", dict(id=5, by=1, mark=ALL_ONES), *left(0, 2, 0, 0)),
        ("stop", dict(id=6, by=2, mark=ALL_ONES), *left(1, 0, 0, 0)),
    ]),
    ("16,384 units of 1's, limits 1 and 0, shelf limit 1", both(shares((16384, 0), (0, 0)), two(0, 1, limit=1)), [
        *[("start", dict(id=6, data=ONE, by=by), [11]) for by in (1, 2)],
        *[("start", dict(id=6, data=structure(0, [(65536, 0)]), by=by), [19, 0]) for by in (1, 2)],
        ("start", dict(id=6, data=ONE, by=3), [2]),
    ]),
    ("16,383 units of 1's, limits 1 and 0, shelf limit 1", both(shares((16383, 0), (0, 0)), two(0, 1, limit=1)), [
        *[("start", dict(id=6, data=ONE, by=by), [12]) for by in (1, 2)],
        *[("start", dict(id=6, data=structure(0, [(0, 2)]), by=by), [11]) for by in (1, 2)],
    ]),
    ("16,383 units of 1's, limits 2 and 1, shelf limit 1", both(shares((16383, 0), (0, 0)), two(1, 1, limit=2)), [
        *[("start", dict(id=6, data=ONE, by=by), [34]) for by in (1, 2)],
        *[("start", dict(id=6, data=structure(0, [(0, 1)] * 2), by=by), [12]) for by in (1, 2)],
        *[("start", dict(id=6, data=structure(0, [(0, 2)]), by=by), [11]) for by in (1, 2)],
        *[("start", dict(id=6, data=structure(0, [(0, 1), (4096, 1)]), by=by), [11]) for by in (1, 2)],
    ]),
    # A start of one packs the shares of both; a stop clears its own bits alone. 5 has 2 pages at 0, 7 has 3 at 200, and 8 has 4 at 300.
    ("shares of both", both(two(128, 128), holding((2, 1), (0, 9), (3, 2), (4, 1), (0, 3))), [
        *[(*begin(6, 5, by=by, mark=ALL_ONES),
           *left(1, by, 2, 1, 3, marks=only_bits(0, 1, *range(7, 14)), bases=(0, 2, 7, 10, 400))) for by in (1, 2)],
        *[(*begin(9, 1, by=by, mark=ALL_ONES),
           *left(1, 9, 2, 1, by, marks=only_bits(*range(9)), bases=(0, 100, 2, 5, 9))) for by in (1, 2)],
        ("stop", dict(id=7, by=2, mark=ALL_ONES), *left(1, 9, 0, 1, 3, marks={2: ALL_ONES, 3: ALL_ONES - (7 << 8), 4: ALL_ONES}, bases=(0, 100, 0, 300, 400))),
        ("stop", dict(id=7, by=1, mark=ALL_ONES), [5]),
        ("stop", dict(id=8, by=1, mark=ALL_ONES), *left(1, 9, 2, 0, 3, marks={3: ALL_ONES, 4: ALL_ONES - (15 << 44)}, bases=(0, 100, 200, 0, 400))),
        ("receive", dict(id=7, data=b"\xaa" * 32, by=2, mark=ALL_ONES), [0, 0, 0, 0, 1, 0, 1], {3: ALL_ONES - (1 << 8)}, [(0, 1)]),
        ("receive", dict(id=7, data=b"\xaa" * 64, by=2, mark=ALL_ONES), [0, 0, 0, 0, 0, 0, 3], {3: ALL_ONES - (7 << 8)}, [(0, 1), (4096, 1), (8192, 1)]),
        ("receive", dict(id=7, data=b"\xaa" * 64, by=1, mark=ALL_ONES), [5]),
    ]),
    # "its resume drops its unfinished sequence", whoever asked, and one may go on with what the other began.
    ("5's sequence open, 5 and 6 suspended", both(two(), holding((2, 1), (1, 2), (0, 0)), suspended(1, 1), opened(5, 16)), [
        *[("part", dict(by=by, **part(MIDDLE, 16, bytes(4), id=5)), *opens(20, owner=5)) for by in (1, 2)],
        *[("part", dict(by=by, **part(LAST, 16, bytes(32), id=5, front=bytes(16))), *yields(48)) for by in (1, 2)],
        *[("part", dict(by=by, **part(FIRST, 0, bytes(4), id=6)), [23]) for by in (1, 2)],
        *[("part", dict(by=by, **part(4, 2, b"", id=6)), [23]) for by in (1, 2)],
        *[("part", dict(by=by, **part(MIDDLE, 16, bytes(4), id=7)), [13]) for by in (1, 2)],
        *[("part", dict(by=3, **part(MIDDLE, 16, bytes(4), id=id)), [2]) for id in (5, 6, 7, 9)],
        *[("part", dict(by=by, **part(MIDDLE, 16, bytes(4), id=5, area=4095)), [1]) for by in (1, 2, 3)],
        *[("resume", dict(id=5, by=by), *left(1, 2, 0, sequence=None)) for by in (1, 2)],
        *[("resume", dict(id=6, by=by), *left(1, 2, 0, sequence=(5, 16))) for by in (1, 2)],
        ("resume", dict(id=5, by=3), [2]),
    ]),
    # "Writes, batches and queue calls" name no manager: by whom they are said to be is not looked at.
    *[(f"no manager named, {said}", change_it, [
        one for by in (0, 1, 2, 3, 5, 65535) for one in (
            ("write", dict(id=5, address=69632, bytes=1, by=by), [0, 0, 1], {0: 2}),
            ("write", dict(id=9, address=0, bytes=1, by=by), [2]),
            ("write", dict(id=7, address=0, bytes=1, by=by), [4]),
            ("batch", dict(by=by, **batch((5, 69632, 1), (5, 0, 1), (7, 0, 1))), noted(2, 2, 4), {0: 0b10010}),
            ("batch", dict(by=by, **batch((2, 0, 1))), noted(0, 0, 2)),
            ("make", dict(by=by, **make(64)), *makes(2)),
            ("post", dict(by=by, **post(A)), *stores(1, A, 4, 2, WORD - 1, 3)),
            ("take", dict(by=by, **take(2, 64)), *takes(lent(3, 0), 4, 1, 1, 1)),
            ("take", dict(by=by, **take(2, 64, id=2)), [2]))])
      for said, change_it in (("one manager", both()), ("two managers", two()), ("5 tracked by 2", both(two(), by(2))))],
    # 2 is the second manager's number too where it is called as a controller.
    ("the second manager as a controller", two(), [
        *[(call, dict(id=2, by=by, **{name: value for name, value in fields.items() if name != "id"}), [2])
          for call, fields in BASE_CALLS.items() if call not in ("fresh", "batch") for by in (1, 2)],
    ]),
]


# ---- Cases

def cases():
    for build, said in ((base, ""), (base_with_rubbish, ", rubbish in unused places")):
        yield from every_call(build, said, RECORDS)
        yield from by_the_second(build, said)
        yield from orders(build, said, ORDERS)
        yield from fresh_devices(build, said)
        yield from orders_of_a_start(build, said)
        yield from orders_of_other_calls(build, said)


def by_the_second(build, said):
    """The base's calls by the second manager, with 5 and 7 tracked by each; and by those that are none."""
    for five, seven in itertools.product((1, 2), (1, 2)):
        record = changed(build, both(two(), by(five, None, seven)))
        for call, fields in BASE_CALLS.items():
            known = 5 if five == 1 and call in OTHERS else 0
            name = f"{call} by the second manager, 5 tracked by {five} and 7 by {seven}{said}"
            yield Case(record, call, mark=MIXED, by=2, **fields).named(name, known)
    for caller, change_it in itertools.product((2, 0, 3, 5, 6, 7, 9, 257, 65535), (both(), two(second=4))):
        for call, fields in BASE_CALLS.items():
            known = 2 if call in MANAGERS_CALLS else 0
            yield Case(changed(build, change_it), call, mark=MIXED, by=caller, **fields).named(f"{call} by {caller}, which is no manager{said}", known)


def fresh_devices(build, said):
    """A fresh looks at the settings alone, whoever is said to call and whatever manager stands beside a controller; it keeps the
    second manager and the shelf's limit, and zeroes all else."""
    for change_it in (both(), two(), two(128, 128, limit=128), two(0, 0, limit=0), settings(shelf=0), two(second=65535), two(second=0),
                      both(two(), by(3, 3, 3)), both(by(2)), both(two(), holding((16, 1), (16, 2), (16, 3)))):
        for caller in (0, 1, 2, 3, 5, 65535):
            yield Case(changed(build, change_it), "fresh", mark=MIXED, by=caller).named(f"fresh by {caller}{said}", 0)
    for change_it in (two(second=1), two(0, second=1), two(second=6), two(129), two(4, 129), settings(shelf=129)):
        for caller in (1, 2):
            record = changed(build, change_it)
            yield Case(record, "fresh", mark=MIXED, by=caller).named(f"broken settings, fresh by {caller}{said}", 16)
            yield Case(record, "fresh", mark=MIXED, words=255, by=caller).named(f"broken settings, fresh by {caller}, 255 words{said}", 16)
    yield Case(changed(build, two()), "fresh", mark=MIXED, words=255).named(f"two managers, fresh with 255 words{said}", 1)


# Of a start of two ranges: what may be wrong with its structure, and the number and row that this alone is refused with. The rule
# is on, and 3 units are tracked.
GOOD = structure(0, [(0, 1), (8192, 1)])
STRUCTURES = [
    (GOOD, 0, 0),
    (GOOD[:7], 8, 0),
    (structure(0, [(0, 1), (8192, 1)], version=1), 6, 0),
    (structure(9, [(0, 1), (8192, 1)]), 7, 0),
    (GOOD[:-1], 8, 0),
    (structure(0, [(0, 1), (8192, 1)], count=0), 18, 0),
    (structure(0, [(0, 1), (8192, 0)]), 19, 1),
    (structure(0, [(0, 1), (8193, 1)]), 20, 1),
    (structure(0, [(0, 1), (MEMORY - 4096, 2)]), 21, 1),
    (structure(0, [(0, 1), (8192, 3)]), 10, 0),
    (structure(0, [(0, 1), (0, 16384)]), 11, 0),
]


def orders_of_a_start(build, said):
    """Every set of rules that can be broken at once: 2 (manager), 2 (controller), 4, 3, those of the structure, 12, 34. 5 is tracked by
    1 with 2 ranges, 8 by 2 with 1, 6 is off, 7 off and suspended."""
    for (limit, limit2, shelf), caller, id in itertools.product(itertools.product((128, 3), (128, 2), (128, 4)), (1, 2, 3, 6), (6, 7, 5, 8, 9, 1, 2)):
        record = changed(build, both(holding((2, 1), (0, 9), (0, 2), (1, 2)), suspended(0, 0, 1), two(limit2, shelf, limit=limit, rule=1)))
        for (data, number, row), words in itertools.product(STRUCTURES, (256, 255)):
            if words == 255 and data not in (GOOD, GOOD[:-1]):
                continue
            known = first_hit([
                (1, words == 256),
                (2, caller in (1, 2)),
                (2, id in (5, 6, 7, 8)),
                (4, id != 7),
                (3, id not in (5, 8)),
                (number, number == 0),
                (12, 2 + 2 <= limit if caller == 1 else 1 + 2 <= limit2),
                (34, 3 + 2 <= shelf),
            ])
            name = f"start of {id} by {caller}, limits {limit}, {limit2} and {shelf}, structure refused with {number}, {words} words{said}"
            case = Case(record, "start", id=id, by=caller, data=data, words=words, mark=MIXED)
            managers = {"managers": (1, caller, 2, 2)} if known == 0 else {}
            yield case.named(name, known, row if known == number else 0, **managers)


def orders_of_other_calls(build, said):
    """Every set of rules that the other calls that name a manager can break at once. 5 is tracked by 1 and 8 by 2; 9 and 10 the same,
    and suspended; 6 is off, 7 off and suspended."""
    record = changed(build, both(two(), holding((2, 1), (0, 9), (0, 2), (1, 2), (1, 1), (1, 2)), suspended(0, 0, 1, 0, 1, 1)))
    tracker, flags = {5: 1, 8: 2, 9: 1, 10: 2}, {7, 9, 10}
    for caller, id in itertools.product((1, 2, 3, 5, 0, 65535), (5, 6, 7, 8, 9, 10, 11, 1, 2, 3)):
        known = [(2, caller in (1, 2)), (2, 5 <= id <= 10)]
        own, running = (5, tracker.get(id) == caller), (4, id not in flags)
        calls = [("stop", {}, [*known, running, own])]
        calls += [("receive", {"data": b"\xaa" * size}, [*known, own, (8, size >= 32)]) for size in (0, 31, 32, 64)]
        calls += [("suspend", {"type": type}, [*known, (15, type <= 1)]) for type in (0, 1, 2, 255)]
        calls += [("resume", {}, [*known, (13, id in flags)])]
        calls += [("part", part(ONLY, offset, bytes(48), id=id), [*known, (13, id in flags), (24, offset == 0)]) for offset in (0, 2)]
        for call, fields, tests in calls:
            case = Case(record, call, mark=MIXED, by=caller, **{"id": id, **fields})
            yield case.named(f"{call} of {id} by {caller}{said}", first_hit(tests))


def on_bytes():
    """The same calls of the plain engine (document 02, W9), in place of words; of every set of rules of a start some."""
    some = itertools.islice(orders_of_a_start(base, ""), 0, None, 5)
    every = itertools.chain(orders(base_with_rubbish, "", ORDERS), some, orders_of_other_calls(base, ""), by_the_second(base, ""))
    for value, case in enumerate(every):
        case.name += " on bytes"
        yield case.on_bytes(value % 255, shown=4200 * (value % 4))
