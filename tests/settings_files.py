"""Settings files (document 02, W11): their lines, files and settings by Python's own `struct`, with what each line is answered
with, and ways to spoil settings and to damage a file."""

import struct
from typing import NamedTuple

from parts import hex_of

MARK = b"TRK"
LAYOUTS = {1: struct.Struct("<3sHHBBBHB8H"), 2: struct.Struct("<3sHHBBBHB8H3H")}  # docs/SETTINGS-FILE.md; 29 and 35 bytes
PLACES = 8
MOST_LIMIT = 128
MOST_FILE = 64  # bytes of a file in a line; one with more is bad


class Settings(NamedTuple):
    """As in a `save` line: a second manager equal to the first, with limit 0, means one."""
    manager: int
    least: int
    greatest: int
    rule: int
    limit: int
    second: int
    limit2: int
    shelf: int
    names: tuple  # the controllers' identifiers


def alone(one):
    """Whether there is one manager."""
    return one.second == one.manager and one.limit2 == 0


def broken(one):
    """Refusal 16, in documents 01 and 02 (W11, W12)."""
    kept = [
        1 <= len(one.names) <= PLACES,
        all(one.names.count(name) == 1 for name in one.names),
        one.manager not in one.names,
        alone(one) or one.second != one.manager and one.second not in one.names,
        one.least <= one.greatest <= 20,
        one.rule <= 1,
        one.limit <= MOST_LIMIT and one.limit2 <= MOST_LIMIT and one.shelf <= MOST_LIMIT,
    ]
    return not all(kept)


# ---- Files

def file_of(version, one):
    """The file of this version with these settings, whether they may be or not; at most 8 names."""
    places = one.names + (0,) * (PLACES - len(one.names))
    added = (one.second, one.limit2, one.shelf) if version == 2 else ()
    return LAYOUTS[version].pack(MARK, version, one.manager, one.least, one.greatest, one.rule, one.limit, len(one.names), *places, *added)


def read(file, known=(1, 2)):
    """What a reader that knows these versions gives: the number of its refusal, or settings."""
    if len(file) < 5:
        return 35
    if file[:3] != MARK:
        return 31
    version = int.from_bytes(file[3:5], "little")
    if version not in known:
        return 32
    if len(file) != LAYOUTS[version].size:
        return 35
    _, _, manager, least, greatest, rule, limit, count, *rest = LAYOUTS[version].unpack(file)
    places, added = rest[:PLACES], rest[PLACES:] or [manager, 0, MOST_LIMIT]
    one = Settings(manager, least, greatest, rule, limit, *added, tuple(places[:count]))
    return 16 if count > PLACES or any(places[count:]) or broken(one) else one


def write(version, one):
    """What the writer gives: the number of its refusal, or a file."""
    if broken(one):
        return 16
    if version not in LAYOUTS or version == 1 and not (alone(one) and one.shelf == MOST_LIMIT):
        return 32
    return file_of(version, one)


# ---- Lines, and lines with their answers

def reader_line(word, file):
    return f"{word} {hex_of(file)}"


def save_line(version, one):
    *numbers, names = one
    return " ".join(map(str, ["save", version, *numbers, *names]))


def old(file):
    """The line of the version 1 reader, and its answer."""
    got = read(file, known=(1,))
    return reader_line("old", file), shown(got) if isinstance(got, int) else shown(got[:5] + got.names)


def new(file):
    got = read(file)
    return reader_line("new", file), shown(got) if isinstance(got, int) else shown(got[:8] + got.names)


def save(version, one):
    got = write(version, one)
    return save_line(version, one), shown(got) if isinstance(got, int) else f"0 {got.hex()}"


def shown(got):
    """A refusal's number, or 0 and what was read."""
    return str(got) if isinstance(got, int) else " ".join(map(str, (0, *got)))


# ---- By chance

def any_settings(dice):
    """Settings that may be, at the ends of what may be, mostly."""
    names = dice.sample([0, 1, 2, 3, 5, 6, 7, 255, 256, 257, 4096, 32768, 65534, 65535], 10)
    least, greatest = sorted(dice.choices([0, 0, 1, 8, 19, 20], k=2))
    managers = (names[1], dice.choice([0, 1, 4, 127, 128])) if dice.random() < 0.6 else (names[0], 0)
    limits = dice.choices([0, 1, 16, 127, 128, 128], k=2)
    return Settings(names[0], least, greatest, dice.randrange(2), limits[0], *managers, limits[1], tuple(names[2:2 + dice.choice([1, 2, 2, 3, 7, 8])]))


def spoiled_settings(dice, one):
    """One rule broken, mostly; every number still fits its field."""
    number = dice.choice([129, 255, 256, 257, 32768, 65535])
    other = dice.choice([
        {"names": ()},
        {"names": (*one.names[:PLACES - 1], one.names[0])},
        {"names": (*one.names[:PLACES - 1], one.manager)},
        {"names": (*one.names[:PLACES - 1], one.second)},
        {"manager": dice.choice(one.names)},
        {"second": dice.choice(one.names)},
        {"second": one.manager},
        {"least": one.greatest + 1},
        {"greatest": dice.choice([21, 255])},
        {"limit": number},
        {"limit2": number},
        {"shelf": number},
    ])
    return one._replace(**other)


def damaged_file(dice, file):
    """Other bytes: one or two changed, fewer of them, more, or another version; at most 64."""
    kind = dice.randrange(6)
    if kind == 0:
        return file[:dice.randrange(len(file))]
    if kind == 1:
        return (file + dice.choice([bytes(40), dice.randbytes(40)]))[:dice.choice([len(file) + 1, dice.randrange(len(file), MOST_FILE + 1)])]
    if kind == 2:
        return file[:3] + dice.choice([0, 1, 2, 3, 256, 257, 258, 512, 513]).to_bytes(2, "little") + file[5:]
    changed = bytearray(file)
    for _ in range(dice.choice([1, 1, 2])):
        changed[dice.randrange(len(file))] = dice.choice([0, 1, 2, 5, 8, 9, 127, 128, 129, 255, dice.randrange(256)])
    return bytes(changed)
