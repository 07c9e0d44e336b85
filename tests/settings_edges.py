"""Edges of settings files (document 02, W11) and of their lines, with answers by a reader and a writer of their own.

These are in settings_files.py: a file is taken apart and put together by Python's `struct`, at the places of the layout, and
each rule is asked by itself.
"""

import itertools
import random

from case import Case, answers_by_line
from edges import case
from settings_files import LAYOUTS, MARK, MOST_FILE, Settings, any_settings, damaged_file, file_of, new, old, read, save, save_line, spoiled_settings, write

DEV = ("dev 1 0 8 0 16 5 6", "0")
HEX = "0123456789abcdef"
MOST_BYTES = 16_383  # of a line

WORKED = Settings(1, 0, 8, 0, 16, 1, 0, 128, (5, 6))
EIGHT = Settings(65535, 20, 20, 1, 128, 65535, 0, 128, (2, 258, 1, 256, 0, 65534, 3, 32768))
LEAST = Settings(256, 0, 0, 0, 0, 256, 0, 128, (0,))
TWO = Settings(1, 0, 8, 0, 16, 2, 4, 18, (5, 6, 7))
OF_VERSION_1 = [WORKED, EIGHT, LEAST]
OF_VERSION_2 = [WORKED, TWO, EIGHT._replace(second=257, limit2=128, shelf=0), LEAST._replace(second=1, limit2=0)]
GOOD = [file_of(1, one) for one in OF_VERSION_1] + [file_of(2, one) for one in OF_VERSION_2]


def cases():
    yield from every_byte()
    yield from numbers_of_a_line()
    yield from lengths_of_hex()
    yield from long_lengths()
    yield from [short_line_case(), long_line_case()]
    yield from every_prefix()
    yield from every_length()
    yield from every_version()
    yield from every_change()
    yield from two_changes()
    yield from at_the_limits()
    yield from there_and_back()
    yield from any_files()


# ---- Which lines are good, and how long

def every_byte():
    """Each byte but the line feed, before, in and after lines of settings files."""
    file = file_of(1, WORKED).hex()
    saved = save(1, WORKED)[1]
    for byte in range(256):
        if byte != 0x0A:
            b = chr(byte)
            space, digit, hexadecimal = b == " ", b in "0123456789", b in HEX
            rows = [DEV]
            for word, first, done in (("old", "o", "0 1 0 8 0 16 5 6"), ("new", "n", "0 1 0 8 0 16 1 0 128 5 6")):
                rows += [
                    (f"{b}{word} {file}", "bad"),
                    (f"{b}{word[1:]} {file}", done if b == first else "bad"),
                    (f"{word}{b}{file}", done if space else "bad"),
                    (f"{word} {b}", "35" if b == "-" else "bad"),
                    (f"{word} {b}{b}", "35" if hexadecimal else "bad"),
                    (f"{word} {b}4{file[2:]}", done if b == "5" else "31" if hexadecimal else "bad"),
                    (f"{word} {file[:-1]}{b}", done if b == "0" else "16" if hexadecimal else "bad"),
                    (f"{word} {file}{b}", "bad"),
                    (f"{word} {file}{b}{b}", "35" if hexadecimal else "bad"),
                    (f"{word} {file[:20]}{b}{file[20:]}", "bad"),
                ]
            rows += [
                (f"{b}save 1 1 0 8 0 16 1 0 128 5 6", "bad"),
                (f"{b}ave 1 1 0 8 0 16 1 0 128 5 6", saved if b == "s" else "bad"),
                (f"save{b}1 1 0 8 0 16 1 0 128 5 6", saved if space else "bad"),
                (f"save 1 1 0{b}8 0 16 1 0 128 5 6", saved if space else "bad"),
                (f"save {b} 1 0 8 0 16 1 0 128 5 6", saved if b == "1" else save(2, WORKED)[1] if b == "2" else "32" if digit else "bad"),
                (f"save 1 1 0 8 {b} 16 1 0 128 5 6", saved if b == "0" else save(1, WORKED._replace(rule=1))[1] if b == "1" else "bad"),
                (f"save 1 1 0 8 0 16 1 0 128 5{b}6", saved if space else save(1, WORKED._replace(names=(int(f"5{b}6"),)))[1] if digit else "bad"),
                (f"save 1 1 0 8 0 16 1 0 128 5 6{b}", save(1, WORKED._replace(names=(5, int(f"6{b}"))))[1] if digit else "bad"),
                ("stop 5", "5"),
            ]
            yield case(f"byte {byte:02X}h in lines of settings files", rows)


# about each border, and what would be a good number if it were cut to 8, 16, 32 or 64 bits
NUMBERS = [0, 1, 2, 8, 20, 21, 127, 128, 129, 255, 256, 257, 264, 384, 32_767, 32_768, 65_535, 65_536, 65_537, 65_664, 2 ** 31, 2 ** 32 - 1, 2 ** 32,
           2 ** 32 + 1, 2 ** 63, 2 ** 64 - 1, 2 ** 64, 2 ** 64 + 1, 2 ** 64 + 128, 10 * 2 ** 64, 10 ** 40]
GREATEST = {"least": 255, "greatest": 255, "rule": 1}  # all other fields have 16 bits


def numbers_of_a_line():
    """Each number in each field of `save`, of both versions: one that doesn't fit is bad, and with a leading zero each is."""
    for number in NUMBERS:
        rows = [DEV, save(number, WORKED) if number < 2 ** 16 else (save_line(number, WORKED), "bad")]
        for version, field in itertools.product((1, 2), Settings._fields[:-1]):
            rows += [answered(version, TWO._replace(**{field: number}), number <= GREATEST.get(field, 65_535)),
                     answered(version, WORKED._replace(**{field: number}), number <= GREATEST.get(field, 65_535)),
                     answered(version, WORKED._replace(**{field: f"0{number}"}), False)]
        for place in range(8):
            names = (5, 6, 7, 8, 9, 10, 11, 12)
            rows += [answered(2, TWO._replace(names=(*names[:place], number, *names[place + 1:])), number < 2 ** 16),
                     answered(2, TWO._replace(names=(*names[:place], f"0{number}", *names[place + 1:])), False)]
        yield case(f"the number {number} in a save", rows)
    names = tuple(range(5, 30))
    yield case("0 to 25 identifiers in a save", [DEV, *(
        answered(version, one._replace(names=names[:count]), count <= 8) for version in (1, 2) for one in (WORKED, TWO) for count in range(26))])
    words = save_line(2, TWO).split(" ")
    yield case("a save that ends too early", [DEV, *((" ".join(words[:count]), "bad") for count in range(10)), (" ".join(words[:10]), "16")])


def answered(version, one, good):
    """A `save` line, which may be bad."""
    return save(version, one) if good else (save_line(version, one), "bad")


def lengths_of_hex():
    """0 to 64 bytes in hex are a file, half a byte and more are bad."""
    for digit in "05f":
        rows = [DEV]
        for digits in [*range(1, 140), 200, 256, 511, 512, 1000]:
            for word, reader in (("old", old), ("new", new)):
                good = digits % 2 == 0 and digits <= 2 * MOST_FILE
                rows.append(reader(bytes.fromhex(digit * digits)) if good else (f"{word} {digit * digits}", "bad"))
        yield case(f"hex of 1 to 1,000 digits {digit}", rows)


def long_lengths():
    """Lines about the greatest length: each is one `bad`."""
    heads = ["old ", "new ", f"new {file_of(1, WORKED).hex()}", save_line(2, TWO) + " "]
    for length in range(MOST_BYTES - 1, MOST_BYTES + 3):
        yield case(f"lines of settings files of {length} bytes", [
            DEV, *((head + filling * (length - len(head)), "bad") for head in heads for filling in "0 -"), new(file_of(2, TWO)), ("stop 5", "5")])


# ---- Files

def every_prefix():
    """The first so many bytes of a file, also with other bytes in the mark and the version."""
    for number, file in enumerate(GOOD):
        for head in (file[:5], b"TRK\x01\x00", b"TRK\x02\x00", b"TRK\x03\x00", b"trk\x01\x00", b"TRK\x01\x02"):
            some = head + file[5:]
            yield case(f"each prefix of file {number} with {head.hex()}", [
                DEV, *(reader(some[:length]) for length in range(len(some) + 1) for reader in (old, new))])


def every_length():
    """Up to 64 bytes, the first ones a file, then zeros, ones, or the file again."""
    for number, file in enumerate(GOOD):
        for name, behind in (("zeros", bytes(64)), ("FFh", b"\xff" * 64), ("the file", file * 2)):
            longer = file + behind
            yield case(f"each length from file {number} on, then {name}", [
                DEV, *(reader(longer[:length]) for length in range(len(file), MOST_FILE + 1) for reader in (old, new))])


def every_version():
    """Versions about powers of two and of one byte in each, in files of five lengths, and for the writer."""
    versions = sorted({0, 3, 4, *(1 << bit for bit in range(16)), *((1 << bit) + low for bit in range(16) for low in (1, 2)), 0x0201, 0x0102, 65_534, 65_535})
    for number, file in enumerate(GOOD):
        rows = [DEV]
        for version in versions:
            some = MARK + version.to_bytes(2, "little") + file[5:]
            rows += [reader(part) for part in (some[:5], some[:29], some, some + bytes(1)) for reader in (old, new)]
        yield case(f"versions in file {number}", rows)
    yield case("versions to save", [DEV, *(save(version, one) for version in versions for one in (WORKED, TWO))])


def every_change():
    """Each byte of each file as each of the 256 values. To the version 1 reader the rest of a version 2 file is all one."""
    for number, file in enumerate(GOOD):
        for place in range(len(file)):
            some = [file[:place] + bytes([value]) + file[place + 1:] for value in range(256)]
            olds = some if file[3] == 1 or place < 5 else some[:3]
            yield case(f"each value of byte {place} of file {number}", [DEV, *itertools.chain(*map(read_and_saved, some)), *map(old, olds)])


def two_changes():
    """Two bytes changed that have to do with each other: number and places, both of a limit, both managers, granularities."""
    values = [0, 1, 2, 5, 6, 8, 9, 20, 21, 128, 129, 255]
    near = [(5, 6), (7, 8), (10, 11), (12, 13), (12, 15), (12, 17), (12, 27), (12, 28), (5, 13), (5, 15), (13, 15), (13, 14), (5, 29), (6, 30),
            (29, 30), (29, 31), (31, 32), (33, 34), (13, 29), (15, 29), (17, 29), (3, 4)]
    for number, file in enumerate(GOOD):
        rows = [DEV]
        for one, other in near:
            for values_of in itertools.product(values, values) if other < len(file) else ():
                changed = bytearray(file)
                changed[one], changed[other] = values_of
                rows += read_and_saved(bytes(changed))
        yield case(f"two bytes of file {number}", rows)


# ---- Settings

def at_the_limits():
    """Every combination at the limits: saved, and what was saved is read by both."""
    for version, (least, greatest), rule, names in itertools.product(
            (1, 2, 513), ((0, 0), (20, 20), (0, 21), (9, 8)), (0, 1), ((), (0,), (5, 6), (5, 5), (2, 3, 4, 5, 6, 7, 8, 65535))):
        rows = [DEV]
        for limit, second, limit2, shelf in itertools.product((0, 128, 129), (1, 0, 65535, 9), (0, 128, 129), (0, 127, 128, 129)):
            rows += saved_and_read(version, Settings(1, least, greatest, rule, limit, second, limit2, shelf, names))
        yield case(f"version {version}, granularities {least} to {greatest}, rule {rule}, {len(names)} names at the limits", rows)


def saved_and_read(version, one):
    """A `save`, and where it is done both readers of what it gives: reading what was written gives the settings back."""
    line, answer = save(version, one)
    if not answer.startswith("0 "):
        return [(line, answer)]
    file = bytes.fromhex(answer[2:])
    assert read(file) == one
    return [(line, answer), new(file), old(file)]


def read_and_saved(file):
    """What the new reader says, and where it is done a `save` of that: writing what was read gives the file."""
    got = read(file)
    if isinstance(got, int):
        return [new(file)]
    assert write(file[3], got) == file
    return [new(file), save(file[3], got)]


def there_and_back():
    """Settings by chance at both versions."""
    dice = random.Random("settings there and back")
    for number in range(40):
        rows = [DEV]
        for _ in range(25):
            one = any_settings(dice)
            for version in LAYOUTS:
                rows += saved_and_read(version, one)
        yield case(f"settings there and back, {number}", rows)


def any_files():
    """Settings by chance, spoiled and not, as files of both versions, damaged and not."""
    dice = random.Random("settings files")
    for number in range(40):
        rows = [DEV]
        for _ in range(40):
            one = any_settings(dice)
            if dice.random() < 0.3:
                one = spoiled_settings(dice, one)
            file = file_of(dice.choice([1, 2]), one)
            if dice.random() < 0.5:
                file = damaged_file(dice, file)
            rows += [*read_and_saved(file), old(file), save(dice.choice([1, 2, 2, 2, 3]), one)]
        yield case(f"files by chance, {number}", rows)


# ---- Among other lines

def between(cases):
    """These listings with a line of settings files behind each of theirs, which changes none of their answers."""
    dice = random.Random("settings between")
    rows = [new(file) for file in GOOD] + [old(file) for file in GOOD] + [save(2, one) for one in OF_VERSION_2] + [old(b""), new(b"XXXXX"), ("new 0", "bad")]
    for one in cases:
        if one.answers is None or not one.ended:
            continue
        parts, rest = answers_by_line(len(one.lines), one.answers)
        lines, answers = [], []
        for line, answer in zip(one.lines, parts):
            row = dice.choice(rows)
            lines += [line, row[0].encode()]
            answers += [*answer, row[1].encode()]
        yield Case(f"{one.name}, with settings files between", lines, answers + rest)


# ---- Short and long lines, also for input in pieces

def short_line_case():
    """Good, damaged and refused lines, the last without its line feed: short enough to be fed byte by byte."""
    file = file_of(1, WORKED)
    return case("good, damaged and refused lines of settings files", [
        old(b""), save(1, WORKED), old(file), ("old " + file.hex().upper(), "bad"), new(file[:-1]), DEV, save(1, TWO), (save_line(2, TWO) + " ", "bad"),
        save(2, TWO), old(file_of(2, TWO)), new(file_of(2, TWO)),
    ])._replace(ended=False)


def long_line_case():
    """Files of 64 bytes, of too many digits, and lines too long, the last without its line feed."""
    return case("files of 64 bytes and more", [
        DEV, *itertools.chain(*((new(file + bytes(MOST_FILE - len(file))), (f"new {file.hex()}" + "0" * MOST_BYTES, "bad"), new(file)) for file in GOOD)),
        ("old " + "0" * 8000, "bad"), ("save" + " 1" * MOST_BYTES, "bad"), save(2, EIGHT), new(file_of(2, EIGHT)),
    ])._replace(ended=False)
