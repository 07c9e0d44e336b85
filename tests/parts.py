"""Parts of a controller's state (document 02, W6): their lines, states, what a part is answered with, and ways to spoil one."""

from typing import NamedTuple

MIDDLE, FIRST, LAST, ONLY = range(4)  # the indicators: 00b, 01b, 10b and 11b of source document 001
HEADER = 48                           # bytes of a state's header
MOST_STATE = 4096                     # bytes of a state, and of the area that it is assembled in
MOST_PART = 4100                      # bytes of a `part` line; one with more is bad
WORD = 2 ** 32                        # an offset has two words of 32 bits


class Part(NamedTuple):
    id: int
    indicator: int
    offset: int
    count: int   # of dwords
    data: bytes


def part(id, indicator, offset, data):
    """One that counts as many dwords as its data have."""
    return Part(id, indicator, offset, len(data) // 4, data)


def part_line(one):
    offset = (one.offset % WORD, one.offset // WORD)
    return " ".join(map(str, ["part", one.id, one.indicator, *offset, one.count, hex_of(one.data)]))


def hex_of(data):
    """Two lower-case digits a byte, and a dash for no bytes."""
    return data.hex() or "-"


# ---- States

def header(nvmecss, vss, version=0, reserved=bytes(14)):
    """Source document 001, Figure SCS-FIG5: the version, attributes and reserved bytes, and two sizes in dwords."""
    return version.to_bytes(2, "little") + reserved + nvmecss.to_bytes(16, "little") + vss.to_bytes(16, "little")


def state(nvmecss, vss, **fields):
    """A header with what it says behind it: bytes that tell their places apart."""
    return header(nvmecss, vss, **fields) + bytes(at * 7 % 251 + 1 for at in range(4 * (nvmecss + vss)))


def is_state(whole):
    """Whether these bytes are a finished state: the version is 0, and they are as long as the header says."""
    sizes = [int.from_bytes(whole[at:at + 16], "little") for at in (16, 32)]
    return len(whole) >= HEADER and whole[:2] == bytes(2) and len(whole) == HEADER + 4 * sum(sizes)


def divided(whole, cuts):
    """The bytes in parts, cut at these places, with the offset of each."""
    places = [0, *cuts, len(whole)]
    return [(begin, whole[begin:end]) for begin, end in zip(places, places[1:])]


def sequence(id, whole, *cuts):
    """The parts that hand over a state, cut at these places; uncut it is an only part. A last cut at the state's end makes
    a last part of 0 dwords."""
    pieces = divided(whole, cuts)
    indicators = [FIRST, *[MIDDLE] * (len(pieces) - 2), LAST] if cuts else [ONLY]
    return [part(id, indicator, *piece) for indicator, piece in zip(indicators, pieces)]


# ---- Answers

def refusal(one, assembled=None):
    """What a part of a suspended controller is refused with where no other's sequence is open, or 0: the tests of W6 from 24
    on, in their order. `assembled` are the bytes of its own open sequence, None where nothing is open."""
    begins, finishes = one.indicator in (FIRST, ONLY), one.indicator in (LAST, ONLY)
    before = b"" if begins else assembled or b""
    tests = [
        (24, one.offset % 4 == 0 and one.offset <= MOST_STATE),
        (25, one.indicator <= 3 and (one.count > 0 or one.indicator == LAST) and len(one.data) == 4 * one.count),
        (26, (begins or assembled is not None) and one.offset == len(before)),
        (27, one.offset + 4 * one.count <= MOST_STATE and (not finishes or is_state(before + one.data))),
    ]
    return next((number for number, passes in tests if not passes), 0)


def answer(one, assembled=None):
    """The lines that such a part is answered with."""
    number = refusal(one, assembled)
    if number:
        return [str(number)]
    if one.indicator in (MIDDLE, FIRST):
        return ["0 whole 0"]
    return yielded(one.data if one.indicator == ONLY else assembled + one.data)


def yielded(whole):
    """The answer to the part that finishes this state."""
    return [f"0 whole {len(whole)}", whole.hex()]


# ---- For the makers of seeded cases

def any_state(dice):
    """A small state, rarely one of 4,096 bytes or a dword less or more; at times its header is damaged, or its length."""
    nvmecss, vss = (dice.choice([0, 0, 1, 1, 2, 3, 5, 9]) for _ in range(2))
    if dice.random() < 0.02:
        nvmecss = (MOST_STATE - HEADER) // 4 - vss + dice.choice([-1, 0, 0, 0, 1])
    whole = bytearray(state(nvmecss, vss, reserved=dice.choice([bytes(14), dice.randbytes(14)])))
    luck = dice.random()
    if luck < 0.1:
        whole[dice.choice([0, 1, 2, 15, 16, 17, 24, 31, 32, 33, 47, dice.randrange(HEADER)])] ^= 1 << dice.randrange(8)
    elif luck < 0.2:
        whole = (whole + bytes(8))[:len(whole) + dice.choice([-8, -4, 4, 8])]
    return bytes(whole)


def next_part(dice, id, whole, at):
    """A part that goes on at this place of a state, with as many dwords as it likes. The last one may have none."""
    end = min(len(whole), at + 4 * dice.choice([1, 1, 2, 3, 4, 5, 8, 12, 1024, 1024]))
    finishes = at == len(whole) or end == len(whole) and dice.random() < 0.8
    indicator = {(True, True): ONLY, (True, False): FIRST, (False, True): LAST, (False, False): MIDDLE}[at == 0, finishes]
    return part(id, indicator, at, whole[at:end])


def spoiled(dice, one):
    """A part with one thing wrong, mostly: an offset, an indicator, a count or the data."""
    offset, count, data = one.offset, one.count, one.data
    return dice.choice([
        lambda: one._replace(offset=max(0, offset + dice.choice([-8, -4, -4, 4, 4, 8]))),
        lambda: one._replace(offset=offset + dice.choice([1, 2, 3, WORD])),
        lambda: one._replace(offset=dice.choice([0, 4, 48, 4092, 4096, 4096, 4097, 4100, WORD - 4, WORD, WORD + offset, WORD * (WORD - 1) + offset])),
        lambda: one._replace(indicator=dice.choice([MIDDLE, FIRST, LAST, ONLY, MIDDLE, FIRST, LAST, ONLY, 4, 5, 255])),
        lambda: one._replace(count=dice.choice([0, count + 1, max(0, count - 1), 4 * count, count + 2 ** 30, count + 2 ** 31, WORD - 1])),
        lambda: one._replace(data=dice.choice([b"", data[:-1], data[:-4], data + b"\0", data + bytes(4)])),
        lambda: one._replace(count=0, data=b""),
        lambda: part(one.id, one.indicator, offset, data + bytes(4)),
        lambda: part(one.id, one.indicator, offset, (data + bytes(MOST_PART))[:max(0, MOST_STATE - offset) + dice.choice([0, 0, 4])]),
    ])()
