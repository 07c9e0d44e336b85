"""Edges of a state's parts (document 02, W6) and of their lines, with answers by small formulas that stand beside each listing.

In each listing controllers 5 and 6 are suspended, and nothing is open at first. What a part is answered with stands in
`parts.answer`: W6's tests in their order, over whole numbers and whole bytes.
"""

from damaged import long_lines
from edges import case
from parts import FIRST, HEADER, LAST, MIDDLE, MOST_PART, MOST_STATE, ONLY, WORD
from parts import Part, answer, divided, header, part, part_line, sequence, state, yielded

BEFORE = [("dev 1 0 8 0 16 5 6", "0"), ("susp 5 1", "0"), ("susp 6 1", "0")]
EMPTY = bytes(HEADER)       # the shortest state
SIXTY = state(1, 2)         # 60 bytes
GREATEST = state(500, 512)  # 4,096 bytes
FOUR_BYTES = ("part 5 1 0 0 1 00000000", "0 whole 0")  # a first part, which is always accepted
MOST_BYTES = 16_383         # of a line
HEX = "0123456789abcdef"


def cases():
    yield from every_byte()
    yield from lengths_of_data()
    yield from long_lengths()
    yield from [short_line_case(), long_line_case()]
    yield from last_lines()
    yield from header_bits()
    yield from sizes()
    yield from lengths_of_a_state()
    yield from divisions_in_two()
    yield from divisions_in_three()
    yield from divisions_off_a_dword()
    yield from offsets()
    yield from counts()
    yield from another_controllers()
    yield from resumed_at_each_place()
    yield from eight_controllers()


def handed(one, assembled=None):
    """The row of a part: its line, and its answer by the tests of W6."""
    return (part_line(one), *answer(one, assembled))


def opened(assembled):
    """A row that leaves these bytes assembled in controller 5's open sequence; None leaves nothing open."""
    return handed(part(5, ONLY, 0, EMPTY) if assembled is None else part(5, FIRST, 0, assembled))


def rows_of(parts_of_a_state, whole):
    """The rows of a state's parts, of which the last one yields it."""
    *others, last = parts_of_a_state
    return [*((part_line(one), "0 whole 0") for one in others), (part_line(last), *yielded(whole))]


# ---- Which lines are good, and how long

def every_byte():
    """Each byte but the line feed, before, in and after a part of four bytes."""
    for byte in range(256):
        if byte != 0x0A:
            b = chr(byte)
            yield case(f"byte {byte:02X}h in a part", [
                *BEFORE,
                FOUR_BYTES,
                (f"{b}part 5 1 0 0 1 00000000", "bad"),
                (f"{b}art 5 1 0 0 1 00000000", good_if(b == "p")),
                (f"part{b}5 1 0 0 1 00000000", good_if(b == " ")),
                (f"part 5 1 0 0{b}1 00000000", good_if(b == " ")),
                (f"part 5 1 0 0 1{b}00000000", good_if(b == " ")),
                (f"part 5 1 0 0 1 {b}0000000", good_if(b in HEX)),
                (f"part 5 1 0 0 1 000{b}0000", good_if(b in HEX)),
                (f"part 5 1 0 0 1 0000000{b}", good_if(b in HEX)),
                (f"part 5 1 0 0 1 000000{b}{b}", good_if(b in HEX)),
                (f"part 5 1 0 0 1 00000000{b}", "bad"),
                (f"part 5 1 0 0 {b} 00000000", good_if(b == "1", "25" if b in "023456789" else "bad")),
                (f"part 5 {b} 0 0 1 00000000", {"0": "26", "1": "0 whole 0", "2": "26", "3": "27"}.get(b, "25" if b in "456789" else "bad")),
                (f"part 5 2 4 0 0 {b}", "27" if b == "-" else "bad"),
                (f"part 5 1 0 0 1 {b}", "25" if b == "-" else "bad"),
                FOUR_BYTES,
            ])


def good_if(good, other="bad"):
    """The answer to a first part of four bytes, if the line is good."""
    return "0 whole 0" if good else other


def lengths_of_data():
    """Data of so many bytes, the count as near as can be: only whole dwords are, and more than 4,100 bytes are `bad`."""
    about = [255, 256, 257, 511, 512, 513, 1023, 1024, 1025, 2047, 2048, 2049, 4000]
    for length in [*range(140), *about, *range(4080, 4112), 4200, 8000]:
        first = Part(5, FIRST, 0, length // 4, bytes(length))
        more = first._replace(count=length // 4 + 1)
        yield case(f"data of {length} bytes", [
            *BEFORE,
            *((line, *(["bad"] if length > MOST_PART else answers)) for line, *answers in (handed(first), handed(more))),
            FOUR_BYTES,
            (part_line(first)[:-1], "bad"),
            (f"{part_line(first)}0", "bad"),
        ])


def long_lengths():
    """A line of more than 16,383 bytes is one `bad`, and so is a shorter one with as much data; the next line is read whole."""
    yield from long_lines([8247, 8248, 8249, MOST_BYTES - 1, MOST_BYTES, MOST_BYTES + 1])
    for length in (8247, 8248, 8249, 8250, MOST_BYTES - 2, MOST_BYTES - 1, MOST_BYTES, MOST_BYTES + 1, MOST_BYTES + 2, 24_576, 32_768, 65_536):
        head = "part 65535 255 4294967295 4294967295 4294967295 "
        line = head + "0" * (length - len(head))
        # 8,248 bytes are 4,100 bytes of data; 8,247 are half a byte less, and 65535 is no controller.
        yield case(f"a part of {length} bytes", [
            *BEFORE,
            (line, "2" if length == 8248 else "bad"),
            FOUR_BYTES,
            (line, "2" if length == 8248 else "bad"),
        ])


def last_lines():
    """A last line without a line feed is a line like any other."""
    good = [opened(EMPTY), opened(None), handed(part(5, ONLY, 0, GREATEST))]
    for row in [*good, ("part 7 1 0 0 1 00000000", "2"), ("part 5 1 0 0 1 0000000", "bad"), ("part 5 1 0 0 1 ", "bad")]:
        yield without_line_feed(case(f"a last line of {len(row[0])} bytes without a line feed: part", [*BEFORE, row]))


def without_line_feed(one):
    return one._replace(ended=False)


# ---- The finished whole

def header_bits():
    """Each of the header's 384 bits changed: those of version and sizes decide, those of attributes and reserved bytes don't."""
    for name, whole in (("48", EMPTY), ("60", SIXTY)):
        for bit in range(8 * HEADER):
            changed = with_bit(whole, bit)
            reserved = 16 <= bit < 128
            yield case(f"bit {bit} of a header, {name} bytes", [
                *BEFORE,
                (part_line(part(5, ONLY, 0, changed)), *(yielded(changed) if reserved else ["27"])),
                *both_parts(changed, 4 * (bit // 32)),      # the changed dword is the last part's first
                *both_parts(changed, 4 * (bit // 32) + 4),  # or stands in the area
            ])


def with_bit(whole, bit):
    changed = bytearray(whole)
    changed[bit // 8] ^= 1 << bit % 8
    return bytes(changed)


def both_parts(whole, cut):
    """The rows of a state in two parts; where the first would have nothing it is not made."""
    if cut == 0:
        return []
    first, last = sequence(5, whole, cut)
    return [handed(first), handed(last, whole[:cut])]


def sizes():
    """Sizes of every power of two and about: the whole is as long as they say, or it is refused; no sum or product is cut."""
    powers = [2 ** bit for bit in range(128)]
    pairs = [(0, 0), *((one, 0) for one in powers), *((0, one) for one in powers), *((one, one) for one in powers)]
    pairs += [(one - 1, 1) for one in powers[1:]] + [(1, one - 1) for one in powers[1:]] + [(2 ** 128 - 1, 1), (2 ** 128 - 1, 2 ** 128 - 1)]
    pairs += [(1012, 0), (0, 1012), (500, 512), (1011, 1), (1012, 1), (1, 1012), (1013, 0), (0, 1013)]
    for nvmecss, vss in pairs:
        said = HEADER + 4 * (nvmecss + vss)
        rows = []
        for length in sorted({HEADER, HEADER + 4, *(one for one in (said - 4, said, said + 4) if HEADER <= one <= MOST_PART)}):
            whole = (header(nvmecss, vss) + b"\x5a" * MOST_PART)[:length]
            good = length == said and length <= MOST_STATE
            rows.append((part_line(part(5, ONLY, 0, whole)), *(yielded(whole) if good else ["27"])))
        yield case(f"sizes {nvmecss} and {vss}", [*BEFORE, *rows])


def lengths_of_a_state():
    """So many zero bytes: a state where they are 48. Then states of each length about some."""
    for dwords in [*range(1, 30), 1023, 1024, 1025]:
        yield case(f"{4 * dwords} zero bytes", [*BEFORE, handed(part(5, ONLY, 0, bytes(4 * dwords)))])
    for dwords in [*range(20), 63, 64, 65, 255, 256, 257, 1011, 1012]:
        for nvmecss in sorted({0, min(1, dwords), dwords // 2, dwords}):
            whole = state(nvmecss, dwords - nvmecss)
            yield case(f"a state of {len(whole)} bytes, size {nvmecss}", [
                *BEFORE,
                (part_line(part(5, ONLY, 0, whole)), *yielded(whole)),
                (part_line(part(5, ONLY, 0, whole[:-4])), "27"),
                handed(part(5, ONLY, 0, whole + bytes(4))),
            ])


# ---- However divided

def divisions_in_two():
    """Every division of 60 bytes and of 4,096 into two parts, also of all and nothing: the same bytes."""
    for whole in (SIXTY, GREATEST):
        for cut in range(4, len(whole) + 4, 4):
            yield case(f"{len(whole)} bytes divided at {cut}", [*BEFORE, *rows_of(sequence(5, whole, cut), whole)])


def divisions_in_three():
    """Every division of 60 bytes into three parts; and into as many as there are dwords, each once with a last one of none."""
    for first in range(4, 60, 4):
        for second in range(first + 4, 64, 4):
            yield case(f"60 bytes divided at {first} and {second}", [*BEFORE, *rows_of(sequence(5, SIXTY, first, second), SIXTY)])
    for whole in (EMPTY, SIXTY, state(10, 20), GREATEST):
        for end in (len(whole), len(whole) + 4):
            yield case(f"{len(whole)} bytes in {end // 4} parts", [*BEFORE, *rows_of(sequence(5, whole, *range(4, end, 4)), whole)])


def divisions_off_a_dword():
    """60 bytes cut off a dword: no count fits the data, and the rest has no offset. Nothing is stored."""
    for cut in range(1, 60):
        if cut % 4:
            (_, first), (_, rest) = divided(SIXTY, [cut])
            yield case(f"60 bytes divided at {cut}", [
                *BEFORE,
                *((part_line(Part(5, FIRST, 0, count, first)), "25") for count in (cut // 4, cut // 4 + 1)),
                *((part_line(Part(5, LAST, cut, count, rest)), "24") for count in (len(rest) // 4, len(rest) // 4 + 1)),
                (part_line(part(5, FIRST, 0, SIXTY[:cut // 4 * 4 + 4])), "0 whole 0"),
                (part_line(Part(5, LAST, cut, len(rest) // 4, rest)), "24"),
                (part_line(part(5, LAST, cut // 4 * 4 + 4, SIXTY[cut // 4 * 4 + 4:])), *yielded(SIXTY)),
            ])


# ---- Offsets and counts

OPEN = [None, bytes(4), EMPTY, SIXTY[:56], GREATEST[:4092], GREATEST]  # what is assembled in the open sequence
OFFSETS = [*range(9), 44, 47, 48, 49, 50, 52, 55, 56, 60, 255, 256, 4088, *range(4090, 4105), 8192, 65535, 65536, 65536 + 48, 2 ** 31, 2 ** 31 + 48,
           WORD - 4, WORD - 1, WORD, WORD + 1, WORD + 4, WORD + 48, WORD + 56, WORD + 4092, WORD + 4096, 2 * WORD, 2 ** 48 + 48, 2 ** 63, 2 ** 63 + 4,
           WORD * (WORD - 1), WORD * (WORD - 1) + 48, 2 ** 64 - 4, 2 ** 64 - 1]


def tried(name, assembled, parts_of_5):
    """Each of these parts behind a sequence with these bytes assembled, or with nothing open. It is opened anew only behind a
    part that was accepted: a refused one changes nothing."""
    rows, refused = [], False
    for one in parts_of_5:
        if not refused:
            rows.append(opened(assembled))
        rows.append(handed(one, assembled))
        refused = not rows[-1][1].startswith("0 ")
    return case(f"{name}, open: {'nothing' if assembled is None else len(assembled)}", [*BEFORE, *rows])


def offsets():
    """A part of each kind at each offset, behind sequences of some lengths: 24 off a dword or above 4,096, else 26 or 27."""
    for assembled in OPEN:
        for indicator in (MIDDLE, FIRST, LAST, ONLY, 4, 255):
            every = [part(5, indicator, offset, data) for offset in OFFSETS for data in (b"\x5a" * 4, b"", EMPTY)]
            yield tried(f"indicator {indicator} at each offset", assembled, every)


COUNTS = [0, 1, 2, 3, 11, 12, 13, 14, 15, 16, 255, 256, 268, 1010, 1011, 1012, 1013, 1022, 1023, 1024, 1025, 1026, 4096, 65535, 65536, 65548, 2 ** 30 - 1,
          2 ** 30, 2 ** 30 + 1, 2 ** 30 + 12, 2 ** 30 + 1024, 2 ** 31 - 1, 2 ** 31, 2 ** 31 + 12, 3 * 2 ** 30, 3 * 2 ** 30 + 12, WORD - 1, WORD - 12]


def counts():
    """A part of each kind with each count where it would go on: with as many bytes as it says, and as many as it would say in
    32 bits; one more or fewer; as many bytes as dwords; none, a dword and a header. No line has more than 4,100 bytes."""
    for assembled in OPEN:
        for indicator in (MIDDLE, FIRST, LAST, ONLY, 4):
            offset = 0 if indicator in (FIRST, ONLY) else len(assembled or b"")
            every = [Part(5, indicator, offset, count, bytes(length)) for count in COUNTS for length in lengths_for(count)]
            yield tried(f"indicator {indicator} with each count", assembled, every)


def lengths_for(count):
    near = [4 * count - 1, 4 * count, 4 * count + 1, 4 * count % WORD, count]
    return sorted({0, 4, HEADER, *(length for length in near if 0 <= length <= MOST_PART)})


# ---- Two controllers, resumes

def another_controllers():
    """23 for every part of another controller, whatever it holds, and once the owner is resumed W6's other tests."""
    parts_of_6 = [Part(6, indicator, offset, count, bytes(length)) for indicator in (MIDDLE, FIRST, LAST, ONLY, 4)
                  for offset in (0, 2, 20, 4100, WORD) for count, length in ((0, 0), (1, 4), (1, 3), (12, 48), (1025, 4100))]
    for end in (4, 20, 48):
        yield case(f"another's parts, open {end}", [
            *BEFORE,
            opened(bytes(end)),
            *((part_line(one), "23") for one in parts_of_6),
            handed(part(5, LAST, end, bytes(HEADER - end)), bytes(end)),
        ])
        for one in parts_of_6:
            yield case(f"another's part after a resume, open {end}: {one.indicator} {one.offset} {one.count} {len(one.data)}", [
                *BEFORE, opened(bytes(end)), ("resume 5", "0"), handed(one), ("susp 5 1", "0"), after(one)])


def after(one):
    """5's part behind one of 6: 23 where that one has opened a sequence, else 26."""
    opens = answer(one) == ["0 whole 0"]
    return part_line(part(5, MIDDLE, 20, bytes(4))), "23" if opens else "26"


def resumed_at_each_place():
    """A resume between any two of 60 bytes' parts: the owner's drops all, another's nothing. Then the same bytes from the first."""
    for cut in range(4, 64, 4):
        first, last = sequence(5, SIXTY, cut)
        again = rows_of(sequence(5, SIXTY, 64 - cut), SIXTY)
        yield case(f"resumed behind {cut} bytes", [
            *BEFORE, handed(first), ("resume 5", "0"), (part_line(last), "13"), ("susp 5 1", "0"), (part_line(last), "26"), *again])
        yield case(f"another resumed behind {cut} bytes", [
            *BEFORE, handed(first), ("resume 6", "0"), ("susp 6 1", "0"), (part_line(last), *yielded(SIXTY)), *again])
        yield case(f"a new device behind {cut} bytes", [*BEFORE, handed(first), *BEFORE, (part_line(last), "26"), *again])


def eight_controllers():
    """Eight suspended controllers: while one's sequence is open each other gets 23, and each gets its state in turn."""
    names = [5, 6, 7, 8, 9, 10, 65534, 65535]
    rows = [("dev 1 0 8 0 16 " + " ".join(map(str, names)), "0"), *((f"susp {name} 1", "0") for name in names)]
    for place, name in enumerate(names):
        whole = state(place, 8 - place)
        first, second, last = sequence(name, whole, 4 + 4 * place, 44 + 4 * place)
        others = [(part_line(part(other, FIRST, 0, whole)), "23") for other in names if other != name]
        rows += [handed(first), *others, handed(second, whole[:4 + 4 * place]), *others, (part_line(last), *yielded(whole))]
    yield case("eight controllers in turn", rows)


# ---- Short and long lines, also for input in pieces

def short_line_case():
    """Good, damaged and refused parts, the last without its line feed: short enough to be fed byte by byte."""
    return without_line_feed(case("good, damaged and refused parts", [
        ("part 5 1 0 0 1 00000000", "1"),
        *BEFORE[:2],
        handed(part(5, FIRST, 0, SIXTY[:16])),
        ("part 5 0 16 0 1 0000000", "bad"),
        ("part 5 0 16 0 1 ", "bad"),
        ("part 5 0 18 0 1 00000000", "24"),
        ("part 5 0 16 0 1 000000", "25"),
        ("part 5 0 20 0 1 00000000", "26"),
        handed(part(5, MIDDLE, 16, SIXTY[16:56]), SIXTY[:16]),
        ("part 5 2 56 0 0 -", "27"),
        (part_line(part(5, LAST, 56, SIXTY[56:])), *yielded(SIXTY)),
        handed(part(5, ONLY, 0, EMPTY)),
    ]))


def long_line_case():
    """Parts of 4,096 bytes, of 4,100 and of 4,104, which is too many, and lines too long, the last without its line feed."""
    first, last = sequence(5, GREATEST, 4092)
    return without_line_feed(case("parts about 4,096 bytes", [
        *BEFORE,
        (part_line(part(5, ONLY, 0, GREATEST)), *yielded(GREATEST)),
        (part_line(part(5, FIRST, 0, bytes(MOST_PART))), "27"),
        (part_line(part(5, FIRST, 0, bytes(MOST_PART + 4))), "bad"),
        (f"part 5 1 0 0 1 {'0' * MOST_BYTES}", "bad"),
        handed(first),
        (part_line(last), *yielded(GREATEST)),
        (part_line(part(5, ONLY, 0, GREATEST)), *yielded(GREATEST)),
    ]))
