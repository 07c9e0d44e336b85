"""Edges of `log` lines and of a controller's numbers (document 02, W13), with answers by formulas that stand here."""

from edges import case
from logs import log_line

DEV = ("dev 1 0 8 0 16 5 6", "0")
NONE = "0 marked 0 reported 0 dropped 0"
MOST_BYTES = 16_383  # of a line
# about each border, and what would be a good number if it were cut to 8, 16, 32 or 64 bits
NUMBERS = [0, 1, 2, 4, 5, 6, 7, 8, 255, 256, 261, 262, 32_773, 65_535, 65_536, 65_541, 2 ** 32 - 1, 2 ** 32, 2 ** 32 + 5, 2 ** 63, 2 ** 64 - 1, 2 ** 64,
           2 ** 64 + 5, 10 ** 40]


def cases():
    yield from every_byte()
    yield from numbers_of_a_line()
    yield from [short_line_case(), long_line_case()]
    yield from each_count()
    yield from each_room()


def read(marked, reported, dropped):
    return f"0 marked {marked} reported {reported} dropped {dropped}"


def every_byte():
    """Each byte but the line feed, before, in and after a `log` line."""
    for byte in range(256):
        if byte != 0x0A:
            b = chr(byte)
            digit = b in "0123456789"
            yield case(f"byte {byte:02X}h in lines with log", [
                DEV,
                (f"{b}log 5", "bad"),
                (f"{b}og 5", NONE if b == "l" else "bad"),
                (f"l{b}g 5", NONE if b == "o" else "bad"),
                (f"lo{b} 5", NONE if b == "g" else "bad"),
                (f"log{b} 5", "bad"),
                (f"log{b}5", NONE if b == " " else "bad"),
                (f"log {b}", NONE if b in "56" else "2" if digit else "bad"),
                (f"log {b}5", "2" if digit and b != "0" else "bad"),
                (f"log 5{b}", "2" if digit else "bad"),
                (f"log 5 {b}", "bad"),
                ("log 5", NONE),
            ])


def numbers_of_a_line():
    yield case("numbers in lines with log", [DEV, *(row for number in NUMBERS for row in (
        (f"log {number}", NONE if number in (5, 6) else "2" if number < 2 ** 16 else "bad"), (f"log 0{number}", "bad"), (f"log {number} {number}", "bad")))])
    yield case("numbers in lines with log, before a device", [row for number in NUMBERS for row in (
        (f"log {number}", "1" if number < 2 ** 16 else "bad"), (f"log 0{number}", "bad"))])


def each_count():
    """So many units about the edges of words, behind another's units: all marked, all but one reported, and one dropped; and over again."""
    for count in [*range(2, 20), *range(60, 70), *range(125, 132), 255, 256, 257, 1000, 4096, 8193, 16_380]:
        groups = -(-count // 64)
        rows = [DEV, ("start 5 0 0 3", "0"), (f"start 6 0 1048576 {count}", "0"), ("write 5 0 4097", "0 2")]
        marked = reported = dropped = 0
        for _ in range(3):
            rows += [(f"write 6 1048576 {count * 4096}", f"0 {count}"), ("log 6", read(marked + count, reported, dropped)),
                     ("recv 6 32", f"0 susp 0 more 0 gran 0 runs 1 groups {groups}"), ("", f"1048576 {count}")]
            marked, reported = marked + count, reported + count
            rows += [("log 6", read(marked, reported, dropped)), (f"write 6 {1048576 + 4096 * (count - 1)} 5000", "0 1"), ("log 6", read(marked + 1, reported, dropped)),
                     ("stop 6", "0"), ("log 6", read(marked + 1, reported, dropped + 1)), ("stop 6", "5"), (f"start 6 0 1048576 {count}", "0")]
            marked, dropped = marked + 1, dropped + 1
        yield case(f"{count} units, marked, reported and dropped", [*rows_of(rows), ("log 5", read(2, 0, 0)), ("stop 5", "0"), ("log 5", read(2, 0, 2))])


def each_room():
    """Twenty pages, each a run of its own, cut by each room; what is left is dropped."""
    for room in range(1, 23):
        pages, given = [8192 * page for page in range(20)], min(room, 20)
        more = 1 if given < 20 else 0
        rows = [DEV, ("start 5 0 0 40", "0"), *((f"write 5 {page} 1", "0 1") for page in pages), ("log 5", read(20, 0, 0)),
                (f"recv 5 {16 + 16 * room + room % 16}", f"0 susp 0 more {more} gran 0 runs {given} groups 1"), *(("", f"{page} 1") for page in pages[:given]),
                ("log 5", read(20, given, 0)), ("susp 5 1", "0"), ("stop 5", "4"), ("log 5", read(20, given, 0)), ("resume 5", "0"), ("stop 5", "0"),
                ("log 5", read(20, given, 20 - given))]
        yield case(f"twenty runs and room for {room}", rows_of(rows))


def rows_of(rows):
    """Rows as `case` has them: a line with all lines of its answer. A row without a line is a further answer line."""
    whole = []
    for line, *answers in rows:
        if line:
            whole.append((line, *answers))
        else:
            whole[-1] += tuple(answers)
    return whole


def short_line_case():
    """Good, damaged and refused lines, the last without its line feed: short enough to be fed byte by byte."""
    return case("good, damaged and refused lines with log", [
        ("log 5", "1"), ("log", "bad"), DEV, ("start 5 0 65536 4", "0"), ("write 5 65536 8192", "0 2"), ("log 5", read(2, 0, 0)), ("log 05", "bad"), ("log 7", "2"),
        ("by 1 log 5", "bad"), ("stop 5", "0"), ("log 5 ", "bad"), ("log 5", read(2, 0, 2)),
    ])._replace(ended=False)


def long_line_case():
    """Lines too long, the last without its line feed."""
    return case("long lines with log", [
        DEV, (log_line("5" * (MOST_BYTES - 4)), "bad"), (log_line("5" * (MOST_BYTES - 3)), "bad"), ("x" * MOST_BYTES + "log 5", "bad"), ("log" + " 5" * MOST_BYTES, "bad"),
        ("log 5" + " " * MOST_BYTES, "bad"), ("log 6", NONE),
    ])._replace(ended=False)
