"""Lines that are no lines of a listing: every byte's value, lines too long, the input's end; and ways to damage a line.

Document 01, "Session listing": at most 1,023 bytes before the line feed, a word, decimal numbers without leading zeros
that fit their fields, one space between. Any other line answers `bad`.
"""

from case import Case, said

DEV = b"dev 1 0 8 0 16 5 6"
# about the greatest length; about usual sizes of a buffer and 8 bytes more, the length of `susp 5 1`; and far beyond
LONG = [*range(1022, 1034), 2046, 2047, 2048, 2055, 2056, 4095, 4096, 4097, 4104, 8192, 8200, 65536, 65544, 100_000]


def cases():
    return [*every_byte(), *long_lines(LONG), *ends_of_input()]


def every_byte():
    """Each byte but the line feed: alone, and before, in and after the line `stop 5` (whose answer is 5, not tracked)."""
    for byte in range(256):
        if byte != 0x0A:
            b = bytes([byte])
            rows = [(b, b"bad"),
                    (b + b"stop 5", b"bad"),
                    (b"stop" + b + b"5", b"5" if b == b" " else b"bad"),
                    (b"stop " + b, stop_answer(b)),
                    (b"stop 5" + b, stop_answer(b"5" + b)),
                    (b + b"top 5", b"5" if b == b"s" else b"bad"),
                    (b"stop 5", b"5")]
            yield Case(f"byte {byte:02X}h", [DEV] + [line for line, _ in rows], [b"0"] + [answer for _, answer in rows])


def stop_answer(word):
    """The answer to `stop WORD`: 5 and 6 are the identifiers and not tracked."""
    if not all(b"0"[0] <= byte <= b"9"[0] for byte in word):
        return b"bad"
    return b"5" if word in (b"5", b"6") else b"2"


def long_lines(lengths):
    """A line too long is one `bad`, whatever its length, and the next line is read from its beginning."""
    for length in lengths:
        lines = [filled(kind, length) for kind in range(len(FILLED))]
        listing, answers = [DEV], [b"0"]
        for line in lines:
            listing += [line, b"stop 5"]
            answers += [b"bad", b"5"]
        yield Case(f"lines of {length} bytes", listing, answers)


# (head, filling, tail): where a line is cut wrongly, its head or its tail would be a call with an answer of its own
FILLED = [
    (b"", b"x", b""),
    (b"susp 5 1", b" ", b""),
    (b"susp 5 1", b"\0", b""),
    (b"susp 5 1\r", b"x", b"\r"),
    (b"susp ", b"0", b"5 1"),
    (b"susp 5 ", b"1", b""),
    (b"", b" ", b"susp 5 1"),
    (b"", b"y", b"susp 5 1"),
    (b"start 5 0", b" 4096 1", b""),
    (b"", b"\xff", b""),
]


def filled(kind, length):
    """A line of exactly so many bytes."""
    head, filling, tail = FILLED[kind]
    room = length - len(head) - len(tail)
    return head + (filling * room)[:room] + tail


def ends_of_input():
    """Document 01 as decided: a last line without a line feed is a line like any other; an empty rest is none."""
    yield Case("empty input", [], [])
    yield Case("one empty line", [b""], [b"bad"])
    yield Case("three empty lines", [b"", b"", b""], said("bad", "bad", "bad"))
    yield Case("empty lines in a session", [DEV, b"", b"stop 5", b"", b""], said("0", "bad", "5", "bad", "bad"))
    yield Case("a last line without a line feed", [DEV, b"stop 5"], said("0", "5"), ended=False)
    yield Case("a lone line without a line feed", [DEV], said("0"), ended=False)
    yield Case("a report without a line feed", [DEV, b"start 5 0 65536 4", b"write 5 65536 1", b"recv 5 64"],
               said("0", "0", "0 1", "0 susp 0 more 0 gran 0 runs 1", "65536 1"), ended=False)
    yield Case("a row without a line feed", [DEV, b"start 5 0 65536 4 65537 1"], said("0", "20 1"), ended=False)
    yield Case("a damaged last line without a line feed", [DEV, b"stop 5 "], said("0", "bad"), ended=False)
    yield Case("a last byte 0 without a line feed", [DEV, b"\0"], said("0", "bad"), ended=False)
    yield Case("lines that end in a carriage return", [DEV + b"\r", b"stop 5\r"], said("bad", "bad"))
    for length in LONG:
        yield Case(f"a last line of {length} bytes without a line feed", [DEV, b"z" * length], said("0", "bad"), ended=False)


def broken_line_case():
    """Good, damaged and long lines, the last without its line feed: short enough to be fed byte by byte."""
    lines = [DEV, b"", b"stop 5", b"stop  5", b"x" * 1024, b"stop 5", b"start 5 0 65536 4 65537 1",
             b"start 5 0 65536 4", b"y" * 1023 + b"susp 5 1", b"write 5 65536 16384", b"recv 5 32"]
    return Case("good, damaged and long lines", lines, None, ended=False)


# ---- Damage for seeded sessions. Most results are bad, some are good lines with another meaning; both programs answer.

def damage(dice, line):
    return dice.choice(DAMAGES)(dice, line)


def other_byte(dice, line):
    at = dice.randrange(len(line))
    return line[:at] + any_byte(dice) + line[at + 1:]


def one_byte_more(dice, line):
    at = dice.randrange(len(line) + 1)
    return line[:at] + any_byte(dice) + line[at:]


def one_byte_less(dice, line):
    at = dice.randrange(len(line))
    return line[:at] + line[at + 1:]


def any_byte(dice):
    """Any value but the line feed; digits, spaces and other line ends more often."""
    byte = dice.choice([dice.randrange(256), dice.choice(b"0123456789 \t\r\0+-.")])
    return b"\0" if byte == 0x0A else bytes([byte])


def other_number(dice, line):
    words = line.split(b" ")
    words[dice.randrange(len(words))] = dice.choice(NUMBERS)
    return b" ".join(words)


NUMBERS = [b"", b"0", b"00", b"01", b"+1", b"-1", b"1", b"2", b"20", b"21", b"128", b"129", b"255", b"256", b"4095", b"4096",
           b"4097", b"16384", b"16385", b"65535", b"65536", b"4294967295", b"4294967296", b"18446744073709551615", b"18446744073709551616",
           b"18446744073709551617", b"99999999999999999999", b"184467440737095516160", b"9" * 60]


def fewer_words(dice, line):
    words = line.split(b" ")
    del words[dice.randrange(len(words))]
    return b" ".join(words)


def more_words(dice, line):
    words = line.split(b" ")
    words.insert(dice.randrange(len(words) + 1), dice.choice(NUMBERS + words))
    return b" ".join(words)


def other_word(dice, line):
    word = dice.choice([b"dev", b"start", b"stop", b"write", b"recv", b"susp", b"resume", b"halt", b"DEV"])
    return b" ".join([word] + line.split(b" ")[1:])


def long_line(dice, line):
    """About the greatest length, ending in the line itself or beginning with it; rarely far beyond."""
    length = dice.choice(LONG[:-1]) if dice.random() < 0.98 else LONG[-1]
    filling = dice.choice([b" ", b"0", b"1", b"x", b"\0", b"\xff"])
    room = max(0, length - len(line))
    return dice.choice([line + filling * room, filling * room + line])


def empty_line(_dice, _line):
    return b""


def noise(dice, _line):
    return bytes(dice.randrange(256) for _ in range(dice.randrange(1, 40))).replace(b"\n", b"\0")


DAMAGES = [other_byte, one_byte_more, one_byte_less, other_number, other_number, fewer_words, more_words, other_word,
           long_line, empty_line, noise]
