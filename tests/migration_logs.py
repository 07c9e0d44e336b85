"""Session files for the program that prints the migration log (document 02, W13), the names it is given, and what it must print.

A file's lines stand beside it, worked out by hand from documents 01 and 02; those of listings that are known from elsewhere, with their
answers, are told by logs.py. A file has a line for each controller of its last device, in the order of the settings; a name that can't
be opened has the line `bad`; and a sum over all comes last.
"""

import os
from pathlib import Path
from typing import NamedTuple, Optional

import logs
from case import input_of

LONGEST = 4095  # bytes of a name that can be opened


class LogCase(NamedTuple):
    name: str
    text: bytes               # the names, as they stand on standard input
    output: Optional[bytes]   # None: the programs are only compared with each other


class File(NamedTuple):
    text: bytes
    controllers: tuple        # of (identifier, marked, reported, dropped), in the order of the last device's settings


def session(*lines):
    return "".join(f"{line}\n" for line in lines).encode("latin-1")


# ---- Files, by hand

DEV = "dev 1 0 8 0 16 5 6"
START = "start 5 0 65536 4"
ALL = "write 5 65536 16384"  # four units
EXAMPLE = session(DEV, START, "write 5 69632 1", "write 5 73727 2", "recv 5 64", "recv 6 64")
NOTHING = ((5, 0, 0, 0), (6, 0, 0, 0))

BY_HAND = {
    "example": File(EXAMPLE, ((5, 2, 2, 0), (6, 0, 0, 0))),
    "dropped": File(session(DEV, START, ALL, "recv 5 32", "write 5 65536 12288", "stop 5"), ((5, 7, 4, 3), (6, 0, 0, 0))),
    "pending": File(session(DEV, START, "write 5 65536 1", "recv 5 64", "write 5 65536 1"), ((5, 2, 1, 0), (6, 0, 0, 0))),
    "refused-stop": File(session(DEV, START, "write 5 65536 8192", "susp 5 1", "stop 5"), ((5, 2, 0, 0), (6, 0, 0, 0))),
    "cut-reports": File(session(DEV, "start 6 0 65536 8", "write 6 65536 1", "write 6 73728 8192", "write 6 86016 1", "recv 6 47", "susp 6 1", "recv 6 31",
                                "recv 6 47", "resume 6", "stop 6", "stop 6"), ((5, 0, 0, 0), (6, 4, 3, 1))),
    "refused-writes": File(session(DEV, START, "write 5 18446744073709551615 2", "write 7 65536 1", "write 6 65536 1", "susp 5 1", ALL), NOTHING),
    "restarts": File(session(DEV, START, ALL, "stop 5", ALL, START, "recv 5 64", "write 5 65536 1", "stop 5", "start 5 8 1048576 2", "write 5 2097151 2",
                             "recv 5 32"), ((5, 7, 2, 5), (6, 0, 0, 0))),
    "overlap": File(session(DEV, "start 5 0 65536 4 65536 4 69632 4", "write 5 0 18446744073709551615", "recv 5 64", "write 5 69632 8192", "stop 5"),
                    ((5, 7, 5, 2), (6, 0, 0, 0))),
    "two-controllers": File(session(DEV, START, "start 6 1 0 4", ALL, "write 6 8191 2", "stop 6", "recv 5 64"), ((5, 4, 4, 0), (6, 2, 0, 2))),
    "one-controller": File(session("dev 0 20 20 1 1 65535", "start 65535 20 0 2", "write 65535 4294967295 2", "recv 65535 32"), ((65535, 2, 2, 0),)),
    "eight-controllers": File(
        session("dev 1 0 8 0 128 12 5 0 65535 256 9 261 6", *(f"start {name} 0 0 16" for name in (12, 5, 0, 65535, 256, 9, 261, 6)), "write 12 0 4096",
                "write 5 0 8192", "write 0 0 12288", "write 65535 0 16384", "write 256 0 20480", "write 9 0 24576", "write 261 0 28672", "write 6 0 32768",
                "stop 0", "recv 6 32", "stop 12", "recv 65535 32"),
        ((12, 1, 0, 1), (5, 2, 0, 0), (0, 3, 0, 3), (65535, 4, 4, 0), (256, 5, 0, 0), (9, 6, 0, 0), (261, 7, 0, 0), (6, 8, 8, 0))),
    "16384-units": File(session(DEV, "start 5 0 0 16384", *["write 5 0 67108864", "recv 5 32"] * 3, "write 5 0 67108864", "stop 5"),
                        ((5, 65536, 49152, 16384), (6, 0, 0, 0))),
    # devices
    "only-a-device": File(session(DEV), NOTHING),
    "two-devices": File(session(DEV, START, ALL, "stop 5", "dev 5 0 8 0 16 9 8 7", "write 5 65536 1", "start 8 0 65536 4", "write 8 65536 8192", "recv 8 64"),
                        ((9, 0, 0, 0), (8, 2, 2, 0), (7, 0, 0, 0))),
    "the-same-device-again": File(session(DEV, START, ALL, "recv 5 64", ALL, DEV), NOTHING),
    "used-again": File(session(DEV, START, ALL, DEV, "stop 5", "recv 5 64", START, "write 5 65536 1", "stop 5"), ((5, 1, 0, 1), (6, 0, 0, 0))),
    "refused-last-device": File(session(DEV, START, ALL, "dev 5 0 8 0 16 5 6", "dev 1 9 8 0 16 7 8", "dev 1 0 8 0 16", "dev 1 0 8 0 129 7"),
                                ((5, 4, 0, 0), (6, 0, 0, 0))),
    "refused-device-amid": File(session(DEV, START, ALL, "dev 1 0 21 0 16 7", "write 7 65536 1", "recv 5 64", ALL, "stop 5"), ((5, 8, 4, 4), (6, 0, 0, 0))),
    "bad-last-device": File(session(DEV, START, ALL, "dev 1 0 8 0 16 05", "dev 1 0 8 2 16 7", " dev 1 0 8 0 16 7", "dev 1 0 8 0 16 7 ", "dev",
                                    "dev 1 0 8 0 16 7 8 9 10 11 12 13 14 15"), ((5, 4, 0, 0), (6, 0, 0, 0))),
    "calls-before-a-device": File(session(START, ALL, "stop 5", "recv 5 64", DEV, "recv 5 64"), NOTHING),
    # no device
    "empty": File(b"", ()),
    "a-line-feed": File(b"\n", ()),
    "no-device": File(session(START, ALL, "recv 5 64", "stop 5"), ()),
    "only-refused-devices": File(session("dev 5 0 8 0 16 5 6", START, ALL, "dev 1 0 8 0 129 5"), ()),
    "no-listing": File(b"This is no session listing.\n\x00\x01\x02\xff\n\n\n5 marked 2 reported 2 dropped 0\n", ()),
    "all-bytes": File(bytes(range(256)) * 40, ()),
    "with-carriage-returns": File(EXAMPLE.replace(b"\n", b"\r\n"), ()),
    # lines
    "last-line-without-line-feed": File(session(DEV, START, ALL) + b"stop 5", ((5, 4, 0, 4), (6, 0, 0, 0))),
    "device-without-line-feed": File(DEV.encode(), NOTHING),
    "last-line-cut": File(session(DEV, START, ALL) + b"stop ", ((5, 4, 0, 0), (6, 0, 0, 0))),
    "words-of-shelf-listings": File(session(DEV, START, "batch 5 65536 1", "burst 1 5 65536 1", "dev2 1 0 8 0 16 1 0 128 7 8", "by 1 stop 5", "log 5", ALL,
                                            "by 1 recv 5 64"), ((5, 4, 0, 0), (6, 0, 0, 0))),
    "bad-lines": File(session(DEV, START, "", " ", "write 5 65536 01", "write 5 65536 1 ", "write\t5 65536 1", "WRITE 5 65536 1", "write 5 65536 1\0",
                              "write 65541 65536 1", "write 5 18446744073709617152 1", "write 5 65536 1"), ((5, 1, 0, 0), (6, 0, 0, 0))),
    "large": File(session(DEV, START) + session(ALL, "recv 5 32") * 120_000 + session(ALL, "stop 5"), ((5, 480_004, 480_000, 4), (6, 0, 0, 0))),
    "large-of-bad-lines": File(session(DEV, START, ALL) + b"no line\n" * 300_000 + session("stop 5"), ((5, 4, 0, 4), (6, 0, 0, 0))),
    "large-line": File(session(DEV, START, ALL) + b"x" * 3_000_000 + b"stop 5\n" + session("write 6 0 1", "recv 5 64"), ((5, 4, 4, 0), (6, 0, 0, 0))),
    "large-last-line": File(session(DEV, START, ALL) + b"stop 5 " * 300_000, ((5, 4, 0, 0), (6, 0, 0, 0))),
    "large-of-zeros": File(session(DEV, START, ALL, "stop 5") + bytes(2_000_000), ((5, 4, 0, 4), (6, 0, 0, 0))),
    # names
    "two words": File(EXAMPLE, ((5, 2, 2, 0), (6, 0, 0, 0))),
    "bad": File(EXAMPLE, ((5, 2, 2, 0), (6, 0, 0, 0))),
    "carriage-return\r": File(EXAMPLE, ((5, 2, 2, 0), (6, 0, 0, 0))),
    "n" * 255: File(EXAMPLE, ((5, 2, 2, 0), (6, 0, 0, 0))),
}

# A name that is no UTF-8: the file is there and the second program plays it, but the library opens names of text alone, so the proved program says `bad`
# (docs/PORT.md). So each program has an answer of its own to it.
NAMED_BY_BYTES = {
    "\xff\xfe\x80\t\x01": File(EXAMPLE, ((5, 2, 2, 0), (6, 0, 0, 0))),
}

# A line of so many bytes is bad, and what stands at its end is no line: the lengths about 1,023 and about usual sizes of a buffer.
LONG = [*range(1020, 1034), 2048, 2054, 4090, 4096, 4102, 8192, 8198, 65536, 65542, 100_000]
# Where a line of a file begins, so that it lies across the border of a buffer.
BORDERS = [border + more for border in (512, 1024, 4096, 8192, 65536) for more in range(-8, 2)]


def long_line_files():
    """`stop 5` at the end of a line that is too long, or that is bad by what is before; then the next line counts."""
    for length in LONG:
        line = b"x" * (length - 6) + b"stop 5\n"
        yield f"line-of-{length}", File(session(DEV, START, ALL) + line + session("recv 5 32"), ((5, 4, 4, 0), (6, 0, 0, 0)))


def border_files():
    """`stop 5` at each place about the borders: behind as many bytes of bad lines."""
    head = session(DEV, START, ALL)
    for begin in BORDERS:
        filling = (b"no line\n" * (begin // 8))[:begin - len(head) - 1] + b"\n"
        yield f"stop-at-{begin}", File(head + filling + session("stop 5"), ((5, 4, 0, 4), (6, 0, 0, 0)))
        yield f"end-at-{begin}", File(head + filling, ((5, 4, 0, 0), (6, 0, 0, 0)))


def known_files(cases):
    """Session listings with known answers, a file each."""
    for number, case in enumerate(cases):
        told = logs.of_listing(case)
        yield f"known-{number}", File(input_of(case), tuple((name, *totals) for name, totals in told.totals.items()))


# ---- What is printed

def lines_of(file):
    """The lines of a file, or `bad` where there is none."""
    if file is None:
        return b"bad\n"
    return b"".join(b"%d marked %d reported %d dropped %d\n" % row for row in file.controllers)


def sum_line(files):
    rows = [row[1:] for file in files if file is not None for row in file.controllers]
    return b"sum marked %d reported %d dropped %d\n" % tuple(map(sum, zip((0, 0, 0), *rows)))


def printed(files):
    """What is printed for names of these files, in their order; None is a name that can't be opened."""
    return b"".join(map(lines_of, files)) + sum_line(files)


FOLDER = File(b"", ())  # opened, but it can't be read: as an empty file


# ---- Names

def encoded(name):
    return name.encode("latin-1")


def padded(name, length):
    """A name of so many bytes, at least two more, for the same file."""
    more = length - len(name)
    return b"./" * (more // 2) + b"/" * (more % 2) + name


def cases(files):
    """All cases, in the folder with these files, by their names."""
    yield from fixed_outputs()
    example, dropped = files["example"], files["dropped"]
    for name, file in files.items():
        yield LogCase(f"the file {name[:40]!r}", encoded(name) + b"\n", printed([file]))
    yield LogCase("all files", b"".join(encoded(name) + b"\n" for name in files), printed(files.values()))
    backwards = list(files.items())[::-1]
    yield LogCase("all files backwards, the last without its line feed", b"\n".join(encoded(name) for name, _ in backwards), printed([file for _, file in backwards]))
    for length in (*range(64, 70), 255, 256, 257, 511, 512, 1022, 1023, 1024, 1025, 2047, 2048, 2049, 4090, 4091, 4092, 4093, 4094, LONGEST):
        yield LogCase(f"a name of {length} bytes", padded(b"example", length) + b"\ndropped\n", printed([example, dropped]))
        yield LogCase(f"a last name of {length} bytes, without a line feed", b"dropped\n" + padded(b"example", length), printed([dropped, example]))
    for length in (LONGEST + 1, LONGEST + 2, 4098, 4099, 4102, 4103, 5000, 8191, 8192, 8199, 65_536, 65_543, 100_000, 3_000_000):
        yield LogCase(f"a name of {length} bytes", padded(b"example", length) + b"\ndropped\n", printed([None, dropped]))
        yield LogCase(f"a name of {length} bytes, with a good one at its beginning",
                      padded(b"example", LONGEST) + b"x" * (length - LONGEST) + b"\ndropped\n", printed([None, dropped]))
        yield LogCase(f"a name of {length} bytes, with a good one at its end", b"y" * (length - 7) + b"example\ndropped\n", printed([None, dropped]))
        yield LogCase(f"a last name of {length} bytes, without a line feed", b"dropped\n" + padded(b"example", length), printed([dropped, None]))
    for name in (b"none", b"exampl", b"example2", b"Example", b" example", b"example ", b"\texample", b"example\r", b"example/", b"example/.", b"folder/none",
                 b"none/example", b"-", b"--log", b"*", b"example dropped", b"\"example\"", b"'example'", b"~", b"$HOME", b"\\x65xample", b"m" * 256, b"dangling",
                 b"\0", b"\0example", b"example\0", b"example\0\0", b"example\0dropped", b"exam\0ple", b"folder\0", b"folder/\0", b"/dev/null\0", b"\xff", b""):
        yield LogCase(f"the name {name[:40]!r}", name + b"\n", printed([None]))
        yield LogCase(f"the name {name[:40]!r} between others", b"example\n" + name + b"\ndropped\n", printed([example, None, dropped]))
    for name in (b"folder", b"folder/", b".", b"./folder/..", b"..", b"/", b"/dev/null"):
        yield LogCase(f"the name {name!r}, nothing to read", name + b"\n", printed([FOLDER]))
        yield LogCase(f"the name {name!r}, nothing to read, between others", b"example\n" + name + b"\ndropped\n", printed([example, FOLDER, dropped]))
    here = os.fsencode(Path.cwd())
    for name in (b"./example", b".//example", b"folder/../example", here + b"/example", b"//" + here + b"///example", b"linked", b"folder/inner"):
        yield LogCase(f"the name {name!r}", name + b"\ndropped\n", printed([example, dropped]))
    yield LogCase("3,000 names of one file", b"example\n" * 3000, printed([example] * 3000))
    yield LogCase("3,000 names that can't be opened", b"none\n" * 3000 + b"example", printed([None] * 3000 + [example]))
    yield LogCase("3,000 names of a folder", b"folder\n" * 3000 + b"example", printed([FOLDER] * 3000 + [example]))
    yield LogCase("3,000 empty names", b"\n" * 3000 + b"example", printed([None] * 3000 + [example]))


def by_bytes(files, is_opened):
    """Names that are no text, for a program that opens them, or for one that doesn't; in the folder with these files too."""
    example, dropped = files["example"], files["dropped"]
    for name, there in NAMED_BY_BYTES.items():
        file = there if is_opened else None
        yield LogCase(f"the file {name!r}", encoded(name) + b"\n", printed([file]))
        yield LogCase(f"the file {name!r} between others", b"example\n" + encoded(name) + b"\ndropped\n", printed([example, file, dropped]))
        yield LogCase(f"the file {name!r} last, without a line feed", b"dropped\n" + encoded(name), printed([dropped, file]))


def fixed_outputs():
    """Whole outputs, with their sums, as they stand."""
    yield LogCase("no names", b"", b"sum marked 0 reported 0 dropped 0\n")
    yield LogCase("the example of document 01", b"example\n",
                  b"5 marked 2 reported 2 dropped 0\n6 marked 0 reported 0 dropped 0\nsum marked 2 reported 2 dropped 0\n")
    yield LogCase("the example, without a line feed", b"example",
                  b"5 marked 2 reported 2 dropped 0\n6 marked 0 reported 0 dropped 0\nsum marked 2 reported 2 dropped 0\n")
    yield LogCase("several files", b"example\ndropped\npending\ntwo-devices\n",
                  b"5 marked 2 reported 2 dropped 0\n6 marked 0 reported 0 dropped 0\n"
                  b"5 marked 7 reported 4 dropped 3\n6 marked 0 reported 0 dropped 0\n"
                  b"5 marked 2 reported 1 dropped 0\n6 marked 0 reported 0 dropped 0\n"
                  b"9 marked 0 reported 0 dropped 0\n8 marked 2 reported 2 dropped 0\n7 marked 0 reported 0 dropped 0\n"
                  b"sum marked 13 reported 9 dropped 3\n")
    yield LogCase("one file twice", b"dropped\ndropped\n",
                  b"5 marked 7 reported 4 dropped 3\n6 marked 0 reported 0 dropped 0\n" * 2 + b"sum marked 14 reported 8 dropped 6\n")
    yield LogCase("a name that can't be opened", b"none\n", b"bad\nsum marked 0 reported 0 dropped 0\n")
    yield LogCase("an empty name", b"\n", b"bad\nsum marked 0 reported 0 dropped 0\n")
    yield LogCase("two empty names", b"\n\n", b"bad\nbad\nsum marked 0 reported 0 dropped 0\n")
    yield LogCase("a folder", b"folder\n", b"sum marked 0 reported 0 dropped 0\n")
    yield LogCase("a file without a device", b"no-device\n", b"sum marked 0 reported 0 dropped 0\n")
    yield LogCase("good names and others", b"none\nexample\n\nfolder\ndropped\nempty\nnone",
                  b"bad\n5 marked 2 reported 2 dropped 0\n6 marked 0 reported 0 dropped 0\nbad\n"
                  b"5 marked 7 reported 4 dropped 3\n6 marked 0 reported 0 dropped 0\nbad\nsum marked 9 reported 6 dropped 3\n")
    yield LogCase("nothing of a file is left for the next one", b"example\nno-device\nexample\nlast-line-cut\nno-device\n",
                  b"5 marked 2 reported 2 dropped 0\n6 marked 0 reported 0 dropped 0\n" * 2
                  + b"5 marked 4 reported 0 dropped 0\n6 marked 0 reported 0 dropped 0\nsum marked 8 reported 4 dropped 0\n")
    yield LogCase("a large file", b"large\n",
                  b"5 marked 480004 reported 480000 dropped 4\n6 marked 0 reported 0 dropped 0\nsum marked 480004 reported 480000 dropped 4\n")


def read_example(names):
    """An example's names, for the folder with their files, and the lines that stand beside it in NAME.answers."""
    return LogCase(f"examples/{names.name}", names.read_bytes(), names.with_suffix(".answers").read_bytes())


def write_all(folder, files):
    """The files, and what else the names mean: a folder with a file, and links to the example and to nothing."""
    for name, file in files.items():
        (folder / os.fsdecode(encoded(name))).write_bytes(file.text)
    (folder / "folder").mkdir()
    (folder / "folder/inner").write_bytes(EXAMPLE)
    (folder / "linked").symlink_to("example")
    (folder / "dangling").symlink_to("none")
