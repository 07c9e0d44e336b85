"""A case: a listing, and where document 01 was worked out by hand, the answers that it must get."""

import re
from typing import NamedTuple, Optional


class Case(NamedTuple):
    name: str
    lines: list                     # of bytes, without their line feeds
    answers: Optional[list] = None  # of bytes; None: the two programs are only compared with each other
    ended: bool = True              # the last line has its line feed


def input_of(case):
    """The bytes that a program is given."""
    text = b"\n".join(case.lines)
    return text + b"\n" if case.ended and case.lines else text


def begins_anew(case):
    """Whether the case's first line makes a fresh device, so that it may follow others in one run of a program."""
    done = case.answers is None or case.answers[:1] == [b"0"]
    return case.ended and bool(case.lines) and case.lines[0].startswith((b"dev ", b"dev2 ")) and done


def said(*texts):
    """Lines of text as bytes."""
    return [text.encode("latin-1") for text in texts]


REPEATED = re.compile(r"\{([^{}*]+)\*([0-9]+)\}")


def read_cases(path):
    """The cases of a file: [NAME], then `LINE -> ANSWER`; a line with nothing before `->` is a further answer line.
    `{00*48}` stands for 48 times what is before the star."""
    cases = []
    for number, row in enumerate(path.read_text(encoding="utf-8").splitlines(), 1):
        if not row.strip() or row.startswith("#"):
            continue
        if row.startswith("[") and row.endswith("]"):
            cases.append(Case(f"{path.name}: {row[1:-1]}", [], []))
            continue
        line, arrow, answer = REPEATED.sub(lambda found: found[1] * int(found[2]), row).rpartition("->")
        if not arrow:
            raise SystemExit(f"{path}:{number}: neither a name, a comment nor LINE -> ANSWER")
        if line.strip():
            cases[-1].lines.append(unescaped(line.rstrip(" ")))
        cases[-1].answers.append(answer.strip().encode())
    return cases


def of_shelf_too(cases):
    """Those whose answers are the same in a shelf listing, but for groups: a word that it has is `bad` in a session listing."""
    return [case for case in cases if ": session only" not in case.name]


def unescaped(text):
    """\\x20, \\t, \\r and \\0 as the bytes that they stand for."""
    return text.encode("latin-1").decode("unicode_escape").encode("latin-1")


def read_example(listing):
    """An example's listing with the answers that stand beside it in NAME.answers."""
    lines, answers = (path.read_bytes().split(b"\n") for path in (listing, listing.with_suffix(".answers")))
    if lines.pop() or answers.pop():
        raise SystemExit(f"{listing}: it or its answers do not end in a line feed")
    return Case(f"examples/{listing.name}", lines, answers)


REPORT = re.compile(rb"0 susp [01] more [01] gran [0-9]+ runs ([0-9]+)(?: groups [0-9]+)?")  # a shelf listing has groups too (W10)
YIELD = re.compile(rb"0 whole [1-9][0-9]*")
TAKEN = re.compile(rb"0 taken ([0-9]+) closing [01]")


def answer_length(first_line):
    """How many lines the answer has that begins with this one: a report adds a line a descriptor, a take a line an entry,
    and a part that yields a state one with its bytes."""
    counted = REPORT.fullmatch(first_line) or TAKEN.fullmatch(first_line)
    if counted:
        return 1 + int(counted.group(1))
    return 2 if YIELD.fullmatch(first_line) else 1


def answers_by_line(count, answers):
    """The answers (a list of lines) to `count` listing lines: a list for each, and the answers that are left over."""
    parts, at = [], 0
    for _ in range(count):
        length = answer_length(answers[at]) if at < len(answers) else 0
        parts.append(answers[at:at + length])
        at += length
    return parts, answers[at:]
