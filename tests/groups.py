"""What tests/listings and tests/shelf share: groups of listings played through two programs or three, seed after seed, and how a
difference is printed."""

import itertools
import sys
import time

import compare
from case import answers_by_line, input_of, read_cases
from programs import ROOT, Hang, Trouble, arguments, both_programs, ends_unheard, run, run_in_chunks, run_in_talk

SESSIONS_A_RUN = 500
SHOWN_A_GROUP = 2  # the first differences of a group; more would say the same
LINES_SHOWN = 20  # of an answer; a take may have 129
SHORT_CHUNKS = [[1], [2, 3, 5, 7, 11, 13], [1023], [1024, 1]]


def status(title, about, first, words, fixed_groups, seed_groups, plain=None):
    """Plays the fixed groups, then those of a seed, with --long of seed after seed. Answers the exit status.

    `words` tell the second program what it is to play; `plain` is the program on the plain engine, if there is one."""
    chosen = arguments(title, about, first, " ".join(["second", *words]), "go on with new seeds until stopped", plain)
    try:
        test = Test(title, both_programs(chosen, *words))
    except Trouble as trouble:
        print(f"tests/{title}: {trouble}", file=sys.stderr)
        return 2
    try:
        fixed_groups(test)
        for seed in itertools.count(chosen.seed):
            seed_groups(test, seed)
            if not chosen.long or test.differences:
                break
    except Hang as hang:
        test.trouble(hang)
    except KeyboardInterrupt:
        print("stopped")
    return test.ending()


class Test:
    """Two programs or three, what was played through them, and how many differences were shown."""

    def __init__(self, title, programs):
        self.title, self.programs = title, programs
        self.listings = self.lines = self.differences = 0
        for old in (ROOT / "target" / title).glob("difference-*.listing"):
            old.unlink()

    def files(self, pattern):
        """The repository's files of this pattern. None at all would be a test that passes by testing nothing."""
        paths = sorted(ROOT.glob(pattern))
        if not paths:
            raise SystemExit(f"tests/{self.title}: there is no {pattern}")
        return paths

    # ---- Groups

    def by_hand(self, title, pattern, chosen=list):
        """A group for each file of cases by hand, of all its cases or those chosen. Answers what was played."""
        every = []
        for path in self.files(pattern):
            cases = chosen(read_cases(path))
            self.group(f"{title}: {path.stem}", cases)
            every += cases
        return every

    def group(self, name, cases, play=compare.play):
        """Plays all cases, in as few runs as may be. `play` yields differences; others than two programs' may be sought."""
        begin, cases = time.monotonic(), list(cases)
        found = list(itertools.islice(play(cases, self.programs), SHOWN_A_GROUP))
        self.show_all(found)
        self.add(name, cases, not found, time.monotonic() - begin)

    def seeded_group(self, name, cases, play=compare.play):
        """As a group, some hundred sessions in a run; it stops at the first run that shows a difference."""
        begin, found, played = time.monotonic(), [], []
        for at in range(0, len(cases), SESSIONS_A_RUN):
            part = cases[at:at + SESSIONS_A_RUN]
            played += part
            found = list(play(part, self.programs))
            if found:
                break
        self.show_all(found)
        self.add(name, played, not found, time.monotonic() - begin)

    def pieces(self, chunked, talked):
        """The input in chunks, line by line with the answer awaited, and an output that takes nothing.

        `chunked` are pairs of cases and the sizes of their chunks. The plain engine's program reads and writes as the first does."""
        begin = time.monotonic()
        troubles = [trouble for program in self.programs[:2]
                    for trouble in (*(chunk_trouble(program, *one) for one in chunked), talk_trouble(program, talked), unheard_trouble(program))]
        for trouble in filter(None, troubles):
            self.trouble(f"{trouble}\n")
        self.add("in pieces, and line by line", [case for cases, _ in chunked for case in cases], not any(troubles), time.monotonic() - begin)

    # ---- What was played

    def add(self, name, cases, agreed, seconds):
        lines = sum(len(case.lines) for case in cases)
        self.listings, self.lines = self.listings + len(cases), self.lines + lines
        verdict = "agreed" if agreed else "DIFFERED"
        print(f"{name:34} {len(cases):7,} listings {lines:9,} lines  {verdict}  ({seconds:.1f} s)", flush=True)

    def trouble(self, text):
        self.differences += 1
        print(f"\nDIFFERENCE {self.differences}. {text}")

    def show_all(self, found):
        for difference in found:
            path = ROOT / "target" / self.title / f"difference-{self.differences + 1}.listing"
            path.parent.mkdir(parents=True, exist_ok=True)
            path.write_bytes(input_of(difference.case))
            self.trouble(f"{difference.title}\n(its bytes are in {path.relative_to(ROOT)})")
            show(difference)

    def ending(self):
        print(f"{self.listings:,} listings with {self.lines:,} lines; {self.differences} differences")
        return 1 if self.differences else 0


# ---- Input in pieces

def chunk_trouble(program, cases, chunks):
    for case in cases:
        whole = run(program, input_of(case))
        for sizes in chunks:
            if run_in_chunks(program, input_of(case), sizes) != whole:
                return f"{program.name} program, {case.name}: with input in chunks of {sizes} bytes it answers otherwise"
    return None


def talk_trouble(program, cases):
    for case in cases:
        parts, _ = answers_by_line(len(case.lines), case.answers)
        trouble = run_in_talk(program, case.lines, parts)
        if trouble:
            return f"{program.name} program, {case.name}, line by line: {trouble}"
    return None


def unheard_trouble(program):
    return None if ends_unheard(program, b"stop 5\n") else f"{program.name} program: where it can't write, it goes on"


# ---- Printing

def show(found):
    """The listing, and below each line what both sides answered, once where they agree."""
    (name, one, ending_one), (other_name, other, ending_other) = found.sides
    count = len(found.case.lines)
    parts, rest = answers_by_line(count, one)
    other_parts, other_rest = answers_by_line(count, other)
    for line, part, other_part in zip(found.case.lines, parts, other_parts):
        if part != other_part or count <= 60:
            print(f"    {shown(line)}")
            show_answers(name, part, other_name, other_part)
    if count > 60:
        print(f"    (of {count} lines only those that differ)")
    if not found.case.ended:
        print("    (the last line has no line feed)")
    show_answers(name, rest, other_name, other_rest)
    if ending_one != ending_other:
        print(f"    {name}: {ending_one}; {other_name}: {ending_other}")
    print(flush=True)


def show_answers(name, one, other_name, other):
    if one == other:
        for text in some_of(one, 1):
            print(f"        {text}")
        return
    place = compare.first_difference(one, other)
    for who, answers in ((name, one), (other_name, other)):
        print(f"      * {who}: {' / '.join(some_of(answers, place)) or '(nothing)'}")


def some_of(answers, place):
    """An answer's lines in print. Of a long one the first, and a few from this place on."""
    if len(answers) <= LINES_SHOWN:
        return list(map(shown, answers))
    few = [shown(answers[0]), *(["(..)"] if place > 1 else []), *map(shown, answers[max(1, place):max(1, place) + LINES_SHOWN // 2])]
    return [*few, f"(.. {len(answers)} lines)"]


def shown(line):
    """A line in print: other bytes than plain ones are escaped, and a long one is cut."""
    text = line.decode("latin-1").encode("unicode_escape").decode()
    return text if len(text) <= 160 else f"{text[:120]} .. ({len(line)} bytes)"
