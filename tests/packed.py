"""What tests/records and tests/reports share: cases and answers of fixed sizes, played through two programs."""

import itertools
import sys

import programs
from programs import ROOT, Hang, Trouble, run

CASES_A_RUN = 500


class Difference(Exception):
    """A case whose answer isn't as it should be, and why, in lines."""

    def __init__(self, case, *lines):
        super().__init__("\n".join([*lines, *case.readable()]))
        self.case = case


# ---- The programs

def arguments(title, about, first, random_cases, long_cases):
    long = f"{long_cases:,} random cases in place of {random_cases:,}"
    chosen = programs.arguments(title, about, first, f"second --{title}", long)
    chosen.random_cases = long_cases if chosen.long else random_cases
    return chosen


def both_programs(title, chosen):
    return programs.both_programs(chosen, f"--{title}")


# ---- Playing

def played(cases, both, answer_bytes):
    """Each case with the answer of each program. Some hundred cases go through one run."""
    cases = iter(cases)
    while batch := list(itertools.islice(cases, CASES_A_RUN)):
        yield from zip(batch, *[answers(one, batch, answer_bytes) for one in both])


def answers(program, cases, answer_bytes):
    """A program's answers to these cases, one each."""
    output, ending = run(program, b"".join(case.packed() for case in cases))
    if ending != "ended" or len(output) != answer_bytes * len(cases):
        at = min(len(output) // answer_bytes, len(cases) - 1)
        raise Difference(cases[at], f"the {program.name} program {ending}, with {len(output):,} bytes in place of "
                                    f"{answer_bytes * len(cases):,}; it came to this case, or past the last:")
    return [output[at:at + answer_bytes] for at in range(0, len(output), answer_bytes)]


def status(title, test):
    """Runs the test and prints what it answers, or why it failed. Answers the exit status."""
    try:
        print(test())
        return 0
    except Trouble as trouble:
        print(f"tests/{title}: {trouble}", file=sys.stderr)
        return 2
    except Hang as hang:
        print(f"DIFFERENCE. {hang}")
        return 1
    except Difference as difference:
        path = ROOT / "target" / title / "difference.case"
        path.parent.mkdir(parents=True, exist_ok=True)
        path.write_bytes(difference.case.packed())
        print(f"DIFFERENCE. {difference}\n(the case's bytes are in {path.relative_to(ROOT)})")
        return 1


def shown(number):
    return f"{number}" if number < 4096 else f"{number} ({number:#x})"
