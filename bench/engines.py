"""The two engines side by side (document 02, W9): what a write and a report cost on the plain one, which goes unit by unit, to the other."""

from pathlib import Path

from figures import PROVED
from playing import OUT, built_proved, seconds
from programs import command_of
from sessions import RECORDS

WRITES, REPORTS = 400, 40  # of a body's front: on the plain engine each goes over all units of its controller


def built_plain_engine():
    return command_of(built_proved("plain_shelf"))


def front(lines, word, count):
    """The front of some lines, up to the line with so many of a word."""
    seen = 0
    for i, line in enumerate(lines):
        seen += line.startswith(word)
        if seen == count:
            return lines[:i + 1]
    return lines


def listings(made):
    """For each record: its set-up alone; then writes; then the sparse session, with its reports and without."""
    files = {}
    for name, record in RECORDS.items():
        sparse = front(made[name, "sparse"].lines, "recv", REPORTS)
        bodies = {"nothing": [], "writes": made[name, "writes"].lines[:WRITES], "sparse": sparse, "sparse, no reports": [line for line in sparse if not line.startswith("recv")]}
        for body, lines in bodies.items():
            path = Path(OUT / f"plain-{name}-{body}.shelf".replace(", ", "-").replace(" ", "-"))
            path.write_text("".join(line + "\n" for line in record.setup() + lines))
            files[name, body] = path
    return files


def timed(command, files):
    return {key: seconds(command, path) for key, path in files.items()}


def ratios(rounds, programs, record):
    """A write's and a report's cost on the plain engine to the other's, by the best times."""
    best = {key: min(times[key] for times in rounds) for key in rounds[0]}
    write = (best[record, "writes"] - best[record, "nothing"]) / WRITES
    report = (best[record, "sparse"] - best[record, "sparse, no reports"]) / REPORTS
    return {"write, sparse: one unit": write / programs[PROVED].write(record), "report, sparse: 0 to 8 runs": report / programs[PROVED].report(record, "sparse")}
