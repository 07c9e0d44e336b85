"""The programs that are timed: how they are built, how they play a listing, and how long that takes them."""

import os
import platform
import subprocess
import sys
from pathlib import Path

ROOT = Path(__file__).resolve().parent.parent
OUT = ROOT / "target/bench"
sys.path.insert(0, str(ROOT / "tests"))

from c_programs import built_c  # noqa: E402
from figures import PLAIN, PROVED, SHELF, TESTED, Costs  # noqa: E402
from programs import Trouble, command_of  # noqa: E402
from proved import built as built_proved, static_library  # noqa: E402
from sessions import BATCHES  # noqa: E402

NATIVE = platform.machine() in ("x86_64", "amd64")
SCALE = 4 if NATIVE else 1  # without an emulator a line takes far less time
# An emulator plays the processor's copying instructions byte by byte, and the C library takes them for 2 KiB and more, as a device record has. On a
# real processor they are the fast way; under an emulator they would be most of what is measured. So there both programs have to copy by plain moves.
PLAIN_COPIES = {} if NATIVE else {"GLIBC_TUNABLES": "glibc.cpu.x86_rep_movsb_threshold=1000000000:glibc.cpu.x86_rep_stosb_threshold=1000000000"}


# ---- Building

def built():
    """The programs and how each is started. A proved one is proved and built again, in some minutes, only where a file that it is made from has changed."""
    OUT.mkdir(parents=True, exist_ok=True)
    proved = {PROVED: built_proved("session"), SHELF: built_proved("shelf")}
    paths = {**proved, PLAIN: built_plain("plain", 0), TESTED: built_plain("plain-sound", 1)}
    return {name: command_of(path) for name, path in paths.items()}


def built_plain(name, sound):
    return built_c(OUT / name, ROOT / "bench/plain.c", "-std=c11", f"-DSOUND={sound}")


def built_searches():
    """The program that only searches, with the proved search and with the one of C."""
    paths = {name: built_c(OUT / name, ROOT / "bench/search.c", "-std=c11", f"-DPROVED={proved}", libraries=libraries)
             for name, proved, libraries in (("search", 1, [static_library("search", "search")]), ("search-c", 0, []))}
    searches = {name: command_of(path) for name, path in paths.items()}
    if len({started(command, os.devnull, subprocess.PIPE).communicate()[0] for command in searches.values()}) > 1:
        raise Trouble("the two searches find other places")
    return searches


# ---- Playing

def players(programs, body):
    """The programs that play a body: batches are no lines of the session listing, and are shelf's alone."""
    return {name: command for name, command in programs.items() if (name == SHELF) == (body == BATCHES)}


def written(made):
    """The listings as files."""
    files = {}
    for (record, body), lines in made.items():
        path = OUT / f"{record}, {body}.listing".replace(", ", "-").replace(" ", "-")
        path.write_text("".join(line + "\n" for line in lines))
        files[record, body] = path
    return files


def started(command, path, output):
    with open(path, "rb") as lines:
        return subprocess.Popen(command, stdin=lines, stdout=output, env={**os.environ, **PLAIN_COPIES})


def compare(programs, files):
    """Programs that answer otherwise can't be compared."""
    for (_, body), path in files.items():
        answers = {started(command, path, subprocess.PIPE).communicate()[0] for command in players(programs, body).values()}
        if len(answers) > 1 or b"bad\n" in answers.pop():
            raise Trouble(f"the programs differ, or find a line bad, on {path.relative_to(ROOT)}")


def seconds(command, path=os.devnull):
    """The processor's time for one run, so that it isn't longer where others have the processor meanwhile."""
    process = started(command, path, subprocess.DEVNULL)
    _, status, usage = os.wait4(process.pid, 0)
    process.returncode = os.waitstatus_to_exitcode(status)
    return usage.ru_utime + usage.ru_stime


def timed(programs, files):
    """One round: each listing through each program, one right after the other."""
    return {(name, *key): seconds(command, path) for key, path in files.items() for name, command in players(programs, key[1]).items()}


def rounds_of(programs, made, count):
    """So many rounds of these listings, once all programs have answered them alike."""
    files = written(made)
    compare(programs, files)
    return [timed(programs, files) for _ in range(count)]


def costs(rounds, programs, bodies):
    """What calls cost by the best time of each listing: noise only ever adds."""
    best = {key: min(times[key] for times in rounds) for key in rounds[0]}
    calls = {key: body.calls for key, body in bodies.items()}
    return {name: Costs(best, name, calls) for name in programs}
