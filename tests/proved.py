"""The proved programs and static libraries: where `rt` leaves them, and how it makes them.

`rt ci` and `rt run` leave a program in its crate's folder, as out/NAME, and `rt lib` a static library, as out/libNAME.a. What they have proved before and
what has not changed since they don't prove again, save that `rt run` and `rt lib` take nothing of what `rt ci` proved."""

import shutil

from c_programs import run_quietly
from programs import ROOT

STATIC = ROOT / "target/staticlib"


def place(name):
    """Where a proved program is once it is built."""
    return ROOT / "crates" / name / "out" / name


def built(name):
    """A proved program, proved and built if it isn't there or is older than a file that it is made from."""
    program = place(name)
    if not program.is_file() or program.stat().st_mtime < newest(name):
        run_quietly(["rt", "run"], ROOT / "crates" / name)  # with no input, which each program meets with status 0
    return program


def newest(name):
    """The time of the latest change to a file that a proved program is made from."""
    crates = [ROOT / "crates" / crate for crate in needed(name, rests_on())]
    files = [path for crate in crates for part in ("src", "specs", "proofs") for path in (crate / part).rglob("*") if path.is_file()]
    return max(path.stat().st_mtime for path in [ROOT / "crates.txt", *files])


def static_library(crate, name):
    """The archive of a crate that is a static library, as target/staticlib/libNAME.a."""
    run_quietly(["rt", "lib"], ROOT / "crates" / crate)
    STATIC.mkdir(parents=True, exist_ok=True)
    return shutil.copyfile(ROOT / "crates" / crate / f"out/lib{crate}.a", STATIC / f"lib{name}.a")


def rests_on():
    """Each crate of the repository with what it rests on."""
    lines = (line.partition("#")[0].partition(":") for line in (ROOT / "crates.txt").read_text().splitlines())
    return {kind.split()[0]: below.split() for kind, colon, below in lines if colon}


def needed(crate, below):
    """A crate and all crates of the repository below it."""
    return {crate}.union(*(needed(one, below) for one in below[crate] if one in below))
