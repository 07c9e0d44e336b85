"""The two programs: where they are, how the second is built, how both are run."""

import argparse
import os
import platform
import select
import shlex
import shutil
import subprocess
import time
from pathlib import Path
from typing import NamedTuple

ROOT = Path(__file__).resolve().parent.parent
SECONDS_FOR_A_RUN = 120
SECONDS_FOR_AN_ANSWER = 10


class Trouble(Exception):
    """The tests can't be run at all: a program is missing or can't be built."""


class Hang(Exception):
    """A program did not end; what it was given is in target/hang.input."""


class Program(NamedTuple):
    name: str      # "first", "second" or "plain"
    command: list


class Run(NamedTuple):
    output: bytes
    ending: str    # "ended", or with which status


def arguments(title, about, first, second, long, plain=None):
    """The options of a test. `first`, `second` and, where there is one, `plain` name the programs that it plays through unless
    others are given."""
    parser = argparse.ArgumentParser(prog=f"tests/{title}", description=about)
    parser.add_argument("--long", action="store_true", help=long)
    parser.add_argument("--seed", type=int, default=1, metavar="N", help="the first seed (1)")
    parser.add_argument("--first", type=shlex.split, metavar="PROGRAM", default=[ROOT / first], help=f"in place of {first}")
    parser.add_argument("--second", type=shlex.split, metavar="PROGRAM", help=f"in place of `{second}`")
    if plain:
        parser.add_argument("--plain", type=shlex.split, metavar="PROGRAM", default=[ROOT / plain], help=f"in place of {plain}")
    return parser.parse_args()


def both_programs(chosen, *words):
    """The chosen ones. The second one is else built from second/, and these words tell it what it is to play. Behind both stands
    the one on the plain engine, where there is one."""
    plain = [program("plain", chosen.plain)] if "plain" in chosen else []
    return [program("first", chosen.first), program("second", chosen.second or [built_second(), *words]), *plain]


def program(name, command):
    """A program with its arguments: a path, and words."""
    path, *words = command
    path = Path(path)
    if not path.is_file():
        made = "; `rt ci` makes it, and so does `rt run` in its crate's folder" if ROOT / "crates" in path.parents else ""
        raise Trouble(f"there is no {path}{made}")
    return Program(name, command_of(path) + words)


def built_second():
    """The second program, built if it isn't there or is older than one of its sources."""
    source, target = ROOT / "second", ROOT / "target/second"
    program = target / "release/second"
    sources = [source / "Cargo.toml", source / "Cargo.lock", *source.glob("src/**/*.rs")]
    newest = max((file.stat().st_mtime for file in sources if file.exists()), default=0)
    if not program.is_file() or program.stat().st_mtime < newest:
        build = ["cargo", "build", "--release", "--offline", "--quiet",
                 "--manifest-path", str(source / "Cargo.toml"), "--target-dir", str(target)]
        try:
            subprocess.run(build, check=True)
        except (OSError, subprocess.CalledProcessError) as error:
            raise Trouble(f"the second program was not built: {error}") from error
        program.touch()
    return program


def command_of(path):
    """How a program is started here. Proved programs are for x86-64; elsewhere they need an emulator, which the kit doesn't have."""
    path = str(path.resolve())
    if not is_for_x86_64(path) or platform.machine() in ("x86_64", "amd64"):
        return [path]
    emulator = shutil.which("qemu-x86_64") or shutil.which("qemu-x86_64-static")
    if emulator:
        return [emulator, path]
    raise Trouble(f"{path} is for x86-64, and qemu-x86_64 was not found")


def is_for_x86_64(path):
    """By the head of an ELF file: bytes 18 and 19 name the processor, and 62 is x86-64."""
    with open(path, "rb") as file:
        head = file.read(20)
    return head[:4] == b"\x7fELF" and head[18:20] == b"\x3e\x00"


def kit_tools():
    """The folder of the kit's compiler for C and of the C library. `rt doc` prints the path of a guide, at the top of the kit."""
    try:
        guide = subprocess.run(["rt", "doc"], stdout=subprocess.PIPE, check=True).stdout.decode().strip()
    except (OSError, subprocess.CalledProcessError) as error:
        raise Trouble(f"Rattle's command rt does not tell where its kit is: {error}") from error
    return Path(guide).resolve().parent / "toolchain"


def run(program, text):
    """Gives the program all of its input at once."""
    process = started(program)
    return finished(program, process, text, text)


def started(program):
    return subprocess.Popen(program.command, stdin=subprocess.PIPE, stdout=subprocess.PIPE, bufsize=0)


def finished(program, process, rest, text):
    """Sends the rest of the text and reads the output to its end."""
    try:
        output, _ = process.communicate(rest, timeout=SECONDS_FOR_A_RUN)
    except subprocess.TimeoutExpired as late:
        process.kill()
        process.communicate()
        path = ROOT / "target/hang.input"
        path.parent.mkdir(parents=True, exist_ok=True)
        path.write_bytes(text)
        raise Hang(f"{program.name} program did not end in {SECONDS_FOR_A_RUN} seconds on {path}") from late
    return Run(output, "ended" if process.returncode == 0 else f"ended with status {process.returncode}")


def send(process, part):
    """Whether the program took this part of its input; one that has ended takes none."""
    try:
        process.stdin.write(part)
        return True
    except BrokenPipeError:
        return False


def run_in_chunks(program, text, sizes):
    """Gives the program its input in chunks of these sizes, over and over, with a pause so that each is read alone."""
    process = started(program)
    at, turn = 0, 0
    while at < len(text) and send(process, text[at:at + sizes[turn % len(sizes)]]):
        at, turn = at + sizes[turn % len(sizes)], turn + 1
        time.sleep(0.0005)
    return finished(program, process, b"", text)


def run_in_talk(program, lines, answers):
    """Sends one line at a time, and the next only when its answer is there. Answers what went wrong, or None."""
    process = started(program)
    for line, answer in zip(lines, answers):
        send(process, line + b"\n")
        expected = b"".join(part + b"\n" for part in answer)
        got = read_soon(process.stdout, len(expected))
        if got != expected:
            process.kill()
            process.communicate()
            return f"after the line {line[:120]!r} ({len(line)} bytes), with no more input, came {got!r} in place of {expected!r}"
    result = finished(program, process, b"", b"\n".join(lines))
    return None if result == Run(b"", "ended") else f"after the last answer came {result.output!r}, and it {result.ending}"


def ends_unheard(program, line):
    """Whether a program that can't write ends, although this line comes again and again."""
    with open("/dev/full", "wb") as full:
        process = subprocess.Popen(program.command, stdin=subprocess.PIPE, stdout=full, stderr=subprocess.DEVNULL, bufsize=0)
    end, taken = time.monotonic() + SECONDS_FOR_AN_ANSWER, True
    while taken and time.monotonic() < end:
        taken = send(process, line)
        time.sleep(0.01)
    process.kill()
    process.communicate()
    return not taken


def read_soon(pipe, length):
    """Reads so many bytes, or those that came before the time was over."""
    got, end = b"", time.monotonic() + SECONDS_FOR_AN_ANSWER
    while len(got) < length:
        ready, _, _ = select.select([pipe], [], [], max(0, end - time.monotonic()))
        part = os.read(pipe.fileno(), length - len(got)) if ready else b""
        if not part:
            break
        got += part
    return got
