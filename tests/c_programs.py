"""How a program in C is built with the kit alone."""

import subprocess

from programs import Trouble, kit_tools

TARGET, PROCESSOR = "x86_64-unknown-linux-gnu", "x86-64-v2"


def built_c(program, source, *options, libraries=()):
    """The program, by the compiler and the linker that `rt` itself takes for a proved program, with the same target, processor and level.

    The kit has a C library and no headers, and those of the machine may be for another: what the source includes, an option must say where to find."""
    tools, made = kit_tools(), f"{program}.o"
    program.parent.mkdir(parents=True, exist_ok=True)
    run_quietly([tools / "bin/clang", f"--target={TARGET}", f"-march={PROCESSOR}", "-O3", "-fPIE", "-nostdinc", "-Wall", "-Wextra", "-Werror",
                 *options, "-c", source, "-o", made])
    run_quietly([tools.parent / "bin/rattle-link", "--target", TARGET, "--toolchain", tools, "-o", program, made, *libraries])
    return program


def run_quietly(command, folder=None):
    """Runs a command with no input, and says what it said only where it fails."""
    try:
        done = subprocess.run(command, cwd=folder, stdin=subprocess.DEVNULL, stdout=subprocess.PIPE, stderr=subprocess.STDOUT)
    except OSError as error:
        raise Trouble(error) from error
    if done.returncode != 0:
        raise Trouble(f"{' '.join(map(str, command))}\n{done.stdout.decode(errors='replace')}")
