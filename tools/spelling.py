#!/usr/bin/env python3
"""Spells the names of definitions and laws as today's library does: words in snake case, types and modules in camel case.

usage: python3 tools/spelling.py      at the top of the repository, once, right after the kit's port.py

It goes by text over crates/: each name that begins with a small letter, or part of one behind a '-', loses its inner capitals (soundWith becomes sound_with).
Names of types and modules keep theirs. Where a local name would fall together with one so respelled, the local one is renamed first. A name that a file of
specs/ declares has no '-' either (may-start becomes may_start), but where another name is spelled so already, from which the '-' keeps it apart; a law of proofs/
keeps the '-' between what it is about and what it says, as the library's do.
"""

import os
import re

# file, local name, its new name
APART = [
    ("demands/proofs/ViewLaws.antt", "held_by", "held_is"),
    ("demands/proofs/ByteLaws.antt", "joined_bytes", "joined_long"),
    ("demands/proofs/Batches.antt", "left_by", "left_is"),
    ("demands/proofs/MigrationLog.antt", "place_at", "placed_is"),
    ("demands/proofs/MigrationLog.antt", "in_bytes", "plain_bytes"),
    ("demands/proofs/StepLaws.antt", "take_done", "take_is"),
    ("demands/proofs/StepLaws.antt", "write_done", "write_is"),
    ("queue/proofs/QueueLaws.antt", "take_done", "take_told"),
    ("queue/proofs/take_on/Proof.antt", "take_done", "take_told"),
]
# a module that stands beside one that Rattle makes, `specs.contracts`
MOVED = [("demands/specs/Contracts.antt", "demands/specs/CallContracts.antt"), ("demands/proofs/Contracts.antt", "demands/proofs/CallContracts.antt")]
PATHS = [(r"Rattle\.demands\.(specs|proofs)\.Contracts\b", r"Rattle.demands.\1.CallContracts")]
LISTS = [("demands/specs/Lib.antt", "Contracts", "CallContracts"), ("demands/proofs/Lib.antt", "Contracts", "CallContracts")]

DECLARED = re.compile(r"(?m)^ *(?:(?:abbrev|unfoldable|pub) )*([a-z][A-Za-z0-9_']*(?:-[A-Za-z0-9_']+)+) :(?: |$)")
WORD = re.compile(r"[A-Za-z_][A-Za-z0-9_'-]*")
CAPITAL = re.compile(r"(?<=[a-z0-9'])([A-Z])")


def snake(name):
    """A name with its small-lettered parts in snake case. `T` of a proposition's name, as in not_T, and a part that begins with a capital stay."""
    if re.fullmatch(r"b'.'", name):  # a byte of the code
        return name
    parts = name.split("-")
    return "-".join(CAPITAL.sub(lambda m: "_" + m.group(1).lower(), p) if re.match(r"_*[a-z]", p) else p for p in parts)


def renamed(text, old, new):
    return re.sub(r"(?<![\w'-])" + re.escape(old) + r"(?![\w'-])", new, text)


def files(root):
    for folder, dirs, names in os.walk(root):
        dirs[:] = sorted(d for d in dirs if d not in ("out", "target"))
        for name in sorted(names):
            if name.endswith((".antt", ".rt", ".edit")):
                yield os.path.join(folder, name)


def main():
    root = os.path.join(os.path.dirname(os.path.dirname(os.path.abspath(__file__))), "crates")
    for old, new in MOVED:
        if os.path.exists(os.path.join(root, old)):
            os.rename(os.path.join(root, old), os.path.join(root, new))
    joined, taken = {}, set()
    for path in files(root):
        with open(path, encoding="utf-8") as f:
            text = f.read()
        taken.update(snake(name) for name in WORD.findall(text))
        if "/specs/" in path:
            joined.update((name, snake(name).replace("-", "_")) for name in DECLARED.findall(text))
    joined = {name: new for name, new in joined.items() if new not in taken}
    for path in files(root):
        with open(path, encoding="utf-8") as f:
            text = before = f.read()
        short = os.path.relpath(path, root)
        for name, old, new in APART:
            if name == short:
                text = renamed(text, old, new)
        for name, old, new in LISTS:
            if name == short:
                text = re.sub(r"(?m)^((?:pub )?mod )" + old + "$", r"\g<1>" + new, text)
        for old, new in PATHS:
            text = re.sub(old, new, text)
        text = WORD.sub(lambda m: joined.get(m.group(0)) or joined.get(snake(m.group(0))) or snake(m.group(0)), text)
        if text != before:
            with open(path, "w", encoding="utf-8") as f:
                f.write(text)


if __name__ == "__main__":
    main()
