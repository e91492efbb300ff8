#!/usr/bin/env python3
"""Tries the must-fail edits that the gate leaves to this: those in `checks/edits/NAME/`, of the crates that take longest to prove.

The gate proves a crate once more before it tries its edits, so those of its dearest crates would cost as much as their proofs. Here the
crates that are named, or all that have such edits, are copied with those below them to a temporary folder, with these edits and no others,
and `rt ci` runs there; what the gate proved of the same files on this machine is taken as it is. The exit status is 1 where an edit is not
refused, or not tried."""

import argparse
import os
import pathlib
import shutil
import subprocess
import sys
import tempfile

ROOT = pathlib.Path(__file__).resolve().parent.parent
EDITS = ROOT / "checks" / "edits"


def libraries():
    """Returns the lines of crates.txt and what each crate stands on, by name."""
    lines, below = {}, {}
    for line in (ROOT / "crates.txt").read_text().splitlines(keepends=True):
        words, colon, names = line.partition("#")[0].partition(":")
        if colon:
            name = words.split()[0]
            lines[name], below[name] = line, names.split()
    return lines, below


def at_or_below(names, below):
    wanted, waiting = set(), list(names)
    while waiting:
        name = waiting.pop()
        # (the toolchain's own crates have no line)
        if name in below and name not in wanted:
            wanted.add(name)
            waiting += below[name]
    return wanted


def copy(folder, wanted, lines, names):
    """Copies the crates that are wanted, and the edits of those that are named."""
    for name in wanted:
        shutil.copytree(ROOT / "crates" / name, folder / "crates" / name, ignore=shutil.ignore_patterns("out", "must-fail"))
    for name in names:
        shutil.copytree(EDITS / name, folder / "crates" / name / "must-fail")
    (folder / "crates.txt").write_text("".join(line for name, line in lines.items() if name in wanted))
    shutil.copyfile(ROOT / "HANDLES", folder / "HANDLES")
    (folder / ".git").mkdir()


def main():
    parser = argparse.ArgumentParser(description=__doc__)
    parser.add_argument("name", nargs="*")
    names = parser.parse_args().name or sorted(it.name for it in EDITS.iterdir())
    lines, below = libraries()
    for name in names:
        if name not in below or not (EDITS / name).is_dir():
            sys.exit(f"checks/edits has no edits of a crate {name}")
    with tempfile.TemporaryDirectory(prefix="currency-edits-") as at:
        folder = pathlib.Path(at)
        copy(folder, at_or_below(names, below), lines, names)
        environment = {name: value for name, value in os.environ.items() if not name.startswith("GIT_")}
        return subprocess.run(["rt", "ci", *names], cwd=folder, env=environment).returncode


if __name__ == "__main__":
    sys.exit(main())
