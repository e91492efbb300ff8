#!/usr/bin/env python3
"""Proves and builds the program, by the merge gate's own driver over a copy of its crates.

Copies the crate `currency` and those that it stands on to a temporary folder, without their must-fail edits, and runs `rt ci` there. That
proves each crate over the statements of those below, uses and keeps what was proved of the same files on this machine, and builds the
program, which then takes the place of the checkout's. What is told comes on standard error. The exit status is 1 where nothing is built."""

import collections
import contextlib
import fcntl
import os
import pathlib
import re
import shutil
import signal
import subprocess
import sys
import tempfile
import time

ROOT = pathlib.Path(__file__).resolve().parent.parent
OUT = ROOT / "crates" / "currency" / "out"
LEFT_OUT = ("out", "must-fail")
SIGNALS = (signal.SIGINT, signal.SIGTERM, signal.SIGHUP)
# what a new clone takes on four processors, in seconds (of 2.5 GHz; on faster ones half of that)
NEW_CLONE = 50 * 60
SAID = re.compile(r"rt: (\w+)(: its tests are)? (proved|is kept|NOT PROVED)(: .*)?$")
WAITS = re.compile(r"rt: (\w+): .*; waiting for it$")


def tell(text):
    print(f"currency: {text}", file=sys.stderr, flush=True)


def program_crates():
    """Returns the lines of crates.txt that name the program's crate and those below it, by name."""
    lines, below, wanted, waiting = {}, {}, set(), ["currency"]
    for line in (ROOT / "crates.txt").read_text().splitlines(keepends=True):
        words, colon, libraries = line.partition("#")[0].partition(":")
        if colon:
            name = words.split()[0]
            lines[name], below[name] = line, libraries.split()
    while waiting:
        name = waiting.pop()
        if name in below and name not in wanted:
            wanted.add(name)
            waiting += below[name]
    return {name: line for name, line in lines.items() if name in wanted}


def sources(folder):
    found = []
    for at, folders, names in os.walk(folder):
        folders[:] = [it for it in folders if it not in LEFT_OUT]
        found += [pathlib.Path(at, it) for it in names if it.endswith((".rt", ".antt"))]
    return found


def is_due(crates):
    files = [it for name in crates for it in sources(ROOT / "crates" / name)]
    files += [ROOT / "crates.txt", ROOT / "HANDLES"]
    try:
        built = (OUT / "built").stat().st_mtime_ns
        is_new = any(it.stat().st_mtime_ns > built for it in files)
    except FileNotFoundError:
        return True
    return is_new or not os.access(OUT / "currency", os.X_OK)


def put(name, begun, made=os.devnull):
    """Puts what was made, or nothing, at once into a file of the program's out/, as of the time at which this run began."""
    OUT.mkdir(exist_ok=True)
    new = OUT / f"{name}.new"
    shutil.copyfile(made, new)
    new.chmod(0o755)
    os.utime(new, ns=(begun, begun))
    os.replace(new, OUT / name)


def warn():
    left = [("disk", 3, shutil.disk_usage(tempfile.gettempdir()).free)]
    with contextlib.suppress(OSError, TypeError):
        said = pathlib.Path("/proc/meminfo").read_text()
        free = 1024 * int(re.search(r"MemAvailable:\s+(\d+)", said)[1])
        left.append(("memory", 4, free))
    for what, wanted, free in left:
        if free < wanted * 10**9:
            tell(f"warning: {free / 10**9:.1f} GB of {what} left, {wanted} are wanted")


def copy(repo, crates):
    """Makes a repository of these crates, with a folder .git as a whole one has."""
    (repo / ".git").mkdir(parents=True)
    (repo / "crates.txt").write_text("".join(crates.values()))
    shutil.copy(ROOT / "HANDLES", repo)
    how = {"symlinks": True, "ignore": shutil.ignore_patterns(*LEFT_OUT)}
    for name in crates:
        shutil.copytree(ROOT / "crates" / name, repo / "crates" / name, **how)


def minutes(seconds):
    number = max(1, round(seconds / 60))
    return f"{number} minute{'s' * (number > 1)}"


def time_left(done, left, whole, passed):
    """Guesses the seconds left by lines. A tenth of the work counts as done at the pace of a new clone, so that the first crates do not mislead."""
    tenth = 0.1 * (done + left)
    pace = NEW_CLONE * 4 / min(4, os.cpu_count() or 1) / whole
    return (passed + pace * tenth) / (done + tenth) * left


def follow(gate, repo):
    """Tells what the driver says of each crate as it comes, and returns whether it ends well. The first crate that fails ends it."""
    left = {it.name: sources(it) for it in (repo / "crates").iterdir()}
    left = {it: sum(f.read_bytes().count(b"\n") for f in left[it]) for it in left}
    number, whole, start = len(left), sum(left.values()), time.monotonic()
    proved, done, last, failed = 0, 0, collections.deque(maxlen=20), None
    for line in gate.stdout:
        line = line.rstrip("\n").replace(str(repo), str(ROOT))
        said, waits = SAID.match(line), WAITS.match(line)
        if said and said[3] == "NOT PROVED":
            failed = f"{said[1]}{said[2] or ' is'} not proved"
            break
        if said:
            last.clear()
        if said and not said[2]:
            lines = left.pop(said[1], 0)
            if said[3] == "proved":
                proved, done = proved + 1, done + lines
                passed = time.monotonic() - start
                rest = minutes(time_left(done, sum(left.values()), whole, passed))
                rest = f"{number - len(left)} of {number}; about {rest} left"
                tell(f"{said[1]} is proved ({rest})")
        elif waits:
            tell(f"another run proves {waits[1]} too; waiting for it")
        elif line.startswith("== "):
            last.clear()
        elif not said:
            last.append(line)
    if not failed and gate.wait():
        failed = "the gate's driver refuses"
    if failed:
        tell(f"{failed}, so the program is not built. Its last lines:")
        print(*last, sep="\n", file=sys.stderr)
    else:
        passed = minutes(time.monotonic() - start)
        runs = f"{proved} were proved in this run, {number - proved} in earlier ones"
        tell(f"the program is built, in {passed}; of {number} crates {runs}")
    return not failed


def build(crates, begun):
    room = pathlib.Path(tempfile.mkdtemp(prefix="currency-build-")).resolve()
    repo, gate = room / "repo", None
    try:
        copy(repo, crates)
        # (what rt leaves goes with the folder; as root it runs programs as nobody)
        (room / "tmp").mkdir()
        room.chmod(0o711)
        (room / "tmp").chmod(0o711)
        gate = subprocess.Popen(
            ["rt", "ci"],
            cwd=repo,
            env={**os.environ, "TMPDIR": str(room / "tmp")},
            stdin=subprocess.DEVNULL,
            stdout=subprocess.PIPE,
            stderr=subprocess.STDOUT,
            encoding="utf-8",
            errors="replace",
            start_new_session=True,
            umask=0o022,
        )
        if not follow(gate, repo):
            return 1
        put("currency", begun, repo / "crates" / "currency" / "out" / "currency")
        put("built", begun)
        return 0
    finally:
        for it in SIGNALS:
            signal.signal(it, signal.SIG_IGN)
        if gate and gate.poll() is None:
            os.killpg(gate.pid, signal.SIGTERM)
            gate.wait()
        # (what was just ended may still have written)
        for _ in range(50):
            shutil.rmtree(room, ignore_errors=True)
            if not room.exists():
                break
            time.sleep(0.1)


def end(number, _):
    tell("stopped; the next run goes on from what is proved by now")
    sys.exit(128 + number)


def main():
    if not shutil.which("rt"):
        tell("the program is not built: there is no command rt on the PATH")
        return 1
    for it in SIGNALS:
        if signal.getsignal(it) is not signal.SIG_IGN:
            signal.signal(it, end)
    OUT.mkdir(exist_ok=True)
    with open(OUT / "lock", "w") as lock:
        try:
            fcntl.flock(lock, fcntl.LOCK_EX | fcntl.LOCK_NB)
        except BlockingIOError:
            tell("another run builds the program; waiting for it")
            fcntl.flock(lock, fcntl.LOCK_EX)
        # (the time by the clock of files)
        os.utime(lock.fileno())
        begun, crates = os.fstat(lock.fileno()).st_mtime_ns, program_crates()
        if not is_due(crates):
            put("built", begun)
            return 0
        warn()
        what = f"proving and building the program of {len(crates)} crates: in a new clone"
        tell(f"{what} up to an hour on four processors, else less")
        return build(crates, begun)


if __name__ == "__main__":
    try:
        sys.exit(main())
    except OSError as error:
        tell(f"the program is not built: {str(error)[:300]}")
        sys.exit(1)
