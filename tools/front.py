"""What the script `currency` answers by itself, and what it says more than the program, on standard error.

The program's output goes on as it comes, byte for byte, and its status stays. Nothing here is proved."""

import contextlib
import gc
import os
import pathlib
import select
import shutil
import signal
import subprocess
import sys
import time

import words as wording

REFUSALS = (b"error E", b"refused V", b"limit ", b"read fault ", b"words refused")
# of any other output so much is kept, and of a refusal so much
KEPT, LONGEST_REFUSAL = 4096, 2**25
ENDS = {
    3: "the budget is spent; a larger --budget may decide",
    8: "the output could not be written",
    9: "out of memory",
}
# the status where the program cannot be run; 1 would be an answer of no
UNABLE = 126
# how long nothing has come before the time is shown, in seconds
SILENCE = 3


def tell(text):
    print(f"currency: {text}", file=sys.stderr, flush=True)


def die(number):
    """Ends as a process ends by a signal, so that what called it sees that."""
    if number in (signal.SIGINT, signal.SIGTERM, signal.SIGHUP, signal.SIGPIPE):
        signal.signal(number, signal.SIG_DFL)
        os.kill(os.getpid(), number)
    sys.exit(128 + number)


def version(home):
    """Which state of the repository this is, and which toolchain there is."""
    kept = home / "version"
    if kept.exists():
        return kept.read_text()
    state, kit = "", ""
    how = {"stdout": subprocess.PIPE, "stderr": subprocess.DEVNULL, "text": True}
    if (home / ".git").exists() and shutil.which("git"):
        state = subprocess.run(["git", "-C", home, "describe", "--always", "--dirty"], **how).stdout.strip()
    if shutil.which("rt"):
        kit = subprocess.run(["rt", "version"], **how).stdout
    return f"currency {state or 'unknown'}\n{kit}"


def build(home):
    """Has the program proved and built. (An interrupt waits until that has put away what it made.)"""
    child, interrupted = subprocess.Popen([sys.executable, home / "tools" / "build.py"]), False
    while True:
        try:
            status = child.wait()
            break
        except KeyboardInterrupt:
            interrupted = True
    if status or interrupted:
        sys.exit(UNABLE if status == 1 else status or 130)


def install(home, program, prefix):
    """Puts the program, this script and the documents into a tree of folders."""
    prefix = pathlib.Path(prefix).absolute()
    place, share, link = prefix / "lib" / "currency", prefix / "share" / "doc" / "currency", prefix / "bin" / "currency"
    if (home / "version").exists():
        tell("this is installed already: a checkout of the repository can install")
        return 1
    made = place.with_name("currency.new")
    for it in (made, share):
        shutil.rmtree(it, ignore_errors=True)
    (made / "tools").mkdir(parents=True)
    shutil.copy(home / "currency", made)
    shutil.copy(program, made / "program")
    for name in ("cutting", "diagnose", "drawing", "faults", "front", "hints", "lint", "page", "shards", "show", "words"):
        shutil.copy(home / "tools" / f"{name}.py", made / "tools")
    shutil.copytree(home / "tools" / "page", made / "tools" / "page")
    (made / "version").write_text(version(home))
    shutil.copytree(home / "docs", share / "docs")
    shutil.copytree(home / "examples", share / "examples")
    shutil.copy(home / "README.md", share)
    shutil.rmtree(place, ignore_errors=True)
    made.rename(place)
    link.parent.mkdir(exist_ok=True)
    with contextlib.suppress(FileNotFoundError):
        link.unlink()
    link.symlink_to(os.path.join("..", "lib", "currency", "currency"))
    print(f"{link} runs from any folder; {share} has the documents")
    return 0


class Clock:
    """How long nothing has come, in a line that goes away: the program writes its text at its end, so no more can be told."""

    def __init__(self, what):
        self.what, self.begun, self.shown = what, time.monotonic(), ""

    def show(self):
        passed = int(time.monotonic() - self.begun)
        if passed >= SILENCE and os.isatty(2):
            self.shown = f"currency: {self.what}: {passed} s"
            print(f"\r{self.shown}", end="", file=sys.stderr, flush=True)

    def clear(self):
        if self.shown:
            print(f"\r{' ' * len(self.shown)}\r", end="", file=sys.stderr, flush=True)
        self.shown, self.begun = "", time.monotonic()


def write(data):
    while data:
        data = data[os.write(1, data) :]


def follow(child, clock):
    """Passes on what the program writes; answers what is kept of it (its front, or a refusal), and the error, if there is one."""
    kept, source = b"", child.stdout.fileno()
    while True:
        if not select.select([source], [], [], 1)[0]:
            clock.show()
            continue
        piece = os.read(source, 65536)
        clock.clear()
        if not piece:
            return kept, None
        most = LONGEST_REFUSAL if kept.startswith(REFUSALS) or not kept and piece.startswith(REFUSALS) else KEPT
        kept += piece[: max(0, most - len(kept))]
        try:
            write(piece)
        except OSError as error:
            child.stdout.close()
            return kept, error


def run(program, words):
    """Runs the program; answers its status and what it said, as far as that is kept."""
    child = subprocess.Popen(["currency", *words], executable=program, stdout=subprocess.PIPE, bufsize=0)
    for it in (signal.SIGINT, signal.SIGTERM, signal.SIGHUP):
        if signal.getsignal(it) is not signal.SIG_IGN:
            signal.signal(it, lambda number, _: child.send_signal(number))
    said, error = follow(child, Clock(words[0] if words else ""))
    status = child.wait()
    if status < 0:
        die(-status)
    signal.signal(signal.SIGINT, signal.default_int_handler)
    # (what the program wrote whole may not have been passed on; where nobody reads any more, nothing is to be said)
    status = 8 if error and status in (0, 1, 3, 10) else status
    if isinstance(error, BrokenPipeError):
        sys.exit(status)
    return status, said


def explain(program, words, status, said, asked):
    """Says on standard error what the program's answer means, and what may help."""
    if status == 2:
        wrong, used = wording.refused(words)
        tell(f"{wrong}\n{used}")
    elif status in ENDS:
        tell(ENDS[status])
    else:
        import hints

        # (long documents make many small objects, and all of them are gone soon)
        gc.disable()
        said = os.fsdecode(said)
        try:
            text = hints.of(program, words, status, said, asked)
        except Exception:  # (the program has said what it says, whatever goes wrong here)
            text = hints.plain(words, said, []) if status in (4, 5, 6, 7) else ""
        print(text, end="", file=sys.stderr, flush=True)


def own(words, home, program, due):
    """The status of what the script answers by itself, or none where the program answers."""
    if words in (["--help"], ["-h"], ["help"], []):
        print(wording.usage(), end="")
    elif words == ["--version"]:
        print(version(home), end="")
    elif words[0] == "help" and len(words) == 2 and words[1] in {**wording.COMMANDS, **wording.OWN}:
        print(wording.help_of(words[1]), end="")
    elif words[0] == "lint" and len(words) > 1:
        import lint

        return lint.main(words[1:])
    elif words[0] == "page" and len(words) > 1:
        # (what it stands on is no part of Python's own library, which alone this process knows)
        os.execv(sys.executable, [sys.executable, home / "tools" / "page.py", *words[1:]])
    elif words[0] == "install" and len(words) == 2:
        if due:
            build(home)
        return install(home, program, words[1])
    elif words[0] == "shards":
        if due and words[1:2] in (["cut"], ["run"]):
            build(home)
        import shards

        return shards.main(words[1:], program)
    else:
        return None
    return 0


def taken(words):
    """Goes to the folder named by -C, and answers the other words without --explain-errors, and whether that was there."""
    asked, words = False, list(words)
    while words[:1] == ["--explain-errors"] or words[:1] == ["-C"] and len(words) > 1:
        if words.pop(0) == "-C":
            folder = words.pop(0)
            os.chdir(folder or ".")
        else:
            asked = True
    # (three words behind verify are names, and so is what stands behind --)
    end = words.index("--") if "--" in words else len(words)
    if words[:1] == ["verify"] and len(words) == 4:
        end = 0
    kept = [it for it in words[:end] if it != "--explain-errors"] + words[end:]
    return kept, asked or len(kept) < len(words)


def answer(words, home, program, due):
    """The status of the script for these words."""
    try:
        words, asked = taken(words)
    except OSError as error:
        tell(error)
        return UNABLE
    try:
        status = own(words, home, program, due) if words or os.isatty(1) else None
    except BrokenPipeError:
        die(signal.SIGPIPE)
    except OSError as error:
        tell(error)
        return 1
    if status is not None:
        return status
    if due:
        build(home)
    if not asked and not os.isatty(2):
        for it in (signal.SIGPIPE, signal.SIGXFSZ):
            signal.signal(it, signal.SIG_DFL)
        os.execv(program, ["currency", *words])
    status, said = run(program, words)
    explain(program, words, status, said, asked)
    return status


def main(words, home, program, due):
    try:
        status = answer(words, pathlib.Path(home), program, due)
        sys.stdout.flush()
        return status
    except KeyboardInterrupt:
        die(signal.SIGINT)
    except BrokenPipeError:
        die(signal.SIGPIPE)
