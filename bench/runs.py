"""Runs of the program as built, with their time and their peak memory."""
import os
import pathlib
import subprocess
import sys
import threading
import time

ROOT = pathlib.Path(__file__).resolve().parent.parent
PROGRAM = ROOT / "crates" / "currency" / "out" / "currency"


def build():
    """Builds the program, where it is not built."""
    subprocess.run([ROOT / "currency"], capture_output=True, check=False)


def run(folder, wanted):
    """The seconds and the megabytes of one `verify` over the documents of a folder, which is to accept the report
    with this text. The megabytes are never below those of this script."""
    begin = time.perf_counter()
    child = subprocess.Popen([PROGRAM, "verify", "s", "q", "p"], cwd=folder, stdout=subprocess.PIPE)
    said = child.stdout.read()
    _, status, usage = os.wait4(child.pid, 0)
    spent = time.perf_counter() - begin
    child.returncode = os.waitstatus_to_exitcode(status)
    if child.returncode != 0 or said != wanted:
        sys.exit(f"unexpected end: status {child.returncode}, {said!r}")
    return spent, usage.ru_maxrss / 1024


def timed(folder, words, statuses=(0,), limit=None):
    """The seconds, the megabytes and the output of one run with these words over the documents of a folder, which is to
    end with one of these statuses. The output goes to a file first, so that reading it takes no part in the time. After so many
    seconds, if they are said, the run is ended, and its status is -9."""
    with open(os.path.join(folder, "said"), "wb+") as said:
        begin = time.perf_counter()
        child = subprocess.Popen([PROGRAM, *words], cwd=folder, stdout=said)
        watch = threading.Timer(limit or threading.TIMEOUT_MAX, os.kill, (child.pid, 9))
        watch.daemon = True
        watch.start()
        _, status, usage = os.wait4(child.pid, 0)
        watch.cancel()
        spent = time.perf_counter() - begin
        child.returncode = os.waitstatus_to_exitcode(status)
        said.seek(0)
        text = said.read()
    if child.returncode not in statuses:
        sys.exit(f"unexpected end: {' '.join(words)}: status {child.returncode}, {text[:200]!r}")
    return spent, usage.ru_maxrss / 1024, text


def table(path, header, records):
    """Writes a table: its header, and a line for each record."""
    with open(path, "w") as out:
        out.write(header + "\n")
        out.writelines(record + "\n" for record in records)


def end(above):
    """Tells what is beyond its mark, and ends with status 1 where something is."""
    for line in above:
        print(f"beyond its mark: {line}")
    sys.exit(1 if above else 0)
