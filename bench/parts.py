#!/usr/bin/env python3
"""How the time and the memory of the way from a specification to clauses and back grow with its rows.

Runs the program `bench_parts`, which makes its documents itself: two relations with N rows together in entities of 8,
two rules and a copy. Prints for each part and N the time per clause that it made beside the time of reading the
documents, the ratio to the smallest N, and the peak memory of the whole run per clause. Of `ground` grounds stand for
clauses, and of `rank` variables do. Each is run three times, and the quickest counts. Where a part is above a mark,
this is said and the exit status is 1."""
import os
import subprocess
import sys
import time

from runs import ROOT, end

PROGRAM = ROOT / "crates" / "bench_parts" / "out" / "bench_parts"
SIZES = [1_000, 10_000, 100_000]
PARTS = ["ground", "clauses", "wanted", "rank"]
MOST_RATIO = 3
MOST_BYTES = 200


def build():
    """Builds the program, where it is not built."""
    if not PROGRAM.exists():
        subprocess.run(["rt", "run", "--", "read", "0"], cwd=PROGRAM.parent.parent, capture_output=True, check=False)
    if not PROGRAM.exists():
        sys.exit("the program is not built: see rt run in crates/bench_parts")


def run(part, rows):
    """The seconds, the bytes and the counts (variables, clauses) of one run. The bytes are never below those of this
    script."""
    begin = time.perf_counter()
    child = subprocess.Popen([PROGRAM, part, str(rows)], stdout=subprocess.PIPE, text=True)
    said = child.stdout.read()
    _, status, usage = os.wait4(child.pid, 0)
    spent = time.perf_counter() - begin
    child.returncode = os.waitstatus_to_exitcode(status)
    if child.returncode != 0:
        sys.exit(f"unexpected end of {part} {rows}: status {child.returncode}, {said!r}")
    words = said.split()
    return spent, usage.ru_maxrss * 1024, int(words[0]), int(words[2])


def best(part, rows):
    """The quickest of three runs."""
    return min(run(part, rows) for _ in range(3))


def main():
    build()
    above = []
    reading = {rows: best("read", rows)[0] for rows in SIZES}
    for part in PARTS:
        smallest = None
        for rows in SIZES:
            spent, peak, variables, clauses = best(part, rows)
            made = variables if part == "rank" else clauses
            per = max(spent - reading[rows], 0.0005) / made
            smallest = smallest or per
            ratio = per / smallest
            print(
                f"{part:>8} {rows:>7} rows: {made:>8} made, {per * 1e9:6.0f} ns each, ratio {ratio:4.2f}; "
                f"peak {peak / made:6.0f} bytes each, {peak / 2**20:5.0f} MB"
            )
            if ratio > MOST_RATIO:
                above.append(f"{part} {rows}: ratio {ratio:.2f} is above {MOST_RATIO}")
            if part in ("clauses", "wanted") and rows == SIZES[-1] and peak / made > MOST_BYTES:
                above.append(f"{part} {rows}: {peak / made:.0f} bytes a clause are above {MOST_BYTES}")
    end(above)


if __name__ == "__main__":
    main()
