#!/usr/bin/env python3
"""What golden records of more rows than one specification takes cost, by `currency shards`.

N rows in two relations in entities of 8, half of them in each; the rows of the one are copied from those of the other, under a
rule on values and a rule on orders, as in `golden.py`. They are cut into shards, `golden` is run over each by GNU parallel,
and joined, of N/10 rows and of N. Prints for each the time, the memory (of `run` that of the largest process), and the ratio
of the times; and looks that each entity has a record. Where a figure is above its mark, this is said and the exit status is 1.
The marks are for 10,000,000 rows on four processors; of fewer rows a share of the time is due.

Usage: bench/shards.py [ROWS [JOBS]]; 1000000 and 4 where none is said."""
import os
import subprocess
import sys
import tempfile
import time

from runs import ROOT, build, end, table

ENTITY = 8
# the rows for which the marks are, and seconds and megabytes for them; the most that ten times the rows may take
WHOLE = 10_000_000
MARKS = {"cut": (240, 3_000), "run": (1_500, 1_300), "join": (60, None)}
GROWTH = 12
# seconds that are due besides, of however many rows: Python and GNU parallel begin
LEAST = 10
# the processors that the marks are for
PROCESSORS = 4

SPEC = """relation item from "item.csv" row id entity eid (a: int, b: int, c: int, d: int);
relation view from "view.csv" row id entity eid (d: int);
rule up on item (s, t): if s.a < t.a then s before t in a;
rule follow on item (s, t): if s before t in a then s before t in b;
copy mirror into view (d) from item (d) using "copy.csv";
"""


def write_documents(folder, rows):
    """Writes the specification and its tables, and says how many entities a relation has."""
    entities = max(1, rows // 2 // ENTITY)

    def cells():
        return ((ent, row, f"i{ent}_{row}") for ent in range(entities) for row in range(ENTITY))

    values = (f"{name},{ent},{row},{row + 10},{row % 3},{row}" for ent, row, name in cells())
    table(f"{folder}/item.csv", "id,eid,a,b,c,d", values)
    table(f"{folder}/view.csv", "id,eid,d", (f"v{name},{ent},{row}" for ent, row, name in cells()))
    table(f"{folder}/copy.csv", "target,source", (f"v{name},{name}" for _, _, name in cells()))
    with open(f"{folder}/s", "w") as out:
        out.write(SPEC)
    return entities


def timed(folder, *words):
    """The seconds and the megabytes of a run of the tool, its own or those of a process that it began."""
    with open(f"{folder}/said", "wb") as said:
        begin = time.perf_counter()
        child = subprocess.Popen([ROOT / "currency", "shards", *words], cwd=folder, stdout=said)
        _, status, usage = os.wait4(child.pid, 0)
        spent = time.perf_counter() - begin
        child.returncode = os.waitstatus_to_exitcode(status)
    if child.returncode:
        sys.exit(f"unexpected end: {' '.join(words)}: status {child.returncode}")
    return spent, usage.ru_maxrss / 1024


def measure(rows, jobs):
    """The figures by step."""
    with tempfile.TemporaryDirectory() as folder:
        entities = write_documents(folder, rows)
        found = {
            "cut": timed(folder, "cut", "s", "cut"),
            "run": timed(folder, "run", "cut", "golden", "s", "item", "--jobs", str(jobs)),
            "join": timed(folder, "join", "cut"),
        }
        with open(f"{folder}/said", "rb") as said:
            records = sum(1 for _ in said) - 1
    if records != entities:
        sys.exit(f"unexpected end: {records} records of {entities} entities")
    return found


def main():
    words = sys.argv[1:]
    rows, jobs = int(words[0]) if words else 1_000_000, int(words[1]) if len(words) > 1 else PROCESSORS
    build()
    above, small = [], None
    for size in (rows // 10, rows):
        found = measure(size, jobs)
        for step, (spent, megabytes) in found.items():
            seconds, most = MARKS[step]
            due = LEAST + seconds * size / WHOLE * (PROCESSORS / min(PROCESSORS, jobs) if step == "run" else 1)
            ratio = f", {spent / small[step][0]:.1f} times a tenth of it" if small else ""
            print(f"{step} {size}: {spent:.1f} s, {megabytes:.0f} MB{ratio}", flush=True)
            if spent > due:
                above.append(f"{step} {size}: {spent:.1f} s, {due:.0f} are due")
            if most and megabytes > most:
                above.append(f"{step} {size}: {megabytes:.0f} MB")
            if small and spent > LEAST + GROWTH * small[step][0]:
                above.append(f"{step} {size}: {spent / small[step][0]:.1f} times a tenth of it")
        small = found
    end(above)


if __name__ == "__main__":
    main()
