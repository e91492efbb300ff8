#!/usr/bin/env python3
"""How the time and the memory of `currency verify` grow with the log of a report.

Makes a specification of one relation in entities of 12 rows, whose neighbours are given, and a report `undecided`
whose log states each pair of rows, brings in the given ones, and learns each other pair from the pair before it,
a given pair and an axiom. Runs the program as built, and prints for logs of growing size the time per byte of the
report and per step, their ratios to the smallest, and the peak memory in times of the text. Each size is run three
times, and the quickest counts. The documents are written by a run of its own, so that this script stays small: what
it has counts for the program. Where a mark is exceeded, this is said and the exit status is 1. The mark on memory is
for texts of 10 MB and more: shorter ones have shorter numbers, so more tokens a byte."""
import pathlib
import subprocess
import sys
import tempfile

from runs import build, end, run

MEGABYTES = [1, 10, 50]
ENTITY = 12
MOST_RATIO = 3
MOST_TIMES_OF_THE_TEXT = 12


def pairs():
    """The pairs of an entity's rows, by their places in it, in the order of statements."""
    return [(low, high) for low in range(ENTITY) for high in range(low + 1, ENTITY)]


def statements_of(entity):
    first = entity * ENTITY + 1
    return [f"statement before 1 1 {first + low} {first + high};\n" for low, high in pairs()]


def steps_of(entity, begun):
    """The steps of an entity, where so many are begun before, and how many of them are counted."""
    first = entity * ENTITY + 1
    literal = {pair: entity * len(pairs()) + place + 1 for place, pair in enumerate(pairs())}
    steps = []
    step_of = {}

    def put(step):
        steps.append(step)
        return begun + len(steps)

    for low in range(ENTITY - 1):
        pair = (low, low + 1)
        step_of[pair] = put(f"axiom given 1 1 {first + low} {first + low + 1}: {literal[pair]};\n")
    counted = 0
    for low, high in pairs():
        if (low, high) not in step_of:
            front, back, whole = (low, high - 1), (high - 1, high), (low, high)
            rows = f"{first + low} {first + high - 1} {first + high}"
            lits = f"-{literal[front]} -{literal[back]} {literal[whole]}"
            axiom = put(f"axiom transitive 1 1 {rows}: {lits};\n")
            step_of[whole] = put(f"learn {literal[whole]} by {step_of[front]} {step_of[back]} {axiom};\n")
            counted += 1
    return steps, counted


def write_documents(folder, megabytes):
    """Writes the documents, with a report of at least so many megabytes; answers its bytes and its steps."""
    statements, steps, counted, size, entity = [], [], 0, 0, 0
    while size < megabytes * 1_000_000:
        more, learned = steps_of(entity, len(steps))
        stated = statements_of(entity)
        size += sum(map(len, more)) + sum(map(len, stated))
        statements += stated
        steps += more
        counted += learned
        entity += 1
    rows = entity * ENTITY
    (folder / "s").write_text('relation R from "r.csv" row id entity eid (a: int);\norders R from "o.csv";\n')
    (folder / "q").write_text("consistent;\n")
    with open(folder / "r.csv", "w") as table:
        table.write("id,eid,a\n")
        table.writelines(f"r{row},e{row // ENTITY},{row}\n" for row in range(rows))
    with open(folder / "o.csv", "w") as table:
        table.write("attribute,earlier,later\n")
        table.writelines(f"a,r{row},r{row + 1}\n" for row in range(rows - 1) if (row + 1) % ENTITY)
    with open(folder / "p", "w") as report:
        report.write(f"currency report 2;\nverdict undecided {counted};\nlog;\n")
        report.writelines(statements)
        report.writelines(steps)
        report.write("end;\n")
    return (folder / "p").stat().st_size, len(steps)


def written(folder, megabytes):
    """The bytes and the steps of the report that another run of this script writes."""
    words = [sys.executable, __file__, folder, str(megabytes)]
    said = subprocess.run(words, capture_output=True, check=True, text=True).stdout
    return tuple(map(int, said.split()))


def main():
    if len(sys.argv) == 3:
        print(*write_documents(pathlib.Path(sys.argv[1]), int(sys.argv[2])))
        return
    build()
    smallest = None
    above = []
    for megabytes in MEGABYTES:
        with tempfile.TemporaryDirectory() as name:
            folder = pathlib.Path(name)
            size, steps = written(folder, megabytes)
            runs = [run(folder, b"accepted undecided\n") for _ in range(3)]
        spent = min(seconds for seconds, _ in runs)
        smallest = smallest or (spent / size, spent / steps)
        ratios = (spent / size / smallest[0], spent / steps / smallest[1])
        times = max(peak for _, peak in runs) * 1024 * 1024 / size
        print(
            f"{size / 1e6:5.1f} MB, {steps:>7} steps: {spent / size * 1e9:6.0f} ns a byte, ratio {ratios[0]:4.2f}; "
            f"{spent / steps * 1e6:5.2f} us a step, ratio {ratios[1]:4.2f}; peak {times:4.1f} times the text"
        )
        if max(ratios) > MOST_RATIO:
            above.append(f"{megabytes} MB: ratio {max(ratios):.2f} is above {MOST_RATIO}")
        if megabytes > 1 and times > MOST_TIMES_OF_THE_TEXT:
            above.append(f"{megabytes} MB: {times:.1f} times the text are above {MOST_TIMES_OF_THE_TEXT}")
    end(above)


if __name__ == "__main__":
    main()
