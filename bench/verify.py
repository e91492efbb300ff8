#!/usr/bin/env python3
"""How the time of `currency verify` grows with the rows of a specification: with no rules, with rules, and with
a copy and given pairs from tables.

Makes relations of N rows together in entities of 8, a specification of each case, and a report that ranks
each entity's rows by their values. Runs the program as built, and prints per case and N the time per row, its
ratio to the smallest N, and the peak memory. Each N is run three times, and the quickest counts. Where a
case is above a mark, this is said and the exit status is 1."""
import pathlib
import tempfile

from runs import build, end, run

SIZES = [1_000, 10_000, 100_000]
ENTITY = 8
MOST_RATIO = 3
MOST_MEGABYTES = 250
MOST_MEGABYTES_OF_TABLES = 300

# Each case of one relation: its attributes, and its rules on the variables s and t.
RULES = {
    "no rules": (["a"], []),
    "value rules": (
        ["a", "b", "c"],
        [f"if s.{attr} < t.{attr} then s before t in {attr}" for attr in "abc"],
    ),
    "order rules": (
        ["a", "b", "c"],
        [
            "if s.a < t.a then s before t in a",
            "if s before t in a then s before t in b",
            "if s before t in b then s before t in c",
        ],
    ),
}


def value_of(row):
    """Values that differ within an entity, and do not ascend with its rows."""
    return row * 37 % 97


def entities_of(rows):
    """The rows of each entity, in the order of their values."""
    return [
        sorted(range(first, min(first + ENTITY, rows)), key=value_of) for first in range(0, rows, ENTITY)
    ]


def write_table(path, header, records):
    with open(path, "w") as table:
        table.write(",".join(header) + "\n")
        for record in records:
            table.write(",".join(record) + "\n")


def write_relation(path, attrs, prefix, rows):
    """The table of a relation, each row of which has one value in all attributes."""
    records = (
        [f"{prefix}{row}", f"e{row // ENTITY}", *[str(value_of(row))] * len(attrs)] for row in range(rows)
    )
    write_table(path, ["id", "eid", *attrs], records)


def write_rankings(report, relation, attrs, prefix, rows):
    for number, ranked in enumerate(entities_of(rows)):
        ranking = " < ".join(f"{prefix}{row}" for row in ranked)
        for attr in attrs:
            report.write(f"ranking {relation}.{attr} of e{number}: {ranking};\n")


def write_ruled(folder, attrs, rules, rows):
    with open(folder / "s", "w") as spec:
        kinds = ", ".join(f"{attr}: int" for attr in attrs)
        spec.write(f'relation R from "r.csv" row id entity eid ({kinds});\n')
        for number, rule in enumerate(rules):
            spec.write(f"rule n{number} on R (s, t): {rule};\n")
    write_relation(folder / "r.csv", attrs, "r", rows)
    with open(folder / "p", "w") as report:
        report.write("currency report 1;\nverdict consistent;\ncompletion;\n")
        write_rankings(report, "R", attrs, "r", rows)
        report.write("end;\n")


def write_copied(folder, rows):
    """A relation, given pairs of all rows of each of its entities, and another that is copied from it row by row."""
    half = rows // 2
    (folder / "s").write_text(
        'relation R from "r.csv" row id entity eid (a: int);\n'
        'relation T from "t.csv" row id entity eid (b: int);\n'
        'orders R from "o.csv";\n'
        'copy c into T (b) from R (a) using "c.csv";\n'
    )
    write_relation(folder / "r.csv", ["a"], "r", half)
    write_relation(folder / "t.csv", ["b"], "t", half)
    pairs = (
        ["a", f"r{earlier}", f"r{later}"]
        for ranked in entities_of(half)
        for earlier, later in zip(ranked, ranked[1:])
    )
    write_table(folder / "o.csv", ["attribute", "earlier", "later"], pairs)
    write_table(folder / "c.csv", ["target", "source"], ([f"t{row}", f"r{row}"] for row in range(half)))
    with open(folder / "p", "w") as report:
        report.write("currency report 1;\nverdict consistent;\ncompletion;\n")
        write_rankings(report, "R", ["a"], "r", half)
        write_rankings(report, "T", ["b"], "t", half)
        report.write("end;\n")


def measure(case, write, most_megabytes):
    """Prints the lines of a case, and answers the marks that it is above."""
    smallest = None
    above = []
    for rows in SIZES:
        with tempfile.TemporaryDirectory() as name:
            folder = pathlib.Path(name)
            (folder / "q").write_text("consistent;\n")
            write(folder, rows)
            runs = [run(folder, b"accepted consistent\n") for _ in range(3)]
        per_row = min(spent for spent, _ in runs) / rows
        smallest = smallest or per_row
        ratio = per_row / smallest
        peak = max(megabytes for _, megabytes in runs)
        print(f"{case:<15} {rows:>7} rows: {per_row * 1e6:8.2f} us a row, ratio {ratio:5.2f}, peak {peak:4.0f} MB")
        if ratio > MOST_RATIO:
            above.append(f"{case}, {rows} rows: ratio {ratio:.2f} is above {MOST_RATIO}")
        if peak > most_megabytes:
            above.append(f"{case}, {rows} rows: {peak:.0f} MB are above {most_megabytes}")
    return above


def main():
    build()
    above = []
    for case, (attrs, rules) in RULES.items():
        above += measure(case, lambda folder, rows: write_ruled(folder, attrs, rules, rows), MOST_MEGABYTES)
    above += measure("copy and orders", write_copied, MOST_MEGABYTES_OF_TABLES)
    end(above)


if __name__ == "__main__":
    main()
