#!/usr/bin/env python3
"""How the time of `currency ask --brief` for the answers of queries grows with the rows, and how it compares with SQLite's.

Each row is an entity of its own, so that the current values are known, but in the last family. The families: two atoms joined by an equality, alone,
with an order of their entities and with comparisons that contradict each other; a chain of three and one of eight atoms over a relation
of a hundred values in each column, whose last atom tells ten answers; eight atoms over eight relations with no answer, where a row has
one partner in the next relation, and where it has four; the entities of the first of eight relations from which a chain goes to the last;
a cycle of three atoms; and pairs of entities of rows of which nothing is known. SQLite (Python's module) has the same rows in
memory, reads them from the same tables, and counts the distinct answers with an index on each column that is joined. Runs
the program as built; prints for each family and N the seconds of both, their ratio, and the power at which the program's
time grows from one N to the next. A query of SQLite is stopped after a minute. Where a case is above a mark, this is said
and the exit status is 1."""
import csv
import math
import pathlib
import random
import sqlite3
import sys
import tempfile
import threading
import time

from runs import build, end, table, timed

SIZES = [1_000, 4_000, 16_000, 100_000]
VALUES = 100
ANSWERS = 10
# what the program may take at most: times SQLite's time, and the power at which its time grows, once it takes so many seconds
MOST_RATIO = 3
MOST_POWER = 1.2
FROM_SECONDS = 0.2
OUTSIDE_SECONDS = 60
WIDE = 8


class Family:
    """A query with its tables: each has a name, its columns after the entity's name, and a function from N to its records."""

    def __init__(self, tables, query, sql, indexes, free=False):
        self.tables, self.query, self.sql, self.indexes, self.free = tables, query, sql, indexes, free


def joined(seed):
    """Records whose first value is that of one row alone."""

    def records(rows):
        mixed = list(range(rows))
        random.Random(seed).shuffle(mixed)
        return [(mixed[row], row % VALUES) for row in range(rows)]

    return records


def valued(seed, last=VALUES):
    """Records of two columns of a hundred values, or of so many in the last."""

    def records(rows):
        chosen = random.Random(seed)
        return [(chosen.randrange(VALUES), chosen.randrange(last)) for _ in range(rows)]

    return records


def sparse(seed):
    """Records of two columns of as many values as there are rows; the last column of the last table is asked for a value that it lacks."""

    def records(rows):
        chosen = random.Random(seed)
        return [(chosen.randrange(rows), chosen.randrange(rows)) for _ in range(rows)]

    return records


def partnered(seed, partners=4):
    """Records of two columns of which each value stands in so many rows; asked as those of `sparse`."""

    def records(rows):
        chosen = random.Random(seed)
        return [(chosen.randrange(rows // partners), chosen.randrange(rows // partners)) for _ in range(rows)]

    return records


def doubled(rows):
    """Rows of which two are of one entity each, and have values that others have."""
    return [(row // 2 % (rows // 4), row % 2) for row in range(rows)]


PAIR = [("R", "xa", joined(1)), ("S", "yb", joined(2))]
JOINED = "select count(*) from (select distinct R.e, S.e from R, S where R.x = S.y{})"
CHAIN = " and ".join(f"R(_, x{place}, x{place + 1})" for place in range(WIDE - 1)) + f" and T(_, x{WIDE - 1}, z)"
CHAIN_SQL = (
    "select count(*) from (select distinct T.b from "
    + ", ".join(f"R r{place}" for place in range(WIDE - 1))
    + ", T where "
    + " and ".join(f"r{place}.b = r{place + 1}.a" for place in range(WIDE - 2))
    + f" and r{WIDE - 2}.b = T.a)"
)
EACH = [f"R{place}(a)" for place in range(WIDE)]
NO_END = "answers () where " + " and ".join(f"R{place}(_, x{place}, x{place + 1})" for place in range(WIDE)) + f" and x{WIDE} < 0"
NO_END_SQL = (
    "select exists(select 1 from "
    + ", ".join(f"R{place}" for place in range(WIDE))
    + " where "
    + " and ".join(f"R{place}.b = R{place + 1}.a" for place in range(WIDE - 1))
    + f" and R{WIDE - 1}.b < 0)"
)
FAMILIES = {
    "joined": Family(PAIR, "answers (e, f) where R(e, x, _) and S(f, y, _) and x = y", JOINED.format(""), ["R(x)", "S(y)"]),
    "joined, in order": Family(
        PAIR, "answers (e, f) where R(e, x, _) and S(f, y, _) and x = y and e < f", JOINED.format(" and R.e < S.e"), ["R(x)", "S(y)"]
    ),
    "contrary": Family(
        PAIR,
        "answers (e, f) where R(e, x, _) and S(f, y, _) and x = y and x < y",
        JOINED.format(" and R.x < S.y"),
        ["R(x)", "S(y)"],
    ),
    "chain of three": Family(
        [("R", "ab", valued(1)), ("T", "ab", valued(2, ANSWERS))],
        "answers (z) where R(_, x, y) and R(_, y, w) and T(_, w, z)",
        "select count(*) from (select distinct T.b from R r0, R r1, T where r0.b = r1.a and r1.b = T.a)",
        ["R(a)", "R(b)", "T(a)"],
    ),
    "chain of eight": Family(
        [("R", "ab", valued(1)), ("T", "ab", valued(2, ANSWERS))], f"answers (z) where {CHAIN}", CHAIN_SQL, ["R(a)", "R(b)", "T(a)"]
    ),
    "eight relations, no answer": Family([(f"R{place}", "ab", sparse(place)) for place in range(WIDE)], NO_END, NO_END_SQL, EACH),
    "eight relations, four partners, no answer": Family(
        [(f"R{place}", "ab", partnered(place)) for place in range(WIDE)], NO_END, NO_END_SQL, EACH
    ),
    "entities through eight relations": Family(
        [(f"R{place}", "ab", sparse(place)) for place in range(WIDE)],
        "answers (e) where R0(e, x0, x1) and " + " and ".join(f"R{place}(_, x{place}, x{place + 1})" for place in range(1, WIDE)),
        "select count(*) from (select distinct e from R0 where "
        + "".join(f"b in (select a from R{place} where " for place in range(1, WIDE))
        + "true"
        + ")" * WIDE,
        EACH,
    ),
    "cycle of three": Family(
        [("R", "ab", sparse(1))],
        "answers (x) where R(_, x, y) and R(_, y, z) and R(_, z, x)",
        "select count(*) from (select distinct r0.a from R r0, R r1, R r2 where r0.b = r1.a and r1.b = r2.a and r2.b = r0.a)",
        ["R(a)"],
    ),
    "pairs of free rows": Family(
        [("R", "xf", doubled)],
        "answers (e, f) where R(e, x, 0) and R(f, x, 0) and e < f",
        "select count(*) from (select distinct r0.e, r1.e from R r0, R r1 where r0.x = r1.x and r0.f = 0 and r1.f = 0 and r0.e < r1.e)",
        ["R(x)"],
        free=True,
    ),
}


def write_documents(folder, family, rows):
    """The tables of a family, which have so many rows together, the specification and the query. Free rows stand two in an entity."""
    spec, each = [], rows // len(family.tables)
    for name, columns, records in family.tables:
        heads = ", ".join(f"{column}: int" for column in columns)
        spec.append(f'relation {name} from "{name}.csv" row id entity eid ({heads});\n')
        table(
            folder / f"{name}.csv",
            ",".join(["id", "eid", *columns]),
            (
                f"r{row},e{row // 2 if family.free else row}," + ",".join(map(str, record))
                for row, record in enumerate(records(each))
            ),
        )
    (folder / "s").write_text("".join(spec))
    (folder / "q").write_text(family.query + ";\n")


def outside(folder, family):
    """The seconds that SQLite takes for the same, and how many answers it finds; none, where it is stopped."""
    begin = time.perf_counter()
    base = sqlite3.connect(":memory:")
    for name, columns, _ in family.tables:
        base.execute(f"create table {name} (id text, e text, {', '.join(f'{column} int' for column in columns)})")
        with open(folder / f"{name}.csv", newline="") as told:
            records = csv.reader(told)
            next(records)
            base.executemany(f"insert into {name} values ({', '.join('?' * (len(columns) + 2))})", records)
    for number, index in enumerate(family.indexes):
        base.execute(f"create index i{number} on {index}")
    stop = threading.Timer(OUTSIDE_SECONDS, base.interrupt)
    stop.start()
    try:
        found = base.execute(family.sql).fetchone()[0]
    except sqlite3.OperationalError:
        found = None
    stop.cancel()
    return time.perf_counter() - begin, found


def measure(name, family, rows, before, above):
    """A family at one size: its time beside SQLite's and beside that of the size before. Gives its time."""
    with tempfile.TemporaryDirectory() as made:
        folder = pathlib.Path(made)
        write_documents(folder, family, rows)
        spent, megabytes, said = timed(folder, ["ask", "s", "q", "--brief"], (0, 1, 6))
        lines = said.split(b"\n")
        count = sum(line.startswith(b"answer ") for line in lines)
        theirs, found = outside(folder, family)
    beside = f"{spent / theirs:.2f} times SQLite's {theirs:.2f} s" + ("" if found is not None else " and more (stopped)")
    print(f"{name}, {rows} rows: {spent:.2f} s, {megabytes:.0f} MB, {count} answers; {beside}", end="")
    if not family.free and found is not None and said.startswith(b"currency brief") and count != found:
        above.append(f"{name} at {rows} rows: {count} answers, SQLite has {found}")
    if not said.startswith(b"currency brief"):
        above.append(f"{name} at {rows} rows: {said[:60]!r}")
    if spent > FROM_SECONDS and spent > MOST_RATIO * theirs:
        above.append(f"{name} at {rows} rows: {spent / theirs:.1f} times SQLite's time")
    if before:
        power = math.log(spent / before[1]) / math.log(rows / before[0])
        print(f"; power {power:.2f}", end="")
        if spent > FROM_SECONDS and power > MOST_POWER:
            above.append(f"{name} at {rows} rows: power {power:.2f}")
    print(flush=True)
    return rows, spent


def main():
    build()
    above = []
    wanted = sys.argv[1:]
    for name, family in FAMILIES.items():
        if wanted and name not in wanted:
            continue
        before = None
        for rows in SIZES:
            before = measure(name, family, rows, before, above)
            if before[1] > OUTSIDE_SECONDS:
                above.append(f"{name} at {rows} rows: {before[1]:.0f} s, larger sizes not run")
                break
    end(above)


if __name__ == "__main__":
    main()
