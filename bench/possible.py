#!/usr/bin/env python3
"""How the time of `currency possible --brief` grows with the rows.

Families, each in N rows:
- `values`: a relation in entities of 8 whose rows are ordered by a rule on values and by a rule on orders, half of them copied into
  another relation; `same` of both, so that each value of each entity and attribute is a candidate;
- `matches`: entities of one row, and a query with ten disjuncts of one atom each, so that there are ten candidates for each entity.
Prints per family and N the time, the memory, the time per row beside that of the smallest N, how many candidates are possible, how
many are not, and how many completions are listed. Where a case is above a mark, this is said and the exit status is 1."""
import tempfile

from golden import write_documents
from runs import build, end, table, timed

SIZES = [1_000, 10_000, 100_000]
# the most seconds at the greatest N, megabytes, how the time per row may grow, and how many completions may be listed
SECONDS, MEGABYTES, GROWTH, LISTED = {"values": 30, "matches": 120}, 1_300, 3, 66
DISJUNCTS = 10


def values(folder, rows):
    write_documents(folder, rows)
    with open(f"{folder}/q", "w") as out:
        out.write("same item, view;\n")


def matches(folder, rows):
    table(f"{folder}/item.csv", "id,eid,a", (f"i{row},e{row},{row}" for row in range(rows)))
    with open(f"{folder}/s", "w") as out:
        out.write('relation item from "item.csv" row id entity eid (a: int);\n')
    with open(f"{folder}/q", "w") as out:
        out.write("answers (v) where " + " or ".join(["item(_, v)"] * DISJUNCTS) + ";\n")


def main():
    build()
    above, first = [], {}
    for family in (values, matches):
        name = family.__name__
        for rows in SIZES:
            with tempfile.TemporaryDirectory() as folder:
                family(folder, rows)
                spent, megabytes, said = timed(folder, ["possible", "s", "q", "--brief"])
            lines = said.decode().splitlines()
            possible, impossible, listed = (sum(line.startswith(word) for line in lines) for word in ("possible ", "impossible ", "completion;"))
            per_row = spent / rows
            first.setdefault(name, per_row)
            print(f"{name} {rows}: {spent:.2f} s, {megabytes:.0f} MB, {per_row / first[name]:.2f} times the time per row, "
                  f"{possible} possible, {impossible} not, {listed} completions")
            if listed > LISTED:
                above.append(f"{name} {rows}: {listed} completions")
            if rows == SIZES[-1] and (spent > SECONDS[name] or megabytes > MEGABYTES):
                above.append(f"{name} {rows}: {spent:.2f} s, {megabytes:.0f} MB")
            if per_row > GROWTH * first[name]:
                above.append(f"{name} {rows}: {per_row / first[name]:.2f} times the time per row")
    end(above)


if __name__ == "__main__":
    main()
