#!/usr/bin/env python3
"""How the time of `currency golden` grows with the rows, and compares with that of `ask consistent`.

Families, each in N rows in entities of 8:
- `half`: a relation whose rows are ordered by a rule on values and by a rule on orders, half of them copied into another; of its
  four attributes two are settled and two are open;
- `settled`: the same with given pairs that settle the other two, so that the current tuples are the same in every completion;
- `free`: one attribute with a different value in each row, and nothing known.
Prints per family and N the time, the memory, the time per row beside that of the smallest N, how many fields are filled in and
how many are open, and of `settled` the time beside that of `ask consistent`. Where a case is above a mark, this is said and the
exit status is 1."""
import csv
import io
import tempfile

from runs import build, end, table, timed

SIZES = [1_000, 10_000, 100_000]
ENTITY = 8
# the most seconds and megabytes at the greatest N, and how the time per row may grow
SECONDS, MEGABYTES, GROWTH = 30, 1_300, 3
# the most that `settled` may take beside `ask consistent`
BESIDE = 2

SPEC = """relation item from "item.csv" row id entity eid (a: int, b: int, c: int, d: int);
relation view from "view.csv" row id entity eid (d: int);
rule up on item (s, t): if s.a < t.a then s before t in a;
rule follow on item (s, t): if s before t in a then s before t in b;
copy mirror into view (d) from item (d) using "copy.csv";
"""


def write_documents(folder, rows, given=False):
    cells = [(ent, row) for ent in range(max(1, rows // 2 // ENTITY)) for row in range(ENTITY)]
    name = "i{}_{}".format
    table(f"{folder}/item.csv", "id,eid,a,b,c,d", (f"{name(*cell)},{cell[0]},{cell[1]},{cell[1] + 10},{cell[1] % 3},{cell[1]}" for cell in cells))
    table(f"{folder}/view.csv", "id,eid,d", (f"v{name(*cell)},{cell[0]},{cell[1]}" for cell in cells))
    table(f"{folder}/copy.csv", "target,source", (f"v{name(*cell)},{name(*cell)}" for cell in cells))
    with open(f"{folder}/s", "w") as out:
        out.write(SPEC)
        if given:
            out.write('rule more on item (s, t): if s before t in a then s before t in c;\nrule most on item (s, t): if s before t in a then s before t in d;\n')
    with open(f"{folder}/q", "w") as out:
        out.write("consistent;\n")


def half(folder, rows):
    write_documents(folder, rows)


def settled(folder, rows):
    write_documents(folder, rows, given=True)


def free(folder, rows):
    table(f"{folder}/item.csv", "id,eid,a", (f"i{row},{row // ENTITY},{row}" for row in range(rows)))
    with open(f"{folder}/s", "w") as out:
        out.write('relation item from "item.csv" row id entity eid (a: int);\n')


def main():
    build()
    above, first = [], {}
    for family in (half, settled, free):
        name = family.__name__
        for rows in SIZES:
            with tempfile.TemporaryDirectory() as folder:
                family(folder, rows)
                asked = timed(folder, ["ask", "s", "q"])[0] if family is settled else None
                spent, megabytes, said = timed(folder, ["golden", "s", "item"])
            header, *records = csv.reader(io.StringIO(said.decode()))
            opened = sum(len(record[-1].split()) for record in records)
            filled = len(records) * (len(header) - 2) - opened
            per_row = spent / rows
            first.setdefault(name, per_row)
            beside = f", {spent / asked:.2f} times ask consistent ({asked:.2f} s)" if asked else ""
            print(f"{name} {rows}: {spent:.2f} s{beside}, {megabytes:.0f} MB, {per_row / first[name]:.2f} times the time per row, "
                  f"{filled} fields, {opened} open")
            if (family is settled) != (opened == 0):
                above.append(f"{name} {rows}: {opened} open")
            if rows == SIZES[-1] and (spent > SECONDS or megabytes > MEGABYTES):
                above.append(f"{name} {rows}: {spent:.2f} s, {megabytes:.0f} MB")
            if rows == SIZES[-1] and asked and spent > BESIDE * asked:
                above.append(f"{name} {rows}: {spent / asked:.2f} times ask consistent")
            if per_row > GROWTH * first[name]:
                above.append(f"{name} {rows}: {per_row / first[name]:.2f} times the time per row")
    end(above)


if __name__ == "__main__":
    main()
