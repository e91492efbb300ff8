#!/usr/bin/env python3
"""How the time of `currency explain` and `currency conflicts` compares with that of `ask`, and grows with the rows.

Families, each in N rows in entities of 8 (half of them copied from the other half), where one or two entities matter:
- `pair`: a pair of copied rows that follows by two given pairs, a rule and the two mapped rows; `explain` beside `ask` of it;
- `circle`: 64 given pairs go round through one entity of 64 rows; `explain` beside `ask consistent`;
- `rules`: a pair that two of 256 rules give, most of which speak of few rows; `explain` beside `ask` of it;
- `conflicts`: a thousandth of the entities (at least one, at most 1,000) have two given pairs that go round; `conflicts`
  beside `ask consistent` of the same rows without them.
Prints per family and N the time of both, their ratio, the time per row beside that of the smallest N, how many items were
printed, and the bytes of the text, with those beside its first completion. Where a case is above a mark, this is said and the exit status is 1."""
import itertools
import tempfile

from runs import build, end, table, timed

SIZES = [1_000, 10_000, 100_000]
ENTITY = 8
# the most that a family may take beside `ask`, how its time per row may grow, how many items it has to print, and the rows of
# the part that matters, for each of which and each item the text may have so many bytes beside one whole completion
MARKS = {"pair": (2, 3, 5, 16), "circle": (4, 3, 64, 64), "rules": (4, 3, 2, 16), "conflicts": (4, 3, None, None)}
BYTES = 40

SPEC = """relation item from "item.csv" row id entity eid (a: int, b: int, c: int);
relation view from "view.csv" row id entity eid (d: int);
orders item from "given.csv";
rule follow on item (s, t): if s before t in b then s before t in c;
copy mirror into view (d) from item (c) using "copy.csv";
"""


def write_documents(folder, rows, given, more=()):
    """Items and views, these given pairs of items, and further lines of the specification."""
    cells = [(ent, row) for ent in range(max(1, rows // 2 // ENTITY)) for row in range(ENTITY)]
    name = "i{}_{}".format
    table(f"{folder}/item.csv", "id,eid,a,b,c", (f"{name(*cell)},{cell[0]},{cell[1] % 3},{cell[1]},7" for cell in cells))
    table(f"{folder}/view.csv", "id,eid,d", (f"v{name(*cell)},{cell[0]},7" for cell in cells))
    table(f"{folder}/copy.csv", "target,source", (f"v{name(*cell)},{name(*cell)}" for cell in cells))
    table(f"{folder}/given.csv", "attribute,earlier,later", (",".join(pair) for pair in given))
    with open(f"{folder}/s", "w") as out:
        out.write(SPEC + "".join(line + "\n" for line in more))


def ask(folder, words):
    return timed(folder, ["ask", *words])


def pair(folder, rows):
    write_documents(folder, rows, [("b", "i0_0", "i0_1"), ("b", "i0_1", "i0_2")])
    with open(f"{folder}/q", "w") as out:
        out.write("certain view.d: vi0_0 < vi0_2;\n")
    return ["s", "q"], ["explain", "s", "q", "1"]


def circle(folder, rows):
    write_documents(folder, rows - 64, [], ['relation ring from "ring.csv" row id entity eid (e: int);', 'orders ring from "round.csv";'])
    table(f"{folder}/ring.csv", "id,eid,e", (f"r{row},x,1" for row in range(64)))
    table(f"{folder}/round.csv", "attribute,earlier,later", (f"e,r{row},r{(row + 1) % 64}" for row in range(64)))
    with open(f"{folder}/q", "w") as out:
        out.write("consistent;\n")
    return ["s", "q"], ["explain", "s", "q", "1"]


def rules(folder, rows):
    more = ["rule up on item (s, t): if s.a < t.a and s.b = 0 then s before t in a;",
            "rule so on item (s, t): if s before t in a and t.b = 1 then s before t in b;",
            'relation few from "few.csv" row id entity eid (e: int);']
    more += [f"rule r{k} on few (s, t): if s.e = {k} and t.e > {k} then s before t in e;" for k in range(253)]
    write_documents(folder, rows - 64, [], more)
    table(f"{folder}/few.csv", "id,eid,e", (f"f{row},{row // ENTITY},{row}" for row in range(64)))
    with open(f"{folder}/q", "w") as out:
        out.write("certain item.b: i0_0 < i0_1;\n")
    return ["s", "q"], ["explain", "s", "q", "1"]


def conflicts(folder, rows):
    write_documents(folder, rows, [])
    with open(f"{folder}/q", "w") as out:
        out.write("consistent;\n")
    return ["s", "q"], ["conflicts", "s"]


def blame(folder, rows):
    """The same documents with conflicts, and how many there are."""
    entities = max(1, rows // 2 // ENTITY)
    wrong = range(0, entities, max(1, entities // max(1, min(1_000, entities // 6))))
    write_documents(folder, rows, [p for ent in wrong for p in (("b", f"i{ent}_0", f"i{ent}_1"), ("b", f"i{ent}_1", f"i{ent}_0"))])
    return len(wrong)


def first_completion(lines):
    """The bytes of the first completion of an explanation, if it has one."""
    ranked = list(itertools.dropwhile(lambda line: not line.startswith("ranking "), lines))
    return sum(len(line.encode()) + 1 for line in itertools.takewhile(lambda line: line.startswith("ranking "), ranked))


def main():
    build()
    above, first = [], {}
    for family in (pair, circle, rules, conflicts):
        name = family.__name__
        most, growth, items, part = MARKS[name]
        for rows in SIZES:
            with tempfile.TemporaryDirectory() as folder:
                asked, words = family(folder, rows)
                asked_time, _, _ = ask(folder, asked)
                count = blame(folder, rows) if family is conflicts else None
                spent, megabytes, said = timed(folder, words)
            lines = said.decode().splitlines()
            found = sum(line.startswith("item ") for line in lines)
            beside = len(said) - first_completion(lines)
            per_row = spent / rows
            first.setdefault(name, per_row)
            print(f"{name} {rows}: {spent:.2f} s, {spent / asked_time:.2f} times ask ({asked_time:.2f} s), "
                  f"{per_row / first[name]:.2f} times the time per row, {megabytes:.0f} MB, {found} items, {len(said)} bytes, {beside} beside one completion")
            if items is not None and found != items:
                above.append(f"{name} {rows}: {found} items")
            if items is not None and beside > BYTES * items * part:
                above.append(f"{name} {rows}: {beside} bytes beside one completion")
            if count is not None and lines[1] != f"conflicts {count};":
                above.append(f"{name} {rows}: {lines[1]}")
            if rows == SIZES[-1] and spent > most * asked_time:
                above.append(f"{name} {rows}: {spent / asked_time:.2f} times ask")
            if per_row > growth * first[name]:
                above.append(f"{name} {rows}: {per_row / first[name]:.2f} times the time per row")
    end(above)


if __name__ == "__main__":
    main()
