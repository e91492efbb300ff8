#!/usr/bin/env python3
"""How the time of `currency ask`, of `verify` of its report and of `forced` grows with the rows of a specification, and
how it compares with an outside solver on the same clauses.

The first family has rows in entities of 8: given chains (some of them broken), a value rule, two order rules and a copy. Asked of it
are `consistent`, `certain` of one pair of each entity of one relation, which follows from two known pairs and a rule, and `answers` of a query with one
answer for each entity of it, of which half are certain. In the second family
each value is determined, and `same` is asked of all relations. The third is near the limits on pairs of rows and on instances: entities of 4 and of 64. In the fourth all that is
asked is certain by cases alone, and so it is in the fifth, where each row of an entity may be the last. Then come families of many small entities, and entities of 48 rows under random rules
whose order is hard to find, beside Debian's `minisat` where it is installed, and a query with more answers than are gone through. At last
as many pairs are asked about as may be, and one more. Runs the program as
built, and prints per command and N the time per row, its ratio to the smallest N, and the peak memory; and where the
program `bench_ask` is built (`rt run` in its folder), what the log of the search came to, with how many axioms on three rows
were brought in, how many units were taken (learned and on demand), how many completions are listed, and how many models there were that are
consistent completions. Where Debian's
`cadical` is installed, the clauses of the first family are written for it too (with the axioms on three rows of all
lists, which `currency` brings in only where a list goes round), and the ratio of the times is printed. Where a case is
above a mark, this is said and the exit status is 1."""
import pathlib
import shutil
import subprocess
import tempfile
import time

import families
from runs import ROOT, build, end, table, timed

SEARCH = ROOT / "crates" / "bench_ask" / "out" / "bench_ask"
# the words of that program beside which commands
SEARCHED = {"ask": ["s"], "ask answers": ["s", "query"]}

SIZES = [1_000, 10_000, 100_000]
ENTITY = 8
# what a command may take at most at the largest size: times the time per row of the smallest, seconds and megabytes
MARKS = {
    "ask": (3, 10, 1_300),
    "ask certain": (4, 60, 1_600),
    "ask same": (4, 60, 1_600),
    "ask answers": (4, 120, 1_600),
    "ask certain by cases": (4, 60, 1_600),
    "ask same by cases": (4, 60, 1_600),
    "ask answers by cases": (4, 120, 1_600),
    "ask answers of any row": (4, 120, 1_600),
}
MOST_RATIO = 3
OUTSIDE = 10_000
MOST_PAIRS = 10_000_000

SPEC = """relation item from "item.csv" row id entity eid (a: int, b: int, c: int, d: int);
relation view from "view.csv" row id entity eid (e: int);
orders item from "given.csv";
rule values on item (s, t): if s.a < t.a then s before t in a;
rule follow on item (s, t): if s before t in b then s before t in c;
rule both on item (s, t): if s before t in a and s before t in c then s before t in d;
copy mirror into view (e) from item (c) using "copy.csv";
"""


def rank(entity, row):
    """The place of a row in the hidden order of its entity."""
    return (3 * row + entity) % ENTITY


def given_of(entity):
    """The known pairs of an entity: a chain, which is whole for each second entity."""
    rows = sorted(range(ENTITY), key=lambda row: rank(entity, row))
    return [
        (rows[place], rows[place + 1])
        for place in range(ENTITY - 1)
        if entity % 2 == 0 or (entity + place) % 3 != 0
    ]


def write_documents(folder, rows):
    """The first family: half of the rows are items, and half are views that were copied from them."""
    cells = [(entity, row) for entity in range(rows // 2 // ENTITY) for row in range(ENTITY)]
    (folder / "s").write_text(SPEC)
    (folder / "q").write_text("consistent;\n")
    table(
        folder / "item.csv",
        "id,eid,a,b,c,d",
        (f"r{e}_{r},e{e},{r // 2},{rank(e, r)},{rank(e, r) % 4},{r % 3}" for e, r in cells),
    )
    table(folder / "view.csv", "id,eid,e", (f"v{e}_{r},e{e},{rank(e, r) % 4}" for e, r in cells))
    table(folder / "copy.csv", "target,source", (f"v{e}_{r},r{e}_{r}" for e, r in cells))
    table(
        folder / "given.csv",
        "attribute,earlier,later",
        (f"b,r{e}_{x},r{e}_{y}" for e in range(rows // 2 // ENTITY) for x, y in given_of(e)),
    )


def asked_of(entity):
    """Two rows of an entity which are known to stand in their order, since those between them do."""
    rows = sorted(range(ENTITY), key=lambda row: rank(entity, row))
    known = set(given_of(entity))
    return next(
        (rows[place], rows[place + 2])
        for place in range(ENTITY - 2)
        if {(rows[place], rows[place + 1]), (rows[place + 1], rows[place + 2])} <= known
    )


def write_pairs(folder, rows):
    """The question whether one pair of each entity is certain."""
    (folder / "pairs").write_text('certain orders item from "asked.csv";\n')
    table(
        folder / "asked.csv",
        "attribute,earlier,later",
        (f"c,r{e}_{x},r{e}_{y}" for e in range(rows // 2 // ENTITY) for x, y in [asked_of(e)]),
    )


def write_query(folder):
    """A query with one answer for each entity; it is the same in every consistent completion where the entity's chain is whole."""
    (folder / "query").write_text("answers (e, y) where item(e, _, y, _, _);\n")


DETERMINED = """relation item from "item.csv" row id entity eid (a: int, b: int, c: int);
relation view from "view.csv" row id entity eid (e: int);
orders item from "given.csv";
rule values on item (s, t): if s.a < t.a then s before t in a;
rule follow on item (s, t): if s before t in b then s before t in c;
copy mirror into view (e) from item (c) using "copy.csv";
"""


def write_determined(folder, rows):
    """The second family: whole chains, so that each current value is the same in every consistent completion."""
    entities = range(rows // 2 // ENTITY)
    cells = [(entity, row) for entity in entities for row in range(ENTITY)]
    (folder / "s").write_text(DETERMINED)
    (folder / "values").write_text("same item, view;\n")
    table(folder / "item.csv", "id,eid,a,b,c", (f"r{e}_{r},e{e},{r // 2},{rank(e, r)},{rank(e, r) % 4}" for e, r in cells))
    table(folder / "view.csv", "id,eid,e", (f"v{e}_{r},e{e},{rank(e, r) % 4}" for e, r in cells))
    table(folder / "copy.csv", "target,source", (f"v{e}_{r},r{e}_{r}" for e, r in cells))
    chains = ((e, sorted(range(ENTITY), key=lambda row: rank(e, row))) for e in entities)
    table(
        folder / "given.csv",
        "attribute,earlier,later",
        (f"b,r{e}_{x},r{e}_{y}" for e, chain in chains for x, y in zip(chain, chain[1:])),
    )


CASES = """relation R from "r.csv" row id entity eid (x: int, a: int, c: int, b: int);
rule rises on R (s, t): if s.x < t.x then s before t in x;
""" + "".join(
    f"rule r{number} on R (s, t): if s.x < t.x and {first} and {second} then s before t in b;\n"
    for number, (first, second) in enumerate(
        (f"{one} in a", f"{other} in c") for one in ("s before t", "t before s") for other in ("s before t", "t before s")
    )
)


def write_cases(folder, rows):
    """The fourth family: entities of two rows, of which one stands before the other in an attribute however they stand in two others."""
    entities = range(rows // 2)
    (folder / "s").write_text(CASES)
    (folder / "pairs").write_text('certain orders R from "asked.csv";\n')
    (folder / "values").write_text("same R;\n")
    (folder / "query").write_text("answers (e, y) where R(e, _, _, _, y);\n")
    # the two rows have the same values where their order is not known
    table(folder / "r.csv", "id,eid,x,a,c,b", (f"r{e}_{r},e{e},{r},0,0,{r}" for e in entities for r in (1, 2)))
    table(folder / "asked.csv", "attribute,earlier,later", (f"b,r{e}_1,r{e}_2" for e in entities))


def write_any_row(folder, rows):
    """The fifth family: entities of three rows of which nothing is known, and each of which has a value that the query asks for."""
    (folder / "s").write_text('relation R from "r.csv" row id entity eid (a: int);\n')
    (folder / "query").write_text("answers (e) where R(e, x) and x >= 1;\n")
    table(folder / "r.csv", "id,eid,a", (f"r{e}_{r},e{e},{r}" for e in range(rows // 3) for r in (1, 2, 3)))


def write_limit(folder, entity, entities, attrs):
    """The third family: entities of one size, a value rule and a chain of order rules over the attributes."""
    names = [f"a{number}" for number in range(attrs)]
    rules = ["rule r0 on R (s, t): if s.a0 < t.a0 then s before t in a0;"] + [
        f"rule r{number} on R (s, t): if s before t in a{number - 1} then s before t in a{number};"
        for number in range(1, attrs)
    ]
    heads = ", ".join(f"{name}: int" for name in names)
    (folder / "s").write_text(
        f'relation R from "r.csv" row id entity eid ({heads});\n' + "".join(rule + "\n" for rule in rules)
    )
    (folder / "q").write_text("consistent;\n")
    table(
        folder / "r.csv",
        ",".join(["id", "eid", *names]),
        (
            ",".join([f"r{e}_{r}", f"e{e}", *(str(r * 37 % 97 // 2) for _ in names)])
            for e in range(entities)
            for r in range(entity)
        ),
    )


def clauses_of(rows):
    """The clauses of the first family in the numbers of an outside solver, with the axioms on three rows of each list."""
    numbers, clauses = {}, []

    def lit(attr, entity, x, y):
        low, high = min(x, y), max(x, y)
        number = numbers.setdefault((attr, entity, low, high), len(numbers) + 1)
        return number if x < y else -number

    for entity in range(rows // 2 // ENTITY):
        clauses += [[lit("b", entity, x, y)] for x, y in given_of(entity)]
        for x in range(ENTITY):
            for y in range(ENTITY):
                if x == y:
                    continue
                if x // 2 < y // 2:
                    clauses.append([lit("a", entity, x, y)])
                clauses.append([-lit("b", entity, x, y), lit("c", entity, x, y)])
                clauses.append([-lit("a", entity, x, y), -lit("c", entity, x, y), lit("d", entity, x, y)])
                clauses.append([-lit("c", entity, x, y), lit("e", entity, x, y)])
        for attr in "abcde":
            for x in range(ENTITY):
                for y in range(x + 1, ENTITY):
                    for z in range(y + 1, ENTITY):
                        for first, second, third in ((x, y, z), (z, y, x)):
                            clauses.append(
                                [
                                    -lit(attr, entity, first, second),
                                    -lit(attr, entity, second, third),
                                    lit(attr, entity, first, third),
                                ]
                            )
    return len(numbers), clauses


def write_clauses(path, count, clauses):
    """Writes clauses as an outside solver reads them."""
    with open(path, "w") as out:
        out.write(f"p cnf {count} {len(clauses)}\n")
        out.writelines(" ".join(map(str, clause)) + " 0\n" for clause in clauses)


def compare(folder, rows, spent):
    """The time of an outside solver on the clauses, and the ratio of `ask`'s time to it."""
    solver = shutil.which("cadical")
    if not solver:
        print("cadical is not installed: nothing is compared")
        return
    count, clauses = clauses_of(rows)
    write_clauses(folder / "cnf", count, clauses)
    begin = time.perf_counter()
    said = subprocess.run([solver, "-q", folder / "cnf"], capture_output=True, check=False)
    outside = time.perf_counter() - begin
    print(f"cadical, {rows} rows: {outside:.2f} s, status {said.returncode}; ask --brief takes {spent / outside:.2f} times that")


CONSISTENT = {
    "ask --brief": ["ask", "s", "q", "--brief"],
    "ask": ["ask", "s", "q"],
    "verify": ["verify", "s", "q", "p"],
    "forced": ["forced", "s"],
}
PAIRS = {
    "ask certain --brief": ["ask", "s", "pairs", "--brief"],
    "ask certain": ["ask", "s", "pairs"],
    "verify certain": ["verify", "s", "pairs", "p"],
}
VALUES = {
    "ask same --brief": ["ask", "s", "values", "--brief"],
    "ask same": ["ask", "s", "values"],
    "verify same": ["verify", "s", "values", "p"],
}
ANSWERS = {
    "ask answers --brief": ["ask", "s", "query", "--brief"],
    "ask answers": ["ask", "s", "query"],
    "verify answers": ["verify", "s", "query", "p"],
}
CASES_ASKED = {
    "ask certain by cases": ["ask", "s", "pairs"],
    "verify certain by cases": ["verify", "s", "pairs", "p"],
    "ask same by cases": ["ask", "s", "values"],
    "verify same by cases": ["verify", "s", "values", "p"],
    "ask answers by cases": ["ask", "s", "query"],
    "verify answers by cases": ["verify", "s", "query", "p"],
}
ANY_ROW = {
    "ask answers of any row": ["ask", "s", "query"],
    "verify answers of any row": ["verify", "s", "query", "p"],
}
VERDICTS = {
    "ask": b"consistent",
    "ask certain": b"certain",
    "ask same": b"same",
    "ask answers": b"answers",
    "ask certain by cases": b"certain",
    "ask same by cases": b"same",
    "ask answers by cases": b"answers",
    "ask answers of any row": b"answers",
}


def told_of(said, rows, above):
    """How many answers a report prints, completions it lists, and units its trimmed log has; half of the entities have a certain answer."""
    lines = said.split(b"\n")
    counts = {word: sum(line.startswith(word + b" ") or line == word + b";" for line in lines) for word in (b"answer", b"completion", b"learn", b"demand")}
    print("  " + ", ".join(f"{count} {word.decode()}" for word, count in counts.items()))
    if counts[b"answer"] != (rows // 2 // ENTITY + 1) // 2:
        above.append(f"ask answers at {rows} rows: {counts[b'answer']} answers")


def measure(commands, folder, rows, first, above):
    """Each of the commands over the documents of a folder. A report is kept for the one that verifies it."""
    for name, words in commands.items():
        spent, megabytes, said = timed(folder, words)
        if name in VERDICTS:
            (folder / "p").write_bytes(said)
            if not said.startswith(b"currency report 2;\nverdict " + VERDICTS[name] + b";\n"):
                above.append(f"{name} at {rows} rows: another verdict, {said[:60]!r}")
        ratio = spent / rows / first.setdefault(name, spent / rows)
        print(
            f"{name}, {rows} rows: {spent / rows * 1e6:.1f} us a row ({ratio:.2f} times that of {SIZES[0]}), "
            f"{spent:.2f} s, {megabytes:.0f} MB"
        )
        most_ratio, most_seconds, most_megabytes = MARKS.get(name, (MOST_RATIO, None, None))
        if ratio > most_ratio:
            above.append(f"{name} at {rows} rows: {ratio:.2f} times the time per row")
        if rows == SIZES[-1] and most_seconds and spent > most_seconds:
            above.append(f"{name} at {rows} rows: {spent:.1f} s")
        if rows == SIZES[-1] and most_megabytes and megabytes > most_megabytes:
            above.append(f"{name} at {rows} rows: {megabytes:.0f} MB")
        if name == "ask answers":
            told_of(said, rows, above)
        if name in SEARCHED and SEARCH.exists():
            print("  " + subprocess.run([SEARCH, *SEARCHED[name]], cwd=folder, capture_output=True, text=True).stdout.strip())
        if name == "ask --brief" and rows == OUTSIDE:
            compare(folder, rows, spent)


def measure_sizes(above):
    """The families that grow, for each size."""
    first = {}
    for rows in SIZES:
        with tempfile.TemporaryDirectory() as made:
            folder = pathlib.Path(made)
            write_documents(folder, rows)
            write_pairs(folder, rows)
            write_query(folder)
            measure(CONSISTENT, folder, rows, first, above)
            measure(PAIRS, folder, rows, first, above)
            measure(ANSWERS, folder, rows, first, above)
        with tempfile.TemporaryDirectory() as made:
            folder = pathlib.Path(made)
            write_determined(folder, rows)
            measure(VALUES, folder, rows, first, above)
        with tempfile.TemporaryDirectory() as made:
            folder = pathlib.Path(made)
            write_cases(folder, rows)
            measure(CASES_ASKED, folder, rows, first, above)
        with tempfile.TemporaryDirectory() as made:
            folder = pathlib.Path(made)
            write_any_row(folder, rows)
            measure(ANY_ROW, folder, rows, first, above)


# each family: what writes it, the words of its command, its verdict, and what it may take at most at the largest size: times the time
# per row of the smallest, seconds, and bytes of text an entity
FAMILIES = {
    "ask consistent, rules on three rows": (families.write_three, b"consistent", 2, None, None),
    "ask answers, rules on three rows": (families.write_answers_three, b"answers", 2, None, None),
    "ask consistent, a chain of copies in two ways": (families.write_chain, b"consistent", 4, None, None),
    "ask same, 26 attributes": (families.write_attributes, b"same", None, 60, None),
    "ask same, free rows of one value": (families.write_same_city, b"same", 4, 60, None),
    "ask answers, free rows of one value": (families.write_answers_city, b"answers", 4, 60, None),
    "ask answers, 20 cities": (lambda folder, rows: families.write_cities(folder, rows, 20), b"answers", 3, 5, None),
    "ask answers, 2,000 cities": (lambda folder, rows: families.write_cities(folder, rows, 2_000), b"answers", 3, 5, None),
    "ask certain, a chain of copies": (families.write_pairs_of_chain, b"certain", 2, None, 100),
    "ask certain, known pairs": (families.write_known_pairs, b"certain", 2, 3.5, None),
}
LIMIT = 120


def random_rules(count, seed):
    """A call that writes these random rules, and one that makes their clauses."""
    return lambda folder: families.write_random_rules(folder, count, seed), lambda: families.clauses_of_random_rules(count, seed)


# what is compared with an outside solver: what writes it, what makes its clauses, its verdict, and how many times the solver's time it may take
COMPARED = [
    (
        "3,200 rows under rules on three rows",
        lambda folder: families.write_three(folder, 3_200),
        lambda: families.clauses_of_three(3_200),
        b"consistent",
        0.5,
    ),
    ("48 rows under 16 random rules", *random_rules(16, 17), b"consistent", 1.2),
    ("48 rows under 17 random rules", *random_rules(17, 17), b"consistent", 1.2),
    ("48 rows under 15 random rules that contradict", *random_rules(15, 14), b"inconsistent", 1.2),
    ("48 rows under 16 random rules that contradict", *random_rules(16, 2), b"inconsistent", 1.2),
    ("48 rows under 17 random rules that contradict", *random_rules(17, 2), b"inconsistent", 1.2),
]


def measure_family(name, rows, first, above):
    """One family at one size, unless a smaller size took too long."""
    write, verdict, most_ratio, most_seconds, most_bytes = FAMILIES[name]
    if first.get(name) == 0:
        return
    with tempfile.TemporaryDirectory() as made:
        folder = pathlib.Path(made)
        write(folder, rows)
        spent, megabytes, said = timed(folder, ["ask", "s", "q"], (0, 3, 6, -9), LIMIT)
        if said.startswith(b"limit "):
            # (three rules of three variables have more instances than the limit allows where there are 100,000 rows)
            print(f"{name}, {rows} rows: {said.decode().strip()}")
            return
        told = said.split(b"\n", 2)[1:2]
        ratio = spent / rows / first.setdefault(name, spent / rows)
        print(
            f"{name}, {rows} rows: {spent / rows * 1e6:.1f} us a row ({ratio:.2f} times that of {SIZES[0]}), {spent:.2f} s, "
            f"{megabytes:.0f} MB, {len(said) / 1e6:.1f} MB of text"
        )
        if told != [b"verdict " + verdict + b";"]:
            above.append(f"{name} at {rows} rows: {told!r} after {spent:.1f} s")
            first[name] = 0
        if most_ratio and ratio > most_ratio:
            above.append(f"{name} at {rows} rows: {ratio:.2f} times the time per row")
        if rows == SIZES[-1] and most_seconds and spent > most_seconds:
            above.append(f"{name} at {rows} rows: {spent:.1f} s")
        if rows == SIZES[-1] and megabytes > 1_600:
            above.append(f"{name} at {rows} rows: {megabytes:.0f} MB")
        if most_bytes and len(said) > most_bytes * rows:
            above.append(f"{name} at {rows} rows: {len(said)} bytes")


def outside_of(folder, made):
    """The time of an outside solver over clauses that a call makes, and that of making and writing them."""
    begin = time.perf_counter()
    write_clauses(folder / "cnf", *made())
    translated = time.perf_counter() - begin
    begin = time.perf_counter()
    subprocess.run(["minisat", "-verb=0", folder / "cnf"], capture_output=True, check=False)
    return time.perf_counter() - begin, translated


def compare_with_minisat(above):
    """Families beside an outside solver, whose clauses have the axioms on three rows of the attributes that rules name."""
    if not shutil.which("minisat"):
        print("minisat is not installed: nothing is compared")
        return
    for name, write, made, verdict, most in COMPARED:
        with tempfile.TemporaryDirectory() as folder:
            folder = pathlib.Path(folder)
            write(folder)
            spent, _, said = timed(folder, ["ask", "s", "q", "--brief"], (0, 3, 6, -9), LIMIT)
            outside, translated = outside_of(folder, made)
            ratio = spent / (outside + translated)
            print(
                f"{name}: {spent:.2f} s; minisat {outside:.2f} s and {translated:.2f} s for its clauses; "
                f"ask --brief takes {ratio:.2f} times that"
            )
            if said.split(b"\n", 2)[1:2] != [b"verdict " + verdict + b";"]:
                above.append(f"{name}: {said[:60]!r}")
            if ratio > most:
                above.append(f"{name}: ask --brief takes {ratio:.2f} times what minisat and its clauses take")


def measure_families(above):
    """Each of the families of many small entities, for each size."""
    first = {}
    for rows in SIZES:
        for name in FAMILIES:
            measure_family(name, rows, first, above)
    compare_with_minisat(above)


def measure_limits():
    """The third family: entities of 4 and of 64, near the limits."""
    for entity, entities, attrs in [(4, 25_000, 13), (64, 22, 4)]:
        with tempfile.TemporaryDirectory() as made:
            folder = pathlib.Path(made)
            write_limit(folder, entity, entities, attrs)
            for name in ["ask --brief", "ask", "verify", "forced"]:
                spent, megabytes, said = timed(folder, CONSISTENT[name], (0, 3))
                if name == "ask":
                    (folder / "p").write_bytes(said)
                print(f"{name}, {entities} entities of {entity}, {attrs} attributes: {spent:.2f} s, {megabytes:.0f} MB")


def measure_pairs(above):
    """One pair more than may be asked, from one table, and from two and the text; and as many as may be asked."""
    half = "a,1,2\n" * (MOST_PAIRS // 2)
    table_of = 'certain orders R from "{}";\n'
    twice = 'certain orders R from "half.csv" and orders R from "half.csv"'
    cases = [
        ("one table", table_of.format("all.csv"), 6, b"limit 12\n"),
        ("two tables and the text", twice + " and R.a: 1 < 2;\n", 6, b"limit 12\n"),
        ("two tables, within", twice + ";\n", 4, b"refused V3 p 2\n"),
    ]
    with tempfile.TemporaryDirectory() as made:
        folder = pathlib.Path(made)
        (folder / "s").write_text('relation R from "r.csv" row id entity eid (a: int);\n')
        (folder / "r.csv").write_text("id,eid,a\n1,x,1\n2,x,2\n")
        (folder / "half.csv").write_text("attribute,earlier,later\n" + half)
        (folder / "all.csv").write_text("attribute,earlier,later\n" + half + half + "a,1,2\n")
        (folder / "p").write_text("currency report 1;\nverdict consistent;\nend;\n")
        for name, question, status, text in cases:
            (folder / "q").write_text(question)
            spent, megabytes, said = timed(folder, ["verify", "s", "q", "p"], (status,))
            print(f"asked pairs, {name}: {said.decode().strip()}, {spent:.1f} s, {megabytes:.0f} MB")
            if said != text:
                above.append(f"asked pairs, {name}: {said!r}")


def measure_many(above):
    """A query of which 32 entities at four places are more answers than are gone through: 1,048,576."""
    with tempfile.TemporaryDirectory() as made:
        folder = pathlib.Path(made)
        (folder / "s").write_text('relation R from "r.csv" row id entity id (a: int);\n')
        table(folder / "r.csv", "id,a", (f"r{number},1" for number in range(32)))
        (folder / "q").write_text("answers (a, b, c, d) where R(a, _) and R(b, _) and R(c, _) and R(d, _);\n")
        spent, megabytes, said = timed(folder, ["ask", "s", "q"], (6,))
        print(f"1,048,576 answers: {said.decode().strip()}, {spent:.1f} s, {megabytes:.0f} MB")
        if said != b"limit 3\n" or megabytes > MARKS["ask answers"][2]:
            above.append(f"1,048,576 answers: {said!r}, {megabytes:.0f} MB")


def main():
    build()
    above = []
    measure_sizes(above)
    measure_families(above)
    measure_limits()
    measure_many(above)
    measure_pairs(above)
    end(above)


if __name__ == "__main__":
    main()
