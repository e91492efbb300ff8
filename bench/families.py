"""Families of specifications whose entities are many and small, with the questions that are asked of them.

Each writes its documents for a number of rows to a folder: the specification `s`, its tables, and the question `q`. What each
costs is measured by `bench/ask.py`."""
import itertools
import random

from runs import table

ENTITY = 8

# ---- rules on three rows, with a few conflicts in each entity

THREE = """relation R from "r.csv" row id entity eid (a: int, b: int, d: int);
rule n1 on R (s, t, u): if s.d = t.b and t.b = u.b and s before t in a and t before u in a then false;
rule n2 on R (s, t, u): if s.b = t.d and t.d = u.d and t before s in a and s before u in a then false;
rule n3 on R (s, t, u): if s.d = t.d and t.d = u.b and u before t in a and t before s in a then false;
"""


def clashes(rows):
    """What the three rules exclude of an entity whose rows have these values of b and d: for each two pairs of rows, not both."""
    found = set()
    for (s, (sb, sd)), (t, (tb, td)), (u, (ub, ud)) in itertools.product(enumerate(rows), repeat=3):
        if sd == tb == ub:
            found.add(((s, t), (t, u)))
        if sb == td == ud:
            found.add(((t, s), (s, u)))
        if sd == td == ub:
            found.add(((u, t), (t, s)))
    return {(first, second) for first, second in found if first[0] != first[1] and second[0] != second[1]}


def is_allowed(rows):
    """Do the rules allow that an entity's rows stand in the order in which they are listed?"""
    return not any(first[0] < first[1] and second[0] < second[1] for first, second in clashes(rows))


def entities_of_three(count):
    """So many entities that have an order, made from a few; the rows are shuffled."""
    chance, made = random.Random(8), []
    while len(made) < 24:
        rows = [(chance.randrange(7), chance.randrange(7)) for _ in range(ENTITY)]
        if len(clashes(rows)) >= 10 and is_allowed(rows):
            chance.shuffle(rows)
            made.append(rows)
    return [made[entity % len(made)] for entity in range(count)]


def write_under_three(folder, rows, question, value):
    """Entities of 8 rows under three rules on three rows each, with a question; `value` says what a row has where the rules order it."""
    (folder / "s").write_text(THREE)
    (folder / "q").write_text(question)
    entities = enumerate(entities_of_three(rows // ENTITY))
    table(
        folder / "r.csv",
        "id,eid,a,b,d",
        (f"r{e}_{r},e{e},{value(r)},{b},{d}" for e, values in entities for r, (b, d) in enumerate(values)),
    )


def write_three(folder, rows):
    """Whether they have a consistent completion; all rows have one value where the rules order them."""
    write_under_three(folder, rows, "consistent;\n", lambda row: 0)


def write_answers_three(folder, rows):
    """Which row's number is current of each entity."""
    write_under_three(folder, rows, "answers (e, v) where R(e, v, _, _);\n", lambda row: row)


def clauses_of_three(rows):
    """The same for an outside solver: how many variables, and the clauses, with the axioms on three rows of the attribute that rules name."""
    numbers, clauses = {}, []

    def lit(entity, first, second):
        low, high = min(first, second), max(first, second)
        number = numbers.setdefault((entity, low, high), len(numbers) + 1)
        return number if first < second else -number

    for entity, values in enumerate(entities_of_three(rows // ENTITY)):
        clauses += [[-lit(entity, *first), -lit(entity, *second)] for first, second in sorted(clashes(values))]
        for x, y, z in itertools.combinations(range(ENTITY), 3):
            for first, second, third in ((x, y, z), (z, y, x)):
                clauses.append([-lit(entity, first, second), -lit(entity, second, third), lit(entity, first, third)])
    return len(numbers), clauses


# ---- one entity whose order is hard to find

LARGE = 48
ATTRIBUTES = 5


def random_rules(count, seed):
    """The values of an entity's rows, 0 to 7 in each attribute, and so many rules on two of its rows: which of their values are equal,
    and in which three attributes the rows do not all stand in these orders."""
    chance = random.Random(seed)
    values = [[chance.randrange(8) for _ in range(ATTRIBUTES)] for _ in range(LARGE)]
    rules = []
    for _ in range(count):
        attributes = chance.sample(range(ATTRIBUTES), 3)
        forwards = [chance.random() < 0.5 for _ in attributes]
        equal = chance.randrange(ATTRIBUTES), chance.randrange(ATTRIBUTES)
        rules.append((equal, list(zip(attributes, forwards))))
    return values, rules


def write_random_rules(folder, count, seed):
    """An entity of 48 rows under so many random rules."""
    values, rules = random_rules(count, seed)
    heads = ", ".join(f"a{number}: int" for number in range(ATTRIBUTES))
    (folder / "s").write_text(
        f'relation R from "r.csv" row id entity eid ({heads});\n'
        + "".join(
            f"rule r{number} on R (s, t): if s.a{first} = t.a{second}"
            + "".join(f" and {'s before t' if forward else 't before s'} in a{attribute}" for attribute, forward in orders)
            + " then false;\n"
            for number, ((first, second), orders) in enumerate(rules)
        )
    )
    (folder / "q").write_text("consistent;\n")
    table(
        folder / "r.csv",
        ",".join(["id", "eid", *(f"a{number}" for number in range(ATTRIBUTES))]),
        (",".join([f"r{row}", "x", *map(str, cells)]) for row, cells in enumerate(values)),
    )


def clauses_of_random_rules(count, seed):
    """The same for an outside solver: how many variables, and the clauses, with the axioms on three rows of each attribute."""
    values, rules = random_rules(count, seed)
    numbers, clauses = {}, []

    def lit(attribute, first, second):
        low, high = min(first, second), max(first, second)
        number = numbers.setdefault((attribute, low, high), len(numbers) + 1)
        return number if first < second else -number

    for (first, second), orders in rules:
        for s, t in itertools.permutations(range(LARGE), 2):
            if values[s][first] == values[t][second]:
                clauses.append([-lit(attribute, *((s, t) if forward else (t, s))) for attribute, forward in orders])
    for attribute in range(ATTRIBUTES):
        for x, y, z in itertools.combinations(range(LARGE), 3):
            for first, second, third in ((x, y, z), (z, y, x)):
                clauses.append([-lit(attribute, first, second), -lit(attribute, second, third), lit(attribute, first, third)])
    return len(numbers), clauses


# ---- many attributes, each determined


def write_attributes(folder, rows):
    """Entities of two rows with 26 attributes, in each of which a rule says which row is the last."""
    names = [chr(ord("a") + number) for number in range(26)]
    heads = ", ".join(f"{name}: int" for name in names)
    rules = "".join(f"rule r{name} on R (s, t): if s.{name} < t.{name} then s before t in {name};\n" for name in names)
    (folder / "s").write_text(f'relation R from "r.csv" row id entity eid ({heads});\n' + rules)
    (folder / "q").write_text("same R;\n")
    table(
        folder / "r.csv",
        ",".join(["id", "eid", *names]),
        (
            ",".join([f"r{e}_{r}", f"e{e}", *(str((r + number) % 2) for number in range(26))])
            for e in range(rows // 2)
            for r in range(2)
        ),
    )


# ---- copies that tie all entities


def write_chain(folder, rows):
    """Entities of three rows, each copied from the one before, in its own order and turned round by one."""
    (folder / "s").write_text(
        'relation R from "r.csv" row id entity eid (a: int, b: int);\n'
        'copy on into R (a) from R (a) using "on.csv";\n'
        'copy by into R (b) from R (a) using "by.csv";\n'
    )
    (folder / "q").write_text("consistent;\n")
    cells = [(e, r) for e in range(rows // 3) for r in range(3)]
    later = [(e, r) for e, r in cells if e > 0]
    table(folder / "r.csv", "id,eid,a,b", (f"r{e}_{r},e{e},0,0" for e, r in cells))
    table(folder / "on.csv", "target,source", (f"r{e}_{r},r{e - 1}_{r}" for e, r in later))
    table(folder / "by.csv", "target,source", (f"r{e}_{r},r{e - 1}_{(r + 1) % 3}" for e, r in later))


def write_pairs_of_chain(folder, rows):
    """Entities of two rows, each copied from the one before, and a pair of each; that of the first is given."""
    (folder / "s").write_text(
        'relation R from "r.csv" row id entity eid (a: int);\norder R.a: r0_0 < r0_1;\ncopy on into R (a) from R (a) using "on.csv";\n'
    )
    (folder / "q").write_text('certain orders R from "asked.csv";\n')
    entities = range(rows // 2)
    table(folder / "r.csv", "id,eid,a", (f"r{e}_{r},e{e},0" for e in entities for r in range(2)))
    table(folder / "on.csv", "target,source", (f"r{e}_{r},r{e - 1}_{r}" for e in entities if e > 0 for r in range(2)))
    table(folder / "asked.csv", "attribute,earlier,later", (f"a,r{e}_0,r{e}_1" for e in entities))


def write_known_pairs(folder, rows):
    """Entities of 8 whose rows a rule puts in order, and all pairs of each asked about."""
    (folder / "s").write_text(
        'relation R from "r.csv" row id entity eid (a: int);\nrule up on R (s, t): if s.a < t.a then s before t in a;\n'
    )
    (folder / "q").write_text('certain orders R from "asked.csv";\n')
    entities = range(rows // ENTITY)
    table(folder / "r.csv", "id,eid,a", (f"r{e}_{r},e{e},{r}" for e in entities for r in range(ENTITY)))
    table(
        folder / "asked.csv",
        "attribute,earlier,later",
        (f"a,r{e}_{x},r{e}_{y}" for e in entities for x, y in itertools.combinations(range(ENTITY), 2)),
    )


# ---- rows of which any may be the last


def write_one_city(folder, rows):
    """Entities of 8 free rows, all with one city."""
    (folder / "s").write_text('relation C from "c.csv" row id entity eid (city: text, note: int);\n')
    table(folder / "c.csv", "id,eid,city,note", (f"r{e}_{r},e{e},t{e % 5},{r}" for e in range(rows // ENTITY) for r in range(ENTITY)))


def write_same_city(folder, rows):
    """Is each city the same? The notes are determined by a rule."""
    write_one_city(folder, rows)
    (folder / "s").write_text(
        'relation C from "c.csv" row id entity eid (city: text, note: int);\nrule notes on C (s, t): if s.note < t.note then s before t in note;\n'
    )
    (folder / "q").write_text("same C;\n")


def write_answers_city(folder, rows):
    """The city of each entity."""
    write_one_city(folder, rows)
    (folder / "q").write_text("answers (e, v) where C(e, v, _);\n")


def write_cities(folder, rows, cities):
    """Entities of 8, of which every other one has a determined city, of so many; all cities are asked for."""
    (folder / "s").write_text(
        'relation C from "c.csv" row id entity eid (city: text, known: int);\n'
        "rule last on C (s, t): if s.known < t.known then s before t in city;\n"
    )
    (folder / "q").write_text("answers (city) where C(e, city, _);\n")

    def city(entity, row):
        return (entity * 7 + row * (1 + entity % 2)) % cities

    table(
        folder / "c.csv",
        "id,eid,city,known",
        (f"r{e}_{r},e{e},c{city(e, r)},{r * (e % 2)}" for e in range(rows // ENTITY) for r in range(ENTITY)),
    )
