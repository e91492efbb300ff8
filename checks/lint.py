#!/usr/bin/env python3
"""Holds `currency lint` against tables and rules with planted flaws, and against all choices of rows for random rules.

Tables are made at random, with nothing odd in them or with some flaws, of which each is noted as the warning that is due;
what lint prints is to be just these. Of random rules the instances are gone through here by all choices of rows. Nothing is
shared with lint but the text of its warnings. The examples' specifications `s` have nothing odd.

Usage: checks/lint.py [HOW MANY [SEED]]; 100 and 1 where none is said. The exit status is 1 where something is wrong."""

import collections
import itertools
import operator
import pathlib
import random
import subprocess
import sys
import tempfile

ROOT = pathlib.Path(__file__).resolve().parent.parent
SIGNS = {"=": operator.eq, "!=": operator.ne, "<": operator.lt, "<=": operator.le, ">": operator.gt, ">=": operator.ge}
SPEC = """relation T from "t.csv" row id entity eid (status: text, salary: int, year: text, note: text);
rule raises on T (s, t): if s.salary < t.salary then s before t in salary;
rule weddings on T (s, t): if s.status = "single" and t.status != "single" then s before t in status;
"""
QUERY = 'answers (e) where T(e, "single", x, _, _) and x < 5000;\n'


class Made:
    """A table, a specification and a query with nothing odd, and the warnings that are due once something is planted."""

    def __init__(self, chance):
        self.chance, self.spec, self.query, self.due = chance, SPEC, QUERY, []
        self.rows, self.lines = [], self.spec.count("\n")
        for entity in range(chance.randint(3, 6)):
            for at in range(chance.randint(2, 5)):
                status = "single" if at == 0 else "married"
                year = str(chance.randint(1990, 2020))
                self.rows.append([f"r{len(self.rows) + 1}", f"e{entity}", status, str(at * 7 + 1), year, "a note"])
        self.free = list(range(len(self.rows)))
        chance.shuffle(self.free)

    def take(self, many):
        """So many rows that nothing was done to, in order."""
        taken, self.free = self.free[:many], self.free[many:]
        return sorted(taken)

    def records(self, rows):
        listed = ", ".join(str(it + 2) for it in rows[:5]) + (", ..." if len(rows) > 5 else "")
        return f"t.csv, record{'s' * (len(rows) > 1)} {listed}"

    def add(self, rule):
        self.spec += rule + "\n"
        self.lines += 1
        return f"s, line {self.lines}"

    def blank_entities(self):
        rows = self.take(self.chance.randint(1, 3))
        for it in rows:
            self.rows[it][1] = ""
        many = f"{len(rows)} record{'s have' if len(rows) > 1 else ' has'} a blank entity"
        self.due.append(f"{self.records(rows)}: {many}")

    def alike(self):
        def others(row):
            return [it for it, fields in enumerate(self.rows) if fields[1] == self.rows[row][1] and it != row]

        row = next(it for it in self.free if others(it))
        first, plain = others(row)[0], self.rows[row][1]
        # (nothing more is done to this entity)
        self.free = [it for it in self.free if self.rows[it][1] != plain]
        self.rows[row][1] = self.chance.choice([plain.upper(), f" {plain}", f"{plain} "])
        names = [f"`{self.rows[it][1]}`" for it in sorted([first, row])]
        self.due.append(f"{self.records(sorted([first, row]))}: the entities {', '.join(names)} differ in blanks or case alone")

    def odd_integers(self):
        for kind, field in (("blank", ""), ("a decimal", "1.5"), ("no integer", "n/a")):
            rows = self.take(self.chance.randint(0, 2))
            for it in rows:
                self.rows[it][3] = field
            if rows:
                many = f"{len(rows)} field{'s are' if len(rows) > 1 else ' is'} {kind}"
                self.due.append(f"{self.records(rows)}: `salary` is int, and {many}")

    def numbers_as_text(self):
        where = self.add("rule years on T (s, t): if s.year < t.year then s before t in year;")
        self.due.append(f"{where}: the rule `years` compares `year` as text")

    def absent_constant(self):
        where = self.add('rule typo on T (s, t): if s.status = "singel" and t.status = "married" then s before t in status;')
        self.due.append(f"{where}: no record of `T` has `singel` in `status`; `single` is there")
        self.due.append(f"{where}: the rule `typo` has no instance")

    def idle(self):
        where = self.add("rule poor on T (s, t): if s.salary < -5 then s before t in salary;")
        self.due.append(f"{where}: the rule `poor` has no instance")

    def one_row(self):
        where = self.add("rule equal on T (s, t): if s.salary <= t.salary and s.salary > 0 then s before t in salary;")
        self.due.append(f"{where}: the rule `equal` holds for t.csv, record ")

    def query_constants(self):
        self.query = 'answers (x) where T("e99", "widowed", x, _, _);\n'
        self.due += ["q, line 1: `T` has no entity `e99`", "q, line 1: no record of `T` has `widowed` in `status`"]

    def crowded(self):
        many = self.chance.randint(52, 70)
        for _ in range(many):
            self.rows.append([f"r{len(self.rows) + 1}", "crowd", "single", "1", "2000", "a note"])
        within, beyond = f"{many} rows of an entity of 64 are used", f"the entity `crowd` has {many} rows"
        self.due.append(f"limit 7: {within if many <= 64 else beyond}")

    FLAWS = (blank_entities, alike, odd_integers, numbers_as_text, absent_constant, idle, one_row, query_constants, crowded)

    def write(self, folder):
        header = ["id", "eid", "status", "salary", "year", "note"]
        (folder / "t.csv").write_text("".join(",".join(it) + "\n" for it in [header, *self.rows]))
        (folder / "s").write_text(self.spec)
        (folder / "q").write_text(self.query)


def lint(folder, *words):
    """The status and the warnings."""
    done = subprocess.run([ROOT / "currency", "lint", *words], cwd=folder, capture_output=True, text=True, timeout=100)
    if done.stderr:
        sys.exit(done.stderr)
    return done.returncode, [it[9:] for it in done.stdout.splitlines() if it.startswith("warning: ")], done.stdout


def planted(folder, chance, counts):
    """Whether the warnings on one made specification are those that are due."""
    made = Made(chance)
    flaws = chance.sample(made.FLAWS, chance.choice([0, 1, 1, 2, 3]))
    for flaw in flaws:
        flaw(made)
        counts[flaw.__name__] += 1
    made.write(folder)
    status, found, _ = lint(folder, "s", "q")
    missing = [it for it in made.due if sum(said.startswith(it) for said in found) != 1]
    # (what stands in no table may be a consequence of what was planted there)
    is_right = status == (1 if made.due else 0) and not missing and len(found) == len(made.due)
    if not is_right:
        print(f"WRONG: {[it.__name__ for it in flaws]}: status {status}, {found}, due is {made.due}")
    return is_right


class Rule:
    """A random rule over (a: int, b: text), and its instances by all choices of rows."""

    def __init__(self, chance, name):
        self.name, self.many = name, chance.randint(1, 3)
        self.tests = [self.comparison(chance) for _ in range(chance.randint(0, 3))]
        variables = range(self.many)
        self.orders = [(chance.choice(variables), chance.choice(variables)) for _ in range(chance.choice([0, 0, 1, 2]))]
        self.is_never = chance.random() < 0.3

    def comparison(self, chance):
        attr = chance.choice("ab")
        right = (chance.randrange(self.many), None) if chance.random() < 0.5 else (None, chance.randint(0, 3))
        return chance.randrange(self.many), attr, chance.choice(list(SIGNS)), right

    def text(self):
        said = []
        for left, attr, sign, (right, value) in self.tests:
            constant = f"v{right}.{attr}" if value is None else str(value) if attr == "a" else f'"{value}"'
            said.append(f"v{left}.{attr} {sign} {constant}")
        said += [f"v{x} before v{y} in a" for x, y in self.orders]
        premise = f"if {' and '.join(said)} then " if said else ""
        conclusion = "false" if self.is_never else f"v0 before v{self.many - 1} in a"
        return f"rule {self.name} on R ({', '.join(f'v{it}' for it in range(self.many))}): {premise}{conclusion};\n"

    def holds(self, rows):
        for left, attr, sign, (right, value) in self.tests:
            here = rows[left]["ab".index(attr)]
            there = rows[right]["ab".index(attr)] if value is None else value if attr == "a" else str(value)
            if not SIGNS[sign](here, there):
                return False
        return all(rows[x] is not rows[y] for x, y in self.orders)

    def due(self, entities):
        """Whether there is an instance, and whether one row alone is one."""
        has = any(self.holds(rows) for entity in entities for rows in itertools.product(entity, repeat=self.many))
        alone = self.many > 1 and any(self.holds((row,) * self.many) for entity in entities for row in entity)
        return not has, alone


def random_rules(folder, chance, counts):
    """Whether lint says of random rules just which have no instance, and which one row breaks."""
    entities = [[(chance.randint(0, 3), str(chance.randint(0, 3))) for _ in range(chance.randint(1, 3))] for _ in range(2)]
    rules = [Rule(chance, f"n{it}") for it in range(4)]
    rows = [(f"e{at}", *row) for at, entity in enumerate(entities) for row in entity]
    (folder / "r.csv").write_text("eid,a,b\n" + "".join(f"{e},{a},{b}\n" for e, a, b in rows))
    (folder / "s").write_text('relation R from "r.csv" entity eid (a: int, b: text);\n' + "".join(it.text() for it in rules))
    _, found, _ = lint(folder, "s")
    is_right = True
    for rule in rules:
        idle, alone = rule.due(entities)
        counts["rules without instance"] += idle
        counts["rules that one row breaks"] += alone
        ends = ("has no instance", "holds for r.csv, record")
        said = [sum(f"the rule `{rule.name}` {it}" in line for line in found) for it in ends]
        if said != [idle, alone]:
            is_right = False
            print(f"WRONG: {rule.text()} over {entities}: {said}, due is {[idle, alone]}")
    return is_right


def main():
    many, seed = ([int(it) for it in sys.argv[1:]] + [100, 1][len(sys.argv) - 1 :])[:2]
    chance, counts, wrong = random.Random(seed), collections.Counter(), 0
    for folder in sorted(it.parent for it in (ROOT / "examples").glob("*/s")):
        status, found, said = lint(folder, "s")
        if status or found or "limit 11: instances " not in said:
            wrong += 1
            print(f"WRONG: {folder.name}: {status}, {found}")
    with tempfile.TemporaryDirectory() as name:
        for _ in range(many):
            wrong += not planted(pathlib.Path(name), chance, counts)
            wrong += not random_rules(pathlib.Path(name), chance, counts)
    print(f"{dict(counts)}, {wrong} wrong")
    sys.exit(wrong > 0)


if __name__ == "__main__":
    main()
