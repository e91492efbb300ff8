#!/usr/bin/env python3
"""Compares what `explain` and `conflicts` print with all completions of small random specifications, one by one.

Each specification has two relations with entities of one to three rows, given pairs, rules of several forms and a copy function.
Completions are listed here by going through all orders of the rows of each entity and attribute, and the definitions of
docs/DEFINITIONS.md are spelled out once more, so nothing is shared with the program. Of an explanation it is looked at whether its
items suffice over all completions with these items alone, whether each listed completion is a consistent one with the other items
alone, and whether the unit fails there; of conflicts whether exactly the smallest parts without a consistent completion are listed,
and whether the items of each suffice over it and none can be left out.

Usage: checks/explained.py [HOW MANY [SEED]]; 300 and 1 where none is said. The exit status is 1 where something is wrong."""
import itertools
import pathlib
import random
import re
import subprocess
import sys
import tempfile

ROOT = pathlib.Path(__file__).resolve().parent.parent
PROGRAM = ROOT / "crates" / "currency" / "out" / "currency"
ATTRS = {"R": ["a", "b"], "S": ["c"]}


class Spec:
    """A specification: rows as (relation, name, entity, values), items, and the rules' texts and meanings."""

    def __init__(self, chance):
        self.rows, self.given, self.rules, self.copied = [], [], [], []
        for rel, entities in (("R", chance.randint(1, 2)), ("S", chance.randint(1, 2))):
            for ent in range(entities):
                for row in range(chance.randint(1, 3)):
                    values = tuple(chance.randint(0, 2) for _ in ATTRS[rel])
                    self.rows.append((rel, f"{rel.lower()}{ent}{row}", f"e{ent}", values))
        self.value = {(rel, name): dict(zip(ATTRS[rel], values)) for rel, name, _, values in self.rows}
        self.entity = {(rel, name): ent for rel, name, ent, _ in self.rows}
        for _ in range(chance.randint(0, 4)):
            rel = chance.choice("RS")
            pairs = [(x[1], y[1]) for x in self.rows for y in self.rows if x[0] == y[0] == rel and x[2] == y[2] and x[1] != y[1]]
            if pairs:
                pair = (rel, chance.choice(ATTRS[rel]), *chance.choice(pairs))
                if pair not in self.given:
                    self.given.append(pair)
        forms = [
            ("rule up on R (s, t): if s.a < t.a then s before t in a;", "R", 2,
             lambda v, o, s, t: not v(s, "a") < v(t, "a") or o("a", s, t)),
            ("rule follow on R (s, t): if s before t in a then s before t in b;", "R", 2,
             lambda v, o, s, t: not o("a", s, t) or o("b", s, t)),
            ("rule never on S (s): if s.c = 2 then false;", "S", 1, lambda v, o, s: v(s, "c") != 2),
            ("rule last on S (s, t): if s.c = 0 and t.c = 1 then s before t in c;", "S", 2,
             lambda v, o, s, t: not (v(s, "c") == 0 and v(t, "c") == 1) or o("c", s, t)),
            ("rule three on R (s, t, u): if s before t in b and t before u in b and s.a = u.a then false;", "R", 3,
             lambda v, o, s, t, u: not (o("b", s, t) and o("b", t, u) and v(s, "a") == v(u, "a"))),
        ]
        self.rules = chance.sample(forms, chance.randint(0, 3))
        for target in (row for row in self.rows if row[0] == "S"):
            sources = [row for row in self.rows if row[0] == "R" and row[3][0] == target[3][0]]
            if sources and chance.random() < 0.6:
                self.copied.append((target[1], chance.choice(sources)[1]))
        self.items = ([("given", *g) for g in self.given] + [("rule", r[0].split()[1]) for r in self.rules]
                      + [("copy", t, s) for t, s in self.copied])

    def write(self, folder):
        text = "".join(
            f'relation {rel} from "{rel}.csv" row id entity eid ({", ".join(a + ": int" for a in attrs)});\n' for rel, attrs in ATTRS.items())
        text += "".join(f"order {rel}.{attr}: {x} < {y};\n" for rel, attr, x, y in self.given)
        text += "".join(rule[0] + "\n" for rule in self.rules)
        if self.copied:
            text += "copy kept into S (c) from R (a): " + ", ".join(f"{t} from {s}" for t, s in self.copied) + ";\n"
        (folder / "s").write_text(text)
        for rel, attrs in ATTRS.items():
            lines = [",".join(["id", "eid", *attrs])]
            lines += [",".join([name, ent, *map(str, values)]) for r, name, ent, values in self.rows if r == rel]
            (folder / f"{rel}.csv").write_text("\n".join(lines) + "\n")

    def places(self, cells):
        """The rows to be ordered at each place (relation, entity, attribute) of some entities."""
        return {(rel, ent, attr): [n for r, n, e, _ in self.rows if (r, e) == (rel, ent)] for rel, ent in cells for attr in ATTRS[rel]}

    def completions(self, cells):
        places = self.places(cells)
        for orders in itertools.product(*(itertools.permutations(rows) for rows in places.values())):
            yield {place: list(order) for place, order in zip(places, orders)}

    def before(self, c, rel, attr, x, y):
        order = c.get((rel, self.entity[rel, x], attr), [])
        return x in order and y in order and order.index(x) < order.index(y)

    def is_consistent(self, c, items, cells):
        for kind, *rest in items:
            if kind == "given" and (rest[0], self.entity[rest[0], rest[2]]) in cells and not self.before(c, *rest):
                return False
        named = {rest[0] for kind, *rest in items if kind == "rule"}
        for text, rel, count, holds in self.rules:
            if text.split()[1] not in named:
                continue
            for r, ent in cells:
                rows = [n for q, n, e, _ in self.rows if (q, e) == (rel, ent)] if r == rel else []
                for taken in itertools.product(rows, repeat=count):
                    if not holds(lambda s, a: self.value[rel, s][a], lambda a, s, t: self.before(c, rel, a, s, t), *taken):
                        return False
        mapped = [rest for kind, *rest in items if kind == "copy"]
        for (t, s), (u, v) in itertools.permutations(mapped, 2):
            if self.entity["S", t] == self.entity["S", u] and ("S", self.entity["S", t]) in cells and self.entity["R", s] == self.entity["R", v]:
                if self.before(c, "R", "a", s, v) and not self.before(c, "S", "c", t, u):
                    return False
        return True

    def cells(self):
        return list(dict.fromkeys((rel, ent) for rel, _, ent, _ in self.rows))

    def parts(self):
        """The entities that mapped rows tie together, in the order of their first ones."""
        cells, parts = self.cells(), []
        tied = [{("S", self.entity["S", t]), ("R", self.entity["R", s])} for t, s in self.copied]
        while cells:
            part = {cells[0]}
            while any(part & tie and not tie <= part for tie in tied):
                part |= set().union(*(tie for tie in tied if part & tie))
            parts.append([cell for cell in self.cells() if cell in part])
            cells = [cell for cell in cells if cell not in part]
        return parts


def item_of(line):
    given = re.fullmatch(r"item given (\w+)\.(\w+): (\w+) < (\w+);", line)
    rule = re.fullmatch(r"item rule (\w+);", line)
    copy = re.fullmatch(r"item copy kept: (\w+) from (\w+);", line)
    return ("given", *given.groups()) if given else ("rule", *rule.groups()) if rule else ("copy", *copy.groups())


def read_explanation(text):
    """The items with their completions, of which each after the first has what differs from it."""
    found, first = [], None
    for line in text.splitlines()[2:-1]:
        if line.startswith("item "):
            found.append((item_of(line), dict(first or {})))
        elif line.startswith("ranking "):
            rel, attr, ent, rows = re.fullmatch(r"ranking (\w+)\.(\w+) of (\w+): (.*);", line).groups()
            found[-1][1][rel, ent, attr] = rows.split(" < ")
            if len(found) == 1:
                first = found[0][1]
    return found


def run(folder, *words):
    done = subprocess.run([PROGRAM, *words], cwd=folder, capture_output=True, text=True)
    return done.returncode, done.stdout


def explanation_is_right(spec, text, fact):
    """A cause why an explanation is wrong, if it is; the fact is none where it explains that there is no completion."""
    cells, found = spec.cells(), read_explanation(text)
    items = [item for item, _ in found]
    if [item for item in spec.items if item in items] != sorted(items, key=spec.items.index) or len(set(items)) != len(items):
        return "items are not the specification's"
    for c in spec.completions(cells):
        if spec.is_consistent(c, items, cells) and not (fact and fact(c)):
            return f"the items do not suffice: {c}"
    for item, c in found:
        others = [other for other in items if other != item]
        if not spec.is_consistent(c, others, cells):
            return f"the completion without {item} is not consistent"
        if fact and fact(c):
            return f"{item} is not needed in its completion"
    return None


def conflicts_are_right(spec, text):
    """The same of conflicts."""
    lines = text.splitlines()
    blocks, wanted = [], []
    for line in lines[2:-1]:
        if line.startswith("conflict "):
            ent, rel = re.fullmatch(r"conflict (\w+) of (\w+);", line).groups()
            if not blocks or blocks[-1][1]:
                blocks.append(([], []))
            blocks[-1][0].append((rel, ent))
        else:
            blocks[-1][1].append(item_of(line))
    for cells in spec.parts():
        if not any(spec.is_consistent(c, spec.items, cells) for c in spec.completions(cells)):
            wanted.append(cells)
    if [cells for cells, _ in blocks] != wanted or lines[1] != f"conflicts {len(wanted)};":
        return f"the inconsistent parts are {wanted}"
    for cells, items in blocks:
        if any(spec.is_consistent(c, items, cells) for c in spec.completions(cells)):
            return f"the items of {cells} do not suffice"
        for item in items:
            others = [other for other in items if other != item]
            if not any(spec.is_consistent(c, others, cells) for c in spec.completions(cells)):
                return f"{item} of {cells} is not needed"
    return None


def questions(spec, chance):
    """Questions with what each unit says of a completion."""
    pairs = [(x, y) for x in spec.rows for y in spec.rows if x[0] == y[0] and x[2] == y[2] and x[1] != y[1]]
    if pairs:
        x, y = chance.choice(pairs)
        attr = chance.choice(ATTRS[x[0]])
        yield f"certain {x[0]}.{attr}: {x[1]} < {y[1]};\n", [lambda c: spec.before(c, x[0], attr, x[1], y[1])]
    names = [name for rel, name, ent, _ in spec.rows if (rel, ent) == ("R", "e0")]
    for value in range(3):
        yield (f'answers () where R("e0", {value}, _);\n',
               [lambda c: spec.value["R", c["R", "e0", "a"][-1]]["a"] == value])
    current = [lambda c, attr=attr, rel="R", ent=ent: spec.value[rel, c[rel, ent, attr][-1]][attr]
               for ent in dict.fromkeys(e for r, _, e, _ in spec.rows if r == "R") for attr in ATTRS["R"]]
    if names:
        yield "same R;\n", current


def begin():
    """How many specifications the words of the command line ask for, and what they are drawn with."""
    words = sys.argv[1:]
    many = int(words[0]) if words else 300
    seed = int(words[1]) if len(words) > 1 else 1
    return many, random.Random(seed)


def drawn(many, chance, folder):
    """Random specifications, each written into the folder, with its consistent completions."""
    for _ in range(many):
        spec = Spec(chance)
        spec.write(folder)
        yield spec, [c for c in spec.completions(spec.cells()) if spec.is_consistent(c, spec.items, spec.cells())]


def end(counts, wrong):
    """Tells how much of each kind was seen and how much was wrong, and ends with status 1 where something was."""
    print(", ".join(f"{count} {kind}" for kind, count in counts.items()) + f", {wrong} wrong")
    sys.exit(1 if wrong else 0)


def main():
    many, chance = begin()
    counts, wrong = {"explained": 0, "inconsistent": 0, "no unit": 0, "conflicts": 0}, 0

    def note(cause, spec, words, text):
        nonlocal wrong
        if cause:
            wrong += 1
            print(f"{' '.join(words)}: {cause}\n{(folder / 's').read_text()}{text}")

    with tempfile.TemporaryDirectory() as name:
        folder = pathlib.Path(name)
        for _ in range(many):
            spec = Spec(chance)
            spec.write(folder)
            for asked, units in questions(spec, chance):
                (folder / "q").write_text(asked)
                for place, unit in enumerate(units):
                    words = ["explain", "s", "q", str(place + 1)]
                    status, text = run(folder, *words)
                    brief = run(folder, "ask", "s", "q", "--brief")
                    if status != 0:
                        note(f"status {status}", spec, words, text)
                    elif text.startswith("currency brief"):
                        counts["no unit"] += 1
                        cause = brief[1] != text and not text.startswith("currency brief 2;\nverdict not") and "another text than ask --brief"
                        lines = text.splitlines()
                        if lines[1] in ("verdict inconsistent;", "verdict certain;", "verdict same;"):
                            cause = "a unit that is there is not explained"
                        note(cause, spec, words, text)
                    elif text.splitlines()[1] == "explains inconsistent;":
                        counts["inconsistent"] += 1
                        note(explanation_is_right(spec, text, None), spec, words, text)
                    else:
                        counts["explained"] += 1
                        if asked.startswith("same"):
                            value = next(unit(c) for c in spec.completions(spec.cells()) if spec.is_consistent(c, spec.items, spec.cells()))
                            fact = lambda c, unit=unit, value=value: unit(c) == value
                        else:
                            fact = unit
                        note(explanation_is_right(spec, text, fact), spec, words, text)
            status, text = run(folder, "conflicts", "s")
            counts["conflicts"] += int(text.splitlines()[1].split()[1][:-1]) if status == 0 else 0
            note(f"status {status}" if status else conflicts_are_right(spec, text), spec, ["conflicts", "s"], text)
    end(counts, wrong)


if __name__ == "__main__":
    main()
