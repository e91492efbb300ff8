#!/usr/bin/env python3
"""Compares what `possible` prints with all completions of small random specifications, one by one.

The specifications are those of `explained.py`, and their completions are gone through as there. Of a random question the candidates
are listed here once more, and of each it is looked at whether some consistent completion has it; the text has to name exactly
these as possible, each with a completion that is listed, is consistent and has it, and the others as impossible, and the brief text
the same. In the whole text the counter-question of each impossible candidate and its report are given to `verify`. Nothing is
shared with the program.

Usage: checks/possible.py [HOW MANY [SEED]]; 300 and 1 where none is said. The exit status is 1 where something is wrong."""
import itertools
import pathlib
import re
import tempfile

from explained import ATTRS, begin, drawn, end, run

# disjuncts as lists of atoms; an atom has its relation and its places, of which the first is the entity's; a text in quotes is a
# name, digits are a value, and "_" is neither
QUERIES = [
    ("(v)", [[("R", "e", "v", "_")]]),
    ("(v)", [[("R", "e", "v", "w"), ("S", "f", "w")]]),
    ("(e)", [[("R", "e", "v", "_"), ("R", "e", "_", "v")]]),
    ("()", [[("R", '"e0"', "1", "_")], [("S", "e", "v")]]),
    ("()", [[("S", "_", "_")]]),
]


def of_query(head, disjuncts):
    return f"answers {head} where " + " or ".join(
        " and ".join(f"{rel}({', '.join(places)})" for rel, *places in atoms) for atoms in disjuncts) + ";"


def matches(spec, disjuncts):
    """Each match as its text and what it looks at: places of completions with their values."""
    entities = {rel: list(dict.fromkeys(ent for r, _, ent, _ in spec.rows if r == rel)) for rel in ATTRS}
    for number, atoms in enumerate(disjuncts, 1):
        names = list(dict.fromkeys(p for _, *places in atoms for p in places if p.isalpha()))
        found = set()
        for chosen in itertools.product(*(range(len(entities[rel])) for rel, *_ in atoms)):
            cells = [(rel, entities[rel][ent]) for (rel, *_), ent in zip(atoms, chosen)]
            had = [[{spec.value[rel, n][a] for r, n, e, _ in spec.rows if (r, e) == (rel, ent)} for a in ATTRS[rel]] for rel, ent in cells]
            for picked in itertools.product(*(itertools.product(*values) for values in had)):
                bound, looked, fits = {}, [], True
                for (rel, first, *places), (_, ent), values in zip(atoms, cells, picked):
                    if first.isalpha():
                        fits = fits and bound.setdefault(first, ent) == ent
                    elif first != "_":
                        fits = fits and first == f'"{ent}"'
                    for attr, place, value in zip(ATTRS[rel], places, values):
                        if place == "_":
                            continue
                        fits = fits and (bound.setdefault(place, value) == value if place.isalpha() else int(place) == value)
                        looked.append(((rel, ent, attr), value))
                if fits:
                    found.add((tuple(ent + 1 for ent in chosen), tuple((isinstance(bound[n], str), bound[n]) for n in names), tuple(looked)))
        for chosen, values, looked in sorted(found, key=lambda m: (m[0], [(isinstance(v, str), v) for _, v in m[1]])):
            written = ", ".join(f'"{v}"' if text else str(v) for text, v in values)
            yield f"match {number} {' '.join(map(str, chosen))} ({written})", looked


def candidates(spec, chance):
    """A question, and its candidates as their texts with what each says of a completion."""
    kind = chance.choice(["consistent", "certain", "same", "answers"])
    if kind == "consistent":
        return "consistent;", []
    if kind == "certain":
        pairs = [(x, y) for x in spec.rows for y in spec.rows if x[0] == y[0] and x[2] == y[2] and x[1] != y[1]]
        if not pairs:
            return "consistent;", []
        asked = [(x[0], chance.choice(ATTRS[x[0]]), x[1], y[1]) for x, y in chance.choices(pairs, k=3)]
        return ("certain " + " and ".join(f"{rel}.{attr}: {x} < {y}" for rel, attr, x, y in asked) + ";",
                [(f"before {rel}.{attr}: {x} < {y}", lambda c, p=(rel, attr, x, y): spec.before(c, *p)) for rel, attr, x, y in asked])
    current = lambda c, place: spec.value[place[0], c[place][-1]][place[2]]
    if kind == "same":
        rels = chance.choice([["R"], ["S"], ["R", "S"]])
        found = []
        for rel in rels:
            for ent in dict.fromkeys(ent for r, _, ent, _ in spec.rows if r == rel):
                for attr in ATTRS[rel]:
                    for value in sorted({spec.value[r, n][attr] for r, n, e, _ in spec.rows if (r, e) == (rel, ent)}):
                        found.append((f"value {rel}.{attr} of {ent} = {value}",
                                      lambda c, place=(rel, ent, attr), value=value: current(c, place) == value))
        return f"same {', '.join(rels)};", found
    head, disjuncts = chance.choice(QUERIES)
    return of_query(head, disjuncts), [
        (text, lambda c, looked=looked: all(current(c, place) == value for place, value in looked)) for text, looked in matches(spec, disjuncts)]


def read_completions(lines):
    """The completions at the head of a text, of which each after the first has what differs from it, and the lines after them."""
    listed = []
    while lines and lines[0].split(" ")[0] in ("completion;", "ranking"):
        line = lines.pop(0)
        if line == "completion;":
            listed.append(dict(listed[0]) if listed else {})
        else:
            rel, attr, ent, rows = re.fullmatch(r"ranking (\w+)\.(\w+) of (\w+): (.*);", line).groups()
            listed[-1][rel, ent, attr] = rows.split(" < ")
    return listed, lines


def wrong(spec, folder, found, completions, text, brief):
    """A cause why a text is wrong, if it is."""
    lines = text.splitlines()
    if lines.pop(0) != ("currency possible brief 1;" if brief else "currency possible 1;"):
        return "the head"
    listed, lines = read_completions(lines)
    if not listed or not all(spec.is_consistent(c, spec.items, spec.cells()) for c in listed):
        return "a completion is not consistent"
    for name, holds in found:
        line = lines.pop(0)
        if any(map(holds, completions)):
            by = re.fullmatch(r"possible (.*) by (\d+);", line)
            if not by or by[1] != name or not 1 <= int(by[2]) <= len(listed) or not holds(listed[int(by[2]) - 1]):
                return f"{name} is possible: {line}"
        elif line != f"impossible {name};":
            return f"{name} is not possible: {line}"
        elif not brief:
            word, question = lines.pop(0).split(" ", 1)
            end = lines.index("end;") + 1
            (folder / "c").write_text(question + "\n")
            (folder / "p").write_text("\n".join(lines[:end]) + "\n")
            lines = lines[end:]
            status, said = run(folder, "verify", "s", "c", "p")
            if word != "question" or status != 0 or said not in ("accepted certain\n", "accepted answers\n"):
                return f"the report on {question} is not accepted: {said}"
    return None if lines == ["end;"] else f"lines are left: {lines}"


def main():
    many, chance = begin()
    counts, bad = {"possible": 0, "impossible": 0, "inconsistent": 0}, 0
    with tempfile.TemporaryDirectory() as name:
        folder = pathlib.Path(name)
        for spec, completions in drawn(many, chance, folder):
            question, found = candidates(spec, chance)
            (folder / "q").write_text(question + "\n")
            for brief in (False, True):
                status, text = run(folder, "possible", "s", "q", *(["--brief"] if brief else []))
                if not completions:
                    counts["inconsistent"] += 1
                    head = f"currency {'brief' if brief else 'report'} 2;\nverdict inconsistent;\n"
                    cause = None if status == 0 and text.startswith(head) else "there is no consistent completion"
                else:
                    cause = "the status" if status != 0 else wrong(spec, folder, found, completions, text, brief)
                if cause:
                    bad += 1
                    print(f"{question} {cause}\n{(folder / 's').read_text()}{text}")
            if completions:
                for _, holds in found:
                    counts["possible" if any(map(holds, completions)) else "impossible"] += 1
    end(counts, bad)


if __name__ == "__main__":
    main()
