#!/usr/bin/env python3
"""Compares the tables of `ask --csv` and `possible --csv` with all completions of small random specifications, one by one.

The specifications are those of `explained.py`, and their completions are gone through as there. The answers of a random query over the
current instance of each consistent completion are found here once more: `ask --csv` has to print exactly those that all have, and
`possible --csv` those that some has, each with whether all do, in ascending order below the head's variables. Nothing is shared with
the program.

Usage: checks/tables.py [HOW MANY [SEED]]; 300 and 1 where none is said. The exit status is 1 where something is wrong."""
import csv
import io
import pathlib
import tempfile

from explained import ATTRS, begin, drawn, end, run
from possible import QUERIES, of_query

# further heads: a variable twice, and an entity's name beside a value
MORE = QUERIES + [
    ("(v, v)", [[("R", "e", "v", "_")], [("S", "e", "v")]]),
    ("(w, e)", [[("R", "e", "_", "w"), ("S", "e", "_")]]),
    ("(e, f, v)", [[("R", "e", "v", "_"), ("S", "f", "v")]]),
]


def instance(spec, completion):
    """The current tuples: for each relation the name of each entity with its current values."""
    tuples = {}
    for rel, attrs in ATTRS.items():
        entities = dict.fromkeys(ent for r, _, ent, _ in spec.rows if r == rel)
        tuples[rel] = [(ent, *(spec.value[rel, completion[rel, ent, a][-1]][a] for a in attrs)) for ent in entities]
    return tuples


def fitted(places, values, bound):
    """The variables with those of an atom that fits a tuple, or None."""
    bound = dict(bound)
    for place, value in zip(places, values):
        if place == "_":
            continue
        wanted = bound.setdefault(place, value) if place.isalpha() else place.strip('"') if place[0] == '"' else int(place)
        if wanted != value:
            return None
    return bound


def answers(tuples, head, disjuncts):
    """The answers of a query over current tuples."""
    names, found = [n for n in head.strip("()").split(", ") if n], set()
    for atoms in disjuncts:
        bound = [{}]
        for rel, *places in atoms:
            bound = [more for one in bound for values in tuples[rel] if (more := fitted(places, values, one)) is not None]
        found |= {tuple(one[n] for n in names) for one in bound}
    return found


def ascending(tuples):
    """These tuples in the program's order: numbers before texts."""
    return sorted(tuples, key=lambda t: [(isinstance(v, str), v) for v in t])


def table(header, records):
    """What the text of a table is read as: a record of no field is one empty field."""
    return [list(map(str, record)) or [""] for record in [header, *records]]


def main():
    many, chance = begin()
    counts, bad = {"certain": 0, "possible": 0, "inconsistent": 0, "refused": 0}, 0
    with tempfile.TemporaryDirectory() as name:
        folder = pathlib.Path(name)
        for spec, completions in drawn(many, chance, folder):
            head, disjuncts = chance.choice(MORE)
            (folder / "q").write_text(of_query(head, disjuncts) + "\n")
            none = chance.choice(["\nconsistent;", "# none\n\nsame R;", "\n\nsame S, R;"])
            (folder / "n").write_text(none)
            each = [answers(instance(spec, c), head, disjuncts) for c in completions]
            header = [n for n in head.strip("()").split(", ") if n]
            certain = set.intersection(*each) if each else set()
            wanted = {
                "ask": table(header, ascending(certain)),
                "possible": table(header + ["certain"],
                                  [[*t, "yes" if t in certain else "no"] for t in ascending(set().union(*each))]),
            }
            for command in ("ask", "possible"):
                status, text = run(folder, command, "s", "q", "--csv")
                if not completions:
                    counts["inconsistent"] += 1
                    right = status == 10 and text == "currency brief 2;\nverdict inconsistent;\nend;\n"
                else:
                    counts["certain" if command == "ask" else "possible"] += len(wanted[command]) - 1
                    right = status == 0 and list(csv.reader(io.StringIO(text, newline=""))) == wanted[command]
                if not right:
                    bad += 1
                    print(f"{command} {status} {of_query(head, disjuncts)} {wanted[command]}\n{(folder / 's').read_text()}{text}")
                status, text = run(folder, command, "s", "n", "--csv")
                counts["refused"] += 1
                if (status, text) != (5, f"error E05 n {none.count(chr(10)) + 1}\n"):
                    bad += 1
                    print(f"{command} {status} {none} {text}")
    end(counts, bad)


if __name__ == "__main__":
    main()
