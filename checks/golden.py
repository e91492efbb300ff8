#!/usr/bin/env python3
"""Compares the records that `golden` prints with all completions of small random specifications, one by one.

The specifications are those of `explained.py`, and their completions are gone through as there: of each entity and attribute
the values that are current in some consistent completion are gathered, and the table that is due is written from them by Python's
own `csv`. Nothing is shared with the program.

Usage: checks/golden.py [HOW MANY [SEED]]; 300 and 1 where none is said. The exit status is 1 where something is wrong."""
import csv
import io
import pathlib
import tempfile

from explained import ATTRS, begin, drawn, end, run


def due(spec, rel, completions):
    """The status and the text that are due for a relation, where these are the consistent completions."""
    if not completions:
        return 10, "currency brief 2;\nverdict inconsistent;\nend;\n"
    text = io.StringIO()
    table = csv.writer(text, lineterminator="\n")
    table.writerow(["eid", *ATTRS[rel], "open"])
    for ent in dict.fromkeys(ent for r, _, ent, _ in spec.rows if r == rel):
        values = {attr: {spec.value[rel, c[rel, ent, attr][-1]][attr] for c in completions} for attr in ATTRS[rel]}
        fields = [str(*found) if len(found) == 1 else "" for found in values.values()]
        table.writerow([ent, *fields, " ".join(attr for attr, found in values.items() if len(found) > 1)])
    return 0, text.getvalue()


def main():
    many, chance = begin()
    counts, wrong = {"records": 0, "open attributes": 0, "inconsistent": 0}, 0
    with tempfile.TemporaryDirectory() as name:
        folder = pathlib.Path(name)
        for spec, completions in drawn(many, chance, folder):
            for rel in ATTRS:
                wanted, said = due(spec, rel, completions), run(folder, "golden", "s", rel)
                counts["inconsistent"] += wanted[0] == 10
                records = wanted[1].splitlines()[1:] if completions else []
                counts["records"] += len(records)
                counts["open attributes"] += sum(len(record.rsplit(",", 1)[1].split()) for record in records)
                if said != wanted:
                    wrong += 1
                    print(f"golden s {rel}: {said}, due is {wanted}\n{(folder / 's').read_text()}")
    end(counts, wrong)


if __name__ == "__main__":
    main()
