"""Puts exports with the same columns into one table: no blanks around a field, and -1 for points that are not known."""
import csv
import sys

out = csv.writer(sys.stdout, lineterminator="\n")
for place, name in enumerate(sys.argv[1:]):
    with open(name, newline="", encoding="utf-8") as export:
        header, *records = csv.reader(export)
    if place == 0:
        out.writerow(header)
    for record in records:
        fields = dict(zip(header, (field.strip() for field in record)))
        fields["points"] = fields["points"] or "-1"
        out.writerow(fields.values())
