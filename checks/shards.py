#!/usr/bin/env python3
"""Compares what `currency shards` joins with what the program says of the whole, over random specifications.

Each specification has three relations with entities of one to four rows, one without names of rows, odd names and spellings of
tables, given pairs, rules, and copies that tie entities across relations. It is cut into shards of a few rows, and run and
joined. `golden` of a relation has to be the program's text over the whole, byte by byte, with its status. By turns the same is
asked of `ask` (`consistent`, and by name the shards that are not; `certain` pairs; `same`; `answers` of a query), of `forced`
and of `possible`: the verdict, the pairs, the answers, what is possible and what is not. `check` has to accept the shards, and
to refuse them where a record is lost, moved, doubled, changed or swapped. One fault is then planted in the documents, and what
`cut` refuses has to be what the program refuses. A few more runs are looked at by hand: how random bytes are read, entities
that are too large, a full disk, words and questions that are refused, a shard that fails, and a run that is gone on with.

Usage: checks/shards.py [--count N] [--seed S]; 200 and 1 where none is said. The exit status is 1 where something is wrong."""

import argparse
import itertools
import json
import pathlib
import random
import re
import resource
import shutil
import subprocess
import sys
import tempfile

ROOT = pathlib.Path(__file__).resolve().parent.parent
PROGRAM = ROOT / "crates" / "currency" / "out" / "currency"
# (the script would build a program of which it has not noted that it is built)
CALL = f"""import sys
sys.path.insert(0, {str(ROOT / "tools")!r})
sys.dont_write_bytecode = True
import shards
sys.exit(shards.main(sys.argv[1:], {str(PROGRAM)!r}))"""
sys.path.insert(0, str(ROOT / "tools"))
sys.dont_write_bytecode = True

import cutting  # noqa: E402 (stands in tools/)

ENTITIES = ["e0", "e1", "é", "x,y", 'q"r', "a b", "", "two\nlines", "e\r", " e0", "\ufeffe", '"']
TEXTS = ["u", "v", "ü w", 'a"b', "c,d", "", "l\nf"]
NUMBERS = ["0", "1", "2"] * 3 + ["02", "-0", "-1", "9223372036854775807"]
RELATIONS = [
    'relation R from "r.csv" row id entity eid (a: int, b: text);',
    'relation "S" from "s.csv" row id entity eid (c: int);',
    'relation T from "t.csv" entity "e,id" ("d": text);',
]
RULES = [
    "rule up on R (s, t): if s.a < t.a then s before t in a;",
    "rule follow on R (s, t): if s before t in a then s before t in b;",
    'rule last on S (s, t): if s.c = 0 and t.c = 1 # and then\n  then s before t in c;',
    "rule three on R (s, t, u): if s before t in b and t before u in b and s.a = u.a then false;",
    'rule text on T (s, t): if s.d = "u" and t.d = "v" then s before t in d;',
]
QUERIES = [
    b"answers (e, x) where R(e, x, _);\n",
    b'answers (x) where S(_, x) and x >= 1 or R(_, x, _) and x = -1;\n',
    b'answers () where T(_, "u");\n',
    b"answers (d, e) where T(e, d) and d != \"v\";\n",
]


class Whole:
    """A specification: rows as [name, entity, values..] by relation, given pairs and mappings, some of them in tables."""

    def __init__(self, chance):
        self.chance = chance
        self.rows = {rel: self.entity_rows(rel, kinds) for rel, kinds in (("R", "nt"), ("S", "n"), ("T", "t"))}
        for number, row in enumerate(self.rows["T"], 1):
            row[0] = str(number)
        self.copies = [
            ("kept", "S", "c", "R", "a", self.mappings("S", 2, "R", 2, 0.5)),
            ("said", "T", "d", "R", "b", self.mappings("T", 2, "R", 3, 0.4)),
            ("own", "R", "b", "T", "d", []),
            ("self", "T", "d", "T", "d", self.mappings("T", 2, "T", 2, 0.1)),
        ]
        self.copies = [copy for copy in self.copies if chance.random() < 0.8]
        self.pairs = [("R", "b", self.given("R")), ("T", "d", self.given("T")), ("S", "c", self.given("S"))]
        self.rules = chance.sample(RULES, chance.randint(0, 3))

    def entity_rows(self, rel, kinds):
        chance, rows = self.chance, []
        for entity in chance.sample(ENTITIES, chance.randint(2, 7)):
            for _ in range(chance.randint(1, 4)):
                rows.append([None, entity, *(chance.choice(NUMBERS if kind == "n" else TEXTS) for kind in kinds)])
        chance.shuffle(rows)
        for number, row in enumerate(rows):
            row[0] = chance.choice([f"{rel}{number}", f"{rel} {number}", f"{rel}é{number}", f'{rel}"{number}', str(number)])
        return rows

    def mappings(self, target, at, source, source_at, often):
        """Rows of the target with sources, whose values they get."""
        found = []
        for row in self.rows[target]:
            others = [other for other in self.rows[source] if other is not row]
            if others and self.chance.random() < often:
                other = self.chance.choice(others)
                if target == source and other[source_at] != row[at]:
                    continue
                # (a number may be spelled otherwise)
                spells = [other[source_at], "00" + other[source_at]] if other[source_at].isdigit() else [other[source_at]]
                row[at] = self.chance.choice(spells)
                found.append([row[0], other[0]])
        return found

    def given(self, rel):
        """Given pairs, an earlier row of the table first."""
        found, rows = [], self.rows[rel]
        for at, row in enumerate(rows):
            later = [other for other in rows[at + 1 :] if other[1] == row[1]]
            if later and self.chance.random() < 0.2:
                found.append([row[0], self.chance.choice(later)[0]])
        return found

    def table(self, records):
        """A table's bytes, spelled at random."""
        chance = self.chance
        end = chance.choice(["\n", "\r\n", "\r"])
        text = "\ufeff" * (chance.random() < 0.2)
        for number, fields in enumerate(records):
            spelled = [self.field(field, number + at == 0) for at, field in enumerate(fields)]
            text += ",".join(spelled) + end * chance.choice([1, 1, 1, 2])
        return text.rstrip("\r\n").encode() if chance.random() < 0.2 and records[-1][-1].isalnum() else text.encode()

    def field(self, field, is_first):
        is_plain = not any(c in field for c in ",\r\n") and not field.startswith(("\ufeff", '"') if is_first else '"')
        if is_plain and field and self.chance.random() < 0.8:
            return field
        if is_plain and field and '"' not in field and self.chance.random() < 0.3:
            return f'"{field[:1]}"{field[1:]}' if '"' not in field[1:] else field
        return '"' + field.replace('"', '""') + '"'

    def documents(self):
        """The documents by name, and the specification's text."""
        chance, files, statements = self.chance, {}, list(RELATIONS)
        extra = chance.random() < 0.5
        for rel, header in (("R", ["id", "eid", "a", "b"]), ("S", ["id", "eid", "c"]), ("T", ["row", "e,id", "d"])):
            records = [header, *self.rows[rel]]
            if rel == "T":
                more = itertools.chain(["row"], itertools.repeat("more"))
                records = [[*fields[1:], last] if extra else fields[1:] for fields, last in zip(records, more)]
            files[f"{rel.lower()}.csv"] = self.table(records)
        for number, (rel, attr, pairs) in enumerate(self.pairs):
            if pairs and chance.random() < 0.5:
                statements.append(f"order {rel}.{attr}:\n " + ", ".join(f"{quoted(x)} < {quoted(y)}" for x, y in pairs) + ";")
            elif pairs:
                files[f"o{number}.csv"] = self.table([["attribute", "earlier", "later"], *([attr, *pair] for pair in pairs)])
                statements.append(f'orders {rel} from "o{number}.csv";')
        for name, target, attr, source, source_attr, pairs in self.copies:
            head = f"copy {quoted(name)} into {target} ({attr}) from {source} ({source_attr})"
            if pairs and chance.random() < 0.5:
                statements.append(f"{head}: " + ",\n ".join(f"{quoted(x)} from {quoted(y)}" for x, y in pairs) + ";")
            else:
                files[f"{name}.csv"] = self.table([["source", "target"], *([y, x] for x, y in pairs)])
                statements.append(f'{head} using "{name}.csv";')
        files["s"] = ("# a comment; with \"a quote\n" + "\n".join(statements + self.rules) + "\n").encode()
        return files

    def certain(self):
        """A question about some pairs of rows."""
        asked = []
        for rel, attrs in (("R", "ab"), ("S", "c"), ("T", "d")):
            pairs = [(x[0], y[0]) for x in self.rows[rel] for y in self.rows[rel] if x[1] == y[1] and x is not y]
            if pairs:
                some = self.chance.sample(pairs, min(len(pairs), self.chance.randint(1, 3)))
                asked.append(f"{rel}.{self.chance.choice(attrs)}: " + ", ".join(f"{quoted(x)} < {quoted(y)}" for x, y in some))
        return ("certain " + " and ".join(asked) + ";\n" if asked else "consistent;\n").encode()


def quoted(name):
    return '"' + name.replace('"', '""') + '"'


def write(folder, files):
    for name, text in files.items():
        (folder / name).write_bytes(text)


def program(folder, *words):
    done = subprocess.run([PROGRAM, *words], cwd=folder, capture_output=True)
    return done.returncode, done.stdout


def shards(folder, *words, **more):
    done = subprocess.run([sys.executable, "-ISc", CALL, *words], cwd=folder, capture_output=True, **more)
    return done.returncode, done.stdout, done.stderr.decode()


def joined(folder, *words):
    """The status and the text of a run over the shards."""
    shards(folder, "run", "cut", *words, "--jobs", "1")
    return shards(folder, "join", "cut")


def lines_of(text):
    """The lines of a text, each with those behind it while a quote in it is open."""
    return [it.group() for it in re.finditer(rb'(?:[^"\n]|"[^"]*")*\n', text)]


class Tally:
    """What was seen, and what was wrong."""

    def __init__(self):
        kinds = ["specifications", "shards", "records", "pairs", "inconsistent", "refused", "found out"]
        self.counts, self.wrong = dict.fromkeys(kinds, 0), 0

    def see(self, kind, many=1):
        self.counts[kind] += many

    def note(self, holds, what, folder=None):
        if not holds:
            self.wrong += 1
            text = f"\n{(folder / 's').read_text()}" if folder else ""
            print(f"wrong: {what}{text}")


def compare_golden(folder, rel, tally):
    wanted, said = program(folder, "golden", "s", rel), joined(folder, "golden", "s", rel)
    tally.see("inconsistent", wanted[0] == 10)
    tally.see("records", wanted[1].count(b"\n") * (wanted[0] == 0))
    tally.note(said[:2] == wanted, f"golden s {rel}: {said}, due is {wanted}", folder)


def verdict_of(text):
    """The claims of a report: its verdict, and what stands below it up to a completion or the end."""
    return list(itertools.takewhile(lambda it: it not in (b"completion;\n", b"end;\n"), lines_of(text)[1:]))


def compare_verdict(folder, question, tally):
    (folder / "q").write_bytes(question)
    status, text = program(folder, "ask", "s", "q", "--brief")
    said, (verdict, *claims) = joined(folder, "ask", "s", "q", "--brief"), verdict_of(text) or [b""]
    plain = b" ".join(verdict.rstrip(b";\n").split()[: 3 if verdict.startswith(b"verdict not") else 2]) + b";\n"
    first, *rest = lines_of(said[1]) or [b""]
    is_right = (said[0], first) == (status, plain)
    if b" inconsistent" in plain or b" consistent" in plain:
        # (a shard for which there are no pairs is asked whether it is consistent)
        names = sorted(it.parent for it in (folder / "cut").glob("[0-9]*/question"))
        each = [(it.name.encode(), verdict_of(program(it, "ask", "s", "question", "--brief")[1])[0]) for it in names]
        is_right &= rest == [name + b" " + it for name, it in each if b" inconsistent" in it]
    elif b" not " in plain:
        # (which of several that are not certain a report names is not said)
        is_right &= any(it.partition(b" ")[2].startswith(plain.rstrip(b";\n")) for it in rest)
    elif b" answers" in plain:
        is_right &= rest == claims
    elif b" same" in plain:
        is_right &= sorted(it.partition(b" ")[2] for it in rest if b" current " in it) == sorted(claims)
    tally.note(is_right, f"{question}: {said}, due is {verdict}", folder)


def compare_lines(folder, words, tally):
    """Of `forced` and `possible`: the pairs and the findings, whatever their order and the completions that they name."""

    def kept(lines):
        # (of a match the entity has its number in the shard)
        found = [it for it in lines if it.startswith((b"pair ", b"possible ", b"impossible "))]
        found = [re.sub(rb"^(\w+ match \d+) \d+|( by \d+)?;\n$", rb"\1", it) for it in found]
        return sorted(found), any(re.fullmatch(rb"forced \d+ loops;\n|verdict inconsistent;\n", it) for it in lines)

    status, text = program(folder, *words)
    said = joined(folder, *words)
    lines = [it.partition(b" ")[2] for it in lines_of(said[1])]
    tally.see("pairs", len(kept(lines)[0]))
    tally.note(said[0] == status and kept(lines) == kept(lines_of(text)), f"{words}: {said}, due is {text}", folder)


def spoil(folder, chance):
    """Moves, loses, doubles or changes a record that the cut put into a shard; says how, or nothing where there was none."""
    tables = [path for path in sorted((folder / "cut").glob("[0-9]*/*.csv")) if len(path.read_bytes().splitlines()) > 2]
    # (the tables of a question are written when it is asked, and are no part of the cut)
    tables = [path for path in tables if not path.name.startswith("question-")]
    how = chance.choice(["lost", "moved", "doubled", "changed", "swapped"])
    if not tables:
        return None
    path = chance.choice(tables)
    header, *lines = path.read_bytes().split(b"\n")[:-1]
    at = chance.randrange(len(lines))
    if how == "swapped":
        lines[0], lines[-1] = lines[-1], lines[0]
        # (the order of given pairs and of mapped rows says nothing)
        if lines[0] == lines[-1] or b'"' in b"".join(lines) or path.name not in ("r.csv", "s.csv", "t.csv"):
            return None
    if how == "moved":
        others = [other for other in (folder / "cut").glob(f"[0-9]*/{path.name}") if other != path]
        if not others:
            return None
        with open(chance.choice(others), "ab") as out:
            out.write(lines[at] + b"\n")
    kept = {"doubled": [lines[at]] * 2, "changed": [lines[at] + b"x"], "swapped": [lines[at]]}
    lines[at : at + 1] = kept.get(how, [])
    path.write_bytes(b"\n".join([header, *lines]) + b"\n")
    return f"{how} in {path.parent.name}/{path.name}"


def plant(files, chance):
    """Plants one fault in the documents, and says which."""
    how = chance.choice(["field", "byte", "record", "row", "word", "header", "value", "value", "value"])
    name = "s.csv" if how == "value" else chance.choice(sorted(files))
    lines = files[name].decode().replace("\r\n", "\n").replace("\r", "\n").split("\n")
    at = chance.randrange(len(lines))
    if how == "byte":
        files[name] = "\n".join(lines).encode() + b"x\xff,\n"
    elif how == "field":
        lines[at] += ","
    elif how == "record":
        lines.insert(at, lines[at])
    elif how == "row":
        lines[at] = re.sub(r"[RST]", "U", lines[at], count=1)
    elif how == "value":
        lines[1:] = [re.sub(r"\d(\"?)$", r"8\1", line) if chance.random() < 0.5 else line for line in lines[1:]]
    elif how == "word":
        lines[at] = re.sub(r"\b\d\b", "7x", lines[at])
    else:
        lines[0] = lines[0].replace("id", "di", 1)
    if how != "byte":
        files[name] = "\n".join(lines).encode()
    return f"{how} of {name}"


def compare_refusal(folder, files, chance, tally):
    """What is refused with a fault is what the program refuses."""
    how = plant(files, chance)
    write(folder, files)
    status, text = program(folder, "forced", "s")
    shutil.rmtree(folder / "cut", ignore_errors=True)
    said = shards(folder, "cut", "s", "cut", "--rows", "3")
    if status:
        wanted = "shards: " + text.decode()
        tally.see("refused")
        is_right = (said[0], said[2]) == (status, wanted) and not (folder / "cut").exists()
        tally.note(is_right, f"{how}: {said}, due is {wanted}", folder)
    else:
        tally.note(said[0] == 0, f"{how}: {said}, and nothing is wrong", folder)


def one(chance, tally, turn):
    with tempfile.TemporaryDirectory() as name:
        folder, whole = pathlib.Path(name), Whole(chance)
        files = whole.documents()
        write(folder, files)
        said = shards(folder, "cut", "s", "cut", "--rows", str(chance.randint(1, 8)))
        if said[0]:
            tally.note(False, f"cut: {said}, the program says {program(folder, 'forced', 's')}", folder)
            return
        tally.see("specifications")
        tally.see("shards", len(json.loads((folder / "cut" / "plan.json").read_text())["shards"]))
        said = shards(folder, "check", "cut")
        tally.note(said[0] == 0, f"check: {said}", folder)
        compare_golden(folder, chance.choice("RST"), tally)
        asked = [b"consistent;\n", whole.certain(), b"same R, T;\n", chance.choice(QUERIES)]
        if turn % 6 < 4:
            compare_verdict(folder, asked[turn % 6], tally)
        elif turn % 6 == 4:
            compare_lines(folder, ["forced", "s"], tally)
        else:
            (folder / "q").write_bytes(chance.choice([whole.certain(), b"same R, S;\n", b"same T;\n", *QUERIES]))
            compare_lines(folder, ["possible", "s", "q", "--brief"], tally)
        how = spoil(folder, chance)
        if how:
            tally.see("found out")
            tally.note(shards(folder, "check", "cut")[0] != 0, f"check accepts {how}", folder)
        compare_refusal(folder, files, chance, tally)


def read_by_bytes(source):
    """The records of a table, byte by byte: how many of them fit the first one and are text, and these."""
    found, fields, field, state = [], [], b"", "record"
    source = source[3:] if source.startswith("\ufeff".encode()) else source
    for byte in (bytes([code]) for code in source):
        if state == "quoted":
            field, state = (field, "quote") if byte == b'"' else (field + byte, state)
        elif byte == b'"' and state != "field":
            field, state = (field + byte if state == "quote" else field), "quoted"
        elif byte == b",":
            fields, field, state = [*fields, field], b"", "begun"
        elif byte in b"\r\n":
            found += [[*fields, field]] * (state != "record")
            fields, field, state = [], b"", "record"
        else:
            field, state = field + byte, "field"
    found += [[*fields, field]] * (state != "record")
    is_fit = [len(it) == len(found[0]) and not any("\ufffd" in field.decode(errors="replace") for field in it) for it in found]
    return found[: (is_fit + [False]).index(False)], all(is_fit)


def read_by_tool(path):
    """The same as the tool reads them, and the texts that it writes."""
    found, texts = [], []
    try:
        for text, fields in cutting.records(path):
            found.append([field.encode() for field in fields])
            texts.append(text.encode())
    except cutting.Refused:
        return found, texts, False
    return found, texts, True


def read_alike(tally, chance):
    """Random bytes are the same records for the tool, and in what it writes."""
    pieces = [b"a", b" ", b",", b",", b'"', b'"', b"\r", b"\n", b"\r\n", b"\xc3", b"\xa9", b"\xef\xbb\xbf", b"\x85", b"\x0b"]
    with tempfile.TemporaryDirectory() as name:
        path = pathlib.Path(name) / "t.csv"
        for _ in range(500):
            source = b"".join(chance.choices(pieces, k=chance.randint(0, 20)))
            path.write_bytes(source)
            wanted, (found, texts, is_whole) = read_by_bytes(source), read_by_tool(path)
            tally.note((found, is_whole) == wanted, f"{source} is read as {found}, due is {wanted}")
            written = b"".join(text + b"\n" for text in texts)
            mark = "\ufeff".encode() * written.startswith("\ufeff".encode())
            tally.note(read_by_bytes(mark + written)[0] == found, f"{source} is written as {written}")


def small(folder, rows, copied=(), rule=""):
    """A specification with a relation of one attribute, whose rows are given as entities."""
    text = f'relation R from "r.csv" row id entity eid (a: int);\n{rule}'
    text += 'copy c into R (a) from R (a) using "c.csv";\n'
    write(folder, {
        "s": text.encode(),
        "r.csv": "".join(["id,eid,a\n", *(f"r{row},{entity},{row % 3 * 0}\n" for row, entity in enumerate(rows))]).encode(),
        "c.csv": "".join(["target,source\n", *(f"r{x},r{y}\n" for x, y in copied)]).encode(),
    })


def too_large(tally):
    """Entities that no shard takes are named with their size, and nothing is written."""
    cases = [
        ([7] * 65 + [8], (), "shards: 7 of R: 65 rows; limit 7: an entity has at most 64 rows in a relation\n"),
        ([row // 50 for row in range(100_050)], [(row, row - 50) for row in range(50, 100_050, 50)],
         "shards: 0 of R and the 2000 entities that copied rows tie to it: 100050 rows; "
         "limit 6: the relations have at most 100000 rows together\n"),
        ([7] * 55 + [8], (), "shards: 7 of R: 55 rows; "
         "limit 11: there are at most 8000000 instances of rules, copies and transitivity\n"),
    ]
    for rows, copied, wanted in cases:
        with tempfile.TemporaryDirectory() as name:
            folder = pathlib.Path(name)
            small(folder, rows, copied, "rule four on R (s, t, u, v): if s.a < t.a and u.a < v.a then false;\n")
            said = shards(folder, "cut", "s", "cut")
            tally.note(said == (1, b"", wanted) and not (folder / "cut").exists(), f"too large: {said}, due is {wanted}")


def full_disk(tally):
    """Where no file takes more than so many bytes, the folder that was begun is named."""
    with tempfile.TemporaryDirectory() as name:
        folder = pathlib.Path(name)
        small(folder, [row // 8 for row in range(4000)])
        most = (20_000, 20_000)
        said = shards(folder, "cut", "s", "cut", preexec_fn=lambda: resource.setrlimit(resource.RLIMIT_FSIZE, most))
        tally.note((said[0], said[2]) == (8, "shards: cut was begun and is not whole: File too large\n"), f"full disk: {said}")
        said = shards(folder, "run", "cut", "golden", "s", "R")
        tally.note(said[0] == 1 and "plan.json" in said[2], f"a folder that is not whole: {said}")


def resumed(tally):
    """A shard that failed, and one that was not run, are named and run alone."""
    with tempfile.TemporaryDirectory() as name:
        folder = pathlib.Path(name)
        small(folder, [row // 4 for row in range(40)])
        shards(folder, "cut", "s", "cut", "--rows", "8")
        wanted = program(folder, "golden", "s", "R")
        table, results = folder / "cut" / "0002" / "r.csv", folder / "cut" / "results"
        kept = table.read_bytes()
        table.write_bytes(kept + b"r\n")
        said = shards(folder, "run", "cut", "golden", "s", "R")
        tally.note(said[0] == 5 and said[2] == "shards: 0002: status 5: error E06 r.csv 10\n", f"a shard that fails: {said}")
        said = shards(folder, "join", "cut")
        tally.note(said[0] == 5 and said[1] == b"" and "0002" in said[2], f"a join of it: {said}")
        table.write_bytes(kept)
        shutil.rmtree(results / "0003")
        log = (folder / "cut" / "joblog").read_text().splitlines(keepends=True)
        (folder / "cut" / "joblog").write_text("".join(line for line in log if not line.endswith(" 0003\n")))
        before = (results / "0001" / "stdout").stat().st_mtime_ns
        said = shards(folder, "run", "cut", "--resume")
        tally.note(said[0] == 0 and shards(folder, "join", "cut")[:2] == wanted, f"a run that goes on: {said}")
        tally.note((results / "0001" / "stdout").stat().st_mtime_ns == before, "a shard that was done is run again")
        plan = json.loads((folder / "cut" / "plan.json").read_text())
        plan["relations"][0]["order"].reverse()
        (folder / "cut" / "plan.json").write_text(json.dumps(plan))
        said = shards(folder, "check", "cut")
        tally.note(said[0] == 1 and "not in its place" in said[2], f"shards whose order is another: {said}")


def refused(tally):
    """Words, questions and documents that are refused."""
    with tempfile.TemporaryDirectory() as name:
        folder = pathlib.Path(name)
        small(folder, [row // 4 for row in range(40)])
        write(folder, {"two": b"answers (e) where R(e, x) and R(f, x);\n", "lost": b"certain R.a: r1 < r99;\n", "q": b"consistent;\n"})
        shards(folder, "cut", "s", "cut", "--rows", "8")
        for words, status, said in (
            (["cut", "s", "cut"], 1, "cut is there already"),
            (["cut", "s", "other", "--rows", "0"], 2, "these words do not go together"),
            (["cut", "lost.s", "other"], 7, "read fault lost.s"),
            (["cut", "q", "other"], 5, "error E02 q 1"),
            (["cut", "/dev/null", "other"], 1, "is no file"),
            (["cut", "s", "none/other"], 8, "none/other"),
            (["run", "other", "golden", "s", "R"], 1, "other has no plan.json"),
            (["run", "cut", "--resume"], 1, "nothing was run"),
            (["join", "cut"], 1, "nothing was run"),
            (["run", "cut", "golden", "s", "Q"], 5, "error E03 words 1"),
            (["run", "cut", "golden", "t", "R"], 2, "cut has the shards of s"),
            (["run", "cut", "golden", "s", "R", "--budget", "0"], 2, "words refused"),
            (["run", "cut", "verify", "s", "q", "p"], 2, "the commands over shards are"),
            (["run", "cut", "ask", "s", "two"], 1, "a query of which a disjunct has several atoms does not split"),
            (["run", "cut", "ask", "s", "lost"], 5, "error E10 lost 1"),
            (["run", "cut", "ask", "s", "q", "--csv"], 2, "leave --csv out"),
        ):
            found = shards(folder, *words)
            tally.note(found[0] == status and found[1] == b"" and said in found[2], f"{words}: {found}, due is {status}, {said}")
        tally.note(not (folder / "other").exists(), "a folder is there though cut was refused")
        script = subprocess.run([ROOT / "currency", "shards", "join", "other"], cwd=folder, capture_output=True)
        tally.note(script.returncode == 1 and b"no plan.json" in script.stderr, f"the script: {script}")


def main():
    parser = argparse.ArgumentParser(description="Compares what is joined over shards with the whole.")
    parser.add_argument("--count", type=int, default=200)
    parser.add_argument("--seed", type=int, default=1)
    options = parser.parse_args()
    tally, chance = Tally(), random.Random(options.seed)
    read_alike(tally, chance)
    for case in (too_large, full_disk, refused, resumed):
        case(tally)
    for turn in range(options.count):
        one(chance, tally, turn)
    print(", ".join(f"{count} {kind}" for kind, count in tally.counts.items()) + f", {tally.wrong} wrong")
    sys.exit(1 if tally.wrong else 0)


if __name__ == "__main__":
    main()
