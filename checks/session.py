#!/usr/bin/env python3
"""Compares what `session` prints with what the program says of the specification as the entries before left it.

Specifications and scripts are random and small: two relations with entities of one to four rows, odd names and texts, given pairs,
rules of several forms, and two copy functions, some of them from tables. Of each edit it is found out here, from the text of
docs/LANGUAGES.md, whether it is accepted, or with which code and line it is refused, also what is wrong with a question. Accepted
edits are made here once more, and the specification that they leave is written as documents of its own. Over these `verify` has to
accept each reply, and `ask` has to say the same: the same kind of verdict, the same values and answers. The last four decided
replies are kept here too: where `verify` accepts one of them over these documents, the reply has to be the first such one, byte by
byte; else it is another. The brief text has to be the whole one without the logs of what is decided. By turns the budget is one, the
script is cut off or has bytes that are no text, or a question's table is not there.

With `--broken` each right text is broken, one way after another, and it is told how often that is not seen.

Usage: checks/session.py [--count N] [--seed S] [--broken]; 200 and 1 where none is said. The exit status is 1 where something is
wrong, or where what is broken is not seen."""

import argparse
import collections
import os
import pathlib
import random
import re
import subprocess
import sys
import tempfile

ROOT = pathlib.Path(__file__).resolve().parent.parent
PROGRAM = ROOT / "crates" / "currency" / "out" / "currency"

ENTITIES = ["e0", "é", "x,y", 'q"r', ""]
TEXTS = ["u", "v w", 'a"b', "c,d", "", "1"]
# of each relation its attributes with their kinds, and what its rows are named after
RELATIONS = {"R": ({"a": "int", "b b": "text"}, "r"), "the S": ({"c": "int", "d": "text"}, "s ")}
# of each copy function its target and source with their attributes
COPIES = {"k": ("the S", ["c"], "R", ["a"]), "two": ("the S", ["d", "c"], "R", ["b b", "a"])}
KEPT = 4

# what stands behind `add rule NAME`, with a mark before the word at which it is refused, for a code of which the name's own
# (E04, where it is taken) comes after E03 alone; None where it is not
RULES = [
    (None, "on R ( s , t ) : if s . a < t . a then s before t in a"),
    (None, "on R ( s , t ) : if s before t in a then s before t in 'b b'"),
    (None, "on R ( s , t , u ) : if s before t in a and t before u in a and s . 'b b' = u . 'b b' then false"),
    (None, "on 'the S' ( s ) : if s . c = 2 and s . d = 'u' then false"),
    (None, "on 'the S' ( s , t ) : if s . c > t . c then s before t in c"),
    (None, "on 'the S' ( before , then ) : if before before then in d and then . c > 0 then before before then in c"),
    ("E03", "on ~ 'the R' ( s , s ) : false"),
    ("E03", "on R ( s , t ) : if s . a < t . a then s before t in ~ c"),
    ("E03", "on R ( s , s ) : if s . a < ~ t . a then false"),
    ("E04", "on R ( s , t , ~ s ) : if s . a = s . 'b b' then false"),
    ("E05", "on R ( s , t , u , v , w ) : if ~ s . a = 'u' then false"),
    ("limit 8", "on R ( s , t , u , v , w ) : if s . a < t . a then false"),
    ("limit 8", "on R ( s ) : if " + " and ".join(f"s . a != {it}" for it in range(17)) + " then false"),
]
# the same of what stands behind `ask`; a refusal by a table has its name and line in place of a mark
QUESTIONS = [
    (None, "consistent"),
    (None, "same R"),
    (None, "same 'the S' , R"),
    (None, "answers ( v ) where R ( e , v , _ )"),
    (None, "answers ( e , w ) where 'the S' ( e , v , w ) and v >= 1"),
    (None, "answers ( ) where R ( e , 1 , _ ) or R ( e , 2 , _ ) or 'the S' ( e , _ , 'u' )"),
    (None, "answers ( v ) where R ( e , v , w ) and 'the S' ( f , v , w )"),
    (None, "certain orders R from 'asked.csv'"),
    ("E03", "same R , ~ S"),
    ("E04", "same R , 'the S' , ~ R"),
    ("E03", "answers ( ) where ~ S ( e )"),
    ("E05", "answers ( ) where R ( e , v , _ ) and ~ R ( e , v )"),
    ("E05", "answers ( ) where R ( e , ~ 'u' , 'u' )"),
    ("E15", "answers ( e , ~ x ) where R ( e , v , _ )"),
    ("E15", "answers ( ) where R ( e , v , _ ) and ~ y < v"),
    ("E02", "~ certain orders R from 'empty.csv'"),
    ("E06 short.csv 2", "certain orders R from 'short.csv'"),
    ("E07 head.csv 1", "certain orders R from 'head.csv'"),
    ("E03 attr.csv 3", "certain orders R from 'attr.csv'"),
    ("E10 row.csv 2", "certain orders R from 'row.csv' and R . a : r0 < r0"),
    ("E11 one.csv 2", "certain orders R from 'one.csv'"),
    ("limit 12", "answers ( ) where " + " and ".join(["R ( e , _ , _ )"] * 9)),
]
TABLES = {
    "empty.csv": "attribute,earlier,later\n",
    "short.csv": "attribute,earlier,later\na,r0\n",
    "head.csv": "attribute,later\na,r0\n",
    "attr.csv": "attribute,earlier,later\na,r0,r9\nc,r0,r1\n",
    "row.csv": "attribute,earlier,later\na,r0,r99\n",
    "one.csv": "attribute,earlier,later\na,r0,r0\n",
}

# an entry: its tokens, the place of the token at which it is refused and its code (or None), and what it does to a specification
Entry = collections.namedtuple("Entry", "tokens fault change")
# a fault: the code, the place of its token (None where it stands elsewhere, which the code then says), and what else is told
Fault = collections.namedtuple("Fault", "code place more")


def spelled(name):
    return name if re.fullmatch(r"[A-Za-z_]\w*", name, re.A) and name not in ("if", "then", "on") else quoted(name)


def quoted(text):
    return '"' + text.replace('"', '""') + '"'


def constant(value):
    return quoted(value) if isinstance(value, str) else str(value)


def cells(values):
    """A record of a table."""
    return ",".join(quoted(it) if re.search(r'[",]', it) else it for it in map(str, values)) + "\n"


def tokens_of(text):
    """The tokens of a form, and the place of the one with a mark before it, if there is one."""
    tokens, place = [], None
    for it in re.findall(r"'[^']*'|\S+", text):
        if it == "~":
            place = len(tokens)
        else:
            tokens.append(quoted(it[1:-1]) if it[0] == "'" else it)
    return tokens, place


class Spec:
    """A specification: of each relation its rows as names with entities and values, given pairs, rules and mapped rows."""

    def __init__(self, chance):
        self.rows = {rel: self.drawn(chance, rel) for rel in RELATIONS}
        self.given, self.rules, self.mapped = [], {}, {copy: {} for copy in COPIES}
        for _ in range(chance.randint(0, 3)):
            rel = chance.choice([*RELATIONS])
            pairs = self.pairs(rel, chance)
            if pairs:
                self.given.append((rel, chance.choice([*RELATIONS[rel][0]]), *chance.choice(pairs)))
        self.given = list(dict.fromkeys(self.given))
        for code, form in chance.sample(RULES[:6], chance.randint(0, 3)):
            self.rules[f"rule {len(self.rules)}"] = form
        for copy, (target, _, source, _) in COPIES.items():
            for row in self.rows[target]:
                sources = [it for it in self.rows[source] if self.difference(copy, row, it) is None]
                if sources and chance.random() < 0.6:
                    self.mapped[copy][row] = chance.choice(sources)

    @staticmethod
    def drawn(chance, rel):
        attrs, name = RELATIONS[rel]
        rows = {}
        for entity in chance.sample(ENTITIES, chance.randint(1, 2)):
            for _ in range(chance.randint(1, 4)):
                values = {it: chance.randint(0, 2) if kind == "int" else chance.choice(TEXTS[:chance.choice([1, 2, 6])]) for it, kind in attrs.items()}
                rows[f"{name}{len(rows)}"] = (entity, values)
        return rows

    def pairs(self, rel, chance=None):
        """The pairs of different rows of one entity; with a chance mostly those whose first row stands first."""
        rows = self.rows[rel]
        found = [(x, y) for x in rows for y in rows if x != y and rows[x][0] == rows[y][0]]
        ordered = [it for it in found if [*rows].index(it[0]) < [*rows].index(it[1])]
        return ordered if chance and chance.random() < 0.8 else found

    def difference(self, copy, target, source):
        """The values at the first place where two rows differ, or None."""
        to, places, of, sources = COPIES[copy]
        for place, other in zip(places, sources):
            values = self.rows[to][target][1][place], self.rows[of][source][1][other]
            if values[0] != values[1]:
                return values
        return None

    def write(self, folder, name, chance=None):
        """Writes the specification as the document of this name, with tables after that; with a chance some pairs stand in a table."""
        text, listed = "", {it: [] for it in RELATIONS}
        for number, (rel, (attrs, _)) in enumerate(RELATIONS.items()):
            kinds = ", ".join(f"{spelled(it)}: {kind}" for it, kind in attrs.items())
            text += f'relation {spelled(rel)} from "{name}.{number}.csv" row "id" entity "e id" ({kinds});\n'
            table = cells(["id", "e id", *attrs]) + "".join(cells([row, e, *values.values()]) for row, (e, values) in self.rows[rel].items())
            (folder / f"{name}.{number}.csv").write_text(table)
        for rel, attr, x, y in self.given:
            if chance and chance.random() < 0.5:
                listed[rel].append((attr, x, y))
            else:
                text += f"order {spelled(rel)}.{spelled(attr)}: {spelled(x)} < {spelled(y)};\n"
        for number, (rel, pairs) in enumerate(listed.items()):
            if pairs:
                text += f'orders {spelled(rel)} from "{name}.o{number}.csv";\n'
                (folder / f"{name}.o{number}.csv").write_text(cells(["attribute", "earlier", "later"]) + "".join(map(cells, pairs)))
        for rule, form in self.rules.items():
            text += f"rule {spelled(rule)} {' '.join(tokens_of(form)[0])};\n"
        for copy, (target, places, source, others) in COPIES.items():
            named = [", ".join(map(spelled, it)) for it in (places, others)]
            text += f'copy {copy} into {spelled(target)} ({named[0]}) from {spelled(source)} ({named[1]}) using "{name}.{copy}.csv";\n'
            (folder / f"{name}.{copy}.csv").write_text(cells(["target", "source"]) + "".join(map(cells, self.mapped[copy].items())))
        (folder / name).write_text(text)


# --- entries ---


def drawn_entry(spec, chance):
    kind = chance.choice([ordering] * 3 + [added_rule] * 2 + [withdrawn_rule, copying, copying, question, question, question])
    return kind(spec, chance)


def mostly(chance, names, others):
    return chance.choice(names) if chance.random() < 0.93 else chance.choice(others)


def ordering(spec, chance):
    add = chance.random() < 0.6
    if not add and spec.given and chance.random() < 0.7:
        rel, attr, x, y = chance.choice(spec.given)
    else:
        rel = mostly(chance, [*RELATIONS], ["S", "k"])
        there = rel if rel in RELATIONS else "R"
        attr = mostly(chance, [*RELATIONS[there][0]], ["id", "z"])
        pairs = spec.pairs(there, chance) or [("none", "none")]
        rows = [*spec.rows[there]]
        x, y = chance.choice(pairs) if chance.random() < 0.85 else (mostly(chance, rows, ["r 9"]), mostly(chance, rows, ["s9", "no"]))
    tokens = ["add" if add else "withdraw", "order", spelled(rel), ".", spelled(attr), ":", spelled(x), "<", spelled(y), ";"]
    pair = (rel, attr, x, y)

    def change(it):
        it.given = [one for one in it.given if one != pair] + ([pair] if add else [])

    return Entry(tokens, fault_of_order(spec, add, *pair), change)


def fault_of_order(spec, add, rel, attr, x, y):
    if rel not in RELATIONS:
        return Fault("E03", 2, None)
    if attr not in RELATIONS[rel][0]:
        return Fault("E03", 4, None)
    rows = spec.rows[rel]
    for place, row in ((6, x), (8, y)):
        if row not in rows:
            return Fault("E10", place, None)
    if x == y or rows[x][0] != rows[y][0]:
        return Fault("E11", 6, None)
    return None if add or (rel, attr, x, y) in spec.given else Fault("E17", 0, None)


def added_rule(spec, chance):
    code, form = chance.choice(RULES[:6]) if chance.random() < 0.7 else chance.choice(RULES)
    name = chance.choice([*spec.rules, *(f"rule {it}" for it in range(5)), 'the "rule"'])
    tokens, place = tokens_of(form)
    place = None if place is None else place + 3
    fault = Fault(code, 0 if place is None else place, None) if code else None
    if name in spec.rules and code != "E03":
        fault = Fault("E04", 2, None)
    return Entry(["add", "rule", spelled(name), *tokens, ";"], fault, lambda it: it.rules.__setitem__(name, form))


def withdrawn_rule(spec, chance):
    name = chance.choice([*spec.rules, "rule 1", "k"])
    fault = None if name in spec.rules else Fault("E17", 0, None)
    return Entry(["withdraw", "rule", spelled(name), ";"], fault, lambda it: it.rules.__delitem__(name))


def copying(spec, chance):
    add = chance.random() < 0.6
    copy = mostly(chance, [*COPIES], ["rule 1", "none"])
    to, _, of, _ = COPIES.get(copy, COPIES["k"])
    target, source = mostly(chance, [*spec.rows[to]], ["r0", "s9"]), mostly(chance, [*spec.rows[of]], ["s 0", "r9"])
    there = spec.mapped.get(copy)
    if not add and there and chance.random() < 0.8:
        target, source = chance.choice([*there.items()])
    tokens = ["add" if add else "withdraw", "copy", spelled(copy), ":", spelled(target), "from", spelled(source), ";"]

    def change(it):
        if add:
            it.mapped[copy][target] = source
        else:
            del it.mapped[copy][target]

    return Entry(tokens, fault_of_copy(spec, add, copy, target, source), change)


def fault_of_copy(spec, add, copy, target, source):
    if copy not in COPIES:
        return Fault("E03", 2, None)
    to, _, of, _ = COPIES[copy]
    if target not in spec.rows[to]:
        return Fault("E10", 4, None)
    if source not in spec.rows[of]:
        return Fault("E10", 6, None)
    there = spec.mapped[copy].get(target)
    if not add:
        return None if there == source else Fault("E17", 0, None)
    if there is not None:
        return Fault("E12", 4, None)
    values = spec.difference(copy, target, source)
    return Fault("E13", 4, " ".join(map(constant, values))) if values else None


def question(spec, chance):
    rel = chance.choice([*RELATIONS])
    pairs = spec.pairs(rel, chance)
    if pairs and chance.random() < 0.4:
        asked = [(chance.choice([*RELATIONS[rel][0]]), *chance.choice(pairs)) for _ in range(chance.randint(1, 3))]
        parts = " and ".join(f"{spelled(rel)} . {spelled(attr)} : {spelled(x)} < {spelled(y)}" for attr, x, y in asked)
        tokens = re.findall(r'"(?:[^"]|"")*"|\S+', "ask certain " + parts + " ;")
        fault = None
        if chance.random() < 0.1:
            place = chance.choice([it for it, token in enumerate(tokens) if token == "<"])
            tokens[place + 1], fault = tokens[place - 1], Fault("E11", place - 1, None)
        return Entry(tokens, fault, None)
    code, form = chance.choice(QUESTIONS[:8]) if chance.random() < 0.75 else chance.choice(QUESTIONS)
    tokens, place = tokens_of(form)
    fault = Fault(code, 0 if place is None else place + 1, None) if code else None
    return Entry(["ask", *tokens, ";"], fault, None)


def laid_out(entries, chance):
    """The text of entries, and of each the lines of its tokens."""
    text, lines = chance.choice(["", "", "\n", "# a script\n", "\ufeff"]), []
    for entry in entries:
        lines.append([])
        for place, token in enumerate(entry.tokens):
            lines[-1].append(text.count("\n") + 1)
            # (two words want something between them)
            text += token + chance.choice([" "] * 8 + ["\n", " # more\n ", "\t" if place else " "])
        text += chance.choice(["\n", "\n", "", "# end\n"])
    return text, lines


# --- what is printed ---


def run(folder, *words):
    """The status and the text of the program."""
    done = subprocess.run([PROGRAM, *words], cwd=folder, capture_output=True, timeout=120)
    return done.returncode, done.stdout.decode()


def refusal(fault, lines):
    """The line that is told of a refused entry, whose tokens stand at these lines."""
    code, _, table = fault.code.partition(" ")
    if code == "limit":
        return f"refused {fault.code} {lines[0]};"
    if table:
        return f"refused {fault.code};"
    return f"refused {code} script {lines[fault.place]}{' ' + fault.more if fault.more else ''};"


def claims(report):
    """What a report says: the kind of its verdict, and the values or answers that it names."""
    lines = report.splitlines()
    kind = re.match(r"verdict ((?:not )?\w+)", lines[1])[1]
    return kind, [it for it in lines if it.startswith(("current ", "answer "))]


def brief(report):
    """The brief text of a report; one that is not decided is whole."""
    if claims(report)[0] == "undecided":
        return report
    front = report.replace("currency report 2;", "currency brief 2;", 1).partition("log;\n")
    return front[0] + ("end;\n" if front[1] else "")


class Look:
    """A script over a specification, and what is printed of it."""

    def __init__(self, folder, spec, entries, lines, budget):
        self.folder, self.entries, self.lines, self.budget = folder, entries, lines, budget
        # (of each entry the specification before it; what was told; the places of replies that were kept)
        self.specs, self.seen, self.known, self.reused = [], collections.Counter(), {}, set()
        for entry in entries:
            self.specs.append(spec)
            if entry.change and not entry.fault:
                spec = changed(spec, entry)

    def told(self, place, command, report=""):
        """What a command says over the specification before an entry, where the question is the entry's."""
        if (place, command, report) not in self.known:
            self.specs[place].write(self.folder, "now")
            (self.folder / "question").write_text(" ".join(self.entries[place].tokens[1:]) + "\n")
            (self.folder / "report").write_text(report)
            self.known[place, command, report] = run(self.folder, command, "now", "question", *(["report"] if report else []))
        return self.known[place, command, report]

    def is_accepted(self, place, report):
        return self.told(place, "verify", report) == (0, f"accepted {claims(report)[0]}\n")

    def wrong(self, status, text):
        """A cause why a text is wrong, if it is."""
        if not text.startswith("currency session 1;\n") or not text.endswith("\nend;\n"):
            return "the first or the last line"
        kept, open_ones, rest = [], 0, text.removeprefix("currency session 1;\n")
        for place, (entry, lines) in enumerate(zip(self.entries, self.lines)):
            if entry.fault or entry.change:
                wanted = refusal(entry.fault, lines) if entry.fault else f"edit {lines[0]} accepted;"
                line, _, rest = rest.partition("\n")
                self.seen[entry.fault.code if entry.fault else "accepted"] += 1
                if line != wanted:
                    return f"{' '.join(entry.tokens)}: {line}, due is {wanted}"
                continue
            front, end, rest = rest.partition("\nend;\n")
            line, _, report = (front + end).partition("\n")
            if line != f"reply {lines[0]};" or not report.startswith("currency report 2;\nverdict "):
                return f"{' '.join(entry.tokens)}: {line}"
            cause = self.wrong_reply(place, report, kept)
            if cause:
                return f"{' '.join(entry.tokens)}: {cause}\n{report}"
            open_ones += claims(report)[0] == "undecided"
        if rest != "end;\n":
            return f"more: {rest}"
        return None if status == (3 if open_ones else 0) else f"status {status}"

    def wrong_reply(self, place, report, kept):
        """The same of a reply, where these reports are kept, the oldest first; a new one is kept."""
        kind, items = claims(report)
        self.seen[kind] += 1
        if not self.is_accepted(place, report):
            return "verify does not accept it over the specification as it is then"
        shown = next((it for it in kept if self.is_accepted(place, it)), None)
        if shown is not None:
            self.seen["kept"] += 1
            self.reused.add(place)
            return None if report == shown else f"a kept report shows its verdict:\n{shown}"
        said = self.told(place, "ask")[1]
        if kind == "undecided":
            return None if self.budget else "no budget was spent"
        kept.append(report)
        del kept[:-KEPT]
        if claims(said)[0] != "undecided" and claims(said) != (kind, items):
            return f"ask says otherwise:\n{said}"
        return None


def changed(spec, entry):
    other = object.__new__(Spec)
    other.rows, other.given, other.rules = spec.rows, [*spec.given], dict(spec.rules)
    other.mapped = {copy: dict(rows) for copy, rows in spec.mapped.items()}
    entry.change(other)
    return other


def drawn(folder, chance, budget):
    """A random specification and a script over it, written into a folder; with the script's text."""
    spec = Spec(chance)
    spec.write(folder, "first", chance)
    for name, text in TABLES.items():
        (folder / name).write_text(text)
    pairs = spec.pairs("R")
    asked = [(chance.choice(["a", "b b"]), *it) for it in chance.sample(pairs, min(2, len(pairs)))]
    (folder / "asked.csv").write_text(cells(["attribute", "earlier", "later"]) + "".join(map(cells, asked)))
    entries, now = [], spec
    for _ in range(chance.randint(1, 14)):
        entry = drawn_entry(now, chance)
        # (a table without a pair is refused too)
        if not asked and quoted("asked.csv") in entry.tokens:
            entry = entry._replace(fault=Fault("E02", 1, None))
        # (a question is asked again, often)
        again = [it for it in entries if not it.change and not it.fault]
        entries.append(chance.choice(again) if again and chance.random() < 0.25 else entry)
        if entries[-1].change and not entries[-1].fault:
            now = changed(now, entries[-1])
    text, lines = laid_out(entries, chance)
    (folder / "script").write_text(text)
    return text, Look(folder, spec, entries, lines, budget)


def look_at_refused(folder, text, look, chance):
    """What is no script, or names a table that is not there, is refused as a whole. Yields causes why it is not."""
    count = text.count("\n")
    cases = [
        (text.encode() + b"\nask consistent", (5, f"error E02 refused {count + 2}\n")),
        (text.encode() + b"\n\nwithdraw rule k", (5, f"error E02 refused {count + 3}\n")),
        (text.encode() + b"\nask consistent;\n\xff;", (5, f"error E01 refused {count + 3}\n")),
        (text.encode() + b"\nconsistent;", (5, f"error E02 refused {count + 2}\n")),
        (text.encode() + b'\nask certain orders R from "gone.csv";', (7, "read fault gone.csv\n")),
    ]
    raw, wanted = chance.choice(cases)
    (folder / "refused").write_bytes(raw)
    look.seen["refused scripts"] += 1
    said = run(folder, "session", "first", "refused")
    return None if said == wanted else f"{said}, due is {wanted}"


# --- broken texts ---


def broken_lines(lines, chance):
    """Yields lines of which one of an edit is broken, each with a name."""
    def with_line(place, line):
        return [*lines[:place], *([line] if line else []), *lines[place + 1 :]]

    done, refused = ([it for it, line in enumerate(lines) if line.startswith(word)] for word in ("edit ", "refused "))
    if done:
        place = chance.choice(done)
        yield "an edit that is refused", with_line(place, lines[place].replace("edit", "refused E17 script").replace(" accepted", ""))
        yield "an edit of another line", with_line(place, lines[place].replace(" accepted", "0 accepted"))
        yield "an edit of which nothing is told", with_line(place, None)
    if refused:
        place = chance.choice(refused)
        yield "a refusal that is accepted", with_line(place, f"edit {lines[place].split()[-1][:-1]} accepted;\n")
        turned = {"E0": "E1", "E1": "E0", "limit ": "limit 1"}
        yield "another code", with_line(place, re.sub("E0|E1|limit ", lambda it: turned[it[0]], lines[place], count=1))
        yield "a refusal of another line", with_line(place, lines[place].replace(";", "0;"))


def broken_reports(report, place, reports, look, chance):
    """Yields reports in the place of the one that is the reply to an entry, each with a name."""
    others = [it for it in reports if claims(it) != claims(report) and claims(it)[0] != "undecided"]
    if others:
        yield "the report of another question", chance.choice(others)
    if "log;\n" in report:
        yield "a report without its log", brief(report).replace("brief", "report", 1) if "undecided" not in report else "end;\n"
    ranked = re.search(r"ranking .*: (.*) < (.*);", report)
    if ranked:
        turned = report.replace(ranked[0], ranked[0].replace(f"{ranked[1]} < {ranked[2]}", f"{ranked[2]} < {ranked[1]}"), 1)
        if not look.is_accepted(place, turned):
            yield "a completion that is turned", turned
    new = look.told(place, "ask")[1]
    if place in look.reused and new != report:
        yield "a new report in place of a kept one", new


def broken(text, look, chance):
    """Yields a right text that is broken one way after another, each with a name."""
    lines = text.splitlines(keepends=True)
    for name, other in broken_lines(lines, chance):
        yield name, "".join(other)
    places = [it for it, entry in enumerate(look.entries) if not entry.change and not entry.fault]
    reports = [it[1] for it in re.finditer(r"reply \d+;\n((?:.*\n)*?end;\n)", text)]
    if places:
        number = chance.randrange(len(places))
        begins = [it.end() for it in re.finditer(r"^reply \d+;\n", text, re.M)]
        at, report = begins[number], reports[number]
        for name, other in broken_reports(report, places[number], reports, look, chance):
            yield name, text[:at] + other + text[at + len(report) :]


def look_at_broken(said, look, chance, unseen):
    status, text = said
    cases = [("a status", 3 - status, text), *((name, status, other) for name, other in broken(text, look, chance))]
    seen = look.seen
    for name, status, text in cases:
        look.seen = collections.Counter()
        cause = look.wrong(status, text)
        unseen[name] += cause is None
        if cause is None:
            print(f"NOT SEEN: {name}\n{text}")
    look.seen = seen + collections.Counter(broken=len(cases))


def main():
    parser = argparse.ArgumentParser(description=__doc__, formatter_class=argparse.RawDescriptionHelpFormatter)
    parser.add_argument("--count", type=int, default=200)
    parser.add_argument("--seed", type=int, default=1)
    parser.add_argument("--broken", action="store_true")
    words = parser.parse_args()
    if not os.access(PROGRAM, os.X_OK):
        subprocess.run([ROOT / "currency"], stdout=subprocess.DEVNULL, check=False)
    if not os.access(PROGRAM, os.X_OK):
        sys.exit("checks/session.py: there is no program, and ./currency built none")
    chance, seen, unseen, wrong = random.Random(words.seed), collections.Counter(), collections.Counter(), 0
    for turn in range(words.count):
        with tempfile.TemporaryDirectory() as name:
            folder = pathlib.Path(name)
            budget = turn % 10 == 9
            more = ["--budget", "1"] if budget else []
            text, look = drawn(folder, chance, budget)
            said = run(folder, "session", "first", "script", *more)
            cause = look.wrong(*said)
            told = run(folder, "session", "first", "script", "--brief", *more)
            if not cause and told != (said[0], re.sub(r"currency report 2;\n(?:.*\n)*?end;\n", lambda it: brief(it[0]), said[1])):
                cause = f"the brief text is another:\n{told[1]}"
            cause = cause or look_at_refused(folder, text, look, chance)
            if cause:
                wrong += 1
                print(f"--- {turn}: {cause}\n{(folder / 'first').read_text()}--- the script\n{text}--- status {said[0]}\n{said[1]}")
            elif words.broken:
                look_at_broken(said, look, chance, unseen)
            seen += look.seen
    print(", ".join(f"{count} {kind}" for kind, count in sorted(seen.items())) + f", {wrong} wrong")
    if words.broken:
        print("not seen as broken: " + (", ".join(f"{count} of {name}" for name, count in unseen.items() if count) or "none"))
    sys.exit(1 if wrong or +unseen else 0)


if __name__ == "__main__":
    main()
