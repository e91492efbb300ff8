#!/usr/bin/env python3
"""Looks at the pages that `currency page` makes: of the examples, and of thirty generated specifications.

The generated ones have names and values with quotes, tags, line ends and the like, entities of 64 rows, 120 entities, two
relations with copies, and given pairs that contradict each other. Each page is read as XML, so each tag is closed and each
text escaped. What stands on it is compared with what the program says here once more, read by this script's own means: each
certain value of `golden` stands in the cell of its entity and attribute, and each other cell has the values that are possible;
the items of `explain`, and what may be without each; the pairs of rows, of which none follows from the others, and which give
those of `forced` by transitivity and no more; the conflicts, with their circles. Pages of documents that are refused name the
line at fault. No page asks for anything but itself.

With `--browser` headless Chromium opens five pages, at two widths, light and dark: nothing is logged to its console, the
filter leaves the rows that it should, nothing is wider than the page, and one of 10,000 entities is there within two seconds.
`--pictures FOLDER` keeps what it looks like. With `--broken` each line of BROKEN below is changed in a copy of the tools, one
at a time, and the pages of that copy have to be found wrong.

Usage: checks/page.py [--count N] [--seed N] [--browser] [--pictures FOLDER] [--broken]. The program is the one that the gate
left, or that `./currency` built (crates/currency/out/currency). Where jinja2 is missing nothing is looked at: a line says so,
and the exit status is 0. It is 1 where something is wrong."""
import argparse
import collections
import csv
import html
import io
import json
import os
import pathlib
import random
import re
import shutil
import subprocess
import sys
import tempfile
import urllib.parse
import xml.etree.ElementTree

ROOT = pathlib.Path(__file__).resolve().parent.parent
PROGRAM = ROOT / "crates" / "currency" / "out" / "currency"
NAME = r'([A-Za-z0-9_]+|"(?:[^"]|"")*")'
CONSTANT = r'(-?[0-9]+|"(?:[^"]|"")*")'
CONFLICT = re.compile(rf'(?:^conflict {NAME} of {NAME};\n)+(?:^item (?:[^";]|"[^"]*")*;\n)+', re.MULTILINE)
ITEM = re.compile(r'^item ((?:[^";]|"[^"]*")*);$', re.MULTILINE)

ODD = (
    ["<b>", "a & b", "O'Neil", 'say "hi"', "</td>", "]]>", "&amp;", "x<y", "{{ 1 }}", " lead", "trail ", "two\nlines"]
    + ["tab\there", "é ü", "漢字", "مرحبا", "#!", "if", "orders", "%s", "false", "<!--", "<script>alert(1)</script>"]
    + ["a\r\nb", "\x01", "\\u0041", '"', "a,b", "a;b", "plain", "</style>", "a  b", "", "{% endif %}", "-7", "x" * 70]
)
CITIES = ["Oslo", "Bergen", "Lund", "Malmo", "Gent"]
RISING = "(s, t): if s.{0} < t.{0} then s before t in {0}"
FOLLOWS = "(s, t): if s before t in {} then s before t in {}"

# of each example its specification, and its relations with their attributes
SHOP = {"name": "text", "city": "text", "level": "text", "points": "int", "card": "text"}
EXAMPLES = {
    "circle": ("s", {"R": {"a": "int"}}),
    "copies": ("s", {"Staff": {"name": "text", "salary": "int"}, "Badge": {"name": "text"}}),
    "first": ("s", {"R": {"a": "int"}}),
    "merged": ("s", {"Customer": {"city": "text", "plan": "text", "since": "int"}}),
    "rules": ("s", {"Staff": {"name": "text", "status": "text", "salary": "int"}}),
    "staff": ("s", {"Staff": {"name": "text", "salary": "int"}}),
    "guide": ("known", {"Customer": SHOP}),
    "traps": ("number", {"Shop": {"city": "text", "size": "int"}}),
}
# the pairs on circles in the examples: the entity, the attribute and the rows
CIRCLES = {
    "circle": {("x", "a", "r1", "r2"), ("x", "a", "r2", "r3"), ("x", "a", "r3", "r1")},
    "merged": {("anna", "city", "c1", "c2"), ("anna", "city", "c2", "c1")}
    | {("carla", "plan", "c5", "c6"), ("carla", "plan", "c6", "c5")},
}
# documents that the program refuses: its status, and the file, the line and its text that have to stand on the page
TABLE = 'relation R from "r.csv" row id entity eid (a: int);\n'
MANY = "id,eid,a\n" + "".join(f"r{at},x,1\n" for at in range(65))
REFUSED = {
    "a name of nothing": (5, {"s": TABLE + "# <i>\norder R.b: x < y;\n", "r.csv": "id,eid,a\n"}, ["s", "3", "order R.b: x < y;"]),
    "a text that ends": (5, {"s": TABLE + "order R.a", "r.csv": "id,eid,a\n"}, ["s", "2", "order R.a"]),
    "beyond the end": (5, {"s": TABLE + "order R.a\n", "r.csv": "id,eid,a\n"}, ["s", "3", "empty"]),
    "no integer": (5, {"s": TABLE, "r.csv": 'id,eid,a\n\n"r\n1",x,1\n\nr2,"<x>",1.5\nr3,x,2\n'}, ["r.csv", "3", 'r2,"<x>",1.5']),
    "a copy that differs": (
        5,
        {"s": TABLE + "copy c into R (a) from R (a):\n  r1 from r2;\n", "r.csv": "id,eid,a\nr1,x,1\nr2,x,2\n"},
        ["s", "3", "  r1 from r2;"],
    ),
    "too many rows": (6, {"s": TABLE, "r.csv": MANY}, ["s", "1", TABLE[:-1]]),
    "no table": (7, {"s": TABLE}, ["s", "1", TABLE[:-1]]),
}
# what `--broken` changes, each in a file of the tools: what stands there, and what in its place
BROKEN = """
page.py: else (False, [value]) -> else (False, [value + " "])
page.py: if it.attribute in opened else -> if it.attribute == opened else
page.py: if not after[earlier] & before[later]] -> ]
page.py: [cell][pair] = "given" if is_given else -> [cell][pair] =
page.py: (cell, pair) in copied and -> False and
page.py: and it not in is_earlier -> and True
page.py: first = said[-1] if -> first = None if
page.py: for left_out in items: -> for left_out in items[:1]:
page.py: "autoescape": True -> "autoescape": False
page.py: "finalize": shown -> "finalize": str
page.py: (file + 1) * size - begin] -> (file + 1) * size]
page.py: return items and [self -> return items and [] and [self
drawing.py: return not drawn -> return True
drawing.py: pair in self.circle, -> False,
pieces.html: chip(it.without) -> chip("")
pieces.html: #line-{{ at.line }} -> #line-0
pieces.html: it.row in diagram.current -> it.row in diagram.rows
pieces.html: where.line }} -> where.line + 1 }}
page.html: {{ value(place["values"][0]) }}</td> -> {{ value(place["values"][0] ~ " ") }}</td>
page.html: in it.entities | batch(ROWS) -> in [it.entities[:ROWS]]
page.html: {{ chips(place["values"]) }}</td> -> {{ chips(place["values"][1:]) }}</td>
page.html: counted(counts.certain, -> counted(counts.record,
page.html: <th scope="row"> -> <th>
page.html: entity.open or -> entity.places | length or
page.html: href="data:," -> href="page.ico"
page.css: color-scheme: light dark; -> background: url(paper.png);
"""

# a specification in a folder: of each relation its attributes with their kinds, of each rule its text, the given pairs, and
# the whole text without copies
Case = collections.namedtuple("Case", "name folder relations rules given plain")


class Wrong(Exception):
    """Something is wrong, where no more is wanted."""


class Checks:
    """What was looked at, of pages that this script makes, and how much of it was wrong."""

    def __init__(self, script, is_broken=False):
        self.script, self.is_broken, self.seen, self.wrong = script, is_broken, collections.Counter(), 0

    def see(self, kind, is_right, what):
        self.seen[kind] += 1
        if not is_right and self.is_broken:
            raise Wrong(kind)
        if not is_right:
            self.wrong += 1
            print(f"wrong {kind}: {what}"[:1500])


# --- specifications ---


def quoted(text):
    return '"' + text.replace('"', '""') + '"'


def spelled(name):
    is_word = re.fullmatch("[A-Za-z0-9_]+", name) and name not in ("if", "false", "orders")
    return name if is_word else quoted(name)


def name_of(text):
    return text[1:-1].replace('""', '"') if text[0] == '"' else text


class Made:
    """A generated specification, statement by statement."""

    def __init__(self, folder, chance):
        self.folder, self.chance, self.said, self.plain = folder, chance, [], []
        self.relations, self.rows, self.rules, self.given = {}, {}, {}, set()

    def say(self, text, is_copy=False):
        self.said.append(text + ";\n")
        self.plain += [] if is_copy else [text + ";\n"]

    def relation(self, name, sizes, words=CITIES):
        """A relation with a text and an int, and entities of so many rows; where the texts are odd, so are the names."""
        chance, document, odd = self.chance, f"t{len(self.relations)}.csv", words is ODD
        row, entity, text, number = chance.sample([it for it in ODD if it], 4) if odd else ("id", "eid", "city", "since")
        entities = chance.sample(ODD, len(sizes)) if odd else [f"{name}{at}" for at in range(len(sizes))]
        names = chance.sample(ODD, sum(sizes)) if odd else [f"{name.lower()}{at}" for at in range(sum(sizes))]
        owners = [it for it, size in zip(entities, sizes) for _ in range(size)]
        found = [(name, it, chance.choice(words), chance.randint(-2, 9)) for name, it in zip(names, owners)]
        chance.shuffle(found)
        self.relations[name], self.rows[name] = {text: "text", number: "int"}, found
        table(self.folder / document, [[row, entity, text, number], *found])
        declared = f"({spelled(text)}: text, {spelled(number)}: int)"
        self.say(f"relation {spelled(name)} from {quoted(document)} row {spelled(row)} entity {spelled(entity)} {declared}")

    def rule(self, name, relation, text):
        self.rules[name] = f"rule {spelled(name)} on {spelled(relation)} {text}"
        self.say(self.rules[name])

    def give(self, relation, count, is_free=False):
        """So many given pairs, of one hidden order or of any."""
        rows = self.rows[relation]
        place = {row[0]: self.chance.random() for row in rows}
        pairs = [(x[0], y[0]) for x in rows for y in rows if x[1] == y[1] and x[0] != y[0]]
        for pair in self.chance.sample(pairs, min(count, len(pairs))):
            self.order(relation, *(pair if is_free else sorted(pair, key=place.get)))

    def chain(self, relation):
        """Given pairs of each row of an entity and the next one of its table."""
        for entity in {row[1]: None for row in self.rows[relation]}:
            names = [row[0] for row in self.rows[relation] if row[1] == entity]
            for pair in zip(names, names[1:]):
                self.order(relation, *pair)

    def order(self, relation, earlier, later):
        attribute = next(iter(self.relations[relation]))
        self.given.add((relation, attribute, earlier, later))
        self.say(f"order {spelled(relation)}.{spelled(attribute)}: {spelled(earlier)} < {spelled(later)}")

    def copies(self, name, target, source):
        """Rows of the target as copies of rows of the source with the same text."""
        mapped = []
        for row in self.rows[target]:
            fitting = [it[0] for it in self.rows[source] if it[2] == row[2]]
            if fitting and self.chance.random() < 0.8:
                mapped.append(f"{spelled(row[0])} from {spelled(self.chance.choice(fitting))}")
        into, out = (spelled(next(iter(self.relations[it]))) for it in (target, source))
        said = f"copy {spelled(name)} into {spelled(target)} ({into}) from {spelled(source)} ({out})"
        if mapped:
            self.say(f"{said}: {', '.join(mapped)}", True)

    def case(self, name):
        write(self.folder / "s", "".join(self.said))
        return Case(name, self.folder, self.relations, self.rules, self.given, "".join(self.plain))


def write(path, text):
    path.write_bytes(text.encode())


def table(path, records):
    with open(path, "w", newline="", encoding="utf-8") as out:
        csv.writer(out, lineterminator="\n").writerows(records)


def made(number, folder, chance):
    """The generated specification of this number."""
    it = Made(folder, chance)
    if number < 12:
        first, second, up, same = chance.sample(ODD, 4)
        it.relation(first, [chance.randint(1, 4) for _ in range(chance.randint(1, 4))], ODD)
        it.relation(second, [chance.randint(1, 3)], ODD)
        text, since = map(spelled, it.relations[first])
        it.rule(up, first, RISING.format(since))
        other = quoted(chance.choice(ODD[:9]))
        it.rule(same, first, f'(s, t): if s.{text} = "a  b" and t.{text} = {other} then s before t in {text}')
        it.give(first, chance.randint(0, 2))
        it.give(second, chance.randint(0, 2))
    elif number < 17:
        # (with few towns but one, so that it takes few items to explain the last one)
        it.relation("R", [64, 2, 1], CITIES if number > 12 else ["Oslo"] * 30 + ["Lund"])
        if number == 12:
            it.chain("R")
        else:
            it.give("R", [0, 20, 100, 300][number - 13])
        if number % 2:
            it.rule("up", "R", RISING.format("since"))
    elif number < 25:
        it.relation("R", [4, 2], CITIES[:2])
        it.relation("S", [chance.randint(2, 4), 3], CITIES[:2])
        it.give("R", chance.randint(2, 6))
        it.rule("up", "R", RISING.format("since"))
        it.copies("kept", "S", "R")
        if number % 2:
            it.rule("follow", "S", FOLLOWS.format("city", "since"))
    elif number < 29:
        it.relation("R", [3, 4, 3])
        it.relation("S", [3, 2])
        it.give("R", chance.randint(3, 8), True)
        it.rule("follow", "R", FOLLOWS.format("city", "since"))
        it.copies("kept", "S", "R")
    else:
        it.relation("R", [2] * 120)
        it.rule("up", "R", RISING.format("since"))
    return it.case(f"made {number}")


def example(name, folder):
    """An example, with its specification as `s`."""
    shutil.copytree(ROOT / "examples" / name, folder, dirs_exist_ok=True)
    spec, relations = EXAMPLES[name]
    text = (folder / spec).read_text()
    write(folder / "s", text)
    rules = {it[1]: " ".join(it[0].split()) for it in re.findall(r"^(rule (\w+) [^;]*);$", text, re.MULTILINE)}
    return Case(name, folder, relations, rules, set(), re.sub("^copy .*;\n", "", text, flags=re.MULTILINE))


# --- what the program says ---


def run(folder, *words):
    done = subprocess.run([PROGRAM, *words], cwd=folder, capture_output=True, check=False)
    return done.returncode, done.stdout.decode()


def found(pattern, text):
    return [tuple(map(name_of, it)) for it in re.findall(f"^{pattern};$", text, re.MULTILINE)]


def forced(folder, document):
    pairs = collections.defaultdict(set)
    for relation, attribute, *pair in found(rf"pair {NAME}\.{NAME}: {NAME} < {NAME}", run(folder, "forced", document)[1]):
        pairs[relation, attribute].add(tuple(pair))
    return pairs


class Said:
    """What the program says of a case: the tables of `golden` (none where no history fits), possible values, and known pairs."""

    def __init__(self, case):
        self.case, self.golden, self.possible = case, {}, collections.defaultdict(list)
        for relation in case.relations:
            status, text = run(case.folder, "golden", "--", "s", relation)
            self.golden[relation] = list(csv.reader(io.StringIO(text, newline=""))) if status == 0 else None
        if None in self.golden.values():
            self.golden = None
        write(case.folder / "q", f"same {', '.join(map(spelled, case.relations))};\n")
        text = run(case.folder, "possible", "s", "q", "--brief")[1]
        for relation, attribute, entity, value in found(rf"possible value {NAME}\.{NAME} of {NAME} = {CONSTANT} by \d+", text):
            self.possible[relation, entity, attribute].append(value)
        write(case.folder / "plain", case.plain)
        self.forced, self.plain = forced(case.folder, "s"), forced(case.folder, "plain")

    def records(self, relation):
        """The records of a relation: the entity, its values, and which attributes are open."""
        for entity, *values, opened in self.golden[relation][1:]:
            yield entity, values, set(map(name_of, re.findall(NAME, opened)))

    def why(self, relation, entity, attribute, value):
        """The items of an explanation as they are to stand on the page, each with the row that is last without it; none where the
        budget that the page gives is spent."""
        case = self.case
        kinds = case.relations[relation]
        places = [(value if kinds[it] == "int" else quoted(value)) if it == attribute else "_" for it in kinds]
        write(case.folder / "q", f"answers () where {spelled(relation)}({', '.join([quoted(entity), *places])});\n")
        status, text = run(case.folder, "explain", "s", "q", "1", "--budget", "1000")
        if status == 3:
            return None
        start = re.escape(f"ranking {spelled(relation)}.{spelled(attribute)} of {spelled(entity)}: ")
        ranked = re.compile(rf"^{start}(?:{NAME} < )*{NAME};$", re.MULTILINE)
        ends = [it.start() for it in ITEM.finditer(text)] + [len(text)]
        last, items = None, []
        for begin, end in zip(ends, ends[1:]):
            told = ranked.search(text, begin, end)
            row = name_of(told[2]) if told else last
            last = last if items else row
            items.append((item_text(case, ITEM.match(text, begin)[1]), row))
        return items


def item_text(case, item):
    """What an item is in the words of the specification; of a copied row the end."""
    kind, rest = item.split(" ", 1)
    if kind == "given":
        return f"order {rest}"
    return case.rules[name_of(rest)] if kind == "rule" else re.fullmatch(rf"{NAME}(: .*)", rest, re.DOTALL)[2]


# --- what the page says ---


def shown(text):
    """How a text stands on the page: with signs in place of what XML does not take."""
    return re.sub("[\x00-\x08\x0b-\x1f]", lambda it: chr(ord(it[0]) + 0x2400), text)


def of_class(element, name, tag=None):
    return [it for it in element.iter(tag) if name in it.get("class", "").split()]


def text_of(element):
    return "".join(element.itertext())


def value_of(element):
    """The value that an element shows; what it says is empty is empty."""
    return "" if of_class(element, "blank", "i") else text_of(element)


def read_page(checks, case, *words, status=0, environment=None):
    """Makes a page and reads it, with the files beside it; looks at their links, and at what they ask for."""
    for it in case.folder.glob("page*.html"):
        it.unlink()
    command = [checks.script, "page", "s", *words]
    done = subprocess.run(command, cwd=case.folder, env=environment, capture_output=True, text=True, check=False)
    names = done.stdout.splitlines()
    is_right = done.returncode == status and sorted(names) == sorted(it.name for it in case.folder.glob("page*.html")) != []
    checks.see("pages", is_right, f"{case.name}: status {done.returncode}, {names}, {done.stderr[-900:]}")
    trees = {}
    for name in names:
        try:
            trees[name] = xml.etree.ElementTree.parse(case.folder / name).getroot()
        except xml.etree.ElementTree.ParseError as error:
            checks.see("texts", False, f"{case.name}, {name}: {error}")
            raise
    for name, it in trees.items():
        listed = [urllib.parse.unquote(link.get("href", name)) for link in it.findall(".//nav/ol/li/*")]
        checks.see("lists of files", listed == (names if names[1:] else []), f"{case.name}, {name}: {listed}")
        look_at_links(checks, f"{case.name}, {name}", name, it, trees)
    return list(trees.values())


def look_at_links(checks, what, name, tree, trees):
    ids = {file: [it.get("id") for it in each.iter() if it.get("id")] for file, each in trees.items()}
    checks.see("ids", len(ids[name]) == len(set(ids[name])), what)
    for it in tree.iter():
        for wanted in (it.get(key) for key in ("for", "aria-labelledby") if it.get(key) is not None):
            checks.see("labels", wanted in ids[name], f"{what}: {wanted}")
        for link in (it.get(key) for key in ("href", "src") if it.get(key) not in (None, "data:,")):
            file, _, anchor = link.partition("#")
            file = urllib.parse.unquote(file) or name
            checks.see("links", file in trees and (not anchor or anchor in ids[file]), f"{what}: {link}")
    style = "".join(map(text_of, tree.iter("style")))
    checks.see("pages that ask for nothing", style and "url(" not in style and "@import" not in style, what)


def look_at_values(checks, case, said, trees):
    """Each certain value stands in its cell, and in each other the possible ones."""
    rows, heads = collections.defaultdict(list), {}
    for section in (it for tree in trees for it in of_class(tree, "relation", "section")):
        name = value_of(section.find("h2"))
        for small in section.findall(".//thead/tr/th/small"):
            small.text = ""
        heads[name] = [value_of(it) for it in section.find(".//thead/tr")]
        rows[name] += section.findall(".//tbody/tr")
    checks.see("relations", list(rows) == [shown(it) for it in case.relations], f"{case.name}: {list(rows)}")
    due = [len(it[2]) for name in case.relations for it in said.records(name)]
    fields = sum(len(case.relations[name]) for name in case.relations for _ in said.records(name))
    told = [int(text_of(it).split()[0].replace(",", "")) for it in trees[0].iter("strong")]
    checks.see("sums", told == [fields - sum(due), sum(due)], f"{case.name}: {told}")
    for relation, attributes in case.relations.items():
        due = [*map(shown, [said.golden[relation][0][0], *attributes]), "Open"]
        checks.see("headers", heads[shown(relation)] == due, f"{case.name}: {heads[shown(relation)]}, due is {due}")
        records = list(said.records(relation))
        checks.see("tables", len(rows[shown(relation)]) == len(records), f"{case.name}: {len(rows[shown(relation)])} rows")
        for row, record in zip(rows[shown(relation)], records):
            look_at_row(checks, said, relation, list(row), record, f"{case.name}: {relation}, {record[0]}: {text_of(row)!r}")
            checks.see("marked rows", row.get("data-open") == str(len(record[2])), case.name)


def look_at_row(checks, said, relation, cells, record, what):
    entity, values, opened = record
    attributes = said.case.relations[relation]
    is_whole = cells[0].get("scope") == "row" and len(cells) == len(values) + 2
    checks.see("rows", value_of(cells[0]) == shown(entity) and is_whole, what)
    checks.see("counts", text_of(cells[-1]) == (str(len(opened)) if opened else "–"), what)
    for cell, attribute, value in zip(cells[1:], attributes, values):
        chips = [value_of(it) for it in of_class(cell, "chip", "span")]
        is_open = "open" in cell.get("class").split()
        is_certain = "certain" in cell.get("class").split()
        if attribute in opened:
            due = list(map(shown, said.possible[relation, entity, attribute]))
            checks.see("open values", is_open and not is_certain and chips == due and len(due) > 1, f"{what}, due is {due}")
        else:
            is_right = is_certain and not is_open and not chips and value_of(cell) == shown(value)
            checks.see("certain values", is_right, f"{what}, due is {value}")


def told_pairs(element):
    """The pairs that are told in words: the rows, what the pair stands on, and whether it is on the circle."""
    told = []
    for it in (li for words in of_class(element, "words", "details") for li in words.iter("li")):
        earlier, later = map(value_of, of_class(it, "row", "b"))
        standing = re.search(r", (said by a known order|by rules|by a copy)( \(on the circle\))?$", text_of(it))
        told.append((earlier, later, standing[1], bool(standing[2])))
    return told


def closed(pairs):
    """The pairs that follow from these by transitivity, with themselves: pairs are joined until there is none more."""
    after = collections.defaultdict(set)
    for earlier, later in pairs:
        after[earlier].add(later)
    grows = True
    while grows:
        longer = {row: rows.union(*(after.get(it, ()) for it in rows)) for row, rows in after.items()}
        grows = longer != after
        after.update(longer)
    return {(earlier, later) for earlier, rows in after.items() for later in rows}


def look_at_drawing(checks, what, element, told, values, current, has_dot):
    """The drawing has the told pairs and their rows, with the current ones filled in, where there is a command that draws."""
    pictures = list(element.iter("svg"))
    checks.see("drawings", len(pictures) == (1 if told and has_dot else 0), f"{what}: {len(pictures)} drawings")
    for it in pictures:
        nodes = {text_of(node.find("title")): "current" in node.get("class").split() for node in of_class(it, "node", "g")}
        due = {f"{row}: {values[row]}": row in current for pair in told for row in pair[:2]}
        checks.see("drawn rows", nodes == due, f"{what}: {nodes}, due is {due}")
        kinds = {"said by a known order": "given", "by rules": "rule", "by a copy": "copy"}
        due = collections.Counter(kinds[standing] + (" circle" if is_turning else "") for _, _, standing, is_turning in told)
        edges = collections.Counter(edge.get("class").partition(" ")[2] for edge in of_class(it, "edge", "g"))
        checks.see("drawn pairs", edges == due, f"{what}: {edges}, due is {due}")


def look_at_entities(checks, case, said, tree, has_dot):
    """What stands of each entity, where the values are few enough."""
    articles = of_class(tree, "entity", "article")
    entities = [(relation, record) for relation in case.relations for record in said.records(relation)]
    is_small = sum(len(case.relations[relation]) for relation, _ in entities) <= 100
    checks.see("sections", len(articles) == (len(entities) if is_small else 0), f"{case.name}: {len(articles)}")
    for article, (relation, record) in zip(articles, entities):
        entity, values, opened = record
        checks.see("named sections", value_of(of_class(article.find("h3"), "v")[0]) == shown(entity), f"{case.name}: {entity}")
        sections = of_class(article, "attribute", "section")
        checks.see("attributes of sections", len(sections) == len(values), f"{case.name}: {entity}")
        for section, attribute, value in zip(sections, case.relations[relation], values):
            place = relation, entity, attribute
            look_at_attribute(checks, said, article, section, place, attribute in opened, value, has_dot)


def look_at_attribute(checks, said, article, section, place, is_open, value, has_dot):
    """The order of an entity's rows in an attribute, which may be current, and why its value is certain."""
    relation, entity, attribute = place
    what = f"{said.case.name}: {relation}.{attribute} of {entity}"
    at = 1 + list(said.case.relations[relation]).index(attribute)
    rows = {value_of(row[0]): row[at] for row in of_class(article, "records", "table")[0].findall("tbody/tr")}
    values = {name: value_of(of_class(cell, "v")[0]) for name, cell in rows.items()}
    known = {tuple(map(shown, it)) for it in said.forced[relation, attribute] if shown(it[0]) in rows}
    possible = list(map(shown, said.possible[place]))
    current = {name for name in rows if values[name] in possible and name not in {earlier for earlier, _ in known}}
    marked = {name for name, cell in rows.items() if [it.text for it in of_class(cell, "mark")] == ["○" if is_open else "●"]}
    checks.see("current rows", marked == current, f"{what}: {marked}, due is {current}")
    told = told_pairs(section)
    look_at_order(checks, said, relation, attribute, told, known, what)
    look_at_drawing(checks, what, section, told, values, current, has_dot)
    why = of_class(section, "why", "ul")
    if is_open:
        chips = [value_of(it) for it in of_class(section.find("h4"), "chip")]
        checks.see("open attributes", not why and chips == possible, f"{what}: {chips}")
        return
    checks.see("settled attributes", value_of(of_class(section.find("h4"), "settled")[0]) == shown(value), what)
    items = [(text_of(it.find("code")), value_of(of_class(of_class(it, "without")[0], "chip")[0])) for ul in why for it in ul]
    due = said.why(relation, entity, attribute, value)
    if due is None:
        checks.see("explanations not found", not why and "Why was not found" in text_of(section), what)
        return
    due = [(shown(text), values[shown(row)]) for text, row in due]
    is_right = len(items) == len(due)
    for (text, without), (end, other) in zip(items, due):
        is_right &= text.endswith(end) and without == other != shown(value)
    checks.see("explanations" if due else "values that need no explanation", is_right, f"{what}: {items}, due is {due}")


def look_at_order(checks, said, relation, attribute, told, known, what):
    """The told pairs give the known ones and no more, none follows from the others, and each stands on what is said of it."""
    pairs = [it[:2] for it in told]
    checks.see("orders", closed(pairs) == known and not any(it[3] for it in told), f"{what}: {pairs}, due is {known}")
    needless = [it for it in pairs if it in closed(other for other in pairs if other != it)]
    checks.see("orders with no pair too many", not needless and len(set(pairs)) == len(pairs), f"{what}: {needless}")
    given = {tuple(map(shown, it[2:])) for it in said.case.given if it[:2] == (relation, attribute)}
    plain = {tuple(map(shown, it)) for it in said.plain[relation, attribute]}
    has_rules = any(text.split(" on ")[1].startswith(spelled(relation)) for text in said.case.rules.values())
    for earlier, later, standing, _ in told:
        pair = earlier, later
        is_right = (pair in given) == (standing == "said by a known order")
        is_right &= standing != "by a copy" or pair not in plain
        is_right &= standing != "by rules" or pair in plain or has_rules
        checks.see(f"pairs {standing}", is_right, f"{what}: {pair} {standing}")


def look_at_conflicts(checks, case, tree, has_dot):
    """The groups that contradict what is said of them, their items, and the circles."""
    text = run(case.folder, "conflicts", "s")[1]
    blocks = [it[0] for it in CONFLICT.finditer(text)]
    sections = of_class(tree, "conflict", "section")
    is_right = len(blocks) == len(sections) > 0 and not of_class(tree, "overview")
    checks.see("pages of conflicts", is_right, f"{case.name}: {len(sections)}")
    circles = set()
    for section, block in zip(sections, blocks):
        due = [shown(name) for pair in found(rf"conflict {NAME} of {NAME}", block) for name in pair]
        names = [value_of(it) for it in of_class(section.find("h2"), "v")]
        checks.see("entities of conflicts", names == due, f"{case.name}: {names}, due is {due}")
        due = [shown(item_text(case, it)) for it in ITEM.findall(block)]
        items = [text_of(it.find("code")) for it in section.find("ul")]
        is_right = len(items) == len(due) and all(it.endswith(wanted) for it, wanted in zip(items, due))
        checks.see("conflicts", is_right, f"{case.name}: {items}, due is {due}")
        for it in of_class(section, "attribute", "div"):
            circles |= look_at_circle(checks, case, it, due, has_dot)
    if case.name in CIRCLES:
        checks.see("circles of the examples", circles == CIRCLES[case.name], f"{case.name}: {circles}")


def look_at_circle(checks, case, element, items, has_dot):
    """The pairs on circles are those that go round, and the given ones are items. Returns them."""
    attribute, entity = map(value_of, of_class(element.find("h3"), "v"))
    what, told = f"{case.name}: {attribute} of {entity}", told_pairs(element)
    turning = {it[:2] for it in told if it[3]}
    whole = closed(it[:2] for it in told)
    checks.see("circles", turning == {it[:2] for it in told if it[1::-1] in whole}, f"{what}: {told}")
    for earlier, later, standing, _ in told:
        said = f".{spelled(attribute)}: {spelled(earlier)} < {spelled(later)}"
        is_given = any(it.startswith("order ") and it.endswith(said) for it in items)
        is_right = is_given == (standing == "said by a known order")
        checks.see("pairs of conflicts", is_right, f"{what}: {earlier} < {later} {standing}, {items}")
    labels = (text_of(it).split(": ", 1) for it in element.findall(".//svg/g/title"))
    look_at_drawing(checks, what, element, told, dict(labels), set(), has_dot)
    return {(entity, attribute, *it) for it in turning}


# --- pages ---


def look_at(checks, case, environment=None, has_dot=bool(shutil.which("dot"))):
    """Makes the page of a case and looks at all of it."""
    said, trees = Said(case), read_page(checks, case, environment=environment)
    told = any("no command" in text_of(it) for it in of_class(trees[0], "note"))
    checks.see("pages that say what draws", told == (bool(of_class(trees[0], "words")) and not has_dot), case.name)
    if said.golden is None:
        look_at_conflicts(checks, case, trees[0], has_dot)
    else:
        look_at_values(checks, case, said, trees)
        look_at_entities(checks, case, said, trees[0], has_dot)


def look_at_files(checks, case):
    """The same values in files of three entities each, and the entity that is asked for."""
    said = Said(case)
    asked = next(iter(said.records(next(iter(case.relations)))))[0]
    trees = read_page(checks, case, "--per-file", "3", f"--entity={asked}")
    sizes = [len(tree.findall(".//tr[@data-open]")) for tree in trees]
    checks.see("files", len(sizes) > 1 and set(sizes[:-1]) == {3} and 0 < sizes[-1] <= 3, f"{case.name}: {sizes}")
    look_at_values(checks, case, said, trees)
    names = [value_of(of_class(it.find("h3"), "v")[0]) for it in of_class(trees[0], "entity", "article")]
    due = [shown(asked) for relation in case.relations for record in said.records(relation) if record[0] == asked]
    checks.see("asked entities", names == due, f"{case.name}: {names}, due is {due}")


def look_at_refusals(checks, folder):
    for name, (status, documents, fault) in REFUSED.items():
        with tempfile.TemporaryDirectory(dir=folder) as at:
            case = Case(name, pathlib.Path(at), {}, {}, set(), "")
            for document, content in documents.items():
                write(case.folder / document, content)
            (tree,) = read_page(checks, case, status=status)
            (stop,) = of_class(tree, "stop", "section")
            answer = run(case.folder, "forced", "s")[1]
            is_right = text_of(of_class(stop, "answer")[0]) + "\n" == answer and not of_class(tree, "overview")
            checks.see("stops", is_right, f"{name}: {answer}")
            places = [of_class(stop, "file"), of_class(stop, "number"), of_class(stop, "text") or of_class(stop, "blank")]
            said = [text_of(it[0]) for it in places if it]
            checks.see("faults", said == fault, f"{name}: {said}")
            checks.see("meanings", text_of(of_class(stop, "sentence")[0]) not in ("", answer), name)


def without_dot(folder):
    """An environment with all commands of this one but `dot`."""
    commands = folder / "commands"
    commands.mkdir()
    for at in os.environ["PATH"].split(os.pathsep):
        for it in os.scandir(at) if os.path.isdir(at) else ():
            if it.name != "dot" and not os.path.lexists(commands / it.name):
                os.symlink(it.path, commands / it.name)
    return {**os.environ, "PATH": str(commands)}


# --- in a browser ---


PROBE = """<script>
window.addEventListener("load", () => {
  const spent = document.body.offsetHeight ? performance.now() : null;
  const text = document.getElementById("filter-text"), open = document.getElementById("filter-open");
  const rows = () => Array.from(document.querySelectorAll("tr[data-open]"));
  const left = () => rows().map((it, at) => it.offsetParent === null ? -1 : at).filter((at) => at !== -1);
  const type = (wanted) => { text.value = wanted; text.dispatchEvent(new Event("input")); return left(); };
  const whole = document.documentElement;
  const found = {spent, wide: whole.scrollWidth, inner: window.innerWidth, height: whole.scrollHeight};
  if (text !== null) {
    found.all = left();
    found.text = type(WANTED);
    open.click();
    found.both = left();
    found.open = type("");
    found.said = document.getElementById("filter-said").textContent;
    open.click();
    found.again = left();
  }
  document.body.dataset.found = JSON.stringify(found);
});
</script>"""
SECONDS, ENTITIES = 2, 10_000
WIDTHS = [520, 1180]


class Browser:
    """Headless Chromium, with a profile of its own."""

    def __init__(self, folder):
        self.command = next(filter(None, map(shutil.which, ["chromium", "chromium-browser", "google-chrome"])), None)
        if not self.command:
            sys.exit("checks/page.py: there is no Chromium; without --browser the pages are looked at without it")
        self.profile = folder / "profile"

    def open(self, checks, page, *flags):
        """What is left of the page after its scripts; nothing is to be logged."""
        own = ["--headless", "--no-sandbox", "--disable-gpu", "--hide-scrollbars", "--enable-logging=stderr"]
        command = [self.command, *own, f"--user-data-dir={self.profile}", *flags, page.as_uri()]
        done = subprocess.run(command, capture_output=True, text=True, timeout=300, check=False)
        logged = [it for it in done.stderr.splitlines() if "CONSOLE" in it]
        checks.see("opened pages", done.returncode == 0 and not logged, f"{page}: status {done.returncode}, {logged}")
        return done.stdout

    def probe(self, checks, page, wanted, width):
        """What a script that types and clicks finds on the page."""
        probed = page.with_name("probed.html")
        text = page.read_text(encoding="utf-8").replace("</body>", PROBE.replace("WANTED", json.dumps(wanted)) + "</body>")
        probed.write_text(text, encoding="utf-8")
        told = re.search(' data-found="([^"]*)"', self.open(checks, probed, "--dump-dom", f"--window-size={width},900"))
        return json.loads(html.unescape(told[1]))


def look_in_browser(checks, folder, cases, pictures):
    """Opens pages at two widths, types into the filter, and keeps pictures where they are wanted."""
    browser = Browser(folder)
    for case in cases:
        page = case.folder / "page.html"
        (tree,) = read_page(checks, case)
        rows = tree.findall(".//tr[@data-open]")
        wanted = text_of(rows[0][1])[:3].lower() if rows else ""
        fits = [at for at, row in enumerate(rows) if wanted.strip() in text_of(row).lower()]
        opened = [at for at, row in enumerate(rows) if row.get("data-open") != "0"]
        for width in WIDTHS:
            found = browser.probe(checks, page, wanted, width)
            checks.see("pages that fit", found["wide"] <= found["inner"], f"{case.name}: {found['wide']} of {found['inner']}")
            if rows:
                due = {"all": list(range(len(rows))), "text": fits, "both": [at for at in fits if at in opened], "open": opened}
                due = {**due, "again": due["all"], "said": f"{len(opened):,} of {len(rows):,} here"}
                checks.see("filters", {it: found[it] for it in due} == due, f"{case.name}: {found}, due is {due}")
            for scheme, number in [("light", 1), ("dark", 0)]:
                picture = folder / f"{case.name.replace(' ', '-')}-{width}-{scheme}.png"
                size = f"--window-size={width},{min(found['height'], 6000)}"
                browser.open(checks, page, f"--screenshot={picture}", size, f"--blink-settings=preferredColorScheme={number}")
                checks.see("pictures", picture.is_file() and picture.stat().st_size > 5000, str(picture))
                if pictures:
                    pictures.mkdir(parents=True, exist_ok=True)
                    shutil.copy(picture, pictures)


def look_at_many(checks, folder, chance):
    """A page of 10,000 entities is there within two seconds."""
    place = folder / "many"
    place.mkdir()
    many = Made(place, chance)
    many.relation("R", [2] * ENTITIES)
    many.rule("up", "R", RISING.format("since"))
    case = many.case("many")
    (tree,) = read_page(checks, case)
    checks.see("many rows", len(tree.findall(".//tr[@data-open]")) == ENTITIES, case.name)
    spent = Browser(folder).probe(checks, place / "page.html", "oslo", WIDTHS[1])["spent"] / 1000
    print(f"{ENTITIES:,} entities: there in {spent:.2f} s")
    checks.see("quick pages", spent <= SECONDS, f"{spent:.2f} s")


# --- broken pages ---


def tools(folder):
    """A copy of the script and its tools, with the program as it was built."""
    shutil.copytree(ROOT / "tools", folder / "tools", ignore=shutil.ignore_patterns("__pycache__"))
    shutil.copy(ROOT / "currency", folder)
    (folder / "program").symlink_to(PROGRAM)
    return folder / "currency"


def is_seen(script, place, cases):
    """What is found wrong of the pages of a script, if anything is."""
    checks = Checks(script, True)
    try:
        for case in cases:
            look_at(checks, case)
        look_at(checks, cases[0], without_dot(place), False)
        look_at_files(checks, cases[-1])
        look_at_refusals(checks, place)
    except Exception as found:  # (a page may lack anything)
        return f"{type(found).__name__}, {found}"
    return None


def look_at_broken(folder, cases):
    """Breaks the tools line by line, and looks whether that is seen. Returns whether it always is, and whole tools never are."""
    failed = is_seen(tools(folder / "whole"), folder / "whole", cases)
    if failed:
        print(f"the whole tools are seen as broken: {failed}")
        return False
    unseen = 0
    for number, line in enumerate(BROKEN.strip().splitlines()):
        name, _, edit = line.partition(": ")
        old, new = edit.split(" -> ")
        script = tools(folder / f"broken {number}")
        (path,) = (script.parent / "tools").rglob(name)
        text = path.read_text()
        if text.count(old) != 1:
            sys.exit(f"checks/page.py: {name} has {text.count(old)} times {old}")
        path.write_text(text.replace(old, new))
        found = is_seen(script, script.parent, cases)
        unseen += found is None
        print(f"{'NOT SEEN' if found is None else 'seen: ' + found}: {line}"[:200], flush=True)
    return not unseen


def has_jinja2():
    """Whether some Python of the path has it."""
    pythons = [os.path.join(it, "python3") for it in os.get_exec_path()]
    how = {"stdout": subprocess.DEVNULL, "stderr": subprocess.DEVNULL}
    return any(os.access(it, os.X_OK) and not subprocess.run([it, "-c", "import jinja2"], **how).returncode for it in pythons)


def main():
    parser = argparse.ArgumentParser(description=__doc__, formatter_class=argparse.RawDescriptionHelpFormatter)
    parser.add_argument("--count", type=int, default=30)
    parser.add_argument("--seed", type=int, default=1)
    parser.add_argument("--browser", action="store_true")
    parser.add_argument("--pictures", type=pathlib.Path)
    parser.add_argument("--broken", action="store_true")
    words = parser.parse_args()
    if not has_jinja2():
        print("checks/page.py: SKIPPED: no python3 of the path has jinja2 (Debian's python3-jinja2), so no page is looked at")
        return 0
    if not os.access(PROGRAM, os.X_OK):
        subprocess.run([ROOT / "currency"], stdout=subprocess.DEVNULL, check=False)
    if not os.access(PROGRAM, os.X_OK):
        sys.exit("checks/page.py: there is no program, and ./currency built none")
    with tempfile.TemporaryDirectory() as name:
        folder, chance = pathlib.Path(name), random.Random(words.seed)
        cases = {}
        for at in [*EXAMPLES, *range(words.count)]:
            place = folder / f"case {at}"
            place.mkdir()
            cases[at] = example(at, place) if at in EXAMPLES else made(at % 30, place, chance)
        if words.broken:
            return 0 if look_at_broken(folder, [cases[it] for it in ("copies", "guide", "merged", 0, 29, 17)]) else 1
        checks = Checks(tools(folder / "whole"))
        for case in cases.values():
            look_at(checks, case)
        look_at(checks, cases["rules"], without_dot(folder), False)
        for at in ("traps", *range(17, words.count, 12)):
            look_at_files(checks, cases[at])
        look_at_refusals(checks, folder)
        if words.browser:
            opened = [cases[it] for it in ("staff", "copies", "merged", "guide", 29) if it in cases]
            look_in_browser(checks, folder, opened, words.pictures)
            look_at_many(checks, folder, chance)
    print(", ".join(f"{count} {kind}" for kind, count in checks.seen.items()))
    drawn = "" if shutil.which("dot") else "; no drawings were looked at: there is no command dot (Debian's graphviz)"
    looks = f"{checks.seen['pages']} pages, {sum(checks.seen.values())} looks"
    print(f"checks/page.py: {looks}, {checks.wrong or 'none'} wrong{drawn}")
    return 1 if checks.wrong else 0


if __name__ == "__main__":
    sys.exit(main())
