#!/usr/bin/env python3
"""Draws what the program says of a specification as a page of HTML: which values are current, and why.

It runs `forced`, `golden`, `possible --brief`, `explain` and `conflicts` by the script `currency` beside it, in the folder in
which it is called, and reads their texts as docs/LANGUAGES.md says. It reasons about nothing itself: of the documents it reads
what rows, values and names there are, and what each statement says (`faults.py`). Each value that is explained costs a run of
the program, so all are explained where there are at most 100, and else those of the entity that is asked for.

Up to 10,000 entities stand in one file; more stand in files of 5,000 each, beside one another. Orders of rows are drawn by the
command `dot` of Graphviz, and told in words where it is missing. Where the program stops (a document is refused, a limit or a
budget is reached) the page says where and why, and the exit status is the program's. It is 0 where no history fits, and the
page says which statements contradict each other."""

import argparse
import collections
import csv
import dataclasses
import functools
import io
import os
import pathlib
import re
import subprocess
import sys
import tempfile

sys.dont_write_bytecode = True

try:
    import jinja2
except ImportError:
    jinja2 = None

import faults  # noqa: E402 (stands beside this file, and leaves nothing there)
import hints  # noqa: E402
from diagnose import TOKEN, Fault, quoted  # noqa: E402
from drawing import Diagram, draw, extent, shortened  # noqa: E402
from faults import constant as in_quotes  # noqa: E402
from hints import plain_name as spelled  # noqa: E402
from show import cut  # noqa: E402

HERE = pathlib.Path(__file__).resolve().parent
SCRIPT = HERE.parent / "currency"
# of how many values at most all are explained, and of how many conflicts the circles are drawn where no entity is asked for
EXPLAINED, DRAWN = 100, 40
# how many clauses an explanation may learn where nothing is said, so that none of many rows keeps the page waiting
LEARNED = "1000"
# how many entities one file has, and each where these are too few
IN_ONE, IN_EACH = 10_000, 5_000
# how many lines of the specification are shown, and how many possible values of a place before the others are folded
LINES, CHIPS = 1000, 6
# how many rows of a long table a browser lays out together, and how wide a column of it is at least, in rem
ROWS, NARROWEST = 100, 4.4

# an attribute of an entity of a relation: it has a current value, and its rows have an order
Cell = collections.namedtuple("Cell", "relation attribute entity")


class Stop(Exception):
    """The program ended with another status than was awaited."""

    def __init__(self, words, status, text):
        super().__init__(f"currency {' '.join(words)}: status {status}, {text.splitlines()[0] if text else 'no text'}")
        self.words, self.status, self.text = words, status, text

    @functools.cached_property
    def meaning(self):
        """Where a document is at fault, in which words, and what may help."""
        if self.status == 3:
            return None, "it is not decided; a larger --budget may decide", []
        return hints.meaning(self.words, self.text)

    @property
    def answer(self):
        """What the program says; of what is undecided the question alone."""
        return "\n".join(self.text.splitlines()[: 2 if self.status == 3 else None])


# --- the documents ---


class Told(faults.Specification):
    """A specification that the program takes, with what its statements say. An item of it is a kind and names, as the program
    tells it: a given pair, a rule, or a copied row with the row that it is copied from."""

    def __init__(self, name):
        self.pairs_given, self.rows_of = {}, collections.defaultdict(list)
        super().__init__(name)
        for relation in self.relations.values():
            for row, it in relation.rows.items():
                self.rows_of[relation.name, it.entity].append(row)

    def given(self, parts, by):
        super().given(parts, by)
        attrs, first, second = ([self.named(it) for it in by[use]] for use in ("attr", "first", "second"))
        pairs = [(*attrs, *pair) for pair in zip(first, second)]
        for document in by["document"]:
            pairs = self.records(self.table(document), ("attribute", "earlier", "later"))
        for names in pairs:
            item = "given", by["relation"][0].name, *(it.name for it in names)
            self.pairs_given.setdefault(item, names[1].place)

    def items(self, entities):
        """All rules, and the other items of some entities."""
        given = [it for it in self.pairs_given if (it[1], self.entity(it[1], it[3])) in entities]
        copied = [("copy", it.name, row, it.mapped[row][0]) for it in self.copies.values() for row in it.mapped]
        copied = [it for it in copied if entities & {*self.ends(it)}]
        return [*given, *(("rule", it) for it in self.rules), *copied]

    def entity(self, relation, row):
        return self.relations[relation].rows[row].entity

    def ends(self, item):
        """Whose the copied row is, and whose the row that it is copied from."""
        copy = self.copies[item[1]]
        return [(it.name, self.entity(it.name, row)) for it, row in zip((copy.target, copy.source), item[2:])]

    def places(self, name):
        """The attributes of a copy, each with that from which it is copied."""
        copy = self.copies[name]
        return [(into, list(copy.source.attrs)[out]) for into, _, out in copy.places]

    def value_of(self, relation, row, attribute):
        it = self.relations[relation]
        return str(it.rows[row].values[list(it.attrs).index(attribute)])

    def text_of(self, item):
        """An item in the words of the specification."""
        kind, *names = item
        if kind == "given":
            return "order {}.{}: {} < {}".format(*map(spelled, names))
        if kind == "rule":
            return "rule" + self.rest(self.rules[names[0]].token)
        return f"{self.head_of(names[0])}: {spelled(names[1])} from {spelled(names[2])}"

    def head_of(self, name):
        """A statement of a copy up to its mappings."""
        copy, (into, out) = self.copies[name], map(", ".join, zip(*(map(spelled, it) for it in self.places(name))))
        return f"copy {spelled(name)} into {spelled(copy.target.name)} ({into}) from {spelled(copy.source.name)} ({out})"

    def rest(self, token):
        """A statement from a token on, in one line and without comments."""
        said, end = "", -1
        for it in TOKEN.finditer(self.text.text, token.at):
            text = it[it.lastgroup]
            if text == ";":
                return said
            said += (" " if it.start(it.lastgroup) > end else "") + text
            end = it.end()

    def place(self, item):
        """Where an item stands."""
        if item[0] == "given":
            return self.pairs_given[item]()
        return self.text.where(self.rules[item[1]].token) if item[0] == "rule" else self.copies[item[1]].mapped[item[2]][1]()

    def part(self, folder, entities, items):
        """Writes a specification of the rows of some entities, with some items."""
        said, copied = [], collections.defaultdict(list)
        for number, relation in enumerate(self.relations.values()):
            long = max(relation.attrs, key=len)
            declared = ", ".join(f"{spelled(name)}: {kind}" for name, kind in relation.attrs.items())
            columns = f"row {in_quotes('row ' + long)} entity {in_quotes('entity ' + long)} ({declared})"
            said.append(f'relation {spelled(relation.name)} from "{number}.csv" {columns}')
            rows = [(row, it.entity, *it.values) for row, it in relation.rows.items() if (relation.name, it.entity) in entities]
            with open(folder / f"{number}.csv", "w", newline="", encoding="utf-8") as out:
                csv.writer(out).writerows([["row " + long, "entity " + long, *relation.attrs], *rows])
        for it in items:
            if it[0] == "copy":
                copied[self.head_of(it[1])].append(f"{spelled(it[2])} from {spelled(it[3])}")
            else:
                said.append(self.text_of(it))
        said += [f"{head}: {', '.join(mapped)}" for head, mapped in copied.items()]
        (folder / "s").write_bytes("".join(f"{it};\n" for it in said).encode())


# --- what the program says ---


def clauses(text):
    """The clauses of a text of the program, each as its words, names and constants in order."""
    said = []
    for it in re.finditer(r'"((?:[^"]|"")*)"|-?\w+|;', text, re.ASCII):
        if it[0] == ";":
            yield said
            said = []
        else:
            said.append(it[0] if it[1] is None else it[1].replace('""', '"'))


class Program:
    """Runs of the program, with what is told of them at the end of the page."""

    def __init__(self, spec, budget, folder):
        self.spec, self.folder = spec, pathlib.Path(folder)
        self.budget, self.learned = ["--budget", budget] if budget else [], ["--budget", budget or LEARNED]
        self.commands = collections.Counter()

    def run(self, command, *words, options=(), question=None, at=None, ends=(0,), errors=subprocess.DEVNULL):
        """The status and the text of a run over the specification, or over that of another folder."""
        asked, path = ["QUESTION"] if question else [], str(self.folder / "question")
        if question:
            pathlib.Path(path).write_bytes(f"{question};\n".encode())
        told = [command, self.spec, *asked, *words, *options]
        self.commands[" ".join(told)] += at is None
        words = [SCRIPT, command, *options, "--", "s" if at else self.spec, *([path] if question else []), *words]
        done = subprocess.run(words, cwd=at, stdin=subprocess.DEVNULL, stdout=subprocess.PIPE, stderr=errors)
        if done.returncode not in ends:
            raise Stop(told, done.returncode, done.stdout.decode(errors="replace"))
        return done.returncode, done.stdout.decode()

    def forced(self):
        """The text of the first run: it may build the program, and says at a terminal what a refusal means."""
        return self.run("forced", errors=None)[1]

    def golden(self, relation):
        """The certain values of each entity and the names of its open attributes; none where no history fits."""
        status, text = self.run("golden", relation, options=self.budget, ends=(0, 10))
        records = list(csv.reader(io.StringIO(text, newline="")))[1:]
        return None if status == 10 else {name: (values, *clauses(f"{opened};")) for name, *values, opened in records}

    def possible(self, relations):
        """The possible values of each cell of these relations."""
        found, question = collections.defaultdict(list), f"same {', '.join(map(spelled, relations))}"
        text = self.run("possible", options=["--brief", *self.budget], question=question)[1] if relations else ""
        for word, *said in clauses(text):
            if word == "possible" and said[0] == "value":
                _, relation, attribute, _, entity, value, *_ = said
                found[Cell(relation, attribute, entity)].append(value)
        return found

    def explain(self, relation, cell, value):
        """The items by which a value is the current one, each with the row that is last in a history without it; none where a
        budget is spent."""
        value = in_quotes(value) if relation.attrs[cell.attribute] == "text" else value
        places = ", ".join([in_quotes(cell.entity), *(value if it == cell.attribute else "_" for it in relation.attrs)])
        question = f"answers () where {spelled(relation.name)}({places})"
        status, text = self.run("explain", "1", options=self.learned, question=question, ends=(0, 3))
        if status == 0 and not text.startswith("currency explanation 1;\nexplains 1;\n"):
            raise Stop(["explain", question], status, text)
        return explanation(text, cell) if status == 0 else None

    def conflicts(self):
        """Each group of entities that no history fits, with the items that say so."""
        found, is_named = [], False
        for word, *said in clauses(self.run("conflicts", options=self.budget)[1]):
            if word == "conflict":
                found += [] if is_named else [([], [])]
                found[-1][0].append((said[2], said[0]))
            elif word == "item":
                found[-1][1].append(item_of(said))
            is_named = word == "conflict"
        return found

    def known(self, spec, entities, items):
        """The pairs that `forced` lists of the rows of some entities and some items alone."""
        with tempfile.TemporaryDirectory(dir=self.folder) as name:
            spec.part(pathlib.Path(name), entities, items)
            return known_pairs(self.run("forced", at=name)[1], spec, entities)


def item_of(said):
    """An item without the word `from` that a copied row has."""
    return tuple(said if said[0] != "copy" else [*said[:3], said[4]])


def explanation(text, cell):
    """Reads items with their completions, of which later ones leave out what is as in the first."""
    found, first = [], None
    for word, *said in clauses(text):
        if word == "item":
            found.append((item_of(said), first))
        elif word == "ranking" and said[:4] == [*cell[:2], "of", cell.entity]:
            first = said[-1] if len(found) == 1 else first
            found[-1] = found[-1][0], said[-1]
    return found


def known_pairs(text, spec, entities):
    """The pairs that `forced` lists of these entities, by cell and in their order."""
    found = collections.defaultdict(dict)
    for word, *said in clauses(text):
        if word == "pair":
            relation, attribute, earlier, later = said
            entity = spec.entity(relation, earlier)
            if (relation, entity) in entities:
                found[Cell(relation, attribute, entity)][earlier, later] = None
    return found


# --- orders of rows ---


def reduced(pairs):
    """The pairs of an order that follow from no two others of it."""
    after, before = collections.defaultdict(set), collections.defaultdict(set)
    for earlier, later in pairs:
        after[earlier].add(later)
        before[later].add(earlier)
    return [(earlier, later) for earlier, later in pairs if not after[earlier] & before[later]]


def carried(spec, known, items):
    """The known pairs that a copy carries: their rows are copied, and those that they are copied from are a known pair too."""
    found = set()
    for name, copy in spec.copies.items():
        source = {it[2]: it[3] for it in items if it[:2] == ("copy", name)}
        for into, out in spec.places(name):
            for cell in [it for it in known if it[:2] == (copy.target.name, into)]:
                for pair in known[cell]:
                    ends = source.get(pair[0]), source.get(pair[1])
                    there = Cell(copy.source.name, out, None not in ends and spec.entity(copy.source.name, ends[0]))
                    if ends in known.get(there, ()):
                        found |= {(cell, pair), (there, ends)}
    return found


def orders(program, spec, entities, items, known):
    """Of each cell of these entities the known pairs that follow from no two others, each with what it stands on: it is given,
    or a copy carries it and without copies it is not known, or else rules say so."""
    plain, given, found = [it for it in items if it[0] != "copy"], {*items}, collections.defaultdict(dict)
    alone = program.known(spec, entities, plain) if len(plain) < len(items) else known
    copied = carried(spec, known, items)
    for cell in [it for it in known if (it.relation, it.entity) in entities]:
        for pair in reduced(known[cell]):
            is_given = ("given", *cell[:2], *pair) in given
            is_copied = (cell, pair) in copied and pair not in alone.get(cell, ())
            found[cell][pair] = "given" if is_given else "copy" if is_copied else "rule"
    return found


def orders_of(program, spec, text, entities):
    """The orders of these entities by the whole specification, of which `forced` gives this text."""
    items = spec.items(entities)
    tied = entities.union(*(spec.ends(it) for it in items if it[0] == "copy"))
    return orders(program, spec, entities, items, known_pairs(text, spec, tied))


def orders_of_conflict(program, spec, entities, items):
    """The orders of the entities of a conflict. Each item is needed, so what is known without one of them has no circle; what is
    known without one or another, and follows from no two others there, is put together."""
    found = collections.defaultdict(dict)
    for left_out in items:
        kept = [it for it in items if it != left_out]
        for cell, order in orders(program, spec, entities, kept, program.known(spec, entities, kept)).items():
            found[cell] = {**order, **found[cell]}
    return found


# --- the page ---


@dataclasses.dataclass
class Place:
    """What is said of a cell: its certain value alone, or its possible ones; where that is told, the order and why."""

    cell: Cell
    is_open: bool
    values: list
    diagram: Diagram = None
    why: list = None


@dataclasses.dataclass
class Entity:
    """An entity of a relation, with the name of its section where it has one, and its rows that were copied."""

    relation: object
    name: str
    places: list
    id: str = None
    copied: list = dataclasses.field(default_factory=list)

    @property
    def open(self):
        return sum(it.is_open for it in self.places)


@dataclasses.dataclass
class Reason:
    """An item in the words of the specification, where it stands, and of which rows and values it speaks."""

    item: tuple
    text: str
    at: object
    values: list
    ends: list
    without: str = None


# some entities of a relation, which stand in one file: from this one on, of so many
Part = collections.namedtuple("Part", "relation id entities first whole")


class Page:
    """What stands on the page, for its template."""

    def __init__(self, program, wanted):
        self.program, self.wanted, self.spec, self.stop, self.conflicts = program, wanted, None, None, None
        self.entities, self.told, self.is_whole, self.has_dot = {}, [], False, True

    @functools.cached_property
    def counts(self):
        """How many relations, entities, rows, open and certain values there are."""
        entities = [it for found in self.entities.values() for it in found]
        opened = sum(it.open for it in entities)
        rows = sum(len(it.rows) for it in self.spec.relations.values())
        certain = sum(len(it.places) for it in entities) - opened
        return {"relation": len(self.entities), "entity": len(entities), "record": rows, "open": opened, "certain": certain}

    def open_in(self, relation, attribute):
        """Of how many entities this attribute is open."""
        return sum(place.is_open for it in self.entities[relation] for place in it.places if place.cell.attribute == attribute)

    @functools.cached_property
    def ids(self):
        """Where the section of each entity is that has one."""
        return {(it.relation.name, it.name): it.id for it in self.told}

    @functools.cached_property
    def lines(self):
        """The lines of the specification, where they are not too many."""
        lines = self.spec.text.text.removesuffix("\n").split("\n") if self.spec else []
        return lines if len(lines) <= LINES else []

    @functools.cache
    def widths(self, name):
        """How wide the columns of a relation's table are at most, in rem, where its rows are not laid out together: what the
        longest text of each takes in a wide font, the names being bold."""
        columns = [[self.spec.relations[name].entity, *self.spec.relations[name].attrs, "Open"]]
        columns += [[it.name, *(in_a_row(place.values) for place in it.places), ""] for it in self.entities[name]]
        longest = [max(map(extent, it)) for it in zip(*columns)]
        wide = [1.7 + 0.67 * longest[0], *(1.7 + 0.6 * it for it in longest[1:-1]), NARROWEST]
        return [min(24, max(NARROWEST, it)) for it in wide]

    def look(self):
        """Asks the program, and puts together what it says."""
        text = self.program.forced()
        self.spec = Told(self.program.spec)
        entities = set(self.spec.rows_of)
        asked = {it for it in entities if it[1] == self.wanted}
        if self.wanted is not None and not asked:
            near = faults.near(self.wanted, {name for _, name in entities})
            sys.exit(f"currency page: no relation has an entity {quoted(self.wanted)}" + (f"; {near}" if near else ""))
        golden = {it: self.program.golden(it) for it in self.spec.relations}
        if None in golden.values():
            self.conflicts = self.contradictions(asked)
            return
        possible = self.program.possible([name for name, found in golden.items() if any(it[1] for it in found.values())])
        self.entities = {name: self.entities_of(name, golden[name], possible) for name in golden}
        self.is_whole = self.wanted is None and self.counts["open"] + self.counts["certain"] <= EXPLAINED
        self.tell(text, entities if self.is_whole else asked)

    def entities_of(self, name, golden, possible):
        """A relation's entities with their certain and their possible values."""
        relation, found = self.spec.relations[name], []
        for entity, (values, opened) in golden.items():
            cells = [Cell(name, it, entity) for it in relation.attrs]
            said = [(True, possible[it]) if it.attribute in opened else (False, [value]) for it, value in zip(cells, values)]
            found.append(Entity(relation, entity, [Place(it, *what) for it, what in zip(cells, said)]))
        return found

    def tell(self, text, wanted):
        """Tells of these entities the orders of their rows and why their values are certain, by the text of `forced`."""
        order = orders_of(self.program, self.spec, text, wanted) if wanted else {}
        copied = [it for it in self.spec.items(wanted) if it[0] == "copy"]
        for it in (it for found in self.entities.values() for it in found if (it.relation.name, it.name) in wanted):
            self.told.append(it)
            it.id = f"entity-{len(self.told)}"
            it.copied = [self.reason(item) for item in copied if self.spec.ends(item)[0] == (it.relation.name, it.name)]
            for place in it.places:
                place.diagram = self.diagram(place.cell, order.get(place.cell, {}), place.values)
                place.why = None if place.is_open else self.why(it.relation, place)
        self.has_dot = draw([place.diagram for it in self.told for place in it.places])

    def diagram(self, cell, order, possible):
        """An order to be drawn. Current may be what has a possible value and of which no later row is known."""
        rows = self.spec.rows_of[cell.relation, cell.entity]
        values = {it: self.spec.value_of(cell.relation, it, cell.attribute) for it in rows}
        is_earlier = {earlier for earlier, _ in order}
        return Diagram(order, values, [it for it in rows if values[it] in possible and it not in is_earlier])

    def why(self, relation, place):
        """The reasons why a value is certain, each with the value that may be the current one without it; none where a budget is
        spent."""
        items = self.program.explain(relation, place.cell, place.values[0])
        return items and [self.reason(item, place.diagram.values[row]) for item, row in items]

    def reason(self, item, without=None):
        spec, values, ends = self.spec, [], []
        if item[0] == "given":
            values = [spec.value_of(item[1], row, item[2]) for row in item[3:]]
        elif item[0] == "copy":
            ends = spec.ends(item)
            values = [", ".join(spec.value_of(ends[0][0], item[2], into) for into, _ in spec.places(item[1]))]
        return Reason(item, spec.text_of(item), spec.place(item), values, ends, without)

    def contradictions(self, asked):
        """The conflicts: their entities, the reasons, whether orders are drawn, and these by cell, those with a circle first."""
        found = []
        for number, (entities, items) in enumerate(self.program.conflicts()):
            is_drawn = bool(asked & {*entities}) if asked else number < DRAWN
            order = orders_of_conflict(self.program, self.spec, {*entities}, items) if is_drawn else {}
            diagrams = [(cell, self.diagram(cell, pairs, ())) for cell, pairs in order.items()]
            diagrams.sort(key=lambda it: not it[1].circle)
            found.append((entities, [self.reason(it) for it in items], is_drawn, diagrams))
        self.has_dot = draw([it for *_, diagrams in found for _, it in diagrams])
        return found

    def parts(self, size):
        """The entities cut into files of so many, of each relation what stands there."""
        files, begin = collections.defaultdict(list), 0
        for number, (name, entities) in enumerate(self.entities.items(), 1):
            last = max(begin, begin + len(entities) - 1)
            for file in range(begin // size, last // size + 1):
                first = max(0, file * size - begin)
                taken = entities[first : (file + 1) * size - begin]
                files[file].append(Part(self.spec.relations[name], f"relation-{number}", taken, first + 1, len(entities)))
            begin += len(entities)
        return list(files.values()) or [[]]


# --- the files ---


def shown(value):
    """A value as text that each reader of HTML and XML takes: of what no document may have, the sign of its name."""
    if type(value) is not str:
        return value
    return re.sub("[\x00-\x08\x0b-\x1f]", lambda it: chr(0x2400 + ord(it[0])), re.sub("[\x7f-\x9f\ufffe\uffff]", "\ufffd", value))


def in_a_row(values):
    """About as much text as is shown of the values of a place."""
    many = [f" or one of {len(values) - CHIPS} more"] if values[CHIPS:] else []
    return " or ".join(f"{it}  " for it in values[:CHIPS]) + "".join(many) if values[1:] else values[0]


def counted(number, one, many=None):
    return f"{number:,} {one if number == 1 else many or one + 's'}"


def write(page, out, size):
    """Writes the page, and the files beside it that hold what is more than one file takes."""
    how = {"autoescape": True, "trim_blocks": True, "lstrip_blocks": True, "undefined": jinja2.StrictUndefined, "finalize": shown}
    environment = jinja2.Environment(loader=jinja2.FileSystemLoader(HERE / "page"), **how)
    environment.globals.update(counted=counted, shortened=shortened, cut=cut, CHIPS=CHIPS, EXPLAINED=EXPLAINED, DRAWN=DRAWN)
    environment.globals.update(ROWS=ROWS, NARROWEST=NARROWEST)
    template, parts = environment.get_template("page.html"), page.parts(size)
    names = [out.name, *(f"{out.stem}-{number}{out.suffix}" for number in range(2, len(parts) + 1))]
    for number, (name, part) in enumerate(zip(names, parts), 1):
        new = out.with_name(f"{name}.new")
        new.write_text(template.render(page=page, parts=part, number=number, files=names), encoding="utf-8")
        os.replace(new, out.with_name(name))
        print(out.with_name(name))


def go_on_with_jinja2():
    """Goes on with another Python of the path, as Debian's, where this one has no jinja2."""
    for folder in os.get_exec_path():
        python = os.path.join(folder, "python3")
        how = {"stdout": subprocess.DEVNULL, "stderr": subprocess.DEVNULL}
        if os.access(python, os.X_OK) and not subprocess.run([python, "-c", "import jinja2"], **how).returncode:
            os.execv(python, [python, *sys.argv])
    sys.exit("currency page: no python3 of the path has jinja2 (Debian's python3-jinja2)")


def main():
    parser = argparse.ArgumentParser(prog="currency page", description=__doc__.partition("\n")[0])
    parser.add_argument("spec", metavar="SPEC", help="the specification; its tables stand in the folder in which this is called")
    parser.add_argument("--entity", metavar="NAME", help="the entity whose values are explained, where not all are")
    parser.add_argument("--out", metavar="FILE", default="page.html", help="the file that is written (page.html)")
    learned = f"how many clauses each question may learn, as for currency ask ({LEARNED} for an explanation)"
    parser.add_argument("--budget", metavar="N", help=learned)
    each = f"how many entities a file has at most ({IN_ONE}; of more {IN_EACH})"
    parser.add_argument("--per-file", metavar="N", type=int, help=each)
    words = parser.parse_args()
    if jinja2 is None:
        go_on_with_jinja2()
    csv.field_size_limit(2**31 - 1)
    with tempfile.TemporaryDirectory(prefix="currency-page-") as folder:
        page = Page(Program(words.spec, words.budget, folder), words.entity)
        try:
            page.look()
        except Stop as stop:
            if stop.status not in (3, 5, 6, 7):
                raise
            print(f"currency page: {stop}", file=sys.stderr)
            page = Page(page.program, words.entity)
            page.stop = stop
        is_much = page.entities and page.counts["entity"] > IN_ONE
        write(page, pathlib.Path(words.out), max(1, words.per_file or (IN_EACH if is_much else IN_ONE)))
    return page.stop.status if page.stop else 0


if __name__ == "__main__":
    try:
        sys.exit(main())
    except faults.Unseen as unseen:
        sys.exit(f"currency page: {unseen} is no file, and is not read")
    except (OSError, Fault, Stop) as error:
        sys.exit(f"currency page: {error}")
    except KeyboardInterrupt:
        sys.exit(130)
