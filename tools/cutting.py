"""Reads a specification whose tables have any length, and cuts it into shards that are within all limits.

A table is read twice, record by record: first what the program would refuse is refused, with its text, and copied rows tie
entities together; then each record is written to the shard of its entity. What is kept is 18 bytes a row with a name (64 bits
of the name, its place among those, its entity), 4 a row and a list of attributes that are copied, 4 a record of other tables, 1
a row that may be mapped, and the names of entities. It is not proved."""

import collections
import csv
import itertools
import json
import operator
import os
import pathlib
import re
import stat
import subprocess
import tempfile
from array import array

import faults
import words
from diagnose import NO_TEXT, Text, whole
from faults import LIMITS, by_use, constant

TABLE_BYTES, TEXT_BYTES = 2**26, 2**24
# how many bytes wait to be written
PENDING = 2**26
STATUSES = {"words": 2, "error": 5, "limit": 6, "read": 7}
MARK = "\ufeff"


class Refused(Exception):
    """Why nothing is done, and the status with which that ends: where none is said, that of the program for such a text."""

    def __init__(self, cause, status=None):
        super().__init__(cause)
        self.status = status or STATUSES.get(str(cause).partition(" ")[0], 1)


class Odd(Exception):
    """What a record is refused for: the code, which of its names is at fault, and what tells more."""

    def __init__(self, code, which=0, more=str):
        super().__init__(code)
        self.code, self.which, self.more = code, which, more


# ---- tables


def record_text(fields):
    if fields == [""]:
        return '""'
    return ",".join(constant(it) if any(mark in it for mark in ',"\r\n') else it for it in fields)


def records(document):
    """The records of a table as the program reads it, each as a text of its own, without the end of its line, and as fields.

    A line without a quote is its own text. Others are read by Python's csv, which agrees with the program: a quote in a field
    that is not quoted is plain, text after a closing quote belongs to the field, an open quote runs to the end. Of empty lines,
    which are no records, it has a view of its own, so they are left out here."""
    try:
        about = os.stat(document).st_mode
        if not stat.S_ISREG(about) and not stat.S_ISDIR(about):
            raise Refused(f"{document} is no file, and a table is read more than once")
        lines = open(document, encoding="utf-8-sig", errors="surrogateescape", newline="")
    except (OSError, ValueError):
        raise Refused(f"read fault {document}") from None
    with lines:
        number, width = 0, None
        for text in lines:
            if '"' in text:
                fields = next(csv.reader(itertools.chain((text,), lines)))
                text = record_text(fields)
            else:
                text = text.rstrip("\r\n")
                if not text:
                    continue
                fields = text.split(",")
            number, width = number + 1, width or len(fields)
            try:
                if not text.isascii() and NO_TEXT.search(text):
                    # (the quotes that are gone may have stood within a character)
                    fields = [it.encode("utf-8", "surrogateescape").decode() for it in fields]
                    text = record_text(fields)
            except UnicodeDecodeError:
                width = None
            if len(fields) != width:
                raise Refused(f"error E06 {document} {number}")
            yield text, fields


def size_of(text):
    return len(text if text.isascii() else text.encode()) + 1


class Table:
    """A table of a document, or of what the text lists as tokens. Each of its records speaks of one entity of a relation.

    Of the records below the header `of` has the entity, and of each entity `sizes` the bytes that they take in a shard."""

    def __init__(self, document, columns, listed=None, text=None):
        self.document, self.columns, self.listed, self.text = document, columns, listed, text
        self.file, self.of, self.sizes, self.header, self.names = None, array("I"), array("Q"), "", []

    def all(self):
        """Its records, with their texts in shards."""
        if self.listed is None:
            return records(self.document)
        return ((record_text(it), it) for it in [self.columns, *([it.name for it in tokens] for tokens in self.listed)])

    def opened(self):
        """The records below the header, which is kept."""
        found = self.all()
        self.header, self.names = next(found, ("", []))
        return found

    def places(self):
        return [self.names.index(it) for it in self.columns]

    def shard_header(self):
        """The header in a shard. A mark that belongs to a name stays, since one before it is dropped."""
        return MARK * self.header.startswith(MARK) + self.header + "\n" if self.names else ""

    def read(self, spec):
        """Notes of each record its entity and its size. Refuses what the program does: each check goes over all records first."""
        rows = self.opened()
        look, first, note, sizes, base = self.looker(spec), {}, self.of.append, self.sizes, self.relation.first
        for number, (text, fields) in enumerate(rows):
            try:
                entity = look(fields)
            except Odd as odd:
                # (E12 and E13 are one check)
                first.setdefault("E12" if odd.code == "E13" else odd.code, (number, odd))
            else:
                note(entity)
                sizes[entity - base] += size_of(text)
        if first:
            raise self.refusal(*first[min(first)])

    def refusal(self, number, odd):
        """That of a record below the header, counted from 0."""
        where = f"{self.document} {min(number + 2, 2**32 - 1)}"
        if self.listed is not None:
            where = f"{self.text.name} {self.text.line(self.listed[number][odd.which])}"
        return Refused(f"error {odd.code} {where}{odd.more()}")


class Relation(Table):
    """The table of a relation. It gets a column with the numbers of its rows where they have no other names."""

    def __init__(self, name, document, row, entity, attrs):
        super().__init__(document, [*row, entity, *attrs])
        self.name, self.row, self.entity, self.attrs, self.relation = name, next(iter(row), None), entity, attrs, self
        self.first, self.find, self.digests, self.numbers = 0, None, {}, None
        self.opened()
        if self.row is None:
            self.numbers = next(it for it in ("row" + "_" * n for n in itertools.count()) if it not in self.names)

    def all(self):
        if self.row is not None:
            return super().all()
        numbers = itertools.chain([self.numbers], itertools.count(1))
        return ((f"{text},{number}", fields) for number, (text, fields) in zip(numbers, super().all()))

    def looker(self, spec):
        """What says of which entity a row is, and notes its name and the values that are copied."""
        self.first = first = len(spec.parents)
        places = self.places()
        *row, entity = places[: -len(self.attrs)]
        values = places[-len(self.attrs) :]
        ints = [at for at, kind in zip(values, self.attrs.values()) if kind == "int"]
        short = re.compile(",".join(["-?[0-9]{1,18}"] * len(ints)))
        picks = {name: (at, int if kind == "int" else str) for at, (name, kind) in zip(values, self.attrs.items())}
        digests = [([picks[it] for it in attrs], found.append) for attrs, found in self.digests.items()]
        entities, sizes = {}, self.sizes
        self.hashes = hashes = array("q")

        def look(fields):
            if not short.fullmatch(",".join([fields[at] for at in ints])) and any(whole(fields[at]) is None for at in ints):
                raise Odd("E08")
            for at in row:
                hashes.append(hash(fields[at]))
            for picked, note in digests:
                note(hash(tuple([kind(fields[at]) for at, kind in picked])) & 0xFFFFFFFF)
            number = entities.setdefault(fields[entity], first + len(entities))
            if number == len(spec.parents):
                spec.parents.append(number)
                spec.copied.append(0)
                sizes.append(0)
            return number

        return look

    def read(self, spec):
        super().read(spec)
        if self.row is None:
            self.find = found_by_number(len(self.of))
            return
        self.find, doubled = found_by_name(self.hashes)
        # (of those that have 64 bits in common, the names that are one)
        seen = set()
        for number, (_, fields) in enumerate(self.opened() if doubled else ()):
            name = fields[self.names.index(self.row)]
            if name in seen:
                raise self.refusal(number, Odd("E09"))
            if hash(name) in doubled:
                seen.add(name)
        if doubled:
            raise Refused("the names of two rows have 64 bits in common by chance; run it again")

    def fields_of(self, row):
        return dict(zip(self.names, next(itertools.islice(self.opened(), row, None))[1]))

    def values_of(self, row, attrs):
        fields = self.fields_of(row)
        return [int(fields[it]) if self.attrs[it] == "int" else fields[it] for it in attrs]


def found_by_number(count):
    """What finds a row whose name is its number."""
    return lambda name: int(name) - 1 if re.fullmatch("[1-9][0-9]{0,18}", name) and int(name) <= count else None


def found_by_name(hashes):
    """What finds a row by 64 bits of its name, with a slot and a half for each row; and which bits two rows have."""
    size, doubled = len(hashes) * 3 // 2 + 1, set()
    slots = array("I", bytes(4 * size))
    for row, wanted in enumerate(hashes, 1):
        at = wanted % size
        while other := slots[at]:
            if hashes[other - 1] == wanted:
                doubled.add(wanted)
                break
            at = at + 1 if at + 1 < size else 0
        else:
            slots[at] = row

    def find(name):
        wanted = hash(name)
        at = wanted % size
        while row := slots[at]:
            if hashes[row - 1] == wanted:
                return row - 1
            at = at + 1 if at + 1 < size else 0
        return None

    return find, doubled


class Orders(Table):
    """Given pairs of a relation."""

    def __init__(self, relation, document, listed=None, text=None):
        super().__init__(document, ["attribute", "earlier", "later"], listed, text)
        self.relation = self.source = relation

    def looker(self, _spec):
        attr, *places = self.places()
        find, of, attrs = self.relation.find, self.relation.of, self.relation.attrs
        self.sizes.extend(itertools.repeat(0, len(self.relation.sizes)))

        def look(fields):
            if fields[attr] not in attrs:
                raise Odd("E03")
            pair = [find(fields[at]) for at in places]
            if None in pair:
                raise Odd("E10", 1 + pair.index(None))
            if pair[0] == pair[1] or of[pair[0]] != of[pair[1]]:
                raise Odd("E11", 1)
            return of[pair[0]]

        return look


class Copy(Table):
    """A copy function, whose mapped rows tie entities together."""

    def __init__(self, sides, attrs, document, listed=None, text=None):
        super().__init__(document, ["target", "source"], listed, text)
        (self.relation, self.source), (self.into, self.out) = sides, attrs
        for relation, names in zip(sides, attrs):
            relation.digests.setdefault(names, array("I"))

    def looker(self, spec):
        target, source = self.places()
        find, of, find_source, source_of = self.relation.find, self.relation.of, self.source.find, self.source.of
        values, wanted = self.relation.digests[self.into], self.source.digests[self.out]
        mapped, many, copied, base = bytearray(len(of)), len(self.into), spec.copied, self.relation.first
        counts = array("I", bytes(4 * len(self.relation.sizes)))
        self.sizes.extend(itertools.repeat(0, len(counts)))

        def look(fields):
            row, origin = find(fields[target]), find_source(fields[source])
            if row is None or origin is None:
                raise Odd("E10", int(row is not None))
            if mapped[row]:
                raise Odd("E12")
            mapped[row] = 1
            if values[row] != wanted[origin]:
                raise Odd("E13", more=lambda: self.unequal(row, origin))
            entity = of[row]
            spec.tie(entity, source_of[origin])
            # with one more mapped row of the entity there are at most so many more pairs of them, each both ways
            copied[entity] += 2 * counts[entity - base] * many
            counts[entity - base] += 1
            return entity

        return look

    def unequal(self, row, origin):
        """The two values where a row and its source first differ."""
        pairs = zip(self.relation.values_of(row, self.into), self.source.values_of(origin, self.out))
        return "".join(f" {constant(it)}" for it in next(pair for pair in pairs if pair[0] != pair[1]))


# ---- the specification


def end_of(token):
    return token.at + len(token.text)


class Whole:
    """A specification: its tables, the entities that copied rows tie together, and its text as shards have it.

    Entities are numbered on from one relation to the next. Of each `parents` has one that it is tied to, itself where it is the
    first, and `copied` how many instances copies give it at most."""

    def __init__(self, document):
        self.text, self.taken, self.pieces, self.at = Text(document, faults.read(document, TEXT_BYTES, 1)), {""}, [], 0
        self.file = self.file_of(document)
        self.relations, self.tables, self.rules = {}, [], []
        self.parents, self.copied = array("I"), array("Q")
        kinds = {"relation": self.relation, "order": self.orders, "orders": self.orders, "rule": self.rule, "copy": self.copy}
        for first, parts in self.text.clauses("spec"):
            by = by_use(parts)
            relation = self.relations.get((by["relation"] or by["target"])[0].name)
            # (what speaks of a relation that is not there stays as it is, and the program refuses it)
            if first.text == "relation" or relation:
                kinds[first.text](first, relation, by, parts[-1][1])
        self.shard_text = "".join([*self.pieces, self.text.text[self.at :]])

    def file_of(self, document):
        """How a document is named in the shards: as it is, where no other is."""
        name = os.path.basename(document)
        while name in self.taken or name.startswith(("question", "-")):
            name = f"{len(self.taken)}-{name}"
        self.taken.add(name)
        return name

    def add(self, table, begin, last, front="", behind=""):
        """Notes a table, and has shards name its file in place of what stands from here up to the end of a token."""
        table.file = self.file_of(table.document or "listed.csv")
        end, text = end_of(last), front + constant(table.file) + behind
        # (as many lines, so that the program names those of the whole)
        lines = self.text.text.count("\n", begin, end) - text.count("\n")
        self.pieces += [self.text.text[self.at : begin], text, "\n" * lines]
        self.at = end
        self.tables.append(table)

    def relation(self, _first, _relation, by, _last):
        [name], [document], [entity], row = by["relation"], by["document"], by["entity"], by["row"]
        attrs = {attr.name: kind.text for attr, kind in zip(by["attr"], by["kind"])}
        table = self.relations[name.name] = Relation(name.name, document.name, [it.name for it in row], entity.name, attrs)
        self.add(table, document.at, document, behind="" if row else f" row {constant(table.numbers)}")

    def orders(self, first, relation, by, last):
        for document in by["document"]:
            self.add(Orders(relation, document.name), document.at, document)
        if by["first"]:
            listed = [(by["attr"][0], *pair) for pair in zip(by["first"], by["second"])]
            self.add(Orders(relation, None, listed, self.text), first.at, last, f"orders {by['relation'][0].text} from ")

    def rule(self, _first, relation, by, _last):
        self.rules.append((relation, len(by["var"])))

    def copy(self, _first, relation, by, last):
        sides = relation, self.relations.get(by["source"][0].name)
        attrs = [tuple(it.name for it in by[use]) for use in ("into", "out")]
        if sides[1] and all({*names} <= {*it.attrs} for it, names in zip(sides, attrs)):
            for document in by["document"]:
                self.add(Copy(sides, attrs, document.name), document.at, document)
            if by["first"]:
                listed = [*zip(by["first"], by["second"])]
                self.add(Copy(sides, attrs, None, listed, self.text), end_of(by["out"][-1]), last, ") using ")

    def tie(self, one, other):
        one, other = self.root(one), self.root(other)
        self.parents[max(one, other)] = min(one, other)

    def root(self, at):
        """The first entity of those that one is tied to."""
        parents = self.parents
        while (up := parents[at]) != at:
            parents[at] = at = parents[up]
        return at

    def name_of(self, entity):
        relation = next(it for it in self.relations.values() if entity < it.first + len(it.sizes))
        return f"{relation.fields_of(relation.of.index(entity))[relation.entity]} of {relation.name}"

    def judged(self, program, root=None):
        """The status and the refusal of the program for the text over the records of these tied entities, or over none."""
        with tempfile.TemporaryDirectory() as name:
            folder = pathlib.Path(name)
            for table in self.tables:
                rows = table.opened()
                own = (text + "\n" for of, (text, _) in zip(table.of, rows) if self.root(of) == root)
                write(folder / table.file, table.shard_header() + "".join(own))
            write(folder / self.file, self.shard_text)
            done = subprocess.run([program, "forced", self.file], cwd=folder, capture_output=True, check=False)
        return done.returncode, os.fsdecode(done.stdout[:4096]) if done.returncode else ""

    def judge(self, program):
        """Refuses what the program refuses over tables that have no records."""
        status, said = self.judged(program)
        if status:
            code, name, line = re.fullmatch(r"(error \w+ |)(.*?)( [0-9]+|)\n?", said, re.S).groups()
            names = {it.file: it.document for it in self.tables} | {self.file: self.text.name}
            raise Refused(code + (names.get(name) or name) + line or f"the program ended with status {status}")


# ---- which shard


def totals(spec):
    """What the tied entities come to, at the first of them: rows, order variables, instances and bytes of tables."""
    rows, variables, instances, size = (array("Q", bytes(8 * len(spec.parents))) for _ in range(4))
    for relation in spec.relations.values():
        counts, first, attrs = array("I", bytes(4 * len(relation.sizes))), relation.first, len(relation.attrs)
        for entity in relation.of:
            counts[entity - first] += 1
        rules = [variables for of, variables in spec.rules if of is relation]
        pairs = [attrs * n * (n - 1) // 2 for n in range(LIMITS[7] + 1)]
        costs = [sum(n**it for it in rules) + attrs * n * (n - 1) * (n - 2) // 3 for n in range(LIMITS[7] + 1)]
        for entity, many in enumerate(counts, first):
            if many > LIMITS[7]:
                raise too_large(spec.name_of(entity), many, "limit 7")
            root = spec.root(entity)
            rows[root] += many
            variables[root] += pairs[many]
            instances[root] += costs[many] + spec.copied[entity]
    for table in spec.tables:
        for entity, many in enumerate(table.sizes, table.relation.first):
            size[spec.root(entity)] += many
    return rows, variables, instances, size


def too_large(who, rows, limit):
    return Refused(f"{who}: {rows} rows; {limit}: {words.MEANINGS.get(limit)}")


def refuse_large(spec, program, root, rows):
    """Refuses tied entities that one specification does not take."""
    status, said = (6, "limit 6") if rows > LIMITS[6] else spec.judged(program, root)
    if status:
        many = sum(spec.root(it) == root for it in range(len(spec.parents))) - 1
        tied = f" and the {many} entities that copied rows tie to it" if many else ""
        raise too_large(spec.name_of(root) + tied, rows, said.strip())


def pack(spec, program, most):
    """The shard of each entity, and how many there are. Tied ones stay together, in the order of their first ones."""
    found = totals(spec)
    bounds = most, LIMITS[10], LIMITS[11], TABLE_BYTES - sum(size_of(it.header) for it in spec.tables)
    shards, shard, filled = array("I", bytes(4 * len(spec.parents))), 0, (0, 0, 0, 0)
    for entity in range(len(spec.parents)):
        root = spec.root(entity)
        if root != entity:
            shards[entity] = shards[root]
            continue
        group = tuple(it[entity] for it in found)
        if any(map(operator.gt, group, (LIMITS[6], *bounds[1:]))):
            refuse_large(spec, program, root, group[0])
        more = tuple(map(operator.add, filled, group))
        if filled[0] and any(map(operator.gt, more, bounds)):
            shard, more = shard + 1, group
        shards[entity], filled = shard, more
    return shards, shard + 1


# ---- writing


def write(path, text, mode="wb"):
    with open(path, mode) as out:
        out.write(text.encode("utf-8", "surrogateescape"))


def write_table(table, folder, names, shards):
    """Writes the records of a table to their shards, in order, and says how many each has."""
    counts, waiting, size = [0] * len(names), collections.defaultdict(list), 0
    rows = table.opened()
    for name in names:
        write(folder / name / table.file, table.shard_header())

    def let_go():
        for shard, texts in waiting.items():
            counts[shard] += len(texts)
            write(folder / names[shard] / table.file, "\n".join(texts) + "\n", "ab")
        waiting.clear()

    for entity, (text, _) in zip(table.of, rows):
        waiting[shards[entity]].append(text)
        size += len(text)
        if size > PENDING:
            let_go()
            size = 0
    let_go()
    if sum(counts) != len(table.of) or next(rows, None) is not None:
        raise Refused(f"{table.document} was changed while it was read; remove {folder}")
    return counts


def told(relation, shards):
    """What the plan says of a relation; `order` has the shards of its entities, each with how many of them follow."""
    order = itertools.groupby(shards[relation.first : relation.first + len(relation.sizes)])
    return {
        "name": relation.name,
        "file": relation.file,
        "row": relation.numbers or relation.row,
        "entity": relation.entity,
        "attrs": relation.attrs,
        "entities": len(relation.sizes),
        "order": [(shard, sum(1 for _ in group)) for shard, group in order],
    }


def write_shards(spec, folder, shards, count):
    """Writes the shards, and at last what is where."""
    names = [f"{number:0{max(4, len(str(count)))}}" for number in range(1, count + 1)]
    for name in names:
        (folder / name).mkdir()
        write(folder / name / spec.file, spec.shard_text)
    counts = {it.file: write_table(it, folder, names, shards) for it in spec.tables}
    plan = {
        "specification": spec.text.name,
        "read in": os.getcwd(),
        "file": spec.file,
        "documents": {it.file: it.document or spec.text.name for it in spec.tables},
        "relations": [told(it, shards) for it in spec.relations.values()],
        "shards": [{"name": name, "records": {it: many[at] for it, many in counts.items()}} for at, name in enumerate(names)],
    }
    write(folder / "plan.new", json.dumps(plan) + "\n")
    os.replace(folder / "plan.new", folder / "plan.json")


def cut(program, document, folder, most):
    """Cuts a specification into shards of so many rows at most. Answers what was written, in a sentence."""
    if folder.exists():
        raise Refused(f"{folder} is there already")
    spec = Whole(document)
    spec.judge(program)
    for table in spec.tables:
        table.read(spec)
    shards, count = pack(spec, program, most)
    for it in spec.relations.values():
        it.find, it.digests, it.hashes = None, {}, None
    try:
        folder.mkdir()
        write_shards(spec, folder, shards, count)
    except OSError as error:
        begun = "was begun and is not whole" if folder.exists() else "is not there"
        raise Refused(f"{folder} {begun}: {error.strerror}", 8) from None
    rows = sum(len(it.of) for it in spec.relations.values())
    return f"{rows} rows of {len(spec.parents)} entities in {count} shards"
