"""What a specification, a question and a report are refused for: the checks of docs/LANGUAGES.md in their order, each with
the words for a person. `find` raises the first fault. It is not proved, and nothing of it is shown where the program's
refusal is another (`hints.py`)."""

import collections
import difflib
import functools
import itertools
import os
import stat
import types

from diagnose import Fault, Table, Text, Where, nearest, quoted, refusal, whole

Named = collections.namedtuple("Named", "name place")
Row = collections.namedtuple("Row", "record entity values")
LIMITS = {4: 64, 5: 32, 6: 100000, 7: 64, 8: 256, 9: 64, 10: 4 * 10**6, 11: 8 * 10**6, 12: 10**7}
# a longer report is not read again: its line alone is shown
LONGEST_REPORT = 2**24


class Unseen(Exception):
    """A document that cannot be read a second time."""


def read(name, most, limit, where=None):
    """The bytes of a document, or why there are none."""
    try:
        about = os.stat(name)
        if not stat.S_ISREG(about.st_mode) and not stat.S_ISDIR(about.st_mode):
            raise Unseen(quoted(name))
        if about.st_size > most:
            raise Fault(f"limit {limit}", where, f"{quoted(name)} has {about.st_size} bytes, and {most} is the most")
        with open(name, "rb") as document:
            return document.read()
    except (OSError, ValueError) as error:
        raise Fault(f"read fault {name}", where, *unread(name, error)) from None


def unread(name, error):
    """Why a document could not be read, and what to do."""
    folder, base = os.path.split(name)
    said = f"{quoted(name)} could not be read: {getattr(error, 'strerror', None) or error}"
    if "\0" in name:
        return said, None
    helps = [f"it was looked for as {quoted(os.path.abspath(name))}"]
    if not os.path.exists(name) and os.path.isdir(folder or "."):
        near = difflib.get_close_matches(base, os.listdir(folder or "."), 1)
        helps.append(f"the nearest that is there is {quoted(os.path.join(folder, near[0]))}" if near else None)
    elif not os.path.exists(name):
        helps.append(f"there is no folder {quoted(folder)}")
    return said, *helps


def constant(value):
    return str(value) if isinstance(value, int) else '"' + value.replace('"', '""') + '"'


def kind_of(value):
    return "int" if isinstance(value, int) else "text"


def near(name, names):
    """What there is in place of a name: the nearest one, or all where they are few."""
    found = nearest(name, names)
    if found is not None:
        return f"the nearest that is there is {quoted(found)}"
    return f"there is {', '.join(map(quoted, names))}" if 0 < len(names) <= 8 else None


def by_use(parts):
    found = collections.defaultdict(list)
    for use, token in parts:
        found[use].append(token)
    return found


def split(parts, mark="next"):
    """Parts between those that are for this."""
    groups = [[]]
    for use, token in parts:
        if use == mark:
            groups.append([])
        else:
            groups[-1].append((use, token))
    return groups


class Names:
    """A document of tokens that names what the relations have."""

    def __init__(self, text, relations):
        self.text, self.relations = text, relations

    def named(self, token):
        return Named(token.name, functools.partial(self.text.where, token))

    def known(self, named, among, what, of=None):
        """What has this name, or its refusal."""
        if named.name not in among:
            said = f"there is no {what} {quoted(named.name)}" + (f" of {quoted(of.name)}" if of else "")
            raise refusal("E03", named.place(), said, near(named.name, among))
        return among[named.name]

    def new(self, token, among, what):
        if token.name in among:
            note = f"the other one stands in line {self.text.line(among[token.name].token)}: give one of them another name"
            raise refusal("E04", self.text.where(token), f"there is a {what} {quoted(token.name)} already", note)

    def once(self, tokens, what):
        first = {}
        for token in tokens:
            if first.setdefault(token.name, token) is not token:
                said = f"the {what} {quoted(token.name)} is listed twice"
                raise refusal("E04", self.text.where(token), said, "leave one of them out")

    def row(self, relation, named):
        row = relation.rows.get(named.name)
        if row is None:
            other = next((it.name for it in self.relations.values() if named.name in it.rows), None)
            note = f"{quoted(other)} has a row of that name" if other else None
            if not note and not relation.row:
                note = "rows are named 1, 2, 3 and so on where no `row` is declared"
            note = note or near(named.name, relation.rows)
            note = note or f"rows are named by the column {quoted(relation.row)} of {quoted(relation.table.name)}"
            raise refusal("E10", named.place(), f"{quoted(relation.name)} has no row {quoted(named.name)}", note)
        return row

    def records(self, table, columns):
        """The records of a table in these columns, as names with their places."""
        places = table.columns(columns)
        for number, (fields, _) in enumerate(table.records[1:], 2):
            yield [Named(fields[at], functools.partial(table.where, number, at)) for at in places]

    def pairs(self, groups):
        """Checks parts that give or ask about pairs, each check over all of them before the next; answers the number of pairs."""
        parts = []
        for by in map(by_use, groups):
            relation = self.known(self.named(by["relation"][0]), self.relations, "relation")
            for attr in by["attr"]:
                self.known(self.named(attr), relation.attrs, "attribute", relation)
            parts.append((relation, by, []))
        for relation, by, pairs in parts:
            pairs += [(None, self.named(a), self.named(b)) for a, b in zip(by["first"], by["second"])]
            if by["document"]:
                pairs += self.records(self.table(by["document"][0]), ("attribute", "earlier", "later"))
        every = [(relation, *pair) for relation, _, pairs in parts for pair in pairs]
        for relation, attr, *_ in every:
            if attr:
                self.known(attr, relation.attrs, "attribute", relation)
        rows = [(self.row(relation, a), self.row(relation, b)) for relation, _, a, b in every]
        for (relation, _, a, b), (earlier, later) in zip(every, rows):
            if earlier is later:
                said = f"the row {quoted(a.name)} is compared with itself"
                raise refusal("E11", a.place(), said, "a pair has two rows of one entity")
            if earlier.entity != later.entity:
                said = f"{quoted(a.name)} is of {quoted(earlier.entity)}, and {quoted(b.name)} of {quoted(later.entity)}"
                note = f"they are records {earlier.record} and {later.record} of {relation.table.name}; a pair is of one entity"
                raise refusal("E11", a.place(), said, note)
        return len(every)

    def table(self, document):
        return Table(document.name, read(document.name, 2**26, 2, self.text.where(document)))

    def compared(self, group, kind):
        """Refuses a comparison of two kinds."""
        at = next((at for at, (use, _) in enumerate(group) if use == "cmp"), None)
        if at is None:
            return
        sides = [group[:at], group[at + 1 :]]
        kinds = [kind(it) for it in sides]
        if None in kinds or kinds[0] == kinds[1]:
            return
        names = [quoted(".".join(token.text for _, token in it)) for it in sides]
        constants = [it[-1][1] for it in sides if it[-1][1].names & {"constant"} and len(it) == 1]
        note = "compare two attributes of one kind"
        if constants:
            other = constants[0]
            is_number = isinstance(other.value, str) and whole(other.value) is not None
            note = f"write {other.value} without quotes" if is_number else f"a text stands in quotes: \"{other.text}\""
            note = note if is_number or isinstance(other.value, int) else "an int is compared with a number"
        raise refusal("E05", self.text.where(sides[0][0][1]), f"{names[0]} is {kinds[0]}, and {names[1]} is {kinds[1]}", note)


class Specification(Names):
    """A specification as far as it is read: relations, rules and copy functions by their names."""

    def __init__(self, name):
        super().__init__(Text(name, read(name, 2**24, 1)), {})
        self.rules, self.copies = {}, {}
        for first, parts in self.text.clauses("spec"):
            {"relation": self.relation, "rule": self.rule, "copy": self.copy}.get(first.text, self.given)(parts, by_use(parts))
        self.limits_of_all()

    def relation(self, parts, by):
        [named], [document], [entity], row = by["relation"], by["document"], by["entity"], by["row"]
        self.new(named, self.relations, "relation")
        self.once(by["attr"], "attribute")
        table = self.table(document)
        kinds = {attr.name: kind.text for attr, kind in zip(by["attr"], by["kind"])}
        places = table.columns([it.name for it in [*row, entity, *by["attr"]]])
        relation = types.SimpleNamespace(name=named.name, token=named, attrs=kinds, rows={}, table=table, places=places)
        relation.row, relation.entity = row[0].name if row else None, entity.name
        self.fill(relation, places[: len(row)], places[len(row)], places[len(row) + 1 :])
        relation.sizes = collections.Counter(it.entity for it in relation.rows.values())
        self.relations[named.name] = relation
        self.limits_of_relation(relation)

    def fill(self, relation, key, entity, columns):
        """Reads the rows of a relation."""
        values = []
        for number, (fields, _) in enumerate(relation.table.records[1:], 2):
            found = zip(relation.attrs.items(), columns)
            values.append([self.value(relation, number, attr, kind, at, fields[at]) for (attr, kind), at in found])
        for number, (fields, _) in enumerate(relation.table.records[1:], 2):
            name = fields[key[0]] if key else str(number - 1)
            if name in relation.rows:
                first = relation.rows[name].record
                note = f"record {first} has that name too" + ("; a blank is a name like others" if not name.strip() else "")
                raise refusal("E09", relation.table.where(number, key[0]), f"two rows have the name {quoted(name)}", note)
            relation.rows[name] = Row(number, fields[entity], values[number - 2])

    def value(self, relation, number, attr, kind, at, field):
        """The value of a field."""
        value = field if kind == "text" else whole(field)
        if value is None:
            raise refusal("E08", relation.table.where(number, at), *self.no_integer(attr, field))
        return value

    @staticmethod
    def no_integer(attr, field):
        """What is wrong with a field that is no integer, and what to do."""
        said, column = f"{quoted(field)} is no integer, and {quoted(attr)} is an int column", quoted(attr)
        digits = field.strip().lstrip("+-")
        if not field.strip():
            advice = f"fill it in, leave the record out, or declare {column} as text"
            return f"the column {column} is blank here, and has integers", advice
        if whole(field.strip()) is not None:
            return said, "take the blanks around it away"
        if digits.isdigit() and field.strip()[0] == "+":
            return said, "take the `+` away"
        if digits.isdigit() and digits.isascii():
            return said, "an integer has 64 signed bits: declare the column as text, or shorten the number"
        if digits.replace(".", "", 1).isdigit():
            return said, f"there are no decimals: write all of {column} in a smaller unit (cents), or declare it as text"
        if digits.replace(",", "").replace(".", "").replace("'", "").replace(" ", "").replace("_", "").isdigit():
            return said, "write the digits alone, with nothing between them"
        return said, f"declare {column} as text, or give it integers alone"

    def given(self, parts, by):
        self.pairs([parts])

    def rule(self, parts, by):
        [named] = by["rule"]
        relation = self.known(self.named(by["relation"][0]), self.relations, "relation")
        variables = [it.name for it in by["var"]]
        for use, token in parts:
            if use == "use" and token.name not in variables:
                listed = ", ".join(map(quoted, variables))
                said = f"there is no variable {quoted(token.name)}"
                raise refusal("E03", self.text.where(token), said, f"the rule has {listed}")
            if use == "attr":
                self.known(self.named(token), relation.attrs, "attribute", relation)
        self.new(named, self.rules, "rule")
        self.once(by["var"], "variable")
        groups = split(parts)
        rule = types.SimpleNamespace(name=named.name, token=named, relation=relation, variables=variables, premises=groups[1:-1])
        rule.conclusion = [it for it in groups[-1] if it[0] in ("use", "attr")][-3:]

        def kind(side):
            return kind_of(side[0][1].value) if side[0][0] == "const" else relation.attrs[side[1][1].name]

        for group in rule.premises:
            self.compared(group, kind)
        self.rules[named.name] = rule
        where, name = self.text.where(named), quoted(named.name)
        self.limited(8, len(self.rules), where, f"there are {len(self.rules)} rules")
        self.limited(8, len(variables), where, f"{name} has {len(variables)} variables", most=4)
        self.limited(8, len(rule.premises), where, f"{name} has {len(rule.premises)} predicates", most=16)

    def copy(self, parts, by):
        [named], sides = by["copy"], []
        for use, attrs in (("target", "into"), ("source", "out")):
            relation = self.known(self.named(by[use][0]), self.relations, "relation")
            kinds = [self.known(self.named(it), relation.attrs, "attribute", relation) for it in by[attrs]]
            sides.append((relation, kinds))
        self.new(named, self.copies, "copy function")
        self.once(by["into"], "attribute")
        self.once(by["out"], "attribute")
        (target, into), (source, out) = sides
        self.matched(named, by, into, out)
        mappings = [(self.named(a), self.named(b)) for a, b in zip(by["first"], by["second"])]
        if by["document"]:
            mappings = list(self.records(self.table(by["document"][0]), ("target", "source")))
        rows = [(self.row(target, a), self.row(source, b)) for a, b in mappings]
        order = list(target.attrs).index, list(source.attrs).index
        places = [(a.name, order[0](a.name), order[1](b.name)) for a, b in zip(by["into"], by["out"])]
        copy = types.SimpleNamespace(name=named.name, token=named, target=target, source=source, places=places, mapped={})
        for (a, b), (row, origin) in zip(mappings, rows):
            self.copied(copy, a, b, row, origin)
        self.copies[named.name] = copy
        self.limited(9, len(self.copies), self.text.where(named), f"there are {len(self.copies)} copy functions")

    def matched(self, named, by, into, out):
        """Refuses lists of a copy function that differ in length, or in kind side by side."""
        where = self.text.where(named)
        if len(into) != len(out):
            said = f"{len(into)} attribute{'s are' if len(into) > 1 else ' is'} copied from {len(out)}"
            raise refusal("E05", where, said, "the two lists have one attribute for another")
        for a, b, kinds in zip(by["into"], by["out"], zip(into, out)):
            if kinds[0] != kinds[1]:
                said = f"{quoted(a.name)} is {kinds[0]}, and {quoted(b.name)}, which it is copied from, is {kinds[1]}"
                raise refusal("E05", where, said, "declare both of one kind")

    def copied(self, copy, a, b, row, origin):
        """Notes that a row is copied from another."""
        if a.name in copy.mapped:
            before, first = copy.mapped[a.name][0], copy.mapped[a.name][1]()
            line = f"{'record' if first.physical else 'line'} {first.line} of {first.document}"
            note = f"it is mapped from {quoted(before)} in {line}"
            raise refusal("E12", a.place(), f"the row {quoted(a.name)} is mapped again, from {quoted(b.name)}", note)
        for attr, at, of in copy.places:
            if row.values[at] != origin.values[of]:
                values = constant(row.values[at]), constant(origin.values[of])
                other = f"{quoted(b.name)}, which it is copied from, {quoted(values[1])}"
                said = f"{quoted(a.name)} has {quoted(values[0])} in {quoted(attr)}, and {other}"
                names = quoted(copy.target.table.name), quoted(copy.source.table.name)
                note = f"they are record {row.record} of {names[0]} and record {origin.record} of {names[1]}"
                raise refusal("E13", a.place(), said, note, more=f" {values[0]} {values[1]}")
        copy.mapped[a.name] = b.name, a.place

    # limits

    def limited(self, number, many, where, what, *helps, most=None):
        """Refuses what is beyond a limit."""
        most = most or LIMITS[number]
        if many > most:
            raise Fault(f"limit {number}", where, f"{what}, and {most} is the most", *helps)

    def limits_of_relation(self, relation):
        """Limits 4 to 7, behind the statement of a relation."""
        where, name = self.text.where(relation.token), quoted(relation.name)
        rows = {it.name: len(it.rows) for it in self.relations.values()}
        many = sum(rows.values())
        self.limited(4, len(self.relations), where, f"there are {len(self.relations)} relations")
        said = f"{name} has {len(relation.attrs)} attributes"
        self.limited(5, len(relation.attrs), where, said, "leave out those that no rule needs")
        self.limited(6, many, where, f"the relations have {many} rows together", most_of(rows))
        entity, many = max(relation.sizes.items(), key=lambda it: it[1], default=("", 0))
        note = "a blank is an entity too: all records with it stand for one" if not entity.strip() else None
        self.limited(7, many, where, f"the entity {quoted(entity)} has {many} rows in {name}", note)

    def limits_of_all(self):
        """Limits 10 and 11, behind all statements."""
        pairs = {it.name: len(it.attrs) * sum(n * (n - 1) // 2 for n in it.sizes.values()) for it in self.relations.values()}
        many = sum(pairs.values())
        self.limited(10, many, None, f"there are {many} pairs of rows of one entity, attribute by attribute", most_of(pairs))
        instances = self.instances()
        many = sum(instances.values())
        self.limited(11, many, None, f"rules, copies and orders have {many} instances", most_of(instances))

    def instances(self):
        """How many instances the rules, the copy functions and the orders have."""
        found = {f"rule {it.name}": sum(n ** len(it.variables) for n in it.relation.sizes.values()) for it in self.rules.values()}
        for copy in self.copies.values():
            groups = collections.defaultdict(collections.Counter)
            for name, (origin, _) in copy.mapped.items():
                groups[copy.target.rows[name].entity, copy.source.rows[origin].entity][origin] += 1
            squares = sum(sum(it.values()) ** 2 - sum(n * n for n in it.values()) for it in groups.values())
            found[f"copy {copy.name}"] = len(copy.places) * squares
        for it in self.relations.values():
            found[f"orders of {it.name}"] = len(it.attrs) * sum(n * (n - 1) * (n - 2) // 3 for n in it.sizes.values())
        return found


def most_of(counts):
    listed = sorted(counts.items(), key=lambda it: -it[1])[:3]
    return "most are of " + ", ".join(f"{quoted(name)} ({many})" for name, many in listed)


class Question(Names):
    """A question on a specification."""

    def __init__(self, name, spec):
        super().__init__(Text(name, read(name, 2**24, 1)), spec.relations)
        [(self.first, self.parts)] = self.text.clauses("question")
        {"certain": self.certain, "same": self.same, "answers": self.answers}.get(self.first.text, lambda: None)()

    def certain(self):
        groups = split(self.parts[1:])
        tables = sum(use == "document" for use, _ in self.parts)
        many = 0
        for part in [groups] if tables <= 1 else [[it] for it in groups]:
            many += self.pairs(part)
            if many > LIMITS[12]:
                raise Fault("limit 12", None, f"{many} pairs are asked about, and {LIMITS[12]} is the most")
        if not many:
            raise refusal("E02", self.text.where(self.first), "no pair is asked about", "the table has no record but its header")

    def same(self):
        tokens = [it for _, it in self.parts[1:]]
        for token in tokens:
            self.known(self.named(token), self.relations, "relation")
        self.once(tokens, "relation")

    def answers(self):
        """Each check goes over the whole query before the next."""
        head, *disjuncts = self.disjuncts()
        for it in itertools.chain(*disjuncts):
            if it[0][0] == "atom":
                self.known(self.named(it[0][1]), self.relations, "relation")
        names, before = {it.name for it in head}, {}
        for disjunct in disjuncts:
            kinds = self.kinds(disjunct)
            for it in disjunct:
                self.one_kind(it, kinds, {name: kind for name, kind in before.items() if name in names})
            before = {**kinds, **before}
        self.query_limits(disjuncts)
        self.safe(head, disjuncts)

    def disjuncts(self):
        """The head, and the atoms and comparisons of each disjunct."""
        head, disjuncts = [it for use, it in self.parts if use == "head"], []
        for group in split([it for it in self.parts if it[0] not in ("is", "head")]):
            items = []
            for use, token in group:
                if use == "atom" or use == "side" and items[-1][-1][0] != "cmp":
                    items.append([])
                items[-1].append((use, token))
            disjuncts.append(items)
        return head, *disjuncts

    def places(self, atom):
        """What stands at the places of an atom, with the kinds of the places, where its relation has them."""
        kinds = ["text", *self.relations[atom[0][1].name].attrs.values()]
        return list(itertools.zip_longest([it for _, it in atom[1:]], kinds[: len(atom) - 1]))

    def kinds(self, disjunct):
        """The first kind of each variable."""
        kinds = {}
        for atom in disjunct:
            if atom[0][0] == "atom":
                for token, kind in self.places(atom):
                    if "variable" in token.names and kind:
                        kinds.setdefault(token.name, kind)
        return kinds

    def one_kind(self, item, kinds, before):
        """Refuses a comparison of two kinds, an atom with other places than its relation has, and a place of another kind."""

        def kind_of_side(side):
            token = side[0][1]
            return kinds.get(token.name) if "variable" in token.names else kind_of(token.value)

        if item[0][0] == "side":
            return self.compared(item, kind_of_side)
        relation = self.relations[item[0][1].name]
        if len(item) - 2 != len(relation.attrs):
            said = f"an atom of {quoted(relation.name)} has {len(relation.attrs) + 1} places, and not {len(item) - 1}"
            note = f"they are the entity, then {', '.join(map(quoted, relation.attrs))}; `_` stands for any value"
            raise refusal("E05", self.text.where(item[0][1]), said, note)
        for (token, kind), column in zip(self.places(item), ["the entity's name", *map(quoted, relation.attrs)]):
            is_variable = "variable" in token.names
            own = [kinds.get(token.name), before.get(token.name)] if is_variable else [kind_of(token.value)] * (token.text != "_")
            wrong = next((it for it in own if it and it != kind), None)
            if wrong:
                note = "a variable has one kind" if is_variable else "a text stands in quotes, and a number in none"
                raise refusal("E05", self.text.where(token), f"{column} is {kind}, and {quoted(token.text)} is {wrong}", note)

    def query_limits(self, disjuncts):
        counts = {"disjuncts": (len(disjuncts), 16)}
        for number, it in enumerate(disjuncts, 1):
            atoms = sum(item[0][0] == "atom" for item in it)
            counts[f"atoms in disjunct {number}"] = atoms, 8
            counts[f"comparisons in disjunct {number}"] = len(it) - atoms, 16
            counts[f"variables in disjunct {number}"] = len(self.kinds(it)), 32
        for what, (many, most) in counts.items():
            if many > most:
                raise Fault("limit 12", self.text.where(self.first), f"the query has {many} {what}, and {most} is the most")

    def safe(self, head, disjuncts):
        """Refuses a variable that stands in no atom: of the head in some disjunct, of a comparison in its own."""
        for token in head:
            for number, it in enumerate(disjuncts, 1):
                self.stands(token, self.kinds(it), f"disjunct {number}" if len(disjuncts) > 1 else "the query")
        for it in disjuncts:
            for item in it:
                for use, token in item:
                    if item[0][0] == "side" and use == "side" and "variable" in token.names:
                        self.stands(token, self.kinds(it), "its disjunct")

    def stands(self, token, kinds, where):
        if token.name not in kinds:
            note = near(token.name, kinds) or "put it at a place of an atom, as in R(e, x)"
            raise refusal("E15", self.text.where(token), f"the variable {quoted(token.name)} stands in no atom of {where}", note)


class Report(Names):
    """A report on a question, as far as the program reads it."""

    def __init__(self, name, spec):
        data = read(name, 2**63, 0)
        if len(data) > LONGEST_REPORT:
            raise Unseen(quoted(name))
        super().__init__(Text(name, data), spec.relations)
        self.lists = [(it, list(it.attrs), list(it.rows.values())) for it in spec.relations.values()]
        self.ranked, self.completions, self.statements, self.before = set(), [], 0, ()
        self.clauses, self.version, self.verdict = [], None, []
        for self.first, parts in self.text.clauses("report"):
            self.clauses.append(self.first)
            by = by_use(parts)
            self.version = self.version or by["version"][0].text
            self.verdict = self.verdict or by["verdict"]
            self.clause(parts[0][0] if parts else None, by)

    def named(self, token):
        """A name whose line is that of the clause's first word."""
        return Named(token.name, lambda: self.text.where(min(token, self.first, key=lambda it: (self.text.line(it), -it.at))))

    def clause(self, kind, by):
        """The checks of a clause, in order."""
        relation = self.known(self.named(by["relation"][0]), self.relations, "relation") if by["relation"] else None
        for attr in by["attr"]:
            self.known(self.named(attr), relation.attrs, "attribute", relation)
        for entity in by["entity"]:
            self.known(self.named(entity), relation.sizes, "entity", relation)
        for literal in by["literal"]:
            if int(literal.text.lstrip("-")) > self.statements:
                said = f"the literal {literal.text} is of no statement: there are {self.statements}"
                raise refusal("E03", self.named(literal).place(), said)
        if kind == "statement":
            self.statement(by)
        if kind == "completion":
            self.ranked = set()
            self.completions.append((self.first, []))
        if kind == "ranking":
            self.ranking(relation, by)
        for row in by["first"] + by["second"]:
            self.row(relation, self.named(row))

    def ranking(self, relation, by):
        place = relation.name, by["attr"][0].name, by["entity"][0].name
        if place in self.ranked:
            raise refusal("E04", self.text.where(self.first), f"{'.'.join(place[:2])} of {quoted(place[2])} is ranked twice here")
        self.ranked.add(place)
        self.completions[-1][1].append((relation, *place[1:], by["first"]))

    def statement(self, by):
        kind, numbers = by["kind"][0], [int(it.text) for it in by["n"]]
        rows = []
        if numbers:
            attrs = self.lists[min(numbers[0], len(self.lists)) - 1][1]
            for number, what, among in zip(numbers, ("relation", "attribute"), (self.lists, attrs)):
                if number > len(among):
                    raise refusal("E03", self.text.where(self.first), f"there is no {what} {number}: there are {len(among)}")
            rows = [self.lists[numbers[0] - 1][2][it - 1 : it] for it in numbers[2:]]
        values = [(isinstance(it.value, str), it.value if isinstance(it.value, int) else it.value.encode()) for it in by["value"]]
        order = ["before", "top", "last", "answer"].index(kind.text), tuple(numbers or values)
        if self.before and order <= self.before:
            raise refusal("E04", self.text.where(self.first), "this statement is not above the one before it")
        self.rows_of_statement(kind.text, numbers, rows)
        self.before, self.statements = order, self.statements + 1

    def rows_of_statement(self, kind, numbers, rows):
        where = self.text.where(self.first)
        if kind == "last" and rows[0]:
            [row], at = rows[0], numbers[1] - 1
            among = self.lists[numbers[0] - 1][2]
            if next(it for it in among if it.entity == row.entity and it.values[at] == row.values[at]) is not row:
                raise refusal("E05", where, f"row {numbers[2]} is not the first of its entity with its value")
        for number, row in zip(numbers[2:], rows):
            if not row:
                raise refusal("E10", where, f"there is no row {number}: there are {len(self.lists[numbers[0] - 1][2])}")
        if kind == "before" and (rows[0][0].entity != rows[1][0].entity or numbers[2] >= numbers[3]):
            said = f"rows {numbers[2]} and {numbers[3]} are of two entities, or not in the order of their numbers"
            raise refusal("E11", where, said)


def arguments(words):
    """The words of a command that are no options."""
    if words[:1] == ["verify"] and len(words) == 4:
        return words[1:]
    found, rest = [], iter(words[1:])
    for word in rest:
        if word == "--":
            found += rest
        elif word in ("--budget", "--guide"):
            next(rest, None)
        elif not word.startswith("--"):
            found.append(word)
    return found


def find(words):
    """Raises the first fault of the documents that these words name, and answers what was read."""
    command, names = words[0], arguments(words)
    if command == "trial":
        return []
    found = [Specification(names[0])]
    if command == "golden" and names[1] not in found[0].relations:
        line = " ".join(["currency", *words])
        where = Where("words", 1, line, line.rfind(names[1]), len(names[1]))
        raise refusal("E03", where, f"there is no relation {quoted(names[1])}", near(names[1], found[0].relations))
    if command in ("ask", "verify", "explain", "possible"):
        found.append(Question(names[1], found[0]))
    if command == "verify":
        found.append(Report(names[2], found[0]))
    return found
