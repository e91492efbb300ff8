"""What a person would want to know of a specification before they ask: what is odd about its tables and rules, each with file
and record, and how much of each limit is used. It is not proved, and asks the program nothing."""

import collections
import operator
import re

import faults
from diagnose import Fault, nearest, quoted, whole
from show import shown

COMPARES = {"=": operator.eq, "!=": operator.ne, "<": operator.lt, "<=": operator.le, ">": operator.gt, ">=": operator.ge}
# so many choices of rows are tried for one rule
MOST_CHOICES = 10**6
# from this share of a limit on it is warned of
NEAR = 0.8


class Loose(faults.Specification):
    """A specification that is read on past fields that are no integers, and past limits."""

    def __init__(self, name):
        self.odd, self.beyond = collections.defaultdict(list), []
        super().__init__(name)

    def value(self, relation, number, attr, kind, at, field):
        try:
            return super().value(relation, number, attr, kind, at, field)
        except Fault:
            self.odd[relation.name, attr].append((number, field))
            return None

    def copied(self, copy, a, b, row, origin):
        if None in row.values or None in origin.values:
            copy.mapped[a.name] = b.name, a.place
        else:
            super().copied(copy, a, b, row, origin)

    def limited(self, *words, **more):
        try:
            super().limited(*words, **more)
        except Fault as fault:
            self.beyond.append(f"limit {words[0]}: {fault.sentence}")


def records(relation, numbers):
    """The table with some records of it, for a warning."""
    listed = ", ".join(map(str, numbers[:5])) + (", ..." if len(numbers) > 5 else "")
    return f"{relation.table.name}, record{'s' * (len(numbers) > 1)} {listed}"


def blank_entities(spec):
    for relation in spec.relations.values():
        blank = [it.record for it in relation.rows.values() if not it.entity.strip()]
        if blank:
            many = "s have a blank entity, and those with the same blank are one" if len(blank) > 1 else " has a blank entity"
            yield f"{records(relation, blank)}: {len(blank)} record{many}"


def plain(name):
    return " ".join(name.split()).casefold()


def alike(spec):
    """Entities and rows whose names differ in blanks or case alone."""
    for relation in spec.relations.values():
        first = {it.entity: it.record for it in reversed(relation.rows.values())}
        names = {name: row.record for name, row in relation.rows.items()} if relation.row else {}
        for what, found in (("entities", first), ("rows", names)):
            groups = collections.defaultdict(list)
            for name in found:
                groups[plain(name)].append(name)
            for same in groups.values():
                if len(same) > 1 and plain(same[0]):
                    listed = ", ".join(quoted(it) for it in sorted(same, key=found.get)[:5])
                    where = records(relation, sorted(found[it] for it in same))
                    yield f"{where}: the {what} {listed} differ in blanks or case alone"


def odd_integers(spec):
    """Blanks, decimals and other texts in columns of integers."""
    for (name, attr), fields in spec.odd.items():
        kinds = collections.defaultdict(list)
        for number, field in fields:
            is_decimal = re.fullmatch(r"\s*[+-]?\d*[.,]\d+\s*", field, re.ASCII)
            kinds["blank" if not field.strip() else "a decimal" if is_decimal else "no integer"].append(number)
        for kind, numbers in kinds.items():
            relation = spec.relations[name]
            many = f"{len(numbers)} field{'s are' if len(numbers) > 1 else ' is'} {kind}"
            yield f"{records(relation, numbers)}: {quoted(attr)} is int, and {many}"


def comparisons(rule):
    """The comparisons of a rule: left side, sign and right side."""
    for group in rule.premises:
        at = next((at for at, (use, _) in enumerate(group) if use == "cmp"), None)
        if at is not None:
            yield group[:at], group[at][1].text, group[at + 1 :]


def attribute(side):
    return side[1][1].name if side[0][0] == "use" else None


def values(relation, attr):
    at = list(relation.attrs).index(attr)
    return {it.values[at] for it in relation.rows.values()}


def numbers_as_text(spec):
    """Columns of texts that are all numbers, and that a rule compares by their order."""
    told = set()
    for rule in spec.rules.values():
        for left, sign, right in comparisons(rule):
            for attr in filter(None, (attribute(left), attribute(right))):
                found = {it for it in values(rule.relation, attr) if isinstance(it, str) and it.strip()}
                is_number = found and rule.relation.attrs[attr] == "text" and all(whole(it.strip()) is not None for it in found)
                if sign in ("<", "<=", ">", ">=") and is_number and (rule.name, attr) not in told:
                    told.add((rule.name, attr))
                    line = spec.text.line(left[0][1])
                    said = f"{spec.text.name}, line {line}: the rule {quoted(rule.name)} compares {quoted(attr)} as text"
                    yield f"{said}, where `9` is above `10`: declare it as int"


def unknown(value, relation, attr):
    """What there is in place of a value that a column does not have."""
    found = values(relation, attr)
    if value in found:
        return None
    near = nearest(value, [it for it in found if it is not None]) if isinstance(value, str) else None
    said = f"no record of {quoted(relation.name)} has {quoted(value)} in {quoted(attr)}"
    return f"{said}; {quoted(near)} is there" if near else said


def absent_constants(spec):
    """Constants of rules that stand in no record, where they are compared by `=` or `!=`."""
    for rule in spec.rules.values():
        for left, sign, right in comparisons(rule):
            for side, other in ((left, right), (right, left)):
                if side[0][0] == "const" and attribute(other) and sign in ("=", "!="):
                    said = unknown(side[0][1].value, rule.relation, attribute(other))
                    if said:
                        yield f"{spec.text.name}, line {spec.text.line(side[0][1])}: {said}, as the rule {quoted(rule.name)} asks"


def constants_of(question):
    """The constants of a query at places: each with its relation and its column, none for the entity."""
    for item in (it for disjunct in question.disjuncts()[1:] for it in disjunct):
        if item[0][0] == "atom":
            relation = question.relations[item[0][1].name]
            for (_, token), attr in zip(item[1:], [None, *relation.attrs]):
                if "constant" in token.names:
                    yield token, relation, attr


def absent_entities(question):
    """Entities that a query names and that are not there."""
    for token, relation, attr in constants_of(question):
        if attr is None and token.value not in relation.sizes:
            near = nearest(token.value, relation.sizes)
            more = f"; {quoted(near)} is there" if near is not None else ""
            where = f"{question.text.name}, line {question.text.line(token)}"
            yield f"{where}: {quoted(relation.name)} has no entity {quoted(token.value)}{more}"


def absent_in_query(question):
    yield from absent_entities(question)
    for token, relation, attr in constants_of(question):
        said = unknown(token.value, relation, attr) if attr is not None else None
        if said:
            yield f"{question.text.name}, line {question.text.line(token)}: {said}"


class Instances:
    """The instances of a rule: rows of one entity for its variables, for which its comparisons hold."""

    def __init__(self, rule):
        self.rule, self.tried = rule, 0
        places = {attr: at for at, attr in enumerate(rule.relation.attrs)}
        variables = {name: at for at, name in enumerate(rule.variables)}

        def side(parts):
            if parts[0][0] == "const":
                return None, None, parts[0][1].value
            return variables[parts[0][1].name], places[parts[1][1].name], None

        tests = [(COMPARES[sign], side(left), side(right)) for left, sign, right in comparisons(rule)]
        self.tests = [[] for _ in range(len(variables) + 1)]
        for test in tests:
            last = max((it[0] for it in test[1:] if it[0] is not None), default=-1)
            self.tests[last + 1].append(test)
        self.orders = [[] for _ in range(len(variables) + 1)]
        for group in rule.premises:
            if len(group) == 3 and group[1][0] == "use":
                pair = variables[group[0][1].name], variables[group[1][1].name]
                self.orders[max(pair) + 1].append(pair)

    def holds(self, chosen):
        """Do the comparisons hold, and the order predicates have two rows, as far as the row of the last variable says?"""
        for compare, *sides in self.tests[len(chosen)]:
            left, right = (value if var is None else chosen[var].values[at] for var, at, value in sides)
            if left is None or right is None or not compare(encoded(left), encoded(right)):
                return False
        return all(chosen[a] is not chosen[b] for a, b in self.orders[len(chosen)])

    def is_there(self, rows, chosen=()):
        """Is there an instance of these rows? None where too much would have to be tried."""
        self.tried += 1
        if self.tried > MOST_CHOICES:
            return None
        if not self.holds(chosen):
            return False
        if len(chosen) == len(self.rule.variables):
            return True
        for row in rows:
            found = self.is_there(rows, (*chosen, row))
            if found is not False:
                return found
        return False

    def of_one_row(self):
        """The first row that is an instance taken for all variables."""
        many = len(self.rule.variables)
        rows = self.rule.relation.rows.values()
        return next((it for it in rows if all(self.holds((it,) * n) for n in range(many + 1))), None)


def encoded(value):
    return value.encode() if isinstance(value, str) else value


def entities(relation):
    found = collections.defaultdict(list)
    for row in relation.rows.values():
        found[row.entity].append(row)
    return found.values()


def idle_rules(spec):
    """Rules that have no instance in any entity."""
    for rule in spec.rules.values():
        instances, answers = Instances(rule), set()
        for rows in entities(rule.relation):
            answers.add(instances.is_there(rows))
            if answers & {True, None}:
                break
        if not answers & {True, None}:
            line = spec.text.line(rule.token)
            yield f"{spec.text.name}, line {line}: the rule {quoted(rule.name)} has no instance in any entity, and says nothing"


def rules_of_one_row(spec):
    """Rules that one row taken for each variable breaks."""
    for rule in spec.rules.values():
        row = Instances(rule).of_one_row() if len(rule.variables) > 1 else None
        if row:
            what = "a row would come before itself" if rule.conclusion else "it would be false"
            where = f"{spec.text.name}, line {spec.text.line(rule.token)}"
            said = f"the rule {quoted(rule.name)} holds for {records(rule.relation, [row.record])} taken twice"
            yield f"{where}: {said}, and {what}: no history fits"


def uses(spec):
    """How much of each limit is used, and by what most."""
    relations = spec.relations.values()
    rows = {it.name: len(it.rows) for it in relations}
    largest = {f"{name} of {it.name}": many for it in relations for name, many in it.sizes.most_common(3)}
    pairs = {it.name: len(it.attrs) * sum(n * (n - 1) // 2 for n in it.sizes.values()) for it in relations}
    yield 4, "relations", len(rows), ""
    yield 5, "attributes of a relation", max((len(it.attrs) for it in relations), default=0), ""
    yield 6, "rows", sum(rows.values()), listed(rows)
    yield 7, "rows of an entity", max(largest.values(), default=0), listed(largest)
    yield 8, "rules", len(spec.rules), ""
    yield 9, "copy functions", len(spec.copies), ""
    yield 10, "pairs of rows", sum(pairs.values()), listed(pairs)
    yield 11, "instances", sum(spec.instances().values()), listed(spec.instances())


def listed(counts):
    most = sorted(counts.items(), key=lambda it: -it[1])[:3]
    return ": " + ", ".join(f"{quoted(name)} {many}" for name, many in most if many) if any(counts.values()) else ""


def warnings(spec, questions):
    for check in (blank_entities, alike, odd_integers, numbers_as_text, absent_constants, idle_rules, rules_of_one_row):
        yield from check(spec)
    for question in questions:
        if question.first.text == "answers":
            yield from absent_in_query(question)
    yield from spec.beyond
    for number, what, many, _ in uses(spec):
        if NEAR * faults.LIMITS[number] <= many <= faults.LIMITS[number]:
            yield f"limit {number}: {many} {what} of {faults.LIMITS[number]} are used"


def main(names):
    """Prints what is odd, and the use of limits. The status is 1 where something is odd."""
    try:
        spec = Loose(names[0])
        questions = [faults.Question(it, spec) for it in names[1:]]
    except Fault as fault:
        print(shown(" ".join(fault.said.split(" ")[:2]), fault.where, fault.sentence, fault.helps), end="")
        return 1
    except faults.Unseen as fault:
        print(f"{fault} is no file, and is not read")
        return 1
    found = list(dict.fromkeys(warnings(spec, questions)))
    for it in found:
        print(f"warning: {it}")
    for number, what, many, most in uses(spec):
        print(f"limit {number}: {what} {many} of {faults.LIMITS[number]}{most}")
    return 1 if found else 0
