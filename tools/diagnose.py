"""Reads specifications, questions, reports and tables as the program does, by the grammars of docs/LANGUAGES.md, and raises
what is at fault in their spelling (E01, E02, E06, E07) with its place, a sentence, and what to do. `faults.py` goes on from
there with what names mean. It is not proved: a fault is shown only where the refusal that it comes to is the program's own
text, byte for byte."""

import collections
import csv
import difflib
import functools
import io
import re

# the grammars of docs/LANGUAGES.md; behind a colon stands what a word is for
GRAMMAR = """
spec       = { statement ";" }
statement  = "relation":is name:relation "from" string:document [ "row" name:row ] "entity" name:entity "(" attr { "," attr } ")"
           | "order":is ordering | "orders":is name:relation "from" string:document
           | "rule":is name:rule "on" name:relation "(" variable:var { "," variable:var } ")" ":"
             [ "if":next predicate { "and":next predicate } "then":next ] conclusion
           | "copy":is name:copy "into" name:target "(" name:into { "," name:into } ")"
             "from" name:source "(" name:out { "," name:out } ")" ( ":" mapping { "," mapping } | "using" string:document )
attr       = name:attr ":" ( "text":kind | "int":kind )
ordering   = name:relation "." name:attr ":" name:first "<" name:second { "," name:first "<" name:second }
mapping    = name:first "from" name:second
predicate  = atomorder | term cmp term
atomorder  = variable:use "before" variable:use "in" name:attr
term       = variable:use "." name:attr | constant:const
cmp        = "=":cmp | "!=":cmp | "<":cmp | "<=":cmp | ">":cmp | ">=":cmp
conclusion = "false" | atomorder
question   = "consistent":is ";" | "certain":is asked { "and":next asked } ";" | "same":is name:relation { "," name:relation } ";"
           | "answers":is "(" [ variable:head { "," variable:head } ] ")" "where" disjunct { "or":next disjunct } ";"
asked      = ordering | "orders" name:relation "from" string:document
disjunct   = atom { "and" ( atom | operand cmp operand ) }
atom       = name:atom "(" place { "," place } ")"
place      = variable:place | "_":place | constant:place
operand    = variable:side | constant:side
report     = "currency" "report" ( "1":version | "2":version ) ";" "verdict" claim { completion } [ log ] "end" ";"
claim      = "inconsistent":verdict ";" | "consistent":verdict ";" | "certain":verdict ";" | "undecided":verdict digits ";"
           | "answers":verdict ";" { "answer" values ";" } | "same":verdict ";" { "current" name:relation name:entity values ";" }
           | "not":verdict ( "same":verdict place_of
           | "certain":verdict name:relation "." name:attr ":" name:first "<" name:second ) ";"
place_of   = name:relation "." name:attr "of" name:entity
values     = "(" [ constant { "," constant } ] ")"
completion = "completion":completion ";" { "ranking":ranking place_of ":" name:first { "<" name:first } ";" }
log        = "log" ";" { "statement":statement said ";" } { step ";" }
said       = "before":kind N:n N:n N:n N:n | "top":kind N:n N:n N:n | "last":kind N:n N:n N:n
           | "answer":kind "(" [ constant:value { "," constant:value } ] ")"
step       = ( "axiom" | "demand" ) label ":" { literal:literal } | ( "learn" | "derive" ) { literal:literal } "by" { N }
label      = "given" N N N N | "transitive" N N N N N | "rule" N { N } | "copy" N N N N
           | "above" N N N N | "top" N N N | "last" N N N | "value" N N N | "match" N { N } values
"""
RULES = dict(re.findall(r"(?m)^(\w+) += (.*(?:\n +.*)*)", GRAMMAR))
LITERALS = frozenset(re.findall(r'"[^"]+"', GRAMMAR))
RESERVED = ("if", "false", "orders")
NAMES = {"string": frozenset({"name", "string", "constant"}), "end": frozenset({"end"}), "fault": frozenset()}
# what may stand where, by what it is for, or else by its sort
MAY = """
relation target source atom: the name of a relation
document string: the name of a table in quotes
row: the name of a column
entity: the name of an entity
attr into out: the name of an attribute
first second: the name of a row
name rule copy: a name
variable: a variable
constant: a constant
N literal digits: a number
end: the end of the text
"""
MAY = {word: text for words, text in re.findall(r"(.+): (.+)", MAY) for word in words.split()}
TOKEN = re.compile(
    r'(?:[ \t\r\n]+|#[^\n]*)*(?:(?P<word>\w+)|(?P<symbol><=|>=|!=|[;,:().<>=])|(?P<negative>-\w+)'
    r'|(?P<string>"[^"]*(?:""[^"]*)*"(?!"))|(?P<end>\Z)|(?P<fault>"[\s\S]*|[\s\S]))',
    re.ASCII,
)
INT = re.compile(r"(-?)0*([0-9]{1,20})")
SPACED, SPACED_BEFORE = re.compile(r'[^\s;:,.()<>="#]*'), re.compile(r'[^\s;:,.()<>="#]*\Z')
FIELD = re.compile(r'(?:^|,)((?:"[^"]*(?:""[^"]*)*(?:"|$))?[^,]*)')
NO_TEXT = re.compile("[\udc80-\udcff]")
QUOTES = re.compile("[\u2018-\u201f'`\u00b4\u00ab\u00bb]")
COMPARISONS = ("=", "!=", "<", "<=", ">", ">=")
# how others write what stands in these languages otherwise
WRITTEN = {"==": "=", "<>": "!=", "&&": "and", "||": "or", "!": "!=", "=>": ">=", "=<": "<="}
Where = collections.namedtuple("Where", "document line text at width physical", defaults=(None,))


class Token(collections.namedtuple("Token", "text value at names")):
    """A token: its spelling, the constant that it is or else that spelling, where it begins, and what it may stand for."""

    @property
    def name(self):
        return self.value if isinstance(self.value, str) else self.text


class Fault(Exception):
    """A refusal: the program's text, where it is, what is wrong in a sentence, and what to do."""

    def __init__(self, said, where, sentence, *helps):
        super().__init__(said)
        self.said, self.where, self.sentence, self.helps = said, where, sentence, [it for it in helps if it]


def refusal(code, where, sentence, *helps, more=""):
    return Fault(f"error {code} {where.document} {where.line}{more}", where, sentence, *helps)


def escaped(text):
    """A text with its control characters, and bytes that are no UTF-8, as in `\\x1b`."""
    text = "".join(it if it.isprintable() else it.encode("unicode_escape").decode() for it in text)
    return re.sub(r"\\udc([89a-f])", r"\\x\1", text)


def quoted(name):
    """A name for a sentence: its control characters escaped, and cut where it is long."""
    name = escaped(str(name)[:100])
    return f"`{name if len(name) <= 60 else name[:57] + '...'}`"


def nearest(name, names):
    """Which of these names is the nearest, if one is near."""
    if len(name) > 100:
        return None
    names = [it for it in names if abs(len(it) - len(name)) < 4][:20000]
    same = [it for it in names if it.casefold().strip() == name.casefold().strip()]
    return next(iter(same or difflib.get_close_matches(name, names, 1)), None)


def whole(text, least=-(2**63), most=2**63 - 1):
    """The number that a text writes, within bounds."""
    match = INT.fullmatch(text)
    value = int(match[1] + match[2]) if match else None
    return value if match and least <= value <= most else None


@functools.lru_cache(100000)
def names_of(sort, text):
    """What a token that is no string may stand for."""
    is_name = sort == "word" and text not in RESERVED
    names = [f'"{text}"'] * (f'"{text}"' in LITERALS) + ["name"] * is_name
    names += ["variable"] * (is_name and text != "_" and not text[0].isdigit())
    names += ["literal"] * (whole(text.lstrip("-"), 1, 2**31) is not None)
    bounds = (("constant", -(2**63), 2**63 - 1), ("N", 1, 2**32 - 1), ("digits", 0, 2**64 - 1))
    return frozenset(names + [it for it, least, most in bounds if whole(text, least, most) is not None])


def token_of(match):
    sort, text = match.lastgroup, match[match.lastgroup]
    names = NAMES[sort] if sort in NAMES else names_of(sort, text)
    value = text[1:-1].replace('""', '"') if sort == "string" else whole(text) if "constant" in names else text
    return Token(text, value, match.start(sort), names)


class Automaton:
    """A grammar as a finite automaton, since nothing stands in itself: of each state what may come, what for, and what then."""

    def __init__(self, top):
        self.edges, self.skips, self.steps = [[]], [[]], {}
        end = self.choice(self.words(top), 0)
        self.edges[end].append(("end", None, self.state()))
        self.begin = self.closed({0})

    def state(self):
        self.edges.append([])
        self.skips.append([])
        return len(self.edges) - 1

    def words(self, name):
        return collections.deque(re.findall(r'"[^"]+"(?::\w+)?|[\w:]+|[][(){}|]', RULES[name]))

    def choice(self, words, begin):
        """Adds what stands up to a closing bracket, and answers the state behind it."""
        end, at = self.state(), begin
        while words and words[0] not in ("]", ")", "}"):
            word = words.popleft()
            if word == "|":
                self.skips[at].append(end)
            at = begin if word == "|" else self.item(word, words, at)
        self.skips[at].append(end)
        return end

    def item(self, word, words, at):
        if word in RULES:
            return self.choice(self.words(word), at)
        if word not in ("[", "(", "{"):
            label, use = re.fullmatch(r'("[^"]+"|\w+)(?::(\w+))?', word).groups()
            self.edges[at].append((label, use, self.state()))
            return self.edges[at][-1][2]
        begin = self.state()
        self.skips[at].append(begin)
        end = self.choice(words, begin)
        words.popleft()
        self.skips[begin] += [end] if word != "(" else []
        self.skips[end] += [begin] if word == "{" else []
        return end

    def closed(self, states):
        found, waiting = set(states), list(states)
        while waiting:
            new = set(self.skips[waiting.pop()]) - found
            found |= new
            waiting += new
        return frozenset(found)

    def step(self, states, names):
        """The states behind a token that may stand for this, and what it is for: of two such things the first in the alphabet."""
        found = [(use, to) for at in states for label, use, to in self.edges[at] if label in names]
        after = self.closed({to for _, to in found}), min((use for use, _ in found if use), default=None)
        self.steps[states, names] = after
        return after


automaton = functools.lru_cache(None)(Automaton)


class Text:
    """A document of tokens, and its places."""

    def __init__(self, name, data):
        self.name = name
        try:
            self.text = data.decode().removeprefix("\ufeff")
        except UnicodeDecodeError as wrong:
            self.text, byte = data.decode("latin-1"), data[wrong.start]
            where = self.at(wrong.start, 1)
            raise refusal("E01", where, f"the byte 0x{byte:02x} is no UTF-8 here", encoding(data, byte)) from None

    def line(self, token):
        return self.text.count("\n", 0, token.at) + 1

    def at(self, at, width):
        begin, end = self.text.rfind("\n", 0, at) + 1, self.text.find("\n", at)
        line = self.text[begin : end if end >= 0 else len(self.text)].rstrip("\r")
        return Where(self.name, self.text.count("\n", 0, begin) + 1, line, at - begin, width)

    def where(self, token):
        return self.at(token.at, len(token.text.partition("\n")[0]) or 1)

    def clauses(self, grammar):
        """What stands up to each `;`: its first token, and those that are for something, each with what it is for."""
        machine, found, parts, first, before, use = automaton(grammar), [], [], None, None, None
        states = machine.begin
        for match in TOKEN.finditer(self.text):
            sort, text = match.lastgroup, match[match.lastgroup]
            names = NAMES[sort] if sort in NAMES else names_of(sort, text)
            after, now = machine.steps.get((states, names)) or machine.step(states, names)
            if not after:
                may = [it[:2] for at in states for it in machine.edges[at]]
                raise self.syntax(token_of(match), before and token_of(before), use, may)
            if now == "cmp" and parts[-1][0] == "atom":
                parts[-1] = ("side", parts[-1][1])
            if now:
                parts.append((now, token_of(match)))
            first = first or match
            if text == ";":
                found.append((token_of(first), parts))
                parts, first = [], None
            if sort == "end":
                return found
            states, before, use = after, match, now

    def syntax(self, token, before, use, may):
        """The fault of a token, behind one that is for something, where these may stand."""
        words = {f"`{it[1:-1]}`" if it[0] == '"' else MAY.get(use) or MAY[it] for it, use in may}
        *most, last = sorted(words, key=lambda it: (it[0] != "`", it))
        listed = f"{', '.join(most)} or {last}" if most else last
        found = quoted(token.text.partition("\n")[0]) if token.text else "the end of the text"
        said = f"expected {listed}{' before' if listed == '`;`' else ', found'} {found}"
        advice = self.advice(token, before, use, {it for it, _ in may})
        return refusal("E02", self.where(token), said, advice and escaped(advice)[:200])

    def advice(self, token, before, use, may):
        """What to do about a token, behind one that is for something, where these may stand: the first that fits."""
        at, text, is_string = token.at, token.text, token.text[:1] == '"'
        around = SPACED_BEFORE.search(self.text[max(0, at - 60) : at])[0] + SPACED.match(self.text[at : at + 60])[0]
        path = re.match(r'[^\s;"]*', self.text[at : at + 60])[0]
        words = [it[1:-1] for it in may if it[0] == '"']
        joined = before is not None and before.at + len(before.text) == at
        is_word = "name" in token.names and not is_string
        near = difflib.get_close_matches(text[:40].lower(), filter(str.isalpha, words), 1) if is_word else None
        spellings = (self.text[at - joined : at - joined + 2], self.text[at : at + 2], text)
        written = next((it for it in spellings if it in WRITTEN), None)
        line = self.line(before) if before else 1
        behind = f"behind {quoted(before.text)} in line {line}" if before else "first"
        is_name = may & {"name", "variable", "constant"}
        cases = [
            (is_string and not token.names, "the quote that opens here is never closed; a quote within quotes is doubled"),
            (before and "\n" in before.text, f"the quote that is closed before it opens in line {line}: is it closed there?"),
            (QUOTES.search(around), 'names and texts stand in straight double quotes: "a b"'),
            ("\0" in self.text[:200], "this looks like UTF-16: save it as UTF-8 (iconv -f UTF-16 -t UTF-8)"),
            (before is None and token.names & LITERALS, "is this the right file? SPEC comes first, then QUESTION, then REPORT"),
            (self.text[at : at + 2] in ("--", "//", "/*"), "a comment begins with `#`, and ends with the line"),
            (written, f"write `{WRITTEN.get(written)}` for `{written}`"),
            (text in RESERVED and is_name, f'`{text}` is a reserved word; the name is written "{text}"'),
            (text == "." and joined and before.text.isdigit(), "numbers are integers, and have no decimals"),
            (near, f"is `{near and near[0]}` meant?"),
            (is_string and token.value in words, f"write `{token.value}` without quotes"),
            ("string" in may and "name" in token.names, f'the name of a document stands in quotes: "{path}"'),
            (may == {'"."'} and use == "use", f'a text stands in quotes: "{before and before.text}"'),
            (not re.fullmatch(r"-?\w*", around, re.ASCII), f'a name with more than letters, digits and _ is quoted: "{around}"'),
            (INT.fullmatch(text) and is_name, "a number is an integer of 64 bits, and no name of a variable"),
            (may == {"end"}, "nothing more may stand in this file"),
            (before is None and not text, "the file is empty, but for blanks and comments"),
            (use == "atom" and text in COMPARISONS, "comparisons stand behind an atom, as in `R(e, x) and x > 1`"),
            (text == "," and '"and"' in may, "predicates are joined by `and`"),
            (before and words == [before.text], "a name is missing before it"),
            ('")"' in may and "name" not in token.names, f"write `)` {behind}"),
            ('";"' in may and (not text or token.names & LITERALS or self.line(token) > line), f"write `;` {behind}"),
            ('","' in may, f"write `,` {behind}"),
            ('";"' in may, f"write `;` {behind}"),
            (len(words) == len(may) == 1, f"write `{words and words[0]}` {behind}"),
        ]
        return next((text for test, text in cases if test), None)


class Table:
    """A table: its records, each with the place of its first line."""

    def __init__(self, name, data):
        csv.field_size_limit(2**31 - 1)
        text = data.decode("utf-8", "surrogateescape").removeprefix("\ufeff")
        self.name, self.lines, self.records = name, list(io.StringIO(text, newline="")), []
        reader, begin = csv.reader(self.lines), 0
        for fields in reader:
            if fields:
                self.records.append((fields, begin))
            begin = reader.line_num
        self.header, self.end = self.records[0][0] if self.records else [], begin
        is_text = not NO_TEXT.search(text)
        for number, (fields, _) in enumerate(self.records, 1):
            if len(fields) != len(self.header):
                raise self.ragged(number, fields)
            bad = [] if is_text else [at for at, it in enumerate(fields) if NO_TEXT.search(it)]
            if bad:
                byte = ord(NO_TEXT.search(fields[bad[0]])[0]) - 0xDC00
                raise refusal("E06", self.where(number, bad[0]), f"the byte 0x{byte:02x} is no UTF-8 here", encoding(data, byte))

    def where(self, number, column=0):
        """The place of a column in the first line of a record."""
        begin = self.records[number - 1][1]
        line = self.lines[begin].rstrip("\r\n")
        spans = [it.span(1) for it in FIELD.finditer(line)]
        at, end = spans[column] if column < len(spans) else (len(line), len(line))
        return Where(self.name, number, line, at, max(1, end - at), begin + 1)

    def ragged(self, number, fields):
        """The refusal of a record with another number of fields than the header."""
        wanted, begin = len(self.header), self.records[number - 1][1]
        end = self.records[number][1] if number < len(self.records) else self.end
        first = len(FIELD.findall(self.lines[begin].rstrip("\r\n"))) - 1
        advice, column = f"the header has {', '.join(map(quoted, self.header[:8]))}", min(len(fields), wanted)
        if end > begin + 1 and '"' in self.lines[begin]:
            column, advice = first, f"a quote opens here, and the record runs to line {end}; within quotes a quote is doubled"
        elif len(fields) > wanted:
            advice = "a field with a comma stands in quotes"
        many = f"{len(fields)} field{'s' * (len(fields) != 1)}"
        return refusal("E06", self.where(number, column), f"this record has {many}, the header has {wanted}", advice)

    def columns(self, names):
        """The places of these columns. The header has each just once."""
        for name in names:
            many = self.header.count(name)
            if many != 1:
                raise self.no_column(name, many)
        return [self.header.index(name) for name in names]

    def no_column(self, name, many):
        """The refusal of a column that the header does not have just once."""
        if not self.records:
            return refusal("E07", Where(self.name, 1, "", 0, 1, 1), f"the table is empty, and has no column {quoted(name)}")
        if many:
            second = self.header.index(name, self.header.index(name) + 1)
            said = f"the column {quoted(name)} is in the header twice"
            return refusal("E07", self.where(1, second), said, "rename one of them")
        near = nearest(name, self.header)
        column = self.header.index(near) if near else 0
        advice = f"the header has {', '.join(map(quoted, self.header[:8]))}"
        advice = f"the nearest that is there is {quoted(near)}" if near else advice
        for mark, said in ((";", "`;`"), ("\t", "tabs"), ("|", "`|`")):
            if len(self.header) == 1 and mark in self.header[0]:
                advice = f"the fields seem to be separated by {said}; a comma has to separate them"
        return refusal("E07", self.where(1, column), f"the column {quoted(name)} is not in the header", advice)


def encoding(data, byte):
    """What bytes may be that are no UTF-8, and what to do."""
    if data.startswith(b"\x1f\x8b"):
        return "this is packed by gzip: unpack it (gunzip)"
    if b"\0" in data[:100]:
        return "this looks like UTF-16: save it as UTF-8 (iconv -f UTF-16 -t UTF-8)"
    latin = quoted(bytes([byte]).decode("cp1252", "replace"))
    return f"in Latin-1 it would be {latin}: convert the file (iconv -f LATIN1 -t UTF-8)"
