"""The words of the command line: how the program and its script are used, what codes and limits mean, and which word was
refused."""

import difflib

# of each command its arguments, its options, and what it does
COMMANDS = {
    "ask": (
        "SPEC QUESTION",
        ("--budget", "--brief", "--verdict", "--csv", "--exit", "--guide"),
        """answers a question about a specification by a report: the verdict, completions that show what holds in
some consistent completion, and a derivation of what holds in all of them""",
    ),
    "verify": ("SPEC QUESTION REPORT", (), "accepts a report exactly where it shows its verdict"),
    "forced": ("SPEC", (), "lists the orders of rows that given pairs, rules and copies force"),
    "explain": (
        "SPEC QUESTION N",
        ("--budget", "--guide"),
        """says why the Nth asked pair, value or answer is certain, or why nothing is consistent: the given pairs, rules
and copied rows that suffice, with a completion for each that shows that it is needed""",
    ),
    "conflicts": ("SPEC", ("--budget", "--guide"), "lists which entities contradict what is said of them, and by what"),
    "golden": (
        "SPEC RELATION",
        ("--budget", "--guide"),
        """gives a relation's records as CSV, one for each entity: the values that are current in every history that fits,
an empty field where two are possible, and the names of these attributes""",
    ),
    "possible": (
        "SPEC QUESTION",
        ("--budget", "--brief", "--csv", "--guide"),
        """lists what some consistent completion has of what is asked (pairs, current values, matches of a query), each
with such a completion, and what none has, with a report that shows it (--brief leaves these reports out)""",
    ),
    "session": (
        "SPEC SCRIPT",
        ("--budget", "--brief", "--guide"),
        """adds to a specification and withdraws from it what a script says, and answers the questions that stand in between,
each about the specification as it is then""",
    ),
    "trial": ("N", (), "answers four questions about a generated specification of N entities, 1 to 1000"),
}
# what the script does by itself
OWN = {
    "lint": ("SPEC [QUESTION...]", (), "says what is odd about tables and rules, and how much of each limit is used"),
    "page": (
        "SPEC [--entity NAME] [--out FILE]",
        (),
        """draws a page of HTML (page.html where no FILE is said): which values are current, which are open, and why; of what
no history fits, the statements that contradict each other""",
    ),
    "shards": (
        "cut SPEC FOLDER | run FOLDER COMMAND... | join FOLDER | check FOLDER",
        ("--rows", "--jobs", "--sshloginfile", "--resume"),
        """answers for tables of any length: cut writes folders with parts of the tables, each within all limits, run gives
COMMAND (golden, ask, possible, forced or conflicts, with its words) to the program in each of them by GNU parallel,
join puts together what is said, check reads the tables and the folders once more""",
    ),
    "install": ("PREFIX", (), "puts the program, this script and the documents into PREFIX/bin, PREFIX/lib and PREFIX/share"),
    "help": ("[COMMAND]", (), "says how a command is used"),
}
OPTIONS = {
    "--budget": ("--budget N", "how many clauses may be learned, 1 to 10000000 (100000 where none is said)"),
    "--brief": ("--brief", "leaves the derivation out"),
    "--verdict": ("--verdict", "tells the verdict with its items alone"),
    "--exit": ("--exit", "ends with status 1 where the verdict is inconsistent, not certain or not same"),
    "--csv": ("--csv", "gives the answers of a query as CSV; of possible each with whether it is certain"),
    "--guide": ("--guide K", "keeps one of the four guides that steer the search, 1 to 4"),
}
# of what the script does by itself
OWN_OPTIONS = {
    "--rows": ("--rows N", "cut: how many rows a folder has at most, 1 to 100000 (50000 where none is said)"),
    "--jobs": ("--jobs J", "run: how many at a time, as parallel has it"),
    "--sshloginfile": ("--sshloginfile F", "run: the hosts, as parallel has them"),
    "--resume": ("--resume", "run: goes on with what was begun, and runs again what failed"),
}
BEFORE = """before the command, and --explain-errors behind it too:
  -C FOLDER         runs in this folder
  --explain-errors  says on standard error what a refusal means, and what may help; at a terminal it is said anyway
"""
STATUSES = """SPEC, QUESTION and REPORT are files; the tables that they name stand where the program is run.

status 0 done    1 no (with --exit)    2 words refused    3 undecided    4 report refused    5 document refused    6 limit exceeded
       7 a file could not be read    8 the output could not be written    9 want of memory
       10 no consistent history, of which no table could tell
"""
# the most that a number among the words may be
MOST = {"--budget": 10**7, "--guide": 4, "trial": 1000, "explain": 2**32 - 1}
MEANINGS = """
E01: the text is not UTF-8
E02: the text is not as the grammar has it from here on
E03: a name of no relation, attribute or entity, or a number beyond those that are there
E04: a name is given twice, or a part stands twice
E05: kinds or lengths do not match: text and int are compared, or lists differ in length
E06: a record has another number of fields than the header, or a field is not UTF-8
E07: the header lacks a column, or has it twice
E08: a field is not an integer of 64 bits
E09: two rows have one name
E10: a row is not there
E11: the two rows are one, or of two entities
E12: a row is mapped twice
E13: a copied row has another value than the row that it is copied from; the two values follow the line
E15: a variable stands in no atom
V1: the completion that begins here is not consistent
V2: this step of the derivation is no axiom of the specification, or does not follow from the steps that it names
V3: what the report lists and derives does not show its verdict
limit 1: a specification or a question has at most 16 MiB
limit 2: a table has at most 64 MiB
limit 3: a query has at most 1000000 answers
limit 4: a specification has at most 64 relations
limit 5: a relation has at most 32 attributes
limit 6: the relations have at most 100000 rows together
limit 7: an entity has at most 64 rows in a relation
limit 8: there are at most 256 rules, of 4 variables and 16 predicates
limit 9: there are at most 64 copy functions
limit 10: there are at most 4000000 pairs of rows of one entity, attribute by attribute
limit 11: there are at most 8000000 instances of rules, copies and transitivity
limit 12: a question asks at most 10000000 pairs, or has 16 disjuncts of 8 atoms, 32 variables and 16 comparisons
limit 13: a query has at most 1000000 matches
read fault: a file could not be read
"""
MEANINGS = dict(line.split(": ", 1) for line in MEANINGS.split("\n") if line)


def line_of(name):
    """How a command is used, in a line."""
    arguments, options, _ = {**COMMANDS, **OWN}[name]
    return " ".join(["currency", name, arguments, *(f"[{spelled_of(it)[0]}]" for it in options)])


def spelled_of(option):
    """How an option is spelled, and what it says."""
    return {**OPTIONS, **OWN_OPTIONS}[option]


def described(name):
    what = {**COMMANDS, **OWN}[name][2].replace("\n", "\n" + " " * 13)
    return f"  {name:10} {what}\n"


def lines_of_all():
    lines = [line_of(it) for it in [*COMMANDS, *OWN]] + ["currency --help | --version"]
    return "usage: " + "\n       ".join(lines) + "\n"


def usage():
    """How all is used."""
    does = "".join(described(it) for it in [*COMMANDS, *OWN])
    options = "".join(f"  {spelling:16}  {what}\n" for spelling, what in OPTIONS.values())
    example = "example: cd examples/rules && ../../currency ask s q\n"
    return f"{lines_of_all()}\n{does}\noptions:\n{options}\n{BEFORE}\n{STATUSES}\n{example}"


def help_of(name):
    """How a command is used."""
    options = "".join("  {:17} {}\n".format(*spelled_of(it)) for it in {**COMMANDS, **OWN}[name][1])
    return f"usage: {line_of(name)}\n\n{described(name)}{options}"


def is_number(word, most):
    return word.isascii() and word.isdigit() and word[0] != "0" and len(word) < 12 and int(word) <= most


def refused(words):
    """Which word the program refuses, as far as that can be seen, and how the command is used."""
    if not words or words[0] not in {**COMMANDS, **OWN}:
        near = difflib.get_close_matches(words[0][:40], [*COMMANDS, *OWN], 1) if words else []
        said = f"there is no command `{words[0][:40]}`" if words else "a command is wanted"
        return said + (f"; is `{near[0]}` meant?" if near else ""), lines_of_all()
    command, rest, known = words[0], iter(words[1:]), {**COMMANDS, **OWN}
    given, seen, wrong = [], set(), None
    for word in rest:
        option, equals, value = word.partition("=")
        if word == "--":
            given += rest
        elif not word.startswith("-") or word == "-":
            given.append(word)
        elif option not in known[command][1]:
            near = difflib.get_close_matches(option[:40], known[command][1], 1)
            wrong = wrong or f"`{option[:40]}` is not taken here" + (f"; is `{near[0]}` meant?" if near else "")
        elif option in seen:
            wrong = wrong or f"`{option}` is given twice"
        elif option in MOST:
            value = value if equals else next(rest, "")
            wrong = wrong or (None if is_number(value, MOST[option]) else number(option, value))
        seen.add(option)
    wanted = known[command][0].split()
    if command in MOST and len(given) == len(wanted) and not is_number(given[-1], MOST[command]):
        wrong = wrong or number(command, given[-1])
    if len(given) < len(wanted):
        wrong = wrong or f"{wanted[len(given)]} is wanted"
    if len(given) > len(wanted):
        wrong = wrong or f"`{given[len(wanted)][:40]}` is one word too many"
    return wrong or "these words do not go together", help_of(command)


def number(option, value):
    said = f"`{value[:40]}`" if value else "nothing"
    return f"{option} takes a number from 1 to {MOST[option]}, in digits alone, and not {said}"
