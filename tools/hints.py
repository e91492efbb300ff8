"""What the program's answer means for a person: a refusal with its place and what to do, and what may help elsewhere. It is
not proved. Where the reading of the documents does not come to the program's refusal, byte for byte, the line that the
program names is shown, and no more."""

import itertools
import pathlib
import re
import shlex
import subprocess
import tempfile
import time

import faults
import lint
from diagnose import Fault, Where, quoted
from faults import constant
from show import shown
from words import MEANINGS

# how long the program may take to say what a completion breaks, in seconds
MOST_SECONDS = 10
# what a report with this verdict may lack
LACKS = {
    "inconsistent": "no step of the log is the empty clause",
    "consistent": "no completion is listed",
    "certain": "no completion is listed, or an asked pair has no step that is its unit",
    "not certain": "no listed completion has the pair the other way round, or the pair is not asked",
    "same": "a value has no step that says that it is the current one, or the items are not the entities of the asked relations",
    "not same": "no two listed completions differ at the place, or its relation is not asked",
    "answers": "an answer has no step that says so, or the answers are not those that all listed completions have, in order",
    "undecided": "the log has more or fewer counted steps",
}
OF_QUESTION = {
    "consistent": ["consistent"],
    "certain": ["certain", "not certain"],
    "same": ["same", "not same"],
    "answers": ["answers"],
}


def of(program, words, status, said, asked):
    """All that is to be said on standard error."""
    if status not in (4, 5, 6, 7):
        return "".join(f"currency: {it}\n" for it in hints(words, said, asked))
    fault, documents = read(words)
    if fault and fault.said + "\n" == said:
        return shown(" ".join(fault.said.split(" ")[:2]), fault.where, fault.sentence, fault.helps)
    return plain(words, said, shown_faults(program, documents, said) if status == 4 and len(documents) == 3 else [])


def read(words):
    """The first fault of the documents, and else what was read of them."""
    try:
        return None, faults.find(words)
    except Fault as found:
        return found, []
    except faults.Unseen:
        return None, []


def meaning(words, said):
    """The place of a refusal, what it means, and what may help."""
    fault, _ = read(words)
    if fault and fault.said + "\n" == said:
        return fault.where, fault.sentence, fault.helps
    return (*named(words, said), [])


def named(words, said):
    """The line that a refusal names, where that can be read, and what its code means."""
    code = next((it for it in MEANINGS if re.match(rf"(error |refused )?{it}\b", said)), None)
    form = r"error E13 (.*?) (\d+) " if said.startswith("error E13") else r"(?:error|refused) \w+ (.*) (\d+)\n\Z"
    place = re.match(form, said, re.DOTALL)
    where = line_of(place[1], int(place[2]), place[1] in faults.arguments(words)) if place else None
    return where, MEANINGS.get(code, "the program refuses this")


def plain(words, said, helps):
    """A refusal in words, with the line that the program names."""
    return shown(" ".join(said.split()[:2]), *named(words, said), helps)


def line_of(name, number, is_text):
    """The place of a line of a document, or of a record of a table."""
    try:
        if is_text:
            lines = faults.read(name, 2**28, 2).split(b"\n")
            return Where(name, number, lines[number - 1].decode("utf-8", "replace").rstrip("\r"), 0, 0)
        return faults.Table(name, faults.read(name, 2**26, 2)).where(number)._replace(width=0)
    except Exception:  # (what cannot be read again is not shown)
        return Where(name, number, "", 0, 0)


def shown_faults(program, documents, said):
    """What more can be said of a report that does not show its verdict."""
    spec, question, report = documents
    line = int(said.split()[-1])
    if said.startswith("refused V1"):
        return flaw(program, spec, report, line)
    if said.startswith("refused V2"):
        step = next((it for it in report.clauses if report.text.line(it) == line), None)
        label = "its literals are not the clause of its label" if step and step.text in ("axiom", "demand") else None
        return [label or "its clause does not follow from the steps behind `by`, or one of these is not above it"]
    verdict = " ".join(it.text for it in report.verdict)
    if verdict not in ("inconsistent", "undecided", *OF_QUESTION[question.first.text]):
        return [f"the question is `{question.first.text}`, and `{verdict}` is no answer to it"]
    return [LACKS[verdict]]


def rankings(report, line):
    """What the completion of this line ranks, by relation, attribute and entity."""
    at = next(at for at, (first, _) in enumerate(report.completions) if report.text.line(first) == line)
    lists = {}
    for number in sorted({0, at}) if report.version == "2" else [at]:
        for relation, attr, entity, rows in report.completions[number][1]:
            lists[relation.name, attr, entity] = [it.name for it in rows]
    return lists


def flaw(program, spec, report, line):
    """What the completion of this line breaks."""
    lists = rankings(report, line)
    for relation in spec.relations.values():
        rows = {}
        for name, row in relation.rows.items():
            rows.setdefault(row.entity, []).append(name)
        for attr in relation.attrs:
            for entity, names in rows.items():
                listed = lists.get((relation.name, attr, entity), [])
                wrong = next((it for it in [*names, *listed] if (it in names) + listed.count(it) != 2), None)
                if wrong is not None:
                    how = "is missing" if wrong not in listed else "stands twice"
                    how = "is of another entity" if wrong not in names else how
                    place = f"{relation.name}.{attr} of {entity}"
                    return [f"in the ranking of {quoted(place)} the row {quoted(wrong)} {how}"]
    return broken(program, spec, lists)


def broken(program, spec, lists):
    """What a completion breaks, in the program's words: `conflicts` on the specification with the completion's orders as given
    pairs, and then on those alone with one statement that it names."""
    texts = {}
    for (relation, attr, _), rows in lists.items():
        pairs = [(attr, *pair) for pair in zip(rows, rows[1:])]
        texts.setdefault(relation, []).extend(",".join('"' + it.replace('"', '""') + '"' for it in pair) for pair in pairs)
    clauses = spec.text.clauses("spec")
    ends = [first.at for first, _ in clauses[1:]] + [len(spec.text.text)]
    statements = [(key(first, parts), spec.text.text[first.at : end]) for (first, parts), end in zip(clauses, ends)]
    try:
        with tempfile.TemporaryDirectory(prefix="currency-") as name:
            base, deadline = pathlib.Path(name), time.monotonic() + MOST_SECONDS
            for number, (relation, records) in enumerate(texts.items()):
                (base / f"{number}").write_text("\n".join(["attribute,earlier,later", *records, ""]))
                statements.append((None, f"orders {constant(relation)} from {constant(str(base / str(number)))};\n"))
            named = conflict(program, base / "s", deadline, [text for _, text in statements])
            for at, (what, _) in enumerate(statements):
                if what and any(it.startswith(what) for it in named):
                    alone = [text for it, (other, text) in enumerate(statements) if it == at or not other]
                    found = conflict(program, base / "s", deadline, alone)
                    if found:
                        return breaks(found, orders_of(lists))
    except (OSError, subprocess.TimeoutExpired, UnicodeError):
        pass
    return []


def key(first, parts):
    """How the items of a statement begin; none for a relation, which has none."""
    kinds = {"rule": f"rule {plain_name(parts[1][1].name)}", "copy": f"copy {plain_name(parts[1][1].name)}:"}
    return None if first.text == "relation" else kinds.get(first.text, "given ")


def conflict(program, path, deadline, statements):
    """The items of the first conflict of a specification."""
    path.write_text("\n".join(statements))
    how = {"stdout": subprocess.PIPE, "stdin": subprocess.DEVNULL, "timeout": max(0.1, deadline - time.monotonic())}
    lines = subprocess.run([program, "conflicts", path], **how).stdout.decode().split("\n")
    items = itertools.dropwhile(lambda it: not it.startswith("item "), lines)
    return [it[5:-1] for it in itertools.takewhile(lambda it: it.startswith("item "), items)]


def breaks(items, orders):
    """What is broken, and by which orders of the completion."""
    own, by = [it for it in items if it not in orders], [it[6:] for it in items if it in orders]
    said = f"it breaks {', '.join(map(quoted, own[:4]))}" if own else "it contradicts itself"
    return [f"{said}: it has {', '.join(map(quoted, by[:6]))}" if by else said]


def orders_of(lists):
    """The pairs of neighbours in rankings, as the program names them."""
    names = [(relation, attr, pair) for (relation, attr, _), rows in lists.items() for pair in zip(rows, rows[1:])]
    return {f"given {plain_name(r)}.{plain_name(a)}: {plain_name(x)} < {plain_name(y)}" for r, a, (x, y) in names}


def plain_name(name):
    return name if re.fullmatch(r"\w+", name, re.ASCII) and name not in ("if", "false", "orders") else constant(name)


def hints(words, said, asked):
    """What may help after an answer."""
    if words[0] in ("ask", "golden", "possible") and "verdict inconsistent;\n" in said[:60]:
        spec = shlex.quote(faults.arguments(words)[0])
        yield f"no history fits; currency conflicts {spec} lists which entities contradict what"
    is_empty = words[0] == "ask" and re.match(r"(currency (report|brief) 2;\n)?verdict answers;\n(?!answer )", said)
    _, documents = read(words) if is_empty or asked and words[0] != "trial" else (None, [])
    if is_empty and len(documents) > 1:
        yield from lint.absent_entities(documents[1])
    if asked and documents:
        yield from lint.idle_rules(documents[0])
