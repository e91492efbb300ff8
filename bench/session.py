#!/usr/bin/env python3
"""What edits and questions of `currency session` cost beside the commands over documents.

The specification is that of the first family of `bench/ask.py`: rows in entities of 8, given chains (some of them broken) from a table,
a value rule, two order rules and a copy. Over it go scripts whose time without their last entries is taken off:
- edits alone, of each kind, an addition and its withdrawal by turns: the time of an edit beside that of `ask` of `consistent`, and how
  it grows from some edits to ten times as many;
- a rule that is added and withdrawn again and again, after a question whose completion satisfies it, so that its instances are looked at
  each time: the time of an addition beside that of `ask` of `consistent`;
- edits after each of which `consistent` is asked again, with `--brief`, where none of the kept reports shows its verdict any more (this
  is looked at): the time of an edit and its question beside that of `ask --brief` over the documents;
- one question again and again, whose reply is kept: the time of a reply beside that of `verify` of the report over the documents;
- 1,000 edits: the memory beside that of ten.
Each run is made three times, and the quickest counts. Where a case is above a mark, this is said and the exit status is 1.

Usage: bench/session.py [--rows N]; 100,000 where none is said."""
import argparse
import pathlib
import re
import tempfile

from ask import ENTITY, given_of, write_documents
from runs import build, end, timed

# what may be beside `ask` an edit, a rule that a completion satisfies, and a question after an edit; beside `verify` a kept reply;
# beside a tenth as many the time of an edit; and the memory of 1,000 edits beside that of ten
EDIT, RULE, QUESTION, KEPT, GROWTH, MEMORY = 1 / 20, 1 / 10, 0.6, 1, 1.5, 1.1
RUNS, ASKED, AGAIN, LEAST = 3, 8, 8, 0.02
# an addition and its withdrawal, of each kind, and how many are run
EDITS = {
    "given pairs": ("add order item.b: {x} < {y};\nwithdraw order item.b: {x} < {y};\n", 100_000),
    "copied rows": ("withdraw copy mirror: v{e}_0 from r{e}_0;\nadd copy mirror: v{e}_0 from r{e}_0;\n", 10_000),
    "rules": ("add rule more on item (s, t): if s.d < t.d then s before t in d;\nwithdraw rule more;\n", 1_000),
}

# a rule that each consistent completion satisfies, and its withdrawal
SATISFIED = "add rule more on item (s, t): if s.a < t.a then s before t in a;\nwithdraw rule more;\n"


def broken_links(rows):
    """Entities whose chains are broken, each with two rows that stand beside each other and are not known to."""
    for entity in range(1, rows // 2 // ENTITY, 2):
        chain = sorted(range(ENTITY), key=lambda row: (3 * row + entity) % ENTITY)
        known = set(given_of(entity))
        x, y = next(it for it in zip(chain, chain[1:]) if it not in known)
        yield entity, f"r{entity}_{x}", f"r{entity}_{y}"


def best(folder, words):
    """The least time and memory of runs with these words, and what they print."""
    told = [timed(folder, words) for _ in range(RUNS)]
    return min(spent for spent, _, _ in told), min(megabytes for _, megabytes, _ in told), told[0][2]


def session(folder, script, *options):
    """The same of a script over the specification."""
    (folder / "script").write_text(script)
    spent, megabytes, said = best(folder, ["session", "s", "script", *options])
    return spent, megabytes, said.decode()


def edits_of(form, links, count):
    """So many edits of a kind, over one entity after another; half of them are additions."""
    return "".join(form.format(e=entity, x=x, y=y) for entity, x, y in (links[it % len(links)] for it in range(count // 2)))


def measure_edits(folder, links, asked, above):
    """Edits alone: the time of one beside `ask`, and how it grows; and the memory of many."""
    none, _, _ = session(folder, "")
    for kind, (form, most) in EDITS.items():
        each = {}
        for count in (most // 10, most):
            spent, _, said = session(folder, edits_of(form, links, count))
            if said.count(" accepted;\n") != count:
                above.append(f"{kind}: an edit is refused")
            each[count] = max(spent - none, 0.0) / count
        beside, few = each[most] / asked, each[most // 10]
        # (what is within the noise of two runs is no time)
        growth = each[most] / few if few * (most // 10) > LEAST else 0.0
        told = f"{growth:.2f} times an edit of {most // 10} (mark {GROWTH})" if growth else f"{most // 10} take no time"
        print(f"{kind}: {each[most] * 1e6:.1f} us an edit of {most}, {beside:.6f} times ask (mark {EDIT:.2f}), {told}")
        if beside > EDIT:
            above.append(f"{kind}: {beside:.3f} times ask")
        if growth > GROWTH:
            above.append(f"{kind}: {growth:.2f} times the time of an edit")
    forms = "".join(form for form, _ in EDITS.values())
    few, many = (session(folder, edits_of(forms, links, count // 3))[1] for count in (12, 1_002))
    print(f"memory: {many:.0f} MB over 1,002 edits, {many / few:.3f} times that over 12 (mark {MEMORY})")
    if many > MEMORY * few:
        above.append(f"memory: {many / few:.3f} times")


def listed(report):
    """The listed order of each entity's rows in `b`."""
    return {entity: rows.split(" < ") for entity, rows in re.findall(r"ranking item\.b of e(\d+): (.*);", report)}


def measure_questions(folder, links, asked_brief, above):
    """Edits that no kept report outlives, and a question after each."""
    first = "ask consistent;\n"
    alone, _, said = session(folder, first, "--brief")
    orders, script = listed(said), first
    for entity, x, y in links[:ASKED]:
        order = orders[str(entity)]
        earlier, later = sorted((x, y), key=order.index)
        script += f"add order item.b: {later} < {earlier};\n{first}"
    spent, _, said = session(folder, script, "--brief")
    replies = re.findall(r"reply \d+;\n((?:.*\n)*?end;\n)", said)
    if len({*replies}) != ASKED + 1 or not all("verdict consistent;" in it for it in replies):
        above.append(f"questions: {len({*replies})} replies, and {ASKED + 1} are due")
    beside = (spent - alone) / ASKED / asked_brief
    print(f"a question after an edit: {(spent - alone) / ASKED:.3f} s, {beside:.2f} times ask --brief (mark {QUESTION})")
    if beside > QUESTION:
        above.append(f"a question after an edit: {beside:.2f} times ask --brief")


def measure_rules(folder, asked, above):
    """A rule that the known completion satisfies, again and again: the time of one addition and its withdrawal beside `ask`."""
    first = "ask consistent;\n"
    alone, _, _ = session(folder, first, "--brief")
    spent, _, said = session(folder, first + SATISFIED * AGAIN, "--brief")
    if said.count(" accepted;\n") != 2 * AGAIN:
        above.append("satisfied rules: an edit is refused")
    each = max(spent - alone, 0.0) / AGAIN
    print(f"a rule that the known completion satisfies: {each * 1e3:.1f} ms, {each / asked:.3f} times ask (mark {RULE:.2f})")
    if each > RULE * asked:
        above.append(f"satisfied rules: {each / asked:.3f} times ask")


def measure_kept(folder, verified, above):
    """One question again and again."""
    first = "ask consistent;\n"
    alone, _, _ = session(folder, first)
    spent, _, said = session(folder, first * (AGAIN + 1))
    replies = re.findall(r"reply \d+;\n((?:.*\n)*?end;\n)", said)
    if len(replies) != AGAIN + 1 or len({*replies}) != 1:
        above.append("kept replies: they differ")
    beside = (spent - alone) / AGAIN / verified
    print(f"a kept reply: {(spent - alone) / AGAIN:.3f} s, {beside:.2f} times verify (mark {KEPT})")
    if beside > KEPT:
        above.append(f"a kept reply: {beside:.2f} times verify")


def main():
    parser = argparse.ArgumentParser(description=__doc__, formatter_class=argparse.RawDescriptionHelpFormatter)
    parser.add_argument("--rows", type=int, default=100_000)
    rows = parser.parse_args().rows
    build()
    above = []
    with tempfile.TemporaryDirectory() as made:
        folder = pathlib.Path(made)
        write_documents(folder, rows)
        links = [*broken_links(rows)]
        asked, _, report = best(folder, ["ask", "s", "q"])
        (folder / "p").write_bytes(report)
        asked_brief, _, _ = best(folder, ["ask", "s", "q", "--brief"])
        verified, _, _ = best(folder, ["verify", "s", "q", "p"])
        print(f"{rows} rows: ask {asked:.2f} s, ask --brief {asked_brief:.2f} s, verify {verified:.2f} s")
        measure_edits(folder, links, asked, above)
        measure_rules(folder, asked, above)
        measure_questions(folder, links, asked_brief, above)
        measure_kept(folder, verified, above)
    end(above)


if __name__ == "__main__":
    main()
