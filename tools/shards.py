#!/usr/bin/env python3
"""Answers for more rows than one specification takes: cuts it into shards, runs the program over each, and joins what it says.
It is called as `currency shards`, or by itself with the same words (`currency help shards` has them).

A specification has a consistent completion exactly where each shard has one, and then what holds of a shard's rows in each of
its completions is what holds of them in each of the whole. That this script cuts and joins so is not proved. The exit status
is that which the program has for the cause (2 words, 5 a refused document, 6 a limit, 7 and 8 what cannot be read or written),
1 for what it knows nothing of, and of `run` and `join` the greatest of the shards."""

import collections
import contextlib
import csv
import errno
import itertools
import json
import os
import pathlib
import re
import resource
import shlex
import shutil
import signal
import subprocess
import sys
import tempfile
import types

if __name__ == "__main__":
    # (the script finds the program, and has it built where that is due)
    script = os.path.join(os.path.dirname(os.path.dirname(os.path.realpath(__file__))), "currency")
    os.execv(script, [script, "shards", *sys.argv[1:]])

import faults
import words as wording
from cutting import Refused, Relation, Whole, cut, record_text, records, write
from diagnose import Fault
from faults import LIMITS, by_use, constant

DEFAULT_ROWS = 50_000
# the statuses with which the program has come to its end: done, undecided, and no table since nothing is consistent
DONE, OPEN, NONE = 0, 3, 10


# ---- what is asked


def read_json(folder, name, missing):
    try:
        return json.loads((folder / name).read_text(errors="surrogateescape"))
    except OSError:
        raise Refused(f"{folder} {missing}") from None


def read_plan(folder):
    return read_json(folder, "plan.json", "has no plan.json, so it is no folder with which cut has ended")


class Asked(faults.Question):
    """A question on the whole, whose relations have those rows alone that it names; of each its shard is the only value."""

    def __init__(self, name, plan, folder):
        self.plan, self.folder, self.pairs_of = plan, folder, collections.defaultdict(list)
        relations = {}
        for it in plan["relations"]:
            table = types.SimpleNamespace(name=plan["documents"][it["file"]])
            relations[it["name"]] = types.SimpleNamespace(**it, rows={}, sizes={}, table=table)
        super().__init__(name, types.SimpleNamespace(relations=relations))
        disjuncts = self.disjuncts()[1:] if self.first.text == "answers" else ()
        if any(sum(it[0][0] == "atom" for it in disjunct) > 1 for disjunct in disjuncts):
            raise Refused("a query of which a disjunct has several atoms does not split: rows of two shards may match it together")

    def asked(self):
        """The pairs that are asked about, each with its relation: attribute, earlier row, later row."""
        for by in map(by_use, faults.split(self.parts[1:])):
            relation = self.relations.get(by["relation"][0].name)
            pairs = [(self.named(by["attr"][0]), self.named(a), self.named(b)) for a, b in zip(by["first"], by["second"])]
            for document in by["document"]:
                pairs += self.records(self.table(document), ("attribute", "earlier", "later"))
            yield from ((relation, *(it.name for it in pair)) for pair in pairs if relation)

    def certain(self):
        wanted = collections.defaultdict(set)
        for relation, _, earlier, later in self.asked():
            wanted[relation.name] |= {earlier, later}
        for relation in (it for it in self.relations.values() if it.name in wanted):
            self.find(relation, wanted[relation.name])
        super().certain()
        for relation, attr, earlier, later in self.asked():
            self.pairs_of[relation.rows[earlier].values[0], relation.name].append([attr, earlier, later])

    def find(self, relation, wanted):
        """Looks for the rows of these names in all shards."""
        for shard, told in enumerate(self.plan["shards"]):
            rows = records(self.folder / told["name"] / relation.file)
            row, entity = map(next(rows)[1].index, (relation.row, relation.entity))
            for number, (_, fields) in enumerate(rows, 2):
                if fields[row] in wanted:
                    relation.rows[fields[row]] = faults.Row(number, fields[entity], [shard])

    def write(self):
        """Writes each shard's question: all that is asked, or of pairs those of its rows; where it has none, `consistent`."""
        texts = [self.text.text] * len(self.plan["shards"])
        if self.first.text == "certain":
            parts = [[] for _ in texts]
            for number, ((shard, name), pairs) in enumerate(self.pairs_of.items()):
                file = f"question-{number}.csv"
                table = [["attribute", "earlier", "later"], *pairs]
                write(self.folder / self.plan["shards"][shard]["name"] / file, "".join(record_text(it) + "\n" for it in table))
                parts[shard].append(f"orders {constant(name)} from {constant(file)}")
            texts = ["certain " + " and ".join(it) + ";\n" if it else "consistent;\n" for it in parts]
        for shard, text in zip(self.plan["shards"], texts):
            write(self.folder / shard["name"] / "question", text)


# ---- running

# (a shard that was sent to a host, where there is no plan, does not stay there)
JOB = """cd "$1" || exit 1
../currency %s
status=$?
[ -e ../plan.json ] || rm -rf "../$1"
echo "status $status" >&2
case $status in %s) exit 0 ;; esac
exit $status
"""
# how many names a command has, and whether the second one is a question
NAMES = {"golden": (2, False), "forced": (1, False), "conflicts": (1, False), "ask": (2, True), "possible": (2, True)}


def parted(words):
    """The words behind a command that are names, and the others."""
    names, options, rest = [], [], iter(words)
    for word in rest:
        if word == "--":
            names += rest
        elif word in ("--budget", "--guide"):
            options += [word, *itertools.islice(rest, 1)]
        else:
            (options if word.startswith("--") else names).append(word)
    return names, options


def shard_words(program, plan, folder, words):
    """The words for the program in a shard, and what is asked for: a command, or with `ask` the kind of a question; and a relation."""
    command, (names, options) = words[0], parted(words[1:])
    if command not in NAMES:
        raise Refused(f"the commands over shards are {', '.join(NAMES)}", 2)
    many, is_asked = NAMES[command]
    # (the program takes its words before it reads anything)
    with tempfile.TemporaryDirectory() as empty:
        said = subprocess.run([program, command, *options, "--", *names], cwd=empty, capture_output=True, check=False)
    if said.returncode == 2 or len(names) != many:
        raise Refused("words refused", 2)
    if "--csv" in options:
        raise Refused("tables of answers are not joined: leave --csv out", 2)
    if names[0] != plan["specification"]:
        raise Refused(f"{folder} has the shards of {plan['specification']}", 2)
    if command == "golden" and names[1] not in (it["name"] for it in plan["relations"]):
        raise Refused("error E03 words 1")
    kind, relation = command, None if is_asked else names[-1]
    if is_asked:
        question = Asked(names[1], plan, folder)
        question.write()
        kind, names = question.first.text if command == "ask" else command, [names[0], "question"]
    return [command, *options, "--", plan["file"], *names[1:]], kind, relation


def prepare(program, plan, folder, words):
    """Writes what each shard is to do, and puts away what an earlier run left."""
    found, kind, relation = shard_words(program, plan, folder, words)
    shutil.rmtree(folder / "results", ignore_errors=True)
    for name in ("joblog", "run.json"):
        with contextlib.suppress(FileNotFoundError):
            (folder / name).unlink()
    shutil.copy(program, folder / "currency")
    write(folder / "job", JOB % (shlex.join(found), "|".join(map(str, (DONE, OPEN, NONE)))))
    write(folder / "shards", "".join(it["name"] + "\n" for it in plan["shards"]))
    write(folder / "run.json", json.dumps({"words": words, "kind": kind, "relation": relation}) + "\n")


def parallel_words(jobs, hosts, place):
    """How GNU parallel is run, in the folder; on hosts in a folder of this name, which is there where a login begins."""
    words = ["parallel", "--joblog", "joblog", "--resume-failed", "--results", "results/{}/", "--files", "--arg-file", "shards"]
    words += ["--bar"] if sys.stderr.isatty() else []
    words += ["--jobs", jobs] if jobs else []
    if hosts:
        words += ["--sshloginfile", os.path.abspath(hosts), "--retries", "3", "--workdir", place, "--cleanup"]
        words += ["--basefile", "currency", "--basefile", "job", "--transferfile", "{}"]
    # (among hosts this one has its folder in the shards')
    return [*words, "[ -e job ] || cd ..; sh job {}"]


def is_gnu_parallel():
    said = subprocess.run(["parallel", "--version"], capture_output=True, check=False).stdout if shutil.which("parallel") else b""
    return said.startswith(b"GNU parallel")


def run(program, folder, words, options):
    if not is_gnu_parallel():
        raise Refused("there is no GNU parallel (Debian: apt-get install parallel)")
    plan = read_plan(folder)
    if "--resume" in options:
        known = read_run(folder)["words"]
        if words not in ([], known):
            raise Refused(f"what was begun is {shlex.join(known)}", 2)
    else:
        prepare(program, plan, folder, words)
    place = f"currency-shards-{os.getpid()}"
    words = parallel_words(options.get("--jobs"), options.get("--sshloginfile"), place)
    with subprocess.Popen(words, cwd=folder, stdin=subprocess.DEVNULL, stdout=subprocess.DEVNULL) as child:
        # (a second signal has parallel end its jobs)
        for number in (signal.SIGINT, signal.SIGTERM, signal.SIGHUP):
            signal.signal(number, lambda number, _: [child.send_signal(number) for _ in range(2)])
        child.wait()
    with contextlib.suppress(OSError):
        (folder / place).rmdir()
    return tell_ends(folder, plan)


def read_run(folder):
    return read_json(folder, "run.json", "is one in which nothing was run")


def said_by(folder, name, stream="stdout"):
    return folder / "results" / name / stream


def status_of(folder, name):
    """The status of a shard's run; none where it has not come to its end."""
    with contextlib.suppress(OSError):
        found = re.search(r"^status (\d+)\n\Z", said_by(folder, name, "stderr").read_text(errors="replace"), re.M)
        return int(found[1]) if found else None


def tell(name, what):
    print(f"shards: {name}: {what}", file=sys.stderr)


def tell_ends(folder, plan):
    """Names the shards that have not come to their end, and answers the greatest status."""
    greatest = 0
    for name in (it["name"] for it in plan["shards"]):
        status = status_of(folder, name)
        if status is None:
            tell(name, "not run to its end")
        elif status not in (DONE, OPEN, NONE):
            with open(said_by(folder, name), errors="replace") as said:
                tell(name, f"status {status}: {said.readline(200).rstrip()}")
        greatest = max(greatest, 1 if status is None else status)
    return greatest


# ---- joining


def whole_lines(lines):
    """Lines, each joined with those after it while a quote in it is open."""
    for line in lines:
        while line.count(b'"') % 2 and (more := next(lines, b"")):
            line += more
        yield line


def lines_of(folder, name):
    with open(said_by(folder, name), "rb") as lines:
        yield from whole_lines(lines)


def claims(folder, name):
    """The lines of a report up to its completions: what is claimed."""
    ends = (b"completion;\n", b"log;\n", b"end;\n")
    yield from itertools.takewhile(lambda line: line not in ends, itertools.islice(lines_of(folder, name), 1, None))


def join_golden(plan, folder, relation, out):
    """One table: its records in the order of the entities of the whole."""
    told = next(it for it in plan["relations"] if it["name"] == relation)
    with contextlib.ExitStack() as stack:
        tables = [whole_lines(stack.enter_context(open(said_by(folder, it["name"]), "rb"))) for it in plan["shards"]]
        headers, written = {next(table, b"") for table in tables}, 0
        if len(headers) != 1:
            raise Refused("the shards have different headers")
        out.write(headers.pop())
        for shard, many in told["order"]:
            lines = [*itertools.islice(tables[shard], many)]
            written += len(lines)
            out.writelines(lines)
        if written != told["entities"] or any(next(table, None) is not None for table in tables):
            raise Refused("the shards have other numbers of records than the plan, so what is printed is no table of the whole")


def join_reports(plan, folder, kind, out):
    """The verdict of the whole, and below it what shards claim, each line with its shard: those without a completion, else by kind."""
    names = [it["name"] for it in plan["shards"]]
    verdicts = {name: next(claims(folder, name)).split()[1].rstrip(b";").decode() for name in names}
    worst = min(verdicts.values(), key=["inconsistent", "undecided", "not", kind, "consistent"].index)
    out.write(f"verdict {'not ' + kind if worst == 'not' else worst};\n".encode())
    if none := [name for name in names if verdicts[name] in ("inconsistent", "undecided")]:
        prefixed(folder, none, claims, out)
    elif kind == "answers":
        # (one that is an answer over every completion of a shard is one over every completion of the whole)
        found = {line for name in names for line in claims(folder, name) if line.startswith(b"answer ")}
        out.writelines(sorted(found, key=tuple_order))
    elif kind == "same":
        prefixed(folder, [name for name in names if verdicts[name] == worst], claims, out)
    elif kind == "certain":
        prefixed(folder, [name for name in names if verdicts[name] != "consistent"], lines_of, out)


def tuple_order(line):
    """How tuples ascend: place by place, an integer below a text, the shorter one first."""
    found = re.findall(rb'"(?:[^"]|"")*"|-?[0-9]+', line.partition(b"(")[2])
    return [(1, it[1:-1].replace(b'""', b'"')) if it.startswith(b'"') else (0, int(it)) for it in found]


def prefixed(folder, names, lines, out):
    for name in names:
        out.writelines(name.encode() + b" " + line for line in lines(folder, name))


def join_lines(plan, folder, out):
    """All lines, each with its shard in front; where a shard is inconsistent those of such shards alone."""
    names = [it["name"] for it in plan["shards"]]
    none = [name for name in names if next(claims(folder, name), None) == b"verdict inconsistent;\n"]
    prefixed(folder, none or names, lines_of, out)


def join(folder):
    plan, ran, out = read_plan(folder), read_run(folder), sys.stdout.buffer
    greatest = tell_ends(folder, plan)
    statuses = {it["name"]: status_of(folder, it["name"]) for it in plan["shards"]}
    if not {*statuses.values()} <= {DONE, OPEN, NONE}:
        raise Refused("nothing is joined: run with --resume runs again what has not come to its end", greatest)
    for name, status in statuses.items():
        if status != DONE:
            tell(name, "no consistent completion" if status == NONE else "the budget is spent")
    if ran["kind"] == "golden":
        if greatest == NONE:
            out.write(b"currency brief 2;\nverdict inconsistent;\nend;\n")
        elif greatest == DONE:
            join_golden(plan, folder, ran["relation"], out)
    elif ran["words"][0] == "ask":
        join_reports(plan, folder, ran["kind"], out)
    else:
        join_lines(plan, folder, out)
    out.flush()
    return greatest


# ---- the second pass


def shard_rows(folder, name, table):
    """The records of a shard's table below the header, which has to be that of the whole."""
    found = records(folder / name / table.file)
    table.opened()
    if next(found, ("", []))[0] != table.header:
        raise Refused(f"{folder / name / table.file} has another header")
    return found


def check_relation(plan, folder, relation, told):
    """Each record is in the shard that the plan has for its entity, in order, and nothing else is there. Answers how many there are."""
    left, homes, many = [shard_rows(folder, it["name"], relation) for it in plan["shards"]], {}, 0
    order = itertools.chain.from_iterable(itertools.repeat(*it) for it in told["order"])
    rows = relation.opened()
    entity = relation.names.index(relation.entity)
    for many, (text, fields) in enumerate(rows, 1):
        if fields[entity] not in homes:
            homes[fields[entity]] = next(order, None)
        home = homes[fields[entity]]
        if home is None or next(left[home], ("",))[0] != text:
            place = "" if home is None else f" in {folder / plan['shards'][home]['name']}"
            raise Refused(f"record {many + 1} of {relation.document} is not in its place{place}")
    for told_shard, rows in zip(plan["shards"], left):
        if next(rows, None):
            raise Refused(f"{folder / told_shard['name'] / relation.file} has a record more")
    return many


def sum_of(rows):
    """How many records there are, and the sum of 64 bits of each, whatever their order is."""
    count = total = 0
    for text, _ in rows:
        count, total = count + 1, total + hash(text)
    return count, total


def check_ties(plan, folder, spec):
    """Each record on two rows is in one shard, and so are its rows."""
    pairs, sums = [it for it in spec.tables if not isinstance(it, Relation)], collections.defaultdict(list)
    for name in (it["name"] for it in plan["shards"]):
        rows = {}
        for it in spec.relations.values():
            found = records(folder / name / it.file)
            at = next(found)[1].index(it.numbers or it.row)
            rows[it.name] = {fields[at] for _, fields in found}
        for it in pairs:
            found, sides = [*shard_rows(folder, name, it)], (rows[it.relation.name], rows[it.source.name])
            for number, (_, fields) in enumerate(found, 2):
                if any(fields[at] not in side for at, side in zip(it.places()[-2:], sides)):
                    raise Refused(f"record {number} of {folder / name / it.file} names a row that is not there")
            sums[it.file].append(sum_of(found))
    for it in pairs:
        if sum_of(it.opened()) != tuple(map(sum, zip(*sums[it.file]))):
            raise Refused(f"{it.file} has other records in the shards than in {it.document or spec.text.name}")


def check(folder):
    """Reads the tables and the shards once more, and refuses shards that are not closed, or lack a record or have one more."""
    plan, folder = read_plan(folder), folder.absolute()
    os.chdir(plan["read in"])
    spec, told = Whole(plan["specification"]), {it["name"]: it for it in plan["relations"]}
    for name in (it["name"] for it in plan["shards"]):
        if (folder / name / spec.file).read_bytes() != spec.shard_text.encode():
            raise Refused(f"{folder / name / spec.file} is another specification")
    rows = sum(check_relation(plan, folder, it, told[it.name]) for it in spec.relations.values())
    check_ties(plan, folder, spec)
    print(f"{rows} rows, each in one of {len(plan['shards'])} shards, with the rows of its entity and of those that copies tie to it")
    return 0


# ---- words


VALUED = ("--rows", "--jobs", "--sshloginfile")


def words_of(given):
    """The step with its names, and this tool's own options, which stand anywhere."""
    options, words, rest = {}, [], iter(given)
    for word in rest:
        name, equals, value = word.partition("=")
        if name in VALUED:
            options[name] = value if equals else next(rest, "")
        elif word == "--resume":
            options[word] = True
        else:
            words.append(word)
    step = words[0] if words else ""
    many = {"cut": 3, "run": 2 if "--resume" in options else 3, "join": 2, "check": 2}.get(step)
    is_fit = len(words) == many or step == "run" and len(words) > many
    rows = options.get("--rows", str(DEFAULT_ROWS))
    if not is_fit or not wording.is_number(rows, LIMITS[6]) or "" in options.values():
        raise Refused(f"these words do not go together\n{wording.help_of('shards')}"[:-1], 2)
    return options, int(rows), words


def main(given, program):
    if given == ["--help"]:
        print(wording.help_of("shards"), end="")
        return 0
    csv.field_size_limit(sys.maxsize)
    resource.setrlimit(resource.RLIMIT_NOFILE, (resource.getrlimit(resource.RLIMIT_NOFILE)[1],) * 2)
    try:
        options, rows, (step, first, *words) = words_of(given)
        if step == "cut":
            print(cut(program, first, pathlib.Path(*words), rows), file=sys.stderr)
            return 0
        if step == "run":
            return run(program, pathlib.Path(first), words, options)
        return {"join": join, "check": check}[step](pathlib.Path(first))
    except (Refused, Fault) as error:
        print(f"shards: {error}", file=sys.stderr)
        return Refused(error).status if isinstance(error, Fault) else error.status
    except faults.Unseen as name:
        print(f"shards: {name} is no file, and is not read", file=sys.stderr)
        return 1
    except OSError as error:
        print(f"shards: {error}", file=sys.stderr)
        return 8 if error.errno in (errno.ENOSPC, errno.EFBIG, errno.EDQUOT, errno.EPIPE) else 7
