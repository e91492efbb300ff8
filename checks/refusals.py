#!/usr/bin/env python3
"""Runs the program as built with each of its calls of the system refused in turn.

A small library, built of `refusals.c` and preloaded, counts the program's allocations, reads, opens and writes and refuses one of
them: each allocation once, and it and each later one; each read, open and write; and each read and write is cut to one byte. So it is
done over a handful of specifications and questions, `verify` of their reports, `forced`, `explain`, `conflicts`, `golden`,
`possible`, edits in sessions, and the generated documents.

Right is: the status and the text without a refusal; or, where a guide was refused memory and is not asked any more, another report
that `verify` accepts, or the same explanation with other completions (these cases have one each); or what the table of causes in
docs/DEFINITIONS.md says (9 for memory, 7 for a read or an open, 8 for a write), with a prefix of a right text, a read fault's text being
that of the document that was read. A refusal's own status stays where the sink fails.

Prints a line for each kind of refusal over each case, and a summary. The exit status is 1 where an outcome is wrong."""
import concurrent.futures
import os
import pathlib
import subprocess
import sys
import tempfile
import time

ROOT = pathlib.Path(__file__).resolve().parent.parent
PROGRAM = ROOT / "crates" / "currency" / "out" / "currency"

KINDS = [
    ("memory", "once"),
    ("memory", "onward"),
    ("read", "once"),
    ("read", "short"),
    ("open", "once"),
    ("write", "once"),
    ("write", "short"),
]
# of a kind's calls at most so many are refused, evenly spread; 0: all
MOST = int(os.environ.get("REFUSALS_MOST", "0"))

CIRCLE = {
    "s": 'relation R from "r.csv" row id entity eid (a: int);\norder R.a: r1 < r2, r2 < r3, r3 < r1;\n',
    "r.csv": "id,eid,a\nr1,x,1\nr2,x,2\nr3,x,3\n",
    "q": "consistent;\n",
}
STAFF = {
    "s": """relation Emp from "emp.csv" row id entity eid (status: text, last: text, salary: int, address: text);
rule pay on Emp (s, t): if s.salary > t.salary then t before s in salary;
rule wed on Emp (s, t): if s.status = "married" and t.status = "single" then t before s in status;
rule name on Emp (s, t): if t before s in status then t before s in last;
rule move on Emp (s, t): if t before s in salary then t before s in address;
""",
    "emp.csv": """id,eid,status,last,salary,address
s1,mary,single,Smith,50,2 Small St
s2,mary,married,Dupont,50,10 Elm Ave
s3,mary,married,Dupont,80,6 Main St
""",
    "q": "certain Emp.salary: s1 < s3 and Emp.last: s1 < s2 and Emp.address: s2 < s3;\n",
}
DEPARTMENT = {
    **STAFF,
    "s": STAFF["s"]
    + """relation Dept from "dept.csv" row id entity eid (mgr: text, budget: int);
copy c into Dept (mgr) from Emp (last): d1 from s1, d2 from s3;
""",
    "dept.csv": "id,eid,mgr,budget\nd1,rd,Smith,6500\nd2,rd,Dupont,6000\n",
    "q": "answers (d, x, y) where Dept(d, x, _) and Emp(e, _, x, y, _);\n",
}
EITHER = {
    "s": 'relation R from "r.csv" row id entity eid (a: int);\n',
    "r.csv": "id,eid,a\nr1,x,1\nr2,x,2\n",
    "q": "answers () where R(e, 1) or R(e, 2);\n",
}
EIGHT_CLAUSES = {
    "s": """relation R from "r.csv" row id entity eid (a: int, b: int, c: int);
rule n1 on R (s, t): if s before t in a and s before t in b and s before t in c then false;
rule n2 on R (s, t): if s before t in a and s before t in b and t before s in c then false;
rule n3 on R (s, t): if s before t in a and t before s in b and s before t in c then false;
rule n4 on R (s, t): if t before s in a and s before t in b and s before t in c then false;
""",
    "r.csv": "id,eid,a,b,c\nr1,x,0,0,0\nr2,x,0,0,0\n",
    "q": "consistent;\n",
}
# (what each reply of these shows follows without a search, so it hangs on no guide)
CONTRADICTED = """ask consistent;
add rule up on R (s, t): if s.a < t.a then s before t in a;
withdraw order R.a: r1 < r2;
add order R.a: r2 < r1;
ask certain R.a: r1 < r2;
withdraw rule none;
withdraw rule up;
add order R.a: r1 < r1;
ask consistent;
"""
EDITED = """withdraw copy c: d1 from s1;
add rule again on Emp (s, t): if s.salary < t.salary and s.last != "a b" then s before t in salary;
add copy c: d1 from s3;
withdraw rule wed;
add copy c: d1 from s1;
add rule wed on Dept (s, t): if s before t in mgr then s before t in budget;
add order Dept.mgr: d1 < d2;
withdraw rule pay;
add rule pay on Emp (s, t, u, v, w): false;
withdraw order Dept.mgr: d1 < d2;
"""
ASK = ["ask", "s", "q"]
CASES = [
    ("circle", CIRCLE, ASK),
    ("staff", STAFF, ASK),
    ("department", DEPARTMENT, ASK),
    ("either", EITHER, ASK),
    ("eight clauses, budget 1", EIGHT_CLAUSES, [*ASK, "--budget", "1"]),
    ("eight clauses", EIGHT_CLAUSES, ASK),
    ("forced, staff", STAFF, ["forced", "s"]),
    ("forced, circle", CIRCLE, ["forced", "s"]),
    ("explain, circle", CIRCLE, ["explain", "s", "q", "1"]),
    ("explain, staff", STAFF, ["explain", "s", "q", "3"]),
    ("explain, department", DEPARTMENT, ["explain", "s", "q", "1"]),
    ("explain, either", EITHER, ["explain", "s", "q", "1"]),
    ("explain, no unit", STAFF, ["explain", "s", "q", "4"]),
    ("explain, budget 1", EIGHT_CLAUSES, ["explain", "s", "q", "1", "--budget", "1"]),
    ("conflicts, circle", CIRCLE, ["conflicts", "s"]),
    ("conflicts, department", DEPARTMENT, ["conflicts", "s"]),
    ("conflicts, eight clauses", EIGHT_CLAUSES, ["conflicts", "s"]),
    ("golden, circle", CIRCLE, ["golden", "s", "R"]),
    ("golden, department", DEPARTMENT, ["golden", "s", "Emp"]),
    ("golden, either", EITHER, ["golden", "s", "R"]),
    ("golden, eight clauses", EIGHT_CLAUSES, ["golden", "s", "R", "--budget", "1"]),
    ("possible, circle", CIRCLE, ["possible", "s", "q"]),
    ("possible, either", EITHER, ["possible", "s", "q"]),
    ("possible, eight clauses", EIGHT_CLAUSES, ["possible", "s", "q", "--budget", "1"]),
    ("session, circle", {**CIRCLE, "c": CONTRADICTED}, ["session", "s", "c"]),
    ("session, department", {**DEPARTMENT, "c": EDITED}, ["session", "s", "c"]),
    ("trial 2", {}, ["trial", "2"]),
    ("refused words", CIRCLE, ["ask", "s"]),
    ("refused document", {**CIRCLE, "q": "consistent"}, ASK),
]


def build(folder):
    library = folder / "refusals.so"
    source = pathlib.Path(__file__).with_suffix(".c")
    subprocess.run(["cc", "-O2", "-Wall", "-shared", "-fPIC", "-o", library, source, "-ldl"], check=True)
    return library


class Case:
    """The program with these words in a folder of its own, and what it comes to where nothing is refused."""

    def __init__(self, name, documents, words, library):
        self.name, self.words, self.library = name, words, library
        self.made = tempfile.TemporaryDirectory()
        self.folder = pathlib.Path(self.made.name)
        for document, text in documents.items():
            (self.folder / document).write_text(text)
        self.status, self.text, _ = self.run("memory", 0, "once")

    def run(self, kind, at, how):
        """Status, text and how many calls of the kind there were."""
        with tempfile.NamedTemporaryFile(prefix="count-") as count:
            env = {
                "LD_PRELOAD": str(self.library),
                "REFUSE_KIND": kind,
                "REFUSE_AT": str(at),
                "REFUSE_HOW": how,
                "REFUSE_COUNT": count.name,
            }
            done = subprocess.run([PROGRAM, *self.words], cwd=self.folder, env=env, capture_output=True, timeout=600)
            said = pathlib.Path(count.name).read_text()
        return done.returncode, done.stdout, int(said or 0)

    def is_accepted(self, text):
        """Is this another report on the same documents that shows its verdict?"""
        if self.words[0] != "ask" or not text.startswith(b"currency report "):
            return False
        with tempfile.NamedTemporaryFile(dir=self.folder, prefix="report-") as report:
            report.write(text)
            report.flush()
            words = ["verify", self.words[1], self.words[2], os.path.basename(report.name)]
            done = subprocess.run([PROGRAM, *words], cwd=self.folder, capture_output=True, timeout=600)
        return done.returncode == 0

    def is_explained(self, text):
        """Is this the explanation, with other completions?"""
        heads = (b"explains ", b"item ")
        lines, wanted = ([it for it in said.split(b"\n") if it.startswith(heads)] for said in (text, self.text))
        return self.words[0] == "explain" and self.status == 0 and lines == wanted and text.endswith(b"\nend;\n")

    def is_right(self, kind, how, status, text):
        if (status, text) == (self.status, self.text):
            return True
        if how == "short":
            return False
        if kind == "memory":
            is_other = status == self.status and (self.is_accepted(text) or self.is_explained(text))
            return status == 9 and self.text.startswith(text) or is_other
        if kind in ("read", "open"):
            return status == 7 and text.startswith(b"read fault ") and text.count(b"\n") == 1
        return self.text.startswith(text) and status == (8 if self.status in (0, 3, 10) else self.status)

    def refuse(self, kind, how, pool):
        """Refuses each call of a kind in turn: how many were tried, of how many, what they came to, and which were wrong."""
        total = self.run(kind, 0, how)[2]
        step = max(1, -(-total // MOST)) if MOST else 1
        numbers = range(1, total + 1, step)
        ends, wrong = {}, []
        for at, (status, text, _) in zip(numbers, pool.map(lambda at: self.run(kind, at, how), numbers)):
            ends[status] = ends.get(status, 0) + 1
            if not self.is_right(kind, how, status, text):
                wrong.append((at, status, text[:60]))
        return len(numbers), total, ends, wrong


def with_reports(cases):
    """The cases, and `verify` of the report of each one that is answered."""
    for case in cases:
        yield case
        if case.words[0] == "ask" and case.status in (0, 3):
            (case.folder / "p").write_bytes(case.text)
            verify = Case(f"verify, {case.name}", {}, ["verify", "s", "q", "p"], case.library)
            for path in case.folder.iterdir():
                (verify.folder / path.name).write_bytes(path.read_bytes())
            verify.status, verify.text, _ = verify.run("memory", 0, "once")
            yield verify


def main():
    if not PROGRAM.exists():
        sys.exit("the program is not built: run ./currency once")
    begin, runs, wrong = time.monotonic(), 0, 0
    with tempfile.TemporaryDirectory() as made, concurrent.futures.ThreadPoolExecutor(os.cpu_count()) as pool:
        library = build(pathlib.Path(made))
        for case in with_reports(Case(*case, library) for case in CASES):
            print(f"{case.name}: status {case.status}")
            for kind, how in KINDS:
                tried, total, ends, bad = case.refuse(kind, how, pool)
                runs, wrong = runs + tried, wrong + len(bad)
                print(f"  {kind}, {how}: {tried} of {total} calls, statuses {dict(sorted(ends.items()))}", flush=True)
                for at, status, text in bad[:5]:
                    print(f"    WRONG at {at}: status {status}, {text!r}")
    print(f"{runs} runs, {wrong} wrong, {time.monotonic() - begin:.0f} s")
    sys.exit(wrong > 0)


if __name__ == "__main__":
    main()
