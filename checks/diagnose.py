#!/usr/bin/env python3
"""Holds what the script says of mistakes against the program and against what was written by hand.

- Each mistake of the file `mistakes` is made in a copy of its example, and the script is run with `--explain-errors`: the
  program's text, its status, the word under the mark and a part of the message are to be those of the file, and without
  that word nothing but the program's text is to come.
- The examples are changed at random, and read by `tools/faults.py`: what it comes to is to be the program's refusal, byte
  for byte, and nothing where the program refuses no document; no message is to have a control character, or a line of a
  document of more than 120 columns.
- Documents that are none or are very long, terminals of all kinds (by `pty`), interrupts, and a full disk.

Usage: checks/diagnose.py [HOW MANY [SEED]]; 2000 and 1 where none is said. The exit status is 1 where something is wrong."""

import collections
import os
import pathlib
import pty
import random
import re
import select
import shutil
import signal
import subprocess
import sys
import tempfile
import threading
import time

ROOT = pathlib.Path(__file__).resolve().parent.parent
SCRIPT = ROOT / "currency"
PROGRAM = ROOT / "crates" / "currency" / "out" / "currency"
STATUS = {"words": 2, "refused": 4, "error": 5, "limit": 6, "read": 7}
MISTAKES = 120
sys.dont_write_bytecode = True
sys.path.insert(0, str(ROOT / "tools"))

import faults  # noqa: E402
import hints  # noqa: E402

Mistake = collections.namedtuple("Mistake", "folder words edits said word help")
wrong = []


def check(is_right, what):
    """Notes what is wrong."""
    if not is_right:
        wrong.append(what)
        print(f"WRONG: {what}", flush=True)


# mistakes by hand


def mistakes():
    """The table of mistakes."""
    found, edits, head = [], [], None
    for line in (ROOT / "checks" / "mistakes").read_text().splitlines():
        if line.startswith("  ") and re.match(r"  [\w.]+: .* ->", line):
            name, _, edit = line[2:].partition(": ")
            edits.append((name, *(edit + " ").split(" -> ")[:2]))
        elif line.startswith("  "):
            found.append(Mistake(*head, edits, *(it.strip() for it in line.split(" | "))))
            edits = []
        elif line and line[0] not in "#=":
            folder, _, words = line.partition(": ")
            head = folder, words.split()
    return found


def spelled(text):
    """The bytes that a text of the table stands for."""

    def many(it):
        return "".join(it[3].replace("#", str(number)) for number in range(int(it[1]), int(it[2]) + 1))

    text = re.sub(r"\{(\d+)-(\d+):(.*?)\}", many, text)
    plain = {b"n": b"\n", b"t": b"\t", b"r": b"\r"}
    return re.sub(rb"\\(n|t|r|x[0-9a-f]{2})", lambda it: plain.get(it[1]) or bytes([int(it[1][1:], 16)]), text.encode())


def edit(folder, name, old, new):
    path, new = folder / name, spelled(new.rstrip(" ") if new.strip() else "")
    if old in ("*", "+"):
        path.write_bytes((path.read_bytes() if old == "+" else b"") + new)
        return
    text, old = path.read_bytes(), spelled(old)
    if text.count(old) != 1:
        sys.exit(f"{old} stands {text.count(old)} times in {name}")
    path.write_bytes(text.replace(old, new))


def example(made, name):
    """A copy of an example, of its own."""
    folder = pathlib.Path(made) / "example"
    shutil.rmtree(folder, ignore_errors=True)
    shutil.copytree(ROOT / "examples" / name, folder)
    return folder


def run(words, folder, program=SCRIPT, **how):
    """The status, the output and the errors of a run with no terminal."""
    done = subprocess.run([program, *words], cwd=folder, stdin=subprocess.DEVNULL, capture_output=True, timeout=300, **how)
    return done.returncode, done.stdout, done.stderr.decode()


def marked(message):
    """The word over the mark of a message."""
    found = re.search(r"^ *\d+ \|(.*)\n *\| ( *)(\^+)$", message, re.MULTILINE)
    return found[1][1 + len(found[2]) :][: len(found[3])].strip() if found else ""


def by_hand(made, script):
    every = mistakes()
    check(len(every) >= MISTAKES, f"there are {len(every)} mistakes by hand")
    for number, it in enumerate(every):
        folder = example(made, it.folder)
        for each in it.edits:
            edit(folder, *each)
        what = f"{it.folder}: {' '.join(it.words)}, {it.edits}"
        status, said, message = run([*it.words, "--explain-errors"], folder, script)
        is_due = (status, said.decode()) == (STATUS[it.said.split()[0]], it.said + "\n")
        check(is_due, f"{what}: status {status}, {said}, due is {it.said}")
        check(marked(message) == it.word, f"{what}: the mark is under {marked(message)!r}, due is {it.word!r}\n{message}")
        check(it.help in message, f"{what}: the message has no {it.help!r}\n{message}")
        check(is_clean(message), f"{what}: {message!r}")
        check(run(it.words, folder, PROGRAM)[:2] == (status, said), f"{what}: the program says otherwise")
        if number % 8 == 0:
            check(run(it.words, folder) == (status, said, ""), f"{what}: other text where nothing is to be explained")
    return len(every)


def is_clean(message):
    """Is there no control character, and no line that is too long?"""
    shown = [it[it.index("|") :] for it in message.split("\n") if re.match(r" *\d* \|", it)]
    return all(it == "\n" or it.isprintable() for it in message) and all(len(it) <= 122 for it in shown) and len(message) < 4000


# examples changed at random

RUNS = {
    "first": ["ask s q", "verify s q p"],
    "circle": ["ask s q", "verify s q p"],
    "rules": ["ask s q", "verify s q p", "golden s Staff", "conflicts s"],
    "merged": ["ask s q", "conflicts s", "golden s Customer"],
    "copies": [
        *("ask s q", "ask s certain", "ask s same", "ask s answers", "verify s q p"),
        *("forced s", "explain s certain 1", "possible s answers"),
    ],
    "more": [
        *("ask s certain", "ask s answers", "ask s same", "conflicts s", "golden s R", "possible s answers"),
        *("verify s certain p1", "verify s answers p2", "verify s same p3"),
    ],
}
ODD = [b'"', b"\0", b"\xff", b"\xe2\x82", b"\r", b"\n", b",", b";", b"-", b"#", b" ", b"1.5"]
ODD += ["“".encode(), b"\xef\xbb\xbf", b"''", b"9" * 20, b"9223372036854775808", b"-9223372036854775808", b"-0", b"007"]
# an example more, for what the others do not have
MORE = {
    "s": """# tables for all
relation R from "r.csv" row id entity eid (a: int, "b c": text, d: int);
relation T from "t.csv" entity eid (x: text, y: int);
orders R from "o.csv";
order R.a: r1 < r2;
rule n1 on R (s, t): if s.a < t.a and s."b c" != "" then s before t in "b c";
rule n2 on R (s, t, u): if s before t in a and t before u in a and s.d = -7 then false;
rule n3 on T (s, t): if s.y >= 9223372036854775807 and "p" <= t.x then s before t in x;
rule n4 on T (s): if 1 > 2 then false;
copy c1 into T (x) from R ("b c") using "c.csv";
copy c2 into T (y) from R (d): 1 from r1, 2 from r2;
""",
    "r.csv": '\ufeffid,eid,a,b c,d\r\nr1,x,1,"p,q",-7\r\n\r\nr2,x,2,"say ""hi""",0\rr3,y,-0,"line\nend",007\r\n',
    "t.csv": 'eid,x,y\nz,"p,q",-7\nz,"say ""hi""",0\n',
    "o.csv": "attribute,earlier,later\na,r1,r2\nb c,r1,r2\n",
    "c.csv": "target,source\n1,r1\n2,r2\n",
    "certain": 'certain orders R from "o.csv" and T.x: 1 < 2;\n',
    "answers": """answers (e, v) where R(e, v, _, w) and w < 5 and v != 3
or T(e, _, v) and R("x", 2, "p,q", _) or T(e, "a ""b"" c", v);
""",
    "same": "same T, R;\n",
}
PIECES = re.compile(rb'\w+|"[^"\n]*"|\s+|.', re.DOTALL)


def changed(chance, data, pool):
    """A text with a piece left out, doubled, exchanged or put in, a byte changed, or its end cut off."""
    pieces = PIECES.findall(data) or [b""]
    at, other = chance.randrange(len(pieces)), chance.randrange(len(pieces))
    how = chance.randrange(10)
    if how == 0:
        del pieces[at]
    elif how == 1:
        pieces.insert(at, pieces[at])
    elif how == 2:
        pieces[at], pieces[other] = pieces[other], pieces[at]
    elif how in (3, 4):
        pieces[at : at + (how == 3)] = [chance.choice(pool)]
    elif how == 5:
        pieces.insert(at, chance.choice(ODD))
    elif how == 6:
        pieces[at] = pieces[at][:-1] + bytes([chance.randrange(256)])
    elif how == 7:
        pieces[min(at, other) : max(at, other)] = []
    elif how == 8:
        pieces.insert(chance.choice([0, len(pieces)]), chance.choice(ODD))
    else:
        pieces = pieces[: max(at, other)]
    return b"".join(pieces)


def due(status, said):
    """What the reading of documents is to come to, where the program says this."""
    return said if status in (5, 6, 7) else ""


def read(words):
    """The refusal that the documents come to by the tools' own reading, if there is one."""
    try:
        faults.find(words)
        return ""
    except faults.Fault as fault:
        return fault.said + "\n"


def all_texts(folder):
    """The documents of each example, and of that one more, with the program's reports on it."""
    texts = {(it.parent.name, it.name): it.read_bytes() for it in sorted((ROOT / "examples").glob("*/*"))}
    for name, text in MORE.items():
        texts["more", name] = text.encode()
        (folder / name).write_bytes(text.encode())
    for report, question in (("p1", "certain"), ("p2", "answers"), ("p3", "same")):
        status, said, _ = run(["ask", "s", question], folder, PROGRAM)
        check(status == 0, f"more: ask s {question}: status {status}, {said}")
        texts["more", report] = said
    return texts


def at_random(made, many, seed):
    chance, counts = random.Random(seed), collections.Counter()
    folder = pathlib.Path(made) / "changed"
    folder.mkdir()
    texts = all_texts(folder)
    pool = sorted({piece for text in texts.values() for piece in PIECES.findall(text)})
    os.chdir(folder)
    for _ in range(many):
        name, words = chance.choice([(name, words.split()) for name, runs in RUNS.items() for words in runs])
        mine = {it: text for (where, it), text in texts.items() if where == name}
        used = [it for it in mine if it in words or it.endswith(".csv")]
        for _ in range(chance.choice([1, 1, 1, 2, 3])):
            which = chance.choice(used)
            mine[which] = changed(chance, mine[which], pool)
        for each, text in mine.items():
            (folder / each).write_bytes(text)
        status, said, _ = run(words, folder, PROGRAM)
        said = said.decode()
        counts[" ".join(said.split()[:2]) if status in (4, 5, 6, 7) else "answered"] += 1
        found = read(words)
        what = f"{name}: {' '.join(words)}: " + ", ".join(f"{it}: {mine[it]!r}" for it in used)
        check(found == due(status, said), f"{what}: {found!r}, due is {said[:200]!r}")
        message = hints.of(str(PROGRAM), words, status, said, True)
        check(is_clean(message), f"{what}: {message!r}")
        if status in (4, 5, 6, 7):
            check(message.startswith(" ".join(said.split()[:2])), f"{what}: {message}")
        if status == 5:
            message = hints.of(str(PROGRAM), words, status, f"error E03 {words[1]} 1\n", True)
            check(said.startswith("error E03") or not marked(message), f"{what}: a place for another refusal\n{message}")
    os.chdir("/")
    return dict(counts.most_common())


# documents that are none, or very long

CIRCLE = b'relation R from "r.csv" row id entity eid (a: int);\n'


def odd_documents(made):
    """What is no file or is very long is refused by the program, and explained in short lines within a minute of CPU time."""
    folder, long = example(made, "circle"), 16 * 2**20 - 200
    cases = {
        "a line of 16 MB": ("s", CIRCLE + b"order R.a: r1 < r2" + b", r1 < r2" * (long // 9) + b" , ;", "error E02 s 2\n"),
        "quotes": ("s", CIRCLE + b'"' * (2**20 + 1), "error E02 s 2\n"),
        "closed quotes": ("s", CIRCLE + b'"' * 2**20, "error E02 s 2\n"),
        "a long word": ("q", b"c" * 2**20, "error E02 q 1\n"),
        "long digits": ("s", CIRCLE + b"rule n on R (s): if s.a = " + b"9" * 10**6 + b" then false;", "error E02 s 2\n"),
        "a long name": ("s", CIRCLE + b'order R."' + b"a" * 10**6 + b'": r1 < r2;', "error E03 s 2\n"),
        "a long field": ("r.csv", b"id,eid,a\nr1,x," + b"7" * 10**6 + b"\n", "error E08 r.csv 2\n"),
        "a long record": ("r.csv", b"id,eid,a\nr1,x,1" + b",1" * 10**6 + b"\n", "error E06 r.csv 2\n"),
        "control characters": ("s", CIRCLE + b'order "\x1b[31m\x07\xc2\x9b\xe2\x80\xae".a: r1 < r2;', "error E03 s 2\n"),
        "too long": ("s", b" " * (16 * 2**20 + 1), "limit 1\n"),
        "a folder": ("s", None, "read fault s\n"),
    }
    for what, (name, data, wanted) in cases.items():
        folder = example(made, "circle")
        (folder / name).unlink()
        (folder / name).mkdir() if data is None else (folder / name).write_bytes(data)
        begun = os.times()
        _, said, message = run(["ask", "s", "q", "--explain-errors"], folder)
        spent = os.times().children_user - begun.children_user
        check(said.decode() == wanted, f"{what}: {said[:200]}")
        check(is_clean(message) and message.startswith(wanted.split("\n")[0][:7]), f"{what}: {message[:2000]!r}")
        check(spent < 60, f"{what}: {spent:.0f} s of the processor")
    folder = example(made, "circle")
    (folder / "q").unlink()
    os.mkfifo(folder / "q")
    writer = threading.Thread(target=(folder / "q").write_bytes, args=(b"consistent",))
    writer.start()
    status, said, message = run(["ask", "s", "q", "--explain-errors"], folder)
    writer.join()
    is_right = (status, said) == (5, b"error E02 q 1\n") and "--> q:1\n" in message
    check(is_right, f"a pipe that ends early: {status}, {said}, {message}")
    return len(cases) + 1


# terminals


def in_terminal(words, folder, out=None, press=None, **env):
    """The status and what a terminal shows of a run, whose output may go to a file. What is pressed comes after half a second."""
    pid, terminal = pty.fork()
    if not pid:
        os.chdir(folder)
        if out:
            os.dup2(os.open(out, os.O_WRONLY | os.O_CREAT | os.O_TRUNC, 0o666), 1)
        os.execve(SCRIPT, ["currency", *words], {**os.environ, **env})
    shown, pressed_at = b"", time.monotonic() + 0.5 if press else None
    while True:
        if pressed_at and time.monotonic() > pressed_at:
            os.write(terminal, press)
            pressed_at = None
        if not select.select([terminal], [], [], 0.1)[0]:
            continue
        try:
            piece = os.read(terminal, 65536)
        except OSError:
            piece = b""
        if not piece:
            break
        shown += piece
    os.close(terminal)
    return os.waitstatus_to_exitcode(os.waitpid(pid, 0)[1]), shown.decode().replace("\r\n", "\n")


def terminals(made):
    """What comes where at a terminal, and what comes where there is none."""
    folder = example(made, "copies")
    (folder / "bad").write_text("certain Badge.nam: b2 < b1;\n")
    (folder / "none").write_text('answers (n) where Staff("marry", n, _);\n')
    check(run([], folder) == (*run([], folder, PROGRAM)[:2], ""), "no words in a pipe")
    for line in ("ask s q", "ask s bad", "golden s Staff", "ask", "verify s q p", "-C . forced s"):
        words = line.split()
        status, said, _ = run(words[2:] if words[0] == "-C" else words, folder, PROGRAM)
        check(run(words, folder) == (status, said, ""), f"{line}: not the program's text in a pipe")
        found, shown = in_terminal(words, folder, folder / "out")
        check((found, (folder / "out").read_bytes()) == (status, said), f"{line}: not the program's text in a file")
        both = in_terminal(words, folder)
        check(both == (status, said.decode() + shown), f"{line}: {both} at a terminal")
        check(bool(shown) == (line in ("ask", "ask s bad")), f"{line}: {shown!r} on standard error")
    shown = in_terminal(["ask", "s", "bad"], folder, folder / "out")[1]
    check("--> bad:1:15\n" in shown and "`name`" in shown, f"a refusal into a file: {shown!r}")
    shown = in_terminal(["ask", "s", "none"], folder, folder / "out")[1]
    check("`mary` is there" in shown, f"an entity that is not there: {shown!r}")
    for words in (["--help"], [], ["help"]):
        check("usage: currency ask" in in_terminal(words, folder)[1], f"{words} at a terminal")
    check(run(["help", "golden"], folder)[1].startswith(b"usage: currency golden SPEC RELATION"), "help golden")
    check(run(["--version"], folder)[1].startswith(b"currency "), "--version")
    check(run(["-C", "none", "forced", "s"], folder)[0] == 126, "-C with no such folder")
    twice = ["-C", folder.parent, "-C", folder.name, "forced", "s"]
    check(run(twice, made)[1] == run(["forced", "s"], folder)[1], "-C twice")
    (folder / "--explain-errors").write_bytes((folder / "p").read_bytes())
    words = ["verify", "s", "q", "--explain-errors"]
    check(run(words, folder) == (*run(words, folder, PROGRAM)[:2], ""), "three words after verify are names")
    before = run(["--explain-errors", "-C", folder, "ask", "s", "bad"], made)
    check(before == run(["ask", "s", "bad", "--explain-errors"], folder), "--explain-errors before the command")
    check("has no instance" not in run(["ask", "s", "q", "--explain-errors"], folder)[2], "a rule that is not idle")
    edit(folder, "s", "s.salary < t.salary", "s.salary < -5")
    check("has no instance" in run(["ask", "s", "q", "--explain-errors"], folder)[2], "a rule that is idle")
    folder = example(made, "circle")
    shown = in_terminal(["ask", "s", "q"], folder, folder / "out")[1]
    check("currency conflicts s" in shown, f"inconsistent: {shown!r}")


def interrupts(made):
    """An interrupt ends the program too, and leaves nothing behind. (A program that waits for a pipe waits long enough.)"""
    folder, left = example(made, "copies"), pathlib.Path(made) / "left"
    left.mkdir()
    os.mkfifo(folder / "pipe")
    status, _ = in_terminal(["ask", "pipe", "q"], folder, press=b"\x03", TMPDIR=str(left))
    check(status in (130, -signal.SIGINT), f"an interrupt: status {status}")
    check(is_gone(folder / "pipe"), "the program goes on after an interrupt")
    how = {"cwd": folder, "stdout": subprocess.PIPE, "env": {**os.environ, "TMPDIR": str(left)}}
    child = subprocess.Popen([SCRIPT, "ask", "pipe", "q", "--explain-errors"], **how)
    time.sleep(0.5)
    child.terminate()
    check(child.wait(10) == -signal.SIGTERM, f"a signal to the script alone: status {child.returncode}")
    check(is_gone(folder / "pipe"), "the program goes on where the script is ended")
    check(not list(left.iterdir()), f"something is left: {list(left.iterdir())}")


def is_gone(pipe):
    """Does nothing read the pipe any more?"""
    time.sleep(0.2)
    try:
        os.close(os.open(pipe, os.O_WRONLY | os.O_NONBLOCK))
        return False
    except OSError:
        return True


def outputs(made):
    """Where the output takes nothing, the status is the program's."""
    folder = example(made, "copies")
    for words in (["ask", "s", "q"], ["ask", "s", "none"]):
        for more in ([], ["--explain-errors"]):
            for how in ("/dev/full", "nobody reads"):
                ends = [status_into(how, [it, *words, *extra], folder) for it, extra in ((PROGRAM, []), (SCRIPT, more))]
                check(ends[0] == ends[1], f"{words} {more}, {how}: status {ends[1]}, and {ends[0]} of the program")


def status_into(how, command, folder):
    """The status of a run whose output takes nothing."""
    if how == "/dev/full":
        end = os.open(how, os.O_WRONLY)
    else:
        read_end, end = os.pipe()
        os.close(read_end)
    try:
        return subprocess.run(command, cwd=folder, stdout=end, stderr=subprocess.DEVNULL).returncode
    finally:
        os.close(end)


def installed(made):
    """What is installed runs from any folder, and a release is the same twice. Answers the installed script."""
    prefix = pathlib.Path(made) / "prefix"
    check(run(["install", prefix], made)[0] == 0, "install")
    script, folder = prefix / "bin" / "currency", example(made, "copies")
    check(run(["golden", "s", "Staff"], folder, script) == run(["golden", "s", "Staff"], folder), "installed: golden")
    check(run(["--version"], folder, script) == run(["--version"], folder), "installed: --version")
    check("`Staff`" in run(["golden", "s", "Staf", "--explain-errors"], folder, script)[2], "installed: --explain-errors")
    status, said, message = run(["page", "s"], folder, script)
    check((status, said) == (0, b"page.html\n") or "jinja2" in message, f"installed: page: {message}")
    packed = []
    for name in ("a", "b"):
        target = pathlib.Path(made) / name
        target.mkdir()
        check(subprocess.run([ROOT / "tools" / "release", target], stdout=subprocess.DEVNULL).returncode == 0, "release")
        packed.append({it.name: it.read_bytes() for it in target.iterdir()})
    check(len(packed[0]) == 2 and packed[0] == packed[1], "two releases differ")
    check(subprocess.run("sha256sum -c --quiet *.sha256", shell=True, cwd=target).returncode == 0, "the checksum")
    return script


def main():
    many, seed = ([int(it) for it in sys.argv[1:]] + [2000, 1][len(sys.argv) - 1 :])[:2]
    if not PROGRAM.exists():
        sys.exit("the program is not built: run ./currency once")
    begun = time.monotonic()
    with tempfile.TemporaryDirectory() as made:
        print(f"{by_hand(made, installed(made))} mistakes by hand, {time.monotonic() - begun:.0f} s", flush=True)
        print(f"{many} changed examples: {at_random(made, many, seed)}, {time.monotonic() - begun:.0f} s", flush=True)
        print(f"{odd_documents(made)} odd documents, {time.monotonic() - begun:.0f} s", flush=True)
        for part in (terminals, interrupts, outputs):
            part(made)
    print(f"{len(wrong)} wrong, {time.monotonic() - begun:.0f} s")
    sys.exit(bool(wrong))


if __name__ == "__main__":
    main()
