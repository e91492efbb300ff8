#!/usr/bin/env python3
"""How fast unit propagation and the search are, and how their times grow with the number of clauses.

Runs the program `bench_search`, which makes random clauses of three literals itself, four for each variable, assumes
literals of random variables until there is a conflict, goes back, and begins again, until two million literals were
implied. Prints for each number of clauses the implied literals per second, beside the time of making the clauses, and
the ratio of the time of one to that at the smallest number. Each is run three times, and the quickest counts. Where
Debian's `minisat` is installed it is run over clauses of the same kind, and the literals that it propagates per second
are printed beside, assumed ones among them; it learns clauses meanwhile.

Then it searches: over random clauses of three literals near the threshold at which most have no model, over one pigeon
more than holes, and over strict orders with no least item, each of several sizes, until a model, a refutation or 20,000
conflicts. Prints decisions, conflicts and conflicts per second, beside the time of making the clauses; of each family
the ratio of the time of a conflict to that at its smallest size; and minisat's conflicts and conflicts per second over
the same clauses, where it is there. Where a figure is beyond a mark, this is said and the exit status is 1."""
import random
import re
import shutil
import subprocess
import tempfile

import parts
from parts import best, build
from runs import ROOT, end

parts.PROGRAM = ROOT / "crates" / "bench_search" / "out" / "bench_search"

SIZES = [10_000, 100_000, 400_000, 1_000_000]
DENSITY = 4
LEAST_PER_SECOND = 2_000_000
MARKED = 400_000
MOST_RATIO = 4
MOST_BYTES = 48
SECONDS = 10
FAMILIES = {"threshold": [150, 200, 250, 2_350], "pigeons": [6, 7, 8, 9], "ordering": [10, 22, 47]}
LEAST_CONFLICTS = 10_000
MARKED_CLAUSES = range(9_000, 11_000)
# how many times as much minisat may do in a second
MOST_BESIDE = {
    ("implied", 10_000): 1.2,
    ("implied", 400_000): 2.0,
    ("threshold", 2_350): 1.5,
    ("ordering", 47): 1.5,
    **{("pigeons", holes): 3.0 for holes in (6, 7, 8, 9)},
}


def minisat(variables, clauses):
    """What minisat says of these clauses within some seconds, if it is there: counts and rates by their names."""
    if shutil.which("minisat") is None:
        return None
    with tempfile.NamedTemporaryFile("w", suffix=".cnf") as text:
        text.write(f"p cnf {variables} {len(clauses)}\n")
        for clause in clauses:
            text.write(" ".join(map(str, clause)) + " 0\n")
        text.flush()
        said = subprocess.run(["minisat", f"-cpu-lim={SECONDS}", text.name], capture_output=True, text=True, check=False)
    lines = re.findall(r"(conflicts|propagations)\s*:\s*(\d+).*\((\d+) /sec\)", said.stdout)
    return {name: (int(count), int(rate)) for name, count, rate in lines}


def beside(what, size, rate, outside, beyond):
    """What minisat does in a second, as words, and whether that is beyond a mark."""
    ratio = outside / rate
    most = MOST_BESIDE.get((what, size))
    if most and ratio > most:
        beyond.append(f"{what} {size}: minisat does {ratio:.2f} times as much a second, which is above {most}")
    return f"{outside:,} a second, {ratio:.2f} times as many"


def random_clauses(clauses):
    """Random clauses of three literals, four for each variable."""
    source = random.Random(clauses)
    variables = clauses // DENSITY
    chosen = (source.sample(range(1, variables + 1), 3) for _ in range(clauses))
    return variables, [[v if source.random() < 0.5 else -v for v in three] for three in chosen]


def threshold(size):
    """The clauses of `made_clauses`: random ones, whose variables ascend."""
    state = 1

    def below(bound):
        nonlocal state
        state = (state * 6364136223846793005 + 1442695040888963407) % 2**64
        return (state >> 33) % bound

    def literal():
        variable = below(size)
        return -(variable + 1) if below(2) == 1 else variable + 1

    made = (sorted((literal() for _ in range(3)), key=abs) for _ in range(size * 17 // 4))
    return size, [lits for lits in made if len({abs(lit) for lit in lits}) == 3]


def pigeons(holes):
    """The clauses of `made_clauses`: each pigeon sits in a hole, and no two in the same."""
    at = lambda pigeon, hole: pigeon * holes + hole + 1
    sits = [[at(pigeon, hole) for hole in range(holes)] for pigeon in range(holes + 1)]
    apart = [[-at(p, h), -at(q, h)] for q in range(holes + 1) for p in range(q) for h in range(holes)]
    return (holes + 1) * holes, sits + apart


def ordering(items):
    """The clauses of `made_clauses`: a strict order with no least item."""
    at = lambda first, second: first * items + second + 1
    lesser = [[at(other, item) for other in range(items) if other != item] for item in range(items)]
    one_way = [[-at(i, j), -at(j, i)] for i in range(items) for j in range(i + 1, items)]
    on = [
        [-at(i, j), -at(j, k), at(i, k)]
        for i in range(items)
        for j in range(items)
        for k in range(items)
        if len({i, j, k}) == 3
    ]
    return items * items, lesser + one_way + on


def propagation(beyond):
    """Measures propagation."""
    smallest = None
    for clauses in SIZES:
        making, peak, _, made = best("arena", clauses)
        spent, _, implied, conflicts = best("propagate", clauses)
        per = max(spent - making, 0.0005) / implied
        smallest = smallest or per
        ratio = per / smallest
        outside = minisat(*random_clauses(clauses))
        print(
            f"{clauses:>8} clauses: {1 / per:>10,.0f} implied a second, ratio {ratio:5.2f}, {conflicts} conflicts; "
            f"peak {peak / made:4.0f} bytes a clause"
            + (f"; minisat {beside('implied', clauses, 1 / per, outside['propagations'][1], beyond)}" if outside else "")
        )
        if clauses == MARKED and 1 / per < LEAST_PER_SECOND:
            beyond.append(f"{clauses} clauses: {1 / per:,.0f} implied a second are below {LEAST_PER_SECOND:,}")
        if ratio > MOST_RATIO:
            beyond.append(f"{clauses} clauses: ratio {ratio:.2f} is above {MOST_RATIO}")
        if clauses == SIZES[-1] and peak / made > MOST_BYTES:
            beyond.append(f"{clauses} clauses: {peak / made:.0f} bytes a clause of the whole process are above {MOST_BYTES}")


def searches(family, beyond):
    """Measures the search over a family."""
    smallest = None
    for size in FAMILIES[family]:
        making, _, _, made = best(f"{family}-made", size)
        spent, _, decisions, conflicts = best(family, size)
        per = max(spent - making, 0.0005) / max(conflicts, 1)
        smallest = smallest or per
        outside = minisat(*globals()[family](size))
        print(
            f"{family:>9} {size:>5}: {made:>7} clauses, {decisions:>7} decisions, {conflicts:>6} conflicts, "
            f"{1 / per:>8,.0f} a second, ratio {per / smallest:5.2f}"
            + (f"; minisat {outside['conflicts'][0]} conflicts, {beside(family, size, 1 / per, outside['conflicts'][1], beyond)}" if outside else "")
        )
        if made in MARKED_CLAUSES and 1 / per < LEAST_CONFLICTS:
            beyond.append(f"{family} {size}: {1 / per:,.0f} conflicts a second are below {LEAST_CONFLICTS:,}")
        if family == "ordering" and per / smallest > MOST_RATIO:
            beyond.append(f"{family} {size}: ratio {per / smallest:.2f} is above {MOST_RATIO}")


def main():
    build()
    beyond = []
    propagation(beyond)
    for family in FAMILIES:
        searches(family, beyond)
    end(beyond)


if __name__ == "__main__":
    main()
