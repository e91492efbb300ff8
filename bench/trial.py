#!/usr/bin/env python3
"""How the time of `currency trial N` grows with N, 16 rows for each.

Runs the program as built, and prints for each N the time, the time per row, its ratio to that of 100, and the peak memory. Where a
case is above a mark, this is said and the exit status is 1."""
import tempfile

from runs import build, end, timed

SIZES = [1, 12, 100, 1000]
ROWS = 16
# what the largest may take: seconds, megabytes, and times the time per row of 100
MOST_SECONDS, MOST_MEGABYTES, MOST_RATIO = 12, 1_000, 3


def summary(size):
    """The text for a size: the order of every second entity is known whole, and its last row is among the answers."""
    kinds = ("certain", "same") if size == 1 else ("not certain", "not same")
    lines = [f"trial {size}", f"rows {ROWS * size}", "consistent", *kinds, f"answers {(size + 1) // 2}"]
    return "".join(line + "\n" for line in lines).encode()


def main():
    build()
    above, times = [], {}
    with tempfile.TemporaryDirectory() as folder:
        for size in SIZES:
            spent, megabytes, said = timed(folder, ["trial", str(size)])
            times[size] = spent / (ROWS * size)
            print(f"trial {size}: {spent:.2f} s, {times[size] * 1e6:.0f} us a row, {megabytes:.0f} MB")
            if said != summary(size):
                above.append(f"trial {size}: {said!r}")
    ratio = times[1000] / times[100]
    print(f"time per row of trial 1000: {ratio:.2f} times that of trial 100")
    if spent > MOST_SECONDS:
        above.append(f"trial 1000: {spent:.1f} s")
    if megabytes > MOST_MEGABYTES:
        above.append(f"trial 1000: {megabytes:.0f} MB")
    if ratio > MOST_RATIO:
        above.append(f"trial 1000: {ratio:.2f} times the time per row of trial 100")
    end(above)


if __name__ == "__main__":
    main()
