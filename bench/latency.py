"""What latencies and before share: how long requests wait, as clocked/waits.rattle measures it."""
import subprocess
import sys

CELLS = [(1, 20000), (4, 5000), (64, 300)]
LIMIT = 20


def waits(program, threads, sections):
    """How long each request of a run waited, in nanoseconds, rising; None if the run has not ended in time."""
    try:
        done = subprocess.run([program, str(threads), str(sections)], stdout=subprocess.PIPE, timeout=LIMIT, check=True)
    except subprocess.TimeoutExpired:
        return None
    found = sorted(int(line) for line in done.stdout.split())
    if len(found) != threads * sections:
        sys.exit("%s: %d sections of %d" % (program, len(found), threads * sections))
    return found


def show(programs, runs):
    """A line for each program, a pair of its name and its path, and number of threads: medians over the runs, which take turns."""
    print("%-8s %8s %10s %12s %12s %12s   (microseconds from a request to its grant)" % ("program", "threads", "sections", "median", "99 in 100", "longest"))
    for threads, sections in CELLS:
        found = [[] for _ in programs]
        for _ in range(runs):
            for (_, path), rows in zip(programs, found):
                if None not in rows:
                    one = waits(path, threads, sections)
                    rows.append(one and (one[len(one) // 2], one[len(one) * 99 // 100], one[-1]))
        for (name, _), rows in zip(programs, found):
            numbers = ["-"] * 3 if None in rows else ["%.1f" % (sorted(column)[len(column) // 2] / 1000) for column in zip(*rows)]
            print("%-8s %8d %10d %12s %12s %12s" % (name, threads, threads * sections, *numbers), flush=True)
