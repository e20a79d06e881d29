"""What sections, before and latencies share: runs of programs that make sections, by the clock.

Such a program takes THREADS SECTIONS RESOURCES WHERE, as that of crates/bench_sections does, and writes the sum of all records at the
end, which must be what its sections add. A cell is (WHERE, THREADS, RESOURCES)."""
import subprocess
import sys
import time

LASTS = 0.2
RECORDS = 64


def cells(threads, resources):
    """Each cell that can be: apart there are no more records than 64, and where most sections read, all are about one record."""
    return [(where, t, r) for where in ("hot", "apart", "reads") for t in threads for r in resources
            if (where != "apart" or t * r <= RECORDS) and (where != "reads" or r == 1)]


def due(cell, each):
    """What the sections add together, where each thread makes this many."""
    where, threads, resources = cell
    return threads * resources * (each // 10 if where == "reads" else each)


def seconds(words, cell, each, limit):
    """How long one run takes by the clock; None if it has not ended in time. It must write what is due."""
    where, threads, resources = cell
    words = words + [str(threads), str(each), str(resources), where]
    before = time.monotonic()
    try:
        done = subprocess.run(words, stdout=subprocess.PIPE, timeout=limit, check=True)
    except subprocess.TimeoutExpired:
        return None
    took = time.monotonic() - before
    if done.stdout.strip() != b"%d" % due(cell, each):
        sys.exit("%s: wrote %r in place of %d" % (" ".join(words), done.stdout, due(cell, each)))
    return took


def each_for(words, cell, limit):
    """How many sections each thread makes in a run of some tenths of a second; None if even a few do not end in time."""
    each = 10
    while True:
        took = seconds(words, cell, each, limit)
        if took is None or took >= LASTS / 2 or each >= 10**9:
            return None if took is None else max(10, int(each * min(10, LASTS / took)) // 10 * 10)
        each *= 4 if took < LASTS / 10 else 2


def rates(programs, cell, runs, limit=20):
    """Sections a second of each program, by the least time of these runs, in which the programs take turns. None for one that has not
    ended a run in time."""
    counts = [each_for(words, cell, limit) for words in programs]
    least = [None] * len(programs)
    for _ in range(runs):
        for k, words in enumerate(programs):
            took = counts[k] and seconds(words, cell, counts[k], limit)
            if took is None:
                counts[k] = None
            else:
                least[k] = took if least[k] is None else min(least[k], took)
    return [None if each is None else cell[1] * each / took for each, took in zip(counts, least)]


def shown(value, form):
    """A number, or a dash where there is none."""
    return "-" if value is None else form % value


def ratio(x, y):
    return None if x is None or y is None else x / y
