"""What runs, before and waiters share: scripts of equal sections, runs of them by `rnlp run`, and what a program uses.

It needs /usr/bin/time: a child of Python's own begins with Python's resident size."""
import os
import signal
import subprocess
import sys
import tempfile
import threading
import time


def script(tasks, each, where):
    """A script whose tasks make this many sections each, of one record: the same for all (hot), each task's own (apart), or the same but
    only each tenth section writes it, while the others read and show it (reads). And what its sections add together."""
    lines = ["rnlp,1"] + ["resource,r%d" % n for n in range(tasks)]
    added = 0
    for task in range(tasks):
        record = "r%d" % (task if where == "apart" else 0)
        lines.append("task,t%d" % task)
        for k in range(each):
            writes = where != "reads" or k % 10 == 9
            lines += ["write,%s,1" % record, "add,%s,1" % record, "finish"] if writes else ["read,%s,1" % record, "show,%s" % record, "finish"]
            added += writes
    return "\n".join(lines + ["end", ""]).encode(), added


class Used:
    """What a program used: seconds by the clock and of processors, context switches, and its greatest resident size in bytes."""

    def __init__(self, took, told):
        memory, forced, waits, user, system = told.split()
        self.took, self.processor = took, float(user) + float(system)
        self.switches, self.memory = int(forced) + int(waits), int(memory) * 1024


def used(words, limit, source=None, out=None):
    """Runs a program, and answers its status and what it used; None if it has not ended in time, and it is then ended."""
    with tempfile.NamedTemporaryFile("r") as told:
        before = time.monotonic()
        child = subprocess.Popen(["/usr/bin/time", "-q", "-o", told.name, "-f", "%M %c %w %U %S", *words], stdin=source, stdout=out, start_new_session=True)
        late = threading.Event()
        timer = threading.Timer(limit, lambda: (late.set(), os.killpg(child.pid, signal.SIGKILL)))
        timer.start()
        status = child.wait()
        took = time.monotonic() - before
        timer.cancel()
        return None if late.is_set() else (status, Used(took, told.read()))


def run(program, text, added, limit=60, form=()):
    """Runs a script, by these further words, whose report must end in ledgers with what is due. What it used, and the size of its report;
    None if it has not ended in time."""
    with tempfile.TemporaryFile() as source, tempfile.TemporaryFile() as out:
        source.write(text)
        source.seek(0)
        ended = used([program, "run", *form], limit, source, out)
        if ended is None:
            return None
        out.seek(0)
        report = out.read()
    found = sum(int(line.split(b",")[2]) for line in report.split(b"\n") if line.startswith(b"ledger,"))
    if ended[0] != 0 or found != added:
        sys.exit("status %d, and %d were added in place of %d" % (ended[0], found, added))
    return ended[1], len(report)
