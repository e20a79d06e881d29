"""What stress, tally and wakes share: scripts that are drawn at random, with sections of every kind, and runs of them that are audited."""
import random
import subprocess


def set_of(members):
    """A set as a field of a record."""
    return "+".join("r%d" % n for n in sorted(members)) if members else "-"


def acts(draw, held, written):
    """Some shows and edits of what a section holds."""
    lines = []
    for _ in range(draw.randrange(4)):
        if written and draw.random() < 0.6:
            word = draw.choice(["add", "take", "set"])
            lines.append("%s,r%d,%d" % (word, draw.choice(sorted(written)), draw.randrange(1000)))
        elif held:
            lines.append("show,r%d" % draw.choice(sorted(held)))
    return lines


def section(draw, resources, groups):
    """The records of one section, and how many events they make."""
    some = lambda most: set(draw.sample(range(resources), draw.randint(1, min(most, resources))))
    declared = set(draw.sample(sorted(draw.choice(groups)), 1)) if draw.random() < 0.3 else set(draw.choice(groups))
    kind = draw.choice(["read", "write", "mixed", "upgrade", "nested"])
    length = draw.randrange(10)
    if kind == "read":
        return ["read,%s,%d" % (set_of(declared), length)] + acts(draw, declared, set()) + ["finish"], 2
    if kind == "write":
        writes = some(4)
        return ["write,%s,%d" % (set_of(writes), length)] + acts(draw, writes, writes) + ["finish"], 2
    if kind == "mixed":
        writes, reads = some(3), some(3)
        reads -= writes
        return ["mixed,%s,%s,%d" % (set_of(reads), set_of(writes), length)] + acts(draw, reads | writes, writes) + ["finish"], 2
    if kind == "upgrade":
        lines = ["upgrade,%s,%d,%d" % (set_of(declared), length, length)] + acts(draw, declared, set())
        if draw.random() < 0.5:
            return lines + ["finish"], 2
        return lines + ["rise"] + acts(draw, declared, declared) + ["finish"], 3
    writes, reads = some(4), some(3)
    reads -= writes
    whole = sorted(reads | writes)
    held = set(draw.sample(whole, draw.randint(1, len(whole))))
    lines = ["nested,%s,%s,%s,%d" % (set_of(reads), set_of(writes), set_of(held), length)] + acts(draw, held, held & writes)
    asks = draw.randrange(3)
    for _ in range(asks):
        part = set(draw.sample(whole, draw.randint(1, len(whole))))
        held |= part
        lines += ["ask,%s" % set_of(part)] + acts(draw, held, held & writes)
    return lines + ["finish"], 2 + asks


def script(draw, resources, tasks, many):
    """A script of this many tasks; `many` says how many sections the next one has, and how many events its run has."""
    groups = [draw.sample(range(resources), draw.randint(1, min(5, resources))) for _ in range(draw.randint(1, 12))]
    lines = ["rnlp,1"] + ["resource,r%d" % n for n in range(resources)] + ["group," + set_of(group) for group in groups]
    events = 0
    for task in range(tasks):
        lines.append("task,t%d" % task)
        for _ in range(many()):
            records, made = section(draw, resources, groups)
            lines += records
            events += made
    return "\n".join(lines + ["end", ""]), events


def long_script(number):
    """A script of up to 50 sections a task, drawn from its number, and how many events its run has."""
    draw = random.Random(number)
    resources, tasks = draw.randint(1, 64), draw.randint(2, 64)
    return script(draw, resources, tasks, lambda: draw.randrange(51))


def answer(program, word, text, limit):
    """What the program writes of the text. It must end with status 0, and in time."""
    try:
        done = subprocess.run([program, word], input=text.encode(), stdout=subprocess.PIPE, timeout=limit, check=False)
    except subprocess.TimeoutExpired as late:
        raise ValueError("%s: it has not ended in %d seconds" % (word, limit)) from late
    if done.returncode != 0:
        raise ValueError("%s: status %d, %r" % (word, done.returncode, done.stdout[:80]))
    return done.stdout.decode()


def audited(program, text, events, limit=None):
    """Runs a script and has its report audited, which must count its events."""
    told = answer(program, "audit", answer(program, "run", text, limit), limit)
    if int(told.split(",")[1]) != events:
        raise ValueError("audit: %r, and the script makes %d events" % (told, events))
