"""What run and count share: the lists of lists.rs, and the reports that are due for them.

Each list is written by lists.rs, which settles it by the model of model.rs; the report of the program must be the model's, byte
for byte."""
import os
import subprocess
import sys

LISTS = ["alone", "short-queues", "queues", "readers-and-writers", "few-resources", "all-kinds"]
HERE = os.path.dirname(os.path.abspath(__file__))


def build(folder, name):
    program = os.path.join(folder, name)
    source = os.path.join(HERE, name + ".rs")
    subprocess.run(["rustc", "--edition", "2021", "-O", "-o", program, source], check=True)
    return program


def write(program, words, path):
    with open(path, "wb") as out:
        subprocess.run([program] + words, stdout=out, check=True)


def lists(folder, events):
    """Each list by name, with the paths of its text and of its report; the next one takes their place."""
    program = build(folder, "lists")
    text, report = os.path.join(folder, "list"), os.path.join(folder, "report")
    for name in LISTS:
        write(program, [name, events, "list"], text)
        write(program, [name, events, "report"], report)
        yield name, text, report


def demand_same(name, out, report):
    with open(out, "rb") as x, open(report, "rb") as y:
        if x.read() != y.read():
            sys.exit("%s: the report is not the model's" % name)
