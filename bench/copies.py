"""What before, latencies and waiters share: copies of the repository in a temporary folder, and programs that are built there.

The sources in clocked/ are of programs that read a clock or sleep, and of one whose memory is refused. They are no crates, since nothing of the
repository depends on time or on that: each is made one in a copy, and is built without proofs, on the crates as they stand there."""
import os
import re
import shutil
import subprocess
import sys

HERE = os.path.dirname(os.path.abspath(__file__))
ROOT = os.path.dirname(HERE)
BEFORE = "4a8aa2bc"


def copy_of_today(folder):
    """The crates as they are in the working tree."""
    os.makedirs(folder)
    shutil.copytree(ROOT + "/crates", folder + "/crates", ignore=shutil.ignore_patterns("out"))
    for name in ("crates.txt", "HANDLES"):
        shutil.copy(ROOT + "/" + name, folder)
    return folder


def copy_of_before(folder, commit=BEFORE):
    """The repository at an earlier commit, but with today's sections to be measured: those of bench_sections."""
    cloned = subprocess.run(["git", "clone", "--quiet", "--no-checkout", ROOT, folder], check=False)
    if cloned.returncode != 0 or subprocess.run(["git", "-C", folder, "checkout", "--quiet", commit], check=False).returncode != 0:
        sys.exit("%s is not in this clone of the repository" % commit)
    shutil.rmtree(folder + "/crates/bench_sections")
    shutil.copytree(ROOT + "/crates/bench_sections", folder + "/crates/bench_sections", ignore=shutil.ignore_patterns("out"))
    return folder


def add(folder, name, libraries):
    """Makes the source clocked/NAME.rattle a crate of the copy, over these libraries and those of bench_sections."""
    os.makedirs("%s/crates/%s/src" % (folder, name))
    shutil.copy("%s/clocked/%s.rattle" % (HERE, name), "%s/crates/%s/src/main.rt" % (folder, name))
    with open(folder + "/crates.txt") as lines:
        text = lines.read()
    found = re.search(r"^bench_sections[^:]*: (.*)$", text, re.M).group(1).split()
    with open(folder + "/crates.txt", "w") as lines:
        lines.write("%s\n%s: %s\n" % (text.rstrip("\n"), name, " ".join(dict.fromkeys(found + libraries))))


def built(folder, name, out):
    """The path of a crate's program, built without its proofs."""
    done = subprocess.run([HERE + "/unproved", "%s/crates/%s" % (folder, name), out], capture_output=True, text=True, check=False)
    if done.returncode != 0:
        sys.exit(done.stdout + done.stderr)
    return out
