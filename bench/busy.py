"""Loops that keep processors busy beside what is run: each a process that ends with the one that began it."""
import contextlib
import os
import subprocess
import sys

LOOP = """import os
import sys
while os.getppid() == int(sys.argv[1]):
    for _ in range(1000000):
        pass"""


@contextlib.contextmanager
def busy_loops(count):
    loops = [subprocess.Popen([sys.executable, "-c", LOOP, str(os.getpid())]) for _ in range(count)]
    try:
        yield
    finally:
        for loop in loops:
            loop.kill()
            loop.wait()
