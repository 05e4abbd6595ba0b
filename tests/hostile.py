#!/usr/bin/env python3
"""Makes worked rows with each growth of memory that they ask for refused in turn, once.

    tests/hostile.py [TEST ..]

The rows are the tests of `crates/hostile_tests` (`src/rows.rt` is their table), which the gate proves and runs with ample memory;
here they are compiled in a copy of the crates, unproved. A test makes a row's call again where it was told want of memory, and looks
at what was left before; so it has to pass whichever growth is refused. TEST is a part of the tests' names, all without it. Needs
gcc. Prints for each test how many growths it asked for and how many of these refused it came through; the exit status is 1 where
that isn't each of them.
"""
import os, shutil, subprocess, sys, tempfile
from concurrent.futures import ThreadPoolExecutor
import running, usage

usage.shown(__doc__, 0)
sys.path.append(os.path.join(os.path.dirname(running.here), "tools"))
import unproved

top = os.path.dirname(running.here)
words = sys.argv[1:]
folder = tempfile.mkdtemp(dir="/dev/shm" if os.path.isdir("/dev/shm") else None)
library = running.built("refuse.c", "refuse.so", folder)


def copied():
    """A copy of the repository's crates; the folder of the tests' crate."""
    shutil.copytree(os.path.join(top, "crates"), os.path.join(folder, "crates"), ignore=shutil.ignore_patterns("out"))
    for name in ["HANDLES", "crates.txt"]:
        shutil.copy(os.path.join(top, name), folder)
    return os.path.join(folder, "crates", "hostile_tests")


unproved.module(copied(), folder, ["--test", "--seconds", "1"])
program = unproved.linked(folder, "module.bc", "-O1")


def ran(test, growth):
    """How a test ends where this growth is refused (0: none), and how many it asked for."""
    told = os.path.join(folder, f"{test.replace('::', '.')}.{growth}.told")
    environment = dict(os.environ, LD_PRELOAD=library, REFUSE_TOLD=told, **({"REFUSE_AT": str(growth)} if growth else {}))
    run = running.run([program, test], environment=environment)
    asked = int(open(told).read().split()[0]) if os.path.exists(told) else None
    if asked is not None:
        os.remove(told)
    return run, asked


def refused(test):
    run, asked = ran(test, 0)
    if run.status != 0 or asked is None:
        return 0, [(0, run.status, run.said[:200])]
    others = []
    for growth in range(1, asked + 1):
        run, _ = ran(test, growth)
        if run.status != 0:
            others.append((growth, run.status, (run.said + run.out.decode(errors="replace"))[:200]))
    return asked, others


names = subprocess.run([program, "--list"], stdout=subprocess.PIPE, text=True, check=True).stdout.split()
names = [n.rstrip(":") for n in names if "row_" in n and (not words or any(w in n for w in words))]
names.sort(key=lambda n: int(n.split("row_")[1]))
with ThreadPoolExecutor(2) as threads:
    ends = list(threads.map(refused, names))
for name, (growths, others) in zip(names, ends):
    print(f"{name}: {growths} growths refused, {growths - len(others)} as the row, {len(others)} otherwise" + "".join(f"\n  {o}" for o in others[:3]), flush=True)
print(f"all: {sum(g for g, _ in ends)} growths refused, {sum(len(o) for _, o in ends)} otherwise")
shutil.rmtree(folder)
sys.exit(1 if any(o for _, o in ends) else 0)
