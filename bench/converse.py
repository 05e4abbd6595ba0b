#!/usr/bin/env python3
"""Measures an exchange of many records between two archives in one program (`converse`), which isn't proved.

    bench/converse.py [RECORDS ..]

One of two replicas is filled with so many records, values of five variables, and calls the other (brought), or is called by it
(fetched). Over stores in files, and in files in memory, each tenth record a correction; in memory, where none is; and in memory,
where each tenth is.
Prints a table: seconds of a processor of the filling, and then, each as the difference to it, of filling the other one too, and of
the exchange; and the greatest kB of an exchange beside those of two filled archives. The program (bench/converse/main.txt) is made in
a copy of the crates: the module that `rt try` makes of it, compiled at -O2 without what `rt try` checks. Needs gcc and GNU time.
"""
import os, shutil, signal, sys, tempfile

top = os.path.dirname(os.path.dirname(os.path.abspath(__file__)))
sys.path[1:1] = [os.path.join(top, "tests"), os.path.join(top, "tools")]
import running, unproved

NAME = "bench_converse"
BELOW = "exchange sql_archive sql_opening sql_reading sql_tables sql_schema archive records stamp ua_variant ua_binary uuid anyhow sqlite sqlite_disk"
# What is filled: the kind of archive, each how many-th record is a correction, its name, and how many records.
KINDS = [("file", 10, "in files", [10_000, 100_000]), ("disk", 10, "in files in memory", [10_000, 100_000]),
         ("sql", 0, "in memory, no corrections", [10_000, 100_000]), ("sql", 10, "in memory", [10_000, 20_000])]


def copied(folder):
    """A copy of the repository's crates with the program beside them; its crate's folder."""
    shutil.copytree(os.path.join(top, "crates"), os.path.join(folder, "crates"), ignore=shutil.ignore_patterns("out"))
    shutil.copy(os.path.join(top, "HANDLES"), folder)
    listed = open(os.path.join(top, "crates.txt")).read()
    open(os.path.join(folder, "crates.txt"), "w").write(f"{listed}{NAME}: {BELOW}\n")
    crate = os.path.join(folder, "crates", NAME)
    os.makedirs(os.path.join(crate, "src"))
    shutil.copy(os.path.join(top, "bench", "converse", "main.txt"), os.path.join(crate, "src", "main.rt"))
    return crate


def built(folder):
    """The program, from the repository's crates."""
    unproved.module(copied(folder), folder, ["--steps", "1", "--", "sql", "one", "1", "0"])
    return unproved.linked(folder, "module.bc", "-O2")


def measured(program, archive, task, count, every):
    """Seconds of a processor and greatest kB of a run, which has to end as it should."""
    for store in ("one.db", "two.db"):
        running.forget(store)
    done = running.weighed([program, archive, task, str(count), str(every)], most=3600)
    one = (count, 0)
    held = {"one": (one, (0, 0)), "both": (one, (0, count)), "first": (one, one), "second": ((0, count), (0, count))}[task]
    words = done.out.split()
    found = tuple((int(words[k]), int(words[k + 1])) for k in (3, 6)) if done.status == 0 else None
    assert found == held, (task, done.status, done.out, done.said)
    return done.processor, done.kilobytes


if __name__ == "__main__":
    signal.signal(signal.SIGTERM, lambda *_: sys.exit(143))
    folder = tempfile.mkdtemp()
    try:
        program = built(folder)
        os.chdir(folder)
        print("| Archives | records | filling, s | kB | the other too, s | brought, s | kB beside | fetched, s | kB beside |")
        print("|---|---|---|---|---|---|---|---|---|")
        for archive, every, name, sizes in KINDS:
            for count in [int(word) for word in sys.argv[1:]] or sizes:
                (alone, least), (twice, both), *others = (measured(program, archive, task, count, every) for task in ("one", "both", "first", "second"))
                shown = " | ".join(f"{seconds - alone:.2f} | {greatest - both:,}" for seconds, greatest in others)
                print(f"| {name} | {count:,} | {alone:.2f} | {least:,} | {twice - alone:.2f} | {shown} |", flush=True)
    finally:
        shutil.rmtree(folder)
