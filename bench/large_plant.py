#!/usr/bin/env python3
"""How long a large plant's requests take: a Read of each variable, a Browse of their folder, a HistoryRead of 100 of them.

    bench/large_plant.py PROGRAM [--instructions] [VARIABLES ..]

For 100, 250, 500 and 999 variables (or those given; a space has 1,000 folders and variables at most), over an archive in memory
and over a store in a file, each variable with three values: milliseconds of processor time of one request, as the difference
between runs of one and of more, and the seconds and kB of the start with these settings. A Read has as many items as there are
variables. With --instructions millions of instructions a request too (valgrind's callgrind), and the ten functions where most
of them go. Over memory a Read of 999 takes seconds: the whole table takes some minutes.
"""
import os, re, shutil, subprocess, sys, tempfile

top = os.path.dirname(os.path.dirname(os.path.abspath(__file__)))
sys.path[1:1] = [os.path.join(top, "tests"), os.path.join(top, "tools")]
import running
import struct
from opcua import *

words = [w for w in sys.argv[1:] if w != "--instructions"]
is_counted = "--instructions" in sys.argv
program = os.path.abspath(words[0])
sizes = [int(w) for w in words[1:]] or [100, 250, 500, 999]
folder = tempfile.mkdtemp()
MORE = {True: 10, False: 2}  # requests more, over a store and in memory


def settings(count, store):
    """The settings of a plant with a folder of so many variables."""
    path = os.path.join(folder, f"{count}.toml")
    head = open(os.path.join(running.here, "settings.toml")).read().split("[[variable]]")[0]
    if store:
        head = head.replace("replica = 1", f"replica = 1\nstore = '{store}'")
    variables = [f"[[variable]]\nid = 'line{k % 7}.machine{k}.temperature'\nname = 'Temperature {k}'\ntype = 'Int32'\nfolder = 'hall'\n" for k in range(count)]
    open(path, "w").write(head + "[[folder]]\nid = 'hall'\nname = 'Hall'\n" + "\n".join(variables))
    return path


def tag(k):
    return node(f"line{k % 7}.machine{k}.temperature", 1)


def begin():
    client = Client()
    return client, [client.hello(), client.open(), client.create_session(), client.activate("ann", b"pw")]


def filling(count):
    """Three values of each variable, a hundred variables a request."""
    client, sent = begin()
    for first in range(0, count, 100):
        details = [extension(682, tag(k) + u32(3) + array([value_at(int32(v), EPOCH + v) for v in range(3)])) for k in range(first, min(count, first + 100))]
        sent.append(client.history_update(details))
    return client, sent


def asked(client, kind, count):
    if kind == "Read":
        items = [tag(k) + u32(13) + text(None) + qualified() for k in range(count)]
        return client.chunks(631, struct.pack("<d", 0) + u32(2) + array(items), 60_000)
    if kind == "Browse":
        return client.browse([node("hall", 1)])
    last = [tag(count - 1 - k) for k in range(min(100, count))]
    return client.history_read(last, EPOCH, EPOCH + 10)


def run(path, sent, prefix=()):
    run = running.run([*prefix, program, "answer", "--settings", path, "--now", str(running.NOW)], b"".join(sent), most=600)
    assert run.status == 0, run.said
    return run


def measured(path, count, kind, is_stored):
    """Seconds and instructions of one request."""
    taken, more = [], MORE[is_stored]
    for times in (1, 1 + more):
        client, sent = begin() if is_stored else filling(count)
        stream = sent + [asked(client, kind, count) for _ in range(times)]
        best = min(run(path, stream).processor for _ in range(2))
        counted = 0
        if is_counted:
            told = run(path, stream, ["valgrind", "--tool=callgrind", f"--callgrind-out-file={folder}/{kind}{times}"]).said
            counted = int(re.search(r"Collected : (\d+)", told)[1])
        taken.append((best, counted))
    return (taken[1][0] - taken[0][0]) / more, (taken[1][1] - taken[0][1]) // more


def main():
    print("| Variables | over | start s | start kB | Read ms | Browse ms | HistoryRead ms |" + (" million instructions |" if is_counted else ""))
    print("|---|---|---|---|---|---|---|" + ("---|" if is_counted else ""))
    for count in sizes:
        for store in ("", os.path.join(folder, f"{count}.db")):
            path = settings(count, store)
            start = running.weighed([program, "answer", "--settings", path])
            if store:
                run(path, filling(count)[1])
            kinds = [measured(path, count, kind, bool(store)) for kind in ("Read", "Browse", "HistoryRead")]
            counted = f" {', '.join(f'{n / 1e6:.1f}' for _, n in kinds)} |" if is_counted else ""
            print(f"| {count} | {'a store' if store else 'memory'} | {start.processor:.3f} | {start.kilobytes} | " + " | ".join(f"{1000 * s:.1f}" for s, _ in kinds) + " |" + counted, flush=True)
    if is_counted:
        for kind in ("Read", "Browse", "HistoryRead"):
            lines = subprocess.run(["callgrind_annotate", f"{folder}/{kind}{1 + MORE[True]}"], stdout=subprocess.PIPE, text=True).stdout.splitlines()
            print(f"\n{kind}, over a store:")
            print("\n".join([line for line in lines if re.match(r"\s*[\d,]+ \(", line)][1:11]))
    shutil.rmtree(folder)


if __name__ == "__main__":
    main()
