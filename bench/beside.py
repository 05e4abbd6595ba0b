#!/usr/bin/env python3
"""Measures the built program's work over a store beside the C library: instructions a piece, and their ratio.

    bench/beside.py PROGRAM [--index] [RECORDS ..]

The peer (peer/peer.c) does the same over the same tables with prepared statements and the same commits. For each number of
records (1,000 and 10,000 where none is given) in a file, and for the first in memory, both do a piece of work a few times and
more times; what is told is the difference, by valgrind's callgrind, so that starts don't count. An opening is told a record, as the
difference between openings of two stores. With --index the stores have an index of live values, and only files are measured.
Needs gcc, libsqlite3-dev, valgrind and sqlite3.
"""
import os, re, shutil, subprocess, sys, tempfile

top = os.path.dirname(os.path.dirname(os.path.abspath(__file__)))
sys.path[1:1] = [os.path.join(top, "tests")]
import opcua, running
from opcua import Client, int32, node, value_at

if len(sys.argv) < 2 or sys.argv[1].startswith("-"):
    sys.exit(__doc__)
program = os.path.abspath(sys.argv[1])
is_indexed = "--index" in sys.argv
sizes = [int(word) for word in sys.argv[2:] if word != "--index"] or [1000, 10_000]
folder = tempfile.mkdtemp()
peer = os.path.join(folder, "peer")
TAG, FIRST, STEP = node("T", 1), opcua.EPOCH, 10


def moment(k):
    return FIRST + STEP * k


def instructions(words, given=b""):
    """What a run takes."""
    path = os.path.join(folder, "given")
    open(path, "wb").write(given)
    words = ["valgrind", "--tool=callgrind", "--callgrind-out-file=/dev/null", *words]
    told = subprocess.run(words, stdin=open(path, "rb"), stdout=subprocess.DEVNULL, stderr=subprocess.PIPE, text=True)
    return int(re.search(r"Collected : (\d+)", told.stderr)[1])


def filled(count):
    """A store of so many records; made once."""
    path = os.path.join(folder, f"filled-{count}.db")
    if not os.path.exists(path):
        subprocess.run([peer, path, "meta", f"group:{count}:1000"], stdout=subprocess.DEVNULL, check=True)
        if is_indexed:
            subprocess.run(["sqlite3", path, "CREATE INDEX currents2_live ON currents2 (node, live, time, pico)"], check=True)
    return path


def copied(count):
    """A copy of that store, to work on."""
    path = os.path.join(folder, "copy.db")
    running.forget(path)
    for end in ("", "-wal"):
        if os.path.exists(filled(count) + end):
            shutil.copy(filled(count) + end, path + end)
    return path


def session(requests):
    """A client's connection with these requests."""
    client = Client()
    begin = client.hello() + client.open() + client.create_session() + client.activate()
    return begin + b"".join(request(client) for request in requests) + client.close_session()


def writes(moments, perform):
    return [lambda client, at=at: client.update(TAG, perform, [value_at(int32(1), at)]) for at in moments]


def fills(count):
    return [lambda client, i=i: client.update(TAG, 3, [value_at(int32(k), moment(k)) for k in range(i, i + 1000)]) for i in range(0, count, 1000)]


def works(count):
    """Each work over so many records: its name, a few times and more, how many pieces it has, requests, and the peer's word."""
    page = min(1000, count // 2)
    yield "insert", 50, 150, 1, lambda k: writes([moment(count + j) for j in range(k)], 3), "append:{}"
    yield "replace", 50, 150, 1, lambda k: writes([moment(count // 4 + j) for j in range(k)], 2), "replace:{}"
    yield "delete", 50, 150, 1, lambda k: [lambda client, j=j: client.delete_at(TAG, [moment(count // 8 + j)]) for j in range(k)], "delete:{}"
    yield "a raw value of a page", 2, 6, page, lambda k: [lambda client: client.history_read([TAG], moment(count // 2), moment(count))] * k, "page:{}:middle:f"
    yield "a modification of a page", 2, 6, page, lambda k: [lambda client: client.history_read([TAG], moment(count // 2), moment(count), modified=True)] * k, "modpage:{}:middle:f"
    yield "the latest value", 50, 150, 1, lambda k: [lambda client: client.read([(TAG, 13)])] * k, "latest:{}"


def ours(is_file, count, requests):
    store = copied(count) if is_file else None
    settings = running.write_settings(os.path.join(folder, "settings.toml"), "settings.toml", store=store)
    return instructions([program, "answer", "--settings", settings], session(([] if is_file else fills(count)) + requests))


def peers(is_file, count, word):
    return instructions([peer, copied(count), word] if is_file else [peer, ":memory:", f"fill:{count}", word])


def row(name, where, count, uahist, c):
    print(f"| {name} | {where} | {count:,} | {uahist:,.0f} | {c:,.0f} | {uahist / c:.1f} |", flush=True)


def main():
    subprocess.run(["gcc", "-O2", "-w", "-o", peer, os.path.join(top, "bench", "peer", "peer.c"), "-lsqlite3"], check=True)
    print("| What | where | of records | uahist | C library | ratio |\n|---|---|---|---|---|---|")
    for count in sizes:
        for is_file in (True, False) if count == sizes[0] and not is_indexed else (True,):
            for name, few, more, pieces, make, word in works(count):
                uahist = ours(is_file, count, make(more)) - ours(is_file, count, make(few))
                c = peers(is_file, count, word.format(more)) - peers(is_file, count, word.format(few))
                row(name, "file" if is_file else "memory", count, uahist / (more - few) / pieces, c / (more - few) / pieces)
    for less, more in zip(sizes, sizes[1:]):
        uahist = ours(True, more, []) - ours(True, less, [])
        c = peers(True, more, "judge") - peers(True, less, "judge")
        row("an opening, a record", "file", more, uahist / (more - less), c / (more - less))
    shutil.rmtree(folder)


main()
