#!/usr/bin/env python3
"""Measures how the built program's work over a store in a file grows with its records: microseconds of a processor a piece.

    bench/growth.py PROGRAM [RECORDS ..]

For each number of records (1,000 and 1,000,000 where none is given) the peer (peer/peer.c) makes a store, the program serves it, and
one client asks for each piece of work a few hundred times, three times over. What is told is the least of the three, by the seconds
of a processor that the system counts for the server; and the ratio to the first number of records. A page has 500 values. Run it
where nothing else runs. Needs gcc and libsqlite3-dev; the opening of a million records takes some seconds.
"""
import os, shutil, subprocess, sys, tempfile

top = os.path.dirname(os.path.dirname(os.path.abspath(__file__)))
sys.path[1:1] = [os.path.join(top, "tests")]
import opcua, running
from network_line import Line
from opcua import int32, node, value_at

if len(sys.argv) < 2 or sys.argv[1].startswith("-"):
    sys.exit(__doc__)
program = os.path.abspath(sys.argv[1])
sizes = [int(word) for word in sys.argv[2:]] or [1000, 1_000_000]
folder = tempfile.mkdtemp()
peer = os.path.join(folder, "peer")
TAG, FIRST, STEP, PAGE, TIMES = node("T", 1), opcua.EPOCH, 10, 500, 300


def moment(k):
    return FIRST + STEP * k


def works(count):
    """Each work over so many records: its name, how many pieces a request has, and the request of a number that isn't used again."""
    middle = moment(count // 2)
    yield "the latest value", 1, lambda client, k: client.read([(TAG, 13)])
    yield "a raw value of a page", PAGE, lambda client, k: client.history_read([TAG], middle, moment(count), count=PAGE)
    yield "a modification of a page", PAGE, lambda client, k: client.history_read([TAG], middle, moment(count), count=PAGE, modified=True)
    yield "insert", 1, lambda client, k: client.update(TAG, 3, [value_at(int32(1), moment(count + k))])
    yield "replace", 1, lambda client, k: client.update(TAG, 2, [value_at(int32(1), moment(count // 4 + k % (count // 8)))])
    yield "delete", 1, lambda client, k: client.delete_at(TAG, [moment(count + k)])


def seconds(pid):
    """Those of a processor that a process of one thread took so far."""
    return int(open(f"/proc/{pid}/schedstat").read().split()[0]) / 1e9


def measured(count):
    """Microseconds of each work over so many records."""
    store, port = os.path.join(folder, f"{count}.db"), running.free_port()
    subprocess.run([peer, store, "meta", f"group:{count}:1000"], stdout=subprocess.DEVNULL, check=True)
    settings = running.write_settings(os.path.join(folder, "settings.toml"), "settings.toml", store=store, port=port)
    server = subprocess.Popen([program, "serve", "--settings", settings], stdin=subprocess.DEVNULL)
    assert running.listens(port, server, 120), "it listens"
    line = Line(port).begin()
    told = {}
    for name, pieces, make in works(count):
        least = None
        for turn in range(3):
            before = seconds(server.pid)
            for k in range(TIMES):
                line.ask(make(line.client, turn * TIMES + k))
            took = (seconds(server.pid) - before) / TIMES / pieces
            least = took if least is None else min(least, took)
        told[name] = least * 1e6
    server.terminate()
    server.wait()
    return told


def main():
    subprocess.run(["gcc", "-O2", "-w", "-o", peer, os.path.join(top, "bench", "peer", "peer.c"), "-lsqlite3"], check=True)
    print("| What | " + " | ".join(f"{count:,} records" for count in sizes) + " | the last to the first |")
    print("|---|" + "---|" * (len(sizes) + 1))
    columns = [measured(count) for count in sizes]
    for name in columns[0]:
        row = [column[name] for column in columns]
        print(f"| {name} | " + " | ".join(f"{us:,.2f} us" for us in row) + f" | {row[-1] / row[0]:.2f} |")
    shutil.rmtree(folder)


main()
