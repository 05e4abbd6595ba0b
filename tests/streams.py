#!/usr/bin/env python3
"""Writes the bytes that one client sends: a Hello, a channel, a session, and then COUNT requests of one kind.

    tests/streams.py KIND COUNT > stream

KIND is `unknown` (a service that isn't served), `state` (Read of the server's state), `chunks` (Read of one node's
state a thousand times over, in 57 chunks), `decode` (a HistoryUpdate of a hundred values of a node that isn't there),
and of a plant with a variable ns=1;s=T, an Int32: `insert` (one value more),
`insert100` (a hundred values more), `update` (the same value again), `raw` (a page of 1,000 values of the 100,000 that
are written first), `modified` (the same of modifications).
"""
import sys
import opcua, usage
from opcua import Client, int32, node, value_at

usage.shown(__doc__, 2)
kind, count = sys.argv[1], int(sys.argv[2])
out = sys.stdout.buffer
client = Client()
out.write(client.hello() + client.open() + client.create_session() + client.activate())
tag, first = node("T", 1), opcua.EPOCH


def hundred(at):
    return client.update(tag, 3, [value_at(int32(k), first + at + k) for k in range(100)])


if kind in ("raw", "modified"):
    for k in range(1000):
        out.write(hundred(100 * k))
for k in range(count):
    if kind == "unknown":
        out.write(client.message(0, b""))
    elif kind == "state":
        out.write(client.read([(node(2259), 13)]))
    elif kind == "chunks":
        items = opcua.array([node(2259) + opcua.u32(13) + opcua.text(None) + opcua.qualified()] * 1000)
        out.write(client.chunks(631, b"\0" * 8 + opcua.u32(2) + items, 320))
    elif kind == "decode":
        out.write(hundred(100 * k))
    elif kind == "insert":
        out.write(client.update(tag, 1, [value_at(int32(k), first + k)]))
    elif kind == "insert100":
        out.write(hundred(100 * k))
    elif kind == "update":
        out.write(client.update(tag, 3, [value_at(int32(k), first)]))
    elif kind in ("raw", "modified"):
        start = first + k % 99 * 1000
        out.write(client.history_read([tag], start, start + 1000, modified=kind == "modified"))
    else:
        sys.exit(f"no such kind: {kind}")
out.write(client.close_session())
