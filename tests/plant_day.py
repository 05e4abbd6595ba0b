#!/usr/bin/env python3
"""A day of the heating plant of plant.toml, as one client's connection.

    plant_day.py            writes what the client sends, in hex, a request a line
    plant_day.py ANSWER     tells what the answer in the file ANSWER (hex digits) says, a response a line
    plant_day.py HOST:PORT  sends it to the server there over TCP, and tells the same of what comes back

ann writes the 24 hourly temperatures of 2026-03-01 and reads the morning; ben corrects 07:00 and reads who changed what;
then he deletes the night. The server's clock stands (--now), so that the same bytes come out each time.
"""
import socket
import struct
import sys
import opcua
import usage
from opcua import Client, int32, node, value_at

TAG = node("boiler.temperature", 1)
DAY = opcua.EPOCH + 20_513 * 864_000_000_000  # 2026-03-01 00:00 UTC
HOUR = 36_000_000_000
TEMPERATURES = [52, 51, 51, 50, 53, 58, 64, 71, 74, 75, 75, 74, 73, 72, 72, 73, 75, 77, 76, 72, 67, 61, 57, 54]


def requests():
    """The requests of the day, each with its name."""
    client = Client()
    yield "Hello", client.hello()
    yield "OpenSecureChannel", client.open()
    yield "GetEndpoints", client.get_endpoints()
    yield "CreateSession", client.create_session()
    yield "ActivateSession (ann)", client.activate("ann", b"boiler-7")
    yield "Browse the folder Boiler", client.browse([node("boiler", 1)])
    yield "Read the temperature", client.read([(TAG, 13)])
    values = [value_at(int32(t), DAY + k * HOUR) for k, t in enumerate(TEMPERATURES)]
    yield "Insert 24 values", client.update(TAG, 1, values)
    yield "Read the temperature", client.read([(TAG, 13)])
    yield "HistoryRead 05:30 to 09:30 with bounds", client.history_read([TAG], DAY + 11 * HOUR // 2, DAY + 19 * HOUR // 2, bounds=True)
    yield "ActivateSession (ben)", client.activate("ben", b"pump-3")
    yield "Replace 07:00", client.update(TAG, 2, [value_at(int32(70), DAY + 7 * HOUR)])
    yield "HistoryRead modified 07:00 to 08:00", client.history_read([TAG], DAY + 7 * HOUR, DAY + 8 * HOUR, modified=True)
    yield "DeleteRaw 00:00 to 05:00", client.delete_raw(TAG, DAY, DAY + 5 * HOUR)
    yield "HistoryRead 00:00 to 06:00", client.history_read([TAG], DAY, DAY + 6 * HOUR)
    yield "CloseSession", client.close_session()


TYPES = {397: "ServiceFault", 431: "GetEndpoints", 449: "OpenSecureChannel", 464: "CreateSession", 470: "ActivateSession", 476: "CloseSession",
         530: "Browse", 634: "Read", 667: "HistoryRead", 703: "HistoryUpdate"}


def told(letters, chunk):
    """A response by its type, its handle and its status."""
    if letters == "ACKF":
        return "Acknowledge: chunks of %d and %d bytes" % struct.unpack_from("<II", chunk, 12)
    if letters == "ERRF":
        return "Error %08X" % struct.unpack_from("<I", chunk, 8)
    start = 24 if letters == "MSGF" else 8 + 4 + 4 + len(opcua.POLICY) + 4 + 4 + 8
    type_id, handle, status = struct.unpack_from("<H", chunk, start + 2)[0], *struct.unpack_from("<II", chunk, start + 12)
    return f"{TYPES.get(type_id, type_id)}: handle {handle}, status {status:08X}, {len(chunk) - start} bytes"


def over_network(address):
    """Each request of the day with the chunk that the server at HOST:PORT answers."""
    host, port = address.rsplit(":", 1)
    with socket.create_connection((host, int(port))) as line, line.makefile("rb") as answers:
        for name, sent in requests():
            line.sendall(sent)
            head = answers.read(8)
            yield name, head[:4].decode(), head + answers.read(struct.unpack_from("<I", head, 4)[0] - 8)


usage.shown(__doc__, 0)
if len(sys.argv) == 1:
    for name, sent in requests():
        print(sent.hex().upper())
elif ":" in sys.argv[1]:
    for name, letters, chunk in over_network(sys.argv[1]):
        print(f"{name}: {told(letters, chunk)}")
else:
    names = [name for name, _ in requests()]
    for name, (letters, chunk) in zip(names, opcua.cut(bytes.fromhex(open(sys.argv[1]).read()))):
        print(f"{name}: {told(letters, chunk)}")
