#!/usr/bin/env python3
"""Runs the built program as a server on the loopback address, with clients of its own, and checks what they are answered.

    tests/network.py PROGRAM [--silent]

Each check prints a line, the first that fails ends the script by an error. With --silent it also waits for the two minutes
after which a client that says nothing is given up.
"""
import os, socket, struct, subprocess, sys, tempfile, time
import usage
from network_line import Line, status
from opcua import int32, node, value_at

usage.shown(__doc__, 1)
here = os.path.dirname(os.path.abspath(__file__))
program = os.path.abspath(sys.argv[1])
folder = tempfile.TemporaryDirectory()
settings = os.path.join(folder.name, "settings.toml")
T = node("T", 1)
ENDED = "uahist: connection ended (%d)\n"


def free_port():
    with socket.socket() as probe:
        probe.bind(("127.0.0.1", 0))
        return probe.getsockname()[1]


def serve(port, connections):
    """The program with the settings of settings.toml, but for the port, once it listens."""
    text = open(os.path.join(here, "settings.toml")).read().replace("127.0.0.1:4840", f"127.0.0.1:{port}")
    open(settings, "w").write(text)
    command = [program, "serve", "--settings", settings, "--connections", str(connections)]
    return subprocess.Popen(command, stdin=subprocess.DEVNULL, stdout=subprocess.PIPE, stderr=subprocess.PIPE, text=True)


def ends(server, told, code=0):
    out, errors = server.communicate(timeout=150)
    assert (out, errors, server.returncode) == ("", told, code), (out, errors, server.returncode)


def insert(line, value, time):
    answer = line.ask(line.client.update(T, 1, [value_at(int32(value), time)]))
    assert status(answer) == 0 and answer[-12:-8] == bytes.fromhex("0000A200"), answer.hex()


def reads(line, value):
    answer = line.ask(line.client.read([(T, 13)]))
    return status(answer) == 0 and b"\x06" + struct.pack("<i", value) in answer


def one_client(port):
    server = serve(port, 1)
    line = Line(port).begin()
    insert(line, 7, 10)
    assert reads(line, 7)
    assert status(line.ask(line.client.close_session())) == 0
    line.socket.close()
    ends(server, "")


def one_after_the_other(port):
    server = serve(port, 2)
    first = Line(port).begin()
    second = Line(port)
    insert(first, 11, 10)
    first.socket.close()
    assert reads(second.begin(), 11)
    second.socket.close()
    ends(server, "")


def broken_off(port):
    server = serve(port, 3)
    first = Line(port).begin()
    insert(first, 13, 10)
    first.socket.sendall(first.client.read([(T, 13)])[:30])
    time.sleep(0.2)
    first.reset()
    second = Line(port).begin()
    second.socket.sendall(second.client.read([(T, 13)])[:30])
    second.socket.close()
    third = Line(port).begin()
    assert reads(third, 13)
    third.socket.close()
    ends(server, ENDED % 1)


def deaf(port):
    """A client that reads nothing and goes away while its answers wait."""
    server = serve(port, 2)
    first = Line(port).begin()
    first.socket.settimeout(1)
    asked = first.client.get_endpoints()
    try:
        while True:
            first.socket.sendall(asked)
            asked = first.client.get_endpoints()
    except TimeoutError:
        first.reset()
    second = Line(port).begin()
    second.socket.close()
    ends(server, ENDED % 2)


def taken_address(port):
    with socket.socket() as other:
        other.bind(("127.0.0.1", port))
        other.listen()
        ends(serve(port, 1), "uahist: address refused\nuahist: port in use\n", 1)


def silent(port):
    """A client that says nothing keeps nobody waiting, and is given up behind two minutes."""
    server = serve(port, 2)
    first, begin = Line(port), time.monotonic()
    second = Line(port).begin()
    assert time.monotonic() - begin < 1
    second.socket.close()
    assert first.socket.recv(1) == b"" and 115 < time.monotonic() - begin < 125
    ends(server, ENDED % 1)


checks = [one_client, one_after_the_other, broken_off, deaf, taken_address] + [silent] * ("--silent" in sys.argv)
for check in checks:
    begin = time.monotonic()
    check(free_port())
    print(f"{check.__name__}: {time.monotonic() - begin:.1f} s", flush=True)
print(f"{len(checks)} kinds of clients over TCP: each is answered as it should be")
