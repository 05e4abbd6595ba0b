#!/usr/bin/env python3
"""Shows who may be a peer of the built program, and who may write: a door for peers, and users who may only read.

    tests/door.py PROGRAM [CHECK ..]

Servers are started with and without a `[door]`: forged records, clients at the door, servers that call each other's door, `sync`,
from where peers are taken, whose records, and how far ahead of the clock, password files, strict settings, readers and writers, wrong addresses and settings. Each line tells what held, or what was otherwise; the exit status is 1 then. All
checks are run where none is named.
"""
import os, socket, struct, subprocess, sys, tempfile, threading, time
import history, opcua, reading, usage
from opcua import Client, int32, node, value_at

usage.shown(__doc__, 1)
from network_line import Line, status
from running import NOW, free_port, listens, run

here = os.path.dirname(os.path.abspath(__file__))
program = os.path.abspath(sys.argv[1])
folder = tempfile.TemporaryDirectory()
T, OBJECTS, NONE = node("T", 1), node(85), node("nobody", 1)
ARCHIVE = bytes.fromhex("3f2c8a105b7e4d219c440a1b2c3d4e5f")
INSERTED, DENIED, UNKNOWN, UNSUPPORTED = 0x00A20000, 0x801F0000, 0x80340000, 0x80720000
NO_LETTERS = b"ERRF" + opcua.u32(16) + opcua.u32(0x807E0000) + opcua.i32(-1)
NO_FRAME = reading.frame(b"RXE", opcua.u32(1))
DONE = reading.frame(b"RXE", opcua.u32(0))
held = []


def tell(is_so, what, seen=""):
    """Prints that something holds, or what was seen where it doesn't."""
    held.append(bool(is_so))
    print(what if is_so else f"OTHERWISE: {what}: {seen}", flush=True)


class Server:
    """A replica with a store, whose peers come to a door of their own where it has one."""

    made = []

    def __init__(self, number=1, door=True, keys="", tables="", door_keys="", door_host="127.0.0.1"):
        Server.made.append(self)
        self.number, self.port, self.keys, self.tables, self.process = number, free_port(), keys, tables, None
        self.door_keys, self.door_host = door_keys, door_host
        self.door, self.calls = free_port() if door else None, []
        self.settings, self.store = (os.path.join(folder.name, f"{len(Server.made)}.{end}") for end in ("toml", "db"))
        self.write()

    def write(self):
        """Its settings, by which it calls others each second."""
        text = open(os.path.join(here, "settings.toml")).read().replace("127.0.0.1:4840", f"127.0.0.1:{self.port}")
        text = text.replace("00000000-0000-0000-0000-000000000000", "3f2c8a10-5b7e-4d21-9c44-0a1b2c3d4e5f")
        text = text.replace("replica = 1\n", f"replica = {self.number}\nstore = '{self.store}'\n").replace("anonymous = true\n", f"anonymous = true\n{self.keys}")
        door = f"\n[door]\nlisten = '{self.door_host}:{self.door}'\n{self.door_keys}" if self.door else ""
        peers = "".join(f"\n[[peer]]\naddress = '127.0.0.1:{port}'\nevery = 1\n" for port in self.calls)
        open(self.settings, "w").write(text + door + self.tables + peers)

    def start(self, calls=()):
        """Serves, and calls these ports too."""
        self.calls += calls
        self.write()
        self.process = subprocess.Popen([program, "serve", "--settings", self.settings], stdin=subprocess.DEVNULL, stderr=subprocess.PIPE, text=True)
        for port in filter(None, (self.port, self.door)):
            assert listens(port, self.process), f"nobody listens at {port}"
        return self

    def stop(self):
        """What it said."""
        self.process.kill()
        return self.process.communicate()[1]

    def dump(self):
        return subprocess.run([program, "dump", "--settings", self.settings], stdout=subprocess.PIPE, check=True).stdout.decode()

    def line(self, user="ann", password=b"pw"):
        """A client's connection with a session of this user; of nobody's where there is no name."""
        line = Line(self.port)
        assert line.ask(line.client.hello())[:4] == b"ACKF" and line.ask(line.client.open())[:4] == b"OPNF"
        for sent in (line.client.create_session(), line.client.activate(user, password)):
            assert status(line.ask(sent)) == 0
        return line

    def values(self):
        """The values of T, by their times."""
        line = self.line()
        raw = history.results(line.ask(line.client.history_read([T], 1, opcua.EPOCH)), history.read_values)[0]
        line.socket.close()
        return {time_: value for time_, value, _ in raw}


def answer(port, sent, half=False):
    """All that comes back for these bytes until the connection is over, where it is over within ten seconds; with `half` no more bytes
    are announced."""
    with socket.create_connection(("127.0.0.1", port), timeout=10) as line:
        line.sendall(sent)
        if half:
            line.shutdown(socket.SHUT_WR)
        came = b""
        try:
            while more := line.recv(65536):
                came += more
        except TimeoutError:
            return came + b" and no end"
        except ConnectionError:
            return came + b" and a reset"
        return came


def frames(data):
    """The letters and codes of frames."""
    return [letters if letters != "RXEF" else f"RXE {struct.unpack_from('<I', bytes_, 8)[0]}" for letters, bytes_ in opcua.cut(data)]


def updates(line, details):
    """The status and the codes of each of the details of an update."""
    told = history.results(line.ask(line.client.history_update(details)), history.read_codes)
    return [(state, codes) for state, codes, _ in told]


def insert(value, moment, where=T, perform=1):
    return opcua.extension(682, where + opcua.u32(perform) + opcua.array([value_at(int32(value), moment)]))


def levels(line, where=T):
    """The attributes AccessLevel and UserAccessLevel."""
    return [value["variant"][2][1:] for value in history.results(line.ask(line.client.read([(where, 17), (where, 18)])), lambda response: response.data_value())]


def point(line):
    """The continuation point behind the first value of T."""
    told = line.ask(line.client.history_read([T], 1, 1000, 1))
    return history.results(told, lambda response: (response.u32(), response.blob(), response.extension([])))[0][1]


def forged(archive):
    """What a peer of replica 2 sends that says that ann wrote 666 at the time 7."""
    record = reading.Record(2, 1, NOW, T, 7, 0, 3, "ann", opcua.u8(1) + int32(666))
    return reading.carries(archive, 2, {2: 1}, [record])


def a_forged_record():
    """Whoever reaches the clients' address can be a peer, without a door; with one he can't."""
    server = Server(door=False).start()
    line = server.line()
    assert updates(line, [insert(1, 5), insert(2, 6)]) == [(0, [INSERTED])] * 2
    archive = point(server.line(None))[1:17]
    tell(archive == ARCHIVE, "a continuation point tells anybody who may read the id of the archive", archive.hex())
    told = answer(server.port, reading.asks(archive, 2, {}) + DONE)
    tell(frames(told) == ["RXDF"] and b"ann" in told, "without a door: the clients' address answers a peer, with all records", told)
    told = answer(server.port, forged(archive) + DONE)
    values = server.values()
    server.stop()
    tell(frames(told) == ["RXVF"] and values == {5: 1, 6: 2, 7: 666} and server.dump().splitlines()[-1].startswith(f"2 1 {NOW} "),
         "without a door: a record that a peer forged at the clients' address, in ann's name, is learned", (told, values))

    server = Server().start()
    line = server.line()
    assert updates(line, [insert(1, 5), insert(2, 6)]) == [(0, [INSERTED])] * 2
    for name, sent in (("the forged record", forged(archive)), ("a peer's question", reading.asks(archive, 2, {}))):
        told = answer(server.port, sent)
        tell(told == NO_LETTERS, f"with a door: {name} at the clients' address is answered by an Error message, 807E0000, and the connection ends", told)
    told = [answer(server.port, forged(archive)[:count], True) for count in (3, 7, 8)]
    tell(told == [b"", b"", NO_LETTERS], "with a door: its first eight bytes get that answer, and seven get none", told)
    values = server.values()
    tell(values == {5: 1, 6: 2}, "with a door: a client reads nothing of the forged record", values)
    server.stop()
    dump = server.dump()
    tell([words.split()[0] for words in dump.splitlines()] == ["1", "1"], "with a door: and no record of it is in the dump", dump)
    server.start()
    told = answer(server.door, forged(archive) + DONE)
    values = server.values()
    tell(frames(told) == ["RXVF"] and values == {5: 1, 6: 2, 7: 666}, "at the door the same bytes are learned: who reaches it is a peer", (told, values))
    said = server.stop()
    tell(said == "", "the server told nothing of all that", said)


def a_client_at_the_door():
    """At the door anything but a frame is answered RXE 1, and ends."""
    server = Server().start()
    whole = Client()
    sent = whole.hello() + whole.open() + whole.create_session() + whole.activate("ann", b"pw") + whole.update(T, 3, [value_at(int32(9), 9)])
    for name, bytes_ in (("a Hello", Client().hello()), ("a client's whole connection", sent), ("GET / HTTP/1.0", b"GET / HTTP/1.0\r\n\r\n"), ("16 zeros", bytes(16))):
        told = answer(server.door, bytes_)
        tell(told.removesuffix(b" and a reset") == NO_FRAME, f"at the door {name} is answered RXE 1, and the connection ends", told)
    told = answer(server.door, DONE)
    tell(told == b"", "at the door an RXE 0 ends the dialog, without an answer", told)
    told = [answer(server.door, Client().hello()[:count], True) for count in (3, 7, 8)]
    tell(told == [b"", b"", NO_FRAME], "at the door the first eight bytes of a Hello get that answer, and seven get none", told)
    tell(server.values() == {}, "a client at the door wrote nothing", server.values())
    line = server.line()
    told = updates(line, [insert(3, 5)])
    tell(told == [(0, [INSERTED])], "a client at the clients' address is served meanwhile", told)
    said = server.stop()
    tell(said == "", "the server told nothing of all that", said)


def one_place():
    """Clients and peers share the places."""
    server = Server(keys="connections = 1\n").start()
    client = server.line()
    with socket.create_connection(("127.0.0.1", server.door), timeout=1) as peer:
        peer.sendall(reading.asks(ARCHIVE, 2, {}))
        try:
            told = peer.recv(1000)
        except TimeoutError:
            told = b""
        client.socket.close()
        peer.settimeout(10)
        behind = peer.recv(1000)
    tell(told == b"" and frames(behind) == ["RXDF"], "connections = 1: a peer at the door waits while a client has the place, and gets it behind him", (told, behind))
    server.stop()


def two_with_doors():
    """Two servers that call each other's door, with clients that write at both."""
    a, b = Server(1), Server(2)
    a.start([b.door]), b.start([a.door])
    good, until = [0, 0], time.monotonic() + 4

    def writes(k, server):
        line, moment = server.line(), 10 + k
        while time.monotonic() < until:
            told = updates(line, [insert(moment, moment), insert(k, 5, perform=3)])
            assert all(codes[0] < 0x80000000 for _, codes in told), told
            good[k] += 2
            moment += 2
            time.sleep(0.01)

    threads = [threading.Thread(target=writes, args=pair) for pair in enumerate((a, b))]
    for thread in threads:
        thread.start()
    for thread in threads:
        thread.join()
    for _ in range(8):
        time.sleep(2.5)
        told = a.stop(), b.stop()
        first, second = a.dump(), b.dump()
        if first == second:
            break
        a.start(), b.start()
    records = [sum(line.startswith(f"{k} ") for line in first.splitlines()) for k in (1, 2)]
    tell(first == second and records == good and min(good) > 20,
         f"two servers that call each other's door hold the same: {records[0]} and {records[1]} records, one for each value that was answered Good",
         (first == second, records, good))
    tell(all("exchange ended" not in said for said in told), "neither of them told of an exchange that failed", told)


def a_call_of_the_wrong_address():
    """A server whose peer is named by the address of its clients."""
    b = Server(2).start()
    a = Server(1).start([b.port])
    time.sleep(2.5)
    told = a.stop()
    tell(told == f"uahist: peer 127.0.0.1:{b.port}: exchange ended (1)\n", "a [[peer]] whose address is where its clients come to is told once, as exchange ended (1)", told)
    b.stop()
    old = Server(1, door=False).start([b.door])
    b.start()
    line = old.line()
    assert updates(line, [insert(4, 4)]) == [(0, [INSERTED])]
    begin = time.monotonic()
    while b.values() != {4: 4} and time.monotonic() < begin + 10:
        time.sleep(0.1)
    tell(b.values() == {4: 4}, "one without a door can call the door of another", b.values())
    old.stop(), b.stop()


def from_networks():
    """Peers are taken at the door from the networks of the settings alone."""
    asked = reading.asks(ARCHIVE, 2, {})
    rows = [("from an address that isn't ours", ["192.0.2.2"], False), ("from no network", [], False), ("from our address", ["192.0.2.2", "127.0.0.1"], True),
            ("from our network", ["127.0.0.0/8"], True), ("from the network beside ours", ["126.0.0.0/8"], False), ("from IPv6 alone", ["::/0"], False)]
    for what, networks, is_taken in rows:
        server = Server(door_keys=f"from = {networks}\n").start()
        told = answer(server.door, asked + DONE).removesuffix(b" and a reset")
        tell((frames(told) == ["RXDF"]) if is_taken else told == b"", f"{what} a peer is {'answered' if is_taken else 'hung up on, without a byte'}", told)
        line = server.line()
        told = updates(line, [insert(1, 5)])
        tell(told == [(0, [INSERTED])], f"{what}: a client is served at the clients' address", told)
        said = server.stop()
        tell(said == "", f"{what}: the server tells nothing", said)
    if os.path.exists("/proc/net/if_inet6"):
        server = Server(door_keys="from = ['127.0.0.1']\n", door_host="[::]").start()
        told = answer(server.door, asked + DONE)
        tell(frames(told) == ["RXDF"], "a door that takes IPv6 too knows our IPv4 address as such", told)
        server.stop()
    server = Server(door_keys="from = ['192.0.2.2']\n").start()
    with socket.create_connection(("127.0.0.1", server.door), timeout=3) as line:
        begin, came = time.monotonic(), line.recv(1)
        took = time.monotonic() - begin
    tell(came == b"" and took < 2, f"a stranger who says nothing is hung up on at once, after {took:.1f} s", (came, took))
    other = Server(2, door=False)
    told = run([program, "sync", "--settings", other.settings, "--peer", f"127.0.0.1:{server.door}"])
    tell((told.status, told.out) == (1, b"") and "ended" in told.said, f"a sync from elsewhere ends by status 1: {told.said.strip()}", (told.status, told.out, told.said))
    server.stop()
    text = open(server.settings).read()
    for what, networks, place in (("a name", ["plant"], 1), ("33 bits of an IPv4 address", ["10.0.0.0/8", "10.0.0.0/33"], 2), ("a port behind it", ["192.0.2.2:4841"], 1), ("an empty text", ["::1", "fd00::/8", ""], 3)):
        told = ended(text.replace("from = ['192.0.2.2']", f"from = {networks}"))
        tell(told == (1, f"door's network refused ({place})\nuahist: not a network: want one as 10.1.0.0/16\n"), f"[door] from has {what}: door's network refused ({place}), status 1", told)


def brought(records, sender=2):
    """What a peer sends that brings these records."""
    return reading.carries(ARCHIVE, sender, {sender: 1}, records)


def record(origin, number, tick, moment, value=666):
    return reading.Record(origin, number, tick, T, moment, 0, 3, "ann", opcua.u8(1) + int32(value))


def present(seconds=0):
    """The present time, so many seconds later, in ticks."""
    return int((time.time() + seconds) * 10_000_000) + 116_444_736_000_000_000


def admitted_replicas():
    """Records of the replicas of the settings alone are taken, and of a frame all or none."""
    server = Server(door_keys="replicas = [2, 3]\n").start()
    line = server.line()
    assert updates(line, [insert(1, 5)]) == [(0, [INSERTED])]
    rows = [("of a replica of theirs", [record(2, 1, present(), 7)], "RXVF", {5: 1, 7: 666}), ("of another one", [record(4, 1, present(), 8)], "RXE 10", {5: 1, 7: 666}),
            ("in the server's own name", [record(1, 2, present(), 9)], "RXE 10", {5: 1, 7: 666}),
            ("of one of theirs, and then one of another", [record(3, 1, present(), 10), record(4, 1, present(), 11)], "RXE 10", {5: 1, 7: 666}),
            ("of another one, and then one of theirs", [record(4, 1, present(), 11), record(3, 1, present(), 10)], "RXE 10", {5: 1, 7: 666}),
            ("of two of theirs", [record(2, 2, present(), 12), record(3, 1, present(), 10)], "RXVF", {5: 1, 7: 666, 10: 666, 12: 666})]
    for what, records, letters, values in rows:
        told = answer(server.door, brought(records) + (DONE if letters == "RXVF" else b""))
        found = server.values()
        tell(frames(told.removesuffix(b" and a reset")) == [letters] and found == values, f"replicas = [2, 3]: records {what} are {'taken' if letters == 'RXVF' else 'answered RXE 10, and none of the frame is learned'}", (told, found))
    told = answer(server.door, reading.asks(ARCHIVE, 4, {}) + DONE)
    tell(frames(told) == ["RXDF"], "replicas = [2, 3]: a peer of another number that brings nothing is answered", told)
    said = server.stop()
    tell(said == "", "the server told nothing of all that", said)
    server = Server(door_keys="replicas = []\n").start()
    told = answer(server.door, brought([record(2, 1, present(), 7)]))
    tell(frames(told.removesuffix(b" and a reset")) == ["RXE 10"] and server.values() == {}, "replicas = []: no record is taken", told)
    server.stop()


def own_numbers():
    """Records of the server's own number: none beyond those that it holds, but all of them as they come back to an empty store."""
    server = Server().start()
    line = server.line()
    assert updates(line, [insert(1, 5)]) == [(0, [INSERTED])]
    greatest = 2**62 - 1
    for what, records in (("the next number", [record(1, 2, present(), 9)]), ("the next number at the greatest tick", [record(1, 2, greatest, 9)]),
                          ("another's record, and then the next number", [record(2, 1, present(), 8), record(1, 2, present(), 9)])):
        told = answer(server.door, brought(records))
        found = server.values()
        tell(frames(told.removesuffix(b" and a reset")) == ["RXE 10"] and found == {5: 1}, f"a record in the server's own name, {what}, is answered RXE 10, and none of the frame is learned", (told, found))
    told = updates(line, [insert(2, 6)])
    tell(told == [(0, [INSERTED])], "its clients write as before", told)
    said = server.stop()
    tell(said == "", "the server told nothing of all that", said)
    server = Server(tables="\n[[user]]\nname = 'ben'\npassword = 'pw'\naccess = 'read'\n").start()
    first, second = record(1, 1, present(), 7), record(1, 2, present() + 1, 8)
    told = answer(server.door, brought([first]) + brought([second]) + DONE)
    found = server.values()
    tell(frames(told) == ["RXVF", "RXVF"] and found == {7: 666, 8: 666}, "an empty store is brought its own records by all frames of a dialog", (told, found))
    assert updates(server.line("ben"), [insert(10, 5)]) == [(DENIED, [])]
    told = answer(server.door, brought([record(1, 3, present() + 2, 9)]) + DONE)
    tell(frames(told) == ["RXVF"] and server.values() == {7: 666, 8: 666, 9: 666}, "and by a later one, also behind an update that a reader was refused", (told, server.values()))
    line = server.line()
    assert updates(line, [insert(10, 5)]) == [(0, [INSERTED])]
    told = answer(server.door, brought([record(1, 5, present() + 3, 11)]))
    tell(frames(told.removesuffix(b" and a reset")) == ["RXE 10"] and server.values() == {5: 10, 7: 666, 8: 666, 9: 666}, "but by none behind a client's update", (told, server.values()))
    server.stop()
    server = Server(door_keys="replicas = [1, 2]\n").start()
    line = server.line()
    assert updates(line, [insert(1, 5)]) == [(0, [INSERTED])]
    told = answer(server.door, brought([record(1, 2, present() + 1, 9)]) + DONE)
    tell(frames(told) == ["RXVF"] and server.values() == {5: 1, 9: 666}, "where the settings list its number they are taken as others are", (told, server.values()))
    server.stop()


def ticks_ahead():
    """A record whose tick is further ahead of the clock than the settings say isn't taken, nor any other of its frame."""
    top = 2**62 - 1
    server = Server(door_keys="ahead = 60\n").start()
    rows = [("half a minute ahead", [record(2, 1, present(30), 7)], "RXVF", {7: 666}), ("two minutes ahead", [record(2, 2, present(120), 8)], "RXE 9", {7: 666}),
            ("of yesterday, and then one two minutes ahead", [record(3, 1, present(-86400), 9), record(2, 2, present(120), 8)], "RXE 9", {7: 666}),
            ("at the last tick there is", [record(3, 1, top, 10)], "RXE 9", {7: 666}), ("of yesterday", [record(3, 1, present(-86400), 9)], "RXVF", {7: 666, 9: 666})]
    for what, records, letters, values in rows:
        told = answer(server.door, brought(records) + (DONE if letters == "RXVF" else b""))
        found = server.values()
        tell(frames(told.removesuffix(b" and a reset")) == [letters] and found == values, f"ahead = 60: records {what} are {'taken' if letters == 'RXVF' else 'answered RXE 9, and none of the frame is learned'}", (told, found))
    told = updates(server.line(), [insert(1, 5)])
    said = server.stop()
    tell(told == [(0, [INSERTED])] and said == "", "ahead = 60: clients write on behind all that, and the server told nothing", (told, said))
    server = Server().start()
    answered = answer(server.door, brought([record(3, 1, top, 10)]) + DONE)
    told = updates(server.line(), [insert(1, 5)])
    tell(frames(answered) == ["RXVF"] and told[0][1][0] >= 0x80000000, f"without ahead: a record at the last tick is learned, and no client can write any more ({told[0][1][0]:08X})", (answered, told))
    server.stop()


def calls_that_refuse():
    """A call ends where the one that was called has records that aren't taken, and is told on both sides."""
    for what, keys, number, records in (("replicas = [2]", "replicas = [2]\n", 10, [record(4, 1, present(), 7)]), ("ahead = 60", "ahead = 60\n", 9, [record(4, 1, present(600), 7)])):
        other, server = Server(2).start(), Server(1, door_keys=keys)
        assert frames(answer(other.door, brought(records, 3) + DONE)) == ["RXVF"]
        server.start([other.door])
        time.sleep(2.5)
        told, values = server.stop(), other.values()
        tell(told == f"uahist: peer 127.0.0.1:{other.door}: exchange ended ({number})\n" and values == {7: 666} and server.dump() == "",
             f"{what}: a call of one that holds such a record is told once, as exchange ended ({number}), and nothing is learned", (told, values))
        server.calls = []
        server.start()
        other.stop()
        other.start([server.door])
        time.sleep(2.5)
        told, values = other.stop(), server.values()
        tell(told == f"uahist: peer 127.0.0.1:{server.door}: exchange ended ({number})\n" and values == {}, f"{what}: a call by one that holds such a record is told there as exchange ended ({number})", (told, values))
        server.stop()


def password_files():
    """A user's password is the first line of a file beside the settings."""
    server = Server(keys="", tables="\n[[user]]\nname = 'ben'\npassword_file = 'secrets/ben'\n")
    os.makedirs(os.path.join(folder.name, "secrets"), exist_ok=True)
    secret = os.path.join(folder.name, "secrets", "ben")
    if os.path.exists(secret):
        os.remove(secret)
    done = run([program, "dump", "--settings", server.settings])
    tell((done.status, done.said) == (2, "uahist: settings file can't be read\nuahist: no such file\n"), "a password file that isn't there: settings file can't be read, no such file, status 2", (done.status, done.said))
    for what, text in (("an empty file", ""), ("an empty first line", "\nother\n")):
        open(secret, "w").write(text)
        done = run([program, "dump", "--settings", server.settings])
        tell((done.status, done.said) == (2, "uahist: settings refused (3)\nuahist: [[user]] 2, password_file\nuahist: want the path of a file whose first line isn't empty\n"), f"{what}: settings refused (3), [[user]] 2, password_file", (done.status, done.said))
    for what, text in (("a line", "valve 7\n"), ("a line that ends in CR LF, and more", "valve 7\r\nold\n"), ("a text without an end of line", "valve 7")):
        open(secret, "w").write(text)
        server.start()
        told = updates(server.line("ben", b"valve 7"), [insert(1, 5, perform=3)])
        line = Line(server.port)
        for sent in (line.client.hello(), line.client.open(), line.client.create_session()):
            line.ask(sent)
        refused = status(line.ask(line.client.activate("ben", b"pw")))
        server.stop()
        tell(told[0][0] == 0 and told[0][1][0] < 0x80000000 and refused == 0x80210000, f"{what}: ben is let in by it, and by no other password", (told, hex(refused)))


def strict_files():
    """Strict settings are taken where others have no hand in their files."""
    server = Server(keys="strict = true\n", tables="\n[[user]]\nname = 'ben'\npassword_file = 'ben.password'\n")
    secret = os.path.join(folder.name, "ben.password")
    open(secret, "w").write("pw\n")
    third = "uahist: want a file that its owner alone may write, and that not all may read if it has a password: chmod 640 it\n"
    for mine, bens, file in [(0o600, 0o600, None), (0o640, 0o440, None), (0o660, 0o600, server.settings), (0o642, 0o600, server.settings), (0o644, 0o600, server.settings),
                             (0o640, 0o644, "ben.password"), (0o640, 0o620, "ben.password"), (0o640, 0o602, "ben.password"), (0o664, 0o666, server.settings)]:
        os.chmod(server.settings, mine), os.chmod(secret, bens)
        for command in ("dump", "check"):
            done = run([program, command, "--settings", server.settings])
            told = f"uahist: settings refused (3)\nuahist: [server] strict, {file}"[:len("uahist: settings refused (3)\nuahist: ") + 180] + "\n" + third if file else ""
            tell((done.status, done.said) == (2 if file else 0, told), f"{command}, settings {mine:o}, a password file {bens:o}: {'refused for ' + os.path.basename(file) if file else 'taken'}", (done.status, done.said))
    text = open(server.settings).read()
    for keys, what in (("strict = false\n", "not strict"), ("", "without the key")):
        open(server.settings, "w").write(text.replace("strict = true\n", keys))
        os.chmod(server.settings, 0o666), os.chmod(secret, 0o666)
        done = run([program, "dump", "--settings", server.settings])
        tell((done.status, done.said) == (0, ""), f"{what}: any mode is taken", (done.status, done.said))
    open(server.settings, "w").write(text.replace("password = \"pw\"", "password_file = 'ben.password'"))
    os.chmod(server.settings, 0o644), os.chmod(secret, 0o600)
    done = run([program, "dump", "--settings", server.settings])
    tell((done.status, done.said) == (0, ""), "settings without a password may be read by all", (done.status, done.said))


def sync():
    """`uahist sync` calls the door."""
    server, other = Server(1).start(), Server(2, door=False)
    line = server.line()
    assert updates(line, [insert(1, 5), insert(2, 6)]) == [(0, [INSERTED])] * 2
    words = [program, "sync", "--settings", other.settings, "--peer"]
    told = run([*words, f"127.0.0.1:{server.port}"])
    tell((told.status, told.out, told.said) == (1, b"", "uahist: exchange ended (1)\nuahist: what came is no frame, or the peer hung up: is it the address of its door?\n"),
         "sync --peer with the clients' address ends in: exchange ended (1), status 1", (told.status, told.out, told.said))
    tell(other.dump() == "", "and learned nothing", other.dump())
    told = run([*words, f"127.0.0.1:{server.door}"])
    tell((told.status, told.out, told.said) == (0, b"learned 2 sent 0\n", ""), "sync --peer with the door prints: learned 2 sent 0", (told.status, told.out, told.said))
    said = server.stop()
    tell(said == "" and server.dump() == other.dump(), "the two dumps are equal", said)


def readers():
    """A user who may only read, and one who may write; the same of one without a name."""
    ben = "\n[[user]]\nname = 'ben'\npassword = 'pw'\naccess = 'read'\n\n[[user]]\nname = 'cat'\npassword = 'pw'\naccess = 'write'\n"
    server = Server(keys="anonymous_access = 'read'\n", tables=ben).start()
    ann = server.line()
    assert updates(ann, [insert(1, 5)]) == [(0, [INSERTED])]
    asked = [("an insert", insert(2, 6)), ("a replacement", insert(2, 5, perform=2)), ("an update", insert(2, 5, perform=3)),
             ("a delete of a stretch", opcua.extension(688, T + opcua.u8(0) + opcua.i64(1) + opcua.i64(100))),
             ("a delete of modified values", opcua.extension(688, T + opcua.u8(1) + opcua.i64(1) + opcua.i64(100))),
             ("a delete at a time", opcua.extension(691, T + opcua.array([opcua.i64(5)]))), ("an update of no values", opcua.extension(682, T + opcua.u32(3) + opcua.array([]))),
             ("a way to update that there isn't", insert(2, 6, perform=9))]
    for who, line in (("a user with access = \"read\"", server.line("ben")), ("a user without a name, under anonymous_access = \"read\",", server.line(None))):
        told = updates(line, [details for _, details in asked])
        tell(told == [(DENIED, [])] * len(asked), f"{who} is refused by 801F0000, without codes: " + ", ".join(name for name, _ in asked), told)
        told = updates(line, [insert(2, 6, NONE), insert(2, 6, OBJECTS), opcua.extension(685, T), insert(2, 6)])
        tell(told == [(UNKNOWN, []), (UNSUPPORTED, []), (UNSUPPORTED, []), (DENIED, [])],
             f"{who} is told first: an unknown node 80340000, one that isn't archived 80720000, unknown details 80720000", told)
        told = levels(line)
        tell(told == [b"\x0d", b"\x05"], f"{who} reads the access levels 13 and his own 5", told)
        raw = history.results(line.ask(line.client.history_read([T], 1, 100)), history.read_values)[0]
        tell([(time_, value) for time_, value, _ in raw] == [(5, 1)], f"{who} reads histories", raw)
    server_dump = server.stop() + server.dump()
    tell(len(server_dump.splitlines()) == 1, "behind all that the archive holds ann's one record", server_dump)
    server.start()
    ann, cat = server.line(), server.line("cat")
    told = levels(ann), levels(cat)
    tell(told == ([b"\x0d", b"\x0d"],) * 2, "users with access = \"write\" and without the key read the access levels 13 and 13", told)
    told = updates(ann, [insert(2, 6)]), updates(cat, [insert(3, 7)])
    tell(told == ([(0, [INSERTED])],) * 2, "and insert: Good_EntryInserted", told)
    line = server.line("ben")
    before = updates(line, [insert(4, 8)])
    assert status(line.ask(line.client.activate("ann", b"pw"))) == 0
    behind = updates(line, [insert(4, 8)])
    assert status(line.ask(line.client.activate("ben", b"pw"))) == 0
    last = updates(line, [insert(5, 9)])
    tell((before, behind, last) == ([(DENIED, [])], [(0, [INSERTED])], [(DENIED, [])]), "a session may do what its user may: a reader's, then ann's, then a reader's again", (before, behind, last))
    server.stop()
    tell(len(server.dump().splitlines()) == 4, "the archive holds what was answered Good", server.dump())
    free = Server(keys="anonymous_access = 'write'\n").start(), Server().start()
    told = [updates(one.line(None), [insert(1, 5)]) for one in free]
    tell(told == [[(0, [INSERTED])]] * 2, "under anonymous_access = \"write\", and without the key, a user without a name inserts", told)
    told = [levels(one.line(None)) for one in free]
    tell(told == [[b"\x0d", b"\x0d"]] * 2, "and reads the access levels 13 and 13", told)
    for one in free:
        one.stop()


def ended(settings, words=("serve",)):
    """How a run with these settings ended: its status, and what it said."""
    path = os.path.join(folder.name, "changed.toml")
    open(path, "w").write(settings)
    done = run([program, *words, "--settings", path], most=10)
    return done.status, done.said.removeprefix("uahist: ")


def addresses():
    """`serve` tells which address is wrong."""
    server = Server()
    text = open(server.settings).read()
    listen, door = f"127.0.0.1:{server.port}", f"listen = '127.0.0.1:{server.door}'"
    peer = "\n[[peer]]\naddress = '%s'\nevery = 60\n"
    fine, wrong = peer % "192.0.2.2:4840", peer % "plant.example:4840"
    none, others, taken = "not an address: want one as 127.0.0.1:4840", "not an address of this machine", "port in use"
    cases = [("[server] listen is a name", text.replace(listen, "localhost:4840"), "address refused", none),
             ("[server] listen lacks a port", text.replace(listen, "127.0.0.1"), "address refused", none),
             ("[server] listen is another machine's", text.replace(listen, "192.0.2.1:4840"), "address refused", others),
             ("[door] listen is a name", text.replace(door, "listen = 'localhost:4841'"), "door's address refused", none),
             ("[door] listen is another machine's", text.replace(door, "listen = '192.0.2.1:4841'"), "door's address refused", others),
             ("[door] listen is that of [server]", text.replace(door, f"listen = '{listen}'"), "door's address refused", taken),
             ("[door] listen is the port of [server], at all addresses", text.replace(door, f"listen = '0.0.0.0:{server.port}'"), "door's address refused", taken),
             ("the first [[peer]]'s address is a name", text + wrong, "peer's address refused (1)", none),
             ("the third's is, and those before it aren't", text + fine * 2 + wrong, "peer's address refused (3)", none),
             ("the second's and the third's are", text + fine + wrong * 2, "peer's address refused (2)", none),
             ("all three are names", text.replace(listen, "a:1").replace(door, "listen = 'b:1'") + wrong, "address refused", none),
             ("the door's and a peer's are", text.replace(door, "listen = 'b:1'") + wrong, "door's address refused", none),
             ("a peer's is, and [server] listen is another machine's", text.replace(listen, "192.0.2.1:4840") + wrong, "peer's address refused (1)", none)]
    for what, settings, message, cause in cases:
        told = ended(settings)
        tell(told == (1, f"{message}\nuahist: {cause}\n"), f"{what}: {message}, {cause}, status 1", told)
    with socket.create_server(("127.0.0.1", server.door)):
        told = ended(text)
    tell(told == (1, f"door's address refused\nuahist: {taken}\n"), "[door] listen is in use: door's address refused, port in use, status 1", told)
    with socket.create_server(("127.0.0.1", server.port)):
        told = ended(text)
    tell(told == (1, f"address refused\nuahist: {taken}\n"), "[server] listen is in use: address refused, port in use, status 1", told)
    told = ended(text.replace(listen, "a:1").replace(door, "listen = 'b:1'") + wrong, ["dump"])
    tell(told == (0, ""), "dump looks at none of them", told)


def settings():
    """What `[door]`, `access`, `anonymous_access`, `logins` and `events` may hold."""
    text = open(Server(door=False).settings).read()
    user, anonymous = 'password = "pw"\n', "anonymous = true\n"
    cases = [("[door] lacks listen", text + "\n[door]\n", 2, "[door] listen"),
             ("[door] has another key", text + "\n[door]\nlisten = '127.0.0.1:1'\nport = 1\n", 4, "[door] port"),
             ("[door] from is a text", text + "\n[door]\nlisten = '127.0.0.1:1'\nfrom = '10.0.0.0/8'\n", 3, "[door] from"),
             ("[door] from has a number", text + "\n[door]\nlisten = '127.0.0.1:1'\nfrom = [10]\n", 3, "[door] from"),
             ("[door] replicas is a number", text + "\n[door]\nlisten = '127.0.0.1:1'\nreplicas = 2\n", 3, "[door] replicas"),
             ("[door] replicas has a number above 64", text + "\n[door]\nlisten = '127.0.0.1:1'\nreplicas = [2, 65]\n", 3, "[door] replicas"),
             ("[door] replicas has 0", text + "\n[door]\nlisten = '127.0.0.1:1'\nreplicas = [0]\n", 3, "[door] replicas"),
             ("[door] replicas has a text", text + "\n[door]\nlisten = '127.0.0.1:1'\nreplicas = [2, '3']\n", 3, "[door] replicas"),
             ("[door] ahead is 0", text + "\n[door]\nlisten = '127.0.0.1:1'\nahead = 0\n", 3, "[door] ahead"),
             ("[door] ahead is more than a year", text + "\n[door]\nlisten = '127.0.0.1:1'\nahead = 31536001\n", 3, "[door] ahead"),
             ("a user has neither a password nor a file of it", text.replace(user, ""), 2, "[[user]] 1, password"),
             ("[door] listen is a number", text + "\n[door]\nlisten = 4841\n", 3, "[door] listen"),
             ("door is an array of tables", text + "\n[[door]]\nlisten = '127.0.0.1:1'\n", 3, "door"),
             ("access is another word", text.replace(user, user + "access = 'all'\n"), 3, "[[user]] 1, access"),
             ("access is in capitals", text.replace(user, user + "access = 'READ'\n"), 3, "[[user]] 1, access"),
             ("anonymous_access is true", text.replace(anonymous, anonymous + "anonymous_access = true\n"), 3, "[server] anonymous_access"),
             ("logins is 0", text.replace(anonymous, anonymous + "logins = 0\n"), 3, "[server] logins"),
             ("logins is above 1000", text.replace(anonymous, anonymous + "logins = 1001\n"), 3, "[server] logins"),
             ("events is a number", text + "\n[log]\nevents = 1\n", 3, "[log] events")]
    right = {"from": 'want an array of texts, as ["10.1.0.0/16"]', "replicas": "want an array of whole numbers from 1 to 64",
             "ahead": "want a whole number of seconds from 1 to 31536000", "access": 'want "read" or "write"',
             "anonymous_access": 'want "read" or "write"', "logins": "want a whole number from 1 to 1000", "events": "want true or false"}
    for what, changed, number, place in cases:
        told = ended(changed, ["dump"])
        why = {2: "this key has to be there", 4: "there is no such key: want listen, from, replicas or ahead"}.get(number) or right.get(place.split()[-1], "want a text, or a table of this name")
        tell(told == (2, f"settings refused ({number})\nuahist: {place}\nuahist: {why}\n"), f"{what}: settings refused ({number}), {place}, {why}", told)


def one_connection():
    """`answer` takes clients alone where the settings have a door."""
    frame = forged(ARCHIVE)
    for door in (False, True):
        server = Server(door=door)
        words = [program, "answer", "--settings", server.settings, "--now", str(NOW)]
        told, words = run(words, frame + DONE), words + ["--hex"]
        hexed, dump = run(words, (frame + DONE).hex().encode()), server.dump()
        seen = (told.status, told.out, told.said, hexed.out, dump)
        if door:
            tell(told.status == 0 and told.said == "" and told.out == NO_LETTERS and hexed.out.strip() == NO_LETTERS.hex().upper().encode() and dump == "",
                 "answer, with a door: a peer's frame is answered by an Error message, 807E0000, also in hex digits, and nothing is learned", seen)
            client = Client()
            sent = client.hello() + client.open() + client.create_session() + client.activate("ann", b"pw") + client.update(T, 1, [value_at(int32(1), 5)])
            told = run(words[:-1], sent)
            tell(told.status == 0 and len(list(opcua.cut(told.out))) == 5 and len(server.dump().splitlines()) == 1, "answer, with a door: a client is served", told.out)
        else:
            tell(told.status == 0 and frames(told.out) == ["RXVF"] and len(dump.splitlines()) == 1, "answer, without a door: a peer's frame is learned", seen)


checks = [a_forged_record, a_client_at_the_door, one_place, two_with_doors, a_call_of_the_wrong_address, from_networks, admitted_replicas, own_numbers, ticks_ahead, calls_that_refuse, password_files, strict_files, sync, readers, addresses, settings, one_connection]
checks = [check for check in checks if not sys.argv[2:] or check.__name__ in sys.argv[2:]]
for check in checks:
    try:
        check()
    except (Exception, SystemExit) as error:
        tell(False, f"{check.__name__} comes to its end", repr(error))
for server in Server.made:
    if server.process is not None:
        server.process.kill()
        server.process.wait()
print(f"{held.count(True)} of {len(held)} things held of doors and of who may write")
sys.exit(0 if all(held) else 1)
