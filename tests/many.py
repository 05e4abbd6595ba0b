#!/usr/bin/env python3
"""Runs the built program as a server of many connections at once, with clients and peers of its own.

    tests/many.py PROGRAM [--long] [CHECK ..]
    tests/many.py PROGRAM they_last [--minutes N]

Clients that poll, update, stop in the midst of a message, read nothing or say nothing, and `sync`s of other replicas, all at once; servers
that call each other by themselves and are killed meanwhile; many idle connections. Each check prints a line with what was measured, the
first that fails ends the script by an error; all are run where none is named. With --long each goes on longer: two and a half minutes of polls, twenty kills.
`they_last` is run only where it is named, for N minutes, an hour without it.
"""
import multiprocessing, os, random, re, select, socket, subprocess, sys, tempfile, threading, time
import usage
from opcua import Client, int32, node, value_at

usage.shown(__doc__, 1)
from running import free_port
from network_line import Line, status

here = os.path.dirname(os.path.abspath(__file__))
program = os.path.abspath(sys.argv[1])
long = "--long" in sys.argv
minutes = float(sys.argv[sys.argv.index("--minutes") + 1]) if "--minutes" in sys.argv else 60
folder = tempfile.mkdtemp()
T = node("T", 1)


class Server:
    """A replica that serves, with a store of its own, and calls its peers."""

    def __init__(self, number, peers=(), port=None, store=True, keys=""):
        self.number, self.port = number, port or free_port()
        self.settings, self.store = os.path.join(folder, f"{number}-{self.port}.toml"), os.path.join(folder, f"{number}-{self.port}.db")
        self.peers, self.kept, self.keys, self.process = list(peers), store, keys, None

    def write(self):
        text = open(os.path.join(here, "settings.toml")).read().replace("127.0.0.1:4840", f"127.0.0.1:{self.port}")
        kept = f"\nstore = '{self.store}'" if self.kept else ""
        text = text.replace("replica = 1", f"replica = {self.number}{kept}").replace("anonymous = true", f"anonymous = true\n{self.keys}")
        text += "".join(f"\n[[peer]]\naddress = '127.0.0.1:{peer.port}'\nevery = 1\n" for peer in self.peers)
        open(self.settings, "w").write(text)
        return self

    def start(self, connections=None):
        words = [program, "serve", "--settings", self.write().settings]
        words += ["--connections", str(connections)] if connections else []
        self.process = subprocess.Popen(words, stdin=subprocess.DEVNULL, stderr=subprocess.PIPE, text=True)
        return self

    def stop(self):
        self.process.kill()
        return self.process.communicate()[1]

    def dump(self):
        return subprocess.run([program, "dump", "--settings", self.settings], stdout=subprocess.PIPE, check=True).stdout

    def used(self):
        """Processor seconds so far, and kB of memory now."""
        stat = open(f"/proc/{self.process.pid}/stat").read().rsplit(")", 1)[1].split()
        memory = next(l for l in open(f"/proc/{self.process.pid}/status") if l.startswith("VmRSS"))
        return (int(stat[11]) + int(stat[12])) / os.sysconf("SC_CLK_TCK"), int(memory.split()[1])

    def descriptors(self):
        return len(os.listdir(f"/proc/{self.process.pid}/fd"))


def timed(ask):
    begin = time.monotonic()
    ask()
    return time.monotonic() - begin


def polls(line, times):
    """Reads the value, and notes how long the answer took."""
    times.append(timed(lambda: line.ask(line.client.read([(T, 13)]))))


def updates(line, value, moment):
    assert status(line.ask(line.client.update(T, 3, [value_at(int32(value), moment)]))) == 0


def a_poll_beside_others():
    """A client polls, others come and go, and a replica exchanges records, each within 5 s."""
    server, times, ends = Server(1).start(), [], []
    other = Server(2, store=False).write()
    line, until = Line(server.port).begin(), time.monotonic() + (150 if long else 10)
    while time.monotonic() < until:
        polls(line, times)
        begin = time.monotonic()
        guest = Line(server.port).begin()
        updates(guest, len(times), len(times) + 10)
        guest.socket.close()
        done = subprocess.run([program, "sync", "--settings", other.settings, "--peer", f"127.0.0.1:{server.port}"],
                              stdout=subprocess.PIPE, text=True, timeout=5)
        assert done.stdout == f"learned {len(times)} sent 0\n", done.stdout
        ends.append(time.monotonic() - begin)
        time.sleep(1 if long else 0.2)
    assert not server.stop()
    assert max(times) < 0.1 and max(ends) < 5
    return f"{len(times)} polls, the longest {1000 * max(times):.1f} ms; {len(ends)} guests and exchanges, the longest {max(ends):.2f} s"


def bad_company():
    """One that stops in the midst of a message, one that sends a byte at a time, one that reads nothing, one that sends 100 MB."""
    server, times = Server(1, store=False).start(), []
    line = Line(server.port).begin()
    stuck, slow, deaf, flood = (Line(server.port).begin() for _ in range(4))
    stuck.socket.sendall(stuck.client.read([(T, 13)])[:30])
    asked = slow.client.read([(T, 13)])
    deaf.socket.setblocking(False)

    def floods():
        sent = 0
        try:
            while sent < 100_000_000:
                bytes_sent = b"".join(flood.client.get_endpoints() for _ in range(200))
                flood.socket.sendall(bytes_sent)
                sent += len(bytes_sent)
        except OSError:
            pass

    def drains():
        try:
            while flood.socket.recv(1 << 20):
                pass
        except OSError:
            pass

    def both():
        drain = threading.Thread(target=drains, daemon=True)
        drain.start()
        floods()
        drain.join()

    flooding = multiprocessing.get_context("fork").Process(target=both)  # a process of its own: threads here would hold the polls up
    flooding.start()
    until = time.monotonic() + (60 if long else 8)
    while time.monotonic() < until:
        polls(line, times)
        if asked:
            slow.socket.sendall(asked[:1])
            asked = asked[1:]
        try:
            for _ in range(20):
                deaf.socket.send(deaf.client.get_endpoints())
        except BlockingIOError:
            pass
        time.sleep(0.01)
    flooding.kill()
    flooding.join()
    seconds, memory = server.used()
    server.stop()
    assert max(times) < 0.1, max(times)
    return f"{len(times)} polls beside, the longest {1000 * max(times):.1f} ms; {memory} kB at the end"


def a_full_house():
    """500 that say nothing at 64 places: a new client is answered once one of them made place; at 1,000 places at once."""
    told = []
    for keys, most in (("", 12), ("connections = 1000", 0.2)):
        server = Server(1, store=False, keys=keys).start()
        Line(server.port).socket.close()
        silent = []
        for _ in range(500):
            try:
                silent.append(socket.create_connection(("127.0.0.1", server.port), timeout=0.2))
            except (TimeoutError, ConnectionError):
                break
        begin = time.monotonic()
        guest = Line(server.port)
        guest.socket.settimeout(most + 60)
        guest.begin()
        taken = time.monotonic() - begin
        told.append(f"{len(silent)} silent ones{', ' + keys if keys else ''}: answered after {taken:.2f} s")
        for one_of in silent:
            one_of.close()
        server.stop()
        assert taken < most, taken
    return "; ".join(told)


def idle():
    """1,000 connections that say nothing more: memory and processor time."""
    server = Server(1, store=False, keys="connections = 1000").start()
    lines = [Line(server.port) for _ in range(900)]
    for line in lines:
        assert line.ask(line.client.hello())[:4] == b"ACKF"
    time.sleep(1)
    before, _ = server.used()
    time.sleep(10)
    after, memory = server.used()
    times = []
    line = lines[450]
    assert line.ask(line.client.open())[:4] == b"OPNF"
    for line in lines:
        line.socket.close()
    server.stop()
    assert memory < 60_000 and after - before < 0.2, (memory, after - before)
    return f"900 greeted connections: {memory} kB, {after - before:.2f} s of a processor in 10 s"


def they_call_each_other():
    """Two that serve and call each other each second, with clients at both, and are killed: all that was answered Good is at both."""
    a, b = Server(1), Server(2)
    a.peers, b.peers = [b], [a]
    chance, good, moment = random.Random(1), 0, 10
    a.start(), b.start()
    for turn in range(20 if long else 5):
        for server in (a, b):
            try:
                line = Line(server.port).begin()
                for _ in range(20):
                    moment += 1
                    updates(line, moment, moment)
                    good += 1
                line.socket.close()
            except (OSError, AssertionError):
                good += 0
        time.sleep(chance.uniform(0, 1.5))
        victim = chance.choice((a, b))
        victim.stop()
        victim.start()
    until = time.monotonic() + 20
    while time.monotonic() < until:
        time.sleep(2.5)
        a.stop(), b.stop()
        if a.dump() == b.dump():
            break
        a.start(), b.start()
    records = a.dump().count(b"\n")
    assert a.dump() == b.dump(), "not in step"
    assert records >= good, (records, good)
    return f"{good} values were answered Good at two machines, {records} records are at both; {20 if long else 5} kills"


def they_last():
    """Two that call each other each second, with clients at both that poll, update, come and go: memory and descriptors stay."""
    a, b = Server(1), Server(2)
    a.peers, b.peers = [b], [a]
    a.start(), b.start()
    chance, good, guests, times, seen = random.Random(1), 0, 0, [], []
    lines = [Line(server.port).begin() for server in (a, b) for _ in range(8)]
    begin = time.monotonic()
    while time.monotonic() < begin + 60 * minutes:
        for line in lines:
            polls(line, times)
            if chance.random() < 0.1:
                good += 1
                updates(line, good, 10 + chance.randrange(1000))
        for server in (a, b):
            guest, guests = Line(server.port).begin(), guests + 1
            guest.ask(guest.client.read([(T, 13)]))
            guest.reset() if chance.random() < 0.02 else guest.socket.close()
        time.sleep(0.3)
        if time.monotonic() > begin + 60 * len(seen) + 30:
            seen.append([(server.used()[1], server.descriptors()) for server in (a, b)])
            print(f"  {len(seen)} min: {seen[-1]} kB and descriptors, {good} updates, {guests} guests, the longest of {len(times)} polls {1000 * max(times):.0f} ms", flush=True)
    time.sleep(5)
    told = a.stop() + b.stop()
    records = a.dump().count(b"\n")
    assert a.dump() == b.dump() and records == good, (records, good)
    others = [line for line in told.splitlines() if not re.match(r"uahist: (connection ended \(1\)|peer )", line)]
    assert not others, others[:5]
    early, late = seen[len(seen) // 10], seen[-1]
    for (kilobytes, _), (later, _) in zip(early, late):
        assert later < 1.25 * kilobytes + 8_000, (early, late)
    assert all(abs(one[1] - other[1]) <= 4 for one, other in zip(early, late)), (early, late)
    return f"{minutes:.0f} minutes, {good} updates and {guests} guests at two machines, {records} records at both; {early} kB and descriptors, {late} at the end"


def a_chain():
    """Three in a chain, of which each calls the next one: what came at one end is at the other."""
    c = Server(3)
    b = Server(2, [c])
    a = Server(1, [b])
    for server in (a, b, c):
        server.start()
    line = Line(a.port).begin()
    for value in range(100):
        updates(line, value, value + 10)
    begin, there = time.monotonic(), Line(c.port).begin()
    while b"\x06" + (99).to_bytes(4, "little") not in there.ask(there.client.read([(T, 13)])):
        assert time.monotonic() - begin < 10
        time.sleep(0.05)
    taken = time.monotonic() - begin
    for server in (a, b, c):
        server.stop()
    assert a.dump() == b.dump() == c.dump()
    return f"100 values were at the third after {taken:.1f} s"


def an_absent_peer():
    """A peer that can't be reached is told once, and once more when it works again."""
    b = Server(2)
    a = Server(1, [b]).start()
    Line(a.port).begin()
    time.sleep(3.5)
    b.start()
    time.sleep(2.5)
    b.stop()
    time.sleep(2.5)
    told = a.stop()
    name = f"uahist: peer 127.0.0.1:{b.port}: "
    want = name + "connection ended (2)\n" + name + "works again\n" + name + "connection ended (2)\n"
    assert told == want, told
    return "told when it failed, when it worked again, and when it failed again"


def a_long_turn():
    """A turn that takes long is told with `slow`, each longer one once; without the key none is."""
    told = []
    for keys in ("slow = 1\n", "slow = 60000\n", ""):
        server = Server(1, store=False, keys=keys).start()
        line = Line(server.port).begin()
        for many in (1, 200, 1000, 1000):
            values = [value_at(int32(k), 10 + k) for k in range(many)]
            assert status(line.ask(line.client.update(T, 3, values))) == 0
            polls(line, [])
        time.sleep(0.7)
        told.append(server.stop())
    lines = told[0].splitlines()
    turns = [int(re.fullmatch(r"uahist: a turn took (\d+) ms", line)[1]) for line in lines]
    assert turns and turns == sorted(set(turns)) and told[1:] == ["", ""], told
    return f"told as they grew: {turns} ms; none without the key, or below it"


def few_descriptors():
    """Where fewer descriptors may be open than may be wanted it is said, and served."""
    server, told = Server(1, store=False).write(), []
    for most in (200, 700):
        words = ["bash", "-c", f"ulimit -n {most}; exec {program} serve --settings {server.settings} --connections 1"]
        server.process = subprocess.Popen(words, stdin=subprocess.DEVNULL, stderr=subprocess.PIPE, text=True)
        line = Line(server.port).begin()
        polls(line, [])
        line.socket.close()
        told.append(server.process.communicate(timeout=10)[1])
    said = "uahist: 200 descriptors are too few: up to 592 may be wanted (ulimit -n, or LimitNOFILE of the unit)\n"
    assert told == [said, ""], told
    return "200 are told to be too few for 592, 700 are enough"


checks = [a_poll_beside_others, bad_company, a_full_house, idle, they_call_each_other, a_chain, an_absent_peer, a_long_turn, few_descriptors]
named = [word for word in sys.argv[2:] if word.isidentifier()]
checks = [check for check in checks + [they_last] if check.__name__ in named] if named else checks
for check in checks:
    begin = time.monotonic()
    told = check()
    print(f"{check.__name__}: {told} ({time.monotonic() - begin:.0f} s)", flush=True)
print(f"{len(checks)} kinds of company: many at once, each is answered as it should be")
