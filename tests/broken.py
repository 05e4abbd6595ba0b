#!/usr/bin/env python3
"""Serves over a store whose disk takes no more from some moment on, with `[archive] broken = "stop"`, with `"reopen"`, and without it.

    tests/broken.py PROGRAM [ROUNDS]

With the key the client is told 80040000, the program ends with `store broken` and status 3 within a second, other clients'
connections are closed, the turn in which it broke is told with `slow`, and once the disk is well a new start has each insert that was answered Good, and at most the one that
broke it. With `"reopen"` a sync that fails once is told, the same connections go on in their sessions, also that of another
client, and `--connections` counts on; a second one ends the program by `store broken`, and a disk that stays ill, as it is opened
anew, by that or by `store refused`. Without the key it goes on, and answers 80040000 to each insert, till it is started again;
with events two lines tell once that the store broke, and why.
Needs gcc. A line a round.
"""
import os, re, socket, struct, subprocess, sys, tempfile, time
import running, usage
from opcua import EPOCH, Client, int32, node, value_at

usage.shown(__doc__, 1)
program = os.path.abspath(sys.argv[1])
rounds = int(sys.argv[2]) if len(sys.argv) > 2 else 5
folder = tempfile.mkdtemp()
settings, store = os.path.join(folder, "settings.toml"), os.path.join(folder, "store.db")
ill = os.path.join(folder, "ill")
library = running.built("unsynced.c", "unsynced.so", folder)
INSERTED, UNAVAILABLE = struct.pack("<I", 0x00A20000), struct.pack("<I", 0x80040000)
WHY = "uahist: a sync of its disk failed\n"
SAID = "uahist: store broken\n" + WHY
ANEW = WHY + "uahist: store broken, opened anew\n"


class Connection:
    """A client with a session of ann's."""

    def __init__(self, port):
        self.line, self.client = socket.create_connection(("127.0.0.1", port)), Client()
        self.line.settimeout(10)
        for sent in (self.client.hello(), self.client.open(), self.client.create_session(), self.client.activate("ann", b"pw")):
            self.ask(sent)

    def take(self, count):
        taken = b""
        while len(taken) < count:
            more = self.line.recv(count - len(taken))
            if not more:
                raise ConnectionError
            taken += more
        return taken

    def ask(self, sent):
        self.line.sendall(sent)
        head = self.take(8)
        return head + self.take(struct.unpack_from("<I", head, 4)[0] - 8)

    def insert(self, k):
        return self.ask(self.client.update(node("T", 1), 1, [value_at(int32(k), EPOCH + k)]))

    def is_closed(self):
        """Whether the other end closes it."""
        try:
            return self.line.recv(1) == b""
        except ConnectionResetError:
            return True


def started(key, slow=None, once=False, connections=None, events=False):
    port = running.free_port()
    running.write_settings(settings, "settings.toml", 1, port, store)
    text = open(settings).read()
    open(settings, "w").write(text.replace("[archive]\n", f"[archive]\nbroken = '{key}'\n", 1) if key else text)
    if slow:
        text = open(settings).read()
        open(settings, "w").write(text.replace("[server]\n", "[server]\nslow = 100\n", 1))
    if events:
        open(settings, "a").write("\n[log]\nevents = true\n")
    environment = dict(os.environ, LD_PRELOAD=library, UNSYNCED=ill, **({"UNSYNCED_MS": str(slow)} if slow else {}), **({"UNSYNCED_ONCE": "1"} if once else {}))
    words = [program, "serve", "--settings", settings] + (["--connections", str(connections)] if connections else [])
    server = subprocess.Popen(words, env=environment, stderr=subprocess.PIPE, text=True)
    assert running.listens(port, server), server.stderr.read()
    return server, port


def dumped():
    done = subprocess.run([program, "dump", "--settings", settings], stdout=subprocess.PIPE, text=True, check=True)
    return len(done.stdout.splitlines())


def breaks(writer, k):
    """An insert whose sync fails is answered 80040000."""
    open(ill, "w").close()
    answer = writer.insert(k)
    assert UNAVAILABLE in answer and INSERTED not in answer, answer.hex()


def opened_anew(held, first):
    """A store that breaks once is opened anew, and its connections stay; a second break ends the program. How many records are there."""
    server, port = started("reopen", once=True, connections=4)
    other, writer = Connection(port), Connection(port)
    assert INSERTED in writer.insert(first)
    breaks(writer, first + 1)
    assert INSERTED in writer.insert(first + 2) and INSERTED in other.insert(first + 3)
    assert INSERTED in Connection(port).insert(first + 4) and not running.is_over(server)
    breaks(other, first + 5)
    status, said = server.wait(10), server.stderr.read()
    assert (status, said) == (3, ANEW + SAID), (status, said)
    assert writer.is_closed() and other.is_closed()
    found = dumped()
    assert held + 4 <= found <= held + 6, (held, found)
    print(f"with reopen: behind one 80040000 two clients go on in their sessions, and a third comes; the second break ends it; {found - held} records more are there")
    return found


def counted_on(held, first):
    """A run of so many connections ends once they are over, those before the break and those behind it together."""
    server, port = started("reopen", once=True, connections=2)
    writer = Connection(port)
    breaks(writer, first)
    assert INSERTED in writer.insert(first + 1)
    writer.line.close()
    last = Connection(port)
    assert INSERTED in last.insert(first + 2)
    last.line.close()
    status, said = server.wait(10), server.stderr.read()
    assert (status, said) == (0, ANEW), (status, said)
    found = dumped()
    assert held + 2 <= found <= held + 3, (held, found)
    print("with reopen: a run of two connections, one of which met the break, ends by itself without a fault")
    return found


def refused_anew(held, first):
    """Where the disk stays ill the file is refused as it is opened anew, or the store breaks again."""
    server, port = started("reopen")
    writer = Connection(port)
    breaks(writer, first)
    try:
        writer.insert(first + 1)
    except (ConnectionError, OSError):
        pass
    status, said = server.wait(10), server.stderr.read()
    os.remove(ill)
    assert status == 3 and (said == ANEW + SAID or re.match(WHY + r"uahist: store refused \(\d\)\n", said)), (status, said)
    found = dumped()
    assert held <= found <= held + 2, (held, found)
    print(f"with reopen, over a disk that stays ill, it ends with status 3: {said.splitlines()[1]}")
    return found


def main():
    held = 0
    for k in range(rounds):
        server, port = started("stop")
        other, writer = Connection(port), Connection(port)
        for n in range(10):
            assert INSERTED in writer.insert(100 * k + n)
        open(ill, "w").close()
        begin = time.monotonic()
        answer = writer.insert(100 * k + 50)
        assert UNAVAILABLE in answer and INSERTED not in answer, answer.hex()
        status = server.wait(10)
        took = time.monotonic() - begin
        assert (status, server.stderr.read()) == (3, SAID), status
        assert other.is_closed() and took < 1, took
        os.remove(ill)
        found = dumped()
        assert held + 10 <= found <= held + 11, (held, found)
        print(f"round {k + 1}: 10 inserts answered Good, one 80040000; the program ended by itself after {took * 1000:.0f} ms, and {found - held} records more are there", flush=True)
        held = found
    server, port = started("stop", 300)
    writer = Connection(port)
    open(ill, "w").close()
    answer = writer.insert(100 * rounds)
    os.remove(ill)
    status, said = server.wait(10), server.stderr.read()
    turn = re.fullmatch(r"(?:uahist: a turn took \d+ ms\n)*uahist: a turn took (\d+) ms\n" + re.escape(SAID), said)
    assert UNAVAILABLE in answer and status == 3 and turn and int(turn[1]) >= 300, (status, said)
    print(f"the turn in which a slow disk failed is told before the store is told to be broken: {turn[1]} ms", flush=True)
    held = dumped()
    for k, case in enumerate((opened_anew, counted_on, refused_anew)):
        held = case(held, 100 * rounds + 10 * (k + 1))
    server, port = started(None, events=True)
    writer = Connection(port)
    assert INSERTED in writer.insert(90)
    open(ill, "w").close()
    answers = [writer.insert(91 + n) for n in range(5)]
    os.remove(ill)
    answers += [writer.insert(96)]
    assert all(UNAVAILABLE in answer for answer in answers) and not running.is_over(server)
    server.kill()
    server.wait()
    told = [re.sub(r"^uahist: \S+Z ", "", line) for line in server.stderr.read().splitlines()]
    refused = [k for k, line in enumerate(told) if line.endswith(": 80040000")]
    assert len(refused) == len(answers) and told.count("store broken") == 1 and told[refused[0] + 1:refused[0] + 3] == ["store broken", WHY.strip()], told
    found = dumped()
    assert held + 1 <= found <= held + 2, (held, found)
    print(f"without the key it goes on, and answers 80040000 to each of {len(answers)} inserts, also once the disk is well, and two lines tell that the store broke, and why; started again it has {found - held} records more")


if __name__ == "__main__":
    main()
