#!/usr/bin/env python3
"""Two replicas of one archive, each with a store of its own, that take updates apart, are killed, and call each other.

    tests/two_machines.py PROGRAM [ROUNDS [SEED]]

In each round a client updates values at one of them, at few moments so that the two contradict each other, and then one
calls the other (`sync`); in every third round a program is killed (SIGKILL) in between. At the end they are synced once more:
the line that is printed has to tell by how many records the dumps grew, the dumps have to be equal, what they answer to the
same reads of raw and modified values has to be equal byte for byte, and no update that was answered Good may be missing. The
first thing that is otherwise ends the script by an error.
"""
import os, random, subprocess, sys, tempfile, threading
import usage
from opcua import EPOCH, Client, int32, node, value_at

usage.shown(__doc__, 1)
import store as one

here = os.path.dirname(os.path.abspath(__file__))
program = os.path.abspath(sys.argv[1])
rounds = int(sys.argv[2]) if len(sys.argv) > 2 else 40
chance = random.Random(int(sys.argv[3]) if len(sys.argv) > 3 else 1)
folder = tempfile.mkdtemp()
T = node("T", 1)
NOW = str(EPOCH + 10 ** 12)


class Replica:
    def __init__(self, number):
        self.number, self.port, self.good = number, one.free_port(), 0
        self.settings = os.path.join(folder, f"{number}.toml")
        text = open(os.path.join(here, "settings.toml")).read().replace("127.0.0.1:4840", f"127.0.0.1:{self.port}")
        text = text.replace("replica = 1", f"replica = {number}\nstore = '{folder}/{number}.db'")
        open(self.settings, "w").write(text)

    def serve(self):
        return subprocess.Popen([program, "serve", "--settings", self.settings, "--connections", "1"], stderr=subprocess.DEVNULL)

    def update(self, count, kill):
        """Some values at few moments, and how many were answered Good."""
        server = self.serve()
        line, client = one.connect(self.port), Client()
        if kill:
            threading.Timer(chance.uniform(0.01, 0.2), server.kill).start()
        try:
            for sent in (client.hello(), client.open(), client.create_session(), client.activate("ann", b"pw")):
                one.ask(line, sent)
            for _ in range(count):
                if chance.random() < 0.2:
                    one.ask(line, client.delete_raw(T, EPOCH + chance.randrange(20), EPOCH + 20))
                    continue
                answer = one.ask(line, client.update(T, 3, [value_at(int32(chance.randrange(1000)), EPOCH + chance.randrange(20))]))
                assert one.INSERTED in answer or one.REPLACED in answer, answer.hex()
                self.good += 1
        except (ConnectionError, OSError):
            pass
        line.close()
        server.wait()

    def call(self, peer, kill):
        """Calls the other one; how that ended, and what was printed and said."""
        server = peer.serve()
        one.connect_probe(peer.port)
        caller = subprocess.Popen([program, "sync", "--settings", self.settings, "--peer", f"127.0.0.1:{peer.port}"], stdout=subprocess.PIPE, stderr=subprocess.PIPE, text=True)
        if kill:
            threading.Timer(chance.uniform(0.0, 0.05), chance.choice([server, caller]).kill).start()
        printed, said = caller.communicate()
        server.kill()
        server.wait()
        return caller.returncode, printed, said

    def dump(self):
        return subprocess.run([program, "dump", "--settings", self.settings], stdout=subprocess.PIPE, check=True).stdout

    def reads(self):
        client = Client()
        sent = client.hello() + client.open() + client.create_session() + client.activate("ann", b"pw")
        sent += client.history_read([T], EPOCH, EPOCH + 100) + client.history_read([T], EPOCH, EPOCH + 100, modified=True)
        command = [program, "answer", "--settings", self.settings, "--now", NOW]
        return subprocess.run(command, input=sent, stdout=subprocess.PIPE, check=True).stdout


if __name__ == "__main__":
    a, b = Replica(1), Replica(2)
    for k in range(rounds):
        side = chance.choice([a, b])
        side.update(chance.randrange(1, 60), k % 3 == 2)
        caller, peer = chance.choice([(a, b), (b, a)])
        caller.call(peer, k % 3 == 1)
    held = [len(side.dump().splitlines()) for side in (a, b)]
    status, printed, said = a.call(b, False)
    assert status == 0, said
    first, second = a.dump(), b.dump()
    assert first == second, "the dumps differ"
    learned, sent = (len(first.splitlines()) - before for before in held)
    assert printed == f"learned {learned} sent {sent}\n", printed
    assert b.call(a, False) == (0, "learned 0 sent 0\n", ""), "a second call moved records"
    lines = [line.split() for line in first.decode().splitlines()]
    for side in (a, b):
        mine = sum(1 for line in lines if line[0] == str(side.number))
        assert mine >= side.good, (side.number, mine, side.good)
    assert a.reads() and a.reads() == b.reads(), "the reads differ"
    print(f"{rounds} rounds: {a.good} and {b.good} updates answered Good, {len(lines)} records at both; their reads are equal, byte for byte")
