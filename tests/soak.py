#!/usr/bin/env python3
"""Two machines of one archive at work: random updates, deletes and reads at either, calls between them, and sudden ends.

    tests/soak.py PROGRAM [--minutes N] [--seed N]

Each has a store in a file and serves in turn. Clients write values that no other write has, delete stretches and single times, and
read pages, which have to join to the whole read; each third client's server is killed (SIGKILL) at a random moment, and so is one
end of each fourth call. At the end both call each other: their dumps have to be equal and whole, what they answer to the same
reads has to be equal byte for byte, each write that was answered Good has to be among the records, and none that nobody asked
for. Prints what was done each minute, and at the end the greatest memory of each command and the sizes of the files.
"""
import argparse, collections, os, random, re, shutil, socket, struct, subprocess, sys, tempfile, threading, time
import reading, running
from opcua import *

asked = argparse.ArgumentParser(description=__doc__, formatter_class=argparse.RawDescriptionHelpFormatter)
asked.add_argument("program")
asked.add_argument("--minutes", type=float, default=1)
asked.add_argument("--seed", type=int, default=1)
asked = asked.parse_args()
program, chance = os.path.abspath(asked.program), random.Random(asked.seed)
folder = tempfile.mkdtemp()
TAGS = [node("T", 1), node("U", 1)]
INSERTED, REPLACED = 0x00A20000, 0x00A30000
MOMENTS = 3000
memory, counts = collections.Counter(), collections.Counter()


class Gone(Exception):
    """The server is gone."""


class Line:
    """A client's connection with an active session."""

    def __init__(self, port):
        try:
            self.socket = socket.create_connection(("127.0.0.1", port), timeout=60)
        except OSError:
            raise Gone
        self.client = Client()
        for sent in (self.client.hello(), self.client.open(), self.client.create_session(), self.client.activate("ann", b"pw")):
            self.ask(sent)

    def take(self, count):
        taken = b""
        while len(taken) < count:
            try:
                more = self.socket.recv(count - len(taken))
            except OSError:
                raise Gone
            if not more:
                raise Gone
            taken += more
        return taken

    def ask(self, sent):
        """What the response says behind its header; it may come in several chunks."""
        try:
            self.socket.sendall(sent)
        except OSError:
            raise Gone
        body = b""
        while True:
            head = self.take(8)
            rest = self.take(struct.unpack_from("<I", head, 4)[0] - 8)
            if head[:3] != b"MSG":
                return rest
            body += rest[16:]
            if head[3:4] == b"F":
                assert struct.unpack_from("<I", body, 16)[0] == 0, body[:40].hex()
                return body[28:]

    def updated(self, sent):
        r = reading.Reader(self.ask(sent))
        r.i32()
        return r.u32(), r.array(r.u32)

    def page(self, tag, start, end, count, point, modified):
        """The items of a page, spelled, and its continuation point."""
        r = reading.Reader(self.ask(self.client.history_read([tag], start, end, count, modified=modified, point=point)))
        r.i32()
        status, next_, (_, _, data) = r.u32(), r.blob(), r.extension([node(658), node(11227)])
        assert status in (0, 0x00A50000), f"{status:08X}"
        values = data.array(data.data_value)
        infos = data.array(lambda: (data.i64(), data.u32(), data.text())) if modified else [None] * len(values)
        return [(str(v), i) for v, i in zip(values, infos)], next_


class Machine:
    def __init__(self, number):
        self.number, self.port = number, running.free_port()
        self.store = os.path.join(folder, f"{number}.db")
        self.settings = running.write_settings(os.path.join(folder, f"{number}.toml"), "settings.toml", number, self.port, self.store)
        self.tried, self.good = set(), set()

    def command(self, name, *more):
        return [program, name, "--settings", self.settings, *more]

    def serve(self):
        server = Process(self.command("serve", "--connections", "1"))
        assert running.listens(self.port, server.process, 120), server.end().said
        return server

    def run(self, name, *more, given=b""):
        run = running.weighed(self.command(name, *more), given, most=600)
        memory[name] = max(memory[name], run.kilobytes)
        return run


class Process:
    """A running command, which may be killed."""

    def __init__(self, words):
        self.out, self.said = tempfile.TemporaryFile(), tempfile.TemporaryFile()
        self.process = subprocess.Popen(words, stdin=subprocess.DEVNULL, stdout=self.out, stderr=self.said)

    def end(self):
        return running.ended(self.process, self.out, self.said, time.monotonic(), 300)

    def kill_within(self, seconds):
        timer = threading.Timer(chance.uniform(0, seconds), lambda: running.is_over(self.process) or os.kill(self.process.pid, 9))
        timer.start()
        return timer


fresh = iter(range(1, 2 ** 31))


def write(machine, line):
    tag, values = chance.choice(TAGS), [next(fresh) for _ in range(chance.choice([1, 1, 3, 20]))]
    changes = [(tag, EPOCH + chance.randrange(MOMENTS), value) for value in values]
    perform = chance.choice([1, 3, 3])
    machine.tried |= set(changes)
    _, codes = line.updated(line.client.update(tag, perform, [value_at(int32(v), t) for _, t, v in changes]))
    machine.good |= {change for change, code in zip(changes, codes) if code in (INSERTED, REPLACED)}
    counts["writes"] += len(values)


def delete(machine, line):
    tag, start = chance.choice(TAGS), EPOCH + chance.randrange(MOMENTS)
    if chance.random() < 0.5:
        line.updated(line.client.delete_raw(tag, start, start + 30))
    else:
        line.updated(line.client.delete_at(tag, [start, start + 1]))
    counts["deletes"] += 1


def read(machine, line):
    """A stretch page by page, which is the stretch as a whole."""
    tag, modified, start = chance.choice(TAGS), chance.random() < 0.5, EPOCH + chance.randrange(MOMENTS)
    ends = (start, start + 60) if chance.random() < 0.5 else (start + 60, start)
    whole, point = line.page(tag, *ends, 0, None, modified)
    pages, next_ = [], None
    size = chance.choice([1, 7, 50])
    while point is None:
        page, next_ = line.page(tag, *ends, size, next_, modified)
        pages += page
        counts["pages"] += 1
        if next_ is None:
            assert pages == whole, "the pages don't join to the whole read"
            return


def visit(machine):
    """A client at a machine; each third one's server is killed."""
    server = machine.serve()
    timer = server.kill_within(0.3) if chance.random() < 1 / 3 else None
    try:
        line = Line(machine.port)
        for _ in range(chance.randrange(1, 40)):
            chance.choice([write, write, write, delete, read])(machine, line)
        memory["serve"] = max(memory["serve"], running.peak(server.process.pid))
        line.socket.close()
    except (Gone, FileNotFoundError, TypeError):
        assert timer is not None, "the server is gone, and nobody killed it"
        counts["killed"] += 1
    if timer:
        timer.join()
    run = server.end()
    assert timer or (run.status == 0 and run.is_stated()), (run.status, run.said)


def call(caller, peer):
    """One calls the other, and that comes to its end."""
    server = peer.serve()
    called = caller.run("sync", "--peer", f"127.0.0.1:{peer.port}")
    run = server.end()
    assert called.status == 0 and re.fullmatch(rb"learned \d+ sent \d+\n", called.out) and called.said == "" and run.status == 0, (called.status, called.out, called.said, run.status, run.said)
    counts["calls"] += 1


def broken_call(caller, peer):
    """One calls the other, and one of them is killed."""
    server = peer.serve()
    calling = Process(caller.command("sync", "--peer", f"127.0.0.1:{peer.port}"))
    timer = chance.choice([server, calling]).kill_within(0.1)
    calling.end()
    timer.join()
    if not running.is_over(server.process):
        os.kill(server.process.pid, 9)
    server.end()
    counts["broken calls"] += 1


def records_of(machine):
    run = machine.run("dump")
    assert run.status == 0, run.said
    records = [reading.read_record(bytes.fromhex(line.split()[3])) for line in run.out.decode().splitlines()]
    for origin in (1, 2):
        assert [r.number for r in records if r.origin == origin] == list(range(1, 1 + sum(r.origin == origin for r in records)))
    return run.out, records


def all_reads(machine):
    client = Client()
    sent = [client.hello(), client.open(), client.create_session(), client.activate("ann", b"pw")]
    for tag in TAGS:
        for start in range(0, MOMENTS, 100):
            sent += [client.history_read([tag], EPOCH + start, EPOCH + start + 100, modified=m) for m in (False, True)]
    run = machine.run("answer", "--now", str(running.NOW), given=b"".join(sent))
    assert run.status == 0 and len(run.out) > 1000, run.said
    return run.out


def main():
    one, two = Machine(1), Machine(2)
    begin, told = time.monotonic(), 0
    while time.monotonic() < begin + 60 * asked.minutes:
        visit(chance.choice([one, two]))
        if chance.random() < 0.3:
            caller, peer = chance.sample([one, two], 2)
            chance.choice([call, call, call, broken_call])(caller, peer)
        if time.monotonic() > begin + 60 * (told + 1):
            told += 1
            print(f"minute {told}: {dict(counts)}, greatest kB {dict(memory)}", flush=True)
    call(one, two)
    call(two, one)
    (dump, records), (other, _) = records_of(one), records_of(two)
    assert dump == other, "the dumps differ"
    writes = {(r.where, r.time, struct.unpack("<i", r.value[2:])[0]) for r in records if r.asked != 4}
    assert one.good | two.good <= writes, f"{len((one.good | two.good) - writes)} writes that were answered Good are missing"
    assert writes <= one.tried | two.tried, "a write that nobody asked for"
    assert len(writes) == sum(r.asked != 4 for r in records), "a write stands twice"
    assert all_reads(one) == all_reads(two), "the reads differ"
    sizes = {os.path.basename(m.store + end): os.path.getsize(m.store + end) for m in (one, two) for end in ("", "-wal") if os.path.exists(m.store + end)}
    print(f"done: {dict(counts)}\ngreatest kB: {dict(memory)}\nbytes of the files: {sizes}, of the dump: {len(dump)}")
    print(f"{len(records)} records at both, {len(one.good | two.good)} writes answered Good, none missing; dumps and reads are equal, byte for byte")
    shutil.rmtree(folder)


if __name__ == "__main__":
    main()
