#!/usr/bin/env python3
"""Attacks on the built program: what they cost it, and whether the others are served meanwhile.

    tests/attacks.py PROGRAM [CHECK ..]

Each line is one thing that held, or begins with OTHERWISE; one that begins with `told:` is a number that nothing was promised of, or
what an attacker does attain. The last line counts them; the exit status is 1 where one didn't hold. All checks are run where none is
named. Takes 5 minutes, and the program up to 1.5 GB of memory.

Shown elsewhere: forged records, strangers at the door, readers who write, files that others may read (door.py); clients that break off,
never read or stay silent (network.py); silent connections at all places, one byte at a time, 100 MB of requests, 900 idle ones (many.py);
guesses that wait, names that steer a terminal, a flood of events (told.py); wrong and cut requests of browsers (browsed.py); cut and forged
bytes, counts that lie, the largest messages, continuation points of others' (forged.py); mutated streams (mutated.py); stores that are
gone, and disks that take no more (store.py, broken.py).
"""
import base64, collections, os, random, re, resource, shutil, signal, socket, struct, subprocess, sys, tempfile, threading, time
import history, opcua, reading, usage
from opcua import Client, i32, i64, int32, node, u8, u32, value_at

usage.shown(__doc__, 1)
from network_line import Line, status
from running import NOW, free_port, listens, peak, run, weighed

here = os.path.dirname(os.path.abspath(__file__))
program = os.path.abspath(sys.argv[1])
folder = tempfile.TemporaryDirectory(dir="/dev/shm" if os.path.isdir("/dev/shm") else None)
T, U, ARCHIVE = node("T", 1), node("U", 1), bytes.fromhex("3f2c8a105b7e4d219c440a1b2c3d4e5f")
TOO_LARGE, NOT_DECODED, ANSWER_TOO_LARGE, INSERTED = 0x80800000, 0x80070000, 0x80B90000, 0x00A20000
MB = 1 << 20
held, numbers = [], []


def tell(is_so, what, seen=""):
    """Prints that something holds, or what was seen where it doesn't."""
    held.append(bool(is_so))
    print(what if is_so else f"OTHERWISE: {what}: {seen}", flush=True)


def note(what):
    """Prints a number, or what is so, of which nothing was promised."""
    numbers.append(what)
    print(f"told: {what}", flush=True)


class Server:
    """A replica that serves, over a store of its own where it has one."""

    made = []

    def __init__(self, number=1, keys="", tables="", store=True, text=None):
        Server.made.append(self)
        self.port, self.web, self.process, self.number = free_port(), free_port(), None, number
        self.settings, self.store = (os.path.join(folder.name, f"{len(Server.made)}.{end}") for end in ("toml", "db"))
        text = open(os.path.join(here, "settings.toml")).read().replace("127.0.0.1:4840", f"127.0.0.1:{self.port}")
        text = text.replace("00000000-0000-0000-0000-000000000000", "3f2c8a10-5b7e-4d21-9c44-0a1b2c3d4e5f")
        kept = f"store = '{self.store}'\n" if store else ""
        text = text.replace("replica = 1\n", f"replica = {number}\n{kept}").replace("anonymous = true\n", f"anonymous = true\n{keys}")
        open(self.settings, "w").write(text + tables.replace("WEB", f"127.0.0.1:{self.web}"))

    def start(self, before="", most=30):
        """Serves; `before` is what a shell does first, as a limit."""
        self.said = tempfile.TemporaryFile()
        words = [program, "serve", "--settings", self.settings]
        words = ["bash", "-c", before + '; exec "$@"', "bash", *words] if before else words
        self.process = subprocess.Popen(words, stdin=subprocess.DEVNULL, stdout=subprocess.DEVNULL, stderr=self.said)
        assert listens(self.port, self.process, most), "nobody listens"
        return self

    def stop(self):
        """What it said."""
        if self.process.poll() is None:
            self.process.terminate()
        self.process.wait(30)
        self.said.seek(0)
        return self.said.read().decode(errors="replace")

    def lives(self):
        return self.process.poll() is None

    def line(self, user="ann", password=b"pw"):
        """A client's connection with a session of this user, or of nobody's where there is no name."""
        line = Line(self.port)
        line.socket.settimeout(120)
        assert line.ask(line.client.hello())[:4] == b"ACKF" and line.ask(line.client.open())[:4] == b"OPNF"
        for sent in (line.client.create_session(), line.client.activate(user, password)):
            assert status(line.ask(sent)) == 0
        return line

    def dump(self):
        return run([program, "dump", "--settings", self.settings], most=120).out.decode()

    def resident(self):
        return int(re.search(r"VmRSS:\s+(\d+)", open(f"/proc/{self.process.pid}/status").read())[1])

    def seconds(self):
        """Seconds of a processor so far."""
        stat = open(f"/proc/{self.process.pid}/stat").read().rsplit(")", 1)[1].split()
        return (int(stat[11]) + int(stat[12])) / os.sysconf("SC_CLK_TCK")

    def forget_peak(self):
        """The greatest memory is counted anew from here."""
        open(f"/proc/{self.process.pid}/clear_refs", "w").write("5")
        return peak(self.process.pid)


def message(line, sent):
    """The first chunk that answers a request, and how many bytes all of them have."""
    first = chunk = line.ask(sent)
    size = len(chunk)
    while chunk[:4] == b"MSGC":
        chunk = line.ask(b"")
        size += len(chunk)
    return first, size


def code(answer):
    return f"{status(answer):08X}" if answer[:3] == b"MSG" else f"{answer[:3].decode()} {struct.unpack_from('<I', answer, 8)[0]:08X}"


def costs(server, what, line, sent):
    """Tells what one request takes of memory and of a processor, and gives its answer."""
    return weighs(server, what, line, sent)[0]


def weighs(server, what, line, sent):
    """The same, and gives how many MB it took too."""
    before, begin = server.forget_peak(), server.seconds()
    answer, size = message(line, sent)
    more = (peak(server.process.pid) - before) / 1024
    note(f"{what}: {len(sent)} bytes sent, {more:.0f} MB more, {server.seconds() - begin:.1f} s of a processor; {size} bytes answer, {code(answer)}")
    return answer, more


def updated(line, details, pieces=65_000):
    """The codes of each of the details of an update, which goes in pieces."""
    answer, _ = message(line, line.client.chunks(700, opcua.array(details), pieces))
    assert status(answer) == 0, answer.hex()
    return [codes for _, codes, _ in history.results(answer, history.read_codes)]


def insert(where, values, perform=1):
    return opcua.extension(682, where + u32(perform) + opcua.array(values))


class Polls:
    """A client that asks for a value each 50 ms beside what is done in a `with`, what it waited at most, and how many seconds of a
    processor the program used meanwhile: on a machine that does nothing else the wait is hardly longer."""

    def __init__(self, server, user="ann"):
        self.server, self.times, self.used, self.wrong, self.is_on = server, [], [], [], True
        self.line = server.line(user)
        self.thread = threading.Thread(target=self.polls, daemon=True)

    def polls(self):
        while self.is_on:
            used, begin = self.server.seconds(), time.monotonic()
            try:
                if status(self.line.ask(self.line.client.read([(T, 13)]))) != 0:
                    self.wrong.append("refused")
            except (OSError, AssertionError) as error:
                self.wrong.append(repr(error))
                return
            self.times.append(time.monotonic() - begin)
            self.used.append(self.server.seconds() - used)
            time.sleep(0.05)

    def __enter__(self):
        self.thread.start()
        return self

    def __exit__(self, *_):
        self.is_on = False
        self.thread.join(60)
        self.longest = max(self.times, default=float("inf"))

    def told(self):
        longest = self.times.index(self.longest)
        return f"a client beside it waited {self.longest:.2f} s, of which the program worked {self.used[longest]:.2f} s"


def frames(line):
    """The frames that come on a connection."""
    came = b""
    while True:
        while len(came) < 8 or len(came) < struct.unpack_from("<I", came, 4)[0]:
            more = line.recv(1 << 20)
            if not more:
                return
            came += more
        size = struct.unpack_from("<I", came, 4)[0]
        yield came[:size]
        came = came[size:]


def opened(port):
    """A connection with a channel."""
    line = Line(port)
    line.socket.settimeout(120)
    assert line.ask(line.client.hello())[:4] == b"ACKF" and line.ask(line.client.open())[:4] == b"OPNF"
    return line


# ---- memory and time of small requests

def small_requests():
    """A few bytes that ask for much."""
    tables = "".join(f"\n[[variable]]\nid = '{name}'\nname = '{name}'\ntype = '{type_}'\n" for name, type_ in (("B", "ByteString"), ("S", "String")))
    server = Server(tables=tables).start()
    line, large, short = server.line(), node("B", 1), node("S", 1)
    for k in range(5):
        assert updated(line, [insert(large, [value_at(u8(15) + opcua.blob(bytes(1_048_400)), NOW + k)])]) == [[INSERTED]]
    for k in range(4):
        assert updated(line, [insert(short, [value_at(u8(12) + opcua.text("y" * 10_000), NOW + 50 * k + n) for n in range(50)])]) == [[INSERTED] * 50]
    told = [costs(server, "a HistoryRead of 100 times the same 5 values of 1 MiB", line, line.client.history_read([large] * 100, NOW, NOW + 100)),
            costs(server, "one of 100 times the same 200 texts of 10,000 bytes", line, line.client.history_read([short] * 100, NOW, NOW + 1000)),
            costs(server, "a Read of 1,000 times a value of 1 MiB", line, line.client.read([(large, 13)] * 1000))]
    tell([status(answer) for answer in told] == [ANSWER_TOO_LARGE] * 3, "what would be answered by more than 16 MiB is refused by 80B90000", [code(answer) for answer in told])
    line.socket.close()
    server.forget_peak()
    time.sleep(1)
    note(f"behind it, its client gone, the program holds {server.resident() / 1024:.0f} MB")
    with socket.create_connection(("127.0.0.1", server.port), timeout=60) as peer:
        def asks(sent):
            peer.sendall(sent)
            return next(frames(peer))

        value = u8(1) + u8(15) + opcua.blob(bytes(1_048_400))
        for number in range(1, 61):
            assert asks(reading.carries(ARCHIVE, 8, {}, [reading.Record(8, number, NOW + number, node(f"n{number}", 1), 5, 0, 1, "ann", value)]))[:3] == b"RXV"
        before, begin, asked = server.forget_peak(), server.seconds(), reading.asks(ARCHIVE, 9, {1: 1 << 40})
        told = asks(asked)
        note(f"a peer's question over 60 records of 1 MiB: {len(asked)} bytes sent, {(peak(server.process.pid) - before) / 1024:.0f} MB more, {server.seconds() - begin:.1f} s of a processor; {len(told)} bytes answer")
        tell(told[:4] == b"RXDF" and len(told) <= 2 * MB, "it is answered by one frame of at most 2 MiB", (told[:4], len(told)))
    line = server.line()
    begin = time.monotonic()
    tell(status(line.ask(line.client.read([(T, 13)]))) == 0 and time.monotonic() - begin < 1 and server.lives(), "the next client is answered", "")
    server.stop()


def large_exchange():
    """An exchange of records of 1 MiB, of which a frame takes one."""
    tables, count = "\n[[variable]]\nid = 'B'\nname = 'B'\ntype = 'ByteString'\n", int(os.environ.get("LARGE_RECORDS", "100"))
    one, two = Server(1, tables=tables).start(), Server(2, tables=tables)
    line = one.line()
    for k in range(count):
        assert updated(line, [insert(node("B", 1), [value_at(u8(15) + opcua.blob(bytes(1_048_400)), NOW + k)])]) == [[INSERTED]]
    message(line, line.client.history_read([node("B", 1)], NOW, NOW + count))  # the store keeps pages that were read
    for what, modified in (("values", False), ("modifications", True)):
        answer, more = weighs(one, f"a HistoryRead of {count} {what} of 1 MiB", line, line.client.history_read([node("B", 1)], NOW, NOW + count, modified=modified))
        tell(status(answer) == ANSWER_TOO_LARGE and more < 64 + 16, "it is refused by 80B90000 before all of them are read", (code(answer), more))
    line.socket.close()
    before = one.forget_peak()
    done = weighed([program, "sync", "--settings", two.settings, "--peer", f"127.0.0.1:{one.port}"], most=900)
    more = (peak(one.process.pid) - before) / 1024
    tell(done.status == 0 and done.out.decode().startswith(f"learned {count} "), f"{count} records of 1 MiB are brought by `sync` in {done.seconds:.1f} s", (done.status, done.said))
    tell(more < 64 and done.kilobytes < 64 * 1024, f"for which who has them takes {more:.0f} MB more, and who asks for them {done.kilobytes / 1024:.0f} MB", (more, done.kilobytes))
    one.stop()
    weights = [weighed([program, "dump", "--settings", server.settings], most=600) for server in (one, two)]
    tell(weights[0].out == weights[1].out and weights[0].out.count(b"\n") == count, f"both dumps are equal, and took {max(weight.kilobytes for weight in weights) / 1024:.0f} MB", [len(weight.out) for weight in weights])


def a_wide_folder():
    """A folder of 990 variables, browsed a thousand times in one request."""
    server = Server(store=False, tables="".join(f"\n[[variable]]\nid = 'a variable {k}'\nname = 'variable {k}'\ntype = 'Int32'\n" for k in range(988))).start()
    line = server.line()
    with Polls(server) as polls:
        answer = costs(server, "a Browse of 1,000 times a folder of 990 variables", line, line.client.browse([node(85)] * 1000))
    tell(status(answer) == ANSWER_TOO_LARGE, "it is refused by 80B90000", code(answer))
    note(polls.told())
    tell(not polls.wrong, "and was answered", polls.wrong)
    server.stop()


def long_turns():
    """Requests that are lawful and take long: all others wait."""
    server = Server().start()
    writer = server.line()
    codes = updated(writer, [insert(U, [value_at(int32(n), NOW + 1000 * k + n) for n in range(1000)], 3) for k in range(4)])
    assert all(code_ == INSERTED for part in codes for code_ in part)
    with Polls(server) as polls:
        costs(server, "a HistoryRead of 100 pages of 1,000 values", writer, writer.client.history_read([U] * 100, NOW, NOW + 10_000, 1000))
    note(polls.told())
    with Polls(server) as polls:
        updated(writer, [insert(T, [value_at(int32(n), NOW + 1000 * k + n) for n in range(1000)], 3) for k in range(10)])
    note(f"an update of 10 times 1,000 values, of the 100 times that one may have: {polls.told()}")
    updated(writer, [opcua.extension(691, U + opcua.array([i64(NOW + 1000 * k + n) for n in range(1000)])) for k in range(4)])
    with Polls(server) as polls:
        costs(server, "a Read of 1,000 times a variable whose newest 4,000 values are deleted", writer, writer.client.read([(U, 13)] * 1000))
    note(polls.told())
    updated(writer, [insert(T, [value_at(int32(n), NOW - 1) for n in range(1000)], 3)])
    with Polls(server) as polls:
        costs(server, "a HistoryRead of 100 pages of the 1,000 modifications of one moment", writer, writer.client.history_read([T] * 100, NOW - 10, NOW, 1000, modified=True))
    note(polls.told())
    lines, stop = [server.line(None) for _ in range(20)], time.monotonic() + 6

    def reads(line):
        while time.monotonic() < stop:
            message(line, line.client.history_read([T] * 100, NOW, NOW + 10_000, 1000))

    threads = [threading.Thread(target=reads, args=(line,), daemon=True) for line in lines]
    with Polls(server) as polls:
        for thread in threads:
            thread.start()
        time.sleep(6)
    for thread in threads:
        thread.join(60)
    note(f"20 who do nothing but read 100 pages of 1,000 values: {polls.told()}")
    tell(not polls.wrong and server.lives(), "and was answered rightly", polls.wrong)
    server.stop()


def deleted_values():
    """100,000 deleted values before the one that lives, without an index of live values and with one."""
    count, server = int(os.environ.get("DELETED_VALUES", "100000")), Server().start()

    def deletes(line, first, many):
        """Deletes so many values, a thousand a request."""
        for k in range(first, first + many, 1000):
            assert updated(line, [opcua.extension(688, U + u8(0) + i64(k) + i64(k + 1000))]) == [[0] * 1000]

    def read(server):
        """How long the latest value takes, and a page of the node, the least of five times each; and what is answered, without the time of the answer."""
        line, took, answers = server.line(), [], []
        for sent in (lambda: line.client.read([(U, 13)], 0), lambda: line.client.history_read([U], NOW - 10, NOW + count, 100)):
            times = []
            for _ in range(5):
                begin = time.monotonic()
                answer = message(line, sent())[0]
                times.append(time.monotonic() - begin)
            took.append(min(times))
            assert status(answer) == 0, answer.hex()
            answers.append(answer[36:])
        return *took, answers

    writer = server.line()
    assert updated(writer, [insert(U, [value_at(int32(7), NOW - 1)])]) == [[INSERTED]]
    for k in range(NOW, NOW + count, 1000):
        assert updated(writer, [insert(U, [value_at(int32(n), k + n) for n in range(1000)])]) == [[INSERTED] * 1000]
    deletes(writer, NOW, count)

    took, paged, answers = read(server)
    tell(all(i64(NOW - 1) in answer and i64(NOW) not in answer for answer in answers), "a Read and a page find the one value that lives", answers)
    note(f"without an index a Read behind {count} deleted values takes {took * 1000:.1f} ms, and a page over them {paged * 1000:.1f} ms")
    server.stop()
    dump, bytes_before = server.dump(), os.path.getsize(server.store)
    text = open(server.settings).read()
    open(server.settings, "w").write(text.replace("replica = 1\n", "replica = 1\nindex = true\n"))
    begin = time.monotonic()
    server.start()
    note(f"an index over {count} deleted values is made, and the store opened, within {time.monotonic() - begin:.1f} s")
    took, paged, again = read(server)
    tell(took < 0.01, f"with [archive] index a Read behind {count} deleted values takes {took * 1000:.2f} ms", took)
    tell(paged < 0.01, f"and a page over them {paged * 1000:.2f} ms", paged)
    tell(answers == again, "both are answered the same", (answers, again))
    line = server.line()
    inserted = updated(line, [insert(U, [value_at(int32(n), NOW + n) for n in range(1000)])])
    tell(inserted == [[INSERTED] * 1000], "values are written there anew", inserted[0][:3])
    deletes(line, NOW, 1000)
    server.stop()
    note(f"the store had {bytes_before} bytes, and has {os.path.getsize(server.store)}")
    indexes = run(["sqlite3", server.store, "SELECT name, sql FROM sqlite_schema WHERE type = 'index' AND sql IS NOT NULL; PRAGMA integrity_check"]).out.decode()
    tell(indexes.count("CREATE INDEX") == 1 and indexes.endswith("\nok\n"), "sqlite3 sees one index more, and finds the store whole", indexes)
    tell(server.dump().startswith(dump), "the records before are what they were", "")
    open(server.settings, "w").write(text)
    server.start()
    took = read(server)[0]
    tell(took < 0.01, f"without the key the index stays: {took * 1000:.2f} ms", took)
    server.stop()


def deep():
    """Values in values, tables in tables: what is read by calls in calls would run out of its stack."""
    server = Server(store=False).start()
    line, told = server.line(), []
    bodies = [("variants in variants", (u8(0x98) + i32(1)) * 500_000), ("data values in variants", (u8(23) + u8(1)) * 1_000_000),
              ("extension objects in variants", (u8(22) + node(0) + u8(1) + i32(2_000_000)) * 200_000), ("inner diagnostics", u8(25) + u8(64) * 2_000_000),
              ("arrays of 2^31 by 2^31", u8(0xC6) + i32(0) + opcua.array([i32(2**31 - 1)] * 2)), ("2,000 dimensions", u8(0xC6) + i32(1) + i32(1) + opcua.array([i32(1)] * 2000))]
    before = server.forget_peak()
    for name, body in bodies:
        answer, _ = message(line, line.client.chunks(700, opcua.array([opcua.extension(682, T + u32(3) + i32(1) + u8(5) + body + i64(NOW))]), 65_000))
        told.append((name, code(answer)))
    more = (peak(server.process.pid) - before) / 1024
    note("requests of values in values: " + ", ".join(f"{name} {what}" for name, what in told) + f"; {more:.0f} MB more")
    tell(server.lives() and {what for _, what in told} == {"80070000"}, "none is read, and the program lives", told)
    tell(status(line.ask(line.client.read([(T, 13)]))) == 0, "the same client is answered then", "")
    server.stop()
    text, count = open(server.settings).read(), 60_000
    for name, more in (("60,000 arrays in arrays", "x = " + "[" * count), ("60,000 arrays in arrays, closed", "x = " + "[" * count + "]" * count), ("60,000 inline tables in inline tables", "x = " + "{a=" * count),
                       ("a key of 60,000 parts", ".".join("a" * count) + " = 1"), ("a table of 60,000 parts", "[" + ".".join("a" * count) + "]"), ("a line of 10 MB", "#" + "x" * 10 * MB)):
        path = server.settings + ".deep"
        open(path, "w").write(text + "\n" + more)
        done = run([program, "check", "--settings", path], most=60)
        lines_ = done.said.splitlines()
        tell(done.status in (0, 2) and (done.status == 0 or lines_[0].startswith("uahist: settings refused")) and done.seconds < 20,
             f"settings with {name}: {lines_[0][8:] if lines_ else 'taken'}, in {done.seconds:.1f} s", (done.status, done.said[:200], done.seconds))


def large_requests():
    """Requests above the limit, and many that are never finished."""
    server = Server(store=False).start()
    with Polls(server) as polls:
        line = opened(server.port)
        n = line.client.next()
        line.socket.sendall(b"MSGF" + u32(16 * MB) + u32(1) + u32(1) + n + n)
        tell(line.take(16)[:12] == b"ERRF" + u32(16) + u32(TOO_LARGE), "a chunk that says that it has 16 MiB is refused by 80800000 before it came", "")
        before, line, sent = server.forget_peak(), opened(server.port), 0
        try:
            for k in range(256):
                inner = u32(1) + u32(1) + u32(line.client.sequence + 1 + k) + u32(9) + bytes(65_536 - 24)
                line.socket.sendall(b"MSGC" + u32(65_536) + inner)
                sent += 65_536
        except OSError:
            pass
        came = b""
        try:
            while more := line.socket.recv(1000):
                came += more
        except OSError:
            pass
        more = (peak(server.process.pid) - before) / 1024
        tell(came in (b"", b"ERRF" + u32(16) + u32(TOO_LARGE) + i32(-1)) and more < 4.5, f"a request of 16 MiB in pieces is refused behind 4 MiB, for which it held {more:.1f} MB", (came, more))
        before, lines = server.forget_peak(), [opened(server.port) for _ in range(40)]
        for line in lines:
            for k in range(62):
                inner = u32(1) + u32(1) + u32(line.client.sequence + 1 + k) + u32(9) + bytes(65_536 - 24)
                line.socket.sendall(b"MSGC" + u32(65_536) + inner)
            line.socket.sendall(b"MSGC" + u32(65_536) + bytes(60_000))
        time.sleep(1)
        more, bound = (peak(server.process.pid) - before) / 1024, 40 * (4 + 1 / 16)
        tell(more < bound + 8, f"40 strangers without a session, each with 4 MiB of a request that it doesn't finish: {more:.0f} MB, of at most {bound:.0f} that are promised", more)
        for line in lines:
            line.socket.close()
        time.sleep(1)
        note(f"once they are gone the program holds {server.resident() / 1024:.0f} MB")
    tell(not polls.wrong and polls.longest < 1, f"a client beside all that waited {1000 * polls.longest:.0f} ms at most", (polls.wrong, polls.longest))
    server.stop()


def a_flood_of_chunks():
    """A message that is given up and begun again, without an end."""
    server = Server(store=False).start()
    with Polls(server) as polls:
        line, sent = opened(server.port), 0
        before, begin, sequence = server.forget_peak(), server.seconds(), line.client.sequence
        while sent < 200_000:
            burst = []
            for letters in (b"MSGC", b"MSGA") * 500:
                sequence += 1
                burst.append(letters + struct.pack("<IIIII", 1024, 1, 1, sequence, 9) + bytes(1000))
            line.socket.sendall(b"".join(burst))
            sent += 1000
        line.client.sequence = sequence
        tell(line.ask(line.client.get_endpoints())[:4] == b"MSGF", "a message that is begun and given up 100,000 times: the client is answered then", "")
        more = peak(server.process.pid) - before
        tell(more < 1024, f"for which the program held {more} kB more", more)
        note(f"that took {server.seconds() - begin:.1f} s of a processor")
    tell(not polls.wrong and polls.longest < 1, f"a client beside it waited {1000 * polls.longest:.0f} ms at most", (polls.wrong, polls.longest))
    server.stop()


# ---- places

def waits_for(server, most):
    """How long a newcomer waits until his session is activated; none where it takes longer than so many seconds."""
    begin = time.monotonic()
    line = Line(server.port)
    line.socket.settimeout(most)
    try:
        line.begin()
        return time.monotonic() - begin
    except (TimeoutError, AssertionError, OSError):
        return None
    finally:
        line.socket.close()


def places():
    """All places are taken by those who want to keep the others out."""
    server = Server(store=False).start()
    with Polls(server) as polls:
        kept = []
        for _ in range(63):
            line = opened(server.port)
            assert status(line.ask(line.client.create_session())) == 0
            kept.append(line)
        took = waits_for(server, 20)
        tell(took is not None and took < 15, f"63 with a session that nobody activated, beside one who has one: a newcomer is served after {took or 0:.1f} s", took)
        for line in kept:
            line.socket.close()
        time.sleep(0.5)
        kept, stop = [opened(server.port) for _ in range(63)], threading.Event()

        def drips():
            asked = Client().get_endpoints()
            for byte in asked:
                for line in kept:
                    try:
                        line.socket.send(bytes([byte]))
                    except OSError:
                        pass
                if stop.wait(1):
                    return

        dripping = threading.Thread(target=drips, daemon=True)
        dripping.start()
        took = waits_for(server, 20)
        tell(took is not None and took < 15, f"63 who send a byte a second of a request: a newcomer is served after {took or 0:.1f} s", took)
        stop.set()
        dripping.join()
        for line in kept:
            line.socket.close()
        time.sleep(0.5)
        kept, stop = [opened(server.port) for _ in range(63)], threading.Event()

        def asks():
            while True:
                for line in kept:
                    try:
                        line.ask(line.client.get_endpoints())
                    except (OSError, AssertionError):
                        pass
                if stop.wait(3):
                    return

        asking = threading.Thread(target=asks, daemon=True)
        asking.start()
        took = waits_for(server, 20)
        note("63 strangers without a password, who ask for endpoints each three seconds, " + (f"let a newcomer in after {took:.1f} s" if took else "keep a newcomer out for the 20 s that he waited"))
        stop.set()
        asking.join()
        for line in kept:
            line.socket.close()
        time.sleep(0.5)
        took = waits_for(server, 20)
        tell(took is not None and took < 1, "once they are gone the next one is served at once", took)
        kept = [server.line(None) for _ in range(63)]
        took = waits_for(server, 14)
        note("63 sessions without a name that say nothing " + (f"let a newcomer in after {took:.1f} s" if took else "keep a newcomer out for the 14 s that he waited (two minutes without a byte end each)"))
        for line in kept:
            line.socket.close()
    tell(not polls.wrong and polls.longest < 1, f"who has a session was answered all the while, within {1000 * polls.longest:.0f} ms", (polls.wrong, polls.longest))
    server.stop()


def unread_answers():
    """Answers that nobody takes."""
    server = Server(keys="waiting = 1\n", tables="\n[[variable]]\nid = 'B'\nname = 'B'\ntype = 'ByteString'\n").start()
    line, large = server.line(), node("B", 1)
    for k in range(15):
        assert updated(line, [insert(large, [value_at(u8(15) + opcua.blob(bytes(1_048_400)), NOW + k)])]) == [[INSERTED]]
    deaf = server.line(None)
    deaf.socket.setsockopt(socket.SOL_SOCKET, socket.SO_RCVBUF, 4096)
    deaf.socket.sendall(deaf.client.history_read([large], NOW, NOW + 100))
    time.sleep(1)
    took = waits_for(server, 12)
    note("with waiting = 1 one reader who doesn't take an answer of 15 MiB " + (f"lets another be served after {took:.1f} s" if took else "keeps all others waiting for the 12 s that one waited"))
    deaf.socket.close()
    took = waits_for(server, 20)
    tell(took is not None and took < 2, "once he is gone the next one is served at once", took)
    server.stop()
    text = open(server.settings).read().replace("waiting = 1\n", "")
    open(server.settings, "w").write(text)
    server.start()
    deaf, took, before = [], 0, server.forget_peak()
    while took is not None and len(deaf) < 40:
        one = server.line(None)
        one.socket.sendall(one.client.history_read([large], NOW, NOW + 100))
        deaf.append(one)
        time.sleep(0.2)
        if len(deaf) >= 16:
            took = waits_for(server, 5)
    more = (peak(server.process.pid) - before) / 1024
    note(f"without the key {len(deaf)} such readers " + ("keep all others waiting" if took is None else f"don't: another is served after {took:.1f} s") + f", with {more:.0f} MB more, of which 256 MiB and one answer may wait to be written")
    for one in deaf:
        one.socket.close()
    took = waits_for(server, 20)
    tell(took is not None and took < 5 and server.lives(), "once they are gone the next one is served", took)
    server.stop()


def taken_answers():
    """Answers that were taken, by clients that stay."""
    server = Server(tables="\n[[variable]]\nid = 'B'\nname = 'B'\ntype = 'ByteString'\n").start()
    line, large = server.line(), node("B", 1)
    for k in range(15):
        assert updated(line, [insert(large, [value_at(u8(15) + opcua.blob(bytes(1_048_400)), NOW + k)])]) == [[INSERTED]]
    before, kept, size = server.resident(), [], 0
    for _ in range(8):
        one = server.line(None)
        _, size = message(one, one.client.history_read([large], NOW, NOW + 100))
        message(one, one.client.read([(T, 13)]))
        kept.append(one)
    more = (server.resident() - before) / 1024 / 8
    tell(more < 4, f"8 clients who took {size} bytes each and stay: {more:.0f} MB more for each, so what the answers took was given back", more)
    for one in kept:
        one.socket.close()
    time.sleep(1)
    more = (server.resident() - before) / 1024
    tell(more < 40, f"once they are gone the program holds {more:.0f} MB more than before them", more)
    before, kept = server.resident(), []
    for _ in range(8):
        one = server.line(None)
        sent = [opcua.extension(682, node("nobody", 1) + u32(1) + opcua.array([value_at(u8(15) + opcua.blob(bytes(4_000_000)), NOW)]))]
        assert status(message(one, one.client.chunks(700, opcua.array(sent), 65_000))[0]) == 0
        kept.append(one)
    more = (server.resident() - before) / 1024
    tell(more < 16, f"8 clients who sent 4 MB each and stay: {more:.0f} MB more for all of them", more)
    server.stop()


def browsers():
    """Browsers that stay, and requests that don't end."""
    server = Server(tables="\n[web]\nlisten = 'WEB'\n").start()
    assert listens(server.web, server.process)

    def page(most):
        begin = time.monotonic()
        try:
            with socket.create_connection(("127.0.0.1", server.web), timeout=most) as line:
                line.sendall(b"GET / HTTP/1.1\r\nHost: x\r\n\r\n")
                return time.monotonic() - begin if line.recv(100)[:12] == b"HTTP/1.1 200" else None
        except OSError:
            return None

    with Polls(server) as polls:
        silent = [socket.create_connection(("127.0.0.1", server.web)) for _ in range(8)]
        time.sleep(0.2)
        took = page(20)
        note("eight browsers' connections that say nothing " + (f"let a ninth be served after {took:.1f} s" if took else "keep a ninth waiting for the 20 s that it waited"))
        for one in silent:
            one.close()
        time.sleep(0.3)
        began = [socket.create_connection(("127.0.0.1", server.web)) for _ in range(8)]
        for one in began:
            one.sendall(b"GET / HTTP/1.1\r\nHost: ")
        time.sleep(0.2)
        took = page(20)
        note("eight that began a request and don't go on " + (f"let a ninth be served after {took:.1f} s" if took else "keep a ninth waiting for the 20 s that it waited"))
        for one in began:
            one.close()
        time.sleep(0.3)
        took = page(10)
        tell(took is not None and took < 1, "once they are gone the next one is served at once", took)
        told = []
        for name, sent in (("a path of 10 MB", b"GET /" + b"a" * (10 * MB)), ("a field of 10 MB", b"GET / HTTP/1.1\r\nHost: " + b"a" * (10 * MB)),
                           ("a million fields", b"GET / HTTP/1.1\r\n" + b"A: b\r\n" * 1_000_000), ("a body of 10 MB", b"POST / HTTP/1.1\r\nContent-Length: 10485760\r\n\r\n" + bytes(10 * MB))):
            before, came = server.forget_peak(), b""
            with socket.create_connection(("127.0.0.1", server.web), timeout=10) as line:
                try:
                    line.sendall(sent)
                except OSError:
                    pass
                try:
                    came = line.recv(100)
                except OSError:
                    came = b"a reset"
            told.append((name, came[9:12].decode() if came[:4] == b"HTTP" else came.decode(), (peak(server.process.pid) - before) / 1024))
        tell(all(what in ("400", "405", "413", "414", "431", "", "a reset") for _, what, _ in told) and server.lives(),
             "browsers' requests without an end are refused: " + ", ".join(f"{name} {what or 'ended'}, {more:.1f} MB more" for name, what, more in told), told)
    tell(not polls.wrong and polls.longest < 1, f"a client beside all that waited {1000 * polls.longest:.0f} ms at most", (polls.wrong, polls.longest))
    server.stop()


def descriptors():
    """Fewer descriptors than connections."""
    server = Server(store=False).start("ulimit -n 40")
    with Polls(server) as polls:
        lines, served = [], 0
        for _ in range(150):
            lines.append(socket.create_connection(("127.0.0.1", server.port), timeout=10))
        for one in lines:
            one.settimeout(0.05)
            try:
                one.sendall(Client().hello())
                served += one.recv(100)[:4] == b"ACKF"
            except OSError:
                pass
        before = server.seconds()
        time.sleep(5)
        used = server.seconds() - before
        tell(served == 23 and used < 0.5, f"at 40 descriptors {served} of 150 connections were greeted, as many as fit beside a client; with them it took {used:.2f} s of a processor in 5 s", (served, used))
        for one in lines:  # what came late is taken, since else the end would be a reset
            one.settimeout(0)
            try:
                one.recv(100)
            except OSError:
                pass
            one.close()
        time.sleep(1)
        took = waits_for(server, 20)
        tell(took is not None and took < 5, f"once they are gone the next one is served, after {took or 0:.1f} s", took)
    tell(not polls.wrong and polls.longest < 1, f"a client who was there before waited {1000 * polls.longest:.0f} ms at most", (polls.wrong, polls.longest))
    tell(server.lives(), "and it lives", "")
    said = server.stop().splitlines()
    shapes = collections.Counter(re.sub(r"\d+", "N", line) for line in said)
    tell(any("40 descriptors are too few" in line for line in said), "at the begin it said that 40 are too few", said[:3])
    tell(not any("connection ended" in line for line in said), "no connection failed for want of a descriptor", said[:5])
    tell(len(said) < 100, f"and all in all {len(said)} lines: " + "; ".join(f"{count} times {line}" for line, count in shapes.items()), len(said))


# ---- passwords

def guesses():
    """Passwords that are tried."""
    for keys in ("logins = 5\n", ""):
        server = Server(store=False, keys=keys).start()
        polls = Polls(server)
        line = opened(server.port)
        assert status(line.ask(line.client.create_session())) == 0
        states = {status(line.ask(line.client.activate(name, password))) for name, password in (("ann", b"no"), ("nobody", b"no"), ("ann", b""), ("ann", b"pw\0"), ("Ann", b"pw"))}
        if keys:
            tell(len(states) == 1 and min(states) >= 0x80000000, f"a wrong name and a wrong password are refused by the same code, {min(states):08X}", states)
        counts, stop = [0] * 60, time.monotonic() + 6
        sessions = [opened(server.port) for _ in range(60)]
        for one in sessions:
            assert status(one.ask(one.client.create_session())) == 0

        def tries(k):
            while time.monotonic() < stop:
                if status(sessions[k].ask(sessions[k].client.activate("ann", b"guess"))) == 0:
                    return
                counts[k] += 1

        with polls:
            threads = [threading.Thread(target=tries, args=(k,), daemon=True) for k in range(60)]
            for thread in threads:
                thread.start()
            for thread in threads:
                thread.join(30)
        note(f"{'with ' + keys.strip() if keys else 'without the key'} 60 connections tried {sum(counts) / 6:.0f} passwords a second, by a client in Python")
        tell(not polls.wrong and polls.longest < 1, f"who was in waited {1000 * polls.longest:.0f} ms at most", (polls.wrong, polls.longest))
        if keys:
            tell(max(counts) <= 7, "and no connection more than one a second", max(counts))
        for one in sessions:
            one.socket.close()
        server.stop()


def guesses_from_many():
    """Refused logins of more addresses than are kept in mind."""
    server = Server(store=False, keys="logins = 3\nconnections = 200\n").start()

    def login(host, password):
        line = Line.__new__(Line)
        line.socket, line.client = socket.create_connection(("127.0.0.1", server.port), timeout=20, source_address=(host, 0)), Client()
        assert line.ask(line.client.hello())[:4] == b"ACKF" and line.ask(line.client.open())[:4] == b"OPNF"
        assert status(line.ask(line.client.create_session())) == 0
        begin = time.monotonic()
        status(line.ask(line.client.activate("ann", password)))
        line.socket.close()
        return time.monotonic() - begin

    for _ in range(3):
        login("127.0.0.2", b"no")
    took = login("127.0.0.2", b"no")
    other = login("127.0.0.3", b"pw")
    tell(0.9 < took < 2 and other < 0.5, "behind three refused logins an address waits, and another one doesn't", (took, other))
    for k in range(1000):
        login(f"127.0.{1 + k // 250}.{1 + k % 250}", b"no")
    took = login("127.0.0.2", b"no")
    note("behind a thousand refused logins of other addresses the first one " + ("waits still" if took > 0.9 else "waits no more"))
    server.stop()


def sessions():
    """Sessions of others, and none at all."""
    server = Server(store=False).start()
    ann = server.line()
    assert updated(ann, [insert(T, [value_at(int32(1), NOW)])]) == [[INSERTED]]
    told = {}
    for name, is_made in (("the token of ann's session on another connection", False), ("a session that nobody activated", True)):
        line = opened(server.port)
        if is_made:
            assert status(line.ask(line.client.create_session())) == 0
        line.client.token = ann.client.token
        asked = [line.client.browse([node(85)]), line.client.read([(T, 13)]), line.client.history_read([T], NOW, NOW + 10), line.client.update(T, 3, [value_at(int32(2), NOW)])]
        told[name] = [code(line.ask(sent)) for sent in asked]
        line.socket.close()
    tell(list(told.values()) == [["80250000"] * 4, ["80270000"] * 4], "no service is had by " + " or by ".join(f"{name} ({codes[0]})" for name, codes in told.items()), told)
    line = server.line()
    assert status(line.ask(line.client.close_session())) == 0
    tell(code(line.ask(line.client.read([(T, 13)]))) == "80250000", "nor by a session that was closed (80250000)", "")
    tell(b"\x06" + i32(1) in ann.ask(ann.client.read([(T, 13)])), "and nothing was changed", "")
    server.stop()
    text = open(server.settings).read()
    open(server.settings, "w").write(text.replace("anonymous = true", "anonymous = false"))
    server.start()
    line = opened(server.port)
    assert status(line.ask(line.client.create_session())) == 0
    told = code(line.ask(line.client.activate()))
    tell(told == "80210000" or told[:2] == "80" and status(line.ask(line.client.read([(T, 13)]))) == 0x80270000, f"where a name is wanted, a session without one is refused ({told})", told)
    server.stop()


def secrets():
    """No password in anything that is said."""
    secret = "Zq9-never-told"
    ben = f"\n[[user]]\nname = 'ben'\npassword = '{secret}'\n\n[log]\nevents = true\n\n[web]\nlisten = 'WEB'\n"
    server = Server(tables=ben).start()
    assert listens(server.web, server.process)
    line = server.line("ben", secret.encode())
    updated(line, [insert(T, [value_at(int32(1), NOW)])])
    said = [line.ask(line.client.get_endpoints()), message(line, line.client.browse([node(84), node(85), node(2253), T]))[0],
            message(line, line.client.read([(where, attribute) for where in (node(84), node(85), node(2253), node(2259), T) for attribute in range(1, 28)]))[0],
            message(line, line.client.history_read([T], NOW, NOW + 10, modified=True))[0]]
    for name, password in (("ben", secret + "x"), (secret, "no"), ("ben", secret)):
        one = opened(server.port)
        one.ask(one.client.create_session())
        said.append(one.ask(one.client.activate(name, password.encode())))
    for path in ("/", "/history?node=ns%3D1%3Bs%3DT&changes=true", "/history.csv?node=ns%3D1%3Bs%3DT", "/status.json", "/nowhere"):
        for user in ("", f"ben:{secret}", f"ben:{secret}y"):
            given = b"Authorization: Basic " + base64.b64encode(user.encode()) + b"\r\n" if user else b""
            with socket.create_connection(("127.0.0.1", server.web), timeout=10) as web:
                web.sendall(f"GET {path} HTTP/1.1\r\nHost: x\r\n".encode() + given + b"\r\n")
                while more := web.recv(65536):
                    said.append(more)
    command = open(f"/proc/{server.process.pid}/cmdline", "rb").read()
    events = server.stop()
    secret_name = events.replace(f'was refused as "{secret}"', "")
    tell(not any(secret.encode() in part for part in said) and secret.encode() not in command, "no answer to clients and browsers has a password, nor has the command's line", "")
    tell(secret not in secret_name and "ben" in events, "no line of events has one, right or nearly", [text for text in events.splitlines() if secret in text][:3])
    note("one that is typed in the place of the name is a name, and stands in the line of events")
    words = [["dump"], ["check"], ["check", "--store"], ["history", "--node", "ns=1;s=T"], ["history", "--node", "ns=1;s=T", "--changes", "--html"], ["sync", "--peer", "127.0.0.1:1"],
             ["import", "--user", "ben"], ["import", "--user", secret], ["serve", "--connections", "x"]]
    text, told = open(server.settings).read(), []
    right = f"password = '{secret}'"
    broken = [text, text.replace(right, f"password = '{secret}"), text.replace(right, f"password = {secret}"), text.replace(right, f"password = ['{secret}']"), text.replace(right, f"'{secret}' = 1"),
              text.replace(right, f"{right}\n{right}"), text.replace(right, f"pasword = '{secret}'"), text.replace(right, f"password = \"{secret}\\q\""), text.replace(right, f"{right}\npassword_file = '{secret}'"),
              text.replace(right, f"password = '{secret}'\naccess = '{secret}'"), text.replace("name = 'ben'\n", ""), text.replace(right, f"password_file = '/nonexistent/{secret}'")]
    for k, changed in enumerate(broken):
        path = server.settings + ".changed"
        open(path, "w").write(changed)
        os.chmod(path, 0o644)
        for command in words if k == 0 else words[:2]:
            done = run([program, command[0], "--settings", path, *command[1:]], b"node,time,value,status\n", most=20)
            if secret.encode() in done.out + done.said.encode():
                told.append((k, command[0], done.said[:300]))
    shown_key = [one for one in told if one[0] == 4]
    others = [one for one in told if one[0] != 4]
    tell(not others, f"of {len(words) + 2 * (len(broken) - 1)} commands, over settings that are whole or wrong in eleven ways at a password, none prints it", others[:3])
    if shown_key:
        note("but for one that stands in the place of a key: an unknown key is printed")


# ---- replicas

def copies():
    """An archive that is copied under a number that is in use."""
    def pair():
        one, two = Server(1), Server(2)
        return one, two

    def writes(server, moments, value):
        server.start()
        line = server.line()
        for moment in moments:
            assert updated(line, [insert(T, [value_at(int32(value), moment)])]) == [[INSERTED]]
        server.stop()

    def exchanged(caller, called):
        called.start()
        done = run([program, "sync", "--settings", caller.settings, "--peer", f"127.0.0.1:{called.port}"], most=30)
        called.stop()
        return (done.out.decode() + done.said).strip().replace("uahist: ", "")

    def checked(caller, called, replica=1, word="--check"):
        called.start()
        done = run([program, "sync", word, "--settings", caller.settings, "--peer", f"127.0.0.1:{called.port}"], most=30)
        called.stop()
        rows = done.out.decode().splitlines()
        found = done.status == 1 and "a number was given to two records" in done.said
        whole = len(rows) == 3 and rows[0].startswith("held,replica,number,") and rows[1].startswith(f"here,{replica},") and rows[2].startswith(f"there,{replica},")
        return "found, and both are printed" if found and whole else (done.out.decode() + done.said).strip()

    def looks(caller, called, replica=1):
        """What a server says of a call by which it looks for numbers that were given twice."""
        called.start()
        text = open(caller.settings).read()
        open(caller.settings, "w").write(text + f"\n[[peer]]\naddress = '127.0.0.1:{called.port}'\nevery = 86400\ncheck = true\n")
        caller.start()
        time.sleep(2)
        rows = caller.stop().splitlines()
        called.stop()
        open(caller.settings, "w").write(text)
        found = len(rows) == 4 and rows[3] == f"uahist: peer 127.0.0.1:{called.port}: exchange ended (11)"
        whole = found and rows[0].startswith("held,replica,number,") and rows[1].startswith(f"here,{replica},") and rows[2].startswith(f"there,{replica},")
        return "found, and both are told" if whole else "\n".join(rows)

    def files(server):
        return [server.store + end for end in ("", "-wal") if os.path.exists(server.store + end)]

    def apart(one, two):
        return sum(a != b for a, b in zip(*(server.dump().splitlines() for server in (one, two))))

    for new in (0, 3, 5, 8):
        one, two = pair()
        writes(one, range(NOW, NOW + 5), 1)
        exchanged(one, two)
        kept = [(path, path + ".kept") for path in files(one)]
        for path, copy in kept:
            shutil.copy(path, copy)
        writes(one, range(NOW + 100, NOW + 105), 2)
        exchanged(one, two)
        for path in files(one):
            os.remove(path)
        for path, copy in kept:
            shutil.copy(copy, path)
        writes(one, range(NOW + 200, NOW + 200 + new), 3)
        before = [server.dump() for server in (one, two)]
        looked = [checked(one, two), checked(two, one)] if new else []
        stays = before == [server.dump() for server in (one, two)]
        what = f"an old copy of 5 records, put back where 5 more were exchanged, and {new} written since"
        if new:
            finder, other = (one, two) if new <= 5 else (two, one)
            served = looks(finder, other)
            tell(served == "found, and both are told" and before == [server.dump() for server in (one, two)], f"{what}: `serve` with `check` at the machine that holds no more finds it, tells both, and changes nothing", served)
        first, second = exchanged(one, two), exchanged(one, two)
        if new:
            tell(looked == 2 * ["found, and both are printed"] and stays, f"{what}: `sync --check` finds it from either machine, prints both, and changes nothing", looked)
        if new == 0:
            tell(first == "learned 5 sent 0" and one.dump() == two.dump(), f"{what}: {first}, and the dumps are equal", first)
        elif new < 5:
            tell("exchange ended (3)" in first, f"{what}: {first}", first)
        else:
            note(f"{what}: without `--check` {first}, then {second}; {apart(one, two)} of {len(one.dump().splitlines())} records differ, and nothing tells of it")
            looked = [checked(one, two, word="--verify"), checked(two, one, word="--verify")]
            tell(looked == 2 * ["found, and both are printed"], f"{what}, and exchanged since: `sync --verify` finds it from either machine", looked)
    one, two, hub = Server(3), Server(4), Server(2)
    writes(one, range(NOW, NOW + 3), 1)
    exchanged(one, two)
    kept = [(path, path + ".kept") for path in files(one)]
    for path, copy in kept:
        shutil.copy(path, copy)
    writes(one, range(NOW + 100, NOW + 103), 2)
    exchanged(one, two)
    for path in files(one):
        os.remove(path)
    for path, copy in kept:
        shutil.copy(copy, path)
    writes(one, range(NOW + 200, NOW + 203), 3)
    writes(hub, range(NOW + 1000, NOW + 3500), 4)
    exchanged(hub, two)
    looked = [checked(one, two, 3), checked(two, one, 3)]
    tell(looked == 2 * ["found, and both are printed"], "an old copy, put back behind 2,500 records of another machine, which fill frames: `sync --check` finds it from either machine", looked)
    one, two, hub = Server(2), Server(2), Server(1)
    writes(one, range(NOW, NOW + 3), 1)
    writes(two, range(NOW + 10, NOW + 13), 2)
    told = [exchanged(hub, one), exchanged(hub, two), exchanged(one, two)]
    looked = checked(hub, two, 2)
    tell(looked == "found, and both are printed", "one number at two machines, behind a third: `sync --check` from there finds it", looked)
    note(f"one number at two machines, behind a third: {told[0]}, then {told[1]}; {apart(one, two)} of 3 records differ, and nothing tells of it")
    tell("exchange ended (5)" in told[2], f"the two themselves: {told[2]}", told[2])
    shutil.copy(one.store, two.store)
    for end in ("-wal",):
        if os.path.exists(one.store + end):
            shutil.copy(one.store + end, two.store + end)
    text = open(two.settings).read()
    open(two.settings, "w").write(text.replace("replica = 2\n", "replica = 3\n"))
    done = run([program, "dump", "--settings", two.settings])
    tell((done.status, done.out) == (3, b"") and "store refused" in done.said, f"a copy that is opened as another number: {done.said.splitlines()[0][8:] if done.said else ''}", (done.status, done.said))


def lying_peers():
    """Peers that are called, and never come to an end."""
    def record(number, value=b"\1" + int32(1)):
        return reading.Record(7, number, NOW + number, node("elsewhere", 1), 5 + number, 0, 1, "eve", value)

    def same(line):
        for _ in frames(line):
            line.sendall(reading.carries(ARCHIVE, 7, {7: 1}, [record(1)]))

    def ever_new(line):
        for number, _ in enumerate(frames(line)):
            line.sendall(reading.carries(ARCHIVE, 7, {7: 1 << 40}, [record(100 * number + k) for k in range(1, 101)]))

    def lacking(line):
        for frame in frames(line):
            line.sendall(reading.asks(ARCHIVE, 7, {}) if frame[:3] == b"RXD" else reading.carries(ARCHIVE, 7, {}, []))

    def drips(line):
        for _ in frames(line):
            for byte in reading.carries(ARCHIVE, 7, {7: 5}, [record(1)]):
                line.sendall(bytes([byte]))
                time.sleep(1)

    def silent(line):
        line.recv(1 << 20)
        time.sleep(20)

    def floods(line):
        while True:
            line.sendall(b"HTTP/1.1 200 OK\r\n" * 5000)

    for name, lies in (("brings the same record for ever", same), ("has a hundred records more in each frame", ever_new), ("lacks all for ever", lacking), ("sends a byte a second", drips), ("says nothing", silent), ("sends what is no frame", floods)):
        listener, count = socket.create_server(("127.0.0.1", 0)), [0]

        def answers():
            while True:
                try:
                    line, _ = listener.accept()
                except OSError:  # it is shut down
                    return
                count[0] += 1
                try:
                    lies(line)
                except OSError:
                    pass
                line.close()

        threading.Thread(target=answers, daemon=True).start()
        server = Server(tables=f"\n[[peer]]\naddress = '127.0.0.1:{listener.getsockname()[1]}'\nevery = 1\n").start()
        line = server.line()
        assert updated(line, [insert(T, [value_at(int32(1), NOW)])]) == [[INSERTED]]
        with Polls(server) as polls:
            before = server.seconds()
            time.sleep(4)
            used = server.seconds() - before
        memory = server.resident() / 1024
        said = server.stop()
        records, size = len(server.dump().splitlines()), sum(os.path.getsize(server.store + end) for end in ("", "-wal") if os.path.exists(server.store + end)) / 1e6
        tell(not polls.wrong and polls.longest < 1, f"a peer that is called and {name}: a client waited {1000 * polls.longest:.0f} ms at most", (polls.wrong, polls.longest))
        note(f"it was called {count[0]} times in 4 s, for {used:.1f} s of a processor; the program holds {memory:.0f} MB, {records} records and {size:.1f} MB of files" + (f", and says {said.splitlines()[0]!r}" if said else ""))
        if lies in (same, ever_new):
            other, begin = Server(2), time.monotonic()
            done = run([program, "sync", "--settings", other.settings, "--peer", f"127.0.0.1:{listener.getsockname()[1]}"], most=3)
            note("its `sync` " + ("goes on for the 3 s that it had" if done.status == -9 else f"ends after {time.monotonic() - begin:.1f} s: {done.said.strip()}") + f", with {len(other.dump().splitlines())} records")
        listener.shutdown(socket.SHUT_RDWR)
        listener.close()


def large_settings():
    """Settings with very many users, folders or variables, beside the two variables and the user that each server here has."""
    count, half = 100_000, 50_000
    users = "".join(f"\n[[user]]\nname = 'user{k:06}'\npassword = 'x'\n" for k in range(count))
    folders = "".join(f"\n[[folder]]\nid = 'f{k:06}'\nname = 'f'\n" for k in range(half))
    variables = "".join(f"\n[[variable]]\nid = 'v{k:06}'\nname = 'v'\ntype = 'Int32'\nfolder = 'f{half - 1 - k:06}'\n" for k in range(half))
    for what, tables, status, line in (
            (f"{count} users", users, 0, ""),
            (f"{count} users, of whom the last has the first one's name", users.replace(f"user{count - 1:06}", "user000000"), 2, "[[user]] 2, name"),
            (f"{half} folders, and as many variables in them", folders + variables, 2, f"{count + 2} folders and variables")):
        server = Server(store=False, tables=tables)
        done = run([program, "check", "--settings", server.settings], most=120)
        tell(done.status == status and line in done.said, f"{what} are judged", (done.status, done.said[-300:]))
        tell(done.processor < 1.5, f"{what} are judged within a second and a half of a processor", f"{done.processor:.2f} s")
        note(f"{what}: {done.processor:.2f} s")


def a_limit_of_files():
    """A limit of the shell's on how long a file may be."""
    server = Server().start("ulimit -f 400")
    line, good = server.line(), 0
    try:
        for k in range(2000):
            good += updated(line, [insert(T, [value_at(int32(k), NOW + k)])]) == [[INSERTED]]
    except (OSError, AssertionError):
        pass
    time.sleep(0.5)
    ended = server.process.poll()
    said = server.stop()
    note(f"under `ulimit -f 400` it ends " + (f"by the signal {-ended}" if ended and ended < 0 else f"in {ended}") + f" behind {good} updates, and says {said!r}")
    dumped = len(server.dump().splitlines())
    tell(dumped >= good, f"all {good} that were answered Good are there", dumped)


resource.setrlimit(resource.RLIMIT_NOFILE, (4096, max(4096, resource.getrlimit(resource.RLIMIT_NOFILE)[1])))
checks = [small_requests, large_exchange, a_wide_folder, long_turns, deleted_values, deep, large_requests, a_flood_of_chunks, places, unread_answers, taken_answers, browsers, descriptors,
          guesses, guesses_from_many, sessions, secrets, copies, lying_peers, large_settings, a_limit_of_files]
checks = [check for check in checks if not sys.argv[2:] or check.__name__ in sys.argv[2:]]
for check in checks:
    begin = time.monotonic()
    try:
        check()
    except (Exception, SystemExit) as error:
        tell(False, f"{check.__name__} comes to its end", repr(error))
    for server in Server.made:
        if server.process is not None and server.process.poll() is None:
            server.process.kill()
            server.process.wait()
print(f"{held.count(True)} of {len(held)} things held against attacks; {len(numbers)} numbers are told of what is not bounded")
sys.exit(0 if all(held) else 1)
