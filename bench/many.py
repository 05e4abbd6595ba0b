#!/usr/bin/env python3
"""Measures the built program as a server of many connections on the loopback address: a row a figure, with the bound that is wanted.

    bench/many.py PROGRAM [OLD_PROGRAM] [--only PART,..] [--records N]

Parts, all of them where none is named:
  1  1,000 connections that say a Hello and nothing more: memory, and seconds of a processor in 10 s
  2  64 clients that poll, beside one that sends 100 MB of requests of a kB and one that sends such and reads nothing: the longest
     wait for an answer; and the same at a plain server over epoll (echo.c), whose answers are as long
  3  requests a second of one client, one after the other, the best of twenty runs; of OLD_PROGRAM too, where one is given,
     which may serve one connection at a time
  4  a peer with 100,000 records, or N, brings them by `sync` while 16 clients poll: the longest wait of a poll; and seconds, as
     the difference to a `sync` that brings nothing, with those of the server's processor, polls too
  5  HistoryUpdates of 1,000 values into a store in a file: the time of each, and the longest wait of a poll beside
  6  500 connections that say nothing, and a client right behind them all: seconds until its Hello is answered; and another
     client's a second later
A poll is a Read of one value; each client polls again 10 ms behind an answer, and in part 5 at once. All that poll are one process
in Python: what that adds to a wait, and what the machine does, shows at the plain server. Takes some minutes; needs gcc. The
exit status is 0 where all was measured, whatever held.
"""
import collections, contextlib, os, re, resource, select, shutil, signal, socket, statistics, subprocess, sys, tempfile, time
from concurrent.futures import ProcessPoolExecutor

top = os.path.dirname(os.path.dirname(os.path.abspath(__file__)))
sys.path[1:1] = [os.path.join(top, "tests")]
import history, opcua, running, usage
from network_line import Line
from opcua import Client, int32, node, value_at

TAG, STATE, FIRST = node("T", 1), node(2259), opcua.EPOCH
MANY = "connections = 1000"
LARGE = bytes(8) + opcua.u32(2) + opcua.array([STATE + opcua.u32(13) + opcua.text(None) + opcua.qualified()] * 50)  # a Read of the state, 50 times over
FLOOD = 100_000_000  # bytes of requests
PAUSE = 0.01  # seconds between an answer and the next poll
MOST = 120  # seconds that an answer may take before it counts as a failure


class Serving:
    """A server that runs until it is left."""

    def __init__(self, words, port):
        self.port, self.process = port, subprocess.Popen(words, stdin=subprocess.DEVNULL, stderr=subprocess.DEVNULL)

    def __enter__(self):
        if not running.listens(self.port, self.process):
            self.__exit__()
            sys.exit("a server doesn't begin")
        return self

    def __exit__(self, *_):
        self.process.kill()
        self.process.wait()

    def processor(self):
        """Seconds of a processor so far."""
        stat = open(f"/proc/{self.process.pid}/stat").read().rsplit(")", 1)[1].split()
        return (int(stat[11]) + int(stat[12])) / os.sysconf("SC_CLK_TCK")

    def megabytes(self):
        """What is resident now."""
        return int(re.search(r"VmRSS:\s+(\d+)", open(f"/proc/{self.process.pid}/status").read())[1]) * 1024 / 1e6


class Bench:
    """What is measured, where its files are, and which bounds held."""

    def __init__(self, program, old, records, folder):
        self.program, self.old, self.records, self.folder, self.bounds = program, old, records, folder, []

    def row(self, part, what, figure, wanted="", holds=None):
        if holds is not None:
            self.bounds.append((f"{part}, {what}", holds))
        print(f"| {part} | {what} | {figure} | {wanted} | {'' if holds is None else 'yes' if holds else 'no'} |", flush=True)

    def settings(self, name, replica=1, port=None, keys="", stored=False):
        """A settings file with a store of that name, or none."""
        path = os.path.join(self.folder, f"{name}.toml")
        running.write_settings(path, "settings.toml", replica, port, os.path.join(self.folder, f"{name}.db") if stored else None)
        text = open(path).read().replace("anonymous = true", f"anonymous = true\n{keys}")
        open(path, "w").write(text)
        return path

    def serving(self, name, program=None, **settings):
        port = running.free_port()
        return Serving([program or self.program, "serve", "--settings", self.settings(name, port=port, **settings)], port)

    def echoing(self, sizes):
        """The plain server, which answers messages of these sizes."""
        port, built = running.free_port(), os.path.join(self.folder, "echo")
        subprocess.run(["gcc", "-O2", "-o", built, os.path.join(top, "bench", "echo.c")], check=True)
        return Serving([built, str(port), *(f"{asked}:{answered}" for asked, answered in sizes)], port)


# ---- clients


def client(port, begins=True):
    """A client's connection, with a session of ann's unless its server knows none."""
    line = Line(port)
    line.socket.settimeout(MOST)
    line.socket.setsockopt(socket.IPPROTO_TCP, socket.TCP_NODELAY, 1)
    if begins:
        return line.begin()
    line.client.create_session()  # so that its requests are as long as in a session
    return line


def poll(line):
    return line.client.read([(TAG, 13)])


def large(line):
    """A request of a kB."""
    return line.client.message(631, LARGE)


def write(line, first, count):
    """Writes so many values at as many moments; seconds until they are answered Good."""
    asked = line.client.update(TAG, 3, [value_at(int32(k), FIRST + first + k) for k in range(count)])
    begin = time.monotonic()
    answer = line.ask(asked)
    taken = time.monotonic() - begin
    [(code, codes, _)] = history.results(answer, history.read_codes)
    assert code == 0 and len(codes) == count and not any(c >> 30 for c in codes), "a write isn't Good"
    return taken


def is_whole(answer):
    return len(answer) >= 8 and len(answer) >= int.from_bytes(answer[4:8], "little")


def polled(lines, is_over, pause=PAUSE):
    """Lets each of these clients poll, and again a while after its answer, until all is over: the seconds of each wait, in order."""
    ready, files, waits = select.epoll(), {line.socket.fileno(): line for line in lines}, []
    first, asked = time.monotonic(), {}
    due = collections.deque((first + pause * k / len(lines), line) for k, line in enumerate(lines))
    for file in files:
        ready.register(file, select.EPOLLIN)
    while True:
        over = is_over()
        if over and not asked:
            return waits
        while due and not over and due[0][0] <= time.monotonic():
            _, line = due.popleft()
            sent = poll(line)
            asked[line.socket.fileno()] = time.monotonic(), b""
            line.socket.sendall(sent)
        pauses = due and not over
        found = ready.poll(max(0, due[0][0] - time.monotonic()) if pauses else MOST)
        assert found or pauses, "a poll isn't answered"
        for file, _ in found:
            begin, came = asked.pop(file)
            more = files[file].socket.recv(65536)
            assert more, "a client's connection is over"
            if is_whole(came + more):
                now = time.monotonic()
                waits.append(now - begin)
                due.append((now + pause, files[file]))
            else:
                asked[file] = begin, came + more


def floods(port, begins):
    """One that sends large requests as fast as they are taken, and takes their answers: the seconds of it."""
    line, rest = client(port, begins), b""
    asked = large(line)
    count, size = FLOOD // len(asked), len(line.ask(asked))
    line.socket.setblocking(False)
    begin, coming = time.monotonic(), count * size
    while coming > 0:
        if not rest and count:
            now = min(count, 100)
            rest, count = b"".join(large(line) for _ in range(now)), count - now
        reads, writes, _ = select.select([line.socket], [line.socket] if rest else [], [], MOST)
        assert reads or writes, "a flood stands still"
        if reads:
            came = len(line.socket.recv(1 << 20))
            assert came, "a flood's connection is over"
            coming -= came
        if writes:
            rest = rest[line.socket.send(rest):]
    return time.monotonic() - begin


def reads_nothing(port, begins):
    """One that sends large requests and takes no answer, until its server is gone."""
    line = client(port, begins)
    line.socket.settimeout(None)
    with contextlib.suppress(ConnectionError):
        while True:
            line.socket.sendall(large(line))


def writes_pages(port, times):
    """One that writes 1,000 values a request, so many times: the seconds of each."""
    line = client(port)
    return [write(line, 1000 * k, 1000) for k in range(times)]


def told(waits):
    return f"{1000 * max(waits):.1f} ms; of {len(waits):,} the median {1000 * statistics.median(waits):.2f} ms"


# ---- parts


def idle(bench):
    with bench.serving("idle", keys=MANY) as server:
        lines = [client(server.port, False) for _ in range(1000)]
        for line in lines:
            assert line.ask(line.client.hello())[:4] == b"ACKF"
        time.sleep(1)
        before = server.processor()
        time.sleep(10)
        used, memory = server.processor() - before, server.megabytes()
    bench.row(1, "memory at 1,000 idle connections", f"{memory:.1f} MB", "below 60 MB", memory < 60)
    bench.row(1, "processor in 10 s then", f"{used:.2f} s", "at most 0.1 s", used <= 0.1)


def beside_others(server, begins):
    """What 64 clients' polls take until a flood beside them is over: their waits, and all of it in words."""
    with ProcessPoolExecutor(2) as others, server:
        lines = [client(server.port, begins) for _ in range(64)]
        if begins:
            write(lines[0], 0, 1)
        deaf = others.submit(reads_nothing, server.port, begins)
        flood = others.submit(floods, server.port, begins)
        waits = polled(lines, flood.done)
        figure = f"{told(waits)}; the flood took {flood.result():.1f} s, and the server {server.processor():.1f} s of a processor"
    deaf.result()
    return waits, figure


def in_bad_company(bench):
    with bench.serving("sizes") as server:
        line = client(server.port)
        write(line, 0, 1)
        sizes = [(len(sent), len(line.ask(sent))) for sent in (poll(line), large(line))]
    waits, figure = beside_others(bench.serving("company", keys="connections = 100"), True)
    bench.row(2, "the longest poll of 64 clients beside a flood", figure, "at most 50 ms", max(waits) <= 0.05)
    _, figure = beside_others(bench.echoing(sizes), False)
    bench.row(2, "the same at the plain server", figure)


def rate(line, ask, count=1000):
    """Requests a second, each sent behind the answer of the one before."""
    size = len(line.ask(ask(line)))
    sent = [ask(line) for _ in range(count)]
    begin = time.monotonic()
    for request in sent:
        line.socket.sendall(request)
        line.take(size)
    return count / (time.monotonic() - begin)


def one_client(bench):
    programs = [program for program in (bench.program, bench.old) if program]
    with contextlib.ExitStack() as servers:
        lines = [client(servers.enter_context(bench.serving(f"alone{k}", program)).port) for k, program in enumerate(programs)]
        for line in lines:
            write(line, 0, 1)
        for what, ask in (("a value", poll), ("the server's state", lambda line: line.client.read([(STATE, 13)]))):
            runs = [[rate(line, ask) for line in lines] for _ in range(20)]
            best = [max(rates) for rates in zip(*runs)]
            bench.row(3, f"Reads of {what} by one client", f"{best[0]:,.0f} a second")
            if bench.old:
                bench.row(3, f"Reads of {what}, of the old program", f"{best[1]:,.0f} a second")
                bench.row(3, f"Reads of {what}, the first of the second", f"{best[0] / best[1]:.2f}", "at least 0.9", best[0] >= 0.9 * best[1])


def filled(bench):
    """The settings of a peer with its records."""
    path, line = bench.settings("peer", replica=2, stored=True), Client()
    sent = [line.hello(), line.open(), line.create_session(), line.activate("ann", b"pw")]
    for first in range(0, bench.records, 1000):
        sent.append(line.update(TAG, 3, [value_at(int32(k), FIRST + k) for k in range(first, min(bench.records, first + 1000))]))
    done = running.run([bench.program, "answer", "--settings", path], b"".join(sent), most=3600)
    assert done.status == 0, done.said
    return path


def synced(bench, path, port, brought, lines=()):
    """Seconds of a `sync` that brings so many records, and the waits of these clients' polls meanwhile."""
    begin = time.monotonic()
    sync = subprocess.Popen([bench.program, "sync", "--settings", path, "--peer", f"127.0.0.1:{port}"], stdout=subprocess.PIPE, text=True)
    waits = polled(lines, lambda: sync.poll() is not None) if lines else []
    said, _ = sync.communicate()
    assert said == f"learned 0 sent {brought}\n", said
    return time.monotonic() - begin, waits


def an_exchange(bench):
    path = filled(bench)
    with bench.serving("learning", stored=True) as server:
        lines = [client(server.port) for _ in range(16)]
        before = server.processor()
        whole, waits = synced(bench, path, server.port, bench.records, lines)
        used = server.processor() - before
        start, _ = synced(bench, path, server.port, 0)
    seconds = whole - start
    bench.row(4, f"the longest poll of 16 clients while a peer brings {bench.records:,} records", told(waits), "at most 100 ms", max(waits) <= 0.1)
    bench.row(4, "the exchange", f"{seconds:.1f} s, {bench.records / seconds:,.0f} records a second; {used:.1f} s of the server's processor")


def large_updates(bench, times=10):
    with ProcessPoolExecutor(1) as other, bench.serving("updates", stored=True) as server:
        line, before = client(server.port), server.processor()
        pages = other.submit(writes_pages, server.port, times)
        waits = polled([line], pages.done, 0)
        taken, used = pages.result(), server.processor() - before
    each = f"{1000 * statistics.median(taken):.0f} ms, the longest {1000 * max(taken):.0f} ms; {1000 * used / times:.0f} ms of the server's processor each"
    bench.row(5, "HistoryUpdates of 1,000 values", each)
    bench.row(5, "the longest poll of a client beside them", told(waits))


def silent_ones(port):
    """500 connections that begin at once and say nothing, and how many of them stand."""
    silent, stand = [socket.socket() for _ in range(500)], 0
    for one in silent:
        one.setblocking(False)
        one.connect_ex(("127.0.0.1", port))
    for one in silent:
        with contextlib.suppress(OSError):
            stand += bool(one.getpeername())
    return silent, stand


def greeted(port):
    """A new client, and the seconds until its Hello is answered."""
    begin = time.monotonic()
    line = client(port, False)
    assert line.ask(line.client.hello())[:4] == b"ACKF"
    return line, time.monotonic() - begin


def a_full_house(bench):
    for keys, places, most, wanted in (("", 64, 11, "at most 11 s"), (MANY, 1000, 0.1, "below 100 ms")):
        with bench.serving(f"house{places}", keys=keys) as server:
            silent, stand = silent_ones(server.port)
            one, taken = greeted(server.port)
            time.sleep(1)
            other, later = greeted(server.port)
            for closed in (*silent, one.socket, other.socket):
                closed.close()
        bench.row(6, f"a Hello right behind {stand} silent connections at {places} places", f"{taken:.3f} s", wanted, taken <= most)
        bench.row(6, "another a second later", f"{later:.3f} s")


PARTS = {"1": idle, "2": in_bad_company, "3": one_client, "4": an_exchange, "5": large_updates, "6": a_full_house}


def option(words, name, default):
    """Takes an option with its value from the words."""
    if name not in words:
        return default
    at = words.index(name)
    value = words[at + 1]
    del words[at:at + 2]
    return value


def main():
    usage.shown(__doc__, 1)
    signal.signal(signal.SIGTERM, lambda *_: sys.exit(143))
    words = sys.argv[1:]
    parts = [PARTS[part] for part in option(words, "--only", ",".join(PARTS)).split(",")]
    records = int(option(words, "--records", "100000"))
    program, old = [os.path.abspath(word) for word in words] + [None] * (2 - len(words))
    resource.setrlimit(resource.RLIMIT_NOFILE, (4096, resource.getrlimit(resource.RLIMIT_NOFILE)[1]))
    print(f"{os.cpu_count()} processors; the load average is {os.getloadavg()[0]:.2f} at the start.")
    print("A poll is a Read of one value; a client polls again 10 ms behind the answer, in part 5 at once.\n")
    print("| Part | What | Measured | Wanted | Holds |\n|---|---|---|---|---|", flush=True)
    folder = tempfile.mkdtemp()
    try:
        bench = Bench(program, old, records, folder)
        for part in parts:
            part(bench)
    finally:
        shutil.rmtree(folder)
    missed = [what for what, holds in bench.bounds if not holds]
    print(f"\n{len(bench.bounds) - len(missed)} of {len(bench.bounds)} bounds held" + (f"; not held: {'; '.join(missed)}" if missed else ""))


if __name__ == "__main__":
    main()
