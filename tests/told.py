#!/usr/bin/env python3
"""Shows what the built program tells of what happens, a line each, and that logins wait where many were refused.

    tests/told.py PROGRAM

A server whose settings say `[log] events = true` and `[server] logins = 3` has clients, a browser, a peer and strangers. Each line
that this prints tells what held, or what was otherwise; the exit status is 1 then.
"""
import base64, json, os, re, socket, subprocess, sys, tempfile, threading, time
import opcua, usage
from opcua import Client, int32, node, value_at

usage.shown(__doc__, 1)
from network_line import Line, status
from running import NOW, free_port, listens

here = os.path.dirname(os.path.abspath(__file__))
program = os.path.abspath(sys.argv[1])
folder = tempfile.TemporaryDirectory()
T, NONE = node("T", 1), node("nobody", 1)
TIME = r"\d{4}-\d\d-\d\dT\d\d:\d\d:\d\d\.\d{7}Z"
HOST = r"127\.0\.0\.1:\d+"
held = []


def tell(is_so, what, seen=""):
    """Prints that something holds, or what was seen where it doesn't."""
    held.append(bool(is_so))
    print(what if is_so else f"OTHERWISE: {what}: {seen}", flush=True)


class Server:
    """A server with a page for browsers, and what it says on standard error."""

    made = 0

    def __init__(self, keys="", log="", tables=""):
        Server.made += 1
        self.number, self.port, self.web, self.said = Server.made, free_port(), free_port(), []
        path = os.path.join(folder.name, f"{Server.made}.toml")
        text = open(os.path.join(here, "settings.toml")).read().replace("127.0.0.1:4840", f"127.0.0.1:{self.port}")
        text = text.replace("00000000-0000-0000-0000-000000000000", "3f2c8a10-5b7e-4d21-9c44-0a1b2c3d4e5f")
        text = text.replace("replica = 1\n", f"replica = {Server.made}\nstore = '{path}.db'\n").replace("anonymous = true\n", f"anonymous = true\n{keys}")
        self.settings = path
        open(path, "w").write(text + f"\n[web]\nlisten = '127.0.0.1:{self.web}'\n" + log + tables)
        self.serve()

    def serve(self):
        """Begins to serve."""
        self.process = subprocess.Popen([program, "serve", "--settings", self.settings], stdin=subprocess.DEVNULL, stderr=subprocess.PIPE, text=True)
        threading.Thread(target=self.read, daemon=True).start()
        assert listens(self.port, self.process) and listens(self.web, self.process), "nobody listens"

    def read(self):
        for line in self.process.stderr:
            self.said.append(line.rstrip("\n"))

    def lines(self, pattern, count=1, most=5):
        """The lines that match, once there are so many, or some seconds are over."""
        until = time.monotonic() + most
        while True:
            found = [line for line in self.said if re.fullmatch(pattern, line)]
            if len(found) >= count or time.monotonic() > until:
                return found
            time.sleep(0.02)

    def started(self, clients, records="0 records"):
        """Whether the first line of an event tells that it began, with these addresses of clients and peers, and so many records."""
        text = re.escape(f"replica {self.number}; {clients}, browsers at 127.0.0.1:{self.web}; {records}")
        line = rf"uahist: {TIME} started: version \d+\.\d+\.\d+, archive 3f2c8a10-5b7e-4d21-9c44-0a1b2c3d4e5f, {text}"
        return self.lines(line) and re.fullmatch(line, next(said for said in self.said if re.match(f"uahist: {TIME} ", said)))

    def session(self):
        """A client's connection with a session that nobody activated."""
        line = Line(self.port)
        assert line.ask(line.client.hello())[:4] == b"ACKF" and line.ask(line.client.open())[:4] == b"OPNF"
        assert status(line.ask(line.client.create_session())) == 0
        return line

    def login(self, user="ann", password=b"pw"):
        """The status of an activation, and how long its answer took."""
        line = self.session()
        begin = time.monotonic()
        state = status(line.ask(line.client.activate(user, password)))
        return line, state, time.monotonic() - begin

    def answer(self, path="/", user=None, password=""):
        """What a browser is answered."""
        with socket.create_connection(("127.0.0.1", self.web), timeout=10) as line:
            given = "" if user is None else "Authorization: Basic " + base64.b64encode(f"{user}:{password}".encode()).decode() + "\r\n"
            line.sendall(f"GET {path} HTTP/1.1\r\nHost: x\r\n{given}\r\n".encode())
            came = b""
            while more := line.recv(65536):
                came += more
        return came

    def page(self, user=None, password=""):
        """The status of the first page, and how long it took."""
        begin = time.monotonic()
        return int(self.answer("/", user, password).split()[1]), time.monotonic() - begin

    def peers(self, is_so=lambda peers: True, most=5):
        """What the status tells of the peers, once that is so, or some seconds are over."""
        until = time.monotonic() + most
        while True:
            peers = json.loads(self.answer("/status.json").split(b"\r\n\r\n", 1)[1])["peers"]
            if is_so(peers) or time.monotonic() > until:
                return peers
            time.sleep(0.05)


def shows_events():
    server = Server(log="\n[log]\nevents = true\n")
    tell(server.started(f"clients and peers at 127.0.0.1:{server.port}"), "that the server begins is told first, with what it serves, and where", server.said)
    line, state, _ = server.login()
    said = server.lines(f"uahist: {TIME} {HOST} connected to clients and peers")
    tell(said, "that a client connects is told", server.said)
    tell(state == 0 and server.lines(f'uahist: {TIME} {HOST} logged in as "ann"'), "and that it logs in", server.said)
    now = opcua.EPOCH + 10**15
    details = opcua.extension(682, T + opcua.u32(1) + opcua.array([value_at(int32(n), now + n) for n in range(3)]))
    line.ask(line.client.history_update([details]))
    tell(server.lines(f'uahist: {TIME} {HOST} as "ann" asked to insert 3 values of ns=1;s=T: Good'), "and what it writes", server.said)
    line.ask(line.client.history_update([details, opcua.extension(682, NONE + opcua.u32(2) + opcua.array([value_at(int32(1), now)]))]))
    tell(server.lines(f'uahist: {TIME} {HOST} as "ann" asked to insert 3 values of ns=1;s=T: 80.{{6}}'), "each of the details has a line with its worst status", server.said)
    tell(server.lines(f'uahist: {TIME} {HOST} as "ann" asked to replace 0 values of another node: 80340000'), "a node that isn't there isn't named", server.said)
    line.socket.close()
    tell(server.lines(f"uahist: {TIME} {HOST} ended after \\d+ ms and \\d+ answers: the (client|other end) hung up"), "and that it goes", server.said)
    wrong, state, _ = server.login(password=b"no")
    tell(state != 0 and server.lines(f'uahist: {TIME} {HOST} was refused as "ann": 80.{{6}}'), "a refused login is told with its name", server.said)
    tell(not [l for l in server.said if "pw" in l or '"no"' in l], "no line has a password", server.said)
    strange, state, _ = server.login(user="a\nuahist: \u202e\x1b[2Jb")
    tell(server.lines(f'uahist: {TIME} {HOST} was refused as "a\\\\u{{a}}uahist: \\\\u{{202e}}\\\\u{{1b}}\\[2Jb": 80.{{6}}'), "a name stays one line, and steers no terminal", server.said)
    with socket.create_connection(("127.0.0.1", server.port)) as line:
        line.sendall(b"GET / HTTP/1.1\r\n\r\n")
        line.recv(100)
    tell(server.lines(f"uahist: {TIME} {HOST} ended after \\d+ ms and 1 answer: refused by 807E0000"), "first letters that are none are told by the code", server.said)
    tell(server.page("ann", "wrong")[0] == 401 and server.lines(f"uahist: {TIME} {HOST} was refused as a browser: no such user or password"), "a browser's wrong password is told", server.said)
    tell(server.page()[0] == 200 and server.lines(f"uahist: {TIME} {HOST} connected to browsers"), "a browser is told as one", server.said)
    before = len(server.said)
    for _ in range(300):
        socket.create_connection(("127.0.0.1", server.port)).close()
    time.sleep(1.5)
    server.page()
    time.sleep(0.3)
    told = len(server.said) - before
    tell(told < 320 and server.lines(r"uahist: \d+ events more weren't told"), "of six hundred lines of strangers some are counted", (told, server.said[-3:]))
    server.process.kill()
    server.process.wait()
    server.said = []
    server.serve()
    tell(server.started(f"clients and peers at 127.0.0.1:{server.port}", "3 records"), "begun again it tells how many records it holds", server.said)
    server.process.kill()


def shows_calls():
    table = "\n[log]\nevents = true\n"
    one = Server(log=table)
    two = Server(log=table, tables=f"\n[[peer]]\naddress = '127.0.0.1:{one.port}'\nevery = 1\n[[peer]]\naddress = '127.0.0.2:9'\nevery = 86400\n")
    tell(one.peers() == [], "the status of one that calls nobody tells of no peer", one.peers())
    peers = two.peers(lambda peers: peers[0]["last"] and peers[1]["last"])
    tell([peer["address"] for peer in peers] == [f"127.0.0.1:{one.port}", "127.0.0.2:9"], "that of one that calls two tells of both", peers)
    last = peers[0]["last"] or {}
    tell(re.fullmatch(TIME, last.get("ended", "")) and last["fault"] is None, "a call that came to its end is told with its time", peers)
    other = peers[1]["last"] or {}
    tell(re.fullmatch(r"connection ended \(\d\)", other.get("fault", "")), "and one that nobody took with its fault", peers)
    line, _, _ = one.login()
    details = opcua.extension(682, T + opcua.u32(1) + opcua.array([value_at(int32(1), opcua.EPOCH + 10**15)]))
    line.ask(line.client.history_update([details]))
    called = f"uahist: {TIME} peer 127\\.0\\.0\\.1:{one.port} called: all was exchanged \\(learned 1, sent 0\\)"
    tell(two.lines(called), "the one that calls tells what was exchanged", two.said)
    tell(one.lines(f"uahist: {TIME} {HOST} ended after \\d+ ms and \\d+ answers?: all was exchanged \\(learned 0, sent 1\\)"), "and so does the one that is called", one.said)
    page = two.answer().decode()
    tell(re.search(f"<tr><td>127\\.0\\.0\\.1:{one.port}</td><td>{TIME}</td><td>all was exchanged</td><td>\\d</td><td>0</td></tr>", page), "the first page tells the last calls, too", page[-900:])
    one.process.kill()
    peers = two.peers(lambda peers: peers[0]["last"]["fault"])
    tell(re.fullmatch(r"connection ended \(\d\)", peers[0]["last"]["fault"] or "") and peers[0]["last"]["ended"] > last["ended"] and peers[1]["last"] == other, "that the other machine is gone is told within a call, and all else stays", peers)
    tell(two.lines(f"uahist: {TIME} peer 127\\.0\\.0\\.1:{one.port} called: connection ended \\(\\d\\) \\(learned 0, sent 0\\)"), "a call that can't be had is told", two.said)
    two.process.kill()
    door = free_port()
    three = Server(log=table, tables=f"\n[door]\nlisten = '127.0.0.1:{door}'\n")
    tell(three.started(f"clients at 127.0.0.1:{three.port}, peers at 127.0.0.1:{door}"), "a door of its own is told at the begin", three.said)
    three.process.kill()


def shows_silence():
    server = Server()
    line, state, _ = server.login(password=b"no")
    server.page("ann", "wrong")
    line.socket.close()
    time.sleep(0.5)
    tell(not server.said, "without the key nothing of it is told", server.said)
    times = [server.login(password=b"no")[2] for _ in range(6)]
    tell(max(times) < 0.5, "and no login waits", times)
    server.process.kill()


def shows_waiting():
    server = Server(keys="logins = 3\n")
    times = [server.login(password=b"no")[2] for _ in range(3)]
    tell(max(times) < 0.5, "three refused logins are answered at once", times)
    line, state, took = server.login(password=b"no")
    tell(0.9 < took < 2, "the fourth is answered a second later", took)
    line, state, took = server.login()
    tell(state == 0 and 0.9 < took < 2, "and so is a right one", took)
    begin = time.monotonic()
    told = line.ask(line.client.read([(T, 13)]))
    tell(time.monotonic() - begin < 0.5, "who is in isn't kept waiting", time.monotonic() - begin)
    tell(server.page()[1] > 0.9, "a browser from there waits too", "")
    waiting = threading.Thread(target=lambda: server.login(password=b"no"))
    waiting.start()
    time.sleep(0.1)
    begin = time.monotonic()
    line.ask(line.client.read([(T, 13)]))
    tell(time.monotonic() - begin < 0.5, "nobody waits for the one that waits", time.monotonic() - begin)
    waiting.join()
    server.process.kill()
    server = Server(keys="logins = 3\n")
    for _ in range(3):
        server.page("ann", "wrong")
    state, took = server.page("ann", "pw")
    tell(state == 200 and 0.9 < took < 2, "behind three wrong passwords of browsers a right one waits", (state, took))
    server.process.kill()


for shows in (shows_events, shows_calls, shows_silence, shows_waiting):
    shows()
print(f"{sum(held)} things held, {len(held) - sum(held)} were otherwise")
sys.exit(0 if all(held) else 1)
