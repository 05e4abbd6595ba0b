#!/usr/bin/env python3
"""Shows how the built program answers browsers, beside its clients and peers.

    tests/browsed.py PROGRAM [CHECK ..]

Servers are started with a `[web]`: pages are asked for by hand and by Chromium, without a window, by users with and without a
name, with requests that are wrong, cut, slow, too many or too long; what a page and the CSV show is compared with what
`uahist history` prints of the same store, and meanwhile OPC UA clients are answered. Each line tells what held, or what was otherwise;
the exit status is 1 then. All checks are run where none is named. Where the variable PICTURES names a folder, pictures of the
pages are left there.
"""
import base64, http.client, json, os, re, shutil, signal, socket, subprocess, sys, tempfile, threading, time, urllib.parse
import history, opcua, paged, running, usage
from network_line import Line, status
from printed import moment
from running import NOW, free_port, listens, run

usage.shown(__doc__, 1)
here = os.path.dirname(os.path.abspath(__file__))
program = os.path.abspath(sys.argv[1])
folder = tempfile.TemporaryDirectory()
ARCHIVE = "3f2c8a10-5b7e-4d21-9c44-0a1b2c3d4e5f"
NAMES = {"T": "Temperature", "U": "<b>\"U\" & 'V'</b>", "L": "List", "P&Q=1": "Pressure"}
SETTINGS = """[archive]
id = "{archive}"
replica = 1
store = '{store}'
[server]
listen = "127.0.0.1:{port}"
url = "opc.tcp://localhost:{port}"
application = "urn:uahist"
namespace = "urn:uahist:archive"
anonymous = {anonymous}
[web]
listen = "127.0.0.1:{web}"
{keys}[[user]]
name = "ann"
password = "pw: ä"
[[user]]
name = "ben"
password = "only reads"
access = "read"
[[folder]]
id = "line"
name = "Line 1"
[[variable]]
id = "T"
name = "Temperature"
type = "Double"
folder = "line"
[[variable]]
id = "U"
name = '''<b>"U" & 'V'</b>'''
type = "String"
[[variable]]
id = "L"
name = "List"
type = "Int32"
array = true
[[variable]]
id = "P&Q=1"
name = "Pressure"
type = "Int32"
"""
held = []


def tell(is_so, what, seen=""):
    """Prints that something holds, or what was seen where it doesn't."""
    held.append(bool(is_so))
    print(what if is_so else f"OTHERWISE: {what}: {seen}", flush=True)


class Server:
    """A replica with a store, and a page at an address of its own."""

    made = []

    def __init__(self, anonymous="true", keys=""):
        Server.made.append(self)
        self.port, self.web = free_port(), free_port()
        self.settings, self.store = (os.path.join(folder.name, f"{len(Server.made)}.{end}") for end in ("toml", "db"))
        open(self.settings, "w").write(SETTINGS.format(archive=ARCHIVE, store=self.store, port=self.port, web=self.web, anonymous=anonymous, keys=keys))

    def start(self):
        self.said = open(self.settings + ".said", "w+")
        self.process = subprocess.Popen([program, "serve", "--settings", self.settings], stdout=subprocess.DEVNULL, stderr=self.said)
        if not listens(self.web, self.process, 120):
            sys.exit(f"the server did not begin: {open(self.settings + '.said').read()}")
        return self

    def stop(self):
        self.process.send_signal(signal.SIGTERM)
        self.process.wait()

    def bring(self, lines, perform="insert"):
        """Brings rows while the server is stopped."""
        text = "node,time,value,status\n" + "".join(line + "\n" for line in lines)
        done = run([program, "import", "--settings", self.settings, "--user", "ann", "--perform", perform], text.encode(), 1200)
        if done.status != 0:
            sys.exit(f"rows were refused: {done.said[:500]}")

    def history(self, name, *words):
        """What `uahist history` prints while the server is stopped."""
        return run([program, "history", "--settings", self.settings, "--node", f"ns=1;s={name}", *words], most=1200)

    def ask(self, path, method="GET", user=None, fields=None):
        """An answer: its status, its fields and its body; where it isn't whole, what came of it, behind the status None."""
        link = http.client.HTTPConnection("127.0.0.1", self.web, timeout=60)
        name = {} if user is None else {"Authorization": "Basic " + base64.b64encode(user.encode()).decode()}
        try:
            link.request(method, path, headers={**name, **(fields or {})})
            answer = link.getresponse()
            return answer.status, dict(answer.getheaders()), answer.read()
        except http.client.IncompleteRead as cut:
            return None, {}, cut.partial
        finally:
            link.close()

    def say(self, data, most=20):
        """All that comes behind some bytes, to the end."""
        with socket.create_connection(("127.0.0.1", self.web), timeout=most) as link:
            link.sendall(data)
            got = b""
            try:
                while piece := link.recv(65536):
                    got += piece
            except (TimeoutError, ConnectionError):
                return got + b"(not closed)"
            return got

    def address(self, path):
        return f"http://127.0.0.1:{self.web}{path}"


def asking(name, **more):
    """The path of a history."""
    return "/history" + more.pop("end", "") + "?" + urllib.parse.urlencode({"node": f"ns=1;s={name}", **more})


def day(count=1_440, step=600_000_000):
    """Rows of a day of T."""
    return [f"ns=1;s=T,{moment(NOW + place * step)},{(place * 37) % 101 / 2.0},Good" for place in range(count)]


def pages_of(server, path):
    """The pages from this one on, each the next one's link of the one before, as Chromium shows them."""
    pages = []
    while path and len(pages) < 50:
        text = dom(server.address(path))
        pages.append(paged.Page(text))
        found = re.search(r'<a href="(/history[^"]*)">Next page</a>', text)
        path = found and found[1].replace("&amp;", "&")
    return pages


def dom(address):
    """What Chromium makes of the page at an address."""
    return browse(address, "--dump-dom")


def read_by_client(server, name, start, end):
    """The time and the number of each value that an OPC UA client is answered of a variable, from one time to before another."""
    line = Line(server.port)
    client = line.client
    line.ask(client.hello()), line.ask(client.open())
    for sent in (client.create_session(), client.activate("ben", b"only reads")):
        if status(line.ask(sent)):
            sys.exit("no session was activated")
    page = history.results(line.ask(client.history_read([opcua.node(name, 1)], start, end)), history.read_values)[0]
    return [(time_, value) for time_, value, _ in page]


def browse(address, *flags):
    """What Chromium prints of an address."""
    words = [paged.BROWSER, "--headless", "--no-sandbox", "--disable-gpu", "--no-first-run", f"--user-data-dir={folder.name}/profile", *flags, address]
    return subprocess.run(words, stdout=subprocess.PIPE, stderr=subprocess.DEVNULL, timeout=120).stdout.decode()


def picture(server, path, name, size="900,700"):
    place = os.environ.get("PICTURES")
    if place:
        browse(server.address(path), "--hide-scrollbars", f"--window-size={size}", f"--screenshot={os.path.join(os.path.abspath(place), name)}.png")


def front():
    """The first page, its variables with their last values, and what its head says."""
    server = Server()
    server.bring(day(10) + [f"ns=1;s=U,{moment(NOW)},<i>x</i>,Good", f"ns=1;s=P&Q=1,{moment(NOW)},-7,Good", f'ns=1;s=L,{moment(NOW)},"[1,-2]",Good'])
    server.start()
    status, fields, body = server.ask("/")
    tell(status == 200 and fields["Content-Type"] == "text/html; charset=utf-8" and int(fields["Content-Length"]) == len(body), "the first page is HTML of the length that its head tells", (status, fields))
    guards = ("Content-Security-Policy", "X-Frame-Options", "X-Content-Type-Options", "Cache-Control")
    tell(all(name in fields for name in guards) and b"<script" not in body, "it forbids scripts and framing, and has none", fields)
    page = paged.Page(dom(server.address("/")))
    shown = {row[1]: row for row in page.rows[1:]}
    tell(set(shown) == set(NAMES.values()), "Chromium shows each variable by its name, tags as text", list(shown))
    last = NOW + 9 * 600_000_000
    days = (time.time() - (last - 116_444_736_000_000_000) / 10_000_000) // 86_400
    tell(shown["Temperature"][0] == "Line 1" and shown["Temperature"][4:7] == [day(10)[-1].split(",")[2], "Good", moment(last)], "with its folder, its last value, status and time", shown["Temperature"])
    tell(shown["Temperature"][7] in (f"{days - 1:.0f} d", f"{days:.0f} d"), "and how old that is", (shown["Temperature"], days))
    counted = re.search(rb"<p>(\d+) connections?</p>", body)
    tell(counted and int(counted[1]) >= 1, "it tells how many connections there are", body[:1500])
    tell(shown[NAMES["U"]][4] == "<i>x</i>" and not page.tags & {"i", "b", "script"}, "values with tags are text", shown[NAMES["U"]])
    tell(shown["List"][4] == "[1,-2]", "an array is a JSON array", shown["List"])
    status, fields, body = server.ask(asking("L"))
    tell(status == 200 and b"[1,-2]" in body, "and so it is in its history", (status, body[-300:]))
    links = re.findall(r'<a href="([^"]*)"', dom(server.address("/")))
    asked = [server.ask(link.replace("&amp;", "&"))[0] for link in links]
    tell(len(links) == 4 and asked == [200] * 4 or asked == [200, 200, 200, 200], "its links lead to the histories", (links, asked))
    status, fields, body = server.ask("/", "HEAD")
    tell(status == 200 and body == b"" and int(fields["Content-Length"]) > 0, "HEAD gets the head alone", (status, fields))
    status, fields, body = server.ask("/status.json")
    told = json.loads(body)
    tell(status == 200 and fields["Content-Type"] == "application/json" and told["archive"] == ARCHIVE and told["replica"] == 1 and told["connections"] >= 1 and told["records"] == {"1": 13} and told["peers"] == [], "/status.json tells the archive, the replica, its connections, its records and that no peer is called", told)
    picture(server, "/", "front", "1200,560")
    server.stop()


def users():
    """Who is let in."""
    server = Server(anonymous="false").start()
    asked = [server.ask("/", user=user)[0] for user in (None, "ann:pw: ä", "ben:only reads", "ann:pw", "cid:", "ann", ":")]
    tell(asked == [401, 200, 200, 401, 401, 401, 401], "where a name is wanted, a user of the settings is let in by the password, and nobody else", asked)
    status, fields, body = server.ask("/history.csv?node=ns%3D1%3Bs%3DT")
    tell(status == 401 and "Basic" in fields["WWW-Authenticate"] and b"ns=1" not in body, "the others are asked for one, and see nothing", (status, fields))
    wrong = server.say(b"GET / HTTP/1.1\r\nHost: a\r\nAuthorization: Basic " + base64.b64encode(b"\xff:pw") + b"\r\n\r\n")
    tell(wrong.startswith(b"HTTP/1.1 401 "), "a name that is no UTF-8 is nobody's", wrong[:60])
    server.stop()
    server = Server(anonymous="true").start()
    asked = [server.ask("/", user=user)[0] for user in (None, "ann:pw: ä", "ann:pw")]
    tell(asked == [200, 200, 401], "where none is wanted, a name with a wrong password isn't let in", asked)
    server.stop()


REFUSED = [
    (b"GET / HTTP/1.1\r\n\r\n", b"400 "), (b"GET / HTTP/1.1\r\nHost: a\r\nHost: b\r\n\r\n", b"400 "), (b"HELF\x38\0\0\0\0\0\0\0\r\n", b"400 "),
    (b"RXVF\r\n\r\n", b"400 "), (b"GET /\r\n\r\n", b"400 "), (b"\x16\x03\x01\x02\0\x01\0\x01\xfc", b"400 "),
    (b"POST / HTTP/1.1\r\nHost: a\r\n\r\n", b"405 "), (b"PUT /history HTTP/1.1\r\nHost: a\r\nContent-Length: 3\r\n\r\nabc", b"405 "),
    (b"GET / HTTP/1.1\r\nHost: a\r\nContent-Length: 3\r\n\r\nabc", b"413 "), (b"GET / HTTP/1.1\r\nHost: a\r\nTransfer-Encoding: chunked\r\n\r\n0\r\n\r\n", b"413 "),
    (b"GET / HTTP/1.1\r\nHost: a\r\nX: " + b"a" * 17_000 + b"\r\n\r\n", b"431 "), (b"GET / HTTP/1.1\r\nHost: a\r\n" + b"X: 1\r\n" * 70 + b"\r\n", b"431 "),
    (b"GET /other HTTP/1.1\r\nHost: a\r\n\r\n", b"404 "), (b"GET /../etc/passwd HTTP/1.1\r\nHost: a\r\n\r\n", b"404 "),
    (b"GET /history HTTP/1.1\r\nHost: a\r\n\r\n", b"400 "), (b"GET /history?node=x HTTP/1.1\r\nHost: a\r\n\r\n", b"400 "),
    (b"GET /history?node=i%3D1 HTTP/1.1\r\nHost: a\r\n\r\n", b"404 "), (b"GET /history.csv?node=ns%3D1%3Bs%3Dnone HTTP/1.1\r\nHost: a\r\n\r\n", b"404 "),
    (b"GET /history?node=ns%3D1%3Bs%3DT&from=soon HTTP/1.1\r\nHost: a\r\n\r\n", b"400 "), (b"GET /history?node=ns%3D1%3Bs%3DT&changes=2 HTTP/1.1\r\nHost: a\r\n\r\n", b"400 "),
    (b"GET /history?node=ns%3D1%3Bs%3DT&to=1&to=2 HTTP/1.1\r\nHost: a\r\n\r\n", b"400 "), (b"GET /?x=1 HTTP/1.1\r\nHost: a\r\n\r\n", b"400 "),
]


def refused():
    """Wrong requests."""
    server = Server().start()
    for data, status in REFUSED:
        got = server.say(data)
        tell(got.startswith(b"HTTP/1.1 " + status) and (b"xpected" in got or b"There is no" in got), f"{data[:60]!r}: {status.decode()}", got[:200])
    whole = server.say(b"GET / HTTP/1.0\r\n\r\n")
    tell(b" 200 OK\r\n" in whole[:20], "HTTP/1.0 is answered", whole[:100])
    got = server.say(b"GET / HTTP/1.1\r\nHost: a\r\n", most=2)
    tell(got == b"(not closed)", "a head that is cut is waited for", got)
    server.stop()


def values():
    """Pages of values and of modifications beside what `uahist history` prints."""
    server = Server()
    server.bring(day())
    server.bring(day()[600:660], "update")
    server.bring([row.replace("Good", "Good") for row in day()[600:603]], "replace")
    told = {changes: paged.rows_of(server.history("T", "--csv", *(["--changes"] if changes else [])).out.decode())[1:] for changes in (False, True)}
    server.start()
    for changes in (False, True):
        pages = pages_of(server, asking("T", **({"changes": "true"} if changes else {})))
        rows = [row for page in pages for row in page.rows[1:]]
        tell(rows == [row[1:] for row in told[changes]], f"{len(pages)} pages show the {len(rows)} {'modifications' if changes else 'values'} that `uahist history` prints", (rows[:2], told[changes][:2], len(rows)))
        tell(all(len(page.rows) <= 501 for page in pages) and len(pages) == -(-len(rows) // 500), "none has more than 500 rows", [len(page.rows) for page in pages])
    page = pages_of(server, asking("T"))[0]
    rows = [(paged.ticks(row[0]), float(row[1])) for row in page.rows[1:]]
    tell(rows == read_by_client(server, "T", NOW, NOW + 500 * 600_000_000), "the first page's values are those that an OPC UA client is answered by HistoryRead", rows[:2])
    page = pages_of(server, asking("T", **{"from": told[False][500][1], "to": told[False][700][1]}))[0]
    seen, times = told[False][500:700], {row[1] for row in told[False][600:660]}
    tell((page.paths, page.edges) == paged.drawing(seen), "a page's trend is that of its values", page.edges)
    tell(page.marks == paged.marking(seen, times) and page.marks, "the hour that was corrected is marked", page.marks)
    picture(server, asking("T", **{"from": told[False][500][1], "to": told[False][700][1]}), "history")
    picture(server, asking("T", **{"from": told[False][600][1], "to": told[False][660][1], "changes": "true"}), "changes")
    for changes in (False, True):
        path = asking("T", end=".csv", **({"changes": "true"} if changes else {}))
        status, fields, body = server.ask(path)
        tell(status == 200 and paged.rows_of(body.decode())[1:] == told[changes], "the CSV is that of `uahist history`", body[:200])
    status, fields, body = server.ask(asking("L", end=".csv"))
    tell(status == 200 and body.count(b"\n") == 1, "of a variable without values it is the header alone", body)
    server.stop()


def long():
    """A long history goes out in portions, while clients are answered."""
    server = Server()
    count = 200_000
    server.bring(day(count, 10_000_000))
    plain = server.history("T", "--csv").out
    server.start()
    before = running.peak(server.process.pid)
    got = {}
    asked = threading.Thread(target=lambda: got.update(csv=server.ask(asking("T", end=".csv"))))
    asked.start()
    waits = clients_wait(server, lambda: asked.is_alive())
    asked.join()
    status, fields, body = got["csv"]
    tell(body == plain, f"{count} rows of CSV are those of `uahist history`", (len(body), len(plain)))
    tell(len(waits) > 5 and max(waits) < 0.1, f"meanwhile {len(waits)} clients were answered within 100 ms each", max(waits, default=None))
    grown = running.peak(server.process.pid) - before
    tell(grown < 16_384, "and the program took less than 16 MB more", grown)
    with socket.create_connection(("127.0.0.1", server.web)) as link:
        link.sendall(f"GET {asking('T', end='.csv')} HTTP/1.1\r\nHost: a\r\n\r\n".encode())
        time.sleep(0.5)
        waits = clients_wait(server, None, 20)
    tell(max(waits) < 0.1, "who reads nothing of it holds up nobody", max(waits))
    tell(server.ask("/")[0] == 200, "who goes in its midst leaves a server that answers")
    ask = threading.Barrier(10)
    pollers = [threading.Thread(target=lambda: (ask.wait(), [server.ask(asking("T")) for _ in range(5)])) for _ in range(10)]
    for poller in pollers:
        poller.start()
    waits = clients_wait(server, lambda: any(poller.is_alive() for poller in pollers))
    tell(len(waits) > 5 and max(waits) < 0.25, f"while ten browsers poll, {len(waits)} clients were answered within 250 ms each (the longest: {max(waits) * 1000:.0f} ms)", max(waits))
    server.stop()


def clients_wait(server, goes_on, count=1_000_000):
    """How long each of some clients waited for an answer, one behind the other."""
    waits = []
    while count and (goes_on is None or goes_on()):
        begin = time.monotonic()
        with socket.create_connection(("127.0.0.1", server.port)) as link:
            link.sendall(opcua.Client().hello())
            if not link.recv(100).startswith(b"ACKF"):
                sys.exit("a client wasn't answered")
        waits.append(time.monotonic() - begin)
        count -= 1
        time.sleep(0.01)
    return waits


def crowd():
    """No more browsers at a time than the settings say, and clients are answered."""
    server = Server(keys="connections = 2\n").start()
    idle = [socket.create_connection(("127.0.0.1", server.web)) for _ in range(2)]
    time.sleep(1)
    third = socket.create_connection(("127.0.0.1", server.web), timeout=2)
    third.sendall(b"GET / HTTP/1.1\r\nHost: a\r\n\r\n")
    try:
        came = third.recv(10)
    except TimeoutError:
        came = None
    tell(came is None, "a third browser waits where two are taken at a time", came)
    waits = clients_wait(server, None, 20)
    tell(max(waits) < 0.1, "clients don't wait for browsers", max(waits))
    idle[0].close()
    third.settimeout(10)
    begin = time.monotonic()
    came = third.recv(10)
    tell(came.startswith(b"HTTP/1.1"), f"it is answered once one went ({time.monotonic() - begin:.1f} s)", came)
    for link in (*idle, third):
        link.close()
    server.stop()


CHECKS = {check.__name__: check for check in (front, users, refused, values, long, crowd)}


def main():
    if paged.BROWSER is None:
        sys.exit("there is no Chromium: apt install chromium")
    for name in sys.argv[2:] or CHECKS:
        CHECKS[name]()
    print(f"{len(held)} things held" if all(held) else f"{held.count(False)} of {len(held)} were otherwise")
    sys.exit(0 if all(held) else 1)


if __name__ == "__main__":
    main()
