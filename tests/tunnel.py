#!/usr/bin/env python3
"""Has two machines exchange records through a tunnel by stunnel, with the door at its inner end.

    tests/tunnel.py PROGRAM

PROGRAM is the built uahist. Needs stunnel (Debian's package stunnel4). The settings are those that docs/OPERATIONS.md shows, with other
ports: the first machine's door listens at its own loopback address, the second calls its own end of the tunnel. What goes between both
ends is recorded. Each line that is printed is one thing that held, or begins with OTHERWISE; the status is 1 where one didn't hold.
"""
import os, shutil, socket, subprocess, sys, tempfile, threading, time
import running, usage

usage.shown(__doc__, 1)
here = os.path.dirname(os.path.abspath(__file__))
program = os.path.abspath(sys.argv[1])
folder = tempfile.mkdtemp()
DOOR, OUTER, WIRE, INNER = (running.free_port() for _ in range(4))
SECRET = "machine-2:" + os.urandom(32).hex()
held = []


def tell(holds, what, found=None):
    held.append(bool(holds))
    print(what if holds else f"OTHERWISE {what}: {found}", flush=True)


def path(name):
    return os.path.join(folder, name)


def tunnel(name, secret, *lines):
    """One end of a tunnel, as stunnel's own file of settings has it."""
    with open(path(name + ".psk"), "w", opener=lambda file, flags: os.open(file, flags, 0o600)) as file:
        file.write(secret + "\n")
    with open(path(name + ".conf"), "w") as file:
        file.write("\n".join(["foreground = yes", "pid =", "[uahist]", *lines, "ciphers = PSK", f"PSKsecrets = {path(name)}.psk"]) + "\n")
    return subprocess.Popen(["stunnel", path(name + ".conf")], stdout=subprocess.DEVNULL, stderr=open(path(name + ".log"), "w"))


class Wire:
    """What stands between the two ends of the tunnel: it hands on all that comes, and keeps it."""

    def __init__(self):
        self.seen = bytearray()
        self.listener = socket.create_server(("127.0.0.1", WIRE))
        threading.Thread(target=self.take, daemon=True).start()

    def take(self):
        while True:
            one, _ = self.listener.accept()
            other = socket.create_connection(("127.0.0.1", OUTER))
            for sides in ((one, other), (other, one)):
                threading.Thread(target=self.hand_on, args=sides, daemon=True).start()

    def hand_on(self, source, sink):
        try:
            while piece := source.recv(65536):
                self.seen += piece
                sink.sendall(piece)
            sink.shutdown(socket.SHUT_WR)
        except OSError:
            pass


def settings(number, more):
    """A machine's settings: the sample's, with a store and a port of its own."""
    port = running.free_port()
    text = open(os.path.join(here, "..", "crates", "uahist", "data", "plant.toml")).read()
    text = text.replace("replica = 1\n", f"replica = {number}\nstore = '{folder}/{number}.db'\n", 1).replace("127.0.0.1:4840", f"127.0.0.1:{port}")
    with open(path(f"{number}.toml"), "w") as file:
        file.write(text + more)
    return port


def uahist(*words, given=""):
    done = subprocess.run([program, *words], input=given, stdout=subprocess.PIPE, stderr=subprocess.STDOUT, text=True, timeout=60)
    return done.returncode, done.stdout


def bring(number, time_of, value):
    """A value is written into a machine's store that isn't in use."""
    rows = f"node,time,value,status\nns=1;s=boiler.temperature,{time_of},{value},Good\n"
    return uahist("import", "--settings", path(f"{number}.toml"), "--user", "ann", "-", given=rows)


def values(number):
    _, text = uahist("history", "--settings", path(f"{number}.toml"), "--node", "ns=1;s=boiler.temperature", "--csv")
    return sorted(line.split(",")[2] for line in text.strip().split("\n")[1:])


def call(port):
    return uahist("sync", "--settings", path("2.toml"), "--peer", f"127.0.0.1:{port}")


first_port = settings(1, f"\n[door]\nlisten = '127.0.0.1:{DOOR}'\nfrom = ['127.0.0.1']\n")
second_port = settings(2, f"\n[[peer]]\naddress = '127.0.0.1:{INNER}'\nevery = 1\n")
bring(1, "2026-03-01T04:00:00Z", 71)
bring(2, "2026-03-01T05:00:00Z", 72)
wire = Wire()
ends = [tunnel("first", SECRET, f"accept = 127.0.0.1:{OUTER}", f"connect = 127.0.0.1:{DOOR}"),
        tunnel("second", SECRET, "client = yes", f"accept = 127.0.0.1:{INNER}", f"connect = 127.0.0.1:{WIRE}")]
servers = [subprocess.Popen([program, "serve", "--settings", path("1.toml")], stderr=open(path("1.log"), "w"))]
try:
    assert running.listens(DOOR) and running.listens(OUTER) and running.listens(INNER), open(path("first.log")).read()
    answer = call(INNER)
    tell(answer == (0, "learned 1 sent 1\n"), "a sync through the tunnel brings a record each way", answer)
    tell(call(INNER) == (0, "learned 0 sent 0\n"), "a second one finds nothing that is lacking")
    seen = bytes(wire.seen)
    tell(len(seen) > 500 and b"boiler" not in seen and b"RXV" not in seen and b"ann" not in seen,
         "between its ends neither a node, a user nor a frame can be read", len(seen))
    answer = call(DOOR)
    tell(answer == (0, "learned 0 sent 0\n"), "on the first machine itself the door needs no tunnel: who is there is a peer", answer)
    answer = call(OUTER)
    tell(answer[0] == 1 and "ended (" in answer[1], "who comes to the outer end without a key exchanges nothing: " + answer[1].split("\n")[0], answer)
    other = running.free_port()
    ends.append(tunnel("stranger", "machine-2:" + os.urandom(32).hex(), "client = yes", f"accept = 127.0.0.1:{other}", f"connect = 127.0.0.1:{OUTER}"))
    assert running.listens(other)
    answer = call(other)
    tell(answer[0] == 1 and "ended (" in answer[1], "who has another key exchanges nothing: " + answer[1].split("\n")[0], answer)
    servers.append(subprocess.Popen([program, "serve", "--settings", path("2.toml")], stderr=open(path("2.log"), "w")))
    assert running.listens(second_port)
    uahist("import", "--settings", path("2.toml"), "--server", f"127.0.0.1:{second_port}", "--user", "ann", "-",
           given="node,time,value,status\nns=1;s=boiler.temperature,2026-03-01T06:00:00Z,73,Good\n")
    time.sleep(3)
    ends[1].kill()
    ends[1].wait()
    time.sleep(3)
    ends[1] = tunnel("second", SECRET, "client = yes", f"accept = 127.0.0.1:{INNER}", f"connect = 127.0.0.1:{WIRE}")
    time.sleep(3)
finally:
    for process in servers + ends:
        process.terminate()
        process.wait()
told = open(path("2.log")).read()
tell(values(1) == values(2) == ["71", "72", "73"], "the second one's own calls bring what is written there", (values(1), values(2)))
tell(told.startswith(f"uahist: peer 127.0.0.1:{INNER}: "), "while its end is gone the call that fails is told: "
     + told.split("\n")[0].replace(str(INNER), "4851"), told)
shutil.rmtree(folder)
print(f"{sum(held)} of {len(held)} things held of a tunnel")
sys.exit(0 if all(held) else 1)
