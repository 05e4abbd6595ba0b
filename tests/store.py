#!/usr/bin/env python3
"""Kills the built program, which serves over a store on disk, at random moments of 1,000 inserts, and looks at what it kept.

    tests/store.py PROGRAM [ROUNDS [SEED]]

In each round a client inserts value after value, and the program is killed (SIGKILL) while it answers. Then `dump` has to
show each insert that was answered Good, in order, and at most one more; and Debian's sqlite3, on a copy of the files, has to
say that the database is whole, with a current value for each record, each at a time of its own, and the last number. In the second half
of the rounds the store has an index of live values; before it the program is killed while it makes that. Then the files' rights are looked at, and that a
store which is gone or empty beside its log is refused. Needs sqlite3. Prints a line a round and a check; the first that fails ends the script by an error.
"""
import os, random, shutil, socket, struct, subprocess, sys, tempfile, threading, time
import usage
from opcua import EPOCH, Client, int32, node, value_at

usage.shown(__doc__, 1)
here = os.path.dirname(os.path.abspath(__file__))
program = os.path.abspath(sys.argv[1])
rounds = int(sys.argv[2]) if len(sys.argv) > 2 else 20
chance = random.Random(int(sys.argv[3]) if len(sys.argv) > 3 else 1)
folder = tempfile.mkdtemp()
settings = os.path.join(folder, "settings.toml")
store = os.path.join(folder, "store.db")
INSERTED, REPLACED = struct.pack("<I", 0x00A20000), struct.pack("<I", 0x00A30000)
MOST = 1000


def free_port():
    with socket.socket() as probe:
        probe.bind(("127.0.0.1", 0))
        return probe.getsockname()[1]


def write_settings(port, indexed=False):
    text = open(os.path.join(here, "settings.toml")).read().replace("127.0.0.1:4840", f"127.0.0.1:{port}")
    index = "index = true\n" if indexed else ""
    open(settings, "w").write(text.replace("[server]", f"store = '{store}'\n{index}[server]", 1))


def connect(port):
    until = time.monotonic() + 60
    while True:
        try:
            return socket.create_connection(("127.0.0.1", port))
        except ConnectionRefusedError:
            assert time.monotonic() < until, "nobody listens"
            time.sleep(0.01)


def connect_probe(port):
    """Waits until somebody listens at the port, and takes no connection of his."""
    until = time.monotonic() + 10
    while f":{port:04X} 00000000:0000 0A" not in open("/proc/net/tcp").read():
        assert time.monotonic() < until, "nobody listens"
        time.sleep(0.005)


def take(line, count):
    taken = b""
    while len(taken) < count:
        more = line.recv(count - len(taken))
        if not more:
            raise ConnectionError
        taken += more
    return taken


def ask(line, sent):
    line.sendall(sent)
    head = take(line, 8)
    return head + take(line, struct.unpack_from("<I", head, 4)[0] - 8)


def inserts(line, first):
    """How many values were inserted, each answered Good, until the program was gone or all were done."""
    client, good = Client(), 0
    try:
        for sent in (client.hello(), client.open(), client.create_session(), client.activate("ann", b"pw")):
            ask(line, sent)
        for k in range(MOST):
            answer = ask(line, client.update(node("T", 1), 1, [value_at(int32(k), first + k)]))
            assert INSERTED in answer, answer.hex()
            good += 1
    except (ConnectionError, OSError):
        pass
    return good


def dumped():
    done = subprocess.run([program, "dump", "--settings", settings], stdout=subprocess.PIPE, text=True, check=True)
    return [line.split() for line in done.stdout.splitlines()]


def of_copy(asked):
    """What sqlite3 says of a copy of the files, which themselves stay as they are."""
    copy = os.path.join(folder, "copy.db")
    for end in ("", "-wal"):
        if os.path.exists(store + end):
            shutil.copyfile(store + end, copy + end)
    said = subprocess.run(["sqlite3", copy, asked], stdout=subprocess.PIPE, text=True, check=True)
    for end in ("", "-wal", "-shm"):
        if os.path.exists(copy + end):
            os.remove(copy + end)
    return said.stdout.split()


def whole():
    return of_copy("PRAGMA integrity_check; SELECT count(*) FROM records2; SELECT count(*) FROM currents2 JOIN records2 USING (node, time, pico, tick, origin, value) WHERE live AND NOT extra; SELECT coalesce(max(number), 0) FROM vectors")


def rounds_of_kills(numbers, indexed):
    before = len(dumped()) if os.path.exists(store) else 0
    for k in numbers:
        port = free_port()
        write_settings(port, indexed)
        server = subprocess.Popen([program, "serve", "--settings", settings, "--connections", "1"], stderr=subprocess.DEVNULL)
        line = connect(port)
        threading.Timer(chance.uniform(0.02, 0.6), server.kill).start()
        good = inserts(line, EPOCH + MOST * k)
        server.wait()
        found = dumped()
        assert [r[:2] for r in found] == [["1", str(n + 1)] for n in range(len(found))], "numbers have gaps"
        assert before + good <= len(found) <= before + good + 1, (before, good, len(found))
        assert whole() == ["ok"] + [str(len(found))] * 3
        print(f"round {k + 1}: {good} inserts answered Good, {len(found) - before} found again, {len(found)} in all", flush=True)
        before = len(found)
    print("nothing that was answered Good is missing", "over an index of live values" if indexed else "")


def has_index():
    return of_copy("SELECT name FROM sqlite_schema WHERE name = 'currents2_live'") == ["currents2_live"]


def fill():
    """Inserts 5,000 values more, so that the index takes a time to be made."""
    port = free_port()
    write_settings(port)
    server = subprocess.Popen([program, "serve", "--settings", settings, "--connections", "1"], stderr=subprocess.DEVNULL)
    with connect(port) as line:
        client = Client()
        for sent in (client.hello(), client.open(), client.create_session(), client.activate("ann", b"pw")):
            ask(line, sent)
        for k in range(0, 5000, 1000):
            answer = ask(line, client.update(node("T", 1), 1, [value_at(int32(n), EPOCH + 10**9 + k + n) for n in range(1000)]))
            assert answer.count(INSERTED) == 1000, answer[:100].hex()
    assert server.wait(30) == 0


def index_of_kills():
    """Kills the program while it makes the index of live values; the one or the other stands then, and the records as they were."""
    fill()
    found, stood, wait = dumped(), 0, 0.01
    for _ in range(rounds):
        subprocess.run(["sqlite3", store, "DROP INDEX IF EXISTS currents2_live"], check=True)
        assert not os.path.exists(store + "-wal"), "sqlite3 left a log"
        write_settings(free_port(), True)
        server = subprocess.Popen([program, "serve", "--settings", settings], stderr=subprocess.DEVNULL)
        while not os.path.exists(store + "-wal"):
            assert server.poll() is None, "it ended by itself"
            time.sleep(0.0005)
        time.sleep(wait * chance.uniform(0.5, 1))
        server.kill()
        server.wait()
        assert whole() == ["ok"] + [str(len(found))] * 3
        is_made = has_index()
        write_settings(free_port())
        assert dumped() == found, "the records changed"
        assert has_index() == is_made, "a dump made the index, or took it out"
        stood += is_made
        wait *= 0.5 if is_made else 2  # so that the kills are about the moment at which it stands
    assert rounds < 10 or 0 < stood < rounds, f"the index stood {stood} times"
    print(f"killed {rounds} times as it began, it had made the index of live values {stood} times; the records were what they were")


def has_page():
    """Whether the log has a page, behind its header and a frame's: an opening may empty it into the database."""
    return os.path.getsize(store + "-wal") >= 32 + 24 + 512


def insert_one(n):
    client = Client()
    sent = client.hello() + client.open() + client.create_session() + client.activate("ann", b"pw")
    sent += client.update(node("T", 1), 1, [value_at(int32(n), EPOCH + 2 * 10**9 + n)]) + client.close_session()
    done = subprocess.run([program, "answer", "--settings", settings], input=sent, stdout=subprocess.PIPE, check=True)
    assert INSERTED in done.stdout, done.stdout[-200:].hex()


def files_alone():
    """The files are their owner's alone, and a store that is gone or empty beside its log is refused."""
    for n in range(3):
        if not has_page():
            insert_one(n)
            dumped()
    assert has_page(), "the log has no page"
    kept = {end: open(store + end, "rb").read() for end in ("", "-wal")}
    found = dumped()
    modes = [f"{os.stat(store + end).st_mode & 0o777:o}" for end in ("", "-wal")]
    assert modes == ["600", "600"], modes
    print("the store and its log are their owner's alone (0600), under the umask 022")
    for what in ("gone", "empty"):
        os.remove(store)
        if what == "empty":
            open(store, "wb").close()
        done = subprocess.run([program, "dump", "--settings", settings], stdout=subprocess.PIPE, stderr=subprocess.PIPE, text=True)
        assert (done.returncode, done.stdout, done.stderr) == (3, "", "uahist: store refused (2)\nuahist: it is gone or empty, and its log has records\n"), done
        assert os.path.exists(store) == (what == "empty") and open(store + "-wal", "rb").read() == kept["-wal"], "a file changed"
        open(store, "wb").write(kept[""])
        print(f"a store that is {what} beside its log is refused (2), the log stays, and the file put back")
    assert dumped() == found
    os.remove(store + "-wal")
    os.remove(store)
    shown = subprocess.run([program, "history", "--settings", settings, "--node", "ns=1;s=T"], stdout=subprocess.PIPE, text=True, check=True).stdout
    assert dumped() == [] and shown.startswith("time ") and shown.count("\n") == 1 and not os.path.exists(store) and not os.path.exists(store + "-wal")
    print("then the same is dumped; where both are gone nothing is printed, and nothing made")
    subprocess.run([program, "answer", "--settings", settings], stdin=subprocess.DEVNULL, stdout=subprocess.DEVNULL, check=True)
    assert dumped() == [] and os.path.exists(store) and os.path.exists(store + "-wal")
    print("a store that is gone with its log is made by what writes, and by no command that only prints")


if __name__ == "__main__":
    os.umask(0o022)
    rounds_of_kills(range(rounds // 2), False)
    index_of_kills()
    rounds_of_kills(range(rounds // 2, rounds), True)
    assert has_index(), "the key made no index"
    write_settings(free_port())
    rounds_of_kills(range(rounds, rounds + 1), False)
    files_alone()
