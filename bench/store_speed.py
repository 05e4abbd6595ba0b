#!/usr/bin/env python3
"""Measures the built program over a store on disk, and beside it the C library by its shell, with the same tables and transactions.

    bench/store_speed.py PROGRAM [RECORDS ..]

For each number of records (10,000 and 100,000 where none is given): they are inserted, a hundred a request and a commit each;
the store is opened and dumped; pages of 1,000 raw values and of 1,000 modifications are read from its middle, a thousand of
each; and the store is sent to an empty one. As many are inserted into an archive in memory. Prints a table: seconds, and seconds of a processor, of each.
The shell inserts as many, each in one transaction of three statements, into a file and in memory, and reads the same page. Needs sqlite3.
"""
import os, shutil, socket, subprocess, sys, tempfile, time

top = os.path.dirname(os.path.dirname(os.path.abspath(__file__)))
sys.path[1:1] = [os.path.join(top, "tests"), os.path.join(top, "tools")]
import opcua
from opcua import Client, int32, node, value_at

program = os.path.abspath(sys.argv[1])
folder = tempfile.mkdtemp()
tag, first = node("T", 1), opcua.EPOCH
PAGES = 1000


def settings(name, replica, stored=True):
    """The settings of a replica with a store of its own, or none, at a port that is free."""
    with socket.socket() as probe:
        probe.bind(("127.0.0.1", 0))
        port = probe.getsockname()[1]
    text = open(os.path.join(top, "tests", "settings.toml")).read().replace("127.0.0.1:4840", f"127.0.0.1:{port}").replace("replica = 1", f"replica = {replica}")
    path = os.path.join(folder, f"{name}.toml")
    open(path, "w").write(text.replace("[server]", f"store = '{os.path.join(folder, name)}.db'\n[server]", 1) if stored else text)
    return path, port


def measured(command, stdin=b""):
    """Seconds, and seconds of a processor, of a command."""
    with tempfile.TemporaryFile(dir=folder) as given:
        given.write(stdin)
        given.seek(0)
        begin = time.monotonic()
        child = subprocess.Popen(command, stdin=given, stdout=subprocess.DEVNULL)
        _, status, used = os.wait4(child.pid, 0)
    assert status == 0, command
    return time.monotonic() - begin, used.ru_utime + used.ru_stime


def session(requests):
    """A client's stream: its session, and these requests."""
    client = Client()
    head = client.hello() + client.open() + client.create_session() + client.activate()
    return head + b"".join(request(client) for request in requests) + client.close_session()


def show(what, seconds, used, each=1):
    print(f"| {what} | {seconds / each:.3g} | {used / each:.3g} |", flush=True)


def less(of, start):
    """What a run took beyond a start."""
    return of[0] - start[0], of[1] - start[1]


def of_shell(count):
    """The shell's inserts, and its pages."""
    store = os.path.join(folder, f"shell-{count}.db")
    tables = open(os.path.join(top, "docs", "FORMATS.md")).read().split("```sql\n")[1].split("```")[0]
    made = "".join(table.strip() + ";\n" for table in tables.strip().replace("\nCREATE", "\x00CREATE").split("\x00"))
    rows = []
    for k in range(count):
        key = f"x'0301000100000054', {first + k}, 0"
        rows.append(f"BEGIN; INSERT INTO records2 VALUES (1, {k + 1}, {first + k}, {key}, 1, x'616e6e', x'0106{k:08x}'); INSERT OR REPLACE INTO currents2 VALUES ({key}, {first + k}, 1, 1, 0, x'0106{k:08x}'); "
                    f"INSERT OR REPLACE INTO vectors VALUES (1, {k + 1}, {first + k}); COMMIT;\n")
    begin = f"PRAGMA page_size = 1024; PRAGMA journal_mode = WAL; PRAGMA synchronous = FULL;\n{made}"
    show(f"{count:,} inserts by the shell", *measured(["sqlite3", store], (begin + "".join(rows)).encode()))
    show(f"{count:,} inserts in memory by the shell", *measured(["sqlite3", ":memory:"], (made + "".join(rows)).encode()))
    page = f"SELECT time, pico, extra, value FROM currents2 WHERE node = x'0301000100000054' AND time >= {first + count // 2} AND time <= {first + count // 2 + 999} AND live = 1 ORDER BY time, pico LIMIT 1001;\n"
    start = measured(["sqlite3", store], b"SELECT 1;\n")
    show("a page of 1,000 raw values by the shell", *less(measured(["sqlite3", store], (page * PAGES).encode()), start), PAGES)


def of_program(count):
    name = f"store-{count}"
    path, port = settings(name, 1)
    answer = [program, "answer", "--settings", path]
    inserts = session([lambda c, k=k: c.update(tag, 3, [value_at(int32(j), first + 100 * k + j) for j in range(100)]) for k in range(count // 100)])
    show(f"{count:,} inserts", *measured(answer, inserts))
    show(f"{count:,} inserts in memory", *measured([program, "answer", "--settings", settings(f"memory-{count}", 1, stored=False)[0]], inserts))
    start = measured(answer)
    show(f"an opening of {count:,} records", *start)
    show(f"a dump of {count:,} records, with its opening", *measured([program, "dump", "--settings", path]))
    near = first + count // 2
    for what, modified in (("raw values", False), ("modifications", True)):
        pages = session([lambda c: c.history_read([tag], near, near + 1000, modified=modified)] * PAGES)
        show(f"a page of 1,000 {what}, of {count:,}", *less(measured(answer, pages), start), PAGES)
    other, _ = settings(f"other-{count}", 2)
    serving = subprocess.Popen([program, "serve", "--settings", path, "--connections", "1"])
    while f":{port:04X} 00000000:0000 0A" not in open("/proc/net/tcp").read():
        time.sleep(0.01)
    show(f"a `sync` that brings {count:,} records to an empty store", *measured([program, "sync", "--settings", other, "--peer", f"127.0.0.1:{port}"]))
    assert serving.wait() == 0


print("| What | Seconds | of a processor |")
print("|---|---|---|")
for records in [int(word) for word in sys.argv[2:]] or [10_000, 100_000]:
    of_program(records)
    of_shell(records)
shutil.rmtree(folder)
