#!/usr/bin/env python3
"""Compares what `uahist import` writes, tells and leaves with a plain model.

    tests/imported.py PROGRAM [ROUNDS [DAYS [HOURS]]]

Each round (20, unless told) makes a store and imports texts of random rows into it, to be inserted, replaced or updated: lawful ones,
such as are there already, and wrong ones of each kind. What is told of them and the exit status have to be the model's, what
`history --csv` prints then what the model holds, and `history --changes` has to name the user. Then so many days (7, unless told)
of twelve variables, a value each hundred seconds, are imported, printed, and imported again: what is printed has to be what was
imported, and the dump the same after the second time. All that holds too of rows that are brought to a server that runs (`--server`),
of so many hours (8, unless told) of twelve variables; and each way in which a server doesn't take them is told. Rows that come from
a file are done as those of standard input, which stays unread then. Exit status 1 where one differs.
"""
import csv, io, os, random, signal, socket, subprocess, sys, tempfile, threading, time
import running, usage
from printed import moment, NOW

DAY = 864_000_000_000
HEAD = "node,time,value,status\n"
SETTINGS = """[archive]
id = '00000000-0000-0000-0000-000000000000'
replica = 1
store = '{store}'
[server]
listen = '127.0.0.1:{port}'
url = 'opc.tcp://localhost:4840'
application = 'urn:uahist'
namespace = 'urn:uahist:archive'
anonymous = false
[[user]]
name = 'ann'
password = 'pw'
[[user]]
name = 'eva'
password = 'pw'
access = 'read'
"""
VARIABLE = "[[variable]]\nid = '{0}'\nname = '{0}'\ntype = '{1}'\narray = {2}\n"
TYPES = {"number": "Double", "whole": "Int32", "flag": "Boolean", "text": "String", "list": "Int32[]", "words": "String[]"}
VALUES = {
    "number": ["0.0", "-1.5", "1e300", "0.1", "inf", "-inf", "5e-324"],
    "whole": ["0", "-5", "2147483647"],
    "flag": ["true", "false"],
    "text": ["a", 'say "hi"', "a,b", "line\nend", "caf\u00e9"],
    "list": ["[]", "[1,-2]", "[2147483647]"],
    "words": ["[]", '["a,b","say \\"hi\\""]', '["caf\u00e9","\\n"]'],
}
# A wrong row's fields, and what is said of it.
WRONG = [
    (["temperature", "@5", "1", ""], "node: expected a node id, as ns=1;s=Temperature or i=2258"),
    (["ns=1;s=none", "@5", "1", ""], "80340000 Bad_NodeIdUnknown"),
    (["ns=1;s=whole", "noon", "1", ""], "time: expected a time, as 2026-03-01T12:00:00.5Z or @134168400000000000"),
    (["ns=1;s=whole", "@5", "five", ""], "value: expected a whole number of the type's range"),
    (["ns=1;s=whole", "@5", "2147483648", ""], "value: expected a whole number of the type's range"),
    (["ns=1;s=flag", "@5", "TRUE", ""], "value: expected true or false"),
    (["ns=1;s=list", "@5", "5", ""], 'value: expected a JSON array of values, as [1, 2] or ["on", "off"]'),
    (["ns=1;s=list", "@5", "[1,]", ""], 'value: expected a JSON array of values, as [1, 2] or ["on", "off"]'),
    (["ns=1;s=list", "@5", "[1,2147483648]", ""], "value: expected a whole number of the type's range"),
    (["ns=1;s=words", "@5", "a", ""], 'value: expected a JSON array of values, as [1, 2] or ["on", "off"]'),
    (["ns=1;s=whole", "@5", "5", "bad"], "status: expected a status code: eight hex digits, or Good, or nothing"),
    (["ns=1;s=whole", "@5", "5"], "expected four fields: node, time, value and status"),
    (["ns=1;s=whole", "@0", "5", ""], "80230000 Bad_InvalidTimestamp"),
]


def rows_of(rows):
    """Rows as a text of CSV."""
    out = io.StringIO(newline="")
    csv.writer(out, lineterminator="\n").writerows(rows)
    return HEAD + out.getvalue()


def summary(counts):
    """The last line that is told."""
    total = sum(counts.values())
    parts = [f"{counts[word]} {word}" for word in ("inserted", "replaced", "exist", "refused") if counts[word]]
    return f"{total} row{'' if total == 1 else 's'}" + (": " + ", ".join(parts) if parts else "") + "\n"


def imported(program, settings, text, user="ann", perform=None, most=600, server=None):
    words = [program, "import", "--settings", settings, "--user", user, *(["--perform", perform] if perform else [])]
    return running.run([*words, *(["--server", server] if server else [])], text.encode(), most)


class Server:
    """A server of the settings that runs, while it is entered."""

    def __init__(self, program, settings):
        self.words, self.port = [program, "serve", "--settings", settings], port_in(settings)
        self.address = f"127.0.0.1:{self.port}"

    def __enter__(self):
        self.process = subprocess.Popen(self.words, stdout=subprocess.DEVNULL, stderr=subprocess.PIPE)
        if not running.listens(self.port, self.process, 60):
            sys.exit("the server did not begin")
        return self

    def __exit__(self, *met):
        self.process.send_signal(signal.SIGTERM)
        self.said = self.process.communicate()[1].decode()


def port_in(settings):
    return int(next(line for line in open(settings) if line.startswith("listen")).split(":")[1].strip(" '\n"))


def values(program, settings, name, *options):
    """What is printed of a variable, as rows without the header."""
    done = running.run([program, "history", "--settings", settings, "--node", f"ns=1;s={name}", "--csv", *options])
    return list(csv.reader(io.StringIO(done.out.decode(), newline=""), strict=True))[1:]


def settings_in(folder, variables):
    path, store = os.path.join(folder, "plant.toml"), os.path.join(folder, "plant.db")
    running.forget(store)
    open(path, "w").write(SETTINGS.format(store=store, port=running.free_port()) + "".join(VARIABLE.format(name, kind.removesuffix("[]"), str(kind.endswith("[]")).lower()) for name, kind in variables.items()))
    return path


def text_of(chance, held, perform):
    """Random rows, what they come to, and the lines that are told of them."""
    rows, counts, lines = [], dict.fromkeys(("inserted", "replaced", "exist", "refused"), 0), ""
    for number in range(1, chance.randrange(1, 40)):
        if chance.random() < 0.2:
            fields, why = chance.choice(WRONG)
            rows.append(fields)
            counts["refused"] += 1
            lines += f"row {number}: {why}\n"
            continue
        name = chance.choice(list(TYPES))
        time, value = NOW - DAY + 10_000 * chance.randrange(8), chance.choice(VALUES[name])
        status = chance.choice(["", "Good", "80320000", "40930000"])
        rows.append([f"ns=1;s={name}", moment(time), value, status])
        there = (name, time) in held
        if there and perform in (None, "insert"):
            counts["exist"] += 1
        elif not there and perform == "replace":
            counts["refused"] += 1
            lines += f"row {number}: 80A00000 Bad_NoEntryExists\n"
        else:
            held[name, time] = (value, status or "Good")
            counts["replaced" if there else "inserted"] += 1
    return rows, counts, lines


def is_value(name, said, value):
    return float(said) == float(value) if name == "number" else said == value


def differs(program, settings, chance, held, served=False):
    """What differs of one import, if something does."""
    perform = chance.choice([None, "insert", "replace", "update"])
    rows, counts, lines = text_of(chance, held, perform)
    if served:
        with Server(program, settings) as server:
            done = imported(program, settings, rows_of(rows), perform=perform, server=server.address)
    else:
        done = imported(program, settings, rows_of(rows), perform=perform)
    refused = counts["refused"]
    said = f"uahist: rows refused ({refused})\n" if refused else ""
    if (done.out.decode(), done.said, done.status) != (lines + summary(counts), said, 1 if refused else 0):
        return f"{rows}: {done.out.decode()!r} {done.said!r} {done.status}, not {lines + summary(counts)!r}"
    for name in TYPES:
        want = sorted((time, *value) for (node, time), value in held.items() if node == name)
        got = values(program, settings, name)
        if len(want) != len(got) or any(r[1] != moment(t) or not is_value(name, r[2], v) or r[3] != s for r, (t, v, s) in zip(got, want)):
            return f"{name}: {got}, not {want}"
        if {row[6] for row in values(program, settings, name, "--changes")} - {"ann"}:
            return f"{name}: changed by another"


def refusals(program, settings):
    """Whether an import that is refused as a whole is told so, and leaves nothing."""
    row = rows_of([["ns=1;s=whole", "@5", "5", ""]])
    nobody = "uahist: --user: want a user of the settings who may write\n"
    asked = [(row, "eva", nobody), (row, "ben", nobody), (row, "anonymous", nobody), (row, "", nobody)]
    asked += [(text, "ann", "uahist: rows refused: want the header node,time,value,status\n") for text in ("", "\n", "node,time,value\n", row[len(HEAD):], "a;b\n")]
    wrong = []
    for text, user, said in asked:
        done = imported(program, settings, text, user)
        if (done.out, done.said, done.status) != (b"", said, 2):
            wrong.append(f"{user} {text!r}: {done.out!r} {done.said!r} {done.status}")
    if values(program, settings, "whole"):
        wrong.append("a row was written that was refused")
    return wrong


def named(program, folder):
    """Whether rows are those of a file that is named, or of standard input where that is `-`, and a file that isn't there is told."""
    settings, path = settings_in(folder, TYPES), os.path.join(folder, "rows.csv")
    text, other = (rows_of([["ns=1;s=whole", moment(NOW - DAY + n), "5", ""]]) for n in (0, 10))
    open(path, "w").write(text)
    unopened = "uahist: rows refused: the file can't be opened\nuahist: no such file\n"
    asked = [
        (os.path.join(folder, "none.csv"), "", unopened, 2, 0),
        (path, "1 row: 1 inserted\n", "", 0, 1),
        (path, "1 row: 1 exist\n", "", 0, 1),
        ("-", "1 row: 1 inserted\n", "", 0, 2),
        (folder, "", "uahist: import ended: the rows can't be read\n", 1, 2),
    ]
    wrong = []
    for file, out, said, status, count in asked:
        done = running.run([program, "import", "--settings", settings, "--user", "ann", file], other.encode())
        held = len(values(program, settings, "whole"))
        if (done.out.decode(), done.said, done.status, held) != (out, said, status, count):
            wrong.append(f"rows of {file}: {done.out!r} {done.said!r} {done.status}, and {held} are held")
    return wrong


def week(program, folder, days):
    """Whether days of twelve variables are printed as they were imported, and imported again without a change."""
    names = [f"v{n}" for n in range(12)]
    settings = settings_in(folder, dict.fromkeys(names, "Double"))
    chance = random.Random(7)
    rows = [[f"ns=1;s={name}", moment(NOW - 365 * DAY + k * (DAY // 864)), str(round(chance.uniform(-50, 150), 3)), "Good"] for name in names for k in range(864 * days)]
    text = rows_of(rows)
    first = running.weighed([program, "import", "--settings", settings, "--user", "ann"], text.encode(), 600)
    dump = running.run([program, "dump", "--settings", settings]).out
    same = all(all(r[:2] == w[:2] and float(r[2]) == float(w[2]) and r[3] == w[3] for r, w in zip(values(program, settings, name), [w for w in rows if w[0] == f"ns=1;s={name}"], strict=True)) for name in names)
    second = running.weighed([program, "import", "--settings", settings, "--user", "ann"], text.encode(), 600)
    good = first.out.decode() == f"{len(rows)} rows: {len(rows)} inserted\n" and second.out.decode() == f"{len(rows)} rows: {len(rows)} exist\n"
    good = good and same and dump == running.run([program, "dump", "--settings", settings]).out
    print(f"{len(rows)} rows: {'printed as they were imported' if good else 'OTHERWISE'}; {first.seconds:.1f} s and {first.kilobytes / 1000:.0f} MB, again {second.seconds:.1f} s and {second.kilobytes / 1000:.0f} MB")
    return good


def brought(program, folder, hours):
    """Whether hours of twelve variables are printed as they were brought to a server that runs, and brought again without a change."""
    names = [f"v{n}" for n in range(12)]
    settings = settings_in(folder, dict.fromkeys(names, "Double"))
    copy = os.path.join(folder, "copy.toml")
    open(copy, "w").write("".join(line for line in open(settings) if not line.startswith("store")))
    chance = random.Random(8)
    rows = [[f"ns=1;s={name}", moment(NOW - 365 * DAY + k * (DAY // 864)), str(round(chance.uniform(-50, 150), 3)), "Good"] for name in names for k in range(36 * hours)]
    words, text = [program, "import", "--settings", copy, "--user", "ann"], rows_of(rows)
    with Server(program, settings) as server:
        words += ["--server", server.address]
        first, second = (running.weighed(words, text.encode(), 600) for _ in range(2))
    same = all(all(r[:2] == w[:2] and float(r[2]) == float(w[2]) and r[3] == w[3] for r, w in zip(values(program, settings, name), [w for w in rows if w[0] == f"ns=1;s={name}"], strict=True)) for name in names)
    good = first.out.decode() == f"{len(rows)} rows: {len(rows)} inserted\n" and second.out.decode() == f"{len(rows)} rows: {len(rows)} exist\n"
    good = good and same and server.said == ""
    print(f"{len(rows)} rows: {'printed as they were brought to a server' if good else 'OTHERWISE'}; {first.seconds:.1f} s and {first.kilobytes / 1000:.0f} MB, again {second.seconds:.1f} s and {second.kilobytes / 1000:.0f} MB")
    return good


def answering(data, count=1):
    """The address of somebody who answers so many connections by these bytes, and hangs up."""
    listener = socket.create_server(("127.0.0.1", 0))

    def answer():
        for _ in range(count):
            link = listener.accept()[0]
            link.recv(65_536)
            link.sendall(data)
            link.close()

    threading.Thread(target=answer, daemon=True).start()
    return "127.0.0.1:%d" % listener.getsockname()[1]


def unserved(program, folder):
    """Whether ways in which a server doesn't take rows are told."""
    settings = settings_in(folder, TYPES)
    text, wrong = rows_of([["ns=1;s=whole", "@5", "5", ""]]), []
    other = os.path.join(folder, "other.toml")
    open(other, "w").write(open(settings).read().replace("password = 'pw'", "password = 'other'").replace("access = 'read'\n", ""))
    with Server(program, settings) as server:
        asked = [
            (settings, "eva", server.address, b"", "uahist: --user: want a user of the settings who may write\n", 2),
            (other, "ann", server.address, b"", "uahist: import ended: the server refused it (2149646336)\nuahist: 80210000 Bad_IdentityTokenRejected: it doesn't know this user by this password\n", 1),
            (settings, "ann", "localhost", b"", "uahist: address refused\nuahist: not an address: want one as 127.0.0.1:4840\n", 1),
            (settings, "ann", f"127.0.0.1:{running.free_port()}", b"", "uahist: address refused\nuahist: nobody listens there\n", 1),
            (settings, "ann", answering(b""), b"", "uahist: import ended: the server closed the connection\nuahist: the rows that it answered stand; whether one more does isn't known\n", 1),
            (settings, "ann", answering(b"HTTP/1.1 400 Bad Request\r\n\r\n"), b"", "uahist: import ended: what came from the server is no answer\nuahist: that isn't the address of clients of a uahist, or of a server like it\n", 1),
            (settings, "ann", server.address, b"1 row: 1 inserted\n", "", 0),
        ]
        for by, user, address, out, said, status in asked:
            done = imported(program, by, text, user, server=address)
            if (done.out, done.said, done.status) != (out, said, status):
                wrong.append(f"{user} {address}: {done.out!r} {done.said!r} {done.status}, not {said!r}")
        open(other, "w").write(open(settings).read().replace("access = 'read'\n", ""))
        done = imported(program, other, text, "eva", server=server.address)
        if (done.out, done.said, done.status) != (b"row 1: 801F0000 Bad_UserAccessDenied\n1 row: 1 refused\n", "uahist: rows refused (1)\n", 1):
            wrong.append(f"a reader: {done.out!r} {done.said!r} {done.status}")
    return wrong + stopped(program, folder)


def size_of(store):
    """How many bytes a store and its log have."""
    return sum(os.path.getsize(store + end) for end in ("", "-wal") if os.path.exists(store + end))


def kill_behind(process, store, size):
    """Kills a server once its store has so many bytes."""
    while size_of(store) < size and process.poll() is None:
        time.sleep(0.005)
    process.kill()


def stopped(program, folder):
    """Whether an import whose server is killed is told so, and the same import again goes on where it was."""
    settings, wrong = settings_in(folder, TYPES), []
    times = [moment(NOW - DAY + 10_000 * n) for n in range(20_000)]
    text, store = rows_of([["ns=1;s=whole", time_, "5", ""] for time_ in times]), os.path.join(folder, "plant.db")
    with Server(program, settings) as server:
        words = [program, "import", "--settings", settings, "--user", "ann", "--server", server.address]
        process = subprocess.Popen(words, stdin=subprocess.PIPE, stdout=subprocess.PIPE, stderr=subprocess.PIPE)
        begun = size_of(store)
        killer = threading.Thread(target=lambda: kill_behind(server.process, store, begun + 200_000))
        killer.start()
        out, said = (data.decode() for data in process.communicate(text.encode()))
        killer.join()
    ends = ("uahist: import ended: the server closed the connection\n", "uahist: connection to the server ended (1)\n", "uahist: connection to the server ended (2)\n")
    if out or process.returncode != 1 or not any(said.startswith(end) for end in ends):
        wrong.append(f"the server was killed: {out!r} {said!r} {process.returncode}")
    held = [row[1] for row in values(program, settings, "whole")]
    if held != times[:len(held)]:
        wrong.append("behind a kill: what is held aren't the first rows")
    held = len(held)
    with Server(program, settings) as server:
        again = imported(program, settings, text, server=server.address)
    if again.out.decode() != f"20000 rows: {20_000 - held} inserted, {held} exist\n" or not 0 < held < 20_000:
        wrong.append(f"behind a kill: {held} held, {again.out!r} {again.said!r}")
    return wrong


def main():
    usage.shown(__doc__, 1)
    program = os.path.abspath(sys.argv[1])
    rounds, days, hours = (int(word) for word in (sys.argv[2:] + ["20", "7", "8"][len(sys.argv) - 2:])[:3])
    wrong, asked = [], 0
    with tempfile.TemporaryDirectory() as folder:
        wrong += refusals(program, settings_in(folder, TYPES))
        wrong += named(program, folder)
        for seed in range(rounds):
            settings, held, chance = settings_in(folder, TYPES), {}, random.Random(seed)
            for _ in range(4):
                asked += 1
                found = differs(program, settings, chance, held, served=seed % 2 == 1)
                wrong += [f"round {seed}: {found}"] if found else []
        wrong += unserved(program, folder)
        good = brought(program, folder, hours)
        good = week(program, folder, days) and good
    for line in wrong[:5]:
        print("OTHERWISE", line[:600])
    print(f"{asked} imports, {len(wrong)} differ")
    sys.exit(1 if wrong or not good else 0)


if __name__ == "__main__":
    main()
