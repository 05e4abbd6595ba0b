#!/usr/bin/env python3
"""Compares what `uahist history` prints with a plain model of what was written.

    tests/printed.py PROGRAM [ROUNDS [ROWS]]

Each round (20, unless told) makes a store, writes, replaces, updates and deletes values at random moments, as texts with quotes,
line ends and letters that control a terminal, numbers, Booleans and arrays, and then asks for stretches of it in all four ways. A row of
CSV is read by Python's csv; of a table each line is compared whole. Then so many values (50,000, unless told) are written, and
printed: their number, the seconds and the greatest memory are told. Exit status 1 where one differs.
"""
import csv, datetime, io, json, os, random, sys, tempfile
import opcua, running, usage

SETTINGS = """[archive]
id = '00000000-0000-0000-0000-000000000000'
replica = 1
store = '{store}'
[server]
listen = '127.0.0.1:4840'
url = 'opc.tcp://localhost:4840'
application = 'urn:uahist'
namespace = 'urn:uahist:archive'
anonymous = false
[[user]]
name = 'ann'
password = 'pw'
[[user]]
name = 'ben, "b"'
password = 'pw'
[[variable]]
id = 'text, "t"'
name = 'text'
type = 'String'
[[variable]]
id = 'number'
name = 'number'
type = 'Double'
[[variable]]
id = 'flag'
name = 'flag'
type = 'Boolean'
[[variable]]
id = 'list'
name = 'list'
type = 'Int32'
array = true
[[variable]]
id = 'levels'
name = 'levels'
type = 'Double'
array = true
[[variable]]
id = 'words'
name = 'words'
type = 'String'
array = true
"""
TEXTS = ["", "a", 'say "hi"', "a,b", "line\nend", "\r", "\x1b[2Jgone", "caf\u00e9", "\u0085next", "x" * 40, "\t"]
NUMBERS = [0.0, -1.5, 1e300, 0.1, 21.25, -0.0, float("inf"), 5e-324]
LISTS = [[], [1, -2], [2147483647] * 9, [-2147483648]]
LEVELS = [[], [0.5, -0.0, float("inf")], [1e300, 5e-324]]


def compact(field):
    """What a JSON text says, if it has no blanks."""
    said = json.loads(field)
    return said if json.dumps(said, separators=(",", ":"), ensure_ascii=False) == field else field


VARIABLES = {
    'text, "t"': (lambda value: opcua.u8(12) + opcua.text(value), TEXTS, lambda value: value),
    "number": (opcua.double, NUMBERS, float),
    "flag": (lambda value: opcua.u8(1) + opcua.u8(value), [True, False], {"true": True, "false": False}.get),
    "list": (lambda value: opcua.u8(0x86) + opcua.array([opcua.i32(item) for item in value]), LISTS, compact),
    "levels": (lambda value: opcua.u8(0x8B) + opcua.array([opcua.double(item)[1:] for item in value]), LEVELS, lambda field: [float(item) for item in json.loads(field)]),
    "words": (lambda value: opcua.u8(0x8C) + opcua.array([opcua.text(item) for item in value]), [[], TEXTS, ["a"]], json.loads),
}
USERS = ["ann", 'ben, "b"']
NOW = 134_168_832_000_000_000
DONE = {1: "insert", 2: "replace", 3: "update"}


def moment(ticks):
    """A moment as it is printed."""
    at = datetime.datetime(1601, 1, 1) + datetime.timedelta(microseconds=ticks // 10)
    return at.strftime("%Y-%m-%dT%H:%M:%S.%f") + f"{ticks % 10}Z"


def plain(text):
    """A text without what controls a terminal."""
    return "".join("?" if ord(c) < 32 or ord(c) == 127 else "\u00bf" if 128 <= ord(c) < 160 else c for c in text)


class Model:
    """The records of one variable by time: each a tick, what was done, the value (None of a delete) and the user."""

    def __init__(self):
        self.stories = {}

    def live(self, time):
        story = self.stories.get(time, [])
        return story[-1][2] if story else None

    def changes(self):
        """Of each record what is printed of it, the newest of a time first."""
        for time in sorted(self.stories):
            before, lines = None, []
            for tick, kind, value, user in self.stories[time]:
                done = "delete" if value is None else "insert" if before is None else "update" if kind == 3 else "replace"
                lines.append((time, value if before is None else before, done, tick, user))
                before = value
            yield from reversed(lines)

    def values(self):
        return [(time, self.live(time)) for time in sorted(self.stories) if self.live(time) is not None]


def play(program, settings, models, chance):
    """One connection of each user with random operations, which the models learn where they are lawful."""
    top = 0
    for user in USERS:
        client = opcua.Client()
        stream = client.hello() + client.open() + client.create_session() + client.activate(user, b"pw")
        for _ in range(30):
            name = chance.choice(list(VARIABLES))
            spell, values, _ = VARIABLES[name]
            model, node = models[name], opcua.node(name, 1)
            time, kind = NOW - 864_000_000_000 + 10_000 * chance.randrange(8), chance.choice([1, 1, 2, 3, 4])
            live, value = model.live(time), chance.choice(values)
            if kind == 4:
                stream += client.delete_at(node, [time])
            else:
                stream += client.update(node, kind, [opcua.value_at(spell(value), time)])
            if (live is None) == (kind == 1) or kind == 3:
                top = max(NOW, top + 1)
                model.stories.setdefault(time, []).append((top, kind, None if kind == 4 else value, user))
        running.run([program, "answer", "--settings", settings, "--now", str(NOW)], stream)


def printed(program, settings, name, first, last, *options):
    """What is printed of a stretch of a variable."""
    words = [program, "history", "--settings", settings, "--node", f"ns=1;s={name}", *options]
    words += ["--from", moment(first)] if first is not None else []
    words += ["--to", moment(last)] if last is not None else []
    done = running.run(words)
    return done.out.decode() if (done.status, done.said) == (0, "") else f"status {done.status}: {done.said}"


def is_same(kind, field, value):
    """Whether a field says this value."""
    return repr(kind(field)) == repr(value)


def wrong(program, settings, name, model, first, last):
    """What differs in a stretch of a variable, in the four ways of printing it."""
    kind, node = VARIABLES[name][2], f"ns=1;s={name}"
    inside = lambda time: (first is None or first <= time) and (last is None or time < last)
    values = [row for row in model.values() if inside(row[0])]
    changes = [row for row in model.changes() if inside(row[0])]
    rows = list(csv.reader(io.StringIO(printed(program, settings, name, first, last, "--csv"), newline=""), strict=True))
    good = rows[:1] == [["node", "time", "value", "status"]] and len(rows) == len(values) + 1
    good = good and all([r[0], r[1], r[3]] == [node, moment(t), "Good"] and is_same(kind, r[2], v) for r, (t, v) in zip(rows[1:], values))
    lines = printed(program, settings, name, first, last).split("\n")
    table = [f"{moment(t):28}  {plain(r[2]):24}  Good" for r, (t, _) in zip(rows[1:], values)]
    good = good and lines == [f"{'time':28}  {'value':24}  status"] + table + [""]
    if not good:
        return f"values of {name} from {first} to {last}: {rows} {lines}"
    rows = list(csv.reader(io.StringIO(printed(program, settings, name, first, last, "--changes", "--csv"), newline=""), strict=True))
    good = rows[:1] == [["node", "time", "value", "status", "change", "changed", "user"]] and len(rows) == len(changes) + 1
    good = good and all([r[0], r[1], r[3], *r[4:]] == [node, moment(t), "Good", done, moment(tick), user] and is_same(kind, r[2], v)
                        for r, (t, v, done, tick, user) in zip(rows[1:], changes))
    lines = printed(program, settings, name, first, last, "--changes").split("\n")
    head = f"{'time':28}  {'value':24}  {'status':8}  {'change':8}  {'changed':28}  user"
    table = [f"{moment(t):28}  {plain(r[2]):24}  {'Good':8}  {done:8}  {moment(tick):28}  {user}" for r, (t, _, done, tick, user) in zip(rows[1:], changes)]
    good = good and lines == [head] + table + [""]
    return None if good else f"changes of {name} from {first} to {last}: {rows} {lines}"


def many(program, settings, rows):
    """Writes so many values, and tells what it costs to print them."""
    client, node = opcua.Client(), opcua.node("number", 1)
    stream = client.hello() + client.open() + client.create_session() + client.activate("ann", b"pw")
    for at in range(0, rows, 500):
        stream += client.update(node, 1, [opcua.value_at(opcua.double(k / 4), 1 + k) for k in range(at, min(at + 500, rows))])
    running.run([program, "answer", "--settings", settings], stream, 600)
    for options in ([], ["--csv"], ["--changes", "--csv"]):
        done = running.weighed([program, "history", "--settings", settings, "--node", "ns=1;s=number", *options], most=600)
        count = done.out.count(b"\n") - 1
        print(f"{' '.join(['history', *options])}: {count} rows in {done.seconds:.2f} s, {done.kilobytes / 1024:.0f} MB at most")
        if done.status or count != rows:
            return f"{rows} rows were written"
    return None


def main():
    usage.shown(__doc__, 1)
    program = os.path.abspath(sys.argv[1])
    rounds, rows = (int(word) for word in (sys.argv[2:] + ["20", "50000"][len(sys.argv) - 2:])[:2])
    chance = random.Random(11)
    faults, asked = [], 0
    with tempfile.TemporaryDirectory() as folder:
        settings, store = os.path.join(folder, "settings.toml"), os.path.join(folder, "one.db")
        open(settings, "w").write(SETTINGS.format(store=store))
        for _ in range(rounds):
            models = {name: Model() for name in VARIABLES}
            play(program, settings, models, chance)
            for name, model in models.items():
                times = sorted(model.stories) or [NOW]
                for first, last in ((None, None), (chance.choice(times), chance.choice(times) + chance.randrange(2))):
                    asked += 4
                    faults += filter(None, [wrong(program, settings, name, model, first, last)])
            running.forget(store)
        faults += filter(None, [many(program, settings, rows)])
    for fault in faults[:5]:
        print(fault)
    print(f"{asked} histories, {len(faults)} differ")
    sys.exit(1 if faults else 0)


if __name__ == "__main__":
    main()
