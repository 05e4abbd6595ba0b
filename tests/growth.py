#!/usr/bin/env python3
"""Refuses each growth of memory that the built program asks for in turn, once (and with `from` that one and all behind it).

    tests/growth.py PROGRAM [--every N] [RUN ..]

Runs: `memory` answers the plant's day over an archive in memory, `hex` the same in hex digits, `store` over an empty store in a
file, `again` over a store that holds the day already, `dump` prints that store, `sync` calls a replica that serves, `serve` is the
one that is called. Each ends only in the ways that README states; what is answered is each time the answer with ample memory,
or tells want of memory; behind a run over a store, `dump` shows each update that was answered Good and nothing that wasn't asked
for, and behind an exchange each of the two holds what it held, some of what the other did, and another exchange, with ample
memory, leaves both with all of it. With --every N each N-th growth is refused. Needs gcc. Prints a line a run and how many
runs ended in which way; the exit status is 1 where one is otherwise.
"""
import collections, os, shutil, struct, subprocess, sys, tempfile
from concurrent.futures import ThreadPoolExecutor
import reading, running, usage
from opcua import *

usage.shown(__doc__, 1)

NOW = 134_168_832_000_000_000
here = running.here
words = sys.argv[1:]
program = os.path.abspath(words.pop(0))
every = int(words.pop(words.index("--every") + 1)) if "--every" in words else 1
words = [w for w in words if w != "--every"]
folder = tempfile.mkdtemp(dir="/dev/shm" if os.path.isdir("/dev/shm") else None)
library = running.built("refuse.c", "refuse.so", folder)
DAY = bytes.fromhex(open(os.path.join(here, "..", "crates", "uahist", "stdin")).read())
OUT_OF_MEMORY, UNAVAILABLE = 0x80030000, 0x80040000  # the second where a store tells the want of memory as a fault of its own
faults = collections.Counter()


def fault(what, run, growth):
    faults[what] += 1
    if faults[what] <= 3:
        print(f"  otherwise: {what}: growth {growth}: status {run.status}, {run.said!r}, {len(run.out)} bytes", flush=True)


def refusing(how, growth, told):
    return dict(os.environ, LD_PRELOAD=library, REFUSE_TOLD=told, **({} if how is None else {how: str(growth)}))


class Machine:
    """A replica with a store and settings of its own."""

    def __init__(self, name, replica):
        self.store, self.replica, self.port = os.path.join(folder, f"{name}.db"), replica, running.free_port()
        self.told = os.path.join(folder, f"{name}.told")
        plant = os.path.join("..", "crates", "uahist", "data", "plant.toml")
        self.settings = running.write_settings(os.path.join(folder, f"{name}.toml"), plant, replica, self.port, self.store)

    def answer(self, given, how=None, growth=0, now=NOW, more=()):
        return running.run([program, "answer", "--settings", self.settings, "--now", str(now), *more], given, environment=refusing(how, growth, self.told))

    def dump(self, how=None, growth=0):
        return running.run([program, "dump", "--settings", self.settings], environment=refusing(how, growth, self.told))

    def copy_from(self, store):
        running.forget(self.store)
        for end in ("", "-wal"):
            if os.path.exists(store + end):
                shutil.copyfile(store + end, self.store + end)

    def growths(self):
        return int(open(self.told).read().split()[0])


# ---- what is answered

def responses(out):
    """Each response by the request it answers: its letters, its type, its status and its body."""
    for letters, chunk in cut(out):
        if letters == "MSGF":
            request, type_id, status = struct.unpack_from("<I", chunk, 20)[0], struct.unpack_from("<H", chunk, 26)[0], struct.unpack_from("<I", chunk, 40)[0]
            yield letters, request, type_id, status, chunk[52:]
        else:
            yield letters, None, None, struct.unpack_from("<I", chunk, 8)[0] if letters == "ERRF" else 0, b""


def codes_of(body):
    """The codes of a HistoryUpdate's one result."""
    r = reading.Reader(body)
    r.i32()
    return r.u32(), r.array(r.u32)


def asked():
    """Of each HistoryUpdate of the day its request id, and the (time, kind, value) of its operations."""
    archive = reading.Archive(1, NOW)
    site = reading.Site(os.path.join(here, "..", "crates", "uahist", "data", "plant.toml"))
    connection, done = reading.Connection(site, archive), {}
    for letters, body in reading.chunks(DAY):
        before = len(archive.records)
        connection.take(letters[:3], letters[3:], reading.Reader(body))
        if len(archive.records) > before:
            done[struct.unpack_from("<I", body, 12)[0]] = [(r.time, r.asked, r.value) for r in archive.records[before:]]
    return done


ASKED = asked()


def is_told(out, whole):
    """Each response is that of the whole answer, or says that memory was wanting, or follows from one that did."""
    lacked = False
    for (letters, request, type_id, status, body), due in zip(responses(out), responses(whole)):
        if (letters, request, type_id, status, body) == due:
            continue
        if letters == "ERRF":
            return status == OUT_OF_MEMORY
        if request != due[1] or (not lacked and status != OUT_OF_MEMORY and not any(u32(code) in body for code in (OUT_OF_MEMORY, UNAVAILABLE))):
            return False
        if status not in (0, OUT_OF_MEMORY, 0x80250000, 0x80270000):
            return False
        lacked = True
    return True


def is_kept(out, dump, before=()):
    """The dump has what stood there, each update that was answered Good, and nothing that wasn't asked for."""
    kept = [reading.read_record(bytes.fromhex(line.split()[3])) for line in dump.decode().splitlines()]
    kept = collections.Counter((r.time, r.asked, r.value) for r in kept)
    kept.subtract(before)
    may_be = collections.Counter(change for changes in ASKED.values() for change in changes)
    if any(count < 0 or (count > 0 and change not in may_be) for change, count in kept.items()):
        return False
    for letters, request, type_id, status, body in responses(out):
        if type_id == 703 and status == 0:
            changes, codes = ASKED[request], codes_of(body)[1]
            if changes[0][1] == 4:
                good = sum(1 for code in codes if code == 0)
                if sum(n for c, n in kept.items() if c[1] == 4) < good:
                    return False
            elif any(code in (0x00A20000, 0x00A30000) and kept[change] < 1 for change, code in zip(changes, codes)):
                return False
    return True


# ---- runs

def refused_each(name, make, judge):
    """Counts the growths of a run, and makes it with each of them refused; `make(machine, how, growth)` gives the run."""
    machines = [Machine(f"{name}{k}", 1) for k in range(2)]
    whole = make(machines[0], None, 0)
    growths = machines[0].growths()
    tasks = [(how, n) for how in ("REFUSE_AT", "REFUSE_FROM") for n in range(1, growths + 1, every)]
    ways = [collections.Counter(), collections.Counter()]

    def share(k):
        for how, n in tasks[k::2]:
            run = make(machines[k], how, n)
            ways[k][(run.status, run.said.strip().replace("uahist: ", ""), "the whole answer" if run.out == whole.out else "")] += 1
            if not run.is_stated() or run.seconds > 20:
                fault(f"{name}: not a stated way of ending", run, (how, n))
            judge(machines[k], run, whole, (how, n))

    with ThreadPoolExecutor(2) as threads:
        list(threads.map(share, range(2)))
    print(f"{name}: {growths} growths, {len(tasks)} runs: " + "; ".join(f"{n} times {s} {t} {w}".rstrip() for (s, t, w), n in sum(ways, collections.Counter()).most_common()), flush=True)


def in_memory(machine, how, growth):
    plant = os.path.join(here, "..", "crates", "uahist", "data", "plant.toml")
    return running.run([program, "answer", "--settings", plant, "--now", str(NOW)], DAY, environment=refusing(how, growth, machine.told))


def in_hex(machine, how, growth):
    plant = os.path.join(here, "..", "crates", "uahist", "data", "plant.toml")
    return running.run([program, "answer", "--settings", plant, "--now", str(NOW), "--hex"], DAY.hex().encode(), environment=refusing(how, growth, machine.told))


def told(machine, run, whole, growth):
    if not is_told(run.out, whole.out):
        fault("answered otherwise", run, growth)


def told_in_hex(machine, run, whole, growth):
    try:
        answer = bytes.fromhex(run.out.decode())
    except ValueError:
        return fault("no whole digits", run, growth)
    if not is_told(answer, bytes.fromhex(whole.out.decode())):
        fault("answered otherwise, in hex", run, growth)


def over_store(machine, how, growth):
    running.forget(machine.store)
    return machine.answer(DAY, how, growth)


def kept(machine, run, whole, growth, before=()):
    told(machine, run, whole, growth)
    dump = machine.dump()
    if dump.status != 0 or not is_kept(run.out, dump.out, before):
        fault("the store holds otherwise", dump, growth)


def filled():
    """A store that holds the day, and its dump."""
    machine = Machine("filled", 1)
    assert machine.answer(DAY, now=NOW - 10 ** 10).status == 0
    return machine.store, machine.dump().out


def over_filled():
    store, dump = filled()
    held = collections.Counter((r.time, r.asked, r.value) for r in (reading.read_record(bytes.fromhex(line.split()[3])) for line in dump.decode().splitlines()))

    def make(machine, how, growth):
        machine.copy_from(store)
        return machine.answer(DAY, how, growth)

    refused_each("again", make, lambda *given: kept(*given, held))


def dumped():
    store, dump = filled()

    def make(machine, how, growth):
        machine.copy_from(store)
        return machine.dump(how, growth)

    def judge(machine, run, whole, growth):
        if not whole.out.startswith(run.out) or (run.status == 0 and run.out != whole.out) or machine.dump().out != whole.out:
            fault("another dump", run, growth)

    refused_each("dump", make, judge)


def exchanged(caller_is_refused):
    """Two replicas that hold a day each; one calls the other, and memory is refused to one of them."""
    made = [Machine(f"made{k}", k) for k in (1, 2)]
    for machine, now in zip(made, (NOW, NOW + 24_000_000_000)):
        assert machine.answer(DAY, now=now).status == 0
    held = [set(machine.dump().out.splitlines()) for machine in made]
    peers = {}

    def pair(machine):
        if machine not in peers:
            peers[machine] = Machine(os.path.basename(machine.store) + "peer", 2)
        return machine, peers[machine]

    def make(machine, how, growth):
        one, two = pair(machine)
        one.copy_from(made[0].store)
        two.copy_from(made[1].store)
        return exchange(one, two, how, growth, caller_is_refused)

    def judge(machine, run, whole, growth):
        one, two = pair(machine)
        now = [set(m.dump().out.splitlines()) for m in (one, two)]
        both = held[0] | held[1]
        if not (held[0] <= now[0] <= both and held[1] <= now[1] <= both) or (caller_is_refused and run.status == 0 and (now != [both, both] or run.out != whole.out)):
            fault("an exchange left otherwise", run, growth)
        again = exchange(one, two, None, 0, True)
        if again.status != 0 or [set(m.dump().out.splitlines()) for m in (one, two)] != [both, both]:
            fault("the exchange behind it left otherwise", again, growth)

    refused_each("sync" if caller_is_refused else "serve", make, judge)


def exchange(one, two, how, growth, caller_is_refused):
    """Machine one calls machine two; the run of the one whose memory is refused."""
    one.port, two.port = running.free_port(), running.free_port()
    running.write_settings(two.settings, os.path.join("..", "crates", "uahist", "data", "plant.toml"), 2, two.port, two.store)
    plain = dict(os.environ)
    with tempfile.TemporaryFile() as stdout, tempfile.TemporaryFile() as stderr:
        environment = plain if caller_is_refused else refusing(how, growth, one.told)
        begin = running.time.monotonic()
        server = subprocess.Popen([program, "serve", "--settings", two.settings, "--connections", "1"], stdin=subprocess.DEVNULL, stdout=stdout, stderr=stderr, env=environment)
        is_there = running.listens(two.port, server)
        caller = None
        if is_there:
            words = [program, "sync", "--settings", one.settings, "--peer", f"127.0.0.1:{two.port}"]
            caller = running.run(words, environment=refusing(how, growth, one.told) if caller_is_refused else plain)
            if not caller.is_stated():
                fault("the caller ended otherwise", caller, growth)
            if caller.said.startswith(("uahist: store", "uahist: settings", "uahist: memory", "uahist: address", "uahist: usage")):
                touch(two.port)
        served = running.ended(server, stdout, stderr, begin, 20)
    return caller if caller_is_refused else served


def touch(port):
    """A connection that says nothing, so that a server of one connection ends."""
    try:
        running.socket.create_connection(("127.0.0.1", port)).close()
    except OSError:
        pass


RUNS = {"memory": lambda: refused_each("memory", in_memory, told), "hex": lambda: refused_each("hex", in_hex, told_in_hex),
        "store": lambda: refused_each("store", over_store, kept), "again": over_filled, "dump": dumped,
        "sync": lambda: exchanged(True), "serve": lambda: exchanged(False)}

if __name__ == "__main__":
    for name in words or RUNS:
        RUNS[name]()
    print("each run as it has to be" if not faults else f"otherwise: {dict(faults)}")
    shutil.rmtree(folder)
    sys.exit(1 if faults else 0)
