#!/usr/bin/env python3
"""Gives the built program bytes that no client and no peer would send, and looks at how it ends and at what it keeps.

    tests/forged.py PROGRAM [--every N] [PART ..]

Parts: `cuts` cuts each stream at each byte; `bytes` replaces each byte by 00, 7F, 80 and FF; `hex` forges the digits of `--hex`;
`counts` replaces each four bytes by 7FFFFFFF; `points` replaces each byte of continuation points by each other one; `frames` does
what `cuts` and `bytes` do to what a peer sends to `serve`; `large` sends the largest messages, with items as short as they can be;
`long` sends a chunk and a frame more than a connection and a dialog may have.
Each run has to end in one of the ways that README states, soon, and with hardly more memory than the whole stream takes, and its
answer has to be whole chunks; a cut stream is answered as its whole chunks are. Behind each run `dump` has to show the records that
tests/reading.py, made from docs/FORMATS.md alone, finds in the bytes, and no others. Whatever is otherwise is told with the smallest
bytes that show it; the exit status is 1 then. With --every N each N-th of the forged
streams is tried. Needs gcc and GNU time.
"""
import os, socket, struct, sys, tempfile, threading, time
from concurrent.futures import ThreadPoolExecutor
import model, reading, running, usage
from opcua import *

usage.shown(__doc__, 1)

NOW = running.NOW
FORGED = [0, 127, 128, 255]
STATES = {0x80070000, 0x807E0000, 0x80800000, 0x80AC0000, 0x80030000, 0x80550000, 0x80540000, 0x80530000, 0x80220000, 0x80870000, 0x80880000}
ROOM = 200_000  # bytes above those that the whole stream holds at most
here = running.here
words = sys.argv[2:]
every = int(words.pop(words.index("--every") + 1)) if "--every" in words else 1
words = [w for w in words if w != "--every"]
program = os.path.abspath(sys.argv[1])
folder = tempfile.mkdtemp(dir="/dev/shm" if os.path.isdir("/dev/shm") else None)
library = running.built("refuse.c", "refuse.so", folder)
faults = {}


def fault(part, what, given):
    """Notes that something is otherwise, with the smallest bytes that show it."""
    found = faults.setdefault((part, what), [0, given])
    found[0] += 1
    if len(given) < len(found[1]):
        found[1] = given


def streams():
    """Each stream with its name and its settings."""
    day = open(os.path.join(here, "..", "crates", "uahist", "stdin")).read()
    yield "the plant's day", os.path.join("..", "crates", "uahist", "data", "plant.toml"), bytes.fromhex(day)
    yield "all calls", "settings.toml", all_calls()
    talk = model.Talk(3)
    for _ in range(20):
        talk.ask()
    yield "a client of the model", "settings.toml", b"".join(talk.sent)


def all_calls():
    """Each service and each kind of chunk: a message in pieces, one that is given up, a renewal, the end of the channel."""
    client, T = Client(), node("T", 1)
    sent = [client.hello(), client.open(), client.get_endpoints(), client.create_session(), client.activate("ann", b"pw")]
    sent += [client.browse([node(85), T]), client.read([(T, 13), (T, 4), (node(2259), 13)])]
    value = u8(63) + int32(5) + u32(0) + i64(NOW + 5) + u16(7) + i64(NOW) + u16(9)
    sent += [client.update(T, 1, [value_at(int32(k), NOW + k) for k in range(3)] + [value]), client.update(T, 3, [u8(7) + int32(8) + u32(0x40000000) + i64(NOW + 1)])]
    update = extension(682, T + u32(3) + array([value_at(int32(9), NOW + 2)]))
    sent += [client.chunks(700, array([update, extension(691, T + array([i64(NOW), i64(NOW + 7)]))]), 40)]
    given_up = client.message(700, array([update]))
    sent += [b"MSGA" + given_up[4:], client.history_read([T], NOW, NOW + 9, bounds=True), client.history_read([T, node("U", 1)], NOW, NOW + 9, modified=True)]
    sent += [client.delete_raw(T, NOW, NOW + 2), client.message(0, b"")]
    n = client.next()
    renewal = blob(POLICY) + blob(None) + blob(None) + n + n + node(446) + client.header() + u32(0) + u32(1) + u32(1) + blob(None) + u32(0)
    sent += [b"OPNF" + u32(12 + len(renewal)) + u32(1) + renewal, client.history_read([T], NOW, 0, count=2), client.close_session()]
    closing = u32(1) + u32(1) + client.next() + client.next()
    return b"".join(sent) + b"CLOF" + u32(8 + len(closing)) + closing


class Room:
    """Settings with a store of its own, for one thread."""

    def __init__(self, name, source, replica=1):
        self.store = os.path.join(folder, f"{name}.db")
        self.settings = running.write_settings(os.path.join(folder, f"{name}.toml"), source, replica, store=self.store)
        self.site = reading.Site(self.settings)

    def answer(self, given):
        """The run over an empty store, and the bytes of its greatest growth and those that it held at most."""
        running.forget(self.store)
        words, told = [program, "answer", "--settings", self.settings, "--now", str(NOW)], self.store + ".told"
        run = running.run(words, given, environment=dict(os.environ, LD_PRELOAD=library, REFUSE_TOLD=told))
        _, run.greatest, run.held = map(int, open(told).read().split())
        return run

    def dump(self):
        return running.run([program, "dump", "--settings", self.settings])


def is_whole(out):
    """The answer is whole chunks of the kinds that the server writes, an Error with a known code last."""
    at = 0
    while at < len(out):
        size = struct.unpack_from("<I", out, at + 4)[0] if at + 8 <= len(out) else 0
        letters = out[at:at + 4]
        if size < 16 or at + size > len(out) or letters not in (b"ACKF", b"ERRF", b"OPNF", b"MSGF", b"MSGC"):
            return False
        if letters == b"ERRF" and (at + size != len(out) or struct.unpack_from("<I", out, at + 8)[0] not in STATES):
            return False
        at += size
    return True


def judge(part, room, given, most):
    """One run over an empty store, and the dump behind it."""
    run = room.answer(given)
    if run.status != 0 or run.said:
        fault(part, f"ended by {run.status} {run.said!r}", given)
    if run.seconds > 5 or run.held > most:
        fault(part, f"took {run.seconds:.0f} s, and {run.held // 100_000} times 100,000 bytes", given)
    if not is_whole(run.out):
        fault(part, "the answer isn't whole chunks", given)
    archive = reading.Archive(1, NOW)
    reading.Connection(room.site, archive).take_all(given)
    dump = room.dump()
    if dump.status != 0 or dump.out != archive.dump():
        fault(part, f"the archive holds {dump.out.count(10)} records, and the bytes make {len(archive.records)} ({dump.status} {dump.said!r})", given)
    return run.out


def each(part, source, forged, work):
    """Does the work for each of the forged streams, in two threads, each with its own store; how many there were."""
    rooms, forged = [Room(f"{part}{k}", source) for k in range(2)], forged[::every]

    def share(k):
        for given in forged[k::2]:
            work(rooms[k], given)

    with ThreadPoolExecutor(2) as threads:
        list(threads.map(share, range(2)))
    return len(forged)


def whole_of(source, stream):
    room = Room("whole", source)
    run = room.answer(stream)
    assert run.status == 0, run.said
    return run


def cuts():
    for name, source, stream in streams():
        whole, ends, at = whole_of(source, stream), [0], 0
        for _, chunk in cut(stream):
            at += len(chunk)
            ends.append(at)
        answers = {}

        def work(room, given):
            answers[len(given)] = judge("cuts", room, given, whole.held + ROOM)

        count = each("cuts", source, [stream[:k] for k in range(len(stream) + 1)], work)
        for k, out in answers.items():
            last = max(e for e in ends if e <= k)
            if out != answers.get(last, out) or not whole.out.startswith(out):
                fault("cuts", "a cut stream is answered otherwise than its whole chunks", stream[:k])
        print(f"cuts: {name}: {count} runs", flush=True)


def forgeries(stream):
    return [stream[:k] + bytes([b]) + stream[k + 1:] for k in range(len(stream)) for b in FORGED if b != stream[k]]


def forged_bytes():
    for name, source, stream in streams():
        most = whole_of(source, stream).held + ROOM
        count = each("bytes", source, forgeries(stream), lambda room, given: judge("bytes", room, given, most))
        print(f"bytes: {name}: {count} runs", flush=True)


def hexed():
    """`answer --hex` over digits that were cut, and over what is no digit: as the bytes they spell, or `bad hex`."""
    name, source, stream = next(streams())
    settings, runs = os.path.join(here, source), 0
    digits = stream[:300].hex().encode()
    texts = [digits[:k] for k in range(len(digits) + 1)]
    texts += [digits[:k] + b + digits[k + 1:] for k in range(0, len(digits), 3) for b in (b"g", b"\xff", b"\0", b"\t", b" ", b"\r\n", b"aB")]
    for text_ in texts:
        words = [program, "answer", "--settings", settings, "--now", str(NOW)]
        run, kept = running.run(words + ["--hex"], text_), bytes(b for b in text_ if b not in b" \r\n")
        try:
            if set(kept) - set(b"0123456789abcdefABCDEF"):
                raise ValueError
            due = (0, running.run(words, bytes.fromhex(kept.decode())).out.hex().upper() + "\n", "")
        except ValueError:
            due = (2, "", "uahist: bad hex\n")
        if (run.status, run.out.decode(), run.said) != due:
            fault("hex", f"ended by {run.status} {run.said!r}, and not by {due[0]} {due[2]!r}", text_)
        runs += 1
    print(f"hex: {runs} runs", flush=True)


def counts():
    """Each growth that is asked for is small, whatever the bytes announce."""
    for name, source, stream in streams():
        most = max(65536, whole_of(source, stream).greatest) + 4 * len(stream)

        def work(room, given):
            run = room.answer(given)
            if run.status != 0 or run.greatest > most:
                fault("counts", f"ended by {run.status} {run.said!r}, and asked for {run.greatest} bytes at once", given)

        count = each("counts", source, [stream[:k] + b"\xff\xff\xff\x7f" + stream[k + 4:] for k in range(len(stream) - 3)], work)
        print(f"counts: {name}: {count} runs, at most {most} bytes at once", flush=True)


def judged_point(bytes_, query, archive, where):
    """What a point says by docs/FORMATS.md, for a query: the place, the items given and the records covered, or none."""
    try:
        r = reading.Reader(bytes_)
        ok = r.u8() == 3 and r.take(16) == bytes(16) and r.take(len(node(where, 1))) == node(where, 1)
        ok = ok and r.take(22) == u8(query.modified) + i64(query.start) + i64(query.end) + u32(query.count) + u8(query.bounds)
        phase, time, pico, tick, origin, given = r.u8(), r.i64(), r.u16(), r.i64(), r.u8(), r.u32()
        held = r.vector()
        ok = ok and phase in ((1, 2) if query.bounds and not query.modified else (2,)) and time >= 1 and pico <= 9999 and not r.left()
        ok = ok and ((1 <= tick < 2 ** 62 and 1 <= origin <= 64) if query.modified else tick == origin == 0)
        ok = ok and (given == 0 if query.both else 1 <= given < query.count)
        if not ok or any(n > (len(archive.records) if o == 1 else 0) for o, n in held.items()):
            return None
        return (((time, pico), (tick, origin)) if query.modified else (time, pico)), given, held.get(1, 0), phase
    except reading.Bad:
        return None


def spelled_point(query, archive, where):
    """The point behind the second item of a read of the first seven records."""
    last = (model.modifications if query.modified else model.values)(archive, where, query, None)[1]
    stamp = i64(last[3]) + u8(1) if query.modified else i64(0) + u8(0)
    query_ = u8(query.modified) + i64(query.start) + i64(query.end) + u32(query.count) + u8(query.bounds)
    given = 0 if query.both else 2
    return u8(3) + bytes(16) + node(where, 1) + query_ + u8(2) + i64(last[0][0]) + u16(last[0][1]) + stamp + u32(given) + u8(1) + u8(1) + struct.pack("<Q", 7)


def points():
    """Each byte of some continuation points replaced by each other one: refused, or a page behind the place that they say."""
    asked, refused = 0, 0
    for modified, bounds, start, end, count in [(False, False, 1, 9, 2), (False, True, 9, 1, 3), (True, False, 1, 9, 2), (False, False, 2, 0, 5), (True, False, 0, 8, 3)]:
        query = model.Query(modified, start, end, count, bounds, 0)
        archive, client = model.Archive(), Client()
        sent = [client.hello(), client.open(), client.create_session(), client.activate("ann", b"pw")]
        for time in (2, 3, 4, 5, 6, 7, 4, 5):
            archive.add("T", (time, 0), 3, "ann", dict(variant=int32(time), status=None, pico=None, server=None, server_pico=None))
            sent.append(client.update(node("T", 1), 3, [value_at(int32(time), time)]))
        point = spelled_point(query, archive, "T")
        forged = [point[:k] + bytes([b]) + point[k + 1:] for k in range(len(point)) for b in range(256) if b != point[k]]
        forged += [point[:k] for k in range(1, len(point))] + [point + b"\0"]
        sent += [client.history_read([node("T", 1)], start, end, count, bounds, modified, 0, p) for p in forged]
        run = running.run([program, "answer", "--settings", os.path.join(here, "settings.toml"), "--now", str(EPOCH)], b"".join(sent))
        answers = [chunk for _, chunk in cut(run.out)][-len(forged):]
        if run.status != 0 or len(answers) != len(forged):
            fault("points", f"ended by {run.status} {run.said!r}", point)
            continue
        for p, answer in zip(forged, answers):
            said = judged_point(p, query, archive, "T")
            code = struct.unpack_from("<I", answer, 56)[0] if len(answer) >= 60 else None
            status = struct.unpack_from("<I", answer, 40)[0]
            if status != 0 or (said is None) != (code == 0x804A0000):
                fault("points", f"point {'ill formed' if said is None else 'well formed'}, answered {status:08X} {code and f'{code:08X}'} (modified {modified}, bounds {bounds}, {start} to {end}, {count})", p)
            elif said is not None and not page_is_due(answer, said, query, archive):
                fault("points", f"another page than the one behind the place (modified {modified}, bounds {bounds}, {start} to {end}, {count})", p)
            refused += code == 0x804A0000
        asked += len(forged)
    print(f"points: {asked} reads, {refused} of them refused", flush=True)


def page_is_due(answer, said, query, archive):
    """The page is that of the model, where the model knows it: behind a place that a page may end at."""
    place, given, held, phase = said
    within = model.Archive(archive.records[:held])
    if query.modified:
        there = [((e[0], e[3])) for m in within.moments("T") for e in within.entries("T", m) if query.has(m)]
        place = (place[0], place[1][0])
        if place not in there or said[0][1][1] != 1:
            return True
    elif phase == 1 or not query.has(place) or query.beyond(query.origin, place):
        return True
    body, _, _ = model.read(archive, "T", query, (place, given, held))
    return answer[52:] == i32(1) + body + i32(-1)


def large_messages():
    """For each kind of list a message of nearly 4,194,304 bytes whose items are as short as they can be."""
    T, room = node("T", 1), 64 * 65_512 - 300
    for name, item in [("data values", u8(0)), ("nulls", u8(1) + u8(0))]:
        yield f"{room // len(item)} {name}", 700, array([extension(682, T + u32(3) + i32(room // len(item)) + item * (room // len(item)))])
    for name, kind, item in [("LocalizedTexts", 21, u8(0)), ("NodeIds", 17, u8(0) * 2), ("QualifiedNames", 20, u16(0) + i32(-1)), ("Strings", 12, i32(-1)), ("ByteStrings", 15, i32(-1)), ("Booleans", 1, u8(1))]:
        value = u8(5) + u8(128 + kind) + i32(room // len(item)) + item * (room // len(item)) + i64(NOW)
        yield f"a value of {room // len(item)} {name}", 700, array([extension(682, T + u32(3) + array([value]))])
    for name, item in [("details", u8(0) * 3)]:
        yield f"{room // 3} {name}", 700, i32(room // 3) + item * (room // 3)
    yield f"{room // 8} times", 700, array([extension(691, T + i32(room // 8) + i64(1) * (room // 8))])
    item = u8(0) * 2 + u32(13) + i32(-1) + u16(0) + i32(-1)
    yield f"{room // 16} items to read", 631, bytes(8) + u32(2) + i32(room // 16) + item * (room // 16)
    item = u8(0) * 2 + i32(-1) + u16(0) + i32(-1) + i32(-1)
    yield f"{room // 16} histories to read", 664, extension(649, u8(0) + i64(1) + i64(9) + u32(0) + u8(0)) + u32(0) + u8(0) + i32(room // 16) + item * (room // 16)
    item = u8(0) * 2 + u32(0) + u8(0) * 2 + u8(0) + u32(0) + u32(0)
    yield f"{room // 17} nodes to browse", 527, node(0) + i64(0) + u32(0) + u32(0) + i32(room // 17) + item * (room // 17)
    yield f"{room // 4} locales", 428, text(None) + i32(room // 4) + i32(-1) * (room // 4) + i32(-1)


def large():
    """The memory that the largest messages take, which are refused or answered like others: at most 80 bytes for each of theirs."""
    room = Room("large", "settings.toml")
    for name, type_id, body in large_messages():
        client = Client()
        sent = client.hello() + client.open() + client.create_session() + client.activate("ann", b"pw")
        sent += client.chunks(type_id, body, 65_536 - 24)
        for settings in (os.path.join(here, "settings.toml"), room.settings):
            running.forget(room.store)
            run = running.weighed([program, "answer", "--settings", settings, "--now", str(NOW)], sent)
            answers = [chunk for letters, chunk in cut(run.out)]
            told = struct.unpack_from("<I", answers[-1], 40)[0] if len(answers) > 4 else 0
            print(f"large: {name}{', a store' if settings == room.settings else ''}: {run.kilobytes} kB, {run.seconds:.2f} s, {len(run.out)} bytes, status {told:08X}", flush=True)
            if run.status != 0 or run.said or not is_whole(run.out):
                fault("large", f"{name}: ended by {run.status} {run.said!r}", sent[:400])
            if run.kilobytes > 80 * 4096:
                fault("large", f"{name}: {run.kilobytes} kB", sent[:400])


def send_all(line, sent):
    """Sends these bytes, while others read, and no more behind them."""
    try:
        line.sendall(sent)
        line.shutdown(socket.SHUT_WR)
    except OSError:
        pass


class Peer:
    """A serving replica with an empty archive in memory, for a few connections."""

    def __init__(self, name, connections):
        self.port = running.free_port()
        self.settings = running.write_settings(os.path.join(folder, f"{name}.toml"), "settings.toml", 1, self.port)
        words = [program, "serve", "--settings", self.settings, "--connections", str(connections)]
        self.out, self.said = tempfile.TemporaryFile(), tempfile.TemporaryFile()
        self.process = running.subprocess.Popen(words, stdin=running.subprocess.DEVNULL, stdout=self.out, stderr=self.said)
        assert running.listens(self.port, self.process), "nobody listens"

    def exchange(self, sent, most=20):
        """What comes back until the connection is over, where each call takes so many seconds at most."""
        with socket.create_connection(("127.0.0.1", self.port)) as line:
            line.settimeout(most)
            sending = threading.Thread(target=send_all, args=(line, sent))
            sending.start()
            came = []
            try:
                while more := line.recv(65536):
                    came.append(more)
            except ConnectionError:
                pass
            sending.join()
            return b"".join(came)

    def end(self):
        return running.ended(self.process, self.out, self.said, 0, 20)


def peer_streams():
    """What a peer, replica 2, sends: its vector, records of its own and another's, its vector again, the end."""
    records = [reading.Record(2, k, NOW + 10 * k, node("T", 1), NOW + k, 0, 3, "ann", u8(1) + int32(k)) for k in (1, 2)]
    records.append(reading.Record(3, 1, NOW + 7, node("U", 1), NOW, 5, 1, "ben", u8(49) + int32(6) + u16(5) + u16(3)))
    records.append(reading.Record(2, 3, NOW + 40, node("T", 1), NOW + 1, 0, 4, "ann", u8(0)))
    id_, held = bytes(16), {2: 3, 3: 1}
    yield "records", reading.asks(id_, 2, held) + reading.carries(id_, 2, held, records[:2]) + reading.carries(id_, 2, held, records[2:]) + reading.frame(b"RXE", u32(0))


def frames():
    for name, stream in peer_streams():
        forged = [stream[:k] for k in range(len(stream) + 1)] + forgeries(stream)
        forged += [stream[:k] + b"\xff\xff\xff\x7f" + stream[k + 4:] for k in range(len(stream) - 3)]
        forged, seen = forged[::every], [0]

        def work(k):
            for given in forged[k::2]:
                peer = Peer(f"peer{k}", 2)
                came = peer.exchange(given)
                most = running.peak(peer.process.pid)
                held = peer.exchange(reading.asks(bytes(16), 9, {}))
                run = peer.end()
                archive = reading.Archive(1, NOW)
                reading.take_frames(archive, bytes(16), given)
                vector = {r.origin: archive.held(r.origin) for r in archive.records}
                due = reading.carries(bytes(16), 1, vector, sorted(archive.records, key=lambda r: (r.origin, r.number)))
                if held != due:
                    fault("frames", "the archive holds other records than the frames brought", given)
                if run.status != 0 or run.said not in ("", "uahist: connection ended (1)\n", "uahist: connection ended (2)\n"):
                    fault("frames", f"ended by {run.status} {run.said!r}", given)
                seen[0] = max(seen[0], most)
                if most > 8000:
                    fault("frames", f"took {most} kB", given)

        with ThreadPoolExecutor(2) as threads:
            list(threads.map(work, range(2)))
        print(f"frames: {name}: {len(forged)} runs, at most {seen[0]} kB", flush=True)


def long():
    """A connection has 1,000,000 chunks, and a dialog 1,000,000 frames: the next one ends it."""
    client = Client()
    sent = client.hello() + client.open() + b"".join(struct.pack("<4sIIIII", b"MSGA", 24, 1, 1, n, n) for n in range(2, 1_000_001))
    for given, due in [(sent[:-24], (0, "")), (sent, (1, "uahist: connection ended (3)\n"))]:
        run = running.run([program, "answer", "--now", str(NOW)], given)
        print(f"long: {len(given)} bytes of chunks: status {run.status}, {run.said!r}, {run.seconds:.1f} s", flush=True)
        if (run.status, run.said) != due or [letters for letters, chunk in cut(run.out)] != ["ACKF", "OPNF"]:
            fault("long", f"chunks ended by {run.status} {run.said!r}", given[:400])
    id_, peer, begin = bytes(16), Peer("long", 1), time.monotonic()
    came, run = peer.exchange(reading.asks(id_, 2, {}) * 1_000_001, 120), peer.end()
    print(f"long: 1,000,001 frames: {len(came)} bytes came, status {run.status}, {run.said!r}, {time.monotonic() - begin:.1f} s", flush=True)
    if came != reading.carries(id_, 1, {}, []) * 1_000_000 + reading.frame(b"RXE", u32(7)) or (run.status, run.said) != (0, ""):
        fault("long", f"frames ended by {run.status} {run.said!r}", came[-100:])


PARTS = {"cuts": cuts, "bytes": forged_bytes, "hex": hexed, "counts": counts, "points": points, "frames": frames, "large": large, "long": long}

if __name__ == "__main__":
    for part in words or PARTS:
        PARTS[part]()
    for (part, what), (count, given) in sorted(faults.items()):
        print(f"{part}: {what}: {count} times, first by\n  {given.hex().upper()}")
    print("each run as it has to be" if not faults else f"{len(faults)} kinds of fault")
    sys.exit(1 if faults else 0)
