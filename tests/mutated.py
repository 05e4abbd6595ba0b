#!/usr/bin/env python3
"""Sends mutated streams to the built program, eight at once, while a healthy client is answered.

    tests/mutated.py PROGRAM [STREAMS [SEED [FIRST]]]

The streams are those of clients (sessions, Browse, Read, HistoryRead, HistoryUpdate, messages in pieces, renewals), of peers and of
browsers, over TCP to one `serve` that has no door. Their bytes are flipped, inserted, deleted, repeated and cut, their lengths, counts
and letters changed, their messages swapped, doubled, left out and mixed; the chunks' sizes and sequence numbers are mostly set right
behind it, so that what is wrong comes far. Stream K of a SEED is always the same one: FIRST is where to begin, so that some can be sent
again by themselves. 20,000 streams of the seed 1 are sent where no number is given.

Meanwhile a client asks each 50 ms for a value that no stream names, and has to be answered with it, within a second each time. What the
program holds in memory is told at each tenth, and has to stay: in the last half no more than 8 MB above what it was at the first tenth,
and 300 bytes for each record that the archive got. What is answered has to be whole chunks, frames or pages. Behind it the program has
to live, to be idle, to have no descriptor more than before, and to end by the signal that stops it; each line of its events has to be one
of the kinds that docs/OPERATIONS.md has, without controls. Its store has to be opened; each record has to be one, by tests/reading.py, their numbers without a gap; and a server over it has to answer the same value. Each line that begins
with OTHERWISE is one that didn't hold; the exit status is 1 then. The last line has the numbers.
"""
import atexit, collections, multiprocessing, os, random, re, select, signal, socket, struct, subprocess, sys, tempfile, threading, time
import opcua, reading, usage
from opcua import Client, int32, node, u32, value_at

usage.shown(__doc__, 1)
from network_line import Line, status
from running import NOW, forget, free_port, listens, peak, run, write_settings

program = os.path.abspath(sys.argv[1])
streams, seed, first = (int(word) for word in (sys.argv[2:] + ["20000", "1", "0"][len(sys.argv[2:]):])[:3])
AT_ONCE, IDLE, LATE, ROOM, RECORD = 8, 0.02, 10, 8_192, 300
ID, T, U, OWN = bytes(16), node("T", 1), node("U", 1), node("of the healthy client alone", 1)
TIMES = [NOW + k for k in range(20)]
LETTERS = [b"HELF", b"OPNF", b"MSGF", b"MSGC", b"MSGA", b"CLOF", b"RXVF", b"RXDF", b"RXEF", b"ERRF", b"GET "]
COUNTS = [u32(n) for n in (0, 1, 2, 255, 1000, 1001, 65_535, 65_536, 1 << 20, (1 << 31) - 1, 1 << 31, (1 << 32) - 2, (1 << 32) - 1)]
BYTES = [0, 1, 2, 3, 63, 64, 127, 128, 192, 255]
HOST = r"uahist: \d{4}-\d\d-\d\dT\d\d:\d\d:\d\d\.\d{7}Z 127\.0\.\d+\.1:\d+ "
EVENTS = [r"connected to (clients and peers|browsers)", r"ended after \d+ ms and \d+ answers?: .{1,100}", r'(logged in|was refused) as "[^\x00-\x1f\x7f]*"(: [0-9A-F]{8})?',
          r"was refused as a browser: no such user or password", r'as "[^\x00-\x1f\x7f]*" asked (to (insert|replace|update|delete)|for an update) [^\x00-\x1f\x7f]+: (Good|[0-9A-F]{8})']
BEGAN = r"uahist: \d{4}-\d\d-\d\dT\d\d:\d\d:\d\d\.\d{7}Z started: version [0-9.]+, archive [0-9a-f-]{36}, replica \d+; clients and peers at 127\.0\.0\.1:\d+(, browsers at 127\.0\.0\.1:\d+)?; \d+ records?"
SAID = [r"uahist: connection ended \([1-4]\)", r"uahist: exchange ended \(\d+\)", r"uahist: \d+ events? more weren't told", BEGAN, *(HOST + event for event in EVENTS)]
SAID = [re.compile(shape) for shape in SAID]
KINDS = ["a fault", "an exchange's end", "a count of more", "a start", "a connection", "an end", "a login", "a browser's refusal", "an update"]
POINT = (b"\3" + ID + T + b"\0" + struct.pack("<qqI", NOW, NOW + 100, 2) + b"\0\2" + struct.pack("<qHqB", NOW + 1, 0, 0, 0) + u32(0)
         + reading.spelled_vector({1: 5}))
held = []


def tell(is_so, what, seen=""):
    """Prints that something holds, or what was seen where it doesn't."""
    held.append(bool(is_so))
    print(what if is_so else f"OTHERWISE: {what}: {seen}", flush=True)


# ---- valid streams, each as its messages

def values():
    """A value of each type, at times that nobody else writes."""
    spelled = [opcua.u8(kind) + bytes(size) for kind, size in reading.SIZES.items()]
    spelled += [opcua.u8(12) + opcua.text("tank"), opcua.u8(15) + opcua.blob(b"\1\2"), opcua.u8(17) + T, opcua.u8(20) + opcua.u16(1) + opcua.text("q")]
    spelled += [opcua.u8(21) + opcua.u8(3) + opcua.text("en") + opcua.text("on"), opcua.u8(0x86) + opcua.array([opcua.i32(k) for k in range(9)])]
    spelled += [opcua.u8(0x8C) + opcua.array([opcua.text("a"), opcua.text(None), opcua.text("ä")]), opcua.u8(0xC6) + opcua.array([opcua.i32(1)] * 4) + opcua.array([opcua.i32(2)] * 2)]
    return [value_at(variant, NOW + 100 + k) for k, variant in enumerate(spelled)]


def piece(client, chance):
    """A valid request, as its chunks; of the updates few make records."""
    chosen = chance.randrange(22)
    if chosen == 0:
        return [client.get_endpoints()]
    if chosen == 1:
        return [client.browse([node(84), node(85), T])]
    if chosen == 2:
        return [client.browse([node(2253)] * 30)]
    if chosen in (3, 4):
        return [client.read([(T, 13), (T, 4), (node(2259), 13), (node("nobody", 1), 1)])]
    if chosen == 5:
        return [client.read([(T, attribute) for attribute in range(1, 28)], chance.randrange(4))]
    if chosen == 6:
        return [client.history_read([T], NOW, NOW + 1000, 3)]
    if chosen == 7:
        return [client.history_read([T, U], NOW, NOW + 30, 5, bounds=True)]
    if chosen == 8:
        return [client.history_read([T], NOW + 30, 0, 5, modified=True, stamps=2)]
    if chosen in (9, 10):
        return [client.history_read([T], NOW, NOW + 100, 2, point=POINT)]
    if chosen in (11, 12):
        return [client.update(T, 1, [value_at(int32(k), at) for k, at in enumerate(TIMES[:5])])]  # they are there
    if chosen == 13:
        return [client.update(T, 2, [opcua.u8(63) + int32(5) + u32(0) + opcua.i64(NOW + 50) + opcua.u16(7) + opcua.i64(NOW) + opcua.u16(9)])]  # nothing is there
    if chosen == 14:
        return [client.update(T, 1, values())]  # of other types than the variable's
    if chosen == 15:
        return [client.update(node("nobody", 1), 3, values())]
    if chosen == 16 and chance.randrange(4) == 0:
        return [client.update(T, 3, [value_at(int32(chance.randrange(9)), chance.choice(TIMES))])]
    if chosen == 16:
        return [client.delete_at(T, [NOW + 60, NOW + 61])]
    if chosen == 17:
        return [client.delete_raw(T, NOW + 60, NOW + 70)]
    if chosen == 18:
        body = opcua.array([opcua.extension(682, T + u32(1) + opcua.array([value_at(int32(k), at) for k, at in enumerate(TIMES)]))])
        return [whole for _, whole in opcua.cut(client.chunks(700, body, 60))]
    if chosen == 19:
        return [b"MSGA" + client.message(631, bytes(40))[4:]]
    if chosen == 20:
        n = client.next()
        renewal = opcua.blob(opcua.POLICY) + opcua.blob(None) * 2 + n + n + node(446) + client.header() + u32(0) + u32(1) + u32(1) + opcua.blob(None) + u32(0)
        return [b"OPNF" + u32(12 + len(renewal)) + u32(1) + renewal]
    return [client.message(0, b"")]


def of_a_client(chance):
    client = Client()
    sent = [client.hello(), client.open()]
    if chance.randrange(20):
        sent += [client.create_session(), client.activate("ann", b"pw") if chance.randrange(2) else client.activate()]
    for _ in range(chance.randrange(1, 6)):
        sent += piece(client, chance)
    if chance.randrange(3) == 0:
        sent.append(client.close_session())
    if chance.randrange(3) == 0:
        closing = u32(1) + u32(1) + client.next() + client.next()
        sent.append(b"CLOF" + u32(8 + len(closing)) + closing)
    return sent


def of_a_peer(chance):
    """Frames of replica 2, which brings the same five records each time, and mostly has all that it could be sent."""
    records = [reading.Record(2, k, NOW + 10 * k, T if k % 2 else U, NOW + 200 + k, 0, 1 + k % 3, "bob", opcua.u8(1) + int32(k)) for k in range(1, 6)]
    all_, sent = {1: 1 << 50, 2: 5, 3: 1 << 50}, []
    for _ in range(chance.randrange(1, 4)):
        chosen = chance.randrange(8)
        if chosen == 0:
            sent.append(reading.asks(ID, 2, {1: 1 << 50} if chance.randrange(4) else {}))
        elif chosen < 4:
            sent.append(reading.asks(ID, 2, all_))
        elif chosen == 4:
            sent.append(reading.carries(ID, 2, all_, []))
        else:
            sent.append(reading.carries(ID, 2, {2: 5}, records[:chance.randrange(1, 6)]))
    return sent + [reading.frame(b"RXE", u32(0 if chance.randrange(4) else chance.randrange(12)))]


def of_a_browser(chance):
    """A request for a page, as its lines."""
    path = chance.choice(["/", "/history?node=ns%3D1%3Bs%3DT", "/history?node=ns%3D1%3Bs%3DT&changes=true&from=2024-01-01T00:00:00Z", "/history.csv?node=ns%3D1%3Bs%3DU",
                          "/history.csv?node=ns%3D1%3Bs%3DT&to=2030-01-01T00:00:00.0000001Z", "/status.json", "/history?node=nobody", "/nowhere"])
    head = [f"{chance.choice(('GET', 'GET', 'HEAD', 'POST'))} {path} HTTP/1.{chance.randrange(4) > 0:d}\r\n", "Host: x\r\n"]
    head += [line for line in ("Authorization: Basic YW5uOnB3\r\n", "Accept: text/html\r\n", "Connection: keep-alive\r\n", "Content-Length: 0\r\n") if chance.randrange(2)]
    return [line.encode() for line in head] + [b"\r\n"]


# ---- mutations

def sized(message):
    """A chunk or frame whose size is that of its bytes; a browser's line as it is."""
    return message[:4] + u32(len(message)) + message[8:] if len(message) >= 8 and message[3:4] in (b"F", b"C", b"A") else message


def numbered(messages):
    """Chunks whose sequence numbers and request ids run on from 1, but within a message in pieces, which has one id."""
    out, sequence, request = [], 0, None
    for message in messages:
        if message[:3] in (b"MSG", b"CLO") and len(message) >= 24:
            sequence += 1
            request = request or sequence
            message = message[:16] + u32(sequence) + u32(request) + message[24:]
            request = request if message[3:4] == b"C" else None
        elif message[:3] == b"OPN" and len(message) >= 71 + 8:
            sequence += 1
            message = message[:71] + u32(sequence) + u32(sequence) + message[79:]
        out.append(message)
    return out


def place(message, chance):
    """Where a message is changed: mostly behind its headers."""
    if len(message) > 24 and chance.random() < 0.7:
        return chance.randrange(24, len(message))
    return chance.randrange(len(message))


def bytes_changed(message, others, chance):
    """One message with some bytes changed."""
    chosen, at = chance.randrange(13), place(message, chance)
    if chosen < 2:
        return message[:at] + bytes([message[at] ^ 1 << chance.randrange(8)]) + message[at + 1:]
    if chosen < 4:
        return message[:at] + bytes([chance.choice(BYTES) if chance.randrange(3) else chance.randrange(256)]) + message[at + 1:]
    if chosen == 4:
        return message[:at] + chance.choice(COUNTS) + message[at + 4:]
    if chosen == 5:
        number = int.from_bytes(message[at:at + 4], "little") + chance.choice((-2, -1, 1, 2))
        return message[:at] + u32(number & 0xFFFFFFFF) + message[at + 4:]
    if chosen == 6:
        return message[:4] + (chance.choice(COUNTS) if chance.randrange(2) else u32(max(0, len(message) + chance.randrange(-9, 10)))) + message[8:]
    if chosen == 7:
        return chance.choice(LETTERS) + message[4:]
    if chosen == 8:
        changed = message[:at] + chance.randbytes(chance.randrange(1, 17)) + message[at:]
    elif chosen == 9:
        changed = message[:at] + message[at + chance.randrange(1, 17):]
    elif chosen == 10:
        changed = message[:at] + message[at:at + chance.randrange(1, 40)] * chance.choice((2, 2, 3, 20)) + message[at:]
    elif chosen == 11:
        changed = message[:at]
    else:
        other = chance.choice(others)
        changed = message[:at] + other[place(other, chance):]
    return sized(changed) if chance.randrange(4) else changed


def mutated(messages, others, chance):
    """The bytes of a stream that was changed here and there."""
    messages, is_moved = list(messages), False
    for _ in range(chance.choice((1, 1, 1, 2, 2, 3, 5, 8))):
        chosen, k = chance.randrange(12), chance.randrange(len(messages))
        if chosen > 3:
            messages[k] = bytes_changed(messages[k] or b"\0", others, chance)
            continue
        is_moved = True
        if chosen == 0:
            other = chance.randrange(len(messages))
            messages[k], messages[other] = messages[other], messages[k]
        elif chosen == 1:
            messages.insert(chance.randrange(len(messages) + 1), messages[k])
        elif chosen == 2:
            messages[k:k + 1] = [] if len(messages) > 1 else messages[k:k + 1]
        else:
            messages.insert(chance.randrange(1, len(messages) + 1), chance.choice(others))
    if is_moved and chance.randrange(4):
        messages = numbered(messages)
    sent = b"".join(messages)
    if chance.randrange(12) == 0:
        sent = sent[:chance.randrange(len(sent) + 1)]
    if chance.randrange(40) == 0:
        sent += chance.randbytes(chance.randrange(1, 200))
    return sent


class Streams:
    """All streams of a seed."""

    def __init__(self, seed):
        chance = random.Random(seed)
        self.seed, self.clients, self.peers = seed, [of_a_client(chance) for _ in range(400)], [of_a_peer(chance) for _ in range(60)]
        self.browsers = [of_a_browser(chance) for _ in range(60)]
        self.others = [message for stream in self.clients + self.peers for message in stream]
        self.lines = [line for stream in self.browsers for line in stream]

    def one(self, k):
        """Stream k: whether it is a browser's, the bytes in the parts in which they are sent, and how its end is made."""
        chance = random.Random((self.seed << 40) + k)
        is_web = chance.randrange(20) == 0
        if chance.randrange(60) == 0:
            sent = chance.choice(LETTERS) + chance.randbytes(chance.randrange(200))
        elif is_web:
            sent = mutated(chance.choice(self.browsers), self.lines, chance)
        else:
            sent = mutated(chance.choice(self.peers if chance.randrange(6) == 0 else self.clients), self.others, chance)
        cuts = sorted(chance.randrange(len(sent) + 1) for _ in range(0 if chance.randrange(4) else chance.randrange(1, 4)))
        parts = [sent[a:b] for a, b in zip([0, *cuts], [*cuts, len(sent)])]
        return is_web, parts, chance.choices(("half", "idle", "reset"), (85, 10, 5))[0]


# ---- sending

def is_whole(came, is_over, is_web, told):
    """Whether what came is whole chunks or frames that an end answers, or a page; the last may be cut where the connection goes on. Of
    each it is noted which it is, with its status."""
    if is_web:
        head, _, body = bytes(came).partition(b"\r\n\r\n")
        told[bytes(came[9:12]).decode(errors="replace") if came else "no page"] += 1
        length = re.search(rb"\r\nContent-Length: (\d+)", head)
        is_done = not length or len(body) in (0, int(length[1]))
        return not came or re.match(rb"HTTP/1\.1 \d\d\d ", came) is not None and (is_done or not is_over)
    at = 0
    while at + 8 <= len(came):
        letters, size = bytes(came[at:at + 4]), struct.unpack_from("<I", came, at + 4)[0]
        if letters not in (b"ACKF", b"OPNF", b"MSGF", b"MSGC", b"ERRF", b"RXVF", b"RXDF", b"RXEF") or not 8 < size <= (2_097_152 if letters[:2] == b"RX" else 65_536):
            return False
        code = {b"ERRF": 8, b"RXEF": 8, b"MSGF": 40}.get(letters)
        told[letters[:3].decode() + (f" {struct.unpack_from('<I', came, at + code)[0]:X}" if code and at + code + 4 <= len(came) else "")] += 1
        at += size
    if not came:
        told["nothing"] += 1
    return at == len(came) or not is_over


class Slot:
    """One connection of those that are there at once, with its stream."""

    is_cut = False

    def __init__(self, ports, k, is_web, parts, end):
        self.k, self.is_web, self.parts, self.end, self.came = k, is_web, parts, end, bytearray()
        self.until = time.monotonic() + LATE
        self.socket = socket.socket()
        # The addresses of the loopback network take turns, so that no port is wanting for those that are still kept for ended ones.
        self.socket.setsockopt(socket.SOL_IP, 24, 1)  # IP_BIND_ADDRESS_NO_PORT
        self.socket.bind((f"127.0.{1 + k // 10_000 % 100}.1", 0))
        self.socket.connect(("127.0.0.1", ports[is_web]))
        self.socket.setblocking(False)

    def send(self):
        """Sends what can be sent; whether all is."""
        try:
            if self.parts:
                part = self.parts[0]
                count = self.socket.send(part) if part else 0
                self.parts[0:1] = [part[count:]] if count < len(part) else []
        except BlockingIOError:
            pass
        except OSError:
            self.parts = []
        if self.parts:
            return False
        if self.end == "half":
            try:
                self.socket.shutdown(socket.SHUT_WR)
            except OSError:
                pass
        elif self.end == "idle":
            self.until = time.monotonic() + IDLE
        return True

    def take(self):
        """Takes what came; whether the connection is over."""
        try:
            more = self.socket.recv(1 << 18)
        except BlockingIOError:
            return False
        except OSError:
            self.is_cut = True
            return True
        self.came += more
        if more and self.end == "idle" and not self.parts:
            self.until = time.monotonic() + IDLE
        return not more

    def close(self):
        if self.end == "reset":
            self.socket.setsockopt(socket.SOL_SOCKET, socket.SO_LINGER, struct.pack("ii", 1, 0))
        self.socket.close()


class Sending:
    """Sends all streams, so many at once."""

    def __init__(self, ports, process):
        self.ports, self.process, self.all, self.next, self.done, self.slots = ports, process, Streams(seed), first, 0, {}
        self.late, self.strange, self.answered, self.ended, self.poll = [], [], collections.Counter(), collections.Counter(), select.epoll()

    def begin(self):
        slot = Slot(self.ports, self.next, *self.all.one(self.next))
        self.next += 1
        self.slots[slot.socket.fileno()] = slot
        self.poll.register(slot.socket.fileno(), select.EPOLLIN | select.EPOLLOUT)

    def over(self, number, is_over):
        slot = self.slots.pop(number)
        self.poll.unregister(number)
        slot.close()
        self.done += 1
        self.ended["by the server" if is_over else slot.end] += 1
        if not is_whole(slot.came, is_over and not slot.is_cut, slot.is_web, self.answered):
            self.strange.append((slot.k, bytes(slot.came[:80]).hex()))

    def until(self, count):
        """Goes on until so many streams are over; false where nobody is there any more."""
        while self.done < count:
            while len(self.slots) < AT_ONCE and self.next < first + streams:
                try:
                    self.begin()
                except OSError as error:
                    return self.lost(error)
            for number, event in self.poll.poll(IDLE):
                slot = self.slots[number]
                if event & select.EPOLLOUT and (not slot.parts or slot.send()):
                    if slot.end == "reset":
                        self.over(number, False)
                        continue
                    self.poll.modify(number, select.EPOLLIN)
                if event & (select.EPOLLIN | select.EPOLLHUP | select.EPOLLERR) and slot.take():
                    self.over(number, True)
            now = time.monotonic()
            for number, slot in list(self.slots.items()):
                if now > slot.until:
                    if slot.end != "idle" or slot.parts:
                        self.late.append(slot.k)
                    self.over(number, False)
            if self.done % 256 == 0 and self.process.poll() is not None:
                return self.lost("it ended")
        return True

    def lost(self, error):
        print(f"the program is gone ({error}): of seed {seed} the streams from {max(0, self.next - 2 * AT_ONCE)} to {self.next - 1} came last", flush=True)
        return False


def healthy(port, told, stop):
    """A client that asks for its own value each 50 ms: how often it was answered, its longest wait, and what was otherwise."""
    line, times, wrong = Line(port).begin(), [], []
    line.socket.settimeout(60)
    try:
        code = line.ask(line.client.update(OWN, 1, [value_at(int32(4711), NOW)]))
        assert status(code) == 0
        want = line.ask(line.client.read([(OWN, 13)], 0))[40:]
        assert b"\x06" + opcua.i32(4711) in want
        while not stop.is_set():
            begin = time.monotonic()
            answer = line.ask(line.client.read([(OWN, 13)], 0))
            times.append(time.monotonic() - begin)
            if answer[40:] != want or answer[36:40] != u32(line.client.sequence):
                wrong.append(answer.hex())
            time.sleep(0.05)
    except (OSError, AssertionError) as error:
        wrong.append(repr(error))
    told.send((len(times), max(times, default=0), wrong))


def resident(process):
    """What the program holds in memory now, in kB."""
    return int(re.search(r"VmRSS:\s+(\d+)", open(f"/proc/{process.pid}/status").read())[1])


def seconds_of(process):
    """Seconds of a processor so far."""
    stat = open(f"/proc/{process.pid}/stat").read().rsplit(")", 1)[1].split()
    return (int(stat[11]) + int(stat[12])) / os.sysconf("SC_CLK_TCK")


def main():
    folder = tempfile.TemporaryDirectory(dir="/dev/shm" if os.path.isdir("/dev/shm") else None)
    port, web, store = free_port(), free_port(), os.path.join(folder.name, "store.db")
    settings = write_settings(os.path.join(folder.name, "settings.toml"), "settings.toml", 1, port, store)
    with open(settings, "a") as more:
        more.write('\n[[variable]]\nid = "of the healthy client alone"\nname = "own"\ntype = "Int32"\n\n[log]\nevents = true\n' + f'\n[web]\nlisten = "127.0.0.1:{web}"\n')
    process = subprocess.Popen([program, "serve", "--settings", settings], stdin=subprocess.DEVNULL, stdout=subprocess.DEVNULL, stderr=subprocess.PIPE, text=True, errors="backslashreplace")
    atexit.register(process.kill)
    said, strange = collections.Counter(), []

    def read():
        for line in process.stderr:
            line = line.rstrip("\n")
            shape = next((k for k, shape in enumerate(SAID) if shape.fullmatch(line)), None)
            said["another line" if shape is None else KINDS[shape]] += 1
            if shape is None and len(strange) < 5:
                strange.append(line)

    reader = threading.Thread(target=read, daemon=True)
    reader.start()
    assert listens(port, process), "nobody listens"
    line = Line(port).begin()
    assert status(line.ask(line.client.update(T, 1, [value_at(int32(k), at) for k, at in enumerate(TIMES)]))) == 0
    line.socket.close()
    forked = multiprocessing.get_context("fork")
    (told, tells), stop = forked.Pipe(False), forked.Event()
    beside = forked.Process(target=healthy, args=(port, tells, stop), daemon=True)
    beside.start()
    time.sleep(0.5)

    descriptors = len(os.listdir(f"/proc/{process.pid}/fd"))
    sending, begin, tenths, is_there = Sending((port, web), process), time.monotonic(), [], True
    for tenth in range(1, 11):
        is_there = is_there and sending.until(streams * tenth // 10)
        if not is_there:
            break
        seconds = time.monotonic() - begin
        tenths.append(resident(process))
        print(f"{sending.done} streams, {sending.done / seconds:.0f} a second: {tenths[-1]} kB, {peak(process.pid)} kB at most so far", flush=True)
    seconds = time.monotonic() - begin
    stop.set()
    count, longest, wrong = told.recv() if told.poll(70) else (0, 0, ["nothing told"])
    greatest = peak(process.pid) if is_there and process.poll() is None else 0
    is_there = is_there and process.poll() is None
    tell(is_there, f"the program lives behind {sending.done} streams", process.poll())
    if is_there:
        time.sleep(1)
        used = seconds_of(process)
        time.sleep(1)
        used, more = seconds_of(process) - used, len(os.listdir(f"/proc/{process.pid}/fd")) - descriptors
        tell(used < 0.2 and more <= 0, "then it is idle, and has no descriptor more than before", (used, more))
    process.terminate()
    try:
        ended = process.wait(30)
    except subprocess.TimeoutExpired:
        process.kill()
        ended = process.wait()
    reader.join(10)
    for what, counts in (("answered", sending.answered), ("ended", sending.ended), ("said", said)):
        print(f"{what}: " + ", ".join(f"{name} {many}" for name, many in sorted(counts.items())), flush=True)
    tell(ended == -signal.SIGTERM, "it ends by the signal that stops it", ended)
    tell(not strange, "each line that it said is one of its kinds", strange)
    tell(not sending.strange, "all that was answered were whole chunks, frames and pages", sending.strange[:3])
    tell(not sending.late, f"no stream whose end was told was kept for {LATE} s", sending.late[:8])
    tell(count and not wrong, f"the healthy client was answered rightly {count} times", wrong[:2])
    tell(longest < 1, f"and no answer took a second: the longest {1000 * longest:.0f} ms", longest)

    dumped = run([program, "dump", "--settings", settings], most=300)
    lines, numbers, bad = dumped.out.decode().splitlines(), collections.Counter(), []
    for text in lines:
        try:
            record = reading.read_record(bytes.fromhex(text.split()[3]))
            numbers[record.origin] += 1
            if text.split()[:3] != [str(record.origin), str(numbers[record.origin]), str(record.tick)] or record.number != numbers[record.origin]:
                bad.append(text[:200])
        except reading.Bad:
            bad.append(text[:200])
    tell(dumped.status == 0 and not bad, f"the store is opened, and each of its {len(lines)} records is one, without a gap", (dumped.status, dumped.said, bad[:2]))
    checked = run([program, "check", "--store", "--settings", settings], most=300)
    tell(checked.status == 0 and not checked.said, "check --store ends well", (checked.status, checked.said, checked.out[-300:]))
    again = subprocess.Popen([program, "serve", "--settings", settings, "--connections", "1"], stdin=subprocess.DEVNULL, stderr=subprocess.PIPE, text=True)
    line = Line(port).begin() if listens(port, again, 60) else None
    answer = line.ask(line.client.read([(OWN, 13)], 0)) if line else b""
    if line:
        line.socket.close()
    _, words = again.communicate(timeout=30)
    is_said = all(any(shape.fullmatch(text) for shape in SAID[3:]) for text in words.splitlines())
    tell(b"\x06" + opcua.i32(4711) in answer and again.returncode == 0 and is_said, "a server over it answers the same value, and ends with status 0", (answer.hex(), again.returncode, words))
    if tenths:
        room = ROOM + RECORD * len(lines) // 1024
        grown = max(tenths[4:] or tenths) - tenths[0]
        tell(grown <= room, f"in the last half it held no more than {room} kB above the first tenth: {grown} kB", tenths)
    print(f"{sending.done} streams (seed: {seed}), {sending.done / seconds:.0f} a second; the longest of {count} answers to the healthy client {1000 * longest:.0f} ms; "
          f"{(tenths or [0])[0] / 1024:.1f} MB at the first tenth, {(tenths or [0])[-1] / 1024:.1f} MB at the end, {greatest / 1024:.1f} MB at most; "
          f"{len(lines)} records; {held.count(False)} things were otherwise", flush=True)
    forget(store)
    sys.exit(0 if all(held) else 1)


if __name__ == "__main__":
    main()
