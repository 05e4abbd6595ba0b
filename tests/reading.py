"""Reads what a client or a peer sends, byte by byte, by docs/FORMATS.md alone, and says which records it makes.

It knows nothing of how uahist is written, and stands beside the forged bytes of tests/forged.py: whatever they are, the
built program has to hold these records and no others.
"""
import struct
from opcua import *

GREATEST = 2 ** 62 - 1
LONGEST = 1_048_578
SIZES = {1: 1, 2: 1, 3: 1, 4: 2, 5: 2, 6: 4, 7: 4, 8: 8, 9: 8, 10: 4, 11: 8, 13: 8, 14: 16, 19: 4}
TYPES = {"Boolean": 1, "SByte": 2, "Byte": 3, "Int16": 4, "UInt16": 5, "Int32": 6, "UInt32": 7, "Int64": 8, "UInt64": 9, "Float": 10,
         "Double": 11, "String": 12, "DateTime": 13, "Guid": 14, "ByteString": 15}


class Bad(Exception):
    """What comes is no spelling."""


class Reader:
    def __init__(self, data):
        self.data, self.at = data, 0

    def left(self):
        return len(self.data) - self.at

    def take(self, count):
        if count > self.left():
            raise Bad
        self.at += count
        return self.data[self.at - count:self.at]

    def number(self, form):
        return struct.unpack("<" + form, self.take(struct.calcsize(form)))[0]

    def u8(self): return self.number("B")
    def u16(self): return self.number("H")
    def u32(self): return self.number("I")
    def i32(self): return self.number("i")
    def i64(self): return self.number("q")
    def u64(self): return self.number("Q")

    def blob(self):
        count = self.i32()
        if count < -1:
            raise Bad
        return None if count == -1 else self.take(count)

    def text(self):
        bytes_ = self.blob()
        try:
            return None if bytes_ is None else bytes_.decode("utf-8")
        except UnicodeDecodeError:
            raise Bad

    def array(self, item):
        count = self.i32()
        if count < -1 or count > self.left():
            raise Bad
        return [item() for _ in range(max(0, count))]

    def node(self):
        """A node id in its shortest spelling."""
        form = self.u8()
        if form == 0:
            return node(self.u8())
        if form == 1:
            space = self.u8()
            return node(self.u16(), space)
        if form not in (2, 3, 4, 5):
            raise Bad
        space = self.u16()
        if form == 2:
            return node(self.u32(), space)
        if form == 3:
            return u8(3) + u16(space) + blob((self.text() or "").encode())
        if form == 4:
            return u8(4) + u16(space) + self.take(16)
        return u8(5) + u16(space) + blob(self.blob() or b"")

    def extension(self, known):
        """The type of an extension object, and a reader of its body where the type is known."""
        type_id, kind = self.node(), self.u8()
        if kind > 2 or (type_id in known and kind != 1):
            raise Bad
        body = None if kind == 0 else Reader(self.blob() or b"")
        return type_id, kind, body

    def localized(self):
        mask = self.u8()
        if mask > 3:
            raise Bad
        parts = [(bit, self.text()) for bit in (1, 2) if mask & bit]
        return u8(sum(bit for bit, part in parts if part is not None)) + b"".join(text(part) for _, part in parts if part is not None)

    def scalar(self, kind):
        """The canonical spelling of a value of this type."""
        if kind == 1:
            return u8(1 if self.u8() else 0)
        if kind in SIZES:
            return self.take(SIZES[kind])
        if kind == 12:
            return text(self.text())
        if kind == 15:
            return blob(self.blob())
        if kind == 17:
            return self.node()
        if kind == 20:
            return u16(self.u16()) + text(self.text())
        return self.localized()

    def variant(self):
        """A value: its type (none for null), whether it is an array, its spelling."""
        first = self.u8()
        if first == 0:
            return None, False, u8(0)
        kind = first & 63
        if first & 64 or kind not in (*SIZES, 12, 15, 17, 20, 21):
            raise Bad
        if first & 128:
            items = self.array(lambda: self.scalar(kind))
            return kind, True, u8(first) + array(items)
        return kind, False, u8(first) + self.scalar(kind)

    def data_value(self):
        mask = self.u8()
        if mask & 192:
            raise Bad
        value = {}
        for bit, name, read in [(1, "variant", self.variant), (2, "status", self.u32), (4, "source", self.i64), (16, "pico", self.u16),
                                (8, "server", self.i64), (32, "server_pico", self.u16)]:
            value[name] = read() if mask & bit else None
        for name in ("pico", "server_pico"):
            if value[name] is not None:
                value[name] = min(9999, value[name])
        return value

    def vector(self):
        count, held = self.u8(), {}
        if count > 64:
            raise Bad
        for _ in range(count):
            replica, number = self.u8(), self.u64()
            if not (1 <= replica <= 64 and 1 <= number <= GREATEST and all(replica > r for r in held)):
                raise Bad
            held[replica] = number
        return held


def spelled_value(value, source=False):
    fields = [(1, value["variant"] and value["variant"][2], bytes), (2, value["status"], u32), (4, value["source"] if source else None, i64),
              (16, value["pico"], u16), (8, value["server"], i64), (32, value["server_pico"], u16)]
    mask = sum(bit for bit, field, _ in fields if field is not None)
    return u8(mask) + b"".join(put(field) for _, field, put in fields if field is not None)


class Record:
    def __init__(self, origin, number, tick, where, time, pico, asked, user, value):
        self.origin, self.number, self.tick, self.where, self.time, self.pico, self.asked, self.user, self.value = origin, number, tick, where, time, pico, asked, user, value

    def spelled(self):
        name = self.user.encode()
        return (u8(2) + u8(self.origin) + struct.pack("<Q", self.number) + i64(self.tick) + self.where + i64(self.time) + u16(self.pico)
                + u8(self.asked) + blob(name) + self.value)


def id_length(where):
    return struct.unpack_from("<i", where, 3)[0] if where[0] in (3, 5) else 0


def read_record(data):
    """The record that all of these bytes are the canonical spelling of."""
    r = Reader(data)
    version, origin, number, tick = r.u8(), r.u8(), r.u64(), r.i64()
    where, time, pico, asked, user, value = r.node(), r.i64(), r.u16(), r.u8(), r.text(), r.data_value()
    lawful = version == 2 and 1 <= origin <= 64 and 1 <= number <= GREATEST and 1 <= tick <= GREATEST and time >= 1 and pico <= 9999
    lawful = lawful and 1 <= asked <= 4 and user is not None and len(user.encode()) <= 256 and id_length(where) <= 256 and value["source"] is None
    if not lawful or len(data) > LONGEST:
        raise Bad
    record = Record(origin, number, tick, where, time, pico, asked, user, spelled_value(value))
    if record.spelled() != data or (asked == 4 and record.value != u8(0)):
        raise Bad
    return record


class Archive:
    """The records of a replica, in the order in which they came."""

    def __init__(self, replica, now):
        self.replica, self.now, self.records = replica, now, []

    def story(self, where, moment):
        found = [r for r in self.records if r.where == where and (r.time, r.pico) == moment]
        return max(found, key=lambda r: (r.tick, r.origin), default=None)

    def is_live(self, where, moment):
        last = self.story(where, moment)
        return last is not None and last.asked != 4

    def held(self, origin):
        return max((r.number for r in self.records if r.origin == origin), default=0)

    def add(self, where, moment, asked, user, value):
        tick = max([self.now] + [r.tick + 1 for r in self.records])
        self.records.append(Record(self.replica, self.held(self.replica) + 1, tick, where, *moment, asked, user, value))

    def learn(self, record):
        """Whether the record is held then."""
        if record.number <= self.held(record.origin):
            return any(r.spelled() == record.spelled() for r in self.records)
        last = max((r.tick for r in self.records if r.origin == record.origin), default=0)
        if record.number != self.held(record.origin) + 1 or record.tick <= last:
            return False
        self.records.append(record)
        return True

    def dump(self):
        lines = [f"{r.origin} {r.number} {r.tick} {r.spelled().hex().upper()}\n" for r in sorted(self.records, key=lambda r: (r.origin, r.number))]
        return "".join(lines).encode()


class Site:
    """Of a settings file: its variables' types, its users, and whether nobody is let in."""

    def __init__(self, path):
        import tomllib
        told = tomllib.load(open(path, "rb"))
        self.id = bytes.fromhex(told["archive"]["id"].replace("-", ""))
        self.replica = told["archive"]["replica"]
        self.anonymous = told["server"]["anonymous"]
        self.users = {user["name"]: user["password"].encode() for user in reversed(told.get("user", []))}
        self.variables = {node(v["id"], 1): (TYPES[v["type"]], v.get("array", False)) for v in told.get("variable", [])}


def chunks(data):
    """The chunks of a connection up to the first that is ill in its header."""
    at, limit = 0, 65536
    while at + 8 <= len(data):
        letters, size = data[at:at + 4], struct.unpack_from("<I", data, at + 4)[0]
        due = (b"HELF",) if at == 0 else (b"OPNF", b"CLOF", b"MSGF", b"MSGC", b"MSGA")
        least = 24 if letters[:3] in (b"MSG", b"CLO") else 32
        if letters not in due or size < least or size > (4128 if at == 0 else limit) or at + size > len(data):
            return
        if at == 0:
            limit = min(65536, struct.unpack_from("<I", data, 16)[0])
        yield letters, data[at + 8:at + size]
        at += size


class Connection:
    """One client's connection: what it makes of each chunk, until it is over."""

    def __init__(self, site, archive):
        self.site, self.archive, self.is_greeted, self.tokens, self.sequence, self.open, self.sessions, self.made = site, archive, False, 0, None, None, {}, 0

    def take_all(self, data):
        try:
            for letters, body in chunks(data):
                self.take(letters[:3], letters[3:], Reader(body))
        except (Bad, StopIteration):
            pass

    def take(self, letters, kind, body):
        if letters == b"HEL":
            _, receive, send, _, _ = [body.u32() for _ in range(5)]
            body.text()
            if body.left() or receive < 8192 or send < 8192:
                raise Bad
        elif letters == b"OPN":
            self.renew(body)
        else:
            self.place(letters, kind, body)

    def follow(self, sequence):
        last = self.sequence
        if last is not None and sequence != last + 1 and not (last > 4294966271 and sequence < 1024):
            raise Bad
        self.sequence = sequence

    def renew(self, body):
        channel, policy, _, _ = body.u32(), body.text(), body.blob(), body.blob()
        if policy is None or policy.encode() != POLICY or (self.tokens and channel != 1):
            raise Bad
        sequence, _ = body.u32(), body.u32()
        self.follow(sequence)
        type_id, _ = body.node(), header(body)
        _, asked, mode, _, _ = body.u32(), body.i32(), body.i32(), body.blob(), body.u32()
        if self.open or type_id != node(446) or body.left() or asked != (1 if self.tokens else 0) or mode != 1:
            raise Bad
        self.tokens += 1

    def place(self, letters, kind, body):
        channel, token, sequence, request = [body.u32() for _ in range(4)]
        if self.tokens == 0 or channel != 1 or token < 1 or token not in (self.tokens, self.tokens - 1):
            raise Bad
        self.follow(sequence)
        if self.open and request != self.open[0]:
            raise Bad
        if letters == b"CLO":
            raise StopIteration
        if kind == b"A":
            self.open = None
            return
        parts = (self.open[1] if self.open else []) + [body.take(body.left())]
        if len(parts) > 64 or sum(map(len, parts)) > 4_194_304:
            raise Bad
        self.open = (request, parts) if kind == b"C" else None
        if kind == b"F":
            self.message(Reader(b"".join(parts)))

    def message(self, body):
        """A message that can't be read changes nothing, and the connection goes on."""
        try:
            type_id, token = body.node(), header(body)
            served = {node(461): self.create, node(467): self.activate, node(473): self.close, node(700): self.update}.get(type_id)
            if served:
                served(token, body)
        except Bad:
            pass

    def create(self, token, body):
        for read in [body.text, body.text, body.localized, body.i32, body.text, body.text]:
            read()
        body.array(body.text)
        for read in [body.text, body.text, body.text, body.blob, body.blob, body.u64, body.u32]:
            read()
        if body.left():
            raise Bad
        if len(self.sessions) < 16:
            self.made += 1
            self.sessions[node(2 * self.made + 1, 1)] = None

    def activate(self, token, body):
        body.text(), body.blob(), body.array(lambda: (body.blob(), body.blob())), body.array(body.text)
        type_id, kind, inner = body.extension([node(321), node(324)])
        user = None
        if type_id == node(0) and kind == 0:
            user = "anonymous" if self.site.anonymous else None
        elif type_id == node(321):
            inner.text()
            user = "anonymous" if self.site.anonymous else None
        elif type_id == node(324):
            _, name, password, algorithm = inner.text(), inner.text(), inner.blob(), inner.text()
            user = name if not algorithm and name in self.site.users and self.site.users[name] == (password or b"") else None
        if inner is not None and type_id in (node(321), node(324)) and inner.left():
            raise Bad
        body.text(), body.blob()
        if body.left():
            raise Bad
        if token in self.sessions and user is not None:
            self.sessions[token] = user

    def close(self, token, body):
        body.u8()
        if body.left():
            raise Bad
        self.sessions.pop(token, None)

    def update(self, token, body):
        details = body.array(lambda: self.details(body))
        if body.left():
            raise Bad
        user = self.sessions.get(token)
        if user is None or not 1 <= len(details) <= 100:
            return
        for change in details:
            if change is not None and change[1] in self.site.variables:
                change[0](user, *change[1:])

    def details(self, body):
        known = {node(682): self.data, node(688): self.raw, node(691): self.at_times}
        type_id, _, inner = body.extension(known)
        if type_id not in known:
            return None
        where = inner.node()
        if type_id == node(682):
            rest = (inner.i32(), inner.array(inner.data_value))
        elif type_id == node(688):
            rest = (inner.u8(), inner.i64(), inner.i64())
        else:
            rest = (inner.array(inner.i64),)
        if inner.left():
            raise Bad
        return known[type_id], where, *rest

    def data(self, user, where, perform, values):
        if perform not in (1, 2, 3) or not 1 <= len(values) <= 1000:
            return
        for value in values:
            if value["source"] is None or value["source"] < 1:
                continue
            kind = value["variant"] and value["variant"][:2]
            if kind and kind[0] is not None and kind != self.site.variables[where]:
                continue
            moment = (value["source"], value["pico"] or 0)
            live = self.archive.is_live(where, moment)
            if (perform == 1 and live) or (perform == 2 and not live):
                continue
            self.archive.add(where, moment, perform, user, spelled_value(value))

    def at_times(self, user, where, times):
        if not 1 <= len(times) <= 1000:
            return
        for time in times:
            if time >= 1 and self.archive.is_live(where, (time, 0)):
                self.archive.add(where, (time, 0), 4, user, u8(0))

    def raw(self, user, where, modified, start, end):
        if modified or start < 1 or end < start:
            return
        moments = sorted({(r.time, r.pico) for r in self.archive.records if r.where == where})
        doomed = [m for m in moments if self.archive.is_live(where, m) and (start <= m[0] < end or start == end == m[0])]
        if len(doomed) <= 1000:
            for moment in doomed:
                self.archive.add(where, moment, 4, user, u8(0))


def header(body):
    """The token of a request's header."""
    token = body.node()
    body.i64(), body.u32(), body.u32(), body.text(), body.u32(), body.extension([])
    return token


# ---- peers

def frame(letters, body):
    return letters + b"F" + u32(8 + len(body)) + body


def spelled_vector(held):
    return u8(len(held)) + b"".join(u8(r) + struct.pack("<Q", n) for r, n in sorted(held.items()))


def title(archive_id, sender, held):
    return u8(2) + archive_id + u8(sender) + spelled_vector(held)


def asks(archive_id, sender, held):
    return frame(b"RXV", title(archive_id, sender, held))


def carries(archive_id, sender, held, records):
    return frame(b"RXD", title(archive_id, sender, held) + u32(len(records)) + b"".join(blob(r.spelled()) for r in records))


def take_frames(archive, archive_id, data):
    """What a serving replica makes of the frames of a dialog: it learns, up to what ends the dialog."""
    at = 0
    try:
        while at + 8 <= len(data):
            letters, size = data[at:at + 4], struct.unpack_from("<I", data, at + 4)[0]
            if letters not in (b"RXVF", b"RXDF", b"RXEF") or not 12 <= size <= 2_097_152 or at + size > len(data) or letters == b"RXEF":
                return
            body = Reader(data[at + 8:at + size])
            version, named, sender, _ = body.u8(), body.take(16), body.u8(), body.vector()
            count = body.u32() if letters == b"RXDF" else 0
            if version != 2 or named != archive_id or not 1 <= sender <= 64 or sender == archive.replica or count > 1000:
                return
            records = [read_record(body.take(body.u32())) for _ in range(count)]
            if body.left() or not all(archive.learn(r) for r in records):
                return
            at += size
    except Bad:
        return
