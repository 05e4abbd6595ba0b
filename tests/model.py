#!/usr/bin/env python3
"""A plain model of a historian's updates and reads, and random clients that compare a server with it, answer by answer.

    tests/model.py CLIENTS REQUESTS FIRST COMMAND [WORD ..]

Each client begins a session (every other one as `ann`), and then asks at random: writes, deletes and reads of values and of
modifications, at times and picoseconds that meet often, with bounds, with counts, forward and backward, and with the
continuation points that earlier reads gave, also behind later updates. COMMAND answers one connection from standard input
to standard output, over an empty archive, at the moment 116444736000000000 and over tests/settings.toml, as

    uahist answer --settings tests/settings.toml --now 116444736000000000

does. The model keeps a list of records and knows nothing of how uahist is written; it was made from the rules in docs/.
FIRST is the number of the first client, so that a run can be told from another one.
"""
import random, struct, subprocess, sys
import usage
from opcua import *

NULL = i32(-1)
NO_DATA = node(0) + u8(0)
GREATEST = 2**63 - 1
NO_DATA_YET, NO_DATA_THERE, NO_BOUND = 0x80320000, 0x00A50000, 0x80D70000


class Record:
    def __init__(self, number, tick, where, moment, asked, user, value):
        self.number, self.tick, self.where, self.moment, self.asked, self.user, self.value = number, tick, where, moment, asked, user, value


class Archive:
    """Records in the order in which they were made."""

    def __init__(self, records=()):
        self.records = list(records)

    def add(self, where, moment, asked, user, value):
        tick = max([EPOCH] + [r.tick + 1 for r in self.records])
        self.records.append(Record(len(self.records) + 1, tick, where, moment, asked, user, value))

    def story(self, where, moment):
        return [r for r in self.records if r.where == where and r.moment == moment]

    def moments(self, where):
        return sorted({r.moment for r in self.records if r.where == where})

    def live(self, where, moment):
        """The live value, as its moment, the value, and whether there are other records."""
        story = self.story(where, moment)
        return None if not story or story[-1].asked == 4 else (moment, story[-1].value, len(story) > 1)

    def lives(self, where):
        return [x for x in (self.live(where, m) for m in self.moments(where)) if x]

    def entries(self, where, moment):
        """The modifications, oldest first: moment, value shown, kind, tick, user."""
        out, before = [], None
        for r in self.story(where, moment):
            stood = before.value if before is not None and before.asked != 4 else None
            shown = stood if stood is not None else r.value if r.asked != 4 else None
            kind = 4 if r.asked == 4 else 1 if stood is None else 3 if r.asked == 3 else 2
            out.append((moment, shown, kind, r.tick, r.user))
            before = r
        return out


def spell(variant=None, status=None, source=None, pico=None, server=None, server_pico=None):
    """A DataValue."""
    fields = [(1, variant, bytes), (2, status, u32), (4, source, i64), (16, pico, u16), (8, server, i64), (32, server_pico, u16)]
    mask = sum(bit for bit, field, _ in fields if field is not None)
    return u8(mask) + b"".join(put(field) for _, field, put in fields if field is not None)


def shown(stamps, value, moment, more=False):
    """A stored value, or None, as a read shows it."""
    source, server = stamps in (0, 2), stamps in (1, 2)
    time = moment[0] if source else None
    if value is None:
        return spell(source=time)
    status = (value["status"] or 0) | 0x408 if more else value["status"]
    return spell(value["variant"], status, time, value["pico"] if source else None, value["server"] if server else None, value["server_pico"] if server else None)


def missing(stamps, moment):
    return spell(status=NO_BOUND, source=moment[0] if stamps in (0, 2) else None)


class Query:
    def __init__(self, modified, start, end, count, bounds, stamps):
        self.modified, self.start, self.end, self.count, self.bounds, self.stamps = modified, start, end, count, bounds, stamps
        self.both = start >= 1 and end >= 1
        self.backward = (self.both and end < start) or start < 1
        self.origin = (start if start >= 1 else end, 0)
        self.far = (end, 0) if self.both else None

    def refusal(self):
        if self.modified and self.bounds:
            return 0x80AB0000
        if (self.start >= 1) + (self.end >= 1) + (self.count != 0) < 2:
            return 0x80710000

    def has(self, moment):
        if self.origin == self.far:
            return moment[0] == self.origin[0]
        if self.backward:
            return moment <= self.origin and (self.far is None or moment > self.far)
        return moment >= self.origin and (self.far is None or moment < self.far)

    def beyond(self, moment, place):
        return moment < place if self.backward else moment > place


def modifications(archive, where, query, place):
    moments = [m for m in archive.moments(where) if query.has(m)]
    items = []
    for moment in reversed(moments) if query.backward else moments:
        entries = archive.entries(where, moment)
        items += entries if query.backward else entries[::-1]
    if place is not None:
        items = items[1 + next(i for i, e in enumerate(items) if (e[0], e[3]) == place):]
    return items


def values(archive, where, query, place):
    """Items of a raw read that follow a place: live values, and missing bounds, which are their moments alone."""
    lives = archive.lives(where)[::-1] if query.backward else archive.lives(where)
    alone = query.bounds and query.count == 1
    items = []
    if query.bounds and place is None:
        at = archive.live(where, query.origin)
        if at is None:
            before = [x for x in lives if query.beyond(query.origin, x[0])]
            at = before[-1] if before else (query.origin,)
        items.append(at)
    behind = place if place is not None else query.origin if query.bounds else None
    if not alone:
        items += [x for x in lives if query.has(x[0]) and (behind is None or query.beyond(x[0], behind))]
    if query.bounds and not alone:
        items.append(far_bound(lives, query, items[-1][0] if items else place))
    return items


def far_bound(lives, query, before):
    if query.far is None:
        ticks = max(-(2**63), before[0] - 10_000_000) if query.backward else min(GREATEST, before[0] + 10_000_000)
        return ((ticks, 0),)
    if query.origin == query.far:
        there = [x for x in lives if x[0] > (query.far[0], 9999)]
    else:
        there = [x for x in lives if x[0] == query.far or query.beyond(x[0], query.far)]
    return there[0] if there else (query.far,)


def read(archive, where, query, point):
    """The result of a node, and, where its page isn't the last, its continuation point and what that says."""
    if query.refusal():
        return u32(query.refusal()) + NULL + NO_DATA, None, None
    place, given, held = point or (None, 0, len(archive.records))
    within = Archive(archive.records[:held])
    items = (modifications if query.modified else values)(within, where, query, place)
    size = 1000 if query.count == 0 else min(1000, query.count if query.both else query.count - given)
    page, bytes_, said = items[:size], None, None
    if len(items) > size and not (not query.both and query.count <= given + size):
        last, later = page[-1], 0 if query.both else given + size
        said = ((last[0], last[3]) if query.modified else last[0], later, held)
        vector = u8(1) + u8(1) + struct.pack("<Q", held) if held else u8(0)
        bytes_ = u8(3) + bytes(16) + node(where, 1) + u8(query.modified) + i64(query.start) + i64(query.end) + u32(query.count) + u8(query.bounds) + u8(2) \
            + i64(last[0][0]) + u16(last[0][1]) + i64(last[3] if query.modified else 0) + u8(query.modified) + u32(later) + vector
    if query.modified:
        told = [array([shown(query.stamps, e[1], e[0]) for e in page]), array([i64(e[3]) + u32(e[2]) + text(e[4]) for e in page])]
        data = extension(11227, b"".join(told))
    else:
        data = extension(658, array([missing(query.stamps, x[0]) if len(x) == 1 else shown(query.stamps, x[1], x[0], x[2]) for x in page]))
    return u32(0 if page else NO_DATA_THERE) + blob(bytes_) + data, bytes_, said


class Talk:
    """One client: what it sends, and what it is to be answered behind the answer to its activation."""

    def __init__(self, seed):
        self.chance, self.client, self.archive = random.Random(seed), Client(), Archive()
        self.user = "ann" if seed % 2 else "anonymous"
        activate = self.client.hello() + self.client.open() + self.client.create_session()
        self.sent = [activate + (self.client.activate("ann", b"pw") if seed % 2 else self.client.activate())]
        self.due, self.points = [], []

    def answered(self, type_id, body):
        n = self.client.sequence
        inner = node(type_id) + i64(EPOCH) + u32(n) + u32(0) + u8(0) + NULL + NO_DATA + body
        self.due.append(b"MSGF" + u32(24 + len(inner)) + u32(1) * 2 + u32(n) * 2 + inner)

    def updated(self, status, codes):
        self.answered(703, array([u32(status) + array([u32(c) for c in codes]) + NULL]) + NULL)

    def time(self):
        return self.chance.randint(1, 8) if self.chance.random() < 0.95 else self.chance.choice([0, -1, GREATEST])

    def write(self, where):
        pick, spelled, codes = self.chance.choice, [], []
        perform = pick([1, 2, 3, 3])
        for _ in range(pick([1, 1, 2, 3])):
            time = self.time() if self.chance.random() < 0.97 else None
            pico, wrong = pick([None, None, None, 0, 1, 9999, 20000]), self.chance.random() < 0.05
            value = dict(variant=pick([None] + [double(1.0) if wrong else int32(self.chance.randrange(100))] * 19), status=pick([None, None, 0, 0x40000000]),
                         server=pick([None, None, 77]), server_pico=pick([None, None, 5]))
            spelled.append(spell(value["variant"], value["status"], time, pico, value["server"], value["server_pico"]))
            value["pico"] = None if pico is None else min(9999, pico)
            codes.append(self.write_one(where, time, perform, value, wrong))
        self.sent.append(self.client.update(node(where, 1), perform, spelled))
        self.updated(0, codes)

    def write_one(self, where, time, perform, value, wrong):
        if time is None or time < 1:
            return 0x80230000
        if wrong and value["variant"] is not None:
            return 0x80740000
        moment = (time, value["pico"] or 0)
        live = self.archive.live(where, moment)
        if perform == 1 and live:
            return 0x809F0000
        if perform == 2 and not live:
            return 0x80A00000
        self.archive.add(where, moment, perform, self.user, value)
        return 0x00A30000 if live else 0x00A20000

    def delete_at(self, where):
        times, codes = [self.time() for _ in range(self.chance.choice([1, 2]))], []
        for time in times:
            live = time >= 1 and self.archive.live(where, (time, 0))
            if live:
                self.archive.add(where, (time, 0), 4, self.user, None)
            codes.append(0x80230000 if time < 1 else 0 if live else 0x80A00000)
        self.sent.append(self.client.delete_at(node(where, 1), times))
        self.updated(0, codes)

    def delete_raw(self, where):
        start, end = self.time(), self.time()
        self.sent.append(self.client.delete_raw(node(where, 1), start, end))
        if start < 1 or end < start:
            return self.updated(0x80BD0000, [])
        doomed = [m for m, *_ in self.archive.lives(where) if start <= m[0] < end or start == end == m[0]]
        for moment in doomed:
            self.archive.add(where, moment, 4, self.user, None)
        self.updated(0 if doomed else 0x809B0000, [0] * len(doomed))

    def read_value(self, where):
        self.sent.append(self.client.read([(node(where, 1), 13)], 2))
        lives = self.archive.lives(where)
        if not lives:
            return self.answered(634, array([spell(status=NO_DATA_YET)]) + NULL)
        moment, value, _ = lives[-1]
        self.answered(634, array([spell(value["variant"], value["status"], moment[0], value["pico"], EPOCH)]) + NULL)

    def read_history(self, where):
        pick, bytes_, said = self.chance.choice, None, None
        if self.points and self.chance.random() < 0.5:
            where, query, bytes_, said = self.points.pop(self.chance.randrange(len(self.points)))
        else:
            times = [self.chance.randint(0, 9) if self.chance.random() < 0.9 else pick([-3, 15, GREATEST]) for _ in range(2)]
            modified = self.chance.random() < 0.35
            query = Query(modified, *times, pick([0, 0, 1, 2, 3, 5]), self.chance.random() < (0.05 if modified else 0.4), pick([0, 0, 1, 2]))
        self.sent.append(self.client.history_read([node(where, 1)], query.start, query.end, query.count, query.bounds, query.modified, query.stamps, bytes_))
        body, next_bytes, next_said = read(self.archive, where, query, said)
        if next_bytes is not None:
            self.points.append((where, query, next_bytes, next_said))
        self.answered(667, array([body]) + NULL)

    def ask(self):
        where, share = self.chance.choice("TTTU"), self.chance.random()
        for most, request in [(0.35, self.write), (0.42, self.delete_at), (0.47, self.delete_raw), (0.55, self.read_value), (1, self.read_history)]:
            if share < most:
                return request(where)


def main():
    usage.shown(__doc__, 4)
    clients, requests, first, command = int(sys.argv[1]), int(sys.argv[2]), int(sys.argv[3]), sys.argv[4:]
    others = 0
    for seed in range(first, first + clients):
        talk = Talk(seed)
        for _ in range(requests):
            talk.ask()
        out = subprocess.run(command, input=b"".join(talk.sent), capture_output=True, check=True).stdout
        answers = [chunk for _, chunk in cut(out)][4:]
        for asked, answer, due in zip(talk.sent[1:], answers + [b""] * requests, talk.due):
            if answer != due:
                others += 1
                print(f"client {seed}\n  asks {asked.hex()}\n  gets {answer.hex()}\n  due  {due.hex()}")
                break
    print(f"{clients} clients of {requests} requests each, {others} of them answered otherwise")
    sys.exit(1 if others else 0)


if __name__ == "__main__":
    main()
