"""Histories as people read them: decoded from the chunks that a server answers (Part 4, 5.11; Part 11, 6.5)."""
import datetime, struct, sys
import opcua, reading

DID = {1: "inserted", 2: "replaced", 3: "updated", 4: "deleted"}
FORMS = {2: "b", 3: "B", 4: "h", 5: "H", 6: "i", 7: "I", 8: "q", 9: "Q", 10: "f", 11: "d"}  # of the types of numbers (Part 6, 5.1.2)


def ticks(text):
    """A time as 2026-03-01T07:00, in UTC, in steps of 100 ns since 1601."""
    moment = datetime.datetime.fromisoformat(text).replace(tzinfo=datetime.timezone.utc)
    return opcua.EPOCH + int(moment.timestamp() * 10_000_000)


def shown(time_, form="%Y-%m-%d %H:%M"):
    """A time in steps of 100 ns since 1601, to read."""
    moment = datetime.datetime.fromtimestamp((time_ - opcua.EPOCH) / 10_000_000, datetime.timezone.utc)
    return moment.strftime(form)


def response(chunk, service):
    """A reader of what stands behind the header of a response; one that isn't Good ends the program."""
    if chunk[:3] == b"ERR":
        sys.exit(f"{service}: the server ended the connection, {struct.unpack_from('<I', chunk, 8)[0]:08X}")
    response = reading.Reader(chunk[24:])
    response.node(), response.i64(), response.u32()
    status = response.u32()
    if status or response.u8() or response.i32() > 0 or response.node() is None or response.u8():
        sys.exit(f"{service} is refused, {status:08X}")
    return response


def results(chunk, read):
    """What stands in a response with results, each read by `read`; a fault ends the program."""
    head = response(chunk, "the request")
    return head.array(lambda: read(head))


def read_codes(response):
    """How each operation of an update went."""
    return response.u32(), response.array(response.u32), response.array(response.u8)


def read_values(response):
    """Of each value of a page its time, its number, and in a page of modifications when, what and by whom it was done."""
    status, _ = response.u32(), response.blob()
    if status >= 0x80000000:
        sys.exit(f"the server refused the read: {status:08X}")
    _, _, body = response.extension([opcua.node(658), opcua.node(11227)])
    if body is None:
        return []
    values = body.array(body.data_value)
    infos = body.array(lambda: (body.i64(), body.u32(), body.text())) if body.left() else [None] * len(values)
    return [(value["source"], number(value), info) for value, info in zip(values, infos)]


def number(value):
    """The number of a value of a type of numbers; none of a value that is none."""
    kind, array, spelled = value["variant"] or (None, False, None)
    return struct.unpack("<" + FORMS[kind], spelled[1:])[0] if kind in FORMS and not array else None


def story(changes):
    """What was done to the value of a time, the newest first: who replaced, deleted or inserted which number."""
    return ", ".join(f"{user} {DID[kind]} {value}" if kind != 1 else f"inserted by {user}" for _, value, (_, kind, user) in changes)


def lines(raw, modified, form="%Y-%m-%d %H:%M"):
    """A line for each time of a history: its value, or -- where that was deleted, and what was done to it."""
    live = {time_: value for time_, value, _ in raw}
    for time_ in sorted({time_ for time_, *_ in modified}):
        yield f"{shown(time_, form)}  {live.get(time_, '--')}  ({story([change for change in modified if change[0] == time_])})"
