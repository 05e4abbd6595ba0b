#!/usr/bin/env python3
"""Shows a variable's history and who made it so, or writes a value: a client for who tries a server by hand.

    value.py HOST:PORT USER PASSWORD NODE show FROM TO
    value.py HOST:PORT USER PASSWORD NODE insert|replace|update TIME NUMBER

NODE is a variable whose type is one of numbers, as boiler.temperature; times are UTC, as 2026-03-01T07:00. Shows a page of each at
most. The exit status is 1 where nobody answers, the user isn't let in, or the read or the write is refused.
"""
import socket, struct, sys
import history, opcua, reading, usage

PERFORM = {"insert": 1, "replace": 2, "update": 3}
NAMES = {number: name for name, number in reading.TYPES.items()}
DATA_TYPE = 14  # the attribute


class Talk:
    """A client's connection, with a session of this user."""

    def __init__(self, address, user, password):
        host, _, port = address.rpartition(":")
        if not host or not port.isdigit():
            sys.exit(f"{address} is no HOST:PORT")
        try:
            self.line = socket.create_connection((host, int(port)), timeout=150)
        except (OSError, OverflowError) as error:
            sys.exit(f"{address}: {error}")
        self.came, self.client = self.line.makefile("rb"), opcua.Client()
        self.answer("Hello", self.client.hello())
        self.answer("OpenSecureChannel", self.client.open())
        self.ask("CreateSession", self.client.create_session())
        self.ask("ActivateSession", self.client.activate(user, password.encode()))

    def answer(self, service, chunk):
        """The chunk that comes back for this one."""
        try:
            self.line.sendall(chunk)
            head = self.came.read(8)
            answer = head + self.came.read(struct.unpack_from("<I", head, 4)[0] - 8)
        except (OSError, struct.error):
            sys.exit(f"the server hung up at {service}")
        if answer[:3] == b"ERR":
            sys.exit(f"{service}: the server ended the connection, {struct.unpack_from('<I', answer, 8)[0]:08X}")
        return answer

    def ask(self, service, chunk):
        """What comes back for a request; one that is refused ends the program, and says which it was."""
        answer = self.answer(service, chunk)
        history.response(answer, service)
        return answer

    def type_of(self, tag, name):
        """The number of a variable's type (Part 6, 5.1.2)."""
        response = history.response(self.ask("Read", self.client.read([(tag, DATA_TYPE)])), "Read")
        value = response.array(response.data_value)[0]
        if value["status"] or value["variant"] is None:
            sys.exit(f"{name}: the read of its type is refused, {value['status'] or 0:08X}")
        known = {opcua.node(number): number for number in NAMES}
        return known.get(value["variant"][2][1:])


def spelled(text, kind, name):
    """A number as a value of a variable's type."""
    if kind not in history.FORMS:
        sys.exit(f"{name} is of type {NAMES.get(kind, 'unknown')}, and this client writes numbers alone")
    try:
        number = float(text) if history.FORMS[kind] in "fd" else int(text)
        return opcua.u8(kind) + struct.pack("<" + history.FORMS[kind], number)
    except (ValueError, OverflowError, struct.error):
        sys.exit(f"{name} is of type {NAMES[kind]}, and {text} is none")


def time_at(text):
    try:
        return history.ticks(text)
    except ValueError:
        sys.exit(f"{text} is no time, as 2026-03-01T07:00")


def show(talk, tag, first, last):
    """A line for each time of the stretch that has changes."""
    raw, modified = (talk.ask("HistoryRead", talk.client.history_read([tag], first, last, modified=kind)) for kind in (False, True))
    yield from history.lines(history.results(raw, history.read_values)[0], history.results(modified, history.read_values)[0])


def write(talk, tag, perform, value):
    """The code of a write: its own, or that of its details."""
    told = talk.ask("HistoryUpdate", talk.client.update(tag, perform, [value]))
    status, codes, _ = history.results(told, history.read_codes)[0]
    return codes[0] if codes else status


def main():
    usage.shown(__doc__, 7)
    if len(sys.argv) != 8 or sys.argv[5] not in ("show", *PERFORM):
        sys.exit(__doc__.strip())
    address, user, password, name, what, first, last = sys.argv[1:]
    tag, time = opcua.node(name, 1), time_at(first)
    if what == "show":
        until = time_at(last)
        for line in show(Talk(address, user, password), tag, time, until):
            print(line)
        return
    talk = Talk(address, user, password)
    value = opcua.value_at(spelled(last, talk.type_of(tag, name), name), time)
    code = write(talk, tag, PERFORM[what], value)
    if code >= 0x80000000:
        sys.exit(f"{name}: the {what} is refused, {code:08X}")
    print("Good")


main()
