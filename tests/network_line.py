"""One client's connection to a program that serves, for the scripts beside it."""
import socket, struct, time
from opcua import Client


class Line:
    """One client's connection."""

    def __init__(self, port):
        until = time.monotonic() + 10
        while True:
            try:
                self.socket = socket.create_connection(("127.0.0.1", port))
                break
            except ConnectionRefusedError:
                assert time.monotonic() < until, "nobody listens"
                time.sleep(0.02)
        self.client = Client()

    def take(self, count):
        taken = b""
        while len(taken) < count:
            more = self.socket.recv(count - len(taken))
            assert more, "the connection is over"
            taken += more
        return taken

    def ask(self, sent):
        """The chunk that answers."""
        self.socket.sendall(sent)
        head = self.take(8)
        return head + self.take(struct.unpack_from("<I", head, 4)[0] - 8)

    def begin(self):
        """Greets, opens the channel, and activates a session of ann's."""
        assert self.ask(self.client.hello())[:4] == b"ACKF"
        assert self.ask(self.client.open())[:4] == b"OPNF"
        for sent in [self.client.create_session(), self.client.activate("ann", b"pw")]:
            assert status(self.ask(sent)) == 0
        return self

    def reset(self):
        """Ends the connection by a reset."""
        self.socket.setsockopt(socket.SOL_SOCKET, socket.SO_LINGER, struct.pack("ii", 1, 0))
        self.socket.close()


def status(answer):
    """The status of a response whose type id has four bytes."""
    return struct.unpack_from("<I", answer, 40)[0]
