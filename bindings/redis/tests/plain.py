"""A client that sends commands as bytes, and takes replies without a look at what they are. It needs no library."""
import socket
import time
from collections.abc import Iterable
from itertools import islice

# So many commands are under way.
UNDER_WAY = 64


def packed(*words: object) -> bytes:
    """A command as it is sent."""
    texts = [word if isinstance(word, bytes) else str(word).encode() for word in words]
    return b"".join([b"*%d\r\n" % len(texts), *(b"$%d\r\n%s\r\n" % (len(text), text) for text in texts)])


class Plain:
    """Behind commands it asks for a word, and waits until that comes back."""

    WORD = "that is all"
    MARK = f"${len(WORD)}\r\n{WORD}\r\n".encode()

    def __init__(self, port: int):
        end = time.monotonic() + 20
        while True:
            try:
                self.socket = socket.create_connection(("127.0.0.1", port))
                break
            except OSError:
                if time.monotonic() > end:
                    raise
                time.sleep(0.05)
        self.socket.setsockopt(socket.IPPROTO_TCP, socket.TCP_NODELAY, 1)

    def send(self, commands: bytes) -> bytes:
        """What is sent back, or the last part of it."""
        self.socket.sendall(commands + packed("ECHO", self.WORD))
        said = b""
        while not said.endswith(self.MARK):
            more = self.socket.recv(1 << 20)
            if not more:
                raise OSError("the server has ended")
            said = (said + more)[-(1 << 16) :] if len(said) > 1 << 20 else said + more
        if said.startswith(b"-"):
            raise ValueError(said[:200])
        return said

    def run(self, *words: object) -> bytes:
        return self.send(packed(*words))

    def run_all(self, commands: "Iterable[bytes]", under_way: int = UNDER_WAY) -> None:
        left = iter(commands)
        while some := list(islice(left, under_way)):
            self.send(b"".join(some))

    def run_one(self, command: bytes) -> None:
        self.socket.sendall(command)
        self.socket.recv(1 << 16)

    def close(self) -> None:
        self.socket.close()
