"""The packets of gdb's remote protocol, over a pipe or a port: `$`, a text, `#` and the sum of its bytes in two digits."""
import os
import select
import socket
import sys

INTERRUPT = b"\x03"  # stands alone, and asks for a stop
MOST = 65536  # bytes of one read


class Line:
    """What comes from gdb and goes to it. Once it agreed, no packet is acknowledged."""

    def __init__(self, file, read, write):
        self.file, self.read, self.write = file, read, write
        self.waiting = b""
        self.acknowledges = True

    def more(self):
        """Reads what there is, at least a byte."""
        found = self.read(MOST)
        if not found:
            raise EOFError
        self.waiting += found

    def packet(self):
        """The text of the next packet; INTERRUPT where that comes instead."""
        while True:
            start = next((at for at, byte in enumerate(self.waiting) if byte in b"$\x03"), None)
            if start is not None and self.waiting[start:start + 1] == INTERRUPT:
                self.waiting = self.waiting[start + 1:]
                return INTERRUPT
            end = self.waiting.find(b"#", start)
            if start is not None and 0 <= end <= len(self.waiting) - 3:
                text, self.waiting = self.waiting[start + 1:end], self.waiting[end + 3:]
                if self.acknowledges:
                    self.write(b"+")
                return text
            self.more()

    def send(self, text):
        data = text.encode("latin-1")
        self.write(b"$%s#%02x" % (data, sum(data) % 256))

    def is_interrupted(self):
        """Whether gdb asks for a stop, while the program runs."""
        if select.select([self.file], [], [], 0)[0]:
            self.more()
        found = INTERRUPT in self.waiting
        if found:
            self.waiting = self.waiting.partition(INTERRUPT)[2]
        return found


def over_pipe():
    return Line(0, lambda count: os.read(0, count), lambda data: os.write(1, data))


def over_port(number):
    """Waits for a gdb at a port of this machine; at any that is free if the number is 0."""
    with socket.create_server(("127.0.0.1", number)) as server:
        print(f"sfi-gdb: target extended-remote :{server.getsockname()[1]}", file=sys.stderr, flush=True)
        one, _ = server.accept()
    one.setsockopt(socket.IPPROTO_TCP, socket.TCP_NODELAY, 1)
    return Line(one, one.recv, one.sendall)
