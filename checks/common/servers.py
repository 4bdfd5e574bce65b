"""Servers over HTTP that are started for a while, and what they are asked."""
from __future__ import annotations

import contextlib
import http.client
import re
import signal
import socket
import subprocess
import threading

LISTENS = "listening on 127.0.0.1:"
WAIT = 60


class Server:
    """A running `leireg serve` on a free port, and the lines of its standard error. As a context it is ended by SIGTERM."""

    def __init__(self, program, *words, workers=1, **more):
        command = [program, "serve", "--port", "0", "--workers", str(workers), *words]
        self.process = subprocess.Popen(list(map(str, command)), stdin=subprocess.DEVNULL, stderr=subprocess.PIPE, text=True,
                                        **more)
        self.lines = []
        self.port = None
        self.is_listening = threading.Event()
        self.reader = threading.Thread(target=self.read, daemon=True)
        self.reader.start()
        self.is_listening.wait(WAIT)
        if self.port is None:
            self.process.kill()
            self.process.wait()
            raise RuntimeError(f"the server doesn't listen: {self.lines}")

    def read(self):
        for line in self.process.stderr:
            self.lines.append(line.rstrip())
            if line.startswith(LISTENS):
                self.port = int(line.removeprefix(LISTENS))
                self.is_listening.set()
        self.is_listening.set()

    def __enter__(self):
        return self

    def __exit__(self, *_):
        self.end()

    def connect(self):
        """A connection to the server, whose reads and writes wait for at most 60 seconds."""
        return socket.create_connection(("127.0.0.1", self.port), WAIT)

    def client(self, timeout=WAIT):
        """A client of Python's own that keeps its connection."""
        return http.client.HTTPConnection("127.0.0.1", self.port, timeout=timeout)

    def ask(self, method, path, body=None):
        """The status code and the text of a request on a connection of its own."""
        with contextlib.closing(self.client()) as client:
            client.request(method, path, body)
            response = client.getresponse()
            return response.status, response.read().decode()

    def send(self, data, ends=False):
        """What comes back for bytes that are sent in one go, to the end of the connection. Where it ends, nothing is sent
        after them, and the server is told so."""
        with self.connect() as peer:
            sender = threading.Thread(target=send_all, args=(peer, data, ends))
            sender.start()
            came = read_all(peer)
            sender.join()
        return came

    def wait(self):
        """The status of a server that ends by itself."""
        return self.process.wait(WAIT)

    def end(self, number=signal.SIGTERM):
        """Ends the server by a signal, if it hasn't ended yet."""
        if self.process.poll() is None:
            self.process.send_signal(number)
        self.process.wait(WAIT)
        self.reader.join(WAIT)
        self.process.stderr.close()


def send_all(peer, data, ends=False):
    """Sends bytes, as far as the server takes them: it may close before it has read all."""
    with contextlib.suppress(OSError):
        peer.sendall(data)
        if ends:
            peer.shutdown(socket.SHUT_WR)


def read_all(peer):
    """What comes from a peer up to the end of the connection, also where it is reset."""
    came = bytearray()
    with contextlib.suppress(ConnectionError):
        while part := peer.recv(1 << 16):
            came += part
    return bytes(came)


def take_response(data, at=0):
    """The response at a place of the bytes, as its status code and its text, and the place after it."""
    end = data.index(b"\r\n\r\n", at) + 4
    head = data[at:end].decode()
    size = int(re.search(r"content-length: (\d+)", head).group(1))
    if len(data) < end + size:
        raise ValueError("a response that isn't whole")
    return (int(head.split()[1]), data[end:end + size]), end + size


def responses(data):
    """All responses among these bytes, as status codes and texts."""
    found, at = [], 0
    while at < len(data):
        response, at = take_response(data, at)
        found.append(response)
    return found


def statuses(data):
    """The status codes of all responses among these bytes."""
    return [status for status, _ in responses(data)]
