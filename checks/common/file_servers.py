"""Servers of published files as followers meet them, and a proxy that changes what a register answers. Each is a
context that ends it."""
from __future__ import annotations

import collections
import contextlib
import http.client
import http.server
import pathlib
import socketserver
import threading
import time

from checks.common.nginx import Nginx, connect
from checks.common.servers import WAIT

# A site of published files.
SITE = """sendfile on; gzip on; gzip_types application/json; types {{ application/json json; }}
server {{ listen {address}; access_log off; location /publish/ {{ alias {files}/; }} }}
"""


class Threads(http.server.ThreadingHTTPServer):
    """A server at a free port whose connections have a thread each."""

    def __init__(self, handler):
        super().__init__(("127.0.0.1", 0), handler)
        self.url = f"http://127.0.0.1:{self.server_address[1]}"
        self.runner = threading.Thread(target=self.serve_forever, args=(0.05,), daemon=True)
        self.runner.start()

    def __exit__(self, *_):
        self.shutdown()
        self.server_close()

    def handle_error(self, *_):
        """A client that was killed is none."""


class Reply(http.server.BaseHTTPRequestHandler):
    """Answers requests, and writes nothing to the standard error."""

    def log_message(self, *_):
        pass

    def send(self, status, data, is_cut=False):
        """Sends a response. One that is cut has only half of the bytes that it promises."""
        self.send_response(status)
        self.send_header("Content-Length", str(len(data)))
        self.end_headers()
        self.wfile.write(data[:len(data) // 2] if is_cut else data)


# ---- files


class FileReply(Reply):
    def do_GET(self):
        loss, path = self.server.take(self.path), self.server.folder / self.path.lstrip("/")
        if loss == "gone" or not path.is_file():
            self.send(404, b"")
        else:
            self.send(200, path.read_bytes(), is_cut=loss == "cut")


class Files(Threads):
    """Serves the files of a folder. `loses` says, by a path and how often it was asked for, whether that is `gone` or
    `cut` this time. `asked` has the paths that were asked for, and how often."""

    def __init__(self, folder, loses=lambda path, times: None):
        self.folder, self.loses = pathlib.Path(folder), loses
        self.asked, self.lock = collections.Counter(), threading.Lock()
        super().__init__(FileReply)

    def take(self, path):
        with self.lock:
            self.asked[path] += 1
            return self.loses(path, self.asked[path])


# ---- nginx behind a slow proxy


def nginx(folder, files, address):
    """nginx, which serves files below /publish/ at an address. The folder is for what it writes."""
    return Nginx(folder, address, SITE.format(files=files, address=address))


class SlowReply(socketserver.BaseRequestHandler):
    STEP = 4_096

    def handle(self):
        with connect(self.server.address) as real:
            head = b""
            while b"\r\n\r\n" not in head:
                head += self.request.recv(self.STEP) or b"\r\n\r\n"
            real.sendall(head.replace(b"\r\n\r\n", b"\r\nConnection: close\r\n\r\n"))
            while part := real.recv(self.STEP):
                time.sleep(len(part) / self.server.rate)
                self.request.sendall(part)


class SlowProxy(Threads):
    """Passes on what a server at an address sends, at so many bytes a second."""

    def __init__(self, address, rate):
        self.address, self.rate = address, rate
        super().__init__(SlowReply)


# ---- a register


class RegisterReply(Reply):
    def do_GET(self):
        with contextlib.closing(http.client.HTTPConnection("127.0.0.1", self.server.port, timeout=WAIT)) as real:
            is_cut = self.server.before(self.path) == "cut"
            real.request("GET", self.path)
            response = real.getresponse()
            self.send(response.status, response.read(), is_cut)


class Between(Threads):
    """Stands between a register and who reads it. `before` is called with each path before the register is asked. If it
    says `cut`, the response breaks off."""

    def __init__(self, port, before):
        self.port, self.before = port, before
        super().__init__(RegisterReply)
