"""nginx as checks run it: that of Debian's package nginx-light, as one process, with all that it writes in a folder."""
from __future__ import annotations

import contextlib
import os
import shutil
import socket
import subprocess
import time

from checks.common.servers import WAIT

PROGRAM = shutil.which("nginx", path=f"{os.environ['PATH']}:/usr/sbin")
SETTINGS = """daemon off;
master_process off;
pid {folder}/pid;
error_log {folder}/error.log;
worker_rlimit_nofile 16384;
events {{ worker_connections 8192; }}
http {{
    log_format told '$status $request_method $request_uri $upstream_cache_status';
    access_log {folder}/access.log told;
    client_body_temp_path {folder}/body;
    proxy_temp_path {folder}/proxy;
    fastcgi_temp_path {folder}/fastcgi;
    uwsgi_temp_path {folder}/uwsgi;
    scgi_temp_path {folder}/scgi;
    include {folder}/site.conf;
}}
"""


def free_port():
    """A port that was free a moment ago."""
    with socket.create_server(("127.0.0.1", 0)) as taken:
        return taken.getsockname()[1]


def connect(address):
    """A connection to an address: a host and a port, or `unix:` and a path."""
    if not address.startswith("unix:"):
        return socket.create_connection(address.split(":"), WAIT)
    peer = socket.socket(socket.AF_UNIX)
    peer.connect(address.removeprefix("unix:"))
    return peer


class Nginx:
    """A running nginx with the directives of a site, which takes connections at an address. As a context it is ended at the
    end."""

    def __init__(self, folder, address, site):
        if PROGRAM is None:
            raise RuntimeError("nginx isn't there: it comes by Debian's package nginx-light")
        self.folder, self.address = folder, address
        folder.mkdir()
        (folder / "site.conf").write_text(site)
        (folder / "nginx.conf").write_text(SETTINGS.format(folder=folder))
        command = [PROGRAM, "-p", folder, "-e", folder / "error.log", "-c", folder / "nginx.conf"]
        self.process = subprocess.Popen(command, stdin=subprocess.DEVNULL, stdout=subprocess.DEVNULL,
                                        stderr=subprocess.DEVNULL)
        try:
            self.wait()
        except BaseException:
            self.end()
            raise

    def wait(self):
        """Waits until nginx takes connections."""
        end = time.monotonic() + WAIT
        while self.process.poll() is None and time.monotonic() < end:
            with contextlib.suppress(OSError):
                return connect(self.address).close()
            time.sleep(0.01)
        raise RuntimeError(f"nginx doesn't serve: {(self.folder / 'error.log').read_text()}")

    def __enter__(self):
        return self

    def __exit__(self, *_):
        self.end()

    def end(self):
        if self.process.poll() is None:
            self.process.terminate()
        self.process.wait(WAIT)

    def log(self):
        """What was asked so far: the status, the method, the target, and what became of it in the cache."""
        return [line.rsplit(" ", 3) if line.count(" ") == 3 else line.split(" ")
                for line in (self.folder / "access.log").read_text().splitlines()]
