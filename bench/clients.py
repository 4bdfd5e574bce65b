"""Sides that are servers over HTTP: what is started, what is sent to it over how many connections, and what comes back."""
from __future__ import annotations

import contextlib
import http.client
import json
import os
import re
import subprocess

from bench.tools import in_c
from bench.trials import Side, Wrong
from checks.common.inputs import STATUS
from checks.common.nginx import Nginx, free_port
from checks.common.programs import Spent, peak, processor_seconds
from checks.common.servers import WAIT, Server

SITE = """sendfile on;
default_type text/csv;
server {{ listen 127.0.0.1:{port}; access_log off; root {folder}/files; }}
"""


# ---- servers, each as a context that gives its port and its process


@contextlib.contextmanager
def leireg(program, workers):
    with Server(program, workers=workers) as server:
        yield server.port, server.process.pid


@contextlib.contextmanager
def printing_port(words):
    """A server that prints its port as its first line."""
    with subprocess.Popen(list(map(str, words)), stdout=subprocess.PIPE, text=True) as process:
        try:
            line = process.stdout.readline()
            if not line.strip().isdigit():
                raise Wrong(f"{words[0]} printed no port: {line!r}")
            yield int(line), process.pid
        finally:
            process.kill()


@contextlib.contextmanager
def nginx(folder):
    """nginx with one process, which serves the files below the folder `files` of this one."""
    port = free_port()
    with Nginx(folder / "nginx", f"127.0.0.1:{port}", SITE.format(folder=folder, port=port)) as server:
        yield port, server.process.pid


# ---- sides


def send_files(port, out, requests):
    """The seconds in which the requests of these files are answered, each file over a connection of its own."""
    done = subprocess.run([in_c("http_client"), str(port), out, *requests], capture_output=True, text=True)
    if done.returncode:
        raise Wrong(f"a request failed: {done.stderr.strip()}")
    return float(done.stdout)


def over_http(server, before, requests, check):
    """A side that is a server, which gets the requests of these files, each over a connection of its own. Those of the file
    `before` are sent first over one connection, and aren't counted. The output is what the client writes of the replies."""
    def run(out):
        with server() as (port, pid):
            send_files(port, out, [before])
            used = processor_seconds(pid)
            seconds = send_files(port, out, requests)
            return Spent(seconds, processor_seconds(pid) - used, peak(pid))
    return Side(run, check)


def by_wrk(server, connections, seconds, count, text):
    """A side that is a server, which `wrk` asks for the status over so many connections for some seconds. The time is that
    of so many requests. The output is what `wrk` prints, and the text of one more reply."""
    def run(out):
        threads = min(connections, len(os.sched_getaffinity(0)))
        with server() as (port, pid):
            words = ["wrk", f"-t{threads}", f"-c{connections}", f"-d{seconds}s", f"http://127.0.0.1:{port}/v1/status"]
            done = subprocess.run(words, capture_output=True, text=True, check=True)
            client = http.client.HTTPConnection("127.0.0.1", port, timeout=WAIT)
            client.request("GET", "/v1/status")
            out.write_bytes(done.stdout.encode() + client.getresponse().read())
            client.close()
            rate = float(re.search(r"Requests/sec:\s*([0-9.]+)", done.stdout).group(1))
            used = processor_seconds(pid)
            if rate == 0:
                raise Wrong("wrk got no reply")
            return Spent(count / rate, used * count / (rate * seconds), peak(pid))

    def check(path):
        came = path.read_bytes()
        if b"Non-2xx" in came or b"Socket errors" in came or not came.endswith(text):
            raise Wrong(f"wrk got wrong replies: {came.decode()}")
    return Side(run, check)


# ---- replies


def replies(path):
    """The replies in a file of the client: for each run of equal ones the connection, the status, how many, and the text."""
    with open(path, "rb") as came:
        for head in came:
            connection, status, count, size = map(int, head.split())
            text = came.read(size)
            came.read(1)
            yield connection, status, count, text


def all_are(text, count):
    """A check that there are so many replies, more than none, each 200 with this text, over all connections."""
    def check(path):
        counted = 0
        for connection, status, times, seen in replies(path):
            if (status, seen) != (200, text):
                raise Wrong(f"connection {connection} got {status} {seen[:200]!r}, not 200 {text[:200]!r}")
            counted += times
        if counted != count or not count:
            raise Wrong(f"{counted} replies came, not {count}")
    return check


def are_taken(issuers, uploads, items, first_entry):
    """A check of the replies to uploads of so many items each. The uploads of each issuer are numbered from 1 on, and come
    in this order. Each item is accepted, and the entries are those from the first on, each once."""
    def check(path):
        seen, numbers = [], {}
        for connection, status, times, text in replies(path):
            if status != 200 or times != 1:
                raise Wrong(f"connection {connection} got {times} times {status} {text[:200]!r}")
            reply = json.loads(text)
            issuer = reply["issuer"]
            numbers.setdefault(issuer, []).append(reply["number"])
            seen.append(reply["entry"])
            if reply["items"] != ["ACCEPTED"] * items:
                raise Wrong(f"upload {reply['number']} of {issuer} isn't accepted: {text[:200]!r}")
        if sorted(seen) != list(range(first_entry, first_entry + uploads)) or not uploads:
            raise Wrong(f"{len(seen)} uploads became the entries {sorted(seen)[:20]}, and {uploads} were sent")
        if numbers != {issuer: list(range(1, uploads // len(issuers) + 1)) for issuer in issuers}:
            raise Wrong(f"the uploads have the numbers {numbers}")
    return check


def status_requests(bench, count, connections):
    """The files of so many requests for the status in all, one for each connection."""
    path = bench.keep("requests", [STATUS] * (count // connections))
    return [path] * connections
