#!/usr/bin/env python3
"""Runs the program with a fault that is planted for a check to notice. `checks/faults` starts it in the program's place.

usage: false_program.py FOLDER FAULT PROGRAM WORDS..

    FOLDER   what false programs leave to each other, and `spoiled`, a file that says that the fault was there
    none     no fault
    digit N  one digit of one reply is another: of the N-th reply of a start that has one, by itself the first
    500 N    the N-th reply of a start is `500 NO_MEMORY`
    lost     the last uploads that were answered never reach the store
    ends     the program ends at once with status 0
    healthy  if the store is damaged, the program goes on with an empty register, and the status is 0
"""
from __future__ import annotations

import contextlib
import ctypes
import os
import pathlib
import re
import signal
import socket
import sqlite3
import subprocess
import sys
import threading
import time
import traceback

sys.path.insert(0, str(pathlib.Path(__file__).resolve().parent.parent.parent))

from checks.common.servers import LISTENS, take_response  # noqa: E402

REFUSED = b"HTTP/1.1 500 Internal Server Error\r\ncontent-type: text/plain\r\ncontent-length: 9\r\n"
DEATH_SIGNAL = 1
LIBC = ctypes.CDLL(None)
FILE, STATUS = re.compile(rb"200 ([0-9]{1,10})\n"), re.compile(rb"[0-9]{3} ")


def other_digit(text):
    """The text with another last digit, or nothing if it has no digit."""
    found = re.search(rb"[0-9](?=[^0-9]*\Z)", text)
    return found and text[:found.start()] + b"%d" % ((int(found[0]) + 1) % 10) + text[found.end():]


class Fault:
    """A fault, and whether it was there: of all replies of all false programs of a folder it spoils one."""

    def __init__(self, folder, words):
        self.folder, self.mark, self.lock = folder, folder / "spoiled", threading.Lock()
        self.kind, place, *_ = [*words.split(), "1"]
        self.left = int(place)

    @property
    def is_active(self):
        return self.kind in ("digit", "500") and not self.mark.exists()

    def spoil(self, head, text, refused):
        """A reply of a head and a text, or what takes its place: that is `refused` if it is refused."""
        spoiled = other_digit(text) if self.kind == "digit" else refused
        with self.lock:
            if self.is_active and spoiled is not None:
                self.left -= 1
                if self.left == 0:
                    self.mark.touch()
                    return head + spoiled if self.kind == "digit" else spoiled
        return head + text


# ---- the real program


def start(program, words, **more):
    """The real program, which is killed if this one ends."""
    def die_with_parent():
        LIBC.prctl(DEATH_SIGNAL, signal.SIGKILL)
    process = subprocess.Popen([program, *words], preexec_fn=die_with_parent, **more)

    def stop(number, _):
        process.send_signal(number)
        with contextlib.suppress(ChildProcessError):
            os.waitpid(process.pid, 0)
        end_by(number)
    signal.signal(signal.SIGTERM, stop)
    return process


def end_by(number):
    """Ends this program by a signal."""
    if number != signal.SIGKILL:
        signal.signal(number, signal.SIG_DFL)
    os.kill(os.getpid(), number)


def end_as(process):
    """Ends this program as the real one ends."""
    status = process.wait()
    if status < 0:
        end_by(-status)
    os._exit(status)


def is_running(pid):
    with contextlib.suppress(OSError):
        return pathlib.Path(f"/proc/{pid}/stat").read_text().rpartition(")")[2].split()[0] != "Z"
    return False


def wait_for_killed(folder):
    """Waits until no program runs whose false program was killed, as it may still have the store open."""
    for note in folder.glob("*.pid"):
        while not is_running(note.stem) and is_running(note.read_text() or "none"):
            time.sleep(0.01)


# ---- stores


def word_after(words, option):
    """The word after an option, or nothing."""
    return words[words.index(option) + 1] if option in words else None


def lose_entries(program, store, count):
    """Makes a store anew without its last entries, but with the first. Says whether it lost some: a store that another
    program has open loses none."""
    columns = "kind, office, number, body, moment, rules, answer, seq"
    with contextlib.closing(sqlite3.connect(store, timeout=0)) as database:
        try:
            rows = list(database.execute(f"SELECT {columns} FROM entry ORDER BY seq"))
        except sqlite3.OperationalError:
            return False
    kept, forms = rows[:max(1, len(rows) - count)], {1: "ACCREDIT {0}", 2: "UPLOAD {0} {1} ", 3: "PUBLISH {1}"}
    if len(kept) >= len(rows):
        return False
    requests = [(forms[kind].format(office, number), bytes(body)) for kind, office, number, body, *_ in kept]
    sent = b"".join(words.encode() + body + b"\n" for words, body in requests)
    new = store.with_name(f"{store.name}.new")
    subprocess.run([program, "lines", "--store", new], input=sent, stdout=subprocess.DEVNULL, check=True)
    with contextlib.closing(sqlite3.connect(new)) as database:
        database.executemany("UPDATE entry SET moment = ?, rules = ?, answer = ? WHERE seq = ?", [row[4:] for row in kept])
        database.commit()
    for old in store.parent.glob(f"{store.name}-*"):
        old.unlink()
    new.replace(store)
    return True


def spoil_store(fault, program, words):
    """The words of the program, after what a fault of its store does."""
    store = word_after(words, "--store")
    if store is None or not os.path.exists(store):
        return words
    if fault.kind == "lost" and not fault.mark.exists():
        if lose_entries(program, pathlib.Path(store), 1 + int(word_after(words, "--workers") or 1)):
            fault.mark.touch()
    if fault.kind == "healthy":
        opened = subprocess.run([program, "lines", "--store", store], stdin=subprocess.DEVNULL, stdout=subprocess.DEVNULL,
                                stderr=subprocess.DEVNULL)
        if opened.returncode:
            fault.mark.touch()
            at = words.index("--store")
            return words[:at] + words[at + 2:]
    return words


# ---- lines


def take(out, fault):
    """The next reply of the real program, perhaps spoiled. Empty if the program has ended."""
    head = out.readline()
    file = FILE.fullmatch(head)
    if file:
        return fault.spoil(head, out.read(int(file[1]) + 1), b"500 NO_MEMORY\n")
    at = 4 if STATUS.match(head) else 0
    return fault.spoil(head[:at], head[at:], b"500 NO_MEMORY\n" if head else None)


def write(data):
    sys.stdout.buffer.write(data)
    sys.stdout.buffer.flush()


def run_lines(fault, program, words):
    """Sends the real program the next line when the reply to the one before has been passed on, so that it is no more
    ahead of what was acknowledged than by itself."""
    process = start(program, words, stdin=subprocess.PIPE, stdout=subprocess.PIPE)
    (fault.folder / f"{os.getpid()}.pid").write_text(str(process.pid))
    with contextlib.suppress(BrokenPipeError):
        for line in sys.stdin.buffer:
            process.stdin.write(line)
            process.stdin.flush()
            if line.endswith(b"\n") and line not in (b"\n", b"\r\n"):
                reply = take(process.stdout, fault)
                if not reply:
                    break
                write(reply)
    with contextlib.suppress(BrokenPipeError):
        process.stdin.close()
    pass_replies(fault, process)


def pass_replies(fault, process):
    """Passes on the rest of what the real program writes."""
    with contextlib.suppress(BrokenPipeError):
        while reply := take(process.stdout, fault):
            write(reply)
    process.stdout.close()
    end_as(process)


# ---- servers


def pass_on(peer, real):
    """Passes on what a peer sends. What the server doesn't take any more is read and dropped, as the server does it."""
    with contextlib.suppress(OSError):
        while part := peer.recv(1 << 16):
            try:
                real.sendall(part)
            except OSError:
                peer.settimeout(0.3)
    with contextlib.suppress(OSError):
        real.shutdown(socket.SHUT_WR)


def pass_responses(fault, real, peer):
    """Passes on what the server sends, of which a response may be spoiled."""
    held = b""
    with contextlib.suppress(OSError):
        while part := real.recv(1 << 16):
            held += part
            with contextlib.suppress(ValueError, AttributeError):
                while fault.is_active:
                    (_, text), end = take_response(held)
                    head = held[:end - len(text)]
                    last = b"connection: close\r\n" * (b"\r\nconnection: close\r\n" in head)
                    peer.sendall(fault.spoil(head, text, REFUSED + last + b"\r\nNO_MEMORY"))
                    held = held[end:]
            if not fault.is_active:
                peer.sendall(held)
                held = b""
        peer.sendall(held)


class Proxy:
    """Takes the connections of a port in the place of the real server, and passes on what comes on each."""

    def __init__(self, fault, listener):
        self.fault, self.listener, self.port = fault, listener, None
        self.carried = []

    def run(self, process):
        """Passes on the lines of the standard error, with another port, and the connections after it listens."""
        for line in process.stderr:
            if line.startswith(LISTENS):
                self.port = int(line.removeprefix(LISTENS))
                threading.Thread(target=self.accept, daemon=True).start()
                line = f"{LISTENS}{self.listener.getsockname()[1]}\n"
            sys.stderr.write(line)
            sys.stderr.flush()
        process.wait()
        for carried in self.carried:
            carried.join(5)
        end_as(process)

    def accept(self):
        while True:
            peer, _ = self.listener.accept()
            carried = threading.Thread(target=self.carry, args=(peer,), daemon=True)
            self.carried = [each for each in self.carried if each.is_alive()] + [carried]
            carried.start()

    def carry(self, peer):
        """Carries a connection to the end of what the server sends, and then reads on."""
        with contextlib.suppress(OSError), peer, socket.create_connection(("127.0.0.1", self.port)) as real:
            for each in (peer, real):
                each.setsockopt(socket.IPPROTO_TCP, socket.TCP_NODELAY, 1)
            sender = threading.Thread(target=pass_on, args=(peer, real), daemon=True)
            sender.start()
            pass_responses(self.fault, real, peer)
            peer.shutdown(socket.SHUT_WR)
            sender.join(2)


def run_server(fault, program, words):
    """The real server at a port of its own. If the port that was asked for is taken, that is for the real one to report."""
    port = int(word_after(words, "--port") or 0)
    try:
        listener = socket.create_server(("127.0.0.1", port), backlog=128)
    except OSError:
        end_as(start(program, words))
    at = words.index("--port") + 1
    words = [*words[:at], "0", *words[at + 1:]]
    process = start(program, words, stderr=subprocess.PIPE, text=True)
    (fault.folder / f"{os.getpid()}.pid").write_text(str(process.pid))
    Proxy(fault, listener).run(process)


def main():
    folder, words, program, *rest = sys.argv[1:]
    fault = Fault(pathlib.Path(folder), words)
    if fault.kind == "ends":
        fault.mark.touch()
        return
    if "BOARD_PROGRAM" in os.environ:
        os.environ["BOARD_PROGRAM"] = program
    wait_for_killed(fault.folder)
    rest = spoil_store(fault, program, rest)
    if rest[:1] == ["serve"]:
        run_server(fault, program, rest)
    elif rest[:1] == ["lines"]:
        run_lines(fault, program, rest)
    else:
        pass_replies(fault, start(program, rest, stdout=subprocess.PIPE))


if __name__ == "__main__":
    try:
        main()
    except Exception:
        with open(pathlib.Path(sys.argv[1]) / "trouble", "a") as trouble:
            traceback.print_exc(file=trouble)
        raise
