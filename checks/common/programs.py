"""The built program, other programs, and what is said of the machine that they run on."""
from __future__ import annotations

import contextlib
import dataclasses
import os
import pathlib
import platform
import re
import shutil
import subprocess
import sys

ROOT = pathlib.Path(__file__).resolve().parent.parent.parent
PROGRAM = ROOT / "crates" / "leireg" / "out" / "leireg"
VERSION = ROOT / "crates" / "program_words" / "src" / "version.rt"
SPEND = pathlib.Path(__file__).with_name("spend.py")


def find_program(given=None):
    """The program to run: the one that is given, or that of this tree, which `./leireg` builds first if it isn't there or
    isn't of these sources."""
    if given:
        program = pathlib.Path(given).resolve()
        if not os.access(program, os.X_OK):
            sys.exit(f"{program} can't be run")
        return program
    subprocess.run([ROOT / "leireg", "lines"], stdin=subprocess.DEVNULL, check=True)
    return PROGRAM


def version():
    """The version of the program, which stands in one place of the sources."""
    return re.search(r'VERSION: .* = "(.+)";', VERSION.read_text())[1]


def compile_c(source, folder, *flags):
    """The program, or with `-shared` the library, that a file in C is."""
    compiler = shutil.which("gcc") or shutil.which("cc") or shutil.which("clang")
    if compiler is None:
        sys.exit("there is no compiler for C")
    out = pathlib.Path(folder) / f"{source.stem}{'.so' if '-shared' in flags else ''}"
    subprocess.run([compiler, "-O2", "-Wall", *flags, "-o", out, source], check=True)
    return out


# ---- runs


def run_command(program, sent, *words, timeout=600, **more):
    """A run of a command of the program over this input: its status, and what it wrote to its two outputs."""
    return subprocess.run([program, *words], input=sent, capture_output=True, timeout=timeout, **more)


def lines(program, sent, *words, **more):
    """A run of the program over these lines: its status, and what it wrote to its two outputs."""
    return run_command(program, sent, "lines", *words, **more)


@dataclasses.dataclass(frozen=True, order=True)
class Spent:
    """What a run took: the seconds by the clock, those of the processors, and the most memory in bytes."""
    seconds: float
    processors: float
    memory: int


def measure(command, source=os.devnull, written=os.devnull):
    """What a command takes that reads one file and writes another. It is started by a small process of its own, since the
    system counts the memory of the process that starts another one as that one's, too. Ends the program if it fails."""
    with open(source, "rb") as read, open(written, "wb") as out:
        done = subprocess.run([sys.executable, "-IS", SPEND, *map(str, command)],
                              stdin=read, stdout=out, stderr=subprocess.PIPE, text=True)
    if done.returncode:
        sys.exit(f"{' '.join(map(str, command))} failed: {done.stderr}")
    seconds, processors, memory = done.stderr.split()[-3:]
    return Spent(float(seconds), float(processors), int(memory))


def peak(pid):
    """The most memory that a running process has had, in bytes."""
    status = pathlib.Path(f"/proc/{pid}/status").read_text()
    return 1024 * next(int(line.split()[1]) for line in status.splitlines() if line.startswith("VmHWM"))


def processor_seconds(pid):
    """The seconds of processors that a running process has had."""
    fields = pathlib.Path(f"/proc/{pid}/stat").read_text().rpartition(")")[2].split()
    return (int(fields[11]) + int(fields[12])) / os.sysconf("SC_CLK_TCK")


# ---- replies


def take_reply(output, at, has_file):
    """The reply in lines at a place of the output, as its status code and its text, and the place after it. One that has a
    file says how long it is."""
    end = output.index(b"\n", at)
    status, text = output[at:end].split(b" ", 1)
    at = end + 1
    if has_file and status == b"200":
        size = int(text)
        text, at = output[at:at + size], at + size + 1
    return (int(status), text), at


class Talk:
    """A program that is running and answers lines, of which each is sent when the reply to the one before has come."""

    def __init__(self, *command, **more):
        self.process = subprocess.Popen(list(map(str, command)), stdin=subprocess.PIPE, stdout=subprocess.PIPE, **more)

    def send(self, data):
        """Sends bytes. Says whether the program took them."""
        try:
            self.process.stdin.write(data)
            self.process.stdin.flush()
        except BrokenPipeError:
            return False
        return True

    def ask(self, query):
        """The first line of the reply to a query, which brings its own end. Empty if the program has ended."""
        return self.process.stdout.readline() if self.send(query) else b""

    def ask_reply(self, query, has_file=False):
        """The reply to a query as its status code and its text, or None if the program ends before it is whole."""
        head = self.ask(query)
        if not head.endswith(b"\n"):
            return None
        if not (has_file and head.startswith(b"200 ")):
            return take_reply(head, 0, False)[0]
        size = int(head[4:]) + 1
        text = self.process.stdout.read(size)
        return take_reply(head + text, 0, True)[0] if len(text) == size else None

    def close(self):
        """Ends the input. Returns what the program still writes, and its status."""
        with contextlib.suppress(BrokenPipeError):
            self.process.stdin.close()
        rest = self.process.stdout.read()
        return rest, self.process.wait()


# ---- the machine


def output_of(*command):
    """What a command prints, or nothing if there is no such command or it fails."""
    try:
        return subprocess.run(command, cwd=ROOT, capture_output=True, text=True, check=True).stdout.strip()
    except (OSError, subprocess.CalledProcessError):
        return ""


def commit():
    """The commit of this tree, and `+` if a file of the program differs from it."""
    changed = output_of("git", "status", "--porcelain", "--", "crates", "crates.txt")
    return output_of("git", "rev-parse", "--short=8", "HEAD") + ("+" if changed else "")


def machine():
    """The machine and the compilers, as words by name."""
    models = [line.split(":", 1)[1].strip() for line in output_of("lscpu").splitlines() if line.startswith("Model name:")]
    memory = os.sysconf("SC_PAGE_SIZE") * os.sysconf("SC_PHYS_PAGES")
    return {
        "processor": models[0] if models else platform.processor(),
        "processors": len(os.sched_getaffinity(0)),
        "memory": f"{memory / 1e9:.0f} GB",
        "kernel": platform.release(),
        "kit": output_of("rt", "version"),
        "rustc": output_of("rustc", "--version"),
        "clang": output_of("clang", "--version").partition("\n")[0],
        "python": platform.python_version(),
    }
