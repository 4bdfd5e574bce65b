"""The programs of this folder that works run: they are compiled into bench/out, once for each change of their sources."""
from __future__ import annotations

import os
import subprocess
import sys

from checks.common.programs import ROOT, compile_c

BENCH = ROOT / "bench"
PARTNERS = BENCH / "partners"
OUT = BENCH / "out"

# `rt` makes one module of the program and all libraries below it, std among them, and clang compiles it at -O3 for
# x86-64-v2, without unwinding. These flags say the same to rustc.
FLAGS = ["--edition=2024", "-Copt-level=3", "-Ctarget-cpu=x86-64-v2", "-Ccodegen-units=1", "-Clto=fat", "-Cpanic=abort"]


def is_fresh(program, *sources):
    return program.exists() and all(source.stat().st_mtime < program.stat().st_mtime for source in sources)


def yardstick(bench):
    """The plain Rust program of bench/yardstick, or the one that is given."""
    if bench.yardstick:
        return bench.yardstick
    program, folder = OUT / "yardstick", BENCH / "yardstick"
    if not is_fresh(program, *folder.glob("*.rs")):
        OUT.mkdir(exist_ok=True)
        subprocess.run(["rustc", *FLAGS, "-o", program, folder / "main.rs"], check=True)
    return program


def in_c(name):
    """A program of bench/partners in C."""
    program, source = OUT / name, PARTNERS / f"{name}.c"
    if not is_fresh(program, source):
        OUT.mkdir(exist_ok=True)
        compile_c(source, OUT, "-pthread")
    return program


def in_go(name):
    """A program of bench/partners in Go."""
    program, source = OUT / name, PARTNERS / f"{name}.go"
    if not is_fresh(program, source):
        OUT.mkdir(exist_ok=True)
        subprocess.run(["go", "build", "-o", program, source], check=True)
    return program


def in_python(name, *words):
    """The command that runs a program of bench/partners in Python."""
    return [sys.executable, "-IS", PARTNERS / f"{name}.py", *words]


def on_one_processor(words):
    """A command that may use one processor alone, the last one that this process may use."""
    return ["taskset", "-c", str(max(os.sched_getaffinity(0))), *words]
