#!/usr/bin/env python3
"""Measures the gate from nothing: runs `rt ci` on a clean clone of this commit, with `--anew` if the kit keeps work between
runs, and prints how long it took by crate, in seconds of one processor: to prove the crate, to prove its tests, and to try
its must-fail edits. The last line has the sum, with the compilers, and the time by the clock. It ends with the gate's
status. Let nothing else run meanwhile.

usage: bench/gate.py [LOG]    LOG gets what the gate prints, each line after the seconds since the start, and then the
                              seconds of each edit, the dearest first
"""
import collections
import os
import pathlib
import resource
import subprocess
import sys
import tempfile
import threading
import time

ROOT = pathlib.Path(__file__).resolve().parent.parent
TICKS = os.sysconf("SC_CLK_TCK")
STEPS = ("proofs", "tests", "edits")


def printed(*words, cwd=ROOT):
    """What a command prints, on standard output or, as some kits print their help, on standard error."""
    done = subprocess.run(words, cwd=cwd, stdout=subprocess.PIPE, stderr=subprocess.STDOUT, text=True)
    return done.stdout.strip()


def step_of(words, folder):
    """Which crate a process of the prover works on in this folder, whether at its proofs, its tests or its edits, and of these
    which: by its number, or `seed` for what they stand on, if the kit numbers them, and otherwise by its folder."""
    if "--crate-name" not in words:
        return None
    crate = words[words.index("--crate-name") + 1]
    name = pathlib.Path(folder).name
    if "--incremental" in words:
        kept = pathlib.Path(words[words.index("--incremental") + 1]).name
        return crate, "edits", name if kept.startswith("rt-edits-") else kept
    if name.startswith("rt-edit-"):
        return crate, "edits", name
    return crate, "tests" if "--test" in words else "proofs", ""


def processes(folder):
    """The running processes of the prover below a folder: the number and start of each, its step, and its seconds so far."""
    for entry in os.scandir("/proc"):
        if not entry.name.isdigit():
            continue
        try:
            words = pathlib.Path(entry.path, "cmdline").read_bytes().decode(errors="replace").split("\0")
            numbers = pathlib.Path(entry.path, "stat").read_text().rpartition(")")[2].split()
            at = os.readlink(f"{entry.path}/cwd")
            step = at.startswith(folder) and step_of(words, at)
        except OSError:
            continue
        if step:
            yield (int(numbers[19]), entry.name), step, (int(numbers[11]) + int(numbers[12])) / TICKS


def watch(folder, ended, seconds):
    """Notes the seconds of each process until the gate has ended. What a process does after its last look is not seen."""
    while not ended.wait(0.5):
        for key, step, took in processes(folder):
            seconds[key] = step, took


def table(seconds):
    sums = collections.defaultdict(lambda: dict.fromkeys(STEPS, 0.0))
    for (crate, step, _), took in seconds.values():
        sums[crate][step] += took
    lines = [f"{'crate':18}" + "".join(f"{step:>8}" for step in STEPS) + f"{'sum':>8}"]
    for crate, row in [*sums.items(), ("all", {step: sum(row[step] for row in sums.values()) for step in STEPS})]:
        lines.append(f"{crate:18}" + "".join(f"{row[step]:8.0f}" for step in STEPS) + f"{sum(row.values()):8.0f}")
    return "\n".join(lines)


def edits(clone, seconds):
    """The lines of the edits, the dearest first. One that is tried twice has the sum. What has no number is counted in the
    order in which it started: the edits by their names, and after them the crate without an edit."""
    names, sums, order = {}, collections.Counter(), {}
    for (crate, step, which), took in (seconds[key] for key in sorted(seconds)):
        if step == "edits":
            if crate not in names:
                names[crate] = sorted(path.name for path in pathlib.Path(clone, "crates", crate, "must-fail").glob("*.edit"))
            started = order.setdefault(crate, {})
            number = started.setdefault(which, len(started)) if which.startswith("rt-edit-") else which
            is_edit = str(number).isdigit() and int(number) < len(names[crate])
            sums[f"{crate}/{names[crate][int(number)] if is_edit else 'unedited'}"] += took
    return "\n".join(f"{took:7.0f} {name}" for name, took in sums.most_common())


def main():
    seconds, ended = {}, threading.Event()
    commit, kit = printed("git", "rev-parse", "--short", "HEAD"), printed("rt", "version")
    words = ["rt", "ci", *["--anew"] * ("--anew" in printed("rt", "help"))]
    # The gate makes its folders below this one, so that what runs there is the gate's.
    with tempfile.TemporaryDirectory(prefix="leireg-gate-") as folder:
        os.chmod(folder, 0o755)
        clone = f"{folder}/leireg"
        subprocess.run(["git", "clone", "-q", str(ROOT), clone], check=True)
        watcher = threading.Thread(target=watch, args=(folder, ended, seconds))
        watcher.start()
        start, before = time.monotonic(), resource.getrusage(resource.RUSAGE_CHILDREN)
        gate = subprocess.Popen(words, cwd=clone, stdout=subprocess.PIPE, stderr=subprocess.STDOUT, text=True,
                                env=os.environ | {"TMPDIR": folder})
        log = open(sys.argv[1], "w") if sys.argv[1:] else None
        last = ""
        for line in gate.stdout:
            last = line.strip() or last
            if log:
                print(f"{time.monotonic() - start:7.1f} {line}", end="", file=log, flush=True)
        status = gate.wait()
        took, after = time.monotonic() - start, resource.getrusage(resource.RUSAGE_CHILDREN)
        ended.set()
        watcher.join()
        if log:
            print(edits(clone, seconds), file=log, flush=True)
    used = after.ru_utime + after.ru_stime - before.ru_utime - before.ru_stime
    print(table(seconds))
    print(f"{commit} by {kit}: {last}, {used / 60:.1f} minutes of one processor, {took / 60:.1f} by the clock on {os.cpu_count()}")
    return status


if __name__ == "__main__":
    sys.exit(main())
