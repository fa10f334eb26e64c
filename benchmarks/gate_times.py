#!/usr/bin/env python3
"""What the merge gate costs: runs `rt ci` at the top of this repository and tells, for each crate, the processor
seconds of its proof, of its tests and of its must-fail edits, their sum, and the wall time.

    benchmarks/gate_times.py [FILE [NAME..]]

The table goes to standard output, what rt ci says to FILE (gate.log). With names, only these crates and those below
them are tried, as by `rt ci NAME..`: what passes is kept, so several such runs and a whole one behind them try each
crate once, and their tables add up to the whole.

The processes below rt ci are looked at four times a second (in /proc, so on Linux alone). Each run of the prover has
the crate's name among its words. A run in a folder rt-edit-.. checks an edit, one with the word --test the tests, and
any other the proof, or builds what was proved. What else runs (linking, programs, tests) is the last line. The sum is
less than what the system counts, by what each process did after it was last seen.
"""
import os
import resource
import subprocess
import sys
import threading
import time

PERIOD = 0.25
TICKS = os.sysconf("SC_CLK_TCK")
KINDS = ("proof", "tests", "edits")
OTHER = ("", "other")


def text_of(path):
    """The bytes of a file of /proc; none where the process is gone."""
    try:
        with open(path, "rb") as file:
            return file.read()
    except OSError:
        return b""


def stat_of(process):
    """The parent, the start and the processor seconds of a process, or None where it is gone."""
    # (a command's name may hold blanks and parentheses)
    fields = text_of(f"/proc/{process}/stat").rpartition(b")")[2].split()
    if len(fields) < 20:
        return None
    return int(fields[1]), int(fields[19]), (int(fields[11]) + int(fields[12])) / TICKS


def below(top):
    """The processes below `top`, each by its number and its start, with its processor seconds."""
    stats = {int(name): stat_of(name) for name in os.listdir("/proc") if name.isdigit()}
    children = {}
    for process, stat in stats.items():
        if stat:
            children.setdefault(stat[0], []).append(process)
    found, left = {}, [top]
    while left:
        for process in children.get(left.pop(), []):
            found[process, stats[process][1]] = stats[process][2]
            left.append(process)
    return found


def task_of(process):
    """The crate and the kind of work of a process; None where it is gone or not yet the prover."""
    words = text_of(f"/proc/{process}/cmdline").decode(errors="replace").split("\0")
    if os.path.basename(words[0]) != "rattle" or "--crate-name" not in words:
        return None
    crate = words[words.index("--crate-name") + 1]
    try:
        folder = os.readlink(f"/proc/{process}/cwd")
    except OSError:
        return None
    kind = "edits" if "/rt-edit-" in folder else "tests" if "--test" in words else "proof"
    return crate, kind


def watch(top, ended, seconds, tasks):
    """Keeps the processor seconds of each process below `top`, and its task, until `ended`."""
    while not ended.wait(PERIOD):
        for key, spent in below(top).items():
            seconds[key] = spent
            if key not in tasks:
                task = task_of(key[0])
                if task:
                    tasks[key] = task


def table(spent, wall, counted):
    """The lines of the table."""
    yield "| Crate | Proof | Tests | Edits | Sum |"
    yield "|---|---|---|---|---|"
    sums = [0.0, 0.0, 0.0]
    for crate in sorted({crate for crate, _ in spent if crate}):
        row = [spent.get((crate, kind), 0.0) for kind in KINDS]
        sums = [a + b for a, b in zip(sums, row)]
        cells = " | ".join(f"{it:.0f}" for it in [*row, sum(row)])
        yield f"| {crate} | {cells} |"
    cells = " | ".join(f"{it:.0f}" for it in [*sums, sum(sums)])
    yield f"| all crates | {cells} |"
    yield ""
    yield f"Beside the prover: {spent.get(OTHER, 0.0):.0f} processor seconds (linking, programs, tests)."
    yield f"Counted by the system: {counted / 60:.1f} processor minutes. Wall time: {wall / 60:.1f} minutes."


def main():
    log = sys.argv[1] if len(sys.argv) > 1 else "gate.log"
    seconds, tasks, ended = {}, {}, threading.Event()
    start = time.time()
    with open(log, "wb") as out:
        gate = subprocess.Popen(["rt", "ci", *sys.argv[2:]], stdin=subprocess.DEVNULL, stdout=out, stderr=out)
        watcher = threading.Thread(target=watch, args=(gate.pid, ended, seconds, tasks))
        watcher.start()
        status = gate.wait()
    wall = time.time() - start
    ended.set()
    watcher.join()
    usage = resource.getrusage(resource.RUSAGE_CHILDREN)
    spent = {}
    for key, it in seconds.items():
        task = tasks.get(key, OTHER)
        spent[task] = spent.get(task, 0.0) + it
    print(*table(spent, wall, usage.ru_utime + usage.ru_stime), sep="\n")
    print(f"rt ci ended with status {status}: {text_of(log).decode(errors='replace').splitlines()[-1:]}")
    return status


if __name__ == "__main__":
    sys.exit(main())
