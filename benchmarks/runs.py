#!/usr/bin/env python3
"""Times whole runs of `scram` over the models of benchmarks/models, so that the table of docs/speed.md can be repeated.

    benchmarks/runs.py [PROGRAM [REGEX]]

Makes the models in a temporary folder (150 MB, some seconds), runs each line of models/runs.txt whose name fits three
times with its report thrown away, and prints the least processor seconds and the greatest memory (what is below this
script's own, some 14 MB, is told as that). Without PROGRAM it is crates/psa_scram/out/psa_scram, which ./scram builds.
"""
import os
import re
import subprocess
import sys
import tempfile

HERE = os.path.dirname(os.path.abspath(__file__))
ROUNDS = 3


def run(program, words):
    """The processor seconds, the greatest memory in MB, and the status of a run."""
    process = subprocess.Popen([program, *words], stdout=subprocess.DEVNULL)
    _, status, usage = os.wait4(process.pid, 0)
    process.returncode = os.waitstatus_to_exitcode(status)
    return usage.ru_utime + usage.ru_stime, usage.ru_maxrss / 1024, process.returncode


def runs():
    """The name, the model and the further words of each run."""
    with open(os.path.join(HERE, "models", "runs.txt"), encoding="utf-8") as file:
        for line in file:
            words = line.split()
            if words and not line.startswith("#"):
                yield words[0], words[1], words[2:]


def main():
    program = sys.argv[1] if len(sys.argv) > 1 else os.path.join(HERE, "..", "crates", "psa_scram", "out", "psa_scram")
    wanted = re.compile(sys.argv[2] if len(sys.argv) > 2 else "")
    chosen = [one for one in runs() if wanted.search(one[0])]
    with tempfile.TemporaryDirectory() as folder:
        names = sorted({model for _, model, words in chosen if "--sample" not in words})
        subprocess.run([sys.executable, os.path.join(HERE, "models", "gen.py"), "--set", folder, *names], check=True)
        made = {os.path.splitext(name)[0]: os.path.join(folder, name) for name in os.listdir(folder)}
        for name, model, words in chosen:
            files = [] if "--sample" in words else [made[model]]
            told = [run(program, [*words, *files]) for _ in range(ROUNDS)]
            print(f"{name:15} {min(it[0] for it in told):8.3f} s {max(it[1] for it in told):8.1f} MB  {told[0][2]}", flush=True)


if __name__ == "__main__":
    main()
