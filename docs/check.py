#!/usr/bin/env python3
"""Checks that docs and program agree, behind `rt ci` in .ci/run; Python's standard library alone.

    docs/check.py           says what differs; status 1 where anything does
    docs/check.py --write   writes what is made: the tests of the examples

1. Each block of README.md and docs/*.md that begins with `$ scram WORDS` is a case of the tests of whole runs, over the
   files of examples/ that it names: crates/psa_run_tests/src/examples.rt is made of them.
2. docs/completion.bash offers exactly the options of the table of docs/report.md.
3. docs/meaning.md is as docs/meaning.py makes it.
"""
import glob
import os
import re
import subprocess
import sys

TOP = os.path.dirname(os.path.dirname(os.path.abspath(__file__)))
TESTS = "crates/psa_run_tests/src/examples.rt"


def read(path):
    with open(f"{TOP}/{path}", encoding="utf-8") as file:
        return file.read()


def examples():
    """The text of the tests: a case for each command, with the files that it names."""
    cases, seen = [], set()
    pages = ["README.md"] + sorted(os.path.relpath(path, TOP) for path in glob.glob(f"{TOP}/docs/*.md"))
    for page in pages:
        for words, out in re.findall(r"^```\n\$ scram ([^\n|]*)\n(.*?)^```$", read(page), re.M | re.S):
            if (words, out) in seen:
                continue
            seen.add((words, out))
            files = [word for word in words.split() if word.endswith(".xml")]
            texts = "".join(f"@ {file}\n{read(file).rstrip()}\n" for file in files)
            cases.append(f"\n# {page}\n{texts}$ {words} => Done\n{out}")
    lines = ["//! The examples of the pages, made by docs/check.py from their blocks and from examples/.", "",
             "/// Each command of the pages over the files of examples/ that it names, with its report.",
             "#[rattlefmt::skip]", 'pub const EXAMPLES: &str = r#"' + "".join(cases).rstrip("\n") + '"#;']
    return "\n".join(lines) + "\n"


def options(program):
    """The options of a program by the tables of docs/report.md."""
    page = read("docs/report.md")
    first = page[:page.index("## The report")]
    every = set(re.findall(r"(?<![\w-])(-l|--[a-z-]+)(?=[ `])", " ".join(row.split("|")[1] for row in first.split("\n") if row.startswith("| `-"))))
    if program == "scram_shares":
        every -= {"--mcub", "--validate", "--node-limit"}
    return every


def completed(program):
    """The options that the completion offers."""
    script = f'source "{TOP}/docs/completion.bash"; COMP_WORDS=({program} -); COMP_CWORD=1; _scram {program}; echo "${{COMPREPLY[@]}}"'
    return set(subprocess.run(["bash", "-c", script], capture_output=True, text=True).stdout.split())


def main():
    wrong = []
    made = examples()
    if "--write" in sys.argv:
        with open(f"{TOP}/{TESTS}", "w", encoding="utf-8") as file:
            file.write(made)
    if not os.path.isfile(f"{TOP}/{TESTS}") or read(TESTS) != made:
        wrong.append(f"{TESTS} is not made of the pages' blocks: run docs/check.py --write")
    programs = ["scram"] + [name for name in ("scram_shares",) if os.path.exists(f"{TOP}/{name}")]
    for program in programs:
        differ = options(program) ^ completed(program)
        if differ:
            wrong.append(f"docs/completion.bash and the table of docs/report.md differ for {program}: {' '.join(sorted(differ))}")
    if subprocess.run([sys.executable, f"{TOP}/docs/meaning.py", "--check"]).returncode:
        wrong.append("docs/meaning.md is old")
    for it in wrong:
        print(it)
    return 1 if wrong else 0


if __name__ == "__main__":
    sys.exit(main())
