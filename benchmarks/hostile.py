#!/usr/bin/env python3
"""Times `scram --validate` on models of a million elements that are hard on a reader or on look-ups, and on models
whose paths or quantities are, and whole runs over event trees of 65,536 paths.

    benchmarks/hostile.py [PROGRAM [ELEMENTS]]

PROGRAM is ./scram if left out, and ELEMENTS, of each large file, 1,000,000, the most that a file may have. Each
line has the seconds of processor, the memory at most, the exit status and what was said at the end. The script
fails where a model takes 10 seconds or more, or a whole run one second or more, or has another answer than the
one that is wanted (a killed program has a status below 0).
"""
import os
import subprocess
import sys
import tempfile

LIMIT = 10
LIMIT_OF_RUN = 1
ROOT = os.path.dirname(os.path.dirname(os.path.abspath(__file__)))
SIZE = int(sys.argv[2]) - 20 if len(sys.argv) > 2 else 999_980
HALF = SIZE // 2  # definitions of two elements


def tree(lines, name="F"):
    return ["<opsa-mef>", f'<define-fault-tree name="{name}">', *lines, "</define-fault-tree>", "</opsa-mef>"]


def gate(number, to):
    return f'<define-gate name="g{number}"><gate name="g{to}"/></define-gate>'


def either(number, one, other):
    return f'<define-gate name="g{number}"><or><gate name="g{one}"/><gate name="g{other}"/></or></define-gate>'


def chain(first, last, to):
    """Gates first to last, each of the next one, the last of another."""
    return [gate(i, i + 1) for i in range(first, last)] + [gate(last, to)]


def event(name):
    return f'<define-basic-event name="{name}"/>'


def walk(content):
    return ["<opsa-mef>", '<define-event-tree name="E">', '<define-functional-event name="X"/>',
            '<define-sequence name="S"/>', "<initial-state>", *content, "</initial-state>", "</define-event-tree>",
            "</opsa-mef>"]


def fork(states, to):
    """A fork at X whose paths go on in another branch."""
    paths = (f'<path state="{state}"><branch name="b{to}"/></path>' for state in states)
    return f'<fork functional-event="X">{"".join(paths)}</fork>'


def tested_forks(single, double, tests):
    """Paths of as many forks, of one path each and then of two, at the end of which a conditional has as many tests."""
    tested = '<test-functional-event name="X" state="r"/>'
    last = single + double
    return ["<opsa-mef>", '<define-initiating-event name="I" event-tree="E"/>', '<define-event-tree name="E">',
            '<define-functional-event name="X"/>', '<define-sequence name="S"><if><or>', *[tested] * tests,
            "</or><block/></if></define-sequence>",
            *(f'<define-branch name="b{i}">{fork("p" if i < single else "pq", i + 1)}</define-branch>' for i in range(last)),
            f'<define-branch name="b{last}"><sequence name="S"/></define-branch>',
            '<initial-state><branch name="b0"/></initial-state>', "</define-event-tree>", "</opsa-mef>"]


def shared_group(numbers):
    """A group of 8 members, thus of 255 subsets, whose distribution is a sum of as many numbers."""
    return ["<opsa-mef>", '<define-CCF-group name="G" model="MGL"><members>',
            *(f'<basic-event name="m{i}"/>' for i in range(8)), "</members><distribution><add>",
            *['<float value="1e-9"/>'] * numbers, "</add></distribution>",
            *(f'<factor level="{level}"><float value="0.5"/></factor>' for level in range(2, 9)),
            "</define-CCF-group>", "</opsa-mef>"]


def models():
    """Each model: its name, the lines of its files, the end of what is said (nothing where it is valid), and options."""
    ends = '<define-gate name="g0"><constant value="true"/></define-gate>'
    last = 2 * HALF
    yield "gates", [tree(gate(i, 0) for i in range(1, HALF)), tree([ends, *(gate(i, 0) for i in range(HALF, last))], "H")], ""
    yield "references to one name", [tree(['<define-gate name="top"><or>', *['<basic-event name="a"/>'] * SIZE,
                                           "</or></define-gate>", event("a")])], ""
    yield "chain", [tree(chain(1, HALF, HALF + 1)), tree([*chain(HALF + 1, last, 0), ends], "H")], ":3: too deep g1"
    yield "chain backwards", [tree([ends, *(gate(i, i - 1) for i in range(1, HALF))]),
                              tree((gate(i, i - 1) for i in range(HALF, last)), "H")], ":503: too deep g500"
    yield "cycle", [tree(chain(1, HALF, HALF + 1)), tree(chain(HALF + 1, last, 1), "H")], ":3: cycle g1"
    yield "cycle at the end of a chain", [tree(chain(1, HALF, HALF + 1)), tree(chain(HALF + 1, last, last), "H")], f": cycle g{last}"
    yield "cycles", [tree(gate(i, i) for i in range(1, HALF))], ":3: cycle g1"
    for name, back in ("cycles in one another", lambda i: i - 1), ("cycles of one gate", lambda i: 1):
        yield name, [tree([*(either(i, min(i + 1, SIZE // 4), back(i)) for i in range(1, SIZE // 4 + 1)), ends])], ":3: cycle g1"
    yield "duplicates", [tree(event("a") for _ in range(SIZE))], ":4: duplicate a"
    yield "duplicate at the end", [tree([*(event(f"e{i}") for i in range(SIZE)), event("e0")])], ": duplicate e0"
    yield "undefined names", [tree(gate(i, f"x{i}") for i in range(1, HALF))], ":3: undefined gx1"
    yield "private events in components", [tree(f'<define-component name="C{i}" role="private">{event("a")}</define-component>'
                                                for i in range(HALF))], ""
    paths = '<define-gate name="top"><or>', *['<basic-event name="F.C.C.C.C.C.C.C.C.a"/>'] * (SIZE - 200), "</or></define-gate>"
    nested = ['<define-component name="C">'] * 50 + [event("a")] + ["</define-component>"] * 50
    yield "paths", [tree([*nested, *paths])], ": undefined F.C.C.C.C.C.C.C.C.a"
    yield "states of a fork", [walk(['<fork functional-event="X">', *(f'<path state="s{i}"><sequence name="S"/></path>'
                                                                     for i in range(HALF)), "</fork>"])], ""
    yield "one state in a fork", [walk(['<fork functional-event="X">', *['<path state="s"><sequence name="S"/></path>'] * HALF,
                                        "</fork>"])], ":8: duplicate s"
    yield "blocks", [walk(["<block/>"] * SIZE + ['<sequence name="S"/>'])], ""
    yield "members of a group", [["<opsa-mef>", '<define-CCF-group name="G" model="MGL"><members>',
                                  *(f'<basic-event name="m{i}"/>' for i in range(SIZE)),
                                  '</members><distribution><int value="0"/></distribution></define-CCF-group>',
                                  "</opsa-mef>"]], ":2: bad group G"
    yield "unknown elements", [["<opsa-mef>", *["<x/>"] * SIZE, "</opsa-mef>"]], ":2: unknown element x"
    yield "labels", [tree(["<label>a</label>"] * SIZE)], ""
    yield "tests after many forks", [tested_forks(100, 10, 10_000)], ""
    yield "subsets of a group", [shared_group(SIZE * 7 // 10)], "", "--ccf", "--rare-event"


def settings(*houses):
    """Each house event is set, to the state that is given."""
    return "".join(f'<set-house-event name="h{i}"><constant value="{state}"/></set-house-event>' for i, state in houses)


def forks(one, other, levels=16, gates=200):
    """Forks one after another, each of which sets house events in two ways; then one formula is collected."""
    yield '<opsa-mef><define-initiating-event name="I" event-tree="E"/><define-event-tree name="E">'
    yield from (f'<define-functional-event name="X{i}"/>' for i in range(levels))
    yield '<define-sequence name="S"/>'
    for i in range(levels):
        to = f'<branch name="b{i + 1}"/>'
        yield (f'<define-branch name="b{i}"><fork functional-event="X{i}"><path state="one">{one(i)}{to}</path>'
               f'<path state="other">{other(i)}{to}</path></fork></define-branch>')
    yield f'<define-branch name="b{levels}"><collect-formula><gate name="g0"/></collect-formula><sequence name="S"/></define-branch>'
    yield '<initial-state><branch name="b0"/></initial-state></define-event-tree><define-fault-tree name="F">'
    for i in range(gates):
        to = f'<gate name="g{i + 1}"/>' if i + 1 < gates else '<house-event name="h0"/>'
        yield f'<define-gate name="g{i}"><or><basic-event name="e{i}"/>{to}</or></define-gate>{event(f"e{i}")}'
    yield from (f'<define-house-event name="h{i}"/>' for i in range(2 * levels))
    yield "</define-fault-tree></opsa-mef>"


def trees():
    """Each event tree of 65,536 paths: its name, the lines of its files, and the end of the report."""
    yield "house events set and reset", [forks(lambda i: settings((i, "true"), (i, "false")), lambda i: "")], "count 200"
    yield "house events set in two orders", [forks(lambda i: settings((2 * i, "true"), (2 * i + 1, "true")),
                                                   lambda i: settings((2 * i + 1, "true"), (2 * i, "true")))], "count 1"


def run(program, folder, options, files):
    words = []
    for place, lines in enumerate(files):
        path = os.path.join(folder, f"{place}.xml")
        with open(path, "w") as out:
            out.writelines(line + "\n" for line in lines)
        words.append(path)
    process = subprocess.Popen([program, *options, *words], stdout=subprocess.PIPE, stderr=subprocess.STDOUT)
    said = process.stdout.read().decode(errors="replace").strip()
    _, status, usage = os.wait4(process.pid, 0)
    process.returncode = os.waitstatus_to_exitcode(status)
    return usage.ru_utime + usage.ru_stime, usage.ru_maxrss // 1024, process.returncode, said


def tell(seconds, memory, status, name, said, right):
    print(f"{seconds:6.2f} s {memory:6} MB  {status:3}  {name}: {said}{'' if right else '   WRONG'}", flush=True)


def main():
    program = sys.argv[1] if len(sys.argv) > 1 else os.path.join(ROOT, "scram")
    wrong = 0
    with tempfile.TemporaryDirectory() as folder:
        for name, files, told, *options in models():
            seconds, memory, status, said = run(program, folder, ["--validate", *options], files)
            right = seconds < LIMIT and said.endswith(told) and (status == 0) == (told == "")
            wrong += not right
            tell(seconds, memory, status, name, said.replace(folder + os.sep, ""), right)
        for name, files, told in trees():
            seconds, memory, status, said = run(program, folder, [], files)
            last = said.splitlines()[-1] if said else ""
            right = seconds < LIMIT_OF_RUN and last == told and status == 0
            wrong += not right
            tell(seconds, memory, status, name, last, right)
    sys.exit(wrong != 0)


main()
