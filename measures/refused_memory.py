#!/usr/bin/env python3
"""Runs three scripts of the counter with one refused request for memory, for each request in turn.

    measures/refused_memory.py [PROGRAM]

PROGRAM is the built program, crates/cnvm/out/cnvm where none is named. Wanted: cc, and a C library
with __libc_malloc. A run that meets the refused request must end with status 1, or 5 or 6 where a
file found no memory, with a first part of its lines; or it answers `no memory`, and then power
brings back a pool in which the call is whole or isn't there. Anything else, a signal included, is
printed.
"""
import os, subprocess, sys, tempfile

HERE = os.path.dirname(os.path.abspath(__file__))
PROGRAM = os.path.abspath(sys.argv[1] if len(sys.argv) > 1 else HERE + "/../crates/cnvm/out/cnvm")
COUNTER = os.path.abspath(HERE + "/../examples/counter.c")
AFTER = "power old\nshow\nlast\n"
LEFT = {  # what the lines after `no memory` may be
    "recovered none\nroot n=0\nlast 0 0\n", "recovered none\nroot n=5\nlast 1 5\n",
    "recovered redone 5 log 1\nroot n=5\nlast 1 5\n",
}
ANSWERS = {"refused down\n"} | {line for left in LEFT for line in left.splitlines(keepends=True)}
ANSWERS |= {f"stopped {phase}\n" for phase in ("unsealed", "sealing", "sealed")}
RUNS = {
    "call": ("call inc 5\n" + AFTER, [], "= 5 log 1\nrecovered none\nroot n=5\nlast 1 5\n"),
    "cut": ("stop 13\ncall inc 5\npower new\nshow\n" + AFTER, [],
            "stopped sealed\nrecovered redone 5 log 1\nroot n=5\nrecovered none\nroot n=5\n"
            "last 1 5\n"),
    "save": ("call inc 5\n" + AFTER, ["--slots", "1", "--log", "1", "--save", "Z"],
             "= 5 log 1\nrecovered none\nroot n=5\nlast 1 5\n"),
}


def run(room, refuse, words, number):
    """The status, the output, and how many requests there were."""
    told = room + "/count"
    if os.path.exists(told):
        os.remove(told)
    environment = dict(os.environ, LD_PRELOAD=refuse, REFUSE=str(number), REFUSE_COUNT=told)
    done = subprocess.run([PROGRAM] + words, cwd=room, env=environment, capture_output=True,
                          timeout=60)
    count = int(open(told).read()) if os.path.exists(told) else None
    return done.returncode, done.stdout.decode(), count


def judge(status, out, whole):
    """What kind of ending this is, or None where it is none that may be."""
    if status in (1, 5, 6):
        return f"status {status}" if whole.startswith(out) else None
    if status != 0 or out.count("\n") != whole.count("\n"):
        return None
    if "no memory\n" not in out:
        return "whole" if out == whole else None
    before, after = out.split("no memory\n", 1)
    lines = after.splitlines(keepends=True)
    right = whole.startswith(before) and all(line in ANSWERS for line in lines)
    return "no memory" if right and (len(lines) < 3 or "".join(lines[-3:]) in LEFT) else None


def main():
    wrong = 0
    with tempfile.TemporaryDirectory() as room:
        refuse = room + "/refuse.so"
        command = ["cc", "-O1", "-shared", "-fPIC", "-o", refuse, HERE + "/refuse.c"]
        subprocess.run(command, check=True)
        for name, (script, more, whole) in RUNS.items():
            open(room + "/script", "w").write(script)
            words = ["run", COUNTER, "script"] + more
            status, out, count = run(room, refuse, words, 0)
            assert (status, out) == (0, whole) and count, (status, out, count)
            kinds = {}
            for number in range(1, count + 1):
                status, out, _ = run(room, refuse, words, number)
                kind = judge(status, out, whole)
                if kind is None:
                    wrong += 1
                    print(f"wrong: {name}, request {number}, status {status}\n{out}", end="")
                kinds[kind] = kinds.get(kind, 0) + 1
            told = ", ".join(f"{kind} {n}" for kind, n in sorted(kinds.items(), key=str))
            print(f"{name}: requests {count}: {told}")
    sys.exit(1 if wrong else 0)


main()
