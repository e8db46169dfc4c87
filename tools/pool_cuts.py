"""Losses of power worked out from the system calls of a run on a pool's file.

A run under `strace` tells each line that it writes, each sync and each answer. At a moment between
two of them a loss of power leaves of each line the copy that was synced last, or any one that was
written since."""

import os
import re
import shutil
import subprocess

LINE = 64
CALL = re.compile(r'^(?:\d+ +)?(pwrite64|fdatasync|write)\((\d+)(?:, "((?:\\x..)*)", (\d+))?'
                  r'(?:, (\d+))?\) += (-?\d+)')


def can_trace():
    return shutil.which("strace") is not None


def bytes_of(shown):
    return bytes.fromhex(shown.replace("\\x", ""))


def traced(words, given=b""):
    """The system calls of a run that ends well, in their order: ("line", its number, its bytes),
    ("sync",) and ("answer", bytes)."""
    told = f"{os.getpid()}.calls"
    place = os.path.join(os.environ.get("TMPDIR", "/tmp"), told)
    command = ["strace", "-f", "-xx", "-s", "100000", "-e", "trace=pwrite64,fdatasync,write",
               "-o", place, *words]
    try:
        ended = subprocess.run(command, input=given, capture_output=True, check=False)
        with open(place, encoding="utf-8") as file:
            calls = [call_of(line) for line in file]
    finally:
        if os.path.exists(place):
            os.remove(place)
    if ended.returncode != 0:
        raise ValueError(f"status {ended.returncode}: {ended.stderr.decode(errors='replace')}")
    return [it for it in calls if it]


def call_of(line):
    """One system call as `traced` tells it; `None` for one that writes no line and no answer."""
    found = CALL.match(line)
    if not found:
        return None
    name, number, shown, _, place, result = found.groups()
    if name == "fdatasync":
        return ("sync",)
    if name == "write":
        return ("answer", bytes_of(shown)) if number == "1" else None
    if len(bytes_of(shown)) != LINE or int(result) != LINE or int(place) % LINE:
        raise ValueError(f"a write of a part of a line: {line}")
    return ("line", int(place) // LINE, bytes_of(shown))


def left_after(before, calls, draw):
    """What a loss of power after these calls may leave of a file that held these bytes, drawn."""
    synced, since = {}, {}
    for call in calls:
        if call[0] == "line":
            since.setdefault(call[1], []).append(call[2])
        elif call[0] == "sync":
            synced.update({line: copies[-1] for line, copies in since.items()})
            since = {}
    left = bytearray(before)
    for line in {*synced, *since}:
        first = synced.get(line, bytes(before[line * LINE:(line + 1) * LINE]))
        left[line * LINE:(line + 1) * LINE] = draw.choice([first, *since.get(line, [])])
    return bytes(left)


def answers_in(calls):
    return b"".join(call[1] for call in calls if call[0] == "answer")
