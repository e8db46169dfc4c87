"""How long the walks of a certificate are in the shapes `chain` and `chain_of_loops`.

`python3 walks.py chain 1001` writes the places of the code, and for each of the two walks to the
one logged store: the spots that a search back from it goes through, the steps of its shortest walk,
and the bytes of these steps in the text. It is a model: it follows the table of facts of `ir`, and
runs nothing of the program."""

import sys
from collections import deque


def chain(n, loops):
    """The code of a shape, its store, and the register that the store writes through."""
    code, registers = [], {}

    def add(*instruction):
        code.append(instruction)

    def made(name, *rest):
        register = made.count = made.count + 1
        add(name, register, *rest)
        return register

    made.count = 0
    registers[0] = made("copy", made("load", "root"))
    registers[1] = made("copy", made("new"))
    for i in range(2, n):
        registers[i] = made("copy", registers[1])
    top = len(code)
    add("tick")
    made("bin", made("load", "root"))
    leave = len(code)
    add("branch", None)
    for i in range(n - 1, 0, -1):
        add("copy", registers[i], registers[i - 1])
        if loops:
            inner = len(code)
            add("tick")
            add("branch", inner + 3)
            add("jump", inner)
    add("jump", top)
    code[leave] = ("branch", len(code))
    made("load", registers[n - 1])
    made("const")
    made("bin")
    add("store", registers[n - 1])
    return code, len(code) - 1, registers[n - 1]


def before(code):
    """The places that lead to each place."""
    places = [[] for _ in code]
    for place, instruction in enumerate(code):
        if instruction[0] == "jump":
            places[instruction[1]].append(place)
        elif place + 1 < len(code):
            places[place + 1].append(place)
            if instruction[0] == "branch":
                places[instruction[1]].append(place)
    return places


def origins(instruction, fact):
    """The facts before an instruction that give a fact after it: `start`, `read`, or a register."""
    name = instruction[0]
    if fact == "read":
        loads = name == "load" and instruction[1:] and instruction[-1] != "root"
        return ["read", instruction[-1]] if loads else ["read"]
    if fact == "start":
        return ["start"]
    if name in ("load", "const", "bin") and instruction[1] == fact:
        return ["start"]
    if name == "copy" and instruction[1] == fact:
        return [instruction[2]]
    if name in ("new", "store") and instruction[1] == fact:
        return []
    return [fact]


def text(place, fact):
    """A step as the certificate's text has it."""
    if fact == "start":
        return f" {place} start"
    return f" {place} read N.a" if fact == "read" else f" {place} unwritten r{fact} N.a"


def walk(code, store, fact):
    """The spots of a search, and the steps of its walk with their bytes."""
    places = before(code)
    following, waiting = {(store, fact): None}, deque([(store, fact)])
    while waiting:
        spot = waiting.popleft()
        for place in places[spot[0]]:
            for origin in origins(code[place], spot[1]):
                if (place, origin) not in following:
                    following[place, origin] = spot
                    waiting.append((place, origin))
    steps, size, spot = 0, 0, (0, "start")
    while spot is not None:
        steps, size, spot = steps + 1, size + len(text(*spot)), following[spot]
    return len(following), steps, size


if __name__ == "__main__":
    code, store, register = chain(int(sys.argv[2]), sys.argv[1] == "chain_of_loops")
    print(len(code), "places")
    for name, fact in (("unwritten", register), ("read", "read")):
        print(name, "%d spots, %d steps, %d bytes" % walk(code, store, fact))
