"""Drawn programs: what tools/check_random compares with gcc, and tools/check_native with native
code.

Each program has constants, a root with fields and an array, objects in a list, helper functions,
and a transaction of two arguments, with every assignment that the language has, declarations of one
and of several names, `while`, `do` and `for` loops with `break` and `continue`, and expressions of
all operators. Nothing in these traps: a divisor is from 1 to 256, an index stays within its array,
loops are bounded, and a shift's count is taken modulo 64. Three programs of four have a transaction
that only looks too, which may trap at a null, an index, a divisor, or by `abort`. Two of three mix
both types of ints in fields, locals, parameters and results, with casts and large numbers."""

import random
import re

FIELDS, LENGTH = ["a", "b", "c"], 4
# Numbers that only `uint64_t` shows as they are written.
LARGE = [1 << 63, (1 << 64) - 1]
UPDATES = ["+=", "-=", "*=", "&=", "^=", "|="]
PLAIN = ["+", "-", "*", "&", "|", "^"]
TRUTHS = ["<", "<=", ">", ">=", "==", "!=", "&&", "||"]
# What stands before an expression that gives 0 or 1; gcc gets a cast there.
TRUTH = "@"
# What stands before what may trap; gcc gets a test there.
TESTS = ["SOME", "WITHIN", "NONZERO"]
# The transactions that only look.
LOOKS = ["look", "peek", "behind", "ask"]


class Drawn:
    """A drawn program."""

    def __init__(self, seed):
        self.chance, self.locals, self.loops, self.names = random.Random(seed), [], 0, 0
        self.constants = {"SIZE": LENGTH, "LOW": self.chance.randint(-9, 9), "MORE": None}
        # Whether what is drawn may not store, and whether there is a transaction that only looks.
        self.only_looks, self.has_look = False, self.chance.random() < 0.75
        # How often a type is `uint64_t`, and the types of the root's fields and of results.
        self.share, self.types = self.chance.choice([0, 0.3, 0.6]), {}
        self.drawn = "\n".join(self.items()) + "\n"
        self.text = re.sub("|".join([TRUTH, *TESTS]), "", self.drawn)
        self.calls = [call for _ in range(4) for call in (*self.looks(), self.call("work"))]
        self.calls += self.looks()

    def call(self, name):
        return name, self.number(), self.number()

    def looks(self):
        """Calls of the transaction that only looks, if there is one."""
        return [self.call("look") for _ in range(2 if self.has_look else 0)]

    def number(self):
        return self.chance.choice([0, 1, 2, 3, 7, -1, -2, 255, 1 << 40, -(1 << 62), (1 << 63) - 1,
                                   *LARGE, self.chance.randint(-1000, 1000)])

    def type(self):
        """A type of ints."""
        return "uint64_t" if self.chance.random() < self.share else "int64_t"

    def head(self, mark, name, names):
        """The line that a function of ints begins with."""
        self.types[name] = self.type()
        given = ", ".join(f"{self.type()} {it}" for it in names)
        return f"{mark}{self.types[name]} {name}({given}) {{"

    def items(self):
        low = self.constants["LOW"]
        yield f"enum {{ SIZE = {LENGTH}, LOW = {low}, MORE, LAST = SIZE * 2 - LOW }};"
        links = self.fields(["*next", "*last"], "struct Node")
        yield f"struct Node {{ {self.fields(['v', 'w'])} {links} }};"
        numbers = self.fields([*FIELDS, "t[SIZE]"])
        yield f"struct Root {{ {numbers} struct Node *head; }};"
        yield "persistent struct Root root;"
        self.locals = ["x", "y"]
        yield self.head("", "helper", self.locals)
        yield from self.block(2, 1)
        yield f"    return {self.expression(2)};"
        yield "}"
        self.locals = ["p", "q"]
        yield self.head("tx abort ", "work", self.locals)
        yield "    if (root.head == NULL) { root.head = pm_new(struct Node); }"
        yield from self.block(5, 1, calls=True)
        yield f"    return {self.expression(3)};"
        yield "}"
        if self.has_look:
            self.only_looks = True
            yield from self.look()

    def look(self):
        """A transaction that only looks, with what it calls."""
        for mark, name in ("", "seen"), ("tx const ", "look"):
            self.locals = ["x", "y"]
            yield self.head(mark, name, self.locals)
            if self.chance.randrange(2):
                yield f"    {self.risk()}"
            yield from self.block(4, 1, calls=name == "look")
            yield f"    return {self.expression(3)};"
            yield "}"

    def risk(self):
        """A statement that may trap, in one way alone."""
        local = self.chance.choice(self.locals)
        # From 0 to 7, since gcc's program would end at the least word divided by -1.
        divided = f"{self.value()} {self.chance.choice('/%')} NONZERO({local} & 7)"
        return self.chance.choice([
            f"if ({local} > 200) {{ abort(); }}",
            f"{local} += root.t[WITHIN({local})];",
            f"{local} = {divided};",
            f"if ({local} > 0) {{ {local} ^= SOME(root.head)->next == NULL; }}"])

    def fields(self, names, type=None):
        """Declarations of these names, some of them together."""
        together, declared = self.chance.randint(1, len(names)), []
        for some in [names[:together], *([it] for it in names[together:])]:
            of = type or self.type()
            self.types.update(dict.fromkeys(some, of))
            declared.append(f"{of} {', '.join(some)};")
        return " ".join(declared)

    def value(self):
        kind = self.chance.randrange(7)
        if kind == 0:
            large = [hex(it) for it in LARGE] if self.share else []
            return self.chance.choice([str(self.chance.randint(0, 300)), "0xff", *large])
        if kind == 1:
            return self.chance.choice(["SIZE", "LOW", "MORE", "LAST"])
        if kind == 2:
            return f"root.{self.chance.choice(FIELDS)}"
        if kind == 3:
            return f"root.t[{self.value()} & 3]"
        return self.chance.choice(self.locals)

    def expression(self, depth):
        if depth == 0:
            return self.value()
        left, right = self.expression(depth - 1), self.expression(depth - 1)
        kind = self.chance.randrange(10)
        if kind == 9:
            return f"({self.expression(depth - 1)} ? {left} : {right})"
        if kind == 8:
            other = f"{self.value()} ? {self.value()} : {self.expression(depth - 1)}"
            return f"({left} ? {right} : {other})"
        if kind == 0:
            return f"({left} {self.chance.choice(['/', '%'])} (({right} & 255) + 1))"
        if kind == 1:
            return f"({left} {self.chance.choice(['<<', '>>'])} ({right} & 63))"
        if kind == 2:
            casts = [f"(({it}) {left})" for it in ("int64_t", "uint64_t") if self.share]
            return self.chance.choice([f"(-{left})", f"(~{left})", f"{TRUTH}(!{left})", *casts])
        if kind < 5:
            return f"{TRUTH}({left} {self.chance.choice(TRUTHS)} {right})"
        return f"({left} {self.chance.choice(PLAIN)} {right})"

    def target(self):
        kind = 4 if self.only_looks else self.chance.randrange(5)
        if kind == 0:
            return f"root.{self.chance.choice(FIELDS)}"
        if kind == 1:
            return f"root.t[{self.value()} & 3]"
        return self.chance.choice(self.locals)

    def assignment(self):
        kind, target = self.chance.randrange(6), self.target()
        if kind == 0:
            return f"{target} = {self.expression(2)};"
        if kind == 1:
            return f"{target} {self.chance.choice(['/=', '%='])} ({self.expression(1)} & 255) + 1;"
        if kind == 2:
            return f"{target} {self.chance.choice(['<<=', '>>='])} {self.expression(1)} & 63;"
        if kind == 3:
            return f"{target}{self.chance.choice(['++', '--'])};"
        return f"{target} {self.chance.choice(UPDATES)} {self.expression(2)};"

    def fresh(self):
        self.names += 1
        return f"n{self.names}"

    def begun(self):
        """A new local with its first value, in which those before it are known."""
        name, value = self.fresh(), self.expression(2)
        self.locals.append(name)
        return f"{name} = {value}"

    def block(self, count, depth, calls=False, loop=False):
        """Statements, each on a line; names that it declares are forgotten after it."""
        known = len(self.locals)
        for _ in range(count):
            yield from ("    " * depth + line for line in self.statement(depth, calls, loop))
        if depth > 1:
            del self.locals[known:]

    def statement(self, depth, calls, loop):
        kind = self.chance.randrange(9)
        if kind == 0 and depth < 4:
            names = [self.begun() for _ in range(self.chance.choice([1, 1, 2, 3]))]
            return [f"{self.type()} {', '.join(names)};"]
        if kind in (1, 2) and depth < 4:
            return self.loop(depth, calls)
        if kind == 3 and depth < 4:
            inner = list(self.block(2, depth + 1, calls, loop))
            return [f"if ({self.expression(2)}) {{", *(line[4 * depth:] for line in inner), "}"]
        if kind == 4 and loop:
            return [f"if ({self.expression(1)}) {{ {self.chance.choice(['break', 'continue'])}; }}"]
        if kind == 5 and calls:
            # A local, since C leaves open whether a field is read before or after the call.
            target = self.chance.choice(self.locals)
            update, name = self.chance.choice(UPDATES), "seen" if self.only_looks else "helper"
            call = f"{name}({self.value()}, {self.value()})"
            if self.chance.randrange(2):
                call = f"{self.value()} ? {call} : {name}({self.value()}, {self.value()})"
            return [f"{target} {update} {call};"]
        if kind == 6 and calls:
            first, last = self.fresh(), self.fresh()
            if self.only_looks:
                return [f"struct Node *{first} = root.head;",
                        f"{self.chance.choice(self.locals)} += SOME({first})->v;"]
            return [f"struct Node *{first} = root.head, *{last} = {first};",
                    f"{last}->v {self.chance.choice(UPDATES)} {self.expression(1)};",
                    f"{self.chance.choice(self.locals)} += {first}->v;"]
        return [self.assignment()]

    def loop(self, depth, calls):
        count, most, kind = self.fresh(), self.chance.randint(0, 4), self.chance.randrange(3)
        inner = [line[4 * depth:] for line in self.block(2, depth + 1, calls, loop=True)]
        # The count is no local of the list, so nothing assigns it, and each round raises it.
        if kind == 0:
            head = f"{self.type()} {count} = 0"
            return [f"for ({head}; {count} < {most}; {count}++) {{", *inner, "}"]
        head = f"{self.type()} {count} = 0;"
        if kind == 1:
            return [head, f"while ({count} < {most}) {{", f"    {count} += 1;", *inner, "}"]
        return [head, "do {", f"    {count} += 1;", *inner, f"}} while ({count} < {most});"]


# Transactions that may trap in each way, that take and free slots, and that have more arguments
# than a line holds.
DARED = """tx int64_t push(int64_t value, int64_t n) {
    for (int64_t i = 0; i < (n & 7); i++) {
        struct Node *node = pm_new(struct Node);
        if (node == NULL) { return -1; }
        node->v = value + i;
        node->next = root.head;
        if (root.head != NULL) { root.head->last = node; }
        root.head = node;
    }
    return n;
}
tx abort int64_t drop(int64_t n, int64_t q) {
    int64_t sum = 0;
    for (int64_t i = 0; i < (n & 7); i++) {
        struct Node *node = root.head;
        sum += node->v;
        root.head = node->next;
        pm_free(node);
        if (q == 7) { sum += node->v; }
    }
    return sum / q;
}
int64_t deep(int64_t n) {
    if (n <= 0) { return 0; }
    return deep(n - 1) + 1;
}
tx abort int64_t dare(int64_t p, int64_t q) {
    root.a += 1;
    root.t[p & 7] = q;
    root.b = p / q + p % q;
    root.c = deep(q & 511);
    if (root.c > 200) { abort(); }
    while (p > 1000) { root.b += 1; }
    return root.b;
}
tx int64_t many(int64_t a, int64_t b, int64_t c, int64_t d, int64_t e, int64_t f, int64_t g,
                int64_t h, int64_t i) {
    root.a = a - b * c + d - e + f * g - h + i;
    return root.a;
}
tx int64_t none() {
    return root.a + root.b;
}
struct Node *node_at(int64_t n) {
    struct Node *node = root.head;
    while (n > 0) {
        node = node->next;
        n--;
    }
    return node;
}
tx const int64_t peek(int64_t n) {
    return node_at(n & 15)->v;
}
tx const int64_t behind() {
    return root.head->last->v;
}
tx const int64_t ask(int64_t p, int64_t q) {
    int64_t sum = root.t[p & 7] + deep(q & 511);
    if (sum > 200) { abort(); }
    while (p > 1000) { sum += 1; }
    return sum / q;
}
tx int64_t risk(int64_t p, int64_t q) {
    root.b += p;
    root.t[p & 3] = q;
    return root.t[p] / q;
}
"""
# How many arguments they have that don't have two.
COUNTS = {"none": 0, "behind": 0, "peek": 1, "many": 9}


class Daring(Drawn):
    """A drawn program that may trap, the sizes of a small pool, and drawn calls."""

    def __init__(self, seed):
        super().__init__(seed)
        sizes = [(4, 8, 2000), (16, 4, 100000), (64, 64, 300), (100, 256, 100000)]
        self.sizes = self.chance.choice(sizes)
        works = self.calls
        self.calls = [works.pop() if works and self.chance.random() < 0.2 else self.dared()
                      for _ in range(50)]
        self.calls += [("risk", self.number(), self.number()) for _ in range(4)]
        self.calls += [("none",), ("push", 1, 1)]

    def items(self):
        yield from super().items()
        yield from DARED.rstrip("\n").split("\n")

    def dared(self):
        name = self.chance.choice(["push", "push", "drop", "dare", "dare", "many", "none", "peek",
                                   "behind", "ask"])
        return name, *(self.number() for _ in range(COUNTS.get(name, 2)))
