"""The largest legal programs, one shape each: at most 16,384 tokens and 262,144 bytes.

Each shape is a function of a size n that gives the prototypes that C wants and the text. `largest`
takes the greatest n within the limits. `python3 shapes.py` prints the names with their sizes, and
`python3 shapes.py NAME` the text."""

import re
import sys

TOKENS, BYTES = 16384, 262144
TOKEN = re.compile(r"->|\+\+|--|[-+]=|<<|>>|[<>=!]=|&&|\|\||\w+|[^\s\w]")
NODE = "struct N { int64_t a; int64_t b; int64_t c; struct N *next; };\n"
ROOT = "struct R { int64_t n; int64_t m; int64_t t[64]; %s };\npersistent struct R root;\n"


def tokens(text):
    return len(TOKEN.findall(text))


def functions(n):
    """A chain of functions, each calling the one before."""
    text = ROOT % "" + "int64_t f0(int64_t a) { return a; }\n"
    text += "".join(f"int64_t f{i}(int64_t a) {{ return f{i - 1}(a) + 1; }}\n" for i in range(1, n))
    return "", text + f"tx int64_t go(int64_t a) {{ root.n = f{n - 1}(a); return 0; }}\n"


def statements(n):
    """One function of assignments to the root, each field read before it is written."""
    body = "".join(f"  root.{'nm'[i % 2]} = root.{'mn'[i % 2]} + a;\n" for i in range(n))
    return "", ROOT % "" + "tx int64_t go(int64_t a) {\n" + body + "  return 0;\n}\n"


def local_names(n):
    """One function of locals, each made from the two before it."""
    body = "".join(f"  int64_t v{i + 2} = v{i} + v{i + 1};\n" for i in range(n))
    head = ROOT % "" + "tx int64_t go(int64_t v0, int64_t v1) {\n"
    return "", head + body + f"  return v{n};\n}}\n"


def structs(n):
    """254 structs, n functions that each make an object, write its fields and read them."""
    text = "".join(f"struct S{i} {{ int64_t a; int64_t b; struct S{(i + 1) % 254} *next; }};\n"
                   for i in range(254))
    text += ROOT % "struct S0 *first;"
    for i in range(n):
        s = f"struct S{i % 254}"
        text += (f"int64_t f{i}({s} *p) {{ {s} *q = pm_new({s}); q->a = p->b; p->b = q->a; "
                 "q->next = p->next; return 0; }\n")
    return "", text + "tx int64_t go(int64_t a) { return f0(root.first); }\n"


def many_structs(n):
    """n structs, n functions that each use a struct of their own and call the next."""
    text = "".join(f"struct S{i} {{ int64_t a; int64_t b; int64_t c; }};\n" for i in range(n))
    text += ROOT % ""
    for i in range(n):
        s = f"struct S{i}"
        text += f"int64_t f{i}(int64_t a) {{ {s} *p = pm_new({s}); p->a = a; "
        text += "p->b = p->a + p->c; p->c = p->b; "
        text += f"return {f'f{i + 1}(p->c)' if i < n - 1 else 'p->c'}; }}\n"
    prototypes = "".join(f"int64_t f{i}(int64_t a);\n" for i in range(n))
    return prototypes, text + "tx int64_t go(int64_t a) { root.n = f0(a); return 0; }\n"


def expressions(n):
    """One function of deep expressions: brackets to the right, thirty levels of two."""
    signs = "+-*&|^"
    deep = "".join(f"{'da'[i % 2]} {signs[i % 6]} (" for i in range(29)) + "d" + ")" * 29
    body = "".join(f"  root.{'nm'[i % 2]} = {deep};\n" for i in range(n))
    return "", ROOT % "" + "tx int64_t go(int64_t a, int64_t d) {\n" + body + "  return 0;\n}\n"


def cycle(n):
    """Functions in one cycle of calls, each writing one parameter's field and swapping them."""
    head = "void f%d(struct N *p, struct N *q)"
    text = NODE + ROOT % "struct N *first;"
    for i in range(n):
        x, y = "abc"[i % 3], "bca"[i * 7 % 3]
        calls = f"f{(i + 1) % n}(q, p); f{(i * 7 + 3) % n}(q, q);"
        text += head % i + f" {{ p->{x} = q->{y}; {calls} }}\n"
    prototypes = "struct N;\n" + "".join(head % i + ";\n" for i in range(n))
    return prototypes, text + "tx int64_t go(int64_t a) { f0(root.first, root.first); return 0; }\n"


def pointers(n):
    """One function of new objects, each written and read inside a loop."""
    body = "".join(
        f"  struct N *p{i} = pm_new(struct N);\n"
        f"  while (p{i}->a < a) {{ p{i}->{'abc'[i % 3]} = p{i * 5 % (i + 1)}->b + 1; }}\n"
        for i in range(n))
    return "", NODE + ROOT % "" + "tx int64_t go(int64_t a) {\n" + body + "  return 0;\n}\n"


def aliases(n):
    """One function of pointers, each a copy of the one before, through which fifteen fields are \
moved."""
    fields = " ".join(f"int64_t a{i};" for i in range(15))
    body = "".join(
        f"  struct M *p{i + 1} = p{i}; p{i + 1}->a{i % 15} = p{i * 7 % (i + 1)}->a{i * 4 % 15};\n"
        for i in range(n))
    text = f"struct M {{ {fields} }};\n" + ROOT % "struct M *first;"
    text += "tx int64_t go(int64_t a) {\n  struct M *p0 = root.first;\n"
    return "", text + body + "  return 0;\n}\n"


def chain(n):
    """One function of pointers that a loop copies against the order of code, so each round takes \
one copy further."""
    return chained(n, "")


def chain_of_loops(n):
    """The same, with a loop between each two copies."""
    return chained(n, " while (a) { }")


def chained(n, between):
    body = "  struct N *p1 = pm_new(struct N);\n"
    body += "".join(f"  struct N *p{i} = p1;\n" for i in range(2, n))
    copies = "".join(f"    p{i} = p{i - 1};{between}\n" for i in range(n - 1, 0, -1))
    text = NODE + ROOT % "struct N *first;"
    text += "tx int64_t go(int64_t a) {\n  struct N *p0 = root.first;\n" + body
    last = f"  }}\n  p{n - 1}->a = p{n - 1}->a + 1;\n  return 0;\n}}\n"
    return "", text + "  while (root.n < a) {\n" + copies + last


def pairs(n):
    """One function of new objects that are all made first, and then used two at a time in loops."""
    made = "".join(f"  struct N *p{i} = pm_new(struct N);\n" for i in range(2 * n))
    loops = "".join(f"  while (p{2 * i}->a < a) "
                    f"{{ p{2 * i}->{'abc'[i % 3]} = p{2 * i + 1}->{'bca'[i % 3]} + 1; }}\n"
                    for i in range(n))
    return "", NODE + ROOT % "" + "tx int64_t go(int64_t a) {\n" + made + loops + "  return 0;\n}\n"


def branches(n):
    """One function of loops and branches, twenty deep."""
    opens = "".join(f"if (a > {i}) {{ root.n += a; while (root.m < {i}) {{ root.t[{i}] = root.n; "
                    for i in range(10))
    body = "".join("  " + opens + "root.m += 1; " + "} }" * 10 + "\n" for _ in range(n))
    return "", ROOT % "" + "tx int64_t go(int64_t a) {\n" + body + "  return 0;\n}\n"


def long_names(n):
    """Assignments as in `statements`, with names so long that the text has all its bytes."""
    size = (BYTES - 300) // (3 * n) - 8
    x, y, a = "x" * size, "y" * size, "z" * size
    body = "".join(f"  root.{y if i % 2 else x} = root.{x if i % 2 else y} + {a};\n"
                   for i in range(n))
    text = f"struct R {{ int64_t {x}; int64_t {y}; }};\npersistent struct R root;\n"
    return "", text + f"tx int64_t go(int64_t {a}) {{\n" + body + "  return 0;\n}\n"


SHAPES = [functions, statements, local_names, structs, many_structs, expressions, cycle, pointers,
          pairs, aliases, chain, chain_of_loops, branches, long_names]
MOST = {"functions": 1023, "chain": 1001}


def fits(shape, n):
    text = shape(n)[1]
    return tokens(text) <= TOKENS and len(text) <= BYTES and n <= MOST.get(shape.__name__, n)


def largest(shape):
    """The prototypes and the text of the greatest size within the limits."""
    low, high = 1, 4096
    while high - low > 1:
        middle = (low + high) // 2
        low, high = (middle, high) if fits(shape, middle) else (low, middle)
    return shape(low)


if __name__ == "__main__":
    for shape in SHAPES:
        text = largest(shape)[1]
        if shape.__name__ in sys.argv[1:]:
            print(text, end="")
        elif len(sys.argv) == 1:
            print(shape.__name__, tokens(text), "tokens", len(text), "bytes")
