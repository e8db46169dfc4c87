"""What the tools that tell of the sources read: the floor plan, the definitions of specs/, the
public calls and the labels of their clauses.

A definition is a name of a file in specs/, or a type that the Rust code declares."""

import os
import re

TOP = os.path.normpath(os.path.join(os.path.dirname(os.path.abspath(__file__)), ".."))
CRATES = os.path.join(TOP, "crates")
NAME = re.compile(r"[^\W\d][\w'!?-]*(?:\.[^\W\d][\w'!?-]*)*")
HEAD = re.compile(r"^\s*(?:unfoldable )?(?:abbrev )?(?:pub )?(?:(?:record|data) )?"
                  r"(?!module\b)([^\W\d][\w'-]*)")
KEYWORDS = {"abbrev", "pub", "record", "data", "use", "open", "where", "let", "in", "if", "then",
            "else", "case", "of", "mutual", "unfoldable", "type", "infix", "infixl", "infixr",
            "mod"}
CLAUSE = re.compile(r"^\s*(requires|ensures)\*? ?(\w+)? ?(?=\{)", re.M)


def text_of(path):
    with open(path, encoding="utf-8") as file:
        return file.read()


def plan():
    """Each crate of the floor plan with the crates that it uses, the lowest first."""
    lines = text_of(os.path.join(TOP, "crates.txt")).split("\n")
    parts = (it.partition(":") for it in lines)
    return {name: below.split("#")[0].split() for name, colon, below in parts
            if colon and not name.startswith("#")}


def first_words(crate):
    """The first paragraph of a crate's lib.rt or main.rt, in one line."""
    folder = os.path.join(CRATES, crate, "src")
    file = next(it for it in ("lib.rt", "main.rt") if os.path.isfile(os.path.join(folder, it)))
    words = []
    for line in text_of(os.path.join(folder, file)).split("\n"):
        if not line.startswith("//! "):
            break
        words += line[4:].split()
    return " ".join(words)


def imports_of(line, crate):
    """The names that a `use` line brings, each with the module and the name there."""
    match = re.match(r"\s*(?:ghost )?(?:pub )?use ([\w.+']+?)(?:\.\{(.*)\})?(?: as (\w+))?;?\s*$",
                     line)
    if not match or not match[1].startswith("Rattle."):
        return {}
    module, listed, alias = match.groups()
    found = {}
    if listed is not None:
        for item in (part.strip() for part in listed.split(",")):
            there, _, here = item.partition(" as ")
            found[here or there] = (module, there)
    found.setdefault(alias or module.rpartition(".")[2], (module, None))
    return found


def bound_in(text):
    """The names that a definition binds for itself: of its patterns, of a λ, a `let` or a type."""
    bound = set()
    for line in text.split("\n"):
        left, equals, _ = line.partition(" = ")
        if equals and not re.search(r"\blet\b|λ", left):
            bound.update(word for word in NAME.findall(left.strip())[1:] if word.islower())
    for match in re.finditer(r"λ ([^.]*?)\.(?:\s|$)|\blet (\w+)|\(([\w' ]+?) : ", text):
        bound.update(re.findall(r"[\w']+", next(part for part in match.groups() if part)))
    return bound


class Block:
    """The blocks (`mutual`, `module _ .. where`) round a line, by where their definitions start."""

    def __init__(self):
        self.columns = [0]

    def begins(self, line):
        """Whether a line begins a block."""
        at = self.column(line)
        if re.match(r"(?:abbrev )?mutual\b|module\b", line.strip()):
            self.columns.append(at + 2)
            return True
        return False

    def starts(self, line):
        """Whether a line stands where the definitions of its block start."""
        return self.column(line) == self.columns[-1]

    def column(self, line):
        """Where a line's text starts; blocks that end before it are left."""
        at = len(line) - len(line.lstrip())
        while at < self.columns[-1]:
            self.columns.pop()
        return at


class File:
    """A file of specs/: what it imports, its definitions by name, and the comments above them."""

    def __init__(self, crate, path):
        self.crate, self.path = crate, path
        self.imports, self.definitions, self.comments, self.header = {}, {}, {}, ""
        self.records = {}
        self.read(text_of(path).split("\n"))

    def read(self, lines):
        current, block, above = None, Block(), []
        for number, line in enumerate(lines):
            if line.lstrip().startswith("--"):
                above.append(line.strip().lstrip("-").strip())
                continue
            if not line.strip() or line.startswith(("use ", "pub use ")):
                self.header = self.header or (" ".join(above) if not self.definitions else "")
                above = []
            if line.startswith(("use ", "pub use ")):
                self.imports.update(imports_of(line, self.crate))
                continue
            if not line.strip() or line.startswith(("open ", "pub mod ", "mod ", "infix")):
                continue
            if block.begins(line):
                current = None
                continue
            if block.starts(line):
                name = HEAD.match(line)
                name = name[1] if name else None
                if name and name not in KEYWORDS:
                    current = name
                    self.comments.setdefault(current, " ".join(above))
            above = []
            if current:
                self.definitions.setdefault(current, []).append((number, line))
                # A constructor or a field leads to its type.
                inner = re.match(r"\s+pub ([^\W\d][\w'-]*)", line)
                if inner and not block.starts(line):
                    self.imports.setdefault(inner[1], (None, current))
                    self.records.setdefault(current, set()).add(inner[1])

    def place(self, name):
        """The line of the file at which a definition begins."""
        return self.definitions[name][0][0] + 1


class Tree:
    """All files of specs/ and all declared types of the crates."""

    def __init__(self):
        self.files, self.crates = {}, [*plan()]
        for crate in sorted(os.listdir(CRATES)):
            specs = os.path.join(CRATES, crate, "specs")
            for at, _, names in os.walk(specs):
                for name in sorted(names):
                    if name.endswith(".antt") and name != "Lib.antt":
                        path = os.path.join(at, name)
                        inner = os.path.relpath(path, specs)[: -len(".antt")].replace(os.sep, ".")
                        self.files[f"Rattle.{crate}.specs.{inner}"] = File(crate, path)

    def modules(self, crate):
        """The files of a crate's specs/, but for specs/inside/, each after those it imports."""
        head = f"Rattle.{crate}.specs."
        library = os.path.join(CRATES, crate, "specs", "Lib.antt")
        text = text_of(library) if os.path.isfile(library) else ""
        listed = [head + it for it in re.findall(r"^pub mod (\w+)$", text, re.M)]
        own = [it for it in dict.fromkeys([*listed, *self.files])
               if it in self.files and it.startswith(head) and "inside" not in it.split(".")]
        order, met = [], set()

        def visit(module):
            if module not in met:
                met.add(module)
                imported = {there for there, _ in self.files[module].imports.values()}
                for other in own:
                    if other in imported:
                        visit(other)
                order.append(module)

        for module in own:
            visit(module)
        return order

    def resolve(self, module, name):
        """The definition that a module's name stands for, as a pair of module and name."""
        if module in self.files and name in self.files[module].definitions:
            return module, name
        if module in self.files and name in self.files[module].imports:
            inner = self.files[module].imports[name]
            if inner[0] is None:
                return module, inner[1]
        match = re.match(r"Rattle\.(\w+)\.specs\.declared\.(.+)$", module or "")
        if match and match[1] in self.crates:
            return f"Rattle.{match[1]}.specs.declared", match[2].removesuffix(".TheVariants")
        # what stands in a crate of the toolchain
        is_other = (module or "").startswith("Rattle.")
        if match or is_other and module.split(".")[1] not in self.crates:
            return module.removesuffix(".TheVariants"), name
        return None

    def named(self, word, imports, module):
        """The definition that a word of a text means, where it means one."""
        head, _, rest = word.partition(".")
        if module and head in self.files[module].definitions:
            return module, head
        if head in imports:
            there, name = imports[head]
            if there is None:
                return module, name
            if name is None:
                return self.resolve(there, rest.partition(".")[0]) if rest else None
            return self.resolve(there, name)
        return None

    def is_ours(self, key):
        """Whether a definition stands in this tree, and not in a crate of the toolchain."""
        return key[0].split(".")[1] in self.crates

    def below(self, key):
        """The definitions that one rests on."""
        module, name = key
        if module not in self.files:
            return set()
        file = self.files[module]
        found = set()
        lines = [line.partition("--")[0] for _, line in file.definitions.get(name, ())]
        bound = bound_in("\n".join(lines))
        for line in lines:
            for word in NAME.findall(line):
                other = None if word in bound else self.named(word, file.imports, module)
                if other and other != key:
                    found.add(other)
        return found

    def lines(self, key):
        module, name = key
        if module in self.files:
            return len(self.files[module].definitions[name])
        return self.type_lines(key)

    def place(self, key):
        module, name = key
        if module in self.files:
            return os.path.relpath(self.files[module].path, CRATES)
        crate = module.split(".")[1]
        return f"{crate}/src/{name.rpartition('.')[0].replace('.', '/')}.rt"

    def line(self, key):
        """The line at which a definition begins; 0 for a declared type."""
        module, name = key
        return self.files[module].place(name) if module in self.files else 0

    def comment(self, key):
        module, name = key
        if module not in self.files:
            return "a type of the code"
        return self.files[module].comments.get(name, "")

    def type_lines(self, key):
        """The lines of a declared struct or enum."""
        path = os.path.join(CRATES, self.place(key))
        if not os.path.isfile(path):
            return 0
        head = rf"^\s*pub (?:struct|enum|trait) {key[1].rpartition('.')[2]}\b"
        match = re.search(head + r".*?(?:;|^\s*})", text_of(path), re.S | re.M)
        return match[0].count("\n") + 1 if match else 0

    def fields(self):
        """The fields of each record of the definitions, by the record's name."""
        found = {}
        for file in self.files.values():
            for record, names in file.records.items():
                found.setdefault(record, set()).update(names)
        return found


def braced(text):
    """The text that begins with a brace, up to the one that closes it."""
    depth = 0
    for at, letter in enumerate(text):
        depth += (letter == "{") - (letter == "}")
        if depth == 0:
            return text[: at + 1]
    return text


def files_of(crate):
    """The files of a crate's code, with their texts."""
    for at, _, names in sorted(os.walk(os.path.join(CRATES, crate, "src"))):
        for name in sorted(names):
            if name.endswith(".rt"):
                yield os.path.join(at, name), text_of(os.path.join(at, name))


class Call:
    """A function of the code: its name with its type, whether it is public, and its clauses."""

    def __init__(self, name, is_public, place):
        self.name, self.is_public, self.place, self.clauses = name, is_public, place, []


def calls_of(crate):
    """The functions of a crate. Public are those with `pub`, and those of a trait and of an `impl`
    of one."""
    found = []
    for path, text in files_of(crate):
        owner, of_trait, lines = None, False, text.split("\n")
        for number, line in enumerate(lines):
            head = re.match(r"(?:pub(?:\([^)]*\))? )?(?:struct|enum|(trait)) (\w+)", line)
            block = re.match(r"impl(?:<.*?>)? ([\w<>, :]+ for )?(\w+)", line)
            function = re.match(r"\s*(pub )?(?:pub\([^)]*\) )?(?:const )?fn (\w+)", line)
            clause = CLAUSE.match(line)
            if head or block:
                owner, of_trait = (head[2], bool(head[1])) if head else (block[2], bool(block[1]))
            elif line.startswith("}"):
                owner, of_trait = None, False
            if function:
                name = f"{owner}::{function[2]}" if owner and line.startswith(" ") else function[2]
                is_public = bool(function[1]) or of_trait and line.startswith(" ")
                found.append(Call(name, is_public, f"{os.path.relpath(path, CRATES)}:{number + 1}"))
            if clause and found:
                rest = "\n".join(lines[number:])[clause.end():]
                found[-1].clauses.append((clause[1], clause[2], braced(rest)))
    return found


def exported(crate):
    """The names that a library shows: of its lib.rt, of what it brings out, and of its public
    modules."""
    path = os.path.join(CRATES, crate, "src", "lib.rt")
    if not os.path.isfile(path):
        return set()
    text = text_of(path)
    names = set(re.findall(r"^pub (?:const )?(?:fn|struct|enum|trait|type) (\w+)", text, re.M))
    for item in re.findall(r"^pub use ([^;]+);", text, re.M):
        names.update(re.findall(r"\w+", item.partition("{")[2]) or [item.rpartition("::")[2]])
    for module in re.findall(r"^pub mod (\w+);", text, re.M):
        inner = os.path.join(CRATES, crate, "src", f"{module}.rt")
        if os.path.isfile(inner):
            head = r"^pub (?:const )?(?:fn|struct|enum|trait) (\w+)"
            names.update(re.findall(head, text_of(inner), re.M))
    return names
