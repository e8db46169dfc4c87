"""Names the events of a call by the order that docs/PROTOCOL.md gives, and by what each changes.

The image of the newest versions tells which word a store changes. The parts of a call have their
events in a fixed order, and a stamp that is stored tells where a record is; so the others are found
between these."""

COUNTS = {16: "the last value", 17: "the finished transactions", 18: "the attempt",
          19: "the mark of a trap"}
SEAL_WORD, FIRST_RECORD, WORDS = 47, 6, 8


class Event:
    """One event: a store, a flush or a fence, what it is of, lines of the source that may be its
    store's, and the cache line of a store, where that is known."""

    def __init__(self, kind, what, lines=(), cache_line=None):
        self.kind, self.what, self.lines, self.cache_line = kind, what, lines, cache_line

    def told(self):
        at = f", line {' or '.join(map(str, self.lines))}" if self.lines else ""
        return f"{self.kind} {self.what}{at}"

    def short(self):
        return self.what if self.kind == "store" else self.told()


class Layout:
    """Where the words of a pool are, by its number of records and by what `show` tells of it."""

    def __init__(self, records, pools):
        self.heap = FIRST_RECORD + records
        self.root, self.objects = [], {}
        for line in (it.split() for pool in pools for it in pool):
            if line[0] == "root":
                self.root = words_of(line[1:])
            elif line[0] == "slot":
                self.objects[int(line[1])] = [f"{line[2]}.{it}" for it in words_of(line[3:])]
        self.root_lines = -(-len(self.root) // WORDS)

    def place(self, heap_word):
        """The slot of a heap word and its number there; slot 0 is the root."""
        past_root = heap_word - WORDS * self.root_lines
        return (0, heap_word) if past_root < 0 else (past_root // 16 + 1, past_root % 16)

    def heap_name(self, heap_word):
        """A heap word in words, and its target in the listing, without the index of an array."""
        slot, word = self.place(heap_word)
        if slot == 0:
            fields = self.root
            name = f"root.{fields[word]}" if word < len(fields) else f"word {word} of the root"
            return name, name.partition("[")[0]
        if word == 0:
            return f"slot {slot} header", "header"
        fields = self.objects.get(slot, [])
        if word <= len(fields):
            return f"slot {slot} {fields[word - 1]}", fields[word - 1].partition("[")[0]
        return f"slot {slot} word {word}", None

    def line_name(self, line):
        if line == 2:
            return "the counts"
        if line < FIRST_RECORD:
            return "the seal" if line == SEAL_WORD // WORDS else "the call"
        if line < self.heap:
            return f"record {line - FIRST_RECORD}"
        slot, word = self.place(WORDS * (line - self.heap))
        if slot == 0:
            return "the root" if self.root_lines == 1 else f"line {word // WORDS} of the root"
        return f"slot {slot}" if word == 0 else f"the second line of slot {slot}"

    def store_name(self, word, value):
        """What a store of a value to a word does, and its target in the listing."""
        line, heap_word = word // WORDS, word - WORDS * self.heap
        if word in COUNTS:
            return f"{COUNTS[word]} := {value}", None
        if line < FIRST_RECORD:
            number = word - 24
            name = ("the seal" if word == SEAL_WORD else
                    "the function" if number == 0 else f"argument {number}")
            return f"{name} := {value}", None
        if heap_word < 0:
            told = (lambda: f"word {self.heap_name(value)[0]}", lambda: f"old value {value}",
                    lambda: f"stamp {value}")[word % WORDS]()
            return f"record {line - FIRST_RECORD}: {told}", None
        name, target = self.heap_name(heap_word)
        return f"{name} := {value}", target


def many(count, name):
    """A number of things: `1 cut`, `2 cuts`, `3 flushes`."""
    return f"{count} {name}" + ("" if count == 1 else "es" if name.endswith("sh") else "s")


def sums(events):
    """How many events there are of each kind, and of them how many records."""
    counts = {kind: sum(it.kind == kind for it in events) for kind in ("store", "flush", "fence")}
    return {**counts, "record": sum(it.what.startswith("record ") for it in events
                                    if it.kind == "store") // 3}


def words_of(fields):
    """The words of fields as `show` tells them: an array has one for each element."""
    found = []
    for name, _, value in (it.partition("=") for it in fields):
        count = value.count(",") + 1
        found += [f"{name}[{at}]" for at in range(count)] if value.startswith("[") else [name]
    return found


def changed_word(old, new):
    """The word that differs between two images, and its new value; None where they are equal."""
    if old == new:
        return None
    low, high = 0, len(new)
    while high - low > 8:
        middle = (low + high) // 16 * 8
        low, high = (low, middle) if old[low:middle] != new[low:middle] else (middle, high)
    return low // 8, int.from_bytes(new[low:high], "little", signed=True)


def word_at(image, word):
    return int.from_bytes(image[8 * word:8 * word + 8], "little", signed=True)


class Steps:
    """The words that the events of a call change, and the value of each word at each event."""

    def __init__(self, first, changes):
        self.changes, self.values = changes, {}
        self.first = lambda word: word_at(first, word)
        for event, change in enumerate(changes):
            if change:
                self.values.setdefault(change[0], []).append((event, change[1]))

    def value(self, word, event):
        """The value of a word once this event is done."""
        known = [value for at, value in self.values.get(word, []) if at <= event]
        return known[-1] if known else self.first(word)


class Unlike(Exception):
    """The events don't come in the order that was expected."""


class Namer:
    """Names the events of a call, part by part."""

    def __init__(self, layout, steps, listing):
        self.layout, self.steps, self.listing, self.events = layout, steps, listing, []

    def store(self, word=None):
        """The next event is a store, of this word where the order tells it."""
        at = len(self.events)
        change = self.steps.changes[at]
        if change and word not in (None, change[0]):
            raise Unlike
        word = change[0] if change else word
        if word is None:
            self.events.append(Event("store", "a word, with the value that it has"))
            return
        what, target = self.layout.store_name(word, self.steps.value(word, at))
        lines = sources(target, self.steps.value(word, at), self.listing) if target else ()
        self.events.append(Event("store", what, lines, word // WORDS))

    def quiet(self, kind, what):
        """The next event is a flush or a fence, which changes nothing."""
        if self.steps.changes[len(self.events)]:
            raise Unlike
        self.events.append(Event(kind, what))

    def safe(self, names):
        """Flushes of these lines, and a fence."""
        for _ in names:
            self.quiet("flush", names[0] if len(names) == 1 else "one of " + ", ".join(names))
        self.quiet("fence", f"makes {', '.join(names)} safe" if names else "with nothing to save")

    def seal(self, count, arguments):
        for word in range(24, 25 + arguments):
            self.store(word)
        for _ in range(count - arguments - 5):
            self.quiet("flush", "the call")
        self.quiet("fence", "makes the call safe")
        self.store(SEAL_WORD)
        self.safe(["the seal"])

    def end(self, name):
        for word in range(16, 19) if name == "retire" else [19]:
            self.store(word)
        self.safe(["the counts"])

    def is_stamp(self, event):
        change = self.steps.changes[event] if event < len(self.steps.changes) else None
        return bool(change) and (FIRST_RECORD <= change[0] // WORDS < self.layout.heap
                                 and change[0] % WORDS == 2)

    def run(self, end, lines):
        """The stores and records of a run up to an event, then its flushes and fence, where `lines`
        are those that it has stored; gives the heap words of its records."""
        words, due = [], []
        last = end if lines is None else end - len(lines) - 1
        while len(self.events) < last:
            stamp = len(self.events) + 2
            if self.is_stamp(stamp):
                record = self.steps.changes[stamp][0] - 2
                for word in range(record, record + 3):
                    self.store(word)
                self.safe([self.layout.line_name(record // WORDS)])
                words.append(self.steps.value(record, stamp))
                if not due or due[0][0] != words[-1]:
                    due = [(words[-1], None), *due]
            else:
                due = self.store_due(due)
        if lines is not None:
            self.safe([self.layout.line_name(it) for it in lines])
        return words

    def store_due(self, due):
        """A store in a run, to the first of the heap words that are due, if any is. Gives what is
        due after it: a new object's header is followed by its fields, by the same lines."""
        heap = WORDS * self.layout.heap
        at = len(self.events)
        self.store(heap + due[0][0] if due else None)
        if due and due[0][1] is not None:
            self.events[at].lines = due[0][1]
        word = self.steps.changes[at][0] - heap if self.steps.changes[at] else None
        slot, place = self.layout.place(word) if word is not None else (0, 0)
        if slot and place == 0 and self.steps.value(word + heap, at):
            fields = range(1, len(self.layout.objects.get(slot, [])) + 1)
            return [(word + it, self.events[at].lines) for it in fields]
        return due[1:]

    def put_back(self, words):
        """The old values of these heap words are stored, from the newest record to the oldest."""
        names = []
        for word in reversed([WORDS * self.layout.heap + it for it in words]):
            self.store(word)
            self.events[-1].what += ", put back"
            self.events[-1].lines = ()
            names.append(self.layout.line_name(word // WORDS))
            self.quiet("flush", names[-1])
        if words:
            self.quiet("fence", f"makes {', '.join(dict.fromkeys(names))} safe")


def events_of(layout, steps, parts, arguments, listing, lines):
    """The events of a call by its parts, or none where they come in another order. Before its last
    fence a run that ends with a value has several versions of these lines."""
    namer = Namer(layout, steps, listing)
    try:
        for name, first, last in parts:
            if name == "seal":
                namer.seal(last - first + 1, arguments)
            elif name == "run":
                namer.run(last + 1, lines)
            elif name == "run and put back":
                records = sum(map(namer.is_stamp, range(first, last + 1)))
                back = 2 * records + (records > 0)
                namer.put_back(namer.run(last + 1 - back, None))
            else:
                namer.end(name)
    except Unlike:
        return []
    return namer.events


def sources(target, value, listing):
    """The lines of the listing whose stores have this target."""
    if target == "header":
        target = "new" if value else "free"
    return sorted({int(words[2]) for words in map(str.split, listing)
                   if words[3] == target and words[-2] != "fields"})
