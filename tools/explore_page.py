"""The pages that tools/explore writes: each is one file that needs nothing else."""

import html
import itertools
import json
import os

import explore_events

# A call of more events has its equal columns together at first.
MOST_COLUMNS = 60
NAMES = "124px"

KINDS = {"before": "the pool from before the call", "after": "the pool after the call",
         "other": "another pool"}
PHASES = {"unsealed": "no version of the seal's line has the seal: the call never was",
          "sealing": "some versions have the seal: what is left decides",
          "sealed": "all versions have the seal: the call is owed or done"}

STYLE = """
:root { --before: #b7d3ec; --after: #b5dcae; --other: #ef6a6a; --line: #dcdcd6; --grey: #6b6b66 }
* { box-sizing: border-box }
body { font: 16px/1.5 system-ui, "Segoe UI", "DejaVu Sans", sans-serif; color: #222;
       background: #fbfbf9; margin: 0 auto; max-width: 1180px; padding: 28px 24px 60px }
h1 { font-size: 26px; line-height: 1.2; margin: 0 0 4px } h2 { font-size: 18px; margin: 34px 0 8px }
code, pre, .cell, table.cut {
  font-family: ui-monospace, "DejaVu Sans Mono", Menlo, Consolas, monospace }
code { font-size: 14px; background: #efefe9; padding: 1px 4px; border-radius: 3px }
h1 code { font-size: 24px } p { margin: 6px 0; max-width: 78ch }
.small { color: var(--grey); font-size: 14px }
.before { background: var(--before) } .after { background: var(--after) }
.other { background: var(--other) }
.unsealed { background: #e4e4de } .sealing { background: #f5d796 } .sealed { background: #d6c6ea }
.seal { background: #ecece6 } .run { background: #dfe8ec } .retire, .mark { background: #ecece6 }
.scroll { overflow-x: auto; padding-bottom: 6px }
.grid { display: grid; gap: 2px; align-items: stretch; min-width: max-content }
.name { font-size: 14px; color: var(--grey); padding-right: 10px; text-align: right;
        display: flex; align-items: center; justify-content: flex-end; white-space: nowrap;
        position: sticky; left: 0; z-index: 1;
        background: #fbfbf9; grid-column: 1 }
.number { font-size: 12px; color: var(--grey); text-align: center; white-space: nowrap }
.time { gap: 2px 0 } .time > div + div { margin-right: 2px }
.time.folded { grid-template-columns: var(--folded) !important }
.folded .inner { display: none } .folded .number[data-to]::after { content: " to " attr(data-to) }
.span { font-size: 13px; text-align: center; overflow: clip; white-space: nowrap;
        border-radius: 3px; padding: 1px 0 }
.span span { position: sticky; left: 134px; right: 8px; display: inline-block }
.event { font-size: 12px; text-align: center; border-radius: 3px; white-space: nowrap }
.event.store { background: #f0e3c8 } .event.flush { background: #d9e6dc }
.event.fence { background: #dfd8ea }
.label { writing-mode: vertical-rl; transform: rotate(180deg); font-size: 11px; max-height: 190px;
         overflow: hidden; text-overflow: ellipsis; white-space: nowrap; color: #444;
         justify-self: center }
.folded .label[data-sum], .folded .event[data-sum] { font-size: 0 }
.folded .event[data-sum] { background: #e8e8e2 }
.folded .label[data-sum]::after { content: attr(data-sum); font-size: 11px }
.cell { min-width: 18px; height: 26px; font-size: 13px; display: flex; align-items: center;
        justify-content: center; cursor: pointer; border-radius: 3px;
        border: 2px solid transparent; color: #222 }
.cell:hover, .cell.same { border-color: #8888 }
.cell.chosen { border-color: #111; font-weight: bold }
.small-cell { height: 12px; min-width: 12px; font-size: 0; border-width: 1px }
.two { display: grid; grid-template-columns: minmax(0, 1fr) minmax(0, 1fr); gap: 28px;
       align-items: start }
@media (max-width: 860px) { .two { grid-template-columns: minmax(0, 1fr) } }
.card { background: #fff; border: 1px solid var(--line); border-radius: 6px; padding: 12px 14px;
        margin: 8px 0 }
.card h3 { margin: 0 0 4px; font-size: 15px; font-weight: 600 }
.card h3 b { padding: 0 7px; border-radius: 3px; margin-right: 6px }
table.cut { border-collapse: collapse; font-size: 14px; width: 100% }
table.cut td { padding: 1px 12px 1px 0; vertical-align: top }
table.cut td + td { color: var(--grey) } table.cut tr.last td { color: #111; font-weight: 600 }
pre { margin: 4px 0 0; font-size: 14px; line-height: 1.45; white-space: pre-wrap;
      overflow-wrap: anywhere }
pre mark { background: #fbe7a1 } .source { counter-reset: line; font-size: 13px }
.source span.l { counter-increment: line; display: block; padding-left: 3.2em; position: relative }
.source span.l::before { content: counter(line); position: absolute; left: 0; width: 2.2em;
                         text-align: right; color: #aaa }
.source .log { background: #fdeecb }
.source i { font-style: normal; font-size: 12px; color: #946200; padding-left: 1em }
.image { margin: 10px 0 }
.cards { display: grid; grid-template-columns: repeat(auto-fill, minmax(320px, 1fr)); gap: 0 20px;
         align-items: start }
table.count { border-collapse: collapse; margin: 12px 0; font-size: 15px }
table.count td, table.count th { padding: 3px 16px 3px 0; text-align: center; font-weight: normal }
table.count th:first-child { text-align: left; padding-right: 28px }
table.count b { padding: 1px 8px; border-radius: 3px }
"""

SCRIPT = """
const cuts = JSON.parse(document.getElementById('cuts').textContent);
const before = JSON.parse(document.getElementById('before').textContent);
const cells = [...document.querySelectorAll('.cell[data-at]')];
const row = (command, answer, last) => {
  const tr = document.createElement('tr');
  if (last) tr.className = 'last';
  for (const words of [command, answer])
    tr.appendChild(document.createElement('td')).textContent = words;
  return tr;
};
function choose(cell) {
  const cut = cuts[cell.dataset.at];
  cells.forEach(it => {
    it.classList.toggle('chosen', it === cell);
    it.classList.toggle('same', it !== cell && cuts[it.dataset.at].letter === cut.letter);
  });
  const rows = cut.steps.map(
    ([command, answer], at) => row(command, answer, at === cut.steps.length - 1));
  document.getElementById('steps').replaceChildren(...rows);
  document.getElementById('told').textContent = cut.told;
  document.getElementById('outcome').innerHTML =
    document.getElementById('outcome-' + cut.letter).innerHTML;
  document.getElementById('script').textContent =
    [...before, ...cut.steps.map(it => it[0]), 'last', 'show'].join('\\n');
}
const time = document.querySelector('.time');
function fold(is_folded) {
  time.classList.toggle('folded', is_folded);
  document.querySelectorAll('.lead').forEach(cell => {
    cell.dataset.own ??= cell.style.gridColumn;
    cell.style.gridColumn = is_folded ? cell.dataset.column : cell.dataset.own;
  });
}
const box = document.getElementById('fold');
box.addEventListener('change', () => fold(box.checked));
fold(box.checked);
cells.forEach(cell => {
  cell.addEventListener('click', () => choose(cell));
  cell.addEventListener('keydown', event => { if (event.key === 'Enter') choose(cell); });
});
choose(cells.find(it => it.dataset.first) || cells[0]);
"""


def filled(letters, numbers):
    """Puts for what is missing its neighbour to the left, or else to the right, in its section."""
    found = list(letters)
    for order in (range(len(found)), reversed(range(len(found)))):
        known = {}
        for at in order:
            if found[at] is None:
                found[at] = known.get(numbers[at])
            else:
                known[numbers[at]] = found[at]
    return found


def runs_of(keys):
    """Equal neighbours together: each with its first and its last place."""
    for key, run in itertools.groupby(enumerate(keys), key=lambda it: it[1]):
        at = [place for place, _ in run]
        yield key, at[0], at[-1]


def code(words):
    return f"<code>{html.escape(words)}</code>"


def choice_name(choice):
    """What is left of each cache line, in words."""
    words = choice.split()
    if len(words) > 2:
        return "drawn versions: line:version " + " ".join(words[2:])
    return f"the {'oldest' if words[1] == 'old' else 'newest'} version of each line"


def steps_of(cut):
    """The commands of a cut that answer, each with its answer."""
    steps = [["stop " + cut.commands[0].split()[1], ""]]
    if cut.first is None:
        return steps + [[cut.commands[1], f"stopped {cut.phase}"], [cut.choice, cut.outcome.answer]]
    return steps + [[cut.commands[1], f"stopped {cut.first.phase}"], [cut.commands[2], ""],
                    [cut.commands[3], f"stopped {cut.phase}"], [cut.choice, cut.outcome.answer]]


def told_of(cut, named):
    """What a cut does, in a sentence."""
    at = cut.first or cut
    event = f" ({named[at.event].told()})" if named else ""
    told = f"The power goes off at event {at.event} of the call{event}, and leaves "
    told += f"{choice_name(at.choice)}."
    if cut.first:
        told += f" It goes off again at event {cut.event} of the recovery, and leaves "
        told += f"{choice_name(cut.choice)}."
    return told


def pool_of(outcome, before):
    """A pool's lines, with the fields marked that aren't as before the call."""
    known = {tuple(line.split()[:1 if line.startswith("root") else 2]): line.split()
             for line in before.pool}
    lines = []
    for line in outcome.pool:
        head = 1 if line.startswith("root") else 2
        old = known.get(tuple(line.split()[:head]), [])
        lines.append(" ".join(html.escape(it) if it in old else f"<mark>{html.escape(it)}</mark>"
                              for it in line.split()))
    lines.append(html.escape(outcome.last))
    if outcome.check is not None:
        lines.append("check " + html.escape(outcome.check))
    return "<pre>" + "\n".join(lines) + "</pre>"


def spans(name, runs, titles):
    boxes = "".join(f'<div class="span {what}" style="grid-column: {first + 2} / {last + 3}" '
                    f'title="{html.escape(titles.get(what, what))}"><span>{what}</span></div>'
                    for what, first, last in runs)
    return f'<div class="name">{name}</div>{boxes}'


def cell(at, cut, letter, kind, column, more=""):
    return (f'<div class="cell {kind}{more}" tabindex="0" data-at="{at}" '
            f'style="grid-column: {column}" title="stop {cut.event}, {cut.choice}: '
            f'{html.escape(cut.outcome.answer)}">{letter}</div>')


class Page:
    """The parts of the page of one explored call."""

    def __init__(self, explored, listing):
        self.explored, self.listing = explored, listing
        self.groups = explored.groups()
        self.cuts = [*explored.cuts, *explored.again]
        self.letters = {id(cut): letter for letter, _, _, cuts in self.groups for cut in cuts}
        self.places = {id(cut): at for at, cut in enumerate(self.cuts)}

    def cell(self, cut, column, more=""):
        return cell(self.places[id(cut)], cut, self.letters[id(cut)],
                    self.explored.kind(cut.outcome), column, more)

    def by_choice(self):
        """The cuts of the call by rows: oldest, newest, and each event's drawn ones by turns."""
        rows = {"oldest": [], "newest": []}
        for event in range(self.explored.events):
            drawn = 0
            for cut in (it for it in self.explored.cuts if it.event == event):
                if len(cut.choice.split()) > 2:
                    drawn += 1
                    rows.setdefault(f"drawn {drawn}", []).append(cut)
                else:
                    rows["oldest" if cut.choice == "power old" else "newest"].append(cut)
        return rows

    def folds(self):
        """Neighbours with the same letters, part and phase: each with its first and last event.
        Where an event has no drawn cut, that is as its neighbours are; events that were left out
        belong to them if both sides are alike."""
        ends = {first for runs in (self.explored.parts(), self.explored.phases())
                for _, first, _ in runs}
        numbers = list(itertools.accumulate(it in ends for it in range(self.explored.events)))
        rows = [filled([letters.get(it) for it in range(self.explored.events)], numbers)
                for letters in ({it.event: self.letters[id(it)] for it in cuts}
                                for cuts in self.by_choice().values())]
        was_cut = {it.event for it in self.explored.cuts}
        keys = [key if at in was_cut else None for at, key in enumerate(zip(numbers, *rows))]
        before = list(itertools.accumulate(keys, lambda left, it: it or left))
        after = list(itertools.accumulate(keys[::-1], lambda right, it: it or right))[::-1]
        keys = [key or (left if left == right else (number, "left out"))
                for key, left, right, number in zip(keys, before, after, numbers)]
        return [(first, last) for _, first, last in runs_of(keys)]

    def row(self, name, cuts, folds):
        """A row of cells. Of the cells of a folded column the first one stands for all."""
        first_of = {event: first for first, last in folds for event in range(first, last + 1)}
        cells, seen = [], set()
        for cut in cuts:
            first = first_of[cut.event]
            more = " inner" if first in seen else f' lead" data-column="{first + 2}'
            seen.add(first)
            cells.append(self.cell(cut, cut.event + 2, more))
        return f'<div class="name">{name}</div>' + "".join(cells)

    def column(self, event, last):
        """The number of an event, what it is, and its name; of a folded column for all its events
        to the last one. Without a last one it is inside of such a column."""
        inner = "" if last is not None else " inner"
        many = last is not None and last > event
        to = f' data-to="{last}"' if many else ""
        at = f'style="grid-column: {event + 2}"'
        parts = [f'<div class="number{inner}"{to} {at}>{event}</div>']
        if self.explored.named:
            named = self.explored.named[event]
            told = html.escape(named.told())
            counts = explore_events.sums(self.explored.named[event:(last or event) + 1])
            both = ", ".join(explore_events.many(count, kind)
                             for kind, count in counts.items() if count and kind != "record")
            total = f' data-sum="{both}"' if many else ""
            parts.append(f'<div class="event {named.kind}{inner}"{total} {at} title="{told}">'
                         f'{dict(store="S", flush="f", fence="#")[named.kind]}</div>')
            parts.append(f'<div class="label{inner}"{total} {at} title="{told}">'
                         f'{html.escape(named.short())}</div>')
        return parts

    def time_line(self):
        events, folds = self.explored.events, self.folds()
        lasts = dict(folds)
        columns = [self.column(event, lasts.get(event)) for event in range(events)]
        names = ["stop", "event", ""][:len(columns[0])]
        heads = "".join(f'<div class="name">{name}</div>' + "".join(it[row] for it in columns)
                        for row, name in enumerate(names))
        rows = "".join(self.row(name, cuts, folds) for name, cuts in self.by_choice().items())
        widths = f"{NAMES} " + " ".join(
            "0" if it not in lasts else "minmax(64px, auto)" if lasts[it] > it else
            "minmax(20px, auto)" for it in range(events))
        folded = " folded" if events > MOST_COLUMNS and len(folds) < events else ""
        return (f'<p class="small"><label><input type="checkbox" id="fold"'
                f'{" checked" if folded else ""}> equal columns together</label>; S a store, '
                f'f a flush, # a fence</p><div class="scroll"><div class="grid time{folded}" '
                f'style="--folded: {widths}; grid-template-columns: {NAMES} '
                f'repeat({events}, minmax(20px, 1fr))">' + heads
                + spans("part of the call", self.explored.parts(), {})
                + spans("stopped", self.explored.phases(), PHASES) + rows + "</div></div>")

    def told_of_images(self):
        """How many images the cuts leave, and what their rows show."""
        images, left_out = self.explored.images(), self.explored.left_out
        of_all = sum(it.recovery_events or 0 for it in images)
        left = f" Of their {of_all} events {left_out} are left out." if left_out else ""
        return (f'<p class="small">The cuts of the call leave {len(images)} different images. For '
                "each of them a column is an event of its recovery at which the power went off "
                "again, and the cells of a column are the oldest, the newest and the drawn "
                f"versions.{left}</p>")

    def recoveries(self):
        """For each different image a row of its recovery's cuts."""
        images, rows = {}, []
        for cut in self.explored.cuts:
            images.setdefault(cut.image, []).append(cut)
        for cuts in images.values():
            again = [it for it in self.explored.again if it.first is cuts[0]]
            if not again:
                continue
            name = f"stop {cuts[0].event}, {html.escape(cuts[0].choice)}"
            if len(cuts) > 1:
                name += f", and {len(cuts) - 1} cut{'s' * (len(cuts) > 2)} with the same image"
            columns = []
            for event in sorted({it.event for it in again}):
                columns.append("<div>" + "".join(self.cell(it, 1, " small-cell") for it in again
                                                 if it.event == event) + "</div>")
            events = cuts[0].recovery_events
            cut_at = f", cut at {len(columns)} of them" if len(columns) < events else ""
            rows.append(f'<div class="image"><div class="small">{name}: '
                        f'{html.escape(cuts[0].outcome.answer)}; {events} events{cut_at}</div>'
                        f'<div class="grid" style="grid-template-columns: '
                        f'repeat({len(columns)}, 22px)">{"".join(columns)}</div></div>')
        return "".join(rows) or "<p>No recovery was cut.</p>"

    def outcomes(self):
        cards = []
        for letter, kind, outcome, cuts in self.groups:
            again = sum(cut.first is not None for cut in cuts)
            cards.append(f'<div class="card" id="outcome-{letter}"><h3>'
                         f'<b class="{kind}">{letter}</b>{html.escape(outcome.answer)}</h3>'
                         f'<div class="small">{KINDS[kind]}; cuts of the call: '
                         f'{len(cuts) - again}, of recoveries: {again}</div>'
                         f'{pool_of(outcome, self.explored.pool_before)}</div>')
        return "".join(cards)

    def source(self):
        """The program, its logged stores marked."""
        logged = {}
        for words in (line.split() for line in self.listing[:-1]):
            if words[-1] == "log":
                logged.setdefault(int(words[2]), []).append(" ".join(words[3:-1]))
        with open(self.explored.cnvm.program, encoding="utf-8", errors="replace") as file:
            lines = file.read().rstrip("\n").split("\n")
        told = {at: f"<i>logged: {html.escape(', '.join(stores))}</i>"
                for at, stores in logged.items()}
        return "".join(f'<span class="l{" log" if at in logged else ""}">{html.escape(line) or " "}'
                       + told.get(at, "") + "</span>" for at, line in enumerate(lines, 1))

    def data(self):
        return [{"letter": self.letters[id(cut)], "told": told_of(cut, self.explored.named),
                 "steps": steps_of(cut)} for cut in self.cuts]


def embedded(name, value):
    text = json.dumps(value).replace("<", "\\u003c")
    return f'<script type="application/json" id="{name}">{text}</script>'


def summed(explored):
    """How many events there are of each kind, where that is known."""
    if not explored.named:
        return "stores, flushes and fences"
    counts = explore_events.sums(explored.named)
    records = f", of which {counts.pop('record') * 5} are of records"
    names = {"store": "stores", "flush": "flushes", "fence": "fences"}
    return ", ".join(f"{count} {names[kind]}" for kind, count in counts.items()) + records


def told_left_out(explored):
    left = explored.events - len({it.event for it in explored.cuts})
    return f" For want of time {left} events were left out." if left else ""


def page_of(explored, listing):
    """What was found, as a page."""
    page = Page(explored, listing)
    title = html.escape(f"{explored.call}, cut everywhere")
    plain, again = explored.counts(explored.cuts), explored.counts(explored.again)
    key = "".join(f'<th><b class="{kind}">{words}</b></th>' for kind, words in KINDS.items())
    sealing = (cut for cut in explored.cuts
               if cut.phase == "sealing" and cut.choice == "power new")
    chosen = f'data-at="{page.places[id(next(sealing, explored.cuts[0]))]}"'
    line = page.time_line().replace(chosen, chosen + ' data-first="1"')
    before = html.escape("\n".join(explored.before) or "none: the pool is new")
    row = lambda name, counts: (f"<tr><th>{name}</th><td>{sum(counts.values())}</td>"
                                + "".join(f"<td>{counts[kind]}</td>" for kind in KINDS) + "</tr>")
    return f"""<!doctype html>
<html lang="en"><head><meta charset="utf-8">
<meta name="viewport" content="width=device-width, initial-scale=1">
<title>{title}</title><style>{STYLE}</style></head><body>
<h1>{code(explored.call)}, cut everywhere</h1>
<p class="small">{html.escape(explored.cnvm.program)}; without a cut the answer is
{code(explored.value)}.</p>
<p>The call has {explored.events} events: {summed(explored)}. The power went off at each of them,
each cache line kept its oldest version, its newest one, or a drawn one, and the pool was recovered.
The recoveries were cut in the same way.{told_left_out(explored)}</p>
<table class="count"><tr><th></th><th>cuts</th>{key}</tr>
{row("of the call", plain)}{row("of its recoveries", again)}</table>
<h2>The call</h2>
<p class="small">A column is a cut at that event: those to its left are done. Equal letters are
equal outcomes. Choose a cell to see its commands and answers.</p>
{line}
<div class="two"><div>
<h2>This cut</h2>
<div class="card"><p id="told"></p><table class="cut"><tbody id="steps"></tbody></table></div>
<div class="card" id="outcome"></div>
<details class="small"><summary>as a script</summary><pre id="script"></pre></details>
<h2>The commands before the call</h2>
<div class="card"><pre>{before}</pre></div>
</div><div>
<h2>{html.escape(os.path.basename(explored.cnvm.program))}</h2>
<div class="card"><pre class="source">{page.source()}</pre></div>
</div></div>
<h2>All outcomes</h2>
<div class="cards">{page.outcomes()}</div>
<h2>Recoveries that were cut, too</h2>
{page.told_of_images()}
{page.recoveries()}
{embedded("cuts", page.data())}{embedded("before", explored.before)}<script>{SCRIPT}</script>
</body></html>
"""


def storm_call(explored, cuts):
    """One call of a storm: a cell for each drawn cut, at its event, and the other pools that cuts
    left."""
    counts = explored.counts(cuts)
    columns = []
    for event in sorted({cut.event for cut in cuts}):
        cells = "".join(f'<div class="cell {explored.kind(cut.outcome)}" title="stop {cut.event}, '
                        f'{cut.choice}: {html.escape(cut.outcome.answer)}">'
                        f'{cut.choice.split()[1]}</div>' for cut in cuts if cut.event == event)
        columns.append(f'<div><div class="number">{event}</div>{cells}</div>')
    others = "".join(f'<div class="card">{code(f"stop {cut.event}")}, {code(cut.choice)}: '
                     f'{code(cut.outcome.answer)}{pool_of(cut.outcome, explored.pool_before)}</div>'
                     for cut in cuts if explored.kind(cut.outcome) == "other")
    key = "; ".join(f'<b class="{kind}">{counts[kind]}</b> left {words}'
                    for kind, words in KINDS.items() if counts[kind])
    return (f'<h2>{code(explored.call)}</h2><p class="small">{explored.events} events; without a '
            f'cut the answer is {code(explored.value)}. {len(cuts)} cuts: {key or "none"}.</p>'
            '<div class="scroll"><div class="grid" style="grid-template-columns: '
            f'repeat({len(columns) or 1}, 44px)">{"".join(columns)}</div></div>{others}')


def storm_page_of(program, calls):
    """The drawn cuts of a storm, each call of the script with its own, as a page."""
    count = sum(len(cuts) for _, cuts in calls)
    title = html.escape(f"{os.path.basename(program)}, {count} drawn cuts")
    return f"""<!doctype html>
<html lang="en"><head><meta charset="utf-8">
<meta name="viewport" content="width=device-width, initial-scale=1">
<title>{title}</title><style>{STYLE}</style></head><body>
<h1>{title}</h1>
<p>The calls of the script in their order. A column is an event of the call at which the power went
off; each cell is a drawn cut there, with the oldest (old) or the newest (new) version of each cache
line.</p>
{"".join(storm_call(explored, cuts) for explored, cuts in calls)}
</body></html>
"""
