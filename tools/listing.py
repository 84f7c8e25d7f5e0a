"""A chart's words said in words, to be held against a drawing.

Any bytes can be listed. What cannot be read is said to be beyond the table, and what no rule allows is shown as it
stands; whether the chart is accepted is for the library to say. The words are those of 01, Chart words.
"""
NONE = 65535
WORDS_MOST = 65535
HEADER_WORDS = 16
FORM = 1
ROWS_MOST = 512
BEYOND = "beyond the table"

RANGES = {"states": (2, 48), "transitions": (0, 48), "events": (1, 32), "signals": (0, 32), "outputs": (0, 64),
          "variables": (0, 16), "targets": (0, 192), "literals": (0, 192), "items": (0, 512)}
WIDTHS = {"states": 7, "transitions": 8, "targets": 1, "literals": 3, "items": 3}
KINDS = ("or", "or with history", "and")
OR_KINDS = (0, 1)
AND_KIND = 2


class Chart:
    """Counts, offsets and rows as the header tells them, as far as there are words."""

    def __init__(self, words):
        self.words = words
        self.form, self.total, *numbers = words[:HEADER_WORDS]
        self.counts = dict(zip(RANGES, numbers))
        self.offsets = dict(zip(WIDTHS, numbers[len(RANGES):]))
        self.rows = {section: self.read(section) for section in WIDTHS}
        self.said = {section: [say(self, row) for row in self.rows[section]] for section, say in SAYINGS.items()}

    def read(self, section):
        """The rows of a section that end inside the table, at most as many as are listed."""
        start, width = self.offsets[section], WIDTHS[section]
        there = max(0, len(self.words) - start) // width
        rows = min(self.counts[section], there, ROWS_MOST)
        return [self.words[at:at + width] for at in range(start, start + width * rows, width)]

    def number(self, plural, k):
        return f"{k}" if k < self.counts[plural] else f"{k} ({BEYOND})"

    def name(self, plural, k):
        return f"{one(plural)} {self.number(plural, k)}"

    def spanned(self, section, first, count):
        """The rows of a span in words; then what of the span is not there."""
        said = self.said[section][first:first + count]
        if len(said) < count:
            return [*said, self.missing(section, first + len(said), first + count - 1)]
        if count == 0 and first > self.counts[section]:
            return [f"nothing from {self.name(section, first)} on"]
        return said

    def missing(self, section, first, last):
        why = BEYOND if len(self.rows[section]) < ROWS_MOST else "not listed"
        return f"{one(section)} {first} {why}" if first == last else f"{section} {first} to {last} {why}"

    def has_child(self, k, child):
        states = self.rows["states"]
        return k < child < len(states) and states[child][1] == k

    def above(self, k):
        """The states above state k, or none where its parents do not lead to the root, by known kinds."""
        states, chain = self.rows["states"], set()
        while k != 0:
            if k >= len(states) or states[k][0] >= len(KINDS) or states[k][1] >= k:
                return None
            k = states[k][1]
            chain.add(k)
        return chain

    def scope(self, states):
        """The nearest or-state above all these states (01, One macrostep, 3), or none where the tree does not tell."""
        chains = [self.above(k) for k in states]
        if None in chains:
            return None
        kinds = self.rows["states"]
        return max((k for k in set.intersection(*chains) if kinds[k][0] in OR_KINDS), default=None)


def one(plural):
    return plural[:-1]


def signed(word):
    return word - 65536 if word > 32767 else word


def added(word):
    value = signed(word)
    return f"+ {value}" if value >= 0 else f"- {-value}"


def or_none(word):
    return "none" if word == NONE else f"{word}"


def zero(b):
    """Nothing where b is 0, as the kind asks, else what it is."""
    return f" (b {b}, where 0 belongs)" if b != 0 else ""


def unknown(kind, a, b):
    return f"unknown kind {kind} (a {a}, b {b})"


def literal_words(chart, row):
    kind, a, b = row
    state, variable = chart.name("states", a), chart.name("variables", a)
    return {
        0: f"{state} active{zero(b)}",
        1: f"{state} not active{zero(b)}",
        2: f"{variable} >= {signed(b)}",
        3: f"{variable} < {signed(b)}",
    }.get(kind, unknown(kind, a, b))


def item_words(chart, row):
    kind, a, b = row
    output, variable = chart.name("outputs", a), chart.name("variables", a)
    return {
        0: f"{output}{zero(b)}",
        1: f"raise {chart.name('signals', a)}{zero(b)}",
        2: f"{variable} {added(b)} wrapping",
        3: f"{variable} {added(b)} saturating",
        4: f"{variable} = {signed(b)}",
        5: f"{output} with {chart.name('variables', b)}",
    }.get(kind, unknown(kind, a, b))


def target_words(chart, row):
    return chart.number("states", row[0])


SAYINGS = {"targets": target_words, "literals": literal_words, "items": item_words}


def trigger_words(chart, trigger):
    events, signals = chart.counts["events"], chart.counts["signals"]
    if trigger < events:
        return f"event {trigger}"
    if trigger < events + signals:
        return f"signal {trigger - events}"
    return f"trigger {trigger} ({BEYOND})"


def condition(chart, first, count):
    return " and ".join(chart.spanned("literals", first, count))


def doing(chart, first, count):
    return ", ".join(chart.spanned("items", first, count))


def going(chart, first, count):
    return ", ".join(chart.spanned("targets", first, count)) or "nothing"


def labelled(*pairs):
    """The texts that say something, each after its label."""
    return [f"{label}: {text}" for label, text in pairs if text]


def initial_words(chart, k):
    """The initial word, but where the mark of a child shows it, and where it is none as an and-state's has to be."""
    kind, _, initial = chart.rows["states"][k][:3]
    if kind in OR_KINDS:
        return [] if chart.has_child(k, initial) else [f"initial {or_none(initial)}, which is no child of it"]
    if kind == AND_KIND:
        return [] if initial == NONE else [f"initial {initial}, where none belongs"]
    return [f"initial {or_none(initial)}"]


def parent_words(chart, k):
    """The parent word of a state that hangs in the tree nowhere."""
    parent = chart.rows["states"][k][1]
    if k == 0:
        return [] if parent == NONE else [f"parent {parent}, where none belongs"]
    return [] if parent < k else [f"parent {or_none(parent)}, which is no state before it"]


def state_words(chart, k):
    kind, _, _, exit_first, exit_count, entry_first, entry_count = chart.rows["states"][k]
    told = labelled(("exit", doing(chart, exit_first, exit_count)), ("entry", doing(chart, entry_first, entry_count)))
    kind_words = KINDS[kind] if kind < len(KINDS) else f"unknown kind {kind}"
    return "; ".join([f"{k} {kind_words}", *parent_words(chart, k), *initial_words(chart, k), *told])


def is_initial(chart, k):
    kind, _, initial = chart.rows["states"][chart.rows["states"][k][1]][:3]
    return kind in OR_KINDS and initial == k


def in_tree_order(chart):
    """Every state with its depth, each after its parent. A state without a parent before it stands at depth 0."""
    below = {k: [] for k in range(len(chart.rows["states"]))}
    tops = []
    for k, row in enumerate(chart.rows["states"]):
        (below[row[1]] if row[1] < k else tops).append(k)
    waiting = [(k, 0) for k in reversed(tops)]
    while waiting:
        k, depth = waiting.pop()
        yield k, depth
        waiting.extend((child, depth + 1) for child in reversed(below[k]))


def state_lines(chart):
    for k, depth in in_tree_order(chart):
        mark = "*" if depth > 0 and is_initial(chart, k) else " "
        yield f"{'  ' * depth}{mark} {state_words(chart, k)}"


def scope_words(chart, source, first, count):
    """A transition's scope, where the table reads well enough to tell it."""
    targets = [row[0] for row in chart.rows["targets"][first:first + count]]
    scope = chart.scope([source, *targets]) if targets and len(targets) == count else None
    return "" if scope is None else f"{scope}"


def transition_line(chart, k, row):
    source, trigger, *spans = row
    literals, items, targets = spans[0:2], spans[2:4], spans[4:6]
    parts = labelled(("if", condition(chart, *literals)), ("do", doing(chart, *items)), ("to", going(chart, *targets)),
                     ("scope", scope_words(chart, source, *targets)))
    start = f"{k}: from {chart.number('states', source)} on {trigger_words(chart, trigger)}"
    return "  " + "; ".join([start, *parts])


def spans_of(chart, section):
    """All spans into a section, each as first and count."""
    if section == "items":
        for row in chart.rows["states"]:
            yield from (row[3:5], row[5:7])
    at = {"literals": 2, "items": 4, "targets": 6}[section]
    yield from (row[at:at + 2] for row in chart.rows["transitions"])


def unspanned(chart, section):
    """The rows of a section that no span holds."""
    rest = set(range(len(chart.rows[section])))
    for first, count in spans_of(chart, section):
        rest.difference_update(range(first, min(first + count, len(chart.rows[section]))))
    return rest


def numbered_lines(chart, section):
    alone = unspanned(chart, section)
    for k, said in enumerate(chart.said[section]):
        yield f"  {k}: {said}" + ("; nothing spans it" if k in alone else "")


def target_lines(chart):
    """The targets that nothing spans; the others stand with their transitions."""
    for k in sorted(unspanned(chart, "targets")):
        yield f"  {k}: {chart.said['targets'][k]}; nothing spans it"


def section_lines(chart, section, title, lines):
    """A section under its title, with what of it is not there; nothing where it is empty."""
    listed, count = len(chart.rows[section]), chart.counts[section]
    lines = list(lines)
    if listed < count:
        lines.append("  " + chart.missing(section, listed, count - 1))
    return ["", title, *lines] if lines else []


def count_words(plural, count):
    least, most = RANGES[plural]
    outside = "" if least <= count <= most else f" ({least} to {most} belong)"
    return f"{count} {one(plural) if count == 1 else plural}{outside}"


def layout_lines(chart):
    """The offsets that are not where the sections before them end."""
    at = HEADER_WORDS
    for section, width in WIDTHS.items():
        if chart.offsets[section] != at:
            yield f"offset of {section} {chart.offsets[section]}, by the counts {at}"
        at += width * chart.counts[section]
    if chart.total != at:
        yield f"total {chart.total}, by the counts {at}"


def header_lines(chart):
    yield ", ".join(count_words(plural, count) for plural, count in chart.counts.items())
    if chart.form != FORM:
        yield f"form {chart.form}, where {FORM} belongs"
    if chart.total != len(chart.words):
        yield f"total {chart.total}, but there are {len(chart.words)} words"
    yield from layout_lines(chart)


def short_lines(words):
    names = ["form", "total", *RANGES, *(f"offset of {section}" for section in WIDTHS)]
    there = [f"{name} {word}" for name, word in zip(names, words)]
    yield ", ".join([*there, f"{'the rest of ' if there else ''}the header {BEYOND}"])


def table_lines(chart):
    yield from header_lines(chart)
    yield from section_lines(chart, "states", "states, each below its parent; * is the initial child", state_lines(chart))
    transitions = (transition_line(chart, k, row) for k, row in enumerate(chart.rows["transitions"]))
    yield from section_lines(chart, "transitions", "transitions", transitions)
    yield from section_lines(chart, "literals", "literals", numbered_lines(chart, "literals"))
    yield from section_lines(chart, "items", "items", numbered_lines(chart, "items"))
    yield from section_lines(chart, "targets", "targets", target_lines(chart))


def words_of(data):
    """The whole words of a file, as many as a total can say."""
    return [data[at] + 256 * data[at + 1] for at in range(0, min(len(data) - 1, 2 * WORDS_MOST), 2)]


def listing(data):
    """The lines of a chart file."""
    words = words_of(data)
    yield f"chart of {len(words)} words"
    left = len(data) - 2 * len(words)
    if left > 0:
        yield f"after the last word {left} byte{'s' if left > 1 else ''} more"
    yield from table_lines(Chart(words)) if len(words) >= HEADER_WORDS else short_lines(words)
