"""Makes queries of the whole grammar by chance, and judges them: their answers, and the rules that broken ones break.

It stands on the judges of run_expressions, run_groups and run_windows. Every stage of a query has rows of five cells: three
numbers and two texts. Those of the table are its columns; where a query has groups they become columns of GROUP BY,
aggregates and GROUPING; where it has calls with OVER some become these; and its five items are expressions over them, which
are the columns of the query around it."""
import dataclasses

from scripts import runner

expressions, grouping, windows = runner("run_expressions"), runner("run_groups"), runner("run_windows")
OutOfRange, Maker, checked, meaning = expressions.OutOfRange, expressions.Maker, expressions.checked, expressions.meaning

TABLE = expressions.TABLE
COLUMNS = expressions.COLUMNS
NUMBERS, TEXTS = (0, 1, 2), (3, 4)
MOST_SETS = 64
ITEM = "item%d"
DEFAULT_FRAME = "RANGE", ((windows.UNBOUNDED_PRECEDING, 0), (windows.CURRENT_ROW, 0)), "NO OTHERS"
BOUNDS = [(kind, far) for kind in range(5) for far in ((0, 1, 2, 5) if kind in (windows.PRECEDING, windows.FOLLOWING) else (0,))]


class Broken(Exception):
    """The rule that a query breaks."""


@dataclasses.dataclass
class Call:
    """An aggregate, or a call with OVER: its function, its argument, its FILTER, its further words, and its window."""

    function: str
    argument: tuple = None
    kept: tuple = None
    count: int = None
    default: object = None
    window: object = None


@dataclasses.dataclass
class Key:
    expression: tuple
    falls: bool
    nulls_first: object


@dataclasses.dataclass
class Window:
    """A window's parts; its name where it is an entry of WINDOW, and what a copy of that adds where it is written as one."""

    parts: list
    keys: list
    frame: tuple = None
    name: str = None
    own_keys: bool = False
    own_frame: bool = False


@dataclasses.dataclass
class Select:
    source: object = None
    names: tuple = COLUMNS
    where: tuple = None
    groups: object = None
    having: tuple = None
    calls: dict = dataclasses.field(default_factory=dict)
    items: list = None
    keys: list = dataclasses.field(default_factory=list)
    limits: tuple = None
    is_star: bool = False
    broken: tuple = ()

    def used_calls(self):
        """The calls that stand in the text: an item or a key names their cell."""
        named = columns_of(*self.items, *(key.expression for key in self.keys))
        return {place: call for place, call in self.calls.items() if place in named}

    def used_cells(self):
        """The cells of groups that stand in the text."""
        calls = self.used_calls()
        named = columns_of(*self.items, *(key.expression for key in self.keys)) - set(calls)
        given = [part for call in calls.values() for part in (call.argument, call.kept, *call.window.parts)]
        given += [key.expression for call in calls.values() for key in call.window.keys]
        return named | columns_of(self.having, *given)


@dataclasses.dataclass
class Groups:
    """The text and the sets of GROUP BY, its columns in their order, and the five cells of a group."""

    text: str
    sets: list
    columns: list
    cells: list


def columns_of(*given):
    """The places of the cells that expressions name."""
    found = set()
    for expression in given:
        if expression and expression[0] == "column":
            found.add(expression[1])
        elif expression:
            found |= columns_of(*(part for part in expression if isinstance(part, tuple)))
    return found


# ---- what makes them


class Queries:
    def __init__(self, chance):
        self.chance = chance
        self.maker = Maker(chance)

    def often(self, share):
        return self.chance.random() < share

    def value(self, place, depth=1):
        """An expression for a cell of this place: a null alone would make a text of a number."""
        if place in TEXTS:
            return self.maker.text()
        made = self.maker.number(depth)
        return ("column", 1) if made == ("literal", None) else made

    def query(self, depth=None):
        depth = self.chance.choices([0, 1, 2, 4, 8], [30, 20, 10, 8, 2])[0] if depth is None else depth
        made = Select(self.query(depth - 1) if depth else None)
        if made.source:
            made.names = tuple(f"{name}{depth}" for name in COLUMNS)
        made.where = self.maker.condition(2) if self.often(0.25) else None
        if self.often(0.35):
            self.add_groups(made)
        self.add_calls(made)
        made.items = [self.value(place, self.chance.randint(0, 2)) for place in range(5)]
        made.keys = self.order() if self.often(0.5) else []
        if self.often(0.3):
            made.limits = self.chance.choice([None, 0, 1, 3, 100, 100]), self.chance.choice([None, None, 0, 1, 2])
        return made

    def add_groups(self, made):
        elements = [grouping.element_by(self.chance, made.names[1:]) for _ in range(self.chance.choice([0, 1, 1, 2]))]
        sets = [[]]
        for _, others in elements:
            sets = [before + columns for before in sets for columns in others]
        text = ", ".join(text for text, _ in elements)
        named = {column for _, sets in elements for columns in sets for column in columns}
        columns = sorted(named, key=lambda column: grouping.position(text, column))
        made.groups = Groups(text, sets, columns, [self.group_cell(place, columns, made.names) for place in range(5)])
        made.having = self.maker.condition(1) if not text or self.often(0.25) else None

    def group_cell(self, place, columns, names):
        """A column of GROUP BY by its name, GROUPING of some, or an aggregate."""
        fitting = [column for column in columns if (names.index(column) in NUMBERS) == (place in NUMBERS)]
        if fitting and self.often(0.6):
            return self.chance.choice(fitting)
        if columns and place in NUMBERS and self.often(0.2):
            return self.chance.choices(columns, k=self.chance.randint(1, 3))
        return self.aggregate(place)

    def aggregate(self, place):
        function = self.chance.choice(["count", "sum", "min", "max"] if place in NUMBERS else ["min", "max"])
        kept = self.maker.condition(1) if self.often(0.25) else None
        if function == "count":
            return Call(function, self.chance.choice([None, self.value(1), self.value(3)]), kept)
        return Call(function, self.value(place), kept)

    def add_calls(self, made):
        entries = [self.window(f"w{number}") for number in range(self.chance.choice([0, 0, 1, 2]))]
        for place in range(5):
            if self.often(0.25):
                window = self.chance.choice(entries) if entries and self.often(0.6) else self.window()
                if window.name and window.frame is None and self.often(0.5):
                    window = self.copy(window)
                made.calls[place] = self.call(place, window)

    def copy(self, window):
        """A copy of a window without a frame, with keys of its own where that has none."""
        own_keys = not window.keys and self.often(0.5)
        keys = [self.key()] if own_keys else window.keys
        own_frame = not own_keys or self.often(0.5)
        frame = self.frame(keys) if own_frame else None
        return dataclasses.replace(window, keys=keys, frame=frame, own_keys=own_keys, own_frame=own_frame)

    def star(self, made):
        """The same query with `*` for its items."""
        return dataclasses.replace(made, is_star=True, items=[("column", place) for place in range(5)], calls={})

    def call(self, place, window):
        functions = ["lag", "lead", "first_value", "last_value", "nth_value", "aggregate"]
        function = self.chance.choice(functions + ["row_number", "rank", "dense_rank", "ntile"] * (place in NUMBERS))
        if function == "aggregate":
            return dataclasses.replace(self.aggregate(place), window=window)
        made = Call(function, window=window)
        if function in ("ntile", "nth_value"):
            made.count = self.chance.choice([1, 2, 3, 50])
        if function in functions:
            made.argument = self.value(place)
        if function in ("lag", "lead") and self.often(0.5):
            made.count = self.chance.choice([0, 1, 2, 2**63])
            made.default = self.chance.choice([None, "''", "'none'"] if place in TEXTS else [None, "-5", "7", "NULL"])
        return made

    def window(self, name=None):
        parts = [self.value(self.chance.randrange(5)) for _ in range(self.chance.choice([0, 0, 1, 2]))]
        keys = [self.key() for _ in range(self.chance.choice([0, 1, 1, 2]))]
        return Window(parts, keys, self.frame(keys) if self.often(0.5) else None, name)

    def key(self):
        return Key(self.value(self.chance.choice([1, 1, 3])), self.often(0.4), self.chance.choice([None, None, True, False]))

    def frame(self, keys):
        mode = self.chance.choice(["ROWS", "RANGE"] + ["GROUPS"] * bool(keys))
        bounds = BOUNDS
        if mode == "RANGE" and not (len(keys) == 1 and self.is_number(keys[0].expression)):
            bounds = [bound for bound in BOUNDS if bound[0] not in (windows.PRECEDING, windows.FOLLOWING)]
        start = self.chance.choice([bound for bound in bounds if bound[0] != windows.UNBOUNDED_FOLLOWING])
        end = self.chance.choice([bound for bound in bounds if bound[0] >= max(start[0], windows.PRECEDING)])
        return mode, (start, end), self.chance.choice(windows.EXCLUSIONS)

    def is_number(self, expression):
        form, *parts = expression
        if form == "literal":
            return isinstance(parts[0], int)
        return form in ("signed", "calculated") or form == "column" and parts[0] in NUMBERS

    def order(self):
        """Keys of the whole query: an expression that is no literal, or the number of an item, its place or its name."""
        keys = []
        for _ in range(self.chance.randint(1, 2)):
            key = self.key()
            if self.often(0.5) or key.expression[0] == "literal":
                key.expression = self.chance.choice(["place", "name"]), self.chance.randrange(5)
            elif key.expression[0] == "signed":
                key.expression = "calculated", "+", key.expression, ("column", 1)
            keys.append(key)
        return keys


# ---- how they are spelled


class Spelling(expressions.Spelling):
    def __init__(self, chance, made):
        self.made = made
        self.alias = "t" if made.source is None else "q"
        super().__init__(chance)
        self.columns = [self.named(name) for name in made.names]

    def named(self, name):
        return f"{self.alias}.{name}" if self.chance.random() < 0.2 else name

    def call(self, call):
        if isinstance(call, str):
            return self.named(call)
        if isinstance(call, list):
            return f"GROUPING({', '.join(self.named(column) for column in call)})"
        given = [self.of(call.argument)] if call.argument else ["*"] if call.function == "count" else []
        given += [str(word) for word in (call.count, call.default) if word is not None]
        kept = f" FILTER (WHERE {self.of(call.kept)})" if call.kept else ""
        return f"{call.function}({', '.join(given)}){kept}" + (f" OVER {self.over(call.window)}" if call.window else "")

    def over(self, window):
        if window.name is None:
            return f"({self.window(window)})"
        if not (window.own_keys or window.own_frame):
            return window.name
        keys = [self.keys(window.keys)] if window.own_keys else []
        return f"({' '.join([window.name, *keys, *([self.frame(window.frame)] if window.own_frame else [])])})"

    def window(self, window):
        parts = [f"PARTITION BY {', '.join(self.of(part) for part in window.parts)}"] if window.parts else []
        keys = [self.keys(window.keys)] if window.keys and not window.own_keys else []
        frame = [self.frame(window.frame)] if window.frame and not window.own_frame else []
        return " ".join(parts + keys + frame)

    def keys(self, keys):
        return f"ORDER BY {', '.join(self.key(key) for key in keys)}"

    def frame(self, frame):
        """A frame; what stands for itself is left out now and then."""
        mode, (start, end), exclusion = frame
        text = f"{mode} BETWEEN {windows.spelled(start)} AND {windows.spelled(end)}"
        if end[0] == windows.CURRENT_ROW and self.chance.random() < 0.5:
            text = f"{mode} {windows.spelled(start)}"
        return text if exclusion == "NO OTHERS" and self.chance.random() < 0.5 else f"{text} EXCLUDE {exclusion}"

    def key(self, key, names=()):
        form, place, *_ = key.expression
        text = str(place + 1) if form == "place" else names[place] if form == "name" else self.of(key.expression)
        nulls = {None: "", True: " NULLS FIRST", False: " NULLS LAST"}[key.nulls_first]
        return text + (" DESC" if key.falls else "") + nulls

    def select(self):
        """The spellings of the source, and of the clauses from WHERE to WINDOW; the cells are then spelled as items name them."""
        made = self.made
        source = self.chance.choice(["t", "t t", "t AS t"])
        if made.source is not None:
            source = f"({spelled(made.source, self.chance, made.names)}) {self.chance.choice(['AS q', 'q'])}"
        where = f" WHERE {self.of(made.where)}" if made.where else ""
        grouped = ""
        if made.groups:
            grouped = f" GROUP BY {made.groups.text}" if made.groups.text else ""
            # each is spelled over the columns of the source
            self.columns = [self.call(cell) for cell in made.groups.cells]
            grouped += f" HAVING {self.of(made.having)}" if made.having else ""
        calls = made.used_calls()
        entries = {call.window.name: self.window(call.window) for call in calls.values() if call.window.name}
        entries = [f"{name} AS ({text})" for name, text in entries.items()]
        calls = {place: self.call(call) for place, call in calls.items()}
        self.columns = [calls.get(place, text) for place, text in enumerate(self.columns)]
        return source, where + grouped + (f" WINDOW {', '.join(entries)}" if entries else "")


def spelled(made, chance, names=tuple(ITEM % place for place in range(5))):
    """The text of a query, of which the items have these names."""
    spelling = Spelling(chance, made)
    source, clauses = spelling.select()
    if made.is_star:
        names = made.names
    items = [f"{spelling.of(item)}{chance.choice([' AS', ''])} {name}" for item, name in zip(made.items, names)]
    items = ["*"] if made.is_star else items
    faults = [FAULTS[fault] for fault in made.broken]
    items += [text for clause, text in faults if clause == "item"]
    keys = [spelling.key(key, names) for key in made.keys]
    keys += [text for clause, text in faults if clause == "key"]
    ending = f" ORDER BY {', '.join(keys)}" if keys else ""
    limits = [f" {word} {number}" for word, number in zip(("LIMIT", "OFFSET"), made.limits or ()) if number is not None]
    ending += "".join(chance.sample(limits, len(limits)))
    source = next((text for clause, text in faults if clause == "source"), source)
    return f"SELECT {', '.join(items)} FROM {source}{clauses}{ending}"


# What breaks a rule wherever it stands: the rule, the clause that it is put into, and the text.
FAULTS = {
    10: ("source", "other AS t"),
    11: ("item", "nothing"),
    13: ("item", "avg(1)"),
    14: ("item", "1 = 1"),
    15: ("item", "rank()"),
    18: ("item", "rank() FILTER (WHERE 1 = 1) OVER ()"),
    19: ("item", "count(*) OVER nothing"),
    22: ("item", "count(*) OVER (ROWS 1 FOLLOWING)"),
    23: ("item", "count(*) OVER (GROUPS 1 PRECEDING)"),
    24: ("item", "count(*) OVER (ORDER BY 'x' RANGE 1 PRECEDING)"),
    25: ("item", "ntile(0) OVER ()"),
    26: ("key", "77"),
    27: ("item", ", ".join(["1"] * 64)),
}


# ---- what they mean


def answered(made, rows):
    """The five cells of each row of an answer."""
    if made.source is not None:
        rows = answered(made.source, rows)
    if made.where:
        truths = [meaning(made.where, row) for row in rows]
        rows = [row for row, truth in zip(rows, truths) if truth]
    if made.groups:
        rows = groups_of(made, rows)
    cells = [list(row) for row in rows]
    for place, call in made.used_calls().items():
        for row, value in zip(cells, over(call, rows)):
            row[place] = value
    lines = [[meaning(item, row) for item in made.items] for row in cells]
    return limited(made, in_order(made, cells, lines))


def judge_rules(made):
    """Raises the least rule that is broken, of the innermost query that breaks one."""
    if made.source is not None and 10 not in made.broken:
        judge_rules(made.source)
    rules = list(made.broken)
    if made.groups and len(made.groups.sets) > MOST_SETS:
        rules.append(28)
    if rules:
        raise Broken(min(rules))


def groups_of(made, rows):
    """The groups, each with its five cells, that HAVING keeps."""
    named = [{**dict(zip(made.names, row)), None: row} for row in rows]
    used, cells = made.used_cells(), made.groups.cells
    groups = []
    for wanted in made.groups.sets:
        for chosen, key, members in grouping.groups_of(made.groups.columns, wanted, named):
            members = [row[None] for row in members]
            groups.append([group_cell(cell, chosen, key, members) if place in used else None for place, cell in enumerate(cells)])
    if made.having:
        truths = [meaning(made.having, group) for group in groups]
        groups = [group for group, truth in zip(groups, truths) if truth]
    return groups


def group_cell(cell, chosen, key, rows):
    if isinstance(cell, str):
        return key[cell]
    if isinstance(cell, list):
        return grouping.bits(chosen, cell)
    return aggregate(cell.function, fed(cell, rows))


def fed(call, rows):
    """The value that each row feeds to an aggregate, which is null where FILTER drops it."""
    values = [1 if call.argument is None else meaning(call.argument, row) for row in rows]
    truths = [meaning(call.kept, row) for row in rows] if call.kept else [True] * len(rows)
    return [value if truth else None for value, truth in zip(values, truths)]


def aggregate(function, values):
    values = [value for value in values if value is not None]
    if function == "count":
        return len(values)
    if function == "sum":
        return checked(sum(values)) if values else None
    return {"min": min, "max": max}[function](values, default=None, key=lambda value: value.encode() if isinstance(value, str) else value)


def over(call, rows):
    """What a call with OVER answers for each row."""
    window = call.window
    # the other functions have no FILTER, and those without an argument look at none
    values = fed(call, rows)
    parts = [tuple(meaning(part, row) for part in window.parts) for row in rows]
    keys = [[meaning(key.expression, row) for key in window.keys] for row in rows]
    how = "", [(number, key.falls, key.falls if key.nulls_first is None else key.nulls_first) for number, key in enumerate(window.keys)]
    told = [None] * len(rows)
    for part in dict.fromkeys(parts):
        partition = windows.Partition(keys, [number for number in range(len(rows)) if parts[number] == part], how)
        for place, number in enumerate(partition.numbers):
            told[number] = of_row(call, partition, place, values)
    return told


def of_row(call, partition, place, values):
    """What a call answers for the row at a place of its partition."""
    group, count = partition.groups[place], len(partition.numbers)
    if call.function in ("row_number", "rank", "dense_rank"):
        return {"row_number": place, "rank": partition.groups.index(group), "dense_rank": group}[call.function] + 1
    if call.function == "ntile":
        return windows.tile(place, count, call.count)
    if call.function in ("lag", "lead"):
        far = 1 if call.count is None else call.count
        at = place + (far if call.function == "lead" else -far)
        return values[partition.numbers[at]] if 0 <= at < count else default_of(call.default)
    mode, bounds, exclusion = call.window.frame or DEFAULT_FRAME
    framed = [values[number] for number in partition.frame(mode, bounds, exclusion, place, count)]
    if call.function in ("first_value", "last_value", "nth_value"):
        at = {"first_value": 0, "last_value": len(framed) - 1}.get(call.function, (call.count or 0) - 1)
        return framed[at] if 0 <= at < len(framed) else None
    return aggregate(call.function, framed)


def default_of(text):
    if text in (None, "NULL"):
        return None
    return text[1:-1] if text.startswith("'") else int(text)


def in_order(made, cells, lines):
    numbers = list(range(len(lines)))
    for key in reversed(made.keys):
        form, place, *_ = key.expression
        values = [line[place] for line in lines] if form in ("place", "name") else [meaning(key.expression, row) for row in cells]
        nulls_first = key.falls if key.nulls_first is None else key.nulls_first
        numbers.sort(key=lambda number: windows.stand(values[number], key.falls, nulls_first))
    return [lines[number] for number in numbers]


def limited(made, lines):
    count, first = made.limits or (None, None)
    lines = lines[first or 0 :]
    return lines if count is None else lines[:count]


def reply_of(made, rows):
    """The reply to a query over these rows of the table."""
    try:
        judge_rules(made)
        names = made.names if made.is_star else [ITEM % place for place in range(5)]
        text = expressions.answer_of(names, answered(made, rows)).encode()
    except OutOfRange:
        return b"refused Q40\n"
    except Broken as rule:
        return b"refused Q%d\n" % rule.args[0]
    return b"answer %d\n%s" % (len(text), text)


# ---- smaller ones


def smaller(made):
    """Queries that lack a part of this one."""
    replaced = dataclasses.replace
    if made.source is not None:
        yield made.source
        yield from (replaced(made, source=source) for source in smaller(made.source))
    changes = [dict(where=None), dict(keys=[]), dict(limits=None), dict(broken=made.broken[:1])]
    # HAVING alone makes groups of a query without GROUP BY
    changes += [dict(having=None)] if made.groups and made.groups.text else []
    yield from (replaced(made, **change) for change in changes)
    if made.groups and made.groups.text:
        yield replaced(made, groups=None, having=None)
    for place in made.calls:
        yield replaced(made, calls={other: call for other, call in made.calls.items() if other != place})
    for place, item in enumerate(made.items):
        plain = "column", place
        if item != plain:
            yield replaced(made, items=[*made.items[:place], plain, *made.items[place + 1 :]])
