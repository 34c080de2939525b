"""What a job means, by docs/MEANING.md: the stream of each vertex, what arrives at it, and what it gives at each arrival.

Written from the documents alone, to hold the program, its documents and its pages to. It takes sound jobs and files.
"""
import csv
import io
import tomllib

from .expressions import clamped, expression

TOP = 2**63
VALUES = ("a", "b", "c", "d")


class Vertex:
    """A vertex of a job: its table, with the defaults filled in, and the numbers of the vertices that it reads."""

    def __init__(self, table, numbers):
        self.name, self.op = table["name"], table["op"]
        self.inputs = [numbers[name] for name in table.get("inputs", [])]
        self.replicas = table.get("replicas", 1)
        self.every = table.get("every", 64)
        self.replay = table.get("recover", "checkpoint") == "replay"
        self.table = table

    @property
    def is_source(self):
        return self.op == "source"

    @property
    def is_sink(self):
        return self.op == "sink"

    @property
    def is_operator(self):
        return self.op not in ("source", "sink")


class Job:
    """A job file that the program accepts."""

    def __init__(self, text):
        document = tomllib.loads(text)
        limits = document.get("job", {})
        self.collect_every = limits.get("collect_every", 256)
        self.max_elements = limits.get("max_elements", 131072)
        self.vertices, numbers = [], {}
        for number, table in enumerate(document["vertex"]):
            self.vertices.append(Vertex(table, numbers))
            numbers[table["name"]] = number
        self.numbers = numbers

    @property
    def streams(self):
        return [v for v, vertex in enumerate(self.vertices) if not vertex.is_sink]


def elements_of(text, late="refuse"):
    """The elements of an event file: rows are dicts, a cti is a number, and the end is None."""
    found, bound = [], 0
    for number, fields in enumerate(csv.reader(io.StringIO(text))):
        if not fields or (number == 0 and fields[0] == "kind"):
            continue
        if fields[0] == "end":
            break
        if fields[0] == "cti":
            if int(fields[1]) > bound:
                bound = int(fields[1])
                found.append(bound)
            continue
        values = [int(it) if it else 0 for it in fields[4:]] + [0, 0, 0, 0]
        row = {"start": int(fields[1]), "end": int(fields[2]), "key": fields[3], **dict(zip(VALUES, values))}
        if row["start"] >= bound:
            found.append(row)
        elif late != "drop":
            raise ValueError(f"a row at {row['start']} comes behind {bound}")
    return [*found, None]


def line_of(element):
    """The line of an element as a sink writes it."""
    if element is None:
        return "end"
    if isinstance(element, int):
        return f"cti,{element}"
    texts = [str(element[it]) for it in ("start", "end", "key", "a", "b")]
    if element["c"] or element["d"]:
        texts += [str(element["c"]), str(element["d"])]
    return ",".join(["event", *texts])


def bound_behind(element, bound):
    """The bound of a stream behind one more element."""
    return TOP if element is None else element if isinstance(element, int) else bound


def arrivals_of(streams):
    """What arrives at a vertex that reads these streams, each with its input: the least bound goes next, of equal ones the first."""
    at, bounds, found = [0] * len(streams), [0] * len(streams), []
    while min(bounds) < TOP:
        i = bounds.index(min(bounds))
        element = streams[i][at[i]]
        found.append((i, element))
        at[i] += 1
        bounds[i] = bound_behind(element, bounds[i])
    return found


def is_row(element):
    return isinstance(element, dict)


class Select:
    def __init__(self, table):
        self.where = expression(table["where"]) if "where" in table else lambda row: True
        self.values = {it: expression(table.get(it, it)) for it in VALUES}

    def rows(self, i, element, low, new_low):
        if not is_row(element) or not self.where(element):
            return []
        return [{**element, **{name: value(element) for name, value in self.values.items()}}]

    def held(self, low, bounds):
        return 0


class Union:
    def __init__(self, table):
        pass

    def rows(self, i, element, low, new_low):
        return [element] if is_row(element) else []

    def held(self, low, bounds):
        return 0


class Window:
    MADE = {"sum": sum, "min": min, "max": max}

    def __init__(self, table):
        self.size, self.hop = table["size"], table["hop"]
        self.made, self.of = self.MADE[table["agg"]], table.get("of", "a")
        self.panes = {}

    def rows(self, i, element, low, new_low):
        if is_row(element):
            start = element["start"]
            for end in range((start // self.hop + 1) * self.hop, start + self.size + 1, self.hop):
                self.panes.setdefault((end, element["key"]), []).append(element[self.of])
            return []
        due = sorted(it for it in self.panes if it[0] <= new_low)
        return [self.row(end, key, self.panes.pop((end, key))) for end, key in due]

    def row(self, end, key, values):
        made = {"a": clamped(self.made(values)), "b": len(values), "c": 0, "d": 0}
        return {"start": end, "end": end + self.hop, "key": key, **made}

    def held(self, low, bounds):
        return len(self.panes)


class Join:
    def __init__(self, table):
        self.sides = [[], []]

    def rows(self, i, element, low, new_low):
        if not is_row(element):
            return []
        found = [self.row(i, element, it) for it in self.sides[1 - i] if meet(element, it)]
        self.sides[i].append(element)
        return found

    def row(self, i, element, other):
        left, right = (element, other) if i == 0 else (other, element)
        times = {"start": max(left["start"], right["start"]), "end": min(left["end"], right["end"])}
        return {**times, "key": left["key"], "a": left["a"], "b": right["a"], "c": left["c"], "d": right["c"]}

    def held(self, low, bounds):
        return sum(row["end"] > bounds[1 - i] for i in (0, 1) for row in self.sides[i])


def meet(one, other):
    return one["key"] == other["key"] and max(one["start"], other["start"]) < min(one["end"], other["end"])


OPERATORS = {"select": Select, "union": Union, "window": Window, "join": Join}


class Numbers:
    """What a vertex takes and gives, as numbers: the input of each arrival, how many elements are given at each, and what it holds behind each."""

    def __init__(self, inputs, given, held):
        self.inputs, self.given, self.held = inputs, given, held
        self.outs = [0]
        for count in given:
            self.outs.append(self.outs[-1] + count)
        width = max(inputs, default=0) + 1
        self.places = [[0] * width]
        for i in inputs:
            places = list(self.places[-1])
            places[i] += 1
            self.places.append(places)

    @property
    def length(self):
        return len(self.inputs)

    @property
    def size(self):
        return self.outs[-1]

    def out(self, n):
        return self.outs[n]

    def place(self, n, i):
        """How many of the first n arrivals come from input i."""
        return self.places[n][i] if i < len(self.places[n]) else 0


def of_operator(vertex, streams):
    """The stream of an operator over the streams that it reads, and its numbers."""
    does = OPERATORS[vertex.op](vertex.table)
    bounds, low = [0] * len(streams), 0
    inputs, given, held, stream = [], [], [does.held(0, bounds)], []
    for i, element in arrivals_of(streams):
        bounds[i] = bound_behind(element, bounds[i])
        new_low = min(bounds)
        made = does.rows(i, element, low, new_low)
        if new_low > low:
            made = [*made, None if new_low == TOP else new_low]
        low = new_low
        stream += made
        inputs.append(i)
        given.append(len(made))
        held.append(does.held(low, bounds))
    return stream, Numbers(inputs, given, held)


class Meaning:
    """The stream and the numbers of each vertex of a job over the texts of its sources' files."""

    def __init__(self, job, files):
        self.job, self.streams, self.numbers = job, [], []
        for vertex in job.vertices:
            if vertex.is_source:
                stream = elements_of(files[vertex.table["file"]], vertex.table.get("late", "refuse"))
                numbers = Numbers([0] * len(stream), [1] * len(stream), [])
            elif vertex.is_sink:
                stream, numbers = self.streams[vertex.inputs[0]], Numbers([], [], [])
            else:
                stream, numbers = of_operator(vertex, [self.streams[v] for v in vertex.inputs])
            self.streams.append(stream)
            self.numbers.append(numbers)

    def text_of(self, v):
        """What the file of sink v gets in the end."""
        return "".join(line_of(it) + "\n" for it in self.streams[v])
