"""Plays: the worked ones of the tests' cases, and random ones that are the same at each run."""
import random

from .cases import all_plays
from .meaning import Job, Meaning
from .runs import Run

VERBS = ("read", "write", "snap", "crash", "load", "lose", "flush", "take", "collect", "trim", "pass")


class Play:
    """A job with its files, and what `play` prints of a schedule, or None where only the program can tell."""

    def __init__(self, name, job, files, report):
        self.name, self.job, self.files, self.report = name, job, files, report
        self.meaning = Meaning(Job(job), files)

    @property
    def schedule(self):
        """The acts of the report, one a line."""
        return [line.split(": ")[0] for line in self.trace]

    @property
    def trace(self):
        return [line for line in self.report.splitlines() if line.replace(":", " ").split(" ")[0] in VERBS]

    def states(self):
        """The table of the state before the first act and after each."""
        run = Run(self.meaning)
        tables = [run.table()]
        for line in self.schedule:
            run.make(line)
            tables.append(run.table())
        return tables

    def reported(self):
        """What `play` prints, by the model: the lines that sinks put to standard output, the trace, and the table."""
        run = Run(self.meaning)
        for line in self.schedule:
            run.make(line)
        shown = [k for k, it in enumerate(run.job.vertices) if it.is_sink and it.table["file"] == "-"]
        return "".join(run.text_taken(k) for k in shown) + run.report()


def worked_plays():
    """The plays that the tests' cases work out, each with the report that they give by hand."""
    return [Play(name, files["job.toml"], {it: text for it, text in files.items() if it != "job.toml"}, report) for name, files, report in all_plays()]


# Jobs for random plays: every operator, several replicas, passes that come soon, and streams that are read twice.
JOBS = (
    """vertex = [
    { name = 's', op = 'source', file = 's.csv' },
    { name = 'w', op = 'select', inputs = ['s'], where = 'a > 2', replicas = 2 },
    { name = 'o', op = 'sink', inputs = ['w'], file = 'o.csv' },
]
""",
    """[job]
collect_every = 64
[[vertex]]
name = "left"
op = "source"
file = "l.csv"
replicas = 2
[[vertex]]
name = "right"
op = "source"
file = "r.csv"
[[vertex]]
name = "both"
op = "join"
inputs = ["left", "right"]
replicas = 3
[[vertex]]
name = "o"
op = "sink"
inputs = ["both"]
file = "o.csv"
""",
    """vertex = [
    { name = 's', op = 'source', file = 's.csv' },
    { name = 'few', op = 'select', inputs = ['s'], where = "key != 'k1'", a = 'b', b = 'a * 2' },
    { name = 'sums', op = 'window', inputs = ['few'], size = 30, hop = 10, agg = 'sum', replicas = 2 },
    { name = 'all', op = 'union', inputs = ['s', 'sums'], recover = 'replay' },
    { name = 'o1', op = 'sink', inputs = ['sums'], file = 'o1.csv' },
    { name = 'o2', op = 'sink', inputs = ['all'], file = 'o2.csv' },
]
""",
    """vertex = [
    { name = 's', op = 'source', file = 's.csv', late = 'drop' },
    { name = 'twice', op = 'union', inputs = ['s', 's'] },
    { name = 'itself', op = 'join', inputs = ['s', 'twice'] },
    { name = 'least', op = 'window', inputs = ['itself'], size = 8, hop = 4, agg = 'min', of = 'b', replicas = 4 },
    { name = 'o', op = 'sink', inputs = ['least'], file = 'o.csv' },
]
""",
)


def random_events(chance, rows):
    """An event file of so many rows and some ctis, whose times rise slowly."""
    time, lines = 0, []
    for _ in range(rows):
        start = time + chance.randrange(8)
        length = 1 + chance.randrange(25)
        values = f"{chance.randrange(-3, 9)},{chance.randrange(5)}"
        lines.append(f"event,{start},{start + length},k{chance.randrange(3)},{values}")
        if chance.random() < 0.25:
            time += chance.randrange(1, 12)
            lines.append(f"cti,{time}")
    return "".join(line + "\n" for line in lines)


def useful_act(chance, run):
    """An act that brings a replica, a stream or a sink forward."""
    v = chance.choice(run.job.streams)
    r = chance.randrange(run.job.vertices[v].replicas)
    replica, name = run.replicas[v][r], run.job.vertices[v].name
    if chance.random() < 0.12:
        return f"flush {name} {chance.choice((1, 3, 64))}"
    if not replica.up:
        return f"load {name} {r}"
    return f"{'write' if replica.left else 'read'} {name} {r}"


def any_act(chance, run):
    """Any act at all, failures and collection among them."""
    job, word = run.job, chance.choice(VERBS)
    v = chance.choice(job.streams)
    name, replicas = job.vertices[v].name, job.vertices[v].replicas
    if word == "take":
        return f"take {chance.choice([it.name for it in job.vertices if it.is_sink])}"
    if word == "pass":
        return "pass"
    if word == "flush":
        return f"flush {name} {1 + chance.randrange(64)}"
    if word in ("lose", "collect", "trim"):
        return f"{word} {name}"
    return f"{word} {name} {chance.randrange(replicas)}"


def random_play(seed, acts=None):
    """The random play of a seed: some hundred acts, two in three of which bring the job forward."""
    chance = random.Random(seed)
    job = JOBS[seed % len(JOBS)]
    files = {it: random_events(chance, 4 + chance.randrange(30)) for it in ("s.csv", "l.csv", "r.csv")}
    play = Play(f"random {seed}", job, files, "")
    run = Run(play.meaning)
    for _ in range(acts or 20 + chance.randrange(180)):
        run.make((useful_act if chance.random() < 0.67 else any_act)(chance, run))
    play.report = run.report()
    return play
