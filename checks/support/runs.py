"""The numbers of a running job: what each act does to them, the trace and the table, and the run that a driver makes.

Written from docs/MEANING.md (What a run is), docs/FORMATS.md and docs/RUN.md alone.
"""
TURN, BATCH = 256, 64


class Tail:
    def __init__(self):
        self.first, self.end, self.seen, self.torn, self.stored = 0, 0, 0, False, 0

    def restart(self, n):
        self.first = self.end = self.seen = n
        self.torn = True

    @property
    def batch(self):
        """The number of the first element that a flush would store, and how many it could."""
        first = max(self.seen, self.first)
        return first, max(self.end - first, 0)


class Replica:
    """A replica: up or down, how many elements it has accepted, and how many that it made are still to be written."""

    def __init__(self):
        self.up, self.n, self.left = True, 0, 0


class Row:
    """What is stored of a vertex."""

    def __init__(self, vertex):
        self.base = self.dur = self.mark = self.taken = 0
        self.snaps = [0] if vertex.is_operator else []


class Run:
    """A job that is running, from its start on."""

    def __init__(self, meaning):
        self.meaning, self.job = meaning, meaning.job
        vertices = self.job.vertices
        self.tails = [Tail() for _ in vertices]
        self.replicas = [[Replica() for _ in range(0 if it.is_sink else it.replicas)] for it in vertices]
        self.rows = [Row(it) for it in vertices]
        self.since = self.journal = 0
        self.trace = []

    # Look-ups

    def numbers(self, v):
        return self.meaning.numbers[v]

    def out(self, v, n):
        return n if self.job.vertices[v].is_source else self.numbers(v).out(n)

    def next(self, v, r):
        replica = self.replicas[v][r]
        return self.out(v, replica.n) - replica.left

    def snap_within(self, v, limit):
        return max((n for n in self.rows[v].snaps if self.out(v, n) <= limit), default=0)

    def low(self, v):
        row = self.rows[v]
        return self.snap_within(v, row.dur) if self.job.vertices[v].is_operator else row.mark

    def wants_of(self, v):
        """What each reader of a stream wants first of it: the reader, its input, and the number."""
        found = []
        for w, vertex in enumerate(self.job.vertices):
            for i, u in enumerate(vertex.inputs):
                if u == v:
                    wanted = self.rows[w].taken if vertex.is_sink else self.numbers(w).place(self.low(w), i)
                    found.append((w, i, wanted))
        return found

    def need(self, v):
        return min(wanted for _, _, wanted in self.wants_of(v))

    # Acts

    def act(self, *words):
        """Makes an act and gives what came of it; the trace gets its line."""
        word, numbers = words[0], list(words[1:])
        outcome = getattr(self, word)(*numbers)
        self.trace.append(f"{self.act_text(*words)}: {outcome}")
        return outcome

    def act_text(self, word, *numbers):
        if word == "pass_":
            return "pass"
        return " ".join([word, self.job.vertices[numbers[0]].name, *map(str, numbers[1:])])

    def read(self, v, r):
        replica, vertex = self.replicas[v][r], self.job.vertices[v]
        if not replica.up:
            return "down"
        if replica.left:
            return f"pending {replica.left}"
        if replica.n == self.numbers(v).length:
            return "ended"
        i = self.numbers(v).inputs[replica.n]
        number = replica.n if vertex.is_source else self.numbers(v).place(replica.n, i)
        word = self.list_word(v, number) if vertex.is_source else self.stream_word(vertex.inputs[i], number)
        if word == "got":
            replica.n += 1
            replica.left = self.out(v, replica.n) - self.out(v, replica.n - 1)
        if word == "gone":
            replica.up = False
        return f"{word} {i} {number}"

    def list_word(self, v, number):
        return "gone" if number < self.rows[v].mark else "got"

    def stream_word(self, u, number):
        tail, row = self.tails[u], self.rows[u]
        if number < tail.first or (tail.torn and number >= tail.end):
            return "gone" if number < row.base else "got" if number < row.dur else "wait"
        return "got" if number < tail.end else "wait"

    def write(self, v, r):
        replica, tail = self.replicas[v][r], self.tails[v]
        if not replica.up:
            return "down"
        number = self.next(v, r)
        if number > tail.end:
            replica.up = False
            return f"gap {tail.end}"
        if not replica.left:
            return "idle"
        replica.left -= 1
        if number == tail.end:
            tail.end += 1
            tail.stored += 1
            return f"stored {number}"
        return f"old {number}" if number < tail.first else f"known {number}"

    def snap(self, v, r):
        replica, row = self.replicas[v][r], self.rows[v]
        if self.job.vertices[v].is_source:
            return "idle"
        if not replica.up:
            return "down"
        if replica.left:
            return f"pending {replica.left}"
        if replica.n in row.snaps:
            return f"known {replica.n}"
        if replica.n < self.low(v):
            return f"old {self.low(v)}"
        row.snaps = sorted([*row.snaps, replica.n])
        self.journal += 1
        return f"kept {replica.n}"

    def crash(self, v, r):
        replica = self.replicas[v][r]
        was_up, replica.up = replica.up, False
        return "crashed" if was_up else "down"

    def load(self, v, r):
        replica, tail, row = self.replicas[v][r], self.tails[v], self.rows[v]
        if replica.up:
            return "up"
        if row.dur > tail.end:
            tail.restart(row.dur)
        replica.n = tail.end if self.job.vertices[v].is_source else self.snap_within(v, tail.end)
        replica.up, replica.left = True, 0
        return f"loaded {replica.n}"

    def lose(self, v):
        tail = self.tails[v]
        lost = tail.end - tail.first
        tail.restart(tail.seen)
        return f"lost {lost}"

    def flush(self, v, count):
        tail, row = self.tails[v], self.rows[v]
        first, most = tail.batch
        length = min(count, most)
        if self.since + length > self.job.collect_every:
            return f"pass_due {self.since}"
        dur = max(row.dur, first + length)
        stored = dur - row.dur
        row.dur = dur
        self.since += stored
        self.journal += stored > 0
        tail.seen = max(tail.seen, dur)
        tail.first = max(tail.first, min(row.base, tail.end))
        return f"flushed {stored}"

    def take(self, k):
        u, row = self.job.vertices[k].inputs[0], self.rows[k]
        if row.taken >= len(self.meaning.streams[u]):
            return "ended"
        if row.taken == self.rows[u].dur:
            return f"wait {row.taken}"
        row.taken += 1
        self.journal += 1
        return f"took {row.taken - 1}"

    def collect(self, v):
        self.cut(v)
        self.journal += 1
        return f"base {self.rows[v].base}"

    def cut(self, v):
        row = self.rows[v]
        row.base = self.need(v)
        row.dur = max(row.dur, row.base)

    def trim(self, v):
        low = self.low(v)
        self.drop(v)
        self.journal += 1
        return f"low {low}" if self.job.vertices[v].is_operator else f"mark {self.rows[v].mark}"

    def drop(self, v):
        row = self.rows[v]
        if self.job.vertices[v].is_operator:
            low = self.low(v)
            row.snaps = [n for n in row.snaps if n >= low]
        else:
            row.mark = row.dur

    def pass_(self):
        for v in reversed(self.job.streams):
            self.cut(v)
            self.drop(v)
        self.since = 0
        self.journal += 1
        return "passed"

    # The table

    def table(self):
        """The lines of the state, as `play` prints them."""
        found = []
        for v, vertex in enumerate(self.job.vertices):
            if vertex.is_sink:
                found.append(f"sink {vertex.name} taken {self.rows[v].taken}")
            else:
                found += [self.stream_line(v), *(self.replica_line(v, r) for r in range(vertex.replicas))]
        return [*found, f"journal {self.journal} since {self.since}"]

    def stream_line(self, v):
        vertex, tail, row = self.job.vertices[v], self.tails[v], self.rows[v]
        torn = "yes" if tail.torn else "no"
        more = f"mark {row.mark}" if vertex.is_source else " ".join(["snaps", *map(str, row.snaps)])
        return f"stream {vertex.name} base {row.base} dur {row.dur} from {tail.first} end {tail.end} torn {torn} {more}"

    def replica_line(self, v, r):
        replica, name = self.replicas[v][r], self.job.vertices[v].name
        if not replica.up:
            return f"inst {name} {r} down"
        return f"inst {name} {r} up n {replica.n} next {self.next(v, r)} left {replica.left}"

    # Schedules

    def make(self, line):
        """Makes the act of a schedule's line, and gives what came of it."""
        word, *rest = line.split()
        if word == "pass":
            return self.act("pass_")
        return self.act(word, self.job.numbers[rest[0]], *map(int, rest[1:]))

    def report(self):
        """What `play` tells of the acts so far."""
        return "".join(line + "\n" for line in [*self.trace, *self.table()])

    def text_taken(self, k):
        """What sink k has put so far."""
        from .meaning import line_of

        stream = self.meaning.streams[self.job.vertices[k].inputs[0]]
        return "".join(line_of(it) + "\n" for it in stream[: self.rows[k].taken])


class Driver:
    """Brings a job to its end in rounds, as docs/RUN.md tells, with the failures of a list of lines."""

    def __init__(self, run, failures=()):
        self.run, self.job = run, run.job
        self.failures = []
        for line in failures:
            words = line.split()
            if words and not line.startswith("#"):
                self.failures.append((self.job.numbers[words[1]], int(words[2]), " ".join(words[3:])))

    def finish(self):
        while self.round():
            pass
        return self.run

    def round(self):
        moved = False
        for v in self.job.streams:
            moved |= self.turn(v)
        for k, vertex in enumerate(self.job.vertices):
            if vertex.is_sink:
                moved |= self.takes(k)
        return moved

    def turn(self, v):
        moved = False
        for _ in range(TURN):
            if self.is_over(v) or not self.act_by_rule(v):
                break
            moved = True
        if self.run.tails[v].batch[1] == 0:
            return moved
        if self.run.act("flush", v, BATCH).startswith("pass_due"):
            self.run.act("pass_")
            self.run.act("flush", v, BATCH)
        return True

    def is_over(self, v):
        run, replica, tail = self.run, self.run.replicas[v][0], self.run.tails[v]
        if tail.batch[1] >= BATCH:
            return True
        if not replica.up or replica.left or replica.n < run.numbers(v).length:
            return False
        number = run.next(v, 0)
        return number <= run.rows[v].dur or (number <= tail.end and not self.snap_due(v))

    def snap_due(self, v):
        vertex, replica = self.job.vertices[v], self.run.replicas[v][0]
        if not vertex.is_operator:
            return False
        due = max(self.run.rows[v].snaps, default=0) + vertex.every <= replica.n
        return due and (not vertex.replay or self.run.numbers(v).held[replica.n] == 0)

    def act_by_rule(self, v):
        """The next act of the first replica; tells whether it went forward."""
        run, replica = self.run, self.run.replicas[v][0]
        if not replica.up:
            run.act("load", v, 0)
        elif replica.left:
            self.write(v)
        elif self.snap_due(v):
            run.act("snap", v, 0)
        elif replica.n == run.numbers(v).length:
            self.write(v)
        else:
            return not run.act("read", v, 0).startswith("wait")
        return True

    def write(self, v):
        if self.run.act("write", v, 0).startswith("stored"):
            count = self.run.tails[v].stored
            for stream, at, act in self.failures:
                if (stream, at) == (v, count):
                    self.run.make(act)

    def takes(self, k):
        moved = False
        while self.run.rows[k].taken < self.run.rows[self.job.vertices[k].inputs[0]].dur:
            self.run.act("take", k)
            moved = True
        return moved
