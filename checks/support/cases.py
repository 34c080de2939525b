"""The tests' cases (docs/TESTING.md): the job files that they give, and the plays that they work out."""
import re
from pathlib import Path

from .program import TOP

FILES = sorted((TOP / "crates/tests_commands/data").glob("*.cases"))
ROWS = TOP / "crates/tests_commands/src/rows.rt"
SIMPLE = {"n": "\n", "c": "\r", "t": "\t", "s": " ", "e": "", "\\": "\\"}
TURN = re.compile(r"\\\{(?:(\d+)\*)?i(?:([+%])(\d+))?\}")
ESCAPE = re.compile(r"\\(?:x([0-9a-f]{2})|\{(\d+) of ([^}]*)\}|(.))", re.S)


class Block:
    """A case, a group of shared fields or a table: its fields, each a word with its lines."""

    def __init__(self, kind, name):
        self.kind, self.name, self.fields = kind, name, []

    def lines(self, field):
        return next((lines for word, lines in self.fields if word == field), None)


def blocks_of(text):
    found = []
    for line in text.split("\n"):
        if line.startswith("    "):
            if found and found[-1].fields:
                found[-1].fields[-1][1].append(line[4:])
        elif match := re.match(r"(case|given|table) (.*)", line):
            found.append(Block(*match.groups()))
        elif line and not line.startswith("#") and found:
            found[-1].fields.append((line, []))
    return found


def unescaped(text):
    def one(match):
        byte, count, part, simple = match.groups()
        if byte:
            return chr(int(byte, 16))
        return part * int(count) if count else SIMPLE.get(simple, match[0])

    return ESCAPE.sub(one, text)


def text_of(lines, cells):
    """The bytes that lines say; \\1 and the like stand for a table's cells."""
    whole = ""
    for line in lines:
        for place, cell in enumerate(cells, 1):
            line = line.replace(f"\\{place}", cell)
        has_end = not line.endswith("\\")
        whole += unescaped(line if has_end else line[:-1]) + ("\n" if has_end else "")
    return whole.encode("latin-1")


def jobs_of(text):
    """The jobs of a text of cases, each with the name of its case."""
    shared, found = {}, []
    for block in blocks_of(text):
        if block.kind == "given":
            shared[block.name] = block
        names = [word[5:] for word, _ in block.fields if word.startswith("with ")]
        lines = next((it for it in (b.lines("file job.toml") for b in (block, *(shared[n] for n in names if n in shared))) if it), None)
        if block.kind == "given" or lines is None or any("\\repeat" in it for it in lines):
            continue
        rows = [it.split(" => ") for it in block.lines("rows") or []] if block.kind == "table" else [[]]
        found += [(block.name, text_of(lines, cells)) for cells in rows]
    return found


def repeated(lines):
    """Lines with each part between `\\repeat N` and `\\end` written out."""
    lines, found = iter(lines), []
    for line in lines:
        if not line.startswith("\\repeat "):
            found.append(line)
            continue
        part = [*iter(lambda: next(lines), "\\end")]
        for turn in range(int(line.split()[1])):
            for it in part:
                every, it = it.split(" ", 2)[1:] if it.startswith("\\every ") else (1, it)
                if (turn + 1) % int(every) == 0:
                    found.append(TURN.sub(lambda match: str(number_of(turn, *match.groups())), it))
    return found


def number_of(turn, factor, sign, other):
    number = turn * int(factor or 1)
    return number % int(other) if sign == "%" else number + int(other or 0)


def plays_of(text):
    """The plays of a text of cases that end well: of each its name, its files, and all that it wants on standard output."""
    shared, found = {}, []
    for block in blocks_of(text):
        if block.kind == "given":
            shared[block.name] = block.fields
        fields = [its for word, lines in block.fields for its in (shared.get(word[5:], []) if word.startswith("with ") else [(word, lines)])]
        words = {word for word, _ in fields}
        is_other = any(word.startswith(("status ", "fail ", "damage ", "put ")) for word in words)
        if block.kind != "case" or is_other or not {"words play job.toml --schedule s.txt", "acts", "text -"} <= words:
            continue
        told = lambda lines: text_of(repeated(lines), []).decode("latin-1")
        files = {word[5:]: told(lines) for word, lines in fields if word.startswith("file ")}
        found.append((block.name, files, "".join(told(lines) for word, lines in fields if word in ("acts", "text -"))))
    return found


def all_plays():
    return [play for it in FILES if it.name in ("plays.cases", "collections.cases") for play in plays_of(it.read_text())]


def all_jobs():
    texts = [it.read_text() for it in FILES if it.name != "wrong.cases"] + [ROWS.read_text()]
    jobs = [job for text in texts for job in jobs_of(text)]
    return list({text: (name, text) for name, text in jobs}.values())
