"""The expressions of selects, as docs/FORMATS.md has them: text to a function of a row."""
import re

LEAST, MOST = -2**63, 2**63 - 1
NAMES = ("start", "end", "key", "a", "b", "c", "d")
TOKEN = re.compile(r"[ \t]*(?:([A-Za-z]+)|([0-9]+)|'([^']*)'|(<=|>=|!=|[-()+*/%=<>]))")


def clamped(number):
    return min(max(number, LEAST), MOST)


def quotient(left, right):
    """Truncated towards zero; 0 where the divisor is."""
    if right == 0:
        return 0
    whole = abs(left) // abs(right)
    return clamped(whole if (left < 0) == (right < 0) else -whole)


def rest(left, right):
    """The rest of that division, with the sign of the left side."""
    return 0 if right == 0 else left - right * (abs(left) // abs(right)) * (1 if (left < 0) == (right < 0) else -1)


ARITHMETIC = {
    "+": lambda x, y: clamped(x + y),
    "-": lambda x, y: clamped(x - y),
    "*": lambda x, y: clamped(x * y),
    "/": quotient,
    "%": rest,
}
COMPARISONS = {
    "=": lambda x, y: x == y,
    "!=": lambda x, y: x != y,
    "<": lambda x, y: x < y,
    "<=": lambda x, y: x <= y,
    ">": lambda x, y: x > y,
    ">=": lambda x, y: x >= y,
}


def tokens_of(text):
    """Each token as its kind and its text; a text that is no list of tokens raises a ValueError."""
    found, at, end = [], 0, len(text.rstrip(" \t"))
    while at < end:
        hit = TOKEN.match(text, at)
        if not hit:
            raise ValueError(f"no token at {at}")
        kind = ("word", "number", "text", "sign")[hit.lastindex - 1]
        found.append((kind, hit[hit.lastindex]))
        at = hit.end()
    return found


class Reader:
    """Reads tokens by the grammar, from its lowest rule up. Each rule gives a function of a row, which is a dict."""

    def __init__(self, text):
        self.tokens, self.at = tokens_of(text), 0

    def takes(self, *texts):
        """The next token where it is one of these signs or words, and steps over it."""
        if self.at < len(self.tokens):
            kind, text = self.tokens[self.at]
            if kind in ("word", "sign") and text in texts:
                self.at += 1
                return text
        return None

    def disjunction(self):
        left = self.conjunction()
        while self.takes("or"):
            left = (lambda x, y: lambda row: x(row) or y(row))(left, self.conjunction())
        return left

    def conjunction(self):
        left = self.negation()
        while self.takes("and"):
            left = (lambda x, y: lambda row: x(row) and y(row))(left, self.negation())
        return left

    def negation(self):
        if self.takes("not"):
            inner = self.negation()
            return lambda row: not inner(row)
        return self.comparison()

    def comparison(self):
        left = self.operation(("+", "-"), lambda: self.operation(("*", "/", "%"), self.unary))
        sign = self.takes(*COMPARISONS)
        if not sign:
            return left
        right = self.operation(("+", "-"), lambda: self.operation(("*", "/", "%"), self.unary))
        return lambda row: COMPARISONS[sign](left(row), right(row))

    def operation(self, signs, below):
        left = below()
        while sign := self.takes(*signs):
            left = (lambda x, y, f: lambda row: f(x(row), y(row)))(left, below(), ARITHMETIC[sign])
        return left

    def unary(self):
        if self.takes("-"):
            inner = self.unary()
            return lambda row: clamped(-inner(row))
        return self.atom()

    def atom(self):
        if self.takes("("):
            inner = self.disjunction()
            if not self.takes(")"):
                raise ValueError("a bracket is left open")
            return inner
        if self.at == len(self.tokens):
            raise ValueError("it ends too early")
        kind, text = self.tokens[self.at]
        self.at += 1
        if kind == "number":
            return lambda row: int(text)
        if kind == "text":
            return lambda row: text
        if kind == "word" and text in NAMES:
            return lambda row: row[text]
        raise ValueError(f"{text} can't stand here")


def expression(text):
    """The function of a row that a text means."""
    reader = Reader(text)
    meant = reader.disjunction()
    if reader.at < len(reader.tokens):
        raise ValueError("words are left over")
    return meant
