"""What the text of a kernel says of its records (docs/KERNELS.md): where arrays lie, which expression a site is, and what stands around it."""
import re
from typing import NamedTuple

TOKEN = re.compile(r"[0-9]+|[A-Za-z_][A-Za-z0-9_]*|\.\.|\S")
HEADS = {"main", "parallel", "for", "loop", "if", "else", "critical"}


class Token(NamedTuple):
    text: str
    at: int
    line: int


class Block:
    """A statement with a body: its first word, its line, and the words from there to the brace."""

    def __init__(self, word, line):
        self.word, self.line, self.words = word, line, []


class Site(NamedTuple):
    """An array's name before a bracket, with the whole expression's place in the text, and the blocks around it, the outermost first."""

    array: str
    first: int
    last: int
    line: int
    blocks: tuple


class Sum(NamedTuple):
    """A statement that adds to the element that it reads: `X = X + REST`. `rest` is None where it isn't sure that `atomic X += REST` is the same."""

    target: str
    sign: str
    rest: str


class Array(NamedTuple):
    name: str
    width: int
    elements: int
    first: int


class Unknown:
    """In place of a kernel, for a folder that another program wrote: lines and addresses are all there is."""

    is_known = False

    def code(self, line):
        return ""

    def element(self, address):
        return f"address {address}"

    def array_of(self, address):
        return None

    def site(self, number):
        return None

    def expression(self, number):
        return None

    def mutex(self, number):
        return f"mutex {number}"

    def sum_at(self, number):
        return None


class Kernel(Unknown):
    is_known = True

    def __init__(self, text):
        self.text = text
        self.plain = re.sub(r"#.*", lambda it: " " * len(it.group()), text)
        self.lines, self.codes = text.split("\n"), [it.strip() for it in self.plain.split("\n")]
        self.tokens = list(read_tokens(self.plain))
        self.arrays, self.mutexes = read_head(self.tokens)
        self.sites = read_sites(self.tokens)
        self.sums = {}
        for it in self.sites:
            self.add_sum(it)

    def code(self, line):
        """A line without its comment and the spaces around."""
        return self.codes[line - 1] if 0 < line <= len(self.codes) else ""

    def array_at(self, address):
        return next((it for it in self.arrays if it.first <= address < it.first + it.width * it.elements), None)

    def element(self, address):
        found = self.array_at(address)
        return f"{found.name}[{(address - found.first) // found.width}]" if found else f"address {address}"

    def array_of(self, address):
        found = self.array_at(address)
        return found.name if found else None

    def site(self, number):
        return self.sites[number] if number < len(self.sites) else None

    def expression(self, number):
        it = self.site(number)
        return re.sub(r"\s+", " ", self.plain[it.first : it.last]) if it else None

    def marked(self, line, number):
        """The code of a line in three parts, the middle one the expression of a site."""
        start = sum(len(it) + 1 for it in self.lines[: line - 1])
        text, it = self.plain[start : start + len(self.lines[line - 1])].rstrip(), self.site(number)
        if not it or it.line != line:
            return text.lstrip(), "", ""
        first, last = it.first - start, min(it.last - start, len(text))
        return text[:first].lstrip(), text[first:last], text[last:]

    def mutex(self, number):
        return self.mutexes[number] if number < len(self.mutexes) else f"mutex {number}"

    def add_sum(self, site):
        """Keeps the sum that a site is the target of, by the target and by the same element on its right side."""
        target = self.plain[site.first : site.last]
        same = "(" + r"\s*".join(re.escape(it.text) for it in read_tokens(target)) + ")"
        right = re.split(r"[}\n]", self.plain[site.last :], maxsplit=1)[0]
        found = re.match(rf"\s*=\s*{same}\s*([+-])\s*(.+?)\s*$", right)
        last = found or re.match(rf"\s*=.*\+\s*{same}\s*$", right)
        if last:
            sign, rest = found.group(2, 3) if found else ("+", None)
            it = Sum(target, sign, rest if found and is_amount(sign, rest) else None)
            self.sums[site.first] = self.sums[site.last + last.start(1)] = it

    def sum_at(self, number):
        it = self.site(number)
        return self.sums.get(it.first) if it else None


def is_amount(sign, rest):
    """Whether what follows `X = X + ` or `X = X - ` in a line is one amount, and may follow `atomic X += ` or `atomic X -= `."""
    words = {it.text for it in read_tokens(rest)}
    return not words & {*HEADS, "=", "<", ">", "!", "barrier", "let", "atomic"} and (sign == "+" or not words & {"+", "-"})


def read_tokens(plain):
    line, before = 1, 0
    for it in TOKEN.finditer(plain):
        line += plain.count("\n", before, it.start())
        before = it.start()
        yield Token(it.group(), it.start(), line)


def read_head(tokens):
    """The arrays with their places, and the names of the mutexes by number."""
    arrays, mutexes, first = [], ["the unnamed mutex"], 4096
    words = [it.text for it in tokens]
    at = 0
    while words[at] != "main":
        if words[at] == "array":
            width, elements = int(words[at + 2][1:]) // 8, int(words[at + 3])
            arrays.append(Array(words[at + 1], width, elements, first))
            first += -(-width * elements // 64) * 64
            at += 4
        else:
            mutexes.append(words[at + 1])
            at += 2
    return arrays, mutexes


def closing(tokens, at):
    """The number of the bracket that closes the one with this number."""
    depth = 0
    for number in range(at, len(tokens)):
        depth += (tokens[number].text == "[") - (tokens[number].text == "]")
        if depth == 0:
            return number
    return len(tokens) - 1


def read_sites(tokens):
    """The names before brackets in the order of the text, which is how records number them."""
    sites, blocks, head = [], [], None
    for at, it in enumerate(tokens):
        if it.text in HEADS:
            head = Block(it.text, it.line)
        elif it.text == "{":
            blocks.append(head)
            head = None
        elif it.text == "}":
            blocks.pop()
        elif head:
            head.words.append(it.text)
        if at + 1 < len(tokens) and tokens[at + 1].text == "[":
            sites.append(Site(it.text, it.at, tokens[closing(tokens, at + 1)].at + 1, it.line, tuple(blocks)))
    return sites
