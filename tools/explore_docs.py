"""What the documents say: the sentences of docs/PROOFS.md, and of each public call its numbers, stack and cost.

A figure is taken from where it stands as data; where a document has none, there is none here.
"""
import os
import re
from dataclasses import dataclass, field

from explore_sources import contents

COSTLY = re.compile(r"\b(steps?|linear|costs?|KiB|bytes of|microseconds)\b")


@dataclass
class Table:
    part: list  # the headings that it stands under
    head: list
    rows: list


@dataclass
class Paragraph:
    part: list
    text: str


@dataclass
class Call:
    """A call of the library, by value and from C."""

    title: str
    value: list  # paths of code
    c: str
    refusals: str
    numbers: list
    reply: str = ""
    writes: str = ""
    header: str = ""
    stack: list = field(default_factory=list)
    costs: list = field(default_factory=list)
    tried: list = field(default_factory=list)
    said: list = field(default_factory=list)


def cells(line):
    return [cell.strip() for cell in re.split(r"(?<!\\)\|", line.strip().strip("|"))]


def parts_of(text):
    """The tables and paragraphs of a document, each under its headings; **Bold.** at its front is a heading too."""
    heads, found = {}, []
    text = re.sub(r"(?ms)^```.*?^```", "", text)
    text = re.sub(r"(?m)^([^|\n].*)\n(?=\|)", r"\1\n\n", text)
    for chunk in re.split(r"\n\s*\n", text):
        chunk = chunk.strip("\n")
        titled = re.match(r"(#+) (.*)", chunk)
        if titled:
            heads = {k: v for k, v in heads.items() if k < len(titled[1])} | {len(titled[1]): titled[2]}
            chunk = chunk.partition("\n")[2]
        if not chunk.strip() or chunk.startswith("    "):
            continue
        if chunk.lstrip().startswith("|"):
            lines = chunk.split("\n")
            found.append(Table(list(heads.values()), cells(lines[0]), [cells(line) for line in lines[2:]]))
            continue
        bold = re.match(r"\*\*(.+?)\.?\*\*", chunk)
        if bold:
            heads = {k: v for k, v in heads.items() if k < 9} | {9: bold[1]}
        found.append(Paragraph(list(heads.values()), chunk))
    return found


def carried(rows):
    """Rows whose first cell, where it is empty, is the one above."""
    first = ""
    for row in rows:
        first = row[0] or first
        yield [first] + row[1:]


def sentences(root):
    """Rows and paragraphs of the map, in order: (headings, names of the columns, cells)."""
    for part in parts_of(contents(os.path.join(root, "docs", "PROOFS.md"))):
        if isinstance(part, Paragraph):
            for item in re.split(r"\n(?=- |\d+\. )", part.text):
                yield part.part, [""], [re.sub(r"^(?:- |\d+\. )", "", item)]
        else:
            for row in carried(part.rows):
                yield part.part, part.head, row


def quoted(text):
    return re.findall(r"`([^`]+)`", text)


def path_of(token):
    """`value_ring::show(s, first, second, words)` without its arguments."""
    return token.split("(")[0]


def numbers_in(text):
    return list(dict.fromkeys(int(n) for n in re.findall(r"\d+", text)))


class Documents:
    def __init__(self, tree):
        root = tree.root
        self.tree = tree
        self.manual = parts_of(contents(os.path.join(root, "docs", "MANUAL.md")))
        self.evidence = parts_of(contents(os.path.join(root, "docs", "EVIDENCE.md")))
        self.headers = self.returned(root)
        self.replies = self.rows(self.manual, "call", "replies")
        self.functions = self.rows(self.manual, "function", "writes")
        self.causes = {int(row[0]): row[1] for row in self.rows(self.manual, "number", "cause") if row[0].isdigit()}
        self.calls = [self.call(row) for row in self.rows(self.manual, "call", "refusals")]

    @staticmethod
    def rows(parts, first, word):
        """The rows of the tables whose head begins so and has that word."""
        return [row for p in parts if isinstance(p, Table) and p.head[0] == first and word in " ".join(p.head[1:])
                for row in p.rows]

    @staticmethod
    def returned(root):
        """Of each function that a header declares the numbers that its comment gives."""
        found = {}
        folder = os.path.join(root, "include")
        for name in sorted(os.listdir(folder)) if os.path.isdir(folder) else []:
            text = contents(os.path.join(folder, name))
            for comment, function in re.findall(r"/\*((?:(?!\*/).)*)\*/\s*\n\w[\w ]*?\b(\w+)\(", text, re.DOTALL):
                returned = re.search(r"returns\s+(.*)", comment, re.DOTALL)
                found[function] = " ".join(re.sub(r"(?m)^ \*", "", returned[1]).split()) if returned else ""
        return found

    def call(self, row):
        tokens = quoted(row[0])
        from_c = quoted(row[1])
        title = re.sub(r"`([^`]+)`", lambda found: self.valued(found[1]), row[0])
        c = "link_survey_" + from_c[0] if from_c else ""
        if from_c and from_c[0] in self.headers:
            c = from_c[0]
        call = Call(title, [self.valued(token) for token in tokens], c, row[-1], numbers_in(row[-1]))
        last = {re.split(r"::|\.", path_of(token))[-1] for token in tokens}
        call.reply = "; ".join(r[1] for r in self.replies if self.fits(r, tokens) and
                               re.split(r"::|\.", path_of(quoted(r[0])[0]))[-1] in last)
        call.writes = "; ".join(r[1] for r in self.functions if path_of(quoted(r[0])[0]) == c)
        if c in self.headers:
            call.header = self.headers[c]
        self.measured(call)
        return call

    @staticmethod
    def fits(row, tokens):
        """A reply's row is about a call where the paths agree as far as both give them."""
        named = path_of(quoted(row[0])[0])
        return any("::" not in path_of(t) or path_of(t) == named for t in tokens)

    def valued(self, token):
        """The path of a call by value, from the manual's own table of calls; of a method the type that has it."""
        path = path_of(token)
        if "::" not in path and "." not in path:
            named = [path_of(q) for r in self.replies for q in quoted(r[0])[:1]]
            path = next((n for n in named if re.split(r"::|\.", n)[-1] == path), path)
        if "." in path:
            name = path.split(".")[-1]
            types = {q.split("::")[0] for r in self.replies for q in quoted(r[0]) if re.match(r"[A-Z]\w*::", q)}
            path = next((f"{t}::{name}" for t in sorted(types) if self.tree.functions(f"{t}::{name}")), path)
        return path

    def measured(self, call):
        """Rows of the evidence that name the call, and sentences of the manual that say what it costs."""
        said = call.c.replace("link_survey_", "").replace("_", " ")
        for part in self.evidence:
            if not isinstance(part, Table):
                continue
            for row in carried(part.rows):
                asked = part.head[0] in ("call", "calls", "question") and row[0].replace("-", " ")
                if f"`{call.c}`" in row[0] or asked and asked.removesuffix(" links") == said:
                    self.kept(call, part).append({"head": part.head, "row": row, "part": part.part[-1]})
        for part in self.manual:
            if not isinstance(part, Paragraph):
                continue
            named = [path_of(token) for token in quoted(part.text)]
            titled = part.part[-1].lower() in (said, "the " + said)
            if titled or any(path in named for path in call.value if "::" in path):
                text = " ".join(part.text.split())
                call.said += [s for s in re.split(r"(?<=[.])\s+(?=[A-Z`])", text) if COSTLY.search(s)]

    @staticmethod
    def kept(call, table):
        if "stack" in table.part[-1].lower():
            return call.stack
        timed = any(word in " ".join(table.head) for word in ("instructions", "time", "microseconds"))
        return call.costs if timed else call.tried

    def speeds(self):
        """The tables of the evidence about whole surveys."""
        return [p for p in self.evidence if isinstance(p, Table) and "speed" in " ".join(p.part).lower()]

    def common_costs(self):
        """What the manual says of the cost of every call: paragraphs and tables."""
        return [part for part in self.manual if part.part[-1].lower() == "costs"]
