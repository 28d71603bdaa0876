"""Where the names in documents and contracts lead: addresses within the page, and the edits behind a call."""
import re
from html import escape

from explore_sources import WORD

NAMED = re.compile(rf"{WORD}(?:\.{WORD})?")


def target(kind, file, block):
    """The address of a name within the page: d for the logic, f for code."""
    return f"{kind}/{file.key}.{block.name}"


class Links:
    """What the names in a document stand for."""

    def __init__(self, tree):
        self.tree = tree
        self.records = {}
        for file in tree.modules.values():
            for block, member in file.pairs:
                self.records.setdefault(f"{block}.{member}", []).append((file, file.blocks[block]))

    def of(self, token):
        """The addresses that a quoted text leads to."""
        named = re.fullmatch(r"(\w+)/([A-Z][\w/]*)\.([^\s.]+)", token)
        if named and named[3] not in ("antt", "md"):
            found = self.tree.spec(*named.groups())
            return [target("d", *found)] if found else []
        if token in self.tree.edits:
            return ["e/" + token]
        if token in self.tree.needs:
            return ["k/" + token]
        file = re.fullmatch(r"crates/(\w+)/(specs|proofs|src)/([\w/]+)\.(?:antt|rt)", token)
        if file:
            return [("o/" if file[2] == "src" else "m/") + f"{file[1]}/{file[3]}"]
        if token in self.records:
            return [target("d", *self.records[token][0])]
        if re.fullmatch(r"\w+(?:::\w+)+(?:\(.*\))?|link_survey_\w+", token):
            return [target("f", *found) for found in self.tree.functions(token.split("(")[0])]
        return []

    def html(self, text):
        """A text of a document, its quoted names linked."""
        def quoted(found):
            said = escape(found[1])
            ways = self.of(found[1])
            return f'<a href="#{ways[0]}"><code>{said}</code></a>' if ways else f"<code>{said}</code>"

        def styled(part):
            part = re.sub(r"\*\*(.+?)\*\*", r"<b>\1</b>", escape(part, quote=False))
            return re.sub(r"(?<!\w)\*(\S[^*]*)\*", r"<i>\1</i>", part)

        parts = re.split(r"(`[^`]+`)", text)
        return "".join(re.sub(r"`([^`]+)`", quoted, part) if i % 2 else styled(part) for i, part in enumerate(parts))

    def all(self, text):
        return list(dict.fromkeys(way for token in re.findall(r"`([^`]+)`", text) for way in self.of(token)))


class Reach:
    """The edits that the code of a call, or the definitions of its contract, hold."""

    def __init__(self, tree):
        self.tree = tree
        self.placed = {}
        for edit in tree.edits.values():
            self.placed.setdefault(edit.block, []).append(edit.key)

    def edits(self, seen):
        return [key for block in seen for key in self.placed.get(block, [])]

    def code(self, file, block):
        """All functions that one may call, itself first."""
        seen, ahead = {}, [(file, block)]
        while ahead:
            one, inner = ahead.pop(0)
            key = f"{one.key}.{inner.name}"
            if key not in seen:
                seen[key] = None
                ahead += self.tree.called(one, inner)
        return seen

    def definitions(self, file, block):
        """All definitions that a contract is made of."""
        seen, ahead = {}, list(self.cited(file, "\n".join(file.lines[block.line : block.body])))
        while ahead:
            one, inner = ahead.pop(0)
            key = f"{one.key}.{inner.name}"
            if key not in seen and one.path.endswith(".antt"):
                seen[key] = None
                ahead += self.cited(one, "\n".join(one.lines[inner.line : inner.end]))
        return seen

    def cited(self, file, text):
        for word in dict.fromkeys(NAMED.findall(re.sub(r"--.*|//.*", "", text))):
            front, _, back = word.partition(".")
            if back and front in file.aliases:
                found = self.tree.spec(*file.aliases[front], back)
            elif front in file.uses:
                found = self.tree.spec(*file.uses[front])
            else:
                found = (file, file.blocks[front]) if file.path.endswith(".antt") and front in file.blocks else None
            if found:
                yield found
