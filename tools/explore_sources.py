"""What stands in the tree: crates, the names that modules declare, functions with their contracts, edits.

Everything is found from crates.txt and the folders of the crates; a block is a range of lines, counted from 0.
"""
import glob
import os
import re
from dataclasses import dataclass, field

WORD = r"[^\W\d][\w'?₀-₉]*(?:-[\w'?₀-₉]+)*"  # a name of the logic
SIGNATURE = re.compile(rf"(abbrev |unfoldable )?(pub )?({WORD}|◌\S+◌)(?: \{{[^}}]*\}})*\s+:(?=\s|$)")
PLAIN = re.compile(r"(?:→|:) (?:ℕ|ℤ|Bool|List .*|Option .*|Type 0)$")  # what a definition gives
GROUP = re.compile(rf"(pub )?(record|data) ({WORD})")
MEMBER = re.compile(rf"\s*(?:pub )?({WORD})\s+:(?=\s|$)")
USE = re.compile(r"(?:ghost )?use Rattle\.(\w+?)\.(?:specs|proofs)\.([\w.]+?)(?:\.\{(.*)\})?(?: as ([\w-]+))?;?$")
FUNCTION = re.compile(r'(\s*)(pub )?(?:pub\(crate\) )?(extern "C" )?fn (\w+)')
TYPE = re.compile(r"(pub )?(?:pub\(crate\) )?(struct|enum|const) (\w+)")
CODE_USE = re.compile(r"(?:pub(?:\(crate\))? )?use ([\w:]+)::(\w+);$")
CALLED = re.compile(r"(?:(\w+(?:::\w+)*)::|(\.))?(\b[a-z]\w*)\(")


@dataclass
class Block:
    """A declared name: its lines with the comment above it, and where its first equation stands."""

    name: str
    kind: str  # definition, record, data, law, function, type
    start: int
    line: int
    body: int
    end: int
    public: bool = True


@dataclass
class File:
    """A module of definitions (.antt) or a file of code (.rt)."""

    crate: str
    name: str
    path: str
    lines: list
    blocks: dict = field(default_factory=dict)  # by name
    members: dict = field(default_factory=dict)  # a field or constructor, and the first block that has it
    pairs: list = field(default_factory=list)  # each block with each of its fields or constructors
    uses: dict = field(default_factory=dict)  # a name used here: (crate, module, name)
    aliases: dict = field(default_factory=dict)  # a module used here by name: (crate, module)
    imports: dict = field(default_factory=dict)  # a name of code used here: its path

    @property
    def key(self):
        return f"{self.crate}/{self.name}"

    def text(self, block):
        return "\n".join(self.lines[block.start : block.end])


@dataclass
class Edit:
    """A change that a crate's check must refuse."""

    key: str
    said: str
    file: str
    old: str
    new: str
    line: int
    block: str = ""  # the name whose lines it changes


def contents(path):
    with open(path, encoding="utf-8") as file:
        return file.read()


def indent(line):
    return len(line) - len(line.lstrip())


def commented(lines, at, mark):
    """Where the comment right above a line begins."""
    while at > 0 and lines[at - 1].lstrip().startswith(mark):
        at -= 1
    return at


def uses_of(lines, file):
    for line in lines:
        found = USE.match(line.strip())
        if not found:
            continue
        crate, module, names, alias = found.groups()
        module = module.replace(".", "/")
        if names is None:
            file.aliases[alias or module.split("/")[-1]] = (crate, module)
            continue
        for name in filter(None, (part.strip() for part in names.split(","))):
            one, _, other = name.partition(" as ")
            file.uses[other or one] = (crate, module, one)


def opened(lines, at):
    """Of the section that a line `module ..` opens: the line that ends with `where`, and the indent of what follows."""
    while not lines[at].rstrip().endswith("where"):
        at += 1
    inner = next((line for line in lines[at + 1 :] if line.strip()), "")
    return at, indent(inner)


def module_of(crate, name, path, relative):
    """The names of a module, those in its sections too; what stands under `where` is no name of it."""
    lines = contents(path).rstrip("\n").split("\n")
    file = File(crate, name, relative, lines)
    uses_of(lines, file)
    depth, last, starts, passed = [0], None, [], -1
    for i, line in enumerate(lines):
        if i <= passed or not line.strip() or line.lstrip().startswith("--"):
            continue
        while indent(line) < depth[-1]:
            depth.pop()
        if indent(line) > depth[-1]:
            if last and last.kind in ("record", "data") and last.end == 0:
                member(file, last, line)
            continue
        rest = line.strip()
        if rest.startswith("module "):
            passed, inner = opened(lines, i)
            depth.append(max(inner, depth[-1] + 1))
            last = None
            continue
        last = begun(lines, i, rest, last, starts)
    close(file, lines, starts)
    return file


def member(file, block, line):
    found = MEMBER.match(line)
    if found:
        file.members.setdefault(found[1], block.name)
        file.pairs.append((block.name, found[1]))


def signature(lines, at):
    """The type of a name, its lines as one."""
    end = at + 1
    while end < len(lines) and lines[end].strip() and indent(lines[end]) > indent(lines[at]):
        end += 1
    return " ".join(line.strip() for line in lines[at:end])


def begun(lines, i, rest, last, starts):
    """The block that a line begins, or the one that it goes on with."""
    group, signed = GROUP.match(rest), SIGNATURE.match(rest)
    if group:
        starts.append(Block(group[3], group[2], commented(lines, i, "--"), i, i, 0, bool(group[1])))
    elif signed:
        kind = "definition" if signed[1] or PLAIN.search(signature(lines, i)) else "law"
        starts.append(Block(signed[3], kind, commented(lines, i, "--"), i, 0, 0, bool(signed[2])))
    elif last and last.body == 0:
        last.body = i
        return last
    else:
        return last
    return starts[-1]


def close(file, lines, starts):
    """Each block ends before the next one's comment, a section's line or a blank line that no deeper line follows."""
    for block, after in zip(starts, starts[1:] + [None]):
        end = block.line + 1
        stop = after.start if after else len(lines)
        base = indent(lines[block.line])
        while end < stop and not (lines[end].strip() and indent(lines[end]) < base):
            if lines[end].strip().startswith("module ") and indent(lines[end]) == base:
                break
            end += 1
        while end > block.line + 1 and (not lines[end - 1].strip() or lines[end - 1].lstrip().startswith("--")):
            end -= 1
        block.end, block.body = end, block.body or end
        if block.kind in ("record", "data"):
            block.body = end
        file.blocks.setdefault(block.name, block)


def code_of(crate, name, path, relative):
    """The functions and types of a file of code; a method is named with its type."""
    lines = contents(path).rstrip("\n").split("\n")
    file = File(crate, name, relative, lines)
    uses_of(lines, file)
    inside = ""
    for i, line in enumerate(lines):
        held = re.match(r"impl(?:<[^>]*>)? (\w+)", line)
        inside = held[1] + "::" if held else "" if line.startswith("}") else inside
        taken = CODE_USE.match(line)
        if taken:
            file.imports[taken[2]] = f"{taken[1]}::{taken[2]}"
        found, named = FUNCTION.match(line), TYPE.match(line)
        if found:
            head = next((k for k in range(i, len(lines)) if lines[k].strip() == "{" or lines[k].endswith(" {")), i)
            end = next((k for k in range(head, len(lines)) if lines[k].rstrip() == found[1] + "}"), head) + 1
            start = commented(lines, attributed(lines, i), "//")
            file.blocks[inside + found[4]] = Block(inside + found[4], "function", start, i, head, end, bool(found[2]))
        elif named:
            end = i + 1 if line.rstrip().endswith(";") else next(k for k in range(i, len(lines)) if lines[k] == "}") + 1
            start = commented(lines, attributed(lines, i), "//")
            file.blocks[named[3]] = Block(named[3], "type", start, i, end, end, bool(named[1]))
    return file


def attributed(lines, at):
    while at > 0 and lines[at - 1].lstrip().startswith("#["):
        at -= 1
    return at


def edit_of(path, crate, root):
    written = contents(path)
    parts = re.match(r"(.*?)^file: *(.*?)\n+old: ?(.*?)\n+new: ?(.*)\Z", written, re.MULTILINE | re.DOTALL)
    said, file, old, new = (part.strip("\n") for part in parts.groups())
    source = contents(os.path.join(root, "crates", crate, file))
    line = source.count("\n", 0, source.find(old)) if old in source else -1
    name = os.path.splitext(os.path.basename(path))[0]
    return Edit(f"{crate}/must-fail/{name}", said, f"crates/{crate}/{file}", old, new, line)


class Tree:
    """All of it."""

    def __init__(self, root):
        self.root = root
        self.needs = {}
        for line in contents(os.path.join(root, "crates.txt")).split("\n"):
            found = re.match(r"(\w+)[^:#]*:(.*)", line)
            if found:
                self.needs[found[1]] = found[2].split()
        self.needs = {name: [d for d in needs if d in self.needs] for name, needs in self.needs.items()}
        self.modules, self.code, self.edits, self.proofs = {}, {}, {}, {}
        for crate in self.needs:
            self.read(crate)
        for edit in self.edits.values():
            self.place(edit)

    def read(self, crate):
        home = os.path.join(self.root, "crates", crate)
        kinds = ("specs", ".antt", module_of, self.modules), ("src", ".rt", code_of, self.code)
        for part, ending, made, kept in kinds:
            base = os.path.join(home, part)
            for path in sorted(glob.glob(os.path.join(base, "**", "*" + ending), recursive=True)):
                name = os.path.relpath(path, base)[: -len(ending)].replace(os.sep, "/")
                file = made(crate, name, path, os.path.relpath(path, self.root))
                kept[file.key] = file
        # theorems of their own; a folder of proofs/ is a function's
        for path in sorted(glob.glob(os.path.join(home, "proofs", "[A-Z]*.antt"))):
            name = os.path.basename(path)[: -len(".antt")]
            if name != "Lib":
                file = module_of(crate, name, path, os.path.relpath(path, self.root))
                self.modules[file.key] = file
        for path in sorted(glob.glob(os.path.join(home, "must-fail", "*.edit"))):
            edit = edit_of(path, crate, self.root)
            self.edits[edit.key] = edit
        proofs = glob.glob(os.path.join(home, "proofs", "**", "*.antt"), recursive=True)
        self.proofs[crate] = (len(proofs), sum(contents(path).count("\n") for path in proofs))

    def place(self, edit):
        """Which name's lines an edit changes."""
        for file in list(self.modules.values()) + list(self.code.values()):
            if file.path == edit.file:
                inner = [b for b in file.blocks.values() if b.start <= edit.line < b.end]
                if inner:
                    edit.block = f"{file.key}.{min(inner, key=lambda b: b.end - b.start).name}"

    def spec(self, crate, module, name):
        """The module and block that a name of the logic stands for; a field stands for its record."""
        if module.startswith("declared"):
            return self.declared(crate, name)
        file = self.modules.get(f"{crate}/{module}")
        if not file:
            return None
        name = file.members.get(name, name) if name not in file.blocks else name
        return (file, file.blocks[name]) if name in file.blocks else None

    def declared(self, crate, name):
        """A type of code that definitions use."""
        for file in self.code.values():
            if file.crate == crate and name in file.blocks:
                return file, file.blocks[name]
        return None

    def functions(self, path, near=None):
        """The functions that a path of code may mean: crate::f, crate::file::f, Type::f, or file::f near a file."""
        parts = path.split("::")
        if parts[0] in ("crate", "super", "self") and near:
            return self.functions("::".join([near.crate] + parts[1:]), near)
        if parts[0] in self.needs:
            return self.within(parts[0], parts[1:])
        found = self.within(near.crate, parts) if near else []
        return found or [(f, f.blocks[path]) for f in self.code.values() if path in f.blocks]

    def within(self, crate, parts):
        """Functions of one crate by the rest of a path; what its first file hands on from elsewhere too."""
        for depth in range(len(parts)):
            file = self.code.get(f"{crate}/{'/'.join(parts[:depth]) or 'lib'}")
            name = "::".join(parts[depth:])
            if file and name in file.blocks:
                return [(file, file.blocks[name])]
            if file and name in file.imports and file.imports[name] != name:
                return self.functions(file.imports[name], file)
        files = [f for f in self.code.values() if f.crate == crate]
        whole, last = "::".join(parts), parts[-1] if parts else ""
        return [(f, f.blocks[n]) for n in (whole, last) for f in files if n in f.blocks and f.blocks[n].public][:1]

    def called(self, file, block):
        """The functions that the body of one may call, by their names."""
        body = re.sub(r"//.*", "", "\n".join(file.lines[block.body : block.end]))
        for path, method, name in set(CALLED.findall(body)):
            if method:
                yield from self.methods(file, name)
            elif path:
                path = path.replace("Self", block.name.split("::")[0])
                yield from self.functions(f"{path}::{name}", file)
            elif name in file.blocks:
                yield file, file.blocks[name]
            elif name in file.imports:
                yield from self.functions(file.imports[name], file)

    def methods(self, file, name):
        """Methods of that name in this crate and those that it stands on."""
        for other in self.code.values():
            if other.crate == file.crate or other.crate in self.needs[file.crate]:
                for block in other.blocks.values():
                    if block.kind == "function" and block.name.endswith("::" + name):
                        yield other, block
