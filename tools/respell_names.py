#!/usr/bin/env python3
"""Spells this repository's own definitions and lemmas as today's Rattle spells names.

usage: respell_names.py [--check] [ROOT]

Run once, right after the kit's port.py. A name that a module of specs/, or a file of lemmas in proofs/, declares turns:
a capital inside a word becomes `_` and a small letter; a dash becomes `_`, but stays after a type and between two names
that are declared themselves. A name stays as it is where its new spelling would meet another name. In a function's
Proof.antt the names that Rattle makes stay; so do Rust's names, strings and what stands behind a dot, but for a field
of a record of specs/. The must-fail edits are spelled alike.
"""

import collections
import os
import re
import sys

WORD = re.compile(r'[^\s(){}.;,@"«»\[\]]+')
DECLARED = re.compile(
    r"(?m)^( *)((?:(?:pub|abbrev|unfoldable|pattern|data|record|module|axiom) )*)([^\s(){}.;,@\"«»:]+)"
    r"(?: \{[^{}\n]*\})* *:(?=[ \n])"
)
LIBRARY = re.compile(r"use (?!Rattle\.(?!std\.|core\.))[^\n{]*\{([^}]*)\}", re.S)
# Words of std that a dash may join to a name of ours.
STD = set("length drop take set append map get_or replicate sum reverse fold eqb ltb leb cond".split())


def files(root, kinds):
    for folder, dirs, names in os.walk(os.path.join(root, "crates")):
        dirs[:] = sorted(d for d in dirs if d != "out")
        for name in sorted(names):
            if name.endswith(kinds):
                yield os.path.join(folder, name)


def no_comments(text):
    return re.sub(r'(?m)(?:^|(?<=[\s(]))--(?=[ \n]|$).*$', "", text)


def is_walk(path):
    return path.endswith("/Proof.antt")


def snake(part):
    part = re.sub(r"(?<=[a-z0-9])[A-Z]", lambda m: "_" + m[0].lower(), part)
    return part


def respelled(name, declared):
    if name[0].isupper():
        return name
    parts = name.split("-")
    out = snake(parts[0])
    old = parts[0]
    for part in parts[1:]:
        both = (old in declared or old in STD) and (part in declared or part in STD)
        out += ("-" if both else "_") + snake(part)
        old += "-" + part
    return out


def names(root):
    declared, fields, tokens, library = set(), set(), collections.Counter(), set()
    # What a parameter or a field of Rust hides, in the files that have the word.
    hidden = collections.defaultdict(set)
    for path in files(root, (".antt", ".rt")):
        text = open(path, encoding="utf-8").read()
        if path.endswith(".antt"):
            bare = no_comments(text)
            for m in WORD.finditer(bare):
                if bare[m.start() - 1 : m.start()] != ".":
                    tokens[m[0]] += 1
            for uses in LIBRARY.findall(bare):
                for it in uses.split(","):
                    library.update(it.strip().split(" as "))
            if not is_walk(path):
                for m in DECLARED.finditer(bare):
                    declared.add(m[3])
                for m in re.finditer(r"(?m)^( *)(?:pub )?record [^\n]*where\n((?:\1  +[^\n]*\n|\n)*)", bare):
                    for f in re.finditer(r"(?m)^ *(?:pub )?([^\s(){}.;,:]+) *:(?=[ \n])", m[2]):
                        fields.add(f[1])
        else:
            own = set(re.findall(r"\b(\w+)\s*:(?!:)", text))
            for word in set(WORD.findall(text)):
                hidden[word] |= own
    return declared, fields, tokens, library, hidden


def table(root):
    declared, fields, tokens, library, hidden = names(root)
    wanted = {}
    for name in sorted(declared):
        if not re.search(r"-|[a-z0-9][A-Z]", name) or name in library:
            continue
        if name[0].isupper():
            continue
        wanted[name] = respelled(name, declared)
    said = []
    # Where a definition and a lemma would have one name, the lemma ends in `_lem`.
    for name in sorted(declared):
        if name not in wanted and name in tokens and not name[0].isupper():
            wanted.setdefault(name, name)
    by_new = collections.defaultdict(list)
    for name, new in wanted.items():
        by_new[new].append(name)
    for new in sorted(by_new):
        group = sorted(by_new[new], key=lambda it: ("-" in it, "_" in it, it))
        if len(group) > 1:
            for other in group[1:]:
                wanted[other] = new + "_lem" + ("_" if wanted.get(new + "_lem") else "")
                said.append(f"met: {group[0]} is {new}, and {other} is {wanted[other]}")
    for name in sorted(wanted):
        new = wanted[name]
        if new != name and (new in library or new in hidden[name] or (new in tokens and new not in declared)):
            plain = new + "_lem" if "-" in name else name
            said.append(f"left: {name} would be {new}, which is another name; now {plain}")
            wanted[name] = plain
    return {a: b for a, b in wanted.items() if a != b}, fields, said


def made_names(text):
    """The names of Rattle's making that a walk by hand declares or cites."""
    out = set()
    for m in re.finditer(r"\btie\.(?:Need-)?([^\s(){}.;,]+)", text):
        out.add(m[1])
    out.update(re.findall(r"(?m)^pub ([^\s:]+-spec|[^\s:]+_spec) :", text))
    return out


def turn_antt(text, rows, fields, walk):
    keep = made_names(text) if walk else set()

    def code(part):
        def one(m):
            word = m[0]
            if word in keep:
                return word
            behind = m.start() > 0 and part[m.start() - 1] == "."
            if behind and walk:
                if word not in fields:
                    return word
            return rows.get(word, word)

        return WORD.sub(one, part)

    out = []
    for line in text.split("\n"):
        m = re.search(r"(?:^|(?<=[\s(]))--(?=[ \n]|$)", line)
        if m and '"' not in line[: m.start()]:
            head, tail = line[: m.start()], line[m.start() :]
            tail = re.sub(r"`[^`]*`", lambda s: code(s[0]), tail)
            tail = WORD.sub(lambda w: rows.get(w[0], w[0]) if re.search(r"[a-z][A-Z]", w[0]) else w[0], tail)
        else:
            head, tail = line, ""
        pieces = re.split(r'("(?:[^"\\]|\\.)*")', head)
        out.append("".join(p if i % 2 else code(p) for i, p in enumerate(pieces)) + tail)
    return "\n".join(out)


def turn_rust(text, rows):
    def clause(part):
        # A lemma that got `_lem` stands in no clause; a word of Rust may be spelled as it was.
        return WORD.sub(lambda m: m[0] if re.fullmatch(r"[a-z0-9_]+", m[0]) else rows.get(m[0], m[0]), part)

    out, at = [], 0
    n = len(text)
    heads = re.compile(r"ghost\s+use\b[^;]*;|(?:\b(?:requires|ensures|ghost)\b)[^{};]*\{|//[^\n]*|\"(?:[^\"\\]|\\.)*\"")
    while True:
        m = heads.search(text, at)
        if not m:
            out.append(text[at:])
            break
        out.append(text[at : m.start()])
        it = m[0]
        if it.startswith("//"):
            it = re.sub(r"`[^`]*`", lambda s: clause(s[0]), it)
            it = WORD.sub(lambda w: rows.get(w[0], w[0]) if re.search(r"[a-z][A-Z]", w[0]) else w[0], it)
            out.append(it)
            at = m.end()
        elif it.startswith('"'):
            out.append(it)
            at = m.end()
        elif it.startswith("ghost") and it.endswith(";"):
            out.append(clause(it))
            at = m.end()
        else:
            depth, i = 1, m.end()
            while i < n and depth:
                depth += {"{": 1, "}": -1}.get(text[i], 0)
                i += 1
            out.append(clause(text[m.start() : i]))
            at = i
    return "".join(out)


def main(argv):
    check = "--check" in argv
    rest = [a for a in argv if not a.startswith("--")]
    root = rest[0] if rest else "."
    rows, fields, said = table(root)
    print("\n".join(said))
    if check:
        for a in sorted(rows):
            print(f"{a}\t{rows[a]}")
    n = 0
    for path in files(root, (".antt", ".rt", ".edit")):
        text = open(path, encoding="utf-8").read()
        if path.endswith(".rt"):
            new = turn_rust(text, rows)
        elif path.endswith(".edit"):
            new = "\n".join(
                turn_antt(l, rows, fields, False) if re.match(r"(old|new):", l) else l for l in text.split("\n")
            )
        else:
            new = turn_antt(text, rows, fields, is_walk(path))
        if new != text:
            n += 1
            if not check:
                with open(path, "w", encoding="utf-8") as f:
                    f.write(new)
    print(f"{len(rows)} names, {n} files")


if __name__ == "__main__":
    main(sys.argv[1:])
