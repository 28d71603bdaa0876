#!/usr/bin/env python3
"""Counts the older forms in src/ that docs/DESIGN-PASS.md speaks of: forms.py [--at COMMIT] [--list POINT].

A place is one declaration, loop, call or function, found by its text alone; what stands in a comment does not count."""

import collections
import pathlib
import re
import subprocess
import sys

TOP = pathlib.Path(__file__).resolve().parent.parent

# Functions of this repository that std has, or an operator.
BY_HAND = (
    r"base_choice::(?:both|either|pick|one_if|least_of|greatest_of|difference|limited)\b"
    r"|std::num::wrapping_\w+"
    r"|\bu(?:8|16|32)::leading_zeros"
    r"|\bfn (?:lesser|greater|lower_of|higher_of|held|limited|sooner|less)\b"
)
INTEGERS = r"\b(?:u8|u16|u32|u64|i16|i32|usize)\b"


def sources(commit):
    """Each source file's name and text, of the checkout or of a commit."""
    if commit is None:
        for path in sorted(TOP.glob("crates/*/src/**/*.rt")):
            yield str(path.relative_to(TOP)), path.read_text()
        return
    names = subprocess.run(
        ["git", "-C", str(TOP), "ls-tree", "-r", "--name-only", commit, "crates"],
        capture_output=True, text=True, check=True,
    ).stdout.split("\n")
    for name in names:
        if re.fullmatch(r"crates/\w+/src/.*\.rt", name):
            shown = subprocess.run(
                ["git", "-C", str(TOP), "show", f"{commit}:{name}"], capture_output=True, text=True, check=True
            )
            yield name, shown.stdout


def answers(commit):
    """The text of each file of answers."""
    if commit is None:
        for path in sorted(TOP.glob("crates/*/proofs/**/Answers.antt")):
            yield str(path.relative_to(TOP)), path.read_text()
        return
    names = subprocess.run(
        ["git", "-C", str(TOP), "ls-tree", "-r", "--name-only", commit, "crates"],
        capture_output=True, text=True, check=True,
    ).stdout.split("\n")
    for name in names:
        if re.fullmatch(r"crates/\w+/proofs/.*Answers\.antt", name):
            shown = subprocess.run(
                ["git", "-C", str(TOP), "show", f"{commit}:{name}"], capture_output=True, text=True, check=True
            )
            yield name, shown.stdout


def code(text):
    """The text with each comment blanked, line by line."""
    return "\n".join(re.sub(r"//.*", "", line) for line in text.split("\n"))


def functions(text):
    """Each function of a text: where it begins, its name, what stands before its body, and its body."""
    for match in re.finditer(r"\bfn (\w+)", text):
        depth, at = 0, match.end()
        while at < len(text):
            c = text[at]
            if c in "([":
                depth += 1
            elif c in ")]":
                depth -= 1
            elif c == ";" and depth == 0:
                break
            elif c == "{" and depth == 0:
                before = text[match.end():at].rstrip()
                if not re.search(r"(?:requires|ensures)(?: \w+)?$", before):
                    break
                inner = 0
                while at < len(text):
                    inner += {"{": 1, "}": -1}.get(text[at], 0)
                    if inner == 0:
                        break
                    at += 1
            at += 1
        if at >= len(text) or text[at] == ";":
            continue
        end, inner = at, 0
        while end < len(text):
            inner += {"{": 1, "}": -1}.get(text[end], 0)
            if inner == 0:
                break
            end += 1
        yield match.start(), match.group(1), text[match.end():at], text[at:end + 1]


def parameters(head):
    """The parameters of a function, from what stands before its body."""
    at = head.find("(")
    depth, parts, last = 0, [], at + 1
    for i in range(at, len(head)):
        depth += {"(": 1, "[": 1, "<": 1, ")": -1, "]": -1, ">": -1}.get(head[i], 0)
        if depth == 1 and head[i] == ",":
            parts.append(head[last:i])
            last = i + 1
        if depth == 0:
            parts.append(head[last:i])
            break
    return [p.strip() for p in parts if p.strip()]


def places(commit):
    """The places of each point: point, what it is, file and line."""
    found = collections.defaultdict(list)
    shapes = collections.defaultdict(list)
    for name, text in sources(commit):
        plain = code(text)
        # Clauses and ghost items do not run: an equation there is no older form.
        def put(point, at, what):
            found[point].append((name, plain.count("\n", 0, at) + 1, what))

        for m in re.finditer(r"\benum (\w+) \{(.*?)\n\}", plain, re.S):
            if "Refused(" in m.group(2):
                put("1 own enums of the shape of Result", m.start(), m.group(1))
        for m in re.finditer(r"\bstruct (\w+)(?:<[^>]*>)? \{(.*?)\n\s*\}", plain, re.S):
            fields = re.findall(r"^\s*(?:pub(?:\(crate\))? )?(\w+): (.+?),$", m.group(2), re.M)
            if len(fields) > 1 and any(t == "bool" for _, t in fields):
                put("1 a flag beside a value", m.start(), m.group(1))
        for m in re.finditer(r"\bconst (\w+): u(?:8|32) = (?:0x)?[0-9A-F]+;", plain):
            put("1 numbers for kinds and refusals, by constants", m.start(), m.group(1))
        for at, fn, head, body in functions(plain):
            if 'extern "C"' in plain[max(0, at - 12):at]:
                continue
            if re.search(r"-> u(?:8|32)\b", head.split("{")[0].split("requires")[0].split("ensures")[0]) and re.search(
                r"refusal|number_of|_number\b", head
            ):
                put("1 functions that answer a refusal's number", at, fn)
            given = parameters(head)
            if len(given) > 6:
                put("5 functions of seven parameters and more", at, fn)
            names = [p.split(":")[0].replace("mut ", "").strip() for p in given]
            if {"units", "links", "ends"} <= set(names):
                put("5 unit count, link count and ends as three parameters", at, fn)
            if any("[u8]" in p or "[u16]" in p for p in given) and any(
                re.fullmatch(r"(?:at|end|place|first|count|places|spaces): usize", p) for p in given
            ):
                put("6 a slice with a place or a length beside it", at, fn)
            if body.count("\n") > 2:
                shape = re.sub(r"\b\d\w*\b", "#", re.sub(INTEGERS, "T", head.split("ensures")[0] + body))
                shapes[re.sub(r"\s+", " ", shape)].append((name, plain.count("\n", 0, at) + 1, fn))
        for m in re.finditer(r"^\s*while (.*) \{$", plain, re.M):
            point = "3 while loops" if "goes_on" not in m.group(1) else "3 loops over the rounds of a stage"
            put(point, m.start(1), m.group(1))
        for m in re.finditer(BY_HAND, plain):
            put("4 written by hand where std has it", m.start(), m.group(0))
        for m in re.finditer(r"\bmatch (\w*stage|kind|\w+\.stage) \{|\bif (?:\w+\.)?stage == \d", plain):
            put("7 a switch on the step or the kind", m.start(), m.group(0))
    for same in shapes.values():
        if len(same) > 1:
            found["2 functions that differ only in a type, a number or the name"].extend(same)
    for name, text in answers(commit):
        for m in re.finditer(r"^(?:abbrev )?pub \S+ : goal\.(\S+)", text, re.M):
            found["8 goals answered by hand"].append((name, text.count("\n", 0, m.start()) + 1, m.group(1)))
    return found


def main():
    words = sys.argv[1:]
    commit = words[words.index("--at") + 1] if "--at" in words else None
    point = words[words.index("--list") + 1] if "--list" in words else None
    found = places(commit)
    for what in sorted(found):
        if point is None:
            print(f"{len(found[what]):5} {what}")
        elif what.startswith(point):
            for name, line, text in found[what]:
                print(f"{name}:{line}: {text}")


if __name__ == "__main__":
    main()
