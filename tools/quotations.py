"""Quotations of definitions and theorems in a document: kept equal to the source, with their line numbers.

A quotation is a line that names the file and its lines, an empty line and a block of code. It is found again by its
first line up to the name that is declared, and has as many lines at the depth of the first one as it had.
"""
import os
import re

import counts

QUOTATION = re.compile(r"(?ms)^`(crates/[\w./]+)`, lines? (\d+)(?: to (\d+))?:\n\n```\n(.*?)\n```$")


def depth(line):
    return len(line) - len(line.lstrip())


def head_of(line):
    """The words of a declaration up to its name: `pub record Claim`, `pub step-countdown :`."""
    words = re.match(r"\s*(?:(?:abbrev|unfoldable|pub|record|data) )*\S+(?=[\s:]|$)", line)
    return words[0] if words else line


def outer_lines(lines):
    return sum(bool(line.strip()) and depth(line) == depth(lines[0]) for line in lines)


def extent(lines, first, outer):
    """Where the declaration at a line ends: at an empty line, one less deep, or past so many at its own depth."""
    end = first
    while end < len(lines) and lines[end].strip() and depth(lines[end]) >= depth(lines[first]):
        if outer_lines(lines[first : end + 1]) > outer:
            break
        end += 1
    return end


def found_again(lines, said):
    """The first line and the end of what was quoted, as it stands now; nothing where it is not there once."""
    head = head_of(said[0])
    starts = [at for at, line in enumerate(lines) if head_of(line) == head]
    if len(starts) > 1:
        starts = [at for at in starts if lines[at] == said[0]]
    if len(starts) != 1:
        return None
    return starts[0], extent(lines, starts[0], outer_lines(said))


def renewed(text):
    def quotation(match):
        path, first, last, said = match.groups()
        source = os.path.join(counts.ROOT, path)
        if not os.path.exists(source):
            return match[0]
        lines = counts.contents(source).split("\n")
        if lines[int(first) - 1 : int(last or first)] == said.split("\n"):
            return match[0]
        place = found_again(lines, said.split("\n"))
        if place is None:
            return match[0]
        start, end = place
        where = f"line {end}" if end == start + 1 else f"lines {start + 1} to {end}"
        return f"`{path}`, {where}:\n\n```\n" + "\n".join(lines[start:end]) + "\n```"

    return QUOTATION.sub(quotation, text)
