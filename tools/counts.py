"""What can be counted in the repository, for the marked blocks that tools/figures writes."""
import ast
import glob
import os
import re
import struct

ROOT = os.path.dirname(os.path.dirname(os.path.abspath(__file__)))
ARCHIVE = os.path.join(ROOT, "crates", "survey_c", "out", "libsurvey_c.a")


class Unknown(Exception):
    """Why something cannot be counted here."""


def number(count):
    return f"{count:,}"


def table(head, rows):
    lines = [head, ["---"] * len(head), *rows]
    return "".join("| " + " | ".join(map(str, line)) + " |\n" for line in lines).replace(" --- ", "---")


def contents(path, encoding="utf-8"):
    with open(path, encoding=encoding) as file:
        return file.read()


def found(*pattern):
    return sorted(glob.glob(os.path.join(ROOT, *pattern), recursive=True))


def crates():
    """The crates of crates.txt, each with what it stands on; a word behind a name says what kind of crate it is."""
    lines = contents(os.path.join(ROOT, "crates.txt")).splitlines()
    halves = [line.split(":", 1) for line in lines if line and line[0] != "#"]
    return {name.split()[0]: words.split() for name, words in halves}


def edges():
    """Dependencies of a crate on another one of the repository."""
    listed = crates()
    return sum(word in listed for words in listed.values() for word in words)


def under(name):
    """The crates of the repository that a crate stands on, at any depth."""
    listed = crates()
    seen, ahead = set(), [name]
    while ahead:
        new = {word for word in listed[ahead.pop()] if word in listed} - seen
        seen |= new
        ahead += new
    return seen


def programs():
    return [name for name in sorted(crates()) if found("crates", name, "src", "main.rt")]


def edits():
    return found("crates", "*", "must-fail", "*.edit")


def lines_of(*pattern):
    return sum(contents(path).count("\n") for path in found(*pattern))


def python_tests():
    """Methods test_.. of classes in tools/test_*.py."""
    trees = [ast.parse(contents(path)) for path in found("tools", "test_*.py")]
    classes = [node for tree in trees for node in tree.body if isinstance(node, ast.ClassDef)]
    methods = [item for node in classes for item in node.body if isinstance(item, ast.FunctionDef)]
    return sum(item.name.startswith("test") for item in methods)


def rust_tests():
    paths = found("evidence", "src", "**", "*.rs") + found("evidence", "tests", "**", "*.rs")
    return sum(len(re.findall(r"(?m)^\s*#\[test\]$", contents(path))) for path in paths)


def wrong_libraries():
    faults = contents(os.path.join(ROOT, "evidence", "tests", "faults.rs"))
    return sum(map(int, re.findall(r"\[Fault; (\d+)\]", faults)))


def header_calls():
    header = contents(os.path.join(ROOT, "include", "link_survey.h"))
    return len(re.findall(r"(?m)^\w[\w ]* \*?link_survey_\w+\(", header))


def report_vectors():
    """Files of the report's vectors: all, those that are not refused, those with a link line of kind 03."""
    inputs = found("crates", "check_vectors", "data", "*.in")
    valid = sum(not contents(path[:-3] + ".out").startswith("1E") for path in inputs)
    levels = sum("\n03" in contents(path, "latin-1") for path in inputs)
    return len(inputs), valid, levels


def last_change():
    """When a file under crates/ was last written."""
    times = []
    for folder, inner, names in os.walk(os.path.join(ROOT, "crates")):
        # what rt makes
        inner[:] = [name for name in inner if name != "out"]
        times += [os.stat(os.path.join(folder, name)).st_mtime for name in names]
    return max(times)


def archive_sizes(path=ARCHIVE):
    """Bytes of machine code, of constants and of words that begin as 0, over the objects of an archive."""
    with open(path, "rb") as file:
        data = file.read()
    assert data[:8] == b"!<arch>\n", path + " is no archive"
    sizes, at = [0, 0, 0], 8
    while at < len(data):
        size = int(data[at + 48 : at + 58])
        member = data[at + 60 : at + 60 + size]
        if member[:4] == b"\x7fELF":
            sizes = [old + new for old, new in zip(sizes, section_sizes(member))]
        at += 60 + size + size % 2
    return sizes


def section_sizes(member):
    """The same of one object for a 64-bit machine, by the flags of its sections."""
    allocated, executable, no_bits = 2, 4, 8
    (first,) = struct.unpack_from("<Q", member, 40)
    each, count = struct.unpack_from("<HH", member, 58)
    code = constants = zeros = 0
    for section in range(count):
        kind, flags = struct.unpack_from("<IQ", member, first + section * each + 4)
        (size,) = struct.unpack_from("<Q", member, first + section * each + 32)
        if not flags & allocated:
            continue
        if flags & executable:
            code += size
        elif kind == no_bits:
            zeros += size
        else:
            constants += size
    return code, constants, zeros
