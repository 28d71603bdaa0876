"""The page for audits: what the tree holds and what the documents say, as data, and the script that shows it."""
import json
import os
import re
from html import escape

import explore_rooms
from explore_docs import Documents, Table, carried, parts_of, sentences
from explore_links import Links, Reach, target
from explore_sources import Tree, contents

HERE = os.path.dirname(os.path.abspath(__file__))
FILES = ["explore.css", "explore_names.js", "explore_views.js", "explore_search.js"]


def file_data(file):
    """A file as data; of a block its kind and its lines: comment, name, body, end."""
    kinds = {"definition": "def", "law": "law", "record": "rec", "data": "dat", "function": "fn", "type": "typ"}
    blocks = {b.name: [kinds[b.kind], b.start, b.line, b.body, b.end, int(b.public)] for b in file.blocks.values()}
    return {"p": file.path, "t": "\n".join(file.lines), "d": blocks, "m": file.members}


def shown(links, part):
    return table_html(links, part) if isinstance(part, Table) else f"<p>{links.html(part.text)}</p>"


def table_html(links, table):
    rows = [f"<th>{links.html(cell)}</th>" for cell in table.head]
    body = "".join("<tr>" + "".join(f"<td>{links.html(cell)}</td>" for cell in row) + "</tr>" for row in table.rows)
    return f'<div class="wide"><table><tr>{"".join(rows)}</tr>{body}</table></div>'


def call_data(call, tree, links, reach):
    def function(path):
        found = tree.functions(path)
        return [target("f", file, block) for file, block in found]

    def rows(some):
        return [[links.html(entry["part"]), list(map(links.html, entry["head"])), list(map(links.html, entry["row"]))]
                for entry in some]

    value = [way for path in call.value for way in function(path)]
    from_c = function(call.c) if call.c else []
    blocks = [found for path in call.value + [call.c] if path for found in tree.functions(path)]
    code, definitions = {}, {}
    for file, block in blocks:
        code.update(reach.code(file, block))
        definitions.update(reach.definitions(file, block))
    return {"title": call.title, "value": value, "c": from_c, "cname": call.c, "said": links.html(call.refusals),
            "numbers": call.numbers, "reply": links.html(call.reply), "writes": links.html(call.writes),
            "header": escape(call.header), "stack": rows(call.stack), "costs": rows(call.costs),
            "tried": rows(call.tried), "words": list(map(links.html, call.said)), "code": reach.edits(code),
            "defs": reach.edits(definitions), "functions": len(code), "definitions": len(definitions)}


def holds(root):
    """What docs/ARCHITECTURE.md says that each crate holds, and may know."""
    found = {}
    for part in parts_of(contents(os.path.join(root, "docs", "ARCHITECTURE.md"))):
        if isinstance(part, Table) and part.head[0] == "crate":
            for row in carried(part.rows):
                for crate in re.findall(r"`(\w+)`", row[0]):
                    found[crate] = row[1:]
    return found


def idea(root, links):
    """docs/IDEA.md, its names linked and its drawings inside; each section begins with its heading."""
    path = os.path.join(root, "docs", "IDEA.md")
    if not os.path.exists(path):
        return []
    shown = []
    for chunk in re.split(r"\n\s*\n", contents(path).strip()):
        titled, drawn = re.match(r"#+ (.*)", chunk), re.match(r"!\[.*\]\((.*)\)", chunk)
        if titled:
            shown.append(f"<h3>{links.html(titled[1])}</h3>")
        elif drawn:
            svg = contents(os.path.join(root, "docs", drawn[1]))
            shown[-1] += '<div class="figure wide">' + re.sub(r' xmlns="[^"]*"', "", svg) + "</div>"
        elif chunk.startswith("*") and chunk.endswith("*"):
            shown[-1] += f"<p><i>{links.html(chunk[1:-1])}</i></p>"
        else:
            shown[-1] += f"<p>{links.html(chunk)}</p>"
    return shown


def data_of(root):
    tree = Tree(root)
    documents, links, reach = Documents(tree), Links(tree), Reach(tree)
    rooms, crates = explore_rooms.drawing(tree.needs)
    told = []
    for part, head, row in sentences(root):
        named = links.all(" ".join(row))
        told.append({"part": [links.html(p) for p in part[1:]], "head": list(map(links.html, head)),
                     "cells": list(map(links.html, row)), "n": named})
    behind = {}
    for way in {way for sentence in told for way in sentence["n"] if way.startswith("f/")}:
        key, name = way[2:].rsplit(".", 1)
        file = tree.code[key]
        behind[way] = reach.edits(reach.code(file, file.blocks[name]))
    calls = [call_data(call, tree, links, reach) for call in documents.calls]
    known = holds(root)
    return {
        "modules": {key: file_data(file) for key, file in tree.modules.items()},
        "code": {key: file_data(file) for key, file in tree.code.items()},
        "edits": {e.key: [e.said, e.file, e.line + 1, e.old, e.new, e.block] for e in tree.edits.values()},
        "crates": {name: {"needs": needs, "holds": links.html(known.get(name, [""])[0]), "proofs": tree.proofs[name]}
                   for name, needs in tree.needs.items()},
        "idea": idea(root, links), "rooms": crates, "drawing": rooms,
        "sentences": told, "behind": behind, "calls": calls,
        "causes": {number: links.html(cause) for number, cause in documents.causes.items()},
        "costs": [shown(links, part) for part in documents.common_costs()],
        "speeds": [[links.html(t.part[-1]), table_html(links, t)] for t in documents.speeds()],
    }


def html_of(root):
    """The page: one file that asks nothing of a network."""
    written = json.dumps(data_of(root), ensure_ascii=False, separators=(",", ":")).replace("</", "<\\/")
    style, *scripts = (contents(os.path.join(HERE, name)) for name in FILES)
    script = "\n".join(scripts)
    return f"""<!DOCTYPE html>
<html lang="en">
<head>
<meta charset="utf-8">
<meta name="viewport" content="width=device-width, initial-scale=1">
<title>Link survey: the proof, for audits</title>
<style>
{style}</style>
</head>
<body>
<header>
<h1><a href="#">Link survey: the proof</a></h1>
<input id="search" type="search" placeholder="a sentence, a name or a number" aria-label="search" autocomplete="off">
<nav><a href="#idea">idea</a> <a href="#sentences">sentences</a> <a href="#calls">calls</a>
<a href="#numbers">numbers</a> <a href="#rooms">rooms</a> <a href="#edits">edits</a></nav>
</header>
<main id="view"><noscript>This page is shown by its script.</noscript></main>
<script type="application/json" id="data">{written}</script>
<script>
{script}</script>
</body>
</html>
"""
