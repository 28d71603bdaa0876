"""Tests of the page for audits: python3 tools/test_explore.py

What the page must show is read here anew from the sources. What a tap and a search lead to is tried in Chromium without
a window, from Debian's package chromium; without it these tests are skipped.
"""
import glob
import html
import json
import os
import re
import shutil
import subprocess
import sys
import tempfile
import time
import unittest

import explore_page
import explore_rooms
from explore_sources import Tree

ROOT = os.path.dirname(os.path.dirname(os.path.abspath(__file__)))
CHROMIUM = shutil.which("chromium") or shutil.which("chromium-browser")
PATIENCE = 120  # seconds for one start of the browser


def contents(*path):
    with open(os.path.join(ROOT, *path), encoding="utf-8") as file:
        return file.read()


def data_in(page):
    return json.loads(re.search(r'(?s)<script type="application/json" id="data">(.*?)</script>', page)[1])


def refusals():
    """Of each function for C the numbers that the manual's table of calls gives, in order."""
    found, inside = {}, False
    for line in contents("docs", "MANUAL.md").split("\n"):
        cells = [cell.strip() for cell in line.strip().strip("|").split("|")]
        inside = line.startswith("|") and (inside or "refusals" in cells[-1])
        if inside and re.fullmatch(r"`\w+`", cells[1]):
            found["link_survey_" + cells[1].strip("`")] = [int(n) for n in re.findall(r"\d+", cells[-1])]
    return found


def first_sentence():
    """A row of the map whose second cell names a definition: its text, the name, and the line that declares it."""
    for row in contents("docs", "PROOFS.md").split("\n"):
        named = re.search(r"^\| ([^|`]+) \|[^|]*`((\w+)/([A-Z]\w*)\.([\w-]+))`", row)
        path = named and os.path.join(ROOT, "crates", named[3], "specs", named[4] + ".antt")
        if path and os.path.exists(path):
            for line in contents(path).split("\n"):
                if re.match(rf"\s*(?:abbrev |unfoldable )?pub (?:record |data )?{re.escape(named[5])}\s", line):
                    return named[1], named[2], line
    return None


class Made(unittest.TestCase):
    @classmethod
    def setUpClass(cls):
        with tempfile.TemporaryDirectory() as folder:
            path = os.path.join(folder, "out", "page.html")
            began = time.monotonic()
            command = [sys.executable, os.path.join(ROOT, "tools", "explore"), path]
            subprocess.run(command, check=True, capture_output=True)
            cls.seconds = time.monotonic() - began
            with open(path, encoding="utf-8") as file:
                cls.page = file.read()
        cls.data = data_in(cls.page)

    def test_soon_and_small(self):
        self.assertLess(self.seconds, 10)
        self.assertLess(len(self.page.encode()), 6_000_000)

    def test_nothing_from_a_network(self):
        shell = re.sub(r'(?s)<script type="application/json".*?</script>', "", self.page)
        for word in "http", "@import", "url(", " src=", "<link", "fetch(", "XMLHttp":
            self.assertNotIn(word, shell)

    def test_every_crate_and_file(self):
        crates = re.findall(r"(?m)^(\w+)(?: \w+)?:", contents("crates.txt"))
        self.assertEqual(list(self.data["crates"]), crates)
        for part, ending, held in ("specs", "antt", "modules"), ("src", "rt", "code"):
            paths = glob.glob(os.path.join(ROOT, "crates", "*", part, "**", "*." + ending), recursive=True)
            if held == "modules":
                theorems = glob.glob(os.path.join(ROOT, "crates", "*", "proofs", "[A-Z]*.antt"))
                paths += [path for path in theorems if os.path.basename(path) != "Lib.antt"]
            found = {file["p"] for file in self.data[held].values()}
            self.assertEqual({os.path.relpath(path, ROOT) for path in paths}, found)
            for file in self.data[held].values():
                self.assertEqual(file["t"], contents(file["p"]).rstrip("\n"))

    def test_every_public_name(self):
        begins = r"(?m)^ *(?:abbrev |unfoldable )?pub (?:record |data )?((?!record |data |mod )[^\s:]+)(?= *[:({]| *$)"
        count = 0
        for file in self.data["modules"].values():
            for name in re.findall(begins, re.sub(r"--.*", "", file["t"])):
                count += 1
                self.assertTrue(name in file["d"] or name in file["m"], f"{file['p']}: {name}")
        self.assertGreater(count, 1000)

    def test_blocks_are_whole(self):
        """A name's lines begin with its comment and hold its declaration; what follows them begins something else."""
        for file in list(self.data["modules"].values()) + list(self.data["code"].values()):
            lines = file["t"].split("\n")
            for name, (kind, start, line, body, end, _) in file["d"].items():
                self.assertTrue(start <= line < end and line <= body <= end, f"{file['p']}: {name}")
                self.assertIn(name.split("::")[-1], lines[line])
                self.assertTrue(all(re.match(r"\s*(--|//|#\[)", above) for above in lines[start:line]))
                if kind != "fn" and end < len(lines) and lines[end].strip():
                    before = len(lines[line]) - len(lines[line].lstrip())
                    self.assertLessEqual(len(lines[end]) - len(lines[end].lstrip()), before, f"{file['p']}: {name}")

    def test_every_name_of_the_map_leads_somewhere(self):
        text = contents("docs", "PROOFS.md")
        shown = html.unescape(" ".join(cell for s in self.data["sentences"] for cell in s["cells"]))
        for token in set(re.findall(r"`(\w+/[A-Z]\w*\.[^`\s.]+|\w+/must-fail/\w+)`", text)):
            if not token.endswith((".antt", ".md")):
                self.assertTrue(re.search(rf'<a href="#[^"]+"><code>{re.escape(token)}</code></a>', shown), token)

    def test_every_edit(self):
        paths = glob.glob(os.path.join(ROOT, "crates", "*", "must-fail", "*.edit"))
        self.assertEqual(len(paths), len(self.data["edits"]))
        for key, (said, path, line, old, new, _) in self.data["edits"].items():
            written = contents("crates", key + ".edit")
            self.assertTrue(written.startswith(said) and old in written and new in written)
            self.assertEqual(contents(path).split("\n")[line - 1].count(old.split("\n")[0]), 1, key)

    def test_calls(self):
        """Every function of the header is a call, with its contract and the manual's numbers in order."""
        header = "".join(map(open_text, sorted(glob.glob(os.path.join(ROOT, "include", "*.h")))))
        declared = set(re.findall(r"(?m)^\w[\w ]*\b(link_survey_\w+)\(", header))
        declared.remove("link_survey_version")  # it takes nothing and refuses nothing
        told = {call["cname"]: call for call in self.data["calls"]}
        self.assertEqual(set(told), declared)
        wanted = refusals()
        self.assertEqual(set(wanted), declared)
        for name, call in told.items():
            with self.subTest(name):
                self.assertEqual(call["numbers"], list(dict.fromkeys(wanted[name])))
                self.assertTrue(call["c"] and call["value"])
                self.assertTrue(set(map(str, call["numbers"])) <= set(self.data["causes"]))
                for way in call["c"] + call["value"]:
                    key, function = way[2:].split(".", 1)
                    _, _, line, body, _, _ = self.data["code"][key]["d"][function]
                    self.assertIn("ensures", "\n".join(self.data["code"][key]["t"].split("\n")[line:body]))

    def test_the_idea(self):
        """The proof in words is there, section by section, each drawing in its place and each name linked."""
        sections = re.split(r"(?m)^#+ ", contents("docs", "IDEA.md"))[1:]
        self.assertEqual(len(self.data["idea"]), len(sections))
        for shown, written in zip(self.data["idea"], sections):
            self.assertIn(html.escape(written.split("\n")[0], quote=False), shown)
            self.assertEqual(shown.count("<svg"), written.count("]("))
            for name in re.findall(r"`(\w+/[A-Z]\w*\.(?!md`)[^`\s.]+)`", written):
                self.assertTrue(re.search(rf'<a href="#d/[^"]+"><code>{re.escape(name)}</code>', shown), name)

    def test_stack_is_the_evidence(self):
        evidence = contents("docs", "EVIDENCE.md").split("## Stack", 1)[1].split("\n## ", 1)[0]
        figures = dict(re.findall(r"(?m)^\| `(link_survey_\w+)` \| ([\d,]+) \|", evidence))
        self.assertTrue(figures)
        for call in self.data["calls"]:
            shown = [row[2][1] for row in call["stack"]]
            self.assertEqual(shown, [figures[call["cname"]]] if call["cname"] in figures else [])

    def test_an_edit_is_behind_the_calls_that_it_breaks(self):
        """Where an edit stands in a function that is itself the contract's, the call has it."""
        for key, (_, _, _, _, _, block) in self.data["edits"].items():
            for call in self.data["calls"]:
                if "f/" + block in call["value"] + call["c"]:
                    self.assertIn(key, call["code"])


def open_text(path):
    with open(path, encoding="utf-8") as file:
        return file.read()


class Rooms(unittest.TestCase):
    def test_every_line_goes_up(self):
        needs = Tree(ROOT).needs
        home, edges = explore_rooms.parts(needs)
        level = explore_rooms.levels(edges)
        for crate, below in needs.items():
            for other in below:
                self.assertTrue(home[crate] == home[other] or level[home[crate]] > level[home[other]])

    def test_a_room_above_and_below(self):
        needs = {"one_a": [], "two_a": ["one_a"], "one_b": ["two_a"], "two_b": ["one_a"]}
        home, _ = explore_rooms.parts(needs)
        self.assertNotEqual(home["one_a"], home["one_b"])
        self.assertEqual(home["two_a"], home["two_b"])

    def test_lines_that_follow_are_left_out(self):
        edges = {"a": set(), "b": {"a"}, "c": {"a", "b"}}
        self.assertEqual(sorted(explore_rooms.direct(edges)), [("b", "a"), ("c", "b")])


SMALL = {
    "crates.txt": "# two crates\nlow_lists:\nhigh_calls: low_lists\n",
    "crates/low_lists/specs/Sums.antt": "-- what is added up\nabbrev pub total : ℕ → ℕ\ntotal n = n\n\n"
    "module _ (n : ℕ) where\n  pub total-same : total n ≡ n\n  total-same = refl\n",
    "crates/high_calls/src/lib.rt": "ghost use Rattle.low_lists.specs.Sums.{total};\n\n"
    "// Adds.\npub fn add(n: u16) -> u16\n    ensures { result ≡ total n }\n{\n    n\n}\n\n"
    "// For C.\npub extern \"C\" fn link_survey_add(n: u16) -> u16\n    ensures { result ≡ total n }\n"
    "{\n    add(n)\n}\n",
    "crates/high_calls/must-fail/one_more.edit": "One more.\nfile: src/lib.rt\nold:     add(n)\nnew:     add(n) + 1\n",
    "docs/PROOFS.md": "# Map\n\n## Sums\n\n| sentence | kept by |\n|---|---|\n"
    "| sums are sums | `low_lists/Sums.total-same`, `high_calls::add` |\n",
    "docs/MANUAL.md": "# Manual\n\n| call | not refused, it replies |\n|---|---|\n| `high_calls::add(n)` | n |\n\n"
    "| call | from C: `link_survey_` | refusals, in this order |\n|---|---|---|\n| `add` | `add` | 31 7 |\n\n"
    "| number | cause |\n|---|---|\n| 7 | odd |\n| 31 | large |\n",
    "docs/EVIDENCE.md": "# Evidence\n",
    "docs/ARCHITECTURE.md": "# House\n\n| crate | what it holds |\n|---|---|\n| `low_lists` | sums |\n",
    "include/small.h": "/*\n * returns  31, 7, or 0.\n */\nuint16_t link_survey_add(uint16_t n);\n",
}


class Small(unittest.TestCase):
    """A tree of other crates: nothing of the page stands in the tool."""

    def setUp(self):
        folder = tempfile.TemporaryDirectory()
        self.addCleanup(folder.cleanup)
        for name, text in SMALL.items():
            path = os.path.join(folder.name, name)
            os.makedirs(os.path.dirname(path), exist_ok=True)
            with open(path, "w", encoding="utf-8") as file:
                file.write(text)
        self.data = data_in(explore_page.html_of(folder.name))

    def test_sentence(self):
        told = [s for s in self.data["sentences"] if "sums are sums" in s["cells"]]
        self.assertEqual([s["n"] for s in told], [["d/low_lists/Sums.total-same", "f/high_calls/lib.add"]])
        self.assertEqual(self.data["modules"]["low_lists/Sums"]["d"]["total"][:2], ["def", 0])
        self.assertEqual(self.data["modules"]["low_lists/Sums"]["d"]["total-same"][:1], ["law"])

    def test_call(self):
        (call,) = self.data["calls"]
        self.assertEqual((call["value"], call["c"]), (["f/high_calls/lib.add"], ["f/high_calls/lib.link_survey_add"]))
        self.assertEqual((call["numbers"], call["header"]), ([31, 7], "31, 7, or 0."))
        self.assertEqual(call["code"], ["high_calls/must-fail/one_more"])
        self.assertEqual((call["stack"], call["costs"], call["definitions"]), ([], [], 1))


@unittest.skipUnless(CHROMIUM, "no Chromium here: apt-get install chromium")
class Browsed(unittest.TestCase):
    """The page in a browser."""

    @classmethod
    def setUpClass(cls):
        cls.page = explore_page.html_of(ROOT)

    def run_in(self, steps, wide=1100):
        """What steps, a script that ends with done(..), find in the page."""
        with tempfile.TemporaryDirectory(ignore_cleanup_errors=True) as folder:
            script = """<script>const wait = () => new Promise((next) => setTimeout(next, 400));
const tap = async (found) => { found.click(); await wait(); };
const one = (what, text) => Array.from(document.querySelectorAll(what)).find((e) => e.textContent.includes(text));
const done = (found) => { const told = document.createElement("pre"); told.id = "told";
  told.textContent = JSON.stringify(found); document.body.replaceChildren(told); };
(async () => { try { %s } catch (fault) { done({ fault: String(fault) }); } })();</script>"""
            path = os.path.join(folder, "page.html")
            with open(path, "w", encoding="utf-8") as file:
                file.write(self.page.replace("</body>", script % steps + "</body>"))
            command = [CHROMIUM, "--headless", "--no-sandbox", "--disable-gpu", f"--user-data-dir={folder}/browser"]
            command += [f"--window-size={wide},900", "--virtual-time-budget=60000", "--dump-dom", f"file://{path}"]
            written = subprocess.run(command, capture_output=True, timeout=PATIENCE, check=True).stdout.decode()
        told = re.search(r'(?s)<pre id="told">(.*?)</pre>', written)
        self.assertTrue(told, "the page's script did not end")
        return json.loads(html.unescape(told[1]))

    def test_a_sentence_leads_to_its_definition(self):
        said, name, line = first_sentence()
        found = self.run_in(f"""
await tap(one("nav a", "sentences"));
const card = one("section", {json.dumps(said)});
await tap(Array.from(card.querySelectorAll("a")).find((a) => a.textContent === "with its sources"));
const told = document.getElementById("view").textContent;
await tap(one("h3 a", {json.dumps(name)}));
done({{ told, shown: document.querySelector("section pre").textContent, hash: decodeURIComponent(location.hash) }});""")
        self.assertNotIn("fault", found)
        self.assertIn(said, found["told"])
        self.assertIn(line, found["told"])
        self.assertIn(line, found["shown"])
        self.assertEqual(found["hash"], "#d/" + name)

    def test_a_name_leads_through_crates(self):
        """From a contract to a definition that it cites, and on to one that this one uses from another crate."""
        ways = ["#" + way for call in data_in(self.page)["calls"] for way in call["c"]]
        found = self.run_in(f"""
const logic = () => Array.from(document.querySelectorAll("section pre a"))
  .filter((a) => a.getAttribute("href").startsWith("#d/"));
const crate = (way) => way.split("/")[1];
for (const way of {json.dumps(ways)}) {{
  location.hash = way;
  await wait();
  const cited = logic()[0];
  await tap(cited);
  const first = decodeURIComponent(location.hash);
  const on = logic().find((a) => crate(a.getAttribute("href")) !== crate(first));
  if (!on) continue;
  await tap(on);
  const shown = document.querySelector("section pre").textContent;
  done({{ name: cited.textContent, first, on: decodeURIComponent(location.hash), shown }});
  break;
}}""")
        self.assertNotIn("fault", found)
        self.assertTrue(found["first"].endswith("." + found["name"].split(".")[-1]))
        crate, module, name = re.fullmatch(r"#d/(\w+)/([\w/]+?)\.(.+)", found["on"]).groups()
        self.assertIn(found["shown"].split("\n")[0], contents("crates", crate, "specs", module + ".antt"))
        self.assertIn(name, found["shown"])

    def test_a_number_leads_to_every_call_that_gives_it(self):
        wanted = {}
        for function, numbers in refusals().items():
            for number in numbers:
                wanted.setdefault(str(number), set()).add(function)
        found = self.run_in(f"""
const shown = {{}};
for (const number of {json.dumps(sorted(wanted))}) {{
  const box = document.getElementById("search");
  box.focus();
  box.value = number;
  box.dispatchEvent(new Event("input"));
  await wait();
  shown[number] = Array.from(document.querySelectorAll("#giving li > code")).map((c) => c.textContent);
}}
await tap(document.querySelector("#giving a"));
const numbers = document.querySelectorAll("a.number").length;
done({{ shown, heading: document.querySelector("h2").textContent, numbers }});""")
        self.assertNotIn("fault", found)
        shown = {number: {c for c in some if c.startswith("link_survey_")} for number, some in found["shown"].items()}
        self.assertEqual(shown, wanted)
        self.assertTrue(found["heading"] and found["numbers"])

    def test_search_by_name_and_by_words(self):
        said, name, _ = first_sentence()
        found = self.run_in(f"""
const ask = async (text) => {{
  const box = document.getElementById("search");
  box.value = text;
  box.dispatchEvent(new Event("input"));
  await wait();
  return document.getElementById("view").textContent;
}};
const asked = [await ask({json.dumps(name)}), await ask({json.dumps(said)}), await ask("zzqx zzqy")];
done({{ name: asked[0], words: asked[1], none: asked[2] }});""")
        self.assertNotIn("fault", found)
        self.assertIn(name, found["name"])
        self.assertIn(said, found["words"])
        self.assertIn("Nothing found", found["none"])

    def test_it_fits_a_phone(self):
        found = self.run_in("""
const wide = {};
for (const hash of ["", "idea", "sentences", "calls", "c/0", "numbers", "rooms", "edits", "s/20"]) {
  location.hash = hash;
  await wait();
  wide[hash] = document.documentElement.scrollWidth - document.documentElement.clientWidth;
}
done(wide);""", wide=500)
        self.assertNotIn("fault", found)
        self.assertEqual({hash: over for hash, over in found.items() if over > 0}, {})

    def test_it_prints(self):
        with tempfile.TemporaryDirectory(ignore_cleanup_errors=True) as folder:
            path = os.path.join(folder, "page.html")
            with open(path, "w", encoding="utf-8") as file:
                file.write(self.page)
            command = [CHROMIUM, "--headless", "--no-sandbox", "--disable-gpu", f"--user-data-dir={folder}/browser"]
            command += ["--virtual-time-budget=20000", f"--print-to-pdf={folder}/page.pdf", f"file://{path}#c/0"]
            subprocess.run(command, capture_output=True, timeout=PATIENCE, check=True)
            with open(os.path.join(folder, "page.pdf"), "rb") as file:
                printed = file.read()
        self.assertTrue(printed.startswith(b"%PDF"))
        self.assertGreaterEqual(len(re.findall(rb"/Type\s*/Page\b", printed)), 2)


if __name__ == "__main__":
    unittest.main()
