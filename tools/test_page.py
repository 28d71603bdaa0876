"""Tests of the planner's page: python3 tools/test_page.py

What a tap shows is tried in Chromium without a window, from Debian's package chromium; without it these tests are
skipped. What must be cut off is flooded here anew. What the page works out by itself, and taps on links for it, are
tried in Node where there is no Chromium.
"""
import glob
import html
import html.parser
import json
import os
import random
import re
import shutil
import subprocess
import tempfile
import unittest

import page
from limits import Limits
from losses import Losses
from page_rings import RINGS
from proposals import proposed
from survey_text import Site, read_site
from testing import streams, table_taken, taken, weak_by_removal

ROOT = os.path.dirname(os.path.dirname(os.path.abspath(__file__)))
NODE = shutil.which("node")
CHROMIUM = shutil.which("chromium") or shutil.which("chromium-browser")
PATIENCE = 120  # seconds for one start of the browser


def site_of(units, links):
    return Losses(
        Site(
            units,
            list(dict.fromkeys((min(pair), max(pair)) for pair in links)),
            [-127] * len(set(map(frozenset, links))),
        )
    )


def stored(name):
    path = sorted(glob.glob(os.path.join(ROOT, "crates", "check_vectors", "data", f"*_v_{name}.in")))[0]
    with open(path, "rb") as file:
        return Losses(read_site(file.read()))


def road():
    """A road with a side road, a ring, a piece apart and two units that hear nobody."""
    links = [(i, i + 1) for i in range(19)] + [(i, i + 2) for i in range(4, 12)] + [
        (7, 20), (20, 21), (21, 22), (22, 20), (24, 25), (25, 26)
    ]
    return site_of(29, links)


def flooded(losses, lost_unit=None, lost_link=None):
    """The units that a loss cuts off from the most of those that it was linked with: by flooding, from the links
    alone."""
    links = [pair for j, pair in enumerate(losses.site.links) if j != lost_link and lost_unit not in pair]
    near = {v: set() for v in range(losses.site.units)}
    for a, b in losses.site.links:
        near[a].add(b)
        near[b].add(a)
    after = {v: set() for v in range(losses.site.units)}
    for a, b in links:
        after[a].add(b)
        after[b].add(a)

    def around(start, ways):
        found, ahead = {start}, [start]
        while ahead:
            for w in ways[ahead.pop()] - found:
                found.add(w)
                ahead.append(w)
        return found

    start = lost_unit if lost_unit is not None else losses.site.links[lost_link][0]
    left = around(start, near) - {lost_unit}
    parts = []
    while left:
        parts.append(around(min(left), after))
        left -= parts[-1]
    # of two largest parts that are as large, the one with the lesser units counts as cut off
    parts.sort(key=lambda part: (len(part), sorted(part)))
    return [sorted(part) for part in parts[:-1]]


def wanted(losses):
    """What each loss cuts off, by its key."""
    found = {f"u{v}": flooded(losses, lost_unit=v) for v in range(losses.site.units)}
    found.update({f"l{j}": flooded(losses, lost_link=j) for j in range(len(losses.site.links))})
    return found


class Elements(html.parser.HTMLParser):
    """The elements of a page with their attributes, as a tree too, and its scripts' text."""

    def __init__(self, written):
        super().__init__()
        self.found, self.scripts, self.open = [], [], False
        self.tree, self.within = [], [-1]
        self.feed(written)

    def handle_starttag(self, tag, attributes):
        self.found.append((tag, dict(attributes)))
        whole = {name: value or "" for name, value in attributes}
        self.tree.append({"tag": tag, "attributes": whole, "parent": self.within[-1], "text": ""})
        if tag != "meta":
            self.within.append(len(self.tree) - 1)
        self.open = tag == "script"
        if self.open:
            self.scripts.append("")

    def handle_endtag(self, tag):
        self.open = False
        if self.within[-1] >= 0 and self.tree[self.within[-1]]["tag"] == tag:
            self.within.pop()

    def handle_data(self, data):
        if self.open:
            self.scripts[-1] += data
        if self.within[-1] >= 0:
            self.tree[self.within[-1]]["text"] += data

    def with_class(self, name, attribute):
        return {int(a[attribute]) for _, a in self.found if attribute in a and name in (a.get("class") or "").split()}


class Written(unittest.TestCase):
    """The page's text."""

    def test_nothing_from_a_network(self):
        for losses in road(), stored("case_b"), stored("full_256_1024"):
            written = page.html_of(losses, {1: "head N1"})
            for word in "http", "//", "@import", "url(", " src=":
                self.assertNotIn(word, re.sub(r"(?m)^\s*//.*$", "", written), word)
            self.assertFalse([tag for tag, _ in Elements(written).found if tag in ("link", "img", "iframe", "object")])

    def test_data(self):
        for name, losses in ("road", road()), ("case b", stored("case_b")), ("rings", stored("rings_at_points")), (
            "tree", stored("tree_256")
        ):
            with self.subTest(name):
                data = json.loads(Elements(page.html_of(losses)).scripts[0])
                self.assertEqual(data["units"], losses.site.units)
                self.assertEqual([tuple(pair) for pair in data["links"]], losses.site.links)
                self.assertEqual(data["cut"], {key: parts for key, parts in wanted(losses).items() if parts})

    def test_the_list_is_in_working_order(self):
        for losses in road(), stored("bridge_chain"), stored("tree_256"):
            cut = {key: sum(map(len, parts)) for key, parts in wanted(losses).items() if parts}
            found = [(tag, a) for tag, a in Elements(page.html_of(losses)).found if tag in ("li", "details")]
            keys = [a["data-key"] for tag, a in found if "data-key" in a]
            deaf = [f"u{part[0]}" for part in losses.groups if len(part) == 1]
            self.assertEqual(keys[: len(deaf)], deaf)
            self.assertEqual(sorted(keys[len(deaf) :]), sorted(cut))
            # the worst first: within a chain that is folded, and among chains and places
            folds = re.split(r'<li class="fold">|</details>', page.html_of(losses))
            for inner in folds[1::2]:
                counts = [cut[key] for key in re.findall(r'data-key="(\w+)"', inner)]
                self.assertEqual(counts, sorted(counts, reverse=True))
                self.assertIn(f"<summary><b>{counts[0]}</b> ", inner)
            top = re.sub(r'(?s)<details><summary>(.*?)</summary>.*?</details>', r"\1", page.html_of(losses))
            counts = [int(k) for k in re.findall(r"<b>(\d+)</b>", top)]
            self.assertEqual(counts, sorted(counts, reverse=True))

    def test_every_unit_and_link_can_be_tapped(self):
        for losses in road(), stored("full_256_1024"), stored("path_256"):
            found = Elements(page.html_of(losses)).found
            self.assertEqual({int(a["data-unit"]) for _, a in found if "data-unit" in a}, set(range(losses.site.units)))
            self.assertEqual(
                {int(a["data-link"]) for _, a in found if "data-link" in a}, set(range(len(losses.site.links)))
            )

    def test_names_cannot_break_it(self):
        losses = stored("case_b")
        written = page.html_of(losses, {2: "</script><b>&\"'", 3: "N3"})
        parsed = Elements(written)
        self.assertEqual(len(parsed.scripts), 2)
        self.assertEqual(json.loads(parsed.scripts[0])["names"], {"2": "</script><b>&\"'", "3": "N3"})
        self.assertEqual(written.count("</script>"), 2)

    def test_spares(self):
        """Where spares go stands in words, and on a drawing of its own on which nothing is tapped."""
        losses = road()
        found = proposed(losses, 2, Limits(), Losses)
        written = page.html_of(losses, {0: "head <N1>"}, None, found)
        sheets = [a["id"] for _, a in Elements(written).found if a.get("class") == "sheet"]
        self.assertEqual(sheets, ["whole", "spared"])
        spared = written[written.index('id="spared"') : written.index("<aside")]
        self.assertNotRegex(spared, r"data-(unit|link)=")
        self.assertIn(">S1</text>", spared)
        told = html.unescape(re.sub(r"<[^>]+>", " ", written[written.index('<div id="spares">') :]))
        for k, step in enumerate(found.steps, 1):
            self.assertRegex(told, rf"spare {k}, heard by units {step.heard_by[0]}\b.* and {step.heard_by[1]}\b")
        self.assertNotIn('id="spare', page.html_of(losses))

    def test_not_by_the_proved_program(self):
        self.assertIn("NOT BY THE PROVED PROGRAM", page.html_of(road(), proved=False))
        self.assertNotIn("PROVED", page.html_of(road()))

    def test_the_same_each_time(self):
        self.assertEqual(page.html_of(road()), page.html_of(road()))


class Worked(unittest.TestCase):
    """What the page works out by itself, against the answers of the proved programs check_rings and check_doubtful
    (crates/check_*/stdout) on all vectors; by Node or, where that is not there, by Chromium."""

    def worked_out(self, calls):
        """What the page's functions give for calls, each a function's name and its arguments; marks come as lists."""
        if not NODE and not CHROMIUM:
            self.skipTest("no Node and no Chromium here: apt-get install nodejs")
        body = """
          const marked = (x) => Array.isArray(x) ? new Set(x) : x;
          const given = (f, [units, links, ...more]) => f(units, links, ...more.map(marked));
          const found = calls.map(([name, ...rest]) => given({ringOf, verdictOf, doubtsOf}[name], rest));"""
        with tempfile.TemporaryDirectory(ignore_cleanup_errors=True) as folder:
            path = os.path.join(folder, "worked")
            if NODE:
                end = "console.log(JSON.stringify(found));"
                command = [NODE, path + ".js"]
                written = f"{RINGS}\nconst calls = {json.dumps(calls)};{body}{end}"
            else:
                end = 'document.body.textContent = JSON.stringify(found);'
                command = [CHROMIUM, "--headless", "--no-sandbox", "--disable-gpu", f"--user-data-dir={folder}/browser"]
                command += ["--virtual-time-budget=60000", "--dump-dom", f"file://{path}.html"]
                written = f"<body><script>{RINGS}\nconst calls = {json.dumps(calls)};{body}{end}</script></body>"
            with open(path + (".js" if NODE else ".html"), "w", encoding="utf-8") as file:
                file.write(written)
            said = subprocess.run(command, capture_output=True, timeout=PATIENCE, check=True).stdout.decode()
        return json.loads(said if NODE else html.unescape(re.search(r"<body>(.*)</body>", said, re.S)[1]))

    def questions(self, family):
        """The questions of each case of a family with the numbers that its program answers."""
        files, lines = streams(family)
        for cases, stream in files:
            for _ in range(cases):
                site = table_taken(stream)
                next(stream)
                marks = [k for k, mark in enumerate(taken(stream)) if mark] if family == "doubtful" else None
                places = 3 if marks is None else 2
                asked = [[next(stream) for _ in range(places)][:2] for _ in range(next(stream))]
                yield site, marks, list(zip(asked, map(int, next(lines).split())))

    def test_rings(self):
        calls, right = [], []
        for site, _, asked in self.questions("rings"):
            for (i, j), number in asked:
                if number < 2:
                    calls.append(["ringOf", site.units, site.links, i, j])
                    right.append((site, i, j, number))
        self.assertGreater(len(right), 10000)
        found = self.worked_out(calls)
        for (site, i, j, number), units in zip(right, found):
            self.assertEqual(bool(units), number == 1)
            if units:
                steps = {frozenset((units[k - 1], units[k])) for k in range(len(units))}
                self.assertTrue(len(set(units)) == len(units) >= 3 and steps <= set(map(frozenset, site.links)))
                self.assertTrue({frozenset(site.links[i]), frozenset(site.links[j])} <= steps)
                self.assertEqual(set(units[:2]), set(site.links[i]))

    def test_verdicts(self):
        calls, right = [], []
        for site, marks, asked in self.questions("doubtful"):
            for (i, j), number in asked:
                if number < 3:
                    calls.append(["verdictOf", site.units, site.links, i, j, marks])
                    right.append(("never", "perhaps", "always")[number])
        self.assertGreater(len(right), 10000)
        self.assertEqual(self.worked_out(calls), right)

    def test_weak_places(self):
        """Which places become weak: against every setting of the doubtful links of small sites, by removal."""
        calls, right = [], []
        for seed in range(40):
            pick = random.Random(seed)
            units = pick.randint(2, 7)
            pairs = [(a, b) for a in range(units) for b in range(a + 1, units)]
            links = pick.sample(pairs, min(len(pairs), pick.randint(1, units + 2)))
            marks = pick.sample(range(len(links)), min(len(links), pick.randint(0, 4)))
            seen = {}
            for setting in range(2 ** len(marks)):
                gone = {mark for k, mark in enumerate(marks) if setting >> k & 1}
                left = [link for k, link in enumerate(links) if k not in gone]
                weak = weak_by_removal(units, left)
                for v in range(units):
                    seen.setdefault(("units", v), set()).add(v in weak)
                for link in left:
                    seen.setdefault(("links", links.index(link)), set()).add(frozenset(link) in weak)
            wanted = {"always": {"units": [], "links": []}, "perhaps": {"units": [], "links": []}}
            for (kind, k), found in sorted(seen.items()):
                if True in found:
                    wanted["perhaps" if False in found else "always"][kind].append(k)
            calls.append(["doubtsOf", units, links, marks])
            right.append(wanted)
        self.assertEqual(self.worked_out(calls), right)


# taps everything, and writes down what each tap shows
DRIVER = """<script>
(async () => {
  const shown = {};
  const tap = (e) => e.dispatchEvent(new MouseEvent("click", {bubbles: true}));
  const held = (name, attribute) =>
    Array.from(new Set(Array.from(document.querySelectorAll("#whole ." + name + "[" + attribute + "]"),
                                  (e) => Number(e.getAttribute(attribute)))));
  const keys = TAPS;
  for (const key of keys) {
    const what = key[0] === "u" ? "data-unit" : "data-link";
    const e = document.querySelector("#whole [" + what + '="' + key.slice(1) + '"]');
    const changed = new Promise((done) => window.addEventListener("hashchange", done, {once: true}));
    tap(e.querySelector(".hit") || e.firstElementChild);
    await changed;
    shown[key] = {
      cut: held("cut", "data-unit"), lost: held("lost", "data-unit"),
      cutLinks: held("cut", "data-link"), lostLinks: held("lost", "data-link"), gone: held("gone", "data-link"),
      chosen: document.body.getAttribute("data-chosen"), said: document.getElementById("said").textContent,
      rows: Array.from(document.querySelectorAll("li.chosen"), (e) => e.getAttribute("data-key")),
      parts: Array.from(document.querySelectorAll("#whole [data-part]"),
                        (e) => [Number(e.getAttribute("data-unit")), Number(e.getAttribute("data-part"))]),
    };
  }
  const out = document.createElement("pre");
  out.id = "shown";
  out.textContent = JSON.stringify(shown);
  document.body.append(out);
})();
</script></body>"""


class Browser(unittest.TestCase):
    """A page in Chromium."""

    def setUp(self):
        folder = tempfile.TemporaryDirectory(ignore_cleanup_errors=True)
        self.addCleanup(folder.cleanup)
        self.folder = folder.name

    def browser(self, written, *options, fragment=""):
        """What the browser prints about a page."""
        path = os.path.join(self.folder, "page.html")
        with open(path, "w", encoding="utf-8") as file:
            file.write(written)
        command = [CHROMIUM, "--headless", "--no-sandbox", "--disable-gpu", f"--user-data-dir={self.folder}/browser"]
        command += ["--virtual-time-budget=20000", *options, f"file://{path}{fragment}"]
        return subprocess.run(command, capture_output=True, timeout=PATIENCE, check=True).stdout.decode()

    def opened(self, written, fragment="", *options):
        """The page's elements after its script ran."""
        return self.browser(written, *options, "--dump-dom", fragment=fragment)

    def told_by(self, written, script, *options, fragment=""):
        """What a script that runs in the page gives back."""
        say = 'const say = (what) => { document.getElementById("told").textContent = JSON.stringify(what); };'
        body = f'<pre id="told"></pre><script>(async () => {{ {say} {script} }})();</script></body>'
        dom = self.opened(written.replace("</body>", body), fragment, *options)
        return json.loads(html.unescape(re.search(r'<pre id="told">(.*?)</pre>', dom, re.S)[1]))


@unittest.skipUnless(CHROMIUM, "no Chromium here: apt-get install chromium")
class Tapped(Browser):
    """What losses show."""

    def test_legible_on_a_phone(self):
        """60 units with names on a screen 390 wide: digits are as high as in small print, and what is wider scrolls."""
        losses = site_of(60, [(v, v + 1) for v in range(59)] + [(v, v + 2) for v in range(0, 58, 4)])
        script = """
          const sheet = document.querySelector(".sheet");
          const texts = sheet.querySelectorAll("[data-unit] > text");
          const high = Array.from(texts, (e) => e.getBoundingClientRect().height);
          say({high: Math.min(...high), scrolls: sheet.scrollWidth > sheet.clientWidth,
               wide: document.documentElement.scrollWidth, screen: window.innerWidth});"""
        told = self.told_by(page.html_of(losses, {v: f"head {v}" for v in range(60)}), script, "--window-size=390,844")
        self.assertGreaterEqual(told["high"], 12)
        self.assertTrue(told["scrolls"])
        self.assertLessEqual(told["wide"], told["screen"])

    def test_by_key(self):
        """Tab reaches one unit of the drawing, arrows go on to every unit and link, Enter shows what its loss cuts
        off."""
        losses = stored("case_b")
        script = """
          const press = (key) =>
            document.activeElement.dispatchEvent(new KeyboardEvent("keydown", {key: key, bubbles: true}));
          const stops = Array.from(document.querySelectorAll("#whole [tabindex='0']"));
          const seen = [], shown = {};
          stops[0].focus();
          for (let k = 0; k < 8; k++) {
            const e = document.activeElement;
            const of = e.hasAttribute("data-unit") ? "data-unit" : "data-link";
            const key = of[5] + e.getAttribute(of);
            seen.push(key);
            const changed = new Promise((done) => window.addEventListener("hashchange", done, {once: true}));
            press("Enter");
            await changed;
            shown[key] = document.body.getAttribute("data-chosen");
            press("ArrowRight");
          }
          const label = document.querySelector("#whole [data-unit='2']").getAttribute("aria-label");
          const sheet = document.getElementById("whole").tabIndex;
          say({stops: stops.length, seen: seen, shown: shown, label: label, sheet: sheet});"""
        told = self.told_by(page.html_of(losses), script)
        self.assertEqual((told["stops"], told["sheet"]), (1, 0))
        self.assertEqual(told["seen"], ["u0", "u1", "u2", "u3", "l0", "l1", "l2", "l3"])
        self.assertEqual(told["shown"], {key: key for key in told["seen"]})
        self.assertEqual(told["label"], "unit 2: single point")

    @unittest.skipUnless(shutil.which("pdftotext"), "no pdftotext here: apt-get install poppler-utils")
    def test_printed_whole(self):
        """A road of 40 named units on paper: every name is there."""
        losses = site_of(40, [(v, v + 1) for v in range(39)])
        paper = os.path.join(self.folder, "paper.pdf")
        self.browser(page.html_of(losses, {v: f"head-{v}-end" for v in range(40)}), f"--print-to-pdf={paper}")
        said = subprocess.run(
            ["pdftotext", "-f", "1", "-l", "1", paper, "-"], capture_output=True, check=True
        ).stdout.decode()
        self.assertEqual({int(v) for v in re.findall(r"head-(\d+)-end", said)}, set(range(40)))

    def test_by_address(self):
        losses = road()
        written = page.html_of(losses)
        for fragment, key in ("#unit=7", "u7"), ("#link=2", "l2"), ("#unit=28", "u28"):
            with self.subTest(fragment):
                seen = Elements(self.opened(written, fragment))
                cut = {v for part in wanted(losses)[key] for v in part}
                self.assertEqual(seen.with_class("cut", "data-unit"), cut)
                self.assertEqual(seen.with_class("lost", "data-unit"), {int(key[1:])} if key[0] == "u" else set())
        seen = Elements(self.opened(written, "#unit=29"))
        self.assertEqual(seen.with_class("cut", "data-unit") | seen.with_class("lost", "data-unit"), set())

    def tapped(self, losses, keys):
        """What each tap of these shows, against the flooding."""
        dom = self.opened(page.html_of(losses).replace("</body>", DRIVER.replace("TAPS", json.dumps(keys))))
        shown = json.loads(
            re.search(r'<pre id="shown">(.*?)</pre>', dom, re.S)[1].replace("&gt;", ">").replace("&lt;", "<").replace(
                "&amp;", "&"
            )
        )
        self.assertEqual(list(shown), keys)
        links = losses.site.links
        for key, seen in shown.items():
            with self.subTest(key):
                k = int(key[1:])
                parts = flooded(losses, lost_unit=k) if key[0] == "u" else flooded(losses, lost_link=k)
                cut = {v for part in parts for v in part}
                self.assertEqual(set(seen["cut"]), cut)
                self.assertEqual(
                    {(v, n) for v, n in seen["parts"]}, {(v, n) for n, part in enumerate(parts, 1) for v in part}
                )
                self.assertEqual(seen["lost"], [k] if key[0] == "u" else [])
                self.assertEqual(seen["lostLinks"], [k] if key[0] == "l" else [])
                touched = {j for j, pair in enumerate(links) if cut & set(pair) and key != f"l{j}"}
                self.assertEqual(set(seen["cutLinks"]), touched)
                self.assertEqual(
                    set(seen["gone"]), {j for j, pair in enumerate(links) if key[0] == "u" and k in pair} - touched
                )
                self.assertEqual(seen["chosen"], key)
                self.assertEqual(
                    seen["rows"], [key] if parts or (key[0] == "u" and not any(k in pair for pair in links)) else []
                )
                self.assertEqual(bool(re.search(r"cuts off \d+ unit", seen["said"])), bool(parts), seen["said"])
                for v in cut if len(cut) < 4 else ():
                    self.assertRegex(seen["said"], rf"\b{v}\b")

    def test_every_unit_and_link_of_small_sites(self):
        for losses in road(), stored("case_b"), stored("rings_at_points"):
            self.tapped(
                losses, [f"u{v}" for v in range(losses.site.units)] + [f"l{j}" for j in range(len(losses.site.links))]
            )

    def test_256_units_with_1024_links(self):
        pick = random.Random(5)
        ring = [(i, (i + 1) % 240) for i in range(240)]
        links = set(map(frozenset, ring)) | {frozenset((i - 1 if i > 240 else 17, i)) for i in range(240, 256)}
        while len(links) < 1024:
            links.add(frozenset(pick.sample(range(240), 2)))
        losses = site_of(256, sorted(tuple(sorted(pair)) for pair in links))
        self.assertEqual((losses.site.units, len(losses.site.links), len(losses.unit_parts)), (256, 1024, 16))
        weak = [f"u{v}" for v in losses.unit_parts] + [f"l{j}" for j in losses.link_parts]
        self.tapped(losses, weak + ["u3", "u255", "l0"])

    def test_a_path_of_256(self):
        losses = stored("path_256")
        self.tapped(losses, [f"u{v}" for v in range(0, 256, 16)] + ["l0", "l128", "l254"])


PRESS = """
          const press = async (e) => {
            const changed = new Promise((done) => window.addEventListener("hashchange", done, {once: true}));
            e.dispatchEvent(new MouseEvent("click", {bubbles: true}));
            await changed;
          };
          const link = (j) => document.querySelector("#whole [data-link='" + j + "'] .hit");
"""


class Asked(Browser):
    """Rings and doubtful links by tap: in Chromium, or where that is not there in Node, with the page's elements as
    this test reads them."""

    def shown_by(self, written, script, fragment=""):
        """What a script that runs in the page gives back."""
        if CHROMIUM:
            return self.told_by(written, script, fragment=fragment)
        if not NODE:
            self.skipTest("no Chromium and no Node here: apt-get install chromium")
        parsed = Elements(written)
        path = os.path.join(self.folder, "page.json")
        with open(path, "w", encoding="utf-8") as file:
            page_script = parsed.scripts[-1]
            json.dump({"elements": parsed.tree, "script": page_script, "hash": fragment, "then": script}, file)
        command = [NODE, os.path.join(ROOT, "tools", "page_in_node.js"), path]
        return json.loads(subprocess.run(command, capture_output=True, timeout=PATIENCE, check=True).stdout)

    def test_rings_by_tap(self):
        """Two links tapped, one after the other: the ring that holds both, or none."""
        losses = stored("case_b")
        script = """
          await press(document.querySelector("[data-mode-of='ring']"));
          const found = [];
          for (const [i, j] of [[0, 1], [2, 2], [0, 3], [3, 3]]) {
            await press(link(i));
            await press(link(j));
            found.push([document.body.getAttribute("data-ring"), document.getElementById("said").textContent,
                        Array.from(document.querySelectorAll("#whole .onring[data-link]"),
                                   (e) => Number(e.getAttribute("data-link"))).sort()]);
          }
          await press(document.querySelector("[data-mode-of='loss']"));
          say({found: found, left: document.querySelectorAll(".onring, .picked").length,
               hash: location.hash, said: document.getElementById("said").textContent});"""
        told = self.shown_by(page.html_of(losses), PRESS + script)
        rings = [{int(v) for v in ring.split()} for ring, _, _ in told["found"]]
        self.assertEqual(rings, [{0, 1, 2}, {0, 1, 2}, set(), set()])
        self.assertEqual([links for _, _, links in told["found"]], [[0, 1, 2], [0, 1, 2], [], []])
        self.assertEqual(told["found"][2][1], "No ring holds link 0 (0-1) and link 3 (2-3).")
        self.assertEqual(told["found"][3][1], "No ring holds link 3 (2-3).")
        self.assertEqual((told["left"], told["said"]), (0, page.FIRST))

    def test_doubtful_links_by_tap(self):
        losses = stored("case_b")
        script = """
          const state = () => [document.body.getAttribute("data-perhaps"), location.hash,
            document.querySelectorAll("#whole .doubted").length, document.querySelectorAll("#whole .perhaps").length];
          await press(document.querySelector("[data-mode-of='doubtful']"));
          await press(link(1));
          const one = state(), words = document.getElementById("said").textContent;
          await press(link(0));
          const two = state();
          await press(link(1));
          await press(link(0));
          say({one: one, words: words, two: two, none: state()});"""
        told = self.shown_by(page.html_of(losses), PRESS + script)
        self.assertEqual([json.loads(told["one"][0]), *told["one"][1:]],
                         [{"units": [0], "links": [0, 2]}, "#doubtful=1", 1, 3])
        self.assertEqual(
            told["words"],
            "Doubtful: link 1 (1-2). Weak whatever is gone: unit 2; link 2-3. "
            "Weak where some are gone: unit 0; links 0-1, 0-2.",
        )
        self.assertEqual(told["two"][1:3], ["#doubtful=1,0", 2])
        self.assertEqual([json.loads(told["none"][0]), *told["none"][1:]],
                         [{"units": [], "links": []}, "#doubtful=", 0, 0])

    def test_by_address(self):
        script = """
          const on = (of) => Array.from(document.querySelectorAll("#whole .onring[" + of + "]"),
                                        (e) => Number(e.getAttribute(of))).sort();
          say([on("data-unit"), on("data-link")]);"""
        self.assertEqual(self.shown_by(page.html_of(stored("case_b")), script, "#ring=0,2"), [[0, 1, 2], [0, 1, 2]])
        self.assertEqual(self.shown_by(page.html_of(stored("case_b")), script, "#ring=0,3"), [[], []])
        self.assertEqual(self.shown_by(page.html_of(stored("case_b")), script, "#ring=99"), [[], []])


if __name__ == "__main__":
    unittest.main()
