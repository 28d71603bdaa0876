"""Tests of tools/check and of the gate: python3 tools/test_check.py

Both are run in a small tree of their own, where `rt`, `cargo` and the compilers are scripts that do as a test says, on
a path that has nothing else but the usual tools.
"""
import os
import re
import shutil
import subprocess
import sys
import tempfile
import unittest

ROOT = os.path.dirname(os.path.dirname(os.path.abspath(__file__)))
USUAL = """awk basename cat chmod cp cut date dirname env find grep head ls mkdir mktemp readlink rm sed sh sort tail
tee timeout touch tr uname uniq wc xargs""".split()

# each script writes down that it was called
CALLED = '#!/bin/sh\necho "$(basename "$0") $*" >>"$CALLS"\n'
RT = """case $1 in
lib)
    mkdir -p out && echo "${BAD_ARCHIVE:-}" >out/lib$(basename "$PWD").a
    exit ${BAD_ARCHIVE:-0}
    ;;
ci)
    echo 'rt: base proved (1 s)'
    echo "rt: ok; handles allowed: none; must-fail edits: 3 refused${BAD_EDITS:-}; some, 4 bad words"
    echo "${LAST:-7 passed, 0 failed}"
    exit ${BAD_PROOF:-0}
    ;;
esac
"""
# it stands beside rt, and is asked which files are not laid out
RATTLE = '[ "$1 $2" = "fmt --check" ] || exit 2\nexit ${BAD_FORMAT:-0}\n'
# as many tests as the files named have, less those that are left out
CARGO = """[ "$1" = --version ] && { echo "cargo ${VERSION:-1.95.0} (0123 2026-01-01)"; exit 0; }
[ "$1" = run ] && exit ${BAD_SEARCH:-0}
for word; do
    [ -f "tests/$word.rs" ] || continue
    count=$(grep -c test] "tests/$word.rs")
    echo 'load 1us, all pairs 9us, ratio 0.0041'
    echo "test result: ok. $((count - ${UNSEEN:-0})) passed; 0 failed; 0 ignored"
    case " ${BAD_TESTS:-} " in *" $word "*) exit 101 ;; esac
done
"""
COMPILER = """case "$*" in
*-std=c23*) exit 1 ;;
*-Wconversion*) exit ${BAD_HEADER:-0} ;;
*examples*) exit ${BAD_EXAMPLE:-0} ;;
esac
"""
PASSING = '"""Tests of nothing: python3 tools/test_{0}.py"""\nimport unittest\n\n\nclass A(unittest.TestCase):\n'
PASSING += "    def test_one(self):\n        pass\n\n\nunittest.main()\n"
COMPILERS = "cc", "gcc", "clang", "g++", "clang++"
FILES = {
    "crates.txt": "",
    "crates/a/src/lib.rt": "",
    "crates/survey_c/src/lib.rt": "",
    "include/link_survey.h": "",
    "examples/a.c": "",
    "evidence/Cargo.toml": 'rust-version = "1.88"\n',
    "evidence/src/lib.rs": "",
    "evidence/tests/faults.rs": "#[test]\n",
    "evidence/tests/repeats.rs": "#[test]\n",
    "evidence/tests/cases.rs": "#[test]\nfn a() {}\n    #[test]\n",
    "tools/figures": "import os\nimport sys\nprint('2 blocks hold')\nsys.exit(int(os.environ.get('BAD_FIGURES', 0)))\n",
    "tools/test_quick.py": "# needs no build\n" + PASSING.format("quick"),
    "tools/test_slow.py": PASSING.format("slow"),
}


class Tree(unittest.TestCase):
    def setUp(self):
        folder = tempfile.TemporaryDirectory()
        self.addCleanup(folder.cleanup)
        self.root = os.path.join(folder.name, "tree")
        self.path = os.path.join(folder.name, "path")
        self.calls = os.path.join(folder.name, "calls")
        for name, text in FILES.items():
            self.write(name, text)
        for name in "tools/check", ".ci/run":
            os.makedirs(os.path.dirname(os.path.join(self.root, name)), exist_ok=True)
            shutil.copy(os.path.join(ROOT, name), os.path.join(self.root, name))
        os.mkdir(self.path)
        for name in filter(shutil.which, USUAL):
            os.symlink(shutil.which(name), os.path.join(self.path, name))
        self.script("rt", RT)
        self.script("rattle", RATTLE)

    def write(self, name, text):
        path = os.path.join(self.root, name)
        os.makedirs(os.path.dirname(path), exist_ok=True)
        with open(path, "w", encoding="utf-8") as file:
            file.write(text)

    def script(self, name, text):
        path = os.path.join(self.path, name)
        with open(path, "w", encoding="utf-8") as file:
            file.write(CALLED + text)
        os.chmod(path, 0o755)

    def equip(self):
        """Everything is installed."""
        self.script("cargo", CARGO)
        for name in COMPILERS:
            self.script(name, COMPILER)
        os.symlink(sys.executable, os.path.join(self.path, "python3"))

    def run_in(self, command, **said):
        """The exit status of a command, the outcome and the words of each group, and all lines."""
        given = {"PATH": self.path, "CALLS": self.calls, "HOME": self.root, **said}
        words = [os.path.join(self.root, command[0]), *command[1:]]
        done = subprocess.run(words, env=given, capture_output=True, text=True, timeout=600, check=False)
        groups = re.findall(r"(?m)^(passed|failed|skipped) +(\S+) +\d+ s  (.*)$", done.stdout)
        return done.returncode, {name: (outcome, why) for outcome, name, why in groups}, done.stdout.splitlines()

    def check(self, *words, **said):
        return self.run_in(["tools/check", *words], **said)


class Check(Tree):
    def setUp(self):
        super().setUp()
        self.equip()

    def test_all_pass(self):
        status, groups, lines = self.check()
        self.assertEqual(status, 0)
        self.assertEqual({outcome for outcome, _ in groups.values()}, {"passed"})
        self.assertEqual(lines[-1], f"tools/check: {len(groups)} groups passed, 0 failed, 0 skipped")
        self.assertEqual(groups["plain_version"][1], "2 tests")
        self.assertEqual(groups["test_slow"][1], "1 tests")
        self.assertIn("0.0041 of a plain loop", groups["repeated_link"][1])
        self.assertIn("gcc: c99 c11 c17 c2x", groups["header"][1])
        _, _, listed = self.check("--list")
        self.assertEqual({line.split()[0] for line in listed}, set(groups))

    def test_an_archive_that_fails(self):
        """By rt's own word, or since it took too long: 124."""
        for status_of_rt in "1", "124":
            with self.subTest(status_of_rt):
                status, groups, _ = self.check(BAD_ARCHIVE=status_of_rt)
                self.assertEqual((status, groups["archive"][0]), (1, "failed"))
                self.assertEqual(groups["differences"], ("skipped", "no archive of survey_c from these sources"))

    def test_each_failure(self):
        self.check("archive")
        for said, group in (
            ({"BAD_FORMAT": "1"}, "format"),
            ({"BAD_FIGURES": "1"}, "figures"),
            ({"BAD_HEADER": "1"}, "header"),
            ({"BAD_EXAMPLE": "1"}, "header"),
            ({"BAD_TESTS": "cases"}, "plain_version"),
            ({"BAD_TESTS": "faults"}, "wrong_libraries"),
            ({"BAD_TESTS": "repeats"}, "repeated_link"),
            ({"BAD_SEARCH": "1"}, "differences"),
        ):
            with self.subTest(said):
                self.assertEqual(self.check(group)[0], 0)
                status, groups, lines = self.check(group, **said)
                self.assertEqual((status, groups[group][0]), (1, "failed"))
                self.assertIn(f"---- {group} failed; the end of target/check/{group}.log:", lines)
                self.assertEqual(lines[-1], "tools/check: 0 groups passed, 1 failed, 0 skipped")

    def test_a_test_that_did_not_run(self):
        """A feature that is missing leaves a test out, and cargo says nothing."""
        status, groups, _ = self.check("archive", "repeated_link", UNSEEN="1")
        self.assertEqual(status, 1)
        self.assertEqual(groups["repeated_link"][0], "failed")
        self.assertIn("0 tests; there are 1", groups["repeated_link"][1])

    def test_a_failing_python_test(self):
        self.write("tools/test_new.py", PASSING.format("new").replace("pass", "self.fail()"))
        status, groups, _ = self.check("test_new", "test_slow")
        self.assertEqual((status, groups["test_new"][0], groups["test_slow"][0]), (1, "failed", "passed"))

    def test_a_file_without_tests(self):
        self.write("tools/test_new.py", '"""Nothing"""\n')
        status, groups, _ = self.check("test_new")
        self.assertEqual((status, groups["test_new"]), (1, ("failed", "no test ran")))

    def test_skipped_tests_are_named(self):
        text = PASSING.format("new").replace("pass", 'self.skipTest("no browser here")')
        self.write("tools/test_new.py", text)
        status, groups, _ = self.check("test_new")
        self.assertEqual((status, groups["test_new"][0]), (0, "passed"))
        self.assertIn("left out (1): no browser here", groups["test_new"][1])

    def test_an_example_for_another_processor(self):
        self.write("examples/start.c", '__asm__("svc 0");\n')
        status, groups, _ = self.check("header")
        self.assertEqual((status, groups["header"][0]), (0, "passed"))
        self.assertIn("left out, for another processor: examples/start.c", groups["header"][1])
        with open(self.calls, encoding="utf-8") as file:
            calls = file.read()
        self.assertIn("examples/a.c", calls)
        self.assertNotIn("examples/start.c", calls)

    def test_fast_builds_nothing(self):
        status, groups, _ = self.check("--fast")
        self.assertEqual(status, 0)
        self.assertEqual(set(groups), {"format", "figures", "header", "test_quick"})
        with open(self.calls, encoding="utf-8") as file:
            calls = file.read()
        self.assertNotIn("rt lib", calls)
        self.assertNotIn("cargo", calls)

    def test_named_groups(self):
        status, groups, _ = self.check("test_slow", "format")
        self.assertEqual((status, set(groups)), (0, {"test_slow", "format"}))
        self.assertEqual(self.check("formats")[0], 2)
        self.assertEqual(self.check("--quick")[0], 2)

    def test_archive_is_kept(self):
        self.check("archive")
        self.assertEqual(self.check("archive")[1]["archive"], ("passed", "as it was built"))
        self.write("crates/a/src/lib.rt", "// newer")
        later = os.path.getmtime(os.path.join(self.root, "crates/survey_c/out/libsurvey_c.a")) + 2
        os.utime(os.path.join(self.root, "crates/a/src/lib.rt"), (later, later))
        self.assertEqual(self.check("archive")[1]["archive"], ("passed", ""))
        self.write("crates/a/out/newer", "")
        for name, time in ("crates/survey_c/out/libsurvey_c.a", later + 5), ("crates/a/out/newer", later + 9):
            os.utime(os.path.join(self.root, name), (time, time))
        self.assertEqual(self.check("archive")[1]["archive"], ("passed", "as it was built"))

    def test_files_that_are_laid_out(self):
        """Of code, definitions and proofs, and nothing that rt makes."""
        for name in "crates/a/specs/Lib.antt", "crates/a/proofs/f/Answers.antt", "crates/a/out/made.antt":
            self.write(name, "")
        self.assertEqual(self.check("format")[1]["format"][0], "passed")
        with open(self.calls, encoding="utf-8") as file:
            (call,) = [line for line in file if line.startswith("rattle ")]
        named = call.split()[3:]
        self.assertEqual(named, ["crates/a/proofs/f/Answers.antt", "crates/a/specs/Lib.antt", "crates/a/src/lib.rt",
                                 "crates/survey_c/src/lib.rt"])


class Missing(Tree):
    """What is not installed is named, and nothing fails for it."""

    def without(self, *names, **said):
        self.equip()
        for name in names:
            os.remove(os.path.join(self.path, name))
        status, groups, _ = self.check(**said)
        self.assertEqual(status, 0)
        return groups

    def test_python(self):
        groups = self.without("python3")
        for name in "figures", "test_quick", "test_slow":
            self.assertEqual(groups[name], ("skipped", "no python3, 3.9 or newer"))
        self.assertEqual(groups["plain_version"][0], "passed")

    def test_cargo(self):
        groups = self.without("cargo")
        for name in "plain_version", "wrong_libraries", "differences", "repeated_link":
            self.assertEqual(groups[name], ("skipped", "no cargo"))
        self.assertEqual(groups["test_slow"][0], "passed")

    def test_an_old_cargo(self):
        groups = self.without(VERSION="1.87.3")
        self.assertEqual(groups["differences"], ("skipped", "cargo 1.87.3 is older than 1.88"))

    def test_a_linker(self):
        self.assertIn("no cc", self.without("cc")["differences"][1])

    def test_one_compiler(self):
        outcome, words = self.without("clang", "g++")["header"]
        self.assertEqual(outcome, "passed")
        for said in "gcc: c99", "no clang", "no g++", "clang++: c++11":
            self.assertIn(said, words)

    def test_all_compilers(self):
        words = "no gcc; no clang; no g++; no clang++"
        self.assertEqual(self.without("gcc", "clang", "g++", "clang++")["header"], ("skipped", words))

    def test_rattle(self):
        self.assertEqual(self.without("rattle")["format"], ("skipped", "no rattle beside rt"))

    def test_rt(self):
        groups = self.without("rt")
        self.assertEqual((groups["format"], groups["archive"]), (("skipped", "no rt"),) * 2)
        self.assertEqual(groups["differences"], ("skipped", "no archive of survey_c from these sources"))


class Gate(Tree):
    def gate(self, **said):
        return self.run_in([".ci/run"], **said)

    def test_passes(self):
        self.equip()
        status, groups, lines = self.gate()
        self.assertEqual((status, lines[0], lines[-1]), (0, "rt: base proved (1 s)", "7 passed, 0 failed"))
        with open(self.calls, encoding="utf-8") as file:
            self.assertEqual(file.readline(), "rt ci\n")
        self.assertEqual({outcome for outcome, _ in groups.values()}, {"passed"})

    def test_the_toolchain_alone(self):
        status, groups, lines = self.gate()
        self.assertEqual((status, lines[-1]), (0, "7 passed, 0 failed"))
        self.assertEqual({name for name, (said, _) in groups.items() if said == "passed"}, {"format", "archive"})
        for name in "test_quick", "test_slow", "header", "figures", "plain_version", "differences":
            self.assertEqual(groups[name][0], "skipped")

    def test_rt_fails(self):
        self.equip()
        status, groups, lines = self.gate(BAD_PROOF="3", LAST="6 passed, 1 failed")
        self.assertEqual((status, groups, lines[-1]), (3, {}, "6 passed, 1 failed"))

    def test_a_bad_edit(self):
        """rt passes over an edit whose text no longer stands; the gate does not."""
        self.equip()
        status, groups, lines = self.gate(BAD_EDITS=", 2 bad")
        self.assertEqual((status, groups, lines[-1]), (1, {}, "7 passed, 2 failed"))

    def test_a_group_fails(self):
        self.equip()
        status, groups, lines = self.gate(BAD_SEARCH="1", BAD_FORMAT="1")
        self.assertEqual((status, groups["differences"][0]), (1, "failed"))
        self.assertEqual(lines[-1], "7 passed, 2 failed")

    def test_check_breaks(self):
        self.write("tools/check", "exit 0\n")
        status, _, lines = self.gate()
        self.assertEqual((status, lines[-1]), (1, "7 passed, 1 failed"))


if __name__ == "__main__":
    unittest.main()
