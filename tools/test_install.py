"""What a firmware team takes in: python3 tools/test_install.py

tools/install into a folder, then a program built by pkg-config and by CMake from that folder alone; tools/release, and
what its sums say. What cannot be run for want of `rt`, a compiler, pkg-config or CMake is skipped, and said so.
"""
import glob
import hashlib
import os
import re
import shutil
import subprocess
import sys
import tempfile
import unittest

import targets
import test_examples
from test_examples import ARCHIVE, ROOT, contents, example

PRINTED = "27 rounds\nunit 2 is a single point\n"

PROJECT = """\
cmake_minimum_required(VERSION 3.10)
project(case_b C)
find_package(link_survey {version} REQUIRED)
add_executable(case_b case_b.c)
target_link_libraries(case_b link_survey::link_survey)
"""


def tool(name, *words, **more):
    command = [sys.executable, os.path.join(ROOT, "tools", name), *words]
    return subprocess.run(command, capture_output=True, text=True, check=False, **more)


class Folder(unittest.TestCase):
    def setUp(self):
        folder = tempfile.TemporaryDirectory()
        self.addCleanup(folder.cleanup)
        self.folder = folder.name

    def path(self, *names):
        return os.path.join(self.folder, *names)

    def ran(self, *command, **more):
        done = subprocess.run(command, capture_output=True, text=True, timeout=120, check=False, **more)
        self.assertEqual(done.returncode, 0, done.stdout + done.stderr)
        return done.stdout

    def lacking(self, *names):
        missing = [name for name in names if not shutil.which(name)]
        if missing:
            self.skipTest("not installed: " + ", ".join(missing))


class Installed(Folder):
    def setUp(self):
        super().setUp()
        test_examples.archive()
        done = tool("install", self.path("prefix"))
        self.assertEqual(done.returncode, 0, done.stderr)
        self.written = done.stdout.splitlines()

    def test_files(self):
        there = [path for path in glob.glob(self.path("prefix", "**"), recursive=True) if os.path.isfile(path)]
        self.assertEqual(sorted(self.written), sorted(there))
        self.assertEqual(contents(self.path("prefix", "include", "link_survey.h")), targets.header())
        with open(self.path("prefix", "lib", "libsurvey_c.a"), "rb") as one, open(ARCHIVE, "rb") as other:
            self.assertEqual(one.read(), other.read())

    def test_pkg_config(self):
        self.lacking("pkg-config", "cc")
        # the folder may be moved: the file says where it stands
        os.rename(self.path("prefix"), self.path("moved"))
        environment = {**os.environ, "PKG_CONFIG_PATH": self.path("moved", "lib", "pkgconfig")}
        asked = ["pkg-config", "--cflags", "--libs", f"link_survey = {targets.version()}"]
        words = self.ran(*asked, env=environment).split()
        self.ran("cc", "-std=c99", example("case_b.c"), *words, "-o", self.path("case_b"))
        self.assertEqual(self.ran(self.path("case_b")), PRINTED)

    def test_cmake(self):
        self.lacking("cmake", "cc")
        os.rename(self.path("prefix"), self.path("moved"))
        shutil.copyfile(example("case_b.c"), self.path("case_b.c"))
        self.configured(targets.version())
        self.ran("cmake", "--build", self.path("build"))
        self.assertEqual(self.ran(self.path("build", "case_b")), PRINTED)

    def test_cmake_of_another_version(self):
        self.lacking("cmake", "cc")
        os.rename(self.path("prefix"), self.path("moved"))
        shutil.copyfile(example("case_b.c"), self.path("case_b.c"))
        with self.assertRaisesRegex(AssertionError, "link_survey"):
            self.configured(targets.version() - 1)

    def configured(self, version):
        with open(self.path("CMakeLists.txt"), "w", encoding="utf-8") as file:
            file.write(PROJECT.format(version=version))
        self.ran("cmake", "-S", self.folder, "-B", self.path("build"), "-DCMAKE_PREFIX_PATH=" + self.path("moved"))


class Refused(Folder):
    def test_wrong_command(self):
        for words in [], ["--help-me"], [self.path("prefix"), "z80"], ["a", "b", "c"]:
            with self.subTest(words):
                self.assertEqual(tool("install", *words).returncode, 2)
        self.assertEqual(tool("release").returncode, 2)
        self.assertEqual(os.listdir(self.folder), [])

    def test_release_there_already(self):
        done = tool("release", self.folder)
        self.assertEqual(done.returncode, 1)
        self.assertIn("is there already", done.stderr)

    def test_archive_of_another_header(self):
        """An archive that lacks a function of the header, or has one more, is not installed."""
        test_examples.archive()
        for name in "tools", "include":
            shutil.copytree(os.path.join(ROOT, name), self.path("copy", name))
        os.makedirs(self.path("copy", "crates", "survey_c", "out"))
        shutil.copyfile(ARCHIVE, self.path("copy", "crates", "survey_c", "out", "libsurvey_c.a"))
        with open(self.path("copy", "include", "link_survey.h"), "a", encoding="utf-8") as file:
            file.write("uint32_t link_survey_more(void);\n")
        command = [sys.executable, self.path("copy", "tools", "install"), self.path("prefix")]
        done = subprocess.run(command, capture_output=True, text=True, check=False)
        self.assertEqual(done.returncode, 1)
        self.assertIn("differ in link_survey_more", done.stderr)
        self.assertFalse(os.path.exists(self.path("prefix")))


class Released(Folder):
    def test_release(self):
        self.lacking("rt")
        test_examples.archive()
        done = tool("release", self.path("release"))
        self.assertEqual(done.returncode, 0, done.stderr)
        sums = dict(line.split("  ")[::-1] for line in contents(self.path("release", "SHA256SUMS")).splitlines())
        self.assertEqual(set(sums), self.files() - {"SHA256SUMS"})
        for name, digest in sums.items():
            with open(self.path("release", *name.split("/")), "rb") as file:
                self.assertEqual(hashlib.sha256(file.read()).hexdigest(), digest, name)
        wanted = {"include/link_survey.h", "examples/self_test.c", "docs/MANUAL.md"}
        wanted |= {f"lib/{name}/libsurvey_c.a" for name in [targets.HOST.name, *targets.TARGETS]}
        self.assertLessEqual(wanted, set(sums))
        self.assertEqual(contents(self.path("release", "examples", "acceptance.txt")), targets.small_sites())
        self.told()

    def files(self):
        found = glob.glob(self.path("release", "**"), recursive=True)
        return {os.path.relpath(path, self.path("release")) for path in found if os.path.isfile(path)}

    def told(self):
        text = contents(self.path("release", "RELEASE.txt"))
        self.assertIn(f"version {targets.version()} ", text)
        self.assertIn("toolchain: " + self.ran("rt", "version").strip() + "\n", text)
        for name in [targets.HOST.name, *targets.TARGETS]:
            said = rf"(?m)^  {re.escape(name)}: \d+ bytes of code, .*; run: .*(as expected|not here: .+)$"
            self.assertRegex(text, said)
        self.assertNotIn(ROOT, text)


if __name__ == "__main__":
    # what is skipped is named
    unittest.main(verbosity=2)
