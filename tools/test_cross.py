"""The library on other processors: python3 tools/test_cross.py

Makes the archives as tools/cross does, and runs the examples of each processor under an emulator: the self-test, T-13's
lines, the program's vectors. What cannot be run for want of the toolchain, of a compiler or of an emulator is skipped,
and said so.
"""
import ctypes
import os
import re
import shutil
import struct
import subprocess
import tempfile
import unittest

import elf
import proved_module
import retarget
import targets
import test_examples
from request_vectors import STATE_WORDS
from test_examples import CASE_B, REQUESTS, ROOT, WARNINGS, contents, example, vectors


class Served:
    """The library in a process on its processor, by the calls of tools/call_server.c. A state stays there."""
    CALLS = ["load", "run", "ring", "lifting_order", "doubtful", "one_way", "live_open", "live_add", "live_withdraw"]

    def __init__(self, command):
        self.process = subprocess.Popen(command, stdin=subprocess.PIPE, stdout=subprocess.PIPE)

    def __getattr__(self, name):
        which = self.CALLS.index(name.removeprefix("link_survey_"))
        return lambda *arguments: self.call(which, arguments)

    def call(self, which, arguments):
        numbers = [argument.value % 2**64 for argument in arguments if hasattr(argument, "value")]
        lent = [getattr(argument, "_obj", argument) for argument in arguments if not hasattr(argument, "value")]
        lent = [array for array in lent if ctypes.sizeof(array) != 2 * STATE_WORDS]
        sizes = [ctypes.sizeof(array) for array in lent]
        head = struct.pack("<7Q", which, *numbers, *[0] * (3 - len(numbers)), *sizes, *[0] * (3 - len(sizes)))
        self.process.stdin.write(head + b"".join(map(bytes, lent)))
        self.process.stdin.flush()
        number = struct.unpack("<Q", self.process.stdout.read(8))[0]
        for array, size in zip(lent, sizes):
            ctypes.memmove(ctypes.addressof(array), self.process.stdout.read(size), size)
        return number

    def close(self):
        self.process.stdin.close()
        self.process.stdout.close()
        return self.process.wait(timeout=60)


class Made:
    """The archives, made once for all tests."""
    text = kit = None

    @classmethod
    def archive(cls, target):
        if not shutil.which("rt"):
            raise unittest.SkipTest("there is no rt, from whose proved module the archive is made")
        test_examples.archive()
        if cls.text is None:
            cls.kit = proved_module.Kit()
            proved_module.kept(cls.kit)
            cls.text = retarget.text_of(cls.kit)
        return elf.Archive(retarget.make(cls.kit, target, cls.text)[0])


class OnTarget:
    """The tests of a processor; `name` says which."""

    @classmethod
    def setUpClass(cls):
        cls.target = targets.TARGETS[cls.name]
        cls.archive = Made.archive(cls.target)
        folder = tempfile.TemporaryDirectory()
        cls.addClassCleanup(folder.cleanup)
        cls.folder = folder.name

    def built(self, name, *sources):
        lacking = targets.missing(self.target)
        if lacking:
            self.skipTest(f"{self.name} is not run: not here: {', '.join(lacking)}")
        return targets.build(self.target, self.folder, name, *sources)

    def printed(self, name, *sources, arguments=()):
        return targets.ran(self.target, self.built(name, *sources), *arguments)

    def test_made_anew(self):
        """An archive that was altered is not taken for the one that was made."""
        path = targets.archive(self.target)
        with open(path, "rb") as file:
            whole = file.read()
        with open(path, "wb") as file:
            file.write(whole[:-1])
        Made.archive(self.target)
        with open(path, "rb") as file:
            self.assertEqual(file.read(), whole)

    def test_archive(self):
        """The functions of the header, no variables, and nothing needed but what the manual says."""
        self.assertEqual(self.archive.defined, targets.functions())
        self.assertEqual(self.archive.variables, 0)
        self.assertEqual(self.archive.needed, {"memcpy", "memset"})

    def test_acceptance(self):
        self.assertEqual(self.printed("acceptance", "acceptance.c"), (0, targets.small_sites()))


class Hosted(OnTarget):
    """A processor under Linux."""

    def test_self_test(self):
        self.assertEqual(self.printed("self_test", "self_test_main.c", "self_test.c"), (0, "passed\n"))

    def test_reports(self):
        expected = "".join(contents(path[:-3] + ".out") for path in vectors())
        self.assertEqual(self.printed("reports", "reports.c", arguments=vectors()), (0, expected))

    def test_handset(self):
        printed = CASE_B + contents(example("case-b.report.txt"))
        self.assertEqual(self.printed("handset", "handset.c", arguments=[example("case-b.txt")]), (0, printed))

    def test_requests(self):
        self.assertEqual(self.printed("requests", "requests.c"), (0, REQUESTS))

    def test_vectors_of_requests(self):
        program = self.built("call_server", os.path.join("..", "tools", "call_server.c"))
        served = Served([*self.target.emulator, program])
        test_examples.play_requests(self, served, ("rings", "lifting", "doubtful", "one_way", "live"))
        self.assertEqual(served.close(), 0)


class Aarch64(Hosted, unittest.TestCase):
    name = "aarch64-linux-gnu"


class Armv7(Hosted, unittest.TestCase):
    name = "armv7-linux-gnueabihf"


class Riscv64(Hosted, unittest.TestCase):
    name = "riscv64-linux-gnu"


class Thumb(OnTarget, unittest.TestCase):
    """A processor without an operating system, and without floating point."""
    name = "thumbv7em-none-eabi"

    def test_bare_metal(self):
        self.assertEqual(self.printed("bare_metal", "bare_metal.c", "self_test.c"), (0, targets.BARE_METAL))


class ThumbHard(Thumb):
    """The same with floating point, for firmware that passes such numbers in registers."""
    name = "thumbv7em-none-eabihf"


class SelfTest(unittest.TestCase):
    """The self-test finds a library in which one function is wrong, whichever it is."""

    @classmethod
    def setUpClass(cls):
        found = test_examples.compilers("cc", "gcc", "clang")
        if not found:
            raise unittest.SkipTest("there is no C compiler")
        test_examples.archive()
        cls.compiler = found[0]
        folder = tempfile.TemporaryDirectory()
        cls.addClassCleanup(folder.cleanup)
        cls.folder = folder.name
        for name in "self_test", "self_test_main":
            cls.ran(found[0], "-c", "-O1", "-I" + targets.INCLUDE, example(name + ".c"), "-o", cls.path(name + ".o"))

    @classmethod
    def path(cls, name):
        return os.path.join(cls.folder, name)

    @classmethod
    def ran(cls, *command):
        done = subprocess.run(command, capture_output=True, text=True, timeout=60, check=False)
        if done.returncode != 0:
            raise AssertionError(done.stderr)

    def failed_with(self, name, parameters, body):
        """The case in which the self-test finds the function replaced by this one."""
        with open(self.path("wrong.c"), "w", encoding="utf-8") as file:
            file.write(f'#include "link_survey.h"\nuint32_t __real_{name}({parameters});\n'
                       f"uint32_t __wrap_{name}({parameters});\nuint32_t __wrap_{name}({parameters})\n{{\n{body}}}\n")
        objects = [self.path("self_test.o"), self.path("self_test_main.o"), self.path("wrong.c")]
        self.ran(self.compiler, *WARNINGS, "-Wno-unused-parameter", "-I" + targets.INCLUDE, *objects,
                 test_examples.ARCHIVE, "-Wl,--wrap=" + name, "-o", self.path("wrong"))
        done = subprocess.run([self.path("wrong")], capture_output=True, text=True, timeout=60, check=False)
        self.assertEqual(done.returncode, 1, f"{name} is wrong, and the self-test passed")
        return int(re.fullmatch(r"failed: case (\d+)\n", done.stdout)[1])

    def test_wrong_functions(self):
        declared = re.findall(r"(?ms)^uint32_t (link_survey_\w+)\((.*?)\);", targets.header())
        self.assertEqual({name for name, _ in declared}, targets.functions())
        for name, parameters in declared:
            words = [] if parameters == "void" else re.findall(r"(\w+)(?:\[\w+\])*(?:,|$)", parameters)
            with self.subTest(name + " does nothing"):
                self.failed_with(name, parameters, "    return 0;\n")
            with self.subTest(name + " gives one more"):
                self.failed_with(name, parameters, f"    return __real_{name}({', '.join(words)}) + 1;\n")

    def test_numbers(self):
        """The number says what is wrong: a refusal of loading, a ring, an order, the version."""
        declared = dict(re.findall(r"(?ms)^uint32_t (link_survey_\w+)\((.*?)\);", targets.header()))
        for name, body, number in [
            ("link_survey_run", "    return __real_link_survey_run(state, 26, made);\n", 2),
            ("link_survey_ring", "    *count = 0;\n    return 0;\n", 205),
            ("link_survey_lifting_order", "    return pairs_len == 2 && pairs[1] == 4 ? 19 : 20;\n", 206),
            ("link_survey_live_withdraw", "    return 0;\n", 121),
            ("link_survey_version", f"    return {targets.version() - 1};\n", 301),
        ]:
            with self.subTest(name):
                self.assertEqual(self.failed_with(name, declared[name], body), number)


class Header(unittest.TestCase):
    """The header on each processor, by the toolchain's clang, which knows later standards than many compilers."""

    def test_standards(self):
        lacking = [name for name in ("rt", "gcc") if not shutil.which(name)]
        if lacking:
            self.skipTest("not here: " + ", ".join(lacking))
        # gcc's own folder has the two headers that a freestanding program may take
        found = subprocess.run(["gcc", "-print-file-name=include"], capture_output=True, text=True, check=True)
        words = ["-fsyntax-only", "-ffreestanding", "-nostdinc", "-isystem", found.stdout.strip(), *WARNINGS]
        clang = proved_module.Kit().clang
        for target in [targets.HOST, *targets.TARGETS.values()]:
            for standard in "c99", "c11", "c17", "c23", "c++11", "c++17", "c++20", "c++23":
                language = "c++-header" if "+" in standard else "c-header"
                with self.subTest(f"{target.name} {standard}"):
                    command = [clang, "--target=" + target.triple, "-std=" + standard, *words, "-x", language]
                    done = subprocess.run([*command, targets.HEADER], capture_output=True, text=True, check=False)
                    self.assertEqual((done.returncode, done.stderr), (0, ""))


class Kits(unittest.TestCase):
    """A toolchain that works in another way is met with a message, and no archive is made."""

    def test_no_toolchain(self):
        with tempfile.TemporaryDirectory() as folder:
            os.symlink(shutil.which("python3"), os.path.join(folder, "python3"))
            self.told({**os.environ, "PATH": folder}, "there is no rt")

    def test_other_layout(self):
        with tempfile.TemporaryDirectory() as folder:
            os.mkdir(os.path.join(folder, "bin"))
            rt = os.path.join(folder, "bin", "rt")
            with open(rt, "w", encoding="utf-8") as file:
                file.write("#!/bin/sh\n")
            os.chmod(rt, 0o755)
            path = os.path.dirname(rt) + os.pathsep + os.environ["PATH"]
            self.told({**os.environ, "PATH": path}, "does not fit the toolchain: it has no")

    def told(self, environment, words):
        command = [shutil.which("python3"), os.path.join(ROOT, "tools", "cross"), "aarch64-linux-gnu"]
        done = subprocess.run(command, env=environment, capture_output=True, text=True, check=False)
        self.assertEqual((done.returncode, done.stdout), (1, ""))
        self.assertIn("tools/cross: ", done.stderr)
        self.assertIn(words, done.stderr)

    def other(self, rt, words):
        """Over a toolchain that has this for its rt, tools/cross says so; its clang writes a file that is no object."""
        rt = '#!/bin/sh\nhome=$(cd "$(dirname "$0")/.." && pwd) || exit 2\n' + rt
        with tempfile.TemporaryDirectory() as folder:
            tools = os.path.join(folder, "toolchain", "bin")
            for path, text in [
                (os.path.join(folder, "KIT-ID"), "another toolchain\n"),
                (os.path.join(folder, "bin", "rt"), rt),
                (os.path.join(folder, "bin", "rtlib.py"), ""),
                (os.path.join(tools, "clang"), '#!/bin/sh\nfor last; do :; done\necho none >"$last"\n'),
                (os.path.join(tools, "llvm-ar"), "#!/bin/sh\n"),
            ]:
                os.makedirs(os.path.dirname(path), exist_ok=True)
                with open(path, "w", encoding="utf-8") as file:
                    file.write(text)
                os.chmod(path, 0o755)
            path = os.path.join(folder, "bin") + os.pathsep + os.environ["PATH"]
            self.told({**os.environ, "PATH": path}, words)

    def test_other_toolchain(self):
        test_examples.archive()
        clang = '"$home"/toolchain/bin/clang'
        inside = 'mkdir "$home/work" && cd "$home/work" || exit 2\necho some >module.bc\n'
        self.other("echo it is not proved\nexit 1\n", "rt lib of survey_c failed:\nit is not proved")
        self.other("exit 0\n", "rt handed its clang no module.bc")
        self.other(inside + f"{clang} -c module.bc -o module.o\n", "its clang is called in another way")
        self.other(inside + f"{clang} --target=x86_64 -c module.bc -o module.o\n", "is not that of the archive")

    def test_other_module(self):
        if not shutil.which("rt"):
            self.skipTest("there is no rt")
        kit, target = proved_module.Kit(), targets.TARGETS["riscv64-linux-gnu"]
        head = 'target datalayout = "e-m:e"\ntarget triple = "x86_64-unknown-linux-gnu"\n'
        body = "".join(f"define noundef i32 @{name}() #0 {{\n" for name in sorted(targets.functions()))
        tail = 'attributes #0 = { "target-cpu"="x86-64-v2" }\n'
        made = retarget.retargeted(kit, head + body + tail, target)
        self.assertIn('target triple = "riscv64-unknown-linux-gnu"', made)
        self.assertEqual(made.count("define noundef signext i32 @link_survey_"), len(targets.functions()))
        for wrong in body + tail, head + tail, head + body, head + head + body + tail:
            with self.subTest(wrong[:30]):
                self.assertRaisesRegex(proved_module.Failed, "does not fit", retarget.retargeted, kit, wrong, target)
        arm, number = targets.TARGETS["armv7-linux-gnueabihf"], "%r1 = ptrtoint ptr %a0 to i64\n"
        self.assertIn("target triple", retarget.retargeted(kit, head + body + tail, arm))
        self.assertRaisesRegex(proved_module.Failed, "ptrtoint", retarget.retargeted, kit, head + number + tail, arm)

    def test_wrong_command(self):
        for words in [], ["z80"], ["all", "z80"]:
            command = [shutil.which("python3"), os.path.join(ROOT, "tools", "cross"), *words]
            done = subprocess.run(command, capture_output=True, text=True, check=False)
            self.assertEqual((done.returncode, done.stdout), (2, ""))


if __name__ == "__main__":
    # what is skipped is named
    unittest.main(verbosity=2)
