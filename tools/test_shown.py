"""Commands that documents show, with what they print: python3 tools/test_shown.py

A command stands in a block of its own, and what it prints in the block after it; `..` at the end of that stands for
more. Where the program link_ask is not built, the front door's answers are worked out from the table, and the program's
are those of a stand-in (tools/testing_ask.py).
"""
import os
import re
import shlex
import subprocess
import sys
import unittest

import asking
from testing import HERE, PROGRAM, ROOT, Door, contents

DOCUMENTS = [os.path.join(ROOT, "docs", name) for name in ("FOREMAN.md", "MANUAL.md")]
DOOR, ASKER = "python3 tools/survey.py ", "crates/link_ask/out/link_ask "
WRITTEN = re.compile(r" --(?:svg|html) \S+")
# every question of the program, and every word of the front door by which one is asked
QUESTIONS = "ring", "lift", "doubtful", "plan", "one-way", "add", "withdraw", "lines", "seats"
WORDS = "ring", "lift", "doubtful", "plan", "one-way", "add", "withdraw", "lines", "sites", "compare"


def shown(path):
    """Each command of a document with the block that follows it, where that is what it prints."""
    text = contents(path).decode("utf-8")
    blocks = re.findall(r"(?m)(?<=\n\n)(?:    .*\n)+", re.sub(r"(?ms)^```.*?^```", "", text))
    places = [text.index("\n\n" + block) + 2 for block in blocks]
    for block, place, after in zip(blocks, places, blocks[1:] + [""]):
        command = block[4:-1]
        if command.startswith((DOOR, ASKER)) and "\n" not in command:
            follows = text[place + len(block) :].startswith("\n" + after) and after
            printed = re.sub(r"(?m)^    ", "", after) if follows else None
            yield command, printed if printed and not printed.startswith((DOOR, ASKER)) else None


class Shown(Door):
    def held(self, printed, block):
        """What was printed is what is shown, or begins so."""
        if block.endswith("\n..\n"):
            self.assertEqual(printed[: len(block) - 3], block[:-3])
        else:
            self.assertEqual(printed, block)

    def door(self, command):
        """What the front door prints; how a list ends, where it tells of spares."""
        arguments = shlex.split(WRITTEN.sub("", command).removeprefix(DOOR))
        before = os.getcwd()
        os.chdir(ROOT)
        try:
            code, said, told = self.run_door(*arguments)
        finally:
            os.chdir(before)
        self.assertIn(code, (0, 1) if os.path.exists(asking.ASKER) else (0, 1, 3), told)
        return said.removeprefix(asking.UNPROVED + "\n").removeprefix("\ufeff").replace("\r\n", "\n")

    def asker(self, command):
        """What the program prints."""
        built = os.path.exists(asking.ASKER)
        program = [asking.ASKER] if built else [sys.executable, os.path.join(HERE, "testing_ask.py")]
        line = f"{shlex.join(program)} {command.removeprefix(ASKER)}"
        return subprocess.run(line, shell=True, cwd=ROOT, capture_output=True, check=False).stdout.decode()

    def test_what_they_print(self):
        if not os.path.exists(PROGRAM):
            self.skipTest("the program link_survey is not built (rt run in its folder)")
        seen = 0
        for path in DOCUMENTS:
            for command, block in shown(path):
                if block is None:
                    continue
                with self.subTest(command):
                    seen += 1
                    printed = self.door(command) if command.startswith(DOOR) else self.asker(command)
                    if "--spares" in command:
                        printed = printed[printed.index("where spares go") :]
                    self.held(printed, block)
        self.assertGreater(seen, 20)

    def test_every_question_is_shown(self):
        found = [command for path in DOCUMENTS for command, block in shown(path) if block]
        doors = " ".join(command for command in found if command.startswith(DOOR)) + " "
        for word in WORDS:
            self.assertIn(f" --{word} ", doors)
        asked = [re.findall(r" (\S+)", command) for command in found if command.startswith(ASKER)]
        for question in QUESTIONS:
            self.assertTrue(any(question in words for words in asked), question)


if __name__ == "__main__":
    unittest.main()
