"""The proved module: what `rt lib` of survey_c hands to the kit's compiler, kept for other processors.

rt proves the crate, lowers it to one LLVM module and has the kit's clang compile that for x86-64. No command hands the
module out. So rt is run from a view of the kit: symbolic links to all of it but for rt itself, which is copied since it
looks for the kit from where it stands, and a `clang` of its own that keeps a copy of the module and of the words that
it was called with, and is then the kit's clang.
"""
import hashlib
import os
import shutil
import subprocess
import sys
import tempfile

import elf

ROOT = os.path.dirname(os.path.dirname(os.path.abspath(__file__)))
KEPT = os.path.join(ROOT, "target", "cross")
CRATE = os.path.join(ROOT, "crates", "survey_c")
ARCHIVE = os.path.join(CRATE, "out", "libsurvey_c.a")
MAKER = "rt lib"  # in the crate's folder
MODULE = "module.bc"

KEEPER = """#!/bin/sh
# keeps what the kit's clang is given
for word; do
    if [ "$word" = {module} ]; then
        cp {module} '{folder}/{module}' && printf '%s\\n' "$@" >'{folder}/words' || exit 2
    fi
done
exec '{clang}' "$@"
"""


class Failed(Exception):
    """What went wrong, in words for the person at the terminal."""


class Kit:
    """The toolchain: the folder above the one that the command rt stands in."""

    TOOLS = os.path.join("toolchain", "bin")
    COPIED = "rt", "rtlib.py"

    def __init__(self):
        rt = shutil.which("rt")
        if not rt:
            raise Failed("there is no rt: the proved module comes from the Rattle toolchain alone")
        self.home = os.path.dirname(os.path.dirname(os.path.realpath(rt)))
        self.clang, self.ar = (os.path.join(self.home, self.TOOLS, name) for name in ("clang", "llvm-ar"))
        copied = [os.path.join(self.home, "bin", name) for name in self.COPIED]
        for path in self.clang, self.ar, *copied, os.path.join(self.home, "KIT-ID"):
            if not os.path.exists(path):
                raise self.changed(f"it has no {os.path.relpath(path, self.home)}")
        with open(os.path.join(self.home, "KIT-ID"), encoding="utf-8") as file:
            self.identity = file.read().strip()

    def changed(self, how):
        return Failed(f"this way to other processors does not fit the toolchain: {how}. It is written for rt's kit 13f,"
                      " whose rt runs toolchain/bin/clang on one module; see tools/proved_module.py")

    def view(self, folder):
        """Links to all of the kit but for its rt and clang; the folders on the way to these are real ones. The path of
        the view, which stands in a folder of its own, since rt keeps things beside its kit."""
        view = os.path.join(folder, "kit")
        left_out = {"": ["bin", "toolchain"], "bin": self.COPIED, "toolchain": ["bin"], self.TOOLS: ["clang"]}
        for inside, names in left_out.items():
            os.makedirs(os.path.join(view, inside), exist_ok=True)
            for name in os.listdir(os.path.join(self.home, inside)):
                if name not in names:
                    os.symlink(os.path.join(self.home, inside, name), os.path.join(view, inside, name))
        for name in self.COPIED:
            shutil.copy(os.path.join(self.home, "bin", name), os.path.join(view, "bin", name))
        keeper = os.path.join(view, self.TOOLS, "clang")
        with open(keeper, "w", encoding="utf-8") as file:
            file.write(KEEPER.format(module=MODULE, folder=folder, clang=self.clang))
        os.chmod(keeper, 0o755)
        return view


def sources(kit):
    """A digest of all that the module comes from."""
    digest = hashlib.sha256(kit.identity.encode())
    found = [os.path.join(ROOT, "crates.txt")]
    for folder, _, names in os.walk(os.path.join(ROOT, "crates")):
        parts = os.path.relpath(folder, ROOT).split(os.sep)
        if len(parts) > 2 and parts[2] in ("src", "specs", "proofs"):
            found += [os.path.join(folder, name) for name in names]
    for path in sorted(found):
        with open(path, "rb") as file:
            digest.update(os.path.relpath(path, ROOT).encode() + b"\0" + file.read() + b"\0")
    return digest.hexdigest()


def run(command, what, **more):
    done = subprocess.run(command, capture_output=True, text=True, check=False, **more)
    if done.returncode != 0:
        raise Failed(f"{what} failed:\n{done.stdout[-2000:]}{done.stderr[-2000:]}")
    return done.stdout


def prove(kit, folder):
    """Has rt prove the library and write the archive for x86-64; the module and the words are then in the folder."""
    # first by the kit itself, which takes from what it keeps; then all is proved, and only lowered once more
    for rt in "rt", os.path.join(kit.view(folder), "bin", "rt"):
        run([rt, "lib"], "rt lib of survey_c", cwd=CRATE)
    if not os.path.exists(os.path.join(folder, MODULE)):
        raise kit.changed(f"rt handed its clang no {MODULE}")


def words_of(folder):
    with open(os.path.join(folder, "words"), encoding="utf-8") as file:
        return file.read().splitlines()


def same_as_archive(kit, folder):
    """The kept module, compiled with the kept words, is the member of the archive byte for byte."""
    words = words_of(folder)
    if "-o" not in words[:-1] or [word for word in words if word.startswith("--target=x86_64")] == []:
        raise kit.changed("its clang is called in another way")
    made = os.path.join(folder, "again.o")
    words[words.index("-o") + 1] = made
    run([kit.clang, *words], "the kit's clang", cwd=folder)
    with open(made, "rb") as file, open(ARCHIVE, "rb") as archive:
        if elf.members(archive.read()) != [file.read()]:
            raise kit.changed("the module that was kept is not that of the archive")


def kept(kit):
    """The folder with the module and the words, proved anew where a source or the kit has changed."""
    stamp = os.path.join(KEPT, "stamp")
    now = sources(kit)
    if os.path.exists(stamp) and os.path.exists(ARCHIVE):
        with open(stamp, encoding="utf-8") as file:
            if file.read() == now:
                return KEPT
    print("proving the library: rt lib in crates/survey_c", file=sys.stderr, flush=True)
    with tempfile.TemporaryDirectory() as folder:
        prove(kit, folder)
        same_as_archive(kit, folder)
        os.makedirs(KEPT, exist_ok=True)
        for name in MODULE, "words":
            shutil.copyfile(os.path.join(folder, name), os.path.join(KEPT, name))
    with open(stamp, "w", encoding="utf-8") as file:
        file.write(now)
    return KEPT
