"""The archive of another processor from the proved module, by the kit's own clang and llvm-ar."""
import hashlib
import os
import re
import shutil
import tempfile

import elf
import proved_module
import targets
from proved_module import Failed, run


def text_of(kit):
    """The module as text, with nothing done to it."""
    words = ["-S", "-emit-llvm", "-O0", "-Xclang", "-disable-llvm-passes", "--no-default-config", "-x", "ir"]
    module = os.path.join(proved_module.KEPT, proved_module.MODULE)
    return run([kit.clang, *words, module, "-o", "-"], "the kit's clang")


def retargeted(kit, text, target):
    """The same module for another processor: its first lines name the processor, and no function names one.

    Where pointers have 32 bits the module must take none for a number, nor a number for one. On RISC-V a caller may
    rely on the sign of a 32-bit number in the whole register, which a module for x86-64 does not ask for.
    """
    def once(pattern, new, text, least=1, most=1):
        text, count = re.subn(pattern, new, text)
        if not least <= count <= most:
            raise kit.changed(f"the module has {count} times what is {pattern!r}")
        return text

    text = once(r'(?m)^target datalayout = "e-[^"]*"\n', "", text)
    text = once(r'(?m)^target triple = "x86_64-unknown-linux-gnu"$', f'target triple = "{target.triple}"', text)
    text = once(r' "target-cpu"="x86-64[^"]*"', "", text, most=100)
    if re.match("arm|thumb", target.triple):
        once(r"\b(ptrtoint|inttoptr|ptrtoaddr)\b", "", text, 0, 0)
    if target.triple.startswith("riscv64"):
        names = len(targets.functions())
        text = once(r"(?m)^define noundef i32 @(?=link_survey_)", "define noundef signext i32 @", text, names, names)
    return text


def words_for(kit, target):
    """The words of the kit's own call, but for those of the processor and of the files."""
    words, kept = proved_module.words_of(proved_module.KEPT), []
    while words:
        word = words.pop(0)
        if word in ("-o", "-x"):
            words.pop(0)
        elif not re.match(r"--target=|-march=|--sysroot=|-fPIC$|module\.bc$", word):
            kept.append(word)
    if "-c" not in kept or "-O3" not in kept:
        raise kit.changed("its clang is called in another way")
    return [*kept, "--target=" + target.triple, *target.words]


def checked(kit, target, path):
    """The archive is for the processor, and has the functions of the header and no others."""
    archive = elf.Archive(path)
    if {found.machine for found in archive.objects} != {target.machine}:
        raise kit.changed("the archive is for another processor")
    if archive.defined != targets.functions():
        odd = sorted(archive.defined ^ targets.functions())
        raise Failed("the archive and the header differ in: " + ", ".join(odd))
    if archive.variables:
        raise kit.changed("the archive has variables")
    return archive


def digest(path):
    with open(path, "rb") as file:
        return hashlib.sha256(file.read()).hexdigest()


def make(kit, target, text):
    """Makes the archive of one target: its path, and the words that the kit's clang was called with.

    One that was made from the same text by the same words, and was not altered since, is kept.
    """
    path, words, given = targets.archive(target), words_for(kit, target), retargeted(kit, text, target)
    stamp, inputs = path + ".stamp", hashlib.sha256("\n".join([kit.identity, *words, given]).encode()).hexdigest()
    if os.path.exists(stamp) and os.path.exists(path):
        with open(stamp, encoding="utf-8") as file:
            if file.read() == inputs + digest(path):
                return path, words
    os.makedirs(os.path.dirname(path), exist_ok=True)
    with tempfile.TemporaryDirectory() as folder:
        with open(os.path.join(folder, "module.ll"), "w", encoding="utf-8") as file:
            file.write(given)
        run([kit.clang, *words, "-x", "ir", "module.ll", "-o", "survey_c.o"], "the kit's clang", cwd=folder)
        run([kit.ar, "rcsD", "libsurvey_c.a", "survey_c.o"], "the kit's llvm-ar", cwd=folder)
        checked(kit, target, os.path.join(folder, "libsurvey_c.a"))
        shutil.copyfile(os.path.join(folder, "libsurvey_c.a"), path)
    with open(stamp, "w", encoding="utf-8") as file:
        file.write(inputs + digest(path))
    return path, words
