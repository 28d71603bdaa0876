"""Public functions and the definitions that their promises name."""
import glob
import os
import re

from rooms import ROOT, contents

# the words of a public function, from its name up to the brace before its body: alone on its line, or after the
# signature of one that promises nothing
FUNCTION = re.compile(r"(?ms)^( *)pub (?:extern \"C\" )?fn (\w+)(.*?)(?:^ *\{|\)(?: -> [^\n]*)? \{)$")
USE = re.compile(r"(?s)ghost use Rattle\.(\w+)\.specs\.([\w.]+)\.\{(.*?)\};")


def names(text):
    """What the file calls each definition that it brings in, and where that stands: `crate/Module.name`."""
    found = {}
    for crate, module, listed in USE.findall(text):
        path = os.path.join(ROOT, "crates", crate, "specs", *module.split(".")) + ".antt"
        if not os.path.exists(path):
            continue
        for one in listed.split(","):
            name, _, alias = one.strip().partition(" as ")
            if name:
                found[alias or name] = f"{crate}/{module.replace('.', '/')}.{name}"
    return found


def owner(text, at):
    """The type in whose block a function stands, with `::`; nothing outside of one."""
    found = re.findall(r"(?m)^impl (\w+)", text[:at])
    return found[-1] + "::" if found else ""


def module(crate, path):
    """The public module that a file is, with `::`; nothing for lib.rt and for a private module."""
    stem = os.path.splitext(os.path.basename(path))[0]
    root = os.path.join(ROOT, "crates", crate, "src", "lib.rt")
    public = os.path.exists(root) and re.search(rf"(?m)^pub mod {stem};", contents(root))
    return stem + "::" if public else ""


def promises(crate):
    """Each public function of a crate in the order of its files, with the definitions that its `ensures` names."""
    found = []
    for path in sorted(glob.glob(os.path.join(ROOT, "crates", crate, "src", "**", "*.rt"), recursive=True)):
        text = contents(path)
        known = names(text)
        for match in FUNCTION.finditer(text):
            within = module(crate, path) + (owner(text, match.start()) if match[1] else "")
            promise = match[3].partition("ensures")[2]
            words = re.findall(r"[^\s(){}\[\];,.]+", promise)
            named = [known[word] for word in dict.fromkeys(words) if word in known]
            found.append((within + match[2], named))
    return found
