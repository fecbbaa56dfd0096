# Says which must-fail edits do not apply: the text that an edit replaces stands once in its file, and the crates that the new text names are
# among those that crates.txt gives the edit's crate.
import glob
import os
import re
import sys

os.chdir(os.path.join(os.path.dirname(os.path.abspath(__file__)), ".."))

CRATES = dict(re.findall(r"(?m)^(\w+)(?: staticlib)?:(.*)$", open("crates.txt", encoding="utf-8").read()))


def faults(path):
    crate = path.split("/must-fail/")[0]
    uses = CRATES[crate.split("/")[1]].split()
    texts, name, old = {}, None, None
    for line in open(path, encoding="utf-8").read().splitlines():
        if line.startswith("file: "):
            name = line[len("file: "):]
            texts.setdefault(name, open(f"{crate}/{name}", encoding="utf-8").read())
        elif line.startswith("old: "):
            old = line[len("old: "):]
        elif line.startswith("new:"):
            count = texts[name].count(old)
            if count != 1:
                yield f"{path}: {count} times in {name}: {old}"
            new = line[len("new:"):].removeprefix(" ")
            texts[name] = texts[name].replace(old, new)
            for other in re.findall(r"\b(\w+)::", new):
                if other in CRATES and other not in uses:
                    yield f"{path}: {crate} does not list {other}"
    if old is None:
        yield f"{path}: replaces nothing"


found = [fault for path in sorted(glob.glob("crates/*/must-fail/*.edit")) for fault in faults(path)]
print("\n".join(found), end="\n" if found else "")
sys.exit(bool(found))
