# Says which names in docs/TRACE.md the tree does not have, and which must-fail edits no row of it names. The forms of a name are in the table at
# the top of that page.
import glob
import os
import re
import sys

ROOT = os.path.join(os.path.dirname(os.path.abspath(__file__)), "..")
CRATES = os.path.join(ROOT, "crates")


def read(*parts):
    path = os.path.join(CRATES, *parts)
    if os.path.isdir(path):
        return "".join(read(*parts, name) for name in sorted(os.listdir(path)))
    if not os.path.exists(path):
        return ""
    with open(path, encoding="utf-8") as file:
        return file.read()


def defines(text, name):
    return re.search(rf"(?m)^\s*(abbrev |unfoldable )?(pub )?(record |data )?{re.escape(name)}( :| \()", text)


def stands(kind, name):
    """Whether the tree has this name; a name of no known form stands."""
    program = re.fullmatch(r"`(\w+)`: ", kind)
    if kind.startswith("edit"):
        crate, edit = name.split("/")
        return os.path.exists(os.path.join(CRATES, crate, "must-fail", edit + ".edit"))
    if kind.startswith("statement"):
        crate, file, item = re.split(r"[/.]", name)
        proof = re.sub(r"(?<!^)(?=[A-Z])", "[-_]", item).lower()
        return defines(read(crate, "specs", file + ".antt"), item) and re.search(rf"(?m)^pub {proof} : {item}$", read(crate, "proofs"))
    if kind.startswith("law"):
        crate, file, law = re.split(r"[/.]", name)
        return defines(read(crate, "proofs", file + ".antt"), law)
    if kind.startswith("case"):
        return name in read("model", "specs", "Cases.antt")
    if program and os.path.isdir(os.path.join(CRATES, program[1])):
        return ("\n" + read(program[1], "stdout")).find("\n" + name) >= 0
    if re.fullmatch(r"\w+::\w+", name):
        crate, item = name.split("::")
        return re.search(rf"(fn|struct|enum) {item}\b", read(crate, "src"))
    found = re.fullmatch(r"(\w+)/([A-Z]\w*)(?:\.([\w-]+))?", name)
    if found:
        text = read(found[1], "specs", found[2] + ".antt")
        return text and (not found[3] or defines(text, found[3]))
    if "/" in name and " " not in name:
        return os.path.exists(os.path.join(ROOT, name))
    return True


def main():
    with open(os.path.join(ROOT, "docs", "TRACE.md"), encoding="utf-8") as file:
        rows = file.read().split("## Introduction")[1]
    missing = []
    # names after one of these words, or after a program's name, are of that kind up to the next ; or |
    for kind, names in re.findall(r"(edits? |statements? |laws? |cases? (?:of )?|`\w+`: )?((?:`[^`|]+`(?:, )?)+)", rows):
        missing += [f"{kind}{name}" for name in re.findall(r"`([^`]+)`", names) if not stands(kind, name)]
    edits = [path.replace("/must-fail/", "/")[:-len(".edit")] for path in sorted(glob.glob("*/must-fail/*.edit", root_dir=CRATES))]
    unnamed = [edit for edit in edits if f"`{edit}`" not in rows]
    for name in dict.fromkeys(missing):
        print("not in the tree:", name)
    for edit in unnamed:
        print("in no row:", edit)
    sys.exit(1 if missing or unnamed else 0)


if __name__ == "__main__":
    main()
