# Holds docs/PROOF.md to the tree: each name stands in the file that the page gives and is cited by the contract of its call, or is proved, and no
# statement is left out; functions, crates and edits are as many as the page says. proof_page.py FILE holds it also to what rt ci printed, which the file has:
# the last line of each check, the axioms, and the gate's last line. Of a crate that an earlier run has proved rt ci prints no check.
import glob
import os
import re
import sys
from collections import Counter

from trace import stands

os.chdir(os.path.join(os.path.dirname(os.path.abspath(__file__)), ".."))
PAGE = open("docs/PROOF.md", encoding="utf-8").read()
PRINTING = {"desk", "report"}
faults = []


def hold(right, what):
    if not right:
        faults.append(what)


def rows(head):
    """The cells of each row of the table whose head starts so."""
    table = re.search(rf"(?m)^\| {re.escape(head)} \|.*\n\|[-|]+\n((?:\|.*\n)+)", PAGE)
    hold(table, f"no table {head}")
    return [line.strip("|").split("|") for line in table[1].splitlines()] if table else []


def cited(cell):
    """The pairs of a file and a name in a cell, as trace.py writes them: `model/Laws.OneFirst`."""
    for names, crate, file in re.findall(r"((?:`\w+`(?:, )?)+) in `(\w+)/specs/(\w+)\.antt`", cell):
        yield from (f"{crate}/{file}.{name}" for name in re.findall(r"`(\w+)`", names))


def functions(crate):
    """The text of each function of a crate, by name."""
    text = "".join(open(path, encoding="utf-8").read() for path in sorted(glob.glob(f"crates/{crate}/src/*.rt")))
    parts = re.split(r"(?m)^ *(?:pub )?(?:extern \"C\" )?fn (\w+)", text)
    return [(name, rest) for name, rest in zip(parts[1::2], parts[2::2]) if has_body(rest)]


def has_body(text):
    """Whether a function is defined there, and not only declared in a trait."""
    return next(line for line in text.splitlines() if line.endswith(("{", ";"))).endswith("{")


def promises(text):
    """The lines of a function from its first ensures to its body."""
    return re.findall(r"(?ms)^ +ensures (?:\w+ )?\{.*?^ *\{$", text)


def asks(text):
    return re.search(r"(?m)^ +requires (?:\w+ )?\{", text)


def hold_calls():
    for call, _, defined in rows("Call"):
        crate, name = re.search(r"`(\w+)::(\w+)`", call).groups()
        texts = [text for other, text in functions(crate) if other == name]
        promised = "".join(part for text in texts for part in promises(text))
        found = list(cited(defined))
        hold(found, f"{crate}::{name}: no definition")
        hold(any(map(asks, texts)) == (crate == "planning"), f"{crate}::{name}: whether it has a requires")
        for item in found:
            hold(stands("", item), f"not in the tree: {item}")
            hold(re.search(rf"\b{item.split('.')[1]}\b", promised), f"no contract of {crate}::{name} cites {item}")


def hold_public():
    """Each public function of the planner and of the C calls has a row, and C has those of firmware, with the same parameters and clauses."""
    for crate in ("firmware", "planner"):
        for name in re.findall(r"(?m)^pub fn (\w+)", open(f"crates/{crate}/src/lib.rt", encoding="utf-8").read()):
            hold(f"| `{crate}::{name}` |" in PAGE, f"no row: {crate}::{name}")
    head = {name: text.partition("\n{\n")[0] for name, text in functions("firmware")}
    for name, text in functions("firmware_c"):
        hold(text.partition("\n{\n")[0] == head.get(name), f"firmware_c::{name} has not the contract of firmware::{name}")


def statements():
    """Each type of specs/ that is proved under its name in small letters."""
    for path in sorted(glob.glob("crates/*/specs/*.antt")):
        _, crate, _, file = path[: -len(".antt")].split("/")
        for name in re.findall(r"(?m)^(?:abbrev )?pub (?:record )?([A-Z]\w*)(?= :| \()", open(path, encoding="utf-8").read()):
            if stands("statement ", f"{crate}/{file}.{name}"):
                yield f"{crate}/{file}.{name}"


def hold_statements():
    found = set()
    for what, stated in rows("What"):
        items = set(cited(stated))
        hold(items, f"no statement: {what}")
        found |= items
    proved = set(statements())
    faults.extend(f"not proved: {item}" for item in sorted(found - proved))
    faults.extend(f"no row: {item}" for item in sorted(proved - found))


class Check:
    """What rt ci printed of a crate's check."""

    def __init__(self, said):
        self.line = "".join(re.findall(r"(?m)^logic=proved .*$", said)[-1:])
        self.proved = Counter(re.findall(r"(?m)^fn \w+(?:::[^:\s]+)*?::(\w+): proved$", said))
        self.axioms = sum(map(int, re.findall(r" axioms=(\d+)", self.line)))
        self.of = {library: int(count) for library, count in re.findall(r"(?m)^axioms (\w+): .*\((\d+) of the \d+ declared\)$", said)}


def checks_in(printed):
    """The check of each crate that rt ci proved in its run, by name."""
    parts = re.split(r"(?m)^== (\w+)$", re.sub(r"(?ms)^== \w+: its tests$.*?^rt: \w+: its tests are .*?$", "", printed))
    return {crate: Check(said) for crate, said in zip(parts[1::2], parts[2::2])}


def hold_axioms(checks, programs):
    found = {}
    for names, *counts in rows("Programs"):
        found.update({name: tuple(map(int, counts)) for name in re.findall(r"`(\w+)`", names)})
    hold(found.keys() == programs, f"axioms: not in the page, or no program: {' '.join(sorted(found.keys() ^ programs))}")
    for crate, check in checks.items():
        right = (check.axioms, check.of.get("libc", 0), check.of.get("os", 0))
        told = found.get(crate, (0, 0, 0))
        hold(told == right, f"axioms of {crate}: the page has {told}, the check {right}")


def hold_counts(crates, programs, printed):
    libraries = set(crates) - programs
    for cells, some in zip(rows("Crates"), (libraries - PRINTING, libraries & PRINTING, programs)):
        found = [text for crate in some for _, text in functions(crate)]
        right = len(found), sum(map(bool, map(promises, found)))
        hold(tuple(map(int, cells[1:])) == right, f"functions of{cells[0]}: {right}")
    edits = len(glob.glob("crates/*/must-fail/*.edit"))
    passed = f"{len(crates) + edits} passed, 0 failed"
    said = f"`{passed}`, of {len(crates)} crates and {edits} edits"
    hold(said in PAGE, f"the gate: {said}")
    hold(not printed or printed.splitlines()[-1] == passed, f"the gate: {printed.splitlines()[-1:]}, and not {passed}")


def hold_checks(checks):
    """Each function of the sources is proved, the words that the page explains are those on the last lines, and no other word trusts something."""
    explained = {word for cell, _ in rows("Word") for word in re.findall(r"`([\w-]+=[\w,]*)`", cell)}
    for crate, check in checks.items():
        missing = Counter(name for name, _ in functions(crate)) - check.proved
        hold(not missing, f"{crate}: not proved: {' '.join(sorted(missing))}")
        words = {word for word in check.line.split() if re.match(r"native=|pinned=|\S+=trusted$", word)}
        hold(words <= explained, f"{crate}: the page does not explain {' '.join(sorted(words - explained))}")


def main(path=None):
    crates = re.findall(r"(?m)^(\w+)(?: staticlib)?:", open("crates.txt", encoding="utf-8").read())
    programs = {crate for crate in crates if os.path.exists(f"crates/{crate}/src/main.rt")}
    printed = open(path, encoding="utf-8").read() if path else ""
    checks = checks_in(printed)
    hold_calls()
    hold_public()
    hold_statements()
    hold_axioms(checks, programs)
    hold_counts(crates, programs, printed)
    hold_checks(checks)
    print("\n".join(faults), end="\n" if faults else "")
    sys.exit(bool(faults))


if __name__ == "__main__":
    main(*sys.argv[1:])
