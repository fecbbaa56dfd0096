# format.py LIBRARY: holds docs/FORMAT.txt to the bytes. File Seven and its plan block are built from the tables of that page alone, with a checksum of
# our own, and compared with the page's example, with examples/firmware/seven.bin and with what the C calls of the shared library LIBRARY leave. Every byte
# without a row, the least and the most of every value, and each two refusals of a call are then tried by these calls. What the C example should print
# is computed from documents 01 and 02 by cases.py.
import ctypes
import os
import re
import sys

from cases import Task, seven

ROOT = os.path.join(os.path.dirname(os.path.abspath(__file__)), "..")
DUMP = r"(?m)^  ([0-9a-f]{4}): ((?:[0-9a-f]{2} ?)+)$"
tried, faults = 0, []


def read(*path):
    with open(os.path.join(ROOT, *path), "rb") as file:
        return file.read()


PAGE = read("docs", "FORMAT.txt").decode()


def hold(right, what):
    global tried
    tried += 1
    if not right:
        faults.append(what)


class Row:
    """A row of a table: a field, or a list of fields, and the least and the most that it may hold; none where the page says it in words."""

    def __init__(self, at, width, each, name, value):
        self.at, self.width, self.each, self.name = int(at), int(width), bool(each), name
        limits = re.match(r"(\d+) to (\d+)(?:;|$)", value)
        if limits:
            self.limits = int(limits[1]), int(limits[2])
        elif re.match("any(;|$)", value):
            self.limits = 0, 256**self.width - 1
        else:
            self.limits = (int(value), int(value)) if value.isdigit() else None


def read_tables():
    """The rows of each table by name, under the words of its title before the comma."""
    found = re.findall(r"(?m)^([A-Z][\w ]*).*\n\n  at +bytes +field +value\n((?:  \d.*\n)+)", PAGE)
    row = re.compile(r"(?m)^  (\d+) +(\d+)( each)? +(\w+) +(.*)$")
    return {title: {cells[3]: Row(*cells) for cells in row.findall(rows)} for title, rows in found}


TABLES = read_tables()
END = TABLES["Every block"]
START, FACTOR = (int(number) for number in re.search(r"Start with (\d+)\..* multiply by (\d+) ", PAGE).groups())


def fnv(data):
    state = START
    for byte in data:
        state = (state ^ byte) * FACTOR % 2**32
    return state


def put(block, row, value, index=0):
    at = row.at + row.width * index
    block[at : at + row.width] = value.to_bytes(row.width, "little")


def sealed(block):
    block = bytearray(block)
    put(block, END["checksum"], fnv(block[: END["checksum"].at]))
    return bytes(block)


def make_block(title, place=0, **fields):
    """A block by its table: its kind and what is given, a number or a list, and 0 in all else."""
    block, table = bytearray(512), TABLES[title]
    put(block, table["kind"], table["kind"].limits[0])
    put(block, END["number"], place)
    for name, value in fields.items():
        for index, one in enumerate(value if table[name].each else [value]):
            put(block, table[name], one, index)
    return sealed(block)


def make_plan(points, blocks=4, **fields):
    return make_block("Plan block", N=blocks, count=len(points), points=points, **fields)


HEADER = {"N": 4, "M": 1, "S": 4, "Q": 60, "R": 10, "id": 7}
READS = [[0, 1], [2], [0], [5, 0]]


def make_seven(**header):
    """The blocks of File Seven, with other numbers in its header where some are given."""
    blocks = [make_block("Basic block", 1 + i, count=len(reads), time=20, reads=reads) for i, reads in enumerate(READS)]
    preempter = make_block("Preempter block", 5, count=2, id=0, reads=[4, 1])
    return [make_block("Header", **{**HEADER, **header}), *blocks, preempter]


def changed(block, at, value, width=1):
    return sealed(block[:at] + value.to_bytes(width, "little") + block[at + width :])


class Calls:
    def __init__(self, path):
        library = ctypes.CDLL(path)
        lent = [ctypes.c_char_p, ctypes.c_size_t]
        self.calls = {"preempt_plan": library.preempt_plan, "preempt_price": library.preempt_price}
        self.calls["preempt_plan"].argtypes, self.calls["preempt_price"].argtypes = lent * 2, lent * 3
        for call in self.calls.values():
            call.restype = ctypes.c_uint32

    def call(self, name, inputs, length=512):
        """The number and the place that a call returns, and the block that it leaves."""
        block = ctypes.create_string_buffer(512)
        lent = [part for data in inputs for part in (data, len(data))]
        returned = self.calls[name](*lent, block, length)
        return returned // 65536, returned % 65536, block.raw

    def refusal(self, title, place, block):
        """What is refused where this block, of the kind that the title says, is at its place in File Seven, or is the plan block that is priced."""
        file = make_seven()
        if title == "Plan block":
            return self.call("preempt_price", [b"".join(file), block])[:2]
        file[place] = block
        return self.call("preempt_plan", [b"".join(file)])[:2]


def hold_example(calls):
    """The page's example, and the plan block that the library makes of it."""
    dumps = [bytearray(3072), bytearray(512)]
    for at, row in re.findall(DUMP, PAGE.split("Its plan block")[0]):
        dumps[0][int(at, 16) : int(at, 16) + 16] = bytes.fromhex(row)
    for at, row in re.findall(DUMP, PAGE.split("Its plan block")[1]):
        dumps[1][int(at, 16) : int(at, 16) + 16] = bytes.fromhex(row)
    file, plan = b"".join(make_seven()), make_plan([1, 2], lines=1, cost=10, id=7)
    hold(dumps[0] == file, "File Seven of the page is not what the tables make")
    hold(dumps[1] == plan, "the plan block of the page is not what the table makes")
    hold(read("examples", "firmware", "seven.bin") == file, "seven.bin is not what the tables make")
    hold(calls.call("preempt_plan", [file]) == (0, 0, plan), "preempt_plan leaves another block")
    hold(calls.call("preempt_price", [file, make_plan([1, 2])]) == (0, 0, plan), "preempt_price leaves another block")
    one = make_plan([2], lines=1, cost=10, id=7)
    hold(calls.call("preempt_price", [file, make_plan([2])]) == (0, 0, one), "preempt_price leaves another block for point 2")


def hold_fields():
    """A file with another number in each field is the one that cases.py makes by document 01."""
    task = Task(3, 61, 11, 8, [(21, [7]), (22, [6, 5])], [(9, [4, 3, 2])], first=100, count=13, second=45, armed=[2], switch=14)
    header = {"N": 2, "M": 1, "S": 3, "Q": 61, "R": 11, "id": 8, "first": 100, "count": 13, "Q2": 45, "G": 14}
    blocks = [
        make_block("Header", **header),
        make_block("Basic block", 1, count=1, time=21, reads=[7]),
        make_block("Basic block", 2, armed=1, count=2, time=22, reads=[6, 5]),
        make_block("Preempter block", 3, count=3, id=9, reads=[4, 3, 2]),
    ]
    hold(b"".join(blocks) == task.file(), "the fields of a task file are not those of document 01")


def hold_vectors():
    vectors = re.findall(r"(?m)^  0x([0-9a-f]{8}) +(.*)$", PAGE)
    for state, of in vectors:
        data = {"no byte": b"", "508 bytes of 0": bytes(508)}.get(of, of.strip('"').encode())
        hold(fnv(data) == int(state, 16), f"the checksum of {of}")
    hold(len(vectors) == 4, "not four vectors of the checksum")


# What a wrong block of each kind is refused with, at its place in File Seven.
KINDS = [("Header", 0, (3, 0)), ("Basic block", 2, (5, 2)), ("Preempter block", 5, (5, 5)), ("Plan block", 0, (5, 97))]


def empty_block(title, place):
    """A block of this kind with no reads and no points, and accepted."""
    fields = {"Header": HEADER, "Plan block": {"N": 4}}.get(title, {})
    return make_block(title, place, **fields)


def hold_bytes(calls, title, place, wrong):
    """Kind, number and each byte without a row: another value is refused. With no reads and no points a list has no byte."""
    block = empty_block(title, place)
    rows = [row for row in TABLES[title].values() if row.name != "kind" and not row.each]
    free = {at for row in rows for at in range(row.at, row.at + row.width)}
    hold(calls.refusal(title, place, block) != wrong, f"{title}: refused")
    for at in set(range(END["checksum"].at)) - free:
        hold(calls.refusal(title, place, changed(block, at, block[at] ^ 1)) == wrong, f"{title}: byte {at} may be other than the page says")


def hold_values(calls, title, place, wrong):
    """The least and the most of each field are accepted, and what is beyond them is not."""
    for row in TABLES[title].values():
        if row.each or (title, row.name) == ("Plan block", "count"):
            continue
        least, most = row.limits
        for value in (value for value in (0, least - 1, least, most, most + 1) if 0 <= value < 256**row.width):
            refused = calls.refusal(title, place, changed(empty_block(title, place), row.at, value, row.width)) == wrong
            hold(refused != (least <= value <= most), f"{title}: {row.name} {value}")


def hold_lists(calls):
    """Points: the most, and each way to be wrong. The end of the bypassed memory blocks."""
    most = TABLES["Plan block"]["count"].limits[1]
    file = b"".join(make_seven(N=64, M=0)[:1] + [make_block("Basic block", k) for k in range(1, 65)])
    for points, right in [([], 1), (range(1, most + 1), 1), (range(1, most + 2), 0), ([0], 0), ([1, 1], 0), ([2, 1], 0), ([63], 1), ([64], 0)]:
        refused = calls.call("preempt_price", [file, make_plan(list(points), 64)])[:2] == (5, 97)
        hold(refused != bool(right), f"Plan block: points {list(points)}")
    for first, right in [(0, 1), (1, 1), (2, 0)]:
        header = make_block("Header", **HEADER, first=first, count=2**32 - 1)
        hold((calls.refusal("Header", 0, header) == (3, 0)) != bool(right), f"Header: {first} + {2**32 - 1}")


def damaged(flaws):
    """File Seven, a plan block and the length of an output with all these flaws, each a number and the input that it is of."""
    q = 10 if (6, "file") in flaws or (8, "points") in flaws else 60
    blocks = make_seven(Q=q, S=513 if (3, "file") in flaws else 4, M=2 if (4, "file") in flaws else 1)
    if (5, "file") in flaws:
        blocks[3] = changed(blocks[3], 0, 9)
    if (2, "file") in flaws:
        blocks[2] = blocks[2][:511] + bytes([blocks[2][511] ^ 1])
    points = make_plan([1, 9] if (7, "points") in flaws else [1], 64)
    if (5, "points") in flaws:
        points = changed(points, 0, 9)
    if (2, "points") in flaws:
        points = points[:511] + bytes([points[511] ^ 1])
    file = b"".join(blocks)
    return file[: -1 if (1, "file") in flaws else None], points[: -1 if (1, "points") in flaws else None], 511 if (9, "block") in flaws else 512


# The places of damaged's flaws; 0 where none is given.
PLACES = {(2, "file"): 2, (5, "file"): 3, (1, "points"): 97, (2, "points"): 97, (5, "points"): 97, (7, "points"): 1}


def hold_order(calls, name, count):
    """Of any two refusals of a call the one that comes first on the page is given, and alone each is."""
    table = re.search(rf"(?m)^  {name}\n((?:  \d .*\n)+)", PAGE)[1]
    order = [(int(number), of) for number, of in re.findall(r"(?m)^  (\d)   (\w+) .* place", table)]
    said = re.findall(r"(?m) place(?: (\d+)|: .*)$", table)
    hold(len(order) == count, f"{name}: the page has {len(order)} refusals")
    for i, first in enumerate(order):
        place = PLACES.get(first, 0)
        hold(said[i] in ("", str(place)), f"{name}: the place of {first}")
        for other in order[i:]:
            file, points, length = damaged({first, other})
            inputs = [file] if name == "preempt_plan" else [file, points]
            hold(calls.call(name, inputs, length) == (first[0], place, bytes(512)), f"{name}: {first} does not come before {other}")


def hold_header():
    """The positions of a plan block in preempt.h are those of the page."""
    found = re.findall(r"#define PREEMPT_PLAN_(\w+)_AT (\d+) +/\* (\d) byte", read("include", "preempt.h").decode())
    rows = {**END, **TABLES["Plan block"]}
    stated = {"N" if name == "BLOCKS" else name.lower(): (int(at), int(width)) for name, at, width in found}
    hold(stated == {name: (row.at, row.width) for name, row in rows.items()}, "preempt.h has other positions of a plan block")


def hold_expected():
    """What the C example should print, from the documents."""
    task, first = seven(60), seven(60).plan()

    def line(points):
        priced = task.price(points)
        if isinstance(priced, str):
            return priced + ": a region is above the limit"
        return f"task 7 blocks 4 points {len(points)} lines {priced[0]} cost {priced[1]} at {' '.join(map(str, points))}"

    lines = [f"planned: {line(first)}", f"priced: {line(first)}"]
    lines += [f"without {point}: {line([other for other in first if other != point])}" for point in first]
    hold(read("examples", "firmware", "expected").decode().splitlines() == lines, "expected is not what the documents say")


def main():
    if len(sys.argv) != 2:
        sys.exit("usage: format.py LIBRARY")
    calls = Calls(os.path.abspath(sys.argv[1]))
    hold_vectors()
    hold_header()
    hold_expected()
    hold_fields()
    hold_example(calls)
    for title, place, wrong in KINDS:
        hold_bytes(calls, title, place, wrong)
        hold_values(calls, title, place, wrong)
    hold_lists(calls)
    hold_order(calls, "preempt_plan", 7)
    hold_order(calls, "preempt_price", 11)
    print("\n".join(faults), end="\n" if faults else "")
    print(f"FORMAT.txt: {tried} tried, {len(faults)} wrong")
    sys.exit(bool(faults))


if __name__ == "__main__":
    main()
