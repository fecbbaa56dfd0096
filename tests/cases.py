# Writes the inputs and the expected outputs of the programs taskfile_cases, planner_cases, join and trace.
# Everything here is computed from documents 01 and 02, and nothing from the programs.
import os
import shutil
import struct

ROOT = os.path.join(os.path.dirname(os.path.abspath(__file__)), "..", "crates")
MOST = 2**32 - 1


def fnv(data):
    h = 2166136261
    for b in data:
        h = (h ^ b) * 16777619 % 2**32
    return h


def sealed(block):
    """The block with its checksum made right."""
    return block[:508] + struct.pack("<I", fnv(block[:508]))


def block(number, start):
    return sealed(start.ljust(504, b"\0") + struct.pack("<I", number) + bytes(4))


def header(n, m, s, q, r, ident, first=0, count=0, second=0, switch=0):
    return block(0, struct.pack("<BBHHHIIIIIII", 1, 0, n, m, s, q, r, ident, first, count, second, switch))


def entry(kind, number, value, reads, armed=False):
    return block(number, struct.pack(f"<BBHI{len(reads)}I", kind, armed, len(reads), value, *reads))


class Task:
    def __init__(self, s, q, r, ident, blocks, preempters, first=0, count=0, second=0, armed=(), switch=0):
        self.s, self.q, self.r, self.ident = s, q, r, ident
        self.first, self.count = first, count  # the memory blocks that bypass the cache
        self.second, self.armed = second, set(armed)  # Q2, and the basic blocks in which the sampler is armed
        self.switch = switch  # G
        self.blocks = blocks  # pairs of a time and the numbers read
        self.preempters = preempters  # pairs of an id and the numbers read
        self.n = len(blocks)
        self.evicted = set().union(*(self.lines(reads) for _, reads in preempters))
        self.useful = [self.useful_at(k) for k in range(self.n + 1)]
        self.accessed = [set()] + [self.lines(reads) for _, reads in blocks]  # T(k), with an empty T(0) before

    def cached(self, reads):
        """The numbers that have a line."""
        return [m for m in reads if not self.first <= m < self.first + self.count]

    def lines(self, reads):
        return {m % self.s for m in self.cached(reads)}

    def file(self):
        b = header(self.n, len(self.preempters), self.s, self.q, self.r, self.ident, self.first, self.count, self.second, self.switch)
        for i, (time, reads) in enumerate(self.blocks):
            b += entry(2, 1 + i, time, reads, 1 + i in self.armed)
        for i, (ident, reads) in enumerate(self.preempters):
            b += entry(3, 1 + self.n + i, ident, reads)
        return b

    def useful_at(self, k):
        """U(k)."""
        held, first = {}, {}
        for _, reads in self.blocks[:k]:
            for m in self.cached(reads):
                held[m % self.s] = m
        for _, reads in self.blocks[k:]:
            for m in self.cached(reads):
                first.setdefault(m % self.s, m)
        return {c for c in held if first.get(c) == held[c]}

    def loaded(self, a, b):
        """Useful at a, evicted, and read in the region, be it for the last time."""
        return self.useful[a] & self.evicted & set().union(*self.accessed[a + 1 : b + 1])

    def cost(self, a, b):
        """What a region adds to the cost of a list: its reloads, and G if it starts at a point."""
        return self.r * len(self.loaded(a, b)) + (self.switch if a > 0 else 0)

    def length(self, a, b):
        return sum(time for time, _ in self.blocks[a:b]) + self.cost(a, b)

    def fits(self, a, b):
        """Within Q, and within Q2 too if one of blocks a + 1 to b is armed."""
        limits = [self.q] + [self.second for k in range(a + 1, b + 1) if k in self.armed]
        return all(self.length(a, b) <= limit for limit in limits)

    def price(self, points):
        """(lines, cost, each preempter's charge), or a refusal as text."""
        before = 0
        for i, p in enumerate(points):
            if not before < p < self.n:
                return f"refused 7 at {i}"
            before = p
        edges = [0, *points, self.n]
        regions = list(zip(edges, edges[1:]))
        for i, (a, b) in enumerate(regions):
            if not self.fits(a, b):
                return f"refused 8 at {i}"
        lines = sum(len(self.loaded(a, b)) for a, b in regions)
        touched = [self.lines(reads) for _, reads in self.preempters]
        charges = [0] * len(touched)
        for a, b in regions:
            for c in self.loaded(a, b):
                charges[[c in t for t in touched].index(True)] += 1
        return lines, self.r * lines + self.switch * len(points), charges

    def plan(self):
        """The first list of least cost, or None. Python orders lists as item 1 does: from the front, and a list before those it begins."""
        least = {self.n: (0, [])}
        for a in reversed(range(self.n)):
            found = [
                (self.cost(a, b) + least[b][0], ([b] if b < self.n else []) + least[b][1])
                for b in range(a + 1, self.n + 1)
                if b in least and self.fits(a, b)
            ]
            if found:
                least[a] = min(found)
        return least[0][1] if 0 in least else None


def seven(q, blocks=None, first=0, count=0, preempter=(1, [4, 1])):
    blocks = blocks or [(20, [0, 1]), (20, [2]), (20, [0]), (20, [5, 0])]
    return Task(4, q, 10, 7, blocks, [preempter], first, count)


def charged_seven(*reads):
    """File Seven at Q 60 with preempters that read these numbers; their ids are 71, 72 and so on."""
    blocks = seven(60).blocks
    return Task(4, 60, 10, 7, blocks, [(71 + i, numbers) for i, numbers in enumerate(reads)])


def armed_seven(second, armed):
    """File Seven at Q 60 with this Q2 and these blocks armed."""
    task = seven(60)
    task.second, task.armed = second, set(armed)
    return task


def switched_seven(q, switch, **others):
    """File Seven with this Q and G."""
    task = seven(q, **others)
    task.switch = switch
    return task


def switched_armed_seven(second):
    """File Seven at Q 60 with G 5, this Q2 and block 4 armed."""
    task = armed_seven(second, [4])
    task.switch = 5
    return task


def join(one, other):
    """Both tasks as one."""
    assert (one.s, one.r, one.first, one.count, one.switch) == (other.s, other.r, other.first, other.count, other.switch)
    blocks, preempters = one.blocks + other.blocks, one.preempters + other.preempters
    second, armed = min(one.second, other.second), one.armed | {one.n + k for k in other.armed}
    return Task(one.s, min(one.q, other.q), one.r, one.ident, blocks, preempters, one.first, one.count, second, armed, one.switch)


# A file as the document has it, but that one or more bytes are changed: (block, position) to value.
def damaged(data, changes, seal=True):
    blocks = [data[i : i + 512] for i in range(0, len(data), 512)]
    for (k, at), value in changes.items():
        blocks[k] = blocks[k][:at] + bytes([value]) + blocks[k][at + 1 :]
        if seal:
            blocks[k] = sealed(blocks[k])
    return b"".join(blocks)


def empty_entries(n, m):
    """Basic blocks 1 to n and preempter blocks n + 1 to n + m that read nothing."""
    basic = b"".join(entry(2, k, 20, []) for k in range(1, n + 1))
    return basic + b"".join(entry(3, k, 0, []) for k in range(n + 1, n + m + 1))


def small_header(n, m, s):
    return header(n, m, s, 60, 10, 7)


def scratch(first, count):
    """File Seven with this range."""
    return seven(60, None, first, count).file()


def largest_task():
    blocks = [(i + 1, [i + 8 * j for j in range(124)]) for i in range(64)]
    preempters = [(i, [16 * i + j for j in range(124)]) for i in range(32)]
    return Task(512, 400, 3, 9, blocks, preempters)


def taskfile_cases():
    f = seven(60).file()  # blocks 1 to 4 are basic blocks, block 5 is a preempter block
    good = "accepted"
    big = largest_task().file()
    assert len(f) == 6 * 512 and len(big) == 49664

    def bad(changes):
        return damaged(f, changes)

    def unsealed(changes):
        return damaged(f, changes, seal=False)

    one = small_header(1, 0, 4) + empty_entries(1, 0)
    any_value = Task(4, MOST, MOST, MOST, [(MOST, [MOST, 0, MOST])], [(MOST, [MOST, 0])], second=MOST, armed=[1], switch=MOST)
    all_zero = Task(1, 0, 0, 0, [(0, [0, 0])], [(0, [0])])
    full = entry(2, 1, 20, list(range(124)))
    full_file = small_header(1, 0, 4) + full
    wide = sealed(full[:2] + struct.pack("<H", 125) + full[4:])
    return [
        ("seven", f, good),
        # the length
        ("len-0", b"", "refused 1 at 0"),
        ("len-1", f[:1], "refused 1 at 0"),
        ("len-511", f[:511], "refused 1 at 0"),
        ("len-513", f[:513], "refused 1 at 0"),
        ("len-1025", one + b"\0", "refused 1 at 0"),
        ("len-50176", big + entry(3, 97, 0, []), "refused 1 at 0"),
        ("largest", big, good),
        # the checksum
        ("sum-block-0", unsealed({(0, 508): f[508] ^ 1}), "refused 2 at 0"),
        ("sum-block-0-body", unsealed({(0, 16): 8}), "refused 2 at 0"),
        ("sum-block-3", unsealed({(3, 511): f[4 * 512 - 1] ^ 128}), "refused 2 at 3"),
        ("sum-block-5-body", unsealed({(5, 507): 1}), "refused 2 at 5"),
        ("sum-blocks-2-4", unsealed({(4, 4): 99, (2, 4): 99}), "refused 2 at 2"),
        ("zeros-512", bytes(512), "refused 2 at 0"),
        # the header
        ("header-kind-0", bad({(0, 0): 0}), "refused 3 at 0"),
        ("header-kind-2", bad({(0, 0): 2}), "refused 3 at 0"),
        ("header-number", bad({(0, 504): 1}), "refused 3 at 0"),
        ("header-number-high", bad({(0, 507): 1}), "refused 3 at 0"),
        ("header-byte-1", bad({(0, 1): 1}), "refused 3 at 0"),
        ("header-byte-36", bad({(0, 36): 1}), "refused 3 at 0"),
        ("header-byte-503", bad({(0, 503): 1}), "refused 3 at 0"),
        ("n-0", small_header(0, 1, 4) + empty_entries(0, 1), "refused 3 at 0"),
        ("n-65", small_header(65, 0, 4) + empty_entries(65, 0), "refused 3 at 0"),
        ("n-257", small_header(257, 0, 4) + empty_entries(1, 0), "refused 3 at 0"),
        ("m-33", small_header(1, 33, 4) + empty_entries(1, 33), "refused 3 at 0"),
        ("s-0", small_header(1, 0, 0) + empty_entries(1, 0), "refused 3 at 0"),
        ("s-513", small_header(1, 0, 513) + empty_entries(1, 0), "refused 3 at 0"),
        # each byte of the scratch range's first number and of its count, of Q2 and of G; and the sums of the range
        *((f"header-byte-{at}", bad({(0, at): 255}), good) for at in range(20, 36)),
        ("scratch-first-largest", scratch(MOST, 0), good),
        ("scratch-count-largest", scratch(0, MOST), good),
        ("scratch-first-to-2-32", scratch(MOST, 1), good),
        ("scratch-count-to-2-32", scratch(1, MOST), good),
        ("scratch-halves-to-2-32", scratch(2**31, 2**31), good),
        ("scratch-first-beyond", scratch(MOST, 2), "refused 3 at 0"),
        ("scratch-count-beyond", scratch(2, MOST), "refused 3 at 0"),
        ("scratch-halves-beyond", scratch(2**31, 2**31 + 1), "refused 3 at 0"),
        ("scratch-largest", scratch(MOST, MOST), "refused 3 at 0"),
        ("scratch-beyond-and-count", scratch(MOST, 2)[: 5 * 512], "refused 3 at 0"),
        # the ends of the ranges
        ("n-1-m-0-s-1", small_header(1, 0, 1) + empty_entries(1, 0), good),
        # the count of blocks
        ("count-one-few", f[: 5 * 512], "refused 4 at 0"),
        ("count-one-more", f + entry(3, 6, 0, []), "refused 4 at 0"),
        ("count-header-only", f[:512], "refused 4 at 0"),
        # the basic blocks
        ("basic-kind-3", bad({(2, 0): 3}), "refused 5 at 2"),
        ("basic-kind-1", bad({(1, 0): 1}), "refused 5 at 1"),
        ("basic-number", bad({(3, 504): 2}), "refused 5 at 3"),
        ("basic-number-high", bad({(3, 505): 1}), "refused 5 at 3"),
        ("basic-armed", bad({(4, 1): 1}), good),
        ("basic-all-armed", bad({(1, 1): 1, (2, 1): 1, (3, 1): 1, (4, 1): 1}), good),
        ("basic-byte-1-2", bad({(4, 1): 2}), "refused 5 at 4"),
        ("basic-byte-1-255", bad({(1, 1): 255}), "refused 5 at 1"),
        ("basic-after-reads", bad({(1, 16): 1}), "refused 5 at 1"),
        ("basic-byte-503", bad({(4, 503): 1}), "refused 5 at 4"),
        ("r-0", small_header(1, 0, 4) + entry(2, 1, 20, []), good),
        ("r-0-byte-8", small_header(1, 0, 4) + damaged(entry(2, 1, 20, []), {(0, 8): 1}), "refused 5 at 1"),
        ("r-124", full_file, good),
        ("r-124-byte-503", damaged(full_file, {(1, 503): 255}), good),
        ("r-125", small_header(1, 0, 4) + wide, "refused 5 at 1"),
        ("r-256", damaged(one, {(1, 3): 1}), "refused 5 at 1"),
        ("r-125-block-96", damaged(big, {(96, 2): 125}), "refused 5 at 96"),
        # the preempter blocks
        ("preempter-kind-2", bad({(5, 0): 2}), "refused 5 at 5"),
        ("preempter-number", bad({(5, 504): 0}), "refused 5 at 5"),
        ("preempter-armed", bad({(5, 1): 1}), "refused 5 at 5"),
        ("preempter-byte-1", bad({(5, 1): 255}), "refused 5 at 5"),
        ("preempter-after-reads", bad({(5, 16): 1}), "refused 5 at 5"),
        # two at once
        ("blocks-2-4", bad({(4, 1): 2, (2, 503): 1}), "refused 5 at 2"),
        ("blocks-3-5", bad({(5, 0): 2, (3, 504): 9}), "refused 5 at 3"),
        ("blocks-swapped", f[:512] + f[1024:1536] + f[512:1024] + f[1536:], "refused 5 at 1"),
        ("header-and-sum-4", damaged(bad({(0, 0): 2}), {(4, 4): 1}, seal=False), "refused 2 at 4"),
        ("header-and-count", bad({(0, 1): 1})[: 5 * 512], "refused 3 at 0"),
        ("header-and-block-1", bad({(0, 36): 1, (1, 1): 2}), "refused 3 at 0"),
        ("count-and-block-2", bad({(2, 0): 9})[: 5 * 512], "refused 4 at 0"),
        ("count-and-sum-2", unsealed({(2, 8): 77})[: 5 * 512], "refused 2 at 2"),
        ("block-1-and-sum-5", damaged(bad({(1, 0): 3}), {(5, 9): 1}, seal=False), "refused 2 at 5"),
        ("len-and-header", bad({(0, 0): 2})[:513], "refused 1 at 0"),
        # any value, and repeats
        ("all-largest", any_value.file(), good),
        ("all-zero", all_zero.file(), good),
    ]


# Q2 and the blocks in which the sampler is armed
ARMED = [
    ("none", 0, []),
    ("1", 20, [1]),
    ("1-19", 19, [1]),
    ("3", 30, [3]),
    ("3-29", 29, [3]),
    ("3-50", 50, [3]),
    ("4", 30, [4]),
    ("4-50", 50, [4]),
    ("2-and-3", 30, [2, 3]),
    ("all-39", 39, [1, 2, 3, 4]),
    ("all-40", 40, [1, 2, 3, 4]),
    ("all-70", 70, [1, 2, 3, 4]),
]


def planner_tasks():
    lone = [(60, [0])]
    high = [(30, [300, 512]), (20, [512, 44, 300]), (20, [300, 512])]
    preempters = [(1, [812]), (2, [0])]  # lines 300 and 0
    others = [(MOST, [1024, 0, 512]), (0, [300, 1324])]  # lines 0 and 300
    wide = [(MOST, [1]), (1, []), (0, [1]), (0, [1])]  # points 1 and 2 are in every list that fits; 3 reloads line 1 once more
    dear = [(40, [0]), (10, [1, 2]), (10, [1, 2]), (40, [3])]  # point 2 reloads two lines, and 1, 3 none
    halves = [(2**31 - 1, [])] * 4  # behind a point one of them fits, and before all points two
    return [
        ("seven-70", seven(70)),  # 1 and 1, 2 cost the same, and 1 begins the other
        ("seven-60", seven(60)),
        ("seven-60-other", seven(60, preempter=(9, [1, 8, 0]))),  # the lines of seven-60's preempter
        ("seven-40", seven(40)),
        ("seven-30", seven(30)),
        ("seven-29", seven(29)),
        ("seven-scratch", seven(60, first=0, count=1)),  # number 0 bypasses the cache
        ("seven-scratch-4", seven(60, first=4, count=1)),  # 4 does, which the preempter reads
        ("seven-scratch-4-other", seven(60, first=4, count=1, preempter=(0, [4, 9, 4]))),  # line 1, as seven-scratch-4's
        ("charged-1-then-4-1", charged_seven([1], [4, 1])),  # line 0 is reloaded, which 0, 4 and 8 touch
        ("charged-4-then-4-1", charged_seven([4], [4, 1])),
        ("charged-third", charged_seven([], [3], [8], [0])),
        ("charged-4-then-1", charged_seven([4], [1])),  # the same lines together as the next, and other charges
        ("charged-1-then-4", charged_seven([1], [4])),
        *((f"seven-armed-{name}", armed_seven(second, armed)) for name, second, armed in ARMED),
        *((f"seven-switch-{q}", switched_seven(q, 5)) for q in [80, 60, 55, 50, 40, 35, 34]),
        *((f"seven-long-switch-{q}", switched_seven(q, 100)) for q in [80, 79]),
        ("seven-switch-scratch", switched_seven(60, 5, first=0, count=1)),  # a switch is paid for though nothing is reloaded
        *((f"seven-switch-armed-4-{second}", switched_armed_seven(second)) for second in [35, 34]),
        *((f"dear-switch-{switch}", Task(4, 55, 1, 7, dear, [(1, [1, 2])], switch=switch)) for switch in [1, 2, 3]),  # 2: the same cost
        ("one-60", seven(60, lone)),
        ("one-59", seven(59, lone)),
        ("last-read", seven(40, [(20, [0]), (20, [2]), (20, [0])])),  # the last read of line 0 is its only reload
        ("same-read", seven(60, [(20, [0])] * 4)),  # regions (1, 2), (2, 3) and (3, 4) reload line 0
        ("high-70", Task(512, 70, 10, 3, high, preempters)),
        ("high-45", Task(512, 45, 10, 3, high, preempters)),
        ("high-45-other", Task(512, 45, 10, 3, high, others)),
        ("high-scratch", Task(512, 45, 10, 3, high, preempters, 300, 213)),  # 300 and 512 are the ends of the range
        ("wide", Task(512, MOST, MOST, MOST, wide, [(0, [1])])),
        ("wide-switch", Task(512, MOST, MOST, MOST, halves, [], switch=2**31)),
        ("largest", largest_task()),
    ]


def joined_tasks():
    ticket = Task(8, 100, 5, 21, [(30, [1, 2, 64]), (25, [3, 1])], [(501, [9])], 64, 8, 80, [2], 3)
    archive = Task(8, 90, 5, 22, [(20, [2, 3]), (35, [11, 65]), (15, [2, 3])], [(502, [10, 70]), (503, [])], 64, 8, 78, [1, 3], 3)
    return [
        ("ticket", ticket),
        ("archive", archive),
        ("ticket-archive", join(ticket, archive)),
        ("archive-ticket", join(archive, ticket)),
    ]


LISTS = [[], [1], [2], [1, 2], [3], [1, 3], [2, 3], [1, 2, 3], [2, 2], [0], [4], [3, 1]]


def words(numbers):
    return " ".join(str(n) for n in numbers) or "none"


def priced(price):
    return price if isinstance(price, str) else f"lines {price[0]} cost {price[1]}"


def charged(price):
    return priced(price) if isinstance(price, str) else f"{priced(price)} charges {words(price[2])}"


def plan_line(task):
    points = task.plan()
    if points is None:
        return "plan refused 6 at 0"
    return f"plan points {words(points)} {priced(task.price(points))}"


def useful_line(task, k):
    if k > task.n:
        return f"useful {k} refused 7 at 0"
    return f"useful {k} lines {words(sorted(task.useful[k]))}"


def region_line(task, a, b):
    if not a < b <= task.n:
        return f"region {a} {b} refused 7 at 0"
    return f"region {a} {b} lines {words(sorted(task.loaded(a, b)))} length {task.length(a, b)}"


def task_lines(name, task):
    lines = [f"file {name}", plan_line(task)]
    if task.n <= 4:
        n = task.n
        pairs = [(a, b) for a in range(n) for b in range(a + 1, n + 1)]
        lines += [useful_line(task, k) for k in range(n + 2)]
        lines += [region_line(task, a, b) for a, b in pairs + [(1, 1), (2, 1), (0, n + 1)]]
        lines += [f"list {words(ps)} {charged(task.price(ps))}" for ps in LISTS]
    return "".join(line + "\n" for line in lines)


def write(name, files, args, stdout):
    folder = os.path.join(ROOT, name)
    data = os.path.join(folder, "data")
    shutil.rmtree(data, ignore_errors=True)
    os.makedirs(data)
    for file, content in files:
        with open(os.path.join(data, file), "wb") as out:
            out.write(content)
    with open(os.path.join(folder, "args"), "w") as out:
        out.write("".join(arg + "\n" for arg in args))
    with open(os.path.join(folder, "stdout"), "wb") as out:
        out.write(stdout)


def write_taskfile_cases():
    cases = taskfile_cases()
    names = [name for name, _, _ in cases]
    assert len(set(names)) == len(names)
    lines = "".join(f"{name} {answer}\n" for name, _, answer in cases)
    write("taskfile_cases", [(name, content) for name, content, _ in cases], names, lines.encode())


def write_planner_cases():
    tasks = planner_tasks()
    lines = "".join(task_lines(name, task) for name, task in tasks)
    write("planner_cases", [(name, task.file()) for name, task in tasks], [name for name, _ in tasks], lines.encode())


def write_price():
    folder = os.path.join(ROOT, "price")
    task, points = charged_seven([], [3], [8], [0]), [1, 2, 3]
    lines, cost, charges = task.price(points)
    edges = [0, *points, task.n]
    printed = [f"task {task.ident} blocks {task.n} points {len(points)} lines {lines} cost {cost}"]
    printed += [f"region {a} {b} length {task.length(a, b)}" for a, b in zip(edges, edges[1:])]
    printed += [f"preempter {i} id {ident} lines {charge}" for i, ((ident, _), charge) in enumerate(zip(task.preempters, charges))]
    with open(os.path.join(folder, "stdin"), "wb") as out:
        out.write(task.file())
    for name, lines in [("args", points), ("stdout", printed)]:
        with open(os.path.join(folder, name), "w") as out:
            out.write("".join(f"{line}\n" for line in lines))


def write_join():
    files = [(name, task.file()) for name, task in joined_tasks()]
    write("join", files, ["ticket", "archive"], dict(files)["ticket-archive"])


# A loop over a table of eight words at 1000, with its code at 400 and a counter at 2FFC.
TRACE = """2 400
0 2FFC
2 404
0 1000
2 408
0 1004
2 40c
1 2FFC
2 400
0 2ffc
2 404
0 1008
2 408
0 100C
2 40C
1 2ffc
2 410
1 00001020
"""


def traced(text, size, g, ticks, s, q, r, ident):
    """The task of a trace whose lines are all right."""
    numbers = [int(line.split(" ")[1], 16) // size for line in text.splitlines()]
    groups = [numbers[i : i + g] for i in range(0, len(numbers), g)]
    return Task(s, q, r, ident, [(len(group) * ticks, group) for group in groups], [])


def write_trace():
    numbers = [16, 8, 10, 64, 200, 25, 11]
    folder = os.path.join(ROOT, "trace")
    with open(os.path.join(folder, "stdin"), "w") as out:
        out.write(TRACE)
    with open(os.path.join(folder, "args"), "w") as out:
        out.write("".join(f"{number}\n" for number in numbers))
    with open(os.path.join(folder, "stdout"), "wb") as out:
        out.write(traced(TRACE, *numbers).file())


if __name__ == "__main__":
    write_taskfile_cases()
    write_planner_cases()
    write_price()
    write_join()
    write_trace()
