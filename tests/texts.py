# texts.py [SEED [COUNT]]: feeds texts of tasks to assemble and task files to show, and says where one of them answers something else than the
# reader and writer of texts and of files below. Fixed cases first, then COUNT random tasks, whose texts and files are damaged too.
# Everything here is computed from README.md and docs/FORMAT.txt, and nothing from the programs.
import os
import random
import re
import struct
import subprocess
import sys
from collections import namedtuple

ROOT = os.path.join(os.path.dirname(os.path.abspath(__file__)), "..")
REFUSAL = int(os.environ.get("TEXT_REFUSAL", "17"))  # the number of a wrong line's refusal
MOST = 2**32 - 1
MOST_BYTES = 262144  # of a text
MOST_BLOCKS, MOST_PREEMPTERS, MOST_READS = 64, 32, 124
# Each line of the header, in order, and how many numbers it has.
HEADER = [(b"task", 1), (b"lines", 1), (b"limit", 1), (b"sampler", 1), (b"reload", 1), (b"switch", 1), (b"scratch", 2)]

# header: the eight numbers of the header's lines; blocks: (word, time, reads), the word being block or armed; preempters: (word, id, reads)
Task = namedtuple("Task", "header blocks preempters")


# Texts


def written(task):
    """The lines of a task's text, without their line feeds."""
    numbers = list(task.header)
    lines = []
    for word, count in HEADER:
        lines.append([word, *numbers[:count]])
        del numbers[:count]
    lines += [[word, value, *reads] for word, value, reads in task.blocks + task.preempters]
    return [b" ".join(word if isinstance(word, bytes) else b"%d" % word for word in line) for line in lines]


def joined(lines):
    return b"".join(line + b"\n" for line in lines)


def number(word):
    """The number that the word is, or None."""
    if not re.fullmatch(rb"[0-9]+", word):
        return None
    digits = word.lstrip(b"0") or b"0"
    return int(digits) if len(digits) <= 10 and int(digits) <= MOST else None


def split(text):
    """The lines of a text: a last one may have no line feed."""
    lines = text.split(b"\n")
    return lines if lines[-1] else lines[:-1]


def read_text(text):
    """The task of a text, or the place of its wrong line."""
    lines = split(text)
    header, named, blocks, preempters = [], 0, [], []
    for place, line in enumerate(lines):
        words = re.findall(rb"[^ \t\r]+", line.partition(b"#")[0])
        if not words:
            continue
        word, numbers = words[0], [number(one) for one in words[1:]]
        if None in numbers:
            return place
        if named < len(HEADER):
            right = (word, len(numbers)) == HEADER[named]
            if right and word == b"lines":
                right = 1 <= numbers[0] <= 512
            if right and word == b"scratch":
                right = sum(numbers) <= 2**32
            header += numbers
            named += 1
        elif word in (b"block", b"armed"):
            right = not preempters and len(blocks) < MOST_BLOCKS and 1 <= len(numbers) <= 1 + MOST_READS
            blocks.append((word, numbers[:1], numbers[1:]))
        else:
            right = word == b"preempter" and blocks and len(preempters) < MOST_PREEMPTERS and 1 <= len(numbers) <= 1 + MOST_READS
            preempters.append((word, numbers[:1], numbers[1:]))
        if not right:
            return place
    if not blocks:
        return len(lines)
    return Task(tuple(header), *([(word, value, reads) for word, (value,), reads in entries] for entries in (blocks, preempters)))


# Files


def checksum(data):
    h = 2166136261
    for byte in data:
        h = (h ^ byte) * 16777619 & MOST
    return h


def sealed(block):
    return block[:508] + struct.pack("<I", checksum(block[:508]))


def made(task):
    """The file of a task."""
    ident, s, limit, second, reload, switch, first, count = task.header
    starts = [struct.pack("<BBHHH7I", 1, 0, len(task.blocks), len(task.preempters), s, limit, reload, ident, first, count, second, switch)]
    for kind, entries in (2, task.blocks), (3, task.preempters):
        for word, value, reads in entries:
            starts.append(struct.pack(f"<BBHI{len(reads)}I", kind, word == b"armed", len(reads), value, *reads))
    return b"".join(sealed(start.ljust(504, b"\0") + struct.pack("<I", i) + bytes(4)) for i, start in enumerate(starts))


def read_file(data):
    """The task of a file, or its refusal: a number and a place."""
    if not data or len(data) % 512 or len(data) > 512 * (1 + MOST_BLOCKS + MOST_PREEMPTERS):
        return 1, 0
    cut = [data[i : i + 512] for i in range(0, len(data), 512)]
    for i, block in enumerate(cut):
        if sealed(block) != block:
            return 2, i
    kind, zero, n, m, s, limit, reload, ident, first, count, second, switch = struct.unpack_from("<BBHHH7I", cut[0])
    right = kind == 1 and zero == 0 and not any(cut[0][36:508])
    if not (right and 1 <= n <= MOST_BLOCKS and m <= MOST_PREEMPTERS and 1 <= s <= 512 and first + count <= 2**32):
        return 3, 0
    if len(cut) != 1 + n + m:
        return 4, 0
    entries = []
    for i, block in enumerate(cut[1:], 1):
        kind, armed, count_of_reads, value = struct.unpack_from("<BBHI", block)
        right = kind == (2 if i <= n else 3) and armed <= (i <= n) and count_of_reads <= MOST_READS
        if not right or any(block[8 + 4 * count_of_reads : 504]) or block[504:508] != struct.pack("<I", i):
            return 5, i
        word = b"preempter" if i > n else b"armed" if armed else b"block"
        entries.append((word, value, list(struct.unpack_from(f"<{count_of_reads}I", block, 8))))
    return Task((ident, s, limit, second, reload, switch, first, count), entries[:n], entries[n:])


# What the programs answer

done = dict.fromkeys(["texts", "refused", "files", "damaged files"], 0)
what = "fixed"  # what is tried


def short(data):
    if isinstance(data, bytes) and len(data) > 4000:
        return f"{data[:2000]!r}, and so on, {len(data)} bytes in all, and at the end\n{data[-1000:]!r}"
    return repr(data)


def answer(program, data):
    run = subprocess.run([f"{ROOT}/target/bin/{program}"], input=data, capture_output=True)
    return run.returncode, run.stdout, run.stderr


def hold(program, data, right, came):
    """Ends the run if the program did not answer what is right: an exit code, standard output and standard error."""
    if came == right:
        return
    names = "exit code", "standard output", "standard error"
    print(f"\n{what}: {program}, fed\n{short(data)}")
    for name, one, other in zip(names, right, came):
        if one != other:
            print(f"{name} should be\n{short(one)}\nand is\n{short(other)}")
    sys.exit(1)


def same(data, right, own):
    """Ends the run if the reader or the writer above does not have what a fixed case says."""
    if right != own:
        print(f"\n{what}: of\n{short(data)}\nthe case says\n{right}\nand the reader or writer in this script\n{own}")
        sys.exit(1)


def try_text(text):
    """Holds assemble to the reader above. The task, or the place."""
    right = read_text(text)
    done["texts"] += 1
    if isinstance(right, Task):
        hold("assemble", text, (0, made(right), b""), answer("assemble", text))
    else:
        done["refused"] += 1
        hold("assemble", text, (0, b"", b"refused %d at %d\n" % (REFUSAL, right)), answer("assemble", text))
    return right


def try_file(data):
    """Holds show to the reader and the writer above, and what it refuses to what plan refuses."""
    right = read_file(data)
    done["files"] += 1
    if isinstance(right, Task):
        hold("show", data, (0, joined(written(right)), b""), answer("show", data))
    else:
        done["damaged files"] += 1
        refused = 0, b"refused %d at %d\n" % right, b""
        hold("plan", data, refused, answer("plan", data))
        hold("show", data, refused, answer("show", data))
    return right


def both_ways(task):
    """A task's file is shown as its text, and its text assembled to its file."""
    text = joined(written(task))
    same(text, task, read_text(text))
    same(made(task), task, read_file(made(task)))
    try_file(made(task))
    try_text(text)


def means(text, task):
    same(text, task, try_text(text))


def wrong(place, text):
    same(text, place, try_text(text))


def usage(text):
    done["texts"] += 1
    code, out, err = came = answer("assemble", text)
    if code or out or not re.fullmatch(rb"usage: [^\n]+\n", err):
        hold("assemble", text, (0, b"", b"usage: ..\n"), came)


# Fixed cases

SEVEN = Task(
    (7, 4, 60, 0, 10, 0, 0, 0),
    [(b"block", 20, [0, 1]), (b"block", 20, [2]), (b"armed", 20, [0]), (b"block", 20, [5, 0])],
    [(b"preempter", 1, [4, 1])],
)
SEVEN_TEXT = b"""task 7
lines 4
limit 60
sampler 0
reload 10
switch 0
scratch 0 0
block 20 0 1
block 20 2
armed 20 0
block 20 5 0
preempter 1 4 1
"""


def with_line(place, *lines):
    """The text of File Seven with these lines in place of one."""
    all_lines = split(SEVEN_TEXT)
    return joined(all_lines[:place] + list(lines) + all_lines[place + 1 :])


def fixed():
    global what
    lines = split(SEVEN_TEXT)
    words = [line.split(b" ") for line in lines]

    what = "fixed: File Seven"
    same(SEVEN_TEXT, SEVEN_TEXT, joined(written(SEVEN)))
    means(SEVEN_TEXT, SEVEN)
    both_ways(SEVEN)

    what = "fixed: a text that ends too early"
    for i in range(8):
        wrong(i, joined(lines[:i]))
        wrong(i, joined(lines[:i])[:-1])
        wrong(i + 2, joined(lines[:i]) + b"\n# no more")
        wrong(i + 1, joined(lines[:i]) + b" ")
        if i < 7:
            wrong(i, joined(lines[:i] + lines[8:]))
            wrong(i, joined(lines[:i] + lines[i + 1 :]))
    for text, place in (b"", 0), (b"\n", 1), (b"\n\n", 2), (b" ", 1), (b"#", 1), (b"# task 7\n#\n", 2), (b"# task 7\n#", 2), (b"\r\n\t\r\n", 2):
        wrong(place, text)
    wrong(200000, b"\n" * 200000)
    wrong(MOST_BYTES, b"\n" * MOST_BYTES)
    wrong(7, joined(lines[:7] + lines[11:]))

    what = "fixed: lines out of their order"
    for i in range(12):
        wrong(i, with_line(i, b"lines" if i == 0 else b"task"))
        for j in range(7):
            # a line of the header twice, or in another's place
            if j < i:
                wrong(i, joined(lines[:i] + [lines[j]] + lines[i:]))
            if j != i:
                wrong(i, with_line(i, lines[j]))
        if i < 7:
            wrong(i + 1, with_line(i, lines[i], lines[i]))
            wrong(i, with_line(i, lines[7]))
            wrong(i, with_line(i, lines[9]))
            wrong(i, with_line(i, lines[11]))
    wrong(7, joined(lines[:7] + lines[11:] + lines[7:11]))
    wrong(12, SEVEN_TEXT + b"block 20 0\n")
    wrong(12, SEVEN_TEXT + b"armed 20 0\n")
    wrong(12, SEVEN_TEXT + b"task 7\n")
    wrong(12, SEVEN_TEXT + SEVEN_TEXT)
    wrong(13, SEVEN_TEXT + b"\nend\n")

    what = "fixed: words"
    for i, line in enumerate(words):
        word, rest = line[0], b" " + b" ".join(line[1:])
        others = [word + b"s", word[:-1], word[1:], word[:1], word + word, word.upper(), word.capitalize(), word[:-1] + word[-1:].upper()]
        others += [word + behind for behind in (b":", b"\0", b"\x0c", b"\x0b", b"\xff", b"\xc2\xa0")]
        others += [before + word for before in (b"-", b"\0", b"\x0c", b"\x0b", b"\xff", b"\xef\xbb\xbf")]
        for other in others + [b"7", b"x", b"\0", b"\x0c", b"\x80"]:
            wrong(i, with_line(i, other + rest))
        wrong(i, with_line(i, word + rest.lstrip()))
        wrong(i, with_line(i, word + b"\n" + rest))
        wrong(i, with_line(i, word + b"#" + rest))
        wrong(i, with_line(i, rest))

    what = "fixed: numbers"
    not_numbers = b"+1 -1 1.0 0x1 1e0 1_0 1, 1; 0b1 a 1a a1 : / \xd9\xa1 \xb2 1\0 \0 1\x0c \x0c 1\x0b \xff 1-2 '1' block".split(b" ")
    not_numbers += b"4294967296 04294967296 4294967297 4294967306 9999999999 42949672960 18446744073709551616 18446744073709551617".split(b" ")
    not_numbers += [b"1" * 1000, b"1" + b"0" * 5000, b"0" * 1000 + b"4294967296", b"0" * 1000 + b"x"]
    for i, line in enumerate(words):
        for j in range(1, len(line)):
            for bad in not_numbers:
                wrong(i, with_line(i, b" ".join(line[:j] + [bad] + line[j + 1 :])))
        for bad in not_numbers:
            wrong(i, with_line(i, lines[i] + b" " + bad))
        wrong(i, with_line(i, line[0]))
        if i < 7:
            wrong(i, with_line(i, lines[i] + b" 0"))
            wrong(i, with_line(i, lines[i] + b" x"))
    wrong(6, with_line(6, b"scratch 0"))
    # the lowest of several
    wrong(1, with_line(1, b"lines 0").replace(b"limit 60", b"limit x"))
    wrong(3, with_line(3, b"sampler").replace(b"preempter", b"pre"))
    for name, place in (b"task", 0), (b"limit", 2), (b"sampler", 3), (b"reload", 4), (b"switch", 5):
        for value in 0, 1, 10, 999999999, 1000000000, 4000000000, MOST - 1, MOST:
            header = list(SEVEN.header)
            header[place] = value
            both_ways(SEVEN._replace(header=tuple(header)))
            means(with_line(place, name + b" %01000d" % value), SEVEN._replace(header=tuple(header)))
    for value in 0, 1, MOST:
        both_ways(SEVEN._replace(blocks=[(b"armed", value, [value] * 3)], preempters=[(b"preempter", value, [value])]))

    what = "fixed: lines and scratch"
    for s in 1, 2, 9, 10, 99, 100, 511, 512:
        both_ways(SEVEN._replace(header=(7, s, *SEVEN.header[2:])))
        means(with_line(1, b"lines %0999d" % s), SEVEN._replace(header=(7, s, *SEVEN.header[2:])))
    for s in 0, 513, 514, 1024, 65535, 65536, 65537, 66048, MOST:
        wrong(1, with_line(1, b"lines %d" % s))
    wrong(1, with_line(1, b"lines 000"))
    half = 2**31
    for first, count in (MOST, 0), (0, MOST), (MOST, 1), (1, MOST), (half, half), (half - 1, half + 1), (4294967290, 6):
        both_ways(SEVEN._replace(header=(*SEVEN.header[:6], first, count)))
    for first, count in (MOST, 2), (2, MOST), (half, half + 1), (half + 1, half), (MOST, MOST), (4294967290, 7):
        wrong(6, with_line(6, b"scratch %d %d" % (first, count)))
    wrong(6, with_line(6, b"scratch 4294967296 0"))
    wrong(6, with_line(6, b"scratch 0 4294967296"))

    what = "fixed: reads, blocks and preempters"
    for place, word in (7, b"block"), (9, b"armed"), (11, b"preempter"):
        for count in 0, 1, 2, 123, 124:
            reads = [MOST - i for i in range(count)]
            line = word + b" 20" + b"".join(b" %d" % read for read in reads)
            entries = SEVEN.blocks + SEVEN.preempters
            entries[place - 7] = (word, 20, reads)
            task = SEVEN._replace(blocks=entries[:4], preempters=entries[4:])
            means(with_line(place, line), task)
            means(with_line(place, line + b"  \t\r# and no more"), task)
            both_ways(task)
        for count in 125, 126, 127, 128, 255, 256, 257, 380, 1000:
            wrong(place, with_line(place, word + b" 20" + b" 3" * count))
        wrong(place, with_line(place, word + b" 20" + b" 3" * 124 + b" x"))
        wrong(place, with_line(place, word + b" 20" + b" 3" * 124 + b" 4294967296"))
    for n in 1, 2, 63, 64:
        for m in 0, 1, 31, 32:
            blocks = [((b"block", b"armed")[i % 2], i, [i]) for i in range(n)]
            preempters = [(b"preempter", i, [i]) for i in range(m)]
            task = SEVEN._replace(blocks=blocks, preempters=preempters)
            both_ways(task)
            text = joined(written(task))
            wrong(7 + n + m, text + (b"preempter 1\n" if m == 32 else b"block 1\n" if m > 0 or n == 64 else b"reload 1\n"))
            if n == 64:
                wrong(7 + n, joined(written(task)[: 7 + n] + [b"armed 1"] + written(task)[7 + n :]))
            if m == 32:
                wrong(7 + n + m + 2, text + b"\n# one more\npreempter 1")

    what = "fixed: blanks, comments and empty lines"
    for blank in b" ", b"\t", b"\r", b" \t\r ", b"\r\r", b" " * 300:
        spaced = [blank.join(line) for line in words]
        means(joined(spaced), SEVEN)
        means(joined(blank + line for line in spaced), SEVEN)
        means(joined(line + blank for line in spaced), SEVEN)
        means(joined(blank + b"\n" + line for line in spaced), SEVEN)
        means(joined(spaced) + blank, SEVEN)
    means(SEVEN_TEXT.replace(b"\n", b"\r\n"), SEVEN)
    wrong(0, SEVEN_TEXT.replace(b"\n", b"\r"))
    for blank in b"\x0c", b"\x0b", b"\0", b"\xa0", b"\x85", b"\xc2\xa0", b"\x1f", b"\x7f", b",", b"\b":
        wrong(0, blank + SEVEN_TEXT)
        wrong(12, SEVEN_TEXT + blank)
        for i, line in enumerate(words):
            wrong(i, with_line(i, blank.join(line)))
            wrong(i, with_line(i, lines[i] + blank))
    for comment in b"#", b"##", b"# task 7", b"#\0\x0c\xff\x80 \r\t#", b"# 1 2 3 #", b"#" + bytes(set(range(256)) - {10}):
        means(comment + b"\n" + SEVEN_TEXT, SEVEN)
        means(SEVEN_TEXT + comment, SEVEN)
        means(SEVEN_TEXT + comment + b"\n", SEVEN)
        means(SEVEN_TEXT[:-1] + comment, SEVEN)
        means(joined(line + comment for line in lines), SEVEN)
        means(joined(line + b" " + comment for line in lines), SEVEN)
        means(joined(comment + b"\n" + line for line in lines), SEVEN)
        means(joined(b" \t" + comment + b"\n\n" + line for line in lines), SEVEN)
        for i, line in enumerate(words):
            # the comment takes away a line, or what is behind its first word or its first number
            wrong(i, with_line(i, line[0] + comment + b" ".join(line[1:])))
            if i < 7:
                wrong(i + 1, with_line(i, comment + lines[i]))
            else:
                entries = SEVEN.blocks + SEVEN.preempters
                del entries[i - 7]
                n = 4 - (i < 11)
                means(with_line(i, comment + lines[i]), SEVEN._replace(blocks=entries[:n], preempters=entries[n:]))
                entries = SEVEN.blocks + SEVEN.preempters
                entries[i - 7] = (*entries[i - 7][:2], [])
                means(with_line(i, b" ".join(line[:2]) + comment + b" ".join(line[2:])), SEVEN._replace(blocks=entries[:4], preempters=entries[4:]))
    wrong(6, with_line(6, b"scratch 0 # 0"))
    wrong(6, with_line(6, b"scratch 0#0"))
    means(SEVEN_TEXT[:-1], SEVEN)
    means(SEVEN_TEXT[:-1] + b"\r", SEVEN)
    means(joined(b" ".join([line[0]] + [b"0" * 1000 + one for one in line[1:]]) for line in words), SEVEN)
    wrong(14, b"\n# two lines\n" + SEVEN_TEXT + b"pre\n")

    what = "fixed: the longest texts"
    blocks = [(b"block", MOST - i, [MOST - i - j for j in range(124)]) for i in range(64)]
    preempters = [(b"preempter", MOST - i, [MOST - i - j for j in range(124)]) for i in range(32)]
    longest = Task((MOST, 512, MOST, MOST, MOST, MOST, half, half), blocks, preempters)
    both_ways(longest)
    text = joined(written(longest))
    wrong(103, text + b"x")
    wrong(102, text[:-1] + b" 1\n")
    for task in SEVEN, longest:
        text = joined(written(task))
        for filler in b" ", b"\n", b"#":
            means(text + filler * (MOST_BYTES - len(text)), task)
            usage(text + filler * (MOST_BYTES + 1 - len(text)))
            means(b" " * (MOST_BYTES - len(text)) + text, task)
            means(b"\n" * (MOST_BYTES - len(text)) + text, task)
            usage(b" " * (MOST_BYTES + 1 - len(text)) + text)
    means(with_line(0, b"task " + b"0" * (MOST_BYTES - len(SEVEN_TEXT)) + b"7"), SEVEN)
    wrong(0, b"x" * MOST_BYTES)
    usage(b"x" * (MOST_BYTES + 1))
    usage(b"x\n" * MOST_BYTES)
    usage(b"# nothing but comments\n" * (10000000 // 23))
    # a text without an end
    with open("/dev/zero", "rb") as endless:
        run = subprocess.run([f"{ROOT}/target/bin/assemble"], stdin=endless, capture_output=True, timeout=60)
        same(b"", (b"", True), (run.stdout, run.stderr.startswith(b"usage: ")))


# Random tasks, texts and files


def any_number(r):
    power = 10 ** r.randrange(10)
    return r.choice([r.randrange(10), r.randrange(1000), r.randrange(MOST + 1), r.randrange(MOST + 1), power, power - 1, 0, MOST])


def any_task(r):
    small = r.random() < 0.8
    n = r.randint(1, 5) if small else r.choice([r.randint(1, 64), 64])
    m = r.randint(0, 3) if small else r.choice([r.randint(0, 32), 32])

    def reads():
        count = r.choice([0, 124, r.randint(0, 124), *(r.randint(0, 6) for _ in range(9))])
        return [any_number(r) for _ in range(count)]

    first = any_number(r)
    count = min(any_number(r), 2**32 - first) if r.random() < 0.8 else min(2**32 - first, MOST)
    header = (any_number(r), r.choice([r.randint(1, 512), 1, 512, 4]), *(any_number(r) for _ in range(4)), first, count)
    blocks = [(r.choice([b"block", b"armed"]), any_number(r), reads()) for _ in range(n)]
    return Task(header, blocks, [(b"preempter", any_number(r), reads()) for _ in range(m)])


def comment(r):
    return b"#" + bytes(r.choice([*b" \t\r#0129abz", 0, 12, 128, 255]) for _ in range(r.randrange(8)))


def decorated(r, lines):
    """A text of the same task, with blanks, comments, empty lines and leading zeros."""

    def blank(least):
        return bytes(r.choice(b"   \t\r") for _ in range(least + (r.randint(0, 3) if r.random() < 0.3 else 0)))

    out = []
    for line in lines:
        while r.random() < 0.2:
            out.append(blank(0) + (comment(r) if r.random() < 0.5 else b""))
        first, *rest = line.split(b" ")
        words = [blank(0), first]
        for one in rest:
            words += [blank(1), b"0" * (r.randint(1, 12) if r.random() < 0.1 else 0) + one]
        out.append(b"".join(words) + blank(0) + (comment(r) if r.random() < 0.2 else b""))
    text = joined(out)
    return r.choice([text, text, text[:-1], text + comment(r), text + blank(1)])


WORDS = [word for word, _ in HEADER] + b"block armed preempter blocks bloc BLOCK block#x x # \0 \x0c \xff 7# 7#7".split(b" ")
WORDS += b"0 1 512 513 4294967295 4294967296 000000000000001 +1 -1 1.0 0x1".split(b" ")


def damaged(r, text):
    """The text, damaged at a random place."""
    lines = text.split(b"\n")
    i, j = r.randrange(len(lines)), r.randrange(len(lines))
    words = lines[i].split(b" ")
    k = r.randrange(len(words))
    kind = r.randrange(11)
    if kind == 0:
        words[k] = r.choice(WORDS)
    elif kind == 1:
        words.insert(k + 1, b"%d" % any_number(r))
    elif kind == 2:
        del words[k]
    elif kind == 3:
        words += [b"%d" % any_number(r)] * r.choice([1, 2, 125 - min(len(words), 124), 126 - min(len(words), 124)])
    lines[i] = b" ".join(words)
    if kind == 4:
        del lines[i]
    elif kind == 5:
        lines[i], lines[j] = lines[j], lines[i]
    elif kind == 6:
        lines.insert(j, lines[i])
    elif kind == 7:
        lines[i : i + 1] = [lines[i]] * r.choice([2, 3, 32, 33, 64, 65])
    out = bytearray(b"\n".join(lines))
    at = r.randrange(len(out) + 1)
    if kind == 8:
        out[at : at + 1] = bytes([r.choice([r.randrange(256), *b"\n\r\t #09"])])
    elif kind == 9:
        out[at:at] = bytes([r.choice([r.randrange(256), *b"\n\r\t #09"])])
    elif kind == 10:
        del out[at : r.choice([at + 1, len(out)])]
    return bytes(out)


def damaged_file(r, data):
    """The file, damaged at a random place; as a rule with its checksums made right, so that the damage is read."""
    blocks = [data[i : i + 512] for i in range(0, len(data), 512)]
    for _ in range(r.randint(1, 2)):
        kind = r.randrange(10)
        i, j = r.choice([0, r.randrange(len(blocks))]), r.randrange(len(blocks))
        if kind < 6:
            at = r.choice([r.randrange(512), r.randrange(8), r.randrange(36), r.randrange(504, 512)])
            value = r.choice([r.randrange(256), 0, 1, 2, 3, 125, blocks[i][at] ^ 1 << r.randrange(8)])
            blocks[i] = blocks[i][:at] + bytes([value]) + blocks[i][at + 1 :]
            if kind < 5:
                blocks[i] = sealed(blocks[i])
        elif kind == 6:
            blocks[i], blocks[j] = blocks[j], blocks[i]
        elif kind == 7:
            blocks.insert(j, blocks[i])
        elif kind == 8 and len(blocks) > 1:
            del blocks[i]
    data = b"".join(blocks)
    return r.choice([data] * 18 + [data[: r.randrange(len(data) + 1)], data + bytes(r.choice([1, 511, 512]))])


def at_random(seed, count):
    global what
    for i in range(count):
        r = random.Random(f"{seed} {i}")
        what = f"seed {seed}, task {i}"
        task = any_task(r)
        both_ways(task)
        lines = written(task)
        what = f"seed {seed}, task {i}, decorated"
        texts = [joined(lines), *(decorated(r, lines) for _ in range(3))]
        for text in texts[1:]:
            if len(text) <= MOST_BYTES:
                means(text, task)
        what = f"seed {seed}, task {i}, damaged"
        for _ in range(12):
            text = r.choice(texts)
            for _ in range(r.choice([1, 1, 1, 2, 3])):
                text = damaged(r, text)
            if len(text) <= MOST_BYTES:
                try_text(text)
            else:
                usage(text)
        what = f"seed {seed}, task {i}, its file damaged"
        data = made(task)
        for _ in range(4):
            try_file(damaged_file(r, data))


def files():
    """File Seven and the longest file with one thing wrong, and what is no file at all."""
    global what
    what = "fixed: files"
    seven = made(SEVEN)
    largest = made(Task((1, 512, 1, 1, 1, 1, 0, 0), [(b"block", 1, [1] * 124)] * 64, [(b"preempter", 1, [1] * 124)] * 32))

    def changed(data, at, value, seal=True):
        block = at // 512 * 512
        data = data[:at] + bytes([value]) + data[at + 1 :]
        return data[:block] + sealed(data[block : block + 512]) + data[block + 512 :] if seal else data

    def refused(number, place, data):
        same(data, (number, place), try_file(data))

    for data in b"", b"x", seven[:-1], seven + b"\0", largest + largest[:512], SEVEN_TEXT, largest * 3:
        refused(1, 0, data)
    for block in range(6):
        for at in 0, 1, 4, 100, 503, 504, 508, 511:
            at += 512 * block
            refused(2, block, changed(seven, at, seven[at] ^ 64, seal=False))
        refused(3 if block == 0 else 5, block, changed(seven, 512 * block, 4))
        refused(3 if block == 0 else 5, block, changed(seven, 512 * block + 1, 2))
        refused(3 if block == 0 else 5, block, changed(seven, 512 * block + 503, 1))
        refused(3 if block == 0 else 5, block, changed(seven, 512 * block + 504, 9))
        if block:
            refused(5, block, changed(seven, 512 * block + 2, 125))
            refused(5, block, changed(seven, 512 * block + 3, 1))
    for at, value in (2, 0), (2, 65), (3, 1), (4, 33), (5, 1), (6, 0), (7, 2), (36, 1):
        refused(3, 0, changed(seven, at, value))
    refused(3, 0, made(SEVEN._replace(header=(*SEVEN.header[:6], MOST, 2))))
    refused(4, 0, seven[:-512])
    refused(4, 0, seven + seven[-512:])
    refused(4, 0, seven[:512])
    refused(5, 5, changed(seven, 512 * 5 + 1, 1))
    refused(5, 96, changed(largest, 512 * 96 + 2, 125))


def main():
    if len(sys.argv) > 3 or not all(re.fullmatch("[0-9]+", one) for one in sys.argv[1:]):
        sys.exit("usage: texts.py [SEED [COUNT]]")
    seed, count = [int(one) for one in sys.argv[1:]] + [random.SystemRandom().randrange(10**9), 300][len(sys.argv) - 1 :]
    print(f"texts: seed {seed}, {count} random tasks", end="", flush=True)
    fixed()
    files()
    at_random(seed, count)
    texts, refused, files_shown, damaged_files = done.values()
    print(f"; {texts} texts, {refused} of them refused; {files_shown} files, {damaged_files} of them refused; all as they should be")


if __name__ == "__main__":
    main()
