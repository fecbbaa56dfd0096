# picture.py [SEED [COUNT]]: reads what `picture` draws of many files, as XML, and holds it to what `plan` prints of the same file and to the file's own
# numbers. COUNT files are made from the seed, which is printed; without one it is taken from the clock.
#
# crates/picture/stdout and docs/plan-seven.svg are what `picture` draws of File Seven. Nobody wrote them by hand: they were stored once this had read them
# and found them right, and it reads them again here.
import os
import random
import re
import subprocess
import sys
import time
import xml.etree.ElementTree as xml

sys.dont_write_bytecode = True  # the tree stays as it is
from cases import MOST, Task, armed_seven, planner_tasks, seven, taskfile_cases

ROOT = os.path.join(os.path.dirname(os.path.abspath(__file__)), "..")
SVG = "{http://www.w3.org/2000/svg}"
TAGS = {SVG + name for name in ["svg", "title", "style", "g", "rect", "line", "text"]}
PARTS = ["light", "dark", "reloads", "switch"]
LEFT, WIDTH = 80, 800  # where the scale begins, and how wide it is
HEIGHT = 14  # of a bar
EXACT = 0.05  # pixels: positions have two decimals
PIXEL = 1 + EXACT


class Wrong(Exception):
    pass


def same(what, found, right):
    if found != right:
        raise Wrong(f"{what} should be {right!r} and is {found!r}")


def near(what, found, right, most=EXACT):
    if abs(found - right) > most:
        raise Wrong(f"{what} should be {right:.2f} and is {found:.2f}")


def true(what, right):
    if not right:
        raise Wrong(what)


def number(element, name):
    return float(element.get(name, "0"))


def has(element, name):
    """Whether an element is of a class."""
    return name in element.get("class", "").split()


def of(element, tag, name):
    """The elements directly below one that have a tag and a class."""
    return [e for e in element if e.tag == SVG + tag and has(e, name)]


def moved(element):
    found = re.fullmatch(r"translate\((\d+),(\d+)\)", element.get("transform"))
    return float(found[1]), float(found[2])


def brightness(colour):
    """Of #rgb or #rrggbb, from 0 to 1."""
    digits = colour[1:] if len(colour) == 7 else "".join(2 * digit for digit in colour[1:])
    red, green, blue = (int(digits[i : i + 2], 16) / 255 for i in (0, 2, 4))
    return 0.299 * red + 0.587 * green + 0.114 * blue


def read_style(root):
    """The picture needs nothing but itself, and the kinds of parts differ in brightness."""
    for element in root.iter():
        true(f"the tag {element.tag} is not for a picture", element.tag in TAGS)
        for name in element.keys():
            true(f"the attribute {name} is not for a picture", "href" not in name and not name.startswith("on"))
    same("what is behind it all", root.find(SVG + "rect").attrib, {"width": "100%", "height": "100%", "fill": "#fff"})
    same("the fonts", {e.get("font-family") for e in root.iter()} - {None}, {"sans-serif"})
    if root.find(SVG + "style") is None:
        return
    style = root.find(SVG + "style").text
    true("the style names something elsewhere", not re.search(r"url|@|http|font-family", style))
    fills = dict(re.findall(r"\.(\w+)\{fill:(#\w+)\}", style))
    shades = sorted(brightness(fills[name]) for name in PARTS) + [brightness("#fff")]
    true("two kinds of parts are as bright", all(b - a > 0.1 for a, b in zip(shades, shades[1:])))


def read_texts(root, style, height):
    """Every text stands in the picture, as far as one can tell without its font, and none in the place of another."""
    sizes = dict(re.findall(r"\.(\w+)\{font-size:(\d+)px", style))
    taken = []

    def go(element, x, y, size):
        if element.get("transform"):
            x, y = x + moved(element)[0], y + moved(element)[1]
        size = next((float(sizes[name]) for name in element.get("class", "").split() if name in sizes), size)
        if element.tag == SVG + "text":
            wide = 0.6 * size * len(element.text)
            left = x + number(element, "x") - wide * (has(element, "end") + (has(element, "middle") or has(element, "number")) / 2)
            base = y + number(element, "y")
            true(f"{element.text!r} is not in the picture", 0 <= left and left + wide <= 1000 and size <= base <= height)
            taken.append((left, left + wide, base - 0.7 * size, base, element.text))
        for child in element:
            go(child, x, y, size)

    go(root, 0, 0, 13)
    taken.sort()
    for i, one in enumerate(taken):
        for other in taken[i + 1 :]:
            if other[0] >= one[1]:
                break
            true(f"{one[4]!r} and {other[4]!r} are in one place", other[2] >= one[3] or other[3] <= one[2])


def read_scale(root):
    """Pixels for a tick, from the scale's numbers."""
    (scale,) = of(root, "g", "scale")
    same("where the scale begins", moved(scale)[0], LEFT)
    lines, texts = of(scale, "line", "tick"), of(scale, "text", "middle")
    same("where the scale's numbers are", [text.get("x") for text in texts], [line.get("x1") for line in lines])
    marks = [(int(text.text), line) for line, text in zip(lines, texts)]
    same("the first number of the scale", marks[0][0], 0)
    true("the scale has 2 to 11 numbers", 2 <= len(marks) <= 11)
    last, line = marks[-1]
    pixels = number(line, "x1") / last
    for mark, line in marks:
        near(f"the scale's line at {mark}", number(line, "x1"), mark * pixels)
        same(f"the other end of the scale's line at {mark}", line.get("x2"), line.get("x1"))
    return pixels


def read_part(part):
    """What a part is and its ticks, from its words."""
    found = re.fullmatch(r"(block (\d+)|reloads|switch): (\d+) ticks", part.find(SVG + "title").text)
    true(f"{part.find(SVG + 'title').text!r} is no part", found)
    return (found[2] and int(found[2]) or found[1]), int(found[3])


def read_bar(row, task, a, b, pixels):
    """The parts of a bar, in order, without a gap; their ticks, which are the file's, and where they are drawn."""
    parts = [e for e in row if e.tag == SVG + "rect" and e.get("class") in PARTS]
    right = [(k, task.blocks[k - 1][0]) for k in range(a + 1, b + 1)]
    right += [part for part in [("reloads", task.r * len(task.loaded(a, b))), ("switch", task.switch if a else 0)] if part[1]]
    same("its parts", [read_part(part) for part in parts], right)
    at, end, shade, blocks = 0, 0.0, None, {}
    for part, (name, ticks) in zip(parts, right):
        left, width = number(part, "x"), number(part, "width")
        same(f"the height of {name}", (number(part, "y"), number(part, "height")), (0, HEIGHT))
        same(f"the kind of {name}", part.get("class") in PARTS[:2] if isinstance(name, int) else part.get("class") == name, True)
        small = 0 < at * pixels < 1
        near(f"where {name} begins", left, at * pixels, PIXEL if small or ticks * pixels < 1 else EXACT)
        if ticks * pixels >= 1:
            near(f"where {name} begins behind the part before it", left, end, PIXEL if small else EXACT)
        at += ticks
        near(f"where {name} ends", left + width, at * pixels, EXACT if at * pixels >= 1 else PIXEL)
        end = max(left + width, end)
        true(f"{name} has {ticks} ticks and is {width} wide", width >= 1 if ticks else width == 0)
        if ticks and isinstance(name, int):
            true(f"block {name} is as dark as the one before it", part.get("class") != shade)
            shade = part.get("class")
        blocks[name] = left, width
    for text in of(row, "text", "number"):
        left, width = blocks[int(text.text)]
        near(f"the number of block {text.text}", number(text, "x"), left + width / 2)
        true(f"the number of block {text.text} has no room", width >= 6 * len(text.text))
    true("a wide block has no number", len(of(row, "text", "number")) == sum(width >= 13 for name, (_, width) in blocks.items() if isinstance(name, int)))
    armed = [k for k in range(a + 1, b + 1) if k in task.armed]
    marks = of(row, "rect", "armed")
    same("how many blocks are marked as armed", len(marks), len(armed))
    for k, mark in zip(armed, marks):
        near(f"the mark of block {k}", number(mark, "x"), blocks[k][0])
        near(f"the width of the mark of block {k}", number(mark, "width"), max(blocks[k][1], 3))
    return sum(ticks for _, ticks in right)


def read_limits(root, rows, task, regions, pixels):
    """The line at Q across all rows, the lines at Q2 across those with an armed block, and the names of both, which say so where a limit is beyond the
    scale. Answers the ticks of the whole scale: the longest region, or a limit up to twice as long."""
    (limits,) = of(root, "g", "limits")
    same("where the limits' scale begins", moved(limits)[0], LEFT)
    far = 2 * max(1, *(length for _, _, length in regions))
    texts = [text for text in limits if text.tag == SVG + "text"]
    for text, limit in zip(texts, [task.q, task.second]):
        near(f"where {text.text!r} is", number(text, "x"), min(limit * pixels, WIDTH), 5)
    right = [f"limit Q {task.q}" + " beyond →" * (task.q > far)]
    if task.armed:
        right.append(f"limit Q2 {task.second}" + " beyond →" * (task.second > far))
    same("the names of the limits", [text.text for text in texts], right)
    lines = of(limits, "line", "Q")
    same("how many lines there are at Q", len(lines), int(task.q <= far))
    for line in lines:
        near("the line at Q", number(line, "x1"), task.q * pixels)
        same("the other end of the line at Q", line.get("x2"), line.get("x1"))
        down = moved(limits)[1]
        true("the line at Q does not cross all rows", down + number(line, "y1") <= moved(rows[0])[1] and down + number(line, "y2") >= moved(rows[-1])[1] + HEIGHT)
    for row, (a, b, _) in zip(rows, regions):
        armed = any(k in task.armed for k in range(a + 1, b + 1))
        lines = of(row, "line", "Q2")
        same(f"how many lines there are at Q2 in region {a} {b}", len(lines), int(armed and task.second <= far))
        for line in lines:
            near("the line at Q2", number(line, "x1"), task.second * pixels)
            same("the other end of the line at Q2", line.get("x2"), line.get("x1"))
            true("the line at Q2 does not cross its row", number(line, "y1") <= 0 and number(line, "y2") >= HEIGHT)
    drawn = [limit for limit in [task.q] + [task.second] * bool(task.armed) if limit <= far]
    return max([1] + [length for _, _, length in regions] + drawn)


def read_plan(root, task, printed):
    """The picture of a plan, of which `plan` prints these lines."""
    read_style(root)
    width, height = number(root, "width"), number(root, "height")
    same("the view", root.get("viewBox"), f"0 0 {root.get('width')} {root.get('height')}")
    same("the width", width, 1000)
    same("the title", root.find(SVG + "title").text, printed[0])
    same("the heading", [text.text for text in of(root, "text", "task")], printed[:1])
    (legend,) = of(root, "g", "legend")
    same("the colours explained", {e.get("class") for e in legend if e.tag == SVG + "rect"}, {*PARTS, "armed"})
    same("their words", [e.text for e in legend if e.tag == SVG + "text"], ["blocks", "armed block", "reloads", "switch"])
    regions = [tuple(int(n) for n in re.fullmatch(r"region (\d+) (\d+) length (\d+)", line).groups()) for line in printed[1:]]
    rows = of(root, "g", "region")
    same("the regions", [row.find(SVG + "title").text for row in rows], printed[1:])
    pixels = read_scale(root)
    down = 0
    for row, (a, b, length) in zip(rows, regions):
        try:
            same("the words on the left", [text.text for text in of(row, "text", "edges")], [f"{a}–{b}"])
            same("the words on the right", [text.text for text in of(row, "text", "length")], [str(length)])
            same("the sum of its parts", read_bar(row, task, a, b, pixels), length)
            (track,) = of(row, "rect", "track")
            same("the size of its row", (number(track, "width"), number(track, "height")), (WIDTH, HEIGHT))
            same("where its row begins", moved(row)[0], LEFT)
            true("its row is in the place of another", moved(row)[1] >= down + HEIGHT)
            down = moved(row)[1]
        except Wrong as wrong:
            raise Wrong(f"region {a} {b}: {wrong}") from None
    true("the rows are longer than the picture", down + HEIGHT < height)
    near("the ticks of the whole scale", read_limits(root, rows, task, regions, pixels) * pixels, WIDTH)
    read_texts(root, root.find(SVG + "style").text, height)


def read_refusal(root, printed):
    """The picture of a refusal, which `plan` prints so."""
    read_style(root)
    same("the text", [text.text for text in root.iter(SVG + "text")], printed)
    same("all text", "".join(root.itertext()).strip(), printed[0])
    true("the picture has no size", number(root, "width") > 100 and number(root, "height") > 20)


def read(drawn, task, printed):
    root = xml.fromstring(drawn)
    same("the root", root.tag, SVG + "svg")
    if printed[0].startswith("refused "):
        same("the lines of a refusal", len(printed), 1)
        read_refusal(root, printed)
    else:
        read_plan(root, task, printed)


def run(program, file):
    ran = subprocess.run([f"{ROOT}/target/bin/{program}"], input=file, stdout=subprocess.PIPE, stderr=subprocess.PIPE, check=True)
    if ran.stderr:
        raise Wrong(f"{program} prints {ran.stderr!r} on standard error")
    return ran.stdout


def try_file(name, file, task):
    """Whether the file has a plan."""
    try:
        printed = run("plan", file).decode().splitlines()
        read(run("picture", file), task, printed)
        return printed[0].startswith("task ")
    except (Wrong, xml.ParseError, subprocess.CalledProcessError) as wrong:
        sys.exit(f"picture: {name}: {wrong}")


def fixed_tasks():
    """What is hard to draw."""
    same_line = [(1, [0])]
    yield from planner_tasks()
    yield "Q a hundred times the longest region", seven(8000)
    yield "Q near 2^32", seven(MOST)
    yield "Q twice the longest region", seven(160)
    yield "Q above twice the longest region", seven(161)
    yield "Q2 beyond", armed_seven(6000, [2, 3])
    yield "Q2 above Q", armed_seven(70, [3])
    yield "Q2 just above Q", armed_seven(61, [3])
    yield "Q2 is Q", armed_seven(60, [1, 2, 3, 4])
    yield "R 0", Task(4, 60, 0, 7, seven(60).blocks, same_line, switch=5)
    yield "64 blocks of 2^32 - 1", Task(4, MOST, 10, MOST, [(MOST, [0])] * 64, [], second=MOST, armed=range(1, 65), switch=0)
    yield "all times 0", Task(4, 0, 0, 7, [(0, [0])] * 5, same_line)
    yield "all times 0, and a limit", Task(4, 4000, 0, 7, [(0, [0])] * 5, same_line, second=1, armed=[3])
    yield "one tick", Task(1, 1, 0, 7, [(1, [])], [])
    yield "one region of 64 blocks", Task(4, 1400, 10, 9, [(20, [0])] * 64, same_line, second=1400, armed=range(1, 65, 3))
    yield "64 regions of one block", Task(4, 60, 10, 9, [(40, [0])] * 64, same_line, switch=5)
    yield "armed blocks of no ticks", Task(4, 100, 10, 9, [(30, [0]), (0, [0]), (30, [0]), (0, [1]), (0, [1]), (20, [1])], same_line, second=100, armed=[2, 4])
    tiny = [(MOST // 2, [0]), (1, [0]), (MOST // 4, [0]), (1, [1]), (2, [0]), (MOST // 3, [0])]
    yield "a tick among 2^31", Task(4, MOST, 1, 9, tiny, same_line, second=MOST // 2, armed=[2, 4, 6], switch=3)
    yield "all blocks of one tick before a long one", Task(4, MOST, 1, 9, [(1, [0])] * 63 + [(MOST - 200, [0])], same_line)


def random_task(draw):
    n = draw.choice([1, 2, 5, 16, 64, draw.randint(1, 64)])
    most = draw.choice([0, 1, 3, 100, 1000, 10**6, MOST // 64, MOST])
    blocks = [(draw.randint(0, most) if draw.random() < 0.9 else 0, [draw.randrange(40) for _ in range(draw.randrange(12))]) for _ in range(n)]
    preempters = [(i, [draw.randrange(40) for _ in range(draw.randrange(20))]) for i in range(draw.randrange(4))]
    reload, switch = (min(MOST, draw.choice([0, 1, most // 50, most // 5])) for _ in range(2))
    longest = max(blocks)[0] + 16 * reload + switch
    limit = draw.choice([longest // 2, longest, longest * 2, longest * 5, longest * 40, sum(ticks for ticks, _ in blocks), MOST])
    limit = min(MOST, draw.randint(limit - limit // 8, limit + limit // 8 + 1))
    armed = draw.sample(range(1, n + 1), draw.choice([0, 0, 1 % (n + 1), n // 3, n]))
    second = min(MOST, draw.choice([limit // 2, limit, limit + 1 + limit // 20, limit * 3, longest, 0]))
    return Task(draw.choice([1, 4, 16, 512]), limit, reload, draw.randint(0, MOST), blocks, preempters, 0, draw.choice([0, 0, 9]), second, armed, switch)


def main():
    seed = int(sys.argv[1]) if len(sys.argv) > 1 else time.time_ns() % 10**9
    count = int(sys.argv[2]) if len(sys.argv) > 2 else 400
    print(f"seed {seed}, {count} files")
    stored = seven(60, preempter=(0, [4, 1]))
    for path in ["crates/picture/stdout", "docs/plan-seven.svg"]:
        drawn = open(f"{ROOT}/{path}", "rb").read()
        try:
            true("crates/picture/stdin is not File Seven", open(f"{ROOT}/crates/picture/stdin", "rb").read() == stored.file())
            read(drawn, stored, run("plan", stored.file()).decode().splitlines())
            true("picture draws something else of File Seven", run("picture", stored.file()) == drawn)
        except (Wrong, xml.ParseError) as wrong:
            sys.exit(f"picture: {path}: {wrong}")
    planned, refused = 0, 0
    for name, task in fixed_tasks():
        planned += try_file(name, task.file(), task)
    for name, file, verdict in taskfile_cases():
        if verdict != "accepted":
            refused += not try_file(name, file, None)
    for i in range(count):
        task = random_task(random.Random(f"{seed} {i}"))
        if try_file(f"file {i} of seed {seed}", task.file(), task):
            planned += 1
        else:
            refused += 1
    print(f"picture: {planned} plans and {refused} refusals are drawn as they are printed")


if __name__ == "__main__":
    main()
