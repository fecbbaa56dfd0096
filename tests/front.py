# front.py PROGRAM..: runs the script preempt under each of dash and bash that is here, and says where it does something else than it should. What it
# prints is compared with what the programs print, its words with README.md and include/preempt.h. Then it is installed, used and uninstalled. Each of
# the programs that are named must be a command.
import os
import re
import resource
import shutil
import signal
import socket
import subprocess
import sys
import tempfile
import time

ROOT = os.path.realpath(os.path.join(os.path.dirname(os.path.abspath(__file__)), ".."))
PREEMPT = f"{ROOT}/preempt"
BIN = f"{ROOT}/target/bin"
CASES = f"{ROOT}/crates/planner_cases/data"
DAMAGED = f"{ROOT}/crates/taskfile_cases/data"
SEVEN = f"{CASES}/seven-60"
SHELLS = [["dash"], ["bash"], ["bash", "--posix"]]
NEVER = f"{ROOT}/there is none"
failures = []
checks = 0


def hold(right, what):
    """Counts a check, and keeps what it is about where it does not hold."""
    global checks
    checks += 1
    if not right:
        failures.append(what)


def text_of(path):
    with open(path, encoding="utf-8") as file:
        return file.read()


def bytes_of(path):
    with open(path, "rb") as file:
        return file.read()


def write(path, content, mode=0o644):
    with open(path, "wb") as file:
        file.write(content)
    os.chmod(path, mode)


class Ran:
    """A command that has ended: its status and what it printed."""

    def __init__(self, command, stdin=os.devnull, stdout=subprocess.PIPE, **more):
        self.command = command
        opened = os.open(stdin, os.O_RDONLY)
        run = subprocess.run(command, stdin=opened, stdout=stdout, stderr=subprocess.PIPE, timeout=60, **more)
        os.close(opened)
        self.status, self.out, self.err = run.returncode, run.stdout or b"", run.stderr

    def __str__(self):
        return f"{self.command}\nended with {self.status} and printed\n{self.out[:400]!r}\nand on standard error\n{self.err[:400]!r}"


def direct(name, *arguments, stdin=os.devnull):
    return Ran([f"{BIN}/{name}", *arguments], stdin)


# The words


def readme_refusals():
    """Number, words and what the place counts, of each row of README's table."""
    section = text_of(f"{ROOT}/README.md").split("\n## Refusals\n")[1].split("\n## ")[0]
    rows = re.findall(r"^\| (\d+) \| (.*) \| (.*) \|$", section, re.M)
    return {int(number): (words, noun_of(place)) for number, words, place in rows}


def noun_of(place):
    found = re.match(r"the lowest (?:such |wrong )?(\w+)", place)
    return found and found[1]


def header_refusals():
    """What the place counts, of each number that the C calls return."""
    enum = text_of(f"{ROOT}/include/preempt.h").split("enum preempt_number {")[1].split("};")[0]
    rows = re.findall(r"= (\d+),? +/\*(.*?)\*/", enum, re.S)
    places = {int(number): re.search(r"place: (the lowest such \w+)", words) for number, words in rows}
    return {number: place and noun_of(place[1]) for number, place in places.items()}


REFUSALS = readme_refusals()


def place_words(noun, place):
    if noun is None:
        return ""
    if noun == "line":
        return f" (line {place} counted from 0, line {place + 1} of an editor)"
    return f" ({noun} {place}, counted from 0)"


def refusal_words(subject, number, place, told=None, noun=True):
    """The line on standard error; where it tells another place than the number has, that one."""
    words, counted = REFUSALS[number]
    counted = counted if noun else None
    said = place_words(counted, place if told is None else told)
    return f"preempt: {subject}: refused {number} at {place}: {words}{said}\n".encode()


# The script under one shell


class Front:
    """The script under a shell, in a directory of its own."""

    def __init__(self, shell, scratch):
        self.shell, self.scratch = shell, scratch
        self.temporary = f"{scratch}/tmp"
        self.files = f"{scratch}/files"
        os.mkdir(self.temporary)
        os.mkdir(self.files)

    def environment(self, given):
        kept = {name: value for name, value in os.environ.items() if name != "PREEMPT_BIN"}
        return {**kept, "TMPDIR": self.temporary, **given}

    def command(self, *arguments):
        return [*self.shell, PREEMPT, *arguments]

    def run(self, *arguments, stdin=os.devnull, env={}, **more):
        ran = Ran(self.command(*arguments), stdin, env=self.environment(env), cwd=self.files, **more)
        hold(not os.listdir(self.temporary), f"{ran}\nand left something in TMPDIR")
        hold(not hidden(self.files), f"{ran}\nand left something beside its output")
        return ran

    def answers(self, right, *arguments, stdin=os.devnull):
        """The script passes on what the program has printed."""
        ran = self.run(*arguments, stdin=stdin)
        hold((ran.status, ran.out, ran.err) == (0, right.out, b""), f"{ran}\nand not what the program prints")
        hold(right.out and not right.err, f"{right}\nand should have answered")

    def refuses(self, right, words, *arguments, stdin=os.devnull):
        """The script passes on the refusal and says it in words; with -o it leaves no file, and none changed."""
        ran = self.run(*arguments, stdin=stdin)
        hold((ran.status, ran.out, ran.err) == (1, right.out, right.err + words), f"{ran}\nand should say\n{words!r}")
        there = f"{self.files}/there"
        write(there, b"as it was")
        for name in ("new", "there"):
            ran = self.run(*arguments, "-o", name, stdin=stdin)
            hold((ran.status, ran.out, ran.err) == (1, b"", right.err + words), f"{ran}\nand should say\n{words!r}")
        hold(os.listdir(self.files) == ["there"] and bytes_of(there) == b"as it was", f"{ran}\nand changed a file")
        os.remove(there)

    def fails(self, words, *arguments, **more):
        """The script prints nothing and says these words, and its status is 2."""
        ran = self.run(*arguments, **more)
        hold(ran.status == 2 and not ran.out and words in ran.err.decode(), f"{ran}\nand should fail with {words!r}")


def hidden(directory):
    return [name for name in os.listdir(directory) if name.startswith(".")]


# For each command its arguments, the program's, and the file on standard input.
def good_calls():
    def fed(name):
        return f"{ROOT}/crates/{name}/stdin"

    def given(name):
        return text_of(f"{ROOT}/crates/{name}/args").split()

    calls = {name: ([fed(name)], [], fed(name)) for name in ("plan", "picture", "lists", "show", "assemble")}
    for name in ("price", "replay", "next_read", "useful", "trace", "deadlines"):
        calls[name] = ([fed(name), *given(name)], given(name), fed(name))
    calls["generate"] = (given("generate"), given("generate"), os.devnull)
    both = [f"{ROOT}/crates/join/data/{name}" for name in given("join")]
    calls["join"] = (both, both, os.devnull)
    return calls


GOOD = good_calls()


def test_answers(front):
    for name, (arguments, program_arguments, stdin) in GOOD.items():
        right = direct(name, *program_arguments, stdin=stdin)
        front.answers(right, name, *arguments)
        output = f"{front.files}/made"
        for _ in ("made", "replaced"):
            ran = front.run(name, *arguments, "-o", "made")
            hold((ran.status, ran.out, ran.err) == (0, b"", b""), f"{ran}\nand should write a file")
            hold(bytes_of(output) == right.out, f"{ran}\nand wrote other bytes than the program")
        hold(os.stat(output).st_mode & 0o777 == 0o666 & ~front_umask(), f"{ran}\nand made a file of another mode")
        os.remove(output)
        if stdin in arguments:
            front.answers(right, name, *["-" if a == stdin else a for a in arguments], stdin=stdin)
    front.answers(direct("next_read", "1", "1", stdin=SEVEN), "next-read", SEVEN, "1", "1")
    none_fits = front.run("lists", f"{CASES}/seven-29")
    hold((none_fits.status, none_fits.out, none_fits.err) == (0, b"", b""), f"{none_fits}\nand should print nothing")


def front_umask():
    mask = os.umask(0)
    os.umask(mask)
    return mask


def test_names(front):
    right = direct("plan", stdin=SEVEN)
    spaced, dashed, plain = ["a file  of mine", "-o", "it"]
    for name in (spaced, dashed, plain, "-"):
        shutil.copy(SEVEN, f"{front.files}/{name}")
    front.answers(right, "plan", spaced)
    front.answers(right, "plan", f"./{dashed}")
    front.answers(right, "plan", "--", dashed)
    front.answers(right, "plan", "./-")
    both = direct("join", SEVEN, SEVEN)
    front.answers(both, "join", "--", dashed, spaced)
    front.answers(both, "join", "-", spaced, stdin=SEVEN)
    front.answers(both, "join", spaced, "-", stdin=SEVEN)
    front.fails("standard input is one file, not two", "join", "-", "-", stdin=SEVEN)
    front.answers(right, "plan", plain, "-o", "-")
    for arguments in (["plan", "-o", "x y", plain], ["plan", plain, "-o", "x y"]):
        front.run(*arguments)
        hold(bytes_of(f"{front.files}/x y") == right.out, f"{arguments} does not write to a name with a space")
        os.remove(f"{front.files}/x y")
    front.run("join", plain, spaced, "-o", plain)
    hold(bytes_of(f"{front.files}/{plain}") == both.out, "a file that is read is not replaced by the output")
    os.symlink(plain, f"{front.files}/link")
    front.run("plan", SEVEN, "-o", "link")
    hold(os.path.islink(f"{front.files}/link"), "-o replaces a link")
    hold(bytes_of(f"{front.files}/{plain}") == right.out, "-o does not write where a link leads")
    for name in os.listdir(front.files):
        os.remove(f"{front.files}/{name}")


def test_refusals(front):
    damaged, last = f"{DAMAGED}/sum-block-3", f"{DAMAGED}/r-125-block-96"
    beyond, text = f"{CASES}/largest", f"{front.scratch}/text"
    for name in ("plan", "picture", "price", "replay", "lists", "show"):
        front.refuses(direct(name, stdin=damaged), refusal_words(damaged, 2, 3), name, damaged)
    front.refuses(direct("plan", stdin=damaged), refusal_words("standard input", 2, 3), "plan", "-", stdin=damaged)
    front.refuses(direct("plan"), refusal_words("/dev/null", 1, 0), "plan", "/dev/null")
    front.refuses(direct("plan", stdin=f"{CASES}/seven-29"), refusal_words(f"{CASES}/seven-29", 6, 0), "plan", f"{CASES}/seven-29")
    front.refuses(direct("price", "2", "2", stdin=SEVEN), refusal_words(SEVEN, 7, 1), "price", SEVEN, "2", "2")
    front.refuses(direct("price", "1", stdin=SEVEN), refusal_words(SEVEN, 8, 1), "price", SEVEN, "1")
    front.refuses(direct("useful", "5", stdin=SEVEN), refusal_words(SEVEN, 7, 0, noun=False), "useful", SEVEN, "5")
    front.refuses(direct("next_read", "0", "5", stdin=SEVEN), refusal_words(SEVEN, 7, 0, noun=False), "next_read", SEVEN, "0", "5")
    front.refuses(direct("lists", stdin=beyond), refusal_words(beyond, 15, 0), "lists", beyond)
    none = ["1", "0", "0", "1", "0", "0"]
    front.refuses(direct("generate", *none), refusal_words("generate", 10, 0), "generate", *none)
    write(text, b"0 1\n0 x\n")
    numbers = ["1", "1", "1", "1", "0", "0", "0"]
    front.refuses(direct("trace", *numbers, stdin=text), refusal_words(text, 13, 1), "trace", text, *numbers)
    front.refuses(direct("assemble", stdin=text), refusal_words(text, 17, 0), "assemble", text)
    front.refuses(direct("deadlines", "1"), refusal_words("/dev/null", 16, 0), "deadlines", "/dev/null", "1")
    for pair, words in {
        (damaged, SEVEN): refusal_words(damaged, 2, 3),
        (SEVEN, damaged): refusal_words(damaged, 2, 100, told=3),
        (last, SEVEN): refusal_words(last, 5, 96),
        (SEVEN, last): refusal_words(last, 5, 193, told=96),
        (SEVEN, "/dev/null"): refusal_words("/dev/null", 1, 97),
        (SEVEN, beyond): refusal_words(f"{SEVEN} and {beyond}", 11, 0),
    }.items():
        front.refuses(direct("join", *pair), words, "join", *pair)
    front.refuses(direct("join", SEVEN, damaged), refusal_words("standard input", 2, 100, told=3), "join", SEVEN, "-", stdin=damaged)


def test_usage(front):
    front.fails("usage: preempt COMMAND")
    for name in ("", "plans", "pla", "--plan", "-o", "../plan", "plan|FILE", "*"):
        front.fails(f"there is no command '{name}'", name)
    for name in GOOD:
        asked = "" if name == "generate" else "asked for"
        front.fails(asked, name)
        usage = front.run(name).err.decode().splitlines()[-1]
        hold(usage.startswith(f"usage: preempt {name} "), f"{name} without arguments says {usage!r}")
    front.fails("two files are asked for", "join", SEVEN)
    front.fails("there is no option '-x'", "plan", SEVEN, "-x")
    front.fails("there is no option '-1'", "price", SEVEN, "-1")
    front.fails("-o asks for the name of a file", "plan", SEVEN, "-o")
    front.fails("-o asks for the name of a file", "plan", SEVEN, "-o", "")
    # what a program has to say of its arguments is passed on
    for name, arguments in {"plan": ["x"], "price": ["x"], "next_read": ["1"], "useful": ["1", "2"], "deadlines": ["x"]}.items():
        said = direct(name, *arguments, stdin=SEVEN).err.decode()
        hold(said.startswith(f"usage: {name} "), f"{name} {arguments} says {said!r}")
        front.fails(said, name, SEVEN, *arguments)
    front.fails("usage: generate SEED N M S Q R", "generate", "1")
    front.fails("usage: join FIRST SECOND", "join", SEVEN, SEVEN, SEVEN)
    front.fails("usage: deadlines HORIZON", "deadlines", SEVEN, "1")


def test_files(front):
    front.fails(f"{NEVER}: there is no such file", "plan", NEVER)
    front.fails("there is no such file", "plan", "")
    front.fails(f"{ROOT}: is a directory", "plan", ROOT)
    front.fails("standard input: is a directory", "plan", "-", stdin=ROOT)
    front.fails(f"{NEVER}: there is no such file", "join", SEVEN, NEVER)
    front.fails(f"{ROOT}: is a directory", "join", ROOT, SEVEN)
    listener = f"{front.files}/socket"
    with socket.socket(socket.AF_UNIX) as bound:
        bound.bind(listener)
        front.fails(f"{listener}: cannot be read", "plan", listener)
    os.remove(listener)
    front.fails("/x: cannot be written", "plan", SEVEN, "-o", f"{NEVER}/x")
    front.fails(f"{ROOT}: is a directory", "plan", SEVEN, "-o", ROOT)
    front.fails("no directory can be made in it", "plan", SEVEN, env={"TMPDIR": NEVER})
    if os.geteuid() != 0:
        closed = f"{front.files}/closed"
        write(closed, bytes_of(SEVEN), 0)
        front.fails("cannot be read", "plan", closed)
        front.fails("cannot be written", "plan", SEVEN, "-o", closed)
        os.remove(closed)


def limit_files():
    """What is written beyond a block of 512 bytes fails, as on a full disk."""
    signal.signal(signal.SIGXFSZ, signal.SIG_IGN)
    resource.setrlimit(resource.RLIMIT_FSIZE, (512, 512))


def test_full(front):
    with open("/dev/full", "wb") as full:
        for arguments in (["plan", SEVEN], ["generate", *GOOD["generate"][0]], ["price", SEVEN, "1"], ["help"], ["plan", "-h"], ["--version"]):
            front.fails("standard output cannot be written", *arguments, stdout=full)
    front.fails("/dev/full: cannot be written", "plan", SEVEN, "-o", "/dev/full")
    hold(os.path.exists("/dev/full") and not os.path.isfile("/dev/full"), "-o replaces a device")
    front.fails("there is no room for the output", "join", SEVEN, SEVEN, "-o", "made", preexec_fn=limit_files)
    front.fails("there is no room for the output", "join", SEVEN, SEVEN, preexec_fn=limit_files)
    hold(os.listdir(front.files) == [], "a file is left where it could not be written")


def test_closed(front):
    for closed, words in {"<&-": "standard input is closed", ">&-": "standard output is closed"}.items():
        command = " ".join([*front.shell, f"'{PREEMPT}'", "plan", "-", closed])
        ran = Ran(["sh", "-c", command], SEVEN, env=front.environment({}))
        hold((ran.status, ran.out, ran.err) == (2, b"", f"preempt: {words}\n".encode()), str(ran))
    many = direct("generate", "1", "16", "0", "512", "4294967295", "1").out
    write(f"{front.files}/many", many)
    reader = subprocess.Popen(front.command("lists", "many"), stdout=subprocess.PIPE, stderr=subprocess.PIPE, env=front.environment({}), cwd=front.files)
    first = reader.stdout.readline()
    reader.stdout.close()
    said = reader.stderr.read()
    hold((first, said, reader.wait(60)) == (b"0 0\n", b"", 2), f"a reader that goes away: {first!r} {said!r} {reader.returncode}")
    hold(not os.listdir(front.temporary), "a reader that goes away: something is left in TMPDIR")
    os.remove(f"{front.files}/many")


def test_signals(front):
    for number, status in ((signal.SIGHUP, 129), (signal.SIGINT, 130), (signal.SIGTERM, 143)):
        for arguments, directory in ((["plan", "-"], front.temporary), (["plan", "-", "-o", "made"], front.files)):
            # A test that runs in the background may have been started with signals ignored.
            waits = subprocess.Popen(
                front.command(*arguments), stdin=subprocess.PIPE, stdout=subprocess.DEVNULL, stderr=subprocess.DEVNULL,
                env=front.environment({}), cwd=front.files, start_new_session=True, preexec_fn=lambda: signal.signal(number, signal.SIG_DFL),
            )
            begun = wait_for(lambda: any(os.path.exists(f"{directory}/{name}/output") for name in os.listdir(directory)))
            os.killpg(waits.pid, number)
            ended = wait_for(lambda: waits.poll() is not None)
            waits.stdin.close()
            hold(begun and ended and waits.wait() == status, f"{arguments}, signal {number}: begun {begun}, ended {ended}, status {waits.returncode}")
            hold(not os.listdir(directory), f"{arguments}, signal {number}: something is left")


def wait_for(condition):
    for _ in range(600):
        if condition():
            return True
        time.sleep(0.05)
    return False


def stand_in(front, name, script):
    """A directory with a program of this name that is a shell script."""
    directory = f"{front.scratch}/stand-in"
    os.makedirs(directory, exist_ok=True)
    write(f"{directory}/{name}", b"#!/bin/sh\n" + script, 0o755)
    return {"PREEMPT_BIN": directory}


def test_stand_ins(front):
    """What a program prints is a refusal only if it is one line of that form and nothing else."""
    line = b"refused 6 at 0\n"
    for name, output in {
        "plan": line + line, "price": line + b"x\n", "lists": b"6 refused at 0\n", "show": b"refused 6 at x\n", "useful": b" " + line,
        "generate": line, "join": line, "assemble": line, "trace": line, "picture": line,
    }.items():
        env = stand_in(front, name, b"printf '" + output.replace(b"\n", b"\\n") + b"'\n")
        ran = front.run(name, *GOOD[name][0], env=env)
        hold((ran.status, ran.out, ran.err) == (0, output, b""), f"{ran}\nand this is no refusal")
    every_byte = bytes(range(256)) * 300
    write(f"{front.scratch}/bytes", every_byte)
    ran = front.run("generate", env=stand_in(front, "generate", f"cat '{front.scratch}/bytes'\n".encode()))
    hold((ran.status, ran.out, ran.err) == (0, every_byte, b""), f"{ran}\nand did not pass on every byte")
    front.fails("plan ended with status 3", "plan", SEVEN, env=stand_in(front, "plan", b"exit 3\n"))
    front.fails("plan ended with status 139", "plan", SEVEN, env=stand_in(front, "plan", b"kill -s SEGV $$\n"))
    empty = f"{front.scratch}/empty"
    os.mkdir(empty)
    for name, (arguments, _, _) in GOOD.items():
        front.fails(f"{name} is not built, there is no {empty}/{name}; run: make {name}", name, *arguments, env={"PREEMPT_BIN": empty})


def test_words(front):
    """Each refusal of README is said in README's words; those that C has name the same places."""
    hold(sorted(REFUSALS) == list(range(1, len(REFUSALS) + 1)) and len(REFUSALS) >= 17, f"README has the refusals {sorted(REFUSALS)}")
    for number in REFUSALS:
        env = stand_in(front, "plan", f"echo 'refused {number} at 5'\n".encode())
        ran = front.run("plan", SEVEN, env=env)
        words = refusal_words(SEVEN, number, 5)
        hold((ran.status, ran.err) == (1, words), f"{ran}\nand README has\n{words!r}")
    in_c = header_refusals()
    hold(sorted(in_c) == list(range(1, 10)), f"preempt.h has the refusals {sorted(in_c)}")
    for number, noun in in_c.items():
        hold(REFUSALS[number][1] == noun, f"refusal {number}: preempt.h has the place {noun}, README {REFUSALS[number][1]}")


def test_help(front, programs):
    version = text_of(f"{ROOT}/VERSION").strip()
    ran = front.run("--version")
    hold((ran.status, ran.out.decode(), ran.err) == (0, f"preempt {version}\n", b""), f"{ran}\nand VERSION is {version}")
    pages = [front.run(*arguments) for arguments in (["help"], ["--help"], ["-h"])]
    hold(all((page.status, page.out, page.err) == (0, pages[0].out, b"") for page in pages), "help, --help and -h differ")
    commands = re.findall(r"^  (\w+) ", pages[0].out.decode(), re.M)
    hold(sorted(commands) == sorted(programs) == sorted(GOOD), f"the commands {commands}, the programs {programs}, those tried {list(GOOD)}")
    for name in commands:
        pages = [front.run(*arguments) for arguments in (["help", name], [name, "--help"], [name, "-h"])]
        hold(all((page.status, page.out, page.err) == (0, pages[0].out, b"") for page in pages), f"help {name}, {name} --help and {name} -h differ")
        page = pages[0].out.decode()
        usage = re.match(rf"usage: preempt {name} (.*) \[-o OUTPUT\]\n", page)
        hold(usage, f"help {name} begins with no usage line")
        for word in usage[1].replace("..", "").split() if usage else []:
            hold(re.search(rf"^  {word} ", page, re.M), f"help {name} does not say what {word} is")
            hold(usage_word(name, word), f"the usage line of {name} does not say what {word} is")
    front.fails("there is no command 'plans'", "help", "plans")
    front.fails("takes one command at most", "help", "plan", "price")


def usage_word(name, word):
    """Whether the program's own usage line says what the word is."""
    said = direct(name, "x", "x", "x").err.decode()
    return re.fullmatch(rf"usage: {name} .*   (.*[,;] )?{word}(, \w+)*: .*\n", said)


# What is said once


def manual_items():
    """The heads of the manual's lists, and the text below each."""
    lines = text_of(f"{ROOT}/docs/preempt.1").replace("\\(pc", "·").splitlines()
    items = {}
    for line in lines:
        if line.startswith(".It "):
            head = line[4:]
            items.setdefault(head, [])
        elif line.startswith((".El", ".Sh")):
            head = None
        elif items and head:
            items[head].append(line)
    return {head: " ".join(text) for head, text in items.items()}


def test_manual(front):
    items = manual_items()
    for line in re.findall(r"^  (\w+ [A-Z. ]*[A-Z.])  ", front.run("help").out.decode(), re.M):
        name, arguments = line.split(" ", 1)
        hold(f"Cm {name} Ar {arguments}" in items, f"docs/preempt.1 has not the command {line}")
    diagnostics = text_of(f"{ROOT}/docs/preempt.1").split(".Sh DIAGNOSTICS")[1]
    hold(len(re.findall(r"^\.It ", diagnostics, re.M)) == len(REFUSALS), "docs/preempt.1 has another number of refusals than README")
    for number, (words, _) in REFUSALS.items():
        hold(items.get(str(number), "").endswith(words), f"docs/preempt.1 has for {number} {items.get(str(number))!r}")
    for command in (["mandoc", "-T", "lint"], ["man", "--warnings", "-E", "UTF-8", "-l", "-Tutf8"]):
        if shutil.which(command[0]):
            ran = Ran([*command, f"{ROOT}/docs/preempt.1"])
            hold(ran.status == 0 and not ran.err and (command[0] == "man" or not ran.out), str(ran))


def make(*arguments):
    env = {name: value for name, value in os.environ.items() if not name.startswith(("MAKE", "MFLAGS"))}
    ran = Ran(["make", "--silent", "-C", ROOT, *arguments], env=env)
    hold(ran.status == 0, str(ran))


def files_below(directory):
    return sorted(os.path.relpath(f"{at}/{name}", directory) for at, _, names in os.walk(directory) for name in names)


def test_install(scratch, programs):
    prefix = f"{scratch}/a prefix"
    make("install", f"PREFIX={prefix}")
    fixed = ["bin/preempt", "include/preempt.h", "lib/libfirmware.a", "lib/pkgconfig/preempt.pc", "share/doc/preempt/LINKING.txt",
             "share/doc/preempt/README.md", "share/man/man1/preempt.1", *[f"libexec/preempt/{name}" for name in programs]]
    installed = files_below(prefix)
    hold(set(fixed) <= set(installed), f"make install puts there only {installed}")
    hold(all(name in fixed or name.startswith("share/doc/preempt/") for name in installed), f"make install puts there {installed}")
    os.symlink(f"{prefix}/bin/preempt", f"{scratch}/linked")
    for script in (f"{prefix}/bin/preempt", f"{scratch}/linked"):
        ran = Ran([script, "plan", SEVEN], cwd=scratch)
        hold((ran.status, ran.out, ran.err) == (0, direct("plan", stdin=SEVEN).out, b""), str(ran))
    os.remove(f"{prefix}/libexec/preempt/plan")
    ran = Ran([f"{prefix}/bin/preempt", "plan", SEVEN])
    hold(ran.status == 2 and b"run: make plan" in ran.err, str(ran))
    make("uninstall", f"PREFIX={prefix}")
    hold(files_below(prefix) == [], f"make uninstall leaves {files_below(prefix)}")
    hold(not os.path.exists(f"{prefix}/libexec/preempt") and not os.path.exists(f"{prefix}/share/doc/preempt"), "make uninstall leaves a directory")

    staged = f"{scratch}/staged"
    make("install", f"DESTDIR={staged}", "PREFIX=/opt/preempt")
    hold(files_below(f"{staged}/opt/preempt") == installed, "with DESTDIR make install puts something else there")
    hold("prefix=/opt/preempt\n" in text_of(f"{staged}/opt/preempt/lib/pkgconfig/preempt.pc"), "DESTDIR is in preempt.pc")
    make("uninstall", f"DESTDIR={staged}", "PREFIX=/opt/preempt")
    hold(files_below(staged) == [], f"make uninstall with DESTDIR leaves {files_below(staged)}")


def test_linking(scratch):
    """The example is compiled and linked with what pkg-config prints."""
    if not shutil.which("pkg-config"):
        return
    prefix = f"{scratch}/linking"
    make("install", f"PREFIX={prefix}")
    env = {**os.environ, "PKG_CONFIG_PATH": f"{prefix}/lib/pkgconfig"}
    flags = Ran(["pkg-config", "--cflags", "--libs", "preempt"], env=env)
    hold(flags.status == 0, str(flags))
    version = Ran(["pkg-config", "--modversion", "preempt"], env=env)
    hold(version.out.decode() == text_of(f"{ROOT}/VERSION"), str(version))
    built = Ran(["gcc", "-std=c11", f"{ROOT}/examples/firmware/main.c", "-o", f"{scratch}/example", *flags.out.decode().split()])
    hold(built.status == 0, str(built))
    ran = Ran([f"{scratch}/example", f"{ROOT}/examples/firmware/seven.bin"])
    hold(ran.out == bytes_of(f"{ROOT}/examples/firmware/expected"), str(ran))


def main():
    programs = sys.argv[1:]
    shells = [shell for shell in SHELLS if shutil.which(shell[0])]
    hold(shells, "neither dash nor bash is here")
    for shell in shells:
        with tempfile.TemporaryDirectory() as scratch:
            front = Front(shell, scratch)
            for test in (test_answers, test_names, test_refusals, test_usage, test_files, test_full, test_closed, test_signals, test_stand_ins, test_words):
                test(front)
            test_help(front, programs)
            test_manual(front)
    with tempfile.TemporaryDirectory() as scratch:
        test_install(scratch, programs)
        test_linking(scratch)
    for failure in failures:
        print(f"{failure}\n")
    print(f"preempt under {', '.join(' '.join(shell) for shell in shells)}: {checks} checks, {len(failures)} wrong")
    sys.exit(bool(failures))


if __name__ == "__main__":
    main()
