# Runs the examples of README.md, each line of a block that begins with '$ ', in order and in a scratch directory that sees the tree. Says where one
# prints something else than the lines below it, up to the next such line or the block's end.
import os
import subprocess
import sys
import tempfile

ROOT = os.path.join(os.path.dirname(os.path.abspath(__file__)), "..")


def blocks(text):
    """The lines of each block, indented by four spaces or fenced."""
    lines, fenced = [], False
    for line in text.splitlines() + [""]:
        fence = line.startswith("```")
        if not fence and fenced:
            lines.append(line)
        elif not fence and line.startswith("    "):
            lines.append(line[4:])
        else:
            if lines:
                yield lines
            lines = []
        fenced ^= fence


def examples(text):
    """Each command, and the lines below it."""
    for lines in blocks(text):
        found = []
        for line in lines:
            if line.startswith("$ "):
                found.append((line[2:], []))
            elif found:
                found[-1][1].append(line)
        yield from found


def main():
    wrong = 0
    found = list(examples(open(f"{ROOT}/README.md", encoding="utf-8").read()))
    with tempfile.TemporaryDirectory() as scratch:
        for name in os.listdir(ROOT):
            os.symlink(os.path.join(os.path.realpath(ROOT), name), os.path.join(scratch, name))
        for command, right in found:
            run = subprocess.run(command, shell=True, cwd=scratch, stdin=subprocess.DEVNULL, stdout=subprocess.PIPE, stderr=subprocess.STDOUT)
            printed = run.stdout.decode(errors="replace").splitlines()
            if printed != right:
                wrong += 1
                print("\n".join([f"$ {command}", "README.md has", *right, "and printed is", *printed]))
    print(f"README.md: {len(found)} examples, {wrong} wrong")
    sys.exit(bool(wrong or not found))


if __name__ == "__main__":
    main()
