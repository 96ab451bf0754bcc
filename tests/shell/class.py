"""docs/CLASS.md shows what the shell prints: every block is typed again. With --write the page's blocks are renewed."""
import re
import shutil
import subprocess
import sys
import tempfile
from pathlib import Path

from common import ROOT, SHELL, fail

PAGE = ROOT / "docs" / "CLASS.md"
PROMPT = re.compile(r"^\w+(?:=>|->)(?: (.*)|)$")
QUESTIONS = 10


def blocks(text):
    """Language and contents of each block."""
    return re.findall(r"```(\w+)\n(.*?)```\n", text, re.S)


def own_shop(text, room):
    """The folder that the last part of the page makes."""
    shutil.copytree(ROOT / "practice", room / "practice")
    shutil.copytree(ROOT / "practice" / "harbour", room / "myshop")
    parts = dict(block for block in blocks(text) if block[0] != "console")
    (room / "myshop" / "article.csv").write_text(parts["csv"])
    with open(room / "myshop" / "shop.toml", "a") as file:
        file.write("\n" + parts["toml"])


def typed(block, room):
    """The block with what the shell says now."""
    first, *lines = block.rstrip("\n").split("\n")
    words = first.split()[2:]
    given = [match[1] or "" for match in map(PROMPT.match, lines) if match]
    ran = subprocess.run([sys.executable, "-B", str(SHELL), *words, "--echo"], input="\n".join(given) + "\n", cwd=room, text=True,
                         stdout=subprocess.PIPE, stderr=subprocess.STDOUT, timeout=60)
    if "Traceback" in ran.stdout or ran.returncode not in (0, 1):
        fail(f"status {ran.returncode} for\n{block}\n{ran.stdout}")
    return f"{first}\n{ran.stdout}"


def main():
    text = PAGE.read_text()
    wanted = text
    with tempfile.TemporaryDirectory() as place:
        room = Path(place)
        own_shop(text, room)
        found = [block for language, block in blocks(text) if language == "console"]
        for block in found:
            wanted = wanted.replace(f"```console\n{block}```", f"```console\n{typed(block, room)}```", 1)
    headings = [line for line in text.split("\n") if re.match(r"## \d+\. ", line)]
    if len(headings) != QUESTIONS:
        fail(f"the page has {len(headings)} questions, not {QUESTIONS}")
    if sys.argv[1:] == ["--write"]:
        PAGE.write_text(wanted)
    elif wanted != text:
        for old, new in zip(text.split("\n"), wanted.split("\n")):
            if old != new:
                fail(f"docs/CLASS.md has\n  {old}\nand the shell says\n  {new}\n(tests/shell/class.py --write renews the page)")
        fail("docs/CLASS.md is shorter or longer than what the shell says")
    print(f"class: {len(found)} blocks of docs/CLASS.md, {QUESTIONS} questions, are what the shell says")


main()
