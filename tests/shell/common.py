"""What the tests of the shell share."""
import os
import shutil
import subprocess
import sys
import tempfile
from pathlib import Path

ROOT = Path(__file__).resolve().parents[2]
SHELL = ROOT / "shell" / "waldumre"
HARBOUR = ROOT / "practice" / "harbour"
HILL = ROOT / "practice" / "hill"
sys.dont_write_bytecode = True
sys.path += [str(ROOT / "shell"), str(ROOT / "examples" / "bindings"), str(ROOT / "tools")]
sys.setrecursionlimit(20000)


def run(*words, given=""):
    """Status, standard output and standard error of the shell."""
    ran = subprocess.run([sys.executable, "-B", str(SHELL), *map(str, words)], input=given, capture_output=True, text=True, timeout=60)
    if "Traceback" in ran.stderr or "a fault of this shell" in ran.stderr + ran.stdout:
        fail(f"a fault of the shell, for {words}:\n{ran.stderr}")
    return ran.returncode, ran.stdout, ran.stderr


def fail(why):
    sys.exit(f"{os.path.basename(sys.argv[0])}: {why}")


def same(what, found, wanted):
    if found != wanted:
        fail(f"{what}\nfound:  {found!r}\nwanted: {wanted!r}")


class Copy:
    """A copy of a practice shop in a temporary folder, to be changed."""

    def __init__(self, of=HARBOUR):
        self.room = tempfile.TemporaryDirectory()
        self.folder = Path(self.room.name) / of.name
        shutil.copytree(of, self.folder)

    def __enter__(self):
        return self

    def __exit__(self, *_):
        self.room.cleanup()

    def change(self, file, old, new):
        path = self.folder / file
        text = path.read_text()
        if old not in text:
            fail(f"{file} has no {old!r}")
        path.write_text(text.replace(old, new, 1))

    def write(self, file, data):
        (self.folder / file).write_bytes(data if isinstance(data, bytes) else data.encode())
