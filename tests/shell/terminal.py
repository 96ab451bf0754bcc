"""The shell at a terminal of its own: typing, completion, history, Ctrl-C, leaving."""
import os
import pty
import re
import select
import signal
import subprocess
import sys
import time
from pathlib import Path

from common import Copy, HARBOUR, SHELL, fail

ENTER, TAB, UP, DELETE, CTRL_A, CTRL_C, CTRL_D, CTRL_E = "\r", "\t", "\033[A", "\177", "\001", "\003", "\004", "\005"
PATIENCE = 20
# 2 to the 40 assignments, and none of them meets it
LONG = ("RANGE BASKET(A, B, C, D) RETRIEVE W: A.PIECES: A.PIECES < B.PIECES ^ B.PIECES < C.PIECES ^ C.PIECES < D.PIECES"
        " ^ D.PIECES < A.PIECES;")


class Terminal:
    def __init__(self, folder, *words):
        self.child, self.line = pty.fork()
        if self.child == 0:
            os.environ.update(TERM="xterm", COLUMNS="200", LINES="50", INPUTRC="/dev/null")
            os.environ.pop("NO_COLOR", None)
            # tests that run in the background ignore Ctrl-C, and so would what they start
            signal.signal(signal.SIGINT, signal.SIG_DFL)
            os.execv(sys.executable, [sys.executable, "-B", str(SHELL), str(folder), *words])
        self.seen = ""

    def type(self, text):
        os.write(self.line, text.encode())

    def until(self, wanted):
        """Waits for a text; gives what came up to it, and forgets it."""
        if not self.comes(wanted, PATIENCE):
            fail(f"no {wanted!r} came, but\n{self.seen}")
        before, _, self.seen = self.seen.partition(wanted)
        return before

    def comes(self, wanted, seconds):
        end = time.monotonic() + seconds
        while wanted not in self.seen:
            if not select.select([self.line], [], [], max(0, end - time.monotonic()))[0]:
                return False
            try:
                self.seen += os.read(self.line, 65536).decode()
            except OSError:
                fail(f"it ended before {wanted!r} came, after\n{self.seen}")
        return True

    def interrupt(self, wanted):
        """Ctrl-C. Python can miss one in the moment between showing a prompt and waiting for a key, so a second one is pressed, as a person would."""
        self.type(CTRL_C)
        if not self.comes(wanted, 4):
            self.type(CTRL_C)
        return self.until(wanted)

    def asks(self, text, *wanted):
        """Types a line; what is wanted must come before the next prompt."""
        self.type(text + ENTER)
        for each in wanted:
            self.until(each)
        self.until("=> ")

    def status(self):
        end = time.monotonic() + PATIENCE
        while time.monotonic() < end:
            done, status = os.waitpid(self.child, os.WNOHANG)
            if done:
                return os.waitstatus_to_exitcode(status)
            if select.select([self.line], [], [], 0.1)[0]:
                try:
                    os.read(self.line, 65536)
                except OSError:
                    pass
        os.kill(self.child, signal.SIGKILL)
        return fail("it did not leave")


def typing():
    shell = Terminal(HARBOUR)
    shell.until("Users: brand, manager, label and trainer.")
    shell.until("brand=> ")
    shell.type("RANGE OFFER(X)" + ENTER)
    shell.until("brand-> ")
    shell.type("RETRIEVE W: X.ARTICLE, X.PRICE: X.PRICE < 50" + ENTER)
    shell.until("brand-> ")
    shell.asks("", "ROLLS   |    45", "(1 row)")
    # what the permits added is coloured, and braces are for elsewhere
    shell.type("\\explain" + ENTER)
    said = shell.until("brand=> ")
    if "{" in said or not re.search("\033\\[1;32m\\^ .*BRAND = ALPEN", said):
        fail(f"no colour in\n{said}")
    # Ctrl-C drops what was typed
    shell.type("RANGE NONSENSE" + ENTER)
    shell.until("brand-> ")
    shell.interrupt("dropped")
    shell.until("brand=> ")
    # history: a whole question is one entry; the command before it is another
    shell.type(UP + UP + ENTER)
    shell.until("RANGE OFFER(X) RETRIEVE W: X.ARTICLE, X.PRICE: X.PRICE < 50;")
    shell.until("ROLLS   |    45")
    shell.until("brand=> ")
    # line editing: back to the start of the line, and the last letter taken away
    shell.type("ser managerX" + CTRL_A + "\\u" + CTRL_E + DELETE + ENTER)
    shell.until("manager=> ")
    return shell


def completion(shell):
    shell.type("\\us" + TAB)
    shell.until("\\user ")
    shell.type("tra" + TAB + ENTER)
    shell.until("trainer=> ")
    shell.type("RANGE OFF" + TAB)
    shell.until("OFFER")
    shell.type("(X) RET" + TAB)
    shell.until("RETRIEVE")
    shell.type(" W: X.PRI" + TAB)
    shell.until("PRICE")
    shell.type(": X.BRAND = MILL" + TAB + ";" + ENTER)
    shell.until("289")
    shell.until("(2 rows)")
    shell.until("trainer=> ")
    shell.asks("\\timing", "Timing is on.")
    shell.asks("RANGE OFFER(X) RETRIEVE W: COUNT(X.RANK);", "10", "Time: ", " ms")
    shell.asks("RANGE OFFER(X) RETRIEVE W: COUNT(X.RANKE);", "refused 51", "did you mean RANK?")
    shell.type("\\quit" + ENTER)
    if shell.status() != 0:
        fail("\\quit did not leave with 0")


def interrupted():
    """Ctrl-C during a long question: no answer, and the shell goes on."""
    with Copy() as copy:
        copy.write("basket.csv", "ARTICLE,PIECES\n" + "".join(f"MILK,{number}\n" for number in range(1024)))
        shell = Terminal(copy.folder)
        shell.until("brand=> ")
        shell.type(LONG + ENTER)
        shell.until(";")
        time.sleep(1)
        begun = time.monotonic()
        shell.interrupt("stopped; there is no answer")
        shell.until("brand=> ")
        if time.monotonic() - begun > 10:
            fail("the question went on for more than 10 seconds")
        shell.asks("RANGE BASKET(A) RETRIEVE W: SUM(A.PIECES);", "523776", "(1 row)")
        shell.type(UP + UP)
        shell.until("D.PIECES < A.PIECES;")
        shell.interrupt("=> ")
        shell.type(CTRL_D)
        if shell.status() != 0:
            fail("Ctrl-D did not leave with 0")


def killed():
    """A shell that is killed during a question leaves no process behind. Not at a terminal: its end would end the question too."""
    with Copy() as copy:
        copy.write("basket.csv", "ARTICLE,PIECES\n" + "".join(f"MILK,{number}\n" for number in range(1024)))
        shell = subprocess.Popen([sys.executable, "-B", str(SHELL), str(copy.folder), "-c", LONG], stdout=subprocess.DEVNULL)
        children, end = [], time.monotonic() + PATIENCE
        while not children and time.monotonic() < end:
            time.sleep(0.1)
            children = Path(f"/proc/{shell.pid}/task/{shell.pid}/children").read_text().split()
        time.sleep(0.3)
        shell.kill()
        shell.wait()
        while any(running(child) for child in children):
            if time.monotonic() > end:
                for child in children:
                    os.kill(int(child), signal.SIGKILL)
                fail("the question runs on")
            time.sleep(0.1)


def running(child):
    try:
        return Path(f"/proc/{child}/stat").read_text().rsplit(")", 1)[1].split()[0] not in "ZX"
    except OSError:
        return False


def main():
    completion(typing())
    interrupted()
    killed()
    print("terminal: all passed")


if __name__ == "__main__":
    main()
