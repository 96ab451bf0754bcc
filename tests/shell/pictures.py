"""Draws docs/shell-terminal.png and docs/shell-page.png anew; needs chromium. Not part of the gate.

    python3 -B tests/shell/pictures.py
"""
import os
import re
import shutil
import subprocess
import tempfile
from html import escape
from pathlib import Path
from urllib.parse import urlencode

from common import HARBOUR, HILL, ROOT, fail
from page import Server
from terminal import ENTER, Terminal

TYPED = ["RANGE OFFER(X) RETRIEVE W: X.ARTICLE, X.BRAND, X.PRICE: X.PRICE <= AVE(X.PRICE);", "\\explain", "\\as brand trainer",
         "\\user manager", "RANGE STAFF(X) RETRIEVE W: X.NAME: X.WAGE > 2500;", "RANGE STAF(X) RETRIEVE W: X.NAME;"]
ASKED = {"left": "brand", "right": "trainer", "q": "RANGE OFFER(X)\nRETRIEVE W: X.ARTICLE, X.BRAND, X.PRICE:\n  X.PRICE <= AVE(X.PRICE)"}
COLOURS = {"\033[1;32m": "<b style='color:#5f5'>", "\033[1;33m": "<b style='color:#fd5'>", "\033[0m": "</b>"}


def session():
    """What a terminal shows, as HTML."""
    shell = Terminal(HARBOUR)
    said = shell.until("=> ") + "=> "
    for line in TYPED:
        shell.type(line + ENTER)
        said += shell.until("=> ") + "=> "
    shell.type("\\quit" + ENTER)
    shell.status()
    said = escape(re.sub("\033\\[\\?[0-9]+[hl]", "", said).replace("\r", ""), quote=False)
    for code, tag in COLOURS.items():
        said = said.replace(code, tag)
    return f"<!doctype html><meta charset=utf-8><style>body {{ margin: 0; padding: 16px; background: #181818; color: #eee; " \
           f"font: 18px/1.35 'DejaVu Sans Mono'; }} pre {{ margin: 0; font: inherit; }}</style><pre>{said}</pre>"


def draw(address, picture, width, height, scale):
    browser = shutil.which("chromium") or fail("no chromium is installed")
    with tempfile.TemporaryDirectory() as room:
        subprocess.run([browser, "--headless", "--no-sandbox", "--disable-gpu", "--hide-scrollbars", f"--user-data-dir={room}",
                        f"--force-device-scale-factor={scale}", f"--window-size={width},{height}", f"--screenshot={picture}", address],
                       check=True, capture_output=True, timeout=60)
    print(picture.name, os.path.getsize(picture), "bytes")


def main():
    with tempfile.TemporaryDirectory() as room:
        page = Path(room) / "terminal.html"
        page.write_text(session())
        draw(f"file://{page}", ROOT / "docs" / "shell-terminal.png", 1500, 1136, 0.74)
    server = Server(HARBOUR, "--beside", HILL)
    draw(f"http://127.0.0.1:{server.port}/?{urlencode(ASKED)}", ROOT / "docs" / "shell-page.png", 1600, 1500, 0.62)
    server.end()


if __name__ == "__main__":
    main()
