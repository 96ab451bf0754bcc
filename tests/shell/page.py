"""The page: by plain HTTP, and in a headless browser where one is installed."""
import atexit
import http.client
import re
import shutil
import signal
import subprocess
import sys
import tempfile
from html import unescape
from pathlib import Path
from urllib.parse import urlencode

from common import Copy, HARBOUR, HILL, SHELL, fail, same

QUESTION = "RANGE OFFER(X)\r\nRETRIEVE W: X.ARTICLE, X.BRAND, X.PRICE:\r\n  X.PRICE <= AVE(X.PRICE);"
ASKED = {"left": "brand", "right": "trainer", "q": QUESTION}


class Server:
    def __init__(self, *words):
        # tests that run in the background ignore Ctrl-C, and so would what they start
        heed = lambda: signal.signal(signal.SIGINT, signal.SIG_DFL)
        command = [sys.executable, "-B", str(SHELL), *map(str, words), "--page"]
        self.child = subprocess.Popen(command, stdout=subprocess.PIPE, stderr=subprocess.PIPE, text=True, preexec_fn=heed)
        atexit.register(self.child.kill)  # a test that fails leaves no server behind
        line = self.child.stdout.readline()
        found = re.search(r"http://127\.0\.0\.1:(\d+)/", line)
        if not found:
            fail(f"it does not say where: {line!r} {self.child.stderr.read()}")
        self.port = int(found[1])

    def get(self, path="/", host=None, method="GET"):
        link = http.client.HTTPConnection("127.0.0.1", self.port, timeout=30)
        link.request(method, path, headers={"Host": host} if host else {})
        reply = link.getresponse()
        data = reply.read().decode()
        link.close()
        return reply.status, data, reply.headers

    def page(self, **asked):
        status, data, _ = self.get("/?" + urlencode(asked))
        same("the status of the page", status, 200)
        return data

    def end(self):
        self.child.send_signal(signal.SIGINT)
        _, said = self.child.communicate(timeout=20)
        same("the status after Ctrl-C", (self.child.returncode, said.strip()), (0, ""))


def sides(page):
    return page.split("<section>")[1:]


def cells(section):
    return [[unescape(cell) for cell in re.findall("<td[^>]*>([^<]*)", row)] for row in re.findall("<tr[^>]*>(.*?)</tr>", section)][1:]


def labels(section):
    return re.findall("<b>([^<]*)</b><i>([^<]*)</i><small>([^<]*)</small>", section)


def plain_http(server):
    left, right = sides(server.page(**ASKED))
    same("the answers", (cells(left), len(cells(right))), ([["MILK", "ALPEN", "109"], ["YOGURT", "ALPEN", "89"]], 6))
    same("rows that differ", (left.count("<tr class=differs>"), right.count("<tr class=differs>")), (0, 4))
    same("the shelf of the brand", labels(left)[:4], [("MILK", "1.09", "#1001"), ("BUTTER", "2.49", "#1003"), ("YOGURT", "0.89", "#1005"), ("CHEESE", "", "")])
    same("the shelf of the trainer", labels(right)[2:4], [("YOGURT", "0.79", "#1004"), ("CHEESE", "3.29", "#1006")])
    same("what was added", [unescape(part) for part in re.findall("<ins>(.*?)</ins>", left)],
         ["^ (X.BRAND = ALPEN V (SOME P IN PARTNER (P.BRAND = X.BRAND) V TRUE))", "^ (X.BRAND = ALPEN V SOME PA IN PARTNER (PA.BRAND = X.BRAND))"])
    left, right = sides(server.page(left="hill:label", right="label"))
    same("the other folder, and a recalled article", (labels(left)[3], labels(right)[3]), (("CHEESE", "3.19", "#2006"), ("CHEESE", "", "")))
    left, right = sides(server.page(left="manager", right="brand", q="RANGE STAFF(X) RETRIEVE W: X.NAME, X.WAGE"))
    same("refusals", ("refused 33" in left, "refused 33" in right, "<table>" in left + right), (True, True, False))
    page = server.page(left="nobody", right="<b>", q="</textarea><script>alert(1)</script>")
    same("signs of HTML are only shown", ("<script" in page, "refused 50" in page), (False, True))


def guarded(server):
    status, page, headers = server.get()
    same("nothing from outside", (status, re.findall(r"https?:|src=|@import|url\(", page)), (200, []))
    same("the policy", headers["Content-Security-Policy"].split(";")[0], "default-src 'none'")
    same("another name that leads here", server.get(host="evil.example")[0], 403)
    same("another path", server.get("/shop.toml")[0], 404)
    same("another method", server.get(method="POST")[0], 501)
    small = [size for size in map(int, re.findall(r"font(?:-size)?:[^;}]*?(\d+)px", page)) if size < 24]
    same("letters too small for the last row", small, [])


def too_long():
    with Copy() as copy:
        copy.write("basket.csv", "ARTICLE,PIECES\n" + "".join(f"MILK,{number}\n" for number in range(1024)))
        server = Server(copy.folder, "--seconds", "1")
        page = server.page(q="RANGE BASKET(A, B, C, D) RETRIEVE W: A.PIECES: A.PIECES < B.PIECES ^ B.PIECES < C.PIECES ^ C.PIECES < D.PIECES ^ D.PIECES < A.PIECES")
        same("a long question", page.count("left after 1.0 seconds; there is no answer"), 2)
        server.end()


def browsed(server):
    """The same page as a browser builds it."""
    browser = shutil.which("chromium") or shutil.which("chromium-browser")
    if not browser:
        return "page: NOT run in a browser, since no chromium is installed; by plain HTTP all passed"
    with tempfile.TemporaryDirectory() as room:
        picture = Path(room) / "page.png"
        words = [browser, "--headless", "--no-sandbox", "--disable-gpu", "--disable-dev-shm-usage", f"--user-data-dir={room}/profile",
                 "--window-size=1600,1400", f"--screenshot={picture}", "--dump-dom", f"http://127.0.0.1:{server.port}/?{urlencode(ASKED)}"]
        ran = subprocess.run(words, capture_output=True, text=True, timeout=60)
        left, right = sides(ran.stdout)
        same("the answers in the browser", (len(cells(left)), len(cells(right))), (2, 6))
        same("the shelves in the browser", (len(labels(left)), len(labels(right))), (8, 8))
        same("the question in the browser's box", re.search("<textarea[^>]*>([^<]*)", ran.stdout)[1].split("\n")[0], "RANGE OFFER(X)")
        if not picture.exists() or picture.stat().st_size < 20000:
            fail("the browser drew nothing")
    return "page: by plain HTTP and in chromium all passed"


def main():
    server = Server(HARBOUR, "--beside", HILL)
    plain_http(server)
    guarded(server)
    said = browsed(server)
    taken = subprocess.run([sys.executable, "-B", str(SHELL), str(HARBOUR), "--page", "--port", str(server.port)], capture_output=True, text=True, timeout=30)
    same("a port that is taken", (taken.returncode, taken.stderr), (2, f"waldumre: port {server.port} cannot be had: address already in use\n"))
    server.end()
    too_long()
    print(said)


if __name__ == "__main__":
    main()
