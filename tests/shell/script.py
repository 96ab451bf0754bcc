"""Questions from a file or the command line: what is printed, in which form, and the exit status."""
import json
import random
import re
import resource
import subprocess
import sys

from common import Copy, HARBOUR, SHELL, fail, run, same

SEED = 23
CHEAP = "RANGE OFFER(X) RETRIEVE W: X.ARTICLE, X.PRICE: X.PRICE < 90"
ROWS = [["YOGURT", 79], ["YOGURT", 89], ["ROLLS", 45]]
TABLE = " ARTICLE | PRICE\n---------+-------\n YOGURT  |    79\n YOGURT  |    89\n ROLLS   |    45\n(3 rows)\n"
REFUSED = "RANGE STAFF(X) RETRIEVE W: X.NAME"


def endings():
    """An empty line, a ';' outside parentheses, the end of the input: all end a question; a ';' inside belongs to an aggregate."""
    split = CHEAP.replace(" RETRIEVE", "\nRETRIEVE").replace(": X.PRICE <", ":\n  X.PRICE <")
    for given in (CHEAP, CHEAP + ";", CHEAP + "\n\n", split + "\n;\n", split.replace("\n", "\r\n"), "-- a remark\n" + split, "\n\n;;\n" + CHEAP + " ; ;"):
        same(given, run(HARBOUR, given=given), (0, TABLE, ""))
    same("two on a line", run(HARBOUR, given=f"{CHEAP}; {CHEAP};"), (0, TABLE * 2, ""))
    inner = "RANGE OFFER(X)\nRETRIEVE W: COUNT(X.PRICE\n;\nX.PRICE < 90)\n"
    same("a ';' of an aggregate", run(HARBOUR, given=inner), (0, " COUNT(X.PRICE)\n----------------\n              3\n(1 row)\n", ""))


def forms():
    same("-c", run(HARBOUR, "-c", CHEAP), (0, TABLE, ""))
    same("csv", run(HARBOUR, "--format", "csv", "-c", CHEAP), (0, "ARTICLE,PRICE\nYOGURT,79\nYOGURT,89\nROLLS,45\n", ""))
    status, out, _ = run(HARBOUR, "--format", "json", "-c", CHEAP, "-c", REFUSED, "-c", r"\explain " + CHEAP, "-c", r"\as brand trainer " + CHEAP)
    lines = [json.loads(line) for line in out.splitlines()]
    same("json", (status, lines[0]), (1, {"columns": ["ARTICLE", "PRICE"], "rows": ROWS, "complete": True}))
    same("json, refused", lines[1]["refused"], 33)
    same("json, explained", [each["permit"] for each in lines[2]["variables"][0]["permits"] if each["applies"]], [2, 3, 4])
    same("json, side by side", (lines[3]["left"]["rows"], lines[3]["right"]["rows"]), (ROWS, ROWS))
    same("no rows", run(HARBOUR, "-c", "RANGE OFFER(X) RETRIEVE W: X.PRICE: X.PRICE < 0"), (0, " PRICE\n-------\n(0 rows)\n", ""))
    twice = run(HARBOUR, "-c", "RANGE OFFER(X, Y) RETRIEVE W: X.PRICE, Y.PRICE, MIN(X.ARTICLE): X.PRICE = 45 ^ Y.PRICE = 79")
    same("one column twice, a name of an aggregate", twice[1].split("\n")[0::2][:2], [" X.PRICE | Y.PRICE | MIN(X.ARTICLE)", "      45 |      79 | BREAD"])


def statuses():
    same("refused", run(HARBOUR, "-c", REFUSED)[0], 1)
    same("refused once", run(HARBOUR, given=f"{CHEAP};{REFUSED};{CHEAP};")[:2], (1, TABLE * 2))
    same("an unknown command", run(HARBOUR, given=f"\\nothing\n{CHEAP}"), (2, TABLE, "there is no command \\nothing; \\help lists them\n"))
    same("an unknown user", run(HARBOUR, "-u", "nobody"), (2, "", "waldumre: there is no user 'nobody'; users are brand, manager, label and trainer\n"))
    same("the user in capitals", run(HARBOUR, "-u", "TRAINER", "-c", REFUSED)[0], 0)
    for words in ((), (HARBOUR, "--format", "xml"), (HARBOUR, "--port", "x"), (HARBOUR, "--seconds", "0"), (HARBOUR, HARBOUR)):
        same(f"usage {words}", run(*words)[0], 2)
    same("nothing asked", run(HARBOUR), (0, "", ""))
    same("nothing to explain", run(HARBOUR, "-c", r"\explain"), (2, "", "no question has been put yet\n"))
    same("one user beside nobody", run(HARBOUR, "-c", r"\as brand")[0], 2)
    same("a folder beside that is not there", run(HARBOUR, "-c", r"\as brand ../dale:brand " + CHEAP)[0], 2)


def refusals():
    """Each number that an asker can cause, with place or name."""
    found = []
    for text, wanted in (
            ("RANGE OFFER(X) RETRIEVE W: X.PRICE:", "refused 50: line 1, column 36: the name of a column, a value or an aggregate is expected, but the text ends"),
            ("RANGE OFFER(X)\n  RETRIEVE W: X.PRICE\n  X.RANK = 1", "refused 50: line 3, column 3: ',' or ':' or the end is expected, but here stands X"),
            ("range", "refused 50: line 1, column 1: RANGE is expected, but here stands r; QUEL is written in capitals"),
            ("RANGE OFFER(X) RETRIEVE W: X.PRICE: X.PRICE <> 1", "refused 50: line 1, column 46: the name of a column, a value or an aggregate is expected, but here stands '>'"),
            ("RANGE OFFER(X) RETRIEVE W: X.PRICE: X.PRICE = 2147483648", "refused 50: line 1, column 47: the number 2147483648 does not fit 32 bits"),
            ("RANGE OFFER(X) RETRIEVE W: X.PRICE: X.PRICE = 1" + " " * 2000, "refused 50: line 1, column 2001: the text has over 2000 bytes, the most that a question may have"),
            ("RANGE OFFER(X) RETRIEVE W: X.COST", "refused 51: line 1, column 30: OFFER has no column COST"),
            ("RANGE OFFER(X) RETRIEVE W: Y.PRICE", "refused 51: line 1, column 28: no variable is called Y"),
            ("RANGE OFFER(X, X) RETRIEVE W: X.PRICE", "refused 51: line 1, column 16: the variable X is bound a second time; take another letter"),
            ("RANGE OFFER(X, Y) RETRIEVE W: X.PRICE: X.PRICE = AVE(X.PRICE; Y.RANK = 1)",
             "refused 51: line 1, column 63: the variable Y is out of reach here: inside an aggregate only the aggregate's own variable, and those of SOMEs "
             "inside it, can be used"),
            ("RANGE OFFER(A, B, C, D, E) RETRIEVE W: A.RANK, B.RANK, C.RANK, D.RANK, E.RANK", "refused 31: the question has 5 RANGE variables; 4 are the most"),
            ("RANGE OFFER(A) RETRIEVE W: " + ", ".join(["A.RANK"] * 9), "refused 31: the question has 9 targets; 8 are the most"),
            ("RANGE OFFER(A) RETRIEVE W: A.RANK: " + "NOT " * 31 + "1 = 1", "refused 31: the question has 33 levels; 32 are the most"),
            ("RANGE OFFER(A) RETRIEVE W: A.RANK: " + " ^ ".join(["MAX(A.RANK)=1"] * 8),
             "refused 31: the question has 9 variables; 8 are the most"),
            ("RANGE OFFER(A) RETRIEVE W: A.RANK: " + "^".join(["A.RANK=1"] * 28) + "V" + " V ".join("(" + "^".join(["A.RANK=1"] * 28) + ")" for _ in range(4)),
             "refused 30: the question is 1545 bytes of records; 1024 are the most"),
            ("RANGE PARTNER(X) RETRIEVE W: X.BRAND", "refused 33: the question uses BRAND of X, a row of PARTNER, and brand has no permit over PARTNER"),
            ("RANGE BASKET(X) RETRIEVE W: X.ARTICLE: SOME S IN STAFF (1 = 1)",
             "refused 33: the question uses no column of S in SOME S IN STAFF, a row of STAFF, and brand has no permit over STAFF")):
        found.append((text, wanted))
    status, out, err = run(HARBOUR, given="\n\n".join(text for text, _ in found))
    same("the status after refusals", (status, out), (1, ""))
    said = [line for line in err.split("\n") if line.startswith("refused")]
    for (text, wanted), line in zip(found, said, strict=True):
        same(text, line, wanted)


def nonsense():
    """Whatever is typed: an answer, a refusal or a complaint, and the session goes on."""
    luck = random.Random(SEED)
    signs = "RANGEOFX().:;,^=#<>-19 \\\t\0\x7f\u00e4\u2028\u1f4a\r"
    lines = ["".join(luck.choice(signs) for _ in range(luck.randint(0, 30))) for _ in range(400)]
    lines += [f"\\{name} {''.join(luck.choice(signs) for _ in range(5))}" for name in ("user", "as", "explain", "permits", "bytes", "as brand trainer") * 5]
    status, out, err = run(HARBOUR, given="\n".join(lines) + "\n\n" + CHEAP)
    same("nonsense", (status, out[-len(TABLE):]), (2, TABLE))
    ran = subprocess.run([sys.executable, "-B", str(SHELL), str(HARBOUR)], input=bytes(range(256)) * 3, capture_output=True, timeout=60)
    same("bytes that are no text", (ran.returncode, b"Traceback" in ran.stderr), (1, False))


def without_list():
    """Without the list `names` the words of all cells are known; a word that no cell has is refused."""
    with Copy() as copy:
        text = (copy.folder / "shop.toml").read_text()
        copy.write("shop.toml", re.sub(r"names = \[.*?\]\n", "", text, flags=re.S))
        same("no list of names", run(copy.folder, "-c", CHEAP), (0, TABLE, ""))
        rio = "RANGE OFFER(X) RETRIEVE W: X.PRICE: X.BRAND = MILLER"
        same("a word of a cell", run(copy.folder, "-c", rio)[0], 0)
        same("a word of no cell", run(copy.folder, "-c", rio.replace("MILLER", "MULLER"))[0], 1)


def latest():
    """A relation whose last row comes first."""
    with Copy() as copy:
        copy.change("shop.toml", 'OFFER = "offer.csv"', 'OFFER = { file = "offer.csv", latest = true }')
        rows = TABLE.split("\n")
        same("last row first", run(copy.folder, "-c", CHEAP), (0, "\n".join(rows[:2] + rows[4:1:-1] + rows[5:]), ""))


def hidden():
    """Two folders that differ only in what the brand may not see: all that the shell shows the brand is the same, byte for byte."""
    asked = r"""
        \relations
        \permits
        RANGE BUYING(B) RETRIEVE W: AVE(B.CENTS), COUNT(B.CENTS), SUM(B.ARTICLE), MIN(B.BRAND);
        \explain
        \bytes
        RANGE BUYING(B, C) RETRIEVE W: B.ARTICLE, C.CENTS: B.CENTS < AVE(C.CENTS) ^ NOT SOME D IN BUYING (D.CENTS > B.CENTS);
        \explain
        RANGE BUYING(B) RETRIEVE W: B.CENTS: B.ARTICLE = COFFEE V B.BRAND = RIO;
        RANGE BUYING(B) RETRIEVE W: B.CENTS: B.ARTICLE = GIN;
        RANGE OFFER(X) RETRIEVE W: X.NUMBER, X.RANK: X.RANK = MAX(X.RANK);
        RANGE STAFF(X) RETRIEVE W: COUNT(X.NAME);
        \as brand brand RANGE BUYING(B) RETRIEVE W: B.CENTS;"""
    with Copy() as copy:
        copy.write("buying.csv", "ARTICLE,BRAND,CENTS\nCOFFEE,RIO,999\nMILK,ALPEN,62\nTEA,NORDIC,-5\nTEA,NORDIC,1\nBUTTER,ALPEN,171\nYOGURT,ALPEN,52\n")
        copy.write("staff.csv", "NAME,ROLE,AISLE,WAGE\n")
        copy.write("recall.csv", "ARTICLE\nMILK\nTEA\n")
        copy.change("offer.csv", "1010,TEA,RIO,199,1", "1999,TEA,MILLER,199,7")
        for form in ("table", "csv", "json"):
            same(f"hidden rows, {form}", run(copy.folder, "--format", form, given=asked), run(HARBOUR, "--format", form, given=asked))


def large():
    """More rows than the shell lends room for: the first are shown, and 41 says so. And a question that takes too long is left."""
    with Copy() as copy:
        copy.write("basket.csv", "ARTICLE,PIECES\n" + "".join(f"MILK,{number}\n" for number in range(1024)))
        status, out, err = run(copy.folder, "--format", "csv", "-c", "RANGE BASKET(A, B) RETRIEVE W: A.PIECES, B.PIECES: A.PIECES < 70")
        same("41", (status, len(out.splitlines()), err.split("\n")[0]),
             (1, 65537, "refused 41: the answer has more rows than the 131072 cells that this shell lends; these are the first"))
        long = "RANGE BASKET(A, B, C, D) RETRIEVE W: A.PIECES: A.PIECES + 0".replace(" + 0", " < B.PIECES ^ B.PIECES < C.PIECES ^ C.PIECES < D.PIECES ^ D.PIECES < A.PIECES")
        same("left", run(copy.folder, "--seconds", "0.5", "-c", long), (1, "", "left after 0.5 seconds; there is no answer\n"))


def main():
    endings()
    forms()
    statuses()
    refusals()
    nonsense()
    without_list()
    latest()
    hidden()
    large()
    script = f"\\relations\n\\permits\n{CHEAP};\n\\explain\n\\bytes\n\\as brand ../hill:brand\n\\user manager\n{REFUSED};\n\\help\n"
    same("the same input", run(HARBOUR, given=script), run(HARBOUR, given=script))
    before = resource.getrusage(resource.RUSAGE_CHILDREN)
    run(HARBOUR, "-c", CHEAP)
    after = resource.getrusage(resource.RUSAGE_CHILDREN)
    spent = after.ru_utime + after.ru_stime - before.ru_utime - before.ru_stime
    if spent > 1:
        fail(f"to open the shop and ask took {spent:.2f} seconds of the processor")
    print(f"script: all passed; opening the practice shop and asking takes {spent:.2f} seconds of the processor")


main()
