"""Damaged folders: each kind of damage gets its sentence, with file, line and column; never a traceback."""
import random

from common import Copy, HARBOUR, fail, run, same

from waldumre_shell.bad import Bad
from waldumre_shell.folder import open_shop

OFFER, TOML = "offer.csv", "shop.toml"
FIRST = "1001,MILK,ALPEN,109,1"
USERS = '[users.brand]\nabout = "the analyst of ALPEN, a dairy brand"\n'
NAMES = "is no name: a name is 1 to 12 capital letters A to Z, no spaces, digits or signs"


def permit(relation="OFFER", columns='"ALL"', rows='"ALL"'):
    """Stands in for the first permit of brand, from line 26 of shop.toml on."""
    return lambda copy: copy.change(TOML, 'relation = "ARTICLE"\ncolumns = "ALL"\nrows = "ALL"', f'relation = "{relation}"\ncolumns = {columns}\nrows = {rows}')


def swap(file, old, new):
    return lambda copy: copy.change(file, old, new)


def write(file, data):
    return lambda copy: copy.write(file, data)


def remove(file):
    return lambda copy: (copy.folder / file).unlink()


def replace_with_folder(file):
    def change(copy):
        (copy.folder / file).unlink()
        (copy.folder / file).mkdir()
    return change


def many_relations(copy):
    lines = "\n".join(f'R{"ABCDEFGHIJKLM"[number]} = "partner.csv"' for number in range(9))
    copy.change(TOML, "[relations]\n", f"[relations]\n{lines}\n")


def nine_permits(copy):
    extra = '[[users.brand.permits]]\nrelation = "SHELF"\ncolumns = "ALL"\nrows = "ALL"\n\n'
    copy.change(TOML, "[users.manager]\n", extra * 3 + "[users.manager]\n")


def wide(columns):
    return ",".join(chr(65 + n // 26) + chr(65 + n % 26) for n in range(columns))


DAMAGE = [
    # the folder and its file
    ("no shop.toml", remove(TOML), "FOLDER: has no shop.toml, which names its relations and users"),
    ("shop.toml is a folder", replace_with_folder(TOML), "FOLDER: has no shop.toml, which names its relations and users"),
    ("no TOML", swap(TOML, '[relations]', '[relations'), "shop.toml, line 10, column 11: no good TOML: expected ']' at the end of a table declaration"),
    ("cut short", write(TOML, 'title = "Harb'), 'shop.toml, at its end: no good TOML: unterminated string'),
    ("a key twice", swap(TOML, 'OFFER = "offer.csv"', 'ARTICLE = "offer.csv"'), "shop.toml, line 12, column 22: no good TOML: cannot overwrite a value"),
    ("not UTF-8", write(TOML, b'title = "H\xe4fen"\n'), "shop.toml, line 1, column 11: byte 228 is not UTF-8; save the file as UTF-8 text"),
    ("an unknown key", swap(TOML, "title =", "name ="), "shop.toml, line 2, column 1: 'name' is no key of the file; known are title, names, relations, users and shelf"),
    ("a title that is a number", swap(TOML, '"Harbour Grocers"', "7"), "shop.toml, line 2, column 1: the title is no text in quotation marks"),
    ("no relations", write(TOML, 'title = "X"\n'), "shop.toml: has no [relations]; it needs one"),
    ("relations that are no table", write(TOML, 'relations = 3\n'), "shop.toml, line 1, column 1: relations is no table with an entry, as [relations] with lines below it"),
    ("no users", write(TOML, '[relations]\nPARTNER = "partner.csv"\n'), "shop.toml: has no [users]; it needs one"),
    # relations
    ("a relation in small letters", swap(TOML, "OFFER =", "offer ="), f"shop.toml, line 12, column 1: 'offer' {NAMES}; write OFFER"),
    ("a relation of 13 letters", swap(TOML, "OFFER =", "OFFERINGSSSSS ="), "shop.toml, line 12, column 1: 'OFFERINGSSSSS' has 13 letters; a name has at most 12"),
    ("a relation with a reserved name", swap(TOML, "OFFER =", "SUM ="), "shop.toml, line 12, column 1: 'SUM' is a word of QUEL itself (RANGE, RETRIEVE, NOT, SOME, IN, V, COUNT, SUM, AVE, MAX, MIN) and cannot be a name"),
    ("a relation called ROW", swap(TOML, "OFFER =", "ROW ="), "shop.toml, line 12, column 1: ROW cannot be a relation: in permits it is the row that the permit speaks of"),
    ("a relation without file", swap(TOML, '"offer.csv"', "5"), 'shop.toml, line 12, column 1: OFFER names no file, as OFFER = "offer.csv"'),
    ("a file that is not there", remove(OFFER), "shop.toml, line 12, column 1: 'offer.csv' is not in the folder"),
    ("a file that is a folder", replace_with_folder(OFFER), "shop.toml, line 12, column 1: 'offer.csv' is no file"),
    ("a file outside", swap(TOML, '"offer.csv"', '"../offer.csv"'), "shop.toml, line 12, column 1: '../offer.csv' lies outside the folder"),
    ("a workspace in quotation marks", swap(TOML, "workspace = true", 'workspace = "yes"'), "shop.toml, line 18, column 1: workspace is true or false, without quotation marks"),
    ("an unknown key of a relation", swap(TOML, "workspace = true", "public = true"), "shop.toml, line 18, column 1: 'public' is no key of relation BASKET; known are file, workspace and latest"),
    ("a workspace walked from its end", swap(TOML, "workspace = true", "workspace = true, latest = true"), "shop.toml, line 18, column 1: a workspace is walked as it stands; latest is for stored relations"),
    ("seventeen relations", many_relations, "shop.toml, line 27, column 1: relation 17; a folder has at most 16"),
    # cells
    ("an empty CSV file", write(OFFER, ""), "offer.csv, line 1: the file is empty; its first line names the columns"),
    ("a header with semicolons", write(OFFER, "NUMBER;ARTICLE\n1;MILK\n"), "offer.csv, line 1: the columns are parted by another sign; part them by commas"),
    ("a column without name", swap(OFFER, "ARTICLE,", ","), "offer.csv, line 1, column 2: the column has no name"),
    ("a column in small letters", swap(OFFER, "PRICE", "Price"), f"offer.csv, line 1, column 4: 'Price' {NAMES}; write PRICE"),
    ("a column twice", swap(OFFER, "RANK", "PRICE"), "offer.csv, line 1, column 5: the column PRICE is there already, as column 4"),
    ("seventeen columns", write(OFFER, wide(17) + "\n"), "offer.csv, line 1, column 17: 17 columns; a relation has at most 16"),
    ("a number over 32 bits", swap(OFFER, FIRST, "1001,MILK,ALPEN,2147483648,1"), "offer.csv, line 2, column 4 (PRICE): '2147483648' does not fit 32 bits; numbers go from -2147483648 to 2147483647"),
    ("a fraction", swap(OFFER, FIRST, "1001,MILK,ALPEN,1.09,1"), "offer.csv, line 2, column 4 (PRICE): '1.09' is no whole number; write prices in cents, as 1250 for 12.50"),
    ("a cell in small letters", swap(OFFER, FIRST, "1001,Milk,ALPEN,109,1"), f"offer.csv, line 2, column 2 (ARTICLE): 'Milk' {NAMES}; write MILK"),
    ("a name with 13 letters", swap(OFFER, FIRST, "1001,BUTTERMILKISH,ALPEN,109,1"), "offer.csv, line 2, column 2 (ARTICLE): 'BUTTERMILKISH' has 13 letters; a name has at most 12"),
    ("a name with an accent", swap(OFFER, FIRST, "1001,CRÈME,ALPEN,109,1"), f"offer.csv, line 2, column 2 (ARTICLE): 'CRÈME' {NAMES}; write CRME"),
    ("a reserved word in a cell", swap(OFFER, FIRST, "1001,MAX,ALPEN,109,1"), "offer.csv, line 2, column 2 (ARTICLE): 'MAX' is a word of QUEL itself (RANGE, RETRIEVE, NOT, SOME, IN, V, COUNT, SUM, AVE, MAX, MIN) and cannot be a name"),
    ("an empty cell", swap(OFFER, FIRST, "1001,MILK,,109,1"), "offer.csv, line 2, column 3 (BRAND): the cell is empty; every cell holds a whole number or a name"),
    ("a number among names", swap(OFFER, "1002,MILK", "1002,7"), "offer.csv, line 3, column 2 (ARTICLE): '7' is a number, but the column holds names (line 2); a column holds the one or the other"),
    ("a name among numbers", swap(OFFER, "NORDIC,99", "NORDIC,TEA"), "offer.csv, line 3, column 4 (PRICE): 'TEA' is a name, but the column holds numbers (line 2); a column holds the one or the other"),
    ("a cell too few", swap(OFFER, FIRST, "1001,MILK,ALPEN,109"), "offer.csv, line 2, column 5: the row has 4 cells, the header 5"),
    ("a cell too many", swap(OFFER, FIRST, FIRST + ",1"), "offer.csv, line 2, column 6: the row has 6 cells, the header 5"),
    ("an open quotation mark", swap(OFFER, "1001,MILK", '1001,"MILK'), "offer.csv, line 11: unexpected end of data; a cell with a quotation mark is written in quotation marks, the mark twice"),
    ("1,025 rows", write("partner.csv", "BRAND\n" + "RIO\n" * 1025), "partner.csv, line 1026: row 1025; a relation has at most 1024 rows"),
    ("bytes that are no text", write(OFFER, b"NUMBER,ARTICLE\n1,\xff\n"), "offer.csv, line 2, column 3: byte 255 is not UTF-8; save the file as UTF-8 text"),
    ("a name that is not listed", swap(OFFER, FIRST, "1001,PEAR,ALPEN,109,1"), "offer.csv, line 2, column 2 (ARTICLE): PEAR is not among the names of shop.toml; add it there"),
    # names
    ("names that are no list", swap(TOML, 'names = ["ALPEN"', 'names = [7'), 'shop.toml, line 6, column 1: names is no list of names, as names = ["MILK", "TEA"]'),
    ("a listed name in small letters", swap(TOML, '"ANNA"', '"Anna"'), f"shop.toml, line 6, column 20: 'Anna' {NAMES}; write ANNA"),
    ("a name listed twice", swap(TOML, '"ANNA"', '"ALPEN"'), "shop.toml, line 6, column 11: ALPEN is listed twice in names"),
    # users and permits
    ("a user that is no table", write(TOML, '[relations]\nPARTNER = "partner.csv"\n[users]\nbrand = 1\n'), "shop.toml, line 4, column 1: the user brand is no table, as [users.brand] with lines below it"),
    ("a user with a space", swap(TOML, "[users.label]", '[users."the label"]'), "shop.toml, line 93, column 2: 'the label' is no name of a user: letters, digits and _, a letter first"),
    ("one user in two spellings", swap(TOML, "[users.label]", "[users.BRAND]"), "shop.toml, line 93, column 2: the user BRAND is there already; capitals make no difference"),
    ("an unknown key of a user", swap(TOML, USERS, USERS.replace("about", "note")), "shop.toml, line 23, column 1: 'note' is no key of user brand; known are about and permits"),
    ("an about that is a number", swap(TOML, USERS, "[users.brand]\nabout = 3\n"), "shop.toml, line 23, column 1: about is no text in quotation marks"),
    ("permits that are no list", write(TOML, '[relations]\nPARTNER = "partner.csv"\n[users.brand]\npermits = "ALL"\n'), "shop.toml, line 4, column 1: the permits of brand are no list of tables, as [[users.brand.permits]]"),
    ("nine permits", nine_permits, "shop.toml, line 65, column 1: permit 9 of brand; a user has at most 8"),
    ("a permit without rows", swap(TOML, 'columns = "ALL"\nrows = "ALL"\n', 'columns = "ALL"\n'), "shop.toml, line 25, column 1: the permit has no rows; it needs relation, columns and rows"),
    ("an unknown key of a permit", swap(TOML, 'rows = "ALL"\n', 'where = "ALL"\n'), "shop.toml, line 28, column 1: 'where' is no key of a permit; known are relation, columns and rows"),
    ("a permit over nothing", permit(relation="OFFERS"), "shop.toml, line 26, column 13: no relation is called 'OFFERS'; relations are ARTICLE, OFFER, SHELF, STAFF, BUYING, PARTNER, RECALL and BASKET"),
    ("a permit over a workspace", permit(relation="BASKET"), "shop.toml, line 26, column 13: BASKET is a workspace; workspaces are the asker's own and need no permit"),
    ("a column that is not there", permit(columns='["PRICE", "COST"]'), "shop.toml, line 27, column 12: OFFER has no column 'COST'; its columns are NUMBER, ARTICLE, BRAND, PRICE and RANK"),
    ("a column named twice", permit(columns='"PRICE, PRICE"'), "shop.toml, line 27, column 12: the column PRICE is named twice"),
    ("columns that are numbers", permit(columns="[1]"), 'shop.toml, line 27, column 12: columns is a list of columns, as ["PRICE"], or "ALL"'),
    ("rows that are a number", permit(rows="1"), 'shop.toml, line 28, column 8: rows is a condition in quotation marks, or "ALL", or "NO ACCESS"'),
    ("a condition that is no QUEL", permit(rows='"ROW.PRICE = "'), "shop.toml, line 28, column 21: refused 50: the name of a column, a value or an aggregate is expected, but the text ends"),
    ("a condition with and", permit(rows='"ROW.PRICE = 1 and ROW.RANK = 1"'), "shop.toml, line 28, column 23: refused 50: '^' or V or the end is expected, but here stands a; QUEL is written in capitals"),
    ("a second qualification", permit(rows='"ROW.PRICE = 1: ROW.RANK = 1"'), "shop.toml, line 28, column 22: refused 50: '^' or V or the end is expected, but here stands ':'"),
    ("a value that is not there", permit(rows='"ROW.BRAND = ALPIN"'), "shop.toml, line 28, column 21: refused 51: no value is called ALPIN; did you mean ALPEN?"),
    ("a condition's column", permit(rows='"ROW.COST = 1"'), "shop.toml, line 28, column 13: refused 51: OFFER has no column COST"),
    ("another variable than ROW", permit(rows='"X.PRICE = 1"'), "shop.toml, line 28, column 9: refused 51: no variable is called X"),
    ("ROW inside an aggregate", permit(rows='"ROW.PRICE = AVE(SHELF.AISLE; ROW.RANK = 1)"'), "shop.toml, line 28, column 38: refused 51: the variable ROW is out of reach here: inside an aggregate only the aggregate's own variable, and those of SOMEs inside it, can be used"),
    ("a relation for a row", permit(rows='"SHELF.LABEL = 1"'), "shop.toml, line 28, column 9: the name of a relation stands for it in aggregates only; for another row write SOME X IN OFFER (..)"),
    ("a look into a workspace", permit(rows='"SOME B IN BASKET (B.ARTICLE = ROW.ARTICLE)"'), "shop.toml, line 25, column 1: the permit is refused with 23: it stands over a workspace, or looks into one"),
    ("four variables", permit(rows='"ROW.PRICE = AVE(ROW.PRICE) V ROW.PRICE = SUM(ROW.PRICE) V ROW.PRICE = MAX(ROW.PRICE) V ROW.PRICE = MIN(ROW.PRICE)"'), "shop.toml, line 25, column 1: the permit is refused with 21: it is too large: a permit has at most 256 bytes of records, 16 levels and 3 variables beside ROW"),
    # the shelf
    ("a shelf that is a number", write(TOML, 'shelf = 1\n[relations]\nPARTNER = "partner.csv"\n[users.brand]\n'), "shop.toml, line 1, column 1: shelf is no table, as [shelf] with lines below it"),
    ("a shelf without offers", swap(TOML, "\noffers = ", "\nother = "), "shop.toml, line 147, column 1: 'other' is no key of shelf; known are labels and offers"),
    ("a shelf with one question", lambda copy: copy.write(TOML, (copy.folder / TOML).read_text().split("\noffers = ")[0] + "\n"), "shop.toml, line 145, column 2: shelf has no question called offers, in quotation marks"),
]


def complaint(copy):
    try:
        open_shop(copy.folder)
    except Bad as why:
        return str(why).replace(str(copy.folder), "FOLDER")
    return "opened"


def drawn(count):
    """Bytes gone, doubled or changed anywhere in the folder: a sentence, or a folder that opens."""
    luck, opened = random.Random(23), 0
    with Copy() as copy:
        files = sorted(copy.folder.iterdir())
        for _ in range(count):
            path = files[luck.randrange(len(files))] if luck.random() < 0.5 else copy.folder / TOML
            data = path.read_bytes()
            here, piece = luck.randrange(len(data)), luck.choice([b"", b"\0", b"\xff", b'"', b"[", b"=", b"\n", b",", b"7", b"A", b"'", b"}", b"\r", b"9999999999"])
            path.write_bytes(data[:here] + piece + data[here + luck.choice((0, 1, 1, 2, 40)):])
            opened += complaint(copy) == "opened"
            path.write_bytes(data)
    return opened


def main():
    with Copy() as good:
        same("the practice shop", complaint(good), "opened")
    wrong = 0
    for name, change, wanted in DAMAGE:
        with Copy() as copy:
            change(copy)
            found = complaint(copy)
            if found != wanted:
                wrong += 1
                print(f"{name}\n  found:  {found}\n  wanted: {wanted}")
    if wrong:
        fail(f"{wrong} sentences are others")
    count = 400
    opened = drawn(count)
    # the command says the same, with status 2, and changes nothing
    with Copy() as copy:
        copy.change(OFFER, FIRST, "1001,MILK,ALPEN,1.09,1")
        before = sorted((path.name, path.read_bytes()) for path in copy.folder.iterdir())
        same("the command", run(copy.folder, "-c", r"\permits"),
             (2, "", "waldumre: offer.csv, line 2, column 4 (PRICE): '1.09' is no whole number; write prices in cents, as 1250 for 12.50\n"))
        same("the folder afterwards", sorted((path.name, path.read_bytes()) for path in copy.folder.iterdir()), before)
    same("no folder", run("nowhere", "-c", r"\permits"), (2, "", "waldumre: nowhere: there is no such folder\n"))
    same("a file for a folder", run(HARBOUR / TOML, "-c", r"\permits")[0], 2)
    print(f"folders: {len(DAMAGE)} kinds of damage, each with its sentence; of {count} drawn ones {opened} still open, the others get one too")


main()
