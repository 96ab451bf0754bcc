#!/usr/bin/env python3
"""Holds docs/FORMAT.md to the model's definitions and to the header, and runs its examples.

    format.py PROGRAM [READER]

Definitions are found by name in crates/*/specs. Where one is no longer written as a pattern here expects, the test fails and says
which: then the pattern is to be adapted, and the page read again."""
import glob
import os
import re
import subprocess
import sys
import tempfile

ROOT = os.path.dirname(os.path.dirname(os.path.abspath(__file__)))
PAGE = open(os.path.join(ROOT, "docs/FORMAT.md"), encoding="utf-8").read()
HEADER = dict(
    pair for name in glob.glob(os.path.join(ROOT, "include/*.h"))
    for pair in re.findall(r"^#define (WALDUMRE_\w+) +(\d+)\b", open(name).read(), re.M)
)
SPECS = "\n".join(
    re.sub(r"--.*", "", open(name, encoding="utf-8").read())
    for crate in ("model", "program")
    for name in sorted(glob.glob(os.path.join(ROOT, "crates", crate, "specs", "*.antt")))
)
failures = []


def same(what, page, other):
    if page != other:
        failures.append(f"{what}: the page has {page}, not {other}")


def number(text):
    return int(text.replace(",", ""))


def table(name):
    """The rows under a marker, as lists of cells."""
    rows = re.search(rf"<!-- {name} -->\n((?:\|.*\n)+)", PAGE).group(1).splitlines()[2:]
    return [[cell.strip() for cell in row.strip("|").split("|")] for row in rows]


def constants(cell):
    return re.findall(r"`(WALDUMRE_\w+)`", cell)


def definition(name):
    """The clauses of a definition: from its type on, to the next one's."""
    found = re.search(rf"^[ \t]*(?:\w+ )*pub {name} :.*\n((?:.*\n)*?)(?=\s*$|[ \t]*(?:\w+ )*pub |mutual|module|\Z)", SPECS, re.M)
    if not found:
        sys.exit(f"format.py: no definition of {name} in the specs")
    return found.group(1)


def read(name, pattern):
    """The numbers that a pattern finds in a definition."""
    found = re.search(pattern, definition(name))
    if not found:
        sys.exit(f"format.py: the definition of {name} is not as this test reads it: {pattern}")
    groups = [int(text) for text in found.groups()]
    return groups[0] if len(groups) == 1 else groups


def limit(name, pattern):
    """What the fields of `limits` that a definition reads are: a number, or the five of a query."""
    found = re.search(pattern.replace("FIELD", r"limits\.([\w-]+)"), definition(name))
    if not found:
        sys.exit(f"format.py: the definition of {name} is not as this test reads it: {pattern}")
    query = r"record \{ bytes = (\d+); nesting = (\d+); bound = (\d+); ranges = (\d+); targets = (\d+) \}"
    values = []
    for field in found.groups():
        value = re.search(rf"[ {{]{field} = (?:(\d+)|{query});", definition("limits"))
        if not value:
            sys.exit(f"format.py: limits has no {field}")
        values.append(int(value[1]) if value[1] else [int(text) for text in value.groups()[1:]])
    return values[0] if len(values) == 1 else values


def by_kind(name):
    return {kind: int(value) for kind, value in re.findall(rf"^\s*{name} k-(\w+) = (\d+)", SPECS, re.M)}


def in_header(what, names, values):
    same(f"{what}, header", dict(zip(names, values)), {name: int(HEADER.get(name, -1)) for name in names})


def kinds(print_of):
    rows = table("table: kinds")
    relations = by_kind("relation_code")
    for column, name in ((0, "code"), (2, "body_length"), (4, "child_conditions"), (5, "child_terms")):
        page = {row[1]: int(row[column]) for row in rows if row[1] not in relations}
        same(f"kinds, {name}", page, by_kind(name))
    same("kinds, relation_code", {row[1]: int(row[0]) for row in rows if row[1] in relations}, relations)
    for row in rows:
        in_header(f"kind {row[1]}", constants(row[6]), [int(row[0])])
    # which kinds are conditions and which are terms
    grammar = re.search(r"condition = ((?:.*\n)+?)\s+term +=(.*)\n", PAGE)
    for text, name in zip(grammar.groups(), ("condition_body", "term_body")):
        page = {alternative.split()[0] for alternative in text.split("|")}
        read_so = re.findall(rf"^\s*{name} k-(\w+) r = (\w+)", SPECS, re.M)
        same(f"grammar, {name}", page, {kind for kind, how in read_so if how != "fail"})
    # which kinds a catalogue has, and that their body has the page's length
    relation = re.search(r"relation +=(.*)\n", PAGE).group(1)
    same("grammar, relation", set(relation.split()) & {row[1] for row in rows}, set(relations))
    printed = {kind: print_of({"catalogue": [kind, 1, 0, 0]}) for kind in range(256)}
    same("kinds of a catalogue", set(relations.values()), {kind for kind in printed if printed[kind] != "refused 10\n"})
    same("bodies of a catalogue", {row[2] for row in rows if row[1] in relations}, {"3"})


def operators(print_of):
    rows = table("table: operators")
    first, last = read("is_operator", r"leb (\d+) o && leb o (\d+)")
    same("operators", [int(row[0]) for row in rows], list(range(first, last + 1)))
    tests = {"=": lambda a, b: a == b, "≠": lambda a, b: a != b, "<": lambda a, b: a < b,
             "≤": lambda a, b: a <= b, ">": lambda a, b: a > b, "≥": lambda a, b: a >= b}
    for row in rows:
        in_header(f"operator {row[0]}", constants(row[2]), [int(row[0])])
        for a in (1, 2, 3):
            printed = print_of({"catalogue": [49, 1, 1, 0], "values": [9, 0, 0, 0],
                                "question": [1, 0, 0, 33, 0, 0, 21, int(row[0]), 32, a, 0, 0, 0, 32, 2, 0, 0, 0]})
            same(f"operator {row[0]} of {a} and 2", tests[row[1][0]](a, 2), printed.endswith("\n9\n"))


def last_line(print_of, function, values):
    data = b"".join(value.to_bytes(4, "little", signed=True) for value in values)
    printed = print_of({"catalogue": [49, 1, len(values) % 256, len(values) // 256], "values": data,
                        "question": [34, function, 0, 0, 0, 16, 16]})
    return printed.split("\n")[-2] if printed.startswith("rows 1\n") else "no value"


def functions(print_of):
    rows = table("table: functions")
    first, last = read("is_function", r"leb (\d+) f && leb f (\d+)")
    same("functions", [int(row[0]) for row in rows], list(range(first, last + 1)))
    values = [4, -9, 4, 5]
    means = {"COUNT": 4, "SUM": 4, "AVE": 1, "MAX": 5, "MIN": -9}
    for row in rows:
        in_header(f"function {row[0]}", constants(row[4]), [int(row[0])])
        same(f"{row[1]} of {values}", str(means[row[1]]), last_line(print_of, int(row[0]), values))
        empty = print_of({"catalogue": [49, 1, 0, 0], "question": [34, int(row[0]), 0, 0, 0, 16, 16]})
        same(f"{row[1]} over no rows", row[3], "no value" if empty.startswith("rows 0\n") else empty.split("\n")[-2])
    for total, count, cell in table("table: averages"):
        total, count = int(total), int(count)
        rounded = (2 * abs(total) + count) // (2 * count) * (-1 if total < 0 else 1)
        same(f"average of {total} over {count}, by the rule", int(cell), rounded)
        same(f"average of {total} over {count}", cell, last_line(print_of, 3, [total] + [0] * (count - 1)))


def checks(name):
    """The numbers of a list of checks, in order."""
    numbers = []
    for inner, check in re.findall(r"(\w+_checks)\b|\(fails\d+[^,]*, (\d+)\)", definition(name)):
        if inner != name:
            numbers += [int(check)] if check else checks(inner)
    return numbers


def refusals():
    rows = table("table: refusals")
    full = read("give", r"cond .* 0 (\d+);")
    same("refusals of ask", [int(row[0]) for row in rows], checks("ask_checks") + [full])
    plain = re.search(r"evaluate has ([\d, and]+) only", PAGE).group(1)
    same("refusals of evaluate", [int(n) for n in re.findall(r"\d+", plain)], checks("evaluate_checks") + [full])
    limits = {}
    for row in table("table: limits"):
        limits.setdefault(row[3], set()).update(number(cell) for cell in row[1:3] if cell)
    for row in rows:
        in_header(f"refusal {row[0]}", constants(row[3]), [int(row[0])])
        named = {number(n) for n in re.findall(r"\d[\d,]*\d|\d", row[2])} - {0, 1}
        same(f"refusal {row[0]}, numbers outside the limits", named - limits.get(row[0], set()), set())


def limits():
    ask, plain = limit("guarded_limits", "FIELD"), limit("plain_limits", "FIELD")
    permit = limit("permit_fits", r"\[\]\)\) FIELD &&.*levels.* FIELD &&.*bindings.* FIELD")
    relations = limit("fails10", r"ltb FIELD \(length")
    attributes, rows = limit("read_catalogue", r"leb w FIELD\).*leb \(a \+ 256 \* b\) FIELD")

    def refuses(name, *parts):
        """The number of a check whose definition uses all these."""
        return name if all(part in definition(f"fails{name}") for part in parts) else 0

    model = {
        "relations": [refuses(10, "length"), relations, relations],
        "attributes of a relation": [refuses(10, "catalogue_read"), attributes, attributes],
        "rows of a relation": [refuses(10, "catalogue_read"), rows, rows],
        "bytes of the permit list": [20, limit("fails20", "ltb FIELD")],
        "permits": [21, limit("fails21", "ltb FIELD")],
        "bytes of a permit, all its records": [refuses(21, "permit_fits"), permit[0]],
        "levels of a permit's condition": [refuses(21, "permit_fits"), permit[1]],
        "binding records of a permit": [refuses(21, "permit_fits"), permit[2]],
        "largest variable of a permit": [refuses(22, "permit_known"), limit("permit_known", "in_scope sh FIELD") - 1],
        "bytes of a question": [refuses(30, ".bytes"), ask[0], plain[0]],
        "ranges": [refuses(31, ".ranges"), ask[3], plain[3]],
        "targets": [refuses(31, ".targets"), ask[4], plain[4]],
        "levels of a question": [refuses(31, ".nesting"), ask[1], plain[1]],
        "binding records of a question": [refuses(31, ".bound", "bindings_q"), ask[2], plain[2]],
        "largest variable of a question": [refuses(32, ".bound", "query_in_scope"), ask[2] - 1, plain[2] - 1],
    }
    page = table("table: limits")
    same("limits", {row[0]: [int(row[3])] + [number(cell) for cell in row[1:3] if cell] for row in page}, model)
    for row in page:
        names = constants(row[4])
        in_header(f"limit {row[0]}", names, [number(cell) for cell in row[1:3] if cell][:len(names)])
    first = int(re.search(r"first new number of the rewriting is (\d+)", PAGE).group(1))
    same("first new number", first, read("rewrite_query", r"(\d+) \+ new_for"))
    most = 1024 + 8 * (1 + 7 + 8 * 252)
    same("the most bytes", plain[0], most)
    answer = re.search(r"answer buffer of ([\d,]+) cells and ([\d,]+) bytes", PAGE).groups()
    lent = read("output", r"replicate (\d+) 0\) \(replicate (\d+)")
    same("the program's buffers", [number(n) for n in answer], lent[::-1])
    file = number(re.search(r"values file of over ([\d,]+) bytes", PAGE).group(1))
    same("the program's values", file, read("unreadable", r"ltb (\d+)"))


def every_constant():
    formats = {name for name in HEADER if re.match(r"WALDUMRE_(KIND|OP|FN|MAX)_", name)}
    same("constants of the header", formats - set(constants(PAGE)), set())
    same("constants of the page that no header has", set(constants(PAGE)) - set(HEADER), set())


def texts(read_of):
    """A question as text: the name list, the numbers, and the texts read with that list."""
    names, lengths = [], {}
    for start, some, _ in table("bytes: names"):
        same(f"names, where '{some}' starts", int(start), len(names))
        record = [int(word) for word in some.split()]
        lengths.setdefault(record[0], len(record))
        names += record
    rows = table("table: names")
    same("bytes of the kinds of names", {int(row[0]): int(row[3]) for row in rows}, lengths)
    for row in rows + table("table: text refusals"):
        in_header(f"number {row[0]}", constants(row[-1]), [int(row[0])])
    for pattern in (r"at most ([\d,]+) bytes \(`(\w+)`\)", r"buffer of ([\d,]+) bytes\s+\(`(\w+)`\)", r"spaces to (\d+) bytes \(`(\w+)`\)"):
        shown, name = re.search(pattern, PAGE).groups()
        in_header(name, [name], [number(shown)])
    plain = "RANGE EMPLOYEE(X) RETRIEVE W:X.NAME"
    most = int(HEADER["WALDUMRE_MAX_TEXT_BYTES"])
    lines = re.search(r"```texts\n(.*?)```", PAGE, re.S).group(1).splitlines()
    pairs = list(zip(lines[::2], lines[1::2]))
    pairs += [(plain.ljust(most), "1 0 0 33 0 0 16"), (plain.ljust(most + 1), "refused 50")]
    reserved = re.search(r"reserved: `([A-Z ]+)`", PAGE).group(1).split()
    pairs += [(plain.replace("X", word), "refused 50") for word in reserved]
    for text, expected in pairs:
        if not expected.startswith("refused"):
            expected = f"records {len(expected.split())}\n{expected}"
        same(f"text {text.strip()}", expected + "\n", read_of(text, names))
    return len(lines) // 2


def display():
    for cents, shown in table("table: display"):
        euros, rest = divmod(number(cents), 100)
        same(f"display of {cents}", bytes(map(int, shown.split())), f"{euros:>4}.{rest:02}".encode())


def book():
    """The label book's numbers, where its definitions are in the model."""
    if "pub fails53 :" not in SPECS:
        return
    labels, cents = read("in_range", r"up_to (\d+) r\.label.*up_to (\d+) r\.price")
    columns, offers, shown = read("fits", r"columns (\d+) &&.*offers\) (\d+) &&.*display\) (\d+)")
    refused = read("book_after", r"refuse (\d+)")
    width, blank = read("no_entry", r"replicate (\d+) (\d+)")
    same("the book's ranges", re.findall(r"label outside 0 to (\d+).*price outside 0 to ([\d,]+)", PAGE), [(str(labels), f"{cents:,}")])
    same("the book's size", re.findall(r"book is not lent as (\d+) cells and ([\d,]+) bytes", PAGE), [(str(offers), f"{shown:,}")])
    same("the book's refusal", re.findall(r"Then\s+\*\*(\d+)\*\*", PAGE), [str(refused)])
    same("a label without offer", (7, 32), (width, blank))
    same("the book's targets", "another number of targets than three" in PAGE, columns == 3)
    same("the book's labels", f"{offers} shelf labels" in PAGE, True)


def cases():
    """The examples: each a dictionary of the files' numbers, and what is printed."""
    for block in re.findall(r"```case\n(.*?)```", PAGE, re.S):
        files, printed = block.split("prints\n")
        lines = [line.split() for line in files.splitlines()]
        yield {line[0]: [int(word) for word in line[1:]] for line in lines}, printed


def byte_by_byte():
    files, printed = next(cases())
    files = dict(files, rewritten=[int(word) for word in printed.splitlines()[3].split()])
    for name in ("permits", "question", "rewritten"):
        found = []
        for start, some, _ in table(f"bytes: {name}"):
            same(f"{name}, where '{some}' starts", int(start), len(found))
            found += [int(word) for word in some.split()]
        same(f"{name}, byte by byte", found, files[name])
    shown = re.findall(r"^\| row \d \| (\d+) \| (\d+) \| (\d+) \|(?: \| row \d \| (\d+) \| (\d+) \|)?", PAGE, re.M)
    values = [int(cell) for row in shown for cell in row[:3]] + [int(cell) for row in shown for cell in row[3:] if cell]
    same("the values", [byte for value in values for byte in value.to_bytes(4, "little")], files["values"])


def main():
    program = os.path.abspath(sys.argv[1])
    reader = os.path.abspath(sys.argv[2]) if len(sys.argv) > 2 and sys.argv[2] else None
    with tempfile.TemporaryDirectory() as room:
        def print_of(files):
            for name in ("catalogue", "values", "permits", "question"):
                path = os.path.join(room, name)
                if name in files:
                    with open(path, "wb") as file:
                        file.write(bytes(files[name]))
                elif os.path.exists(path):
                    os.remove(path)
            return subprocess.run([program], cwd=room, stdout=subprocess.PIPE, check=True).stdout.decode()

        def read_of(text, names):
            for name, data in (("text", text.encode()), ("names", bytes(names)), ("room", HEADER["WALDUMRE_RECORDS_BYTES"].encode())):
                with open(os.path.join(room, name), "wb") as file:
                    file.write(data)
            return subprocess.run([reader], cwd=room, stdout=subprocess.PIPE, check=True).stdout.decode()

        kinds(print_of)
        operators(print_of)
        functions(print_of)
        refusals()
        limits()
        every_constant()
        display()
        book()
        byte_by_byte()
        count = 0
        for files, printed in cases():
            count += 1
            same(f"example {count}", printed, print_of(files))
        read = texts(read_of) if reader else 0
    for failure in failures:
        print("format:", failure)
    if count < 8 or failures:
        sys.exit(f"format: {len(failures)} failed")
    print(f"format: the tables agree, {count} examples print what the page says, {read} texts are read as it says")


main()
