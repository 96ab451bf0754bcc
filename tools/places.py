#!/usr/bin/env python3
"""Counts the places of docs/DESIGN-PASS.md in the sources of a checkout: python3 tools/places.py [CHECKOUT] [--list POINT]

1a  an enum with a variant that says 'none' or 'refused'        1b  a struct of a flag beside other fields
1c  a refusal as a number (a field `number: u8`, or a u8 result whose contract says `refusal`)
1d  three or more constants of one type in a file that number kinds of things
2   functions whose bodies are the same but for names, numbers and types
3   a `while` that counts its index by one
4   a function that only converts (`x as T`), or only writes `&&`, `||`, `min` or `==` by hand
5a  a function that takes three parameters that three or more functions of its crate take together
5b  a clause that three or more functions of a crate require word for word
6   a length as a parameter beside its slice (`requires n ≤ length x`)
7   a function with a `bool` parameter
8   lines of proofs/
"""
import glob
import itertools
import re
import sys

NONE = {"Refused", "Nothing", "Other", "NotWellFormed", "Unknown", "Short", "None"}


def functions(text):
    """(name, line, head, clauses, body) of each function."""
    for m in re.finditer(r'^( *)(pub(\(crate\))? )?(extern "C" )?fn (\w+)', text, re.M):
        start = m.end()
        head_end = re.search(r"\n\s*(requires|ensures)|\{", text[start:])
        open_at = find_body(text, start)
        if open_at < 0:
            continue
        body, end = block(text, open_at)
        clauses = text[start + head_end.start() : open_at] if head_end else ""
        yield m.group(5), text[: m.start()].count("\n") + 1, text[start : start + head_end.start()], clauses, body


def find_body(text, at):
    depth = 0
    while at < len(text):
        c = text[at]
        if c == "{":
            before = text[:at].rstrip()
            if re.search(r"(requires|ensures)\*?( \w+)?$", before.split("\n")[-1]):
                _, at = block(text, at)
                continue
            return at
        if c == ";" and depth == 0:
            return -1
        at += 1
    return -1


def block(text, at):
    depth, i = 0, at
    while i < len(text):
        if text[i] == "{":
            depth += 1
        elif text[i] == "}":
            depth -= 1
            if depth == 0:
                return text[at + 1 : i], i + 1
        i += 1
    return text[at + 1 :], len(text)


def parameters(head):
    m = re.search(r"\((.*)\)", head, re.S)
    if not m:
        return []
    out = []
    for p in re.split(r",(?![^<(\[]*[>)\]])", m.group(1)):
        p = " ".join(p.split())
        if ":" in p:
            name, kind = p.split(":", 1)
            out.append((name.replace("mut ", "").strip(), kind.strip()))
    return out


def requires(clauses):
    out = []
    for m in re.finditer(r"requires( \w+)? \{", clauses):
        body, _ = block(clauses, m.end() - 1)
        out.append(" ".join(body.split()))
    return out


def normal(body):
    body = re.sub(r"//.*", "", body)
    body = re.sub(r"\b(u8|u16|u32|u64|usize|i32|i64)\b", "T", body)
    body = re.sub(r"\b[A-Z][A-Z_0-9]+\b", "C", body)
    body = re.sub(r"\b\d[\d_]*\b", "N", body)
    names = {}
    return re.sub(r"\b[a-z]\w*\b", lambda m: m.group() if m.group() in KEEP else names.setdefault(m.group(), "v%d" % len(names)), " ".join(body.split()))


KEEP = {"if", "else", "return", "let", "mut", "while", "for", "in", "match", "as", "true", "false", "len", "continue", "break"}


def places(root):
    found = {k: [] for k in ("1a", "1b", "1c", "1d", "2", "3", "4", "5a", "5b", "6", "7")}
    bodies, by_crate = {}, {}
    for path in sorted(glob.glob(root + "/crates/*/src/**/*.rt", recursive=True)):
        text = open(path).read()
        text = re.split(r"#\[cfg\(test\)\]", text)[0]
        short = path[len(root) + 8 :]
        crate = short.split("/")[0]
        for m in re.finditer(r"^ *(pub )?enum (\w+)[^{]*\{", text, re.M):
            inner, _ = block(text, m.end() - 1)
            inner = re.sub(r"//.*", "", inner)
            if NONE & set(re.findall(r"^\s*([A-Z]\w*)", inner, re.M)):
                found["1a"].append("%s:%d %s" % (short, text[: m.start()].count("\n") + 1, m.group(2)))
        for m in re.finditer(r"^ *(pub )?struct (\w+)[^{;]*\{", text, re.M):
            inner, _ = block(text, m.end() - 1)
            fields = re.findall(r"^\s*(?:pub )?(\w+): ([^,\n]+)", re.sub(r"//.*", "", inner), re.M)
            if any(k == "bool" for _, k in fields) and len(fields) > 1:
                found["1b"].append("%s:%d %s" % (short, text[: m.start()].count("\n") + 1, m.group(2)))
            for f, k in fields:
                if f == "number" and k == "u8":
                    found["1c"].append("%s:%d %s.number" % (short, text[: m.start()].count("\n") + 1, m.group(2)))
        kinds = re.findall(r"^const \w+: (u8|u16|u64|usize) = \d+;", text, re.M)
        for kind in sorted(set(kinds)):
            if kinds.count(kind) >= 3:
                found["1d"].append("%s: %d constants of %s" % (short, kinds.count(kind), kind))
        for name, line, head, clauses, body in functions(text):
            where = "%s:%d %s" % (short, line, name)
            if re.search(r"-> u8", head) and re.search(r"≡ (refusal|cond \(fails)", clauses):
                found["1c"].append(where)
            flat = " ".join(re.sub(r"//.*", "", body).split())
            bodies.setdefault(normal(body), []).append(where)
            for w in re.finditer(r"while ([^{]*)\{", body):
                inner, _ = block(body, w.end() - 1)
                for v in re.findall(r"\b([\w.]+) [+-]= 1;", inner):
                    if re.search(r"\b%s\b" % re.escape(v), w.group(1)):
                        found["3"].append(where)
                        break
            if re.fullmatch(r"\w+ as \w+", flat) or re.fullmatch(r"if ([^{}]*) \{ (true|[^{};]*) \} else \{ (false|[^{};]*) \}", flat) and re.search(r"\b(true|false)\b|\{ a \}|\{ b \}", flat):
                found["4"].append(where)
            ps = parameters(head)
            by_crate.setdefault(crate, []).append((where, ps, requires(clauses)))
            for r in requires(clauses):
                for n, kind in ps:
                    if kind == "usize" and re.search(r"\b%s ≤ length \w+\.(now|old)" % n, r):
                        found["6"].append(where)
                        break
                else:
                    continue
                break
            if any(kind == "bool" for _, kind in ps):
                found["7"].append(where)
    for key, group in bodies.items():
        if len(group) > 1 and len(key) > 8:
            found["2"] += ["%s  [%d alike]" % (w, len(group)) for w in group]
    for crate, fs in by_crate.items():
        triples, clauses = {}, {}
        for where, ps, rs in fs:
            for t in itertools.combinations(sorted(ps), 3):
                triples.setdefault(t, set()).add(where)
            for r in rs:
                clauses.setdefault(r, set()).add(where)
        hit = set()
        for group in triples.values():
            if len(group) >= 3:
                hit |= group
        found["5a"] += sorted(hit)
        hit = set()
        for group in clauses.values():
            if len(group) >= 3:
                hit |= group
        found["5b"] += sorted(hit)
    return found


def main():
    args = [a for a in sys.argv[1:]]
    listed = None
    if "--list" in args:
        i = args.index("--list")
        listed = args[i + 1]
        del args[i : i + 2]
    root = args[0] if args else "."
    found = places(root)
    proofs = sum(len(open(f).readlines()) for f in glob.glob(root + "/crates/*/proofs/**/*.antt", recursive=True))
    if listed:
        print("\n".join(found[listed]))
        return
    for key, where in found.items():
        print("%-3s %4d" % (key, len(where)))
    print("8   %d lines of proofs" % proofs)


main()
