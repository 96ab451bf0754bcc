"""One page on this machine's own address: two shelves, a box for QUEL, a user on each side. No script, no file from outside."""
import http.server
import sys
from html import escape
from urllib.parse import parse_qs, urlsplit

from .aside import TooLong
from .ask import put
from .bad import Bad, listed
from .look import STYLE
from .session import permit_text
from .shelf import draw
from .words import ends_at

SECONDS = 10
POLICY = "default-src 'none'; style-src 'unsafe-inline'; form-action 'self'; base-uri 'none'; frame-ancestors 'none'"


def sides(shop, other):
    """All users that can be chosen, by what they are called in the address."""
    found = {user.name: (shop, user) for user in shop.users.values()}
    if other:
        found |= {f"{other.folder.resolve().name}:{user.name}": (other, user) for user in other.users.values()}
    return found


def serve(shop, other, port, seconds):
    users = sides(shop, other)

    class Handler(PageHandler):
        def page(self, asked):
            return whole(shop, users, asked, seconds or SECONDS)
    try:
        server = PageServer(("127.0.0.1", port), Handler)
    except OSError as why:
        raise Bad(f"port {port} cannot be had: {(why.strerror or str(why)).lower()}")
    print(f"{shop.title}: http://127.0.0.1:{server.server_port}/ (Ctrl-C ends it)", flush=True)
    try:
        server.serve_forever()
    except KeyboardInterrupt:
        print("", file=sys.stderr)
    finally:
        server.server_close()
    return 0


class PageServer(http.server.ThreadingHTTPServer):
    daemon_threads = True

    def handle_error(self, request, client_address):
        """A browser that has gone away is nothing to speak of; anything else is one line."""
        why = sys.exc_info()[1]
        if not isinstance(why, OSError):
            print(f"waldumre: the page was not made: {type(why).__name__}: {why}", file=sys.stderr)


class PageHandler(http.server.BaseHTTPRequestHandler):
    def do_GET(self):
        place = urlsplit(self.path)
        port = self.server.server_port
        if self.headers.get("Host") not in (f"127.0.0.1:{port}", f"localhost:{port}"):
            self.reply(403, "only for this machine")  # another site's name that leads here
        elif place.path != "/":
            self.reply(404, "there is only one page, /")
        else:
            asked = {key: values[0] for key, values in parse_qs(place.query).items()}
            self.reply(200, self.page(asked))

    def reply(self, status, text):
        data = text.encode("utf-8", "replace")
        self.send_response(status)
        for name, value in (("Content-Type", f"text/{'html' if status == 200 else 'plain'}; charset=utf-8"), ("Content-Length", str(len(data))),
                            ("Content-Security-Policy", POLICY), ("X-Content-Type-Options", "nosniff"), ("Cache-Control", "no-store")):
            self.send_header(name, value)
        self.end_headers()
        self.wfile.write(data)

    def log_message(self, *_):
        pass


def whole(shop, users, asked, seconds):
    """The page for what was asked: users left and right, and the question."""
    names = list(users)
    chosen = [asked.get(side) if asked.get(side) in users else names[min(number, len(names) - 1)] for number, side in enumerate(("left", "right"))]
    text = asked.get("q", "").replace("\r\n", "\n")
    end, _ = ends_at(text)
    question = text if end is None else text[:end]
    parts = [Side(name, *users[name], question, seconds) for name in chosen]
    sections = "".join(part.section(parts[1 - number]) for number, part in enumerate(parts))
    return (f"<!doctype html><html lang=en><meta charset=utf-8><title>{escape(shop.title)}</title><style>{STYLE}</style>"
            f"<h1>{escape(shop.title)}</h1><form>{choice('left', names, chosen[0])}<button>Ask both</button>{choice('right', names, chosen[1])}"
            f"<textarea name=q rows=4 spellcheck=false aria-label=question>{escape(text or example(shop))}</textarea></form><main>{sections}</main></html>")


def example(shop):
    relation = shop.relations[0]
    return f"RANGE {relation.name}(X)\nRETRIEVE W: {', '.join('X.' + name for name in relation.columns[:3])}"


def choice(side, names, chosen):
    options = "".join(f"<option{' selected' if name == chosen else ''}>{escape(name)}</option>" for name in names)
    return f"<select name={side} aria-label={side}>{options}</select>"


class Side:
    """What one user sees."""

    def __init__(self, name, shop, user, text, seconds):
        self.name, self.shop, self.user = name, shop, user
        self.answer = self.shelf = self.stopped = None
        try:
            self.shelf = draw(shop, user, seconds) if shop.shelf else None
            self.answer = put(shop, user, text, seconds) if text.strip() else None
        except TooLong:
            self.stopped = f"left after {seconds} seconds; there is no answer"
        except Bad as why:
            self.stopped = str(why)

    def section(self, other):
        parts = [f"<section><h2>{escape(self.name)}</h2><p class=about>{escape(self.user.about) or '&nbsp;'}</p>"]
        if self.shelf:
            parts.append(self.labels(other.shelf))
        if self.stopped:
            parts.append(f"<p class=refused>{escape(self.stopped)}</p>")
        if self.answer:
            parts += [self.answered(other.answer), self.explained()]
        return "".join(parts) + "</section>"

    def labels(self, other):
        rows = set(other.labels) if other else None
        drawn = "".join(f"<div class='label{'' if rows is None or label in rows else ' differs'}'><b>{escape(label.article)}</b><i>{escape(label.price)}</i>"
                        f"<small>{f'#{label.offer}' if label.offer >= 0 else ''}</small></div>" for label in self.shelf.labels)
        refused = f"<p class=refused>{escape(self.shelf.refused)}</p>" if self.shelf.refused else ""
        return f"<div class=shelf>{drawn}</div>{refused}"

    def answered(self, other):
        found, said = self.answer, ""
        if found.has_rows():
            rows = {tuple(row) for row in other.rows} if other and other.has_rows() else None
            body = "".join(f"<tr{'' if rows is None or tuple(row) in rows else ' class=differs'}>" + "".join(
                f"<td{'' if isinstance(cell, str) else ' class=number'}>{escape(str(cell))}</td>" for cell in row) + "</tr>" for row in found.rows)
            heads = "".join(f"<th>{escape(head)}</th>" for head in found.heads)
            said = f"<h3>Answer: {len(found.rows)} row{'' if len(found.rows) == 1 else 's'}</h3><table><tr>{heads}</tr>{body}</table>"
        if not found.is_answered():
            said += f"<h3>Refused</h3><pre class=refused>{escape(chr(10).join(found.refusal()))}</pre>"
        return said

    def explained(self):
        if self.answer.number not in (0, 33, 41):
            return ""
        found, said = self.answer.explanation(), ""
        if found.question:
            marked = "".join(f"<ins>{escape(piece.text)}</ins>" if piece.added else escape(piece.text) for piece in found.question)
            said = f"<h3>The question that reaches the relations</h3><pre>{marked}</pre>"
        return said + "<ul>" + "".join(f"<li>{escape(line)}</li>" for each in found.variables for line in self.reasons(each)) + "</ul>"

    def reasons(self, variable):
        uses = f"{variable.said} over {variable.relation.name} uses {listed(variable.uses) if variable.uses else 'no column'}"
        if variable.relation.workspace:
            return [f"{uses}: a workspace, so no permit is needed"]
        if not variable.verdicts:
            return [f"{uses}: {self.user.name} has no permit over {variable.relation.name}"]
        return [f"{uses}: permit {each.permit.number} {each.reason} [{permit_text(self.shop, each.permit)}]" for each in variable.verdicts]
