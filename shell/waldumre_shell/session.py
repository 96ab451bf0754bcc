"""What has been typed so far, who asks, and what the commands do."""
from waldumre import LATEST, WORKSPACE

from .ask import put
from .aside import TooLong
from .bad import Bad, listed, printable
from .explain import permit_text
from .folder import open_shop
from .quel import plain
from .show import as_csv, as_json, beside, table
from .words import ends_at

KINDS = {WORKSPACE: "  (workspace: needs no permit)", LATEST: "  (last row first)"}
HELP = """\
A question is QUEL, over one line or several, and ends with an empty line, or with a ';' outside all parentheses:
  RANGE OFFER(X)                    X runs over the rows of OFFER; RANGE OFFER(X, Y): SHELF(S) has three variables
  RETRIEVE W: X.ARTICLE, X.PRICE:   what to show; W is a name that is read and dropped
    X.PRICE < 200 ^ X.BRAND = ALPEN the condition: ^ and, V or, NOT, = # < <= > >=, SOME S IN SHELF (..), AVE(X.PRICE; ..)
  ;
Lines that begin with -- are passed over.
  \\user [NAME]             who asks; without a name: which users there are
  \\permits [NAME]          the permits of who asks, or of another user
  \\relations               relations and their columns
  \\explain [QUESTION]      the last question, or this one: as it reaches the relations, and why
  \\as ONE OTHER [QUESTION] the last question, or this one, for two users side by side; FOLDER:USER is a user of another folder
  \\bytes                   the last question as the library's bytes
  \\timing                  how long each answer took, on or off (time can tell of rows that are hidden)
  \\help                    this page
  \\quit                    leaves; so does Ctrl-D. Ctrl-C stops a question, or drops what was typed"""


class Session:
    def __init__(self, shop, user, screen, form="table", seconds=None):
        self.shop, self.user, self.screen, self.form, self.seconds = shop, user, screen, form, seconds
        self.timing, self.status, self.last, self.others = False, 0, None, {}
        self.ended = []     # questions of this session, for the history
        self.busy = False   # is the library being asked?
        self.drop()

    def drop(self):
        """Forgets what was typed of a question that has not ended."""
        self.lines, self.depth, self.then = [], 0, self.answer

    def pending(self):
        return bool(self.lines) or self.then != self.answer

    # input

    def feed(self, line):
        """Takes one line; False if it was the last."""
        line = line.rstrip("\r\n")
        if line.lstrip().startswith("--"):
            return True
        if line.lstrip().startswith("\\"):
            return self.command(line.strip())
        if not line.strip():
            self.finish()
        else:
            self.typed(line)
        return True

    def typed(self, line):
        while True:
            end, depth = ends_at(line, self.depth)
            if end is None:
                if line.strip():
                    self.lines.append(line)
                    self.depth = depth
                return
            self.lines.append(line[:end])
            self.finish()
            line = line[end + 1:]

    def finish(self):
        """The question has ended: it is put, if there is one."""
        text, then = "\n".join(self.lines).strip("\n"), self.then
        self.drop()
        if not text.strip():
            return
        self.ended.append(text)
        self.guarded(lambda: then(text))

    def guarded(self, work):
        """Bad input is a sentence, and the session goes on."""
        self.busy = False
        try:
            work()
        except Bad as why:
            self.screen.warn([str(why)])
            self.status = 2
        except TooLong:
            self.screen.warn([f"left after {self.seconds} seconds; there is no answer"])
            self.status = max(self.status, 1)

    def command(self, line):
        name, _, rest = line[1:].partition(" ")
        known = {"user": self.set_user, "permits": self.permits, "relations": self.relations, "explain": self.explain_command,
                 "as": self.as_command, "bytes": self.bytes, "timing": self.set_timing, "help": self.help, "?": self.help}
        if name in ("quit", "q"):
            return False
        if name not in known:
            self.guarded(lambda: self.no_command(name))
        else:
            self.guarded(lambda: known[name](rest.strip()))
        return True

    def no_command(self, name):
        raise Bad(f"there is no command \\{printable(name)}; \\help lists them")

    def with_text(self, rest, then):
        """A command that takes a question: what follows it, or else the last one."""
        if self.pending():
            raise Bad("a question is being typed: end it with an empty line, or drop it with Ctrl-C")
        if rest:
            self.then = then
            self.typed(rest)
        elif self.last is None:
            raise Bad("no question has been put yet")
        else:
            then(self.last)

    # questions

    def put(self, text, shop=None, user=None):
        self.busy = True
        found = put(shop or self.shop, user or self.user, text, self.seconds)
        self.busy = False
        return found

    def answer(self, text):
        self.last = text
        found = self.put(text)
        if found.has_rows():
            self.rows(found)
        if not found.is_answered():
            self.refused(found)
        if self.timing:
            self.screen.say([f"Time: {found.seconds * 1000:.3f} ms"])

    def rows(self, found):
        if self.form == "json":
            self.screen.say(as_json(columns=found.heads, rows=found.rows, complete=found.is_answered()))
        else:
            self.screen.say((as_csv if self.form == "csv" else table)(found.heads, found.rows))

    def refused(self, found, of=""):
        self.status = max(self.status, 1)
        lines = found.refusal()
        if self.form == "json":
            self.screen.say(as_json(refused=found.number, text=lines[0]))
        else:
            self.screen.warn([of + lines[0], *lines[1:]])

    def explain_command(self, rest):
        self.with_text(rest, self.explain)

    def explain(self, text):
        self.last = text
        found = self.put(text)
        if not found.has_rows():
            self.refused(found)
        if found.number in (0, 33, 41):
            self.explained(found)

    def explained(self, found):
        said = found.explanation()
        if self.form == "json":
            self.screen.say(as_json(question=plain(said.question) if said.question else None, variables=[facts(each) for each in said.variables]))
            return
        if said.question:
            self.screen.say(["The question that reaches the relations" + ("" if self.screen.colour else
                             "; what the permits added stands in braces") + ":", ""])
            self.screen.say(["  " + line for line in self.screen.pieces(said.question).split("\n")] + [""])
        elif found.rewritten:
            self.screen.say(["The permits' parts were not found again in the rewritten question: a fault of this shell. \\bytes shows it as it is."])
        for each in said.variables:
            self.screen.say(reasons(self.shop, found.user, each))

    def as_command(self, rest):
        words = rest.split(None, 2)
        if len(words) < 2:
            raise Bad("\\as needs two users, as \\as BRAND MANAGER, or FOLDER:USER for one of another folder")
        sides = [self.side(word) for word in words[:2]]
        self.with_text(words[2] if len(words) > 2 else "", lambda text: self.both(text, words[:2], sides))

    def side(self, word):
        folder, _, name = word.rpartition(":")
        if folder and folder not in self.others:
            self.others[folder] = open_shop(self.shop.folder / folder)
        shop = self.others[folder] if folder else self.shop
        return shop, shop.user(name)

    def both(self, text, titles, sides):
        self.last = text
        found = [self.put(text, *side) for side in sides]
        if self.form == "json":
            self.screen.say(as_json(**{side: {"user": title, "columns": each.heads, "rows": each.rows, "refused": each.number}
                                       for side, title, each in zip(("left", "right"), titles, found)}))
        elif all(each.has_rows() for each in found) and self.form == "table":
            self.screen.say(beside([(title, each.heads, each.rows) for title, each in zip(titles, found)], self.screen.colour))
        else:
            for title, each in zip(titles, found):
                if each.has_rows():
                    self.screen.say([title + ":"])
                    self.rows(each)
        for title, each in zip(titles, found):
            if not each.is_answered():
                self.status = max(self.status, 1)
                if self.form != "json":
                    self.refused(each, title + ": ")

    # commands

    def set_user(self, rest):
        if rest:
            self.user = self.shop.user(rest)
        else:
            width = max(map(len, self.shop.users))
            self.screen.say([f"{'*' if user is self.user else ' '} {name.ljust(width)}  {user.about}".rstrip()
                             for name, user in self.shop.users.items()])

    def permits(self, rest):
        user = self.shop.user(rest) if rest else self.user
        said = [f"  {permit.number}  {permit_text(self.shop, permit)}" for permit in user.permits]
        self.screen.say(said or [f"{user.name} has no permits: only workspaces can be asked"])

    def relations(self, rest):
        """Names and columns only: how many rows there are, and what they hold, is not for every user."""
        width = max(len(each.name) for each in self.shop.relations)
        self.screen.say([f"  {each.name.ljust(width)}  {', '.join(each.columns)}{KINDS.get(each.kind, '')}"
                         for each in self.shop.relations])

    def bytes(self, rest):
        if self.last is None:
            raise Bad("no question has been put yet")
        found = self.put(self.last)
        for name, data in (("question", found.records), (f"permits of {self.user.name}", self.user.bytes()), ("rewritten", found.rewritten)):
            self.screen.say([f"{name}, {len(data)} bytes:", "  " + " ".join(map(str, data))] if data else [f"{name}: none"])
        if not found.has_rows():
            self.refused(found)

    def set_timing(self, rest):
        self.timing = not self.timing
        self.screen.say([f"Timing is {'on' if self.timing else 'off'}."])

    def help(self, rest):
        self.screen.say(HELP.split("\n"))


def facts(variable):
    """A variable of an explanation, for JSON."""
    return {"variable": variable.said, "relation": variable.relation.name, "workspace": variable.relation.workspace, "uses": variable.uses,
            "permits": [{"permit": each.permit.number, "applies": each.applies, "bars": each.bars, "reason": each.reason}
                        for each in variable.verdicts]}


def reasons(shop, user, variable):
    """A variable of an explanation, in lines."""
    uses = f"uses {listed(variable.uses)} (its S)" if variable.uses else "uses no column (its S is empty)"
    lines = [f"{variable.said} over {variable.relation.name} {uses}."]
    if variable.relation.workspace:
        return lines + ["  It is a workspace, so no permit is needed and nothing is added."]
    lines += [f"  permit {each.permit.number} {each.reason}.  [{permit_text(shop, each.permit)}]" for each in variable.verdicts]
    if not variable.verdicts:
        lines.append(f"  {user.name} has no permit over {variable.relation.name}.")
    return lines
