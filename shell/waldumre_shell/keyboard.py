"""Typing at a terminal: line editing, history, completion of names."""
import re
import readline

from .names import RESERVED

COMMANDS = ("\\as", "\\bytes", "\\explain", "\\help", "\\permits", "\\quit", "\\relations", "\\timing", "\\user")


def run(session, banner):
    readline.set_auto_history(False)
    readline.set_completer_delims(" \t\n(),:;.^=#<>")
    readline.set_completer(Completer(session).complete)
    readline.parse_and_bind("tab: complete")
    readline.parse_and_bind("set enable-bracketed-paste off")
    session.screen.say(banner)
    while True:
        try:
            line = input(f"{session.user.name}{'->' if session.pending() else '=>'} ")
            going = session.feed(line)
            remember(session, line)
            if not going:
                return
        except EOFError:
            session.screen.say([""])
            return
        except KeyboardInterrupt:
            session.screen.say(["", "stopped; there is no answer" if session.busy else "dropped"])
            session.busy = False
            remember(session, "")
            session.drop()


def remember(session, line):
    """A whole question is one entry of the history, ready to be put again; a command is one too."""
    for text in session.ended:
        readline.add_history(" ".join(part.strip() for part in text.split("\n")) + ";")
    if line.strip().startswith("\\") and not session.ended:
        readline.add_history(line.strip())
    session.ended.clear()


class Completer:
    def __init__(self, session):
        self.session, self.found = session, []

    def complete(self, start, number):
        if number == 0:
            line = readline.get_line_buffer()
            self.found = sorted(set(self.words(line, readline.get_begidx(), start)))
        return self.found[number] if number < len(self.found) else None

    def words(self, line, at, start):
        before, shop = line[:at], self.session.shop
        if at == 0 and start.startswith("\\"):
            return [word + " " for word in COMMANDS if word.startswith(start)]
        if re.match(r"\\(user|permits|as)\b", before):
            return [name for name in shop.users if name.casefold().startswith(start.casefold())]
        if before.endswith("."):
            return [name for name in self.columns(before) if name.startswith(start)]
        known = [*RESERVED, *(each.name for each in shop.relations), *shop.values]
        return [name for name in known if name.startswith(start)]

    def columns(self, before):
        """Those of the variable's relation, if the text says which it is; else all."""
        text = " ".join(self.session.lines) + " " + before
        symbol = re.search(r"([A-Z]+)\.$", before)
        for each in self.session.shop.relations:
            ranged = re.search(rf"\b{each.name} *\(([A-Z, ]*)\)", text)
            if symbol and (ranged and symbol[1] in re.findall("[A-Z]+", ranged[1]) or re.search(rf"SOME +{symbol[1]} +IN +{each.name}\b", text)):
                return each.columns
        return [name for each in self.session.shop.relations for name in each.columns]
