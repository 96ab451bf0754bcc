"""Where something stands in shop.toml. The reader of TOML keeps no places, so they are looked for in the text."""
import re

from .bad import at

FILE = "shop.toml"


class Places:
    def __init__(self, text):
        self.text = text

    def sentence(self, offset):
        line = self.text.count("\n", 0, offset) + 1
        return at(FILE, line, offset - (self.text.rfind("\n", 0, offset) + 1) + 1)

    def key(self, name, start=0):
        """Where a key begins, or a table of that name."""
        found = re.compile(r"(?m)^[ \t]*(?:\[+[ \t]*)?(?:[\w.\"'-]+\.)?[\"']?(" + re.escape(name) + r")[\"']?[ \t]*[.=\]]").search(self.text, start)
        return found.start(1) if found else start

    def word(self, text, start=0):
        found = self.text.find(text, start)
        return start if found < 0 else found

    def table(self, *path):
        """Where a table such as [users.brand] begins, or its first part."""
        words = r"[ \t]*\.[ \t]*".join(f"[\"']?{re.escape(word)}[\"']?" for word in path)
        found = re.search(r"(?m)^[ \t]*\[+[ \t]*(" + words + r")[ \t]*[.\]]", self.text)
        if found:
            return found.start(1)
        return self.key(path[-1], self.table(*path[:-1]) if len(path) > 1 else 0)

    def permit(self, user, number):
        """Where a user's permit begins: its [[users.NAME.permits]], or its brace."""
        heads = list(re.finditer(r"(?m)^[ \t]*\[\[[ \t]*users[ \t]*\.[ \t]*[\"']?" + re.escape(user) + r"[\"']?[ \t]*\.[ \t]*permits[ \t]*\]\]", self.text))
        if number < len(heads):
            return heads[number].start()
        here = self.key("permits", self.table("users", user))
        for _ in range(number + 1):
            here = self.word("{", here + 1)
        return here

    def value(self, start, key, inner=0):
        """Where the string of a key begins, after a place; `inner` signs into it."""
        found = re.compile(r"\b" + re.escape(key) + r"[\"']?[ \t]*=[ \t]*(\"\"\"\n?|'''\n?|[\"'\[{]?)").search(self.text, start)
        return found.end(1) + inner if found else start
