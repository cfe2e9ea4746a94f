"""Where the tables, keys and values of a TOML text stand, so that it can be edited and its mistakes be placed.

tomllib says what a text means and refuses bad ones; this module, which reads only texts that tomllib took, says where.
"""

import re

BARE = re.compile(r"[A-Za-z0-9_-]+")
BLANK = re.compile(r"(?:[ \t\r\n]|#[^\n]*)*")
SCALAR = re.compile(r"[^,\]}\n#]+")


class Item:
    """A value: where it begins and ends; of an array its members, of a table its keys with where each begins."""

    def __init__(self, start, end=None, kind="value"):
        self.start, self.end, self.kind = start, end, kind
        self.members = []
        self.keys = {}
        # Of a table that a header [x] or [[x]] begins: it ends where the next header begins.
        self.is_block = False
        # Of an array or value that a key has: where the key begins.
        self.key_start = start

    def at(self, *way):
        """The item that a way of keys and numbers leads to, or the last one on it that is there."""
        item = self
        for step in way:
            if isinstance(step, str):
                found = item.keys.get(step)
            else:
                found = item.members[step] if step < len(item.members) else None
            if found is None:
                return item
            item = found
        return item


class Reader:
    """Reads a TOML text once from its start."""

    def __init__(self, text):
        self.text, self.place = text, 0

    def blank(self):
        """Passes over blanks, line ends and comments."""
        self.place = BLANK.match(self.text, self.place).end()

    def string(self):
        """Passes over a string, and gives what it holds with its escapes as they are."""
        text, start = self.text, self.place
        mark = text[start]
        quote = mark * 3 if text.startswith(mark * 3, start) else mark
        place = start + len(quote)
        while not text.startswith(quote, place):
            place += 2 if mark == '"' and text[place] == "\\" else 1
        inside = text[start + len(quote) : place]
        place += len(quote)
        # Up to two quotes may stand inside before the three that end a long string.
        while len(quote) == 3 and text.startswith(mark, place):
            place += 1
        self.place = place
        return inside

    def key(self):
        """The parts of a dotted key."""
        parts = []
        while True:
            self.blank()
            if self.text[self.place] in "\"'":
                parts.append(self.string())
            else:
                found = BARE.match(self.text, self.place)
                parts.append(found[0])
                self.place = found.end()
            self.blank()
            if not self.text.startswith(".", self.place):
                return parts
            self.place += 1

    def value(self):
        """A value of any kind."""
        self.blank()
        start = self.place
        mark = self.text[start]
        if mark == "[":
            return self.inside(Item(start, kind="array"), "]", lambda item: item.members.append(self.value()))
        if mark == "{":
            return self.inside(Item(start, kind="table"), "}", self.pair)
        if mark in "\"'":
            self.string()
        else:
            self.place = start + len(SCALAR.match(self.text, start)[0].rstrip())
        return Item(start, self.place)

    def inside(self, item, close, take):
        """What stands between a mark and the one that closes it, with commas between: `take` takes each."""
        self.place += 1
        while True:
            self.blank()
            mark = self.text[self.place]
            if mark in (close, ","):
                self.place += 1
            if mark == close:
                item.end = self.place
                return item
            if mark != ",":
                take(item)

    def pair(self, table):
        """A key with its value, into a table."""
        start = self.place
        parts = self.key()
        self.place += 1
        found = self.value()
        found.key_start = start
        for part in parts[:-1]:
            table = table.keys.setdefault(part, Item(start, kind="table"))
        table.keys[parts[-1]] = found

    def header(self, root):
        """The table that a header begins."""
        start = self.place
        brackets = 2 if self.text.startswith("[[", start) else 1
        self.place += brackets
        parts = self.key()
        self.place += brackets
        table = root
        for part in parts[:-1]:
            table = table.keys.setdefault(part, Item(start, kind="table"))
            table = table.members[-1] if table.kind == "array" else table
        if brackets == 1:
            found = table.keys.setdefault(parts[-1], Item(start, kind="table"))
        else:
            blocks = table.keys.setdefault(parts[-1], Item(start, kind="array"))
            blocks.is_block = True
            found = Item(start, kind="table")
            blocks.members.append(found)
        found.is_block = True
        return found


def read(text):
    """The whole text as a table."""
    reader = Reader(text)
    root = Item(0, len(text), "table")
    table = root
    while True:
        reader.blank()
        if reader.place >= len(text):
            break
        if text[reader.place] == "[":
            if table is not root:
                table.end = reader.place
            table = reader.header(root)
        else:
            reader.pair(table)
    if table is not root:
        table.end = len(text)
    return root


def line_of(text, place):
    """The number of the line in which a place is, from 1."""
    return text.count("\n", 0, place) + 1
