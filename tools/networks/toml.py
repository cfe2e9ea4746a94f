"""TOML texts: read with the standard library, each mistake with its line."""

import contextlib
import sys
import tomllib

from networks import errors, limits, spans


class Tables:
    """Tables that were read: `means` has them, and `place` says where a part of them is."""

    def member(self, array, number, said=""):
        """How places in a member of an array are said: a function of the keys below it."""
        named = f" ({said})" if said else ""
        return lambda *keys: f"{self.place(array, number, *keys)}: {array} {number}{named}"

    def members(self, array):
        """The members of an array of tables."""
        found = self.means.get(array, [])
        if not isinstance(found, list):
            raise errors.Refused(self.place(array), f'key "{array}" has to be an array of tables: [[{array}]]')
        return found


class Text(Tables):
    """A TOML text: its name, its octets as text, what it means, and where its parts stand."""

    def __init__(self, name, text):
        self.name, self.text = name, text
        try:
            self.means = tomllib.loads(text)
        except tomllib.TOMLDecodeError as why:
            other = "; it looks like XML, which `network import` takes" if text.lstrip().startswith("<") else ""
            raise errors.Refused(name, f"this is no TOML text: {why}{other}") from None
        except RecursionError:
            raise errors.Refused(name, "this is no TOML text that can be read: its arrays or tables are nested too "
                                       "deep") from None
        self.spans = spans.read(text)

    def place(self, *way):
        """The line of what a way of keys and numbers leads to, with the text's name."""
        item = self.spans.at(*way)
        start = item.key_start if way and isinstance(way[-1], str) and item.key_start else item.start
        return f"{self.name}:{spans.line_of(self.text, start)}"


def load(name):
    """A file, or standard input where the name is -."""
    return Text(name, octets(name))


def octets(name):
    """The text of a file."""
    try:
        with contextlib.nullcontext(sys.stdin.buffer) if name == "-" else open(name, "rb") as file:
            held = file.read(limits.TEXT_OCTETS + 1)
    except OSError as why:
        raise errors.Refused(name, f"it cannot be read: {why.strerror}") from None
    if len(held) > limits.TEXT_OCTETS:
        raise errors.Refused(name, f"it has more than {limits.TEXT_OCTETS:,} octets")
    if not held.strip():
        why = ("a shell empties FILE before `.. FILE > FILE` runs: write to another file" if name != "-"
               else "what was to write it wrote nothing")
        raise errors.Refused(name, f"it is empty; {why}")
    try:
        return held.decode("utf-8-sig")
    except UnicodeDecodeError as why:
        raise errors.Refused(name, f"octet {why.start} is not UTF-8") from None
