"""Names: 1 to 32 of a to z, 0 to 9 and hyphen, not beginning with a hyphen."""

import itertools
import re
import unicodedata

from networks import limits

FORM = re.compile(r"[a-z0-9][a-z0-9-]{0,31}")
# Letters that have no decomposition into a plain letter and an accent.
PLAIN = str.maketrans({"ß": "ss", "æ": "ae", "Æ": "ae", "ø": "o", "Ø": "o", "œ": "oe", "Œ": "oe", "ł": "l", "Ł": "l",
                       "đ": "d", "Đ": "d", "ı": "i"})


def is_name(word):
    """Whether the format takes a word as a name."""
    return isinstance(word, str) and FORM.fullmatch(word) is not None


def plain(word):
    """A word in the letters of names: accents fall, all else that is no letter or number becomes one hyphen."""
    parts = unicodedata.normalize("NFKD", str(word).translate(PLAIN))
    letters = "".join(letter for letter in parts if not unicodedata.combining(letter)).lower()
    return re.sub(r"[^a-z0-9]+", "-", letters).strip("-")


class Names:
    """Gives names, each once."""

    def __init__(self, taken=()):
        self.taken = set(taken)

    def give(self, word, otherwise="node", longest=limits.NAME_LENGTH):
        """The word as a name; where that is taken or long, cut and with a number behind it."""
        base, tails = plain(word) or otherwise, itertools.chain([""], (f"-{number}" for number in itertools.count(2)))
        names = (base[: longest - len(tail)].rstrip("-") + tail for tail in tails)
        name = next(name for name in names if name not in self.taken)
        self.taken.add(name)
        return name

    def between(self, node, far):
        """The name of an interface of a node, after both ends; each end keeps half where both are long."""
        room = limits.NAME_LENGTH - 1
        half = room // 2
        left = node[: max(half, room - len(far))].rstrip("-")
        return self.give(f"{left}-{far[: room - len(left)]}")
