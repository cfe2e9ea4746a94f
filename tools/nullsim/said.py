"""What a SPEC says, from a text, from calls or with other values, and where each part of it was said."""

import copy
import os
import sys

from networks import errors, toml

# The folder of this package: a place in it is none of the caller's.
OWN = os.path.dirname(os.path.realpath(__file__))
ARRAYS = ("node", "link", "group", "flow")


def caller() -> str:
    """The file and line that called this package."""
    frame = sys._getframe(1)
    while frame.f_back and os.path.dirname(os.path.realpath(frame.f_code.co_filename)) == OWN:
        frame = frame.f_back
    return f"{frame.f_code.co_filename}:{frame.f_lineno}"


class Said(toml.Tables):
    """The tables of a SPEC, as `networks.spec` reads them: `name` is the file's, `means` the tables, and `place` says
    where a part of them was said, in the text, by a call, or where it was given another value."""

    def __init__(self, name: str, means: dict, text: toml.Text | None = None):
        self.name, self.means, self.text = name, means, text
        self.places = {}

    @classmethod
    def of_text(cls, name: str, text: str) -> "Said":
        """What a text says."""
        read = toml.Text(name, text)
        return cls(name, read.means, read)

    def place(self, *way) -> str:
        """Where a part was said, or what is nearest to it."""
        for length in range(len(way), -1, -1):
            if way[:length] in self.places:
                return self.places[way[:length]]
        return self.text.place(*way) if self.text else self.name

    def add(self, array: str, table: dict) -> None:
        """Adds a table to an array, said where this package was called."""
        members = self.means.setdefault(array, [])
        self.places[(array, len(members))] = caller()
        members.append(table)

    def with_values(self, values: dict, place: str) -> "Said":
        """The same with other values, by keys such as "stop", "defaults.link.queue" or "flow.0.rate", where a member of
        an array is known by its number or name."""
        made = Said(self.name, copy.deepcopy(self.means), self.text)
        made.places = dict(self.places)
        for key, value in values.items():
            made.put(key, value, place)
        return made

    def put(self, key: str, value, place: str) -> None:
        """Gives a key a value."""
        *way, last = key.split(".")
        table, passed = self.means, []
        for step in way:
            if isinstance(table, list):
                step = member(table, step, key, place)
                table = table[step]
            elif isinstance(table, dict):
                # What a SPEC need not have is made, but not the members of an array.
                table = table.get(step, []) if not passed and step in ARRAYS else table.setdefault(step, {})
            passed.append(step)
        if not isinstance(table, dict):
            raise errors.Refused(place, f'"{key}" leads to no key of a table: as "flow.0.rate", "defaults.link.queue"')
        table[last] = value
        self.places[(*passed, last)] = f"{place}: {key}"


def member(members: list, step: str, key: str, place: str) -> int:
    """The number of a member of an array, by its number or name."""
    names = [table.get("name") if isinstance(table, dict) else None for table in members]
    if step in names:
        return names.index(step)
    if step.isdecimal() and int(step) < len(members):
        return int(step)
    near = errors.meant(step, [name for name in names if name])
    raise errors.Refused(place, f'"{key}": there is no {errors.shown(step)} among the {len(members)} there, which are '
                                f"counted from 0{near}")
