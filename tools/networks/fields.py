"""How the values of a table are read: each reader gives what a value means, or says in a sentence what it has to be."""

import ipaddress

from networks import errors, limits, names, units


class Wrong(ValueError):
    """A value that is refused, and what it has to be."""


def whole(least, most, what):
    """A whole number in a range."""
    def read(value):
        if type(value) is not int or not least <= value <= most:
            raise Wrong(f"has to be a whole number {least:,} to {most:,} ({what})")
        return value
    return read


def quantity(bounds, table, what, example):
    """A whole number of the least unit, or a text with a unit."""
    def read(value):
        number = units.quantity(value, table) if isinstance(value, str) else value
        if type(number) is not int or not bounds[0] <= number <= bounds[1]:
            raise Wrong(f'has to be {bounds[0]:,} to {bounds[1]:,} {what}, or a text such as "{example}"')
        return number
    return read


def time(bounds):
    """A time in nanoseconds."""
    return quantity(bounds, units.TIMES, "nanoseconds", "5 ms")


def rate(bounds=limits.RATE):
    """A rate in bits per second."""
    return quantity(bounds, units.RATE_WORDS, "bits per second", "10 Mbit/s")


def choice(*words):
    """One of some words."""
    def read(value):
        if value not in words:
            near = errors.meant(value, words) if isinstance(value, str) else ""
            raise Wrong(f"has to be one of {', '.join(words)}{near}")
        return value
    return read


def name(value):
    """A name."""
    if not names.is_name(value):
        raise Wrong(f"has to be a name of 1 to {limits.NAME_LENGTH} of a to z, 0 to 9 and hyphen, which it does not "
                    "begin with")
    return value


def flag(value):
    """true or false."""
    if not isinstance(value, bool):
        raise Wrong("has to be true or false")
    return value


def place(value):
    """A latitude and a longitude in degrees."""
    if (not isinstance(value, list) or [type(it) in (int, float) for it in value] != [True, True]
            or not all(-end <= it <= end for it, end in zip(value, (90, 360)))):
        raise Wrong("has to be a latitude and a longitude in degrees, such as [50.85, 4.35]")
    return tuple(map(float, value))


def anything(value):
    """What is read elsewhere."""
    return value


def line(value):
    """A text of one line, for a comment."""
    if not isinstance(value, str) or len(value) > 200 or not value.isprintable():
        raise Wrong("has to be a text of one line of at most 200 letters")
    return value


def several(one, most, least=0):
    """An array of so many values."""
    def read(value):
        if not isinstance(value, list) or not least <= len(value) <= most:
            count = f"{least:,} to {most:,}" if least else f"at most {most:,}"
            raise Wrong(f"has to be an array of {count} values")
        return [one(member) for member in value]
    return read


def one_or_several(one, most):
    """A value, or an array of such values."""
    def read(value):
        return several(one, most)(value) if isinstance(value, list) else [one(value)]
    return read


def pattern(value):
    """A name in which * stands for any letters."""
    if not isinstance(value, str) or not value or not names.is_name(value.replace("*", "0")[: limits.NAME_LENGTH]):
        raise Wrong("has to be a name of a node, in which * stands for any letters")
    return value


def address(value):
    """Four numbers, as a whole number of 32 bits."""
    try:
        return int(ipaddress.IPv4Address(value if isinstance(value, str) else ""))
    except ValueError:
        raise Wrong('has to be an address such as "10.0.0.1"') from None


# Nothing may be sent to these addresses: 0/8, 127/8, 224/4 and 240/4.
MARTIANS = ((0, (1 << 24) - 1), (127 << 24, (128 << 24) - 1), (224 << 24, (1 << 32) - 1))


def real_address(value):
    """An address that is no martian."""
    number = address(value)
    if any(low <= number <= high for low, high in MARTIANS):
        raise Wrong("has to be an address outside 0.0.0.0/8, 127.0.0.0/8, 224.0.0.0/4 and 240.0.0.0/4")
    return number


def prefix(value):
    """An address and a length, whose further bits are 0."""
    first, _, last = value.partition("/") if isinstance(value, str) else ("", "", "")
    if not last.isascii() or not last.isdecimal() or len(last) > 2 or str(int(last)) != last or int(last) > 32:
        raise Wrong('has to be a prefix such as "10.0.0.0/8"')
    number, length = address(first), int(last)
    if number & ((1 << 32 - length) - 1):
        raise Wrong(f"has to be a prefix whose bits past the first {length} are 0")
    return number, length


def address_said(number):
    """As "10.0.0.1"."""
    return ".".join(str(number >> shift & 255) for shift in (24, 16, 8, 0))


def prefix_said(number, length):
    """As "10.0.0.0/8"."""
    return f"{address_said(number)}/{length}"


def table(value, keys, place, required=()):
    """What a table has, by its keys; `keys` has the reader of each."""
    if not isinstance(value, dict):
        raise errors.Refused(place(), "has to be a table")
    for key in value:
        if key not in keys:
            known = errors.meant(key, keys) or f"; the keys here are {', '.join(keys)}"
            raise errors.Refused(place(key), f"key {errors.shown(key)} is unknown{known}")
    for key in required:
        if key not in value:
            raise errors.Refused(place(), f'key "{key}" is missing')
    found = {}
    for key, member in value.items():
        try:
            found[key] = keys[key](member)
        except Wrong as why:
            raise errors.Refused(place(key), f'key "{key}" {why}') from None
    return found
