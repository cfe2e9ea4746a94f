"""Times in nanoseconds and rates in bits per second: how they are read, and how they are said; and tables for people:
as lines, and for browsers."""

import html
import re
from fractions import Fraction

TIMES = {"ns": 1, "us": 10**3, "ms": 10**6, "s": 10**9}
RATES = {"bit/s": 1, "kbit/s": 10**3, "Mbit/s": 10**6, "Gbit/s": 10**9, "Tbit/s": 10**12}
# Rates are read in these words too, as files of others have them.
RATE_WORDS = {**RATES, **{unit.replace("bit/s", "bps"): size for unit, size in RATES.items()}}
QUANTITY = re.compile(r"([0-9]+(?:\.[0-9]+)?) ?([A-Za-z/]+)")
# Numbers of more letters are none that anybody means, and would take long.
LONGEST = 40


def quantity(text, units):
    """What a text such as "2.5 ms" is in the least of the units, rounded; nothing where it is no such text."""
    found = QUANTITY.fullmatch(text.strip()) if len(text) <= LONGEST else None
    if not found or found[2] not in units:
        return None
    return round(Fraction(found[1]) * units[found[2]])


def said(number, units):
    """A number with the greatest unit in which it is at least 1, as "2.5 ms"; all its digits are there."""
    for unit, size in sorted(units.items(), key=lambda pair: -pair[1]):
        if number >= size:
            whole, rest = divmod(number, size)
            digits = str(rest).rjust(len(str(size)) - 1, "0").rstrip("0") if rest else ""
            return f"{whole}{f'.{digits}' if digits else ''} {unit}"
    return f"{number} {min(units, key=units.get)}"


def time_said(nanoseconds):
    """As "2.5 ms"."""
    return said(nanoseconds, TIMES)


def rate_said(bits):
    """As "10 Gbit/s"."""
    return said(bits, RATES)


def aligned(rows):
    """Rows as lines: the first column to the left, numbers to the right."""
    texts = [[str(cell) for cell in row] for row in rows]
    widths = [max(len(row[column]) for row in texts) for column in range(len(texts[0]))]
    return ["  ".join(cell.ljust(width) if not column else cell.rjust(width)
                      for column, (cell, width) in enumerate(zip(row, widths))).rstrip() for row in texts]


def html_table(heads, rows, row_class=lambda row: ""):
    """Rows as a table of HTML; texts are escaped, and words are to the left."""
    lines = ["<table><thead><tr>" + "".join(f"<th>{html.escape(head)}</th>" for head in heads) + "</tr></thead><tbody>"]
    for row in rows:
        is_marked = row_class(row)
        cells = [f"<td{' class=left' if str(cell)[:1].isalpha() else ''}>{html.escape(str(cell))}</td>" for cell in row]
        lines.append(f"<tr{f' class={is_marked}' if is_marked else ''}>{''.join(cells)}</tr>")
    return "\n".join([*lines, "</tbody></table>"])
