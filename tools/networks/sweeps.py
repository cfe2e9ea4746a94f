"""The word `sweep`: variants of a SPEC by keys and values, and their table as comma-separated values."""

import csv
import io
import re
import tomllib

from networks import errors

RANGE = re.compile(r"(\d{1,19})\.\.(\d{1,19})")
SEEDS = "SEEDS"
# More runs are none that anybody waits for.
MOST = 100_000


def value_of(text):
    """A value as TOML has it, or else a text: 5, true, 5 ms."""
    try:
        return tomllib.loads(f"value = {text}\n")["value"]
    except tomllib.TOMLDecodeError:
        return text


def values_of(word):
    """The key of a word KEY=a,b,c or KEY=1..9, and its values."""
    key, found, text = word.partition("=")
    if not found or not key or not text:
        raise errors.Refused("", f"{errors.shown(word)} is no KEY=VALUE,VALUE: as flow.0.rate=\"1 Mbit/s,2 Mbit/s\" or "
                                 "SEEDS=1..20")
    span = RANGE.fullmatch(text)
    if not span:
        return key, [value_of(part.strip()) for part in text.split(",")]
    low, high = int(span[1]), int(span[2])
    if not low <= high < low + MOST:
        raise errors.Refused("", f"{errors.shown(word)}: a range rises, and has at most {MOST:,} values")
    return key, list(range(low, high + 1))


def csv_text(words):
    """The table of a sweep."""
    import nullsim

    values = dict(map(values_of, words.values))
    seeds = values.pop(SEEDS, [None])
    table, *measures = words.further or ["flows"]
    try:
        spec = nullsim.Network.from_spec(words.file, words.nullsim)
        rows = nullsim.sweep(spec, values, seeds, table, measures, place=words.file)
    except nullsim.Lacking as why:
        raise errors.Lacking(str(why)) from None
    except nullsim.Fault as why:
        raise errors.Refused("", str(why)) from None
    if not rows:
        raise errors.Refused("", f"no measure is named {', '.join(measures)}" if measures else "nothing was measured")
    text = io.StringIO()
    writer = csv.writer(text, lineterminator="\n")
    writer.writerow([*values, "kind", "name", "measure", "runs", "mean", "low", "high"])
    for row in rows:
        ends = ["" if end is None else f"{end:.9g}" for end in (row.mean, row.low, row.high)]
        writer.writerow([*row.values.values(), row.kind, row.name, row.measure, row.runs, *ends])
    return text.getvalue()
