"""The lists of planted bugs, and what was found of each."""

import os
import re

from dev.lib import here


def path_of(crate, end="bugs"):
    return here.path("dev", "planted", f"{crate}.{end}")


def bugs_of(crate):
    """The bugs of a crate's list."""
    return blocks(here.read("dev", "planted", f"{crate}.bugs"))


def blocks(text):
    """The bugs of a text, each as its keys and its edits: pairs of an old text and a new one."""
    bugs = []
    for line in text.splitlines():
        key, _, text = line.partition(": ")
        if not line.strip() or line.startswith("#"):
            continue
        if key == "bug":
            bugs.append({"bug": text, "check": "", "edits": []})
        elif key == "old":
            bugs[-1]["edits"].append([text, None])
        elif key == "new" or line == "new:":
            bugs[-1]["edits"][-1][1] = text
        else:
            bugs[-1][key] = text
    return bugs


def crates():
    """The crates that have a list of bugs, in the order of crates.txt."""
    return [name for name in here.crates() if os.path.exists(path_of(name))]


def results_of(crate):
    """What was found of each bug, by the table of the crate, if there is one."""
    if not os.path.exists(path_of(crate, "md")):
        return {}
    lines = here.read("dev", "planted", f"{crate}.md").splitlines()
    cells = [line.strip().strip("|").split(" | ", 1) for line in lines if line.startswith("| ")]
    return {cell[0].strip(): cell[1].strip() for cell in cells if len(cell) == 2}


def table():
    """How many bugs each crate lists, how many were tried, and how many of these are refused: three in a row."""
    cells = []
    for crate in crates():
        bugs, results = [bug["bug"] for bug in bugs_of(crate)], results_of(crate)
        tried = [results[bug] for bug in bugs if bug in results and not results[bug].startswith("NOT TRIED")]
        refused = sum(not answer.lower().startswith("proved") for answer in tried)
        cells.append(f"`{crate}` | {len(bugs)} | {len(tried)} | {refused}")
    cells += [" | | | "] * (-len(cells) % 3)
    rows = [f"| {' | '.join(cells[row : row + 3])} |" for row in range(0, len(cells), 3)]
    return "\n".join(["|" + " Crate | Listed | Tried | Refused |" * 3, "|" + "---|" * 12, *rows])


def passed():
    """The bugs that are proved, each with the reason or the test that its crate's table has."""
    rows = ["| Crate | Planted bug | Why it is proved, or which test refuses it |", "|---|---|---|"]
    for crate in crates():
        results = results_of(crate)
        for bug in bugs_of(crate):
            answer = results.get(bug["bug"], "")
            if answer.lower().startswith("proved"):
                rows.append(f"| `{crate}` | {bug['bug']} | {answer[len('proved'):].lstrip(':; ')} |")
    return "\n".join(rows)


def replaced(text, old, new, name):
    """The text with `new` in the place of `old`, which is in it once, or once in the function of this name; or None."""
    if text.count(old) == 1:
        return text.replace(old, new)
    # From the function's name up to the next one's.
    found = name and re.search(rf"\bfn {name}\b.*?(?=\n *(?:pub(?:\(crate\))? )?fn |\Z)", text, re.DOTALL)
    begin, end = found.span() if found else (0, 0)
    if text.count(old, begin, end) != 1:
        return None
    return text[:begin] + text[begin:end].replace(old, new) + text[end:]


def edited(text, bug):
    """The text of a bug's file with its edits, or the old text that is not in it once."""
    for old, new in bug["edits"]:
        after = replaced(text, old, new, bug["check"].split("::")[-1])
        if after is None:
            return None, old
        text = after
    return text, None
