"""The screen: one line a partition, and what happened; live in a terminal, or a line now and then; and as a picture."""

import re
import shutil
import sys
import time
from collections import namedtuple
from xml.sax.saxutils import escape

# What is shown: how wide a bar is, and what processes counted, each with its heading and the width of its column.
Layout = namedtuple("Layout", "bar counted")
EVENTS, CONNECTIONS = ("events", "events", 8), [("connections", "begun", 7), ("broken", "broken", 8)]
WIDE = Layout(8, [EVENTS, ("records", "records", 9), ("messages", "messages", 9), *CONNECTIONS])
NARROW = Layout(6, [EVENTS, *CONNECTIONS])
WIDE_COLUMNS = 99
SAFE, AGAIN = 8, 7
MILLISECOND = 1_000_000
REFRESH_SECONDS = {True: 0.2, False: 2.0}
COLOURS = {"": "", "bold": "\033[1m", "dim": "\033[2m", "good": "\033[32m", "bad": "\033[31m", "bar": "\033[36m"}
PLAIN = "\033[0m"
# What stands between runs of two spaces and more.
WORDS = re.compile(r"\S+(?: \S+)*")
# Of the picture.
COLUMN, ROW, MARGIN, TOP = 8.43, 19, 18, 40
FILLS = {"": "#d8dee9", "bold": "#ffffff", "dim": "#8b95a7", "good": "#7ee787", "bad": "#ff9d96", "bar": "#79c0ff"}
HEAD = """<svg xmlns="http://www.w3.org/2000/svg" width="{width}" height="{height}" viewBox="0 0 {width} {height}" \
role="img" aria-label="{label}">
<rect width="{width}" height="{height}" rx="8" fill="#0d1117"/>
<circle cx="20" cy="18" r="5" fill="#ff5f57"/><circle cx="38" cy="18" r="5" fill="#febc2e"/>\
<circle cx="56" cy="18" r="5" fill="#28c840"/>
<g font-family="DejaVu Sans Mono, Menlo, Consolas, monospace" font-size="14" xml:space="preserve">
"""


def bar(process, is_away, width):
    """How far a process is."""
    if is_away:
        return [("killed".ljust(width + 6), "bad")]
    share = process.share()
    full = share * width // 100
    return [("█" * full, "good" if share == 100 else "bar"), ("·" * (width - full), "dim"), (f" {share:3} %", "")]


def partition_line(run, partition, layout):
    """The line of a partition."""
    line = [(f"{partition} {run.names[partition]:<9}", "bold")]
    processes = [run.processes[partition, replica] for replica in (0, 1)]
    for process in processes:
        line += [*bar(process, process.key in run.away, layout.bar), ("  ", "")]
    safe = max(process.safe() for process in processes if process.key not in run.away)
    numbers = f"{safe / MILLISECOND:>{SAFE}.1f}"
    for word, _, width in layout.counted:
        numbers += f"{sum(process.total(word) for process in processes):>{width},}"
    return line + [(f"{numbers}{run.counts.again_of(partition):>{AGAIN},}", "")]


def screen(run, seconds, layout):
    """All lines: each a list of pieces of text with their styles."""
    bars = "".join(f"{name:<{layout.bar + 8}}" for name in ("replica 0", "replica 1"))
    counted = "".join(f"{name:>{width}}" for _, name, width in layout.counted)
    heading = f"{'partition':<11}{bars}{'safe ms':>{SAFE}}{counted}{'again':>{AGAIN}}"
    lines = [[(f"{run.title}; {seconds:.0f} s", "bold")], [], [(heading, "dim")]]
    lines += [partition_line(run, partition, layout) for partition in range(len(run.names))]
    return lines + [[]] + [[(text, style)] for text, style in run.said]


def coloured(line, width):
    """A line with its colours, no longer than the terminal is wide."""
    made = ""
    for text, style in line:
        text, width = text[:width], width - len(text[:width])
        made += f"{COLOURS[style]}{text}{PLAIN}" if style else text
    return made


def piece(column, row, text, style):
    """A piece of a line at its place, as wide as its characters: so columns stand under each other in any font."""
    x, y = MARGIN + column * COLUMN, TOP + (row + 0.75) * ROW
    weight = ' font-weight="bold"' if style == "bold" else ""
    width = f'textLength="{len(text) * COLUMN:.1f}" lengthAdjust="spacingAndGlyphs"'
    return f'<text x="{x:.1f}" y="{y:.1f}" fill="{FILLS[style]}"{weight} {width}>{escape(text)}</text>\n'


def blocks(column, row, count, style):
    """A bar of full blocks."""
    x, y = MARGIN + column * COLUMN, TOP + row * ROW + 3
    return f'<rect x="{x:.1f}" y="{y:.1f}" width="{count * COLUMN:.1f}" height="{ROW - 6}" fill="{FILLS[style]}"/>\n'


def drawn(lines, label):
    """The picture (SVG), which needs nothing else, of some lines, each a list of pieces of text with their styles."""
    columns = max(sum(len(text) for text, _ in line) for line in lines)
    size = {"width": round(2 * MARGIN + columns * COLUMN), "height": TOP + len(lines) * ROW + MARGIN}
    made = [HEAD.format(label=escape(label, {'"': "&quot;"}), **size)]
    for row, line in enumerate(lines):
        column = 0
        for text, style in line:
            if text and not text.strip("█"):
                made.append(blocks(column, row, len(text), style))
            else:
                made += [piece(column + it.start(), row, it[0], style) for it in WORDS.finditer(text)]
            column += len(text)
    return "".join(made) + "</g>\n</svg>\n"


class View:
    """Shows the screen of a run, again and again."""

    def __init__(self, is_live):
        self.is_live, self.lines = is_live, []
        self.height = self.printed = self.last = 0

    def show(self, run, seconds, at_once=False):
        """Shows the run, where it is time to."""
        if not at_once and time.monotonic() - self.last < REFRESH_SECONDS[self.is_live]:
            return
        self.last = time.monotonic()
        self.lines = screen(run, seconds, WIDE)
        self.show_live(run, seconds) if self.is_live else self.show_line(run, seconds)

    def show_live(self, run, seconds):
        up = f"\033[{self.height}A" if self.height else "\033[?25l"
        width = shutil.get_terminal_size().columns
        lines = self.lines if width >= WIDE_COLUMNS else screen(run, seconds, NARROW)
        sys.stdout.write(up + "".join(f"\033[K{coloured(line, width)}\n" for line in lines))
        sys.stdout.flush()
        self.height = len(lines)

    def show_line(self, run, seconds):
        """What happened since, and a line of how far all are."""
        for text, _ in run.said[self.printed:]:
            print(text, flush=True)
        self.printed = len(run.said)
        if not run.is_over:
            shares = ", ".join(f"{name} {'/'.join(str(run.processes[number, replica].share()) for replica in (0, 1))} %"
                               for number, name in enumerate(run.names))
            print(f"{seconds:4.0f} s: {shares}; {run.broken():,} connections broken, {run.counts.again.total():,} sent "
                  "again", flush=True)

    def close(self):
        if self.is_live:
            sys.stdout.write("\033[?25h")
            sys.stdout.flush()
