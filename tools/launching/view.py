"""One view of all nodes: a line for each, live on a terminal, or a line now and then."""

import shutil
import sys
import time

BAR = 20
MILLISECOND = 1_000_000
# How often it is shown, on a terminal or not.
REFRESH_SECONDS = {True: 0.2, False: 5.0}


def state(run, key):
    """How far a node is, as a bar."""
    if key in run.lost_at:
        return "lost".ljust(BAR + 6)
    share = run.share(key)
    return "█" * (share * BAR // 100) + "·" * (BAR - share * BAR // 100) + f" {share:3} %"


def lines_of(run):
    """All lines."""
    width = max(len("host"), *(len(node.host.name) for node in run.nodes.values()))
    hosts = len({node.host for node in run.nodes.values()})
    head = f"{len(run.nodes)} nodes{f' on {hosts} hosts' if hosts > 1 else ''} {run.place.title}"
    lines = [f"{head}; {run.seconds():.0f} s",
             f"{'node':<6}{'host':<{width + 2}}{'simulated':<{BAR + 8}}{'safe ms':>10}{'events':>13}{'broken':>8}"]
    for key, node in run.nodes.items():
        figures = node.figures
        safe = run.stop if node.status == 0 else figures.get("safe", 0)
        lines.append(f"{key[0]}-{key[1]:<4}{node.host.name:<{width + 2}}{state(run, key)}  {safe / MILLISECOND:>10.1f}"
                     f"{figures.get('events', 0):>13,}{figures.get('broken', 0):>8,}")
    return lines + run.said


class View:
    """Shows a run again and again."""

    def __init__(self, is_live):
        self.is_live, self.height, self.told, self.last = is_live, 0, 0, 0.0

    def show(self, run, at_once=False):
        """Shows the run, where it is time to."""
        if not at_once and time.monotonic() - self.last < REFRESH_SECONDS[self.is_live]:
            return
        self.last = time.monotonic()
        if self.is_live:
            self.show_live(lines_of(run))
            return
        for line in run.said[self.told:]:
            print(line, file=sys.stderr, flush=True)
        self.told = len(run.said)
        shares = ", ".join(f"{key[0]}-{key[1]} {run.share(key)} %" for key in run.nodes)
        print(f"{run.seconds():4.0f} s: {shares}", file=sys.stderr, flush=True)

    def show_live(self, lines):
        columns, rows = shutil.get_terminal_size()
        up = f"\033[{self.height}A" if self.height else ""
        # What does not fit is left out: the screen would scroll.
        lines = lines[:rows - 1]
        sys.stderr.write(up + "".join(f"\033[K{line[:columns - 1]}\n" for line in lines))
        sys.stderr.flush()
        self.height = len(lines)
