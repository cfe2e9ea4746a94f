"""Numbers that documents and tools say, beside the constants of the code that they are.

A number that a document says is a row of SENTENCES: the file, the constant, and the sentence with `#` in the place of
the number. `make check-tools` makes each of them wrong, and has it found."""

import re
import runpy

from dev.lib import here

LIMITS, PERIOD = "nm_base/limits", ("nm_transport/limits", "PERIOD_MILLISECONDS")
NUMBER = r"([\d,^]+|[a-z]+)"
# What a document says: behind a file and a constant of the code a sentence, with # in the place of the number. `s` and
# `min` are times that the code counts in periods.
SENTENCES = """
docs/FORMATS.md
nm_base/limits MAX_TEXT_OCTETS: A text of more than # octets is Range
nm_base/limits MAX_TIME: `stop` 1 to # (nanoseconds)
nm_base/limits MIN_MTU: `mtu` # to
nm_base/limits MAX_MTU: `mtu` 576 to # (octets)
nm_base/limits MAX_PARTITION: `partition` 0 to #;
nm_base/limits MAX_PORTS_OF_NODE: `ports` o, at most # whole
nm_base/limits MAX_QUEUE: `queue` 0 to # (packets)
nm_base/limits MAX_QUEUE_OCTETS: `queue_octets` o 0 to # (octets)
nm_base/limits MIN_RATE: `rate` # to
nm_base/limits MAX_RATE: `rate` 1,000 to # (bits per second)
nm_base/limits MAX_DELAY: `delay` 0 to # (nanoseconds)
nm_base/limits MAX_INTERVAL: `interval` 1 to # (nanoseconds)
nm_base/limits MAX_RAW_PACKETS: `packet`: array of tables, at most #
nm_base/limits MAX_NODES: **Limits**: # nodes
nm_base/limits MAX_IFACES: nodes, # interfaces
nm_base/limits MAX_LINKS: interfaces, # links
nm_base/limits MAX_SOURCES: links, # sources
nm_base/limits MAX_PARTITIONS: sources, # partitions
nm_base/limits MAX_CHANNELS: partitions, # channels
nm_base/limits MAX_ROUTES: channels, # routes
nm_base/limits MAX_ROUTES_OF_NODE: routes and # of one node
nm_topology/parse/forms MAX_NAME: A name has 1 to # characters
nm_pcap/format FILE_HEADER_OCTETS: The file header has # octets
nm_pcap/format SNAPSHOT_LENGTH: u32 snapshot length #,
nm_pcap/format LINK_TYPE_RAW: u32 link type # (raw IP)
nm_base/limits MAX_ROUNDS: `rounds TOPO MAX`, MAX 1 to #.
nm_base/limits MAX_WORKERS: `certify TOPO WORKERS DIR..`, WORKERS 1 to #,
nm_base/limits MAX_WORKERS: WORKERS 1 to # and REPLICAS
nm_base/limits MAX_REPLICAS: and REPLICAS 1 or #,
nm_base/limits MAX_PARTITION: over TCP, PARTITION 0 to # and
nm_run/sides OWN_EVENTS: does up to # events after each poll, and
nm_run/sides EVENTS_ALONE: does up to # itself after each poll
nm_replica/limits MERGE_POLLS: merge what the other knows after every # polls
nm_base/limits MAX_SCRIPT_STEPS: each step past the first #.
nm_check/faults MAX_FAULTS: each other table follows, at most # and
nm_paths/path DEFAULT_TIME_TO_LIVE: sends to ADDRESS with a time to live of #:
nm_measure/spread EXACT_ROWS: while a source has up to # different delays
nm_measure/spread KEPT_BITS: rounded down to its # highest bits
nm_series/steps MAX_ROWS: More than # rows are refused
nm_base/limits MAX_INPUT_OCTETS: It may have # octets; one more
docs/PROTOCOL.md
nm_transport/limits PERIOD_MILLISECONDS: in periods of # ms,
nm_policy/limits REST_PERIODS: is called again # ms later
nm_policy/limits RECALL_PERIODS s: calls once more, since the last Bye may have been lost, and then once # second
nm_policy/limits HELLO_PERIODS s: no Hello for # seconds
nm_policy/limits SILENCE_PERIODS s: After the Hello nothing comes for # seconds
nm_policy/limits MAX_STRANGERS: more than # connections without a Hello
nm_replica/limits SCARCE_PERIODS s: without a Hello are closed after # a second
nm_replica/limits SHORT_PERIODS s: after # second the node ends
nm_replica/limits MAX_IDLE_PERIODS min: for # minute the node neither
nm_policy/limits GREETING_PERIODS s: count from # second after its Hello on
nm_policy/limits LINGER_PERIODS s: it stays up to # seconds for peers
nm_base/limits MAX_BODY_OCTETS: the length is 0 or above #
nm_frames/format HELLO_OCTETS: SHA-256 of the topology text | # |
nm_frames/format HAVE_OCTETS: u64 number of messages held | # |
nm_frames/format NULL_OCTETS: arrive at `clock` or later | # |
docs/ARCHITECTURE.md
nm_forward/counter COUNTERS: There are # counters
"""
# How many of a unit a constant of periods is.
UNITS = {"s": 1_000, "min": 60_000}
WORDS = {"a": 1, "one": 1, "two": 2, "three": 3, "four": 4, "five": 5, "six": 6, "seven": 7, "eight": 8, "nine": 9,
         "ten": 10, "fourteen": 14, "nineteen": 19, "twenty": 20, "half": 0.5}
# The limits of tools/networks, and the constants that they are; of a pair the least and the greatest.
TOOL_LIMITS = {
    "NODES": ("MAX_NODES",), "IFACES": ("MAX_IFACES",), "LINKS": ("MAX_LINKS",), "ROUTES": ("MAX_ROUTES",),
    "NODE_ROUTES": ("MAX_ROUTES_OF_NODE",), "SOURCES": ("MAX_SOURCES",), "CHANNELS": ("MAX_CHANNELS",),
    "PARTITIONS": ("MAX_PARTITIONS",), "NODE_PORTS": ("MAX_PORTS_OF_NODE",), "TEXT_OCTETS": ("MAX_TEXT_OCTETS",),
    "STOP": (1, "MAX_TIME"), "START": (0, "MAX_TIME"), "DELAY": (0, "MAX_DELAY"), "INTERVAL": (1, "MAX_INTERVAL"),
    "RAW_PACKETS": ("MAX_RAW_PACKETS",),
    "RATE": ("MIN_RATE", "MAX_RATE"), "MTU": ("MIN_MTU", "MAX_MTU"), "QUEUE": (0, "MAX_QUEUE"),
    "QUEUE_OCTETS": (0, "MAX_QUEUE_OCTETS"), "COUNT": (0, "MAX_COUNT"),
}


def rows():
    """The document, the file, the constant, the unit or '', and the sentence of each row of SENTENCES."""
    document = ""
    for line in SENTENCES.strip().splitlines():
        head, _, sentence = line.partition(": ")
        path, name, unit = [*head.split(), "", ""][:3]
        if sentence:
            yield document, path, name, unit, sentence
        else:
            document = path


def constant_of(path, name):
    """The number of a constant of the code, or None; it may be worked out from others of the same file."""
    crate, _, module = path.partition("/")
    found = re.search(rf"const {name}: \w+ = ([^;]+);", here.read("crates", crate, "src", f"{module}.rt"))
    if not found:
        return None
    term = re.sub(r"(?<=\w)_(?=\d)|(?<=\d)_(?=\w)", "", re.sub(r" as \w+|\w+::", "", found[1]))
    for other in re.findall(r"\b[A-Z][A-Z_]+\b", term):
        term = re.sub(rf"\b{other}\b", str(constant_of(path, other)), term)
    return eval(term, {"__builtins__": {}}) if re.fullmatch(r"(?:0x[0-9a-f]+|[\d +*<-])+", term) else None


def number_of(text):
    """The number that a document says, in digits or in words."""
    if text is None or text in WORDS:
        return WORDS.get(text)
    base, _, power = text.replace(",", "").partition("^")
    return int(base) ** int(power or 1) if base.isdigit() else None


def found_in(text, sentence):
    """A sentence of a text, with a number in the place of #; its lines may break anywhere."""
    before, _, behind = (re.escape(part).replace(r"\ ", r"\s+") for part in sentence.partition("#"))
    return re.search(before + NUMBER + behind, text, re.I)


def check_sentence(row, report):
    """A number that a document says, beside the code."""
    document, path, name, unit, sentence = row
    value, found = constant_of(path, name), found_in(here.read(document), sentence)
    said = found[1].lower() if found else None
    if value is not None and name.endswith("_PERIODS"):
        value = value * constant_of(*PERIOD) / UNITS.get(unit, 1)
    what = f"{document}: {sentence!r} has {said}, where {name} of {path} is {value}"
    report.note(value is not None and number_of(said) == value, what)


def check_sentences(report):
    """What documents say, beside the code."""
    for row in rows():
        check_sentence(row, report)


def check_tool_limits(report):
    """The limits of tools/networks, beside the code."""
    own = runpy.run_path(here.path("tools", "networks", "limits.py"))
    for name, wanted in TOOL_LIMITS.items():
        values = [it if isinstance(it, int) else constant_of(LIMITS, it) for it in wanted]
        found = list(own[name]) if isinstance(own[name], tuple) else [own[name]]
        report.note(found == values, f"tools/networks/limits.py: {name} is {found}, where the code has {values}")
    names = own["NAME_LENGTH"], constant_of("nm_topology/parse/forms", "MAX_NAME")
    report.note(names[0] == names[1], f"tools/networks/limits.py: NAME_LENGTH and MAX_NAME of the code are {names}")
