"""The keys of a flow in a SPEC: what each may be, which kind has which, and which do not stand together."""

from fractions import Fraction

from networks import errors, fields, limits

CHANCE = ("poisson", "onoff")
KINDS = ("cbr", "echo", *CHANCE, "trace")
PORT = fields.whole(*limits.PORT, "a port")
SIZE = fields.whole(0, limits.MTU[1] - limits.HEADERS, "octets of data")
# Least and greatest of what times of a recording are multiplied by.
STRETCH = (Fraction(1, 10**6), Fraction(10**6))


def stretch(value):
    """What times are multiplied by. The digits of a number count, and not the nearest number of two's powers."""
    is_number = isinstance(value, (int, float)) and not isinstance(value, bool)
    if not is_number or not STRETCH[0] <= value <= STRETCH[1]:
        raise fields.Wrong("has to be a number 0.000001 to 1,000,000, by which times are multiplied")
    return Fraction(str(value))


def file_name(value):
    """The name of a file."""
    if not isinstance(value, str) or not value or "\0" in value:
        raise fields.Wrong("has to be the name of a file")
    return value


def address_map(value):
    """Which addresses of a capture are which nodes: {(prefix, length): name}."""
    if not isinstance(value, dict) or not value or len(value) > limits.IFACES:
        raise fields.Wrong('has to be a table such as {"192.0.2.1" = "a", "198.51.100.0/24" = "b"}')
    return {fields.prefix(key) if "/" in key else (fields.address(key), 32): fields.name(name)
            for key, name in value.items()}


FLOW = {
    "kind": fields.choice(*KINDS),
    "rate": fields.rate((1, limits.RATE[1])),
    "packet_rate": fields.whole(1, 10**9, "packets a second"),
    "interval": fields.time(limits.INTERVAL),
    "size": SIZE,
    "sizes": fields.several(SIZE, limits.SIZES, 1),
    "weights": fields.several(fields.whole(*limits.WEIGHT, "how often a size comes"), limits.SIZES, 1),
    "seed": fields.whole(*limits.SEED, "a seed"),
    "on": fields.time(limits.INTERVAL),
    "off": fields.time((0, limits.INTERVAL[1])),
    "periods": fields.choice("exponential", "fixed"),
    "start": fields.time(limits.START),
    "until": fields.time(limits.STOP),
    "stagger": fields.time(limits.START),
    "count": fields.whole(1, limits.COUNT[1], "packets"),
    "sport": PORT,
    "dport": PORT,
    "ident": fields.whole(0, 65_535, "an identifier"),
    "ttl": fields.whole(*limits.TTL, "links"),
    "fill": fields.whole(*limits.FILL, "an octet"),
}
# Keys that only a flow itself has, and not `defaults`.
OWN = {
    "name": fields.name,
    "from": fields.one_or_several(fields.pattern, limits.NODES),
    "to": fields.one_or_several(fields.pattern, limits.NODES),
    "among": fields.one_or_several(fields.pattern, limits.NODES),
    "pairs": fields.choice("all", "next", "across", "first", "random"),
    "at": fields.several(fields.time(limits.START), limits.LISTED),
    "file": file_name,
    "stretch": stretch,
    "addresses": address_map,
}
# Keys that not all kinds have. A flow with `at` is of the kind "cbr", and of its own kind here.
ENDS = ("from", "to", "among", "pairs")
RATES = ("rate", "packet_rate", "interval")
ONLY = {
    "size": ("cbr", "echo", *CHANCE, "at"),
    "ident": ("cbr", "echo"),
    **dict.fromkeys(("sizes", "weights", "seed"), (*CHANCE, "at")),
    **dict.fromkeys(("rate", "interval"), ("cbr", "echo", *CHANCE)),
    **dict.fromkeys(("until", "count"), ("cbr", "echo", *CHANCE, "trace")),
    "packet_rate": CHANCE,
    **dict.fromkeys(("on", "off", "periods"), ("onoff",)),
    **dict.fromkeys(("file", "stretch", "addresses"), ("trace",)),
}
# Of these one is said; what a flow says itself stands in for the others in the defaults.
INSTEAD = (RATES, ("size", "sizes"), ("until", "count"))


def said(kind):
    """A kind as people are told it."""
    return "with `at`" if kind == "at" else f'of kind "{kind}"'


def read(value, defaults, place):
    """The table of a flow, with what the defaults say of the rest."""
    table = fields.table(value, {**OWN, **FLOW}, place)
    held = {key: member for key, member in defaults.items()
            if not any(key in keys and key not in table and any(other in table for other in keys) for keys in INSTEAD)}
    held.update(table)
    kind = held["kind"]
    if "at" in table and kind != "cbr":
        raise errors.Refused(place("at"), f'a flow of kind "{kind}" has no list of times: leave out `kind`')
    for key in table:
        kinds = ONLY.get(key, (kind, "at"))
        if ("at" if "at" in table else kind) not in kinds:
            raise errors.Refused(place(key), f'key "{key}" is of flows {" or ".join(map(said, kinds))}, and this one '
                                             f'is {said("at" if "at" in table else kind)}')
    check_ends(table, place)
    check_together(table, held, place)
    return held


def check_ends(table, place):
    """Refuses a flow that does not say who sends to whom in one way."""
    if "addresses" in table:
        for key in ENDS:
            if key in table:
                raise errors.Refused(place(key), f'a flow with "addresses" has no "{key}": each packet goes between '
                                                 "the nodes of its own addresses")
        return
    if ("among" in table) == ("from" in table or "to" in table) or ("from" in table) != ("to" in table):
        raise errors.Refused(place(), 'it has either "from" and "to", or "among" with "pairs"')
    if ("among" in table) != ("pairs" in table):
        raise errors.Refused(place(), 'the keys "among" and "pairs" stand together')


def check_together(table, held, place):
    """Refuses keys that say one thing twice, and asks for those that a kind needs."""
    for keys in (RATES, ("size", "sizes")):
        both = [key for key in keys if key in table]
        if len(both) > 1:
            raise errors.Refused(place(both[-1]), f'of "{both[0]}" and "{both[-1]}" one is said: the other follows '
                                                  "from it" if keys is RATES else
                                                  'of "size" and "sizes" one is said')
    for kind, keys in (("onoff", ("on", "off")), ("trace", ("file",))):
        for key in keys:
            if held["kind"] == kind and key not in held:
                raise errors.Refused(place(), f'key "{key}" is missing: a flow of kind "{kind}" has it')
    if held["kind"] in CHANCE and not any(key in held for key in RATES):
        raise errors.Refused(place(), 'one of "rate", "packet_rate" and "interval" is missing')
    if "weights" in held and len(held["weights"]) != len(held.get("sizes", ())):
        raise errors.Refused(place("weights"), f'there are {len(held["weights"])} weights, and '
                                               f'{len(held.get("sizes", ()))} sizes: each size has one')
    for number, (before, behind) in enumerate(zip(table.get("at", ()), table.get("at", ())[1:]), 1):
        if behind <= before:
            raise errors.Refused(place("at", number), "the times of `at` have to rise")
