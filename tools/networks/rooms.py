"""How many packets fit into a topology text, and what is said where there are more."""

from networks import errors, limits, plans, units, writing

# Letters of the head of a source and of what is said of it: more than any has.
SOURCE_LETTERS = 300
# Letters that are kept free for the lines in which is said what was chosen.
SPARE_LETTERS = 16_384
# How much less time is advised than would fit in the mean, in parts of 20: drawn packets may be more.
ADVISED = 19
# Scales that are advised.
SCALES = (2, 4, 5, 8, 10, 20, 25, 40, 50, 100)


class Room:
    """How much of a text is left: letters and sources."""

    def __init__(self, letters, sources, stop):
        self.letters, self.sources = letters, sources
        self.letters_a_packet = len(writing.packet_line(stop, ""))

    def packets(self, octets):
        """How many raw packets of so many octets fit."""
        each = (2 * octets + self.letters_a_packet) * limits.RAW_PACKETS + SOURCE_LETTERS
        return int(max(0, min(self.letters * limits.RAW_PACKETS // each, self.sources * limits.RAW_PACKETS)))

    def take(self, sources):
        """Takes the room of some sources, or nothing where there is not as much: then it gives False."""
        letters = sum(SOURCE_LETTERS + sum(len(packet) + self.letters_a_packet for _, packet in source.packets)
                      for source in sources)
        if letters > self.letters or len(sources) > self.sources:
            return False
        self.letters, self.sources = self.letters - letters, self.sources - len(sources)
        return True


def line(room, network, scale):
    """How many raw packets fit, of the mean size of each flow that is planned."""
    octets = sorted({int(plans.mean_octets(source.plan) / scale) for source in network.sources if source.plan})
    some = ", or ".join(f"{room.packets(each):,} of {each:,} octets" for each in octets[:4])
    return f"room        for raw packets: {some}; {room.sources:,} sources"


def refused(room, plan, scale, count):
    """Why a flow does not fit, and what would."""
    octets = plans.mean_octets(plan)
    asked, fits = max(plans.expected(plan), count), room.packets(octets / scale)
    advice = []
    if plan.kind in ("poisson", "onoff"):
        until = plan.begin + (plan.end - plan.begin) * min(fits, asked) * ADVISED // (20 * asked)
        advice = [f'a shorter time (`until = "{units.time_said(until - until % 10**6 or until)}"`)',
                  "several texts, each with another `seed`"]
    elif plan.kind == "trace":
        advice = [f"fewer packets (`count = {fits}`)"]
    better = better_scale(room, plan, scale, octets, asked)
    if better:
        advice.append(f"sizes and rates divided alike (`scale = {better}` at the top)")
    return errors.Refused(plan.place(), f"it would have about {asked:,} packets of {float(octets / scale):,.0f} "
                                        f"octets, and {fits:,} fit into what is left of a text of "
                                        f"{limits.TEXT_OCTETS:,} octets with {limits.SOURCES:,} sources; what helps: "
                                        f"{', or '.join(advice) or 'fewer packets'}")


def better_scale(room, plan, scale, octets, asked):
    """The least scale by which the packets of a flow fit, if there is one: it divides each size, and no packet gets
    shorter than its headers."""
    if plan.kind == "trace":
        return None
    sizes = [size + limits.HEADERS for size in plan.sizes.sizes]
    for more in SCALES:
        is_exact = all(size % more == 0 and size // more >= limits.HEADERS for size in sizes)
        if more > scale and is_exact and ADVISED * room.packets(octets / more) > 20 * asked:
            return more
    return None
