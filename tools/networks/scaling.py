"""Sizes and rates divided alike: transmissions take as long as before, and queues do the same. Packets of fewer octets
are more in one text."""

from networks import errors, limits, units


def size(octets, scale, place, key="size"):
    """So many octets of data for those of a SPEC."""
    whole = octets + limits.HEADERS
    if whole % scale or whole // scale < limits.HEADERS:
        least = max(limits.HEADERS, whole // scale) * scale - limits.HEADERS
        raise errors.Refused(place(key), f"{octets:,} octets of data with {limits.HEADERS} of headers are {whole:,}, "
                                         f"which `scale = {scale}` does not divide into whole octets, "
                                         f"{limits.HEADERS} at least: write {least:,} or {least + scale:,}")
    return whole // scale - limits.HEADERS


def link(link, scale, place):
    """The rate and the limit of the queue in octets of a link of a SPEC."""
    if link.rate % scale or link.rate // scale < limits.RATE[0]:
        raise errors.Refused(place("rate"), f"{units.rate_said(link.rate)} divided by `scale = {scale}` is no whole "
                                            f"number of bits per second from {limits.RATE[0]:,} on")
    if link.queue_octets is not None and link.queue_octets % scale:
        raise errors.Refused(place("queue_octets"), f"{link.queue_octets:,} octets cannot be divided by `scale = "
                                                    f"{scale}`")
    return link.rate // scale, None if link.queue_octets is None else link.queue_octets // scale
