"""Partitions for a topology text, and what each cut link costs."""

from networks import coarse, editing, errors, limits, making, paths, topology, traffic, units


def chosen(text, count, by=None):
    """The text with so many partitions, and what is said of them, in lines."""
    network = topology.read(text)
    if not 1 <= count <= limits.PARTITIONS:
        raise errors.Refused("", f"N has to be 1 to {limits.PARTITIONS}: how many partitions there are to be")
    if count > len(network.nodes):
        raise errors.Refused(text.name, f"{len(network.nodes)} nodes cannot be shared out among {count} partitions")
    found = traffic.expected(network)
    parts, how = ([0] * len(network.nodes), "nothing to cut") if count == 1 else split(network, found, count, by)
    for node, part in zip(network.nodes, parts):
        node.partition = part
    cut = [number for number, (one, other) in enumerate(network.pairs()) if parts[one] != parts[other]]
    if 2 * len(cut) > limits.CHANNELS:
        raise errors.Refused(text.name, f"{2 * len(cut):,} channels would join the partitions, and at most "
                                        f"{limits.CHANNELS} may be: {making.CHANNEL_ADVICE}")
    raised = {number: limits.CUT_DELAY for number in cut if network.links[number].delay < limits.CUT_DELAY}
    lines = said(network, found, parts, cut, how, raised)
    edited = editing.set_keys(text.text, "node", "partition", dict(enumerate(parts)))
    return editing.set_keys(edited, "link", "delay", raised) if raised else edited, lines


def split(network, found, count, by):
    """The partition of each node, numbered in the order of the nodes. Where the cut for even work has more channels
    than there may be, one with fewer is taken."""
    parts, how = coarse.cut(network, found, count, by)
    parts = filled(found, parts, count)
    even = network.channels(parts)
    if even > limits.CHANNELS:
        few, by_links = coarse.cut_few(network, found, count, by)
        few = filled(found, few, count)
        if network.channels(few) < even:
            parts, how = few, f"{by_links}, for few channels: parts of even work would have {even:,}"
    order = list(dict.fromkeys(parts))
    return [order.index(part) for part in parts], how


def filled(found, parts, count):
    """Gives an empty partition the busiest node of the one with most packets that has another node."""
    parts = list(parts)
    for empty in sorted(set(range(count)) - set(parts)):
        shares = {part: sum(hops for hops, held in zip(found.hops, parts) if held == part)
                  for part in set(parts) if parts.count(part) > 1}
        most = max(shares, key=lambda part: (shares[part], -part))
        parts[max((node for node, held in enumerate(parts) if held == most), key=lambda node: found.hops[node])] = empty
    return parts


def said(network, found, parts, cut, how, raised):
    """The partitions, the cut links and what follows from them."""
    total, rows = sum(found.hops) or 1, [("partition", "nodes", "packets in and out", "share")]
    for part in range(max(parts) + 1):
        some = [hops for hops, held in zip(found.hops, parts) if held == part]
        rows.append((part, len(some), f"{sum(some):,}", f"{sum(some) * 100 / total:.1f}%"))
    lines = [f"cut by {how}", *units.aligned(rows)]
    if cut:
        rows = [("cut link", "partitions", "lookahead (ns)", "packets", "events a window")]
        rows += [cut_row(network, found, parts, number) for number in cut]
        lines += ["", *units.aligned(rows), "", *summary(network, found, cut)]
    lines += [f"the delay of {network.link_said(number)} is now {limits.CUT_DELAY} ns: a link between partitions has "
              "one, and what is simulated changes by it" for number in raised]
    lost = sum(end is None and source.kind != "raw" for source, end in zip(network.sources, found.ends))
    if lost:
        lines.append(f"{lost} of {len(network.sources)} flows do not arrive by the routes of this text, and count for "
                     "little: `network routes` computes routes")
    return lines + (["the network is in pieces that no link joins"] if len(paths.parts(network)) > 1 else [])


def window_events(network, packets, window):
    """The packets that are expected in a window, as a text."""
    return f"{packets * window / network.stop:,.2f}"


def cut_row(network, found, parts, number):
    """What is said of a cut link."""
    link, joined = network.links[number], ", ".join(str(parts[node]) for node in network.pairs()[number])
    packets, window = found.packets[link.a] + found.packets[link.b], traffic.lookahead(link)
    return network.link_said(number), joined, f"{window:,}", f"{packets:,}", window_events(network, packets, window)


def summary(network, found, cut):
    """The least lookahead, and what the whole network does in such a window."""
    window = min(traffic.lookahead(network.links[number]) for number in cut)
    hops, channels = sum(found.packets), 2 * len(cut)
    lines = [f"{channels} channels; least lookahead {units.time_said(window)}; {window_events(network, hops, window)} "
             "packet-hops of the whole network are expected in such a window"]
    if hops * window < network.stop * channels:
        lines.append("fewer events than channels a window: the partitions will wait for each other more than they "
                     "simulate; try fewer, or longer links")
    return lines
