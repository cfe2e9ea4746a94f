"""Which interface has which address: a router and the hosts behind it share one prefix, and routers near each other
have prefixes near each other."""

from networks import errors, fields


def tree_order(network):
    """The nodes as a tree of shortest paths by hops from the first router lists them, each before what hangs on it."""
    kinds, near = [node.kind for node in network.nodes], network.near()
    first = kinds.index("router") if "router" in kinds else 0
    below, level = {first: []}, [first]
    while level:
        for node in sorted(level):
            if kinds[node] == "router" or node == first:
                below[node] = [other for other in dict.fromkeys(near[node]) if other not in below]
                below.update((other, []) for other in below[node])
        level = [other for node in level for other in below[node]]
    order, waiting = [], [first]
    while waiting:
        order.append(waiting.pop())
        waiting += reversed(below[order[-1]])
    return order + [node for node in range(len(kinds)) if node not in below]


def blocks(network, order):
    """Nodes that share a prefix, in order: each router with the hosts whose one link leads to it; other hosts alone."""
    near, routers = network.near(), [node for node in order if network.nodes[node].kind == "router"]
    found = {node: [node] for node in routers}
    for node in order:
        if network.nodes[node].kind == "host":
            router = near[node][0] if len(near[node]) == 1 else None
            found.setdefault(router if router in routers else node, []).append(node)
    return list(found.values())


def give(network, order, prefix, place):
    """Gives each interface an address of the prefix; says how many blocks there are and addresses they take."""
    base, length = prefix
    last = base + (1 << 32 - length) - 1
    if any(base <= high and low <= last for low, high in fields.MARTIANS):
        raise errors.Refused(place, f"of the prefix {fields.prefix_said(*prefix)} no addresses are given: nothing may "
                                    "be sent to some of them")
    ends, past, found = network.ends(), 0, blocks(network, order)
    for block in found:
        numbers = [own for node in block for own, _, _ in ends[node]]
        # One more than there are: the first address of a block is nobody's, as people expect.
        size = 1 << len(numbers).bit_length()
        past = -(-past // size) * size
        for offset, number in enumerate(numbers, 1):
            network.ifaces[number].address = base + past + offset
        past += size
    if past > 1 << 32 - length:
        least = 32 - (past - 1).bit_length()
        raise errors.Refused(place, f"the prefix {fields.prefix_said(*prefix)} is too small for {past:,} addresses: "
                                    f"one of length {least} or less is needed")
    return len(found), past
