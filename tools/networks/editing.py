"""Changes in a topology text that leave all else as it stands, comments too."""

import re

from networks import fields, spans, writing


def spliced(text, changes):
    """The text with (start, end, new text) put in."""
    for start, end, new in sorted(changes, key=lambda change: (change[0], change[1]), reverse=True):
        text = text[:start] + new + text[end:]
    return text


def last_end(table):
    """Where the last value of a table ends."""
    return max((item.end for item in table.keys.values() if item.end), default=table.start)


def set_keys(text, array, key, values):
    """The change of a key's value in members of an array: {number: value}; absent, the key is put behind the others."""
    held = spans.read(text).at(array)
    changes = []
    for number, value in values.items():
        table = held.members[number]
        if key in table.keys:
            item = table.keys[key]
            changes.append((item.start, item.end, str(value)))
        else:
            end = last_end(table)
            changes.append((end, end, f"\n{key} = {value}" if table.is_block else f", {key} = {value}"))
    return spliced(text, changes)


def comments_of(text, start, end, tables):
    """The comments of an array: for each table those before it, the last list of those behind all; and for each table
    the one on its line."""
    before, behind = [[] for _ in range(len(tables) + 1)], {}
    place = start
    for number, table in enumerate([*tables, None]):
        stop = table.start if table else end
        for found in re.finditer(r"#[^\n]*", text[place:stop]):
            if number and "\n" not in text[place : place + found.start()]:
                behind[number - 1] = found[0][1:].strip()
            else:
                before[number].append(found[0])
        place = table.end if table else stop
    return before, behind


def route_lines(network, before, behind, old):
    """The lines of the new array. A comment before a route that is gone goes to the next one; one on its line, last."""
    held, kept = ([(route.node, route.prefix, route.length, route.via) for route in routes]
                  for routes in (network.routes, old))
    new, above, waiting, gone = set(held), {}, [], []
    for number, key in enumerate(kept):
        waiting += before[number]
        if key in new:
            above[key], waiting = waiting, []
        elif number in behind:
            node, prefix, length, via = key
            to = fields.prefix_said(prefix, length)
            gone.append(f"# no more, {network.nodes[node].name} to {to} via {network.ifaces[via].name}: "
                        f"{behind[number]}")
    remark_of = {key: behind[number] for number, key in enumerate(kept) if number in behind}
    lines = []
    for key, route in zip(held, network.routes):
        lines += [f"  {comment}" for comment in above.get(key, [])]
        table = writing.said(writing.route_table(network, route))
        lines.append(f"  {table},{f'  # {remark_of[key]}' if key in remark_of else ''}")
    return lines + [f"  {comment}" for comment in [*waiting, *before[-1], *gone]]


def with_routes(text, network, old):
    """The text with the network's routes in place of the old ones."""
    root = spans.read(text)
    item = root.keys.get("route")
    if item is not None and item.is_block:
        return with_blocks(text, network, item.members)
    if item is not None:
        lines = route_lines(network, *comments_of(text, item.start, item.end, item.members), old)
        return spliced(text, [(item.start, item.end, "\n".join(["[", *lines, "]"]))])
    lines = "\n".join(["route = [", *route_lines(network, [[]], {}, []), "]"])
    blocks = [member.start for found in root.keys.values() if found.is_block for member in (found.members or [found])]
    after = [root.keys[key].end for key in ("link", "iface", "node") if key in root.keys
             and not root.keys[key].is_block]
    if after:
        # Behind the rest of the line, where a comment may stand.
        place = f"{text}\n".index("\n", after[0])
        return spliced(text, [(place, place, f"\n\n{lines}")])
    place = min(blocks, default=len(text))
    return spliced(text, [(place, place, f"{lines}\n\n")])


def with_blocks(text, network, members):
    """The same where routes stand as [[route]]: the comments of those tables stay where they were."""
    tables = [writing.route_table(network, route) for route in network.routes]
    blocks = ["\n".join(["[[route]]", *(f'{key} = "{name}"' for key, name in table.items())]) for table in tables]
    changes = []
    for number, table in enumerate(members):
        end = last_end(table)
        kept = "\n".join(re.findall(r"#[^\n]*", text[table.start : end]))
        new = "\n".join(part for part in (kept, "" if number else "\n\n".join(blocks)) if part)
        # Of a table of which nothing stays its line ends go too.
        start = table.start if new else len(text[: table.start].rstrip())
        changes.append((start, end, new))
    return spliced(text, changes)
