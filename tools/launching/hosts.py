"""Hosts: how they are named, at which address others reach them, and which nodes each has."""

import os
import re
import socket
from collections import namedtuple

# A host: its name for what starts programs there, the address at which other hosts reach it, and how many nodes it is
# to have beside the others.
Host = namedtuple("Host", "name address slots")
LINE = re.compile(r"([^\s=]+)((?: +[a-z_-]+=[^\s=]+)*)$")


class Refused(Exception):
    """A sentence that says what is wrong, and what to do."""


def address_of(name):
    """The IPv4 address of a host, which may have the name of a user before it."""
    try:
        return socket.getaddrinfo(name.rpartition("@")[2], None, socket.AF_INET, socket.SOCK_STREAM)[0][4][0]
    except (OSError, UnicodeError) as why:
        raise Refused(f"host {name} has no IPv4 address here ({getattr(why, 'strerror', why)}): write `{name} "
                      "address=A.B.C.D` in the host file") from None


def host_lines(said):
    """The lines of a host file, or the hosts of a list with commas."""
    if not os.path.exists(said):
        if "/" in said:
            raise Refused(f"there is no host file {said}")
        return [part.strip() for part in said.split(",") if part.strip()]
    with open(said, encoding="utf-8") as file:
        return [line.split("#")[0].strip() for line in file if line.split("#")[0].strip()]


def hosts_of(said):
    """The hosts of a file or list; one that stands there again has one more node. The form is that of Open MPI's host
    files, `HOST slots=N`, with `address=A.B.C.D` where others reach it by another address than its name has here."""
    found = {}
    for line in host_lines(said):
        read = LINE.match(line)
        keys = dict(part.split("=") for part in read[2].split()) if read else {}
        if not read or not keys.get("slots", "1").isdecimal() or int(keys.get("slots", "1")) < 1:
            raise Refused(f'the host file has the line "{line[:60]}": write `HOST`, `HOST slots=4` or `HOST '
                          "address=A.B.C.D`")
        slots = int(keys.get("slots", "1"))
        old = found.get(read[1])
        address = keys.get("address") or (old.address if old else address_of(read[1]))
        found[read[1]] = Host(read[1], address, slots + (old.slots if old else 0))
    if not found:
        raise Refused("the host file names no host")
    return list(found.values())


def is_loopback(host):
    """Whether the address of a host leads each machine to itself."""
    return host.address.startswith("127.")


def own_address(other):
    """The address at which this machine is for another one, or nothing. Nothing is sent for it."""
    with socket.socket(socket.AF_INET, socket.SOCK_DGRAM) as made:
        try:
            made.connect((other, 9))
            return made.getsockname()[0]
        except OSError:
            return None


def reached(hosts):
    """The hosts with addresses at which others reach them: a machine often has its own name for 127.0.1.1."""
    others, found = [host for host in hosts if not is_loopback(host)], []
    for host in hosts:
        if len(hosts) > 1 and is_loopback(host):
            is_here = host.name.partition(".")[0] == socket.gethostname().partition(".")[0]
            address = own_address(others[0].address) if is_here and others else None
            if not address:
                raise Refused(f"host {host.name} has the address {host.address} here, at which no other host reaches "
                              f"it: write `{host.name} address=A.B.C.D` in the host file")
            host = host._replace(address=address)
        found.append(host)
    return found


def tasks_of(said, count):
    """How many tasks each host of a Slurm job has, as of `2(x3),1`; one where that is not said."""
    found = []
    for part in said.split(","):
        read = re.fullmatch(r"(\d+)(?:\(x(\d+)\))?", part.strip())
        found += [int(read[1])] * int(read[2] or 1) if read else []
    return found if len(found) == count else [1] * count


def shared_out(hosts, partitions, replicas, port):
    """Where each replica runs: (partition, replica) -> (host, port). Partitions that follow one another share a host by
    its slots; the second replica of a partition is on the next host, where there is one."""
    slots = [host for host in hosts for _ in range(host.slots)]
    given, used = {}, dict.fromkeys((host.name for host in hosts), port)
    for replica in range(replicas):
        for number, partition in enumerate(partitions):
            count = len(partitions)
            own = number * len(slots) // count if count >= len(slots) else number
            host = slots[own % len(slots)]
            host = hosts[(hosts.index(host) + replica) % len(hosts)]
            given[partition, replica] = host, used[host.name]
            used[host.name] += 1
    return given
