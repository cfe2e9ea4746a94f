"""The prover: where it is, its words for a crate, and what a crate's library is made from."""

import hashlib
import os

from dev.lib import here, process

# What limits the memory of a group of processes (control groups, versions 2 and 1), and its processor time: so many
# microseconds of each period.
MEMORY_LIMITS = ("/sys/fs/cgroup/memory.max", "/sys/fs/cgroup/memory/memory.limit_in_bytes")
QUOTA = "/sys/fs/cgroup/cpu.max"


def limits_of(name):
    """The numbers that a file says, where it is there: none for `max`."""
    words = here.octets(name).decode().split() if os.path.exists(name) else []
    return [int(word) for word in words if word.isdigit()]


def job_count(memory_a_job):
    """One job a processor, where there is memory for it (octets)."""
    processors, quota = len(os.sched_getaffinity(0)), limits_of(QUOTA)
    if len(quota) == 2:
        processors = min(processors, quota[0] // quota[1])
    memory = [os.sysconf("SC_PAGE_SIZE") * os.sysconf("SC_PHYS_PAGES")]
    for name in MEMORY_LIMITS:
        memory += limits_of(name)
    return max(1, min(processors, min(memory) // memory_a_job))


class Toolchain:
    """Where the prover and its libraries are."""

    def __init__(self):
        self.folder = os.path.dirname(process.output("rt", "doc").strip())
        self.version = process.output("rt", "version").strip()
        self.prover, self.linker = self.path("bin", "rattle"), self.path("bin", "rattle-link")

    def path(self, *parts):
        return os.path.join(self.folder, *parts)


class Crate:
    """A crate: its own libraries and those of the toolchain that it depends on."""

    def __init__(self, name, uses, crates):
        self.name = name
        self.own = [crates[it] for it in uses if it in crates]
        # The crates below it, each after those that it depends on.
        self.below = list(dict.fromkeys(it for crate in self.own for it in (*crate.below, crate)))
        self.kit = ["std", *(it for it in uses if it not in crates)]
        self.folder = here.path("crates", name)
        self.made = os.path.join(self.folder, "out", "build")
        # The stamp of what was made last.
        stamp = os.path.join(self.made, "stamp")
        self.stamp = here.read(stamp) if os.path.exists(stamp) else None
        self.rlib = os.path.join(self.made, f"{name}.rlib")
        self.is_program = os.path.exists(os.path.join(self.folder, "src", "main.rt"))


def crates():
    """The crates of crates.txt by their names. A crate's line comes after the lines of those that it depends on."""
    found = {}
    for name, uses in here.crates().items():
        found[name] = Crate(name, uses, found)
    return found


def stamp_of(crate, toolchain, stamps):
    """A sum of all that a crate's library or program is made from."""
    total = hashlib.sha256(repr([toolchain.version, crate.kit, [stamps[it.name] for it in crate.own]]).encode())
    for part in ("proofs", "specs", "src"):
        for path in here.files("crates", crate.name, part):
            total.update(repr((os.path.relpath(path, crate.folder), here.octets(path))).encode())
    return total.hexdigest()


def words_of(crate, toolchain, jobs):
    """The prover's words for a crate."""
    words = ["--crate-name", crate.name, "src/main.rt" if crate.is_program else "src/lib.rt"]
    for name in crate.kit:
        words += ["--extern", f"{name}={toolchain.path('rlibs', name + '.rlib')}"]
    words += ["-L", f"dependency={toolchain.path('rlibs')}"]
    for it in crate.own:
        words += ["--extern", f"{it.name}={it.rlib}"]
    for it in crate.below:
        words += ["-L", f"dependency={it.made}"]
    words += ["--antt-project", toolchain.path("rattle", "logic", "antt-project.json")]
    return [*words, "--logic-built", toolchain.path("logic_built"), "--jobs", str(jobs), "--links", f"{crate.name}="]


def commands_of(crate, toolchain, jobs):
    """The commands that prove a crate and make what those above it need, or the program."""
    words = words_of(crate, toolchain, jobs)
    if not crate.is_program:
        return [[toolchain.prover, "build", *words, "--statements", "-o", crate.rlib]]
    parts = ["--toolchain", toolchain.path("toolchain")]
    program = os.path.join(crate.made, crate.name)
    libraries = [toolchain.path("c", name) for name in ("libos_c.a", "liblibc_c.a")]
    link = ["--target", "x86_64-unknown-linux-gnu", *parts, "-o", program, f"{program}.o", *libraries]
    return [[toolchain.prover, "build", *words, *parts, "--backend", "llvm", "-o", f"{program}.o"],
            [toolchain.linker, *link]]
