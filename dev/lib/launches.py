"""Calls of tools/launch, and machines with sshd on which it starts nodes."""

import os
import subprocess
import time

from dev.lib import here, process

LAUNCH = here.path("tools", "launch")
SSHD = "/usr/sbin/sshd"
# The address of the machine that launches, and those of the hosts (RFC 2544, section C.2.2: for tests).
FRONT, HOSTS = "198.18.0.9", ("198.18.0.1", "198.18.0.2")
SSHD_CONFIG = """
HostKey {folder}/host_key
AuthorizedKeysFile {folder}/key.pub
StrictModes no
UsePAM no
PidFile none
PermitRootLogin yes
{more}
"""
SSH_CONFIG = """
Host *
  IdentityFile {folder}/key
  UserKnownHostsFile /dev/null
  StrictHostKeyChecking no
  LogLevel ERROR
  User root
"""


class Launch:
    """A call of tools/launch. What it says goes to files."""

    def __init__(self, folder, path, *words, before=(), **how):
        self.folder = os.path.join(folder, "DIR")
        self.out, self.errors = os.path.join(folder, "out"), os.path.join(folder, "errors")
        os.makedirs(folder, exist_ok=True)
        words = [*before, LAUNCH, path, self.folder, "--plain", "--nullsim", here.NULLSIM, *words]
        with open(self.out, "wb") as out, open(self.errors, "wb") as errors:
            self.child = subprocess.Popen(words, stdin=subprocess.DEVNULL, stdout=out, stderr=errors,
                                          start_new_session=True, **how)

    def said(self):
        """What it said so far."""
        return here.octets(self.errors).decode(errors="replace")

    def end(self, seconds):
        """Its status and its last line; killed where it takes longer."""
        try:
            status = self.child.wait(seconds)
        except subprocess.TimeoutExpired:
            self.child.kill()
            self.child.wait()
            status = "late"
        lines = self.said().strip().splitlines()
        return status, lines[-1] if lines else ""

    def is_certified(self):
        return here.octets(self.out).startswith(b"certified\n")


class Keys:
    """The keys and settings of ssh and sshd, in a folder."""

    def __init__(self, folder):
        self.folder = folder
        for name in ("key", "host_key"):
            process.done(process.call(["ssh-keygen", "-q", "-t", "ed25519", "-N", "", "-f", f"{folder}/{name}"]),
                         "ssh-keygen")
        here.write(os.path.join(folder, "ssh_config"), SSH_CONFIG.format(folder=folder))
        self.ssh = f"ssh -F {folder}/ssh_config"
        os.makedirs("/run/sshd", exist_ok=True)

    def serve(self, machine, hidden=(), more="", before=()):
        """Begins sshd on a machine, perhaps by other words. Folders that are hidden are empty there, as on a machine
        with files of its own."""
        config = os.path.join(self.folder, f"sshd-{machine.name}")
        here.write(config, SSHD_CONFIG.format(folder=self.folder, more=more))
        # ip(8) gives a command mounts of its own.
        mounts = "".join(f"mount -t tmpfs none {folder} && " for folder in hidden)
        words = machine.words(*before, "sh", "-c", f"{mounts}exec {SSHD} -D -f {config}")
        return subprocess.Popen(words, stdout=subprocess.DEVNULL, stderr=subprocess.DEVNULL)


def nodes_on(machine):
    """The numbers of the processes of a machine that run a node."""
    found = process.output("ip", "netns", "pids", machine.name).split()
    return [int(number) for number in found if is_node(number)]


def is_node(number):
    """Whether a process is the program with the word `node`."""
    try:
        with open(f"/proc/{number}/cmdline", "rb") as file:
            words = file.read().split(b"\0")
    except OSError:
        return False
    return b"node" in words and b"-c" not in words


def no_nodes(machines, seconds=10):
    """Whether no node is left on machines soon."""
    until = time.monotonic() + seconds
    while any(nodes_on(machine) for machine in machines) and time.monotonic() < until:
        time.sleep(0.1)
    return not any(nodes_on(machine) for machine in machines)
