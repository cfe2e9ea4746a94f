"""Where nodes run: this machine, hosts that ssh reaches, those of an Open MPI host file, or of a Slurm job; and which
words start a command there.

A way to start nodes is a class here; wrapper.sh runs on a host, in any POSIX shell. Tests: test_launch.py of
networks/tests, with mock launchers and programs; dev/attack/launches has real ones."""

import os
import shlex
import shutil
import subprocess

from launching.hosts import Host, Refused, address_of, hosts_of, reached, tasks_of

# A host that does not answer for so many seconds is gone.
CONNECT_SECONDS, SILENCE_SECONDS = 10, 15
SSH = ("-o", "BatchMode=yes", "-o", f"ConnectTimeout={CONNECT_SECONDS}", "-o", "ServerAliveInterval=5", "-o",
       f"ServerAliveCountMax={SILENCE_SECONDS // 5}")


class Here:
    """All nodes on this machine."""
    title, hopeless = "on this machine", {}

    def __init__(self):
        self.hosts = [Host("this machine", "127.0.0.1", 1)]

    def words(self, host, command):
        return command


class Ssh:
    """Hosts that ssh reaches without a password."""
    title = "over ssh"
    # What ssh says where trying again does not help, and what to do.
    hopeless = {
        "Permission denied": "ssh has to come there without a password: ssh-copy-id puts your key there",
        "Host key verification failed": "ssh does not know this host: connect once by hand, `ssh HOST`",
        "Could not resolve hostname": "ssh does not know this name: write another one, or put it into ~/.ssh/config",
    }

    def __init__(self, hosts, ssh):
        self.hosts, self.ssh = hosts, shlex.split(ssh)
        if not shutil.which(self.ssh[0]):
            raise Refused(f"{self.ssh[0]} is not installed (Debian: openssh-client)")

    def words(self, host, command):
        # The shell of the other side reads one line.
        return [*self.ssh, *SSH, host.name, shlex.join(command)]


class Mpi:
    """Hosts of an Open MPI host file; mpirun is called once for each node, so that the end of one ends no other."""
    title, hopeless = "by mpirun", {}

    def __init__(self, hosts):
        self.hosts = hosts
        if not shutil.which("mpirun"):
            raise Refused("mpirun is not installed (Debian: openmpi-bin)")

    def words(self, host, command):
        root = ["--allow-run-as-root"] if os.geteuid() == 0 else []
        # Without this each node would be held to the same processor.
        return ["mpirun", *root, "--host", f"{host.name}:{host.slots}", "--bind-to", "none", "-np", "1", *command]


class Slurm:
    """The nodes of a Slurm job, in which this runs; srun is called once for each node."""
    title, hopeless = "by srun", {}

    def __init__(self):
        if not shutil.which("srun") or not os.environ.get("SLURM_JOB_NODELIST"):
            raise Refused("this is no Slurm job: put the command into a script for sbatch, or call it by salloc")
        said = subprocess.run(["scontrol", "show", "hostnames", os.environ["SLURM_JOB_NODELIST"]], text=True,
                              capture_output=True, check=False)
        names = said.stdout.split()
        if not names:
            raise Refused(f"scontrol names no host of the job: {said.stderr.strip()}")
        counts = tasks_of(os.environ.get("SLURM_TASKS_PER_NODE", ""), len(names))
        only = len(names) == 1
        self.hosts = [Host(name, "127.0.0.1" if only else address_of(name), count)
                      for name, count in zip(names, counts)]

    def words(self, host, command):
        return ["srun", "--overlap", "--nodes=1", "--ntasks=1", f"--nodelist={host.name}", "--cpu-bind=none",
                "--unbuffered", *command]


def found(by, said, ssh):
    """The place that was asked for, or the one where this runs: a Slurm job; hosts that were named; or this machine."""
    by = by or ("slurm" if os.environ.get("SLURM_JOB_ID") else "ssh" if said else "here")
    if by in ("ssh", "mpi") and not said:
        raise Refused(f"--by {by} needs --hosts: a host file, or hosts with commas between")
    if by in ("here", "slurm") and said:
        raise Refused(f"--hosts stands with ssh and mpi: {by} knows its hosts")
    place = {"here": Here, "slurm": Slurm, "ssh": lambda: Ssh(hosts_of(said), ssh), "mpi": lambda: Mpi(hosts_of(said))}
    made = place[by]()
    made.hosts = reached(made.hosts)
    return made
