"""A Slurm of one controller and one node on this machine, as long as it is needed."""

import contextlib
import os
import shutil
import subprocess
import time

from dev.lib import nodes, process

PROGRAMS = ("munged", "slurmctld", "slurmd", "salloc", "srun")
FOLDERS = ("/usr/sbin", "/usr/bin", "/sbin", "/bin")
CONFIG = """
ClusterName=nullsim
SlurmctldHost=localhost(127.0.0.1)
SlurmUser=root
SlurmdUser=root
AuthType=auth/munge
AuthInfo=socket={folder}/munge.socket
StateSaveLocation={folder}/state
SlurmdSpoolDir={folder}/spool
SlurmctldPidFile={folder}/slurmctld.pid
SlurmdPidFile={folder}/slurmd.pid
SlurmctldPort={ports[0]}
SlurmdPort={ports[1]}
ProctrackType=proctrack/linuxproc
TaskPlugin=task/none
SelectType=select/cons_tres
SelectTypeParameters=CR_CPU
MpiDefault=none
ReturnToService=2
NodeName=localhost CPUs={processors} State=UNKNOWN
PartitionName=all Nodes=ALL Default=YES MaxTime=INFINITE State=UP
"""
SECONDS = 30


def where(name):
    """Where a program is; those of administrators may not be on the path."""
    return shutil.which(name, path=os.pathsep.join([os.environ.get("PATH", ""), *FOLDERS]))


def is_installed():
    return os.geteuid() == 0 and all(where(name) for name in PROGRAMS)


@contextlib.contextmanager
def cluster(folder):
    """The variables with which its commands are called."""
    place = os.path.join(folder, "slurm")
    for name in ("state", "spool"):
        os.makedirs(os.path.join(place, name))
    config, key = os.path.join(place, "slurm.conf"), os.path.join(place, "munge.key")
    with open(config, "w", encoding="ascii") as file:
        file.write(CONFIG.format(folder=place, ports=[nodes.free_port(), nodes.free_port()], processors=os.cpu_count()))
    with open(os.open(key, os.O_WRONLY | os.O_CREAT, 0o400), "wb") as file:
        file.write(os.urandom(1024))
    own = [f"--{name}={place}/{file}" for name, file in (("key-file", "munge.key"), ("socket", "munge.socket"),
                                                         ("pid-file", "munged.pid"), ("log-file", "munged.log"),
                                                         ("seed-file", "munged.seed"))]
    environment, children = {**os.environ, "SLURM_CONF": config}, []
    try:
        for words in (["munged", "--foreground", "--force", *own], ["slurmctld", "-D", "-f", config],
                      ["slurmd", "-D", "-f", config, "-N", "localhost"]):
            children.append(subprocess.Popen([where(words[0]), *words[1:]], stdout=subprocess.DEVNULL,
                                             stderr=subprocess.DEVNULL, env=environment))
            time.sleep(1)
        until = time.monotonic() + SECONDS
        while b"idle" not in process.call(["sinfo", "-h"], env=environment).out and time.monotonic() < until:
            time.sleep(0.5)
        yield environment
    finally:
        for child in reversed(children):
            child.terminate()
            child.wait()
