"""The programs that are compared with nullsim: built from the sources beside this file, and run."""

import os
import shutil
import subprocess

from dev.lib import here, process

SOURCES = here.path("dev", "compare")
NS3, LOOP = here.path("bin", "compare-ns3"), here.path("bin", "compare-loop")
FLAGS = ["-O2", "-Wall", "-std=c++17"]
NS3_LIBRARIES = ["-lns3-point-to-point", "-lns3-traffic-control", "-lns3-internet", "-lns3-network", "-lns3-core"]
BUILDS = ((NS3, ("ns3.cc", "levelled.h", "network.h"), NS3_LIBRARIES), (LOOP, ("loop.cc", "measured.h", "network.h"), []))
NS3_HEADER = "/usr/include/ns3/core-module.h"
WANTED = "apt-get install ns3 libns3-dev g++"
# What no comparison takes.
SECONDS = 600


def absent():
    """What is not installed, in words, or nothing."""
    if not shutil.which("g++"):
        return f"g++ is not installed (Debian: {WANTED})"
    if not os.path.exists(NS3_HEADER):
        return f"ns-3 is not installed: there is no {NS3_HEADER} (Debian: {WANTED})"
    return None


def build():
    """Compiles both C++ programs where they are older than their sources."""
    os.makedirs(os.path.dirname(NS3), exist_ok=True)
    for built, names, libraries in BUILDS:
        sources = [os.path.join(SOURCES, name) for name in names]
        if not os.path.exists(built) or os.path.getmtime(built) <= max(map(os.path.getmtime, sources)):
            subprocess.run(["g++", *FLAGS, "-o", built, sources[0], *libraries], check=True)


def ns3_version():
    """The version of ns-3 that is installed, as its package has it."""
    try:
        return process.output("pkg-config", "--modversion", "ns3-core").strip()
    except (OSError, process.Failed):
        return "of an unknown version"


def call(words):
    """Runs a program to its end, and gives what it prints."""
    return process.output(*words, seconds=SECONDS)
