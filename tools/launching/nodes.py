"""A node of a run: the process that starts it on its host, what it says, and how it ended."""

import os
import shutil
import socket
import subprocess
import tarfile
import threading
import time

from launching.places import CONNECT_SECONDS

WRAPPER = os.path.join(os.path.dirname(os.path.realpath(__file__)), "wrapper.sh")
# The statuses of the program, and of the wrapper where it did not come to it.
DONE, USAGE, TOPOLOGY, FILE, MEMORY, STALLED, NO_FOLDER, NO_PROGRAM = 0, 2, 3, 4, 5, 7, 125, 127
# What to do about each.
CURES = {
    USAGE: "the program there takes other words: install the same version on all hosts",
    TOPOLOGY: "`nullsim check` says where the mistake is",
    MEMORY: "memory was refused: give its host fewer nodes (slots), or cut the network into more partitions",
    STALLED: "nothing came from its peers for a minute: can the other hosts reach this one at its port?",
    NO_FOLDER: "no folder could be made there: is there room in its TMPDIR?",
    NO_PROGRAM: "there is no nullsim there: install it, or name it with --nullsim PROGRAM",
}
# A clock that is off by more than this is told.
CLOCK_SECONDS = 60
WORDS = ("safe", "events", "records", "messages", "connections", "broken")


class Node:
    """A replica of a partition. `key` is both their numbers, `job` what all nodes have in common."""

    def __init__(self, job, key, host, port):
        self.job, self.key, self.host, self.port = job, key, host, port
        self.folder = os.path.join(job.folder, f"{key[0]}-{key[1]}")
        self.times_begun, self.child = 0, None
        self.figures, self.errors, self.lines = {}, [], []
        self.remarks, self.ended, self.status = [], None, None

    def name(self):
        return f"host {self.host.name}, partition {self.key[0]}, replica {self.key[1]}"

    def begin(self):
        """Starts it, or starts it again with nothing."""
        job = self.job
        with open(WRAPPER, encoding="utf-8") as file:
            text = file.read()
        command = ["sh", "-c", text, "launch", job.folder, job.token, str(len(job.text)), str(len(job.list)),
                   job.program, *map(str, self.key)]
        self.figures, self.errors, self.lines, self.ended, self.status = {}, [], [], None, None
        self.times_begun += 1
        # In a session of its own: Ctrl-C comes to the launcher, which ends it.
        self.child = subprocess.Popen(job.place.words(self.host, command), stdin=subprocess.PIPE,
                                      stdout=subprocess.PIPE, stderr=subprocess.PIPE, start_new_session=True)
        threads = [threading.Thread(target=work, args=(self.child,), daemon=True)
                   for work in (self.feed, self.read_out, self.read_errors)]
        for thread in threads:
            thread.start()
        threading.Thread(target=self.await_end, args=(self.child, threads[1:]), daemon=True).start()

    def feed(self, child):
        """Gives it the topology and the addresses. What it is given stays open: its end ends the node."""
        try:
            child.stdin.write(self.job.text + self.job.list)
            child.stdin.flush()
        except (OSError, ValueError):
            # It ended before, or was told to: its status and its line say why.
            pass

    def read_out(self, child):
        """Its lines, and behind the last one its files, where its folder is not this one."""
        own = False
        for octets in child.stdout:
            line = octets.decode(errors="replace").rstrip("\n")
            if line.startswith("launch: ended "):
                self.ended = int(line.split()[2])
                if own:
                    self.take(child.stdout)
                return
            if line.startswith("launch: "):
                own = line.split()[1] == "own"
                self.note_clock(int(line.split()[2]))
            else:
                self.lines.append(line)

    def note_clock(self, seconds):
        """Tells of a clock that is off."""
        off = seconds - time.time()
        if abs(off) > CLOCK_SECONDS and self.times_begun == 1:
            way = "behind" if off < 0 else "ahead"
            self.remarks.append(f"host {self.host.name}: its clock is {abs(off):,.0f} s {way}: the run does not depend "
                                "on it; set it there, so that times of files and logs are right")

    def take(self, stream):
        """Puts the files of an archive into its folder here."""
        os.makedirs(self.folder, exist_ok=True)
        try:
            with tarfile.open(fileobj=stream, mode="r|") as tar:
                for member in tar:
                    name = os.path.basename(member.name)
                    # A file of a node stands in its folder, and in none below.
                    if member.isfile() and member.name in (name, f"./{name}"):
                        with tar.extractfile(member) as read, open(os.path.join(self.folder, name), "wb") as file:
                            shutil.copyfileobj(read, file)
            stream.read()
        except (tarfile.TarError, OSError) as why:
            # So it is as if it had been lost.
            self.ended = None
            self.errors.append(f"its files did not come whole: {why}")

    def read_errors(self, child):
        """Its line a second, and what goes wrong."""
        for octets in child.stderr:
            line = octets.decode(errors="replace").strip()
            words = line.split()
            if words[:1] == ["safe"]:
                self.figures = {word: int(value) for word, value in zip(words[::2], words[1::2])
                                if word in WORDS and value.isdecimal()}
            elif line and not words[0].startswith("partition"):
                self.errors.append(line)

    def await_end(self, child, threads):
        """Its status, once all that it said was read."""
        status = child.wait()
        for thread in threads:
            thread.join()
        if child is self.child:
            self.status = self.ended if self.ended is not None else status

    def runs(self):
        return self.status is None

    def was_lost(self):
        """Whether its process, or the way to it, was lost: by a signal, or without a status of its own."""
        if self.runs() or self.status in CURES or self.status in (DONE, FILE) or self.hopeless():
            return False
        return self.ended is None or self.status > 128

    def end(self):
        """Has the node end: what it is given is closed, and so its wrapper ends it, wherever it is."""
        if self.child and self.child.poll() is None:
            try:
                self.child.stdin.close()
            except OSError:
                pass

    def kill(self):
        """Ends the process that started it."""
        if self.child and self.child.poll() is None:
            self.child.kill()

    def hopeless(self):
        """What to do about a host to which there is no way, however often it is tried; or nothing."""
        known = self.job.place.hopeless.items()
        return next((cure for line in self.errors for part, cure in known if part in line), "")

    def reason(self):
        """Its own reason, and what to do: one line."""
        own = next((line for line in self.errors if line.startswith("nullsim: ")), "")
        other = self.errors[-1] if self.errors else ""
        return f"{self.name()}: {own or other or how(self.status)}: {self.cure()}"

    def cure(self):
        if self.status == FILE and is_in_use(self.host.address, self.port):
            return f"port {self.port} is in use there: --port chooses another first port"
        if self.status == FILE:
            return f"is there room for files in {self.folder}, and do all hosts have one version of the program?"
        if self.hopeless():
            return self.hopeless()
        if self.was_lost():
            return (f"the way to the host, or the process, was lost {self.times_begun} times: is the host up? Without "
                    "it begin again with other --hosts")
        return CURES.get(self.status, how(self.status))


def how(status):
    """A status in words."""
    return f"signal {-status}" if status is not None and status < 0 else f"status {status}"


def is_in_use(address, port):
    """Whether somebody listens at a port."""
    try:
        with socket.create_connection((address, port), CONNECT_SECONDS):
            return True
    except OSError:
        return False
