"""tools/launch with launchers and a program that only seem to be: what is started where, and what is said of faults."""

import os
import socket
import stat
import subprocess
import sys
import unittest
from unittest import mock

from launching import hosts
from networks.tests import tool

LAUNCH = os.path.join(tool.ROOT, "tools", "launch")
# It stands for ssh, srun and mpirun: it writes its words to a file, and runs what stands behind theirs.
STARTER = """#!/bin/sh
echo "${0##*/} $1 $2 $3 $4 $5 $6" >> "$STARTED"
[ -z "$GONE" ] || { echo "$GONE" >&2; exit 255; }
while [ $# -gt 0 ] && [ "$1" != sh ]; do
    case $1 in "sh -c"*) eval "exec $1" ;; esac
    shift
done
exec "$@"
"""
SCONTROL = """#!/bin/sh
printf 'localhost\\n'
"""
# It stands for nullsim: it leaves what a node leaves, or ends as the file `PARTITION-REPLICA` beside it says.
PROGRAM = """#!/bin/sh
[ "$1" = node ] || { echo certified; echo "$@" > "${0%/*}/certified"; exit; }
own=$4-$5
first="${0%/*}/begun-$own"
echo 'safe 5 events 7 records 1 messages 2 nulls 3 connections 1 broken 0 resent 0' >&2
if [ -f "${0%/*}/$own" ]; then
    . "${0%/*}/$own"
fi
: > "$3/$own.known"
: > "$3/x$4.pcap"
grep -c . "$6" > /dev/null
echo "iface x$4 records 0 octets 24"
"""


class Launches(tool.Folder):
    def setUp(self):
        super().setUp()
        self.bin = os.path.join(self.folder, "bin")
        os.mkdir(self.bin)
        for name in ("ssh", "srun", "mpirun"):
            self.script(name, STARTER)
        self.script("scontrol", SCONTROL)
        self.program = self.script("nullsim", PROGRAM)
        self.topology = tool.path_of("ring")
        self.out = os.path.join(self.folder, "DIR")
        self.started = os.path.join(self.folder, "started")

    def script(self, name, text):
        """A program in the folder that stands first on the path."""
        path = self.file(os.path.join("bin", name), text)
        os.chmod(path, stat.S_IRWXU)
        return path

    def ending(self, partition, text):
        """What replica 0 of a partition does instead of leaving its files."""
        self.file(os.path.join("bin", f"{partition}-0"), text)

    def launch(self, *words, topology=None, **more):
        """Its status, standard output and standard error."""
        kept = {key: value for key, value in os.environ.items() if not key.startswith("SLURM")}
        kept.update({"PATH": f"{self.bin}:{os.environ['PATH']}", "STARTED": self.started, **more})
        ended = subprocess.run([sys.executable, LAUNCH, topology or self.topology, self.out, "--plain", "--nullsim",
                                self.program, *words], capture_output=True, text=True, env=kept, timeout=tool.SECONDS,
                               check=False)
        return ended.returncode, ended.stdout, ended.stderr

    def begun(self):
        return tool.read(self.started).splitlines()

    def test_each_partition_has_a_node_on_this_machine(self):
        status, said, beside = self.launch()
        self.assertEqual((status, said), (0, "certified\n"), beside)
        for partition in range(3):
            self.assertIn(f"{partition}-0.known", os.listdir(os.path.join(self.out, f"{partition}-0")))
        self.assertEqual(tool.read(self.out, "addresses"),
                         "0 0 127.0.0.1:7000\n1 0 127.0.0.1:7001\n2 0 127.0.0.1:7002\n")
        words = tool.read(self.bin, "certified").split()
        self.assertEqual([os.path.basename(word) for word in words[3:]], ["0-0", "1-0", "2-0"])
        self.assertFalse([name for name in os.listdir(self.out) if name.startswith(".launch")])

    def test_two_replicas_are_on_two_hosts(self):
        named = self.file("hosts", "127.0.0.1 slots=2\nlocalhost address=127.0.0.1  # the same\n")
        status, _, beside = self.launch("--hosts", named)
        self.assertEqual(status, 3)
        self.assertIn("at which no other host reaches it: write `127.0.0.1 address=A.B.C.D`", beside)
        some = [hosts.Host("a", "192.0.2.1", 1), hosts.Host("b", "192.0.2.2", 1)]
        where = hosts.shared_out(some, range(3), 2, 7000)
        self.assertEqual([where[key][0].name for key in sorted(where)], ["a", "b", "a", "b", "b", "a"])
        self.assertEqual(len({(host.name, port) for host, port in where.values()}), 6)
        self.assertEqual(len(hosts.shared_out(some, range(9), 1, 7000)), 9)

    def test_ssh_mpirun_and_srun_start_nodes(self):
        for words, more, name in ((("--hosts", "localhost"), {}, "ssh"),
                                  (("--by", "mpi", "--hosts", "localhost"), {}, "mpirun"),
                                  ((), {"SLURM_JOB_ID": "1", "SLURM_JOB_NODELIST": "localhost"}, "srun")):
            if os.path.exists(self.started):
                os.remove(self.started)
            status, said, beside = self.launch(*words, **more)
            self.assertEqual((status, said), (0, "certified\n"), beside)
            self.assertEqual([line.split()[0] for line in self.begun()], [name] * 3)

    def test_a_node_that_was_lost_is_begun_again(self):
        self.ending(1, '[ -f "$first" ] || { : > "$first"; kill -9 $$; }\n')
        status, said, beside = self.launch()
        self.assertEqual((status, said), (0, "certified\n"), beside)
        # Not every shell says that a program was killed.
        self.assertRegex(beside,
                         "partition 1, replica 0: (Killed|its process was lost); it is begun again, with nothing")

    def test_files_of_a_host_with_a_folder_of_its_own_come_here(self):
        # The token by which a host knows the folder is not seen where it has another name.
        self.script("ssh", STARTER.replace('exec $1"', 'exec $(echo "$1" | sed "s/[.]launch-/.other-/")"'))
        status, said, beside = self.launch("--hosts", "localhost")
        self.assertEqual((status, said), (0, "certified\n"), beside)
        self.assertEqual(sorted(os.listdir(os.path.join(self.out, "2-0"))), ["2-0.known", "x2.pcap"])

    def test_faults_are_one_line_with_what_to_do(self):
        cases = (
            ("echo 'nullsim: topology 3' >&2; exit 3", "nullsim: topology 3: `nullsim check` says where"),
            ("echo 'nullsim: memory' >&2; exit 5", "nullsim: memory: memory was refused: give its host fewer nodes"),
            ("echo 'nullsim: usage' >&2; exit 2", "install the same version on all hosts"),
            ("echo 'nullsim: file' >&2; exit 4", "nullsim: file: is there room for files in"),
        )
        for text, part in cases:
            self.ending(2, text)
            status, said, beside = self.launch()
            self.assertEqual((status, said), (3, ""), beside)
            last = beside.strip().splitlines()[-1]
            self.assertIn("launch: host this machine, partition 2, replica 0: ", last)
            self.assertIn(part, last)

    def test_a_host_to_which_there_is_no_way_is_tried_once(self):
        status, _, beside = self.launch("--hosts", "localhost", GONE="me@localhost: Permission denied (publickey).")
        self.assertEqual((status, len(self.begun())), (3, 3))
        self.assertIn("launch: host localhost, partition 0, replica 0: me@localhost: Permission denied (publickey).: "
                      "ssh has to come there without a password", beside)

    def test_a_run_without_all_files_is_refused(self):
        self.ending(0, "echo 'nullsim: stalled' >&2; exit 7")
        status, _, beside = self.launch()
        self.assertEqual(status, 3)
        self.assertIn("partition 0, replica 0: nullsim: stalled: nothing came from its peers for a minute", beside)

    def test_words_that_are_refused(self):
        for words, part in ((("--by", "ssh"), "needs --hosts"), (("--by", "here", "--hosts", "a"), "knows its hosts"),
                            (("--by", "slurm"), "this is no Slurm job"), (("--hosts", "/nosuch"), "no host file"),
                            (("--hosts", "a b c"), 'has the line "a b c"'), (("--port", "0"), "--port is 1 to"),
                            (("--hosts", "no.such.host.invalid"), "address=A.B.C.D"), (("--hosts", ","), "no host")):
            status, _, beside = self.launch(*words)
            self.assertEqual((status, beside.count("\n")), (3, 1), beside)
            self.assertIn(part, beside)
        status, _, beside = self.launch(topology=self.file("bad.toml", "format = 1\n"))
        self.assertEqual(status, 3)
        self.assertIn('key "stop" is missing', beside)


class Hosts(unittest.TestCase):
    def test_this_machine_has_the_address_by_which_it_reaches_others(self):
        name = socket.gethostname()
        some = [hosts.Host(name, "127.0.1.1", 1), hosts.Host("other", "192.0.2.1", 1)]
        with mock.patch.object(hosts, "own_address", return_value="192.0.2.9"):
            self.assertEqual([host.address for host in hosts.reached(some)], ["192.0.2.9", "192.0.2.1"])
        with mock.patch.object(hosts, "own_address", return_value=None), self.assertRaises(hosts.Refused):
            hosts.reached(some)
        self.assertEqual(hosts.reached(some[:1]), some[:1])

    def test_tasks_of_a_slurm_job(self):
        self.assertEqual(hosts.tasks_of("2(x3),1", 4), [2, 2, 2, 1])
        self.assertEqual(hosts.tasks_of("", 2), [1, 1])
        self.assertEqual(hosts.tasks_of("4", 1), [4])
