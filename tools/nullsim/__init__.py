"""nullsim from Python: networks from a SPEC, a file or calls; their runs; and what was measured, as typed records.

    import nullsim

    network = nullsim.Network(stop="1 s", seed=1)
    network.add_router("gw", hosts=1)
    network.add_router("isp", hosts=1)
    network.add_link("gw", "isp", rate="2 Mbit/s", delay="10 ms", queue=5)
    network.add_flow("poisson", from_="gw-h1", to="isp-h1", rate="1 Mbit/s", size=1000)
    for flow in network.flows():
        print(flow.flow, flow.sent, flow.delivered, flow.mean_delay, "ns")

Times are whole nanoseconds, or texts with a unit ("5 ms"); rates whole bits per second, or texts ("2 Mbit/s"); sizes
octets of data; queues packets. What is measured is in nanoseconds, octets, packets and bits per second, as the program
says it (docs/FORMATS.md). It needs Python 3.11 or later, and no other package.

- `Network.from_spec(path)`, `Network.from_text(text)`, `Network.imported(path)`: the network of a SPEC, or of a file
  that `network import` takes. `Network(stop=.., seed=..)` with `add_router`, `add_host`, `add_node`, `add_link`,
  `add_group`, `add_flow`: one by calls, whose words are the keys of a SPEC (`network make --help`).
  `with_values({"flow.0.rate": "5 Mbit/s"})`: another one with other values, by the keys of a sweep.
- `topology()`, `save(path)`, `Topology.read(path)`: the text; as a file; of a file.
- `check()`, `report()`, `flows()`, `delays()`, `series(step)`, `series_of_sources(step)`, `packets(source)`,
  `trace(interface)`: what the words of these names print, as lists of records.
- `run(folder, partitions, workers)`: a run that is certified, with its trace files. `sweep(network, values, seeds)`:
  means of variants with their intervals, of a network or of a function of values and a seed.
- `.frame()`, `.arrays()`, `.columns()` of a list of records: a pandas frame; numpy arrays; lists.
- `Refused`, `Failed`, `Lacking`: faults of the input, of a run, and of a package or program that is not there, each
  with `number`, `place` and `cure`.
"""

import os as _os
import sys as _sys

if _sys.version_info < (3, 11):
    raise ImportError(f"nullsim needs Python 3.11 or later, and {_sys.executable} is {_sys.version.split()[0]}")

# The makers of topologies are a package beside this one, in the tree as where it is installed.
_TOOLS = _os.path.dirname(_os.path.dirname(_os.path.realpath(__file__)))
if _TOOLS not in _sys.path:
    _sys.path.append(_TOOLS)

import networks as _networks  # noqa: E402

if _os.path.dirname(_os.path.dirname(_os.path.realpath(_networks.__file__ or ""))) != _TOOLS:
    raise ImportError(f"another package of the name networks, {_networks.__file__}, hides the one that nullsim needs: "
                      "give yours another name")

from nullsim.faults import Failed, Fault, Lacking, Refused  # noqa: E402
from nullsim.intervals import Interval, interval  # noqa: E402
from nullsim.network import Network  # noqa: E402
from nullsim.program import program  # noqa: E402
from nullsim.records import (  # noqa: E402
    Arrival, Counter, Delay, Flow, Interface, Packet, Progress, Rows, Source, Step, SourceStep, Swept, Trace)
from nullsim.runs import Run  # noqa: E402
from nullsim.sweeping import sweep  # noqa: E402
from nullsim.topology import Check, Report, Topology  # noqa: E402

__all__ = ["Arrival", "Check", "Counter", "Delay", "Failed", "Fault", "Flow", "Interface", "Interval", "Lacking",
           "Network", "Packet", "Progress", "Refused", "Report", "Rows", "Run", "Source", "SourceStep", "Step", "Swept",
           "Topology", "Trace", "interval", "program", "sweep"]
