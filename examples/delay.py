"""Delay against load: packets of one size with Poisson arrivals at one link, beside the formula of M/D/1."""

import nullsim

SERVICE = 800_000  # nanoseconds: 100 octets at 1 Mbit/s
PACKETS, LOADS = 5_000, [0.3, 0.5, 0.7, 0.8, 0.9]


def queue(values, seed):
    """A network of two hosts; 72 octets of data are 100 with headers."""
    interval = round(SERVICE / values["load"])
    network = nullsim.Network(stop=(PACKETS + 1_000) * interval, seed=seed)
    network.add_host("a").add_host("b").add_link("a", "b", rate="1 Mbit/s", delay=0, queue=10_000)
    return network.add_flow("poisson", "a", "b", interval=interval, size=72, until=PACKETS * interval)


def formula(load):
    """The mean delay in services: the wait (Pollaczek and Khinchine) and one service."""
    return load / (2 * (1 - load)) + 1


rows = nullsim.sweep(queue, {"load": LOADS}, seeds=range(1, 11), measures=["mean_delay"])
ends = [[value / SERVICE for value in (row.mean, row.low, row.high)] for row in rows]
for load, (mean, low, high) in zip(LOADS, ends):
    print(f"load {load}: {mean:.3f} services, {low:.3f} to {high:.3f}; formula {formula(load):.3f}")

try:
    from matplotlib import pyplot
except ImportError:
    raise SystemExit("the figure needs matplotlib: apt-get install python3-matplotlib")
curve = [number / 100 for number in range(20, 93)]
pyplot.figure(figsize=(7, 4))
pyplot.plot(curve, [formula(load) for load in curve], color="#0072B2", label="M/D/1")
pyplot.errorbar(LOADS, [mean for mean, _, _ in ends], yerr=[high - mean for mean, _, high in ends],
                fmt="o", capsize=4, color="#D55E00", label="10 runs each, 95%")
pyplot.xlabel("load")
pyplot.ylabel("mean delay (services)")
pyplot.legend(frameon=False)
pyplot.savefig("delay.svg", bbox_inches="tight")
