// A bare event loop: what a plain C++ program costs that forwards the same packets, with nothing proved and nothing
// left open to change.
//
//   compare-loop NETWORK [--traces FOLDER | --measure]
//
// NETWORK is a text as network.h says. It makes whole packets, looks up the longest prefix, lowers the time to live,
// computes the header's checksum anew, and keeps drop-tail queues and counters. Its events have nullsim's order. With
// --traces each interface has a pcap file FOLDER/NAME.pcap, raw IP with nanosecond times; with --measure it keeps what
// measured.h says, and prints some sums of that. It prints the packet-hops and each counter. It tests no checksum of
// UDP, which it made itself. Where a source is not of kind cbr, or where an ICMP error would be due, it ends with
// status 3.
#include "measured.h"
#include "network.h"

#include <cstring>
#include <deque>
#include <memory>
#include <tuple>

namespace {

// A packet has one owner at any time: an event, a queue, or who is at it.
using Octets = std::unique_ptr<std::vector<uint8_t>>;

// An event: an arrival of a packet at interface i has place 2i, a completion of its transmission 2i + 1, source j has
// 2I + j of I interfaces.
struct Event {
    uint64_t time, place, number;
    Octets packet;

    bool operator<(const Event& other) const {
        // a heap has its greatest in front
        return std::tie(time, place, number) > std::tie(other.time, other.place, other.number);
    }
};

struct Port {
    uint32_t node = 0, far = 0;
    uint64_t rate = 1, delay = 0, arrivals = 0, completions = 0;
    size_t limit = 0;
    int64_t octetLimit = -1, waitingOctets = 0;
    bool isBusy = false;
    std::deque<Octets> waiting;
    std::ofstream trace;
};

struct Prefix {
    uint32_t to, mask, port;
};

struct Place {
    bool isRouter;
    uint16_t identification = 0;
    std::vector<uint32_t> addresses;
    std::vector<Prefix> routes; // the longest first
};

struct Counters {
    uint64_t hops = 0, delivered = 0, dropped = 0, refused = 0;
};

void WriteHalf(uint8_t* at, uint32_t half) {
    at[0] = static_cast<uint8_t>(half >> 8);
    at[1] = static_cast<uint8_t>(half);
}

void WriteWord(uint8_t* at, uint32_t word) {
    WriteHalf(at, word >> 16);
    WriteHalf(at + 2, word);
}

[[noreturn]] void EndNotSimulated(const std::string& what) {
    std::cerr << "compare-loop: " << what << " is not simulated\n";
    std::exit(3);
}

// The one's complement sum of 16-bit words, to which `sum` is added.
uint32_t Sum(const uint8_t* octets, size_t count, uint64_t sum) {
    for (size_t i = 0; i + 1 < count; i += 2) {
        sum += octets[i] << 8 | octets[i + 1];
    }
    sum += count % 2 ? octets[count - 1] << 8 : 0;
    while (sum >> 16) {
        sum = (sum & 0xffff) + (sum >> 16);
    }
    return static_cast<uint32_t>(sum);
}

template <typename Item> bool Has(const std::vector<Item>& items, Item item) {
    return std::find(items.begin(), items.end(), item) != items.end();
}

template <typename Watch> class Simulation {
  public:
    Simulation(const Network& net, const char* traces)
        : m_net(net), m_watch(net), m_ports(net.ifaces.size()), m_sent(net.sources.size()) {
        AddPorts(traces);
        for (const NodeLine& line : net.nodes) {
            m_places.push_back(Place{line.isRouter, 0, {}, {}});
        }
        for (const Iface& iface : net.ifaces) {
            m_places.at(iface.node).addresses.push_back(iface.address);
        }
        AddRoutes();
        for (uint32_t j = 0; j < net.sources.size(); j++) {
            Plan(j);
        }
    }

    const Counters& Run() {
        uint64_t twice = 2 * m_ports.size();
        while (!m_events.empty() && m_events.front().time < m_net.stop) {
            Event event = Take();
            m_now = event.time;
            if (event.place >= twice) {
                Originate(static_cast<uint32_t>(event.place - twice));
            } else if (event.place % 2) {
                Complete(m_ports[event.place / 2], event.place);
            } else {
                m_watch.Arrives(static_cast<uint32_t>(event.place / 2));
                Arrive(m_ports[event.place / 2], std::move(event.packet));
            }
        }
        m_watch.Print();
        return m_counters;
    }

  private:
    void Put(uint64_t time, uint64_t place, uint64_t number, Octets packet) {
        m_events.push_back(Event{time, place, number, std::move(packet)});
        std::push_heap(m_events.begin(), m_events.end());
    }

    Event Take() {
        std::pop_heap(m_events.begin(), m_events.end());
        Event event = std::move(m_events.back());
        m_events.pop_back();
        return event;
    }

    void AddPorts(const char* traces) {
        for (size_t i = 0; i < m_ports.size(); i++) {
            const Iface& iface = m_net.ifaces[i];
            m_ports[i].node = iface.node;
            m_ports[i].limit = static_cast<size_t>(iface.queue);
            m_ports[i].octetLimit = iface.queueOctets;
            if (traces) {
                m_ports[i].trace.open(std::string(traces) + "/" + iface.name + ".pcap", std::ios::binary);
                const uint32_t head[6] = {0xa1b23c4d, 0x00040002, 0, 0, 65535, 101};
                m_ports[i].trace.write(reinterpret_cast<const char*>(head), sizeof head);
            }
        }
        for (const Link& link : m_net.links) {
            for (auto [from, to] : {std::pair{link.a, link.b}, std::pair{link.b, link.a}}) {
                m_ports.at(from).far = to;
                m_ports.at(from).rate = link.rate;
                m_ports.at(from).delay = link.delay;
            }
        }
    }

    void AddRoutes() {
        for (const Route& route : m_net.routes) {
            uint32_t mask = route.length ? 0xffffffffu << (32 - route.length) : 0;
            m_places.at(route.node).routes.push_back(Prefix{route.to, mask, route.iface});
        }
        for (Place& place : m_places) {
            std::stable_sort(place.routes.begin(), place.routes.end(),
                             [](const Prefix& a, const Prefix& b) { return a.mask > b.mask; });
        }
    }

    void Plan(uint32_t j) {
        const Source& source = m_net.sources[j];
        if (m_sent[j] < source.count) {
            Put(source.start + m_sent[j] * source.interval, 2 * m_ports.size() + j, m_sent[j], nullptr);
        }
    }

    static const Prefix* Find(const Place& place, uint32_t to) {
        auto found = std::find_if(place.routes.begin(), place.routes.end(),
                                  [to](const Prefix& prefix) { return (to & prefix.mask) == prefix.to; });
        return found == place.routes.end() ? nullptr : &*found;
    }

    static void SetChecksum(uint8_t* head) {
        WriteHalf(head + 10, 0);
        WriteHalf(head + 10, ~Sum(head, 20, 0));
    }

    void Originate(uint32_t j) {
        const Source& source = m_net.sources[j];
        Place& place = m_places[source.node];
        const Prefix* route = Has(place.addresses, source.to) ? nullptr : Find(place, source.to);
        m_watch.Makes(j, m_now);
        if (!route) {
            m_watch.Loses();
        } else {
            Octets packet = std::make_unique<std::vector<uint8_t>>(28 + source.size, static_cast<uint8_t>(source.fill));
            uint8_t* head = packet->data();
            std::fill_n(head, 28, 0);
            head[0] = 0x45;
            WriteHalf(head + 2, packet->size());
            WriteHalf(head + 4, place.identification++);
            head[8] = static_cast<uint8_t>(source.ttl);
            head[9] = 17;
            WriteWord(head + 12, m_net.ifaces[route->port].address);
            WriteWord(head + 16, source.to);
            SetChecksum(head);
            WriteHalf(head + 20, source.sport);
            WriteHalf(head + 22, source.dport);
            WriteHalf(head + 24, 8 + source.size);
            uint32_t sum = ~Sum(head + 12, packet->size() - 12, 17 + 8 + source.size) & 0xffff;
            WriteHalf(head + 26, sum ? sum : 0xffff);
            Offer(route->port, std::move(packet));
        }
        m_sent[j]++;
        Plan(j);
    }

    void Arrive(Port& port, Octets packet) {
        Record(port, *packet);
        Place& place = m_places[port.node];
        uint8_t* head = packet->data();
        if (packet->size() < 20 || head[0] != 0x45 || Sum(head, 20, 0) != 0xffff) {
            m_counters.refused++;
            m_watch.Loses();
            return;
        }
        uint32_t to = static_cast<uint32_t>(head[16]) << 24 | head[17] << 16 | head[18] << 8 | head[19];
        if (Has(place.addresses, to)) {
            if (!Has(m_net.nodes[port.node].ports, static_cast<uint16_t>(head[22] << 8 | head[23]))) {
                EndNotSimulated("an ICMP error");
            }
            m_counters.delivered++;
            m_watch.Delivers(packet->size(), m_now);
        } else if (!place.isRouter) {
            m_counters.refused++;
            m_watch.Loses();
        } else {
            const Prefix* route = Find(place, to);
            if (!route || head[8] <= 1) {
                EndNotSimulated("an ICMP error");
            }
            head[8]--;
            SetChecksum(head);
            Offer(route->port, std::move(packet));
        }
    }

    void Offer(uint32_t number, Octets packet) {
        Port& port = m_ports[number];
        int64_t octets = packet->size();
        if (!port.isBusy) {
            Start(port, number, std::move(packet));
            m_watch.Sends(number);
        } else if (port.waiting.size() < port.limit &&
                 (port.octetLimit < 0 || port.waitingOctets + octets <= port.octetLimit)) {
            port.waitingOctets += octets;
            port.waiting.push_back(std::move(packet));
            m_watch.Waits(number, port.waiting.size(), port.waitingOctets, m_now);
        } else {
            m_counters.dropped++;
            m_watch.Loses();
        }
    }

    void Start(Port& port, uint32_t number, Octets packet) {
        Record(port, *packet);
        m_watch.Starts(number, packet->size(), m_now);
        m_counters.hops++;
        port.isBusy = true;
        uint64_t done = m_now + TransmissionTime(packet->size(), port.rate);
        Put(done, 2 * static_cast<uint64_t>(number) + 1, port.completions++, nullptr);
        Put(done + port.delay, 2 * static_cast<uint64_t>(port.far), port.arrivals++, std::move(packet));
    }

    void Complete(Port& port, uint64_t place) {
        port.isBusy = false;
        if (!port.waiting.empty()) {
            Octets packet = std::move(port.waiting.front());
            port.waiting.pop_front();
            port.waitingOctets -= packet->size();
            uint32_t number = static_cast<uint32_t>(place / 2);
            Start(port, number, std::move(packet));
            m_watch.GoesOn(number, port.waiting.size(), port.waitingOctets, m_now);
        }
    }

    void Record(Port& port, const std::vector<uint8_t>& octets) {
        if (port.trace.is_open()) {
            uint32_t size = static_cast<uint32_t>(octets.size());
            const uint32_t head[4] = {static_cast<uint32_t>(m_now / 1000000000),
                                      static_cast<uint32_t>(m_now % 1000000000), size, size};
            port.trace.write(reinterpret_cast<const char*>(head), sizeof head);
            port.trace.write(reinterpret_cast<const char*>(octets.data()), size);
        }
    }

    const Network& m_net;
    Watch m_watch;
    std::vector<Port> m_ports;
    std::vector<Place> m_places;
    std::vector<uint64_t> m_sent;
    std::vector<Event> m_events; // a binary heap
    uint64_t m_now = 0;
    Counters m_counters;
};

template <typename Watch> void Simulate(const Network& net, const char* traces) {
    Simulation<Watch> simulation(net, traces);
    const Counters& counters = simulation.Run();
    std::cout << "hops " << counters.hops << "\ndelivered " << counters.delivered << "\ndropped " << counters.dropped
              << "\nrefused " << counters.refused << "\n";
}

} // namespace

int main(int argc, char** argv) {
    bool hasTraces = argc == 4 && !std::strcmp(argv[2], "--traces");
    bool measures = argc == 3 && !std::strcmp(argv[2], "--measure");
    if (argc != 2 && !hasTraces && !measures) {
        std::cerr << "usage: compare-loop NETWORK [--traces FOLDER | --measure]\n";
        return 2;
    }
    Network net = ReadNetwork(argv[1]);
    for (const Source& source : net.sources) {
        if (source.kind != "cbr") {
            EndNotSimulated("a source of kind " + source.kind);
        }
    }
    AllowFiles(net.ifaces.size());
    if (measures) {
        Simulate<Measurements>(net, nullptr);
    } else {
        Simulate<Nobody>(net, hasTraces ? argv[3] : nullptr);
    }
    return 0;
}
