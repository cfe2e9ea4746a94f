// Simulates a network with ns-3, as dev/compare/compare asks for it: the packets that docs/RULES.md has, as far as ns-3
// can.
//
//   compare-ns3 NETWORK [--traces FOLDER] [--places]
//
// NETWORK is a text as network.h says. With --traces each interface has a pcap file FOLDER/NAME.pcap with nanosecond
// times; its packets have the two octets of PPP first. With --places the events of one nanosecond are done in nullsim's
// order, and not in ns-3's.
#include "levelled.h"

#include <cstring>
#include <map>
#include <memory>

using namespace ns3;

namespace {

struct Options {
    const char* network = nullptr;
    const char* traces = nullptr;
    bool hasPlaces = false;
};

struct Built {
    std::vector<Ptr<Node>> nodes;
    std::vector<Ptr<CountingIpv4>> ipv4s;
    std::vector<Ptr<UdpL4Protocol>> udps;
    std::vector<Ptr<PointToPointNetDevice>> devices;
    std::vector<uint32_t> indexes; // of each interface at its node, as ns-3 counts them
};

// A node with IPv4, ICMP and UDP, static routes, and no queue discipline: these come with InternetStackHelper and
// Ipv4AddressHelper alone.
void AddNode(const NodeLine& line, Built& built) {
    Ptr<Node> node = CreateObject<Node>();
    Ptr<CountingIpv4> ipv4 = CreateObject<CountingIpv4>();
    Ptr<UdpL4Protocol> udp = CreateObject<UdpL4Protocol>();
    node->AggregateObject(CreateObject<TrafficControlLayer>());
    node->AggregateObject(ipv4);
    node->AggregateObject(CreateObject<Icmpv4L4Protocol>());
    node->AggregateObject(udp);
    ipv4->SetRoutingProtocol(CreateObject<Ipv4StaticRouting>());
    for (uint16_t port : line.ports) {
        // an end point without a callback takes what comes, and forgets it; a second one for a port is refused, and not
        // needed
        udp->Allocate(Ptr<NetDevice>(), port);
    }
    built.nodes.push_back(node);
    built.ipv4s.push_back(ipv4);
    built.udps.push_back(udp);
}

void SetQueue(Ptr<PointToPointNetDevice> device, const Iface& iface) {
    if (iface.queue > 0 && iface.queueOctets < 0) {
        auto queue = CreateObject<DropTailQueue<Packet>>();
        queue->SetMaxSize(QueueSize(QueueSizeUnit::PACKETS, iface.queue));
        device->SetQueue(queue);
        return;
    }
    Ptr<WaitQueue> queue = CreateObject<WaitQueue>(iface.queue, iface.queueOctets);
    device->SetQueue(queue);
    device->TraceConnectWithoutContext("PhyTxBegin", MakeCallback(&WaitQueue::OnBegin, queue));
    device->TraceConnectWithoutContext("PhyTxEnd", MakeCallback(&WaitQueue::OnEnd, queue));
}

void AddIface(const Network& net, const Iface& iface, bool isGuarded, Built& built) {
    Ptr<PointToPointNetDevice> device = CreateObject<PointToPointNetDevice>();
    Ptr<CountingIpv4> ipv4 = built.ipv4s.at(iface.node);
    device->SetAddress(Mac48Address::Allocate());
    device->SetMtu(net.mtu);
    built.nodes.at(iface.node)->AddDevice(device);
    SetQueue(device, iface);
    uint32_t index = ipv4->AddInterface(device);
    // a mask of 32 bits makes no route and no broadcast address
    ipv4->AddAddress(index, Ipv4InterfaceAddress(Ipv4Address(iface.address), Ipv4Mask::GetOnes()));
    ipv4->SetForwarding(index, net.nodes.at(iface.node).isRouter);
    if (isGuarded) {
        device->SetReceiveCallback(MakeBoundCallback(&ReceiveIfReadable, ipv4));
    }
    built.devices.push_back(device);
    built.indexes.push_back(index);
}

// Whether one correction serves packets of all lengths: then ns-3's own channel and device do, with a gap and a delay
// that have it in them.
bool IsOneCorrection(uint64_t rate, uint32_t mtu) {
    for (uint32_t octets = 1; octets <= mtu; octets++) {
        if (TimeCorrection(octets + PPP_OCTETS, rate) != TimeCorrection(1 + PPP_OCTETS, rate)) {
            return false;
        }
    }
    return true;
}

void AddLink(const Network& net, const Link& link, bool hasPlaces, bool isOne, Built& built) {
    int64_t correction = isOne ? TimeCorrection(1 + PPP_OCTETS, link.rate) : 0;
    Ptr<ExactChannel> exact;
    Ptr<PointToPointChannel> channel;
    if (!isOne || hasPlaces) {
        exact = CreateObject<ExactChannel>(link.rate, !isOne);
        channel = exact;
    } else {
        channel = CreateObject<PointToPointChannel>();
    }
    channel->SetAttribute("Delay", TimeValue(NanoSeconds(static_cast<int64_t>(link.delay) + correction)));
    for (uint32_t end : {link.a, link.b}) {
        Ptr<PointToPointNetDevice> device = built.devices.at(end);
        device->SetDataRate(DataRate(link.rate));
        device->SetInterframeGap(NanoSeconds(correction));
        if (exact) {
            device->TraceConnectWithoutContext(
                "PhyTxBegin",
                MakeBoundCallback(&OnStart, PeekPointer(device), link.rate, !isOne, 2 * static_cast<int64_t>(end) + 1));
        }
        device->Attach(channel);
    }
    if (exact) {
        exact->SetEnds(built.devices.at(link.a), link.a, link.b);
    }
}

void AddRoutes(const Network& net, Built& built) {
    for (size_t i = 0; i < built.devices.size(); i++) {
        built.ipv4s.at(net.ifaces[i].node)->SetUp(built.indexes[i]);
    }
    for (const Route& route : net.routes) {
        auto table = DynamicCast<Ipv4StaticRouting>(built.ipv4s.at(route.node)->GetRoutingProtocol());
        uint32_t mask = route.length ? 0xffffffffu << (32 - route.length) : 0;
        table->AddNetworkRouteTo(Ipv4Address(route.to), Ipv4Mask(mask), built.indexes.at(route.iface));
    }
}

// A source that makes its next event after each.
class Traffic {
  public:
    Traffic(const Source& source, int64_t place, Built& built)
        : m_source(source),
          m_place(place),
          m_ipv4(built.ipv4s.at(source.node)),
          m_udp(built.udps.at(source.node)),
          m_node(built.nodes.at(source.node)->GetId()),
          m_data(source.size, static_cast<uint8_t>(source.fill)) {
        if (source.kind == "raw") {
            m_device = built.devices.at(source.iface);
        }
    }

    void Plan() {
        bool isRaw = static_cast<bool>(m_device);
        if (m_number >= (isRaw ? m_source.packets.size() : m_source.count)) {
            return;
        }
        uint64_t at = isRaw ? m_source.packets[m_number].at : m_source.start + m_number * m_source.interval;
        g_place = m_place;
        Simulator::ScheduleWithContext(m_node, NanoSeconds(at) - Simulator::Now(), &Traffic::Send, this);
    }

  private:
    void Send() {
        if (m_device) {
            const std::string& octets = m_source.packets[m_number].octets;
            auto packet = Create<Packet>(reinterpret_cast<const uint8_t*>(octets.data()), octets.size());
            m_device->Send(packet, m_device->GetBroadcast(), Ipv4L3Protocol::PROT_NUMBER);
        } else {
            Originate();
        }
        m_number++;
        Plan();
    }

    // Without a socket: it would take the port that it sends from, and answer there.
    void Originate() {
        Ipv4Address to(m_source.to);
        Ptr<Ipv4Route> route = m_ipv4->GetInterfaceForAddress(to) >= 0 ? nullptr : m_ipv4->RouteTo(to);
        if (!route) {
            return;
        }
        // octets that are 0 need no memory in ns-3
        auto packet = m_source.fill ? Create<Packet>(m_data.data(), m_data.size()) : Create<Packet>(m_source.size);
        SocketIpTtlTag ttl;
        ttl.SetTtl(m_source.ttl);
        packet->AddPacketTag(ttl);
        if (m_source.kind == "cbr") {
            m_udp->Send(packet, route->GetSource(), to, m_source.sport, m_source.dport, route);
            return;
        }
        Icmpv4Echo echo;
        echo.SetIdentifier(m_source.ident);
        echo.SetSequenceNumber(static_cast<uint16_t>(m_number));
        echo.SetData(packet);
        Ptr<Packet> message = Create<Packet>();
        message->AddHeader(echo);
        Icmpv4Header header;
        header.SetType(Icmpv4Header::ICMPV4_ECHO);
        header.EnableChecksum();
        message->AddHeader(header);
        message->AddPacketTag(ttl);
        m_ipv4->Send(message, route->GetSource(), to, Icmpv4L4Protocol::PROT_NUMBER, route);
    }

    Source m_source;
    int64_t m_place;
    Ptr<CountingIpv4> m_ipv4;
    Ptr<UdpL4Protocol> m_udp;
    uint32_t m_node;
    std::vector<uint8_t> m_data;
    Ptr<PointToPointNetDevice> m_device;
    uint64_t m_number = 0;
};

void AddTraces(const Network& net, const std::string& folder, Built& built) {
    AllowFiles(net.ifaces.size());
    Config::SetDefault("ns3::PcapFileWrapper::NanosecMode", BooleanValue(true));
    PcapHelper helper;
    for (size_t i = 0; i < net.ifaces.size(); i++) {
        std::string path = folder + "/" + net.ifaces[i].name + ".pcap";
        auto file = helper.CreateFile(path, std::ios::out, PcapHelper::DLT_PPP);
        helper.HookDefaultSink<PointToPointNetDevice>(built.devices[i], "PromiscSniffer", file);
    }
}

Built Build(const Network& net, const Options& options) {
    Built built;
    bool isGuarded = false;
    for (const Source& source : net.sources) {
        isGuarded |= source.kind == "raw";
    }
    for (const NodeLine& line : net.nodes) {
        AddNode(line, built);
    }
    for (const Iface& iface : net.ifaces) {
        AddIface(net, iface, isGuarded, built);
    }
    std::map<uint64_t, bool> isOne;
    for (const Link& link : net.links) {
        if (!isOne.count(link.rate)) {
            isOne[link.rate] = IsOneCorrection(link.rate, net.mtu);
        }
        AddLink(net, link, options.hasPlaces, isOne[link.rate], built);
    }
    AddRoutes(net, built);
    if (options.traces) {
        AddTraces(net, options.traces, built);
    }
    return built;
}

bool ReadOptions(int argc, char** argv, Options& options) {
    for (int i = 1; i < argc; i++) {
        if (!std::strcmp(argv[i], "--traces") && i + 1 < argc) {
            options.traces = argv[++i];
        } else if (!std::strcmp(argv[i], "--places")) {
            options.hasPlaces = true;
        } else {
            options.network = argv[i];
        }
    }
    return options.network;
}

} // namespace

int main(int argc, char** argv) {
    Options options;
    if (!ReadOptions(argc, argv, options)) {
        std::cerr << "usage: compare-ns3 NETWORK [--traces FOLDER] [--places]\n";
        return 2;
    }
    Network net = ReadNetwork(options.network);
    GlobalValue::Bind("ChecksumEnabled", BooleanValue(true));
    if (options.hasPlaces) {
        ObjectFactory factory;
        factory.SetTypeId(PlaceScheduler::GetTypeId());
        Simulator::SetScheduler(factory);
    }
    // scheduled first, and in the first place, so that nothing happens at the time of `stop`
    Simulator::Stop(NanoSeconds(net.stop));
    {
        Built built = Build(net, options);
        std::vector<std::unique_ptr<Traffic>> sources;
        for (const Source& source : net.sources) {
            const int64_t place = static_cast<int64_t>(2 * net.ifaces.size() + sources.size());
            sources.push_back(std::make_unique<Traffic>(source, place, built));
            sources.back()->Plan();
        }
        Simulator::Run();
    }
    Simulator::Destroy();
    return 0;
}
