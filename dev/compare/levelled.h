// What levels ns-3 with nullsim's rules (docs/RULES.md): small subclasses of ns-3's classes, each with the difference
// that it takes away.
#pragma once

#include "network.h"

#include <ns3/core-module.h>
#include <ns3/internet-module.h>
#include <ns3/network-module.h>
#include <ns3/point-to-point-module.h>
#include <ns3/traffic-control-module.h>

#include <map>
#include <tuple>

namespace ns3 {

// The place of the next event that is put into the event list. Of the events of one nanosecond, those with lesser
// places come first: the arrivals at interface i have place 2i, its completions 2i + 1, source j has 2I + j of I
// interfaces, and the end of the run comes before all.
inline int64_t g_place = -1;

// ns-3 does events of one nanosecond in the order in which they were put into the list; this list does them by place.
class PlaceScheduler : public Scheduler {
  public:
    static TypeId GetTypeId() {
        static TypeId id = TypeId("ns3::PlaceScheduler").SetParent<Scheduler>().AddConstructor<PlaceScheduler>();
        return id;
    }

    void Insert(const Event& event) override {
        m_events.emplace(std::make_tuple(event.key.m_ts, g_place, event.key.m_uid), event);
    }

    bool IsEmpty() const override { return m_events.empty(); }
    Event PeekNext() const override { return m_events.begin()->second; }

    Event RemoveNext() override {
        Event event = m_events.begin()->second;
        m_events.erase(m_events.begin());
        return event;
    }

    void Remove(const Event& event) override {
        for (auto it = m_events.begin(); it != m_events.end(); ++it) {
            if (it->second.key.m_uid == event.key.m_uid) {
                m_events.erase(it);
                return;
            }
        }
    }

  private:
    std::map<std::tuple<uint64_t, int64_t, uint32_t>, Event> m_events;
};

// The octets of the PPP header, which nullsim has not.
const uint32_t PPP_OCTETS = 2;

// What is to be added to ns-3's time for a packet with its PPP header, so that it is nullsim's time for the packet
// without. It is negative.
inline int64_t TimeCorrection(uint32_t octetsWithPpp, uint64_t rate) {
    int64_t theirs = DataRate(rate).CalculateBytesTxTime(octetsWithPpp).GetNanoSeconds();
    return static_cast<int64_t>(TransmissionTime(octetsWithPpp - PPP_OCTETS, rate)) - theirs;
}

// A channel whose arrivals come at nullsim's time, and in their place. It is used where one correction does not serve
// packets of all lengths, or where places are asked for.
class ExactChannel : public PointToPointChannel {
  public:
    ExactChannel(uint64_t rate, bool isCorrected) : m_rate(rate), m_isCorrected(isCorrected) {}

    void SetEnds(Ptr<NetDevice> a, uint32_t numberOfA, uint32_t numberOfB) {
        m_a = PeekPointer(a);
        m_numberOfA = numberOfA;
        m_numberOfB = numberOfB;
    }

    bool TransmitStart(Ptr<const Packet> p, Ptr<PointToPointNetDevice> src, Time time) override {
        g_place = 2 * static_cast<int64_t>(PeekPointer(src) == m_a ? m_numberOfB : m_numberOfA);
        if (m_isCorrected) {
            time += NanoSeconds(TimeCorrection(p->GetSize(), m_rate));
        }
        return PointToPointChannel::TransmitStart(p, src, time);
    }

  private:
    uint64_t m_rate;
    bool m_isCorrected;
    NetDevice* m_a = nullptr;
    uint32_t m_numberOfA = 0, m_numberOfB = 0;
};

// Called where a transmission starts, before ns-3 computes when it is complete: sets the completion's time, and its
// place.
inline void OnStart(PointToPointNetDevice* device, uint64_t rate, bool isCorrected, int64_t place,
                    Ptr<const Packet> packet) {
    g_place = place;
    if (isCorrected) {
        device->SetInterframeGap(NanoSeconds(TimeCorrection(packet->GetSize(), rate)));
    }
}

// A drop-tail queue for `queue = 0`, with which ns-3's would drop packets that are offered to an idle device too, and
// for a limit in octets: what counts is the octets that wait, without PPP headers.
class WaitQueue : public Queue<Packet> {
  public:
    WaitQueue(int64_t packets, int64_t octets) : m_packets(packets), m_octets(octets) {
        SetMaxSize(QueueSize(QueueSizeUnit::PACKETS, 100000));
    }

    bool Enqueue(Ptr<Packet> packet) override {
        int64_t waiting = GetNPackets();
        int64_t octets = GetNBytes() + packet->GetSize() - PPP_OCTETS * (waiting + 1);
        if (m_isBusy && (waiting >= m_packets || (m_octets >= 0 && octets > m_octets))) {
            DropBeforeEnqueue(packet);
            return false;
        }
        return DoEnqueue(GetContainer().end(), packet);
    }

    Ptr<Packet> Dequeue() override { return DoDequeue(GetContainer().begin()); }
    Ptr<Packet> Remove() override { return DoRemove(GetContainer().begin()); }
    Ptr<const Packet> Peek() const override { return DoPeek(GetContainer().begin()); }
    void OnBegin(Ptr<const Packet>) { m_isBusy = true; }
    void OnEnd(Ptr<const Packet>) { m_isBusy = false; }

  private:
    int64_t m_packets, m_octets;
    bool m_isBusy = false;
};

// The martians of docs/RULES.md.
inline bool IsMartian(uint32_t address) {
    return address >> 24 == 0 || address >> 24 == 127 || address >> 28 >= 14;
}

// IPv4 that numbers what a node originates by one counter: ns-3 has a counter for each source, destination and
// protocol. An echo reply has type of service 0, and nothing is originated to an address of the node itself or to a
// martian.
class CountingIpv4 : public Ipv4L3Protocol {
  public:
    static TypeId GetTypeId() {
        static TypeId id = TypeId("ns3::CountingIpv4").SetParent<Ipv4L3Protocol>().AddConstructor<CountingIpv4>();
        return id;
    }

    TypeId GetInstanceTypeId() const override { return GetTypeId(); }

    void Send(Ptr<Packet> packet, Ipv4Address source, Ipv4Address destination, uint8_t protocol,
              Ptr<Ipv4Route> route) override {
        if (GetInterfaceForAddress(destination) >= 0 || IsMartian(destination.Get())) {
            return;
        }
        route = route ? route : RouteTo(destination);
        if (!route) {
            return;
        }
        packet = protocol == Icmpv4L4Protocol::PROT_NUMBER ? WithTtlAsItCame(packet) : packet;
        SocketIpTtlTag ttl;
        Ipv4Header header;
        header.SetTtl(packet->RemovePacketTag(ttl) ? ttl.GetTtl() : 64);
        header.SetSource(source);
        header.SetDestination(destination);
        header.SetProtocol(protocol);
        header.SetPayloadSize(packet->GetSize());
        header.SetMayFragment();
        header.SetIdentification(m_identification++);
        SendWithHeader(packet, header, route);
    }

    Ptr<Ipv4Route> RouteTo(Ipv4Address destination) {
        Ipv4Header header;
        header.SetDestination(destination);
        Socket::SocketErrno error;
        return GetRoutingProtocol()->RouteOutput(nullptr, header, nullptr, error);
    }

  private:
    // A time exceeded quotes the header with the TTL that ns-3 lowered to 0: here it is 1 again, as it came. With it
    // the quoted checksum goes down by as much as the TTL's word goes up, so that the message's checksum stays.
    static Ptr<Packet> WithTtlAsItCame(Ptr<Packet> message) {
        const uint32_t quote = 8, ttl = quote + 8, checksum = quote + 10;
        std::vector<uint8_t> octets(message->GetSize());
        message->CopyData(octets.data(), octets.size());
        if (octets.size() < quote + 20 || octets[0] != Icmpv4Header::ICMPV4_TIME_EXCEEDED || octets[ttl] != 0) {
            return message;
        }
        octets[ttl] = 1;
        // one's complement: what goes below 0 comes around
        int32_t sum = (octets[checksum] << 8 | octets[checksum + 1]) - 0x100;
        sum = sum < 0 ? sum + 0xffff : sum;
        octets[checksum] = static_cast<uint8_t>(sum >> 8);
        octets[checksum + 1] = static_cast<uint8_t>(sum);
        return Create<Packet>(octets.data(), octets.size());
    }

    uint16_t m_identification = 0;
};

// Whether ns-3 can read a packet: it does not test the lengths of headers before it reads on, which may end the
// program. Martian destinations are held back here too. Used where there are raw packets.
inline bool IsReadable(const Ipv4L3Protocol& ipv4, Ptr<const Packet> packet) {
    uint8_t head[20];
    uint32_t size = packet->GetSize();
    if (size < 20) {
        return false;
    }
    packet->CopyData(head, 20);
    uint32_t length = 4 * (head[0] & 15), total = head[2] << 8 | head[3];
    uint32_t to = static_cast<uint32_t>(head[16]) << 24 | head[17] << 16 | head[18] << 8 | head[19];
    if (head[0] >> 4 != 4 || length < 20 || length > size || total < length || total > size || IsMartian(to)) {
        return false;
    }
    // a message of ICMP or UDP for the node itself without a whole header of its own
    bool isMessage = head[9] == Icmpv4L4Protocol::PROT_NUMBER || head[9] == UdpL4Protocol::PROT_NUMBER;
    return !(isMessage && total - length < 8 && ipv4.GetInterfaceForAddress(Ipv4Address(to)) >= 0);
}

inline bool ReceiveIfReadable(Ptr<CountingIpv4> ipv4, Ptr<NetDevice> device, Ptr<const Packet> packet,
                              uint16_t protocol, const Address& from) {
    if (IsReadable(*ipv4, packet)) {
        ipv4->Receive(device, packet, protocol, from, device->GetAddress(), NetDevice::PACKET_HOST);
    }
    return true;
}

} // namespace ns3
