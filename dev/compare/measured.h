// What compare-loop --measure measures, as `nullsim report` does: queues and use of each interface, and what became of
// the packets of each source, and how late. A packet's tag is kept beside it, in queues of tags that follow the links.
#pragma once

#include "network.h"

#include <cstdlib>
#include <vector>

// Sees nothing.
struct Nobody {
    explicit Nobody(const Network&) {}
    void Makes(uint32_t, uint64_t) {}
    void Arrives(uint32_t) {}
    void Delivers(size_t, uint64_t) {}
    void Loses() {}
    void Starts(uint32_t, size_t, uint64_t) {}
    void Sends(uint32_t) {}
    void Waits(uint32_t, size_t, uint64_t, uint64_t) {}
    void GoesOn(uint32_t, size_t, uint64_t, uint64_t) {}
    void Print() const {}
};

// How much waits at an interface, over time: packets, or octets.
class Level {
  public:
    void Change(uint64_t waiting, uint64_t now) {
        m_waited += static_cast<unsigned __int128>(m_waiting) * (now - m_since);
        m_since = now;
        m_waiting = waiting;
        m_longest = std::max(m_longest, waiting);
        m_recent = std::max(m_recent, waiting);
    }

    uint64_t Longest() const { return m_longest; }

  private:
    unsigned __int128 m_waited = 0;
    uint64_t m_since = 0, m_waiting = 0, m_longest = 0, m_recent = 0;
};

// For how long an interface transmits. The times of its last two sizes are kept.
class Usage {
  public:
    explicit Usage(uint64_t rate) : m_rate(rate) {}

    void Start(size_t octets, uint64_t now, uint64_t left) {
        if (octets != m_last.octets) {
            std::swap(m_last, m_other);
        }
        if (octets != m_last.octets) {
            m_last = Taken{octets, TransmissionTime(octets, m_rate)};
        }
        m_lastBusy = std::min(m_last.time, left);
        m_busy += m_lastBusy;
        m_first = m_hasStarted ? m_first : now;
        m_hasStarted = true;
        m_start = now;
    }

    uint64_t Busy() const { return m_busy; }

  private:
    struct Taken {
        size_t octets = 0;
        uint64_t time = 0;
    };

    uint64_t m_rate, m_busy = 0, m_lastBusy = 0, m_first = 0, m_start = 0;
    bool m_hasStarted = false;
    Taken m_last, m_other;
};

// How often each delay occurred: rounded down to its eight highest bits once there are more than 1,024.
class Delays {
  public:
    void Add(uint64_t delay) {
        Note(m_rows, m_isRounded ? Rounded(delay) : delay, 1);
        m_least = m_count ? std::min(m_least, delay) : delay;
        m_greatest = std::max(m_greatest, delay);
        m_total += delay;
        m_differences += m_count ? std::max(delay, m_previous) - std::min(delay, m_previous) : 0;
        m_previous = delay;
        m_count++;
        if (!m_isRounded && m_rows.size() > 1024) {
            std::vector<Row> all;
            for (const Row& row : m_rows) {
                Note(all, Rounded(row.delay), row.times);
            }
            m_rows = std::move(all);
            m_isRounded = true;
        }
    }

    uint64_t Count() const { return m_count; }
    uint64_t Total() const { return static_cast<uint64_t>(m_total); }

  private:
    struct Row {
        uint64_t delay, times;
    };

    static uint64_t Rounded(uint64_t delay) {
        int bits = delay ? 64 - __builtin_clzll(delay) : 0;
        return bits <= 8 ? delay : delay - delay % (uint64_t(1) << (bits - 8));
    }

    static void Note(std::vector<Row>& rows, uint64_t delay, uint64_t times) {
        auto place = std::lower_bound(rows.begin(), rows.end(), delay,
                                      [](const Row& row, uint64_t wanted) { return row.delay < wanted; });
        if (place != rows.end() && place->delay == delay) {
            place->times += times;
        } else {
            rows.insert(place, Row{delay, times});
        }
    }

    std::vector<Row> m_rows;
    bool m_isRounded = false;
    uint64_t m_count = 0, m_least = 0, m_greatest = 0, m_previous = 0;
    unsigned __int128 m_total = 0, m_differences = 0;
};

class Measurements {
  public:
    explicit Measurements(const Network& net) : m_stop(net.stop), m_flows(net.sources.size()) {
        for (size_t i = 0; i < net.ifaces.size(); i++) {
            m_seen.push_back(Seen{Level(), Level(), Usage(1), Line(), 0, 0});
        }
        for (const Link& link : net.links) {
            m_seen.at(link.a).usage = m_seen.at(link.b).usage = Usage(link.rate);
            m_seen.at(link.a).far = link.b;
            m_seen.at(link.b).far = link.a;
        }
    }

    // A source makes a packet.
    void Makes(uint32_t source, uint64_t now) {
        if (m_spare.empty()) {
            m_hand = static_cast<Tag*>(std::malloc(sizeof(Tag)));
        } else {
            m_hand = m_spare.back();
            m_spare.pop_back();
        }
        *m_hand = Tag{source, m_flows[source].sent++, now};
    }

    // A packet leaves its link.
    void Arrives(uint32_t iface) { m_hand = m_seen[m_seen[iface].far].line.Pop(); }

    void Delivers(size_t octets, uint64_t now) {
        Flow& flow = m_flows[m_hand->source];
        flow.delivered++;
        flow.octets += octets;
        flow.ended = now;
        flow.delays.Add(now - m_hand->at);
        m_spare.push_back(m_hand);
    }

    void Loses() {
        m_flows[m_hand->source].lost++;
        m_spare.push_back(m_hand);
    }

    // A transmission starts.
    void Starts(uint32_t iface, size_t octets, uint64_t now) {
        m_seen[iface].usage.Start(octets, now, m_stop - now);
    }

    // It is that of a packet which has not waited.
    void Sends(uint32_t iface) { m_seen[iface].line.Push(m_hand); }

    void Waits(uint32_t iface, size_t packets, uint64_t octets, uint64_t now) {
        Turn(m_seen[iface], packets, octets, now);
        m_seen[iface].line.Push(m_hand);
        m_seen[iface].waiting++;
    }

    // The first packet that waits goes on.
    void GoesOn(uint32_t iface, size_t packets, uint64_t octets, uint64_t now) {
        Turn(m_seen[iface], packets, octets, now);
        m_seen[iface].waiting--;
    }

    void Print() const {
        uint64_t delivered = 0, delay = 0, busy = 0, longest = 0;
        for (const Flow& flow : m_flows) {
            delivered += flow.delays.Count();
            delay += flow.delays.Total();
        }
        for (const Seen& seen : m_seen) {
            busy += seen.usage.Busy();
            longest = std::max(longest, seen.packets.Longest());
        }
        std::cout << "delays " << delivered << " of " << delay << " ns\nbusy " << busy << " ns\nlongest " << longest
                  << "\n";
    }

  private:
    struct Tag {
        uint32_t source;
        uint64_t number, at;
    };

    // The tags of the packets on a link and, behind them, of those that wait for it: a ring.
    class Line {
      public:
        void Push(Tag* tag) {
            if (m_count == m_tags.size()) {
                Grow();
            }
            size_t place = m_head + m_count++;
            m_tags[place < m_tags.size() ? place : place - m_tags.size()] = tag;
        }

        Tag* Pop() {
            Tag* tag = m_tags[m_head];
            m_head = m_head + 1 < m_tags.size() ? m_head + 1 : 0;
            m_count--;
            return tag;
        }

      private:
        void Grow() {
            std::vector<Tag*> all(std::max<size_t>(4, 2 * m_tags.size()));
            for (size_t place = 0; place < m_count; place++) {
                all[place] = m_tags[(m_head + place) % m_tags.size()];
            }
            m_tags.swap(all);
            m_head = 0;
        }

        std::vector<Tag*> m_tags;
        size_t m_head = 0, m_count = 0;
    };

    struct Seen {
        Level packets, octets;
        Usage usage;
        Line line;
        size_t waiting;
        uint32_t far;
    };

    struct Flow {
        uint64_t sent = 0, delivered = 0, lost = 0, octets = 0, ended = 0;
        Delays delays;
    };

    static void Turn(Seen& seen, size_t packets, uint64_t octets, uint64_t now) {
        seen.packets.Change(packets, now);
        seen.octets.Change(octets, now);
    }

    uint64_t m_stop;
    std::vector<Seen> m_seen;
    std::vector<Flow> m_flows;
    std::vector<Tag*> m_spare;
    Tag* m_hand = nullptr;
};
