// A network as dev/compare/plain.py writes it: one line for each thing, words parted by one space, numbers in decimal.
//
//   stop NANOSECONDS            mtu OCTETS              node NAME host|router           port NODE PORT
//   iface NAME NODE ADDRESS QUEUE OCTETS                QUEUE packets may wait, and OCTETS octets, or -1 for any number
//   link IFACE IFACE RATE DELAY                         bits per second, nanoseconds
//   route NODE ADDRESS LENGTH IFACE
//   cbr NODE TO SPORT DPORT SIZE FILL START INTERVAL COUNT TTL
//   echo NODE TO IDENT SIZE FILL START INTERVAL COUNT TTL
//   raw NODE IFACE              and then, for each of its packets:   packet TIME HEXADECIMAL
//
// NODE and IFACE are numbers from 0, in the order of the lines; ADDRESS and TO are numbers of 32 bits.
#pragma once

#include <algorithm>
#include <cstdint>
#include <fstream>
#include <iostream>
#include <string>
#include <sys/resource.h>
#include <utility>
#include <vector>

struct Iface {
    std::string name;
    uint32_t node, address;
    int64_t queue, queueOctets;
};

struct Link {
    uint32_t a, b;
    uint64_t rate, delay;
};

struct Route {
    uint32_t node, to, length, iface;
};

struct RawPacket {
    uint64_t at;
    std::string octets;
};

struct Source {
    std::string kind;
    uint32_t node = 0, to = 0, iface = 0, sport = 0, dport = 0, ident = 0, size = 0, fill = 0, ttl = 64;
    uint64_t start = 0, interval = 1, count = 0;
    std::vector<RawPacket> packets;
};

struct NodeLine {
    std::string name;
    bool isRouter = false;
    std::vector<uint16_t> ports;
};

struct Network {
    uint64_t stop = 0;
    uint32_t mtu = 0;
    std::vector<NodeLine> nodes;
    std::vector<Iface> ifaces;
    std::vector<Link> links;
    std::vector<Route> routes;
    std::vector<Source> sources;
};

// The nanoseconds that a transmission of so many octets takes at a rate in bits per second: rounded up, and at least 1.
inline uint64_t TransmissionTime(uint64_t octets, uint64_t rate) {
    unsigned __int128 bits = static_cast<unsigned __int128>(octets) * 8 * 1000000000;
    uint64_t time = static_cast<uint64_t>((bits + rate - 1) / rate);
    return time ? time : 1;
}

inline Source ReadSource(const std::string& kind, std::istream& in) {
    Source source;
    source.kind = kind;
    in >> source.node;
    if (kind == "raw") {
        in >> source.iface;
        return source;
    }
    in >> source.to;
    if (kind == "cbr") {
        in >> source.sport >> source.dport;
    } else {
        in >> source.ident;
    }
    in >> source.size >> source.fill >> source.start >> source.interval >> source.count >> source.ttl;
    return source;
}

// Reads what is behind the first word of a line.
inline void ReadLine(const std::string& word, std::istream& in, Network& net) {
    if (word == "stop") {
        in >> net.stop;
    } else if (word == "mtu") {
        in >> net.mtu;
    } else if (word == "node") {
        NodeLine& node = net.nodes.emplace_back();
        std::string kind;
        in >> node.name >> kind;
        node.isRouter = kind == "router";
    } else if (word == "port") {
        uint32_t node;
        uint16_t port;
        in >> node >> port;
        net.nodes.at(node).ports.push_back(port);
    } else if (word == "iface") {
        Iface& iface = net.ifaces.emplace_back();
        in >> iface.name >> iface.node >> iface.address >> iface.queue >> iface.queueOctets;
    } else if (word == "link") {
        Link& link = net.links.emplace_back();
        in >> link.a >> link.b >> link.rate >> link.delay;
    } else if (word == "route") {
        Route& route = net.routes.emplace_back();
        in >> route.node >> route.to >> route.length >> route.iface;
    } else if (word == "packet") {
        RawPacket& packet = net.sources.back().packets.emplace_back();
        std::string text;
        in >> packet.at >> text;
        for (size_t at = 0; at + 1 < text.size(); at += 2) {
            packet.octets += static_cast<char>(std::stoi(text.substr(at, 2), nullptr, 16));
        }
    } else {
        net.sources.push_back(ReadSource(word, in));
    }
}

inline Network ReadNetwork(const char* path) {
    Network net;
    std::ifstream in(path);
    std::string word;
    while (in >> word) {
        ReadLine(word, in, net);
    }
    if (!net.stop) {
        std::cerr << "compare: " << path << " is no network\n";
        std::exit(2);
    }
    return net;
}

// As many open files as there are interfaces.
inline void AllowFiles(size_t count) {
    rlimit limit;
    getrlimit(RLIMIT_NOFILE, &limit);
    limit.rlim_cur = std::min<rlim_t>(limit.rlim_max, std::max<rlim_t>(limit.rlim_cur, count + 64));
    setrlimit(RLIMIT_NOFILE, &limit);
}
