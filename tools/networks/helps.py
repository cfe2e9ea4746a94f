"""What the help of each word says behind its options: the keys of a SPEC, what importers take, how networks are cut."""

WORDS = {
    "make": """
A SPEC is TOML; examples/*.spec.toml have beside them what is made of them. Times are whole nanoseconds, or texts in
ns, us, ms or s: "5 ms". Rates are whole bits per second, or texts in bit/s, kbit/s, Mbit/s, Gbit/s or Tbit/s; bps,
kbps and so on are read too. Queues are packets, sizes octets. Other ranges are those of a topology. In parentheses is
what holds without the key.

top:
  title         a line for the text's head
  seed          0 to 2^63 - 1, of which random choices follow; without it nothing may be random
  stop, mtu     as in a topology (1 s, 1500)
  prefix        where addresses are taken from ("10.0.0.0/8")
  weight        what paths have the least of: "hops", "delay", "rate" (the sum of 10^15 / rate) or "cost" ("delay")
  spread        true: of equal paths another one for each destination, as in a fat tree
  only_flows    true: routes only to nodes at the ends of flows
  scale         1 to 1,000: sizes and rates are divided by it (1)
  node, link, group, flow    arrays of tables, below
  defaults      tables node, link, host_link (links with a host at an end; else link) and flow: keys for tables that
                do not have them
node:
  name, kind, partition      as in a topology (-, "router", 0)
  ports         UDP ports that are open beside those where flows end
  place         latitude and longitude in degrees, [50.85, 4.35], for a map
  hosts         how many hosts the router has: NAME-h1, NAME-h2 and so on, in its partition (0)
link:
  a, b          names of nodes; several links may join the same two
  rate          (1 Gbit/s)
  delay         (1 ms; of a link to a host 10 us); between two partitions 0 is raised to 1 ns, and a line says so
  queue, queue_octets        (100, none)
  cost          1 to 10^9, for the weight "cost" (1)
group:
  name, hosts, partition, rate, delay, queue, queue_octets, cost      for all its nodes, which are routers, and links
  kind          and its own keys; nodes; which have hosts:
    "line", "ring", "full"   nodes; NAME-1, NAME-2 and so on; all
    "star"      nodes; NAME in the middle, NAME-1 and so on around it; those around
    "grid"      rows, columns; NAME-ROW-COLUMN; all
    "tree"      branches, levels; NAME, below it NAME-1 and so on, below these NAME-1-1 and so on; the lowest level
    "fat-tree"  k, even, 2 to 16; NAME-core-1 and so on, NAME-pP-up-1 and NAME-pP-low-1 and so on in pod P; the low
                ones, k/2 without the key
    "random"    nodes, links; NAME-1 and so on, all joined, by the seed; all
flow:
  name          a name for the table of `network flows` (its number, from 0)
  kind          "cbr" (UDP), "echo" (ping, which is answered), "poisson", "onoff" or "trace" ("cbr")
  from, to      names of nodes, or arrays of them, in which * is any letters: a flow for each two
  among, pairs  names as before; "all": each to each; "next"; "across": each to the one half the list away; "first":
                all to the first; "random": each to a random other, by the seed
  rate, interval             bits per second with headers of 28 octets; or the time between two packets (cbr 1 Mbit/s,
                             echo 100 ms)
  size          octets of data (cbr 1000, echo 56)
  start, stagger             when the first flow begins; how much later each further flow of the table does (0)
  until, count  no packet at or after this time; or how many packets (until nine tenths of stop, so that all arrive)
  dport, sport, ident        the ports of cbr, the identifier of echo (9; 10000 and so on; 0 and so on)
  ttl, fill     (64, 0)
  at            times after start, which rise, at most 65,536, as [0, "1.5 ms"]: one packet at each of them
flow of kind "poisson" or "onoff", or with at:
  rate, packet_rate (packets a second) or interval     of poisson the mean, of onoff the peak
  on, off       of onoff: times; mean times of exponential ones, unless periods is "fixed" ("exponential"). A packet
                goes at the begin of each time on, then one each interval that begins within it
  sizes, weights             instead of size, at most 64, of which each packet takes one at random; 1 to 1,000, how
                             often each size comes beside the others. A rate is then that of the mean size
  seed          of this flow alone: its packets stay as they are when other flows change
flow of kind "trace":
  file          a capture, or a list of lines `time, size`, as 0.0015,200 (seconds, or with a unit; octets of data)
  stretch       what times are multiplied by, 0.000001 to 1,000,000 (1)
  addresses     instead of from and to: which addresses of the capture are which nodes, as
                {"192.0.2.1" = "a", "198.51.100.0/24" = "b"}; the longest prefix decides

What is made:
- An interface is named after its node and the node at the far end: denver-kansas-city. If that is longer than 32
  letters or taken, it is cut or numbered.
- A router and its hosts have addresses of one block, with a size that is a power of two, so that one prefix leads to
  all of them. Blocks follow a tree from the first router, or the SPEC: whichever needs fewer routes. The two ends of a
  link have addresses of different blocks.
- Each node has a route to each other one, by a path of the least weight; of equal delays, the one of fewer links.
  Hosts are never inside a path. A host with one link has a default route. The other tables are as small as
  longest-prefix tables can be, whatever they say of addresses that no interface has.
- The port at which a cbr flow ends is open. Flows go to the first address of a node.
- What is drawn follows from the flow's seed, or else from that of the SPEC and the flow's number; of flows between
  several nodes each has draws of its own. All is computed in whole numbers (SplitMix64; Knuth's algorithm S, section
  3.4.1), and times are rounded to nanoseconds, 1 at least.
- A flow of packets that are drawn or read becomes cbr sources, one for each run of packets of one size at one
  distance, if these have two packets or more in the mean and are not more than the flow's share of the sources that
  are left. Else it becomes raw sources of 1,024 packets, with identifications that count on for each node. More
  packets than fit are refused with what would fit.
- Captures are pcap of either byte order, with microseconds or nanoseconds, and pcapng; of Ethernet, raw IP, PPP,
  loopback or Linux's cooked links. Their packets go as they were taken, but for addresses and checksums. Left out and
  counted are packets that are not whole or not IPv4, longer than the mtu, at the end of the flow or behind it, or
  between unmapped addresses. Of two at one time the second goes 1 ns later. The UDP ports to which they go are opened.
- scale divides all rates of links, limits of queues in octets, and octets of packets with their 28 of headers: these
  have to be multiples of it. rate and size of flows are written as without it, and `network flows` multiplies octets
  again.
""",
    "import": """
The format is recognised by the text and the name of the file. Taken are
  graphml, gml  label; Latitude and Longitude, which become places; of links LinkSpeedRaw (bits per second), LinkSpeed
                with LinkSpeedUnits, or a text such as 10 Gbps or OC-48 in LinkLabel, bandwidth, capacity, rate or
                speed; a delay or latency with its unit
  edges         lines of two names, separated by blanks, tabs, commas or semicolons, and perhaps a rate and a delay
                with units; a number alone is kept as a comment. # begins a comment
  rocketfuel    lines `Town,+Country Town,+Country WEIGHT`; costs of links are 100 times the weights. --latencies has
                the same form with milliseconds, which become delays
  brite         the sections Nodes and Edges; delays are milliseconds, rates Mbit/s

A link between two places without a delay gets that of their distance on the globe, at 5 nanoseconds a metre (light in
fibre), in steps of 10 us. What else a file lacks is in the defaults at the SPEC's end: edit them. Names are put into
the form of names, cut to 26 letters, and numbered if two are the same; comments list the old ones. Of a list of edges,
of Rocketfuel and of directed graphs one link is kept between two nodes; of others all. Links from a node to itself are
left out. Each router gets one host, if there is room, and a flow to another host.
""",
    "routes": """
The array route is replaced, or put in, and nothing else is changed. A comment on the line of a route stays with it, or
moves to the array's end. Addresses may be any: what shares a prefix is put together. A network in pieces, and a flow
that has no path, are refused.
""",
    "partition": """
The values of partition are replaced, or put in. A node weighs the packets of all sources that it is expected to take
and send, followed along the routes, without queues and drops. A link costs the packets that would cross it, and two
messages for each window as long as its lookahead. First the links with the least lookahead are kept from being cut, as
many as leave no part with more than 1.3 times its share. Then METIS cuts what is left, or else Kernighan and Lin's
method in networkx, with shares that are less equal. If that has more than 512 channels, a cut with fewer is looked
for, in which each link costs the same and parts may be as uneven as it takes; the first line says so.

Of each cut link a line has the lookahead, the packets in the whole run, and how many of them are expected in a window.
If a window has fewer events of the whole network than there are channels, partitions wait more than they work. A cut
link without delay gets one of 1 ns, which changes what is simulated; a line says so.
""",
    "show": """
One file, which loads nothing: the network as Graphviz draws it, or else on a circle, and tables of links, flows and
nodes. Routers are boxes, hosts ellipses, partitions colours, links between partitions dashed; the redder a link, the
busier. If half of the routers have a place, they are drawn as on a map, as far as they do not hide each other, and the
others near their neighbours. All numbers follow from what sources send and the routes: nothing is simulated.
""",
    "flows": """
Runs `nullsim report` twice, and sums its sources to flows: a row for each two nodes of each table flow, in the order of
the SPEC. The least and the greatest delay and percentiles (by nearest rank, of `report TOPO delays`) are of all packets
of the flow; the mean is that of the sources' means, each rounded down. With --csv columns are those of `report`, times
in nanoseconds; without it, lost are packets refused or discarded. A topology that has other sources than the SPEC
makes is refused; one with new routes or partitions is not.
""",
    "sweep": """
Makes and runs each choice of the values with each seed, as many at once as there are processors. A KEY is a key of the
SPEC: stop, defaults.link.queue, link.0.rate, flow.web.rate; a member of an array is its number, from 0, or its name.
Values are as in TOML, or texts without quotes; 1..9 are whole numbers. SEEDS=1..20 gives these to the key seed. What is
measured is `flows` (what `network flows --csv` has) or `report` (interfaces and sources of `nullsim report`); without
MEASURE all whole numbers are taken.

It prints comma-separated values: the keys, kind (flow, interface or source), name, measure, runs, mean, low and high.
The last two are the ends of the interval of 95 per cent by Student's t, over the seeds; they are empty for one run.
""",
}
