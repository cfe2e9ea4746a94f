"""The limits of the format and of this tool, each with its unit. docs/FORMATS.md has those of the format."""

# How many of each a topology text may have.
NODES = 1_024
IFACES = 4_096
LINKS = 2_048
ROUTES = 65_536
NODE_ROUTES = 1_024
SOURCES = 1_024
CHANNELS = 512
PARTITIONS = 64
NODE_PORTS = 64

# Letters of a name.
NAME_LENGTH = 32

# Nanoseconds.
STOP = (1, 10**15)
START = (0, 10**15)
DELAY = (0, 10**12)
INTERVAL = (1, 10**12)
# A link between two partitions has at least this delay: without one, neither could go ahead of the other.
CUT_DELAY = 1

# Bits per second.
RATE = (1_000, 10**12)

# Octets, packets, numbers.
MTU = (576, 65_535)
QUEUE = (0, 10_000)
QUEUE_OCTETS = (0, 655_350_000)
COUNT = (0, 10**9)
PORT = (0, 65_535)
TTL = (1, 255)
FILL = (0, 255)
SEED = (0, 2**63 - 1)
# Of an IPv4 header and a header of UDP or ICMP together.
HEADERS = 28

# Packets of a raw source.
RAW_PACKETS = 1_024

# Of a flow by chance: its sizes, the weight of each, and times that are listed.
SIZES = 64
WEIGHT = (1, 1_000)
LISTED = 65_536
# What sizes and rates are divided by.
SCALE = (1, 1_000)

# What is read at most, in octets: as the program.
TEXT_OCTETS = 16_777_216

# Groups.
GROUP_NODES = 1_024
FAT_TREE = (2, 16)
HOSTS = 1_023

# Light in fibre takes 5 nanoseconds a metre: two thirds of its speed in nothing.
FIBRE_NANOSECONDS_A_METRE = 5
EARTH_RADIUS_METRES = 6_371_000
