# `make help` lists the targets.

.PHONY: all help try run bench compare cases run-cases check-docs check-edge check-first-day \
  check-parts check-frames check-links check-network check-pcap check-series check-tools check-worlds cut-connections \
  deep demo theory tutorial words test gate-times install uninstall dist clean toolchain

# The topology and the interface of `make try` and `make run`; the folder of `make cases`; how many jobs `make` proves
# with; which steps of `make deep`; whether `make compare` writes the times of a busy host; which program `make install`
# installs, and where it puts it and all else (DESTDIR stands before it, for those who make packages).
TOPO = examples/duo.toml
IFACE =
CASES =
JOBS =
STEPS =
ANYWAY =
PROGRAM = bin/nullsim
PREFIX = /usr/local
DESTDIR =

all: bin/nullsim

# dev/check/docs compares the stars and the packages with what the scripts import.
define HELP
Build
  make                   proves what the program needs, and builds bin/nullsim; the first time some 80 processor
                         minutes, and it says what is left (JOBS=N: N jobs at a time)
  make clean             removes what was built
Try it
  make try               runs the program before it is proved, in some 5 processor minutes: a trace in hexadecimal and
                         in words, and a report; TOPO=FILE and IFACE=NAME choose what it shows
  make run               builds it and shows a trace in hexadecimal; TOPO and IFACE as for make try
  make demo *            eight processes whose connections are cut again and again, one of which is killed and begun
                         again; half a minute
  make tutorial *        runs the commands of docs/TUTORIAL.md, and compares what they print (graphviz metis
                         python3-matplotlib python3-networkx)
Check
  make test              the gate: proves everything from nothing and runs every test; the last line is N passed, M
                         failed
  make words             lists names that two crates define, one of which sees the other; the gate refuses a new one
  make check-tools       tries the scripts on fixtures, and reads them with flake8 (flake8)
  make check-docs *      checks that facts, links and names in the documents are right, and runs the commands of
                         README (graphviz metis python3-matplotlib python3-networkx)
  make check-edge *      checks the help, and what is printed of faults on a terminal
  make check-first-day * runs the commands of a new user's first day, and compares what comes out of each (graphviz metis
                         python3-matplotlib python3-networkx tcpdump)
  make check-parts *     tries links, files that were left and other processes where trace files are written
  make check-series *    compares steps, ways and delays with the trace files
  make check-frames      compares the reader of frames with a model of its own over generated streams
  make check-links *     breaks the connections of replicas at random octets, with ten thousand seeds, and certifies
                         what they come to
  make check-worlds      tries replicas in a million worlds of several machines, each drawn from a seed
  make check-network *   runs the tests of tools/network, tools/launch and the Python package (python3-networkx metis
                         graphviz python3-numpy python3-pandas)
  make check-pcap *      reads the traces of the examples (tshark, or else tcpdump)
  make cases             compares the program with cases of an independent model; CASES=FOLDER: with those of a folder
  make run-cases *       runs the partitions of many topologies at once, and has each file verified
  make theory *          draws and runs queues, and compares waits, losses and bounds with their formulas; two minutes
                         (python3-matplotlib)
  make cut-connections * cuts the connection of two nodes a thousand times, and compares their files with those of the
                         one event list
  make deep *            all that is too long for the gate: all checks, attacks and planted bugs; STEPS=WORD: some of
                         it
Measure
  make bench *           times it on generated topologies, and event lists and knowledge alone (docs/BENCH.md)
  make compare *         compares traces, speed and memory with ns-3 (docs/COMPARED.md) (ns3 libns3-dev g++);
                         ANYWAY=1: on a busy host too
  make gate-times        the gate, with the processor minutes of each crate (docs/CONTRIBUTING.md)
Install
  make install           puts nullsim, nullsim-launch, nullsim-network, nullsim-page and nullsim-plot, the Python package,
                         the manual page, the completion for bash, the documents and the examples below PREFIX (/usr/local)
  make uninstall         removes them
  make dist              makes an archive and a Debian package of the same files in dist/, with their checksums
All need the Rattle toolchain (rt) on PATH and python3 of 3.9 or later, and those with a star python3 of 3.11 or later.
In parentheses are packages of Debian without which something is passed over. None needs a network.
endef
export HELP

help:
	@echo "$$HELP"

toolchain:
	@command -v rt >/dev/null 2>&1 || { echo "nullsim: the Rattle toolchain is missing: put its command rt on PATH" >&2; exit 1; }

SOURCES := crates.txt $(shell find crates -name out -prune -o -name '*_tests' -prune -o -name '*_cases' -prune -o \
  \( -name '*.rt' -o -name '*.antt' \) -print)

bin/nullsim bin/nm_bench bin/nm_worlds: bin/%: $(SOURCES) | toolchain
	@dev/build $* $@ $(JOBS)

try: toolchain
	@dev/try '$(TOPO)' $(IFACE)

run: bin/nullsim
	@bin/nullsim onehex '$(TOPO)' $(IFACE)

bench: bin/nullsim bin/nm_bench
	@dev/bench/bench

compare: bin/nullsim
	@dev/compare/compare $(if $(ANYWAY),--anyway)

cases: bin/nullsim
	@dev/check/cases $(if $(CASES),'$(CASES)')

run-cases: bin/nullsim
	@dev/check/runs

check-docs check-edge check-first-day check-network check-parts check-pcap check-series: check-%: bin/nullsim
	@dev/check/$*

theory: bin/nullsim
	@dev/check/theory

tutorial: bin/nullsim
	@dev/check/first-day --tutorial

check-frames check-links: check-%: bin/nm_bench
	@dev/check/$*

check-worlds: bin/nm_worlds
	@dev/check/worlds

check-tools:
	@dev/check/tools

words:
	@dev/words --all

cut-connections: bin/nullsim
	@dev/attack/lost-peers cut

demo: bin/nullsim
	@dev/demo/demo

deep: bin/nullsim bin/nm_bench bin/nm_worlds
	@dev/deep $(STEPS)

# How many checks `rt ci` makes side by side.
test gate-times: export RT_JOBS ?= $(shell dev/gate-times --jobs)

test: toolchain
	@dev/words
	@dev/check/docs --still
	@dev/check/tools --fixtures
	@rt ci

gate-times: toolchain
	@dev/gate-times --write

INSTALLED = $(DESTDIR)$(PREFIX)
MANUAL = $(INSTALLED)/share/man/man1/nullsim.1
COMPLETION = $(INSTALLED)/share/bash-completion/completions/nullsim
TOOLS = $(INSTALLED)/share/nullsim/tools
# Where Debian's Python finds packages: below /usr for all its versions, below /usr/local for that which is there.
PYTHON = $(INSTALLED)/lib/python3$(if $(filter /usr/local,$(PREFIX)),$(DEBIANS))/dist-packages
DEBIANS = $(shell "$$(command -v /usr/bin/python3 || command -v python3)" -c 'import sys; print(".%d" % sys.version_info[1])')
DOCUMENTS = $(INSTALLED)/share/doc/nullsim

install: $(PROGRAM)
	@install -D -m 755 '$(PROGRAM)' '$(INSTALLED)/bin/nullsim'
	@install -D -m 644 docs/nullsim.1 '$(MANUAL)'
	@install -D -m 644 tools/completion/nullsim '$(COMPLETION)'
	@for tool in launch network; do ln -sf nullsim '$(COMPLETION)'-$$tool; done
	@install -D -m 755 -t '$(TOOLS)' tools/launch tools/network tools/page tools/plot
	@install -D -m 644 -t '$(TOOLS)/launching' tools/launching/*.py tools/launching/*.sh
	@install -D -m 644 -t '$(TOOLS)/networks' tools/networks/*.py
	@install -D -m 644 -t '$(TOOLS)/nullsim' tools/nullsim/*.py
	@install -d '$(PYTHON)' && ln -sfn ../../../share/nullsim/tools/nullsim '$(PYTHON)/nullsim'
	@for tool in launch network page plot; do ln -sf ../share/nullsim/tools/$$tool '$(INSTALLED)'/bin/nullsim-$$tool; done
	@install -D -m 644 -t '$(DOCUMENTS)' README.md LICENSE CHANGELOG.md CITATION.cff
	@install -D -m 644 -t '$(DOCUMENTS)/docs' docs/*.md
	@install -D -m 644 -t '$(DOCUMENTS)/docs/pictures' docs/pictures/*
	@install -D -m 644 -t '$(DOCUMENTS)/examples' examples/*
	@echo 'installed $(INSTALLED)/bin/nullsim, and nullsim-launch, nullsim-network, nullsim-page and nullsim-plot beside it'
	@$(if $(filter /usr /usr/local,$(PREFIX)),:,echo 'for Python: export PYTHONPATH=$(PYTHON)')

uninstall:
	@rm -f '$(INSTALLED)'/bin/nullsim '$(INSTALLED)'/bin/nullsim-launch '$(INSTALLED)'/bin/nullsim-network \
	  '$(INSTALLED)'/bin/nullsim-page '$(INSTALLED)'/bin/nullsim-plot '$(MANUAL)' '$(COMPLETION)' \
	  '$(COMPLETION)-launch' '$(COMPLETION)-network' \
	  '$(INSTALLED)'/lib/python3*/dist-packages/nullsim
	@rm -rf '$(INSTALLED)/share/nullsim' '$(DOCUMENTS)'

dist: bin/nullsim
	@dev/dist dist

clean:
	@rm -rf bin dist crates/*/out
	@find dev tools -name __pycache__ -prune -exec rm -rf {} +
