# What there is to run, test, build and measure.

SHELL := /bin/bash
.SHELLFLAGS := -euo pipefail -c
MAKEFLAGS += --no-print-directory

# What `make run` answers.
SCRIPT ?= crates/pnuts/stdin

# The proved, optimised program that `make build` leaves, and the one that measures live regions.
PROGRAM := crates/pnuts/out/pnuts
BENCH := crates/pn_bench/out/pn_bench

# The program of which nothing is proved, which `make quick` leaves.
QUICK := out/quick/pnuts

# The program that is installed and packaged, as PNUTS=out/quick/pnuts. Where another one is named, none is proved for it.
PNUTS ?= $(PROGRAM)
PROVED = $(if $(filter $(PROGRAM),$(PNUTS)),build)

# Where `make install` puts it, in the system whose root is DESTDIR, and where `make deb` leaves a package.
PREFIX ?= /usr/local
DESTDIR ?=
DEBS ?= out

# The program of the cases of live regions, of which one is run with each of its allocations refused.
LIVE := crates/test_serving/out/test_serving

# The program that answers many scripts in one input.
SCRIPTS := crates/test_rows/out/test_rows

# What programs are built from. The gate leaves them built as well.
SOURCES := $(shell find crates -name '*.rt')

# The crate whose edits `make edits` tries, and whose definitions `make definitions` prints; none: all crates.
CRATE ?=

# Worked rows that are kept outside the repository, and which of them `make rows` runs.
ROWS ?= ../shared/rows
STAGE ?= notices

# For how many seconds sessions are abused, and for how many the program is fuzzed.
SOAK ?= 60
SECONDS ?= 240

.PHONY: run quick check test edits build licences http install uninstall deb image bench bench-beside checks checks-clients \
	checks-feeds checks-brokers checks-install pictures races fuzz definitions rows toolchain

# Shows the program at work: the replies to the script on standard output. It proves nothing. A program that is current answers
# at once; otherwise one is built as by `make quick`.
run: toolchain
	@bin/program replay "$(SCRIPT)"

# Builds the program with optimisation and without proofs, in two or three minutes, and keeps it while the sources are the same.
quick: toolchain licences
	@bin/program quick > /dev/null
	@echo "an optimised program that is not proved: $(QUICK)"

# What a contributor wants to know before the gate, over a program without proofs: in some ten minutes.
check: toolchain
	@ROWS="$(ROWS)" checks/run before-gate

# The gate: every proof from nothing, the edits that must fail, the program and the tests.
test: toolchain
	@rt ci

# Tries all wrong bodies, and not only those that the gate tries: the prover must refuse each.
edits: build
	@checks/run edits $(CRATE)

# Proves the program, and leaves it built with optimisation.
build: toolchain licences
	@sources=$$(bin/program sum); (cd crates/pnuts && rt run -- replay < /dev/null); bin/program note "$$sources"
	@echo "the proved, optimised program: $(PROGRAM)"

# The programs of the checks, where a source is newer.
$(PROGRAM): $(SOURCES)
	@$(MAKE) build

$(SCRIPTS): $(SOURCES)
	@cd crates/test_rows && rt run < stdin > /dev/null

$(LIVE): $(SOURCES)
	@cd crates/test_serving && rt run < stdin > /dev/null

# Gathers the licences of the kit's libraries that the program links. Without the toolchain those of before stay.
licences:
	@packaging/licences.py out/third-party

# Builds the front for HTTP. It needs Debian's golang-go.
http:
	@packaging/http out
	@echo "the front for HTTP: out/pnuts-http"

# Installs the built program with its pages for man, completions, licences, service, feeds and tools, and the front for HTTP where `make http`
# left one. After a build it needs no toolchain.
install: licences
	@packaging/install "$(PNUTS)" --prefix "$(PREFIX)" --destdir "$(DESTDIR)/"
	@packaging/install --feeds --prefix "$(PREFIX)" --destdir "$(DESTDIR)/"
	@packaging/install --tools --prefix "$(PREFIX)" --destdir "$(DESTDIR)/"
	@if [[ -x out/pnuts-http ]]; then packaging/install --http --prefix "$(PREFIX)" --destdir "$(DESTDIR)/"; fi

# Removes what `make install` installed, but for an environment file that was changed.
uninstall:
	@packaging/install --remove --feeds --prefix "$(PREFIX)" --destdir "$(DESTDIR)/"
	@packaging/install --remove --tools --prefix "$(PREFIX)" --destdir "$(DESTDIR)/"
	@packaging/install --remove --http --prefix "$(PREFIX)" --destdir "$(DESTDIR)/"
	@packaging/install --remove --prefix "$(PREFIX)" --destdir "$(DESTDIR)/"

# Builds the Debian packages of the program, of its feeds, of its tools and of the front for HTTP.
deb: $(PROVED) licences http
	@packaging/deb "$(PNUTS)" "$(DEBS)"

# Makes an image for containers of the packages that `make deb` left, and of Debian's that they need. It needs root, and the network.
image:
	@packaging/image "$(DEBS)" "$(DEBS)/pnuts.oci"

# Measures the built program, and prints tables.
bench: build
	@cd crates/pn_bench && rt run -- $$(< args) < stdin > /dev/null
	@status=0; \
	for it in run rounds sessions streams control copies; do "bench/$$it" "$(PROGRAM)" || status=1; done; \
	for it in live layouts; do "bench/$$it" "$(BENCH)" || status=1; done; \
	bench/instructions "$(PROGRAM)"; \
	exit $$status

# Measures the built program beside a plain Rust program and servers that do nothing, and one that stays beside Redis. Where
# PNUTS=out/quick/pnuts names one that is not proved, it says so.
bench-beside: $(PROVED)
	@bench/beside "$(PNUTS)"
	@bench/stay "$(PNUTS)"

# Brings the built program to each of its ends; talks to its sessions, and misbehaves, where it stays by the thousand, after which it has
# to rest; gives it each limit of a line in all ways; stops it by lines and signals; refuses each of its allocations in turn, and all
# memory; lets each of its reads and writes fail; cuts and damages what it is given; and compares its replies to random scripts with
# those of a plain, slow program, and what it reads with what serde_json reads.
checks: $(PROGRAM) $(SCRIPTS) $(LIVE)
	@checks/run all "$(PROGRAM)" "$(SCRIPTS)" "$(LIVE)" --soak $(SOAK)

# Looks for data races by ThreadSanitizer, in builds without proofs.
races: toolchain
	@checks/run races

# Fuzzes the built program by AFL++, and prints a table. What it finds is kept in fuzz/cases.
fuzz: build
	@fuzz/fuzz "$(PROGRAM)" --seconds $(SECONDS)

# Tests the clients and the front for HTTP against the built program. Those whose language is missing are skipped.
checks-clients: build
	@checks/run clients "$(PROGRAM)"
	@checks/run http-front "$(PROGRAM)"

# Tests the feeds against brokers that are started for it, and with the built program where it is there; brokers that are missing are skipped.
checks-feeds:
	@PNUTS="$(realpath $(PROGRAM))" feeds/test

# Tests the feeds, gives 200,000 images through each, asks through a proxy, and runs both examples and the runbooks, with real brokers, a
# database and proxies. Debian's packages: redis-server python3-redis python3-hiredis rabbitmq-server python3-pika
# python3-confluent-kafka postgresql python3-psycopg2 haproxy openssl prometheus python3-prometheus-client socat curl iproute2
# util-linux. What misses one of them says so, and is skipped.
checks-brokers: build
	@for it in brokers proxy publishing; do checks/run "$$it" "$(PROGRAM)"; done

# Draws the pictures of docs/pictures. It needs Debian's graphviz and gnuplot-nox.
pictures:
	@cd docs/pictures; for it in *.dot; do dot -Tsvg -o "$${it%.dot}.svg" "$$it"; done
	@cd docs/pictures; for it in delay growth loading reads turns; do gnuplot -e "picture = \"$$it\"" pictures.gnuplot > "$$it.svg"; done

# Installs and removes the program, and its Debian package in a system that is made for it; makes an image, runs and stops containers of
# it, and compares the manifest for Kubernetes with its schema, for which python3-kubernetes is needed. It needs root and the network.
checks-install: $(PROVED)
	@checks/run install "$(PNUTS)"
	@checks/run image "$(PNUTS)"
	@checks/run manifest

# Prints the definitions that contracts cite, each with its comment: of all crates, or of one.
definitions:
	@checks/run definitions $(CRATE)

# Runs the worked rows through the built program, where they are at hand.
rows:
	@if [[ -x "$(ROWS)/check" ]]; then \
		$(MAKE) build && "$(ROWS)/check" "$(PROGRAM)" "$(STAGE)"; \
	else \
		echo "make rows: skipped, for there is no $(ROWS)/check"; \
	fi

toolchain:
	@command -v rt > /dev/null || { echo "make: the toolchain is missing: there is no command rt on the PATH" >&2; exit 1; }
