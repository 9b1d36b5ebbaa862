# The commands of this repository. `make help` lists them.
.PHONY: help run build prove test edits bench bench-lock page-test soak audit install uninstall dist

# How many crates `make prove` checks side by side. Each takes up to 6 GB of memory.
JOBS ?= 3

run: ## runs the worked example, with nothing proved
	@echo "The example runs as it stands, with nothing proved: make test proves it."
	cd crates/heapdbg && rt try -- run < stdin

help:
	@sed -n 's/^\([a-z-]*\):[^#]*## \(.*\)/\1\t\2/p' Makefile | expand -t 12

# Leaves the proved programs in bin/.
build: prove ## proves the programs, and leaves them as bin/heapdbg and bin/heapdbg-import
	cd crates/heapdbg && rt run -- run < /dev/null
	install -D crates/heapdbg/out/heapdbg bin/heapdbg
	cd crates/hprof_import && rt run -- data/small.hprof /dev/null
	install -D crates/hprof_import/out/hprof_import bin/heapdbg-import

prove: ## proves all crates, JOBS at a time
	rt all check --jobs $(JOBS)

# Proves, tests and checks everything. What stands after `rt ci` prints nothing where all is well, and looks at the programs that
# it left. The first of them becomes bin/heapdbg, and the converter of dumps bin/heapdbg-import.
test: ## proves everything, tries wrong bodies, and tests and checks the program
	@bash scripts/dist.sh begin
	cmp examples/point.session crates/heapdbg/stdin
	python3 checks/edits.py fit
	python3 checks/map.py
	python3 checks/said.py
	python3 checks/headline.py
	python3 checks/rows.py
	python3 checks/no_memory.py
	python3 scripts/page.py fit
	python3 scripts/order.py fit
	python3 checks/house.py fit
	rt ci
	@python3 checks/growths.py crates/heapdbg/out/heapdbg
	@python3 checks/costs.py crates/heapdbg/out/heapdbg
	@python3 checks/cases.py crates/heapdbg/out/heapdbg crates/heapdbg/out/heapdbg.by-rattle
	@python3 checks/streams.py crates/heapdbg/out/heapdbg crates/heapdbg/out/heapdbg.by-rattle
	@python3 checks/model crates/heapdbg/out/heapdbg crates/heapdbg/out/heapdbg.by-rattle
	@python3 checks/hunt.py crates/heapdbg/out/heapdbg crates/heapdbg/out/heapdbg.by-rattle
	@python3 checks/program crates/heapdbg/out/heapdbg crates/heapdbg/out/heapdbg.by-rattle
	@python3 checks/sockets.py crates/heapdbg/out/heapdbg
	@python3 checks/dumping.py crates/heapdbg/out/heapdbg
	@python3 checks/serving.py crates/heapdbg/out/heapdbg
	@python3 checks/strangers.py crates/heapdbg/out/heapdbg
	@python3 checks/staying.py crates/heapdbg/out/heapdbg
	@python3 checks/page crates/heapdbg/out/heapdbg
	@QUIET=1 SECONDS=5 python3 checks/soak.py crates/heapdbg/out/heapdbg
	@QUIET=1 SECONDS=5 python3 checks/hostile.py crates/heapdbg/out/heapdbg
	@python3 clients/python/test_heapdbg.py crates/heapdbg/out/heapdbg
	@python3 clients/python/test_recorder.py crates/heapdbg/out/heapdbg
	@python3 checks/recording.py crates/heapdbg/out/heapdbg
	@python3 checks/c_client.py crates/heapdbg/out/heapdbg
	@python3 checks/importing.py crates/heapdbg/out/heapdbg crates/hprof_import/out/hprof_import
	@python3 checks/visualvm crates/heapdbg/out/heapdbg
	@python3 checks/installed.py crates/heapdbg/out/heapdbg crates/hprof_import/out/hprof_import
	@python3 checks/package.py crates/heapdbg/out/heapdbg crates/hprof_import/out/hprof_import
	@bash scripts/dist.sh passed crates/heapdbg/out/heapdbg crates/hprof_import/out/hprof_import

# Tries the edits that `make test` doesn't try: of all crates, or of those that CRATE names.
edits: ## tries the wrong bodies that `make test` doesn't try (CRATE=NAME: of one crate)
	python3 checks/edits.py try $(CRATE)

bench: build ## measures times
	bash bench/lines.sh
	python3 bench/page.py bin/heapdbg
	python3 bench/large.py bin/heapdbg
	python3 bench/pauses.py bin/heapdbg
	python3 bench/questions.py bin/heapdbg
	python3 bench/millions.py bin/heapdbg

# Looks at the page in Chromium, which it installs where it is missing and apt-get is there. PROGRAM is the program that serves it.
PROGRAM ?= bin/heapdbg
page-test: ## looks at the page in Chromium
	@for each in chromium chromium-browser google-chrome google-chrome-stable; do command -v $$each > /dev/null && exit; done; \
	    if command -v apt-get > /dev/null; then apt-get update > /dev/null && DEBIAN_FRONTEND=noninteractive apt-get install -y chromium > /dev/null; fi
	python3 checks/page $(PROGRAM)

# What acts under the lock cost. Builds a program of its own in a temporary folder.
bench-lock: ## measures acts under the lock
	python3 bench/lock.py

# How many clients `make soak` has, and how many seconds each of its parts takes.
CLIENTS ?= 8
SECONDS ?= 600

# Has clients work on one served heap, and then honest clients beside hostile ones. It needs bin/heapdbg.
soak: ## has CLIENTS clients work for SECONDS seconds, and hostile ones beside them
	CLIENTS=$(CLIENTS) SECONDS=$(SECONDS) python3 checks/soak.py bin/heapdbg
	SECONDS=$(SECONDS) python3 checks/hostile.py bin/heapdbg

# Has 16 threads, a marker and a sweeper act on a heap under its lock, and their receipts audited. Builds a program of its own in a temporary folder.
audit: ## has 18 threads act for SECONDS seconds, and audits their receipts
	SECONDS=$(SECONDS) python3 checks/audit.py

# Where `make install` puts things: below DESTDIR if that is given. Documents, examples and the clients lie in DOCDIR as they
# do here, so that the documents' commands work there; `bin/heapdbg` is then `heapdbg`. The scripts of HUNT's files need the checks.
PREFIX ?= /usr/local
VERSION := $(shell sed -n 's/.*VERSION: &str = "\(.*\)";/\1/p' crates/heapdbg_options/src/refusal.rt)
PAGES := README.md CHANGES.md $(wildcard docs/*.md) clients/python/README.md clients/c/README.md
STORIES := $(patsubst %,examples/%.py,leak orders services)
EXAMPLES := $(filter-out $(STORIES),$(wildcard examples/*.*))
CLIENT := $(wildcard clients/python/*.py clients/python/*.toml clients/python/heapdbg/*.py) clients/python/heapdbg/py.typed $(wildcard clients/c/*.h clients/c/*.c)
BINDIR = $(DESTDIR)$(PREFIX)/bin
MANDIR = $(DESTDIR)$(PREFIX)/share/man/man1
BASHDIR = $(DESTDIR)$(PREFIX)/share/bash-completion/completions
WORDDIR = $(DESTDIR)$(PREFIX)/share/heapdbg
DOCDIR = $(DESTDIR)$(PREFIX)/share/doc/heapdbg

# Installs what `make build` or `make test` left: the program, the script beside it and its words, its manual page, completions
# for bash, the documents, the examples and the clients in Python and C.
install: ## installs the programs and all that belongs to them below PREFIX
	install -D bin/heapdbg $(BINDIR)/heapdbg
	install bin/heapdbg-import $(BINDIR)/heapdbg-import
	install scripts/heapdbg-explore $(BINDIR)/heapdbg-explore
	install -D -m 644 man/heapdbg.1 $(MANDIR)/heapdbg.1
	install -D -m 644 completions/heapdbg.bash $(BASHDIR)/heapdbg
	install -D -m 644 completions/explore.words $(WORDDIR)/explore.words
	for each in $(PAGES) $(EXAMPLES) $(CLIENT); do install -D -m 644 $$each $(DOCDIR)/$$each || exit 1; done
	cd $(DOCDIR) && sed -i 's:bin/heapdbg\(-import\)* \([a-z/]\):heapdbg\1 \2:g' $(PAGES)

uninstall: ## removes what was installed
	rm -f $(BINDIR)/heapdbg $(BINDIR)/heapdbg-import $(BINDIR)/heapdbg-explore $(MANDIR)/heapdbg.1 $(BASHDIR)/heapdbg $(WORDDIR)/explore.words
	rm -rf $(DOCDIR)

# Packs the same into dist/, with an account of `make test`: only the program that passed it at this commit.
dist: ## packs the program that passed `make test`
	@bash scripts/dist.sh pack $(VERSION)
