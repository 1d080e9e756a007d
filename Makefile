# What can be made here. `make` alone tells the same.

.PHONY: help setup library tool judge test bench bench-against install

# What is judged.
IMAGE = samples/volume-v.dsk

# A word that the lines to measure have; none for all.
ONLY =

# Another build of the library, to measure against.
OLD =

# Where the tool is installed.
PREFIX = /usr/local

LIBRARY = target/staticlib/libods1.a
TOOL = build/release/ods1
CARGO = cargo --quiet

# Where cargo's own installer puts it, if nothing else says where it is.
export PATH := $(PATH):$(or $(CARGO_HOME),$(HOME)/.cargo)/bin

help:
	@echo 'make judge IMAGE=FILE build the proved library and the tool, and judge the volume in FILE;'
	@echo '                      without IMAGE it judges Volume V, samples/volume-v.dsk'
	@echo 'make test             prove every crate, build everything and run every test: what the gate runs'
	@echo 'make library          prove and build the library, $(LIBRARY)'
	@echo 'make tool             build the tool, $(TOOL)'
	@echo 'make install          install it with its man page and completions below PREFIX, $(PREFIX)'
	@echo 'make bench            measure the exported calls against plain Rust, and the tool against its calls'
	@echo '                      and against e2fsck; with ONLY=WORD the lines that have the word'
	@echo 'make bench-against OLD=FILE'
	@echo '                      measure them against another build of the library, the archive FILE'
	@echo 'make setup            install what is missing of what these build with'

setup:
	@scripts/setup.sh

$(LIBRARY): crates.txt scripts/library.sh $(shell find crates -name out -prune -o -type f -print 2>/dev/null)
	@echo 'proving and building the library, which takes some minutes once' >&2
	@mkdir -p target
	@scripts/library.sh >target/library.log 2>&1 || { cat target/library.log >&2; exit 1; }

library: $(LIBRARY)

tool: setup $(LIBRARY)
	@$(CARGO) build --release --offline --locked -p ods1-tool

judge: tool
	@$(TOOL) judge '$(IMAGE)'

test: setup
	@scripts/test.sh

BENCH = $(CARGO) run --release --offline --locked -p bench --
LINES = $(if $(ONLY),--only '$(ONLY)')

bench: tool
	$(BENCH) $(LINES)

bench-against: setup $(LIBRARY)
	@test -n '$(OLD)' || { echo 'make bench-against: OLD=FILE is wanted, a libods1.a' >&2; exit 1; }
	$(BENCH) against '$(OLD)' $(LINES)

install: tool
	install -D -m 755 $(TOOL) '$(DESTDIR)$(PREFIX)/bin/ods1'
	install -d '$(DESTDIR)$(PREFIX)/share/man/man1' '$(DESTDIR)$(PREFIX)/share/bash-completion/completions' \
	    '$(DESTDIR)$(PREFIX)/share/zsh/site-functions' '$(DESTDIR)$(PREFIX)/share/fish/vendor_completions.d'
	$(TOOL) man >'$(DESTDIR)$(PREFIX)/share/man/man1/ods1.1'
	$(TOOL) completions bash >'$(DESTDIR)$(PREFIX)/share/bash-completion/completions/ods1'
	$(TOOL) completions zsh >'$(DESTDIR)$(PREFIX)/share/zsh/site-functions/_ods1'
	$(TOOL) completions fish >'$(DESTDIR)$(PREFIX)/share/fish/vendor_completions.d/ods1.fish'
