# Proves, builds, runs, tests and installs rkt. To build it needs the kit's command `rt` on PATH, and nothing else.
#
#   make                            proves and builds build/rkt
#   make run                        builds it, and does the first steps with it: a bundle, import, prepare, run, status, list, rm
#   make run WORDS="image list"     runs it on these words, on the same data folder (RKT_DIR, or build/data where that is unset)
#   make test                       the whole gate: proves, tests and runs everything, with the scripts of tests/host
#   make words                      writes the help, the man page and the completions from docs/words.table
#   make scenario                   plays crates/scenarios/stdin, and shows each line of it that came otherwise
#   make install PREFIX=/usr/local  puts program, man page, completions and systemd's units below PREFIX
#   make uninstall PREFIX=..        takes them away again
#   make deb                        makes a Debian package of them, build/rkt_VERSION_amd64.deb
#   make clean                      takes build away
#
# DESTDIR is put before PREFIX, for those who make packages.

MAKEFLAGS += --no-builtin-rules

PREFIX ?= /usr/local
ZSHDIR ?= share/zsh/site-functions
RKT_DIR ?= build/data
MAINTAINER ?= whoever built it <root@localhost>

VERSION := $(shell sed -n 's/^version //p' docs/words.table)
DEB := build/rkt_$(VERSION)_amd64.deb
UNITS := rkt-gc.service rkt-gc.timer rkt@.service rkt-metadata.service
SOURCES := crates.txt $(shell find crates -name out -prune -o -type f ! -name stdin ! -name stdout -print)

TO = $(DESTDIR)$(PREFIX)
INSTALLED = $(TO)/bin/rkt $(TO)/share/man/man1/rkt.1 $(TO)/share/bash-completion/completions/rkt $(TO)/$(ZSHDIR)/_rkt \
	$(UNITS:%=$(TO)/lib/systemd/system/%)

.PHONY: all run test words scenario install uninstall deb clean

all: build/rkt

build/rkt: $(SOURCES)
	cd crates/rkt && rt run -- --version
	mkdir -p build
	cp crates/rkt/out/rkt $@

run: build/rkt
ifdef WORDS
	@RKT_DIR="$(RKT_DIR)" build/rkt $(WORDS); status=$$?; echo "status $$status"; exit $$status
else
	@RKT_DIR="$(abspath $(RKT_DIR))" contrib/first-steps build/rkt build/first-steps
endif

test:
	bash .ci/run

words:
	python3 docs/words.py

build/scenarios: $(SOURCES)
	cd crates/scenarios && rt run < /dev/null
	mkdir -p build
	cp crates/scenarios/out/scenarios $@

scenario: build/scenarios
	@build/scenarios < crates/scenarios/stdin > build/scenarios.came; diff crates/scenarios/stdin build/scenarios.came && echo "all came as the script says"

install: build/rkt
	install -D -m 755 build/rkt "$(TO)/bin/rkt"
	install -D -m 644 docs/rkt.1 "$(TO)/share/man/man1/rkt.1"
	install -D -m 644 dist/completion/rkt.bash "$(TO)/share/bash-completion/completions/rkt"
	install -D -m 644 dist/completion/_rkt "$(TO)/$(ZSHDIR)/_rkt"
	install -d "$(TO)/lib/systemd/system"
	for unit in $(UNITS); do \
		sed 's|/usr/local/bin/|$(PREFIX)/bin/|' "dist/systemd/$$unit" > "$(TO)/lib/systemd/system/$$unit" && \
		chmod 644 "$(TO)/lib/systemd/system/$$unit" || exit 1; \
	done

uninstall:
	rm -f $(foreach file,$(INSTALLED),"$(file)")

deb: build/rkt
	rm -rf build/deb
	$(MAKE) install DESTDIR=build/deb PREFIX=/usr ZSHDIR=share/zsh/vendor-completions
	gzip -9n build/deb/usr/share/man/man1/rkt.1
	install -D -m 644 dist/debian/copyright build/deb/usr/share/doc/rkt/copyright
	install -D -m 644 SECURITY.md build/deb/usr/share/doc/rkt/SECURITY.md
	install -d build/deb/DEBIAN
	sed 's/@VERSION@/$(VERSION)/; s/@MAINTAINER@/$(MAINTAINER)/' dist/debian/control > build/deb/DEBIAN/control
	dpkg-deb --root-owner-group --build build/deb "$(DEB)"

clean:
	rm -rf build
