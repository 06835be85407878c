# The C library and the log program: archive, example, tests, installation. Proving and building needs the Rattle kit (`rt`).
#
#     make            the archive and the example
#     make archive    target/staticlib/libkaiverohm.a alone
#     make program    the log program alone
#     make test       the tests from C
#     make install    the C library (archive, header, pkg-config file), racklog, racklog-report (tools/report) and the man pages, below
#                     $(DESTDIR)$(PREFIX). LIBDIR, INCLUDEDIR and MANDIR can be other folders
#     make uninstall  removes these
#     make clean      removes all that was built, the proofs too: the next make proves anew, which takes a while
PREFIX ?= /usr/local
LIBDIR ?= $(PREFIX)/lib
INCLUDEDIR ?= $(PREFIX)/include
MANDIR ?= $(PREFIX)/share/man
# bin/racklog and bin/racklog-report are links into this folder, where each finds what stands beside it
PROGRAMS = $(PREFIX)/libexec/kaiverohm
VERSION = $(shell sed -n 's/^.define KAIVEROHM_VERSION "\(.*\)"/\1/p' include/kaiverohm.h)

CC = gcc
CFLAGS ?= -std=c11 -O2 -g -Wall -Wextra

archive = target/staticlib/libkaiverohm.a
program = target/bin/racklog
# rt's own out/ folders hold copies of sources
sources = crates.txt $(shell find crates -name out -prune -o \( -name '*.rt' -o -name '*.antt' \) -print)

all: archive example

archive: $(archive)

program: $(program)

example: target/c/echo

$(archive): $(sources)
	tools/prove kaiverohm_c
	mkdir -p $(@D)
	cp crates/kaiverohm_c/out/libkaiverohm_c.a $@

$(program): $(sources)
	tools/prove racklog
	mkdir -p $(@D)
	cp crates/racklog/out/racklog $@

target/c/echo: examples/echo.c include/kaiverohm.h $(archive)
	mkdir -p target/c
	$(CC) $(CFLAGS) -Iinclude $(LDFLAGS) -o $@ examples/echo.c $(archive)

test: $(archive)
	tests/c/run

install: $(archive) $(program)
	install -d '$(DESTDIR)$(LIBDIR)/pkgconfig' '$(DESTDIR)$(INCLUDEDIR)'
	install -m 644 $(archive) '$(DESTDIR)$(LIBDIR)/'
	install -m 644 include/kaiverohm.h '$(DESTDIR)$(INCLUDEDIR)/'
	sed -e 's|@PREFIX@|$(PREFIX)|' -e 's|@LIBDIR@|$(LIBDIR)|' -e 's|@INCLUDEDIR@|$(INCLUDEDIR)|' -e 's|@VERSION@|$(VERSION)|' kaiverohm.pc.in >target/kaiverohm.pc
	install -m 644 target/kaiverohm.pc '$(DESTDIR)$(LIBDIR)/pkgconfig/'
	install -d '$(DESTDIR)$(PROGRAMS)' '$(DESTDIR)$(PREFIX)/bin'
	install -m 755 racklog '$(DESTDIR)$(PROGRAMS)/racklog'
	install -m 755 $(program) '$(DESTDIR)$(PROGRAMS)/racklog-program'
	install -m 755 tools/report '$(DESTDIR)$(PROGRAMS)/racklog-report'
	install -m 644 tools/command.py '$(DESTDIR)$(PROGRAMS)/command.py'
	install -d '$(DESTDIR)$(PROGRAMS)/reporting'
	install -m 644 $(filter-out %/check.py %/tries.py,$(wildcard tools/reporting/*.py)) '$(DESTDIR)$(PROGRAMS)/reporting/'
	ln -sf ../libexec/kaiverohm/racklog ../libexec/kaiverohm/racklog-report '$(DESTDIR)$(PREFIX)/bin/'
	install -d '$(DESTDIR)$(MANDIR)/man1' '$(DESTDIR)$(MANDIR)/man3'
	install -m 644 man/racklog.1 man/racklog-report.1 '$(DESTDIR)$(MANDIR)/man1/'
	install -m 644 man/kaiverohm.3 '$(DESTDIR)$(MANDIR)/man3/'

uninstall:
	rm -f '$(DESTDIR)$(LIBDIR)/libkaiverohm.a' '$(DESTDIR)$(INCLUDEDIR)/kaiverohm.h' '$(DESTDIR)$(LIBDIR)/pkgconfig/kaiverohm.pc'
	rm -f '$(DESTDIR)$(PREFIX)/bin/racklog' '$(DESTDIR)$(PREFIX)/bin/racklog-report'
	rm -rf '$(DESTDIR)$(PROGRAMS)'
	rm -f '$(DESTDIR)$(MANDIR)/man1/racklog.1' '$(DESTDIR)$(MANDIR)/man1/racklog-report.1' '$(DESTDIR)$(MANDIR)/man3/kaiverohm.3'

clean:
	rm -rf target crates/*/out

.PHONY: all archive program example test install uninstall clean
