# make                                proves every crate, builds the archive and the programs (rt)
# make demo                           proves and builds what it needs, writes a cartridge, spoils it and walks it
# make check                          the test command
# make install PREFIX=.. DESTDIR=..   copies what was built; needs no network, and root only where the folders do
# make uninstall PREFIX=.. DESTDIR=.. removes exactly that
PREFIX = /usr/local
DESTDIR =

archive = target/staticlib/libnotchbadger.a
program = target/bin/walk
to = $(DESTDIR)$(PREFIX)
folders = include lib lib/pkgconfig bin share/man/man1 share/man/man3
installed = include/notchbadger.h lib/libnotchbadger.a lib/pkgconfig/notchbadger.pc bin/walk \
	share/man/man1/walk.1 share/man/man3/notchbadger.3

all:
	programs/prove
	programs/archive
	programs/build

demo:
	@programs/demo

check:
	./check

install:
	@for built in $(archive) $(program); do \
		test -f $$built || { echo "make install: $$built was not built; run make first" >&2; exit 1; }; \
	done
	for folder in $(folders); do install -d "$(to)/$$folder" || exit 1; done
	install -m 644 include/notchbadger.h "$(to)/include/notchbadger.h"
	install -m 644 $(archive) "$(to)/lib/libnotchbadger.a"
	version=$$(sed -nE 's/^.define NB_VERSION +"?([0-9.]+).*/\1/p' include/notchbadger.h); \
	sed -e "s|@PREFIX@|$(PREFIX)|" -e "s|@VERSION@|$${version:-1}|" notchbadger.pc.in >"$(to)/lib/pkgconfig/notchbadger.pc"
	chmod 644 "$(to)/lib/pkgconfig/notchbadger.pc"
	install -m 755 $(program) "$(to)/bin/walk"
	install -m 644 docs/man/walk.1 "$(to)/share/man/man1/walk.1"
	install -m 644 docs/man/notchbadger.3 "$(to)/share/man/man3/notchbadger.3"

uninstall:
	for file in $(installed); do rm -f "$(to)/$$file" || exit 1; done

.PHONY: all demo check install uninstall
