# The library for C: `make install PREFIX=..` puts the header, the proved archive, a pkg-config file and the licence in place, DESTDIR before them
# all; MACHINE=aarch64, riscv64 or armv7l for a box of that kind. The archive is kept in build/ and proved again only where something under crates/ has changed.
PREFIX ?= /usr/local
DESTDIR ?=
MACHINE ?= $(shell uname -m)
VERSION = 0.6.3

at = $(DESTDIR)$(PREFIX)

.PHONY: archive install uninstall

archive:
	include/archive $(MACHINE)

install: archive
	sed 's|@PREFIX@|$(PREFIX)|; s|@VERSION@|$(VERSION)|' include/joistpetal.pc.in >build/$(MACHINE)/joistpetal.pc
	install -d "$(at)/include" "$(at)/lib/pkgconfig" "$(at)/share/doc/joistpetal"
	install -m 644 include/joistpetal.h "$(at)/include/joistpetal.h"
	install -m 644 build/$(MACHINE)/libjoistpetal.a "$(at)/lib/libjoistpetal.a"
	install -m 644 build/$(MACHINE)/joistpetal.pc "$(at)/lib/pkgconfig/joistpetal.pc"
	install -m 644 NOTICE "$(at)/share/doc/joistpetal/NOTICE"

uninstall:
	rm -f "$(at)/include/joistpetal.h" "$(at)/lib/libjoistpetal.a" "$(at)/lib/pkgconfig/joistpetal.pc" "$(at)/share/doc/joistpetal/NOTICE"
	[ ! -d "$(at)/share/doc/joistpetal" ] || rmdir "$(at)/share/doc/joistpetal"
