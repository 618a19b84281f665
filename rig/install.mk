# `make install` puts header, library, rig, man page and pkg-config's file in place, with what is there: it installs no
# packages. `make uninstall` takes them away again. DESTDIR is put in front of every path, for packagers.
PREFIX ?= /usr/local
BINDIR ?= $(PREFIX)/bin
LIBDIR ?= $(PREFIX)/lib
INCLUDEDIR ?= $(PREFIX)/include
MANDIR ?= $(PREFIX)/share/man
DESTDIR ?=
# The fourth box, with eleven of document 02's requests.
VERSION := 4.13

# what is put where; on a processor that is not x86-64 the program has a folder of its own, and rig starts it by the emulator
header_to := $(INCLUDEDIR)/undivarro.h
library_to := $(LIBDIR)/libundivarro.a
package_to := $(LIBDIR)/pkgconfig/undivarro.pc
page_to := $(MANDIR)/man1/rig.1
rig_to := $(BINDIR)/rig
program_folder := $(LIBDIR)/undivarro
program_to := $(if $(RUN),$(program_folder)/rig,$(rig_to))

# a folder below the prefix, as pkg-config's files have it
below = $(patsubst $(PREFIX)/%,$${prefix}/%,$(1))
fill_in := sed -e 's|@PREFIX@|$(PREFIX)|' -e 's|@LIBDIR@|$(call below,$(LIBDIR))|' \
    -e 's|@INCLUDEDIR@|$(call below,$(INCLUDEDIR))|' -e 's|@VERSION@|$(VERSION)|'

.PHONY: install uninstall
install: $(rig_out)/bin/rig $(UNDIVARRO_LIB)
	install -D -m 644 include/undivarro.h '$(DESTDIR)$(header_to)'
	install -D -m 644 $(UNDIVARRO_LIB) '$(DESTDIR)$(library_to)'
	install -D -m 755 $(rig_out)/bin/rig '$(DESTDIR)$(program_to)'
	install -D -m 644 rig/undivarro.pc.in '$(DESTDIR)$(package_to)'
	$(fill_in) rig/undivarro.pc.in >'$(DESTDIR)$(package_to)'
	install -D -m 644 rig/rig.1 '$(DESTDIR)$(page_to)'
	$(fill_in) rig/rig.1 >'$(DESTDIR)$(page_to)'
ifneq ($(RUN),)
	install -d '$(DESTDIR)$(BINDIR)'
	printf '#!/bin/sh\nexec $(RUN) $(program_to) "$$@"\n' >'$(DESTDIR)$(rig_to)'
	chmod 755 '$(DESTDIR)$(rig_to)'
endif

uninstall:
	rm -f '$(DESTDIR)$(header_to)' '$(DESTDIR)$(library_to)' '$(DESTDIR)$(program_to)' '$(DESTDIR)$(package_to)' \
	    '$(DESTDIR)$(page_to)' '$(DESTDIR)$(rig_to)'
	[ ! -d '$(DESTDIR)$(program_folder)' ] || rmdir --ignore-fail-on-non-empty '$(DESTDIR)$(program_folder)'
