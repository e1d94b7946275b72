# For who expects make of a C library; it goes by rt and .ci/run, and installs no package.
#
#   make                       the archive, the shared library and the programs, each proved before it is built
#   make check                 the gate: every proof and every test
#   make install PREFIX=..     /usr/local where no PREFIX is given; DESTDIR=.. puts all of it under another root
#   make uninstall PREFIX=..
#
# What is built is for x86-64 Linux. On another machine CC is Debian's cross compiler, and an installed program runs by EMULATOR.
SHELL := /bin/bash
.SHELLFLAGS := -euo pipefail -c
.PHONY: all check install uninstall clean

PREFIX ?= /usr/local
# a blank or a quote in them would put or remove files elsewhere
odd := $(findstring ',$(PREFIX)$(DESTDIR))
ifeq ($(odd),)
odd := $(shell printf '%s' '$(PREFIX)$(DESTDIR)' | tr -c 'A-Za-z0-9._/+-' '!' | tr -dc '!')
endif
ifneq ($(odd),)
$(error PREFIX and DESTDIR are paths of letters, digits and . _ / + - alone)
endif
prefix := $(abspath $(PREFIX))
libexec := $(prefix)/libexec/bil
programs := bilrun
version := $(shell sed -n 's/^.define BIL_VERSION "\(.*\)"/\1/p' include/bil.h)
soname := libbil.so.$(firstword $(subst ., ,$(version)))
archive := target/staticlib/libbil.a
shared := target/shared/libbil.so.$(version)
filled := -e 's,@PREFIX@,$(prefix),' -e 's,@VERSION@,$(version),'

ifneq ($(shell uname -m),x86_64)
ifeq ($(origin CC),default)
CC := x86_64-linux-gnu-gcc
endif
EMULATOR ?= qemu-x86_64 -L /usr/x86_64-linux-gnu
endif

all:
	@. tests/lib.sh; build_archive bil; for name in $(programs); do build_program $$name; done
	@if [ ! $(shared) -nt $(archive) ]; then \
	  mkdir -p target/shared; \
	  $(CC) -shared -nostartfiles -Wl,-soname,$(soname) -Wl,-z,defs -o $(shared) -Wl,--whole-archive $(archive) -Wl,--no-whole-archive; \
	fi

check:
	.ci/run

install: all
	install -d $(DESTDIR)$(prefix)/{bin,include,lib/pkgconfig,libexec/bil,share/man/man1,share/doc/bil}
	install -m 644 include/bil.h $(DESTDIR)$(prefix)/include
	install -m 644 $(archive) $(shared) $(DESTDIR)$(prefix)/lib
	ln -sf $(notdir $(shared)) $(DESTDIR)$(prefix)/lib/$(soname)
	ln -sf $(soname) $(DESTDIR)$(prefix)/lib/libbil.so
	sed $(filled) packaging/bil.pc.in | install -m 644 /dev/stdin $(DESTDIR)$(prefix)/lib/pkgconfig/bil.pc
	install -m 644 docs/FORMAT.md $(DESTDIR)$(prefix)/share/doc/bil
	install -m 755 packaging/launcher $(DESTDIR)$(libexec)
	for name in $(programs); do \
	  install -m 755 target/bin/$$name $(DESTDIR)$(libexec); \
	  printf '#!/bin/sh\nexec "%s/launcher" %s $(if $(EMULATOR),$(EMULATOR) )"%s/%s" -- "$$@"\n' $(libexec) $$name $(libexec) $$name | \
	    install -m 755 /dev/stdin $(DESTDIR)$(prefix)/bin/$$name; \
	  sed $(filled) packaging/$$name.1.in | install -m 644 /dev/stdin $(DESTDIR)$(prefix)/share/man/man1/$$name.1; \
	done

uninstall:
	rm -f $(DESTDIR)$(prefix)/include/bil.h $(DESTDIR)$(prefix)/lib/libbil.{a,so,so.*} $(DESTDIR)$(prefix)/lib/pkgconfig/bil.pc
	rm -f $(patsubst %,$(DESTDIR)$(prefix)/bin/%,$(programs)) $(patsubst %,$(DESTDIR)$(prefix)/share/man/man1/%.1,$(programs))
	rm -rf $(DESTDIR)$(libexec) $(DESTDIR)$(prefix)/share/doc/bil

clean:
	rm -rf target crates/*/out
