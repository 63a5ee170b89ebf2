# What a contributor or a packager runs at the top. Each target calls what is there.
#
#   make            builds the C library and the tool inroot-fs (host/Makefile has their variables)
#   make install    installs them, and the program inroot, below PREFIX and DESTDIR
#   make check      the gate, ./check; where the Rattle kit is not installed, ./check built
#   make quick      ./check quick: proves and tests what changed
#   make bench      ./bench: times what is timed
#   make dist       writes inroot-VERSION.tar.gz of the sources at HEAD
#   make clean      removes what make built

VERSION := $(shell cat VERSION)

all:
	$(MAKE) -C host all

install uninstall clean:
	$(MAKE) -C host $@

check:
	if command -v rt >/dev/null; then ./check; else ./check built; fi

quick:
	./check quick

bench:
	./bench

# The same commit gives the same bytes.
dist:
	git archive --format=tar --prefix=inroot-$(VERSION)/ HEAD | gzip -9n >inroot-$(VERSION).tar.gz
	@echo inroot-$(VERSION).tar.gz

.PHONY: all install uninstall check quick bench dist clean
