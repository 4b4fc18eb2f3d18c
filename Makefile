# Builds the library that a host links, installs it, and runs the hosts' tests.
PREFIX ?= /usr/local
DESTDIR ?=
VERSION = 2.2.0
# random comparisons a call in `make test`
ROUNDS ?= 20000

SOURCES := $(shell find crates -name out -prune -o \( -name '*.rt' -o -name '*.antt' \) -print) crates.txt

all: build/libfanzsoreb.a

# A static library exports the functions of its own crate alone: the library has a member for each crate `host` and `host_words`.
# `rt lib` proves such a crate and all that it rests on. Any x86-64 processor runs it.
HOSTS := host host_words

build/libfanzsoreb.a: $(SOURCES)
	mkdir -p build
	for crate in $(HOSTS); do (cd crates/$$crate && rt lib --cpu x86-64) || exit; done
	cd build && for crate in $(HOSTS); do ar x ../crates/$$crate/out/lib$$crate.a $$crate.o || exit; done
	cd build && rm -f libfanzsoreb.a && ar rcs libfanzsoreb.a $(HOSTS:=.o) && rm $(HOSTS:=.o)

define PKGCONFIG
prefix=$(PREFIX)
libdir=$${prefix}/lib
includedir=$${prefix}/include

Name: fanzsoreb
Description: market balance engine
Version: $(VERSION)
Libs: -L$${libdir} -lfanzsoreb
Cflags: -I$${includedir}
endef
export PKGCONFIG

install: all
	install -d $(DESTDIR)$(PREFIX)/lib/pkgconfig $(DESTDIR)$(PREFIX)/include
	install -m 644 build/libfanzsoreb.a $(DESTDIR)$(PREFIX)/lib/
	install -m 644 include/fanzsoreb.h $(DESTDIR)$(PREFIX)/include/
	echo "$$PKGCONFIG" > $(DESTDIR)$(PREFIX)/lib/pkgconfig/fanzsoreb.pc

# the tests of the second calculation and of the comparison; the examples, worked figures and a random comparison on a copy
# installed under build/
test: all second-test
	$(MAKE) install PREFIX=$(CURDIR)/build/installed DESTDIR=
	MAKEFLAGS= hosts/accept $(CURDIR)/build/installed $(ROUNDS)

# without an engine, so that it may run beside the library's build
second-test:
	cd hosts && MAKEFLAGS= cargo test --offline --quiet --features compare/selftest

clean:
	rm -rf build

.PHONY: all install test second-test clean
