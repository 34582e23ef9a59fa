# The library for C, for x86-64: `make library` proves it (crates/library_c) and makes target/staticlib/libstaran.a, `make shared` makes a shared object of that archive,
# `make install PREFIX=..` puts both, the header and a pkg-config file where a C programmer looks (DESTDIR goes before PREFIX, for packages).
PREFIX ?= /usr/local
MADE := target/staticlib
MAJOR := $(shell sed -n 's/^.define STARAN_VERSION_MAJOR //p' include/staran.h)
MINOR := $(shell sed -n 's/^.define STARAN_VERSION_MINOR //p' include/staran.h)
VERSION := $(MAJOR).$(MINOR)
# The name under which a program asks for the shared object has the minor number too: a minor version adds functions, numbers and kinds of content. A longer answer or record
# is a major version, under another function name.
# The shared object is bound when it is loaded (-z now): else the loader would look for memcpy on the stack of the first call that needs it.
SHARED := libstaran.so.$(VERSION)
COMPILER := $(if $(filter x86_64,$(shell uname -m)),gcc,x86_64-linux-gnu-gcc)

# The folders too, so that a file that went counts; a crate's own changes with its out/, which is made.
SOURCES := crates.txt $(shell find crates -mindepth 2 \( -name must-fail -o -name out \) -prune -o -print)

.PHONY: library shared install
library: $(MADE)/libstaran.a
shared: $(MADE)/$(SHARED)

# --cpu: code for any processor of the kind. Without it today's kit takes x86-64-v2, and an archive does not say so when it is called on an older one.
$(MADE)/libstaran.a: $(SOURCES)
	cd crates/library_c && rt lib --cpu=x86-64
	mkdir -p $(MADE)
	cp crates/library_c/out/liblibrary_c.a $@

$(MADE)/$(SHARED): $(MADE)/libstaran.a
	$(COMPILER) -shared -Wl,-z,now -Wl,-soname,$(SHARED) -Wl,--whole-archive $< -Wl,--no-whole-archive -o $@

install: library shared
	install -d '$(DESTDIR)$(PREFIX)/include' '$(DESTDIR)$(PREFIX)/lib/pkgconfig'
	install -m 644 include/staran.h include/staran_numbers.h '$(DESTDIR)$(PREFIX)/include'
	install -m 644 $(MADE)/libstaran.a '$(DESTDIR)$(PREFIX)/lib'
	install -m 755 $(MADE)/$(SHARED) '$(DESTDIR)$(PREFIX)/lib'
	ln -sf $(SHARED) '$(DESTDIR)$(PREFIX)/lib/libstaran.so'
	sed -e 's|@PREFIX@|$(PREFIX)|' -e 's|@VERSION@|$(VERSION)|' include/staran.pc.in >'$(DESTDIR)$(PREFIX)/lib/pkgconfig/staran.pc'
