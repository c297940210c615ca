# The library for C: `make` proves it and writes the archive and the shared library, `make programs` proves `listing` and `rehearse` and
# writes them into target/bin, `make install` puts header, both libraries and a
# description for pkg-config below PREFIX. What is installed is what the gate tests; nothing else is built here.
PREFIX ?= /usr/local
DESTDIR ?=

# The version is the header's. Its first two numbers are in the name by which a program looks for the shared library: while the first is 0, calls
# may take other parameters with another second one, and a program must not find a library that it was not built for.
VERSION := $(shell sed -n 's/^.define TAILSPRIG_VERSION "\(.*\)"$$/\1/p' include/tailsprig.h)
SONAME := libtailsprig.so.$(basename $(VERSION))
MADE := target/staticlib
INCLUDE := $(DESTDIR)$(PREFIX)/include
LIB := $(DESTDIR)$(PREFIX)/lib
INSTALLED := $(INCLUDE)/tailsprig.h $(LIB)/libtailsprig.a $(LIB)/libtailsprig.so.$(VERSION) $(LIB)/$(SONAME) $(LIB)/libtailsprig.so \
	$(LIB)/pkgconfig/tailsprig.pc

.PHONY: all programs install uninstall

# The archive's code is position independent and asks for no other library, so all of it makes the shared one; -z defs holds it to that.
all:
	cd crates/tailsprig && rt lib
	install -d $(MADE)
	install -m 644 crates/tailsprig/out/libtailsprig.a $(MADE)/
	$(CC) -shared -nostdlib -Wl,-z,defs -Wl,-z,text -Wl,-soname,$(SONAME) -Wl,--whole-archive $(MADE)/libtailsprig.a -o $(MADE)/libtailsprig.so

# `rt run` leaves a program in its crate's out/; with no input each ends at once.
programs:
	cd crates/listing && rt run </dev/null >/dev/null
	cd crates/rehearse && rt run </dev/null >/dev/null
	install -d target/bin
	install -m 755 crates/listing/out/listing crates/rehearse/out/rehearse target/bin/

# Without a prerequisite: who installs as another user has proved it before, as the user whose files these are.
install:
	@test -f $(MADE)/libtailsprig.a -a -f $(MADE)/libtailsprig.so || { echo 'the library is missing in $(MADE): run make first' >&2; exit 2; }
	install -d $(INCLUDE) $(LIB)/pkgconfig
	install -m 644 include/tailsprig.h $(INCLUDE)/
	install -m 644 $(MADE)/libtailsprig.a $(LIB)/
	install -m 755 $(MADE)/libtailsprig.so $(LIB)/libtailsprig.so.$(VERSION)
	ln -sf libtailsprig.so.$(VERSION) $(LIB)/$(SONAME)
	ln -sf $(SONAME) $(LIB)/libtailsprig.so
	printf 'prefix=%s\n\nName: tailsprig\nDescription: ITU-T V.8 session start, proved\nVersion: %s\nCflags: -I$${prefix}/include\nLibs: -L$${prefix}/lib -ltailsprig\n' \
		'$(PREFIX)' '$(VERSION)' >$(LIB)/pkgconfig/tailsprig.pc

uninstall:
	rm -f $(INSTALLED)
