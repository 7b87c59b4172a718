# make                       proves and builds the library and the lister
# make install PREFIX=DIR    header, static and shared library, pkg-config file, the lister `units`, and the Python module in
#                            DIR/lib/zaminuk
# make check                 the tests that are outside the proofs
# The libraries and the lister are x86-64 code for Linux. The lister that is installed is the program itself: where a read or a write fails,
# on a closed pipe too, it says so and ends with status 0, of which the script ./units makes 1 or 141. DESTDIR is put before PREFIX.
PREFIX ?= /usr/local
VERSION := $(shell sed -n 's/^.define ZAMINUK_VERSION "\(.*\)"/\1/p' include/zaminuk.h)
MAJOR := $(shell sed -n 's/^.define ZAMINUK_VERSION_MAJOR //p' include/zaminuk.h)
TO = $(DESTDIR)$(PREFIX)

SOURCES := crates.txt $(shell find crates -path '*/out' -prune -o \( -name '*.rt' -o -name '*.antt' \) -print)
ARCHIVE = target/staticlib/libcapi.a
SHARED = target/staticlib/libzaminuk.so.$(VERSION)
UNITS = target/bin/units

all: $(ARCHIVE) $(SHARED) $(UNITS)

$(ARCHIVE): $(SOURCES)
	tests/made archive

$(UNITS): $(SOURCES)
	./units < /dev/null

$(SHARED): $(ARCHIVE) tests/shared include/zaminuk.h
	tests/shared $(ARCHIVE) libzaminuk.so.$(MAJOR) $@

install: all
	install -d $(TO)/include $(TO)/lib/pkgconfig $(TO)/bin $(TO)/lib/zaminuk
	install -m 644 include/zaminuk.h $(TO)/include/zaminuk.h
	install -m 644 $(ARCHIVE) $(TO)/lib/libzaminuk.a
	install -m 755 $(SHARED) $(TO)/lib/libzaminuk.so.$(VERSION)
	ln -sf libzaminuk.so.$(VERSION) $(TO)/lib/libzaminuk.so.$(MAJOR)
	ln -sf libzaminuk.so.$(MAJOR) $(TO)/lib/libzaminuk.so
	printf '%s\n' 'prefix=$(PREFIX)' 'includedir=$${prefix}/include' 'libdir=$${prefix}/lib' '' 'Name: zaminuk' \
	  'Description: proved units of purely cubic function fields' 'Version: $(VERSION)' \
	  'Cflags: -I$${includedir}' 'Libs: -L$${libdir} -lzaminuk' > $(TO)/lib/pkgconfig/zaminuk.pc
	install -m 644 python/zaminuk.py $(TO)/lib/zaminuk/zaminuk.py
	install -m 755 $(UNITS) $(TO)/bin/units

check:
	tests/run

.PHONY: all install check
