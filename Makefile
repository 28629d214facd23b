# What a C person types; the scripts do the work, and may be called by themselves.
#
#     make                            the archive and the example host, in target/
#     make install PREFIX= DESTDIR=   archive, header and velbus.pc into DESTDIR/PREFIX
#     make check                      the whole test
#     make speed                      what it costs beside plain C

PREFIX ?= /usr/local
DESTDIR ?=

archive = target/staticlib/libvelbus.a
sheet = target/host/sheet
into = $(DESTDIR)$(PREFIX)
version = $(shell sed -n 's/^.define VELBUS_VERSION "\(.*\)".*/\1/p' include/velbus.h)

all: $(archive) $(sheet)

# one script makes both
$(archive) $(sheet) &: $(shell find crates -name out -prune -o \( -name '*.rt' -o -name '*.antt' \) -print) crates.txt include/velbus.h host/sheet.c host/build tools/shared.sh
	host/build

install: all
	sed -e 's|@PREFIX@|$(PREFIX)|' -e 's|@VERSION@|$(version)|' include/velbus.pc.in > target/velbus.pc
	install -d "$(into)/lib/pkgconfig" "$(into)/include"
	install -m 644 $(archive) "$(into)/lib"
	install -m 644 include/velbus.h "$(into)/include"
	install -m 644 target/velbus.pc "$(into)/lib/pkgconfig"

check:
	@.ci/run

speed:
	@speed/run

.PHONY: all install check speed
