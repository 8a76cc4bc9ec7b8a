# Lapwingboard.
#
#     make              proves and builds the library, static and shared, and the program
#     make first        proves and builds the program, and runs the first example
#     make check        the gate: every proof, every edit that the prover must refuse, every test
#     make install PREFIX=/usr/local DESTDIR=
#     make uninstall    removes what install wrote
#     make clean        removes what was made (build/); what is proved stays in crates/*/out/
#
# Asked for: Rattle's command rt on the PATH, and gcc. Where what is in build/ is newer than all files of crates/, rt is not called.

PREFIX = /usr/local
DESTDIR =

build = build
program = $(build)/lrpd
library = $(build)/liblrpd.a
sources := crates.txt $(shell find crates -type f ! -path '*/must-fail/*' ! -path '*/out/*')

# The one place of the version is the header.
version := $(shell sed -n 's/^.define LRPD_VERSION "\(.*\)"$$/\1/p' include/lrpd.h)
# With the second number an answer may grow, so a program asks for the library of both.
soname = liblrpd.so.$(basename $(version))
shared = liblrpd.so.$(version)
fill = sed -e 's|@PREFIX@|$(PREFIX)|' -e 's|@VERSION@|$(version)|'

.PHONY: all first check install uninstall clean
.DELETE_ON_ERROR:

all: $(program) $(library) $(build)/$(shared)

# rt runs the program that it builds, here on an empty text.
$(program): $(sources)
	install/progress run lrpd
	@mkdir -p $(build)
	cp crates/lrpd/out/lrpd $@

# After the program, since two rt at a time would wait for one another.
$(library): $(sources) | $(program)
	install/progress lib exports_c
	@mkdir -p $(build)
	cp crates/exports_c/out/libexports_c.a $@

# Only the names that begin with lrpd_ can be seen.
$(build)/$(shared): $(library) install/lrpd.map
	$(CC) -shared -Wl,-soname,$(soname) -Wl,--version-script,install/lrpd.map -Wl,-z,defs \
	    -Wl,--whole-archive $(library) -Wl,--no-whole-archive -o $@
	ln -sf $(shared) $(build)/$(soname)
	ln -sf $(soname) $(build)/liblrpd.so

first: $(program)
	$(program) < examples/texts/permutation.loop

check:
	.ci/run

to = $(DESTDIR)$(PREFIX)

install: all
	install -d "$(to)/bin" "$(to)/include" "$(to)/lib/pkgconfig" "$(to)/share/lrpd" "$(to)/share/man/man1"
	install -m 755 $(program) "$(to)/bin/lrpd"
	install -m 644 include/lrpd.h "$(to)/include/lrpd.h"
	install -m 644 fortran/lrpd.f90 "$(to)/share/lrpd/lrpd.f90"
	install -m 644 $(library) "$(to)/lib/liblrpd.a"
	install -m 755 $(build)/$(shared) "$(to)/lib/$(shared)"
	ln -sf $(shared) "$(to)/lib/$(soname)"
	ln -sf $(soname) "$(to)/lib/liblrpd.so"
	$(fill) install/lrpd.pc.in > "$(to)/lib/pkgconfig/lrpd.pc"
	$(fill) install/lrpd.1.in > "$(to)/share/man/man1/lrpd.1"
	chmod 644 "$(to)/lib/pkgconfig/lrpd.pc" "$(to)/share/man/man1/lrpd.1"

uninstall:
	rm -f "$(to)/bin/lrpd" "$(to)/include/lrpd.h" "$(to)/share/lrpd/lrpd.f90" "$(to)/lib/liblrpd.a" "$(to)/lib/$(shared)" \
	    "$(to)/lib/$(soname)" "$(to)/lib/liblrpd.so" "$(to)/lib/pkgconfig/lrpd.pc" "$(to)/share/man/man1/lrpd.1"
	[ ! -d "$(to)/share/lrpd" ] || rmdir --ignore-fail-on-non-empty "$(to)/share/lrpd"

clean:
	rm -rf $(build)
