# make            the library (build/libaxp.a and build/libaxp.so) and the program (build/axp), proved and built, and build/axp-file
# make demo       repairs damaged samples and reads a cartridge file, and shows what was done
# make test       everything that must pass: proofs, must-fail edits, Rust and C tests
# make compare    the library beside the second decoder on random calls: AXP_ROUNDS=2400 AXP_SEED=1
# make bench      the library beside plain C, position by position and by closed forms; the plot goes to docs/bench.svg
# make install    PREFIX=/usr/local DESTDIR=
# make clean

PREFIX ?= /usr/local
DESTDIR ?=
CC ?= cc
CFLAGS ?= -O2
WARN = -Wall -Wextra -pedantic -Werror

# The version stands in the header alone.
part = $(shell sed -n 's/^.define AXP_VERSION_$(1) //p' include/axp.h)
MAJOR := $(call part,MAJOR)
VERSION := $(MAJOR).$(call part,MINOR).$(call part,PATCH)
SONAME = libaxp.so.$(MAJOR)
SHARED = libaxp.so.$(VERSION)

SOURCES = crates.txt $(shell find crates -name out -prune -o -name '*.rt' -print -o -name '*.antt' -print)
SAMPLE = 16 36900 samples/damaged.img
LOST_SAMPLE = 16 0 samples/lost.img
STRETCH_SAMPLE = 16 @samples/stretches.txt samples/stretches.img
UNFLAGGED_SAMPLE = 16 0,2 samples/unflagged.img

WEEK = 20261116=samples/monday.txt 20261117=samples/tuesday.txt 20261118=samples/wednesday.txt

all: build/libaxp.a build/libaxp.so build/axp build/axp-file

build:
	mkdir -p build

build/libaxp.a: $(SOURCES) | build
	@echo 'The library is proved before it is built. From nothing this takes some minutes.'
	cd crates/axp_c && rt lib
	cp crates/axp_c/out/libaxp_c.a $@

# The archive's eleven calls, as a shared library.
build/$(SHARED): build/libaxp.a include/axp.h
	$(CC) -shared -Wl,-soname,$(SONAME) -Wl,-z,defs -o $@ -Wl,--whole-archive build/libaxp.a -Wl,--no-whole-archive

build/libaxp.so: build/$(SHARED)
	ln -sf $(SHARED) build/$(SONAME)
	ln -sf $(SONAME) $@

build/axp: $(SOURCES) | build
	cd crates/axp && rt run </dev/null >/dev/null
	cp crates/axp/out/axp $@

build/axp-file: tools/axp-file.c include/axp.h build/libaxp.a
	$(CC) -std=c99 $(CFLAGS) $(WARN) -Iinclude -o $@ tools/axp-file.c build/libaxp.a

build/repair: examples/repair.c include/axp.h build/libaxp.a
	$(CC) -std=c99 $(CFLAGS) $(WARN) -Iinclude -o $@ examples/repair.c build/libaxp.a

build/picture: tools/picture.c include/axp.h build/libaxp.a
	$(CC) -std=c99 $(CFLAGS) $(WARN) -Iinclude -o $@ tools/picture.c build/libaxp.a

build/sample: tools/sample.c include/axp.h build/libaxp.a
	$(CC) -std=c99 $(CFLAGS) $(WARN) -Iinclude -o $@ tools/sample.c build/libaxp.a

demo: build/repair build/picture build/axp-file
	build/repair $(SAMPLE)
	build/repair $(LOST_SAMPLE)
	build/repair $(STRETCH_SAMPLE)
	build/repair $(UNFLAGGED_SAMPLE)
	build/axp-file list samples/week.axp
	build/axp-file extract samples/week.axp 0
	build/picture $(SAMPLE) >build/picture.svg
	@echo 'the record by track and position, damaged and repaired: build/picture.svg'

sample: build/sample build/axp-file
	build/sample samples/text.txt samples/good.img samples/damaged.img samples/lost.img samples/stretches.img samples/stretches.txt samples/unflagged.img
	rm -f samples/week.axp
	build/axp-file add samples/week.axp $(WEEK)

docs/picture.svg: build/picture samples/damaged.img
	build/picture $(SAMPLE) >$@

test:
	.ci/run

compare: build/libaxp.a
	cd tests/rust && cargo run --release --offline --bin compare

# ISA-L is measured too where its header is installed (Debian: libisal-dev).
ISAL := $(shell printf '\043include <isa-l/erasure_code.h>\n' | $(CC) -E -x c - >/dev/null 2>&1 && echo '-DWITH_ISAL -lisal')

build/bench: bench/bench.c bench/plain.c bench/closed.h bench/plain.h include/axp.h build/libaxp.a
	$(CC) -std=c11 -O3 -Wall -Wextra -Werror -Iinclude -Ibench -o $@ bench/bench.c bench/plain.c build/libaxp.a $(ISAL)

# The same with repair and tracing by the closed forms in the plain C too.
build/bench-closed: bench/bench.c bench/plain.c bench/closed.h bench/plain.h include/axp.h build/libaxp.a
	$(CC) -std=c11 -O3 -Wall -Wextra -Werror -Wno-unused-function -DCLOSED_FORMS -Iinclude -Ibench -o $@ bench/bench.c bench/plain.c build/libaxp.a $(ISAL)

bench: build/bench build/bench-closed
	build/bench docs/bench.svg
	build/bench-closed

install: all
	install -d $(DESTDIR)$(PREFIX)/lib/pkgconfig $(DESTDIR)$(PREFIX)/include $(DESTDIR)$(PREFIX)/bin $(DESTDIR)$(PREFIX)/share/man/man1
	install -m 644 build/libaxp.a $(DESTDIR)$(PREFIX)/lib/libaxp.a
	install -m 755 build/$(SHARED) $(DESTDIR)$(PREFIX)/lib/$(SHARED)
	ln -sf $(SHARED) $(DESTDIR)$(PREFIX)/lib/$(SONAME)
	ln -sf $(SONAME) $(DESTDIR)$(PREFIX)/lib/libaxp.so
	install -m 644 include/axp.h $(DESTDIR)$(PREFIX)/include/axp.h
	printf 'prefix=%s\nName: axp\nDescription: repair of 18-track cartridge records\nVersion: %s\nCflags: -I$${prefix}/include\nLibs: -L$${prefix}/lib -laxp\n' '$(PREFIX)' '$(VERSION)' >$(DESTDIR)$(PREFIX)/lib/pkgconfig/axp.pc
	install -m 755 build/axp build/axp-file $(DESTDIR)$(PREFIX)/bin
	for page in axp axp-file; do sed 's/@VERSION@/$(VERSION)/' man/$$page.1 >$(DESTDIR)$(PREFIX)/share/man/man1/$$page.1; done

clean:
	rm -rf build crates/*/out tests/rust/target

.PHONY: all demo sample test compare bench install clean
