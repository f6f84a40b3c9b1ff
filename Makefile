# make            builds build/libgaroalva.a and build/libgaroalva.so; it proves the crate capi_c, for which rt must be
#                 on the path
# make test       tests the header, which names the proved part needs from outside, both libraries as installed, the C
#                 API, that a library with other structs does not link, the guard of a block by itself, the Rust crate,
#                 the model, and the library against the model
# make bench      runs bench/run; QUICK=--quick for a short run
# make install    PREFIX=/usr/local DESTDIR=
# make clean

# 0.N.P, where N is the struct version that keys and sessions hold. A library with another N does not replace this one,
# so N is in the soname and at the end of symbols. P counts changes of rules that keep N. include/garoalva.h and
# rust/Cargo.toml have the version too, and tests/reference/src/live/library.rs has N; make test compares them.
VERSION := 0.4.0
ABI := $(basename $(VERSION))
STRUCT_VERSION := $(patsubst .%,%,$(suffix $(ABI)))
PREFIX ?= /usr/local
CFLAGS ?= -O2
NM ?= nm
OBJCOPY ?= objcopy

SONAME := libgaroalva.so.$(ABI)
SHARED := libgaroalva.so.$(VERSION)
STAGE := $(CURDIR)/build/stage
WARNINGS := -Wall -Wextra -Werror -pedantic
COMPILE := $(CC) -std=c11 $(CFLAGS) $(WARNINGS)
CARGO := CARGO_TARGET_DIR=$(CURDIR)/build/cargo GAROALVA_LIB=$(CURDIR)/build cargo
CRATE := --offline --locked --manifest-path rust/Cargo.toml
PKG_CONFIG := PKG_CONFIG_PATH=$(STAGE)/lib/pkgconfig pkg-config
WITH_SHARED := $$($(PKG_CONFIG) --cflags --libs garoalva)
WITH_STATIC := $$($(PKG_CONFIG) --cflags garoalva) $$($(PKG_CONFIG) --variable=archive garoalva)
WITH_ISAL := $$(pkg-config --exists libisal && echo -DHAVE_ISAL $$(pkg-config --cflags --libs libisal))

PROVED := $(wildcard crates.txt) \
    $(shell test -d crates && find crates -name out -prune -o \( -name '*.rt' -o -name '*.antt' \) -print)

.PHONY: all test test-header test-needs test-c test-versions test-guard test-rust test-reference bench install clean
.DELETE_ON_ERROR:

all: build/libgaroalva.a build/libgaroalva.so

build:
	mkdir -p $@

# The proved part of the library: the nine calls under their C symbols. It runs on every x86-64 processor; without --cpu
# it would need one of x86-64-v2.
build/libcapi.a: $(PROVED) | build
	@echo 'proving the crate capi_c and what it rests on: some minutes the first time'
	(cd crates/capi_c && rt lib --cpu=x86-64) > build/prove.log || { cat build/prove.log; exit 1; }
	cp crates/capi_c/out/libcapi_c.a $@

# The guard of a block by itself, for test-guard and the benchmark. It is not part of the library. It waits for libcapi.a
# because both rest on the crate guard, which is then proved once.
build/libblockguard.a: $(PROVED) | build/libcapi.a
	(cd crates/blockguard && rt lib --cpu=x86-64) > build/prove-guard.log || { cat build/prove-guard.log; exit 1; }
	cp crates/blockguard/out/libblockguard.a $@

# The part in plain C: texts and version.
build/text.o: c/text.c include/garoalva.h Makefile | build
	$(COMPILE) -fPIC -Iinclude -c $< -o $@

# The proved calls all take or return structs, so their symbols end in the struct version: a program that was built for
# other structs does not link. include/garoalva.h gives garoalva_error_text such a symbol.
build/symbols.txt: build/libcapi.a Makefile
	$(NM) --extern-only --defined-only $< | sed -n 's/.* T \(garoalva_.*\)/\1 \1_v$(STRUCT_VERSION)/p' > $@

build/libgaroalva.a: build/libcapi.a build/symbols.txt build/text.o
	$(OBJCOPY) --redefine-syms=build/symbols.txt build/libcapi.a $@
	$(AR) rs $@ build/text.o

build/exports.map: Makefile | build
	echo 'GAROALVA_$(ABI) { global: garoalva_*; local: *; };' > $@

build/$(SHARED): build/libgaroalva.a build/exports.map
	$(CC) -shared -o $@ -Wl,-soname,$(SONAME) -Wl,--version-script=build/exports.map -Wl,-z,defs \
	    -Wl,--whole-archive build/libgaroalva.a -Wl,--no-whole-archive

build/libgaroalva.so: build/$(SHARED)
	ln -sf $(SHARED) build/$(SONAME)
	ln -sf $(SONAME) $@

test: test-header test-needs test-c test-versions test-guard test-rust test-reference
	tests/run

# A field that is too narrow can leave all sizes and offsets as asserted, but then padding follows it: -Wpadded.
test-header:
	echo '#include "garoalva.h"' | $(CC) -x c -std=c11 $(WARNINGS) -Wpadded -Iinclude -fsyntax-only -
	echo '#include "garoalva.h"' | $(CXX) -x c++ -std=c++11 $(WARNINGS) -Wpadded -Iinclude -fsyntax-only -
	CC='$(CC)' CXX='$(CXX)' tests/nodiscard

# The proved part needs these two names from outside, and no other: docs/LINKING.md says so.
test-needs: build/libcapi.a
	$(NM) --undefined-only $< | sed -n 's/^ *[Uwv] //p' | sort -u > build/needs.txt
	printf 'memcpy\nmemset\n' | diff - build/needs.txt

# The example and the tests of the C API, with each library, linked as docs/LINKING.md says.
test-c: all
	$(MAKE) install PREFIX=$(STAGE) DESTDIR=
	$(COMPILE) examples/protect.c -o build/protect-shared $(WITH_SHARED)
	$(COMPILE) examples/protect.c -o build/protect-static $(WITH_STATIC)
	LD_LIBRARY_PATH=$(STAGE)/lib build/protect-shared > build/protect-shared.txt
	diff examples/expected.txt build/protect-shared.txt
	build/protect-static > build/protect-static.txt
	diff examples/expected.txt build/protect-static.txt
	$(COMPILE) tests/c/*.c -o build/tests-shared $(WITH_SHARED)
	$(COMPILE) tests/c/*.c -o build/tests-static $(WITH_STATIC)
	LD_LIBRARY_PATH=$(STAGE)/lib build/tests-shared $(VERSION) $$($(PKG_CONFIG) --modversion garoalva)
	build/tests-static $(VERSION)

# A library with other structs must not link.
test-versions: all
	CC='$(CC)' AR='$(AR)' NM='$(NM)' tests/versions/run $(STRUCT_VERSION)

# The guard of a block by itself, compared with ISA-L's CRC too if pkg-config finds ISA-L.
test-guard: build/libblockguard.a
	$(COMPILE) -Iinclude tests/guard/main.c -o build/test-guard $< $(WITH_ISAL)
	build/test-guard

test-rust: build/libgaroalva.a
	$(CARGO) test $(CRATE)
	$(CARGO) run --quiet $(CRATE) --example protect > build/protect-rust.txt
	diff examples/expected.txt build/protect-rust.txt

test-reference: build/libgaroalva.a
	$(CARGO) test --quiet --offline --manifest-path tests/reference/Cargo.toml --features live

bench: build/libgaroalva.a build/libblockguard.a
	bench/run $(QUICK)

install: all
	install -d $(DESTDIR)$(PREFIX)/include $(DESTDIR)$(PREFIX)/lib/pkgconfig
	install -m 644 include/garoalva.h $(DESTDIR)$(PREFIX)/include
	install -m 644 build/libgaroalva.a $(DESTDIR)$(PREFIX)/lib
	install -m 755 build/$(SHARED) $(DESTDIR)$(PREFIX)/lib
	ln -sf $(SHARED) $(DESTDIR)$(PREFIX)/lib/$(SONAME)
	ln -sf $(SONAME) $(DESTDIR)$(PREFIX)/lib/libgaroalva.so
	sed -e 's|@PREFIX@|$(PREFIX)|' -e 's|@VERSION@|$(VERSION)|' garoalva.pc.in \
	    > $(DESTDIR)$(PREFIX)/lib/pkgconfig/garoalva.pc

clean:
	rm -rf build
