.PHONY: all test demo pictures view-objects bench faults fuzz codecs install install-programs uninstall clean
.NOTPARALLEL:

# the header has the version, since C programs can ask for it there; names of shared objects and pkg-config repeat it
VERSION := $(shell sed -n 's/^\#define SPIREROOK_VERSION "\([0-9.]*\)".*/\1/p' include/spirerook.h 2>/dev/null)
MAJOR := $(firstword $(subst ., ,$(VERSION)))
PREFIX = /usr/local
LIBDIR = $(PREFIX)/lib
INCLUDEDIR = $(PREFIX)/include
BINDIR = $(PREFIX)/bin
PROGRAMS = spirerook-view spirerook-make

# the programs over the library: host/NAME.c each
BOTH = apart apart_inside colour digest file new_file lines names sheet_words turns
VIEW = $(addprefix view/,view options choices book pencil colour_notes layers compose decode decode_fax decode_t85 decode_jpeg picture screen) $(BOTH)
MAKE_PAGE = $(addprefix make/,make plan plan_layer plan_words picture_in picture_png picture_pnm to_lab code_fax code_t85 code_jpeg layers sheets side notes outputs octets trouble) $(BOTH)
# they open what strangers send
HARDENED = -D_FORTIFY_SOURCE=2 -fstack-protector-strong
HOST_C = cc -std=c11 -D_GNU_SOURCE -Wall -Wextra -Werror -O2 $(HARDENED) -Iinclude -Ihost

# the library for C, both ways
all: build/libspirerook.a build/libspirerook.so

test:
	@bash tests/run

# a prompt-book page made from drawings and shown, whole and with layers unread
demo:
	@command -v rt >/dev/null 2>&1 || { echo "demo: no command 'rt': the library is proved and built by the Rattle toolchain" >&2; exit 1; }
	@[ -f build/libspirerook.a ] || echo "Proving and building the library (README.md tells how long that takes)"
	@mkdir -p build/demo
	@$(MAKE) --no-print-directory build/spirerook-view build/spirerook-make >build/demo/log 2>&1 || { cat build/demo/log >&2; echo "demo: the programs do not build, as shown above" >&2; exit 1; }
	@bash examples/promptbook/demo build/demo

# the small pictures that README.md shows, from the demo's
pictures:
	@bash tools/pictures build/demo docs/pictures

# faults planted in the reference, each of which a table of answers, or the test of the boundary, must find
faults: export SPIREROOK_TRIALS ?= 5
faults:
	@python3 tests/faults_sheet.py
	@python3 tests/faults_page.py
	@python3 tests/faults_write.py
	@python3 tests/faults_line.py
	@python3 tests/faults_band.py
	@python3 tests/faults_data.py
	@python3 tests/faults_boundary.py

# FUZZ_SECONDS of changed pages, sheets and plane lists, the library beside the reference; what differs is kept in tests/cases.
# Then the tests that try random cases, SPIREROOK_TRIALS times as many as in make test; times and sizes are then the full ones.
RANDOM_TESTS = boundary valgrind pages_reference writes_reference lines_reference bands_reference data_reference grey listing view view_unseen view_bands view_damage view_limits fill make files
fuzz: export SPIREROOK_TRIALS ?= 5
fuzz: build/libspirerook.a build/spirerook-view build/spirerook-make
	@python3 tests/fuzz.py
	@for t in $(RANDOM_TESTS); do echo "tests/test_$$t.py"; python3 tests/test_$$t.py || exit 1; done

# the coders from Debian's source with sanitizers, in the folder CODECS, and damage under programs with these; what is found is kept in CODECS/found
CODECS = $(or $(TMPDIR),/tmp)/spirerook-codecs
codecs: export SPIREROOK_TRIALS ?= 20
codecs: build/libspirerook.a build/spirerook-view build/spirerook-make
	@bash tools/sanitized-codecs "$(CODECS)"
	@for t in view_damage make; do echo "tests/test_$$t.py"; SPIREROOK_CODECS="$(CODECS)" KEEP="$(CODECS)/found" python3 tests/test_$$t.py || exit 1; done

bench:
	@bash bench/run

clean:
	rm -rf build crates/*/out

build/libspirerook.a: $(shell find crates -name out -prune -o \( -name '*.rt' -o -name '*.antt' \) -print 2>/dev/null) crates.txt
	@command -v rt >/dev/null 2>&1 || { echo "no command 'rt': the library is proved and built by the Rattle toolchain" >&2; exit 1; }
	@mkdir -p build
	bash tools/archive spirerook
	cp crates/spirerook/out/libspirerook.a $@

# nothing may be left undefined but what the C library has, and no text is relocated
build/libspirerook.so: build/libspirerook.a
	cc -shared -fPIC -o $@ -Wl,-soname,libspirerook.so.$(MAJOR) -Wl,--no-undefined -Wl,-z,text -Wl,-z,noexecstack \
		-Wl,--whole-archive build/libspirerook.a -Wl,--no-whole-archive
	ln -sf libspirerook.so $@.$(MAJOR)

build/host/needs: tests/need
	@bash tests/need cc:gcc stdio.h:libc6-dev jpeglib.h:libjpeg62-turbo-dev tiffio.h:libtiff-dev jbig85.h:libjbig-dev png.h:libpng-dev zlib.h:zlib1g-dev nettle/sha2.h:nettle-dev
	@mkdir -p $(@D)
	@touch $@

build/host/%.o: host/%.c $(wildcard host/*.h host/*/*.h) include/spirerook.h | build/host/needs
	@mkdir -p $(@D)
	$(HOST_C) -c -o $@ $<

# for those who build the viewer in another way
view-objects:
	@echo $(VIEW)

build/spirerook-view: $(VIEW:%=build/host/%.o) build/libspirerook.a
	cc -Wl,-z,relro,-z,now -o $@ $^ -ltiff -ljbig -ljpeg -lnettle -lz -lm

build/spirerook-make: $(MAKE_PAGE:%=build/host/%.o) build/libspirerook.a
	cc -Wl,-z,relro,-z,now -o $@ $^ -ltiff -ljbig -ljpeg -lnettle -lpng -lm

install: all
	@case "$(LIBDIR):$(INCLUDEDIR)" in /*:/*) ;; *) echo "install: PREFIX must be an absolute path, not '$(PREFIX)'" >&2; exit 1 ;; esac
	install -d "$(DESTDIR)$(LIBDIR)/pkgconfig" "$(DESTDIR)$(INCLUDEDIR)"
	install -m 644 include/spirerook.h host/spirerook_colour.h "$(DESTDIR)$(INCLUDEDIR)"
	install -m 644 build/libspirerook.a "$(DESTDIR)$(LIBDIR)/libspirerook.a"
	install -m 755 build/libspirerook.so "$(DESTDIR)$(LIBDIR)/libspirerook.so.$(VERSION)"
	ln -sf libspirerook.so.$(VERSION) "$(DESTDIR)$(LIBDIR)/libspirerook.so.$(MAJOR)"
	ln -sf libspirerook.so.$(MAJOR) "$(DESTDIR)$(LIBDIR)/libspirerook.so"
	sed -e 's|@PREFIX@|$(PREFIX)|' -e 's|@LIBDIR@|$(LIBDIR)|' -e 's|@INCLUDEDIR@|$(INCLUDEDIR)|' -e 's|@VERSION@|$(VERSION)|' \
		spirerook.pc.in >"$(DESTDIR)$(LIBDIR)/pkgconfig/spirerook.pc"

# the viewer and the page maker, which need more of the system than the library does
install-programs: $(PROGRAMS:%=build/%)
	@case "$(BINDIR)" in /*) ;; *) echo "install: PREFIX must be an absolute path, not '$(PREFIX)'" >&2; exit 1 ;; esac
	install -d "$(DESTDIR)$(BINDIR)"
	install -m 755 $^ "$(DESTDIR)$(BINDIR)"

uninstall:
	rm -f $(PROGRAMS:%="$(DESTDIR)$(BINDIR)/%")
	rm -f "$(DESTDIR)$(INCLUDEDIR)/spirerook.h" "$(DESTDIR)$(INCLUDEDIR)/spirerook_colour.h"
	rm -f "$(DESTDIR)$(LIBDIR)/pkgconfig/spirerook.pc" "$(DESTDIR)$(LIBDIR)/libspirerook.a"
	rm -f "$(DESTDIR)$(LIBDIR)/libspirerook.so" "$(DESTDIR)$(LIBDIR)/libspirerook.so.$(MAJOR)" "$(DESTDIR)$(LIBDIR)/libspirerook.so.$(VERSION)"
