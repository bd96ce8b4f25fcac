# make            proves the player's library and writes the archive, target/libseek.a, and the shared library
# make seek       the desk's program, target/seek
# make coverage   the program of the coverage sheet, proved, target/seek-coverage
# make check      the tests of the library from C and Rust, of the desk's program and of the release
# make install    archive, shared library, headers, pkg-config and CMake files, the desk's program and its manual page; make uninstall removes them
# make dist       target/seek-VERSION-x86_64-linux.tar.gz, which needs nothing of this tree; make deb: a Debian package of the same
# make clean      removes what these write; what is proved stays
# PREFIX, LIBDIR, INCLUDEDIR, BINDIR, MANDIR and DESTDIR say where to; CC, CFLAGS and LDFLAGS how.
PREFIX ?= /usr/local
LIBDIR ?= $(PREFIX)/lib
INCLUDEDIR ?= $(PREFIX)/include
BINDIR ?= $(PREFIX)/bin
MANDIR ?= $(PREFIX)/share/man
DESTDIR ?=
CFLAGS ?= -O2
VERSION := $(shell sed -n 's/^.define SEEK_VERSION_TEXT "\(.*\)"/\1/p' include/seek.h)
SONAME := libseek.so.$(firstword $(subst ., ,$(VERSION)))
ARCHIVE = target/libseek.a
SHARED = target/libseek.so.$(VERSION)
HEADERS = include/seek.h include/seek_file.h
# what is proved; crates/NAME/out is made by rt
SOURCES = $(shell find crates -name out -prune -o \( -name '*.rt' -o -name '*.antt' \) -print)
DESK = desk/seek.c $(wildcard desk/seek/*.c)
SEEK = $(CC) $(CFLAGS) -std=c99 -Wall -Wextra -Iinclude $(LDFLAGS)

all: $(ARCHIVE) $(SHARED)

$(ARCHIVE): tools/archive crates.txt $(SOURCES)
	tools/archive

# the archive's objects as they are; only the seek_raw_ calls are exported
$(SHARED): $(ARCHIVE) tools/package/exports.map
	$(CC) $(CFLAGS) -shared -Wl,-soname,$(SONAME) -Wl,--version-script=tools/package/exports.map -Wl,--build-id=none $(LDFLAGS) \
	    -Wl,--whole-archive $(ARCHIVE) -Wl,--no-whole-archive -o $@

seek: target/seek

target/seek: $(DESK) $(wildcard desk/seek/*.h) $(HEADERS) $(ARCHIVE)
	$(SEEK) $(DESK) $(ARCHIVE) -o $@

coverage: target/seek-coverage

target/seek-coverage: crates/coverage/out/coverage
	mkdir -p target
	cp $< $@

# as rt proves and links it, for rt ci too; it is run on no file
crates/coverage/out/coverage: crates.txt $(SOURCES)
	cd crates/coverage && rt run < /dev/null > /dev/null
	touch -c $@

# the program of a release: it needs no library of the machine that it runs on
target/static/seek: $(DESK) $(wildcard desk/seek/*.h) $(HEADERS) $(ARCHIVE)
	mkdir -p target/static
	$(SEEK) -static -Wl,--build-id=none $(DESK) $(ARCHIVE) -o $@

check: all seek
	tests/c/run
	tests/desk/run
	tests/release/run

PLACES = -e 's|@PREFIX@|$(PREFIX)|' -e 's|@LIBDIR@|$(LIBDIR)|' -e 's|@INCLUDEDIR@|$(INCLUDEDIR)|' -e 's|@VERSION@|$(VERSION)|' -e 's|@SONAME@|$(SONAME)|' \
    -e 's|@FROM_LIBDIR@|$(shell realpath -m --relative-to='$(LIBDIR)' '$(INCLUDEDIR)')|'
INSTALLED = '$(DESTDIR)$(BINDIR)/seek' '$(DESTDIR)$(BINDIR)/seek-coverage' '$(DESTDIR)$(MANDIR)/man1/seek.1' '$(DESTDIR)$(MANDIR)/man1/seek-coverage.1' \
    '$(DESTDIR)$(LIBDIR)/libseek.a' '$(DESTDIR)$(LIBDIR)/libseek.so.$(VERSION)' \
    '$(DESTDIR)$(LIBDIR)/$(SONAME)' '$(DESTDIR)$(LIBDIR)/libseek.so' '$(DESTDIR)$(INCLUDEDIR)/seek.h' '$(DESTDIR)$(INCLUDEDIR)/seek_file.h' \
    '$(DESTDIR)$(LIBDIR)/pkgconfig/seek.pc' '$(DESTDIR)$(LIBDIR)/cmake/seek/seek-config.cmake' '$(DESTDIR)$(LIBDIR)/cmake/seek/seek-config-version.cmake'

install: all target/seek target/seek-coverage
	install -d '$(DESTDIR)$(LIBDIR)/pkgconfig' '$(DESTDIR)$(LIBDIR)/cmake/seek' '$(DESTDIR)$(INCLUDEDIR)' '$(DESTDIR)$(BINDIR)' '$(DESTDIR)$(MANDIR)/man1'
	install -m 755 target/seek '$(DESTDIR)$(BINDIR)/seek'
	install -m 644 desk/seek.1 '$(DESTDIR)$(MANDIR)/man1/seek.1'
	install -m 755 target/seek-coverage '$(DESTDIR)$(BINDIR)/seek-coverage'
	install -m 644 desk/seek-coverage.1 '$(DESTDIR)$(MANDIR)/man1/seek-coverage.1'
	install -m 644 $(ARCHIVE) '$(DESTDIR)$(LIBDIR)/libseek.a'
	install -m 644 $(SHARED) '$(DESTDIR)$(LIBDIR)/libseek.so.$(VERSION)'
	ln -sf libseek.so.$(VERSION) '$(DESTDIR)$(LIBDIR)/$(SONAME)'
	ln -sf $(SONAME) '$(DESTDIR)$(LIBDIR)/libseek.so'
	install -m 644 $(HEADERS) '$(DESTDIR)$(INCLUDEDIR)'
	sed $(PLACES) tools/package/seek.pc.in > '$(DESTDIR)$(LIBDIR)/pkgconfig/seek.pc'
	sed $(PLACES) tools/package/seek-config.cmake.in > '$(DESTDIR)$(LIBDIR)/cmake/seek/seek-config.cmake'
	sed $(PLACES) tools/package/seek-config-version.cmake.in > '$(DESTDIR)$(LIBDIR)/cmake/seek/seek-config-version.cmake'

uninstall:
	rm -f $(INSTALLED)
	-rmdir '$(DESTDIR)$(LIBDIR)/cmake/seek' 2> /dev/null

dist: all target/seek target/static/seek
	tools/package/dist $(VERSION)

deb: all target/seek target/static/seek
	tools/package/deb $(VERSION)

clean:
	rm -rf $(ARCHIVE) target/libseek.so.* target/seek target/seek-coverage target/static target/seek-*-x86_64-linux.tar.gz target/seek-index_*_amd64.deb

.PHONY: all seek coverage check install uninstall dist deb clean
