# libreis: a server's end of the ei protocol, for programs in C and in whatever calls C. GNU make.
#
#     make                        builds libreis.a and libreis.so in out/
#     make install PREFIX=..      installs them, with headers, reis.pc, a CMake package, the record of the proof, and the
#                                 program reis where it is built; DESTDIR=.. puts a folder in front of each path
#     make uninstall PREFIX=..    removes what that installed
#     make check                  runs the tests that stand around the proof: examples/check
#     make clean
#
# The proved part is the archive crates/reis_c/out/libreis_c.a. Where it isn't there, `rt lib` proves and builds it: that takes
# the kit that README.md names. With ARCHIVE=FILE no prover is needed.

PREFIX ?= /usr/local
LIBDIR ?= $(PREFIX)/lib
INCLUDEDIR ?= $(PREFIX)/include
BINDIR ?= $(PREFIX)/bin
MANDIR ?= $(PREFIX)/share/man
PROOFDIR ?= $(PREFIX)/share/reis
OUT ?= out
ARCHIVE ?= crates/reis_c/out/libreis_c.a
PROGRAM ?= crates/reis_prog/out/reis_prog
OBJCOPY ?= objcopy
NM ?= nm
INSTALL ?= install

VERSION := $(shell sed -n 's/^.define REIS_VERSION_TEXT "\(.*\)"$$/\1/p' include/reis.h)
SERIES := $(basename $(VERSION))
SONAME := libreis.so.$(SERIES)
SHARED := libreis.so.$(VERSION)
CMAKEDIR = $(LIBDIR)/cmake/reis

OBJECTS := $(OUT)/reis.o $(OUT)/names.o $(OUT)/heap.o
COMPILE = $(CC) -std=c11 -O2 -Wall -Wextra -Wconversion -pedantic -fPIC $(CFLAGS) -Iinclude

.PHONY: all static install uninstall check clean
.DELETE_ON_ERROR:
.PRECIOUS: $(ARCHIVE)

all: $(OUT)/libreis.a $(OUT)/$(SHARED) $(OUT)/proof

static: $(OUT)/libreis.a

$(OUT):
	mkdir -p $@

$(ARCHIVE):
	border/archive $@

$(OUT)/%.o: border/%.c border/exports.h include/reis.h include/reis_heap.h | $(OUT)
	$(COMPILE) -c $< -o $@

$(OUT)/names.c: border/names include/reis.h | $(OUT)
	border/names <include/reis.h >$@

$(OUT)/names.o: $(OUT)/names.c
	$(COMPILE) -c $< -o $@

# The names that a program may use; the others are made local.
$(OUT)/public: border/reis.map | $(OUT)
	sed -n 's/^    \(reis_[a-z_]*\);$$/\1/p' $< >$@

# One object for all but the heap, which stands in a second: a program's own comes in its place.
$(OUT)/libreis.o: $(ARCHIVE) $(OUT)/reis.o $(OUT)/names.o $(OUT)/public
	border/archive $(ARCHIVE)
	$(LD) -r -o $(OUT)/whole.o $(OUT)/reis.o $(OUT)/names.o --whole-archive $(ARCHIVE)
	@lacks=$$($(NM) -u $(OUT)/whole.o | sed -n 's/.* \(reis_c_.*\)/\1/p'); [ -z "$$lacks" ] || \
	    { echo "libreis: $(ARCHIVE) is of another version: it lacks" $$lacks >&2; exit 1; }
	$(OBJCOPY) --keep-global-symbols=$(OUT)/public $(OUT)/whole.o $@

$(OUT)/libreis.a: $(OUT)/libreis.o $(OUT)/heap.o
	rm -f $@
	$(AR) rcs $@ $^

# Copies stand beside it, and no links, which `rt ci` refuses wherever they lie.
$(OUT)/$(SHARED): $(OUT)/libreis.o $(OUT)/heap.o border/reis.map
	$(CC) -shared $(CFLAGS) $(LDFLAGS) -Wl,-soname,$(SONAME) -Wl,--version-script=border/reis.map -Wl,-z,defs -Wl,-z,text \
	    -Wl,-z,relro -Wl,-z,now $(OUT)/libreis.o $(OUT)/heap.o -o $@
	cp -f $@ $(OUT)/$(SONAME)
	cp -f $@ $(OUT)/libreis.so

$(OUT)/proof: $(OUT)/libreis.a $(OUT)/$(SHARED) border/record
	border/record $(ARCHIVE) $(OUT)/sources.sha256 $(OUT)/libreis.a $(OUT)/$(SHARED) >$@

FILL = sed -e 's|@PREFIX@|$(PREFIX)|' -e 's|@INCLUDEDIR@|$(INCLUDEDIR)|' -e 's|@LIBDIR@|$(LIBDIR)|' \
    -e 's|@VERSION@|$(VERSION)|' -e 's|@SONAME@|$(SONAME)|' -e 's|@SERIES_PATTERN@|$(subst .,[.],$(SERIES))|'

install: all
	$(INSTALL) -d '$(DESTDIR)$(INCLUDEDIR)' '$(DESTDIR)$(LIBDIR)/pkgconfig' '$(DESTDIR)$(CMAKEDIR)' '$(DESTDIR)$(PROOFDIR)'
	$(INSTALL) -m 644 include/reis.h include/reis_heap.h '$(DESTDIR)$(INCLUDEDIR)'
	$(INSTALL) -m 644 $(OUT)/libreis.a '$(DESTDIR)$(LIBDIR)'
	$(INSTALL) -m 755 $(OUT)/$(SHARED) '$(DESTDIR)$(LIBDIR)'
	ln -sf $(SHARED) '$(DESTDIR)$(LIBDIR)/$(SONAME)'
	ln -sf $(SONAME) '$(DESTDIR)$(LIBDIR)/libreis.so'
	$(FILL) border/reis.pc.in >'$(DESTDIR)$(LIBDIR)/pkgconfig/reis.pc'
	$(FILL) border/reis-config.cmake.in >'$(DESTDIR)$(CMAKEDIR)/reis-config.cmake'
	$(FILL) border/reis-config-version.cmake.in >'$(DESTDIR)$(CMAKEDIR)/reis-config-version.cmake'
	$(INSTALL) -m 644 $(OUT)/proof $(OUT)/sources.sha256 LICENSE '$(DESTDIR)$(PROOFDIR)'
ifneq ($(wildcard $(PROGRAM)),)
	$(INSTALL) -d '$(DESTDIR)$(BINDIR)' '$(DESTDIR)$(MANDIR)/man1'
	$(INSTALL) -m 755 $(PROGRAM) '$(DESTDIR)$(BINDIR)/reis'
	$(INSTALL) -m 644 man/reis.1 '$(DESTDIR)$(MANDIR)/man1'
endif

# A folder goes where nothing else is in it.
uninstall:
	rm -f '$(DESTDIR)$(INCLUDEDIR)/reis.h' '$(DESTDIR)$(INCLUDEDIR)/reis_heap.h' '$(DESTDIR)$(LIBDIR)/libreis.a' \
	    '$(DESTDIR)$(LIBDIR)/$(SHARED)' '$(DESTDIR)$(LIBDIR)/$(SONAME)' '$(DESTDIR)$(LIBDIR)/libreis.so' \
	    '$(DESTDIR)$(LIBDIR)/pkgconfig/reis.pc' '$(DESTDIR)$(CMAKEDIR)/reis-config.cmake' \
	    '$(DESTDIR)$(CMAKEDIR)/reis-config-version.cmake' '$(DESTDIR)$(PROOFDIR)/proof' \
	    '$(DESTDIR)$(PROOFDIR)/sources.sha256' '$(DESTDIR)$(PROOFDIR)/LICENSE' '$(DESTDIR)$(BINDIR)/reis' \
	    '$(DESTDIR)$(MANDIR)/man1/reis.1'
	rmdir '$(DESTDIR)$(CMAKEDIR)' '$(DESTDIR)$(PROOFDIR)' 2>/dev/null || true

check: all
	examples/check

clean:
	rm -rf $(OUT)
