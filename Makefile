# Installs the programs and their man pages, and the C library, where it was built or released.
#
#     make library                      proves and builds the C library (needs rt, cc and binutils)
#     make page                         makes out/page/index.html, which judges traces in a browser
#     make install PREFIX=/usr/local    installs what runs at once: built here, or released
#     make uninstall PREFIX=/usr/local
#     make check                        runs the tests
#
# DESTDIR is put before each path, for packages. PROGRAM, EXPLAIN, EMIT and PLACES name other programs,
# and LIBRARY another folder with the C library.
PREFIX ?= /usr/local
PROGRAM ?= $(shell tools/program --at-once vk_replay replay </dev/null)
EXPLAIN ?= $(shell tools/program --at-once explain explain </dev/null)
EMIT ?= $(shell tools/program --at-once emit emit </dev/null)
PLACES ?= $(shell tools/program --at-once places places </dev/null)
LIBRARY ?= $(shell tools/c_library --at-once)
BIN := $(DESTDIR)$(PREFIX)/bin
LIB := $(DESTDIR)$(PREFIX)/lib
INCLUDE := $(DESTDIR)$(PREFIX)/include
MAN := $(DESTDIR)$(PREFIX)/share/man/man1
SHARE := $(DESTDIR)$(PREFIX)/share/zorthewin
LIBEXEC := $(DESTDIR)$(PREFIX)/libexec/zorthewin
# (what draws for --picture and --timeline of zorthewin-explain)
DRAWING := drawing.sh drawing.txt explain_drawn.py picture.py pictured.py pictured_edits.py pictured_points.py \
    command_line.py trace_forms.py
NAMES := zorthewin-replay zorthewin-explain zorthewin-emit zorthewin-places

.PHONY: all library page install install-programs install-library uninstall check

all:
	@sed -n 's/^#     //p' Makefile

library:
	tools/c_library out/library

page:
	python3 tools/page/build.py out/page

install: install-programs install-library

install-programs:
	@for program in "$(PROGRAM)" "$(EXPLAIN)" "$(EMIT)" "$(PLACES)"; do \
	    [ -x "$$program" ] || { echo "install: the programs aren't built: run ./replay, ./explain, ./emit and ./places once" >&2; exit 1; }; \
	done
	install -d "$(BIN)" "$(MAN)" "$(SHARE)/tools" "$(LIBEXEC)"
	install -m 755 "$(PROGRAM)" "$(BIN)/zorthewin-replay"
	install -m 755 "$(EXPLAIN)" "$(LIBEXEC)/explain"
	install -m 755 tools/installed_explain "$(BIN)/zorthewin-explain"
	install -m 644 $(DRAWING:%=tools/%) "$(SHARE)/tools"
	install -m 755 "$(EMIT)" "$(BIN)/zorthewin-emit"
	install -m 755 "$(PLACES)" "$(BIN)/zorthewin-places"
	install -m 644 $(NAMES:%=man/%.1) "$(MAN)"
	install -m 644 tools/drive/zw_drive.h "$(SHARE)"

install-library:
	@library="$(LIBRARY)"; \
	if [ -z "$$library" ]; then \
	    echo "install: without the C library, which isn't built of these sources (make library)"; \
	    exit; \
	fi; \
	set -ex; \
	install -d "$(LIB)/pkgconfig" "$(INCLUDE)"; \
	install -m 644 "$$library/libzorthewin.a" "$(LIB)"; \
	install -m 755 "$$library/libzorthewin.so.0" "$(LIB)"; \
	ln -sf libzorthewin.so.0 "$(LIB)/libzorthewin.so"; \
	sed -e "s#@PREFIX@#$(PREFIX)#" -e "s#@VERSION@#$$(cat VERSION)#" c/zorthewin.pc.in >"$(LIB)/pkgconfig/zorthewin.pc"; \
	install -m 644 c/zorthewin.h "$(INCLUDE)"

uninstall:
	rm -f $(NAMES:%="$(BIN)/%") $(NAMES:%="$(MAN)/%.1")
	rm -f "$(LIB)/libzorthewin.a" "$(LIB)/libzorthewin.so" "$(LIB)/libzorthewin.so.0"
	rm -f "$(LIB)/pkgconfig/zorthewin.pc" "$(INCLUDE)/zorthewin.h"
	rm -rf "$(SHARE)" "$(LIBEXEC)"

check:
	./check
