# For callers in C and C++: builds the proved static library, and installs it with its header and mileparcel.pc for pkg-config.
#
#   make                                       builds the library where it is missing or older than its sources
#   make install PREFIX=FOLDER [DESTDIR=ROOT]  installs below FOLDER, which is /usr/local where none is named
#   make uninstall PREFIX=FOLDER [DESTDIR=ROOT]
#
# Where lib/libskew_c.a stands beside this file, as in a release, that one is installed as it is, and nothing is proved.
PREFIX ?= /usr/local

ifneq ($(words $(PREFIX)),1)
$(error PREFIX must be one folder, with no blank in its name)
endif
# mileparcel.pc is read from other folders than this.
prefix := $(abspath $(PREFIX))
include_dir = $(DESTDIR)$(prefix)/include
lib_dir = $(DESTDIR)$(prefix)/lib
pc_dir = $(lib_dir)/pkgconfig
version := $(shell sed -n 's/^\#define SKEW_VERSION "\(.*\)"$$/\1/p' include/skew.h)
library := $(or $(wildcard lib/libskew_c.a),target/staticlib/libskew_c.a)

define pc
prefix=$(prefix)
includedir=$${prefix}/include
libdir=$${prefix}/lib

Name: mileparcel
Description: Clock skew scheduling by proved functions
Version: $(version)
Cflags: -I$${includedir}
Libs: -L$${libdir} -lskew_c
endef
export pc

.PHONY: all install install-library uninstall uninstall-library always
all: $(library)

# Change times are read, as tools/run reads them, since a copy may set back those of the content; not that of a crate's own folder, which changes
# with its out/. The library gets the time at which the proving began, so that what changed meanwhile counts as newer. The lock is that of
# tools/run: one run proves at a time.
unread = -regex 'crates/[^/]*/\(must-fail\|twins\|stdin\|stdout\|out\)'
target/staticlib/libskew_c.a: always
	@[ -e $@ ] && [ -z "$$(find -L crates.txt crates $(unread) -prune -o ! -regex 'crates/[^/]*' -cnewer $@ -print -quit)" ] || { \
	    command -v rt >/dev/null || { echo 'make: the library must be proved, and rt is missing: put the Rattle kit on the PATH' >&2; exit 1; }; \
	    echo 'make: proving and building the library, some minutes where nothing is proved yet'; \
	    mkdir -p $(@D) && touch target/proving-library && (cd crates/skew_c && flock ../../crates.txt rt lib skew_c) && \
	    cp crates/skew_c/out/libskew_c.a $@.new && touch -r target/proving-library $@.new && mv -f $@.new $@; }

install: install-library
uninstall: uninstall-library

install-library: $(library)
	install -d "$(include_dir)" "$(pc_dir)"
	install -m 644 include/skew.h "$(include_dir)/skew.h"
	install -m 644 $(library) "$(lib_dir)/libskew_c.a"
	printf '%s\n' "$$pc" >"$(pc_dir)/mileparcel.pc"
	chmod 644 "$(pc_dir)/mileparcel.pc"

uninstall-library:
	rm -f "$(include_dir)/skew.h" "$(lib_dir)/libskew_c.a" "$(pc_dir)/mileparcel.pc"
