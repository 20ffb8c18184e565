# What can be made is printed by `make` alone.
PREFIX = /usr/local
bindir = $(PREFIX)/bin
libdir = $(PREFIX)/lib
includedir = $(PREFIX)/include
mandir = $(PREFIX)/share/man

engine = target/staticlib/libpdic.a
library = target/lib/libpdic.a target/lib/$(shared)
programs = target/programs/fill target/programs/glossary
proved = crates.txt $(shell find crates -name out -prune -o \( -name '*.rt' -o -name '*.antt' \) -print)
sources = include/pdic.h $(wildcard lib/* programs/*)
shared = $(word 2,$(shell lib/version.sh))
man1 = fill.1 glossary.1 pdic-list.1

.PHONY: help demo all test bench install uninstall clean

help:
	@echo 'make demo       proves and builds the engine, then shows the main job on a sample glossary and manual'
	@echo 'make all        the engine, the library for C and the programs, all below target/'
	@echo 'make install    puts programs, library, header and man pages below PREFIX ($(PREFIX)); DESTDIR, bindir, libdir,'
	@echo '                includedir and mandir are heeded'
	@echo 'make uninstall  removes what make install puts there'
	@echo 'make test       the gate: everything that is proved and tested'
	@echo 'make bench      the engine against a C baseline'
	@echo 'make clean      removes target/'

demo: $(programs)
	@examples/demo.sh target/programs

all: $(library) $(programs) target/bin/list

$(engine): $(proved)
	@tools/setup.sh demo
	@echo 'The engine is proved, then compiled. The first time takes many minutes: each crate is proved from nothing.'
	@tools/engine.sh

target/bin/list: $(engine)
	@tools/engine.sh list

$(library) &: $(engine) $(sources)
	@lib/build.sh target/lib

$(programs) &: $(engine) $(sources)
	@tools/setup.sh demo
	@programs/build.sh target/programs

test:
	@.ci/run

bench:
	@tools/setup.sh demo
	@bench/run.sh

install: all
	install -d "$(DESTDIR)$(bindir)" "$(DESTDIR)$(includedir)" "$(DESTDIR)$(libdir)/pkgconfig" \
	    "$(DESTDIR)$(mandir)/man1" "$(DESTDIR)$(mandir)/man3" "$(DESTDIR)$(mandir)/man5"
	install $(programs) "$(DESTDIR)$(bindir)"
	install target/bin/list "$(DESTDIR)$(bindir)/pdic-list"
	install -m 644 include/pdic.h "$(DESTDIR)$(includedir)"
	install -m 644 $(library) "$(DESTDIR)$(libdir)"
	ln -sf $(shared) "$(DESTDIR)$(libdir)/libpdic.so"
	lib/pc.sh "$(PREFIX)" "$(libdir)" "$(includedir)" | install -m 644 /dev/stdin "$(DESTDIR)$(libdir)/pkgconfig/pdic.pc"
	install -m 644 $(addprefix man/,$(man1)) "$(DESTDIR)$(mandir)/man1"
	install -m 644 man/pdic.3 "$(DESTDIR)$(mandir)/man3"
	install -m 644 man/pdic.5 "$(DESTDIR)$(mandir)/man5"
	@[ -n "$(DESTDIR)" ] || echo 'Programs find the shared library after ldconfig (as root); below another PREFIX by LD_LIBRARY_PATH=$(libdir).'

uninstall:
	rm -f $(addprefix "$(DESTDIR)$(bindir)"/,$(notdir $(programs)) pdic-list) "$(DESTDIR)$(includedir)"/pdic.h \
	    $(addprefix "$(DESTDIR)$(libdir)"/,libpdic.a libpdic.so $(shared) pkgconfig/pdic.pc) \
	    $(addprefix "$(DESTDIR)$(mandir)"/,$(addprefix man1/,$(man1)) man3/pdic.3 man5/pdic.5)

clean:
	rm -rf target
