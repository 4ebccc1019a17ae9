# Proves, builds, tests and packs stlslice. `make help` lists what it can do.

# the version, from the source that has it
VERSION := $(shell sed -nE 's/^const VERSION: &str = "([^ ]+) .*/\1/p' crates/task_words/src/command.rt)
DESTDIR ?=
PREFIX ?= /usr/local
FACETS ?= 200000
BASE ?= HEAD
# what `make library`, `make wheel` and `make dist` are for: native is this machine; other targets heed it not
TARGET = native
TARGETS := native aarch64-linux x86_64-windows
$(if $(filter $(TARGET),$(TARGETS)),,$(error TARGET is $(TARGET), and not one of $(TARGETS)))
CRATE := crates/stlslice_program
PROGRAM := build/stlslice
SOURCES := crates.txt $(shell find crates -path '*/out' -prune -o -type f \( -name '*.rt' -o -name '*.antt' \) -print)

LIBRARY := build/library/libstlslice.so.$(VERSION)
LIBRARY_OF_native := $(LIBRARY)
LIBRARY_OF_aarch64-linux := build/aarch64-linux/libstlslice.so.$(VERSION)
LIBRARY_OF_x86_64-windows := build/x86_64-windows/stlslice.dll
# what `make dist` packs
DIST_OF_native := $(PROGRAM) $(LIBRARY)
DIST_OF_x86_64-windows := $(LIBRARY_OF_x86_64-windows) build/web/preview.html
# the module of LLVM that the library is compiled from; those for other machines, and the page, are compiled from it too
LLVM_MODULE := build/made/module.bc
LIBRARY_SOURCES := include/stlslice.h library/build library/exports.map library/stlslice.pc

SHARE = $(PREFIX)/share
LIB = $(PREFIX)/lib
INCLUDE = $(PREFIX)/include
COMMANDS = stlslice-sl1 stlslice-pngs stlslice-slabs stlslice-page
MODULES = $(SHARE)/stlslice
MANUALS = $(SHARE)/man/man1
BASH_COMPLETIONS = $(SHARE)/bash-completion/completions
ZSH_COMPLETIONS = $(SHARE)/zsh/site-functions
FISH_COMPLETIONS = $(SHARE)/fish/vendor_completions.d
DOCS = $(SHARE)/doc/stlslice

MISSING = rt is missing: the Rattle toolchain, rattle-kit-13, which proves and builds stlslice; put the folder bin/ \
	of the kit on the PATH. A built stlslice itself needs only the C library (glibc 2.34 or later).
NEEDS_RT = @command -v rt > /dev/null || { echo "$(MISSING)" >&2; exit 1; }

.PHONY: all help demo check test library test-library web test-web wheel install install-program install-library uninstall deb dist docs \
	bench examples clean

all: $(PROGRAM) $(LIBRARY)  ## proves and builds the program, build/stlslice, and the library for C and the commands, build/library

# `rt run` proves the libraries and the program, builds it and runs it once, on the stored input.
$(PROGRAM): $(SOURCES)
	$(NEEDS_RT)
	cd $(CRATE) && rt run -- $$(cat args) < stdin
	mkdir -p build
	cp $(CRATE)/out/stlslice_program $@

demo:  ## slices a bundled part into build/demo, at once: unproved if the program isn't built
	@test -x $(PROGRAM) || command -v rt > /dev/null || { echo "$(MISSING)" >&2; exit 1; }
	@python3 examples/demo.py $(PROGRAM) build/demo

help:  ## lists these targets
	@sed -nE 's/^([a-z-]+):.*  ## (.*)/\1\t\2/p' Makefile | awk -F '\t' '{ printf "%-16s %s\n", $$1, $$2 }'

check:  ## what a change touches, in minutes; BASE=REV: since the branch left REV (HEAD)
	$(NEEDS_RT)
	@tools/check.py $(BASE)

test:  ## the gate: every proof, edit and test, and what ships; leaves what it built in build/
	$(NEEDS_RT)
	@tools/gate.py $(CRATE)/out/stlslice_program
	@mkdir -p build && cp $(CRATE)/out/stlslice_program build/stlslice

library: $(LIBRARY_OF_$(TARGET))  ## proves and builds the library for C, in build/library; for another TARGET in build/TARGET

$(LIBRARY): $(SOURCES) $(LIBRARY_SOURCES) library/proved.py
	$(NEEDS_RT)
	mkdir -p build/made
	library/proved.py build/made/proved.a $(LLVM_MODULE)
	CC="$(CC)" library/build native build/made/proved.a build/library $(VERSION) $(PREFIX)

$(LIBRARY_OF_aarch64-linux) $(LIBRARY_OF_x86_64-windows): $(LIBRARY) $(LIBRARY_SOURCES) library/rattle_heap.ll
	library/build $(notdir $(@D)) $(LLVM_MODULE) $(@D) $(VERSION) $(PREFIX)

wheel: $(LIBRARY_OF_$(TARGET))  ## a wheel of the Python module and the library for TARGET, in build/
	@mkdir -p build
	python3 python/wheel_of_library.py $(VERSION) $< build

test-library: $(LIBRARY) $(PROGRAM)  ## compares the library's layers, in C, C++ and Python, with the program's
	CC="$(CC)" CXX="$(CXX)" library/test build/library $(PROGRAM)

web: build/web/preview.html  ## a page that slices in a browser: the library as WebAssembly, in build/web/preview.html

build/web/preview.html: $(LIBRARY) $(LIBRARY_SOURCES) library/rattle_heap.ll docs/refused.md $(wildcard library/web/*.* python/stlslice/printers.* examples/*.stl)
	CC="$(CC)" library/build page $(LLVM_MODULE) build/web $(VERSION) $(PREFIX)

# Without Chromium the test ends with status 77 and one line: it was skipped.
test-web: build/web/preview.html $(PROGRAM)  ## tries that page in headless browsers, beside the program and the library
	CC="$(CC)" library/web/test build/web/preview.html $(PROGRAM) build/library build/web/pictures || test $$? -eq 77

install: install-program install-library  ## copies the program, its commands and files, and the library, below PREFIX

# the commands find the library beside the Python module, whatever PREFIX is
install-program: $(PROGRAM)
	install -D -m 755 $(PROGRAM) $(DESTDIR)$(PREFIX)/bin/stlslice
	install -m 755 $(addprefix commands/,$(COMMANDS)) $(DESTDIR)$(PREFIX)/bin
	install -d $(addprefix $(DESTDIR)$(MODULES)/,stlslice stlslice_commands) $(DESTDIR)$(MANUALS) $(DESTDIR)$(DOCS)/examples \
		$(DESTDIR)$(DOCS)/docs/decisions
	install -m 644 commands/stlslice_commands/*.* $(DESTDIR)$(MODULES)/stlslice_commands
	install -m 644 python/stlslice/*.* $(DESTDIR)$(MODULES)/stlslice
	ln -sfr $(DESTDIR)$(LIB)/libstlslice.so.1 $(DESTDIR)$(MODULES)/stlslice
	for name in stlslice $(COMMANDS); do \
		gzip -9nc man/$$name.1 > $(DESTDIR)$(MANUALS)/$$name.1.gz; \
		chmod 644 $(DESTDIR)$(MANUALS)/$$name.1.gz; \
		words=$$(echo $$name | sed s/pngs/sl1/); \
		install -D -m 644 completions/$$words.bash $(DESTDIR)$(BASH_COMPLETIONS)/$$name; \
		install -D -m 644 completions/_$$words $(DESTDIR)$(ZSH_COMPLETIONS)/_$$words; \
		install -D -m 644 completions/$$words.fish $(DESTDIR)$(FISH_COMPLETIONS)/$$name.fish; \
	done
	install -m 644 *.md LICENSE $(DESTDIR)$(DOCS)
	install -m 644 docs/*.* $(DESTDIR)$(DOCS)/docs
	install -m 644 docs/decisions/* $(DESTDIR)$(DOCS)/docs/decisions
	for file in examples/*.*; do \
		mode=644; test ! -x "$$file" || mode=755; \
		install -m $$mode "$$file" $(DESTDIR)$(DOCS)/examples; \
	done

install-library: $(LIBRARY)  ## installs the library alone: headers, archive, shared library, pkg-config
	install -D -m 644 include/stlslice.h $(DESTDIR)$(INCLUDE)/stlslice.h
	install -D -m 644 $(dir $(LIBRARY))libstlslice.a $(DESTDIR)$(LIB)/libstlslice.a
	install -m 755 $(LIBRARY) $(DESTDIR)$(LIB)
	ln -sf libstlslice.so.$(VERSION) $(DESTDIR)$(LIB)/libstlslice.so.1
	ln -sf libstlslice.so.1 $(DESTDIR)$(LIB)/libstlslice.so
	install -d $(DESTDIR)$(LIB)/pkgconfig
	sed 's|^prefix=.*|prefix=$(PREFIX)|; s|^libdir=.*|libdir=$(LIB)|; s|^includedir=.*|includedir=$(INCLUDE)|' \
		$(dir $(LIBRARY))stlslice.pc > $(DESTDIR)$(LIB)/pkgconfig/stlslice.pc
	chmod 644 $(DESTDIR)$(LIB)/pkgconfig/stlslice.pc

uninstall:  ## removes what make install copied
	for name in stlslice $(COMMANDS); do \
		rm -f $(DESTDIR)$(PREFIX)/bin/$$name $(DESTDIR)$(MANUALS)/$$name.1.gz $(DESTDIR)$(BASH_COMPLETIONS)/$$name \
			$(DESTDIR)$(ZSH_COMPLETIONS)/_$$name $(DESTDIR)$(FISH_COMPLETIONS)/$$name.fish; \
	done
	rm -rf $(DESTDIR)$(SHARE)/stlslice
	rm -rf $(DESTDIR)$(DOCS)
	rm -f $(DESTDIR)$(INCLUDE)/stlslice.h $(DESTDIR)$(LIB)/libstlslice.a $(DESTDIR)$(LIB)/pkgconfig/stlslice.pc
	rm -f $(DESTDIR)$(LIB)/libstlslice.so $(DESTDIR)$(LIB)/libstlslice.so.1 $(DESTDIR)$(LIB)/libstlslice.so.$(VERSION)

deb: $(PROGRAM) $(LIBRARY)  ## Debian packages of the program with its commands, and of the library, in build/
	tools/deb $(PROGRAM) $(VERSION) build $(LIBRARY)

dist: $(DIST_OF_$(TARGET))  ## a tarball of the program, its commands and the library, in build/; TARGET=x86_64-windows: a zip
	tools/dist $(or $(word 1,$^),$(error there is no tarball for $(TARGET))) $(VERSION) build $(word 2,$^)

docs:  ## the reference of all crates, as HTML in build/docs: contracts, definitions, what has to be believed
	python3 tools/reference.py build/docs

bench: $(PROGRAM)  ## times the program on a mesh that it makes; FACETS=N says how large
	python3 bench/measure.py $(PROGRAM) $(FACETS)

examples:  ## makes the bundled parts anew
	python3 examples/make_parts.py

clean:  ## removes build/
	rm -rf build
