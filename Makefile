# make builds the library and the program in build/. make help lists the other targets.
PREFIX     = /usr/local
# The prefix in the file for pkg-config. With $${pcfiledir}/../.. the copy can be moved.
PC_PREFIX  = $(PREFIX)
BINDIR     = $(PREFIX)/bin
LIBDIR     = $(PREFIX)/lib
INCLUDEDIR = $(PREFIX)/include
DOCDIR     = $(PREFIX)/share/doc/delkuthi
MANDIR     = $(PREFIX)/share/man
CMAKEDIR   = $(LIBDIR)/cmake/delkuthi
BUILD      = build
LOG        = $(BUILD)/log
CC        ?= cc
CPPFLAGS  ?= -D_FORTIFY_SOURCE=2
CFLAGS    ?= -O2
# The program reads files from elsewhere, so it is always compiled and linked with these flags too.
HARDENED   = -fPIE -fstack-protector-strong -Wformat -Werror=format-security
LINKED     = -Wl,-z,relro -Wl,-z,now -Wl,-z,noexecstack
VERSION   := $(shell cat VERSION)
# A host that is linked with one version runs with every later version that has the same first number.
INTERFACE := $(firstword $(subst ., ,$(VERSION)))
SHARED    := libdelkuthi.so.$(VERSION)
CMAKE     := $(BUILD)/delkuthi-config.cmake $(BUILD)/delkuthi-config-version.cmake
LIBRARY   := $(BUILD)/libdelkuthi.a $(BUILD)/$(SHARED) $(BUILD)/delkuthi.pc $(CMAKE)
HEADERS   := $(wildcard include/*.h include/*.hpp)
DOCUMENTS := CHANGELOG.md LICENSE NOTICE docs/CONTRACT.md docs/DATASHEET.md docs/SAFETY.md docs/QUALIFICATION.md docs/SUPPORT.md docs/MISRA.md \
    $(BUILD)/TRACE.md
MANUALS   := $(BUILD)/delkuthi.1 $(BUILD)/delkuthi.3
EXAMPLES  := $(addprefix host/c/,bench_loop.c causes.c report.c file.c file.h) examples/table.bin examples/recording.bin

.PHONY: all lib program install install-lib install-dev uninstall clean help test test-python test-ports kit run bench count worst records portable trace dist sign wheel always

all: lib program
lib: $(LIBRARY)
program: $(BUILD)/delkuthi $(MANUALS) $(BUILD)/TRACE.md

help:
	@echo "make run         prints the report and the page of the drive in examples/; proves and builds the library first"
	@echo "make test        the gate: proves everything, then runs all tests"
	@echo "make             the library and the program, in $(BUILD)/"
	@echo "make lib         $(SHARED), libdelkuthi.a and the files for pkg-config and CMake alone"
	@echo "make program     delkuthi and the manual pages alone"
	@echo "make install     installs to PREFIX ($(PREFIX)), under DESTDIR if that is set"
	@echo "make uninstall   removes what make install has installed"
	@echo "make wheel       a wheel of the package in python/ with the shared library in it, in $(BUILD)/"
	@echo "make dist        the release: a folder and a tarball in $(BUILD)/, of a commit on which the gate passed; UNCHECKED=yes without a gate"
	@echo "                 PORTS=yes also for aarch64 Linux and x86-64 Windows, tested and not proved; INSTALL=--install installs the packages"
	@echo "make sign        signs the checksums of the release: KEY=file with a key of minisign, or KEY=name of a key of gpg"
	@echo "make portable    the sources as one no_std crate of Rust for other machines, in $(BUILD)/portable"
	@echo "make kit         the qualification kit: vectors made by the model, and a runner in C for any machine, in $(BUILD)/kit"
	@echo "make trace       TRACE.md, from each promise of the contract to its definition, theorem, function and tests"
	@echo "make test-python the tests of the package in python/ alone"
	@echo "make test-ports  the portable crate on other machines under qemu, beside the proved library; INSTALL=--install installs the packages"
	@echo "make bench       the speed beside plain Rust"
	@echo "make worst       the slowest calls, in cycles"
	@echo "make count       the instructions of a call beside plain Rust; needs valgrind"
	@echo "make records     the instructions of a record in a report, in stamps and in a join, and of the shortest stretch; needs valgrind"
	@echo "make clean       removes $(BUILD)/"
	@echo "The library is proved and built with rt, of the Rattle kit. If DELKUTHI_LIB names the folder of a libdelkuthi.a, that archive is used;"
	@echo "rt is not needed then, and make test runs all tests but the proofs."

# The archive is proved and built, or copied byte for byte from the folder that DELKUTHI_LIB names. Its parts are compiled separately:
# the search for a stretch uses what a step uses, and in one unit the compiler would optimise the steps differently.
PARTS := delkuthi stretch_ffi queries read_back
ifdef DELKUTHI_LIB
ARCHIVES := $(DELKUTHI_LIB)/libdelkuthi.a
put_together = cp $(ARCHIVES) $@.new
else
ARCHIVES := $(patsubst %,target/staticlib/lib%.a,$(PARTS))
CRATES   := crates.txt $(shell find crates -name out -prune -o -type f -print)
$(ARCHIVES): target/staticlib/lib%.a: $(CRATES)
	@command -v rt >/dev/null || { echo "rt, of the Rattle kit, is not installed; set DELKUTHI_LIB to the folder of a libdelkuthi.a"; exit 1; }
	@python3 release/progress.py $(LOG)/$*.log bash release/archive $*
	@touch $@
put_together = { echo "create $@.new"; for part in $(ARCHIVES); do echo "addlib $$part"; done; echo save; echo end; } | ar -M
endif

# These are made in every make, because DELKUTHI_LIB and PREFIX may differ from last time. A file that would not change is left alone.
$(BUILD)/libdelkuthi.a: $(ARCHIVES) always
	@mkdir -p $(BUILD)
	@$(put_together)
	@if cmp -s $@.new $@; then rm $@.new; else mv $@.new $@; fi

# A path relative to the prefix, or to the folder that the file itself is in.
from_prefix = $(patsubst $(PREFIX)/%,$${prefix}/%,$1)
from_cmake = $(shell realpath -m --relative-to=$(CMAKEDIR) $1)
$(BUILD)/delkuthi.pc $(CMAKE) $(BUILD)/exports.map $(BUILD)/delkuthi.1: $(BUILD)/%: release/%.in VERSION always
	@mkdir -p $(BUILD)
	@sed -e 's|@PREFIX@|$(PC_PREFIX)|' -e 's|@VERSION@|$(VERSION)|' -e 's|@INTERFACE@|$(INTERFACE)|' \
	    -e 's|@LIBDIR@|$(call from_prefix,$(LIBDIR))|' -e 's|@INCLUDEDIR@|$(call from_prefix,$(INCLUDEDIR))|' \
	    -e 's|@TO_LIBDIR@|$(call from_cmake,$(LIBDIR))|' -e 's|@TO_INCLUDEDIR@|$(call from_cmake,$(INCLUDEDIR))|' $< >$@.new
	@if cmp -s $@.new $@; then rm $@.new; else mv $@.new $@; fi

# The other two names are copies in this folder, since rt ci refuses links in the repository.
$(BUILD)/$(SHARED): $(BUILD)/libdelkuthi.a $(BUILD)/exports.map
	$(CC) -shared $(LDFLAGS) -Wl,-soname,libdelkuthi.so.$(INTERFACE) -Wl,--version-script=$(BUILD)/exports.map \
	    -Wl,--no-undefined $(LINKED) -o $@ -Wl,--whole-archive $< -Wl,--no-whole-archive
	rm -f $(BUILD)/libdelkuthi.so.$(INTERFACE) $(BUILD)/libdelkuthi.so
	cp $@ $(BUILD)/libdelkuthi.so.$(INTERFACE)
	cp $@ $(BUILD)/libdelkuthi.so

$(BUILD)/delkuthi: program/delkuthi.c $(HEADERS) $(BUILD)/libdelkuthi.a
	$(CC) -std=c99 $(CPPFLAGS) $(CFLAGS) $(HARDENED) -Iinclude $(LDFLAGS) -pie $(LINKED) -o $@ program/delkuthi.c $(BUILD)/libdelkuthi.a

$(BUILD)/delkuthi.3: release/delkuthi.3.in release/manual.py VERSION $(HEADERS)
	@mkdir -p $(BUILD)
	python3 release/manual.py library $@

trace: $(BUILD)/TRACE.md $(BUILD)/READING.md
TRACED := release/trace.py docs/READING.md docs/CONTRACT.md VERSION $(wildcard host/*/tests/*.rs) $(shell find crates -name '*.antt' -o -name '*.rt')
$(BUILD)/TRACE.md: $(TRACED)
	@mkdir -p $(BUILD)
	python3 release/trace.py $@

$(BUILD)/READING.md: $(TRACED)
	@mkdir -p $(BUILD)
	python3 release/trace.py --links $@

# A distribution has two packages: what a host needs to run, and what it needs to be compiled.
install-lib: $(BUILD)/$(SHARED)
	install -d $(DESTDIR)$(LIBDIR)
	install -m 755 $(BUILD)/$(SHARED) $(DESTDIR)$(LIBDIR)/
	ln -sf $(SHARED) $(DESTDIR)$(LIBDIR)/libdelkuthi.so.$(INTERFACE)

install-dev: lib $(MANUALS) $(BUILD)/TRACE.md
	install -d $(addprefix $(DESTDIR),$(LIBDIR)/pkgconfig $(CMAKEDIR) $(INCLUDEDIR) $(MANDIR)/man3 $(DOCDIR)/examples)
	ln -sf libdelkuthi.so.$(INTERFACE) $(DESTDIR)$(LIBDIR)/libdelkuthi.so
	install -m 644 $(BUILD)/libdelkuthi.a $(DESTDIR)$(LIBDIR)/
	install -m 644 $(BUILD)/delkuthi.pc $(DESTDIR)$(LIBDIR)/pkgconfig/
	install -m 644 $(CMAKE) $(DESTDIR)$(CMAKEDIR)/
	install -m 644 $(HEADERS) $(DESTDIR)$(INCLUDEDIR)/
	install -m 644 $(BUILD)/delkuthi.3 $(DESTDIR)$(MANDIR)/man3/
	install -m 644 $(DOCUMENTS) $(DESTDIR)$(DOCDIR)/
	install -m 644 $(EXAMPLES) $(DESTDIR)$(DOCDIR)/examples/

install: all install-lib install-dev
	install -d $(DESTDIR)$(BINDIR) $(DESTDIR)$(MANDIR)/man1
	install -m 755 $(BUILD)/delkuthi $(DESTDIR)$(BINDIR)/
	install -m 644 $(BUILD)/delkuthi.1 $(DESTDIR)$(MANDIR)/man1/

# The folders that make install makes, inner ones first. Those of /usr and /usr/local belong to the system, even if they are empty.
OWN_FOLDERS := $(DOCDIR)/examples $(DOCDIR) $(CMAKEDIR)
ALL_FOLDERS := $(OWN_FOLDERS) $(LIBDIR)/cmake $(LIBDIR)/pkgconfig $(LIBDIR) $(BINDIR) $(INCLUDEDIR) $(MANDIR)/man1 $(MANDIR)/man3 \
    $(MANDIR) $(dir $(DOCDIR)) $(PREFIX)/share $(PREFIX)
EMPTIED     := $(if $(filter /usr /usr/local,$(PREFIX)),$(OWN_FOLDERS),$(ALL_FOLDERS))

uninstall:
	rm -f $(DESTDIR)$(BINDIR)/delkuthi $(DESTDIR)$(MANDIR)/man1/delkuthi.1 $(DESTDIR)$(MANDIR)/man3/delkuthi.3
	rm -f $(addprefix $(DESTDIR)$(INCLUDEDIR)/,$(notdir $(HEADERS)))
	rm -f $(addprefix $(DESTDIR)$(LIBDIR)/,libdelkuthi.a libdelkuthi.so libdelkuthi.so.$(INTERFACE) $(SHARED) pkgconfig/delkuthi.pc)
	rm -f $(addprefix $(DESTDIR)$(CMAKEDIR)/,$(notdir $(CMAKE)))
	rm -f $(addprefix $(DESTDIR)$(DOCDIR)/,$(notdir $(DOCUMENTS)) $(addprefix examples/,$(notdir $(EXAMPLES))))
	@for folder in $(addprefix $(DESTDIR),$(EMPTIED)); do rmdir --ignore-fail-on-non-empty $$folder 2>/dev/null || true; done

clean:
	rm -rf $(BUILD)

test:
	bash .ci/run

# The wheel has the shared library in it: pip install needs nothing else.
wheel: $(LIBRARY)
	@python3 python/backend.py $(BUILD) $(BUILD)/$(SHARED)

# Debian's modules are for Debian's own Python. For another one: make test-python PYTHON=python3.
PYTHON = /usr/bin/python3
test-python: lib
	$(PYTHON) -m pytest -q -p no:cacheprovider python/tests

# What a new user sees first. It installs a compiler, binutils and Python if they are missing.
run:
	@bash .ci/install build
	@$(MAKE) --no-print-directory --silent $(BUILD)/report
	@$(BUILD)/report examples/table.bin examples/recording.bin page

$(BUILD)/report: host/c/report.c host/c/file.c host/c/file.h $(HEADERS) $(BUILD)/libdelkuthi.a
	$(CC) -std=c99 $(CPPFLAGS) $(CFLAGS) -Iinclude $(LDFLAGS) -o $@ host/c/report.c host/c/file.c $(BUILD)/libdelkuthi.a

bench:
	cd host && cargo run --release --offline -p bench

count:
	cd host && cargo run --release --offline -p bench count

# Counts cycles with the time stamp counter of x86-64.
worst: lib
	$(CC) -std=c99 -O2 -Iinclude host/c/worst.c $(BUILD)/libdelkuthi.a -o $(BUILD)/worst
	$(BUILD)/worst

# The program starts itself again under callgrind.
records: lib
	$(CC) -std=c99 -O2 -Iinclude host/c/records.c $(BUILD)/libdelkuthi.a -o $(BUILD)/records
	$(BUILD)/records

portable:
	python3 release/portable.py $(BUILD)/portable $(PARTS)

# The vectors come from the model alone: neither the archive nor the prover takes part.
KIT := $(addprefix host/kit/c/,runner.c runner.h main.c vectors.h README.md)
kit:
	@mkdir -p $(BUILD)/kit
	@install -m 644 $(KIT) $(BUILD)/kit/
	@cd host && cargo run --quiet --offline --release -p kit -- $(abspath $(BUILD))/kit

test-ports: lib portable kit
	BUILD=$(BUILD) bash release/test-ports $(INSTALL)

# The release finds its own parts wherever it is unpacked.
dist:
	@python3 release/dist.py check $(BUILD) $(if $(UNCHECKED),unchecked)
	$(MAKE) --no-print-directory portable wheel kit
	rm -rf $(BUILD)/dist
	$(MAKE) --no-print-directory install DESTDIR=$(BUILD)/dist PREFIX=/tree PC_PREFIX='$$$${pcfiledir}/../..'
	python3 release/dist.py make $(BUILD) $(if $(UNCHECKED),unchecked)
	$(if $(PORTS),BUILD=$(BUILD) bash release/port-binaries $(INSTALL))

# Signs the checksums that make dist has left beside the tarballs.
sign:
	@bash release/sign "$(KEY)" $(BUILD)/delkuthi-$(VERSION).sha256
