# Builds, installs and tests Qorshudan; `make help` tells the targets. All that is made lies under target/.

PREFIX = /usr/local
BINDIR = $(PREFIX)/bin
INCLUDEDIR = $(PREFIX)/include
LIBDIR = $(PREFIX)/lib
PKGCONFIGDIR = $(LIBDIR)/pkgconfig
MANDIR = $(PREFIX)/share/man
DESTDIR =

# Where the Python module goes, and the Python of the command. What builds a package for another Python names both.
PYTHON ?= python3
PYTHONDIR := $(or $(shell $(PYTHON) build/python_dir.py '$(PREFIX)' 2>/dev/null),$(PREFIX)/lib/python3/site-packages)

RT ?= rt
CARGO ?= cargo
INSTALL ?= install

# Installed, a program has `qorshudan-` before its name: POSIX has another `batch`.
PROGRAMS = batch

VERSION := $(shell cat VERSION)
MAJOR := $(firstword $(subst ., ,$(VERSION)))
SONAME = libqorshudan.so.$(MAJOR)

ARCHIVE = target/staticlib/libqorshudan.a
SHARED = target/shared/libqorshudan.so.$(VERSION)
MADE = $(ARCHIVE) $(SHARED) target/header-checked target/qorshudan.pc

# The crates to prove, and the files of crates that a proof reads. Folders are among them, since a file may go.
needs = $(shell awk -v want='$(1)' -f build/needs.awk crates.txt)
files = crates.txt $(shell find $(wildcard $(foreach part,src specs proofs,$(patsubst %,crates/%/$(part),$(1)))))
LIBRARY_CRATES := $(call needs,qorshudan_c)
CRATES := $(call needs,$(PROGRAMS) qorshudan_c)

all: $(MADE) target/proved
	@echo 'made: $(ARCHIVE), $(SHARED), target/qorshudan.pc, $(PROGRAMS:%=target/bin/%)'

# All crates but that of the exports are proved, one after another, and the programs compiled. That one is proved where its archive is
# written, so no crate is proved twice. Behind `rt ci`, which has just proved all, only that one is proved again (build/prove.sh).
target/proved: $(call files,$(CRATES))
	@RT='$(RT)' CC='$(CC)' build/prove.sh check $(words $(CRATES)) $(filter-out qorshudan_c,$(CRATES))
	@touch $@

$(ARCHIVE): $(call files,$(LIBRARY_CRATES)) | target/proved
	@RT='$(RT)' CC='$(CC)' build/prove.sh staticlib $(words $(CRATES)) qorshudan_c

# The archive's code is position independent; `-z text` fails if it should ever not be. The other two names are names of the same file, and
# no links to it: `rt ci` refuses a link anywhere in a checkout.
$(SHARED): $(ARCHIVE) build/exported.map VERSION Makefile
	@mkdir -p $(@D)
	$(CC) -shared -Wl,-soname,$(SONAME) -Wl,--version-script,build/exported.map -Wl,-z,text,-z,relro,-z,now,--no-undefined \
	    -Wl,--whole-archive $(ARCHIVE) -Wl,--no-whole-archive $(LDFLAGS) -o $@
	ln -f $@ $(@D)/$(SONAME)
	ln -f $@ $(@D)/libqorshudan.so

# The header by itself, and then over the library.
target/header-checked: include/qorshudan.h tests/header.c $(ARCHIVE)
	$(CC) -std=c99 -Wall -Wextra -Werror -pedantic -fsyntax-only -x c include/qorshudan.h
	$(CC) -std=c99 -Wall -Wextra -Werror -pedantic -Iinclude tests/header.c $(ARCHIVE) -o target/header
	target/header
	@touch $@

under_prefix = $(patsubst $(PREFIX)/%,$${prefix}/%,$(1))
write_pc = sed -e 's|@VERSION@|$(VERSION)|' -e 's|@PREFIX@|$(PREFIX)|' -e 's|@LIBDIR@|$(call under_prefix,$(LIBDIR))|' \
    -e 's|@INCLUDEDIR@|$(call under_prefix,$(INCLUDEDIR))|' build/qorshudan.pc.in

# The command and the module find each other, and the library, by the way from one to the other: the prefix may be moved.
way = $(shell realpath -ms --relative-to='$(1)' '$(2)')
write_command = sed -e 's|@PYTHON@|$(if $(findstring /,$(PYTHON)),$(PYTHON),/usr/bin/env $(PYTHON))|' \
    -e 's|@PACKAGE@|$(call way,$(BINDIR),$(PYTHONDIR)/qorshudan)|' build/qorshudan.in
write_installed = printf '"""Where make install put the library, from this folder."""\n\nLIBRARY = "%s"\n' \
    '$(call way,$(PYTHONDIR)/qorshudan,$(LIBDIR)/$(SONAME))'

target/qorshudan.pc: build/qorshudan.pc.in VERSION Makefile
	@mkdir -p target
	$(write_pc) >$@

install: all
	$(INSTALL) -d $(DESTDIR)$(BINDIR) $(DESTDIR)$(INCLUDEDIR) $(DESTDIR)$(LIBDIR) $(DESTDIR)$(PKGCONFIGDIR) \
	    $(DESTDIR)$(MANDIR)/man1 $(DESTDIR)$(MANDIR)/man3 $(DESTDIR)$(PYTHONDIR)/qorshudan
	$(INSTALL) -m 644 include/qorshudan.h $(DESTDIR)$(INCLUDEDIR)/qorshudan.h
	$(INSTALL) -m 644 $(ARCHIVE) $(DESTDIR)$(LIBDIR)/libqorshudan.a
	$(INSTALL) -m 755 $(SHARED) $(DESTDIR)$(LIBDIR)/libqorshudan.so.$(VERSION)
	ln -sf libqorshudan.so.$(VERSION) $(DESTDIR)$(LIBDIR)/$(SONAME)
	ln -sf $(SONAME) $(DESTDIR)$(LIBDIR)/libqorshudan.so
	$(write_pc) >$(DESTDIR)$(PKGCONFIGDIR)/qorshudan.pc
	chmod 644 $(DESTDIR)$(PKGCONFIGDIR)/qorshudan.pc
	for program in $(PROGRAMS); do \
	    $(INSTALL) -m 755 target/bin/$$program $(DESTDIR)$(BINDIR)/qorshudan-$$program \
	    && $(INSTALL) -m 644 man/qorshudan-$$program.1 $(DESTDIR)$(MANDIR)/man1/qorshudan-$$program.1 || exit 1; \
	done
	$(INSTALL) -m 644 man/qorshudan.3 $(DESTDIR)$(MANDIR)/man3/qorshudan.3
	$(INSTALL) -m 644 man/qorshudan.1 $(DESTDIR)$(MANDIR)/man1/qorshudan.1
	$(INSTALL) -m 644 bindings/python/qorshudan/*.py bindings/python/qorshudan/py.typed $(DESTDIR)$(PYTHONDIR)/qorshudan
	$(write_installed) >$(DESTDIR)$(PYTHONDIR)/qorshudan/_installed.py
	chmod 644 $(DESTDIR)$(PYTHONDIR)/qorshudan/_installed.py
	$(write_command) >$(DESTDIR)$(BINDIR)/qorshudan
	chmod 755 $(DESTDIR)$(BINDIR)/qorshudan

uninstall:
	rm -f $(DESTDIR)$(INCLUDEDIR)/qorshudan.h $(DESTDIR)$(PKGCONFIGDIR)/qorshudan.pc $(DESTDIR)$(MANDIR)/man3/qorshudan.3 \
	    $(addprefix $(DESTDIR)$(LIBDIR)/libqorshudan.,a so so.$(MAJOR) so.$(VERSION)) \
	    $(PROGRAMS:%=$(DESTDIR)$(BINDIR)/qorshudan-%) $(PROGRAMS:%=$(DESTDIR)$(MANDIR)/man1/qorshudan-%.1) \
	    $(DESTDIR)$(BINDIR)/qorshudan $(DESTDIR)$(MANDIR)/man1/qorshudan.1
	rm -rf $(DESTDIR)$(PYTHONDIR)/qorshudan

# The Python module and the shared library in one file, for pip.
wheel: $(SHARED)
	@mkdir -p target/wheel
	$(PYTHON) -c 'import sys; sys.dont_write_bytecode = True; sys.path.insert(0, "bindings/python"); \
	    import backend; print("made: target/wheel/" + backend.build_wheel("$(CURDIR)/target/wheel"))'

test:
	.ci/run

bench: $(ARCHIVE)
	CARGO_TARGET_DIR='$(CURDIR)/target/cargo' $(CARGO) run --release --offline --manifest-path bench/Cargo.toml --bin nine
	CARGO_TARGET_DIR='$(CURDIR)/target/cargo' $(CARGO) run --release --offline --manifest-path bench/Cargo.toml

clean:
	rm -rf target crates/*/out

help:
	@echo 'make             prove and compile the library, static and shared, and the programs ($(PROGRAMS)); check the header'
	@echo 'make install     install them with header, pkg-config file, Python module, the command qorshudan and manual pages:'
	@echo '                 PREFIX=$(PREFIX), DESTDIR=, PYTHON=$(PYTHON), PYTHONDIR=$(PYTHONDIR)'
	@echo 'make uninstall   remove what make install installs, with the same PREFIX and DESTDIR'
	@echo 'make wheel       the Python module with the shared library inside, for pip: target/wheel'
	@echo 'make test        .ci/run: the gate'
	@echo 'make bench       the exported functions beside an ordinary version: docs/BENCHMARKS.md'
	@echo 'make clean       remove target/ and what rt keeps of proofs, crates/*/out'

.PHONY: all install uninstall wheel test bench clean help
.DELETE_ON_ERROR:
