# make            the libraries and the command: target/lib/libburrbeech.a and .so, target/bin/burrbeech
# make check      every proof and every test: .ci/run
# make install    header, libraries, burrbeech.pc, command and man page, to PREFIX; DESTDIR stands in front of every path
# make uninstall  takes away what make install put there
# make clean      removes target/ and each crate's out/
PREFIX ?= /usr/local
prefix = $(PREFIX)
bindir = $(prefix)/bin
includedir = $(prefix)/include
libdir = $(prefix)/lib
pkgconfigdir = $(libdir)/pkgconfig
mandir = $(prefix)/share/man

ifeq ($(origin CC),default)
CC = gcc
endif
CARGO ?= cargo
INSTALL ?= install

# rt compiles for x86-64 on every machine, so that the rest must too; told here, and not by a linker after the proofs.
ifeq ($(or $(filter check uninstall clean,$(MAKECMDGOALS)),$(filter x86_64,$(shell uname -m)),$(CARGO_BUILD_TARGET)),)
$(error the libraries are for x86-64, which this machine is not: first eval "$$(.ci/x86-64)", as README.md says)
endif

# The version and the entries are those of the header; its version macros stand one to a line.
header := include/burrbeech.h
number_of = $(shell sed -nE 's/^.define BURRBEECH_VERSION_$(1) ([0-9]+)$$/\1/p' $(header))
major := $(call number_of,MAJOR)
minor := $(call number_of,MINOR)
version := $(major).$(minor).$(call number_of,PATCH)
entries = $(shell sed -nE 's/^BURRBEECH_ENTRY [a-z0-9_]+ (burrbeech_[a-z_]+).*/\1/p' $(header))

# Until 1.0.0 a minor version may change the entries, so that its number is part of the shared library's name.
archive := target/lib/libburrbeech.a
plain := libburrbeech.so
soname := $(plain).$(if $(filter 0,$(major)),0.$(minor),$(major))
real := $(plain).$(version)
exported := target/lib/exported
command := target/bin/burrbeech
page := docs/burrbeech.1

# What the archive and the command are made of; folders too, so that a file that was taken away counts.
proved := $(shell find crates/*/src crates/*/specs crates/*/proofs) crates.txt .ci/toolchain
glue := $(shell find command -path command/tests -prune -o -name target -prune -o -print)

.PHONY: all check install uninstall clean
.DELETE_ON_ERROR:

all: $(archive) target/lib/$(plain) $(command)

# rt builds the crates below by itself.
$(archive): $(proved)
	cd crates/workbench_c && rt lib
	@mkdir -p $(@D)
	cp crates/workbench_c/out/libworkbench_c.a $@

# The entries and nothing else.
$(exported): $(header) Makefile
	@mkdir -p $(@D)
	printf '{ global: %s local: *; };\n' '$(entries:%=%;)' > $@

# No start-up code: the library needs none, and has no data without it.
target/lib/$(real): $(archive) $(exported)
	$(CC) -shared -nostartfiles -Wl,-soname,$(soname) -Wl,--version-script,$(exported) -Wl,-z,defs,-z,text,-z,relro,-z,now \
		-Wl,--whole-archive $(archive) -Wl,--no-whole-archive $(LDFLAGS) -o $@

# Copies here, since the gate takes no links in a checkout; what is installed has links.
target/lib/$(soname): target/lib/$(real)
	cp target/lib/$(real) $@

target/lib/$(plain): target/lib/$(soname)
	cp target/lib/$(soname) $@

$(command): $(archive) $(header) $(glue)
	$(CARGO) build --release --offline --locked --manifest-path command/Cargo.toml --target-dir target/cargo
	@mkdir -p $(@D)
	cp target/cargo/$(CARGO_BUILD_TARGET:%=%/)release/burrbeech $@

check:
	.ci/run

install: all
	$(INSTALL) -d '$(DESTDIR)$(bindir)' '$(DESTDIR)$(includedir)' '$(DESTDIR)$(libdir)' '$(DESTDIR)$(pkgconfigdir)' '$(DESTDIR)$(mandir)/man1'
	$(INSTALL) -m 644 $(header) '$(DESTDIR)$(includedir)'
	$(INSTALL) -m 644 $(archive) '$(DESTDIR)$(libdir)'
	$(INSTALL) -m 755 target/lib/$(real) '$(DESTDIR)$(libdir)'
	ln -sf $(real) '$(DESTDIR)$(libdir)/$(soname)'
	ln -sf $(soname) '$(DESTDIR)$(libdir)/$(plain)'
	sed -e 's|@prefix@|$(prefix)|' -e 's|@libdir@|$(libdir)|' -e 's|@includedir@|$(includedir)|' -e 's|@version@|$(version)|' burrbeech.pc.in \
		> '$(DESTDIR)$(pkgconfigdir)/burrbeech.pc'
	chmod 644 '$(DESTDIR)$(pkgconfigdir)/burrbeech.pc'
	$(INSTALL) -m 755 $(command) '$(DESTDIR)$(bindir)'
	$(INSTALL) -m 644 $(page) '$(DESTDIR)$(mandir)/man1'

uninstall:
	rm -f '$(DESTDIR)$(includedir)/burrbeech.h' '$(DESTDIR)$(bindir)/burrbeech' '$(DESTDIR)$(mandir)/man1/burrbeech.1'
	rm -f '$(DESTDIR)$(pkgconfigdir)/burrbeech.pc' '$(DESTDIR)$(libdir)/libburrbeech.a'
	rm -f '$(DESTDIR)$(libdir)/$(plain)' '$(DESTDIR)$(libdir)/$(soname)' '$(DESTDIR)$(libdir)/$(real)'

clean:
	rm -rf target crates/*/out
