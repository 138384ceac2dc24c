# make            the programs and the library, proved and built
# make test       the gate: every proof, every edit that must fail, every program and test
# make install    library, header, programs, pkg-config and CMake files and manual pages, under PREFIX (and DESTDIR)
# make uninstall  takes them away again
# make bench      the proved library beside the second program, measured in one run
# make peers      Wireshark's reader as a third opinion
# make clean      all that was built
# make help       this

PREFIX ?= /usr/local
DESTDIR ?=
BINDIR = $(DESTDIR)$(PREFIX)/bin
LIBDIR = $(DESTDIR)$(PREFIX)/lib
INCLUDEDIR = $(DESTDIR)$(PREFIX)/include
MANDIR = $(DESTDIR)$(PREFIX)/share/man
LIBEXECDIR = $(DESTDIR)$(PREFIX)/libexec/egrynnol
SHAREDIR = $(DESTDIR)$(PREFIX)/share/egrynnol
COMPLETIONDIR = $(DESTDIR)$(PREFIX)/share/bash-completion/completions
CMAKEDIR = $(LIBDIR)/cmake/egrynnol
SONAME = libegrynnol.so.$(INTERFACE)

# the header has the versions, and nothing else does
VERSION := $(shell sed -n 's/^.define EGRYNNOL_VERSION_STRING "\(.*\)"/\1/p' include/egrynnol.h)
INTERFACE := $(shell sed -n 's/^.define EGRYNNOL_INTERFACE //p' include/egrynnol.h)

# every function of the header has a manual entry of its own name
open := (
FUNCTIONS := $(shell sed -n 's/^[A-Za-z].*\(egrynnol_[a-z_]*\)$(open).*/\1/p' include/egrynnol.h)

# the toolchain that proves and compiles this
KIT = rattle-kit-13f

# folders too: a file that is gone is seen by its folder's time; but not a crate's own folder, in which rt makes out/
SOURCES := crates.txt include/egrynnol.h crates $(shell find crates -mindepth 2 -name out -prune -o -mindepth 2 -print)
PROGRAMS = target/bin/replay target/bin/records target/bin/totals target/bin/looped
LIBRARY = target/lib/libegrynnol.a
# the shared object is linked by gcc, so only where gcc is for x86-64, as the library is
SHARED := $(if $(filter x86_64,$(shell uname -m)),target/lib/$(SONAME))
PRODUCTS = $(PROGRAMS) $(LIBRARY) $(SHARED)
# made last, without it nothing counts as built; its time is that of the beginning, so that what is edited meanwhile is newer
BUILT = target/built
BEGUN = target/begun
LOG = target/make.log

SHELL = /bin/bash
.SHELLFLAGS = -euo pipefail -c
.DELETE_ON_ERROR:
# rt has the machine's cores to itself, and two of it in one target/ would be one too many
.NOTPARALLEL:
.PHONY: all toolchain test install uninstall bench peers clean help force

all: $(BUILT)

toolchain:
	@command -v rt >/dev/null || { echo "egrynnol: Rattle's command rt is not on the PATH; $(KIT) is needed" >&2; exit 1; }
	@case "$$(rt version 2>/dev/null)" in "$(KIT)"*) ;; *) echo "egrynnol: the toolchain is '$$(rt version 2>/dev/null | head -n 1)'; $(KIT) is needed" >&2; exit 1;; esac

ifneq ($(words $(wildcard $(PRODUCTS))),$(words $(PRODUCTS)))
$(BUILT): force
endif

# rt's own lines go to the log, and a line a crate to the reader; of a crate that is not proved, all of them
$(BUILT): $(SOURCES)
	@rm -f $@
	@$(MAKE) --no-print-directory toolchain
	@mkdir -p target/lib
	@touch $(BEGUN)
	@echo "egrynnol: proving and building; the first time takes minutes; all that rt says is in $(LOG)"
	@tools/build $(notdir $(PROGRAMS)) 2>&1 | tee $(LOG) | tools/progress
ifneq ($(SHARED),)
	@printf '%s\n' '{ global: egrynnol_$(INTERFACE)_*; local: *; };' > target/lib/exports
	@gcc -shared -Wl,--whole-archive $(LIBRARY) -Wl,--no-whole-archive -Wl,-soname,$(SONAME) \
	    -Wl,--version-script,target/lib/exports -Wl,-z,defs -Wl,-z,text -o $(SHARED)
endif
	@mv $(BEGUN) $@
	@echo "egrynnol: built $(PRODUCTS)"

test: | toolchain
	bash .ci/run

install: all
	install -d $(BINDIR) $(LIBDIR)/pkgconfig $(INCLUDEDIR) $(MANDIR)/man1 $(MANDIR)/man3 $(MANDIR)/man5 $(LIBEXECDIR) $(SHAREDIR)/egrynnol_lib $(COMPLETIONDIR)
	install -m 755 target/bin/replay target/bin/records target/bin/totals $(LIBEXECDIR)
	install -m 755 tools/egrynnol $(BINDIR)/egrynnol
	install -m 644 tools/egrynnol_lib/*.py $(SHAREDIR)/egrynnol_lib
	install -m 644 tools/egrynnol.bash $(COMPLETIONDIR)/egrynnol
	install -m 644 $(LIBRARY) $(LIBDIR)/libegrynnol.a
	install -m 644 include/egrynnol.h $(INCLUDEDIR)/egrynnol.h
	install -m 644 man/egrynnol.1 $(MANDIR)/man1/egrynnol.1
	install -m 644 man/egrynnol-trace.5 $(MANDIR)/man5/egrynnol-trace.5
	install -m 644 man/egrynnol.3 $(MANDIR)/man3/egrynnol.3
	printf '%s\n' 'prefix=$(PREFIX)' 'Name: egrynnol' 'Description: Application transport of ITU-T Q.765 for signalling gateways' \
	    'Version: $(VERSION)' 'Libs: -L$${prefix}/lib -legrynnol' 'Cflags: -I$${prefix}/include' > $(LIBDIR)/pkgconfig/egrynnol.pc
	for name in $(FUNCTIONS); do echo '.so man3/egrynnol.3' > $(MANDIR)/man3/$$name.3; done
	install -d $(CMAKEDIR)
	install -m 644 cmake/egrynnolConfig.cmake $(CMAKEDIR)/egrynnolConfig.cmake
	sed 's/@VERSION@/$(VERSION)/' cmake/egrynnolConfigVersion.cmake.in > $(CMAKEDIR)/egrynnolConfigVersion.cmake
ifneq ($(SHARED),)
	install -m 755 $(SHARED) $(LIBDIR)/$(SONAME)
	ln -sf $(SONAME) $(LIBDIR)/libegrynnol.so
endif

uninstall:
	rm -f $(BINDIR)/egrynnol $(LIBDIR)/libegrynnol.a $(LIBDIR)/pkgconfig/egrynnol.pc $(INCLUDEDIR)/egrynnol.h
	rm -f $(MANDIR)/man1/egrynnol.1 $(MANDIR)/man3/egrynnol.3 $(MANDIR)/man5/egrynnol-trace.5 $(COMPLETIONDIR)/egrynnol
	rm -f $(LIBEXECDIR)/replay $(LIBEXECDIR)/records $(LIBEXECDIR)/totals $(SHAREDIR)/egrynnol_lib/*.py
	rmdir $(LIBEXECDIR) $(SHAREDIR)/egrynnol_lib $(SHAREDIR) 2>/dev/null || true
	rm -f $(FUNCTIONS:%=$(MANDIR)/man3/%.3) $(LIBDIR)/$(SONAME) $(LIBDIR)/libegrynnol.so
	rm -rf $(CMAKEDIR)

bench: all
	cargo run --release --offline --manifest-path compare/Cargo.toml --target-dir target/compare --bin bench

peers: all
	tools/peers

clean:
	rm -rf target crates/*/out

help:
	@sed -n 's/^# \(make.*\)/\1/p' Makefile
