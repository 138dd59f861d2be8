# The C library and the program, by GNU make: `make` proves and builds the library, `make check` runs every test, and `make
# install` installs both. `make install-library` takes the headers, the archive that `make` built, pramolyt.pc for pkg-config
# and the manual page; `make install-tool` builds the program pramolyt by cargo, and takes it, its manual page and its
# completion for bash. DESTDIR is put before each folder.
PREFIX ?= /usr/local
bindir ?= $(PREFIX)/bin
includedir ?= $(PREFIX)/include
libdir ?= $(PREFIX)/lib
mandir ?= $(PREFIX)/share/man
bashdir ?= $(PREFIX)/share/bash-completion/completions
CARGO ?= cargo

archive = target/staticlib/libpramolyt.a
headers = $(wildcard include/*.h)
version = $(shell sed -n 's/^.define PRAMOLYT_VERSION "\(.*\)"/\1/p' include/pramolyt.h)
include_to = $(DESTDIR)$(includedir)
lib_to = $(DESTDIR)$(libdir)
pc_to = $(lib_to)/pkgconfig
man_to = $(DESTDIR)$(mandir)
bin_to = $(DESTDIR)$(bindir)
bash_to = $(DESTDIR)$(bashdir)
installed = $(headers:include/%=$(include_to)/%) $(lib_to)/libpramolyt.a $(pc_to)/pramolyt.pc $(man_to)/man3/pramolyt.3 \
  $(bin_to)/pramolyt $(man_to)/man1/pramolyt.1 $(bash_to)/pramolyt

# under_prefix FOLDER: with the prefix as pkg-config's variable
under_prefix = $(patsubst $(PREFIX)/%,$${prefix}/%,$(1))

.PHONY: all check tool install install-library install-tool uninstall

# prove_and_build: the archive; rt proves again only what has changed
define prove_and_build
cd crates/pramolyt_c && rt lib --cpu x86-64
install -D -m 644 crates/pramolyt_c/out/libpramolyt_c.a $(archive)
endef

all:
	$(prove_and_build)

check:
	.ci/run

$(archive):
	$(prove_and_build)

tool: $(archive)
	$(CARGO) build --offline --quiet --release --manifest-path rust/Cargo.toml -p tool

install: install-library install-tool

install-library: $(archive)
	install -d $(include_to) $(lib_to) $(pc_to) $(man_to)/man3
	install -m 644 $(headers) $(include_to)
	install -m 644 $(archive) $(lib_to)
	sed -e 's|@prefix@|$(PREFIX)|' -e 's|@includedir@|$(call under_prefix,$(includedir))|' \
	  -e 's|@libdir@|$(call under_prefix,$(libdir))|' -e 's|@version@|$(version)|' pramolyt.pc.in >$(pc_to)/pramolyt.pc
	chmod 644 $(pc_to)/pramolyt.pc
	install -m 644 docs/pramolyt.3 $(man_to)/man3

install-tool: tool
	install -d $(bin_to) $(man_to)/man1 $(bash_to)
	install -m 755 rust/target/release/pramolyt $(bin_to)
	install -m 644 docs/pramolyt.1 $(man_to)/man1
	install -m 644 rust/tool/pramolyt.bash $(bash_to)/pramolyt

uninstall:
	rm -f $(installed)
